//! The five calls.

use crate::form::{ITEM, ROLE, SESSION, Use, formed};
use crate::policy::{HouseRule, LevelOrder};
use crate::refusal::{Answer, Fault, Refusal, need};
use crate::request::Request;
use crate::sets::{SESSIONS, SessionSet, bits};
use crate::start;
use crate::state::{Mode, State};

/// The most records of a list.
const LONGEST_LIST: usize = 1_024;

/// The four numbers q, a, b and m.
pub type Question = [u32; 4];

/// A request of a list, with the place for its answer.
#[derive(Clone, Copy)]
pub struct Record {
    pub request: Request,
    pub answer: Answer,
}

/// A block: without state, and so blank, until a start is accepted.
#[derive(Clone, Default)]
pub struct Monitor {
    state: Option<Box<State>>,
}

impl Monitor {
    /// A blank block.
    pub fn new() -> Monitor {
        Monitor::default()
    }

    /// What a started block keeps.
    pub fn state(&self) -> Result<&State, Refusal> {
        self.state.as_deref().ok_or(Refusal::Blank)
    }

    pub fn start<O: LevelOrder, R: HouseRule>(&mut self, order: &O, rule: &R, text: &[u8]) -> Result<(), Fault> {
        if self.state.is_some() {
            return Err(Fault { refusal: Refusal::Started, line: 0 });
        }
        self.state = Some(start::read(order, rule, text)?);
        Ok(())
    }

    pub fn request<O: LevelOrder, R: HouseRule>(&mut self, order: &O, rule: &R, request: &Request) -> Answer {
        let state = self.state.as_deref_mut().ok_or(Refusal::Blank)?;
        let asked = state.try_request(order, rule, request)?;
        state.grant_request(&asked);
        Ok(())
    }

    pub fn list<O: LevelOrder, R: HouseRule>(&mut self, order: &O, rule: &R, records: &mut [Record]) -> Answer {
        self.state()?;
        need(records.len() <= LONGEST_LIST, Refusal::ListTooLong)?;
        for record in records {
            record.answer = self.request(order, rule, &record.request);
        }
        Ok(())
    }

    pub fn question<O: LevelOrder>(&self, order: &O, &[q, a, b, m]: &Question) -> Result<bool, Refusal> {
        let state = self.state()?;
        let uses = question_uses(q).ok_or(Refusal::Form)?;
        formed(uses, &[a, b, m], b)?;
        let (a, b, mode) = (a as usize, b as usize, Mode::of(m));
        Ok(match q {
            1 => state.has_right(a, b, mode),
            2 => state.holds_role(a, b),
            3 => state.has_access(a, b, mode),
            4 => state.flows[a].has(b),
            5 => state.controls(a, b),
            _ => state.reaches(order, a, b),
        })
    }

    /// Writes the report to the front of the buffer, and tells its length.
    pub fn report(&self, buffer: &mut [u8]) -> Result<usize, Refusal> {
        let state = self.state()?;
        let length = report_length(state);
        let report = buffer.get_mut(..length).ok_or(Refusal::BufferTooShort)?;
        let mut end = 0;
        for s in 1..SESSIONS {
            for t in bits(others(state, s)) {
                end = put(report, end, *b"control=");
                end = put_number(report, end, s);
                end = put(report, end, *b",");
                end = put_number(report, end, t);
                end = put(report, end, *b"\n");
            }
        }
        Ok(length)
    }
}

/// How a question uses a, b and m.
fn question_uses(q: u32) -> Option<&'static [Use; 3]> {
    Some(match q {
        1 => &[ROLE, ITEM, Use::Right],
        2 => &[SESSION, ROLE, Use::Not],
        3 => &[SESSION, ITEM, Use::Access],
        4 => &[ITEM, ITEM, Use::Not],
        5 => &[SESSION, SESSION, Use::Not],
        6 => &[SESSION, ITEM, Use::Not],
        _ => return None,
    })
}

/// The sessions other than itself that the session controls.
fn others(state: &State, session: usize) -> SessionSet {
    state.control[session] & !(1 << session)
}

/// The length of the report: of each line, that of `control=s,t` with its byte 10.
fn report_length(state: &State) -> usize {
    const LONG: SessionSet = !0 << 10;
    let lines = |s: usize| {
        let row = others(state, s);
        let count = |set: SessionSet| set.count_ones() as usize;
        count(row) * ("control=s,t\n".len() + usize::from(s >= 10)) + count(row & LONG)
    };
    (1..SESSIONS).map(lines).sum()
}

/// Writes the bytes there, and tells where they end.
fn put<const N: usize>(buffer: &mut [u8], at: usize, bytes: [u8; N]) -> usize {
    buffer[at..at + N].copy_from_slice(&bytes);
    at + N
}

/// Writes the digits of a number below 100 there, and tells where they end.
fn put_number(buffer: &mut [u8], at: usize, n: usize) -> usize {
    let (tens, ones) = (b'0' + (n / 10) as u8, b'0' + (n % 10) as u8);
    if n < 10 { put(buffer, at, [ones]) } else { put(buffer, at, [tens, ones]) }
}
