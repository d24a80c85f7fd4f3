//! The scripts of the program `bench`: an order, a rule, and calls.

use crate::monitor::Question;
use crate::policy::{Badges, HouseRule, Ladder, LevelOrder, Quota, Separation};
use crate::request::Request;
use crate::text::{row_of, split_text};

/// The longest buffer of a report.
pub const LONGEST_BUFFER: usize = 1_048_576;

/// A level order and a house rule.
pub struct Policy {
    pub order: Box<dyn LevelOrder>,
    pub rule: Box<dyn HouseRule>,
}

/// A call that a script says. A report has the length of its buffer; a replay is none of the five calls.
pub enum Call<'a> {
    Start(&'a [u8]),
    Request(Request),
    List(Vec<Request>),
    Question(Question),
    Report(usize),
    Replay,
}

/// A line of the script is at fault: its number, from 1.
pub struct BadLine(pub usize);

/// What is left of a script, and the number of the line that was asked for last.
pub struct Script<'a> {
    left: &'a [u8],
    line: usize,
}

impl<'a> Script<'a> {
    pub fn new(bytes: &'a [u8]) -> Script<'a> {
        Script { left: bytes, line: 0 }
    }

    /// The order and the rule, which the first two lines say.
    pub fn policy(&mut self) -> Result<Policy, BadLine> {
        Ok(Policy { order: self.expect(order_of)?, rule: self.expect(rule_of)? })
    }

    /// The next call, or none at the end.
    pub fn call(&mut self) -> Result<Option<Call<'a>>, BadLine> {
        let Some(line) = self.line() else { return Ok(None) };
        let (name, numbers) = line.split_at(line.iter().position(|&b| b == b'=').map_or(line.len(), |at| at + 1));
        let bad = BadLine(self.line);
        let call = match name {
            b"start" => Call::Start(self.start_text()),
            b"replay" => Call::Replay,
            b"request=" => Call::Request(row_of(numbers, b"").ok_or(bad)?),
            b"list=" => {
                let [count] = row_of(numbers, b"").ok_or(bad)?;
                Call::List((0..count).map(|_| self.request()).collect::<Result<_, _>>()?)
            }
            b"question=" => Call::Question(row_of(numbers, b"").ok_or(bad)?),
            b"report=" => match row_of(numbers, b"") {
                Some([length]) if length as usize <= LONGEST_BUFFER => Call::Report(length as usize),
                _ => return Err(bad),
            },
            _ => return Err(bad),
        };
        Ok(Some(call))
    }

    /// The next line, without its byte 10.
    fn line(&mut self) -> Option<&'a [u8]> {
        self.line += 1;
        let line = self.left.split_inclusive(|&b| b == b'\n').next()?;
        self.left = &self.left[line.len()..];
        Some(line.strip_suffix(b"\n").unwrap_or(line))
    }

    /// The next line, as this reads it.
    fn expect<T>(&mut self, read: impl Fn(&'a [u8]) -> Option<T>) -> Result<T, BadLine> {
        self.line().and_then(read).ok_or(BadLine(self.line))
    }

    fn request(&mut self) -> Result<Request, BadLine> {
        self.expect(|line| row_of(line, b"request="))
    }

    fn start_text(&mut self) -> &'a [u8] {
        let (text, behind) = split_text(self.left);
        let taken = &self.left[..self.left.len() - behind.len()];
        self.line += taken.iter().filter(|&&b| b == b'\n').count();
        self.left = behind;
        text
    }
}

fn order_of(line: &[u8]) -> Option<Box<dyn LevelOrder>> {
    match line {
        b"order=ladder" => Some(Box::new(Ladder)),
        b"order=badges" => Some(Box::new(Badges)),
        _ => None,
    }
}

fn rule_of(line: &[u8]) -> Option<Box<dyn HouseRule>> {
    if line == b"rule=separation" {
        return Some(Box::new(Separation::default()));
    }
    if let Some([group, most]) = row_of(line, b"rule=quota,") {
        return Some(Box::new(Quota::new(group, most)?));
    }
    let numbers = any_row(line.strip_prefix(b"rule=separation,")?)?;
    let (pairs, []) = numbers.as_chunks() else { return None };
    let pairs: Vec<_> = pairs.iter().map(|&[a, b]| (a, b)).collect();
    Some(Box::new(Separation::new(&pairs)?))
}

/// Numbers with commas between.
fn any_row(list: &[u8]) -> Option<Vec<u32>> {
    list.split(|&b| b == b',').map(|field| row_of(field, b"").map(|[n]| n)).collect()
}
