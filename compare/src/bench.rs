//! What the program `bench` prints.

use crate::monitor::{Monitor, Question, Record};
use crate::refusal::{Answer, Fault, Refusal, number_of};
use crate::request::{Kind, Request};
use crate::script::{BadLine, Call, Policy, Script};
use crate::state::State;
use crate::tally::Tally;
use std::fmt::Display;

/// The line that tells how a start was answered.
pub fn start_line(answer: Result<(), Fault>) -> String {
    let (number, line) = answer.map_or_else(|fault| (fault.refusal.number(), fault.line), |()| (0, 0));
    format!("start={number},{line}")
}

/// A block, the text of its accepted start, and the accepted requests that gave; what is printed and counted.
struct Bench<'a, 't> {
    policy: Policy,
    monitor: Monitor,
    text: &'a [u8],
    given: Vec<Request>,
    out: Vec<u8>,
    tally: &'t mut Tally,
}

impl<'a> Bench<'a, '_> {
    fn say(&mut self, line: impl Display) {
        self.out.extend_from_slice(format!("{line}\n").as_bytes());
    }

    fn say_refusal(&mut self, refusal: Refusal) {
        self.say(format_args!("refused={}", refusal.number()));
    }

    fn say_answer(&mut self, request: &Request, answer: Answer) {
        self.tally.request(request, answer);
        self.say(format_args!("answer={}", number_of(answer)));
        if answer.is_ok() && Kind::of(request[0]).is_some_and(Kind::gives) {
            self.given.push(*request);
        }
    }

    fn start(&mut self, text: &'a [u8]) {
        let answer = self.monitor.start(&self.policy.order, &self.policy.rule, text);
        if answer.is_ok() {
            self.text = text;
        }
        self.tally.start(text, answer);
        self.say(start_line(answer));
    }

    fn request(&mut self, request: &Request) {
        let answer = self.monitor.request(&self.policy.order, &self.policy.rule, request);
        self.say_answer(request, answer);
    }

    fn list(&mut self, requests: &[Request]) {
        let mut records: Vec<Record> = requests.iter().map(|&request| Record { request, answer: Ok(()) }).collect();
        let answer = self.monitor.list(&self.policy.order, &self.policy.rule, &mut records);
        self.tally.list(answer);
        self.say(format_args!("list={}", number_of(answer)));
        if answer.is_ok() {
            for record in &records {
                self.say_answer(&record.request, record.answer);
            }
        }
    }

    fn question(&mut self, question: &Question) {
        let truth = self.monitor.question(&self.policy.order, question);
        self.tally.question(question, truth);
        match truth {
            Ok(truth) => self.say(if truth { "yes" } else { "no" }),
            Err(refusal) => self.say_refusal(refusal),
        }
    }

    fn report(&mut self, length: usize) {
        let mut buffer = vec![0; length];
        let end = self.monitor.report(&mut buffer);
        self.tally.report(end);
        match end {
            Ok(end) => {
                self.say(format_args!("report={end}"));
                self.out.extend_from_slice(&buffer[..end]);
            }
            Err(refusal) => self.say_refusal(refusal),
        }
    }

    /// Gives what was given to a fresh block of the same start: how many are accepted, and whether all that stands here stands there.
    fn replay(&mut self) {
        let Policy { order, rule } = &self.policy;
        let mut fresh = Monitor::new();
        let _ = fresh.start(order, rule, self.text);
        let accepted = self.given.iter().filter(|request| fresh.request(order, rule, request).is_ok()).count();
        let stands = match (self.monitor.state(), fresh.state()) {
            (Ok(state), Ok(fresh)) => stands_in(state, fresh),
            (state, _) => state.is_err(),
        };
        self.tally.replays += 1;
        self.say(format_args!("replay={},{accepted}", self.given.len()));
        self.say(if stands { "stands=yes" } else { "stands=no" });
    }

    fn call(&mut self, call: &Call<'a>) {
        match call {
            Call::Start(text) => self.start(text),
            Call::Request(request) => self.request(request),
            Call::List(requests) => self.list(requests),
            Call::Question(question) => self.question(question),
            Call::Report(length) => self.report(*length),
            Call::Replay => self.replay(),
        }
    }

    fn calls(&mut self, script: &mut Script<'a>) -> Result<(), BadLine> {
        while let Some(call) = script.call()? {
            self.call(&call);
        }
        Ok(())
    }
}

/// All that stands in `a` stands in `b`.
fn stands_in(a: &State, b: &State) -> bool {
    let levels = a.live.iter().all(|i| a.levels[i] == b.levels[i]);
    let held = a.sessions.iter().zip(&b.sessions).all(|(a, b)| a.held & !b.held == 0);
    let rights = a.rights.iter().flatten().zip(b.rights.iter().flatten()).all(|(a, b)| a & !b == 0);
    let accesses = a.accesses.iter().flatten().zip(b.accesses.iter().flatten()).all(|(a, b)| a & !b == 0);
    let holdings = a.contents.iter().zip(&b.contents).all(|(a, b)| b.contains_all(a));
    let flows = a.flows.iter().zip(&b.flows).all(|(a, b)| b.contains_all(a));
    let control = a.control.iter().zip(&b.control).all(|(a, b)| a & !b == 0);
    b.live.contains_all(&a.live) && levels && held && rights && accesses && holdings && flows && control
}

/// Makes the calls of a script, one after another. A line of another form ends the run.
pub fn run(input: &[u8], tally: &mut Tally) -> Vec<u8> {
    let mut script = Script::new(input);
    let policy = match script.policy() {
        Ok(policy) => policy,
        Err(BadLine(line)) => return format!("script={line}\n").into_bytes(),
    };
    let mut bench = Bench { policy, monitor: Monitor::new(), text: &[], given: Vec::new(), out: Vec::new(), tally };
    if let Err(BadLine(line)) = bench.calls(&mut script) {
        bench.say(format_args!("script={line}"));
    }
    bench.out
}
