//! Times calls on both monitors.

use peer::monitor::{Monitor, Question, Record};
use peer::policy::{Ladder, Separation};
use peer::refusal::{Refusal, number_of};
use peer::request::Request;
use std::time::{Duration, Instant};

/// What a call tells: the number of the answer, 0 if accepted, and a value, which is the line of a refused start, 1 for yes and 0 for
/// no, or the length of a report.
#[derive(Clone, Copy, Debug, PartialEq, Eq)]
#[repr(C)]
pub struct Reply {
    pub number: u32,
    pub value: usize,
}

impl Reply {
    fn of(answer: Result<usize, Refusal>) -> Reply {
        match answer {
            Ok(value) => Reply { number: 0, value },
            Err(refusal) => Reply { number: refusal.number(), value: 0 },
        }
    }
}

/// One of the monitors, under the ladder and separation without pairs.
pub trait Side {
    fn start(&mut self, text: &[u8]) -> Reply;
    fn request(&mut self, request: &Request) -> Reply;
    /// The answers are told in as many places.
    fn list(&mut self, requests: &[Request], answers: &mut [u8]) -> Reply;
    fn question(&self, question: &Question) -> Reply;
    fn report(&self, buffer: &mut [u8]) -> Reply;
}

/// The peer, with its rule.
#[derive(Clone, Default)]
pub struct Peer {
    monitor: Monitor,
    rule: Separation,
}

impl Side for Peer {
    #[inline(never)]
    fn start(&mut self, text: &[u8]) -> Reply {
        match self.monitor.start(&Ladder, &self.rule, text) {
            Ok(()) => Reply { number: 0, value: 0 },
            Err(fault) => Reply { number: fault.refusal.number(), value: fault.line },
        }
    }

    #[inline(never)]
    fn request(&mut self, request: &Request) -> Reply {
        Reply::of(self.monitor.request(&Ladder, &self.rule, request).map(|()| 0))
    }

    #[inline(never)]
    fn list(&mut self, requests: &[Request], answers: &mut [u8]) -> Reply {
        let mut records: Vec<Record> = requests.iter().map(|&request| Record { request, answer: Ok(()) }).collect();
        let answer = self.monitor.list(&Ladder, &self.rule, &mut records);
        if answer.is_ok() {
            for (place, record) in answers.iter_mut().zip(&records) {
                *place = number_of(record.answer) as u8;
            }
        }
        Reply::of(answer.map(|()| 0))
    }

    #[inline(never)]
    fn question(&self, question: &Question) -> Reply {
        Reply::of(self.monitor.question(&Ladder, question).map(usize::from))
    }

    #[inline(never)]
    fn report(&self, buffer: &mut [u8]) -> Reply {
        Reply::of(self.monitor.report(buffer))
    }
}

/// The state of a block before the calls: a start text, and requests that are accepted after it. Without text it is blank.
#[derive(Clone, Default)]
pub struct Setup {
    pub text: Vec<u8>,
    pub requests: Vec<Request>,
}

impl Setup {
    fn set_up(&self, side: &mut impl Side) {
        if !self.text.is_empty() {
            assert_eq!(side.start(&self.text).number, 0, "the start of a setup is accepted");
        }
        for request in &self.requests {
            assert_eq!(side.request(request).number, 0, "the request {request:?} of a setup is accepted");
        }
    }
}

/// Calls that are timed together.
pub enum Calls {
    Start(Vec<u8>),
    Requests(Vec<Request>),
    List(Vec<Request>),
    Questions(Vec<Question>),
    Report,
}

pub struct Case {
    pub name: String,
    pub setup: Setup,
    pub calls: Calls,
    /// What each call is answered, where all are answered alike.
    pub answer: Option<u32>,
}

impl Case {
    /// By how many the time is divided.
    fn count(&self) -> u32 {
        match &self.calls {
            Calls::Requests(requests) => requests.len() as u32,
            Calls::Questions(questions) => questions.len() as u32,
            Calls::Start(_) | Calls::List(_) | Calls::Report => 1,
        }
    }
}

/// Places for what calls tell.
struct Told {
    replies: Vec<Reply>,
    answers: Vec<u8>,
    buffer: Vec<u8>,
}

impl Told {
    fn new() -> Told {
        Told { replies: Vec::with_capacity(1_024), answers: vec![0; 1_024], buffer: vec![0; 65_536] }
    }
}

/// Makes the calls.
fn make(side: &mut impl Side, calls: &Calls, told: &mut Told) {
    told.replies.clear();
    match calls {
        Calls::Start(text) => told.replies.push(side.start(text)),
        Calls::Requests(requests) => told.replies.extend(requests.iter().map(|request| side.request(request))),
        Calls::List(requests) => told.replies.push(side.list(requests, &mut told.answers[..requests.len()])),
        Calls::Questions(questions) => told.replies.extend(questions.iter().map(|q| side.question(q))),
        Calls::Report => told.replies.push(side.report(&mut told.buffer)),
    }
}

/// Times of one call.
#[derive(Clone, Copy)]
pub struct Times {
    pub median: f64,
    pub least: f64,
}

fn times(mut samples: Vec<f64>) -> Times {
    samples.sort_by(f64::total_cmp);
    Times { median: samples[samples.len() / 2], least: samples[0] }
}

/// A monitor in the state before the calls, and a working copy.
struct Bench<S> {
    before: S,
    work: S,
    told: Told,
    samples: Vec<f64>,
}

impl<S: Side + Clone> Bench<S> {
    fn new(blank: &S, setup: &Setup) -> Box<Bench<S>> {
        let mut before = blank.clone();
        setup.set_up(&mut before);
        Box::new(Bench { work: before.clone(), before, told: Told::new(), samples: Vec::new() })
    }

    /// Puts the state back, which is not timed, and times the calls.
    fn sample(&mut self, case: &Case) -> Duration {
        self.work.clone_from(&self.before);
        let begin = Instant::now();
        make(&mut self.work, &case.calls, &mut self.told);
        let time = begin.elapsed();
        self.samples.push(time.as_nanos() as f64 / f64::from(case.count()));
        time
    }

    /// All that can be told apart after the calls: what they told, the report, and all flows.
    fn seen(&self) -> (&[Reply], &[u8], Vec<u8>, Vec<Reply>) {
        let mut report = vec![0; 65_536];
        let length = self.work.report(&mut report).value;
        report.truncate(length);
        let items = || 1..=255;
        let flows = items().flat_map(|a| items().map(move |b| [4, a, b, 0])).map(|q| self.work.question(&q)).collect();
        (&self.told.replies, &self.told.answers, report, flows)
    }
}

/// How long the measuring of a case takes, and the least and most samples of each side.
const TIME: Duration = Duration::from_millis(600);
const LEAST: usize = 31;
const MOST: usize = 4_000;

/// Times a case on both sides in turn, and checks that they answer alike.
pub fn measure<A: Side + Clone, B: Side + Clone>(case: &Case, blanks: (&A, &B)) -> (Times, Times) {
    let mut first = Bench::new(blanks.0, &case.setup);
    let mut second = Bench::new(blanks.1, &case.setup);
    // Both are warm after this.
    for _ in 0..3 {
        first.sample(case);
        second.sample(case);
    }
    assert!(first.seen() == second.seen(), "{}: the sides differ", case.name);
    if let Some(answer) = case.answer {
        assert!(first.told.replies.iter().all(|reply| reply.number == answer), "{}: another answer", case.name);
    }
    first.samples.clear();
    second.samples.clear();
    let mut spent = Duration::ZERO;
    while first.samples.len() < LEAST || spent < TIME && first.samples.len() < MOST {
        spent += first.sample(case) + second.sample(case);
    }
    (times(first.samples), times(second.samples))
}
