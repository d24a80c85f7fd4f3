//! Checks that both monitors tell the same for random calls. What they write into is compared whole.

use crate::measure::{Reply, Side};
use peer::draw::{Random, script};
use peer::script::{Call, Script};

/// The scripts of a check, and the calls of each.
const SCRIPTS: u64 = 600;
const CALLS: usize = 400;
/// How many differences are shown.
const SHOWN: u64 = 6;
/// The longest buffer that a report gets.
const LONGEST: usize = 65_536;

/// What a call told and wrote.
#[derive(PartialEq, Debug)]
struct Outcome {
    reply: Reply,
    written: Vec<u8>,
}

fn outcome(side: &mut impl Side, call: &Call) -> Option<Outcome> {
    let mut written = Vec::new();
    let reply = match call {
        Call::Start(text) => side.start(text),
        Call::Request(request) => side.request(request),
        Call::List(requests) => {
            written = vec![u8::MAX; requests.len()];
            side.list(requests, &mut written)
        }
        Call::Question(question) => side.question(question),
        Call::Report(length) => {
            written = vec![u8::MAX; *length.min(&LONGEST)];
            side.report(&mut written)
        }
        Call::Replay => return None,
    };
    Some(Outcome { reply, written })
}

fn name(call: &Call) -> String {
    match call {
        Call::Start(text) => format!("start with {} bytes", text.len()),
        Call::Request(request) => format!("request {request:?}"),
        Call::List(requests) => format!("list of {}", requests.len()),
        Call::Question(question) => format!("question {question:?}"),
        Call::Report(length) => format!("report into {length}"),
        Call::Replay => "replay".into(),
    }
}

/// The text with a byte changed, more or less; byte 10 often.
fn spoilt(random: &mut Random, text: &[u8]) -> Vec<u8> {
    let at = random.below(text.len() + 1);
    let behind = (at + random.below(2)).min(text.len());
    let any = [random.word() as u8];
    let new: &[u8] = random.pick(&[&b""[..], b"\n", b"\n", b"\n\n", &any]);
    [&text[..at], new, &text[behind..]].concat()
}

/// Both monitors, blank and as the calls left them, and what was counted.
struct Check<'a, A, B> {
    blanks: (&'a A, &'a B),
    sides: Box<(A, B)>,
    calls: u64,
    differences: u64,
}

impl<A: Side + Clone, B: Side + Clone> Check<'_, A, B> {
    fn call(&mut self, call: &Call) {
        let (first, second) = &mut *self.sides;
        let (first, second) = (outcome(first, call), outcome(second, call));
        self.calls += 1;
        if first != second {
            self.differences += 1;
            if self.differences > SHOWN {
                return;
            }
            println!("{}:\n  proved {}\n  peer   {}", name(call), shown(first), shown(second));
        }
    }

    fn renew(&mut self) {
        *self.sides = (self.blanks.0.clone(), self.blanks.1.clone());
    }

    /// Starts with this text and spoilt ones on blank monitors.
    fn starts(&mut self, random: &mut Random, text: &[u8]) {
        for _ in 0..10 {
            self.renew();
            self.call(&Call::Start(&spoilt(random, text)));
        }
    }

    fn script(&mut self, random: &mut Random, script: &mut Script) {
        self.renew();
        for count in [0, 1, 1_024, 1_025] {
            self.call(&Call::List(vec![[0; 8]; count]));
        }
        let mut last_text: &[u8] = &[];
        while let Ok(Some(call)) = script.call() {
            self.call(&call);
            if let Call::Start(text) = call {
                last_text = text;
            }
        }
        self.starts(random, last_text);
    }
}

fn shown(outcome: Option<Outcome>) -> String {
    let Some(Outcome { reply, mut written }) = outcome else { return "nothing".into() };
    written.truncate(8);
    format!("{reply:?}, first bytes {written:?}")
}

/// Makes random calls on both monitors; tells how many, and for how many they told or wrote something else.
pub fn check<A: Side + Clone, B: Side + Clone>(blanks: (&A, &B)) -> (u64, u64) {
    let sides = Box::new((blanks.0.clone(), blanks.1.clone()));
    let mut check = Check { blanks, sides, calls: 0, differences: 0 };
    for number in 0..SCRIPTS {
        let bytes = script(Random::new(1, number), CALLS);
        let mut script = Script::new(&bytes);
        if bytes.starts_with(b"order=ladder") && script.policy().is_ok() {
            check.script(&mut Random::new(2, number), &mut script);
        }
    }
    (check.calls, check.differences)
}
