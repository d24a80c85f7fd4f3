//! What the program `pedal` prints.

use crate::bench::start_line;
use crate::monitor::Monitor;
use crate::policy::{Ladder, Separation};
use crate::refusal::{Refusal, number_of};
use crate::script::LONGEST_BUFFER;
use crate::tally::Tally;
use crate::text::{row_of, split_text};

/// Works one block under the ladder and separation without pairs: a start text, an empty line, and lines of requests.
pub fn run(input: &[u8], tally: &mut Tally) -> Vec<u8> {
    let mut monitor = Monitor::new();
    let (text, requests) = split_text(input);
    let answer = monitor.start(&Ladder, &Separation::default(), text);
    tally.start(text, answer);
    if answer.is_err() {
        return format!("{}\n", start_line(answer)).into_bytes();
    }
    let mut out = Vec::new();
    for line in requests.split_inclusive(|&b| b == b'\n') {
        let number = answer_line(&mut monitor, line.strip_suffix(b"\n").unwrap_or(line), tally);
        out.extend_from_slice(format!("answer={number}\n").as_bytes());
    }
    let mut report = vec![0; LONGEST_BUFFER];
    let length = monitor.report(&mut report).unwrap_or(0);
    out.extend_from_slice(&report[..length]);
    out
}

/// The number that a line of the second part is answered with.
fn answer_line(monitor: &mut Monitor, line: &[u8], tally: &mut Tally) -> u32 {
    let Some(request) = row_of(line, b"request=") else {
        tally.malformed += 1;
        return Refusal::LineForm.number();
    };
    let answer = monitor.request(&Ladder, &Separation::default(), &request);
    tally.request(&request, answer);
    number_of(answer)
}
