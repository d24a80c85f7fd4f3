//! Counts of calls and their answers.

use crate::monitor::Question;
use crate::refusal::{Answer, Fault, Refusal, number_of};
use crate::request::{Kind, Request};
use crate::text::Key;
use std::collections::BTreeMap;

/// How often each number was answered.
type Answers = BTreeMap<u32, u64>;

/// How often each sort of call was made, and how it was answered.
#[derive(Default)]
pub struct Tally {
    pub starts: Answers,
    /// By the key of the line at fault.
    pub lines: BTreeMap<Key, Answers>,
    /// By k; 0 stands for no kind.
    pub requests: BTreeMap<u32, Answers>,
    pub lists: Answers,
    /// By q; 0 stands for no question. The answers are 0 for no, 1 for yes and 256 and more for refused.
    pub questions: BTreeMap<u32, Answers>,
    pub reports: Answers,
    pub replays: u64,
    /// Lines of `pedal` that are no requests.
    pub malformed: u64,
}

fn sum(answers: &Answers) -> u64 {
    answers.values().sum()
}

/// The key of a line of a text, counted from 1.
fn key_at(text: &[u8], line: usize) -> Option<Key> {
    let line = text.split(|&b| b == b'\n').nth(line.checked_sub(1)?)?;
    Key::of(line.split(|&b| b == b'=').next()?)
}

impl Tally {
    pub fn start(&mut self, text: &[u8], answer: Result<(), Fault>) {
        let number = number_of(answer.map_err(|fault| fault.refusal));
        *self.starts.entry(number).or_default() += 1;
        if let Some(key) = answer.err().and_then(|fault| key_at(text, fault.line)) {
            *self.lines.entry(key).or_default().entry(number).or_default() += 1;
        }
    }

    pub fn request(&mut self, request: &Request, answer: Answer) {
        let kind = Kind::of(request[0]).map_or(0, |kind| kind as u32);
        *self.requests.entry(kind).or_default().entry(number_of(answer)).or_default() += 1;
    }

    pub fn list(&mut self, answer: Answer) {
        *self.lists.entry(number_of(answer)).or_default() += 1;
    }

    pub fn question(&mut self, question: &Question, truth: Result<bool, Refusal>) {
        let sort = if (1..=6).contains(&question[0]) { question[0] } else { 0 };
        let answer = truth.map_or_else(|refusal| 256 + refusal.number(), u32::from);
        *self.questions.entry(sort).or_default().entry(answer).or_default() += 1;
    }

    pub fn report(&mut self, end: Result<usize, Refusal>) {
        *self.reports.entry(number_of(end.map(|_| ()))).or_default() += 1;
    }

    /// All calls, those of lists' records and of lines that are no requests included.
    pub fn calls(&self) -> u64 {
        let requests: u64 = self.requests.values().map(sum).sum();
        let questions: u64 = self.questions.values().map(sum).sum();
        sum(&self.starts) + requests + sum(&self.lists) + questions + sum(&self.reports) + self.replays + self.malformed
    }

    /// What was counted, as lines of text.
    pub fn summary(&self) -> String {
        let mut out = String::new();
        let mut line = |name: &str, answers: &Answers| {
            let refused = sum(answers) - answers.get(&0).unwrap_or(&0);
            out += &format!(
                "{name:<12}{:>9} accepted {refused:>9} refused:{}\n",
                answers.get(&0).unwrap_or(&0),
                listed(answers)
            );
        };
        line("start", &self.starts);
        for (&k, answers) in &self.requests {
            line(kind_name(k), answers);
        }
        line("list", &self.lists);
        line("report", &self.reports);
        for (q, answers) in &self.questions {
            let count = |n| answers.get(&n).unwrap_or(&0);
            let refused = answers.iter().filter(|(n, _)| **n >= 256).map(|(n, count)| (n - 256, *count)).collect();
            out += &format!("question {q}  {:>9} yes {:>9} no; refused:{}\n", count(1), count(0), listed(&refused));
        }
        out += &format!("replay      {:>9}\nno request  {:>9}\n", self.replays, self.malformed);
        out
    }

    /// The answers that RULES.md leaves possible and that were not met, each with its call.
    pub fn missing(&self) -> Vec<String> {
        let mut missing = Vec::new();
        let mut expect = |name: &str, met: Option<&Answers>, answers: &[u32]| {
            let lacks = |n: &&u32| !met.is_some_and(|met| met.contains_key(n));
            missing.extend(answers.iter().filter(lacks).map(|n| format!("{name} {n}")));
        };
        expect("start", Some(&self.starts), &[0, 2, 10, 11, 12, 13, 14, 15, 16, 17, 18]);
        for key in Key::ALL {
            expect(&format!("start line {}", key.name()), self.lines.get(&key), line_answers(key));
        }
        expect("no kind", self.requests.get(&0), &[1, 20]);
        for kind in Kind::ALL {
            let k = kind as u32;
            expect(kind_name(k), self.requests.get(&k), &[&[0, 1, 21, 30], kind_answers(kind)].concat());
            // A container uses all numbers.
            if kind != Kind::Container {
                expect(kind_name(k), self.requests.get(&k), &[20]);
            }
        }
        expect("list", Some(&self.lists), &[0, 1, 3]);
        expect("report", Some(&self.reports), &[0, 1, 4]);
        expect("question 0", self.questions.get(&0), &[257, 276]);
        for q in [1, 2, 3, 4, 5, 6] {
            let form: &[u32] = if matches!(q, 1 | 3) { &[] } else { &[276] };
            expect(&format!("question {q}"), self.questions.get(&q), &[&[0, 1, 257, 277], form].concat());
        }
        missing
    }
}

/// The numbers and how often each was answered, without 0.
fn listed(answers: &Answers) -> String {
    answers.iter().filter(|(n, _)| **n != 0).map(|(n, count)| format!(" {n}:{count}")).collect()
}

fn kind_name(k: u32) -> &'static str {
    match Kind::of(k) {
        None => "no kind",
        Some(Kind::Take) => "take",
        Some(Kind::Drop) => "drop",
        Some(Kind::Grant) => "grant",
        Some(Kind::Revoke) => "revoke",
        Some(Kind::Object) => "object",
        Some(Kind::Container) => "container",
        Some(Kind::Link) => "link",
        Some(Kind::Unlink) => "unlink",
        Some(Kind::Delete) => "delete",
        Some(Kind::Open) => "open",
        Some(Kind::Close) => "close",
        Some(Kind::Gain) => "gain",
        Some(Kind::GiveUp) => "give up",
    }
}

/// The refusals of a kind besides those that all kinds share. Close has a need 50 too, but never fails it: own access is only ever
/// had to what is at or below the session that has it.
pub fn kind_answers(kind: Kind) -> &'static [u32] {
    match kind {
        Kind::Take => &[40, 41, 50, 51, 60],
        Kind::Drop => &[40, 41, 51],
        Kind::Grant | Kind::Revoke => &[31, 40, 42, 50, 51],
        Kind::Object | Kind::Container => &[22, 31, 32, 40, 42, 50, 51],
        Kind::Link => &[31, 33, 42, 50, 51],
        Kind::Unlink | Kind::Delete => &[31, 33, 34, 35, 42, 51],
        Kind::Open => &[22, 31, 32, 40, 42, 43, 50, 51],
        Kind::Close => &[31, 42, 51],
        Kind::Gain => &[31, 42, 43, 51],
        Kind::GiveUp => &[31, 42],
    }
}

/// The refusals that a line of a start text can meet once it has the form.
fn line_answers(key: Key) -> &'static [u32] {
    match key {
        Key::Root => &[12, 13, 15],
        Key::Gate => &[12, 13, 14, 16],
        Key::Role => &[12, 13, 14, 15],
        Key::Account | Key::Container | Key::Object | Key::Session => &[12, 13, 14, 15, 16],
        Key::Right => &[12, 13, 14, 16],
        Key::Held => &[12, 13, 14, 16, 18],
        Key::Access => &[12, 13, 14, 16, 17],
    }
}
