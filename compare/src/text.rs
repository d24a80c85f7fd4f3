//! The lines of texts, and the first reading of a start text: form, order and ranges.

use crate::refusal::{Fault, Refusal};

/// The greatest length of a start text.
pub const LONGEST_TEXT: usize = 32_768;
/// The most numbers in a line of a start text.
const WIDTH: usize = 5;

/// The key of a line, in the order in which keys come.
#[derive(Clone, Copy, Debug, PartialEq, Eq, PartialOrd, Ord)]
pub enum Key {
    Root,
    Gate,
    Account,
    Role,
    Container,
    Object,
    Session,
    Right,
    Held,
    Access,
}

impl Key {
    pub const ALL: [Key; 10] = [
        Key::Root,
        Key::Gate,
        Key::Account,
        Key::Role,
        Key::Container,
        Key::Object,
        Key::Session,
        Key::Right,
        Key::Held,
        Key::Access,
    ];

    pub fn name(self) -> &'static str {
        match self {
            Key::Root => "root",
            Key::Gate => "gate",
            Key::Account => "account",
            Key::Role => "role",
            Key::Container => "container",
            Key::Object => "object",
            Key::Session => "session",
            Key::Right => "right",
            Key::Held => "held",
            Key::Access => "access",
        }
    }

    pub fn of(name: &[u8]) -> Option<Key> {
        Some(match name {
            b"root" => Key::Root,
            b"gate" => Key::Gate,
            b"account" => Key::Account,
            b"role" => Key::Role,
            b"container" => Key::Container,
            b"object" => Key::Object,
            b"session" => Key::Session,
            b"right" => Key::Right,
            b"held" => Key::Held,
            b"access" => Key::Access,
            _ => return None,
        })
    }

    /// How many numbers its lines have.
    pub fn count(self) -> usize {
        match self {
            Key::Gate => 1,
            Key::Root | Key::Held => 2,
            Key::Object | Key::Right | Key::Access => 3,
            Key::Container => 4,
            Key::Account | Key::Role | Key::Session => 5,
        }
    }
}

/// A line of a start text that passed the first reading.
#[derive(Clone, Copy, Debug, PartialEq, Eq, PartialOrd, Ord)]
pub struct Line {
    pub key: Key,
    /// Those of the key, and then zeros.
    pub numbers: [u32; WIDTH],
}

impl Line {
    /// The line of the key and its numbers.
    pub fn new(key: Key, numbers: &[u32]) -> Line {
        let mut line = Line { key, numbers: [0; WIDTH] };
        line.numbers[..key.count()].copy_from_slice(numbers);
        line
    }
}

/// The line as it stands in a text.
pub fn written(line: &Line) -> String {
    let numbers: Vec<String> = line.numbers[..line.key.count()].iter().map(u32::to_string).collect();
    format!("{}={}\n", line.key.name(), numbers.join(","))
}

/// The text of the lines.
pub fn text_of(lines: &[Line]) -> Vec<u8> {
    lines.iter().flat_map(|line| written(line).into_bytes()).collect()
}

/// A line that has the form; its numbers may still be out of range.
#[derive(PartialEq, PartialOrd)]
struct Form {
    key: Key,
    numbers: [u64; WIDTH],
}

/// A number at the front of the text, and what follows it. One beyond 64 bits counts as the greatest of 64 bits.
fn leading_number(text: &[u8]) -> Option<(u64, &[u8])> {
    let mut value = 0_u64;
    let mut length = 0;
    while let Some(digit @ b'0'..=b'9') = text.get(length) {
        value = value.saturating_mul(10).saturating_add(u64::from(digit - b'0'));
        length += 1;
    }
    let sound = length == 1 || length > 1 && text[0] != b'0';
    sound.then(|| (value, &text[length..]))
}

/// Fills a row with the numbers at the front of the text, with commas between; what follows them is left.
fn leading_row<'a>(mut text: &'a [u8], row: &mut [u64]) -> Option<&'a [u8]> {
    for (i, place) in row.iter_mut().enumerate() {
        if i > 0 {
            text = text.strip_prefix(b",")?;
        }
        (*place, text) = leading_number(text)?;
    }
    Some(text)
}

/// The numbers, all below 2^32, of a line that is this prefix and as many numbers.
pub fn row_of<const N: usize>(line: &[u8], prefix: &[u8]) -> Option<[u32; N]> {
    let list = line.strip_prefix(prefix)?;
    let mut row = [0; N];
    if !leading_row(list, &mut row)?.is_empty() || row.iter().any(|&n| n > u64::from(u32::MAX)) {
        return None;
    }
    Some(row.map(|n| n as u32))
}

/// A line at the front of the text, with its byte 10, and what follows it.
fn leading_line(text: &[u8]) -> Option<(Form, &[u8])> {
    let end = text.iter().position(|&b| b == b'=')?;
    let key = Key::of(&text[..end])?;
    let mut numbers = [0; WIDTH];
    let rest = leading_row(&text[end + 1..], &mut numbers[..key.count()])?;
    Some((Form { key, numbers }, rest.strip_prefix(b"\n")?))
}

/// The line may stand behind those read so far, the last of which is in range.
fn in_order(before: &[Line], line: &Form) -> bool {
    match before {
        [] => line.key == Key::Root,
        [_] => line.key == Key::Gate,
        [.., last] => {
            let last = Form { key: last.key, numbers: last.numbers.map(u64::from) };
            line.key > Key::Gate && *line > last
        }
    }
}

/// A session has only the right or access 8.
fn mode_fits(item: u64, mode: u64) -> bool {
    item > 63 || mode == 8
}

fn in_range(line: &Form) -> bool {
    let level = |n| n <= 65_535;
    let mark = |n| n <= 3;
    let entity = |n| (64..=255).contains(&n);
    let entity_or_none = |n| n == 0 || entity(n);
    let item = |n| (1..=255).contains(&n);
    let session = |n| (1..=63).contains(&n);
    let role = |n| n <= 31;
    let account = |n| n <= 15;
    let set = |n| n <= u64::from(u32::MAX);
    let n = &line.numbers;
    match line.key {
        Key::Root => level(n[0]) && mark(n[1]),
        Key::Gate => entity(n[0]),
        Key::Account => account(n[0]) && level(n[1]) && n[2] <= 1 && set(n[3]) && entity_or_none(n[4]),
        Key::Role => {
            let manages_fits = n[2] == 1 || n[3] == 0;
            role(n[0]) && level(n[1]) && n[2] <= 1 && set(n[3]) && manages_fits && entity_or_none(n[4])
        }
        Key::Container => entity(n[0]) && level(n[1]) && mark(n[2]) && entity(n[3]),
        Key::Object => entity(n[0]) && level(n[1]) && entity(n[2]),
        Key::Session => session(n[0]) && account(n[1]) && level(n[2]) && entity_or_none(n[3]) && n[4] <= 63,
        Key::Right => role(n[0]) && item(n[1]) && matches!(n[2], 1 | 2 | 4 | 8) && mode_fits(n[1], n[2]),
        Key::Held => session(n[0]) && role(n[1]),
        Key::Access => session(n[0]) && item(n[1]) && matches!(n[2], 1 | 2 | 8) && mode_fits(n[1], n[2]),
    }
}

/// Tries the line at the front of the text, behind those read so far.
fn read_line<'a>(before: &[Line], text: &'a [u8]) -> Result<(Line, &'a [u8]), Refusal> {
    let (line, rest) = leading_line(text).ok_or(Refusal::LineForm)?;
    if !in_order(before, &line) {
        return Err(Refusal::LineOrder);
    }
    if !in_range(&line) {
        return Err(Refusal::LineRange);
    }
    Ok((Line { key: line.key, numbers: line.numbers.map(|n| n as u32) }, rest))
}

/// The first reading: the lines of a text, if each has form, order and range.
pub fn read_lines(text: &[u8]) -> Result<Vec<Line>, Fault> {
    if text.len() > LONGEST_TEXT {
        return Err(Fault { refusal: Refusal::TextTooLong, line: 0 });
    }
    let mut lines = Vec::with_capacity(text.len() / 12);
    let mut rest = text;
    while !rest.is_empty() {
        let (line, behind) = read_line(&lines, rest).map_err(|refusal| Fault { refusal, line: lines.len() + 1 })?;
        lines.push(line);
        rest = behind;
    }
    if lines.len() < 2 {
        return Err(Fault { refusal: Refusal::LineOrder, line: lines.len() + 1 });
    }
    Ok(lines)
}

/// The start text before the first empty line or the end, and what follows that line.
pub fn split_text(input: &[u8]) -> (&[u8], &[u8]) {
    let is_empty_line = |&at: &usize| input[at] == b'\n' && (at == 0 || input[at - 1] == b'\n');
    match (0..input.len()).find(is_empty_line) {
        Some(at) => (&input[..at], &input[at + 1..]),
        None => (input, &[]),
    }
}
