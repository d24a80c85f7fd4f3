//! Start texts with faults.

use super::ODD;
use super::random::Random;
use crate::state::Mode;
use crate::text::{Key, LONGEST_TEXT, Line, text_of};

/// A line, taken apart at `=` and commas, and put together again.
fn with_fields(line: &[u8], change: impl FnOnce(&mut Vec<Vec<u8>>)) -> Vec<u8> {
    let body = line.strip_suffix(b"\n").unwrap_or(line);
    let (key, list) = match body.iter().position(|&b| b == b'=') {
        Some(at) => (&body[..=at], &body[at + 1..]),
        None => (body, &b""[..]),
    };
    let mut fields: Vec<Vec<u8>> = list.split(|&b| b == b',').map(<[u8]>::to_vec).collect();
    change(&mut fields);
    [key, &fields.join(&b","[..]), b"\n"].concat()
}

/// A number for a field, near the old one or odd.
fn other_number(random: &mut Random, old: &[u8]) -> Vec<u8> {
    let old = str::from_utf8(old).ok().and_then(|old| old.parse::<u64>().ok()).unwrap_or(0);
    let near = [old.wrapping_sub(1), old.wrapping_add(1), old.wrapping_mul(2), old ^ 1 << random.below(16)];
    let new = match random.below(9) {
        0 => "100000000000000000000000000".to_string(),
        1 => ((1 << 64) + u128::from(old)).to_string(),
        2 => ((1 << 32) + u128::from(old)).to_string(),
        3 => format!("0{old}"),
        4 => random.pick(&ODD).to_string(),
        _ => random.pick(&near).to_string(),
    };
    new.into_bytes()
}

fn change_number(random: &mut Random, line: &[u8]) -> Vec<u8> {
    with_fields(line, |fields| {
        let at = random.below(fields.len());
        fields[at] = other_number(random, &fields[at]);
    })
}

fn change_count(random: &mut Random, line: &[u8]) -> Vec<u8> {
    with_fields(line, |fields| match random.below(2) {
        0 => fields.push(b"0".to_vec()),
        _ => drop(fields.pop()),
    })
}

fn change_key(random: &mut Random, line: &[u8]) -> Vec<u8> {
    let at = line.iter().position(|&b| b == b'=').unwrap_or(0);
    [random.pick(&Key::ALL).name().as_bytes(), &line[at..]].concat()
}

fn change_bytes(random: &mut Random, line: &[u8]) -> Vec<u8> {
    let at = random.below(line.len());
    let skipped = random.below(2);
    let new: &[u8] = random.pick(&[b"", b"0", b" ", b",", b"=", b"\r", b"-", b"+", b"x", b"\xff", b"\0", b"\n"]);
    [&line[..at], new, &line[at + skipped..]].concat()
}

/// One fault, or something like one, in lines that each end in byte 10.
fn damage(random: &mut Random, lines: &mut Vec<Vec<u8>>) {
    if lines.is_empty() {
        return;
    }
    let i = random.below(lines.len());
    let j = random.below(lines.len());
    match random.below(14) {
        0 => drop(lines.remove(i)),
        1 => lines.swap(i, j),
        2 => lines.insert(i, lines[i].clone()),
        3 => lines.insert(i, lines[j].clone()),
        4 => lines[i] = change_count(random, &lines[i]),
        5 => lines[i] = change_key(random, &lines[i]),
        6 | 7 => lines[i] = change_bytes(random, &lines[i]),
        8 => lines.truncate(random.below(4)),
        9 => lines.truncate(i),
        _ => lines[i] = change_number(random, &lines[i]),
    }
}

/// The text with a fault or some, most often. Its last line may not end in byte 10, and it may have empty lines.
pub fn damaged(random: &mut Random, lines: &[Line]) -> Vec<u8> {
    let mut lines: Vec<Vec<u8>> = lines.iter().map(|line| text_of(&[*line])).collect();
    for _ in 0..random.pick(&[1, 1, 1, 2, 3]) {
        damage(random, &mut lines);
        lines.retain(|line| !line.is_empty());
    }
    let mut text = lines.concat();
    if random.percent(5) {
        text.pop();
    }
    text
}

/// The text and more bytes, up to the greatest length or a little further.
pub fn lengthened(random: &mut Random, lines: &[Line]) -> Vec<u8> {
    let mut text = text_of(lines);
    let length = LONGEST_TEXT + random.pick(&[0, 0, 1, 2, 300]);
    let last = text.split_inclusive(|&b| b == b'\n').next_back().unwrap_or(b"x\n").to_vec();
    text.extend(last.iter().cycle().take(length.saturating_sub(text.len())));
    if let Some(end) = text.last_mut() {
        *end = b'\n';
    }
    text
}

/// Another number for a place of a line, in range but perhaps undefined, unknown or too high.
fn bent_number(random: &mut Random, line: &Line, at: usize) -> u32 {
    let entity = |random: &mut Random| random.between(64, 80) as u32;
    let entity_or_none = |random: &mut Random| if random.percent(20) { 0 } else { random.between(64, 80) as u32 };
    let level = |random: &mut Random| random.pick(&[0, 1, 3, 5, 7, 14, 15, 16, 85, 170, 255, 256, 65_535]);
    let below = |random: &mut Random, n| random.below(n) as u32;
    let item = |random: &mut Random| random.pick(&[1, 2, 3, 4, 5, 63, 64, 65, 66, 67, 70, 75, 80, 255]);
    match (line.key, at) {
        (Key::Root, 0) | (Key::Account | Key::Role | Key::Container | Key::Object, 1) | (Key::Session, 2) => {
            level(random)
        }
        (Key::Account | Key::Role, 3) => line.numbers[at] ^ 1 << random.below(32),
        (Key::Account | Key::Role, 2) => below(random, 2),
        (Key::Account | Key::Role, 4) | (Key::Session, 3) => entity_or_none(random),
        (Key::Root, _) | (Key::Container, 2) => below(random, 4),
        (Key::Gate | Key::Container | Key::Object, _) => entity(random),
        (Key::Account, _) | (Key::Session, 1) => below(random, 16),
        (Key::Role, _) | (Key::Right, 0) | (Key::Held, 1) => below(random, 32),
        (Key::Session, 4) => below(random, 10),
        (Key::Session | Key::Held | Key::Access, 0) => 1 + below(random, 10),
        (Key::Right | Key::Access, 1) => item(random),
        (Key::Right, _) => random.pick(&[1, 2, 4, 8]),
        _ => random.pick(&[1, 2, 8]),
    }
}

/// Keeps a changed line in range.
fn mend(line: &mut Line) {
    let n = &mut line.numbers;
    if line.key == Key::Role && n[2] == 0 {
        n[3] = 0;
    }
    if matches!(line.key, Key::Right | Key::Access) && n[1] <= 63 {
        n[2] = Mode::Own.number();
    }
}

/// Another number in one line; often one that another line of the key has.
fn bend(random: &mut Random, lines: &mut [Line]) {
    let key = random.pick(&Key::ALL);
    let places: Vec<usize> = (0..lines.len()).filter(|&i| lines[i].key == key).collect();
    let Some(&i) = places.get(random.below(places.len().max(1))) else { return };
    let at = random.below(key.count());
    lines[i].numbers[at] =
        if random.percent(40) { lines[random.pick(&places)].numbers[at] } else { bent_number(random, &lines[i], at) };
    mend(&mut lines[i]);
}

/// No role may execute one of the containers any more.
fn shut(random: &mut Random, lines: &mut Vec<Line>) {
    let is_door = |line: &&Line| line.key == Key::Right && line.numbers[2] == Mode::Execute.number();
    let doors: Vec<u32> = lines.iter().filter(is_door).map(|line| line.numbers[1]).collect();
    let door = random.pick_or(&doors, 64);
    lines.retain(|line| !is_door(&line) || line.numbers[1] != door);
}

/// The text with some changes that the first reading passes: the second decides.
pub fn bent(random: &mut Random, lines: &[Line]) -> Vec<u8> {
    let mut lines = lines.to_vec();
    for _ in 0..random.pick(&[1, 1, 2, 4]) {
        match random.below(6) {
            0 => shut(random, &mut lines),
            1 if lines.len() > 3 => drop(lines.remove(random.between(2, lines.len() - 1))),
            _ => bend(random, &mut lines),
        }
    }
    lines.sort_unstable();
    lines.dedup();
    text_of(&lines)
}
