//! The blocks that calls are timed on.

use crate::measure::Setup;
use peer::draw::Random;
use peer::request::{Kind, Request};
use peer::text::{Key, LONGEST_TEXT, Line, text_of, written};
use std::collections::BTreeSet;

pub const ROOT: u32 = 64;
pub const GATE: u32 = 65;
/// The first number of the entities that blocks differ in.
pub const FIRST: u32 = 66;
/// The guarded session at the top that has write access to the gate.
pub const HOST: u32 = 63;

/// Lines of a text, in their order.
#[derive(Default)]
struct Lines {
    lines: BTreeSet<Line>,
    length: usize,
}

impl Lines {
    /// Adds the line, unless it is there or the text would get too long.
    fn add<const N: usize>(&mut self, key: Key, numbers: [u32; N]) {
        let line = Line::new(key, &numbers);
        let length = self.length + written(&line).len();
        if length <= LONGEST_TEXT && self.lines.insert(line) {
            self.length = length;
        }
    }

    fn text(self) -> Vec<u8> {
        text_of(&self.lines.into_iter().collect::<Vec<_>>())
    }

    /// The root, the gate, a guarded account 0 with the host, and the administrative role 31 over the roles 0 to 30.
    fn with_host() -> Lines {
        let mut lines = Lines::default();
        lines.add(Key::Root, [15, 0]);
        lines.add(Key::Gate, [GATE]);
        lines.add(Key::Account, [0, 15, 1, u32::MAX, 0]);
        lines.add(Key::Object, [GATE, 15, ROOT]);
        lines.add(Key::Role, [31, 15, 1, u32::MAX >> 1, 0]);
        for role in 0..31 {
            lines.add(Key::Role, [role, 5, 0, 0, 0]);
        }
        lines.add(Key::Session, [HOST, 0, 15, 0, 0]);
        lines.add(Key::Held, [HOST, 0]);
        lines.add(Key::Held, [HOST, 31]);
        lines.add(Key::Right, [0, ROOT, 4]);
        lines.add(Key::Right, [31, GATE, 2]);
        lines.add(Key::Access, [HOST, GATE, 2]);
        lines
    }
}

/// A request of the kind by the host, who vouches too.
pub fn by_host(kind: Kind, [r, y, z, l, m]: [u32; 5]) -> Request {
    [kind as u32, HOST, HOST, r, y, z, l, m]
}

/// The small text of RULES.md.
pub fn worked() -> Vec<u8> {
    b"root=15,0\ngate=65\naccount=0,15,1,3,0\naccount=1,3,0,4,0\nrole=0,15,0,0,0\nrole=1,15,1,5,0\nrole=2,3,0,0,0\n\
      container=66,3,0,64\nobject=65,15,64\nobject=67,3,66\nsession=1,0,15,67,0\nsession=2,1,3,67,0\n\
      right=0,64,4\nright=2,64,4\nright=2,66,4\nright=2,67,2\nheld=1,0\nheld=1,1\nheld=2,2\naccess=1,65,2\n"
        .to_vec()
}

/// The two containers of the workshop, and its objects.
pub const HERE: u32 = FIRST;
pub const THERE: u32 = FIRST + 1;
pub const OBJECTS: std::ops::RangeInclusive<u32> = FIRST + 2..=FIRST + 101;
/// The unguarded session of the workshop.
pub const GUEST: u32 = 62;

/// Much can be done here, and there are hardly any flows: a host, a guest, and a hundred objects in a container.
pub fn workshop() -> Setup {
    let mut lines = Lines::with_host();
    lines.add(Key::Account, [1, 5, 0, 1, 0]);
    lines.add(Key::Session, [GUEST, 1, 5, 0, 0]);
    lines.add(Key::Held, [GUEST, 0]);
    for container in [HERE, THERE] {
        lines.add(Key::Container, [container, 5, 0, ROOT]);
        lines.add(Key::Right, [0, container, 4]);
        lines.add(Key::Access, [HOST, container, 2]);
    }
    for object in OBJECTS {
        lines.add(Key::Object, [object, 5, HERE]);
        for right in [1, 2, 4, 8] {
            lines.add(Key::Right, [0, object, right]);
        }
        lines.add(Key::Access, [HOST, object, 8]);
    }
    Setup { text: lines.text(), requests: Vec::new() }
}

/// Many sessions read, write and run the programs of one another: nearly everything flows everywhere, but to and from the last
/// object. There are so many sessions and items in all, and as many accesses as the text has room for.
pub fn dense(sessions: u32, items: u32) -> Setup {
    let workers = 1..sessions;
    let last = ROOT + items - sessions - 1;
    let objects = FIRST..last;
    let mut lines = Lines::with_host();
    lines.add(Key::Account, [1, 5, 0, 1, 0]);
    for object in FIRST..=last {
        lines.add(Key::Object, [object, 5, ROOT]);
        for right in [1, 2, 4] {
            lines.add(Key::Right, [0, object, right]);
        }
    }
    let mut random = Random::new(1, u64::from(items));
    let mut object = || objects.start + random.below(objects.len()) as u32;
    for worker in workers.clone() {
        lines.add(Key::Session, [worker, 1, 5, object(), 0]);
        lines.add(Key::Held, [worker, 0]);
    }
    for _ in 0..objects.len() {
        for worker in workers.clone() {
            lines.add(Key::Access, [worker, object(), 1]);
            lines.add(Key::Access, [worker, object(), 2]);
        }
    }
    Setup { text: lines.text(), requests: Vec::new() }
}

/// The last object of a dense block, which has no flows.
pub fn last_of(sessions: u32, items: u32) -> u32 {
    ROOT + items - sessions - 1
}

/// Each session has write access to the program of the next. Only the first is unguarded: once it writes the program of the second,
/// control comes to it session by session, each by the control of the one before.
pub fn relay(sessions: u32) -> Setup {
    let mut lines = Lines::with_host();
    lines.add(Key::Account, [1, 5, 0, 1, 0]);
    lines.add(Key::Account, [2, 5, 1, 1, 0]);
    for session in 1..=sessions {
        let program = FIRST + session;
        lines.add(Key::Object, [program, 5, ROOT]);
        lines.add(Key::Right, [0, program, 2]);
        lines.add(Key::Session, [session, if session == 1 { 1 } else { 2 }, 5, program, 0]);
        lines.add(Key::Held, [session, 0]);
        if 1 < session && session < sessions {
            lines.add(Key::Access, [session, program + 1, 2]);
        }
    }
    Setup { text: lines.text(), requests: Vec::new() }
}

/// How deep the deep block is.
pub const DEPTH: u32 = 180;

/// A chain of containers in one another, with an object in the last.
pub fn deep() -> Setup {
    let mut lines = Lines::with_host();
    for container in FIRST..FIRST + DEPTH {
        lines.add(Key::Container, [container, 5, 0, if container == FIRST { ROOT } else { container - 1 }]);
        lines.add(Key::Right, [0, container, 4]);
    }
    lines.add(Key::Object, [FIRST + DEPTH, 5, FIRST + DEPTH - 1]);
    Setup { text: lines.text(), requests: Vec::new() }
}
