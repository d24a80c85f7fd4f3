//! Start texts in which control comes through chains of sessions: each can write the next one's program, read the key of its account,
//! or owns it.

use super::random::Random;
use crate::policy::LevelOrder;
use crate::state::ROOT;
use crate::text::{Key, Line};

/// The numbers that these texts share.
const GATE: usize = ROOT + 1;
const HOST: usize = 63;
const HOSTS_ACCOUNT: usize = 15;
const WORKER: usize = 0;
const ADMIN: usize = 1;

/// A session of the chain.
#[derive(Clone, Copy)]
struct Link {
    session: usize,
    program: usize,
    key: usize,
}

struct Draft<'a> {
    random: &'a mut Random,
    lines: Vec<Line>,
}

impl Draft<'_> {
    fn add<const N: usize>(&mut self, key: Key, numbers: [usize; N]) {
        self.lines.push(Line::new(key, &numbers.map(|n| n as u32)));
    }

    /// The host, a session at the top that can vouch and administer.
    fn host(&mut self, top: usize) {
        self.add(Key::Root, [top, 0]);
        self.add(Key::Gate, [GATE]);
        self.add(Key::Account, [HOSTS_ACCOUNT, top, 1, 1 << WORKER | 1 << ADMIN, 0]);
        self.add(Key::Role, [WORKER, 0, 0, 0, 0]);
        self.add(Key::Role, [ADMIN, top, 1, 1 << WORKER, 0]);
        self.add(Key::Object, [GATE, top, ROOT]);
        self.add(Key::Session, [HOST, HOSTS_ACCOUNT, top, 0, 0]);
        self.add(Key::Right, [WORKER, ROOT, 4]);
        self.add(Key::Held, [HOST, WORKER]);
        self.add(Key::Held, [HOST, ADMIN]);
        self.add(Key::Access, [HOST, GATE, 2]);
    }

    /// The objects, which the workers may read, write, execute and own.
    fn objects(&mut self, objects: &[usize]) {
        for &object in objects {
            self.add(Key::Object, [object, 0, ROOT]);
            for right in [1, 2, 4, 8] {
                self.add(Key::Right, [WORKER, object, right]);
            }
        }
    }

    /// Accounts, some of them guarded, some with a key; their keys.
    fn accounts(&mut self, objects: &[usize]) -> Vec<usize> {
        let guarded = self.random.pick(&[20, 50, 95]);
        let mut keys = Vec::new();
        for account in 0..HOSTS_ACCOUNT {
            let key = if self.random.percent(60) { self.random.pick(objects) } else { 0 };
            let guarded = account > 0 && self.random.percent(guarded);
            self.add(Key::Account, [account, 0, guarded.into(), 1 << WORKER, key]);
            keys.push(key);
        }
        keys
    }

    fn links(&mut self, count: usize, keys: &[usize], objects: &[usize]) -> Vec<Link> {
        let mut links = Vec::new();
        for session in 1..=count {
            let account = self.random.below(keys.len());
            let program = if self.random.percent(95) { self.random.pick(objects) } else { 0 };
            self.add(Key::Session, [session, account, 0, program, 0]);
            self.add(Key::Right, [WORKER, session, 8]);
            self.add(Key::Held, [session, WORKER]);
            links.push(Link { session, program, key: keys[account] });
        }
        links
    }

    /// How one session can come to control the next.
    fn relay(&mut self, from: Link, to: Link) {
        let (item, access) = match self.random.below(20) {
            0 => (to.session, 8),
            1..7 if to.key != 0 => (to.key, 1),
            _ if to.program != 0 => (to.program, 2),
            _ => return,
        };
        self.add(Key::Access, [from.session, item, access]);
    }
}

/// The lines of such a text.
pub fn draw(random: &mut Random, order: &impl LevelOrder) -> Vec<Line> {
    let mut draft = Draft { random, lines: Vec::new() };
    draft.host(order.top().into());
    let count = draft.random.between(4, 60);
    let objects: Vec<usize> = (GATE + 1..=GATE + draft.random.between(count / 2, count + 20)).collect();
    draft.objects(&objects);
    let keys = draft.accounts(&objects);
    let mut links = draft.links(count, &keys, &objects);
    draft.random.shuffle(&mut links);
    for pair in links.windows(2) {
        draft.relay(pair[0], pair[1]);
    }
    draft.lines.sort_unstable();
    draft.lines.dedup();
    draft.lines
}
