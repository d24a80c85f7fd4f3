//! Sound start texts that give much.

use super::random::Random;
use crate::policy::{HouseRule, LevelOrder};
use crate::sets::{ITEMS, RoleSet};
use crate::start;
use crate::state::{Mode, ROOT};
use crate::text::{Key, LONGEST_TEXT, Line, text_of, written};

/// How much a text has, at most.
#[derive(Clone, Copy)]
pub struct Size {
    pub containers: usize,
    pub objects: usize,
    pub roles: usize,
    pub accounts: usize,
    pub sessions: usize,
}

impl Size {
    pub const SMALL: Size = Size { containers: 6, objects: 9, roles: 7, accounts: 5, sessions: 7 };
    pub const MEDIUM: Size = Size { containers: 12, objects: 30, roles: 14, accounts: 8, sessions: 20 };
    pub const LARGE: Size = Size { containers: 60, objects: 131, roles: 32, accounts: 16, sessions: 63 };
}

/// The rights take at most this part of a text.
const RIGHTS_END: usize = LONGEST_TEXT * 6 / 10;

/// Some level codes of the order, the top among them.
pub fn codes(order: &impl LevelOrder) -> &'static [u16] {
    match order.top() {
        15 => &[0, 1, 3, 5, 7, 12, 14, 15],
        _ => &[0, 1, 2, 3, 5, 6, 7, 85, 170, 254, 255],
    }
}

/// A text that is being drawn.
struct Draft<'a, O, R> {
    random: &'a mut Random,
    order: &'a O,
    rule: &'a R,
    size: Size,
    codes: &'static [u16],
    lines: Vec<Line>,
    length: usize,
    levels: [u16; ITEMS],
    containers: Vec<usize>,
    objects: Vec<usize>,
    gate: usize,
    roles: Vec<Role>,
    accounts: Vec<Account>,
    sessions: Vec<Session>,
}

#[derive(Clone, Copy)]
struct Role {
    number: usize,
    level: u16,
    administrative: bool,
}

#[derive(Clone, Copy)]
struct Account {
    number: usize,
    level: u16,
    takes: RoleSet,
}

#[derive(Clone, Copy)]
struct Session {
    number: usize,
    account: Account,
    level: u16,
}

/// How many times in a hundred a role has a right.
struct Chances {
    /// To execute on a container.
    doors: usize,
    sessions: usize,
    others: usize,
}

/// Those of the modes that exist on the item.
fn modes_on(item: usize, modes: &'static [Mode]) -> &'static [Mode] {
    if item > 63 { modes } else { &[Mode::Own] }
}

fn has(set: RoleSet, role: usize) -> bool {
    set >> role & 1 != 0
}

impl<O: LevelOrder, R: HouseRule> Draft<'_, O, R> {
    fn add<const N: usize>(&mut self, key: Key, numbers: [usize; N]) {
        let line = Line::new(key, &numbers.map(|n| n as u32));
        self.length += written(&line).len();
        self.lines.push(line);
    }

    fn below(&self, a: u16, b: u16) -> bool {
        self.order.below(a, b)
    }

    fn top(&self) -> u16 {
        self.order.top()
    }

    /// A level at or below all of these, often one of them.
    fn under(&mut self, tops: &[u16]) -> u16 {
        let fits = |&code: &u16| tops.iter().all(|&top| self.below(code, top));
        let same: Vec<u16> = tops.iter().copied().filter(fits).collect();
        let fit: Vec<u16> = self.codes.iter().copied().filter(fits).collect();
        if !same.is_empty() && self.random.percent(60) {
            return self.random.pick(&same);
        }
        self.random.pick_or(&fit, 0)
    }

    fn mark(&mut self) -> usize {
        self.random.pick(&[0, 0, 1, 2, 3])
    }

    fn some_roles(&mut self, roles: &[usize], chance: usize) -> RoleSet {
        roles.iter().filter(|_| self.random.percent(chance)).fold(0, |set, r| set | 1 << r)
    }

    fn containers(&mut self, numbers: &[usize]) {
        self.levels[ROOT] = self.top();
        let mark = self.mark();
        self.add(Key::Root, [usize::from(self.top()), mark]);
        self.containers.push(ROOT);
        for &number in numbers {
            let holder = self.random.pick(&self.containers);
            self.levels[number] = self.under(&[self.levels[holder]]);
            let mark = self.mark();
            self.add(Key::Container, [number, usize::from(self.levels[number]), mark, holder]);
            self.containers.push(number);
        }
    }

    fn objects(&mut self, numbers: &[usize]) {
        self.gate = self.random.pick(numbers);
        for &number in numbers {
            let mut holder = self.random.pick(&self.containers);
            self.levels[number] = self.under(&[self.levels[holder]]);
            if number == self.gate {
                (holder, self.levels[number]) = (ROOT, self.top());
            }
            self.add(Key::Object, [number, usize::from(self.levels[number]), holder]);
            self.objects.push(number);
        }
        self.add(Key::Gate, [self.gate]);
    }

    fn entities(&mut self) {
        let mut numbers: Vec<usize> = (ROOT + 1..ITEMS).collect();
        if self.random.percent(30) {
            self.random.shuffle(&mut numbers);
        }
        let count = self.random.between(1, self.size.containers);
        let (containers, others) = numbers.split_at_mut(count);
        let count = self.random.between(2, self.size.objects);
        let objects = &mut others[..count];
        containers.sort_unstable();
        objects.sort_unstable();
        self.containers(containers);
        self.objects(objects);
    }

    fn roles(&mut self) {
        let pool = if self.random.percent(40) { 32 } else { self.size.roles + 1 };
        let count = self.random.between(2, self.size.roles);
        let numbers = self.random.sample(0..pool.min(32), count);
        let sure = self.random.pick(&numbers);
        for &number in &numbers {
            let level = if self.random.percent(50) { self.top() } else { self.random.pick(self.codes) };
            let administrative = number == sure || self.random.percent(30);
            self.roles.push(Role { number, level, administrative });
        }
        let ordinary: Vec<usize> = self.roles.iter().filter(|r| !r.administrative).map(|r| r.number).collect();
        for Role { number, level, administrative } in self.roles.clone() {
            let manages = if administrative { self.some_roles(&ordinary, 80) } else { 0 };
            let key = if self.random.percent(20) { self.random.pick(&self.objects) } else { 0 };
            self.add(Key::Role, [number, level.into(), administrative.into(), manages as usize, key]);
        }
    }

    fn accounts(&mut self) {
        let count = self.random.between(1, self.size.accounts);
        for number in self.random.sample(0..16, count) {
            let level = if self.random.percent(50) { self.top() } else { self.random.pick(self.codes) };
            let fit: Vec<usize> = self.roles.iter().filter(|r| self.below(r.level, level)).map(|r| r.number).collect();
            let takes = self.some_roles(&fit, 90);
            let keys: Vec<usize> = self.objects.iter().copied().filter(|&o| self.levels[o] == level).collect();
            let key = if self.random.percent(50) { self.random.pick_or(&keys, 0) } else { 0 };
            let guarded = self.random.percent(30);
            self.add(Key::Account, [number, level.into(), guarded.into(), takes as usize, key]);
            self.accounts.push(Account { number, level, takes });
        }
    }

    fn sessions(&mut self) {
        let count = self.random.between(1, self.size.sessions);
        let pool = if self.random.percent(50) { count } else { 63 };
        for number in self.random.sample(1..=pool, count) {
            let account = self.random.pick(&self.accounts);
            let parent = if self.random.percent(40) && !self.sessions.is_empty() {
                Some(self.random.pick(&self.sessions))
            } else {
                None
            };
            let level = match parent {
                Some(parent) => self.under(&[account.level, parent.level]),
                None => self.under(&[account.level]),
            };
            let program = if self.random.percent(70) { self.random.pick(&self.objects) } else { 0 };
            let parent = parent.map_or(0, |parent| parent.number);
            self.levels[number] = level;
            self.add(Key::Session, [number, account.number, level.into(), program, parent]);
            self.sessions.push(Session { number, account, level });
        }
    }

    fn items(&self) -> Vec<usize> {
        let sessions = self.sessions.iter().map(|s| s.number);
        sessions.chain(self.containers.iter().copied()).chain(self.objects.iter().copied()).collect()
    }

    /// To execute on most containers, and others.
    fn rights(&mut self) {
        let items = self.items();
        let lines = 300 * 100 / self.roles.len();
        let mut chances = Chances {
            doors: self.random.pick(&[30, 70, 95]),
            sessions: self.random.pick(&[10, 40, 80]).min(lines / self.sessions.len()),
            others: self.random.pick(&[10, 30, 50]).min(lines / items.len()).max(1),
        };
        let mut roles = self.roles.clone();
        self.random.shuffle(&mut roles);
        for (i, &role) in roles.iter().enumerate() {
            // In a large text only some roles open the doors.
            if i * self.containers.len() > 400 {
                chances.doors = 5;
            }
            for &item in &items {
                self.rights_on(item, role, &chances);
            }
        }
    }

    fn rights_on(&mut self, item: usize, role: Role, chances: &Chances) {
        for &mode in modes_on(item, &Mode::ALL) {
            let weak = matches!(mode, Mode::Read | Mode::Execute);
            let sound = weak || self.below(self.levels[item], role.level);
            let chance = if mode == Mode::Execute && self.containers.contains(&item) {
                chances.doors
            } else if item <= 63 {
                chances.sessions
            } else {
                chances.others
            };
            if sound && self.random.percent(chance) && self.length < RIGHTS_END {
                self.add(Key::Right, [role.number, item, mode.number() as usize]);
            }
        }
    }

    fn held(&mut self) {
        let keen = self.random.pick(&[30, 70, 90]);
        for session in self.sessions.clone() {
            let mut life = 0;
            for role in self.roles.clone() {
                let sound = has(session.account.takes, role.number)
                    && self.below(role.level, session.level)
                    && self.rule.allows(session.account.number, life, role.number);
                if sound && self.random.percent(keen) && self.length < LONGEST_TEXT - 6_000 {
                    self.add(Key::Held, [session.number, role.number]);
                    life |= 1 << role.number;
                }
            }
        }
    }

    /// To what is reached; often to containers, and at the top to the gate.
    fn accesses(&mut self) {
        let Ok(state) = start::read(self.order, self.rule, &text_of(&self.lines)) else { return };
        let items = self.items();
        let others = self.random.pick(&[5, 15, 40]).min(500 * 100 / (self.sessions.len() * items.len())).max(1);
        let containers = self.random.pick(&[0, 50, 90]).min(300 * 100 / (self.sessions.len() * self.containers.len()));
        let mut sessions = self.sessions.clone();
        self.random.shuffle(&mut sessions);
        for session in sessions {
            let reached = state.reached(self.order, session.number);
            for &item in items.iter().filter(|&&i| reached.has(i)) {
                let chance = if item == self.gate && session.level == self.top() {
                    60
                } else if self.containers.contains(&item) {
                    containers.max(others)
                } else {
                    others
                };
                if self.random.percent(chance) {
                    self.accesses_to(item, session);
                }
            }
        }
    }

    fn accesses_to(&mut self, item: usize, session: Session) {
        for &mode in modes_on(item, &[Mode::Read, Mode::Write, Mode::Own]) {
            let sound = mode == Mode::Read || self.below(self.levels[item], session.level);
            if sound && self.random.percent(60) && self.length < LONGEST_TEXT - 20 {
                self.add(Key::Access, [session.number, item, mode.number() as usize]);
            }
        }
    }
}

/// The lines of a text that is sound under the order and the rule.
pub fn draw<O: LevelOrder, R: HouseRule>(random: &mut Random, order: &O, rule: &R, size: Size) -> Vec<Line> {
    let mut draft = Draft {
        random,
        order,
        rule,
        size,
        codes: codes(order),
        lines: Vec::new(),
        length: 0,
        levels: [0; ITEMS],
        containers: Vec::new(),
        objects: Vec::new(),
        gate: 0,
        roles: Vec::new(),
        accounts: Vec::new(),
        sessions: Vec::new(),
    };
    draft.entities();
    draft.roles();
    draft.accounts();
    draft.sessions();
    draft.rights();
    draft.held();
    draft.lines.sort_unstable();
    draft.accesses();
    draft.lines.sort_unstable();
    draft.lines
}
