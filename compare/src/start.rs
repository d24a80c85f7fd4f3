//! The second reading of a start text, and the records that it makes.

use crate::policy::{HouseRule, LevelOrder};
use crate::refusal::{Answer, Fault, Refusal, need};
use crate::sets::{ACCOUNTS, ITEMS, ItemSet, ROLES, RoleSet, roles_of};
use crate::state::{Account, Mode, ROOT, Session, State};
use crate::text::{Key, Line, read_lines};

/// The first line that defines each item, role and account.
struct Defined<'a> {
    first: [Option<&'a Line>; ITEMS + ROLES + ACCOUNTS],
    ordinary: RoleSet,
}

/// The place of an item.
fn item(number: u32) -> usize {
    number as usize
}

/// The place of a role.
fn role(number: u32) -> usize {
    ITEMS + number as usize
}

/// The place of an account.
fn account(number: u32) -> usize {
    ITEMS + ROLES + number as usize
}

/// The place of what a line defines, if it defines something.
fn place(line: &Line) -> Option<usize> {
    let number = line.numbers[0];
    match line.key {
        Key::Root => Some(ROOT),
        Key::Account => Some(account(number)),
        Key::Role => Some(role(number)),
        Key::Container | Key::Object | Key::Session => Some(item(number)),
        Key::Gate | Key::Right | Key::Held | Key::Access => None,
    }
}

impl<'a> Defined<'a> {
    fn by(lines: &'a [Line]) -> Defined<'a> {
        let mut defined = Defined { first: [None; _], ordinary: 0 };
        for line in lines {
            if let Some(place) = place(line) {
                defined.first[place].get_or_insert(line);
            }
        }
        let is_ordinary = |r: &u32| defined.first[role(*r)].is_some_and(|line| line.numbers[2] == 0);
        defined.ordinary = (0..ROLES as u32).filter(is_ordinary).fold(0, |set, r| set | 1 << r);
        defined
    }

    /// The line is the first that defines its number.
    fn is_new(&self, line: &Line) -> bool {
        let first = place(line).and_then(|place| self.first[place]);
        first.is_some_and(|first| std::ptr::eq(first, line))
    }

    fn has_roles(&self, set: RoleSet) -> bool {
        roles_of(set).all(|r| self.has_role(r as u32))
    }

    fn has_role(&self, number: u32) -> bool {
        self.first[role(number)].is_some()
    }

    fn has_account(&self, number: u32) -> bool {
        self.first[account(number)].is_some()
    }

    fn is_item(&self, number: u32, key: Key) -> bool {
        self.first[item(number)].is_some_and(|line| line.key == key)
    }

    fn is_object(&self, number: u32) -> bool {
        self.is_item(number, Key::Object)
    }

    fn is_object_or_none(&self, number: u32) -> bool {
        number == 0 || self.is_object(number)
    }

    fn is_container(&self, number: u32) -> bool {
        self.is_item(number, Key::Container) || self.is_item(number, Key::Root)
    }

    fn is_session(&self, number: u32) -> bool {
        self.is_item(number, Key::Session)
    }

    fn role_level(&self, number: u32) -> u16 {
        level_of(self.first[role(number)])
    }

    fn item_level(&self, number: u32) -> u16 {
        level_of(self.first[item(number)])
    }
}

/// The level in the line that defines something.
fn level_of(line: Option<&Line>) -> u16 {
    let Some(line) = line else { return u16::MAX };
    let place = match line.key {
        Key::Root => 0,
        Key::Session => 2,
        _ => 1,
    };
    line.numbers[place] as u16
}

/// The second reading: tries each line, and adds it to the state. What rights, held roles and accesses are about then lives already,
/// since the lines that define it come before.
struct Reading<'a, O, R> {
    order: &'a O,
    rule: &'a R,
    defined: Defined<'a>,
    state: Box<State>,
    /// The session whose access was tried last, and what it reaches.
    reached: (usize, ItemSet),
}

impl<O: LevelOrder, R: HouseRule> Reading<'_, O, R> {
    fn knows(&self, level: u32) -> Answer {
        need(self.order.knows(level as u16), Refusal::LineLevelUnknown)
    }

    fn below(&self, a: u16, b: u16) -> bool {
        self.order.below(a, b)
    }

    fn line(&mut self, line: &Line) -> Answer {
        let n = line.numbers;
        match line.key {
            Key::Root => self.root(n[0], n[1]),
            Key::Gate => self.gate(n[0]),
            Key::Account => self.account(line),
            Key::Role => self.role(line),
            Key::Container => self.container(line),
            Key::Object => self.object(line),
            Key::Session => self.session(line),
            Key::Right => self.right(n[0], n[1], Mode::of(n[2])),
            Key::Held => self.held(n[0], n[1]),
            Key::Access => self.access(n[0], n[1], Mode::of(n[2])),
        }
    }

    fn root(&mut self, level: u32, mark: u32) -> Answer {
        self.knows(level)?;
        self.state.add_container(ROOT, level as u16, mark as u8);
        self.state.protected.add(ROOT);
        Ok(())
    }

    fn gate(&mut self, gate: u32) -> Answer {
        need(self.defined.is_object(gate), Refusal::LineUndefined)?;
        need(self.defined.item_level(gate) == self.order.top(), Refusal::LineLevels)?;
        self.state.gate = gate as usize;
        self.state.protected.add(gate as usize);
        Ok(())
    }

    /// The key of an account or a role is none or an object.
    fn protect(&mut self, key: u32) {
        if key != 0 {
            self.state.protected.add(key as usize);
        }
    }

    fn account(&mut self, line: &Line) -> Answer {
        let [number, level, guarded, takes, key] = line.numbers;
        let defined = &self.defined;
        let sound = defined.is_new(line) && defined.has_roles(takes) && defined.is_object_or_none(key);
        need(sound, Refusal::LineUndefined)?;
        self.knows(level)?;
        let level = level as u16;
        let roles_below = roles_of(takes).all(|r| self.below(self.defined.role_level(r as u32), level));
        let key_fits = key == 0 || self.defined.item_level(key) == level;
        need(roles_below && key_fits, Refusal::LineLevels)?;
        self.state.accounts[number as usize] = Account { level, guarded: guarded == 1, takes, key: key as u8 };
        self.protect(key);
        Ok(())
    }

    fn role(&mut self, line: &Line) -> Answer {
        let [number, level, _kind, manages, key] = line.numbers;
        let defined = &self.defined;
        let sound = defined.is_new(line) && manages & !defined.ordinary == 0 && defined.is_object_or_none(key);
        need(sound, Refusal::LineUndefined)?;
        self.knows(level)?;
        let number = number as usize;
        self.state.roles[number].level = level as u16;
        self.state.roles[number].key = key as u8;
        for r in roles_of(manages) {
            self.state.roles[r].managers |= 1 << number;
        }
        self.protect(key);
        Ok(())
    }

    fn container(&mut self, line: &Line) -> Answer {
        let [number, level, mark, holder, _] = line.numbers;
        let sound = self.defined.is_new(line) && self.defined.is_container(holder) && holder < number;
        need(sound, Refusal::LineUndefined)?;
        self.knows(level)?;
        need(self.below(level as u16, self.defined.item_level(holder)), Refusal::LineLevels)?;
        self.state.add_container(number as usize, level as u16, mark as u8);
        self.state.put(holder as usize, number as usize);
        Ok(())
    }

    fn object(&mut self, line: &Line) -> Answer {
        let [number, level, holder, _, _] = line.numbers;
        let sound = self.defined.is_new(line) && self.defined.is_container(holder);
        need(sound, Refusal::LineUndefined)?;
        self.knows(level)?;
        need(self.below(level as u16, self.defined.item_level(holder)), Refusal::LineLevels)?;
        self.state.add_item(number as usize, level as u16);
        self.state.put(holder as usize, number as usize);
        Ok(())
    }

    fn session(&mut self, line: &Line) -> Answer {
        let [number, account, level, program, parent] = line.numbers;
        let sound = self.defined.is_new(line)
            && self.defined.has_account(account)
            && self.defined.is_object_or_none(program)
            && (parent == 0 || self.defined.is_session(parent) && parent < number);
        need(sound, Refusal::LineUndefined)?;
        self.knows(level)?;
        let level = level as u16;
        let below_account = self.below(level, self.state.accounts[account as usize].level);
        let below_parent = parent == 0 || self.below(level, self.defined.item_level(parent));
        need(below_account && below_parent, Refusal::LineLevels)?;
        self.state.add_session(number as usize, level, account as u8, program as u8, parent as u8);
        Ok(())
    }

    fn right(&mut self, role: u32, item: u32, mode: Mode) -> Answer {
        let sound = self.defined.has_role(role) && self.state.lives(item as usize);
        need(sound, Refusal::LineUndefined)?;
        let (role, item) = (role as usize, item as usize);
        let strong = matches!(mode, Mode::Write | Mode::Own);
        let below = self.below(self.state.levels[item], self.state.roles[role].level);
        need(!strong || below, Refusal::LineLevels)?;
        self.state.add_right(role, item, mode);
        Ok(())
    }

    fn held(&mut self, session: u32, role: u32) -> Answer {
        let (s, r) = (session as usize, role as usize);
        let sound = self.state.lives(s) && self.state.account(s).takes >> r & 1 != 0;
        need(sound, Refusal::LineUndefined)?;
        need(self.below(self.state.roles[r].level, self.state.levels[s]), Refusal::LineLevels)?;
        let Session { account, life, .. } = self.state.sessions[s];
        need(self.rule.allows(usize::from(account), life, r), Refusal::LineRule)?;
        self.state.take_role(s, r);
        Ok(())
    }

    fn access(&mut self, session: u32, item: u32, mode: Mode) -> Answer {
        let (s, i) = (session as usize, item as usize);
        need(self.state.lives(s) && self.state.lives(i), Refusal::LineUndefined)?;
        let strong = matches!(mode, Mode::Write | Mode::Own);
        let below = self.below(self.state.levels[i], self.state.levels[s]);
        need(!strong || below, Refusal::LineLevels)?;
        if self.reached.0 != s {
            self.reached = (s, self.state.reached(self.order, s));
        }
        need(self.reached.1.has(i), Refusal::LineNotReached)?;
        self.state.add_access(s, i, mode);
        Ok(())
    }
}

/// The state that a start text makes.
pub fn read<O: LevelOrder, R: HouseRule>(order: &O, rule: &R, text: &[u8]) -> Result<Box<State>, Fault> {
    let lines = read_lines(text)?;
    let mut reading = Reading {
        order,
        rule,
        defined: Defined::by(&lines),
        state: Box::new(State::blank()),
        reached: (0, ItemSet::EMPTY),
    };
    for (i, line) in lines.iter().enumerate() {
        reading.line(line).map_err(|refusal| Fault { refusal, line: i + 1 })?;
    }
    reading.state.settle();
    Ok(reading.state)
}
