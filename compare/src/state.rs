//! What the monitor keeps, and what follows from it at once.

use crate::policy::LevelOrder;
use crate::sets::{ACCOUNTS, ITEMS, ItemSet, ROLES, RoleSet, SESSIONS, SessionSet, bits};

/// The root container.
pub const ROOT: usize = 64;
/// The bit of a mark that checks levels on the way through a container.
const CHECKED: u8 = 1;
/// The bit of a mark that asks for own right to take things out of a container.
const SHARED: u8 = 2;

/// A right or an access.
#[derive(Clone, Copy, Debug, PartialEq, Eq)]
pub enum Mode {
    Read,
    Write,
    Execute,
    Own,
}

impl Mode {
    pub const ALL: [Mode; 4] = [Mode::Read, Mode::Write, Mode::Execute, Mode::Own];

    /// The mode of one of the numbers 1, 2, 4 and 8.
    pub fn of(number: u32) -> Mode {
        match number {
            1 => Mode::Read,
            2 => Mode::Write,
            4 => Mode::Execute,
            _ => Mode::Own,
        }
    }

    pub fn number(self) -> u32 {
        1 << self as u32
    }
}

#[derive(Clone, Copy, Default)]
pub struct Account {
    pub level: u16,
    pub guarded: bool,
    /// The roles that it may take.
    pub takes: RoleSet,
    pub key: u8,
}

#[derive(Clone, Copy, Default)]
pub struct Role {
    pub level: u16,
    /// The roles that manage it.
    pub managers: RoleSet,
    pub key: u8,
}

#[derive(Clone, Copy, Default)]
pub struct Session {
    pub account: u8,
    pub held: RoleSet,
    pub life: RoleSet,
    pub program: u8,
    pub parent: u8,
}

/// The records of a started block.
#[derive(Clone)]
pub struct State {
    pub gate: usize,
    pub accounts: [Account; ACCOUNTS],
    pub roles: [Role; ROLES],
    pub sessions: [Session; SESSIONS],
    pub levels: [u16; ITEMS],
    pub marks: [u8; ITEMS],
    pub used: ItemSet,
    pub live: ItemSet,
    /// The live containers.
    pub containers: ItemSet,
    /// The root, the gate and all keys.
    pub protected: ItemSet,
    /// By container, what it holds.
    pub contents: [ItemSet; ITEMS],
    /// By entity, the containers that hold it.
    pub holders: [ItemSet; ITEMS],
    /// By mode and item, the roles that have the right.
    pub rights: [[RoleSet; ITEMS]; 4],
    /// By mode and item, the sessions that have the access.
    pub accesses: [[SessionSet; ITEMS]; 4],
    /// The live sessions of unguarded accounts.
    pub unguarded: SessionSet,
    /// By item, where information can have gone from it.
    pub flows: [ItemSet; ITEMS],
    /// By session, the sessions that it controls.
    pub control: [SessionSet; SESSIONS],
}

impl State {
    /// No records at all.
    pub fn blank() -> State {
        State {
            gate: 0,
            accounts: [Account::default(); ACCOUNTS],
            roles: [Role::default(); ROLES],
            sessions: [Session::default(); SESSIONS],
            levels: [0; ITEMS],
            marks: [0; ITEMS],
            used: ItemSet::EMPTY,
            live: ItemSet::EMPTY,
            containers: ItemSet::EMPTY,
            protected: ItemSet::EMPTY,
            contents: [ItemSet::EMPTY; ITEMS],
            holders: [ItemSet::EMPTY; ITEMS],
            rights: [[0; ITEMS]; 4],
            accesses: [[0; ITEMS]; 4],
            unguarded: 0,
            flows: [ItemSet::EMPTY; ITEMS],
            control: [0; SESSIONS],
        }
    }

    #[inline]
    pub fn lives(&self, item: usize) -> bool {
        self.live.has(item)
    }

    #[inline]
    pub fn is_container(&self, entity: usize) -> bool {
        self.containers.has(entity)
    }

    #[inline]
    pub fn is_object(&self, entity: usize) -> bool {
        entity > 63 && self.lives(entity) && !self.is_container(entity)
    }

    #[inline]
    pub fn is_shared(&self, container: usize) -> bool {
        self.marks[container] & SHARED != 0
    }

    #[inline]
    pub fn account(&self, session: usize) -> &Account {
        &self.accounts[usize::from(self.sessions[session].account)]
    }

    #[inline]
    pub fn holds_role(&self, session: usize, role: usize) -> bool {
        self.sessions[session].held >> role & 1 != 0
    }

    #[inline]
    pub fn has_right(&self, role: usize, item: usize, mode: Mode) -> bool {
        self.rights[mode as usize][item] >> role & 1 != 0
    }

    /// A role that the session holds has the right.
    #[inline]
    pub fn may(&self, session: usize, item: usize, mode: Mode) -> bool {
        self.rights[mode as usize][item] & self.sessions[session].held != 0
    }

    #[inline]
    pub fn has_access(&self, session: usize, item: usize, mode: Mode) -> bool {
        self.accesses[mode as usize][item] >> session & 1 != 0
    }

    #[inline]
    pub fn controls(&self, session: usize, other: usize) -> bool {
        self.control[session] >> other & 1 != 0
    }

    fn passes(&self, order: &impl LevelOrder, session: usize, container: usize) -> bool {
        let unchecked = self.marks[container] & CHECKED == 0;
        self.may(session, container, Mode::Execute)
            && (unchecked || order.below(self.levels[container], self.levels[session]))
    }

    /// The entities that a live session reaches, or enough of them to have the goal.
    fn walk(&self, order: &impl LevelOrder, session: usize, goal: usize) -> ItemSet {
        let goal = ItemSet::one(goal);
        let mut reached = ItemSet::one(ROOT);
        let mut ahead = reached;
        while reached.and(&goal).is_empty()
            && let Some(container) = ahead.pop()
        {
            if self.passes(order, session, container) {
                let new = self.contents[container].without(&reached);
                reached.add_all(&new);
                ahead.add_all(&new.and(&self.containers));
            }
        }
        reached
    }

    /// All items that a live session reaches.
    pub fn reached(&self, order: &impl LevelOrder, session: usize) -> ItemSet {
        let mut reached = self.walk(order, session, 0);
        reached.add_sessions(self.live.sessions());
        reached
    }

    /// The session reaches the item.
    pub fn reaches(&self, order: &impl LevelOrder, session: usize, item: usize) -> bool {
        self.lives(session) && self.lives(item) && (item < SESSIONS || self.walk(order, session, item).has(item))
    }

    /// A new item lives.
    pub fn add_item(&mut self, item: usize, level: u16) {
        self.used.add(item);
        self.live.add(item);
        self.levels[item] = level;
    }

    pub fn add_container(&mut self, container: usize, level: u16, mark: u8) {
        self.add_item(container, level);
        self.containers.add(container);
        self.marks[container] = mark;
    }

    pub fn add_session(&mut self, session: usize, level: u16, account: u8, program: u8, parent: u8) {
        self.add_item(session, level);
        self.sessions[session] = Session { account, program, parent, held: 0, life: 0 };
        if !self.account(session).guarded {
            self.unguarded |= 1 << session;
        }
    }

    pub fn put(&mut self, container: usize, entity: usize) {
        self.contents[container].add(entity);
        self.holders[entity].add(container);
    }

    pub fn take_out(&mut self, container: usize, entity: usize) {
        self.contents[container].remove(entity);
        self.holders[entity].remove(container);
    }

    pub fn take_role(&mut self, session: usize, role: usize) {
        self.sessions[session].held |= 1 << role;
        self.sessions[session].life |= 1 << role;
    }

    pub fn add_right(&mut self, role: usize, item: usize, mode: Mode) {
        self.rights[mode as usize][item] |= 1 << role;
    }

    pub fn add_access(&mut self, session: usize, item: usize, mode: Mode) {
        self.accesses[mode as usize][item] |= 1 << session;
    }

    /// The item loses its life, the rights and accesses to it, and its flows.
    fn remove_item(&mut self, item: usize) {
        self.live.remove(item);
        for mode in Mode::ALL {
            self.rights[mode as usize][item] = 0;
            self.accesses[mode as usize][item] = 0;
        }
        self.flows[item] = ItemSet::EMPTY;
        for row in &mut self.flows {
            row.remove(item);
        }
    }

    /// An entity that holds nothing is gone.
    pub fn remove_entity(&mut self, entity: usize) {
        self.remove_item(entity);
        self.containers.remove(entity);
        for container in self.holders[entity].iter() {
            self.contents[container].remove(entity);
        }
        self.holders[entity] = ItemSet::EMPTY;
        for session in &mut self.sessions {
            if usize::from(session.program) == entity {
                session.program = 0;
            }
        }
    }

    /// A session is gone.
    pub fn remove_session(&mut self, session: usize) {
        self.remove_item(session);
        let keep = !(1 << session);
        for set in self.accesses.as_flattened_mut() {
            *set &= keep;
        }
        self.control[session] = 0;
        for set in &mut self.control {
            *set &= keep;
        }
        self.unguarded &= keep;
        self.sessions[session].held = 0;
        let parent = self.sessions[session].parent;
        for child in bits(self.live.sessions()) {
            if usize::from(self.sessions[child].parent) == session {
                self.sessions[child].parent = parent;
            }
        }
    }
}
