//! The thirteen kinds of requests: their form, their needs and their effects.

use crate::form::{ENTITY, ITEM, LEVEL, MARK, ROLE, SESSION, Use, formed};
use crate::policy::{HouseRule, LevelOrder};
use crate::refusal::{Answer, Refusal, need};
use crate::state::{Mode, State};

/// The eight numbers k, x, v, r, y, z, l and m.
pub type Request = [u32; 8];

#[derive(Clone, Copy, Debug, PartialEq, Eq)]
pub enum Kind {
    Take = 1,
    Drop,
    Grant,
    Revoke,
    Object,
    Container,
    Link,
    Unlink,
    Delete,
    Open,
    Close,
    Gain,
    GiveUp,
}

impl Kind {
    pub const ALL: [Kind; 13] = [
        Kind::Take,
        Kind::Drop,
        Kind::Grant,
        Kind::Revoke,
        Kind::Object,
        Kind::Container,
        Kind::Link,
        Kind::Unlink,
        Kind::Delete,
        Kind::Open,
        Kind::Close,
        Kind::Gain,
        Kind::GiveUp,
    ];

    pub fn of(k: u32) -> Option<Kind> {
        Kind::ALL.get((k as usize).wrapping_sub(1)).copied()
    }

    /// It withdraws nothing.
    pub fn gives(self) -> bool {
        use Kind::{Container, Gain, Grant, Link, Object, Open, Take};
        matches!(self, Take | Grant | Object | Container | Link | Open | Gain)
    }

    /// How x, v, r, y, z, l and m are used.
    fn uses(self) -> &'static [Use; 7] {
        const NOT: Use = Use::Not;
        const S: Use = SESSION;
        match self {
            Kind::Take | Kind::Drop => &[S, S, ROLE, NOT, NOT, NOT, NOT],
            Kind::Grant | Kind::Revoke => &[S, S, ROLE, ITEM, NOT, NOT, Use::Right],
            Kind::Object => &[S, S, ROLE, ENTITY, ENTITY, LEVEL, NOT],
            Kind::Container => &[S, S, ROLE, ENTITY, ENTITY, LEVEL, MARK],
            Kind::Link | Kind::Unlink | Kind::Delete => &[S, S, NOT, ENTITY, ENTITY, NOT, NOT],
            Kind::Open => &[S, S, ROLE, ENTITY, SESSION, LEVEL, NOT],
            Kind::Close => &[S, S, NOT, SESSION, NOT, NOT, NOT],
            Kind::Gain | Kind::GiveUp => &[S, S, NOT, ITEM, NOT, NOT, Use::Access],
        }
    }

    fn uses_level(self) -> bool {
        matches!(self, Kind::Object | Kind::Container | Kind::Open)
    }
}

/// A request of sound form.
#[derive(Clone, Copy)]
pub struct Asked {
    kind: Kind,
    x: usize,
    v: usize,
    r: usize,
    y: usize,
    z: usize,
    l: u16,
    m: u32,
}

impl Asked {
    /// The request, if its form is sound.
    fn of(&[k, x, v, r, y, z, l, m]: &Request) -> Result<Asked, Refusal> {
        let kind = Kind::of(k).ok_or(Refusal::Form)?;
        formed(kind.uses(), &[x, v, r, y, z, l, m], y)?;
        let [x, v, r, y, z] = [x, v, r, y, z].map(|n| n as usize);
        Ok(Asked { kind, x, v, r, y, z, l: l as u16, m })
    }

    fn mode(&self) -> Mode {
        Mode::of(self.m)
    }
}

/// The needs of one request.
struct Needs<'a, O, R> {
    state: &'a State,
    order: &'a O,
    rule: &'a R,
    q: &'a Asked,
}

impl<O: LevelOrder, R: HouseRule> Needs<'_, O, R> {
    fn level(&self, item: usize) -> u16 {
        self.state.levels[item]
    }

    fn role_level(&self) -> u16 {
        self.state.roles[self.q.r].level
    }

    fn managed(&self) -> bool {
        self.state.roles[self.q.r].managers & self.state.sessions[self.q.x].held != 0
    }

    fn unlocked(&self) -> bool {
        let key = usize::from(self.state.roles[self.q.r].key);
        key == 0 || self.state.has_access(self.q.x, key, Mode::Read)
    }

    fn vouched(&self, level: u16) -> bool {
        level != self.order.top() || self.state.has_access(self.q.v, self.state.gate, Mode::Write)
    }

    fn free(&self) -> bool {
        !self.state.protected.has(self.q.y)
    }

    fn role_below_x(&self) -> bool {
        self.order.below(self.role_level(), self.level(self.q.x))
    }

    /// x may take y out of z.
    fn may_take_out(&self) -> bool {
        let q = self.q;
        self.state.has_access(q.x, q.z, Mode::Write)
            && (!self.state.is_shared(q.z) || self.state.may(q.x, q.y, Mode::Own))
    }

    fn all(&self) -> Answer {
        let q = self.q;
        need(!q.kind.uses_level() || self.order.knows(q.l), Refusal::LevelUnknown)?;
        need(self.state.lives(q.x) && self.state.lives(q.v), Refusal::NoSession)?;
        match q.kind {
            Kind::Take => self.take(),
            Kind::Drop => self.drop(),
            Kind::Grant => self.grant(),
            Kind::Revoke => self.revoke(),
            Kind::Object | Kind::Container => self.make(),
            Kind::Link => self.link(),
            Kind::Unlink => self.unlink(),
            Kind::Delete => self.delete(),
            Kind::Open => self.open(),
            Kind::Close => self.close(),
            Kind::Gain => self.gain(),
            Kind::GiveUp => self.give_up(),
        }
    }

    fn take(&self) -> Answer {
        let q = self.q;
        let account = self.state.account(q.x);
        need(account.takes >> q.r & 1 != 0, Refusal::RoleDenied)?;
        need(self.unlocked(), Refusal::KeyLocked)?;
        need(self.role_below_x(), Refusal::Levels)?;
        need(self.vouched(self.role_level()), Refusal::NoVoucher)?;
        let session = &self.state.sessions[q.x];
        need(self.rule.allows(usize::from(session.account), session.life, q.r), Refusal::RuleDenies)
    }

    fn drop(&self) -> Answer {
        need(self.state.holds_role(self.q.x, self.q.r), Refusal::RoleDenied)?;
        need(self.unlocked(), Refusal::KeyLocked)?;
        need(self.vouched(self.role_level()), Refusal::NoVoucher)
    }

    fn grant(&self) -> Answer {
        let q = self.q;
        need(self.state.lives(q.y), Refusal::WrongItem)?;
        need(self.managed(), Refusal::RoleDenied)?;
        need(self.state.has_access(q.x, q.y, Mode::Own), Refusal::AccessMissing)?;
        let strong = matches!(q.mode(), Mode::Write | Mode::Own);
        let fits = !strong || self.order.below(self.level(q.y), self.role_level());
        need(self.role_below_x() && fits, Refusal::Levels)?;
        need(self.vouched(self.level(q.y)), Refusal::NoVoucher)
    }

    fn revoke(&self) -> Answer {
        let q = self.q;
        need(self.state.lives(q.y), Refusal::WrongItem)?;
        need(self.managed(), Refusal::RoleDenied)?;
        let owned = self.state.has_access(q.x, q.y, Mode::Own);
        need(owned && self.state.has_right(q.r, q.y, q.mode()), Refusal::AccessMissing)?;
        need(self.role_below_x(), Refusal::Levels)?;
        need(self.vouched(self.level(q.y)), Refusal::NoVoucher)
    }

    fn make(&self) -> Answer {
        let q = self.q;
        need(self.state.is_container(q.z), Refusal::WrongItem)?;
        need(!self.state.used.has(q.y), Refusal::NumberUsed)?;
        need(self.managed(), Refusal::RoleDenied)?;
        need(self.state.has_access(q.x, q.z, Mode::Write), Refusal::AccessMissing)?;
        let below_role = self.order.below(q.l, self.role_level());
        let below_holder = self.order.below(q.l, self.level(q.z));
        need(below_role && self.role_below_x() && below_holder, Refusal::Levels)?;
        need(self.vouched(self.level(q.z)), Refusal::NoVoucher)
    }

    fn link(&self) -> Answer {
        let q = self.q;
        need(self.state.is_object(q.y) && self.state.is_container(q.z), Refusal::WrongItem)?;
        need(self.free(), Refusal::Protected)?;
        need(self.state.has_access(q.x, q.z, Mode::Write), Refusal::AccessMissing)?;
        need(self.order.below(self.level(q.y), self.level(q.z)), Refusal::Levels)?;
        need(self.vouched(self.level(q.z)), Refusal::NoVoucher)
    }

    fn unlink(&self) -> Answer {
        let q = self.q;
        need(self.state.is_object(q.y) && self.state.is_container(q.z), Refusal::WrongItem)?;
        need(self.free(), Refusal::Protected)?;
        let mut elsewhere = self.state.holders[q.y];
        need(elsewhere.has(q.z), Refusal::NotInContainer)?;
        elsewhere.remove(q.z);
        need(!elsewhere.is_empty(), Refusal::OtherHoldings)?;
        need(self.may_take_out(), Refusal::AccessMissing)?;
        need(self.vouched(self.level(q.z)), Refusal::NoVoucher)
    }

    fn delete(&self) -> Answer {
        let q = self.q;
        need(self.state.lives(q.y) && self.state.is_container(q.z), Refusal::WrongItem)?;
        need(self.free(), Refusal::Protected)?;
        let mut elsewhere = self.state.holders[q.y];
        need(elsewhere.has(q.z), Refusal::NotInContainer)?;
        elsewhere.remove(q.z);
        need(elsewhere.is_empty() && self.state.contents[q.y].is_empty(), Refusal::OtherHoldings)?;
        need(self.may_take_out(), Refusal::AccessMissing)?;
        need(self.vouched(self.level(q.z)), Refusal::NoVoucher)
    }

    fn open(&self) -> Answer {
        let q = self.q;
        need(self.state.is_object(q.y), Refusal::WrongItem)?;
        need(!self.state.used.has(q.z), Refusal::NumberUsed)?;
        need(self.managed(), Refusal::RoleDenied)?;
        need(self.state.may(q.x, q.y, Mode::Execute), Refusal::AccessMissing)?;
        need(self.state.reaches(self.order, q.x, q.y), Refusal::NotReached)?;
        need(self.order.below(q.l, self.role_level()) && self.role_below_x(), Refusal::Levels)?;
        need(self.vouched(q.l), Refusal::NoVoucher)
    }

    fn close(&self) -> Answer {
        let q = self.q;
        need(self.state.lives(q.y), Refusal::WrongItem)?;
        need(self.state.has_access(q.x, q.y, Mode::Own), Refusal::AccessMissing)?;
        need(self.order.below(self.level(q.y), self.level(q.x)), Refusal::Levels)?;
        need(self.vouched(self.level(q.y)), Refusal::NoVoucher)
    }

    fn gain(&self) -> Answer {
        let q = self.q;
        need(self.state.lives(q.y), Refusal::WrongItem)?;
        need(self.state.may(q.x, q.y, q.mode()), Refusal::AccessMissing)?;
        need(self.state.reaches(self.order, q.x, q.y), Refusal::NotReached)?;
        need(q.mode() == Mode::Read || self.vouched(self.level(q.y)), Refusal::NoVoucher)
    }

    fn give_up(&self) -> Answer {
        let q = self.q;
        need(self.state.lives(q.y), Refusal::WrongItem)?;
        need(self.state.has_access(q.x, q.y, q.mode()), Refusal::AccessMissing)
    }
}

impl State {
    /// The request, if all its needs are met.
    pub fn try_request<O: LevelOrder, R: HouseRule>(
        &self,
        order: &O,
        rule: &R,
        request: &Request,
    ) -> Result<Asked, Refusal> {
        let q = Asked::of(request)?;
        Needs { state: self, order, rule, q: &q }.all()?;
        Ok(q)
    }

    /// Does what the request asks for, when its needs are met.
    pub fn grant_request(&mut self, q: &Asked) {
        match q.kind {
            Kind::Take => self.take_role(q.x, q.r),
            Kind::Drop => self.sessions[q.x].held &= !(1 << q.r),
            Kind::Grant => self.add_right(q.r, q.y, q.mode()),
            Kind::Revoke => self.rights[q.mode() as usize][q.y] &= !(1 << q.r),
            Kind::Object => {
                self.add_item(q.y, q.l);
                self.house(q);
            }
            Kind::Container => {
                self.add_container(q.y, q.l, q.m as u8);
                self.house(q);
            }
            Kind::Link => self.put(q.z, q.y),
            Kind::Unlink => self.take_out(q.z, q.y),
            Kind::Delete => self.remove_entity(q.y),
            Kind::Open => self.open(q),
            Kind::Close => self.remove_session(q.y),
            Kind::Gain => self.gain(q),
            Kind::GiveUp => self.accesses[q.mode() as usize][q.y] &= !(1 << q.x),
        }
    }

    /// The new entity lies in its container, and its role owns it.
    fn house(&mut self, q: &Asked) {
        self.put(q.z, q.y);
        self.add_right(q.r, q.y, Mode::Own);
    }

    fn open(&mut self, q: &Asked) {
        self.add_session(q.z, q.l, self.sessions[q.x].account, q.y as u8, q.x as u8);
        self.add_access(q.x, q.z, Mode::Own);
        self.add_right(q.r, q.z, Mode::Own);
        self.settle();
    }

    fn gain(&mut self, q: &Asked) {
        let adds = self.gain_adds(q.x, q.y, q.mode());
        self.add_access(q.x, q.y, q.mode());
        if adds {
            self.settle();
        }
    }
}
