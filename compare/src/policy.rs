//! Level orders and house rules.

use crate::sets::RoleSet;

/// An order of level codes.
pub trait LevelOrder {
    fn top(&self) -> u16;
    fn knows(&self, code: u16) -> bool;
    /// `a` is at or below `b`.
    fn below(&self, a: u16, b: u16) -> bool;
}

impl LevelOrder for Box<dyn LevelOrder> {
    fn top(&self) -> u16 {
        (**self).top()
    }

    fn knows(&self, code: u16) -> bool {
        (**self).knows(code)
    }

    fn below(&self, a: u16, b: u16) -> bool {
        (**self).below(a, b)
    }
}

/// The codes 0 to 15, as numbers.
pub struct Ladder;

impl LevelOrder for Ladder {
    fn top(&self) -> u16 {
        15
    }

    fn knows(&self, code: u16) -> bool {
        code <= 15
    }

    fn below(&self, a: u16, b: u16) -> bool {
        a <= b && self.knows(b)
    }
}

/// The codes 0 to 255, by their bits.
pub struct Badges;

impl LevelOrder for Badges {
    fn top(&self) -> u16 {
        255
    }

    fn knows(&self, code: u16) -> bool {
        code <= 255
    }

    fn below(&self, a: u16, b: u16) -> bool {
        a & !b == 0 && self.knows(b)
    }
}

/// A rule on who may take a role.
pub trait HouseRule {
    /// A session of the account that ever took the roles of `life` may take `role`.
    fn allows(&self, account: usize, life: RoleSet, role: usize) -> bool;
}

impl HouseRule for Box<dyn HouseRule> {
    fn allows(&self, account: usize, life: RoleSet, role: usize) -> bool {
        (**self).allows(account, life, role)
    }
}

/// Pairs of roles that no session ever takes both.
#[derive(Clone, Default)]
pub struct Separation {
    pairs: Vec<(u32, u32)>,
}

impl Separation {
    pub fn new(pairs: &[(u32, u32)]) -> Option<Separation> {
        let sound = |&(a, b): &(u32, u32)| a != b && a <= 31 && b <= 31;
        (pairs.len() <= 8 && pairs.iter().all(sound)).then(|| Separation { pairs: pairs.to_vec() })
    }
}

impl HouseRule for Separation {
    fn allows(&self, _account: usize, life: RoleSet, role: usize) -> bool {
        let took = |r: u32| life >> r & 1 != 0;
        let role = role as u32;
        !self.pairs.iter().any(|&(a, b)| role == a && took(b) || role == b && took(a))
    }
}

/// At most so many roles of a group, ever.
pub struct Quota {
    group: RoleSet,
    most: u32,
}

impl Quota {
    pub fn new(group: RoleSet, most: u32) -> Option<Quota> {
        (most <= 32).then_some(Quota { group, most })
    }
}

impl HouseRule for Quota {
    fn allows(&self, _account: usize, life: RoleSet, role: usize) -> bool {
        ((life | 1 << role) & self.group).count_ones() <= self.most
    }
}
