//! Sets as bits: of sessions and roles in one word, of items in four.

/// One more than the greatest item.
pub const ITEMS: usize = 256;
/// One more than the greatest session.
pub const SESSIONS: usize = 64;
/// The number of roles.
pub const ROLES: usize = 32;
/// The number of accounts.
pub const ACCOUNTS: usize = 16;

/// A set of sessions: bit n for session n.
pub type SessionSet = u64;
/// A set of roles: bit n for role n.
pub type RoleSet = u32;

/// The numbers of the bits that are set, ascending.
#[inline]
pub fn bits(mut word: u64) -> impl Iterator<Item = usize> {
    std::iter::from_fn(move || {
        if word == 0 {
            return None;
        }
        let bit = word.trailing_zeros() as usize;
        word &= word - 1;
        Some(bit)
    })
}

/// The roles of a set, ascending.
#[inline]
pub fn roles_of(set: RoleSet) -> impl Iterator<Item = usize> {
    bits(u64::from(set))
}

/// A set of items: item i is bit i % 64 of word i / 64. The first word is the sessions.
#[derive(Clone, Copy, Default, PartialEq, Eq)]
pub struct ItemSet([u64; 4]);

impl ItemSet {
    pub const EMPTY: ItemSet = ItemSet([0; 4]);

    #[inline]
    pub fn one(item: usize) -> ItemSet {
        let mut set = ItemSet::EMPTY;
        set.add(item);
        set
    }

    #[inline]
    pub fn sessions(&self) -> SessionSet {
        self.0[0]
    }

    #[inline]
    pub fn has(&self, item: usize) -> bool {
        self.0[item / 64] >> (item % 64) & 1 != 0
    }

    #[inline]
    pub fn add(&mut self, item: usize) {
        self.0[item / 64] |= 1 << (item % 64);
    }

    #[inline]
    pub fn remove(&mut self, item: usize) {
        self.0[item / 64] &= !(1 << (item % 64));
    }

    #[inline]
    pub fn add_sessions(&mut self, sessions: SessionSet) {
        self.0[0] |= sessions;
    }

    #[inline]
    pub fn add_all(&mut self, other: &ItemSet) {
        for (word, more) in self.0.iter_mut().zip(other.0) {
            *word |= more;
        }
    }

    #[inline]
    pub fn and(&self, other: &ItemSet) -> ItemSet {
        ItemSet(std::array::from_fn(|i| self.0[i] & other.0[i]))
    }

    #[inline]
    pub fn without(&self, other: &ItemSet) -> ItemSet {
        ItemSet(std::array::from_fn(|i| self.0[i] & !other.0[i]))
    }

    #[inline]
    pub fn is_empty(&self) -> bool {
        self.0.iter().all(|&word| word == 0)
    }

    #[inline]
    pub fn contains_all(&self, other: &ItemSet) -> bool {
        other.without(self).is_empty()
    }

    /// Takes the least item out.
    #[inline]
    pub fn pop(&mut self) -> Option<usize> {
        for (i, word) in self.0.iter_mut().enumerate() {
            if *word != 0 {
                let bit = word.trailing_zeros() as usize;
                *word &= *word - 1;
                return Some(64 * i + bit);
            }
        }
        None
    }

    /// The items, ascending.
    #[inline]
    pub fn iter(&self) -> Items {
        Items { word: self.0[0], base: 0, rest: self.0 }
    }
}

/// The items of a set, ascending: those left of one word, which begins at the base, and the words behind it.
pub struct Items {
    word: u64,
    base: usize,
    rest: [u64; 4],
}

impl Iterator for Items {
    type Item = usize;

    #[inline]
    fn next(&mut self) -> Option<usize> {
        while self.word == 0 {
            self.base += 64;
            self.word = *self.rest.get(self.base / 64)?;
        }
        let bit = self.word.trailing_zeros() as usize;
        self.word &= self.word - 1;
        Some(self.base + bit)
    }
}
