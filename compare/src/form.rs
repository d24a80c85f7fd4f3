//! Which numbers of a request or question are used, and their ranges.

use crate::refusal::{Answer, Refusal, need};

/// How a number is used.
#[derive(Clone, Copy, PartialEq, Eq)]
pub enum Use {
    Not,
    /// It runs from one number to another.
    Span(u32, u32),
    /// It is a right.
    Right,
    /// It is an access.
    Access,
}

pub const ROLE: Use = Use::Span(0, 31);
pub const SESSION: Use = Use::Span(1, 63);
pub const ENTITY: Use = Use::Span(64, 255);
pub const ITEM: Use = Use::Span(1, 255);
pub const LEVEL: Use = Use::Span(0, 65_535);
pub const MARK: Use = Use::Span(0, 3);

impl Use {
    /// The number is in range; a right or access is on `item`.
    fn has(self, number: u32, item: u32) -> bool {
        let fits = item > 63 || number == 8;
        match self {
            Use::Not => true,
            Use::Span(least, most) => (least..=most).contains(&number),
            Use::Right => matches!(number, 1 | 2 | 4 | 8) && fits,
            Use::Access => matches!(number, 1 | 2 | 8) && fits,
        }
    }
}

/// The unused numbers are 0 and the others in range; rights and accesses are on `item`.
pub fn formed<const N: usize>(uses: &[Use; N], numbers: &[u32; N], item: u32) -> Answer {
    let each = || uses.iter().zip(numbers);
    need(each().all(|(u, n)| *u != Use::Not || *n == 0), Refusal::Form)?;
    need(each().all(|(u, n)| u.has(*n, item)), Refusal::Range)
}
