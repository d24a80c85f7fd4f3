//! Inputs for `bench` and `pedal`, drawn at random.

mod asks;
mod damage;
mod random;
mod relays;
mod scripts;
mod texts;

pub use random::Random;
pub use scripts::{pedal_input, script};

/// Numbers at the edges of ranges.
const ODD: [u32; 27] = [
    0,
    1,
    2,
    3,
    4,
    5,
    7,
    8,
    9,
    10,
    13,
    14,
    15,
    16,
    31,
    32,
    63,
    64,
    65,
    66,
    128,
    254,
    255,
    256,
    65_535,
    65_536,
    u32::MAX,
];
