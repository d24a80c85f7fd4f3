//! A plain access monitor, written to `docs/RULES.md` alone, to compare the proved one with.

pub mod bench;
pub mod draw;
pub mod flows;
pub mod form;
pub mod monitor;
pub mod pedal;
pub mod policy;
pub mod refusal;
pub mod request;
pub mod script;
pub mod sets;
pub mod start;
pub mod state;
pub mod tally;
pub mod text;
