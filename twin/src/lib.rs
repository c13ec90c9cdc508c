//! A Time Warp bench of boards on a bus, in plain Rust and written from the rules alone.
//!
//! It is the twin of the verified simulator: it shares no code with it, so that a difference
//! between what the two print shows a mistake in one of them or in the rules' page.

pub mod bench;
pub mod board;
pub mod check;
pub mod generate;
pub mod message;
pub mod programs;
pub mod random;
pub mod refusal;
pub mod schedule;
pub mod sequential;
pub mod survey;
pub mod verified;
