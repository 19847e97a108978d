//! Compares two implementations of the COFFEE core's run call, of its listing, of its writing
//! of words, of its carrying over of earlier images and of its map of reachable words on seeded
//! random calls.
//!
//! docs/MANUAL.md says what they do: a step (section 4), the timers (7), images (8), run calls
//! and carry-overs (9), listings (11), written words (12) and reachable words (13). One side
//! is the reference emulator of host/reference; the other is the proved library, or, to show
//! that the comparison can fail, a faulty copy of the reference.

pub mod call;
pub mod carried;
pub mod compare;
pub mod coverage;
pub mod damage;
pub mod difference;
pub mod encode;
pub mod guarded;
pub mod image;
pub mod listing;
pub mod met;
pub mod program;
pub mod random;
pub mod reach;
pub mod required_nops;
pub mod series;
pub mod session;
pub mod shrink;
pub mod stack_top;
pub mod state;
pub mod timers;
pub mod words;
