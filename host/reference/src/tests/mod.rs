//! Tests. Every expectation is worked out from docs/MANUAL.md and the COFFEE Core user manual
//! (July 2007), not from the code.

mod bench;
mod carried;
mod control_block;
mod encode;
mod exceptions;
mod fields;
mod images;
mod interrupts;
mod listing;
mod operations;
mod random;
mod reach;
mod required_nops;
mod stack_top;
mod timers;
mod transfers;
mod words;
mod worked;
