//! Copies of the reference emulator, each with one fault of list.rs, to show that the
//! comparison can fail. The first copy has no fault.

use coffee_reference::{Answer, Choice};

/// A run call: program, cells, image, requests, step limit, image buffer.
type Run = fn(&[u8], &mut [u32], &[u8], &[u32], u32, &mut [u8]) -> Answer;
/// A listing: program, width, text.
type Listing = fn(&[u8], u32, &mut [u8]) -> u32;
/// The writing of a word: the word, or 2^32 plus the refusal's number.
type Encode = fn(&Choice) -> u64;
/// A carry-over: image, buffer.
type CarryOver = fn(&[u8], &mut [u8]) -> u32;
/// A map of reachable words: program, width, start, map.
type Reach = fn(&[u8], u32, u32, &mut [u8]) -> u32;

/// A copy of the reference.
pub struct Faulty {
    /// The fault's name, `none` for the copy without a fault.
    pub name: &'static str,
    /// What is to show the fault. The copy without one has all five.
    pub run: Option<Run>,
    pub listing: Option<Listing>,
    pub encode: Option<Encode>,
    pub carry_over: Option<CarryOver>,
    pub reach: Option<Reach>,
}

include!(concat!(env!("OUT_DIR"), "/copies.rs"));
