//! `faults [--seed N] [--calls N] [--seconds N] [--words N] [--choices N] [--carried N]
//! [--programs N] [NAME]`: shows that the comparison can fail. Each fault of faults/list.rs is
//! put into a copy of the reference, alone; the copy is compared with the reference as the
//! library would be, by calls, by listings, by written words, by carry-overs or by maps of
//! reachable words.
//!
//! Prints for each fault the number of calls, of listed words, of choices, of carry-overs or of
//! programs after which it was found, and ends with 1 if one was not. With a name, prints that
//! fault's difference in full.

use coffee_faults::FAULTS;
use coffee_fuzz::carried;
use coffee_fuzz::compare::Sides;
use coffee_fuzz::encode;
use coffee_fuzz::listing;
use coffee_fuzz::met::Met;
use coffee_fuzz::reach;
use coffee_fuzz::session::{self, Options};
use std::process::ExitCode;
use std::time::Instant;

const SEED: u64 = 1;
/// A fault has to be found within this many calls.
const CALLS: u64 = 300_000;
/// The copy without a fault has to agree on this many calls.
const UNCHANGED_CALLS: u64 = 20_000;
/// A fault of the listing has to be found within this many 32-bit words, on which the copy
/// without a fault has to agree.
const WORDS: u64 = 200_000;
/// A fault in writing words has to be found within this many choices, on which the copy
/// without a fault has to agree.
const CHOICES: u64 = 300_000;
/// A fault in carrying over has to be found within this many carry-overs, on which the copy
/// without a fault has to agree.
const CARRIED: u64 = 50_000;
/// A fault in mapping reachable words has to be found within this many programs, on which the
/// copy without a fault has to agree.
const PROGRAMS: u64 = 100_000;

/// What the faults came to.
#[derive(Default)]
struct Tally {
    /// Whether all is printed of what is found.
    in_full: bool,
    tried: u64,
    /// Those that were not as they should be.
    wrong: u64,
    /// The latest call, listing, choice, carry-over and program at which one was found.
    latest_call: u64,
    latest_listing: u64,
    latest_choice: u64,
    latest_carry: u64,
    latest_program: u64,
}

impl Tally {
    /// Prints where a fault was found, and what was found where all of it is wanted.
    fn found(&mut self, fault: &str, start: Instant, at: &str, explain: impl Fn() -> String) {
        let seconds = start.elapsed().as_secs_f64();
        println!("{fault}: found at {at} ({seconds:.2} s)");
        self.wrong += u64::from(fault == "none");
        if self.in_full || fault == "none" {
            print!("{}", explain());
        }
    }

    /// Prints that there was no difference, and of the copy without a fault what it met.
    fn agreed(&mut self, fault: &str, start: Instant, compared: &str, coverage: &impl Met) {
        let seconds = start.elapsed().as_secs_f64();
        println!("{fault}: no difference in {compared} ({seconds:.2} s)");
        self.wrong += u64::from(fault != "none");
        if fault == "none" && self.in_full {
            print!("{}", coverage.report());
            for what in coverage.unmet() {
                println!("not met: {what}");
            }
        }
    }
}

fn main() -> ExitCode {
    let usual = Options {
        calls: Some(CALLS),
        words: WORDS,
        choices: CHOICES,
        carried: CARRIED,
        programs: PROGRAMS,
        ..Options::of_seed(SEED)
    };
    let mut arguments: Vec<String> = std::env::args().skip(1).collect();
    let name = match arguments.len() % 2 {
        1 => arguments.pop(),
        _ => None,
    };
    let options = match session::options(usual, arguments.into_iter()) {
        Ok(options) => options,
        Err(message) => {
            eprintln!("faults: {message}");
            eprintln!(
                "faults [--seed N] [--calls N] [--seconds N] [--words N] [--choices N] [--carried N] \
                 [--programs N] [NAME]"
            );
            return ExitCode::from(2);
        }
    };
    let mut tally = Tally {
        in_full: name.is_some(),
        ..Tally::default()
    };
    for copy in FAULTS {
        if name.as_deref().is_some_and(|name| name != copy.name) {
            continue;
        }
        tally.tried += 1;
        if let Some(run) = copy.run {
            let sides = Sides {
                reference: coffee_reference::run,
                library: run,
            };
            try_calls(copy.name, sides, &options, &mut tally);
        }
        if let Some(listing) = copy.listing {
            let sides = listing::Sides {
                reference: coffee_reference::listing,
                library: listing,
            };
            try_listings(copy.name, sides, &options, &mut tally);
        }
        if let Some(encode) = copy.encode {
            let sides = encode::Sides {
                reference: coffee_reference::encode,
                library: encode,
            };
            try_choices(copy.name, sides, &options, &mut tally);
        }
        if let Some(carry_over) = copy.carry_over {
            let sides = carried::Sides {
                reference: coffee_reference::carry_over,
                library: carry_over,
            };
            try_carried(copy.name, sides, &options, &mut tally);
        }
        if let Some(reach) = copy.reach {
            let sides = reach::Sides {
                reference: reach::reference,
                library: reach,
            };
            try_programs(copy.name, sides, &options, &mut tally);
        }
    }
    if tally.tried == 0 {
        eprintln!("faults: no such fault");
        return ExitCode::from(2);
    }
    println!(
        "faults: {} tried, {}, the latest found at call {}, at listing {}, at choice {}, at carry-over {} \
         and at program {}",
        tally.tried,
        if tally.wrong == 0 {
            "all as they should be"
        } else {
            "NOT all found"
        },
        tally.latest_call,
        tally.latest_listing,
        tally.latest_choice,
        tally.latest_carry,
        tally.latest_program
    );
    if tally.wrong == 0 {
        ExitCode::SUCCESS
    } else {
        ExitCode::FAILURE
    }
}

/// Compares the run calls of a copy.
fn try_calls(fault: &str, sides: Sides, options: &Options, tally: &mut Tally) {
    let start = Instant::now();
    let mut options = options.clone();
    if fault == "none" {
        options.calls = options.calls.map(|calls| calls.min(UNCHANGED_CALLS));
    }
    let outcome = session::run(&options, sides);
    match &outcome.found {
        Some(found) => {
            let session::Input {
                number, stepwise, ..
            } = found.input;
            tally.latest_call = tally.latest_call.max(number);
            let stepwise = if stepwise { ", step by step" } else { "" };
            let at = format!("call {number}{stepwise}");
            tally.found(fault, start, &at, || session::explain(found, sides));
        }
        None => {
            let compared = format!("{} calls", outcome.coverage.calls);
            tally.agreed(fault, start, &compared, &outcome.coverage);
        }
    }
}

/// Compares the listings of a copy.
fn try_listings(fault: &str, sides: listing::Sides, options: &Options, tally: &mut Tally) {
    let start = Instant::now();
    let outcome = listing::run(options, sides);
    let words = outcome.coverage.words();
    match &outcome.found {
        Some(found) => {
            tally.latest_listing = tally.latest_listing.max(found.place.number);
            let at = format!("listing {}, after {words} words", found.place.number);
            tally.found(fault, start, &at, || listing::explain(found));
        }
        None => {
            let compared = format!("{words} listed words");
            tally.agreed(fault, start, &compared, &outcome.coverage);
        }
    }
}

/// Compares the written words of a copy.
fn try_choices(fault: &str, sides: encode::Sides, options: &Options, tally: &mut Tally) {
    let start = Instant::now();
    let outcome = encode::run(options, sides);
    match &outcome.found {
        Some(found) => {
            tally.latest_choice = tally.latest_choice.max(found.place.number);
            let at = format!("choice {}", found.place.number);
            tally.found(fault, start, &at, || encode::explain(found));
        }
        None => {
            let compared = format!("{} choices", outcome.coverage.choices);
            tally.agreed(fault, start, &compared, &outcome.coverage);
        }
    }
}

/// Compares the carry-overs of a copy.
fn try_carried(fault: &str, sides: carried::Sides, options: &Options, tally: &mut Tally) {
    let start = Instant::now();
    let outcome = carried::run(options, sides);
    match &outcome.found {
        Some(found) => {
            tally.latest_carry = tally.latest_carry.max(found.place.number);
            let at = format!("carry-over {}", found.place.number);
            tally.found(fault, start, &at, || carried::explain(found));
        }
        None => {
            let compared = format!("{} carry-overs", outcome.coverage.compared);
            tally.agreed(fault, start, &compared, &outcome.coverage);
        }
    }
}

/// Compares the maps of a copy.
fn try_programs(fault: &str, sides: reach::Sides, options: &Options, tally: &mut Tally) {
    let start = Instant::now();
    let outcome = reach::run(options, sides);
    match &outcome.found {
        Some(found) => {
            tally.latest_program = tally.latest_program.max(found.place.number);
            let at = format!("program {}", found.place.number);
            tally.found(fault, start, &at, || reach::explain(found, sides));
        }
        None => {
            let compared = format!("{} programs", outcome.coverage.programs);
            tally.agreed(fault, start, &compared, &outcome.coverage);
        }
    }
}
