//! `fuzz [--seed N] [--calls N] [--seconds N] [--words N] [--choices N] [--carried N]
//! [--programs N]`, and `[--case N]`, `[--listing N]`, `[--choice N]`, `[--carry N]` or
//! `[--program N]` to repeat one: compares the COFFEE library with the reference emulator on
//! every 16-bit word and on random 32-bit words, listed; on words written from every 16-bit
//! word, from random 32-bit words and from random choices; on images of the earlier layout
//! carried over; on the words of random programs that can be reached; and on seeded random
//! calls.
//!
//! Prints what each of the five met, `fuzz: N 32-bit words and N 16-bit words listed, no
//! difference`, `fuzz: N choices compared, N 32-bit words and N 16-bit words among them, no
//! difference`, `fuzz: N carry-overs compared, N images carried over, no difference`, `fuzz: N
//! programs compared, N words reached in them, N of these only as slots, no difference`, and at
//! the end `fuzz: N calls, no difference`; or the first difference, with everything that is
//! needed to repeat it, and ends with 1. It ends with 1 too where 200,000 32-bit words or more,
//! 2,000,000 choices or more, 200,000 carry-overs or more, 2,000,000 programs or more, or
//! 2,000,000 calls or more, did not meet all that they should.

use coffee_fuzz::carried;
use coffee_fuzz::compare::Sides;
use coffee_fuzz::coverage::Coverage;
use coffee_fuzz::encode;
use coffee_fuzz::image::LONGEST;
use coffee_fuzz::listing;
use coffee_fuzz::met::Met;
use coffee_fuzz::reach;
use coffee_fuzz::series::{noted, Outcome};
use coffee_fuzz::session::{self, Options};
use std::process::ExitCode;
use std::sync::atomic::{AtomicU64, Ordering};
use std::time::Instant;

/// The usual session: about a minute.
const SEED: u64 = 1;
const CALLS: u64 = 2_000_000;
const WORDS: u64 = 200_000;
const CHOICES: u64 = 2_000_000;
const CARRIED: u64 = 200_000;
const PROGRAMS: u64 = 2_000_000;

const USAGE: &str = "fuzz [--seed N] [--calls N] [--seconds N] [--words N] [--choices N] \
                     [--carried N] [--programs N] [--case N] [--listing N] [--choice N] \
                     [--carry N] [--program N]";

mod library {
    //! The C interface of libcoffee.a.

    use coffee_reference::{Answer, Choice};

    #[repr(C)]
    struct CoffeeAnswer {
        refusal: u32,
        steps: u32,
        ending: u32,
    }

    extern "C" {
        fn coffee_run(
            program: *const u8,
            program_len: usize,
            cells: *mut u32,
            cells_len: usize,
            image: *const u8,
            image_len: usize,
            requests: *const u32,
            requests_len: usize,
            limit: u32,
            buffer: *mut u8,
            buffer_len: usize,
        ) -> CoffeeAnswer;
        fn coffee_reset(buffer: *mut u8, buffer_bytes: usize) -> u32;
        fn coffee_carry_over(
            image: *const u8,
            image_bytes: usize,
            buffer: *mut u8,
            buffer_bytes: usize,
        ) -> u32;
        fn coffee_listing(
            program: *const u8,
            program_bytes: usize,
            wide: u32,
            text: *mut u8,
            text_bytes: usize,
        ) -> u32;
        fn coffee_encode(
            operation: u32,
            wide: u32,
            conditional: u32,
            creg: u32,
            condition: u32,
            a: i32,
            b: i32,
            c: i32,
            d: i32,
        ) -> u64;
        fn coffee_reach(
            program: *const u8,
            program_bytes: usize,
            wide: u32,
            start: u32,
            map: *mut u8,
            map_bytes: usize,
        ) -> u32;
    }

    pub fn run(
        program: &[u8],
        cells: &mut [u32],
        image: &[u8],
        requests: &[u32],
        limit: u32,
        buffer: &mut [u8],
    ) -> Answer {
        // Each pointer comes with the length of the slice that it is of.
        let answer = unsafe {
            coffee_run(
                program.as_ptr(),
                program.len(),
                cells.as_mut_ptr(),
                cells.len(),
                image.as_ptr(),
                image.len(),
                requests.as_ptr(),
                requests.len(),
                limit,
                buffer.as_mut_ptr(),
                buffer.len(),
            )
        };
        Answer {
            refusal: answer.refusal,
            steps: answer.steps,
            ending: answer.ending,
        }
    }

    pub fn reset(buffer: &mut [u8]) -> u32 {
        // The pointer comes with the length of the slice that it is of.
        unsafe { coffee_reset(buffer.as_mut_ptr(), buffer.len()) }
    }

    pub fn carry_over(image: &[u8], buffer: &mut [u8]) -> u32 {
        // Each pointer comes with the length of the slice that it is of; one of no bytes may
        // be null.
        let (image_start, buffer_start) = (start(image), start_mut(buffer));
        unsafe { coffee_carry_over(image_start, image.len(), buffer_start, buffer.len()) }
    }

    /// The start of a slice, null where it has no bytes.
    fn start(bytes: &[u8]) -> *const u8 {
        if bytes.is_empty() {
            std::ptr::null()
        } else {
            bytes.as_ptr()
        }
    }

    /// The start of a slice to be written, null where it has no bytes.
    fn start_mut(bytes: &mut [u8]) -> *mut u8 {
        if bytes.is_empty() {
            std::ptr::null_mut()
        } else {
            bytes.as_mut_ptr()
        }
    }

    pub fn listing(program: &[u8], wide: u32, text: &mut [u8]) -> u32 {
        // Each pointer comes with the length of the slice that it is of; one of no bytes may
        // be null.
        let (program_start, text_start) = (start(program), start_mut(text));
        unsafe { coffee_listing(program_start, program.len(), wide, text_start, text.len()) }
    }

    pub fn encode(choice: &Choice) -> u64 {
        let [a, b, c, d] = choice.operands;
        // Numbers alone.
        unsafe {
            coffee_encode(
                choice.operation,
                choice.wide,
                choice.conditional,
                choice.creg,
                choice.condition,
                a,
                b,
                c,
                d,
            )
        }
    }

    pub fn reach(program: &[u8], wide: u32, first: u32, map: &mut [u8]) -> u32 {
        // Each pointer comes with the length of the slice that it is of; one of no bytes may
        // be null.
        let (program_start, map_start) = (start(program), start_mut(map));
        unsafe {
            coffee_reach(
                program_start,
                program.len(),
                wide,
                first,
                map_start,
                map.len(),
            )
        }
    }
}

/// The seed, for a message where the process ends by a panic or a signal.
static CURRENT_SEED: AtomicU64 = AtomicU64::new(0);

/// Sees to it that the seed and the case are told where the process ends early.
fn watch(seed: u64) {
    CURRENT_SEED.store(seed, Ordering::Relaxed);
    let usual = std::panic::take_hook();
    std::panic::set_hook(Box::new(move |panic| {
        usual(panic);
        let (option, number) = noted();
        eprintln!("fuzz: panic; repeat with --seed {seed} {option} {number}");
    }));
    #[cfg(target_os = "linux")]
    signals::watch();
}

#[cfg(target_os = "linux")]
mod signals {
    //! Says which case was running when the library ended the process.

    use super::*;
    use std::io::Write;

    extern "C" {
        fn signal(number: i32, handler: extern "C" fn(i32)) -> usize;
        fn _exit(status: i32) -> !;
    }

    /// SIGILL, SIGABRT, SIGBUS, SIGFPE, SIGSEGV, SIGTERM.
    const SIGNALS: [i32; 6] = [4, 6, 7, 8, 11, 15];

    extern "C" fn report(number: i32) {
        let seed = CURRENT_SEED.load(Ordering::Relaxed);
        let (option, repeated) = noted();
        let mut line = [0; 100];
        let mut rest = &mut line[..];
        let _ = writeln!(
            rest,
            "fuzz: signal {number}; repeat with --seed {seed} {option} {repeated}"
        );
        let unused = rest.len();
        let _ = std::io::stderr().write_all(&line[..line.len() - unused]);
        unsafe { _exit(1) }
    }

    pub fn watch() {
        for number in SIGNALS {
            unsafe { signal(number, report) };
        }
    }
}

fn main() -> ExitCode {
    let usual = Options {
        calls: Some(CALLS),
        words: WORDS,
        choices: CHOICES,
        carried: CARRIED,
        programs: PROGRAMS,
        ..Options::of_seed(SEED)
    };
    let options = match session::options(usual, std::env::args().skip(1)) {
        Ok(options) => options,
        Err(message) => {
            eprintln!("fuzz: {message}");
            eprintln!("{USAGE}");
            return ExitCode::from(2);
        }
    };
    watch(options.seed);

    if let Err(message) = compare_reset() {
        println!("{message}");
        return ExitCode::FAILURE;
    }
    let Options {
        case,
        listing,
        choice,
        carry,
        program,
        ..
    } = options;
    let one_alone = [case, listing, choice, carry, program]
        .iter()
        .any(Option::is_some);
    if (listing.is_some() || !one_alone) && !compare_listings(&options) {
        return ExitCode::FAILURE;
    }
    if (choice.is_some() || !one_alone) && !compare_choices(&options) {
        return ExitCode::FAILURE;
    }
    if (carry.is_some() || !one_alone) && !compare_carried(&options) {
        return ExitCode::FAILURE;
    }
    if (program.is_some() || !one_alone) && !compare_programs(&options) {
        return ExitCode::FAILURE;
    }
    if (case.is_some() || !one_alone) && !compare_calls(&options) {
        return ExitCode::FAILURE;
    }
    ExitCode::SUCCESS
}

/// Compares calls, prints what they met, and says whether all is as it should be.
fn compare_calls(options: &Options) -> bool {
    let start = Instant::now();
    let sides = Sides {
        reference: coffee_reference::run,
        library: library::run,
    };
    let outcome = session::run(options, sides);
    let Coverage { calls, cases, .. } = outcome.coverage;
    let told = Told {
        name: "calls",
        compared: format!("{calls} calls in {cases} lists"),
        agreed: format!("{calls} calls"),
        alone: options.case.is_some(),
        many: calls >= CALLS,
    };
    let explain = |found: &session::Found| session::explain(found, sides);
    tell(&outcome, options.seed, start, told, explain)
}

/// Compares listings, prints what they met, and says whether all is as it should be.
fn compare_listings(options: &Options) -> bool {
    let start = Instant::now();
    let sides = listing::Sides {
        reference: coffee_reference::listing,
        library: library::listing,
    };
    let outcome = listing::run(options, sides);
    let [short, wide] = outcome.coverage.lines;
    let told = Told {
        name: "listings",
        compared: format!("{} listings", outcome.coverage.listings),
        agreed: format!("{wide} 32-bit words and {short} 16-bit words listed"),
        alone: options.listing.is_some(),
        many: wide >= WORDS,
    };
    tell(&outcome, options.seed, start, told, listing::explain)
}

/// Compares written words, prints what they met, and says whether all is as it should be.
fn compare_choices(options: &Options) -> bool {
    let start = Instant::now();
    let sides = encode::Sides {
        reference: coffee_reference::encode,
        library: library::encode,
    };
    let outcome = encode::run(options, sides);
    let choices = outcome.coverage.choices;
    let [short, wide] = outcome.coverage.words();
    let told = Told {
        name: "choices",
        compared: format!("{choices} choices"),
        agreed: format!(
            "{choices} choices compared, {wide} 32-bit words and {short} 16-bit words among them"
        ),
        alone: options.choice.is_some(),
        many: choices >= CHOICES,
    };
    tell(&outcome, options.seed, start, told, encode::explain)
}

/// Compares carry-overs, prints what they met, and says whether all is as it should be.
fn compare_carried(options: &Options) -> bool {
    let start = Instant::now();
    let sides = carried::Sides {
        reference: coffee_reference::carry_over,
        library: library::carry_over,
    };
    let outcome = carried::run(options, sides);
    let compared = outcome.coverage.compared;
    let told = Told {
        name: "carry-overs",
        compared: format!("{compared} carry-overs"),
        agreed: format!(
            "{compared} carry-overs compared, {} images carried over",
            outcome.coverage.carried()
        ),
        alone: options.carry.is_some(),
        many: compared >= CARRIED,
    };
    tell(&outcome, options.seed, start, told, carried::explain)
}

/// Compares maps of reachable words, prints what they met, and says whether all is as it should
/// be.
fn compare_programs(options: &Options) -> bool {
    let start = Instant::now();
    let sides = reach::Sides {
        reference: reach::reference,
        library: library::reach,
    };
    let outcome = reach::run(options, sides);
    let programs = outcome.coverage.programs;
    let [reached, slots] = outcome.coverage.reached();
    let told = Told {
        name: "programs",
        compared: format!("{programs} programs"),
        agreed: format!(
            "{programs} programs compared, {reached} words reached in them, {slots} of these only as slots"
        ),
        alone: options.program.is_some(),
        many: programs >= PROGRAMS,
    };
    let explain = |found: &reach::Found| reach::explain(found, sides);
    tell(&outcome, options.seed, start, told, explain)
}

/// What is said of a session.
struct Told {
    name: &'static str,
    compared: String,
    /// On what there is no difference.
    agreed: String,
    /// Whether it was one alone, which need not meet all.
    alone: bool,
    /// Whether it should have met all.
    many: bool,
}

/// Prints what a session met and what it came to, and says whether all is as it should be.
fn tell<C: Met, F>(
    outcome: &Outcome<C, F>,
    seed: u64,
    start: Instant,
    told: Told,
    explain: impl Fn(&F) -> String,
) -> bool {
    let seconds = start.elapsed().as_secs_f64();
    println!("seed {seed}: {}, {seconds:.1} s", told.compared);
    print!("{}", outcome.coverage.report());
    if let Some(found) = &outcome.found {
        print!("{}", explain(found));
        return false;
    }
    let unmet = if told.alone {
        Vec::new()
    } else {
        outcome.coverage.unmet()
    };
    for what in &unmet {
        println!("not met: {what}");
    }
    println!("fuzz: {}, no difference", told.agreed);
    if told.many && !unmet.is_empty() {
        println!("fuzz: failed, for these {} should have met all", told.name);
        return false;
    }
    true
}

/// Compares reset on buffers of every length around the least, LONGEST.
fn compare_reset() -> Result<(), String> {
    for length in 0..LONGEST + 40 {
        let mut expected = vec![0xA5; length];
        let mut given = expected.clone();
        let answers = (
            coffee_reference::reset(&mut expected),
            library::reset(&mut given),
        );
        if answers.0 != answers.1 || expected != given {
            return Err(format!(
                "difference: reset with {length} bytes: reference {}, library {}, {}",
                answers.0,
                answers.1,
                match expected.iter().zip(&given).position(|(a, b)| a != b) {
                    Some(index) => format!("buffers differ first at byte {index}"),
                    None => "buffers alike".to_string(),
                }
            ));
        }
    }
    Ok(())
}
