//! What the calls of a session met. Some calls are repeated step by step, each step a
//! call of its own on both sides; from the images between, and from the step without its
//! clock, the kind of each step is known.

use crate::call::{Call, Expected};
use crate::compare::{Bench, Difference, Run, Sides, STOPS};
use crate::damage::DAMAGES;
use crate::image::*;
use crate::met::{line, put, Met, Unmet, WIDTH_NAMES};
use crate::required_nops::{Outcome, RequiredNops};
use crate::stack_top::StackTop;
use crate::timers::{Done, Timers};
use crate::words::{self, *};
use coffee_reference::Answer;

/// Longer runs and larger memories are not repeated step by step.
const TRACED_STEPS: u32 = 600;
const TRACED_CELLS: usize = 5000;
const TRACED_BYTES: usize = 2000;

/// Exception codes but for traps; 01h does not occur.
const CODES: [usize; 9] = [0, 2, 3, 4, 5, 6, 7, 8, 9];

/// The operations that take fields, and the lengths and positions at the ends.
const FIELD_KINDS: [&str; 3] = ["16-bit exbf", "32-bit exbf", "exbfi"];
const END_LENGTHS: [usize; 5] = [0, 31, 32, 33, 63];
const END_POSITIONS: [usize; 2] = [0, 31];

/// Marks for registers that a step seldom writes. EXCEPTION_PSR can hold its mark, and no PSR
/// is that; both timers are disabled, and are far from their maxima if the step enables them.
const MARKS: [(usize, u32); 6] = [
    (EXCEPTION_PSR, 0xFF),
    (TMR0_CNT, 0x5A3C_9601),
    (TMR0_MAX_CNT, 0x3CA5_6902),
    (TMR1_CNT, 0xC35A_6903),
    (TMR1_MAX_CNT, 0xA53C_9604),
    (TMR_CONF, 0x2B4D_1D2B),
];

/// A step as it is without its clock.
struct Unclocked {
    /// The machine as the step's stores leave it.
    image: Image,
    done: Done,
}

/// Counts of what was met.
pub struct Coverage {
    pub calls: u64,
    pub cases: u64,
    refusals: [u64; 9],
    endings: [u64; 21],
    steps: u64,
    damages: [u64; DAMAGES.len()],
    /// From here on: of the calls that were repeated step by step.
    traced_calls: u64,
    traced_steps: u64,
    /// Steps by the PSR before them.
    status: [u64; 32],
    /// By width (0 for 16 bits, 1 for 32) and operation: carried out, and carried out
    /// with a visible effect beyond PC going on.
    done: [[u64; 64]; 2],
    effect: [[u64; 64]; 2],
    /// Parts that exb and exh take, by width.
    bytes: [[u64; 4]; 2],
    halfwords: [[u64; 2]; 2],
    /// Fields by kind: their lengths, their positions, those that pass bit 31.
    lengths: [[u64; 64]; 3],
    positions: [[u64; 32]; 3],
    beyond: [u64; 3],
    /// Conditional words by condition, false and true.
    conditional: [[u64; 2]; 8],
    /// Branches by width and condition, not taken and taken.
    branches: [[[u64; 2]; 8]; 2],
    /// Exceptions by code; those met in a slot and with a product held.
    exceptions: [u64; 256],
    exceptions_user: u64,
    exceptions_in_slot: u64,
    exceptions_with_product: u64,
    /// Loads and stores outside 32 bits, below 0 and above: 07h where the wrapped address
    /// is protected; 08h in user mode where it is not; 08h in super user mode where it is.
    wrapped_violations: [u64; 2],
    user_overflows: [u64; 2],
    super_user_overflows: [u64; 2],
    /// Loads and stores: of the control block by offset, all beyond 2Ch together; of
    /// the control block where it lies over cells; of cells.
    control: [[u64; CONTROL_REGISTERS + 1]; 2],
    over_cells: [u64; 2],
    cells: [u64; 2],
    accepted_source: [u64; SOURCES],
    accepted_depth: [u64; SOURCES + 1],
    accepted_user: [u64; 2],
    accepted_width: [u64; 2],
    accepted_tie: u64,
    accepted_with_product: u64,
    waited_for_slot: u64,
    waited_for_mulhi: u64,
    timers: Timers,
    stack_top: StackTop,
    /// Its stops are those of all calls.
    required_nops: RequiredNops,
}

impl Coverage {
    pub fn new() -> Coverage {
        Coverage {
            calls: 0,
            cases: 0,
            refusals: [0; 9],
            endings: [0; 21],
            steps: 0,
            damages: [0; DAMAGES.len()],
            traced_calls: 0,
            traced_steps: 0,
            status: [0; 32],
            done: [[0; 64]; 2],
            effect: [[0; 64]; 2],
            bytes: [[0; 4]; 2],
            halfwords: [[0; 2]; 2],
            lengths: [[0; 64]; 3],
            positions: [[0; 32]; 3],
            beyond: [0; 3],
            conditional: [[0; 2]; 8],
            branches: [[[0; 2]; 8]; 2],
            exceptions: [0; 256],
            exceptions_user: 0,
            exceptions_in_slot: 0,
            exceptions_with_product: 0,
            wrapped_violations: [0; 2],
            user_overflows: [0; 2],
            super_user_overflows: [0; 2],
            control: [[0; CONTROL_REGISTERS + 1]; 2],
            over_cells: [0; 2],
            cells: [0; 2],
            accepted_source: [0; SOURCES],
            accepted_depth: [0; SOURCES + 1],
            accepted_user: [0; 2],
            accepted_width: [0; 2],
            accepted_tie: 0,
            accepted_with_product: 0,
            waited_for_slot: 0,
            waited_for_mulhi: 0,
            timers: Timers::default(),
            stack_top: StackTop::default(),
            required_nops: RequiredNops::default(),
        }
    }

    /// Counts a call on which both sides agree.
    pub fn count(&mut self, answer: Answer, expected: Expected) {
        self.calls += 1;
        self.refusals[answer.refusal as usize] += 1;
        if answer.refusal == 0 {
            self.endings[answer.ending as usize] += 1;
            self.steps += u64::from(answer.steps);
        }
        if let Some(damage) = expected.damage {
            self.damages[damage] += 1;
        }
    }

    /// Counts the stop of a call, if it has one; `left` is its buffer.
    pub fn count_stop(&mut self, call: &Call, answer: Answer, left: &[u8]) {
        if answer.ending != 0 {
            let requests = call.requests.get(answer.steps as usize).copied();
            self.required_nops.count(
                &call.program,
                &Image::read(left),
                Outcome::Stop(answer.ending),
                requests.unwrap_or(0),
            );
        }
    }

    /// Counts a step: the machine before it, its requests, and what it does. `cells` are
    /// those before and after.
    fn count_step(
        &mut self,
        program: &[u8],
        requests: u32,
        before: &Image,
        unclocked: &Unclocked,
        cells: [&[u32]; 2],
    ) {
        let after = &unclocked.image;
        self.traced_steps += 1;
        self.timers.count(unclocked.done, after);
        self.stack_top.step(before, unclocked.done);
        let outcome = match unclocked.done {
            Done::Instruction | Done::TimerStore(_) => Outcome::Instruction,
            Done::Nothing => Outcome::Nothing,
            Done::Interrupt => Outcome::Interrupt,
            Done::Exception => Outcome::Exception(after.control[EXCEPTION_CS]),
        };
        self.required_nops.count(program, before, outcome, requests);
        self.status[before.psr() as usize] += 1;
        let waiting = getting_through(before, requests);
        if unclocked.done == Done::Interrupt {
            self.count_acceptance(before, after, waiting);
            return;
        }
        let word = word_at(program, before.pc(), before.wide());
        let operation = word.map(|word| words::operation(word, before.wide()));
        if waiting != 0 && before.position[SLOT] == 1 {
            self.waited_for_slot += 1;
        } else if waiting != 0 && operation == Some(MULHI) {
            self.waited_for_mulhi += 1;
        }
        if unclocked.done == Done::Exception {
            let code = after.control[EXCEPTION_CS];
            self.exceptions[code as usize] += 1;
            self.exceptions_user += u64::from(before.user());
            self.exceptions_in_slot += u64::from(before.position[SLOT]);
            self.exceptions_with_product += u64::from(before.position[PRODUCT]);
            if code >= 224 {
                self.done[usize::from(before.wide())][TRAP as usize] += 1;
                self.effect[usize::from(before.wide())][TRAP as usize] += 1;
            }
            if let (Some(word), Some(LD | ST)) = (word, operation) {
                self.count_outside(word, code, before);
                if operation == Some(ST) && code == 7 {
                    let offset = data_address(word, before) - i64::from(before.control[CCB_BASE]);
                    self.stack_top.count_violation(offset as usize);
                }
            }
            return;
        }
        if let (Some(word), Some(operation)) = (word, operation) {
            self.count_instruction(word, operation, before, after, cells);
        }
    }

    /// Counts 07h and 08h of a load or store whose address is outside 32 bits.
    fn count_outside(&mut self, word: u32, code: u32, before: &Image) {
        let sum = data_address(word, before);
        let wrapped = sum as u32;
        if sum == i64::from(wrapped) {
            return;
        }
        let above = usize::from(sum > 0);
        match (code, before.user(), before.data_protected(wrapped)) {
            (7, true, true) => self.wrapped_violations[above] += 1,
            (8, true, false) => self.user_overflows[above] += 1,
            (8, false, true) => self.super_user_overflows[above] += 1,
            _ => {}
        }
    }

    fn count_acceptance(&mut self, before: &Image, after: &Image, waiting: u32) {
        let source = after.stack[after.depth - 1].source as usize;
        self.accepted_source[source] += 1;
        self.accepted_depth[after.depth] += 1;
        self.accepted_user[usize::from(after.user())] += 1;
        self.accepted_width[usize::from(after.wide())] += 1;
        self.accepted_with_product += u64::from(before.position[PRODUCT]);
        let tie = (0..SOURCES).any(|other| {
            other != source
                && waiting >> other & 1 == 1
                && before.priority(other) == before.priority(source)
        });
        self.accepted_tie += u64::from(tie);
    }

    fn count_instruction(
        &mut self,
        word: u32,
        operation: u32,
        before: &Image,
        after: &Image,
        cells: [&[u32]; 2],
    ) {
        let wide = before.wide();
        let width = usize::from(wide);
        if let Some((number, passed)) = condition_of(word, before) {
            self.conditional[number][usize::from(passed)] += 1;
            if !passed {
                return;
            }
        }
        self.done[width][operation as usize] += 1;
        if (BRANCH..=LAST_BRANCH).contains(&operation) {
            let taken = after.position[SLOT] as usize;
            self.branches[width][(operation - BRANCH) as usize][taken] += 1;
        }
        self.count_parts(word, operation, before);
        if operation == RETI {
            self.stack_top.count_return(before, after);
        }
        let mut stored = false;
        if matches!(operation, LD | ST) {
            let address = data_address(word, before) as u32;
            let kind = usize::from(operation == ST);
            let offset = address.wrapping_sub(before.control[CCB_BASE]);
            if offset < 256 {
                let place = (offset as usize).min(CONTROL_REGISTERS);
                self.control[kind][place] += 1;
                self.over_cells[kind] += u64::from((address as usize) < cells[0].len());
                if operation == ST {
                    let number = before.source(stored_register(word, wide));
                    self.stack_top.count_store(place, number, before, after);
                } else {
                    self.stack_top.count_load(place, before);
                }
            } else {
                self.cells[kind] += 1;
                stored = cells[0][address as usize] != cells[1][address as usize];
            }
        }
        let next = match before.position[SLOT] {
            1 => before.position[TARGET],
            _ => before.pc() + words::bytes(wide),
        };
        let mut control = before.control;
        control[INT_PEND] = after.control[INT_PEND];
        let effect = stored
            || before.set1 != after.set1
            || before.set2 != after.set2
            || before.conditions != after.conditions
            || control != after.control
            || before.depth != after.depth
            || after.pc() != next
            || after.position[SLOT] == 1
            || after.position[PRODUCT] == 1;
        self.effect[width][operation as usize] += u64::from(effect);
    }

    /// Counts what exb, exh, exbf and exbfi take of their source.
    fn count_parts(&mut self, word: u32, operation: u32, before: &Image) {
        let wide = before.wide();
        let width = usize::from(wide);
        let immediate = low_immediate(word, wide) as usize;
        let (kind, length, position) = match operation {
            EXB => {
                self.bytes[width][immediate & 3] += 1;
                return;
            }
            EXH => {
                self.halfwords[width][immediate & 1] += 1;
                return;
            }
            EXBF => {
                let field = before.source(second_source(word, wide));
                (width, field >> 5 & 63, field & 31)
            }
            EXBFI => (2, word >> 19 & 63, word & 31),
            _ => return,
        };
        self.lengths[kind][length as usize] += 1;
        self.positions[kind][position as usize] += 1;
        self.beyond[kind] += u64::from(length.min(32) + position > 32);
    }
}

impl Met for Coverage {
    fn unmet(&self) -> Vec<String> {
        let mut unmet = Unmet::default();
        for refusal in 1..=8 {
            unmet.need(self.refusals[refusal], format!("refusal {refusal}"));
        }
        for (damage, &count) in DAMAGES.iter().zip(&self.damages) {
            unmet.need(count, format!("damage {damage:?} alone"));
        }
        for ending in endings() {
            unmet.need(self.endings[ending], format!("ending {ending}"));
        }
        for code in CODES {
            unmet.need(self.exceptions[code], format!("exception {code:02X}h"));
        }
        for code in 224..=255 {
            unmet.need(self.exceptions[code], format!("trap {}", code - 224));
        }
        unmet.need(self.exceptions_user, "exception in user mode".into());
        unmet.need(self.exceptions_in_slot, "exception in a slot".into());
        unmet.need(
            self.exceptions_with_product,
            "exception with a product held".into(),
        );
        for (above, side) in ["below 0", "above 32 bits"].into_iter().enumerate() {
            unmet.need(
                self.wrapped_violations[above],
                format!("07h by a wrapped address, {side}"),
            );
            unmet.need(
                self.user_overflows[above],
                format!("08h in user mode where the wrapped address is not protected, {side}"),
            );
            unmet.need(
                self.super_user_overflows[above],
                format!("08h in super user mode where the wrapped address is protected, {side}"),
            );
        }
        for (width, name) in WIDTH_NAMES.into_iter().enumerate() {
            for (operation, mnemonic) in NAMES.iter().enumerate() {
                if width == 0 && only_wide(operation as u32) {
                    continue;
                }
                let count = match operation as u32 {
                    NOP => self.done[width][operation],
                    _ => self.effect[width][operation],
                };
                unmet.need(count, format!("{name} {mnemonic} with its effect"));
            }
            for (byte, &count) in self.bytes[width].iter().enumerate() {
                unmet.need(count, format!("{name} exb of byte {byte}"));
            }
            for (halfword, &count) in self.halfwords[width].iter().enumerate() {
                unmet.need(count, format!("{name} exh of halfword {halfword}"));
            }
            for condition in 0..8 {
                for (taken, word) in ["not taken", "taken"].into_iter().enumerate() {
                    unmet.need(
                        self.branches[width][condition][taken],
                        format!("{name} branch on condition {condition} {word}"),
                    );
                }
            }
        }
        for (kind, name) in FIELD_KINDS.into_iter().enumerate() {
            for length in END_LENGTHS {
                unmet.need(
                    self.lengths[kind][length],
                    format!("{name} of length {length}"),
                );
            }
            for position in END_POSITIONS {
                unmet.need(
                    self.positions[kind][position],
                    format!("{name} at position {position}"),
                );
            }
            unmet.need(self.beyond[kind], format!("{name} that passes bit 31"));
        }
        for condition in 0..8 {
            for (passed, word) in ["false", "true"].into_iter().enumerate() {
                unmet.need(
                    self.conditional[condition][passed],
                    format!("condition {condition} {word}"),
                );
            }
        }
        for psr in 0..32_u32 {
            if psr & UM == 0 || psr & (RSRD | RSWR) == 0 {
                unmet.need(self.status[psr as usize], format!("PSR {psr:02X}h"));
            }
        }
        for (kind, name) in ["load", "store"].into_iter().enumerate() {
            for offset in 0..=CONTROL_REGISTERS {
                unmet.need(
                    self.control[kind][offset],
                    format!("{name} at control block offset {offset:02X}h"),
                );
            }
            unmet.need(self.cells[kind], format!("{name} of a cell"));
            unmet.need(
                self.over_cells[kind],
                format!("{name} of the control block over cells"),
            );
        }
        for (source, &count) in self.accepted_source.iter().enumerate() {
            unmet.need(count, format!("interrupt of source {source}"));
        }
        for depth in 1..=SOURCES {
            unmet.need(
                self.accepted_depth[depth],
                format!("interrupt nested to depth {depth}"),
            );
        }
        unmet.need(self.accepted_user[0], "super user interrupt".into());
        unmet.need(self.accepted_user[1], "user mode interrupt".into());
        unmet.need(self.accepted_width[0], "16-bit interrupt".into());
        unmet.need(self.accepted_width[1], "32-bit interrupt".into());
        unmet.need(self.accepted_tie, "interrupt with a tie".into());
        unmet.need(
            self.accepted_with_product,
            "interrupt with a product held".into(),
        );
        unmet.need(self.waited_for_slot, "interrupt held back by a slot".into());
        unmet.need(self.waited_for_mulhi, "interrupt held back by mulhi".into());
        self.timers.need(&mut unmet);
        self.stack_top.need(&mut unmet);
        self.required_nops.need(&mut unmet);
        unmet.lines()
    }

    fn report(&self) -> String {
        let mut text = String::new();
        let out = &mut text;
        line(out, "refusals", self.refusals.iter().enumerate());
        let endings = endings().map(|ending| (ending, &self.endings[ending]));
        line(out, "endings", endings);
        put(out, format!("steps: {}", self.steps));
        let least = self.damages.iter().min().copied().unwrap_or(0);
        put(
            out,
            format!(
                "damaged images: {} kinds, each alone at least {least} times",
                DAMAGES.len()
            ),
        );
        put(
            out,
            format!(
                "repeated step by step: {} calls, {} steps; of these:",
                self.traced_calls, self.traced_steps
            ),
        );
        let modes = |user: u32, wide: u32| -> u64 {
            (0..32_u32)
                .filter(|psr| psr & UM == user && psr & IL == wide)
                .map(|psr| self.status[psr as usize])
                .sum()
        };
        put(
            out,
            format!(
                "modes: super user 32-bit {}, 16-bit {}; user 32-bit {}, 16-bit {}",
                modes(0, IL),
                modes(0, 0),
                modes(UM, IL),
                modes(UM, 0)
            ),
        );
        let exceptions = CODES.map(|code| (code, &self.exceptions[code]));
        line(out, "exceptions", exceptions);
        let traps = &self.exceptions[224..];
        put(
            out,
            format!(
                "traps: {} of {} numbers; exceptions in user mode {}, in a slot {}, with a product held {}",
                traps.iter().sum::<u64>(),
                traps.iter().filter(|&&count| count > 0).count(),
                self.exceptions_user,
                self.exceptions_in_slot,
                self.exceptions_with_product
            ),
        );
        let sides = |counts: [u64; 2]| format!("below {}, above {}", counts[0], counts[1]);
        put(
            out,
            format!(
                "addresses outside 32 bits: 07h by the wrapped address {}; 08h in user mode where it is not protected {}; 08h in super user mode where it is {}",
                sides(self.wrapped_violations),
                sides(self.user_overflows),
                sides(self.super_user_overflows)
            ),
        );
        line(
            out,
            "interrupts by source",
            self.accepted_source.iter().enumerate(),
        );
        line(
            out,
            "interrupts by depth",
            self.accepted_depth.iter().enumerate().skip(1),
        );
        put(
            out,
            format!(
                "interrupts: super user {}, user {}; 32-bit {}, 16-bit {}; with a tie {}, with a product held {}; held back by a slot {}, by mulhi {}",
                self.accepted_user[0],
                self.accepted_user[1],
                self.accepted_width[1],
                self.accepted_width[0],
                self.accepted_tie,
                self.accepted_with_product,
                self.waited_for_slot,
                self.waited_for_mulhi
            ),
        );
        self.timers.report(out);
        self.stack_top.report(out);
        self.required_nops.report(out);
        let both = |operation: u32| {
            let operation = operation as usize;
            self.done[0][operation] + self.done[1][operation]
        };
        put(
            out,
            format!(
                "system calls {}, returns to user {}, interrupt returns {}, changes of width {}",
                both(SCALL),
                both(RETU),
                both(RETI),
                both(SWM)
            ),
        );
        let sum = |counts: &[u64]| counts.iter().sum::<u64>();
        put(
            out,
            format!(
                "loads: cells {}, control block {} (over cells {}); stores: cells {}, control block {} (over cells {})",
                self.cells[0],
                sum(&self.control[0]),
                self.over_cells[0],
                self.cells[1],
                sum(&self.control[1]),
                self.over_cells[1]
            ),
        );
        let conditional =
            |passed: usize| -> u64 { self.conditional.iter().map(|counts| counts[passed]).sum() };
        put(
            out,
            format!(
                "conditional words: true {}, false {}",
                conditional(1),
                conditional(0)
            ),
        );
        for (kind, name) in FIELD_KINDS.into_iter().enumerate() {
            let lengths = END_LENGTHS.map(|length| (length, &self.lengths[kind][length]));
            line(out, &format!("{name} by length"), lengths);
            let positions = END_POSITIONS.map(|place| (place, &self.positions[kind][place]));
            line(out, &format!("{name} by position"), positions);
        }
        for (name, width) in [("32-bit", 1), ("16-bit", 0)] {
            let counts = NAMES.iter().zip(&self.effect[width]).skip(1);
            let nop = ("nop", &self.done[width][NOP as usize]);
            let counts = std::iter::once(nop).chain(counts.map(|(&name, count)| (name, count)));
            line(out, &format!("{name} operations with their effect"), counts);
        }
        text
    }
}

impl Default for Coverage {
    fn default() -> Coverage {
        Coverage::new()
    }
}

/// The limit reached, and the stops.
fn endings() -> impl Iterator<Item = usize> {
    std::iter::once(0).chain(STOPS.iter().map(|&stop| stop as usize))
}

/// The condition of a word, if it has one, and whether it is true before its step.
fn condition_of(word: u32, before: &Image) -> Option<(usize, bool)> {
    let wide = before.wide();
    if !wide || word >> 25 & 1 == 0 || never_conditional(words::operation(word, wide)) {
        return None;
    }
    let number = word >> 19 & 7;
    let register = before.conditions[(word >> 22 & 7) as usize];
    Some((number as usize, words::condition(number, register)))
}

/// The address of ld or st, which may be outside 32 bits.
fn data_address(word: u32, before: &Image) -> i64 {
    let (base, immediate) = memory_operand(word, before.wide());
    i64::from(before.source(base)) + immediate
}

/// The sources that are pending, masked in and above all in service, while IE is 1.
fn getting_through(image: &Image, requests: u32) -> u32 {
    if image.psr() & IE == 0 {
        return 0;
    }
    let least = image.stack[..image.depth]
        .iter()
        .map(|entry| image.priority(entry.source as usize))
        .min()
        .unwrap_or(16);
    let pending = (image.control[INT_PEND] | requests) & image.control[INT_MASK];
    (0..SOURCES)
        .filter(|&source| pending >> source & 1 == 1 && image.priority(source) < least)
        .fold(0, |flags, source| flags | 1 << source)
}

/// Repeats calls step by step.
pub struct Tracer {
    step: Call,
    bench: Bench,
    marked: Vec<u8>,
    marked_cells: Vec<u32>,
    marked_buffer: Vec<u8>,
}

impl Tracer {
    pub fn new() -> Tracer {
        Tracer {
            step: Call::default(),
            bench: Bench::default(),
            marked: Vec::new(),
            marked_cells: Vec::new(),
            marked_buffer: vec![0; LONGEST],
        }
    }

    /// Whether a call that was not refused is small enough to be repeated.
    pub fn takes(call: &Call, answer: Answer) -> bool {
        answer.steps <= TRACED_STEPS
            && call.cells.len() <= TRACED_CELLS
            && call.program.len() <= TRACED_BYTES
    }

    /// Repeats a call with one call for each step, on both sides, and counts what it
    /// meets. `left` is what the call as a whole left: its cells and its buffer.
    ///
    /// On a difference, `self.step()` is the call that shows it.
    pub fn trace(
        &mut self,
        call: &Call,
        answer: Answer,
        left: (&[u32], &[u8]),
        sides: Sides,
        coverage: &mut Coverage,
    ) -> Result<(), Difference> {
        coverage.traced_calls += 1;
        coverage.stack_top.start();
        let step = &mut self.step;
        step.program.clone_from(&call.program);
        step.cells.clone_from(&call.cells);
        step.image.clone_from(&call.image);
        step.buffer.clear();
        step.buffer.resize(LONGEST, 0x5A);
        step.limit = 1;
        let mut before = Image::read(&step.image);
        for number in 0..answer.steps + u32::from(answer.ending != 0) {
            let step = &mut self.step;
            let requests = call.requests.get(number as usize).copied().unwrap_or(0);
            step.requests.clear();
            step.requests.push(requests);
            let done = self.bench.compare(step, sides)?;
            let expected = Answer {
                refusal: 0,
                steps: u32::from(number < answer.steps),
                ending: if number < answer.steps {
                    0
                } else {
                    answer.ending
                },
            };
            if done != expected {
                return Err(Difference::Both(format!(
                    "step {number} of a call of {} steps and ending {} alone gives {} steps and ending {}",
                    answer.steps, answer.ending, done.steps, done.ending
                )));
            }
            let length = length(&self.bench.buffer);
            let after = Image::read(&self.bench.buffer);
            if number < answer.steps {
                let unclocked = self.unclocked(&before, sides.reference);
                coverage.count_step(
                    &self.step.program,
                    requests,
                    &before,
                    &unclocked,
                    [&self.step.cells, &self.bench.cells],
                );
            }
            std::mem::swap(&mut self.step.cells, &mut self.bench.cells);
            self.step.image.clear();
            self.step
                .image
                .extend_from_slice(&self.bench.buffer[..length]);
            before = after;
        }
        if self.step.cells != left.0 || self.step.image[..] != left.1[..self.step.image.len()] {
            return Err(Difference::Both(
                "one call and single steps leave different machines".to_string(),
            ));
        }
        Ok(())
    }

    /// The last call of the last trace.
    pub fn step(&self) -> &Call {
        &self.step
    }

    /// The last step without its clock: it is repeated with marks, of which those that it
    /// leaves are replaced by what was there before.
    fn unclocked(&mut self, before: &Image, reference: Run) -> Unclocked {
        self.marked.clone_from(&self.step.image);
        for (offset, mark) in MARKS {
            set_number(&mut self.marked, COUNTS[3] + 1 + offset, mark);
        }
        self.marked_cells.clone_from(&self.step.cells);
        reference(
            &self.step.program,
            &mut self.marked_cells,
            &self.marked,
            &self.step.requests,
            1,
            &mut self.marked_buffer,
        );
        let mut image = Image::read(&self.marked_buffer);
        let written = MARKS.map(|(offset, mark)| image.control[offset] != mark);
        let [exception, .., configuration] = written;
        let mut done = if image.depth > before.depth {
            Done::Interrupt
        } else if exception {
            Done::Exception
        } else {
            match word_at(&self.step.program, before.pc(), before.wide()) {
                Some(word) if matches!(condition_of(word, before), Some((_, false))) => {
                    Done::Nothing
                }
                _ => Done::Instruction,
            }
        };
        for ((offset, _), written) in MARKS.into_iter().zip(written) {
            // A timer that the step enables may have counted already.
            let stored = written && (offset == TMR_CONF || !configuration);
            if stored && TIMER_REGISTERS.contains(&offset) {
                done = Done::TimerStore(offset);
            } else if !stored {
                image.control[offset] = before.control[offset];
            }
        }
        image.dividers = before.dividers;
        Unclocked { image, done }
    }
}

impl Default for Tracer {
    fn default() -> Tracer {
        Tracer::new()
    }
}

#[cfg(test)]
mod tests {
    use super::*;

    /// A step, without its clock: each timer register stored to, an instruction that stores to
    /// none of them, one whose condition is false, an exception and an interrupt. Both timers
    /// would tick.
    #[test]
    fn steps_without_their_clock() {
        let mut before = Image::new();
        before.set2[PSR] = IE | IL | RSWR | RSRD;
        before.set2[2] = 0x9234_8678;
        before.control[CCB_BASE] = 0x0001_0000;
        before.set2[1] = 0x0001_0000;
        before.control[TMR0_CNT..=TMR_CONF].copy_from_slice(&[1, 100, 2, 200, 0x8000_8000]);
        before.dividers = [7, 8];
        let store = |offset: usize| wide_immediate(ST, 2, 1, offset as u32);
        let stores = TIMER_REGISTERS.map(|offset| (store(offset), 0, Done::TimerStore(offset)));
        let others = [
            (NOP, 0, Done::Instruction),
            (store(INT_MASK), 0, Done::Instruction),
            // On condition c of C0, and on nc.
            (store(TMR0_CNT) | 1 << 25, 0, Done::Nothing),
            (store(INT_MASK) | 1 << 25 | 7 << 19, 0, Done::Instruction),
            (wide_registers(TRAP, 0, 0, 3), 0, Done::Exception),
            (NOP, 1 << 5, Done::Interrupt),
        ];
        for (word, requests, done) in stores.into_iter().chain(others) {
            before.control[INT_MASK] = requests;
            let mut tracer = Tracer::new();
            tracer.step.program = word.to_be_bytes().to_vec();
            tracer.step.requests = vec![requests];
            before.write(Layout::Present, &mut tracer.step.image);
            let unclocked = tracer.unclocked(&before, coffee_reference::run);
            assert!(unclocked.done == done);
            let mut timers = before.control;
            if let Done::TimerStore(offset) = done {
                timers[offset] = before.set2[2];
            }
            let after = unclocked.image;
            assert_eq!(
                after.control[TMR0_CNT..=TMR_CONF],
                timers[TMR0_CNT..=TMR_CONF]
            );
            assert_eq!(after.dividers, before.dividers);
            assert_eq!(after.control[EXCEPTION_PSR] != 0, done == Done::Exception);
            assert_eq!(after.depth, usize::from(done == Done::Interrupt));
        }
    }

    /// What is met by calls of these limits, one after the other from an image.
    fn traced(image: &Image, program: &[u32], limits: &[u32]) -> Vec<String> {
        let mut coverage = Coverage::new();
        let mut call = Call {
            program: program.iter().flat_map(|word| word.to_be_bytes()).collect(),
            buffer: vec![0; LONGEST],
            ..Call::default()
        };
        image.write(Layout::Present, &mut call.image);
        let sides = Sides::alike(coffee_reference::run);
        let mut bench = Bench::default();
        for &limit in limits {
            call.limit = limit;
            let answer = bench.compare(&call, sides).expect("no difference");
            let left = (&bench.cells[..], &bench.buffer[..]);
            let traced = Tracer::new().trace(&call, answer, left, sides, &mut coverage);
            traced.expect("no difference");
            call.image = bench.buffer[..length(&bench.buffer)].to_vec();
        }
        let mut text = String::new();
        coverage.stack_top.report(&mut text);
        // The counts that are not 0.
        text.lines()
            .map(|line| {
                let (title, counts) = line.split_once(": ").expect("counts");
                let met = counts.split(", ").filter(|count| !count.ends_with(" 0"));
                format!("{title}: {}", met.collect::<Vec<_>>().join(", "))
            })
            .collect()
    }

    /// A top entry that gets another address, another PSR and the same C0, and the return by
    /// it; the same in a call for each step; a store with an empty stack, and one that is 07h.
    #[test]
    fn stores_to_the_stack_top() {
        let mut image = Image::new();
        image.set2[PSR] = IL | RSWR | RSRD;
        image.set2[2..6].copy_from_slice(&[0x0001_0000, 24, 0x2F, 10]);
        image.control[CCB_BASE] = 0x0001_0000;
        image.control[DMEM_BOUND_LO] = 1;
        image.control[IMEM_BOUND_LO] = 1;
        image.depth = 2;
        image.stack[1] = Entry {
            source: 3,
            address: 0,
            psr: IL,
            c0: 2,
        };
        image.show_stack();
        let access = |operation, data, offset| wide_immediate(operation, data, 2, offset as u32);
        let program = [
            access(ST, 3, RETI_ADDR),
            access(ST, 4, RETI_PSR),
            access(ST, 5, RETI_CR0),
            access(LD, 6, RETI_PSR),
            access(LD, 7, RETI_CR0),
            wide_registers(RETI, 0, 0, 0),
            NOP,
            NOP,
            NOP,
        ];
        let store = "at depth 2 or more 1, 32-bit 1";
        let [address, psr, c0] = [
            format!("stores to RETI_ADDR: {store}, that change the entry 1"),
            format!("stores to RETI_PSR: {store}, that change the entry 1"),
            format!("stores to RETI_CR0: {store}"),
        ];
        let stored = "stored to the stack's top: PSR with bits above 4 1, PSR with one of bits \
                      7..5 1, PSR with UM 1 and both set bits 1, PSR with UM 1 and set bits in \
                      super user mode 1, C0 with bits above 2 1";
        let returns = "interrupt returns by an entry changed in the same call: ";
        let arrivals = "after a return to a changed address: ";
        let changed = "by a changed address 1, by a changed PSR 1, in a 32-bit word 1, at depth 2 \
                       or more 1, to user mode 1";
        assert_eq!(
            traced(&image, &program, &[7]),
            [
                &address,
                &format!("{psr}, loaded in the same call 1"),
                &c0,
                stored,
                &format!("{returns}{changed}"),
                &format!("{arrivals}an instruction 1"),
            ]
        );
        assert_eq!(
            traced(&image, &program, &[1; 7]),
            [&address, &psr, &c0, stored, returns, arrivals]
        );

        image.depth = 0;
        image.show_stack();
        image.set2[PSR] = IL | UM;
        image.set1 = image.set2;
        let nothing = [
            "stores to RETI_PSR: ",
            "stores to RETI_CR0: ",
            "stored to the stack's top: ",
            returns,
            arrivals,
        ];
        let met = traced(&image, &program, &[1]);
        assert_eq!(
            met[0],
            "stores to RETI_ADDR: at depth 0 1, 32-bit 1, in user mode 1"
        );
        assert_eq!(met[1..], nothing);
        image.control[DMEM_BOUND_HI] = u32::MAX;
        let met = traced(&image, &program, &[1]);
        assert_eq!(met[0], "stores to RETI_ADDR: that are 07h 1");
        assert_eq!(met[1..], nothing);
    }
}
