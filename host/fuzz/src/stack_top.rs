//! What loads and stores of the RETI_ registers met (Manual 5.3), and the interrupt returns
//! after them, from the images before and after them.

use crate::image::*;
use crate::met::{add, line, Unmet};
use crate::timers::Done;

const REGISTER_NAMES: [&str; RETI_REGISTERS.len()] = ["RETI_ADDR", "RETI_PSR", "RETI_CR0"];

/// What a store to a RETI_ register meets.
const STORES: [&str; 9] = [
    "at depth 0",
    "at depth 1",
    "at depth 2 or more",
    "at depth 12",
    "16-bit",
    "32-bit",
    "in a slot",
    "in user mode",
    "that change the entry",
];

/// What is stored where there is an entry.
const NUMBERS: [&str; 15] = [
    "odd address",
    "address 2 above a multiple of 4",
    "address above 65,535",
    "PSR with bits above 4",
    "PSR with one of bits 7..5",
    "PSR with UM 1 and RSRD alone",
    "PSR with UM 1 and RSWR alone",
    "PSR with UM 1 and both set bits",
    "PSR with UM 0 and RSRD alone",
    "PSR with UM 0 and RSWR alone",
    "PSR with UM 0 and both set bits",
    "PSR with UM 1 and set bits in super user mode",
    "PSR with UM 0 and set bits in user mode",
    "C0 of at most 7",
    "C0 with bits above 2",
];

/// What an interrupt return meets, by an entry that was changed in the same call.
const RETURNS: [&str; 9] = [
    "by a changed address",
    "by a changed PSR",
    "by a changed C0",
    "by all three changed",
    "in a 16-bit word",
    "in a 32-bit word",
    "at depth 2 or more",
    "to user mode",
    "to super user mode",
];

/// What the step after a return to a changed address is.
const ARRIVALS: [&str; 3] = ["an instruction", "an interrupt", "an exception"];

/// Counts of what was met.
#[derive(Default)]
pub struct StackTop {
    /// By register, as the next two.
    stores: [[u64; STORES.len()]; RETI_REGISTERS.len()],
    /// Stores that are 07h.
    violations: [u64; RETI_REGISTERS.len()],
    /// Loads of a number that a store of the same call put on the stack.
    loads: [u64; RETI_REGISTERS.len()],
    numbers: [u64; NUMBERS.len()],
    returns: [u64; RETURNS.len()],
    arrivals: [u64; ARRIVALS.len()],
    /// For each entry, which of its numbers a store of this call changed.
    changed: [[bool; RETI_REGISTERS.len()]; SOURCES],
    /// The changed address to which the step before returned.
    returned: Option<u32>,
}

impl StackTop {
    /// A new call.
    pub fn start(&mut self) {
        self.changed = Default::default();
        self.returned = None;
    }

    /// A new step: the machine before it, and what it does.
    pub fn step(&mut self, before: &Image, done: Done) {
        // Those of entries that are gone.
        self.changed[before.depth..].fill([false; RETI_REGISTERS.len()]);
        // A watchdog may have reset the core.
        if self.returned.take() == Some(before.pc()) {
            let (interrupt, exception) = (done == Done::Interrupt, done == Done::Exception);
            let instruction = !interrupt && !exception;
            add(&mut self.arrivals, [instruction, interrupt, exception]);
        }
    }

    /// Counts a load of the control block at an offset.
    pub fn count_load(&mut self, offset: usize, before: &Image) {
        if let (Some(register), Some(top)) = (register(offset), before.depth.checked_sub(1)) {
            self.loads[register] += u64::from(self.changed[top][register]);
        }
    }

    /// Counts a store of a number to the control block at an offset.
    pub fn count_store(&mut self, offset: usize, number: u32, before: &Image, after: &Image) {
        let Some(register) = register(offset) else {
            return;
        };
        let depth = before.depth;
        let changes = before.control[offset] != after.control[offset];
        add(
            &mut self.stores[register],
            [
                depth == 0,
                depth == 1,
                depth > 1,
                depth == SOURCES,
                !before.wide(),
                before.wide(),
                before.position[SLOT] == 1,
                before.user(),
                changes,
            ],
        );
        if depth > 0 {
            add(&mut self.numbers, stored(offset, number, before.user()));
            self.changed[depth - 1][register] |= changes;
        }
    }

    /// Counts a store to the control block at an offset that is 07h.
    pub fn count_violation(&mut self, offset: usize) {
        if let Some(register) = register(offset) {
            self.violations[register] += 1;
        }
    }

    /// Counts an interrupt return.
    pub fn count_return(&mut self, before: &Image, after: &Image) {
        let [address, psr, c0] = self.changed[before.depth - 1];
        let any = address || psr || c0;
        add(
            &mut self.returns,
            [
                address,
                psr,
                c0,
                address && psr && c0,
                any && !before.wide(),
                any && before.wide(),
                any && before.depth > 1,
                any && after.user(),
                any && !after.user(),
            ],
        );
        self.returned = address.then_some(after.pc());
    }

    pub fn need(&self, unmet: &mut Unmet) {
        for (register, name) in REGISTER_NAMES.into_iter().enumerate() {
            unmet.need_each(STORES.iter().zip(&self.stores[register]), |what| {
                format!("store to {name} {what}")
            });
            unmet.need(
                self.violations[register],
                format!("store to {name} that is 07h"),
            );
            unmet.need(
                self.loads[register],
                format!("load of {name} after a store of the same call"),
            );
        }
        unmet.need_each(NUMBERS.iter().zip(&self.numbers), |what| {
            format!("{what} stored to the stack's top")
        });
        unmet.need_each(RETURNS.iter().zip(&self.returns), |what| {
            format!("interrupt return by an entry changed in the same call, {what}")
        });
        unmet.need_each(ARRIVALS.iter().zip(&self.arrivals), |what| {
            format!("{what} after a return to a changed address")
        });
    }

    pub fn report(&self, out: &mut String) {
        for (register, name) in REGISTER_NAMES.into_iter().enumerate() {
            let others = [
                (&"that are 07h", &self.violations[register]),
                (&"loaded in the same call", &self.loads[register]),
            ];
            let stores = STORES.iter().zip(&self.stores[register]);
            line(out, &format!("stores to {name}"), stores.chain(others));
        }
        let title = "stored to the stack's top";
        line(out, title, NUMBERS.iter().zip(&self.numbers));
        let title = "interrupt returns by an entry changed in the same call";
        line(out, title, RETURNS.iter().zip(&self.returns));
        let title = "after a return to a changed address";
        line(out, title, ARRIVALS.iter().zip(&self.arrivals));
    }
}

/// The place of an offset among the RETI_ registers.
fn register(offset: usize) -> Option<usize> {
    RETI_REGISTERS.iter().position(|&other| other == offset)
}

/// What is stored to the RETI_ register at an offset, in the order of NUMBERS.
fn stored(offset: usize, number: u32, user: bool) -> [bool; NUMBERS.len()] {
    let (address, psr, c0) = (offset == RETI_ADDR, offset == RETI_PSR, offset == RETI_CR0);
    let sets = number & (RSRD | RSWR);
    let in_user = psr && number & UM == 1;
    let in_super_user = psr && number & UM == 0;
    [
        address && number & 1 == 1,
        address && number & 3 == 2,
        address && number > 0xFFFF,
        psr && number > 31,
        psr && number & 0xE0 != 0,
        in_user && sets == RSRD,
        in_user && sets == RSWR,
        in_user && sets == RSRD | RSWR,
        in_super_user && sets == RSRD,
        in_super_user && sets == RSWR,
        in_super_user && sets == RSRD | RSWR,
        in_user && sets != 0 && !user,
        in_super_user && sets != 0 && user,
        c0 && number <= 7,
        c0 && number > 7,
    ]
}
