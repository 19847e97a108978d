//! The two timers (Manual 7): one clock for each completed step, after the step's stores; a
//! stop has none.
//!
//! In particular:
//! - A step that accepts an interrupt or enters an exception is a completed one.
//! - A store to a timer register counts in the clock of its own step, although for all else
//!   stores count from the next step on.
//! - INTN n is EXT_INTn, source 4 + n. Its flag in INT_PEND is set at the clock, whatever IE,
//!   INT_MASK and INT_SERV are, so that the next step is the first to accept it.
//! - WDOG 1 resets whatever GINT is, and never requests.
//! - A CONT 0 count at the maximum leaves its divider going round; only the tick does nothing.
//! - A reset leaves the machine that the reset call gives. The requests of its own step are
//!   gone with the other pending ones; the step counts as done, and the run goes on at PC 0.
//! - The reserved bits 27 and 11 of TMR_CONF hold what is stored and mean nothing.

use crate::machine::{offset, Machine};

/// The number of timers.
pub const TIMERS: usize = 2;

/// The largest divider that an image may have.
pub const DIVIDER_LIMIT: u32 = 255;

// Bits of a timer's half of TMR_CONF (Manual 7.1).
const EN: u32 = 1 << 15;
const CONT: u32 = 1 << 14;
const GINT: u32 = 1 << 13;
const WDOG: u32 = 1 << 12;

/// The source of EXT_INT0.
const EXT_INT0: u32 = 4;

/// A timer: its registers, its half of TMR_CONF and its divider.
#[derive(Clone, Copy, Debug, PartialEq, Eq)]
pub struct Timer {
    pub count: u32,
    pub maximum: u32,
    pub configuration: u32,
    pub divider: u32,
}

/// What a timer asks of the core.
#[derive(Clone, Copy, Debug, PartialEq, Eq)]
pub enum Asked {
    Nothing,
    /// An interrupt of this source.
    Interrupt(u32),
    Reset,
}

impl Timer {
    /// One clock.
    pub fn clock(&mut self) -> Asked {
        // EN 0 zeroes the divider without a tick.
        if !self.has(EN) {
            self.divider = 0;
            return Asked::Nothing;
        }
        // The divider counts 0 to DIV; at DIV or above it goes back to 0, and the timer ticks.
        if self.divider < self.divider_end() {
            self.divider += 1;
            return Asked::Nothing;
        }
        self.divider = 0;
        self.tick()
    }

    fn tick(&mut self) -> Asked {
        // At the maximum, CONT 1 sets the count to 0; any other count grows by one and wraps.
        if self.count != self.maximum {
            self.count = self.count.wrapping_add(1);
        } else if self.has(CONT) {
            self.count = 0;
        } else {
            // With CONT 0 a count that is at the maximum stays and asks for nothing.
            return Asked::Nothing;
        }
        // A tick that leaves the count at the maximum resets the core if WDOG is 1, else
        // requests INTN if GINT is 1.
        if self.count != self.maximum {
            Asked::Nothing
        } else if self.has(WDOG) {
            Asked::Reset
        } else if self.has(GINT) {
            Asked::Interrupt(EXT_INT0 + self.interrupt_number())
        } else {
            Asked::Nothing
        }
    }

    /// Whether a bit of the configuration is 1.
    fn has(&self, bit: u32) -> bool {
        self.configuration & bit != 0
    }

    /// INTN, bits 10..8.
    fn interrupt_number(&self) -> u32 {
        self.configuration >> 8 & 7
    }

    /// DIV, bits 7..0.
    fn divider_end(&self) -> u32 {
        self.configuration & 0xFF
    }
}

impl Machine {
    /// One clock of both timers, timer 0 first; a reset ends it (Manual 4.11 and 4.12).
    pub fn clock(&mut self) {
        for number in 0..TIMERS {
            let mut timer = self.timer(number);
            let asked = timer.clock();
            self.set_timer(number, timer);
            match asked {
                Asked::Nothing => {}
                Asked::Interrupt(source) => self.control[offset::INT_PEND] |= 1 << source,
                Asked::Reset => {
                    // All but the memories is as after reset.
                    *self = Machine::reset();
                    return;
                }
            }
        }
    }

    /// The timer with this number; timer 1 has the upper half of TMR_CONF.
    fn timer(&self, number: usize) -> Timer {
        Timer {
            count: self.control[offset::TMR_CNT[number]],
            maximum: self.control[offset::TMR_MAX_CNT[number]],
            configuration: self.control[offset::TMR_CONF] >> (16 * number) & 0xFFFF,
            divider: self.dividers[number],
        }
    }

    /// Keeps what a clock changes of a timer.
    fn set_timer(&mut self, number: usize, timer: Timer) {
        self.control[offset::TMR_CNT[number]] = timer.count;
        self.dividers[number] = timer.divider;
    }
}
