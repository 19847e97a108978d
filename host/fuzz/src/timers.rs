//! What the clocks of the timers met (Manual 7), from the images before and after them.

use crate::image::*;
use crate::met::{add, line, Unmet};

/// What a step does before its clock.
#[derive(Clone, Copy, PartialEq, Eq)]
pub enum Done {
    Instruction,
    /// An instruction whose condition is false.
    Nothing,
    /// A store to the timer register at this offset.
    TimerStore(usize),
    Interrupt,
    Exception,
}

/// What a timer meets at a clock, with its registers as the step's stores leave them.
const CLOCKS: [&str; 26] = [
    "EN 0 that zeroes the divider",
    "EN 0 with a divider at DIV or above",
    "divider counted",
    "tick",
    "tick with a divider above DIV",
    "tick with DIV 255",
    "tick at an accepted interrupt",
    "tick at an exception",
    "tick where the condition is false",
    "tick at a store to its count",
    "tick at a store to its maximum",
    "tick at a store to TMR_CONF",
    "tick in user mode",
    "wrap from FFFFFFFFh",
    "tick above the maximum",
    "CONT 1 at the maximum",
    "CONT 0 at the maximum with GINT or WDOG",
    "maximum reached with neither GINT nor WDOG",
    "request",
    "request with CONT 1, count and maximum 0",
    "request by a wrap to 0",
    "request that the next step may accept",
    "request that is pending already",
    "request that is in service",
    "reset with GINT",
    "reset without GINT",
];

/// What a reset meets.
const RESETS: [&str; 9] = [
    "in user mode",
    "with requests pending",
    "with a stack",
    "with a slot",
    "with a product",
    "at an accepted interrupt",
    "at an exception",
    "at a store to TMR_CONF",
    "with CONT 1, count and maximum 0",
];

/// What both timers meet at one clock.
const TOGETHER: [&str; 5] = [
    "two ticks",
    "two requests",
    "two requests of one source",
    "a request by timer 0 and a reset by timer 1",
    "a reset by timer 0 where timer 1 would tick",
];

/// Counts of clocks, by timer where an array has 2 parts.
#[derive(Default)]
pub struct Timers {
    clocks: [[u64; CLOCKS.len()]; TIMERS],
    /// Requests by INTN.
    requests: [[u64; 8]; TIMERS],
    resets: [[u64; RESETS.len()]; TIMERS],
    together: [u64; TOGETHER.len()],
}

impl Timer {
    fn has(self, bit: u32) -> bool {
        self.half & bit != 0
    }

    fn ticks(self) -> bool {
        self.has(EN) && self.divider >= self.div()
    }

    fn div(self) -> u32 {
        self.half & 0xFF
    }

    fn at_maximum(self) -> bool {
        self.count == self.maximum
    }

    /// Whether it ticks in continuous mode with count and maximum 0.
    fn stays_at_0(self) -> bool {
        self.ticks() && self.has(CONT) && self.count == 0 && self.maximum == 0
    }

    /// Whether its tick makes the count the maximum; a CONT 0 count that is there already does
    /// nothing.
    fn reaches(self) -> bool {
        self.stays_at_0() || self.ticks() && self.count.wrapping_add(1) == self.maximum
    }

    fn resets(self) -> bool {
        self.reaches() && self.has(WDOG)
    }

    fn requests(self) -> bool {
        self.reaches() && self.has(GINT) && !self.has(WDOG)
    }

    fn source(self) -> u32 {
        4 + (self.half >> 8 & 7)
    }
}

impl Timers {
    /// Counts a clock: what its step did, and the machine as the step's stores leave it.
    pub fn count(&mut self, done: Done, stored: &Image) {
        let timers = [stored.timer(0), stored.timer(1)];
        for (number, timer) in timers.into_iter().enumerate() {
            // Timer 1 has no clock after a reset by timer 0.
            if number == 1 && timers[0].resets() {
                continue;
            }
            add(&mut self.clocks[number], clock(number, timer, done, stored));
            if timer.requests() {
                self.requests[number][timer.source() as usize - 4] += 1;
            }
            if timer.resets() {
                add(&mut self.resets[number], reset(timer, done, stored));
            }
        }
        let [first, second] = timers;
        let both_request = first.requests() && second.requests();
        add(
            &mut self.together,
            [
                first.ticks() && second.ticks() && !first.resets(),
                both_request,
                both_request && first.source() == second.source(),
                first.requests() && second.resets(),
                first.resets() && second.ticks(),
            ],
        );
    }

    pub fn need(&self, unmet: &mut Unmet) {
        for number in 0..TIMERS {
            unmet.need_each(CLOCKS.iter().zip(&self.clocks[number]), |what| {
                format!("timer {number}: {what}")
            });
            unmet.need_each(self.requests[number].iter().enumerate(), |intn| {
                format!("timer {number}: request with INTN {intn}")
            });
            unmet.need_each(RESETS.iter().zip(&self.resets[number]), |what| {
                format!("timer {number}: reset {what}")
            });
        }
        unmet.need_each(TOGETHER.iter().zip(&self.together), |what| {
            format!("{what} in one clock")
        });
    }

    pub fn report(&self, out: &mut String) {
        for number in 0..TIMERS {
            let title = format!("timer {number}");
            line(out, &title, CLOCKS.iter().zip(&self.clocks[number]));
            let title = format!("timer {number}, requests by INTN");
            line(out, &title, self.requests[number].iter().enumerate());
            let title = format!("timer {number}, resets");
            line(out, &title, RESETS.iter().zip(&self.resets[number]));
        }
        line(out, "in one clock", TOGETHER.iter().zip(&self.together));
    }
}

/// What a timer meets, in the order of CLOCKS.
fn clock(number: usize, timer: Timer, done: Done, stored: &Image) -> [bool; CLOCKS.len()] {
    let ticks = timer.ticks();
    let stores = |register: usize| ticks && done == Done::TimerStore(register);
    let reaches_in_vain = timer.reaches() && !timer.has(GINT) && !timer.has(WDOG);
    let request = |flags: u32| timer.requests() && flags >> timer.source() & 1 == 1;
    [
        !timer.has(EN) && timer.divider != 0,
        !timer.has(EN) && timer.divider >= timer.div() && timer.divider != 0,
        timer.has(EN) && !ticks,
        ticks,
        ticks && timer.divider > timer.div(),
        ticks && timer.div() == 255,
        ticks && done == Done::Interrupt,
        ticks && done == Done::Exception,
        ticks && done == Done::Nothing,
        stores(TMR0_CNT + 2 * number),
        stores(TMR0_MAX_CNT + 2 * number),
        stores(TMR_CONF),
        ticks && stored.user(),
        ticks && timer.count == u32::MAX && !timer.at_maximum(),
        ticks && timer.count > timer.maximum,
        ticks && timer.has(CONT) && timer.at_maximum() && timer.count != 0,
        ticks && !timer.has(CONT) && timer.at_maximum() && timer.half & (GINT | WDOG) != 0,
        reaches_in_vain,
        timer.requests(),
        timer.requests() && timer.stays_at_0(),
        timer.requests() && timer.count == u32::MAX,
        request(stored.control[INT_MASK]) && stored.psr() & IE != 0,
        request(stored.control[INT_PEND]),
        request(stored.control[INT_SERV]),
        timer.resets() && timer.has(GINT),
        timer.resets() && !timer.has(GINT),
    ]
}

/// What a reset by a timer meets, in the order of RESETS.
fn reset(timer: Timer, done: Done, stored: &Image) -> [bool; RESETS.len()] {
    [
        stored.user(),
        stored.control[INT_PEND] != 0,
        stored.depth != 0,
        stored.position[SLOT] == 1,
        stored.position[PRODUCT] == 1,
        done == Done::Interrupt,
        done == Done::Exception,
        done == Done::TimerStore(TMR_CONF),
        timer.stays_at_0(),
    ]
}

#[cfg(test)]
mod tests {
    use super::*;

    /// What is said of a timer is what the reference does with it.
    #[test]
    fn as_the_reference() {
        let counts = [
            (0, 0),
            (0, 1),
            (1, 1),
            (7, 9),
            (8, 9),
            (9, 9),
            (10, 9),
            (u32::MAX, 0),
            (u32::MAX, 9),
            (u32::MAX, u32::MAX),
        ];
        let mut reset = [0; LONGEST];
        coffee_reference::reset(&mut reset);
        let reset = Image::read(&reset);
        let mut bytes = Vec::new();
        let mut asked = [[0; 3]; TIMERS];
        // EN, CONT, GINT, WDOG and DIV, for either timer; INTN goes with them.
        for (number, bits) in (0..TIMERS).flat_map(|number| (0..64).map(move |bits| (number, bits)))
        {
            for ((count, maximum), divider) in counts
                .into_iter()
                .flat_map(|pair| (0..5).map(move |divider| (pair, divider)))
            {
                let timer = Timer {
                    count,
                    maximum,
                    half: (bits & 15) << 12 | (bits & 7) << 8 | bits >> 4,
                    divider,
                };
                let other = Timer {
                    count: 5,
                    maximum: 6,
                    half: 0,
                    divider: 0,
                };
                let mut image = Image::new();
                image.set_timer(number, timer);
                image.set_timer(1 - number, other);
                image.write(Layout::Present, &mut bytes);
                let mut buffer = [0; LONGEST];
                coffee_reference::run(&[0; 4], &mut [], &bytes, &[], 1, &mut buffer);
                let after = Image::read(&buffer);
                assert_eq!(timer.resets(), after == reset);
                if timer.resets() {
                    asked[number][0] += 1;
                    continue;
                }
                let pending = u32::from(timer.requests()) << timer.source();
                assert_eq!(after.control[INT_PEND], pending);
                let counted = timer.has(EN) && !timer.ticks();
                let left = Timer {
                    count: match (timer.ticks(), timer.at_maximum()) {
                        (true, false) => count.wrapping_add(1),
                        (true, true) if timer.has(CONT) => 0,
                        _ => count,
                    },
                    divider: if counted { divider + 1 } else { 0 },
                    ..timer
                };
                assert_eq!(after.timer(number), left);
                assert_eq!(after.timer(1 - number), other);
                asked[number][1] += u32::from(timer.requests());
                asked[number][2] += u32::from(timer.ticks());
            }
        }
        assert!(asked.iter().flatten().all(|&times| times > 0));
    }
}
