//! Timers (Manual 7): each rule, for each timer.

use super::bench::*;
use super::interrupts::ready;
use super::random::Random;
use crate::machine::{offset, Machine, IE};

// Bits of a timer's half of TMR_CONF.
const EN: u32 = 0x8000;
const CONT: u32 = 0x4000;
const GINT: u32 = 0x2000;
const WDOG: u32 = 0x1000;
const RESERVED: u32 = 0x0800;

/// INTN in its place.
fn intn(number: u32) -> u32 {
    number << 8
}

/// A timer's count, maximum, half of TMR_CONF and divider.
type Numbers = [u32; 4];

impl Bench {
    /// Sets a timer.
    fn timer(mut self, timer: usize, [count, maximum, half, divider]: Numbers) -> Bench {
        let control = &mut self.machine.control;
        control[0x23 + 2 * timer] = count;
        control[0x24 + 2 * timer] = maximum;
        let kept = control[0x27] & !(0xFFFF << (16 * timer));
        control[0x27] = kept | half << (16 * timer);
        self.divider(timer, divider)
    }

    fn count(&self, timer: usize) -> u32 {
        self.machine.control[0x23 + 2 * timer]
    }

    fn pending(&self) -> u32 {
        self.machine.control[0x14]
    }

    /// Whether this is the machine after reset.
    fn is_reset(&self) -> bool {
        self.machine == Machine::reset()
    }
}

/// A machine on nops, one timer set.
fn timed(timer: usize, numbers: Numbers) -> Bench {
    Bench::new(&[NOP; 600]).timer(timer, numbers)
}

/// Count, divider and INT_PEND after one clock of a timer that does not reset; nothing else
/// but PC may change.
fn clocked(timer: usize, numbers: Numbers) -> (u32, u32, u32) {
    let mut bench = timed(timer, numbers);
    let mut expected = bench.machine.clone();
    bench.steps(1);
    let left = (
        bench.count(timer),
        bench.machine.dividers[timer],
        bench.pending(),
    );
    expected.position.pc = 4;
    expected.control[0x23 + 2 * timer] = left.0;
    expected.dividers[timer] = left.1;
    expected.control[0x14] = left.2;
    assert_eq!(bench.machine, expected);
    left
}

/// Whether one clock resets the core.
fn resets(timer: usize, numbers: Numbers) -> bool {
    let mut bench = timed(timer, numbers);
    bench.steps(1);
    bench.is_reset()
}

// Clocks

/// One clock for each completed step: an instruction of any effect, one whose condition is
/// false, a jump and its slot, an exception, an interrupt.
#[test]
fn every_completed_step_is_a_clock() {
    for timer in 0..2 {
        let on = [5, 100, EN, 0];
        let words = [
            NOP,
            lli(1, 1),
            when(0, 0, rrr(1, 2, 1, 1)),
            jump(36, 4),
            NOP,
            NOP,
            plain(55, 3),
        ];
        let mut bench = Bench::new(&words).timer(timer, on);
        for clocks in 1..=6 {
            bench.steps(1);
            assert_eq!(bench.count(timer), 5 + clocks);
        }
        assert_eq!(bench.exception_code(), 227);
        assert_eq!(bench.machine.set2[1..3], [1, 0]);
        let mut bench = ready(&[NOP; 80]).timer(timer, on);
        bench.requests = vec![1];
        bench.steps(1);
        assert_eq!((bench.machine.stack.len(), bench.count(timer)), (1, 6));
        // In one call or in several.
        let mut bench = timed(timer, on);
        bench.steps(40);
        assert_eq!(bench.count(timer), 45);
        bench.run(0);
        assert_eq!(bench.count(timer), 45);
        bench.steps(3);
        assert_eq!(bench.count(timer), 48);
    }
}

/// A stop has no clock: count, divider and pending flags stay, though the next clock would
/// tick, request or reset.
#[test]
fn a_stop_is_no_clock() {
    for timer in 0..2 {
        for half in [EN, EN | 7, EN | GINT, EN | WDOG, 0] {
            let on = [4, 5, half, 7];
            Bench::new(&[]).timer(timer, on).stops(11);
            let load = rri(27, 2, 1, 0);
            Bench::new(&[load]).pr(1, 16).timer(timer, on).stops(12);
            let mut bench = Bench::new(&[jump(36, 2)]).timer(timer, on);
            bench.machine.position.slot = Some(0);
            bench.stops(13);
            let mulhi = rrr(31, 3, 0, 0);
            Bench::new(&[mulhi]).timer(timer, on).stops(14);
            let mut reti = [plain(50, 0), NOP, NOP, NOP];
            Bench::new(&reti).timer(timer, on).stops(15);
            reti[3] = lli(1, 1);
            Bench::new(&reti).timer(timer, on).stops(20);
        }
    }
}

/// A stop ends the call; the steps before it had their clocks.
#[test]
fn clocks_before_a_stop() {
    let mut bench = Bench::new(&[NOP; 3]).timer(0, [0, 100, EN, 0]);
    let answer = bench.run(10);
    assert_eq!((answer.steps, answer.ending), (3, 11));
    assert_eq!(bench.count(0), 3);
}

/// The clock is after the step's stores: a store to a timer register counts in its own step's
/// clock.
#[test]
fn after_the_steps_stores() {
    let store = |register: usize, value: u32, timer: usize, numbers: Numbers| {
        let mut bench = Bench::new(&[rri(28, 2, 1, register as i32), NOP])
            .pr(1, 0x0001_0000)
            .pr(2, value)
            .timer(timer, numbers);
        bench.steps(1);
        bench
    };
    for timer in 0..2 {
        let (count, maximum) = (0x23 + 2 * timer, 0x24 + 2 * timer);
        let flag = 1 << 4;
        let half = |half: u32| half << (16 * timer);
        // The count: the stored number ticks, and may reach the maximum.
        let bench = store(count, 70, timer, [1, 100, EN, 0]);
        assert_eq!(bench.count(timer), 71);
        let bench = store(count, 99, timer, [1, 100, EN | GINT, 0]);
        assert_eq!((bench.count(timer), bench.pending()), (100, flag));
        let bench = store(count, 70, timer, [99, 100, EN | GINT, 0]);
        assert_eq!((bench.count(timer), bench.pending()), (71, 0));
        // The maximum.
        let bench = store(maximum, 2, timer, [1, 100, EN | GINT, 0]);
        assert_eq!((bench.count(timer), bench.pending()), (2, flag));
        let bench = store(maximum, 100, timer, [1, 2, EN | GINT, 0]);
        assert_eq!((bench.count(timer), bench.pending()), (2, 0));
        // The configuration: enabled, disabled, with a divider that is now at DIV or above.
        let bench = store(0x27, half(EN), timer, [1, 100, 0, 0]);
        assert_eq!(bench.count(timer), 2);
        let bench = store(0x27, half(CONT | GINT), timer, [1, 100, EN | 9, 5]);
        assert_eq!((bench.count(timer), bench.machine.dividers), (1, [0; 2]));
        let bench = store(0x27, half(EN | 5), timer, [1, 100, EN | 9, 5]);
        assert_eq!((bench.count(timer), bench.machine.dividers), (2, [0; 2]));
        assert!(store(0x27, half(EN | WDOG), timer, [1, 2, EN, 0]).is_reset());
        // A store to another register ticks too.
        let bench = store(0x12, 0xFFF, timer, [1, 100, EN, 0]);
        assert_eq!(bench.count(timer), 2);
    }
}

/// A load sees the count as it is before its own step's clock.
#[test]
fn loads_before_the_clock() {
    let mut bench = Bench::new(&[rri(27, 2, 1, 0x23), rri(27, 3, 1, 0x23)])
        .pr(1, 0x0001_0000)
        .timer(0, [7, 100, EN, 0]);
    bench.steps(2);
    assert_eq!(bench.machine.set2[2..4], [7, 8]);
    assert_eq!(bench.count(0), 9);
}

/// Timer 0 goes first, and its reset ends the clock: timer 1 leaves no trace.
#[test]
fn a_reset_ends_the_clock() {
    for watchdog in 0..2 {
        for half in [EN, EN | CONT | GINT | intn(3), EN | WDOG, EN | 9, 0] {
            let mut bench =
                timed(watchdog, [8, 9, EN | WDOG, 0]).timer(1 - watchdog, [8, 9, half, 3]);
            bench.steps(1);
            assert!(bench.is_reset());
        }
    }
}

/// Both timers have each clock, on their own.
#[test]
fn both_timers() {
    let both = |first: Numbers, second: Numbers| {
        let mut bench = timed(0, first).timer(1, second);
        bench.steps(1);
        (
            [bench.count(0), bench.count(1)],
            bench.machine.dividers,
            bench.pending(),
        )
    };
    let on = EN | CONT | GINT;
    assert_eq!(
        both([1, 2, on | intn(2), 0], [8, 9, on | intn(5), 0]),
        ([2, 9], [0, 0], 1 << 6 | 1 << 9)
    );
    assert_eq!(
        both([1, 2, on | intn(7), 0], [8, 9, on | intn(7), 0]),
        ([2, 9], [0, 0], 1 << 11)
    );
    assert_eq!(
        both([1, 2, on | 3, 1], [9, 9, on | 2, 2]),
        ([1, 0], [2, 0], 0)
    );
    assert_eq!(both([1, 2, 0, 9], [8, 9, on, 0]), ([1, 9], [0, 0], 1 << 4));
}

// Dividers (table 3.2, DIV and EN)

/// A divider counts 0 to DIV; at DIV or above it goes back to 0, and the timer ticks.
#[test]
fn dividers() {
    for timer in 0..2 {
        for div in [0, 1, 2, 3, 7, 8, 127, 128, 254, 255] {
            for divider in 0..=255 {
                let left = clocked(timer, [10, 20, EN | div, divider]);
                let expected = if divider >= div {
                    (11, 0, 0)
                } else {
                    (10, divider + 1, 0)
                };
                assert_eq!(left, expected, "DIV {div}, divider {divider}");
            }
        }
    }
}

/// DIV: the count grows at every clock number DIV + 1, with DIV 0 at every clock.
#[test]
fn every_div_and_one_cycles() {
    for timer in 0..2 {
        for div in [0, 1, 2, 9, 255] {
            let mut bench = timed(timer, [0, 0xFFFF, EN | div, 0]);
            for clocks in 1..=540 {
                bench.steps(1);
                assert_eq!(bench.count(timer), clocks / (div + 1));
                assert_eq!(bench.machine.dividers[timer], clocks % (div + 1));
            }
        }
    }
}

/// EN 0 zeroes the divider without a tick, whatever the other bits are.
#[test]
fn not_enabled() {
    for timer in 0..2 {
        for half in [0, 5, CONT | GINT, WDOG, GINT | 5, 0x7FFF] {
            for divider in [0, 1, 4, 5, 6, 255] {
                for count in [0, 8, 9, 10, 0xFFFF_FFFF] {
                    let left = clocked(timer, [count, 9, half, divider]);
                    assert_eq!(left, (count, 0, 0));
                }
            }
        }
    }
}

/// EN: clearing it zeroes the divider, so that the timer ticks DIV + 1 clocks after it is set
/// again.
#[test]
fn enabled_again() {
    for timer in 0..2 {
        let half = |half: u32| half << (16 * timer);
        let mut bench = Bench::new(&[
            NOP,
            NOP,
            rri(28, 2, 1, 0x27),
            NOP,
            rri(28, 3, 1, 0x27),
            NOP,
            NOP,
            NOP,
        ])
        .pr(1, 0x0001_0000)
        .pr(2, half(3))
        .pr(3, half(EN | 3))
        .timer(timer, [6, 100, EN | 3, 0]);
        bench.steps(2);
        assert_eq!(bench.machine.dividers[timer], 2);
        bench.steps(2);
        assert_eq!((bench.count(timer), bench.machine.dividers[timer]), (6, 0));
        bench.steps(3);
        assert_eq!((bench.count(timer), bench.machine.dividers[timer]), (6, 3));
        bench.steps(1);
        assert_eq!((bench.count(timer), bench.machine.dividers[timer]), (7, 0));
    }
}

// Counts (table 3.2, CONT; table 3.1, TMR0_MAX_CNT and TMR1_MAX_CNT)

/// At the maximum, CONT 1 sets zero and CONT 0 stays; any other count grows by one, and from
/// FFFFFFFFh to 0.
#[test]
fn counts() {
    let last = 0xFFFF_FFFF;
    for timer in 0..2 {
        for (count, maximum, continuous, single) in [
            (0, 9, 1, 1),
            (8, 9, 9, 9),
            (9, 9, 0, 9),
            (10, 9, 11, 11),
            (last - 1, 9, last, last),
            (last, 9, 0, 0),
            (last - 1, last, last, last),
            (last, last, 0, last),
            (last, 0, 0, 0),
            (0, 0, 0, 0),
            (1, 0, 2, 2),
            (0x7FFF_FFFF, last, 0x8000_0000, 0x8000_0000),
        ] {
            let once = |half: u32| clocked(timer, [count, maximum, half, 0]).0;
            assert_eq!(once(EN | CONT), continuous, "{count:X} of {maximum:X}");
            assert_eq!(once(EN), single, "{count:X} of {maximum:X}");
        }
    }
}

/// CONT 1: after the maximum the count goes on from 0.
#[test]
fn continuous_mode() {
    for timer in 0..2 {
        let mut bench = timed(timer, [0, 3, EN | CONT, 0]);
        for clocks in 1..=40 {
            bench.steps(1);
            assert_eq!(bench.count(timer), clocks % 4);
        }
    }
}

/// CONT 0: the count stays at the maximum, and once there does nothing: no request, no reset.
/// Its divider goes round.
#[test]
fn single_mode() {
    for timer in 0..2 {
        let mut bench = timed(timer, [0, 3, EN, 0]);
        for clocks in 1..=40 {
            bench.steps(1);
            assert_eq!(bench.count(timer), clocks.min(3));
        }
        for maximum in [0, 3, 0xFFFF_FFFF] {
            for half in [EN | GINT, EN | WDOG, EN | GINT | WDOG] {
                let left = clocked(timer, [maximum, maximum, half, 0]);
                assert_eq!(left, (maximum, 0, 0));
                let left = clocked(timer, [maximum, maximum, half | 4, 3]);
                assert_eq!(left, (maximum, 4, 0));
                let left = clocked(timer, [maximum, maximum, half | 4, 4]);
                assert_eq!(left, (maximum, 0, 0));
            }
        }
    }
}

/// A count above the maximum goes up to FFFFFFFFh and on from 0, and only then reaches the
/// maximum.
#[test]
fn above_the_maximum() {
    for timer in 0..2 {
        for mode in [0, CONT] {
            let mut bench = timed(timer, [0xFFFF_FFFD, 2, EN | GINT | mode, 0]);
            for (count, pending) in [
                (0xFFFF_FFFE, 0),
                (0xFFFF_FFFF, 0),
                (0, 0),
                (1, 0),
                (2, 1 << 4),
            ] {
                bench.steps(1);
                assert_eq!((bench.count(timer), bench.pending()), (count, pending));
            }
        }
    }
}

// Requests (table 3.2, GINT and INTN)

/// A tick that leaves the count at the maximum requests INTN if GINT is 1.
#[test]
fn requests_at_the_maximum() {
    for timer in 0..2 {
        for mode in [0, CONT] {
            for number in 0..8 {
                let half = EN | GINT | mode | intn(number);
                let flag = 1 << (4 + number);
                assert_eq!(clocked(timer, [8, 9, half, 0]), (9, 0, flag));
                // Without GINT, without a tick, elsewhere.
                assert_eq!(clocked(timer, [8, 9, half & !GINT, 0]), (9, 0, 0));
                assert_eq!(clocked(timer, [8, 9, half | 1, 0]), (8, 1, 0));
                assert_eq!(clocked(timer, [7, 9, half, 0]), (8, 0, 0));
                assert_eq!(clocked(timer, [9, 10, half | 1, 1]), (10, 0, flag));
                assert_eq!(clocked(timer, [10, 9, half, 0]), (11, 0, 0));
                // By wrapping round.
                assert_eq!(clocked(timer, [0xFFFF_FFFF, 0, half, 0]), (0, 0, flag));
            }
            // From the maximum the count goes back to zero, which is elsewhere.
            assert_eq!(clocked(timer, [9, 9, EN | GINT | CONT, 0]), (0, 0, 0));
        }
    }
}

/// With CONT 1, count and maximum 0 that is every tick.
#[test]
fn maximum_0_in_continuous_mode() {
    for timer in 0..2 {
        let half = EN | GINT | CONT | intn(6);
        assert_eq!(clocked(timer, [0, 0, half, 0]), (0, 0, 1 << 10));
        assert_eq!(clocked(timer, [0, 0, half | 2, 1]), (0, 2, 0));
        assert_eq!(clocked(timer, [0, 0, half | 2, 2]), (0, 0, 1 << 10));
        assert!(resets(timer, [0, 0, EN | CONT | WDOG, 0]));
        assert!(!resets(timer, [0, 0, EN | CONT | WDOG | 2, 1]));
    }
}

/// A request joins the flags that are pending, and waits as any other: the next step is the
/// first that can accept it.
#[test]
fn requests_wait() {
    for timer in 0..2 {
        let half = EN | GINT | intn(3);
        let mut bench = ready(&[NOP; 4]).timer(timer, [8, 9, half, 0]);
        bench.steps(1);
        assert_eq!((bench.pending(), bench.pc()), (1 << 7, 4));
        bench.steps(1);
        assert_eq!((bench.pending(), bench.pc()), (0, 0x170));
        assert_eq!(bench.machine.stack[0].source, 7);
        // Masked, interrupts disabled, in service, pending already.
        let mut bench = timed(timer, [8, 9, half, 0]).control(offset::INT_PEND, 0x803);
        bench.steps(1);
        assert_eq!(bench.pending(), 0x883);
        let mut bench = timed(timer, [8, 9, half, 0]).in_service(7, 0, 0x0E, 0);
        bench.steps(1);
        assert_eq!(bench.pending(), 1 << 7);
        assert_eq!(bench.machine.control[offset::INT_SERV], 1 << 7);
        let mut bench = timed(timer, [8, 9, half, 0]).control(offset::INT_PEND, 1 << 7);
        bench.steps(1);
        assert_eq!(bench.pending(), 1 << 7);
    }
}

/// The step that accepts a timer's interrupt is a clock too, and may request it again.
#[test]
fn a_request_at_an_acceptance() {
    for timer in 0..2 {
        let mut bench = ready(&[NOP; 4])
            .timer(timer, [0, 0, EN | CONT | GINT | intn(1), 0])
            .control(offset::INT_PEND, 1 << 5);
        bench.steps(1);
        assert_eq!(bench.machine.stack[0].source, 5);
        assert_eq!(bench.pending(), 1 << 5);
    }
}

/// A user program is interrupted by a timer.
#[test]
fn a_timer_in_user_mode() {
    for timer in 0..2 {
        let mut bench = Bench::new(&[NOP; 80])
            .user()
            .control(offset::INT_MASK, 1 << 11)
            .control(offset::INT_MODE_UM, 0)
            .control(0x0F, 0x60)
            .timer(timer, [0, 2, EN | GINT | CONT | intn(7) | 1, 0]);
        bench.machine.set_psr(bench.psr() | IE);
        bench.steps(4);
        assert_eq!((bench.pc(), bench.count(timer)), (16, 2));
        bench.steps(1);
        assert_eq!((bench.pc(), bench.psr()), (0x60, 0x0E));
        assert_eq!(bench.machine.stack[0].address, 16);
        assert_eq!(bench.machine.stack[0].psr, 0x19);
    }
}

/// Bits 27 and 11 hold what is stored and have no meaning.
#[test]
fn the_reserved_bit() {
    for timer in 0..2 {
        let half = EN | GINT | RESERVED | intn(2);
        assert_eq!(clocked(timer, [8, 9, half, 0]), (9, 0, 1 << 6));
        assert_eq!(clocked(timer, [8, 9, RESERVED, 5]), (8, 0, 0));
        assert!(resets(timer, [8, 9, EN | WDOG | RESERVED, 0]));
    }
}

// Watchdogs (table 3.2, WDOG)

/// With WDOG 1 the core is reset instead: with GINT and without, at a tick that leaves the
/// count equal to the maximum and at no other clock.
#[test]
fn watchdogs() {
    for timer in 0..2 {
        for mode in [0, CONT] {
            for interrupt in [0, GINT | intn(5)] {
                let half = EN | WDOG | mode | interrupt;
                assert!(resets(timer, [8, 9, half, 0]));
                assert!(resets(timer, [8, 9, half | 3, 3]));
                assert!(resets(timer, [8, 9, half | 3, 255]));
                assert!(resets(timer, [0xFFFF_FFFF, 0, half, 0]));
                assert_eq!(clocked(timer, [8, 9, half | 3, 2]), (8, 3, 0));
                assert_eq!(clocked(timer, [7, 9, half, 0]), (8, 0, 0));
                assert_eq!(clocked(timer, [10, 9, half, 0]), (11, 0, 0));
                assert_eq!(clocked(timer, [8, 9, half & !EN, 0]), (8, 0, 0));
            }
        }
    }
}

/// What a reset leaves (Manual 4.12): registers, conditions and control block at their reset
/// values, PC 0, no slot, product, stack entry or pending source, dividers 0, and the data.
#[test]
fn a_watchdog_reset() {
    let mut random = Random(0x1234_5678_9ABC_DEF1);
    for timer in 0..2 {
        for user in [false, true] {
            let mut bench = Bench::new(&[rri(28, 2, 1, 0), NOP]).in_service(3, 4, 0x1E, 2);
            for offset in (0..0x28).filter(|offset| *offset != offset::CCB_BASE) {
                bench.machine.store_control(offset, random.next());
            }
            if user {
                bench = bench.user();
            }
            let machine = &mut bench.machine;
            machine.set1 = std::array::from_fn(|_| random.next());
            let psr = machine.psr();
            machine.set2 = std::array::from_fn(|_| random.next());
            machine.set_psr(psr);
            machine.conditions = [7; 8];
            machine.position.slot = Some(0x40);
            machine.position.product = Some(1 << 40);
            for offset in [0x17, 0x18, 0x19] {
                machine.control[offset] = 0x55;
            }
            machine.control[0x14] = 0xFFF;
            bench.cells = (100..116).collect();
            bench.requests = vec![0xFFF];
            let mut bench = bench
                .r(1, 3)
                .pr(1, 3)
                .r(2, 77)
                .pr(2, 77)
                .timer(1 - timer, [5, 6, EN | GINT | 200, 100])
                .timer(timer, [8, 9, EN | WDOG, 250]);
            bench.steps(1);
            assert!(bench.is_reset());
            // The step's own store is done, and all other cells are kept.
            let mut cells: Vec<u32> = (100..116).collect();
            cells[3] = 77;
            assert_eq!(bench.cells, cells);
        }
    }
}

/// An exception or an accepted interrupt with a reset at its clock leaves no trace.
#[test]
fn a_reset_at_an_exception_or_interrupt() {
    for timer in 0..2 {
        let on = [8, 9, EN | WDOG, 0];
        let mut bench = Bench::new(&[plain(55, 1)]).timer(timer, on);
        bench.steps(1);
        assert!(bench.is_reset());
        let mut bench = ready(&[NOP]).timer(timer, on);
        bench.requests = vec![0xFFF];
        bench.steps(1);
        assert!(bench.is_reset());
    }
}

/// The step of a reset counts as done, and the run goes on at 0; the requests go on too.
#[test]
fn a_run_goes_on_after_a_reset() {
    for timer in 0..2 {
        let mut bench = Bench::new(&[lli(1, 7), lli(2, 8), lli(3, 9)])
            .at(4)
            .timer(timer, [0, 2, EN | WDOG, 0]);
        bench.requests = vec![1, 2, 4, 8, 0x10];
        bench.steps(4);
        assert_eq!(bench.pc(), 8);
        assert_eq!(bench.machine.set2[1..4], [7, 8, 0]);
        assert_eq!(bench.pending(), 0x0C);
        // The timers are those of reset.
        assert_eq!(bench.machine.control[0x23..0x28], [0; 5]);
    }
}

/// TMR_CONF: timer 1 has bits 31..16, timer 0 bits 15..0. A half alone runs its own timer.
#[test]
fn halves_of_the_configuration() {
    for (configuration, counts) in [
        (0x0000_8000, [6, 7]),
        (0x8000_0000, [5, 8]),
        (0x8000_8000, [6, 8]),
        (0x7FFF_7FFF, [5, 7]),
        (0x8001_8000, [6, 7]),
        (0x8000_8001, [5, 8]),
    ] {
        let mut bench = timed(0, [5, 100, 0, 0])
            .timer(1, [7, 100, 0, 0])
            .control(0x27, configuration);
        bench.steps(1);
        assert_eq!([bench.count(0), bench.count(1)], counts);
    }
}
