//! The nops after swm, scall, retu and reti (Manual 4.6).

use super::bench::*;
use super::interrupts::ready;
use crate::decode::Operation;
use crate::machine::offset;

/// The four operations and how many nops have to follow them.
const REQUIRED: [(u32, u32); 4] = [(54, 2), (48, 1), (49, 1), (50, 3)];

/// The address of the instruction.
const START: u32 = 8;

/// An operation that is no nop: mov.
const OTHER: u32 = 29;

/// One of the four operations in a width and a mode.
#[derive(Clone, Copy, Debug)]
struct Case {
    operation: u32,
    /// The number of nops that have to follow.
    nops: u32,
    /// The bytes of a word, 2 or 4.
    bytes: u32,
    user: bool,
    /// IL of the PSR that the instruction leaves.
    new_il: u32,
}

/// All cases: both widths, both modes, and both widths to go to, where the operation has them.
/// retu is 02h in user mode, and scall goes to 32-bit words.
fn cases() -> Vec<Case> {
    let mut cases = Vec::new();
    for (operation, nops) in REQUIRED {
        for bytes in [2, 4] {
            for user in [false, true] {
                for new_il in [0, 1] {
                    let refused = operation == 49 && user;
                    let no_such_width = operation == 48 && new_il == 0;
                    if !refused && !no_such_width {
                        cases.push(Case {
                            operation,
                            nops,
                            bytes,
                            user,
                            new_il,
                        });
                    }
                }
            }
        }
    }
    cases
}

/// The cases in user mode.
fn user_cases() -> Vec<Case> {
    cases().into_iter().filter(|case| case.user).collect()
}

impl Case {
    /// A word with an operation and other bits.
    fn word(&self, operation: u32, bits: u32) -> Vec<u8> {
        match self.bytes {
            2 => ((operation << 10 | bits) as u16).to_be_bytes().to_vec(),
            _ => (operation << 26 | bits).to_be_bytes().to_vec(),
        }
    }

    /// The instruction's own word.
    fn instruction(&self) -> Vec<u8> {
        let immediate = if self.operation == 54 { self.new_il } else { 0 };
        self.word(self.operation, immediate)
    }

    /// The address of the nth word after the instruction; 0 is the instruction itself.
    fn address(&self, n: u32) -> u32 {
        START + n * self.bytes
    }

    /// Zeros for the operations that have to follow.
    fn nops(&self) -> Vec<u32> {
        vec![0; self.nops as usize]
    }

    /// A machine before the instruction, with a product, requests and two interrupts in
    /// service; other operations before the instruction, words of these operations after it,
    /// and nothing after them. In user mode nothing is protected, in super user mode all is.
    fn bench(&self, following: &[u32]) -> Bench {
        let mut bench = match self.bytes {
            2 => Bench::new_16(&[]),
            _ => Bench::new(&[]),
        };
        while bench.program.len() < START as usize {
            bench.program.extend(self.word(OTHER, 0));
        }
        bench.program.extend(self.instruction());
        for &operation in following {
            bench.program.extend(self.word(operation, 0));
        }
        if self.user {
            bench = bench.user();
        }
        bench.machine.position.product = Some(1 << 40);
        bench.requests = vec![0x801];
        bench
            .at(START)
            .c(0, 6)
            .pr(30, 0x10 | self.new_il << 3)
            .pr(31, 0x60)
            .control(offset::SYSTEM_ADDR, 0x80)
            .control(offset::EXCEP_ADDR, 0xA0)
            .in_service(7, 0x48, 0x19, 1)
            .in_service(3, 0x40, 0x06 | self.new_il << 3, 5)
    }

    /// The same with these bytes of the program protected.
    fn protected(&self, following: &[u32], low: u32, high: u32) -> Bench {
        let mut bench = self.bench(following);
        bench.protect_program(low, high);
        bench
    }

    /// Does one step, which must carry the instruction out (Manual 3.2), and nothing else.
    fn completes(&self, mut bench: Bench) {
        let mut expected = bench.machine.clone();
        let cells = bench.cells.clone();
        let address = bench.pc();
        let psr = bench.psr();
        expected.control[offset::INT_PEND] |= 0x801;
        expected.position.product = None;
        let (new_pc, new_psr) = match self.operation {
            // PC goes on three words of the old width later.
            54 => (address + 3 * self.bytes, psr & !8 | self.new_il << 3),
            // The link in PR31 is two words on, SPSR takes PSR, PSR becomes 0Eh.
            48 => {
                expected.set2[30] = psr;
                expected.set2[31] = address + 2 * self.bytes;
                (0x80, 0x0E)
            }
            // PC comes from PR31, IE and IL from SPSR; user mode, set 1.
            49 => (0x60, 0x11 | self.new_il << 3),
            // The top entry goes, and its source is no longer in service.
            _ => {
                expected.stack.pop();
                expected.control[offset::INT_SERV] = 1 << 7;
                expected.control[0x28..=0x2A].copy_from_slice(&[0x48, 0x19, 1]);
                expected.conditions[0] = 5;
                (0x40, 0x06 | self.new_il << 3)
            }
        };
        expected.position.pc = new_pc;
        expected.set2[29] = new_psr;
        bench.steps(1);
        assert_eq!(bench.machine, expected, "{self:?}");
        assert_eq!(bench.cells, cells);
    }
}

/// Words written by hand, in super user mode.
#[test]
fn by_hand() {
    // swm 0, scall, retu, reti.
    let good: [&[u32]; 4] = [
        &[0xD800_0000, 0, 0],
        &[0xC000_0000, 0],
        &[0xC400_0000, 0],
        &[0xC800_0000, 0, 0, 0],
    ];
    for words in good {
        let bench = |words: &[u32]| Bench::new(words).in_service(0, 0, 0x0E, 0);
        bench(words).steps(1);
        for n in 1..words.len() {
            // addi PR1, PR1, 1
            let mut other = words.to_vec();
            other[n] = 0x4800_0421;
            bench(&other).stops(20);
            bench(&words[..n]).stops(11);
        }
    }
    // swm 1, scall, retu, reti.
    let good: [&[u16]; 4] = [
        &[0xD801, 0, 0],
        &[0xC000, 0],
        &[0xC400, 0],
        &[0xC800, 0, 0, 0],
    ];
    for words in good {
        let bench = |words: &[u16]| Bench::new_16(words).in_service(0, 0, 0x0E, 0);
        bench(words).steps(1);
        for n in 1..words.len() {
            // addi PR25, 1
            let mut other = words.to_vec();
            other[n] = 0x4809;
            bench(&other).stops(20);
            bench(&words[..n]).stops(11);
        }
    }
}

/// A program with real work where nops are wanted: the steps before are done, the stop is no
/// step, and another call stops there again.
#[test]
fn steps_before_stop_20() {
    let addi = rri(18, 2, 2, 1);
    let mut bench = Bench::new(&[lli(1, 5), addi, plain(48, 0), addi, NOP]).user();
    bench.requests = vec![1, 2, 4, 8];
    let answer = bench.run(100);
    assert_eq!((answer.refusal, answer.steps, answer.ending), (0, 2, 20));
    assert_eq!((bench.pc(), bench.psr()), (8, 0x09));
    assert_eq!(bench.machine.set1[1..3], [5, 1]);
    assert_eq!(bench.machine.control[offset::INT_PEND], 3);
    bench.stops(20);
    // With the addition after the nop the program goes on.
    let mut bench = Bench::new(&[lli(1, 5), addi, plain(48, 0), NOP, addi]).user();
    bench.steps(3);
    assert_eq!((bench.pc(), bench.machine.set2[31]), (0, 16));
}

/// A program with its nops present and unprotected runs, whatever the words before and after,
/// and though the program ends there.
#[test]
fn the_rule_kept() {
    for case in cases() {
        let mut following = case.nops();
        case.completes(case.bench(&following));
        following.extend([OTHER, 63, case.operation]);
        case.completes(case.bench(&following));
        // What is protected around the instruction and its nops makes no difference.
        if case.user {
            let end = case.address(1 + case.nops);
            for (low, high) in [(0, START - 1), (START - 1, START - 1)] {
                case.completes(case.protected(&following, low, high));
            }
            for (low, high) in [(end, 0xFFFF_FFFF), (end, end), (end, START)] {
                case.completes(case.protected(&following, low, high));
            }
        }
    }
}

/// Stop 20, when one of them has another operation than 0: each operation at each place.
#[test]
fn another_operation() {
    for case in cases() {
        for place in 0..case.nops as usize {
            for operation in 1..64 {
                let mut following = case.nops();
                following[place] = operation;
                case.bench(&following).stops(20);
                following.push(0);
                case.bench(&following).stops(20);
            }
        }
        // One nop too few, with other operations behind.
        let following = vec![0; case.nops as usize - 1];
        case.bench(&[following, vec![OTHER; 4]].concat()).stops(20);
    }
}

/// A nop has its operation only: its other bits are ignored.
#[test]
fn ignored_bits() {
    for case in cases() {
        // The six bits of the operation are above the ignored ones.
        let ignored = 8 * case.bytes - 6;
        for place in 1..=case.nops {
            let with = |operation: u32, bits: u32| {
                let mut bench = case.bench(&case.nops());
                let at = case.address(place) as usize;
                let word = case.word(operation, bits);
                bench.program[at..at + case.bytes as usize].copy_from_slice(&word);
                bench
            };
            for bit in 0..ignored {
                case.completes(with(0, 1 << bit));
            }
            case.completes(with(0, (1 << ignored) - 1));
            for bit in 0..6 {
                with(1 << bit, 0).stops(20);
            }
        }
    }
}

/// An absent byte is stop 11: the program ends at any byte of the nops, in either mode, and
/// whatever the bytes that are there.
#[test]
fn absent_bytes() {
    for case in cases() {
        for length in case.address(1)..case.address(1 + case.nops) {
            let mut bench = case.bench(&case.nops());
            bench.program.truncate(length as usize);
            bench.stops(11);
            // A word that is there in part has no operation.
            if length % case.bytes != 0 {
                let word = (length - length % case.bytes) as usize;
                bench.program[word] = 0xFF;
                bench.stops(11);
            }
        }
    }
}

/// In user mode a protected byte among them is 00h at the instruction's own address: each byte
/// alone, in EXCEPTION_PC the instruction's address, and nothing of it done (`Bench::raises`).
#[test]
fn protected_bytes() {
    for case in user_cases() {
        for byte in case.address(1)..case.address(1 + case.nops) {
            let mut bench = case.protected(&case.nops(), byte, byte);
            let psr = bench.psr();
            bench.raises(0x00);
            assert_eq!(bench.machine.control[0x17..=0x19], [0x00, START, psr]);
            case.protected(&case.nops(), byte, 0xFFFF_FFFF).raises(0x00);
            // A low bound above the high one protects nothing.
            case.completes(case.protected(&case.nops(), byte, byte - 1));
        }
    }
}

/// Super user mode is not bound by the bounds, though the instruction may go to user mode.
#[test]
fn protected_bytes_in_super_user_mode() {
    for case in cases().into_iter().filter(|case| !case.user) {
        for byte in case.address(0)..case.address(1 + case.nops) {
            case.completes(case.protected(&case.nops(), byte, byte));
        }
        for (low, high) in [(0, 0xFFFF_FFFF), (case.address(1), case.address(1))] {
            case.protected(&[], low, high).stops(11);
            case.protected(&[OTHER; 3], low, high).stops(20);
        }
    }
}

/// The order within a word is that of a fetch, then its operation: 00h, stop 11, stop 20.
#[test]
fn order_within_a_word() {
    for case in cases() {
        for place in 0..case.nops {
            let first = case.address(1 + place);
            let last = first + case.bytes - 1;
            let before = vec![0; place as usize];
            let other = [&before[..], &[OTHER]].concat();
            // In part absent, with another operation in what is there.
            let mut part = case.bench(&other);
            part.program.pop();
            part.stops(11);
            if case.user {
                for byte in first..=last {
                    case.protected(&before, byte, byte).raises(0x00);
                    case.protected(&other, byte, byte).raises(0x00);
                    let mut part = case.protected(&other, byte, byte);
                    part.program.pop();
                    part.raises(0x00);
                }
            }
        }
    }
}

/// The words are looked at one after another: whatever is wrong with the first of them comes
/// before all that is wrong with the next.
#[test]
fn order_between_words() {
    for case in user_cases() {
        for place in 1..case.nops {
            // The word before this place, and the byte that begins this place.
            let before = place as usize - 1;
            let byte = case.address(1 + place);
            let mut following = case.nops();
            following[before] = OTHER;
            // Stop 20, then 00h, stop 11 or stop 20.
            case.protected(&following, byte, 0xFFFF_FFFF).stops(20);
            case.bench(&following[..=before]).stops(20);
            case.protected(&following[..=before], byte, byte).stops(20);
            following[before + 1] = OTHER;
            case.bench(&following).stops(20);
            // Stop 11, then 00h.
            let mut bench = case.protected(&following[..=before], byte, byte);
            bench.program.pop();
            bench.stops(11);
            // 00h, then stop 20 or stop 11.
            following[before] = 0;
            case.protected(&following, byte - 1, byte - 1).raises(0x00);
            let mut bench = case.protected(&following[..=before], byte - 1, byte - 1);
            bench.raises(0x00);
        }
    }
}

/// Every length of the program, each protected byte or none, and other operations at any of
/// the places: the first word with something wrong decides, and in it the first test.
#[test]
fn all_orders() {
    for case in cases() {
        let bytes = case.nops * case.bytes;
        for length in 0..=bytes {
            for protected in 0..=bytes {
                for others in 0..1_u32 << case.nops {
                    let following: Vec<u32> = (0..case.nops)
                        .map(|place| OTHER * (others >> place & 1))
                        .collect();
                    // The byte after the last one stands for none.
                    let byte = case.address(1) + protected;
                    let mut bench = case.protected(&following, byte, byte);
                    bench.program.truncate((case.address(1) + length) as usize);
                    // The first place with each of the three; `nops` where there is none.
                    let by_protection = match case.user {
                        true => protected / case.bytes,
                        false => case.nops,
                    };
                    let by_absence = length / case.bytes;
                    let by_operation = others.trailing_zeros().min(case.nops);
                    let first = by_protection.min(by_absence).min(by_operation);
                    if first == case.nops {
                        case.completes(bench);
                    } else if first == by_protection {
                        bench.raises(0x00);
                    } else if first == by_absence {
                        bench.stops(11);
                    } else {
                        bench.stops(20);
                    }
                }
            }
        }
    }
}

/// 05h, and 00h and stop 11 for the instruction's own word, come first.
#[test]
fn after_the_instructions_own_fetch() {
    for case in cases() {
        for address in [START + 1, START + case.bytes - 1] {
            case.bench(&[OTHER; 3]).at(address).raises(0x05);
        }
        let mut bench = case.bench(&[]);
        bench.program.pop();
        bench.stops(11);
        if case.user {
            for byte in START..START + case.bytes {
                case.protected(&[OTHER; 3], byte, byte).raises(0x00);
            }
        }
    }
}

/// 02h, of retu in user mode, comes before the look.
#[test]
fn after_code_02() {
    for bytes in [2, 4] {
        let retu = Case {
            operation: 49,
            nops: 1,
            bytes,
            user: true,
            new_il: 1,
        };
        for following in [&[][..], &[0], &[OTHER]] {
            retu.bench(following).raises(0x02);
            let nop = retu.address(1);
            retu.protected(following, nop, nop).raises(0x02);
        }
    }
}

/// Stop 13 comes before the look, whatever follows the slot or stands at the target.
#[test]
fn after_stop_13() {
    for case in cases() {
        for following in [&[][..], &case.nops(), &[OTHER; 3]] {
            for target in [0, case.address(1), 0x100] {
                let mut bench = case.bench(following);
                bench.machine.position.slot = Some(target);
                bench.stops(13);
                if case.user {
                    let byte = case.address(1);
                    let mut bench = case.protected(following, byte, byte);
                    bench.machine.position.slot = Some(target);
                    bench.stops(13);
                }
            }
        }
    }
}

/// Only once any condition is true: on a false one scall has no look, and nothing but PC
/// moves.
#[test]
fn conditional_system_calls() {
    for condition in 0..8 {
        for value in 0..8 {
            let (z, n, c) = (value & 4 != 0, value & 2 != 0, value & 1 != 0);
            let is_true = [c, !n, n || z, z, !n && !z, n, !z, !c][condition as usize];
            let scall = when(condition, 5, plain(48, 0));
            let bench = |words: &[u32]| Bench::new(words).c(5, value).c(0, value ^ 7);
            let protected = |words: &[u32]| {
                let mut bench = bench(words).user();
                bench.protect_program(7, 7);
                bench
            };
            if is_true {
                bench(&[scall]).stops(11);
                bench(&[scall, lli(1, 1)]).stops(20);
                protected(&[scall, NOP]).raises(0x00);
                bench(&[scall, NOP]).steps(1);
            } else {
                bench(&[scall]).moves_only_pc(4);
                bench(&[scall, lli(1, 1)]).moves_only_pc(4);
                protected(&[scall, NOP]).moves_only_pc(4);
                protected(&[scall]).moves_only_pc(4);
            }
        }
    }
}

/// Where there is no condition, bits that would be one change nothing: in 49 to 57, and in
/// 16-bit words.
#[test]
fn bits_of_no_condition() {
    for case in cases() {
        let bits = match (case.bytes, case.operation) {
            (4, 48) => continue,
            // Condition c of C0, where C is 0; bit 0 of swm is kept.
            (4, _) => 1 << 25,
            _ => 0x3FE,
        };
        let with = |following: &[u32]| {
            let mut bench = case.bench(following);
            let word = case.word(case.operation, bits | case.new_il);
            let at = START as usize;
            bench.program[at..at + case.bytes as usize].copy_from_slice(&word);
            bench
        };
        case.completes(with(&case.nops()));
        with(&[]).stops(11);
        with(&[OTHER; 3]).stops(20);
    }
}

/// Before stop 15: reti with an empty stack.
#[test]
fn before_stop_15() {
    for case in cases().into_iter().filter(|case| case.operation == 50) {
        let emptied = |mut bench: Bench| {
            while bench.machine.pop().is_some() {}
            bench
        };
        emptied(case.bench(&[0, 0, 0])).stops(15);
        for place in 0..3 {
            let mut following = [0; 3];
            emptied(case.bench(&following[..place])).stops(11);
            following[place] = OTHER;
            emptied(case.bench(&following)).stops(20);
            let byte = case.address(1 + place as u32);
            let mut bench = emptied(case.protected(&[0, 0, 0], byte, byte));
            if case.user {
                bench.raises(0x00);
            } else {
                bench.stops(15);
            }
        }
    }
}

/// In the old width: it is the instruction's own, though another follows.
#[test]
fn the_old_width() {
    // The low half of a 32-bit nop may be anything, for 16-bit words too.
    let nop = 0x0000_FFFF;
    let mut bench = Bench::new(&[plain(54, 0), nop, nop]);
    bench.steps(1);
    assert_eq!((bench.pc(), bench.psr()), (12, 0x06));
    let mut bench = Bench::new(&[plain(49, 0), nop]).pr(30, 0).pr(31, 0x40);
    bench.steps(1);
    assert_eq!((bench.pc(), bench.psr()), (0x40, 0x01));
    let mut bench = Bench::new(&[plain(50, 0), nop, nop, nop]).in_service(0, 0x40, 0x06, 0);
    bench.steps(1);
    assert_eq!((bench.pc(), bench.psr()), (0x40, 0x06));
    // 16-bit words are looked at each for itself, and nothing after them.
    let other = h_rr(29, 1, 2);
    let mut bench = Bench::new_16(&[h_plain(54, 1), 0, 0, other]);
    bench.steps(1);
    assert_eq!((bench.pc(), bench.psr()), (6, 0x0E));
    Bench::new_16(&[h_plain(54, 1), 0, other, 0]).stops(20);
    let mut bench = Bench::new_16(&[h_plain(48, 0), 0, other]);
    bench.steps(1);
    assert_eq!((bench.pc(), bench.psr()), (0, 0x0E));
    // Table 6.6 of the COFFEE Core user manual has a 16-bit word as the second nop: in the old
    // width what stands in the other half is ignored, and the word three later is beyond it.
    let mixed = |halves: [u16; 4]| {
        let mut bench = Bench::new(&[plain(54, 0)]);
        let bytes = halves.iter().flat_map(|half| half.to_be_bytes());
        bench.program.extend(bytes);
        bench
    };
    let mut bench = mixed([0, 0, 0, other]);
    bench.steps(1);
    assert_eq!((bench.pc(), bench.psr()), (12, 0x06));
    // Its case 3 has two 16-bit nops in all: in the old width the second word is no nop.
    mixed([0, 0, other, 0]).stops(20);
}

/// The words may end with the longest program and not go beyond it. Beyond its end, bytes are
/// protected by their addresses.
#[test]
fn at_the_end_of_program_memory() {
    for case in cases() {
        for present in 0..=case.nops {
            let address = 65_536 - (1 + present) * case.bytes;
            let bench = |low: u32, high: u32| {
                let mut bench = case.protected(&[], low, high).at(address);
                bench.program = vec![0; 65_536];
                let at = address as usize;
                bench.program[at..at + case.bytes as usize].copy_from_slice(&case.instruction());
                bench
            };
            for (low, high) in [(1, 0), (0xFFFF_FFFF, 0xFFFF_FFFF)] {
                if present == case.nops {
                    case.completes(bench(low, high));
                } else {
                    bench(low, high).stops(11);
                }
            }
            let mut beyond = bench(65_536, 0xFFFF_FFFF);
            if present == case.nops {
                case.completes(beyond);
            } else if case.user {
                beyond.raises(0x00);
                assert_eq!(beyond.machine.control[offset::EXCEPTION_PC], address);
            } else {
                beyond.stops(11);
            }
        }
    }
}

/// No other operation has a look: what follows it makes no difference.
#[test]
fn other_operations() {
    for number in 0..64 {
        let required = REQUIRED.iter().find(|(operation, _)| *operation == number);
        let count = required.map_or(0, |&(_, nops)| nops);
        assert_eq!(Operation::from_number(number).required_nops(), count);
        if count != 0 {
            continue;
        }
        for bytes in [2, 4] {
            for user in [false, true] {
                let case = Case {
                    operation: number,
                    nops: 0,
                    bytes,
                    user,
                    new_il: 0,
                };
                let left = |following: &[u32]| {
                    let (low, high) = (case.address(1), case.address(4));
                    let mut bench = case.protected(following, low, high);
                    bench.steps(1);
                    (bench.machine, bench.cells)
                };
                let alone = left(&[]);
                assert_eq!(left(&[0, 0, 0]), alone);
                assert_eq!(left(&[OTHER, 63, 54]), alone);
            }
        }
    }
}

/// An interrupt is accepted before anything of the instruction is asked, so before the look;
/// the instruction has it when it is back.
#[test]
fn an_interrupt_comes_first() {
    for (operation, _) in REQUIRED {
        for following in [&[][..], &[lli(1, 1)]] {
            // Source 11 is in service with priority 15, source 0 has 0 and its routine, at
            // 100h, is reti.
            let words = [&[plain(operation, 0)][..], following].concat();
            let mut bench = ready(&words)
                .control(offset::EXT_INT_PRI, 0xF000_0000)
                .in_service(11, 0x40, 0x0E, 0);
            bench.requests = vec![1];
            bench.steps(1);
            assert_eq!((bench.pc(), bench.psr()), (0x100, 0x0E));
            assert_eq!(bench.machine.stack[1].address, 0);
            bench.requests.clear();
            let ends_at = bench.program.len();
            bench.program.resize(0x100, 0);
            for word in [plain(50, 0), NOP, NOP, NOP] {
                bench.program.extend(word.to_be_bytes());
            }
            bench.steps(1);
            assert_eq!((bench.pc(), bench.psr()), (0, 0x1E));
            bench.program.truncate(ends_at);
            bench.stops(if following.is_empty() { 11 } else { 20 });
        }
    }
}

/// 00h is a step with its clock and its requests; the stops are none.
#[test]
fn clocks_and_requests() {
    for case in cases() {
        // Timer 0 counts to 100, one for each clock.
        let timed = |bench: Bench| bench.control(0x24, 100).control(0x27, 0x8000);
        timed(case.bench(&[])).stops(11);
        timed(case.bench(&[OTHER; 3])).stops(20);
        let mut bench = timed(case.bench(&case.nops()));
        bench.steps(1);
        assert_eq!(bench.machine.control[0x23], 1);
        if case.user {
            let byte = case.address(1);
            let mut bench = timed(case.protected(&case.nops(), byte, byte));
            bench.steps(1);
            assert_eq!(bench.machine.control[0x23], 1);
            assert_eq!(bench.machine.control[offset::INT_PEND], 0x801);
            assert_eq!((bench.pc(), bench.exception_code()), (0xA0, 0x00));
        }
    }
}

/// The nops are jumped over as before: none of them is a step, and a slot before the
/// instruction is used up by then.
#[test]
fn a_program_that_keeps_the_rule() {
    let mut words = vec![
        jump(36, 4),        // 0: jmp to 12
        lli(24, 5),         // 4: in the slot
        lli(24, 9),         // 8: jumped over
        plain(54, 0),       // 12: swm to 16-bit words
        0x03FF_FFFF,        // 16: nop with its other bits
        NOP,                // 20
        0x4808_D801,        // 24: addi PR24, 1; swm to 32-bit words
        0x0000_03FF,        // 28: two 16-bit nops
        rri(18, 24, 24, 1), // 32
        plain(49, 0),       // 36: retu to 44
        NOP,                // 40
        rri(18, 1, 1, 7),   // 44: in user mode
        plain(48, 0),       // 48: scall
        NOP,                // 52
    ];
    words.extend([plain(50, 0), NOP, NOP, NOP]); // 56: reti
    let mut bench = Bench::new(&words)
        .pr(30, 0x08)
        .pr(31, 44)
        .control(offset::SYSTEM_ADDR, 56)
        .in_service(2, 8, 0x0E, 3);
    bench.protect_program(56, 0xFFFF_FFFF);
    bench.steps(9);
    assert_eq!((bench.pc(), bench.psr()), (56, 0x0E));
    assert_eq!(bench.machine.set2[24], 7);
    assert_eq!(bench.machine.set1[1], 7);
    assert_eq!(bench.machine.set2[30..32], [0x09, 56]);
    bench.steps(1);
    assert_eq!((bench.pc(), bench.machine.conditions[0]), (8, 3));
}
