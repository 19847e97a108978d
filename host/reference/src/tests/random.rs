//! Random programs: what holds of every run, whatever the words.

use super::bench::*;
use crate::machine::{offset, StackEntry, CONTROL_REGISTERS};

/// A small generator of random numbers (xorshift).
pub struct Random(pub u64);

impl Random {
    pub fn next(&mut self) -> u32 {
        self.0 ^= self.0 << 13;
        self.0 ^= self.0 >> 7;
        self.0 ^= self.0 << 17;
        (self.0 >> 16) as u32
    }

    pub fn below(&mut self, bound: u32) -> u32 {
        self.next() % bound
    }

    /// A number of an interesting size.
    fn number(&mut self) -> u32 {
        match self.below(6) {
            0 => self.below(64),
            1 => self.below(64) * 4,
            2 => 0xFFFF_FFFF - self.below(64),
            3 => 0x8000_0000_u32.wrapping_add(self.below(3)).wrapping_sub(1),
            4 => 0x0001_0000 + self.below(256),
            _ => self.next(),
        }
    }
}

/// Random words of one width. Most of those that have to be followed by nops are.
fn random_program(random: &mut Random) -> Vec<u8> {
    let length = random.below(300) as usize;
    let word_bytes = if random.below(2) == 0 { 2 } else { 4 };
    let mut program: Vec<u8> = Vec::new();
    let mut nops = 0;
    while program.len() < length {
        let mut word: Vec<u8> = (0..word_bytes).map(|_| random.next() as u8).collect();
        if nops > 0 {
            // The operation is in the six highest bits of either width.
            word[0] &= 3;
            nops -= 1;
        } else if random.below(4) != 0 {
            nops = match word[0] >> 2 {
                48 | 49 => 1,
                54 => 2,
                50 => 3,
                _ => 0,
            };
        }
        program.extend(word);
    }
    program.truncate(length);
    program
}

/// A machine in a random state that questions 2 to 5 accept, on a random program.
fn random_bench(random: &mut Random) -> Bench {
    let mut bench = Bench::new(&[]);
    bench.program = random_program(random);
    bench.cells = (0..random.below(80)).map(|_| random.next()).collect();
    bench.requests = (0..random.below(60))
        .map(|_| {
            if random.below(4) == 0 {
                1 << random.below(12)
            } else {
                0
            }
        })
        .collect();
    let machine = &mut bench.machine;
    for n in 0..32 {
        machine.set1[n] = random.number();
        machine.set2[n] = random.number();
    }
    let psr = |random: &mut Random| {
        let psr = random.below(32);
        if psr & 1 == 1 {
            psr & 0x19
        } else {
            psr
        }
    };
    machine.set2[29] = psr(random);
    for register in &mut machine.conditions {
        *register = random.below(8);
    }
    for n in 0..CONTROL_REGISTERS {
        let value = random.number();
        machine.store_control(n, value);
    }
    machine.control[offset::INT_PEND] = random.below(0x1000);
    machine.control[offset::INT_MASK] |= random.below(0x1000);
    if random.below(2) == 0 {
        machine.control[offset::IMEM_BOUND_LO] = 1;
        machine.control[offset::IMEM_BOUND_HI] = 0;
    }
    machine.position.pc = random.below(64) * 4;
    if random.below(4) == 0 {
        machine.position.slot = Some(random.number());
    }
    if random.below(4) == 0 {
        machine.position.product = Some(u64::from(random.next()) << 32);
    }
    machine.dividers = [random.below(256), random.below(4)];
    // Half of the machines have an empty stack.
    let rarity = if random.below(2) == 0 { 4 } else { 0 };
    for source in 0..12 {
        if rarity != 0 && random.below(rarity) == 0 {
            let entry = StackEntry {
                source,
                address: random.number(),
                psr: psr(random),
                c0: random.below(8),
            };
            machine.push(entry);
        }
    }
    bench
}

/// The image a run leaves is one that the next call takes (`Bench::run` asks questions 2
/// to 5 of it), and two calls in a row do what one call does.
#[test]
fn one_call_or_two() {
    let mut random = Random(0x9E37_79B9_7F4A_7C15);
    let mut endings = [0_u32; 21];
    let mut steps = 0;
    for _ in 0..20_000 {
        let mut whole = random_bench(&mut random);
        let limit = random.below(60);
        let first = random.below(limit + 1);
        let mut split = Bench {
            machine: whole.machine.clone(),
            program: whole.program.clone(),
            cells: whole.cells.clone(),
            requests: whole.requests.clone(),
        };
        let answer = whole.run(limit);
        endings[answer.ending as usize] += 1;
        steps += answer.steps;
        assert!(answer.steps <= limit);
        assert_eq!(answer.steps == limit, answer.ending == 0);

        let mut done = split.run(first);
        if done.ending == 0 {
            split
                .requests
                .drain(..split.requests.len().min(first as usize));
            let second = split.run(limit - first);
            done.steps += second.steps;
            done.ending = second.ending;
        }
        assert_eq!(done, answer);
        assert_eq!(split.machine, whole.machine);
        assert_eq!(split.cells, whole.cells);
    }
    // The test means something only if much is run and every stop is met.
    assert!(steps > 100_000);
    for ending in [0, 11, 12, 13, 14, 15, 20] {
        assert!(endings[ending] > 20, "ending {ending}: {endings:?}");
    }
}
