//! What the programs of a session met.

use super::flow::{has_target, word_number, Leads, Search, Ways};
use super::Input;
use crate::call::MEMORY_LIMIT;
use crate::met::{add, put, sums, yes_place, Lines, Met, Unmet, Words, WIDTH_NAMES, YES};
use crate::words::{self, *};

/// The answers.
const ANSWERS: [u32; 4] = [0, 1, 28, 27];
/// Reasons for a refusal that stand together.
const TOGETHER: [&str; 4] = ["1 with 28", "1 with 27", "28 with 27", "all three"];
/// Maps by their length.
const MAPS: [&str; 5] = ["exact", "longer", "one byte short", "shorter", "empty"];
/// The bytes of a map before it is written.
const PLACES: [&str; 3] = ["at a reached word", "elsewhere", "behind the program"];
const BYTES: [&str; 3] = ["0", "1", "another number"];
/// How words are reached.
const WAYS: [&str; 4] = ["in full", "only as a slot", "in both ways", "not"];
/// What follows a word that is reached in full.
const FOLLOWED: [&str; 5] = [
    "nothing",
    "a part of a word",
    "one word",
    "two words",
    "three words or more",
];
/// The addresses of starts and targets.
const ADDRESSES: [&str; 12] = [
    "the first word",
    "the last word",
    "another word",
    "a word there in part",
    "one past the last word",
    "further on",
    "a word but for a multiple of 65,536",
    "misaligned, all bytes there",
    "misaligned, there in part",
    "misaligned, further on",
    "below 0",
    "below 0, a word but for a multiple of 65,536",
];
const FURTHER: usize = 5;
const MISALIGNED: usize = 7;
const BELOW: usize = 10;
/// Where targets that are there lie.
const DIRECTIONS: [&str; 5] = [
    "further back",
    "itself",
    "its slot",
    "the word after its slot",
    "further on",
];
/// What is reached, as a whole.
const SHAPES: [&str; 6] = [
    "a word not reached between two that are",
    "all words reached",
    "the start alone reached",
    "a word below the start reached",
    "the start a slot too",
    "a word only as a slot that would lead to one not reached",
];

/// Counts of what was met, by width (0 for 16 bits, 1 for 32) where an array has 2 parts.
pub struct Coverage {
    pub programs: u64,
    /// Words by operation, and by the place in WAYS.
    ways: [[[u64; WAYS.len()]; 64]; 2],
    /// Of words reached in full: by operation and by the place in FOLLOWED; by bit 25; swm by
    /// bit 0, and by whether one of bits 4..1 is 1.
    followed: [[[u64; FOLLOWED.len()]; 64]; 2],
    words: Words,
    swm: [[[u64; 2]; 2]; 2],
    /// Their targets by operation, and by the place in ADDRESSES and in DIRECTIONS.
    targets: [[[u64; ADDRESSES.len()]; 64]; 2],
    directions: [[[u64; DIRECTIONS.len()]; 64]; 2],
    /// Starts that were looked at, by the place in ADDRESSES; those of the last word of all
    /// addresses.
    starts: [[u64; ADDRESSES.len()]; 2],
    last_start: [u64; 2],
    /// By the place in ANSWERS.
    answers: [[u64; ANSWERS.len()]; 2],
    /// By the place in TOGETHER.
    together: [[u64; TOGETHER.len()]; 2],
    /// Of programs of one byte or more and not too long, by the place in MAPS.
    maps: [[u64; MAPS.len()]; 2],
    /// By the place in PLACES and in BYTES.
    before: [[[u64; BYTES.len()]; PLACES.len()]; 2],
    /// By the place in SHAPES.
    shapes: [[u64; SHAPES.len()]; 2],
    /// By the place in YES.
    widths: [u64; YES.len()],
    /// Programs of no bytes, with an empty map and another; the longest that is mapped; those of
    /// one byte and of one word more.
    empty: [[u64; 2]; 2],
    longest: [u64; 2],
    one_byte_more: [u64; 2],
    one_word_more: [u64; 2],
    /// Programs that are mapped, by the bytes left over.
    left_over: [[u64; 4]; 2],
}

impl Coverage {
    pub fn new() -> Coverage {
        Coverage {
            programs: 0,
            ways: [[[0; WAYS.len()]; 64]; 2],
            followed: [[[0; FOLLOWED.len()]; 64]; 2],
            words: Words::new(),
            swm: [[[0; 2]; 2]; 2],
            targets: [[[0; ADDRESSES.len()]; 64]; 2],
            directions: [[[0; DIRECTIONS.len()]; 64]; 2],
            starts: [[0; ADDRESSES.len()]; 2],
            last_start: [0; 2],
            answers: [[0; ANSWERS.len()]; 2],
            together: [[0; TOGETHER.len()]; 2],
            maps: [[0; MAPS.len()]; 2],
            before: [[[0; BYTES.len()]; PLACES.len()]; 2],
            shapes: [[0; SHAPES.len()]; 2],
            widths: [0; YES.len()],
            empty: [[0; 2]; 2],
            longest: [0; 2],
            one_byte_more: [0; 2],
            one_word_more: [0; 2],
            left_over: [[0; 4]; 2],
        }
    }

    /// The words that were reached, and those of them that were only as slots.
    pub fn reached(&self) -> [u64; 2] {
        let [in_full, slots, both, _] = sums(self.ways.iter().flatten());
        [in_full + slots + both, slots]
    }

    /// Counts a program on which both sides agree; where it is mapped, `search` has what is
    /// reached.
    pub fn count(&mut self, input: &Input, answer: u32, search: &Search) {
        let wide = input.is_wide();
        let width = usize::from(wide);
        let length = input.program.len();
        let word_bytes = words::bytes(wide) as usize;
        self.programs += 1;
        self.widths[yes_place(input.wide)] += 1;
        if let Some(place) = ANSWERS.iter().position(|&number| number == answer) {
            self.answers[width][place] += 1;
        }
        let place = match input.reasons() {
            [true, true, false] => Some(0),
            [true, false, true] => Some(1),
            [false, true, true] => Some(2),
            [true, true, true] => Some(3),
            _ => None,
        };
        if let Some(place) = place {
            self.together[width][place] += 1;
        }
        self.one_byte_more[width] += u64::from(length == MEMORY_LIMIT + 1);
        self.one_word_more[width] += u64::from(length == MEMORY_LIMIT + word_bytes);
        if length == 0 {
            self.empty[width][usize::from(!input.map.is_empty())] += 1;
        } else if length <= MEMORY_LIMIT {
            let place = match input.map.len() {
                0 => 4,
                map if map > length => 1,
                map if map == length => 0,
                map if map == length - 1 => 2,
                _ => 3,
            };
            self.maps[width][place] += 1;
        }
        if matches!(answer, 0 | 27) {
            let place = address_place(i64::from(input.start), length, wide);
            self.starts[width][place] += 1;
            let last = u32::MAX - (word_bytes as u32 - 1);
            self.last_start[width] += u64::from(input.start == last);
        }
        if answer == 0 {
            self.longest[width] += u64::from(length == MEMORY_LIMIT);
            self.left_over[width][length % word_bytes] += 1;
            self.count_map(input, search);
        }
    }

    /// Counts a map that was written.
    fn count_map(&mut self, input: &Input, search: &Search) {
        let wide = input.is_wide();
        let width = usize::from(wide);
        let word_bytes = words::bytes(wide) as usize;
        for (number, &ways) in search.ways.iter().enumerate() {
            let at = (number * word_bytes) as u32;
            let Some(word) = word_at(&input.program, at, wide) else {
                continue;
            };
            let operation = words::operation(word, wide) as usize;
            self.ways[width][operation][way_place(ways)] += 1;
            if ways.in_full {
                self.count_word(word, wide, at, &input.program);
            }
        }
        for (at, &byte) in input.map.iter().enumerate() {
            let number = at / word_bytes;
            let ways = search.ways.get(number).filter(|_| at % word_bytes == 0);
            let place = if at >= input.program.len() {
                2
            } else {
                usize::from(!ways.is_some_and(|ways| ways.any()))
            };
            self.before[width][place][usize::from(byte.min(2))] += 1;
        }
        add(&mut self.shapes[width], shapes(input, search));
    }

    /// Counts a word that is reached in full.
    fn count_word(&mut self, word: u32, wide: bool, at: u32, program: &[u8]) {
        let width = usize::from(wide);
        let length = program.len();
        let word_bytes = words::bytes(wide);
        let operation = words::operation(word, wide) as usize;
        let behind = length - (at + word_bytes) as usize;
        let place = match words::whole(behind, wide) {
            0 => usize::from(behind > 0),
            count => 1 + count.min(3),
        };
        self.followed[width][operation][place] += 1;
        self.words.count(word, wide);
        if operation == SWM as usize {
            let others = usize::from(word & 30 != 0);
            self.swm[width][(word & 1) as usize][others] += 1;
        }
        if let Some(target) = Leads::of(word, wide, at).target {
            let place = address_place(target, length, wide);
            self.targets[width][operation][place] += 1;
            if word_number(target, length, wide).is_some() {
                // In words from this one.
                let place = match (target - i64::from(at)) / i64::from(word_bytes) {
                    ..=-1 => 0,
                    0 => 1,
                    1 => 2,
                    2 => 3,
                    _ => 4,
                };
                self.directions[width][operation][place] += 1;
            }
        }
    }
}

/// The place in WAYS.
fn way_place(ways: Ways) -> usize {
    match (ways.in_full, ways.as_slot) {
        (true, false) => 0,
        (false, true) => 1,
        (true, true) => 2,
        (false, false) => 3,
    }
}

/// The place of an address in ADDRESSES.
fn address_place(address: i64, length: usize, wide: bool) -> usize {
    let word_bytes = i64::from(words::bytes(wide));
    let count = words::whole(length, wide);
    let bytes = length as i64;
    let moved = address.rem_euclid(MEMORY_LIMIT as i64);
    let moved = usize::from(word_number(moved, length, wide).is_some());
    if address < 0 {
        return BELOW + moved;
    }
    if address % word_bytes != 0 {
        return MISALIGNED
            + usize::from(address + word_bytes > bytes)
            + usize::from(address >= bytes);
    }
    match word_number(address, length, wide) {
        Some(0) => 0,
        Some(number) if number + 1 == count => 1,
        Some(_) => 2,
        None if address < bytes => 3,
        None if address == count as i64 * word_bytes => 4,
        None => FURTHER + moved,
    }
}

/// What is reached, in the order of SHAPES.
fn shapes(input: &Input, search: &Search) -> [bool; SHAPES.len()] {
    let wide = input.is_wide();
    let length = input.program.len();
    let ways = &search.ways[..];
    let reached = |number: usize| ways[number].any();
    let count = (0..ways.len()).filter(|&number| reached(number)).count();
    let first = (0..ways.len()).position(reached).unwrap_or(0);
    let last = (0..ways.len()).rposition(reached).unwrap_or(0);
    let start = input.start as usize / words::bytes(wide) as usize;
    let leads_on = |number: usize| {
        let at = number as u32 * words::bytes(wide);
        let leads = word_at(&input.program, at, wide).map(|word| Leads::of(word, wide, at));
        let mut addresses = leads.into_iter().flat_map(Leads::in_full);
        addresses.any(|address| {
            let to = word_number(address, length, wide);
            to.is_some_and(|to| !reached(to))
        })
    };
    let mut slots = (0..ways.len()).filter(|&number| !ways[number].in_full && reached(number));
    [
        last - first + 1 > count,
        count == ways.len(),
        count == 1,
        first < start,
        ways[start].as_slot,
        slots.any(leads_on),
    ]
}

/// Whether a target of a width can be at a place in ADDRESSES often enough.
fn target_can_be(place: usize, wide: bool) -> bool {
    // A 16-bit word's target is always aligned, and near.
    wide || place <= FURTHER || place == BELOW
}

impl Met for Coverage {
    fn unmet(&self) -> Vec<String> {
        let mut unmet = Unmet::default();
        for (width, name) in WIDTH_NAMES.into_iter().enumerate() {
            for (operation, mnemonic) in NAMES.iter().enumerate() {
                let ways = WAYS.iter().zip(&self.ways[width][operation]);
                unmet.need_each(ways, |way| format!("{name} {mnemonic} reached {way}"));
                let followed = FOLLOWED.iter().zip(&self.followed[width][operation]);
                unmet.need_each(followed, |what| {
                    format!("{name} {mnemonic} reached in full, {what} after it")
                });
                if has_target(operation as u32) {
                    let targets = ADDRESSES.iter().zip(&self.targets[width][operation]);
                    let can_be = (0..).map(|place| target_can_be(place, width == 1));
                    let can_be = targets.zip(can_be).filter(|(_, can_be)| *can_be);
                    unmet.need_each(can_be.map(|(target, _)| target), |target| {
                        format!("{name} {mnemonic} with target {target}")
                    });
                    let directions = DIRECTIONS.iter().zip(&self.directions[width][operation]);
                    unmet.need_each(directions, |direction| {
                        format!("{name} {mnemonic} with target {direction}, a word")
                    });
                }
            }
            for (bit, others) in self.swm[width].iter().enumerate() {
                unmet.need_each(["all 0", "not all 0"].iter().zip(others), |others| {
                    format!("{name} swm reached in full, bit 0 at {bit}, bits 4..1 {others}")
                });
            }
            let starts = ADDRESSES[..BELOW].iter().zip(&self.starts[width]);
            unmet.need_each(starts, |start| format!("{name} start {start}"));
            unmet.need(
                self.last_start[width],
                format!("{name} start at the last word of all addresses"),
            );
            unmet.need_each(ANSWERS.iter().zip(&self.answers[width]), |answer| {
                format!("{name} program answered with {answer}")
            });
            unmet.need_each(TOGETHER.iter().zip(&self.together[width]), |reasons| {
                format!("{name} program with several reasons for a refusal, {reasons}")
            });
            unmet.need_each(MAPS.iter().zip(&self.maps[width]), |map| {
                format!("{name} program, its map {map}")
            });
            for (place, counts) in PLACES.iter().zip(&self.before[width]) {
                unmet.need_each(BYTES.iter().zip(counts), |byte| {
                    format!("{name} map with {byte} {place} before")
                });
            }
            unmet.need_each(SHAPES.iter().zip(&self.shapes[width]), |shape| {
                format!("{name} map with {shape}")
            });
            let empty = ["an empty", "another"].iter().zip(&self.empty[width]);
            unmet.need_each(empty, |map| {
                format!("{name} program of no bytes with {map} map")
            });
            unmet.need(
                self.longest[width],
                format!("{name} program of 65,536 bytes mapped"),
            );
            unmet.need(
                self.one_byte_more[width],
                format!("{name} program of 65,537 bytes"),
            );
            unmet.need(
                self.one_word_more[width],
                format!("{name} program of one word more than 65,536 bytes"),
            );
            let left_over = &self.left_over[width][..words::bytes(width == 1) as usize];
            unmet.need_each(left_over.iter().enumerate(), |left| {
                format!("{name} program mapped with {left} bytes left over")
            });
        }
        for operation in 0..NAMES.len() {
            self.words
                .need_bit_25(&mut unmet, operation, "reached in full with");
        }
        unmet.need_each(YES.iter().zip(&self.widths), |(_, number)| {
            format!("program with {number} as its width")
        });
        unmet.lines()
    }

    fn report(&self) -> String {
        let mut text = String::new();
        let out = &mut text;
        for (width, name) in WIDTH_NAMES.into_iter().enumerate().rev() {
            let mut lines = Lines::of(out, name);
            lines.add("programs by answer", ANSWERS, &self.answers[width]);
            lines.add(
                "programs with several reasons for a refusal",
                TOGETHER,
                &self.together[width],
            );
            lines.add("programs by map", MAPS, &self.maps[width]);
            lines.add("starts", &ADDRESSES[..BELOW], &self.starts[width]);
            lines.add("maps", SHAPES, &self.shapes[width]);
            lines.add("targets", ADDRESSES, &sums(&self.targets[width]));
            lines.add("words reached", WAYS, &sums(&self.ways[width]));
        }
        put(
            out,
            format!(
                "maps of 65,536 bytes: 32-bit {}, 16-bit {}; with bytes left over: 32-bit {}, 16-bit {}",
                self.longest[1],
                self.longest[0],
                self.left_over[1][1..].iter().sum::<u64>(),
                self.left_over[0][1..].iter().sum::<u64>()
            ),
        );
        for (width, name) in WIDTH_NAMES.into_iter().enumerate().rev() {
            let in_full = self.followed[width]
                .iter()
                .map(|counts| counts.iter().sum());
            let in_full: Vec<u64> = in_full.collect();
            Lines::of(out, name).add("words reached in full by operation", NAMES, &in_full);
        }
        text
    }
}

impl Default for Coverage {
    fn default() -> Coverage {
        Coverage::new()
    }
}

#[cfg(test)]
mod tests {
    use super::*;

    /// Addresses in and around programs of ten and of eight bytes.
    #[test]
    fn addresses() {
        let name = |address: i64, length: usize, wide: bool| {
            ADDRESSES[address_place(address, length, wide)]
        };
        for (address, ten, eight) in [
            (0, "the first word", "the first word"),
            (4, "the last word", "the last word"),
            (8, "a word there in part", "one past the last word"),
            (12, "further on", "further on"),
            (
                65_540,
                "a word but for a multiple of 65,536",
                "a word but for a multiple of 65,536",
            ),
            (65_544, "further on", "further on"),
            (
                2,
                "misaligned, all bytes there",
                "misaligned, all bytes there",
            ),
            (
                6,
                "misaligned, all bytes there",
                "misaligned, there in part",
            ),
            (7, "misaligned, there in part", "misaligned, there in part"),
            (10, "misaligned, further on", "misaligned, further on"),
            (-4, "below 0", "below 0"),
            (
                -65_532,
                "below 0, a word but for a multiple of 65,536",
                "below 0, a word but for a multiple of 65,536",
            ),
        ] {
            assert_eq!(
                [name(address, 10, true), name(address, 8, true)],
                [ten, eight]
            );
        }
        assert_eq!(name(4, 10, false), "another word");
        assert_eq!(name(8, 10, false), "the last word");
        assert_eq!(name(10, 11, false), "a word there in part");
        assert_eq!(name(9, 10, false), "misaligned, there in part");
        assert_eq!(name(0, 0, false), "one past the last word");
        assert_eq!(
            name(-2, MEMORY_LIMIT, false),
            "below 0, a word but for a multiple of 65,536"
        );
    }

    /// What each shape is, from 32-bit words.
    #[test]
    fn shapes_of_programs() {
        let met = |start: u32, words: &[u32]| {
            let mut input = Input {
                wide: 1,
                start,
                ..Input::default()
            };
            for &word in words {
                append(&mut input.program, word, true);
            }
            let mut search = Search::default();
            search.run(start, &input.program, true);
            let shapes = SHAPES.into_iter().zip(shapes(&input, &search));
            let met = shapes.filter(|(_, met)| *met).map(|(name, _)| name);
            met.collect::<Vec<_>>()
        };
        let [gap, all, alone, below, slot, leads] = SHAPES;
        assert_eq!(met(0, &[0, 0]), [all]);
        assert_eq!(met(4, &[0, 0]), [alone]);
        assert_eq!(met(0, &[TRAP << 26]), [all, alone]);
        assert_eq!(met(0, &[JMP << 26 | 4, TRAP << 26, 0, 0]), [gap]);
        assert_eq!(
            met(4, &[TRAP << 26, JMP << 26 | 0x01FF_FFFC, TRAP << 26]),
            [all, below]
        );
        assert_eq!(met(0, &[JMPR << 26, 0, 0]), [leads]);
        assert_eq!(
            met(4, &[JMPR << 26, BRANCH << 26 | 0x003F_FFFC, TRAP << 26]),
            [all, below, slot]
        );
    }
}
