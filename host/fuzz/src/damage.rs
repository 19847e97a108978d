//! Images that one of questions 2 to 5 refuses, each by one change to a valid image of a
//! layout (Manual 8).

use crate::image::*;
use crate::random::Random;

/// One kind of change to a valid image.
#[derive(Clone, Copy, Debug, PartialEq, Eq)]
pub enum Damage {
    // Question 2: exactly these sections and counts.
    /// The count of the section with this number, 0 to 4.
    Count(usize),
    EntryCountMore,
    EntryCountLess,
    /// 13 entries, all of them there.
    ThirteenEntries,
    /// A count whose length comes out right in 32 bits.
    EntryCountWraps,
    EntryCountLarge,
    Shorter,
    Longer,
    ExtraNumber,
    ExtraEntry,
    MissingEntry,
    CutShort,
    Empty,
    /// The count of dividers, or that and the dividers.
    DividerCount,
    ExtraDivider,
    MissingDivider,
    NoDividers,
    OtherLayout,
    // Question 3: every number one its register can hold.
    Status,
    Condition,
    /// A short register of the control block, by its offset.
    Control(usize),
    ControlBaseByte,
    FpuStatus,
    Version,
    SlotFlag,
    ProductFlag,
    TargetWithoutSlot,
    HighWithoutProduct,
    LowWithoutProduct,
    StackedStatus,
    StackedCondition,
    /// Of the timer with this number.
    Divider(usize),
    // Question 4: user mode has RSRD and RSWR 0.
    UserSets,
    StackedUserSets,
    // Question 5: the stack agrees with INT_SERV and RETI_.
    SourceTooLarge,
    SourceWraps,
    SourceTwice,
    ServiceMore,
    ServiceLess,
    ReturnAddress,
    ReturnStatus,
    /// A number that RETI_PSR can hold and a PSR cannot.
    ReturnStatusWide,
    ReturnCondition,
}

use Damage::*;

/// Every kind of damage.
pub const DAMAGES: [Damage; 60] = [
    Count(0),
    Count(1),
    Count(2),
    Count(3),
    Count(4),
    EntryCountMore,
    EntryCountLess,
    ThirteenEntries,
    EntryCountWraps,
    EntryCountLarge,
    Shorter,
    Longer,
    ExtraNumber,
    ExtraEntry,
    MissingEntry,
    CutShort,
    Empty,
    DividerCount,
    ExtraDivider,
    MissingDivider,
    NoDividers,
    OtherLayout,
    Status,
    Condition,
    Control(INT_MODE_IL),
    Control(INT_MODE_UM),
    Control(INT_MASK),
    Control(INT_SERV),
    Control(INT_PEND),
    Control(COP_INT_PRI),
    Control(EXCEPTION_CS),
    Control(EXCEPTION_PSR),
    Control(MEM_CONF),
    Control(BUS_CONF),
    Control(COP_CONF),
    Control(RETI_PSR),
    Control(RETI_CR0),
    ControlBaseByte,
    FpuStatus,
    Version,
    SlotFlag,
    ProductFlag,
    TargetWithoutSlot,
    HighWithoutProduct,
    LowWithoutProduct,
    StackedStatus,
    StackedCondition,
    Divider(0),
    Divider(1),
    UserSets,
    StackedUserSets,
    SourceTooLarge,
    SourceWraps,
    SourceTwice,
    ServiceMore,
    ServiceLess,
    ReturnAddress,
    ReturnStatus,
    ReturnStatusWide,
    ReturnCondition,
];

impl Damage {
    /// The refusal that this damage alone leads to.
    pub fn refusal(self) -> u32 {
        match self {
            Count(_) | EntryCountMore | EntryCountLess | ThirteenEntries | EntryCountWraps
            | EntryCountLarge | Shorter | Longer | ExtraNumber | ExtraEntry | MissingEntry
            | CutShort | Empty | DividerCount | ExtraDivider | MissingDivider | NoDividers
            | OtherLayout => 2,
            UserSets | StackedUserSets => 4,
            SourceTooLarge | SourceWraps | SourceTwice | ServiceMore | ServiceLess
            | ReturnAddress | ReturnStatus | ReturnStatusWide | ReturnCondition => 5,
            _ => 3,
        }
    }

    /// Whether an image of a layout can be damaged so.
    pub fn is_of(self, layout: Layout) -> bool {
        let of_dividers = matches!(
            self,
            DividerCount | ExtraDivider | MissingDivider | NoDividers | Divider(_)
        );
        layout == Layout::Present || !of_dividers
    }

    /// The stack entries that a valid image needs for this damage.
    fn least_depth(self) -> usize {
        match self {
            SourceTwice => 2,
            EntryCountLess | MissingEntry | StackedStatus | StackedCondition | StackedUserSets
            | SourceTooLarge | SourceWraps | ServiceLess => 1,
            _ => 0,
        }
    }

    /// The damage of questions 3 to 5.
    fn change_numbers(self, random: &mut Random, image: &mut Image) {
        let top = image.depth.saturating_sub(1);
        let place = random.below(image.depth.max(1) as u32) as usize;
        match self {
            Status => image.set2[PSR] |= 32 << shift(random, 27),
            Condition => image.conditions[random.below(8) as usize] |= 8 << shift(random, 29),
            Control(offset) => {
                let width = control_mask(offset).count_ones();
                image.control[offset] |= 1 << (width + shift(random, 32 - width));
            }
            ControlBaseByte => image.control[CCB_BASE] |= 1 << random.below(8),
            FpuStatus => image.control[FPU_STATUS] = 1 << shift(random, 32),
            Version => {
                image.control[CORE_VER_ID] = match random.below(3) {
                    0 => 0,
                    1 => 2,
                    _ => 1 | 2 << shift(random, 31),
                }
            }
            SlotFlag => image.position[SLOT] = above_1(random),
            ProductFlag => image.position[PRODUCT] = above_1(random),
            TargetWithoutSlot => {
                image.position[SLOT] = 0;
                image.position[TARGET] = 1 << random.below(32);
            }
            HighWithoutProduct => {
                image.position[PRODUCT] = 0;
                image.position[HIGH] = 1 << random.below(32);
                image.position[LOW] = 0;
            }
            LowWithoutProduct => {
                image.position[PRODUCT] = 0;
                image.position[HIGH] = 0;
                image.position[LOW] = 1 << random.below(32);
            }
            StackedStatus => {
                image.stack[place].psr |= 32 << shift(random, 27);
                // RETI_PSR agrees where it can hold the number.
                if place == top && image.stack[place].psr < 256 && random.percent(50) {
                    image.control[RETI_PSR] = image.stack[place].psr;
                }
            }
            StackedCondition => image.stack[place].c0 |= 8 << shift(random, 29),
            Divider(timer) => image.dividers[timer] |= 256 << shift(random, 24),
            UserSets => image.set2[PSR] |= UM | random.pick(&[RSRD, RSWR, RSRD | RSWR]),
            StackedUserSets => {
                image.stack[place].psr |= UM | random.pick(&[RSRD, RSWR, RSRD | RSWR]);
                image.control[RETI_PSR] = image.stack[top].psr;
            }
            SourceTooLarge => {
                image.stack[place].source = match random.below(3) {
                    0 => 12,
                    1 => random.range(12, 31),
                    _ => 12 + (random.word() >> 1),
                };
                if random.percent(50) {
                    agree_in_service(image);
                }
            }
            // A source that a shift by its low five or four bits would take.
            SourceWraps => {
                let more = random.pick(&[16, 32, 64, 1 << 31]);
                image.stack[place].source = image.stack[place].source.wrapping_add(more);
            }
            SourceTwice => {
                let other = (place + 1) % image.depth;
                image.stack[place].source = image.stack[other].source;
                if random.percent(70) {
                    agree_in_service(image);
                }
            }
            ServiceMore => {
                let free = !image.control[INT_SERV] & 0xFFF;
                image.control[INT_SERV] |= any_bit(random, free);
            }
            ServiceLess => {
                let taken = image.control[INT_SERV];
                image.control[INT_SERV] &= !any_bit(random, taken);
            }
            ReturnAddress => image.control[RETI_ADDR] ^= 1 << random.below(32),
            ReturnStatus => image.control[RETI_PSR] ^= 1 << random.below(5),
            ReturnStatusWide => image.control[RETI_PSR] |= 32 << random.below(3),
            ReturnCondition => image.control[RETI_CR0] ^= 1 << random.below(3),
            _ => {}
        }
    }

    /// The damage of question 2.
    fn change_bytes(self, layout: Layout, random: &mut Random, image: &Image, bytes: &mut Vec<u8>) {
        let length = bytes.len();
        let depth = image.depth as u32;
        let entries = COUNTS[5];
        let dividers = last_count(image.depth);
        let stack_end = 4 * dividers;
        match self {
            Count(section) => {
                let count = number(bytes, COUNTS[section]);
                let other = match random.below(4) {
                    0 => count - 1,
                    1 => count + 1,
                    2 => 0,
                    _ => count ^ 1 << random.below(32),
                };
                set_number(bytes, COUNTS[section], other);
            }
            EntryCountMore => set_number(bytes, entries, depth + 1),
            EntryCountLess => set_number(bytes, entries, depth - 1),
            ThirteenEntries => {
                set_number(bytes, entries, 13);
                let more = 16 * (13 - image.depth);
                bytes.splice(stack_end..stack_end, vec![0; more]);
            }
            EntryCountWraps => {
                let high = random.range(1, 15) << 28;
                set_number(bytes, entries, depth | high);
            }
            EntryCountLarge => {
                let count = random.range(13, u32::MAX);
                set_number(bytes, entries, count);
            }
            Shorter => bytes.truncate(length - random.range(1, 4) as usize),
            Longer => {
                for _ in 0..random.range(1, 4) {
                    let byte = random.word() as u8;
                    bytes.push(byte);
                }
            }
            ExtraNumber => bytes.extend_from_slice(&[0; 4]),
            ExtraEntry => drop(bytes.splice(stack_end..stack_end, [0; 16])),
            MissingEntry => drop(bytes.drain(stack_end - 16..stack_end)),
            CutShort => bytes.truncate(random.below(length as u32) as usize),
            Empty => bytes.clear(),
            DividerCount => {
                let other = match random.below(4) {
                    0 => 1,
                    1 => 3,
                    2 => 0,
                    _ => 2 ^ 1 << random.below(32),
                };
                set_number(bytes, dividers, other);
            }
            ExtraDivider => {
                set_number(bytes, dividers, 3);
                bytes.extend_from_slice(&[0; 4]);
            }
            MissingDivider => {
                set_number(bytes, dividers, 1);
                bytes.truncate(length - 4);
            }
            NoDividers => {
                set_number(bytes, dividers, 0);
                bytes.truncate(length - 8);
            }
            OtherLayout => image.write(layout.other(), bytes),
            _ => {}
        }
    }
}

/// Damages a valid image in each of these ways, which are of its layout, and writes it to
/// `bytes`. At most one of them is of question 2.
pub fn apply(
    damages: &[Damage],
    layout: Layout,
    random: &mut Random,
    image: &mut Image,
    bytes: &mut Vec<u8>,
) {
    for damage in damages {
        while image.depth < damage.least_depth() {
            push_any(random, image);
        }
        if *damage == ServiceMore && image.depth == SOURCES {
            image.depth -= 1;
            image.show_stack();
        }
    }
    for damage in damages {
        damage.change_numbers(random, image);
    }
    image.write(layout, bytes);
    for damage in damages {
        damage.change_bytes(layout, random, image, bytes);
    }
}

/// A shift below `bits`, often 0.
fn shift(random: &mut Random, bits: u32) -> u32 {
    if random.percent(40) {
        0
    } else {
        random.below(bits)
    }
}

/// A flag that is neither 0 nor 1.
fn above_1(random: &mut Random) -> u32 {
    match random.below(3) {
        0 => 2,
        1 => 1 | 1 << random.range(1, 31),
        _ => random.range(2, u32::MAX),
    }
}

/// One of the bits of `flags`, which is not 0.
fn any_bit(random: &mut Random, flags: u32) -> u32 {
    let mut rest = flags;
    for _ in 0..random.below(flags.count_ones()) {
        rest &= rest - 1;
    }
    rest & rest.wrapping_neg()
}

/// Makes INT_SERV agree with the stack as well as it can.
fn agree_in_service(image: &mut Image) {
    image.control[INT_SERV] = image.stack[..image.depth]
        .iter()
        .fold(0, |flags, entry| flags | 1 << (entry.source & 31))
        & 0xFFF;
}

/// Puts a valid entry on the stack.
fn push_any(random: &mut Random, image: &mut Image) {
    let free = !image.control[INT_SERV] & 0xFFF;
    let psr = random.below(16) << 1;
    image.stack[image.depth] = Entry {
        source: any_bit(random, free).trailing_zeros(),
        address: random.number(),
        psr,
        c0: random.below(8),
    };
    image.depth += 1;
    image.show_stack();
}
