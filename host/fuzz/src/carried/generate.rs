//! Images to carry over, and buffers to carry them to.

use super::Input;
use crate::call::fill_bytes;
use crate::damage::{self, Damage, DAMAGES};
use crate::image::{Image, Layout, EARLIER_LONGEST, LONGEST};
use crate::program::{Region, Role};
use crate::random::Random;
use crate::state;

/// The layout that a carry-over reads.
pub const LAYOUT: Layout = Layout::Earlier;

/// A program for the addresses of an image: nops.
const PROGRAM: [u8; 64] = [0; 64];
const REGIONS: [Region; 2] = [
    Region {
        start: 0,
        end: 40,
        wide: true,
        role: Role::Plain,
    },
    Region {
        start: 40,
        end: 64,
        wide: false,
        role: Role::Handler,
    },
];
const CELLS: usize = 300;

/// What the generator knows of a carry-over's answer.
#[derive(Clone, Copy, Default)]
pub struct Expected {
    /// The refusal, 0 for none; nothing where two damages may cancel each other.
    pub refusal: Option<u32>,
    /// The only damage done to the image, if any.
    pub damage: Option<Damage>,
    /// The stack's depth.
    pub depth: usize,
}

/// A random image, of which one in some is damaged, and a buffer, which often is too short.
pub fn carry(random: &mut Random, input: &mut Input) {
    let mut image = Image::new();
    state::build(random, &PROGRAM, &REGIONS, true, CELLS, &mut image);
    let mut refusal = Some(0);
    let mut damage = None;
    match random.below(20) {
        0..=10 => image.write(LAYOUT, &mut input.image),
        11..=17 => {
            let only = any_damage(random);
            damage::apply(&[only], LAYOUT, random, &mut image, &mut input.image);
            refusal = Some(only.refusal());
            damage = Some(only);
        }
        _ => {
            let first = any_damage(random);
            let mut second = any_damage(random);
            while second == first || first.refusal() == 2 && second.refusal() == 2 {
                second = any_damage(random);
            }
            damage::apply(
                &[first, second],
                LAYOUT,
                random,
                &mut image,
                &mut input.image,
            );
            refusal = None;
        }
    }
    let least = LONGEST as u32;
    let length = match random.below(20) {
        0..=6 => least,
        7..=9 => least + random.range(1, 40),
        10 => least + random.below(800),
        11 => 0,
        12 | 13 => least - 1,
        14 => EARLIER_LONGEST as u32,
        15 => input.image.len() as u32,
        // As long as the image becomes.
        16 => input.image.len() as u32 + 12,
        17 => random.range(EARLIER_LONGEST as u32, least),
        _ => random.below(least),
    };
    fill_bytes(random, &mut input.buffer, length as usize);
    if refusal == Some(0) && length < least {
        refusal = Some(8);
    }
    input.expected = Expected {
        refusal,
        damage,
        depth: image.depth,
    };
}

/// A damage that an image of the earlier layout can have.
fn any_damage(random: &mut Random) -> Damage {
    loop {
        let damage = random.pick(&DAMAGES);
        if damage.is_of(LAYOUT) {
            return damage;
        }
    }
}
