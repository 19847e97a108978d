//! What differs after both sides did the same: for calls, listings, written words, carry-overs
//! and maps of reachable words.

use crate::image;
use std::fmt::{self, Display};

/// What differs: `A` is an answer, `L` tells where memory that was lent to be written differs.
#[derive(Clone, Debug, PartialEq, Eq)]
pub enum Difference<A, L> {
    Answer {
        reference: A,
        library: A,
    },
    /// The sides leave memory different that was lent to be written.
    Left(L),
    /// The library wrote to memory that was lent to be read, or not lent at all.
    Stray(String),
    /// Both sides answer alike, and not as docs/MANUAL.md says.
    Both(String),
}

impl<A: PartialEq, L> Difference<A, L> {
    /// The answer, where both sides give it.
    pub fn agreed(reference: A, library: A) -> Result<A, Difference<A, L>> {
        if reference == library {
            Ok(reference)
        } else {
            Err(Difference::Answer { reference, library })
        }
    }
}

impl<A: Display, L: Display> Display for Difference<A, L> {
    fn fmt(&self, f: &mut fmt::Formatter<'_>) -> fmt::Result {
        match self {
            Difference::Answer { reference, library } => {
                write!(f, "answer: reference {reference}, library {library}")
            }
            Difference::Left(left) => left.fmt(f),
            Difference::Stray(place) => write!(f, "the library wrote to {place}"),
            Difference::Both(what) => write!(f, "both sides: {what}"),
        }
    }
}

/// A cell or byte that the sides leave different.
#[derive(Clone, Debug, PartialEq, Eq)]
pub struct Unlike<T> {
    pub index: usize,
    pub before: T,
    pub reference: T,
    pub library: T,
}

impl<T: Copy + PartialEq> Unlike<T> {
    /// Where two slices of equal length differ first, and what was there before.
    pub fn first(before: &[T], reference: &[T], library: &[T]) -> Option<Unlike<T>> {
        if reference == library {
            return None;
        }
        let pairs = reference.iter().zip(library);
        let index = pairs.take_while(|(a, b)| a == b).count();
        Some(Unlike {
            index,
            before: before[index],
            reference: reference[index],
            library: library[index],
        })
    }
}

impl<T: fmt::UpperHex> Display for Unlike<T> {
    fn fmt(&self, f: &mut fmt::Formatter<'_>) -> fmt::Result {
        let digits = 2 * std::mem::size_of::<T>();
        write!(
            f,
            "before {:0digits$X}, reference {:0digits$X}, library {:0digits$X}",
            self.before, self.reference, self.library
        )
    }
}

/// A byte of the buffers for an image, and the name of its number.
#[derive(Clone, Debug, PartialEq, Eq)]
pub struct ImageByte {
    pub byte: Unlike<u8>,
    pub name: String,
}

impl ImageByte {
    /// Where two buffers differ first, and what was there before.
    pub fn first(before: &[u8], reference: &[u8], library: &[u8]) -> Option<ImageByte> {
        let byte = Unlike::first(before, reference, library)?;
        let name = image::name(byte.index / 4, image::depth(reference));
        Some(ImageByte { byte, name })
    }
}

impl Display for ImageByte {
    fn fmt(&self, f: &mut fmt::Formatter<'_>) -> fmt::Result {
        let ImageByte { byte, name } = self;
        write!(f, "buffer byte {} ({name}): {byte}", byte.index)
    }
}

#[cfg(test)]
mod tests {
    use super::*;

    type Found = Difference<u32, ImageByte>;

    #[test]
    fn agreed() {
        assert_eq!(Found::agreed(8, 8), Ok(8));
        let difference = Found::agreed(8, 0).expect_err("a difference");
        assert_eq!(difference.to_string(), "answer: reference 8, library 0");
    }

    /// The first byte that differs is told, by the name of its number, and no later one.
    #[test]
    fn first() {
        let before = [0xFF; image::SHORTEST];
        let mut reference = before;
        image::set_number(&mut reference, image::COUNTS[5], 0);
        assert_eq!(ImageByte::first(&before, &reference, &reference), None);
        let mut library = reference;
        library[image::SHORTEST - 1] = 3;
        library[image::SHORTEST - 5] = 0x2A;
        let byte = ImageByte::first(&before, &reference, &library).expect("a difference");
        assert_eq!(
            Found::Left(byte).to_string(),
            "buffer byte 523 (divider 0): before FF, reference FF, library 2A"
        );
    }

    #[test]
    fn others() {
        let stray = Found::Stray("memory behind the buffer".to_string());
        let both = Found::Both("answer 9".to_string());
        assert_eq!(
            stray.to_string(),
            "the library wrote to memory behind the buffer"
        );
        assert_eq!(both.to_string(), "both sides: answer 9");
    }
}
