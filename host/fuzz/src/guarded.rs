//! Memory lent to the library, between guards that nobody may touch.

/// The number of elements of each guard.
const LENGTH: usize = 64;

/// What can be lent.
pub trait Element: Copy + PartialEq {
    /// What each element of a guard holds.
    const GUARD: Self;
}

impl Element for u8 {
    const GUARD: u8 = 0xA5;
}

impl Element for u32 {
    const GUARD: u32 = 0xA5C3_965A;
}

/// Elements between two guards, used again for every call.
pub struct Guarded<T> {
    /// The guards too.
    all: Vec<T>,
}

impl<T: Element> Guarded<T> {
    /// Lays the guards, and a copy of the elements between them.
    pub fn lay(&mut self, elements: &[T]) {
        self.all.clear();
        self.all.extend_from_slice(&[T::GUARD; LENGTH]);
        self.all.extend_from_slice(elements);
        self.all.extend_from_slice(&[T::GUARD; LENGTH]);
    }

    /// The elements between the guards.
    pub fn lent(&self) -> &[T] {
        &self.all[LENGTH..self.all.len() - LENGTH]
    }

    /// The elements between the guards, to be written.
    pub fn lent_mut(&mut self) -> &mut [T] {
        let end = self.all.len() - LENGTH;
        &mut self.all[LENGTH..end]
    }

    /// The guards are as they were laid; otherwise, the first that was written to, told by
    /// the name of what is between them.
    pub fn untouched(&self, name: &str) -> Result<(), String> {
        let guard = [T::GUARD; LENGTH];
        if self.all[..LENGTH] != guard {
            return Err(format!("memory before {name}"));
        }
        if self.all[self.all.len() - LENGTH..] != guard {
            return Err(format!("memory behind {name}"));
        }
        Ok(())
    }
}

impl<T: Element> Default for Guarded<T> {
    /// No elements between guards.
    fn default() -> Guarded<T> {
        let mut guarded = Guarded { all: Vec::new() };
        guarded.lay(&[]);
        guarded
    }
}

#[cfg(test)]
mod tests {
    use super::*;

    /// A write to any element of a guard is found, and one between the guards is none.
    fn every_write<T: Element>(elements: &[T], other: T) {
        let mut guarded = Guarded::default();
        let end = LENGTH + elements.len();
        for index in 0..end + LENGTH {
            guarded.lay(elements);
            assert!(guarded.lent() == elements);
            assert_eq!(guarded.untouched("the text"), Ok(()));
            guarded.all[index] = other;
            let expected = if index < LENGTH {
                Err("memory before the text".to_string())
            } else if index >= end {
                Err("memory behind the text".to_string())
            } else {
                Ok(())
            };
            assert_eq!(guarded.untouched("the text"), expected);
        }
    }

    #[test]
    fn every_write_of_bytes() {
        every_write::<u8>(&[], 0);
        every_write(&[1, 2, 0xA5], 0xA4_u8);
    }

    #[test]
    fn every_write_of_cells() {
        every_write::<u32>(&[], 0);
        every_write(&[1, 2, 0xA5C3_965A], 0x25C3_965A_u32);
    }

    /// All that is lent can be written, and nothing else is.
    #[test]
    fn all_lent() {
        let mut guarded = Guarded::default();
        guarded.lay(&[1_u8, 2, 3]);
        guarded.lent_mut().fill(0);
        assert_eq!(guarded.lent(), [0; 3]);
        assert_eq!(guarded.untouched("the text"), Ok(()));
    }
}
