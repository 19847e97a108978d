//! A series of numbered cases, listings, choices, carry-overs or programs on both sides, until
//! a difference.

use std::fmt::Display;
use std::sync::atomic::{AtomicU64, AtomicUsize, Ordering};

/// What is being compared, each with the option that repeats one of its kind.
#[derive(Clone, Copy)]
pub enum Kind {
    Case,
    Listing,
    Choice,
    Carry,
    Program,
}

const KIND_OPTIONS: [&str; 5] = ["--case", "--listing", "--choice", "--carry", "--program"];

/// The number and kind of what is being run, for a message where the process ends early.
static CURRENT_NUMBER: AtomicU64 = AtomicU64::new(0);
static CURRENT_KIND: AtomicUsize = AtomicUsize::new(0);

/// Notes what is being run.
fn note(kind: Kind, number: u64) {
    CURRENT_KIND.store(kind as usize, Ordering::Relaxed);
    CURRENT_NUMBER.store(number, Ordering::Relaxed);
}

/// The option that repeats what is being run, and its number.
pub fn noted() -> (&'static str, u64) {
    let kind = CURRENT_KIND.load(Ordering::Relaxed);
    (KIND_OPTIONS[kind], CURRENT_NUMBER.load(Ordering::Relaxed))
}

/// The two sides that are compared.
#[derive(Clone, Copy)]
pub struct Sides<F> {
    pub reference: F,
    pub library: F,
}

impl<F: Copy> Sides<F> {
    /// The same on both sides.
    pub fn alike(side: F) -> Sides<F> {
        Sides {
            reference: side,
            library: side,
        }
    }
}

/// Where a difference was found.
#[derive(Clone, Copy)]
pub struct Place {
    pub seed: u64,
    pub kind: Kind,
    /// Its number in the session, from 0.
    pub number: u64,
}

/// A difference, where it was found, and what shows it.
pub struct Found<D, I> {
    pub difference: D,
    pub place: Place,
    pub input: I,
}

impl<D: Display, I> Found<D, I> {
    /// The difference as text, and how to repeat it; `at` says where it showed.
    pub fn head(&self, at: &str) -> String {
        let Place { seed, kind, number } = self.place;
        let option = KIND_OPTIONS[kind as usize];
        let difference = &self.difference;
        format!("difference at {at}: {difference}\nrepeat with --seed {seed} {option} {number}\n")
    }
}

/// What a session came to.
pub struct Outcome<C, F> {
    pub coverage: C,
    pub found: Option<F>,
}

/// Compares one after the other, from 0, until a difference or until `compare` says that
/// these were enough; or the one with a given number alone.
pub fn until_difference<D>(
    kind: Kind,
    seed: u64,
    alone: Option<u64>,
    mut compare: impl FnMut(u64) -> Result<bool, D>,
) -> Option<(Place, D)> {
    let mut number = alone.unwrap_or(0);
    loop {
        note(kind, number);
        match compare(number) {
            Ok(enough) if enough || alone.is_some() => return None,
            Ok(_) => number += 1,
            Err(difference) => return Some((Place { seed, kind, number }, difference)),
        }
    }
}

/// A session: `compare` makes the input of a number, compares it and counts what it met, as
/// `until_difference` has it.
pub fn run<C: Default, D, I: Default>(
    kind: Kind,
    seed: u64,
    alone: Option<u64>,
    mut compare: impl FnMut(u64, &mut I, &mut C) -> Result<bool, D>,
) -> Outcome<C, Found<D, I>> {
    let mut coverage = C::default();
    let mut input = I::default();
    let found = until_difference(kind, seed, alone, |number| {
        compare(number, &mut input, &mut coverage)
    });
    let found = found.map(|(place, difference)| Found {
        difference,
        place,
        input,
    });
    Outcome { coverage, found }
}

#[cfg(test)]
pub mod tests {
    use super::*;
    use crate::met::Met;
    use crate::session::Options;
    use std::fmt::Debug;

    /// What a session met that finds no difference, neither the first time nor the second,
    /// and meets the same.
    pub fn no_difference_twice<C: Met, F>(
        run: impl Fn() -> Outcome<C, F>,
        explain: impl Fn(&F) -> String,
    ) -> C {
        let [first, second] = [run(), run()].map(|outcome| {
            if let Some(found) = &outcome.found {
                panic!("{}", explain(found));
            }
            outcome.coverage
        });
        assert_eq!(first.report(), second.report());
        first
    }

    /// A difference that a session finds, and finds again by its number alone.
    pub fn found_twice<C, D: PartialEq + Debug, I>(
        options: &Options,
        run: impl Fn(&Options) -> Outcome<C, Found<D, I>>,
    ) -> [Found<D, I>; 2] {
        let found = run(options).found.expect("a difference");
        let mut alone = options.clone();
        let number = match found.place.kind {
            Kind::Case => &mut alone.case,
            Kind::Listing => &mut alone.listing,
            Kind::Choice => &mut alone.choice,
            Kind::Carry => &mut alone.carry,
            Kind::Program => &mut alone.program,
        };
        *number = Some(found.place.number);
        let again = run(&alone).found.expect("a difference");
        assert_eq!(found.difference, again.difference);
        [found, again]
    }

    /// A series ends with enough, with a difference, or with the one that is wanted.
    #[test]
    fn ends() {
        let numbers = |alone: Option<u64>, different: u64| {
            let mut numbers = Vec::new();
            let found = until_difference(Kind::Choice, 7, alone, |number| {
                numbers.push(number);
                if number == different {
                    return Err("unlike");
                }
                Ok(number >= 3)
            });
            let head = found.map(|(place, difference)| {
                let input = ();
                let found = Found {
                    difference,
                    place,
                    input,
                };
                found.head("a place")
            });
            (numbers, head)
        };
        assert_eq!(numbers(None, 9), (vec![0, 1, 2, 3], None));
        assert_eq!(numbers(Some(1), 9), (vec![1], None));
        let head = "difference at a place: unlike\nrepeat with --seed 7 --choice 2\n";
        let head = Some(head.to_string());
        assert_eq!(numbers(None, 2), (vec![0, 1, 2], head.clone()));
        assert_eq!(numbers(Some(2), 2), (vec![2], head));
    }
}
