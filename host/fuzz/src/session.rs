//! A session: case after case until a difference, a number of calls or a time.

use crate::call::{Call, Generator};
use crate::compare::{Bench, Difference, Sides};
use crate::coverage::{Coverage, Tracer};
use crate::random::Random;
use crate::series::{self, until_difference, Kind};
use crate::shrink::{describe, shrink};
use std::time::{Duration, Instant};

/// One call in this many is repeated step by step.
const TRACED: u32 = 8;
/// A case has at most this many calls.
const LONGEST_LIST: u32 = 10;

/// What a session is to do.
#[derive(Clone, Debug)]
pub struct Options {
    pub seed: u64,
    /// The number of calls after which no new case starts.
    pub calls: Option<u64>,
    /// The seconds after which no new case starts.
    pub seconds: Option<u64>,
    /// The number of 32-bit words after which no new listing starts.
    pub words: u64,
    /// The number of choices to write words from, but for every 16-bit word at the least.
    pub choices: u64,
    /// The number of carry-overs.
    pub carried: u64,
    /// The number of programs of which reachable words are mapped.
    pub programs: u64,
    /// Only this case, listing, choice, carry-over or program, and nothing of the others.
    pub case: Option<u64>,
    pub listing: Option<u64>,
    pub choice: Option<u64>,
    pub carry: Option<u64>,
    pub program: Option<u64>,
}

impl Options {
    /// A session of a seed that is to do nothing yet.
    pub const fn of_seed(seed: u64) -> Options {
        Options {
            seed,
            calls: None,
            seconds: None,
            words: 0,
            choices: 0,
            carried: 0,
            programs: 0,
            case: None,
            listing: None,
            choice: None,
            carry: None,
            program: None,
        }
    }
}

/// The call that shows a difference.
pub struct Input {
    /// Its number in the session, from 1.
    pub number: u64,
    /// Whether the difference showed only when the call was repeated step by step.
    pub stepwise: bool,
    pub call: Call,
}

pub type Found = series::Found<Difference, Input>;
pub type Outcome = series::Outcome<Coverage, Found>;

/// Runs a session.
pub fn run(options: &Options, sides: Sides) -> Outcome {
    let start = Instant::now();
    let mut session = Session {
        sides,
        generator: Generator::new(),
        call: Call::default(),
        bench: Bench::default(),
        tracer: Tracer::new(),
        coverage: Coverage::new(),
        number: 0,
    };
    let found = until_difference(Kind::Case, options.seed, options.case, |case| {
        let mut random = Random::of_case(options.seed, case);
        session.case(&mut random)?;
        session.coverage.cases += 1;
        let enough = options
            .calls
            .is_some_and(|calls| session.coverage.calls >= calls);
        let late = options
            .seconds
            .is_some_and(|seconds| start.elapsed() >= Duration::from_secs(seconds));
        Ok(enough || late)
    });
    let found = found.map(|(place, (difference, stepwise))| Found {
        difference,
        place,
        input: session.shown(stepwise),
    });
    Outcome {
        coverage: session.coverage,
        found,
    }
}

struct Session {
    sides: Sides,
    generator: Generator,
    call: Call,
    bench: Bench,
    tracer: Tracer,
    coverage: Coverage,
    /// The number of the present call, from 1.
    number: u64,
}

impl Session {
    /// A list of calls on one machine. A difference comes with whether it showed only
    /// step by step.
    fn case(&mut self, random: &mut Random) -> Result<(), (Difference, bool)> {
        let length = match random.below(10) {
            0..=5 => 1,
            6..=8 => random.range(2, 4),
            _ => random.range(5, LONGEST_LIST),
        };
        let mut expected = self.generator.first(random, &mut self.call);
        for remaining in (0..length).rev() {
            self.number += 1;
            let answer = self
                .bench
                .compare(&self.call, self.sides)
                .map_err(|difference| (difference, false))?;
            if expected
                .refusal
                .is_some_and(|refusal| refusal != answer.refusal)
            {
                let what = format!(
                    "refusal {} where the generator meant {:?}",
                    answer.refusal, expected.refusal
                );
                return Err((Difference::Both(what), false));
            }
            self.coverage.count(answer, expected);
            self.coverage
                .count_stop(&self.call, answer, &self.bench.buffer);
            if expected.damaged {
                return Ok(());
            }
            if answer.refusal == 0 {
                if random.one_in(TRACED) && Tracer::takes(&self.call, answer) {
                    let left = (&self.bench.cells[..], &self.bench.buffer[..]);
                    self.tracer
                        .trace(&self.call, answer, left, self.sides, &mut self.coverage)
                        .map_err(|difference| {
                            // What both sides do wrong shows in the call as a whole.
                            let stepwise = !matches!(difference, Difference::Both(_));
                            (difference, stepwise)
                        })?;
                }
                std::mem::swap(&mut self.call.cells, &mut self.bench.cells);
                let length = crate::image::length(&self.bench.buffer);
                self.call.image.clear();
                self.call
                    .image
                    .extend_from_slice(&self.bench.buffer[..length]);
            }
            if remaining > 0 {
                let stopped = answer.ending != 0;
                expected = self.generator.later(random, &mut self.call, stopped);
            }
        }
        Ok(())
    }

    /// The present call, or the last step of it.
    fn shown(&self, stepwise: bool) -> Input {
        let call = if stepwise {
            self.tracer.step()
        } else {
            &self.call
        };
        Input {
            number: self.number,
            stepwise,
            call: call.clone(),
        }
    }
}

/// A found difference as text: how to repeat it, and the smallest call that shows it.
pub fn explain(found: &Found, sides: Sides) -> String {
    let stepwise = if found.input.stepwise {
        ", repeated step by step"
    } else {
        ""
    };
    let mut text = found.head(&format!("call {}{stepwise}", found.input.number));
    match shrink(&found.input.call, sides) {
        Some((call, difference)) => {
            text.push_str(&format!("made smaller: {difference}\n"));
            text.push_str(&describe(&call));
        }
        None => {
            text.push_str("the call:\n");
            text.push_str(&describe(&found.input.call));
        }
    }
    text
}

/// The options that a command line gives, over those given here.
pub fn options(
    mut options: Options,
    arguments: impl Iterator<Item = String>,
) -> Result<Options, String> {
    let mut arguments = arguments;
    let mut limited = false;
    while let Some(name) = arguments.next() {
        let value = arguments
            .next()
            .and_then(|value| value.parse::<u64>().ok())
            .ok_or(format!("{name}: a number is missing"))?;
        match name.as_str() {
            "--seed" => options.seed = value,
            "--case" => options.case = Some(value),
            "--words" => options.words = value,
            "--listing" => options.listing = Some(value),
            "--choices" => options.choices = value,
            "--choice" => options.choice = Some(value),
            "--carried" => options.carried = value,
            "--carry" => options.carry = Some(value),
            "--programs" => options.programs = value,
            "--program" => options.program = Some(value),
            "--calls" | "--seconds" => {
                // A limit that is given replaces the usual ones.
                if !limited {
                    options.calls = None;
                    options.seconds = None;
                    limited = true;
                }
                if name == "--calls" {
                    options.calls = Some(value);
                } else {
                    options.seconds = Some(value);
                }
            }
            _ => return Err(format!("{name}: unknown")),
        }
    }
    Ok(options)
}

#[cfg(test)]
mod tests {
    use super::*;
    use crate::compare::Left;
    use crate::series::tests::{found_twice, no_difference_twice};
    use coffee_reference::Answer;

    const OPTIONS: Options = Options {
        calls: Some(3000),
        ..Options::of_seed(5)
    };

    /// The reference agrees with itself, and a session can be repeated.
    #[test]
    fn no_difference() {
        let sides = Sides::alike(coffee_reference::run);
        let explain = |found: &Found| explain(found, sides);
        let coverage = no_difference_twice(|| run(&OPTIONS, sides), explain);
        assert!(coverage.calls >= 3000);
    }

    /// The reference, but a run of three steps or more leaves another R7.
    fn wrong_from_three_steps(
        program: &[u8],
        cells: &mut [u32],
        image: &[u8],
        requests: &[u32],
        limit: u32,
        buffer: &mut [u8],
    ) -> Answer {
        let answer = coffee_reference::run(program, cells, image, requests, limit, buffer);
        if answer.steps >= 3 {
            buffer[32] ^= 1;
        }
        answer
    }

    /// A difference is found, repeated by its case alone, and made smaller.
    #[test]
    fn difference_made_smaller() {
        let sides = Sides {
            reference: coffee_reference::run,
            library: wrong_from_three_steps,
        };
        let [found, _] = found_twice(&OPTIONS, |options| run(options, sides));
        let (call, difference) = shrink(&found.input.call, sides).expect("a difference");
        assert_eq!(call.limit, 3);
        assert!(matches!(
            difference,
            Difference::Left(Left::Byte(left)) if left.byte.index == 32
        ));
    }
}
