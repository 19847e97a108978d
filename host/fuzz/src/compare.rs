//! One call on both sides, and everything that it may touch.

use crate::call::Call;
use crate::difference::{self, ImageByte, Unlike};
use crate::guarded::Guarded;
use crate::image;
use crate::series;
use coffee_reference::Answer;
use std::fmt;

/// A run call: program, cells, image, requests, step limit, image buffer.
pub type Run = fn(&[u8], &mut [u32], &[u8], &[u32], u32, &mut [u8]) -> Answer;

pub type Sides = series::Sides<Run>;

/// The numbers of the stops.
pub const STOPS: [u32; 6] = [11, 12, 13, 14, 15, 20];

/// What the sides leave different after a call.
#[derive(Clone, Debug, PartialEq, Eq)]
pub enum Left {
    Cell(Unlike<u32>),
    Byte(ImageByte),
}

/// What differs after a call.
pub type Difference = difference::Difference<Answer, Left>;

impl fmt::Display for Left {
    fn fmt(&self, f: &mut fmt::Formatter<'_>) -> fmt::Result {
        match self {
            Left::Cell(cell) => write!(f, "cell {}: {cell}", cell.index),
            Left::Byte(byte) => byte.fmt(f),
        }
    }
}

/// Memory for both sides, used again for every call.
#[derive(Default)]
pub struct Bench {
    /// What the reference leaves.
    pub cells: Vec<u32>,
    pub buffer: Vec<u8>,
    /// The library's, between guards.
    library_cells: Guarded<u32>,
    library_buffer: Guarded<u8>,
    /// The library's copies of what it may only read.
    program: Vec<u8>,
    image: Vec<u8>,
    requests: Vec<u32>,
}

impl Bench {
    /// Calls both sides and compares the answers, the cells and the whole buffers.
    pub fn compare(&mut self, call: &Call, sides: Sides) -> Result<Answer, Difference> {
        self.lend(call);
        let reference = (sides.reference)(
            &call.program,
            &mut self.cells,
            &call.image,
            &call.requests,
            call.limit,
            &mut self.buffer,
        );
        let library = (sides.library)(
            &self.program,
            self.library_cells.lent_mut(),
            &self.image,
            &self.requests,
            call.limit,
            self.library_buffer.lent_mut(),
        );

        let answer = Difference::agreed(reference, library)?;
        let cells = self.library_cells.lent();
        if let Some(cell) = Unlike::first(&call.cells, &self.cells, cells) {
            return Err(Difference::Left(Left::Cell(cell)));
        }
        let bytes = self.library_buffer.lent();
        if let Some(byte) = ImageByte::first(&call.buffer, &self.buffer, bytes) {
            return Err(Difference::Left(Left::Byte(byte)));
        }
        self.no_stray(call).map_err(Difference::Stray)?;
        self.as_promised(call, answer)?;
        Ok(answer)
    }

    /// Copies what a call lends.
    fn lend(&mut self, call: &Call) {
        self.cells.clear();
        self.cells.extend_from_slice(&call.cells);
        self.buffer.clear();
        self.buffer.extend_from_slice(&call.buffer);
        self.library_cells.lay(&call.cells);
        self.library_buffer.lay(&call.buffer);
        self.program.clear();
        self.program.extend_from_slice(&call.program);
        self.image.clear();
        self.image.extend_from_slice(&call.image);
        self.requests.clear();
        self.requests.extend_from_slice(&call.requests);
    }

    /// The library wrote to nothing but its cells and its buffer.
    fn no_stray(&self, call: &Call) -> Result<(), String> {
        for (name, kept) in [
            ("the program", self.program == call.program),
            ("the image that came in", self.image == call.image),
            ("the requests", self.requests == call.requests),
        ] {
            if !kept {
                return Err(name.to_string());
            }
        }
        self.library_cells.untouched("the cells")?;
        self.library_buffer.untouched("the buffer")
    }

    /// What holds of every answer: a refusal changes nothing; otherwise the steps reach the
    /// limit or there is a stop, and bytes behind the image stay.
    fn as_promised(&self, call: &Call, answer: Answer) -> Result<(), Difference> {
        let both = |what: &str| Err(Difference::Both(what.to_string()));
        if answer.refusal != 0 {
            if answer.refusal > 8 || answer.steps != 0 || answer.ending != 0 {
                return both("a refusal with an answer that is none");
            }
            if self.cells != call.cells || self.buffer != call.buffer {
                return both("a refusal that changed lent memory");
            }
            return Ok(());
        }
        let full = answer.steps == call.limit && answer.ending == 0;
        let stopped = answer.steps < call.limit && STOPS.contains(&answer.ending);
        if !full && !stopped {
            return both("steps and ending do not fit the limit");
        }
        let length = image::length(&self.buffer);
        if self.buffer[length..] != call.buffer[length..] {
            return both("bytes behind the image changed");
        }
        if call.limit == 0 && self.buffer[..length] != call.image[..] {
            return both("limit 0 changed the image");
        }
        Ok(())
    }
}
