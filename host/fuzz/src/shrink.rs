//! Makes a call that shows a difference smaller, and prints it.

use crate::call::{summary, Call};
use crate::compare::{Bench, Difference, Sides};
use crate::image::{self, Entry, Image, Layout, LONGEST, SOURCES, TIMERS};
use std::fmt::Write;

/// A smaller call on which the sides still differ, and how: first with fewer steps,
/// then with less in its memories, its image and its requests.
pub fn shrink(call: &Call, sides: Sides) -> Option<(Call, Difference)> {
    let mut shrinker = Shrinker {
        bench: Bench::default(),
        sides,
        best: call.clone(),
    };
    shrinker.differs(call)?;
    for _ in 0..3 {
        shrinker.fewer_steps();
        shrinker.requests();
        shrinker.program();
        shrinker.cells();
        shrinker.image();
        shrinker.buffer();
    }
    let difference = shrinker.differs(&shrinker.best.clone())?;
    Some((shrinker.best, difference))
}

struct Shrinker {
    bench: Bench,
    sides: Sides,
    best: Call,
}

impl Shrinker {
    fn differs(&mut self, call: &Call) -> Option<Difference> {
        self.bench.compare(call, self.sides).err()
    }

    /// Keeps a changed call if the sides differ on it.
    fn keep(&mut self, change: impl FnOnce(&mut Call)) -> bool {
        let mut call = self.best.clone();
        change(&mut call);
        let kept = self.differs(&call).is_some();
        if kept {
            self.best = call;
        }
        kept
    }

    fn fewer_steps(&mut self) {
        let limit = self.best.limit;
        for fewer in 0..limit.min(2000) {
            if self.keep(|call| call.limit = fewer) {
                return;
            }
        }
        let mut part = limit / 2;
        while part > 0 {
            while self.best.limit > part && self.keep(|call| call.limit -= part) {}
            part /= 2;
        }
    }

    fn requests(&mut self) {
        let limit = self.best.limit as usize;
        self.keep(|call| call.requests.truncate(limit));
        self.keep(|call| call.requests.clear());
        for index in 0..self.best.requests.len() {
            if self.best.requests[index] != 0 {
                self.keep(|call| call.requests[index] = 0);
            }
        }
        while self.best.requests.last() == Some(&0)
            && self.keep(|call| {
                call.requests.pop();
            })
        {}
    }

    fn program(&mut self) {
        let program = self.best.program.clone();
        shrink_program(program, |program| {
            self.keep(|call| call.program = program.to_vec())
        });
    }

    fn cells(&mut self) {
        self.keep(|call| call.cells.fill(0));
        let mut part = self.best.cells.len() / 2;
        while part > 0 {
            while self.best.cells.len() >= part
                && self.keep(|call| call.cells.truncate(call.cells.len() - part))
            {}
            part /= 2;
        }
        for index in 0..self.best.cells.len().min(4096) {
            if self.best.cells[index] != 0 {
                self.keep(|call| call.cells[index] = 0);
            }
        }
    }

    /// Puts numbers of a valid image back to those of reset, and takes entries off
    /// its stack.
    fn image(&mut self) {
        let mut buffer = [0; LONGEST];
        coffee_reference::reset(&mut buffer);
        let reset = Image::read(&buffer);
        let mut bytes = Vec::new();
        if !readable(&self.best.image) {
            return;
        }
        let mut try_image = |this: &mut Shrinker, change: &dyn Fn(&mut Image)| {
            let mut image = Image::read(&this.best.image);
            let old = image.clone();
            change(&mut image);
            if image != old {
                image.write(Layout::Present, &mut bytes);
                this.keep(|call| call.image.clone_from(&bytes));
            }
        };
        for n in 0..32 {
            try_image(self, &|image| image.set1[n] = reset.set1[n]);
            try_image(self, &|image| image.set2[n] = reset.set2[n]);
        }
        for n in 0..8 {
            try_image(self, &|image| image.conditions[n] = 0);
        }
        for n in 0..image::CONTROL_REGISTERS {
            try_image(self, &|image| image.control[n] = reset.control[n]);
        }
        for n in [image::DMEM_BOUND_LO, image::IMEM_BOUND_LO] {
            try_image(self, &|image| {
                image.control[n] = 1;
                image.control[n + 1] = 0;
            });
        }
        for n in 0..TIMERS {
            try_image(self, &|image| image.dividers[n] = 0);
        }
        try_image(self, &|image| image.position[1..3].fill(0));
        try_image(self, &|image| image.position[3..6].fill(0));
        for _ in 0..SOURCES {
            try_image(self, &|image| {
                if image.depth > 0 {
                    image.stack.rotate_left(1);
                    image.stack[SOURCES - 1] = Entry::default();
                    image.depth -= 1;
                    image.show_stack();
                }
            });
        }
    }

    fn buffer(&mut self) {
        if self.best.buffer.len() > LONGEST {
            self.keep(|call| call.buffer.truncate(LONGEST));
        }
        self.keep(|call| call.buffer.fill(0));
    }
}

/// Makes a program shorter and puts nops into it, each time as far as `keep` takes it.
pub fn shrink_program(program: Vec<u8>, mut keep: impl FnMut(&[u8]) -> bool) {
    let mut best = program;
    let nops = vec![0; best.len()];
    if keep(&nops) {
        best = nops;
    }
    let mut part = best.len() / 2;
    while part > 0 {
        while best.len() >= part && keep(&best[..best.len() - part]) {
            best.truncate(best.len() - part);
        }
        part /= 2;
    }
    for width in [4, 2] {
        for at in (0..best.len().min(4096)).step_by(width) {
            let end = (at + width).min(best.len());
            if best[at..end].iter().any(|&byte| byte != 0) {
                let mut emptier = best.clone();
                emptier[at..end].fill(0);
                if keep(&emptier) {
                    best = emptier;
                }
            }
        }
    }
}

/// Whether an image has exactly the sections and counts of question 2, and sources
/// that a shift can take.
fn readable(bytes: &[u8]) -> bool {
    let counts = [32, 32, 8, 45, 6];
    bytes.len() >= image::SHORTEST
        && image::COUNTS
            .into_iter()
            .zip(counts)
            .all(|(index, count)| image::number(bytes, index) == count)
        && image::number(bytes, image::COUNTS[5]) <= SOURCES as u32
        && image::length(bytes) == bytes.len()
        && image::number(bytes, image::last_count(image::depth(bytes))) == TIMERS as u32
        && Image::read(bytes)
            .stack
            .iter()
            .all(|entry| entry.source < SOURCES as u32)
}

/// A call as text, with everything that is needed to repeat it.
pub fn describe(call: &Call) -> String {
    let mut text = String::new();
    // Writing to a string does not fail.
    let mut put = |line: String| {
        text.push_str(&line);
        text.push('\n');
    };
    put(format!("  limit {}", call.limit));
    put(format!(
        "  program, {} bytes: {}",
        call.program.len(),
        hex(&call.program)
    ));
    put(format!(
        "  cells, {}, but for zeros: {}",
        call.cells.len(),
        list(&call.cells)
    ));
    put(format!(
        "  requests, {}, but for zeros: {}",
        call.requests.len(),
        list(&call.requests)
    ));
    put(format!(
        "  buffer, {} bytes: {}",
        call.buffer.len(),
        hex(&call.buffer)
    ));
    if readable(&call.image) {
        let image = Image::read(&call.image);
        put(format!("  image: {}", summary(&image)));
        let mut buffer = [0; LONGEST];
        coffee_reference::reset(&mut buffer);
        // With as many entries, each of them 0.
        let mut reset = Image::read(&buffer);
        reset.depth = image.depth;
        let mut usual = Vec::new();
        reset.write(Layout::Present, &mut usual);
        let mut numbers = String::new();
        for index in 0..call.image.len() / 4 {
            let number = image::number(&call.image, index);
            if number != image::number(&usual, index) {
                let _ = write!(
                    numbers,
                    " {}={number:X}",
                    image::name(index, image.depth).replace(' ', "_")
                );
            }
        }
        put(format!("  image, where it is not reset's:{numbers}"));
    }
    put(format!(
        "  image, {} bytes: {}",
        call.image.len(),
        hex(&call.image)
    ));
    text
}

/// Bytes in hexadecimal; a long tail of zeros is left out.
pub fn hex(bytes: &[u8]) -> String {
    let used = bytes.len() - bytes.iter().rev().take_while(|&&byte| byte == 0).count();
    let mut text = String::new();
    for byte in &bytes[..used] {
        let _ = write!(text, "{byte:02X}");
    }
    if used < bytes.len() {
        let _ = write!(text, " and {} zeros", bytes.len() - used);
    }
    text
}

/// The numbers that are not 0, with their places.
fn list(numbers: &[u32]) -> String {
    let mut text = String::new();
    for (index, number) in numbers.iter().enumerate() {
        if *number != 0 {
            let _ = write!(text, "{index}:{number:X} ");
        }
    }
    text
}
