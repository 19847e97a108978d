//! What a check is given, and what it finds.

use crate::block::Register;
use crate::card::Card;
use crate::manual::{Manual, Row, Table};
use crate::operations::Operation;

/// Texts beside the library that tables are compared with.
#[derive(Clone)]
pub struct Sources {
    /// include/coffee.h
    pub header: String,
    /// host/service: names.c, main.c, commands.h and report.h
    pub names: String,
    pub commands: String,
    pub limits: String,
    pub statuses: String,
    /// crates/*/specs
    pub definitions: String,
}

/// What the library says, found once.
pub struct Facts {
    pub operations: Vec<Operation>,
    pub registers: Vec<Register>,
}

#[derive(Clone, Copy)]
pub struct Context<'a> {
    pub card: Card,
    pub manual: &'a Manual,
    pub facts: &'a Facts,
    pub sources: &'a Sources,
}

/// A table by its section and header, the columns whose numbers are not compared, and how it is compared.
pub struct Check {
    pub section: &'static str,
    pub header: &'static str,
    pub free: &'static [&'static str],
    pub run: fn(&Context, &Table, &mut Findings),
}

/// Differences, one line each.
#[derive(Default)]
pub struct Findings {
    pub lines: Vec<String>,
}

impl Findings {
    /// Compares a cell with the text that it must have.
    pub fn cell(&mut self, table: &Table, row: &Row, column: &str, right: impl AsRef<str>) {
        let cell = table.cell(row, column);
        if cell != right.as_ref() {
            let text = format!("{column} is '{cell}', and must be '{}'", right.as_ref());
            self.row(table, row, text);
        }
    }

    /// A difference in a row.
    pub fn row(&mut self, table: &Table, row: &Row, text: impl AsRef<str>) {
        self.lines.push(format!("Manual {}, line {}: {}", table.section, row.line, text.as_ref()));
    }

    /// A difference of a whole table.
    pub fn table(&mut self, table: &Table, text: impl AsRef<str>) {
        self.lines.push(format!("Manual {}: {}", table.section, text.as_ref()));
    }

    /// Compares the number of rows.
    pub fn rows(&mut self, table: &Table, right: usize) -> bool {
        if table.rows.len() != right {
            self.table(table, format!("{} rows, and there must be {right}", table.rows.len()));
        }
        table.rows.len() == right
    }
}
