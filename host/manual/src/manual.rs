//! The tables of the manual, by section.

/// A row: the line of the file that it stands in, and its cells.
#[derive(Clone)]
pub struct Row {
    pub line: usize,
    pub cells: Vec<String>,
}

#[derive(Clone)]
pub struct Table {
    pub section: String,
    pub header: Vec<String>,
    pub rows: Vec<Row>,
}

impl Table {
    /// The place of a column; the header has been compared before.
    fn column(&self, name: &str) -> usize {
        let place = self.header.iter().position(|h| h == name);
        place.unwrap_or_else(|| panic!("{} has no column {name}", self.section))
    }

    pub fn cell<'a>(&self, row: &'a Row, column: &str) -> &'a str {
        &row.cells[self.column(column)]
    }
}

#[derive(Clone)]
pub struct Manual {
    pub tables: Vec<Table>,
    /// The lines of code, of all sections.
    pub code: String,
}

impl Manual {
    pub fn read(text: &str) -> Manual {
        let (mut tables, mut code): (Vec<Table>, String) = Default::default();
        let (mut section, mut inside, mut drawn) = (String::new(), false, false);
        for (index, line) in text.lines().enumerate() {
            if line.starts_with("```") {
                drawn = !drawn;
            }
            if drawn {
                continue;
            }
            if line.starts_with('#') {
                let title = line.trim_start_matches('#').trim();
                section = title.split(' ').next().unwrap_or("").to_string();
            }
            if line.starts_with("    ") {
                code.push_str(line);
            }
            if !line.starts_with('|') {
                inside = false;
            } else if !inside {
                inside = true;
                tables.push(Table { section: section.clone(), header: cells(line), rows: Vec::new() });
            } else if !line.starts_with("|---") {
                let row = Row { line: index + 1, cells: cells(line) };
                tables.last_mut().expect("inside a table").rows.push(row);
            }
        }
        Manual { tables, code }
    }

    pub fn table(&self, section: &str) -> &Table {
        let table = self.tables.iter().find(|t| t.section == section);
        table.unwrap_or_else(|| panic!("the manual has no table in {section}"))
    }
}

/// The cells of a line, with a plain minus, and without commas inside numbers.
fn cells(line: &str) -> Vec<String> {
    let line = line.trim().trim_start_matches('|').trim_end_matches('|');
    line.split('|').map(|cell| plain(cell.trim())).collect()
}

fn plain(cell: &str) -> String {
    let letters: Vec<char> = cell.replace('−', "-").chars().collect();
    let digits = |from: usize| letters[from..].iter().take_while(|c| c.is_ascii_digit()).count();
    let inside = |i: usize| letters[i] == ',' && i > 0 && letters[i - 1].is_ascii_digit() && digits(i + 1) == 3;
    (0..letters.len()).filter(|&i| !inside(i)).map(|i| letters[i]).collect()
}

/// The numbers "1", "1 to 3", "1, 2 and 5 to 7" name; nothing where it is no such list.
pub fn numbers(list: &str) -> Option<Vec<u32>> {
    let mut all = Vec::new();
    for part in list.replace(" and ", ", ").replace(" or ", ", ").split(", ") {
        match part.split_once(" to ") {
            Some((a, b)) => all.extend(number(a)?..=number(b)?),
            None => all.push(number(part)?),
        }
    }
    Some(all)
}

/// A number, hexadecimal with h behind it.
pub fn number(text: &str) -> Option<u32> {
    long_number(text)?.try_into().ok()
}

fn long_number(text: &str) -> Option<u64> {
    let digits = |text: &str| text.chars().all(|c| c.is_ascii_digit() || ('A'..='F').contains(&c));
    match text.strip_suffix('h') {
        Some(hex) if digits(hex) => u64::from_str_radix(hex, 16).ok(),
        _ => text.parse().ok(),
    }
}

/// A text with # for each number in it that is no part of a name, and these numbers.
pub fn template(text: &str) -> (String, Vec<u64>) {
    let letters: Vec<char> = text.chars().collect();
    let (mut shape, mut found, mut i) = (String::new(), Vec::new(), 0);
    while i < letters.len() {
        let fresh = i == 0 || !(letters[i - 1].is_alphanumeric() || letters[i - 1] == '_');
        let length = letters[i..].iter().take_while(|c| c.is_ascii_alphanumeric()).count();
        let token: String = letters[i..i + length].iter().collect();
        match long_number(&token) {
            Some(value) if fresh => {
                shape.push('#');
                found.push(value);
                i += length;
            }
            _ => {
                shape.push(letters[i]);
                i += 1;
            }
        }
    }
    (shape, found)
}
