//! Sections 1 to 3, 11 and 12: PSR's bits, operands, conditions, operations, listed and written words.

use crate::card::bytes_of;
use crate::check::{Context, Findings};
use crate::effects::parts;
use crate::image::*;
use crate::manual::{number, numbers, template, Row, Table};
use crate::operations::{end_of, plain, program, text, End, Operand, Random};

/// 1.4: each bit of PSR is found by what it does.
pub fn status(ctx: &Context, table: &Table, findings: &mut Findings) {
    let alone = |bit: u32| 1u32 << bit;
    let after = |psr: u32, word: u32| {
        let mut given = plain(true);
        given.program = program(true, &[word, 0, 0]);
        given.image.set(PSR, psr).set(SET_1 + 8, 1).set(SET_2 + 8, 2).set_control(INT_MASK, 0xFFF).set_control(0x16, 0);
        given.requests = vec![1];
        (end_of(&ctx.card, &given), ctx.card.run(&given).image)
    };
    let bit = |holds: &dyn Fn(u32) -> bool| {
        let all: Vec<u32> = (0..5).filter(|&b| holds(b)).collect();
        if all.len() == 1 {
            all[0].to_string()
        } else {
            "not found".to_string()
        }
    };
    let wide = |psr: u32| 8 * after(psr, 0).1.get(PC);
    let mov = ctx.card.encode(29, true, None, [1, 2, 0, 0]).unwrap_or(0);
    let target = |psr: u32| {
        if after(psr, mov).1.get(SET_1 + 4) != 0 {
            1
        } else {
            2
        }
    };
    let source = |psr: u32| {
        let image = after(psr, mov).1;
        image.get(SET_1 + 4) + image.get(SET_2 + 4)
    };
    let accepts = |psr: u32| after(psr, 0).1.get(ENTRIES) == 1;
    let user = |psr: u32| after(psr, 51 << 26).0 == Some(End::Exception(2));
    let reads = |value: u32| format!("from set {value}");
    let right = [
        ("UM", bit(&|b| user(8 | alone(b))), "super user mode".into(), "user mode".into()),
        ("RSRD", bit(&|b| b != 0 && source(8 | alone(b)) == 2), format!("sources are read {}", reads(source(8))), reads(source(10))),
        (
            "RSWR",
            bit(&|b| b != 0 && b != 4 && target(8 | alone(b)) == 2),
            format!("results go to set {}", target(8)),
            format!("to set {}", target(12)),
        ),
        ("IL", bit(&|b| wide(alone(b)) == 32), format!("words of {} bits", wide(0)), format!("of {} bits", wide(8))),
        ("IE", bit(&|b| accepts(8 | alone(b))), "interrupts are not accepted".into(), "may be accepted".into()),
    ];
    if findings.rows(table, right.len()) {
        for (row, (name, bit, zero, one)) in table.rows.iter().zip(right) {
            findings.cell(table, row, "Name", name);
            findings.cell(table, row, "Bit", bit);
            findings.cell(table, row, "0", zero);
            findings.cell(table, row, "1", one);
        }
    }
}

/// The names of an operation's operands in 3.1, in words of a width; nothing where there is no form.
fn named<'a>(table: &Table, row: &'a Row, wide: bool) -> Option<Vec<&'a str>> {
    match table.cell(row, if wide { "32-bit operands" } else { "16-bit operands" }) {
        "no form" => None,
        "none" => Some(Vec::new()),
        list => Some(list.split(", ").collect()),
    }
}

fn widths(words: &str) -> &'static [bool] {
    match words {
        "16-bit" => &[false],
        "32-bit" => &[true],
        "both" => &[false, true],
        _ => &[],
    }
}

/// Whether a row of 2.3 is about an operation, by its column of operations.
fn speaks_of(operations: &str, number: u32) -> bool {
    match operations.strip_prefix("all but ") {
        Some(list) => numbers(list).is_some_and(|l| !l.contains(&number)),
        None => operations == "all" || numbers(operations).is_some_and(|l| l.contains(&number)),
    }
}

/// 2.3: the bits and the range of each operand that 3.1 names.
pub fn operands(ctx: &Context, table: &Table, findings: &mut Findings) {
    let by_operation = ctx.manual.table("3.1");
    let mut uses = vec![0; table.rows.len()];
    for (row, operation) in by_operation.rows.iter().zip(&ctx.facts.operations) {
        for wide in [false, true] {
            let names = named(by_operation, row, wide).unwrap_or_default();
            let shown = operation.operands[usize::from(wide)].as_deref().unwrap_or(&[]);
            for (name, operand) in names.iter().zip(shown) {
                let about = |r: &&Row| {
                    table.cell(r, "Operand") == *name
                        && widths(table.cell(r, "Words")).contains(&wide)
                        && speaks_of(table.cell(r, "Operations"), operation.number)
                };
                let found: Vec<&Row> = table.rows.iter().filter(about).collect();
                if let [one] = found[..] {
                    findings.cell(table, one, "Bits", operand.bits());
                    findings.cell(table, one, "Least", operand.least.to_string());
                    findings.cell(table, one, "Most", operand.most.to_string());
                    uses[table.rows.iter().position(|r| r.line == one.line).unwrap_or(0)] += 1;
                } else {
                    findings.table(table, format!("{} rows say where {name} of operation {} stands", found.len(), operation.number));
                }
            }
        }
    }
    for (row, uses) in table.rows.iter().zip(uses) {
        let listed = numbers(table.cell(row, "Operations")).unwrap_or_default().len() * widths(table.cell(row, "Words")).len();
        if uses == 0 || uses < listed {
            findings.row(table, row, "names operations that have no such operand");
        }
    }
}

/// 2.6: the conditions' names, and the flags with which a word is executed and a branch taken.
pub fn conditions(ctx: &Context, table: &Table, findings: &mut Findings) {
    if !findings.rows(table, 8) {
        return;
    }
    for (condition, row) in (0u32..).zip(&table.rows) {
        let mov = ctx.card.encode(29, true, Some((2, condition)), [1, 2, 0, 0]).unwrap_or(0);
        let branch = ctx.card.encode(40 + condition, true, None, [2, 4, 0, 0]).unwrap_or(0);
        findings.cell(table, row, "No.", condition.to_string());
        findings.cell(table, row, "Condition", text(&ctx.card.line(true, mov)[18..24]).trim_end_matches(" C2"));
        for flags in 0..8 {
            let run = |word: u32| {
                let mut given = plain(true);
                given.program = program(true, &[word, 0, 0]);
                given.image.set(SET_1 + 8, 9).set(CONDITIONS + 8, flags);
                ctx.card.run(&given).image
            };
            let executed = [run(mov).get(SET_1 + 4) == 9, run(branch).get(SLOT) == 1];
            let holds = formula(table.cell(row, "Holds if"), flags);
            if executed.iter().any(|&e| Some(e) != holds) {
                findings.row(table, row, format!("with flags {flags} the word is executed, the branch taken: {executed:?}"));
            }
        }
    }
}

/// "N = 1 or Z = 1", of a condition register's number.
fn formula(text: &str, flags: u32) -> Option<bool> {
    let equation = |part: &str| {
        let (name, value) = part.split_once(" = ")?;
        let bit = ["C", "N", "Z"].iter().position(|n| *n == name)?;
        Some(flags >> bit & 1 == number(value).filter(|v| *v < 2)?)
    };
    match (text.split_once(" or "), text.split_once(" and ")) {
        (Some((a, b)), _) => Some(equation(a)? | equation(b)?),
        (_, Some((a, b))) => Some(equation(a)? & equation(b)?),
        _ => equation(text),
    }
}

/// The name that 2.3 gives to an operand by its bits.
fn name_of<'a>(table: &'a Table, wide: bool, operation: u32, operand: &Operand) -> &'a str {
    let letter = |name: &str| match name.chars().next() {
        Some('d' | 's') => 'R',
        Some('c') => 'C',
        _ => ' ',
    };
    let fits = |row: &&Row| {
        widths(table.cell(row, "Words")).contains(&wide)
            && speaks_of(table.cell(row, "Operations"), operation)
            && table.cell(row, "Bits") == operand.bits()
            && letter(table.cell(row, "Operand")) == operand.letter
    };
    let rows: Vec<&Row> = table.rows.iter().filter(fits).collect();
    match rows[..] {
        [one] => {
            let name = table.cell(one, "Operand");
            let bits = name.strip_prefix("imm").map(|n| n.trim_end_matches(" (signed)").parse());
            let right = bits.is_none_or(|b| b == Ok(operand.places.len())) && name.ends_with(" (signed)") == (operand.least < 0);
            if right {
                name
            } else {
                "another name"
            }
        }
        _ => "not in 2.3",
    }
}

/// The order in which a step's tests and effects come: sections 4.4, 4.6, 3.2, 4.7 and 4.8.
const ORDER: [End; 13] = [
    End::Exception(2),
    End::Stop(13),
    End::Exception(0),
    End::Stop(11),
    End::Stop(20),
    End::Stop(15),
    End::Exception(6),
    End::Exception(7),
    End::Exception(8),
    End::Stop(12),
    End::Exception(4),
    End::Exception(3),
    End::Exception(9),
];

/// "02h, stop 13", of what the random steps of an operation ended with.
fn ends(found: &std::collections::BTreeSet<End>) -> String {
    let mut all: Vec<End> = found.iter().copied().collect();
    all.sort_by_key(|end| ORDER.iter().position(|o| o == end).unwrap_or(ORDER.len()));
    let traps = (0xE0..=0xFF).filter(|&code| all.contains(&End::Exception(code))).count();
    all.retain(|end| !matches!(end, End::Exception(0xE0..=0xFF)));
    let mut texts: Vec<String> = all
        .iter()
        .map(|end| match end {
            End::Exception(code) => format!("{code:02X}h"),
            End::Stop(stop) => format!("stop {stop}"),
        })
        .collect();
    match traps {
        0 => {}
        32 => texts.push("E0h to FFh".into()),
        _ => texts.push(format!("{traps} codes of trap")),
    }
    if texts.is_empty() {
        "nothing more".into()
    } else {
        texts.join(", ")
    }
}

/// 3.1: the operations.
pub fn operations(ctx: &Context, table: &Table, findings: &mut Findings) {
    let places = ctx.manual.table("2.3");
    if !findings.rows(table, 64) {
        return;
    }
    for (row, operation) in table.rows.iter().zip(&ctx.facts.operations) {
        let yes = |b: bool| if b { "yes" } else { "no" };
        findings.cell(table, row, "No.", operation.number.to_string());
        findings.cell(table, row, "Mnemonic", &operation.mnemonic);
        for wide in [false, true] {
            let names = match &operation.operands[usize::from(wide)] {
                None => "no form".to_string(),
                Some(shown) if shown.is_empty() => "none".to_string(),
                Some(shown) => {
                    let names = shown.iter().map(|o| name_of(places, wide, operation.number, o));
                    names.collect::<Vec<_>>().join(", ")
                }
            };
            findings.cell(table, row, if wide { "32-bit operands" } else { "16-bit operands" }, names);
        }
        for (column, right) in [("Reads", &operation.effects.reads), ("Writes", &operation.effects.writes)] {
            if parts(table.cell(row, column)) != *right {
                findings.row(table, row, format!("{column} must have {right:?}"));
            }
        }
        let flags = operation.effects.writes.iter().find(|part| part.starts_with('C') || *part == "creg");
        findings.cell(table, row, "Flags", flags.map_or("none", |flags| flags));
        findings.cell(table, row, "Conditional", yes(operation.conditional));
        let place = match (operation.not_narrow, operation.not_user) {
            (false, false) => "everywhere",
            (false, true) => "super user only",
            (true, false) => "32-bit words only",
            _ => "nowhere",
        };
        findings.cell(table, row, "Where", place);
        findings.cell(table, row, "Slot", yes(operation.slot));
        findings.cell(table, row, "Nops", operation.nops.to_string());
        findings.cell(table, row, "Ends with", ends(&operation.ends));
        worked(ctx, table, row, operation.number, findings);
    }
}

/// A worked word is listed as it says, and is the one that is written of this listing.
fn worked(ctx: &Context, table: &Table, row: &Row, operation: u32, findings: &mut Findings) {
    let cell = table.cell(row, "Worked word");
    let Some(word) = cell.split_once(" = ").and_then(|(word, _)| number(word)) else {
        return findings.row(table, row, "Worked word begins with no word");
    };
    let line = ctx.card.line(true, word);
    let parts = [&line[18..24], &line[25..33], &line[34..47]].map(text).join(" ");
    let parts: Vec<&str> = parts.split(' ').filter(|p| !p.is_empty()).collect();
    findings.cell(table, row, "Worked word", format!("{word:08X}h = {}", parts.join(" ")));
    let condition =
        (word >> 25 & 1 == 1 && ctx.facts.operations[operation as usize].conditional).then_some((word >> 22 & 7, word >> 19 & 7));
    let values: Vec<i32> = text(&line[34..47]).split(' ').filter_map(|o| o.trim_start_matches(['R', 'C']).parse().ok()).collect();
    let value = |k: usize| values.get(k).copied().unwrap_or(0);
    let written = ctx.card.encode(operation, true, condition, [value(0), value(1), value(2), value(3)]);
    if written != Ok(word) {
        findings.row(table, row, format!("Worked word is written as {written:X?}"));
    }
}

/// 11.1: the columns of a line.
pub fn line(ctx: &Context, table: &Table, findings: &mut Findings) {
    if !findings.rows(table, 6) {
        return;
    }
    let mut random = Random::new(11);
    let mut sample: Vec<(bool, u32)> = (0..400).map(|k| (k % 2 == 0, random.next())).collect();
    sample.extend([(true, 0x07C8_7FDD), (true, 0xFDFF_FFFF), (true, 13 << 26), (false, 34 << 10)]);
    let mut full = [false; 6];
    for (wide, word) in sample {
        let word = if wide { word } else { word & 0xFFFF };
        let mut code = vec![0; 32];
        code.extend(bytes_of(wide, word));
        let words = code.len() / if wide { 4 } else { 2 };
        let (_, lines) = ctx.card.listing(&code, wide, words * 48);
        let line = &lines[(words - 1) * 48..];
        let operation = &ctx.facts.operations[(word >> if wide { 26 } else { 10 }) as usize];
        let shown = &operation.operands[usize::from(wide)];
        let names = ["c", "egt", "elt", "eq", "gt", "lt", "ne", "nc"];
        let condition = if wide && operation.conditional && word >> 25 & 1 == 1 {
            format!("{} C{}", names[(word >> 19 & 7) as usize], word >> 22 & 7)
        } else {
            String::new()
        };
        let value = |operand: &Operand| {
            let bit = |(k, place): (usize, &u32)| i64::from(word >> place & 1) << k;
            let raw: i64 = operand.places.iter().enumerate().map(bit).sum();
            let value = match (operand.letter, operand.least) {
                (_, least @ ..=-1) if raw > operand.most => raw + 2 * least,
                ('R', 24) => raw + 24,
                _ => raw,
            };
            format!("{}{value}", operand.letter).trim().to_string()
        };
        let operands: Vec<String> = shown.iter().flatten().map(value).collect();
        for (k, row) in table.rows.iter().enumerate() {
            let (shape, numbers) = template(table.cell(row, "Part"));
            let digits = |place: usize| *numbers.get(place).unwrap_or(&0) as usize;
            let part = match shape.as_str() {
                "the word's address, # hexadecimal digits" => format!("{:0w$X}", 32, w = digits(0)),
                "the word, # hexadecimal digits, or # of a #-bit word" if wide => {
                    format!("{word:0w$X}", w = digits(0))
                }
                "the word, # hexadecimal digits, or # of a #-bit word" if digits(2) == 16 => {
                    format!("{word:0w$X}", w = digits(1))
                }
                "the condition, or nothing" => condition.clone(),
                "the operation's name (#.#), or `?`" => {
                    if shown.is_some() {
                        operation.mnemonic.clone()
                    } else {
                        "?".into()
                    }
                }
                "the operands (#.#), one blank between two" => operands.join(" "),
                "newline, #" => char::from(digits(0) as u8).to_string(),
                _ => return findings.row(table, row, "no part that the test knows"),
            };
            let cell = |column: &str| number(table.cell(row, column)).unwrap_or(99) as usize;
            let (from, width) = (cell("Column"), cell("Characters"));
            let found = line.get(from..from + width).map(|b| String::from_utf8_lossy(b).to_string());
            if found != Some(format!("{part:width$}")) || from > 0 && from < 47 && line[from - 1] != b' ' {
                return findings.row(table, row, format!("the line is '{}'", text(line)));
            }
            full[k] |= part.len() == width;
        }
    }
    for (row, _) in table.rows.iter().zip(full).filter(|(_, full)| !full) {
        findings.row(table, row, "no part fills the column");
    }
}

/// 12.1: when a word is refused.
pub fn questions(ctx: &Context, table: &Table, findings: &mut Findings) {
    if !findings.rows(table, 8) {
        return;
    }
    let every = || (0..64).flat_map(|n| [(n, false), (n, true)]);
    // The values of a written word: the least of each operand.
    let values = |n: u32, wide: bool| {
        let operation = ctx.facts.operations.get(n as usize);
        let shown = operation.and_then(|o| o.operands[usize::from(wide)].as_deref()).unwrap_or(&[]);
        [0, 1, 2, 3].map(|k| shown.get(k).map_or(0, |o| o.least.max(0) as i32))
    };
    let asked = |n: u32, wide: bool, condition| ctx.card.encode(n, wide, condition, values(n, wide)).err().unwrap_or(0);
    let conditional = |n: u32| asked(n, true, Some((0, 0))) == 0;
    for (question, row) in (1u32..).zip(&table.rows) {
        findings.cell(table, row, "Question", question.to_string());
        let refusal = number(table.cell(row, "Refusal")).unwrap_or(0);
        let when = table.cell(row, "When");
        let (shape, n) = template(when);
        let n = |k: usize| n[k] as u32;
        let right = match (question, shape.as_str()) {
            (1, "the operation is above #") => {
                asked(n(0), true, None) == 0
                    && ctx.card.encode(n(0) + 1, true, None, [0; 4]) == Err(refusal)
                    && ctx.card.encode(u32::MAX, false, Some((9, 9)), [-1; 4]) == Err(refusal)
            }
            (2, "the width is #, and the operation is #, # or #") => {
                let without = |o: u32| n(0) == 16 && (o == n(1) || o == n(2) || o == n(3));
                every().all(|(o, wide)| asked(o, wide, None) == if !wide && without(o) { refusal } else { 0 })
                    && every().all(|(o, wide)| !without(o) || wide || ctx.card.encode(o, wide, None, [-9; 4]) == Err(refusal))
            }
            (3, "the width is #, and a condition is given") => {
                n(0) == 16 && (0..64).all(|o| ctx.card.encode(o, false, Some((9, 9)), [-9; 4]) == Err(refusal))
            }
            (4, "a condition is given, and the operation is none of # to #, #, #, # and # to #") => {
                let list = when.split_once("none of ").and_then(|(_, list)| numbers(list)).unwrap_or_default();
                (0..64).all(|o| conditional(o) == list.contains(&o))
                    && (0..64).all(|o| conditional(o) || ctx.card.encode(o, true, Some((9, 9)), [-9; 4]) == Err(refusal))
            }
            (5, "the condition's register is above #") => (0..64)
                .filter(|o| conditional(*o))
                .all(|o| asked(o, true, Some((n(0), 0))) == 0 && asked(o, true, Some((n(0) + 1, 0))) == refusal),
            (6, "the condition is above #") => (0..64)
                .filter(|o| conditional(*o))
                .all(|o| asked(o, true, Some((0, n(0)))) == 0 && asked(o, true, Some((0, n(0) + 1))) == refusal),
            (7, "an operand is below its least or above its most number (#.#)") => every().all(|(o, wide)| {
                let shown = ctx.facts.operations[o as usize].operands[usize::from(wide)].as_deref().unwrap_or(&[]);
                shown.iter().enumerate().all(|(k, operand)| {
                    [operand.least - 1, operand.most + 1].iter().all(|&outside| {
                        let mut all = values(o, wide);
                        all[k] = outside as i32;
                        ctx.card.encode(o, wide, None, all) == Err(refusal)
                    })
                })
            }),
            (8, "an operand that the operation does not have is not #") => every().all(|(o, wide)| {
                let Some(shown) = &ctx.facts.operations[o as usize].operands[usize::from(wide)] else {
                    return true;
                };
                (shown.len()..4).all(|k| {
                    let with = |value: i32| {
                        let mut all = values(o, wide);
                        all[k] = value;
                        ctx.card.encode(o, wide, None, all)
                    };
                    with(n(0) as i32).is_ok() && with(n(0) as i32 + 1) == Err(refusal) && with(-1) == Err(refusal)
                })
            }),
            _ => false,
        };
        if !right {
            findings.row(table, row, "the library refuses otherwise");
        }
    }
}
