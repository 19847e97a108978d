//! Sections 14 and 15: what the C header and the service program's sources say.

use crate::check::{Context, Findings, Sources};
use crate::manual::Table;

/// The header without comments, and with single blanks.
fn code(header: &str) -> String {
    let mut out = String::new();
    let mut rest = header;
    while let Some((before, after)) = rest.split_once("/*") {
        out.push_str(before);
        rest = after.split_once("*/").map_or("", |(_, rest)| rest);
    }
    out.push_str(rest);
    out.split_whitespace().collect::<Vec<_>>().join(" ")
}

/// 14.1: the slices, as the declarations have them.
pub fn parameters(ctx: &Context, table: &Table, findings: &mut Findings) {
    let code = code(&ctx.sources.header);
    let mut slices: Vec<[String; 4]> = Vec::new();
    for declaration in code.split("coffee_").skip(1).filter_map(|d| d.split_once('(')) {
        let Some((list, _)) = declaration.1.split_once(");") else {
            continue;
        };
        let list: Vec<&str> = list.split(", ").collect();
        for pair in list.windows(2) {
            let (Some((kind, name)), Some(count)) = (pair[0].split_once('*'), pair[1].strip_prefix("size_t ")) else {
                continue;
            };
            let unit = if kind.contains("uint8_t") { "byte" } else { "32-bit number" };
            let written = if kind.contains("const") { "no" } else { "yes" };
            let slice = [name, count, unit, written].map(str::to_string);
            if !slices.contains(&slice) {
                slices.push(slice);
            }
        }
    }
    let dense = |text: &str| text.split_whitespace().collect::<String>();
    let declared = dense(&ctx.manual.code);
    for declaration in code.split(';').filter(|d| d.contains("coffee_") && d.ends_with(')')) {
        let declaration = dense(declaration.rsplit('}').next().unwrap_or(""));
        if !declared.contains(&declaration) {
            findings.table(table, format!("does not have '{declaration};'"));
        }
    }
    if findings.rows(table, slices.len()) {
        for (row, slice) in table.rows.iter().zip(&slices) {
            for (column, text) in ["Parameter", "Count", "Unit", "Written"].iter().zip(slice) {
                findings.cell(table, row, column, text);
            }
        }
    }
}

/// 14.2: the constants, all that the header defines.
pub fn constants(ctx: &Context, table: &Table, findings: &mut Findings) {
    let constants: Vec<(&str, &str)> =
        ctx.sources.header.lines().filter_map(|line| line.strip_prefix("#define ")?.split_once(' ')).collect();
    if findings.rows(table, constants.len()) {
        for (row, (name, value)) in table.rows.iter().zip(constants) {
            let shifted = value.strip_prefix("(UINT64_C(1) << ").and_then(|v| v.trim_end_matches(')').parse::<u32>().ok());
            findings.cell(table, row, "Constant", name);
            findings.cell(table, row, "Value", shifted.map_or(value.to_string(), |by| (1u64 << by).to_string()));
        }
    }
}

/// A number that a C source gives to a name.
fn valued(source: &str, name: &str) -> String {
    let rest = source.split(&format!("{name} = ")).nth(1).unwrap_or("");
    rest.chars().take_while(char::is_ascii_digit).collect()
}

/// The commands of main.c: name, options, words, least and most.
fn commands(sources: &Sources) -> Vec<[String; 5]> {
    let list = sources.commands.split("} commands[] = {").nth(1).and_then(|l| l.split("\n};").next()).unwrap_or("");
    let entry = |text: &str| {
        let parts: Vec<&str> = text.split('"').collect();
        let options = parts.get(3)?.replace(['[', ']'], "");
        let numbers: Vec<&str> = parts.get(8)?.split(',').map(str::trim).collect();
        let most = match *numbers.get(2)? {
            "MOST_WORDS" => valued(&sources.limits, "MOST_WORDS"),
            most => most.to_string(),
        };
        let options = if options.is_empty() { "none" } else { options.trim() };
        Some([parts[1].to_string(), options.to_string(), parts[5].to_string(), numbers[1].to_string(), most])
    };
    list.split("_command}").filter_map(entry).collect()
}

/// 15.3: the service program's commands.
pub fn service(ctx: &Context, table: &Table, findings: &mut Findings) {
    let commands = commands(ctx.sources);
    if findings.rows(table, commands.len()) {
        for (row, command) in table.rows.iter().zip(commands) {
            for (column, text) in ["Command", "Options", "Words", "Least", "Most"].iter().zip(command) {
                findings.cell(table, row, column, text);
            }
        }
    }
}

/// 15.4: its exit statuses.
pub fn statuses(ctx: &Context, table: &Table, findings: &mut Findings) {
    let names = ["DONE", "FAILED", "USAGE", "UNSURE", "STOPPED"];
    if findings.rows(table, names.len()) {
        for (row, name) in table.rows.iter().zip(names) {
            findings.cell(table, row, "Status", valued(&ctx.sources.statuses, name));
        }
    }
}
