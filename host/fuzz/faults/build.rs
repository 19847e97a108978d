//! Makes the faulty copies of the reference.

use std::collections::HashSet;
use std::path::Path;
use std::{env, fs};

#[path = "list.rs"]
mod list;

use list::ShownBy;

fn main() {
    println!("cargo:rerun-if-changed=build.rs");
    println!("cargo:rerun-if-changed=list.rs");
    let crate_root = env::var("CARGO_MANIFEST_DIR").expect("cargo sets it");
    copy_with_faults(Path::new(&crate_root));
}

/// Writes copies.rs to OUT_DIR: for each fault a module with the changed sources of
/// the reference, and a table of them.
fn copy_with_faults(crate_root: &Path) {
    let sources = crate_root.join("../../reference/src");
    println!("cargo:rerun-if-changed={}", sources.display());
    let read = |name: &str| {
        let path = sources.join(format!("{name}.rs"));
        fs::read_to_string(&path).unwrap_or_else(|error| panic!("{}: {error}", path.display()))
    };
    let root = read("lib");
    // The modules that lib.rs names, its tests left out.
    let modules: Vec<&str> = root
        .lines()
        .filter_map(|line| line.strip_prefix("mod ")?.strip_suffix(';'))
        .filter(|&name| name != "tests")
        .collect();

    let mut text = String::new();
    let mut table = String::from("pub const FAULTS: &[Faulty] = &[\n");
    let unchanged = list::Fault {
        name: "none",
        shown_by: ShownBy::All,
        changes: &[],
    };
    let mut names = HashSet::new();
    for (index, fault) in std::iter::once(&unchanged).chain(list::FAULTS).enumerate() {
        assert!(
            names.insert(fault.name),
            "fault '{}': another one has this name",
            fault.name
        );
        let changed = |name: &str| {
            let mut source = read(name);
            for change in fault.changes.iter().filter(|change| change.file == name) {
                let times = source.matches(change.old).count();
                assert!(
                    times == 1,
                    "fault '{}': its text stands {times} times in the reference's {name}.rs",
                    fault.name
                );
                source = source.replace(change.old, change.new);
            }
            source.replace("crate::", "super::").replace("//!", "//")
        };
        // What each copy needs of the modules, and of lib.rs.
        let takes_module = |name: &str| match fault.shown_by {
            ShownBy::Calls | ShownBy::Carried => {
                !matches!(name, "listing" | "encode" | "operands" | "reach")
            }
            ShownBy::Listings => matches!(name, "listing" | "operands" | "decode"),
            ShownBy::Choices => matches!(name, "encode" | "operands" | "decode"),
            ShownBy::Programs => matches!(name, "reach" | "decode"),
            ShownBy::All => true,
        };
        let takes_line = |line: &str| match fault.shown_by {
            ShownBy::Calls | ShownBy::Carried => !line.starts_with("pub use "),
            ShownBy::Listings => line.starts_with("const ") || line.starts_with("pub use listing"),
            ShownBy::Choices => line.starts_with("pub use encode"),
            ShownBy::Programs => line.starts_with("const ") || line.starts_with("pub use reach"),
            ShownBy::All => true,
        };
        for change in fault.changes {
            assert!(
                change.file == "lib" || takes_module(change.file),
                "fault '{}': its copy has no {}.rs",
                fault.name,
                change.file
            );
        }
        text += &format!("#[allow(warnings, clippy::all)]\nmod fault_{index} {{\n");
        for line in changed("lib").lines() {
            let left_out = line.starts_with("mod ") || line.starts_with("#[cfg(test)]");
            if !left_out && takes_line(line) {
                text += line;
                text.push('\n');
            }
        }
        for name in modules.iter().filter(|name| takes_module(name)) {
            text += &format!("mod {name} {{\n{}}}\n", changed(name));
        }
        let mut run = String::from("None");
        if matches!(fault.shown_by, ShownBy::Calls | ShownBy::All) {
            text += CALL;
            run = format!("Some(fault_{index}::call)");
        }
        let mut listing = String::from("None");
        if matches!(fault.shown_by, ShownBy::Listings | ShownBy::All) {
            listing = format!("Some(fault_{index}::listing)");
        }
        let mut encode = String::from("None");
        if matches!(fault.shown_by, ShownBy::Choices | ShownBy::All) {
            text += CHOOSE;
            encode = format!("Some(fault_{index}::choose)");
        }
        let mut carry_over = String::from("None");
        if matches!(fault.shown_by, ShownBy::Carried | ShownBy::All) {
            carry_over = format!("Some(fault_{index}::carry_over)");
        }
        let mut reach = String::from("None");
        if matches!(fault.shown_by, ShownBy::Programs | ShownBy::All) {
            text += MAP;
            reach = format!("Some(fault_{index}::map)");
        }
        text += "}\n";
        table += &format!(
            "    Faulty {{ name: {:?}, run: {run}, listing: {listing}, encode: {encode}, \
             carry_over: {carry_over}, reach: {reach} }},\n",
            fault.name
        );
    }
    table += "];\n";
    let out = Path::new(&env::var("OUT_DIR").expect("cargo sets it")).join("copies.rs");
    fs::write(&out, text + &table).unwrap_or_else(|error| panic!("{}: {error}", out.display()));
}

/// The run call of a copy, with the reference's own type of answer.
const CALL: &str = "
pub fn call(
    program: &[u8],
    cells: &mut [u32],
    image: &[u8],
    requests: &[u32],
    limit: u32,
    buffer: &mut [u8],
) -> coffee_reference::Answer {
    let answer = run(program, cells, image, requests, limit, buffer);
    coffee_reference::Answer {
        refusal: answer.refusal,
        steps: answer.steps,
        ending: answer.ending,
    }
}
";

/// The writing of words of a copy, with the reference's own type of choice.
const CHOOSE: &str = "
pub fn choose(choice: &coffee_reference::Choice) -> u64 {
    encode(&Choice {
        operation: choice.operation,
        wide: choice.wide,
        conditional: choice.conditional,
        creg: choice.creg,
        condition: choice.condition,
        operands: choice.operands,
    })
}
";

/// The map of a copy, with the width as a number.
const MAP: &str = "
pub fn map(program: &[u8], wide: u32, start: u32, map: &mut [u8]) -> u32 {
    reach(program, wide != 0, start, map)
}
";
