//! Sections 8 to 10: images, calls and the hypotheses of isolation.

use crate::block::register_names;
use crate::card::{Card, Given, ROOM};
use crate::check::{Context, Findings};
use crate::image::*;
use crate::manual::{number, numbers, template, Row, Table};
use crate::operations::plain;

/// Interrupt stacks of 0, 1 and 12 entries.
fn stacks() -> Vec<Vec<[u32; 4]>> {
    vec![vec![], vec![[7, 0x40, 0x19, 2]], (0..12).map(|s| [s, s, 9, 0]).collect()]
}

/// The refusal of a run call of no steps.
fn refusal(card: &Card, image: &Image) -> u32 {
    let mut given = plain(true);
    given.image = image.clone();
    given.limit = 0;
    card.run(&given).refusal
}

/// The offsets that "516 + 16i" says, with so many entries and k up to a most.
fn offsets(text: &str, entries: usize, field: &str) -> Option<Vec<usize>> {
    let Some((base, step)) = text.split_once(" + ") else {
        return Some(vec![text.parse().ok()?]);
    };
    let base: usize = base.parse().ok()?;
    let factor = |letter: char| step.strip_suffix(letter)?.parse::<usize>().ok();
    if let Some(by) = factor('n') {
        return Some(vec![base + by * entries]);
    }
    let (by, count) = match (factor('i'), factor('k')) {
        (Some(by), _) => (by, entries),
        (_, Some(by)) => {
            let most = field.split_once("k from 0 to ")?.1;
            let most = most.split(' ').next()?;
            (by, most.parse::<usize>().ok()? + 1)
        }
        _ => return None,
    };
    Some((0..count).map(|k| base + by * k).collect())
}

/// 8.1: every number's place, and the least and the most that it may be.
pub fn layout(ctx: &Context, table: &Table, findings: &mut Findings) {
    for entries in stacks() {
        let image = ctx.card.reset().stacked(&entries, [255, 3]);
        if image.bytes().len() != 528 + 16 * entries.len() || refusal(&ctx.card, &image) != 0 {
            findings.table(table, format!("no image of {} entries", entries.len()));
        }
        let mut covered = vec![0; image.bytes().len()];
        for row in &table.rows {
            let field = table.cell(row, "Field");
            let Some(places) = offsets(table.cell(row, "Offset"), entries.len(), field) else {
                findings.row(table, row, "no offset that the test knows");
                continue;
            };
            let bytes = number(table.cell(row, "Bytes")).unwrap_or(0) as usize;
            for (k, &place) in places.iter().enumerate() {
                if place + bytes > covered.len() {
                    findings.row(table, row, "behind the image's end");
                }
                covered.iter_mut().skip(place).take(bytes).for_each(|c| *c += 1);
                limits(ctx, table, row, findings, &image, place, k);
            }
        }
        if covered.iter().any(|&c| c != 1) {
            findings.table(table, format!("byte {:?} of {} is in no row or in two", covered.iter().position(|&c| c != 1), covered.len()));
        }
    }
    let texts: Vec<String> = table.rows.iter().map(|row| table.cell(row, "Field").to_string()).collect();
    fields(ctx, table, findings, &texts);
}

/// The range of one number of the image.
fn limits(ctx: &Context, table: &Table, row: &Row, findings: &mut Findings, image: &Image, place: usize, k: usize) {
    let asked = |value: u32| {
        let mut image = image.clone();
        image.set(place, value);
        refusal(&ctx.card, &image)
    };
    let asked = |value: u32| match place {
        // A count of entries wants these entries.
        ENTRIES => {
            let entries: Vec<[u32; 4]> = (0..value.min(20)).map(|s| [s, s, 9, 0]).collect();
            refusal(&ctx.card, &image.stacked(&entries, [0, 0]))
        }
        _ => asked(value),
    };
    let register = (CONTROL..CONTROL + 180).contains(&place);
    let most = match table.cell(row, "Most") {
        "2^Bits - 1, Bits of 5.1" if register => (1u64 << ctx.facts.registers[k].bits) as u32,
        text => number(text).map_or(0, |n| n.wrapping_add(1)),
    }
    .wrapping_sub(1);
    let least = number(table.cell(row, "Least"));
    let right = match table.cell(row, "Refusal") {
        "none" => Some(0),
        text => number(text),
    };
    let (Some(least), Some(right)) = (least, right) else {
        return findings.row(table, row, "no number where one must be");
    };
    let mut wrong = |value: u32| findings.row(table, row, format!("{value:X}h at {place} gets refusal {}", asked(value)));
    if most < u32::MAX && (right == 0 || asked(most + 1) != right) {
        wrong(most + 1);
    }
    if least > 0 && (right == 0 || asked(least - 1) != right) {
        wrong(least - 1);
    }
    if most == u32::MAX && right != 0 && !register {
        wrong(most);
    }
    // Rules of 8.2 come besides.
    let besides = [304, 476, 480, 496, 504, 508].contains(&place);
    for value in [least, most] {
        if !besides && [2, 3].contains(&asked(value)) || right == 5 && value == least && asked(value) == 3 {
            wrong(value);
        }
    }
    if right == 5 && k == 0 && place < 532 {
        // The most is no source of another entry only where there is one entry.
        let mut image = image.clone();
        image.set(place, most).set_control(INT_SERV, 1 << most.min(31));
        if image.get(ENTRIES) == 1 && refusal(&ctx.card, &image) != 0 {
            findings.row(table, row, format!("source {most} is refused"));
        }
    }
}

/// Which number of the machine a field is, by what the machine does with it.
fn fields(ctx: &Context, table: &Table, findings: &mut Findings, texts: &[String]) {
    let has = |text: &str| texts.iter().any(|t| t == text);
    // A store of register k of a set goes to cell 5.
    let holds = |psr: u32, offset: usize, register: usize| {
        let base = if register == 0 { 1 } else { 0 };
        let word = Card::default().encode(28, true, None, [register as i32, base, 5, 0]).expect("st");
        let mut given = plain(true);
        given.program = word.to_be_bytes().to_vec();
        given.image.set(SPSR, 0).set(PSR, psr);
        if offset != PSR {
            given.image.set(offset, 0x1357);
        }
        ctx.card.run(&given).cells[5] == if offset == PSR { psr } else { 0x1357 }
    };
    let counted = |first: &str, last: usize| has(&format!("{first}, k from 0 to {last}"));
    let place = |text: &str| {
        let row = table.rows.iter().find(|row| table.cell(row, "Field") == text);
        row.and_then(|row| offsets(table.cell(row, "Offset"), 1, text)).and_then(|o| o.first().copied()).unwrap_or(0)
    };
    let right = [
        (counted("Rk", 31) && (0..32).all(|k| holds(8, SET_1 + 4 * k, k)), "Rk"),
        (counted("PRk", 28) && (0..29).all(|k| holds(10, SET_2 + 4 * k, k)), "PRk"),
        (holds(10, place("PSR, which is PR29"), 29), "PSR"),
        (holds(10, place("SPSR, which is PR30"), 30), "SPSR"),
        (holds(10, place("PR31"), 31), "PR31"),
        (counted("Ck", 7) && condition_places(ctx), "Ck"),
        (has("control register at offset k, k from 0 to 44 (2Ch)"), "control register"),
        (place("count of set 1") == 0 && place("count of set 2") == SET_2 - 4, "counts of the sets"),
        (entry_places(ctx, [place("address of entry i"), place("PSR of entry i"), place("C0 of entry i")]), "entry"),
        (divider(ctx, place("divider of timer 0"), 0) && divider(ctx, place("divider of timer 1"), 1), "dividers"),
        (flag(ctx, place("slot flag, 1 while a branch slot waits"), 0x9000_0002), "slot flag"),
        (flag(ctx, place("product flag, 1 while a product is held for mulhi"), 0x2000_1483), "product flag"),
    ];
    for (_, name) in right.iter().filter(|(right, _)| !right) {
        findings.table(table, format!("{name} is not as its row says"));
    }
}

/// scon gathers three bits of each condition register.
fn condition_places(ctx: &Context) -> bool {
    (0..8).all(|k| {
        let mut given = plain(true);
        given.program = (56u32 << 26 | 1 << 10).to_be_bytes().to_vec();
        given.image.set(CONDITIONS + 4 * k, 5);
        ctx.card.run(&given).image.get(SET_1 + 4) == 5 << (3 * k)
    })
}

/// reti takes PC, PSR and C0 from an entry's numbers.
fn entry_places(ctx: &Context, places: [usize; 3]) -> bool {
    let mut given = plain(true);
    given.program = [50u32 << 26, 0, 0, 0].iter().flat_map(|word| word.to_be_bytes()).collect();
    given.image = given.image.stacked(&[[3, 4, 8, 6]], [0, 0]);
    let left = ctx.card.run(&given).image;
    places.map(|place| given.image.get(place)) == [left.get(PC), left.get(PSR), left.get(CONDITIONS)]
}

/// The divider at an offset (with one entry) grows with the timer's DIV above it.
fn divider(ctx: &Context, offset: usize, timer: u32) -> bool {
    let mut given = plain(true);
    given.image = given.image.stacked(&[[3, 4, 8, 0]], [7, 7]);
    given.image.set_control(0x27, 0x80FF << (16 * timer));
    ctx.card.run(&given).image.get(offset) == 8
}

/// A word makes the flag 1 that was 0.
fn flag(ctx: &Context, offset: usize, word: u32) -> bool {
    let mut given = plain(true);
    given.program[..4].copy_from_slice(&word.to_be_bytes());
    ctx.card.run(&given).image.get(offset) == 1
}

/// 8.2: the rules besides.
pub fn rules(ctx: &Context, table: &Table, findings: &mut Findings) {
    let layout = ctx.manual.table("8.1");
    let names = register_names(ctx.sources);
    let place = |field: &str| {
        let found = layout.rows.iter().find(|row| layout.cell(row, "Field").split(", ").next() == Some(field));
        found.map(|row| layout.cell(row, "Offset").to_string())
    };
    if !findings.rows(table, 12) {
        return;
    }
    let entry = [7, 0x40, 0x19, 2];
    for row in &table.rows {
        let field = table.cell(row, "Field");
        let register = names.iter().position(|name| field.starts_with(&format!("{name} (")));
        let offset = match (register, field) {
            (Some(k), _) => {
                findings.cell(table, row, "Field", format!("{} ({k:02X}h)", names[k]));
                (CONTROL + 4 * k).to_string()
            }
            (None, "both halves of the product") => format!("{HIGH}, {LOW}"),
            (None, _) => place(field).unwrap_or_else(|| "no offset of 8.1".into()),
        };
        findings.cell(table, row, "Offset", &offset);
        let right = number(table.cell(row, "Refusal")).unwrap_or(0);
        let asked = |entries: &[[u32; 4]], numbers: &[(usize, u32)]| {
            let mut image = ctx.card.reset().stacked(entries, [0, 0]);
            for &(offset, value) in numbers.iter() {
                image.set(offset, value);
            }
            refusal(&ctx.card, &image)
        };
        let at = offset.split(',').next().and_then(|o| o.parse().ok()).unwrap_or(0);
        // Where a value is refused by this rule, whatever others are.
        let just = |entries: &[[u32; 4]], besides: &[(usize, u32)], at: usize, holds: &dyn Fn(u32) -> bool| {
            (0..32).all(|value| {
                let mut all = besides.to_vec();
                all.push((at, value));
                asked(entries, &all) == if holds(value) { 0 } else { right }
            })
        };
        let user = |list: &[u64], psr: u32| psr < 32 && (psr & 1 == 0 || list.contains(&u64::from(psr)));
        let (shape, n) = template(table.cell(row, "Rule"));
        let constant = |k: usize| n[k] as u32;
        let good = match shape.as_str() {
            "a multiple of #" => (0..9).all(|bit| asked(&[], &[(at, 1 << bit)]) == if 1 << bit < constant(0) { right } else { 0 }),
            "#" => [0, 1, 2, u32::MAX].iter().all(|&v| asked(&[], &[(at, v)]) == if v == constant(0) { 0 } else { right }),
            "# where the slot flag is #" => {
                constant(1) == 0 && just(&[], &[(SLOT, 0)], at, &|v| v == constant(0)) && just(&[], &[(SLOT, 1)], at, &|_| true)
            }
            "# where the product flag is #" => {
                constant(1) == 0
                    && [HIGH, LOW]
                        .iter()
                        .all(|&half| just(&[], &[(PRODUCT, 0)], half, &|v| v == constant(0)) && just(&[], &[(PRODUCT, 1)], half, &|_| true))
            }
            "where bit # (UM) is #, bits # and # are #: #, #, # or #" => {
                n[..5] == [0, 1, 1, 2, 0]
                    && n.len() == 9
                    && just(&[], &[], at, &|psr| user(&n[5..], psr))
                    && asked(&[], &[(at, 3)]) == right
            }
            "as PSR" => (0..32).all(|psr| {
                let holds = user(&[1, 9, 17, 25], psr);
                asked(&[[7, 0x40, psr, 2]], &[]) == if holds { 0 } else { right }
            }),
            "no two entries have the same" => asked(&[entry, entry], &[]) == right && asked(&[entry, [8, 1, 9, 0]], &[]) == 0,
            "bit s is # just where some entry has source s" => {
                constant(0) == 1
                    && (0..0x1000).all(|v| (asked(&[entry], &[(at, v)]) == 0) == (v == 1 << 7))
                    && asked(&[entry], &[(at, 0)]) == right
            }
            "the top entry's address; # where n is #" => top(&asked, at, right, 0x40, &n),
            "the top entry's PSR; # where n is #" => top(&asked, at, right, 0x19, &n),
            "the top entry's C0; # where n is #" => top(&asked, at, right, 2, &n),
            _ => false,
        };
        if !good {
            findings.row(table, row, "the library asks otherwise");
        }
    }
}

type Asked<'a> = &'a dyn Fn(&[[u32; 4]], &[(usize, u32)]) -> u32;

/// A RETI_ register shows the top of two entries, or what it shows of none.
fn top(asked: Asked, at: usize, right: u32, shown: u32, n: &[u64]) -> bool {
    let two = [[8, 1, 9, 0], [7, 0x40, 0x19, 2]];
    let rule = |entries: &[[u32; 4]], v: u32, shown: u32| asked(entries, &[(at, v)]) == if v == shown { 0 } else { right };
    n[1] == 0
        && (0..8)
            .chain([9, 0x19, 0x40])
            .filter(|v| *v < 8 || shown != 2 && n[0] != 0)
            .all(|v| rule(&two, v, shown) && rule(&[], v, n[0] as u32))
}

/// What a call answers with everything wrong that these questions ask.
fn all_wrong(card: &Card, call: &str, wrong: &[u32]) -> Option<u32> {
    let is = |q: u32| wrong.contains(&q);
    let mut image = card.reset();
    let numbers = [(3, CONTROL + 4 * 0x2C, 0), (4, PSR, 7), (5, CONTROL + 4 * INT_SERV, 1)];
    for &(_, offset, value) in numbers.iter().filter(|n| is(n.0)) {
        image.set(offset, value);
    }
    let room = if is(8) { ROOM - 1 } else { ROOM };
    Some(match call {
        "run" => {
            card.run(&Given {
                program: vec![0; if is(1) { 65_537 } else { 4 }],
                cells: vec![],
                image: if is(2) { image.cut(524) } else { image },
                requests: if is(6) { vec![0, 0x1000] } else { vec![0xFFF] },
                limit: if is(7) { 1_000_001 } else { 0 },
                room,
            })
            .refusal
        }
        "reset" => card.reset_refusal(room),
        "carry over" => card.carry_over(image.cut(if is(2) { 512 } else { 516 }).bytes(), room).0,
        "list" => {
            let length = if is(1) {
                65_537
            } else if is(16) {
                7
            } else {
                4
            };
            card.listing(&vec![0; length], true, if is(17) { 47 } else { 48 * 20_000 }).0
        }
        "encode" => card.encode(if is(18) { 64 } else { 1 }, true, None, [if is(19) { 32 } else { 0 }; 4]).err().unwrap_or(0),
        "reach" => {
            let length = if is(1) { 65_537 } else { 4 };
            card.reach(&vec![0; length], true, u32::from(is(27)), if is(28) { 3 } else { 70_000 }).0
        }
        _ => return None,
    })
}

/// 9.1: the calls and the order of their questions.
pub fn calls(ctx: &Context, table: &Table, findings: &mut Findings) {
    let asked = [
        ("run", "coffee_run", vec![1, 2, 3, 4, 5, 6, 7, 8]),
        ("reset", "coffee_reset", vec![8]),
        ("carry over", "coffee_carry_over", vec![2, 3, 4, 5, 8]),
        ("list", "coffee_listing", vec![1, 16, 17]),
        ("encode", "coffee_encode", vec![18, 19]),
        ("reach", "coffee_reach", vec![1, 27, 28]),
    ];
    if !findings.rows(table, asked.len()) {
        return;
    }
    for (row, (call, name, all)) in table.rows.iter().zip(asked) {
        findings.cell(table, row, "Call", call);
        findings.cell(table, row, "C", name);
        let list = numbers(table.cell(row, "Questions in order")).unwrap_or_default();
        let mut sorted = list.clone();
        sorted.sort_unstable();
        if sorted != all {
            findings.row(table, row, format!("the questions are {all:?}"));
        }
        for k in 0..=list.len() {
            let right = list.get(k).copied().unwrap_or(0);
            let found = all_wrong(&ctx.card, call, &list[k..]);
            if found != Some(right) {
                findings.row(table, row, format!("with {:?} answered no the refusal is {found:?}", &list[k..]));
            }
        }
    }
}

/// 9.2: each refusal, just beyond the numbers of its row, and none just inside.
pub fn refusals(ctx: &Context, table: &Table, findings: &mut Findings) {
    if !findings.rows(table, 14) {
        return;
    }
    let card = &ctx.card;
    let no_steps = || {
        let mut given = plain(true);
        given.limit = 0;
        given
    };
    let run = |change: &dyn Fn(&mut Given)| {
        let mut given = no_steps();
        change(&mut given);
        card.run(&given).refusal
    };
    let image = |offset: usize, value: u32| {
        let mut image = card.reset();
        image.set(offset, value);
        [refusal(card, &image), card.carry_over(image.cut(516).bytes(), ROOM).0]
    };
    let limit = |program: usize, call: &str| match call {
        "list" => card.listing(&vec![0; program], false, 48 * 33_000).0,
        _ => card.reach(&vec![0; program], true, 0, 70_000).0,
    };
    for row in &table.rows {
        let right = number(table.cell(row, "Refusal")).unwrap_or(0);
        let (shape, n) = template(table.cell(row, "When"));
        let n: Vec<usize> = n.iter().map(|&n| n.min(2_000_000) as usize).collect();
        // Calls that are refused, and calls that are not.
        let (refused, taken): (Vec<u32>, Vec<u32>) = match (table.cell(row, "Asked by"), shape.as_str()) {
            ("run, list, reach", "the program has more than # bytes; in run also: there are more than # cells") => (
                vec![
                    run(&|g| g.program = vec![0; n[0] + 1]),
                    run(&|g| g.cells = vec![0; n[1] + 1]),
                    limit(n[0] + 1, "list"),
                    limit(n[0] + 1, "reach"),
                ],
                vec![run(&|g| g.program = vec![0; n[0]]), run(&|g| g.cells = vec![0; n[1]]), limit(n[0], "list"), limit(n[0], "reach")],
            ),
            ("run, carry over", "the image has not length and counts of its layout (#.#): present for run, earlier for carry over") => (
                vec![
                    refusal(card, &card.reset().cut(516)),
                    refusal(card, &card.reset().cut(527)),
                    image(0, 31)[0],
                    image(516, 1)[0],
                    card.carry_over(card.reset().bytes(), ROOM).0,
                    image(132, 31)[1],
                ],
                vec![refusal(card, &card.reset()), card.carry_over(card.reset().cut(516).bytes(), ROOM).0],
            ),
            ("run, carry over", "a number of the image breaks a rule of #.# or #.# that has # beside it")
                if n[..4] == [8, 1, 8, 2] && n[4] == right as usize =>
            {
                ([image(PSR, 32), image(SLOT, 2), image(CONTROL + 4 * INT_MASK, 0x1000), image(CONTROL + 4 * 0x2B, 1)].concat(), vec![])
            }
            ("run, carry over", "PSR, or that of an entry, breaks the rule that has # beside it") if n[0] == right as usize => {
                (image(PSR, 11).to_vec(), vec![])
            }
            ("run, carry over", "sources, INT_SERV or RETI_ registers break a rule that has # beside it") if n[0] == right as usize => {
                ([image(CONTROL + 4 * INT_SERV, 2), image(CONTROL + 4 * RETI_ADDR, 2)].concat(), vec![])
            }
            ("run", "a request is above #, wherever in the list, beyond the limit too") => {
                (vec![run(&|g| g.requests = vec![0, n[0] as u32 + 1])], vec![run(&|g| g.requests = vec![0, n[0] as u32])])
            }
            ("run", "the step limit is above #") => {
                let limit = |limit: usize| run(&|g| (g.program, g.limit) = (vec![], limit as u32));
                (vec![limit(n[0] + 1)], vec![limit(n[0])])
            }
            ("run, reset, carry over", "the image buffer has fewer than # bytes") => {
                let room = |room: usize| {
                    vec![run(&|g| g.room = room), card.reset_refusal(room), card.carry_over(card.reset().cut(516).bytes(), room).0]
                };
                (room(n[0] - 1), room(n[0]))
            }
            ("list", "the program's length is no multiple of the word's, # or # bytes") => {
                let list = |length: usize, wide: bool| card.listing(&vec![0; length], wide, 480).0;
                let rest = |wide: bool, n: usize| (1..12).map(move |k| (k, wide, k % n != 0)).collect::<Vec<_>>();
                let all = [rest(false, n[0]), rest(true, n[1])].concat();
                let of = |refused: bool| all.iter().filter(|a| a.2 == refused).map(|a| list(a.0, a.1)).collect();
                (of(true), of(false))
            }
            ("list", "the text has fewer than # bytes for each word of the program") => {
                let list = |room: usize| card.listing(&[0; 12], true, room).0;
                (vec![list(3 * n[0] - 1)], vec![list(3 * n[0])])
            }
            ("encode", "there is no such form (#.#)") => (vec![card.encode(64, true, None, [0; 4]).err().unwrap_or(0)], vec![]),
            ("encode", "a part does not fit (#.#)") => (vec![card.encode(1, true, None, [32, 0, 0, 0]).err().unwrap_or(0)], vec![]),
            ("reach", "the start is no multiple of the word's length, or a byte of its word is outside the program") => {
                let start = |start: u32, wide: bool| card.reach(&[0; 6], wide, start, 6).0;
                (vec![start(2, true), start(4, true), start(1, false), start(6, false)], vec![start(0, true), start(4, false)])
            }
            ("reach", "the map has fewer bytes than the program") => {
                (vec![card.reach(&[0; 6], true, 0, 5).0], vec![card.reach(&[0; 6], true, 0, 6).0])
            }
            _ => (vec![], vec![]),
        };
        if refused.is_empty() {
            findings.row(table, row, format!("no refusal that the test knows: {shape}"));
        }
        if refused.iter().any(|&r| r != right) || taken.iter().any(|&r| r != 0) {
            findings.row(table, row, format!("just beyond its numbers the refusals are {refused:?}, just inside {taken:?}"));
        }
    }
}

/// 10.2: the offsets and values of the hypotheses.
pub fn hypotheses(ctx: &Context, table: &Table, findings: &mut Findings) {
    let psr: Vec<String> =
        (0..64).filter(|&psr| psr & 1 == 1 && refusal(&ctx.card, ctx.card.reset().set(PSR, psr)) == 0).map(|psr| psr.to_string()).collect();
    let [first @ .., last] = &psr[..] else {
        return findings.table(table, "no PSR of user mode is accepted");
    };
    // The last address of the block, by a load that finds no cell beyond.
    let found = |by: u32| {
        let mut given = plain(true);
        given.program = Card::default().encode(27, true, None, [1, 2, 0, 0]).expect("ld").to_be_bytes().to_vec();
        let base = given.image.control(0);
        given.image.set(SET_1 + 8, base + by);
        ctx.card.run(&given).ending == 0
    };
    let size = (0..1000).take_while(|&by| found(by)).count();
    let right = [
        ("H1", "the image", 0, "2, 3, 4 and 5 of 9.2 do not refuse it".to_string()),
        ("H2", "PSR", PSR, format!("bit 0 (UM) is 1; by H1 it is then {} or {last}", first.join(", "))),
        ("H3", "DMEM_BOUND_LO", CONTROL + 4 * DMEM_LO, format!("not above CCB_BASE (offset {CONTROL})")),
        ("H4", "DMEM_BOUND_HI", CONTROL + 4 * DMEM_HI, format!("not below CCB_BASE + {}", size - 1)),
    ];
    if findings.rows(table, right.len()) {
        for (row, (name, field, offset, condition)) in table.rows.iter().zip(right) {
            findings.cell(table, row, "Hypothesis", name);
            findings.cell(table, row, "Field", field);
            findings.cell(table, row, "Offset", offset.to_string());
            findings.cell(table, row, "Condition", condition);
        }
    }
}

/// "PR0 to PR28, PR30 and PR31", all of set 2 but PSR, and "C0 to C7".
fn register_lists(ctx: &Context) -> [String; 2] {
    let (status, reset) = ((PSR - SET_2) / 4, ctx.card.reset());
    let (last, conditions) = (reset.get(SET_2 - 4) - 1, reset.get(CONDITIONS - 4) - 1);
    [format!("PR0 to PR{}, PR{} and PR{last}", status - 1, status + 1), format!("C0 to C{conditions}")]
}

/// 10.3: the numbers of registers.
pub fn integrity(ctx: &Context, table: &Table, findings: &mut Findings) {
    let names = register_names(ctx.sources);
    let named = |name: &str| format!("{name} ({:02X}h)", names.iter().position(|n| n == name).unwrap_or(0));
    let [set_2, conditions] = register_lists(ctx);
    let right = [
        set_2,
        format!("control registers but {}, {} and {}", named("INT_PEND"), named("TMR0_CNT"), named("TMR1_CNT")),
        "the interrupt stack, entries and number".into(),
        "protected cells".into(),
        "bit 0 of PSR".into(),
        format!("set 1, {conditions}, the rest of PSR, position, open cells, INT_PEND, TMR0_CNT, TMR1_CNT, dividers"),
    ];
    if findings.rows(table, right.len()) {
        for (row, right) in table.rows.iter().zip(right) {
            findings.cell(table, row, "Part", right);
        }
        findings.cell(table, &table.rows[4], "After a transition of the segment", "1");
    }
}

/// 10.4: the numbers of registers and of the position.
pub fn confidentiality(ctx: &Context, table: &Table, findings: &mut Findings) {
    let [set_2, conditions] = register_lists(ctx);
    let position = match ctx.card.reset().get(PC - 4) {
        6 => "the position, six numbers",
        _ => "the position",
    };
    if findings.rows(table, 8) {
        findings.cell(table, &table.rows[0], "Equal at the start", "set 1");
        findings.cell(table, &table.rows[0], "May differ at the start", set_2);
        findings.cell(table, &table.rows[1], "Equal at the start", conditions);
        let all =
            "every control register but the four bounds, as far as H1, H3 and H4 let it: CCB_BASE, vectors, masks, pending flags, timers";
        findings.cell(table, &table.rows[1], "May differ at the start", all);
        findings.cell(table, &table.rows[3], "Equal at the start", position);
        let entries = "the interrupt stack's entries, and their number where it is not 0";
        findings.cell(table, &table.rows[6], "May differ at the start", entries);
    }
}
