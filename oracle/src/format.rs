//! What the papers show is what the Rust does: the worked sheet, the voltages, the program's example. The table of
//! kinds gives the bytes of the worked sheet, and the cases are those that are answered here.

use std::collections::BTreeMap;

use crate::answer::{answer, answer_line};
use crate::case::{Case, ROWS, letters};
use crate::replay::owed_line;
use crate::steps::Step;

const PAPERS: &str = concat!(
    include_str!("../../docs/FORMAT.md"),
    include_str!("../../docs/PLL.md"),
    include_str!("../../docs/WORKED-SHEET.md"),
    include_str!("../../docs/CASES.md"),
    include_str!("../../docs/PROGRAMS.md"),
    include_str!("../../docs/RP235X.md"),
);

const CLOCKS: [&str; 10] = ["rosc", "xosc", "pll_sys", "pll_usb", "ref", "sys", "peri", "usb", "adc", "rtc"];

/// The lines of a section.
fn section(heading: &str) -> impl Iterator<Item = &'static str> {
    let name = |line: &'static str| line.strip_prefix("## ").or(line.strip_prefix("# "));
    let lines = PAPERS.lines().skip_while(move |line| name(line) != Some(heading)).skip(1);
    lines.take_while(move |line| name(line).is_none())
}

/// The output of a section's first command: the block after that of the command.
fn shown(heading: &str) -> impl Iterator<Item = &'static str> {
    let output = section(heading).skip_while(|line| *line != "```").skip(2);
    output.take_while(|line| *line != "```")
}

/// The cells of the rows of a section's tables.
fn cells(heading: &str) -> Vec<Vec<&'static str>> {
    let lines = section(heading).filter_map(|line| line.strip_prefix('|')?.strip_suffix('|'));
    lines.map(|line| line.split('|').map(str::trim).collect()).collect()
}

/// The rows that begin with a number.
fn rows(heading: &str) -> Vec<Vec<&'static str>> {
    cells(heading).into_iter().filter(|cells| cells[0].parse::<u64>().is_ok()).collect()
}

/// The widths of each kind's fields: what stands in brackets.
fn widths() -> BTreeMap<u64, Vec<u64>> {
    let in_brackets =
        |field: &str| field.split_once('(').and_then(|(_, rest)| rest.strip_suffix(')')?.parse().ok());
    let width = |field: &str| in_brackets(field).unwrap_or_else(|| panic!("no width: {field}"));
    let fields = |text: &str| text.split(", ").filter(|field| !field.is_empty()).map(width).collect();
    let rows = rows("Kinds of steps");
    rows.iter().map(|cells| (cells[0].parse().unwrap(), fields(cells[2]))).collect()
}

/// Decimal, or hexadecimal behind 0x.
fn number(text: &str) -> u64 {
    text.strip_prefix("0x").map_or_else(|| text.parse(), |hex| u64::from_str_radix(hex, 16)).unwrap()
}

/// The word of a step that stands as its kind with its fields in brackets.
fn packed(step: &str, widths: &BTreeMap<u64, Vec<u64>>) -> u64 {
    let (kind, fields) = step.split_once('(').unwrap_or((step, ")"));
    let fields = fields.strip_suffix(')').unwrap().split(", ").filter(|field| !field.is_empty());
    let fields: Vec<u64> = fields.map(number).collect();
    let kind = number(kind);
    let widths = &widths[&kind];
    assert_eq!(fields.len(), widths.len(), "{step}");
    let (mut word, mut left) = (kind << 58, 58);
    for (field, width) in fields.into_iter().zip(widths) {
        assert!(field >> width == 0, "{step}");
        left -= width;
        word |= field << left;
    }
    word
}

/// The case of a preset's sheet at reading 11.
fn sheet_line(preset: &str) -> String {
    format!("sheet 11 528 {}", answer_line(preset))
}

fn steps(line: &str) -> Vec<Step> {
    Case::parse(line).and_then(|case| answer(&case).steps()).unwrap_or_else(|| panic!("no sheet: {line}"))
}

#[test]
fn the_worked_sheet_is_the_rusts() {
    let _alone = crate::tests::alone();
    let rows = rows("A worked sheet");
    let bytes: String = rows.iter().map(|cells| cells[1].trim_matches('`')).collect();
    assert_eq!(format!("496 {bytes}"), answer_line(&sheet_line("crystal 0 12000000")));
    assert!(rows.iter().enumerate().all(|(position, cells)| number(cells[0]) == position as u64));
}

#[test]
fn its_steps_give_its_bytes() {
    let widths = widths();
    assert!(widths.keys().copied().eq(1..=45));
    for cells in rows("A worked sheet") {
        assert_eq!(format!("`{:016x}`", packed(cells[2], &widths)), cells[1], "{}", cells[2]);
    }
}

#[test]
fn its_words_say_what_it_stores() {
    let stores = rows("A worked sheet").into_iter().filter(|cells| cells[2].starts_with("37("));
    for (cells, (clock, name)) in stores.zip(CLOCKS.iter().enumerate()) {
        let (step, words) = (cells[2], cells[3]);
        let hz = words.strip_prefix(&format!("store {name}: ")).unwrap().strip_suffix(" Hz").unwrap();
        assert_eq!(step, format!("37({clock}, {hz})"));
    }
}

#[test]
fn the_voltages_are_the_rusts() {
    let _alone = crate::tests::alone();
    for (heading, chip, readings) in [("Voltages", 0, 0..=15), ("The RP235x", 1, 0..=31)] {
        let row = |name: &str| cells(heading).into_iter().find(|cells| cells[0] == name).unwrap();
        let (codes, levels) = (row("code"), row("brownout level"));
        for reading in readings {
            let known = codes.iter().position(|code| *code == reading.to_string());
            let expected = known.map_or("refused 18".to_string(), |at| format!("{reading} {}", levels[at]));
            assert_eq!(answer_line(&format!("voltage {chip} {reading}")), expected);
        }
    }
}

/// The settling times, with a ring of 1 MHz: as many cycles as microseconds.
#[test]
fn the_settling_times_are_the_rusts() {
    let _alone = crate::tests::alone();
    for (heading, chip, end) in [("Voltages", 0, " 0 0 0 0 0"), ("The RP235x", 1, "")] {
        let row = |name: &str| cells(heading).into_iter().find(|cells| cells[0].starts_with(name)).unwrap();
        for (code, time) in row("code").iter().zip(row("settling time where none is given")).skip(1) {
            let reading = if *code == "11" { 12 } else { 11 };
            let ring = "1 1000000 1 0 0 0 0 0 0 0 0 16 0 0 0 0 0 0 0 0 0 0 0 0 0";
            let case =
                format!("sheet {reading} 528 {chip} {ring} {code} 0 0 0 1 0 1 0 0 0 0 0 0 0 0 0 0 0{end}");
            let delays = steps(&case).into_iter().filter(|step| step.kind == 14);
            let delays: Vec<u64> = delays.map(|step| step.word << 6 >> 32).collect();
            let times: Vec<u64> = time.parse().into_iter().filter(|time| *time != 0).collect();
            assert_eq!(delays, times, "{case}");
        }
    }
}

#[test]
fn the_usb_plls_are_those_of_every_setting_tried() {
    let rows = rows("USB PLL");
    assert_eq!(rows.len(), 9);
    for cells in rows {
        let answer = answer_line(&format!("usb_pll {}", cells[0]));
        assert_eq!(answer, cells[1].replace(',', ""), "{}", cells[0]);
    }
}

#[test]
fn the_example_of_clocks_is_what_the_rust_stores() {
    let _alone = crate::tests::alone();
    let steps = steps(&sheet_line("system 0 125000000"));
    let stored = steps.iter().filter_map(|step| step.stored());
    let stored = stored.map(|(clock, hz)| format!("{} {hz}", CLOCKS[clock as usize]));
    assert!(shown("Program clocks").take(10).eq(stored));
}

/// `limits` holds docs/FORMAT.md: its stored answers are those that are owed.
#[test]
fn the_answers_of_limits_are_right() {
    let _alone = crate::tests::alone();
    let cases = include_str!("../../crates/limits/stdin").lines();
    for (line, stored) in cases.zip(include_str!("../../crates/limits/stdout").lines()) {
        assert_eq!(owed_line(line).as_deref(), Some(stored), "{line}");
    }
}

#[test]
fn the_book_begins_as_shown() {
    assert!(shown("Program book").take(3).eq(crate::book::text().lines().take(3)));
}

/// The sheet that the gate explains is the Rust's, and so is the plan in its words.
#[test]
fn the_sheet_that_is_explained_is_the_rusts() {
    let _alone = crate::tests::alone();
    let sheet = include_bytes!("../../crates/dizbaral/data/crystal.sheet");
    let hex: String = sheet.iter().map(|byte| format!("{byte:02x}")).collect();
    let reading = include_str!("../../crates/dizbaral/args").lines().nth(1).unwrap();
    assert_eq!(answer_line(&sheet_line("crystal 0 12000000")), format!("{} {hex}", hex.len() / 2));
    let stored = include_str!("../../crates/dizbaral/stdout").lines().last().unwrap();
    assert_eq!(answer_line(&format!("read {hex} {reading}")), stored.replace("plan", "0"));
}

#[test]
fn the_load_of_0_1_is_as_shown() {
    let _alone = crate::tests::alone();
    assert!(shown("Program load").eq(crate::load::output("0 1").lines()));
}

/// The rows of docs/CASES.md have the names and, by its table of words, the letters of the table here.
#[test]
fn the_cases_are_those_that_are_answered() {
    let words: BTreeMap<&str, &str> = cells("Words")
        .into_iter()
        .flat_map(|cells| {
            cells[0].split(' ').map(move |word| (word.trim_matches('`'), cells[1].trim_matches('`')))
        })
        .collect();
    let rows =
        cells("Text cases").into_iter().filter_map(|cells| cells[0].strip_prefix('`')?.strip_suffix('`'));
    let row = |case: &'static str| {
        let (name, rest) = case.split_once(' ').unwrap_or((case, ""));
        let of_word = |word: &str| *words.get(word).unwrap_or_else(|| panic!("{case}: {word}"));
        (name, letters(&rest.split(' ').map(of_word).collect::<String>()).collect::<String>())
    };
    let ours = ROWS.map(|(name, row)| (name, letters(row).collect::<String>()));
    assert_eq!(rows.map(row).collect::<Vec<_>>(), ours);
}
