//! Cases as text: what is one, in which order it is looked at, and that those generated are.

use crate::answer::answer_line;
use crate::case::{Case, ROWS};
use crate::generate;
use crate::random::Random;
use crate::tests::alone;

#[test]
fn no_cases() {
    let lines = ["", " ", "valid", "valid 1 1 1 1", "valid 1 1 1 1 1 1", "valid 1 256 1 1 1", "pio +1 1"];
    for line in lines.into_iter().chain(["pio  1 1", "pio 1 1 ", "rosc 2", "manual 1 1 1 1 1 5"]) {
        assert_eq!(answer_line(line), "bad case", "{line}");
    }
}

/// Slots and boards that are none come before numbers that are none, and these before the other refusals.
#[test]
fn malformed_comes_after_28_and_29() {
    let _alone = alone();
    let words = "0 ".repeat(58);
    let runner = |mark: u32| format!("67 0 0 {mark} 0 0 0 0 0 0 0 0 0 0 0");
    let bench = |mark: u32| format!("67 0 0 {mark}{}", " 0".repeat(109));
    let begins = [
        (format!("sleep 4 {}2 {}0", "0 ".repeat(11), "0 ".repeat(46)), "refused 29"),
        (format!("wake 3 {}2 {}0", "0 ".repeat(11), "0 ".repeat(46)), "bad case"),
        (format!("run - - 0 {}", runner(2)), "bad case"),
        (format!("run - - 0 {}", runner(1)), "refused 21 67 0 0 1 "),
        (format!("start 00 - {}", runner(2)), "refused 20 67 0 0 2 "),
        (format!("start - - {}", runner(2)), "0 0 0 0 0 "),
        (format!("bench_run - - 8 0 {}", bench(2)), "refused 28 67 0 0 2 "),
        (format!("bench_run - - 0 0 {}", bench(2)), "bad case"),
        (format!("bench_run - - 1 0 {}", bench(2)), "0 67 0 0 2 "),
        (format!("bench_start 00 - 8 {}", bench(2)), "refused 20 67 0 0 2 "),
        ("gpout 0 1 1 256 0 0 0 0 0 0 0 0 0 0".to_string(), "bad case"),
        ("gpout 0 1 1 255 0 0 0 0 0 0 0 0 0 0".to_string(), "panic"),
        (format!("sheet 255 0 2 {words}"), "bad case"),
    ];
    for (case, begin) in begins {
        assert!(answer_line(&case).starts_with(begin), "{case}: {}", answer_line(&case));
    }
}

/// Every row's text is read back, and of every row there are random cases.
#[test]
fn cases_are_read_back() {
    let _alone = alone();
    let mut random = Random::new(3);
    for (name, _) in ROWS {
        let mut read = 0;
        for at in 0..200 {
            let case = generate::of(&mut random, name, at % 2);
            if let Some(back) = Case::parse(&case.text()) {
                assert_eq!(back, case);
                read += 1;
            } else {
                assert!(!case.well_formed(), "{}", case.text());
            }
        }
        assert!(read > 150, "{name}: {read}");
    }
}

#[test]
fn generated_lines_are_the_same_for_a_seed() {
    let _alone = alone();
    let lines = |seed| generate::lines(seed, 50_000).collect::<Vec<_>>();
    assert_eq!(lines(1), lines(1));
    assert_ne!(lines(1), lines(2));
    let cases = lines(1).iter().filter(|line| Case::parse(line).is_some()).count();
    assert!(cases > 48_000);
}
