//! What the requests add: the port's own rules, and the Rust's pieces put together anew.

use crate::answer::{answer, answer_line};
use crate::case::Case;
use crate::compare::{Class, class};

/// A board with both PLLs and the crystal on, and nothing saved.
const AWAKE: &str = "2048 2048 2048 16433060 2720 2 1 0 0 16431776 3";
const NOTHING: &str = "0 0 0 0 0 0 0 0 0 0 0 0";

/// Steps of two numbers each as a call leaves them, zeros past them: how many numbers, and 28.
fn steps(written: &str) -> (String, String) {
    let count = written.split(' ').count();
    (count.to_string(), format!("{written}{}", " 0".repeat(28 - count)))
}

#[test]
fn a_wake_gives_back_what_slept() {
    let none = format!("{NOTHING} {NOTHING} {NOTHING} {NOTHING}");
    let slept = answer_line(&format!("sleep 2 {AWAKE} {none}"));
    let (count, written) = steps("0 0 1 0 2 0 3 16433060 4 2720 11 0 5 0 6 0 7 33 8 33 9 13757088 10 11");
    let slots = format!("{NOTHING} {NOTHING} 1 {AWAKE} {NOTHING}");
    assert_eq!(slept, format!("{count} 0 0 0 16433060 2720 0 0 33 33 13757088 11 {slots} {written}"));
    let woken = answer_line(&format!("wake 2 1 2 3 4 5 6 7 8 9 10 11 {slots}"));
    let (count, written) =
        steps("10 3 9 16431776 12 0 8 0 14 0 7 0 13 0 6 1 5 2 3 16433060 4 2720 2 2048 1 2048 0 2048");
    assert_eq!(woken, format!("{count} {AWAKE} {slots} {written}"));
    // A refusal leaves words and slots, and has no steps.
    let refused = |number: u32| format!("refused {number} {AWAKE} {slots}{}", " 0".repeat(28));
    assert_eq!(answer_line(&format!("wake 1 {AWAKE} {slots}")), refused(30));
    assert_eq!(answer_line(&format!("wake 4 {AWAKE} {slots}")), refused(29));
    assert_eq!(answer_line(&format!("sleep 4 {AWAKE} {slots}")), refused(29));
}

/// What a wake waits for: the first numbers of its steps that are no registers.
fn waits(line: &str) -> Vec<u32> {
    let numbers: Vec<u32> = answer_line(line).split(' ').map(|word| word.parse().unwrap()).collect();
    let steps = &numbers[60..60 + numbers[0] as usize];
    steps.iter().step_by(2).copied().filter(|&first| first > 10).collect()
}

#[test]
fn only_what_ran_is_waited_for() {
    // PLL power: PD alone, VCOPD alone; the crystal off.
    let slots = format!("1 0 0 0 0 0 0 0 1 32 {} 0 {NOTHING} {NOTHING} {NOTHING}", 0xd1e << 12);
    assert_eq!(waits(&format!("wake 0 {AWAKE} {slots}")), []);
}

#[test]
fn a_crystal_with_no_code_runs() {
    let slots = format!("1 0 0 0 0 0 0 0 33 33 7 0 {NOTHING} {NOTHING} {NOTHING}");
    let line = format!("wake 0 {AWAKE} {slots}");
    assert_eq!(waits(&line), [12]);
    let case = Case::parse(&line).unwrap();
    let ruled = answer(&case);
    let ours = ruled.to_string();
    assert!(ours.contains(" 9 7 12 0 8 33 7 33 "), "{ours}");
    assert_eq!(class(&case, &ruled, &ours), Some(Class::CrystalCode));
    assert_eq!(class(&case, &ruled, &ours.replace(" 12 0", "")), None);
    let slept = answer_line(&format!("sleep 0 0 0 0 0 0 0 0 0 0 7 0 {slots}"));
    assert!(slept.contains(&format!(" 9 {} ", 0xd1e << 12 | 7)), "{slept}");
}

/// A fresh board, or one with other first numbers; its frequencies are 0.
fn board(numbers: &str) -> String {
    format!("{numbers} 0 0 0 0 0 0 0 0 0 0")
}

#[test]
fn a_slow_board_adds_to_its_own_total_alone() {
    // Two waits for lock. Board 3 hears unready four times and ready once, board 4 unready once and then ready.
    let sheet = "58000000000000005800000000000000";
    let fresh = [board("0 0 0 0").as_str(); 8].join(" ") + " 16";
    let mut bench = answer_line(&format!("bench_start {sheet} - 3 {}", "7 ".repeat(112) + "7"));
    assert_eq!(bench, format!("0 {fresh} {sheet}"));
    bench = fresh;
    let mut replies = String::new();
    let calls = [(3, 0), (4, 0), (3, 1), (8, 0), (3, 0), (3, 0), (3, 0), (4, 1)];
    for (of, ready) in calls {
        let answer = answer_line(&format!("bench_run {sheet} {sheet} {of} {ready} {bench}"));
        let words: Vec<&str> = answer.splitn(if of > 7 { 3 } else { 2 }, ' ').collect();
        let (reply, left) = words.split_at(words.len() - 1);
        replies += &format!("{} ", reply.join(" "));
        bench = left[0].to_string();
    }
    assert_eq!(replies, "2 2 1 refused 28 2 2 2 1 ");
    let fresh = board("0 0 0 0");
    let (slow, quick) = (board("1 3 4 0"), board("1 0 1 0"));
    let boards = [&fresh, &fresh, &fresh, &slow, &quick, &fresh, &fresh, &fresh];
    assert_eq!(bench, boards.map(String::as_str).join(" ") + " 16");
}

#[test]
fn a_step_is_its_word() {
    let runner = "0 0 0 0 8 0 0 0 0 0 0 0 0 0 0";
    let store = 37u64 << 58 | 5 << 54 | 125_000_000 << 22;
    let hex = format!("{store:016x}");
    let left = "1 0 0 0 8 0 0 0 0 0 125000000 0 0 0 0";
    assert_eq!(answer_line(&format!("run {hex} {hex} 0 {runner}")), format!("{store} {left}"));
    assert_eq!(answer_line(&format!("run {hex} - 0 {runner}")), format!("refused 27 {runner}"));
    assert_eq!(answer_line(&format!("start {hex} 00 {left}")), format!("0 {runner} {hex}"));
    assert_eq!(answer_line(&format!("start 00 0102 {left}")), format!("refused 20 {left} 0102000000000000"));
}

#[test]
fn six_kind_bits_tell_the_chip() {
    let rows = [
        ("read 9800000000000000 31", "refused 26"),
        ("read 9800000000000000 32", "refused 18"),
        ("read 9800000000000001 16", "refused 26"),
        ("read 9bffffffffffffff 31", "refused 26"),
        ("read 9800000000000001 32", "refused 18"),
        ("read 9c00000000000000 16", "refused 18"),
        ("read 9400000000000000 16", "refused 18"),
        ("read 9400000000000000 15", "refused 26"),
        // Fewer than 8 bytes are no step.
        ("read 98000000000000 16", "refused 18"),
        ("read 980000000000000000 16", "refused 26"),
    ];
    for (case, answer) in rows {
        assert_eq!(answer_line(case), answer, "{case}");
    }
}
