//! What the program `load` has to print: the target trial by the Rust's search, the runner trial by the plain runner.

use std::collections::BTreeMap;
use std::io;

use crate::answer::{answer, bytes, planned};
use crate::case::Case;
use crate::clocks;
use crate::compare::ask;
use crate::plain_runner::Runner;
use crate::random::Random;
use crate::text::number;

const CRYSTAL_HZ: u32 = 12_000_000;
const MOST: u32 = 10_000;

/// Each trial draws afresh from the seed.
fn draws(seed: u32) -> impl Iterator<Item = u32> {
    let next = |&x: &u32| Some(x.wrapping_mul(1_664_525).wrapping_add(1_013_904_223));
    std::iter::successors(next(&seed), next)
}

/// The output for an input, which may be no line of two numbers.
pub fn output(input: &str) -> String {
    let line = input.split('\n').next().unwrap();
    let numbers = line.split_once(' ').and_then(|(seed, count)| number(seed).zip(number(count)));
    match numbers {
        None => "refused 24\n".to_string(),
        Some((_, count)) if count > MOST => "refused 31\n".to_string(),
        Some((seed, count)) => trials(seed, count as usize),
    }
}

fn trials(seed: u32, count: usize) -> String {
    let setting = |target: u32| {
        let found = clocks::search(CRYSTAL_HZ, target).expect("12 MHz is served");
        format!("{} {} {}\n", found.fbdiv, found.post_div1, found.post_div2)
    };
    let settings: String = draws(seed).take(count).map(setting).collect();
    let sheet = crystal_sheet();
    let mut runner = Runner::fresh();
    assert_eq!(runner.start(&sheet), None);
    for x in draws(seed).take(count) {
        runner.poll(&sheet, x >> 31 == 1);
    }
    format!("{settings}{} {}\n", runner.position, runner.total)
}

/// The bytes of the crystal preset's sheet for 12 MHz at reading 11, by the Rust.
fn crystal_sheet() -> Vec<u8> {
    let plan = planned(&Case::new("crystal", &[0, CRYSTAL_HZ])).expect("a plan");
    bytes(&answer(&Case::sheet(11, 520, 0, &plan)).steps().expect("a sheet"))
}

/// Inputs: the limits, then random ones.
fn inputs(seed: u64, count: usize) -> impl Iterator<Item = String> {
    #[rustfmt::skip]
    const LIMITS: [&str; 25] = [
        "0 1\n", "0 0\n", "0 1", "0 10000\n", "0 10001\n", "4294967295 10000\n", "4294967295 4294967295\n", "1 62\n",
        "0000000001 0000000002\n7 7\n", "1 2\n\n", "00000000001 1\n", "1 00000000001\n", "4294967296 1\n", "1 4294967296\n",
        "4294967296 10001\n", "x 10001\n", "1  1\n", " 1 1\n", "1 1 \n", "1 1 1\n", "1\n", "1 \n", "\n", "", "1 -1\n",
    ];
    let mut r = Random::new(seed);
    let random = std::iter::repeat_with(move || {
        let seed = r.any();
        let count = if r.percent(80) { r.between(0, 300) } else { r.between(0, 10_002) };
        format!("{seed} {count}\n")
    });
    LIMITS.into_iter().map(str::to_string).chain(random).take(count)
}

/// Runs the program on inputs and counts how it ends; says whether each output was the same.
pub fn compare(seed: u64, count: usize, program: &str) -> io::Result<bool> {
    let mut counts: BTreeMap<String, u64> = BTreeMap::new();
    let mut findings = 0;
    for input in inputs(seed, count) {
        let expected = output(&input);
        if ask(program, &input)? != expected {
            findings += 1;
            println!("finding: {input:?}");
        } else {
            let class = if expected.starts_with("refused") { expected.trim() } else { "both trials" };
            *counts.entry(class.to_string()).or_default() += 1;
        }
    }
    counts.iter().for_each(|(class, count)| println!("| {class} | {count} |"));
    println!("| findings | {findings} |");
    Ok(findings == 0)
}
