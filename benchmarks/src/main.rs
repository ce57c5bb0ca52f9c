//! The proved library beside the published Rust: the same inputs, instructions counted by callgrind, and time.

mod check;
#[allow(dead_code, unused_imports, static_mut_refs, clippy::all)]
mod clocks;
mod goals;
mod growth;
mod inputs;
mod lines;
mod measure;
mod plain;
mod recorder;

// Of the oracle: the stand-in for rp-pac, plans as 48 numbers, random ones, and the plain runner.
#[allow(dead_code, unused_imports)]
#[path = "../../oracle/src/pac/mod.rs"]
mod pac;
#[allow(dead_code)]
#[path = "../../oracle/src/plain_runner.rs"]
mod plain_runner;
#[allow(dead_code, unused_imports)]
#[path = "../../oracle/src/plan.rs"]
mod plan;
#[allow(dead_code)]
#[path = "../../oracle/src/plan_numbers.rs"]
mod plan_numbers;
#[allow(dead_code)]
#[path = "../../oracle/src/random.rs"]
mod random;
#[allow(dead_code)]
#[path = "../../oracle/src/random_plan.rs"]
mod random_plan;
#[allow(dead_code)]
#[path = "../../oracle/src/standins.rs"]
mod standins;
#[allow(dead_code)]
#[path = "../../oracle/src/values.rs"]
mod values;

// What the published code finds at its crate's root.
use standins::{Peri, atomics, cortex_m, fixed, gpio, peripherals};

mod reset {
    include!(concat!(env!("OUT_DIR"), "/reset.rs"));
}

mod pio_programs {
    #[allow(dead_code, clippy::all)]
    pub mod clock_divider {
        include!(concat!(env!("OUT_DIR"), "/clock_divider.rs"));
    }
}

fn main() {
    let words: Vec<String> = std::env::args().skip(1).collect();
    let words: Vec<&str> = words.iter().map(String::as_str).collect();
    let number = |word: &str| word.parse().unwrap();
    match words[..] {
        ["tables", default, best] => measure::tables([default, best]),
        ["growth"] => growth::run(),
        ["check"] => inputs::Inputs::new().check(),
        ["run", line, side, rounds] => measure::only(number(line), number(side), number(rounds)),
        ["time", line, side] => println!("{}", measure::time(number(line), number(side))),
        _ => panic!("benchmarks tables DEFAULT BEST, growth, check, run LINE SIDE ROUNDS, or time LINE SIDE"),
    }
}
