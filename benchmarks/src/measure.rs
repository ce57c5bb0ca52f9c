//! Counts instructions by callgrind, takes times, and prints the tables.

use std::process::Command;
use std::time::Duration;

use crate::goals;
use crate::inputs::Inputs;
use crate::lines::Line;

const SIDES: [usize; 2] = [0, 1];

/// Of each time, as a process of its own.
const RUNS: usize = 5;

/// A time is taken over at least so long.
const LEAST: Duration = Duration::from_millis(10);

/// Runs one side of a line some times over, and nothing else.
pub fn only(line: usize, side: usize, rounds: usize) {
    let inputs = Inputs::new();
    let mut line = inputs.lines().swap_remove(line);
    run(&mut line, side, rounds);
}

fn run(line: &mut Line, side: usize, rounds: usize) {
    let code = if side == 0 { &mut line.proved } else { &mut line.rust };
    (0..rounds).for_each(|_| code());
}

/// Nanoseconds of one call: the rounds are doubled until they take long enough.
pub fn time(line: usize, side: usize) -> f64 {
    let inputs = Inputs::new();
    let mut line = inputs.lines().swap_remove(line);
    let mut rounds = 1;
    loop {
        let start = processor_time();
        run(&mut line, side, rounds);
        let taken = processor_time() - start;
        if taken >= LEAST {
            return taken.as_nanos() as f64 / (rounds * line.calls) as f64;
        }
        rounds *= 2;
    }
}

unsafe extern "C" {
    fn clock_gettime(clock: i32, time: *mut [i64; 2]) -> i32;
}

/// Of this thread: what other programs take of the processor is not in it.
fn processor_time() -> Duration {
    const CLOCK_THREAD_CPUTIME_ID: i32 = 3;
    let mut time = [0; 2];
    assert_eq!(unsafe { clock_gettime(CLOCK_THREAD_CPUTIME_ID, &mut time) }, 0);
    Duration::new(time[0] as u64, time[1] as u32)
}

/// What the program writes to either stream.
fn said(program: &mut Command) -> String {
    let output = program.output().unwrap_or_else(|why| panic!("{program:?}: {why}"));
    let text =
        [output.stdout, output.stderr].map(|bytes| String::from_utf8_lossy(&bytes).into_owned()).concat();
    assert!(output.status.success(), "{program:?}: {text}");
    text
}

/// Instructions of one call: the difference between a run of twice the rounds and one of the rounds.
fn instructions(build: &str, number: usize, line: &Line, side: usize) -> f64 {
    let rounds = if line.name == "margin" { 1 } else { (1000 / line.calls).max(1) };
    let count = |rounds: usize| -> f64 {
        let words = [number, side, rounds].map(|word| word.to_string());
        let mut valgrind = Command::new("valgrind");
        let text = said(
            valgrind.args(["--tool=callgrind", "--callgrind-out-file=/dev/null", build, "run"]).args(words),
        );
        let collected = text.lines().find_map(|line| line.split_once("Collected :"));
        collected.unwrap_or_else(|| panic!("valgrind gave no count: {text}")).1.trim().parse().unwrap()
    };
    (count(2 * rounds) - count(rounds)) / (rounds * line.calls) as f64
}

/// The table of instructions, then that of times, for the programs of the default build and of the best one.
pub fn tables(builds: [&str; 2]) {
    for build in builds {
        said(Command::new(build).arg("check"));
    }
    println!("Both sides answer the same to every input, in either build.\n");
    let inputs = Inputs::new();
    let lines = inputs.lines();
    counts(builds, &lines);
    println!();
    times(builds, &lines);
}

fn counts(builds: [&str; 2], lines: &[Line]) {
    println!("Instructions a call:\n");
    println!("| line | ours | the Rust | ratio | ours, best build | the Rust | ratio | goals | met |");
    println!("|---|---|---|---|---|---|---|---|---|");
    for (number, line) in lines.iter().enumerate() {
        let [default, best] = builds.map(|build| SIDES.map(|side| instructions(build, number, line, side)));
        let ratios = [default, best].map(|[ours, rust]| ours / rust);
        let (goals, met) = goals::of(line.name).compared([default[0], ratios[0], ratios[1]]);
        println!(
            "| {} | {:.0} | {:.0} | {:.3} | {:.0} | {:.0} | {:.3} | {goals} | {met} |",
            line.name, default[0], default[1], ratios[0], best[0], best[1], ratios[1],
        );
    }
}

fn times(builds: [&str; 2], lines: &[Line]) {
    println!(
        "Nanoseconds of the processor a call, the median of {RUNS} runs and the least to the greatest:\n"
    );
    println!("| line | ours | the Rust | ratio | ours, best build | the Rust | ratio |");
    println!("|---|---|---|---|---|---|---|");
    for (number, line) in lines.iter().enumerate() {
        // The four of a line take turns, so that other work on the machine falls on all of them.
        let mut taken = [[[0.0; RUNS]; 2]; 2];
        for run in 0..RUNS {
            for (build, sides) in builds.iter().zip(&mut taken) {
                for side in SIDES {
                    let words = [number, side].map(|word| word.to_string());
                    let text = said(Command::new(build).arg("time").args(words));
                    sides[side][run] = text.trim().parse().unwrap();
                }
            }
        }
        let cells = taken.map(|sides| {
            let [ours, rust] = sides.map(|mut runs| {
                runs.sort_by(f64::total_cmp);
                runs
            });
            let [o, r] = [ours, rust]
                .map(|runs| format!("{:.1} ({:.1} to {:.1})", runs[RUNS / 2], runs[0], runs[RUNS - 1]));
            format!("{o} | {r} | {:.3}", ours[RUNS / 2] / rust[RUNS / 2])
        });
        println!("| {} | {} |", line.name, cells.join(" | "));
    }
}
