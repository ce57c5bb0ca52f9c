//! The lines of the table: what either side does with the same inputs.

use std::hint::black_box;

use dizbaral::{BENCH_NUMBERS, Chip, SHEET_BYTES, raw};

use crate::clocks::{self, ClockConfig, Gpout};
use crate::inputs::{Inputs, MHZ, READING};
use crate::peripherals::PIN_21;
use crate::plain::{gpout, halved_margin, pio, plain_list, start};
use crate::plain_runner::{Reply, Runner};
use crate::plan;
use crate::recorder;
use crate::standins::Peri;

/// The chip of the calls that are measured.
const RP2040: u8 = Chip::Rp2040 as u8;

/// Room for more settings than any target has here.
pub const LIST_BYTES: usize = 256;

/// One side of a line: goes once over the inputs.
pub type Side<'a> = Box<dyn FnMut() + 'a>;

pub struct Line<'a> {
    pub name: &'static str,
    /// How many calls one round is.
    pub calls: usize,
    pub proved: Side<'a>,
    pub rust: Side<'a>,
}

impl Inputs {
    pub fn lines(&self) -> Vec<Line<'_>> {
        vec![
            search("search, exact hit", &self.exact),
            search("search, no exact hit", &self.inexact),
            search("search, random inputs", &self.random),
            self.lookup(),
            self.lookup_in(),
            self.margin(),
            self.list(),
            self.crystal_sheet(),
            self.plan_sheets(),
            self.start(),
            self.runner(),
            self.bench(),
            self.pio(),
            self.gpout(),
        ]
    }

    /// One lookup in the 12 MHz book, beside the search with no hit.
    fn lookup(&self) -> Line<'_> {
        Line {
            name: "book, one lookup",
            proved: Box::new(|| {
                for &(_, target) in &self.inexact {
                    black_box(unsafe { raw::dizbaral_lookup(black_box(target)) });
                }
            }),
            ..search("", &self.inexact)
        }
    }

    /// The same in a book that is open.
    fn lookup_in(&self) -> Line<'_> {
        let book = dizbaral::Book::open();
        Line {
            name: "book, lookup in an open one",
            proved: Box::new(move || {
                for &(_, target) in &self.inexact {
                    let _ = black_box(black_box(&book).lookup(black_box(target)));
                }
            }),
            ..search("", &self.inexact)
        }
    }

    /// The margin of a target, beside the same halving over the Rust's search.
    fn margin(&self) -> Line<'_> {
        Line {
            name: "margin",
            calls: self.inexact.len(),
            proved: Box::new(|| {
                for &(input, target) in &self.inexact {
                    let _ = black_box(dizbaral::target_margin(black_box(input), black_box(target)));
                }
            }),
            rust: Box::new(|| {
                for &(input, target) in &self.inexact {
                    black_box(halved_margin(black_box(input), black_box(target)));
                }
            }),
        }
    }

    /// The list of the settings of a target, beside one that tries every setting of a feedback divider in range.
    fn list(&self) -> Line<'_> {
        let (mut ours, mut plain) = ([0; LIST_BYTES], [0; LIST_BYTES]);
        Line {
            name: "list",
            calls: self.exact.len(),
            proved: Box::new(move || {
                for &(input, target) in &self.exact {
                    let list = ours.as_mut_ptr();
                    black_box(unsafe {
                        raw::dizbaral_list(black_box(input), black_box(target), list, LIST_BYTES as u64)
                    });
                    black_box(&ours);
                }
            }),
            rust: Box::new(move || {
                for &(input, target) in &self.exact {
                    black_box(plain_list(black_box(input), black_box(target), &mut plain));
                    black_box(&plain);
                }
            }),
        }
    }

    fn crystal_sheet(&self) -> Line<'_> {
        let mut sheet = [0; 528];
        Line {
            name: "sheet, crystal preset",
            calls: 1,
            proved: Box::new(move || {
                black_box(unsafe {
                    raw::dizbaral_system_sheet(RP2040, black_box(125 * MHZ), READING, sheet.as_mut_ptr(), 528)
                });
                black_box(&sheet);
            }),
            rust: Box::new(|| {
                recorder::start(READING);
                clocks::write_sheet(ClockConfig::system_freq(black_box(125 * MHZ)).ok().unwrap());
                black_box(recorder::sheet());
            }),
        }
    }

    fn plan_sheets(&self) -> Line<'_> {
        let mut sheet = [0; 528];
        Line {
            name: "sheet, random plans",
            calls: self.plans.len(),
            proved: Box::new(move || {
                for plan in &self.plans {
                    let plan = black_box(plan);
                    let sheet = sheet.as_mut_ptr();
                    black_box(unsafe {
                        raw::dizbaral_plan_sheet(RP2040, plan.as_ptr(), 48, READING, sheet, 528)
                    });
                    black_box(&sheet);
                }
            }),
            rust: Box::new(|| {
                for numbers in &self.plans {
                    recorder::start(READING);
                    clocks::write_sheet(plan::config(black_box(numbers)));
                    black_box(recorder::sheet());
                }
            }),
        }
    }

    fn pio(&self) -> Line<'_> {
        Line {
            name: "PIO divider",
            calls: self.pio.len(),
            proved: Box::new(|| {
                for &(system, target) in &self.pio {
                    black_box(unsafe { raw::dizbaral_pio_divider(black_box(system), black_box(target)) });
                }
            }),
            rust: Box::new(|| {
                for &(system, target) in &self.pio {
                    black_box(pio(black_box(system), black_box(target)));
                }
            }),
        }
    }

    fn gpout(&self) -> Line<'_> {
        clocks::preset_frequencies(&self.frequencies);
        let output = std::mem::ManuallyDrop::new(Gpout::new(Peri::new(PIN_21)));
        Line {
            name: "Gpout",
            calls: self.gpout.len(),
            proved: Box::new(|| {
                for &(source, whole, fraction) in &self.gpout {
                    let frequencies = black_box(&self.frequencies);
                    black_box(unsafe {
                        raw::dizbaral_gpout_frequency(RP2040, source, whole, fraction as u16, frequencies)
                    });
                }
            }),
            rust: Box::new(move || {
                for &(source, whole, fraction) in &self.gpout {
                    recorder::set_gpout(source, whole, fraction);
                    black_box(gpout(&output));
                }
            }),
        }
    }

    fn start(&self) -> Line<'_> {
        let (mut numbers, mut kept) = ([0; 15], [0; SHEET_BYTES]);
        let mut runner = Runner::fresh();
        Line {
            name: "start of a runner",
            calls: 1,
            proved: Box::new(move || {
                let (sheet, length) = (self.sheet.as_ptr(), self.sheet.len() as u64);
                black_box(unsafe { raw::dizbaral_start(&mut numbers, &mut kept, black_box(sheet), length) });
                black_box((&numbers, &kept));
            }),
            rust: Box::new(move || {
                black_box(start(&mut runner, black_box(&self.sheet)));
                black_box(&runner);
            }),
        }
    }

    fn runner(&self) -> Line<'_> {
        Line {
            name: "runner, a whole sheet",
            calls: self.sheet.len() / 8 + 1,
            proved: Box::new(|| {
                let (mut runner, mut kept) = ([0; 15], [0; SHEET_BYTES]);
                let (sheet, length) = (self.sheet.as_ptr(), self.sheet.len() as u64);
                black_box(unsafe { raw::dizbaral_start(&mut runner, &mut kept, sheet, length) });
                while black_box(unsafe { raw::dizbaral_run(&mut runner, &kept, sheet, length, true) }) != 0 {}
                black_box(&runner);
            }),
            rust: Box::new(|| {
                let mut runner = Runner::fresh();
                black_box(runner.start(black_box(&self.sheet)));
                while black_box(runner.poll(black_box(&self.sheet), true)) != Reply::Done {}
                black_box(&runner);
            }),
        }
    }

    /// Eight boards in turn, beside as many runners.
    fn bench(&self) -> Line<'_> {
        let calls = self.sheet.len() + 8;
        Line {
            name: "bench, eight whole sheets",
            calls,
            proved: Box::new(move || {
                let (mut bench, mut kept) = ([0; BENCH_NUMBERS], [0; SHEET_BYTES]);
                let (sheet, length) = (self.sheet.as_ptr(), self.sheet.len() as u64);
                black_box(unsafe { raw::dizbaral_bench_start(&mut bench, &mut kept, sheet, length) });
                for call in 0..calls {
                    let board = call as u8 & 7;
                    black_box(unsafe {
                        raw::dizbaral_bench_run(&mut bench, &kept, board, sheet, length, true)
                    });
                }
                black_box(&bench);
            }),
            rust: Box::new(move || {
                let mut runners: [Runner; 8] = std::array::from_fn(|_| Runner::fresh());
                for runner in &mut runners {
                    black_box(runner.start(black_box(&self.sheet)));
                }
                for call in 0..calls {
                    black_box(runners[call & 7].poll(black_box(&self.sheet), true));
                }
                black_box(&runners);
            }),
        }
    }
}

fn search<'a>(name: &'static str, inputs: &'a [(u32, u32)]) -> Line<'a> {
    Line {
        name,
        calls: inputs.len(),
        proved: Box::new(move || {
            for &(input, target) in inputs {
                black_box(unsafe { raw::dizbaral_search(black_box(input), black_box(target)) });
            }
        }),
        rust: Box::new(move || {
            for &(input, target) in inputs {
                black_box(clocks::search(black_box(input), black_box(target)));
            }
        }),
    }
}
