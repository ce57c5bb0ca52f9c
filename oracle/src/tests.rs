//! Worked rows of docs/FORMAT.md, and that the stand-in says what it does not know.

use std::sync::{Mutex, MutexGuard, Once, PoisonError};

use crate::answer::{Answer, answer, answer_line};
use crate::book;
use crate::case::Case;
use crate::compare::{Class, class, compare};
use crate::cortex_m::asm::delay;
use crate::generate;
use crate::limits;
use crate::load;
use crate::pac::values::clocks::{ClkRefCtrlAuxsrc, ClkRefCtrlSrc, ClkSysCtrlSrc};
use crate::pac::{self, fields};
use crate::plan;
use crate::plan_numbers::at;
use crate::recorder::{self, Record};
use crate::reset;
use crate::rules;

/// The ten frequencies are shared: tests that run the published code come one after another.
pub fn alone() -> MutexGuard<'static, ()> {
    static INSTALLED: Once = Once::new();
    INSTALLED.call_once(crate::panics::install);
    static ALONE: Mutex<()> = Mutex::new(());
    ALONE.lock().unwrap_or_else(PoisonError::into_inner)
}

fn record(code: impl FnOnce()) -> Record {
    recorder::start(11);
    let _ = std::panic::catch_unwind(std::panic::AssertUnwindSafe(code));
    recorder::finish()
}

fn kinds(record: &Record) -> Vec<u8> {
    record.steps.iter().map(|step| step.kind).collect()
}

/// A preset's sheet.
fn sheet_case(preset: &str, reading: u32, room: u32) -> Case {
    Case::parse(&format!("sheet {reading} {room} {}", answer_line(preset))).unwrap()
}

fn sheet_of(preset: &str, reading: u32) -> Answer {
    answer(&sheet_case(preset, reading, 528))
}

#[test]
fn worked_values() {
    let _alone = alone();
    let rows = [
        ("search 12000000 125000000", "1 125 6 2"),
        ("search 12000000 133000001", "1 133 6 2"),
        ("search 12000000 200000000", "1 100 6 1"),
        ("search 12000000 0", "1 63 7 7"),
        ("search 2343749 125000000", "refused 15"),
        ("search 100000001 125000000", "refused 15"),
        ("valid 5000000 1 150 1 1", "1"),
        ("valid 5000000 1 149 1 1", "0"),
        // docs/DIFFERENCES.md.
        ("valid 50000000 1 106 1 1", "panic"),
        ("gpout 0 0 0 0 0 0 131070000 0 0 0 0 0 0 0", "2000"),
        ("pio 125000000 100000000", "drops 17"),
        ("pio 124999999 125000000", "panic"),
        ("manual 12000000 1 321 6 2 11", "panic"),
        ("voltage 0 5", "refused 18"),
        ("voltage 0 6", "6 5"),
        ("list 12000000 125000000 1024", "4 3ee43ec6"),
        ("list 12000000 125000000 3", "refused 19"),
        ("list 12000000 125000001 0", "0"),
        ("list 3000000 125000000 1024", "0"),
        ("margin 4999999 125000000", "refused 15"),
        ("margin 100000001 125000000", "refused 15"),
        ("margin 12000000 0", "4294967296 15551020"),
        ("margin 12000000 4294967295", "1589999999 4294967296"),
        ("system_from 0 4999999 125000000", "refused 15"),
        ("system_from 1 100000001 125000000", "refused 15"),
        ("system_from 0 11000000 125000000", "refused 25"),
        ("wait 999999", "10000056"),
        ("wait 1000000", "4294967295"),
    ];
    for (case, answer) in rows {
        assert_eq!(answer_line(case), answer, "{case}");
    }
}

#[test]
fn crystal_preset_has_62_steps() {
    let _alone = alone();
    let sheet = sheet_of("crystal 0 12000000", 11).to_string();
    assert!(sheet.starts_with("496 05f79b7e00000000"));
    // Startup delay 6000, then the RTC at 46875 Hz and the release of all 25.
    assert!(sheet.contains(&format!("{:016x}", 16u64 << 58 | 6000u64 << 44)));
    assert!(sheet.ends_with(&format!(
        "{:016x}{:016x}{:016x}",
        37u64 << 58 | 9u64 << 54 | 46_875u64 << 22,
        2u64 << 58 | 0x1ff_ffffu64 << 33,
        3u64 << 58 | 0x1ff_ffffu64 << 33
    )));
}

#[test]
fn stored_values_of_125_mhz() {
    let _alone = alone();
    let steps = sheet_of("system 0 125000000", 11).steps().unwrap();
    let stored: Vec<(u32, u32)> = steps.iter().filter_map(|step| step.stored()).collect();
    let hz = [6_500_000, 12_000_000, 125_000_000, 48_000_000, 12_000_000];
    let more = [125_000_000, 125_000_000, 48_000_000, 48_000_000, 46_875];
    assert_eq!(stored, (0..10).zip(hz.into_iter().chain(more)).collect::<Vec<_>>());
}

/// The crystal preset with 1.15 V, a settling time and a ring of these hertz, or none.
fn settling_case(time: u32, ring: Option<u32>) -> Case {
    let mut plan = limits::crystal_plan(0);
    plan[at::VOLTAGE..at::REFERENCE].copy_from_slice(&[12, 1, time]);
    match ring {
        Some(hz) => plan[at::RING + 1] = hz,
        None => plan[at::RING..at::CRYSTAL].fill(0),
    }
    Case::sheet(11, 520, 0, &plan)
}

#[test]
fn settling_is_the_rules() {
    let _alone = alone();
    let rows = [
        (1, Some(6_500_000), Some(7)),
        (1000, Some(6_500_000), Some(7000)),
        (1000, Some(6_000_001), Some(7000)),
        (1, Some(1), Some(1)),
        (1, Some(0), Some(12)),
        (1, None, Some(12)),
        (357_913_941, None, Some(4_294_967_292)),
        (357_913_942, None, None),
        (613_566_756, Some(6_500_000), Some(4_294_967_292)),
        (613_566_757, Some(6_500_000), None),
    ];
    for (time, ring, cycles) in rows {
        let case = settling_case(time, ring);
        match (answer(&case), cycles) {
            (Answer::Settled(steps), Some(cycles)) => {
                let at = steps.iter().position(|step| step.kind == 13).unwrap() + 1;
                assert_eq!(steps[at].word, 14 << 58 | cycles << 26, "{time} {ring:?}");
            }
            (Answer::Drops(3), None) => {}
            (other, _) => panic!("{time} {ring:?}: {other}"),
        }
    }
    // Where the ring's MHz are whole, the Rust is right; where its own product overflows, it panics.
    assert!(matches!(answer(&settling_case(1, Some(7_000_000))), Answer::Sheet(_)));
    assert_eq!(answer(&settling_case(u32::MAX, Some(2_000_000))), Answer::Panic(vec![3]));
}

#[test]
fn a_shorter_settling_delay_is_a_finding() {
    let _alone = alone();
    let case = sheet_case("system 0 133000001", 11, 520);
    let rust = answer(&case);
    let ours = rust.to_string();
    assert_eq!(class(&case, &rust, &ours), Some(Class::SameSettling));
    let (settled, shorter) =
        (format!("{:016x}", 14u64 << 58 | 7000 << 26), format!("{:016x}", 14u64 << 58 | 6000 << 26));
    assert!(ours.contains(&settled));
    assert_eq!(class(&case, &rust, &ours.replace(&settled, &shorter)), None);
}

#[test]
fn another_crystal_is_the_crystal_presets_own_at_12_mhz() {
    let _alone = alone();
    for hz in [125_000_000, 133_000_000, 133_000_001, 48_000_000, 0] {
        let plan = answer_line(&format!("system 0 {hz}"));
        assert_eq!(answer_line(&format!("system_from 0 12000000 {hz}")), plan);
    }
    let steps = sheet_of("system_from 0 8000000 125000000", 11).steps().unwrap();
    let stored: Vec<u32> = steps.iter().filter_map(|step| step.stored()).map(|(_, hz)| hz).collect();
    let frequencies = [6_500_000, 8_000_000, 125_000_000, 48_000_000, 8_000_000, 125_000_000];
    assert_eq!(stored[..6], frequencies);
}

#[test]
fn every_usb_pll_is_valid_and_gives_48_mhz() {
    for crystal in (5_000_000..=100_000_000).step_by(250_000) {
        if let Some(dividers) = rules::usb_pll(crystal) {
            let pll = plan::pll(&dividers);
            assert!(pll.is_valid(crystal) && crystal.is_multiple_of(dividers[0]), "{crystal}");
            assert_eq!(pll.output_frequency(crystal), 48_000_000);
        }
    }
}

#[test]
fn the_book_has_every_setting_once_and_the_search_finds_the_first_of_an_output() {
    let entries = book::by_output(book::INPUT);
    assert_eq!(entries.len(), 1988);
    assert!(book::text().starts_with("15428571 63 7 7\n"));
    let mut settings: Vec<rules::Setting> = entries.iter().map(|&(_, setting)| setting).collect();
    settings.sort();
    settings.dedup();
    assert_eq!(settings.len(), 1988);
    let firsts = entries.chunk_by(|one, other| one.0 == other.0).map(|equal| equal[0]);
    for (output, (feedback, post1, post2)) in firsts {
        assert_eq!(answer_line(&format!("book {output}")), format!("1 {feedback} {post1} {post2}"));
    }
}

/// Going step by step until the setting changes gives the same edges, where they are near.
#[test]
fn margins_are_those_of_single_steps() {
    let _alone = alone();
    let near_edges = [
        (12_000_000, 15_551_020),
        (12_000_000, 125_071_400),
        (9_999_991, 77_638_900),
        (9_999_991, 77_817_300),
    ];
    for (input, target) in near_edges {
        let setting = answer_line(&format!("search {input} {target}"));
        let differs = |target: &u32| answer_line(&format!("search {input} {target}")) != setting;
        let near = 200;
        let lower = (target - near..target).rev().find(differs);
        let higher = (target + 1..target + near).find(differs);
        let margin = answer_line(&format!("margin {input} {target}"));
        let edges: Vec<u32> = margin.split(' ').map(|edge| edge.parse().unwrap()).collect();
        let is = |edge: u32, found: Option<u32>| {
            found.map_or(edge.abs_diff(target) >= near, |found| edge == found)
        };
        assert!(
            is(edges[0], lower) && is(edges[1], higher),
            "{input} {target}: {margin}, {lower:?} {higher:?}"
        );
    }
}

#[test]
fn a_load_is_both_trials() {
    let _alone = alone();
    let rows = [
        ("0 1\n", "84 1 1\n1 0\n"),
        ("0 0", "0 0\n"),
        ("0 10001\n", "refused 31\n"),
        ("x 10001\n", "refused 24\n"),
        ("1  1\n", "refused 24\n"),
        ("4294967296 1\n", "refused 24\n"),
    ];
    for (input, output) in rows {
        assert_eq!(load::output(input), output, "{input}");
    }
    // Past the last step the runner stays, and each unready wait was counted.
    let long = load::output("7 300");
    assert_eq!(long.lines().count(), 301);
    assert!(long.ends_with("\n62 14\n"), "{long}");
}

#[test]
fn differences_and_findings() {
    let _alone = alone();
    let class = |case: &str, ours: &str| {
        let case = Case::parse(case).unwrap();
        class(&case, &answer(&case), ours)
    };
    let (pio, gpout) = ("pio 125000000 100000000", "gpout 0 0 0 0 0 0 131070000 0 0 0 0 0 0 0");
    let rows = [
        (pio, "320", Some(Class::PioShift)),
        (pio, "refused 17", None),
        ("pio 16777217 1", "refused 17", Some(Class::Loses(17))),
        ("pio 1 0", "refused 17", Some(Class::Panics(17))),
        (gpout, "1999", Some(Class::GpoutWhole0)),
        (gpout, "2000", None),
        ("valid 50000000 1 106 1 1", "0", Some(Class::ExactVco)),
        ("valid 50000000 1 106 1 1", "1", None),
        ("voltage 0 5", "refused 18", Some(Class::Same)),
        ("voltage 0 16", "0 4", None),
        ("list 12000000 125000000 1024", "4 3ee43ec6", Some(Class::SameByRule("list"))),
        ("list 12000000 125000000 1024", "4 3ec63ee4", None),
        ("search 4999999 125000000", "refused 15", Some(Class::UnderMinimum)),
        ("search 4999999 125000000", "1 300 6 2", None),
        ("search 2343749 125000000", "refused 15", Some(Class::Same)),
        ("search 5000000 125000000", "refused 15", None),
        ("system_from 0 4999999 125000000", "refused 15", Some(Class::SameByRule("system_from"))),
        ("system_from 0 100000001 125000000", "refused 15", Some(Class::Same)),
        ("system_from 0 11000000 125000000", "refused 25", Some(Class::SameByRule("system_from"))),
        ("manual 12000000 1 321 6 2 11", "refused 5", Some(Class::Panics(5))),
        ("usb_pll 4999999", "refused 25", Some(Class::SameByRule("usb_pll"))),
        ("usb_pll 12000000", "1 60 5 3", None),
    ];
    for (case, ours, expected) in rows {
        assert_eq!(class(case, ours), expected, "{case}: {ours}");
    }
    let sheets = [
        ("crystal 0 12000000", 11, 495, "refused 19", Some(Class::Room)),
        ("crystal 0 12000000", 11, 496, "refused 19", None),
        ("crystal 0 12000000", 16, 520, "refused 18", Some(Class::Loses(18))),
        ("default 0", 11, 520, "refused 8", Some(Class::Panics(8))),
        ("default 0", 11, 520, "refused 7", None),
        ("default 0", 11, 520, "refused 9", None),
    ];
    for (preset, reading, room, ours, expected) in sheets {
        assert_eq!(class(&sheet_case(preset, reading, room).text(), ours), expected, "{preset}: {ours}");
    }
}

#[test]
fn a_missing_program_is_named() {
    let error = compare(generate::lines(1, 1), "no-such-program").unwrap_err();
    assert!(error.to_string().starts_with("no-such-program: "), "{error}");
}

#[test]
fn the_list_has_its_order() {
    for (input, target) in [(12_000_000, 48_000_000), (5_000_000, 50_000_000), (100_000_000, 400_000_000)] {
        let list = answer_line(&format!("list {input} {target} 1024"));
        let hex = list.split(' ').nth(1).unwrap();
        let word = |at: usize| u32::from_str_radix(&hex[at..at + 4], 16).unwrap();
        let settings: Vec<u32> = (0..hex.len()).step_by(4).map(word).collect();
        // With the bits of both posts turned over, the words rise.
        let keys: Vec<u32> = settings.iter().map(|setting| setting ^ 0x7e).collect();
        assert!(keys.is_sorted() && keys.len() > 1, "{list}");
    }
}

#[test]
fn a_release_clears_its_mask_alone() {
    let done = record(|| reset::unreset_wait(fields::Peripherals(0x3000)));
    assert_eq!((kinds(&done), done.unknown), (vec![2, 3], None));
    let words: Vec<u64> = done.steps.iter().map(|step| step.word).collect();
    assert_eq!(words, [2u64 << 58 | 0x3000 << 33, 3u64 << 58 | 0x3000 << 33]);
}

#[test]
fn a_wait_for_more_or_less_is_said() {
    let release = || pac::RESETS.reset().modify(|w| *w = fields::Peripherals(w.0 & !0x3000));
    let less = record(|| {
        release();
        while !pac::RESETS.reset_done().read().0 & 0x1000 != 0 {}
        delay(1);
    });
    assert!(less.unknown.is_some());
    let more = record(|| {
        release();
        while !pac::RESETS.reset_done().read().0 & 0x7000 != 0 {}
    });
    assert!(more.unknown.is_some());
    let other = record(|| {
        pac::CLOCKS.clk_sys_ctrl().modify(|w| w.set_src(ClkSysCtrlSrc::CLK_REF));
        while pac::CLOCKS.clk_sys_selected().read() != 2 {}
    });
    assert!(other.unknown.is_some());
    let none = record(|| {
        pac::XOSC.status().read();
    });
    assert!(none.unknown.is_some());
}

#[test]
fn a_write_that_is_no_step_is_said() {
    let aux = record(|| pac::CLOCKS.clk_ref_ctrl().write(|w| w.set_auxsrc(ClkRefCtrlAuxsrc::CLKSRC_GPIN0)));
    assert!(aux.unknown.is_some());
    let both = record(|| {
        pac::CLOCKS.clk_ref_ctrl().modify(|w| {
            w.set_src(ClkRefCtrlSrc::XOSC_CLKSRC);
            w.set_auxsrc(ClkRefCtrlAuxsrc::CLKSRC_PLL_USB);
        });
    });
    assert!(both.unknown.is_some());
    let disabled = record(|| pac::WATCHDOG.tick().write(|w| w.set_cycles(12)));
    assert!(disabled.unknown.is_some());
    let lost = record(|| pac::WATCHDOG.tick().write(|w| w.set_cycles(512)));
    assert_eq!(lost.lost, Some(8));
}
