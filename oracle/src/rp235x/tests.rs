//! The RP235x's facts of docs/FORMAT.md, and that the stand-in says what it does not know.

use super::{cortex_m, pac, reset};
use crate::answer::{answer, answer_line};
use crate::case::Case;
use crate::compare::{Class, class};
use crate::limits;
use crate::plan_numbers::at;
use crate::recorder::{self, Record};
use crate::steps::Step;
use crate::tests::alone;

fn record(code: impl FnOnce()) -> Record {
    recorder::start(11);
    let _ = std::panic::catch_unwind(std::panic::AssertUnwindSafe(code));
    recorder::finish()
}

fn steps(case: &Case) -> Vec<Step> {
    answer(case).steps().unwrap_or_else(|| panic!("{}", case.text()))
}

/// The crystal preset with these numbers in other places.
fn sheet(reading: u32, edits: &[(usize, u32)]) -> Case {
    let mut plan = limits::crystal_plan(1);
    edits.iter().for_each(|&(place, value)| plan[place] = value);
    Case::sheet(reading, 528, 1, &plan)
}

#[test]
fn the_crystal_preset_has_63_steps() {
    let _alone = alone();
    let steps = steps(&sheet(11, &[]));
    assert_eq!(steps.len(), 63);
    let words: Vec<u64> = steps.iter().map(|step| step.word).collect();
    assert_eq!(words[..2], [38 << 58, 1 << 58 | 0x1ef_3b7f << 33]);
    assert_eq!(words[7..10], [1u64, 2, 3].map(|kind| kind << 58 | 0xc000 << 33));
    // All clocks are there: 24 ones.
    assert_eq!(words[61..], [2u64, 3].map(|kind| kind << 58 | 0x1ff_fff7 << 33));
    let stored: Vec<(u32, u32)> = steps.iter().filter_map(|step| step.stored()).collect();
    let hz = [6_500_000, 12_000_000, 150_000_000, 48_000_000, 12_000_000];
    let more = [150_000_000, 150_000_000, 48_000_000, 48_000_000];
    assert_eq!(stored, (0..9).zip(hz.into_iter().chain(more)).collect::<Vec<_>>());
    let tick: Vec<u64> = words.iter().copied().filter(|word| (39..=42).contains(&(word >> 58))).collect();
    assert_eq!(tick, [39 << 58 | 12 << 49, 40 << 58, 41 << 58 | 12 << 49, 42 << 58]);
}

#[test]
fn the_preset_is_its_plan() {
    let _alone = alone();
    let plan = limits::crystal_plan(1).iter().fold("1".to_string(), |text, n| format!("{text} {n}"));
    assert_eq!(answer_line("crystal 1 12000000"), plan);
    assert_eq!(answer_line("system 1 150000000"), plan);
}

#[test]
fn the_longest_sheet_has_66_steps() {
    let _alone = alone();
    let case = sheet(0, &[(at::VOLTAGE, 15), (at::SETTLING, 1), (at::SETTLING + 1, 1)]);
    assert_eq!(steps(&case).len(), 66);
}

#[test]
fn absent_clocks_are_not_released() {
    let _alone = alone();
    let absent = |edits: &[(usize, u32)]| steps(&sheet(11, edits)).pop().unwrap().word >> 33 & 0x1ff_ffff;
    assert_eq!(absent(&[(at::PERIPHERAL, 0)]), 0x1f3_fff7);
    let [usb, adc] = [at::USB, at::ADC].map(|part| absent(&[(part, 0), (part + 2, 0)]));
    assert_eq!((usb, adc), (0x1ff_fff7, 0x1ff_fff6));
}

#[test]
fn limits_and_differences() {
    let _alone = alone();
    let class = |case: &Case, ours: &str| class(case, &answer(case), ours);
    let settled = |edits: &[(usize, u32)]| answer(&sheet(11, edits)).to_string();
    // The ring at 2 Hz over 1 + 257/65536 for all but the PLLs.
    let slow = [(1, 2), (at::REFERENCE, 0), (at::SYSTEM, 3), (at::SYSTEM + 2, 257)];
    // 1 Hz over a little more than 1 is 0 Hz, also where a later clock has no source.
    let still = [(1, 1), (at::SYSTEM, 3), (at::SYSTEM + 2, 1)];
    let no_usb_pll = [0, 1, 2, 3, 4].map(|place| (at::USB_PLL + place, 0));
    let still = [still.as_slice(), &no_usb_pll].concat();
    let rows = [
        (sheet(11, &still), "refused 10".to_string(), Some(Class::Panics(10))),
        (sheet(11, &still), "refused 12".to_string(), None),
        (sheet(11, &[(11, 22_015)]), settled(&[(11, 22_015)]), Some(Class::Same)),
        (sheet(11, &[(11, 22_016)]), "refused 2".to_string(), Some(Class::Panics(2))),
        (sheet(31, &[]), answer(&sheet(31, &[])).to_string(), Some(Class::Same)),
        (sheet(32, &[]), "refused 18".to_string(), Some(Class::Loses(18))),
        (sheet(11, &[(at::SYSTEM + 1, 0)]), "refused 9".to_string(), Some(Class::Panics(9))),
        (
            sheet(11, &[(at::SYSTEM + 1, 0), (at::SYSTEM + 2, 1)]),
            "refused 9".to_string(),
            Some(Class::Loses(9)),
        ),
        (sheet(11, &[(at::SYSTEM + 1, 65_535)]), settled(&[(at::SYSTEM + 1, 65_535)]), Some(Class::Same)),
        (sheet(11, &slow), settled(&slow), Some(Class::SameScale)),
        (sheet(11, &slow), "refused 10".to_string(), None),
        (sheet(11, &[(1, 512_000_000), (at::REFERENCE, 0)]), "refused 8".to_string(), Some(Class::Loses(8))),
    ];
    for (case, ours, expected) in rows {
        assert_eq!(class(&case, &ours), expected, "{}: {ours}", case.text());
    }
}

#[test]
fn a_fraction_is_of_65536ths() {
    let _alone = alone();
    let stored = |source: u32, whole: u32, fraction: u32| {
        let edits = [(1, source), (at::SYSTEM, 3), (at::SYSTEM + 1, whole), (at::SYSTEM + 2, fraction)];
        let steps = steps(&sheet(11, &edits));
        let divider = steps.iter().find(|step| step.kind == 45).unwrap().word << 6 >> 32;
        assert_eq!(divider, (whole << 16 | fraction) as u64);
        let hz = |clock| steps.iter().find_map(|step| step.stored().filter(|s| s.0 == clock)).unwrap().1;
        assert_eq!(hz(5), hz(6));
        hz(5)
    };
    assert_eq!(stored(140_000_000, 1, 32_768), 93_333_333);
    assert_eq!(stored(3, 1, 129), 2);
    assert_eq!(stored(2, 1, 257), 1);
    assert_eq!(stored(2, 1, 65_535), 1);
}

#[test]
fn outputs_are_the_datasheets() {
    let _alone = alone();
    let frequencies = "1 2 3 4 5 6 7 8 9 0";
    for (source, hz) in [(0, 3), (3, 4), (5, 1), (6, 2), (8, 6), (9, 8), (10, 9), (11, 5)] {
        assert_eq!(answer_line(&format!("gpout 1 {source} 1 0 {frequencies}")), hz.to_string());
    }
    for source in [1, 2, 4, 7, 12, 13, 14, 15] {
        assert_eq!(answer_line(&format!("gpout 1 {source} 1 0 {frequencies}")), "panic");
    }
    let class = |line: &str, ours: &str| {
        let case = Case::parse(line).unwrap();
        class(&case, &answer(&case), ours)
    };
    let fraction = "gpout 1 0 1 257 0 0 2 0 0 0 0 0 0 0";
    assert_eq!((class(fraction, "1"), class(fraction, "0")), (Some(Class::GpoutScale), None));
    let whole_0 = "gpout 1 0 0 0 0 0 65535 0 0 0 0 0 0 0";
    assert_eq!((class(whole_0, "0"), class(whole_0, "1")), (Some(Class::GpoutWhole0), None));
    let whole_over = "gpout 1 0 65536 0 0 0 1 0 0 0 0 0 0 0";
    assert_eq!((class(whole_over, "refused 23"), class(whole_over, "0")), (Some(Class::Loses(23)), None));
}

#[test]
fn the_power_registers_want_their_password() {
    let vreg = |password: u32| {
        record(|| {
            pac::POWMAN.vreg().modify(|w| {
                w.0 = w.0 & 0xffff | password << 16;
                w.set_vsel(12);
            })
        })
    };
    assert_eq!(vreg(0x5afe).steps.len(), 1);
    assert!(vreg(0).unknown.is_some());
    assert!(record(|| pac::POWMAN.bod().write(|w| w.set_en(true))).unknown.is_some());
    assert!(record(|| pac::TICKS.timer0_ctrl().write(|w| w.set_enable(false))).unknown.is_some());
    let other = record(|| {
        reset::reset(reset::Peripherals(1 << 28));
        cortex_m::asm::delay(1);
    });
    assert!(other.unknown.is_some());
}
