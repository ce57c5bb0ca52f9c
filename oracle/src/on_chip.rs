//! What the published code says to a case of one chip. Stands in each chip's module.

use super::chip;
use super::clocks::{self, ClockConfig, Gpout};
use super::pac;
use super::plan::{self, pll};
use crate::answer::{Answer, run};
use crate::case::Case;
use crate::panics::{Panic, catch};
use crate::peripherals::PIN_21;
use crate::recorder::Record;
use crate::rules;
use crate::sheet;
use crate::standins::Peri;
use crate::steps;
use crate::text::{call, refused};

pub fn answer(case: &Case) -> Answer {
    let n = &case.numbers;
    match case.name {
        "voltage" => voltage(n[1]),
        "gpout" => gpout(&n[1..]),
        "sheet" => sheet(n[0], || plan::config(case.plan())),
        "crystal" => says(|| ClockConfig::crystal(n[1])),
        "rosc" => says(ClockConfig::rosc),
        "default" => says(ClockConfig::default),
        "system" => says(|| ClockConfig::system_freq(n[1]).expect("system_freq never errs")),
        "system_from" => system_from(n[1], n[2]),
        name => unreachable!("{name} names no chip"),
    }
}

/// CHIP PLAN. Only `manual_pll` panics before there is a plan.
pub fn says(config: impl FnOnce() -> ClockConfig) -> Answer {
    match catch(config) {
        Ok(config) => Answer::Says(call(chip::CHIP, &plan::numbers(&config), &[])),
        Err(Panic::Published) => Answer::Panic(vec![5]),
        Err(Panic::Elsewhere(place)) => Answer::Unknown(place),
    }
}

/// The Rust's search and its plan with the rule's USB PLL.
fn system_from(crystal: u32, hz: u32) -> Answer {
    if crystal < rules::MINIMUM {
        return Answer::Ruled(refused(15));
    }
    match (clocks::search(crystal, hz), rules::usb_pll(crystal)) {
        (None, _) => Answer::Refused(15),
        (_, None) => Answer::Ruled(refused(25)),
        (Some(sys), Some(usb)) => says(|| plan::system_freq_from(crystal, hz, sys, pll(&usb))),
    }
}

fn reading_held(reading: u32) -> Option<u8> {
    (reading <= chip::READINGS).then_some(reading as u8)
}

fn voltage(reading: u32) -> Answer {
    let Some(reading) = reading_held(reading) else {
        return Answer::Drops(18);
    };
    match run(reading, clocks::core_voltage) {
        (_, Record { unknown: Some(what), .. }) => Answer::Unknown(what),
        (Some(Ok(voltage)), _) => {
            Answer::Says(format!("{} {}", voltage as u8, clocks::brownout_level(voltage)))
        }
        (Some(Err(_)), _) => Answer::Refused(18),
        (None, _) => Answer::Panic(vec![18]),
    }
}

/// SOURCE WHOLE FRACTION F0 to F9.
fn gpout(n: &[u32]) -> Answer {
    // The field of the source has 4 bits.
    if n[0] > 15 || n[1] as u64 >> chip::GPOUT_BITS != 0 {
        return Answer::Drops(23);
    }
    clocks::preset_frequencies(n[3..13].try_into().unwrap());
    let (hz, record) = run(0, || {
        let output = Gpout::new(Peri::new(PIN_21));
        output.set_div(n[1] as _, n[2] as _);
        match chip::gpout_source(n[0]) {
            Some(source) => output.set_src(source),
            // No source of the code's own: straight into the register.
            None => pac::CLOCKS
                .clk_gpout_ctrl(0)
                .modify(|w| w.set_auxsrc(pac::clocks::vals::ClkGpoutCtrlAuxsrc::from_bits(n[0] as u8))),
        }
        output.get_freq()
    });
    match (hz, record) {
        (_, Record { unknown: Some(what), .. }) => Answer::Unknown(what),
        (_, record) if !record.steps.is_empty() => Answer::Unknown("steps at a clock output".to_string()),
        (None, _) => Answer::Panic(vec![23]),
        (Some(_), Record { lost: Some(number), .. }) => Answer::Drops(number),
        (Some(hz), _) => Answer::Says(hz.to_string()),
    }
}

/// The steps of `init`, for the RP235x behind the chip mark.
fn sheet(reading: u32, config: impl Fn() -> ClockConfig) -> Answer {
    let run = |fraction: bool| {
        let mut config = config();
        let cuts = chip::cuts(&config);
        if !fraction {
            config.sys_clk.div_frac = 0;
        }
        sheet::sheet(reading_held(reading), cuts, move || unsafe { clocks::init(config) })
    };
    let mut answer = run(true);
    if chip::CHIP == 1 {
        // Its fraction of 256ths can leave no frequency where the datasheet's leaves one: then it is run without a fraction.
        if answer == Answer::Panic(vec![]) {
            answer = run(false);
        }
        if let Answer::Sheet(steps) | Answer::Settled(steps) | Answer::Scaled(steps) = &mut answer {
            steps.insert(0, steps::mark());
        }
    }
    answer
}
