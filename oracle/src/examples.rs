//! The sheets of examples/: those that the published `init` writes, and some damaged or mislabelled ones made of them.

use std::fs;
use std::io;
use std::path::Path;

use crate::clocks::{self, ClockConfig};
use crate::plan;
use crate::recorder;
use crate::rp235x::clocks as rp235x;
use crate::rules;
use crate::steps;

/// The code of 1.10 V, which the regulator holds after a reset.
const RESET_READING: u8 = 11;

/// Where the crystal preset's sheet has its ring divider and the feedback divider of its system PLL: the byte that holds the
/// field's lowest bits, and the bit of it.
const RING_DIVIDER_BIT: (usize, u8) = (11 * 8 + 2, 0x04);
const FEEDBACK_BIT: (usize, u8) = (20 * 8 + 2, 0x40);

/// The bytes of the steps that `init` took, which must be steps that a sheet holds without loss.
fn sheet(reading: u8, init: impl FnOnce()) -> Vec<u8> {
    recorder::start(reading);
    init();
    let record = recorder::finish();
    assert_eq!((record.unknown, record.lost, record.output_writes), (None, None, 0));
    record.steps.iter().flat_map(|step| step.word.to_be_bytes()).collect()
}

fn rp2040(reading: u8, config: ClockConfig) -> Vec<u8> {
    sheet(reading, || unsafe { clocks::init(config) })
}

/// The chip mark comes before the Rust's steps.
fn rp235x(reading: u8, config: rp235x::ClockConfig) -> Vec<u8> {
    let mark = steps::mark().word.to_be_bytes();
    [mark.to_vec(), sheet(reading, || unsafe { rp235x::init(config) })].concat()
}

fn system(hz: u32) -> ClockConfig {
    ClockConfig::system_freq(hz).expect("system_freq never errs")
}

/// The Rust's search at this crystal, and the rule's USB PLL for it.
fn system_from(crystal: u32, hz: u32) -> ClockConfig {
    let sys_pll = clocks::search(crystal, hz).expect("the crystal gives this target");
    let usb_pll = rules::usb_pll(crystal).expect("the crystal gives 48 MHz");
    plan::system_freq_from(crystal, hz, sys_pll, plan::pll(&usb_pll))
}

/// The crystal alone: no ring, no PLL, the system clock from the reference clock, no other clock.
fn crystal_alone() -> ClockConfig {
    let mut config = system(125_000_000);
    let crystal = config.xosc.as_mut().expect("a crystal");
    (crystal.sys_pll, crystal.usb_pll, config.rosc) = (None, None, None);
    config.sys_clk.src = clocks::SysClkSrc::Ref;
    (config.peri_clk_src, config.usb_clk, config.adc_clk, config.rtc_clk) = (None, None, None, None);
    config
}

fn flipped(mut sheet: Vec<u8>, (byte, bit): (usize, u8)) -> Vec<u8> {
    sheet[byte] ^= bit;
    sheet
}

/// Each file's name and bytes.
pub fn files() -> Vec<(&'static str, Vec<u8>)> {
    let preset = || rp2040(RESET_READING, ClockConfig::crystal(12_000_000));
    vec![
        ("rp2040-125mhz.sheet", preset()),
        ("rp2040-133mhz.sheet", rp2040(RESET_READING, system(133_000_000))),
        // 1.15 V are set already.
        ("rp2040-200mhz-reading12.sheet", rp2040(12, system(200_000_000))),
        // At 1.10 V the Rust settles for a shorter time than docs/FORMAT.md says.
        ("rp2040-200mhz-embassy.sheet", rp2040(RESET_READING, system(200_000_000))),
        ("rp2040-8mhz-crystal.sheet", rp2040(RESET_READING, system_from(8_000_000, 125_000_000))),
        ("rp2040-crystal-alone.sheet", rp2040(RESET_READING, crystal_alone())),
        ("rp2040-ring.sheet", rp2040(RESET_READING, ClockConfig::rosc())),
        ("rp235x-150mhz.sheet", rp235x(RESET_READING, rp235x::ClockConfig::crystal(12_000_000))),
        ("rp235x-ring.sheet", rp235x(RESET_READING, rp235x::ClockConfig::rosc())),
        ("rp2040-125mhz-pll-bit.sheet", flipped(preset(), FEEDBACK_BIT)),
        ("rp2040-125mhz-ring-bit.sheet", flipped(preset(), RING_DIVIDER_BIT)),
        ("rp2040-125mhz-short.sheet", preset()[..484].to_vec()),
        ("rp2040-133mhz-wrong.sheet", preset()),
    ]
}

pub fn write(folder: &Path) -> io::Result<bool> {
    fs::create_dir_all(folder)?;
    for (name, bytes) in files() {
        fs::write(folder.join(name), bytes)?;
    }
    Ok(true)
}

#[cfg(test)]
mod tests {
    use super::*;
    use std::collections::BTreeMap;

    #[test]
    fn the_examples_are_these_files_and_no_others() {
        let _alone = crate::tests::alone();
        let folder = Path::new(concat!(env!("CARGO_MANIFEST_DIR"), "/../examples"));
        let paths = fs::read_dir(folder).unwrap().map(|entry| entry.unwrap().path());
        let sheets = paths.filter(|path| path.extension().is_some_and(|ending| ending == "sheet"));
        let named = |path: &Path| path.file_name().unwrap().to_str().unwrap().to_string();
        let held: BTreeMap<String, Vec<u8>> =
            sheets.map(|path| (named(&path), fs::read(&path).unwrap())).collect();
        let made = files().into_iter().map(|(name, bytes)| (name.to_string(), bytes)).collect();
        assert_eq!(held, made);
    }

    /// The two damaged sheets differ from the preset's in the step that their names say.
    #[test]
    fn the_bits_are_those_of_the_dividers() {
        let _alone = crate::tests::alone();
        let files: BTreeMap<_, _> = files().into_iter().collect();
        let word =
            |name: &str, at: usize| u64::from_be_bytes(files[name][at * 8..at * 8 + 8].try_into().unwrap());
        let (ring, feedback) = (RING_DIVIDER_BIT.0 / 8, FEEDBACK_BIT.0 / 8);
        assert_eq!(word("rp2040-125mhz.sheet", ring), 11 << 58 | (0xaa0 + 16) << 42);
        assert_eq!(word("rp2040-125mhz-ring-bit.sheet", ring), 11 << 58 | (0xaa0 + 17) << 42);
        assert_eq!(word("rp2040-125mhz.sheet", feedback), 21 << 58 | 125 << 45);
        assert_eq!(word("rp2040-125mhz-pll-bit.sheet", feedback), 21 << 58 | 127 << 45);
    }
}
