//! Reads the published sources, cuts out what is not compared, and replaces `use` lines.
//!
//! Only whole lines are taken out or replaced; every function that stays, stays word for word. A second copy of each file has
//! the lines of the RP235x in place of those of the RP2040.

use std::path::{Path, PathBuf};
use std::{env, fs};

const FOLDER: &str = "EMBASSY_RP";
const FOLDER_IS: &str = "the folder of embassy-rp 0.10.0, the one that holds src/clocks.rs";

/// From the line with the first text up to the line with the second one (or the end) is taken out.
const CUTS: [(&str, Option<&str>); 2] = [
    // gpin
    ("General purpose input", Some("clock output pin")),
    // random numbers and dormant sleep
    ("RANDOMBIT", None),
];

/// Dormant sleep stands alone: from the line with the first text up to the one with the second, which powers down
/// memory and enters dormant mode. This stands there instead.
const SLEEP: (&str, &str) = ("pub fn dormant_sleep()", "only power down memory if");
const ASLEEP: &str = "    crate::sleep::asleep();\n}\n";

/// The line with the first text becomes the second one.
const CLOCKS_USES: [(&str, &str); 6] = [
    ("use core::arch", ""),
    ("use core::marker", ""),
    ("atomic::AtomicU16", "use crate::atomics::AtomicU16;"),
    ("atomic::{AtomicU32", "use crate::{atomics::{AtomicU32, Ordering}, cortex_m};"),
    ("use crate::gpio", "use crate::gpio::SealedPin;"),
    ("use crate::pac::common", ""),
];

const DIVIDER_USES: [(&str, &str); 1] = [("use fixed", "use crate::fixed::{self, types::extra::U8};")];

/// The second copy: which lines are a chip's goes by `cfg`, and both chips stand in one program, each with a root of its own.
const RP235X: [(&str, &str); 3] = [
    ("cfg(feature = \"rp2040\")", "cfg(any())"),
    ("cfg(feature = \"_rp235x\")", "cfg(all())"),
    ("crate::", "crate::rp235x::"),
];

fn main() {
    println!("cargo::rerun-if-env-changed={FOLDER}");
    println!("cargo::rerun-if-changed=build.rs");
    println!("cargo::rustc-check-cfg=cfg(feature, values(\"_rp235x\", \"defmt\"))");

    let out = PathBuf::from(env::var("OUT_DIR").unwrap());
    if let Err(why) = folder().and_then(|folder| prepare_all(&folder, &out)) {
        println!("cargo::error={why}");
    }
}

fn folder() -> Result<PathBuf, String> {
    let Some(folder) = env::var_os(FOLDER).map(PathBuf::from) else {
        return Err(format!("{FOLDER} is not set: it has to be the absolute path of {FOLDER_IS}"));
    };
    if folder.is_relative() || !folder.join("src/clocks.rs").is_file() {
        return Err(format!("{FOLDER} is {}: not the absolute path of {FOLDER_IS}", folder.display()));
    }
    Ok(folder)
}

fn prepare_all(folder: &Path, out: &Path) -> Result<(), String> {
    prepare(&folder.join("src/clocks.rs"), &CUTS, &CLOCKS_USES, &out.join("clocks.rs"))?;
    take_sleep(&folder.join("src/clocks.rs"), &out.join("sleep.rs"))?;
    prepare(&folder.join("src/reset.rs"), &[], &[], &out.join("reset.rs"))?;
    let divider = folder.join("src/pio_programs/clock_divider.rs");
    prepare(&divider, &[], &DIVIDER_USES, &out.join("clock_divider.rs"))
}

fn take_sleep(path: &Path, out: &Path) -> Result<(), String> {
    let text = read(path)?;
    let lines: Vec<&str> = text.lines().collect();
    let (start, end) = (only(&lines, SLEEP.0, path)?, only(&lines, SLEEP.1, path)?);
    write(out, &(lines[start..end].join("\n") + "\n" + ASLEEP))
}

fn read(path: &Path) -> Result<String, String> {
    println!("cargo::rerun-if-changed={}", path.display());
    fs::read_to_string(path).map_err(|why| format!("{}: {why}", path.display()))
}

fn write(path: &Path, text: &str) -> Result<(), String> {
    fs::write(path, text).map_err(|why| format!("{}: {why}", path.display()))
}

fn prepare(
    path: &Path,
    cuts: &[(&str, Option<&str>)],
    uses: &[(&str, &str)],
    out: &Path,
) -> Result<(), String> {
    let text = read(path)?;
    // A file that is included has no inner documentation.
    let mut lines: Vec<&str> = text.lines().filter(|line| !line.starts_with("//!")).collect();
    for (first, next) in cuts {
        let start = only(&lines, first, path)?;
        let end = next.map_or(Ok(lines.len()), |next| only(&lines, next, path))?;
        lines.drain(start..end);
    }
    for (old, new) in uses {
        let at = only(&lines, old, path)?;
        lines[at] = new;
    }
    let text = lines.join("\n") + "\n";
    let second = RP235X.iter().fold(text.clone(), |text, (rp2040, rp235x)| text.replace(rp2040, rp235x));
    let beside = out.with_file_name(format!("rp235x_{}", out.file_name().unwrap().display()));
    for (path, text) in [(out, text), (&beside, second)] {
        fs::write(path, text).map_err(|why| format!("{}: {why}", path.display()))?;
    }
    Ok(())
}

/// The number of the one line with this text in it.
fn only(lines: &[&str], text: &str, path: &Path) -> Result<usize, String> {
    let mut found = lines.iter().enumerate().filter(|(_, line)| line.contains(text));
    match (found.next(), found.next()) {
        (Some((at, _)), None) => Ok(at),
        _ => Err(format!("{}: `{text}` does not stand there in exactly one line", path.display())),
    }
}
