//! Reading a sheet back by the papers: of each kind the first step is taken, and the plan made of them has to be written
//! to exactly these bytes by the Rust.

use crate::answer::answer;
use crate::case::Case;
use crate::plan_numbers;
use crate::read::smallest;
use crate::rules;
use crate::text::refused;

const ROOM: u32 = 528;

pub fn words(bytes: &[u8]) -> Vec<u64> {
    bytes.chunks_exact(8).map(|eight| u64::from_be_bytes(eight.try_into().unwrap())).collect()
}

/// The chip and the plan of a sheet at a reading.
pub fn read(bytes: &[u8], reading: u32) -> String {
    let words = words(bytes);
    // The six kind bits of the first step tell the chip, whatever its spare bits.
    let sheet = Sheet { rp235x: words.first().is_some_and(|word| word >> 58 == 38), words };
    if reading > if sheet.rp235x { 31 } else { 15 } {
        return refused(18);
    }
    let case = sheet.plan(reading).map(|plan| sheet.case(reading, &plan)).filter(Case::well_formed);
    let steps = case.as_ref().and_then(|case| answer(case).steps()).unwrap_or_default();
    let same = bytes.len().is_multiple_of(8)
        && !steps.is_empty()
        && steps.iter().map(|step| step.word).eq(sheet.words.iter().copied());
    case.filter(|_| same).map_or(refused(26), |case| smallest(&case))
}

struct Sheet {
    rp235x: bool,
    words: Vec<u64>,
}

fn field(word: u64, above: u32, width: u32) -> u32 {
    (word << (6 + above) >> (64 - width)) as u32
}

impl Sheet {
    /// A field of the first step of this kind.
    fn first(&self, kind: u64, above: u32, width: u32) -> Option<u32> {
        self.words.iter().find(|&&word| word >> 58 == kind).map(|&word| field(word, above, width))
    }

    /// The same of a step whose first field is this.
    fn of(&self, kind: u64, which: (u32, u32), above: u32, width: u32) -> Option<u32> {
        let fits = |word: u64| word >> 58 == kind && field(word, 0, which.1) == which.0;
        self.words.iter().find(|&&word| fits(word)).map(|&word| field(word, which.1 + above, width))
    }

    fn stored(&self, clock: u32) -> Option<u32> {
        self.of(37, (clock, 4), 0, 32)
    }

    fn ring(&self) -> Option<[u32; 12]> {
        let pass = if self.rp235x { 0xAA00 } else { 0xAA0 };
        let strength = |kind, i: u32| self.first(kind, 3 * i, 3);
        let divider = self.first(11, 0, 16)?.checked_sub(pass)?;
        let [a, b, c, d] = [strength(9, 0)?, strength(9, 1)?, strength(9, 2)?, strength(9, 3)?];
        let [e, f, g, h] = [strength(10, 0)?, strength(10, 1)?, strength(10, 2)?, strength(10, 3)?];
        Some([1, self.stored(0)?, self.first(12, 0, 2)?, a, b, c, d, e, f, g, h, divider])
    }

    /// The multiplier is any that gives the delay.
    fn crystal(&self) -> Option<[u32; 3]> {
        let (delay, hz) = (self.first(16, 0, 14)? as u64, self.stored(1)?);
        let khz = hz as u64 / 1000;
        let multiplier = if khz == 0 { 0 } else { (256 * delay).saturating_sub(128).div_ceil(khz) };
        Some([1, hz, multiplier as u32])
    }

    fn pll(&self, which: u32) -> Option<[u32; 5]> {
        let of = |kind, above, width| self.of(kind, (which, 1), above, width);
        Some([1, of(20, 0, 6)?, of(21, 0, 12)?, of(23, 0, 3)?, of(23, 3, 3)?])
    }

    /// Code and settling time.
    fn voltage(&self, reading: u32, ring: u32) -> [u32; 3] {
        let (kind, width) = if self.rp235x { (43, 5) } else { (13, 4) };
        let Some(at) = self.words.iter().position(|&word| word >> 58 == kind) else {
            return [reading, 1, 0];
        };
        let delay =
            self.words.get(at + 1).filter(|&&word| word >> 58 == 14).map_or(0, |&word| field(word, 0, 32));
        [field(self.words[at], 0, width), 1, (delay as u64 / rules::settling_cycles(1, ring)) as u32]
    }

    fn system(&self) -> Option<[u32; 3]> {
        let control = *self.words.iter().rfind(|&&word| word >> 58 == 28)?;
        let source = if field(control, 2, 1) == 0 { 0 } else { field(control, 0, 2) + 1 };
        let (kind, whole) = if self.rp235x { (45, 16) } else { (29, 24) };
        Some([source, self.first(kind, 0, whole)?, self.first(kind, whole, 32 - whole)?])
    }

    fn auxiliary(&self, divider: u64, control: u64) -> Option<[u32; 4]> {
        let held = self.first(divider, 0, 2)?;
        Some([1, self.first(control, 2, 2)?, if held == 0 { 4 } else { held }, self.first(control, 0, 2)?])
    }

    fn rtc(&self) -> Option<[u32; 5]> {
        let (whole, fraction) = (self.first(35, 0, 24)?, self.first(35, 24, 8)?);
        Some([1, self.first(36, 2, 2)?, whole, fraction, self.first(36, 0, 2)?])
    }

    fn plan(&self, reading: u32) -> Option<Vec<u32>> {
        let ring = self.ring().unwrap_or_default();
        let held = self.first(26, 0, 2)?;
        let mut plan = vec![];
        plan.extend(ring);
        plan.extend(self.crystal().unwrap_or_default());
        plan.extend(self.pll(0).unwrap_or_default());
        plan.extend(self.pll(1).unwrap_or_default());
        plan.extend(self.voltage(reading, ring[1]));
        plan.extend([self.first(25, 0, 2)?, if held == 0 { 4 } else { held }]);
        plan.extend(self.system()?);
        plan.extend(self.first(30, 0, 3).map_or([0, 0], |aux| [1, aux]));
        plan.extend(self.auxiliary(31, 32).unwrap_or_default());
        plan.extend(self.auxiliary(33, 34).unwrap_or_default());
        plan.extend(self.rtc().unwrap_or_default());
        Some(plan)
    }

    fn case(&self, reading: u32, plan: &[u32]) -> Case {
        let chip = self.rp235x as u32;
        Case::sheet(reading, ROOM, chip, &plan[..plan_numbers::of(chip).len()])
    }
}
