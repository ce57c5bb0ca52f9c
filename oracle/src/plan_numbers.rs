//! A plan in numbers (docs/CASES.md): what may stand at each place, and where its parts are.

/// Which numbers may stand at a place of a plan.
#[derive(Clone, Copy)]
pub enum Fits {
    /// 0 up to this, included.
    UpTo(u32),
    /// A voltage code of the RP2040: 0 or 6 to 15.
    Code,
}
use Fits::{Code, UpTo};

impl Fits {
    pub fn accepts(self, number: u32) -> bool {
        match self {
            UpTo(top) => number <= top,
            Code => number == 0 || (6..=15).contains(&number),
        }
    }
}

const FLAG: Fits = UpTo(1);
const U8: Fits = UpTo(u8::MAX as u32);
const U16: Fits = UpTo(u16::MAX as u32);
const U32: Fits = UpTo(u32::MAX);

/// The 48 numbers of a plan.
#[rustfmt::skip]
const PLAN: [Fits; 48] = [
    FLAG, U32, UpTo(3), U8, U8, U8, U8, U8, U8, U8, U8, U16, // ring: Hz, range, strengths, divider
    FLAG, U32, U32, // crystal: Hz, multiplier
    FLAG, U8, U16, U8, U8, // system PLL
    FLAG, U8, U16, U8, U8, // USB PLL
    Code, // voltage
    FLAG, U32, // settling time
    UpTo(2), U8, // reference: source, divider
    UpTo(4), U32, U8, // system: source, whole, fraction
    FLAG, UpTo(4), // peripheral: source
    FLAG, UpTo(3), U8, U8, // USB: source, divider, phase
    FLAG, UpTo(3), U8, U8, // ADC: the same
    FLAG, UpTo(3), U32, U8, U8, // RTC: source, whole, fraction, phase
];

/// The 43 numbers of a plan for the RP235x: no RTC, every code from 0 to 15, a system divider of two 16-bit numbers.
const PLAN_235X: [Fits; at::RTC] = {
    let mut numbers = *PLAN.first_chunk().unwrap();
    numbers[at::VOLTAGE] = UpTo(15);
    numbers[at::SYSTEM + 1] = U16;
    numbers[at::SYSTEM + 2] = U16;
    numbers
};

pub fn of(chip: u32) -> &'static [Fits] {
    if chip == 0 { &PLAN } else { &PLAN_235X }
}

/// Where the parts of a plan begin; a part that may be absent begins with its flag.
pub mod at {
    pub const RING: usize = 0;
    pub const CRYSTAL: usize = 12;
    pub const SYSTEM_PLL: usize = 15;
    pub const USB_PLL: usize = 20;
    pub const VOLTAGE: usize = 25;
    pub const SETTLING: usize = 26;
    pub const REFERENCE: usize = 28;
    pub const SYSTEM: usize = 30;
    pub const PERIPHERAL: usize = 33;
    pub const USB: usize = 35;
    pub const ADC: usize = 39;
    pub const RTC: usize = 43;
}

/// The parts that may be absent: place of the flag, and of the part's end. The last is the RP2040's alone.
pub const PARTS: [(usize, usize); 9] = [
    (at::RING, 12),
    (at::CRYSTAL, 15),
    (at::SYSTEM_PLL, 20),
    (at::USB_PLL, 25),
    (at::SETTLING, 28),
    (at::PERIPHERAL, 35),
    (at::USB, 39),
    (at::ADC, 43),
    (at::RTC, 48),
];

/// Every number fits its place, an absent part's numbers are 0, and a PLL needs the crystal.
pub fn whole(chip: u32, plan: &[u32]) -> bool {
    let fits = of(chip);
    let absent_zero =
        |&(flag, end): &(usize, usize)| plan[flag] == 1 || plan[flag..end].iter().all(|&n| n == 0);
    let pll_with_crystal = |pll: usize| plan[pll] <= plan[at::CRYSTAL];
    plan.len() == fits.len()
        && fits.iter().zip(plan).all(|(fits, &number)| fits.accepts(number))
        && PARTS.iter().filter(|&&(flag, _)| flag < plan.len()).all(absent_zero)
        && pll_with_crystal(at::SYSTEM_PLL)
        && pll_with_crystal(at::USB_PLL)
}
