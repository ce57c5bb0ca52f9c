//! The inputs of the lines, made once.

use dizbaral::Chip;

use crate::random::Random;
use crate::random_plan;

const SEED: u64 = 1;
pub const READING: u8 = 11;
pub const MHZ: u32 = 1_000_000;

pub struct Inputs {
    pub exact: Vec<(u32, u32)>,
    pub inexact: Vec<(u32, u32)>,
    pub random: Vec<(u32, u32)>,
    pub plans: Vec<[u32; 48]>,
    pub pio: Vec<(u32, u32)>,
    pub gpout: Vec<(u8, u32, u8)>,
    pub frequencies: [u32; 10],
    pub sheet: Vec<u8>,
}

impl Inputs {
    pub fn new() -> Inputs {
        let mut r = Random::new(SEED);
        let mut sheet = vec![0; dizbaral::SHEET_BYTES];
        let length = dizbaral::system_sheet(Chip::Rp2040, 125 * MHZ, READING, &mut sheet).unwrap();
        sheet.truncate(length);
        Inputs {
            exact: (16..=133).map(|mhz| (12 * MHZ, mhz * MHZ)).filter(is_exact).collect(),
            inexact: (16..=133).map(|mhz| (12 * MHZ, mhz * MHZ + 1)).filter(|x| !is_exact(x)).collect(),
            random: (0..100)
                .map(|_| (r.between(5 * MHZ, 50 * MHZ), r.between(10 * MHZ, 300 * MHZ)))
                .collect(),
            plans: std::iter::repeat_with(|| random_plan::plan(&mut r, 0).try_into().unwrap())
                .filter(accepted)
                .take(200)
                .collect(),
            pio: std::iter::repeat_with(|| (r.between(100 * MHZ, 200 * MHZ), r.between(10_000, 16 * MHZ)))
                .take(200)
                .collect(),
            gpout: (0..200)
                .map(|_| (r.pick(&[0, 3, 4, 5, 6, 7, 8, 10]), r.between(1, 70_000), r.between(0, 255) as u8))
                .collect(),
            frequencies: [
                6_500_000,
                12_000_000,
                125_000_000,
                48_000_000,
                12_000_000,
                125_000_000,
                125_000_000,
                48_000_000,
                48_000_000,
                46_875,
            ],
            sheet,
        }
    }
}

/// Whether a setting gives the target with no remainder.
fn is_exact(&(input, target): &(u32, u32)) -> bool {
    let Ok(found) = dizbaral::find_pll_params(input, target) else { return false };
    let vco = input as u64 * found.fbdiv as u64;
    vco == target as u64 * found.post_div1 as u64 * found.post_div2 as u64
}

/// Accepted at the reading, and the Rust settles for as long: it does not at all, or its ring has whole megahertz.
fn accepted(plan: &[u32; 48]) -> bool {
    let (ring_hz, code, given, time) = (plan[1], plan[25], plan[26], plan[27]);
    let settles = code != READING as u32 && if given == 1 { time != 0 } else { code > 11 };
    let alike = !settles || ring_hz != 0 && ring_hz.is_multiple_of(MHZ);
    alike && dizbaral::plan_sheet(Chip::Rp2040, plan, READING, &mut [0; 528]).is_ok()
}
