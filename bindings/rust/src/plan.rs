use crate::{Chip, PlanError, PllConfig, Refused, answer, raw};

/// A plan's chip and its numbers: docs/CASES.md, A plan in numbers.
#[derive(Clone, Copy, Debug, PartialEq, Eq)]
pub struct Plan {
    pub chip: Chip,
    numbers: [u32; 48],
}

impl Plan {
    /// 48 numbers, 43 for the RP235x, as [`crate::plan_sheet`] takes them.
    pub fn numbers(&self) -> &[u32] {
        match self.chip {
            Chip::Rp2040 => &self.numbers,
            Chip::Rp235x => &self.numbers[..43],
        }
    }

    /// The plan of a call that writes its numbers and answers its chip.
    fn written(call: impl FnOnce(&mut [u32; 48]) -> u64) -> Result<Plan, Refused> {
        let mut numbers = [0; 48];
        let chip = answer(call(&mut numbers))?;
        Ok(Plan { chip: if chip == Chip::Rp2040 as u64 { Chip::Rp2040 } else { Chip::Rp235x }, numbers })
    }

    /// The preset of a crystal: 125 MHz of 12 MHz on the RP2040, 150 MHz on the RP235x.
    pub fn crystal(chip: Chip, crystal_hz: u32) -> Plan {
        Self::written(|numbers| unsafe { raw::dizbaral_crystal(chip as u8, crystal_hz, numbers) }).unwrap()
    }

    /// The preset of the ring alone, at 140 MHz.
    pub fn rosc(chip: Chip) -> Plan {
        Self::written(|numbers| unsafe { raw::dizbaral_rosc(chip as u8, numbers) }).unwrap()
    }

    /// The plan without ring and crystal, of which there is no sheet (refusal 8).
    pub fn default(chip: Chip) -> Plan {
        Self::written(|numbers| unsafe { raw::dizbaral_default(chip as u8, numbers) }).unwrap()
    }

    /// The plan of a 12 MHz crystal and a system frequency.
    pub fn system_freq(chip: Chip, hz: u32) -> Result<Plan, Refused> {
        Self::written(|numbers| unsafe { raw::dizbaral_system_freq(chip as u8, hz, numbers) })
    }

    /// The plan of a crystal, a system frequency and the PLLs found for them.
    pub fn system_freq_from(chip: Chip, crystal_hz: u32, hz: u32) -> Result<Plan, Refused> {
        Self::written(|numbers| unsafe { raw::dizbaral_system_freq_from(chip as u8, crystal_hz, hz, numbers) })
    }

    /// The plan of the RP2040 with this system PLL and the voltage of a code, without a ring.
    pub fn manual_pll(crystal_hz: u32, pll: PllConfig, voltage: u8) -> Result<Plan, PlanError> {
        let PllConfig { refdiv, fbdiv, post_div1, post_div2 } = pll;
        let mut numbers = [0; 48];
        let number = unsafe {
            raw::dizbaral_manual_pll(crystal_hz, refdiv, fbdiv, post_div1, post_div2, voltage, &mut numbers)
        };
        match answer(number) {
            Ok(raw::MALFORMED) => Err(PlanError::NoPlan),
            Ok(_) => Ok(Plan { chip: Chip::Rp2040, numbers }),
            Err(Refused(refusal)) => Err(PlanError::Refused(refusal)),
        }
    }
}

/// The plan whose sheet at a reading is exactly these bytes, with the smallest delay multiplier and the smallest settling
/// time, which is given.
pub fn read_sheet(sheet: &[u8], reading: u8) -> Result<Plan, Refused> {
    Plan::written(|numbers| unsafe {
        raw::dizbaral_read_sheet(sheet.as_ptr(), sheet.len() as u64, reading, numbers)
    })
}
