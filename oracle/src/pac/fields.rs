//! The registers' fields: lowest bit and width as in the RP2040 datasheet.
//!
//! Only the fields that the published code uses are here: another one would not compile.
//! A setter that cannot hold its value tells the recorder which refusal this belongs to.

use super::values::{Field, clocks::*, rosc, xosc};
use crate::recorder;

/// A register's contents.
pub trait Register: Copy {
    fn word(self) -> u32;
    fn of(word: u32) -> Self;
}

impl Register for u32 {
    fn word(self) -> u32 {
        self
    }
    fn of(word: u32) -> Self {
        word
    }
}

/// What it means that a field cannot hold its value.
pub enum Loss {
    /// It is refused with this number.
    Refused(u8),
    /// A divider of 1 to 4, which the step and the RP2040 have in two bits, 4 as 0: a greater one is refused with this
    /// number.
    RefusedOverFour(u8),
    /// No refusal is known for it.
    Unknown,
}
use Loss::{Refused, RefusedOverFour, Unknown};

pub(super) const fn ones(width: u32) -> u32 {
    u32::MAX >> (32 - width)
}

pub(super) fn insert(word: u32, low: u32, width: u32, value: u32, loss: Loss, name: &str) -> u32 {
    let held = value & ones(width);
    let lost = match loss {
        RefusedOverFour(_) => value > 4,
        _ => held != value,
    };
    if lost {
        recorder::cut(value, loss, name);
    }
    (word & !(ones(width) << low)) | (held << low)
}

macro_rules! registers {
    ($($name:ident {
        $($get:ident $set:ident: $type:ty, $low:literal, $width:literal, $loss:expr;)*
    })*) => { $(
        #[derive(Clone, Copy, PartialEq, Eq)]
        pub struct $name(pub u32);

        #[allow(dead_code)]
        impl $name {
            $(
                pub fn $get(&self) -> $type {
                    Field::of((self.0 >> $low) & ones($width))
                }
                pub fn $set(&mut self, value: $type) {
                    let name = concat!(stringify!($name), ".", stringify!($get));
                    self.0 = insert(self.0, $low, $width, value.bits(), $loss, name);
                }
            )*
        }

        impl Register for $name {
            fn word(self) -> u32 {
                self.0
            }
            fn of(word: u32) -> Self {
                Self(word)
            }
        }
    )* };
}

registers! {
    // RESETS
    Peripherals {
        adc set_adc: bool, 0, 1, Unknown;
        io_qspi set_io_qspi: bool, 6, 1, Unknown;
        pads_qspi set_pads_qspi: bool, 9, 1, Unknown;
        pll_sys set_pll_sys: bool, 12, 1, Unknown;
        pll_usb set_pll_usb: bool, 13, 1, Unknown;
        rtc set_rtc: bool, 15, 1, Unknown;
        spi0 set_spi0: bool, 16, 1, Unknown;
        spi1 set_spi1: bool, 17, 1, Unknown;
        syscfg set_syscfg: bool, 18, 1, Unknown;
        uart0 set_uart0: bool, 22, 1, Unknown;
        uart1 set_uart1: bool, 23, 1, Unknown;
        usbctrl set_usbctrl: bool, 24, 1, Unknown;
    }
    // CLOCKS
    ClkSysResusCtrl {}
    ClkRefCtrl {
        src set_src: ClkRefCtrlSrc, 0, 2, Unknown;
        auxsrc set_auxsrc: ClkRefCtrlAuxsrc, 5, 2, Unknown;
    }
    ClkRefDiv {
        int set_int: u8, 8, 2, RefusedOverFour(7);
    }
    ClkSysCtrl {
        src set_src: ClkSysCtrlSrc, 0, 1, Unknown;
        auxsrc set_auxsrc: ClkSysCtrlAuxsrc, 5, 3, Unknown;
    }
    ClkSysDiv {
        int set_int: u32, 8, 24, Refused(9);
        frac set_frac: u8, 0, 8, Unknown;
    }
    ClkPeriCtrl {
        auxsrc set_auxsrc: ClkPeriCtrlAuxsrc, 5, 3, Unknown;
        enable set_enable: bool, 11, 1, Unknown;
    }
    ClkUsbDiv {
        int set_int: u8, 8, 2, RefusedOverFour(12);
    }
    ClkUsbCtrl {
        auxsrc set_auxsrc: ClkUsbCtrlAuxsrc, 5, 3, Unknown;
        enable set_enable: bool, 11, 1, Unknown;
        phase set_phase: u8, 16, 2, Refused(12);
    }
    ClkAdcDiv {
        int set_int: u8, 8, 2, RefusedOverFour(13);
    }
    ClkAdcCtrl {
        auxsrc set_auxsrc: ClkAdcCtrlAuxsrc, 5, 3, Unknown;
        enable set_enable: bool, 11, 1, Unknown;
        phase set_phase: u8, 16, 2, Refused(13);
    }
    ClkRtcDiv {
        int set_int: u32, 8, 24, Refused(14);
        frac set_frac: u8, 0, 8, Unknown;
    }
    ClkRtcCtrl {
        auxsrc set_auxsrc: ClkRtcCtrlAuxsrc, 5, 3, Unknown;
        enable set_enable: bool, 11, 1, Unknown;
        phase set_phase: u8, 16, 2, Refused(14);
    }
    ClkGpoutCtrl {
        auxsrc set_auxsrc: ClkGpoutCtrlAuxsrc, 5, 4, Refused(23);
        enable set_enable: bool, 11, 1, Unknown;
    }
    ClkGpoutDiv {
        int set_int: u32, 8, 24, Refused(23);
        frac set_frac: u8, 0, 8, Unknown;
    }
    // ROSC
    Freqa {
        ds0 set_ds0: u8, 0, 3, Refused(1);
        ds1 set_ds1: u8, 4, 3, Refused(1);
        ds2 set_ds2: u8, 8, 3, Refused(1);
        ds3 set_ds3: u8, 12, 3, Refused(1);
        passwd set_passwd: rosc::Passwd, 16, 16, Unknown;
    }
    Freqb {
        ds4 set_ds4: u8, 0, 3, Refused(1);
        ds5 set_ds5: u8, 4, 3, Refused(1);
        ds6 set_ds6: u8, 8, 3, Refused(1);
        ds7 set_ds7: u8, 12, 3, Refused(1);
        passwd set_passwd: rosc::Passwd, 16, 16, Unknown;
    }
    // The step holds the 16 bits that the code hands over; the datasheet's field has 12 (`accesses`).
    RoscDiv {
        div set_div: rosc::Div, 0, 16, Unknown;
    }
    RoscCtrl {
        freq_range set_freq_range: rosc::FreqRange, 0, 12, Unknown;
        enable set_enable: rosc::Enable, 12, 12, Unknown;
    }
    // XOSC
    Startup {
        delay set_delay: u16, 0, 14, Refused(4);
    }
    XoscCtrl {
        freq_range set_freq_range: xosc::CtrlFreqRange, 0, 12, Unknown;
        enable set_enable: xosc::Enable, 12, 12, Unknown;
    }
    XoscStatus {
        stable set_stable: bool, 31, 1, Unknown;
    }
    // Dormant sleep: status of ring and crystal, the ring divider as the datasheet has it, XIP_CTRL
    OscStatus {
        stable set_stable: bool, 31, 1, Unknown;
    }
    RoscDiv12 {
        div set_div: rosc::Div, 0, 12, Unknown;
    }
    XipCtrl {
        power_down set_power_down: bool, 3, 1, Unknown;
    }
    // VREG_AND_CHIP_RESET
    Vreg {
        vsel set_vsel: u8, 4, 4, Unknown;
    }
    Bod {
        en set_en: bool, 0, 1, Unknown;
        vsel set_vsel: u8, 4, 4, Unknown;
    }
    // WATCHDOG
    Tick {
        cycles set_cycles: u16, 0, 9, Refused(8);
        enable set_enable: bool, 9, 1, Unknown;
    }
    // PLL
    Cs {
        refdiv set_refdiv: u8, 0, 6, Unknown;
        lock set_lock: bool, 31, 1, Unknown;
    }
    Pwr {
        pd set_pd: bool, 0, 1, Unknown;
        dsmpd set_dsmpd: bool, 2, 1, Unknown;
        postdivpd set_postdivpd: bool, 3, 1, Unknown;
        vcopd set_vcopd: bool, 5, 1, Unknown;
    }
    FbdivInt {
        fbdiv_int set_fbdiv_int: u16, 0, 12, Unknown;
    }
    Prim {
        postdiv2 set_postdiv2: u8, 12, 3, Unknown;
        postdiv1 set_postdiv1: u8, 16, 3, Unknown;
    }
    // IO_BANK0
    GpioCtrl {
        funcsel set_funcsel: u8, 0, 5, Unknown;
    }
    // The RP235x's alone.
    PadCtrl {
        iso set_iso: bool, 8, 1, Unknown;
    }
}
