//! The registers of the RP235x, bits and codes as in the RP2350 datasheet: what it has otherwise than the RP2040.

use super::{Name, Reg};
pub use super::{PLL_SYS, PLL_USB, XOSC, io, pll, xosc};

pub mod values {
    use super::super::values::{Field, clocks};

    pub mod vals {
        use super::Field;
        pub use super::clocks::{
            ClkAdcCtrlAuxsrc, ClkPeriCtrlAuxsrc, ClkRefCtrlAuxsrc, ClkRefCtrlSrc, ClkSysCtrlAuxsrc,
            ClkSysCtrlSrc, ClkUsbCtrlAuxsrc,
        };

        sources! {
            ClkGpoutCtrlAuxsrc {
                CLKSRC_PLL_SYS = 0, CLKSRC_GPIN0 = 1, CLKSRC_GPIN1 = 2, CLKSRC_PLL_USB = 3,
                CLKSRC_PLL_USB_PRIMARY_REF_OPCG = 4, ROSC_CLKSRC = 5, XOSC_CLKSRC = 6, LPOSC_CLKSRC = 7,
                CLK_SYS = 8, CLK_USB = 9, CLK_ADC = 10, CLK_REF = 11, CLK_PERI = 12, CLK_HSTX = 13,
                OTP_CLK2FC = 14, RESERVED_15 = 15,
            }
        }
    }

    pub mod rosc {
        pub use super::super::super::values::rosc::{Enable, FreqRange, Passwd};
        use super::Field;

        codes! {
            Div { PASS = 0xaa00, }
        }
    }
}

pub mod fields {
    use super::super::fields::Loss::{Refused, RefusedOverFour, Unknown};
    pub use super::super::fields::{
        ClkAdcCtrl, ClkPeriCtrl, ClkRefCtrl, ClkSysCtrl, ClkSysResusCtrl, ClkUsbCtrl, Freqa, Freqb, RoscCtrl,
    };
    use super::super::fields::{Register, insert, ones};
    use super::super::values::Field;
    use super::values::{rosc, vals::ClkGpoutCtrlAuxsrc};

    registers! {
        // RESETS
        Peripherals {
            adc set_adc: bool, 0, 1, Unknown;
            hstx set_hstx: bool, 3, 1, Unknown;
            io_qspi set_io_qspi: bool, 7, 1, Unknown;
            pads_qspi set_pads_qspi: bool, 10, 1, Unknown;
            pll_sys set_pll_sys: bool, 14, 1, Unknown;
            pll_usb set_pll_usb: bool, 15, 1, Unknown;
            spi0 set_spi0: bool, 18, 1, Unknown;
            spi1 set_spi1: bool, 19, 1, Unknown;
            syscfg set_syscfg: bool, 20, 1, Unknown;
            uart0 set_uart0: bool, 26, 1, Unknown;
            uart1 set_uart1: bool, 27, 1, Unknown;
            usbctrl set_usbctrl: bool, 28, 1, Unknown;
        }
        // CLOCKS
        ClkRefSelected {}
        ClkSysSelected {}
        // Of these three dividers the step holds 2 bits, with 4 as 0.
        ClkRefDiv {
            int set_int: u8, 16, 8, RefusedOverFour(7);
        }
        ClkUsbDiv {
            int set_int: u8, 16, 4, RefusedOverFour(12);
        }
        ClkAdcDiv {
            int set_int: u8, 16, 4, RefusedOverFour(13);
        }
        ClkSysDiv {
            int set_int: u16, 16, 16, Unknown;
            frac set_frac: u16, 0, 16, Unknown;
        }
        ClkGpoutCtrl {
            auxsrc set_auxsrc: ClkGpoutCtrlAuxsrc, 5, 4, Refused(23);
            enable set_enable: bool, 11, 1, Unknown;
        }
        ClkGpoutDiv {
            int set_int: u16, 16, 16, Unknown;
            frac set_frac: u16, 0, 16, Unknown;
        }
        // ROSC
        RoscDiv {
            div set_div: rosc::Div, 0, 16, Unknown;
        }
        // POWMAN
        Vreg {
            vsel set_vsel: u8, 4, 5, Unknown;
        }
        Bod {
            en set_en: bool, 0, 1, Unknown;
            vsel set_vsel: u8, 4, 5, Unknown;
        }
        // TICKS
        TickControl {
            enable set_enable: bool, 0, 1, Unknown;
        }
    }

    /// Cycles of a tick, which the code writes as a whole word: the field has 9 bits.
    #[derive(Clone, Copy)]
    pub struct TickCycles(pub u32);

    impl Register for TickCycles {
        fn word(self) -> u32 {
            insert(0, 0, 9, self.0, Refused(8), "TickCycles")
        }
        fn of(word: u32) -> Self {
            TickCycles(word)
        }
    }
}

block!(resets Resets {
    reset: fields::Peripherals, Reset;
    reset_done: fields::Peripherals, ResetDone;
}
pub mod regs {
    pub use super::fields::Peripherals;
});

block!(clocks Clocks {
    clk_sys_resus_ctrl: fields::ClkSysResusCtrl, ResusControl;
    clk_ref_ctrl: fields::ClkRefCtrl, RefControl;
    clk_ref_div: fields::ClkRefDiv, Rp235xRefDivider;
    clk_ref_selected: fields::ClkRefSelected, RefSelected;
    clk_sys_ctrl: fields::ClkSysCtrl, SysControl;
    clk_sys_div: fields::ClkSysDiv, Rp235xSysDivider;
    clk_sys_selected: fields::ClkSysSelected, SysSelected;
    clk_peri_ctrl: fields::ClkPeriCtrl, PeriControl;
    clk_usb_ctrl: fields::ClkUsbCtrl, UsbControl;
    clk_usb_div: fields::ClkUsbDiv, Rp235xUsbDivider;
    clk_adc_ctrl: fields::ClkAdcCtrl, AdcControl;
    clk_adc_div: fields::ClkAdcDiv, Rp235xAdcDivider;
}
pub use super::values::vals;
pub mod regs {
    pub use super::fields::{ClkRefSelected, ClkSysResusCtrl, ClkSysSelected};
});

impl clocks::Clocks {
    pub const fn clk_gpout_ctrl(self, output: usize) -> Reg<fields::ClkGpoutCtrl> {
        Reg::new(Name::GpoutControl, output as u8)
    }
    pub const fn clk_gpout_div(self, output: usize) -> Reg<fields::ClkGpoutDiv> {
        Reg::new(Name::GpoutDivider, output as u8)
    }
}

block!(rosc Rosc {
    freqa: fields::Freqa, RoscStrengthsA;
    freqb: fields::Freqb, RoscStrengthsB;
    div: fields::RoscDiv, RoscDivider;
    ctrl: fields::RoscCtrl, RoscControl;
}
pub use super::values::rosc as vals;
);

block!(powman Powman {
    vreg: fields::Vreg, Rp235xVreg;
    bod: fields::Bod, Rp235xBrownout;
});

block!(ticks Ticks {
    timer0_cycles: fields::TickCycles, TimerCycles;
    timer0_ctrl: fields::TickControl, TimerControl;
    watchdog_cycles: fields::TickCycles, WatchdogCycles;
    watchdog_ctrl: fields::TickControl, WatchdogControl;
});

pub const RESETS: resets::Resets = resets::Resets { index: 0 };
pub const CLOCKS: clocks::Clocks = clocks::Clocks { index: 0 };
pub const ROSC: rosc::Rosc = rosc::Rosc { index: 0 };
pub const POWMAN: powman::Powman = powman::Powman { index: 0 };
pub const TICKS: ticks::Ticks = ticks::Ticks { index: 0 };
