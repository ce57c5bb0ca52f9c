//! A stand-in for rp-pac: the registers that the published code reads and writes, by its names.
//! Every access goes to the recorder.

#[macro_use]
pub mod values;
#[macro_use]
pub mod fields;
mod names;

use std::marker::PhantomData;

use crate::recorder;
use fields::Register;
pub use names::Name;

/// A register, with what stands in it.
#[derive(Clone, Copy)]
pub struct Reg<T> {
    name: Name,
    /// Which PLL, which clock output.
    index: u8,
    contents: PhantomData<T>,
}

impl<T: Register> Reg<T> {
    pub const fn new(name: Name, index: u8) -> Self {
        Reg { name, index, contents: PhantomData }
    }

    pub fn read(&self) -> T {
        T::of(recorder::read(self.name, self.index))
    }

    pub fn write_value(&self, value: T) {
        recorder::write(self.name, self.index, value.word());
    }

    /// Starts from 0, as rp-pac does.
    pub fn write<R>(&self, change: impl FnOnce(&mut T) -> R) -> R {
        let mut value = T::of(0);
        let result = change(&mut value);
        self.write_value(value);
        result
    }

    pub fn modify<R>(&self, change: impl FnOnce(&mut T) -> R) -> R {
        let mut value = T::of(recorder::shown(self.name, self.index));
        let result = change(&mut value);
        recorder::modify(self.name, self.index, value.word());
        result
    }
}

macro_rules! block {
    ($module:ident $block:ident { $($method:ident: $contents:ty, $name:ident;)* } $($named:item)*) => {
        pub mod $module {
            use super::{Name, Reg, fields};

            #[derive(Clone, Copy)]
            pub struct $block {
                pub(super) index: u8,
            }

            impl $block {
                $(
                    pub const fn $method(self) -> Reg<$contents> {
                        Reg::new(Name::$name, self.index)
                    }
                )*
            }

            $($named)*
        }
    };
}

block!(resets Resets {
    reset: fields::Peripherals, Reset;
    reset_done: fields::Peripherals, ResetDone;
}
pub mod regs {
    pub use crate::pac::fields::Peripherals;
});

block!(clocks Clocks {
    clk_sys_resus_ctrl: fields::ClkSysResusCtrl, ResusControl;
    clk_ref_ctrl: fields::ClkRefCtrl, RefControl;
    clk_ref_div: fields::ClkRefDiv, RefDivider;
    clk_ref_selected: u32, RefSelected;
    clk_sys_ctrl: fields::ClkSysCtrl, SysControl;
    clk_sys_div: fields::ClkSysDiv, SysDivider;
    clk_sys_selected: u32, SysSelected;
    clk_peri_ctrl: fields::ClkPeriCtrl, PeriControl;
    clk_usb_ctrl: fields::ClkUsbCtrl, UsbControl;
    clk_usb_div: fields::ClkUsbDiv, UsbDivider;
    clk_adc_ctrl: fields::ClkAdcCtrl, AdcControl;
    clk_adc_div: fields::ClkAdcDiv, AdcDivider;
    clk_rtc_ctrl: fields::ClkRtcCtrl, RtcControl;
    clk_rtc_div: fields::ClkRtcDiv, RtcDivider;
}
pub use super::values::clocks as vals;
pub mod regs {
    pub use crate::pac::fields::ClkSysResusCtrl;
});

impl clocks::Clocks {
    pub const fn clk_gpout_ctrl(self, output: usize) -> Reg<fields::ClkGpoutCtrl> {
        Reg::new(Name::GpoutControl, output as u8)
    }
    pub const fn clk_gpout_div(self, output: usize) -> Reg<fields::ClkGpoutDiv> {
        Reg::new(Name::GpoutDivider, output as u8)
    }
}

block!(rosc Rosc {
    freqa: fields::Freqa, RoscStrengthsA;
    freqb: fields::Freqb, RoscStrengthsB;
    div: fields::RoscDiv, RoscDivider;
    ctrl: fields::RoscCtrl, RoscControl;
}
pub use super::values::rosc as vals;
);

block!(xosc Xosc {
    startup: fields::Startup, XoscStartup;
    ctrl: fields::XoscCtrl, XoscControl;
    status: fields::XoscStatus, XoscStatus;
}
pub use super::values::xosc as vals;
);

block!(pll Pll {
    cs: fields::Cs, PllControl;
    pwr: fields::Pwr, PllPower;
    fbdiv_int: fields::FbdivInt, PllFeedback;
    prim: fields::Prim, PllPosts;
});

block!(vreg_and_chip_reset VregAndChipReset {
    vreg: fields::Vreg, Vreg;
    bod: fields::Bod, Brownout;
});

block!(watchdog Watchdog {
    tick: fields::Tick, Tick;
});

block!(io Gpio {
    ctrl: fields::GpioCtrl, PinControl;
}
pub use super::values::io as vals;
);

pub const RESETS: resets::Resets = resets::Resets { index: 0 };
pub const CLOCKS: clocks::Clocks = clocks::Clocks { index: 0 };
pub const ROSC: rosc::Rosc = rosc::Rosc { index: 0 };
pub const XOSC: xosc::Xosc = xosc::Xosc { index: 0 };
pub const PLL_SYS: pll::Pll = pll::Pll { index: 0 };
pub const PLL_USB: pll::Pll = pll::Pll { index: 1 };
pub const VREG_AND_CHIP_RESET: vreg_and_chip_reset::VregAndChipReset =
    vreg_and_chip_reset::VregAndChipReset { index: 0 };
pub const WATCHDOG: watchdog::Watchdog = watchdog::Watchdog { index: 0 };
pub const PIN: io::Gpio = io::Gpio { index: 0 };

pub mod rp235x;
