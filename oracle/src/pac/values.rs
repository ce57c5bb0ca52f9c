//! Field values by name, numbered as in the RP2040 datasheet.

/// A value that stands in a field of a register.
pub trait Field: Copy {
    fn bits(self) -> u32;
    fn of(bits: u32) -> Self;
}

macro_rules! plain_field {
    ($($name:ty)*) => { $(
        impl Field for $name {
            fn bits(self) -> u32 {
                self as u32
            }
            fn of(bits: u32) -> Self {
                bits as $name
            }
        }
    )* };
}

plain_field!(u8 u16 u32);

impl Field for bool {
    fn bits(self) -> u32 {
        self as u32
    }
    fn of(bits: u32) -> Self {
        bits != 0
    }
}

/// Sources of a clock: an enum, so that `as` gives the number as in rp-pac.
macro_rules! sources {
    ($($name:ident { $($source:ident = $code:literal,)* })*) => { $(
        #[repr(u8)]
        #[allow(non_camel_case_types)]
        #[derive(Clone, Copy, Debug, PartialEq, Eq)]
        pub enum $name {
            $($source = $code,)*
        }

        impl $name {
            /// Every number that fits the field has a name here.
            pub const fn from_bits(bits: u8) -> Self {
                match bits {
                    $($code => Self::$source,)*
                    _ => panic!("no such source"),
                }
            }
        }

        impl Field for $name {
            fn bits(self) -> u32 {
                self as u32
            }
            fn of(bits: u32) -> Self {
                Self::from_bits(bits as u8)
            }
        }
    )* };
}

pub mod clocks {
    use super::Field;

    sources! {
        ClkRefCtrlSrc {
            ROSC_CLKSRC_PH = 0, CLKSRC_CLK_REF_AUX = 1, XOSC_CLKSRC = 2, RESERVED_3 = 3,
        }
        ClkRefCtrlAuxsrc {
            CLKSRC_PLL_USB = 0, CLKSRC_GPIN0 = 1, CLKSRC_GPIN1 = 2, RESERVED_3 = 3,
        }
        ClkSysCtrlSrc {
            CLK_REF = 0, CLKSRC_CLK_SYS_AUX = 1,
        }
        ClkSysCtrlAuxsrc {
            CLKSRC_PLL_SYS = 0, CLKSRC_PLL_USB = 1, ROSC_CLKSRC = 2, XOSC_CLKSRC = 3,
            CLKSRC_GPIN0 = 4, CLKSRC_GPIN1 = 5, RESERVED_6 = 6, RESERVED_7 = 7,
        }
        ClkPeriCtrlAuxsrc {
            CLK_SYS = 0, CLKSRC_PLL_SYS = 1, CLKSRC_PLL_USB = 2, ROSC_CLKSRC_PH = 3,
            XOSC_CLKSRC = 4, CLKSRC_GPIN0 = 5, CLKSRC_GPIN1 = 6, RESERVED_7 = 7,
        }
        ClkUsbCtrlAuxsrc {
            CLKSRC_PLL_USB = 0, CLKSRC_PLL_SYS = 1, ROSC_CLKSRC_PH = 2, XOSC_CLKSRC = 3,
            CLKSRC_GPIN0 = 4, CLKSRC_GPIN1 = 5, RESERVED_6 = 6, RESERVED_7 = 7,
        }
        ClkGpoutCtrlAuxsrc {
            CLKSRC_PLL_SYS = 0, CLKSRC_GPIN0 = 1, CLKSRC_GPIN1 = 2, CLKSRC_PLL_USB = 3,
            ROSC_CLKSRC = 4, XOSC_CLKSRC = 5, CLK_SYS = 6, CLK_USB = 7, CLK_ADC = 8, CLK_RTC = 9,
            CLK_REF = 10, RESERVED_11 = 11, RESERVED_12 = 12, RESERVED_13 = 13, RESERVED_14 = 14,
            RESERVED_15 = 15,
        }
    }

    pub type ClkAdcCtrlAuxsrc = ClkUsbCtrlAuxsrc;
    pub type ClkRtcCtrlAuxsrc = ClkUsbCtrlAuxsrc;
}

/// Codes that a register takes: a number with names for some of its values, as in rp-pac.
macro_rules! codes {
    ($($name:ident { $($code:ident = $value:literal,)* })*) => { $(
        #[derive(Clone, Copy, Debug, PartialEq, Eq)]
        pub struct $name(pub u16);

        impl $name {
            $(pub const $code: Self = Self($value);)*
        }

        impl Field for $name {
            fn bits(self) -> u32 {
                self.0 as u32
            }
            fn of(bits: u32) -> Self {
                Self(bits as u16)
            }
        }
    )* };
}

pub mod rosc {
    use super::Field;

    codes! {
        FreqRange { LOW = 0xfa4, MEDIUM = 0xfa5, HIGH = 0xfa7, TOOHIGH = 0xfa6, }
        Enable { ENABLE = 0xfab, }
        Passwd { PASS = 0x9696, }
        Div { PASS = 0xaa0, }
    }
}

pub mod xosc {
    use super::Field;

    codes! {
        CtrlFreqRange { _1_15MHZ = 0xaa0, }
        Enable { ENABLE = 0xfab, DISABLE = 0xd1e, }
    }
}

pub mod io {
    #[repr(u8)]
    #[allow(clippy::upper_case_acronyms)] // rp-pac's name
    pub enum Gpio0ctrlFuncsel {
        NULL = 31,
    }
}
