//! Stand-ins for the rest of what the published code names: atomics, the delay, fixed-point numbers, pins.

/// The ten frequencies: a store goes to the recorder too.
pub mod atomics {
    pub use std::sync::atomic::Ordering;
    use std::sync::atomic::{AtomicU16 as Plain16, AtomicU32 as Plain32};

    use crate::recorder;

    macro_rules! recorded {
        ($($name:ident $plain:ident $number:ty;)*) => { $(
            pub struct $name($plain);

            impl $name {
                pub const fn new(value: $number) -> Self {
                    $name($plain::new(value))
                }

                pub fn load(&self, order: Ordering) -> $number {
                    self.0.load(order)
                }

                pub fn store(&self, value: $number, order: Ordering) {
                    recorder::store(self.address(), value as u32);
                    self.0.store(value, order);
                }

                /// Sets the value before a run: no part of what is recorded.
                pub fn preset(&self, value: $number) {
                    self.0.store(value, Ordering::Relaxed);
                }

                /// Tells the ten apart.
                pub fn address(&self) -> usize {
                    self as *const Self as usize
                }
            }
        )* };
    }

    recorded! {
        AtomicU16 Plain16 u16;
        AtomicU32 Plain32 u32;
    }
}

pub mod cortex_m {
    pub mod asm {
        pub fn delay(cycles: u32) {
            crate::recorder::delay(cycles);
        }
    }
}

pub mod fixed {
    use std::marker::PhantomData;

    /// The bits alone: nothing is calculated with it.
    pub struct FixedU32<Fraction>(u32, PhantomData<Fraction>);

    impl<Fraction> FixedU32<Fraction> {
        pub const fn from_bits(bits: u32) -> Self {
            FixedU32(bits, PhantomData)
        }

        pub const fn to_bits(&self) -> u32 {
            self.0
        }
    }

    pub mod types {
        pub mod extra {
            pub struct U8;
        }
    }
}

/// Pins: only so much that a clock output can be made on one.
pub mod gpio {
    use crate::pac::{self, Name};

    pub trait SealedPin {
        fn gpio(&self) -> pac::io::Gpio {
            pac::PIN
        }

        fn pad_ctrl(&self) -> pac::Reg<pac::fields::PadCtrl> {
            pac::Reg::new(Name::PadControl, 0)
        }
    }

    pub trait Pin: SealedPin {}
}

pub mod peripherals {
    macro_rules! pins {
        ($($name:ident)*) => { $(
            #[allow(non_camel_case_types, dead_code)]
            pub struct $name;
            impl crate::gpio::SealedPin for $name {}
            impl crate::gpio::Pin for $name {}
        )* };
    }

    pins!(PIN_13 PIN_15 PIN_21 PIN_23 PIN_24 PIN_25);
}

/// Ownership of a peripheral.
pub struct Peri<'d, T>(T, std::marker::PhantomData<&'d ()>);

impl<T> Peri<'_, T> {
    pub fn new(peripheral: T) -> Self {
        Peri(peripheral, std::marker::PhantomData)
    }
}

impl<T> std::ops::Deref for Peri<'_, T> {
    type Target = T;
    fn deref(&self) -> &T {
        &self.0
    }
}
