//! The published code's RP235x branch, over a second recording stand-in.

mod chip;
#[allow(dead_code, unused_imports, clippy::all)]
pub mod clocks;
#[path = "../cuts_of.rs"]
mod cuts_of;
#[path = "../on_chip.rs"]
pub mod on_chip;
mod plan;
#[cfg(test)]
mod tests;

pub mod reset {
    include!(concat!(env!("OUT_DIR"), "/rp235x_reset.rs"));
}

// What the published code finds at its crate's root.
pub use crate::pac::rp235x as pac;
pub use crate::standins::{Peri, atomics, cortex_m, gpio, peripherals};
