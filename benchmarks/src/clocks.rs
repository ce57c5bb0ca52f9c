//! The published clocks.rs, and a way to its private parts.

include!(concat!(env!("OUT_DIR"), "/clocks.rs"));

#[inline(never)]
pub fn search(input: u32, target: u32) -> Option<PllConfig> {
    find_pll_params(input, target)
}

/// Not inlined: a sheet costs one call on either side.
#[inline(never)]
pub fn write_sheet(config: ClockConfig) {
    unsafe { init(config) }
}

/// The number of the clock whose atomic is at this address, as kind 37 has it: constants at each store.
#[inline(always)]
pub fn clock_number(address: usize) -> u32 {
    if address == CLOCKS.rosc.address() {
        0
    } else if address == CLOCKS.xosc.address() {
        1
    } else if address == CLOCKS.pll_sys.address() {
        2
    } else if address == CLOCKS.pll_usb.address() {
        3
    } else if address == CLOCKS.reference.address() {
        4
    } else if address == CLOCKS.sys.address() {
        5
    } else if address == CLOCKS.peri.address() {
        6
    } else if address == CLOCKS.usb.address() {
        7
    } else if address == CLOCKS.adc.address() {
        8
    } else {
        9
    }
}

/// Sets the frequencies that a clock output may have as its source.
pub fn preset_frequencies(hz: &[u32; 10]) {
    CLOCKS.rosc.preset(hz[0]);
    CLOCKS.xosc.preset(hz[1]);
    CLOCKS.pll_sys.preset(hz[2]);
    CLOCKS.pll_usb.preset(hz[3]);
    CLOCKS.reference.preset(hz[4]);
    CLOCKS.sys.preset(hz[5]);
    CLOCKS.usb.preset(hz[7]);
    CLOCKS.adc.preset(hz[8]);
}
