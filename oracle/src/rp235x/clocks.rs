//! The published clocks.rs for the RP235x, and a way to its private parts.

include!(concat!(env!("OUT_DIR"), "/rp235x_clocks.rs"));

way_in!(rosc xosc pll_sys pll_usb reference sys peri usb adc);
