//! The published clocks.rs, and a way to its private parts.

include!(concat!(env!("OUT_DIR"), "/clocks.rs"));

way_in!(rosc xosc pll_sys pll_usb reference sys peri usb adc rtc);
