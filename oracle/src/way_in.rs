//! A way to the private parts of the published clocks.rs, the same for each chip.

/// The clocks, in the order of their numbers at kind 37.
macro_rules! way_in {
    ($($clock:ident)*) => {
        pub fn search(input: u32, target: u32) -> Option<PllConfig> {
            find_pll_params(input, target)
        }

        pub fn brownout_level(voltage: CoreVoltage) -> u8 {
            voltage.recommended_bod()
        }

        /// The number of the clock whose atomic is at this address.
        pub fn clock_number(address: usize) -> Option<u32> {
            let clocks = [$(CLOCKS.$clock.address()),*];
            clocks.iter().position(|&clock| clock == address).map(|number| number as u32)
        }

        /// Sets the frequencies without recording it. Nothing compared reads the RTC's: a value over its 16 bits does no harm.
        pub fn preset_frequencies(hz: &[u32; 10]) {
            let mut hz = hz.iter();
            $(CLOCKS.$clock.preset(*hz.next().unwrap() as _);)*
        }
    };
}
