//! Both sides answer the same to every input.

use dizbaral::{Chip, GpoutDiv, Progress};

use crate::clocks::{self, ClockConfig, Gpout};
use crate::inputs::{Inputs, MHZ, READING};
use crate::lines::LIST_BYTES;
use crate::peripherals::PIN_21;
use crate::plain::{gpout, halved_margin, pio, plain_list};
use crate::plain_runner::{Reply, Runner};
use crate::plan;
use crate::recorder;
use crate::standins::Peri;

impl Inputs {
    pub fn check(&self) {
        for &(input, target) in self.exact.iter().chain(&self.inexact).chain(&self.random) {
            let ours = dizbaral::find_pll_params(input, target).ok();
            let rust = clocks::search(input, target);
            let dividers = |c: dizbaral::PllConfig| (c.refdiv, c.fbdiv, c.post_div1, c.post_div2);
            assert_eq!(ours.map(dividers), rust.map(|c| (c.refdiv, c.fbdiv, c.post_div1, c.post_div2)));
        }
        let book = dizbaral::Book::open();
        for &(input, target) in self.exact.iter().chain(&self.inexact) {
            let found = dizbaral::find_pll_params(input, target);
            assert_eq!((book.lookup(target), dizbaral::lookup(target)), (found, found));
        }
        for &(input, target) in &self.inexact {
            let (low, high) = halved_margin(input, target);
            let margin = dizbaral::Margin { lower: low.checked_sub(1), higher: high.checked_add(1) };
            assert_eq!(dizbaral::target_margin(input, target), Ok(margin));
        }
        for &(input, target) in self.exact.iter().chain(&self.inexact) {
            let (mut ours, mut plain) = ([0; LIST_BYTES], [0; LIST_BYTES]);
            let length = dizbaral::list(input, target, &mut ours).ok();
            assert_eq!((length, ours), (plain_list(input, target, &mut plain), plain));
        }
        let mut sheet = [0; 528];
        for numbers in &self.plans {
            let length = dizbaral::plan_sheet(Chip::Rp2040, numbers, READING, &mut sheet).unwrap();
            recorder::start(READING);
            clocks::write_sheet(plan::config(numbers));
            assert_eq!(&sheet[..length], recorder::sheet());
        }
        recorder::start(READING);
        clocks::write_sheet(ClockConfig::system_freq(125 * MHZ).ok().unwrap());
        assert_eq!(self.sheet, recorder::sheet());
        for &(system, target) in &self.pio {
            assert_eq!(dizbaral::pio_divider(system, target), Ok(pio(system, target)));
        }
        clocks::preset_frequencies(&self.frequencies);
        let output = Gpout::new(Peri::new(PIN_21));
        for &(source, whole, fraction) in &self.gpout {
            recorder::set_gpout(source, whole, fraction);
            let ours =
                dizbaral::gpout_frequency(source, GpoutDiv::Rp2040 { whole, fraction }, &self.frequencies);
            assert_eq!(ours, Ok(gpout(&output)));
        }
        let (mut ours, mut rust) = (dizbaral::Runner::new(), Runner::fresh());
        assert_eq!((ours.start(&self.sheet), rust.start(&self.sheet)), (Ok(()), None));
        for _ in 0..=self.sheet.len() / 8 {
            for ready in [false, true] {
                let same = match (ours.poll(&self.sheet, ready), rust.poll(&self.sheet, ready)) {
                    (Ok(Progress::Done), Reply::Done) => true,
                    (Ok(Progress::Passed), Reply::Passed) => true,
                    (Ok(Progress::Waiting), Reply::Waiting) => true,
                    (Ok(Progress::Handed(word)), Reply::Handed(step)) => (word >> 58) as u8 == step.kind,
                    _ => false,
                };
                assert!(same);
            }
        }
        assert_eq!(ours.numbers()[5..], rust.frequencies);
    }
}
