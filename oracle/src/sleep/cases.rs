//! Cases of `sleep` and `wake`: first the limits, then random ones.

use crate::case::Case;
use crate::random::Random;

/// Every slot and those past them; crystals and PLLs on, off and between.
pub fn limits() -> Vec<Case> {
    const CODES: [u32; 6] = [0xfab, 0xd1e, 0, 0xfff, 0xfaa, 0xd1f];
    let mut boards = vec![[0; 11], [u32::MAX; 11]];
    for code in CODES {
        for power in [0, 1, 1 << 5, 1 << 5 | 1, 1 << 3 | 1 << 2, u32::MAX] {
            for other in [0, 1, 1 << 5, 1 << 5 | 1] {
                boards.push([0x800, 0x801, 0x802, 3, 4, 5, 6, power, other, code << 12 | 0xaa0, 10]);
            }
        }
    }
    let mut cases = Vec::new();
    for name in ["sleep", "wake"] {
        for board in &boards {
            let slots = [vec![0; 12], [&[1], board.as_slice()].concat(), vec![0; 12], vec![1; 12]].concat();
            let case = |slot: u32| [&[slot], board.as_slice(), &slots].concat();
            cases.extend([0, 1, 2, 3, 4, 255].map(|slot| Case::new(name, &case(slot))));
        }
    }
    cases
}

/// A slot, eleven words and four slots, most of them saved.
pub fn numbers(r: &mut Random) -> Vec<u32> {
    let slot = if r.percent(97) { r.between(0, 3) } else { r.between(4, 255) };
    let mut numbers = vec![slot];
    numbers.extend(words(r));
    for _ in 0..4 {
        let saved = r.percent(90);
        // One flag in a hundred is none.
        numbers.push(if r.percent(1) { r.between(2, 255) } else { saved as u32 });
        numbers.extend(if saved { words(r) } else { [0; 11] });
    }
    numbers
}

/// Any eleven words; the crystal mostly with one of its two enable codes.
fn words(r: &mut Random) -> [u32; 11] {
    let mut words = std::array::from_fn(|_| if r.percent(90) { r.next() as u32 } else { r.any() });
    if r.percent(90) {
        words[9] = words[9] & 0xff00_0fff | r.pick(&[0xfab, 0xd1e]) << 12;
    }
    words
}
