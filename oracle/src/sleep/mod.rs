//! Sleep and wake: the published `dormant_sleep`, which does both. What it does before it would stop the chip is the
//! sleep, what it does after is the wake.

pub mod cases;
mod registers;

use std::cell::RefCell;

use crate::answer::Answer;
use crate::case::Case;
use crate::panics::catch;
use crate::text::call;
use registers::{Board, Step, Words, exchange};

mod published {
    use super::registers::{RW, Reg, pac};

    include!(concat!(env!("OUT_DIR"), "/sleep.rs"));
}

/// A slot in the numbers of a case: whether it is saved, and its words.
const SLOT: usize = 12;
const SLOTS: usize = 4;
const CRYSTAL: usize = 9;

thread_local! {
    /// The words that the registers hold when the chip wakes up, then the board as it fell asleep.
    static NIGHT: RefCell<(Words, Board)> = RefCell::default();
}

/// Where the published code would enter dormant mode.
pub fn asleep() {
    NIGHT.with_borrow_mut(|(then, board)| *board = exchange(*then));
}

/// The board asleep and the board awake again. Between the two other words are written to the registers.
fn night(words: Words, then: Words) -> Result<(Board, Board), String> {
    exchange(words);
    NIGHT.set((then, Board::default()));
    catch(published::dormant_sleep).map_err(|panic| format!("{panic:?}"))?;
    let (asleep, awake) = (NIGHT.take().1, exchange(Words::default()));
    match asleep.unknown.as_ref().or(awake.unknown.as_ref()) {
        Some(what) => Err(what.clone()),
        None => Ok((asleep, awake)),
    }
}

/// The same with a crystal that counts as running unless its enable code says that it is off.
fn ruled_night(words: Words, then: Words) -> Result<(Board, Board), String> {
    let mut running = words;
    running[CRYSTAL] = words[CRYSTAL] & !(0xfff << 12) | 0xfab << 12;
    let (asleep, mut awake) = night(running, then)?;
    awake.words[CRYSTAL] = words[CRYSTAL];
    for step in &mut awake.steps {
        if let Step::Write(CRYSTAL, word) = step {
            *word = words[CRYSTAL];
        }
    }
    Ok((asleep, awake))
}

/// Whether the crystal's enable code is none.
fn no_code(words: &Words) -> bool {
    ![0xfab, 0xd1e].contains(&(words[CRYSTAL] >> 12 & 0xfff))
}

/// The numbers are slot, eleven words, four slots.
pub fn answer(case: &Case) -> Answer {
    let n = &case.numbers;
    let (slot, handed) = (n[0] as usize, &n[1..SLOT]);
    let mut slots = n[SLOT..].to_vec();
    let refused = |number: u8| Answer::Ruled(text(&format!("refused {number}"), handed, &n[SLOT..], &[]));
    if slot >= SLOTS {
        return refused(29);
    }
    let saved = &mut slots[slot * SLOT..(slot + 1) * SLOT];
    if case.name == "sleep" {
        saved[0] = 1;
        saved[1..].copy_from_slice(handed);
    } else if saved[0] == 0 {
        return refused(30);
    }
    let words: Words = saved[1..].try_into().unwrap();
    let then: Words = handed.try_into().unwrap();
    let night = if no_code(&words) { ruled_night } else { night };
    match night(words, then) {
        Err(what) => Answer::Unknown(what),
        Ok((asleep, awake)) => {
            let board = if case.name == "sleep" { asleep } else { awake };
            let steps: Vec<u32> = board.steps.iter().flat_map(|step| step.numbers()).collect();
            let text = text(&steps.len().to_string(), &board.words, &slots, &steps);
            if no_code(&words) { Answer::Ruled(text) } else { Answer::Says(text) }
        }
    }
}

/// How many numbers of steps there are, the words, the slots, and 28 numbers of steps, zeros past those written.
fn text(answer: &str, words: &[u32], slots: &[u32], steps: &[u32]) -> String {
    let mut written = steps.to_vec();
    written.resize(28, 0);
    call(answer, &[words, slots, &written].concat(), &[])
}
