//! Candidates of the search with the Rust's output frequencies; those at 12 MHz are the book.

use std::cmp::Reverse;

use crate::plan;
use crate::rules::{self, Setting};

pub const INPUT: u32 = 12_000_000;

/// By output, equal outputs in the search's order: the greatest dividers first.
pub fn by_output(input: u32) -> Vec<(u32, Setting)> {
    let output = |(feedback, post1, post2)| plan::pll(&[1, feedback, post1, post2]).output_frequency(input);
    let mut entries: Vec<_> = rules::candidates(input).map(|setting| (output(setting), setting)).collect();
    entries.sort_by_key(|&(output, setting)| (output, Reverse(setting)));
    entries
}

/// What the program `book` prints.
pub fn text() -> String {
    let line = |(output, (feedback, post1, post2))| format!("{output} {feedback} {post1} {post2}\n");
    by_output(INPUT).into_iter().map(line).collect()
}
