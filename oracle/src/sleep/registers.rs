//! A stand-in for the registers that `dormant_sleep` touches: eleven words, and the status of ring, crystal and PLLs.
//! Writes and waits are kept in order.

use std::cell::RefCell;
use std::marker::PhantomData;

use crate::pac::fields::Register;

pub type Words = [u32; 11];

/// What was done: a register's number and its new word, or what is waited for.
#[derive(Clone, Copy, Debug, PartialEq, Eq)]
pub enum Step {
    Write(usize, u32),
    Wait(&'static str),
}

impl Step {
    /// Two numbers: a register and its word, or a wait and 0.
    pub fn numbers(&self) -> [u32; 2] {
        match self {
            Step::Write(register, word) => [*register as u32, *word],
            Step::Wait(name) => [WAITS.iter().position(|wait| wait == name).unwrap() as u32 + 11, 0],
        }
    }
}

/// The waits, by their numbers from 11 on.
const WAITS: [&str; 4] = ["ring", "crystal", "lock0", "lock1"];

#[derive(Clone, Default)]
pub struct Board {
    pub words: Words,
    pub steps: Vec<Step>,
    /// What is being waited for: it was said to be not ready, and is ready when asked again.
    waiting: Option<&'static str>,
    pub unknown: Option<String>,
}

thread_local! {
    static BOARD: RefCell<Board> = RefCell::default();
}

/// Puts other words into the registers, and answers the board as it was.
pub fn exchange(words: Words) -> Board {
    let board = BOARD.replace(Board { words, ..Board::default() });
    match board.waiting {
        None => board,
        Some(name) => Board { unknown: Some(format!("a wait for {name} that passes too early")), ..board },
    }
}

pub struct RW;

/// A register: its number, and how its contents are made from a word.
pub struct Reg<T, A> {
    at: usize,
    of: fn(u32) -> T,
    word: fn(T) -> u32,
    access: PhantomData<A>,
}

impl<T, A> Clone for Reg<T, A> {
    fn clone(&self) -> Self {
        *self
    }
}

impl<T, A> Copy for Reg<T, A> {}

impl<T: Register, A> Reg<T, A> {
    const fn new(at: usize) -> Self {
        Reg { at, of: T::of, word: T::word, access: PhantomData }
    }
}

impl<T: Copy> Reg<T, RW> {
    pub fn write_value(&self, value: T) {
        let word = (self.word)(value);
        BOARD.with_borrow_mut(|board| {
            if let Some(name) = board.waiting.take() {
                board.unknown = Some(format!("a wait for {name} that passes too early"));
            }
            board.words[self.at] = word;
            board.steps.push(Step::Write(self.at, word));
        });
    }

    pub fn modify<R>(&self, change: impl FnOnce(&mut T) -> R) -> R {
        let mut value = (self.of)(BOARD.with_borrow(|board| board.words[self.at]));
        let result = change(&mut value);
        self.write_value(value);
        result
    }
}

/// A status, whose top bit says stable or locked.
pub struct Status<T> {
    name: &'static str,
    of: fn(u32) -> T,
}

impl<T: Register> Status<T> {
    const fn new(name: &'static str) -> Self {
        Status { name, of: T::of }
    }

    /// First every bit but the top one, which must hold a wait up, then that one alone.
    pub fn read(&self) -> T {
        const READY: u32 = 1 << 31;
        (self.of)(BOARD.with_borrow_mut(|board| match board.waiting.take() {
            Some(name) if name == self.name => READY,
            before => {
                if let Some(name) = before {
                    board.unknown = Some(format!("a wait for {name} that passes too early"));
                }
                board.waiting = Some(self.name);
                board.steps.push(Step::Wait(self.name));
                !READY
            }
        }))
    }
}

/// The names of rp-pac that `dormant_sleep` uses.
pub mod pac {
    use super::{RW, Reg, Status};
    use crate::pac::fields;

    macro_rules! block {
        ($block:ident { $($method:ident: $contents:ident, $at:literal;)* }
            $($status:ident: $of:ident, $name:literal)?) => {
            pub struct $block;
            impl $block {
                $(pub fn $method(&self) -> Reg<fields::$contents, RW> {
                    Reg::new($at)
                })*
                $(pub fn $status(&self) -> Status<fields::$of> {
                    Status::new($name)
                })?
            }
        };
    }

    block!(Clocks {
        clk_adc_ctrl: ClkAdcCtrl, 0;
        clk_usb_ctrl: ClkUsbCtrl, 1;
        clk_peri_ctrl: ClkPeriCtrl, 2;
        clk_ref_ctrl: ClkRefCtrl, 5;
        clk_sys_ctrl: ClkSysCtrl, 6;
    });
    block!(Rosc { ctrl: RoscCtrl, 3; div: RoscDiv12, 4; } status: OscStatus, "ring");
    block!(PllSys { pwr: Pwr, 7; } cs: Cs, "lock0");
    block!(PllUsb { pwr: Pwr, 8; } cs: Cs, "lock1");
    block!(Xosc { ctrl: XoscCtrl, 9; } status: OscStatus, "crystal");
    block!(XipCtrl { ctrl: XipCtrl, 10; });

    pub const CLOCKS: Clocks = Clocks;
    pub const ROSC: Rosc = Rosc;
    pub const PLL_SYS: PllSys = PllSys;
    pub const PLL_USB: PllUsb = PllUsb;
    pub const XOSC: Xosc = Xosc;
    pub const XIP_CTRL: XipCtrl = XipCtrl;

    pub use crate::pac::{clocks, rosc, xosc};
}
