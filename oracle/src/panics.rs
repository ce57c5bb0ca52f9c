//! A panic of the published code is an answer, not a message; any other panic is told apart from it.

use std::cell::{Cell, RefCell};
use std::panic::{self, AssertUnwindSafe};

thread_local! {
    static CATCHING: Cell<bool> = const { Cell::new(false) };
    /// Where the last caught panic came from, if not from the published code.
    static ELSEWHERE: RefCell<Option<String>> = const { RefCell::new(None) };
}

/// How code ended that did not come to its end.
#[derive(Debug, PartialEq, Eq)]
pub enum Panic {
    Published,
    Elsewhere(String),
}

/// Before the first `catch`.
pub fn install() {
    let default = panic::take_hook();
    panic::set_hook(Box::new(move |info| {
        if !CATCHING.get() {
            return default(info);
        }
        let file = info.location().map_or("", |place| place.file());
        if !file.starts_with(env!("OUT_DIR")) {
            ELSEWHERE.set(Some(info.to_string().replace('\n', " ")));
        }
    }));
}

pub fn catch<T>(code: impl FnOnce() -> T) -> Result<T, Panic> {
    ELSEWHERE.set(None);
    CATCHING.set(true);
    let result = panic::catch_unwind(AssertUnwindSafe(code));
    CATCHING.set(false);
    result.map_err(|_| ELSEWHERE.take().map_or(Panic::Published, Panic::Elsewhere))
}
