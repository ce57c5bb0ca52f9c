//! The runner, written straight from docs/FORMAT.md, Runner: what the proved one is held against.

/// The most steps of a sheet, and its bytes.
pub const MAX_STEPS: usize = 66;
pub const MAX_BYTES: usize = 8 * MAX_STEPS;

/// Widths of the fields of kinds 1 to 45.
#[rustfmt::skip]
pub const WIDTHS: [&[u32]; 46] = [
    &[], &[25], &[25], &[25], &[], &[1], &[1], &[2], &[2], &[3, 3, 3, 3], &[3, 3, 3, 3], &[16], &[2], &[4], &[32], &[4],
    &[14], &[], &[], &[1, 1, 1, 1, 1], &[1, 6], &[1, 12], &[1], &[1, 3, 3], &[1], &[2], &[2], &[9], &[2, 1], &[24, 8],
    &[3], &[2], &[2, 2], &[2], &[2, 2], &[24, 8], &[2, 2], &[4, 32], &[], &[9], &[], &[9], &[], &[5], &[5], &[16, 16],
];

#[derive(Clone, Copy, Debug, PartialEq, Eq)]
pub struct Step {
    pub kind: u8,
    pub fields: [u32; 5],
}

#[derive(Clone, Copy, Debug, PartialEq, Eq)]
pub enum Reply {
    Done,
    Handed(Step),
    Passed,
    Waiting,
    Refused(u8),
}

#[derive(Clone, Debug, PartialEq, Eq)]
pub struct Runner {
    pub position: usize,
    pub lock_polls: u32,
    pub total: u32,
    pub stopped: bool,
    pub frequencies: [u32; 10],
    pub kept: [u8; MAX_BYTES],
    pub len: usize,
}

/// The step whose bytes these are, or nothing where it is refused.
fn unpack(bytes: [u8; 8]) -> Option<Step> {
    let word = u64::from_be_bytes(bytes);
    let kind = (word >> 58) as u8;
    let widths = WIDTHS.get(kind as usize).filter(|_| kind != 0)?;
    let mut fields = [0; 5];
    let mut rest = word << 6;
    for (field, width) in fields.iter_mut().zip(*widths) {
        *field = (rest >> (64 - width)) as u32;
        rest <<= width;
    }
    let stores = kind != 37 || fields[0] < 9 || fields[0] == 9 && fields[1] <= 65535;
    (rest == 0 && stores).then_some(Step { kind, fields })
}

fn no_length(len: usize) -> bool {
    len > MAX_BYTES || !len.is_multiple_of(8)
}

impl Runner {
    /// Before any start.
    pub fn fresh() -> Runner {
        Runner {
            position: 0,
            lock_polls: 0,
            total: 0,
            stopped: false,
            frequencies: [0; 10],
            kept: [0; MAX_BYTES],
            len: 0,
        }
    }

    /// The refusal, where there is one.
    pub fn start(&mut self, sheet: &[u8]) -> Option<u8> {
        if no_length(sheet.len()) {
            return Some(20);
        }
        *self = Runner::fresh();
        self.kept[..sheet.len()].copy_from_slice(sheet);
        self.len = sheet.len();
        None
    }

    #[inline(never)]
    pub fn poll(&mut self, sheet: &[u8], ready: bool) -> Reply {
        if self.position > MAX_STEPS || self.lock_polls > 999_999 || no_length(self.len) {
            return Reply::Refused(21);
        }
        if self.stopped {
            return Reply::Refused(22);
        }
        if *sheet != self.kept[..self.len] {
            return Reply::Refused(27);
        }
        let Some(bytes) = sheet.chunks_exact(8).nth(self.position) else {
            return Reply::Done;
        };
        let Some(step) = unpack(bytes.try_into().unwrap()) else {
            return Reply::Refused(20);
        };
        if !matches!(step.kind, 3 | 6 | 8 | 18 | 22) {
            if step.kind == 37 {
                self.frequencies[step.fields[0] as usize] = step.fields[1];
            }
            self.position += 1;
            return Reply::Handed(step);
        }
        if ready {
            self.position += 1;
            self.lock_polls = 0;
            return Reply::Passed;
        }
        self.total = self.total.saturating_add(1);
        if step.kind == 22 {
            if self.lock_polls == 999_999 {
                self.stopped = true;
                return Reply::Refused(22);
            }
            self.lock_polls += 1;
        }
        Reply::Waiting
    }
}
