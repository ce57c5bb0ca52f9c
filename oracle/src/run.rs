//! The exported calls of a runner and of a bench in text, by the plain runner; and random ones.

use crate::answer::{self, answer as answer_case};
use crate::case::Case;
use crate::generate;
use crate::plain_runner::{MAX_BYTES, MAX_STEPS, Reply, Runner, Step, WIDTHS};
use crate::random::Random;
use crate::text::{call, refused};

/// A board's numbers: position, lock polls, total, stopped mark, ten frequencies.
const BOARD: usize = 14;
const BOARDS: usize = 8;
/// The place of the kept length: in a runner before the frequencies, in a bench behind all boards.
const LEN: usize = 4;
const BENCH_LEN: usize = BOARDS * BOARD;

pub fn answer(case: &Case) -> String {
    let n = &case.numbers;
    match case.name {
        "start" => start(case, n, LEN),
        // BOARD is not looked at.
        "bench_start" => start(case, &n[1..], BENCH_LEN),
        "run" => {
            let mut board = n[1..].to_vec();
            let len = board.remove(LEN);
            let reply = poll(case, &mut board, len, n[0] == 1);
            board.insert(LEN, len);
            call(reply, &board, &[])
        }
        _ => {
            let (place, len, mut bench) = (n[0] as usize * BOARD, n[2 + BENCH_LEN], n[2..].to_vec());
            let reply = match bench[..BENCH_LEN].get_mut(place..place + BOARD) {
                Some(board) => poll(case, board, len, n[1] == 1),
                None => refused(28),
            };
            call(reply, &bench, &[])
        }
    }
}

/// A start that is refused leaves numbers and kept bytes, else all are fresh.
fn start(case: &Case, numbers: &[u32], len: usize) -> String {
    let mut numbers = numbers.to_vec();
    let mut runner = Runner { kept: kept(case), ..Runner::fresh() };
    let reply = runner.start(&case.sheet).map_or("0".to_string(), refused);
    if reply == "0" {
        numbers.fill(0);
        numbers[len] = runner.len as u32;
    }
    let shown = (numbers[len] as usize).min(MAX_BYTES);
    call(reply, &numbers, &runner.kept[..shown])
}

/// Zeros follow the bytes given.
fn kept(case: &Case) -> [u8; MAX_BYTES] {
    std::array::from_fn(|at| case.kept.get(at).copied().unwrap_or(0))
}

/// A call for a board.
fn poll(case: &Case, n: &mut [u32], len: u32, ready: bool) -> String {
    let mut runner = Runner {
        position: n[0] as usize,
        lock_polls: n[1],
        total: n[2],
        stopped: n[3] == 1,
        frequencies: n[4..].try_into().unwrap(),
        kept: kept(case),
        len: len as usize,
    };
    let reply = runner.poll(&case.sheet, ready);
    n[..4].copy_from_slice(&[runner.position as u32, runner.lock_polls, runner.total, runner.stopped.into()]);
    n[4..].copy_from_slice(&runner.frequencies);
    match reply {
        Reply::Done => "0".to_string(),
        Reply::Passed => "1".to_string(),
        Reply::Waiting => "2".to_string(),
        Reply::Refused(number) => refused(number),
        Reply::Handed(step) => word(step).to_string(),
    }
}

/// The word of a step: its kind in six bits, then its fields.
fn word(step: Step) -> u64 {
    let mut left = 58;
    let fields = step.fields.iter().zip(WIDTHS[step.kind as usize]).map(|(&field, width)| {
        left -= width;
        (field as u64) << left
    });
    fields.fold((step.kind as u64) << 58, |word, field| word | field)
}

/// A call whose sheet is mostly the kept one; most meet a step that is one, near a limit or not.
pub fn random(r: &mut Random, name: &'static str) -> Case {
    let (sheet, kept, len) = sheets(r);
    let steps = sheet.len() as u32 / 8;
    let mut numbers = vec![];
    if name.starts_with("bench") {
        numbers.push(if r.percent(97) { r.between(0, 7) } else { r.pick(&[8, 9, 15, 16, 127, 128, 255]) });
    }
    if name.ends_with("run") {
        numbers.push(r.between(0, 1));
    }
    if name.starts_with("bench") {
        (0..BOARDS).for_each(|_| numbers.extend(board(r, steps)));
        numbers.push(len);
    } else {
        let mut runner = board(r, steps);
        runner.insert(LEN, len);
        numbers.extend(runner);
    }
    Case { name, numbers, sheet, kept }
}

/// A runner's numbers without the kept length; one mark in a hundred is none.
fn board(r: &mut Random, steps: u32) -> Vec<u32> {
    let most = MAX_STEPS as u32;
    let position = match r.between(0, 19) {
        0..=17 => r.between(0, steps.saturating_sub(1)),
        18 => r.between(most - 5, most + 2),
        _ => r.any(),
    };
    let polls = match r.between(0, 19) {
        0..=9 => 0,
        10..=18 => r.pick(&[1, 999_998, 999_999]),
        _ => r.pick(&[1_000_000, u32::MAX]),
    };
    let total = if r.percent(80) { r.any() } else { u32::MAX - r.between(0, 1) };
    let mark = if r.percent(1) { r.pick(&[2, 255, u32::MAX]) } else { r.percent(5) as u32 };
    let mut numbers = vec![position, polls, total, mark];
    numbers.extend((0..10).map(|_| r.any()));
    numbers
}

/// The sheet handed in, the bytes kept and their length.
fn sheets(r: &mut Random) -> (Vec<u8>, Vec<u8>, u32) {
    let most = MAX_STEPS as u32;
    let steps = if r.percent(97) { r.between(1, most) } else { r.pick(&[0, most, most + 1, most + 4]) };
    let mut sheet = match r.between(0, 9) {
        0..=3 => plan_sheet(r),
        _ => (0..steps).flat_map(|_| step(r).to_be_bytes()).collect(),
    };
    if r.percent(3) {
        sheet.truncate(sheet.len().saturating_sub(r.between(1, 7) as usize));
    }
    let mut kept: Vec<u8> = sheet.iter().copied().take(MAX_BYTES).collect();
    let mut len = kept.len() as u32;
    match r.between(0, 39) {
        // One bit differs, anywhere.
        0..=3 if !kept.is_empty() => {
            let at = r.between(0, kept.len() as u32 - 1) as usize;
            kept[at] ^= 1 << r.between(0, 7);
        }
        // Another length, the bytes of which may be zeros past those given.
        4 => len = r.between(0, most) * 8,
        5 => len = r.pick(&[1, 7, 8 * most - 1, 8 * most, 8 * most + 1, 8 * most + 8, u32::MAX]),
        // Zeros at the sheet's end are not given.
        6 => {
            sheet.extend([0; 8]);
            len += 8;
        }
        _ => {}
    }
    (sheet, kept, len)
}

/// That of a random plan for one of the chips, in the Rust's bytes; none where eight are refused.
fn plan_sheet(r: &mut Random) -> Vec<u8> {
    let sheet = (0..8).find_map(|_| {
        let chip = r.between(0, 1);
        answer_case(&generate::of(r, "sheet", chip)).steps()
    });
    answer::bytes(&sheet.unwrap_or_default())
}

/// A step's word: a kind with any fields, waits more often than others; sometimes with other bits set.
fn step(r: &mut Random) -> u64 {
    let kind = match r.between(0, 9) {
        0..=4 => r.between(1, WIDTHS.len() as u32 - 1),
        5..=7 => r.pick(&[3, 6, 8, 18, 22]),
        8 => 37,
        _ => r.between(0, 63),
    };
    let used: u32 = WIDTHS.get(kind as usize).map_or(58, |widths| widths.iter().sum());
    let mut word = (kind as u64) << 58 | r.next() >> 6 & u64::MAX << (58 - used);
    if r.percent(2) {
        word ^= 1 << r.between(0, 63);
    }
    if kind == 37 {
        // Mostly one of the ten clocks.
        let clock = if r.percent(90) { r.between(0, 9) } else { r.between(0, 15) };
        let hz =
            if r.percent(50) { r.pick(&[0, 1, 46875, 65535, 65536, 12_000_000, u32::MAX]) } else { r.any() };
        word = 37 << 58 | (clock as u64) << 54 | (hz as u64) << 22;
    }
    word
}

/// Boards 7 and 8 and those past them, over the sheet of the crystal preset, one that is empty, and lengths that are refused.
pub fn limits() -> Vec<Case> {
    let crystal = answer::planned(&Case::new("crystal", &[0, 12_000_000])).unwrap_or_default();
    let crystal = answer_case(&Case::sheet(11, 1024, 0, &crystal)).steps().unwrap_or_default();
    let sheets = [answer::bytes(&crystal), vec![], vec![0; 4], vec![0; 8], vec![255; 528], vec![0; 536]];
    let mut cases = Vec::new();
    for sheet in sheets {
        let mut bench = vec![0; BENCH_LEN];
        bench.push(sheet.len() as u32);
        let kept: Vec<u8> = sheet.iter().copied().take(MAX_BYTES).collect();
        let case = |name, numbers: Vec<u32>| Case { name, numbers, sheet: sheet.clone(), kept: kept.clone() };
        cases.push(case("bench_start", [vec![0], bench.clone()].concat()));
        for board in [0, 7, 8, 9, 127, 128, 255] {
            cases.extend([0, 1].map(|ready| case("bench_run", [vec![board, ready], bench.clone()].concat())));
        }
    }
    cases
}
