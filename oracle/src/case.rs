//! Cases as text, by one table of names and letters. What is no case is `None`.

use crate::plain_runner::MAX_BYTES;
use crate::plan_numbers::{self, Fits};
use crate::text::{bytes, hex, number};

/// A letter for each word behind the name: f a flag, b 8 bits, h 16 bits, w 32 bits, o the same and absent from there on or
/// not, r a room; x and k the bytes of the sheet and those kept, in hex. A count before a letter repeats it.
pub const ROWS: [(&str, &str); 25] = [
    // INPUT REFDIV FBDIV POST1 POST2
    ("valid", "wbhbb"),
    ("output", "wbhbb"),
    // INPUT TARGET, or one of the two
    ("search", "ww"),
    ("usb_pll", "w"),
    ("book", "w"),
    ("margin", "ww"),
    // CHIP READING
    ("voltage", "fb"),
    // SYSTEM TARGET
    ("pio", "ww"),
    // CHIP SOURCE WHOLE FRACTION F0 to F9
    ("gpout", "fbwh10w"),
    // POLLS
    ("wait", "w"),
    // INPUT TARGET ROOM
    ("list", "wwr"),
    // CHIP, and what the preset takes
    ("crystal", "fw"),
    ("rosc", "f"),
    ("default", "f"),
    ("system", "fw"),
    ("system_from", "fww"),
    // HZ REFDIV FBDIV POST1 POST2 CODE
    ("manual", "wbhbbb"),
    // READING ROOM CHIP PLAN
    ("sheet", "brf43w5o"),
    // SHEET READING
    ("read", "xb"),
    // SHEET KEPT, at a bench BOARD, at a call READY, and the numbers of the runner or the bench
    ("start", "xk15w"),
    ("run", "xkf15w"),
    ("bench_start", "xkb113w"),
    ("bench_run", "xkbf113w"),
    // SLOT, eleven words, four slots
    ("sleep", "b59w"),
    ("wake", "b59w"),
];

/// A case: its numbers in the order of the text, and the bytes of its words of hex.
#[derive(Clone, Debug, PartialEq, Eq)]
pub struct Case {
    pub name: &'static str,
    pub numbers: Vec<u32>,
    pub sheet: Vec<u8>,
    pub kept: Vec<u8>,
}

/// A line with more bytes is no case, and of a sheet more bytes are not read.
const LONGEST: usize = 4096;
const LONGEST_SHEET: usize = 2048;

/// The letters of a row, a count as so many letters.
pub fn letters(row: &str) -> impl Iterator<Item = char> {
    let mut count = 0;
    row.chars().flat_map(move |c| {
        let repeats = match c.to_digit(10) {
            Some(digit) => {
                count = count * 10 + digit as usize;
                0
            }
            None => std::mem::take(&mut count).max(1),
        };
        std::iter::repeat_n(c, repeats)
    })
}

fn limit(letter: char) -> u32 {
    match letter {
        'f' => 1,
        'b' => u8::MAX.into(),
        'h' => u16::MAX.into(),
        'r' => 1024,
        _ => u32::MAX,
    }
}

impl Case {
    pub fn new(name: &'static str, numbers: &[u32]) -> Case {
        Case { name, numbers: numbers.to_vec(), sheet: vec![], kept: vec![] }
    }

    pub fn sheet(reading: u32, room: u32, chip: u32, plan: &[u32]) -> Case {
        Case::new("sheet", &[&[reading, room, chip], plan].concat())
    }

    pub fn parse(line: &str) -> Option<Case> {
        let mut words = line.split(' ');
        let first = words.next()?;
        let &(name, row) = ROWS.iter().find(|(name, _)| *name == first)?;
        let mut case = Case::new(name, &[]);
        for letter in letters(row) {
            match (letter, words.next()) {
                ('o', None) => break,
                ('x', word) => case.sheet = bytes(word?).filter(|sheet| sheet.len() <= LONGEST_SHEET)?,
                ('k', word) => case.kept = bytes(word?).filter(|kept| kept.len() <= MAX_BYTES)?,
                (_, word) => case.numbers.push(number(word?).filter(|&number| number <= limit(letter))?),
            }
        }
        (words.next().is_none() && line.len() <= LONGEST && case.well_formed()).then_some(case)
    }

    fn letters(&self) -> impl Iterator<Item = char> {
        letters(ROWS.iter().find(|(name, _)| *name == self.name).expect("a row").1)
    }

    pub fn text(&self) -> String {
        let mut numbers = self.numbers.iter();
        let word = |bytes: &[u8]| if bytes.is_empty() { "-".to_string() } else { hex(bytes) };
        let words = self.letters().map_while(|letter| match letter {
            'x' => Some(word(&self.sheet)),
            'k' => Some(word(&self.kept)),
            _ => numbers.next().map(u32::to_string),
        });
        words.fold(self.name.to_string(), |text, word| text + " " + &word)
    }

    /// 0 the RP2040, 1 the RP235x, where the case names one.
    pub fn chip(&self) -> Option<u32> {
        match self.name {
            "voltage" | "gpout" | "crystal" | "rosc" | "default" | "system" | "system_from" => {
                Some(self.numbers[0])
            }
            "sheet" => Some(self.numbers[2]),
            _ => None,
        }
    }

    /// The lent buffer's length, and the plan, of a `sheet`.
    pub fn room(&self) -> usize {
        self.numbers[1] as usize
    }

    pub fn plan(&self) -> &[u32] {
        &self.numbers[3..]
    }

    /// Whether the call takes the numbers: those of no plan, no divider, no voltage, no runner and no slots are no case. That
    /// there is no such board or slot is said before.
    pub fn well_formed(&self) -> bool {
        let n = &self.numbers;
        match self.name {
            "gpout" => n[0] == 1 || n[3] <= u8::MAX.into(),
            "manual" => Fits::Code.accepts(n[5]),
            "sheet" => plan_numbers::whole(n[2], self.plan()),
            "run" => n[1 + 3] <= 1,
            "bench_run" => n[0] > 7 || n[2 + 14 * n[0] as usize + 3] <= 1,
            "sleep" | "wake" => n[0] > 3 || n[12..].iter().step_by(12).all(|&flag| flag <= 1),
            _ => true,
        }
    }
}
