//! Number texts: `pgo_float_text` against Rust's own exact conversion, a thousand numbers a case.

use port::Exports;
use restated::random::Random;
use restated::texts::{judged, number};

use crate::comparison::Comparison;
use crate::tally::Checked;

/// A million numbers, whatever N is.
pub const CASES: usize = 1000;
const NUMBERS: usize = 1000;

const LENGTH: usize = 16;

/// What was met of texts.
#[derive(Default)]
pub struct Texts {
    numbers: usize,
    last_digit_differs: usize,
    largest_error: f64,
}

impl Texts {
    pub fn numbers(&self) -> usize {
        self.numbers
    }

    pub fn print(&self) {
        println!(
            "number texts {}, of which {} differ in the last digit; the largest error is {:.6} of that digit",
            self.numbers, self.last_digit_differs, self.largest_error
        );
    }
}

pub fn check_texts(random: &mut Random, index: usize, c: &mut Comparison) -> Checked {
    let mut lines = Vec::new();
    for k in 0..NUMBERS {
        let x = number(random, index * NUMBERS + k);
        lines.extend(check_text(&c.port, random, x, &mut c.tally.texts).err());
    }
    Checked {
        lines,
        input: format!("{NUMBERS} numbers"),
    }
}

fn check_text(
    port: &Exports,
    random: &mut Random,
    x: f64,
    texts: &mut Texts,
) -> Result<(), String> {
    let before = [random.next() as u8; LENGTH];
    let mut after = before;
    let length = (port.float_text)(x, &mut after) as usize;
    if length > LENGTH || after[length..] != before[length..] {
        return Err(format!("{x:?}: {length} back, {after:?} over {before:?}"));
    }
    let text = std::str::from_utf8(&after[..length]);
    let text = text.map_err(|_| format!("{x:?}: no text in {after:?}"))?;
    let near = judged(x, text)?;
    texts.numbers += 1;
    texts.last_digit_differs += usize::from(near.last_digit_differs);
    texts.largest_error = texts.largest_error.max(near.error);
    Ok(())
}
