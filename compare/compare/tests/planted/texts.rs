//! Number texts: a last digit that is two off, and a byte behind the text.

use port::{Exports, EXPORTS};
use restated::texts::exact;

use crate::plant::{all_seen, flip, planted, Plant};

/// About one number in seven hundred is changed, so that one among a case's thousand is enough to be seen.
fn seldom(x: f64, text: &mut [u8], change: fn(f64, &mut [u8], usize)) -> u32 {
    let length = port::float_text(x, text);
    if x.to_bits() % 701 == 0 {
        change(x, text, length as usize);
    }
    length
}

/// Two more, from 8 on eight less, in the digit before the exponent; of texts that are right as they are, since one
/// that is one off may come near by it.
fn last_digit(x: f64, text: &mut [u8], length: usize) {
    if text[..length] != *exact(x).as_bytes() {
        return;
    }
    let mantissa = text[..length].split_mut(|byte| *byte == b'e').next();
    let last = mantissa.and_then(|mantissa| mantissa.last_mut());
    if let Some(digit) = last.filter(|byte| byte.is_ascii_digit()) {
        *digit = b'0' + (*digit - b'0' + 2) % 10;
        planted();
    }
}

#[test]
fn texts() {
    let digit = Exports {
        float_text: |x, text| seldom(x, text, last_digit),
        ..EXPORTS
    };
    let behind = Exports {
        float_text: |x, text| seldom(x, text, |_, text, length| flip(text[length..].first_mut())),
        ..EXPORTS
    };
    let on = |what, port| Plant {
        what,
        kind: "texts",
        port,
    };
    all_seen(&[
        on("a last digit by two", digit),
        on("a byte behind", behind),
    ]);
}
