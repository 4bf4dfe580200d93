//! A float in a text (document 02, Wish 2): which texts are well formed, how far one is from its number by Rust's
//! own exact conversion, and numbers of every size to try.

use crate::random::Random;

/// Six significant digits, 100000 to 999999, and the decimal exponent of the first.
#[derive(Copy, Clone, Debug, PartialEq)]
pub struct Decimal {
    pub negative: bool,
    pub digits: u64,
    pub exponent: i32,
}

/// A text that is right, or right but for one in the last digit, and its distance from the number in units of
/// that digit.
#[derive(Copy, Clone, Debug)]
pub struct Near {
    pub last_digit_differs: bool,
    pub error: f64,
}

impl Decimal {
    /// Plain from 0.0001 to below 1000000, else d.ddddde±X; trailing zeros are kept.
    pub fn text(self) -> String {
        let sign = if self.negative { "-" } else { "" };
        let digits = self.digits.to_string();
        match self.exponent {
            5 => format!("{sign}{digits}"),
            0..=4 => {
                let (whole, rest) = digits.split_at(self.exponent as usize + 1);
                format!("{sign}{whole}.{rest}")
            }
            -4..=-1 => {
                let zeros = "0".repeat((-self.exponent) as usize - 1);
                format!("{sign}0.{zeros}{digits}")
            }
            _ => {
                let (first, rest) = digits.split_at(1);
                format!("{sign}{first}.{rest}e{:+}", self.exponent)
            }
        }
    }

    /// The number that a text names; none where it is not the text of that number.
    pub fn read(text: &str) -> Option<Self> {
        let bare = text.strip_prefix('-').unwrap_or(text);
        let (mantissa, power) = match bare.split_once('e') {
            Some((mantissa, power)) => (mantissa, power.parse::<i32>().ok()?),
            None => (bare, 0),
        };
        let (whole, rest) = mantissa.split_once('.').unwrap_or((mantissa, ""));
        let all = format!("{whole}{rest}");
        let leading = all.find(|digit| digit != '0')?;
        let decimal = Self {
            negative: bare.len() < text.len(),
            digits: all[leading..].parse().ok()?,
            exponent: power + whole.len() as i32 - 1 - leading as i32,
        };
        (decimal.text() == text).then_some(decimal)
    }

    /// The digits and the exponent of a finite number that is not 0, correctly rounded to so many digits.
    fn rounded(x: f64, digits: usize) -> Self {
        let text = format!("{:.*e}", digits - 1, x.abs());
        let (mantissa, power) = text.split_once('e').expect("written with an exponent");
        let number = "digits and an exponent";
        Self {
            negative: x.is_sign_negative(),
            digits: mantissa.replace('.', "").parse().expect(number),
            exponent: power.parse().expect(number),
        }
    }
}

/// What is written of numbers that have no digits.
fn without_digits(x: f64) -> Option<&'static str> {
    match x {
        _ if x.is_nan() => Some("nan"),
        f64::INFINITY => Some("inf"),
        f64::NEG_INFINITY => Some("-inf"),
        0.0 if x.is_sign_negative() => Some("-0"),
        0.0 => Some("0"),
        _ => None,
    }
}

/// The one right text of a number.
pub fn exact(x: f64) -> String {
    match without_digits(x) {
        Some(text) => text.to_string(),
        None => Decimal::rounded(x, 6).text(),
    }
}

/// The distance of two numbers of six digits in units of the smaller one's last digit; none where they are far apart.
fn units_apart(a: Decimal, b: Decimal) -> Option<u64> {
    match a.exponent - b.exponent {
        0 => Some(a.digits.abs_diff(b.digits)),
        1 => Some((10 * a.digits).abs_diff(b.digits)),
        -1 => Some(a.digits.abs_diff(10 * b.digits)),
        _ => None,
    }
}

/// In units of the number's own sixth digit, from eighteen digits of it.
fn error(x: f64, told: Decimal) -> f64 {
    let finer = Decimal::rounded(x, 18);
    let scale = 10f64.powi(told.exponent - finer.exponent);
    let whole = told.digits as f64 * scale;
    let units = (finer.digits / 1_000_000_000_000) as f64;
    let part = (finer.digits % 1_000_000_000_000) as f64 / 1e12;
    ((whole - units) - part).abs()
}

/// The text of a number against the exact one.
pub fn judged(x: f64, text: &str) -> Result<Near, String> {
    if let Some(right) = without_digits(x) {
        return match text == right {
            true => Ok(Near {
                last_digit_differs: false,
                error: 0.0,
            }),
            false => Err(format!("{x:?} is written {text:?}, not {right:?}")),
        };
    }
    let told = Decimal::read(text).ok_or_else(|| format!("{x:?}: {text:?} is not well formed"))?;
    let exact = Decimal::rounded(x, 6);
    match units_apart(told, exact) {
        Some(apart @ 0..=1) if told.negative == exact.negative => Ok(Near {
            last_digit_differs: apart == 1,
            error: error(x, told),
        }),
        _ => Err(format!("{x:?} is written {text:?}, not {:?}", exact.text())),
    }
}

/// A number of any size, by the case's index and at random.
pub fn number(random: &mut Random, index: usize) -> f64 {
    let size = match index % 8 {
        0 => f64::from_bits(random.next()),
        1 => every_exponent(random, index / 8),
        2 => power_of_ten(random, index / 8),
        3 => f64::from_bits(random.next() >> random.between(12, 63)),
        4 => near_halfway(random),
        5 => halfway(random),
        6 => near_a_change_of_form(random),
        _ => random.wild64(),
    };
    if random.one_in(2) {
        -size
    } else {
        size
    }
}

/// The binary exponents one after the other, with a fraction at random or at either end.
fn every_exponent(random: &mut Random, index: usize) -> f64 {
    let exponent = (index % 2048) as u64;
    let fraction = match random.below(4) {
        0 => random.below(3) as u64,
        1 => (1 << 52) - 1 - random.below(3) as u64,
        _ => random.next() >> 12,
    };
    f64::from_bits(exponent << 52 | fraction)
}

/// A few numbers further up or down.
fn neighbour(random: &mut Random, x: f64) -> f64 {
    let by = random.between(0, 8) as i64 - 4;
    f64::from_bits(x.to_bits().saturating_add_signed(by))
}

fn written(text: String) -> f64 {
    text.parse().expect("a number is written")
}

fn power_of_ten(random: &mut Random, index: usize) -> f64 {
    let power = (index % 633) as i32 - 324;
    neighbour(random, written(format!("1e{power}")))
}

/// Next to the middle between two numbers of six digits.
fn near_halfway(random: &mut Random) -> f64 {
    let digits = random.between(100_000, 999_999);
    let power = random.between(0, 620) as i32 - 318;
    neighbour(random, written(format!("{digits}.5e{power}")))
}

/// Exactly in the middle: a half, or a whole number that f64 has.
fn halfway(random: &mut Random) -> f64 {
    let digits = random.between(100_000, 999_999) as f64;
    (digits + 0.5) * 10f64.powi(random.between(0, 9) as i32)
}

/// Where six nines become a one, and where a text changes its form.
fn near_a_change_of_form(random: &mut Random) -> f64 {
    let nines = random.pick(&[
        "9999995",
        "9999994999",
        "99999949",
        "1",
        "1000005",
        "999999",
    ]);
    let power = random.between(0, 16) as i32 - 8;
    let (first, rest) = nines.split_at(1);
    neighbour(random, written(format!("{first}.{rest}0e{power}")))
}

#[cfg(test)]
mod tests {
    use super::*;

    #[test]
    fn texts_by_hand() {
        for (x, text) in [
            (1.0, "1.00000"),
            (0.25, "0.250000"),
            (-123456.0, "-123456"),
            (0.000123456, "0.000123456"),
            (12.3456789, "12.3457"),
            (1e6, "1.00000e+6"),
            (999999.5, "1.00000e+6"),
            (1.23456789e-5, "1.23457e-5"),
            (0.0001, "0.000100000"),
            (5e-324, "4.94066e-324"),
            (-f64::MAX, "-1.79769e+308"),
            (0.0, "0"),
            (-0.0, "-0"),
            (f64::INFINITY, "inf"),
            (f64::NEG_INFINITY, "-inf"),
            (-f64::NAN, "nan"),
        ] {
            let near = judged(x, text).expect(text);
            assert!(
                !near.last_digit_differs && near.error <= 0.5000001,
                "{text}"
            );
        }
    }

    #[test]
    fn one_in_the_last_digit_is_near_and_two_are_not() {
        assert!(judged(1.0, "1.00001").is_ok_and(|near| near.last_digit_differs));
        assert!(judged(1.0, "1.00002").is_err());
        assert!(judged(1.0, "0.999999").is_ok_and(|near| near.last_digit_differs));
        assert!(judged(999999.4, "1.00000e+6").is_ok_and(|near| near.error > 0.59));
        assert!(judged(1.0, "0.999998").is_err());
        assert!(judged(0.5, "5.00000").is_err());
    }

    #[test]
    fn what_is_not_well_formed_is_told() {
        for text in [
            "",
            "-",
            "1",
            "1.0000",
            "1.000000",
            "+1.00000",
            "1.00000e0",
            "1.00000e+0",
            "01.0000",
            " 1.00000",
            "1.00000 ",
            "-1.00000",
            "1,00000",
            "1.00000e",
            "10.0000e-1",
            ".100000e+1",
        ] {
            assert!(judged(1.0, text).is_err(), "{text:?}");
        }
        for text in [
            "1.00000e6",
            "1.00000e+06",
            "1000000",
            "1.00000E+6",
            "1.00000e+7",
        ] {
            assert!(judged(1e6, text).is_err(), "{text:?}");
        }
        for (x, text) in [
            (0.0, "-0"),
            (-0.0, "0"),
            (0.0, "0.00000"),
            (f64::NAN, "-nan"),
        ] {
            assert!(judged(x, text).is_err(), "{text:?}");
        }
    }

    #[test]
    fn rust_writes_every_number_well() {
        for index in 0..20_000 {
            let x = number(&mut Random::of_case(3, 2, index), index as usize);
            let near = judged(x, &exact(x)).expect("it is its own text");
            assert!(!near.last_digit_differs && near.error <= 0.500001, "{x:?}");
        }
    }
}
