//! A refusal: its number and the two values that it carries.
use crate::core::result::{CobraError, ErrorInfo};

#[derive(Clone, Copy)]
pub struct Refusal {
    number: u32,
    first: u32,
    second: u32,
}

impl Refusal {
    pub const fn number(self) -> u32 {
        self.number
    }
}

/// A refusal that carries zeros.
pub const fn plain(number: u32) -> Refusal {
    Refusal {
        number,
        first: 0,
        second: 0,
    }
}

/// Refusals 10 to 13 are errors of the Rust, which tells their numbers in its text alone. Any other error is no answer.
pub fn of_error(error: &ErrorInfo) -> Result<Refusal, String> {
    if error.code != CobraError::InvalidArgument {
        return Err(format!("unknown error: {error}"));
    }
    of_text(&error.message).ok_or_else(|| format!("unknown error: {error}"))
}

fn of_text(text: &str) -> Option<Refusal> {
    if let Some(width) = text.strip_prefix("unsupported expression width: ") {
        return Some(Refusal {
            number: 10,
            first: width.parse().ok()?,
            second: 0,
        });
    }
    let (number, between) = if text.starts_with("width mismatch: operands are ") {
        (11, ["width mismatch: operands are ", " and ", " bits wide"])
    } else if text.starts_with("narrowing extension: ") {
        (
            12,
            ["narrowing extension: ", "-bit target over a ", "-bit child"],
        )
    } else {
        (
            13,
            ["widening truncation: ", "-bit target over a ", "-bit child"],
        )
    };
    let numbers = text.strip_prefix(between[0])?.strip_suffix(between[2])?;
    let (first, second) = numbers.split_once(between[1])?;
    Some(Refusal {
        number,
        first: first.parse().ok()?,
        second: second.parse().ok()?,
    })
}

pub fn text(r: Refusal) -> String {
    format!("refused {:x} {:x} {:x}", r.number, r.first, r.second)
}
