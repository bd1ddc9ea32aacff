//! The fields of a request: lists of numbers with `/` between them.
use std::fmt::{LowerHex, Write};

/// The lists; an error where one has something that is no number.
pub fn lists(fields: &[&str]) -> Result<Vec<Vec<u64>>, String> {
    fields.split(|&f| f == "/").map(numbers).collect()
}

fn numbers(fields: &[&str]) -> Result<Vec<u64>, String> {
    fields.iter().map(|field| number(field)).collect()
}

/// Takes the one spelling that `hex` writes.
fn number(field: &str) -> Result<u64, String> {
    match u64::from_str_radix(field, 16) {
        Ok(n) if hex(n) == field => Ok(n),
        _ => Err(format!("not a number: {field:?}")),
    }
}

pub fn narrow(number: u64) -> Result<u32, String> {
    u32::try_from(number).map_err(|_| format!("over 32 bits: {number:x}"))
}

pub fn all_narrow(numbers: &[u64]) -> Result<Vec<u32>, String> {
    numbers.iter().map(|&n| narrow(n)).collect()
}

pub fn hex(n: u64) -> String {
    format!("{n:x}")
}

/// The numbers with a space before each.
pub fn listed<T: LowerHex>(numbers: &[T]) -> String {
    let mut text = String::new();
    for n in numbers {
        write!(text, " {n:x}").expect("a String takes every write");
    }
    text
}
