//! The width calls, answered by the Rust's width.rs.
use crate::core::expr::Expr;
use crate::core::{result, width};
use crate::fields::hex;
use crate::{refusal, words};

pub fn answer(name: &str, words: &[u64], widths: &[u32], w: u32) -> Result<String, String> {
    let call = match name {
        "checked_width_of" => checked_width_of,
        "width_of" => width_of,
        "is_uniform_width" => is_uniform_width,
        "validate_widths" => validate_widths,
        _ => return Err(format!("no request {name} of 3 lists")),
    };
    match words::read(words) {
        Ok(tree) => call(&tree, widths, w),
        Err(r) => Ok(refusal::text(r)),
    }
}

fn checked_width_of(tree: &Expr, widths: &[u32], w: u32) -> Result<String, String> {
    or_refusal(width::checked_width_of(tree, widths, w).map(|width| hex(width.into())))
}

fn width_of(tree: &Expr, widths: &[u32], w: u32) -> Result<String, String> {
    Ok(hex(width::width_of(tree, widths, w).into()))
}

fn is_uniform_width(tree: &Expr, widths: &[u32], w: u32) -> Result<String, String> {
    Ok(hex(width::is_uniform_width(tree, widths, w).into()))
}

fn validate_widths(tree: &Expr, widths: &[u32], w: u32) -> Result<String, String> {
    or_refusal(width::validate_widths(tree, widths, w).map(|()| "valid".to_string()))
}

fn or_refusal(found: result::Result<String>) -> Result<String, String> {
    match found {
        Ok(text) => Ok(text),
        Err(e) => refusal::of_error(&e).map(refusal::text),
    }
}
