//! The calls on trees of one width. The Rust's evaluator cannot be compiled without a file that was not published, so a value is
//! left to the solvers: this file gives the refusals, of which the Rust decides 8.
use crate::answer::{node_count, text};
use crate::core::expr::{Expr, Kind};
use crate::core::width;
use crate::refusal::{self, plain, Refusal};
use crate::words;
use std::sync::Arc;

/// Stands for the answer until `solve.py` puts it in.
const TO_SOLVE: &str = "solve";

pub fn check_one_width(words: &[u64], w: u32, widths: &[u32]) -> Result<String, String> {
    Ok(text(
        one_width(words, w, widths).map(|tree| node_count(&tree)),
    ))
}

pub fn value(words: &[u64], w: u32, widths: &[u32], setting: &[u64]) -> Result<String, String> {
    Ok(match one_width(words, w, widths) {
        Err(r) => refusal::text(r),
        Ok(tree) if !has_all_words(&tree, setting) => refusal::text(plain(15)),
        Ok(_) => TO_SOLVE.to_string(),
    })
}

/// The tree, or the first refusal of 1, 2 to 7, 8.
pub fn one_width(words: &[u64], w: u32, widths: &[u32]) -> Result<Arc<Expr>, Refusal> {
    let tree = words::read_at(words, w)?;
    if !width::is_uniform_width(&tree, widths, w) {
        return Err(plain(8));
    }
    Ok(tree)
}

fn has_all_words(tree: &Expr, setting: &[u64]) -> bool {
    let own = match tree.kind {
        Kind::Variable(i) => (i as usize) < setting.len(),
        _ => true,
    };
    own && tree
        .children
        .iter()
        .all(|child| has_all_words(child, setting))
}
