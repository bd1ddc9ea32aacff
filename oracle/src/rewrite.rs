//! The rewrites, answered by the Rust's atom_simplifier.rs. The Rust writes into no lent places: refusal 9, the words of a
//! replacement and that all other places are kept are the harness's.
use crate::answer::node_count;
use crate::core::expr::Expr;
use crate::fields::{self, narrow};
use crate::passes::atom_simplifier::access;
use crate::refusal::{self, plain, Refusal};
use crate::words;
use std::hint::black_box;
use std::sync::Arc;

/// The test program has no more room than this, in words and in bytes.
pub const MOST_OUT: u64 = 1100;
const MOST_PATH: u64 = 100;
/// Enough for every path in a tree of 64 levels.
const PATH_DUE: u64 = 63;

/// The widths and sizes of a call, and how often it is made.
struct Call {
    width: u32,
    out: u64,
    path: u64,
    times: u32,
}

pub fn answer(name: &str, call: &[u64], words: &[u64]) -> Result<String, String> {
    match (name, call) {
        ("local", &[w, out]) => local(&read_call(w, out, PATH_DUE, 1)?, words),
        ("local_times", &[w, out, times]) => local(&read_call(w, out, PATH_DUE, times)?, words),
        ("site", &[w, out, path]) => site(&read_call(w, out, path, 1)?, words),
        ("site_times", &[w, out, path, times]) => site(&read_call(w, out, path, times)?, words),
        _ => Err(format!("no request {name} of 2 lists")),
    }
}

fn read_call(width: u64, out: u64, path: u64, times: u64) -> Result<Call, String> {
    if out > MOST_OUT || path > MOST_PATH || times == 0 {
        return Err(format!("no such call: {out:x} {path:x} {times:x}"));
    }
    Ok(Call {
        width: narrow(width)?,
        out,
        path,
        times: narrow(times)?,
    })
}

fn local(call: &Call, words: &[u64]) -> Result<String, String> {
    Ok(match accepted(call, words) {
        Err(r) => format!("{} / kept", refusal::text(r)),
        Ok(tree) => match last(call, &tree, access::local) {
            None => "none / kept".to_string(),
            Some(after) => format!("{:x} /{} / kept", node_count(&after), listed(&after)),
        },
    })
}

fn site(call: &Call, words: &[u64]) -> Result<String, String> {
    Ok(match accepted(call, words) {
        Err(r) => format!("{} / kept kept", refusal::text(r)),
        Ok(tree) => match last(call, &tree, access::first_site) {
            None => "none / kept kept".to_string(),
            Some((path, after)) => format!(
                "{:x} {:x} /{} /{} / kept kept",
                path.len(),
                node_count(&after),
                fields::listed(&path),
                listed(&after)
            ),
        },
    })
}

/// The tree, or the first refusal of 1, 2 to 7, 9.
fn accepted(call: &Call, words: &[u64]) -> Result<Arc<Expr>, Refusal> {
    let tree = words::read_at(words, call.width)?;
    if call.out < 2 * (node_count(&tree) + 1) || call.path < PATH_DUE {
        return Err(plain(9));
    }
    Ok(tree)
}

/// Makes a call so many times, for measuring; `black_box` keeps it from being left out.
pub fn repeated<T>(times: u32, tree: &Expr, width: u32, asked: fn(&Expr, u32) -> T) {
    for _ in 0..times {
        black_box(asked(black_box(tree), black_box(width)));
    }
}

/// The answer of the last call.
fn last<T>(call: &Call, tree: &Expr, rewrite: fn(&Expr, u32) -> T) -> T {
    repeated(call.times - 1, tree, call.width, rewrite);
    rewrite(tree, call.width)
}

/// The words of a tree, with a space before each.
pub fn listed(tree: &Expr) -> String {
    fields::listed(&words::write(tree))
}
