//! The candidates of a node, answered by the Rust's atom_identity_rewrite.rs, which hands out all of them and no tags. The tag is told by
//! the matcher that a candidate comes from. Numbers, refusal 9, the words and that all other places are kept are the harness's.
use crate::answer::node_count;
use crate::core::expr::Expr;
use crate::fields::narrow;
use crate::passes::atom_identity_rewrite::access;
use crate::refusal::{self, plain, Refusal};
use crate::rewrite::{listed, repeated, MOST_OUT};
use crate::words;
use std::sync::Arc;

/// The width, the number and the lent words of a call, and how often it is made.
struct Call {
    width: u32,
    number: u64,
    out: u64,
    times: u32,
}

pub fn answer(name: &str, call: &[u64], words: &[u64]) -> Result<String, String> {
    match (name, call) {
        ("candidate", &[w, number, out]) => candidate(&read_call(w, number, out, 1)?, words),
        ("candidate_times", &[w, number, out, times]) => {
            candidate(&read_call(w, number, out, times)?, words)
        }
        _ => Err(format!("no request {name} of {} numbers", call.len())),
    }
}

fn read_call(width: u64, number: u64, out: u64, times: u64) -> Result<Call, String> {
    if out > MOST_OUT || times == 0 {
        return Err(format!("no such call: {out:x} {times:x}"));
    }
    Ok(Call {
        width: narrow(width)?,
        number,
        out,
        times: narrow(times)?,
    })
}

fn candidate(call: &Call, words: &[u64]) -> Result<String, String> {
    Ok(match accepted(call, words) {
        Err(r) => format!("{} / kept", refusal::text(r)),
        Ok(tree) => {
            repeated(call.times - 1, &tree, call.width, access::candidates);
            let all = tagged(&tree, call.width)?;
            match usize::try_from(call.number).ok().and_then(|n| all.get(n)) {
                None => format!("none {:x} / kept", all.len()),
                Some((tag, c)) => format!("{tag:x} {:x} /{} / kept", node_count(c), listed(c)),
            }
        }
    })
}

/// The tree, or the first refusal of 1, 2 to 7, 9.
fn accepted(call: &Call, words: &[u64]) -> Result<Arc<Expr>, Refusal> {
    let tree = words::read_at(words, call.width)?;
    if call.out < 2 * node_count(&tree) {
        return Err(plain(9));
    }
    Ok(tree)
}

/// All candidates with their tags: what the single matchers give must be what the Rust's own list has.
fn tagged(tree: &Expr, width: u32) -> Result<Vec<(u64, Arc<Expr>)>, String> {
    let all = access::tagged(tree, width);
    let own = access::candidates(tree, width);
    if all.iter().map(|(_, c)| c).eq(&own) {
        Ok(all)
    } else {
        Err("the matchers and try_match_all differ".to_string())
    }
}
