//! The chain. The Rust's own loop over first sites makes certificates by files that were not published: the harness makes document 01's
//! list of trees from the Rust's first site and its replacement. Refusal 9, the words and the zeros behind them are the harness's.
use crate::answer::node_count;
use crate::core::expr::{Expr, Kind};
use crate::fields::narrow;
use crate::passes::atom_simplifier::access;
use crate::refusal::{self, plain, Refusal};
use crate::rewrite::listed;
use crate::value::one_width;
use crate::words;
use std::hint::black_box;
use std::sync::Arc;

/// The test program has no more room than this, in words.
const MOST_WORK: u64 = 26_240;

/// The width and the lent words of a call, and how often it is made.
struct Call {
    width: u32,
    work: u64,
    times: u32,
}

pub fn answer(name: &str, call: &[u64], widths: &[u32], words: &[u64]) -> Result<String, String> {
    match (name, call) {
        ("chain", &[w, work]) => chain(&read_call(w, work, 1)?, widths, words, whole),
        ("chain_times", &[w, work, times]) => {
            chain(&read_call(w, work, times)?, widths, words, whole)
        }
        ("chain_loop_times", &[w, work, times]) => {
            chain(&read_call(w, work, times)?, widths, words, loop_alone)
        }
        _ => Err(format!("no request {name} of {} numbers", call.len())),
    }
}

/// The tree of a call with so many words lent, the last of its list, and how many stand before that.
pub fn run(
    width: u32,
    work: u64,
    widths: &[u32],
    words: &[u64],
) -> Result<(Arc<Expr>, Arc<Expr>, u64), Refusal> {
    let call = Call {
        width,
        work,
        times: 1,
    };
    let tree = accepted(&call, widths, words)?;
    let (end, count) = end_of(&tree, width);
    Ok((tree, end, count))
}

fn read_call(width: u64, work: u64, times: u64) -> Result<Call, String> {
    if work > MOST_WORK || times == 0 {
        return Err(format!("no such call: {work:x} {times:x}"));
    }
    Ok(Call {
        width: narrow(width)?,
        work,
        times: narrow(times)?,
    })
}

/// What is repeated for measuring: from a call, its widths and words, and the tree that they stand for.
type Repeated = fn(&Call, &[u32], &[u64], &Arc<Expr>);

/// What the proved call does: words are read and checked, and the end tree's words are written.
fn whole(call: &Call, widths: &[u32], words: &[u64], _: &Arc<Expr>) {
    if let Ok(tree) = accepted(call, widths, words) {
        let (end, count) = end_of(&tree, call.width);
        black_box((words::write(&end), count));
    }
}

/// The Rust's functions on a tree that is built and checked.
fn loop_alone(call: &Call, _: &[u32], _: &[u64], tree: &Arc<Expr>) {
    black_box(end_of(tree, call.width));
}

fn chain(call: &Call, widths: &[u32], words: &[u64], repeat: Repeated) -> Result<String, String> {
    Ok(match accepted(call, widths, words) {
        Err(r) => format!("{} / kept", refusal::text(r)),
        Ok(tree) => {
            for _ in 1..call.times {
                repeat(call, widths, black_box(words), black_box(&tree));
            }
            let (end, count) = end_of(&tree, call.width);
            format!("{:x} {count:x} /{} / zero", node_count(&end), listed(&end))
        }
    })
}

/// The tree, or the first refusal of 1, 2 to 7, 8, 9.
fn accepted(call: &Call, widths: &[u32], words: &[u64]) -> Result<Arc<Expr>, Refusal> {
    let tree = one_width(words, call.width, widths)?;
    if call.work < 2 * (node_count(&tree) + pairs(&tree, 0)) {
        return Err(plain(9));
    }
    Ok(tree)
}

/// D: the pairs of an And or Or node and a Not that is a proper ancestor of it, where so many Nots stand above the tree.
fn pairs(tree: &Expr, above: u64) -> u64 {
    let own = match tree.kind {
        Kind::And | Kind::Or => above,
        _ => 0,
    };
    let for_children = above + u64::from(matches!(tree.kind, Kind::Not));
    own + tree
        .children
        .iter()
        .map(|child| pairs(child, for_children))
        .sum::<u64>()
}

/// The last of document 01's list of trees, and how many stand before it.
fn end_of(tree: &Arc<Expr>, width: u32) -> (Arc<Expr>, u64) {
    let mut last = Arc::clone(tree);
    let mut count = 0;
    while let Some((path, replacement)) = access::first_site(&last, width) {
        last = replaced(&last, &path, replacement);
        count += 1;
    }
    (last, count)
}

/// The tree with the subtree at the path replaced; all others are shared with it.
fn replaced(tree: &Arc<Expr>, path: &[u8], replacement: Arc<Expr>) -> Arc<Expr> {
    let Some((&step, rest)) = path.split_first() else {
        return replacement;
    };
    let mut children = tree.children.clone();
    let child = &mut children[usize::from(step)];
    *child = replaced(child, rest, replacement);
    Arc::new(Expr {
        kind: tree.kind.clone(),
        children,
    })
}
