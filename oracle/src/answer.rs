//! One request to its answer. An error is a line that is no request.
use crate::core::expr::Expr;
use crate::core::{arith, expr_utils};
use crate::fields::{self, hex, narrow};
use crate::refusal::{self, Refusal};
use crate::words;
use crate::{candidate, chain, cost, frame, rewrite, value, width};

pub fn answer(request: &str) -> Result<String, String> {
    let mut fields = request.split(' ');
    let name = fields.next().unwrap_or_default();
    let fields: Vec<&str> = fields.collect();
    let lists = fields::lists(&fields)?;
    let lists: Vec<&[u64]> = lists.iter().map(|list| &list[..]).collect();
    match (name, &lists[..]) {
        (
            "check_tree_at" | "copy_words" | "number" | "put_digits" | "put_number" | "read_nodes"
            | "put_nodes" | "end_of" | "keep" | "nodes_in" | "read_frame" | "write_frame",
            lists,
        ) => frame::answer(name, lists),
        (_, [numbers]) => of_one_list(name, numbers),
        ("same_words", [left, right]) => Ok(hex(u64::from(same_words(left, right)))),
        ("is_better", [candidate, baseline]) => cost::is_better(candidate, baseline),
        ("candidate" | "candidate_times", [call, words]) => candidate::answer(name, call, words),
        (_, [call, words]) => rewrite::answer(name, call, words),
        ("chain" | "chain_times" | "chain_loop_times", [call, widths, words]) => {
            chain::answer(name, call, &fields::all_narrow(widths)?, words)
        }
        ("value", [&[w], widths, setting, words]) => {
            value::value(words, narrow(w)?, &fields::all_narrow(widths)?, setting)
        }
        ("check_one_width", [&[w], widths, words]) => {
            value::check_one_width(words, narrow(w)?, &fields::all_narrow(widths)?)
        }
        (_, [&[w], widths, words]) => {
            width::answer(name, words, &fields::all_narrow(widths)?, narrow(w)?)
        }
        _ => Err(format!("no request {name} of {} lists", lists.len())),
    }
}

fn of_one_list(name: &str, numbers: &[u64]) -> Result<String, String> {
    match (name, numbers) {
        ("arity_of", &[kind]) => Ok(text(words::arity(kind).map(|n| n as u64))),
        ("check_tree", words) => Ok(of_tree(words, node_count)),
        ("is_constant_subtree", words) => Ok(of_tree(words, |e| {
            u64::from(expr_utils::is_constant_subtree(e))
        })),
        ("has_var_dep", words) => Ok(of_tree(words, |e| u64::from(expr_utils::has_var_dep(e)))),
        ("span", words) => Ok(text(words::span(words).map(|n| n as u64))),
        ("compute_cost", words) => Ok(cost::compute_cost(words)),
        _ => arithmetic(name, numbers).map(hex),
    }
}

fn arithmetic(name: &str, numbers: &[u64]) -> Result<u64, String> {
    Ok(match (name, numbers) {
        ("bitmask", &[w]) => arith::bitmask(narrow(w)?),
        ("sign_bit_mask", &[w]) => arith::sign_bit_mask(narrow(w)?),
        ("mod_add", &[a, b, w]) => arith::mod_add(a, b, narrow(w)?),
        ("mod_sub", &[a, b, w]) => arith::mod_sub(a, b, narrow(w)?),
        ("mod_mul", &[a, b, w]) => arith::mod_mul(a, b, narrow(w)?),
        ("mod_neg", &[a, w]) => arith::mod_neg(a, narrow(w)?),
        ("mod_not", &[a, w]) => arith::mod_not(a, narrow(w)?),
        ("mod_shr", &[a, k, w]) => arith::mod_shr(a, k, narrow(w)?),
        ("zext", &[v, to]) => arith::zext(v, narrow(to)?),
        ("trunc", &[v, to]) => arith::trunc(v, narrow(to)?),
        ("sext", &[v, from, to]) => arith::sext(v, narrow(from)?, narrow(to)?),
        _ => return Err(format!("no request {name} of {} numbers", numbers.len())),
    })
}

fn of_tree(words: &[u64], value: impl Fn(&Expr) -> u64) -> String {
    text(words::read(words).map(|tree| value(&tree)))
}

pub fn node_count(tree: &Expr) -> u64 {
    1 + tree
        .children
        .iter()
        .map(|child| node_count(child))
        .sum::<u64>()
}

/// The Rust compares trees; lists that are none are compared as lists.
fn same_words(left: &[u64], right: &[u64]) -> bool {
    match (words::read(left), words::read(right)) {
        (Ok(a), Ok(b)) => a == b,
        _ => left == right,
    }
}

pub fn text(answer: Result<u64, Refusal>) -> String {
    match answer {
        Ok(n) => hex(n),
        Err(r) => refusal::text(r),
    }
}
