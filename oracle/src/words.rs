//! Trees as word lists, and the refusals of lists that are none. The Rust knows no words: this file is the harness's own.
use crate::core::expr::{Expr, Kind};
use crate::refusal::{plain, Refusal};
use smallvec::SmallVec;
use std::sync::Arc;

const MAX_WORDS: usize = 1024;
const MAX_DEPTH: usize = 64;
const MAX_U32: u64 = u32::MAX as u64;
const LAST_KIND: u64 = 13;

/// `read` for a call at this width: before all others 1, for a width outside 1 to 64.
pub fn read_at(words: &[u64], width: u32) -> Result<Arc<Expr>, Refusal> {
    if !(1..=64).contains(&width) {
        return Err(plain(1));
    }
    read(words)
}

/// The tree that the whole list is, or the first refusal: 2 for the list, one of 6, 3, 4, 5 for a node, 7 for the end.
pub fn read(words: &[u64]) -> Result<Arc<Expr>, Refusal> {
    check_length(words)?;
    check_nodes(words)?;
    let (tree, used) = build(words);
    assert_eq!(used, words.len());
    Ok(tree)
}

/// The number of words that the first subtree takes, or the first refusal of 2, then 6, 3 at each node.
pub fn span(words: &[u64]) -> Result<usize, Refusal> {
    check_length(words)?;
    words_taken(words)
}

/// A subtree takes two words and what its children take.
fn words_taken(words: &[u64]) -> Result<usize, Refusal> {
    let kind = *words.first().ok_or(plain(6))?;
    let mut taken = 2;
    for _ in 0..arity(kind)? {
        taken += words_taken(&words[taken..])?;
    }
    Ok(taken)
}

/// The number of children of a kind word, which the Rust tells, or refusal 3.
pub fn arity(kind: u64) -> Result<usize, Refusal> {
    if kind > LAST_KIND {
        return Err(plain(3));
    }
    Ok(kind_of(kind, 0).arity())
}

fn check_length(words: &[u64]) -> Result<(), Refusal> {
    if words.is_empty() || words.len() % 2 == 1 || words.len() > MAX_WORDS {
        return Err(plain(2));
    }
    Ok(())
}

fn check_nodes(words: &[u64]) -> Result<(), Refusal> {
    let mut nodes = words.chunks(2);
    let mut due = vec![1]; // depths of the nodes still due, the next one last
    while let Some(depth) = due.pop() {
        let node = nodes.next().ok_or(plain(6))?;
        let children = arity(node[0])?;
        if !operand_fits(node[0], node[1]) {
            return Err(plain(4));
        }
        if depth > MAX_DEPTH {
            return Err(plain(5));
        }
        due.extend(vec![depth + 1; children]);
    }
    match nodes.next() {
        None => Ok(()),
        Some(_) => Err(plain(7)),
    }
}

fn operand_fits(kind: u64, operand: u64) -> bool {
    match kind {
        0 => true,
        1 | 9..=12 => operand <= MAX_U32,
        _ => operand == 0,
    }
}

/// The first subtree of words that were checked, and how many it takes; the Rust tells the number of children.
fn build(words: &[u64]) -> (Arc<Expr>, usize) {
    let kind = kind_of(words[0], words[1]);
    let mut children = SmallVec::new();
    let mut used = 2;
    for _ in 0..kind.arity() {
        let (child, taken) = build(&words[used..]);
        children.push(child);
        used += taken;
    }
    (Arc::new(Expr { kind, children }), used)
}

fn kind_of(kind: u64, operand: u64) -> Kind {
    let small = || u32::try_from(operand).unwrap();
    match kind {
        0 => Kind::Constant(operand),
        1 => Kind::Variable(small()),
        2 => Kind::Add,
        3 => Kind::Mul,
        4 => Kind::And,
        5 => Kind::Or,
        6 => Kind::Xor,
        7 => Kind::Not,
        8 => Kind::Neg,
        9 => Kind::Shr(small()),
        10 => Kind::ZExt(small()),
        11 => Kind::SExt(small()),
        12 => Kind::Trunc(small()),
        13 => Kind::Concat,
        _ => unreachable!(),
    }
}

/// The words of a tree, which `read` gives back.
pub fn write(tree: &Expr) -> Vec<u64> {
    let (kind, operand) = words_of(&tree.kind);
    let mut words = vec![kind, operand];
    for child in &tree.children {
        words.extend(write(child));
    }
    words
}

pub fn words_of(kind: &Kind) -> (u64, u64) {
    match *kind {
        Kind::Constant(word) => (0, word),
        Kind::Variable(number) => (1, number.into()),
        Kind::Add => (2, 0),
        Kind::Mul => (3, 0),
        Kind::And => (4, 0),
        Kind::Or => (5, 0),
        Kind::Xor => (6, 0),
        Kind::Not => (7, 0),
        Kind::Neg => (8, 0),
        Kind::Shr(amount) => (9, amount.into()),
        Kind::ZExt(width) => (10, width.into()),
        Kind::SExt(width) => (11, width.into()),
        Kind::Trunc(width) => (12, width.into()),
        Kind::Concat => (13, 0),
    }
}
