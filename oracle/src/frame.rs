//! Digits, lines and frames. The Rust has none of them: the harness answers by document 01's words, for the requests and for the report.
use crate::answer::{self, node_count};
use crate::core::expr::Expr;
use crate::fields::{hex, listed, narrow};
use crate::refusal::{self, plain, Refusal};
use crate::rewrite::MOST_OUT;
use crate::words;
use std::fmt::{LowerHex, Write};
use std::sync::Arc;

/// The test program has no more room than this, in bytes.
const MOST_BYTES: u64 = 9472;
const MOST_NODES: usize = 512;

/// The digits of a frame's width, of a node and of its kind.
const WIDTH: usize = 2;
const NODE: usize = 18;
const KIND: usize = 2;
const END: u8 = b'\n';

pub fn answer(name: &str, lists: &[&[u64]]) -> Result<String, String> {
    match (name, lists) {
        ("check_tree_at", [&[w], words]) => check_tree_at(words_in(words)?, narrow(w)?),
        ("copy_words", [&[out], words]) => copy_words(words_in(words)?, word_room(out)?),
        ("number", [bytes]) => told_number(&bytes_in(bytes)?),
        ("put_digits", [&[n, k, out]]) => put_digits(n, narrow(k)? as usize, byte_room(out)?),
        ("put_number", [&[n, out]]) => put_number(n, byte_room(out)?),
        ("read_nodes", [&[out], bytes]) => read_nodes(&bytes_in(bytes)?, word_room(out)?),
        ("put_nodes", [&[out], words]) => put_nodes(words_in(words)?, byte_room(out)?),
        ("end_of", [bytes]) => Ok(hex(before_end(&bytes_in(bytes)?).len() as u64)),
        ("keep", [&[have, room], before, chunk]) => {
            let line = lent(byte_room(room)?, &bytes_in(before)?);
            keep(&bytes_in(chunk)?, line, narrow(have)? as usize)
        }
        ("nodes_in", [&[length]]) => Ok(hex(nodes_in(length as usize) as u64)),
        ("read_frame", [&[out], bytes]) => read_frame(&bytes_in(bytes)?, word_room(out)?),
        ("write_frame", [&[w, out], words]) => {
            write_frame(words_in(words)?, narrow(w)?, byte_room(out)?)
        }
        _ => Err(format!("no request {name} of {} lists", lists.len())),
    }
}

// What a request may have

fn room(size: u64, most: u64) -> Result<usize, String> {
    if size > most {
        return Err(format!("more than the room: {size:x}"));
    }
    usize::try_from(size).map_err(|e| e.to_string())
}

fn word_room(size: u64) -> Result<usize, String> {
    room(size, MOST_OUT)
}

fn byte_room(size: u64) -> Result<usize, String> {
    room(size, MOST_BYTES)
}

fn words_in(words: &[u64]) -> Result<&[u64], String> {
    word_room(words.len() as u64).map(|_| words)
}

fn bytes_in(numbers: &[u64]) -> Result<Vec<u8>, String> {
    byte_room(numbers.len() as u64)?;
    let bytes = numbers.iter().map(|&n| u8::try_from(n).ok());
    bytes
        .collect::<Option<_>>()
        .ok_or("a byte of more than 8 bits".to_string())
}

/// What is written at the front of the lent places; all others are kept.
fn written<T: LowerHex>(first: &str, front: &[T]) -> Result<String, String> {
    Ok(format!("{first} /{} / kept", listed(front)))
}

fn refused(refusal: Refusal) -> String {
    format!("{} / kept", refusal::text(refusal))
}

// Words

fn check_tree_at(words: &[u64], width: u32) -> Result<String, String> {
    let tree = words::read_at(words, width);
    Ok(answer::text(tree.map(|tree| node_count(&tree))))
}

fn copy_words(words: &[u64], out: usize) -> Result<String, String> {
    written("at", &words[..out.min(words.len())])
}

// Digits

fn digit(byte: u8) -> Option<u64> {
    match byte {
        b'0'..=b'9' => Some((byte - b'0').into()),
        b'a'..=b'f' => Some((byte - b'a' + 10).into()),
        _ => None,
    }
}

/// The number modulo 2^64, in which a byte that is no digit is a 0, and whether there is none such.
fn number(bytes: &[u8]) -> (u64, bool) {
    bytes.iter().fold((0, true), |(n, good), &byte| {
        let digit = digit(byte);
        (n << 4 | digit.unwrap_or(0), good & digit.is_some())
    })
}

fn told_number(bytes: &[u8]) -> Result<String, String> {
    let (value, good) = number(bytes);
    Ok(format!("{value:x} {:x}", u8::from(good)))
}

/// As many of the last bytes.
fn last(text: &str, count: usize) -> &[u8] {
    &text.as_bytes()[text.len().saturating_sub(count)..]
}

fn put_digits(n: u64, k: usize, out: usize) -> Result<String, String> {
    let count = k.min(out);
    written("at", last(&format!("{n:0count$x}"), count))
}

fn put_number(n: u64, out: usize) -> Result<String, String> {
    let text = format!("{n:x}");
    let digits = last(&text, out);
    written(&hex(digits.len() as u64), digits)
}

/// The words of nodes, and whether each byte is a digit.
fn of_nodes(bytes: &[u8]) -> (Vec<u64>, bool) {
    let mut words = Vec::with_capacity(2 * bytes.len() / NODE);
    let mut good = true;
    for node in bytes.chunks(NODE) {
        let (kind, operand) = node.split_at(KIND);
        for (word, each) in [number(kind), number(operand)] {
            words.push(word);
            good &= each;
        }
    }
    (words, good)
}

/// A kind has two digits, the last ones where it has more.
fn add_node(text: &mut String, kind: u64, operand: u64) {
    write!(text, "{:02x}{operand:016x}", kind & 0xff).expect("a String takes every write");
}

fn read_nodes(bytes: &[u8], out: usize) -> Result<String, String> {
    let count = (bytes.len() / NODE).min(out / 2);
    let (words, good) = of_nodes(&bytes[..count * NODE]);
    written(&hex(good.into()), &words)
}

fn put_nodes(words: &[u64], out: usize) -> Result<String, String> {
    let mut text = String::new();
    for node in words.chunks_exact(2).take(out / NODE) {
        add_node(&mut text, node[0], node[1]);
    }
    written("at", text.as_bytes())
}

// Lines

fn before_end(bytes: &[u8]) -> &[u8] {
    bytes.split(|&byte| byte == END).next().unwrap_or_default()
}

/// A line of so many bytes that begins with these, as far as they fit; behind them stand the test program's marks.
fn lent(room: usize, before: &[u8]) -> Vec<u8> {
    let marks = (before.len()..room).map(|place| 255 - (place % 128) as u8);
    let fitting = &before[..room.min(before.len())];
    fitting.iter().copied().chain(marks).collect()
}

fn keep(chunk: &[u8], mut line: Vec<u8>, have: usize) -> Result<String, String> {
    let more = before_end(chunk);
    let ended = more.len() < chunk.len();
    let mut kept = line[..have.min(line.len())].to_vec();
    kept.extend(more);
    kept.truncate(line.len());
    line[..kept.len()].copy_from_slice(&kept);
    let used = more.len() + usize::from(ended);
    let told = format!("{used:x} {:x} {:x}", u8::from(ended), kept.len());
    Ok(format!("{told} /{}", listed(&line)))
}

// Frames

/// The k of a length 2 + 18 × k, where it is from 1 to 512, else 0.
fn nodes_in(length: usize) -> usize {
    match length.checked_sub(WIDTH) {
        Some(digits) if digits % NODE == 0 && digits / NODE <= MOST_NODES => digits / NODE,
        _ => 0,
    }
}

/// The width and the words of a line that has the form of a frame, its 0a not counted.
pub fn read(line: &[u8]) -> Result<(u32, Vec<u64>), Refusal> {
    if nodes_in(line.len()) == 0 {
        return Err(plain(14));
    }
    let (width, nodes) = line.split_at(WIDTH);
    let (width, good) = number(width);
    let (words, all_good) = of_nodes(nodes);
    match u32::try_from(width) {
        Ok(width) if good && all_good => Ok((width, words)),
        _ => Err(plain(14)),
    }
}

/// The frame of a tree, without its 0a.
pub fn text(width: u32, tree: &Expr) -> String {
    let mut text = format!("{width:02x}");
    add_nodes(tree, &mut text);
    text
}

fn add_nodes(tree: &Expr, text: &mut String) {
    let (kind, operand) = words::words_of(&tree.kind);
    add_node(text, kind, operand);
    for child in &tree.children {
        add_nodes(child, text);
    }
}

/// A tree, and refusal 9 where fewer places are lent than it takes.
fn fitting(tree: Arc<Expr>, due: usize, out: usize) -> Result<Arc<Expr>, Refusal> {
    if out < due {
        return Err(plain(9));
    }
    Ok(tree)
}

/// The first refusal of 14, 1, then 6, 3, 4, 5 at each node, 7, 9. A list of 512 nodes at most has no refusal 2.
fn framed(line: &[u8], out: usize) -> Result<(u32, Arc<Expr>), Refusal> {
    let (width, words) = read(line.strip_suffix(&[END]).unwrap_or(line))?;
    let tree = words::read_at(&words, width)?;
    Ok((width, fitting(tree, words.len(), out)?))
}

fn read_frame(line: &[u8], out: usize) -> Result<String, String> {
    match framed(line, out) {
        Err(r) => Ok(refused(r)),
        Ok((width, tree)) => {
            let told = format!("{width:x} {:x}", node_count(&tree));
            written(&told, &words::write(&tree))
        }
    }
}

fn write_frame(words: &[u64], width: u32, out: usize) -> Result<String, String> {
    let tree = words::read_at(words, width)
        .and_then(|tree| fitting(tree, WIDTH + NODE * (words.len() / 2) + 1, out));
    match tree {
        Err(r) => Ok(refused(r)),
        Ok(tree) => {
            let line = text(width, &tree) + "\n";
            written(&hex(line.len() as u64), line.as_bytes())
        }
    }
}
