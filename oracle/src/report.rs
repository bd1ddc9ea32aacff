//! Document 01's report: a frame a line, and what the chain makes of it. Lines, frames (`frame.rs`) and the text are the harness's.
use crate::answer::node_count;
use crate::chain;
use crate::core::expr::{Expr, Kind};
use crate::frame;
use crate::refusal::Refusal;
use std::io::{self, BufWriter, Read, Write};

const MOST_LINES: usize = 65_535;
/// 2,048 nodes, in words.
const WORK: u64 = 4096;

/// What is told of an accepted line.
struct Row {
    before: u64,
    after: u64,
    rewrites: u64,
    conditions: u64,
    end: String,
}

/// For the closing line.
#[derive(Default)]
struct Totals {
    lines: u64,
    refused: u64,
    before: u64,
    after: u64,
}

pub fn report() -> Result<(), String> {
    let mut input = Vec::new();
    io::stdin()
        .read_to_end(&mut input)
        .map_err(|e| e.to_string())?;
    write(&input, &mut BufWriter::new(io::stdout().lock())).map_err(|e| e.to_string())
}

fn write(input: &[u8], out: &mut impl Write) -> io::Result<()> {
    let mut totals = Totals::default();
    for line in input
        .split_inclusive(|&byte| byte == b'\n')
        .take(MOST_LINES)
    {
        totals.lines += 1;
        match row(line.strip_suffix(b"\n").unwrap_or(line)) {
            Err(refusal) => {
                totals.refused += 1;
                writeln!(out, "{:x} {:x} 0 0 0 0", totals.lines, refusal.number())?;
            }
            Ok(row) => {
                totals.before += row.before;
                totals.after += row.after;
                writeln!(
                    out,
                    "{:x} 0 {:x} {:x} {:x} {:x}\n{}",
                    totals.lines, row.before, row.after, row.rewrites, row.conditions, row.end
                )?;
            }
        }
    }
    let left = (100 * totals.after)
        .checked_div(totals.before)
        .unwrap_or_default();
    writeln!(out, "= {:x} {:x} {left:x}", totals.lines, totals.refused)?;
    out.flush()
}

/// A line without its 0a.
fn row(line: &[u8]) -> Result<Row, Refusal> {
    let (width, words) = frame::read(line)?;
    let (tree, end, rewrites) = chain::run(width, WORK, &[], &words)?;
    Ok(Row {
        before: words.len() as u64 / 2,
        after: node_count(&end),
        rewrites,
        conditions: conditions(&tree),
        end: frame::text(width, &end),
    })
}

/// The highest variable number plus one.
fn conditions(tree: &Expr) -> u64 {
    let own = match tree.kind {
        Kind::Variable(number) => u64::from(number) + 1,
        _ => 0,
    };
    let below = tree.children.iter().map(|child| conditions(child));
    below.fold(own, u64::max)
}
