//! Reads one request a line and writes it back with its answer, or with the argument `report` frames; README.md has the grammar.
use std::env;
use std::io::{self, BufWriter, Write};
use std::process::ExitCode;

/// The Rust that is ported, which seeks itself under `crate::core` and `crate::passes`.
#[allow(dead_code)]
mod core {
    include!(concat!(env!("OUT_DIR"), "/core.rs"));
}
#[allow(dead_code)]
mod passes {
    include!(concat!(env!("OUT_DIR"), "/passes.rs"));
}
/// What the Rust names and no request reaches.
#[allow(dead_code)]
#[path = "stubs"]
mod ir {
    pub mod semilinear;
}
#[allow(dead_code)]
#[path = "stubs/orchestrator.rs"]
mod orchestrator;

mod answer;
mod candidate;
mod chain;
mod cost;
mod fields;
mod frame;
mod refusal;
mod report;
mod rewrite;
mod value;
mod width;
mod words;

/// Ends at the first line that is no request, so that none gets into a stored list.
fn answer_all() -> Result<(), String> {
    let mut out = BufWriter::new(io::stdout().lock());
    for (before, line) in io::stdin().lines().enumerate() {
        let line = line.map_err(|e| e.to_string())?;
        let answer = answer::answer(&line).map_err(|e| format!("line {}: {e}", before + 1))?;
        writeln!(out, "{line} = {answer}").map_err(|e| e.to_string())?;
    }
    out.flush().map_err(|e| e.to_string())
}

fn run() -> Result<(), String> {
    let arguments: Vec<String> = env::args().skip(1).collect();
    match &arguments.iter().map(String::as_str).collect::<Vec<_>>()[..] {
        [] => answer_all(),
        ["report"] => report::report(),
        other => Err(format!("no such use: {other:?}")),
    }
}

fn main() -> ExitCode {
    match run() {
        Ok(()) => ExitCode::SUCCESS,
        Err(e) => {
            eprintln!("{e}");
            ExitCode::FAILURE
        }
    }
}
