//! Writes OUT_DIR/core.rs and OUT_DIR/passes.rs, through which rustc reads the Rust's files unchanged. A file whose public
//! functions are asked is named where it stands. One whose private functions are asked is read from a copy, which is the
//! Rust's bytes and then those of src/access.
use std::{
    env, fs,
    path::{Path, PathBuf},
};

const CORE: [&str; 6] = [
    "arith",
    "expr",
    "expr_utils",
    "expr_cost",
    "width",
    "result",
];
const PASSES: [&str; 2] = ["atom_simplifier", "atom_identity_rewrite"];
/// Stand in for what was not published or is left out.
const CORE_STUBS: [&str; 4] = ["compiled", "evaluator", "pass_contract", "spot_check"];
const PASSES_STUBS: [&str; 2] = ["candidate_normalize", "classifier"];

fn main() {
    let here = PathBuf::from(env::var("CARGO_MANIFEST_DIR").unwrap());
    let crates = env::var("COBRA_SRC")
        .map_or_else(|_| here.join("../../shared/docs/src/crates"), PathBuf::from);
    // rustc would seek a relative path from OUT_DIR
    let crates = fs::canonicalize(&crates).unwrap_or_else(|e| {
        panic!("no folder {crates:?}, set COBRA_SRC to the Rust's crates folder: {e}")
    });
    let out = PathBuf::from(env::var("OUT_DIR").unwrap());
    println!("cargo:rerun-if-env-changed=COBRA_SRC");
    println!("cargo:rerun-if-changed=build.rs");

    let mut core = stubs(&CORE_STUBS, &here);
    for name in CORE {
        core += &module(name, &crates.join(format!("cobra-core/src/{name}.rs")));
    }
    fs::write(out.join("core.rs"), core).unwrap();

    let mut passes = stubs(&PASSES_STUBS, &here);
    for name in PASSES {
        let copy = out.join(format!("{name}.rs"));
        let original = crates.join(format!("cobra-passes/src/{name}.rs"));
        with_access(
            &original,
            &here.join(format!("src/access/{name}.rs")),
            &copy,
        );
        passes += &module(name, &copy);
    }
    fs::write(out.join("passes.rs"), passes).unwrap();
}

fn module(name: &str, file: &Path) -> String {
    println!("cargo:rerun-if-changed={}", file.display());
    format!("#[path = {file:?}]\npub mod {name};\n")
}

fn stubs(names: &[&str], here: &Path) -> String {
    let one = |name: &&str| module(name, &here.join(format!("src/stubs/{name}.rs")));
    names.iter().map(one).collect()
}

fn with_access(original: &Path, access: &Path, copy: &Path) {
    let mut text = Vec::new();
    for file in [original, access] {
        println!("cargo:rerun-if-changed={}", file.display());
        text.extend(fs::read(file).unwrap_or_else(|e| panic!("{file:?}: {e}")));
    }
    fs::write(copy, text).unwrap();
}
