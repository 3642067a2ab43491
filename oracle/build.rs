//! Lays out the Rust that the port is compared with: `utility.rs` and `peak.rs` of MSCORE_SRC, unchanged, each followed by
//! one line that declares a child module, through which the comparison reaches private items. Then both again, below `stable`, with one
//! change: a frame's points are sorted by bin with a sort that keeps the order of points of one bin. The Rust leaves that order open,
//! and its own sort keeps it up to 20 points only. The comparison's own modules, those of src, are declared here too.
//!
//! With TURNED, which `oracle/turned` sets, rules are turned (`turn.rs`): where it is the number of a line of `turned.list`, that one rule of
//! the Rust; where it is `own`, all of the comparison's own, of which the program is told one when it runs. Such an oracle prints samples
//! alone, with a head of their own. A third tree, `unturned`, has the Rust that makes inputs.
use std::path::{Path, PathBuf};
use std::{env, fs};

#[path = "turn.rs"]
mod turn;
use turn::{switched, Turn};

fn main() {
    let here = PathBuf::from(env::var("CARGO_MANIFEST_DIR").unwrap());
    let src = env::var("MSCORE_SRC").map(PathBuf::from).unwrap_or_else(|_| here.join("../../shared/docs/src"));
    let out = PathBuf::from(env::var("OUT_DIR").unwrap());
    let turned = env::var("TURNED").ok();
    let list = turned.as_ref().map_or(String::new(), |_| fs::read_to_string(here.join("turned.list")).unwrap());
    let turn = turned.as_ref().and_then(|t| t.parse().ok()).map(|number| Turn::read(&list, number));
    let own_turns = if turned.as_deref() == Some("own") { Turn::own(&list) } else { Vec::new() };
    for tree in ["cluster", "stable", "unturned"] {
        let mut modules = String::new();
        for name in ["utility", "peak"] {
            let from = src.join("ms-io/src/cluster").join(format!("{name}.rs"));
            let mut text = fs::read_to_string(&from).unwrap_or_else(|e| panic!("{}: {e}", from.display()));
            if let Some(turn) = turn.as_ref().filter(|t| t.file == name && tree != "unturned") {
                text = turn.of(&text);
            }
            if tree != "cluster" {
                text = stable(name, &text, tree);
            }
            let to = out.join(format!("{tree}_{name}.rs"));
            fs::write(&to, format!("{text}\n{}", module(&here.join(format!("src/within_{name}.rs")), "within"))).unwrap();
            modules.push_str(&module(&to, name));
            println!("cargo:rerun-if-changed={}", from.display());
        }
        fs::write(out.join(format!("{tree}.rs")), modules).unwrap();
    }
    fs::write(out.join("own.rs"), own(&here.join("src"), &out, own_turns)).unwrap();
    println!("cargo:rerun-if-env-changed=MSCORE_SRC");
    println!("cargo:rerun-if-env-changed=TURNED");
    println!("cargo:rerun-if-changed=build.rs");
    println!("cargo:rerun-if-changed=turn.rs");
    println!("cargo:rerun-if-changed=src");
    println!("cargo:rustc-check-cfg=cfg(turned)");
    if let Some(turned) = turned {
        println!("cargo:rustc-cfg=turned");
        println!("cargo:rustc-env=TURNED={turned}");
        println!("cargo:rerun-if-changed=turned.list");
        return;
    }
    let archives = here.join("../target/staticlib");
    println!("cargo:rustc-link-search=native={}", archives.display());
    println!("cargo:rustc-link-lib=static=test_probe");
    println!("cargo:rerun-if-changed={}", archives.join("libtest_probe.a").display());
}

/// The text with the sort that keeps the order, for the trees below `stable` and `unturned`.
fn stable(name: &str, text: &str, tree: &str) -> String {
    const SORT: &str = ".sort_unstable_by_key(";
    assert_eq!(text.matches(SORT).count(), (name == "peak") as usize, "{name}.rs: the sort by bin is the only one by key");
    text.replace(SORT, ".sort_by_key(").replace("crate::cluster::", &format!("crate::{tree}::"))
}

/// The comparison's own modules: all files of src but the program and what stands inside of the Rust's.
fn own(src: &Path, out: &Path, turns: Vec<Turn>) -> String {
    let mut files: Vec<PathBuf> = fs::read_dir(src).unwrap().map(|f| f.unwrap().path()).collect();
    files.sort();
    let mut modules = String::new();
    let mut turns = turns;
    for file in files {
        let name = file.file_stem().unwrap().to_str().unwrap();
        if name == "main" || name.starts_with("within_") {
            continue;
        }
        let (here, others): (Vec<Turn>, Vec<Turn>) = turns.into_iter().partition(|t| t.file == format!("own/{name}"));
        turns = others;
        if here.is_empty() {
            modules.push_str(&module(&file, name));
        } else {
            let to = out.join(format!("own_{name}.rs"));
            fs::write(&to, switched(&fs::read_to_string(&file).unwrap(), &here)).unwrap();
            modules.push_str(&module(&to, name));
        }
    }
    assert!(turns.is_empty(), "turned.list names a file of src that is not there: {}", turns[0].file);
    modules
}

fn module(path: &Path, name: &str) -> String {
    format!("#[path = {:?}] pub mod {name};\n", path.display().to_string())
}
