//! Mounts the published sources in place, unchanged, and makes the module `construct` that `state.rs` calls.
//!
//! `MARKDOWN_SOURCE` names the folder of the published crate, or its `src`. Written to `OUT_DIR`:
//! - `mounted.rs`: one `#[path]` module for each of the ten files at hand;
//! - `construct.rs`: for each function that `state.rs` names, a line that says who answers for it.

use std::collections::BTreeMap;
use std::path::{Path, PathBuf};
use std::{env, fs};

/// Files of the published crate, each with the module that it is mounted as.
const TOP: [(&str, &str); 6] = [
    ("event", "event.rs"),
    ("parser", "parser.rs"),
    ("state", "state.rs"),
    ("subtokenize", "subtokenize.rs"),
    ("tokenizer", "tokenizer.rs"),
    // Beside `construct`, so that the module of that name can count the calls.
    ("gfm_autolink_literal", "construct/gfm_autolink_literal.rs"),
];
const UTIL: [(&str, &str); 4] = [
    ("char", "util/char.rs"),
    ("constant", "util/constant.rs"),
    ("edit_map", "util/edit_map.rs"),
    ("slice", "util/slice.rs"),
];
/// The four text states, under the names of states that `state.rs` has.
const TEXT: [(&str, &str, &str); 4] = [
    ("text", "before", "before"),
    ("partial_data", "at_break", "line"),
    ("partial_data", "start", "data"),
    ("partial_data", "inside", "inside"),
];

fn main() {
    println!("cargo:rerun-if-env-changed=MARKDOWN_SOURCE");
    let folder = env::var("MARKDOWN_SOURCE").expect("MARKDOWN_SOURCE: folder of the published crate");
    let folder = fs::canonicalize(&folder).unwrap_or_else(|e| panic!("{}: {}", folder, e));
    let source = if folder.join("src/tokenizer.rs").is_file() {
        folder.join("src")
    } else {
        folder
    };
    let out = PathBuf::from(env::var("OUT_DIR").unwrap());
    fs::write(out.join("mounted.rs"), mounted(&source)).unwrap();
    let state = fs::read_to_string(source.join("state.rs")).expect("state.rs");
    fs::write(out.join("construct.rs"), construct(&state)).unwrap();
}

fn mounted(source: &Path) -> String {
    let mount = |(module, file): &(&str, &str)| {
        let path = source.join(file);
        assert!(path.is_file(), "not at hand: {}", path.display());
        println!("cargo:rerun-if-changed={}", path.display());
        format!("#[path = {:?}]\npub mod {};\n", path, module)
    };
    let top: String = TOP.iter().map(mount).collect();
    let util: String = UTIL.iter().map(mount).collect();
    format!(
        "{}pub mod util {{\n{}pub use crate::stand_ins::{{location, skip, unicode}};\n}}\n",
        top, util
    )
}

/// Reads the pairs `Name::X => construct::module::function` of the published `call`.
fn construct(state: &str) -> String {
    let words = state
        .split(|c: char| !(c.is_alphanumeric() || c == '_' || c == ':'))
        .filter(|w| !w.is_empty());
    let mut modules: BTreeMap<&str, BTreeMap<&str, &str>> = BTreeMap::new();
    let mut name = "";
    for word in words {
        if let Some(rest) = word.strip_prefix("Name::") {
            name = rest;
        } else if let Some(rest) = word.strip_prefix("construct::") {
            let (module, function) = rest.split_once("::").expect("construct::module::function");
            let before = modules.entry(module).or_default().insert(function, name);
            assert!(before.is_none(), "{} has two names", rest);
        }
    }
    let mut text = String::new();
    for (module, functions) in &modules {
        text += &format!("pub mod {} {{\n", module);
        for (function, name) in functions {
            let ours = TEXT.iter().find(|t| t.0 == *module && t.1 == *function);
            text += &if *module == "gfm_autolink_literal" {
                format!("state!({} {} crate::gfm_autolink_literal::{});\n", function, name, function)
            } else if let Some((_, _, ours)) = ours {
                format!("state!({} {} crate::text::{});\n", function, name, ours)
            } else {
                format!("absent!({});\n", function)
            };
        }
        text += "}\n";
    }
    text
}
