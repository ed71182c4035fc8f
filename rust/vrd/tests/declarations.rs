//! The header for C and this crate's declarations name every export of the Rattle crate vrd_ffi, and nothing else; and for every export
//! over the two arrays of a generator the header has a call over the generator, named without `_in`.

use std::collections::BTreeSet;
use std::fs;
use std::path::Path;

/// The names that follow `before` in the text and end at a parenthesis.
fn names(text: &str, before: &str) -> BTreeSet<String> {
    let after = text.split(before).skip(1);
    after.filter_map(|rest| rest.split_once('(')).map(|(name, _)| name.to_string()).collect()
}

/// The words of the text that begin with `vrd_` and end at a parenthesis.
fn called(text: &str) -> BTreeSet<String> {
    let words = text.split_inclusive(|c: char| !(c.is_alphanumeric() || c == '_'));
    words.filter_map(|word| word.strip_suffix('(')).filter(|word| word.starts_with("vrd_")).map(str::to_string).collect()
}

fn exports(root: &Path) -> BTreeSet<String> {
    let files = fs::read_dir(root.join("crates/vrd_ffi/src")).expect("the crate of exports is there");
    let texts = files.map(|file| fs::read_to_string(file.expect("a file").path()).expect("text"));
    texts.flat_map(|text| names(&text, "pub extern \"C\" fn ")).collect()
}

#[test]
fn every_export_is_declared() {
    let root = Path::new(env!("CARGO_MANIFEST_DIR")).join("../..");
    let exports = exports(&root);
    assert!(exports.contains("vrd_rand_in"), "the exports were found");
    let read = |file: &str| fs::read_to_string(root.join(file)).expect(file);
    assert_eq!(called(&read("rust/vrd/src/exports.rs")), exports, "rust/vrd/src/exports.rs");
    let over_generators = exports.iter().filter_map(|name| name.strip_suffix("_in")).map(str::to_string);
    let in_header = exports.iter().cloned().chain(over_generators).collect();
    assert_eq!(called(&read("include/vrd.h")), in_header, "include/vrd.h");
}
