//! The tables of docs/PEERS.md name the tests of `differences`, each of them and no other.

use std::collections::BTreeSet;
use std::fs;
use std::path::Path;

const MODULES: [&str; 6] = ["chunks", "colours", "pictures", "sounds", "trailers", "words"];

fn read(path: &str) -> String {
    let path = Path::new(env!("CARGO_MANIFEST_DIR")).join(path);
    fs::read_to_string(&path).unwrap_or_else(|error| panic!("{}: {error}", path.display()))
}

/// The tests of a module, by the names that cargo gives them.
fn tests(module: &str) -> Vec<String> {
    let source = read(&format!("tests/differences/{module}.rs"));
    let names = source.split("#[test]\nfn ").skip(1).map(|rest| rest.split_once('(').unwrap().0);
    names.map(|name| format!("{module}::{name}")).collect()
}

#[test]
fn every_difference_is_listed() {
    let written: BTreeSet<String> = MODULES.into_iter().flat_map(tests).collect();
    let page = read("../../docs/PEERS.md");
    let last_cells = page.lines().filter_map(|line| line.strip_suffix('|')?.rsplit('|').next());
    let listed = last_cells.filter_map(|cell| cell.trim().strip_prefix('`')?.strip_suffix('`'));
    assert_eq!(listed.map(str::to_owned).collect::<BTreeSet<_>>(), written);
}
