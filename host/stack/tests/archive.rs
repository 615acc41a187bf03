//! The compiled archive keeps within the stack (document 02, W4), alone and with a least caller, and
//! `include/mve.h` and `docs/PERFORMANCE.md` have the figures.

use stack::archive::{Figures, Texts};
use stack::listing::Listing;
use stack::report::{gate_stages, header_stages, header_table, page_stages, page_table};
use stack::report::{stages_in_header, table_in_header, tables_in_page};
use stack::stage::Stages;
use stack::tree::{Sources, Tree};
use stack::{archive_path, root};
use std::collections::BTreeSet;
use std::fs;
use std::process::{Command, Output};
use std::sync::OnceLock;

fn figures() -> Figures {
    let texts = Texts::of(&archive_path()).unwrap_or_else(|fault| panic!("{fault}"));
    Figures::new(&texts).unwrap_or_else(|fault| panic!("{fault}"))
}

/// The whole stages, measured once.
fn stages() -> &'static Stages {
    static STAGES: OnceLock<Stages> = OnceLock::new();
    STAGES.get_or_init(|| {
        let figures = figures();
        let calls: Vec<&str> = figures.calls.keys().map(|name| &**name).collect();
        let stages = Stages::new(&archive_path(), &page("examples/synopsis.c"), &calls);
        stages.unwrap_or_else(|fault| panic!("{fault}"))
    })
}

fn page(path: &str) -> String {
    fs::read_to_string(root().join(path)).unwrap_or_else(|fault| panic!("{path}: {fault}"))
}

#[test]
fn calls_keep_within_the_stack() {
    let figures = figures();
    let too_deep = figures.too_deep();
    assert!(too_deep.is_empty(), "{too_deep:?}:\n{}", page_table(&figures));
}

#[test]
fn header_has_the_figures() {
    let renewed = header_table(&figures());
    let written = table_in_header(&page("include/mve.h"));
    assert!(
        written == renewed,
        "in include/mve.h:\n{written}\nby cargo run -p stack -- --header:\n{renewed}"
    );
}

#[test]
fn page_has_the_figures() {
    let renewed = page_table(&figures());
    let [written, _] = tables_in_page(&page("docs/PERFORMANCE.md"));
    assert!(
        written == renewed,
        "in the page:\n{written}\nby cargo run -p stack -- --markdown:\n{renewed}"
    );
}

/// Each call with a least caller and its arguments, by both measurements.
#[test]
fn stages_keep_within_the_stack() {
    let stages = stages();
    let too_deep = stages.too_deep();
    assert!(too_deep.is_empty(), "{too_deep:?}:\n{}", gate_stages(stages));
    assert!(stages.calls.keys().eq(figures().calls.keys()));
}

/// What is written on a painted stack lies within what the disassembly tells, and comes near to it: the
/// red zone of the deepest function need not be used in full.
#[test]
fn both_measurements_agree() {
    let library = figures().calls;
    for (name, whole) in &stages().calls {
        let read = whole.chain.bytes();
        assert!(whole.painted <= read && read < whole.painted + 129, "{name}: {whole:?}");
        assert!(library[name].bytes() < read, "{name}: {whole:?}");
    }
}

/// The figures of the stages are those of the compiler that the header names. Another one may take more or
/// less, within the limit.
#[test]
fn documents_have_the_stages() {
    let stages = stages();
    let in_header = stages_in_header(&page("include/mve.h"));
    let [_, in_page] = tables_in_page(&page("docs/PERFORMANCE.md"));
    if !in_header.contains(&format!(" {}\n", stages.compiler)) {
        println!("not compared: {} is not the compiler that the header names", stages.compiler);
        return;
    }
    let renewed = [header_stages(stages), page_stages(stages)];
    assert!(
        [&in_header, &in_page] == renewed.each_ref(),
        "in the documents:\n{in_header}\n{in_page}\nby cargo run -p stack:\n{}",
        renewed.join("\n")
    );
}

/// The archive exports what the crate `mve` does, and nothing else.
#[test]
fn exported_calls() {
    let tree = Tree::new(&Sources::read(&root()).expect("the sources")).expect("a tree");
    let mut names: Vec<&str> =
        tree.exported("mve").iter().map(|id| &*tree.functions[*id].function.name).collect();
    names.sort();
    let figures = figures();
    assert_eq!(figures.calls.keys().collect::<Vec<_>>(), names);
}

/// So that a linker can leave out what is not called.
#[test]
fn a_section_for_each_function() {
    let texts = Texts::of(&archive_path()).expect("the archive");
    let listing = Listing::new(&texts.disassembly, &texts.relocations).expect("a listing");
    let sections: BTreeSet<&str> = listing.functions.iter().map(|found| &*found.section).collect();
    assert_eq!(sections.len(), listing.functions.len());
}

fn run(arguments: &[&str], path: Option<&str>) -> Output {
    let mut command = Command::new(env!("CARGO_BIN_EXE_stack"));
    command.args(arguments);
    if let Some(path) = path {
        command.env("PATH", path);
    }
    command.output().expect("the program runs")
}

#[test]
fn program() {
    let printed =
        |arguments: &[&str]| String::from_utf8(run(arguments, None).stdout).expect("a text");
    let (figures, stages) = (figures(), stages());
    let both = |of_calls: String, of_stages: String| format!("{of_calls}\n{of_stages}");
    assert_eq!(printed(&["--header"]), both(header_table(&figures), header_stages(stages)));
    assert_eq!(printed(&["--markdown"]), both(page_table(&figures), page_stages(stages)));
    let gate = run(&[], None);
    let said = String::from_utf8(gate.stdout).expect("a text");
    assert!(
        said.contains(&header_table(&figures)) && said.contains(&gate_stages(stages)),
        "{said}"
    );
    let is_within = figures.too_deep().is_empty() && stages.too_deep().is_empty();
    assert_eq!(gate.status.success(), is_within);
    assert_eq!(run(&["--other"], None).status.code(), Some(2));
}

#[test]
fn without_binutils() {
    let output = run(&["--header"], Some("/nowhere"));
    assert_eq!(output.status.code(), Some(1));
    let said = String::from_utf8(output.stderr).expect("a text");
    assert!(said.contains("objdump of binutils does not run"), "{said}");
}

#[test]
fn without_an_archive() {
    let fault = Texts::of(&root().join("target/no/libmve.a")).expect_err("no archive");
    assert!(fault.ends_with("libmve.a is missing: run make library"), "{fault}");
}
