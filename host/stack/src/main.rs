//! Prints what the library takes of the stack, and fails where it is too much.

use stack::archive::{Figures, Texts};
use stack::arrays::{follow, offered};
use stack::report::{gate_stages, gate_text, verdict};
use stack::report::{header_stages, header_table, page_stages, page_table};
use stack::stage::Stages;
use stack::tree::{Sources, Tree};
use stack::{archive_path, root};
use std::env;
use std::fs;
use std::process::ExitCode;

const USAGE: &str = "usage: stack [--header | --markdown]
  --header    the tables of include/mve.h alone
  --markdown  the tables of docs/PERFORMANCE.md alone";

fn main() -> ExitCode {
    let arguments: Vec<String> = env::args().skip(1).collect();
    let texts: Vec<&str> = arguments.iter().map(|argument| &**argument).collect();
    let done = match texts[..] {
        [] => gate(),
        ["--header"] => tables(header_table, header_stages),
        ["--markdown"] => tables(page_table, page_stages),
        _ => {
            eprintln!("{USAGE}");
            return ExitCode::from(2);
        }
    };
    match done {
        Ok(()) => ExitCode::SUCCESS,
        Err(fault) => {
            eprintln!("stack: {fault}");
            ExitCode::FAILURE
        }
    }
}

fn figures() -> Result<Figures, String> {
    Figures::new(&Texts::of(&archive_path())?)
}

/// The whole stages of the calls that the archive exports.
fn stages(figures: &Figures) -> Result<Stages, String> {
    let path = root().join("examples/synopsis.c");
    let synopsis =
        fs::read_to_string(&path).map_err(|fault| format!("{}: {fault}", path.display()))?;
    let calls: Vec<&str> = figures.calls.keys().map(|name| &**name).collect();
    Stages::new(&archive_path(), &synopsis, &calls)
}

fn tables(
    of_calls: fn(&Figures) -> String,
    of_stages: fn(&Stages) -> String,
) -> Result<(), String> {
    let figures = figures()?;
    print!("{}\n{}", of_calls(&figures), of_stages(&stages(&figures)?));
    Ok(())
}

/// The sources, then the archive, then whole stages.
fn gate() -> Result<(), String> {
    let sources = Sources::read(&root()).map_err(|fault| format!("the sources: {fault}"))?;
    let tree = Tree::new(&sources)?;
    let reached = follow(&tree, &offered(&tree)?);
    if !reached.faults.is_empty() {
        let faults: Vec<String> = reached.faults.iter().map(ToString::to_string).collect();
        return Err(format!("arrays, or what is not understood:\n{}", faults.join("\n")));
    }
    println!(
        "{} functions are reached by the offered calls, none with an array",
        reached.functions.len()
    );
    let figures = figures()?;
    print!("{}", gate_text(&figures));
    let stages = stages(&figures)?;
    print!("{}", gate_stages(&stages));
    verdict(&figures, &stages)
}
