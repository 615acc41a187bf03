//! `mve`: looks into Interplay MVE films and plays them, by the proved player core.
//!
//! A subcommand is a file that offers a [`Subcommand`].

mod arguments;
mod blocks;
mod canvas;
mod causes;
mod chain;
mod chunks;
mod clock;
mod colours;
mod completions;
mod drawings;
mod dropped;
mod film;
mod film_writer;
mod import;
mod info;
mod input;
mod legend;
mod list;
mod listing;
mod make;
mod messages;
mod opcodes;
mod output;
mod page;
mod palette;
mod play;
mod player;
mod progress;
mod readings;
mod refusals;
mod report;
mod salvage;
mod scratch;
mod signals;
mod sound;
mod strip;
mod table;
mod terminal;
mod video1;
mod walk;
mod why;

use clap::{ArgMatches, Command};
use messages::Failure;
use std::fmt::Display;
use std::io::{self, Write};
use std::process::ExitCode;

/// All subcommands, in the order of the help.
const SUBCOMMANDS: [Subcommand; 10] = [
    info::SUBCOMMAND,
    list::SUBCOMMAND,
    play::SUBCOMMAND,
    why::SUBCOMMAND,
    blocks::SUBCOMMAND,
    salvage::SUBCOMMAND,
    strip::SUBCOMMAND,
    make::SUBCOMMAND,
    import::SUBCOMMAND,
    completions::SUBCOMMAND,
];

/// The version of the command, and that of the library's interface.
const VERSION: &str =
    concat!(env!("CARGO_PKG_VERSION"), " (MVE_VERSION ", env!("MVE_VERSION"), ")");

/// A subcommand.
pub struct Subcommand {
    name: &'static str,
    /// Adds its description and its arguments.
    describe: fn(Command) -> Command,
    /// Does it. The exit status.
    run: fn(&ArgMatches) -> Result<u8, Failure>,
}

fn main() -> ExitCode {
    let matches = command().get_matches();
    let given = matches.subcommand().and_then(|(name, matches)| {
        let subcommand = SUBCOMMANDS.iter().find(|subcommand| subcommand.name == name)?;
        Some((subcommand.run)(matches))
    });
    match given {
        Some(Ok(status)) => status.into(),
        Some(Err(Failure::Closed)) => Failure::Closed.status().into(),
        Some(Err(failure)) => {
            tell(&failure);
            failure.status().into()
        }
        None => messages::FAILED.into(), // not met: clap asks for a subcommand
    }
}

fn command() -> Command {
    let subcommands =
        SUBCOMMANDS.iter().map(|Subcommand { name, describe, .. }| describe(Command::new(name)));
    Command::new("mve")
        .about("Look into Interplay MVE films and play them, by a proved player core")
        .version(VERSION)
        .subcommand_required(true)
        .arg_required_else_help(true)
        .subcommands(subcommands)
}

/// Says something on standard error, under the command's name.
fn tell(message: impl Display) {
    let _ = writeln!(io::stderr(), "mve: {message}"); // there is nobody to tell that it failed
}
