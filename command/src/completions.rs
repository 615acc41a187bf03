//! `mve completions`: what a shell needs to complete the command's words.

use crate::messages::Failure;
use crate::Subcommand;
use clap::{value_parser, Arg, ArgMatches, Command};
use clap_complete::{generate, Shell};
use std::io::{self, Write};

pub const SUBCOMMAND: Subcommand = Subcommand { name: "completions", describe, run };

const ABOUT: &str = "Write the completions of a shell";

const MORE: &str = "\
Write the completions of a shell to standard output. make install puts them where the shells look
for them. By hand, for bash: source <(mve completions bash)";

fn describe(command: Command) -> Command {
    let shell = Arg::new("shell").value_name("SHELL").required(true);
    command.about(ABOUT).long_about(MORE).arg(shell.value_parser(value_parser!(Shell)))
}

fn run(matches: &ArgMatches) -> Result<u8, Failure> {
    let mut text = Vec::new();
    if let Some(&shell) = matches.get_one::<Shell>("shell") {
        generate(shell, &mut crate::command(), "mve", &mut text);
    }
    io::stdout().write_all(&text).map_err(Failure::standard_output)?;
    Ok(0)
}
