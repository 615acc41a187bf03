//! `mve list`: the opcodes of a film.

use crate::messages::{Failure, REFUSED};
use crate::opcodes::{meaning, Opcode};
use crate::walk::{Rules, Walk};
use crate::{arguments, film, Subcommand};
use clap::{ArgMatches, Command};
use mve::{Form, ALL_STORES, NO_STREAM};
use std::io::{self, BufWriter, Write};

pub const SUBCOMMAND: Subcommand = Subcommand { name: "list", describe, run };

const ABOUT: &str = "List the opcodes of a film";

const MORE: &str = "\
List the opcodes of a film, of any size.

A line for each opcode that the film has, up to its end or to where it is refused. Sound is
passed over, and not judged.

  AT        the position of its head, counted from the film's first byte
  TYPE      in hex, then in decimal
  VERSION   of the opcode
  LENGTH    of its body, in bytes, without the head of 4
  WHAT      what it is for

The proved listing program, target/bin/mve_list, writes AT, TYPE in decimal, VERSION and LENGTH
of small films.

Exit status: 0 if the film plays to its end, 1 if it is refused, 2 if it cannot be read or the
command is used wrongly.";

fn describe(command: Command) -> Command {
    command.about(ABOUT).long_about(MORE).arg(arguments::film())
}

fn run(matches: &ArgMatches) -> Result<u8, Failure> {
    let path = arguments::film_path(matches);
    let film = film::read(path).map_err(|unread| unread.failure(path))?;
    let mut out = BufWriter::new(io::stdout().lock());
    let listed = list(&film, &mut out).and_then(|status| out.flush().map(|()| status));
    listed.map_err(Failure::standard_output)
}

/// Lists a film. The exit status.
fn list(film: &[u8], out: &mut impl Write) -> io::Result<u8> {
    let rules = Rules { stream: NO_STREAM, form: Form::Default, allowance: ALL_STORES };
    writeln!(out, "      AT  TYPE       VERSION  LENGTH  WHAT")?;
    let mut walk = match Walk::open(film, rules) {
        Ok(walk) => walk,
        Err(refused) => return writeln!(out, "{refused}").map(|()| REFUSED),
    };
    loop {
        match walk.pass() {
            Ok(Some(passed)) => {
                if let Some(opcode) = passed.opcode {
                    line(passed.position, &opcode, out)?;
                }
            }
            Ok(None) => return writeln!(out, "ended at byte {}", film.len()).map(|()| 0),
            Err(refused) => return writeln!(out, "{refused}").map(|()| REFUSED),
        }
    }
}

fn line(position: usize, opcode: &Opcode<'_>, out: &mut impl Write) -> io::Result<()> {
    let Opcode { kind, version, body } = opcode;
    let (length, what) = (body.len(), meaning(*kind).unwrap_or_default());
    writeln!(out, "{position:>8}  0x{kind:02X} {kind:>5}  {version:>7}  {length:>6}  {what}")
}
