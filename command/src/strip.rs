//! `mve strip`: a film without what the player passes over, as a new film.

use crate::dropped::{Dropped, Kind};
use crate::film::{self, Unread};
use crate::messages::{name, Failure};
use crate::output::{Overwrite, Part};
use crate::refusals::Refused;
use crate::{arguments, opcodes, scratch, Subcommand};
use clap::{value_parser, Arg, ArgAction, ArgMatches, Command};
use mve::NO_STREAM;
use serde_json::json;
use std::io::{self, Write};
use std::path::{Path, PathBuf};

pub const SUBCOMMAND: Subcommand = Subcommand { name: "strip", describe, run };

const ABOUT: &str = "Drop what the player passes over";

const MORE: &str = "\
Drop what the player passes over, to make a film shorter.

The new film has the opcodes that the player acts on and, of the sound, one stream or none.
All other opcodes go, then chunks without an opcode, and what follows the end of the film.
The film plays as before: the same pictures, palettes and samples of the stream, and the
same end, also where it is refused. The new film is never longer, and stripped again it is the
same. That is proved of the library.

Opcode 0x02 goes, too, since the player passes over it: the new film does not tell how long
its pictures stay. What the film told is written out, so that it can be kept elsewhere.

Told are the bytes of what is kept and of what is dropped, by opcode; they add up to those of
the film.

A film that is scratched is refused, and nothing is written: mve salvage saves what is left of
it. Heads, types, versions and lengths are tested, those of sound whatever the stream.

Files. The film is never overwritten. Another file is, with --force. The new film is written
under a temporary name and gets its own when it is complete.

Exit status: 0 if the new film is written, 1 if the film is refused, 2 if a file cannot be read
or written or the command is used wrongly.";

/// So many frame rates are told in words; --json has all.
const RATES: usize = 4;

fn describe(command: Command) -> Command {
    let output = Arg::new("output").short('o').long("output").value_name("OUT.mve");
    let output = output.required(true).value_parser(value_parser!(PathBuf));
    let flag = |name: &'static str| Arg::new(name).long(name).action(ArgAction::SetTrue);
    let stream = arguments::stream().conflicts_with("no-sound");
    command
        .about(ABOUT)
        .long_about(MORE)
        .arg(arguments::film())
        .arg(output.help("Write the new film there"))
        .arg(stream.help("Keep stream N of the sound, 0 to 15 [default: 0, as mve play has it]"))
        .arg(flag("no-sound").help("Keep no sound"))
        .arg(flag("json").help("Write JSON: an object"))
        .arg(flag("force").help("Overwrite a file, but never the film"))
}

fn run(matches: &ArgMatches) -> Result<u8, Failure> {
    let path = arguments::film_path(matches);
    let target = arguments::path(matches, "output").unwrap_or(Path::new(""));
    let overwrite = Overwrite::new(path, matches.get_flag("force"));
    overwrite.check(target)?;
    let refused = |refused| Failure::Scratched(path.into(), refused);
    let film = film::read(path).map_err(|unread| match unread {
        Unread::Failed(error) => Failure::Read(path.into(), error),
        Unread::Refused(refusal, _) => refused(Refused::at_header(refusal)),
    })?;
    let stream = match matches.get_flag("no-sound") {
        true => NO_STREAM,
        false => arguments::given_stream(matches).unwrap_or(0),
    };
    let stripped = Stripped::of(&film, stream).map_err(refused)?;
    Part::whole(target, &stripped.film, &overwrite)?;
    let text = match matches.get_flag("json") {
        true => stripped.object(path, target) + "\n",
        false => stripped.lines(path, target),
    };
    io::stdout().write_all(text.as_bytes()).map_err(Failure::standard_output)?;
    Ok(0)
}

/// A film without what the player passes over.
struct Stripped {
    stream: usize,
    /// The new film.
    film: Vec<u8>,
    dropped: Dropped,
}

impl Stripped {
    /// The new film is never longer, so the room is enough.
    fn of(film: &[u8], stream: usize) -> Result<Stripped, Refused> {
        let mut room = vec![0; film.len()];
        let length =
            mve::strip(film, stream, &mut room).map_err(|error| scratch::place(film, error))?;
        room.truncate(length);
        let dropped = Dropped::between(film, &room);
        Ok(Stripped { stream, film: room, dropped })
    }

    fn lines(&self, path: &Path, target: &Path) -> String {
        let Dropped { header, kept, kinds, empty, behind, .. } = &self.dropped;
        let mut text = format!("{header:>12} header\n{kept:>12} kept\n");
        for (kind, Kind { count, bytes }) in kinds {
            let meaning = self.meaning(*kind);
            let opcodes = if *count == 1 { "opcode" } else { "opcodes" };
            text += &format!("{bytes:>12} dropped: {count} {opcodes} 0x{kind:02X}, {meaning}\n");
        }
        let Kind { count, bytes } = empty;
        if *count > 0 {
            let chunks = if *count == 1 { "chunk" } else { "chunks" };
            text += &format!("{bytes:>12} dropped: heads of {count} {chunks} without an opcode\n");
        }
        if *behind > 0 {
            text += &format!("{behind:>12} dropped: behind the end of the film\n");
        }
        text += &format!("{:>12} bytes of {}\n", self.dropped.sum(), name(path));
        text += &format!("{}: {} bytes\n", name(target), self.film.len());
        text + &self.rates()
    }

    /// What an opcode is for. Where a stream is kept, the sound that goes is that of others.
    fn meaning(&self, kind: u8) -> String {
        let meaning = opcodes::meaning(kind).unwrap_or_default();
        let others = matches!(kind, 0x08 | 0x09) && self.stream < NO_STREAM;
        format!("{meaning}{}", if others { " of other streams" } else { "" })
    }

    /// The frame rates that the film told, and the new one does not.
    fn rates(&self) -> String {
        let timers = &self.dropped.timers;
        if timers.is_empty() {
            return "frame rate: the film tells none\n".into();
        }
        let rate = |microseconds: &u64| {
            let thousandths = (1_000_000_000 + microseconds / 2) / microseconds;
            format!("{}.{:03}", thousandths / 1000, thousandths % 1000)
        };
        let rates: Vec<_> = timers.iter().take(RATES).map(rate).collect();
        let more = match timers.len().saturating_sub(RATES) {
            0 => String::new(),
            more => format!(", and {more} more"),
        };
        let rates = rates.join(", then ");
        format!("frame rate: {rates}{more} pictures a second, which the new film does not tell\n")
    }

    fn object(&self, path: &Path, target: &Path) -> String {
        let Dropped { header, kept, kinds, empty, behind, timers } = &self.dropped;
        let dropped = kinds.iter().map(|(kind, Kind { count, bytes })| {
            json!({"opcode": kind, "words": self.meaning(*kind), "count": count, "bytes": bytes})
        });
        let object = json!({
            "file": path.to_string_lossy(),
            "bytes": self.dropped.sum(),
            "stripped": target.to_string_lossy(),
            "stripped_bytes": self.film.len(),
            "stream": (self.stream < NO_STREAM).then_some(self.stream),
            "header": header,
            "kept": kept,
            "dropped": dropped.collect::<Vec<_>>(),
            "empty_chunks": {"count": empty.count, "bytes": empty.bytes},
            "behind_end": behind,
            "timers_us": timers,
        });
        object.to_string()
    }
}
