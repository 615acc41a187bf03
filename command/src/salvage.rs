//! `mve salvage`: what is left of a scratched film, as a new film.

use crate::film::{self, Unread};
use crate::messages::{name, Failure, REFUSED};
use crate::output::{Overwrite, Part};
use crate::refusals::Refused;
use crate::{arguments, Subcommand};
use clap::{value_parser, Arg, ArgAction, ArgMatches, Command};
use mve::{Error, LeftOut, Salvaged, Stop, LOSS_NUMBERS};
use serde_json::json;
use std::io::{self, Write};
use std::path::{Path, PathBuf};

pub const SUBCOMMAND: Subcommand = Subcommand { name: "salvage", describe, run };

const ABOUT: &str = "Save what is left of a scratched film";

const MORE: &str = "\
Save what is left of a scratched film.

The new film has the header and every chunk that is sane, with the same bytes in the same
order. A chunk is left out where an opcode of it passes the chunk's end, has a type or a
version that films do not have, or is longer or shorter than it can be. Nothing else is
tested: the new film may still be refused where it is played, for a picture that does not
fit. A chunk that ends the film is added, unless the last chunk kept does.

Told are each chunk left out, with the byte where it begins, its length without its head of
4 bytes, and the reason; how the walk over the chunks stopped; and the bytes of the header,
of the chunks kept, of those left out and of what was not walked. They add up to those of
the film: that is proved of the library.

Files. The scratched film is never overwritten. Another file is, with --force. The new film
is written under a temporary name and gets its own when it is complete.

Exit status: 0 if nothing is left out, 1 if a chunk is, or the film breaks off inside one, 2
if the film is not read, the new one is not written or the command is used wrongly.";

/// Bytes of the chunk that may be added.
const END_CHUNK: usize = 8;
/// A chunk left out has no fewer bytes.
const LEAST_LOSS: usize = 5;
/// The list has so many chunks at first.
const FIRST_LIST: usize = 1024;

fn describe(command: Command) -> Command {
    let output = Arg::new("output").short('o').long("output").value_name("SAVED.mve");
    let output = output.required(true).value_parser(value_parser!(PathBuf));
    let flag = |name: &'static str| Arg::new(name).long(name).action(ArgAction::SetTrue);
    command
        .about(ABOUT)
        .long_about(MORE)
        .arg(arguments::film().value_name("SCRATCHED.mve"))
        .arg(output.help("Write the new film there"))
        .arg(flag("json").help("Write JSON: an object"))
        .arg(flag("force").help("Overwrite a file, but never the scratched film"))
}

fn run(matches: &ArgMatches) -> Result<u8, Failure> {
    let scratched = arguments::film_path(matches);
    let target = arguments::path(matches, "output").unwrap_or(Path::new(""));
    let overwrite = Overwrite::new(scratched, matches.get_flag("force"));
    overwrite.check(target)?;
    let film = film::read(scratched).map_err(|unread| match unread {
        Unread::Failed(error) => Failure::Read(scratched.into(), error),
        Unread::Refused(refusal, _) => {
            Failure::NoFilm(scratched.into(), Refused::at_header(refusal))
        }
    })?;
    let saved = Saved::of(&film)
        .map_err(|refusal| Failure::NoFilm(scratched.into(), Refused::at_header(refusal)))?;
    Part::whole(target, &saved.film, &overwrite)?;
    let text = match matches.get_flag("json") {
        true => saved.object(scratched, target) + "\n",
        false => saved.lines(scratched, target),
    };
    io::stdout().write_all(text.as_bytes()).map_err(Failure::standard_output)?;
    Ok(if saved.is_whole() { 0 } else { REFUSED })
}

/// What is left of a film.
struct Saved {
    /// The new film.
    film: Vec<u8>,
    losses: Vec<LeftOut>,
    told: Salvaged,
}

impl Saved {
    /// The room is always enough, so where the call is refused by 19 the list is too short. One that is
    /// always enough would be longer than the film, so it grows.
    fn of(film: &[u8]) -> Result<Saved, mve::Refusal> {
        let longest = film.len() / LEAST_LOSS;
        let mut chunks = FIRST_LIST.min(longest);
        let mut room = vec![0; film.len() + END_CHUNK];
        loop {
            let mut list = vec![0; LOSS_NUMBERS * chunks];
            match mve::salvage(film, &mut room, &mut list) {
                Err(refusal) if refusal.error == Error::Room && chunks < longest => {
                    chunks = longest.min(2 * chunks);
                }
                told => {
                    let told = told?;
                    room.truncate(told.bytes);
                    let losses = told.losses(&list).collect();
                    return Ok(Saved { film: room, losses, told });
                }
            }
        }
    }

    /// Whether nothing is left out: no chunk, and the film does not break off inside one.
    fn is_whole(&self) -> bool {
        self.losses.is_empty() && self.told.stop != Stop::PastEnd
    }

    fn lines(&self, scratched: &Path, target: &Path) -> String {
        let Salvaged { bytes, stop, header, kept, lost, rest, .. } = self.told;
        let mut text = String::new();
        for LeftOut { position, length, error } in &self.losses {
            let (number, why) = (error.number(), error.text());
            text += &format!(
                "left out: chunk at byte {position}, length {length}: {why} (refusal {number})\n"
            );
        }
        text += &format!("stopped: {}\n", stop_words(stop));
        let sum = header + kept + lost + rest;
        let sums = [
            (header, "header"),
            (kept, "chunks kept, with their heads"),
            (lost, "chunks left out, with their heads"),
            (rest, "not walked"),
        ];
        for (bytes, what) in sums {
            text += &format!("{bytes:>12} {what}\n");
        }
        text += &format!("{sum:>12} bytes of {}\n", name(scratched));
        text + &format!("{}: {bytes} bytes\n", name(target))
    }

    fn object(&self, scratched: &Path, target: &Path) -> String {
        let Salvaged { bytes, stop, header, kept, lost, rest, .. } = self.told;
        let left_out = self.losses.iter().map(|LeftOut { position, length, error }| {
            let (number, words) = (error.number(), error.text());
            json!({"byte": position, "length": length, "number": number, "words": words})
        });
        let object = json!({
            "file": scratched.to_string_lossy(),
            "bytes": header + kept + lost + rest,
            "saved": target.to_string_lossy(),
            "saved_bytes": bytes,
            "left_out": left_out.collect::<Vec<_>>(),
            "stop": stop_name(stop),
            "header": header,
            "kept": kept,
            "lost": lost,
            "rest": rest,
        });
        object.to_string()
    }
}

fn stop_words(stop: Stop) -> &'static str {
    match stop {
        Stop::FilmEnd => "at the end of the film",
        Stop::BehindEnd => "behind the chunk that ends the film",
        Stop::PastEnd => {
            "where the film breaks off: a chunk or its head passes the end (refusal 2)"
        }
    }
}

/// For scripts.
fn stop_name(stop: Stop) -> &'static str {
    match stop {
        Stop::FilmEnd => "film_end",
        Stop::BehindEnd => "behind_end",
        Stop::PastEnd => "past_end",
    }
}
