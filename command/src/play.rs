//! `mve play`: a film to pictures and sound.

use crate::film::{self, Unread, STANDARD};
use crate::messages::{Failure, Kept};
use crate::output::{Output, Overwrite};
use crate::player::{Player, Wanted};
use crate::refusals::Refused;
use crate::{arguments, Subcommand};
use clap::builder::{OsStringValueParser, PathBufValueParser, TypedValueParser};
use clap::{Arg, ArgAction, ArgGroup, ArgMatches, Command};
use std::io::{self, IsTerminal};
use std::path::{Path, PathBuf};

pub const SUBCOMMAND: Subcommand = Subcommand { name: "play", describe, run };

const ABOUT: &str = "Play a film to pictures and sound";

const MORE: &str = "\
Play a film to pictures and sound.

OUT says by its ending what is written:

  OUT/       a folder of PNG pictures, 000000.png and so on (also a name without an ending)
  OUT.gif    an animated GIF
  OUT.y4m    Y4M, which players and encoders read
  -          Y4M on standard output: mve play film.mve -o - | ffplay -

--sound - writes one WAV file to standard output, when all of it is decoded.

Colours. A film's colours have 6 bits a component, 0 to 63. They are widened to 8 bits as
(v << 2) | (v >> 4), which makes 63 255. PNG and GIF have each picture's own palette and
indices, so every pixel is exact. Y4M is 4:4:4: YCbCr by ITU-R BT.601 in limited range, each
number rounded to the nearest.

True colour. A film with true colour has 5 bits a component, which are widened as
(v << 3) | (v >> 2). Its PNG pictures have red, green and blue, and every pixel is exact. A GIF
has 256 colours a picture: where a picture has no more, each has its own, else only the high
bits are kept, 3 of red, 3 of green and 2 of blue, which is told.

Times. A picture stays for the microseconds that the last timer (opcode 0x02) before it says;
see mve info --help. A GIF counts in 1/100 s: what is lost by rounding is carried on to the
next picture. Y4M has one time for all pictures, that of the first.

Files. Nothing is overwritten without --force, and the film never is. Files are written under
temporary names and get their own when all is complete: where a run fails or is ended by a
signal, nothing is left. Of a film that is refused, --partial keeps what comes before the
refusal.

Exit status: 0 if the film is played, 1 if it is refused or does not have what is asked for,
2 if a file cannot be read or written or the command is used wrongly.";

fn describe(command: Command) -> Command {
    let output = OsStringValueParser::new().try_map(|name| Output::of(&name));
    let output =
        Arg::new("output").short('o').long("output").value_name("OUT").value_parser(output);
    let wav = PathBufValueParser::new().try_map(wav_name);
    let wav = Arg::new("sound").long("sound").value_name("OUT.wav").value_parser(wav);
    let from = number("from", "N", 0).default_value("0");
    let stops = number("stops", "ALLOWANCE", 1);
    let options = [
        (output, "Write the pictures there: OUT/, OUT.gif, OUT.y4m or -"),
        (wav, "Write the sound there, or to - ; where its format changes, OUT.2.wav follows"),
        (arguments::stream(), "Choose stream N of the sound, 0 to 15 [default with --sound: 0]"),
        (from, "Begin with picture N of the film, counted from 0"),
        (number("pictures", "N", 1), "Write N pictures at most; sound is cut to their time"),
        (stops, "Allow each step so many stores, then take it again: the output is the same"),
        (flag("partial"), "Of a refused film, keep what comes before the refusal"),
        (flag("force"), "Overwrite files"),
    ];
    command
        .about(ABOUT)
        .long_about(MORE)
        .arg(arguments::film())
        .args(options.map(|(option, help)| option.help(help)))
        .group(ArgGroup::new("outputs").args(["output", "sound"]).required(true).multiple(true))
}

fn flag(name: &'static str) -> Arg {
    Arg::new(name).long(name).action(ArgAction::SetTrue)
}

/// An option with a number that is no less than the least.
fn number(name: &'static str, value: &'static str, least: usize) -> Arg {
    let parser = move |text: &str| match text.parse::<usize>() {
        Ok(number) if number >= least => Ok(number),
        _ => Err(format!("give a number, {least} or more")),
    };
    Arg::new(name).long(name).value_name(value).value_parser(parser)
}

fn wav_name(path: PathBuf) -> Result<PathBuf, String> {
    let is_wav = path.extension().is_some_and(|ending| ending.eq_ignore_ascii_case("wav"));
    match is_wav || path == Path::new(STANDARD) {
        true => Ok(path),
        false => Err("give a name that ends in .wav, or give -".into()),
    }
}

fn wanted(matches: &ArgMatches) -> Wanted<'_> {
    let number = |name| matches.get_one::<usize>(name).copied();
    let film = arguments::film_path(matches);
    Wanted {
        film,
        output: matches.get_one("output"),
        sound: arguments::path(matches, "sound"),
        stream: arguments::given_stream(matches),
        from: number("from").unwrap_or(0),
        pictures: number("pictures"),
        stops: number("stops"),
        partial: matches.get_flag("partial"),
        overwrite: Overwrite::new(film, matches.get_flag("force")),
    }
}

/// Sees to it that everything can go where it is to go, before the film is read.
fn check(wanted: &Wanted<'_>) -> Result<(), Failure> {
    if let Some(output) = wanted.output {
        output.check(&wanted.overwrite)?;
    }
    match wanted.sound {
        Some(sound) if sound == Path::new(STANDARD) => {
            let is_both = wanted.output == Some(&Output::Standard);
            let is_terminal = io::stdout().is_terminal();
            match (is_both, is_terminal) {
                (true, _) => Err(Failure::BothStandard),
                (false, true) => Err(Failure::Terminal("WAV")),
                (false, false) => Ok(()),
            }
        }
        Some(sound) => wanted.overwrite.check(sound),
        None => Ok(()),
    }
}

fn run(matches: &ArgMatches) -> Result<u8, Failure> {
    let wanted = wanted(matches);
    check(&wanted)?;
    let film = film::read(wanted.film).map_err(|unread| match unread {
        Unread::Failed(error) => Failure::Read(wanted.film.into(), error),
        Unread::Refused(refusal, _) => wanted.refused(Refused::at_header(refusal), Kept::NoPicture),
    })?;
    Player::new(&wanted, &film)?.play()?;
    Ok(0)
}
