//! `mve make`: a film from pictures.

use crate::clock::{LONGEST, USUAL};
use crate::film_writer::{FilmWriter, Unadded, Written};
use crate::input::{Inputs, Pcm, Picture};
use crate::messages::{name, Failure};
use crate::output::Overwrite;
use crate::palette::{Colours, Palette};
use crate::progress::Progress;
use crate::{arguments, Subcommand};
use clap::{value_parser, Arg, ArgAction, ArgMatches, Command};
use serde_json::Value;
use std::io::{self, Write};
use std::ops::RangeInclusive;
use std::path::{Path, PathBuf};

pub const SUBCOMMAND: Subcommand = Subcommand { name: "make", describe, run };

const ABOUT: &str = "Make a film from pictures";

const MORE: &str = "\
Make a film from pictures.

PICTURES are PNG files, folders of PNG files, GIF files, Y4M files, or - for Y4M on standard
input. They are taken in the order given, those of a folder by name (2.png before 10.png).
All have one size, 640x480 pixels at most:

  mve make frames/ -o film.mve --fps 12 --sound music.wav
  ffmpeg -i clip.mp4 -s 320x200 -f yuv4mpegpipe - | mve make - -o film.mve

Pictures. A film has blocks of 8x8 pixels. Where a size is no multiple of 8, the last column
and the last row are repeated. Each picture is written by the library's encoder; it is proved
that the film gives back every pixel. A picture takes at most 65515 bytes of a film, so large
ones with many colours everywhere may be too large, which is told with the picture's number.

Colours. A film has 256 colours of 6 bits a component. Where all pictures together have no
more, the palette has just these. Otherwise a quantizer chooses 256, and each pixel gets the
nearest. mve play widens a component v to (v << 2) | (v >> 4), and components are taken back
so: what mve play writes comes back exactly. Other ones are rounded to the nearest.
Transparent pixels are shown on black.

Times. --fps gives pictures a second. Without it GIF and Y4M pictures keep their own times (a
GIF picture without one stays for 0.1 s), and PNG pictures stay for 66728 microseconds, as is
usual. Times are rounded to microseconds, and are ten minutes at most.

Sound. A WAV file of 8 or 16 bits, mono or stereo, uncompressed. It is cut where the pictures
end. It is stream 0 of the film.

Other players. The library skips the 14 bytes in front of a picture's data, and its encoder
writes zeros. GemRB and D2X-Rebirth exchange their two pictures only where bit 0 of byte 12 of
opcode 0x11 is set, so this command sets it in the film.

Files. Nothing that is read is ever overwritten. Another file is, with --force. The film is
written under a temporary name and gets its own when it is complete; Y4M from standard input
is kept beside it until then.

Exit status: 0 if the film is made, 1 if a picture is too large, 2 if a file cannot be read or
written or the command is used wrongly.";

/// The microseconds of a picture that --fps can give.
const FPS: RangeInclusive<f64> = 1e3..=1e7;

fn describe(command: Command) -> Command {
    let pictures = Arg::new("pictures").value_name("PICTURES").required(true).num_args(1..);
    let path = || value_parser!(PathBuf);
    let output = Arg::new("output").short('o').long("output").value_name("FILM.mve").required(true);
    let fps = Arg::new("fps").long("fps").value_name("N").value_parser(interval_of);
    let sound = Arg::new("sound").long("sound").value_name("FILE.wav").value_parser(path());
    let flag = |name: &'static str| Arg::new(name).long(name).action(ArgAction::SetTrue);
    command
        .about(ABOUT)
        .long_about(MORE)
        .arg(pictures.value_parser(path()).help("PNG, GIF or Y4M files, folders of PNG, or -"))
        .arg(output.value_parser(path()).help("Write the film there"))
        .arg(fps.help("Show N pictures a second, as in 15, 12.5 or 30000/1001"))
        .arg(sound.help("Take the sound from there"))
        .arg(flag("json").help("Write JSON: an object"))
        .arg(flag("force").help("Overwrite a file, but never one that is read"))
}

/// The microseconds of a picture, of a number or a fraction of pictures a second.
fn interval_of(text: &str) -> Result<u32, String> {
    let number = |text: &str| text.parse::<f64>().ok();
    let rate = match text.split_once('/') {
        Some((above, below)) => {
            number(above).zip(number(below)).map(|(above, below)| above / below)
        }
        None => number(text),
    };
    let interval = rate.map(|rate| (1e6 / rate).round());
    match interval.filter(|interval| FPS.contains(interval)) {
        Some(interval) => Ok(interval as u32),
        None => Err("give pictures a second, 0.1 to 1000, as in 15, 12.5 or 30000/1001".into()),
    }
}

fn run(matches: &ArgMatches) -> Result<u8, Failure> {
    let target = arguments::path(matches, "output").unwrap_or(Path::new(""));
    let force = matches.get_flag("force");
    let given: Vec<PathBuf> = matches.get_many("pictures").unwrap_or_default().cloned().collect();
    let sound = arguments::path(matches, "sound");
    let read = given.iter().map(PathBuf::as_path).chain(sound);
    Overwrite::for_film(read, force).check(target)?;
    let inputs = Inputs::find(&given, target)?;
    let overwrite = Overwrite::for_film(inputs.paths().chain(sound), force); // with those of folders
    overwrite.check(target)?;
    let sound = sound.map(Pcm::read).transpose()?;
    let fps = matches.get_one::<u32>("fps").copied();
    let found = Found::of(&inputs)?;
    let mut palette = found.colours.palette();
    let mut film = FilmWriter::begin(target, found.size, sound)?;
    film.set_palette(palette.entries.clone());
    write(&inputs, &found, &mut palette, fps, &mut film)?;
    let written = film.finish(&overwrite)?;
    let text = match matches.get_flag("json") {
        true => object(target, &found, &palette, &written).to_string() + "\n",
        false => lines(target, &found, &palette, &written),
    };
    io::stdout().write_all(text.as_bytes()).map_err(Failure::standard_output)?;
    Ok(0)
}

/// What the pictures are, found when they are read for the first time.
struct Found {
    size: (usize, usize),
    pictures: usize,
    colours: Colours,
    rounded: bool,
    transparent: bool,
}

impl Found {
    fn of(inputs: &Inputs) -> Result<Found, Failure> {
        let mut found = Found {
            size: (0, 0),
            pictures: 0,
            colours: Colours::new(),
            rounded: false,
            transparent: false,
        };
        let mut progress = Progress::new();
        inputs.each(&mut |path, picture| {
            progress.show(0, 1, || format!("colours of picture {}", found.pictures));
            found.add(path, &picture)
        })?;
        match found.pictures {
            0 => Err(Failure::NoPictures),
            _ => Ok(found),
        }
    }

    fn add(&mut self, path: &Path, picture: &Picture) -> Result<(), Failure> {
        if self.pictures == 0 {
            self.size = (picture.width, picture.height);
        }
        self.check(path, self.pictures, picture)?;
        self.pictures += 1;
        self.colours.add(&picture.pixels);
        self.rounded |= picture.rounded;
        self.transparent |= picture.transparent;
        Ok(())
    }

    /// All pictures have the size of the first.
    fn check(&self, path: &Path, number: usize, picture: &Picture) -> Result<(), Failure> {
        let (Picture { width, height, .. }, (wide, high)) = (picture, self.size);
        if (*width, *height) == self.size {
            return Ok(());
        }
        let sizes = format!("is {width}x{height} pixels, but picture 0 is {wide}x{high}");
        Err(Failure::input(path, format!("picture {number} {sizes}: give pictures of one size")))
    }
}

/// Reads the pictures once more, and writes them.
fn write(
    inputs: &Inputs,
    found: &Found,
    palette: &mut Palette,
    fps: Option<u32>,
    film: &mut FilmWriter,
) -> Result<(), Failure> {
    let mut progress = Progress::new();
    inputs.each(&mut |path, picture| {
        let (number, all) = (film.pictures, found.pictures);
        progress.show(number, all, || format!("{number} of {all} pictures"));
        found.check(path, number, &picture)?;
        let pixels: Vec<u8> = picture.pixels.iter().map(|&colour| palette.entry(colour)).collect();
        let interval = fps.or(picture.interval).unwrap_or(USUAL).min(LONGEST as u32);
        film.add(&pixels, interval).map_err(|unadded| match unadded {
            Unadded::Refused(_) => Failure::TooLarge(path.into(), number),
            Unadded::Failed(failure) => failure,
        })
    })
}

fn lines(target: &Path, found: &Found, palette: &Palette, written: &Written) -> String {
    let mut lines = written.lines();
    let count = palette.entries.len();
    let colours = match palette.is_chosen() {
        true => format!("{count}, chosen by a quantizer: the pictures have {}", palette.colours),
        false => format!("{count}, those of the pictures"),
    };
    lines.push(("colours", colours));
    if found.rounded {
        let why = "the pictures have colours that a film cannot have";
        lines.push(("rounded", format!("to 6 bits a component: {why}")));
    }
    if found.transparent {
        lines.push(("opaque", "transparent pixels are shown on black".into()));
    }
    Written::text(&name(target), lines)
}

fn object(target: &Path, found: &Found, palette: &Palette, written: &Written) -> Value {
    let mut object = written.object(target);
    object["colours"] = palette.entries.len().into();
    object["colours_of_pictures"] = palette.colours.into();
    object["quantized"] = palette.is_chosen().into();
    object["rounded"] = found.rounded.into();
    object["transparent"] = found.transparent.into();
    object
}

#[cfg(test)]
mod tests {
    use super::*;

    #[test]
    fn rates() {
        let rates = ["10", "12.5", "30000/1001", "1000", "0.1", "15/1"];
        let found = rates.map(|rate| interval_of(rate).expect("a rate"));
        assert_eq!(found, [100_000, 80_000, 33_367, 1_000, 10_000_000, 66_667]);
        for wrong in ["0", "-1", "x", "1/0", "0/1", "", "1001", "0.09", "nan", "inf", "1/2/3"] {
            assert!(interval_of(wrong).is_err(), "{wrong}");
        }
    }
}
