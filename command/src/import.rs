//! `mve import`: a film from a trailer, an AVI file of Microsoft Video 1.

use crate::colours::narrowed;
use crate::film_writer::{FilmWriter, Unadded, Written};
use crate::input::{Avi, Item, Pcm};
use crate::messages::{name, Failure, REFUSED};
use crate::output::Overwrite;
use crate::progress::Progress;
use crate::video1::{self, Size};
use crate::{arguments, Subcommand};
use clap::{value_parser, Arg, ArgAction, ArgMatches, Command};
use mve::Error;
use serde_json::json;
use std::io::{self, Write};
use std::path::{Path, PathBuf};

pub const SUBCOMMAND: Subcommand = Subcommand { name: "import", describe, run };

const ABOUT: &str = "Make a film from an AVI file of Microsoft Video 1";

const MORE: &str = "\
Make a film from an AVI file of Microsoft Video 1.

The AVI file has pictures of Microsoft Video 1 with 8 bits a pixel (CRAM, MSVC), 640x480
pixels at most, and may have uncompressed sound of 8 or 16 bits, mono or stereo. Pictures,
palette changes, times and sound are carried over. The film has the same palette entries in
every pixel: the library that reads the frames and the one that writes the film's are proved.

Frames. A frame that is refused is told with its number, counted from 0, and the reason. A
frame may also be too large for a film (refusal 23). In its place the film has the picture before it
once more. So it has for an empty frame, as AVI means it.

Sizes. A film has blocks of 8x8 pixels, Video 1 of 4x4. Where a size is no multiple of 8, the
last column and the last row are repeated.

Colours. A film has 6 bits a component, 0 to 63: each is rounded to the one that mve play
widens to the nearest, (v << 2) | (v >> 4).

Sound. The first sound of the file becomes stream 0 of the film. It is cut where the pictures
end. --silent leaves it out, also where a film cannot have its format.

Other players. Bit 0 of byte 12 of opcode 0x11 is set; see mve make --help.

Files. The AVI file is never overwritten. Another file is, with --force. The film is written
under a temporary name and gets its own when it is complete. A file that is no AVI file, breaks
off, or has pictures of another codec leaves nothing behind.

Exit status: 0 if every frame is taken, 1 if one is refused, 2 if the AVI file is not read, the
film is not written or the command is used wrongly.";

fn describe(command: Command) -> Command {
    let avi = Arg::new("avi").value_name("TRAILER.avi").required(true);
    let path = || value_parser!(PathBuf);
    let output = Arg::new("output").short('o').long("output").value_name("FILM.mve").required(true);
    let flag = |name: &'static str| Arg::new(name).long(name).action(ArgAction::SetTrue);
    command
        .about(ABOUT)
        .long_about(MORE)
        .arg(avi.value_parser(path()).help("An AVI file of 8-bit Microsoft Video 1"))
        .arg(output.value_parser(path()).help("Write the film there"))
        .arg(flag("silent").help("Leave the sound out"))
        .arg(flag("json").help("Write JSON: an object"))
        .arg(flag("force").help("Overwrite a file, but never the AVI file"))
}

fn run(matches: &ArgMatches) -> Result<u8, Failure> {
    let path = arguments::path(matches, "avi").unwrap_or(Path::new(""));
    let target = arguments::path(matches, "output").unwrap_or(Path::new(""));
    let overwrite = Overwrite::for_film([path], matches.get_flag("force"));
    overwrite.check(target)?;
    let mut avi = Avi::open(path)?;
    let sound = if matches.get_flag("silent") { None } else { sound(path, &mut avi)? };
    let others = if sound.is_some() { avi.sounds - 1 } else { 0 };
    let film = FilmWriter::begin(target, (avi.width, avi.height), sound)?;
    let mut trailer = Trailer::new(&avi, film);
    trailer.take(avi)?;
    let Trailer { film, refused, rounded, .. } = trailer;
    let told = Told { written: film.finish(&overwrite)?, refused, rounded, others };
    let text = match matches.get_flag("json") {
        true => told.object(path, target) + "\n",
        false => told.lines(target),
    };
    io::stdout().write_all(text.as_bytes()).map_err(Failure::standard_output)?;
    Ok(if told.refused.is_empty() { 0 } else { REFUSED })
}

/// The sound of the file, if it has one, in a format that a film can have.
fn sound(path: &Path, avi: &mut Avi) -> Result<Option<Pcm>, Failure> {
    match avi.format.clone() {
        None => Ok(None),
        Some(Ok(format)) => avi.sound(format).map(Some),
        Some(Err(unfit)) => {
            let words = format!("its sound {unfit}: give --silent to leave it out");
            Err(Failure::input(path, words))
        }
    }
}

/// A film that is made from frames.
struct Trailer {
    film: FilmWriter,
    /// In pixels, and in blocks of 4x4.
    width: usize,
    height: usize,
    blocks: Size,
    frames: usize,
    interval: u32,
    /// The picture that frames are drawn on: whole blocks of 8x8, and whether one was drawn.
    picture: Vec<u8>,
    /// The numbers of frames that are refused, and why.
    refused: Vec<(usize, Error)>,
    rounded: bool,
}

impl Trailer {
    fn new(avi: &Avi, film: FilmWriter) -> Trailer {
        Trailer {
            width: avi.width,
            height: avi.height,
            blocks: Size { columns: avi.width / 4, rows: avi.height / 4 },
            frames: avi.frames,
            interval: avi.interval,
            picture: vec![0; 64 * film.columns * film.rows],
            refused: Vec::new(),
            rounded: false,
            film,
        }
    }

    fn take(&mut self, avi: Avi) -> Result<(), Failure> {
        let mut progress = Progress::new();
        let mut number = 0;
        avi.each(&mut |item| {
            let all = self.frames;
            progress.show(number, all, || format!("{number} of {all} frames"));
            self.add(number, &item)?;
            number += 1;
            Ok(())
        })
    }

    /// Adds the picture of a frame. One that is refused, or is empty, leaves the picture before it.
    fn add(&mut self, number: usize, item: &Item<'_>) -> Result<(), Failure> {
        let colours = item.palette.iter().map(|&colour| narrowed(colour));
        self.rounded |= colours.clone().any(|(_, is_exact)| !is_exact);
        self.film.set_palette(colours.map(|(colour, _)| colour).collect());
        let refused = match self.drawn(&item.data) {
            Ok(pixels) => match self.film.add(&pixels, self.interval) {
                Ok(()) => return Ok(()),
                Err(Unadded::Refused(error)) => error,
                Err(Unadded::Failed(failure)) => return Err(failure),
            },
            Err(error) => error,
        };
        self.refused.push((number, refused));
        self.film.add_again(self.interval).map_err(|unadded| match unadded {
            Unadded::Refused(_) => Failure::TooLarge("the picture before".into(), number),
            Unadded::Failed(failure) => failure,
        })
    }

    /// The picture with a frame drawn on it.
    fn drawn(&mut self, data: &[u8]) -> Result<Vec<u8>, Error> {
        let (columns, rows) = (self.film.columns, self.film.rows);
        if !data.is_empty() {
            let data = video1::widened(self.blocks, data);
            mve::video1(columns, rows, &data, &mut self.picture)?;
        }
        let row = |y: usize| self.picture[8 * columns * y..][..self.width].to_vec();
        Ok((0..self.height).flat_map(row).collect())
    }
}

/// What is told.
struct Told {
    written: Written,
    refused: Vec<(usize, Error)>,
    rounded: bool,
    /// Sounds that are not carried over.
    others: usize,
}

impl Told {
    fn lines(&self, target: &Path) -> String {
        let mut lines = self.written.lines();
        if self.rounded {
            let why = "the palette has colours that a film cannot have";
            lines.push(("rounded", format!("to 6 bits a component: {why}")));
        }
        if self.others > 0 {
            lines.push(("left out", format!("{} more sounds", self.others)));
        }
        for &(number, error) in &self.refused {
            let why = format!("{} (refusal {})", error.text(), error.number());
            lines.push(("refused", format!("frame {number}: {why}")));
        }
        Written::text(&name(target), lines)
    }

    fn object(&self, path: &Path, target: &Path) -> String {
        let refused = self.refused.iter().map(|(number, error)| {
            json!({"frame": number, "number": error.number(), "words": error.text()})
        });
        let mut object = self.written.object(target);
        object["from"] = path.to_string_lossy().into();
        object["rounded"] = self.rounded.into();
        object["sounds_left_out"] = self.others.into();
        object["refused"] = refused.collect();
        object.to_string()
    }
}
