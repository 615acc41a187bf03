//! `mve blocks`: what a picture is made of, block by block.

use crate::canvas::Canvas;
use crate::drawings::{Drawing, Played};
use crate::legend::{self, Code, CODES};
use crate::messages::Failure;
use crate::output::{self, Overwrite};
use crate::walk::Picture;
use crate::{arguments, film, Subcommand};
use clap::builder::{PathBufValueParser, TypedValueParser};
use clap::{Arg, ArgAction, ArgMatches, Command};
use std::io::{self, Write};
use std::path::PathBuf;

pub const SUBCOMMAND: Subcommand = Subcommand { name: "blocks", describe, run };

const ABOUT: &str = "Show what a picture is made of, block by block";

const MORE: &str = "\
Show what a picture is made of, block by block.

The film is played until it sends picture PICTURE. OUT.png is that picture without its colours:
each of its blocks of 8x8 pixels has that of its code instead, a quarter as bright where the
picture is black. A legend below has the colour of each code, its digit and how many blocks have
it. Standard output has the same in words. Where a picture is drawn more than once before it is
sent, the last drawing is shown. Films with true colour, whose codes mean other things, are not
shown.

";

const STATUS: &str = "
Exit status: 0 if the picture is written, 1 if the film is refused before the picture or does
not send it, 2 if the film has true colour, a file cannot be read or written or the command is
used wrongly.";

/// The widest result for small pictures, and the largest pixel.
const WIDE: usize = 640;
const LARGEST_PIXEL: usize = 8;

fn describe(command: Command) -> Command {
    let png = PathBufValueParser::new().try_map(png_name);
    let output = Arg::new("output").short('o').long("output").value_name("OUT.png");
    let force = Arg::new("force").long("force").action(ArgAction::SetTrue);
    let line = |Code { code, meaning, .. }: &Code| format!("  {code:X}  {meaning}\n");
    let codes: String = CODES.iter().map(line).collect();
    command
        .about(ABOUT)
        .long_about(format!("{MORE}{codes}{STATUS}"))
        .arg(arguments::film())
        .arg(arguments::picture())
        .arg(output.value_parser(png).required(true).help("Write the picture there"))
        .arg(force.help("Overwrite a file"))
}

fn png_name(path: PathBuf) -> Result<PathBuf, String> {
    match path.extension().is_some_and(|ending| ending.eq_ignore_ascii_case("png")) {
        true => Ok(path),
        false => Err("give a name that ends in .png".into()),
    }
}

fn run(matches: &ArgMatches) -> Result<u8, Failure> {
    let wanted = matches.get_one::<usize>("picture").copied().unwrap_or(0);
    let path = arguments::film_path(matches);
    let overwrite = Overwrite::new(path, matches.get_flag("force"));
    let target = arguments::path(matches, "output").unwrap_or(path);
    overwrite.check(target)?;
    let film = film::read(path).map_err(|unread| unread.failure(path))?;
    let played = Played::to(path, &film, wanted, SUBCOMMAND.name)?;
    let codes = played.drawings.last().map(codes_of).unwrap_or_default();
    let picture = played.picture();
    let canvas = painted(&picture, &codes);
    output::write_png(target, &canvas, &overwrite)?;
    io::stdout().write_all(legend::text(&codes).as_bytes()).map_err(Failure::standard_output)?;
    Ok(0)
}

/// The code of each block: a nibble each, low nibble first.
fn codes_of(drawing: &Drawing<'_>) -> Vec<u8> {
    let (columns, rows) = drawing.size;
    let nibbles = drawing.map.iter().flat_map(|byte| [byte & 0x0F, byte >> 4]);
    nibbles.take(columns * rows).collect()
}

/// The picture with tinted blocks, and the legend below.
fn painted(picture: &Picture<'_>, codes: &[u8]) -> Canvas {
    let [width, height] = [picture.width, picture.height].map(usize::from);
    let scale = (WIDE / width).clamp(1, LARGEST_PIXEL);
    let (wide, high) = legend::SIZE;
    let mut canvas = Canvas::new((width * scale).max(wide), height * scale + high);
    for y in 0..height * scale {
        for x in 0..width * scale {
            let (column, row) = (x / scale, y / scale);
            let colour = picture.colour(picture.pixels[row * width + column]);
            let code = codes[row / 8 * (width / 8) + column / 8];
            canvas.put(x, y, legend::tinted(colour.map(mve::widened), code));
        }
    }
    legend::paint(&mut canvas, (0, height * scale), codes);
    canvas
}
