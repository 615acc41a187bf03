//! `mve why`: where the colour of a pixel comes from.

use crate::chain::chain;
use crate::drawings::Played;
use crate::messages::{name, Failure};
use crate::output::Overwrite;
use crate::page::{self, Page};
use crate::walk::Picture;
use crate::{arguments, film, Subcommand};
use clap::builder::{PathBufValueParser, TypedValueParser};
use clap::{value_parser, Arg, ArgAction, ArgMatches, Command};
use std::io::{self, Write};
use std::path::{Path, PathBuf};

pub const SUBCOMMAND: Subcommand = Subcommand { name: "why", describe, run };

const ABOUT: &str =
    "Tell where the colour of a pixel comes from; or make a page that tells it of all";

const USAGE: &str = "\
mve why <FILM> <PICTURE> <X> <Y>
       mve why <FILM> <PICTURE> --page <OUT.html> [--force]";

const MORE: &str = "\
Tell where the colour of a pixel comes from.

The film is played until it sends picture PICTURE. The first line has the pixel's entry of
the palette, with its colour. A line follows for each step back, from picture to picture and
from copy to copy, down to the byte of the film that holds the entry, or to a picture as it
was before the film, which is 0 everywhere:

  PICTURE   the picture that the pixel was drawn for
  X, Y      the pixel, counted from the upper left corner
  BLOCK     its block of 8x8 pixels, counted from 0, left to right, then down
  CODE      the block's code; mve blocks --help tells what each one means
  ORIGIN    what gave the pixel its value. A byte is counted from the film's first, and from
            the first of the picture's packet: it is the byte of the colour, not that of the
            bits which chose it

Each byte or pixel named holds the value of the pixel of its line: that is proved of the
library.

With --page, OUT.html tells this of every pixel of the picture. It is one file for a browser
and needs no network: the picture, zoomed by the wheel, the codes of its blocks and the rows
that were touched; a click on a pixel shows its chain, with the earlier pictures and with the
bytes of the film. All of it is asked of the library when the page is made, pixel by pixel:
that takes seconds for a picture of 640x480.

Films with true colour are not explained: the library tells origins in 8-bit packets alone.

";

const STATUS: &str = "
Exit status: 0 if the pixel is explained or the page is written, 1 if the film is refused
before the picture or does not send it, 2 if the position lies outside, the film has true
colour, a file cannot be read or written or the command is used wrongly.";

fn describe(command: Command) -> Command {
    let number = |id, value| {
        let number = Arg::new(id).value_name(value).value_parser(value_parser!(usize));
        number.required_unless_present("page").conflicts_with("page")
    };
    let html = PathBufValueParser::new().try_map(html_name);
    let page = Arg::new("page").long("page").value_name("OUT.html").value_parser(html);
    let force = Arg::new("force").long("force").action(ArgAction::SetTrue);
    let force = force.conflicts_with_all(["x", "y"]);
    let limit = format!(
        "A page goes back over {} drawings at most, and over no more once {} pixels are told. It\n\
         says how far it goes back. X and Y tell a chain to its end.\n",
        page::DRAWINGS,
        page::PIXELS
    );
    command
        .about(ABOUT)
        .long_about(format!("{MORE}{limit}{STATUS}"))
        .override_usage(USAGE)
        .arg(arguments::film())
        .arg(arguments::picture())
        .arg(number("x", "X").help("The pixel's column, counted from 0"))
        .arg(number("y", "Y").help("Its row, counted from 0"))
        .arg(page.help("Write a page there that tells it of every pixel"))
        .arg(force.help("Overwrite a file"))
}

fn html_name(path: PathBuf) -> Result<PathBuf, String> {
    let ending = path.extension().map(|ending| ending.to_string_lossy().to_lowercase());
    match ending.as_deref() {
        Some("html" | "htm") => Ok(path),
        _ => Err("give a name that ends in .html".into()),
    }
}

fn run(matches: &ArgMatches) -> Result<u8, Failure> {
    match arguments::path(matches, "page") {
        Some(target) => write_page(matches, target),
        None => tell_chain(matches),
    }
}

fn write_page(matches: &ArgMatches, target: &Path) -> Result<u8, Failure> {
    let wanted = matches.get_one::<usize>("picture").copied().unwrap_or(0);
    let path = arguments::film_path(matches);
    let overwrite = Overwrite::new(path, matches.get_flag("force"));
    overwrite.check(target)?;
    let film = film::read(path).map_err(|unread| unread.failure(path))?;
    let played = Played::holding(path, &film, wanted, page::DRAWINGS, SUBCOMMAND.name)?;
    let page = Page::of(path, &played, wanted);
    page.write(target, &overwrite)?;
    let (target, back_to) = (name(target), page.back_to);
    let text = format!("{target}: picture {wanted}, going back to picture {back_to}\n");
    io::stdout().write_all(text.as_bytes()).map_err(Failure::standard_output)?;
    Ok(0)
}

fn tell_chain(matches: &ArgMatches) -> Result<u8, Failure> {
    let number = |id| matches.get_one::<usize>(id).copied().unwrap_or(0);
    let (wanted, x, y) = (number("picture"), number("x"), number("y"));
    let path = arguments::film_path(matches);
    let film = film::read(path).map_err(|unread| unread.failure(path))?;
    let played = Played::to(path, &film, wanted, SUBCOMMAND.name)?;
    let picture = played.picture();
    // The packets were drawn, so a position outside is all that can be refused.
    let links = chain(&played.drawings, (x, y))
        .map_err(|_| Failure::Outside(path.into(), picture.width, picture.height))?;
    let colour = colour(&picture, x, y);
    let mut text = format!("{}, picture {wanted}, pixel {x}, {y}: {colour}\n", name(path));
    text += "PICTURE    X    Y  BLOCK  CODE  ORIGIN\n";
    for link in links {
        text += &format!("{link}\n");
    }
    io::stdout().write_all(text.as_bytes()).map_err(Failure::standard_output)?;
    Ok(0)
}

/// The palette's entry of a pixel, and its colour: as the film has it, and widened to 8 bits.
fn colour(picture: &Picture<'_>, x: usize, y: usize) -> String {
    let entry = picture.pixels[y * usize::from(picture.width) + x];
    let [red, green, blue] = picture.colour(entry);
    let wide = [red, green, blue].map(mve::widened);
    let wide = wide.map(|component| format!("{component:02X}")).concat();
    format!("entry {entry}, red {red}, green {green}, blue {blue} of 63 (#{wide})")
}
