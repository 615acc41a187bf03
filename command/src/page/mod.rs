//! The page of a picture: one file for a browser, which needs no network. All that it tells of a pixel
//! was asked of the library when it was made; its script only follows it.

mod pack;
mod told;

use crate::chain::last_on;
use crate::colours::widened;
use crate::drawings::{Drawing, Drawn, Played};
use crate::legend::{Code, CODES};
use crate::messages::{name, Failure};
use crate::output::{Overwrite, Part};
use mve::Origin;
use pack::packed;
use serde_json::{json, Value};
use std::io::Write;
use std::path::Path;
use told::{told, Told};
pub use told::{DRAWINGS, PIXELS};

const PAGE: &str = include_str!("page.html");
const STYLE: &str = include_str!("page.css");
const SCRIPT: &str = include_str!("page.js");

/// A page, and what is said of it.
pub struct Page {
    text: String,
    /// The earliest picture that it goes back to.
    pub back_to: usize,
}

impl Page {
    /// Of the picture with this number, which the film was played to.
    pub fn of(path: &Path, played: &Played<'_>, number: usize) -> Page {
        let all = told(&played.drawings);
        let earliest = all.last().map_or(0, |told| told.number);
        let back_to = played.drawings.get(earliest).map_or(number, |drawing| drawing.picture);
        let shown = played.picture();
        let codes = CODES.map(|Code { code, meaning, tint: [red, green, blue] }| {
            json!({"code": code, "meaning": meaning, "tint": [red, green, blue]})
        });
        let drawings: Vec<Value> = all.iter().map(|told| object(told, &all, played)).collect();
        let object = json!({
            "film": name(path),
            "picture": number,
            "back_to": back_to,
            "palette": packed(shown.palette),
            "codes": codes,
            "drawings": drawings,
        });
        // In JSON a < stands in strings alone, where it may be written so; as it is it could end the script.
        let data = object.to_string().replace('<', "\\u003c");
        let parts = [("/*STYLE*/", STYLE), ("/*SCRIPT*/", SCRIPT), ("/*TOLD*/", &data)];
        let text = parts
            .iter()
            .fold(PAGE.into(), |page: String, (mark, part)| page.replacen(mark, part, 1));
        Page { text, back_to }
    }

    /// Writes it, under a temporary name until it is complete.
    pub fn write(&self, target: &Path, overwrite: &Overwrite) -> Result<(), Failure> {
        let (part, mut file) = Part::file(target)?;
        let written = file.write_all(self.text.as_bytes());
        written.map_err(|error| Failure::write(target, error))?;
        drop(file);
        part.keep(overwrite)
    }
}

/// A drawing for the page.
fn object(told: &Told, all: &[Told], played: &Played<'_>) -> Value {
    let drawing = &played.drawings[told.number];
    let (columns, rows) = drawing.size;
    let has_bytes =
        told.traced.iter().flatten().any(|traced| matches!(traced.origin, Origin::Byte(_)));
    let packet = if has_bytes { drawing.packet } else { &[] };
    let held = held(played, told.number);
    let is_shown = told.number + 1 == played.drawings.len();
    let palette = held.filter(|_| !is_shown).map_or(played.picture().palette, |held| &held.palette);
    json!({
        "picture": drawing.picture,
        "columns": columns,
        "rows": rows,
        "pixels": packed(held.map_or(&[][..], |held| &held.pixels)),
        "colours": packed(&widened(palette)),
        "touched": touched(drawing),
        "codes": packed(&pack::codes(told)),
        "origins": packed(&pack::origins(told, drawing)),
        "start": drawing.start,
        "packet": packed(packet),
        "front": source(told.number, 1 - drawing.on, all, &played.drawings),
        "back": source(told.number, drawing.on, all, &played.drawings),
    })
}

/// What a drawing left; the last drawings have it.
fn held<'a>(played: &'a Played<'_>, number: usize) -> Option<&'a Drawn> {
    let behind = played.drawings.len() - number;
    played.held.len().checked_sub(behind).map(|at| &played.held[at])
}

/// The first and the last row of blocks that a drawing touches; none where it touches none.
fn touched(drawing: &Drawing<'_>) -> Option<[usize; 2]> {
    let (columns, rows) = drawing.size;
    let rows = mve::check(columns, rows, drawing.map, drawing.packet).ok().flatten()?;
    Some([rows.first, rows.last])
}

/// The drawing that left a picture in memory as a later one found it: its picture, and its place in the
/// page, if it is there. None where nothing was drawn before.
fn source(number: usize, on: usize, all: &[Told], drawings: &[Drawing<'_>]) -> Option<Value> {
    let source = last_on(&drawings[..number], on)?;
    let at = all.iter().position(|told| told.number == source);
    Some(json!({"picture": drawings[source].picture, "at": at}))
}
