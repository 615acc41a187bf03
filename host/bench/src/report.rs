//! What a run found, as tables.

use crate::allowance::Pieces;
use crate::blocks::{Line, Point};
use crate::colours::Colours;
use crate::encodes::{Encodes, Kind};
use crate::hearing::Hearing;
use crate::kind::MIX;
use crate::libav;
use crate::measure::Measured;
use crate::program::{CHECK, DRAW, LIBAV, MEMCPY, STEP, VIDEO1};
use crate::salvages::Salvages;
use crate::strips::Strips;
use crate::table::{number, Table};
use crate::words;
use maker::Size;
use std::fs;
use std::time::Duration;

/// Kinds that must take less than libavcodec's time: patterns and raw.
const BELOW: [&str; 6] = ["B", "7", "8", "9", "A", "7-A"];

fn size_text(size: Size) -> String {
    format!("{}x{}", size.width(), size.height())
}

/// Nanoseconds a pixel of every program and kind, and what they are to each other.
pub fn kinds(measured: &[Measured]) -> Table {
    pixels(measured, &[(DRAW, LIBAV), (DRAW, MEMCPY), (CHECK, MEMCPY)])
}

/// The same of frames with true colour.
pub fn words(measured: &[Measured]) -> Table {
    kinds(measured)
}

/// The same of frames of Microsoft Video 1.
pub fn trailers(measured: &[Measured]) -> Table {
    pixels(measured, &[(VIDEO1, LIBAV), (VIDEO1, MEMCPY)])
}

fn pixels(measured: &[Measured], ratios: &[(&str, &str)]) -> Table {
    let programs = measured[0].times.iter().map(|&(name, _)| name.to_owned());
    let ratios = ratios.iter().filter(|(_, other)| measured[0].of(other).is_some());
    let titles = ratios.clone().map(|(one, other)| format!("{one}/{other}"));
    let heading = ["codes", "size"].map(str::to_owned).into_iter().chain(programs).chain(titles);
    let mut table = Table::new(heading.collect());
    for found in measured {
        let mut row = vec![found.name.to_owned(), size_text(found.size)];
        row.extend(found.times.iter().map(|&(_, time)| number(time, 3)));
        let found = ratios.clone().filter_map(|(one, other)| found.ratio(one, other));
        row.extend(found.map(|ratio| number(ratio, 2)));
        table.row(row);
    }
    table
}

/// Nanoseconds a sample of every program, mono and stereo, and the step's by libavcodec's.
pub fn sounds(hearings: &[Hearing]) -> Table {
    let programs = hearings[0].measured().into_iter().map(|(name, _)| name.to_owned());
    let ratio = step_ratio(&hearings[0]).map(|_| format!("{STEP}/{LIBAV}"));
    let heading = ["sound", "samples a packet"].map(str::to_owned).into_iter();
    let mut table = Table::new(heading.chain(programs).chain(ratio).collect());
    for hearing in hearings {
        let mut row = vec![channels_text(hearing), hearing.samples_a_packet().to_string()];
        row.extend(hearing.measured().into_iter().map(|(_, time)| number(time, 3)));
        row.extend(step_ratio(hearing).map(|ratio| number(ratio, 2)));
        table.row(row);
    }
    table
}

/// Nanoseconds a store of each opcode of the palette, by program.
pub fn palettes(colours: &[Colours]) -> Table {
    let programs = colours[0].measured().map(|(name, _)| name.to_owned());
    let heading = ["opcode", "stores"].map(str::to_owned).into_iter();
    let mut table = Table::new(heading.chain(programs).collect());
    for colours in colours {
        let mut row = vec![colours.name.to_owned(), colours.stores().to_string()];
        row.extend(colours.measured().map(|(_, time)| number(time, 3)));
        table.row(row);
    }
    table
}

/// Megabytes a second of saving a film and of copying it, and the time of a byte.
pub fn salvages(salvages: &[Salvages]) -> Table {
    let [(copy, _), (save, _)] = salvages[0].measured();
    let rates = [copy, save].map(|name| format!("{name} MB/s"));
    let heading = ["chunks", "bytes", "left out"].map(str::to_owned).into_iter().chain(rates);
    let more = ["ns a byte".to_owned(), format!("{save}/{copy}")];
    let mut table = Table::new(heading.chain(more).collect());
    for film in salvages {
        let [(_, copied), (_, saved)] = film.measured();
        let bytes = film.bytes() as f64;
        table.row(vec![
            film.chunks.name().to_owned(),
            film.bytes().to_string(),
            film.left_out().to_string(),
            number(bytes / copied * 1e3, 0),
            number(bytes / saved * 1e3, 0),
            number(saved / bytes, 3),
            number(saved / copied, 2),
        ]);
    }
    table
}

/// Megabytes a second of stripping a film and of copying it, and the time of a byte.
pub fn strips(strips: &[Strips]) -> Table {
    let [(copy, _), (strip, _)] = strips[0].measured();
    let rates = [copy, strip].map(|name| format!("{name} MB/s"));
    let heading = ["chunks", "bytes", "left"].map(str::to_owned).into_iter().chain(rates);
    let more = ["ns a byte".to_owned(), format!("{strip}/{copy}")];
    let mut table = Table::new(heading.chain(more).collect());
    for film in strips {
        let [(_, copied), (_, stripped)] = film.measured();
        let bytes = film.bytes() as f64;
        table.row(vec![
            film.chunks.name().to_owned(),
            film.bytes().to_string(),
            film.left().to_string(),
            number(bytes / copied * 1e3, 0),
            number(bytes / stripped * 1e3, 0),
            number(stripped / bytes, 3),
            number(stripped / copied, 2),
        ]);
    }
    table
}

/// Nanoseconds a pixel of encoding pictures and of drawing what comes of it.
pub fn encodes(encodes: &[Encodes]) -> Table {
    let programs = encodes[0].measured().map(|(name, _)| name.to_owned());
    let heading = ["pictures", "size", "data bytes"].map(str::to_owned).into_iter();
    let mut table = Table::new(heading.chain(programs).collect());
    for encodes in encodes {
        let mut row = vec![encodes.kind.name().to_owned(), size_text(encodes.size)];
        row.push(encodes.bytes().to_string());
        row.extend(encodes.measured().map(|(_, time)| number(time, 3)));
        table.row(row);
    }
    table
}

fn channels_text(hearing: &Hearing) -> String {
    if hearing.channels == 1 { "mono" } else { "stereo" }.to_owned()
}

/// The time of a film step over a packet of sound by that of libavcodec.
fn step_ratio(hearing: &Hearing) -> Option<f64> {
    let measured = hearing.measured();
    let of = |program| measured.iter().find(|(name, _)| *name == program).map(|&(_, time)| time);
    Some(of(STEP)? / of(LIBAV)?)
}

/// The targets, what was measured of each, and whether it is met.
pub fn targets(
    measured: &[Measured],
    hearings: &[Hearing],
    encodes: &[Encodes],
    words: &[Measured],
    trailers: &[Measured],
) -> Table {
    let mix = |found: &&Measured| found.name == MIX.name;
    let below = |found: &&Measured| BELOW.contains(&found.name);
    let mut table = Table::new(["target", "measured", "met"].map(str::to_owned).into());
    let mut add = |target: &str, worst: Option<(f64, &str)>, met: fn(f64) -> bool| {
        let found = worst.map(|(ratio, kind)| format!("{ratio:.2} ({kind})"));
        let is_met = match worst {
            Some((ratio, _)) if met(ratio) => "yes",
            Some(_) => "no",
            None => "not measured",
        };
        table.row(vec![target.to_owned(), found.unwrap_or_default(), is_met.to_owned()]);
    };
    let of =
        |wanted: &dyn Fn(&&Measured) -> bool| worst(measured.iter().filter(wanted), DRAW, LIBAV);
    add("draw/libavcodec of the mix at most 1", of(&mix), |ratio| ratio <= 1.0);
    add("draw/libavcodec of every kind at most 2", of(&|_| true), |ratio| ratio <= 2.0);
    add("draw/libavcodec of B and 7 to A below 1", of(&below), |ratio| ratio < 1.0);
    let check = worst(measured.iter().filter(mix), CHECK, MEMCPY);
    add("check/memcpy of the mix at most 7.5 (0.15 ns / 0.02)", check, |ratio| ratio <= 7.5);
    let sounds: Vec<_> = hearings
        .iter()
        .filter_map(|hearing| Some((step_ratio(hearing)?, channels_text(hearing))))
        .collect();
    let sound = sounds.iter().max_by(|a, b| a.0.total_cmp(&b.0));
    let sound = sound.map(|(ratio, channels)| (*ratio, &**channels));
    add("step/libavcodec of sound at most 1", sound, |ratio| ratio <= 1.0);
    let encoded = encodes.iter().map(|encodes| (encodes.measured()[0].1, encodes.kind));
    let unchanged = encoded.clone().find(|(_, kind)| *kind == Kind::Unchanged);
    let unchanged = unchanged.map(|(time, kind)| (time, kind.name()));
    add("encode of unchanged pictures at most 1 ns a pixel", unchanged, |time| time <= 1.0);
    let slowest = encoded.max_by(|a, b| a.0.total_cmp(&b.0));
    let slowest = slowest.map(|(time, kind)| (time, kind.name()));
    add("encode of every kind at most 3 ns a pixel", slowest, |time| time <= 3.0);
    let deep_mix = worst(words.iter().filter(|found| found.name == words::MIX), DRAW, LIBAV);
    add("draw/libavcodec of the mix with true colour at most 1", deep_mix, |ratio| ratio <= 1.0);
    let deep = worst(words.iter(), DRAW, LIBAV);
    add("draw/libavcodec of every kind with true colour at most 1", deep, |ratio| ratio <= 1.0);
    let trailers = worst(trailers.iter(), VIDEO1, LIBAV);
    add("video1/libavcodec of every kind at most 1", trailers, |ratio| ratio <= 1.0);
    table
}

/// The greatest ratio of two programs, and the kind that has it.
fn worst<'a>(
    measured: impl Iterator<Item = &'a Measured>,
    one: &str,
    other: &str,
) -> Option<(f64, &'static str)> {
    let ratios = measured.filter_map(|found| Some((found.ratio(one, other)?, found.name)));
    ratios.max_by(|a, b| a.0.total_cmp(&b.0))
}

/// The cost of a picture by the stores that a call is allowed.
pub fn allowances(pieces: &[Pieces]) -> Table {
    let heading = ["codes", "size", "stores a call", "calls", "ms a picture", "us a call"];
    let mut table = Table::new(heading.map(str::to_owned).into());
    for Pieces { kind, allowed, calls } in pieces {
        let time = calls.iter().sum::<Duration>().as_secs_f64();
        table.row(vec![
            kind.name.to_owned(),
            size_text(kind.size),
            allowed.to_string(),
            calls.len().to_string(),
            number(time * 1e3, 3),
            number(time * 1e6 / calls.len() as f64, 1),
        ]);
    }
    table
}

/// The time of a frame of the mix by its number of blocks.
pub fn blocks(points: &[Point], line: Line) -> Table {
    let heading = ["size", "blocks", "us a frame", "ns a block", "off the line"];
    let mut table = Table::new(heading.map(str::to_owned).into());
    for point in points {
        table.row(vec![
            size_text(point.size),
            point.size.blocks().to_string(),
            number(point.time / 1e3, 3),
            number(point.time / point.blocks(), 1),
            format!("{:+.1} %", line.off(point) * 100.0),
        ]);
    }
    table
}

/// The line fitted to these times, in words.
pub fn line(points: &[Point], line: Line) -> String {
    let worst = points.iter().map(|point| line.off(point).abs()).fold(0.0, f64::max) * 100.0;
    let Line { intercept, slope } = line;
    format!(
        "The line, by least squares of the distances as parts of the times: {slope:.1} ns a block \
         and {intercept:.0} ns a frame;\nno size is more than {worst:.1} % off."
    )
}

/// The machine, the library that is measured against, and the run.
pub fn run(seed: u64, rounds: usize) -> String {
    let libav = libav::version()
        .map_or_else(|why| format!("left out, {why}"), |version| format!("version {version}"));
    format!("Processor: {}.\nlibavcodec: {libav}.\nSeed {seed}, {rounds} rounds.", processor())
}

/// The processor's name, as Linux tells it; a virtual one may have little more than its numbers.
fn processor() -> String {
    let text = fs::read_to_string("/proc/cpuinfo").unwrap_or_default();
    let field = |name: &str| {
        let value = |line: &str| {
            let (key, value) = line.split_once(':')?;
            (key.trim() == name).then(|| value.trim().to_owned())
        };
        text.lines().find_map(value).unwrap_or_else(|| "unknown".to_owned())
    };
    let [name, family, model] = ["model name", "cpu family", "model"].map(field);
    format!("{name}, family {family}, model {model}")
}
