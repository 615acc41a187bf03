//! A report as lines for one film, as a row of the table for many, and as JSON.

use crate::clock::USUAL;
use crate::readings::{Readings, SOUND};
use crate::refusals::Refused;
use crate::report::{stream_numbers, Report};
use crate::sound::Format;
use mve::Error;
use serde_json::{json, Value};

/// The heads of the table.
pub const HEADS: [&str; 9] =
    ["FILM", "SIZE", "BLOCKS", "SENT", "SECONDS", "SOUND", "PALETTE", "BYTES", "RESULT"];

/// In front of a second line.
const INDENT: &str = "            ";

/// The streams of a row of the table have so many characters at most.
const STREAMS: usize = 7;

/// A row of the table.
pub fn row(name: &str, report: &Report) -> [String; HEADS.len()] {
    let result = match &report.refused {
        None => "plays".into(),
        Some(refused) => format!("refusal {}", refused.number()),
    };
    [
        name.into(),
        report.size.map_or("-".into(), |(columns, rows)| format!("{}x{}", 8 * columns, 8 * rows)),
        report.size.map_or("-".into(), |(columns, rows)| format!("{columns}x{rows}")),
        report.pictures.to_string(),
        seconds(report, 2),
        short_sound(report),
        if report.true_colour { "15-bit".into() } else { report.palette_changes.to_string() },
        report.bytes.to_string(),
        result,
    ]
}

/// The row of a file that cannot be read.
pub fn unreadable(name: &str) -> [String; HEADS.len()] {
    let mut row = HEADS.map(|_| "-".to_string());
    (row[0], row[HEADS.len() - 1]) = (name.into(), "not read".into());
    row
}

/// What stands below the table, where a row has a star.
pub fn footnote(reports: &[&Report]) -> Option<String> {
    let assumed = reports.iter().any(|report| report.clock.assumed());
    assumed.then(|| format!("* pictures before the first timer: {USUAL} us each, as is usual\n"))
}

/// All that was found, a line each.
pub fn lines(name: &str, stream: usize, report: &Report) -> String {
    let lines = [
        ("size", size(report)),
        ("pictures", format!("{} sent", report.pictures)),
        ("duration", duration(report)),
        ("sound", sound(report)),
        ("palette", palette(report)),
        ("bytes", report.bytes.to_string()),
        ("result", result(report)),
    ];
    let lines = lines.into_iter().chain(notes(stream, report));
    let lines: String = lines.map(|(head, text)| format!("  {head:<10}{text}\n")).collect();
    format!("{name}\n{lines}")
}

/// Whether it plays; the reason in words is on a line of its own.
fn result(report: &Report) -> String {
    match &report.refused {
        None => "plays to its end".into(),
        Some(refused) => format!("does not play: {}\n{INDENT}{}", refused.place(), refused.words),
    }
}

/// What players differ in, where the film has it.
fn notes(stream: usize, report: &Report) -> Vec<(&'static str, String)> {
    let Readings { packets, sound, left_over: [none, one, more], most_left_over, unsent, .. } =
        &report.readings;
    let mut notes = Vec::new();
    if report.refused.as_ref().is_some_and(|refused| refused.error == Error::SoundLength) {
        let fits = SOUND.iter().zip(sound);
        let fits = fits.map(|((_, words), count)| format!("\n{INDENT}{count:>7} fit {words}"));
        let text = format!("of {packets} packets of sound in stream {stream}");
        notes.push(("readings", text + &fits.collect::<String>()));
    }
    if one + more > 0 {
        let text = format!(
            "{one} pictures leave a byte over, {more} leave more, {most_left_over} at most"
        );
        notes.push(("padding", format!("{text}; {none} leave none")));
    }
    if *unsent > 0 {
        notes.push((
            "not sent",
            format!(
                "{unsent} {} drawn and never sent",
                plural(*unsent, "picture is", "pictures are")
            ),
        ));
    }
    notes
}

/// A stream that was asked for, and that a film does not have.
pub fn lacking(name: &str, stream: usize, streams: &[usize]) -> String {
    match streams {
        [] => format!("{name}: there is no stream {stream}: the film has no sound\n"),
        _ => format!("{name}: there is no stream {stream}: the film has {}\n", ranges(streams)),
    }
}

fn plural(count: usize, one: &'static str, more: &'static str) -> &'static str {
    if count == 1 {
        one
    } else {
        more
    }
}

fn duration(report: &Report) -> String {
    let how = if report.clock.assumed() { "usual timer, as it has none at first" } else { "timer" };
    let rate = report
        .pictures_a_second()
        .map(|rate| format!(", {}.{:03} pictures a second", rate / 1000, rate % 1000));
    let seconds = seconds(report, 3);
    format!("{} s by the {how}{}", seconds.trim_end_matches('*'), rate.unwrap_or_default())
}

fn size(report: &Report) -> String {
    report.size.map_or("not told".into(), |(columns, rows)| {
        format!("{}x{} pixels, {columns}x{rows} blocks", 8 * columns, 8 * rows)
    })
}

/// How often the palette changes; of true colour also that it has none.
fn palette(report: &Report) -> String {
    let changes = report.palette_changes;
    let changes = format!("{changes} {}", plural(changes, "change", "changes"));
    match report.true_colour {
        true => format!("none: true colour, 15 bits a pixel ({changes} that no pixel reads)"),
        false => changes,
    }
}

/// The duration, rounded; with a star where the timer is assumed.
fn seconds(report: &Report, places: u32) -> String {
    let unit = 10_u64.pow(6 - places);
    let rounded = (report.clock.elapsed() + unit / 2) / unit;
    let (whole, part) = (rounded / 10_u64.pow(places), rounded % 10_u64.pow(places));
    let star = if report.clock.assumed() { "*" } else { "" };
    format!("{whole}.{part:0places$}{star}", places = places as usize)
}

fn sound(report: &Report) -> String {
    if report.formats.is_empty() {
        return "none".into();
    }
    let formats: Vec<_> = report.formats.iter().map(format).collect();
    let streams = match &*stream_numbers(report.readings.streams) {
        [] => "no stream".into(),
        [stream] => format!("stream {stream}"),
        several => format!("streams {}", ranges(several)),
    };
    format!("{}; {streams}", formats.join(", then "))
}

pub fn format(format: &Format) -> String {
    let channels = if format.channels == 2 { "stereo" } else { "mono" };
    let compressed = if format.compressed { "compressed" } else { "uncompressed" };
    format!("{} Hz {channels} {}-bit {compressed}", format.rate, format.bits)
}

/// Rate, channels and bits of the first format, c if it is compressed, + if there are more; streams.
fn short_sound(report: &Report) -> String {
    let Some(first) = report.formats.first() else { return "-".into() };
    let Format { rate, channels, bits, compressed } = first;
    let compressed = if *compressed { "c" } else { "" };
    let more = if report.formats.len() > 1 { "+" } else { "" };
    let streams = report.stream_numbers();
    let streams = match ranges(&streams) {
        long if long.len() > STREAMS => format!("{} of 16", streams.len()),
        none if none.is_empty() => "-".into(),
        short => short,
    };
    format!("{rate} {channels}x{bits}{compressed}{more} {streams}")
}

/// Rising numbers, as in "0-2,5".
fn ranges(numbers: &[usize]) -> String {
    let runs = numbers.chunk_by(|a, b| a + 1 == *b).map(|run| match run {
        [only] => only.to_string(),
        [first, .., last] => format!("{first}-{last}"),
        [] => String::new(),
    });
    runs.collect::<Vec<_>>().join(",")
}

/// The object of a film.
pub fn object(name: &str, stream: usize, report: &Report) -> Value {
    let size = report.size.map(|(columns, rows)| {
        json!({"width": 8 * columns, "height": 8 * rows, "columns": columns, "rows": rows})
    });
    json!({
        "file": name,
        "bytes": report.bytes,
        "size": size,
        "true_colour": report.true_colour,
        "pictures": report.pictures,
        "duration_us": report.clock.elapsed(),
        "pictures_a_second": report.pictures_a_second().map(|rate| rate as f64 / 1000.0),
        "timer_assumed": report.clock.assumed(),
        "sound": report.formats.iter().map(format_object).collect::<Vec<_>>(),
        "streams": report.stream_numbers(),
        "stream": stream,
        "palette_changes": report.palette_changes,
        "plays": report.refused.is_none(),
        "refused": report.refused.as_ref().map(refused_object),
        "readings": readings_object(&report.readings),
    })
}

fn format_object(format: &Format) -> Value {
    let Format { rate, channels, bits, compressed } = format;
    json!({"rate": rate, "channels": channels, "bits": bits, "compressed": compressed})
}

fn refused_object(refused: &Refused) -> Value {
    let Refused { byte, block, words, .. } = refused;
    json!({"number": refused.number(), "byte": byte, "block": block, "words": words})
}

fn readings_object(readings: &Readings) -> Value {
    let [none, one, more] = readings.left_over;
    let mut object = json!({
        "sound_packets": readings.packets,
        "left_over": {"none": none, "one": one, "more": more, "most": readings.most_left_over},
        "not_sent": readings.unsent,
    });
    for ((name, _), count) in SOUND.iter().zip(readings.sound) {
        object["sound"][name] = count.into();
    }
    object
}

#[cfg(test)]
mod tests {
    use super::*;

    #[test]
    fn runs() {
        assert_eq!(ranges(&[]), "");
        assert_eq!(ranges(&[3]), "3");
        assert_eq!(ranges(&[0, 1, 2, 5, 7, 8]), "0-2,5,7-8");
    }

    #[test]
    fn short_sounds() {
        let format = Format { rate: 22_050, channels: 2, bits: 16, compressed: true };
        let other = Format { compressed: false, bits: 8, ..format };
        let report = |formats, streams| Report { formats, streams, ..Report::default() };
        assert_eq!(short_sound(&report(vec![], 1)), "-");
        assert_eq!(short_sound(&report(vec![format], 0b1011)), "22050 2x16c 0-1,3");
        assert_eq!(short_sound(&report(vec![other, format], 0)), "22050 2x8+ -");
        assert_eq!(short_sound(&report(vec![format], 0x5555)), "22050 2x16c 8 of 16");
    }
}
