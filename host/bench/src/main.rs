//! Times of the proved drawing call beside libavcodec's decoder, the second decoder and a copy of
//! the picture, all on the same frames, whose pictures are compared; and of the film step on packets
//! of sound beside the same, with every sample compared; of the film step on palettes; of saving what is
//! left of scratched films, and of dropping what the player passes over, beside a copy of them; of encoding
//! pictures beside their drawing; of frames with true colour beside the same as those of 8 bits; and of frames of
//! Microsoft Video 1 beside libavcodec's decoder of these.

mod allowance;
mod blocks;
mod colours;
mod encodes;
mod fault;
#[cfg(libavcodec)]
mod ffi;
mod hearing;
mod kind;
mod libav;
mod measure;
mod program;
mod report;
mod salvages;
mod sound;
mod strips;
mod table;
mod trailers;
mod words;

use allowance::Cuts;
use blocks::{Line, Series};
use colours::Colours;
use encodes::Encodes;
use hearing::Hearing;
use kind::{frames, Kind, KINDS, MIX, PRIMERS, SAME};
use measure::{Bench, Measured};
use program::{programs, Program};
use salvages::Salvages;
use std::env;
use std::process::ExitCode;
use strips::Strips;
use table::Table;

const USAGE: &str = "usage: bench [--quick | --markdown] [SEED [ROUNDS]]
       bench --kinds
       bench --one KIND PROGRAM TIMES
       bench --words [SEED [ROUNDS]]
       bench --trailers [SEED [ROUNDS]]";

/// In front of the name of a kind of frames with true colour.
const WORDS: &str = "words:";
const SEED: u64 = 1;
const ROUNDS: usize = 100;
/// Rounds of `--quick`, which compares and does not care for times.
const QUICK_ROUNDS: usize = 2;

/// What the arguments ask for.
enum Job {
    /// All tables.
    Tables { markdown: bool, seed: u64, rounds: usize },
    /// The comparisons alone.
    Quick { seed: u64, rounds: usize },
    /// The table of frames with true colour alone.
    Words { seed: u64, rounds: usize },
    /// The table of Microsoft Video 1 alone.
    Trailers { seed: u64, rounds: usize },
    /// The names and pixels of the kinds.
    Kinds,
    /// One program on one kind, so many frames, for a profiler.
    One { kind: Known, program: String, times: usize },
}

/// A kind by its name; those of frames with true colour are `words:7` and so on.
enum Known {
    Bytes(Kind),
    Words(words::Kind),
}

impl Known {
    fn of(name: &str) -> Option<Known> {
        match name.strip_prefix(WORDS) {
            Some(name) => {
                words::kinds().into_iter().find(|kind| kind.name == name).map(Known::Words)
            }
            None => KINDS.into_iter().find(|kind| kind.name == name).map(Known::Bytes),
        }
    }
}

fn main() -> ExitCode {
    let arguments: Vec<String> = env::args().skip(1).collect();
    let Some(job) = parsed(&arguments) else {
        eprintln!("{USAGE}");
        return ExitCode::from(2);
    };
    let done = match job {
        Job::Tables { markdown, seed, rounds } => tables(markdown, seed, rounds),
        Job::Quick { seed, rounds } => quick(seed, rounds),
        Job::One { kind, program, times } => one(kind, &program, times),
        Job::Words { seed, rounds } => alone(words::all(seed), seed, rounds, report::words),
        Job::Trailers { seed, rounds } => {
            alone(trailers::all(seed), seed, rounds, report::trailers)
        }
        Job::Kinds => {
            KINDS.iter().for_each(|kind| println!("{} {}", kind.name, kind.size.pixels()));
            for kind in words::kinds() {
                println!("{WORDS}{} {}", kind.name, kind.size.pixels());
            }
            Ok(())
        }
    };
    match done {
        Ok(()) => ExitCode::SUCCESS,
        Err(message) => {
            eprintln!("bench: {message}");
            ExitCode::FAILURE
        }
    }
}

fn parsed(arguments: &[String]) -> Option<Job> {
    let mut arguments: Vec<&str> = arguments.iter().map(String::as_str).collect();
    let option = arguments.first().filter(|argument| argument.starts_with("--")).copied();
    if option.is_some() {
        arguments.remove(0);
    }
    if let (Some("--one"), [kind, program, times]) = (option, &arguments[..]) {
        let kind = Known::of(kind)?;
        return Some(Job::One { kind, program: (*program).to_owned(), times: times.parse().ok()? });
    }
    let (seed, rounds) = match arguments[..] {
        [] => (SEED, None),
        [seed] => (seed.parse().ok()?, None),
        [seed, rounds] => (seed.parse().ok()?, Some(rounds.parse().ok().filter(|&r| r > 0)?)),
        _ => return None,
    };
    match option {
        None | Some("--markdown") => {
            let rounds = rounds.unwrap_or(ROUNDS);
            Some(Job::Tables { markdown: option.is_some(), seed, rounds })
        }
        Some("--quick") => Some(Job::Quick { seed, rounds: rounds.unwrap_or(QUICK_ROUNDS) }),
        Some("--words") => Some(Job::Words { seed, rounds: rounds.unwrap_or(ROUNDS) }),
        Some("--trailers") => Some(Job::Trailers { seed, rounds: rounds.unwrap_or(ROUNDS) }),
        Some("--kinds") if arguments.is_empty() => Some(Job::Kinds),
        Some(_) => None,
    }
}

/// What is measured.
struct Run {
    benches: Vec<Bench>,
    cuts: Vec<Cuts>,
    series: Vec<Series>,
    hearings: Vec<Hearing>,
    colours: Vec<Colours>,
    salvages: Vec<Salvages>,
    strips: Vec<Strips>,
    encodes: Vec<Encodes>,
    encode_sizes: Vec<Encodes>,
    words: Vec<Bench>,
    trailers: Vec<Bench>,
}

impl Run {
    /// So many rounds, each of everything in turn: a slow time of the machine meets all alike.
    fn new(seed: u64, rounds: usize, is_timed: bool) -> Result<Run, String> {
        let benches: Result<Vec<_>, _> =
            KINDS.map(|kind| Bench::new(kind, seed)).into_iter().collect();
        let cuts: Result<Vec<_>, _> =
            [SAME, MIX].map(|kind| Cuts::new(kind, seed)).into_iter().collect();
        let (benches, cuts) = (benches?, cuts?);
        let (series, hearings) = (Series::all(seed)?, Hearing::all(seed)?);
        let (colours, salvages) = (Colours::all(seed)?, Salvages::all(seed, is_timed)?);
        let strips = Strips::all(seed, is_timed)?;
        let (encodes, encode_sizes) = (Encodes::all(seed)?, Encodes::sizes(seed)?);
        let (words, trailers) = (words::all(seed)?, trailers::all(seed)?);
        let mut run = Run {
            benches,
            cuts,
            series,
            hearings,
            colours,
            salvages,
            strips,
            encodes,
            encode_sizes,
            words,
            trailers,
        };
        for round in 0..rounds {
            run.benches.iter_mut().try_for_each(|bench| bench.round(round))?;
            run.cuts.iter_mut().try_for_each(|cuts| cuts.round(round))?;
            run.series.iter_mut().for_each(Series::round);
            run.hearings.iter_mut().try_for_each(|hearing| hearing.round(round))?;
            run.colours.iter_mut().try_for_each(|colours| colours.round(round))?;
            run.salvages.iter_mut().try_for_each(|salvages| salvages.round(round))?;
            run.strips.iter_mut().try_for_each(|strips| strips.round(round))?;
            run.encodes.iter_mut().try_for_each(Encodes::round)?;
            run.encode_sizes.iter_mut().try_for_each(Encodes::round)?;
            run.words.iter_mut().try_for_each(|words| words.round(round))?;
            run.trailers.iter_mut().try_for_each(|trailers| trailers.round(round))?;
        }
        Ok(run)
    }
}

/// Compares the pictures of everything that is measured, and the sound.
fn quick(seed: u64, rounds: usize) -> Result<(), String> {
    let Run {
        benches,
        cuts,
        series,
        colours,
        salvages,
        strips,
        encodes,
        encode_sizes,
        words,
        trailers,
        ..
    } = Run::new(seed, rounds, false)?;
    let (kinds, lists, sizes) = (benches.len(), cuts.len() * cuts[0].pieces.len(), series.len());
    println!(
        "bench: seed {seed}: {kinds} kinds of frames, {lists} lists of calls, {sizes} sizes: \
         the pictures are those of the second decoder"
    );
    let opcodes: Vec<&str> = colours.iter().map(|colours| colours.name).collect();
    println!("bench: the palettes of {} are those of the second decoder", opcodes.join(", "));
    println!("bench: what is left of {} scratched films is the second program's", salvages.len());
    println!("bench: {} films are stripped as by the second program", strips.len());
    let kinds: Vec<&str> = encodes.iter().map(|encodes| encodes.kind.name()).collect();
    println!(
        "bench: pictures that are {}, and {} sizes of them, are encoded as by the second program",
        kinds.join(", "),
        encode_sizes.len()
    );
    let kinds = words.len();
    println!(
        "bench: the pictures of {kinds} kinds of frames with true colour are the second decoder's"
    );
    let kinds = trailers.len();
    println!("bench: the pictures of {kinds} kinds of Video 1 frames are the second decoder's");
    match libav::version() {
        Ok(version) => println!("bench: libavcodec {version} draws the same of every kind"),
        Err(why) => println!("bench: not compared with libavcodec: {why}"),
    }
    match sound::compare(seed)? {
        Some(sound::Compared { packets, samples }) => {
            println!(
                "bench: it decodes the same {samples} samples of {packets} packets of sound as the \
                 proved library"
            );
        }
        None => println!("bench: sound is not compared: libavcodec's decoder of it is not there"),
    }
    Ok(())
}

/// Measures everything and prints it.
fn tables(markdown: bool, seed: u64, rounds: usize) -> Result<(), String> {
    let Run {
        benches,
        cuts,
        series,
        hearings,
        colours,
        salvages,
        strips,
        encodes,
        encode_sizes,
        words,
        trailers,
    } = Run::new(seed, rounds, true)?;
    let measured: Vec<_> = benches.iter().map(Bench::measured).collect();
    let pieces = cuts.into_iter().flat_map(|cuts| cuts.pieces).collect::<Vec<_>>();
    let points: Vec<_> = series.iter().map(Series::point).collect();
    let line = Line::through(&points);
    let blocks = report::blocks(&points, line).text(markdown);
    let [words, trailers] =
        [words, trailers].map(|benches| benches.iter().map(Bench::measured).collect::<Vec<_>>());
    let targets = report::targets(&measured, &hearings, &encodes, &words, &trailers).text(markdown);
    let sizes: Vec<_> = encode_sizes.iter().map(Encodes::point).collect();
    let encode_line = Line::through(&sizes);
    let encode_sizes = report::blocks(&sizes, encode_line).text(markdown);
    let encode_line = report::line(&sizes, encode_line);
    let encodes = report::encodes(&encodes).text(markdown);
    for (title, text) in [
        ("Machine and run", report::run(seed, rounds)),
        ("Nanoseconds a pixel", report::kinds(&measured).text(markdown)),
        ("Nanoseconds a sample", report::sounds(&hearings).text(markdown)),
        ("Nanoseconds a store of a palette", report::palettes(&colours).text(markdown)),
        ("Saving scratched films", report::salvages(&salvages).text(markdown)),
        ("Dropping what the player passes over", report::strips(&strips).text(markdown)),
        ("Encoding", format!("{encodes}\n\nTwo colours:\n\n{encode_sizes}\n\n{encode_line}")),
        ("Nanoseconds a pixel with true colour", report::words(&words).text(markdown)),
        ("Nanoseconds a pixel of Video 1", report::trailers(&trailers).text(markdown)),
        ("Targets", format!("The project's targets:\n\n{targets}")),
        ("By the stores that a call is allowed", report::allowances(&pieces).text(markdown)),
        ("By the number of blocks", format!("{blocks}\n\n{}", report::line(&points, line))),
    ] {
        println!("{}{title}\n\n{text}\n", if markdown { "## " } else { "" });
    }
    Ok(())
}

/// Measures frames of one sort alone and prints their table.
fn alone(
    benches: Result<Vec<Bench>, String>,
    seed: u64,
    rounds: usize,
    table: fn(&[Measured]) -> Table,
) -> Result<(), String> {
    let mut benches = benches?;
    for round in 0..rounds {
        benches.iter_mut().try_for_each(|bench| bench.round(round))?;
    }
    let measured: Vec<_> = benches.iter().map(Bench::measured).collect();
    println!("{}\n\n{}", report::run(seed, rounds), table(&measured).text(false));
    Ok(())
}

/// Runs one program on so many frames of a kind, when it has taken each of them once.
fn one(kind: Known, program: &str, times: usize) -> Result<(), String> {
    let (frames, mut programs) = match kind {
        Known::Bytes(kind) => {
            let frames = frames(kind, SEED);
            (frames.len(), programs(kind.size, &frames))
        }
        Known::Words(kind) => {
            let frames = words::frames(&kind, SEED);
            (frames.len(), words::programs(kind.size, &frames))
        }
    };
    let program = programs.iter_mut().find(|known| known.name() == program);
    let program = program.ok_or("there is no such program")?;
    for number in 0..frames {
        program.run(number)?;
    }
    let timed = PRIMERS..frames;
    timed.cycle().take(times).try_for_each(|number| counted(&mut **program, number))
}

/// What the script `callgrind` has counted; it finds this function by its name.
#[inline(never)]
fn counted(program: &mut dyn Program, number: usize) -> Result<(), String> {
    program.run(number)
}
