//! A long comparison of the proved library with the second decoder, of its strict form with its default
//! form, and of its opening call with separate calls, run by hand:
//! `compare SEED COUNT [KIND]`, where the kind is one of those that it tells without arguments.
//! Films are of both kinds, and the cases of `words` packets with true colour, checked and drawn.
//! The cases of `numbers` are states and answers as numbers of any count, those of `salvages` films that are
//! saved, those of `strips` films that are stripped, and played before and after, those of `encodes`
//! pictures that are encoded, those of `trailers` frames of Microsoft Video 1.

use compare::numbers::{self, Reached};
use compare::{encodes, salvages, strips, trailers};
use compare::{Comparison, Found, FromDefault, Kind, Proved, Second, Separate};
use std::collections::BTreeMap;
use std::env;
use std::process::ExitCode;
use std::time::{Duration, Instant};

/// How often to tell how far the comparison is.
const PROGRESS: Duration = Duration::from_secs(10);

fn main() -> ExitCode {
    let arguments: Vec<String> = env::args().skip(1).collect();
    if let Some((seed, count)) = parsed_as("numbers", &arguments) {
        return by_numbers(seed, count);
    }
    if let Some((seed, count)) = parsed_as("salvages", &arguments) {
        return by_salvages(seed, count);
    }
    if let Some((seed, count)) = parsed_as("strips", &arguments) {
        return by_strips(seed, count);
    }
    if let Some((seed, count)) = parsed_as("encodes", &arguments) {
        return by_encodes(seed, count);
    }
    if let Some((seed, count)) = parsed_as("trailers", &arguments) {
        return by_trailers(seed, count);
    }
    let Some((seed, count, kinds)) = parsed(&arguments) else {
        eprintln!(
            "usage: compare SEED COUNT \
             [packets|lists|words|films|sounds|openings|cuts|numbers|salvages|strips|encodes|trailers]"
        );
        return ExitCode::from(2);
    };
    match compare(seed, count, &kinds) {
        Ok(compared) => {
            println!("seed {seed}: {compared}: no difference");
            ExitCode::SUCCESS
        }
        Err(found) => {
            println!("{found}");
            println!("again: compare {seed} {} {}", found.number + 1, found.kind);
            ExitCode::FAILURE
        }
    }
}

/// Seed and cases, where the kind is this one.
fn parsed_as(kind: &str, arguments: &[String]) -> Option<(u64, u64)> {
    match arguments {
        [seed, count, name] if name == kind => Some((seed.parse().ok()?, count.parse().ok()?)),
        _ => None,
    }
}

/// Saves so many films, and prints how often each answer was reached. A question's number tells its film,
/// so each seed has numbers of its own.
fn by_salvages(seed: u64, count: u64) -> ExitCode {
    let mut times = BTreeMap::new();
    for number in 0..count {
        let question = salvages::question((seed << 32) + number);
        match salvages::compare(&Proved, &Second, &question) {
            Err(differs) => {
                println!("difference in salvages, seed {seed}, film {number}: {differs:?}");
                println!("again: compare {seed} {} salvages", number + 1);
                return ExitCode::FAILURE;
            }
            Ok(answers) => salvages::reached(&question, &answers)
                .into_iter()
                .for_each(|event| *times.entry(event).or_insert(0_u64) += 1),
        }
    }
    times.iter().for_each(|(event, times)| println!("{times:>9} {event}"));
    println!("seed {seed}: {count} films: no difference");
    ExitCode::SUCCESS
}

/// Strips so many films and plays both, as [`by_salvages`] saves them.
fn by_strips(seed: u64, count: u64) -> ExitCode {
    let mut times = BTreeMap::new();
    for number in 0..count {
        let question = strips::question((seed << 32) + number);
        match strips::compare(&Proved, &Second, &Proved, &question) {
            Err(differs) => {
                println!("difference in strips, seed {seed}, film {number}: {differs:?}");
                println!("again: compare {seed} {} strips", number + 1);
                return ExitCode::FAILURE;
            }
            Ok(compared) => strips::reached(&question, &compared)
                .into_iter()
                .for_each(|event| *times.entry(event).or_insert(0_u64) += 1),
        }
    }
    times.iter().for_each(|(event, times)| println!("{times:>9} {event}"));
    println!("seed {seed}: {count} films: no difference");
    ExitCode::SUCCESS
}

/// Encodes so many pictures; a question's number tells its picture, so each seed has numbers of its own.
fn by_encodes(seed: u64, count: u64) -> ExitCode {
    let (mut made, mut refused, mut bytes) = (0_u64, 0_u64, 0);
    for number in 0..count {
        let question = encodes::question((seed << 32) + number);
        match encodes::compare(&Proved, &Second, &question) {
            Err(differs) => {
                println!("difference in encodes, seed {seed}, picture {number}: {differs:?}");
                println!("again: compare {seed} {} encodes", number + 1);
                return ExitCode::FAILURE;
            }
            Ok(answers) => {
                for answer in answers {
                    match answer {
                        Ok(packet) => (made, bytes) = (made + 1, bytes + packet.packet.len()),
                        Err(_) => refused += 1,
                    }
                }
            }
        }
    }
    println!(
        "seed {seed}: {count} pictures, {made} times encoded, {refused} times refused, {bytes} data \
         bytes: no difference"
    );
    ExitCode::SUCCESS
}

/// Draws so many frames, each on several pictures; a question's number tells its frame, as of films.
fn by_trailers(seed: u64, count: u64) -> ExitCode {
    let (mut drawn, mut bytes, mut refused) = (0_u64, 0, BTreeMap::new());
    for number in 0..count {
        let question = trailers::question((seed << 32) + number);
        match trailers::compare(&Proved, &Second, &question) {
            Err(differs) => {
                println!("difference in trailers, seed {seed}, frame {number}: {differs:?}");
                println!("again: compare {seed} {} trailers", number + 1);
                return ExitCode::FAILURE;
            }
            Ok(answers) => {
                bytes += question.data.len();
                for answer in answers {
                    match answer {
                        Ok(()) => drawn += 1,
                        Err(refusal) => *refused.entry(refusal.number).or_insert(0_u64) += 1,
                    }
                }
            }
        }
    }
    let refused: Vec<_> =
        refused.into_iter().map(|(number, times)| format!("{number}: {times}")).collect();
    println!(
        "seed {seed}: {count} frames of {bytes} bytes, {drawn} times drawn, refused by number {}: no \
         difference",
        refused.join(", ")
    );
    ExitCode::SUCCESS
}

fn by_numbers(seed: u64, count: u64) -> ExitCode {
    let mut reached = Reached::default();
    for number in 0..count {
        let case = numbers::case(seed, number);
        if let Err(difference) = numbers::compare(&Proved, &Second, &case, &mut reached) {
            println!("difference in numbers, seed {seed}, case {number}, {difference}");
            println!("again: compare {seed} {} numbers", number + 1);
            return ExitCode::FAILURE;
        }
    }
    println!("seed {seed}: {reached}: no difference");
    ExitCode::SUCCESS
}

/// Seed, cases of each kind, and the kinds.
fn parsed(arguments: &[String]) -> Option<(u64, u64, Vec<Kind>)> {
    let (seed, count, kinds) = match arguments {
        [seed, count] => (seed, count, Kind::ALL.to_vec()),
        [seed, count, name] => {
            let kind = Kind::ALL.into_iter().find(|kind| kind.to_string() == *name)?;
            (seed, count, vec![kind])
        }
        _ => return None,
    };
    Some((seed.parse().ok()?, count.parse().ok()?, kinds))
}

/// Compares so many cases of each kind; what was compared, in words.
fn compare(seed: u64, count: u64, kinds: &[Kind]) -> Result<String, Found> {
    let mut comparison = Comparison::new(Proved, Second);
    let mut forms = Comparison::new(Proved, FromDefault(Proved));
    let mut calls = Comparison::new(Proved, Separate(Proved));
    let mut told = Instant::now();
    for &kind in kinds {
        for number in 0..count {
            comparison.run(kind, seed, number..number + 1)?;
            forms.run(kind, seed, number..number + 1)?;
            if kind == Kind::Openings {
                calls.run(kind, seed, number..number + 1)?;
            }
            if told.elapsed() >= PROGRESS {
                told = Instant::now();
                println!("seed {seed}: case {number} of {count} {kind}; {}", comparison.tally());
            }
        }
    }
    Ok(comparison.tally().to_string())
}
