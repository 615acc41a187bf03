//! A long comparison of the proved library with libavformat and libavcodec, run by hand:
//! `peer COUNT SEED` plays 8-bit films, `peer COUNT SEED words` films with true colour, `peer COUNT SEED trailers`
//! decodes frames of Microsoft Video 1.

use peer::comparison::Tally;
use peer::{libav, trailers};
use std::env;
use std::process::ExitCode;
use std::time::{Duration, Instant};

/// How often to tell how far the comparison is.
const PROGRESS: Duration = Duration::from_secs(10);

fn main() -> ExitCode {
    let arguments: Vec<String> = env::args().skip(1).collect();
    let Some((count, seed, run)) = parsed(&arguments) else {
        eprintln!("usage: peer COUNT SEED [words | trailers]");
        return ExitCode::from(2);
    };
    match libav::versions().and_then(|peer| run(&peer, count, seed)) {
        Ok(compared) => {
            println!("{compared}");
            ExitCode::SUCCESS
        }
        Err(error) => {
            eprintln!("peer: {error}");
            ExitCode::FAILURE
        }
    }
}

/// Compares so many cases of a seed; what was compared, in words.
type Run = fn(&str, u64, u64) -> Result<String, String>;

/// Count, seed, and what is asked for.
fn parsed(arguments: &[String]) -> Option<(u64, u64, Run)> {
    let (count, seed, run): (_, _, Run) = match arguments {
        [count, seed] => (count, seed, |peer, count, seed| long(peer, count, seed, Tally::compare)),
        [count, seed, name] => match &**name {
            "words" => {
                (count, seed, |peer, count, seed| long(peer, count, seed, Tally::compare_deep))
            }
            "trailers" => (count, seed, long_trailers),
            _ => return None,
        },
        _ => return None,
    };
    Some((count.parse().ok()?, seed.parse().ok()?, run))
}

/// Compares so many cases of frames of Microsoft Video 1; what was compared, in words.
fn long_trailers(peer: &str, count: u64, seed: u64) -> Result<String, String> {
    let mut tally = trailers::Tally::default();
    for number in 0..count {
        let compared = tally.compare(seed, number);
        compared.map_err(|what| format!("seed {seed}, case {number}: {what}"))?;
    }
    Ok(format!("{peer}, seed {seed}: {tally}: no difference"))
}

/// Compares so many films; what was compared, in words.
fn long(
    peer: &str,
    count: u64,
    seed: u64,
    compare: fn(&mut Tally, u64, u64) -> Result<(), String>,
) -> Result<String, String> {
    let mut tally = Tally::default();
    let mut told = Instant::now();
    for number in 0..count {
        let compared = compare(&mut tally, seed, number);
        compared.map_err(|what| format!("seed {seed}, film {number}: {what}"))?;
        if told.elapsed() >= PROGRESS {
            told = Instant::now();
            println!("film {number} of {count}: {tally}");
        }
    }
    Ok(format!("{peer}, seed {seed}: {tally}: no difference"))
}
