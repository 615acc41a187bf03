//! Plays a film while the machine is reset at random moments.

use crate::machine::Machine;
use maker::Seeded;
use std::time::{Duration, Instant};

/// A stage that writes nothing for so long does not go on.
const SILENCE: Duration = Duration::from_secs(300);
/// The time to the next reset is at most this while the film gets on. It doubles with each start that
/// does not, up to the second: a slow machine may need longer to send a picture.
const SHORTEST: Duration = Duration::from_millis(2);
const LONGEST: Duration = Duration::from_secs(10);

/// How a film ended.
#[derive(Clone, Debug, Default, PartialEq, Eq)]
pub enum End {
    /// At its end, after so many pictures.
    Ended(usize),
    /// The stage wrote this line and halted.
    Told(String),
    /// The stage told for a second time that it had opened the film. Its first record is saved by then,
    /// so that it never does.
    OpenedAgain,
    /// Nothing came any more.
    #[default]
    Silent,
}

/// What playing a film gave, beside the messages on the port.
#[derive(Clone, Debug, Default)]
pub struct Played {
    /// How it ended.
    pub end: End,
    /// The resets.
    pub resets: usize,
    /// How often the stage told that it had opened the film.
    pub openings: usize,
    /// The places that starts found, each once while the film did not get on.
    pub places: Vec<usize>,
    /// Bytes of stack used since the last reset, told at the film's end.
    pub stack: Option<usize>,
}

/// Plays the film of a machine to its end, with at most so many resets. (A machine that resets itself
/// is given none; its starts are counted.)
pub fn play(machine: &mut Machine, rng: &mut Seeded, most: usize) -> Played {
    let mut played = Played::default();
    let (mut longest, mut reached) = (SHORTEST, String::new());
    while wait_for_start(machine, &mut played.openings) {
        let wait = longest.mul_f64(rng.below(10_001) as f64 / 10_000.0);
        let (begun, is_last) = (Instant::now(), played.resets >= most);
        longest = (longest * 2).min(LONGEST);
        let left = || if is_last { SILENCE } else { wait.saturating_sub(begun.elapsed()) };
        while let Some(line) = machine.line(left()) {
            if let Some(end) = end_of(&line) {
                return Played { end, ..played };
            } else if let Some(stack) = line.strip_prefix("stack ") {
                played.stack = stack.parse().ok();
            } else if line.starts_with("goes on at ") && line != reached {
                longest = SHORTEST;
                let place = line.rsplit(' ').next().and_then(|place| place.parse::<usize>().ok());
                played.places.extend(place);
                reached = line.clone();
            }
            played.openings += usize::from(line == "opened");
            if played.openings > 1 {
                return Played { end: End::OpenedAgain, ..played };
            }
            played.resets += usize::from(line == "start");
        }
        if is_last {
            break;
        }
        machine.reset();
        played.resets += 1;
    }
    played
}

/// Passes over what was written before the reset; an opening of the film counts.
fn wait_for_start(machine: &Machine, openings: &mut usize) -> bool {
    while let Some(line) = machine.line(SILENCE) {
        if line == "start" {
            return true;
        }
        *openings += usize::from(line == "opened");
    }
    false
}

/// The end that a line tells, behind which the stage halts.
fn end_of(line: &str) -> Option<End> {
    if let Some(pictures) = line.strip_prefix("ended, pictures ") {
        return pictures.parse().ok().map(End::Ended);
    }
    let halts = ["refusal ", "fault ", "the film is "];
    halts.iter().any(|start| line.starts_with(start)).then(|| End::Told(line.to_string()))
}
