//! A long run by hand, `stops SEED COUNT`: steps so many drawings and walks over films, of bytes and of words,
//! changes of the palette, openings and films with sound, and kills a player so often. With other arguments it is the
//! process that is stopped.

use maker::calls::allowance;
use maker::colours::Change;
use maker::sound::Format;
use maker::{Profile, Seeded, WordProfile};
use reference::CallForm;
use std::env;
use std::io;
use std::path::Path;
use std::process::ExitCode;
use stops::cases::Case;
use stops::kills::{self, Player, Rich};
use stops::watch::{watch, Counts};
use stops::{made, stopped};

fn main() -> ExitCode {
    let arguments: Vec<String> = env::args().skip(1).collect();
    let words: Vec<&str> = arguments.iter().map(String::as_str).collect();
    let outcome = match words[..] {
        ["--play", player, film, allowed] => played(player, film, allowed),
        [first, ..] if first.starts_with("--") => stopped::run(&arguments),
        [seed, count] => match (seed.parse(), count.parse()) {
            (Ok(seed), Ok(count)) => long(seed, count),
            _ => return usage(),
        },
        _ => return usage(),
    };
    match outcome {
        Ok(text) => {
            print!("{text}");
            ExitCode::SUCCESS
        }
        Err(error) => {
            eprintln!("stops: {error}");
            ExitCode::FAILURE
        }
    }
}

/// Nothing is written beside the pictures.
fn played(player: &str, film: &str, allowed: &str) -> io::Result<String> {
    let player = Player::named(player).ok_or_else(|| io::Error::other("no such player"))?;
    let allowed = allowed.parse().map_err(io::Error::other)?;
    kills::play(player, film, allowed).map(|()| String::new())
}

fn usage() -> ExitCode {
    eprintln!("usage: stops SEED COUNT");
    ExitCode::from(2)
}

/// Steps so many drawings and walks, and kills so often; what was seen, in words.
fn long(seed: u64, count: usize) -> io::Result<String> {
    let program = env::current_exe()?;
    let rng = &mut Seeded::new(seed);
    let [mut drawings, mut walks, mut openings] = [Counts::default(); 3];
    for number in 0..count {
        let (profile, allowed) = (rng.pick(&Profile::MANY), allowance(rng, 2).max(65));
        drawings += stepped(&program, &made::drawing(rng), number)?;
        drawings += stepped(&program, &made::word_drawing(rng), number)?;
        let form = rng.pick(&CallForm::ALL);
        walks += stepped(&program, &made::walk(rng, form, profile, allowed), number)?;
        let words = rng.pick(&WordProfile::MANY);
        walks += stepped(&program, &made::word_walk(rng, form, words, allowed), number)?;
        walks += stepped(&program, &made::palette_walk(rng), number)?;
        let (change, tenths) = (rng.pick(&Change::ALL), rng.below(12));
        walks += stepped(&program, &made::change(rng, change, tenths), number)?;
        openings += stepped(&program, &made::opening(rng, number % 4 == 0), number)?;
        let format = rng.pick(&Format::ALL);
        walks += stepped(&program, &made::sound_walk(rng, format), number)?;
    }
    let killed = [Rich::Blocks, Rich::Palettes, Rich::Words]
        .map(|rich| kills::kill_in(&program, Player::Right, rich, seed, count));
    let [blocks, palettes, words] = killed;
    Ok(format!(
        "drawings: {drawings:?}\nwalks: {walks:?}\nopenings: {openings:?}\nkills: {:?}\n\
         kills in palettes: {:?}\nkills in words: {:?}\n",
        blocks?, palettes?, words?
    ))
}

fn stepped(program: &Path, case: &dyn Case, number: usize) -> io::Result<Counts> {
    let counts = watch(program, case)?.good();
    counts.map_err(|fault| io::Error::other(format!("case {number}, {fault}")))
}
