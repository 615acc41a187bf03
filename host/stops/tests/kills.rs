//! A player that is killed at random moments, most of them inside a step: the next process goes on,
//! and all pictures are sent, each as the second decoder has it.

use std::path::Path;
use stops::kills::{kill, kill_in, Player, Rich};

#[test]
fn killed_players_go_on() {
    let killed = kill(Path::new(env!("CARGO_BIN_EXE_stops")), Player::Right, 1, 300);
    let killed = killed.unwrap_or_else(|error| panic!("{error}"));
    println!("{killed:?}");
    assert!(killed.kills >= 300 && killed.films >= 2 && killed.sent >= 16);
    assert!(killed.inside * 2 > killed.kills && killed.drawing >= 100, "{killed:?}");
}

/// With true colour: each of the three pictures is drawn on and sent.
#[test]
fn killed_in_words() {
    let program = Path::new(env!("CARGO_BIN_EXE_stops"));
    let killed = kill_in(program, Player::Right, Rich::Words, 1, 300);
    let killed = killed.unwrap_or_else(|error| panic!("{error}"));
    println!("{killed:?}");
    assert!(killed.kills >= 300 && killed.films >= 2 && killed.sent >= 16);
    assert!(killed.inside * 2 > killed.kills && killed.drawing >= 100, "{killed:?}");
}

/// In palettes and in sends: what is sent has the palette of the second decoder, too.
#[test]
fn killed_in_palettes_and_sends() {
    let program = Path::new(env!("CARGO_BIN_EXE_stops"));
    let killed = kill_in(program, Player::Right, Rich::Palettes, 1, 300);
    let killed = killed.unwrap_or_else(|error| panic!("{error}"));
    println!("{killed:?}");
    assert!(killed.kills >= 300 && killed.films >= 2 && killed.sent >= 20);
    assert!(killed.colouring >= 20 && killed.cut_off >= 10, "{killed:?}");
}
