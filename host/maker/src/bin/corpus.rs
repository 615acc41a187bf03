//! Writes a corpus for the fuzz target of the C boundary (`fuzz/fuzz.c`) to a folder: seeded films and
//! packets of every kind, good and damaged, each with the bytes in front that choose a trial.

use maker::film_damage::{self, Damage};
use maker::packet::Draft;
use maker::{demo, film, packet_damage, scratches, sound, strips, Profile, Seeded, Size};
use std::path::Path;
use std::{env, fs, process};

const FILM: u8 = 0;
const PACKET: u8 = 1;
const SALVAGE: u8 = 2;
const BEGIN: u8 = 3;
const STRIP: u8 = 4;
/// The longest input that the target takes.
const LONGEST: usize = 65_536;

/// A film as the trials of films read it: played, opened, saved, stripped.
fn of_film(film: &[u8], stream: u8, inputs: &mut Vec<Vec<u8>>) {
    inputs.push([&[FILM, stream, 0, 7], film].concat());
    inputs.push([&[FILM, stream, 1, 200], film].concat());
    inputs.push([&[SALVAGE], film].concat());
    inputs.push([&[BEGIN, stream], film].concat());
    inputs.push([&[STRIP, stream], film].concat());
}

fn of_packet(packet: &maker::Packet, inputs: &mut Vec<Vec<u8>>) {
    let maker::Packet { columns, rows, map, data } = packet;
    let length = (map.len() as u16).to_le_bytes();
    let head = [PACKET, *columns as u8, *rows as u8, length[0], length[1], 1, 9];
    inputs.push([&head, &map[..], data].concat());
}

fn inputs() -> Vec<Vec<u8>> {
    let (rng, mut inputs) = (&mut Seeded::new(34), Vec::new());
    of_film(&demo::beginning(2).bytes(), 0, &mut inputs);
    for _ in 0..12 {
        of_film(&film::valid(rng).bytes(), 16, &mut inputs);
        of_film(&sound::with_frames(rng, 3, 2).bytes(), 3, &mut inputs);
        of_film(&film::hostile(rng), 0, &mut inputs);
        of_film(&scratches::make(rng).bytes(), 0, &mut inputs);
        of_film(&strips::make(rng).bytes(), 3, &mut inputs);
    }
    for damage in Damage::ALL {
        of_film(&film_damage::damaged(rng, damage), 16, &mut inputs);
    }
    for profile in Profile::MANY {
        for size in [Size::new(1, 1), Size::new(3, 2), Size::new(7, 5)] {
            of_packet(&Draft::make(rng, size, profile).packet(), &mut inputs);
        }
    }
    for damage in packet_damage::Damage::ALL {
        let draft = maker::packet::small(rng);
        of_packet(&packet_damage::damaged(rng, &draft, damage), &mut inputs);
    }
    inputs.retain(|input| input.len() <= LONGEST);
    inputs
}

fn main() {
    let Some(folder) = env::args_os().nth(1) else {
        eprintln!("usage: corpus FOLDER");
        process::exit(2);
    };
    for (number, input) in inputs().iter().enumerate() {
        let path = Path::new(&folder).join(format!("made-{number:04}"));
        if let Err(error) = fs::write(&path, input) {
            eprintln!("corpus: cannot write {}: {error}", path.display());
            process::exit(1);
        }
    }
}
