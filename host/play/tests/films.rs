//! Both players on made films without sound: the files that they leave are the second decoder's
//! pictures, byte for byte, whatever the allowance; and they refuse what it refuses.

mod common;

use common::{assert_played, assert_refused, Options};
use maker::film_damage::{self, Damage};
use maker::packet::Draft;
use maker::{colours, demo, film, Profile, Seeded, Size};
use reference::pictures;
use reference::sound::NO_STREAM;
use std::collections::{BTreeMap, BTreeSet};

const ALLOWANCES: [usize; 4] = [65, 66, 1000, 312_000];
/// The refusals that a film alone can meet: the players lend enough and start at place 0.
const NUMBERS: [u8; 13] = [1, 2, 3, 4, 5, 6, 7, 9, 10, 12, 13, 14, 15];

/// Pictures alone.
fn silent(allowance: usize) -> Options {
    Options { allowance, stream: NO_STREAM, every: None }
}

#[test]
fn good_films() {
    let (mut sent, mut stopped, mut sizes) = (0, 0, BTreeSet::new());
    for seed in 0..40 {
        let rng = &mut Seeded::new(seed);
        let film = film::with_frames(rng, seed as usize % 12);
        let bytes = film.bytes();
        let played = pictures::play(&bytes, NO_STREAM);
        println!("seed {seed}");
        assert_eq!(played.refusal, None);
        for allowance in ALLOWANCES.into_iter().chain([rng.between(65, 400)]) {
            stopped += assert_played("good_films", &bytes, &played, &silent(allowance));
        }
        sent += played.pictures.len();
        sizes.insert((film.size.columns, film.size.rows));
    }
    println!("{sent} pictures of {} sizes, {stopped} stops", sizes.len());
    assert!(sent >= 100 && stopped >= 5000 && sizes.len() >= 20);
}

/// Films rich in palettes and maps: players are stopped in them, too (02, W11), down to one store a step.
#[test]
fn palettes() {
    let (mut sent, mut stopped, mut colours) = (0, 0, BTreeSet::new());
    for seed in 0..12 {
        let bytes = colours::film(&mut Seeded::new(seed), 3).bytes();
        let played = pictures::play(&bytes, NO_STREAM);
        assert_eq!((played.refusal, played.pictures.len()), (None, 3));
        for allowance in [1, 65, 700, 1535, 1536] {
            stopped += assert_played("palettes", &bytes, &played, &silent(allowance));
        }
        sent += played.pictures.len();
        colours.extend(played.pictures);
    }
    println!("{sent} pictures, {} of them unlike, {stopped} stops", colours.len());
    assert!(colours.len() >= 30 && stopped >= 1000);
}

#[test]
fn long_and_large_films() {
    let long = demo::film().bytes();
    let large = film::plain(&mut Seeded::new(1), Size::new(80, 60), Profile::Light, 2).bytes();
    for (film, allowances, sides) in
        [(long, &ALLOWANCES[..], "128 96"), (large, &ALLOWANCES[2..], "640 480")]
    {
        let played = pictures::play(&film, NO_STREAM);
        let size = format!("{sides}\n255\n");
        let has_size = |picture: &Vec<u8>| {
            let mut lines = picture.splitn(4, |&byte| byte == b'\n').skip(1);
            let is = |begin: &[u8]| lines.next().is_some_and(|line| line.starts_with(begin));
            [&b"# rows "[..], b"# at ", size.as_bytes()].into_iter().all(is)
        };
        assert!(played.pictures.iter().all(has_size));
        for &allowance in allowances {
            assert_played("long_and_large_films", &film, &played, &silent(allowance));
        }
    }
}

/// A film of which every packet leaves bytes over: one is played, to the pictures of the film without
/// it; two are refused.
#[test]
fn padded_films() {
    for seed in 0..10 {
        let rng = &mut Seeded::new(seed);
        let (size, profile) = (Size::small(rng), rng.pick(&Profile::MANY));
        let drafts = [(); 4].map(|()| Draft::make(rng, size, profile));
        let [plain, padded, refused] = [0, 1, 2].map(|over| {
            let rng = &mut Seeded::new(seed);
            let packets = drafts.clone().map(|draft| draft.with_over(rng, over).packet());
            film::of_packets(rng, size, packets.to_vec()).bytes()
        });
        let played = pictures::play(&padded, NO_STREAM);
        assert_eq!(played.pictures, pictures::play(&plain, NO_STREAM).pictures);
        assert_eq!(played.pictures.len(), 4);
        assert_played("padded_films", &padded, &played, &silent(ALLOWANCES[seed as usize % 4]));
        let played = pictures::play(&refused, NO_STREAM);
        assert_eq!(played.refusal.map(|refusal| refusal.number), Some(15));
        assert_refused("padded_films", &refused, &played, &silent(1000));
    }
}

#[test]
fn refused_films() {
    let (mut numbers, mut kept) = (BTreeMap::new(), 0);
    for seed in 0..20 {
        let rng = &mut Seeded::new(seed);
        let damaged = Damage::ALL.map(|damage| film_damage::damaged(rng, damage));
        let others = [film_damage::scratched(rng), film::hostile(rng), Vec::new()];
        for (number, film) in damaged.iter().chain(&others).enumerate() {
            println!("seed {seed}, film {number}");
            let played = pictures::play(film, NO_STREAM);
            let Some(refusal) = played.refusal else {
                assert_played("refused_films", film, &played, &silent(65));
                continue;
            };
            let options = silent(rng.pick(&ALLOWANCES));
            assert_refused("refused_films", film, &played, &options);
            *numbers.entry(refusal.number).or_insert(0) += 1;
            kept += played.pictures.len();
        }
    }
    println!("{numbers:?}, {kept} pictures before refusals");
    assert!(NUMBERS.iter().all(|number| numbers.contains_key(number)), "{numbers:?}");
    assert!(kept >= 50, "{kept}");
}
