//! The comparison of two accounts finds what it is there for: a fault is planted in the account of
//! libav, which is the library's own to begin with.

use peer::comparison::compare;
use peer::film::{of, plain, Width, STREAM};
use peer::{libav, ours};

/// A film with several pictures and stereo sound of 16 bits.
const SEED: u64 = 1;

/// The accounts of one film, alike.
fn alike() -> (ours::Account, libav::Account) {
    let films = (2..).map(|number| ours::play(&plain(SEED, number).film.bytes(), STREAM));
    let is_rich = |account: &ours::Account| {
        let sound = account.played.sound.first();
        sound.is_some_and(|heard| (heard.channels, heard.sample_bytes) == (2, 2))
    };
    let ours = films.take(100).find(is_rich).expect("such a film");
    let mut played = ours.played.clone();
    for component in played.pictures.iter_mut().flat_map(|picture| &mut picture.colours) {
        *component = *component << 2 | *component >> 4;
    }
    (ours, libav::Account { played, ..libav::Account::default() })
}

/// What the comparison says where this was done to the account of libav.
fn found(plant: impl Fn(&mut libav::Account)) -> String {
    let (ours, mut theirs) = alike();
    assert_eq!(compare(&ours, &theirs), Ok(()));
    plant(&mut theirs);
    compare(&ours, &theirs).expect_err("a difference")
}

#[track_caller]
fn assert_begins(found: &str, expected: &str) {
    assert!(found.starts_with(expected), "{found}");
}

#[test]
fn pictures() {
    let found_pixel = found(|theirs| theirs.played.pictures[2].pixels[7] ^= 1);
    assert_begins(&found_pixel, "picture 2: pixel 7: ");
    let found_colour = found(|theirs| theirs.played.pictures[1].colours[767] ^= 4);
    assert_begins(&found_colour, "picture 1: colour component 767: ");
    let found_width = found(|theirs| theirs.played.pictures[0].width += 8);
    assert_begins(&found_width, "picture 0: size: ");
    let found_missing = found(|theirs| theirs.played.pictures.truncate(2));
    assert_begins(&found_missing, "pictures: ");
}

/// With true colour all bits but the highest one count.
#[test]
fn words() {
    let ours = ours::play(&of(Width::Words, SEED, 2).film.bytes(), STREAM);
    for (bit, is_found) in [(0, true), (14, true), (15, false)] {
        let mut theirs =
            libav::Account { played: ours.played.clone(), ..libav::Account::default() };
        assert_eq!(compare(&ours, &theirs), Ok(()));
        theirs.played.pictures[1].words[63] ^= 1 << bit;
        let found = compare(&ours, &theirs).err();
        assert_eq!(found.is_some_and(|what| what.starts_with("picture 1: word 63: ")), is_found);
    }
}

fn last_sample(theirs: &mut libav::Account) -> &mut u8 {
    theirs.played.sound[0].samples.last_mut().expect("a sample")
}

#[test]
fn sound() {
    let found_sample = found(|theirs| *last_sample(theirs) ^= 0x80);
    assert_begins(&found_sample, "sample byte ");
    let found_short = found(|theirs| assert!(theirs.played.sound[0].samples.pop().is_some()));
    assert_begins(&found_short, "sample bytes: ");
    let found_mono = found(|theirs| theirs.played.sound[0].channels = 1);
    assert_begins(&found_mono, "channels: 2 ");
    let found_narrow = found(|theirs| theirs.played.sound[0].sample_bytes = 1);
    assert_begins(&found_narrow, "bytes of a sample: 2 ");
    let found_none = found(|theirs| theirs.played.sound.clear());
    assert_begins(&found_none, "formats of sound: 1 ");
}

#[test]
fn ends() {
    assert_begins(&found(|theirs| theirs.faults.push(-22)), "libav says [-22] and ends by None");
    assert_begins(&found(|theirs| theirs.error = Some(-5)), "libav says [] and ends by Some(-5)");
    let (mut ours, theirs) = alike();
    ours.refusal = Some(mve::Refusal { error: mve::Error::DataShort, block: 4 });
    let found = compare(&ours, &theirs).expect_err("a difference");
    assert_begins(&found, "refusal 13 in block 4");
}
