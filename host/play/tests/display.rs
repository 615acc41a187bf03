//! A display that keeps a copy of each of the two pictures and is sent only the rows that the players
//! tell (02, W2): after every send the copy is the whole picture, over films and stops.

mod common;

use common::{assert_played, play, players, Left, Options};
use maker::film::{self, Chunk, Film, Opcode};
use maker::packet::{Draft, Strip};
use maker::sound::Track;
use maker::{Packet, Profile, Seeded, Size};
use reference::pictures;

const STREAM: usize = 3;

/// Opcode 0C with 256 colours, no two of which are the same: so a picture in colours is the picture.
fn palette() -> Opcode {
    let colours = (0..=255).flat_map(|entry: u8| [entry % 64, entry / 64, 0]);
    Opcode::new(0x0C, 0, [0, 0, 0, 1].into_iter().chain(colours).collect())
}

fn send() -> Opcode {
    Opcode::new(0x07, 0, vec![0; 4])
}

/// A film of one chunk for each of these rows of opcodes, behind palette and size.
fn film_of(size: Size, parts: impl IntoIterator<Item = Vec<Opcode>>) -> Film {
    let chunk = |opcodes| Chunk { opcodes, ..Chunk::default() };
    let first = vec![palette(), film::init_video(size)];
    let chunks = [first].into_iter().chain(parts).map(chunk).collect();
    Film { size, stream: STREAM, chunks, tail: Vec::new() }
}

/// A frame of which a strip is touched, with sound between drawing and sending, where a stop may fall.
/// One in four is not sent, so that the next one is drawn over it; one in four is sent twice.
fn frame(rng: &mut Seeded, size: Size, track: &mut Track) -> Vec<Opcode> {
    let (profile, strip) = (rng.pick(&Profile::MANY), rng.pick(&Strip::ALL));
    let packet = Draft::make(rng, size, profile).strip(rng, strip).or_padded(rng).packet();
    let mut opcodes = film::packet_opcodes(rng, packet).to_vec();
    opcodes.extend((0..rng.below(4)).map(|_| track.next(rng)));
    let sends = rng.pick(&[0, 1, 1, 2]);
    opcodes.extend((0..sends).map(|_| send()));
    opcodes
}

/// A picture as a player wrote it: the rows that it tells, the bytes of a row of blocks, and red, green
/// and blue of each pixel.
struct Sent<'a> {
    rows: Option<(usize, usize)>,
    row: usize,
    colours: &'a [u8],
}

fn sent(file: &[u8]) -> Sent<'_> {
    let mut lines = file.splitn(6, |&byte| byte == b'\n');
    let mut line = || lines.next().expect("a line of the heading");
    assert_eq!(line(), b"P6");
    let told = String::from_utf8_lossy(line()).into_owned();
    let rows = told.strip_prefix("# rows ").expect("the rows");
    let number = |text: &str| text.parse().expect("a number");
    let rows = rows.split_once(" to ").map(|(first, last)| (number(first), number(last)));
    assert!(rows.is_some() || told == "# rows none", "{told}");
    assert!(line().starts_with(b"# at "));
    let size = String::from_utf8_lossy(line()).into_owned();
    let (width, _) = size.split_once(' ').expect("width and height");
    assert_eq!(line(), b"255");
    Sent { rows, row: 3 * 8 * number(width), colours: line() }
}

/// Sends the rows that a player told to copies that begin as the pictures do, black. The first frame is
/// drawn on the second picture, and then they take turns. The rows told, and those of all pictures.
fn displayed(left: &Left, case: &str) -> (Vec<Option<(usize, usize)>>, usize) {
    let (mut told, mut all) = (Vec::new(), 0);
    let mut copies = [Vec::new(), Vec::new()];
    let pictures = left.files.iter().filter(|(name, _)| name.ends_with(".ppm"));
    for (number, (name, file)) in pictures.enumerate() {
        let Sent { rows, row, colours } = sent(file);
        let copy = &mut copies[(number + 1) % 2];
        copy.resize(colours.len(), 0);
        if let Some((first, last)) = rows {
            let bytes = row * first..row * (last + 1);
            copy[bytes.clone()].copy_from_slice(&colours[bytes]);
        }
        assert!(*copy == colours, "{case}: {name} is not what the display has");
        told.push(rows);
        all += colours.len() / row;
    }
    (told, all)
}

/// Made films, over stops in drawings and, at opcodes of sound, between drawing and sending.
#[test]
fn copies() {
    let (mut pictures, mut stopped, mut rows, mut all, mut none) = (0, 0, 0, 0, 0);
    for seed in 0..30 {
        let rng = &mut Seeded::new(seed);
        let (size, mut track) = (Size::small(rng), Track::new(STREAM));
        let film = film_of(size, (0..20).map(|_| frame(rng, size, &mut track))).bytes();
        let played = pictures::play(&film, STREAM);
        assert_eq!(played.refusal, None, "seed {seed}");
        let every = rng.pick(&[None, Some(2), Some(3)]);
        let options = Options { allowance: rng.pick(&[65, 200, 312_000]), stream: STREAM, every };
        stopped += assert_played("copies", &film, &played, &options);
        for (name, program) in players() {
            let left = play(&program, "copies", &film, &options);
            let (told, of_all) = displayed(&left, &format!("seed {seed}, {name}"));
            pictures += told.len();
            rows += told.iter().flatten().map(|(first, last)| last + 1 - first).sum::<usize>();
            none += told.iter().filter(|rows| rows.is_none()).count();
            all += of_all;
        }
    }
    println!("{pictures} pictures, {none} without a row, {rows} rows of {all}, {stopped} stops");
    assert!(pictures >= 300 && none >= 20 && stopped >= 300 && 10 * rows < 8 * all);
}

/// A packet for one column of three rows: code E for these rows, with this colour, else code 1.
fn rows_touched(rows: &[usize], colour: u8) -> [Opcode; 2] {
    let codes: Vec<u8> = (0..4).map(|row| if rows.contains(&row) { 0xE } else { 1 }).collect();
    let map = codes.chunks(2).map(|pair| pair[0] | pair[1] << 4).collect();
    let data = vec![colour; rows.len()];
    film::packet_opcodes(&mut Seeded::new(1), Packet { columns: 1, rows: 3, map, data })
}

/// By hand: the rows of a picture are those of every packet drawn on it since it was last sent, not of
/// the last packet, nor of the other picture.
#[test]
fn rows_since_last_sent() {
    let sound = |rng: &mut Seeded, track: &mut Track| vec![track.next(rng), track.next(rng)];
    let (rng, mut track) = (&mut Seeded::new(1), Track::new(STREAM));
    let mut frame = |rows: &[usize], colour| {
        [rows_touched(rows, colour).to_vec(), sound(rng, &mut track)].concat()
    };
    let parts = [
        frame(&[1], 1),
        vec![send()], // the second picture: row 1
        frame(&[], 2),
        vec![send()], // the first one: none
        frame(&[0], 3),
        frame(&[2], 4),
        vec![send(), send()], // the second one: rows 0 and 2; then nothing is unsent
        frame(&[2], 5),
        frame(&[], 6),
        vec![send()], // the first one: row 2
        frame(&[1, 2], 7),
        vec![send()],   // the second one
        frame(&[0], 8), // never sent
    ];
    let film = film_of(Size::new(1, 3), parts).bytes();
    for (allowance, every) in [(312_000, None), (65, Some(2)), (65, Some(3)), (312_000, Some(2))] {
        let options = Options { allowance, stream: STREAM, every };
        for (name, program) in players() {
            let left = play(&program, "rows_since_last_sent", &film, &options);
            let (told, _) = displayed(&left, name);
            let expected = [Some((1, 1)), None, Some((0, 2)), Some((2, 2)), Some((1, 2))];
            assert_eq!(told, expected, "{name}, {options:?}");
        }
    }
}

/// The display that is asked for notices a row too few: one that is sent the rows of the last packet
/// alone, or another picture's, does not keep up.
#[test]
fn wrong_rows_are_found() {
    let parts = [rows_touched(&[0], 3), rows_touched(&[2], 4)].map(|packet| packet.to_vec());
    let film = film_of(Size::new(1, 3), parts.into_iter().chain([vec![send()]])).bytes();
    let (_, program) = &players()[1];
    let options = Options { allowance: 65, stream: STREAM, every: None };
    let mut left = play(program, "wrong_rows_are_found", &film, &options);
    displayed(&left, "as written");
    let found = ["# rows 2 to 2", "# rows 0 to 1", "# rows none"].map(|wrong| {
        let file = left.files.get_mut("000000.ppm").expect("a picture");
        let end = file.iter().skip(3).position(|&byte| byte == b'\n').expect("a line") + 3;
        file.splice(3..end, wrong.bytes());
        std::panic::catch_unwind(|| displayed(&left, "changed")).is_err()
    });
    assert_eq!(found, [true; 3]);
}
