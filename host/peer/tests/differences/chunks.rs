//! Differences in chunks and opcodes, and films that are refused by the documents and played by
//! libavformat.

use crate::hand::{
    bare, block, chunk, film, first, format, heard, last, opcode, packet, pair, palette, picture,
    play, send, sound, square, words, BYTES, COMPRESSED, PAIR, SQUARE,
};
use maker::film::{init_video, Chunk, Opcode};
use maker::Size;
use peer::film::{AUDIO, INIT_AUDIO, INIT_VIDEO, SHUTDOWN, STREAM, VIDEO};
use peer::{libav, ours};

/// 01: the header is 26 bytes and stands in front. libavformat looks for its first 22, wherever they are.
#[test]
fn header() {
    let good = film(PAIR, &[pair(1, 2)]);
    let moved = [&[7; 5], &good[..]].concat();
    let mut other_words = good.clone();
    other_words[22..26].fill(0xFF);
    for bytes in [moved, other_words] {
        assert_eq!(play(&bytes).refused(1, 0).blocks()[1], [[1, 2]]);
    }
    for index in 0..22 {
        let mut wrong = good.clone();
        wrong[index] ^= 1;
        assert_eq!(ours::play(&wrong, STREAM).refusal.map(|refusal| refusal.number()), Some(1));
        assert!(libav::play(&wrong).is_err(), "{index}");
    }
}

/// 01: chunk types are not read. libavformat opens a film only if its first chunk is of type 2 and its
/// second of type 0 or 3, and reads no further at a type above 5.
#[test]
fn types() {
    let sound = chunk(INIT_AUDIO, &[format(0, BYTES)]);
    let opened = [first(PAIR), sound.clone(), pair(1, 2), last()];
    assert_eq!(play(&bare(&opened)).ended().blocks(), [[[1, 2]]; 2]);
    let not_opened = [
        [sound, first(PAIR), pair(1, 2), last()],
        [Chunk { kind: VIDEO, ..first(PAIR) }, pair(1, 2), pair(3, 4), last()],
        [first(PAIR), chunk(AUDIO, &[]), pair(1, 2), last()],
    ];
    for chunks in not_opened {
        let bytes = bare(&chunks);
        let played = ours::play(&bytes, STREAM);
        assert_eq!(played.refusal, None);
        assert!(!played.played.pictures.is_empty());
        assert!(libav::play(&bytes).is_err());
    }
    let played = play(&film(PAIR, &[pair(1, 2), chunk(6, &[]), pair(3, 4)]));
    assert_eq!(played.ours.refusal, None);
    assert!(played.libav.error.is_some());
    let [ours, libav] = played.blocks();
    assert_eq!(ours, [[1, 2], [3, 4]]);
    assert_eq!(libav, [[1, 2]]);
}

/// 01: 00 ends the film, and so does its length. For libavformat a chunk of type 4 or 5 does, whatever
/// is in it, and a film without one breaks off.
#[test]
fn end() {
    let chunks = [pair(1, 2), chunk(VIDEO, &[opcode(0x00, &[])]), pair(3, 4)];
    let [ours, libav] = play(&film(PAIR, &chunks)).ended().blocks();
    assert_eq!(ours, [[1, 2]]);
    assert_eq!(libav, [[1, 2], [3, 4]]);
    let chunks = [pair(1, 2), chunk(SHUTDOWN, &[]), pair(3, 4)];
    let [ours, libav] = play(&film(PAIR, &chunks)).ended().blocks();
    assert_eq!(ours, [[1, 2], [3, 4]]);
    assert_eq!(libav, [[1, 2]]);
    let played = play(&bare(&[first(PAIR), pair(1, 2)]));
    assert_eq!(played.ours.refusal, None);
    assert!(played.libav.error.is_some());
    assert_eq!(played.blocks(), [[[1, 2]]; 2]);
}

/// 01: 02 is passed over unread, in any version and length. libavformat reads no further at one that
/// has not 6 bytes or is not of version 0.
#[test]
fn timer() {
    let timed = |timer| play(&film(PAIR, &[pair(1, 2), chunk(VIDEO, &[timer]), pair(3, 4)]));
    let expected = vec![vec![1, 2], vec![3, 4]];
    assert_eq!(timed(opcode(0x02, &[1; 6])).ended().blocks(), [&expected[..]; 2]);
    for timer in [opcode(0x02, &[1; 4]), Opcode::new(0x02, 1, vec![1; 6])] {
        let played = timed(timer);
        assert_eq!(played.ours.refusal, None);
        assert!(played.libav.error.is_some());
        let [ours, libav] = played.blocks();
        assert_eq!(ours, expected);
        assert_eq!(libav, [[1, 2]]);
    }
}

/// What the documents refuse in an opcode's place, 3, version, 4, or length, 5, libavformat takes.
#[test]
fn refused_shapes() {
    let behind = Chunk { loose: vec![0, 0, 0x04, 0], ..chunk(VIDEO, &[opcode(0x01, &[])]) };
    let with_body = chunk(VIDEO, &[opcode(0x01, &[1])]);
    let version = |kind, body: &[u8]| chunk(VIDEO, &[Opcode::new(kind, 5, body.to_vec())]);
    let other_versions = [version(0x07, &[0; 4]), version(0x0C, &palette(0, &[1; 3]).body)];
    let refused = [(behind, 3), (with_body, 5)].into_iter();
    for (chunk, number) in refused.chain(other_versions.map(|chunk| (chunk, 4))) {
        let played = play(&film(PAIR, &[pair(1, 2), chunk, pair(3, 4)])).refused(number, 0);
        assert_eq!(played.blocks()[1], [[1, 2], [3, 4]], "{number}");
    }
}

/// What the documents refuse in a palette, libavformat takes: bytes left over, 5, and a component above
/// 63, 7, of which it takes the low 6 bits.
#[test]
fn refused_palettes() {
    let long = Opcode::new(0x0C, 0, [palette(0, &[1, 2, 3]).body, vec![4]].concat());
    for (opcode, number, expected) in
        [(long, 5, [1, 2, 3]), (palette(0, &[64, 65, 255]), 7, [0, 1, 63])]
    {
        let played = play(&film(PAIR, &[pair(1, 2), chunk(VIDEO, &[opcode]), pair(3, 4)]));
        let played = played.refused(number, 0);
        let colours = &played.libav.played.pictures[1].colours;
        assert_eq!([colours[0] >> 2, colours[1] >> 2, colours[2] >> 2], expected, "{number}");
    }
}

/// What the documents refuse in a size, 6, libavformat takes: a second one, and more than 80 columns.
#[test]
fn refused_sizes() {
    let again = chunk(INIT_VIDEO, &[init_video(Size::new(1, 1))]);
    let resized = film(PAIR, &[pair(1, 2), again, picture(&[0x0E], &[3])]);
    assert_eq!(play(&resized).refused(6, 0).blocks()[1], [&[1, 2][..], &[3]]);
    let wide = film(Size::new(81, 1), &[picture(&[0xEE; 41], &[5; 81])]);
    assert_eq!(play(&wide).refused(6, 0).blocks()[1], [[5; 81]]);
}

/// 01: a map of another length is refused, 10. libavcodec reads no more of it than it needs, and stops
/// the picture where it has no more.
#[test]
fn refused_maps() {
    let long = film(PAIR, &[pair(1, 2), picture(&[0xEE; 2], &[3, 4])]);
    assert_eq!(play(&long).refused(10, 0).blocks()[1], [[1, 2], [3, 4]]);
    let short = film(SQUARE, &[square([1, 2, 3, 4]), picture(&[0xEE], &[5, 6, 7, 8])]);
    let played = play(&short).refused(10, 0);
    let picture = &played.libav.played.pictures[1];
    assert_eq!([block(picture, 0), block(picture, 1)], [[5; 64], [6; 64]]);
    assert_ne!(block(picture, 2), [7; 64]);
    assert_ne!(block(picture, 3), [8; 64]);
}

/// 01: 11 without a map is refused, 9. libavcodec says that the packet is wrong, and goes on.
#[test]
fn missing_map() {
    let [_, video] = packet(&[0xEE], &[3, 4]);
    let played = play(&film(PAIR, &[pair(1, 2), chunk(VIDEO, &[video, send()]), pair(5, 6)]));
    assert_eq!(played.ours.refusal.map(|refusal| refusal.number()), Some(9));
    assert_eq!((played.libav.faults.len(), played.libav.error), (1, None));
    assert_eq!(played.blocks()[1], [[1, 2], [5, 6]]);
}

/// 01: too few data bytes are refused, 13. libavcodec stops the picture at that block and gives what is
/// drawn by then.
#[test]
fn too_few_data_bytes() {
    let short = picture(&[0xBE], &[&[3][..], &[4; 63]].concat());
    let played = play(&film(PAIR, &[pair(1, 2), short, pair(5, 6)])).refused(13, 1);
    let pictures = &played.libav.played.pictures;
    assert_eq!(pictures.len(), 3);
    assert_eq!(block(&pictures[1], 0), [3; 64]);
    assert_ne!(block(&pictures[1], 1), [4; 64]);
}

/// 01: opcodes 06, 0E and 10 are refused, 4. To libavformat 06 and 10 are pictures of other kinds and
/// 0E is the map of such a picture: libavcodec gives up a picture, and goes on behind it. Both end at a
/// type above 15.
#[test]
fn refused_opcodes() {
    let whole: &[[u8; 2]] = &[[1, 2], [3, 4], [5, 6]];
    for (kind, expected) in [(0x06, whole), (0x0E, &[[1, 2], [5, 6]]), (0x10, whole)] {
        let unknown = chunk(VIDEO, &[opcode(kind, &[0; 14])]);
        let played = play(&film(PAIR, &[pair(1, 2), unknown, pair(3, 4), pair(5, 6)]));
        assert_eq!(played.ours.refusal.map(|refusal| refusal.number()), Some(4), "{kind}");
        assert_eq!((played.libav.faults.len(), played.libav.error), (1, None), "{kind}");
        let [ours, libav] = played.blocks();
        assert_eq!(ours, [[1, 2]], "{kind}");
        assert_eq!(libav, expected, "{kind}");
    }
    let played = play(&film(PAIR, &[pair(1, 2), chunk(VIDEO, &[opcode(0x16, &[])]), pair(3, 4)]));
    assert_eq!(played.ours.refusal.map(|refusal| refusal.number()), Some(4));
    assert!(played.libav.error.is_some());
    assert_eq!(played.blocks(), [[[1, 2]]; 2]);
}

/// What the documents refuse in sound, libavformat and libavcodec play: data of another length than the
/// count says, and compressed sound of 8 bits.
#[test]
fn refused_sound() {
    let long = heard(format(0, BYTES), &[&[sound(2, &[1, 2, 3])]]);
    assert_eq!(play(&long).refused(18, 0).libav.played.sound[0].samples, [1, 2, 3]);
    let narrow = heard(format(1, COMPRESSED & !0b10), &[&[sound(3, &[10, 0, 1, 2])]]);
    let played = play(&narrow).refused(17, 0);
    assert_eq!(words(played.libav.played.sound[0].samples.clone()), [10, 11, 13]);
}

/// 02, W5: sound before a 03 is refused, 17. libavformat keeps it until a 03 comes, if one comes.
#[test]
fn sound_before_its_format() {
    let early = [pair(1, 2), chunk(AUDIO, &[sound(2, &[1, 2])]), pair(3, 4)];
    let played = play(&film(PAIR, &early)).refused(17, 0);
    assert!(played.libav.played.sound.is_empty());
    assert_eq!(played.blocks()[1], [[1, 2], [3, 4]]);
    let late = [&early[..], &[chunk(INIT_AUDIO, &[format(0, BYTES)])]].concat();
    let played = play(&film(PAIR, &late)).refused(17, 0);
    assert_eq!(played.libav.played.sound[0].samples, [1, 2]);
}
