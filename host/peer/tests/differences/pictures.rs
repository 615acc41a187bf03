//! Differences in pictures.

use crate::hand::{block, chunk, film, packet, pair, picture, play, send, square, PAIR, SQUARE};
use peer::film::VIDEO;
use std::slice;

/// 01: code 6 is refused in 8-bit films (003 guesses that it skips two blocks). libavcodec takes no
/// data for it, leaves the block as the picture's memory was, and goes on with the next block.
#[test]
fn code_6() {
    let chunks = [pair(1, 2), pair(3, 4), picture(&[0xE6], &[5]), pair(6, 7)];
    let played = play(&film(PAIR, &chunks)).refused(12, 0);
    let libav = &played.libav.played.pictures;
    assert_eq!((played.ours.played.pictures.len(), libav.len()), (2, 4));
    assert_eq!(block(&libav[2], 1), [5; 64]);
    assert_eq!([block(&libav[3], 0), block(&libav[3], 1)], [[6; 64], [7; 64]]);
}

/// 02, W6: one byte left over is accepted, two are refused. libavcodec takes any number of them.
#[test]
fn bytes_left_over() {
    let left = |count| {
        let data = [&[1, 2][..], &vec![9; count]].concat();
        play(&film(PAIR, &[picture(&[0xEE], &data), pair(3, 4)]))
    };
    let expected = vec![vec![1, 2], vec![3, 4]];
    for count in [0, 1] {
        assert_eq!(left(count).ended().blocks(), [&expected[..]; 2], "{count}");
    }
    for count in [2, 3, 1000] {
        let [ours, libav] = left(count).refused(15, 0).blocks();
        assert!(ours.is_empty(), "{count}");
        assert_eq!(libav, expected, "{count}");
    }
}

/// 01: every copied 8x8 must lie inside the picture, judged in x and in y. libavcodec takes a copy
/// that starts right of the picture from its left side, a row lower, and one that starts left of it
/// from its right side, a row higher. One that starts inside reads on behind the picture's row.
#[test]
fn copy_past_a_side() {
    // Block 1 from 8 pixels to the right, then block 2 from 8 pixels to the left.
    let right = picture(&[0x5E, 0xEE], &[5, 8, 0, 6, 7]);
    let left = picture(&[0xEE, 0xE5], &[5, 6, 0xF8, 0, 7]);
    let played = play(&film(SQUARE, &[square([1, 2, 3, 4]), right])).refused(14, 1);
    let copied = block(&played.libav.played.pictures[1], 1);
    assert_eq!(copied, [[1; 56].as_slice(), &[3; 8]].concat());
    let played = play(&film(SQUARE, &[square([1, 2, 3, 4]), left])).refused(14, 2);
    let copied = block(&played.libav.played.pictures[1], 2);
    assert_eq!(copied, [[2; 8].as_slice(), &[4; 56]].concat());
    let across = picture(&[0x5E, 0xEE], &[5, 4, 0, 6, 7]);
    let played = play(&film(SQUARE, &[square([1, 2, 3, 4]), across])).refused(14, 1);
    let copied = block(&played.libav.played.pictures[1], 1);
    assert!(copied.chunks(8).all(|row| row[..4] == [2; 4]));
}

/// The same rule. libavcodec stops a picture at a copy from above or below it, and gives what is drawn
/// by then: the blocks behind it are as the picture's memory was.
#[test]
fn copy_past_top_and_bottom() {
    let above = picture(&[0x5E, 0xEE], &[5, 0, 0xFF, 6, 7]);
    let below = picture(&[0xEE, 0xE5], &[5, 6, 0, 1, 7]);
    for (chunk, number) in [(above, 1), (below, 2)] {
        let chunks = [square([1, 2, 3, 4]), chunk, square([1, 2, 3, 4])];
        let played = play(&film(SQUARE, &chunks)).refused(14, number);
        let pictures = &played.libav.played.pictures;
        assert_eq!((played.ours.played.pictures.len(), pictures.len()), (1, 3));
        assert_eq!(block(&pictures[1], 0), [5; 64]);
        assert_ne!(block(&pictures[1], 3), [7; 64]);
    }
}

/// 01: 07 changes the roles of front and back where a frame is finished; one that is not sent is drawn
/// over. For libavcodec it is the picture before the next one all the same.
#[test]
fn unsent_frames() {
    // The left block as in the picture before, the right one as in that before it.
    let chunks = [pair(1, 2), pair(3, 4), chunk(VIDEO, &packet(&[0xEE], &[5, 6]))];
    let chunks = [&chunks[..], &[picture(&[0x10], &[])]].concat();
    let [ours, libav] = play(&film(PAIR, &chunks)).ended().blocks();
    assert_eq!(ours, [[1, 2], [3, 4], [3, 6]]);
    assert_eq!(libav, [[1, 2], [3, 4], [5, 4]]);
}

/// 01: 07 sends the frame that is finished, wherever it stands. libavformat takes it for the 11 of its
/// chunk, or for the next one where its chunk has none: here it sends the last picture, whose own 07
/// is missing, in place of the one before.
#[test]
fn send_in_a_later_chunk() {
    let unsent = |left, right| chunk(VIDEO, &packet(&[0xEE], &[left, right]));
    let chunks = [pair(1, 2), unsent(3, 4), chunk(VIDEO, &[send()]), unsent(5, 6)];
    let [ours, libav] = play(&film(PAIR, &chunks)).ended().blocks();
    assert_eq!(ours, [[1, 2], [3, 4]]);
    assert_eq!(libav, [[1, 2], [5, 6]]);
}

/// 01: every 11 is drawn. libavformat hands on the last one of a chunk alone.
#[test]
fn several_packets_in_a_chunk() {
    // The second packet leaves the left block as the first one drew it.
    let both = [packet(&[0xEE], &[5, 6]), packet(&[0xE1], &[7])].concat();
    let chunks = [pair(1, 2), pair(3, 4), chunk(VIDEO, &[both, vec![send()]].concat())];
    let [ours, libav] = play(&film(PAIR, &chunks)).ended().blocks();
    assert_eq!(ours, [[1, 2], [3, 4], [5, 7]]);
    assert_eq!(libav, [[1, 2], [3, 4], [1, 7]]);
}

/// 01: front and back are whatever the host lends, here zeros. libavcodec has none before its first
/// picture, and one before its second: there it stops a picture at a copy from what it lacks. Code 3
/// reads the new picture, so both take it.
#[test]
fn copies_in_the_first_pictures() {
    // The left block by each code, from the place where it stands or from the right block.
    let copies: [(u8, &[u8]); 5] =
        [(0, &[]), (1, &[]), (2, &[0x00]), (4, &[0x88]), (5, &[0x00, 0x00])];
    for (code, vector) in copies {
        let copy = picture(&[0xE0 | code], &[vector, &[9]].concat());
        let played = play(&film(PAIR, slice::from_ref(&copy))).ended();
        let [ours, libav] = [&played.ours.played, &played.libav.played].map(|it| &it.pictures[0]);
        assert_eq!([block(ours, 0), block(ours, 1)], [[0; 64], [9; 64]], "code {code}");
        assert_ne!(block(libav, 1), [9; 64], "code {code}");
        let played = play(&film(PAIR, &[pair(1, 2), copy])).ended();
        let [ours, libav] = [&played.ours.played, &played.libav.played].map(|it| &it.pictures[1]);
        assert_eq!(block(ours, 1), [9; 64], "code {code}");
        assert_eq!(ours == libav, ![1, 2].contains(&code), "code {code}");
    }
    let behind = picture(&[0x3E], &[1, 0]);
    assert_eq!(play(&film(PAIR, &[behind])).ended().blocks(), [[[1, 1]]; 2]);
}
