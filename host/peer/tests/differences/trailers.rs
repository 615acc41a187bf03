//! Differences in frames of Microsoft Video 1 (source document 001; 02, W12). Every picture is of four blocks of
//! 4x4, first painted in four colours.

use maker::trailers::{skip, END_MARK};
use mve::Error;
use peer::libav;

/// The colours of the four blocks: lower left, lower right, upper left, upper right.
type Blocks = [u8; 4];

const BEFORE: Blocks = [1, 2, 3, 4];

/// Blocks of one colour each.
fn solid(colours: &[u8]) -> Vec<u8> {
    colours.iter().flat_map(|&colour| [colour, 0x80]).collect()
}

/// The colours of solid blocks.
#[track_caller]
fn blocks(picture: &[u8]) -> Blocks {
    let corners = [32, 36, 0, 4];
    for (corner, x, y) in corners.iter().flat_map(|&c| (0..16).map(move |i| (c, i % 4, i / 4))) {
        assert_eq!(picture[corner + 8 * y + x], picture[corner]);
    }
    corners.map(|corner| picture[corner])
}

/// What the library and libavcodec make of a frame.
fn decode(frame: &[u8]) -> (Result<Blocks, Error>, Result<Blocks, i32>) {
    let first = [solid(&BEFORE), END_MARK.to_vec()].concat();
    let mut picture = vec![0; 64];
    mve::video1(1, 1, &first, &mut picture).expect("a valid frame");
    let ours = mve::video1(1, 1, frame, &mut picture).map(|()| blocks(&picture));
    let theirs = libav::trailer((8, 8), &[first, frame.to_vec()]).expect("libavcodec opens it");
    (ours, theirs[1].as_ref().map(|picture| blocks(picture)).map_err(|&error| error))
}

/// 02: after all blocks stands the end mark. libavcodec reads nothing behind the last block.
#[test]
fn no_end_mark() {
    let all = solid(&[5, 6, 7, 8]);
    for behind in [&[][..], &[0], &[1, 2], &[0x84, 0x84]] {
        let (ours, theirs) = decode(&[&all, behind].concat());
        assert_eq!((ours, theirs), (Err(Error::EndMark), Ok([5, 6, 7, 8])), "{behind:?}");
    }
}

/// 02: the end mark stands alone. libavcodec takes any bytes behind it.
#[test]
fn bytes_behind_the_end_mark() {
    let (ours, theirs) = decode(&[&solid(&[5, 6, 7, 8])[..], &END_MARK, &[0]].concat());
    assert_eq!((ours, theirs), (Err(Error::EndMark), Ok([5, 6, 7, 8])));
}

/// 001: a skip of n blocks, 0 to 1,023. libavcodec counts the blocks behind the one that it is at, of a skip of
/// none one less than none, and so skips the rest of the frame.
#[test]
fn skip_of_no_block() {
    let (ours, theirs) =
        decode(&[&solid(&[5])[..], &skip(0), &solid(&[6, 7, 8]), &END_MARK].concat());
    assert_eq!((ours, theirs), (Ok([5, 6, 7, 8]), Ok([5, 2, 3, 4])));
}

/// 02: refused 25. libavcodec ends the frame at its last block.
#[test]
fn skip_past_the_last_block() {
    let (ours, theirs) = decode(&[&solid(&[5])[..], &skip(4), &END_MARK].concat());
    assert_eq!((ours, theirs), (Err(Error::SkipOutside), Ok([5, 2, 3, 4])));
    let (ours, theirs) = decode(&[&solid(&[5])[..], &skip(3), &END_MARK].concat());
    assert_eq!((ours, theirs), (Ok([5, 2, 3, 4]), Ok([5, 2, 3, 4])));
}

/// 02: refused 24. libavcodec gives the picture as it is drawn by then, and an error where there is less than a
/// byte for each 512 blocks.
#[test]
fn too_few_bytes() {
    for frame in [&solid(&[5, 6])[..], &[5, 0x80, 6, 0x80, 7], &[5, 0x80, 6, 0x80, 7, 0x00, 9]] {
        assert_eq!(decode(frame), (Err(Error::FrameShort), Ok([5, 6, 3, 4])), "{frame:?}");
    }
    // 160 by 120 blocks: 37 times 512 and some.
    let frames = [vec![0x80; 36], vec![0x80; 37]];
    for frame in &frames {
        let drawn = mve::video1(80, 60, frame, &mut vec![0; 640 * 480]);
        assert_eq!(drawn, Err(Error::FrameShort));
    }
    let theirs = libav::trailer((640, 480), &frames).expect("libavcodec opens it");
    assert_eq!(theirs.iter().map(Result::is_ok).collect::<Vec<_>>(), [false, true]);
}

/// 02: sizes are in blocks of 8x8, at most 80 by 60. libavcodec takes any size, and leaves what is no whole
/// block of 4x4 at the right side and at the bottom undrawn.
#[test]
fn sizes() {
    let wide = [solid(&[9; 4 * 81]), END_MARK.to_vec()].concat();
    let mut picture = vec![0; 64 * 81];
    assert_eq!(mve::video1(81, 1, &wide, &mut picture), Err(Error::FrameSize));
    let theirs = libav::trailer((8 * 81, 8), &[wide]).expect("libavcodec opens it");
    assert_eq!(theirs, [Ok(vec![9; 64 * 81])]);
    let frame = [solid(&[9]), END_MARK.to_vec()].concat();
    let theirs = libav::trailer((4, 4), &[frame.clone()]).expect("libavcodec opens it");
    assert_eq!(theirs, [Ok(vec![9; 16])]);
    let theirs = libav::trailer((6, 5), &[frame]).expect("libavcodec opens it");
    let drawn = theirs[0].as_ref().expect("a picture");
    let is_drawn = |i: usize| drawn[i] == 9;
    assert!((0..30).all(|i| is_drawn(i) == (i / 6 < 4 && i % 6 < 4)), "{drawn:?}");
}
