//! The judge itself: what it accepts and what it finds, on messages made by hand.

use boot::judge::{judge, Tally, Wrong};
use boot::report::{Picture, PALETTE};

fn picture(number: u8) -> Picture {
    let palette = (0..PALETTE).map(|i| (i as u8).wrapping_add(number) % 64).collect();
    Picture { width: 8, height: 8, palette, pixels: vec![number; 64] }
}

/// A message as the stage writes it.
fn message(kind: u8, number: u8, picture: &Picture) -> Vec<u8> {
    let Picture { width, height, palette, pixels } = picture;
    let size = [*width as u8, 0, *height as u8, 0];
    let summed = [&[kind, number, 0, 0, 0][..], &size, palette, pixels].concat();
    let step = |sum: u32, &byte: &u8| (sum ^ u32::from(byte)).wrapping_mul(16_777_619);
    let sum = summed.iter().fold(2_166_136_261, step).to_le_bytes();
    [&b"MVE>"[..], &summed, &sum].concat()
}

/// The verdict on messages of these kinds and numbers, for a film of three pictures.
fn verdict(messages: &[(u8, u8)]) -> Result<Tally, Wrong> {
    let port: Vec<u8> = messages
        .iter()
        .flat_map(|&(kind, number)| message(kind, number, &picture(number)))
        .collect();
    judge(&port, &[picture(0), picture(1), picture(2)])
}

#[test]
fn order() {
    let (s, a) = (b'S', b'A');
    let tally = |twice, again| Ok(Tally { sent: 3, twice, again, cut: 0 });
    assert_eq!(verdict(&[(s, 0), (s, 1), (s, 2)]), tally(0, 0));
    assert_eq!(verdict(&[(s, 0), (a, 0), (s, 1), (s, 2), (a, 2)]), tally(0, 2));
    // stopped between sending and saving
    assert_eq!(verdict(&[(s, 0), (s, 0), (s, 1), (a, 0), (s, 1), (s, 2)]), tally(2, 1));
    // lost
    assert_eq!(verdict(&[(s, 0), (s, 2)]), Err(Wrong::Order(Some(0), 2)));
    assert_eq!(verdict(&[(s, 1)]), Err(Wrong::Order(None, 1)));
    assert_eq!(verdict(&[(s, 0), (s, 1)]), Err(Wrong::Missing(2)));
    // gone back
    assert_eq!(verdict(&[(s, 0), (s, 1), (s, 1)]), Err(Wrong::Order(Some(1), 1)));
    assert_eq!(verdict(&[(s, 0), (s, 1), (s, 0)]), Err(Wrong::Order(Some(1), 0)));
    assert_eq!(verdict(&[(s, 0), (s, 1), (s, 2), (a, 0)]), Err(Wrong::Order(Some(2), 0)));
    // shown again before it was sent
    assert_eq!(verdict(&[(s, 0), (a, 1)]), Err(Wrong::Order(Some(0), 1)));
}

#[test]
fn differences() {
    let pictures = [picture(0), picture(1)];
    for what in 0..3 {
        let mut torn = picture(1);
        match what {
            0 => torn.pixels[63] ^= 1,
            1 => torn.palette[767] ^= 1,
            _ => (torn.width, torn.height) = (16, 4),
        }
        let port = [message(b'S', 0, &pictures[0]), message(b'S', 1, &torn)].concat();
        assert_eq!(judge(&port, &pictures), Err(Wrong::Differs(1)));
    }
}

/// A message that is cut anywhere does not count, and what follows it is found.
#[test]
fn cuts() {
    let pictures = [picture(0)];
    let whole = message(b'S', 0, &pictures[0]);
    for length in 0..whole.len() {
        let port = [&whole[..length], &whole].concat();
        let tally = judge(&port, &pictures).expect("the second message is whole");
        assert_eq!((tally.sent, tally.twice), (1, 0), "cut at {length}");
    }
    let mut wrong = whole.clone();
    wrong[100] ^= 1;
    assert_eq!(judge(&wrong, &pictures), Err(Wrong::Missing(0)));
}
