//! The sentences of document 02's W13, in its order, run on the proved library. The expected values are
//! worked out by hand from the documents.

use mve::{open, salvage, Error, LeftOut, Refusal, Salvaged, Stop, NO_STREAM};

const HEADER: &[u8; 26] = b"Interplay MVE File\x1A\0\x1A\0\0\x01\x33\x11";
const END_CHUNK: [u8; 8] = [4, 0, 5, 0, 0, 0, 0, 0];

fn opcode(kind: u8, version: u8, body: &[u8]) -> Vec<u8> {
    [&(body.len() as u16).to_le_bytes()[..], &[kind, version], body].concat()
}

fn chunk(kind: u16, opcodes: &[Vec<u8>]) -> Vec<u8> {
    let body = opcodes.concat();
    [&[body.len() as u16, kind].map(u16::to_le_bytes).concat()[..], &body].concat()
}

fn film(chunks: &[Vec<u8>]) -> Vec<u8> {
    [&HEADER[..], &chunks.concat()].concat()
}

/// What is left of a film, with the new film and the chunks left out. The sums add up, and the new film
/// opens and is kept whole.
fn saved(film: &[u8]) -> (Salvaged, Vec<u8>, Vec<LeftOut>) {
    let (mut room, mut list) = (vec![0x5A; film.len() + 9], vec![77; 3 * film.len() / 5 + 1]);
    let saved = salvage(film, &mut room, &mut list).expect("enough room");
    let Salvaged { bytes, left_out, header, kept, lost, rest, .. } = saved;
    assert_eq!(header + kept + lost + rest, film.len());
    assert!(room[bytes..].iter().all(|&byte| byte == 0x5A), "behind the new film");
    assert!(list[3 * left_out..].iter().all(|&number| number == 77), "behind the list");
    let losses: Vec<_> = saved.losses(&list).collect();
    assert_eq!(losses.len(), left_out);
    room.truncate(bytes);
    assert!(open(&room, NO_STREAM).is_ok());
    let mut again = vec![0; bytes];
    let whole = salvage(&room, &mut again, &mut []).expect("as much room");
    assert_eq!((whole.left_out, whole.rest, whole.bytes), (0, 0, bytes));
    assert_eq!((whole.stop, again == room), (Stop::BehindEnd, true));
    (saved, room, losses)
}

/// "Write a new film with each chunk whose opcodes are not refused 3, 4 or 5, same bytes and order; then a
/// chunk of type 5 with opcode 00 unless the last kept chunk has one."
#[test]
fn new_film() {
    let timer = chunk(2, &[opcode(0x02, 9, &[1, 2, 3]), opcode(0x01, 0, &[])]);
    let empty = chunk(0xABCD, &[]);
    let unknown = chunk(3, &[opcode(0x07, 0, &[0; 4]), opcode(0x06, 0, &[])]);
    let (told, new, losses) = saved(&film(&[timer.clone(), unknown.clone(), empty.clone()]));
    assert_eq!(new, film(&[timer.clone(), empty.clone(), END_CHUNK.to_vec()]));
    let position = 26 + timer.len();
    assert_eq!(losses, [LeftOut { position, length: 12, error: Error::Type }]);
    assert_eq!((told.stop, told.rest), (Stop::FilmEnd, 0));
    assert_eq!((told.kept, told.lost), (timer.len() + empty.len(), 16));

    // The last kept chunk has 00 itself.
    let end = chunk(3, &[opcode(0x07, 0, &[0; 4]), opcode(0x00, 0, &[])]);
    let (told, new, _) = saved(&film(&[unknown, end.clone(), timer.clone()]));
    assert_eq!(new, film(&[end]));
    assert_eq!((told.stop, told.rest), (Stop::BehindEnd, timer.len()));

    // No chunk at all.
    assert_eq!(saved(HEADER).1, film(&[END_CHUNK.to_vec()]));
}

/// The refusal of a chunk with these opcodes, none where it is kept.
fn refusal(opcodes: &[Vec<u8>]) -> Option<Error> {
    let (told, _, losses) = saved(&film(&[chunk(3, opcodes)]));
    assert_eq!(told.left_out, losses.len());
    losses.first().map(|loss| loss.error)
}

/// "Other refusals are not tested; 11 needs 14 bytes, and sound is tested for W5's versions and lengths,
/// whatever the stream."
#[test]
fn tests_of_opcodes() {
    let of = |kind, version, length| refusal(&[opcode(kind, version, &vec![0; length])]);
    // Refused by 6, 9, 18 and 7 where they are played.
    for body in [(0x05, 0, 4), (0x11, 0, 14), (0x11, 0, 15), (0x09, 0, 6), (0x08, 0, 6)] {
        assert_eq!(of(body.0, body.1, body.2), None, "{body:x?}");
    }
    assert_eq!(refusal(&[opcode(0x0C, 0, &[0xFF, 0xFF, 1, 0, 64, 64, 64])]), None);
    assert_eq!(refusal(&[opcode(0x0C, 0, &[0, 0, 1, 0, 1, 2])]), Some(Error::BodyLength));
    assert_eq!(refusal(&[opcode(0x0D, 0, &[1; 32])]), Some(Error::BodyLength));
    assert_eq!(of(0x0D, 0, 32), None);
    for (kind, version, length) in
        [(0x11, 0, 13), (0x03, 0, 9), (0x03, 1, 8), (0x08, 0, 5), (0x09, 0, 7), (0x05, 2, 4)]
    {
        assert_eq!(of(kind, version, length), Some(Error::BodyLength), "{kind:02X}, {length}");
    }
    for (kind, version) in [(0x03, 2), (0x08, 1), (0x09, 1), (0x06, 0), (0x16, 0), (0x11, 1)] {
        assert_eq!(of(kind, version, 14), Some(Error::Type), "{kind:02X}, {version}");
    }
    // Bytes behind 01, too few for a head, and an opcode that passes its chunk.
    let end = opcode(0x01, 0, &[]);
    assert_eq!(refusal(&[end.clone(), opcode(0x02, 0, &[])]), Some(Error::Opcode));
    assert_eq!(refusal(&[opcode(0x02, 0, &[]), vec![0; 3]]), Some(Error::Opcode));
    assert_eq!(refusal(&[vec![1, 0, 0x02, 0]]), Some(Error::Opcode));
    // The first met counts.
    let (wrong, unknown) = (opcode(0x07, 0, &[]), opcode(0x10, 0, &[]));
    assert_eq!(refusal(&[wrong.clone(), unknown.clone()]), Some(Error::BodyLength));
    assert_eq!(refusal(&[unknown, wrong]), Some(Error::Type));
}

/// "Walking stops behind a kept chunk with 00, and at refusal 2, told apart from the list."
#[test]
fn stops() {
    let end = opcode(0x00, 0, &[]);
    let left_out = chunk(3, &[opcode(0x06, 0, &[]), end.clone()]);
    let kept = chunk(3, &[opcode(0x02, 0, &[])]);
    let (told, new, losses) = saved(&film(&[left_out, kept.clone()]));
    assert_eq!((told.stop, losses.len()), (Stop::FilmEnd, 1));
    assert_eq!(new, film(&[kept.clone(), END_CHUNK.to_vec()]));

    // Two bytes of a head; a whole head that is longer than what follows; one byte too few.
    for tail in [vec![0, 0], vec![0xFF, 0xFF, 3, 0, 1], vec![3, 0, 3, 0, 1, 2]] {
        let (told, new, losses) = saved(&film(&[kept.clone(), tail.clone()]));
        assert_eq!((told.stop, told.rest, losses.len()), (Stop::PastEnd, tail.len(), 0));
        assert_eq!(new, film(&[kept.clone(), END_CHUNK.to_vec()]));
    }
    let last = chunk(3, &[end]);
    let (told, _, _) = saved(&film(&[last.clone(), vec![0, 0]]));
    assert_eq!((told.stop, told.kept, told.rest), (Stop::BehindEnd, last.len(), 2));
}

/// "Refusals: 1, then 19 for too little room, film or list."
#[test]
fn refusals() {
    let film = film(&[chunk(3, &[opcode(0x06, 0, &[])]), chunk(3, &[opcode(0x10, 0, &[])])]);
    let refused = |error| Err(Refusal { error, block: 0 });
    for (bytes, numbers, expected) in [
        (34, 6, Ok(())),
        (33, 6, refused(Error::Room)),
        (34, 5, refused(Error::Room)),
        (34, 2, refused(Error::Room)),
        (0, 0, refused(Error::Room)),
    ] {
        let (mut room, mut list) = (vec![0x5A; bytes], vec![77; numbers]);
        let told = salvage(&film, &mut room, &mut list).map(|_| ());
        assert_eq!(told, expected, "{bytes}, {numbers}");
        let untouched = room == vec![0x5A; bytes] && list == vec![77; numbers];
        assert_eq!(untouched, expected.is_err(), "{bytes}, {numbers}");
    }
    for wrong in [&HEADER[..25], &[&HEADER[..25], &[0x10]].concat(), &[]] {
        let told = salvage(wrong, &mut [], &mut []).map(|_| ());
        assert_eq!(told, refused(Error::Header));
    }
}
