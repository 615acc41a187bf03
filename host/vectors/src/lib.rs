//! Cases of the packet check, in its default form, and the answers that the second decoder gives to
//! them, as two files: what a checking program reads from standard input, and what it must write.
//!
//! Input, little-endian, for each case: words columns, rows, map length, data length, then the map
//! and the data. The file ends with the last case. Output, for each case, a line: `accepted`, or
//! `refused`, the number and the block, in decimal.

use maker::packet::{self, Draft};
use maker::packet_damage::{damaged, Damage};
use maker::{Form, Packet, Profile, Seeded, Size};

/// Bytes that the input may have at most.
pub const MAX_INPUT: usize = 60_000;

/// The two files.
#[derive(Clone, Debug, PartialEq, Eq)]
pub struct Vectors {
    /// The cases.
    pub input: Vec<u8>,
    /// The answers.
    pub output: Vec<u8>,
}

/// Makes both files; they are the same every time.
pub fn generate() -> Vectors {
    let cases = cases();
    Vectors {
        input: cases.iter().flat_map(case_bytes).collect(),
        output: cases.iter().map(answer_line).collect::<String>().into_bytes(),
    }
}

/// The cases: those that are checked by hand, then seeded ones.
pub fn cases() -> Vec<Packet> {
    let mut rng = Seeded::new(0x4D56_4501);
    let mut cases = hand_cases();
    for form in Form::ALL {
        let draft = Draft::make(&mut rng, Size::new(3, 2), Profile::Only(form));
        cases.push(draft.packet());
    }
    cases.extend(left_over(&mut rng));
    for _ in 0..90 {
        cases.push(small_draft(&mut rng).packet());
    }
    for _ in 0..12 {
        for damage in Damage::ALL {
            let draft = small_draft(&mut rng);
            cases.push(damaged(&mut rng, &draft, damage));
        }
    }
    for _ in 0..30 {
        cases.push(packet::hostile(&mut rng));
    }
    cases
}

/// Packets with 0 to 3 bytes left over behind a last block of each form. (Code 2 copies from later
/// blocks, so it is never the last.)
fn left_over(rng: &mut Seeded) -> Vec<Packet> {
    let kinds = Form::ALL.into_iter().flat_map(|form| (0..=3).map(move |over| (form, over)));
    let packet = |(form, over)| {
        let draft = Draft::ending_in(rng, Size::new(2, 1), Profile::Light, form)?;
        Some(draft.with_over(rng, over).packet())
    };
    kinds.filter_map(packet).collect()
}

/// Document 01's unmarked cases that concern a packet, its widths as document 02's W1 has them, and
/// the same of the rows; then a block of one byte with 0 to 2 bytes left over (02, W6).
fn hand_cases() -> Vec<Packet> {
    let one_copy =
        |data: [u8; 2]| Packet { columns: 1, rows: 1, map: vec![0x05], data: data.to_vec() };
    // Code 1 throughout, and the map as long as the size asks, so that only the size can be refused.
    let untouched = |columns: usize, rows: usize| Packet {
        columns,
        rows,
        map: vec![0x11; (columns * rows).div_ceil(2)],
        data: Vec::new(),
    };
    let solid = |data: &[u8]| Packet { columns: 1, rows: 1, map: vec![0x0E], data: data.to_vec() };
    vec![
        one_copy([0x00, 0x00]),
        one_copy([0x01, 0x00]),
        untouched(80, 1),
        untouched(0, 1),
        untouched(81, 1),
        untouched(1, 60),
        untouched(1, 0),
        untouched(1, 61),
        solid(&[7]),
        solid(&[7, 0]),
        solid(&[7, 0, 0]),
    ]
}

/// A valid packet of up to 4x4 blocks, now and then a full row or column of light ones; padded or not.
fn small_draft(rng: &mut Seeded) -> Draft {
    let draft = match rng.below(16) {
        0 => Draft::make(rng, Size::new(80, 1), Profile::Light),
        1 => Draft::make(rng, Size::new(1, 60), Profile::Light),
        _ => {
            let size = Size::new(rng.between(1, 4), rng.between(1, 4));
            let profile = rng.pick(&Profile::MANY);
            Draft::make(rng, size, profile)
        }
    };
    draft.or_padded(rng)
}

fn case_bytes(packet: &Packet) -> Vec<u8> {
    let numbers = [packet.columns, packet.rows, packet.map.len(), packet.data.len()];
    let word = |number| u16::try_from(number).expect("cases are small").to_le_bytes();
    [numbers.map(word).concat(), packet.map.clone(), packet.data.clone()].concat()
}

fn answer_line(packet: &Packet) -> String {
    match reference::check(packet.columns, packet.rows, &packet.map, &packet.data) {
        Ok(_) => "accepted\n".to_string(),
        Err(refusal) => format!("refused {} {}\n", refusal.number, refusal.block),
    }
}
