//! The least choice (02, W10) by brute force: every data of each of the eight codes over small alphabets is
//! decoded, and each block that comes of it is encoded. The encoder's choice has as few bytes as the best of
//! all data that gave the block, and of as many the lowest code. (The alphabets are chosen so that the best
//! data of each block is among them.)

use reference::encode::{Choice, Square, CODES};
use reference::frame::FrameSize;
use std::collections::HashMap;

/// What a block costs: data bytes, then the code.
type Cost = (usize, u8);

/// The least cost of each block that the data met gives.
struct Best {
    front: Square,
    back: Square,
    costs: HashMap<Square, Cost>,
    met: usize,
}

impl Best {
    fn new(front: Square, back: Square) -> Best {
        Best { front, back, costs: HashMap::new(), met: 0 }
    }

    /// Every string of so many letters behind a beginning, as data of a code.
    fn add(&mut self, code: u8, beginning: &[u8], letters: &[&[u8]], count: usize) {
        if count == 0 {
            let choice = Choice { code, data: beginning.to_vec() };
            let cost = (choice.data.len(), code);
            let block = choice.decoded(&self.front, &self.back);
            let known = self.costs.entry(block).or_insert(cost);
            *known = cost.min(*known);
            self.met += 1;
            return;
        }
        for letter in letters {
            self.add(code, &[beginning, letter].concat(), letters, count - 1);
        }
    }

    /// Codes 0, 1, B to F over these colours, and 7 with each pair of them.
    fn add_all(&mut self, colours: &[u8], marks: &[u8]) {
        let single: Vec<[u8; 1]> = colours.iter().map(|&colour| [colour]).collect();
        let letters: Vec<&[u8]> = single.iter().map(|letter| &letter[..]).collect();
        for (code, count) in [(0x0, 0), (0x1, 0), (0xE, 1), (0xF, 2), (0xD, 4)] {
            self.add(code, &[], &letters, count);
        }
        self.add(0xC, &[], &letters[..2], 16);
        // Rows of four cells.
        let (a, b, c) = (colours[0], colours[1], colours[2]);
        let cells =
            [[a; 4], [b; 4], [c; 4], [a, a, b, b], [a, b, a, b], [a, b, c, a], [c, a, b, b]];
        let cells: Vec<&[u8]> = cells.iter().map(|row| &row[..]).collect();
        self.add(0xC, &[], &cells, 4);
        // Of B rows of eight: one colour, halves, colours in turn both ways, and three colours.
        let turns = [[a, b, a, b, a, b, a, b], [b, a, b, a, b, a, b, a]];
        let rows = [[a; 8], [a, a, a, a, b, b, b, b], turns[0], turns[1], [a, b, c, a, b, c, a, b]];
        let rows: Vec<&[u8]> = rows.iter().map(|row| &row[..]).collect();
        self.add(0xB, &[], &rows, 8);
        let bytes: Vec<[u8; 1]> = (0..=255).map(|byte| [byte]).collect();
        let bytes: Vec<&[u8]> = bytes.iter().map(|byte| &byte[..]).collect();
        let marks: Vec<[u8; 1]> = marks.iter().map(|&mark| [mark]).collect();
        let marks: Vec<&[u8]> = marks.iter().map(|mark| &mark[..]).collect();
        let pairs = colours.iter().flat_map(|&one| colours.iter().map(move |&two| (one, two)));
        for (first, second) in pairs {
            if first > second {
                self.add(0x7, &[first, second], &bytes, 2);
            } else {
                self.add(0x7, &[first, second], &marks, 8);
            }
        }
    }

    /// Encodes every block met, many to a picture; how many choices of each code there are.
    fn encode(&self) -> HashMap<u8, usize> {
        const COLUMNS: usize = 40;
        const ROWS: usize = 25;
        let blocks: Vec<(&Square, &Cost)> = self.costs.iter().collect();
        let mut chosen = HashMap::new();
        let (mut map, mut body) = (vec![0; mve::MAP_BYTES], vec![0; mve::BODY_BYTES]);
        let size = FrameSize::new(COLUMNS, ROWS).expect("a legal size");
        for part in blocks.chunks(COLUMNS * ROWS) {
            let picture = |of: &dyn Fn(usize) -> Square| -> Vec<u8> {
                let mut picture = vec![0; size.pixels()];
                for number in 0..size.blocks() {
                    for (i, pixel) in of(number).into_iter().enumerate() {
                        let (x, y) = (number % COLUMNS * 8 + i % 8, number / COLUMNS * 8 + i / 8);
                        picture[y * size.width() + x] = pixel;
                    }
                }
                picture
            };
            let wanted =
                picture(&|number| part.get(number).map_or(self.front, |(block, _)| **block));
            let (front, back) = (picture(&|_| self.front), picture(&|_| self.back));
            let told = mve::encode(COLUMNS, ROWS, &wanted, &front, &back, &mut map, &mut body);
            let told = told.expect("rooms that are always enough, and at most 64,000 data bytes");
            let (map, packet) = (&map[..told.map_length], &body[14..told.body_length]);
            let made = reference::packet::blocks(COLUMNS, ROWS, map, packet).expect("accepted");
            for (block, (wanted, &cost)) in made.iter().zip(part) {
                let own = (block.data.len(), block.code);
                assert_eq!(own, cost, "{wanted:?}");
                *chosen.entry(block.code).or_insert(0) += 1;
            }
        }
        chosen
    }
}

#[test]
fn least_of_all() {
    let quarters: Square = std::array::from_fn(|i| [5, 6][i % 8 / 4]);
    for (front, back) in [([9; 64], [8; 64]), (quarters, [6; 64])] {
        let mut best = Best::new(front, back);
        best.add_all(&[5, 6, 7], &[0x00, 0xF0, 0xAA, 0x55]);
        let chosen = best.encode();
        println!("{} data, {} blocks, choices {chosen:?}", best.met, best.costs.len());
        for code in CODES {
            assert!(chosen.get(&code).is_some_and(|&times| times > 0), "no block by {code:X}");
        }
    }
}
