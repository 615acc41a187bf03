//! The stores that calls make, in order, as the second decoder lists them; and memory as a prefix of
//! the list leaves it.

use crate::kept::{Memory, Numbers};
use reference::cuts;
use reference::film::{opcode, opcode_head, State};
use reference::frame::{FrameSize, BLOCK_PIXELS};
use reference::packet;
use reference::palette;
use reference::word_packet;
use reference::{CallForm, Refusal};

/// One store to what is kept.
#[derive(Clone, Copy, Debug, PartialEq, Eq)]
pub enum Store {
    /// A byte of the palette.
    Palette {
        /// Which byte.
        index: usize,
        /// Its new value.
        value: u8,
    },
    /// A pixel of a picture.
    Pixel {
        /// Which picture: 0 or 1.
        picture: usize,
        /// Which pixel.
        index: usize,
        /// Its new value.
        value: u8,
    },
    /// A pixel of a picture of words.
    Word {
        /// Which picture: 0, 1 or 2.
        picture: usize,
        /// Which pixel.
        index: usize,
        /// Its new value.
        value: u16,
    },
    /// A byte of the palette that becomes 0, of a gradient with one entry. The library has memset store
    /// the three bytes of such an entry, or the first of them that are allowed, and in which order is
    /// memset's. All other stores come in the order of the list.
    Black {
        /// Which byte.
        index: usize,
    },
    /// The place.
    Place(usize),
    /// The saved state, which the player stores.
    State(Numbers),
}

/// A drawing's stores from a place on, of a packet that is accepted: each pixel comes from memory as
/// the stores before it left it.
pub fn drawing(packet: &Packet<'_>, memory: &Memory) -> Result<Vec<Store>, Refusal> {
    let Packet { columns, rows, map, data, front } = *packet;
    let size = FrameSize::new(columns, rows)?;
    let blocks = packet::blocks(columns, rows, map, data)?;
    let shown = &memory.pictures[front];
    let mut drawn = memory.pictures[1 - front].clone();
    let mut stores = Vec::new();
    for block in &blocks[memory.place..] {
        for i in 0..block.pixel_stores() {
            let (index, value) = (block.target(size, i), block.value(size, i, shown, &drawn));
            drawn[index] = value;
            stores.push(Store::Pixel { picture: 1 - front, index, value });
        }
        stores.push(Store::Place(block.number + 1));
    }
    Ok(stores)
}

/// A drawing's stores of words from a place on, with front 0: the picture behind it is drawn on.
pub fn word_drawing(packet: &maker::Packet, memory: &Memory) -> Result<Vec<Store>, Refusal> {
    let maker::Packet { columns, rows, map, data } = packet;
    let size = FrameSize::new(*columns, *rows)?;
    let blocks = word_packet::word_blocks(*columns, *rows, map, data)?;
    let [last, found, oldest] = &memory.words;
    let mut new = found.clone();
    let mut stores = Vec::new();
    for block in &blocks[memory.place..] {
        for i in 0..BLOCK_PIXELS {
            let (index, value) = (block.target(size, i), block.value(size, i, last, oldest, &new));
            new[index] = value;
            stores.push(Store::Word { picture: 1, index, value });
        }
        stores.push(Store::Place(block.number + 1));
    }
    Ok(stores)
}

/// How many stores are due from a place on where a film's step at a state draws; none where it does not.
pub fn due_at(film: &[u8], state: &State, place: usize) -> Option<usize> {
    let packet = packet_at(film, state)?;
    Some(match state.true_colour {
        false => due(&packet, place),
        true => 65 * (packet.columns * packet.rows - place),
    })
}

/// How many stores are due from a place on, of a packet that is accepted.
pub fn due(packet: &Packet<'_>, place: usize) -> usize {
    let Packet { columns, rows, map, data, .. } = *packet;
    let blocks = packet::blocks(columns, rows, map, data).expect("a packet that is accepted");
    blocks.iter().skip(place).map(|block| block.pixel_stores() + 1).sum()
}

/// A packet as it is drawn on one of the two pictures that are kept.
#[derive(Clone, Copy, Debug)]
pub struct Packet<'a> {
    /// Blocks in a row.
    pub columns: usize,
    /// Rows of blocks.
    pub rows: usize,
    /// The map.
    pub map: &'a [u8],
    /// The data.
    pub data: &'a [u8],
    /// Which picture is the shown one: 0 or 1.
    pub front: usize,
}

/// The packet that a film's step at a state draws, if it is at opcode 11.
pub fn packet_at<'a>(film: &'a [u8], state: &State) -> Option<Packet<'a>> {
    let head = opcode_head(film, state.position, state.chunk_end).ok()?;
    if state.position == state.chunk_end || head.kind != opcode::VIDEO {
        return None;
    }
    let State { columns, rows, front, .. } = *state;
    let map = state.map?.of(film)?;
    Some(Packet { columns, rows, map, data: &head.body.of(film)?[14..], front })
}

/// The stores of a film's step at a state, if none is left out for want of an allowance: the second
/// decoder's list of them (02, W11).
pub fn step(film: &[u8], state: &State, memory: &Memory) -> Vec<Store> {
    let Memory { palette, pictures, words, place, .. } = memory.clone();
    let kept = cuts::Memory { palette, pictures, words, place };
    let stores = cuts::listed(CallForm::Default, film, state, &kept);
    let store = |store| match store {
        cuts::Store::Colour(palette::Store { index, value }) => Store::Palette { index, value },
        cuts::Store::Pixel { picture, index, value } => Store::Pixel { picture, index, value },
        cuts::Store::Word { picture, index, value } => Store::Word { picture, index, value },
        cuts::Store::Place(place) => Store::Place(place),
    };
    let mut stores: Vec<Store> = stores.into_iter().map(store).collect();
    single_entries(film, state).into_iter().for_each(|at| {
        for store in stores.iter_mut().skip(at).take(3) {
            if let Store::Palette { index, value: 0 } = *store {
                *store = Store::Black { index };
            }
        }
    });
    stores
}

/// Where the stores of gradients with one entry begin in the list of the 0B that a state stands at.
fn single_entries(film: &[u8], state: &State) -> Vec<usize> {
    let head = opcode_head(film, state.position, state.chunk_end);
    let body = head.ok().filter(|head| head.kind == opcode::GRADIENT);
    let body = body.and_then(|head| head.body.of(film)).unwrap_or_default();
    let &[_, rows, columns, _, more_rows, more_columns] = body else { return Vec::new() };
    let first = usize::from(rows) * usize::from(columns);
    let second = usize::from(more_rows) * usize::from(more_columns);
    let starts = [(first, 0), (second, 3 * first)];
    starts.into_iter().filter(|&(entries, _)| entries == 1).map(|(_, at)| at).collect()
}

/// The opcode that a state stands at; none at a chunk's head.
pub fn opcode_at(film: &[u8], state: &State) -> Option<u8> {
    opcode_head(film, state.position, state.chunk_end).ok().map(|head| head.kind)
}

impl Memory {
    /// Makes a store.
    pub fn make(&mut self, store: Store) {
        match store {
            Store::Palette { index, value } => self.palette[index] = value,
            Store::Black { index } => self.palette[index] = 0,
            Store::Pixel { picture, index, value } => self.pictures[picture][index] = value,
            Store::Word { picture, index, value } => self.words[picture][index] = value,
            Store::Place(place) => self.place = place,
            Store::State(state) => self.state = state,
        }
    }

    /// In how many bytes, words and numbers two memories differ.
    fn differences(&self, other: &Memory) -> usize {
        differing(&self.palette, &other.palette)
            + differing(&self.pictures[0], &other.pictures[0])
            + differing(&self.pictures[1], &other.pictures[1])
            + (0..3).map(|at| differing(&self.words[at], &other.words[at])).sum::<usize>()
            + usize::from(self.place != other.place)
            + usize::from(self.state != other.state)
    }

    /// In how many of those that a store changes they differ.
    fn differences_at(&self, other: &Memory, store: Store) -> usize {
        match store {
            Store::Palette { index, .. } | Store::Black { index } => {
                usize::from(self.palette[index] != other.palette[index])
            }
            Store::Pixel { picture, index, .. } => {
                usize::from(self.pictures[picture][index] != other.pictures[picture][index])
            }
            Store::Word { picture, index, .. } => {
                usize::from(self.words[picture][index] != other.words[picture][index])
            }
            Store::Place(_) => usize::from(self.place != other.place),
            Store::State(_) => usize::from(self.state != other.state),
        }
    }
}

fn differing<P: PartialEq>(one: &[P], other: &[P]) -> usize {
    one.iter().zip(other).filter(|(one, other)| one != other).count()
}

/// Memory as a prefix of a list of stores leaves it. The prefix only grows.
#[derive(Clone, Debug)]
pub struct Prefix<'a> {
    memory: Memory,
    stores: &'a [Store],
    made: usize,
}

impl Prefix<'_> {
    /// The prefix of no store, on the memory that the first one finds.
    pub fn new(found: Memory, stores: &[Store]) -> Prefix<'_> {
        Prefix { memory: found, stores, made: 0 }
    }

    /// Lengthens the prefix by as few stores as it takes for memory to be as it is seen.
    pub fn reach(&mut self, seen: &Memory) -> Result<(), String> {
        let (start, all) = (self.made, self.stores.len());
        let mut differences = self.memory.differences(seen);
        while differences > 0 {
            let Some(&store) = self.stores.get(self.made) else {
                return Err(format!("memory is as no prefix of {start} to {all} stores leaves it"));
            };
            if differences == self.made_by_memset(seen) {
                break;
            }
            differences -= self.memory.differences_at(seen, store);
            self.memory.make(store);
            differences += self.memory.differences_at(seen, store);
            self.made += 1;
        }
        Ok(())
    }

    /// How many bytes of an entry that memset is to store next are seen, whichever they are.
    fn made_by_memset(&self, seen: &Memory) -> usize {
        let next = &self.stores[self.made..];
        let Some(&Store::Black { index: first }) = next.first() else { return 0 };
        let bytes = next.iter().take(3).map_while(|store| match *store {
            Store::Black { index } if index / 3 == first / 3 => Some(index),
            _ => None,
        });
        bytes.filter(|&i| seen.palette[i] == 0 && self.memory.palette[i] != 0).count()
    }

    /// Whether memory as it is seen is what all stores leave.
    pub fn ends(mut self, seen: &Memory) -> bool {
        self.stores[self.made..].iter().for_each(|&store| self.memory.make(store));
        self.memory == *seen
    }
}
