//! Drawing calls that are wrong on purpose, and a player that saves a state in place: the tests must
//! notice each of them.

use crate::cases::{Case, Drawing, Walk, NO_STATE};
use crate::kept::{Kept, Memory};
use crate::list::{self, Packet, Store};
use std::hint;

/// How a drawing is wrong. All but `Nothing` end with the right picture and place where nothing
/// stops them.
#[derive(Clone, Copy, Debug, PartialEq, Eq)]
pub enum Wrong {
    /// It is not.
    Nothing,
    /// The first two pixels are stored in the wrong order.
    PixelsSwapped,
    /// The first pixel is stored with another value first.
    PixelTwice,
    /// The place is stored before the first block's last pixel.
    PlaceEarly,
    /// The second block's first pixel is stored before the place behind the first block.
    PixelEarly,
    /// The place is stored behind the last block only.
    PlaceSeldom,
    /// The last byte that is lent is changed, and then set back.
    ByteBeyond,
}

impl Wrong {
    /// All of them.
    pub const ALL: [Wrong; 7] = [
        Wrong::Nothing,
        Wrong::PixelsSwapped,
        Wrong::PixelTwice,
        Wrong::PlaceEarly,
        Wrong::PixelEarly,
        Wrong::PlaceSeldom,
        Wrong::ByteBeyond,
    ];

    /// The one that is called so.
    pub fn named(name: &str) -> Option<Wrong> {
        Wrong::ALL.into_iter().find(|wrong| format!("{wrong:?}") == name)
    }
}

/// The stores of a wrong drawing of a packet whose first two blocks have pixels, from place 0 on.
pub fn stores<const LENT: usize>(
    wrong: Wrong,
    kept: &Kept<LENT>,
    columns: usize,
    rows: usize,
    map: &[u8],
    data: &[u8],
) -> Vec<Store> {
    let pictures = [kept.a.to_vec(), kept.b.to_vec()];
    let (palette, words) = (kept.palette.to_vec(), kept.words.map(|words| words.to_vec()));
    let memory = Memory { palette, pictures, words, place: 0, state: NO_STATE };
    let packet = Packet { columns, rows, map, data, front: 0 };
    let mut stores = list::drawing(&packet, &memory).expect("a valid packet");
    let (index, value) = (LENT - 1, kept.b[LENT - 1]);
    let blocks = stores.iter().filter(|store| matches!(store, Store::Place(_))).count();
    match wrong {
        Wrong::Nothing => {}
        Wrong::PixelsSwapped => stores.swap(0, 1),
        Wrong::PixelTwice => {
            let Store::Pixel { picture, index, value } = stores[0] else { panic!("no pixel") };
            stores.insert(0, Store::Pixel { picture, index, value: !value });
        }
        Wrong::PlaceEarly => stores.swap(63, 64),
        Wrong::PixelEarly => stores.swap(64, 65),
        Wrong::PlaceSeldom => stores.retain(|store| match store {
            Store::Place(place) => *place == blocks,
            _ => true,
        }),
        Wrong::ByteBeyond => {
            let store = |value| Store::Pixel { picture: 1, index, value };
            stores.splice(9..9, [store(!value), store(value)]);
        }
    }
    stores
}

/// Makes them, each by an instruction of its own: the compiler may not know where one goes, so that
/// it merges none with the next and changes no order.
pub fn make<const LENT: usize>(stores: &[Store], kept: &mut Kept<LENT>) {
    for &store in stores {
        match store {
            Store::Pixel { index, value, .. } => *hint::black_box(&mut kept.b[index]) = value,
            Store::Place(place) => *hint::black_box(&mut kept.place) = place,
            Store::Palette { .. } | Store::Black { .. } | Store::Word { .. } | Store::State(_) => {
                panic!("a drawing does not store it")
            }
        }
        hint::black_box(&mut *kept);
    }
}

/// A drawing call that is wrong, as a case in which the right one is expected.
pub struct WrongDrawing {
    /// The right one.
    pub right: Drawing,
    /// What is wrong.
    pub wrong: Wrong,
}

impl Case for WrongDrawing {
    fn arguments(&self) -> Vec<String> {
        let mut words = self.right.arguments();
        words.remove(4); // the allowance: there is no limit
        words.remove(1); // the form
        words.splice(..1, ["--wrong".to_string(), format!("{:?}", self.wrong)]);
        words
    }

    fn found(&self) -> &Memory {
        self.right.found()
    }

    fn stores(&self) -> &[Store] {
        self.right.stores()
    }

    fn answer(&self) -> &str {
        self.right.answer()
    }

    fn go_on(&self, left: &Memory) -> Result<(), String> {
        self.right.go_on(left)
    }
}

/// A walk whose states are saved over the old ones, as a case in which the right one is expected.
pub struct SavedInPlace(pub Walk);

impl Case for SavedInPlace {
    fn arguments(&self) -> Vec<String> {
        let mut words = self.0.arguments();
        words[0] = "--in-place".to_string();
        words
    }

    fn found(&self) -> &Memory {
        self.0.found()
    }

    fn stores(&self) -> &[Store] {
        self.0.stores()
    }

    fn answer(&self) -> &str {
        self.0.answer()
    }

    fn go_on(&self, left: &Memory) -> Result<(), String> {
        self.0.go_on(left)
    }
}
