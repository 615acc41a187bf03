//! The proved player core for Interplay MVE films, with 8-bit pictures or true colour and with sound, for Rust
//! programs.
//!
//! The core is a static library whose contracts are proved. This crate hands each call on to it and
//! gives its answers names. It decides nothing, allocates nothing and needs no standard library. Every
//! function takes any input and answers it; a refused call leaves everything lent to it as it was, but
//! for the answer of [`numbers`]. None panics, unless another version of the library is linked than the
//! one this crate is written for.
//!
//! A film is played in memory that the host lends, step by step:
//!
//! ```
//! use mve::{Event, Memory, Pictures, Player, PALETTE_BYTES, PICTURE_BYTES, ROOM_BYTES};
//!
//! // A film of one frame of one block: a timer, a colour, the size, a map, the block's colour, and
//! // 0x07, which sends it.
//! let film = [
//!     &b"Interplay MVE File\x1A\0\x1A\0\0\x01\x33\x11"[..],
//!     &[33, 0, 2, 0, 6, 0, 0x02, 0, 0x50, 0xC3, 0, 0, 2, 0],
//!     &[7, 0, 0x0c, 0, 0x2a, 0, 1, 0, 0, 32, 63],
//!     &[4, 0, 0x05, 0, 1, 0, 1, 0, 0, 0, 0x01, 0],
//!     &[0x24, 0, 3, 0, 1, 0, 0x0f, 0, 0x0e, 15, 0, 0x11, 0],
//!     &[0; 14],
//!     &[0x2a, 4, 0, 0x07, 0, 0, 0, 0, 0, 0, 0, 0x01, 0],
//! ]
//! .concat();
//!
//! let (mut palette, mut room) = ([0; PALETTE_BYTES], vec![0; ROOM_BYTES]);
//! let (mut a, mut b, mut place) = (vec![0; PICTURE_BYTES], vec![0; PICTURE_BYTES], 0);
//! let memory = Memory {
//!     palette: &mut palette,
//!     pictures: Pictures::bytes(&mut a, &mut b), // of an 8-bit film; `Memory` shows how to lend both kinds
//!     place: &mut place,
//!     room: &mut room,
//! };
//! let mut player = Player::open(&film, 0, memory)?; // not `begin`: a timer may come before the size
//! let (mut pictures, mut now, mut stays) = (0, 0, 66_728); // in microseconds; the usual time at first
//! while let Some(event) = player.step()? {
//!     match event {
//!         Event::Timer(microseconds) => stays = microseconds,
//!         Event::Picture(picture) => {
//!             assert_eq!((picture.width(), picture.height()), (8, 8));
//!             assert!(picture.rgb().eq([[0, 130, 255]; 64])); // show these pixels, when `now` has come
//!             now += stays;
//!             pictures += 1;
//!         }
//!         Event::Samples(samples) => println!("{} bytes to play", samples.bytes.len()),
//!         Event::Taken | Event::Drawn(_) | Event::Unfinished => {}
//!     }
//! }
//! assert_eq!((pictures, now), (1, 100_000));
//! # Ok::<(), Box<dyn std::error::Error>>(())
//! ```
//!
//! Below the player are the library's calls: [`begin`] opens a film and steps until its size is known,
//! [`open`] only opens it, [`step`] takes it chunk by chunk and opcode by opcode, keeping the palette,
//! drawing the pictures and writing the samples to what is lent to it, [`is_sent`] tells whether a step
//! sent a picture, and [`shown`] is the picture to show, of a film with true colour [`shown_words`].
//! [`timer`] reads how long a picture stays, and [`widened`], [`widened_5`], [`colour`] and [`word_colour`] give
//! colours of 8 bits; these five are not proved.
//!
//! A frame comes as a packet: a map with a code for each 8x8 block, and the blocks' data. [`check`]
//! tells whether a packet is valid, [`draw`] draws it, at once or in pieces. Both, and [`step`], tell
//! the [`Rows`] of blocks that the packet touches, so that a display with a slow link need not be sent
//! the others. [`check_words`] and [`draw_words`] are those of a packet with true colour. [`origin`] tells
//! which byte or pixel gave a pixel of an 8-bit packet its value.
//!
//! [`salvage`] saves what is left of a scratched film. [`strip`] drops what a player of one stream passes
//! over. [`encode`] makes map and packet of a picture of one's own. [`video1`](video1()) draws a frame of
//! Microsoft Video 1, so that it can be stored in a film.
//!
//! Many films pad a packet to an even length, so these calls accept one byte left over behind the
//! blocks' data. [`check_strict`], [`draw_strict`] and [`step`] in [`Form::Strict`] accept none: they are
//! for those who make films and want every byte accounted for. A player uses the default forms.
//!
//! [`numbers`] has the film's calls with states and answers as numbers, as C has them.
//!
//! ```
//! // One block of code 7: two colours, a bit for each 2x2 pixels.
//! let (map, data) = ([0x07], [0x22, 0x11, 0xff, 0x81]);
//! let front = [0; 64];
//! let (mut back, mut place) = ([0; 64], 0);
//! let drawn = mve::draw(1, 1, &map, &data, &front, &mut back, &mut place, 312_000)?;
//! let rows = Some(mve::Rows { first: 0, last: 0 });
//! assert_eq!(drawn, mve::Drawn::Whole { stores: 65, rows });
//! assert_eq!(back[..32], [0x11; 32]);
//! for row in back[32..48].chunks(8) {
//!     assert_eq!(row, [0x11, 0x11, 0x22, 0x22, 0x22, 0x22, 0x22, 0x22]);
//! }
//! for row in back[48..].chunks(8) {
//!     assert_eq!(row, [0x22, 0x22, 0x22, 0x22, 0x22, 0x22, 0x11, 0x11]);
//! }
//! # Ok::<(), mve::Refusal>(())
//! ```

#![no_std]

#[cfg(test)]
extern crate std;

/// The example of the README is compiled with the others.
#[cfg(doctest)]
#[doc = include_str!("../README.md")]
struct Readme;

mod answer;
mod begin;
mod colour;
mod encode;
mod ffi;
mod film;
mod form;
pub mod numbers;
mod origin;
mod packet;
mod pictures;
mod player;
mod refusal;
mod rows;
mod salvage;
mod strip;
mod timer;
mod video1;
mod words;

pub use begin::{begin, Unbegun};
pub use colour::{colour, widened, widened_5, word_colour};
pub use encode::{encode, Encoded, BODY_BYTES, MAP_BYTES};
pub use film::{is_sent, open, shown, shown_words, step, Sound, State, Step};
pub use film::{NO_STREAM, PALETTE_BYTES, PICTURE_BYTES, PICTURE_WORDS, ROOM_BYTES};
pub use form::Form;
pub use origin::{origin, Origin, Traced};
pub use packet::{check, check_strict, draw, draw_strict, Drawn};
pub use packet::{ALL_STORES, BLOCK_STORES, PALETTE_STORES};
pub use pictures::Pictures;
pub use player::{Event, Memory, Picture, Player, RefusedAt, Samples};
pub use refusal::{Error, Refusal};
pub use rows::Rows;
pub use salvage::{salvage, LeftOut, Salvaged, Stop, LOSS_NUMBERS};
pub use strip::strip;
pub use timer::timer;
pub use video1::video1;
pub use words::{check_words, check_words_strict, draw_words, draw_words_strict};

/// The version of the interface that this crate is written for: C's `MVE_VERSION`.
pub const VERSION: usize = 16;
