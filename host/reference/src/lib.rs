//! A second decoder for Interplay MVE films, with 8-bit pictures or true colour, and sound.
//!
//! It is written from the documents alone and shares nothing with the player core that is compared
//! with it: straightforward rather than fast, one short function for each rule. In comments "01"
//! is the scope document with the requests of document "02", which decide over source document
//! "003" (the file), which decides over source document "000" (the blocks); source document "001" is
//! that of Microsoft Video 1.
//!
//! Every function takes plain slices and numbers and answers on any input; none of them wraps
//! around or panics. A refused call leaves everything lent to it as it was.
//!
//! | Module | Rules |
//! |---|---|
//! | [`frame`] | frame sizes and the grid of 8x8 blocks |
//! | [`block`] | one block: data length, motion vector, source of each pixel |
//! | [`packet`] | map and data of one frame: checking and drawing |
//! | [`word_block`] | one block with true colour: its bytes and its pixels |
//! | [`word_packet`] | map and packet of one frame with true colour: checking and drawing |
//! | [`origin`] | where the value of a pixel comes from |
//! | [`book`] | what a list of drawing calls must do, worked out without drawing |
//! | [`palette`] | opcodes 0B, 0C, 0D |
//! | [`sound`] | opcodes 03, 08, 09 |
//! | [`steps`] | the table of compressed sound |
//! | [`film`] | header, chunks, opcodes, one step, the shown picture |
//! | [`begin`] | opening, and stepping until there is a size |
//! | [`cuts`] | the stores of a step in one list, and films played through cuts |
//! | [`numbers`] | the film's calls with states and answers as numbers of any count |
//! | [`salvage`] | what is left of a scratched film |
//! | [`strip`] | a film without what the player passes over |
//! | [`encode`] | map and packet of a wanted picture |
//! | [`video1`] | frames of Microsoft Video 1 |
//! | [`listing`] | the text that the listing program writes |
//! | [`pictures`] | the pictures that a film sends, as the example players write them |

pub mod begin;
pub mod block;
pub mod book;
pub mod cuts;
pub mod encode;
pub mod film;
pub mod frame;
pub mod listing;
pub mod numbers;
pub mod origin;
pub mod packet;
pub mod palette;
pub mod pictures;
pub mod refusal;
pub mod salvage;
pub mod sound;
pub mod steps;
pub mod strip;
pub mod video1;
pub mod word_block;
pub mod word_packet;

pub use block::{source, Source};
pub use origin::{origin, Origin, Traced};
pub use packet::{check, check_as, draw, draw_as, CallForm, Drawn, Rows};
pub use refusal::Refusal;
pub use word_packet::{check_words, check_words_as, draw_words, draw_words_as};
