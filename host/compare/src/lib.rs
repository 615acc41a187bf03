//! Compares the proved player core with the second decoder, call by call.
//!
//! Both are [`Decoder`]s. A [`Comparison`] gives them the same seeded cases and compares whatever
//! can be seen of each call: the answer with its number, block, count and rows, the place, and every
//! byte of both pictures; outside the rows told these must be as the call found them. Lists of drawing
//! calls are compared with the book of demand 3, too, and so are those of packets with true colour
//! ([`words`]). Films, with sound or without, are compared step by
//! step, with their state, palette, room and shown picture. Packets are checked in both forms, and
//! calls and steps are of either. The first thing that differs ends it, with the seed and the number of
//! the case; a [`Tally`] counts what the cases reached.
//!
//! Openings up to the size are compared as one call, and [`Separate`] makes them by separate calls.
//! [`cuts`] plays films whose steps are cut and called again.
//!
//! [`FromDefault`] is the strict form as it follows from the default one: with it the strict form of a
//! decoder is compared. [`origins`] compares where pixels come from, [`salvages`] what is left of
//! scratched films, [`strips`] films without what the player passes over, and plays them, [`encodes`] map
//! and packet of wanted pictures, [`trailers`] frames of Microsoft Video 1. [`numbers`] compares the film's
//! calls with states and answers as numbers of any count, as they cross to C.
//!
//! In comments "01" is the scope document, "02" that of the requests; docs/RULES.md has
//! their rules.

pub mod begin;
pub mod cases;
pub mod comparison;
pub mod cuts;
pub mod decoder;
pub mod difference;
pub mod encodes;
mod film;
pub mod forms;
pub mod numbers;
pub mod origins;
pub mod salvages;
pub mod strips;
pub mod tally;
pub mod trailers;
pub mod words;

pub use begin::Separate;
pub use comparison::{Comparison, Found, Kind};
pub use cuts::CutFilm;
pub use decoder::{Answer, Begun, Checked, Decoder, Opened, Proved, Second, Step, Walked};
pub use difference::{Difference, Part};
pub use forms::FromDefault;
pub use tally::{Event, Tally, Touched, Unparted};
