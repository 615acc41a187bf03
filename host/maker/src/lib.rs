//! Seeded makers of test inputs: packets, films with and without sound, with 8-bit pictures or true colour,
//! film states, lists of drawing calls, pictures to be encoded, and frames of Microsoft Video 1; valid, damaged and hostile. The
//! same seed gives the same bytes for ever, on every machine.
//!
//! [`demo`] is the one film that is made for viewing; [`files`] has its pictures and its sound as files.
//! [`avi`] makes trailers.
//!
//! Packets, films and calls are written from the documents, encoder's side up: what a maker calls
//! valid is so by construction, not because a decoder took it. Only [`states`] uses the second
//! decoder, to walk into the middle of a film, and [`sound`] its table of steps. ([`calls`] has its
//! names for the two forms of a call.) In comments "01" is the scope document, "02" that of the
//! requests; docs/RULES.md has their rules.

pub mod avi;
pub mod beginning;
pub mod calls;
pub mod colours;
pub mod demo;
pub mod encode;
pub mod files;
pub mod film;
pub mod film_damage;
pub mod form;
pub mod packet;
pub mod packet_damage;
pub mod scratches;
pub mod seeded;
pub mod size;
pub mod sound;
pub mod sound_damage;
pub mod states;
pub mod strips;
pub mod trailers;
pub mod true_colour;
pub mod wanted;
pub mod word_calls;
pub mod word_damage;
pub mod words;

pub use form::Form;
pub use packet::{Packet, Profile};
pub use seeded::Seeded;
pub use size::Size;
pub use words::{WordDraft, WordForm, WordProfile};
