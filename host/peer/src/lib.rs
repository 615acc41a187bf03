//! Whole films beside the players that people have: libavformat splits a seeded film into packets and
//! libavcodec decodes them, and every picture, every colour and every sample is compared with those of
//! the proved library. [`trailers`] does the same with frames of Microsoft Video 1 and libavcodec.
//!
//! docs/PEERS.md lists the places where libavformat and libavcodec differ from the documents; the
//! tests have a case for each. In comments "01" is the scope document, "02" that of the requests,
//! "003" the source document of the file, "001" that of Microsoft Video 1; docs/RULES.md says what these are.

pub mod comparison;
#[cfg(libav)]
mod ffi;
pub mod film;
pub mod libav;
pub mod ours;
pub mod played;
pub mod strips;
pub mod trailers;
