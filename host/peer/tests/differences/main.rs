//! The places where libavformat and libavcodec differ from the documents, as docs/PEERS.md lists them:
//! a film or a frame for each, what the documents say of it, and what libavformat and libavcodec make of it. A
//! test fails, too, where libav no longer differs as it says.

#[cfg(libav)]
mod chunks;
#[cfg(libav)]
mod colours;
#[cfg(libav)]
mod hand;
#[cfg(libav)]
mod pictures;
#[cfg(libav)]
mod sounds;
#[cfg(libav)]
mod trailers;
#[cfg(libav)]
mod words;

#[cfg(not(libav))]
#[path = "../common/mod.rs"]
mod common;

/// It says that nothing is compared.
#[cfg(not(libav))]
#[test]
fn libav_is_missing() {
    assert!(!common::is_there());
}
