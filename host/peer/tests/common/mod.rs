//! What every test here begins with.

use peer::libav;
use std::io::{self, Write};
use std::sync::Once;

/// Whether films can be played by libavformat and libavcodec. Where they cannot, it says so, once.
pub fn is_there() -> bool {
    static TOLD: Once = Once::new();
    let Err(why) = libav::versions() else { return true };
    TOLD.call_once(|| {
        // Not by a macro: the harness would keep it to itself.
        let told = format!("{why}: nothing is compared with it\n");
        io::stderr().write_all(told.as_bytes()).expect("standard error");
    });
    false
}
