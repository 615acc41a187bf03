//! The boot stage of `examples/boot` on a machine of QEMU that is reset at random moments.
//!
//! The stage writes every picture that it shows to a port, as the display holds it. [`judge`] compares
//! them with those of the second decoder: none is lost, none is torn, they come in order, and the film
//! ends.
//!
//! | Module | What |
//! |---|---|
//! | [`program`] | builds the stage, right or with a planted fault |
//! | [`machine`] | starts QEMU, resets it, reads what the stage writes |
//! | [`watchdog`] | plays a film through random resets |
//! | [`report`] | the messages on the port |
//! | [`judge`] | whether the pictures are those of the second decoder |
//! | [`films`] | the made films |

pub mod films;
pub mod judge;
pub mod machine;
pub mod program;
pub mod report;
pub mod watchdog;
