//! The proved library stopped in its compiled code, as a watchdog stops it: between any two machine
//! instructions.
//!
//! What is lent to the library lies in memory that two processes share. One calls `mve_draw` or
//! `mve_draw_words`, opens a film by `mve_begin` or walks over one by `mve_step`, in either form; films are
//! of both kinds ([`words`] has the drawings with true colour). Two answers lie in that memory, too, and
//! are used in turn: the saved state goes in from the one, and the other is written. The other process
//! steps it, machine instruction by machine instruction, and looks at the memory after each ([`watch`]): it
//! must be as a prefix of the listed stores leaves it, the saved state included, which no call may write;
//! and the call made anew on a copy of it must end as if nothing had been stopped. What stands in the answer
//! that is being written is the host's own matter. The list and what the calls end with are the second
//! decoder's ([`list`], [`cases`]). Or it kills the process at a random moment and starts the next one, which
//! goes on ([`kills`]).
//!
//! `tests/` has what the gate runs, and [`wrong`] programs that are wrong on purpose, which must be
//! noticed. `stops SEED COUNT` steps more cases, and kills more, by hand. It needs x86-64 Linux and
//! leave to trace a child process.

pub mod cases;
mod ffi;
pub mod kept;
pub mod kills;
pub mod list;
pub mod made;
pub mod once;
pub mod opening;
pub mod stopped;
pub mod watch;
pub mod words;
pub mod wrong;
