//! The rows of blocks that were touched since a picture was last sent.

use mve::{Rows, State};

/// Of each of the film's pictures, which are two or with true colour three, the rows touched since it was
/// last sent, if any. A display that keeps a copy of each picture, as it was last sent, lacks these rows of it
/// and no other.
#[derive(Clone, Copy)]
pub struct Unsent([Option<Rows>; 3]);

impl Unsent {
    /// Before the first drawing: the pictures are as the display has them.
    pub const NONE: Unsent = Unsent([None; 3]);

    /// Joins the rows of a packet that was drawn from this state: of two pictures on the other one than the
    /// front, of three on the one behind it.
    pub fn touch(&mut self, state: &State, rows: Option<Rows>) {
        let pictures = if state.true_colour { 3 } else { 2 };
        let kept = &mut self.0[(state.front + 1) % pictures];
        *kept = match (*kept, rows) {
            (Some(kept), Some(rows)) => Some(kept.joined(rows)),
            (kept, rows) => kept.or(rows),
        };
    }

    /// The rows to send of the picture that is now front. Then it lacks none.
    pub fn send(&mut self, front: usize) -> Option<Rows> {
        self.0[front].take()
    }
}
