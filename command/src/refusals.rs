//! Refusals in words: the library's text of the number, or the one of several causes that it is here.

use crate::causes;
use mve::{Error, Refusal, State};
use std::fmt;

/// Where and why a film is refused.
#[derive(Clone, Debug, PartialEq, Eq)]
pub struct Refused {
    pub error: Error,
    /// The head of the chunk or opcode that is refused, counted from the film's first byte.
    pub byte: usize,
    /// The block of the picture, where one is at fault.
    pub block: Option<usize>,
    /// What is wrong, in words: a sentence without its full stop.
    pub words: String,
}

impl Refused {
    /// A refusal of a step that was given this state.
    pub fn new(refusal: Refusal, film: &[u8], state: &State) -> Refused {
        let Refusal { error, block } = refusal;
        let words = causes::cause(film, state, error);
        Refused {
            error,
            byte: state.position,
            block: error.is_of_block().then_some(block),
            words: words.unwrap_or_else(|| error.text().into()),
        }
    }

    /// The refusal of a film's first bytes.
    pub fn at_header(refusal: Refusal) -> Refused {
        Refused::new(refusal, &[], &State::default())
    }

    /// Of a film that ends without a size: the refusal that [`mve::begin`] gives it.
    pub fn without_size(film: &[u8]) -> Refused {
        let refusal = Refusal { error: Error::NoSize, block: 0 };
        Refused::new(refusal, &[], &State { position: film.len(), ..State::default() })
    }

    pub fn number(&self) -> u8 {
        self.error.number()
    }

    /// The number and the place.
    pub fn place(&self) -> String {
        let block = self.block.map(|block| format!(", block {block}")).unwrap_or_default();
        format!("refusal {} at byte {}{block}", self.number(), self.byte)
    }
}

impl fmt::Display for Refused {
    fn fmt(&self, f: &mut fmt::Formatter<'_>) -> fmt::Result {
        write!(f, "{}: {}.", self.place(), self.words)
    }
}

#[cfg(test)]
mod tests {
    use super::*;

    /// Only 12 to 14 speak of a block; of the others the number 0 says nothing. What has one cause has
    /// the library's words.
    #[test]
    fn places() {
        let state = State { position: 30, ..State::default() };
        for &error in Error::ALL {
            let number = error.number();
            let refused = Refused::new(Refusal { error, block: 0 }, &[], &state);
            let is_of_block = (12..=14).contains(&number);
            let block = if is_of_block { ", block 0" } else { "" };
            assert_eq!(refused.place(), format!("refusal {number} at byte 30{block}"));
            if is_of_block {
                assert_eq!(refused.words, error.text());
            }
        }
    }
}
