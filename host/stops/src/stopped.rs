//! The process that is stopped: what it does with the memory that it is given.

use crate::cases::{form_named, hex_bytes, own_form};
use crate::ffi;
use crate::kept::{Kept, Lent};
use crate::once;
use crate::opening;
use crate::wrong::{self, Wrong};
use mve::numbers::{self, kind};
use mve::{Drawn, State, ROOM_BYTES};
use reference::CallForm;
use std::io;

/// The bytes or words of each picture that are lent to a process that is stepped: more than the pixels of any
/// frame that is drawn there.
pub const LENT: usize = 600;

/// Runs a case with these arguments, as [`crate::cases::Case`] gives them, between two stops. What it
/// answers.
pub fn run(arguments: &[String]) -> io::Result<String> {
    let words: Vec<&str> = arguments.iter().map(String::as_str).collect();
    let kept = Kept::<LENT>::given()?;
    ffi::trace_me()?;
    match words[..] {
        ["--draw", form, columns, rows, allowed, map, data] => {
            let [columns, rows, allowed] = [columns, rows, allowed].map(number);
            let (map, data) = (hex_bytes(map), hex_bytes(data));
            let draw = match form_named(form) {
                CallForm::Default => mve::draw,
                CallForm::Strict => mve::draw_strict,
            };
            ffi::stop();
            kept.enter();
            let Kept { a, b, place, .. } = &mut *kept;
            let drawn = draw(columns, rows, &map, &data, a, b, place, allowed);
            kept.leave();
            ffi::stop();
            Ok(match drawn.map_err(io::Error::other)? {
                Drawn::Whole { stores, .. } => format!("whole {stores}\n"),
                Drawn::Unfinished { stores, .. } => format!("unfinished {stores}\n"),
            })
        }
        ["--draw-words", form, columns, rows, allowed, map, data] => {
            let [columns, rows, allowed] = [columns, rows, allowed].map(number);
            let (map, data) = (hex_bytes(map), hex_bytes(data));
            let draw = match form_named(form) {
                CallForm::Default => mve::draw_words,
                CallForm::Strict => mve::draw_words_strict,
            };
            ffi::stop();
            kept.enter();
            let Kept { words: [last, new, oldest], place, .. } = &mut *kept;
            let drawn = draw(columns, rows, &map, &data, last, oldest, new, place, allowed);
            kept.leave();
            ffi::stop();
            Ok(match drawn.map_err(io::Error::other)? {
                Drawn::Whole { stores, .. } => format!("whole {stores}\n"),
                Drawn::Unfinished { stores, .. } => format!("unfinished {stores}\n"),
            })
        }
        [saving @ ("--film" | "--in-place"), form, allowed, film] => {
            let (form, allowed, film) = (form_named(form), number(allowed), hex_bytes(film));
            let save = if saving == "--film" { Kept::save } else { Kept::save_in_place };
            ffi::stop();
            let steps = walk(form, kept, &film, allowed, save, |_, _| Ok(()))?;
            ffi::stop();
            Ok(format!("ended after {steps} steps\n"))
        }
        ["--once", form, allowed, film] => {
            once::run(form_named(form), number(allowed), &hex_bytes(film), kept)
        }
        ["--begin", stream, film] => {
            let (stream, film) = (number(stream), hex_bytes(film));
            let mut written = [0; numbers::STEPPED_NUMBERS];
            ffi::stop();
            kept.enter();
            let Lent { out, palette, place, .. } = kept.lent();
            let kind = numbers::begin(&film, stream, out, palette, place);
            written.copy_from_slice(out);
            kept.leave();
            if kind == kind::TAKEN {
                kept.save();
            }
            ffi::stop();
            Ok(opening::answer(&written))
        }
        ["--wrong", name, columns, rows, map, data] => {
            let wrong = Wrong::named(name).expect("a wrong program");
            let [columns, rows] = [columns, rows].map(number);
            let stores =
                wrong::stores(wrong, kept, columns, rows, &hex_bytes(map), &hex_bytes(data));
            ffi::stop();
            kept.enter();
            wrong::make(&stores, kept);
            kept.leave();
            ffi::stop();
            Ok(format!("whole {}\n", stores.len()))
        }
        _ => Err(io::Error::other("arguments of no case")),
    }
}

fn number(word: &str) -> usize {
    word.parse().expect("a number")
}

/// Walks over a film from the saved state to its end, by steps of this form, as the example players do
/// in the default form: from the state of the one answer to the other, and a picture that the film sends
/// is sent before the new state is saved. How many steps it took.
pub fn walk<const LENT: usize>(
    form: CallForm,
    kept: &mut Kept<LENT>,
    film: &[u8],
    allowed: usize,
    save: impl Fn(&mut Kept<LENT>),
    mut send: impl FnMut(&Kept<LENT>, &State) -> io::Result<()>,
) -> io::Result<usize> {
    // It need not outlive a stop: a step that is taken again writes the same samples.
    let mut room = vec![0; ROOM_BYTES];
    let form = own_form(form).number();
    for steps in 1.. {
        kept.enter();
        let Lent { from, out, palette, mut pictures, place } = kept.lent();
        let (pictures, room) = (&mut pictures, &mut room);
        let kind = numbers::step(film, from, out, palette, pictures, place, room, allowed, form);
        kept.leave();
        match kind {
            kind::UNFINISHED => {}
            kind::ENDED => return Ok(steps),
            kind::TAKEN | kind::WHOLE => {
                let [Some(before), Some(next)] = kept.states().map(State::from_numbers) else {
                    return Err(io::Error::other("numbers that are no state"));
                };
                if mve::is_sent(&before, &next) {
                    send(kept, &next)?;
                }
                save(kept);
            }
            refused => return Err(io::Error::other(format!("the step is answered {refused}"))),
        }
    }
    unreachable!("no film has so many steps")
}
