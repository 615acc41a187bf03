//! A difference in an opening would be found: the second decoder with a fault takes the proved
//! library's place, and each fault is reported, as what it is, within the first cases that `openings`
//! goes through.

use compare::{
    Answer, Begun, Checked, Comparison, Decoder, Found, Kind, Opened, Part, Second, Walked,
};
use maker::states::Start;
use maker::Packet;
use reference::begin::Unbegun;
use reference::film::{opcode, opcode_head, State};
use reference::sound::Sound;
use reference::{CallForm, Refusal};

const SEED: u64 = 1;
const CASES: u64 = 2000;

/// An opening that was made without fault, for one to be put in.
struct Made<'a> {
    film: &'a [u8],
    found: (Vec<u8>, usize),
    palette: &'a mut [u8],
    place: &'a mut usize,
    answer: Begun,
}

/// The second decoder with a fault in its opening call.
struct Faulty<F>(F);

impl<F: Fn(&mut Made<'_>)> Decoder for Faulty<F> {
    fn name(&self) -> &'static str {
        "faulty decoder"
    }

    fn check(&self, form: CallForm, packet: &Packet) -> Checked {
        Second.check(form, packet)
    }

    fn draw(
        &self,
        form: CallForm,
        packet: &Packet,
        front: &mut [u8],
        back: &mut [u8],
        place: &mut usize,
        allowed: usize,
    ) -> Answer {
        Second.draw(form, packet, front, back, place, allowed)
    }

    fn open(&self, film: &[u8], stream: usize) -> Opened {
        Second.open(film, stream)
    }

    fn begin(&self, film: &[u8], stream: usize, palette: &mut [u8], place: &mut usize) -> Begun {
        let found = (palette.to_vec(), *place);
        let answer = Second.begin(film, stream, palette, place);
        let mut made = Made { film, found, palette, place, answer };
        (self.0)(&mut made);
        made.answer
    }

    fn step(&self, form: CallForm, film: &[u8], walk: &mut Start) -> Walked {
        Second.step(form, film, walk)
    }

    fn shown<'a>(&self, state: &State, a: &'a [u8], b: &'a [u8]) -> &'a [u8] {
        Second.shown(state, a, b)
    }
}

fn compared(fault: impl Fn(&mut Made<'_>)) -> Result<(), Found> {
    Comparison::new(Faulty(fault), Second).run(Kind::Openings, SEED, 0..CASES)
}

/// What a fault is reported as.
#[track_caller]
fn part(fault: impl Fn(&mut Made<'_>)) -> Part {
    compared(fault).expect_err("a difference").difference.part
}

/// The scaffold itself has no fault.
#[test]
fn no_fault() {
    assert_eq!(compared(|_| ()), Ok(()));
}

#[test]
fn answers() {
    // Another number, or another block; 21 for a film that is refused earlier.
    for number in [1, 2, 3, 4, 5, 6, 7, 8, 9, 17, 18, 21] {
        for other in [Refusal::new(number + 1), Refusal::new(21), Refusal::in_block(number, 1)] {
            let fault = |made: &mut Made<'_>| match &mut made.answer {
                Err(unbegun) if unbegun.refusal.number == number => unbegun.refusal = other,
                _ => (),
            };
            if other.number != number || other.block != 0 {
                assert_eq!(part(fault), Part::Answer, "{number} as {other:?}");
            }
        }
    }
    // 19 where samples come before the size.
    let small_room = |made: &mut Made<'_>| {
        if let Ok(state) = made.answer {
            if state.sound.begun {
                made.answer = Err(Unbegun { refusal: Refusal::new(19), state: Some(state) });
            }
        }
    };
    assert_eq!(part(small_room), Part::Answer);
    // Everything is refused.
    let refused = |made: &mut Made<'_>| {
        made.answer = Err(Unbegun { refusal: Refusal::new(1), state: None });
    };
    assert_eq!(part(refused), Part::Answer);
}

#[test]
fn states() {
    let changed = |change: fn(&[u8], State) -> State| {
        let fault = move |made: &mut Made<'_>| {
            made.answer = match made.answer {
                Ok(state) => Ok(change(made.film, state)),
                Err(Unbegun { refusal, state }) => {
                    let state = state.map(|state| change(made.film, state));
                    Err(Unbegun { refusal, state })
                }
            };
        };
        assert_eq!(part(fault), Part::Answer);
    };
    // The state before 05, and one step behind it.
    changed(|film, state| {
        let size = 4..=8;
        let head = |length: usize| {
            let at = state.position.checked_sub(4 + length)?;
            let head = opcode_head(film, at, state.chunk_end).ok()?;
            (head.kind == opcode::INIT_VIDEO && head.body.length == length).then_some(at)
        };
        match size.into_iter().find_map(head) {
            Some(position) if state.columns > 0 => State { position, columns: 0, rows: 0, ..state },
            _ => state,
        }
    });
    changed(|film, state| match opcode_head(film, state.position, state.chunk_end) {
        Ok(head) => State { position: head.body.start + head.body.length, ..state },
        Err(_) => state,
    });
    // The pending map lost, and the last samples not decoded.
    changed(|_, state| State { map: None, ..state });
    changed(|_, state| State { sound: Sound { left: 0, right: 0, ..state.sound }, ..state });
    changed(|_, state| State { sound: Sound { begun: false, ..state.sound }, ..state });
    // A refusal that does not tell where.
    let nowhere = |made: &mut Made<'_>| {
        if let Err(unbegun) = &mut made.answer {
            unbegun.state = None;
        }
    };
    assert_eq!(part(nowhere), Part::Answer);
}

#[test]
fn lent() {
    // Changed by a refused opening.
    let refused_stores = |made: &mut Made<'_>| {
        if let (Err(_), Some(byte)) = (made.answer, made.palette.first_mut()) {
            *byte ^= 1;
        }
    };
    assert_eq!(part(refused_stores), Part::Palette(0));
    let refused_sets = |made: &mut Made<'_>| {
        if made.answer.is_err() {
            *made.place = 0;
        }
    };
    assert_eq!(part(refused_sets), Part::Place);
    // Not changed where the steps change it.
    let palette = |made: &mut Made<'_>| made.palette.copy_from_slice(&made.found.0);
    assert!(matches!(part(palette), Part::Palette(_)));
    assert_eq!(part(|made| *made.place = made.found.1), Part::Place);
}
