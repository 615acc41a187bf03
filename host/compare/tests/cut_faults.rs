//! A difference in a film that is played through cuts would be found (02, W11): the second decoder with a
//! fault takes the proved library's place, and each fault is reported, as what it is, within the first
//! films that `cuts` goes through.

use compare::{
    Answer, Begun, Checked, Comparison, CutFilm, Decoder, Difference, Kind, Opened, Part, Second,
    Step, Walked,
};
use maker::states::{self, Start};
use maker::{colours, Packet, Seeded};
use reference::cuts::{listed, Memory, Store};
use reference::film::{opcode, opcode_head, OpcodeHead, State};
use reference::palette;
use reference::CallForm;

const FILMS: u64 = 60;

/// A step that was taken without fault, for one to be put in.
struct Made<'a> {
    film: &'a [u8],
    /// The opcode that it is at.
    head: OpcodeHead,
    /// The stores that are due.
    stores: Vec<Store>,
    found: Start,
    left: &'a mut Start,
    answer: Walked,
}

impl Made<'_> {
    fn is_palette(&self) -> bool {
        let kinds = [opcode::GRADIENT, opcode::PALETTE, opcode::PALETTE_COMPRESSED];
        kinds.contains(&self.head.kind)
    }

    /// Makes so many of other stores instead.
    fn make(&mut self, stores: &[Store], made: usize) {
        let memory = memory(&self.found).cut(stores, made);
        (self.left.palette, self.left.place) = (memory.palette, memory.place);
    }

    /// As many of other stores as were made.
    fn make_others(&mut self, stores: &[Store]) {
        let made = self.stores.len().min(self.found.allowed);
        self.make(stores, made);
    }

    fn runs_short(&self) -> bool {
        self.found.allowed < self.stores.len()
    }

    /// The bytes of the film that are the opcode's body.
    fn body(&self) -> &[u8] {
        self.head.body.of(self.film).expect("inside the film")
    }
}

fn memory(start: &Start) -> Memory {
    let Start { palette, picture_a, picture_b, place, words, .. } = start.clone();
    Memory { palette, pictures: [picture_a, picture_b], words, place }
}

/// The second decoder with a fault in its steps over opcodes.
struct Faulty<F>(F);

impl<F: Fn(&mut Made<'_>)> Decoder for Faulty<F> {
    fn name(&self) -> &'static str {
        "faulty decoder"
    }

    fn check(&self, form: CallForm, packet: &Packet) -> Checked {
        Second.check(form, packet)
    }

    fn draw(
        &self,
        form: CallForm,
        packet: &Packet,
        front: &mut [u8],
        back: &mut [u8],
        place: &mut usize,
        allowed: usize,
    ) -> Answer {
        Second.draw(form, packet, front, back, place, allowed)
    }

    fn open(&self, film: &[u8], stream: usize) -> Opened {
        Second.open(film, stream)
    }

    fn begin(&self, film: &[u8], stream: usize, palette: &mut [u8], place: &mut usize) -> Begun {
        Second.begin(film, stream, palette, place)
    }

    fn step(&self, form: CallForm, film: &[u8], walk: &mut Start) -> Walked {
        let found = walk.clone();
        let answer = Second.step(form, film, walk);
        let State { position, chunk_end, .. } = found.state;
        let Ok(head) = opcode_head(film, position, chunk_end) else { return answer };
        let stores = listed(form, film, &found.state, &memory(&found));
        let mut made = Made { film, head, stores, found, left: walk, answer };
        (self.0)(&mut made);
        made.answer
    }

    fn shown<'a>(&self, state: &State, a: &'a [u8], b: &'a [u8]) -> &'a [u8] {
        Second.shown(state, a, b)
    }
}

fn compared(fault: impl Fn(&mut Made<'_>)) -> Result<(), Difference> {
    let mut comparison = Comparison::new(Faulty(fault), Second);
    for seed in 0..FILMS {
        let rng = &mut Seeded::new(seed);
        let frames = rng.below(3);
        let film = colours::film(rng, frames);
        let start = states::opening(rng, &film);
        let case = CutFilm { film: film.bytes(), form: CallForm::Default, start };
        comparison.cut_each_step(&case, None)?;
        comparison.cut_at_random(&case, seed, 2)?;
    }
    Ok(())
}

/// What a fault is reported as.
#[track_caller]
fn part(fault: impl Fn(&mut Made<'_>)) -> Part {
    compared(fault).expect_err("a difference").part
}

/// The scaffold itself has no fault.
#[test]
fn no_fault() {
    assert_eq!(compared(|_| ()), Ok(()));
}

/// As it was before the request: every step but a drawing ignores the allowance and counts nothing.
#[test]
fn limits_drawing_alone() {
    let unlimited = |made: &mut Made<'_>| {
        if made.is_palette() && made.answer.is_ok() {
            made.left.clone_from(&made.found);
            made.left.allowed = usize::MAX;
            let taken = Second.step(CallForm::Default, made.film, made.left);
            made.answer = taken.map(|_| Step::Taken(0, 0));
        }
    };
    assert_eq!(part(unlimited), Part::Answer);
    let not_counted = |made: &mut Made<'_>| {
        if let Ok(Step::Taken(_, bytes)) = made.answer {
            made.answer = Ok(Step::Taken(0, bytes));
        }
    };
    assert_eq!(part(not_counted), Part::Answer);
}

#[test]
fn stores_all_whatever_is_allowed() {
    let all = |made: &mut Made<'_>| {
        if made.is_palette() && made.runs_short() {
            let (stores, count) = (made.stores.clone(), made.stores.len());
            made.make(&stores, count);
        }
    };
    assert!(matches!(part(all), Part::Palette(_)));
}

#[test]
fn stores_nothing_where_it_runs_short() {
    let none = |made: &mut Made<'_>| {
        if made.is_palette() && made.runs_short() {
            made.make(&[], 0);
        }
    };
    assert!(matches!(part(none), Part::Palette(_)));
}

#[test]
fn an_unfinished_palette_moves_the_state() {
    let moves = |made: &mut Made<'_>| {
        if made.is_palette() && made.runs_short() {
            made.left.state.position = made.head.body.start + made.head.body.length;
        }
    };
    assert_eq!(part(moves), Part::State);
}

#[test]
fn a_map_with_nothing_allowed() {
    let taken = |made: &mut Made<'_>| {
        if made.head.kind == opcode::MAP && made.found.allowed == 0 {
            made.left.allowed = 1;
            made.answer = Second.step(CallForm::Default, made.film, made.left);
        }
    };
    assert_eq!(part(taken), Part::Answer);
    let stores = |made: &mut Made<'_>| {
        if made.head.kind == opcode::MAP {
            made.left.place = 0;
        }
    };
    assert_eq!(part(stores), Part::Place);
}

/// Each group of 0D gets the whole allowance.
#[test]
fn groups_with_an_allowance_each() {
    let group = |store: &Store| match store {
        Store::Colour(palette::Store { index, .. }) => index / 24,
        _ => 0,
    };
    let each = |made: &mut Made<'_>| {
        if made.head.kind == opcode::PALETTE_COMPRESSED && made.runs_short() {
            let groups = made.stores.chunk_by(|one, next| group(one) == group(next));
            let first = groups.flat_map(|stores| stores.iter().take(made.found.allowed));
            let first: Vec<Store> = first.copied().collect();
            made.make(&first, first.len());
        }
    };
    assert!(matches!(part(each), Part::Palette(_)));
}

/// Each gradient of 0B gets the whole allowance.
#[test]
fn gradients_with_an_allowance_each() {
    let each = |made: &mut Made<'_>| {
        if made.head.kind == opcode::GRADIENT && made.runs_short() {
            let red_blue = 3 * usize::from(made.body()[1]) * usize::from(made.body()[2]);
            let (first, second) = made.stores.split_at(red_blue);
            let allowed = made.found.allowed;
            let both = first.iter().take(allowed).chain(second.iter().take(allowed));
            let both: Vec<Store> = both.copied().collect();
            made.make(&both, both.len());
        }
    };
    assert!(matches!(part(each), Part::Palette(_)));
}

#[test]
fn counts() {
    let whole_list = |made: &mut Made<'_>| {
        if made.is_palette() && made.runs_short() {
            made.answer = Ok(Step::Unfinished(made.stores.len(), None));
        }
    };
    assert_eq!(part(whole_list), Part::Answer);
    let entries = |made: &mut Made<'_>| {
        if let (true, Ok(Step::Taken(stores, bytes))) = (made.is_palette(), made.answer) {
            made.answer = Ok(Step::Taken(stores / 3, bytes));
        }
    };
    assert_eq!(part(entries), Part::Answer);
    // An entry that both gradients have, counted once.
    let once = |made: &mut Made<'_>| {
        if let (opcode::GRADIENT, Ok(Step::Taken(_, bytes))) = (made.head.kind, made.answer) {
            let mut bytes_stored: Vec<usize> =
                made.stores.iter().filter_map(|store| byte(*store)).collect();
            bytes_stored.sort_unstable();
            bytes_stored.dedup();
            made.answer = Ok(Step::Taken(bytes_stored.len(), bytes));
        }
    };
    assert_eq!(part(once), Part::Answer);
    // With just enough stores it is still unfinished.
    let one_more = |made: &mut Made<'_>| {
        let just_enough = made.found.allowed == made.stores.len() && made.found.allowed > 0;
        if made.is_palette() && just_enough {
            made.left.state = made.found.state;
            made.answer = Ok(Step::Unfinished(made.stores.len(), None));
        }
    };
    assert_eq!(part(one_more), Part::Answer);
}

fn byte(store: Store) -> Option<usize> {
    match store {
        Store::Colour(palette::Store { index, .. }) => Some(index),
        _ => None,
    }
}

/// The same stores in another order.
#[test]
fn orders() {
    let ordered = |order: fn(&mut Made<'_>, &mut Vec<Store>)| {
        part(move |made: &mut Made<'_>| {
            let mut stores = made.stores.clone();
            if made.is_palette() && made.answer.is_ok() {
                order(made, &mut stores);
                made.make_others(&stores);
            }
        })
    };
    let found = [
        ordered(|_, stores| stores.reverse()),
        // Blue, green, red.
        ordered(|_, stores| stores.chunks_mut(3).for_each(<[Store]>::reverse)),
        // All reds first.
        ordered(|_, stores| stores.sort_by_key(|store| byte(*store).unwrap_or(0) % 3)),
        // Red-green first.
        ordered(|made, stores| {
            if made.head.kind == opcode::GRADIENT {
                let red_blue = 3 * usize::from(made.body()[1]) * usize::from(made.body()[2]);
                stores.rotate_left(red_blue);
            }
        }),
        // By entries, whichever gradient they are of.
        ordered(|_, stores| stores.sort_by_key(|store| byte(*store))),
    ];
    assert!(found.iter().all(|part| matches!(part, Part::Palette(_))), "{found:?}");
}

/// A palette that keeps how far it came in the place.
#[test]
fn a_palette_that_uses_the_place() {
    let kept = |made: &mut Made<'_>| {
        if made.is_palette() && made.runs_short() {
            made.left.place = made.found.allowed;
        }
    };
    assert_eq!(part(kept), Part::Place);
}

/// A step that was cut and is called again comes to something else: where it finds its own stores made,
/// it takes the opcode for done before.
#[test]
fn called_again() {
    let done = |made: &mut Made<'_>| {
        let first = made.stores.first().copied();
        let stands = first.is_some_and(|store| {
            let mut memory = memory(&made.found);
            let before = memory.clone();
            memory.make(store);
            memory == before
        });
        if made.head.kind == opcode::PALETTE && stands && made.found.allowed == 312_000 {
            made.left.palette.clone_from(&made.found.palette);
        }
    };
    assert!(matches!(part(done), Part::Palette(_)));
}

/// An opening that allows 768 stores a step and goes on behind an opcode that has more.
#[test]
fn an_opening_that_allows_768() {
    struct Allows768;
    impl Decoder for Allows768 {
        fn name(&self) -> &'static str {
            "768 stores a step"
        }
        fn check(&self, form: CallForm, packet: &Packet) -> Checked {
            Second.check(form, packet)
        }
        fn draw(
            &self,
            form: CallForm,
            packet: &Packet,
            front: &mut [u8],
            back: &mut [u8],
            place: &mut usize,
            allowed: usize,
        ) -> Answer {
            Second.draw(form, packet, front, back, place, allowed)
        }
        fn open(&self, film: &[u8], stream: usize) -> Opened {
            Second.open(film, stream)
        }
        fn begin(
            &self,
            film: &[u8],
            stream: usize,
            palette: &mut [u8],
            place: &mut usize,
        ) -> Begun {
            let (mut right, mut right_place) = (palette.to_vec(), *place);
            let answer = Second.begin(film, stream, &mut right, &mut right_place)?;
            *place = right_place;
            let (room, allowed) = (vec![0; states::ENOUGH_ROOM], 768);
            let (picture_a, picture_b) = (Vec::new(), Vec::new());
            let state = Second.open(film, stream).expect("a film that is begun");
            let palette_left = palette.to_vec();
            let mut walk = Start {
                state,
                palette: palette_left,
                picture_a,
                picture_b,
                place: 0,
                room,
                words: Default::default(),
                allowed,
            };
            while walk.state.columns == 0 {
                let State { position, chunk_end, .. } = walk.state;
                if let Ok(Step::Unfinished(..)) = self.step(CallForm::Default, film, &mut walk) {
                    let head = opcode_head(film, position, chunk_end).expect("an opcode");
                    walk.state.position = head.body.start + head.body.length;
                }
            }
            palette.copy_from_slice(&walk.palette);
            Ok(answer)
        }
        fn step(&self, form: CallForm, film: &[u8], walk: &mut Start) -> Walked {
            Second.step(form, film, walk)
        }
        fn shown<'a>(&self, state: &State, a: &'a [u8], b: &'a [u8]) -> &'a [u8] {
            Second.shown(state, a, b)
        }
    }
    let compared = Comparison::new(Allows768, Second).run(Kind::Openings, 1, 0..6000);
    let difference = compared.expect_err("a difference").difference;
    assert!(matches!(difference.part, Part::Palette(_)), "{difference}");
}
