//! What the makers of packets and lists of calls with true colour reach: every code and form, every number of
//! refusal of checking and drawing; that valid packets are valid; and demand 3 on the lists.

use maker::word_calls::{self, WordCallList};
use maker::word_damage::{damaged, Damage};
use maker::words::{self, WordDraft, WordForm, WordProfile, LONG};
use maker::{Packet, Seeded, Size};
use reference::book::{Book, WordCall};
use reference::word_packet::{words_left_over, Left};
use reference::{check_words_as, draw_words_as, CallForm, Drawn, Refusal, Rows};
use std::collections::BTreeMap;

/// How often each thing must be reached at least.
const OFTEN: usize = 20;

#[derive(Default)]
struct Counts(BTreeMap<String, usize>);

impl Counts {
    fn note(&mut self, what: impl ToString) {
        *self.0.entry(what.to_string()).or_insert(0) += 1;
    }

    #[track_caller]
    fn assert_often(&self, wanted: impl IntoIterator<Item = impl ToString>) {
        for key in wanted {
            let key = key.to_string();
            let times = self.0.get(&key).copied().unwrap_or(0);
            assert!(times >= OFTEN, "{key} reached {times} times, wanted {OFTEN}");
        }
    }
}

fn checked(form: CallForm, packet: &Packet) -> Result<Rows, Refusal> {
    check_words_as(form, packet.columns, packet.rows, &packet.map, &packet.data)
}

fn left(packet: &Packet) -> Result<Left, Refusal> {
    words_left_over(packet.columns, packet.rows, &packet.map, &packet.data)
}

fn draft(rng: &mut Seeded) -> WordDraft {
    let (size, profile) = (Size::small(rng), WordProfile::any(rng));
    WordDraft::make(rng, size, profile, LONG).or_padded(rng)
}

/// Valid packets are accepted, in the strict form if nothing is left over, and have every form.
#[test]
fn valid_packets() {
    let mut counts = Counts::default();
    for seed in 0..2000 {
        let draft = draft(&mut Seeded::new(seed));
        let packet = draft.packet();
        let rows = Rows { first: 0, last: draft.size.rows - 1 };
        assert_eq!(checked(CallForm::Default, &packet), Ok(rows), "seed {seed}");
        let strict = checked(CallForm::Strict, &packet);
        match draft.over.len() {
            0 => assert_eq!(strict, Ok(rows), "seed {seed}"),
            _ => assert_eq!(strict, Err(Refusal::new(15)), "seed {seed}"),
        }
        assert_eq!(left(&packet), Ok(Left { first: 0, second: draft.over.len() }));
        counts.note(format!("{} over", draft.over.len()));
        for block in &draft.blocks {
            let form = WordForm::of(block.code, &block.first).expect("all its bytes");
            counts.note(format!("{form:?}"));
        }
        counts.note(if draft.second().is_empty() { "one part" } else { "two parts" });
        counts.note(if draft.blocks.len() % 2 == 1 { "odd" } else { "even" });
    }
    counts.assert_often(WordForm::ALL.map(|form| format!("{form:?}")));
    counts.assert_often(["0 over", "1 over", "one part", "two parts", "odd", "even"]);
}

/// Profiles of one form have it, wherever it has a vector.
#[test]
fn one_form() {
    for form in WordForm::ALL {
        let rng = &mut Seeded::new(7);
        let draft = WordDraft::make(rng, Size::new(3, 3), WordProfile::Only(form), LONG);
        let has = |block: &&words::WordBlock| WordForm::of(block.code, &block.first) == Some(form);
        let count = draft.blocks.iter().filter(has).count();
        let most = if matches!(form.code, 2 | 3) { 8 } else { 9 };
        assert_eq!(count, most, "{form:?}");
    }
}

/// Damage that is made for a number meets it, in both forms.
#[test]
fn damage_made_for_a_number() {
    let mut counts = Counts::default();
    for seed in 0..400 {
        let rng = &mut Seeded::new(seed);
        let draft = draft(rng);
        for damage in Damage::NUMBERED {
            if !damage.is_fit(&draft) {
                continue;
            }
            let packet = damaged(rng, &draft, damage);
            for form in CallForm::ALL {
                let met = checked(form, &packet).map_err(|refusal| refusal.number);
                let number = damage.number().expect("it is made for one");
                assert_eq!(met, Err(number), "{damage:?}, seed {seed}");
            }
            counts.note(format!("{damage:?}"));
            if let Ok(left) = left(&packet) {
                counts.note(format!("{} and {} over", left.first.min(2), left.second.min(3)));
            }
            if damage == Damage::CopyOutside {
                counts.note(format!("outside by {:?}", outside(&packet)));
            }
        }
    }
    counts.assert_often(Damage::NUMBERED.map(|damage| format!("{damage:?}")));
    counts.assert_often(["1 and 0 over", "2 and 0 over", "1 and 1 over", "0 and 2 over"]);
    counts.assert_often(["0 and 3 over", "1 and 2 over", "2 and 3 over"]);
    counts.assert_often([2, 3, 4, 5, 6].map(|code| format!("outside by Some({code})")));
}

/// The code of the block that meets 14.
fn outside(packet: &Packet) -> Option<u8> {
    let Refusal { number, block } = checked(CallForm::Default, packet).err()?;
    let byte = packet.map[block / 2];
    (number == 14).then_some(if block % 2 == 0 { byte & 0x0F } else { byte >> 4 })
}

/// All damage and hostile bytes: every number, and some that are taken.
#[test]
fn damaged_packets() {
    let mut counts = Counts::default();
    for seed in 0..1500 {
        let rng = &mut Seeded::new(seed);
        let draft = draft(rng);
        let damage = Damage::ALL[seed as usize % Damage::ALL.len()];
        for packet in [damaged(rng, &draft, damage), words::hostile(rng)] {
            match checked(CallForm::Default, &packet) {
                Ok(_) => counts.note("taken"),
                Err(refusal) => counts.note(refusal.number),
            }
        }
    }
    counts.assert_often(["taken", "6", "10", "13", "14", "15", "20"]);
    assert!(!counts.0.contains_key("12"));
}

/// Makes the calls of a list, and enters them in the book; all must agree after each call.
fn hold_against_book(list: &WordCallList, counts: &mut Counts) {
    let mut book = Book::open(&list.new);
    let (mut new, mut place) = (list.new.clone(), 0);
    for (number, made) in list.calls.iter().enumerate() {
        let Packet { columns, rows, map, data } = &made.packet;
        let (form, columns, rows) = (made.form, *columns, *rows);
        let (last, oldest, allowed) = (&made.last[..], &made.oldest[..], made.stores_fed());
        let before = (new.clone(), place);
        let answer = draw_words_as(
            form, columns, rows, map, data, last, oldest, &mut new, &mut place, allowed,
        );
        let packet = data;
        let call = WordCall { form, columns, rows, map, packet, last, oldest, allowed };
        assert_eq!(answer, book.enter_words(&call), "call {number}");
        assert_eq!(place, book.place(), "call {number}");
        assert!(new == book.picture(), "call {number}: pictures differ");
        assert_eq!(answer.is_err(), made.refused, "call {number}: {answer:?}");
        match answer {
            Err(refusal) => {
                assert!((new.clone(), place) == before, "call {number}: a refused call stored");
                counts.note(refusal.number);
            }
            Ok(_) if made.cut.is_some() => counts.note("cut"),
            Ok(Drawn { whole: true, stores: 0, .. }) => counts.note("whole at once"),
            Ok(Drawn { whole: true, .. }) => counts.note("whole"),
            Ok(Drawn { stores: 0, .. }) => counts.note("nothing allowed"),
            Ok(_) => counts.note("unfinished"),
        }
    }
}

#[test]
fn drawing_keeps_the_book() {
    let mut counts = Counts::default();
    for seed in 0..1500 {
        let rng = &mut Seeded::new(seed);
        let (size, profile) = (Size::small(rng), WordProfile::any(rng));
        hold_against_book(&word_calls::list(rng, size, profile), &mut counts);
    }
    counts.assert_often(["whole", "whole at once", "unfinished", "nothing allowed", "cut"]);
    counts.assert_often([6, 8, 10, 11, 13, 14, 15, 20]);
}

/// The largest frame, and frames that read what they draw.
#[test]
fn large_frames_keep_the_book() {
    let mut counts = Counts::default();
    for seed in 0..4 {
        let rng = &mut Seeded::new(seed);
        let size = if seed == 0 { Size::new(80, 60) } else { Size::any(rng) };
        let profile = rng.pick(&[WordProfile::NewCopies, WordProfile::Mixed]);
        hold_against_book(&word_calls::list(rng, size, profile), &mut counts);
    }
    assert!(counts.0.contains_key("whole"), "{:?}", counts.0);
}

/// What is lent has words with the high bit, and what is drawn has none.
#[test]
fn high_bits() {
    let rng = &mut Seeded::new(3);
    let list = word_calls::list(rng, Size::new(4, 4), WordProfile::Mixed);
    let call = list.calls.iter().find(|call| !call.refused).expect("an accepted call");
    for words in [&list.new, &call.last, &call.oldest] {
        assert!(words.iter().filter(|&&word| word > 0x7FFF).count() > 100);
    }
    let Packet { columns, rows, map, data } = &call.packet;
    let (mut new, mut place) = (list.new.clone(), 0);
    let (last, oldest) = (&call.last, &call.oldest);
    let form = call.form;
    draw_words_as(form, *columns, *rows, map, data, last, oldest, &mut new, &mut place, 312_000)
        .expect("an accepted call");
    assert!(new[..1024].iter().all(|&word| word < 0x8000));
}
