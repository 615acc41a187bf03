//! Every allowance: a call that is allowed n stores makes the first n, for each n from none to all,
//! in frames of up to 3x3 blocks of every profile, in both forms. A cut after n stores is such a call,
//! too.

mod common;

use compare::{Comparison, Event, Proved, Second};
use maker::calls::{Call, CallList};
use maker::packet::Draft;
use maker::{Form, Profile, Seeded, Size};
use reference::CallForm;
use std::collections::BTreeSet;

/// A valid packet, the form of the calls for it, and the pictures that it is drawn with.
struct Frame {
    draft: Draft,
    form: CallForm,
    front: Vec<u8>,
    back: Vec<u8>,
}

impl Frame {
    /// In the default form every other packet is padded; none is in the strict form.
    fn make(seed: u64, size: Size, profile: Profile) -> Frame {
        let rng = &mut Seeded::new(seed);
        let form = rng.pick(&CallForm::ALL);
        let over = if form == CallForm::Default { rng.below(2) } else { 0 };
        let draft = Draft::make(rng, size, profile).with_over(rng, over);
        Frame { draft, form, front: rng.bytes(size.pixels()), back: rng.bytes(size.pixels()) }
    }

    /// Calls of these allowances.
    fn list(&self, allowances: &[usize]) -> CallList {
        let calls = allowances.iter().map(|&allowed| Call {
            form: self.form,
            packet: self.draft.packet(),
            front: self.front.clone(),
            allowed,
            cut: None,
            refused: false,
        });
        CallList { calls: calls.collect(), back: self.back.clone() }
    }

    /// Every allowance from none to one more than is due at a place, and no limit.
    fn allowances(&self, place: usize) -> impl Iterator<Item = usize> {
        (0..=self.draft.stores_from(place) + 1).chain([usize::MAX])
    }

    /// Stops of an earlier call: inside the first block, just before and just after its place is
    /// stored, half-way, a store before the end, and at the end.
    fn stops(&self) -> impl Iterator<Item = usize> {
        let all = self.draft.stores_from(0);
        let stops = BTreeSet::from([10, 64, 65, all / 2, all - 1, all]);
        stops.into_iter().filter(move |&stop| stop <= all)
    }
}

fn profiles() -> impl Iterator<Item = Profile> {
    Profile::MANY.into_iter().chain(Form::ALL.map(Profile::Only))
}

/// The frames of up to 3x3 blocks, of every profile.
fn frames() -> impl Iterator<Item = Frame> {
    let sizes = (1..=3).flat_map(|rows| (1..=3).map(move |columns| Size::new(columns, rows)));
    let kinds = sizes.flat_map(|size| profiles().map(move |profile| (size, profile)));
    (0..).zip(kinds).map(|(seed, (size, profile))| Frame::make(seed, size, profile))
}

/// Makes lists of calls of these allowances; all agree.
fn compare(lists: impl Fn(&Frame) -> Vec<Vec<usize>>, wanted: &[Event]) {
    let mut comparison = Comparison::new(Proved, Second);
    for (number, frame) in frames().enumerate() {
        for allowances in lists(&frame) {
            let compared = comparison.draw(&frame.list(&allowances));
            compared.unwrap_or_else(|difference| {
                panic!("frame {number}, allowed {allowances:?}: {difference}")
            });
        }
    }
    let [default, strict] = CallForm::ALL;
    let taken = [(default, 0), (default, 1), (strict, 0)];
    let taken = taken.map(|(form, over)| Event::TakenOver(form, over));
    common::assert_reached(comparison.tally(), &[wanted, &taken].concat());
}

#[test]
fn from_the_first_block() {
    let lists = |frame: &Frame| frame.allowances(0).map(|allowed| vec![allowed]).collect();
    compare(lists, &[Event::Whole, Event::Unfinished, Event::NothingAllowed]);
}

#[test]
fn from_a_place_reached_before() {
    let lists = |frame: &Frame| {
        let after = |stop: usize| {
            let place = frame.draft.place_after(0, stop);
            frame.allowances(place).map(move |allowed| vec![stop, allowed])
        };
        frame.stops().flat_map(after).collect()
    };
    let answers = [Event::Whole, Event::WholeBefore, Event::Unfinished, Event::NothingAllowed];
    compare(lists, &answers);
}
