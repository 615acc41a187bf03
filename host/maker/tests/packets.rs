//! What the packet makers reach: every code and form, every number of refusal of checking, odd
//! block counts; and that valid packets are valid.

use maker::packet::{self, Draft, Strip};
use maker::packet_damage::{damaged, Damage};
use maker::{Form, Packet, Profile, Seeded, Size};
use reference::packet::Block;
use reference::{block, check, check_as, source, CallForm, Refusal, Rows, Source};
use std::collections::BTreeMap;

/// How often each thing must be reached at least.
const OFTEN: usize = 20;

fn checked(packet: &Packet) -> Result<(), Refusal> {
    check(packet.columns, packet.rows, &packet.map, &packet.data).map(|_| ())
}

fn blocks(packet: &Packet) -> Vec<Block<'_>> {
    reference::packet::blocks(packet.columns, packet.rows, &packet.map, &packet.data)
        .unwrap_or_else(|refusal| panic!("{refusal}: {packet:?}"))
}

fn left_over(packet: &Packet) -> usize {
    reference::packet::left_over(packet.columns, packet.rows, &packet.map, &packet.data)
        .unwrap_or_else(|refusal| panic!("{refusal}: {packet:?}"))
}

fn form_of(block: &Block<'_>) -> Form {
    Form::of(block.code, block.data).expect("an accepted block")
}

fn count<K: Ord>(keys: impl IntoIterator<Item = K>) -> BTreeMap<K, usize> {
    let mut counts = BTreeMap::new();
    for key in keys {
        *counts.entry(key).or_insert(0) += 1;
    }
    counts
}

#[track_caller]
fn assert_often<K: Ord + std::fmt::Debug>(counts: &BTreeMap<K, usize>, wanted: &[K]) {
    for key in wanted {
        let times = counts.get(key).copied().unwrap_or(0);
        assert!(times >= OFTEN, "{key:?} reached {times} times, wanted {OFTEN}");
    }
}

/// Small packets of every profile are accepted and have every form; odd and even block counts; nothing
/// left over, or a byte.
#[test]
fn small_packets() {
    let mut forms = Vec::new();
    let mut odd = Vec::new();
    let mut over = Vec::new();
    for seed in 0..1000 {
        let mut rng = Seeded::new(seed);
        let packet = packet::small(&mut rng).packet();
        let blocks = blocks(&packet);
        odd.push(blocks.len() % 2 == 1);
        forms.extend(blocks.iter().map(form_of));
        over.push(left_over(&packet));
    }
    assert_often(&count(forms), &Form::ALL);
    assert_often(&count(odd), &[false, true]);
    let over = count(over);
    assert_often(&over, &[0, 1]);
    assert_eq!(over.len(), 2, "{over:?}");
}

/// Packets that end in a block of each form but code 2, which copies from later blocks, and leave over
/// as many bytes as they are asked to. The strict form takes none of them, the default one.
#[test]
fn last_blocks() {
    let mut forms = Vec::new();
    for seed in 0..200 {
        let rng = &mut Seeded::new(seed);
        let (size, profile) = (Size::small(rng), rng.pick(&Profile::MANY));
        for form in Form::ALL {
            let Some(draft) = Draft::ending_in(rng, size, profile, form) else { continue };
            let alone = draft.packet();
            assert_eq!(blocks(&alone).last().map(form_of), Some(form));
            forms.push(form);
            for over in [0, 1, 2, 3, 300] {
                let packet = draft.clone().with_over(rng, over).packet();
                assert_eq!((&packet.map, left_over(&packet)), (&alone.map, over));
                assert!(packet.data.starts_with(&alone.data));
                let Packet { columns, rows, map, data } = &packet;
                let taken = |form| check_as(form, *columns, *rows, map, data).is_ok();
                assert_eq!(CallForm::ALL.map(taken), [over <= 1, over == 0], "{form:?}, {over}");
            }
        }
    }
    let forms = count(forms);
    let but_code_2: Vec<Form> = Form::ALL.into_iter().filter(|form| form.code() != 2).collect();
    assert_often(&forms, &but_code_2);
    assert!(!forms.contains_key(&Form::BackAhead), "{forms:?}");
}

/// Packets of any size, up to the largest, are accepted.
#[test]
fn large_packets() {
    for seed in 0..20 {
        let mut rng = Seeded::new(seed);
        let size = if seed == 0 { Size::new(80, 60) } else { Size::any(&mut rng) };
        let profile = Profile::MANY[seed as usize % Profile::MANY.len()];
        let packet = Draft::make(&mut rng, size, profile).packet();
        assert_eq!(blocks(&packet).len(), size.blocks());
    }
}

/// A packet of one form has that form alone, but for solid blocks where a copy has no vector.
#[test]
fn packets_of_one_form() {
    for form in Form::ALL {
        let mut rng = Seeded::new(form as u64);
        let packet = Draft::make(&mut rng, Size::new(7, 7), Profile::Only(form)).packet();
        let counts = count(blocks(&packet).iter().map(form_of));
        let others = counts.keys().filter(|&&key| key != form && key != Form::Solid).count();
        assert_eq!(others, 0, "{form:?}: {counts:?}");
        assert_often(&counts, &[form]);
    }
}

/// Each kind of damage that is made for one number meets it, whatever the packet.
#[test]
fn damage_made_for_a_number() {
    let made_for = [
        (Damage::LeaveOver, 15),
        (Damage::CutData, 13),
        (Damage::CodeSix, 12),
        (Damage::CopyOutside, 14),
        (Damage::ShortMap, 10),
        (Damage::LongMap, 10),
        (Damage::BadColumns, 6),
        (Damage::BadRows, 6),
    ];
    for (damage, number) in made_for {
        for seed in 0..100 {
            let mut rng = Seeded::new(seed);
            let draft = packet::small(&mut rng);
            let nothing_to_cut = damage == Damage::CutData && draft.data_length() == 0;
            if !nothing_to_cut {
                let answer = checked(&damaged(&mut rng, &draft, damage));
                assert_eq!(answer.map_err(|refusal| refusal.number), Err(number), "{damage:?}");
            }
        }
    }
}

/// Damaged packets reach every number of checking, in blocks behind the first, too; some stay
/// valid. Copies outside are reached for each code that has a vector; two bytes are left over, three
/// and more.
#[test]
fn damaged_packets() {
    let mut numbers = Vec::new();
    let mut later_blocks = Vec::new();
    let mut outside_codes = Vec::new();
    let mut over = Vec::new();
    for seed in 0..300 {
        let mut rng = Seeded::new(seed);
        let draft = packet::small(&mut rng);
        for damage in Damage::ALL {
            let packet = damaged(&mut rng, &draft, damage);
            let Err(refusal) = checked(&packet) else {
                numbers.push(0);
                continue;
            };
            numbers.push(refusal.number);
            if refusal.block > 0 {
                later_blocks.push(refusal.number);
            }
            if refusal.number == 15 {
                over.push(left_over(&packet).min(4));
            }
            if refusal.number == 14 {
                let byte = packet.map[refusal.block / 2];
                outside_codes.push(if refusal.block % 2 == 0 { byte & 15 } else { byte >> 4 });
            }
        }
    }
    assert_often(&count(numbers), &[0, 6, 10, 12, 13, 14, 15]);
    assert_often(&count(later_blocks), &[12, 13, 14]);
    assert_often(&count(outside_codes), &[2, 3, 4, 5]);
    assert_often(&count(over), &[2, 3, 4]);
}

/// Bytes without meaning reach most numbers; a random packet is hardly ever valid.
#[test]
fn hostile_packets() {
    let numbers = (0..3000).filter_map(|seed| {
        let packet = packet::hostile(&mut Seeded::new(seed));
        checked(&packet).err().map(|refusal| refusal.number)
    });
    assert_often(&count(numbers), &[6, 10, 12, 13, 14, 15]);
}

/// The source of a pixel for any numbers and bytes: a data byte is one of the block's own, and a
/// picture's pixel lies in the row that the vector names. Nothing wraps around.
#[test]
fn sources_of_any_block() {
    let mut kinds = Vec::new();
    for seed in 0..20_000 {
        let mut rng = Seeded::new(seed);
        let any = [0, 7, 8, 16, 640, usize::MAX / 2, usize::MAX - 8, usize::MAX];
        let columns = rng.pick(&[0, 1, 2, 80, usize::MAX / 8, usize::MAX / 8 + 1, usize::MAX]);
        let (x, y) = (rng.pick(&any), rng.pick(&any));
        let (code, i) = (rng.byte() % 20, rng.pick(&[0, 7, 8, 40, 63, 64, usize::MAX]));
        let length = rng.below(70);
        let data = rng.bytes(length);
        match source(columns, code, &data, x, y, i) {
            None => kinds.push("none"),
            Some(Source::Data(index)) => {
                assert!(Some(index) < block::length(code, &data), "seed {seed}");
                kinds.push("data");
            }
            Some(Source::Front(index) | Source::Back(index)) => {
                let row = y as i128 + (i / 8) as i128 + i128::from(vertical(code, &data));
                assert_eq!((index / (8 * columns)) as i128, row, "seed {seed}");
                kinds.push("picture");
            }
        }
    }
    assert_often(&count(kinds), &["none", "data", "picture"]);
}

/// How far down a copy reaches (01's table); codes 0 and 1 copy from their own block.
fn vertical(code: u8, data: &[u8]) -> i32 {
    let ahead = |byte: i32| if byte < 56 { byte / 7 } else { 8 + (byte - 56) / 29 };
    match code {
        2 => ahead(data[0].into()),
        3 => -ahead(data[0].into()),
        4 => i32::from(data[0] / 16) - 8,
        5 => (data[1] as i8).into(),
        _ => 0,
    }
}

/// The same seed gives the same bytes, another seed others.
#[test]
fn seeds() {
    let made = |seed| packet::small(&mut Seeded::new(seed)).packet();
    for seed in 0..50 {
        assert_eq!(made(seed), made(seed));
        assert_ne!(made(seed), made(seed + 1));
    }
}

/// A strip is valid, and its rows are the only ones touched; also by blocks of code 0 alone.
#[test]
fn strips() {
    let mut reached = Vec::new();
    for seed in 0..1000 {
        let rng = &mut Seeded::new(seed);
        let (size, strip) = (Size::small(rng), rng.pick(&Strip::ALL));
        let draft = Draft::make(rng, size, Profile::Raw).strip(rng, strip);
        let packet = draft.packet();
        let touched = check(packet.columns, packet.rows, &packet.map, &packet.data);
        let rows = touched.unwrap_or_else(|refusal| panic!("{refusal}: {packet:?}"));
        let last = size.rows - 1;
        match strip {
            Strip::Nothing => assert_eq!(rows, None),
            Strip::FirstRow => assert_eq!(rows, Some(Rows { first: 0, last: 0 })),
            Strip::LastRow => assert_eq!(rows, Some(Rows { first: last, last })),
            Strip::Rows => assert!(rows.is_some()),
            Strip::OneBlock => assert!(rows.is_some_and(|rows| rows.first == rows.last)),
        }
        let codes = || draft.blocks.iter().map(|block| block.code);
        let same = rows.is_some() && codes().all(|code| code <= 1);
        let part = rows.is_some_and(|rows| rows.first > 0 && rows.last < last);
        let one = codes().filter(|&code| code != 1).count() == 1;
        reached.extend([(format!("{strip:?}"), true), ("same".into(), same), ("one".into(), one)]);
        reached.push(("between".into(), part));
    }
    let reached = count(reached.into_iter().filter(|(_, is)| *is).map(|(name, _)| name));
    let kinds = Strip::ALL.map(|strip| format!("{strip:?}"));
    let others = ["same", "one", "between"].map(String::from);
    assert_often(&reached, &[&kinds[..], &others].concat());
}
