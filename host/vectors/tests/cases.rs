//! What the cases hold: the ones checked by hand, every form and number of refusal, and bytes that
//! a reader of the format takes apart again.

use maker::{Form, Packet};
use std::collections::BTreeMap;

/// How often each form and each number must be there at least.
const OFTEN: usize = 5;

/// Reads the input as a checking program does.
fn read(input: &[u8]) -> Vec<Packet> {
    let mut packets = Vec::new();
    let mut rest = input;
    while !rest.is_empty() {
        let word = |at: usize| usize::from(rest[at]) + 256 * usize::from(rest[at + 1]);
        let (columns, rows, map, data) = (word(0), word(2), word(4), word(6));
        packets.push(Packet {
            columns,
            rows,
            map: rest[8..8 + map].to_vec(),
            data: rest[8 + map..8 + map + data].to_vec(),
        });
        rest = &rest[8 + map + data..];
    }
    packets
}

fn output_lines() -> Vec<String> {
    let output = String::from_utf8(vectors::generate().output).expect("text");
    assert!(output.ends_with('\n'));
    output.lines().map(str::to_string).collect()
}

#[test]
fn input_is_read_back() {
    let input = vectors::generate().input;
    assert!(input.len() <= vectors::MAX_INPUT, "{} bytes", input.len());
    let packets = read(&input);
    assert_eq!(packets, vectors::cases());
    assert_eq!(packets.len(), output_lines().len());
    assert!(packets.len() >= 300, "{} cases", packets.len());
}

/// The first case byte by byte, and the answers that documents 01 and 02 give to the first eleven.
#[test]
fn hand_cases() {
    let input = vectors::generate().input;
    assert_eq!(input[..11], [1, 0, 1, 0, 1, 0, 2, 0, 0x05, 0x00, 0x00]);
    let expected = [
        ((1, 1), "accepted"),
        ((1, 1), "refused 14 0"),
        ((80, 1), "accepted"),
        ((0, 1), "refused 6 0"),
        ((81, 1), "refused 6 0"),
        ((1, 60), "accepted"),
        ((1, 0), "refused 6 0"),
        ((1, 61), "refused 6 0"),
        ((1, 1), "accepted"),
        ((1, 1), "accepted"),
        ((1, 1), "refused 15 0"),
    ];
    let (packets, answers) = (read(&input), output_lines());
    for (number, (size, answer)) in expected.into_iter().enumerate() {
        let packet = &packets[number];
        assert_eq!(((packet.columns, packet.rows), &*answers[number]), (size, answer));
    }
}

#[test]
fn every_number() {
    let mut counts: BTreeMap<String, usize> = BTreeMap::new();
    for line in output_lines() {
        let words: Vec<&str> = line.split(' ').collect();
        let answer = if words[0] == "refused" { words[1] } else { words[0] };
        *counts.entry(answer.to_string()).or_insert(0) += 1;
        let named = ["12", "13", "14"].contains(&answer);
        assert!(words.len() == 1 || named || words[2] == "0", "{line}");
        if named && words[2] != "0" {
            *counts.entry("later block".to_string()).or_insert(0) += 1;
        }
    }
    for wanted in ["accepted", "6", "10", "12", "13", "14", "15", "later block"] {
        let times = counts.get(wanted).copied().unwrap_or(0);
        assert!(times >= OFTEN, "{wanted} is there {times} times, wanted {OFTEN}");
    }
}

/// Last blocks of each form but code 2, with 0 to 3 bytes left over: up to one is accepted.
#[test]
fn every_last_block() {
    let mut counts: BTreeMap<(Form, usize), usize> = BTreeMap::new();
    let (input, answers) = (vectors::generate().input, output_lines());
    for (packet, answer) in read(&input).iter().zip(answers) {
        let Packet { columns, rows, map, data } = packet;
        let Ok(over) = reference::packet::left_over(*columns, *rows, map, data) else { continue };
        let expected = if over <= 1 { "accepted" } else { "refused 15 0" };
        assert_eq!(answer, expected, "{over} over");
        let used = &data[..data.len() - over];
        let blocks = reference::packet::blocks(*columns, *rows, map, used).expect("accepted");
        let last = blocks.last().and_then(|block| Form::of(block.code, block.data));
        *counts.entry((last.expect("a block"), over)).or_insert(0) += 1;
    }
    for form in Form::ALL.into_iter().filter(|form| form.code() != 2) {
        let missing = (0..=3).find(|&over| !counts.contains_key(&(form, over)));
        assert_eq!(missing, None, "{form:?}");
    }
}

/// Counted in the accepted cases.
#[test]
fn every_form() {
    let mut counts: BTreeMap<Form, usize> = BTreeMap::new();
    for packet in read(&vectors::generate().input) {
        let blocks =
            reference::packet::blocks(packet.columns, packet.rows, &packet.map, &packet.data);
        for block in blocks.unwrap_or_default() {
            let form = Form::of(block.code, block.data).expect("an accepted block");
            *counts.entry(form).or_insert(0) += 1;
        }
    }
    for form in Form::ALL {
        let times = counts.get(&form).copied().unwrap_or(0);
        assert!(times >= OFTEN, "{form:?} is there {times} times, wanted {OFTEN}");
    }
}
