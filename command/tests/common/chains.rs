//! The chain from a pixel back, held to the second program link by link.

use super::drawings::{Drawing, Sent};

/// Numbers in a text, in order.
pub fn numbers(text: &str) -> Vec<usize> {
    let parts = text.split(|c: char| !c.is_ascii_digit()).filter(|part| !part.is_empty());
    parts.map(|part| part.parse().expect("a number")).collect()
}

/// How a chain ended, and its links.
#[derive(Default, Debug)]
pub struct Reached {
    pub bytes: usize,
    pub lent: usize,
    pub links: usize,
    pub longest: usize,
    pub codes: [usize; 16],
}

/// Follows a chain link by link: every value is that of the pixel shown.
pub fn follow(
    film: &[u8],
    all: &[Drawing],
    sent: &Sent,
    picture: usize,
    (x, y): (usize, usize),
    lines: &[String],
    reached: &mut Reached,
) {
    let entry = sent.pixels[y * sent.width + x];
    let colour = &sent.palette[3 * usize::from(entry)..][..3];
    let wide: String = colour.iter().map(|c| format!("{:02X}", c * 4 + c / 16)).collect();
    let first = format!(
        "film.mve, picture {picture}, pixel {x}, {y}: entry {entry}, red {}, green {}, blue {} of 63 (#{wide})",
        colour[0], colour[1], colour[2]
    );
    assert_eq!(lines[0], first);
    assert_eq!(lines[1], "PICTURE    X    Y  BLOCK  CODE  ORIGIN");
    let mut at = Some(sent.drawings - 1);
    let mut place = (x, y);
    for line in &lines[2..] {
        let number = at.expect("the chain goes on behind its end");
        let drawing = &all[number];
        let (width, index) =
            (8 * drawing.columns, |(x, y): (usize, usize)| y * 8 * drawing.columns + x);
        assert_eq!(drawing.after[index(place)], entry, "{line}");
        let block = place.1 / 8 * drawing.columns + place.0 / 8;
        let code = drawing.map[block / 2] >> (block % 2 * 4) & 0x0F;
        let head = format!(
            "{:>7} {:>4} {:>4} {block:>6}     {code:X}  ",
            drawing.picture, place.0, place.1
        );
        let origin = line.strip_prefix(&head).unwrap_or_else(|| panic!("{line}, not {head}"));
        reached.codes[usize::from(code)] += 1;
        reached.links += 1;
        if let ([byte, of_packet], true) = (&numbers(origin)[..], origin.starts_with("byte ")) {
            assert_eq!(origin, format!("byte {byte} of the film, byte {of_packet} of its packet"));
            assert!(drawing.packet.contains(byte) && byte - drawing.packet.start == *of_packet);
            assert_eq!(film[*byte], entry);
            reached.bytes += 1;
            at = None;
            continue;
        }
        let named = numbers(origin);
        let from = (named[0], named[1]);
        assert!(from.0 < width && from.1 < drawing.after.len() / width, "{line}");
        let on = |on: usize| all[..number].iter().rposition(|earlier| earlier.on == on);
        let (picture, next) = match code {
            0 | 4 | 5 => (&drawing.before[1 - drawing.on], on(1 - drawing.on)),
            1 | 2 => (&drawing.before[drawing.on], on(drawing.on)),
            3 => (&drawing.after, at),
            _ => panic!("code {code:X} copies nothing: {line}"),
        };
        assert_eq!(picture[index(from)], entry, "{line}");
        let copied = if code == 1 { "kept" } else { "copied" };
        let begin = format!("{copied} from {}, {} of ", from.0, from.1);
        let end = match next {
            None => "a picture as it was before the film".into(),
            Some(next) if next != number && all[next].picture == drawing.picture => {
                format!("picture {} as it was drawn before", drawing.picture)
            }
            Some(next) => format!("picture {}", all[next].picture),
        };
        assert_eq!(origin, begin + &end);
        reached.lent += usize::from(next.is_none());
        (at, place) = (next, from);
    }
    assert_eq!(at, None, "the chain breaks off");
    reached.longest = reached.longest.max(lines.len() - 2);
}
