//! The sentences of document 02's W3, run on the proved library: "Fields in codes 7 to A are taken
//! from the low end of each byte, bytes in the same order." Every form of these codes is drawn from
//! bytes that read differently from either end. The rows are worked out by hand from the documents.

use mve::draw;

/// Bytes from hex digits and blanks.
fn hex(text: &str) -> Vec<u8> {
    let byte = |word| u8::from_str_radix(word, 16).expect("two hex digits");
    text.split_whitespace().map(byte).collect()
}

/// The block of this code and data has these rows; the last one is repeated to the bottom.
#[track_caller]
fn assert_rows(code: u8, data: &str, rows: &[&str]) {
    let (mut back, mut place) = ([0; 64], 0);
    let drawn = draw(1, 1, &[code], &hex(data), &[0; 64], &mut back, &mut place, 65);
    assert_eq!(drawn.map(|drawn| drawn.stores()), Ok(65));
    assert_eq!(place, 1);
    for (y, row) in back.chunks(8).enumerate() {
        assert_eq!(row, hex(rows[y.min(rows.len() - 1)]), "row {y}");
    }
}

/// Code 7. A byte is a row, or a nibble is a row of 2x2 fields, the low one above: 2 is 0010, from the low
/// end 0 1 0 0; b is 1011, from the low end 1 1 0 1.
#[test]
fn two_colours() {
    let rows = [
        "11 22 11 11 22 22 11 22", // b2
        "22 11 11 11 11 11 11 11", // 01
        "11 11 11 11 22 22 22 22", // f0
        "11 11 11 11 11 11 11 11",
    ];
    assert_rows(0x7, "11 22 b2 01 f0 00 00 00 00 00", &rows);
    let (two, b) = ("22 22 11 11 22 22 22 22", "11 11 11 11 22 22 11 11");
    let (one, none) = ("11 11 22 22 22 22 22 22", "22 22 22 22 22 22 22 22");
    assert_rows(0x7, "22 11 b2 01", &[two, two, b, b, one, one, none]);
}

/// 8. In quarters and in left and right halves a byte is two rows of 4, the low nibble above.
#[test]
fn two_colours_in_parts() {
    let quarters = [
        "00 01 00 00 20 20 20 20", // 2 of b2, 0 of f0
        "01 01 00 01 21 21 21 21", // b, f
        "01 00 00 00 20 20 20 20", // 1 of 01, 0 of 00
        "00 00 00 00 20 20 20 20",
        "10 10 10 10 30 30 30 31", // 0 of 30, 8 of 08
        "11 11 10 10 30 30 30 30", // 3, 0
        "10 10 10 10 31 31 31 31", // 0 of 00, f of 1f
        "10 10 10 10 31 30 30 30", // 0, 1
    ];
    assert_rows(0x8, "00 01 b2 01 10 11 30 00 20 21 f0 00 30 31 08 1f", &quarters);
    let halves = [
        "01 00 01 01 11 10 10 10", // 2 of b2, 1 of 01
        "00 00 01 00 10 10 10 10", // b, 0
        "01 01 01 01 10 10 10 10",
    ];
    assert_rows(0x8, "01 00 b2 00 00 00 10 11 01 00 00 00", &halves);
    let halves = [
        "01 00 01 01 00 00 01 00", // b2
        "01 01 01 01 01 01 01 01",
        "01 01 01 01 01 01 01 01",
        "01 01 01 01 01 01 01 01",
        "10 11 11 11 11 11 11 11", // 01
        "11 11 11 11 11 11 11 11",
    ];
    assert_rows(0x8, "01 00 b2 00 00 00 11 10 01 00 00 00", &halves);
}

/// 9. 1b is 00 01 10 11, from the low end fields 3 2 1 0; 4e is 01 00 11 10, fields 2 3 0 1.
#[test]
fn four_colours() {
    let rows = ["13 12 11 10 12 13 10 11", "10 10 10 10 10 10 10 10"];
    assert_rows(0x9, "10 11 12 13 1b 4e 00 00 00 00 00 00 00 00 00 00 00 00 00 00", &rows);
    let (wide_1b, wide_4e) = ("12 12 13 13 11 11 10 10", "13 13 12 12 10 10 11 11");
    let rows = [wide_1b, wide_1b, wide_4e, wide_4e, "10 10 10 10 10 10 10 10"];
    assert_rows(0x9, "10 11 13 12 1b 4e 00 00", &rows);
    let rows = ["13 13 12 12 10 10 11 11", "12 12 13 13 11 11 10 10", "11 11 11 11 11 11 11 11"];
    assert_rows(0x9, "11 10 12 13 1b 4e 00 00 00 00 00 00", &rows);
    let high = "12 13 10 11 13 12 11 10";
    let rows = [high, high, "11 11 11 11 11 11 11 11"];
    assert_rows(0x9, "11 10 13 12 1b 4e 00 00 00 00 00 00", &rows);
}

/// A. A byte is a row of a quarter or of a left or right half; two bytes are a row of a top or bottom
/// half.
#[test]
fn four_colours_in_parts() {
    let quarters = [
        "03 02 01 00 22 23 20 21", // 1b, 4e
        "02 03 00 01 20 20 20 20", // 4e, 00
        "00 00 00 00 20 20 20 20",
        "00 00 00 00 20 20 20 20",
        "13 12 11 10 32 33 30 31", // 1b, 4e
        "10 10 10 10 30 30 30 30",
    ];
    let data = "00 01 02 03 1b 4e 00 00 10 11 12 13 1b 00 00 00
                20 21 22 23 4e 00 00 00 30 31 32 33 4e 00 00 00";
    assert_rows(0xA, data, &quarters);
    let halves = ["03 02 00 01 12 13 10 11", "02 03 01 00 10 10 10 10", "01 01 01 01 10 10 10 10"];
    let data = "01 00 02 03 1b 4e 00 00 00 00 00 00 10 11 12 13 4e 00 00 00 00 00 00 00";
    assert_rows(0xA, data, &halves);
    let (top, rest) = ("03 02 00 01 02 03 01 00", "01 01 01 01 01 01 01 01");
    let halves = [top, rest, rest, rest, "12 13 11 10 13 12 10 11", "11 11 11 11 11 11 11 11"];
    let data = "01 00 02 03 1b 4e 00 00 00 00 00 00 11 10 12 13 4e 1b 00 00 00 00 00 00";
    assert_rows(0xA, data, &halves);
}
