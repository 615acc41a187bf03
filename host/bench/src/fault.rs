//! What ends a run: a packet that a program does not take, or two different pictures.

use maker::Size;
use std::fmt;

/// A fault, with what it takes to make its frame again.
#[derive(Debug)]
pub struct Fault {
    frame: String,
    what: What,
}

#[derive(Debug)]
enum What {
    NotTaken { program: &'static str, why: String },
    Different { block: usize, pixel: (usize, usize), values: [(&'static str, u8); 2] },
}

impl Fault {
    /// A program did not take a valid packet.
    pub fn not_taken(frame: &str, program: &'static str, why: String) -> Fault {
        Fault { frame: frame.to_owned(), what: What::NotTaken { program, why } }
    }
}

impl fmt::Display for Fault {
    fn fmt(&self, f: &mut fmt::Formatter<'_>) -> fmt::Result {
        match &self.what {
            What::NotTaken { program, why } => {
                write!(f, "{}: a valid packet, not drawn by {program}: {why}", self.frame)
            }
            What::Different { block, pixel: (x, y), values: [(one, a), (other, b)] } => {
                write!(f, "{}, block {block}: different pictures: ", self.frame)?;
                write!(f, "pixel ({x}, {y}) is {a:02x} by {one}, {b:02x} by {other}")
            }
        }
    }
}

impl From<Fault> for String {
    fn from(fault: Fault) -> String {
        fault.to_string()
    }
}

/// Compares two pictures, each with the program that drew it, of one byte a pixel or of as many as they have. The
/// lowest block that differs is told.
pub fn same_picture(
    frame: &str,
    size: Size,
    (one, a): (&'static str, &[u8]),
    (other, b): (&'static str, &[u8]),
) -> Result<(), Fault> {
    if a == b {
        return Ok(());
    }
    let bytes = (a.len() / size.pixels()).max(1);
    let place = |index: usize| {
        let (x, y) = (index / bytes % size.width(), index / bytes / size.width());
        (y / 8 * size.columns + x / 8, y, x, index)
    };
    let differ = (0..a.len()).filter(|&index| a[index] != b[index]);
    let (block, y, x, index) = differ.map(place).min().expect("pictures of one length");
    let values = [(one, a[index]), (other, b[index])];
    let what = What::Different { block, pixel: (x, y), values };
    Err(Fault { frame: frame.to_owned(), what })
}

#[cfg(test)]
mod tests {
    use super::*;

    #[test]
    fn pictures() {
        let size = Size::new(3, 2);
        let one = vec![0; size.pixels()];
        let mut other = one.clone();
        let same = |other: &[u8]| same_picture("frame 4", size, ("one", &one), ("other", other));
        assert!(same(&other).is_ok());
        // Block 2's pixel comes first in the picture, block 1's in the order of blocks.
        other[16] = 1;
        other[24 * 7 + 9] = 2;
        assert_eq!(
            same(&other).unwrap_err().to_string(),
            "frame 4, block 1: different pictures: pixel (9, 7) is 00 by one, 02 by other"
        );
        // Two bytes a pixel: the second one of pixel (9, 7).
        let (one, mut other) = (vec![0; 2 * size.pixels()], vec![0; 2 * size.pixels()]);
        other[2 * (24 * 7 + 9) + 1] = 3;
        assert_eq!(
            same_picture("frame 5", size, ("one", &one), ("other", &other))
                .unwrap_err()
                .to_string(),
            "frame 5, block 1: different pictures: pixel (9, 7) is 00 by one, 03 by other"
        );
    }
}
