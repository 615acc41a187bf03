//! Y4M, as `mve play` and others write it.

use super::{check_size, rewound, Picture};
use crate::colours::narrow;
use crate::messages::Failure;
use std::fs::File;
use std::io::{self, BufRead, BufReader, Read};
use std::path::Path;

/// No line is longer.
const LINE: u64 = 1024;
/// Millionths of what the differences and luma, each from its black on, give of red, green and blue of
/// 8 bits (ITU-R BT.601): in limited range, and in full range.
const LIMITED: [[i64; 3]; 3] =
    [[1_164_384, 0, 1_596_027], [1_164_384, -391_762, -812_968], [1_164_384, 2_017_232, 0]];
const FULL: [[i64; 3]; 3] =
    [[1_000_000, 0, 1_402_000], [1_000_000, -344_136, -714_136], [1_000_000, 1_772_000, 0]];
/// What the rounding of the three numbers can lose of a component of 16 bits: 1.6 of 255.
const LOST: i32 = 411;

/// What the first line says.
#[derive(Clone, Copy, Debug, PartialEq, Eq)]
struct Header {
    width: usize,
    height: usize,
    interval: Option<u32>,
    /// How many pixels across and down have one pair of differences; none where all are grey.
    shared: Option<(usize, usize)>,
    is_full: bool,
}

pub fn each(
    path: &Path,
    file: &File,
    take: &mut dyn FnMut(Picture) -> Result<(), Failure>,
) -> Result<(), Failure> {
    let failed = |error| Failure::Read(path.into(), error);
    let mut file = BufReader::new(rewound(file).map_err(failed)?);
    let line = line(&mut file).map_err(failed)?;
    let header = Header::of(&line).map_err(|why| Failure::input(path, why))?;
    check_size(path, header.width, header.height)?;
    while let Some(picture) = header.next(&mut file).map_err(|error| match error.kind() {
        io::ErrorKind::UnexpectedEof => Failure::input(path, "breaks off inside a picture"),
        io::ErrorKind::InvalidData => Failure::input(path, "has no FRAME where one must be"),
        _ => failed(error),
    })? {
        take(picture)?;
    }
    Ok(())
}

/// A line without its end; empty at the file's end.
fn line(file: &mut impl BufRead) -> io::Result<String> {
    let mut line = Vec::new();
    file.by_ref().take(LINE).read_until(b'\n', &mut line)?;
    Ok(String::from_utf8_lossy(&line).trim_end_matches('\n').into())
}

impl Header {
    fn of(line: &str) -> Result<Header, String> {
        let mut words = line.split(' ');
        if words.next() != Some("YUV4MPEG2") {
            return Err("is no Y4M file".into());
        }
        let mut header =
            Header { width: 0, height: 0, interval: None, shared: Some((2, 2)), is_full: false };
        for word in words.filter(|word| !word.is_empty()) {
            let (key, value) = word.split_at(word.chars().next().map_or(0, char::len_utf8));
            match key {
                "W" => header.width = value.parse().unwrap_or(0),
                "H" => header.height = value.parse().unwrap_or(0),
                "F" => header.interval = interval(value),
                "C" => header.shared = shared(value)?,
                "X" => header.is_full |= value == "COLORRANGE=FULL",
                _ => {}
            }
        }
        Ok(header)
    }

    /// The next picture; none at the end.
    fn next(&self, file: &mut impl BufRead) -> io::Result<Option<Picture>> {
        let line = line(file)?;
        if line.is_empty() && file.fill_buf()?.is_empty() {
            return Ok(None);
        }
        if line.split(' ').next() != Some("FRAME") {
            return Err(io::ErrorKind::InvalidData.into());
        }
        let mut luma = vec![0; self.width * self.height];
        file.read_exact(&mut luma)?;
        let (across, down) = self.shared.unwrap_or((1, 1));
        let (columns, rows) = (self.width.div_ceil(across), self.height.div_ceil(down));
        let mut differences = [(); 2].map(|()| vec![128; columns * rows]);
        if self.shared.is_some() {
            differences.iter_mut().try_for_each(|plane| file.read_exact(plane))?;
        }
        let [blue, red] = &differences;
        let mut picture = self.empty();
        for (i, &luma) in luma.iter().enumerate() {
            let (x, y) = (i % self.width, i / self.width);
            let at = y / down * columns + x / across;
            self.add(&mut picture, [luma, blue[at], red[at]]);
        }
        Ok(Some(picture))
    }

    fn empty(&self) -> Picture {
        let Header { width, height, interval, .. } = *self;
        Picture { width, height, interval, ..Picture::default() }
    }

    fn add(&self, picture: &mut Picture, [luma, blue, red]: [u8; 3]) {
        let (weights, black) = if self.is_full { (FULL, 0) } else { (LIMITED, 16) };
        let parts = [i64::from(luma) - black, i64::from(blue) - 128, i64::from(red) - 128];
        let components = weights.map(|weights| {
            let sum: i64 = weights.iter().zip(parts).map(|(weight, part)| weight * part).sum();
            narrow((sum * 257 / 1_000_000) as i32)
        });
        picture.pixels.push(components.map(|(component, _)| component));
        picture.rounded |= components.iter().any(|&(_, far)| far > LOST);
    }
}

/// The microseconds of a rate, "30000:1001"; none of "0:0".
fn interval(rate: &str) -> Option<u32> {
    let (above, below) = rate.split_once(':')?;
    let (above, below): (u64, u64) = (above.parse().ok()?, below.parse().ok()?);
    let interval = (below.checked_mul(1_000_000)? + above / 2).checked_div(above)?;
    u32::try_from(interval).ok().filter(|&interval| interval > 0)
}

/// How many pixels across and down have one pair of differences.
fn shared(space: &str) -> Result<Option<(usize, usize)>, String> {
    match space {
        "444" => Ok(Some((1, 1))),
        "422" => Ok(Some((2, 1))),
        "420" | "420jpeg" | "420mpeg2" | "420paldv" => Ok(Some((2, 2))),
        "411" => Ok(Some((4, 1))),
        "mono" => Ok(None),
        _ => {
            Err("has pictures of a kind that is not read: give 8-bit 4:4:4, 4:2:2 or 4:2:0".into())
        }
    }
}

#[cfg(test)]
mod tests {
    use super::*;
    use crate::colours::ycbcr;

    const HEADER: Header =
        Header { width: 2, height: 1, interval: None, shared: Some((1, 1)), is_full: false };

    /// What is written from a film's colours is read as those, all 262,144 of them.
    #[test]
    fn colours_come_back() {
        let mut picture = HEADER.empty();
        let colour = |n: u32| [n >> 12, n >> 6 & 63, n & 63].map(|part| part as u8);
        for n in 0..1 << 18 {
            HEADER.add(&mut picture, ycbcr(colour(n).map(mve::widened)));
            assert_eq!(picture.pixels.pop(), Some(colour(n)));
        }
        assert!(!picture.rounded);
        HEADER.add(&mut picture, [18, 128, 128]); // between two greys
        assert!(picture.rounded);
    }

    #[test]
    fn full_range() {
        let full = Header { is_full: true, ..HEADER };
        let mut picture = full.empty();
        for triple in [[0, 128, 128], [255, 128, 128], [76, 85, 255]] {
            full.add(&mut picture, triple);
        }
        assert_eq!(picture.pixels, [[0; 3], [63; 3], [63, 0, 0]]);
    }

    #[test]
    fn headers() {
        let line = "YUV4MPEG2 W2 H1 F10:1 Ip A1:1 C444 XYSCSS=444 XCOLORRANGE=FULL";
        let expected = Header { interval: Some(100_000), is_full: true, ..HEADER };
        assert_eq!(Header::of(line), Ok(expected));
        let usual = Header::of("YUV4MPEG2 W2 H1").expect("a header");
        assert_eq!((usual.shared, usual.interval), (Some((2, 2)), None));
        for wrong in ["", "YUV4MPEG W2 H1", "YUV4MPEG2 C420p10", "YUV4MPEG2 C444alpha"] {
            assert!(Header::of(wrong).is_err(), "{wrong}");
        }
    }

    #[test]
    fn rates() {
        let rates = ["10:1", "30000:1001", "0:0", "1:0", "x:1", "1:9999999999999"];
        let found = rates.map(interval);
        assert_eq!(found, [Some(100_000), Some(33_367), None, None, None, None]);
    }

    /// Two columns share their differences; the end comes behind a whole picture alone.
    #[test]
    fn pictures() {
        let header = Header { width: 3, shared: Some((2, 1)), ..HEADER };
        let file = b"FRAME Ip\n\x10\xEB\x10\x80\x80\x80\x80FRAME\n\x10";
        let mut rest = &file[..];
        let picture = header.next(&mut rest).expect("read").expect("a picture");
        assert_eq!(picture.pixels, [[0; 3], [63; 3], [0; 3]]);
        assert_eq!(
            header.next(&mut rest).map_err(|error| error.kind()).err(),
            Some(io::ErrorKind::UnexpectedEof)
        );
        assert!(header.next(&mut &b""[..]).expect("read").is_none());
        let wrong = header.next(&mut &b"FRAMES\n"[..]).map_err(|error| error.kind());
        assert_eq!(wrong.err(), Some(io::ErrorKind::InvalidData));
    }
}
