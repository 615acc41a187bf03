//! Y4M: uncompressed pictures that players take from a pipe.

use super::{Finished, Part, Pictures};
use crate::colours::ycbcr;
use crate::messages::{name, Failure};
use crate::walk::Picture;
use std::io::{self, BufWriter, Write};
use std::path::Path;

/// The file or standard output.
pub struct Y4m {
    part: Option<Part>,
    file: Box<dyn Write>,
    /// The microseconds of the first picture, which are those of all.
    interval: Option<u32>,
    /// Whether another one has others.
    varies: bool,
}

impl Y4m {
    pub fn begin(path: &Path) -> Result<Y4m, Failure> {
        let (part, file) = Part::file(path)?;
        let file = Box::new(BufWriter::new(file));
        Ok(Y4m { part: Some(part), file, interval: None, varies: false })
    }

    pub fn standard() -> Y4m {
        let file = Box::new(BufWriter::new(io::stdout()));
        Y4m { part: None, file, interval: None, varies: false }
    }

    fn write(&mut self, picture: &Picture<'_>, interval: u32) -> io::Result<()> {
        let Picture { width, height, .. } = picture;
        match self.interval {
            Some(first) => self.varies |= first != interval,
            None => {
                let (rate, scale) = reduced(1_000_000, interval);
                write!(self.file, "YUV4MPEG2 W{width} H{height} F{rate}:{scale} Ip A1:1 C444 ")?;
                writeln!(self.file, "XCOLORRANGE=LIMITED")?;
                self.interval = Some(interval);
            }
        }
        writeln!(self.file, "FRAME")?;
        self.file.write_all(&planes(picture))
    }

    fn failure(&self, error: io::Error) -> Failure {
        match &self.part {
            Some(part) => Failure::write(&part.target, error),
            None => Failure::standard_output(error),
        }
    }
}

impl Pictures for Y4m {
    fn add(&mut self, _: usize, picture: &Picture<'_>, interval: u32) -> Result<(), Failure> {
        self.write(picture, interval).map_err(|error| self.failure(error))
    }

    fn finish(mut self: Box<Self>) -> Result<Finished, Failure> {
        let flushed = self.file.flush();
        flushed.map_err(|error| self.failure(error))?;
        let path = self.part.as_ref().map_or("Y4M".into(), |part| name(&part.target));
        let note =
            format!("{path}: the film's timer changes, but Y4M keeps the first picture's time");
        Ok(Finished { parts: self.part.into_iter().collect(), note: self.varies.then_some(note) })
    }
}

/// The luma of all pixels, then the blue, then the red difference.
fn planes(picture: &Picture<'_>) -> Vec<u8> {
    let colours: Vec<[u8; 3]> = picture.rgb().map(ycbcr).collect();
    (0..3).flat_map(|part| colours.iter().map(move |colour| colour[part])).collect()
}

/// A fraction in lowest terms.
fn reduced(above: u32, below: u32) -> (u32, u32) {
    let (mut divisor, mut rest) = (above, below);
    while rest > 0 {
        (divisor, rest) = (rest, divisor % rest);
    }
    (above / divisor, below / divisor)
}

#[cfg(test)]
mod tests {
    use super::reduced;

    #[test]
    fn fractions() {
        assert_eq!(reduced(1_000_000, 100_000), (10, 1));
        assert_eq!(reduced(1_000_000, 66_728), (125_000, 8_341));
        assert_eq!(reduced(1_000_000, 1), (1_000_000, 1));
        assert_eq!(reduced(1_000_000, 600_000_000), (1, 600));
    }
}
