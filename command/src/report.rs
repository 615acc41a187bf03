//! What `mve info` finds in a film.

use crate::clock::Clock;
use crate::readings::Readings;
use crate::refusals::Refused;
use crate::sound::Format;
use crate::walk::{Passed, Rules, Walk};
use mve::State;

/// What was found, up to the film's end or its refusal.
#[derive(Clone, Debug, Default)]
pub struct Report {
    /// Of the file.
    pub bytes: u64,
    /// Columns and rows of blocks.
    pub size: Option<(usize, usize)>,
    /// Whether the pictures have true colour, 15 bits a pixel.
    pub true_colour: bool,
    /// Pictures sent.
    pub pictures: usize,
    pub clock: Clock,
    /// Each format that the sound has, in order.
    pub formats: Vec<Format>,
    /// The streams that have sound, a bit each.
    pub streams: u16,
    /// Opcodes that set palette entries.
    pub palette_changes: usize,
    /// None where the film plays to its end.
    pub refused: Option<Refused>,
    /// Of all of the film.
    pub readings: Readings,
}

impl Report {
    /// Of a film whose header is refused.
    pub fn refused(refused: Refused, bytes: u64) -> Report {
        Report { bytes, refused: Some(refused), ..Report::default() }
    }

    /// Walks a film to its end. `watch` is told each position.
    pub fn of(film: &[u8], rules: Rules, mut watch: impl FnMut(usize)) -> Report {
        let readings = Readings::of(film, rules.stream);
        let mut report = Report { bytes: film.len() as u64, readings, ..Report::default() };
        report.refused = report.walk(film, rules, &mut watch).err();
        report
    }

    fn walk(
        &mut self,
        film: &[u8],
        rules: Rules,
        watch: &mut impl FnMut(usize),
    ) -> Result<(), Refused> {
        let mut walk = Walk::open(film, rules)?;
        while let Some(passed) = walk.pass()? {
            self.add(&passed, walk.state());
            watch(walk.state().position);
        }
        if self.size.is_none() {
            return Err(Refused::without_size(film));
        }
        Ok(())
    }

    fn add(&mut self, passed: &Passed<'_>, after: &State) {
        let Some(opcode) = passed.opcode else { return };
        self.clock.take(passed.timer);
        self.size = (after.columns > 0).then_some((after.columns, after.rows));
        self.true_colour = after.true_colour;
        if passed.sent {
            self.pictures += 1;
            self.clock.show();
        }
        let format = Format::of(&opcode, after);
        if let Some(format) = format.filter(|format| self.formats.last() != Some(format)) {
            self.formats.push(format);
        }
        self.streams |= opcode.streams().unwrap_or(0);
        self.palette_changes += usize::from(opcode.changes_palette());
    }

    /// Pictures a second, in thousandths; none where there is no picture.
    pub fn pictures_a_second(&self) -> Option<u64> {
        let pictures = self.pictures as u64 * 1_000_000_000;
        (pictures + self.clock.elapsed() / 2).checked_div(self.clock.elapsed())
    }

    /// The numbers of the streams that have sound.
    pub fn stream_numbers(&self) -> Vec<usize> {
        stream_numbers(self.streams)
    }
}

/// The numbers of the bits that are one.
pub fn stream_numbers(streams: u16) -> Vec<usize> {
    (0..16).filter(|stream| streams >> stream & 1 == 1).collect()
}
