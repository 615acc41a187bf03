//! Playing a film to pictures and sound.

use crate::clock::Clock;
use crate::messages::{Failure, Kept};
use crate::output::{Cut, Output, Overwrite, Pictures, Wav};
use crate::progress::Progress;
use crate::refusals::Refused;
use crate::report::stream_numbers;
use crate::sound::Format;
use crate::tell;
use crate::walk::{Passed, Rules, Walk};
use mve::{Form, ALL_STORES};
use std::path::Path;

/// What is wanted of a film.
pub struct Wanted<'a> {
    pub film: &'a Path,
    /// Where the pictures go.
    pub output: Option<&'a Output>,
    /// Where the sound goes.
    pub sound: Option<&'a Path>,
    pub stream: Option<usize>,
    /// The number of the first picture that is wanted.
    pub from: usize,
    /// How many are; all if none.
    pub pictures: Option<usize>,
    /// The stores that a step is allowed; enough if none.
    pub stops: Option<usize>,
    /// Whether what comes before a refusal is kept.
    pub partial: bool,
    pub overwrite: Overwrite,
}

impl Wanted<'_> {
    /// Sound that nobody wants is passed over, and not judged.
    fn stream(&self) -> usize {
        self.stream.unwrap_or(if self.sound.is_some() { 0 } else { mve::NO_STREAM })
    }

    fn rules(&self) -> Rules {
        let allowance = self.stops.unwrap_or(ALL_STORES);
        Rules { stream: self.stream(), form: Form::Default, allowance }
    }

    /// The failure of a film that is refused.
    pub fn refused(&self, refused: Refused, kept: Kept) -> Failure {
        Failure::Refused(self.film.into(), refused, kept)
    }
}

/// A film that is being played.
pub struct Player<'a> {
    wanted: &'a Wanted<'a>,
    length: usize,
    walk: Walk<'a>,
    clock: Clock,
    pictures: Option<Box<dyn Pictures>>,
    sound: Option<Wav>,
    /// Pictures that the film has sent, and those that were wanted of them.
    sent: usize,
    chosen: usize,
    /// The time of those.
    cut: Cut,
    /// The streams that have sound, a bit each.
    streams: u16,
}

/// Why playing stops before the film's end.
enum Stopped {
    Refused(Refused),
    Failed(Failure),
}

impl From<Refused> for Stopped {
    fn from(refused: Refused) -> Stopped {
        Stopped::Refused(refused)
    }
}

impl From<Failure> for Stopped {
    fn from(failure: Failure) -> Stopped {
        Stopped::Failed(failure)
    }
}

impl<'a> Player<'a> {
    pub fn new(wanted: &'a Wanted<'a>, film: &'a [u8]) -> Result<Player<'a>, Failure> {
        let opened = Walk::open(film, wanted.rules());
        Ok(Player {
            wanted,
            length: film.len(),
            walk: opened.map_err(|refused| wanted.refused(refused, Kept::NoPicture))?,
            clock: Clock::default(),
            pictures: wanted.output.map(Output::begin).transpose()?,
            sound: wanted.sound.map(Wav::new),
            sent: 0,
            chosen: 0,
            cut: Cut::default(),
            streams: 0,
        })
    }

    /// Plays it to what is wanted.
    pub fn play(mut self) -> Result<(), Failure> {
        match self.play_film() {
            Ok(()) => self.finish(),
            Err(Stopped::Refused(refused)) => self.finish_refused(refused),
            Err(Stopped::Failed(failure)) => Err(failure),
        }
    }

    fn play_film(&mut self) -> Result<(), Stopped> {
        let mut progress = Progress::new();
        while !self.has_enough() {
            let Some(passed) = self.walk.pass()? else { break };
            self.take(&passed)?;
            let position = self.walk.state().position;
            progress.show(position, self.length, || format!("{} pictures", self.chosen));
        }
        Ok(())
    }

    /// Whether all pictures that are wanted were sent, and all their sound, which may come later.
    fn has_enough(&self) -> bool {
        let heard = self.sound.as_ref().map_or(u64::MAX, Wav::elapsed);
        self.cut.to.is_some_and(|end| heard >= end)
    }

    fn take(&mut self, passed: &Passed<'_>) -> Result<(), Failure> {
        let Some(opcode) = passed.opcode else { return Ok(()) };
        self.clock.take(passed.timer);
        self.streams |= opcode.streams().unwrap_or(0);
        if let Some(sound) = &mut self.sound {
            if let Some(format) = Format::of(&opcode, self.walk.state()) {
                sound.take_format(format);
            }
            sound.add(self.walk.samples(passed))?;
        }
        if passed.sent {
            self.take_picture()?;
        }
        Ok(())
    }

    fn take_picture(&mut self) -> Result<(), Failure> {
        let (number, start) = (self.sent, self.clock.elapsed());
        let interval = self.clock.show();
        self.sent += 1;
        if number < self.wanted.from || self.wanted.pictures == Some(self.chosen) {
            return Ok(());
        }
        if self.chosen == 0 {
            self.cut.from = start;
        }
        self.chosen += 1;
        if self.wanted.pictures == Some(self.chosen) {
            self.cut.to = Some(self.clock.elapsed());
        }
        match &mut self.pictures {
            Some(pictures) => pictures.add(number, &self.walk.picture(), interval),
            None => Ok(()),
        }
    }

    /// The film has what is asked for: all files get their names.
    fn finish(self) -> Result<(), Failure> {
        let Wanted { film, output, from, pictures, .. } = *self.wanted;
        let wants_pictures = output.is_some() || from > 0 || pictures.is_some();
        if wants_pictures && self.chosen == 0 {
            return Err(Failure::NoPicture(film.into(), self.sent));
        }
        if self.sound.as_ref().is_some_and(Wav::is_empty) {
            let streams = stream_numbers(self.streams);
            return Err(Failure::NoSound(film.into(), self.wanted.stream(), streams));
        }
        self.keep()
    }

    /// What came before a refusal is kept where that is asked for, or cannot be taken back.
    fn finish_refused(mut self, refused: Refused) -> Result<(), Failure> {
        let is_sent = matches!(self.wanted.output, Some(Output::Standard));
        let (wanted, chosen) = (self.wanted, self.chosen);
        let has_sound = self.sound.as_ref().is_some_and(|sound| !sound.is_empty());
        let has_something = chosen > 0 && wanted.output.is_some() || has_sound;
        if !wanted.partial {
            self.sound = None;
        }
        if !wanted.partial && !is_sent {
            let kept = if has_something { Kept::Nothing } else { Kept::NothingBefore };
            return Err(wanted.refused(refused, kept));
        }
        if chosen == 0 {
            self.pictures = None;
        }
        self.keep()?;
        Err(wanted.refused(refused, Kept::pictures(chosen)))
    }

    /// Gives what was written its names, when all of it is complete.
    fn keep(self) -> Result<(), Failure> {
        let overwrite = &self.wanted.overwrite;
        let finished = self.pictures.map(Pictures::finish).transpose()?.unwrap_or_default();
        let sounds = self.sound.map(|sound| sound.finish(self.cut, overwrite)).transpose()?;
        for part in finished.parts.into_iter().chain(sounds.unwrap_or_default()) {
            part.keep(overwrite)?;
        }
        if let Some(note) = finished.note {
            tell(note);
        }
        if self.wanted.stops.is_some() {
            tell(format_args!("stopped {} times, and went on", self.walk.stops()));
        }
        Ok(())
    }
}
