//! The time of pictures. Opcode 0x02 gives the microseconds from each picture to the next.

/// Where a film does not say it: the usual timer of document 003, 8341 times 8.
pub const USUAL: u32 = 66_728;
/// Ten minutes. A timer of more than this is taken as none: no player can follow it. Nor is one of 0.
pub const LONGEST: u64 = 600_000_000;

/// The time that has passed.
#[derive(Clone, Copy, Debug, Default)]
pub struct Clock {
    interval: Option<u32>,
    elapsed: u64,
    assumed: bool,
}

impl Clock {
    /// Takes a timer, where there is one.
    pub fn take(&mut self, timer: Option<u64>) {
        let interval = timer.filter(|&interval| interval <= LONGEST);
        self.interval = interval.map(|interval| interval as u32).or(self.interval);
    }

    /// Passes a picture: the microseconds that it stays.
    pub fn show(&mut self) -> u32 {
        let interval = self.interval.unwrap_or(USUAL);
        self.assumed |= self.interval.is_none();
        self.elapsed += u64::from(interval);
        interval
    }

    /// The microseconds of all pictures so far.
    pub fn elapsed(&self) -> u64 {
        self.elapsed
    }

    /// Whether a picture came before any timer, and was given the usual time.
    pub fn assumed(&self) -> bool {
        self.assumed
    }
}
