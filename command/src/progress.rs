//! A line of progress on standard error, where that is a terminal.

use crate::terminal;
use std::io::{self, Write};
use std::time::{Duration, Instant};

/// Characters of the bar.
const BAR: usize = 30;
/// The line is written no more often than this.
const PAUSE: Duration = Duration::from_millis(100);

/// The line.
pub struct Progress {
    /// The columns of the terminal; none where there is none.
    width: Option<usize>,
    /// When it was written last.
    written: Option<Instant>,
    /// Its length then.
    length: usize,
}

impl Progress {
    pub fn new() -> Progress {
        Progress { width: terminal::error_width(), written: None, length: 0 }
    }

    /// Shows how much of all is done, with a word.
    pub fn show(&mut self, done: usize, all: usize, word: impl FnOnce() -> String) {
        let is_due = self.written.is_none_or(|written| written.elapsed() >= PAUSE);
        let Some(width) = self.width.filter(|_| is_due) else { return };
        let line = format!("{} {}", bar(done, all), word());
        // A line that fills its row would begin another.
        self.write(&line.chars().take(width.saturating_sub(1)).collect::<String>());
        self.written = Some(Instant::now());
    }

    /// Takes the line away, before something else is written.
    pub fn clear(&mut self) {
        if self.length > 0 {
            self.write(""); // blanks
            self.write(""); // the cursor is in front of them again
        }
        self.written = None;
    }

    /// Writes over the line.
    fn write(&mut self, line: &str) {
        let _ = write!(io::stderr(), "\r{line:<0$}", self.length); // progress may be lost
        self.length = line.chars().count();
    }
}

impl Drop for Progress {
    fn drop(&mut self) {
        self.clear();
    }
}

fn bar(done: usize, all: usize) -> String {
    let part = |whole: usize| (done.min(all) * whole).checked_div(all).unwrap_or(whole);
    format!("[{:<BAR$}] {:>3} %", "#".repeat(part(BAR)), part(100))
}

#[cfg(test)]
mod tests {
    use super::*;

    #[test]
    fn bars() {
        assert_eq!(bar(0, 7), format!("[{}]   0 %", " ".repeat(30)));
        assert_eq!(bar(2, 4), format!("[{}{}]  50 %", "#".repeat(15), " ".repeat(15)));
        assert_eq!(bar(9, 7), format!("[{}] 100 %", "#".repeat(30)));
        assert_eq!(bar(0, 0), bar(1, 1));
    }
}
