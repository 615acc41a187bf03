//! The width of the terminal.

use std::env;
use std::fs::File;
use std::io::{self, IsTerminal};
use std::process::{Command, Stdio};

/// Of a terminal that does not tell its width.
const USUAL: usize = 100;

/// The columns of standard output, if that is a terminal.
pub fn output_width() -> Option<usize> {
    io::stdout().is_terminal().then(width)
}

/// The columns of standard error, if that is a terminal.
pub fn error_width() -> Option<usize> {
    io::stderr().is_terminal().then(width)
}

fn width() -> usize {
    let given = env::var("COLUMNS").ok().and_then(|columns| columns.parse().ok());
    given.or_else(asked).filter(|&columns| columns > 0).unwrap_or(USUAL)
}

/// What `stty` says: rows and columns. No crate that asks the terminal itself fits Debian's crates and
/// the public ones (Cargo.toml).
fn asked() -> Option<usize> {
    let terminal = File::open("/dev/tty").ok()?;
    let mut command = Command::new("stty");
    command.arg("size").stdin(terminal).stderr(Stdio::null());
    let said = command.output().ok()?.stdout;
    String::from_utf8(said).ok()?.split_whitespace().nth(1)?.parse().ok()
}

/// The end of a text that is too long: of a path that is what tells films apart.
pub fn tail(text: &str, width: usize) -> String {
    let count = text.chars().count();
    if count <= width {
        return text.into();
    }
    let kept = text.chars().skip(count + 1 - width);
    Some('…').into_iter().chain(kept).take(width).collect()
}

#[cfg(test)]
mod tests {
    use super::tail;

    #[test]
    fn tails() {
        assert_eq!(tail("films/a.mve", 11), "films/a.mve");
        assert_eq!(tail("films/a.mve", 6), "…a.mve");
        assert_eq!(tail("films/a.mve", 1), "…");
        assert_eq!(tail("films/a.mve", 0), "");
    }
}
