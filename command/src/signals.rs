//! Files and folders that must not outlive the command: a signal that ends it takes them away first.

use signal_hook::consts::{SIGHUP, SIGINT, SIGQUIT, SIGTERM};
use signal_hook::iterator::Signals;
use signal_hook::low_level;
use std::fs;
use std::path::{Path, PathBuf};
use std::sync::{Mutex, MutexGuard, Once, PoisonError};
use std::{process, thread};

/// What is there and not kept yet.
static TEMPORARY: Mutex<Vec<PathBuf>> = Mutex::new(Vec::new());

/// The right to make and to rename such files. While it is held no signal ends the command.
pub struct Held(MutexGuard<'static, Vec<PathBuf>>);

pub fn hold() -> Held {
    static WATCHED: Once = Once::new();
    WATCHED.call_once(watch);
    Held(TEMPORARY.lock().unwrap_or_else(PoisonError::into_inner))
}

impl Held {
    pub fn add(&mut self, path: &Path) {
        self.0.push(path.into());
    }

    /// Takes it away, where it is still there.
    pub fn remove(&mut self, path: &Path) {
        remove(path);
        self.0.retain(|other| other != path);
    }
}

fn remove(path: &Path) {
    // What was kept is not there any longer.
    let _ = fs::remove_file(path).or_else(|_| fs::remove_dir_all(path));
}

/// Waits for a signal beside the command. Nothing can be made or renamed when it has come, since this
/// thread does not let go what it holds.
fn watch() {
    let Ok(mut signals) = Signals::new([SIGHUP, SIGINT, SIGQUIT, SIGTERM]) else { return };
    thread::spawn(move || {
        let Some(signal) = signals.forever().next() else { return };
        let held = TEMPORARY.lock().unwrap_or_else(PoisonError::into_inner);
        held.iter().for_each(|path| remove(path));
        let _ = low_level::emulate_default_handler(signal); // the command ends by the signal
        process::exit(128 + signal);
    });
}
