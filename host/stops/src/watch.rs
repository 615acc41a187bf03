//! A process that is stopped after every machine instruction, and what is looked at there.

use crate::cases::Case;
use crate::ffi::{self, Status};
use crate::kept::Shared;
use crate::list::Prefix;
use crate::stopped::LENT;
use std::io::{self, Read};
use std::ops::AddAssign;
use std::path::Path;
use std::process::{Child, Command, Stdio};

/// A case that takes more instructions than this goes on for ever.
const MOST_INSTRUCTIONS: usize = 1_000_000;

/// What was seen.
#[derive(Clone, Copy, Debug, Default, PartialEq, Eq)]
pub struct Counts {
    /// Processes that were stepped.
    pub cases: usize,
    /// Stops inside a call of the library, each after one machine instruction of it.
    pub instructions: usize,
    /// Stops at which memory was not as at the stop before.
    pub changes: usize,
    /// Stores listed.
    pub stores: usize,
}

impl AddAssign for Counts {
    fn add_assign(&mut self, more: Counts) {
        self.cases += more.cases;
        self.instructions += more.instructions;
        self.changes += more.changes;
        self.stores += more.stores;
    }
}

/// A case that was stepped: the first thing of each kind that was not as expected.
#[derive(Clone, Debug, Default)]
pub struct Watched {
    /// What was seen.
    pub counts: Counts,
    /// Memory that no prefix of the listed stores leaves, or not one as long as before.
    pub disorder: Option<String>,
    /// A stop from which the call, made anew, does not end as if nothing had been stopped.
    pub wrong_end: Option<String>,
    /// An answer that is not the second decoder's.
    pub wrong_answer: Option<String>,
}

impl Watched {
    /// What was seen, if all was as expected.
    pub fn good(self) -> Result<Counts, String> {
        match self.disorder.or(self.wrong_end).or(self.wrong_answer) {
            Some(fault) => Err(fault),
            None => Ok(self.counts),
        }
    }
}

/// Steps a case, by this program, from its first stop to its last, and looks on after each machine
/// instruction. The compiler may have merged neighbouring stores into one instruction, so a prefix
/// may be longer than the one before by several stores; it may not be shorter.
pub fn watch(program: &Path, case: &dyn Case) -> io::Result<Watched> {
    let mut shared = Shared::<LENT>::new(case.found())?;
    let mut command = Command::new(program);
    command.args(case.arguments()).stdin(shared.file()?).stdout(Stdio::piped());
    let mut process = Traced::start(command)?;
    let mut prefix = Prefix::new(case.found().clone(), case.stores());
    let mut seen = case.found().clone();
    let mut watched = Watched::default();
    watched.counts.cases = 1;
    watched.counts.stores = case.stores().len();
    while process.step()? {
        let may_differ = shared.look()?;
        watched.counts.instructions += usize::from(shared.in_call());
        if watched.counts.instructions > MOST_INSTRUCTIONS {
            return Err(io::Error::other("the call does not end"));
        }
        let at = |fault| format!("{fault}, at stop {} in calls", watched.counts.instructions);
        if may_differ {
            let before = std::mem::replace(&mut seen, shared.memory());
            watched.counts.changes += usize::from(seen != before);
            if watched.disorder.is_none() {
                watched.disorder = prefix.reach(&seen).err().map(at);
            }
        }
        if watched.wrong_end.is_none() {
            watched.wrong_end = case.go_on(&seen).err().map(at);
        }
    }
    if watched.disorder.is_none() && !prefix.ends(&seen) {
        watched.disorder = Some("not all stores that are listed were made".to_string());
    }
    let answer = process.end()?;
    if answer != case.answer() {
        watched.wrong_answer = Some(format!("answered {answer:?}, not {:?}", case.answer()));
    }
    Ok(watched)
}

/// A process that this one traces. The thread that started it is the one that may step it.
struct Traced {
    child: Child,
    process: i32,
    running: bool,
}

impl Traced {
    /// Starts a process and waits until it stops itself.
    fn start(mut command: Command) -> io::Result<Traced> {
        let child = command.spawn()?;
        let process = child.id().try_into().map_err(io::Error::other)?;
        let mut traced = Traced { child, process, running: true };
        match traced.wait()? {
            Status::Stopped(ffi::SIGSTOP) => ffi::kill_with_me(process)?,
            other => return Err(unexpected("does not stop to be stepped", other)),
        }
        Ok(traced)
    }

    /// Steps one machine instruction. False where the process has stopped itself.
    fn step(&mut self) -> io::Result<bool> {
        ffi::step(self.process)?;
        match self.wait()? {
            Status::Stopped(ffi::SIGTRAP) => Ok(true),
            Status::Stopped(ffi::SIGSTOP) => Ok(false),
            other => Err(unexpected("does not take a step", other)),
        }
    }

    /// Lets it go on to its end. What it wrote.
    fn end(mut self) -> io::Result<String> {
        ffi::go_on(self.process)?;
        match self.wait()? {
            Status::Ended(0) => {}
            other => return Err(unexpected("does not end", other)),
        }
        let mut text = String::new();
        self.child.stdout.take().expect("it is piped").read_to_string(&mut text)?;
        Ok(text)
    }

    fn wait(&mut self) -> io::Result<Status> {
        let status = ffi::wait(self.process)?;
        self.running = matches!(status, Status::Stopped(_));
        Ok(status)
    }
}

impl Drop for Traced {
    fn drop(&mut self) {
        if self.running {
            let _ = self.child.kill().and_then(|()| self.child.wait()); // it is gone then
        }
    }
}

fn unexpected(what: &str, status: Status) -> io::Error {
    io::Error::other(format!("the process {what}: {status:?}"))
}
