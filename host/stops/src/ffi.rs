//! The system's calls on x86-64 Linux: memory that two processes share, and single steps of a
//! process. All unsafe code is here.

#![allow(unsafe_code)]

use crate::kept::Kept;
use std::ffi::{c_char, c_int, c_long, c_uint, c_void};
use std::fs::File;
use std::io;
use std::mem;
use std::os::fd::{AsRawFd, FromRawFd};
use std::ptr;
use std::sync::atomic::{AtomicBool, Ordering};

unsafe extern "C" {
    fn memfd_create(name: *const c_char, flags: c_uint) -> c_int;
    fn mmap(
        address: *mut c_void,
        length: usize,
        protection: c_int,
        flags: c_int,
        file: c_int,
        offset: i64,
    ) -> *mut c_void;
    fn ptrace(request: c_uint, ...) -> c_long;
    fn waitpid(process: c_int, status: *mut c_int, options: c_int) -> c_int;
    safe fn raise(signal: c_int) -> c_int;
}

const MFD_CLOEXEC: c_uint = 1;
const PROT_READ: c_int = 1;
const PROT_WRITE: c_int = 2;
const MAP_SHARED: c_int = 1;
const PTRACE_TRACEME: c_uint = 0;
const PTRACE_CONT: c_uint = 7;
const PTRACE_SINGLESTEP: c_uint = 9;
const PTRACE_SETOPTIONS: c_uint = 0x4200;
const PTRACE_O_EXITKILL: usize = 1 << 20;

/// The signal that [`stop`] raises.
pub const SIGSTOP: i32 = 19;
/// The signal that a process is stopped by after a single step.
pub const SIGTRAP: i32 = 5;

/// Where a process is, of which [`wait`] was told.
#[derive(Clone, Copy, Debug, PartialEq, Eq)]
pub enum Status {
    /// Stopped by this signal, and traced.
    Stopped(i32),
    /// It ended with this code.
    Ended(i32),
    /// It was killed by this signal.
    Killed(i32),
}

/// Memory of so many zero bytes that no file system has, as a file: it lives as long as a process
/// has it open.
pub fn memory(length: u64) -> io::Result<File> {
    // SAFETY: the name is a string that ends in 0 and lives for ever.
    let number = unsafe { memfd_create(c"kept".as_ptr(), MFD_CLOEXEC) };
    failed(number.into())?;
    // SAFETY: the file was just opened, and nobody else closes it.
    let file = unsafe { File::from_raw_fd(number) };
    file.set_len(length)?;
    Ok(file)
}

/// Maps the memory that is kept, shared with every process that has it open. Once in a process.
pub fn map<const LENT: usize>(file: &File) -> io::Result<&'static mut Kept<LENT>> {
    static MAPPED: AtomicBool = AtomicBool::new(false);
    let length = mem::size_of::<Kept<LENT>>();
    let is_first = !MAPPED.swap(true, Ordering::SeqCst);
    assert!(is_first && file.metadata()?.len() == length as u64, "mapped once, and whole");
    let (protection, number) = (PROT_READ | PROT_WRITE, file.as_raw_fd());
    // SAFETY: the system chooses the addresses, so nothing that is in use is mapped over.
    let address = unsafe { mmap(ptr::null_mut(), length, protection, MAP_SHARED, number, 0) };
    if address.addr() == usize::MAX {
        return Err(io::Error::last_os_error());
    }
    // SAFETY: the mapping is as long as the type, page-aligned and never unmapped; any bytes are
    // valid for the type, which has only numbers; it is mapped once in this process, and other
    // processes write it only while this one is not there.
    Ok(unsafe { &mut *address.cast() })
}

/// Has the process that started this one trace it from now on.
pub fn trace_me() -> io::Result<()> {
    // SAFETY: this request reads no address.
    failed(unsafe { ptrace(PTRACE_TRACEME, 0, 0_usize, 0_usize) })
}

/// Stops this process.
pub fn stop() {
    raise(SIGSTOP);
}

/// Has a stopped process killed where this one ends before it.
pub fn kill_with_me(process: i32) -> io::Result<()> {
    // SAFETY: this request reads no address.
    failed(unsafe { ptrace(PTRACE_SETOPTIONS, process, 0_usize, PTRACE_O_EXITKILL) })
}

/// Lets a stopped process go on for one machine instruction, without the signal that stopped it.
pub fn step(process: i32) -> io::Result<()> {
    // SAFETY: this request reads no address.
    failed(unsafe { ptrace(PTRACE_SINGLESTEP, process, 0_usize, 0_usize) })
}

/// Lets a stopped process go on, without the signal that stopped it.
pub fn go_on(process: i32) -> io::Result<()> {
    // SAFETY: this request reads no address.
    failed(unsafe { ptrace(PTRACE_CONT, process, 0_usize, 0_usize) })
}

/// Waits until a child process is stopped or no more.
pub fn wait(process: i32) -> io::Result<Status> {
    let mut status = 0;
    // SAFETY: the status is a number that lives through the call.
    failed(unsafe { waitpid(process, &mut status, 0) }.into())?;
    Ok(match (status & 0x7F, status >> 8 & 0xFF) {
        (0x7F, signal) => Status::Stopped(signal),
        (0, code) => Status::Ended(code),
        (signal, _) => Status::Killed(signal),
    })
}

fn failed(answer: c_long) -> io::Result<()> {
    if answer == -1 {
        return Err(io::Error::last_os_error());
    }
    Ok(())
}
