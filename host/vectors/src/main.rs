//! Writes the packet-check cases and their answers: `vectors INPUT OUTPUT`.

use std::process::ExitCode;
use std::{env, fs, io};

fn main() -> ExitCode {
    let paths: Vec<_> = env::args_os().skip(1).collect();
    let [input, output] = &paths[..] else {
        eprintln!("usage: vectors INPUT OUTPUT");
        return ExitCode::from(2);
    };
    match write(input, output) {
        Ok(()) => ExitCode::SUCCESS,
        Err(error) => {
            eprintln!("vectors: {error}");
            ExitCode::FAILURE
        }
    }
}

fn write(input: &std::ffi::OsStr, output: &std::ffi::OsStr) -> io::Result<()> {
    let vectors = vectors::generate();
    fs::write(input, vectors.input)?;
    fs::write(output, vectors.output)
}
