//! Writes the demonstration: its pictures as PNG files, with its sound as sound.wav, to a folder, from
//! which `mve make` makes the film; or the film that is made here, or its beginning that the listing
//! program takes: `demo_film [--beginning] FILE`, `demo_film --pictures FOLDER`.

use maker::demo;
use std::process::ExitCode;
use std::{env, fs};

fn main() -> ExitCode {
    let words: Vec<_> = env::args_os().skip(1).collect();
    let (path, written) = match &words[..] {
        [option, file] if option == "--beginning" => {
            (file, fs::write(file, demo::beginning(demo::LISTED).bytes()))
        }
        [option, folder] if option == "--pictures" => {
            (folder, demo::write_pictures(folder.as_ref()))
        }
        [file] => (file, fs::write(file, demo::film().bytes())),
        _ => {
            eprintln!("usage: demo_film [--beginning] FILE, or demo_film --pictures FOLDER");
            return ExitCode::from(2);
        }
    };
    match written {
        Ok(()) => ExitCode::SUCCESS,
        Err(error) => {
            eprintln!("demo_film: cannot write {}: {error}", path.to_string_lossy());
            ExitCode::FAILURE
        }
    }
}
