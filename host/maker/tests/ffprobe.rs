//! Films as other players see them: ffprobe (Debian: ffmpeg) opens what is made here, with the size
//! in pixels that was meant. Where it is not on the machine, the test says so and passes.

use maker::film::{self, Film};
use maker::{demo, Profile, Seeded, Size};
use std::fs;
use std::io::{self, ErrorKind, Write};
use std::path::Path;
use std::process::Command;

/// The sizes at the limits, and others.
const SIZES: [(usize, usize); 7] = [(80, 60), (1, 1), (80, 1), (1, 60), (40, 25), (60, 59), (2, 3)];

/// Width and height of the film's pictures as ffprobe tells them; none where it is not there.
fn probed(film: &Film, name: &str) -> Option<String> {
    let path = Path::new(env!("CARGO_TARGET_TMPDIR")).join(name);
    fs::write(&path, film.bytes()).expect("the film is written");
    let mut command = Command::new("ffprobe");
    command.args(["-v", "error", "-select_streams", "v", "-of", "csv=p=0"]);
    let output = match command.args(["-show_entries", "stream=width,height"]).arg(&path).output() {
        Err(error) if error.kind() == ErrorKind::NotFound => return None,
        other => other.expect("ffprobe runs"),
    };
    assert!(output.status.success(), "{name}: {}", String::from_utf8_lossy(&output.stderr));
    Some(String::from_utf8(output.stdout).expect("text").trim().to_string())
}

#[test]
fn sizes_in_pixels() {
    let rng = &mut Seeded::new(1);
    let sized = SIZES.map(|(columns, rows)| {
        let size = Size::new(columns, rows);
        film::plain(rng, size, Profile::Light, 2)
    });
    for film in sized.iter().chain([&demo::film()]) {
        let Size { columns, rows } = film.size;
        let Some(found) = probed(film, &format!("{columns}x{rows}.mve")) else {
            // Not by a macro: the harness would keep it to itself.
            let missing = "ffprobe is not there (Debian: ffmpeg): sizes are not compared with it\n";
            return io::stderr().write_all(missing.as_bytes()).expect("standard error");
        };
        assert_eq!(found, format!("{},{}", 8 * columns, 8 * rows), "{columns}x{rows} blocks");
    }
}
