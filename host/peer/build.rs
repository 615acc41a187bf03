//! Compiles the calls of libavformat and libavcodec and links both, where a program with them can be
//! compiled and linked and says that it plays MVE films; sets the cfg `libav` then. Elsewhere the crate
//! is built all the same, and its tests say that nothing is compared.

use std::env;
use std::fs;
use std::path::{Path, PathBuf};
use std::process::Command;

const SOURCE: &str = "c/libav.c";
const LIBRARIES: [&str; 3] = ["libavformat", "libavcodec", "libavutil"];
const HEADER: &str = "libavformat/avformat.h";
const PROBE: &str =
    "int libav_plays_films(void);\nint main(void) { return !libav_plays_films(); }\n";

fn main() {
    println!("cargo::rustc-check-cfg=cfg(libav)");
    println!("cargo::rerun-if-changed=build.rs");
    println!("cargo::rerun-if-changed={SOURCE}");
    let flags = flags();
    let folder = PathBuf::from(env::var_os("OUT_DIR").expect("cargo runs build scripts"));
    let built = match header(&flags) {
        Some(header) => archive(&folder, &flags).map(|()| header),
        None => Err("libavformat-dev is missing".to_owned()),
    };
    match built {
        Ok(header) => {
            println!("cargo::rerun-if-changed={}", header.display());
            link(&folder, &flags);
        }
        Err(why) => {
            // A file that is not there has cargo run this every time, so until it succeeds.
            println!("cargo::rerun-if-changed={HEADER}");
            println!("cargo::warning={why}: peer is built without libavformat and libavcodec");
        }
    }
}

/// What pkg-config says, else what Debian's packages need.
fn flags() -> Vec<String> {
    let found = Command::new("pkg-config").args(["--cflags", "--libs"]).args(LIBRARIES).output();
    match found {
        Ok(found) if found.status.success() => {
            let text = String::from_utf8_lossy(&found.stdout);
            text.split_whitespace().map(str::to_owned).collect()
        }
        _ => LIBRARIES.map(|library| library.replacen("lib", "-l", 1)).to_vec(),
    }
}

/// The flags of the compiler; the others are the linker's.
fn cflags(flags: &[String]) -> impl Iterator<Item = &String> {
    flags.iter().filter(|flag| !flag.starts_with("-l") && !flag.starts_with("-L"))
}

/// Where the compiler finds libavformat's header, if it does.
fn header(flags: &[String]) -> Option<PathBuf> {
    let listed = Command::new("cc").args(cflags(flags)).args(["-M", SOURCE]).output().ok()?;
    let rule = String::from_utf8_lossy(&listed.stdout);
    let found = listed.status.success();
    found.then(|| rule.split_whitespace().find(|path| path.ends_with(HEADER)))?.map(PathBuf::from)
}

/// Compiles the calls, links and runs a program with them, and puts them into an archive.
fn archive(folder: &Path, flags: &[String]) -> Result<(), String> {
    let (object, probe) = (folder.join("libav.o"), folder.join("probe.c"));
    let mut cc = Command::new("cc");
    cc.args(["-std=c11", "-O2", "-fPIC", "-Wall", "-Wextra", "-Wpedantic"]).args(cflags(flags));
    run("compiled", cc.args(["-c", SOURCE, "-o"]).arg(&object))?;
    fs::write(&probe, PROBE).map_err(|error| format!("{}: {error}", probe.display()))?;
    let mut cc = Command::new("cc");
    let program = folder.join("probe");
    run("linked", cc.arg(&probe).arg(&object).args(flags).arg("-o").arg(&program))?;
    run("used for MVE films", &mut Command::new(program))?;
    let mut ar = Command::new("ar");
    run("archived", ar.arg("crs").arg(folder.join("libpeer_libav.a")).arg(&object))
}

/// What the command writes is shown by `cargo build -vv`.
fn run(done: &str, command: &mut Command) -> Result<(), String> {
    let name = command.get_program().to_string_lossy().into_owned();
    match command.status() {
        Ok(status) if status.success() => Ok(()),
        Ok(status) => Err(format!("{SOURCE} cannot be {done} ({name}: {status})")),
        Err(error) => Err(format!("{name} does not run: {error}")),
    }
}

fn link(folder: &Path, flags: &[String]) {
    println!("cargo::rustc-cfg=libav");
    println!("cargo::rustc-link-search=native={}", folder.display());
    println!("cargo::rustc-link-lib=static=peer_libav");
    for flag in flags {
        if let Some(name) = flag.strip_prefix("-l") {
            println!("cargo::rustc-link-lib=dylib={name}");
        } else if let Some(folder) = flag.strip_prefix("-L") {
            println!("cargo::rustc-link-search=native={folder}");
        }
    }
}
