//! `make install`, `make uninstall` and `make dist`: C programs are built against what was installed or
//! unpacked, by the flags that `mve.pc` tells, and play the demonstration film.

use maker::demo;
use std::collections::BTreeMap;
use std::env;
use std::fs::{self, File};
use std::path::{Path, PathBuf};
use std::process::Command;

fn root() -> PathBuf {
    let root = Path::new(env!("CARGO_MANIFEST_DIR")).join("../..");
    root.canonicalize().expect("the repository")
}

/// An empty folder for a test.
fn fresh(name: &str) -> PathBuf {
    let folder = Path::new(env!("CARGO_TARGET_TMPDIR")).join(name);
    let _ = fs::remove_dir_all(&folder); // there is none at first
    fs::create_dir_all(&folder).expect("a folder");
    folder
}

/// Runs make with these words, which must succeed.
fn make(words: &[String]) {
    let mut command = Command::new("make");
    // The command has a target folder of its own, whatever cargo was told for the tests.
    command.arg("-C").arg(root()).args(words).env_remove("CARGO_TARGET_DIR");
    let output = command.output().expect("make runs");
    let said = [output.stdout, output.stderr].concat();
    assert!(output.status.success(), "{}", String::from_utf8_lossy(&said));
}

/// The files under a folder, by their paths in it.
fn files(folder: &Path) -> Vec<String> {
    let mut found = Vec::new();
    let mut folders = vec![folder.to_path_buf()];
    while let Some(next) = folders.pop() {
        for entry in fs::read_dir(&next).expect("a folder") {
            let path = entry.expect("an entry").path();
            if path.is_dir() {
                folders.push(path);
            } else {
                let path = path.strip_prefix(folder).expect("a path in the folder");
                found.push(path.to_string_lossy().into_owned());
            }
        }
    }
    found.sort();
    found
}

/// The command is installed where it is built, with its pages and completions where they are.
fn expected_files() -> Vec<String> {
    let mut expected =
        ["include/mve.h", "lib/libmve.a", "lib/pkgconfig/mve.pc"].map(String::from).to_vec();
    let target = root().join("command/target");
    if target.join("release/mve").exists() {
        expected.insert(0, "bin/mve".into());
        if target.join("share").exists() {
            expected
                .extend(files(&target.join("share")).iter().map(|name| format!("share/{name}")));
        }
    }
    expected
}

/// The flags for a compiler that pkg-config reads in `mve.pc`; where it is not there, as they stand in
/// the file, with its variables put in.
fn flags(prefix: &Path) -> Vec<String> {
    let folder = prefix.join("lib/pkgconfig");
    let text = fs::read_to_string(folder.join("mve.pc")).expect("mve.pc");
    let read = flags_in(&text.replace("${pcfiledir}", &folder.to_string_lossy()));
    let mut command = Command::new("pkg-config");
    command.args(["--cflags", "--libs", "mve"]).env("PKG_CONFIG_PATH", &folder);
    let Ok(output) = command.output() else { return read };
    assert!(output.status.success(), "{}", String::from_utf8_lossy(&output.stderr));
    let said = String::from_utf8(output.stdout).expect("text");
    let said: Vec<String> = said.split_whitespace().map(String::from).collect();
    assert_eq!(said, read, "pkg-config and the file");
    said
}

fn flags_in(text: &str) -> Vec<String> {
    let variables: BTreeMap<&str, &str> =
        text.lines().filter_map(|line| line.split_once('=')).collect();
    let mut words = Vec::new();
    for key in ["Cflags: ", "Libs: "] {
        let flags = text.lines().find_map(|line| line.strip_prefix(key)).expect("flags");
        for word in flags.split_whitespace() {
            let put_in = |word: String, (name, value): (&&str, &&str)| {
                word.replace(&format!("${{{name}}}"), value)
            };
            words.push(variables.iter().fold(word.to_owned(), put_in));
        }
    }
    words
}

#[test]
fn a_program_against_what_is_installed() {
    let folder = fresh("installed");
    let prefix = folder.join("prefix");
    make(&["install".into(), format!("PREFIX={}", prefix.display())]);
    assert_eq!(files(&prefix), expected_files());

    // Away from the repository, by the installed files alone.
    fs::copy(root().join("examples/synopsis.c"), folder.join("synopsis.c")).expect("the program");
    fs::write(folder.join("film.mve"), demo::film().bytes()).expect("the film");
    let compiled = Command::new("cc")
        .current_dir(&folder)
        .args(["-std=c99", "synopsis.c", "-o", "synopsis"])
        .args(flags(&prefix))
        .output()
        .expect("cc runs");
    assert!(compiled.status.success(), "{}", String::from_utf8_lossy(&compiled.stderr));
    let film = File::open(folder.join("film.mve")).expect("the film");
    let played = Command::new(folder.join("synopsis")).stdin(film).output().expect("it runs");
    let (width, height) = (8 * demo::SIZE.columns, 8 * demo::SIZE.rows);
    let expected = format!("{} pictures of {width} by {height} pixels\n", demo::FRAMES);
    assert_eq!(String::from_utf8_lossy(&played.stdout), expected);

    let installed = prefix.join("bin/mve");
    if installed.exists() {
        let said = Command::new(installed).arg("--version").output().expect("mve runs");
        assert!(String::from_utf8_lossy(&said.stdout).starts_with("mve "));
    }
    make(&["uninstall".into(), format!("PREFIX={}", prefix.display())]);
    assert_eq!(files(&prefix), Vec::<String>::new());
}

/// The tarball has what is installed, the documents and the example players. Unpacked elsewhere, it
/// builds a player, which plays.
#[test]
fn a_player_from_the_tarball() {
    let folder = fresh("tarball");
    make(&["dist".into(), format!("DIST={}", folder.join("made").display())]);
    let made = files(&folder.join("made"));
    let names: Vec<_> = made.iter().filter(|name| name.ends_with("-x86_64.tar.gz")).collect();
    let [name] = names[..] else { panic!("{made:?}") };
    let elsewhere = folder.join("elsewhere");
    fs::create_dir(&elsewhere).expect("a folder");
    let mut tar = Command::new("tar");
    tar.arg("-xzf").arg(folder.join("made").join(name)).current_dir(&elsewhere);
    assert!(tar.status().expect("tar runs").success());
    fs::remove_dir_all(folder.join("made")).expect("the folder where it was made");

    let tree = elsewhere.join(name.trim_end_matches("-x86_64.tar.gz"));
    let (documents, others): (Vec<_>, Vec<_>) =
        files(&tree).into_iter().partition(|name| name.starts_with("share/doc/mve/"));
    assert_eq!(others, expected_files());
    for document in ["README.md", "docs/RULES.md", "examples/play.c"] {
        assert!(documents.contains(&format!("share/doc/mve/{document}")), "{document}");
    }
    fs::write(folder.join("film.mve"), demo::film().bytes()).expect("the film");
    fs::create_dir(folder.join("pictures")).expect("a folder");
    let compiled = Command::new("cc")
        .current_dir(&folder)
        .args(["-std=c11", "-o", "play"])
        .arg(tree.join("share/doc/mve/examples/play.c"))
        .args(flags(&tree))
        .output()
        .expect("cc runs");
    assert!(compiled.status.success(), "{}", String::from_utf8_lossy(&compiled.stderr));
    let mut play = Command::new(folder.join("play"));
    let played = play.current_dir(&folder).args(["film.mve", "pictures", "1000"]).output();
    assert!(played.expect("the player runs").status.success());
    let pictures = files(&folder.join("pictures"));
    let pictures = pictures.iter().filter(|name| name.ends_with(".ppm")).count();
    assert_eq!(pictures, demo::FRAMES);
    if tree.join("bin/mve").exists() {
        let said =
            Command::new(tree.join("bin/mve")).arg("info").arg(folder.join("film.mve")).output();
        let said = String::from_utf8(said.expect("mve runs").stdout).expect("text");
        assert!(said.contains("plays to its end"), "{said}");
    }
}

/// Files go under DESTDIR; `mve.pc` tells where they are without it.
#[test]
fn under_destdir() {
    let stage = fresh("staged");
    let prefix = "/opt/films";
    make(&["install".into(), format!("DESTDIR={}", stage.display()), format!("PREFIX={prefix}")]);
    let staged = stage.join(prefix.trim_start_matches('/'));
    assert_eq!(files(&staged), expected_files());
    let text = fs::read_to_string(staged.join("lib/pkgconfig/mve.pc")).expect("mve.pc");
    let expected = [format!("-I{prefix}/include"), format!("-L{prefix}/lib"), "-lmve".into()];
    assert_eq!(flags_in(&text), expected);
    let header = fs::read_to_string(root().join("include/mve.h")).expect("the header");
    let version = header.lines().find_map(|line| line.strip_prefix("#define MVE_VERSION "));
    assert!(text.contains(&format!("\nVersion: {}\n", version.expect("a version"))), "{text}");
}

/// Where the archive is missing nothing is installed, and the message says what to do.
#[test]
fn without_an_archive() {
    let stage = fresh("nothing");
    let output = Command::new("make")
        .arg("-C")
        .arg(root())
        .args(["install", "MVE_LIB_DIR=/nowhere"])
        .arg(format!("DESTDIR={}", stage.display()))
        .output()
        .expect("make runs");
    assert!(!output.status.success());
    let said = String::from_utf8_lossy(&output.stderr);
    assert!(said.contains("install: /nowhere/libmve.a is missing: run make first"), "{said}");
    assert_eq!(files(&stage), Vec::<String>::new());
}
