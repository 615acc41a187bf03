//! The pages: every link leads to a file, a folder or a heading that is there, every definition,
//! function, theorem, test and edit that docs/TRACE.md and the pages of decisions name is there, the
//! index of docs/TRACE.md has its sections, and the figures in README.md are those of the pages that they
//! are taken from.

use std::fs;
use std::path::{Path, PathBuf};

fn root() -> PathBuf {
    Path::new(env!("CARGO_MANIFEST_DIR")).join("../..").canonicalize().expect("the repository")
}

fn read(path: &Path) -> String {
    fs::read_to_string(path).unwrap_or_else(|error| panic!("{}: {error}", path.display()))
}

/// All pages of the repository.
fn pages() -> Vec<PathBuf> {
    let folders = [".", "docs", "docs/landings", "command", "examples/boot", "host/mve"];
    let folders = folders.map(|folder| root().join(folder));
    let mut pages = Vec::new();
    for folder in folders {
        let entries = fs::read_dir(folder).expect("a folder").map(|entry| entry.expect("an entry"));
        pages.extend(
            entries.map(|e| e.path()).filter(|path| path.extension() == Some("md".as_ref())),
        );
    }
    pages
}

/// The targets of the links in a text, outside of code.
fn links(text: &str) -> Vec<&str> {
    let mut targets = Vec::new();
    let mut rest = text;
    while let Some((_, behind)) = rest.split_once("](") {
        let (target, further) = behind.split_once(')').expect("the end of a link");
        targets.push(target);
        rest = further;
    }
    targets
}

/// The name of a heading in a link.
fn anchor(heading: &str) -> String {
    let kept = heading.trim_start_matches('#').trim().to_lowercase();
    let kept = kept.chars().filter(|c| c.is_alphanumeric() || matches!(c, ' ' | '-' | '_'));
    kept.collect::<String>().replace(' ', "-")
}

fn has_heading(page: &Path, wanted: &str) -> bool {
    read(page).lines().any(|line| line.starts_with('#') && anchor(line) == wanted)
}

#[test]
fn links_lead_somewhere() {
    let mut found = 0;
    for page in pages() {
        for link in links(&read(&page)) {
            if link.starts_with("http") {
                continue;
            }
            let (file, heading) = link.split_once('#').unwrap_or((link, ""));
            let folder = page.parent().expect("a folder");
            let target = if file.is_empty() { page.clone() } else { folder.join(file) };
            assert!(target.exists(), "{}: {link}", page.display());
            let is_there = heading.is_empty() || has_heading(&target, heading);
            assert!(is_there, "{}: {link}: no such heading", page.display());
            found += 1;
        }
    }
    assert!(found >= 50, "{found} links");
}

/// Whether a definition, a law, a record, a field or a constructor of this name stands in a source
/// of antt: a word before the first colon, equals sign or bracket of a line.
fn defines(source: &str, name: &str) -> bool {
    source.lines().any(|line| {
        let head = line.split([':', '=', '(', '{']).next().unwrap_or_default();
        head.split_whitespace().any(|word| word == name)
    })
}

/// Whether a source of Rattle or Rust has a function of this name.
fn has_function(source: &str, name: &str) -> bool {
    let mut behind = source.split("fn ").skip(1);
    behind.any(|rest| rest.strip_prefix(name).is_some_and(|rest| rest.starts_with(['(', '<'])))
}

/// The Rattle sources of a crate.
fn sources(name: &str) -> Vec<String> {
    let files = fs::read_dir(root().join("crates").join(name).join("src")).expect("the sources");
    files.map(|file| read(&file.expect("a file").path())).collect()
}

/// Whether what a page names is there; none where it names nothing of the tree.
fn is_there(name: &str) -> Option<bool> {
    let is_crate = |name: &str| !name.is_empty() && root().join("crates").join(name).is_dir();
    let is_name = |c: char| c.is_alphanumeric() || "_-/.:−′".contains(c);
    if !name.chars().all(is_name) {
        return None;
    }
    if let Some((path, test)) = name.split_once(".rs") {
        let path = format!("{path}.rs");
        let test = test.strip_prefix("::");
        let source = fs::read_to_string(root().join("host").join(&path));
        let source = source.or_else(|_| fs::read_to_string(root().join(&path))).unwrap_or_default();
        return Some(!source.is_empty() && test.is_none_or(|test| has_function(&source, test)));
    }
    let parts: Vec<&str> = name.split('/').collect();
    match parts[..] {
        [of, "must-fail", _] if is_crate(of) => {
            Some(root().join("crates").join(format!("{name}.edit")).exists())
        }
        [of, folder @ ("specs" | "proofs"), what] if is_crate(of) => {
            let mut names = what.trim_end_matches(".antt").split('.');
            let file = format!("{}.antt", names.next().unwrap_or_default());
            let path = root().join("crates").join(of).join(folder).join(file);
            let source = fs::read_to_string(path).unwrap_or_default();
            Some(!source.is_empty() && names.all(|name| defines(&source, name)))
        }
        [_] => {
            let (of, what) = name.split_once("::").filter(|(of, _)| is_crate(of))?;
            let function = what.rsplit("::").next().unwrap_or_default();
            let is_there = || sources(of).iter().any(|source| has_function(source, function));
            (!function.starts_with(char::is_uppercase)).then(is_there)
        }
        _ => None,
    }
}

#[test]
fn names_are_there() {
    let (mut found, mut lost) = (0, Vec::new());
    for page in ["docs/TRACE.md", "docs/DECISIONS.md", "docs/DECISIONS-CODE.md"] {
        let text = read(&root().join(page));
        for name in text.split('`').skip(1).step_by(2) {
            let Some(there) = is_there(name) else { continue };
            if !there {
                lost.push(format!("{page}: {name}"));
            }
            found += 1;
        }
    }
    assert!(lost.is_empty(), "names of what is not there:\n{}", lost.join("\n"));
    assert!(found >= 1500, "{found} names");
    for gone in ["packet/specs/Verdict.gone", "packet::gone", "packet/must-fail/gone"] {
        assert_eq!(is_there(gone), Some(false), "{gone}");
    }
    assert_eq!(is_there("compare/tests/films.rs::gone"), Some(false));
}

/// The index of docs/TRACE.md leads to each of its sections, in their order.
#[test]
fn index_of_trace() {
    let page = read(&root().join("docs/TRACE.md"));
    let (_, behind) = page.split_once("\n## Index\n").expect("an index");
    let (index, sections) = behind.split_once("\n## ").expect("sections");
    let sections = format!("## {sections}");
    let headings = sections.lines().filter(|line| line.starts_with("##")).map(anchor);
    let listed: Vec<_> =
        links(index).into_iter().map(|link| link.trim_start_matches('#')).collect();
    assert_eq!(listed, headings.collect::<Vec<_>>());
    assert!(listed.len() >= 30, "{} sections", listed.len());
}

/// The cells of the first row of a table that begins so.
fn row<'a>(text: &'a str, start: &str) -> Vec<&'a str> {
    let is_row = |line: &&str| line.strip_prefix("| ").is_some_and(|rest| rest.starts_with(start));
    let line = text.lines().find(is_row).unwrap_or_else(|| panic!("no row {start}"));
    line.split('|').map(str::trim).collect()
}

#[test]
fn figures_of_the_readme() {
    let readme = read(&root().join("README.md"));
    let times = read(&root().join("docs/PERFORMANCE.md"));
    let header = read(&root().join("include/mve.h"));
    let first_word = |row: Vec<&str>| first_word_of(row[2]);

    let ratio = |codes: &str| row(&times, codes)[8].to_owned();
    assert_eq!(first_word(row(&readme, "Time for a mix")), ratio("mix "));
    let worst = row(&times, "draw/libavcodec of every kind");
    assert_eq!(first_word(row(&readme, "Time for copied blocks")), first_word_of(worst[2]));
    for sound in ["mono ", "stereo "] {
        let step = row(&times, sound)[7];
        assert!(row(&readme, "Time for compressed sound")[2].contains(step), "{sound}");
    }
    let worst = row(&times, "video1/libavcodec of every kind");
    assert_eq!(first_word(row(&readme, "Time for Microsoft Video 1")), first_word_of(worst[2]));

    let [library, stage] = ["stack of ", "whole stage of "].map(|start| {
        let lines = header.lines().filter_map(|line| line.trim().strip_prefix(start));
        let bytes = lines.filter_map(|line| {
            line.split_whitespace().nth(1)?.replace(',', "").parse::<usize>().ok()
        });
        bytes.max().expect("the stack of a call")
    });
    let told = format!(
        "a call at most {library} bytes; a least player, with its loop, its arguments and the deepest \
         call, {}",
        grouped(stage)
    );
    assert_eq!(row(&readme, "Stack")[2], told);

    let code = header.lines().find_map(|line| line.trim().strip_prefix("code "));
    let code = code.and_then(|code| code.trim().split(',').next()).expect("thousands of bytes");
    assert!(row(&readme, "Code")[2].starts_with(&format!("{code} KB, ")), "{code}");

    let picture = |codes: &str| {
        let nanoseconds: f64 = row(&times, codes)[5].parse().expect("nanoseconds a pixel");
        (nanoseconds * mve::PICTURE_BYTES as f64 / 1000.0).round()
    };
    let told = format!(
        "{} us for a picture of 640x480 that stays as it is, to {} us for one with all codes; ",
        picture("1 "),
        picture("mix ")
    );
    assert!(row(&readme, "Time ")[2].starts_with(&told), "{told}");

    // What a player lends: palette, pictures of one kind, room, place and two answers.
    let answers = 2 * mve::numbers::STEPPED_NUMBERS * size_of::<usize>();
    let lent =
        |pictures| mve::PALETTE_BYTES + pictures + mve::ROOM_BYTES + size_of::<usize>() + answers;
    let bytes = grouped(lent(2 * mve::PICTURE_BYTES));
    let words = grouped(lent(3 * mve::PICTURE_WORDS * size_of::<u16>()));
    let told = format!("{bytes} bytes at most beside the film, with true colour {words}: ");
    assert!(row(&readme, "Memory that you lend")[2].starts_with(&told), "{told}");
    let in_all = header.lines().find_map(|line| line.trim().strip_prefix("in all "));
    let in_all: Vec<_> = in_all.unwrap_or_default().split_whitespace().collect();
    assert_eq!(in_all, [&*bytes, &*words, "bytes"]);
}

/// A number with commas: 746,662.
fn grouped(number: usize) -> String {
    match number {
        0..1000 => number.to_string(),
        _ => format!("{},{:03}", grouped(number / 1000), number % 1000),
    }
}

fn first_word_of(cell: &str) -> String {
    cell.split(' ').next().unwrap_or_default().to_owned()
}
