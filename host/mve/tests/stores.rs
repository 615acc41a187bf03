//! One function for each store (01, "Stores"): of the library's functions `paint::put` stores a
//! pixel, `paint::set_place` the place, `palette::put` a byte of the palette, and `dpcm::put`,
//! `dpcm::put_start_byte`, `room::put_byte` and `room::put_value` a byte of sound or of a new film,
//! once each, and no other does. Their contracts ask that a store is the next of its list; that nothing
//! else stores is read from the sources, since no contract says which function stores. The numbers of
//! an answer, which are no part of a film's memory, are stored by some functions of `mve_states` and
//! `mve_steps`, to `out` alone; `parts::put_number` stores a number of a list and `encode::put` a byte of a
//! map or a packet that is made.
//!
//! A store is an assignment or a call of a method of slices that stores. Lent memory is assigned to by
//! an index, through a reference, or as a field: an assignment to a mere name is to the function's
//! own, and so is one to a field of a struct that the function made by a literal, as long as the
//! name can be no other's. The kit's crates have functions that store, so no library crate may use
//! them.

use std::collections::BTreeSet;
use std::fs;
use std::path::{Path, PathBuf};

/// The functions that store, in the order of their names.
const STORING: [&str; 9] = [
    "dpcm::put",
    "dpcm::put_start_byte",
    "encode::put",
    "paint::put",
    "paint::set_place",
    "palette::put",
    "parts::put_number",
    "room::put_byte",
    "room::put_value",
];

/// The functions that store numbers of an answer, in the order of their names.
const ANSWERING: [&str; 10] = [
    "mve_states::put_deep",
    "mve_states::put_format",
    "mve_states::put_map",
    "mve_states::put_no_state",
    "mve_states::put_numbers",
    "mve_states::put_place",
    "mve_states::put_samples",
    "mve_states::put_unsent",
    "mve_steps::put_answer",
    "mve_steps::put_rows",
];

/// Those of them that store by a method, and by which: the numbers where there is no state are 18
/// zeros of an answer, of which no rule asks an order.
const FILLING: [(&str, &str); 1] = [("mve_states::put_no_state", "fill")];

/// Operators with an equals sign that do not assign, and those that do.
const OTHERS: [&str; 6] = ["..=", "==", "!=", "<=", ">=", "=>"];
const ASSIGNING: [&str; 11] = ["<<=", ">>=", "+=", "-=", "*=", "/=", "%=", "&=", "|=", "^=", "="];

/// Methods that store to what they are called on.
const METHODS: [&str; 16] = [
    "chunks_exact_mut",
    "chunks_mut",
    "clone_from_slice",
    "copy_from_slice",
    "copy_within",
    "fill",
    "fill_with",
    "iter_mut",
    "replace",
    "reverse",
    "rotate_left",
    "rotate_right",
    "sort",
    "split_at_mut",
    "swap",
    "swap_with_slice",
];

#[derive(Clone, Copy)]
struct Token<'a> {
    text: &'a str,
    line: usize,
}

/// A store to what may be lent: the function that makes it, the line, what is assigned to, and the
/// method that stores, if it is one.
struct Store {
    function: String,
    line: usize,
    target: String,
    method: Option<String>,
}

/// The length of the token that a text begins with.
fn token_length(text: &str) -> usize {
    let word = |from: usize| {
        let end = text[from..].find(|c: char| !c.is_alphanumeric() && c != '_');
        end.map_or(text.len(), |end| from + end)
    };
    let mut chars = text.chars();
    let (Some(one), two, three) = (chars.next(), chars.next(), chars.next()) else { return 0 };
    match one {
        '"' => quoted_length(text),
        '\'' if two == Some('\\') || three == Some('\'') => quoted_length(text),
        '\'' => word(1), // a lifetime
        _ if word(0) > 0 => word(0),
        _ => {
            let mut operators = OTHERS.iter().chain(&ASSIGNING);
            operators.find(|of| text.starts_with(**of)).map_or(one.len_utf8(), |of| of.len())
        }
    }
}

/// The length of the text in quotes, of which the first character is one.
fn quoted_length(text: &str) -> usize {
    let quote = text.chars().next();
    let mut escaped = false;
    let end = text.char_indices().skip(1).find(|&(_, c)| {
        let ends = Some(c) == quote && !escaped;
        escaped = c == '\\' && !escaped;
        ends
    });
    end.map_or(text.len(), |(at, _)| at + 1)
}

/// The tokens of a source, without comments.
fn tokens(source: &str) -> Vec<Token<'_>> {
    let (mut found, mut rest, mut line) = (Vec::new(), source, 1);
    while let Some(c) = rest.chars().next() {
        let upto = |end: &str| rest.find(end).map_or(rest.len(), |at| at + end.len());
        let (length, is_token) = match c {
            _ if c.is_whitespace() => (c.len_utf8(), false),
            _ if rest.starts_with("//") => (upto("\n"), false),
            _ if rest.starts_with("/*") => (upto("*/"), false),
            _ => (token_length(rest), true),
        };
        let (text, behind) = rest.split_at(length);
        if is_token {
            found.push(Token { text, line });
        }
        line += text.matches('\n').count();
        rest = behind;
    }
    found
}

/// The tokens that run: without `ghost use` and without the clauses of contracts.
fn code(source: &str) -> Vec<Token<'_>> {
    let mut tokens = &tokens(source)[..];
    let mut kept = Vec::new();
    while let [token, behind @ ..] = tokens {
        let length = match (token.text, behind) {
            ("ghost", [Token { text: "use", .. }, ..]) => {
                behind.iter().position(|token| token.text == ";").map(|at| at + 1)
            }
            ("ghost" | "requires" | "ensures", _) => group_end(behind),
            _ => {
                kept.push(*token);
                Some(0)
            }
        };
        tokens = &behind[length.unwrap_or(behind.len())..];
    }
    kept
}

/// Where the first group in braces ends.
fn group_end(tokens: &[Token<'_>]) -> Option<usize> {
    let mut depth = 0;
    let last = tokens.iter().position(|token| {
        match token.text {
            "{" => depth += 1,
            "}" => depth -= 1,
            _ => (),
        }
        token.text == "}" && depth == 0
    });
    last.map(|at| at + 1)
}

/// What an assignment behind these tokens assigns to: all back to where its statement begins.
fn target<'t, 'a>(before: &'t [Token<'a>]) -> &'t [Token<'a>] {
    let mut depth = 0;
    let start = before.iter().rposition(|token| {
        match token.text {
            ")" | "]" => depth += 1,
            "(" | "[" => depth -= 1,
            _ => (),
        }
        depth < 0 || depth == 0 && [";", "{", "}", "=>", ",", "="].contains(&token.text)
    });
    &before[start.map_or(0, |at| at + 1)..]
}

/// Whether that may be lent: not a mere name, nor what `let`, `const` or `type` gives a name to.
fn may_be_lent(target: &[Token<'_>]) -> bool {
    let names = |token: &Token<'_>| ["let", "const", "type"].contains(&token.text);
    target.len() != 1 && !target.iter().any(names)
}

/// Whether that is a field of a struct that the function made by a literal, in these tokens before:
/// its block is open still, and behind it the name stands in front of fields alone, so that no
/// `let`, pattern or closure has given it to something else.
fn is_own_field(before: &[Token<'_>], target: &[Token<'_>]) -> bool {
    let [name, dot, _] = target else { return false };
    let makes = |tokens: &[Token<'_>]| {
        let [a, b, c, d, kind, open] = tokens else { return false };
        let is_type = kind.text.starts_with(|first: char| first.is_ascii_uppercase());
        [a.text, b.text, c.text, d.text, open.text] == ["let", "mut", name.text, "=", "{"]
            && is_type
    };
    let Some(made) = before.windows(6).rposition(makes) else { return false };
    let literal = &before[made + 5..];
    let behind = &literal[group_end(literal).unwrap_or(literal.len())..];
    let mut depth = 0;
    let is_open = behind.iter().all(|token| {
        match token.text {
            "{" => depth += 1,
            "}" => depth -= 1,
            _ => (),
        }
        depth >= 0
    });
    let is_field = |pair: &[Token<'_>]| pair[0].text != name.text || pair[1].text == ".";
    let ends = behind.first().is_some_and(|token| token.text == ";");
    dot.text == "." && ends && is_open && behind.windows(2).all(is_field)
}

/// The stores to what may be lent in a source of this crate.
fn stores(name: &str, source: &str) -> Vec<Store> {
    let code = code(source);
    let (mut found, mut start) = (Vec::new(), 0);
    for (at, token) in code.iter().enumerate() {
        let is_method = METHODS.contains(&token.text)
            && at > 0
            && code[at - 1].text == "."
            && code.get(at + 1).is_some_and(|next| next.text == "(");
        if token.text == "fn" {
            start = at;
        } else if is_method || ASSIGNING.contains(&token.text) {
            let target = target(&code[..at - usize::from(is_method)]);
            if is_method || may_be_lent(target) && !is_own_field(&code[start..at], target) {
                let function = format!("{name}::{}", code[start + 1].text);
                let target = target.iter().map(|token| token.text).collect();
                let method = is_method.then(|| token.text.to_string());
                found.push(Store { function, line: token.line, target, method });
            }
        }
    }
    found
}

fn root() -> PathBuf {
    Path::new(env!("CARGO_MANIFEST_DIR")).join("../..")
}

/// The crates of `crates.txt`, each with those that it depends on.
fn listed() -> Vec<(String, Vec<String>)> {
    let list = fs::read_to_string(root().join("crates.txt")).expect("crates.txt");
    let lines = list.lines().map(|line| line.split('#').next().unwrap_or(line));
    let crates = lines.filter_map(|line| line.split_once(':')).map(|(name, needed)| {
        let needed = needed.split_whitespace().map(String::from).collect();
        // a static library says so behind its name
        (name.split_whitespace().next().unwrap_or_default().to_string(), needed)
    });
    crates.collect()
}

/// Those of them that are no programs.
fn libraries() -> Vec<(String, Vec<String>)> {
    let is_program = |name: &str| root().join("crates").join(name).join("src/main.rt").is_file();
    listed().into_iter().filter(|(name, _)| !is_program(name)).collect()
}

/// The sources in a folder of the repository and in the folders in it.
fn sources(folder: &str) -> Vec<String> {
    let entries = fs::read_dir(root().join(folder)).unwrap_or_else(|e| panic!("{folder}: {e}"));
    let mut found = Vec::new();
    for entry in entries {
        let entry = entry.expect("an entry");
        let path = format!("{folder}/{}", entry.file_name().to_string_lossy());
        if entry.path().is_dir() {
            found.extend(sources(&path));
        } else if path.ends_with(".rt") {
            found.push(path);
        }
    }
    found
}

/// The functions that store, those that store numbers of an answer, and the stores of others.
#[derive(Default)]
struct Judged {
    storing: Vec<String>,
    answering: BTreeSet<String>,
    strays: Vec<String>,
}

impl Judged {
    /// With the stores in a source of this crate.
    fn judge(&mut self, name: &str, path: &str, source: &str) {
        for Store { function, line, target, method } in stores(name, source) {
            let fills = |method: &String| FILLING.contains(&(&*function, &**method));
            let is_answer = ANSWERING.contains(&&*function) && target.starts_with("out[");
            if is_answer && method.as_ref().is_none_or(fills) {
                self.answering.insert(function);
                continue;
            }
            let is_one = STORING.contains(&&*function) && method.is_none();
            if !is_one || self.storing.contains(&function) {
                self.strays.push(format!("{path}:{line}: {function} stores to {target}"));
            }
            self.storing.push(function);
        }
    }
}

#[test]
fn one_function_for_each_store() {
    let mut judged = Judged::default();
    for (name, _) in libraries() {
        for path in sources(&format!("crates/{name}/src")) {
            let source = fs::read_to_string(root().join(&path)).expect("a source");
            judged.judge(&name, &path, &source);
        }
    }
    let Judged { mut storing, answering, strays } = judged;
    let strays = strays.join("\n");
    assert!(strays.is_empty(), "stores beside the one of each of {STORING:?}:\n{strays}");
    storing.sort();
    assert_eq!(storing, STORING);
    assert!(answering.iter().eq(&ANSWERING), "{answering:?}");
}

/// The functions whose calls pick a list of stores (`Brand`), and with that say which list is kept
/// to, and what each calls so.
const PICKING: [(&str, &str); 10] = [
    ("paint::paint_part", "paint::first_part"),
    ("paint::paint_word_part", "paint::first_part"),
    ("palette::create_gradient", "palette::put_gradients"),
    ("palette::set_palette", "palette::put_entries"),
    ("palette::set_palette_compressed", "palette::put_groups"),
    ("video1::paint_frame", "video1::paint_code"),
    ("whole::paint_and_pass", "whole::paint_block"),
    ("whole::paint_whole", "whole::paint_pixels"),
    ("word_whole::paint_word_and_pass", "word_whole::paint_block"),
    ("word_whole::paint_word_whole", "word_whole::paint_pixels"),
];

/// The traits whose ghost members are lists.
const LISTS: [&str; 2] = ["Drawing", "Listing"];

/// The calls that pick a list, each with its function; the traits that `Brand` has; and what might
/// pick a list unseen: `Brand` under another name, and a list of another type.
#[derive(Default)]
struct Picks {
    calls: Vec<(String, String)>,
    lists: Vec<String>,
    strays: Vec<String>,
}

impl Picks {
    /// With those in a source of this crate.
    fn read(&mut self, name: &str, source: &str) {
        let code = code(source);
        let texts: Vec<&str> = code.iter().map(|token| token.text).collect();
        let mut function = "";
        for at in 0..texts.len() {
            let (before, from) = texts.split_at(at);
            let is_stray = match (before, from) {
                (_, ["fn", named, ..]) => {
                    function = named;
                    false
                }
                ([before @ .., _, ":", ":", "<"], ["Brand", ..]) => {
                    let called = callee(name, &texts, &texts[..before.len() + 1]);
                    self.calls.push((format!("{name}::{function}"), called));
                    false
                }
                ([.., "impl", list, "for"], ["Brand", "{", ..]) => {
                    self.lists.push(list.to_string());
                    false
                }
                ([.., "use", "std", ":", ":", "marker", ":", ":"], ["Brand", ";", ..]) => false,
                (_, ["Brand", ..] | ["marker", ":", ":", "*", ..]) => true,
                ([.., "impl"], [_, "for", "Brand", "{", ..]) => false,
                (_, [list, "for" | "as" | "<", ..]) => LISTS.contains(list),
                _ => false,
            };
            if is_stray {
                let line = code[at].line;
                self.strays.push(format!("{name}::{function}: {line}: {}", texts[at]));
            }
        }
    }
}

/// What is called where these texts end, as it is written; a function of the crate's own source
/// that is called by its mere name comes with the crate's.
fn callee(name: &str, source: &[&str], before: &[&str]) -> String {
    let mut first = before.len() - 1;
    while first >= 3 && before[first - 2..first] == [":", ":"] {
        first -= 3;
    }
    if first > 0 && before[first - 1] == "." {
        first -= 1;
    }
    let called = before[first..].concat();
    match source.windows(2).any(|pair| pair == ["fn", &*called]) {
        true => format!("{name}::{called}"),
        false => called,
    }
}

/// No contract says where a list is picked: a call with one of its own could store in any order. So
/// each call that picks stands here, and what it calls asks that the list is that of a block or a
/// body. It would pick one for `put` itself as well, which asks no such thing.
#[test]
fn lists_are_picked_here_alone() {
    let mut picks = Picks::default();
    for (name, _) in libraries() {
        for path in sources(&format!("crates/{name}/src")) {
            let source = fs::read_to_string(root().join(&path)).expect("a source");
            picks.read(&name, &source);
        }
    }
    assert!(picks.strays.is_empty(), "{:?}", picks.strays);
    picks.calls.sort();
    let calls: Vec<_> = picks.calls.iter().map(|(by, called)| (&**by, &**called)).collect();
    assert_eq!(calls, PICKING);
    assert_eq!(picks.lists, LISTS);
}

/// Behind a function of the kit a store would not be seen.
#[test]
fn libraries_use_no_other_crates() {
    let listed = listed();
    for (name, needed) in libraries() {
        for other in needed {
            let is_listed = listed.iter().any(|(name, _)| *name == other);
            assert!(is_listed, "{name} depends on {other}, which crates.txt does not list");
        }
    }
}

/// Stores are found however they are written, and nothing else is taken for one.
#[test]
fn stores_are_found() {
    let targets = |body: &str| {
        let source = format!("fn f(b: &mut [u8], p: &mut usize, s: &'a mut S) {{ {body} }}");
        stores("x", &source).into_iter().map(|store| store.target).collect::<Vec<_>>()
    };
    for (body, target) in [
        ("b[0] = 1;", "b[0]"),
        ("b\n  [ i+1 ]\n=\n1;", "b[i+1]"),
        ("b[at(i, [0; 2])]+=1;", "b[at(i,[0;2])]"),
        ("b[0] <<= 1;", "b[0]"),
        ("*p=1;", "*p"),
        ("(*p) = 1;", "(*p)"),
        ("if c { *p = 1 } else {}", "*p"),
        ("match k { 0 => b[0] = 1, _ => {} }", "b[0]"),
        ("let q = &mut b[1..]; q[0] = 1;", "q[0]"),
        ("let u = b[0] = 1;", "b[0]"),
        ("s.rows = 8;", "s.rows"),
        ("let mut q = s; q.rows = 8;", "q.rows"),
        ("let mut q = S { part: b }; q.part[0] = 8;", "q.part[0]"),
        ("let mut q = S { rows: 1 }; s.rows = 8;", "s.rows"),
        ("if c { let mut s = S { rows: 1 }; s.rows = 2; } s.rows = 8;", "s.rows"),
        ("let mut q = S { rows: 1 }; let q = s; q.rows = 8;", "q.rows"),
        ("let mut q = S { rows: 1 }; if let Some(q) = g(s) { q.rows = 8; }", "q.rows"),
        ("let mut q = S { rows: 1 }; match g(s) { T { q, .. } => q.rows = 8 }", "q.rows"),
        ("let mut q = S { rows: 1 }; for q in g(s) { q.rows = 8; }", "q.rows"),
        ("let mut q = S { rows: 1 }; g(s, |q| { q.rows = 8; });", "q.rows"),
        ("let mut q = S { rows: 1 }.of(s); q.rows = 8;", "q.rows"),
        ("g(b'{'); /* } */ b[0] = b'\\''; // }", "b[0]"),
        ("b[1..3].fill(0);", "b[1..3]"),
        ("b.swap(0, 1);", "b"),
        ("b.iter_mut().g();", "b"),
    ] {
        assert_eq!(targets(body), [target], "{body}");
    }
    for body in [
        "let x = b[0]; let y: [u8; 2] = z; let mut n = *p; n += 1; n = 2;",
        "if b[0] == 1 || b[0] <= 2 || *p >= 3 || b[0] != 4 { g(&mut b[..]); }",
        "for i in b[0]..=9 {} match b[0] { 1 => 2, _ => 3 }",
        "// b[0] = 1;\n /* *p = 1; */ g(b\"b[0] = 1;\\\"\");",
        "if let A(x) = g(b[0]) { h(x) }",
        "let mut q = S { rows: 1, part: b }; q.rows = 8; q.rows += 1;",
        "let mut q = S { rows: 1 }; loop { if c { g(q.rows); q.rows += 1; } else { q.rows = 8; } }",
    ] {
        assert!(targets(body).is_empty(), "{body}: {:?}", targets(body));
    }
    let rebound = stores("x", "fn f(mut s: &mut S) { s.rows = 8; }");
    assert_eq!(rebound.len(), 1);
    assert_eq!(rebound[0].target, "s.rows");
    let contract =
        "ghost use l.{a};\nfn f(b: &mut [u8])\n requires { b[0] = { 1 } }\n{ b[0] = 1; }";
    let found = stores("x", contract);
    assert_eq!(found.len(), 1);
    assert_eq!((&*found[0].function, found[0].line), ("x::f", 4));
}

/// A method stores many numbers at once: it is the store of no function but the one that is named.
#[test]
fn methods_are_strays() {
    let strays = |name: &str, function: &str, body: &str| {
        let mut judged = Judged::default();
        let source = format!("fn {function}(out: &mut [usize], s: &[usize]) {{ {body} }}");
        judged.judge(name, "p", &source);
        judged.strays
    };
    for (name, function, body) in [
        ("mve_states", "put_no_state", "out[8..26].fill(0);"),
        ("mve_states", "put_numbers", "for i in 0..18 { out[8 + i] = s[i]; }"),
        ("palette", "put", "out[0] = 1;"),
    ] {
        assert_eq!(strays(name, function, body), [""; 0], "{function}: {body}");
    }
    for (name, function, body, target) in [
        ("mve_states", "put_map", "out[8..26].fill(0);", "out[8..26]"),
        ("mve_states", "put_numbers", "out[8..26].copy_from_slice(s);", "out[8..26]"),
        ("mve_states", "put_no_state", "out[8..26].copy_from_slice(s);", "out[8..26]"),
        ("mve_states", "put_no_state", "out.fill(0);", "out"),
        ("mve_steps", "put_no_state", "out[8..26].fill(0);", "out[8..26]"),
        ("palette", "put", "out[0..3].fill(1);", "out[0..3]"),
        ("room", "put_byte", "out.swap(0, 1);", "out"),
    ] {
        let found = format!("p:1: {name}::{function} stores to {target}");
        assert_eq!(strays(name, function, body), [found], "{function}: {body}");
    }
}

/// A list is picked by `Brand` alone, under its own name, and by what calls which is told.
#[test]
fn picks_are_found() {
    let picks = |source: &str| {
        let mut picks = Picks::default();
        picks.read("palette", source);
        picks
    };
    let import = "use std::marker::Brand;\n";
    let own = "fn put_entries<L: Listing>() {} fn put<L: Listing>() {}\n";
    for (call, called) in [
        ("put_entries::<Brand>(b)", "palette::put_entries"),
        ("return put_entries::<Brand>(b)", "palette::put_entries"),
        ("put::<Brand, u8>(b)", "palette::put"),
        ("put_other::<Brand>(b)", "put_other"),
        ("other::put_entries::<Brand>(b)", "other::put_entries"),
        ("b.put_entries::<Brand>()", ".put_entries"),
        ("PhantomData::<Brand>", "PhantomData"),
    ] {
        let found = picks(&format!("{import}{own}fn set_palette(b: &[u8]) {{ {call}; }}"));
        assert_eq!(found.strays, [""; 0], "{call}");
        let pair = ("palette::set_palette".to_string(), called.to_string());
        let is_known = PICKING.contains(&(&*pair.0, &*pair.1));
        assert_eq!(is_known, called == "palette::put_entries", "{call}");
        assert_eq!(found.calls, [pair], "{call}");
    }
    for source in [
        "use std::marker::Brand as B; fn f() { put::<B, u8>(b); }",
        "use std::marker::{Brand};",
        "use std::marker::{Brand as B, PhantomData};",
        "use std::marker::*;",
        "pub use std::marker::Brand::{self};",
        "use std::marker; fn f() { put::<marker::Brand, u8>(b); }",
        "use paint::Brand;",
        "fn f() { put::<std::marker::Brand, u8>(b); }",
        "fn f() { put::<u8, Brand>(b); }",
        "fn f(h: Held<Brand>) {}",
        "type B = std::marker::Brand;",
        "type B = Brand;",
        "impl Has for u8 { type Of = Brand; }",
        "struct Brand;",
        "struct Mine; impl Drawing for Mine { ghost plan = { mine }; }",
        "struct Mine; impl Listing for Mine { ghost list = { mine }; }",
        "struct Mine; impl paint::Drawing for Mine {}",
        "struct Mine; impl Drawing<> for Mine {}",
        "impl<T> Drawing for T {}",
        "impl paint::Drawing for Brand {}",
        "impl Drawing for Brand<u8> {}",
        "use paint::Drawing as D; impl D for Mine {}",
        "use paint::{Pixel, Drawing as D};",
    ] {
        assert!(!picks(source).strays.is_empty(), "{source}");
    }
    let declared = "use std::marker::Brand;\nuse paint::{Drawing, Pixel};
        trait Listing { ghost list: { List Store }; }
        impl Listing for Brand { ghost list = { [] }; }
        fn put<L: Listing, D: Drawing>() where L: Listing {}
        // Brand as B\n";
    let found = picks(declared);
    assert_eq!((found.calls, found.lists), (Vec::new(), vec!["Listing".to_string()]));
    assert_eq!(found.strays, [""; 0]);
    assert_eq!(picks("impl Other for Brand {}").lists, ["Other"]);
}
