//! `mve why --page`: in a browser, clicks on pixels of every code, and what is shown then, held to the
//! second program link by link; the file itself.

mod common;

use common::browser::{in_browser, Browser, WINDOW};
use common::chains::{follow, numbers, Reached};
use common::drawings::{drawings, Drawing, Sent};
use common::{fresh, mve, names, with_film};
use maker::film::Film;
use maker::{demo, film, Profile, Seeded, Size};
use serde_json::{json, Value};
use std::collections::BTreeMap;
use std::fs;
use std::path::Path;

/// What `mve blocks --help` says of each code.
fn meanings() -> BTreeMap<String, String> {
    let ran = mve(&fresh("page_meanings"), &["blocks", "--help"]);
    let lines = ran.text().lines().filter_map(|line| line.trim().split_once("  "));
    let codes = lines.filter(|(code, _)| code.len() == 1 && "0123456789ABCDEF".contains(code));
    codes.map(|(code, meaning)| (code.into(), meaning.into())).collect()
}

/// A page in the browser, and what the second program says of its film.
struct Shown<'a> {
    browser: &'a mut Browser,
    film: &'a [u8],
    all: &'a [Drawing],
    sent: &'a Sent,
    number: usize,
    meanings: &'a BTreeMap<String, String>,
}

/// Where the picture stands in the window: its corner, and how large a pixel is.
fn view(browser: &mut Browser) -> (f64, f64, f64) {
    let seen = browser.numbers(
        "(() => { const c = document.getElementById('picture'), b = c.getBoundingClientRect(); \
         return [b.left + c.clientLeft + +c.dataset.left, b.top + c.clientTop + +c.dataset.top, \
         +c.dataset.scale]; })()",
    );
    (seen[0], seen[1], seen[2])
}

/// The middle of a pixel in the window.
fn middle(browser: &mut Browser, x: usize, y: usize) -> (f64, f64) {
    let (left, top, scale) = view(browser);
    (left + (x as f64 + 0.5) * scale, top + (y as f64 + 0.5) * scale)
}

impl Shown<'_> {
    /// Clicks on a pixel, and reads its chain in the manner of `mve why`.
    fn click(&mut self, x: usize, y: usize, reached: &mut Reached) {
        let at = middle(self.browser, x, y);
        self.browser.click(at);
        self.read(x, y, reached);
    }

    fn read(&mut self, x: usize, y: usize, reached: &mut Reached) {
        let pixel = self.browser.text("#pixel").replace("Picture", "picture");
        let mut lines = vec![format!("film.mve, {pixel}: {}", self.browser.text("#colour"))];
        lines.push("PICTURE    X    Y  BLOCK  CODE  ORIGIN".into());
        let [places, blocks, origins] = [".where", ".block", ".origin"]
            .map(|part| self.browser.texts(&format!("#steps {part}")));
        for ((place, block), origin) in places.iter().zip(&blocks).zip(&origins) {
            let at = numbers(place);
            assert_eq!(*place, format!("Picture {}, pixel {}, {}", at[0], at[1], at[2]));
            let (block, meaning) = block.split_once(": ").expect("a meaning");
            let (block, code) = block.split_once(", code ").expect("a code");
            let block = block.strip_prefix("block ").expect("a block");
            assert_eq!(meaning, self.meanings[code]);
            let [picture, x, y] = at[..] else { panic!("{place}") };
            lines.push(format!("{picture:>7} {x:>4} {y:>4} {block:>6}     {code}  {origin}"));
        }
        let film = self.film;
        follow(film, self.all, self.sent, self.number, (x, y), &lines, reached);
        assert_eq!(self.browser.text("#further"), "");
        self.bytes(origins.last().expect("a step"));
        let spoken = self.browser.value("document.getElementById('spoken').textContent");
        let (spoken, last) = (spoken.as_str().expect("words"), origins.last().expect("a step"));
        assert!(spoken.starts_with(&format!("Pixel {x}, {y}, entry ")), "{spoken}");
        assert!(spoken.ends_with(&format!("the last: {last}.")), "{spoken}");
    }

    /// The view of bytes: those of the film, and the byte of the chain's end is marked.
    fn bytes(&mut self, end: &str) {
        let shown = self.browser.value(
            "[...document.querySelectorAll('#steps .hex tr')].map((row) => \
             [...row.cells].map((cell) => [cell.textContent, cell.querySelector('mark') !== null]))",
        );
        let mut marked = Vec::new();
        for row in shown.as_array().expect("rows") {
            let cells = row.as_array().expect("cells");
            let head = cells[0][0].as_str().expect("a place");
            let start = usize::from_str_radix(head, 16).expect("a place in hex");
            assert_eq!(cells.len(), 17);
            for (place, cell) in (start..).zip(&cells[1..]) {
                let text = cell[0].as_str().expect("a byte");
                assert!(text.is_empty() || text == format!("{:02X}", self.film[place]), "{place}");
                if cell[1] == json!(true) {
                    assert!(!text.is_empty());
                    marked.push(place);
                }
            }
        }
        let expected: Vec<usize> =
            if end.starts_with("byte ") { vec![numbers(end)[0]] } else { vec![] };
        assert_eq!(marked, expected);
    }
}

/// Red, green and blue of each pixel of the window.
fn window(browser: &mut Browser) -> Vec<[u8; 3]> {
    let shot = browser.shot();
    let mut decoder = png::Decoder::new(&shot[..]);
    decoder.set_transformations(png::Transformations::normalize_to_color8());
    let mut reader = decoder.read_info().expect("a PNG file");
    let mut bytes = vec![0; reader.output_buffer_size()];
    let info = reader.next_frame(&mut bytes).expect("a PNG picture");
    assert_eq!((info.width as usize, info.height as usize), WINDOW);
    let samples = info.color_type.samples();
    bytes.chunks(samples).map(|pixel| [pixel[0], pixel[1], pixel[2]]).collect()
}

/// The colours of the window where the pixels of a picture are: near a corner of each, not on it.
fn seen(browser: &mut Browser, sent: &Sent) -> Vec<[u8; 3]> {
    let (left, top, scale) = view(browser);
    let window = window(browser);
    let places = (0..sent.pixels.len()).map(|at| (at % sent.width, at / sent.width));
    let colour = |(x, y): (usize, usize)| {
        let x = left + (x as f64 + 0.2) * scale;
        let y = top + (y as f64 + 0.2) * scale;
        window[y as usize * WINDOW.0 + x as usize]
    };
    places.map(colour).collect()
}

fn colours(sent: &Sent) -> Vec<[u8; 3]> {
    let colour = |entry: &u8| {
        let colour = &sent.palette[3 * usize::from(*entry)..][..3];
        [colour[0], colour[1], colour[2]].map(|part| part * 4 + part / 16)
    };
    sent.pixels.iter().map(colour).collect()
}

/// Makes the page of a film's last picture, `out.html`.
fn page(folder: &Path, film: &[u8]) -> (Vec<Drawing>, Vec<Sent>) {
    let (all, sent) = drawings(film);
    let number = (sent.len() - 1).to_string();
    let ran = mve(folder, &["why", "film.mve", &number, "--page", "out.html"]);
    ran.assert_silent();
    let start = format!("out.html: picture {number}, going back to picture ");
    assert!(ran.text().starts_with(&start), "{}", ran.text());
    (all, sent)
}

/// No script failed, nothing was asked of a network.
fn assert_quiet(browser: &Browser) {
    for kind in ["Runtime.exceptionThrown", "Log.entryAdded", "Runtime.consoleAPICalled"] {
        assert_eq!(browser.told(kind), Vec::<&Value>::new());
    }
    let requests = browser.told("Network.requestWillBeSent");
    let urls = requests.iter().map(|event| event["params"]["request"]["url"].as_str());
    let urls: Vec<&str> = urls.flatten().collect();
    assert!(urls.len() == 1 && urls[0].starts_with("file:///"), "{urls:?}");
}

/// Films whose pictures have all codes, with a palette of their own.
fn films() -> Vec<Film> {
    let rng = &mut Seeded::new(97);
    let mut films = Vec::new();
    for profile in
        [Profile::Patterns, Profile::Raw, Profile::Copies, Profile::Mixed, Profile::Sparse]
    {
        let mut film = film::plain(rng, Size::new(6, 5), profile, 6);
        let colours: Vec<u8> = rng.bytes(768).into_iter().map(|byte| byte % 64).collect();
        let palette = film::Opcode::new(0x0C, 0, [vec![0, 0, 0, 1], colours].concat());
        film.chunks[1].opcodes.insert(0, palette);
        films.push(film);
    }
    films
}

/// Pixels of every block are clicked on.
#[test]
fn clicks() {
    let folder = fresh("page_browser");
    in_browser(&folder, |browser| {
        let meanings = meanings();
        assert_eq!(meanings.len(), 15);
        let (mut reached, mut first) = (Reached::default(), [0; 16]);
        for film in films() {
            let film = film.bytes();
            let folder = with_film("page_clicks", &film);
            let (all, sent) = page(&folder, &film);
            browser.open(&folder.join("out.html"));
            let (number, sent) = (sent.len() - 1, &sent[sent.len() - 1]);
            assert_eq!(seen(browser, sent), colours(sent));
            let map = &all[sent.drawings - 1].map;
            let mut shown = Shown {
                browser: browser,
                film: &film,
                all: &all,
                sent,
                number,
                meanings: &meanings,
            };
            for block in 0..sent.pixels.len() / 64 {
                let (x, y) = (block % 6 * 8 + block * 5 % 8, block / 6 * 8 + block * 3 % 8);
                shown.click(x, y, &mut reached);
                first[usize::from(map[block / 2] >> (block % 2 * 4) & 0x0F)] += 1;
            }
            assert_quiet(browser);
        }
        println!("{first:?} {reached:?}");
        for (code, clicks) in first.iter().enumerate() {
            assert!(*clicks > 0 || code == 6, "code {code:X} was clicked on {clicks} times");
        }
        assert!(reached.longest > 3 && reached.lent > 0);
    });
}

/// A film with blocks of many codes, whose page is open.
fn opened(name: &str, browser: &mut Browser) -> (Vec<u8>, Vec<Drawing>, Vec<Sent>) {
    let film = films()[3].bytes();
    let folder = with_film(name, &film);
    let (all, sent) = page(&folder, &film);
    browser.open(&folder.join("out.html"));
    (film, all, sent)
}

const LEFT: usize = 37;
const UP: usize = 38;
const RIGHT: usize = 39;
const DOWN: usize = 40;

/// Keys move the pixel, inside the picture, and tell its chain; a form chooses it, too.
#[test]
fn keys() {
    let folder = fresh("page_keys_browser");
    in_browser(&folder, |browser| {
        let (film, all, sent) = opened("page_keys", browser);
        let (meanings, number) = (meanings(), sent.len() - 1);
        let sent = &sent[number];
        let (width, height) = (sent.width, sent.height);
        let mut reached = Reached::default();
        let mut shown =
            Shown { browser: browser, film: &film, all: &all, sent, number, meanings: &meanings };
        shown.browser.click_on("#x");
        shown.browser.value("document.getElementById('picture').focus()");
        let presses = [
            ("ArrowRight", RIGHT, false, (1, 0)),
            ("ArrowDown", DOWN, false, (1, 1)),
            ("ArrowDown", DOWN, true, (1, 9)),
            ("ArrowRight", RIGHT, true, (9, 9)),
            ("ArrowLeft", LEFT, false, (8, 9)),
            ("ArrowLeft", LEFT, true, (0, 9)),
            ("ArrowLeft", LEFT, true, (0, 9)),
            ("ArrowUp", UP, false, (0, 8)),
            ("ArrowUp", UP, true, (0, 0)),
            ("ArrowUp", UP, true, (0, 0)),
        ];
        for (key, code, shift, (x, y)) in presses {
            shown.browser.key(key, code, shift);
            shown.read(x, y, &mut reached);
        }
        for (x, y) in [(width - 1, height - 1), (0, height - 1), (17, 3)] {
            shown.browser.value(&format!(
                "document.getElementById('x').value = {x}; document.getElementById('y').value = {y}; 0"
            ));
            shown.browser.click_on("#go button");
            shown.read(x, y, &mut reached);
        }
        // Nothing outside is taken.
        shown.browser.value(&format!("document.getElementById('x').value = {width}; 0"));
        shown.browser.click_on("#go button");
        assert_eq!(shown.browser.text("#pixel"), format!("Picture {number}, pixel 17, 3"));
        assert_quiet(browser);
    });
}

/// What a screen reader has: roles and names.
#[test]
fn names_for_ears() {
    let folder = fresh("page_ears_browser");
    in_browser(&folder, |browser| {
        let (_, _, sent) = opened("page_ears", browser);
        let number = sent.len() - 1;
        let at = middle(browser, 20, 20);
        browser.click(at);
        let tree = browser.call("Accessibility.getFullAXTree", json!({}));
        let nodes = tree["nodes"].as_array().expect("nodes").iter();
        let nodes = nodes.filter(|node| node["ignored"] == json!(false));
        let value =
            |node: &Value, part: &str| node[part]["value"].as_str().unwrap_or_default().to_string();
        let nodes: Vec<(String, String)> =
            nodes.map(|node| (value(node, "role"), value(node, "name"))).collect();
        let picture = format!("film.mve, picture {number}, 48 by 40 pixels");
        let expected = [
            ("application", &*picture),
            ("heading", &format!("film.mve, picture {number}")),
            ("heading", &format!("Picture {number}, pixel 20, 20")),
            ("checkbox", "Blocks by code"),
            ("checkbox", "Touched rows"),
            ("button", "Zoom in"),
            ("button", "Zoom out"),
            ("button", "Fit"),
            ("button", "Show"),
            ("spinbutton", "X"),
            ("spinbutton", "Y"),
            ("table", "Codes of the blocks"),
        ];
        for (role, name) in expected {
            let is_it = |node: &&(String, String)| node.0 == role && node.1 == name;
            assert_eq!(nodes.iter().filter(is_it).count(), 1, "{role} {name}: {nodes:#?}");
        }
        assert!(nodes.iter().any(|(role, _)| role == "status"));
        let small = format!("Picture {number} around pixel 20, 20");
        assert!(
            nodes.iter().any(|(role, name)| role.starts_with("im") && *name == small),
            "{nodes:#?}"
        );
        for (role, name) in &nodes {
            let must = ["button", "checkbox", "spinbutton", "application", "image", "img"];
            assert!(!must.contains(&&**role) || !name.is_empty(), "{role} has no name");
        }
    });
}

/// The wheel zooms around the pointer, a drag moves the picture and chooses nothing, a key fits it again.
#[test]
fn zoom() {
    let folder = fresh("page_zoom_browser");
    in_browser(&folder, |browser| {
        opened("page_zoom", browser);
        let fitting = view(browser);
        let at = middle(browser, 11, 13);
        for down in [-100, -100, -100, 100] {
            let before = view(browser).2;
            browser.wheel("#picture", at, down);
            let now = view(browser).2;
            assert!((now > before) == (down < 0), "{before} {now}");
            let kept = middle(browser, 11, 13);
            // Pointers are at whole numbers.
            assert!((kept.0 - at.0).abs() < 1.0 && (kept.1 - at.1).abs() < 1.0, "{at:?} {kept:?}");
        }
        browser.click(at);
        let chosen = browser.text("#pixel");
        assert!(chosen.ends_with("pixel 11, 13"), "{chosen}");
        let before = view(browser);
        browser.drag(at, (at.0 + 40.0, at.1 - 25.0));
        let now = view(browser);
        assert_eq!((now.0 - before.0).round(), 40.0);
        assert_eq!((now.1 - before.1).round(), -25.0);
        assert_eq!(browser.text("#pixel"), chosen);
        browser.key("0", 48, false);
        assert_eq!(view(browser), fitting);
        browser.click_on("#in");
        assert!(view(browser).2 > fitting.2);
        browser.click_on("#out");
        browser.click_on("#fit");
        assert_eq!(view(browser), fitting);
        assert_quiet(browser);
    });
}

/// How much of a colour is seen under another one.
fn mixed(under: [u8; 3], over: [u8; 3], part: f64) -> [f64; 3] {
    std::array::from_fn(|n| f64::from(under[n]) * (1.0 - part) + f64::from(over[n]) * part)
}

fn is_near(found: [u8; 3], expected: [f64; 3]) -> bool {
    (0..3).all(|part| (f64::from(found[part]) - expected[part]).abs() <= 2.0)
}

/// The blocks in the colours of their codes, which the legend has; the rows that were not touched dimmed.
#[test]
fn overlays() {
    let folder = fresh("page_overlays_browser");
    in_browser(&folder, |browser| {
        // Rows 1 and 2 of four are touched: by hand, as what the maker gives may touch all.
        let film = [
            &b"Interplay MVE File\x1A\0\x1A\0\0\x01\x33\x11"[..],
            &[57, 0, 3, 0],
            &[4, 0, 0x05, 0, 2, 0, 4, 0],
            &[10, 0, 0x0C, 0, 0, 0, 2, 0, 50, 40, 30, 10, 63, 20],
            &[4, 0, 0x0F, 0, 0x11, 0xE1, 0x10, 0x11],
            &[15, 0, 0x11, 0],
            &[0; 14],
            &[1],
            &[4, 0, 0x07, 0, 0, 0, 0, 0],
        ]
        .concat();
        let folder = with_film("page_overlays", &film);
        let (_, sent) = page(&folder, &film);
        let (sent, plain) = (&sent[0], colours(&sent[0]));
        browser.open(&folder.join("out.html"));
        assert_eq!(browser.text("#rows"), "Touched rows of blocks: 1 to 2, counted from 0.");
        let legend = browser.texts("#legend tbody tr");
        let starts = ["0\t1\t", "1\t6\t", "E\t1\t"];
        assert!(
            legend.len() == 3 && (0..3).all(|n| legend[n].starts_with(starts[n])),
            "{legend:?}"
        );
        assert_eq!(seen(browser, sent), plain);

        browser.click_on("#touched");
        let dimmed = seen(browser, sent);
        for (at, under) in plain.iter().enumerate() {
            let row = at / sent.width;
            let (is_edge, is_touched) = (row % 8 == 0 || row % 8 == 7, (8..24).contains(&row));
            let expected = mixed(*under, [0; 3], if is_touched { 0.0 } else { 0.65 });
            let is_side = at % sent.width == 0;
            assert!(is_edge || is_side || is_near(dimmed[at], expected), "{at}: {:?}", dimmed[at]);
        }
        browser.click_on("#touched");
        assert_eq!(seen(browser, sent), plain);

        browser.click_on("#codes");
        let tinted = seen(browser, sent);
        let swatches = browser.value(
            "[...document.querySelectorAll('#legend .swatch')].map((swatch) => \
             getComputedStyle(swatch).backgroundColor)",
        );
        let swatches: Vec<Vec<usize>> = swatches
            .as_array()
            .expect("an array")
            .iter()
            .map(|colour| numbers(colour.as_str().expect("a colour")))
            .collect();
        let codes = [1, 1, 1, 0xE, 0, 1, 1, 1];
        for (at, under) in plain.iter().enumerate() {
            let (x, y) = (at % sent.width, at / sent.width);
            let is_digit = (2..6).contains(&(x % 8)) && (1..7).contains(&(y % 8));
            let swatch = match codes[y / 8 * 2 + x / 8] {
                0 => &swatches[0],
                1 => &swatches[1],
                _ => &swatches[2],
            };
            let tint = std::array::from_fn(|part| swatch[part] as u8);
            assert!(is_digit || is_near(tinted[at], mixed(*under, tint, 0.5)), "{x}, {y}");
        }
        assert_quiet(browser);
    });
}

/// A page says where it ends, and what tells the rest.
#[test]
fn limit() {
    let chunk = |map: u8, data: &[u8]| {
        let video = [&[14 + data.len() as u8, 0, 0x11, 0][..], &[0; 14], data].concat();
        let opcodes = [&[1, 0, 0x0F, 0, map][..], &video, &[4, 0, 0x07, 0, 0, 0, 0, 0]].concat();
        [&[opcodes.len() as u8, 0, 3, 0][..], &opcodes].concat()
    };
    let mut film = b"Interplay MVE File\x1A\0\x1A\0\0\x01\x33\x11".to_vec();
    film.extend([8, 0, 2, 0, 4, 0, 0x05, 0, 1, 0, 1, 0]);
    film.extend(chunk(0x0E, &[42]));
    for _ in 1..40 {
        film.extend(chunk(0, &[]));
    }
    let folder = with_film("page_limit", &film);
    let ran = mve(&folder, &["why", "film.mve", "39", "--page", "out.html"]);
    assert_eq!(
        (ran.code, ran.text()),
        (Some(0), "out.html: picture 39, going back to picture 8\n")
    );
    let told = mve(&folder, &["why", "film.mve", "39", "5", "2"]);
    assert_eq!(told.text().lines().count(), 42);
    let folder_of_browser = fresh("page_limit_browser");
    in_browser(&folder_of_browser, |browser| {
        browser.open(&folder.join("out.html"));
        let about = browser.text("#about");
        assert!(about.ends_with("Chains go back to picture 8."), "{about}");
        let at = middle(browser, 5, 2);
        browser.click(at);
        let origins = browser.texts("#steps .origin");
        let expected: Vec<String> =
            (8..40).rev().map(|n| format!("copied from 5, 2 of picture {}", n - 1)).collect();
        assert_eq!(origins, expected);
        assert_eq!(browser.text("#further code"), "mve why film.mve 39 5 2");
        assert_quiet(browser);
    });
}

/// One file, whatever the film is called; nothing is overwritten, and nothing is left where it fails.
#[test]
fn files() {
    let folder = with_film("page_files", &demo::beginning(3).bytes());
    let why = |words: &[&str]| mve(&folder, &[&["why", "film.mve"], words].concat());
    for words in [
        &["0", "--page", "out.png"][..],
        &["0", "--page"],
        &["0", "1", "2", "--page", "out.html"],
        &["0", "1"],
        &["0", "1", "2", "--force"],
        &["--page", "out.html"],
    ] {
        assert_eq!(why(words).code, Some(2), "{words:?}");
        assert_eq!(names(&folder), ["film.mve"]);
    }
    let ran = why(&["3", "--page", "out.html"]);
    let message = "mve: film.mve: the film sends pictures 0 to 2 only: give one of these\n";
    assert_eq!((ran.code, &*ran.err), (Some(1), message));
    assert_eq!(names(&folder), ["film.mve"]);
    why(&["2", "--page", "out.html"]).assert_silent();
    assert_eq!(names(&folder), ["film.mve", "out.html"]);
    let first = fs::read(folder.join("out.html")).expect("a page");
    let ran = why(&["1", "--page", "out.html"]);
    let message = "mve: out.html: exists already: give another name, or --force\n";
    assert_eq!((ran.code, &*ran.err), (Some(2), message));
    assert_eq!(fs::read(folder.join("out.html")).expect("a page"), first);
    why(&["1", "--page", "out.html", "--force"]).assert_silent();
    assert_ne!(fs::read(folder.join("out.html")).expect("a page"), first);

    // A name that would end the script.
    let evil = "</script><script>document.title = 1</script>.mve".replace('/', "\u{2044}");
    fs::copy(folder.join("film.mve"), folder.join(&evil)).expect("a copy");
    mve(&folder, &["why", &evil, "0", "--page", "evil.html"]).assert_silent();
    let page = fs::read_to_string(folder.join("evil.html")).expect("a page");
    assert_eq!(page.matches("<script").count(), 2);
}

/// A page of the largest picture is no larger than a few times the bytes that it tells of.
#[test]
fn size() {
    let film = film::plain(&mut Seeded::new(98), Size::new(80, 60), Profile::Light, 1).bytes();
    let folder = with_film("page_size", &film);
    page(&folder, &film);
    let page = fs::metadata(folder.join("out.html")).expect("a page").len();
    println!("{page} bytes of {} bytes of film", film.len());
    assert!(page < 2_000_000, "{page}");
}

/// Makes the picture of README: `command/build test --test page -- --ignored`.
#[test]
#[ignore = "it writes page.png"]
fn readme() {
    let folder = with_film("page_readme", &demo::film().bytes());
    mve(&folder, &["why", "film.mve", "15", "--page", "out.html"]).assert_silent();
    let browser_folder = fresh("page_readme_browser");
    in_browser(&browser_folder, |browser| {
        browser.open(&folder.join("out.html"));
        browser.click_on("#codes");
        let at = middle(browser, 82, 27);
        browser.click(at);
        fs::write(concat!(env!("CARGO_MANIFEST_DIR"), "/page.png"), browser.shot())
            .expect("a picture");
    });
}
