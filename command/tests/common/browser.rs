//! A browser, driven over a pipe by its DevTools protocol: no port, and nothing waits for a time to pass.
//! One that ends by itself, or says nothing for [`SILENCE`], is a fault of the machine and not of a page:
//! that is said, and the test is left out.

use super::say;
use serde_json::{json, Value};
use std::io::{BufRead, BufReader, Write};
use std::panic::{catch_unwind, resume_unwind, AssertUnwindSafe};
use std::path::Path;
use std::process::{Child, ChildStdin, Command, Stdio};
use std::sync::mpsc::{channel, Receiver};
use std::sync::{Mutex, MutexGuard, PoisonError};
use std::thread;
use std::time::Duration;

/// Programs that speak it.
const NAMES: [&str; 3] = ["chromium", "chromium-browser", "google-chrome"];
/// The shell gives the browser its pipes as files 3 and 4, where it looks for them.
const SHELL: &str = r#"exec "$@" 3<&0 4>&1 </dev/null >/dev/null 2>&1"#;

/// The size of the window.
pub const WINDOW: (usize, usize) = (1280, 1000);

/// A browser that answers nothing for so long does not go on.
const SILENCE: Duration = Duration::from_secs(300);

/// One browser at a time: each takes much memory.
static ALONE: Mutex<()> = Mutex::new(());

pub struct Browser {
    _alone: MutexGuard<'static, ()>,
    child: Child,
    to: Option<ChildStdin>,
    from: Receiver<Vec<u8>>,
    /// Whether it has ended, or does not go on.
    is_gone: bool,
    session: Option<String>,
    calls: u64,
    /// What it told by itself since the page was opened.
    pub events: Vec<Value>,
}

/// Runs a test in a browser with an empty page; its files go to the folder. The test is left out where there is
/// no browser, or where it ends on the way, which is said.
pub fn in_browser(folder: &Path, test: impl FnOnce(&mut Browser)) {
    let Some(mut browser) = Browser::start(folder) else { return };
    let tested = catch_unwind(AssertUnwindSafe(|| test(&mut browser)));
    if let Err(why) = tested {
        if !browser.is_gone {
            resume_unwind(why);
        }
        say("the browser has ended, or does not go on: a test of the page is left out");
    }
}

impl Browser {
    /// Starts one with an empty page. None where there is none, which is said.
    fn start(folder: &Path) -> Option<Browser> {
        let is_there = |name: &&&str| {
            let tried = Command::new(name).arg("--version").stdin(Stdio::null()).output();
            tried.is_ok_and(|tried| tried.status.success())
        };
        let Some(name) = NAMES.iter().find(is_there) else {
            say("no browser is there (Debian: chromium): no page is clicked on");
            return None;
        };
        let mut browser = Browser::run(name, folder);
        if browser.try_call("Browser.getVersion", json!({})).is_none() {
            say("the browser does not start here: no page is clicked on");
            return None;
        }
        if browser.prepare().is_none() {
            say("the browser does not go on here: no page is clicked on");
            return None;
        }
        Some(browser)
    }

    /// An empty page of the window's size, which tells what happens in it.
    fn prepare(&mut self) -> Option<()> {
        let target = self.try_call("Target.createTarget", json!({"url": "about:blank"}))?;
        let attach = json!({"targetId": target["targetId"], "flatten": true});
        let session = self.try_call("Target.attachToTarget", attach)?;
        self.session = session["sessionId"].as_str().map(String::from);
        let (width, height) = WINDOW;
        let screen =
            json!({"width": width, "height": height, "deviceScaleFactor": 1, "mobile": false});
        self.try_call("Emulation.setDeviceMetricsOverride", screen)?;
        for domain in ["Page", "Runtime", "Network", "Log", "Accessibility"] {
            self.try_call(&format!("{domain}.enable"), json!({}))?;
        }
        Some(())
    }

    fn run(name: &str, folder: &Path) -> Browser {
        let mut command = Command::new("sh");
        command.args(["-c", SHELL, "sh", name]);
        command.args([
            "--headless=new",
            "--remote-debugging-pipe",
            "--no-sandbox",
            "--disable-gpu",
        ]);
        command.args(["--no-first-run", "--disable-dev-shm-usage", "--hide-scrollbars"]);
        command.arg(format!("--user-data-dir={}", folder.join("browser").display()));
        command.stdin(Stdio::piped()).stdout(Stdio::piped()).stderr(Stdio::null());
        let _alone = ALONE.lock().unwrap_or_else(PoisonError::into_inner);
        let mut child = command.spawn().expect("a shell");
        let to = child.stdin.take();
        let mut pipe = BufReader::new(child.stdout.take().expect("a pipe"));
        let (sender, from) = channel();
        thread::spawn(move || loop {
            let mut bytes = Vec::new();
            let read = pipe.read_until(0, &mut bytes);
            if read.is_err() || bytes.pop() != Some(0) || sender.send(bytes).is_err() {
                break;
            }
        });
        let (session, events) = (None, Vec::new());
        Browser { _alone, child, to, from, is_gone: false, session, calls: 0, events }
    }

    /// Calls a method; what it gives. None where the browser has ended.
    fn try_call(&mut self, method: &str, parameters: Value) -> Option<Value> {
        self.calls += 1;
        let id = self.calls;
        let mut message = json!({"id": id, "method": method, "params": parameters});
        if let Some(session) = &self.session {
            message["sessionId"] = json!(session);
        }
        let sent = self.to.as_mut()?.write_all(format!("{message}\0").as_bytes());
        if sent.is_err() {
            self.is_gone = true;
            return None;
        }
        loop {
            let mut message = self.message()?;
            if message["id"] == json!(id) {
                assert!(message["error"].is_null(), "{method}: {message}");
                return Some(message["result"].take());
            }
            self.events.push(message);
        }
    }

    fn message(&mut self) -> Option<Value> {
        let Ok(bytes) = self.from.recv_timeout(SILENCE) else {
            self.is_gone = true;
            let _ = self.child.kill(); // it may have ended already
            return None;
        };
        Some(serde_json::from_slice(&bytes).expect("JSON"))
    }

    pub fn call(&mut self, method: &str, parameters: Value) -> Value {
        self.try_call(method, parameters).expect("the browser goes on")
    }

    /// Opens a page of ours, until its script has begun.
    pub fn open(&mut self, file: &Path) {
        self.events.clear();
        let url = format!("file://{}", file.display());
        self.call("Page.navigate", json!({"url": url}));
        while self.told("Page.loadEventFired").is_empty() {
            let message = self.message().expect("the browser goes on");
            self.events.push(message);
        }
        self.value("begun");
    }

    /// The events of a kind.
    pub fn told(&self, method: &str) -> Vec<&Value> {
        self.events.iter().filter(|event| event["method"] == json!(method)).collect()
    }

    /// What an expression has in the page, once what it promises is there.
    pub fn value(&mut self, expression: &str) -> Value {
        let expression =
            json!({"expression": expression, "awaitPromise": true, "returnByValue": true});
        let mut given = self.call("Runtime.evaluate", expression);
        assert!(given["exceptionDetails"].is_null(), "{given}");
        given["result"]["value"].take()
    }

    /// The text that an element shows.
    pub fn text(&mut self, selector: &str) -> String {
        let text = self.value(&format!("document.querySelector('{selector}').innerText"));
        text.as_str().expect("a text").trim().into()
    }

    /// The texts of all that a selector finds.
    pub fn texts(&mut self, selector: &str) -> Vec<String> {
        let all = format!("[...document.querySelectorAll('{selector}')].map((e) => e.innerText)");
        let texts = self.value(&all);
        let texts = texts.as_array().expect("an array").iter();
        texts.map(|text| text.as_str().expect("a text").trim().into()).collect()
    }

    /// Numbers that an expression gives.
    pub fn numbers(&mut self, expression: &str) -> Vec<f64> {
        let numbers = self.value(expression);
        let numbers = numbers.as_array().expect("an array").iter();
        numbers.map(|number| number.as_f64().expect("a number")).collect()
    }

    fn mouse(&mut self, kind: &str, (x, y): (f64, f64), buttons: usize) {
        let button = if kind == "mouseMoved" { "none" } else { "left" };
        let event = json!({"type": kind, "x": x, "y": y, "button": button, "buttons": buttons,
            "clickCount": 1});
        self.call("Input.dispatchMouseEvent", event);
    }

    /// Clicks at a point of the window.
    pub fn click(&mut self, at: (f64, f64)) {
        self.mouse("mouseMoved", at, 0);
        self.mouse("mousePressed", at, 1);
        self.mouse("mouseReleased", at, 0);
    }

    /// Drags from a point to another.
    pub fn drag(&mut self, from: (f64, f64), to: (f64, f64)) {
        self.mouse("mouseMoved", from, 0);
        self.mouse("mousePressed", from, 1);
        self.mouse("mouseMoved", to, 1);
        self.mouse("mouseReleased", to, 0);
    }

    /// Turns the wheel over an element, until the page has heard of it.
    pub fn wheel(&mut self, selector: &str, (x, y): (f64, f64), down: i32) {
        let listen = "{once: true, passive: true}";
        let heard = format!(
            "globalThis.heard = new Promise((heard) => document.querySelector('{selector}')\
             .addEventListener('wheel', () => setTimeout(heard), {listen})); 0"
        );
        self.value(&heard);
        let event = json!({"type": "mouseWheel", "x": x, "y": y, "deltaX": 0, "deltaY": down});
        self.call("Input.dispatchMouseEvent", event);
        self.value("heard");
    }

    /// Clicks in the middle of an element.
    pub fn click_on(&mut self, selector: &str) {
        let middle = format!(
            "(() => {{ const box = document.querySelector('{selector}').getBoundingClientRect(); \
             return [box.x + box.width / 2, box.y + box.height / 2]; }})()"
        );
        let at = self.numbers(&middle);
        self.click((at[0], at[1]));
    }

    /// Presses a key, with Shift or without, where the focus is. The number is what the protocol calls it by.
    pub fn key(&mut self, key: &str, number: usize, shift: bool) {
        let modifiers = if shift { 8 } else { 0 };
        let text = if key.chars().count() == 1 { key } else { "" };
        for kind in ["keyDown", "keyUp"] {
            let mut event = json!({"type": kind, "key": key, "modifiers": modifiers,
                "windowsVirtualKeyCode": number});
            if kind == "keyDown" && !text.is_empty() {
                event["text"] = json!(text);
            }
            self.call("Input.dispatchKeyEvent", event);
        }
    }

    /// What the window shows, as a PNG file.
    pub fn shot(&mut self) -> Vec<u8> {
        let shot = self.call("Page.captureScreenshot", json!({"format": "png"}));
        bytes_of(shot["data"].as_str().expect("a text"))
    }
}

impl Drop for Browser {
    /// The browser ends when its pipe does.
    fn drop(&mut self) {
        self.session = None;
        let _ = self.try_call("Browser.close", json!({})); // it may have ended already
        self.to = None;
        let _ = self.child.wait();
    }
}

/// The bytes that a text in base 64 has.
fn bytes_of(text: &str) -> Vec<u8> {
    let digits = text.bytes().filter(|digit| *digit != b'=').map(|digit| match digit {
        b'A'..=b'Z' => digit - b'A',
        b'a'..=b'z' => digit - b'a' + 26,
        b'0'..=b'9' => digit - b'0' + 52,
        b'+' => 62,
        _ => 63,
    });
    let digits: Vec<u32> = digits.map(u32::from).collect();
    let bytes = digits.chunks(4).flat_map(|four| {
        let bits = (0..4).fold(0, |bits, n| bits << 6 | four.get(n).copied().unwrap_or(0));
        let [_, bytes @ ..] = bits.to_be_bytes();
        bytes.into_iter().take(four.len() - 1)
    });
    bytes.collect()
}
