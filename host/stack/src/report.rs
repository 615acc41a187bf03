//! The figures as they stand in `include/mve.h` and in `docs/PERFORMANCE.md`.

use crate::archive::{Figures, LIMIT};
use crate::stage::Stages;

/// The heading of the header's section.
const HEADER_SECTION: &str = "LINKING FOR A BOOT STAGE";
/// The heading of the page's section.
const PAGE_SECTION: &str = "## Stack";
/// What stands in front of a call in the header's table of stages.
const STAGE: &str = "whole stage of ";
/// What stands in front of the compiler there.
const COMPILER: &str = "compiler of the stages";

/// The table in the header: a line for each figure.
pub fn header_table(figures: &Figures) -> String {
    let bytes = |number| format!("{} bytes", grouped(number));
    let mut rows = vec![
        ("code".to_string(), bytes(figures.code)),
        ("constants".to_string(), bytes(figures.constants)),
        ("memory of its own".to_string(), bytes(figures.data)),
        ("undefined symbols".to_string(), listed(figures.undefined.iter())),
        ("relocations".to_string(), listed(figures.relocations.iter())),
        ("vector registers".to_string(), registers(figures)),
        ("below the stack pointer".to_string(), bytes(figures.red_zone)),
    ];
    let calls = figures.calls.iter();
    rows.extend(calls.map(|(name, chain)| (format!("stack of {name}"), bytes(chain.bytes()))));
    rows.iter().map(|(name, value)| format!("    {name:<31} {value}\n")).collect()
}

/// The table of the page: the stack of each call, and where its bytes go.
pub fn page_table(figures: &Figures) -> String {
    let head = "| call | bytes | deepest chain |\n|---|---:|---|\n";
    let rows = figures.calls.iter().map(|(name, chain)| {
        let frames = chain.0.iter().map(|(name, bytes)| format!("`{}` {bytes}", plain(name)));
        let frames = frames.collect::<Vec<_>>().join(", ");
        format!("| `{name}` | {} | {frames} |\n", grouped(chain.bytes()))
    });
    head.to_string() + &rows.collect::<String>()
}

/// The table of the whole stages in the header.
pub fn header_stages(stages: &Stages) -> String {
    let stage = |(name, bytes): (&str, String)| format!("    {name:<37} {bytes}\n");
    let rows = stages.calls.iter().map(|(name, whole)| {
        let name = format!("{STAGE}{name}");
        stage((&name, format!("{} bytes", grouped(whole.bytes()))))
    });
    stage((COMPILER, stages.compiler.clone())) + &rows.collect::<String>()
}

/// The table of the whole stages on the page.
pub fn page_stages(stages: &Stages) -> String {
    let head = "| whole stage of | bytes | painted | deepest chain |\n|---|---:|---:|---|\n";
    let rows = stages.calls.iter().map(|(name, whole)| {
        let frames = whole.chain.0.iter().map(|(name, bytes)| format!("`{}` {bytes}", plain(name)));
        let frames = frames.collect::<Vec<_>>().join(", ");
        let [bytes, painted] = [whole.chain.bytes(), whole.painted].map(grouped);
        format!("| `{name}` | {bytes} | {painted} | {frames} |\n")
    });
    head.to_string() + &rows.collect::<String>()
}

/// The table that the header has: the indented lines of its section.
pub fn table_in_header(header: &str) -> String {
    let lines = header_lines(header);
    lines.lines().filter(|line| !is_of_stages(line)).map(|line| format!("{line}\n")).collect()
}

/// The table of the whole stages that the header has.
pub fn stages_in_header(header: &str) -> String {
    let lines = header_lines(header);
    lines.lines().filter(|line| is_of_stages(line)).map(|line| format!("{line}\n")).collect()
}

fn is_of_stages(line: &str) -> bool {
    let text = line.trim_start();
    text.starts_with(STAGE) || text.starts_with(COMPILER)
}

fn header_lines(header: &str) -> String {
    let is_heading =
        |line: &str| !line.is_empty() && line.chars().all(|c| c.is_ascii_uppercase() || c == ' ');
    section(header, HEADER_SECTION, |line| is_heading(line) || line == "*/", "    ")
}

/// The tables that the page has, of the calls and of the whole stages.
pub fn tables_in_page(page: &str) -> [String; 2] {
    let lines = section(page, PAGE_SECTION, |line| line.starts_with("## "), "|");
    let start = lines.find("| whole stage of |").unwrap_or(lines.len());
    [lines[..start].to_string(), lines[start..].to_string()]
}

/// The lines of a section that begin so.
fn section(text: &str, heading: &str, is_end: impl Fn(&str) -> bool, start: &str) -> String {
    let behind = text.lines().skip_while(|line| *line != heading).skip(1);
    let inside = behind.take_while(|line| !is_end(line)).filter(|line| line.starts_with(start));
    inside.map(|line| format!("{line}\n")).collect()
}

/// Whether the gate passes: every call and every whole stage keeps within the limit.
pub fn verdict(figures: &Figures, stages: &Stages) -> Result<(), String> {
    match (&figures.too_deep()[..], &stages.too_deep()[..]) {
        ([], []) => Ok(()),
        ([], calls) => {
            let calls = calls.join(", ");
            Err(format!("more than {LIMIT} bytes of stack with a least caller: {calls}"))
        }
        (calls, _) => Err(format!("{LIMIT} bytes of stack or more: {}", calls.join(", "))),
    }
}

/// What the gate prints of the whole stages: the chains with the limit, and what was painted over.
pub fn gate_stages(stages: &Stages) -> String {
    let chains = stages.calls.iter().map(|(name, whole)| {
        let frames = whole.chain.0.iter().map(|(name, bytes)| format!("{} {bytes}", plain(name)));
        let frames = frames.collect::<Vec<_>>().join(" + ");
        let verdict = if whole.bytes() <= LIMIT { "" } else { ": too deep" };
        let (bytes, painted) = (grouped(whole.chain.bytes()), grouped(whole.painted));
        format!("    {name}: {bytes} ({frames}), {painted} on a painted stack{verdict}\n")
    });
    format!(
        "whole stages, each {} bytes at most, by {}:\n{}",
        grouped(LIMIT),
        stages.compiler,
        chains.collect::<String>()
    )
}

/// What the gate prints: every figure, and the chains with the limit.
pub fn gate_text(figures: &Figures) -> String {
    let chains = figures.calls.iter().map(|(name, chain)| {
        let frames = chain.0.iter().map(|(name, bytes)| format!("{} {bytes}", plain(name)));
        let verdict = if chain.bytes() < LIMIT { "" } else { ": too deep" };
        format!("    {name}: {}{verdict}\n", frames.collect::<Vec<_>>().join(" + "))
    });
    let figures = header_table(figures);
    format!(
        "{figures}deepest chains, each less than {} bytes:\n{}",
        grouped(LIMIT),
        chains.collect::<String>()
    )
}

/// The name of a function without what its parameters are.
fn plain(name: &str) -> &str {
    name.split_once("::<").map_or(name, |(plain, _)| plain)
}

fn listed<'a>(names: impl Iterator<Item = &'a String>) -> String {
    let names: Vec<&str> = names.map(|name| &**name).collect();
    if names.is_empty() {
        return "none".to_string();
    }
    names.join(", ")
}

/// Runs of registers: `xmm0 to xmm7`.
fn registers(figures: &Figures) -> String {
    let mut runs: Vec<(&str, u32, u32)> = Vec::new();
    for (kind, number) in &figures.vectors {
        match runs.last_mut() {
            Some((last, _, end)) if last == kind && *end + 1 == *number => *end = *number,
            _ => runs.push((kind, *number, *number)),
        }
    }
    let texts = runs.iter().map(|(kind, start, end)| match start == end {
        true => format!("{kind}{start}"),
        false => format!("{kind}{start} to {kind}{end}"),
    });
    let texts: Vec<String> = texts.collect();
    listed(texts.iter())
}

/// A number with commas: 1,024.
fn grouped(number: u64) -> String {
    let digits = number.to_string();
    let mut text = String::new();
    for (at, digit) in digits.chars().enumerate() {
        if at > 0 && (digits.len() - at) % 3 == 0 {
            text.push(',');
        }
        text.push(digit);
    }
    text
}
