//! The disassembled archive: the functions with their instructions, and what the linker fills in.
//! Read from what `objdump -dr --no-show-raw-insn` and `objdump -r` write.

use std::collections::BTreeMap;

/// Words in front of an instruction's own.
const PREFIXES: [&str; 12] =
    ["bnd", "cs", "data16", "ds", "es", "lock", "notrack", "rep", "repnz", "repz", "rex.W", "ss"];

/// A place that the linker fills in: what it is to refer to.
#[derive(Clone, Debug, PartialEq, Eq)]
pub struct Relocation {
    /// Its kind, as R_X86_64_PC32.
    pub kind: String,
    /// A symbol, or a section by its name.
    pub symbol: String,
    /// What is added to that.
    pub addend: i64,
}

/// An instruction.
#[derive(Clone, Debug)]
pub struct Instruction {
    /// Its address in its section.
    pub at: u64,
    /// Its name, without prefixes.
    pub name: String,
    /// What stands behind the name, in the order of AT&T: the target is the last.
    pub operands: String,
    /// What the linker fills in.
    pub relocation: Option<Relocation>,
}

/// A function.
#[derive(Clone, Debug)]
pub struct Function {
    /// Its name.
    pub name: String,
    /// The section that it stands in.
    pub section: String,
    /// Its address there.
    pub start: u64,
    /// Its instructions, one behind the other.
    pub instructions: Vec<Instruction>,
}

/// What the archive has.
#[derive(Clone, Debug, Default)]
pub struct Listing {
    /// Its functions.
    pub functions: Vec<Function>,
    /// What the linker fills in in sections that are not code, by the section, with the offset.
    pub data: BTreeMap<String, Vec<(u64, Relocation)>>,
}

impl Listing {
    /// Reads what the two commands write.
    pub fn new(disassembly: &str, relocations: &str) -> Result<Listing, String> {
        let objects = disassembly.lines().filter(|line| line.contains("file format "));
        match &objects.collect::<Vec<_>>()[..] {
            [one] if one.ends_with("elf64-x86-64") => (),
            all => return Err(format!("one object of elf64-x86-64 is expected: {all:?}")),
        }
        let functions = functions(disassembly)?;
        let mut data = data(relocations)?;
        data.retain(|section, _| functions.iter().all(|function| function.section != *section));
        let mut listing = Listing { functions, data };
        listing.drop_constants();
        Ok(listing)
    }

    /// Leaves out what refers to a section that is not code, as the address of a text does.
    fn drop_constants(&mut self) {
        let mut data = std::mem::take(&mut self.data);
        for table in data.values_mut() {
            table
                .retain(|(_, found)| !found.symbol.starts_with('.') || self.is_code(&found.symbol));
        }
        data.retain(|_, table| !table.is_empty());
        self.data = data;
    }

    /// The function of this name.
    pub fn function(&self, name: &str) -> Option<&Function> {
        self.functions.iter().find(|function| function.name == name)
    }

    /// Whether it names a function or a section of code.
    pub fn is_code(&self, symbol: &str) -> bool {
        self.functions.iter().any(|found| found.name == symbol || found.section == symbol)
    }

    /// The function that stands at an address of a section.
    pub fn function_at(&self, section: &str, at: u64) -> Option<&Function> {
        self.functions.iter().find(|function| function.section == section && function.has(at))
    }

    /// The function that a relocation refers to, and the address in its section; `distance` is how
    /// far behind the field the linker is to count from.
    pub fn code_of(&self, relocation: &Relocation, distance: i64) -> Option<(&Function, u64)> {
        let offset = relocation.addend + distance;
        if let Some(function) = self.function(&relocation.symbol) {
            return Some((function, function.start.checked_add_signed(offset)?));
        }
        let at = u64::try_from(offset).ok()?;
        self.function_at(&relocation.symbol, at).map(|function| (function, at))
    }
}

impl Function {
    /// What the linker fills in in its instructions.
    pub fn relocations(&self) -> impl Iterator<Item = &Relocation> {
        self.instructions.iter().filter_map(|instruction| instruction.relocation.as_ref())
    }

    /// Whether an instruction refers to a symbol or a section.
    pub fn refers_to(&self, symbol: &str) -> bool {
        self.relocations().any(|relocation| relocation.symbol == symbol)
    }

    /// Whether an instruction of the function stands at an address.
    pub fn has(&self, at: u64) -> bool {
        self.instructions.binary_search_by_key(&at, |instruction| instruction.at).is_ok()
    }
}

fn functions(disassembly: &str) -> Result<Vec<Function>, String> {
    let mut found: Vec<Function> = Vec::new();
    let mut section = String::new();
    for line in disassembly.lines() {
        if let Some(name) = line.strip_prefix("Disassembly of section ") {
            section = name.trim_end_matches(':').to_string();
        } else if let Some((start, name)) = function_head(line) {
            found.push(Function {
                name,
                section: section.clone(),
                start,
                instructions: Vec::new(),
            });
        } else if line.starts_with([' ', '\t']) {
            let last = found.last_mut().ok_or_else(|| format!("no function before {line}"))?;
            read_line(line, last)?;
        }
    }
    Ok(found)
}

/// `0000000000000000 <name>:`
fn function_head(line: &str) -> Option<(u64, String)> {
    let (start, name) = line.strip_suffix(">:")?.split_once(" <")?;
    Some((u64::from_str_radix(start, 16).ok()?, name.to_string()))
}

/// An instruction, or what the linker fills in in the one before.
fn read_line(line: &str, function: &mut Function) -> Result<(), String> {
    let fault = || format!("the line is not understood: {line}");
    let (at, behind) = line.trim_start().split_once(":").ok_or_else(fault)?;
    let at = u64::from_str_radix(at, 16).map_err(|_| fault())?;
    let text = behind.trim();
    if text.starts_with("R_") {
        let (kind, value) = text.split_once(char::is_whitespace).ok_or_else(fault)?;
        let last = function.instructions.last_mut().ok_or_else(fault)?;
        let before = last.relocation.replace(relocation(kind, value.trim())?);
        return before.map_or(Ok(()), |_| Err(fault()));
    }
    let mut rest = text.split('#').next().unwrap_or_default().trim();
    let mut name = "";
    while name.is_empty() || PREFIXES.contains(&name) && !rest.is_empty() {
        (name, rest) = rest.split_once(char::is_whitespace).unwrap_or((rest, ""));
        rest = rest.trim_start();
    }
    if name.is_empty() || name.starts_with('(') {
        return Err(fault());
    }
    let (name, operands) = (name.to_string(), rest.to_string());
    function.instructions.push(Instruction { at, name, operands, relocation: None });
    Ok(())
}

/// `symbol+0x10`, `symbol-0x4` or `symbol`.
fn relocation(kind: &str, value: &str) -> Result<Relocation, String> {
    let signed = |sign: char| {
        let (symbol, digits) = value.rsplit_once(sign)?;
        let number = i64::from_str_radix(digits.strip_prefix("0x")?, 16).ok()?;
        Some((symbol, if sign == '-' { -number } else { number }))
    };
    let (symbol, addend) = signed('+').or_else(|| signed('-')).unwrap_or((value, 0));
    if symbol.is_empty() {
        return Err(format!("{kind} refers to nothing"));
    }
    Ok(Relocation { kind: kind.to_string(), symbol: symbol.to_string(), addend })
}

/// The relocation records of every section.
fn data(relocations: &str) -> Result<BTreeMap<String, Vec<(u64, Relocation)>>, String> {
    let mut found: BTreeMap<String, Vec<_>> = BTreeMap::new();
    let mut section = String::new();
    for line in relocations.lines() {
        if let Some(name) = line.strip_prefix("RELOCATION RECORDS FOR [") {
            section = name.trim_end_matches("]:").to_string();
        } else if let [offset, kind, value] = line.split_whitespace().collect::<Vec<_>>()[..] {
            let Ok(offset) = u64::from_str_radix(offset, 16) else { continue };
            let record = (offset, relocation(kind, value)?);
            found.entry(section.clone()).or_default().push(record);
        }
    }
    Ok(found)
}
