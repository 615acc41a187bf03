//! The figures of the compiled archive that a boot stage needs: the stack of each exported call,
//! sizes, and what it uses of the processor and of the outside. Measured by `objdump` and `nm` of
//! binutils.

use crate::frames::{deepest, frames, Chain};
use crate::listing::{Instruction, Listing};
use std::collections::{BTreeMap, BTreeSet};
use std::path::Path;
use std::process::Command;

/// Every call takes less than this (document 02, W4), and every whole stage no more.
pub const LIMIT: u64 = 1024;

/// What the archive may call outside itself: what a compiler makes of plain loops and copies.
const OUTSIDE: [&str; 2] = ["memcpy", "memset"];

/// What the linker may be asked to fill in: distances from the place itself.
const RELATIVE: [&str; 2] = ["R_X86_64_PC32", "R_X86_64_PLT32"];

/// Instructions on vector registers that every x86-64 processor has, by SSE and SSE2.
const SSE2: &str = "\
    movaps movups movapd movupd movdqa movdqu movd movq movss movsd movhlps movlhps movhps \
    movlps movhpd movlpd movmskps movmskpd pmovmskb paddb paddw paddd paddq paddsb paddsw \
    paddusb paddusw psubb psubw psubd psubq psubsb psubsw psubusb psubusw pmullw pmulhw pmulhuw \
    pmuludq pmaddwd psadbw pavgb pavgw pmaxub pmaxsw pminub pminsw pcmpeqb pcmpeqw pcmpeqd \
    pcmpgtb pcmpgtw pcmpgtd pand pandn por pxor andps andnps orps xorps andpd andnpd orpd xorpd \
    psllw pslld psllq pslldq psrlw psrld psrlq psrldq psraw psrad packsswb packssdw packuswb \
    punpcklbw punpcklwd punpckldq punpcklqdq punpckhbw punpckhwd punpckhdq punpckhqdq unpcklps \
    unpcklpd unpckhps unpckhpd shufps shufpd pshufd pshuflw pshufhw pextrw pinsrw";

/// Instructions on other registers that not every x86-64 processor has.
const NEWER: &str = "\
    adcx adox andn bextr blsi blsmsk blsr bzhi crc32 lzcnt movbe mulx pdep pext popcnt rorx sarx \
    shlx shrx tzcnt";

/// What the commands write about an archive.
#[derive(Clone, Debug, Default)]
pub struct Texts {
    /// `objdump -dr --no-show-raw-insn`
    pub disassembly: String,
    /// `objdump -r`
    pub relocations: String,
    /// `objdump -hw`
    pub sections: String,
    /// `nm`
    pub symbols: String,
}

impl Texts {
    /// Those about the archive at a path.
    pub fn of(archive: &Path) -> Result<Texts, String> {
        if !archive.is_file() {
            return Err(format!("{} is missing: run make library", archive.display()));
        }
        let [disassembly, relocations] = Texts::code_of(archive)?;
        let sections = written(archive, "objdump", &["-hw"])?;
        let symbols = written(archive, "nm", &[])?;
        Ok(Texts { disassembly, relocations, sections, symbols })
    }

    /// The disassembly and the relocations of an archive or an object.
    pub fn code_of(object: &Path) -> Result<[String; 2], String> {
        Ok([
            written(object, "objdump", &["-dr", "--no-show-raw-insn"])?,
            written(object, "objdump", &["-r"])?,
        ])
    }
}

/// What a command of binutils writes about the archive.
fn written(archive: &Path, command: &str, options: &[&str]) -> Result<String, String> {
    let run = Command::new(command).env("LC_ALL", "C").args(options).arg(archive).output();
    let output = run.map_err(|fault| {
        format!("{command} of binutils does not run ({fault}): install binutils")
    })?;
    if !output.status.success() {
        return Err(format!("{command}: {}", String::from_utf8_lossy(&output.stderr)));
    }
    String::from_utf8(output.stdout).map_err(|_| format!("{command} writes no text"))
}

/// What is measured.
#[derive(Clone, Debug, PartialEq, Eq)]
pub struct Figures {
    /// Bytes of code.
    pub code: u64,
    /// Bytes of constants.
    pub constants: u64,
    /// Bytes of memory that may be written.
    pub data: u64,
    /// The symbols that are undefined.
    pub undefined: BTreeSet<String>,
    /// The kinds of places that the linker fills in.
    pub relocations: BTreeSet<String>,
    /// The vector registers that are used, by their kind and number.
    pub vectors: BTreeSet<(String, u32)>,
    /// The most bytes that a function uses below the stack pointer.
    pub red_zone: u64,
    /// The deepest chain of each exported call.
    pub calls: BTreeMap<String, Chain>,
}

impl Figures {
    /// Reads them off.
    pub fn new(texts: &Texts) -> Result<Figures, String> {
        let listing = Listing::new(&texts.disassembly, &texts.relocations)?;
        let frames = frames(&listing)?;
        let undefined = symbols(&texts.symbols, "U");
        let mut called = frames.values().flat_map(|frame| &frame.calls).map(|call| &call.to);
        if let Some(name) = called.find(|to| !frames.contains_key(*to) && !undefined.contains(*to))
        {
            return Err(format!("{name} is called, and is neither in the archive nor undefined"));
        }
        let mut calls = BTreeMap::new();
        for name in symbols(&texts.symbols, "T") {
            calls.insert(name.clone(), deepest(&frames, &name)?);
        }
        let [code, constants, data] = sizes(&texts.sections)?;
        let figures = Figures {
            code,
            constants,
            data,
            undefined,
            relocations: relocation_kinds(&listing),
            vectors: vectors(&listing)?,
            red_zone: frames.values().map(|frame| frame.below).max().unwrap_or(0),
            calls,
        };
        figures.check().map(|()| figures)
    }

    /// Whether the archive needs only what it may.
    fn check(&self) -> Result<(), String> {
        if let Some(kind) = self.relocations.iter().find(|kind| !RELATIVE.contains(&&***kind)) {
            return Err(format!("the archive has relocations of the kind {kind}"));
        }
        match self.undefined.iter().find(|name| !OUTSIDE.contains(&&***name)) {
            Some(name) => {
                Err(format!("the archive needs {name}, and may need {} alone", OUTSIDE.join(", ")))
            }
            None if self.calls.is_empty() => Err("the archive exports nothing".to_string()),
            None => Ok(()),
        }
    }

    /// The calls that do not keep within the limit.
    pub fn too_deep(&self) -> Vec<&str> {
        self.calls
            .iter()
            .filter(|(_, chain)| chain.bytes() >= LIMIT)
            .map(|(name, _)| &**name)
            .collect()
    }
}

/// The symbols of a kind in what `nm` writes.
fn symbols(text: &str, kind: &str) -> BTreeSet<String> {
    let words = text.lines().map(|line| line.split_whitespace().collect::<Vec<_>>());
    let names = words.filter_map(|words| match words[..] {
        [.., found, name] if found == kind => Some(name.to_string()),
        _ => None,
    });
    names.collect()
}

/// The bytes of code, of constants and of memory that may be written.
fn sizes(sections: &str) -> Result<[u64; 3], String> {
    let mut sizes = [0; 3];
    for line in sections.lines() {
        // flags are parted by commas; the name of a generic function may have one inside
        let words: Vec<&str> =
            line.split_whitespace().map(|word| word.trim_end_matches(',')).collect();
        let [number, name, size, ..] = words[..] else { continue };
        if number.parse::<usize>().is_err() || !words.contains(&"ALLOC") {
            continue;
        }
        let size =
            u64::from_str_radix(size, 16).map_err(|_| format!("the size of {name} is not read"))?;
        let place = match () {
            () if words.contains(&"CODE") => 0,
            () if words.contains(&"READONLY") => 1,
            () => 2,
        };
        sizes[place] += size;
    }
    Ok(sizes)
}

fn relocation_kinds(listing: &Listing) -> BTreeSet<String> {
    let code = listing.functions.iter().flat_map(|function| function.relocations());
    let data = listing.data.values().flatten().map(|(_, relocation)| relocation);
    code.chain(data).map(|relocation| relocation.kind.clone()).collect()
}

/// The vector registers that are used, by instructions that every x86-64 processor has.
fn vectors(listing: &Listing) -> Result<BTreeSet<(String, u32)>, String> {
    let mut found = BTreeSet::new();
    for function in &listing.functions {
        for instruction in &function.instructions {
            let registers = vector_registers(&instruction.operands);
            if !is_common(instruction, !registers.is_empty()) {
                let Instruction { name, operands, at, .. } = instruction;
                let place = format!("{} at {at:x}", function.name);
                return Err(format!("{place}: not every x86-64 processor has {name} {operands}"));
            }
            found.extend(registers);
        }
    }
    Ok(found)
}

fn is_common(instruction: &Instruction, is_vector: bool) -> bool {
    let Instruction { name, operands, .. } = instruction;
    let is_in = |list: &str, name: &str| list.split_whitespace().any(|known| known == name);
    if is_vector {
        // a word taken out into memory is of a later set
        let is_later = name == "pextrw" && operands.ends_with(')');
        return is_in(SSE2, name)
            && !is_later
            && !operands.contains("%ymm")
            && !operands.contains("%zmm");
    }
    let bare = name.strip_suffix(['l', 'q', 'w']).unwrap_or(name);
    !is_in(NEWER, name) && !is_in(NEWER, bare)
}

/// The registers xmm, ymm, zmm, mm and k among the operands.
fn vector_registers(operands: &str) -> Vec<(String, u32)> {
    let names = operands.split('%').skip(1).filter_map(|behind| {
        let name = behind.split(|c: char| !c.is_ascii_alphanumeric()).next()?;
        let digits = name.trim_start_matches(|c: char| c.is_ascii_alphabetic());
        let kind = &name[..name.len() - digits.len()];
        ["xmm", "ymm", "zmm", "mm", "k"].contains(&kind).then_some(())?;
        Some((kind.to_string(), digits.parse().ok()?))
    });
    names.collect()
}
