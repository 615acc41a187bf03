//! The stack that compiled functions take. Each is followed from its first instruction on, wherever
//! it may go, with the bytes that lie on the stack then: its return address, what it has pushed and
//! what it has taken off the stack pointer. What cannot be followed is a fault: an indirect call,
//! an indirect jump that is no jump table, a function that calls itself, a stack pointer that is
//! moved by a register, unless it was copied there before and the register is one that calls keep.

use crate::listing::{Function, Instruction, Listing};
use std::collections::BTreeMap;

/// A return address.
const WORD: u64 = 8;
/// What the ABI lets a function use below the stack pointer.
const RED_ZONE: u64 = 128;
/// The registers that calls keep, and their parts.
const KEPT: [&[&str]; 6] = [
    &["%rbx", "%ebx", "%bx", "%bl", "%bh"],
    &["%rbp", "%ebp", "%bp", "%bpl"],
    &["%r12", "%r12d", "%r12w", "%r12b"],
    &["%r13", "%r13d", "%r13w", "%r13b"],
    &["%r14", "%r14d", "%r14w", "%r14b"],
    &["%r15", "%r15d", "%r15w", "%r15b"],
];

/// A call, or a jump to another function in place of one.
#[derive(Clone, Debug, PartialEq, Eq)]
pub struct Call {
    /// The function that is called.
    pub to: String,
    /// The bytes of the caller that lie on the stack beneath it.
    pub depth: u64,
}

/// What a function takes by itself.
#[derive(Clone, Debug, Default, PartialEq, Eq)]
pub struct Frame {
    /// Its bytes at the deepest, with those that it uses below the stack pointer.
    pub bytes: u64,
    /// How many it uses below the stack pointer.
    pub below: u64,
    /// The calls that it makes.
    pub calls: Vec<Call>,
}

/// The deepest chain of calls from a function: each with its bytes.
#[derive(Clone, Debug, Default, PartialEq, Eq)]
pub struct Chain(pub Vec<(String, u64)>);

impl Chain {
    /// The bytes of all.
    pub fn bytes(&self) -> u64 {
        self.0.iter().map(|(_, bytes)| bytes).sum()
    }
}

/// The frames of all functions.
pub fn frames(listing: &Listing) -> Result<BTreeMap<String, Frame>, String> {
    check_addresses(listing)?;
    let mut found = BTreeMap::new();
    for function in &listing.functions {
        let frame = Walk::new(listing, function).frame();
        let frame = frame.map_err(|fault| format!("{}: {fault}", function.name))?;
        if found.insert(function.name.clone(), frame).is_some() {
            return Err(format!("{} stands twice", function.name));
        }
    }
    Ok(found)
}

/// The deepest chain from a function on. Of what is called outside the archive its return address
/// counts.
pub fn deepest(frames: &BTreeMap<String, Frame>, name: &str) -> Result<Chain, String> {
    if !frames.contains_key(name) {
        return Err(format!("{name} is not among the functions"));
    }
    deepest_behind(frames, name, &mut Vec::new())
}

fn deepest_behind<'a>(
    frames: &'a BTreeMap<String, Frame>,
    name: &'a str,
    callers: &mut Vec<&'a str>,
) -> Result<Chain, String> {
    let Some(frame) = frames.get(name) else {
        return Ok(Chain(vec![(name.to_string(), WORD)]));
    };
    if callers.contains(&name) {
        return Err(format!("{name} calls itself, by {}", callers.join(", ")));
    }
    callers.push(name);
    let mut most = Chain(vec![(name.to_string(), frame.bytes)]);
    for call in &frame.calls {
        let mut chain = deepest_behind(frames, &call.to, callers)?;
        chain.0.insert(0, (name.to_string(), call.depth));
        if chain.bytes() > most.bytes() {
            most = chain;
        }
    }
    callers.pop();
    Ok(most)
}

/// An address of code stands nowhere but in a jump or a call to it and in the jump tables of its
/// own function. So an indirect jump stays inside its function.
fn check_addresses(listing: &Listing) -> Result<(), String> {
    for section in listing.data.keys() {
        let users = listing.functions.iter().filter(|function| function.refers_to(section));
        if users.count() != 1 {
            return Err(format!("{section} has addresses and is not one function's jump table"));
        }
    }
    for function in &listing.functions {
        let others = function.instructions.iter().filter(|instruction| !is_jump(instruction));
        let mut symbols = others.filter_map(|instruction| instruction.relocation.as_ref());
        if let Some(found) = symbols.find(|relocation| listing.is_code(&relocation.symbol)) {
            return Err(format!("{} takes the address of {}", function.name, found.symbol));
        }
    }
    Ok(())
}

fn is_jump(instruction: &Instruction) -> bool {
    instruction.name.starts_with('j') || instruction.name.starts_with("call")
}

/// Where an instruction leads.
enum Flow {
    Next,
    End,
    Jump(Target),
    Branch(Target),
    Table,
    Call(Target),
}

enum Target {
    Inside(u64),
    Function(String),
}

/// What is known before an instruction, whichever way leads there.
#[derive(Clone, Debug, Default, PartialEq, Eq)]
struct Known {
    /// The bytes on the stack.
    depth: u64,
    /// The registers that hold the stack pointer as it was with so many bytes on the stack.
    copies: BTreeMap<&'static str, u64>,
}

/// The walk over one function.
struct Walk<'l> {
    listing: &'l Listing,
    function: &'l Function,
    /// Where its jump tables lead.
    tables: Vec<u64>,
    /// What is known before each instruction that was reached.
    known: BTreeMap<u64, Known>,
    open: Vec<u64>,
    frame: Frame,
}

impl<'l> Walk<'l> {
    fn new(listing: &'l Listing, function: &'l Function) -> Self {
        let (tables, open) = (Vec::new(), Vec::new());
        Walk { listing, function, tables, known: BTreeMap::new(), open, frame: Frame::default() }
    }

    fn frame(mut self) -> Result<Frame, String> {
        self.tables = self.table_targets()?;
        self.go_to(self.function.start, &Known { depth: WORD, copies: BTreeMap::new() })?;
        while let Some(at) = self.open.pop() {
            let all = &self.function.instructions;
            let index = all.binary_search_by_key(&at, |instruction| instruction.at);
            let index = index.map_err(|_| format!("no instruction at {at:x}"))?;
            let next = all.get(index + 1).map(|instruction| instruction.at);
            let place = |fault| format!("at {at:x}: {fault}");
            self.step(&all[index], next).map_err(place)?;
        }
        self.check_reached()?;
        self.count_red_zone();
        Ok(self.frame)
    }

    /// Goes on at an address, with this known. Where two ways lead there, the bytes on the stack are the
    /// same, and what else is known is what both know.
    fn go_to(&mut self, at: u64, known: &Known) -> Result<(), String> {
        let Some(before) = self.known.get_mut(&at) else {
            self.known.insert(at, known.clone());
            self.open.push(at);
            return Ok(());
        };
        let (one, other) = (before.depth, known.depth);
        if one != other {
            return Err(format!("{one} and {other} bytes on the stack at {at:x}"));
        }
        let count = before.copies.len();
        before.copies.retain(|register, depth| known.copies.get(register) == Some(depth));
        if before.copies.len() < count {
            self.open.push(at);
        }
        Ok(())
    }

    fn step(&mut self, instruction: &Instruction, next: Option<u64>) -> Result<(), String> {
        let before = self.known[&instruction.at].clone();
        let after = known_after(instruction, &before)?;
        let (depth, below) = (after.depth, below(&instruction.operands)?);
        self.frame.below = self.frame.below.max(below);
        self.frame.bytes = self.frame.bytes.max(depth).max(before.depth + below);
        let flow = self.flow(instruction)?;
        let falls = matches!(flow, Flow::Next | Flow::Branch(_) | Flow::Call(_));
        match flow {
            Flow::Jump(target) | Flow::Branch(target) => self.jump(target, &after)?,
            Flow::Call(Target::Function(to)) => self.call(to, depth),
            Flow::Call(Target::Inside(_)) => return Err("it calls itself".to_string()),
            Flow::Table if self.tables.is_empty() => {
                return Err("an indirect jump without a jump table".to_string());
            }
            Flow::Table => {
                self.tables.clone().iter().try_for_each(|target| self.go_to(*target, &after))?
            }
            Flow::End if instruction.name.starts_with("ret") && depth != WORD => {
                return Err(format!("a return with {depth} bytes on the stack"));
            }
            Flow::Next | Flow::End => (),
        }
        match (falls, next) {
            (true, Some(next)) => self.go_to(next, &after),
            (true, None) => Err("the function does not end".to_string()),
            (false, _) => Ok(()),
        }
    }

    /// A jump to another function leaves it the return address that is there.
    fn jump(&mut self, target: Target, known: &Known) -> Result<(), String> {
        match (target, known.depth) {
            (Target::Inside(at), _) => self.go_to(at, known),
            (Target::Function(to), WORD) => {
                self.call(to, 0);
                Ok(())
            }
            (Target::Function(to), depth) => {
                Err(format!("a jump to {to} with {depth} bytes on the stack"))
            }
        }
    }

    fn call(&mut self, to: String, depth: u64) {
        let call = Call { to, depth };
        if !self.frame.calls.contains(&call) {
            self.frame.calls.push(call);
        }
    }

    fn flow(&self, instruction: &Instruction) -> Result<Flow, String> {
        let Instruction { name, operands, .. } = instruction;
        let is_indirect = operands.starts_with('*');
        match &**name {
            "ret" | "retq" | "ud2" | "hlt" | "int3" => Ok(Flow::End),
            "syscall" | "sysenter" | "int" => Err("a call of the system".to_string()),
            _ if !is_jump(instruction) && !name.starts_with("loop") => Ok(Flow::Next),
            _ if name.starts_with("call") && is_indirect => Err("an indirect call".to_string()),
            _ if is_indirect => Ok(Flow::Table),
            _ => {
                let target = self.target(instruction)?;
                Ok(match &**name {
                    "jmp" | "jmpq" => Flow::Jump(target),
                    "call" | "callq" => Flow::Call(target),
                    _ => Flow::Branch(target),
                })
            }
        }
    }

    /// What a direct jump or call goes to: what the linker fills in, or else a place in the
    /// section.
    fn target(&self, instruction: &Instruction) -> Result<Target, String> {
        let fault =
            || format!("it is not read where {} {} goes", instruction.name, instruction.operands);
        let found = match &instruction.relocation {
            Some(relocation) => match self.listing.code_of(relocation, 4) {
                Some(found) => found,
                None if relocation.symbol.starts_with('.') => return Err(fault()),
                None => return Ok(Target::Function(relocation.symbol.clone())),
            },
            None => {
                let digits = instruction.operands.split_whitespace().next().unwrap_or_default();
                let at = u64::from_str_radix(digits, 16).map_err(|_| fault())?;
                (self.listing.function_at(&self.function.section, at).ok_or_else(fault)?, at)
            }
        };
        match found {
            (function, at) if function.name == self.function.name => Ok(Target::Inside(at)),
            (function, at) if at == function.start => Ok(Target::Function(function.name.clone())),
            _ => Err(fault()),
        }
    }

    /// Where the jump tables of this function lead: always inside it. An entry is the distance from
    /// its table's start, and the linker counts it from the entry.
    fn table_targets(&self) -> Result<Vec<u64>, String> {
        let mut targets = Vec::new();
        let own = self.listing.data.iter().filter(|(section, _)| self.function.refers_to(section));
        for (section, table) in own {
            let used = self.function.relocations().filter(|found| found.symbol == *section);
            let starts: Vec<i64> = used.map(|found| found.addend + 4).collect();
            for (offset, relocation) in table {
                let offset = i64::try_from(*offset).map_err(|_| "an offset is too large")?;
                let start = starts.iter().filter(|start| **start <= offset).max();
                let found =
                    start.and_then(|start| self.listing.code_of(relocation, start - offset));
                match found.filter(|(function, _)| function.name == self.function.name) {
                    Some((_, target)) => targets.push(target),
                    None => return Err(format!("{section} leads out of the function")),
                }
            }
        }
        Ok(targets)
    }

    /// Whatever is not reached must be what fills the room between functions and blocks.
    fn check_reached(&self) -> Result<(), String> {
        let is_filling =
            |name: &str| name.starts_with("nop") || ["int3", "ud2", "xchg"].contains(&name);
        let mut missed =
            self.function.instructions.iter().filter(|found| !self.known.contains_key(&found.at));
        match missed.find(|found| !is_filling(&found.name)) {
            Some(found) => {
                Err(format!("at {:x}: {} is reached by nothing that is read", found.at, found.name))
            }
            None => Ok(()),
        }
    }

    /// Where a function that calls none keeps an address of its stack in a register, it may use the
    /// whole red zone by it.
    fn count_red_zone(&mut self) {
        let is_address = |found: &Instruction| {
            let copies = found.name.starts_with("mov") && found.operands.starts_with("%rsp,");
            let moves = found.operands.ends_with(",%rsp");
            let is_lea = found.name.starts_with("lea") && found.operands.contains("(%rsp");
            copies || is_lea && !moves
        };
        let is_kept = self.function.instructions.iter().any(is_address);
        let calls = self.function.instructions.iter().any(|found| found.name.starts_with("call"));
        if !calls && is_kept {
            let depths = self.known.values().map(|known| known.depth);
            let most = depths.max().map_or(0, |depth| depth + RED_ZONE);
            self.frame.below = self.frame.below.max(RED_ZONE);
            self.frame.bytes = self.frame.bytes.max(most);
        }
    }
}

/// What is known behind an instruction.
fn known_after(instruction: &Instruction, before: &Known) -> Result<Known, String> {
    let Instruction { name, operands, .. } = instruction;
    let is_move = ["mov", "movq"].contains(&&**name);
    let (source, target) = operands.rsplit_once(',').unwrap_or(("", operands));
    let mut after = before.clone();
    if let (true, "%rsp", Some(depth)) = (is_move, target, before.copies.get(source)) {
        after.depth = *depth;
        return Ok(after);
    }
    after.depth = depth_after(instruction, before.depth)?;
    let only_reads = ["push", "pushq", "cmp", "cmpq", "test", "testq"].contains(&&**name);
    for parts in KEPT.iter().filter(|_| !only_reads) {
        let is_written = parts.contains(&target) || name.contains("xchg");
        if is_written && parts.iter().any(|part| operands.contains(part)) {
            after.copies.remove(parts[0]);
        }
        if is_move && source == "%rsp" && target == parts[0] {
            after.copies.insert(parts[0], before.depth);
        }
    }
    Ok(after)
}

/// The bytes on the stack behind an instruction. Whatever else moves the stack pointer is a fault.
fn depth_after(instruction: &Instruction, depth: u64) -> Result<u64, String> {
    let Instruction { name, operands, .. } = instruction;
    let (source, target) = operands.rsplit_once(',').unwrap_or(("", operands));
    let moves_pointer = ["%rsp", "%esp", "%sp", "%spl"].contains(&target);
    let moved = match &**name {
        "push" | "pushq" => Some(8),
        "pop" | "popq" if !moves_pointer => Some(-8),
        "sub" | "subq" if target == "%rsp" => immediate(source),
        "add" | "addq" if target == "%rsp" => immediate(source).and_then(i64::checked_neg),
        "lea" | "leaq" if target == "%rsp" => displacement(source).and_then(i64::checked_neg),
        "cmp" | "cmpq" | "test" | "testq" => Some(0),
        "leave" | "enter" => None,
        "popcnt" => Some(0),
        other if other.starts_with("push") || other.starts_with("pop") => None,
        other if other.contains("xchg") && operands.contains("%rsp") => None,
        _ if moves_pointer => None,
        _ => Some(0),
    };
    let moved = moved
        .ok_or_else(|| format!("it is not read how {name} {operands} moves the stack pointer"))?;
    match depth.checked_add_signed(moved) {
        Some(depth) if depth >= WORD => Ok(depth),
        _ => Err(format!("{name} {operands} takes the return address")),
    }
}

/// `$0x10`, a number of 64 bits in two's complement.
fn immediate(text: &str) -> Option<i64> {
    let digits = text.strip_prefix("$0x")?;
    u64::from_str_radix(digits, 16).ok().map(|number| number as i64)
}

/// `-0x10(%rsp)`, without an index.
fn displacement(text: &str) -> Option<i64> {
    signed(text.strip_suffix("(%rsp)")?)
}

/// `-0x10`, `0x10` or nothing.
fn signed(text: &str) -> Option<i64> {
    let (digits, sign) = text.strip_prefix('-').map_or((text, 1), |digits| (digits, -1));
    match digits.strip_prefix("0x") {
        Some(digits) => i64::from_str_radix(digits, 16).ok().map(|number| sign * number),
        None => digits.is_empty().then_some(0),
    }
}

/// How far below the stack pointer the operands reach.
fn below(operands: &str) -> Result<u64, String> {
    let mut most = 0;
    for (at, _) in operands.match_indices("(%rsp") {
        let before = &operands[..at];
        let start = before.rfind([',', '*', ':', ' ']).map_or(0, |at| at + 1);
        let offset = signed(&before[start..]).ok_or_else(|| format!("{operands} is not read"))?;
        most = most.max(offset.min(0).unsigned_abs());
    }
    Ok(most)
}
