//! Arrays in the functions that calls reach (document 02, W4): none has one in a local, a parameter
//! or a result. Slices are fine. A constant table is no local: it may be lent to a call, and its
//! elements and parts read, but not copied.
//!
//! A value with an array comes into a function as a literal, by a parameter, from a call, out of a
//! constant, or out of such a value; so it is enough to look at literals, signatures, constants and
//! the types that are named. The bodies are read token by token, so that no call is passed over. A
//! method is looked up by its name alone, in every type that the crate can see and in every `impl`
//! of a trait; so is a function or a constant behind a type parameter or a trait. That may follow
//! too much, never too little. What is not found is a fault, too.

use crate::source::{arguments_in, group_end, type_in, Type};
use crate::tokens::{Kind, Token};
use crate::tree::{is_primitive, Named, PlacedConstant, PlacedFunction, Scope, Tree};
use std::collections::BTreeMap;
use std::fmt;

/// The calls of documents 01 and 02; the strict form of each, where there is one, has `_strict`
/// behind its name. What the crate `mve` exports is offered, too.
const OFFERED: [&str; 8] = [
    "packet::check",
    "draw::draw",
    "opening::open",
    "film::step",
    "state::shown",
    "palette::create_gradient",
    "palette::set_palette",
    "palette::set_palette_compressed",
];

/// What the library uses of the kit and of the language, and why it has no array.
const KIT: [(&str, &str); 2] = [
    ("std::num::wrapping_add_u16", "the sum of its two numbers"),
    ("usize::from", "the number that its value is"),
];

/// Methods of the language's types, of `Option`, of `Result` and of iterators that the library calls.
/// None makes an array or takes one; what a closure does that one is given stands where it is given.
const METHODS: [&str; 17] = [
    "all",
    "any",
    "enumerate",
    "fill",
    "is_empty",
    "iter",
    "len",
    "max",
    "min",
    "ok_or",
    "rev",
    "saturating_sub",
    "skip",
    "starts_with",
    "step_by",
    "take",
    "zip",
];

/// Macros of the kit that bring no call: a value beside a pattern, both read like all else.
const MACROS: [&str; 1] = ["matches"];

/// The values of `Option` and of `Result`.
const VALUES: [&str; 4] = ["Err", "None", "Ok", "Some"];

const KEYWORDS: [&str; 17] = [
    "as", "break", "continue", "else", "false", "for", "if", "in", "let", "loop", "match", "mut",
    "ref", "return", "self", "true", "while",
];

/// Words that begin an item, which is not read inside a function.
const ITEM_WORDS: [&str; 12] = [
    "const", "enum", "extern", "fn", "impl", "mod", "static", "struct", "trait", "type", "unsafe",
    "use",
];

/// Something in a reached function that may not be there, or is not understood.
#[derive(Clone, Debug, PartialEq, Eq)]
pub struct Fault {
    /// Where it stands.
    pub file: String,
    /// Where it stands.
    pub line: usize,
    /// The function, with crate and modules.
    pub function: String,
    /// What is wrong.
    pub what: String,
    /// The functions from an offered one to this one's caller.
    pub by: Vec<String>,
}

impl fmt::Display for Fault {
    fn fmt(&self, f: &mut fmt::Formatter<'_>) -> fmt::Result {
        write!(f, "{}:{}: {}: {}", self.file, self.line, self.function, self.what)?;
        match self.by.is_empty() {
            true => Ok(()),
            false => write!(f, " (called by {})", self.by.join(", ")),
        }
    }
}

/// What following the calls finds.
#[derive(Debug, Default)]
pub struct Reached {
    /// The functions, with crate and modules.
    pub functions: Vec<String>,
    /// What is wrong in them.
    pub faults: Vec<Fault>,
}

/// The offered functions, or the name of one that is not there.
pub fn offered(tree: &Tree) -> Result<Vec<usize>, String> {
    let mut found = tree.exported("mve");
    if found.is_empty() {
        return Err("the crate mve exports nothing".to_string());
    }
    for name in OFFERED {
        found.push(
            tree.function(name).ok_or_else(|| format!("{name} is offered and is not found"))?,
        );
        found.extend(tree.function(&format!("{name}_strict")));
    }
    Ok(found)
}

/// Follows every call from these functions on.
pub fn follow(tree: &Tree, from: &[usize]) -> Reached {
    let mut callers: BTreeMap<usize, Option<usize>> = from.iter().map(|id| (*id, None)).collect();
    let mut open: Vec<usize> = callers.keys().copied().collect();
    let mut reached = Reached::default();
    while let Some(id) = open.pop() {
        let PlacedFunction { scope, name, .. } = &tree.functions[id];
        let mut scan = Scan::new(tree, id);
        scan.signature();
        scan.body();
        let by = chain(tree, &callers, id);
        let faults = scan.faults.into_iter().map(|(line, what)| Fault {
            file: tree.file(scope.module).to_string(),
            line,
            function: name.clone(),
            what,
            by: by.clone(),
        });
        reached.faults.extend(faults);
        reached.functions.push(name.clone());
        for called in scan.calls {
            callers.entry(called).or_insert_with(|| {
                open.push(called);
                Some(id)
            });
        }
    }
    reached.functions.sort();
    reached.faults.sort_by(|a, b| (&a.file, a.line).cmp(&(&b.file, b.line)));
    reached
}

/// The names from an offered function to this one's caller.
fn chain(tree: &Tree, callers: &BTreeMap<usize, Option<usize>>, id: usize) -> Vec<String> {
    let caller = |id: &usize| callers.get(id).copied().flatten();
    let ids = std::iter::successors(caller(&id), caller);
    let mut names: Vec<String> = ids.map(|id| tree.functions[id].name.clone()).collect();
    names.reverse();
    names
}

/// Whether a name of the kit is listed. What is not called may be a local or a type's greatest
/// number.
fn is_known(name: &str, is_called: bool) -> bool {
    let is_harmless =
        is_primitive(name.split("::").next().unwrap_or_default()) || !name.contains("::");
    !is_called && is_harmless || KIT.iter().any(|(known, _)| *known == name)
}

/// The reading of one function.
struct Scan<'t> {
    tree: &'t Tree,
    placed: &'t PlacedFunction,
    body: &'t [Token],
    /// The opening signs that the token is inside of.
    openers: Vec<usize>,
    /// The colon in front of a `let`'s type, and where the type ends.
    typed: BTreeMap<usize, usize>,
    calls: Vec<usize>,
    faults: Vec<(usize, String)>,
}

impl<'t> Scan<'t> {
    fn new(tree: &'t Tree, id: usize) -> Self {
        let placed = &tree.functions[id];
        let body = &placed.function.body;
        let (openers, calls, faults) = (Vec::new(), Vec::new(), Vec::new());
        Scan { tree, placed, body, openers, typed: BTreeMap::new(), calls, faults }
    }

    fn scope(&self) -> Scope {
        self.placed.scope
    }

    fn fault(&mut self, line: usize, what: impl Into<String>) {
        self.faults.push((line, what.into()));
    }

    fn is(&self, at: usize, text: &str) -> bool {
        self.body.get(at).is_some_and(|token| token.is(text))
    }

    fn signature(&mut self) {
        for (kind, line) in &self.placed.function.signature {
            self.written_type(kind, *line, "a parameter or result");
        }
    }

    fn written_type(&mut self, kind: &Type, line: usize, place: &str) {
        let kind = kind.clone().without(&self.placed.function.generics);
        match self.tree.has_array(self.scope(), &kind) {
            Ok(false) => (),
            Ok(true) => self.fault(line, format!("{place} with an array")),
            Err(name) => self.fault(line, format!("the type {name} is not found")),
        }
    }

    fn body(&mut self) {
        let mut at = 0;
        while let Some(token) = self.body.get(at) {
            at = match token.kind {
                Kind::Word => self.word(at),
                Kind::Sign => self.sign(at),
                Kind::Text => {
                    self.fault(token.line, "a quoted text, which is an array");
                    at + 1
                }
                Kind::Number | Kind::Character | Kind::Lifetime => at + 1,
            };
        }
    }

    /// A sign; the index of what comes behind it.
    fn sign(&mut self, at: usize) -> usize {
        let token = &self.body[at];
        match &*token.text {
            "#" => return group_end(self.body, at + 1).map_or(self.body.len(), |end| end + 1),
            ":" => return self.typed.get(&at).copied().unwrap_or(at + 1),
            // behind `<T as Trait>`, whose name alone would be taken for a local's
            "::" => self.fault(token.line, "what stands in front of :: is not read"),
            "[" if !self.is_value(at) => self.fault(token.line, "an array"),
            _ => (),
        }
        match &*token.text {
            "(" | "[" | "{" => self.openers.push(at),
            ")" | "]" | "}" => drop(self.openers.pop()),
            _ => (),
        }
        at + 1
    }

    /// Whether a value ends just before this token, so that a bracket there is an index.
    fn is_value(&self, at: usize) -> bool {
        let Some(before) = at.checked_sub(1).map(|before| &self.body[before]) else { return false };
        match before.kind {
            Kind::Word => before.text == "self" || !KEYWORDS.contains(&&*before.text),
            Kind::Sign => before.is(")") || before.is("]"),
            Kind::Number | Kind::Character | Kind::Text => true,
            Kind::Lifetime => false,
        }
    }

    /// A word; the index of what comes behind it and what belongs to it.
    fn word(&mut self, at: usize) -> usize {
        let Token { text, line, .. } = &self.body[at];
        let behind_dot = at > 0 && self.is(at - 1, ".");
        match &**text {
            _ if behind_dot => self.member(at),
            "let" => self.binding(at),
            "as" => self.type_at(at + 1, "a cast"),
            "self" if !self.is(at + 1, "::") => at + 1,
            word if word != "self" && KEYWORDS.contains(&word) => at + 1,
            word if ITEM_WORDS.contains(&word) => {
                self.fault(*line, format!("{word} inside a function is not read"));
                at + 1
            }
            _ => self.path(at),
        }
    }

    /// A field, or a method that is called.
    fn member(&mut self, at: usize) -> usize {
        let Token { text, line, .. } = &self.body[at];
        if self.is(at + 1, "::") {
            self.fault(*line, format!("what stands behind {text} is not read"));
        }
        if self.is(at + 1, "(") {
            let members = self.tree.members(self.scope().module, text);
            let known = self.calls.len();
            self.calls.extend(members.iter().filter_map(|member| match member {
                Named::Function(id) => Some(*id),
                _ => None,
            }));
            if self.calls.len() == known && !METHODS.contains(&&**text) {
                self.fault(*line, format!("no method {text} is found"));
            }
        }
        at + 1
    }

    /// `let`: the type is read at once, the pattern and the value like all else.
    fn binding(&mut self, at: usize) -> usize {
        let mut end = at + 1;
        while let Some(token) = self.body.get(end) {
            if token.is(":") {
                let behind = self.type_at(end + 1, "a local");
                self.typed.insert(end, behind);
                break;
            }
            if token.is("=") || token.is(";") {
                break;
            }
            let is_open = token.is("(") || token.is("{") || token.is("[");
            end = if is_open { group_end(self.body, end).unwrap_or(end) } else { end } + 1;
        }
        at + 1
    }

    /// A type that begins here; the index of what comes behind it.
    fn type_at(&mut self, at: usize, place: &str) -> usize {
        let line = self.body[at - 1].line;
        match type_in(&self.body[at..]) {
            Ok((kind, length)) => {
                self.written_type(&kind, line, place);
                at + length
            }
            Err(fault) => {
                self.fault(line, format!("a type is not understood: line {fault}"));
                at
            }
        }
    }

    /// A path, or a name, which may be a local's or a field's.
    fn path(&mut self, at: usize) -> usize {
        let line = self.body[at].line;
        let mut path = vec![self.body[at].text.clone()];
        let mut end = at + 1;
        while self.is(end, "::") {
            match self.body.get(end + 1) {
                Some(token) if token.kind == Kind::Word => path.push(token.text.clone()),
                Some(token) if token.is("<") => {
                    end = self.arguments(end + 1);
                    continue;
                }
                _ => {
                    self.fault(line, format!("what stands behind {} is not read", path.join("::")))
                }
            }
            end += 2;
        }
        let is_called = self.is(end, "(");
        if self.is(end, "!") && ["(", "[", "{"].iter().any(|open| self.is(end + 1, open)) {
            if MACROS.contains(&&*path.join("::")) {
                return end + 1;
            }
            self.fault(line, format!("the macro {} is not read", path.join("::")));
        }
        self.named(at, end, &path, is_called);
        end
    }

    /// The arguments of a path, in `<>`; the index of what comes behind them.
    fn arguments(&mut self, at: usize) -> usize {
        let line = self.body[at].line;
        match arguments_in(&self.body[at..]) {
            Ok((kinds, length)) => {
                for kind in &kinds {
                    self.written_type(kind, line, "an argument in <>");
                }
                at + length
            }
            Err(fault) => {
                self.fault(line, format!("arguments in <> are not understood: line {fault}"));
                self.body.len()
            }
        }
    }

    /// A function or a constant behind a type that is not known here, or whose `impl`s are several:
    /// that of every type that has one. Whether there is any.
    fn members(&mut self, at: usize, end: usize, name: &str) -> bool {
        let tree = self.tree;
        let members = tree.members(self.scope().module, name);
        for member in &members {
            match member {
                Named::Function(id) => self.calls.push(*id),
                Named::Constant(id) => self.constant(at, end, &tree.constants[*id]),
                Named::Module(_) | Named::Type(_) | Named::Kit(_) => (),
            }
        }
        !members.is_empty()
    }

    fn named(&mut self, at: usize, end: usize, path: &[String], is_called: bool) {
        let line = self.body[at].line;
        let whole = path.join("::");
        match path {
            [of, name] if self.placed.function.generics.contains(of) => {
                if !self.members(at, end, name) {
                    self.fault(line, format!("{whole} is not found"));
                }
                return;
            }
            _ => (),
        }
        match self.tree.find(self.scope(), path) {
            Some(found) if self.tree.is_of_trait(&found) => {
                self.members(at, end, path.last().map_or("", |name| name));
            }
            // one that is not called may be so where it is given; or it is a local of that name
            Some(Named::Function(id)) => self.calls.push(id),
            Some(Named::Type(id)) => match self.tree.type_has_array(id) {
                Ok(false) => (),
                Ok(true) => self.fault(line, format!("a value of {whole}, which has an array")),
                Err(name) => self.fault(line, format!("the type {name} is not found")),
            },
            Some(Named::Constant(id)) => self.constant(at, end, &self.tree.constants[id]),
            Some(Named::Kit(name)) => {
                // an `impl` here may give a type of the language a member
                if let Some((_, member)) = name.rsplit_once("::") {
                    self.members(at, end, member);
                }
                if !is_known(&name, is_called) {
                    self.fault(line, format!("{name} is not among what is known of the kit"));
                }
            }
            None if VALUES.contains(&&*whole) => (),
            Some(Named::Module(_)) | None if is_called || path.len() > 1 => {
                self.fault(line, format!("{whole} is not found"));
            }
            Some(Named::Module(_)) | None => (),
        }
    }

    /// A constant, named from `at` to `end`: what is taken of it has no array, or is lent.
    fn constant(&mut self, at: usize, end: usize, constant: &PlacedConstant) {
        let line = self.body[at].line;
        let scope = constant.scope;
        if self.tree.has_array(scope, &constant.kind) == Ok(false) {
            return; // nor has what is taken of it
        }
        match self.taken(scope, &constant.kind, end) {
            Some(kind) => match self.tree.has_array(scope, &kind) {
                Ok(false) => (),
                Ok(true) if self.is_lent(at) => (),
                Ok(true) => self.fault(line, format!("a copy of the table {}", constant.name)),
                Err(name) => self.fault(line, format!("the type {name} is not found")),
            },
            None => self.fault(line, format!("what is taken of {} is not read", constant.name)),
        }
    }

    /// The type of what indices and fields behind a constant take of it.
    fn taken(&self, scope: Scope, kind: &Type, at: usize) -> Option<Type> {
        if self.is(at, "[") {
            let end = group_end(self.body, at)?;
            let is_range = (at + 1..end).any(|at| self.is(at, "..") || self.is(at, "..="));
            return match kind {
                Type::Array(of) | Type::Slice(of) if is_range => {
                    self.taken(scope, &Type::Slice(of.clone()), end + 1)
                }
                Type::Array(of) | Type::Slice(of) => self.taken(scope, of, end + 1),
                Type::Reference(_) | Type::Several(_) | Type::Named(_) => None,
            };
        }
        if !self.is(at, ".") {
            return Some(kind.clone());
        }
        let name = &self.body.get(at + 1)?.text;
        match kind {
            Type::Array(_) | Type::Slice(_) if name == "len" => {
                Some(Type::Named(vec!["usize".to_string()]))
            }
            Type::Named(path) => {
                let Some(Named::Type(id)) = self.tree.find(scope, path) else { return None };
                let found = &self.tree.types[id];
                let (_, kind) = found.declared.holds.iter().find(|(field, _)| field == name)?;
                self.taken(Scope { module: found.module, own: Some(id) }, kind, at + 2)
            }
            _ => None,
        }
    }

    /// Whether a reference is made here that is an argument, or the value of a `let` that says its
    /// type.
    fn is_lent(&self, at: usize) -> bool {
        if at == 0 || !self.is(at - 1, "&") {
            return false;
        }
        let takes = |open: &usize| {
            self.is(*open, "(") && self.is_value(*open) && self.is_of_known_types(*open)
        };
        let is_argument = self.openers.last().is_some_and(takes);
        let begins = at > 1 && (self.is(at - 2, "(") || self.is(at - 2, ","));
        is_argument && begins || self.typed.values().any(|end| end + 2 == at)
    }

    /// Whether what is called at this opening sign says its parameters' types: in the place of a
    /// type parameter, or in an `Option`, a table would be an array that no type names.
    fn is_of_known_types(&self, open: usize) -> bool {
        let mut first = open - 1;
        while first >= 2 && self.is(first - 1, "::") {
            first -= 2;
        }
        let words = self.body[first..open].iter().step_by(2);
        let path: Vec<String> = words.map(|token| token.text.clone()).collect();
        let is_method = first > 0 && self.is(first - 1, ".");
        let called = match self.tree.find(self.scope(), &path) {
            Some(found) if !is_method && !self.tree.is_of_trait(&found) => vec![found],
            _ => self.tree.members(self.scope().module, &self.body[open - 1].text),
        };
        let is_plain = |found: &Named| match found {
            Named::Function(id) => self.tree.functions[*id].function.generics.is_empty(),
            _ => false,
        };
        !called.is_empty() && called.iter().all(is_plain)
    }
}
