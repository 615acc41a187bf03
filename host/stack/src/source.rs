//! The items of a Rattle source: what it declares, and the tokens of each function's body.

use crate::tokens::{tokens, Kind, Token};

/// A type as it is written.
#[derive(Clone, Debug, PartialEq, Eq)]
pub enum Type {
    /// `[T; n]`
    Array(Box<Type>),
    /// `[T]`
    Slice(Box<Type>),
    /// `&T`, `&mut T`, `&&T`
    Reference(Box<Type>),
    /// `(T, U)`, or a path and its arguments, `Option<T>`; of a type parameter none.
    Several(Vec<Type>),
    /// A path.
    Named(Vec<String>),
}

impl Type {
    /// With another type in place of a name, of which nothing else is said.
    fn with(self, name: &str, other: &Type) -> Type {
        let inside = |of: Box<Type>| Box::new(of.with(name, other));
        match self {
            Type::Array(of) => Type::Array(inside(of)),
            Type::Slice(of) => Type::Slice(inside(of)),
            Type::Reference(of) => Type::Reference(inside(of)),
            Type::Several(all) => {
                Type::Several(all.into_iter().map(|of| of.with(name, other)).collect())
            }
            Type::Named(path) if path == [name] => other.clone(),
            Type::Named(path) => Type::Named(path),
        }
    }

    /// As it stands in an `impl` of a type of the language.
    pub fn of(self, own: &[String]) -> Type {
        self.with("Self", &Type::Named(own.to_vec()))
    }

    /// With nothing in place of each of these type parameters.
    pub fn without(self, names: &[String]) -> Type {
        names.iter().fold(self, |of, name| of.with(name, &Type::Several(Vec::new())))
    }
}

/// A function, with or without a receiver.
#[derive(Clone, Debug)]
pub struct Function {
    /// Its own name, without those of modules.
    pub name: String,
    /// Where its name stands.
    pub line: usize,
    /// Whether it is `#[unsafe(no_mangle)]` and `extern "C"`.
    pub exported: bool,
    /// Whether it stands in a trait or in an `impl` of one.
    pub of_trait: bool,
    /// The names of its type and const parameters, with those of its `impl` or trait.
    pub generics: Vec<String>,
    /// The types of its parameters and of its result, each with its line.
    pub signature: Vec<(Type, usize)>,
    /// What stands between the braces; nothing where a trait only declares it.
    pub body: Vec<Token>,
}

impl Function {
    /// As it stands in an `impl` or a trait with these parameters.
    fn inside(mut self, generics: &[String]) -> Function {
        self.generics.extend_from_slice(generics);
        let signature = self.signature.into_iter();
        self.signature = signature.map(|(kind, line)| (kind.without(generics), line)).collect();
        self
    }

    /// As it stands in an `impl` of a type of the language.
    pub fn of(mut self, own: &[String]) -> Function {
        let signature = self.signature.into_iter();
        self.signature = signature.map(|(kind, line)| (kind.of(own), line)).collect();
        self
    }
}

/// What stands in an `impl` or a trait.
#[derive(Clone, Debug, Default)]
pub struct Members {
    /// The functions.
    pub functions: Vec<Function>,
    /// The constants, with their types.
    pub constants: Vec<(String, Type)>,
}

/// An `impl`.
#[derive(Clone, Debug)]
pub struct Block {
    /// The path of the type that it is for.
    pub path: Vec<String>,
    /// The path of the trait that it is of.
    pub of: Option<Vec<String>>,
    /// Where it begins.
    pub line: usize,
    /// What it has.
    pub members: Members,
}

/// A struct, an enum or another name for a type.
#[derive(Clone, Debug)]
pub struct Declared {
    /// Its name.
    pub name: String,
    /// The types in it: of fields, of a variant's values, or the type that it is a name for. Fields
    /// of structs come with their names, the others with their numbers or none.
    pub holds: Vec<(String, Type)>,
    /// The names of an enum's variants.
    pub variants: Vec<String>,
    /// Whether it is another name for a type.
    pub is_alias: bool,
}

/// What a source declares.
#[derive(Clone, Debug)]
pub enum Item {
    /// `fn`
    Function(Function),
    /// `struct`, `enum`, `type`
    Type(Declared),
    /// `impl`, of a trait or not.
    Methods(Block),
    /// `trait`: its name, and what it has.
    Trait(String, Members),
    /// `const`
    Constant(String, Type),
    /// `use`: the name that it gives, the path, the line.
    Import(String, Vec<String>, usize),
    /// `mod`: the items where they stand in the same source.
    Module(String, Option<Vec<Item>>),
}

/// The items of a source, or the line of what is not understood.
pub fn items(source: &str) -> Result<Vec<Item>, String> {
    let tokens = tokens(source)?;
    Reader::new(&tokens).items()
}

/// The type that tokens begin with, and how many it has.
pub fn type_in(tokens: &[Token]) -> Result<(Type, usize), String> {
    let mut reader = Reader::new(tokens);
    let found = reader.read_type()?;
    Ok((found, reader.at))
}

/// The arguments in `<>` that tokens begin with, values and lifetimes apart, and how many tokens
/// they have.
pub fn arguments_in(tokens: &[Token]) -> Result<(Vec<Type>, usize), String> {
    let mut reader = Reader::new(tokens);
    let found = reader.arguments()?;
    Ok((found, reader.at))
}

/// Where the group that begins at an opening sign ends: the index of its closing sign.
pub fn group_end(tokens: &[Token], open: usize) -> Option<usize> {
    let mut depth = 0;
    let length = tokens[open..].iter().position(|token| {
        if token.kind == Kind::Sign {
            match &*token.text {
                "(" | "[" | "{" => depth += 1,
                ")" | "]" | "}" => depth -= 1,
                _ => (),
            }
        }
        depth == 0
    });
    length.map(|length| open + length)
}

struct Reader<'t> {
    tokens: &'t [Token],
    at: usize,
    /// Whether the first half of a `>>` that stands here is read.
    is_half_read: bool,
}

impl<'t> Reader<'t> {
    fn new(tokens: &'t [Token]) -> Self {
        Reader { tokens, at: 0, is_half_read: false }
    }

    fn line(&self) -> usize {
        self.tokens.get(self.at).or(self.tokens.last()).map_or(0, |token| token.line)
    }

    fn fault<T>(&self, wanted: &str) -> Result<T, String> {
        let found = self.tokens.get(self.at).map_or("the end", |token| &token.text);
        Err(format!("{}: {wanted} is expected, not {found}", self.line()))
    }

    fn sees(&self, text: &str) -> bool {
        self.tokens.get(self.at).is_some_and(|token| token.is(text))
    }

    fn eat(&mut self, text: &str) -> bool {
        let sees = self.sees(text);
        self.at += usize::from(sees);
        sees
    }

    fn expect(&mut self, text: &str) -> Result<(), String> {
        if self.eat(text) {
            return Ok(());
        }
        self.fault(text)
    }

    fn eat_kind(&mut self, kind: Kind) -> Option<&'t Token> {
        let token = self.tokens.get(self.at).filter(|token| token.kind == kind)?;
        self.at += 1;
        Some(token)
    }

    fn word(&mut self) -> Result<String, String> {
        match self.eat_kind(Kind::Word) {
            Some(token) => Ok(token.text.clone()),
            None => self.fault("a name"),
        }
    }

    fn path(&mut self) -> Result<Vec<String>, String> {
        let mut path = vec![self.word()?];
        while self.eat("::") {
            path.push(self.word()?);
        }
        Ok(path)
    }

    /// The tokens in the group that begins here.
    fn group(&mut self, open: &str) -> Result<&'t [Token], String> {
        if !self.sees(open) {
            return self.fault(open);
        }
        let Some(end) = group_end(self.tokens, self.at) else {
            return self.fault("a group that ends");
        };
        let inside = &self.tokens[self.at + 1..end];
        self.at = end + 1;
        Ok(inside)
    }

    /// `<'a, T: Copy, const N: usize>`: the names of the parameters that are no lifetimes.
    fn generics(&mut self) -> Result<Vec<String>, String> {
        let (mut names, mut depth, mut begins) = (Vec::new(), 0, false);
        if !self.sees("<") {
            return Ok(names);
        }
        loop {
            if std::mem::take(&mut begins) {
                self.eat("const");
                names.extend(self.eat_kind(Kind::Word).map(|token| token.text.clone()));
            }
            let Some(token) = self.tokens.get(self.at) else { return self.fault(">") };
            match &*token.text {
                "<" => depth += 1,
                ">" => depth -= 1,
                ">>" => depth -= 2,
                "{" | "}" | ";" => return self.fault(">"),
                _ => (),
            }
            begins = depth == 1 && (token.is(",") || token.is("<"));
            self.at += 1;
            if depth <= 0 {
                return Ok(names);
            }
        }
    }

    /// `<'a, T, 4, true>`: the types.
    fn arguments(&mut self) -> Result<Vec<Type>, String> {
        let mut found = Vec::new();
        if !self.eat("<") {
            return Ok(found);
        }
        while !self.eat_angle() {
            let is_value = self.eat("true") || self.eat("false");
            let is_number = self.eat_kind(Kind::Number).is_some();
            if !is_value && !is_number && self.eat_kind(Kind::Lifetime).is_none() {
                found.push(self.read_type()?);
            }
            if !self.eat(",") && !self.sees(">") && !self.sees(">>") {
                return self.fault(", or >");
            }
        }
        Ok(found)
    }

    /// The end of arguments; `>>` ends those of two types.
    fn eat_angle(&mut self) -> bool {
        if self.sees(">>") {
            self.at += usize::from(self.is_half_read);
            self.is_half_read = !self.is_half_read;
            return true;
        }
        self.eat(">")
    }

    /// Up to a sign at which what is read here ends.
    fn skip_to(&mut self, ends: &[&str]) {
        while self.at < self.tokens.len() && !ends.iter().any(|end| self.sees(end)) {
            self.at += 1;
        }
    }

    /// Behind the attributes of the file or the module itself.
    fn items(&mut self) -> Result<Vec<Item>, String> {
        let mut items = Vec::new();
        while self.sees("#") && self.tokens.get(self.at + 1).is_some_and(|token| token.is("!")) {
            self.at += 2;
            self.group("[")?;
        }
        while self.at < self.tokens.len() {
            let no_mangle = self.attributes()?;
            self.visibility()?;
            if self.eat("use") {
                items.extend(self.imports()?);
            } else {
                items.push(self.item(no_mangle)?);
            }
        }
        Ok(items)
    }

    fn item(&mut self, no_mangle: bool) -> Result<Item, String> {
        if self.sees("fn") || self.sees("extern") {
            return self.function(no_mangle, false).map(Item::Function);
        }
        let line = self.line();
        match &*self.word()? {
            "struct" => self.read_struct().map(Item::Type),
            "enum" => self.read_enum().map(Item::Type),
            "type" => self.alias().map(Item::Type),
            "const" => self.constant().map(|(name, kind)| Item::Constant(name, kind)),
            "mod" => self.module(),
            "impl" => self.methods(line),
            "trait" => self.read_trait(),
            other => Err(format!("{line}: an item is expected, not {other}")),
        }
    }

    /// Whether `no_mangle` is among the attributes.
    fn attributes(&mut self) -> Result<bool, String> {
        let mut no_mangle = false;
        while self.eat("#") {
            no_mangle |= self.group("[")?.iter().any(|token| token.is("no_mangle"));
        }
        Ok(no_mangle)
    }

    fn visibility(&mut self) -> Result<(), String> {
        if self.eat("pub") && self.sees("(") {
            self.group("(")?;
        }
        Ok(())
    }

    fn function(&mut self, no_mangle: bool, in_trait: bool) -> Result<Function, String> {
        let is_extern = self.eat("extern");
        if is_extern && self.eat_kind(Kind::Text).is_none() {
            return self.fault("\"C\"");
        }
        self.expect("fn")?;
        let line = self.line();
        let name = self.word()?;
        let generics = self.generics()?;
        let inside = self.group("(")?;
        let mut signature = Reader::new(inside).parameters()?;
        if self.eat("->") {
            let line = self.line();
            signature.push((self.read_type()?, line));
        }
        if self.eat("where") {
            self.skip_to(&["{", ";"]);
        }
        let is_declared = in_trait && self.eat(";");
        let body = if is_declared { Vec::new() } else { self.group("{")?.to_vec() };
        let exported = no_mangle && is_extern;
        let (of_trait, own) = (false, Vec::new());
        let function = Function { name, line, exported, of_trait, generics: own, signature, body };
        Ok(function.inside(&generics))
    }

    fn parameters(&mut self) -> Result<Vec<(Type, usize)>, String> {
        let mut found = Vec::new();
        while self.at < self.tokens.len() {
            let line = self.line();
            found.push((self.parameter()?, line));
            if self.at < self.tokens.len() {
                self.expect(",")?;
            }
        }
        Ok(found)
    }

    fn parameter(&mut self) -> Result<Type, String> {
        let borrowed = self.eat("&");
        if borrowed {
            self.eat_kind(Kind::Lifetime);
        }
        self.eat("mut");
        if self.eat("self") {
            let own = Type::Named(vec!["Self".to_string()]);
            return Ok(if borrowed { Type::Reference(Box::new(own)) } else { own });
        }
        self.word()?;
        self.expect(":")?;
        self.read_type()
    }

    fn read_type(&mut self) -> Result<Type, String> {
        if self.eat("&") || self.eat("&&") {
            self.eat_kind(Kind::Lifetime);
            self.eat("mut");
            return Ok(Type::Reference(Box::new(self.read_type()?)));
        }
        if self.sees("[") {
            let mut inside = Reader::new(self.group("[")?);
            let of = Box::new(inside.read_type()?);
            return match inside.tokens.get(inside.at) {
                None => Ok(Type::Slice(of)),
                Some(token) if token.is(";") => Ok(Type::Array(of)),
                Some(_) => inside.fault("; or ]"),
            };
        }
        if self.sees("(") {
            let mut inside = Reader::new(self.group("(")?);
            let mut found = Vec::new();
            while inside.at < inside.tokens.len() {
                found.push(inside.read_type()?);
                if inside.at < inside.tokens.len() {
                    inside.expect(",")?;
                }
            }
            return Ok(Type::Several(found));
        }
        let own = Type::Named(self.path()?);
        let arguments = self.arguments()?;
        if arguments.is_empty() {
            return Ok(own);
        }
        Ok(Type::Several(std::iter::once(own).chain(arguments).collect()))
    }

    fn read_struct(&mut self) -> Result<Declared, String> {
        let name = self.word()?;
        let generics = self.generics()?;
        let holds = if self.sees("{") {
            Reader::new(self.group("{")?).fields()?
        } else if self.sees("(") {
            let inside = self.group("(")?;
            self.expect(";")?;
            Reader::new(inside).numbered_fields()?
        } else {
            self.expect(";")?;
            Vec::new()
        };
        let holds = holds.into_iter().map(|(field, kind)| (field, kind.without(&generics)));
        Ok(Declared { name, holds: holds.collect(), variants: Vec::new(), is_alias: false })
    }

    /// A field that only the prover reads is left out already, but for the comma behind it.
    fn fields(&mut self) -> Result<Vec<(String, Type)>, String> {
        let mut found = Vec::new();
        while self.at < self.tokens.len() {
            if self.eat(",") {
                continue;
            }
            self.attributes()?;
            self.visibility()?;
            let name = self.word()?;
            self.expect(":")?;
            found.push((name, self.read_type()?));
            if self.at < self.tokens.len() {
                self.expect(",")?;
            }
        }
        Ok(found)
    }

    fn numbered_fields(&mut self) -> Result<Vec<(String, Type)>, String> {
        let mut found: Vec<(String, Type)> = Vec::new();
        while self.at < self.tokens.len() {
            self.visibility()?;
            found.push((found.len().to_string(), self.read_type()?));
            if self.at < self.tokens.len() {
                self.expect(",")?;
            }
        }
        Ok(found)
    }

    fn read_enum(&mut self) -> Result<Declared, String> {
        let name = self.word()?;
        let generics = self.generics()?;
        let mut inside = Reader::new(self.group("{")?);
        let (mut holds, mut variants) = (Vec::new(), Vec::new());
        while inside.at < inside.tokens.len() {
            inside.attributes()?;
            variants.push(inside.word()?);
            if inside.sees("{") {
                holds.extend(Reader::new(inside.group("{")?).fields()?);
            } else if inside.sees("(") {
                holds.extend(Reader::new(inside.group("(")?).numbered_fields()?);
            } else if inside.eat("=") && inside.eat_kind(Kind::Number).is_none() {
                return inside.fault("a number");
            }
            if inside.at < inside.tokens.len() {
                inside.expect(",")?;
            }
        }
        let holds = holds.into_iter().map(|(field, kind)| (field, kind.without(&generics)));
        Ok(Declared { name, holds: holds.collect(), variants, is_alias: false })
    }

    fn alias(&mut self) -> Result<Declared, String> {
        let name = self.word()?;
        self.expect("=")?;
        let holds = vec![(String::new(), self.read_type()?)];
        self.expect(";")?;
        Ok(Declared { name, holds, variants: Vec::new(), is_alias: true })
    }

    /// The value is not kept: the language allows no call in it. In a trait it may be missing.
    fn constant(&mut self) -> Result<(String, Type), String> {
        let name = self.word()?;
        self.expect(":")?;
        let kind = self.read_type()?;
        if !self.sees(";") {
            self.expect("=")?;
        }
        while !self.eat(";") {
            match self.tokens.get(self.at) {
                None => return self.fault(";"),
                Some(token) if token.is("[") => self.group("[").map(|_| ())?,
                Some(token) if token.is("{") => self.group("{").map(|_| ())?,
                Some(_) => self.at += 1,
            }
        }
        Ok((name, kind))
    }

    /// What stands behind `use`: a path, or several from one beginning.
    fn imports(&mut self) -> Result<Vec<Item>, String> {
        let mut found = Vec::new();
        self.import(Vec::new(), &mut found)?;
        self.expect(";")?;
        Ok(found)
    }

    fn import(&mut self, from: Vec<String>, found: &mut Vec<Item>) -> Result<(), String> {
        let (mut path, line) = (from, self.line());
        path.push(self.word()?);
        while self.eat("::") {
            if self.sees("{") {
                let mut inside = Reader::new(self.group("{")?);
                while inside.at < inside.tokens.len() {
                    inside.import(path.clone(), found)?;
                    if inside.at < inside.tokens.len() {
                        inside.expect(",")?;
                    }
                }
                return Ok(());
            }
            path.push(self.word()?);
        }
        let name = match self.eat("as") {
            true => self.word()?,
            false => path.last().cloned().unwrap_or_default(),
        };
        found.push(Item::Import(name, path, line));
        Ok(())
    }

    fn module(&mut self) -> Result<Item, String> {
        let name = self.word()?;
        if self.eat(";") {
            return Ok(Item::Module(name, None));
        }
        let inside = Reader::new(self.group("{")?).items()?;
        Ok(Item::Module(name, Some(inside)))
    }

    /// Behind `impl`: of a type, or of a trait for one.
    fn methods(&mut self, line: usize) -> Result<Item, String> {
        let generics = self.generics()?;
        let (mut path, mut of) = (self.path()?, None);
        self.arguments()?;
        if self.eat("for") {
            of = Some(std::mem::replace(&mut path, self.path()?));
            self.arguments()?;
        }
        self.skip_to(&["{"]);
        let members = Reader::new(self.group("{")?).members(&generics, of.is_some())?;
        Ok(Item::Methods(Block { path, of, line, members }))
    }

    fn read_trait(&mut self) -> Result<Item, String> {
        let name = self.word()?;
        let generics = self.generics()?;
        self.skip_to(&["{"]);
        let members = Reader::new(self.group("{")?).members(&generics, true)?;
        Ok(Item::Trait(name, members))
    }

    /// What an `impl` or a trait has. Types in it are not kept, so that one that is named is not
    /// found; of what only the prover reads the last sign is left.
    fn members(&mut self, generics: &[String], of_trait: bool) -> Result<Members, String> {
        let mut members = Members::default();
        while self.at < self.tokens.len() {
            if self.eat(";") {
                continue;
            }
            let no_mangle = self.attributes()?;
            self.visibility()?;
            if self.eat("const") {
                let (name, kind) = self.constant()?;
                members.constants.push((name, kind.without(generics)));
            } else if self.eat("type") {
                self.skip_to(&[";"]);
            } else {
                let function = self.function(no_mangle, true)?.inside(generics);
                members.functions.push(Function { of_trait, ..function });
            }
        }
        Ok(members)
    }
}
