//! The library crates of a repository, and what a name means at a place in them.

use crate::source::{items, Block, Declared, Function, Item, Members, Type};
use std::collections::{BTreeMap, BTreeSet};
use std::path::Path;
use std::{fs, io};

/// Type names of the language. Their associated functions are named like those of the kit.
const PRIMITIVES: [&str; 13] =
    ["bool", "f32", "f64", "i16", "i32", "i64", "i8", "isize", "u16", "u32", "u64", "u8", "usize"];

/// Types of the kit that every source knows. What they hold is said by their arguments.
const KNOWN: [&str; 2] = ["Option", "Result"];

/// Types of the kit that hold nothing.
const EMPTY: [&str; 1] = ["std::marker::Brand"];

/// Whether a name is that of a type of the language.
pub fn is_primitive(name: &str) -> bool {
    PRIMITIVES.contains(&name)
}

/// Imports of imports are followed so far.
const MOST_IMPORTS: usize = 16;

/// What a path names; the numbers are indices in the tree.
#[derive(Clone, Debug, PartialEq, Eq)]
pub enum Named {
    /// A module, or a crate's root.
    Module(usize),
    /// A function.
    Function(usize),
    /// A type, or one of its variants.
    Type(usize),
    /// A constant.
    Constant(usize),
    /// Something of the kit or of the language, by its path.
    Kit(String),
}

/// Where a name stands: the module, and the type in whose `impl` it is.
#[derive(Clone, Copy, Debug)]
pub struct Scope {
    /// The module.
    pub module: usize,
    /// The type that `Self` is.
    pub own: Option<usize>,
}

/// A function in the tree.
#[derive(Debug)]
pub struct PlacedFunction {
    /// The function.
    pub function: Function,
    /// Where it stands.
    pub scope: Scope,
    /// Its name with crate, modules and type.
    pub name: String,
}

/// A type in the tree.
#[derive(Debug)]
pub struct PlacedType {
    /// The type.
    pub declared: Declared,
    /// The module that it stands in.
    pub module: usize,
    /// Whether it is a trait, which has the members that it declares.
    is_trait: bool,
    members: BTreeMap<String, Named>,
}

/// A constant in the tree.
#[derive(Debug)]
pub struct PlacedConstant {
    /// Its name.
    pub name: String,
    /// Its type.
    pub kind: Type,
    /// Where it stands.
    pub scope: Scope,
}

#[derive(Debug)]
enum Entry {
    Item(Named),
    Import(Vec<String>, usize),
}

#[derive(Debug)]
struct Module {
    /// With its crate's name in front.
    name: String,
    file: String,
    /// The crate's name.
    library: String,
    parent: Option<usize>,
    entries: BTreeMap<String, Entry>,
}

/// The library crates of a repository.
#[derive(Debug, Default)]
pub struct Tree {
    /// All functions, with those of types.
    pub functions: Vec<PlacedFunction>,
    /// All types.
    pub types: Vec<PlacedType>,
    /// All constants.
    pub constants: Vec<PlacedConstant>,
    modules: Vec<Module>,
    /// The root module of each crate.
    roots: BTreeMap<String, usize>,
    /// What each crate depends on.
    needs: BTreeMap<String, Vec<String>>,
    /// Members of types of the language and of the kit, by their names.
    foreign: BTreeMap<String, Vec<Named>>,
    /// Each `impl` whose type is not yet looked up, with its module.
    pending: Vec<(usize, Block)>,
}

/// The sources of a repository by their paths, and its `crates.txt`.
pub struct Sources {
    /// `crates.txt`
    pub list: String,
    /// Every `.rt` file, by its path from the repository's folder.
    pub files: BTreeMap<String, String>,
}

impl Sources {
    /// Those in a folder.
    pub fn read(root: &Path) -> io::Result<Sources> {
        let list = fs::read_to_string(root.join("crates.txt"))?;
        let mut files = BTreeMap::new();
        read_folder(root, "crates", &mut files)?;
        Ok(Sources { list, files })
    }
}

fn read_folder(root: &Path, folder: &str, files: &mut BTreeMap<String, String>) -> io::Result<()> {
    for entry in fs::read_dir(root.join(folder))? {
        let entry = entry?;
        let path = format!("{folder}/{}", entry.file_name().to_string_lossy());
        if entry.path().is_dir() {
            read_folder(root, &path, files)?;
        } else if path.ends_with(".rt") {
            files.insert(path, fs::read_to_string(entry.path())?);
        }
    }
    Ok(())
}

impl Tree {
    /// The crates that are listed, programs apart.
    pub fn new(sources: &Sources) -> Result<Tree, String> {
        let mut tree = Tree::default();
        for line in sources.list.lines() {
            let line = line.split('#').next().unwrap_or_default();
            let Some((name, needs)) = line.split_once(':') else { continue };
            // a static library says so behind its name
            let Some(name) = name.split_whitespace().next() else { continue };
            let needs = needs.split_whitespace().map(String::from).collect();
            tree.needs.insert(name.to_string(), needs);
            if sources.files.contains_key(&format!("crates/{name}/src/main.rt")) {
                continue;
            }
            let file = format!("crates/{name}/src/lib.rt");
            let id = tree.add_file(sources, name, None, name, &file)?;
            tree.roots.insert(name.to_string(), id);
        }
        for (module, block) in std::mem::take(&mut tree.pending) {
            tree.add_block(module, block)?;
        }
        tree.look_up_imports()?;
        Ok(tree)
    }

    fn add_file(
        &mut self,
        sources: &Sources,
        library: &str,
        parent: Option<usize>,
        name: &str,
        file: &str,
    ) -> Result<usize, String> {
        let source = sources.files.get(file).ok_or_else(|| format!("{file} is missing"))?;
        let items = items(source).map_err(|fault| format!("{file}:{fault}"))?;
        let module = Module {
            name: name.to_string(),
            file: file.to_string(),
            library: library.to_string(),
            parent,
            entries: BTreeMap::new(),
        };
        self.add_module(sources, module, items)
    }

    fn add_module(
        &mut self,
        sources: &Sources,
        module: Module,
        items: Vec<Item>,
    ) -> Result<usize, String> {
        let id = self.modules.len();
        self.modules.push(module);
        for item in items {
            self.add_item(sources, id, item)?;
        }
        Ok(id)
    }

    fn add_item(&mut self, sources: &Sources, module: usize, item: Item) -> Result<(), String> {
        let (name, entry) = match item {
            Item::Methods(block) => {
                self.pending.push((module, block));
                return Ok(());
            }
            Item::Import(name, path, line) => (name, Entry::Import(path, line)),
            Item::Function(function) => {
                let name = function.name.clone();
                let id = self.add_function(Scope { module, own: None }, "", function);
                (name, Entry::Item(Named::Function(id)))
            }
            Item::Trait(name, members) => {
                let declared = Declared {
                    name: name.clone(),
                    holds: Vec::new(),
                    variants: Vec::new(),
                    is_alias: false,
                };
                let own = self.add_type(module, declared, true);
                self.add_members(module, own, members)?;
                (name, Entry::Item(Named::Type(own)))
            }
            Item::Type(declared) => {
                let name = declared.name.clone();
                (name, Entry::Item(Named::Type(self.add_type(module, declared, false))))
            }
            Item::Constant(name, kind) => {
                let id = self.add_constant(Scope { module, own: None }, &name, kind);
                (name, Entry::Item(Named::Constant(id)))
            }
            Item::Module(name, inside) => {
                let id = self.add_inner(sources, module, &name, inside)?;
                (name, Entry::Item(Named::Module(id)))
            }
        };
        let Module { entries, file, .. } = &mut self.modules[module];
        match entries.insert(name.clone(), entry) {
            None => Ok(()),
            Some(_) => Err(format!("{file}: {name} stands twice")),
        }
    }

    /// `mod`, with its items or in a file of its own: beside a crate's root, else in the module's
    /// folder.
    fn add_inner(
        &mut self,
        sources: &Sources,
        parent: usize,
        name: &str,
        inside: Option<Vec<Item>>,
    ) -> Result<usize, String> {
        let outer = &self.modules[parent];
        let library = outer.library.clone();
        let full = format!("{}::{name}", outer.name);
        let Some(items) = inside else {
            let path = full.split("::").skip(1).collect::<Vec<_>>().join("/");
            let file = format!("crates/{library}/src/{path}.rt");
            return self.add_file(sources, &library, Some(parent), &full, &file);
        };
        let file = outer.file.clone();
        let entries = BTreeMap::new();
        let module = Module { name: full, file, library, parent: Some(parent), entries };
        self.add_module(sources, module, items)
    }

    /// A function of a module, of a type in the tree, or of one of the language, whose name is given.
    fn add_function(&mut self, scope: Scope, foreign: &str, function: Function) -> usize {
        let own = scope.own.map_or(foreign, |own| &*self.types[own].declared.name);
        let own = if own.is_empty() { String::new() } else { format!("::{own}") };
        let module = &self.modules[scope.module].name;
        let name = format!("{module}{own}::{}", function.name);
        self.functions.push(PlacedFunction { function, scope, name });
        self.functions.len() - 1
    }

    fn add_constant(&mut self, scope: Scope, name: &str, kind: Type) -> usize {
        self.constants.push(PlacedConstant { name: name.to_string(), kind, scope });
        self.constants.len() - 1
    }

    fn add_type(&mut self, module: usize, declared: Declared, is_trait: bool) -> usize {
        self.types.push(PlacedType { declared, module, is_trait, members: BTreeMap::new() });
        self.types.len() - 1
    }

    /// An `impl`; of no trait of the kit, as `Add` or `Drop`, whose methods run where no call names
    /// them.
    fn add_block(&mut self, module: usize, block: Block) -> Result<(), String> {
        let Block { path, of, line, members } = block;
        let scope = Scope { module, own: None };
        let fault = |what: &str, path: &[String]| {
            let file = &self.modules[module].file;
            Err(format!("{file}:{line}: no {what} {} is found", path.join("::")))
        };
        if let Some(of) = of {
            match self.find(scope, &of) {
                Some(Named::Type(id)) if self.types[id].is_trait => (),
                _ => return fault("trait", &of),
            }
        }
        match self.find(scope, &path) {
            Some(Named::Type(own)) => self.add_members(module, own, members),
            Some(Named::Kit(name)) => {
                for function in members.functions {
                    let method = function.name.clone();
                    let id = self.add_function(scope, &name, function.of(&path));
                    self.foreign.entry(method).or_default().push(Named::Function(id));
                }
                for (constant, kind) in members.constants {
                    let id = self.add_constant(scope, &constant, kind.of(&path));
                    self.foreign.entry(constant).or_default().push(Named::Constant(id));
                }
                Ok(())
            }
            _ => fault("type", &path),
        }
    }

    fn add_members(&mut self, module: usize, own: usize, members: Members) -> Result<(), String> {
        let scope = Scope { module, own: Some(own) };
        let mut placed = Vec::new();
        for function in members.functions {
            let name = function.name.clone();
            placed.push((name, Named::Function(self.add_function(scope, "", function))));
        }
        for (name, kind) in members.constants {
            let id = self.add_constant(scope, &name, kind);
            placed.push((name, Named::Constant(id)));
        }
        for (name, member) in placed {
            let found = &mut self.types[own];
            if found.members.insert(name.clone(), member).is_some() {
                let own = &found.declared.name;
                let file = &self.modules[module].file;
                return Err(format!("{file}: {own}::{name} stands twice"));
            }
        }
        Ok(())
    }

    /// Every import must be found, so that no name of one is taken for a local.
    fn look_up_imports(&self) -> Result<(), String> {
        for (id, module) in self.modules.iter().enumerate() {
            for entry in module.entries.values() {
                let Entry::Import(path, line) = entry else { continue };
                if self.imported(id, path, 0).is_none() {
                    let path = path.join("::");
                    return Err(format!("{}:{line}: {path} is not found", module.file));
                }
            }
        }
        Ok(())
    }

    /// What a path means at a place.
    pub fn find(&self, scope: Scope, path: &[String]) -> Option<Named> {
        self.found(scope, path, 0)
    }

    fn found(&self, scope: Scope, path: &[String], depth: usize) -> Option<Named> {
        let (first, behind) = path.split_first()?;
        let known = match &**first {
            "Self" => scope.own.map(Named::Type),
            name => self.entry(scope.module, name, depth),
        };
        let start = known.or_else(|| self.outer(scope.module, first))?;
        behind.iter().try_fold(start, |found, name| self.inside(found, name, depth))
    }

    /// A name that a module has, by itself or by an import.
    fn entry(&self, module: usize, name: &str, depth: usize) -> Option<Named> {
        match self.modules[module].entries.get(name)? {
            Entry::Item(named) => Some(named.clone()),
            Entry::Import(path, _) => self.imported(module, path, depth + 1),
        }
    }

    /// What an import's path means. Its first name is not that of an import.
    fn imported(&self, module: usize, path: &[String], depth: usize) -> Option<Named> {
        if depth > MOST_IMPORTS {
            return None;
        }
        let (first, behind) = path.split_first()?;
        let start = match self.modules[module].entries.get(first) {
            Some(Entry::Item(named)) => named.clone(),
            _ => self.outer(module, first)?,
        };
        behind.iter().try_fold(start, |found, name| self.inside(found, name, depth))
    }

    /// A first name that the module itself does not have.
    fn outer(&self, module: usize, name: &str) -> Option<Named> {
        let library = &self.modules[module].library;
        match name {
            "crate" => {
                let root = |id: &usize| self.modules[*id].parent;
                std::iter::successors(Some(module), root).last().map(Named::Module)
            }
            "self" => Some(Named::Module(module)),
            "super" => self.modules[module].parent.map(Named::Module),
            _ if name == "std" || is_primitive(name) => Some(Named::Kit(name.to_string())),
            _ if !self.needs[library].iter().any(|needed| needed == name) => None,
            _ => match self.roots.get(name) {
                Some(root) => Some(Named::Module(*root)),
                None => Some(Named::Kit(name.to_string())),
            },
        }
    }

    fn inside(&self, found: Named, name: &str, depth: usize) -> Option<Named> {
        match found {
            Named::Module(module) if name == "super" => {
                self.modules[module].parent.map(Named::Module)
            }
            Named::Module(module) => self.entry(module, name, depth),
            Named::Type(id) => self.inside_type(id, name),
            Named::Kit(path) => Some(Named::Kit(format!("{path}::{name}"))),
            Named::Function(_) | Named::Constant(_) => None,
        }
    }

    /// A variant, an associated function or constant.
    fn inside_type(&self, id: usize, name: &str) -> Option<Named> {
        let PlacedType { declared, module, members, .. } = &self.types[id];
        if declared.variants.iter().any(|variant| variant == name) {
            return Some(Named::Type(id));
        }
        if let Some(member) = members.get(name) {
            return Some(member.clone());
        }
        match declared.holds.first() {
            Some((_, Type::Named(path))) if declared.is_alias => {
                let of = self.find(Scope { module: *module, own: None }, path)?;
                self.inside(of, name, 0)
            }
            _ => None,
        }
    }

    /// The members of this name of all types that a module's crate can see, and those of traits in
    /// every crate: a type parameter may stand for a type of a crate above.
    pub fn members(&self, module: usize, name: &str) -> Vec<Named> {
        let seen = self.seen_from(&self.modules[module].library);
        let is_seen = |member: &&Named| match member {
            Named::Function(id) => {
                let PlacedFunction { function, scope, .. } = &self.functions[*id];
                function.of_trait || seen.contains(&*self.modules[scope.module].library)
            }
            _ => true,
        };
        let own = self.types.iter().filter_map(|found| found.members.get(name));
        let foreign = self.foreign.get(name).into_iter().flatten();
        own.chain(foreign).filter(is_seen).cloned().collect()
    }

    /// Whether that is what a trait declares: another stands in its place for each type.
    pub fn is_of_trait(&self, member: &Named) -> bool {
        let scope = match member {
            Named::Function(id) => self.functions[*id].scope,
            Named::Constant(id) => self.constants[*id].scope,
            Named::Module(_) | Named::Type(_) | Named::Kit(_) => return false,
        };
        scope.own.is_some_and(|own| self.types[own].is_trait)
    }

    /// A crate and all that it depends on.
    fn seen_from<'a>(&'a self, library: &'a str) -> BTreeSet<&'a str> {
        let (mut seen, mut open) = (BTreeSet::new(), vec![library]);
        while let Some(library) = open.pop() {
            if seen.insert(library) {
                open.extend(self.needs.get(library).into_iter().flatten().map(|name| &**name));
            }
        }
        seen
    }

    /// Whether a value of a type has an array in it or behind a reference in it; the path of a type
    /// that is not found.
    pub fn has_array(&self, scope: Scope, kind: &Type) -> Result<bool, String> {
        self.holds_array(scope, kind, &mut BTreeSet::new())
    }

    fn holds_array(
        &self,
        scope: Scope,
        kind: &Type,
        seen: &mut BTreeSet<usize>,
    ) -> Result<bool, String> {
        let path = match kind {
            Type::Array(_) => return Ok(true),
            Type::Slice(of) | Type::Reference(of) => return self.holds_array(scope, of, seen),
            Type::Several(all) => {
                for of in all {
                    if self.holds_array(scope, of, seen)? {
                        return Ok(true);
                    }
                }
                return Ok(false);
            }
            Type::Named(path) => path,
        };
        match self.find(scope, path) {
            None if path.len() == 1 && KNOWN.contains(&&*path[0]) => Ok(false),
            Some(Named::Kit(name)) if is_primitive(&name) || EMPTY.contains(&&*name) => Ok(false),
            Some(Named::Type(id)) => self.type_holds_array(id, seen),
            _ => Err(path.join("::")),
        }
    }

    /// The same of a declared type.
    pub fn type_has_array(&self, id: usize) -> Result<bool, String> {
        self.type_holds_array(id, &mut BTreeSet::new())
    }

    fn type_holds_array(&self, id: usize, seen: &mut BTreeSet<usize>) -> Result<bool, String> {
        if !seen.insert(id) {
            return Ok(false);
        }
        let PlacedType { declared, module, .. } = &self.types[id];
        let scope = Scope { module: *module, own: Some(id) };
        for (_, kind) in &declared.holds {
            if self.holds_array(scope, kind, seen)? {
                return Ok(true);
            }
        }
        Ok(false)
    }

    /// The file that a module stands in.
    pub fn file(&self, module: usize) -> &str {
        &self.modules[module].file
    }

    /// The exported functions of a crate.
    pub fn exported(&self, library: &str) -> Vec<usize> {
        let is_exported = |id: &usize| {
            let PlacedFunction { function, scope, .. } = &self.functions[*id];
            function.exported && self.modules[scope.module].library == library
        };
        (0..self.functions.len()).filter(is_exported).collect()
    }

    /// The function of this name with its crate and modules.
    pub fn function(&self, name: &str) -> Option<usize> {
        self.functions.iter().position(|found| found.name == name)
    }
}
