//! The items of all crates by their full paths, and what a name stands for where it is written.

use crate::sizes::number_size;
use crate::tokens::{closing, find, is_name, is_number, join, parts, split};
use std::collections::{BTreeMap, BTreeSet};
use std::path::Path;

/// The text of each source by its path below the folder of the crates.
pub type Sources = BTreeMap<String, String>;

pub type Tokens = Vec<String>;

/// Reads every source below the src/ of a folder's crates. (What a check leaves in out/ has copies of older ones.)
pub fn sources(crates: &Path) -> std::io::Result<Sources> {
    let mut sources = Sources::new();
    let mut folders = Vec::new();
    for entry in std::fs::read_dir(crates)? {
        folders.push(entry?.path().join("src"));
    }
    folders.retain(|folder| folder.is_dir());
    while let Some(folder) = folders.pop() {
        for entry in std::fs::read_dir(folder)? {
            let path = entry?.path();
            if path.is_dir() {
                folders.push(path);
            } else if path.extension().is_some_and(|extension| extension == "rt") {
                let below = path.strip_prefix(crates).unwrap_or(&path);
                sources.insert(below.display().to_string(), std::fs::read_to_string(&path)?);
            }
        }
    }
    Ok(sources)
}

/// What an item is, by its types and its code.
pub enum Kind {
    /// The types of the parameters and of the result, and the body with its braces.
    Function(Vec<Tokens>, Tokens),
    Constant(Tokens, Tokens),
    Alias(Tokens),
    /// The type of each field.
    Struct(Vec<Tokens>),
    /// The name of each variant, and the types of its fields.
    Enum(Vec<(String, Vec<Tokens>)>),
}

pub struct Item {
    pub kind: Kind,
    pub scope: Scope,
}

/// Where a name is looked up: in a module, and in the type that an `impl` is of.
#[derive(Clone)]
pub struct Scope {
    module: String,
    owner: Option<String>,
}

#[derive(Default)]
pub struct Program {
    pub items: BTreeMap<String, Item>,
    modules: BTreeSet<String>,
    /// What each `use` names, by the full path of the name that it brings.
    uses: BTreeMap<String, Tokens>,
    /// The paths that stand for more than one item, module or `use`.
    twice: BTreeSet<String>,
    /// The functions of every trait's `impl`, by their names.
    given: BTreeMap<String, BTreeSet<String>>,
    /// The crates that are named and may not be read yet.
    waiting: BTreeSet<String>,
}

impl Item {
    /// The types in the item's text, but for those inside of code.
    pub fn types(&self) -> Vec<&Tokens> {
        match &self.kind {
            Kind::Function(types, _) | Kind::Struct(types) => types.iter().collect(),
            Kind::Constant(ty, _) | Kind::Alias(ty) => vec![ty],
            Kind::Enum(variants) => variants.iter().flat_map(|(_, fields)| fields).collect(),
        }
    }

    /// The types that a function takes and returns.
    pub fn signature(&self) -> &[Tokens] {
        match &self.kind {
            Kind::Function(types, _) => types,
            _ => &[],
        }
    }

    fn has_variant(&self, name: &str) -> bool {
        matches!(&self.kind, Kind::Enum(variants) if variants.iter().any(|(variant, _)| variant == name))
    }
}

// ---- Reading.

/// A module, and the folder in which the files of its own modules are.
struct Module<'a> {
    sources: &'a Sources,
    scope: Scope,
    folder: String,
}

impl Module<'_> {
    fn inner(&self, name: &str) -> Self {
        let module = format!("{}::{name}", self.scope.module);
        Module {
            sources: self.sources,
            scope: Scope {
                module,
                owner: None,
            },
            folder: format!("{}/{name}", self.folder),
        }
    }

    fn of_type(&self, name: &str) -> Self {
        let module = self.scope.module.clone();
        let owner = Some(format!("{module}::{name}"));
        Module {
            sources: self.sources,
            scope: Scope { module, owner },
            folder: self.folder.clone(),
        }
    }
}

impl Program {
    /// Reads the libraries of these functions, and every library that one of those names, each from its lib.rt on. What they do not name,
    /// they cannot reach.
    pub fn read(sources: &Sources, functions: &[&str]) -> Result<Program, String> {
        let mut program = Program::default();
        let crates = functions.iter().filter_map(|path| path.split("::").next());
        program.waiting.extend(crates.map(str::to_string));
        while let Some(name) = program.waiting.pop_first() {
            let file = library(&name);
            if program.modules.contains(&name) || !sources.contains_key(&file) {
                continue;
            }
            let scope = Scope {
                module: name.clone(),
                owner: None,
            };
            program.read_file(
                &Module {
                    sources,
                    scope,
                    folder: format!("{name}/src"),
                },
                &file,
            )?;
        }
        // a method is looked up at its type, so this must be the type's own path
        let mut owners = program
            .items
            .values()
            .filter_map(|item| item.scope.owner.as_ref());
        match owners.find(|owner| !program.items.contains_key(*owner)) {
            Some(owner) => Err(format!(
                "an impl of {owner}, which is no type of that module"
            )),
            None => Ok(program),
        }
    }

    fn read_file(&mut self, module: &Module, file: &str) -> Result<(), String> {
        let source = module
            .sources
            .get(file)
            .ok_or(format!("there is no {file}"))?;
        self.declare(&module.scope.module)?;
        self.modules.insert(module.scope.module.clone());
        let tokens = split(source).map_err(|fault| format!("{file}: {fault}"))?;
        let crates = tokens
            .iter()
            .filter(|token| module.sources.contains_key(&library(token)));
        self.waiting.extend(crates.cloned());
        self.read_items(module, &tokens)
            .map_err(|fault| format!("{file}: {fault}"))
    }

    /// Reads items one behind the other. Each ends with a semicolon, or with braces that close unless it is a `use` or has a value.
    fn read_items(&mut self, module: &Module, tokens: &[String]) -> Result<(), String> {
        let mut start = 0;
        while start < tokens.len() {
            let ends: &[&str] = match keyword(&tokens[start..]) {
                "use" | "const" | "type" => &[";"],
                _ => &[";", "{"],
            };
            let end =
                find(tokens, start, ends).ok_or(format!("no end: {}", join(&tokens[start..])))?;
            let is_braced = tokens[end] == "{";
            let behind = if is_braced {
                closing(tokens, end)? + 1
            } else {
                end
            };
            self.read_item(module, &tokens[start..behind])?;
            start = if is_braced { behind } else { end + 1 };
        }
        Ok(())
    }

    fn read_item(&mut self, module: &Module, item: &[String]) -> Result<(), String> {
        let words: Vec<&str> = item.iter().map(String::as_str).collect();
        let scope = &module.scope;
        match words[..] {
            ["pub", ..] => self.read_item(module, without_pub(item)),
            ["extern", "\"C\"", "fn", ..] => self.read_item(module, &item[2..]),
            ["const", "fn", ..] => self.read_item(module, &item[1..]),
            ["use", ..] => self.read_use(scope, &[], &item[1..]),
            ["mod", name] => {
                self.read_file(&module.inner(name), &format!("{}/{name}.rt", module.folder))
            }
            ["mod", name, "{", .., "}"] => {
                let inner = module.inner(name);
                self.declare(&inner.scope.module)?;
                self.modules.insert(inner.scope.module.clone());
                self.read_items(&inner, &item[3..item.len() - 1])
            }
            ["impl", .., "}"] => {
                let open = find(item, 0, &["{"]).ok_or("an impl of nothing")?;
                let inner = &item[open + 1..item.len() - 1];
                if item[..open].iter().any(|token| token == "for") {
                    return self.read_given(scope, &join(&item[..open]), inner);
                }
                let name = item[..open]
                    .iter()
                    .find(|token| is_name(token))
                    .ok_or("an impl of no type")?;
                self.read_items(&module.of_type(name), inner)
            }
            ["fn", name, ..] => self.add(scope, name, function(item)?),
            ["const", name, ":", ..] => {
                let equals = find(item, 0, &["="]).ok_or("a constant of no value")?;
                self.add(
                    scope,
                    name,
                    Kind::Constant(item[3..equals].to_vec(), item[equals + 1..].to_vec()),
                )
            }
            ["type", name, "=", ..] => self.add(scope, name, Kind::Alias(item[3..].to_vec())),
            ["struct", name, ..] => self.add(scope, name, Kind::Struct(fields(&item[1..])?)),
            ["enum", name, "{", .., "}"] => {
                let mut variants = Vec::new();
                for variant in parts(&item[3..item.len() - 1], ",") {
                    variants.push((variant[0].clone(), variant_fields(variant)?));
                }
                self.add(scope, name, Kind::Enum(variants))
            }
            _ => Err(format!("not understood: {}", join(item))),
        }
    }

    /// Reads the functions of a trait's `impl`. They have no path of their own: what calls one of their names calls each of that name.
    fn read_given(&mut self, scope: &Scope, head: &str, items: &[String]) -> Result<(), String> {
        let mut start = 0;
        while start < items.len() {
            let body = find(items, start, &["{"]).ok_or(format!("no end: {head}"))?;
            let end = closing(items, body)? + 1;
            let [word, name, ..] = &items[start..end] else {
                return Err(format!("not understood: {head}"));
            };
            if word != "fn" {
                return Err(format!("not understood: {}", join(&items[start..end])));
            }
            let path = format!("{}::<{head}>::{name}", scope.module);
            let kind = function(&items[start..end])?;
            let scope = scope.clone();
            if self
                .items
                .insert(path.clone(), Item { kind, scope })
                .is_some()
            {
                return Err(format!("{path} is there twice"));
            }
            self.given.entry(name.clone()).or_default().insert(path);
            start = end;
        }
        Ok(())
    }

    /// Takes `a::b`, `a::b as c` and `a::{b, self}`.
    fn read_use(
        &mut self,
        scope: &Scope,
        prefix: &[String],
        tokens: &[String],
    ) -> Result<(), String> {
        let end = find(tokens, 0, &["{", "as"]).unwrap_or(tokens.len());
        let names = tokens[..end].iter().filter(|token| *token != "::");
        let mut path: Tokens = prefix.iter().chain(names).cloned().collect();
        if tokens.get(end).is_some_and(|token| token == "{") {
            let inner = &tokens[end + 1..closing(tokens, end)?];
            return parts(inner, ",")
                .into_iter()
                .try_for_each(|part| self.read_use(scope, &path, part));
        }
        if path.len() > 1 && path.last().is_some_and(|name| name == "self") {
            path.pop();
        }
        let name = if end < tokens.len() {
            tokens.last()
        } else {
            path.last()
        };
        match name {
            Some(name) if path.iter().chain([name]).all(|name| is_name(name)) => {
                let brought = format!("{}::{name}", scope.module);
                self.declare(&brought)?;
                self.uses.insert(brought, path);
                Ok(())
            }
            _ => Err(format!("not understood: use {}", join(tokens))),
        }
    }

    fn add(&mut self, scope: &Scope, name: &str, kind: Kind) -> Result<(), String> {
        let path = format!("{}::{name}", scope.owner.as_ref().unwrap_or(&scope.module));
        self.declare(&path)?;
        self.items.insert(
            path,
            Item {
                kind,
                scope: scope.clone(),
            },
        );
        Ok(())
    }

    /// Makes way for what a path is to stand for, and notes where it stands for something already.
    fn declare(&mut self, path: &str) -> Result<(), String> {
        if path.rsplit("::").next().and_then(number_size).is_some() {
            return Err(format!("{path} has the name of a number's type"));
        }
        if self.has(path) {
            self.twice.insert(path.to_string());
        }
        Ok(())
    }

    fn has(&self, path: &str) -> bool {
        self.items.contains_key(path) || self.modules.contains(path) || self.uses.contains_key(path)
    }
}

/// The file from which a library is read.
fn library(name: &str) -> String {
    format!("{name}/src/lib.rt")
}

/// The word that says what an item is.
fn keyword(item: &[String]) -> &str {
    match without_pub(item) {
        [first, second, ..] if first == "const" && second == "fn" => "fn",
        [first, ..] => first,
        [] => "",
    }
}

/// What stands behind `pub` or `pub(..)`.
fn without_pub(tokens: &[String]) -> &[String] {
    match tokens {
        [word, open, ..] if word == "pub" && open == "(" => {
            &tokens[closing(tokens, 1).map_or(1, |end| end + 1)..]
        }
        [word, ..] if word == "pub" => &tokens[1..],
        _ => tokens,
    }
}

/// A function from its `fn` on.
fn function(item: &[String]) -> Result<Kind, String> {
    let open = find(item, 0, &["("]).ok_or("a function without parameters")?;
    let close = closing(item, open)?;
    let body = find(item, close + 1, &["{"]).ok_or("a function without a body")?;
    let mut types = Vec::new();
    for parameter in typed_parts(&item[open + 1..close]) {
        match find(parameter, 0, &[":"]) {
            Some(colon) => types.push(parameter[colon + 1..].to_vec()),
            None if parameter.last().is_some_and(|name| name == "self") => {
                types.push(vec!["Self".to_string()])
            }
            None => return Err(format!("not understood: {}", join(parameter))),
        }
    }
    if item[close + 1] == "->" {
        types.push(item[close + 2..body].to_vec());
    }
    Ok(Kind::Function(types, item[body..].to_vec()))
}

/// The types of a variant's fields. One that says its number counts as if it had that, of the widest type.
fn variant_fields(variant: &[String]) -> Result<Vec<Tokens>, String> {
    match variant {
        [_, equals, number] if equals == "=" && is_number(number) => {
            Ok(vec![vec!["u64".to_string()]])
        }
        _ => fields(variant),
    }
}

/// The types of a struct's or a variant's fields, from its name on. Of a field in the language of proofs nothing is left but a `pub`.
fn fields(tokens: &[String]) -> Result<Vec<Tokens>, String> {
    let Some(open) = find(tokens, 0, &["{", "(", "="]) else {
        return Ok(Vec::new());
    };
    // nothing stands behind the fields, and no number in their place
    if tokens[open] == "=" || closing(tokens, open)? + 1 != tokens.len() {
        return Err(format!("not understood: {}", join(tokens)));
    }
    let type_in = |field: &[String]| match find(field, 0, &[":"]) {
        Some(colon) => field[colon + 1..].to_vec(),
        None => without_pub(field).to_vec(),
    };
    let fields = typed_parts(&tokens[open + 1..tokens.len() - 1]);
    let fields = fields
        .into_iter()
        .filter(|field| !without_pub(field).is_empty());
    Ok(fields.map(type_in).collect())
}

/// The parts of a list of fields or parameters that commas separate; one between `<` and `>` is no separator.
fn typed_parts(tokens: &[String]) -> Vec<&[String]> {
    let mut typed = Vec::new();
    let mut start = 0;
    let mut end = 0;
    for part in parts(tokens, ",") {
        end += part.len();
        let count = |sign: &str| {
            tokens[start..end]
                .iter()
                .filter(|token| *token == sign)
                .count()
        };
        if count("<") == count(">") {
            typed.push(&tokens[start..end]);
            start = end + 1;
        }
        end += 1;
    }
    if start < tokens.len() {
        typed.push(&tokens[start..]);
    }
    typed
}

// ---- Names.

impl Program {
    /// The full path of the item that a path stands for where it is written; of an enum's variant, that of the enum. None for a single
    /// name that no item has, which may be that of a local.
    pub fn resolve(&self, scope: &Scope, path: &[String]) -> Result<Option<String>, String> {
        let found = self
            .lookup(scope, path)?
            .filter(|found| self.items.contains_key(found));
        match found {
            None if path.len() > 1 => Err(format!("no source has {}", path.join("::"))),
            found => Ok(found),
        }
    }

    /// The same, of an item or a module.
    fn lookup(&self, scope: &Scope, path: &[String]) -> Result<Option<String>, String> {
        let module = &scope.module;
        let here = format!("{module}::{}", path[0]);
        let mut found = match path[0].as_str() {
            "Self" => scope.owner.clone().ok_or("Self outside of an impl")?,
            "self" => module.clone(),
            "crate" => module.split("::").next().unwrap_or(module).to_string(),
            "super" => module
                .rsplit_once("::")
                .ok_or("super outside of a module")?
                .0
                .to_string(),
            first if self.has(&here) => {
                if path.len() > 1 && self.modules.contains(first) {
                    return Err(format!("{first} is in {module}, and a crate"));
                }
                self.target(&here)?
            }
            first => first.to_string(),
        };
        for name in &path[1..] {
            let inner = format!("{found}::{name}");
            let is_variant = self
                .items
                .get(&found)
                .is_some_and(|item| item.has_variant(name));
            found = match (is_variant, self.has(&inner)) {
                (true, false) => found,
                (false, true) => self.target(&inner)?,
                (true, true) => return Err(format!("{inner} is there twice")),
                (false, false) => return Ok(None),
            };
        }
        Ok(Some(found))
    }

    /// What a declared path stands for: itself, or what its `use` names, in a crate or in its own module.
    fn target(&self, path: &str) -> Result<String, String> {
        if self.twice.contains(path) {
            return Err(format!("{path} is there twice"));
        }
        let Some(named) = self.uses.get(path) else {
            return Ok(path.to_string());
        };
        let (module, name) = path.rsplit_once("::").unwrap_or(("", path));
        let is_beside = named[0] != name && self.has(&format!("{module}::{}", named[0]));
        let module = match named[0].as_str() {
            "crate" | "self" | "super" => module,
            _ if is_beside => module,
            first if self.modules.contains(first) => "",
            _ => return Err(format!("no source has {}", named.join("::"))),
        };
        let scope = Scope {
            module: module.to_string(),
            owner: None,
        };
        let found = self.lookup(&scope, named)?.filter(|found| self.has(found));
        found.ok_or(format!("no source has {}", named.join("::")))
    }

    /// Every function of this name in a trait's `impl`, whatever its trait and type.
    pub fn given(&self, name: &str) -> impl Iterator<Item = String> + '_ {
        self.given.get(name).into_iter().flatten().cloned()
    }

    /// Every method of this name, whatever its type.
    pub fn methods(&self, name: &str) -> Vec<String> {
        let owners = self
            .items
            .values()
            .filter_map(|item| item.scope.owner.as_ref());
        let methods: BTreeSet<String> = owners.map(|owner| format!("{owner}::{name}")).collect();
        let methods = methods
            .into_iter()
            .filter(|path| self.items.contains_key(path));
        methods.chain(self.given(name)).collect()
    }
}
