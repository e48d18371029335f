//! From the reads to every item that they reach, and the arrays in these.
//!
//! A function reaches every function, constant and type that its text names, and these what theirs name. The type of a local stands in the
//! text of its function, or comes from a function, constant or type that is reached, or from a literal. So every array that a reached
//! function holds, takes or returns by value stands in a reached text, as a type or as a literal. One behind a reference is counted with
//! them, since a `*` or an index may hold what is there. A function of a trait's `impl` is reached by every call of its name, and `from` by a
//! `?` too. Of the standard library what is listed below may be named, and its own sources are not followed. What cannot be followed or sized
//! is a fault.

use crate::code::{let_types, squares, Role, Square};
use crate::program::{Item, Kind, Program};
use crate::sizes::{bytes_in, number_size, Place};
use crate::tokens::{closing, join, parts, paths};
use std::collections::{BTreeMap, BTreeSet, VecDeque};

/// An array in the text of an item.
pub struct Array {
    pub item: String,
    pub text: String,
    pub bytes: usize,
}

/// All that the reads reach.
pub struct Reached<'a> {
    program: &'a Program,
    /// Each item, and the one that it was first reached by.
    by: BTreeMap<String, Option<String>>,
    /// Each item, and the items that name it, or call a function that takes or returns it.
    holders: BTreeMap<String, BTreeSet<String>>,
    pub arrays: Vec<Array>,
}

impl<'a> Reached<'a> {
    pub fn from(program: &'a Program, reads: &[&str]) -> Result<Reached<'a>, String> {
        let by = reads.iter().map(|read| (read.to_string(), None)).collect();
        let mut reached = Reached {
            program,
            by,
            holders: BTreeMap::new(),
            arrays: Vec::new(),
        };
        let mut waiting: VecDeque<String> = reads.iter().map(|read| read.to_string()).collect();
        while let Some(path) = waiting.pop_front() {
            let named = reached
                .visit(&path)
                .map_err(|fault| format!("{path}: {fault}"))?;
            for next in named {
                if !reached.by.contains_key(&next) {
                    reached.by.insert(next.clone(), Some(path.clone()));
                    waiting.push_back(next);
                }
            }
        }
        Ok(reached)
    }

    /// Notes the arrays of an item, and answers what it names.
    fn visit(&mut self, path: &str) -> Result<BTreeSet<String>, String> {
        let items = &self.program.items;
        let item = items.get(path).ok_or("there is none")?;
        let named = named_in(&self.place(item), item)?;
        let mut held = named.clone();
        for next in &named {
            // what a function takes and returns, its caller holds
            for ty in items[next].signature() {
                held.extend(named_in_type(&self.place(&items[next]), ty)?);
            }
        }
        for next in held {
            self.holders
                .entry(next)
                .or_default()
                .insert(path.to_string());
        }
        for (text, bytes) in arrays_in(&self.place(item), item)? {
            self.arrays.push(Array {
                item: path.to_string(),
                text,
                bytes,
            });
        }
        Ok(named)
    }

    /// The place at which an item's text is written.
    fn place(&self, item: &'a Item) -> Place<'a> {
        Place {
            program: self.program,
            scope: &item.scope,
        }
    }

    fn is_function(&self, path: &str) -> bool {
        matches!(self.program.items[path].kind, Kind::Function(..))
    }

    pub fn functions(&self) -> Vec<&str> {
        self.by
            .keys()
            .map(String::as_str)
            .filter(|path| self.is_function(path))
            .collect()
    }

    /// How many types and constants there are.
    pub fn others(&self) -> usize {
        self.by.len() - self.functions().len()
    }

    /// The functions that hold an item, itself or inside of another type or constant; of a function, itself.
    pub fn holders(&self, item: &str) -> BTreeSet<String> {
        let mut holders = BTreeSet::new();
        let mut seen = BTreeSet::new();
        let mut waiting = vec![item.to_string()];
        while let Some(path) = waiting.pop() {
            if self.is_function(&path) {
                holders.insert(path);
            } else if seen.insert(path.clone()) {
                waiting.extend(self.holders.get(&path).into_iter().flatten().cloned());
            }
        }
        holders
    }

    /// The way from a read to an item.
    pub fn way(&self, item: &str) -> String {
        match &self.by[item] {
            Some(before) => format!("{} > {item}", self.way(before)),
            None => item.to_string(),
        }
    }
}

/// The code of an item: the body of a function, or the value of a constant.
fn code_of(item: &Item) -> &[String] {
    match &item.kind {
        Kind::Function(_, body) => body,
        Kind::Constant(_, value) => value,
        _ => &[],
    }
}

// ---- Names.

/// The types and variants of the standard library that are known here; what they hold stands in the text beside them.
const STANDARD: [&str; 6] = ["Option", "None", "Some", "Result", "Ok", "Err"];

/// The methods of the standard library that are known here, and what makes a number. They call nothing of the sources but the closures in
/// their arguments, and themselves hold no array above sixteen bytes.
const METHODS: [&str; 10] = [
    "chunks_exact",
    "enumerate",
    "fill",
    "from_le_bytes",
    "iter",
    "iter_mut",
    "len",
    "remainder",
    "rev",
    "unwrap",
];

/// The items that an item's text names.
fn named_in(place: &Place, item: &Item) -> Result<BTreeSet<String>, String> {
    let mut named = BTreeSet::new();
    for ty in item.types() {
        named.extend(named_in_type(place, ty)?);
    }
    let code = code_of(item);
    for range in let_types(code) {
        named.extend(named_in_type(place, &code[range])?);
    }
    named.extend(named_in_code(place, code)?);
    Ok(named)
}

fn named_in_type(place: &Place, tokens: &[String]) -> Result<Vec<String>, String> {
    let mut found = Vec::new();
    for path in paths(tokens)? {
        let name = path.names[0].as_str();
        match place.program.resolve(place.scope, &path.names)? {
            Some(item) => found.push(item),
            None if number_size(name).is_some() || STANDARD.contains(&name) => {}
            None => return Err(format!("no source has {}", path.names[0])),
        }
    }
    Ok(found)
}

fn named_in_code(place: &Place, tokens: &[String]) -> Result<Vec<String>, String> {
    let mut found = Vec::new();
    for path in paths(tokens)? {
        let name = &path.names[0];
        let behind = tokens.get(path.end).map_or("", String::as_str);
        let is_called = behind == "(" || behind == "!";
        if path.start > 0 && tokens[path.start - 1] == "." {
            if is_called {
                // of whatever type
                let methods = place.program.methods(name);
                if methods.is_empty() && !METHODS.contains(&name.as_str()) {
                    return Err(format!("no source has a method {name}"));
                }
                found.extend(methods);
            }
            continue;
        }
        // `T::from(..)`, of whatever types
        let last = path.names.last().filter(|_| path.names.len() > 1);
        let given: Vec<String> = last
            .into_iter()
            .flat_map(|name| place.program.given(name))
            .collect();
        if !given.is_empty() {
            found.extend(given);
            found.extend(named_in_type(place, &path.names[..1])?);
            continue;
        }
        if let [number, made] = &path.names[..] {
            if number_size(number).is_some() && METHODS.contains(&made.as_str()) {
                continue;
            }
        }
        match place.program.resolve(place.scope, &path.names)? {
            Some(item) => found.push(item),
            // a local, or a type of the language behind `as`
            None if !is_called && !name.starts_with(char::is_uppercase) => {}
            None if STANDARD.contains(&name.as_str()) => {}
            None => return Err(format!("no source has {name}")),
        }
    }
    // an error may be turned into another
    if tokens.iter().any(|token| token == "?") {
        found.extend(place.program.given("from"));
    }
    Ok(found)
}

// ---- Arrays.

/// The arrays of an item's text, each with its size.
fn arrays_in(place: &Place, item: &Item) -> Result<Vec<(String, usize)>, String> {
    let mut found = Vec::new();
    for ty in item.types() {
        for at in (0..ty.len()).filter(|at| ty[*at] == "[") {
            found.extend(array_type(place, &ty[at..=closing(ty, at)?])?);
        }
    }
    let code = code_of(item);
    for Square { role, start, end } in squares(code)? {
        let whole = &code[start..=end];
        match role {
            Role::Type => found.extend(array_type(place, whole)?),
            Role::Literal => {
                let size = place.literal(&code[start + 1..end]);
                found.push(sized(whole, size)?);
            }
            Role::Index | Role::Typed => {}
        }
    }
    for literal in code.iter().filter(|token| token.starts_with("b\"")) {
        found.push((literal.clone(), bytes_in(literal)));
    }
    Ok(found)
}

/// The array that a pair of brackets in a type stands for, unless it is a slice.
fn array_type(place: &Place, whole: &[String]) -> Result<Option<(String, usize)>, String> {
    match parts(&whole[1..whole.len() - 1], ";").len() {
        1 => Ok(None),
        _ => sized(whole, place.size(whole)).map(Some),
    }
}

fn sized(array: &[String], size: Option<usize>) -> Result<(String, usize), String> {
    let text = join(array);
    match size {
        Some(size) => Ok((text, size)),
        None => Err(format!("the size of {text} cannot be told")),
    }
}
