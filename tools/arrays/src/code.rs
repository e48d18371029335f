//! The brackets in code, and what each of them is.

use crate::tokens::{closing, find, is_bytes, is_name, is_number};
use std::ops::Range;

/// What a pair of square brackets in code is.
#[derive(Clone, Copy, PartialEq)]
pub enum Role {
    Index,
    /// In the type that a `let` declares.
    Type,
    /// A literal whose type stands in a text that is reached: it is the whole value of a `let` with a type or of a constant, of a field, of
    /// an argument or of a result, or an element of such a literal.
    Typed,
    Literal,
}

/// A pair of square brackets, from its first place to its last.
pub struct Square {
    pub role: Role,
    pub start: usize,
    pub end: usize,
}

/// The types that a `let` declares.
pub fn let_types(code: &[String]) -> Vec<Range<usize>> {
    let mut types = Vec::new();
    for at in (0..code.len()).filter(|at| code[*at] == "let") {
        let colon = find(code, at, &[":", "=", ";"]).filter(|at| code[*at] == ":");
        let end = colon.and_then(|colon| find(code, colon, &["=", ";"]));
        types.extend(colon.zip(end).map(|(colon, end)| colon + 1..end));
    }
    types
}

/// The square brackets of the body of a function, or of the value of a constant.
pub fn squares(code: &[String]) -> Result<Vec<Square>, String> {
    let types = let_types(code);
    let mut squares = Vec::new();
    // the brackets that are open, each with whether its parts have declared types: arguments, and elements of a typed literal
    let mut open: Vec<(bool, usize)> = Vec::new();
    for (i, token) in code.iter().enumerate() {
        let before = if i == 0 { "" } else { code[i - 1].as_str() };
        match token.as_str() {
            "(" => open.push((is_name(before), i)),
            "{" => open.push((false, i)),
            ")" | "}" | "]" => {
                open.pop();
            }
            "[" => {
                let end = closing(code, i)?;
                let is_typed_part = open
                    .last()
                    .is_some_and(|(is_typed, start)| *is_typed && is_part(code, *start, i, end));
                let role = if types.iter().any(|range| range.contains(&i)) {
                    Role::Type
                } else if is_operand(code, i) {
                    Role::Index
                } else if is_typed_part || has_declared_type(code, &types, i, end) {
                    Role::Typed
                } else {
                    Role::Literal
                };
                squares.push(Square {
                    role,
                    start: i,
                    end,
                });
                open.push((role == Role::Typed, i));
            }
            _ => {}
        }
    }
    Ok(squares)
}

/// Whether what stands before a bracket is a value, which the bracket indexes.
fn is_operand(code: &[String], at: usize) -> bool {
    let Some(before) = at.checked_sub(1).map(|before| code[before].as_str()) else {
        return false;
    };
    let is_field = is_number(before) && at > 1 && code[at - 2] == ".";
    is_name(before) || is_bytes(before) || is_field || before == ")" || before == "]"
}

/// Whether the brackets from `start` to `end` are one of the parts, separated by commas or a semicolon, of the bracket at `open`.
fn is_part(code: &[String], open: usize, start: usize, end: usize) -> bool {
    let before = start - 1;
    let is_first = before == open || code[before] == ",";
    is_first && [",", ";", ")", "]"].contains(&code[end + 1].as_str())
}

/// Whether the brackets are a whole value whose type is declared: by a `let` or a constant, by a field, or by the function's result.
fn has_declared_type(code: &[String], types: &[Range<usize>], start: usize, end: usize) -> bool {
    let before = if start == 0 {
        ""
    } else {
        code[start - 1].as_str()
    };
    let behind = code.get(end + 1).map_or("", String::as_str);
    match before {
        "" => behind.is_empty(),
        "=" => behind == ";" && types.iter().any(|range| range.end == start - 1),
        ":" | "return" => [",", ";", "}"].contains(&behind),
        // the last value of the body
        "{" | ";" | "}" => end + 2 == code.len() && behind == "}",
        _ => false,
    }
}
