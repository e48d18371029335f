//! The sizes of types and of array literals, in bytes.

use crate::program::{Item, Kind, Program, Scope, Tokens};
use crate::tokens::{closing, find, is_number, parts, paths};

/// Where a type or a value is written.
pub struct Place<'a> {
    pub program: &'a Program,
    pub scope: &'a Scope,
}

struct Layout {
    size: usize,
    align: usize,
}

impl Layout {
    fn number(size: usize) -> Layout {
        Layout { size, align: size }
    }

    /// Rounded up, so that one can stand behind the other.
    fn rounded(self) -> Layout {
        Layout {
            size: self.size.next_multiple_of(self.align),
            align: self.align,
        }
    }
}

impl<'a> Place<'a> {
    fn in_scope(&self, scope: &'a Scope) -> Place<'a> {
        Place {
            program: self.program,
            scope,
        }
    }

    /// The item that a whole text names, with lifetimes behind it or without.
    fn item(&self, tokens: &[String]) -> Option<&'a Item> {
        let path = paths(tokens)
            .ok()?
            .into_iter()
            .next()
            .filter(|path| path.start == 0)?;
        let is_lifetime =
            |token: &String| token.starts_with('\'') || ["<", ",", ">"].contains(&token.as_str());
        if !tokens[path.end..].iter().all(is_lifetime) {
            return None;
        }
        let found = self.program.resolve(self.scope, &path.names).ok()??;
        self.program.items.get(&found)
    }

    // ---- Types.

    /// The size of a type.
    pub fn size(&self, ty: &[String]) -> Option<usize> {
        self.layout(ty).map(|layout| layout.size)
    }

    fn layout(&self, ty: &[String]) -> Option<Layout> {
        match ty {
            [sign, ..] if sign == "&" => {
                // a slice's length stands beside its address
                let open = ty.iter().position(|token| token == "[");
                let is_slice =
                    open.is_some_and(|open| parts(&ty[open + 1..ty.len() - 1], ";").len() == 1);
                Some(Layout {
                    size: if is_slice { 16 } else { 8 },
                    align: 8,
                })
            }
            [open, inner @ .., _] if open == "[" => match parts(inner, ";")[..] {
                [element, length] => {
                    let Layout { size, align } = self.layout(element)?;
                    Some(Layout {
                        size: size.checked_mul(self.length(length)?)?,
                        align,
                    })
                }
                _ => None,
            },
            [number] if number_size(number).is_some() => number_size(number).map(Layout::number),
            _ => self.named_type(ty),
        }
    }

    /// The layout of a declared type: the fields of a struct in their order, each aligned; of an enum a tag of one byte, and behind it the
    /// fields of a variant.
    fn named_type(&self, ty: &[String]) -> Option<Layout> {
        let item = self.item(ty)?;
        let place = self.in_scope(&item.scope);
        match &item.kind {
            Kind::Alias(ty) => place.layout(ty),
            Kind::Struct(fields) => place.fields(0, fields),
            Kind::Enum(variants) => {
                let mut whole = Layout::number(1);
                for (_, fields) in variants {
                    let variant = place.fields(1, fields)?;
                    whole.size = whole.size.max(variant.size);
                    whole.align = whole.align.max(variant.align);
                }
                Some(whole.rounded())
            }
            Kind::Function(..) | Kind::Constant(..) => None,
        }
    }

    /// The layout of fields behind a tag of this size.
    fn fields(&self, tag: usize, fields: &[Tokens]) -> Option<Layout> {
        let mut whole = Layout {
            size: tag,
            align: 1,
        };
        for field in fields {
            let field = self.layout(field)?;
            whole.size = whole.size.next_multiple_of(field.align) + field.size;
            whole.align = whole.align.max(field.align);
        }
        Some(whole.rounded())
    }

    // ---- Values.

    /// The size of an array literal, at most.
    pub fn literal(&self, inner: &[String]) -> Option<usize> {
        if let [element, length] = parts(inner, ";")[..] {
            return self.element(element)?.checked_mul(self.length(length)?);
        }
        let elements = parts(inner, ",");
        // all have one type, and one that says it is enough
        let sizes = elements.iter().filter_map(|element| self.element(element));
        match elements.len() {
            0 => Some(0),
            n => sizes.min()?.checked_mul(n),
        }
    }

    /// The size of an element of a literal, at most: a number that does not say its type may be of the widest.
    fn element(&self, tokens: &[String]) -> Option<usize> {
        match tokens {
            [number] if is_number(number) => Some(suffix(number).map_or(8, |(_, size)| size)),
            [byte] if byte.starts_with("b'") => Some(1),
            [truth] if truth == "true" || truth == "false" => Some(1),
            [_, cast, ty] if cast == "as" => number_size(ty),
            [open, inner @ .., _] if open == "[" && is_group(tokens) => self.literal(inner),
            _ => None,
        }
    }

    /// The value of an array's length.
    fn length(&self, tokens: &[String]) -> Option<usize> {
        // the last sign of the weakest kind is the one that is reckoned last
        for signs in [&["+", "-"][..], &["*", "/", "%"]] {
            let mut last = None;
            let mut at = 0;
            while let Some(sign) = find(tokens, at, signs) {
                last = Some(sign);
                at = sign + 1;
            }
            if let Some(at) = last {
                let left = self.length(&tokens[..at])?;
                let right = self.length(&tokens[at + 1..])?;
                return match tokens[at].as_str() {
                    "+" => left.checked_add(right),
                    "-" => left.checked_sub(right),
                    "*" => left.checked_mul(right),
                    "/" => left.checked_div(right),
                    _ => left.checked_rem(right),
                };
            }
        }
        match tokens {
            [front @ .., cast, ty] if cast == "as" && ty == "usize" => self.length(front),
            [open, inner @ .., _] if open == "(" && is_group(tokens) => self.length(inner),
            [number] if is_number(number) => number_value(number),
            _ => {
                let item = self.item(tokens)?;
                match &item.kind {
                    Kind::Constant(_, value) => self.in_scope(&item.scope).length(value),
                    _ => None,
                }
            }
        }
    }
}

/// Whether the first token is a bracket that the last one closes.
fn is_group(tokens: &[String]) -> bool {
    closing(tokens, 0) == Ok(tokens.len() - 1)
}

/// The size of a number's type, or of bool.
pub fn number_size(ty: &str) -> Option<usize> {
    match ty {
        "u8" | "i8" | "bool" => Some(1),
        "u16" | "i16" => Some(2),
        "u32" | "i32" | "f32" => Some(4),
        "u64" | "i64" | "f64" | "usize" | "isize" => Some(8),
        "u128" | "i128" => Some(16),
        _ => None,
    }
}

/// The digits of a number that says its type, and the type's size.
fn suffix(number: &str) -> Option<(&str, usize)> {
    let at = number.find(['u', 'i'])?;
    Some((&number[..at], number_size(&number[at..])?))
}

fn number_value(number: &str) -> Option<usize> {
    let digits = suffix(number)
        .map_or(number, |(digits, _)| digits)
        .replace('_', "");
    match digits.get(..2) {
        Some("0x") => usize::from_str_radix(&digits[2..], 16).ok(),
        Some("0o") => usize::from_str_radix(&digits[2..], 8).ok(),
        Some("0b") => usize::from_str_radix(&digits[2..], 2).ok(),
        _ => digits.parse().ok(),
    }
}

/// The length of a byte string.
pub fn bytes_in(literal: &str) -> usize {
    let mut inner = literal[2..literal.len() - 1].chars();
    let mut bytes = 0;
    while let Some(first) = inner.next() {
        if first == '\\' && inner.next() == Some('x') {
            inner.nth(1);
        }
        bytes += 1;
    }
    bytes
}
