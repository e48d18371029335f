//! The words, numbers, literals and signs of a source, without its comments, attributes and contracts.

const KEYWORDS: [&str; 25] = [
    "as", "break", "const", "continue", "else", "enum", "extern", "false", "fn", "for", "if",
    "impl", "in", "let", "loop", "match", "mod", "mut", "pub", "return", "struct", "true", "type",
    "use", "while",
];

/// The words behind which the language of proofs begins.
const GHOST: [&str; 3] = ["requires", "ensures", "ghost"];

/// Signs of two characters in which neither may be taken for a sign of its own.
const PAIRS: [&str; 6] = ["::", "->", "=>", "==", "!=", ".."];

/// Whether a token is a word that names something.
pub fn is_name(token: &str) -> bool {
    token.starts_with(|c: char| c.is_alphabetic() || c == '_')
        && !is_bytes(token)
        && !KEYWORDS.contains(&token)
}

pub fn is_number(token: &str) -> bool {
    token.starts_with(|c: char| c.is_ascii_digit())
}

/// Whether a text begins with a byte string or a byte, as b"hi" and b'a'.
pub fn is_bytes(text: &str) -> bool {
    text.starts_with("b\"") || text.starts_with("b'")
}

/// Splits a source into its tokens.
pub fn split(source: &str) -> Result<Vec<String>, String> {
    let mut tokens: Vec<String> = Vec::new();
    let mut rest = source;
    while let Some(first) = rest.chars().next() {
        let (token, behind) = rest.split_at(length_of_first(rest, first));
        rest = behind;
        if first.is_whitespace() || token.starts_with("//") || token.starts_with("/*") {
            continue;
        }
        if GHOST.contains(&token) {
            rest = &rest[ghost_text(rest)?..];
            continue;
        }
        // no text that is followed has a string but in `extern "C"`; this is one, or a part of a raw byte string
        if first == '"' && tokens.last().is_none_or(|before| before != "extern") {
            return Err(format!("not understood: {token}"));
        }
        tokens.push(token.to_string());
    }
    without_attributes(tokens)
}

fn without_attributes(mut tokens: Vec<String>) -> Result<Vec<String>, String> {
    while let Some(at) = tokens.iter().position(|token| token == "#") {
        let open = tokens[at..].iter().position(|token| token == "[");
        let end = closing(&tokens, at + open.ok_or("an attribute of nothing")?)?;
        tokens.drain(at..=end);
    }
    Ok(tokens)
}

/// The length of what stands behind one of the words that begin a text in the language of proofs: a `use` or a value, as `ghost a = {..};`,
/// up to its semicolon, or a clause or field, with a name or without, up to its last brace. Its braces are counted as they stand, so it may
/// have no comment and no quoted brace.
fn ghost_text(rest: &str) -> Result<usize, String> {
    let is_use = rest.split_whitespace().next() == Some("use");
    let head = rest[..rest.find('{').unwrap_or(rest.len())].trim();
    let has_value = head.ends_with('=');
    let name = head.strip_suffix([':', '=']).unwrap_or(head);
    if !is_use && name.contains(|c: char| !c.is_alphanumeric() && !c.is_whitespace() && c != '_') {
        return Err(format!("not understood: {head}"));
    }
    let last = if is_use || has_value { ';' } else { '}' };
    let mut depth = 0;
    let end = rest.find(|c: char| {
        depth += (c == '{') as i32 - (c == '}') as i32;
        depth == 0 && c == last
    });
    let length = end.ok_or("a contract has no end")? + 1;
    let text = &rest[..length];
    let signs = ["--", "{-", "//", "/*", "\"", "'{", "'}"];
    match signs.iter().find(|sign| text.contains(**sign)) {
        Some(sign) => Err(format!("{sign} in a contract")),
        None => Ok(length),
    }
}

/// The length of what a source begins with: a comment, a literal, a word, a number or a sign.
fn length_of_first(rest: &str, first: char) -> usize {
    if rest.starts_with("//") {
        return rest.find('\n').unwrap_or(rest.len());
    }
    if rest.starts_with("/*") {
        return block_comment(rest);
    }
    if first == '"' {
        return quoted(rest, 1, b'"');
    }
    if is_bytes(rest) {
        return quoted(rest, 2, rest.as_bytes()[1]);
    }
    // a word, a number or a lifetime
    if first.is_alphanumeric() || first == '_' || first == '\'' {
        let inner = &rest[first.len_utf8()..];
        let end = inner.find(|c: char| !c.is_alphanumeric() && c != '_');
        return first.len_utf8() + end.unwrap_or(inner.len());
    }
    if PAIRS.iter().any(|pair| rest.starts_with(pair)) {
        return 2;
    }
    first.len_utf8()
}

/// The length of a comment that may have others inside.
fn block_comment(rest: &str) -> usize {
    let mut depth = 0;
    let mut at = 0;
    while at < rest.len() {
        match rest.as_bytes().get(at..at + 2) {
            Some(b"/*") => depth += 1,
            Some(b"*/") => depth -= 1,
            _ => {
                at += 1;
                continue;
            }
        }
        at += 2;
        if depth == 0 {
            break;
        }
    }
    at
}

/// The length of a literal up to its closing quote, which no backslash stands before.
fn quoted(rest: &str, start: usize, quote: u8) -> usize {
    let bytes = rest.as_bytes();
    let mut at = start;
    while at < bytes.len() && bytes[at] != quote {
        at += if bytes[at] == b'\\' { 2 } else { 1 };
    }
    bytes.len().min(at + 1)
}

/// The place of the bracket that closes the one at `open`.
pub fn closing(tokens: &[String], open: usize) -> Result<usize, String> {
    let mut depth = 0;
    for (i, token) in tokens.iter().enumerate().skip(open) {
        match token.as_str() {
            "(" | "[" | "{" => depth += 1,
            ")" | "]" | "}" => depth -= 1,
            _ => {}
        }
        if depth == 0 {
            return Ok(i);
        }
    }
    Err(format!("nothing closes {}", join(&tokens[open..])))
}

/// The first place from `start` on, in no further bracket, of a token that is one of these.
pub fn find(tokens: &[String], start: usize, signs: &[&str]) -> Option<usize> {
    let mut at = start;
    while at < tokens.len() {
        if signs.contains(&tokens[at].as_str()) {
            return Some(at);
        }
        at = match tokens[at].as_str() {
            "(" | "[" | "{" => closing(tokens, at).ok()? + 1,
            _ => at + 1,
        };
    }
    None
}

/// The parts of a list that a sign separates, brackets left whole. Behind a last separator there is no part.
pub fn parts<'a>(tokens: &'a [String], separator: &str) -> Vec<&'a [String]> {
    let mut parts = Vec::new();
    let mut start = 0;
    while start < tokens.len() {
        let end = find(tokens, start, &[separator]).unwrap_or(tokens.len());
        parts.push(&tokens[start..end]);
        start = end + 1;
    }
    parts
}

/// Names joined by `::`, from the first one's place to the place behind the last.
pub struct Path {
    pub names: Vec<String>,
    pub start: usize,
    pub end: usize,
}

/// The paths in a text. A `::` that is part of none, as before a lifetime, is a fault.
pub fn paths(tokens: &[String]) -> Result<Vec<Path>, String> {
    let mut paths = Vec::new();
    let mut at = 0;
    while at < tokens.len() {
        let start = at;
        let mut names = Vec::new();
        while tokens.get(at).is_some_and(|token| is_name(token)) {
            names.push(tokens[at].clone());
            at += 1;
            if tokens.get(at).is_none_or(|sign| sign != "::") {
                break;
            }
            at += 1;
        }
        if names.is_empty() {
            at += 1;
        } else {
            paths.push(Path {
                names,
                start,
                end: at,
            });
        }
        if tokens[at - 1] == "::" {
            return Err(format!("not understood: {}", join(&tokens[start..])));
        }
    }
    Ok(paths)
}

/// Tokens as a text of one line.
pub fn join(tokens: &[String]) -> String {
    let text = tokens.join(" ");
    let text = text
        .replace("[ ", "[")
        .replace(" ]", "]")
        .replace(" ;", ";")
        .replace(" ,", ",");
    match text.char_indices().nth(60) {
        Some((end, _)) => format!("{}..", &text[..end]),
        None => text,
    }
}
