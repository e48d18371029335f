//! The C header, the wrapper's declarations and the library have the same structs and the same calls: fields, parameters and results,
//! by name, type and order, read from the sources of the three. That sizes and places are the same is checked when the wrapper and
//! `examples/c/layout.c` are compiled.

use std::collections::BTreeMap;
use std::fs;

const HEADER: &str = "include/lanhduxe.h";
const WRAPPER: &str = "rust/src/lib.rs";
const LIBRARY: &str = "crates/lanhduxe/src/lib.rt";

/// `LANHDUXE_VERSION`, and the number that `fingerprint` makes of the structs and calls of that version.
const VERSION: (&str, u64) = ("10", 0xACCB_6981_1EB8_4C14);

/// The calls of the interface.
const CALLS: usize = 18;

/// A struct that is shared: where the library has it, and its name in the library, in the wrapper and in the header.
struct Shared {
    path: &'static str,
    library: &'static str,
    wrapper: &'static str,
    header: &'static str,
}

const fn shared(
    path: &'static str,
    library: &'static str,
    wrapper: &'static str,
    header: &'static str,
) -> Shared {
    Shared {
        path,
        library,
        wrapper,
        header,
    }
}

const STRUCTS: [Shared; 7] = [
    shared("crates/volume/src/lib.rt", "Volume", "Volume", "usn_volume"),
    shared(
        "crates/journal_post/src/lib.rt",
        "Change",
        "Change",
        "usn_change",
    ),
    shared(
        "crates/file_record/src/lib.rt",
        "FileRecord",
        "FileRecord",
        "usn_file",
    ),
    shared("crates/file_links/src/lib.rt", "Link", "Link", "usn_link"),
    shared(
        "crates/call_cores/src/lib.rt",
        "Report",
        "Answer",
        "usn_answer",
    ),
    shared(LIBRARY, "RecordReport", "Record", "usn_record"),
    shared(LIBRARY, "WalkReport", "Walk", "usn_walk"),
];

/// The header's id. In the library `FileId` is an array of sixteen bytes, which lies in a struct as the header's id does; where it is a
/// parameter, the struct `Id` holds it. In the wrapper `FileId` is that struct.
const ID: &str = "usn_id";
const ID_ARRAY: (&str, &str) = ("crates/file_ids/src/lib.rt", "pub type FileId = [u8; 16];");
const ID_STRUCT: (&str, &str) = ("crates/call_cores/src/lib.rt", "Id");

/// The row of a table, in the wrapper and in the header. The library reads its bytes.
const ROW: (&str, &str) = ("Entry", "usn_entry");

/// The structs that only the header has, for its own functions.
const HEADERS_OWN: [&str; 2] = ["usn_read_input", "usn_enum_input"];

/// The functions of the header's own over rows, and the call over bytes that each one makes.
const OVER_ROWS: [(&str, &str); 2] = [
    ("usn_enumerate_files", "usn_enumerate_rows"),
    ("usn_file_path", "usn_row_path"),
];

/// What the library calls otherwise than the header. A slice's length is called `_size` behind its name here.
const OTHER_NAMES: [(&str, &str); 8] = [
    ("v", "volume"),
    ("f", "file"),
    ("c", "change"),
    ("s", "bytes"),
    ("s", "reply"),
    ("s_size", "size"),
    ("links_size", "link_count"),
    ("short", "short_length"), // `short` is a word of C
];

/// A field or a parameter: its name, and its type in the words of C.
type Named = (String, String);

/// A call's parameters and its result.
type Signature = (Vec<Named>, String);

/// A source without its comments, every line without what stands around it.
fn source(path: &str) -> String {
    let path = format!("{}/../{path}", env!("CARGO_MANIFEST_DIR"));
    let text = fs::read_to_string(&path).unwrap_or_else(|e| panic!("{path}: {e}"));
    let mut parts = text.split("/*");
    let mut code = parts.next().expect("a first part").to_string();
    for part in parts {
        code += part.split_once("*/").expect("the comment's end").1;
    }
    let lines = code
        .lines()
        .map(|line| line.split("//").next().unwrap_or("").trim());
    lines
        .filter(|line| !line.is_empty())
        .collect::<Vec<_>>()
        .join("\n")
}

/// The text between `from` and `to`.
fn between<'a>(text: &'a str, from: &str, to: &str) -> &'a str {
    let start = text.find(from).unwrap_or_else(|| panic!("no `{from}`")) + from.len();
    let end = text[start..]
        .find(to)
        .unwrap_or_else(|| panic!("no `{to}` behind `{from}`"));
    &text[start..start + end]
}

/// The C type for a type of Rust or Rattle.
fn c_type(kind: &str) -> String {
    if let Some(array) = kind.strip_prefix('[') {
        let (item, count) = array
            .trim_end_matches(']')
            .split_once("; ")
            .expect("an array");
        return format!("{}[{count}]", c_type(item));
    }
    for (before, const_word) in [
        ("*mut ", ""),
        ("&mut ", ""),
        ("*const ", "const "),
        ("&", "const "),
    ] {
        if let Some(target) = kind.strip_prefix(before) {
            return format!("{const_word}{} *", c_type(target));
        }
    }
    match kind {
        "u8" | "u16" | "u32" | "u64" => format!("uint{}_t", &kind[1..]),
        "usize" => "size_t".to_string(),
        "FileId" | "Id" => ID.to_string(),
        _ => STRUCTS
            .iter()
            .find(|shared| [shared.library, shared.wrapper].contains(&kind))
            .unwrap_or_else(|| panic!("no C type for `{kind}`"))
            .header
            .to_string(),
    }
}

/// A field or a parameter of Rust or Rattle. A slice is a pointer and a length.
fn named(text: &str) -> Vec<Named> {
    let (name, kind) = text
        .split_once(": ")
        .unwrap_or_else(|| panic!("no type in `{text}`"));
    let name = name.trim_start_matches("pub ").to_string();
    match kind.trim_end_matches(']').split_once('[') {
        Some((pointer, item)) if !pointer.is_empty() => {
            let length = (format!("{name}_size"), "size_t".to_string());
            vec![(name, c_type(&format!("{pointer}{item}"))), length]
        }
        _ => vec![(name, c_type(kind))],
    }
}

/// A field or a parameter of C.
fn c_named(text: &str) -> Named {
    let text = text.split_whitespace().collect::<Vec<_>>().join(" ");
    let (text, array) = match text.find('[') {
        Some(at) => text.split_at(at),
        None => (&text[..], ""),
    };
    let at = text
        .rfind([' ', '*'])
        .unwrap_or_else(|| panic!("no type in `{text}`"))
        + 1;
    (
        text[at..].to_string(),
        format!("{}{array}", text[..at].trim()),
    )
}

/// The parts of a list between commas.
fn parts(list: &str) -> impl Iterator<Item = &str> {
    list.split(',')
        .map(str::trim)
        .filter(|part| !part.is_empty())
}

/// The fields of a struct of Rust or Rattle that is shared with C.
fn fields(code: &str, name: &str) -> Vec<Named> {
    let head = format!("pub struct {name} {{");
    let is_shared = |at: usize| {
        let mut attributes = code[..at]
            .lines()
            .rev()
            .take_while(|line| line.starts_with("#["));
        attributes.any(|line| line == "#[repr(C)]")
    };
    let mut found = code.match_indices(&head).map(|(at, _)| at);
    let start = found
        .find(|at| is_shared(*at))
        .unwrap_or_else(|| panic!("no `{head}` under #[repr(C)]"));
    parts(between(&code[start..], &head, "}"))
        .flat_map(named)
        .collect()
}

/// The fields of a struct of C.
fn c_fields(code: &str, name: &str) -> Vec<Named> {
    let body = between(code, &format!("typedef struct {name} {{"), "}");
    body.split(';')
        .filter(|field| !field.trim().is_empty())
        .map(c_named)
        .collect()
}

/// The calls of Rust or Rattle that begin with a marker.
fn calls(code: &str, marker: &str) -> BTreeMap<String, Signature> {
    let mut found = BTreeMap::new();
    for rest in code.split(marker).skip(1) {
        let (name, rest) = rest.split_once('(').expect("parameters");
        let (list, rest) = rest.split_once(')').expect("the parameters' end");
        let result = rest.trim_start().strip_prefix("-> ").expect("a result");
        let result = result.split([';', '\n', ' ']).next().expect("a type");
        let signature = (parts(list).flat_map(named).collect(), c_type(result));
        assert!(
            found.insert(name.to_string(), signature).is_none(),
            "{name} twice"
        );
    }
    found
}

/// What C declares outside of all braces, each without its end.
fn declarations(code: &str) -> Vec<String> {
    let code = code
        .replace("extern \"C\" {", "")
        .replace("#ifdef __cplusplus\n}", "");
    let (mut found, mut one, mut depth) = (Vec::new(), String::new(), 0);
    for line in code.lines().filter(|line| !line.starts_with('#')) {
        for letter in line.chars().chain(['\n']) {
            match letter {
                '{' => depth += 1,
                // behind a function's body, but not behind a struct's
                '}' if depth == 1 && one.contains('(') => (one, depth) = (String::new(), 0),
                '}' => depth -= 1,
                ';' if depth == 0 => found.push(std::mem::take(&mut one).trim().to_string()),
                _ if depth == 0 => one.push(letter),
                _ => {}
            }
        }
    }
    assert_eq!(one.trim(), "", "a declaration has no end");
    found
}

/// The calls that C declares.
fn c_calls(code: &str) -> BTreeMap<String, Signature> {
    let mut found = BTreeMap::new();
    for declaration in declarations(code) {
        if let Some((head, rest)) = declaration.split_once('(') {
            let (name, result) = c_named(head);
            let list = rest.strip_suffix(')').expect("the parameters' end");
            let signature = (parts(list).map(c_named).collect(), result);
            assert!(
                found.insert(name.clone(), signature).is_none(),
                "{name} twice"
            );
        }
    }
    found
}

/// The library's fields or parameters are those of the header, but for some names.
fn assert_same(library: &[Named], header: &[Named], what: &str) {
    let same = |(ours, theirs): (&Named, &Named)| {
        let names = (&ours.0[..], &theirs.0[..]);
        ours.1 == theirs.1 && (names.0 == names.1 || OTHER_NAMES.contains(&names))
    };
    assert!(
        library.len() == header.len() && library.iter().zip(header).all(same),
        "{what}:\nlibrary {library:?}\nheader  {header:?}"
    );
}

/// The header's structs.
fn header_structs() -> impl Iterator<Item = &'static str> {
    let shared = STRUCTS.iter().map(|shared| shared.header);
    shared.chain([ID, ROW.1]).chain(HEADERS_OWN)
}

/// The names of fields or parameters.
fn names(fields: &[Named]) -> Vec<&String> {
    fields.iter().map(|(name, _)| name).collect()
}

/// The types of fields or parameters.
fn types(fields: &[Named]) -> Vec<&String> {
    fields.iter().map(|(_, kind)| kind).collect()
}

/// A number for the header's structs and calls, which any change of a field, of a type or of an order changes.
fn fingerprint(header: &str) -> u64 {
    let mut text = String::new();
    for name in header_structs() {
        text += &format!("{name} {:?}\n", c_fields(header, name));
    }
    for (name, (parameters, result)) in c_calls(header) {
        text += &format!("{name} {:?} {result}\n", types(&parameters));
    }
    text.bytes().fold(0xCBF2_9CE4_8422_2325, |hash, byte| {
        (hash ^ byte as u64).wrapping_mul(0x100_0000_01B3)
    })
}

#[test]
fn the_three_have_the_same_structs() {
    let (header, wrapper) = (source(HEADER), source(WRAPPER));
    for shared in &STRUCTS {
        let declared = c_fields(&header, shared.header);
        assert!(declared.len() > 1, "{} has no fields", shared.header);
        let library = fields(&source(shared.path), shared.library);
        assert_same(&library, &declared, shared.header);
        // the wrapper has the library's names and the header's types
        let ours = fields(&wrapper, shared.wrapper);
        assert_eq!(names(&ours), names(&library), "{}", shared.wrapper);
        assert_eq!(types(&ours), types(&declared), "{}", shared.wrapper);
    }
    let bytes = [("bytes".to_string(), "uint8_t[16]".to_string())];
    assert_eq!(c_fields(&header, ID), bytes);
    assert_eq!(fields(&wrapper, "FileId"), bytes);
    assert!(source(ID_ARRAY.0).contains(ID_ARRAY.1));
    let array = [("bytes".to_string(), ID.to_string())];
    assert_eq!(fields(&source(ID_STRUCT.0), ID_STRUCT.1), array);

    let mut known: Vec<&str> = header_structs().collect();
    let mut declared: Vec<&str> = header
        .split("typedef struct ")
        .skip(1)
        .filter_map(|rest| rest.split(' ').next())
        .collect();
    known.sort();
    declared.sort();
    assert_eq!(declared, known);
}

#[test]
fn the_three_have_the_same_calls() {
    let header = c_calls(&source(HEADER));
    assert_eq!(header.len(), CALLS);

    let wrapper = calls(between(&source(WRAPPER), "extern \"C\" {", "}"), "pub fn ");
    assert!(wrapper.keys().eq(header.keys()), "{:?}", wrapper.keys());
    let stores = calls(
        between(&source("rust/tests/stores.rs"), "extern \"C\" {", "}"),
        "fn ",
    );
    for (name, signature) in wrapper.iter().chain(&stores) {
        assert_eq!(*signature, header[name], "{name}");
    }

    let library = calls(&source(LIBRARY), "pub extern \"C\" fn ");
    assert!(library.keys().eq(header.keys()), "{:?}", library.keys());
    for (name, (parameters, result)) in &library {
        assert_same(parameters, &header[name].0, name);
        assert_eq!(*result, header[name].1, "{name}");
    }
}

#[test]
fn header_and_wrapper_have_the_same_row() {
    let (wrapper, header) = ROW;
    let row = c_fields(&source(HEADER), header);
    assert!(row.len() > 1, "{header} has no fields");
    assert_eq!(fields(&source(WRAPPER), wrapper), row);
}

/// A function over rows takes what the call over bytes does, but for the table, and hands it on.
#[test]
fn the_functions_over_rows_make_the_calls() {
    let header = source(HEADER);
    for (function, call) in OVER_ROWS {
        let head = format!("static inline usn_answer {function}(");
        let list = between(&header, &head, ")\n{");
        let parameters: Vec<Named> = parts(list).map(c_named).collect();
        let (over_bytes, result) = &c_calls(&header)[call];
        assert_eq!(*result, "usn_answer", "{call}");
        let over_rows: Vec<Named> = over_bytes.iter().map(over_rows).collect();
        assert_ne!(over_rows, *over_bytes, "{call} has no table");
        assert_eq!(parameters, over_rows, "{function}");

        let body = between(&header, &format!("{list})\n{{\n"), "\n}");
        let handed_on: Vec<&str> = names(over_bytes)
            .into_iter()
            .map(|name| match &name[..] {
                "table" => "usn_table_bytes(table)",
                "table_size" => "count * sizeof *table",
                other => other,
            })
            .collect();
        assert_eq!(body, format!("return {call}({});", handed_on.join(", ")));
    }
}

/// What a function over rows has in the place of a parameter of the call over bytes.
fn over_rows(parameter: &Named) -> Named {
    match &parameter.0[..] {
        "table" => ("table".to_string(), format!("const {} *", ROW.1)),
        "table_size" => ("count".to_string(), "size_t".to_string()),
        _ => parameter.clone(),
    }
}

#[test]
fn the_version_changes_with_structs_and_calls() {
    let header = source(HEADER);
    let version = between(&header, "#define LANHDUXE_VERSION ", "\n");
    let now = (version, fingerprint(&header));
    assert!(
        now == VERSION,
        "raise LANHDUXE_VERSION if a struct or a call has changed (and, which is not seen here, what a call accepts or answers); then VERSION is {now:#X?}"
    );
}

#[test]
fn the_example_has_every_call() {
    let example = source("examples/c/journal.c");
    for call in c_calls(&source(HEADER)).keys() {
        let over_rows = OVER_ROWS.iter().find(|(_, made)| made == call);
        let called = over_rows.map_or(&call[..], |(function, _)| function);
        assert!(example.contains(&format!("{called}(")), "{called}");
    }
}

#[test]
fn the_header_has_the_statuses() {
    let header = source(HEADER);
    for status in lanhduxe::Status::ALL {
        let name = status.to_string().replace("STATUS_", "USN_");
        let line = format!("#define {name:<30} 0x{:08X}u", status.number());
        assert_eq!(header.matches(&line).count(), 1, "{line}");
    }
}
