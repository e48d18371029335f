//! The search, tried on the sources of the repository with something planted in them.

use arrays::program::{sources, Sources};
use std::fs;
use std::path::Path;
use std::process::Command;
use std::sync::atomic::{AtomicUsize, Ordering};
use std::sync::OnceLock;

/// The sources of the crates by their paths, and what is planted in them.
struct Planted(Sources);

/// What the search answers.
struct Answer {
    passes: bool,
    listed: String,
    /// How many functions it followed.
    functions: usize,
    /// Each array: its item, and its size.
    arrays: Vec<(String, usize)>,
    fault: String,
}

impl Planted {
    fn nothing() -> Planted {
        let crates = Path::new(env!("CARGO_MANIFEST_DIR")).join("../../crates");
        Planted(sources(&crates).unwrap())
    }

    fn file(&mut self, name: &str) -> &mut String {
        self.0.get_mut(&format!("{name}/src/lib.rt")).unwrap()
    }

    /// Plants a statement at the beginning of a function.
    fn inside(mut self, name: &str, function: &str, statement: &str) -> Planted {
        let file = self.file(name);
        let start = file.find(&format!("fn {function}(")).unwrap();
        let body = start + file[start..].find("\n{\n").unwrap();
        file.insert_str(body + 3, statement);
        self
    }

    /// Plants a field in a struct.
    fn field(mut self, name: &str, record: &str, field: &str) -> Planted {
        let file = self.file(name);
        let head = format!("pub struct {record} {{\n");
        let start = file.find(&head).unwrap();
        file.insert_str(start + head.len(), field);
        self
    }

    /// Plants items behind those of a crate.
    fn items(mut self, name: &str, items: &str) -> Planted {
        self.file(name).push_str(items);
        self
    }

    /// Plants the file of a module.
    fn module(mut self, path: &str, items: &str) -> Planted {
        self.0.insert(path.to_string(), items.to_string());
        self
    }

    fn search(&self) -> Answer {
        static COUNT: AtomicUsize = AtomicUsize::new(0);
        let count = COUNT.fetch_add(1, Ordering::Relaxed);
        // (rt wants no source in the repository outside of a crate)
        let folder = std::env::temp_dir().join(format!("arrays-{}-{count}", std::process::id()));
        for (path, source) in &self.0 {
            let path = folder.join(path);
            fs::create_dir_all(path.parent().unwrap()).unwrap();
            fs::write(path, source).unwrap();
        }
        let output = Command::new(env!("CARGO_BIN_EXE_arrays"))
            .arg(&folder)
            .output()
            .unwrap();
        fs::remove_dir_all(folder).unwrap();
        let listed = String::from_utf8(output.stdout).unwrap();
        let array = |line: &str| {
            let (size, rest) = line.split_once(" bytes: ")?;
            let (_, item) = rest.rsplit_once(" in ")?;
            Some((item.strip_suffix(", by")?.to_string(), size.parse().ok()?))
        };
        let functions = |line: &str| {
            line.strip_prefix("check-arrays: ")?
                .split_once(' ')?
                .0
                .parse()
                .ok()
        };
        Answer {
            passes: output.status.success(),
            functions: listed.lines().find_map(functions).unwrap_or(0),
            arrays: listed.lines().filter_map(array).collect(),
            listed,
            fault: String::from_utf8(output.stderr).unwrap(),
        }
    }

    /// Asserts which planted arrays it finds, besides those that were there, and that it passes if none is above sixteen bytes.
    #[track_caller]
    fn finds(&self, planted: &[(&str, usize)]) {
        let mut answer = self.search();
        static THERE: OnceLock<Vec<(String, usize)>> = OnceLock::new();
        for there in THERE.get_or_init(|| Planted::nothing().search().arrays) {
            let at = answer
                .arrays
                .iter()
                .position(|array| array == there)
                .expect(&answer.fault);
            answer.arrays.remove(at);
        }
        let planted: Vec<_> = planted
            .iter()
            .map(|(item, size)| (item.to_string(), *size))
            .collect();
        assert_eq!(answer.arrays, planted, "{}", answer.fault);
        assert_eq!(answer.passes, planted.iter().all(|(_, size)| *size <= 16));
    }

    /// Asserts that it cannot follow or size something.
    #[track_caller]
    fn fails(&self, fault: &str) {
        let answer = self.search();
        assert!(
            !answer.passes && answer.fault.ends_with(&format!("{fault}\n")),
            "{}",
            answer.fault
        );
    }
}

/// Items of the crate kept_writer, of which `put_kept` calls the function `planted`.
fn planted(items: &str) -> Planted {
    let call = "    let planted = planted(at);\n";
    Planted::nothing()
        .inside("kept_writer", "put_kept", call)
        .items("kept_writer", items)
}

const SPARE: &str = "    let spare = [0u8; 17];\n";

// ---- Above sixteen bytes it fails.

#[test]
fn the_sources_as_they_are() {
    let answer = Planted::nothing().search();
    assert!(answer.passes, "{}", answer.fault);
    assert!(answer.functions > 80, "only {} functions", answer.functions);
    assert!(answer
        .arrays
        .contains(&("file_record::FileRecord".to_string(), 16)));
}

#[test]
fn an_array() {
    let answer = Planted::nothing()
        .inside("kept_writer", "put_kept", SPARE)
        .search();
    assert!(!answer.passes);
    let told = &answer.fault;
    assert!(told.starts_with("check-arrays: above 16 bytes"), "{told}");
    assert!(
        told.contains("\n17 bytes: [0u8; 17], by journal_read::read_journal > "),
        "{told}"
    );
    assert!(told.ends_with(" > kept_writer::put_kept\n"), "{told}");
}

#[test]
fn a_struct_that_holds_one() {
    let sent = Planted::nothing().field("journal_page", "Sent", "    pub spare: [u8; 17],\n");
    sent.finds(&[("journal_page::Sent", 17)]);
    let inner = Planted::nothing().items("journal_page", "pub struct Inner { spare: [u8; 17] }");
    let inner = inner
        .field("journal_page", "Sent", "    pub inner: Inner,\n")
        .search();
    assert!(!inner.passes);
    let listed = "17 bytes: [u8; 17] in journal_page::Inner, by\n    journal_page::fill journal_read::reply_from\n";
    assert!(inner.listed.contains(listed), "{}", inner.listed);
}

#[test]
fn one_two_calls_deep() {
    planted(
        "
        fn planted(n: usize) -> u8 { deeper(n) }
        fn deeper(n: usize) -> u8 { let spare = [0u8; 17]; spare[n] }
        ",
    )
    .finds(&[("kept_writer::deeper", 17)]);
}

#[test]
fn one_in_each_read() {
    for (name, function) in [
        ("journal_read", "read_journal"),
        ("lanhduxe", "usn_read_journal"),
        ("file_usn", "read_file_usn"),
        ("lanhduxe", "usn_read_file"),
        ("file_enumeration", "enumerate_files"),
        ("lanhduxe", "usn_enumerate_rows"),
        ("file_path", "file_path"),
        ("lanhduxe", "usn_row_path"),
    ] {
        let item = format!("{name}::{function}");
        Planted::nothing()
            .inside(name, function, SPARE)
            .finds(&[(&item, 17)]);
    }
}

#[test]
fn not_sixteen_bytes() {
    let planted =
        Planted::nothing().inside("kept_writer", "put_kept", "    let spare = [0u8; 16];\n");
    planted.finds(&[("kept_writer::put_kept", 16)]);
}

#[test]
fn not_what_no_read_reaches() {
    Planted::nothing()
        .inside("journal_post", "judge_post", SPARE)
        .finds(&[]);
    Planted::nothing()
        .inside("image_save", "save_journal", SPARE)
        .finds(&[]);
}

// ---- Where an array can be.

#[test]
fn in_a_parameter_and_in_a_result() {
    planted(
        "
        fn planted(n: usize) -> u8 { taken(returned(n)) }
        fn taken(spare: [u8; 17]) -> u8 { spare[0] }
        fn returned(n: usize) -> [u8; 17] { returned(n) }
        ",
    )
    .finds(&[("kept_writer::returned", 17), ("kept_writer::taken", 17)]);
}

#[test]
fn in_a_type_inside_of_a_type() {
    planted(
        "
        fn planted(n: usize) -> u8 { Outer::outer(n).inner.spare[0] }
        struct Outer { pub(crate) inner: Inner }
        struct Inner { n: u8, pub spare: [u8; 17] }
        impl Outer { fn outer(n: usize) -> Self { Self::outer(n) } }
        ",
    )
    .finds(&[("kept_writer::Inner", 17)]);
    planted(
        "
        fn planted(n: usize) -> Found { Found::Nothing }
        enum Found { Nothing, One(Inner), Two { spare: [u8; 18] } }
        struct Inner(u8, pub(crate) [u8; 17]);
        ",
    )
    .finds(&[("kept_writer::Found", 18), ("kept_writer::Inner", 17)]);
}

#[test]
fn in_a_constant_and_by_another_name() {
    planted(
        "
        fn planted(n: usize) -> u8 { table[n] + OTHER }
        const table: [u8; 5] = [1, 2, 3, 4, 5];
        const OTHER: u8 = ANOTHER[3];
        const ANOTHER: [u8; 6] = [0; 6];
        ",
    )
    .finds(&[("kept_writer::table", 5), ("kept_writer::ANOTHER", 6)]);
    planted(
        "
        fn planted(n: usize) -> Spare { planted(n) }
        type Spare = Pair;
        struct Pair { both: Both }
        type Both = [Half; 3];
        type Half = u64;
        ",
    )
    .finds(&[("kept_writer::Both", 24)]);
}

#[test]
fn behind_a_reference_and_in_a_slice() {
    planted("fn planted(s: &[u8; 17]) -> u8 { let spare = *s; spare[0] }")
        .finds(&[("kept_writer::planted", 17)]);
    planted("fn planted(s: &mut [[u8; 17]]) -> u8 { let spare = s[0]; spare[0] }")
        .finds(&[("kept_writer::planted", 17)]);
    planted(r#"fn planted(n: usize) -> u8 { let spare = *b"'\"seven\x00teen\\byte"; spare[n] }"#)
        .finds(&[("kept_writer::planted", 17)]);
}

#[test]
fn in_a_method() {
    planted(
        "
        fn planted(n: usize) -> u8 { let made = Made::new(n); made.first() }
        struct Made { n: usize }
        impl Made {
            const N: usize = 17;
            fn new(n: usize) -> Self { Self { n } }
            fn first(self) -> u8 { let spare = [0u8; Self::N]; spare[0] }
        }
        struct Other { spare: [u8; 18] }
        impl Other { fn first(mut self) -> u8 { 0 } }
        ",
    )
    .finds(&[("kept_writer::Made::first", 17), ("kept_writer::Other", 18)]);
    planted(
        "
        fn planted(n: usize) -> u8 { Found::first(n) }
        enum Found { A, B }
        impl Found { pub const fn first(n: usize) -> u8 { let spare = [0u8; 17]; spare[n] } }
        ",
    )
    .finds(&[("kept_writer::Found::first", 17)]);
}

#[test]
fn in_what_a_trait_is_given_for_a_type() {
    let spare = "let spare = [0u8; 17]; spare[0]";
    for call in ["Held::from(n).0", "u8::from(n)", "n.from().0", "held(n)?.0"] {
        planted(&format!(
            "
            struct Held(u8);
            impl From<usize> for Held {{ ghost from_gives = {{ first }}; fn from(n: usize) -> Held {{ let x = {{ {spare} }}; Held(x) }} }}
            impl<'a> First for &'a [u8] {{ fn from(n: usize) -> u8 {{ {spare} }} fn other(n: usize) -> u8 {{ {spare} }} }}
            fn held(n: usize) -> Option<Held> {{ None }}
            fn planted(n: usize) -> u8 {{ {call} }}
            "
        ))
        .finds(&[
            ("kept_writer::<impl < 'a > First for & 'a [u8]>::from", 17),
            ("kept_writer::<impl From < usize > for Held>::from", 17),
        ]);
    }
}

#[test]
fn in_an_option_in_a_result_and_in_a_closure() {
    planted("fn planted(n: usize) -> Option<[u8; 17]> { None }")
        .finds(&[("kept_writer::planted", 17)]);
    planted("fn planted(n: usize, r: Result<u8, [u8; 17]>, m: u8) -> u8 { n }")
        .finds(&[("kept_writer::planted", 17)]);
    planted("fn planted(n: usize) -> u8 { found(n).is_empty() } struct Found { r: Result<u8, Held> } struct Held([u8; 17]); impl Found { fn is_empty(self) -> u8 { 0 } } fn found(n: usize) -> Found { found(n) }")
        .finds(&[("kept_writer::Held", 17)]);
    planted("fn planted(n: usize) -> u8 { n.iter().unwrap(|x| first(x, [0u8; 17])) } fn first(n: usize, s: [u8; 17]) -> u8 { 0 }")
        .finds(&[("kept_writer::first", 17)]);
}

#[test]
fn in_a_module() {
    planted(
        "
        fn planted(n: usize) -> u8 { inner::first(n) }
        mod inner { pub fn first(n: usize) -> u8 { super::spare(n) + crate::other(n) + self::own(n) } fn own(n: usize) -> u8 { 0 } }
        fn spare(n: usize) -> u8 { let spare = [0u8; 17]; spare[n] }
        fn other(n: usize) -> u8 { let spare = [0u8; 18]; spare[n] }
        ",
    )
    .finds(&[("kept_writer::other", 18), ("kept_writer::spare", 17)]);
    planted(
        "
        fn planted(n: usize) -> u8 { outer::inner::first(n) }
        mod outer {
            pub mod inner { pub fn first(n: usize) -> u8 { super::spare(n) } }
            fn spare(n: usize) -> u8 { let spare = [0u8; 17]; spare[n] }
        }
        fn spare(n: usize) -> u8 { 0 }
        ",
    )
    .finds(&[("kept_writer::outer::spare", 17)]);
    let first = "pub fn first(n: usize) -> u8 { let spare = [0u8; 17]; spare[n] }";
    for named in [
        "use inner::first as other; fn planted(n: usize) -> u8 { other(n) }",
        "use self::inner as other; fn planted(n: usize) -> u8 { other::first(n) }",
        "use crate::inner::{first,}; fn planted(n: usize) -> u8 { first(n) }",
    ] {
        planted(&format!("mod inner; {named}"))
            .module("kept_writer/src/inner.rt", first)
            .finds(&[("kept_writer::inner::first", 17)]);
    }
    planted("mod outer; use outer::inner::{self, first as other}; fn planted(n: usize) -> u8 { inner::first(n) }")
        .module("kept_writer/src/outer.rt", "pub mod inner;")
        .module("kept_writer/src/outer/inner.rt", first)
        .finds(&[("kept_writer::outer::inner::first", 17)]);
}

#[test]
fn in_another_crate() {
    let first = "pub fn first(n: usize) -> u8 { let spare = [0u8; 17]; spare[n] }";
    planted("fn planted(n: usize) -> u8 { le::first(n) }")
        .items("le", first)
        .finds(&[("le::first", 17)]);
    planted("use status::{Answer as Other, first}; fn planted(n: usize) -> u8 { first(n) }")
        .items("status", "pub use le::first;")
        .items("le", first)
        .finds(&[("le::first", 17)]);
}

#[test]
fn in_a_crate_that_is_named() {
    let not_understood = "static SPARE: u8 = 0;";
    Planted::nothing()
        .module("spare/src/lib.rt", not_understood)
        .finds(&[]);
    planted("fn planted(n: usize) -> u8 { spare::first(n) }")
        .module("spare/src/lib.rt", "mod inner; pub use inner::first;")
        .module(
            "spare/src/inner.rt",
            "use other::OTHER; pub fn first(n: usize) -> u8 { OTHER[n] }",
        )
        .module("other/src/lib.rt", "pub const OTHER: [u8; 17] = [0; 17];")
        .finds(&[("other::OTHER", 17)]);
    planted("use spare::first; fn planted(n: usize) -> u8 { 0 }")
        .module("spare/src/lib.rt", not_understood)
        .fails("not understood: static SPARE : u8 = 0");
}

// ---- How large an array is.

#[test]
fn of_literals() {
    for (literal, size) in [
        ("[0u8; 17]", 17),
        ("[0xFFu16; 0x11]", 34),
        ("[0; 3]", 24),
        ("[1, 2, 3]", 24),
        ("[0x1f32, 2]", 16),
        ("[n, 1u32, 2,]", 12),
        ("[n as u16, 7]", 4),
        ("[b'a', b'\\'']", 2),
        ("[true; 3]", 3),
        ("[0u8; HALF + HALF * 2 - 0b10]", 25),
        ("[0u8; 40 - HALF - 1 * 0o11]", 22),
        ("[1i8; 3]", 3),
        ("[0u8; 40 / HALF % 3]", 1),
        ("[]", 0),
        ("if n == 0 { [0u8; 17] } else { return 0; }", 17),
        ("match n { 0 => [0u8; 17], _ => return 0 }", 17),
        ("&mut [0u8; 17]", 17),
        ("([0u8; 17])", 17),
        ("[0u8; 17][n]", 17),
        ("first([0u8; 17][n])", 17),
        ("{ let inner = n; [0u8; 17] }", 17),
        ("{ if n == 0 { return 0; } [0u8; 17] }", 17),
        ("loop { break [0u8; 17]; }", 17),
        ("{ return [0u8; 17][n]; }", 17),
        ("Key { n: [0u8; 17][n] }", 17),
    ] {
        let others = "const HALF: usize = 3 * (LEAST - 1) as usize; const LEAST: usize = 4usize; fn first(n: u8) -> u8 { n } struct Key { n: u8 }";
        let function = format!("fn planted(n: usize) -> u8 {{ let spare = {literal}; 0 }}");
        planted(&format!("{others} {function}")).finds(&[("kept_writer::planted", size)]);
    }
}

#[test]
fn of_types() {
    for (of, size) in [
        ("u8", 3),
        ("i16", 6),
        ("f32", 12),
        ("f64", 24),
        ("usize", 24),
        ("u128", 48),
        ("bool", 3),
        ("&'static [u8]", 48),
        ("&mut u8", 24),
        ("Pair", 36),
        ("Found", 72),
        ("Other", 18),
        ("Code", 48),
        ("Held<'static>", 72),
        ("usn_record::Version", 3),
    ] {
        planted(&format!(
            "
            fn planted(spare: [{of}; 3]) -> u8 {{ 0 }}
            struct Pair {{ a: u8, b: u32, c: u16 }}
            struct Held<'a> {{ s: &'a [u8], at: u8 }}
            enum Found {{ A(u16), B {{ x: u64, y: bool }}, C }}
            enum Other {{ A(u16), B(u8, u8, u8, u8) }}
            enum Code {{ A = 1, B = 0x8000_0005 }}
            "
        ))
        .finds(&[("kept_writer::planted", size)]);
    }
    planted("fn planted(spare: [[u16; 3]; 4]) -> u8 { 0 }")
        .finds(&[("kept_writer::planted", 24), ("kept_writer::planted", 6)]);
}

#[test]
fn of_a_literal_whose_type_is_declared() {
    // by a `let`, by the function's result, by a parameter, by a field
    planted("fn planted(n: usize) -> u8 { let mut spare: [u8; 15] = [0; 15]; spare[n] }")
        .finds(&[("kept_writer::planted", 15)]);
    planted("fn planted(n: usize) -> [u8; 15] { if n == 0 { return [n; 15]; } [0; 15] }")
        .finds(&[("kept_writer::planted", 15)]);
    planted("fn planted(n: usize) -> u8 { taken([0; 15], [n, n], n) } fn taken(x: [u8; 15], y: [u64; 2], n: usize) -> u8 { 0 }")
        .finds(&[("kept_writer::taken", 15), ("kept_writer::taken", 16)]);
    planted("fn planted(n: usize) -> Key { Key { id: [0; 15], n } } struct Key { id: [u8; 15], n: usize }")
        .finds(&[("kept_writer::Key", 15)]);
    planted("fn planted(n: usize) -> Id { let id: Id = [0; 15]; NONE } type Id = [u8; 15]; const NONE: Id = [0; 15];")
        .finds(&[("kept_writer::Id", 15)]);
    planted("fn planted(n: usize) -> u8 { let spare: [[u8; 2]; 2] = [[0, 0], [n, n]]; 0 }")
        .finds(&[("kept_writer::planted", 4), ("kept_writer::planted", 2)]);
    // and not by what stands before it otherwise
    planted("fn planted(n: usize) -> u8 { FIRST } const FIRST: u8 = [0u8; 17][3];")
        .finds(&[("kept_writer::FIRST", 17)]);
    planted("fn planted(n: usize) -> u8 { let spare: [u8; 4] = [[0u8; 4]; 17][3]; 0 }").finds(&[
        ("kept_writer::planted", 4),
        ("kept_writer::planted", 68),
        ("kept_writer::planted", 4),
    ]);
    planted("fn planted(n: usize) -> u8 { let spare; spare = [0; 3]; taken(&[0; 2]) } fn taken(x: &[u8]) -> u8 { 0 }")
        .finds(&[("kept_writer::planted", 24), ("kept_writer::planted", 16)]);
}

#[test]
fn not_of_slices_indices_comments_and_contracts() {
    planted(
        "
        /* [u8; 17] /* // */ [u8; 17] */ // [u8; 17]
        #[spare([u8; 17])]
        #[tactic(auto, using(le.table), unfolding(first))]
        fn planted<'a>(s: &'a mut [u8], versions: &[Version], key: Key) -> &'a [u8]
            ghost { [u8; 17] }
            requires { [u8; 17] }
            ensures named { [u8; 17] }
        {
            let first = s[key.0[1]] + key.0[first(1)];
            &s[1..s.len()]
        }
        #[derive(Clone, Copy)]
        struct Key(pub [u8; 2]);
        fn first(n: usize) -> usize { n }
        ",
    )
    .finds(&[("kept_writer::Key", 2)]);
    planted("struct Held { pub ghost n: { [u8; 17] }, ghost m: { [u8; 17] }, n: u8 } fn planted(h: [Held; 2]) -> u8 { 0 }")
        .finds(&[("kept_writer::planted", 2)]);
    planted("fn planted(n: usize) -> u8 { 0 } const N: usize = if ONE == 1 { 3 } else { 4 }; const ONE: usize = 1;")
        .finds(&[]);
}

// ---- What is not passed over.

#[test]
fn what_cannot_be_followed() {
    for (items, fault) in [
        (
            "fn planted(n: usize) -> u8 { std::num::first(n) }",
            "no source has std::num::first",
        ),
        (
            "fn planted(n: usize) -> u8 { first(n) }",
            "no source has first",
        ),
        (
            "fn planted(n: usize) -> u8 { first!(n) }",
            "no source has first",
        ),
        (
            "fn planted(n: usize) -> u8 { n.first() }",
            "no source has a method first",
        ),
        (
            "fn planted(n: usize) -> u8 { SPARE }",
            "no source has SPARE",
        ),
        ("fn planted(n: spare) -> u8 { 0 }", "no source has spare"),
        (
            "fn planted(first: fn(u8) -> u8) -> u8 { first(1) }",
            "no source has first",
        ),
        (
            "fn planted(n: u8) -> u8 { let first = |x: u8| x; first(n) }",
            "no source has first",
        ),
        (
            "fn planted(first: impl Fn(u8) -> u8) -> u8 { 0 }",
            "no source has Fn",
        ),
        ("fn planted<T>(n: T) -> u8 { 0 }", "no source has T"),
        (
            "trait First { fn first(self) -> u8; } fn planted(n: usize) -> u8 { 0 }",
            "not understood: trait First { fn first ( self ) -> u8; }",
        ),
        (
            "struct Held(u8); impl First for Held { const N: usize = 1; fn first(self) -> u8 { 0 } } fn planted(n: usize) -> u8 { 0 }",
            "not understood: const N : usize = 1; fn first ( self ) -> u8 { 0 }",
        ),
        (
            "struct Held(u8); impl First for Held { fn first(self) -> u8 { 0 } } fn planted(h: Held) -> u8 { h.first() }",
            "Self outside of an impl",
        ),
        (
            "struct Held(u8); impl First for Held { fn first() -> u8 { 0 } } fn planted(n: usize) -> u8 { Other::first() }",
            "no source has Other",
        ),
        (
            "fn planted(n: usize) -> u8 { u8::first(n) }",
            "no source has u8::first",
        ),
        (
            "fn planted(n: usize) -> u8 { Some::first(n) }",
            "no source has Some::first",
        ),
        ("fn planted(n: usize) -> u8 { let x: spare = 0; 0 }", "no source has spare"),
        (
            "struct R<'a> { s: &'a [u8] } impl<'a> R<'a> { fn first(n: usize) -> u8 { 0 } } fn planted(n: usize) -> u8 { R::<'_>::first(n) }",
            "not understood: R :: < '_ > :: first ( n ) }",
        ),
        (
            "use io::io; fn planted(n: usize) -> u8 { io[n] }",
            "no source has io::io",
        ),
        (
            "use le::table; fn planted(n: usize) -> u8 { table[n] }",
            "no source has le::table",
        ),
        (
            "use le::*; fn planted(n: usize) -> u8 { 0 }",
            "not understood: use le :: *",
        ),
        (
            "fn planted(n: usize) -> u8 { br\"first\"[n] }",
            "not understood: \"first\"",
        ),
        (
            "struct Held<'a>(&'a u8, [u8; 17]) where 'a: 'a; fn planted(n: usize) -> u8 { 0 }",
            "not understood: Held < 'a > ( & 'a u8, [u8; 17] ) where 'a : 'a",
        ),
        (
            "enum Found { A = [1u8; 17][3] as isize, B } fn planted(n: usize) -> u8 { 0 }",
            "not understood: A = [1u8; 17] [3] as isize",
        ),
        (
            "struct Held { ghost n + 1: { u8 } } fn planted(n: usize) -> u8 { 0 }",
            "not understood: n + 1:",
        ),
        (
            "fn planted(n: usize) -> u8 { br#\"C\"#[n] }",
            "not understood: \"C\"",
        ),
        (
            "static SPARE: u8 = 0; fn planted(n: usize) -> u8 { SPARE }",
            "not understood: static SPARE : u8 = 0",
        ),
    ] {
        planted(items).fails(fault);
    }
}

#[test]
fn what_a_name_stands_for_twice() {
    let there = "mod a { pub fn spare(n: usize) -> u8 { let x = [0u8; 17]; x[n] } } mod b { pub struct spare { x: u8 } }";
    let twice = "kept_writer::spare is there twice";
    for (items, fault) in [
        (
            "struct spare { x: u8 } use a::spare; fn planted(n: usize) -> u8 { spare(n) }",
            twice,
        ),
        (
            "use a::spare; use b::spare; fn planted(n: usize) -> u8 { spare(n) }",
            twice,
        ),
        (
            "mod spare { } use a::spare; fn planted(n: usize) -> u8 { spare[n] }",
            twice,
        ),
        (
            "use a::spare; mod spare { } fn planted(n: usize) -> u8 { spare[n] }",
            twice,
        ),
        (
            "mod le { } use le::put; fn planted(n: usize) -> u8 { put(n) }",
            "le is in kept_writer, and a crate",
        ),
        (
            "use b::spare as Found; fn planted(n: usize) -> u8 { Found::first(n) }",
            "no source has Found::first",
        ),
        (
            "use b::spare; impl spare { fn first() { } } fn planted(n: usize) -> u8 { 0 }",
            "no type of that module",
        ),
        (
            "enum Found { A } fn planted(n: usize) -> u8 { Found::first(n) }",
            "no source has Found::first",
        ),
        (
            "enum Found { A([u8; 17]) } impl Found { fn A(n: [u8; 4]) -> u8 { 0 } } fn planted(n: usize) -> u8 { let x = Found::A([0; 17]); 0 }",
            "kept_writer::Found::A is there twice",
        ),
        (
            "type u8 = u64; fn planted(n: usize) -> u8 { 0 }",
            "kept_writer::u8 has the name of a number's type",
        ),
        (
            "use b::spare as u8; fn planted(n: usize) -> u8 { 0 }",
            "kept_writer::u8 has the name of a number's type",
        ),
    ] {
        planted(&format!("{there} {items}")).fails(fault);
    }
    for module in ["mod spare; use a::spare;", "use a::spare; mod spare;"] {
        planted(&format!(
            "{there} {module} fn planted(n: usize) -> u8 {{ spare[n] }}"
        ))
        .module("kept_writer/src/spare.rt", "")
        .fails(twice);
    }
}

#[test]
fn what_cannot_be_sized() {
    for array in [
        "[n; 4]",
        "[n, n]",
        "[&n, &n, &n]",
        "[Found::A]",
        "[u8; 16]",
        "[n << n as u8; 2]",
        "[Found::first(n), Found::first(n)]",
        "[0u8; planted(1)]",
        "[0u8; 1 << 4]",
        "[0u8; ONE << 5]",
        "[0u8; (ONE < 2) as usize]",
        "[[0u8; 2][n]; 2]",
    ] {
        let found = "const ONE: usize = 1; enum Found { A, B(u64) } impl Found { fn first(n: usize) -> u64 { 0 } }";
        planted(&format!(
            "{found} fn planted(n: usize) -> u8 {{ let spare = {array}; 0 }}"
        ))
        .fails(" cannot be told");
    }
}

#[test]
fn what_a_contract_may_hide() {
    for clause in [
        "IfOk result (λ b'. b'.now ≡ b'.now)",
        "length s.now < 2 ^ 63",
        "result ≡ record { at = 1 }",
    ] {
        planted(&format!(
            "
            fn planted(n: usize) -> u8
                ensures {{ {clause} }}
            {{ let spare = [0u8; 17]; spare[n] }}
            fn other(n: usize) -> u8
                requires named {{ {clause} }}
                ensures first {{ {clause} }}
                ensures second {{ {clause} }}
            {{ 0 }}
            "
        ))
        .finds(&[("kept_writer::planted", 17)]);
    }
    planted(
        "
        ghost use
        Rattle.std.specs.Prelude.{◌≡◌, ◌∷◌, []};
        fn planted(n: usize) -> u8 { let spare = [0u8; 17]; spare[n] }
        ",
    )
    .finds(&[("kept_writer::planted", 17)]);
    for sign in ["--", "{-", "//", "/*", "\"", "'{'"] {
        let clause = format!("fn planted(n: usize) -> u8 ensures {{ {sign} }}\n {{ 0 }} }}");
        let answer = planted(&clause).search();
        assert!(
            !answer.passes && answer.fault.contains(" in a contract"),
            "{}",
            answer.fault
        );
    }
}
