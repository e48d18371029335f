//! Time of each call, library against model, on the same input in one run: `cargo bench`.
//!
//! Both sides are built for release and called through the same kind of closure. A case is measured in rounds; each round times
//! the library and then the model over the same number of calls, and the table shows the median round of each side and the
//! median of the rounds' ratios. Rings, tables, inputs and outputs are prepared before a round; no buffer is cleared between calls.

use std::hint::black_box;
use std::time::{Duration, Instant};

const ID: u64 = 7;
const ROUNDS: usize = 21;
const ROUND: Duration = Duration::from_millis(12);
const CLOSED: u32 = 0x8000_0000;

/// The medians of nanoseconds a call, of library and model, and of the rounds' ratios.
struct Timed {
    library: f64,
    model: f64,
    ratio: f64,
}

fn nanoseconds(calls: u32, mut call: impl FnMut()) -> f64 {
    let start = Instant::now();
    for _ in 0..calls {
        call();
    }
    start.elapsed().as_nanos() as f64 / f64::from(calls)
}

fn median(mut xs: Vec<f64>) -> f64 {
    xs.sort_by(f64::total_cmp);
    xs[xs.len() / 2]
}

fn measure(mut library: impl FnMut(), mut model: impl FnMut()) -> Timed {
    // as many calls as fill a round, and a warm cache for both sides
    let once = nanoseconds(16, &mut model)
        .max(nanoseconds(16, &mut library))
        .max(1.0);
    let calls = (ROUND.as_nanos() as f64 / once).clamp(1.0, 4e6) as u32;
    let (mut a, mut b, mut ratios) = (Vec::new(), Vec::new(), Vec::new());
    for round in 0..ROUNDS {
        // either side goes first in turn
        let (x, y) = if round % 2 == 0 {
            let x = nanoseconds(calls, &mut library);
            (x, nanoseconds(calls, &mut model))
        } else {
            let y = nanoseconds(calls, &mut model);
            (nanoseconds(calls, &mut library), y)
        };
        a.push(x);
        b.push(y);
        ratios.push(x / y);
    }
    Timed {
        library: median(a),
        model: median(b),
        ratio: median(ratios),
    }
}

fn row(name: &str, t: &Timed) {
    println!(
        "| {name} | {:.0} | {:.0} | {:.2} |",
        t.library, t.model, t.ratio
    );
}

fn heading(first: &str) {
    heading_beside(first, "model");
}

/// The heading of a table with something else than the model beside the library.
fn heading_beside(first: &str, other: &str) {
    println!("\n| {first} | library, ns | {other}, ns | ratio |\n|---|---:|---:|---:|");
}

/// The same journal on both sides.
struct Pair {
    library: lanhduxe::Volume,
    model: model::Volume,
    rings: [Vec<u8>; 2],
    usn: u64,
}

/// The ids of a file and its parent: such as version 2 can show, and wide ones.
const NARROW: (u128, u128) = (41, 5);
const WIDE: (u128, u128) = (41 << 64 | 41, 5 << 64 | 5);

const CHANGE: (u64, u32, u32, u32, u32) = (132_539_328_000_000_000, 0x100, 0, 0, 0x20);

/// The same change for both sides.
fn change((file, parent): (u128, u128)) -> (lanhduxe::Change, model::Change) {
    let (time, reason, source, security, attributes) = CHANGE;
    let library = lanhduxe::Change {
        file: file.into(),
        parent: parent.into(),
        time,
        reason,
        source,
        security,
        attributes,
    };
    let model = model::Change {
        file,
        parent,
        time,
        reason,
        source,
        security,
        attributes,
    };
    (library, model)
}

/// A name of `size` bytes: the letter a over and over, in units of 16 bits.
fn letters(size: usize) -> Vec<u8> {
    b"a\0".repeat(size / 2)
}

/// A ring of `capacity` bytes that has gone round more than once, full of records with names of `size` bytes.
fn full(capacity: usize, size: usize) -> Pair {
    full_of(capacity, size, NARROW)
}

/// The same with records of these ids.
fn full_of(capacity: usize, size: usize, ids: (u128, u128)) -> Pair {
    let mut p = Pair {
        library: lanhduxe::Volume {
            reparse: 1,
            points: 1,
            journal: 1,
            capacity: capacity as u64,
            ..Default::default()
        },
        model: model::Volume {
            reparse: 1,
            points: 1,
            journal: 1,
            capacity: capacity as u64,
            ..Default::default()
        },
        rings: [vec![0; capacity], vec![0; capacity]],
        usn: 0,
    };
    assert_eq!(p.library.create(ID), lanhduxe::Status::Success);
    assert_eq!(model::create(&mut p.model, ID), model::status::SUCCESS);
    let name = letters(size);
    let posts = 5 * capacity / (2 * (76 + size)) + 2;
    for _ in 0..posts {
        post_both(&mut p, ids, &name);
    }
    assert!(
        p.rings[0] == p.rings[1]
            && p.library.first == p.model.first
            && p.library.last == p.model.last
    );
    p
}

fn post_both(p: &mut Pair, ids: (u128, u128), name: &[u8]) {
    let [a, b] = &mut p.rings;
    let (c, d) = change(ids);
    assert_eq!(
        p.library.post(a, &c, name, &mut p.usn),
        lanhduxe::Status::Success
    );
    assert_eq!(
        model::post(&mut p.model, b, &d, name, &mut p.usn),
        model::status::SUCCESS
    );
}

fn posts(capacity: usize, size: usize) -> Timed {
    let mut p = full(capacity, size);
    let name = letters(size);
    let [a, b] = &mut p.rings;
    let (c, d) = change(NARROW);
    let (mut u, mut w) = (0, 0);
    let (v, m) = (&mut p.library, &mut p.model);
    measure(
        || {
            black_box(v.post(black_box(a), black_box(&c), black_box(&name), &mut u));
        },
        || {
            black_box(model::post(
                m,
                black_box(b),
                black_box(&d),
                black_box(&name),
                &mut w,
            ));
        },
    )
}

/// A read's input from the oldest kept record on.
fn input(mask: u32, version: u16) -> [u8; 48] {
    let mut s = [0; 48];
    s[8..12].copy_from_slice(&mask.to_le_bytes());
    s[32..40].copy_from_slice(&ID.to_le_bytes());
    s[40..42].copy_from_slice(&version.to_le_bytes());
    s[42..44].copy_from_slice(&version.to_le_bytes());
    s
}

fn reads(p: &Pair, mask: u32, version: u16) -> Timed {
    let s = input(mask, version);
    let (mut a, mut b) = (vec![0; 65_536], vec![0; 65_536]);
    let x = p.library.read_journal(&p.rings[0], &s, &mut a);
    let y = model::read_journal(&p.model, &p.rings[1], &s, &mut b);
    assert!((x.status.number(), x.count) == y && a == b && y.0 == model::status::SUCCESS);
    measure(
        || {
            black_box(p.library.read_journal(
                black_box(&p.rings[0]),
                black_box(&s),
                black_box(&mut a),
            ));
        },
        || {
            black_box(model::read_journal(
                &p.model,
                black_box(&p.rings[1]),
                black_box(&s),
                black_box(&mut b),
            ));
        },
    )
}

fn saves(p: &Pair, form: u32) -> Timed {
    let room = p.rings[0].len() + 32;
    let (mut a, mut b) = (vec![0; room], vec![0; room]);
    let x = p.library.save_journal(&p.rings[0], form, &mut a);
    let y = model::save_journal(&p.model, &p.rings[1], form, &mut b);
    assert!((x.status.number(), x.count) == y && a == b && y.0 == model::status::SUCCESS);
    measure(
        || {
            black_box(p.library.save_journal(
                black_box(&p.rings[0]),
                black_box(form),
                black_box(&mut a),
            ));
        },
        || {
            black_box(model::save_journal(
                &p.model,
                black_box(&p.rings[1]),
                black_box(form),
                black_box(&mut b),
            ));
        },
    )
}

/// The journal's image in a form.
fn image(p: &Pair, form: u32) -> Vec<u8> {
    let mut image = vec![0; p.rings[0].len() + 32];
    let saved = p.library.save_journal(&p.rings[0], form, &mut image);
    assert_eq!(saved.status, lanhduxe::Status::Success);
    image.truncate(saved.count);
    image
}

/// Moves of the journal's image from a form to the other.
fn moves(p: &Pair, from: u32) -> Timed {
    let room = p.rings[0].len() + 32;
    let image = image(p, from);
    let (mut a, mut b) = (vec![0; room], vec![0; room]);
    let x = lanhduxe::move_image(&image, from, &mut a);
    let y = model::move_image(&image, from, &mut b);
    assert!((x.status.number(), x.count) == y && a == b && y.0 == model::status::SUCCESS);
    measure(
        || {
            black_box(lanhduxe::move_image(
                black_box(&image),
                black_box(from),
                black_box(&mut a),
            ));
        },
        || {
            black_box(model::move_image(
                black_box(&image),
                black_box(from),
                black_box(&mut b),
            ));
        },
    )
}

/// Loads of the journal's image in a form, each into a record without a journal.
fn loads(p: &Pair, form: u32) -> Timed {
    let capacity = p.library.capacity;
    let image = &image(p, form)[..];
    let mut rings = [vec![0; capacity as usize], vec![0; capacity as usize]];
    let [a, b] = &mut rings;
    let idle = lanhduxe::Volume {
        journal: 1,
        capacity,
        ..Default::default()
    };
    let same = model::Volume {
        journal: 1,
        capacity,
        ..Default::default()
    };
    let (mut v, mut m) = (idle, same);
    let x = v.load_journal(a, image, ID + 1);
    let y = model::load_journal(&mut m, b, image, ID + 1);
    assert!(x.number() == y && a == b && v.last == m.last && y == model::status::SUCCESS);
    measure(
        || {
            let mut v = black_box(idle);
            black_box(v.load_journal(black_box(a), black_box(image), ID + 1));
            black_box(v);
        },
        || {
            let mut m = black_box(same);
            black_box(model::load_journal(
                &mut m,
                black_box(b),
                black_box(image),
                ID + 1,
            ));
            black_box(m);
        },
    )
}

fn walks(p: &Pair, version: u16) -> Timed {
    let mut reply = vec![0; 65_536];
    let x = p
        .library
        .read_journal(&p.rings[0], &input(!0, version), &mut reply);
    let reply = &reply[..x.count];
    let y = lanhduxe::walk_reply(reply).expect("a whole reply");
    assert_eq!(model::walk_reply(reply), Ok((y.position, y.count)));
    measure(
        || {
            let _ = black_box(lanhduxe::walk_reply(black_box(reply)));
        },
        || {
            let _ = black_box(model::walk_reply(black_box(reply)));
        },
    )
}

struct Disk {
    library: lanhduxe::Volume,
    model: model::Volume,
    file: lanhduxe::FileRecord,
    same: model::File,
}

fn disk() -> Disk {
    let guid = [9; 16];
    Disk {
        library: lanhduxe::Volume {
            usn: 1,
            regions: 1,
            reparse: 1,
            points: 1,
            ..Default::default()
        },
        model: model::Volume {
            usn: 1,
            regions: 1,
            reparse: 1,
            points: 1,
            ..Default::default()
        },
        file: lanhduxe::FileRecord {
            id: lanhduxe::FileId::new(NARROW.0),
            usn: 1024,
            eof: 100,
            valid: 60,
            attributes: 32,
            tag: 0xA000_000C,
            guid,
            length: 0,
        },
        same: model::File {
            id: NARROW.0,
            usn: 1024,
            eof: 100,
            valid: 60,
            attributes: 32,
            tag: 0xA000_000C,
            guid,
            length: 0,
        },
    }
}

fn file_reads() -> Timed {
    let d = disk();
    let (parent, same_parent) = (lanhduxe::FileId::new(NARROW.1), NARROW.1);
    let pool = letters(64);
    let links = [
        lanhduxe::Link {
            place: 0,
            length: 24,
            short: 0,
        },
        lanhduxe::Link {
            place: 24,
            length: 40,
            short: 12,
        },
    ];
    let same = [
        model::Link {
            place: 0,
            length: 24,
            short: 0,
        },
        model::Link {
            place: 24,
            length: 40,
            short: 12,
        },
    ];
    let input = [2, 0, 3, 0];
    let (mut a, mut b) = ([0; 600], [0; 600]);
    let x = d
        .library
        .read_file(&d.file, parent, &pool, &links, &input, &mut a);
    let y = model::read_file(&d.model, &d.same, same_parent, &pool, &same, &input, &mut b);
    assert!((x.status.number(), x.count) == y && a == b && x.count == 120);
    measure(
        || {
            black_box(d.library.read_file(
                black_box(&d.file),
                black_box(parent),
                black_box(&pool),
                black_box(&links),
                black_box(&input),
                black_box(&mut a),
            ));
        },
        || {
            black_box(model::read_file(
                &d.model,
                black_box(&d.same),
                black_box(same_parent),
                black_box(&pool),
                black_box(&same),
                black_box(&input),
                black_box(&mut b),
            ));
        },
    )
}

/// All of a file with two regions, whose reply into `room` bytes has `count`.
fn regions(room: usize, count: usize) -> Timed {
    let d = disk();
    let (mut a, mut b) = (vec![0; room], vec![0; room]);
    let x = d.library.query_file_regions(&d.file, &[], &mut a);
    let y = model::query_file_regions(&d.model, &d.same, &[], &mut b);
    assert!((x.status.number(), x.count) == y && a == b && x.count == count);
    measure(
        || {
            black_box(
                d.library
                    .query_file_regions(black_box(&d.file), &[], black_box(&mut a)),
            );
        },
        || {
            black_box(model::query_file_regions(
                &d.model,
                black_box(&d.same),
                &[],
                black_box(&mut b),
            ));
        },
    )
}

/// Memory from the start of a page on. How long a copy of 16 KiB takes depends on where in their pages its two ends lie: with these it is
/// the same for both sides, what is read at the start of a page and what is written from its middle on.
#[repr(align(4096))]
struct Pages([u8; 20_480]);

impl Pages {
    fn new() -> Box<Pages> {
        Box::new(Pages([7; 20_480]))
    }

    /// A buffer to be read.
    fn source(&self, length: usize) -> &[u8] {
        &self.0[..length]
    }

    /// A buffer to be written.
    fn target(&mut self, length: usize) -> &mut [u8] {
        &mut self.0[2_048..][..length]
    }
}

/// A Microsoft point with so much data.
fn point(length: usize) -> Vec<u8> {
    let mut point = 0xA000_000C_u32.to_le_bytes().to_vec();
    point.extend((length as u32).to_le_bytes());
    point.resize(8 + length, 7);
    point
}

fn reparse_points(length: usize) -> Timed {
    let mut d = disk();
    (d.file.length, d.same.length) = (length as u64, length as u64);
    let (memory, mut outputs) = (Pages::new(), [Pages::new(), Pages::new()]);
    let store = memory.source(16_376);
    let [a, b] = outputs.each_mut().map(|output| output.target(16_384));
    let x = d.library.get_reparse_point(&d.file, store, a);
    let y = model::get_reparse_point(&d.model, &d.same, store, b);
    assert!((x.status.number(), x.count) == y && a == b && a[..x.count] == point(length));
    measure(
        || {
            black_box(d.library.get_reparse_point(
                black_box(&d.file),
                black_box(store),
                black_box(a),
            ));
        },
        || {
            black_box(model::get_reparse_point(
                &d.model,
                black_box(&d.same),
                black_box(store),
                black_box(b),
            ));
        },
    )
}

/// What a call does to a file's point.
#[derive(Clone, Copy)]
enum To {
    Set,
    Delete,
}

/// Sets or deletes the point of a file that has one, with so much data in the input, and a name of 24 bytes for the post.
fn points(mut p: Pair, to: To, length: usize) -> Timed {
    let d = disk();
    let (c, e) = change(NARROW);
    let (mut memory, mut stores) = (Pages::new(), [Pages::new(), Pages::new()]);
    memory.0[..8 + length].copy_from_slice(&point(length));
    let (name, input) = (&letters(24)[..], memory.source(8 + length));
    let [a, b] = &mut p.rings;
    let [s, t] = stores.each_mut().map(|store| store.target(16_376));
    let (v, m) = (&mut p.library, &mut p.model);
    let mut library = || {
        let mut f = black_box(d.file);
        let (a, s, c) = (black_box(&mut *a), black_box(&mut *s), black_box(&c));
        let (name, input) = (black_box(name), black_box(input));
        let status = match to {
            To::Set => v.set_reparse_point(a, &mut f, s, c, name, input),
            To::Delete => v.delete_reparse_point(a, &mut f, s, c, name, input),
        };
        black_box(f);
        black_box(status)
    };
    let mut model = || {
        let mut f = black_box(d.same);
        let (b, t, e) = (black_box(&mut *b), black_box(&mut *t), black_box(&e));
        let (name, input) = (black_box(name), black_box(input));
        let status = match to {
            To::Set => model::set_reparse_point(m, b, &mut f, t, e, name, input),
            To::Delete => model::delete_reparse_point(m, b, &mut f, t, e, name, input),
        };
        black_box(f);
        black_box(status)
    };
    assert_eq!(library(), lanhduxe::Status::Success);
    assert_eq!(model(), model::status::SUCCESS);
    let timed = measure(
        || {
            library();
        },
        || {
            model();
        },
    );
    // both sides were called as often
    assert!(p.rings[0] == p.rings[1] && p.library.last == p.model.last);
    assert!(s == t && s.starts_with(&input[8..]));
    timed
}

/// Sets of points with much and with little data, and deletes.
fn rows_of_points(where_posted: &str, p: impl Fn() -> Pair) {
    for (call, to, length) in [
        ("set of a reparse point of 16 KiB", To::Set, 16_376),
        ("set of a reparse point of 28 bytes", To::Set, 20),
        ("delete of a reparse point", To::Delete, 0),
    ] {
        row(&format!("{call}, {where_posted}"), &points(p(), to, length));
    }
}

/// A pair without support for a journal, where posts are skipped.
fn without_journal() -> Pair {
    let mut p = full(1_024, 24);
    (p.library.journal, p.model.journal) = (0, 0);
    p
}

/// A table of files, the same for both sides, and the pool of their names.
struct Files {
    library: Vec<lanhduxe::Entry>,
    model: Vec<model::Entry>,
    pool: Vec<u8>,
}

/// So many files by rising id, with names of 20 to 30 bytes.
fn rising(count: usize) -> Files {
    let mut f = Files {
        library: Vec::new(),
        model: Vec::new(),
        pool: Vec::new(),
    };
    for number in 0..count {
        let name = letters(20 + 2 * (number % 6));
        let (id, parent) = (3 * number as u128, NARROW.1);
        let (name_length, name_place) = (name.len() as u32, f.pool.len() as u64);
        f.pool.extend(name);
        f.library.push(lanhduxe::Entry {
            id: id.into(),
            parent: parent.into(),
            usn: 1024,
            attributes: 32,
            name_length,
            name_place,
        });
        f.model.push(model::Entry {
            id,
            parent,
            usn: 1024,
            attributes: 32,
            name_length,
            name_place,
        });
    }
    f
}

/// The same files in no order.
fn shuffled(count: usize) -> Files {
    let mut f = rising(count);
    let mut state = 1u64;
    for place in 1..count {
        state = state
            .wrapping_mul(6364136223846793005)
            .wrapping_add(1442695040888963407);
        let other = (state >> 33) as usize % (place + 1);
        f.library.swap(place, other);
        f.model.swap(place, other);
    }
    f
}

/// The input of an enumeration from an id on, of any Usn, in version 3.
fn from_id(start: u64) -> [u8; 32] {
    let mut s = [0; 32];
    s[..8].copy_from_slice(&start.to_le_bytes());
    s[16..24].copy_from_slice(&i64::MAX.to_le_bytes());
    (s[24], s[26]) = (2, 3);
    s
}

/// Bytes of an enumeration's output.
const PAGE: usize = 65_536;

/// The two volumes that support an enumeration.
fn volumes() -> (lanhduxe::Volume, model::Volume) {
    let library = lanhduxe::Volume {
        journal: 1,
        ..Default::default()
    };
    let model = model::Volume {
        usn: 1,
        journal: 1,
        ..Default::default()
    };
    (library, model)
}

/// A status and a count of an enumeration with this input into this output.
trait Enumerate: FnMut(&[u8; 32], &mut [u8]) -> (u32, usize) {}

impl<F: FnMut(&[u8; 32], &mut [u8]) -> (u32, usize)> Enumerate for F {}

fn by_library<'a>(f: &'a Files) -> impl Enumerate + 'a {
    let (v, _) = volumes();
    move |input, output| {
        let answer = v.enumerate_files(
            black_box(&f.library),
            black_box(&f.pool),
            black_box(input),
            black_box(output),
        );
        (answer.status.number(), answer.count)
    }
}

fn by_model<'a>(f: &'a Files) -> impl Enumerate + 'a {
    let (_, v) = volumes();
    move |input, output| {
        model::enumerate(
            &v,
            black_box(&f.model),
            black_box(&f.pool),
            black_box(input),
            black_box(output),
        )
    }
}

/// By plain Rust that has no memory of its own either.
fn by_searching<'a>(f: &'a Files) -> impl Enumerate + 'a {
    let (_, v) = volumes();
    move |input, output| {
        search(
            &v,
            black_box(&f.model),
            black_box(&f.pool),
            black_box(input),
            black_box(output),
        )
    }
}

/// An enumeration that allocates nothing and wants no order: every two ids are compared, and for each record all files are searched for
/// the one with the next id. A record is written as that of a file read.
fn search(
    v: &model::Volume,
    table: &[model::Entry],
    pool: &[u8],
    input: &[u8; 32],
    output: &mut [u8],
) -> (u32, usize) {
    if v.journal == 0 {
        return (model::status::INVALID_DEVICE_REQUEST, 0);
    }
    if !is_sound(table, pool) {
        return (model::status::FILE_CORRUPT_ERROR, 0);
    }
    let narrow = u128::from(u64::MAX);
    let number = |at: usize| u64::from_le_bytes(input[at..at + 8].try_into().unwrap());
    let (low, high) = (number(8) as i64, number(16) as i64);
    let (mut next, mut count) = (u128::from(number(0)), 8);
    loop {
        let selected = table.iter().filter(|file| {
            (next..=narrow).contains(&file.id)
                && file.parent <= narrow
                && (low..=high).contains(&(file.usn as i64))
        });
        let Some(file) = selected.min_by_key(|file| file.id) else {
            break;
        };
        let record = model::File {
            id: file.id,
            usn: file.usn,
            attributes: file.attributes,
            ..Default::default()
        };
        let link = model::Link {
            place: file.name_place as u32,
            length: file.name_length,
            short: 0,
        };
        let rest = &mut output[count..];
        let (status, written) =
            model::read_file(v, &record, file.parent, pool, &[link], &input[24..], rest);
        next = file.id;
        match status {
            model::status::SUCCESS => (next, count) = (next + 1, count + written),
            _ if count == 8 => return (status, 0),
            _ => break,
        }
    }
    if count == 8 {
        return (model::status::END_OF_FILE, 0);
    }
    output[..8].copy_from_slice(&(next as u64).to_le_bytes());
    (model::status::SUCCESS, count)
}

/// Whether every file of a table is right and no id stands twice: every two are compared.
fn is_sound(table: &[model::Entry], pool: &[u8]) -> bool {
    let good = |place: usize| {
        let file = &table[place];
        file.usn >> 63 == 0
            && file.id != u128::from(u64::MAX)
            && has_good_name(file, pool)
            && table[..place].iter().all(|other| other.id != file.id)
    };
    (0..table.len()).all(good)
}

/// Whether a file's name lies in the pool and is one that a file may have.
fn has_good_name(file: &model::Entry, pool: &[u8]) -> bool {
    let (place, length) = (file.name_place as usize, file.name_length as usize);
    let name = pool.get(place..).and_then(|rest| rest.get(..length));
    let is_excluded =
        |unit: &[u8]| [0, 0x2F, 0x5C].contains(&u16::from_le_bytes([unit[0], unit[1]]));
    length <= 510
        && length.is_multiple_of(2)
        && name.is_some_and(|name| !name.chunks_exact(2).any(is_excluded))
}

/// One call from the first file on.
fn first_page(mut library: impl Enumerate, mut other: impl Enumerate) -> Timed {
    let (mut a, mut b) = (vec![0; PAGE], vec![0; PAGE]);
    let input = from_id(0);
    let x = library(&input, &mut a);
    let y = other(&input, &mut b);
    assert!(x == y && a == b && y.0 == model::status::SUCCESS && y.1 > 8);
    measure(
        || {
            black_box(library(&input, &mut a));
        },
        || {
            black_box(other(&input, &mut b));
        },
    )
}

/// Goes by pages to the end, and gives the bytes of all.
fn to_the_end(call: &mut impl Enumerate, output: &mut [u8], mut page: impl FnMut(&[u8])) -> usize {
    let (mut input, mut bytes) = (from_id(0), 0);
    loop {
        let (status, count) = call(&input, output);
        if status == model::status::END_OF_FILE {
            return bytes;
        }
        assert_eq!(status, model::status::SUCCESS);
        page(&output[..count]);
        input[..8].copy_from_slice(&output[..8]);
        bytes += count;
    }
}

/// All files by pages.
fn all_pages(mut library: impl Enumerate, mut other: impl Enumerate) -> Timed {
    let (mut a, mut b) = (vec![0; PAGE], vec![0; PAGE]);
    let (mut x, mut y) = (Vec::new(), Vec::new());
    to_the_end(&mut library, &mut a, |page| x.extend_from_slice(page));
    to_the_end(&mut other, &mut b, |page| y.extend_from_slice(page));
    assert!(x == y && !x.is_empty());
    measure(
        || {
            black_box(to_the_end(&mut library, &mut a, |_| {}));
        },
        || {
            black_box(to_the_end(&mut other, &mut b, |_| {}));
        },
    )
}

/// Enumerations of tables that grow.
fn tables_of_files() {
    let counts = [1_000, 10_000, 40_000];
    heading("enumeration of files by rising id, one call into 64 KiB, files");
    for count in counts {
        let f = rising(count);
        row(
            &count.to_string(),
            &first_page(by_library(&f), by_model(&f)),
        );
    }
    heading("enumeration of files by rising id, all pages of 64 KiB, files");
    for count in counts {
        let f = rising(count);
        row(&count.to_string(), &all_pages(by_library(&f), by_model(&f)));
    }
    let counts = [500, 1_000, 2_000];
    let in_no_order = "enumeration of files in no order, one call into 64 KiB, files";
    heading_beside(in_no_order, "plain Rust that allocates nothing");
    for count in counts {
        let f = shuffled(count);
        row(
            &count.to_string(),
            &first_page(by_library(&f), by_searching(&f)),
        );
    }
    heading_beside(in_no_order, "model, which sorts");
    for count in counts {
        let f = shuffled(count);
        row(
            &count.to_string(),
            &first_page(by_library(&f), by_model(&f)),
        );
    }
}

/// The root of all paths, which is not in the table.
const ROOT: u128 = 1;

/// The steps from the deepest file up to the root, as many as there may be.
const DEPTH: usize = 64;

/// Puts 64 files of a table, spread over all of it, into one another, and the first into the root. Gives the id of the deepest.
fn nest(f: &mut Files) -> u128 {
    let apart = 3 * (f.model.len() / DEPTH);
    let id_at = |depth: usize| (apart * depth) as u128;
    for depth in 0..DEPTH {
        let place = f.model.iter().position(|file| file.id == id_at(depth));
        let place = place.expect("a file at this depth");
        let parent = if depth == 0 { ROOT } else { id_at(depth - 1) };
        f.model[place].parent = parent;
        f.library[place].parent = parent.into();
    }
    id_at(DEPTH - 1)
}

/// A path that allocates nothing and wants no order: every two ids are compared, and for each step all files are searched.
fn climb(
    table: &[model::Entry],
    pool: &[u8],
    id: u128,
    root: u128,
    output: &mut [u8],
) -> (u32, usize) {
    if !is_sound(table, pool) {
        return (model::status::FILE_CORRUPT_ERROR, 0);
    }
    let mut names = [&[][..]; DEPTH];
    let (mut steps, mut length, mut next) = (0, 0, id);
    while next != root {
        if steps == DEPTH {
            return (model::status::NAME_TOO_LONG, 0);
        }
        let Some(file) = table.iter().find(|file| file.id == next) else {
            return (model::status::OBJECT_PATH_NOT_FOUND, 0);
        };
        names[steps] = &pool[file.name_place as usize..][..file.name_length as usize];
        length += names[steps].len() + if steps > 0 { 2 } else { 0 };
        next = file.parent;
        steps += 1;
    }
    if length > output.len() {
        return (model::status::BUFFER_TOO_SMALL, 0);
    }
    let mut at = 0;
    for (place, name) in names[..steps].iter().rev().enumerate() {
        if place > 0 {
            output[at..at + 2].copy_from_slice(&[0x5C, 0]);
            at += 2;
        }
        output[at..at + name.len()].copy_from_slice(name);
        at += name.len();
    }
    (model::status::SUCCESS, length)
}

/// The path of the deepest file of a table, by the library and by something else.
fn paths(
    mut f: Files,
    other: impl Fn(&[model::Entry], &[u8], u128, u128, &mut [u8]) -> (u32, usize),
) -> Timed {
    let deepest = nest(&mut f);
    let (id, root) = (deepest.into(), ROOT.into());
    let (mut a, mut b) = (vec![0; PAGE], vec![0; PAGE]);
    let x = lanhduxe::file_path(&f.library, &f.pool, id, root, &mut a);
    let y = other(&f.model, &f.pool, deepest, ROOT, &mut b);
    assert!((x.status.number(), x.count) == y && a == b && y.0 == model::status::SUCCESS);
    // names of 20 bytes and more, and what is between them
    assert!(x.count >= 20 * DEPTH + 2 * (DEPTH - 1));
    measure(
        || {
            black_box(lanhduxe::file_path(
                black_box(&f.library),
                black_box(&f.pool),
                black_box(id),
                black_box(root),
                black_box(&mut a),
            ));
        },
        || {
            black_box(other(
                black_box(&f.model),
                black_box(&f.pool),
                black_box(deepest),
                black_box(ROOT),
                black_box(&mut b),
            ));
        },
    )
}

/// Paths in tables that grow.
fn paths_of_files() {
    heading("path of a file 64 steps below the root, files by rising id");
    for count in [1_000, 10_000, 40_000] {
        row(&count.to_string(), &paths(rising(count), model::file_path));
    }
    let in_no_order = "path of a file 64 steps below the root, files in no order";
    heading_beside(in_no_order, "plain Rust that allocates nothing");
    row("2000", &paths(shuffled(2_000), climb));
    heading_beside(in_no_order, "model, which sorts");
    row("2000", &paths(shuffled(2_000), model::file_path));
}

fn main() {
    heading("call");
    let post = posts(65_536, 2);
    row("post on a full ring of 64 KiB, name of 2 bytes", &post);
    for size in [24, 510] {
        row(
            &format!("post on a full ring of 64 KiB, name of {size} bytes"),
            &posts(65_536, size),
        );
    }
    let (short, usual, long) = (full(65_536, 2), full(65_536, 24), full(65_536, 510));
    for version in [2, 3] {
        row(
            &format!("read of a full ring into 64 KiB, names of 2 bytes, V{version}"),
            &reads(&short, !0, version),
        );
        row(
            &format!("read of a full ring into 64 KiB, names of 510 bytes, V{version}"),
            &reads(&long, !0, version),
        );
    }
    row(
        "read of a full ring into 64 KiB, names of 24 bytes, V3",
        &reads(&usual, !0, 3),
    );
    row(
        "read of a full ring into 64 KiB, names of 2 bytes, wide ids, V3",
        &reads(&full_of(65_536, 2, WIDE), !0, 3),
    );
    row(
        "read that selects nothing, names of 2 bytes",
        &reads(&short, CLOSED, 3),
    );
    row(
        "read that selects nothing, names of 510 bytes",
        &reads(&long, CLOSED, 3),
    );
    for (size, p) in [(2, &short), (24, &usual), (510, &long)] {
        row(
            &format!("save of a full ring of 64 KiB, names of {size} bytes"),
            &saves(p, 1),
        );
        row(
            &format!("load of a full ring of 64 KiB, names of {size} bytes"),
            &loads(p, 1),
        );
    }
    row(
        "save of a full ring of 64 KiB in form 2, names of 2 bytes",
        &saves(&short, 2),
    );
    row(
        "load of form 2, ring of 64 KiB, names of 2 bytes",
        &loads(&short, 2),
    );
    for (direction, from) in [("up", 1), ("down", 2)] {
        for (size, p) in [(2, &short), (24, &usual), (510, &long)] {
            row(
                &format!("move {direction} of a full image, names of {size} bytes"),
                &moves(p, from),
            );
        }
    }
    for version in [2, 3] {
        row(
            &format!("walk of a 64 KiB reply, names of 2 bytes, V{version}"),
            &walks(&short, version),
        );
    }
    row(
        "walk of a 64 KiB reply, names of 510 bytes, V3",
        &walks(&long, 3),
    );
    row("file read, two links", &file_reads());
    row("file regions, two regions", &regions(64, 64));
    row("file regions, one of two", &regions(63, 40));
    row("reparse point of 16 KiB", &reparse_points(16_376));
    row("reparse point of 28 bytes", &reparse_points(20));
    rows_of_points("no journal", without_journal);
    rows_of_points("posted to a full ring of 64 KiB, names of 24 bytes", || {
        full(65_536, 24)
    });

    heading("post on a full ring, name of 2 bytes, capacity");
    let capacities = [1_024, 2_048, 4_096, 8_192, 16_384, 32_768, 65_536];
    for c in capacities {
        row(&c.to_string(), &posts(c, 2));
    }
    heading("read of a full ring in V3, names of 2 bytes, capacity");
    for c in capacities {
        row(&c.to_string(), &reads(&full(c, 2), !0, 3));
    }
    heading("save of a full ring, names of 2 bytes, capacity");
    for c in capacities {
        row(&c.to_string(), &saves(&full(c, 2), 1));
    }
    heading("load of a full ring, names of 2 bytes, capacity");
    for c in capacities {
        row(&c.to_string(), &loads(&full(c, 2), 1));
    }
    tables_of_files();
    paths_of_files();
    println!(
        "\n30 posts a second on a full ring of 64 KiB take {:.4} % of a processor's time.",
        30.0 * post.library / 1e7
    );
}
