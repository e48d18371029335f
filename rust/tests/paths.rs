//! Paths of the files of a table: the library against the model on random calls, and
//! every rule by itself.
//!
//! But for the random calls, what is due is said here, and not by the model: bytes
//! that are written out, or the names that a plain climb meets.

mod common;

use common::journal::{gave, given, refused, Given};
use common::table::{damage, due_path, each_order, entry, good_table, model_table, name_of};
use common::table::{path, path_in_rows, rows, whole_path, Order, ORDERS};
use common::table::{ROW, SEPARATOR, STEPS, TOP};
use common::{check, expected, Counts, Hex, Lent, Rng, EXCLUDED, GUARD, NEGATIVE};
use lanhduxe::Status::{self, *};
use lanhduxe::{file_path, row_path, Answer, Entry, FileId};

/// A file in a folder, whose name is the pool's bytes from a place on.
fn child(id: u128, parent: u128, name_place: u64, name_length: u32) -> Entry {
    Entry {
        parent: FileId::new(parent),
        ..entry(id, 8, name_place, name_length)
    }
}

/// The path of the file with a number below the root with another.
fn path_of(table: &[Entry], pool: &[u8], id: u128, root: u128, room: usize) -> Given {
    path(table, pool, FileId::new(id), FileId::new(root), room)
}

// ---- Random tables.

/// How the files of a table hang together.
#[derive(Clone, Copy, Debug, PartialEq, Eq)]
enum Shape {
    /// Each one in the one before, the first in the root.
    Chain,
    /// Each one in some one before, or in the root.
    Tree,
    /// As a chain, but the first is in one of them.
    Loop,
    /// As a chain, but one of them is in a folder that is not in the table.
    Torn,
    /// Each one in any, or in the root.
    Any,
}

const SHAPES: [Shape; 5] = [
    Shape::Chain,
    Shape::Tree,
    Shape::Loop,
    Shape::Torn,
    Shape::Any,
];

/// An id that is not in the table, often nearly one that is, or 2^64 - 1.
fn no_file(rng: &mut Rng, table: &[Entry]) -> FileId {
    loop {
        let id = match rng.below(5) {
            0..=1 if !table.is_empty() => {
                FileId::new(rng.pick(table).id.number() ^ 1 << rng.below(128))
            }
            2 => FileId::new(TOP | u128::from(rng.below(2)) << 64),
            3 => common::wide_id(rng),
            _ => common::narrow_id(rng),
        };
        if table.iter().all(|file| file.id != id) {
            return id;
        }
    }
}

/// A table whose files hang together, and the root that most of them have.
struct Hung {
    table: Vec<Entry>,
    pool: Vec<u8>,
    order: Order,
    shape: Shape,
    /// The files' ids in the order in which they were hung.
    ids: Vec<FileId>,
    root: FileId,
}

impl Hung {
    /// So many files. Where they hang has nothing to do with where their rows stand.
    fn new(rng: &mut Rng, count: usize, order: Order, shape: Shape) -> Hung {
        let (mut table, pool) = good_table(rng, count, order);
        let root = no_file(rng, &table);
        let mut places: Vec<usize> = (0..count).collect();
        for place in 1..count {
            places.swap(place, rng.below(place as u64 + 1) as usize);
        }
        let ids: Vec<FileId> = places.iter().map(|place| table[*place].id).collect();
        let torn = rng.below(count.max(1) as u64) as usize;
        for (number, place) in places.into_iter().enumerate() {
            let before = number.checked_sub(1).map_or(root, |before| ids[before]);
            table[place].parent = match shape {
                Shape::Torn if number == torn => no_file(rng, &table),
                Shape::Loop if number == 0 => rng.pick(&ids),
                Shape::Tree if number > 0 && rng.percent(90) => rng.pick(&ids[..number]),
                Shape::Tree => root,
                Shape::Any if rng.percent(90) => rng.pick(&ids),
                Shape::Any => root,
                Shape::Chain | Shape::Torn | Shape::Loop => before,
            };
        }
        Hung {
            table,
            pool,
            order,
            shape,
            ids,
            root,
        }
    }

    /// Any table.
    fn any(rng: &mut Rng) -> Hung {
        let count = match rng.below(10) {
            0 => rng.below(3),
            1..=5 => rng.between(2, 20),
            6 => rng.between(20, 60),
            _ => rng.between(63, 80),
        };
        let (order, shape) = (rng.pick(&ORDERS), rng.pick(&SHAPES));
        Hung::new(rng, count as usize, order, shape)
    }

    /// A file and a root: most of them in the table, often as far apart as may be.
    fn ends(&self, rng: &mut Rng) -> (FileId, FileId) {
        let count = self.ids.len() as u64;
        if count == 0 {
            let one = no_file(rng, &self.table);
            return (one, rng.pick(&[one, self.root]));
        }
        let number = match rng.percent(50) {
            true => rng.below(count),
            false => count - 1 - rng.below(count.min(3)),
        } as usize;
        let id = match rng.below(20) {
            0 => self.root,
            1 => no_file(rng, &self.table),
            _ => self.ids[number],
        };
        let far = number.checked_sub(rng.between(63, 65) as usize);
        let root = match rng.below(20) {
            0 => id,
            1..=2 => no_file(rng, &self.table),
            3..=5 => rng.pick(&self.ids),
            6..=13 => far.map_or(self.root, |far| self.ids[far]),
            _ => self.root,
        };
        (id, root)
    }
}

/// A table as it is lent: structs, or bytes that begin anywhere and are whole rows or
/// not.
struct LentTable {
    structs: Vec<Entry>,
    model: Vec<model::Entry>,
    as_bytes: bool,
    before: usize,
    extra: usize,
    rows: Lent,
    pool: Lent,
}

impl LentTable {
    fn new(rng: &mut Rng, table: &[Entry], pool: &[u8]) -> LentTable {
        let as_bytes = rng.percent(50);
        let extra = match as_bytes && rng.percent(5) {
            true => rng.between(1, ROW as u64 - 1) as usize,
            false => 0,
        };
        let before = rng.below(9) as usize;
        let lent = [rng.bytes(before), rows(table), rng.bytes(extra)].concat();
        LentTable {
            structs: table.to_vec(),
            model: model_table(table),
            as_bytes,
            before,
            extra,
            rows: Lent::holding(rng, &lent),
            pool: Lent::holding(rng, pool),
        }
    }

    fn by_library(&self, id: FileId, root: FileId, output: &mut [u8]) -> Answer {
        let pool = &self.pool.library[..self.pool.length];
        match self.as_bytes {
            true => {
                let rows = &self.rows.library[self.before..self.rows.length];
                row_path(rows, pool, id, root, output)
            }
            false => file_path(&self.structs, pool, id, root, output),
        }
    }

    fn by_model(&self, id: FileId, root: FileId, output: &mut [u8]) -> (u32, usize) {
        if self.extra > 0 {
            return (model::status::FILE_CORRUPT_ERROR, 0);
        }
        let pool = &self.pool.before[..self.pool.length];
        model::file_path(&self.model, pool, id.number(), root.number(), output)
    }

    /// No call has changed anything.
    fn same(&self, table: &[Entry]) -> bool {
        self.rows.same() && self.pool.same() && self.structs == table
    }
}

/// An output's length, near that of the path.
fn room(rng: &mut Rng, length: usize) -> usize {
    let length = length as u64;
    let room = match rng.below(10) {
        0 => rng.below(4),
        1..=3 => length,
        4..=5 => length.saturating_sub(1),
        6 => length + 1,
        7 => rng.between(0, length),
        _ => length + rng.below(200),
    };
    room as usize
}

/// What the random calls have met: the orders of the tables with a path, the shapes
/// of them, paths of no step, of one, of more, and of the most; wide ids on the way;
/// and chains that are a step too long.
#[derive(Debug, Default)]
struct Seen {
    orders: [u64; 4],
    shapes: [u64; 5],
    none: u64,
    one: u64,
    more: u64,
    most: u64,
    wide: u64,
    too_long: u64,
}

impl Seen {
    /// Notes a path that was given, or was too long by one step.
    fn note(&mut self, hung: &Hung, id: FileId, root: FileId, status: Status) {
        let steps = steps(&hung.table, id, root);
        if status == NameTooLong {
            self.too_long += u64::from(steps == Some(STEPS + 1));
        }
        if status != Success {
            return;
        }
        let steps = steps.expect("a way to the root");
        self.orders[hung.order as usize] += 1;
        self.shapes[hung.shape as usize] += 1;
        self.wide += u64::from(steps > 1 && id.is_wide());
        match steps {
            0 => self.none += 1,
            1 => self.one += 1,
            STEPS => self.most += 1,
            _ => self.more += 1,
        }
    }

    fn finish(&self) {
        println!("{self:?}");
        let ways = [self.none, self.one, self.more, self.most];
        let others = [self.wide, self.too_long];
        let seen = [&self.orders[..], &self.shapes, &ways, &others].concat();
        assert!(seen.iter().all(|count| *count > 500), "{self:?}");
    }
}

/// The steps from an id to a root, up to a few more than a path may have.
fn steps(table: &[Entry], mut id: FileId, root: FileId) -> Option<usize> {
    for steps in 0..STEPS + 3 {
        if id == root {
            return Some(steps);
        }
        id = table.iter().find(|file| file.id == id)?.parent;
    }
    None
}

/// Half of the tables are structs, and half bytes, which begin anywhere and now and
/// then are not whole rows. Each one is asked for some paths.
#[test]
fn paths_agree_with_the_model() {
    const TEST: &str = "path";
    const TABLES: u64 = 30_000;
    const CALLS: u64 = 8;
    let mut rng = Rng::new(TEST);
    let mut counts = Counts::new(TEST);
    let mut seen = Seen::default();
    for index in 0..TABLES {
        let mut hung = Hung::any(&mut rng);
        let whole = hung.table.clone();
        if rng.percent(12) {
            damage(&mut rng, &mut hung.table, &mut hung.pool);
        }
        let lent = LentTable::new(&mut rng, &hung.table, &hung.pool);
        for call in 0..CALLS {
            let (id, root) = hung.ends(&mut rng);
            let length = whole_path(&whole, &hung.pool, id, root).map_or(0, |path| path.len());
            let room = room(&mut rng, length);
            let mut output = Lent::output(&mut rng, room);
            let answer = lent.by_library(id, root, output.for_library());
            let (status, count) = lent.by_model(id, root, output.for_model());
            counts.add(answer.status);
            check(
                answer.status.number() == status
                    && answer.count == count
                    && output.agrees(count)
                    && lent.same(&hung.table),
                TEST,
                CALLS * index + call,
                || {
                    format!(
                        "library {answer:?}, model {status:#x} {count}\n{:?} {:?} {:?}\n\
                         as bytes: {}, and {} bytes, pool {:?}\n{id:?} {root:?}\n\
                         output before {:?} (lent {room})\nlibrary's {:?}\nmodel's {:?}",
                        hung.order,
                        hung.shape,
                        hung.table,
                        lent.as_bytes,
                        lent.extra,
                        Hex(&hung.pool),
                        Hex(&output.before),
                        Hex(&output.library),
                        Hex(&output.model)
                    )
                },
            );
            seen.note(&hung, id, root, answer.status);
        }
    }
    counts.finish_often(&expected::PATH, TABLES * CALLS, 1000);
    seen.finish();
}

/// A file's path is that of its parent, a separator and its name; in the root it is
/// the name. Where the parent has none, neither has the file. With 40 files no way to
/// the root is too long.
#[test]
fn a_path_is_that_of_the_parent_and_the_name() {
    let mut rng = Rng::new("parents");
    // Files in the root, files below another, and files without a path.
    let (mut tops, mut joined, mut without) = (0, 0, 0);
    for round in 0..600 {
        let hung = Hung::new(&mut rng, 40, ORDERS[round % 4], SHAPES[round % 5]);
        let (table, pool) = (&hung.table, &hung.pool[..]);
        for file in table {
            let (above, parents) = path(table, pool, file.parent, hung.root, 1 << 15);
            let name = name_of(file, pool);
            let due = match above.status {
                Success if file.parent == hung.root => gave(name.to_vec()),
                Success => gave([&parents, &SEPARATOR[..], name].concat()),
                status => refused(status),
            };
            let room = due.1.len();
            assert_eq!(path(table, pool, file.id, hung.root, room), due, "{file:?}");
            match above.status {
                Success if file.parent == hung.root => tops += 1,
                Success => joined += 1,
                _ => without += 1,
            }
        }
    }
    println!("parents: {tops} in the root, {joined} below another, {without} without a path");
    assert!(tops > 500 && joined > 5000 && without > 5000);
}

// ---- Bytes that are written out.

/// Rows of the files 3, 7, 8 and 9, each in the one before, and 3 in 2. Their names
/// are b, a, none, and c and d.
#[rustfmt::skip]
const ROWS: [u8; 4 * ROW] = [
    3, 0, 0, 0, 0, 0, 0, 0, 0, 0, 0, 0, 0, 0, 0, 0,
    2, 0, 0, 0, 0, 0, 0, 0, 0, 0, 0, 0, 0, 0, 0, 0,
    0, 0, 0, 0, 0, 0, 0, 0, 0x10, 0, 0, 0, 2, 0, 0, 0, 2, 0, 0, 0, 0, 0, 0, 0,
    7, 0, 0, 0, 0, 0, 0, 0, 0, 0, 0, 0, 0, 0, 0, 0,
    3, 0, 0, 0, 0, 0, 0, 0, 0, 0, 0, 0, 0, 0, 0, 0,
    0, 0, 0, 0, 0, 0, 0, 0, 0x10, 0, 0, 0, 2, 0, 0, 0, 0, 0, 0, 0, 0, 0, 0, 0,
    8, 0, 0, 0, 0, 0, 0, 0, 0, 0, 0, 0, 0, 0, 0, 0,
    7, 0, 0, 0, 0, 0, 0, 0, 0, 0, 0, 0, 0, 0, 0, 0,
    0, 0, 0, 0, 0, 0, 0, 0, 0x10, 0, 0, 0, 0, 0, 0, 0, 8, 0, 0, 0, 0, 0, 0, 0,
    9, 0, 0, 0, 0, 0, 0, 0, 0, 0, 0, 0, 0, 0, 0, 0,
    8, 0, 0, 0, 0, 0, 0, 0, 0, 0, 0, 0, 0, 0, 0, 0,
    0x58, 0, 0, 0, 0, 0, 0, 0, 0x20, 0, 0, 0, 4, 0, 0, 0, 4, 0, 0, 0, 0, 0, 0, 0,
];

/// Their names' pool.
const POOL: [u8; 8] = [0x61, 0, 0x62, 0, 0x63, 0, 0x64, 0];

/// The id with this number.
fn numbered(number: u8) -> FileId {
    let mut id = FileId::default();
    id.bytes[0] = number;
    id
}

/// Each of these paths, with just the room that it takes, and with more.
#[test]
fn paths_byte_by_byte() {
    let paths: [(u8, u8, &[u8]); 12] = [
        (2, 2, &[]),
        (4, 4, &[]),
        (9, 9, &[]),
        (3, 2, &[0x62, 0]),
        (7, 2, &[0x62, 0, 0x5C, 0, 0x61, 0]),
        (7, 3, &[0x61, 0]),
        (8, 7, &[]),
        (8, 3, &[0x61, 0, 0x5C, 0]),
        (9, 8, &[0x63, 0, 0x64, 0]),
        (9, 7, &[0x5C, 0, 0x63, 0, 0x64, 0]),
        (9, 3, &[0x61, 0, 0x5C, 0, 0x5C, 0, 0x63, 0, 0x64, 0]),
        (
            9,
            2,
            &[
                0x62, 0, 0x5C, 0, 0x61, 0, 0x5C, 0, 0x5C, 0, 0x63, 0, 0x64, 0,
            ],
        ),
    ];
    for (id, root, due) in paths {
        for room in [due.len(), due.len() + 1, 100] {
            let given = path_in_rows(&ROWS, &POOL, numbered(id), numbered(root), room);
            assert_eq!(given, gave(due.to_vec()), "{id} {root} {room}");
        }
    }
    // Above 2 there is nothing, 4 is no file, and no way leads down.
    for (id, root) in [(2, 3), (9, 4), (4, 2), (4, 9), (3, 9), (8, 9)] {
        let given = path_in_rows(&ROWS, &POOL, numbered(id), numbered(root), 100);
        assert_eq!(given, refused(ObjectPathNotFound), "{id} {root}");
    }
}

/// 64 rows: the file 1 is in 0, and each next one in the one before. All are called a.
fn sixty_four() -> Vec<u8> {
    let mut bytes = vec![0; 64 * ROW];
    for (number, row) in bytes.chunks_exact_mut(ROW).enumerate() {
        row[0] = number as u8 + 1;
        row[16] = number as u8;
        row[44] = 2;
    }
    bytes
}

/// The 64th step reaches the root. Where it does not, the path is too long.
#[test]
fn the_last_step_byte_by_byte() {
    const A: [u8; 2] = [0x61, 0];
    let mut bytes = sixty_four();
    let mut due = A.to_vec();
    for _ in 0..63 {
        due.extend([0x5C, 0, 0x61, 0]);
    }
    assert_eq!(due.len(), 254);
    let given = path_in_rows(&bytes, &A, numbered(64), numbered(0), 254);
    assert_eq!(given, gave(due));
    let given = path_in_rows(&bytes, &A, numbered(64), numbered(0), 253);
    assert_eq!(given, refused(BufferTooSmall));
    // 64 steps lead to 0, which is in no row, and not the root.
    let given = path_in_rows(&bytes, &A, numbered(64), numbered(99), 254);
    assert_eq!(given, refused(NameTooLong));
    // From 63 there is a step left.
    let given = path_in_rows(&bytes, &A, numbered(63), numbered(99), 254);
    assert_eq!(given, refused(ObjectPathNotFound));
    // The first file is its own parent: 64 steps lead to it.
    bytes[16] = 1;
    for id in [1, 2, 64] {
        let given = path_in_rows(&bytes, &A, numbered(id), numbered(0), 254);
        assert_eq!(given, refused(NameTooLong), "{id}");
    }
}

// ---- Ways.

/// Six files: 4 and 9 in the root, which is 1, two of the others below them, one in a
/// folder that is not there, and one in itself.
fn small() -> [Entry; 6] {
    [
        child(4, 1, 0, 2),
        child(9, 1, 2, 6),
        child(1 << 64 | 4, 9, 8, 0),
        child(2, 1 << 64 | 4, 4, 4),
        child(7, 6, 0, 2),
        child(12, 12, 0, 4),
    ]
}

/// Every file below every root, in every order, as structs and as bytes.
#[test]
fn all_orders_give_the_same_paths() {
    let ids = [1, 2, 4, 6, 7, 9, 12, 1 << 64 | 4, 1 << 64 | 1].map(FileId::new);
    let (mut orders, mut statuses) = (0, Counts::new("orders"));
    each_order(small(), &mut |table| {
        orders += 1;
        let bytes = rows(table);
        for id in ids {
            for root in ids {
                let due = due_path(&small(), &POOL, id, root, 20);
                statuses.add(due.0.status);
                let given = path(table, &POOL, id, root, 20);
                assert_eq!(given, due, "{table:?} {id:?} {root:?}");
                let given = path_in_rows(&bytes, &POOL, id, root, 20);
                assert_eq!(given, due, "{table:?} {id:?} {root:?}");
            }
        }
    });
    assert_eq!(orders, 720);
    statuses.finish(&[Success, ObjectPathNotFound, NameTooLong], 720 * 81);
}

/// The place in the pool where the name of a chain's file is.
fn chain_place(number: usize) -> usize {
    number % 4 * 2
}

/// The files 101 and on of a chain, each in the one before, and the first in `top`: by
/// rising id, by falling id, and mixed.
fn chains(count: usize, top: u128) -> [Vec<Entry>; 3] {
    let file = |number: usize| {
        let id = 100 + number as u128;
        let parent = if number == 1 { top } else { id - 1 };
        child(id, parent, chain_place(number) as u64, 2)
    };
    let rising: Vec<Entry> = (1..=count).map(file).collect();
    let falling = rising.iter().rev().copied().collect();
    let mut mixed = rising.clone();
    mixed.rotate_left(count / 3);
    mixed.swap(0, count / 2);
    [rising, falling, mixed]
}

/// The path over these files of a chain.
fn chain_path(numbers: impl Iterator<Item = usize>) -> Vec<u8> {
    let names: Vec<&[u8]> = numbers
        .map(|number| &POOL[chain_place(number)..][..2])
        .collect();
    names.join(&SEPARATOR[..])
}

/// Chains of 1 to 70 files, up to a root that has a row or has none.
#[test]
fn up_to_sixty_four_steps() {
    const ROOT: u128 = 50;
    for count in 1..=70 {
        let last = 100 + count as u128;
        let due = match count {
            ..=64 => gave(chain_path(1..=count)),
            _ => refused(NameTooLong),
        };
        for table in chains(count, ROOT) {
            assert_eq!(path_of(&table, &POOL, last, ROOT, 300), due, "{count}");
            let with_root = [&table[..], &[child(ROOT, ROOT, 0, 8)]].concat();
            assert_eq!(path_of(&with_root, &POOL, last, ROOT, 300), due, "{count}");
        }
    }
}

/// Chains of 1 to 70 files whose first is in a folder without a row. Below 64 steps the
/// next one would leave it; behind them it is not looked for.
#[test]
fn ways_out_of_the_table() {
    for count in 1..=70 {
        let last = 100 + count as u128;
        let due = match count {
            ..64 => refused(ObjectPathNotFound),
            _ => refused(NameTooLong),
        };
        for table in chains(count, 50) {
            for root in [51, TOP, 1 << 64 | 50, last | 1 << 127] {
                assert_eq!(path_of(&table, &POOL, last, root, 300), due, "{count}");
            }
        }
    }
    for root in [0, 50, TOP] {
        let given = path_of(&[], &[], 7, root, 0);
        assert_eq!(given, refused(ObjectPathNotFound), "{root}");
    }
}

/// The first file of a chain of 1 to 70 is in one of them, so that as many as lie
/// between are in each other: a root outside is never reached, and one of the files in
/// as many steps as there are up to it.
#[test]
fn ways_that_go_round() {
    for count in 1..=70usize {
        let last = 100 + count as u128;
        for into in 1..=count {
            for table in chains(count, 100 + into as u128) {
                let given = path_of(&table, &POOL, last, 50, 300);
                assert_eq!(given, refused(NameTooLong), "{count} {into}");
                let below = count.saturating_sub(64).max(1);
                for above in [below, count.div_ceil(2).max(below), count] {
                    let root = 100 + above as u128;
                    let due = gave(chain_path(above + 1..=count));
                    let given = path_of(&table, &POOL, last, root, 300);
                    assert_eq!(given, due, "{count} {into} {above}");
                }
            }
        }
    }
}

/// From the first file of a ring of so many, round to the one behind it: a step less
/// than there are files. From 66 files on that is too far.
#[test]
fn once_round() {
    for count in 2..=70usize {
        let last = 100 + count as u128;
        for table in chains(count, last) {
            let given = path_of(&table, &POOL, 101, 102, 300);
            let due = match count {
                // From 103 down to the last, and 101.
                ..=65 => gave(chain_path((3..=count).chain([1]))),
                _ => refused(NameTooLong),
            };
            assert_eq!(given, due, "{count}");
            assert_eq!(path_of(&table, &POOL, 101, 101, 0), gave(Vec::new()));
        }
    }
}

// ---- Ids.

/// A way over files whose ids differ in one bit, each of the 128: the right one is
/// left, and a root that is nearly reached is not.
#[test]
fn ids_are_compared_in_all_bytes() {
    // No two of these differ in fewer than three bits.
    let (root, folder, file): (u128, u128, u128) = (0x0F, 0xF0, 0xF00);
    for bit in 0..128 {
        let other = 1 << bit;
        let decoy = child(folder ^ other, file ^ other, 4, 2);
        let mut table = [child(file, folder, 0, 2), decoy, child(folder, root, 2, 2)];
        for _ in 0..3 {
            let due = gave(vec![0x62, 0, 0x5C, 0, 0x61, 0]);
            assert_eq!(path_of(&table, &POOL, file, root, 6), due, "{bit}");
            for (id, root) in [
                (file ^ other, root),
                (file, root ^ other),
                (file, folder ^ other),
                (folder ^ other, root),
                (root, root ^ other),
            ] {
                let given = path_of(&table, &POOL, id, root, 600);
                assert_eq!(given, refused(ObjectPathNotFound), "{bit} {id:x} {root:x}");
            }
            let given = path_of(&table, &POOL, folder ^ other, file ^ other, 2);
            assert_eq!(given, gave(vec![0x63, 0]), "{bit}");
            table.rotate_left(1);
        }
    }
}

/// 2^64 - 1 is no file's id, but a parent's and a root's like any other, and so are
/// the ends of 64 and of 128 bits.
#[test]
fn ids_at_the_ends() {
    let ends = [0, TOP - 1, TOP, TOP + 1, 1 << 64 | TOP, u128::MAX];
    for root in ends {
        for id in ends.into_iter().filter(|id| *id != root) {
            let table = [child(id, root, 0, 2), child(3, id, 2, 2)];
            let status = path_of(&table, &POOL, id, root, 2);
            if id == TOP {
                assert_eq!(status, refused(FileCorruptError));
                continue;
            }
            assert_eq!(status, gave(vec![0x61, 0]), "{id:x} {root:x}");
            let due = gave(vec![0x61, 0, 0x5C, 0, 0x62, 0]);
            assert_eq!(path_of(&table, &POOL, 3, root, 6), due, "{id:x} {root:x}");
            let given = path_of(&table, &POOL, root, id, 6);
            assert_eq!(given, refused(ObjectPathNotFound), "{id:x} {root:x}");
        }
        let given = path_of(&[], &[], root, root, 0);
        assert_eq!(given, gave(Vec::new()), "{root:x}");
    }
}

// ---- Rooms.

/// Every room from none to more than enough, for each file of a table: with the last
/// byte the path comes, and before it nothing.
#[test]
fn rooms_byte_by_byte() {
    for table in chains(6, 50) {
        for count in 0..=6usize {
            let id = if count == 0 { 50 } else { 100 + count as u128 };
            let whole = chain_path(1..=count);
            assert_eq!(whole.len(), (4 * count).saturating_sub(2));
            for room in 0..=40 {
                let due = match room < whole.len() {
                    true => refused(BufferTooSmall),
                    false => gave(whole.clone()),
                };
                let given = path_of(&table, &POOL, id, 50, room);
                assert_eq!(given, due, "{count} {room}");
            }
        }
    }
}

/// The longest path there is: 64 names of 510 bytes, and 63 separators.
#[test]
fn the_longest_path() {
    const ROOM: usize = 32_766;
    let pool = common::name(&mut Rng::fixed(), 64 * 510);
    for order in ORDERS {
        let mut table: Vec<Entry> = (0..64)
            .map(|number| child(number + 1, number, 510 * number as u64, 510))
            .collect();
        order.put(&mut Rng::fixed(), &mut table);
        let whole = pool.chunks(510).collect::<Vec<_>>().join(&SEPARATOR[..]);
        assert_eq!(whole.len(), ROOM);
        assert_eq!(path_of(&table, &pool, 64, 0, ROOM), gave(whole.clone()));
        assert_eq!(path_of(&table, &pool, 64, 0, ROOM + 9), gave(whole));
        for room in [0, 1, 510, ROOM - 2, ROOM - 1] {
            let given = path_of(&table, &pool, 64, 0, room);
            assert_eq!(given, refused(BufferTooSmall), "{room}");
        }
    }
}

/// Empty names stand in a path like others, at its front, at its end, and all over.
#[test]
fn empty_names() {
    for kinds in 0u32..1 << 6 {
        let name = |number: u128| match kinds >> number & 1 {
            0 => (2, 2),
            _ => (POOL.len() as u64, 0),
        };
        let mut table: Vec<Entry> = (0..6)
            .map(|number| child(number + 1, number, name(number).0, name(number).1))
            .collect();
        for order in ORDERS {
            order.put(&mut Rng::fixed(), &mut table);
            let names: Vec<&[u8]> = (0..6)
                .map(|number| match kinds >> number & 1 {
                    0 => &[0x62, 0][..],
                    _ => &[],
                })
                .collect();
            let whole = names.join(&[0x5C, 0][..]);
            let full = 6 - kinds.count_ones() as usize;
            assert_eq!(whole.len(), 10 + 2 * full);
            let given = path_of(&table, &POOL, 6, 0, whole.len());
            assert_eq!(given, gave(whole), "{kinds:b} {order:?}");
        }
    }
}

// ---- Rows.

/// Judges a row in a table with others: at each place, the others by rising and by
/// falling id. It is on the way, or not, or the root is asked for itself.
fn judge_row(row: Entry, good: bool, pool: &[u8]) {
    let mut others = [child(10, 5, 0, 2), child(20, 10, 2, 2), child(30, 15, 4, 2)];
    let ids = [5, 10, 15, 20, 30, 40].map(FileId::new);
    for _ in 0..2 {
        for place in 0..=others.len() {
            let mut table = others.to_vec();
            table.insert(place, row);
            for id in ids {
                for root in [FileId::new(5), row.id, id] {
                    let due = match good {
                        true => due_path(&table, pool, id, root, 600),
                        false => refused(FileCorruptError),
                    };
                    let given = path(&table, pool, id, root, 600);
                    assert_eq!(given, due, "{row:?} at {place}, {id:?} {root:?}");
                }
            }
        }
        others.reverse();
    }
}

#[test]
fn bad_ids_and_usns() {
    for (id, good) in [
        (0, true),
        (15, true),
        (TOP - 1, true),
        (TOP, false),
        (TOP + 1, true),
        (TOP | 1 << 127, true),
        (u128::MAX, true),
        // Those of other rows, and the same in one half.
        (10, false),
        (20, false),
        (30, false),
        (20 | 1 << 64, true),
        (20 << 64, true),
    ] {
        judge_row(child(id, 5, 0, 2), good, &POOL);
    }
    for (usn, good) in [
        (0, true),
        (NEGATIVE - 1, true),
        (NEGATIVE, false),
        (u64::MAX, false),
    ] {
        for id in [15, 1 << 64] {
            let row = Entry {
                usn,
                ..child(id, 5, 0, 2)
            };
            judge_row(row, good, &POOL);
        }
    }
    // An id that stands twice and is wide.
    let wide = child(1 << 100, 5, 0, 2);
    for id in [1 << 100, 7, 8] {
        for table in [
            [wide, wide, child(7, 5, 0, 2)],
            [wide, child(7, 5, 0, 2), wide],
        ] {
            let given = path_of(&table, &POOL, id, id, 600);
            assert_eq!(given, refused(FileCorruptError));
        }
    }
}

/// Where a name may lie, and how long it may be. An empty one lies inside the pool
/// too.
#[test]
fn bad_places_and_lengths_of_names() {
    let pool = common::name(&mut Rng::fixed(), 600);
    for (place, length, good) in [
        (0, 0, true),
        (600, 0, true),
        (601, 0, false),
        (1 << 32, 0, false),
        (NEGATIVE, 0, false),
        (u64::MAX, 0, false),
        (598, 2, true),
        (599, 2, false),
        (600, 2, false),
        (90, 510, true),
        (91, 510, false),
        (0, 1, false),
        (0, 509, false),
        (0, 511, false),
        (0, 512, false),
        (0, 0x0001_0002, false),
        (0, 0x8000_0002, false),
        (0, u32::MAX, false),
        (1 << 32, 2, false),
        (u64::MAX - 1, 2, false),
        (u64::MAX - 509, 510, false),
    ] {
        judge_row(child(15, 5, place, length), good, &pool);
        judge_row(child(1 << 64, 5, place, length), good, &pool);
    }
}

/// A unit that no name may hold, at each place of a name that is on the way or not.
#[test]
fn bad_units_of_names() {
    for length in [2, 8, 30, 510] {
        let pool = common::name(&mut Rng::fixed(), 520);
        let table = [child(3, 2, 0, 2), child(9, 3, 6, length as u32)];
        for place in (0..length).step_by(2) {
            for unit in EXCLUDED {
                let mut bad = pool.clone();
                common::plant(&mut bad, 6 + place, unit);
                for id in [2, 3, 9] {
                    let given = path_of(&table, &bad, id, 2, 600);
                    let due = refused(FileCorruptError);
                    assert_eq!(given, due, "{unit:#x} at {place}, {id}");
                }
            }
        }
        // Right before the name and right behind it such a unit is nobody's.
        let mut beside = pool.clone();
        common::plant(&mut beside, 4, 0x5C);
        common::plant(&mut beside, 6 + length, 0x5C);
        let path = [&pool[..2], &[0x5C, 0], &pool[6..6 + length]].concat();
        assert_eq!(path_of(&table, &beside, 9, 2, 600), gave(path));
    }
}

// ---- Tables as bytes.

/// Any number of bytes up to those of the four rows. All that are not whole rows are
/// refused, for the root too.
#[test]
fn bytes_that_are_not_whole_rows() {
    let table = [
        child(3, 2, 2, 2),
        child(7, 3, 0, 2),
        child(8, 7, 8, 0),
        child(9, 8, 4, 4),
    ];
    for length in 0..=ROWS.len() {
        for id in [2, 3, 7, 9] {
            let due = match length % ROW {
                0 => due_path(&table[..length / ROW], &POOL, numbered(id), numbered(2), 20),
                _ => refused(FileCorruptError),
            };
            let given = path_in_rows(&ROWS[..length], &POOL, numbered(id), numbered(2), 20);
            assert_eq!(given, due, "{length} {id}");
        }
    }
}

/// Rows, names and path may begin anywhere in memory.
#[test]
fn tables_at_every_place() {
    let due = [
        0x62, 0, 0x5C, 0, 0x61, 0, 0x5C, 0, 0x5C, 0, 0x63, 0, 0x64, 0,
    ];
    for before in 0..32 {
        let bytes = [&vec![0xFF; before], &ROWS[..], &[0xFF; GUARD]].concat();
        let rows = &bytes[before..bytes.len() - GUARD];
        let pool = [&vec![0; before], &POOL[..], &[0; GUARD]].concat();
        let pool = &pool[before..before + POOL.len()];
        let mut output = vec![0xCC; before + due.len() + GUARD];
        let lent = &mut output[before..before + due.len()];
        let answer = row_path(rows, pool, numbered(9), numbered(2), lent);
        assert!(output[..before].iter().all(|byte| *byte == 0xCC));
        let given = given(output.split_off(before), answer);
        assert_eq!(given, gave(due.to_vec()), "{before}");
    }
}

// ---- The order of the checks.

/// Tables of which each has something bad, and a way of more than 64 steps.
fn bad_tables(good: &[Entry]) -> Vec<Vec<u8>> {
    let last = good.last().expect("a row").id.number();
    let bad = [
        child(15, 5, 0, 3),
        child(15, 5, 0, 512),
        child(15, 5, 8, 2),
        child(15, 5, 8, 4),
        child(15, 5, 11, 0),
        child(15, 5, u64::MAX - 1, 2),
        Entry {
            usn: NEGATIVE,
            ..child(15, 5, 0, 2)
        },
        child(TOP, 5, 0, 2),
        child(101, 5, 0, 2),
        child(last, 5, 0, 2),
    ];
    let whole = rows(good);
    let mut tables = vec![whole[1..].to_vec(), [&whole[..], &[0]].concat()];
    for row in bad {
        tables.push(rows(&[good, &[row]].concat()));
        tables.push(rows(&[&[row], good].concat()));
    }
    tables
}

/// A bad table is told before what the way gives, and that before the room, whatever
/// the three are.
#[test]
fn the_first_fault_is_told() {
    // The names' pool, with a slash at its end.
    let pool = [&POOL[..], &[0x2F, 0]].concat();
    for table in chains(70, 50) {
        let ways = [
            (50, 50, Success),
            (160, 170, ObjectPathNotFound),
            (170, 50, NameTooLong),
            (164, 50, Success),
            (163, 51, ObjectPathNotFound),
            (164, 51, NameTooLong),
            (51, 50, ObjectPathNotFound),
        ];
        for (id, root, status) in ways {
            let (id, root) = (FileId::new(id), FileId::new(root));
            for room in [0, 1, 253, 254, 300] {
                let due = match status {
                    Success => due_path(&table, &pool, id, root, room),
                    status => refused(status),
                };
                assert_eq!(path(&table, &pool, id, root, room), due, "{id:?} {root:?}");
                for bad in bad_tables(&table) {
                    let given = path_in_rows(&bad, &pool, id, root, room);
                    assert_eq!(given, refused(FileCorruptError), "{id:?} {root:?} {bad:x?}");
                }
            }
        }
    }
}

// ---- A large table.

/// The chains of the large table, of 64 files each.
const CHAINS: u128 = 625;

/// 40,000 files by rising id: 625 in the root, and each of them with a chain below it,
/// down to a depth of 64.
fn forty_thousand() -> (Vec<Entry>, Vec<u8>) {
    let (mut table, mut pool) = (Vec::new(), Vec::new());
    for depth in 1..=64 {
        for chain in 0..CHAINS {
            let name = large_name(depth, chain);
            let (id, parent) = (large_id(depth, chain), large_id(depth - 1, chain));
            let place = pool.len() as u64;
            table.push(child(id, parent, place, name.len() as u32));
            pool.extend(name);
        }
    }
    (table, pool)
}

/// The id of a chain's file at a depth. At depth 0 that is the root.
fn large_id(depth: u128, chain: u128) -> u128 {
    match depth {
        0 => 7,
        _ => 1000 * depth + chain,
    }
}

/// Its name, which no other file has.
fn large_name(depth: u128, chain: u128) -> Vec<u8> {
    let text = format!("{depth}-{chain}");
    text.encode_utf16().flat_map(u16::to_le_bytes).collect()
}

/// Each depth in some chains, from the root and from files between.
#[test]
fn paths_among_forty_thousand_files() {
    let (mut table, pool) = forty_thousand();
    assert_eq!(table.len(), 40_000);
    let mut rng = Rng::new("large");
    for depth in 1..=64 {
        for chain in [0, CHAINS - 1, rng.below(CHAINS as u64).into()] {
            for top in [0, rng.below(depth as u64).into()] {
                let names: Vec<Vec<u8>> = (top + 1..=depth)
                    .map(|depth| large_name(depth, chain))
                    .collect();
                let path = names.join(&SEPARATOR[..]);
                let (id, root) = (large_id(depth, chain), large_id(top, chain));
                let mut output = vec![0xCC; path.len() + GUARD];
                let (id, root) = (FileId::new(id), FileId::new(root));
                let answer = file_path(&table, &pool, id, root, &mut output[..path.len()]);
                assert_eq!(given(output, answer), gave(path), "{depth} {chain} {top}");
            }
        }
    }
    // The last row makes the whole table bad, for the root too.
    let mut refuse = |change: &dyn Fn(&mut Entry)| {
        let last = table[39_999];
        change(&mut table[39_999]);
        for id in [7, 1000, 64_000] {
            let given = path_of(&table, &pool, id, 7, 2000);
            assert_eq!(given, refused(FileCorruptError), "{id}");
        }
        table[39_999] = last;
    };
    refuse(&|row| row.usn = NEGATIVE);
    refuse(&|row| row.name_length += 1);
    refuse(&|row| row.name_place = u64::MAX);
    refuse(&|row| row.id = FileId::new(TOP));
    assert_eq!(path_of(&table, &pool, 7, 7, 0), gave(Vec::new()));
}
