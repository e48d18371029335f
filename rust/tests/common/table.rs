//! Tables of files, enumerations of them and paths in them, and what these are to
//! give.

use super::journal::{gave, given, refused, Given};
use super::{lay_out, version_from, Rng, GUARD, NEGATIVE};
use lanhduxe::Status::{self, BufferTooSmall, EndOfFile, NameTooLong, ObjectPathNotFound};
use lanhduxe::{file_path, row_path, Answer, Change, Entry, FileId, Volume};

/// Bytes of a row.
pub const ROW: usize = 56;

/// 2^64 - 1, the id that no file may have.
pub const TOP: u128 = u64::MAX as u128;

/// A table's bytes, as its layout has them.
pub fn rows(table: &[Entry]) -> Vec<u8> {
    let mut bytes = Vec::with_capacity(ROW * table.len());
    for entry in table {
        bytes.extend(entry.id.bytes);
        bytes.extend(entry.parent.bytes);
        bytes.extend(entry.usn.to_le_bytes());
        bytes.extend(entry.attributes.to_le_bytes());
        bytes.extend(entry.name_length.to_le_bytes());
        bytes.extend(entry.name_place.to_le_bytes());
    }
    bytes
}

/// The table as the model has it.
pub fn model_table(table: &[Entry]) -> Vec<model::Entry> {
    table
        .iter()
        .map(|entry| model::Entry {
            id: entry.id.number(),
            parent: entry.parent.number(),
            usn: entry.usn,
            attributes: entry.attributes,
            name_length: entry.name_length,
            name_place: entry.name_place,
        })
        .collect()
}

/// A file in folder 5 whose name is the pool's bytes from a place on.
pub fn entry(id: u128, usn: u64, name_place: u64, name_length: u32) -> Entry {
    Entry {
        id: FileId::new(id),
        parent: FileId::new(5),
        usn,
        attributes: 0x20,
        name_length,
        name_place,
    }
}

/// How the rows of a table stand.
#[derive(Clone, Copy, Debug, PartialEq, Eq)]
pub enum Order {
    Rising,
    Falling,
    Shuffled,
    /// Rising but for two rows.
    Exchanged,
}

/// All orders.
pub const ORDERS: [Order; 4] = [
    Order::Rising,
    Order::Falling,
    Order::Shuffled,
    Order::Exchanged,
];

impl Order {
    /// Puts a table into this order.
    pub fn put(self, rng: &mut Rng, table: &mut [Entry]) {
        table.sort_by_key(|file| file.id.number());
        let count = table.len();
        match self {
            Order::Rising => {}
            Order::Falling => table.reverse(),
            Order::Shuffled => {
                for place in 1..count {
                    table.swap(place, rng.below(place as u64 + 1) as usize);
                }
            }
            Order::Exchanged if count < 2 => {}
            Order::Exchanged => {
                let one = rng.below(count as u64) as usize;
                let other = match rng.percent(50) {
                    true => (one + 1) % count,
                    false => rng.below(count as u64) as usize,
                };
                table.swap(one, other);
            }
        }
    }
}

/// A table in each of its orders.
pub fn each_order<const N: usize>(mut table: [Entry; N], judge: &mut impl FnMut(&[Entry; N])) {
    fn from<const N: usize>(
        place: usize,
        table: &mut [Entry; N],
        judge: &mut impl FnMut(&[Entry; N]),
    ) {
        if place == N {
            return judge(table);
        }
        for other in place..N {
            table.swap(place, other);
            from(place + 1, table, judge);
            table.swap(place, other);
        }
    }
    from(0, &mut table, judge)
}

/// Ids that are all different, and not the one that no file may have. `wide` times
/// out of a hundred one is wide, sometimes with the lower half of another.
pub fn ids(rng: &mut Rng, count: usize, wide: u64) -> Vec<u128> {
    let step = rng.pick(&[1, 1, 2, 1000, 1 << 40, 1 << 56]);
    let mut narrow = match rng.below(4) {
        0 => 0,
        1 => u128::from(rng.below(1000)),
        2 => TOP.saturating_sub(u128::from(step) * count as u128),
        _ => u128::from(rng.long() / 2),
    };
    let mut ids: Vec<u128> = Vec::with_capacity(count);
    while ids.len() < count {
        if rng.percent(wide) {
            let id = match rng.below(5) {
                0 => 1 << 64,
                1 => u128::MAX - u128::from(rng.below(3)),
                2 => 1 << 64 | TOP,
                3 if !ids.is_empty() => rng.pick(&ids) ^ 1 << rng.between(64, 127),
                _ => super::wide_id(rng).number(),
            };
            if id > TOP && !ids.contains(&id) {
                ids.push(id);
            }
            continue;
        }
        // With no number left below the top there are only wide ids.
        let id = match narrow < TOP {
            true => narrow,
            false => 1 << 64 | narrow << 65,
        };
        if !ids.contains(&id) {
            ids.push(id);
        }
        narrow += u128::from(rng.between(1, step));
    }
    ids
}

/// A good name's length.
fn name_length(rng: &mut Rng, pool: usize) -> usize {
    let length = match rng.below(10) {
        0..=1 => 0,
        2..=6 => 2 * rng.below(16),
        7 => rng.pick(&[508, 510]),
        _ => 2 * rng.below(256),
    };
    (length as usize).min(pool / 2 * 2)
}

/// A Usn that is not negative.
fn usn(rng: &mut Rng) -> u64 {
    match rng.below(8) {
        0 => NEGATIVE - 1 - rng.below(2),
        1 => rng.long() & (NEGATIVE - 1),
        _ => 8 * rng.below(50),
    }
}

/// A good table of so many files, with its pool. Some share a name or a part of one.
pub fn good_table(rng: &mut Rng, count: usize, order: Order) -> (Vec<Entry>, Vec<u8>) {
    let size = match rng.below(6) {
        0 => rng.below(3),
        1 => rng.between(508, 514),
        _ => rng.below(2000),
    } as usize;
    let pool = super::name(rng, size);
    let wide = rng.pick(&[0, 0, 5, 20, 60]);
    let wide_parents = rng.pick(&[0, 0, 5, 20, 60]);
    let mut table = Vec::with_capacity(count);
    for id in ids(rng, count, wide) {
        let length = name_length(rng, size);
        let place = match rng.below(4) {
            0 => size - length,
            1 => 0,
            _ => rng.between(0, (size - length) as u64) as usize,
        };
        let parent = match rng.percent(wide_parents) {
            true => super::wide_id(rng),
            false => super::narrow_id(rng),
        };
        table.push(Entry {
            id: FileId::new(id),
            parent,
            usn: usn(rng),
            attributes: rng.word(),
            name_length: length as u32,
            name_place: place as u64,
        });
    }
    order.put(rng, &mut table);
    (table, pool)
}

/// Makes one row of a table bad, or the bytes of its name; now and then it stays good.
pub fn damage(rng: &mut Rng, table: &mut [Entry], pool: &mut [u8]) {
    let count = table.len() as u64;
    if count == 0 {
        return;
    }
    let other = rng.pick(table).id;
    let row = &mut table[rng.below(count) as usize];
    let size = pool.len() as u64;
    match rng.below(13) {
        0..=2 => row.id = other,
        3 => row.id = FileId::new(TOP),
        4 => row.usn = rng.pick(&[NEGATIVE, NEGATIVE + 8, u64::MAX]),
        5 => row.name_length |= 1,
        6 => row.name_length = rng.pick(&[511, 512, 514, 1 << 16, 1 << 31, u32::MAX]),
        7 => row.name_place = size - u64::from(row.name_length) + rng.between(1, 3),
        8 => (row.name_place, row.name_length) = (size + rng.below(3), 0),
        9 => row.name_place = u64::MAX - rng.below(600),
        // The sum is a small number if it wraps around 2^64.
        10 => row.name_place = 0u64.wrapping_sub(row.name_length.into()),
        11 => row.name_place |= rng.pick(&[1 << 32, NEGATIVE]),
        _ => {
            let place = row.name_place as usize;
            super::plant_some(rng, &mut pool[place..][..row.name_length as usize]);
        }
    }
}

/// The input of an enumeration; a version pair is there from 32 bytes on.
#[derive(Clone, Copy, Debug)]
pub struct EnumInput {
    pub start: u64,
    pub low: i64,
    pub high: i64,
    pub lowest: u16,
    pub highest: u16,
    pub size: usize,
}

impl EnumInput {
    /// Every file, in a version.
    pub const fn all(version: u16) -> EnumInput {
        EnumInput {
            start: 0,
            low: 0,
            high: i64::MAX,
            lowest: 2,
            highest: version,
            size: 32,
        }
    }

    /// The input's bytes, at most 48, with random ones in the ignored places.
    pub fn bytes(&self, rng: &mut Rng) -> Vec<u8> {
        let mut bytes = Vec::with_capacity(48);
        bytes.extend(self.start.to_le_bytes());
        bytes.extend(self.low.to_le_bytes());
        bytes.extend(self.high.to_le_bytes());
        bytes.extend(self.lowest.to_le_bytes());
        bytes.extend(self.highest.to_le_bytes());
        bytes.extend(rng.bytes(20));
        bytes.truncate(self.size);
        bytes
    }

    /// The version that this input asks for, if it asks for a known one.
    pub fn version(&self) -> Option<u16> {
        match self.size {
            ..32 => Some(2),
            _ => version_from(self.lowest, self.highest),
        }
    }

    /// The files that are selected, in order: what a plain sort gives.
    pub fn selected(&self, table: &[Entry]) -> Vec<Entry> {
        let usns = self.low..=self.high;
        let mut files = table.to_vec();
        files.retain(|file| {
            !file.id.is_wide()
                && !file.parent.is_wide()
                && file.id.number() >= self.start.into()
                && usns.contains(&(file.usn as i64))
        });
        files.sort_by_key(|file| file.id.number());
        files
    }
}

/// The record of a file in a version. Its name lies in the pool.
pub fn record(version: u16, file: &Entry, pool: &[u8]) -> Vec<u8> {
    let change = Change {
        file: file.id,
        parent: file.parent,
        attributes: file.attributes,
        ..Change::default()
    };
    lay_out(version, &change, file.usn, name_of(file, pool))
}

/// The name of a file. It lies in the pool.
pub fn name_of<'a>(file: &Entry, pool: &'a [u8]) -> &'a [u8] {
    &pool[file.name_place as usize..][..file.name_length as usize]
}

/// What an enumeration of a good table with a good input gives, with room for 8
/// bytes at the least.
pub fn due(table: &[Entry], pool: &[u8], input: &EnumInput, room: usize) -> Given {
    let version = input.version().expect("a version");
    let selected = input.selected(table);
    let Some(last) = selected.last() else {
        return refused(EndOfFile);
    };
    let mut next = last.id.number() + 1;
    let mut reply = vec![0; 8];
    for file in &selected {
        let record = record(version, file, pool);
        if reply.len() + record.len() > room {
            next = file.id.number();
            break;
        }
        reply.extend(record);
    }
    if reply.len() == 8 {
        return refused(BufferTooSmall);
    }
    reply[..8].copy_from_slice(&(next as u64).to_le_bytes());
    gave(reply)
}

/// A volume that supports a journal, and has none.
pub fn supporting() -> Volume {
    Volume {
        journal: 1,
        ..Volume::default()
    }
}

/// Enumerates a table.
pub fn enumerate(table: &[Entry], pool: &[u8], input: &EnumInput, room: usize) -> Given {
    let before = table.to_vec();
    let given = ask(pool, input, room, |input, output| {
        supporting().enumerate_files(table, pool, input, output)
    });
    assert!(table == before, "an enumeration changed its table");
    given
}

/// The same with the table as bytes, which may be any.
pub fn enumerate_rows(rows: &[u8], pool: &[u8], input: &EnumInput, room: usize) -> Given {
    let before = rows.to_vec();
    let given = ask(pool, input, room, |input, output| {
        supporting().enumerate_rows(rows, pool, input, output)
    });
    assert!(rows == before, "an enumeration changed its table");
    given
}

/// Makes a call with an input and an output. The pool and the input stay as they are.
fn ask(
    pool: &[u8],
    input: &EnumInput,
    room: usize,
    call: impl FnOnce(&[u8], &mut [u8]) -> Answer,
) -> Given {
    let input = input.bytes(&mut Rng::fixed());
    let before = [pool, &input].concat();
    let mut output = vec![0xCC; room + GUARD];
    let answer = call(&input, &mut output[..room]);
    assert!(
        [pool, &input].concat() == before,
        "an enumeration changed what it is to read"
    );
    given(output, answer)
}

/// The most steps from a file up to the root of its path.
pub const STEPS: usize = 64;

/// What is between two names of a path.
pub const SEPARATOR: [u8; 2] = [0x5C, 0];

/// The names from a root down to a file of a good table, reached in so many steps at
/// most, or why there are none.
fn names_down_to<'a>(
    table: &[Entry],
    pool: &'a [u8],
    id: FileId,
    root: FileId,
    steps: usize,
) -> Result<Vec<&'a [u8]>, Status> {
    if id == root {
        return Ok(Vec::new());
    }
    if steps == 0 {
        return Err(NameTooLong);
    }
    let file = table.iter().find(|file| file.id == id);
    let file = file.ok_or(ObjectPathNotFound)?;
    let mut names = names_down_to(table, pool, file.parent, root, steps - 1)?;
    names.push(name_of(file, pool));
    Ok(names)
}

/// The path of a file of a good table, or why it has none.
pub fn whole_path(
    table: &[Entry],
    pool: &[u8],
    id: FileId,
    root: FileId,
) -> Result<Vec<u8>, Status> {
    let names = names_down_to(table, pool, id, root, STEPS)?;
    Ok(names.join(&SEPARATOR[..]))
}

/// What a call for a path over a good table gives.
pub fn due_path(table: &[Entry], pool: &[u8], id: FileId, root: FileId, room: usize) -> Given {
    match whole_path(table, pool, id, root) {
        Err(status) => refused(status),
        Ok(path) if path.len() > room => refused(BufferTooSmall),
        Ok(path) => gave(path),
    }
}

/// Asks for a path.
pub fn path(table: &[Entry], pool: &[u8], id: FileId, root: FileId, room: usize) -> Given {
    let before = (table.to_vec(), pool.to_vec());
    let mut output = vec![0xCC; room + GUARD];
    let answer = file_path(table, pool, id, root, &mut output[..room]);
    assert!(
        (table, pool) == (&before.0[..], &before.1[..]),
        "a call for a path changed what it is to read"
    );
    given(output, answer)
}

/// The same with the table as bytes, which may be any.
pub fn path_in_rows(rows: &[u8], pool: &[u8], id: FileId, root: FileId, room: usize) -> Given {
    let before = [rows, pool].concat();
    let mut output = vec![0xCC; room + GUARD];
    let answer = row_path(rows, pool, id, root, &mut output[..room]);
    assert!(
        [rows, pool].concat() == before,
        "a call for a path changed what it is to read"
    );
    given(output, answer)
}
