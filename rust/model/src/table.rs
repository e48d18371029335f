//! A table of files, and enumerating them by rising id.
//!
//! The rows stand in any order. Those of a table in rising order are judged in one
//! pass and read where they stand; any other is sorted first.

use crate::bytes::{put_u64, u16_at, u64_at};
use crate::files::name_in;
use crate::record::{is_wide, write, Change, Version, MAX_USN};
use crate::{answer, status, Volume};

/// One file of a table.
#[derive(Clone, Copy, Debug, Default, PartialEq, Eq)]
pub struct Entry {
    /// The file's id, which no other file of the table has. Not 2^64 - 1.
    pub id: u128,
    /// Its parent folder's id.
    pub parent: u128,
    /// Usn of its last change.
    pub usn: u64,
    /// File attributes; 0 is written as 0x80.
    pub attributes: u32,
    /// The name's length in bytes.
    pub name_length: u32,
    /// Place of the name in the name pool.
    pub name_place: u64,
}

/// The id that no file may have: no reply could go on behind it.
const NO_ID: u128 = u64::MAX as u128;

impl Entry {
    /// Whether the entry is right, apart from other ones with its id.
    fn is_good(&self, pool: &[u8]) -> bool {
        self.usn <= MAX_USN
            && self.id != NO_ID
            && name_in(pool, self.name_place, self.name_length).is_some()
    }

    /// The name of a good entry.
    pub(crate) fn name<'a>(&self, pool: &'a [u8]) -> &'a [u8] {
        let place = self.name_place as usize;
        &pool[place..place + self.name_length as usize]
    }
}

/// The files of a sound table, by rising id.
pub(crate) enum Files<'a> {
    /// As they stand.
    Standing(&'a [Entry]),
    /// As they were sorted.
    Sorted(Vec<&'a Entry>),
}

impl<'a> Files<'a> {
    /// Judges a table. `None` if one of its entries is wrong by itself or an id
    /// stands twice.
    pub(crate) fn judge(table: &'a [Entry], pool: &[u8]) -> Option<Files<'a>> {
        if rises(table, pool)? {
            return Some(Files::Standing(table));
        }
        sort(table).map(Files::Sorted)
    }

    /// The file with an id.
    pub(crate) fn find(&self, id: u128) -> Option<&'a Entry> {
        match self {
            Files::Standing(entries) => {
                let place = entries.binary_search_by_key(&id, |entry| entry.id);
                place.ok().map(|place| &entries[place])
            }
            Files::Sorted(entries) => {
                let place = entries.binary_search_by_key(&id, |entry| entry.id);
                place.ok().map(|place| entries[place])
            }
        }
    }
}

/// Gives records of the table's files as they are now, by rising id: an id to go
/// on from, then the records of the selected files up to the first that does not
/// fit.
pub fn enumerate(
    volume: &Volume,
    table: &[Entry],
    pool: &[u8],
    input: &[u8],
    output: &mut [u8],
) -> (u32, usize) {
    answer(listed(volume, table, pool, input, output))
}

/// Judges an enumeration in the listed order and carries it out.
fn listed(
    volume: &Volume,
    table: &[Entry],
    pool: &[u8],
    input: &[u8],
    output: &mut [u8],
) -> Result<usize, u32> {
    if volume.journal == 0 {
        return Err(status::INVALID_DEVICE_REQUEST);
    }
    let files = Files::judge(table, pool).ok_or(status::FILE_CORRUPT_ERROR)?;
    let query = Query::read(input)?;
    if output.len() < 8 {
        return Err(status::BUFFER_TOO_SMALL);
    }
    match files {
        Files::Standing(entries) => {
            let start = entries.partition_point(|entry| entry.id < query.start.into());
            reply(entries[start..].iter(), pool, query, output)
        }
        Files::Sorted(entries) => reply(entries.into_iter(), pool, query, output),
    }
}

/// Whether a table's ids rise, so that none stands twice. `None` if one of its
/// entries is wrong by itself.
fn rises(table: &[Entry], pool: &[u8]) -> Option<bool> {
    let mut rising = true;
    let mut last = None;
    for entry in table {
        if !entry.is_good(pool) {
            return None;
        }
        rising &= last < Some(entry.id);
        last = Some(entry.id);
    }
    Some(rising)
}

/// The entries by rising id. `None` if an id stands twice.
fn sort(table: &[Entry]) -> Option<Vec<&Entry>> {
    let mut entries: Vec<&Entry> = table.iter().collect();
    entries.sort_unstable_by_key(|entry| entry.id);
    let distinct = entries.windows(2).all(|pair| pair[0].id < pair[1].id);
    distinct.then_some(entries)
}

/// What an enumeration asks for.
#[derive(Clone, Copy)]
struct Query {
    start: u64,
    low: i64,
    high: i64,
    version: Version,
}

impl Query {
    /// Reads an input, or refuses it.
    fn read(input: &[u8]) -> Result<Query, u32> {
        if input.len() < 24 {
            return Err(status::INVALID_PARAMETER);
        }
        let version = if input.len() < 32 {
            Version::V2
        } else {
            Version::choose(u16_at(input, 24), u16_at(input, 26))
                .ok_or(status::INVALID_PARAMETER)?
        };
        Ok(Query {
            start: u64_at(input, 0),
            low: u64_at(input, 8) as i64,
            high: u64_at(input, 16) as i64,
            version,
        })
    }

    /// Whether the file of a good entry is asked for and can be shown.
    fn selects(self, entry: &Entry) -> bool {
        let usn = entry.usn as i64;
        entry.id >= self.start.into()
            && self.low <= usn
            && usn <= self.high
            && !is_wide(entry.id)
            && !is_wide(entry.parent)
    }
}

/// Writes the reply from good entries by rising id.
fn reply<'a>(
    entries: impl Iterator<Item = &'a Entry>,
    pool: &[u8],
    query: Query,
    output: &mut [u8],
) -> Result<usize, u32> {
    let mut count = 8;
    let mut next = 0;
    for entry in entries.filter(|entry| query.selects(entry)) {
        let id = entry.id as u64;
        match hand_out(entry, pool, query.version, &mut output[count..]) {
            Some(written) => {
                count += written;
                next = id + 1;
            }
            None if count == 8 => return Err(status::BUFFER_TOO_SMALL),
            None => {
                next = id;
                break;
            }
        }
    }
    if count == 8 {
        return Err(status::END_OF_FILE);
    }
    put_u64(output, 0, next);
    Ok(count)
}

/// Writes a file's record to the front of `rest` and says how long it became.
/// `None` if it doesn't fit.
fn hand_out(entry: &Entry, pool: &[u8], version: Version, rest: &mut [u8]) -> Option<usize> {
    let name = entry.name(pool);
    let length = version.length(name.len());
    let out = rest.get_mut(..length)?;
    let change = Change {
        file: entry.id,
        parent: entry.parent,
        attributes: entry.attributes,
        ..Change::default()
    };
    write(out, version, &change, entry.usn, name);
    Some(length)
}
