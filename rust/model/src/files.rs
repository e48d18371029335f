//! Two controls over a file record: USN data and regions.

use crate::bytes::{put_u32, put_u64, u16_at, u32_at, u64_at};
use crate::record::{has_good_units, is_wide, write, Change, Version, LONGEST_NAME, MAX_USN};
use crate::{answer, status, Volume};

/// A file record.
#[derive(Clone, Copy, Debug, Default, PartialEq, Eq)]
pub struct File {
    /// The file's id.
    pub id: u128,
    /// Usn of its last change.
    pub usn: u64,
    /// End of file.
    pub eof: u64,
    /// Valid data length, at most the end of file.
    pub valid: u64,
    /// File attributes.
    pub attributes: u32,
    /// Reparse tag; 0 means none.
    pub tag: u32,
    /// Reparse GUID, given for tags that are not Microsoft's.
    pub guid: [u8; 16],
    /// Length of the reparse data, which stands at the start of the file's store.
    pub length: u64,
}

/// One entry of a file's link table.
#[derive(Clone, Copy, Debug, Default, PartialEq, Eq)]
pub struct Link {
    /// Place of the name in the name pool.
    pub place: u32,
    /// The name's length in bytes.
    pub length: u32,
    /// The short name's length; only 0 or not matters.
    pub short: u32,
}

impl Link {
    /// The link's name, or `None` if the entry is wrong.
    fn name(self, pool: &[u8]) -> Option<&[u8]> {
        name_in(pool, self.place.into(), self.length)
    }
}

/// The name of that many bytes at a place of the pool, which may be empty. `None`
/// if no file may have it or it does not lie inside the pool.
pub(crate) fn name_in(pool: &[u8], place: u64, length: u32) -> Option<&[u8]> {
    let length = length as usize;
    if length > LONGEST_NAME || !length.is_multiple_of(2) {
        return None;
    }
    let name = pool.get(place as usize..)?.get(..length)?;
    has_good_units(name).then_some(name)
}

/// Largest file offset.
const MAX_OFFSET: u64 = i64::MAX as u64;
/// Usage flag of valid cached data.
const VALID_CACHED_DATA: u32 = 1;
/// Length of the region reply's header.
const REGIONS_HEADER: usize = 16;
/// Length of one region.
const REGION: usize = 24;

/// Reads a file's USN data as one record. `parent` is the folder of the link
/// the file was opened by.
pub fn read_file(
    volume: &Volume,
    file: &File,
    parent: u128,
    pool: &[u8],
    links: &[Link],
    input: &[u8],
    output: &mut [u8],
) -> (u32, usize) {
    answer(usn_data(volume, file, parent, pool, links, input, output))
}

/// Judges a file read in the listed order and carries it out.
fn usn_data(
    volume: &Volume,
    file: &File,
    parent: u128,
    pool: &[u8],
    links: &[Link],
    input: &[u8],
    output: &mut [u8],
) -> Result<usize, u32> {
    if volume.usn == 0 {
        return Err(status::INVALID_DEVICE_REQUEST);
    }
    if file.usn > MAX_USN {
        return Err(status::FILE_CORRUPT_ERROR);
    }
    let name = choose_name(pool, links).ok_or(status::FILE_CORRUPT_ERROR)?;
    let version = if input.len() < 4 {
        Version::V2
    } else {
        Version::choose(u16_at(input, 0), u16_at(input, 2)).ok_or(status::INVALID_PARAMETER)?
    };
    // The structure's own size is that of a record with a name of two bytes,
    // and it is asked for even if the name is empty.
    if output.len() < version.length(2) {
        return Err(status::BUFFER_TOO_SMALL);
    }
    if version == Version::V2 && (is_wide(file.id) || is_wide(parent)) {
        return Err(status::NOT_SUPPORTED);
    }
    let length = version.length(name.len());
    if output.len() < length {
        return Err(status::BUFFER_TOO_SMALL);
    }
    let change = Change {
        file: file.id,
        parent,
        attributes: file.attributes,
        ..Change::default()
    };
    write(&mut output[..length], version, &change, file.usn, name);
    Ok(length)
}

/// The name of the first link with a short name; with no such link the first
/// name that is not empty, else the empty name. `None` if any entry is wrong.
fn choose_name<'a>(pool: &'a [u8], links: &[Link]) -> Option<&'a [u8]> {
    let mut chosen: &[u8] = &[];
    let mut settled = false;
    for link in links {
        let name = link.name(pool)?;
        if settled {
            continue;
        }
        if link.short != 0 {
            chosen = name;
            settled = true;
        } else if chosen.is_empty() {
            chosen = name;
        }
    }
    Some(chosen)
}

/// Tells which parts of a range of the file hold valid data.
pub fn query_file_regions(
    volume: &Volume,
    file: &File,
    input: &[u8],
    output: &mut [u8],
) -> (u32, usize) {
    regions(volume, file, input, output).unwrap_or_else(|status| (status, 0))
}

/// Judges a region query in the listed order and carries it out. A reply has a
/// status of its own, for it may come with a warning.
fn regions(
    volume: &Volume,
    file: &File,
    input: &[u8],
    output: &mut [u8],
) -> Result<(u32, usize), u32> {
    if volume.regions == 0 {
        return Err(status::INVALID_DEVICE_REQUEST);
    }
    let File { eof, valid, .. } = *file;
    if valid > eof || eof > MAX_OFFSET {
        return Err(status::FILE_CORRUPT_ERROR);
    }
    let (offset, length, usage) = match input.len() {
        0 => (0, MAX_OFFSET, VALID_CACHED_DATA),
        1..=23 => return Err(status::BUFFER_TOO_SMALL),
        _ => (u64_at(input, 0), u64_at(input, 8), u32_at(input, 16)),
    };
    if length == 0 || length > MAX_OFFSET {
        return Err(status::INVALID_PARAMETER);
    }
    if offset
        .checked_add(length)
        .is_none_or(|end| end > MAX_OFFSET)
    {
        return Err(status::INVALID_PARAMETER);
    }
    if usage & VALID_CACHED_DATA == 0 {
        return Err(status::INVALID_PARAMETER);
    }
    if output.len() < REGIONS_HEADER + REGION {
        return Err(status::BUFFER_TOO_SMALL);
    }
    if offset > eof || (offset == eof && eof > 0) {
        return Ok((status::SUCCESS, 0));
    }
    if offset >= valid {
        put_region(output, 0, offset, length.min(eof - offset), 0);
        return Ok((status::SUCCESS, end_regions(output, 1, 1)));
    }
    let first = length.min(valid - offset);
    put_region(output, 0, offset, first, usage);
    let second = valid < eof && first < length;
    if !second {
        return Ok((status::SUCCESS, end_regions(output, 1, 1)));
    }
    // Without room for the second region the first is given all the same, so
    // that the caller can go on from its end. The total tells that there is more.
    if output.len() < REGIONS_HEADER + 2 * REGION {
        return Ok((status::BUFFER_OVERFLOW, end_regions(output, 2, 1)));
    }
    put_region(output, 1, valid, (length - first).min(eof - valid), 0);
    Ok((status::SUCCESS, end_regions(output, 2, 2)))
}

/// Writes region number `index` of the reply.
fn put_region(output: &mut [u8], index: usize, offset: u64, length: u64, usage: u32) {
    let at = REGIONS_HEADER + index * REGION;
    let region = &mut output[at..at + REGION];
    put_u64(region, 0, offset);
    put_u64(region, 8, length);
    put_u32(region, 16, usage);
    put_u32(region, 20, 0);
}

/// Writes the header over `given` of `total` regions and gives the reply's
/// length.
fn end_regions(output: &mut [u8], total: u32, given: u32) -> usize {
    put_u32(output, 0, 0);
    put_u32(output, 4, total);
    put_u32(output, 8, given);
    put_u32(output, 12, 0);
    REGIONS_HEADER + given as usize * REGION
}
