//! Reparse points: getting, setting and deleting that of a file.
//!
//! A point is laid out as its tag, the length of its data and a zero word, then its
//! GUID if the tag is not Microsoft's, then the data. The tag, the GUID and the
//! length are kept in the file record, the data at the start of the file's store.

use crate::bytes::{put_u16, put_u32, u16_at, u32_at};
use crate::files::File;
use crate::journal::post;
use crate::record::Change;
use crate::{answer, status, Volume};

/// Most bytes of a point, header and data together.
const LONGEST_POINT: usize = 16_384;
/// Fewest bytes of a file's store.
const SHORTEST_STORE: usize = 16_376;
/// Reason of the record that a set or a delete posts.
const REPARSE_POINT_CHANGE: u32 = 0x0010_0000;

/// Whether a tag is Microsoft's. Tag 0 is not.
fn is_microsoft(tag: u32) -> bool {
    tag & 0x8000_0000 != 0
}

/// Length of what stands before the data.
fn header_length(tag: u32) -> usize {
    if is_microsoft(tag) {
        8
    } else {
        24
    }
}

/// Gives a file's reparse point, with as much of its data as fits.
pub fn get_reparse_point(
    volume: &Volume,
    file: &File,
    store: &[u8],
    output: &mut [u8],
) -> (u32, usize) {
    answer(get(volume, file, store, output))
}

/// Judges a get in the listed order and carries it out.
fn get(volume: &Volume, file: &File, store: &[u8], output: &mut [u8]) -> Result<usize, u32> {
    judge_records(volume, file, store)?;
    if file.tag == 0 {
        return Err(status::NOT_A_REPARSE_POINT);
    }
    let header = header_length(file.tag);
    if output.len() < header {
        return Err(status::BUFFER_TOO_SMALL);
    }
    let data = &store[..file.length as usize];
    put_u32(output, 0, file.tag);
    put_u16(output, 4, data.len() as u16);
    put_u16(output, 6, 0);
    if !is_microsoft(file.tag) {
        output[8..24].copy_from_slice(&file.guid);
    }
    let fitting = data.len().min(output.len() - header);
    let count = header + fitting;
    output[header..count].copy_from_slice(&data[..fitting]);
    Ok(count)
}

/// Sets a file's reparse point to the one in `input`, and posts the change.
pub fn set_reparse_point(
    volume: &mut Volume,
    ring: &mut [u8],
    file: &mut File,
    store: &mut [u8],
    change: &Change,
    name: &[u8],
    input: &[u8],
) -> u32 {
    let point = match judge_set(volume, file, store, input) {
        Ok(point) => point,
        Err(refusal) => return refusal,
    };
    // The last that can refuse; and a refused post changes nothing.
    let status = post_change(volume, ring, change, name, &mut file.usn);
    if status == status::SUCCESS {
        file.tag = point.tag;
        file.guid = point.guid;
        file.length = point.data.len() as u64;
        store[..point.data.len()].copy_from_slice(point.data);
    }
    status
}

/// Deletes the reparse point whose header is in `input`, and posts the change.
pub fn delete_reparse_point(
    volume: &mut Volume,
    ring: &mut [u8],
    file: &mut File,
    store: &[u8],
    change: &Change,
    name: &[u8],
    input: &[u8],
) -> u32 {
    if let Err(refusal) = judge_delete(volume, file, store, input) {
        return refusal;
    }
    let status = post_change(volume, ring, change, name, &mut file.usn);
    if status == status::SUCCESS {
        file.tag = 0;
        file.guid = [0; 16];
        file.length = 0;
    }
    status
}

/// Judges a set in the listed order, up to its post, and gives the point to set.
fn judge_set<'a>(
    volume: &Volume,
    file: &File,
    store: &[u8],
    input: &'a [u8],
) -> Result<Point<'a>, u32> {
    judge_records(volume, file, store)?;
    let point = Point::read(input).ok_or(status::IO_REPARSE_DATA_INVALID)?;
    if point.tag == 0 {
        return Err(status::IO_REPARSE_TAG_INVALID);
    }
    if file.tag != 0 {
        point.judge_against(file)?;
    }
    Ok(point)
}

/// Judges a delete in the listed order, up to its post.
fn judge_delete(volume: &Volume, file: &File, store: &[u8], input: &[u8]) -> Result<(), u32> {
    judge_records(volume, file, store)?;
    let point = Point::read(input)
        .filter(|point| point.data.is_empty())
        .ok_or(status::IO_REPARSE_DATA_INVALID)?;
    if point.tag == 0 {
        return Err(status::IO_REPARSE_TAG_INVALID);
    }
    if file.tag == 0 {
        return Err(status::NOT_A_REPARSE_POINT);
    }
    point.judge_against(file)
}

/// Refuses what the volume does not support, then a bad file record.
fn judge_records(volume: &Volume, file: &File, store: &[u8]) -> Result<(), u32> {
    if volume.reparse == 0 {
        return Err(status::INVALID_DEVICE_REQUEST);
    }
    if volume.points == 0 {
        return Err(status::VOLUME_NOT_UPGRADED);
    }
    let most = match file.tag {
        0 => 0,
        tag if is_microsoft(tag) => 16_376,
        _ => 16_360,
    };
    if store.len() < SHORTEST_STORE || file.length > most {
        return Err(status::FILE_CORRUPT_ERROR);
    }
    Ok(())
}

/// Posts the change with the reason of a reparse point's change. A skipped post is
/// a success too.
fn post_change(
    volume: &mut Volume,
    ring: &mut [u8],
    change: &Change,
    name: &[u8],
    usn: &mut u64,
) -> u32 {
    let change = Change {
        reason: REPARSE_POINT_CHANGE,
        ..*change
    };
    post(volume, ring, &change, name, usn)
}

/// A reparse point in an input.
struct Point<'a> {
    tag: u32,
    /// Zeroes for a Microsoft tag.
    guid: [u8; 16],
    data: &'a [u8],
}

impl Point<'_> {
    /// Reads an input that is one point from end to end. Tag 0 is read as any
    /// other.
    fn read(input: &[u8]) -> Option<Point<'_>> {
        // Which header is due is not known before the whole tag is there.
        if input.len() < 4 {
            return None;
        }
        let tag = u32_at(input, 0);
        let header = header_length(tag);
        if input.len() < header || input.len() > LONGEST_POINT {
            return None;
        }
        let (length, reserved) = (u16_at(input, 4), u16_at(input, 6));
        if header + usize::from(length) != input.len() || reserved != 0 {
            return None;
        }
        let mut guid = [0; 16];
        if !is_microsoft(tag) {
            guid.copy_from_slice(&input[8..24]);
        }
        let data = &input[header..];
        Some(Point { tag, guid, data })
    }

    /// Refuses this point where a file's point is another one.
    fn judge_against(&self, file: &File) -> Result<(), u32> {
        if self.tag != file.tag {
            return Err(status::IO_REPARSE_TAG_MISMATCH);
        }
        if !is_microsoft(self.tag) && self.guid != file.guid {
            return Err(status::REPARSE_ATTRIBUTE_CONFLICT);
        }
        Ok(())
    }
}
