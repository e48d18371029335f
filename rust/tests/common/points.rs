//! Reparse points: their layout, their tags, and the two calls that change them.

use super::{ids, model_change, Rng, NEGATIVE};
use lanhduxe::{Change, FileRecord, Status, Volume};

/// The fewest bytes of a file's store.
pub const STORE: usize = 16_376;

/// The most bytes of a point, header and data together.
pub const LONGEST: usize = 16_384;

/// The reason of the record that a set or a delete posts.
pub const REASON: u32 = 0x0010_0000;

/// Tags of Microsoft's. But for bit 31 most of them are among `OTHERS`, and one is 0.
const MICROSOFT: [u32; 6] = [
    0x8000_0000,
    0x8000_0001,
    0xA000_000C,
    0xFFFF_FFFF,
    0xA000_0003,
    0x8000_0100,
];

/// Tags that are not Microsoft's.
const OTHERS: [u32; 6] = [1, 0x2000_000C, 0x7FFF_FFFF, 0x100, 0x4000_0000, 0x0100_0000];

pub fn is_microsoft(tag: u32) -> bool {
    tag >> 31 == 1
}

/// The bytes before the data; tag 0 is not Microsoft's.
pub fn header_length(tag: u32) -> usize {
    if is_microsoft(tag) {
        8
    } else {
        24
    }
}

/// The most data that goes with a tag in a file record.
pub fn most_data(tag: u32) -> usize {
    match tag {
        0 => 0,
        _ => LONGEST - header_length(tag),
    }
}

/// A point's bytes, as its layout has them.
pub fn lay_out_point(tag: u32, guid: &[u8; 16], data: &[u8]) -> Vec<u8> {
    let mut bytes = Vec::with_capacity(24 + data.len());
    bytes.extend(tag.to_le_bytes());
    bytes.extend((data.len() as u16).to_le_bytes());
    bytes.extend([0; 2]);
    if !is_microsoft(tag) {
        bytes.extend(guid);
    }
    bytes.extend(data);
    bytes
}

/// The header with which a file's point is deleted.
pub fn header_of(file: &FileRecord) -> Vec<u8> {
    lay_out_point(file.tag, &file.guid, &[])
}

/// Sixteen random bytes.
fn guid(rng: &mut Rng) -> [u8; 16] {
    let mut guid = [0; 16];
    rng.fill(&mut guid);
    guid
}

/// A tag that is not 0.
fn any_tag(rng: &mut Rng) -> u32 {
    match rng.below(5) {
        0..=1 => rng.pick(&MICROSOFT),
        2..=3 => rng.pick(&OTHERS),
        _ => (rng.draw() as u32).max(1),
    }
}

/// A file record with a point, or `none` times out of a hundred without one. What
/// only other controls judge may be bad, and seldom the length is.
pub fn file(rng: &mut Rng, none: u64) -> FileRecord {
    let tag = match rng.percent(none) {
        true => 0,
        false => any_tag(rng),
    };
    let most = most_data(tag) as u64;
    let length = match rng.below(25) {
        0 => most + rng.pick(&[1, 1, 2, 65_536, 1 << 32, NEGATIVE]),
        1..=5 => most,
        _ => rng.between(0, most),
    };
    FileRecord {
        id: ids(rng, 20).0,
        usn: rng.long(),
        eof: rng.long(),
        valid: rng.long(),
        attributes: rng.word(),
        tag,
        guid: guid(rng),
        length,
    }
}

/// A tag and a GUID to be given where a file has its own: mostly those, else such
/// as differ in little, or tag 0.
pub fn tag_and_guid(rng: &mut Rng, file: &FileRecord) -> (u32, [u8; 16]) {
    let FileRecord { tag, guid, .. } = *file;
    let mut other = guid;
    other[rng.below(16) as usize] ^= 1 << rng.below(8);
    match rng.below(20) {
        0 => (0, guid),
        1 => (tag ^ 0x8000_0000, guid),
        2 => (tag ^ 1 << rng.below(32), guid),
        3 => (any_tag(rng), guid),
        4..=5 => (tag, other),
        _ if tag == 0 => (any_tag(rng), self::guid(rng)),
        _ => (tag, guid),
    }
}

/// How much data a point has: little, or around the most.
pub fn data_length(rng: &mut Rng, tag: u32) -> usize {
    let most = LONGEST - header_length(tag);
    match rng.below(16) {
        0..=2 => 0,
        3..=9 => rng.below(100) as usize,
        10 => rng.pick(&[255, 256, 257, 4096]),
        11 => rng.below(most as u64) as usize,
        _ => most - rng.below(3) as usize,
    }
}

/// Damages a point's bytes, so that they are none any more: their number, the
/// length or the reserved word.
pub fn damage(rng: &mut Rng, input: &mut Vec<u8>) {
    let size = input.len();
    let tag = u32::from_le_bytes([input[0], input[1], input[2], input[3]]);
    let header = header_length(tag);
    match rng.below(10) {
        0 => input.truncate(rng.below(header as u64) as usize),
        1 => input.truncate(size - 1),
        2 => input.push(0),
        3 => input.resize(size + rng.pick(&[8, 16, 256, 65_536]), 7),
        4 => input[4] = input[4].wrapping_add(rng.pick(&[1, 255])),
        5 => input[5] = input[5].wrapping_add(rng.pick(&[1, 255, 128])),
        6 => input[6] = rng.between(1, 255) as u8,
        7 => input[7] = 1 << rng.below(8),
        // Longer than any point, with the right length.
        _ => {
            let most = LONGEST - header;
            let length = rng.pick(&[most + 1, most + 2, most + 8, most + 16, 65_535]);
            input.resize(header + length, 7);
            input[4..6].copy_from_slice(&(length as u16).to_le_bytes());
        }
    }
}

/// The two calls that change a file's point.
#[derive(Clone, Copy, Debug, PartialEq, Eq)]
pub enum Kind {
    Set,
    Delete,
}

pub const KINDS: [Kind; 2] = [Kind::Set, Kind::Delete];

/// What both calls are given besides the records and buffers that they change.
#[derive(Clone, Copy)]
pub struct Arguments<'a> {
    pub change: &'a Change,
    pub name: &'a [u8],
    pub input: &'a [u8],
}

impl Kind {
    pub fn by_library(
        self,
        volume: &mut Volume,
        ring: &mut [u8],
        file: &mut FileRecord,
        store: &mut [u8],
        given: Arguments,
    ) -> Status {
        let Arguments {
            change,
            name,
            input,
        } = given;
        match self {
            Kind::Set => volume.set_reparse_point(ring, file, store, change, name, input),
            Kind::Delete => volume.delete_reparse_point(ring, file, store, change, name, input),
        }
    }

    pub fn by_model(
        self,
        volume: &mut model::Volume,
        ring: &mut [u8],
        file: &mut model::File,
        store: &mut [u8],
        given: Arguments,
    ) -> u32 {
        let Arguments { name, input, .. } = given;
        let change = &model_change(given.change);
        match self {
            Kind::Set => model::set_reparse_point(volume, ring, file, store, change, name, input),
            Kind::Delete => {
                model::delete_reparse_point(volume, ring, file, store, change, name, input)
            }
        }
    }
}
