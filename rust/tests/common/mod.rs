//! What the tests share: random numbers, the seed, counts of statuses, lent
//! buffers with guard bytes, names, ids, the layout of a record, a journal,
//! images, reparse points, and tables of files.

#![allow(dead_code)]

pub mod images;
pub mod journal;
pub mod points;
pub mod table;

use lanhduxe::{Change, FileId, FileRecord, Link, Record, Status, Volume};
use std::fmt;

/// 2^63, the first pattern that is negative.
pub const NEGATIVE: u64 = 1 << 63;

/// Random numbers (splitmix64).
#[derive(Clone)]
pub struct Rng(u64);

impl Rng {
    /// Numbers that are the same in every run.
    pub fn fixed() -> Rng {
        Rng(0)
    }

    /// The numbers for one test. Each test has a stream of its own.
    pub fn new(test: &str) -> Rng {
        let seed = seed();
        println!("{test}: seed {seed} (set LANHDUXE_SEED to run with another)");
        let mut state = seed;
        for byte in test.bytes() {
            state = state.wrapping_mul(0x100_0000_01B3) ^ byte as u64;
        }
        Rng(state)
    }

    /// Any number.
    pub fn draw(&mut self) -> u64 {
        self.0 = self.0.wrapping_add(0x9E37_79B9_7F4A_7C15);
        let mut z = self.0;
        z = (z ^ (z >> 30)).wrapping_mul(0xBF58_476D_1CE4_E5B9);
        z = (z ^ (z >> 27)).wrapping_mul(0x94D0_49BB_1331_11EB);
        z ^ (z >> 31)
    }

    /// A number from 0 to `limit - 1`.
    pub fn below(&mut self, limit: u64) -> u64 {
        ((self.draw() as u128 * limit as u128) >> 64) as u64
    }

    /// A number from `low` to `high`, both included.
    pub fn between(&mut self, low: u64, high: u64) -> u64 {
        low + self.below(high - low + 1)
    }

    /// True `part` times out of a hundred.
    pub fn percent(&mut self, part: u64) -> bool {
        self.below(100) < part
    }

    /// One of some values.
    pub fn pick<T: Copy>(&mut self, values: &[T]) -> T {
        values[self.below(values.len() as u64) as usize]
    }

    /// A value, one less, or one more.
    pub fn around(&mut self, value: u64) -> u64 {
        value.wrapping_add(self.below(3)).wrapping_sub(1)
    }

    /// Random bytes over a whole buffer.
    pub fn fill(&mut self, bytes: &mut [u8]) {
        for chunk in bytes.chunks_mut(8) {
            let word = self.draw().to_le_bytes();
            chunk.copy_from_slice(&word[..chunk.len()]);
        }
    }

    /// Some random bytes.
    pub fn bytes(&mut self, length: usize) -> Vec<u8> {
        let mut bytes = vec![0; length];
        self.fill(&mut bytes);
        bytes
    }

    /// A 32-bit number, often a small or an extreme one.
    pub fn word(&mut self) -> u32 {
        match self.below(6) {
            0 => 0,
            1 => 1 << self.below(32),
            2 => u32::MAX,
            3 => self.below(256) as u32,
            _ => self.draw() as u32,
        }
    }

    /// A 64-bit number, often a small or an extreme one.
    pub fn long(&mut self) -> u64 {
        match self.below(7) {
            0 => 0,
            1 => 1 << self.below(64),
            2 => u64::MAX - self.below(3),
            3 => NEGATIVE.wrapping_sub(1).wrapping_add(self.below(3)),
            4 => self.below(4096),
            _ => self.draw(),
        }
    }

    /// A support flag that means yes.
    pub fn yes(&mut self) -> u32 {
        self.pick(&[1, 1, 1, 2, 0x100, 0x8000_0000, u32::MAX])
    }

    /// A support flag, no in `part` cases out of a hundred.
    pub fn flag(&mut self, part: u64) -> u32 {
        if self.percent(part) {
            0
        } else {
            self.yes()
        }
    }
}

/// The seed: a constant, or `LANHDUXE_SEED`.
pub fn seed() -> u64 {
    match std::env::var("LANHDUXE_SEED") {
        Ok(text) => text.parse().expect("LANHDUXE_SEED is a decimal number"),
        Err(_) => 20_240_229,
    }
}

/// How often each status came.
pub struct Counts {
    test: &'static str,
    counts: [u64; Status::ALL.len()],
}

impl Counts {
    pub fn new(test: &'static str) -> Counts {
        Counts {
            test,
            counts: [0; Status::ALL.len()],
        }
    }

    pub fn add(&mut self, status: Status) {
        let place = Status::ALL.iter().position(|known| *known == status);
        self.counts[place.expect("a known status")] += 1;
    }

    /// Prints the table and asserts that just these statuses were seen, over at
    /// least `calls` calls.
    pub fn finish(&self, expected: &[Status], calls: u64) {
        let total: u64 = self.counts.iter().sum();
        println!("{}: {total} calls", self.test);
        for (status, count) in Status::ALL.iter().zip(self.counts) {
            if count > 0 {
                println!("  {status:<34} {count:>8}");
            }
        }
        assert!(total >= calls, "{}: only {total} calls", self.test);
        for (status, count) in Status::ALL.iter().zip(self.counts) {
            assert_eq!(
                count > 0,
                expected.contains(status),
                "{}: {status} was seen {count} times (seed {})",
                self.test,
                seed()
            );
        }
    }

    /// The same, with each status seen so many times at the least.
    pub fn finish_often(&self, expected: &[Status], calls: u64, least: u64) {
        self.finish(expected, calls);
        for (status, count) in Status::ALL.iter().zip(self.counts) {
            assert!(
                count == 0 || count >= least,
                "{}: {status} was seen only {count} times (seed {})",
                self.test,
                seed()
            );
        }
    }
}

/// The statuses that each test must see.
pub mod expected {
    use lanhduxe::Status::{self, *};

    pub const JOURNAL: [Status; 10] = [
        Success,
        InvalidParameter,
        InvalidDeviceRequest,
        BufferTooSmall,
        DiskFull,
        NotSupported,
        FileCorruptError,
        JournalDeleteInProgress,
        JournalNotActive,
        JournalEntryDeleted,
    ];
    pub const SAVE: [Status; 8] = [
        Success,
        InvalidDeviceRequest,
        BufferTooSmall,
        UnknownRevision,
        NotSupported,
        FileCorruptError,
        JournalDeleteInProgress,
        JournalNotActive,
    ];
    pub const LOAD: [Status; 7] = [
        Success,
        InvalidParameter,
        InvalidDeviceRequest,
        UnknownRevision,
        DiskFull,
        FileCorruptError,
        JournalDeleteInProgress,
    ];
    pub const MOVE: [Status; 5] = [
        Success,
        BufferTooSmall,
        UnknownRevision,
        NotSupported,
        FileCorruptError,
    ];
    pub const FILE: [Status; 6] = [
        Success,
        InvalidParameter,
        InvalidDeviceRequest,
        BufferTooSmall,
        NotSupported,
        FileCorruptError,
    ];
    pub const REGIONS: [Status; 6] = [
        Success,
        BufferOverflow,
        InvalidParameter,
        InvalidDeviceRequest,
        BufferTooSmall,
        FileCorruptError,
    ];
    pub const REPARSE: [Status; 6] = [
        Success,
        InvalidDeviceRequest,
        BufferTooSmall,
        FileCorruptError,
        NotAReparsePoint,
        VolumeNotUpgraded,
    ];
    pub const SET: [Status; 10] = [
        Success,
        InvalidParameter,
        InvalidDeviceRequest,
        DiskFull,
        FileCorruptError,
        IoReparseTagInvalid,
        IoReparseTagMismatch,
        IoReparseDataInvalid,
        VolumeNotUpgraded,
        ReparseAttributeConflict,
    ];
    pub const DELETE: [Status; 11] = [
        Success,
        InvalidParameter,
        InvalidDeviceRequest,
        DiskFull,
        FileCorruptError,
        NotAReparsePoint,
        IoReparseTagInvalid,
        IoReparseTagMismatch,
        IoReparseDataInvalid,
        VolumeNotUpgraded,
        ReparseAttributeConflict,
    ];
    pub const TABLE: [Status; 6] = [
        Success,
        InvalidParameter,
        InvalidDeviceRequest,
        EndOfFile,
        BufferTooSmall,
        FileCorruptError,
    ];
    pub const PATH: [Status; 5] = [
        Success,
        BufferTooSmall,
        ObjectPathNotFound,
        FileCorruptError,
        NameTooLong,
    ];
    pub const RECORD: [Status; 2] = [Success, InvalidParameter];
    pub const LISTER: [Status; 2] = [Success, BufferTooSmall];
}

/// Bytes that print as their length and hexadecimal digits.
pub struct Hex<'a>(pub &'a [u8]);

impl fmt::Debug for Hex<'_> {
    fn fmt(&self, f: &mut fmt::Formatter<'_>) -> fmt::Result {
        write!(f, "{} bytes ", self.0.len())?;
        for byte in self.0 {
            write!(f, "{byte:02x}")?;
        }
        Ok(())
    }
}

/// A lent buffer with random bytes in it and guard bytes behind it. One copy
/// goes to the library, one to the model, and one shows how both were before.
pub struct Lent {
    pub length: usize,
    pub before: Vec<u8>,
    pub library: Vec<u8>,
    pub model: Vec<u8>,
}

/// Guard bytes behind each lent buffer.
pub const GUARD: usize = 16;

impl Lent {
    /// An output buffer of this length, full of random bytes.
    pub fn output(rng: &mut Rng, length: usize) -> Lent {
        Lent::of(rng.bytes(length + GUARD), length)
    }

    /// A buffer that holds some bytes.
    pub fn holding(rng: &mut Rng, bytes: &[u8]) -> Lent {
        let mut all = bytes.to_vec();
        all.extend(rng.bytes(GUARD));
        Lent::of(all, bytes.len())
    }

    fn of(all: Vec<u8>, length: usize) -> Lent {
        Lent {
            length,
            library: all.clone(),
            model: all.clone(),
            before: all,
        }
    }

    /// The bytes as lent to the library.
    pub fn for_library(&mut self) -> &mut [u8] {
        &mut self.library[..self.length]
    }

    /// The bytes as lent to the model.
    pub fn for_model(&mut self) -> &mut [u8] {
        &mut self.model[..self.length]
    }

    /// The library changed nothing.
    pub fn same(&self) -> bool {
        self.library == self.before
    }

    /// The library left what the model left, and nothing changed past `count`.
    pub fn agrees(&self, count: usize) -> bool {
        self.library == self.model && self.library[count..] == self.before[count..]
    }
}

/// Panics with the seed, the call's index and the call, unless `agree` holds.
pub fn check(agree: bool, test: &str, index: u64, call: impl FnOnce() -> String) {
    if !agree {
        panic!("{test}: seed {}, call {index}: {}", seed(), call());
    }
}

pub fn model_volume(volume: &Volume) -> model::Volume {
    model::Volume {
        usn: volume.usn,
        regions: volume.regions,
        reparse: volume.reparse,
        points: volume.points,
        journal: volume.journal,
        state: volume.state,
        id: volume.id,
        first: volume.first,
        last: volume.last,
        capacity: volume.capacity,
    }
}

pub fn model_change(change: &Change) -> model::Change {
    model::Change {
        file: change.file.number(),
        parent: change.parent.number(),
        time: change.time,
        reason: change.reason,
        source: change.source,
        security: change.security,
        attributes: change.attributes,
    }
}

pub fn model_file(file: &FileRecord) -> model::File {
    model::File {
        id: file.id.number(),
        usn: file.usn,
        eof: file.eof,
        valid: file.valid,
        attributes: file.attributes,
        tag: file.tag,
        guid: file.guid,
        length: file.length,
    }
}

pub fn model_links(links: &[Link]) -> Vec<model::Link> {
    links
        .iter()
        .map(|link| model::Link {
            place: link.place,
            length: link.length,
            short: link.short,
        })
        .collect()
}

/// What a record says of a change.
pub fn change_of(record: &Record) -> Change {
    Change {
        file: record.file,
        parent: record.parent,
        time: record.time,
        reason: record.reason,
        source: record.source,
        security: record.security,
        attributes: record.attributes,
    }
}

/// A record's length in a version, for a name of so many bytes.
pub fn record_length(version: u16, name: usize) -> usize {
    let fixed = if version == 2 { 60 } else { 76 };
    (fixed + name).div_ceil(8) * 8
}

/// Whether version 2 cannot show a change.
pub fn is_wide(change: &Change) -> bool {
    change.file.is_wide() || change.parent.is_wide()
}

/// A record's bytes in a version, as its layout has them. Version 2 has the lower
/// eight bytes of an id.
pub fn lay_out(version: u16, change: &Change, usn: u64, name: &[u8]) -> Vec<u8> {
    let length = record_length(version, name.len());
    let offset: u16 = if version == 2 { 60 } else { 76 };
    let attributes = if change.attributes == 0 {
        0x80
    } else {
        change.attributes
    };
    let mut bytes = Vec::with_capacity(length);
    bytes.extend((length as u32).to_le_bytes());
    bytes.extend(version.to_le_bytes());
    bytes.extend(0u16.to_le_bytes());
    let width = if version == 2 { 8 } else { 16 };
    for id in [change.file, change.parent] {
        bytes.extend(&id.bytes[..width]);
    }
    bytes.extend(usn.to_le_bytes());
    bytes.extend(change.time.to_le_bytes());
    bytes.extend(change.reason.to_le_bytes());
    bytes.extend(change.source.to_le_bytes());
    bytes.extend(change.security.to_le_bytes());
    bytes.extend(attributes.to_le_bytes());
    bytes.extend((name.len() as u16).to_le_bytes());
    bytes.extend(offset.to_le_bytes());
    bytes.extend(name);
    bytes.resize(length, 0);
    bytes
}

/// Bytes of an image behind its records.
pub const TRAILER: usize = 32;

/// The forms of an image.
pub const FORMS: [u32; 2] = [1, 2];

/// Numbers of no form: next to those of a form, or with one of their bytes.
pub const NO_FORMS: [u32; 10] = [
    0,
    3,
    4,
    0x100,
    0x101,
    0x102,
    0x0100_0000,
    0x0200_0000,
    0x8000_0001,
    u32::MAX,
];

/// The version of the records in an image of a form.
pub fn version_of(form: u32) -> u16 {
    match form {
        1 => 2,
        2 => 3,
        _ => panic!("no image has form {form}"),
    }
}

/// The form that a move from this one leads to.
pub fn other_form(form: u32) -> u32 {
    match form {
        1 => 2,
        2 => 1,
        _ => panic!("no image has form {form}"),
    }
}

/// An image's bytes: the records', and the trailer with a form's number.
pub fn image(form: u32, body: &[u8], first: u64, id: u64) -> Vec<u8> {
    let mut bytes = body.to_vec();
    bytes.extend([0; 4]);
    bytes.extend((body.len() as u32).to_le_bytes());
    bytes.extend(first.to_le_bytes());
    bytes.extend(id.to_le_bytes());
    bytes.extend([0; 4]);
    bytes.extend(form.to_le_bytes());
    seal(&mut bytes);
    bytes
}

/// Puts the sum of an image right, where it has room for a trailer.
pub fn seal(image: &mut [u8]) {
    let Some(own) = image.len().checked_sub(8) else {
        return;
    };
    image[own..own + 4].fill(0);
    let mut sum = 0u32;
    for word in image.chunks_exact(4) {
        sum = sum.wrapping_add(u32::from_le_bytes([word[0], word[1], word[2], word[3]]));
    }
    image[own..own + 4].copy_from_slice(&sum.to_le_bytes());
}

/// The input of a journal read; a version pair is there from 48 bytes on.
#[derive(Clone, Copy, Debug)]
pub struct ReadInput {
    pub start: u64,
    pub mask: u32,
    pub only_on_close: u32,
    pub id: u64,
    pub lowest: u16,
    pub highest: u16,
    pub size: usize,
}

impl ReadInput {
    /// The input's bytes, at most 64, with random ones in the ignored places.
    pub fn bytes(&self, rng: &mut Rng) -> Vec<u8> {
        let mut bytes = Vec::with_capacity(64);
        bytes.extend(self.start.to_le_bytes());
        bytes.extend(self.mask.to_le_bytes());
        bytes.extend(self.only_on_close.to_le_bytes());
        bytes.extend(rng.draw().to_le_bytes());
        bytes.extend(rng.draw().to_le_bytes());
        bytes.extend(self.id.to_le_bytes());
        bytes.extend(self.lowest.to_le_bytes());
        bytes.extend(self.highest.to_le_bytes());
        bytes.extend(rng.bytes(20));
        bytes.truncate(self.size);
        bytes
    }

    /// The version that this input asks for, if it asks for a known one.
    pub fn version(&self) -> Option<u16> {
        match self.size {
            ..48 => Some(2),
            _ => version_from(self.lowest, self.highest),
        }
    }

    /// Whether the mask and the flag select a reason.
    pub fn selects(&self, reason: u32) -> bool {
        selects(self.mask, self.only_on_close, reason)
    }
}

/// The version that a reply has for these two, if it has one.
pub fn version_from(lowest: u16, highest: u16) -> Option<u16> {
    if lowest > highest || lowest > 3 || highest < 2 {
        return None;
    }
    Some(if highest >= 3 { 3 } else { 2 })
}

/// The input of a region query. Its last four bytes are ignored.
pub fn region_input(offset: u64, length: u64, usage: u32) -> Vec<u8> {
    let mut input = Vec::new();
    input.extend(offset.to_le_bytes());
    input.extend(length.to_le_bytes());
    input.extend(usage.to_le_bytes());
    input.extend([0xDD; 4]);
    input
}

/// Whether a mask and an only-on-close flag select a reason.
pub fn selects(mask: u32, only_on_close: u32, reason: u32) -> bool {
    reason & mask != 0 && (only_on_close == 0 || reason >> 31 == 1)
}

/// A reason: mostly one or two bits, sometimes 0 or with the close bit.
pub fn reason(rng: &mut Rng) -> u32 {
    let bits = match rng.below(10) {
        0 => 0,
        1..=5 => 1 << rng.below(32),
        6..=7 => 1 << rng.below(3) | 1 << rng.below(32),
        8 => u32::MAX,
        _ => rng.draw() as u32,
    };
    if rng.percent(25) {
        bits | 0x8000_0000
    } else {
        bits
    }
}

/// A reason mask: all, none, one bit, few bits or any.
pub fn mask(rng: &mut Rng) -> u32 {
    match rng.below(10) {
        0..=3 => u32::MAX,
        4 => 0,
        5..=6 => 1 << rng.below(32),
        7 => 0x8000_0000,
        8 => 1 << rng.below(3) | 1 << rng.below(3),
        _ => rng.draw() as u32,
    }
}

/// A name's length for a post: good ones, and one in `bad` not good.
pub fn name_length(rng: &mut Rng, bad: u64) -> usize {
    if bad > 0 && rng.below(bad) == 0 {
        return rng.pick(&[0, 0, 1, 3, 509, 511, 512, 513, 514, 600, 65_536 + 2]);
    }
    match rng.below(10) {
        0..=1 => 2,
        2 => 4,
        3 => 6,
        4 => 508,
        5 => 510,
        6..=8 => 2 * rng.between(1, 20) as usize,
        _ => 2 * rng.between(1, 255) as usize,
    }
}

/// The code units that no name may hold.
pub const EXCLUDED: [u16; 3] = [0x0000, 0x002F, 0x005C];

/// Units that only look like an excluded one: the number is next to it, or one
/// of the bytes is the same, or its bytes are in the other order.
pub const ALIKE: [u16; 18] = [
    0x0001, 0x002E, 0x0030, 0x005B, 0x005D, 0x0100, 0x015C, 0x2F00, 0x2F5C, 0x5C00, 0x5C2F, 0x5C5C,
    0x7FFF, 0x8000, 0x802F, 0x805C, 0xFF5C, 0xFFFF,
];

/// Whether one of a name's code units is excluded. They stand at the even places.
pub fn holds_excluded(name: &[u8]) -> bool {
    name.chunks_exact(2)
        .any(|unit| EXCLUDED.contains(&u16::from_le_bytes([unit[0], unit[1]])))
}

/// Random bytes for a name, which is good if its length is. No two bytes, at an
/// even place or an odd one, are an excluded unit: what begins anywhere in them
/// is good too.
pub fn name(rng: &mut Rng, length: usize) -> Vec<u8> {
    let mut name = rng.bytes(length);
    for place in 1..length {
        if holds_excluded(&name[place - 1..=place]) {
            name[place] = 0x61;
        }
    }
    name
}

/// A name as a call may be given it: one in `planted` has a unit planted in it.
pub fn any_name(rng: &mut Rng, length: usize, planted: u64) -> Vec<u8> {
    let mut name = name(rng, length);
    if rng.below(planted) == 0 {
        plant_some(rng, &mut name);
    }
    name
}

/// Plants a unit somewhere in a name that has room for one: one that is excluded,
/// one that looks alike, or the bytes of an excluded one at an odd place.
pub fn plant_some(rng: &mut Rng, name: &mut [u8]) {
    let units = name.len() as u64 / 2;
    match rng.below(4) {
        _ if units == 0 => {}
        0..=1 => plant_excluded(rng, name),
        2 => plant(name, 2 * rng.below(units) as usize, rng.pick(&ALIKE)),
        _ if units == 1 => {}
        _ => plant(
            name,
            2 * rng.below(units - 1) as usize + 1,
            rng.pick(&EXCLUDED),
        ),
    }
}

/// Plants an excluded unit in a name that is not empty.
pub fn plant_excluded(rng: &mut Rng, name: &mut [u8]) {
    let place = 2 * rng.below(name.len() as u64 / 2) as usize;
    plant(name, place, rng.pick(&EXCLUDED));
}

/// Writes a unit's two bytes at a place.
pub fn plant(name: &mut [u8], place: usize, unit: u16) {
    name[place..place + 2].copy_from_slice(&unit.to_le_bytes());
}

/// The change that is in every record made by hand.
pub const CHANGE: Change = Change {
    file: FileId::new(41),
    parent: FileId::new(5),
    time: 0x1234_5678_9ABC_DEF0,
    reason: 0x8000_0102,
    source: 1,
    security: 2,
    attributes: 0x20,
};

/// An id that version 2 can show.
pub fn narrow_id(rng: &mut Rng) -> FileId {
    rng.long().into()
}

/// An id that version 2 cannot show: with one of the upper eight bytes, or just
/// one bit of them, or with sixteen random bytes.
pub fn wide_id(rng: &mut Rng) -> FileId {
    let mut id = narrow_id(rng);
    let upper = &mut id.bytes[8 + rng.below(8) as usize];
    match rng.below(4) {
        0 => *upper = 1 << rng.below(8),
        1..=2 => *upper = rng.between(1, 255) as u8,
        _ => {
            rng.fill(&mut id.bytes);
            id.bytes[15] |= 1;
        }
    }
    id
}

/// The ids of a file and its parent. `wide` times out of a hundred one of them is
/// wide, or both are, with the same upper bytes or with others.
pub fn ids(rng: &mut Rng, wide: u64) -> (FileId, FileId) {
    let (file, parent) = (narrow_id(rng), narrow_id(rng));
    if !rng.percent(wide) {
        return (file, parent);
    }
    let id = wide_id(rng);
    match rng.below(6) {
        0..=1 => (id, parent),
        2..=3 => (file, id),
        4 => (id, id),
        _ => (id, wide_id(rng)),
    }
}

/// How often a journal's records have a wide id, out of a hundred: never, now and
/// then, often, always.
pub fn share_of_wide(rng: &mut Rng) -> u64 {
    rng.pick(&[0, 0, 0, 2, 5, 10, 30, 100])
}

/// The fields of a change that version 2 can show.
pub fn change(rng: &mut Rng) -> Change {
    any_change(rng, 0)
}

/// The fields of a change, `wide` times out of a hundred with a wide id.
pub fn any_change(rng: &mut Rng, wide: u64) -> Change {
    let (file, parent) = ids(rng, wide);
    Change {
        file,
        parent,
        time: rng.long(),
        reason: reason(rng),
        source: rng.word(),
        security: rng.word(),
        attributes: rng.word(),
    }
}

/// A right capacity, more often a small one.
pub fn capacity(rng: &mut Rng) -> u64 {
    match rng.below(20) {
        0..=4 => 1024,
        5..=9 => 8 * rng.between(128, 160),
        10..=15 => 8 * rng.between(128, 512),
        16..=17 => 8 * rng.between(512, 1024),
        18 => 8 * rng.between(1024, 8192),
        _ => rng.pick(&[4096, 16_384, 65_528, 65_536]),
    }
}

/// A right LastUsn for a creation: 0, small, large, or close to the limit.
pub fn last_usn(rng: &mut Rng) -> u64 {
    match rng.below(8) {
        0..=2 => 0,
        3..=4 => 8 * rng.below(1 << 14),
        5 => 8 * rng.below(1 << 60),
        6 => (1 << 32) - 8 * rng.below(64),
        _ => NEGATIVE - 8 - 8 * rng.below(2500),
    }
}
