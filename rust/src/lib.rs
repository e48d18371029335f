//! Safe calls for seven file controls and a change journal over lent memory.
//!
//! The library behind this crate allocates nothing and keeps nothing. The
//! caller owns a [`Volume`] record, the journal's ring and every other buffer,
//! and lends them for the length of one call.
//!
//! Each call gives one [`Status`]. [`Status::BufferOverflow`] is a warning: the
//! reply holds a part of what was asked for. Every other status but
//! [`Status::Success`] is a refusal: the count is zero, and no buffer and no
//! record has changed. The bytes of an output buffer past the count are as they
//! were.
//!
//! Positions, sizes and times are 64-bit patterns in `u64`; where a layout has a
//! signed number, a pattern of 2^63 or above is negative.
//!
//! A file's id is a number of 128 bits, a [`FileId`]. A record of version 3 has
//! all of it, one of version 2 the lower 64 bits: an id with more of them is
//! wide, and version 2 cannot show it.
//!
//! # Example
//!
//! Create a journal, post one change, read it back and walk the reply:
//!
//! ```
//! use lanhduxe::{move_image, walk_reply, Change, FileId, Status, Volume};
//!
//! let mut ring = vec![0; 1024];
//! let mut volume = Volume { journal: 1, capacity: 1024, ..Volume::default() };
//! assert_eq!(volume.create(7), Status::Success);
//!
//! let (file, parent) = (FileId::new(5), FileId::new(2));
//! let change = Change { file, parent, reason: 0x100, ..Change::default() };
//! let mut usn = 0;
//! assert_eq!(volume.post(&mut ring, &change, b"a\0", &mut usn), Status::Success);
//! assert_eq!(usn, 80);
//!
//! let mut input = [0; 48]; // StartUsn 0: from the oldest record kept
//! input[8..12].copy_from_slice(&u32::MAX.to_le_bytes()); // ReasonMask
//! input[32..40].copy_from_slice(&7u64.to_le_bytes()); // the journal's id
//! input[40..42].copy_from_slice(&2u16.to_le_bytes()); // lowest version
//! input[42..44].copy_from_slice(&3u16.to_le_bytes()); // highest version
//! let mut output = [0; 600];
//! let answer = volume.read_journal(&ring, &input, &mut output);
//! assert_eq!(answer.status, Status::Success);
//!
//! let walk = walk_reply(&output[..answer.count]).expect("a whole reply");
//! assert_eq!((walk.position, walk.count), (80, 1));
//!
//! // An image of the journal, in form 2, to be kept in a file, and the journal from it after a
//! // restart.
//! let mut image = [0; 1024 + 32];
//! let saved = volume.save_journal(&ring, 2, &mut image);
//! assert_eq!((saved.status, saved.count), (Status::Success, 112));
//!
//! let mut ring = vec![0; 1024];
//! let mut volume = Volume { journal: 1, capacity: 1024, ..Volume::default() };
//! assert_eq!(volume.load_journal(&mut ring, &image[..saved.count], 8), Status::Success);
//! assert_eq!((volume.first, volume.last), (0, 80));
//!
//! // The same image in form 1, for a server that knows no other.
//! let mut older = [0; 1024 + 32];
//! let moved = move_image(&image[..saved.count], 2, &mut older);
//! assert_eq!((moved.status, moved.count), (Status::Success, 96));
//! ```
//!
//! A file with a wide id is read in version 3. In version 2 a reply ends before
//! its record, and is refused if that is the first one:
//!
//! ```
//! use lanhduxe::{read_record, Change, FileId, Status, Volume};
//!
//! let mut ring = vec![0; 1024];
//! let mut volume = Volume { journal: 1, capacity: 1024, ..Volume::default() };
//! assert_eq!(volume.create(7), Status::Success);
//!
//! let file = FileId::new(1 << 64 | 5);
//! assert!(file.is_wide());
//! let change = Change { file, reason: 0x100, ..Change::default() };
//! let mut usn = 0;
//! assert_eq!(volume.post(&mut ring, &change, b"a\0", &mut usn), Status::Success);
//!
//! let mut input = [0; 48];
//! input[8..12].copy_from_slice(&u32::MAX.to_le_bytes());
//! input[32..40].copy_from_slice(&7u64.to_le_bytes());
//! let mut output = [0; 600];
//! input[42] = 2; // highest version
//! let answer = volume.read_journal(&ring, &input, &mut output);
//! assert_eq!((answer.status, answer.count), (Status::NotSupported, 0));
//!
//! input[42] = 3;
//! let answer = volume.read_journal(&ring, &input, &mut output);
//! assert_eq!(answer.status, Status::Success);
//! let record = read_record(&output[..answer.count], 8).expect("a record");
//! assert_eq!(record.file.number(), 1 << 64 | 5);
//! ```

#![warn(missing_docs)]

use core::fmt;
use core::mem::{align_of, offset_of, size_of, size_of_val};
use core::ops::Range;

/// The library's C interface.
mod c {
    use super::{Change, FileId, FileRecord, Link, Volume};

    /// `usn_answer`
    #[repr(C)]
    pub struct Answer {
        pub status: u32,
        pub count: u64,
    }

    /// `usn_walk`
    #[repr(C)]
    pub struct Walk {
        pub status: u32,
        pub position: u64,
        pub count: u64,
        pub bad: u64,
    }

    /// `usn_record`
    #[repr(C)]
    pub struct Record {
        pub status: u32,
        pub version: u32,
        pub file: FileId,
        pub parent: FileId,
        pub usn: u64,
        pub time: u64,
        pub reason: u32,
        pub source: u32,
        pub security: u32,
        pub attributes: u32,
        pub name: u64,
        pub length: u64,
        pub next: u64,
    }

    extern "C" {
        pub fn usn_create(volume: *mut Volume, id: u64) -> u32;
        pub fn usn_delete(volume: *mut Volume, id: u64) -> u32;
        pub fn usn_finish(volume: *mut Volume) -> u32;
        pub fn usn_post(
            volume: *mut Volume,
            ring: *mut u8,
            ring_size: usize,
            change: Change,
            name: *const u8,
            name_size: usize,
            usn: *mut u64,
        ) -> u32;
        pub fn usn_read_journal(
            volume: Volume,
            ring: *const u8,
            ring_size: usize,
            input: *const u8,
            input_size: usize,
            output: *mut u8,
            output_size: usize,
        ) -> Answer;
        pub fn usn_save_journal(
            volume: Volume,
            ring: *const u8,
            ring_size: usize,
            form: u32,
            output: *mut u8,
            output_size: usize,
        ) -> Answer;
        pub fn usn_load_journal(
            volume: *mut Volume,
            ring: *mut u8,
            ring_size: usize,
            image: *const u8,
            image_size: usize,
            id: u64,
        ) -> u32;
        pub fn usn_move_image(
            image: *const u8,
            image_size: usize,
            from: u32,
            output: *mut u8,
            output_size: usize,
        ) -> Answer;
        pub fn usn_read_file(
            volume: Volume,
            file: FileRecord,
            parent: FileId,
            pool: *const u8,
            pool_size: usize,
            links: *const Link,
            link_count: usize,
            input: *const u8,
            input_size: usize,
            output: *mut u8,
            output_size: usize,
        ) -> Answer;
        pub fn usn_query_file_regions(
            volume: Volume,
            file: FileRecord,
            input: *const u8,
            input_size: usize,
            output: *mut u8,
            output_size: usize,
        ) -> Answer;
        pub fn usn_get_reparse_point(
            volume: Volume,
            file: FileRecord,
            store: *const u8,
            store_size: usize,
            output: *mut u8,
            output_size: usize,
        ) -> Answer;
        pub fn usn_set_reparse_point(
            volume: *mut Volume,
            ring: *mut u8,
            ring_size: usize,
            file: *mut FileRecord,
            store: *mut u8,
            store_size: usize,
            change: Change,
            name: *const u8,
            name_size: usize,
            input: *const u8,
            input_size: usize,
        ) -> u32;
        pub fn usn_delete_reparse_point(
            volume: *mut Volume,
            ring: *mut u8,
            ring_size: usize,
            file: *mut FileRecord,
            store: *const u8,
            store_size: usize,
            change: Change,
            name: *const u8,
            name_size: usize,
            input: *const u8,
            input_size: usize,
        ) -> u32;
        pub fn usn_enumerate_rows(
            volume: Volume,
            table: *const u8,
            table_size: usize,
            pool: *const u8,
            pool_size: usize,
            input: *const u8,
            input_size: usize,
            output: *mut u8,
            output_size: usize,
        ) -> Answer;
        pub fn usn_row_path(
            table: *const u8,
            table_size: usize,
            pool: *const u8,
            pool_size: usize,
            id: FileId,
            root: FileId,
            output: *mut u8,
            output_size: usize,
        ) -> Answer;
        pub fn usn_read_record(bytes: *const u8, size: usize, at: usize) -> Record;
        pub fn usn_walk_reply(reply: *const u8, size: usize) -> Walk;
        pub fn usn_list_reply(
            reply: *const u8,
            size: usize,
            output: *mut u8,
            output_size: usize,
        ) -> Answer;
    }
}

/// The layouts that the C interface fixes, checked when this crate is compiled.
const _: () = {
    assert!(size_of::<usize>() == 8);
    assert!(cfg!(target_endian = "little"));

    assert!(size_of::<Volume>() == 56);
    assert!(offset_of!(Volume, usn) == 0);
    assert!(offset_of!(Volume, regions) == 4);
    assert!(offset_of!(Volume, reparse) == 8);
    assert!(offset_of!(Volume, points) == 12);
    assert!(offset_of!(Volume, journal) == 16);
    assert!(offset_of!(Volume, state) == 20);
    assert!(offset_of!(Volume, id) == 24);
    assert!(offset_of!(Volume, first) == 32);
    assert!(offset_of!(Volume, last) == 40);
    assert!(offset_of!(Volume, capacity) == 48);

    assert!(size_of::<FileId>() == 16);
    assert!(align_of::<FileId>() == 1);
    assert!(offset_of!(FileId, bytes) == 0);

    assert!(size_of::<Change>() == 56);
    assert!(offset_of!(Change, file) == 0);
    assert!(offset_of!(Change, parent) == 16);
    assert!(offset_of!(Change, time) == 32);
    assert!(offset_of!(Change, reason) == 40);
    assert!(offset_of!(Change, source) == 44);
    assert!(offset_of!(Change, security) == 48);
    assert!(offset_of!(Change, attributes) == 52);

    assert!(size_of::<FileRecord>() == 72);
    assert!(offset_of!(FileRecord, id) == 0);
    assert!(offset_of!(FileRecord, usn) == 16);
    assert!(offset_of!(FileRecord, eof) == 24);
    assert!(offset_of!(FileRecord, valid) == 32);
    assert!(offset_of!(FileRecord, attributes) == 40);
    assert!(offset_of!(FileRecord, tag) == 44);
    assert!(offset_of!(FileRecord, guid) == 48);
    assert!(offset_of!(FileRecord, length) == 64);

    assert!(size_of::<Link>() == 12);
    assert!(offset_of!(Link, place) == 0);
    assert!(offset_of!(Link, length) == 4);
    assert!(offset_of!(Link, short) == 8);

    assert!(size_of::<Entry>() == 56);
    assert!(offset_of!(Entry, id) == 0);
    assert!(offset_of!(Entry, parent) == 16);
    assert!(offset_of!(Entry, usn) == 32);
    assert!(offset_of!(Entry, attributes) == 40);
    assert!(offset_of!(Entry, name_length) == 44);
    assert!(offset_of!(Entry, name_place) == 48);

    assert!(size_of::<c::Answer>() == 16);
    assert!(offset_of!(c::Answer, status) == 0);
    assert!(offset_of!(c::Answer, count) == 8);

    assert!(size_of::<c::Walk>() == 32);
    assert!(offset_of!(c::Walk, status) == 0);
    assert!(offset_of!(c::Walk, position) == 8);
    assert!(offset_of!(c::Walk, count) == 16);
    assert!(offset_of!(c::Walk, bad) == 24);

    assert!(size_of::<c::Record>() == 96);
    assert!(offset_of!(c::Record, status) == 0);
    assert!(offset_of!(c::Record, version) == 4);
    assert!(offset_of!(c::Record, file) == 8);
    assert!(offset_of!(c::Record, parent) == 24);
    assert!(offset_of!(c::Record, usn) == 40);
    assert!(offset_of!(c::Record, time) == 48);
    assert!(offset_of!(c::Record, reason) == 56);
    assert!(offset_of!(c::Record, source) == 60);
    assert!(offset_of!(c::Record, security) == 64);
    assert!(offset_of!(c::Record, attributes) == 68);
    assert!(offset_of!(c::Record, name) == 72);
    assert!(offset_of!(c::Record, length) == 80);
    assert!(offset_of!(c::Record, next) == 88);
};

/// The status of a call.
#[derive(Clone, Copy, Debug, PartialEq, Eq, PartialOrd, Ord, Hash)]
#[repr(u32)]
pub enum Status {
    /// `STATUS_SUCCESS`: done.
    Success = 0,
    /// `STATUS_BUFFER_OVERFLOW`, a warning: a second region is due and has no
    /// room; the first is in the reply.
    BufferOverflow = 0x8000_0005,
    /// `STATUS_INVALID_PARAMETER`: an argument or an input field is wrong.
    InvalidParameter = 0xC000_000D,
    /// `STATUS_INVALID_DEVICE_REQUEST`: the volume does not support the control.
    InvalidDeviceRequest = 0xC000_0010,
    /// `STATUS_END_OF_FILE`: no file of the table is selected.
    EndOfFile = 0xC000_0011,
    /// `STATUS_BUFFER_TOO_SMALL`: an input or output buffer is too short.
    BufferTooSmall = 0xC000_0023,
    /// `STATUS_OBJECT_PATH_NOT_FOUND`: a file on the way to the root is not in the
    /// table.
    ObjectPathNotFound = 0xC000_003A,
    /// `STATUS_UNKNOWN_REVISION`: a form that is not known, or not the one that
    /// an image is moved from.
    UnknownRevision = 0xC000_0058,
    /// `STATUS_DISK_FULL`: no position is left for the record, or the ring has
    /// no room for the image's records.
    DiskFull = 0xC000_007F,
    /// `STATUS_NOT_SUPPORTED`: a wide id, which version 2 cannot show.
    NotSupported = 0xC000_00BB,
    /// `STATUS_FILE_CORRUPT_ERROR`: a bad file record, table of files, volume
    /// record, ring or image.
    FileCorruptError = 0xC000_0102,
    /// `STATUS_NAME_TOO_LONG`: the root is more than 64 steps away, or the parents
    /// form a loop without it.
    NameTooLong = 0xC000_0106,
    /// `STATUS_NOT_A_REPARSE_POINT`: the file has no reparse tag.
    NotAReparsePoint = 0xC000_0275,
    /// `STATUS_IO_REPARSE_TAG_INVALID`: the reparse tag in the input is 0.
    IoReparseTagInvalid = 0xC000_0276,
    /// `STATUS_IO_REPARSE_TAG_MISMATCH`: the file has another reparse tag.
    IoReparseTagMismatch = 0xC000_0277,
    /// `STATUS_IO_REPARSE_DATA_INVALID`: the input is not one reparse point, or
    /// for a delete not its header alone.
    IoReparseDataInvalid = 0xC000_0278,
    /// `STATUS_VOLUME_NOT_UPGRADED`: the volume has no reparse points.
    VolumeNotUpgraded = 0xC000_029C,
    /// `STATUS_REPARSE_ATTRIBUTE_CONFLICT`: the file has the same reparse tag
    /// with another GUID.
    ReparseAttributeConflict = 0xC000_02B2,
    /// `STATUS_JOURNAL_DELETE_IN_PROGRESS`: the journal is being deleted.
    JournalDeleteInProgress = 0xC000_02B7,
    /// `STATUS_JOURNAL_NOT_ACTIVE`: the volume has no journal.
    JournalNotActive = 0xC000_02B8,
    /// `STATUS_JOURNAL_ENTRY_DELETED`: records behind the start are gone.
    JournalEntryDeleted = 0xC000_02CF,
}

impl Status {
    /// All statuses, by rising number.
    pub const ALL: [Status; 21] = [
        Status::Success,
        Status::BufferOverflow,
        Status::InvalidParameter,
        Status::InvalidDeviceRequest,
        Status::EndOfFile,
        Status::BufferTooSmall,
        Status::ObjectPathNotFound,
        Status::UnknownRevision,
        Status::DiskFull,
        Status::NotSupported,
        Status::FileCorruptError,
        Status::NameTooLong,
        Status::NotAReparsePoint,
        Status::IoReparseTagInvalid,
        Status::IoReparseTagMismatch,
        Status::IoReparseDataInvalid,
        Status::VolumeNotUpgraded,
        Status::ReparseAttributeConflict,
        Status::JournalDeleteInProgress,
        Status::JournalNotActive,
        Status::JournalEntryDeleted,
    ];

    /// The NTSTATUS number.
    pub const fn number(self) -> u32 {
        self as u32
    }

    /// Whether a call with this status was refused: it reported no bytes and
    /// changed nothing. A warning is no refusal.
    pub const fn is_refusal(self) -> bool {
        !matches!(self, Status::Success | Status::BufferOverflow)
    }

    /// The status with a number that the library gave back.
    #[inline]
    fn of(number: u32) -> Status {
        if number == 0 {
            return Status::Success;
        }
        match Status::ALL.iter().find(|status| status.number() == number) {
            Some(status) => *status,
            None => panic!("the library gave status {number:#010x}, which is not in the table"),
        }
    }
}

impl fmt::Display for Status {
    fn fmt(&self, f: &mut fmt::Formatter<'_>) -> fmt::Result {
        f.pad(match self {
            Status::Success => "STATUS_SUCCESS",
            Status::BufferOverflow => "STATUS_BUFFER_OVERFLOW",
            Status::InvalidParameter => "STATUS_INVALID_PARAMETER",
            Status::InvalidDeviceRequest => "STATUS_INVALID_DEVICE_REQUEST",
            Status::EndOfFile => "STATUS_END_OF_FILE",
            Status::BufferTooSmall => "STATUS_BUFFER_TOO_SMALL",
            Status::ObjectPathNotFound => "STATUS_OBJECT_PATH_NOT_FOUND",
            Status::UnknownRevision => "STATUS_UNKNOWN_REVISION",
            Status::DiskFull => "STATUS_DISK_FULL",
            Status::NotSupported => "STATUS_NOT_SUPPORTED",
            Status::FileCorruptError => "STATUS_FILE_CORRUPT_ERROR",
            Status::NameTooLong => "STATUS_NAME_TOO_LONG",
            Status::NotAReparsePoint => "STATUS_NOT_A_REPARSE_POINT",
            Status::IoReparseTagInvalid => "STATUS_IO_REPARSE_TAG_INVALID",
            Status::IoReparseTagMismatch => "STATUS_IO_REPARSE_TAG_MISMATCH",
            Status::IoReparseDataInvalid => "STATUS_IO_REPARSE_DATA_INVALID",
            Status::VolumeNotUpgraded => "STATUS_VOLUME_NOT_UPGRADED",
            Status::ReparseAttributeConflict => "STATUS_REPARSE_ATTRIBUTE_CONFLICT",
            Status::JournalDeleteInProgress => "STATUS_JOURNAL_DELETE_IN_PROGRESS",
            Status::JournalNotActive => "STATUS_JOURNAL_NOT_ACTIVE",
            Status::JournalEntryDeleted => "STATUS_JOURNAL_ENTRY_DELETED",
        })
    }
}

/// The volume record: what the volume supports, and its journal.
///
/// A support flag of 0 means no, any other number yes.
#[derive(Clone, Copy, Debug, Default, PartialEq, Eq)]
#[repr(C)]
pub struct Volume {
    /// Whether a file's USN data can be read.
    pub usn: u32,
    /// Whether file regions can be queried.
    pub regions: u32,
    /// Whether the reparse point controls are there.
    pub reparse: u32,
    /// Whether the volume has reparse points at all.
    pub points: u32,
    /// Whether the volume supports a journal, and an enumeration of its files.
    pub journal: u32,
    /// The journal's state: 1 active, 2 being deleted, any other number idle.
    pub state: u32,
    /// The journal's id, or the last one used.
    pub id: u64,
    /// The position where the oldest kept record begins.
    pub first: u64,
    /// The position behind the newest record (LastUsn).
    pub last: u64,
    /// The ring's length in bytes, a multiple of 8 from 1,024 to 65,536.
    pub capacity: u64,
}

/// A file's id: a number of 128 bits, as its sixteen bytes.
///
/// ```
/// use lanhduxe::FileId;
///
/// let id = FileId::new(0x0102);
/// assert_eq!(id.bytes, [2, 1, 0, 0, 0, 0, 0, 0, 0, 0, 0, 0, 0, 0, 0, 0]);
/// assert_eq!(id, FileId::from(0x0102u64));
/// assert!(!id.is_wide() && FileId::new(1 << 64).is_wide());
/// ```
#[derive(Clone, Copy, Debug, Default, PartialEq, Eq, Hash)]
#[repr(C)]
pub struct FileId {
    /// The bytes, the lowest first.
    pub bytes: [u8; 16],
}

impl FileId {
    /// The id with a number.
    #[inline]
    pub const fn new(number: u128) -> FileId {
        FileId {
            bytes: number.to_le_bytes(),
        }
    }

    /// The id as a number.
    #[inline]
    pub const fn number(self) -> u128 {
        u128::from_le_bytes(self.bytes)
    }

    /// Whether one of the upper eight bytes is not 0. Version 2 of a record
    /// cannot show such an id.
    #[inline]
    pub const fn is_wide(self) -> bool {
        self.number() > u64::MAX as u128
    }
}

impl From<u128> for FileId {
    #[inline]
    fn from(number: u128) -> FileId {
        FileId::new(number)
    }
}

/// An id that is not wide.
impl From<u64> for FileId {
    #[inline]
    fn from(number: u64) -> FileId {
        FileId::new(number.into())
    }
}

/// What a post says about a change, apart from the name.
#[derive(Clone, Copy, Debug, Default, PartialEq, Eq)]
#[repr(C)]
pub struct Change {
    /// The file's id.
    pub file: FileId,
    /// The id of the folder that holds the name.
    pub parent: FileId,
    /// The time of the change.
    pub time: u64,
    /// The reasons, one bit each. A post with reason 0 is skipped.
    pub reason: u32,
    /// The source of the change.
    pub source: u32,
    /// The security id.
    pub security: u32,
    /// The file's attributes. 0 is written as 0x80.
    pub attributes: u32,
}

/// A file record.
#[derive(Clone, Copy, Debug, Default, PartialEq, Eq)]
#[repr(C)]
pub struct FileRecord {
    /// The file's id.
    pub id: FileId,
    /// The Usn of the file's last change; below 2^63.
    pub usn: u64,
    /// The file's length; below 2^63.
    pub eof: u64,
    /// The valid data length; at most `eof`.
    pub valid: u64,
    /// The attributes. 0 is written as 0x80.
    pub attributes: u32,
    /// The reparse tag; 0 for none. A tag with bit 31 is a Microsoft tag.
    pub tag: u32,
    /// The reparse GUID, given out for tags that are not Microsoft's.
    pub guid: [u8; 16],
    /// The length of the reparse data: at most 16,376 with a Microsoft tag and
    /// 16,360 with another, 0 with none.
    pub length: u64,
}

/// One entry of a file's link table.
#[derive(Clone, Copy, Debug, Default, PartialEq, Eq)]
#[repr(C)]
pub struct Link {
    /// Where the name begins in the name pool.
    pub place: u32,
    /// The name's length in bytes: even, 0 to 510. No code unit of the name is
    /// 0, 0x2F or 0x5C.
    pub length: u32,
    /// The short name's length; only 0 or not 0 matters.
    pub short: u32,
}

/// One file of a table: a row.
#[derive(Clone, Copy, Debug, Default, PartialEq, Eq)]
#[repr(C)]
pub struct Entry {
    /// The file's id, which no other row of the table has; not 2^64 - 1.
    pub id: FileId,
    /// The id of the folder that holds the name.
    pub parent: FileId,
    /// The Usn of the file's last change; below 2^63.
    pub usn: u64,
    /// The attributes. 0 is written as 0x80.
    pub attributes: u32,
    /// The name's length in bytes: even, 0 to 510. No code unit of the name is
    /// 0, 0x2F or 0x5C.
    pub name_length: u32,
    /// Where the name begins in the name pool.
    pub name_place: u64,
}

/// A status, and the number of output bytes written.
#[derive(Clone, Copy, Debug, PartialEq, Eq)]
pub struct Answer {
    /// The status.
    pub status: Status,
    /// The bytes written at the start of the output; 0 for a refusal.
    pub count: usize,
}

impl Answer {
    /// The library's answer about an output buffer of `room` bytes.
    #[inline]
    fn of(answer: c::Answer, room: usize) -> Answer {
        let status = Status::of(answer.status);
        let count = answer.count as usize;
        assert!(
            count <= room && (count == 0 || !status.is_refusal()),
            "the library reported {count} bytes with {status} for an output of {room}"
        );
        Answer { status, count }
    }
}

impl Volume {
    /// Creates a journal with a new id. It is empty at the kept `last`.
    ///
    /// On success the state becomes active, `id` becomes the new id and `first`
    /// becomes `last`. Nothing is lent.
    ///
    /// Refusals, in order: [`Status::JournalDeleteInProgress`] while deleting;
    /// [`Status::InvalidParameter`] if active, or if `id` is 0 or the last one
    /// used; [`Status::FileCorruptError`] for a wrong `capacity` or `last`.
    #[inline]
    pub fn create(&mut self, id: u64) -> Status {
        // SAFETY: the pointer comes from a live exclusive borrow of a record
        // with the C layout.
        Status::of(unsafe { c::usn_create(self, id) })
    }

    /// Begins to delete the journal with this id.
    ///
    /// On success only the state changes, to deleting. Nothing is lent.
    ///
    /// Refusals, in order: [`Status::JournalDeleteInProgress`];
    /// [`Status::JournalNotActive`]; [`Status::InvalidParameter`] for a wrong
    /// id.
    #[inline]
    pub fn delete(&mut self, id: u64) -> Status {
        // SAFETY: as in `create`.
        Status::of(unsafe { c::usn_delete(self, id) })
    }

    /// Finishes the deletion of the journal.
    ///
    /// On success only the state changes, to idle. Nothing is lent.
    ///
    /// Refusals, in order: [`Status::JournalNotActive`] if idle;
    /// [`Status::InvalidParameter`] if active.
    #[inline]
    pub fn finish(&mut self) -> Status {
        // SAFETY: as in `create`.
        Status::of(unsafe { c::usn_finish(self) })
    }

    /// Posts a change to the journal.
    ///
    /// Lent are the ring and the name, in bytes of UTF-16 code units. The post
    /// drops as few of the oldest records as needed, writes the record's bytes
    /// into the ring and no others, and sets `first`, `last` and `usn`, the
    /// file's Usn, which becomes the position where the record ends.
    ///
    /// A post is skipped with [`Status::Success`], and nothing changes, if the
    /// volume has no journal, the journal is not active, or the reason is 0.
    /// This comes before every refusal.
    ///
    /// Refusals, in order: [`Status::FileCorruptError`] for an unsound ring,
    /// wrong positions, a wrong capacity or a ring of another length;
    /// [`Status::InvalidParameter`] for a name that is odd, empty, above 510
    /// bytes or with a code unit 0, 0x2F or 0x5C; [`Status::DiskFull`] if `last`
    /// would pass 2^63 - 1.
    #[inline]
    pub fn post(&mut self, ring: &mut [u8], change: &Change, name: &[u8], usn: &mut u64) -> Status {
        // SAFETY: each pointer and length comes from a live borrow; those of
        // the record, the ring and the Usn are exclusive.
        Status::of(unsafe {
            c::usn_post(
                self,
                ring.as_mut_ptr(),
                ring.len(),
                *change,
                name.as_ptr(),
                name.len(),
                usn,
            )
        })
    }

    /// Reads the journal from a position on.
    ///
    /// Lent are the ring and the input, which stay as they are, and the output.
    /// The input has StartUsn `i64`, ReasonMask `u32`, ReturnOnlyOnClose `u32`,
    /// Timeout and BytesToWaitFor `u64` (both ignored), the journal's id `u64`
    /// and, from 48 bytes on, the lowest and highest version `u16`. The reply is
    /// the position to go on with, `u64`, and the selected records behind it, up
    /// to the first that does not fit or that version 2 cannot show, since its
    /// file or parent has a wide id. A read in version 3 from that position on
    /// shows it.
    ///
    /// Refusals, in order: [`Status::InvalidDeviceRequest`] without a journal on
    /// the volume; [`Status::JournalDeleteInProgress`];
    /// [`Status::JournalNotActive`]; [`Status::InvalidParameter`] below 40 bytes
    /// of input; [`Status::BufferTooSmall`] below 8 bytes of output;
    /// [`Status::InvalidParameter`] for the versions, then for the id;
    /// [`Status::FileCorruptError`] as for a post;
    /// [`Status::JournalEntryDeleted`] if StartUsn is not 0 and below `first`;
    /// [`Status::InvalidParameter`] if it is above `last` or off a record
    /// boundary; [`Status::NotSupported`] if version 2 cannot show the first
    /// selected record; [`Status::BufferTooSmall`] if that record does not fit.
    #[inline]
    pub fn read_journal(&self, ring: &[u8], input: &[u8], output: &mut [u8]) -> Answer {
        // SAFETY: each pointer and length comes from a live borrow; that of the
        // output is exclusive.
        let answer = unsafe {
            c::usn_read_journal(
                *self,
                ring.as_ptr(),
                ring.len(),
                input.as_ptr(),
                input.len(),
                output.as_mut_ptr(),
                output.len(),
            )
        };
        Answer::of(answer, output.len())
    }

    /// Saves the journal as an image of a form, to be loaded after a restart.
    ///
    /// Lent are the ring, which stays as it is, and the output. The image is the
    /// kept records back to back, oldest first, in version 2 for form 1 and in
    /// version 3 for form 2, and a trailer of 32 bytes: a zero `u32`, the bytes
    /// before the trailer `u32`, `first` `u64`, `id` `u64`, the sum of all other
    /// 32-bit words `u32` and the form number `u32`. An output 32 bytes longer than
    /// the ring always has room. What is posted later is not in the image.
    ///
    /// Refusals, in order: [`Status::InvalidDeviceRequest`] without a journal on
    /// the volume; [`Status::UnknownRevision`] for a form other than 1 and 2;
    /// [`Status::JournalDeleteInProgress`]; [`Status::JournalNotActive`];
    /// [`Status::FileCorruptError`] as for a post; [`Status::NotSupported`] for
    /// form 1 while a record is kept whose file or parent has a wide id;
    /// [`Status::BufferTooSmall`] if the output is shorter than the image.
    #[inline]
    pub fn save_journal(&self, ring: &[u8], form: u32, output: &mut [u8]) -> Answer {
        // SAFETY: as in `read_journal`.
        let answer = unsafe {
            c::usn_save_journal(
                *self,
                ring.as_ptr(),
                ring.len(),
                form,
                output.as_mut_ptr(),
                output.len(),
            )
        };
        Answer::of(answer, output.len())
    }

    /// Loads an image of either form as a journal with a new id.
    ///
    /// Lent are the ring and the image, which stays as it is. A load leaves what
    /// a creation at the image's first position and posts of the image's records
    /// would: the state becomes active, `id` the new id, `first` and `last` the
    /// image's. It writes the records' bytes into the ring and no others. What
    /// the ring held and the `last` that was there do not matter.
    ///
    /// A reader of the saved journal may go on under the new id from a position
    /// up to the loaded `last`. One that stands past it has read what was posted
    /// after the save, and must begin anew: these positions are given out again,
    /// to other records.
    ///
    /// Refusals, in order: [`Status::InvalidDeviceRequest`] without a journal on
    /// the volume; [`Status::JournalDeleteInProgress`];
    /// [`Status::InvalidParameter`] if active; [`Status::UnknownRevision`] for
    /// 32 bytes or more whose last four are neither the number 1 nor 2;
    /// [`Status::FileCorruptError`] for what is no image, a wrong capacity or a
    /// ring of another length; [`Status::InvalidParameter`] if `id` is 0, the
    /// image's or the last one used; [`Status::DiskFull`] if the records span
    /// more than the capacity.
    #[inline]
    pub fn load_journal(&mut self, ring: &mut [u8], image: &[u8], id: u64) -> Status {
        // SAFETY: each pointer and length comes from a live borrow; those of
        // the record and the ring are exclusive.
        Status::of(unsafe {
            c::usn_load_journal(
                self,
                ring.as_mut_ptr(),
                ring.len(),
                image.as_ptr(),
                image.len(),
                id,
            )
        })
    }

    /// Reads a file's USN data as one record.
    ///
    /// Lent are the name pool, the link table and the input, which stay as they
    /// are, and the output. The name is that of the first link with a short
    /// name, else the first that is not empty, else empty. `parent` is that of
    /// the link through which the file was opened. The input may hold the lowest
    /// and highest version `u16`; below 4 bytes it is ignored and the version is
    /// 2.
    ///
    /// Refusals, in order: [`Status::InvalidDeviceRequest`] without support;
    /// [`Status::FileCorruptError`] for a negative Usn or a bad link anywhere in
    /// the table; [`Status::InvalidParameter`] for the versions;
    /// [`Status::BufferTooSmall`] below 64 bytes of output for version 2 or 80
    /// for version 3; [`Status::NotSupported`] for version 2 if the file's id or
    /// `parent` is wide; [`Status::BufferTooSmall`] below the record's length.
    #[inline]
    pub fn read_file(
        &self,
        file: &FileRecord,
        parent: FileId,
        pool: &[u8],
        links: &[Link],
        input: &[u8],
        output: &mut [u8],
    ) -> Answer {
        // SAFETY: as in `read_journal`; links have the C layout.
        let answer = unsafe {
            c::usn_read_file(
                *self,
                *file,
                parent,
                pool.as_ptr(),
                pool.len(),
                links.as_ptr(),
                links.len(),
                input.as_ptr(),
                input.len(),
                output.as_mut_ptr(),
                output.len(),
            )
        };
        Answer::of(answer, output.len())
    }

    /// Queries which parts of a file's range hold valid data.
    ///
    /// Lent are the input, which stays as it is, and the output. The input has
    /// FileOffset and Length `i64` and DesiredUsage `u32`, in 24 bytes; an empty
    /// input means the offset 0, the length 2^63 - 1 and usage 1. The reply is 16
    /// bytes with the counts and one or two regions of 24 bytes, or nothing for
    /// an offset behind the file's end or at the end of one that is not empty.
    ///
    /// Refusals, in order: [`Status::InvalidDeviceRequest`] without support;
    /// [`Status::FileCorruptError`] for a wrong `eof` or `valid`;
    /// [`Status::BufferTooSmall`] for an input of 1 to 23 bytes;
    /// [`Status::InvalidParameter`] for a length of 0 or below, a range that
    /// passes 2^63 - 1, or a usage without flag 1; [`Status::BufferTooSmall`]
    /// below 40 bytes of output.
    ///
    /// If none of these applies, a second region is due and the output is below
    /// 64 bytes, the status is the warning [`Status::BufferOverflow`], and the
    /// reply is 40 bytes with a total count of 2, an entry count of 1 and the
    /// first region. A query from the end of that region on, with the length
    /// less that region's, gives the second.
    #[inline]
    pub fn query_file_regions(&self, file: &FileRecord, input: &[u8], output: &mut [u8]) -> Answer {
        // SAFETY: as in `read_journal`.
        let answer = unsafe {
            c::usn_query_file_regions(
                *self,
                *file,
                input.as_ptr(),
                input.len(),
                output.as_mut_ptr(),
                output.len(),
            )
        };
        Answer::of(answer, output.len())
    }

    /// Gets a file's reparse point, with as much of its data as fits.
    ///
    /// Lent are the file's store, which stays as it is, and the output. The store
    /// has 16,376 bytes or more, and the first `length` of them are the reparse
    /// data. The reply is the tag `u32`, the whole data length `u16`, a zero
    /// `u16`, the GUID unless the tag is Microsoft's, and the data.
    ///
    /// Refusals, in order: [`Status::InvalidDeviceRequest`] without the control;
    /// [`Status::VolumeNotUpgraded`] without reparse points on the volume;
    /// [`Status::FileCorruptError`] for a store below 16,376 bytes, too much data,
    /// or any with tag 0; [`Status::NotAReparsePoint`] for tag 0;
    /// [`Status::BufferTooSmall`] below 8 bytes of output for a Microsoft tag or
    /// 24 for another.
    #[inline]
    pub fn get_reparse_point(&self, file: &FileRecord, store: &[u8], output: &mut [u8]) -> Answer {
        // SAFETY: as in `read_journal`.
        let answer = unsafe {
            c::usn_get_reparse_point(
                *self,
                *file,
                store.as_ptr(),
                store.len(),
                output.as_mut_ptr(),
                output.len(),
            )
        };
        Answer::of(answer, output.len())
    }

    /// Sets a file's reparse point, and posts the change.
    ///
    /// Lent are the ring, the file's record and its store, the name and the
    /// input, which is laid out as the reply of [`Volume::get_reparse_point`].
    /// The file's `tag`, `guid` (zeroes for a Microsoft tag) and `length` become
    /// the input's, and the data is written to the start of the store, and no
    /// other byte there. Where a point stands, the input must have its tag, and
    /// its GUID unless the tag is Microsoft's.
    ///
    /// The post is one of `change` and `name`, with the reason 0x00100000 in
    /// place of the change's own, to the file's `usn`. Where [`Volume::post`]
    /// would skip it, the call succeeds all the same; where it would refuse it,
    /// the call is refused, and nothing changes.
    ///
    /// Refusals, in order: [`Status::InvalidDeviceRequest`] without the control;
    /// [`Status::VolumeNotUpgraded`] without reparse points on the volume;
    /// [`Status::FileCorruptError`] for a file's record or store that
    /// [`Volume::get_reparse_point`] refuses; [`Status::IoReparseDataInvalid`]
    /// for an input shorter than its header, of another length than header and
    /// data together, above 16,384 bytes, or without the zero;
    /// [`Status::IoReparseTagInvalid`] for tag 0;
    /// [`Status::IoReparseTagMismatch`] where another tag stands;
    /// [`Status::ReparseAttributeConflict`] where the same tag, not Microsoft's,
    /// stands with another GUID; then those of [`Volume::post`].
    ///
    /// ```
    /// use lanhduxe::{Change, FileRecord, Status, Volume};
    ///
    /// let mut volume = Volume { reparse: 1, points: 1, ..Volume::default() };
    /// let (mut file, mut store) = (FileRecord::default(), vec![0; 16_376]);
    /// let link = [0x0C, 0, 0, 0xA0, 4, 0, 0, 0, b'n', 0, b'o', 0];
    ///
    /// // There is no journal, so that the post is skipped.
    /// let (change, name) = (Change::default(), b"a\0");
    /// let status =
    ///     volume.set_reparse_point(&mut [], &mut file, &mut store, &change, name, &link);
    /// assert_eq!(status, Status::Success);
    /// assert_eq!((file.tag, file.length), (0xA000_000C, 4));
    ///
    /// let mut output = [0; 12];
    /// let answer = volume.get_reparse_point(&file, &store, &mut output);
    /// assert_eq!((answer.status, output), (Status::Success, link));
    ///
    /// let header = [0x0C, 0, 0, 0xA0, 0, 0, 0, 0];
    /// let status =
    ///     volume.delete_reparse_point(&mut [], &mut file, &store, &change, name, &header);
    /// assert_eq!(status, Status::Success);
    /// assert_eq!(file, FileRecord::default());
    /// ```
    #[inline]
    pub fn set_reparse_point(
        &mut self,
        ring: &mut [u8],
        file: &mut FileRecord,
        store: &mut [u8],
        change: &Change,
        name: &[u8],
        input: &[u8],
    ) -> Status {
        // SAFETY: each pointer and length comes from a live borrow; those of
        // both records, the ring and the store are exclusive.
        Status::of(unsafe {
            c::usn_set_reparse_point(
                self,
                ring.as_mut_ptr(),
                ring.len(),
                file,
                store.as_mut_ptr(),
                store.len(),
                *change,
                name.as_ptr(),
                name.len(),
                input.as_ptr(),
                input.len(),
            )
        })
    }

    /// Deletes a file's reparse point, and posts the change.
    ///
    /// Lent are the ring, the file's record, its store, which stays as it is, the
    /// name and the input: the header of the point that stands, with the data
    /// length 0. The file's `tag`, `guid` and `length` become 0. The post is as
    /// in [`Volume::set_reparse_point`].
    ///
    /// Refusals, in order: those of [`Volume::set_reparse_point`] up to
    /// [`Status::IoReparseDataInvalid`], which is for a data length other than 0
    /// too; [`Status::IoReparseTagInvalid`] for tag 0;
    /// [`Status::NotAReparsePoint`] for a file without a point; then as there.
    #[inline]
    pub fn delete_reparse_point(
        &mut self,
        ring: &mut [u8],
        file: &mut FileRecord,
        store: &[u8],
        change: &Change,
        name: &[u8],
        input: &[u8],
    ) -> Status {
        // SAFETY: as in `set_reparse_point`; the store is only read.
        Status::of(unsafe {
            c::usn_delete_reparse_point(
                self,
                ring.as_mut_ptr(),
                ring.len(),
                file,
                store.as_ptr(),
                store.len(),
                *change,
                name.as_ptr(),
                name.len(),
                input.as_ptr(),
                input.len(),
            )
        })
    }

    /// Enumerates the files of a table by rising id, as USN records: a fresh list
    /// for a reader that has missed changes ([`Status::JournalEntryDeleted`]).
    ///
    /// Lent are the table, the name pool and the input, which stay as they are,
    /// and the output. The rows may stand in any order; a table by rising id is
    /// read in a few passes, any other takes time that grows with the square of
    /// its rows. The input has the start id `u64`, LowUsn and HighUsn `i64` and,
    /// from 32 bytes on, the lowest and highest version `u16`; below that the
    /// version is 2.
    ///
    /// Selected is a file with an id that is the start or above and a Usn from
    /// LowUsn to HighUsn, both ends in, unless its id or its parent's is wide.
    /// The reply is an id `u64` and behind it the records of the selected files,
    /// each as [`Volume::read_file`] gives one, up to the first that does not
    /// fit. The id is that of this first one, else that of the last file given
    /// plus 1. A caller returns with it as its next start, and with 600 bytes of
    /// output or more, over a table that does not change, comes to every selected
    /// file once, and then to [`Status::EndOfFile`]. The journal's state does not
    /// matter.
    ///
    /// Refusals, in order: [`Status::InvalidDeviceRequest`] if the volume does not
    /// support the journal; [`Status::FileCorruptError`] for a bad row, selected or not: a
    /// bad name, a negative Usn, the id 2^64 - 1 or an id that stands twice;
    /// [`Status::InvalidParameter`] below 24 bytes of input, then for the
    /// versions; [`Status::BufferTooSmall`] below 8 bytes of output;
    /// [`Status::EndOfFile`] if no file is selected; [`Status::BufferTooSmall`]
    /// if the record of the first selected file does not fit.
    ///
    /// ```
    /// use lanhduxe::{read_record, walk_reply, Entry, FileId, Status, Volume};
    ///
    /// let volume = Volume { journal: 1, ..Volume::default() };
    /// let pool = b"t\0a\0b\0l\0e\0c\0o\0d\0e\0";
    /// let file = |id, usn, name_place, name_length| Entry {
    ///     id: FileId::new(id),
    ///     parent: FileId::new(5),
    ///     usn,
    ///     name_length,
    ///     name_place,
    ///     ..Entry::default()
    /// };
    /// let table = [file(41, 176, 0, 10), file(42, 264, 10, 8)];
    ///
    /// let mut input = [0; 32]; // from the id 0 and the Usn 0 on
    /// input[16..24].copy_from_slice(&i64::MAX.to_le_bytes()); // HighUsn
    /// input[24] = 2; // lowest version
    /// input[26] = 3; // highest version
    /// let mut output = [0; 600];
    /// let answer = volume.enumerate_files(&table, pool, &input, &mut output);
    /// assert_eq!((answer.status, answer.count), (Status::Success, 8 + 88 + 88));
    ///
    /// let reply = &output[..answer.count];
    /// let walk = walk_reply(reply).expect("a whole reply");
    /// assert_eq!((walk.position, walk.count), (43, 2));
    /// let record = read_record(reply, 8).expect("a record");
    /// assert_eq!((record.file, record.usn), (FileId::new(41), 176));
    /// assert_eq!(reply[record.name], pool[..10]);
    ///
    /// // From there on there is no other file.
    /// input[..8].copy_from_slice(&walk.position.to_le_bytes());
    /// let answer = volume.enumerate_files(&table, pool, &input, &mut output);
    /// assert_eq!((answer.status, answer.count), (Status::EndOfFile, 0));
    /// ```
    #[inline]
    pub fn enumerate_files(
        &self,
        table: &[Entry],
        pool: &[u8],
        input: &[u8],
        output: &mut [u8],
    ) -> Answer {
        self.enumerate_rows(bytes_of(table), pool, input, output)
    }

    /// Enumerates the files of a table as [`Volume::enumerate_files`] does, with
    /// the table as bytes: rows of 56, each as an [`Entry`] lies in memory, with
    /// little-endian numbers.
    ///
    /// A table of any other number of bytes than whole rows have is
    /// [`Status::FileCorruptError`], as a bad row is.
    #[inline]
    pub fn enumerate_rows(
        &self,
        table: &[u8],
        pool: &[u8],
        input: &[u8],
        output: &mut [u8],
    ) -> Answer {
        // SAFETY: as in `read_journal`.
        let answer = unsafe {
            c::usn_enumerate_rows(
                *self,
                table.as_ptr(),
                table.len(),
                pool.as_ptr(),
                pool.len(),
                input.as_ptr(),
                input.len(),
                output.as_mut_ptr(),
                output.len(),
            )
        };
        Answer::of(answer, output.len())
    }
}

/// The bytes of a table.
#[inline]
fn bytes_of(table: &[Entry]) -> &[u8] {
    // SAFETY: pointer and length come from one live borrow; a row is 56 bytes of
    // fields, with no padding between them.
    unsafe { core::slice::from_raw_parts(table.as_ptr().cast(), size_of_val(table)) }
}

/// Gives the path of a file of a table: the names on the way from a root down to
/// it, the one nearest the root first and its own last, with a code unit 0x5C
/// (`'\\'`) between two of them.
///
/// Lent are the table and the name pool, which stay as they are, and the output.
/// The way goes from each file to its parent, in 64 steps at most. The root's own
/// name is not in the path: that of the root itself is empty, and the root need not
/// be in the table. Ids are compared in all sixteen bytes. An empty name takes no
/// bytes but keeps its separators: a path with one may begin or end with a
/// separator or have two together, and a file with one right below the root has an
/// empty path too. An output of 32,766 bytes always has room.
///
/// The rows may stand in any order, and the whole table is judged. In one by rising
/// id a file is found by halving; any other takes time that grows with the square of
/// its rows.
///
/// Refusals, in order: [`Status::FileCorruptError`] for a bad row, as
/// [`Volume::enumerate_files`] has it, on the way or not, also where the file is the
/// root; [`Status::ObjectPathNotFound`] where the file, or a parent that is reached
/// with a step left, is neither the root nor in the table; [`Status::NameTooLong`]
/// if 64 steps do not reach the root; [`Status::BufferTooSmall`] if the path does not
/// fit.
///
/// ```
/// use lanhduxe::{file_path, Entry, FileId, Status};
///
/// let pool = b"d\0a\0t\0a\0c\0o\0d\0e\0";
/// let file = |id, parent, name_place| Entry {
///     id: FileId::new(id),
///     parent: FileId::new(parent),
///     name_length: 8,
///     name_place,
///     ..Entry::default()
/// };
/// let table = [file(5, 2, 0), file(42, 5, 8)];
///
/// let (root, code) = (FileId::new(2), FileId::new(42));
/// let mut output = [0; 64];
/// let answer = file_path(&table, pool, code, root, &mut output);
/// assert_eq!(answer.status, Status::Success);
/// assert_eq!(output[..answer.count], *b"d\0a\0t\0a\0\\\0c\0o\0d\0e\0");
///
/// // From the folder on it is the name alone, and from the file itself nothing.
/// let answer = file_path(&table, pool, code, FileId::new(5), &mut output);
/// assert_eq!(output[..answer.count], pool[8..]);
/// assert_eq!(file_path(&table, pool, code, code, &mut output).count, 0);
///
/// // The root has no row, and so no parent.
/// let answer = file_path(&table, pool, root, code, &mut output);
/// assert_eq!(answer.status, Status::ObjectPathNotFound);
/// ```
#[inline]
pub fn file_path(
    table: &[Entry],
    pool: &[u8],
    id: FileId,
    root: FileId,
    output: &mut [u8],
) -> Answer {
    row_path(bytes_of(table), pool, id, root, output)
}

/// Gives the path of a file as [`file_path`] does, with the table as bytes: rows of
/// 56, each as an [`Entry`] lies in memory, with little-endian numbers.
///
/// A table of any other number of bytes than whole rows have is
/// [`Status::FileCorruptError`], as a bad row is.
#[inline]
pub fn row_path(table: &[u8], pool: &[u8], id: FileId, root: FileId, output: &mut [u8]) -> Answer {
    // SAFETY: each pointer and length comes from a live borrow; that of the
    // output is exclusive.
    let answer = unsafe {
        c::usn_row_path(
            table.as_ptr(),
            table.len(),
            pool.as_ptr(),
            pool.len(),
            id,
            root,
            output.as_mut_ptr(),
            output.len(),
        )
    };
    Answer::of(answer, output.len())
}

/// Moves an image from one form to the other: from form 1 to form 2, or from 2 to
/// 1.
///
/// Lent are the image, which stays as it is, and the output. The moved image has
/// the same records, Usns, first position and journal id. It is what saving the
/// journal in the other form would have written, and moving it back gives the
/// image again. An output of 65,568 bytes always has room.
///
/// Refusals, in order: [`Status::UnknownRevision`] if `from` is neither 1 nor 2,
/// or for 32 bytes or more whose last four are not the number `from`;
/// [`Status::FileCorruptError`] for what is no image; [`Status::NotSupported`]
/// from form 2 if the file or the parent of a record has a wide id;
/// [`Status::BufferTooSmall`] if the output is shorter than the moved image.
#[inline]
pub fn move_image(image: &[u8], from: u32, output: &mut [u8]) -> Answer {
    // SAFETY: each pointer and length comes from a live borrow; that of the
    // output is exclusive.
    let answer = unsafe {
        c::usn_move_image(
            image.as_ptr(),
            image.len(),
            from,
            output.as_mut_ptr(),
            output.len(),
        )
    };
    Answer::of(answer, output.len())
}

/// The fields of one record.
#[derive(Clone, Debug, PartialEq, Eq)]
pub struct Record {
    /// The version, 2 or 3.
    pub version: u32,
    /// The file's id; in version 2 never a wide one.
    pub file: FileId,
    /// The parent's id; in version 2 never a wide one.
    pub parent: FileId,
    /// The Usn; below 2^63.
    pub usn: u64,
    /// The time of the change.
    pub time: u64,
    /// The reasons, one bit each.
    pub reason: u32,
    /// The source of the change.
    pub source: u32,
    /// The security id.
    pub security: u32,
    /// The attributes; not 0.
    pub attributes: u32,
    /// Where the name lies in the bytes that were read.
    pub name: Range<usize>,
    /// The place behind the record in the bytes that were read.
    pub next: usize,
}

/// Reads the record that begins at a place in some bytes.
///
/// The bytes are lent and stay as they are. `None` stands for
/// [`Status::InvalidParameter`]: no record of version 2.0 or 3.0 with every
/// fixed field, length and padding byte right, and a name without the code units
/// 0, 0x2F and 0x5C, lies there.
#[inline]
pub fn read_record(bytes: &[u8], at: usize) -> Option<Record> {
    // SAFETY: pointer and length come from one live borrow.
    let record = unsafe { c::usn_read_record(bytes.as_ptr(), bytes.len(), at) };
    match Status::of(record.status) {
        Status::Success => {
            let name = record.name as usize;
            Some(Record {
                version: record.version,
                file: record.file,
                parent: record.parent,
                usn: record.usn,
                time: record.time,
                reason: record.reason,
                source: record.source,
                security: record.security,
                attributes: record.attributes,
                name: name..name + record.length as usize,
                next: record.next as usize,
            })
        }
        Status::InvalidParameter => {
            let none = FileId::default();
            assert!(
                (record.file, record.parent) == (none, none)
                    && (record.version, record.name, record.length, record.next) == (0, 0, 0, 0),
                "the library gave fields for a record that it refused"
            );
            None
        }
        other => panic!("the library gave {other} for a record"),
    }
}

/// What a reply of [`Volume::read_journal`] or [`Volume::enumerate_files`] holds.
#[derive(Clone, Copy, Debug, PartialEq, Eq)]
pub struct Walk {
    /// The position, or the id, to go on with.
    pub position: u64,
    /// The number of records.
    pub count: usize,
}

/// Walks a whole reply of [`Volume::read_journal`] or [`Volume::enumerate_files`]: 8
/// position bytes, then records to the end.
///
/// The reply is lent and stays as it is. An error stands for
/// [`Status::InvalidParameter`] and holds the bad record's first byte, or 0 for
/// a reply below 8 bytes.
#[inline]
pub fn walk_reply(reply: &[u8]) -> Result<Walk, usize> {
    // SAFETY: pointer and length come from one live borrow.
    let walk = unsafe { c::usn_walk_reply(reply.as_ptr(), reply.len()) };
    match Status::of(walk.status) {
        Status::Success => Ok(Walk {
            position: walk.position,
            count: walk.count as usize,
        }),
        Status::InvalidParameter => {
            assert!(
                (walk.position, walk.count) == (0, 0),
                "the library gave a position or a count for a reply that it refused"
            );
            Err(walk.bad as usize)
        }
        other => panic!("the library gave {other} for a walk"),
    }
}

/// Writes a journal's reply as text, as the program `usnlist` prints it.
///
/// Lent are the reply, which stays as it is, and the output. A bad reply is no
/// refusal: its text is `bad at N`, with 65536 for N if the reply is above
/// 65,536 bytes.
///
/// The one refusal is [`Status::BufferTooSmall`], for an output shorter than 64
/// bytes and twice the reply's length.
#[inline]
pub fn list_reply(reply: &[u8], output: &mut [u8]) -> Answer {
    // SAFETY: each pointer and length comes from a live borrow; that of the
    // output is exclusive.
    let answer = unsafe {
        c::usn_list_reply(
            reply.as_ptr(),
            reply.len(),
            output.as_mut_ptr(),
            output.len(),
        )
    };
    Answer::of(answer, output.len())
}
