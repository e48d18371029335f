//! The NTSTATUS numbers the calls answer with.

/// The call was carried out.
pub const SUCCESS: u32 = 0;
/// A warning: the output has room for one region where two are due, and the first
/// was written.
pub const BUFFER_OVERFLOW: u32 = 0x8000_0005;
/// An argument or a field of the input is wrong.
pub const INVALID_PARAMETER: u32 = 0xC000_000D;
/// The volume does not support the control.
pub const INVALID_DEVICE_REQUEST: u32 = 0xC000_0010;
/// The table has no file that is asked for.
pub const END_OF_FILE: u32 = 0xC000_0011;
/// A buffer is too short.
pub const BUFFER_TOO_SMALL: u32 = 0xC000_0023;
/// A file on the way to the root is not in the table.
pub const OBJECT_PATH_NOT_FOUND: u32 = 0xC000_003A;
/// A form number is not known, or the image does not have the one asked for.
pub const UNKNOWN_REVISION: u32 = 0xC000_0058;
/// No position is left for the record, or the ring has no room for the image's records.
pub const DISK_FULL: u32 = 0xC000_007F;
/// An id has more than 64 bits and cannot be shown in V2.
pub const NOT_SUPPORTED: u32 = 0xC000_00BB;
/// A file record, a table of files, the volume record, the ring or the image is not
/// sound.
pub const FILE_CORRUPT_ERROR: u32 = 0xC000_0102;
/// The root is not within the steps that a path may have.
pub const NAME_TOO_LONG: u32 = 0xC000_0106;
/// The file has no reparse point.
pub const NOT_A_REPARSE_POINT: u32 = 0xC000_0275;
/// The input's reparse tag is 0.
pub const IO_REPARSE_TAG_INVALID: u32 = 0xC000_0276;
/// The file has a reparse point with another tag.
pub const IO_REPARSE_TAG_MISMATCH: u32 = 0xC000_0277;
/// The input is not one reparse point, or not the header alone where that is due.
pub const IO_REPARSE_DATA_INVALID: u32 = 0xC000_0278;
/// The volume has no reparse points at all.
pub const VOLUME_NOT_UPGRADED: u32 = 0xC000_029C;
/// The file has a reparse point with the same tag and another GUID.
pub const REPARSE_ATTRIBUTE_CONFLICT: u32 = 0xC000_02B2;
/// The journal is being deleted.
pub const JOURNAL_DELETE_IN_PROGRESS: u32 = 0xC000_02B7;
/// There is no active journal.
pub const JOURNAL_NOT_ACTIVE: u32 = 0xC000_02B8;
/// The position asked for lies before the oldest kept record.
pub const JOURNAL_ENTRY_DELETED: u32 = 0xC000_02CF;
