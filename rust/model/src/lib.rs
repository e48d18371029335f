//! Reference implementation of a file server's USN change journal and of seven
//! file controls, over buffers lent by the caller.
//!
//! Every call ends with one of the numbers in [`status`]. `BUFFER_OVERFLOW` is a
//! warning, and comes with the part of the reply that fits. Any answer other than
//! it and `SUCCESS` reports 0 bytes and changes nothing. No call allocates, but for
//! [`enumerate`] and [`file_path`] where the table is not in rising order.
//!
//! An id is a number of 128 bits. V3 records hold all of it, V2 records the lower
//! 64; an id with more of them is called wide, and no V2 record shows it.

#![forbid(unsafe_code)]
#![warn(missing_docs)]

mod bytes;
mod files;
mod image;
mod journal;
mod listing;
mod paths;
mod points;
mod record;
pub mod status;
mod table;

pub use files::{query_file_regions, read_file, File, Link};
pub use image::{load_journal, move_image, save_journal};
pub use journal::{create, delete, finish, post, read_journal};
pub use listing::{list_reply, walk_reply};
pub use paths::file_path;
pub use points::{delete_reparse_point, get_reparse_point, set_reparse_point};
pub use record::{read_record, Change, Record};
pub use table::{enumerate, Entry};

/// The volume record: what the volume supports, and the state of its journal.
///
/// A support flag is "no" if 0 and "yes" otherwise.
#[derive(Clone, Copy, Debug, Default, PartialEq, Eq)]
pub struct Volume {
    /// Reading a file's USN data is supported.
    pub usn: u32,
    /// Querying file regions is supported.
    pub regions: u32,
    /// The reparse point controls are supported.
    pub reparse: u32,
    /// The volume has reparse points.
    pub points: u32,
    /// The change journal is supported.
    pub journal: u32,
    /// 1 while the journal is active, 2 while it is being deleted, else idle.
    pub state: u32,
    /// The journal's id, or the last one used.
    pub id: u64,
    /// Position of the oldest kept record.
    pub first: u64,
    /// Position behind the newest record (LastUsn).
    pub last: u64,
    /// Length of the ring in bytes.
    pub capacity: u64,
}

/// Turns the result of a control without warnings into the status and byte count
/// it reports.
fn answer(result: Result<usize, u32>) -> (u32, usize) {
    match result {
        Ok(count) => (status::SUCCESS, count),
        Err(status) => (status, 0),
    }
}
