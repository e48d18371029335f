//! Ids of 128 bits. Version 3 of a record shows all of them. Version 2 cannot show
//! a wide one, of which one of the upper eight bytes is not 0: a reply ends before
//! such a record, and a read, a file read, a save in form 1 or a move to it that
//! would have to show it is refused. An enumeration leaves a file with one out, in
//! either version.
//!
//! What is due is said here, and not by the model, but for the random calls at the
//! end.

mod common;

use common::journal::{behind, gave, given, moved, refused, success, Given, Journal, CAPACITY};
use common::points::STORE;
use common::table::{due, entry, enumerate, model_table, rows, EnumInput};
use common::{check, image, is_wide, lay_out, record_length, selects};
use common::{model_change, model_file, model_links, model_volume};
use common::{version_of, Counts, Hex, Lent, ReadInput, Rng, CHANGE, FORMS, GUARD, NEGATIVE};
use common::{NO_FORMS, TRAILER};
use lanhduxe::Status::{self, *};
use lanhduxe::{list_reply, read_record, walk_reply};
use lanhduxe::{Change, Entry, FileId, FileRecord, Link, Record, Volume};
use std::collections::{HashSet, VecDeque};

/// An id in which one of the sixteen bytes has a value, and the lower ones are 1.
fn with_byte(byte: usize, value: u8) -> FileId {
    let mut id = FileId::from(0x0101_0101_0101_0101u64);
    id.bytes[byte] = value;
    id
}

/// Wide ids: each of the upper eight bytes alone with the lowest bit, the highest
/// and all bits; and one with all sixteen bytes.
fn wide_ids() -> Vec<FileId> {
    let alone = (8..16).flat_map(|byte| [1, 0x80, 0xFF].map(|value| with_byte(byte, value)));
    alone.chain([FileId::new(u128::MAX)]).collect()
}

/// The ids of a file and its parent that version 2 cannot show: that of the file,
/// of the parent, or both.
fn wide_pairs() -> Vec<(FileId, FileId)> {
    let narrow = FileId::from(u64::MAX);
    let pairs = |id| [(id, narrow), (narrow, id), (id, id)];
    wide_ids().into_iter().flat_map(pairs).collect()
}

/// A change with these ids.
fn change((file, parent): (FileId, FileId), reason: u32) -> Change {
    Change {
        file,
        parent,
        reason,
        ..CHANGE
    }
}

/// A change that version 2 can show.
fn narrow(reason: u32) -> Change {
    Change { reason, ..CHANGE }
}

// ---- A journal of records whose name has one unit.

impl Journal {
    /// A journal with records of these changes, from a position on.
    fn of(first: u64, changes: &[Change]) -> Journal {
        let mut journal = Journal::new(first);
        for change in changes {
            journal.add(change);
        }
        journal
    }

    /// Posts a change, which has to be accepted with any ids.
    fn add(&mut self, change: &Change) {
        let end = self.volume.last + 80;
        assert_eq!(self.post(change, b"a\0"), (Success, end), "{change:?}");
        assert_eq!(self.ring[CAPACITY..], behind());
    }
}

/// Records of these changes, back to back, the oldest of which begins at a
/// position.
fn laid_out(version: u16, first: u64, changes: &[Change]) -> Vec<u8> {
    let usns = (1..).map(|number| first + 80 * number);
    let records = usns.zip(changes);
    records
        .flat_map(|(usn, change)| lay_out(version, change, usn, b"a\0"))
        .collect()
}

/// The reply with a position and such records.
fn reply(position: u64, version: u16, first: u64, changes: &[Change]) -> Given {
    let records = laid_out(version, first, changes);
    gave([&position.to_le_bytes()[..], &records].concat())
}

// ---- Bytes.

#[test]
fn an_id_is_sixteen_bytes_lowest_first() {
    let id = FileId::new(0x100F_0E0D_0C0B_0A09_0807_0605_0403_0201);
    let bytes = [1, 2, 3, 4, 5, 6, 7, 8, 9, 10, 11, 12, 13, 14, 15, 16];
    assert_eq!(id.bytes, bytes);
    assert_eq!(id, FileId { bytes });
    assert_eq!(id, FileId::from(id.number()));
    assert_eq!(
        FileId::from(0x0807_0605_0403_0201u64).bytes,
        [1, 2, 3, 4, 5, 6, 7, 8, 0, 0, 0, 0, 0, 0, 0, 0]
    );
    assert_eq!(FileId::default().number(), 0);
    assert!(!FileId::default().is_wide() && !FileId::from(u64::MAX).is_wide());
    for bit in 0..128 {
        let id = FileId::new(1 << bit);
        assert_eq!(id.bytes[bit / 8], 1 << (bit % 8));
        assert_eq!(id.is_wide(), bit >= 64, "{bit}");
    }
    let all: HashSet<FileId> = (0..128).map(|bit| FileId::new(1 << bit)).collect();
    assert_eq!(all.len(), 128);
}

/// A record with two wide ids, as the ring keeps it and as version 3 shows it.
#[rustfmt::skip]
const RECORD: [u8; 80] = [
    80, 0, 0, 0, 3, 0, 0, 0, 0x01, 0x02, 0x03, 0x04, 0x05, 0x06, 0x07, 0x08,
    0x09, 0x0A, 0x0B, 0x0C, 0x0D, 0x0E, 0x0F, 0x10, 0x11, 0x12, 0x13, 0x14, 0x15, 0x16, 0x17, 0x18,
    0x19, 0x1A, 0x1B, 0x1C, 0x1D, 0x1E, 0x1F, 0x20, 0x50, 0x10, 0, 0, 0, 0, 0, 0,
    0, 0, 0, 0, 0, 0, 0, 0, 0, 1, 0, 0, 0, 0, 0, 0,
    0, 0, 0, 0, 0x80, 0, 0, 0, 2, 0, 76, 0, 0x61, 0, 0, 0,
];

/// The change of that record.
const WIDE: Change = Change {
    file: FileId::new(0x100F_0E0D_0C0B_0A09_0807_0605_0403_0201),
    parent: FileId::new(0x201F_1E1D_1C1B_1A19_1817_1615_1413_1211),
    time: 0,
    reason: 0x100,
    source: 0,
    security: 0,
    attributes: 0,
};

#[test]
fn version_3_shows_all_bytes() {
    let journal = Journal::of(4096, &[WIDE]);
    assert_eq!(journal.ring[..80], RECORD);
    assert_eq!(journal.ring[80..CAPACITY], [0xEE; CAPACITY - 80]);
    let shown = [&4176u64.to_le_bytes()[..], &RECORD].concat();
    assert_eq!(journal.read(0, !0, 3, 88), gave(shown.clone()));
    assert_eq!(journal.read(0, !0, 2, 600), refused(NotSupported));
    assert_eq!(journal.save(1, 1000), refused(NotSupported));
    let saved = image(2, &RECORD, 4096, 7);
    assert_eq!(journal.save(2, 1000), gave(saved.clone()));
    assert_eq!(moved(&saved, 2, 1000), refused(NotSupported));

    let walk = walk_reply(&shown).expect("a whole reply");
    assert_eq!((walk.position, walk.count), (4176, 1));
    let mut text = vec![0xCC; 64 + 2 * shown.len() + GUARD];
    let room = text.len() - GUARD;
    let answer = list_reply(&shown, &mut text[..room]);
    let text = given(text, answer).1;
    assert_eq!(text, b"next 4176\n4176 00000100 6100\nrecords 1\n");

    let file = FileRecord {
        id: WIDE.file,
        usn: 4176,
        ..FileRecord::default()
    };
    let mut output = [0xCC; 100];
    let links = [Link {
        place: 0,
        length: 2,
        short: 0,
    }];
    let versions = [2, 0, 3, 0];
    let volume = journal.volume;
    let answer = volume.read_file(&file, WIDE.parent, b"a\0", &links, &versions, &mut output);
    let mut without_reason = RECORD;
    without_reason[57] = 0;
    assert_eq!(answer, success(80));
    assert_eq!(output[..80], without_reason);
    assert_eq!(output[80..], [0xCC; 20]);
}

/// Every byte of both ids may be any, and is read at its place.
#[test]
fn the_record_reader_takes_any_id() {
    let due = Record {
        version: 3,
        file: WIDE.file,
        parent: WIDE.parent,
        usn: 4176,
        time: 0,
        reason: 0x100,
        source: 0,
        security: 0,
        attributes: 0x80,
        name: 76..78,
        next: 80,
    };
    assert_eq!(read_record(&RECORD, 0), Some(due.clone()));
    for byte in 0..16 {
        for value in 0..=255 {
            let mut changed = RECORD;
            let mut record = due.clone();
            changed[8 + byte] = value;
            record.file.bytes[byte] = value;
            assert_eq!(read_record(&changed, 0), Some(record), "{byte} {value}");

            let mut changed = RECORD;
            let mut record = due.clone();
            changed[24 + byte] = value;
            record.parent.bytes[byte] = value;
            assert_eq!(read_record(&changed, 0), Some(record), "{byte} {value}");
        }
    }
}

/// A reply of wide and narrow records in both versions is walked and listed.
#[test]
fn replies_with_any_ids_are_walked_and_listed() {
    for pair in wide_pairs() {
        let wide = lay_out(3, &change(pair, 1), 160, b"b\0");
        let others = [3, 2].map(|version| lay_out(version, &narrow(2), 80, b"a\0"));
        let bytes = [&[0; 8][..], &others[0], &wide, &others[1], &wide].concat();
        let walk = walk_reply(&bytes).map(|walk| (walk.position, walk.count));
        assert_eq!(walk, Ok((0, 4)), "{pair:?}");
        let mut text = vec![0xCC; 64 + 2 * bytes.len()];
        let answer = list_reply(&bytes, &mut text);
        let lines = "next 0\n80 00000002 6100\n160 00000001 6200\n80 00000002 6100\n\
                     160 00000001 6200\nrecords 4\n";
        assert_eq!(given(text, answer).1, lines.as_bytes(), "{pair:?}");
    }
}

// ---- Reads of the journal.

/// A record with a wide id behind none, one or two that version 2 can show: a read
/// in version 2 gives these, as many as there is room for, and then is refused
/// whatever its room is; one in version 3 goes on from there.
#[test]
fn a_reply_in_version_2_ends_before_a_wide_id() {
    let (mut ended, mut refusals) = (0, 0);
    for pair in wide_pairs() {
        for before in 0..=2 {
            let mut changes = vec![narrow(1); before];
            changes.extend([change(pair, 1), narrow(1)]);
            let journal = Journal::of(4096, &changes);
            let wide = 4096 + 80 * before as u64;
            for room in 0..=208 {
                let what = || format!("{pair:?} behind {before}, room {room}");
                let fitting = (room.max(8) - 8) / 64;
                let due = match fitting.min(before) {
                    _ if room < 8 => refused(BufferTooSmall),
                    _ if before == 0 => refused(NotSupported),
                    0 => refused(BufferTooSmall),
                    count => {
                        ended += u64::from(count == before);
                        reply(4096 + 80 * count as u64, 2, 4096, &changes[..count])
                    }
                };
                assert_eq!(journal.read(0, 1, 2, room), due, "{}", what());

                // From the record on, in version 2 and in version 3.
                let due = match room < 8 {
                    true => refused(BufferTooSmall),
                    false => refused(NotSupported),
                };
                refusals += u64::from(room >= 8);
                assert_eq!(journal.read(wide, 1, 2, room), due, "{}", what());
                let due = match (room.max(8) - 8) / 80 {
                    0 => refused(BufferTooSmall),
                    count => {
                        let rest = &changes[before..before + count];
                        reply(wide + 80 * count as u64, 3, wide, rest)
                    }
                };
                assert_eq!(journal.read(wide, 1, 3, room), due, "{}", what());
            }
        }
    }
    // 25 ids in 3 ways; one record fits from room 72 on, two from 136 on.
    assert_eq!(ended, 75 * (208 - 71 + 208 - 135));
    assert_eq!(refusals, 75 * 3 * 201);
}

/// An input without versions asks for version 2, and one with a highest version of
/// 3 or more for version 3.
#[test]
fn the_version_is_what_matters() {
    let journal = Journal::of(4096, &[WIDE]);
    for (lowest, highest, size, due) in [
        (0, 0, 40, NotSupported),
        (3, 3, 47, NotSupported),
        (0, 2, 48, NotSupported),
        (2, 2, 60, NotSupported),
        (0, 3, 48, Success),
        (3, 3, 48, Success),
        (2, 9, 60, Success),
    ] {
        let input = ReadInput {
            start: 4096,
            mask: 0x100,
            only_on_close: 0,
            id: 7,
            lowest,
            highest,
            size,
        };
        let status = journal.ask(&input, 600).0.status;
        assert_eq!(status, due, "{lowest} {highest} {size}");
    }
}

/// A record that is not selected, by the mask or by the flag, or that lies before
/// the start, does not matter.
#[test]
fn what_is_not_selected_does_not_matter() {
    const CLOSED: u32 = 0x8000_0000;
    for pair in wide_pairs() {
        for place in 0..3 {
            let mut changes = [narrow(1 | CLOSED), narrow(2 | CLOSED), narrow(4 | CLOSED)];
            changes[place] = change(pair, 1 << place);
            let journal = Journal::of(4096, &changes);
            let end = 4096 + 240;
            // Each of the three alone.
            for number in 0..3 {
                let begin = 4096 + 80 * number as u64;
                let due = match number == place {
                    true => refused(NotSupported),
                    false => reply(end, 2, begin, &changes[number..=number]),
                };
                let given = journal.read(4096, 1 << number, 2, 600);
                assert_eq!(given, due, "{pair:?} {place} {number}");
            }
            // None, and those that are closed.
            assert_eq!(journal.read(0, 8, 2, 8), reply(end, 2, 0, &[]));
            let mut closed = ReadInput {
                start: 0,
                mask: 7,
                only_on_close: 1,
                id: 7,
                lowest: 2,
                highest: 2,
                size: 48,
            };
            let (answer, bytes) = journal.ask(&closed, 600);
            assert_eq!(answer, success(8 + 2 * 64), "{pair:?} {place}");
            assert_eq!(bytes[..8], u64::to_le_bytes(end));
            closed.only_on_close = 0;
            let first = match place {
                0 => refused(NotSupported),
                _ => {
                    let position = 4096 + 80 * place as u64;
                    reply(position, 2, 4096, &changes[..place])
                }
            };
            assert_eq!(journal.ask(&closed, 600), first, "{pair:?} {place}");
            // From behind it.
            let behind = 4096 + 80 * (place as u64 + 1);
            let due = reply(end, 2, behind, &changes[place + 1..]);
            assert_eq!(journal.read(behind, !0, 2, 600), due, "{pair:?} {place}");
        }
    }
}

/// The refusal comes behind every other but that for the record's own room.
#[test]
fn a_read_gives_its_first_status() {
    let journal = Journal::of(4096, &[WIDE, WIDE]);
    let good = ReadInput {
        start: 4096,
        mask: !0,
        only_on_close: 0,
        id: 7,
        lowest: 2,
        highest: 2,
        size: 48,
    };
    let status = |volume: Volume, input: ReadInput, room| {
        let ring = journal.ring.clone();
        Journal { volume, ring }.ask(&input, room).0.status
    };
    let volume = journal.volume;
    let unsupported = Volume {
        journal: 0,
        ..volume
    };
    let state = |state| Volume { state, ..volume };
    let unsound = Volume {
        last: 4264,
        ..volume
    };
    let dropped = Volume {
        first: 4176,
        ..volume
    };
    let start = |start| ReadInput { start, ..good };
    for (volume, input, room, due) in [
        (unsupported, good, 600, InvalidDeviceRequest),
        (state(2), good, 600, JournalDeleteInProgress),
        (state(0), good, 600, JournalNotActive),
        (
            volume,
            ReadInput { size: 39, ..good },
            600,
            InvalidParameter,
        ),
        (volume, good, 7, BufferTooSmall),
        (
            volume,
            ReadInput { lowest: 3, ..good },
            600,
            InvalidParameter,
        ),
        (volume, ReadInput { id: 8, ..good }, 600, InvalidParameter),
        (unsound, good, 600, FileCorruptError),
        (dropped, good, 600, JournalEntryDeleted),
        (
            volume,
            start(0u64.wrapping_sub(8)),
            600,
            JournalEntryDeleted,
        ),
        (volume, start(4104), 600, InvalidParameter),
        (volume, start(4264), 600, InvalidParameter),
        (volume, good, 8, NotSupported),
        (volume, good, 71, NotSupported),
        (volume, good, 600, NotSupported),
        (volume, start(0), 600, NotSupported),
        (volume, start(4176), 600, NotSupported),
        (dropped, start(0), 600, NotSupported),
        (volume, start(4256), 600, Success),
    ] {
        assert_eq!(status(volume, input, room), due, "{volume:?} {input:?}");
    }
}

/// The ring's end at every multiple of 8 of a record, so that the upper half of an
/// id is before it, behind it or at the ring's front.
#[test]
fn upper_bytes_are_found_across_the_end_of_the_ring() {
    let mut rings = 0;
    for cut in (0..80).step_by(8) {
        let first = 40 * CAPACITY as u64 - cut;
        for byte in 0..16 {
            for value in [1, 0x80] {
                let id = with_byte(byte, value);
                for pair in [(id, CHANGE.parent), (CHANGE.file, id)] {
                    let changes = [change(pair, 1), narrow(1)];
                    let journal = Journal::of(first, &changes);
                    let end = first + 160;
                    let shown = reply(end, 3, first, &changes);
                    assert_eq!(journal.read(0, 1, 3, 600), shown, "{pair:?} {cut}");
                    let full = image(2, &laid_out(3, first, &changes), first, 7);
                    let saved = image(1, &laid_out(2, first, &changes), first, 7);
                    let (read, saved) = match byte < 8 {
                        true => (reply(end, 2, first, &changes), gave(saved)),
                        false => (refused(NotSupported), refused(NotSupported)),
                    };
                    assert_eq!(journal.read(0, 1, 2, 600), read, "{pair:?} {cut}");
                    assert_eq!(journal.save(1, 600), saved, "{pair:?} {cut}");
                    assert_eq!(moved(&full, 2, 600), saved, "{pair:?} {cut}");
                    assert_eq!(journal.save(2, 600), gave(full), "{pair:?} {cut}");
                    rings += 1;
                }
            }
        }
    }
    assert_eq!(rings, 10 * 16 * 2 * 2);
}

/// Upper bytes that are written into a sound ring leave it sound, in every kept
/// record: reads in version 3 and posts go on.
#[test]
fn upper_bytes_leave_a_ring_sound() {
    let changes = vec![narrow(1); 12];
    let before = Journal::of(4096 + 200, &changes);
    for number in 0..12 {
        for place in (16..24).chain(32..40) {
            let mut journal = before.clone();
            let mut changes = changes.clone();
            let begin = 4096 + 200 + 80 * number as u64;
            journal.ring[(begin as usize + place) % CAPACITY] = 0xA5;
            match place {
                16..24 => changes[number].file.bytes[place - 8] = 0xA5,
                _ => changes[number].parent.bytes[place - 24] = 0xA5,
            }
            let due = reply(4296 + 960, 3, 4296, &changes);
            assert_eq!(journal.read(0, 1, 3, 2000), due, "{number} {place}");
            let due = match number {
                0 => refused(NotSupported),
                _ => reply(begin, 2, 4296, &changes[..number]),
            };
            assert_eq!(journal.read(0, 1, 2, 2000), due, "{number} {place}");
            journal.add(&WIDE);
            assert_eq!(journal.volume.first, 4296 + 80);
        }
    }
}

// ---- File reads.

/// A file read in a version into an output of this length.
fn read_file(id: FileId, parent: FileId, name: usize, version: Option<u8>, room: usize) -> Given {
    let file = FileRecord {
        id,
        usn: 8,
        ..FileRecord::default()
    };
    let links = [Link {
        place: 0,
        length: name as u32,
        short: 0,
    }];
    let pool = vec![0x61; name];
    let input = version.map_or(Vec::new(), |version| vec![2, 0, version, 0]);
    let volume = Volume {
        usn: 1,
        ..Volume::default()
    };
    let mut output = vec![0xCC; room + GUARD];
    let lent = &mut output[..room];
    let answer = volume.read_file(&file, parent, &pool, &links, &input, lent);
    given(output, answer)
}

/// Every room up to behind the record, with an empty name, a short one and one
/// whose record is longer than 64 bytes.
#[test]
fn a_file_read_in_version_2_is_refused_for_a_wide_id() {
    let narrow = FileId::from(u64::MAX);
    let mut tried = [0; 4];
    for (id, parent) in wide_pairs().into_iter().chain([(narrow, narrow)]) {
        let wide = id.is_wide() || parent.is_wide();
        for name in [0, 2, 4, 6, 20, 100] {
            let change = Change {
                file: id,
                parent,
                ..Change::default()
            };
            for version in [None, Some(2), Some(3)] {
                let number = version.unwrap_or(2);
                let least = if number == 2 { 64 } else { 80 };
                let record = lay_out(number.into(), &change, 8, &vec![0x61; name]);
                for room in 0..=record.len() + 9 {
                    let (due, kind) = match room {
                        _ if room < least => (refused(BufferTooSmall), 0),
                        _ if number == 2 && wide => (refused(NotSupported), 1),
                        _ if room < record.len() => (refused(BufferTooSmall), 2),
                        _ => (gave(record.clone()), 3),
                    };
                    tried[kind] += 1;
                    let given = read_file(id, parent, name, version, room);
                    assert_eq!(given, due, "{id:?} {parent:?} {name} {version:?} {room}");
                }
            }
        }
    }
    println!("file reads: {tried:?}");
    assert!(tried.iter().all(|count| *count > 100), "{tried:?}");
}

/// The ids are judged behind the file record, the links, the versions and the 64
/// bytes.
#[test]
fn a_file_read_gives_its_first_status() {
    let good = FileRecord {
        id: WIDE.file,
        ..FileRecord::default()
    };
    let corrupt = FileRecord {
        usn: NEGATIVE,
        ..good
    };
    let status = |usn, file: &FileRecord, length, input: &[u8], room: usize| {
        let volume = Volume {
            usn,
            ..Volume::default()
        };
        let links = [Link {
            place: 0,
            length,
            short: 0,
        }];
        let mut output = vec![0; room];
        let answer = volume.read_file(file, WIDE.parent, &[0x61; 20], &links, input, &mut output);
        answer.status
    };
    assert_eq!(status(0, &corrupt, 20, &[], 600), InvalidDeviceRequest);
    assert_eq!(status(1, &corrupt, 20, &[], 600), FileCorruptError);
    assert_eq!(status(1, &good, 22, &[], 600), FileCorruptError);
    assert_eq!(status(1, &good, 20, &[3, 0, 2, 0], 600), InvalidParameter);
    assert_eq!(status(1, &good, 20, &[2, 0, 2, 0], 63), BufferTooSmall);
    assert_eq!(status(1, &good, 20, &[2, 0, 2, 0], 64), NotSupported);
    assert_eq!(status(1, &good, 20, &[2, 0, 2, 0], 79), NotSupported);
    assert_eq!(status(1, &good, 20, &[2, 0, 2, 0], 80), NotSupported);
    assert_eq!(status(1, &good, 20, &[2, 0, 3, 0], 80), BufferTooSmall);
    assert_eq!(status(1, &good, 20, &[2, 0, 3, 0], 96), Success);
}

/// The other two controls on a file show no id, and judge none.
#[test]
fn regions_and_reparse_points_have_no_ids() {
    let volume = Volume {
        regions: 1,
        reparse: 1,
        points: 1,
        ..Volume::default()
    };
    let file = |id| FileRecord {
        id,
        eof: 100,
        valid: 60,
        tag: 5,
        guid: [9; 16],
        length: 4,
        ..FileRecord::default()
    };
    let store = [0xD4; STORE];
    let answers = |file: &FileRecord| {
        let (mut regions, mut point) = (vec![0xCC; 80], vec![0xCC; 80]);
        let one = volume.query_file_regions(file, &[], &mut regions);
        let other = volume.get_reparse_point(file, &store, &mut point);
        (given(regions, one), given(point, other))
    };
    let due = answers(&file(FileId::default()));
    assert_eq!((due.0 .0, due.1 .0), (success(64), success(28)));
    for id in wide_ids() {
        assert_eq!(answers(&file(id)), due, "{id:?}");
    }
}

// ---- Enumerations.

/// A file with a wide id or parent is left out, wherever it stands, in version 3 too;
/// the others come with every byte of their ids.
#[test]
fn an_enumeration_leaves_wide_ids_out() {
    let top = FileId::from(u64::MAX);
    let below = Entry {
        id: FileId::from(u64::MAX - 1),
        parent: top,
        ..entry(0, 8, 0, 2)
    };
    let others = [entry(0x0807_0605_0403_0201, 8, 0, 2), below];
    for (id, parent) in wide_pairs() {
        // No file has the id 2^64 - 1.
        let id = if id == top { FileId::new(7) } else { id };
        let wide = Entry {
            id,
            parent,
            ..entry(0, 8, 0, 2)
        };
        for version in [2, 3] {
            let all = EnumInput::all(version);
            let given = enumerate(&[wide], b"a\0", &all, 600);
            assert_eq!(given, refused(EndOfFile), "{id:?} {parent:?}");
            let due = due(&others, b"a\0", &all, 600);
            assert_eq!(due.0, success(8 + 2 * record_length(version, 2)));
            let [one, other] = others;
            for table in [[one, other, wide], [wide, one, other], [other, wide, one]] {
                let given = enumerate(&table, b"a\0", &all, 600);
                assert_eq!(given, due, "{id:?} {parent:?}");
            }
        }
    }
}

// ---- Saving and loading.

/// A save in form 1 is refused while a record with a wide id is kept, whatever the
/// room is, and done again once the record is dropped. Form 2 has room for it, and
/// the image is not moved to form 1.
#[test]
fn no_image_of_form_1_is_written_while_a_wide_id_is_kept() {
    for pair in wide_pairs() {
        let mut journal = Journal::of(4096, &[narrow(1)]);
        assert_eq!(journal.save(1, 95), refused(BufferTooSmall));
        let first = image(1, &laid_out(2, 4096, &[narrow(1)]), 4096, 7);
        assert_eq!(journal.save(1, 96), gave(first));
        journal.add(&change(pair, 1));
        let both = laid_out(3, 4096, &[narrow(1), change(pair, 1)]);
        let both = image(2, &both, 4096, 7);
        assert_eq!(journal.save(2, 192), gave(both.clone()), "{pair:?}");
        assert_eq!(journal.save(2, 191), refused(BufferTooSmall), "{pair:?}");
        let unsupported = refused(NotSupported);
        for room in (0..=32).chain(158..=162).chain([2000]) {
            assert_eq!(journal.save(1, room), unsupported, "{pair:?} {room}");
            assert_eq!(moved(&both, 2, room), unsupported, "{pair:?} {room}");
        }
        // The ring keeps twelve records: eleven behind this one, then it goes.
        for _ in 0..11 {
            assert_eq!(journal.save(1, 2000), unsupported, "{pair:?}");
            journal.add(&narrow(1));
        }
        assert_eq!(journal.volume.first, 4096 + 80);
        assert_eq!(journal.save(1, 2000), unsupported, "{pair:?}");
        let full = journal.save(2, 2000).1;
        assert_eq!(moved(&full, 2, 2000), unsupported, "{pair:?}");
        journal.add(&narrow(1));
        assert_eq!(journal.volume.first, 4096 + 160);
        let rest = laid_out(2, 4096 + 160, &[narrow(1); 12]);
        let saved = gave(image(1, &rest, 4096 + 160, 7));
        assert_eq!(journal.save(1, 2000), saved, "{pair:?}");
        let full = journal.save(2, 2000).1;
        assert_eq!(moved(&full, 2, 2000), saved, "{pair:?}");
        let room = 12 * 64 + TRAILER - 1;
        assert_eq!(journal.save(1, room), refused(BufferTooSmall));
        assert_eq!(moved(&full, 2, room), refused(BufferTooSmall));
    }
}

#[test]
fn a_save_gives_its_first_status() {
    let wide = Journal::of(4096, &[narrow(1), WIDE]);
    let with = |volume: Volume| Journal {
        volume,
        ring: wide.ring.clone(),
    };
    let volume = wide.volume;
    let mut damaged = wide.clone();
    damaged.ring[6] = 1; // the oldest record's minor version
    for (journal, due) in [
        (
            with(Volume {
                journal: 0,
                ..volume
            }),
            InvalidDeviceRequest,
        ),
        (with(Volume { state: 2, ..volume }), JournalDeleteInProgress),
        (with(Volume { state: 3, ..volume }), JournalNotActive),
        (
            with(Volume {
                last: 4264,
                ..volume
            }),
            FileCorruptError,
        ),
        (damaged, FileCorruptError),
        (wide.clone(), NotSupported),
    ] {
        for room in [0, 31, 159, 160, 2000] {
            let saved = |form| journal.save(form, room);
            assert_eq!(saved(1), refused(due), "{:?} {room}", journal.volume);
            // Right behind the volume's support.
            let unknown = match due {
                InvalidDeviceRequest => due,
                _ => UnknownRevision,
            };
            for form in NO_FORMS {
                assert_eq!(saved(form), refused(unknown), "{form}");
            }
            match due {
                NotSupported => {
                    let due = if room < 192 { BufferTooSmall } else { Success };
                    assert_eq!(saved(2).0.status, due, "{room}");
                }
                _ => assert_eq!(saved(2), refused(due), "{:?} {room}", journal.volume),
            }
        }
    }
}

/// The ids of an image of form 1 have eight bytes, which are kept with eight
/// zeroes, and so is the image moved to form 2.
#[test]
fn an_image_is_loaded_with_narrow_ids() {
    let all = FileId::from(u64::MAX);
    let changes = [change((all, all), 1), narrow(1)];
    let journal = Journal::of(4096, &changes);
    let (answer, saved) = journal.save(1, 2000);
    assert_eq!(answer, success(2 * 64 + TRAILER));
    assert_eq!(saved[8..24], [0xFF; 16]);
    let (answer, full) = moved(&saved, 1, 2000);
    assert_eq!(answer, success(2 * 80 + TRAILER));
    let ids = [[0xFF; 8], [0; 8], [0xFF; 8], [0; 8]].concat();
    assert_eq!(full[8..40], ids);

    for image in [saved, full] {
        let mut loaded = Journal::idle(0);
        assert_eq!(loaded.load(&image, 8), Success);
        assert_eq!(loaded.ring, journal.ring);
        assert_eq!(loaded.ring[8..40], ids);
        for version in [2, 3] {
            let due = reply(4096 + 160, version, 4096, &changes);
            assert_eq!(loaded.read(0, 1, version, 600), due);
        }
    }
}

/// Each byte of both ids comes back from an image of form 2, wide or not. A move to
/// form 1 and back gives the image again, unless there is a wide id.
#[test]
fn an_image_of_form_2_is_loaded_with_all_ids() {
    let mut images = 0;
    for byte in 0..16 {
        for value in [1, 0x80, 0xFF] {
            let id = with_byte(byte, value);
            for pair in [(id, CHANGE.parent), (CHANGE.file, id), (id, id)] {
                let changes = [narrow(1), change(pair, 1), narrow(1)];
                let journal = Journal::of(4096, &changes);
                let saved = journal.save(2, 272);
                let due = image(2, &laid_out(3, 4096, &changes), 4096, 7);
                assert_eq!(saved, gave(due), "{pair:?}");
                let mut loaded = Journal::idle(0);
                assert_eq!(loaded.load(&saved.1, 8), Success);
                assert_eq!(loaded.ring, journal.ring, "{pair:?}");

                let down = moved(&saved.1, 2, 272);
                assert_eq!(down, journal.save(1, 272), "{pair:?}");
                match byte < 8 {
                    true => assert_eq!(moved(&down.1, 1, 272), saved, "{pair:?}"),
                    false => assert_eq!(down, refused(NotSupported), "{pair:?}"),
                }
                images += 1;
            }
        }
    }
    assert_eq!(images, 16 * 3 * 3);
}

// ---- Readers of both versions over mixed journals.

/// A record that was posted.
struct Posted {
    usn: u64,
    change: Change,
    name: Vec<u8>,
}

/// A reader: where it began, where it stands, and which of the posted records it
/// was handed.
struct Reader {
    start: u64,
    mask: u32,
    position: u64,
    handed: Vec<u64>,
}

/// A journal, what was posted to it, and its readers.
struct Mixed {
    volume: Volume,
    ring: Vec<u8>,
    posted: Vec<Posted>,
    readers: Vec<Reader>,
}

impl Mixed {
    fn new(rng: &mut Rng) -> Mixed {
        let capacity = 8 * rng.between(128, 400);
        let mut volume = Volume {
            journal: 1,
            last: 8 * rng.between(1, 1 << 20),
            capacity,
            ..Volume::default()
        };
        assert_eq!(volume.create(7), Success);
        let reader = |mask| Reader {
            start: volume.last,
            mask,
            position: volume.last,
            handed: Vec::new(),
        };
        Mixed {
            volume,
            ring: vec![0; capacity as usize],
            posted: Vec::new(),
            readers: [!0, 1, 2, 3, 6].map(reader).into(),
        }
    }

    fn post(&mut self, rng: &mut Rng, wide: u64) {
        let change = Change {
            reason: rng.pick(&[1, 2, 4]),
            ..common::any_change(rng, wide)
        };
        let length = 2 * rng.between(1, 30) as usize;
        let name = common::name(rng, length);
        let mut usn = 0;
        let status = self.volume.post(&mut self.ring, &change, &name, &mut usn);
        assert_eq!(status, Success);
        self.posted.push(Posted { usn, change, name });
    }

    /// The first record above a position that a mask selects, and where it begins.
    fn next(&self, position: u64, mask: u32) -> Option<(&Posted, u64)> {
        let record = self
            .posted
            .iter()
            .find(|record| record.usn > position && selects(mask, 0, record.change.reason))?;
        let length = record_length(3, record.name.len()) as u64;
        Some((record, record.usn - length))
    }

    /// A reader's read. Gives its status.
    fn read(&mut self, rng: &mut Rng, reader: usize, version: u16, room: usize) -> Status {
        let Reader { position, mask, .. } = self.readers[reader];
        let input = ReadInput {
            start: position,
            mask,
            only_on_close: 0,
            id: 7,
            lowest: 2,
            highest: version,
            size: 48,
        };
        let input = input.bytes(rng);
        let mut output = vec![0xCC; room + GUARD];
        let lent = &mut output[..room];
        let answer = self.volume.read_journal(&self.ring, &input, lent);
        let (answer, bytes) = given(output, answer);
        let what = || format!("version {version} room {room} {:?}", self.volume);
        let next = self.next(position, mask);
        let cannot = |record: &Posted| version == 2 && is_wide(&record.change);
        let length = |record: &Posted| record_length(version, record.name.len());

        let due = match next {
            _ if position < self.volume.first => JournalEntryDeleted,
            Some((record, _)) if cannot(record) => NotSupported,
            Some((record, _)) if room < 8 + length(record) => BufferTooSmall,
            _ => Success,
        };
        assert_eq!(answer.status, due, "{}", what());
        if due == JournalEntryDeleted {
            // It begins anew, with what is still kept.
            let first = self.volume.first;
            self.readers[reader] = Reader {
                start: first,
                position: first,
                mask,
                handed: Vec::new(),
            };
        }
        if due != Success {
            return due;
        }

        // The posted records one after the other, as many as fit and can be shown.
        let (mut rest, mut at, mut handed) = (&bytes[8..], position, Vec::new());
        let end = loop {
            let Some((record, begin)) = self.next(at, mask) else {
                break self.volume.last;
            };
            let room_left = room - (bytes.len() - rest.len());
            if cannot(record) || length(record) > room_left {
                break begin;
            }
            let expected = lay_out(version, &record.change, record.usn, &record.name);
            assert!(rest.starts_with(&expected), "{}", what());
            rest = &rest[expected.len()..];
            handed.push(record.usn);
            at = record.usn;
        };
        assert!(rest.is_empty(), "more than is due: {}", what());
        assert_eq!(bytes[..8], end.to_le_bytes(), "{}", what());
        let it = &mut self.readers[reader];
        it.handed.extend(handed);
        it.position = end;
        Success
    }

    /// Each reader has been handed each selected record between its start and its
    /// position once, in order.
    fn all_were_handed(&self) -> usize {
        for it in &self.readers {
            let due = self.posted.iter().filter(|record| {
                record.usn > it.start
                    && record.usn <= it.position
                    && selects(it.mask, 0, record.change.reason)
            });
            let due: Vec<u64> = due.map(|record| record.usn).collect();
            assert_eq!(it.handed, due, "{:?} mask {:#x}", self.volume, it.mask);
        }
        self.readers.iter().map(|it| it.handed.len()).sum()
    }
}

#[test]
fn readers_of_both_versions_are_handed_each_record_once() {
    let mut rng = Rng::new("ids, readers");
    let mut counts = Counts::new("ids, readers");
    let mut handed = 0;
    for _ in 0..400 {
        let mut mixed = Mixed::new(&mut rng);
        let wide = rng.pick(&[0, 5, 20, 50, 100]);
        for _ in 0..rng.between(20, 150) {
            if rng.percent(30) {
                mixed.post(&mut rng, wide);
                continue;
            }
            let reader = rng.below(5) as usize;
            let room = match rng.below(4) {
                0 => rng.between(8, 200) as usize,
                1 => rng.between(200, 600) as usize,
                _ => rng.between(600, 2000) as usize,
            };
            let version = rng.pick(&[2, 2, 3]);
            let status = mixed.read(&mut rng, reader, version, room);
            counts.add(status);
            if status == NotSupported && rng.percent(60) {
                // From the same position on version 3 shows it.
                let before = mixed.readers[reader].handed.len();
                let status = mixed.read(&mut rng, reader, 3, 600);
                counts.add(status);
                assert_eq!(status, Success);
                assert!(mixed.readers[reader].handed.len() > before);
            }
        }
        for reader in 0..5 {
            while mixed.readers[reader].position != mixed.volume.last {
                counts.add(mixed.read(&mut rng, reader, 3, 700));
            }
        }
        handed += mixed.all_were_handed();
    }
    println!("ids, readers: {handed} records handed out");
    assert!(handed > 10_000);
    let expected = [Success, BufferTooSmall, NotSupported, JournalEntryDeleted];
    counts.finish(&expected, 10_000);
}

// ---- Random calls, the library against the model.

const TEST: &str = "ids";

/// A record that is kept: its beginning, its end, its reason and its name's length.
#[derive(Clone, Copy)]
struct Kept {
    begin: u64,
    end: u64,
    reason: u32,
    name: usize,
}

/// The library's and the model's journal, which are equal between calls.
struct Both {
    volume: Volume,
    model: model::Volume,
    ring: Vec<u8>,
    model_ring: Vec<u8>,
    kept: VecDeque<Kept>,
}

struct Run {
    rng: Rng,
    posts: Counts,
    reads: Counts,
    saves: Counts,
    files: Counts,
    tables: Counts,
    records: Counts,
    index: u64,
}

impl Both {
    fn new(rng: &mut Rng) -> Both {
        let capacity = 8 * rng.between(128, 300);
        let mut volume = Volume {
            usn: 1,
            journal: 1,
            last: common::last_usn(rng).min(NEGATIVE / 2),
            capacity,
            ..Volume::default()
        };
        assert_eq!(volume.create(7), Success);
        let ring = rng.bytes(capacity as usize + GUARD);
        Both {
            volume,
            model: model_volume(&volume),
            model_ring: ring.clone(),
            ring,
            kept: VecDeque::new(),
        }
    }

    fn agrees(&self) -> bool {
        model_volume(&self.volume) == self.model && self.ring == self.model_ring
    }

    fn describe(&self) -> String {
        let rings = (Hex(&self.ring), Hex(&self.model_ring));
        format!("{:?}\n{:?}\n{rings:?}", self.volume, self.model)
    }

    /// The place of a position in the ring.
    fn place(&self, position: u64) -> usize {
        (position % self.volume.capacity) as usize
    }
}

impl Run {
    fn post(&mut self, both: &mut Both, wide: u64) {
        let change = Change {
            reason: self.rng.pick(&[1, 2, 4, 7]),
            ..common::any_change(&mut self.rng, wide)
        };
        let length = 2 * self.rng.between(1, 20) as usize;
        let name = common::name(&mut self.rng, length);
        let lent = both.volume.capacity as usize;
        let (mut usn, mut model_usn) = (0, 0);
        let begin = both.volume.last;
        let ring = &mut both.ring[..lent];
        let status = both.volume.post(ring, &change, &name, &mut usn);
        let ring = &mut both.model_ring[..lent];
        let model = model_change(&change);
        let by_model = model::post(&mut both.model, ring, &model, &name, &mut model_usn);
        self.posts.add(status);
        let agree = (status.number(), usn) == (by_model, model_usn) && both.agrees();
        check(agree, TEST, self.index, || {
            format!(
                "post {status} {by_model:#x} {change:?}\n{}",
                both.describe()
            )
        });
        self.index += 1;
        both.kept.push_back(Kept {
            begin,
            end: usn,
            reason: change.reason,
            name: length,
        });
        let first = both.volume.first;
        both.kept.retain(|kept| kept.begin >= first);
    }

    /// Writes an upper byte of an id into a kept record, in both rings.
    fn plant(&mut self, both: &mut Both) {
        if both.kept.is_empty() {
            return;
        }
        let kept = both.kept[self.rng.below(both.kept.len() as u64) as usize];
        let at = self.rng.pick(&[16, 32]) + self.rng.below(8);
        let place = both.place(kept.begin + at);
        let value = self.rng.pick(&[0, 0, 1, 0x80, 0xFF]);
        both.ring[place] = value;
        both.model_ring[place] = value;
    }

    fn read(&mut self, both: &Both) {
        let rng = &mut self.rng;
        let starts: Vec<u64> = both.kept.iter().map(|kept| kept.begin).collect();
        let start = match rng.below(4) {
            0 => 0,
            1 => both.volume.first,
            _ if starts.is_empty() => both.volume.last,
            _ => rng.pick(&starts),
        };
        let mask = rng.pick(&[1, 2, 4, 3, 7, 7, 7]);
        let version = rng.pick(&[2, 2, 2, 3]);
        let mut limits = vec![8];
        for kept in &both.kept {
            if kept.end > start && selects(mask, 0, kept.reason) {
                limits.push(limits[limits.len() - 1] + record_length(version, kept.name) as u64);
            }
        }
        let limit = rng.pick(&limits);
        let room = match rng.below(4) {
            0 => rng.between(8, 130),
            1 => rng.around(limit).max(8),
            2 => limits[limits.len() - 1],
            _ => rng.between(600, 2000),
        } as usize;
        let input = ReadInput {
            start,
            mask,
            only_on_close: 0,
            id: 7,
            lowest: 2,
            highest: version,
            size: if version == 2 {
                rng.pick(&[40, 48])
            } else {
                48
            },
        };
        let input = input.bytes(rng);
        let input = Lent::holding(rng, &input);
        let mut output = Lent::output(rng, room);
        let lent = both.volume.capacity as usize;
        let answer = both.volume.read_journal(
            &both.ring[..lent],
            &input.library[..input.length],
            output.for_library(),
        );
        let by_model = model::read_journal(
            &both.model,
            &both.model_ring[..lent],
            &input.before[..input.length],
            output.for_model(),
        );
        self.reads.add(answer.status);
        check(
            (answer.status.number(), answer.count) == by_model
                && output.agrees(answer.count)
                && input.same()
                && both.agrees(),
            TEST,
            self.index,
            || {
                format!(
                    "read: library {answer:?}, model {by_model:x?}\ninput {:?} room {room}\n\
                     library's {:?}\nmodel's {:?}\n{}",
                    Hex(&input.before[..input.length]),
                    Hex(&output.library),
                    Hex(&output.model),
                    both.describe()
                )
            },
        );
        self.index += 1;
    }

    fn save(&mut self, both: &Both) {
        let form = self.rng.pick(&FORMS);
        let version = version_of(form);
        let lengths = both
            .kept
            .iter()
            .map(|kept| record_length(version, kept.name));
        let length = TRAILER + lengths.sum::<usize>();
        let room = match self.rng.below(4) {
            0 => self.rng.below(length as u64) as usize,
            1 => length - 1,
            2 => length,
            _ => length + self.rng.below(50) as usize,
        };
        let mut output = Lent::output(&mut self.rng, room);
        let lent = both.volume.capacity as usize;
        let answer = both
            .volume
            .save_journal(&both.ring[..lent], form, output.for_library());
        let by_model = model::save_journal(
            &both.model,
            &both.model_ring[..lent],
            form,
            output.for_model(),
        );
        self.saves.add(answer.status);
        check(
            (answer.status.number(), answer.count) == by_model
                && output.agrees(answer.count)
                && both.agrees(),
            TEST,
            self.index,
            || {
                format!(
                    "save in {form}: library {answer:?}, model {by_model:x?}, room {room}\n\
                     library's {:?}\nmodel's {:?}\n{}",
                    Hex(&output.library),
                    Hex(&output.model),
                    both.describe()
                )
            },
        );
        self.index += 1;
    }

    fn read_file(&mut self, volume: &Volume) {
        let rng = &mut self.rng;
        let (id, parent) = common::ids(rng, 50);
        let file = FileRecord {
            id,
            usn: rng.long() >> 1,
            attributes: rng.word(),
            ..FileRecord::default()
        };
        let length = 2 * rng.below(20) as usize;
        let pool = common::name(rng, length);
        let links = [Link {
            place: 0,
            length: length as u32,
            short: 0,
        }];
        let version = rng.pick(&[2, 2, 2, 3]);
        let input = match rng.below(3) {
            0 => Vec::new(),
            _ => vec![2, 0, version as u8, 0],
        };
        let record = record_length(version, length) as u64;
        let limit = rng.pick(&[64, 80, record]);
        let room = match rng.below(3) {
            0 => rng.around(limit),
            1 => rng.below(120),
            _ => 600,
        } as usize;
        let pool = Lent::holding(rng, &pool);
        let mut output = Lent::output(rng, room);
        let answer = volume.read_file(
            &file,
            parent,
            &pool.library[..length],
            &links,
            &input,
            output.for_library(),
        );
        let by_model = model::read_file(
            &model_volume(volume),
            &model_file(&file),
            parent.number(),
            &pool.before[..length],
            &model_links(&links),
            &input,
            output.for_model(),
        );
        self.files.add(answer.status);
        check(
            (answer.status.number(), answer.count) == by_model
                && output.agrees(answer.count)
                && pool.same(),
            TEST,
            self.index,
            || {
                format!(
                    "file read: library {answer:?}, model {by_model:x?}, room {room}\n\
                     {file:?} {parent:?} input {input:?}\nlibrary's {:?}\nmodel's {:?}",
                    Hex(&output.library),
                    Hex(&output.model)
                )
            },
        );
        self.index += 1;
    }

    /// A table of few files, in which an id may stand twice.
    fn enumerate(&mut self, volume: &Volume) {
        let rng = &mut self.rng;
        let name = common::name(rng, 20);
        let mut table: Vec<Entry> = Vec::new();
        for _ in 0..rng.below(6) {
            let (mut id, parent) = common::ids(rng, 30);
            if !table.is_empty() && rng.percent(15) {
                // That of another file, all of it or one half.
                let (from, to) = rng.pick(&[(0, 16), (0, 8), (8, 16)]);
                id.bytes[from..to].copy_from_slice(&rng.pick(&table).id.bytes[from..to]);
            }
            table.push(Entry {
                id,
                parent,
                ..entry(0, 8, 0, 20)
            });
        }
        let version = rng.pick(&[2, 3]);
        let input = EnumInput {
            start: rng.pick(&[0, 0, 0, NEGATIVE, u64::MAX - 2]),
            ..EnumInput::all(version)
        };
        let input = input.bytes(rng);
        let limit = 8 + record_length(version, 20) as u64 * rng.below(6);
        let room = rng.around(limit) as usize;
        let lent = Lent::holding(rng, &rows(&table));
        let mut output = Lent::output(rng, room);
        let answer = volume.enumerate_rows(
            &lent.library[..lent.length],
            &name,
            &input,
            output.for_library(),
        );
        let by_model = model::enumerate(
            &model_volume(volume),
            &model_table(&table),
            &name,
            &input,
            output.for_model(),
        );
        self.tables.add(answer.status);
        check(
            (answer.status.number(), answer.count) == by_model
                && output.agrees(answer.count)
                && lent.same(),
            TEST,
            self.index,
            || {
                format!(
                    "enumeration: library {answer:?}, model {by_model:x?}, room {room}\n\
                     {table:?} input {input:?}\nlibrary's {:?}\nmodel's {:?}",
                    Hex(&output.library),
                    Hex(&output.model)
                )
            },
        );
        self.index += 1;
    }

    /// A record with any ids, whole or with a bit changed somewhere.
    fn read_record(&mut self) {
        let rng = &mut self.rng;
        let version = rng.pick(&[2, 3, 3, 3]);
        let change = common::any_change(rng, 60);
        let length = 2 * rng.below(10) as usize;
        let name = common::name(rng, length);
        let usn = rng.long() >> 1;
        let mut bytes = lay_out(version, &change, usn, &name);
        let whole = rng.percent(40);
        if !whole {
            // Half of the time in the ids.
            let place = match rng.percent(50) {
                true => rng.between(8, 39),
                false => rng.below(bytes.len() as u64),
            };
            bytes[place as usize] ^= 1 << rng.below(8);
        }
        let lent = Lent::holding(rng, &bytes);
        let library = read_record(&lent.library[..lent.length], 0);
        let model = model::read_record(&bytes, 0);
        let ids = library.as_ref().map(|record| (record.file, record.parent));
        let model_ids = model.map(|record| (record.file, record.parent));
        let numbers = ids.map(|(file, parent)| (file.number(), parent.number()));
        let back = library.as_ref().is_none_or(|record| {
            let name = &bytes[record.name.clone()];
            let change = common::change_of(record);
            lay_out(record.version as u16, &change, record.usn, name) == bytes
        });
        // In version 2 the upper bytes are not there.
        let kept = ids == Some((change.file, change.parent)) || version == 2 || !whole;
        self.records.add(match library {
            Some(_) => Success,
            None => InvalidParameter,
        });
        let agree = numbers == model_ids && back && kept && lent.same();
        check(agree, TEST, self.index, || {
            format!(
                "record: library {library:?}, model {model:?} {:?}",
                Hex(&bytes)
            )
        });
        self.index += 1;
    }
}

#[test]
fn random_calls_agree_with_the_model() {
    let mut run = Run {
        rng: Rng::new(TEST),
        posts: Counts::new("ids, posts"),
        reads: Counts::new("ids, reads"),
        saves: Counts::new("ids, saves"),
        files: Counts::new("ids, file reads"),
        tables: Counts::new("ids, enumerations"),
        records: Counts::new("ids, records"),
        index: 0,
    };
    while run.index < 330_000 {
        let mut both = Both::new(&mut run.rng);
        let wide = run.rng.pick(&[0, 5, 20, 50, 100]);
        for _ in 0..run.rng.between(10, 200) {
            match run.rng.below(22) {
                0..=5 => run.post(&mut both, wide),
                6 => run.plant(&mut both),
                7..=13 => run.read(&both),
                14..=15 => run.save(&both),
                16..=17 => run.read_file(&both.volume),
                18..=19 => run.enumerate(&both.volume),
                _ => run.read_record(),
            }
        }
    }
    run.posts.finish(&[Success], 50_000);
    let expected = [Success, BufferTooSmall, NotSupported];
    run.reads.finish(&expected, 80_000);
    run.saves.finish(&expected, 20_000);
    run.files.finish(&expected, 20_000);
    let of_tables = [Success, EndOfFile, BufferTooSmall, FileCorruptError];
    run.tables.finish(&of_tables, 20_000);
    run.records.finish(&[Success, InvalidParameter], 20_000);
}
