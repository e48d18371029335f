//! Plain examples of each call, with the numbers written out.

mod common;

use common::{expected, lay_out, region_input};
use lanhduxe::{file_path, list_reply, move_image, read_record, row_path, walk_reply};
use lanhduxe::{Answer, Change, Entry, FileId, FileRecord, Link, Status, Volume};

/// A volume that supports everything, with an idle journal.
fn volume(capacity: u64) -> Volume {
    Volume {
        usn: 1,
        regions: 1,
        reparse: 1,
        points: 1,
        journal: 1,
        capacity,
        ..Volume::default()
    }
}

fn success(count: usize) -> Answer {
    Answer {
        status: Status::Success,
        count,
    }
}

fn refused(status: Status) -> Answer {
    assert!(status.is_refusal(), "{status}");
    Answer { status, count: 0 }
}

fn word(bytes: &[u8], at: usize) -> u64 {
    u64::from_le_bytes(bytes[at..at + 8].try_into().expect("eight bytes"))
}

/// The parent in every file read and post.
const PARENT: FileId = FileId::new(5);

fn versions(lowest: u16, highest: u16) -> [u8; 4] {
    let (low, high) = (lowest.to_le_bytes(), highest.to_le_bytes());
    [low[0], low[1], high[0], high[1]]
}

#[test]
fn the_statuses_have_their_numbers_and_names() {
    let table = [
        (0, "STATUS_SUCCESS"),
        (0x8000_0005, "STATUS_BUFFER_OVERFLOW"),
        (0xC000_000D, "STATUS_INVALID_PARAMETER"),
        (0xC000_0010, "STATUS_INVALID_DEVICE_REQUEST"),
        (0xC000_0011, "STATUS_END_OF_FILE"),
        (0xC000_0023, "STATUS_BUFFER_TOO_SMALL"),
        (0xC000_003A, "STATUS_OBJECT_PATH_NOT_FOUND"),
        (0xC000_0058, "STATUS_UNKNOWN_REVISION"),
        (0xC000_007F, "STATUS_DISK_FULL"),
        (0xC000_00BB, "STATUS_NOT_SUPPORTED"),
        (0xC000_0102, "STATUS_FILE_CORRUPT_ERROR"),
        (0xC000_0106, "STATUS_NAME_TOO_LONG"),
        (0xC000_0275, "STATUS_NOT_A_REPARSE_POINT"),
        (0xC000_0276, "STATUS_IO_REPARSE_TAG_INVALID"),
        (0xC000_0277, "STATUS_IO_REPARSE_TAG_MISMATCH"),
        (0xC000_0278, "STATUS_IO_REPARSE_DATA_INVALID"),
        (0xC000_029C, "STATUS_VOLUME_NOT_UPGRADED"),
        (0xC000_02B2, "STATUS_REPARSE_ATTRIBUTE_CONFLICT"),
        (0xC000_02B7, "STATUS_JOURNAL_DELETE_IN_PROGRESS"),
        (0xC000_02B8, "STATUS_JOURNAL_NOT_ACTIVE"),
        (0xC000_02CF, "STATUS_JOURNAL_ENTRY_DELETED"),
    ];
    assert_eq!(Status::ALL.len(), table.len());
    for (status, (number, name)) in Status::ALL.iter().zip(table) {
        assert_eq!(status.number(), number);
        assert_eq!(status.to_string(), name);
    }
}

#[test]
fn all_but_success_and_the_warning_are_refusals() {
    let replies = [Status::Success, Status::BufferOverflow];
    for status in Status::ALL {
        assert_eq!(status.is_refusal(), !replies.contains(&status), "{status}");
    }
}

#[test]
fn the_random_tests_see_every_status() {
    let tests = [
        &expected::JOURNAL[..],
        &expected::SAVE,
        &expected::LOAD,
        &expected::MOVE,
        &expected::FILE,
        &expected::REGIONS,
        &expected::REPARSE,
        &expected::SET,
        &expected::DELETE,
        &expected::TABLE,
        &expected::PATH,
    ];
    for status in Status::ALL {
        assert!(tests.iter().any(|seen| seen.contains(&status)), "{status}");
    }
}

#[test]
fn record_lengths() {
    let pool = [0x61; 510];
    for (name, two, three) in [(4, 64, 80), (6, 72, 88), (510, 576, 592)] {
        let links = [Link {
            place: 0,
            length: name,
            short: 0,
        }];
        for (highest, length) in [(2, two), (3, three)] {
            let mut output = [0xEE; 600];
            let answer = volume(1024).read_file(
                &FileRecord::default(),
                PARENT,
                &pool,
                &links,
                &versions(2, highest),
                &mut output,
            );
            assert_eq!(answer, success(length));
            assert_eq!(output[..4], (length as u32).to_le_bytes());
            assert!(output[length..].iter().all(|byte| *byte == 0xEE));
        }
    }
}

#[test]
fn file_read_versions() {
    let read = |lowest, highest| {
        let mut output = [0; 80];
        let input = versions(lowest, highest);
        let answer = volume(1024).read_file(
            &FileRecord::default(),
            PARENT,
            &[],
            &[],
            &input,
            &mut output,
        );
        (answer.status, output[4])
    };
    for (lowest, highest) in [(3, 2), (4, 9), (0, 1)] {
        assert_eq!(read(lowest, highest), (Status::InvalidParameter, 0));
    }
    assert_eq!(read(2, 9), (Status::Success, 3));
    assert_eq!(read(0, 2), (Status::Success, 2));
}

#[test]
fn file_read_without_links() {
    let file = FileRecord {
        id: FileId::new(9),
        usn: 80,
        attributes: 0x20,
        ..FileRecord::default()
    };
    let change = Change {
        file: FileId::new(9),
        parent: PARENT,
        attributes: 0x20,
        ..Change::default()
    };
    let mut output = [0xEE; 64];
    assert_eq!(
        volume(1024).read_file(&file, PARENT, &[], &[], &[], &mut output),
        success(64)
    );
    assert_eq!(output[..], lay_out(2, &change, 80, &[]));
    assert_eq!(
        volume(1024).read_file(&file, PARENT, &[], &[], &[], &mut output[..63]),
        refused(Status::BufferTooSmall)
    );
}

#[test]
fn file_read_takes_the_name_of_the_first_link_with_a_short_name() {
    let pool = *b"a\0b\0c\0d\0";
    let link = |place, length, short| Link {
        place,
        length,
        short,
    };
    let name = |links: &[Link]| {
        let mut output = [0; 64];
        let answer = volume(1024).read_file(
            &FileRecord::default(),
            PARENT,
            &pool,
            links,
            &[],
            &mut output,
        );
        assert_eq!(answer, success(64));
        let record = read_record(&output, 0).expect("a record");
        assert_eq!(record.parent, PARENT);
        output[record.name].to_vec()
    };
    assert_eq!(
        name(&[link(0, 2, 0), link(2, 2, 24), link(4, 2, 24)]),
        b"b\0"
    );
    assert_eq!(name(&[link(0, 0, 0), link(4, 2, 0), link(6, 2, 0)]), b"c\0");
    // The search stops at a short name even if that link's name is empty.
    assert_eq!(name(&[link(0, 2, 0), link(0, 0, 1), link(4, 2, 1)]), b"");
}

/// The regions of a reply: offset, length and usage.
fn regions(output: &[u8], answer: Answer) -> Vec<(u64, u64, u64)> {
    assert_eq!(answer.status, Status::Success);
    let count = (answer.count - 16) / 24;
    let head = [0, count as u32, count as u32, 0];
    for (place, expected) in head.iter().enumerate() {
        assert_eq!(output[4 * place..4 * place + 4], expected.to_le_bytes());
    }
    (0..count)
        .map(|entry| {
            let at = 16 + 24 * entry;
            (
                word(output, at),
                word(output, at + 8),
                word(output, at + 16),
            )
        })
        .collect()
}

#[test]
fn file_regions() {
    let volume = volume(1024);
    let file = FileRecord {
        eof: 100,
        valid: 60,
        ..FileRecord::default()
    };
    let mut output = [0xEE; 64];

    let answer = volume.query_file_regions(&file, &[], &mut output);
    assert_eq!(regions(&output, answer), [(0, 60, 1), (60, 40, 0)]);
    let answer = volume.query_file_regions(&file, &region_input(50, 20, 1), &mut output);
    assert_eq!(regions(&output, answer), [(50, 10, 1), (60, 10, 0)]);
    let answer = volume.query_file_regions(&file, &region_input(50, 10, 3), &mut output);
    assert_eq!(regions(&output, answer), [(50, 10, 3)]);
    assert_eq!(
        volume.query_file_regions(&file, &region_input(100, 10, 1), &mut output),
        success(0)
    );
    assert_eq!(
        volume.query_file_regions(&file, &region_input(1, (1 << 63) - 1, 1), &mut output),
        refused(Status::InvalidParameter)
    );

    let empty = FileRecord::default();
    let answer = volume.query_file_regions(&empty, &[], &mut output);
    assert_eq!(answer.count, 40);
    assert_eq!(regions(&output, answer), [(0, 0, 0)]);
}

/// The first of two regions, (0, 60, 1), behind the counts: 2 in all, 1 given.
#[rustfmt::skip]
const FIRST_OF_TWO: [u8; 40] = [
    0, 0, 0, 0, 2, 0, 0, 0, 1, 0, 0, 0, 0, 0, 0, 0,
    0, 0, 0, 0, 0, 0, 0, 0, 60, 0, 0, 0, 0, 0, 0, 0,
    1, 0, 0, 0, 0, 0, 0, 0,
];

#[test]
fn file_regions_without_room_for_the_second() {
    let file = FileRecord {
        eof: 100,
        valid: 60,
        ..FileRecord::default()
    };
    let mut output = [0xEE; 64];
    let warned = Answer {
        status: Status::BufferOverflow,
        count: 40,
    };
    assert_eq!(
        volume(1024).query_file_regions(&file, &[], &mut output[..63]),
        warned
    );
    assert_eq!(output[..40], FIRST_OF_TWO);
    assert_eq!(output[40..], [0xEE; 24]);

    // A call for what is behind the first region gives the second.
    let rest = region_input(60, (1 << 63) - 61, 1);
    let answer = volume(1024).query_file_regions(&file, &rest, &mut output[..63]);
    assert_eq!(regions(&output, answer), [(60, 40, 0)]);
}

#[test]
fn reparse_point_with_a_short_output() {
    let file = FileRecord {
        tag: 0xA000_000C,
        length: 20,
        ..FileRecord::default()
    };
    let store: Vec<u8> = (1..=255).cycle().take(16_376).collect();
    let mut output = [0xEE; 28];
    assert_eq!(
        volume(1024).get_reparse_point(&file, &store, &mut output[..7]),
        refused(Status::BufferTooSmall)
    );
    assert_eq!(
        volume(1024).get_reparse_point(&file, &store, &mut output[..18]),
        success(18)
    );
    assert_eq!(output[..8], [0x0C, 0, 0, 0xA0, 20, 0, 0, 0]);
    assert_eq!(output[8..18], store[..10]);
    assert_eq!(output[18..], [0xEE; 10]);
}

/// A reparse point with a GUID and three bytes of data.
#[rustfmt::skip]
const POINT: [u8; 27] = [
    0x42, 0, 0, 0, 3, 0, 0, 0,
    1, 2, 3, 4, 5, 6, 7, 8, 9, 10, 11, 12, 13, 14, 15, 16,
    0x78, 0x79, 0x7A,
];

#[test]
fn a_reparse_point_is_set_and_deleted() {
    let mut volume = volume(1024);
    let mut ring = vec![0xEE; 1024];
    assert_eq!(volume.create(7), Status::Success);
    let change = Change {
        file: FileId::new(9),
        parent: PARENT,
        ..Change::default()
    };
    let posted = Change {
        reason: 0x0010_0000,
        ..change
    };
    let mut file = FileRecord {
        id: FileId::new(9),
        eof: 100,
        valid: 60,
        ..FileRecord::default()
    };
    let (none, mut store) = (file, vec![0xDD; 16_376]);
    let status =
        volume.set_reparse_point(&mut ring, &mut file, &mut store, &change, b"a\0", &POINT);
    assert_eq!(status, Status::Success);
    let expected = FileRecord {
        usn: 80,
        tag: 0x42,
        guid: [1, 2, 3, 4, 5, 6, 7, 8, 9, 10, 11, 12, 13, 14, 15, 16],
        length: 3,
        ..none
    };
    assert_eq!(file, expected);
    assert_eq!(store[..4], *b"xyz\xDD");
    assert_eq!((volume.first, volume.last), (0, 80));
    assert_eq!(ring[..80], lay_out(3, &posted, 80, b"a\0"));
    let mut output = [0xEE; 28];
    let answer = volume.get_reparse_point(&file, &store, &mut output);
    assert_eq!(answer, success(27));
    assert_eq!(output, [&POINT[..], &[0xEE]].concat()[..]);

    let mut header: [u8; 24] = POINT[..24].try_into().expect("a header");
    let mut delete = |header: &[u8]| {
        volume.delete_reparse_point(&mut ring, &mut file, &store, &change, b"a\0", header)
    };
    assert_eq!(delete(&header), Status::IoReparseDataInvalid);
    header[4] = 0;
    header[23] ^= 1;
    assert_eq!(delete(&header), Status::ReparseAttributeConflict);
    header[23] ^= 1;
    assert_eq!(delete(&header), Status::Success);
    assert_eq!(delete(&header), Status::NotAReparsePoint);
    assert_eq!(file, FileRecord { usn: 160, ..none });
    assert_eq!((volume.first, volume.last), (0, 160));
    assert_eq!(ring[80..160], lay_out(3, &posted, 160, b"a\0"));
    assert_eq!(ring[160..], [0xEE; 864]);
    assert_eq!(store[..4], *b"xyz\xDD");
    let answer = volume.get_reparse_point(&file, &store, &mut output);
    assert_eq!(answer, refused(Status::NotAReparsePoint));
}

/// A journal of 1,024 bytes with thirteen records, names of 2 bytes.
fn thirteen() -> (Volume, Vec<u8>) {
    let mut volume = volume(1024);
    let mut ring = vec![0; 1024];
    assert_eq!(volume.create(7), Status::Success);
    for number in 1..=13u64 {
        let change = Change {
            file: number.into(),
            parent: PARENT,
            reason: 0x100,
            ..Change::default()
        };
        let mut usn = 0;
        assert_eq!(
            volume.post(&mut ring, &change, b"a\0", &mut usn),
            Status::Success
        );
        assert_eq!(usn, 80 * number);
    }
    (volume, ring)
}

fn read_input(start: u64) -> Vec<u8> {
    let mut input = Vec::new();
    input.extend(start.to_le_bytes());
    input.extend(u32::MAX.to_le_bytes());
    input.extend([0; 20]);
    input.extend(7u64.to_le_bytes());
    input
}

#[test]
fn journal_starts() {
    let (volume, ring) = thirteen();
    assert_eq!((volume.first, volume.last), (80, 1040));
    let mut output = [0; 600];
    let mut read = |start| volume.read_journal(&ring, &read_input(start), &mut output);
    assert_eq!(read(40), refused(Status::JournalEntryDeleted));
    assert_eq!(
        read(0u64.wrapping_sub(8)),
        refused(Status::JournalEntryDeleted)
    );
    assert_eq!(read(100), refused(Status::InvalidParameter));
    assert_eq!(read(1048), refused(Status::InvalidParameter));
    assert_eq!(read(1040), success(8));
    assert_eq!(word(&output, 0), 1040);
}

#[test]
fn journal_reads_go_on_where_the_output_ended() {
    let (volume, ring) = thirteen();
    let mut output = [0xEE; 200];
    assert_eq!(
        volume.read_journal(&ring, &read_input(80), &mut output[..71]),
        refused(Status::BufferTooSmall)
    );
    assert_eq!(
        volume.read_journal(&ring, &read_input(80), &mut output[..136]),
        success(136)
    );
    assert_eq!(output[136..], [0xEE; 64]);
    let walk = walk_reply(&output[..136]).expect("a whole reply");
    assert_eq!((walk.position, walk.count), (240, 2));
    let first = read_record(&output, 8).expect("a record");
    let second = read_record(&output, first.next).expect("a record");
    let ids = [first.file, second.file].map(FileId::number);
    assert_eq!(ids, [2, 3]);
    assert_eq!((first.version, first.usn), (2, 160));
    assert_eq!((second.version, second.usn), (2, 240));
    assert_eq!((second.attributes, second.next), (0x80, 136));
}

#[test]
fn a_journal_is_deleted_and_created_again() {
    let (mut volume, mut ring) = thirteen();
    let mut output = [0; 600];
    assert_eq!(volume.finish(), Status::InvalidParameter);
    assert_eq!(volume.delete(8), Status::InvalidParameter);
    assert_eq!(volume.create(9), Status::InvalidParameter);
    assert_eq!(volume.delete(7), Status::Success);
    assert_eq!(volume.delete(7), Status::JournalDeleteInProgress);
    assert_eq!(volume.create(8), Status::JournalDeleteInProgress);
    let answer = volume.read_journal(&ring, &read_input(0), &mut output);
    assert_eq!(answer, refused(Status::JournalDeleteInProgress));

    // A post is skipped, and nothing changes.
    let change = Change {
        reason: 1,
        ..Change::default()
    };
    let (mut usn, before) = (3, volume);
    assert_eq!(
        volume.post(&mut ring, &change, b"a\0", &mut usn),
        Status::Success
    );
    assert_eq!((usn, volume), (3, before));

    assert_eq!(volume.finish(), Status::Success);
    let answer = volume.read_journal(&ring, &read_input(0), &mut output);
    assert_eq!(answer, refused(Status::JournalNotActive));
    assert_eq!(volume.finish(), Status::JournalNotActive);
    assert_eq!(volume.create(7), Status::InvalidParameter);
    assert_eq!(volume.create(8), Status::Success);
    assert_eq!((volume.first, volume.last, volume.id), (1040, 1040, 8));
}

/// The image of a journal with id 7 and one record, from position 4,096 on, of form
/// number 1. The sum is that of the words 64, 2, 41, 5, 4,176, 256, 128,
/// 2 + 60 * 65,536, 97; 64, 4,096, 7, 1.
#[rustfmt::skip]
const IMAGE: [u8; 96] = [
    64, 0, 0, 0, 2, 0, 0, 0, 41, 0, 0, 0, 0, 0, 0, 0,
    5, 0, 0, 0, 0, 0, 0, 0, 0x50, 0x10, 0, 0, 0, 0, 0, 0,
    0, 0, 0, 0, 0, 0, 0, 0, 0, 1, 0, 0, 0, 0, 0, 0,
    0, 0, 0, 0, 0x80, 0, 0, 0, 2, 0, 60, 0, 0x61, 0, 0, 0,
    0, 0, 0, 0, 64, 0, 0, 0, 0, 0x10, 0, 0, 0, 0, 0, 0,
    7, 0, 0, 0, 0, 0, 0, 0, 0xEB, 0x22, 60, 0, 1, 0, 0, 0,
];

/// The same image in form 2. The sum is that of the words 80, 3, 41, 5, 4,176, 256,
/// 128, 2 + 76 * 65,536, 97; 80, 4,096, 7, 2.
#[rustfmt::skip]
const IMAGE_2: [u8; 112] = [
    80, 0, 0, 0, 3, 0, 0, 0, 41, 0, 0, 0, 0, 0, 0, 0,
    0, 0, 0, 0, 0, 0, 0, 0, 5, 0, 0, 0, 0, 0, 0, 0,
    0, 0, 0, 0, 0, 0, 0, 0, 0x50, 0x10, 0, 0, 0, 0, 0, 0,
    0, 0, 0, 0, 0, 0, 0, 0, 0, 1, 0, 0, 0, 0, 0, 0,
    0, 0, 0, 0, 0x80, 0, 0, 0, 2, 0, 76, 0, 0x61, 0, 0, 0,
    0, 0, 0, 0, 80, 0, 0, 0, 0, 0x10, 0, 0, 0, 0, 0, 0,
    7, 0, 0, 0, 0, 0, 0, 0, 0x0D, 0x23, 76, 0, 2, 0, 0, 0,
];

#[test]
fn an_image_is_moved_up_and_down() {
    for (image, from, moved) in [(&IMAGE[..], 1, &IMAGE_2[..]), (&IMAGE_2, 2, &IMAGE)] {
        let mut output = [0xEE; 120];
        let short = move_image(image, from, &mut output[..moved.len() - 1]);
        assert_eq!(short, refused(Status::BufferTooSmall));
        let other = move_image(image, 3 - from, &mut output);
        assert_eq!(other, refused(Status::UnknownRevision));
        let cut = move_image(&image[1..], from, &mut output);
        assert_eq!(cut, refused(Status::FileCorruptError));
        assert_eq!(output, [0xEE; 120]);
        assert_eq!(move_image(image, from, &mut output), success(moved.len()));
        assert_eq!(output[..moved.len()], *moved);
        assert!(output[moved.len()..].iter().all(|byte| *byte == 0xEE));
    }
    // Of the file's id, byte 8: the sum is larger by 1.
    let mut wide = IMAGE_2;
    wide[16] = 1;
    wide[104] += 1;
    let mut output = [0xEE; 120];
    let refusal = move_image(&wide, 2, &mut output);
    assert_eq!(refusal, refused(Status::NotSupported));
    assert_eq!(output, [0xEE; 120]);
}

#[test]
fn a_journal_is_saved_and_loaded() {
    a_journal_is_saved_and_loaded_in(1, &IMAGE);
    a_journal_is_saved_and_loaded_in(2, &IMAGE_2);
}

fn a_journal_is_saved_and_loaded_in(form: u32, image: &[u8]) {
    let length = image.len();
    let mut saved = Volume {
        last: 4096,
        ..volume(1024)
    };
    let mut ring = vec![0; 1024];
    assert_eq!(saved.create(7), Status::Success);
    let change = Change {
        file: FileId::new(41),
        parent: PARENT,
        reason: 0x100,
        ..Change::default()
    };
    let status = saved.post(&mut ring, &change, b"a\0", &mut 0);
    assert_eq!(status, Status::Success);

    let mut output = vec![0xEE; length + 4];
    let short = saved.save_journal(&ring, form, &mut output[..length - 1]);
    assert_eq!(short, refused(Status::BufferTooSmall));
    let unknown = saved.save_journal(&ring, 3, &mut output);
    assert_eq!(unknown, refused(Status::UnknownRevision));
    assert_eq!(output, vec![0xEE; length + 4]);
    let answer = saved.save_journal(&ring, form, &mut output);
    assert_eq!(answer, success(length));
    assert_eq!(output, [image, &[0xEE; 4]].concat());

    let mut loaded = volume(4096);
    let mut other = vec![0xEE; 4096];
    let mut load = |image: &[u8], id| loaded.load_journal(&mut other, image, id);
    assert_eq!(load(&image[..length - 1], 8), Status::UnknownRevision);
    assert_eq!(load(&image[1..], 8), Status::FileCorruptError);
    assert_eq!(load(image, 7), Status::InvalidParameter);
    assert_eq!(load(image, 8), Status::Success);
    assert_eq!(load(image, 9), Status::InvalidParameter);
    let expected = Volume {
        state: 1,
        id: 8,
        first: 4096,
        last: 4176,
        ..volume(4096)
    };
    assert_eq!(loaded, expected);
    assert_eq!(other[..80], lay_out(3, &change, 4176, b"a\0"));
    assert_eq!(other[80..], [0xEE; 4016]);
}

/// The reply of three files in version 2: 3, without a name; 7; and 9, with the
/// attributes 0x20 and a name of three units. Behind the last one, 10 is next.
#[rustfmt::skip]
const FILES: [u8; 208] = [
    10, 0, 0, 0, 0, 0, 0, 0,
    64, 0, 0, 0, 2, 0, 0, 0, 3, 0, 0, 0, 0, 0, 0, 0,
    5, 0, 0, 0, 0, 0, 0, 0, 0, 0, 0, 0, 0, 0, 0, 0,
    0, 0, 0, 0, 0, 0, 0, 0, 0, 0, 0, 0, 0, 0, 0, 0,
    0, 0, 0, 0, 0x80, 0, 0, 0, 0, 0, 60, 0, 0, 0, 0, 0,
    64, 0, 0, 0, 2, 0, 0, 0, 7, 0, 0, 0, 0, 0, 0, 0,
    5, 0, 0, 0, 0, 0, 0, 0, 0x50, 0x10, 0, 0, 0, 0, 0, 0,
    0, 0, 0, 0, 0, 0, 0, 0, 0, 0, 0, 0, 0, 0, 0, 0,
    0, 0, 0, 0, 0x80, 0, 0, 0, 2, 0, 60, 0, 0x61, 0, 0, 0,
    72, 0, 0, 0, 2, 0, 0, 0, 9, 0, 0, 0, 0, 0, 0, 0,
    7, 0, 0, 0, 0, 0, 0, 0, 0xFF, 0xFF, 0xFF, 0xFF, 0xFF, 0xFF, 0xFF, 0x7F,
    0, 0, 0, 0, 0, 0, 0, 0, 0, 0, 0, 0, 0, 0, 0, 0,
    0, 0, 0, 0, 0x20, 0, 0, 0, 6, 0, 60, 0, 0x62, 0, 0x63, 0,
    0x64, 0, 0, 0, 0, 0, 0, 0,
];

/// A row of this table: 9 in folder 7, with the Usn 2^63 - 1, the attributes 0x20 and
/// six bytes of name from place 2 on.
#[rustfmt::skip]
const ROW: [u8; 56] = [
    9, 0, 0, 0, 0, 0, 0, 0, 0, 0, 0, 0, 0, 0, 0, 0,
    7, 0, 0, 0, 0, 0, 0, 0, 0, 0, 0, 0, 0, 0, 0, 0,
    0xFF, 0xFF, 0xFF, 0xFF, 0xFF, 0xFF, 0xFF, 0x7F, 0x20, 0, 0, 0, 6, 0, 0, 0,
    2, 0, 0, 0, 0, 0, 0, 0,
];

#[test]
fn files_are_enumerated() {
    let volume = volume(1024);
    let pool = b"a\0b\0c\0d\0";
    let entry = |id, usn, name_place, name_length| Entry {
        id: FileId::new(id),
        parent: PARENT,
        usn,
        attributes: 0,
        name_length,
        name_place,
    };
    let nine = Entry {
        parent: FileId::new(7),
        attributes: 0x20,
        ..entry(9, (1 << 63) - 1, 2, 6)
    };
    let table = [nine, entry(3, 0, 8, 0), entry(7, 0x1050, 0, 2)];
    let mut input = [0; 24]; // from the id 0 and the Usn 0 on
    input[16..].copy_from_slice(&i64::MAX.to_le_bytes());

    let mut output = [0xEE; 216];
    let answer = volume.enumerate_files(&table, pool, &input, &mut output);
    assert_eq!(answer, success(208));
    assert_eq!(output, [&FILES[..], &[0xEE; 8]].concat()[..]);

    // With a byte less the last file has no room, and is next.
    let mut output = [0xEE; 216];
    let answer = volume.enumerate_files(&table, pool, &input, &mut output[..207]);
    assert_eq!((answer, word(&output, 0)), (success(136), 9));
    assert_eq!(output[8..136], FILES[8..136]);
    assert_eq!(output[136..], [0xEE; 80]);
    let short = volume.enumerate_files(&table, pool, &input, &mut output[..71]);
    assert_eq!(short, refused(Status::BufferTooSmall));

    // From the id 8 on, with the table as bytes.
    input[0] = 8;
    let answer = volume.enumerate_rows(&ROW, pool, &input, &mut output);
    assert_eq!((answer, word(&output, 0)), (success(80), 10));
    assert_eq!(output[8..80], FILES[136..]);
    let cut = volume.enumerate_rows(&ROW[..55], pool, &input, &mut output);
    assert_eq!(cut, refused(Status::FileCorruptError));
    input[0] = 10;
    let end = volume.enumerate_rows(&ROW, pool, &input, &mut output);
    assert_eq!(end, refused(Status::EndOfFile));
}

#[test]
fn a_path_is_shown() {
    let pool = b"a\0b\0c\0d\0";
    let root = FileId::new(5);
    let table = [Entry {
        id: FileId::new(7),
        parent: root,
        name_length: 2,
        ..Entry::default()
    }];
    // 9 is in 7, and 7 is in 5, which is not in the table.
    let rows = [&ROW[..], &[7], &[0; 15], &[5], &[0; 27], &[2], &[0; 11]].concat();
    let nine = FileId::new(9);

    let mut output = [0xEE; 16];
    let answer = row_path(&rows, pool, nine, root, &mut output);
    assert_eq!(answer, success(10));
    assert_eq!(output[..10], *b"a\0\x5C\0b\0c\0d\0");
    assert_eq!(output[10..], [0xEE; 6]);
    let answer = file_path(&table, pool, FileId::new(7), root, &mut output);
    assert_eq!((answer, &output[..3]), (success(2), &b"a\0\x5C"[..]));
    assert_eq!(file_path(&[], &[], root, root, &mut []), success(0));

    let mut output = [0xEE; 16];
    let short = row_path(&rows, pool, nine, root, &mut output[..9]);
    assert_eq!(short, refused(Status::BufferTooSmall));
    let other = row_path(&rows, pool, nine, FileId::new(4), &mut output);
    assert_eq!(other, refused(Status::ObjectPathNotFound));
    let cut = row_path(&rows[1..], pool, root, root, &mut output);
    assert_eq!(cut, refused(Status::FileCorruptError));
    let own = Entry {
        parent: FileId::new(7),
        ..table[0]
    };
    let round = file_path(&[own], pool, FileId::new(7), root, &mut output);
    assert_eq!(round, refused(Status::NameTooLong));
    assert_eq!(output, [0xEE; 16]);
}

#[test]
fn a_listed_reply() {
    let change = Change {
        reason: 0x100,
        ..Change::default()
    };
    let mut reply = 80u64.to_le_bytes().to_vec();
    reply.extend(lay_out(3, &change, 80, b"a\0"));
    let mut output = vec![0; 64 + 2 * reply.len()];
    let answer = list_reply(&reply, &mut output);
    assert_eq!(answer.status, Status::Success);
    assert_eq!(
        String::from_utf8_lossy(&output[..answer.count]),
        "next 80\n80 00000100 6100\nrecords 1\n"
    );

    let list = |reply: &[u8]| {
        let mut output = vec![0; 64 + 2 * reply.len()];
        let answer = list_reply(reply, &mut output);
        assert_eq!(answer.status, Status::Success);
        String::from_utf8_lossy(&output[..answer.count]).into_owned()
    };
    assert_eq!(list(&[0; 7]), "bad at 0\n");
    assert_eq!(list(&u64::MAX.to_le_bytes()), "next -1\nrecords 0\n");
    assert_eq!(list(&reply[..87]), "bad at 8\n");
    assert_eq!(list(&vec![0; 65_537]), "bad at 65536\n");
    let mut nameless = 8u64.to_le_bytes().to_vec();
    nameless.extend(lay_out(2, &change, 8, b""));
    assert_eq!(list(&nameless), "next 8\n8 00000100 -\nrecords 1\n");
    let short = output.len() - 1;
    assert_eq!(
        list_reply(&reply, &mut output[..short]),
        refused(Status::BufferTooSmall)
    );
}
