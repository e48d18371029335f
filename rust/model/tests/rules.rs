//! The rules' examples, the order of the statuses, and a walk through random
//! calls against a plain list of records.

use model::status::*;
use model::*;

/// A volume that supports everything, with an idle journal.
fn volume(capacity: u64) -> Volume {
    Volume {
        usn: 1,
        regions: 1,
        reparse: 1,
        points: 1,
        journal: 1,
        capacity,
        ..Volume::default()
    }
}

/// A change for any file.
fn change(reason: u32) -> Change {
    Change {
        file: 5,
        parent: 6,
        time: 7,
        reason,
        source: 8,
        security: 9,
        attributes: 0x20,
    }
}

/// Input of a journal read of 40 bytes, or of 48 if versions are given.
fn ask(start: u64, mask: u32, close: u32, id: u64, versions: Option<(u16, u16)>) -> Vec<u8> {
    let mut input = start.to_le_bytes().to_vec();
    input.extend(mask.to_le_bytes());
    input.extend(close.to_le_bytes());
    input.extend([0xEE; 16]);
    input.extend(id.to_le_bytes());
    if let Some((min, max)) = versions {
        input.extend(min.to_le_bytes());
        input.extend(max.to_le_bytes());
        input.extend([0xEE; 4]);
    }
    input
}

/// Input of a region query.
fn range(offset: u64, length: u64, usage: u32) -> Vec<u8> {
    let mut input = offset.to_le_bytes().to_vec();
    input.extend(length.to_le_bytes());
    input.extend(usage.to_le_bytes());
    input.extend([0xEE; 4]);
    input
}

/// A region reply as plain numbers.
fn region_reply(regions: &[(u64, u64, u32)]) -> Vec<u8> {
    let count = (regions.len() as u32).to_le_bytes();
    let mut reply = [[0; 4], count, count, [0; 4]].concat();
    for (offset, length, usage) in regions {
        reply.extend(offset.to_le_bytes());
        reply.extend(length.to_le_bytes());
        reply.extend(u64::from(*usage).to_le_bytes());
    }
    reply
}

/// The record's bytes, built field by field.
fn plain(version: u16, c: &Change, usn: u64, name: &[u8]) -> Vec<u8> {
    let id = |id: u128| match version {
        2 => id.to_le_bytes()[..8].to_vec(),
        _ => id.to_le_bytes().to_vec(),
    };
    let mut r = vec![0; 4];
    r.extend(version.to_le_bytes());
    r.extend([0; 2]);
    r.extend(id(c.file));
    r.extend(id(c.parent));
    r.extend(usn.to_le_bytes());
    r.extend(c.time.to_le_bytes());
    r.extend(
        [c.reason, c.source, c.security]
            .map(u32::to_le_bytes)
            .concat(),
    );
    r.extend(
        if c.attributes == 0 {
            0x80
        } else {
            c.attributes
        }
        .to_le_bytes(),
    );
    r.extend((name.len() as u16).to_le_bytes());
    r.extend((r.len() as u16 + 2).to_le_bytes());
    r.extend(name);
    while !r.len().is_multiple_of(8) {
        r.push(0);
    }
    let length = (r.len() as u32).to_le_bytes();
    r[..4].copy_from_slice(&length);
    r
}

/// The journal of the example: thirteen posts with names of two bytes.
fn thirteen() -> (Volume, Vec<u8>) {
    let mut v = volume(1024);
    let mut ring = vec![0xAA; 1024];
    let mut usn = 0;
    assert_eq!(create(&mut v, 3), SUCCESS);
    for i in 1..=13 {
        assert_eq!(
            post(&mut v, &mut ring, &change(i), b"a\0", &mut usn),
            SUCCESS
        );
        assert_eq!(usn, 80 * u64::from(i));
    }
    (v, ring)
}

/// Reads into a buffer of `size` bytes and checks that the rest is untouched.
fn read(v: &Volume, ring: &[u8], input: &[u8], size: usize) -> (u32, Vec<u8>) {
    let mut output = vec![0xCC; size];
    let (status, count) = read_journal(v, ring, input, &mut output);
    assert!(output[count..].iter().all(|&b| b == 0xCC));
    output.truncate(count);
    (status, output)
}

#[test]
fn record_lengths() {
    let v = volume(1024);
    let pool = vec![0x41; 510];
    let mut output = vec![0; 600];
    for (name, v2, v3) in [(4, 64, 80), (6, 72, 88), (510, 576, 592)] {
        let links = [Link {
            place: 0,
            length: name as u32,
            short: 0,
        }];
        for (max, length) in [(2, v2), (3, v3)] {
            let f = File {
                id: 1,
                usn: 8,
                ..File::default()
            };
            let input = [2, 0, max, 0];
            let got = read_file(&v, &f, 2, &pool, &links, &input, &mut output);
            assert_eq!(got, (SUCCESS, length));
            let c = Change {
                file: 1,
                parent: 2,
                ..Change::default()
            };
            assert_eq!(output[..length], plain(max.into(), &c, 8, &pool[..name]));
            let short = &mut output[..length - 1];
            let got = read_file(&v, &f, 2, &pool, &links, &input, short);
            assert_eq!(got, (BUFFER_TOO_SMALL, 0));
        }
    }
}

#[test]
fn file_read_order() {
    let mut v = volume(0);
    let mut f = File {
        usn: 1 << 63,
        ..File::default()
    };
    let mut output = [0; 80];
    let bad = [3, 0, 2, 0];
    v.usn = 0;
    let call = |v: &Volume, f: &File, links: &[Link], input: &[u8], out: &mut [u8]| {
        read_file(v, f, 0, b"abcd", links, input, out)
    };
    assert_eq!(call(&v, &f, &[], &bad, &mut []).0, INVALID_DEVICE_REQUEST);
    v.usn = 7;
    assert_eq!(call(&v, &f, &[], &bad, &mut []).0, FILE_CORRUPT_ERROR);
    f.usn -= 1;
    for (place, length) in [
        (0, 1),
        (3, 2),
        (4, 2),
        (5, 0),
        (u32::MAX, 2),
        (0, 512),
        (2, u32::MAX),
    ] {
        let links = [
            Link {
                short: 1,
                ..Link::default()
            },
            Link {
                place,
                length,
                short: 0,
            },
        ];
        assert_eq!(call(&v, &f, &links, &bad, &mut []).0, FILE_CORRUPT_ERROR);
    }
    for (min, max) in [(3, 2), (4, 9), (0, 1)] {
        assert_eq!(
            call(&v, &f, &[], &[min, 0, max, 0], &mut []).0,
            INVALID_PARAMETER
        );
    }
    assert_eq!(call(&v, &f, &[], &[2, 0, 9, 0], &mut output), (SUCCESS, 80));
    assert_eq!(output[4], 3);
    assert_eq!(
        call(&v, &f, &[], &[2, 0, 9, 0], &mut output[..79]).0,
        BUFFER_TOO_SMALL
    );
    assert_eq!(
        call(&v, &f, &[], &bad[..3], &mut output[..64]),
        (SUCCESS, 64)
    );
    assert_eq!(
        call(&v, &f, &[], &bad[..3], &mut output[..63]),
        (BUFFER_TOO_SMALL, 0)
    );
}

#[test]
fn name_choice() {
    let v = volume(0);
    let link = |place, length, short| Link {
        place,
        length,
        short,
    };
    let cases: [(&[Link], &[u8]); 5] = [
        (&[], b""),
        (&[link(0, 0, 0), link(2, 2, 0), link(0, 2, 0)], b"cd"),
        (&[link(0, 2, 0), link(2, 2, 9), link(0, 2, 9)], b"cd"),
        (&[link(0, 2, 0), link(4, 0, 1), link(2, 2, 1)], b""),
        (&[link(4, 0, 0)], b""),
    ];
    for (links, name) in cases {
        let mut output = [0xCC; 80];
        let f = File {
            attributes: 3,
            ..File::default()
        };
        let (status, count) = read_file(&v, &f, 4, b"abcd", links, &[], &mut output);
        let c = Change {
            parent: 4,
            attributes: 3,
            ..Change::default()
        };
        assert_eq!(
            (status, &output[..count]),
            (SUCCESS, &plain(2, &c, 0, name)[..])
        );
        assert!(output[count..].iter().all(|&b| b == 0xCC));
    }
}

/// Queries regions into a buffer of `size` bytes.
fn query(v: &Volume, eof: u64, valid: u64, input: &[u8], size: usize) -> (u32, Vec<u8>) {
    let mut output = vec![0xCC; size];
    let f = File {
        eof,
        valid,
        ..File::default()
    };
    let (status, count) = query_file_regions(v, &f, input, &mut output);
    assert!(output[count..].iter().all(|&b| b == 0xCC));
    output.truncate(count);
    (status, output)
}

/// The reply for Eof 100, Vdl 60 and the whole file without room for the second
/// region.
const FIRST_OF_TWO: [u8; 40] = [
    0x00, 0x00, 0x00, 0x00, // Flags
    0x02, 0x00, 0x00, 0x00, // total count
    0x01, 0x00, 0x00, 0x00, // entry count
    0x00, 0x00, 0x00, 0x00, // Reserved
    0x00, 0x00, 0x00, 0x00, 0x00, 0x00, 0x00, 0x00, // offset
    0x3C, 0x00, 0x00, 0x00, 0x00, 0x00, 0x00, 0x00, // length
    0x01, 0x00, 0x00, 0x00, // usage
    0x00, 0x00, 0x00, 0x00, // zero
];

#[test]
fn region_examples() {
    let v = volume(0);
    let two = region_reply(&[(0, 60, 1), (60, 40, 0)]);
    assert_eq!(query(&v, 100, 60, &[], 64), (SUCCESS, two));
    let warned = (BUFFER_OVERFLOW, FIRST_OF_TWO.to_vec());
    assert_eq!(query(&v, 100, 60, &[], 63), warned);
    let two = region_reply(&[(50, 10, 1), (60, 10, 0)]);
    assert_eq!(query(&v, 100, 60, &range(50, 20, 1), 99), (SUCCESS, two));
    let one = region_reply(&[(50, 10, 3)]);
    assert_eq!(query(&v, 100, 60, &range(50, 10, 3), 40), (SUCCESS, one));
    assert_eq!(query(&v, 100, 60, &range(100, 1, 1), 40), (SUCCESS, vec![]));
    let one = region_reply(&[(60, 40, 0)]);
    assert_eq!(query(&v, 100, 60, &range(60, 41, 1), 40), (SUCCESS, one));
    let one = region_reply(&[(0, 0, 0)]);
    assert_eq!(query(&v, 0, 0, &[], 40), (SUCCESS, one));
    let one = region_reply(&[(0, 100, 1)]);
    assert_eq!(query(&v, 100, 100, &[], 40), (SUCCESS, one));
}

/// Every room around those for one region and for two, with and without a second
/// region due.
#[test]
fn region_rooms() {
    let v = volume(0);
    let max = i64::MAX as u64;
    for (eof, valid, input, regions) in [
        (100, 60, vec![], vec![(0, 60, 1), (60, 40, 0)]),
        (100, 60, range(0, 61, 1), vec![(0, 60, 1), (60, 1, 0)]),
        (100, 60, range(59, 99, 3), vec![(59, 1, 3), (60, 40, 0)]),
        (100, 99, range(50, 50, 1), vec![(50, 49, 1), (99, 1, 0)]),
        (max, max - 1, vec![], vec![(0, max - 1, 1), (max - 1, 1, 0)]),
        (max, 1, vec![], vec![(0, 1, 1), (1, max - 1, 0)]),
        (100, 100, vec![], vec![(0, 100, 1)]),
        (100, 100, range(99, 2, 1), vec![(99, 1, 1)]),
        (100, 60, range(0, 60, 1), vec![(0, 60, 1)]),
        (100, 60, range(59, 1, 3), vec![(59, 1, 3)]),
        (100, 60, range(60, 99, 1), vec![(60, 40, 0)]),
        (100, 60, range(99, 99, 1), vec![(99, 1, 0)]),
        (100, 0, vec![], vec![(0, 100, 0)]),
        (max, max, vec![], vec![(0, max, 1)]),
        (0, 0, vec![], vec![(0, 0, 0)]),
        (0, 0, range(1, 1, 1), vec![]),
        (100, 60, range(100, 1, 1), vec![]),
        (100, 60, range(101, 1, 1), vec![]),
    ] {
        for room in 39..=64 {
            let expected = match (room, regions.len()) {
                (39, _) => (BUFFER_TOO_SMALL, vec![]),
                (_, 0) => (SUCCESS, vec![]),
                (40..=63, 2) => {
                    let mut first = region_reply(&regions[..1]);
                    first[4] = 2;
                    (BUFFER_OVERFLOW, first)
                }
                _ => (SUCCESS, region_reply(&regions)),
            };
            let got = query(&v, eof, valid, &input, room);
            assert_eq!(got, expected, "{regions:?} {room}");
        }
    }
}

#[test]
fn region_order() {
    let mut v = volume(0);
    let max = i64::MAX as u64;
    v.regions = 0;
    assert_eq!(query(&v, 1, 2, &[0], 0).0, INVALID_DEVICE_REQUEST);
    v.regions = 1;
    assert_eq!(query(&v, 1, 2, &[0], 0).0, FILE_CORRUPT_ERROR);
    assert_eq!(query(&v, max + 1, 2, &[0], 0).0, FILE_CORRUPT_ERROR);
    assert_eq!(query(&v, 1, 1, &[0; 23], 0).0, BUFFER_TOO_SMALL);
    for (offset, length, usage) in [
        (0, 0, 1),
        (0, max + 1, 1),
        (1, max, 1),
        (u64::MAX, 1, 1),
        (max + 1, 1, 1),
        (0, 1, 2),
    ] {
        assert_eq!(
            query(&v, 1, 1, &range(offset, length, usage), 0).0,
            INVALID_PARAMETER
        );
    }
    assert_eq!(query(&v, 1, 1, &range(9, 1, 1), 39).0, BUFFER_TOO_SMALL);
    assert_eq!(query(&v, 1, 1, &range(9, 1, 1), 40), (SUCCESS, vec![]));
    assert_eq!(query(&v, max, max, &range(1, max - 1, 1), 40).0, SUCCESS);
    // The warning comes behind every refusal.
    for (volume, eof, input, room, status) in [
        (0, 9, range(0, 9, 1), 63, INVALID_DEVICE_REQUEST),
        (1, max + 1, range(0, 9, 1), 63, FILE_CORRUPT_ERROR),
        (1, 9, vec![0; 23], 63, BUFFER_TOO_SMALL),
        (1, 9, range(0, max + 1, 1), 63, INVALID_PARAMETER),
        (1, 9, range(1, max, 1), 63, INVALID_PARAMETER),
        (1, 9, range(0, 9, 2), 63, INVALID_PARAMETER),
        (1, 9, range(0, 9, 1), 39, BUFFER_TOO_SMALL),
        (1, 9, range(0, 9, 1), 63, BUFFER_OVERFLOW),
    ] {
        v.regions = volume;
        assert_eq!(query(&v, eof, 5, &input, room).0, status);
    }
}

#[test]
fn reparse_points() {
    let mut v = volume(0);
    let mut f = File {
        tag: 0xA000_000C,
        guid: [7; 16],
        length: 20,
        ..File::default()
    };
    let store = [9; 16_376];
    let mut output = [0xCC; 64];
    assert_eq!(
        get_reparse_point(&v, &f, &store, &mut output[..7]).0,
        BUFFER_TOO_SMALL
    );
    assert_eq!(
        get_reparse_point(&v, &f, &store, &mut output[..18]),
        (SUCCESS, 18)
    );
    assert_eq!(output[..8], [12, 0, 0, 0xA0, 20, 0, 0, 0]);
    assert_eq!((output[8..18] == [9; 10], output[18]), (true, 0xCC));
    (f.tag, f.length) = (5, 2);
    assert_eq!(
        get_reparse_point(&v, &f, &store, &mut output),
        (SUCCESS, 26)
    );
    assert_eq!(output[..8], [5, 0, 0, 0, 2, 0, 0, 0]);
    assert_eq!(output[8..27], [&[7; 16][..], &[9, 9, 0xCC]].concat());
    f.length = 0;
    assert_eq!(
        get_reparse_point(&v, &f, &store, &mut output[..23]).0,
        BUFFER_TOO_SMALL
    );

    for (tag, most) in [(0, 0), (5, 16_360), (1 << 31, 16_376)] {
        f.tag = tag;
        (v.reparse, v.points) = (0, 0);
        f.length = most + 1;
        assert_eq!(
            get_reparse_point(&v, &f, &store, &mut []).0,
            INVALID_DEVICE_REQUEST
        );
        v.reparse = 1;
        assert_eq!(
            get_reparse_point(&v, &f, &store, &mut []).0,
            VOLUME_NOT_UPGRADED
        );
        v.points = 1;
        for length in [most + 1, 65_536, 1 << 32, u64::MAX] {
            f.length = length;
            assert_eq!(
                get_reparse_point(&v, &f, &store, &mut []).0,
                FILE_CORRUPT_ERROR
            );
        }
        f.length = most;
        let status = if tag == 0 {
            NOT_A_REPARSE_POINT
        } else {
            BUFFER_TOO_SMALL
        };
        assert_eq!(get_reparse_point(&v, &f, &store, &mut []).0, status);
        f.length = 0;
        assert_eq!(
            get_reparse_point(&v, &f, &store[1..], &mut []).0,
            FILE_CORRUPT_ERROR
        );
    }
}

/// A Microsoft point with three bytes of data.
const LINK: [u8; 11] = [0x0C, 0, 0, 0xA0, 3, 0, 0, 0, 0x61, 0x62, 0x63];
/// The header with which it is deleted.
const LINK_HEADER: [u8; 8] = [0x0C, 0, 0, 0xA0, 0, 0, 0, 0];
/// A point with a GUID and two bytes of data, and the header with which it is
/// deleted.
const OTHER: [u8; 26] = [
    0x05, 0, 0, 0x20, 2, 0, 0, 0, 1, 2, 3, 4, 5, 6, 7, 8, 9, 10, 11, 12, 13, 14, 15, 16, 0x78, 0x79,
];
const OTHER_HEADER: [u8; 24] = [
    0x05, 0, 0, 0x20, 0, 0, 0, 0, 1, 2, 3, 4, 5, 6, 7, 8, 9, 10, 11, 12, 13, 14, 15, 16,
];

/// The record that a set or a delete of file 5 posts at 1,040, name `a`: its reason
/// is 0x00100000, whatever that of the change is.
#[rustfmt::skip]
const POINT_KEPT: [u8; 80] = [
    80, 0, 0, 0, 3, 0, 0, 0, 5, 0, 0, 0, 0, 0, 0, 0,
    0, 0, 0, 0, 0, 0, 0, 0, 6, 0, 0, 0, 0, 0, 0, 0,
    0, 0, 0, 0, 0, 0, 0, 0, 0x60, 0x04, 0, 0, 0, 0, 0, 0,
    7, 0, 0, 0, 0, 0, 0, 0, 0, 0, 0x10, 0, 8, 0, 0, 0,
    9, 0, 0, 0, 0x20, 0, 0, 0, 2, 0, 76, 0, 0x61, 0, 0, 0,
];

/// What a set or a delete is lent, but for its input.
#[derive(Clone, Debug, PartialEq)]
struct Points {
    v: Volume,
    ring: Vec<u8>,
    f: File,
    store: Vec<u8>,
    reason: u32,
    name: Vec<u8>,
}

impl Points {
    /// The example's journal, and a file without a point. Its GUID is not zeroes,
    /// which is of no concern.
    fn new() -> Points {
        let (v, ring) = thirteen();
        let f = File {
            id: 5,
            usn: u64::MAX,
            eof: 3,
            valid: 4,
            attributes: 0,
            tag: 0,
            guid: [7; 16],
            length: 0,
        };
        let store = vec![0xBB; 16_376];
        let (reason, name) = (0, b"a\0".to_vec());
        Points {
            v,
            ring,
            f,
            store,
            reason,
            name,
        }
    }

    /// The same with a point that a set has placed.
    fn with(point: &[u8]) -> Points {
        let mut points = Points::new();
        points.v.state = 0;
        assert_eq!(points.set(point), SUCCESS);
        points.v.state = 1;
        points
    }

    /// A refusal changes nothing.
    fn set(&mut self, input: &[u8]) -> u32 {
        let before = self.clone();
        let c = change(self.reason);
        let (v, ring, f) = (&mut self.v, &mut self.ring, &mut self.f);
        let status = set_reparse_point(v, ring, f, &mut self.store, &c, &self.name, input);
        assert!(status == SUCCESS || *self == before);
        status
    }

    /// A refusal changes nothing.
    fn delete(&mut self, input: &[u8]) -> u32 {
        let before = self.clone();
        let c = change(self.reason);
        let (v, ring, f) = (&mut self.v, &mut self.ring, &mut self.f);
        let status = delete_reparse_point(v, ring, f, &self.store, &c, &self.name, input);
        assert!(status == SUCCESS || *self == before);
        status
    }

    /// A call of both kinds with the same arguments, of which neither succeeds.
    fn refused(&self, input: &[u8]) -> [u32; 2] {
        let refused = [self.clone().set(input), self.clone().delete(input)];
        assert!(!refused.contains(&SUCCESS));
        refused
    }

    /// The file's point as a get gives it.
    fn get(&self) -> (u32, Vec<u8>) {
        let mut output = vec![0xCC; 16_400];
        let (status, count) = get_reparse_point(&self.v, &self.f, &self.store, &mut output);
        assert!(output[count..].iter().all(|&b| b == 0xCC));
        output.truncate(count);
        (status, output)
    }
}

#[test]
fn point_bytes() {
    let none = Points::new();
    for (input, tag, guid, data) in [
        (&LINK[..], 0xA000_000C, [0; 16], &b"abc"[..]),
        (
            &OTHER,
            0x2000_0005,
            std::array::from_fn(|i| i as u8 + 1),
            b"xy",
        ),
    ] {
        let mut expected = none.clone();
        expected.f.usn = 1120;
        (expected.f.tag, expected.f.guid) = (tag, guid);
        expected.f.length = data.len() as u64;
        expected.store[..data.len()].copy_from_slice(data);
        // The oldest record of the full ring is dropped.
        (expected.v.first, expected.v.last) = (160, 1120);
        expected.ring[16..96].copy_from_slice(&POINT_KEPT);
        let mut points = none.clone();
        assert_eq!(points.set(input), SUCCESS);
        assert!(points == expected, "{:?} {:?}", points.v, points.f);
        assert_eq!(points.get(), (SUCCESS, input.to_vec()));

        // The data stays in the store, where it is no data any more.
        let header = input[..input.len() - data.len()].to_vec();
        let header = [&header[..4], &[0; 2], &header[6..]].concat();
        (expected.f.tag, expected.f.guid, expected.f.length) = (0, [0; 16], 0);
        (expected.v.first, expected.v.last, expected.f.usn) = (240, 1200, 1200);
        let mut kept = POINT_KEPT;
        kept[40..42].copy_from_slice(&1200u16.to_le_bytes());
        expected.ring[96..176].copy_from_slice(&kept);
        assert_eq!(points.delete(&header), SUCCESS);
        assert!(points == expected, "{:?} {:?}", points.v, points.f);
        assert_eq!(points.get(), (NOT_A_REPARSE_POINT, vec![]));
    }
}

/// A point of a tag with so much data, whose length is told right.
fn point(tag: u32, length: usize) -> Vec<u8> {
    let mut input = tag.to_le_bytes().to_vec();
    input.extend((length as u16).to_le_bytes());
    input.extend([0; 2]);
    if tag >> 31 == 0 {
        input.extend([0xD1; 16]);
    }
    input.extend((0..length).map(|i| i as u8));
    input
}

#[test]
fn point_sizes() {
    // Shorter than any header, or than that of the tag. Tag 0 has the long one.
    for input in [&LINK[..], &OTHER, &[0; 24]] {
        let header = if input == LINK { 8 } else { 24 };
        for size in 0..header {
            let refused = Points::new().refused(&input[..size]);
            assert_eq!(refused, [IO_REPARSE_DATA_INVALID; 2], "{size}");
        }
    }
    let refused = Points::new().refused(&[0; 24]);
    assert_eq!(refused, [IO_REPARSE_TAG_INVALID; 2]);

    for (tag, most) in [(0xA000_000C, 16_376), (5, 16_360)] {
        for length in [0, 1, 2, 255, 256, most - 1, most] {
            let input = point(tag, length);
            let mut points = Points::new();
            assert_eq!(points.set(&input), SUCCESS);
            assert_eq!(points.get(), (SUCCESS, input.clone()));
            assert!(points.store[length..].iter().all(|&b| b == 0xBB));
            // Only a header is taken where a point is deleted.
            let deleted = match length {
                0 => SUCCESS,
                _ => IO_REPARSE_DATA_INVALID,
            };
            assert_eq!(points.delete(&input), deleted);

            let mut longer = input.clone();
            longer.push(0);
            let mut reserved = input.clone();
            reserved[7] = 1;
            let shorter = &input[..input.len() - 1];
            for input in [&longer[..], &reserved, shorter] {
                let refused = Points::with(&point(tag, length)).refused(input);
                assert_eq!(refused, [IO_REPARSE_DATA_INVALID; 2], "{length}");
            }
        }
        for length in [most + 1, 32_768, 65_535] {
            let refused = Points::new().refused(&point(tag, length));
            assert_eq!(refused, [IO_REPARSE_DATA_INVALID; 2], "{length}");
        }
    }
}

#[test]
fn point_order() {
    // Every fault at once, and then one after the other mended.
    let mut points = Points::new();
    (points.v.reparse, points.v.points) = (0, 0);
    points.f.length = 1;
    points.name = b"/\0".to_vec();
    points.ring.truncate(8);
    assert_eq!(points.refused(&[]), [INVALID_DEVICE_REQUEST; 2]);
    points.v.reparse = 1;
    assert_eq!(points.refused(&[]), [VOLUME_NOT_UPGRADED; 2]);
    points.v.points = 1;
    assert_eq!(points.refused(&[]), [FILE_CORRUPT_ERROR; 2]);
    points.f.length = 0;
    points.store.pop();
    assert_eq!(points.refused(&[]), [FILE_CORRUPT_ERROR; 2]);
    points.store.push(0xBB);
    assert_eq!(points.refused(&[0; 8]), [IO_REPARSE_DATA_INVALID; 2]);
    assert_eq!(points.refused(&[0; 24]), [IO_REPARSE_TAG_INVALID; 2]);
    let of_post = [FILE_CORRUPT_ERROR, NOT_A_REPARSE_POINT];
    assert_eq!(points.refused(&OTHER_HEADER), of_post);
    (points.f.tag, points.f.guid) = (0xA000_0005, OTHER[8..24].try_into().unwrap());
    let mismatch = [IO_REPARSE_TAG_MISMATCH; 2];
    assert_eq!(points.refused(&OTHER_HEADER), mismatch);
    (points.f.tag, points.f.guid[15]) = (0x2000_0005, 17);
    let conflict = [REPARSE_ATTRIBUTE_CONFLICT; 2];
    assert_eq!(points.refused(&OTHER_HEADER), conflict);
    points.f.guid[15] = 16;
    assert_eq!(points.refused(&OTHER_HEADER), [FILE_CORRUPT_ERROR; 2]);
    points.ring = thirteen().1;
    assert_eq!(points.refused(&OTHER_HEADER), [INVALID_PARAMETER; 2]);
    points.name[0] = 0x61;
    let full = (1 << 63) - 8;
    (points.v.first, points.v.last) = (full, full);
    assert_eq!(points.refused(&OTHER_HEADER), [DISK_FULL; 2]);
    (points.v.first, points.v.last) = (full - 80, full - 80);
    assert_eq!(points.clone().set(&OTHER_HEADER), SUCCESS);
    assert_eq!(points.delete(&OTHER_HEADER), SUCCESS);
    assert_eq!((points.v.last, points.f.usn), (full, full));
}

/// Where a point stands, a set replaces one of the same tag, and of the same GUID
/// unless the tag is Microsoft's.
#[test]
fn point_over_another() {
    let mut points = Points::with(&LINK);
    points.f.guid = [1; 16];
    assert_eq!(points.set(&LINK_HEADER), SUCCESS);
    assert_eq!((points.f.guid, points.f.length), ([0; 16], 0));
    assert_eq!(points.store[..4], *b"abc\xBB");
    assert_eq!(points.set(&OTHER), IO_REPARSE_TAG_MISMATCH);
    assert_eq!(points.delete(&OTHER_HEADER), IO_REPARSE_TAG_MISMATCH);

    let mut points = Points::with(&OTHER);
    for byte in 8..24 {
        let mut header = OTHER_HEADER;
        header[byte] ^= 0x80;
        let conflict = [REPARSE_ATTRIBUTE_CONFLICT; 2];
        assert_eq!(points.refused(&header), conflict, "{byte}");
    }
    for byte in 0..4 {
        let mut header = OTHER_HEADER;
        header[byte] ^= 0x40;
        let mismatch = [IO_REPARSE_TAG_MISMATCH; 2];
        assert_eq!(points.refused(&header), mismatch, "{byte}");
    }
    assert_eq!(points.set(&OTHER_HEADER), SUCCESS);
    assert_eq!(points.get(), (SUCCESS, OTHER_HEADER.to_vec()));
}

/// A post that is skipped is no refusal, whatever ring and name are. The reason in
/// the change does not matter.
#[test]
fn point_without_a_post() {
    for (journal, state) in [(0, 1), (1, 0), (1, 2), (1, 3)] {
        let mut points = Points::new();
        (points.v.journal, points.v.state) = (journal, state);
        points.ring.truncate(8);
        points.name.clear();
        let mut expected = points.clone();
        (expected.f.tag, expected.f.guid) = (0xA000_000C, [0; 16]);
        expected.f.length = 3;
        expected.store[..3].copy_from_slice(b"abc");
        assert_eq!(points.set(&LINK), SUCCESS);
        assert!(points == expected);
        (expected.f.tag, expected.f.length) = (0, 0);
        assert_eq!(points.delete(&LINK_HEADER), SUCCESS);
        assert!(points == expected);
    }
    for reason in [0, 1, 0x0010_0000, u32::MAX] {
        let mut points = Points::new();
        points.reason = reason;
        assert_eq!(points.set(&LINK), SUCCESS);
        assert_eq!(points.ring[16..96], POINT_KEPT);
    }
}

#[test]
fn journal_examples() {
    let (v, ring) = thirteen();
    assert_eq!((v.first, v.last), (80, 1040));
    let all = |start| ask(start, u32::MAX, 0, 3, None);
    assert_eq!(read(&v, &ring, &all(40), 8).0, JOURNAL_ENTRY_DELETED);
    assert_eq!(
        read(&v, &ring, &all(8u64.wrapping_neg()), 8).0,
        JOURNAL_ENTRY_DELETED
    );
    assert_eq!(read(&v, &ring, &all(100), 8).0, INVALID_PARAMETER);
    assert_eq!(read(&v, &ring, &all(1048), 8).0, INVALID_PARAMETER);
    assert_eq!(
        read(&v, &ring, &all(1040), 8),
        (SUCCESS, 1040u64.to_le_bytes().to_vec())
    );
    assert_eq!(read(&v, &ring, &all(80), 71), (BUFFER_TOO_SMALL, vec![]));
    let mut two = 240u64.to_le_bytes().to_vec();
    two.extend(plain(2, &change(2), 160, b"a\0"));
    two.extend(plain(2, &change(3), 240, b"a\0"));
    assert_eq!(read(&v, &ring, &all(80), 136), (SUCCESS, two.clone()));
    assert_eq!(read(&v, &ring, &all(0), 199), (SUCCESS, two));
}

#[test]
fn read_order() {
    let (mut v, mut ring) = thirteen();
    let read = |v: &Volume, ring: &[u8], input: &[u8], size| read(v, ring, input, size).0;
    v.state = 2;
    v.journal = 0;
    assert_eq!(read(&v, &[], &[], 0), INVALID_DEVICE_REQUEST);
    v.journal = 1;
    assert_eq!(read(&v, &[], &[], 0), JOURNAL_DELETE_IN_PROGRESS);
    v.state = 9;
    assert_eq!(read(&v, &[], &[], 0), JOURNAL_NOT_ACTIVE);
    v.state = 1;
    assert_eq!(read(&v, &[], &[0; 39], 0), INVALID_PARAMETER);
    let wrong = ask(40, 1, 0, 4, Some((3, 2)));
    assert_eq!(read(&v, &[], &wrong, 7), BUFFER_TOO_SMALL);
    assert_eq!(read(&v, &[], &wrong, 8), INVALID_PARAMETER);
    assert_eq!(
        read(&v, &[], &ask(40, 1, 0, 4, Some((2, 3))), 8),
        INVALID_PARAMETER
    );
    assert_eq!(
        read(&v, &[], &ask(40, 1, 0, 3, None), 8),
        FILE_CORRUPT_ERROR
    );
    assert_eq!(read(&v, &ring, &wrong[..40], 8), INVALID_PARAMETER);
    assert_eq!(
        read(&v, &ring, &ask(100, 1, 0, 3, None), 8),
        INVALID_PARAMETER
    );
    assert_eq!(read(&v, &ring, &ask(0, 1 << 31, 0, 3, None), 8), SUCCESS);
    // A bit changed is noticed everywhere but in fields that may hold any value
    // (ids, time, source, security, name) or any value but 0 (Reason, attributes).
    // The second record looked at runs over the ring's end. None is selected, so
    // ids that V2 cannot show do no harm.
    for (record, at) in [160, 960]
        .iter()
        .flat_map(|r| (0..80).map(move |at| (r, at)))
    {
        let free = matches!(at, 8..=39 | 48..=71 | 76..=77);
        let place = (record + at) % 1024;
        ring[place] ^= 0x40;
        let status = if free { SUCCESS } else { FILE_CORRUPT_ERROR };
        assert_eq!(
            read(&v, &ring, &ask(1040, 1, 0, 3, None), 8),
            status,
            "{place}"
        );
        ring[place] ^= 0x40;
    }
    for (field, status) in [
        (56, FILE_CORRUPT_ERROR),
        (60, JOURNAL_ENTRY_DELETED),
        (64, JOURNAL_ENTRY_DELETED),
        (68, FILE_CORRUPT_ERROR),
    ] {
        let mut ring = ring.clone();
        ring[160 + field..164 + field].fill(0);
        assert_eq!(read(&v, &ring, &ask(40, 1, 0, 3, None), 8), status);
    }
    for (first, last, capacity) in [
        (80, 1040, 1016),
        (80, 1040, 1028),
        (80, 1040, u64::MAX),
        (84, 1040, 1024),
        (80, 1044, 1024),
        (1048, 1040, 1024),
        (0, 1040, 1024),
        (80, 1 << 63, 1024),
        (u64::MAX - 7, u64::MAX - 7, 1024),
        (160, 1048, 1024),
    ] {
        let v = Volume {
            first,
            last,
            capacity,
            ..v
        };
        assert_eq!(
            read(&v, &ring, &ask(0, 1, 0, 3, None), 8),
            FILE_CORRUPT_ERROR
        );
    }
}

#[test]
fn post_order() {
    let (mut v, mut ring) = thirteen();
    let mut usn = 1;
    let mut try_post = |v: Volume, ring: &mut Vec<u8>, reason, name: &[u8]| {
        let before = (v, ring.clone());
        let mut after = v;
        let status = post(&mut after, ring, &change(reason), name, &mut usn);
        assert_eq!((after, &*ring, usn), (before.0, &before.1, 1));
        status
    };
    let mut none = vec![];
    assert_eq!(
        try_post(Volume { journal: 0, ..v }, &mut none, 1, b""),
        SUCCESS
    );
    assert_eq!(
        try_post(Volume { state: 0, ..v }, &mut none, 1, b""),
        SUCCESS
    );
    assert_eq!(
        try_post(Volume { state: 2, ..v }, &mut none, 1, b""),
        SUCCESS
    );
    assert_eq!(try_post(v, &mut none, 0, b""), SUCCESS);
    assert_eq!(try_post(v, &mut none, 1, b""), FILE_CORRUPT_ERROR);
    assert_eq!(
        try_post(
            Volume {
                last: u64::MAX,
                ..v
            },
            &mut ring,
            1,
            b"ab"
        ),
        FILE_CORRUPT_ERROR
    );
    let full = (1 << 63) - 8;
    v = Volume {
        first: full,
        last: full,
        ..v
    };
    for name in [&[1; 0][..], &[1; 1], &[1; 511], &[1; 512]] {
        assert_eq!(try_post(v, &mut ring, 1, name), INVALID_PARAMETER);
    }
    assert_eq!(try_post(v, &mut ring, 1, b"ab"), DISK_FULL);
    v = Volume {
        first: full - 80,
        last: full - 80,
        ..v
    };
    assert_eq!(try_post(v, &mut ring, 1, b"abcdef"), DISK_FULL);
    assert_eq!(
        post(&mut v, &mut ring, &change(1), b"abcd", &mut usn),
        SUCCESS
    );
    assert_eq!((v.first, v.last, usn), (full - 80, full, full));
}

#[test]
fn journal_life() {
    let mut v = volume(1016);
    v.last = 4;
    assert_eq!(
        (finish(&mut v), delete(&mut v, 0)),
        (JOURNAL_NOT_ACTIVE, JOURNAL_NOT_ACTIVE)
    );
    assert_eq!(create(&mut v, 0), INVALID_PARAMETER);
    assert_eq!(create(&mut v, 1), FILE_CORRUPT_ERROR);
    v.capacity = 65_536;
    assert_eq!(create(&mut v, 1), FILE_CORRUPT_ERROR);
    v.last = 1 << 63;
    assert_eq!(create(&mut v, 1), FILE_CORRUPT_ERROR);
    v.last = 8;
    let old = v;
    assert_eq!(create(&mut v, 1), SUCCESS);
    assert_eq!(
        v,
        Volume {
            state: 1,
            id: 1,
            first: 8,
            ..old
        }
    );
    assert_eq!(
        (create(&mut v, 2), finish(&mut v)),
        (INVALID_PARAMETER, INVALID_PARAMETER)
    );
    assert_eq!(
        (delete(&mut v, 2), delete(&mut v, 1)),
        (INVALID_PARAMETER, SUCCESS)
    );
    assert_eq!(
        v,
        Volume {
            state: 2,
            id: 1,
            first: 8,
            ..old
        }
    );
    assert_eq!(create(&mut v, 0), JOURNAL_DELETE_IN_PROGRESS);
    assert_eq!(delete(&mut v, 1), JOURNAL_DELETE_IN_PROGRESS);
    assert_eq!(finish(&mut v), SUCCESS);
    assert_eq!(
        (v.state, create(&mut v, 1), create(&mut v, 2)),
        (0, INVALID_PARAMETER, SUCCESS)
    );
}

/// The image of an empty journal with id 7 at position 4,096.
const EMPTY_IMAGE: [u8; 32] = [
    0x00, 0x00, 0x00, 0x00, // where a record's length would be
    0x00, 0x00, 0x00, 0x00, // body bytes
    0x00, 0x10, 0x00, 0x00, 0x00, 0x00, 0x00, 0x00, // first position
    0x07, 0x00, 0x00, 0x00, 0x00, 0x00, 0x00, 0x00, // journal id
    0x08, 0x10, 0x00, 0x00, // sum: 0x1000 + 7 + 1
    0x01, 0x00, 0x00, 0x00, // form number
];

/// The image of a journal with one record from position 4,096. The words other
/// than the sum add up to 0x4_8A9E_1840.
const ONE_IMAGE: [u8; 96] = [
    0x40, 0x00, 0x00, 0x00, // RecordLength
    0x02, 0x00, 0x00, 0x00, // version 2.0
    0x01, 0x02, 0x03, 0x04, 0x05, 0x06, 0x07, 0x08, // file id
    0x11, 0x12, 0x13, 0x14, 0x15, 0x16, 0x17, 0x18, // parent id
    0x50, 0x10, 0x00, 0x00, 0x00, 0x00, 0x00, 0x00, // Usn: 4,096 + 80
    0xF0, 0xF1, 0xF2, 0xF3, 0xF4, 0xF5, 0xF6, 0xF7, // TimeStamp
    0x00, 0x01, 0x00, 0x80, // Reason
    0x21, 0x22, 0x23, 0x24, // SourceInfo
    0x31, 0x32, 0x33, 0x34, // SecurityId
    0x20, 0x00, 0x00, 0x00, // attributes
    0x04, 0x00, 0x3C, 0x00, // FileNameLength, FileNameOffset
    0x61, 0x00, 0x62, 0x00, // name
    0x00, 0x00, 0x00, 0x00, // where a record's length would be
    0x40, 0x00, 0x00, 0x00, // body bytes
    0x00, 0x10, 0x00, 0x00, 0x00, 0x00, 0x00, 0x00, // first position
    0xC1, 0xC2, 0xC3, 0xC4, 0xC5, 0xC6, 0xC7, 0xC8, // journal id
    0x40, 0x18, 0x9E, 0x8A, // sum
    0x01, 0x00, 0x00, 0x00, // form number
];

/// The record of `ONE_IMAGE` as the ring keeps it.
const ONE_KEPT: [u8; 80] = [
    0x50, 0x00, 0x00, 0x00, // RecordLength
    0x03, 0x00, 0x00, 0x00, // version 3.0
    0x01, 0x02, 0x03, 0x04, 0x05, 0x06, 0x07, 0x08, // file id
    0x00, 0x00, 0x00, 0x00, 0x00, 0x00, 0x00, 0x00, // its upper half
    0x11, 0x12, 0x13, 0x14, 0x15, 0x16, 0x17, 0x18, // parent id
    0x00, 0x00, 0x00, 0x00, 0x00, 0x00, 0x00, 0x00, // its upper half
    0x50, 0x10, 0x00, 0x00, 0x00, 0x00, 0x00, 0x00, // Usn
    0xF0, 0xF1, 0xF2, 0xF3, 0xF4, 0xF5, 0xF6, 0xF7, // TimeStamp
    0x00, 0x01, 0x00, 0x80, // Reason
    0x21, 0x22, 0x23, 0x24, // SourceInfo
    0x31, 0x32, 0x33, 0x34, // SecurityId
    0x20, 0x00, 0x00, 0x00, // attributes
    0x04, 0x00, 0x4C, 0x00, // FileNameLength, FileNameOffset
    0x61, 0x00, 0x62, 0x00, // name
];

/// The image of the same journal in form 2. The words that differ from those of
/// `ONE_IMAGE` are larger by 0x10, 1, 0x10_0000, 0x10 and 1.
const ONE_IMAGE_2: [u8; 112] = [
    0x50, 0x00, 0x00, 0x00, // RecordLength
    0x03, 0x00, 0x00, 0x00, // version 3.0
    0x01, 0x02, 0x03, 0x04, 0x05, 0x06, 0x07, 0x08, // file id
    0x00, 0x00, 0x00, 0x00, 0x00, 0x00, 0x00, 0x00, // its upper half
    0x11, 0x12, 0x13, 0x14, 0x15, 0x16, 0x17, 0x18, // parent id
    0x00, 0x00, 0x00, 0x00, 0x00, 0x00, 0x00, 0x00, // its upper half
    0x50, 0x10, 0x00, 0x00, 0x00, 0x00, 0x00, 0x00, // Usn: 4,096 + 80
    0xF0, 0xF1, 0xF2, 0xF3, 0xF4, 0xF5, 0xF6, 0xF7, // TimeStamp
    0x00, 0x01, 0x00, 0x80, // Reason
    0x21, 0x22, 0x23, 0x24, // SourceInfo
    0x31, 0x32, 0x33, 0x34, // SecurityId
    0x20, 0x00, 0x00, 0x00, // attributes
    0x04, 0x00, 0x4C, 0x00, // FileNameLength, FileNameOffset
    0x61, 0x00, 0x62, 0x00, // name
    0x00, 0x00, 0x00, 0x00, // where a record's length would be
    0x50, 0x00, 0x00, 0x00, // body bytes
    0x00, 0x10, 0x00, 0x00, 0x00, 0x00, 0x00, 0x00, // first position
    0xC1, 0xC2, 0xC3, 0xC4, 0xC5, 0xC6, 0xC7, 0xC8, // journal id
    0x62, 0x18, 0xAE, 0x8A, // sum
    0x02, 0x00, 0x00, 0x00, // form number
];

/// The image of an empty journal in form 2.
const EMPTY_IMAGE_2: [u8; 32] = [
    0x00, 0x00, 0x00, 0x00, // where a record's length would be
    0x00, 0x00, 0x00, 0x00, // body bytes
    0x00, 0x10, 0x00, 0x00, 0x00, 0x00, 0x00, 0x00, // first position
    0x07, 0x00, 0x00, 0x00, 0x00, 0x00, 0x00, 0x00, // journal id
    0x09, 0x10, 0x00, 0x00, // sum: 0x1000 + 7 + 2
    0x02, 0x00, 0x00, 0x00, // form number
];

/// Numbers of no form.
const NO_FORMS: [u32; 8] = [0, 3, 4, 0x101, 0x102, 0x0100_0000, 0x0200_0000, u32::MAX];

/// The journal id in `ONE_IMAGE`.
const ONE_ID: u64 = 0xC8C7_C6C5_C4C3_C2C1;

/// Volume and ring of a journal, and its images in both forms.
type Literal = (Volume, Vec<u8>, [&'static [u8]; 2]);

/// The two journals. With a capacity of 4,096 they begin at the ring's front.
fn literal_journals() -> [Literal; 2] {
    let empty = Volume {
        state: 1,
        id: 7,
        first: 4096,
        last: 4096,
        ..volume(4096)
    };
    let one = Volume {
        id: ONE_ID,
        last: 4176,
        ..empty
    };
    let mut ring = vec![0xAA; 4096];
    let unused = ring.clone();
    ring[..80].copy_from_slice(&ONE_KEPT);
    [
        (empty, unused, [&EMPTY_IMAGE, &EMPTY_IMAGE_2]),
        (one, ring, [&ONE_IMAGE, &ONE_IMAGE_2]),
    ]
}

/// Body and trailer joined, with the sum over all words but its own.
fn sealed(body: &[u8], first: u64, id: u64, form: u32) -> Vec<u8> {
    let mut image = body.to_vec();
    image.extend([0; 4]);
    image.extend((body.len() as u32).to_le_bytes());
    image.extend(first.to_le_bytes());
    image.extend(id.to_le_bytes());
    image.extend([0; 4]);
    image.extend(form.to_le_bytes());
    resealed(image)
}

/// The same image with its sum put right.
fn resealed(mut image: Vec<u8>) -> Vec<u8> {
    let own = image.len() - 8;
    image[own..own + 4].fill(0);
    let sum = image
        .chunks(4)
        .map(|word| u64::from(u32::from_le_bytes(word.try_into().unwrap())))
        .sum::<u64>();
    image[own..own + 4].copy_from_slice(&(sum as u32).to_le_bytes());
    image
}

/// An image of records with those names, right in everything but the names.
fn image_of(form: u32, first: u64, id: u64, names: &[&[u8]]) -> Vec<u8> {
    let mut body = vec![];
    let mut usn = first;
    for name in names {
        usn = usn.wrapping_add(plain(3, &change(1), 0, name).len() as u64);
        body.extend(plain(version_of(form), &change(1), usn, name));
    }
    sealed(&body, first, id, form)
}

/// The version of the records in an image of a form.
fn version_of(form: u32) -> u16 {
    form as u16 + 1
}

/// The last word of an image: its form, where there is one.
fn last_word(image: &[u8]) -> u32 {
    u32::from_le_bytes(image[image.len() - 4..].try_into().unwrap())
}

/// The status of loading an image that is cut short or changed in a word.
fn refused(image: &[u8]) -> u32 {
    if image.len() >= 32 && !matches!(last_word(image), 1 | 2) {
        UNKNOWN_REVISION
    } else {
        FILE_CORRUPT_ERROR
    }
}

/// Loads under `id` and checks that a refusal changes nothing.
fn load_under(v: &Volume, ring: &[u8], image: &[u8], id: u64) -> (u32, Volume, Vec<u8>) {
    let (mut after, mut kept) = (*v, ring.to_vec());
    let status = load_journal(&mut after, &mut kept, image, id);
    if status != SUCCESS {
        assert_eq!((after, &kept[..]), (*v, ring));
    }
    (status, after, kept)
}

/// The status of loading an image into an idle journal of the longest ring.
fn load(image: &[u8]) -> u32 {
    load_under(&volume(65_536), &[0xAA; 65_536], image, 99).0
}

/// Saves in a form into a buffer of `size` bytes and checks that the rest is
/// untouched.
fn save(v: &Volume, ring: &[u8], form: u32, size: usize) -> (u32, Vec<u8>) {
    let mut output = vec![0xCC; size];
    let (status, count) = save_journal(v, ring, form, &mut output);
    assert!(output[count..].iter().all(|&b| b == 0xCC));
    output.truncate(count);
    (status, output)
}

/// Moves from a form into a buffer of `size` bytes and checks that the rest is
/// untouched.
fn move_from(image: &[u8], from: u32, size: usize) -> (u32, Vec<u8>) {
    let mut output = vec![0xCC; size];
    let (status, count) = move_image(image, from, &mut output);
    assert!(output[count..].iter().all(|&b| b == 0xCC));
    output.truncate(count);
    (status, output)
}

#[test]
fn image_bytes() {
    assert_eq!(UNKNOWN_REVISION, 0xC000_0058);
    for (v, ring, images) in literal_journals() {
        for (form, image) in (1..).zip(images) {
            let saved = save(&v, &ring, form, image.len());
            assert_eq!(saved, (SUCCESS, image.to_vec()));
            assert_eq!(save(&v, &ring, form, 999), saved);
            let short = save(&v, &ring, form, image.len() - 1);
            assert_eq!(short, (BUFFER_TOO_SMALL, vec![]));
        }

        // Only state, id, first and last of the volume record change; what they
        // were does not matter, but for the state and the id.
        for (first, last) in [(0, 0), (8, 4096), (3, u64::MAX), (9000, 5000)] {
            let idle = Volume {
                usn: 0,
                regions: 2,
                reparse: 3,
                points: 4,
                journal: 5,
                state: 9,
                id: 8,
                first,
                last,
                capacity: 4096,
            };
            let loaded = Volume {
                state: 1,
                id: 99,
                first: v.first,
                last: v.last,
                ..idle
            };
            for image in images {
                let got = load_under(&idle, &[0xAA; 4096], image, 99);
                assert_eq!(got, (SUCCESS, loaded, ring.clone()));
            }
        }
    }
}

/// A record that runs over the ring's end is kept in two parts.
#[test]
fn image_over_the_end() {
    let idle = volume(4152);
    let lent = vec![0xAA; 4152];
    let mut ring = lent.clone();
    ring[4096..].copy_from_slice(&ONE_KEPT[..56]);
    ring[..24].copy_from_slice(&ONE_KEPT[56..]);
    for image in [&ONE_IMAGE[..], &ONE_IMAGE_2] {
        let (status, v, kept) = load_under(&idle, &lent, image, 1);
        assert_eq!((status, v.first, v.last), (SUCCESS, 4096, 4176));
        assert_eq!(kept, ring);
        let back = Volume { id: ONE_ID, ..v };
        let saved = save(&back, &kept, 1, 96);
        assert_eq!(saved, (SUCCESS, ONE_IMAGE.to_vec()));
        let saved = save(&back, &kept, 2, 112);
        assert_eq!(saved, (SUCCESS, ONE_IMAGE_2.to_vec()));
    }
}

#[test]
fn save_order() {
    let [_, (v, ring, _)] = literal_journals();
    for form in NO_FORMS {
        let status = |v: Volume, ring: &[u8], size| save(&v, ring, form, size).0;
        let wrong = Volume {
            journal: 0,
            state: 2,
            ..v
        };
        assert_eq!(status(wrong, &[], 0), INVALID_DEVICE_REQUEST);
        for state in [0, 1, 2] {
            let wrong = Volume { state, ..v };
            assert_eq!(status(wrong, &[], 0), UNKNOWN_REVISION);
            assert_eq!(status(wrong, &ring, 999), UNKNOWN_REVISION);
        }
    }
    for (form, size) in [(1, 96), (2, 112)] {
        save_order_in(form, size, v, &ring);
    }
}

/// The statuses behind that of the form, for a journal whose image has `length`
/// bytes.
fn save_order_in(form: u32, length: usize, v: Volume, ring: &[u8]) {
    let status = |v: Volume, ring: &[u8], size| save(&v, ring, form, size).0;
    let wrong = Volume {
        journal: 0,
        state: 2,
        ..v
    };
    assert_eq!(status(wrong, &[], 0), INVALID_DEVICE_REQUEST);
    let wrong = Volume { state: 2, ..v };
    assert_eq!(status(wrong, &[], 0), JOURNAL_DELETE_IN_PROGRESS);
    for state in [0, 3, u32::MAX] {
        let wrong = Volume { state, ..v };
        assert_eq!(status(wrong, &[], 0), JOURNAL_NOT_ACTIVE);
    }
    assert_eq!(status(v, &[], 0), FILE_CORRUPT_ERROR);
    assert_eq!(status(v, &ring[..4088], 0), FILE_CORRUPT_ERROR);
    for (first, last, capacity) in [
        (4096, 4176, 4088),
        (4096, 4176, u64::MAX),
        (4092, 4176, 4096),
        (4096, 4172, 4096),
        (4096, 4184, 4096),
        (4104, 4176, 4096),
        (4176, 4096, 4096),
        (0, 4176, 4096),
    ] {
        let wrong = Volume {
            first,
            last,
            capacity,
            ..v
        };
        assert_eq!(status(wrong, ring, 0), FILE_CORRUPT_ERROR);
        assert_eq!(status(wrong, ring, length), FILE_CORRUPT_ERROR);
    }
    let mut damaged = ring.to_vec();
    damaged[56..60].fill(0);
    assert_eq!(status(v, &damaged, 0), FILE_CORRUPT_ERROR);
    for size in 0..length {
        assert_eq!(status(v, ring, size), BUFFER_TOO_SMALL);
    }
    assert_eq!(status(v, ring, length), SUCCESS);
    // A journal's own id may be any number, 0 too.
    let (_, image) = save(&Volume { id: 0, ..v }, ring, form, length);
    let id = length - 16;
    assert_eq!((&image[id..id + 8], load(&image)), (&[0; 8][..], SUCCESS));
}

#[test]
fn load_order() {
    for form in [1, 2] {
        load_order_in(form);
    }
}

fn load_order_in(form: u32) {
    let ring = [0xAA; 1024];
    let idle = Volume {
        id: 6,
        last: 4,
        ..volume(1024)
    };
    let status = |v: Volume, ring: &[u8], image: &[u8], id| load_under(&v, ring, image, id).0;
    // Eleven records of 80 and one of 152 span 1,032.
    let mut names = vec![&b"a\0b\0"[..]; 11];
    names.push(&[1; 76]);
    let long = image_of(form, 4096, 7, &names);
    assert_eq!(long.len(), [872, 1064][form as usize - 1]);
    let mut other = long.clone();
    other[long.len() - 4] = 3;
    let mut damaged = long.clone();
    damaged[0] ^= 1;

    let wrong = Volume {
        journal: 0,
        state: 2,
        capacity: 0,
        ..idle
    };
    assert_eq!(status(wrong, &[], &other, 0), INVALID_DEVICE_REQUEST);
    let wrong = Volume {
        state: 2,
        capacity: 0,
        ..idle
    };
    assert_eq!(status(wrong, &[], &other, 0), JOURNAL_DELETE_IN_PROGRESS);
    let wrong = Volume {
        state: 1,
        capacity: 0,
        ..idle
    };
    assert_eq!(status(wrong, &[], &other, 0), INVALID_PARAMETER);
    let wrong = Volume {
        capacity: 0,
        ..idle
    };
    assert_eq!(status(wrong, &[], &other, 0), UNKNOWN_REVISION);
    assert_eq!(status(wrong, &[], &long, 0), FILE_CORRUPT_ERROR);

    // The image, the capacity and the buffer's length, each alone.
    for id in [0, 6, 7, 99] {
        assert_eq!(status(idle, &ring, &damaged, id), FILE_CORRUPT_ERROR);
        for capacity in [0, 1016, 1028, 65_544, u64::MAX] {
            let wrong = Volume { capacity, ..idle };
            let size = (capacity as usize).min(65_544);
            let ring = vec![0xAA; size];
            assert_eq!(status(wrong, &ring, &long, id), FILE_CORRUPT_ERROR);
        }
        for size in [0, 1016, 1032] {
            let ring = vec![0xAA; size];
            assert_eq!(status(idle, &ring, &long, id), FILE_CORRUPT_ERROR);
        }
    }
    for id in [0, 6, 7] {
        assert_eq!(status(idle, &ring, &long, id), INVALID_PARAMETER);
    }
    assert_eq!(status(idle, &ring, &long, 99), DISK_FULL);
    let wider = Volume {
        capacity: 1032,
        ..idle
    };
    assert_eq!(status(wider, &[0xAA; 1032], &long, 99), SUCCESS);

    // The image's own id may be the last one used.
    let empty = image_of(form, 4096, 7, &[]);
    let same = Volume { id: 7, ..idle };
    assert_eq!(status(same, &ring, &empty, 7), INVALID_PARAMETER);
    assert_eq!(status(same, &ring, &empty, 6), SUCCESS);
    // On a volume that had no journal yet, 0 is refused all the same.
    assert_eq!(status(volume(1024), &ring, &empty, 0), INVALID_PARAMETER);
}

/// Up to 31 bytes there is no form number to know.
#[test]
fn image_sizes() {
    for size in 0..32 {
        assert_eq!(load(&vec![0; size]), FILE_CORRUPT_ERROR);
        assert_eq!(load(&vec![0xFF; size]), FILE_CORRUPT_ERROR);
        for image in [EMPTY_IMAGE, EMPTY_IMAGE_2] {
            assert_eq!(load(&image[32 - size..]), FILE_CORRUPT_ERROR);
        }
    }
    assert_eq!(load(&[0; 32]), UNKNOWN_REVISION);
    for image in [EMPTY_IMAGE, EMPTY_IMAGE_2] {
        assert_eq!(load(&image), SUCCESS);
        for more in 1..=40 {
            let front = [&vec![0; more][..], &image].concat();
            assert_eq!(load(&front), FILE_CORRUPT_ERROR);
            // The number is looked for in the last four bytes, wherever they are.
            let behind = [&image[..], &vec![0; more]].concat();
            assert_eq!(load(&behind), UNKNOWN_REVISION);
        }
    }
    for form in NO_FORMS {
        assert_eq!(load(&sealed(&[], 4096, 7, form)), UNKNOWN_REVISION);
    }
}

#[test]
fn image_cuts() {
    let names = [b"a\0", &[1; 510][..], b"a\0b\0", &[1, 0].repeat(32)];
    let several = [1, 2].map(|form| image_of(form, 88, 5, &names));
    let [one, two] = &several;
    for image in [
        &EMPTY_IMAGE[..],
        &EMPTY_IMAGE_2,
        &ONE_IMAGE,
        &ONE_IMAGE_2,
        one,
        two,
    ] {
        assert_eq!(load(image), SUCCESS);
        let form = last_word(image);
        for cut in 0..image.len() {
            let left = &image[..cut];
            assert_eq!(load(left), refused(left), "{cut}");
            let moved = move_from(left, form, 4000);
            assert_eq!(moved.1, [], "{cut}");
            assert_ne!(moved.0, SUCCESS, "{cut}");
        }
    }
    // A record whose fields hold a trailer, from the Usn to the attributes: cut
    // behind it, the body's length, the sum and the form number are right. The
    // body is not a whole record, though.
    for (form, begin) in [(1, 24), (2, 40)] {
        let usn = (begin as u64) << 32; // a zero word, and the body's bytes
        let mut c = Change {
            time: 4096,
            attributes: form,
            ..change(7)
        };
        let record = |c: &Change| plain(version_of(form), c, usn, b"a\0");
        let whole = |c: &Change| sealed(&record(c), usn - 80, 8, form);
        let cut = resealed(whole(&c)[..begin + 32].to_vec());
        let sum = cut[begin + 24..begin + 28].try_into().unwrap();
        c.security = u32::from_le_bytes(sum);
        let whole = whole(&c);
        assert_eq!((load(&whole), whole.starts_with(&cut)), (SUCCESS, true));
        assert_eq!(load(&cut), FILE_CORRUPT_ERROR);
        assert_eq!(move_from(&cut, form, 999), (FILE_CORRUPT_ERROR, vec![]));
    }
}

#[test]
fn image_words() {
    let names = [b"a\0", &[1; 510][..], b"a\0b\0"];
    let several = [1, 2].map(|form| image_of(form, 88, 5, &names));
    let [one, two] = &several;
    let mut random = Random(3);
    for image in [
        &EMPTY_IMAGE[..],
        &EMPTY_IMAGE_2,
        &ONE_IMAGE,
        &ONE_IMAGE_2,
        one,
        two,
    ] {
        let form = last_word(image);
        for at in (0..image.len()).step_by(4) {
            let old = u32::from_le_bytes(image[at..at + 4].try_into().unwrap());
            let mut words = vec![0, 1, 2, 3, u32::MAX, !old, old.wrapping_add(1)];
            words.extend([old.wrapping_sub(1), old.wrapping_mul(2)]);
            words.extend((0..32).map(|bit| old ^ 1 << bit));
            words.extend((0..20).map(|_| (random.below(1 << 31) * 2 + random.below(2)) as u32));
            words.retain(|&word| word != old);
            for word in words {
                let mut image = image.to_vec();
                image[at..at + 4].copy_from_slice(&word.to_le_bytes());
                assert_eq!(load(&image), refused(&image), "{at} {word}");
                let due = match last_word(&image) == form {
                    true => FILE_CORRUPT_ERROR,
                    false => UNKNOWN_REVISION,
                };
                assert_eq!(move_from(&image, form, 999), (due, vec![]), "{at} {word}");
            }
        }
    }
}

/// Images whose sum is right and something else is not.
#[test]
fn image_faults() {
    image_faults_in(1, &EMPTY_IMAGE, &ONE_IMAGE);
    image_faults_in(2, &EMPTY_IMAGE_2, &ONE_IMAGE_2);
}

/// A load and a move of an image both give that status, or else succeed.
fn judge(image: &[u8], status: u32, what: usize) {
    assert_eq!(load(image), status, "{what}");
    assert_eq!(
        move_from(image, last_word(image), 70_000).0,
        status,
        "{what}"
    );
}

fn image_faults_in(form: u32, empty: &[u8], one: &[u8]) {
    // Bytes of the record: a changed bit matters everywhere but in fields that
    // may hold any value (ids, time, source, security, name) or any value but 0
    // (Reason, attributes). A wide id is loaded, and not moved down.
    let body = one.len() - 32;
    let usn = body - 40;
    let (time, name) = (usn + 8, body - 4);
    for at in 0..body {
        let mut image = one.to_vec();
        image[at] ^= 0x40;
        let image = resealed(image);
        let free = (8..usn).contains(&at) || (time..name - 4).contains(&at) || at >= name;
        let wide = form == 2 && ((16..24).contains(&at) || (32..40).contains(&at));
        let status = if free { SUCCESS } else { FILE_CORRUPT_ERROR };
        assert_eq!(load(&image), status, "{at}");
        let status = if wide { NOT_SUPPORTED } else { status };
        assert_eq!(move_from(&image, form, 999).0, status, "{at}");
    }
    // Reason and attributes.
    for field in [usn + 16, usn + 28] {
        let mut image = one.to_vec();
        image[field..field + 4].fill(0);
        judge(&resealed(image), FILE_CORRUPT_ERROR, field);
    }
    // Padding.
    let mut image = image_of(form, 8, 1, &[b"a\0"]);
    assert_eq!((image.len(), load(&image)), (body + 32, SUCCESS));
    for at in [body - 2, body - 1] {
        image[at] = 1;
        judge(&resealed(image.clone()), FILE_CORRUPT_ERROR, at);
        image[at] = 0;
    }
    // The zero word and the body's length.
    for image in [empty, one] {
        let trailer = image.len() - 32;
        for at in trailer..trailer + 8 {
            for bit in 0..8 {
                let mut image = image.to_vec();
                image[at] ^= 1 << bit;
                judge(&resealed(image), FILE_CORRUPT_ERROR, at);
            }
        }
        // Any id.
        for at in trailer + 16..trailer + 24 {
            let mut image = image.to_vec();
            image[at] ^= 0x80;
            judge(&resealed(image), SUCCESS, at);
        }
    }
    // The record is short of its last bytes.
    for size in (4..body).step_by(4) {
        let image = sealed(&one[..size], 4096, 7, form);
        judge(&image, FILE_CORRUPT_ERROR, size);
    }
    // Zeroes between record and trailer are no record.
    for zeroes in [4, 8, 64] {
        let body = [&one[..body], &vec![0; zeroes]].concat();
        judge(&sealed(&body, 4096, 7, form), FILE_CORRUPT_ERROR, zeroes);
    }
}

#[test]
fn image_sums() {
    for (form, one) in [(1, &ONE_IMAGE[..]), (2, &ONE_IMAGE_2)] {
        // Words other than the sum that add up to 2^32: a sum over itself, too,
        // would agree with every number here.
        let image = sealed(&[], 4096, 0xFFFF_F000 - u64::from(form), form);
        assert_eq!((&image[24..28], load(&image)), (&[0; 4][..], SUCCESS));
        for sum in [1u32, 2, 4096, u32::MAX] {
            let mut image = image.clone();
            image[24..28].copy_from_slice(&sum.to_le_bytes());
            judge(&image, FILE_CORRUPT_ERROR, sum as usize);
        }
        // Without the form number; without the trailer; twice; in opposite order.
        let own = one.len() - 8;
        let whole = u32::from_le_bytes(one[own..own + 4].try_into().unwrap());
        let body = one[..own - 24].chunks(4).fold(0u32, |sum, word| {
            sum.wrapping_add(u32::from_le_bytes(word.try_into().unwrap()))
        });
        for sum in [
            whole - form,
            body,
            whole.wrapping_mul(2),
            whole.swap_bytes(),
            whole.wrapping_neg(),
            0,
        ] {
            let mut image = one.to_vec();
            image[own..own + 4].copy_from_slice(&sum.to_le_bytes());
            judge(&image, FILE_CORRUPT_ERROR, sum as usize);
        }
    }
}

#[test]
fn image_names_and_versions() {
    for (length, status) in [
        (0, FILE_CORRUPT_ERROR),
        (1, FILE_CORRUPT_ERROR),
        (2, SUCCESS),
        (3, FILE_CORRUPT_ERROR),
        (4, SUCCESS),
        (6, SUCCESS),
        (508, SUCCESS),
        (509, FILE_CORRUPT_ERROR),
        (510, SUCCESS),
        (511, FILE_CORRUPT_ERROR),
        (512, FILE_CORRUPT_ERROR),
    ] {
        let name = vec![0x61; length];
        for form in [1, 2] {
            judge(&image_of(form, 0, 1, &[&name]), status, length);
            let behind = image_of(form, 0, 1, &[b"a\0", &name, b"b\0"]);
            judge(&behind, status, length);
        }
    }
    // Records in the version of the other form, alone and in either place. The
    // second Usn is where a record 16 bytes longer than stored would end.
    for form in [1, 2] {
        let (own, other) = (version_of(form), version_of(3 - form));
        for usn in [80, 96] {
            let body = plain(other, &change(1), usn, b"a\0");
            judge(&sealed(&body, 0, 1, form), FILE_CORRUPT_ERROR, usn as usize);
        }
        for versions in [[own, other], [other, own]] {
            let [one, two] = versions;
            let mixed = [
                plain(one, &change(1), 80, b"a\0"),
                plain(two, &change(1), 160, b"a\0"),
            ];
            judge(&sealed(&mixed.concat(), 0, 1, form), FILE_CORRUPT_ERROR, 0);
        }
        let long = plain(own, &change(1), 96, b"a\0");
        judge(&sealed(&long, 0, 1, form), FILE_CORRUPT_ERROR, 96);
        let none = plain(own, &change(0), 80, b"a\0");
        judge(&sealed(&none, 0, 1, form), FILE_CORRUPT_ERROR, 0);
    }
}

#[test]
fn image_chain() {
    for form in [1, 2] {
        image_chain_in(form);
    }
}

fn image_chain_in(form: u32) {
    let both = |image: &[u8]| {
        let status = load(image);
        assert_eq!(move_from(image, form, 70_000).0, status);
        status
    };
    let pair = |first: u64, usns: [u64; 2]| {
        let record = |usn| plain(version_of(form), &change(1), usn, b"a\0");
        both(&sealed(&usns.map(record).concat(), first, 1, form))
    };
    assert_eq!(pair(800, [880, 960]), SUCCESS);
    for usns in [
        [864, 928], // by the V2 length
        [880, 944],
        [864, 960],
        [800, 880], // where the record begins
        [960, 880],
        [880, 880],
        [880, 968],
        [888, 960],
        [80, 160],
        [880 + (1 << 63), 960 + (1 << 63)],
    ] {
        assert_eq!(pair(800, usns), FILE_CORRUPT_ERROR, "{usns:?}");
    }
    assert_eq!(pair(792, [880, 960]), FILE_CORRUPT_ERROR);
    assert_eq!(pair(808, [880, 960]), FILE_CORRUPT_ERROR);
    assert_eq!(pair(0, [80, 160]), SUCCESS);

    // The first position is divisible by 8.
    for first in 0..=16 {
        let status = if first % 8 == 0 {
            SUCCESS
        } else {
            FILE_CORRUPT_ERROR
        };
        assert_eq!(both(&image_of(form, first, 1, &[])), status);
        assert_eq!(both(&image_of(form, first, 1, &[b"a\0"])), status);
    }
    // No position is past 2^63 - 1.
    let end = 1u64 << 63;
    for (first, records, status) in [
        (end - 8, 0, SUCCESS),
        (end - 1, 0, FILE_CORRUPT_ERROR),
        (end, 0, FILE_CORRUPT_ERROR),
        (u64::MAX - 7, 0, FILE_CORRUPT_ERROR),
        (end - 88, 1, SUCCESS),
        (end - 80, 1, FILE_CORRUPT_ERROR),
        (end - 168, 2, SUCCESS),
        (end - 160, 2, FILE_CORRUPT_ERROR),
        (end - 8, 1, FILE_CORRUPT_ERROR),
        (end, 1, FILE_CORRUPT_ERROR),
        (u64::MAX - 79, 1, FILE_CORRUPT_ERROR),
        (u64::MAX - 7, 2, FILE_CORRUPT_ERROR),
    ] {
        let image = image_of(form, first, 1, &vec![&b"a\0"[..]; records]);
        assert_eq!(both(&image), status, "{first} {records}");
    }
}

#[test]
fn image_span() {
    for form in [1, 2] {
        image_span_in(form);
    }
}

fn image_span_in(form: u32) {
    // Names of 52 bytes make records of 128: 512 of them span 65,536.
    let name = [0x61; 52];
    let mut names = vec![&name[..]; 512];
    let full = image_of(form, 808, 1, &names);
    assert_eq!(full.len(), [512 * 112 + 32, 65_568][form as usize - 1]);
    judge(&full, SUCCESS, 65_536);
    let smaller = |capacity: u64, image: &[u8]| {
        let ring = vec![0; capacity as usize];
        load_under(&volume(capacity), &ring, image, 99).0
    };
    assert_eq!(smaller(65_528, &full), DISK_FULL);
    assert_eq!(smaller(1024, &full), DISK_FULL);
    // Eight bytes more, and one record more. The capacity has no part in it.
    let longer = [0x61; 60];
    names[511] = &longer;
    let eight = image_of(form, 808, 1, &names);
    names[511] = &name;
    names.push(b"a\0");
    let one = image_of(form, 808, 1, &names);
    for image in [eight, one] {
        judge(&image, FILE_CORRUPT_ERROR, image.len());
        assert_eq!(smaller(1024, &image), FILE_CORRUPT_ERROR);
    }
    // A span of the whole capacity fits, eight bytes more do not.
    let image = image_of(form, 808, 1, &[&name[..]; 8]);
    assert_eq!(smaller(1024, &image), SUCCESS);
    let mut names = [&name[..]; 8];
    names[0] = &longer;
    assert_eq!(smaller(1024, &image_of(form, 808, 1, &names)), DISK_FULL);
    assert_eq!(smaller(1032, &image_of(form, 808, 1, &names)), SUCCESS);
}

/// A loaded journal takes posts, and its records are those that were saved.
#[test]
fn image_after_a_restart() {
    let (v, ring) = thirteen();
    let [one, two] = [(1, 12 * 64), (2, 12 * 80)].map(|(form, body)| {
        let (status, image) = save(&v, &ring, form, 1000);
        assert_eq!((status, image.len()), (SUCCESS, body + 32));
        image
    });
    let all = |id| ask(0, u32::MAX, 0, id, Some((3, 3)));
    let before = read(&v, &ring, &all(3), 2000);

    // The volume as the restart finds it, and as a fresh one.
    for (old, capacity, image) in [
        (3, 1024, &one),
        (0, 4096, &one),
        (3, 1024, &two),
        (0, 4096, &two),
    ] {
        let idle = Volume {
            id: old,
            ..volume(capacity)
        };
        let lost = vec![0x55; capacity as usize];
        assert_eq!(load_under(&idle, &lost, image, 3).0, INVALID_PARAMETER);
        let (status, mut w, mut kept) = load_under(&idle, &lost, image, 4);
        assert_eq!((status, w.first, w.last), (SUCCESS, 80, 1040));
        assert_eq!(read(&w, &kept, &all(3), 2000).0, INVALID_PARAMETER);
        assert_eq!(read(&w, &kept, &all(4), 2000), before);
        let mut usn = 0;
        let posted = post(&mut w, &mut kept, &change(1), b"a\0", &mut usn);
        assert_eq!((posted, usn), (SUCCESS, 1120));
        let first = if capacity == 1024 { 160 } else { 80 };
        assert_eq!((w.first, w.last), (first, 1120));
        assert_eq!(load_under(&w, &kept, image, 5).0, INVALID_PARAMETER);
    }
}

/// A load leaves what creation at the first position and posts of the kept
/// records would, byte for byte, and saving again gives the same image but for
/// the id and the sum.
#[test]
fn random_images() {
    let mut random = Random(4);
    for round in 0..300u64 {
        let capacities = [1024, 1032, 1480, 4096, 65_536];
        let capacity = capacities[round as usize % 5];
        let mut v = Volume {
            last: 8 * random.below(1 << 30),
            ..volume(capacity)
        };
        let mut ring = vec![0; capacity as usize];
        assert_eq!(create(&mut v, 9), SUCCESS);
        let mut list: Vec<(Change, u64, Vec<u8>)> = vec![];
        for _ in 0..random.below(200) {
            let c = Change {
                file: u128::from(random.below(1 << 31) << 33),
                parent: u128::from(random.below(1 << 31)),
                time: random.below(1 << 31) << 40,
                reason: 1 + random.below(1 << 31) as u32,
                source: random.below(1 << 31) as u32,
                security: random.below(1 << 31) as u32,
                attributes: random.below(3) as u32,
            };
            let size = if random.below(4) == 0 { 255 } else { 12 };
            let length = 2 + 2 * random.below(size) as usize;
            let name = random.name(length);
            let mut usn = 0;
            let status = post(&mut v, &mut ring, &c, &name, &mut usn);
            assert_eq!(status, SUCCESS);
            list.push((c, usn, name));
        }
        list.retain(|record| record.1 > v.first);
        let form = 1 + round as u32 / 5 % 2;
        let body = |form| -> Vec<u8> {
            list.iter()
                .flat_map(|(c, usn, name)| plain(version_of(form), c, *usn, name))
                .collect()
        };
        let image = sealed(&body(form), v.first, 9, form);
        let size = image.len();
        assert_eq!(save(&v, &ring, form, size + 7), (SUCCESS, image.clone()));
        assert_eq!(save(&v, &ring, form, size - 1).0, BUFFER_TOO_SMALL);
        // What a save in the other form writes.
        let moved = sealed(&body(3 - form), v.first, 9, 3 - form);
        assert_eq!(move_from(&image, form, 70_000), (SUCCESS, moved.clone()));
        assert_eq!(save(&v, &ring, 3 - form, 70_000), (SUCCESS, moved.clone()));
        assert_eq!(move_from(&moved, 3 - form, size), (SUCCESS, image.clone()));

        let other = capacities[random.below(5) as usize];
        let idle = Volume {
            last: random.below(1 << 31),
            id: 10,
            ..volume(other)
        };
        let lent: Vec<u8> = (0..other).map(|_| random.below(256) as u8).collect();
        let (status, w, kept) = load_under(&idle, &lent, &image, 11);
        if v.last - v.first > other {
            assert_eq!(status, DISK_FULL);
            continue;
        }
        let mut expected = Volume {
            last: v.first,
            ..idle
        };
        let mut written = lent;
        let mut usn = v.first;
        assert_eq!(create(&mut expected, 11), SUCCESS);
        for (c, _, name) in &list {
            let status = post(&mut expected, &mut written, c, name, &mut usn);
            assert_eq!(status, SUCCESS);
        }
        assert_eq!((status, w), (SUCCESS, expected));
        assert!(kept == written);
        assert_eq!((w.first, w.last), (v.first, v.last));
        let again = sealed(&body(form), v.first, 11, form);
        assert_eq!(save(&w, &kept, form, size), (SUCCESS, again));
    }
}

/// Neither loading nor moving panics on a damaged image. What a load accepts can
/// be saved again as the same body, and a move accepts the same, but for wide ids.
#[test]
fn damaged_images() {
    let mut random = Random(5);
    let names = [b"a\0", &[1; 30][..], b"a\0b\0"];
    let whole = [1, 2].map(|form| image_of(form, 88, 5, &names));
    let ring = vec![0xAA; 1024];
    let mut seen = [0; 4];
    for _ in 0..100_000 {
        let whole = &whole[random.below(2) as usize];
        let mut image = whole.clone();
        for _ in 0..random.below(3) {
            let at = random.below(image.len() as u64) as usize;
            image[at] = match random.below(3) {
                0 => 0xFF,
                1 => 0,
                _ => random.below(256) as u8,
            };
        }
        if random.below(4) == 0 {
            image.truncate(random.below(whole.len() as u64 + 1) as usize);
        }
        if image.len() >= 32 && image.len().is_multiple_of(4) && random.below(4) != 0 {
            image = resealed(image);
        }
        let form = last_word(whole);
        let (status, v, kept) = load_under(&volume(1024), &ring, &image, u64::MAX);
        let (by_move, moved) = move_from(&image, form, 999);
        match status {
            SUCCESS => {
                let (status, saved) = save(&v, &kept, form, image.len());
                let end = image.len() - 16;
                assert_eq!((status, &saved[..end]), (SUCCESS, &image[..end]));
                let id = u64::from_le_bytes(image[end..end + 8].try_into().unwrap());
                let other = save(&Volume { id, ..v }, &kept, 3 - form, 999);
                assert_eq!((by_move, moved), other);
                seen[usize::from(by_move == NOT_SUPPORTED)] += 1;
            }
            FILE_CORRUPT_ERROR => {
                let stated = image.len() >= 32 && last_word(&image) != form;
                let due = if stated { UNKNOWN_REVISION } else { status };
                assert_eq!(by_move, due);
                seen[2] += 1;
            }
            UNKNOWN_REVISION => {
                assert_eq!(by_move, status);
                seen[3] += 1;
            }
            _ => panic!("{status:#x}"),
        }
    }
    assert!(seen.iter().all(|&count| count > 1000), "{seen:?}");
}

#[test]
fn records_read_back() {
    for version in [2, 3] {
        for name in [0, 2, 4, 6, 8, 510] {
            let name = vec![0x61; name];
            let mut c = change(0);
            c.attributes = name.len() as u32;
            let mut bytes = vec![0xEE; 3];
            bytes.extend(plain(version, &c, 77, &name));
            let r = read_record(&bytes, 3).unwrap();
            assert_eq!(
                (r.version, r.usn, r.next),
                (version.into(), 77, bytes.len())
            );
            assert_eq!(bytes[r.name..r.name + r.length], name);
            c.attributes = c.attributes.max(0x80 * u32::from(name.is_empty()));
            let back = Change {
                file: r.file,
                parent: r.parent,
                time: r.time,
                reason: r.reason,
                source: r.source,
                security: r.security,
                attributes: r.attributes,
            };
            assert_eq!(back, c);
            for cut in 3..bytes.len() {
                assert_eq!(read_record(&bytes[..cut], 3), None);
            }
            // A byte changed is refused, or gives other fields or another name.
            for at in 3..bytes.len() {
                let mut other = bytes.clone();
                other[at] ^= 0x80;
                let same = read_record(&other, 3) == Some(r);
                assert_eq!(same, (r.name..r.name + r.length).contains(&at), "{at}");
            }
        }
    }
    assert_eq!(
        (read_record(&[], 0), read_record(&[0; 9], usize::MAX)),
        (None, None)
    );
}

/// The text of a reply.
fn text(reply: &[u8]) -> String {
    let mut output = vec![0xCC; 64 + 2 * reply.len()];
    let last = output.len() - 1;
    assert_eq!(
        list_reply(reply, &mut output[..last]),
        (BUFFER_TOO_SMALL, 0)
    );
    let (status, count) = list_reply(reply, &mut output);
    assert_eq!(
        (status, output[count..].iter().all(|&b| b == 0xCC)),
        (SUCCESS, true)
    );
    String::from_utf8(output[..count].to_vec()).unwrap()
}

#[test]
fn listing() {
    let mut reply = 80u64.to_le_bytes().to_vec();
    reply.extend(plain(3, &change(0x100), 80, b"a\0"));
    assert_eq!(text(&reply), "next 80\n80 00000100 6100\nrecords 1\n");
    reply.extend(plain(2, &change(0xABCD_EF01), i64::MAX as u64, b""));
    let end = "9223372036854775807 abcdef01 -\nrecords 2\n";
    assert_eq!(text(&reply), format!("next 80\n80 00000100 6100\n{end}"));
    assert_eq!(walk_reply(&reply), Ok((80, 2)));
    reply[88 + 4] = 4;
    assert_eq!(
        (walk_reply(&reply), text(&reply)),
        (Err(88), "bad at 88\n".into())
    );
    reply.push(0);
    assert_eq!(
        (walk_reply(&reply[..7]), text(&reply[..7])),
        (Err(0), "bad at 0\n".into())
    );
    assert_eq!(
        (text(&[0xFF; 8]), text(&[])),
        ("next -1\nrecords 0\n".into(), "bad at 0\n".into())
    );
    assert_eq!(
        text(&1u64.rotate_right(1).to_le_bytes()),
        "next -9223372036854775808\nrecords 0\n"
    );
    let mut long = vec![0; 8];
    while long.len() <= 65_536 {
        long.extend(plain(3, &change(1), 8, &[1; 510]));
    }
    assert_eq!(text(&long), "bad at 65536\n");
    assert_eq!(walk_reply(&long), Ok((0, long.len() / 592)));
}

/// Names with a unit that no name may hold: alone, first and last.
const BAD_NAMES: [&[u8]; 10] = [
    &[0x00, 0x00],
    &[0x2F, 0x00],
    &[0x5C, 0x00],
    &[0x00, 0x00, 0x61, 0x00],
    &[0x2F, 0x00, 0x61, 0x00],
    &[0x5C, 0x00, 0x61, 0x00],
    &[0x61, 0x00, 0x00, 0x00],
    &[0x61, 0x00, 0x2F, 0x00],
    &[0x61, 0x00, 0x5C, 0x00],
    &[0x5C, 0x00, 0x2F, 0x00],
];

/// Names whose units only look like such: a byte of them is the same, the number
/// is next to it, or the two bytes stand at an odd place.
const GOOD_NAMES: [&[u8]; 18] = [
    &[0x01, 0x00],
    &[0x00, 0x01],
    &[0x00, 0x80],
    &[0xFF, 0xFF],
    &[0x2E, 0x00],
    &[0x30, 0x00],
    &[0x00, 0x2F],
    &[0x2F, 0x2F],
    &[0x5B, 0x00],
    &[0x5D, 0x00],
    &[0x00, 0x5C],
    &[0x5C, 0x01],
    &[0x5C, 0xFF],
    &[0x5C, 0x2F],
    &[0x41, 0x00, 0x00, 0x42],
    &[0x41, 0x2F, 0x00, 0x42],
    &[0x41, 0x5C, 0x00, 0x42],
    &[0x61, 0x00, 0x5D, 0x00],
];

#[test]
fn names_posted() {
    let try_post = |v: &Volume, ring: &[u8], reason, name: &[u8]| {
        let (mut after, mut written, mut usn) = (*v, ring.to_vec(), 1);
        let status = post(&mut after, &mut written, &change(reason), name, &mut usn);
        let same = after == *v && written == ring && usn == 1;
        (status, same)
    };
    let (v, ring) = thirteen();
    for name in GOOD_NAMES {
        assert_eq!(try_post(&v, &ring, 1, name), (SUCCESS, false), "{name:?}");
    }
    let full = Volume {
        first: (1 << 63) - 8,
        last: (1 << 63) - 8,
        ..v
    };
    let refused = (INVALID_PARAMETER, true);
    for name in BAD_NAMES {
        assert_eq!(try_post(&v, &ring, 1, name), refused, "{name:?}");
        // Behind what skips a post and the ring's soundness, ahead of the limit.
        assert_eq!(try_post(&v, &ring, 0, name), (SUCCESS, true));
        let deleting = Volume { state: 2, ..v };
        assert_eq!(try_post(&deleting, &ring, 1, name), (SUCCESS, true));
        assert_eq!(try_post(&v, &[], 1, name), (FILE_CORRUPT_ERROR, true));
        assert_eq!(try_post(&full, &ring, 1, name), refused);
    }
    let mut long = [0x61; 510];
    assert_eq!(try_post(&v, &ring, 1, &long), (SUCCESS, false));
    long[508..].copy_from_slice(&[0x5C, 0]);
    assert_eq!(try_post(&v, &ring, 1, &long), refused);
}

/// The status of every call that asks whether the ring is sound. It has to be the
/// same for all, and a refusal changes nothing.
fn soundness(v: &Volume, ring: &[u8]) -> u32 {
    let (mut after, mut written, mut usn) = (*v, ring.to_vec(), 1);
    let status = post(&mut after, &mut written, &change(1), b"a\0", &mut usn);
    let asked = ask(v.last, 1, 0, v.id, None);
    assert_eq!(read(v, ring, &asked, 8).0, status);
    assert_eq!(save(v, ring, 1, 2000).0, status);
    assert_eq!(save(v, ring, 2, 2000).0, status);
    if status != SUCCESS {
        assert_eq!((after, &written[..], usn), (*v, ring, 1));
        // Without a Reason there is no change to post, and nobody asks.
        let skipped = post(&mut after, &mut written, &change(0), b"a\0", &mut usn);
        assert_eq!((skipped, after, usn), (SUCCESS, *v, 1));
    }
    status
}

#[test]
fn names_kept() {
    let [_, (v, ring, _)] = literal_journals();
    for (names, status) in [
        (&GOOD_NAMES[..], SUCCESS),
        (&BAD_NAMES[..], FILE_CORRUPT_ERROR),
    ] {
        for name in names.iter().filter(|name| name.len() == 4) {
            let mut ring = ring.clone();
            ring[76..80].copy_from_slice(name);
            assert_eq!(soundness(&v, &ring), status, "{name:?}");
        }
    }
}

/// A kept record of a name of 12 bytes, whose last 8 are at the ring's front.
#[test]
fn names_kept_over_the_end() {
    let mut v = Volume {
        last: 4096 - 80,
        ..volume(4096)
    };
    let mut ring = vec![0xAA; 4096];
    let letters = b"a\0b\0c\0d\0e\0f\0";
    assert_eq!(create(&mut v, 3), SUCCESS);
    let posted = post(&mut v, &mut ring, &change(1), letters, &mut 0);
    assert_eq!((posted, v.last), (SUCCESS, 4096 + 8));
    assert_eq!((&ring[4092..], &ring[..8]), (&letters[..4], &letters[4..]));
    for place in [4092, 4094, 0, 2, 4, 6] {
        for (unit, status) in [
            ([0x00, 0x00], FILE_CORRUPT_ERROR),
            ([0x2F, 0x00], FILE_CORRUPT_ERROR),
            ([0x5C, 0x00], FILE_CORRUPT_ERROR),
            ([0x00, 0x5C], SUCCESS),
            ([0x00, 0x2F], SUCCESS),
            ([0x5D, 0x00], SUCCESS),
            ([0x01, 0x00], SUCCESS),
        ] {
            let mut ring = ring.clone();
            ring[place..place + 2].copy_from_slice(&unit);
            assert_eq!(soundness(&v, &ring), status, "{unit:?} at {place}");
        }
    }
    // The last byte before the end and the first behind it are of two units.
    for byte in [0x00, 0x2F, 0x5C] {
        let mut ring = ring.clone();
        ring[4094..].copy_from_slice(&[0x41, byte]);
        ring[..2].copy_from_slice(&[0x00, 0x42]);
        assert_eq!(soundness(&v, &ring), SUCCESS, "{byte}");
    }
}

/// A ring with such a name is refused until its journal is created anew.
#[test]
fn names_kept_until_the_journal_is_deleted() {
    let (mut v, mut ring) = thirteen();
    assert_eq!(soundness(&v, &ring), SUCCESS);
    // The oldest record, which the next post would drop.
    ring[80 + 76] = 0x5C;
    assert_eq!(soundness(&v, &ring), FILE_CORRUPT_ERROR);
    assert_eq!(soundness(&v, &ring), FILE_CORRUPT_ERROR);
    assert_eq!((delete(&mut v, 3), finish(&mut v)), (SUCCESS, SUCCESS));
    assert_eq!(create(&mut v, 4), SUCCESS);
    assert_eq!(soundness(&v, &ring), SUCCESS);
    let posted = post(&mut v, &mut ring, &change(1), b"a\0", &mut 0);
    assert_eq!((posted, v.first, v.last), (SUCCESS, 1040, 1120));
    let reply = [
        &1120u64.to_le_bytes()[..],
        &plain(2, &change(1), 1120, b"a\0"),
    ]
    .concat();
    let all = ask(0, u32::MAX, 0, 4, None);
    assert_eq!(read(&v, &ring, &all, 600), (SUCCESS, reply));
}

#[test]
fn names_linked() {
    let v = volume(0);
    let link = |place, length, short| Link {
        place,
        length,
        short,
    };
    let status = |name: &[u8], links: &[Link], input: &[u8], size| {
        let pool = [b"x\0", name, &[0; 4]].concat();
        let mut output = vec![0xCC; size];
        let (status, count) = read_file(&v, &File::default(), 1, &pool, links, input, &mut output);
        assert!(output[count..].iter().all(|&b| b == 0xCC));
        status
    };
    for (names, due) in [
        (&GOOD_NAMES[..], SUCCESS),
        (&BAD_NAMES[..], FILE_CORRUPT_ERROR),
    ] {
        for name in names {
            let (x, it) = (link(0, 2, 0), link(2, name.len() as u32, 0));
            let short = |link: Link| Link { short: 1, ..link };
            let chosen = [vec![it], vec![it, x], vec![x, short(it)]];
            let others = [vec![x, it], vec![it, short(x)], vec![short(x), it]];
            for links in chosen.iter().chain(&others) {
                assert_eq!(status(name, links, &[], 64), due, "{name:?} {links:?}");
                // The link table is judged ahead of versions and output.
                if due != SUCCESS {
                    assert_eq!(status(name, links, &[3, 0, 2, 0], 0), due);
                }
            }
        }
    }
    // The pool may hold such units where no link's name is, and an empty name
    // may stand there.
    assert_eq!(
        status(b"", &[link(0, 2, 0), link(2, 0, 1)], &[], 64),
        SUCCESS
    );
}

#[test]
fn names_read() {
    for version in [2, 3] {
        let one = plain(version, &change(1), 80, b"a\0");
        for name in GOOD_NAMES {
            let record = plain(version, &change(1), 160, name);
            assert!(read_record(&record, 0).is_some(), "{name:?}");
            let reply = [&[0; 8], &one[..], &record].concat();
            assert_eq!(walk_reply(&reply), Ok((0, 2)), "{name:?}");
        }
        for name in BAD_NAMES {
            let record = plain(version, &change(1), 160, name);
            assert_eq!(read_record(&record, 0), None, "{name:?}");
            let reply = [&[0; 8], &one[..], &record].concat();
            let at = 8 + one.len();
            assert_eq!(walk_reply(&reply), Err(at), "{name:?}");
            assert_eq!(text(&reply), format!("bad at {at}\n"), "{name:?}");
        }
        let nameless = plain(version, &change(1), 80, b"");
        assert!(read_record(&nameless, 0).is_some());
    }
}

#[test]
fn names_loaded() {
    for (names, status) in [
        (&GOOD_NAMES[..], SUCCESS),
        (&BAD_NAMES[..], FILE_CORRUPT_ERROR),
    ] {
        for name in names {
            for form in [1, 2] {
                judge(&image_of(form, 88, 1, &[name]), status, name.len());
                let between = image_of(form, 88, 1, &[b"a\0", name, b"b\0"]);
                judge(&between, status, name.len());
            }
        }
        for name in names.iter().filter(|name| name.len() == 4) {
            for (image, at) in [(&ONE_IMAGE[..], 60), (&ONE_IMAGE_2, 76)] {
                let mut image = image.to_vec();
                image[at..at + 4].copy_from_slice(name);
                judge(&resealed(image), status, at);
            }
        }
    }
    // Behind the form number, ahead of the id and of the ring's room.
    let names = [&BAD_NAMES[..], &[&[1; 510], &[1; 510]]].concat();
    let mut long = image_of(1, 88, 7, &names);
    let idle = volume(1024);
    let status = load_under(&idle, &[0; 1024], &long, 7).0;
    assert_eq!(status, FILE_CORRUPT_ERROR);
    let form = long.len() - 4;
    long[form] = 3;
    let status = load_under(&idle, &[0; 1024], &long, 7).0;
    assert_eq!(status, UNKNOWN_REVISION);
}

/// Ids with each bit of the upper eight bytes alone, over all bits of the lower.
fn wide_ids() -> impl Iterator<Item = u128> {
    (64..128).map(|bit| 1 << bit | u128::from(u64::MAX))
}

/// The ids of a file and its parent of which one or both are wide.
fn wide_pairs() -> impl Iterator<Item = (u128, u128)> {
    wide_ids().flat_map(|id| [(id, 6), (5, id), (id, id)])
}

/// A change with those ids.
fn change_of(reason: u32, (file, parent): (u128, u128)) -> Change {
    Change {
        file,
        parent,
        ..change(reason)
    }
}

/// A journal from position 4,000 on, with a record of a two-byte name for each of
/// the changes. Its ring ends 96 bytes behind the beginning.
fn posted(changes: &[Change]) -> (Volume, Vec<u8>) {
    let mut v = Volume {
        last: 4000,
        ..volume(4096)
    };
    let mut ring = vec![0xAA; 4096];
    assert_eq!(create(&mut v, 3), SUCCESS);
    for c in changes {
        let status = post(&mut v, &mut ring, c, b"a\0", &mut 0);
        assert_eq!(status, SUCCESS);
    }
    (v, ring)
}

/// The reply with that position and records, which a journal of `posted` has from
/// number `from` on.
fn reply_of(version: u16, position: u64, from: u64, changes: &[Change]) -> Vec<u8> {
    let mut reply = position.to_le_bytes().to_vec();
    for (number, c) in (from + 1..).zip(changes) {
        reply.extend(plain(version, c, 4000 + 80 * number, b"a\0"));
    }
    reply
}

/// A record with two wide ids as the ring keeps it and as V3 shows it.
const WIDE_KEPT: [u8; 80] = [
    0x50, 0x00, 0x00, 0x00, // RecordLength
    0x03, 0x00, 0x00, 0x00, // version 3.0
    0x01, 0x02, 0x03, 0x04, 0x05, 0x06, 0x07, 0x08, // file id
    0x09, 0x0A, 0x0B, 0x0C, 0x0D, 0x0E, 0x0F, 0x10, // its upper half
    0x11, 0x12, 0x13, 0x14, 0x15, 0x16, 0x17, 0x18, // parent id
    0x19, 0x1A, 0x1B, 0x1C, 0x1D, 0x1E, 0x1F, 0x20, // its upper half
    0x50, 0x10, 0x00, 0x00, 0x00, 0x00, 0x00, 0x00, // Usn: 4,096 + 80
    0xF0, 0xF1, 0xF2, 0xF3, 0xF4, 0xF5, 0xF6, 0xF7, // TimeStamp
    0x00, 0x01, 0x00, 0x80, // Reason
    0x21, 0x22, 0x23, 0x24, // SourceInfo
    0x31, 0x32, 0x33, 0x34, // SecurityId
    0x20, 0x00, 0x00, 0x00, // attributes
    0x04, 0x00, 0x4C, 0x00, // FileNameLength, FileNameOffset
    0x61, 0x00, 0x62, 0x00, // name
];

/// What `WIDE_KEPT` says.
const WIDE_CHANGE: Change = Change {
    file: 0x100F_0E0D_0C0B_0A09_0807_0605_0403_0201,
    parent: 0x201F_1E1D_1C1B_1A19_1817_1615_1413_1211,
    time: 0xF7F6_F5F4_F3F2_F1F0,
    reason: 0x8000_0100,
    source: 0x2423_2221,
    security: 0x3433_3231,
    attributes: 0x20,
};

#[test]
fn id_bytes() {
    assert_eq!(NOT_SUPPORTED, 0xC000_00BB);
    let mut v = Volume {
        last: 4096,
        ..volume(4096)
    };
    let mut ring = vec![0xAA; 4096];
    assert_eq!(create(&mut v, 3), SUCCESS);
    let status = post(&mut v, &mut ring, &WIDE_CHANGE, b"a\0b\0", &mut 0);
    assert_eq!((status, v.last), (SUCCESS, 4176));
    assert_eq!(ring[..80], WIDE_KEPT);
    assert!(ring[80..].iter().all(|&b| b == 0xAA));

    let reply = [&4176u64.to_le_bytes()[..], &WIDE_KEPT].concat();
    let asked = |max| ask(0, u32::MAX, 0, 3, Some((2, max)));
    assert_eq!(read(&v, &ring, &asked(3), 88), (SUCCESS, reply.clone()));
    assert_eq!(read(&v, &ring, &asked(2), 88), (NOT_SUPPORTED, vec![]));
    assert_eq!(walk_reply(&reply), Ok((4176, 1)));
    assert_eq!(
        text(&reply),
        "next 4176\n4176 80000100 61006200\nrecords 1\n"
    );

    let read = Record {
        version: 3,
        file: WIDE_CHANGE.file,
        parent: WIDE_CHANGE.parent,
        usn: 4176,
        time: WIDE_CHANGE.time,
        reason: WIDE_CHANGE.reason,
        source: WIDE_CHANGE.source,
        security: WIDE_CHANGE.security,
        attributes: WIDE_CHANGE.attributes,
        name: 76,
        length: 4,
        next: 80,
    };
    assert_eq!(read_record(&WIDE_KEPT, 0), Some(read));
    // Each byte of both ids is read at its place and may be any number.
    for byte in 0..16 {
        for value in [0x00, 0x01, 0x80, 0xFF] {
            let put = |id: u128| {
                let mut bytes = id.to_le_bytes();
                bytes[byte] = value;
                u128::from_le_bytes(bytes)
            };
            let mut other = WIDE_KEPT;
            other[8 + byte] = value;
            let file = put(read.file);
            assert_eq!(read_record(&other, 0), Some(Record { file, ..read }));
            other = WIDE_KEPT;
            other[24 + byte] = value;
            let parent = put(read.parent);
            assert_eq!(read_record(&other, 0), Some(Record { parent, ..read }));
        }
    }
}

/// A V2 record has eight bytes of each id, and they may be any.
#[test]
fn ids_in_two_versions() {
    let narrow = u128::from(u64::MAX);
    let c = change_of(1, (narrow, narrow - 1));
    for version in [2, 3] {
        let record = plain(version, &c, 80, b"a\0");
        let read = read_record(&record, 0).unwrap();
        assert_eq!((read.file, read.parent), (narrow, narrow - 1));
    }
    let (v, ring) = posted(&[c]);
    for max in [2, 3] {
        let asked = ask(0, 1, 0, 3, Some((2, max)));
        let reply = reply_of(max, 4080, 0, &[c]);
        assert_eq!(read(&v, &ring, &asked, 88), (SUCCESS, reply));
    }
    assert_eq!(save(&v, &ring, 1, 96).0, SUCCESS);
}

/// Three records, each in turn with a wide id: a V2 reply stops before it, or the
/// read is refused if nothing is before it, whatever the room is. The second
/// record runs over the ring's end.
#[test]
fn ids_in_a_read() {
    for pair in wide_pairs() {
        for wide in 0..3 {
            let mut changes = [change(1), change(2), change(4)];
            changes[wide] = change_of(1 << wide, pair);
            let (v, ring) = posted(&changes);
            let before = &changes[..wide];
            let begin = 4000 + 80 * wide as u64;
            let asked = |start, mask, max| ask(start, mask, 0, 3, Some((2, max)));

            // All are selected.
            for size in 8..=250 {
                let fitting = ((size - 8) / 64).min(wide);
                let got = read(&v, &ring, &asked(0, 7, 2), size);
                let expected = match (fitting, wide) {
                    (0, 0) => (NOT_SUPPORTED, vec![]),
                    (0, _) => (BUFFER_TOO_SMALL, vec![]),
                    _ => {
                        let position = 4000 + 80 * fitting as u64;
                        (SUCCESS, reply_of(2, position, 0, &before[..fitting]))
                    }
                };
                assert_eq!(got, expected, "{pair:x?} {wide} {size}");
            }
            // From the record on: refused in V2, shown in V3.
            for size in 8..=250 {
                let got = read(&v, &ring, &asked(begin, 7, 2), size);
                assert_eq!(got, (NOT_SUPPORTED, vec![]), "{pair:x?} {wide} {size}");
            }
            let rest = reply_of(3, 4240, wide as u64, &changes[wide..]);
            let got = read(&v, &ring, &asked(begin, 7, 3), 248);
            assert_eq!(got, (SUCCESS, rest));
            // What is not selected, or before the start, does no harm.
            for number in 0..3 {
                let got = read(&v, &ring, &asked(0, 1 << number, 2), 72);
                let one = &changes[number..=number];
                let expected = match number == wide {
                    true => (NOT_SUPPORTED, vec![]),
                    false => (SUCCESS, reply_of(2, 4240, number as u64, one)),
                };
                assert_eq!(got, expected, "{pair:x?} {wide} {number}");
            }
            let behind = reply_of(2, 4240, wide as u64 + 1, &changes[wide + 1..]);
            let got = read(&v, &ring, &asked(begin + 80, 7, 2), 600);
            assert_eq!(got, (SUCCESS, behind));
            let none = 4240u64.to_le_bytes().to_vec();
            assert_eq!(read(&v, &ring, &asked(0, 8, 2), 8), (SUCCESS, none));
        }
    }
}

/// The refusal comes behind all others but that for the record's room.
#[test]
fn ids_in_a_read_order() {
    let wide = change_of(1, (1 << 64, 6));
    let (v, ring) = posted(&[change(1), wide, wide]);
    let status = |v: &Volume, start, id, versions, size| {
        read(v, &ring, &ask(start, 1, 0, id, versions), size).0
    };
    let two = Some((2, 2));
    assert_eq!(status(&v, 4080, 3, two, 7), BUFFER_TOO_SMALL);
    assert_eq!(status(&v, 4080, 3, Some((3, 2)), 8), INVALID_PARAMETER);
    assert_eq!(status(&v, 4080, 4, two, 8), INVALID_PARAMETER);
    let unsound = Volume { last: 4248, ..v };
    assert_eq!(status(&unsound, 4080, 3, two, 8), FILE_CORRUPT_ERROR);
    let dropped = Volume { first: 4160, ..v };
    assert_eq!(status(&dropped, 4080, 3, two, 8), JOURNAL_ENTRY_DELETED);
    assert_eq!(status(&v, 4088, 3, two, 8), INVALID_PARAMETER);
    assert_eq!(status(&v, 4248, 3, two, 8), INVALID_PARAMETER);
    for size in 8..=100 {
        // Without a pair of versions the version is 2.
        assert_eq!(status(&v, 4080, 3, None, size), NOT_SUPPORTED);
        assert_eq!(status(&v, 4080, 3, two, size), NOT_SUPPORTED);
        let due = if size < 88 { BUFFER_TOO_SMALL } else { SUCCESS };
        assert_eq!(status(&v, 4080, 3, Some((2, 3)), size), due);
    }
}

#[test]
fn ids_in_a_file_read() {
    let v = volume(0);
    let links = [Link {
        place: 0,
        length: 20,
        short: 0,
    }];
    let pool = [0x61; 20];
    let narrow = u128::from(u64::MAX);
    for (id, parent) in wide_pairs().chain([(narrow, narrow)]) {
        let wide = id > narrow || parent > narrow;
        let f = File {
            id,
            usn: 8,
            ..File::default()
        };
        let c = Change {
            file: id,
            parent,
            ..Change::default()
        };
        for (input, version) in [(&[][..], 2), (&[2, 0, 2, 0], 2), (&[2, 0, 3, 0], 3)] {
            for size in 0..=100 {
                let mut output = vec![0xCC; size];
                let (status, count) = read_file(&v, &f, parent, &pool, &links, input, &mut output);
                assert!(output[count..].iter().all(|&b| b == 0xCC));
                let expected = match (version, size) {
                    (2, ..64) | (3, ..96) => BUFFER_TOO_SMALL,
                    (2, _) if wide => NOT_SUPPORTED,
                    (2, ..80) => BUFFER_TOO_SMALL,
                    _ => SUCCESS,
                };
                assert_eq!(status, expected, "{id:x} {parent:x} {version} {size}");
                if status == SUCCESS {
                    assert_eq!(output[..count], plain(version, &c, 8, &pool));
                }
            }
        }
    }
    // Behind the file record, the links and the versions.
    let mut output = [0; 600];
    let mut status = |usn, pool: &[u8], input: &[u8]| {
        let f = File {
            id: 1 << 127,
            usn,
            ..File::default()
        };
        read_file(&v, &f, 1 << 64, pool, &links, input, &mut output).0
    };
    assert_eq!(status(1 << 63, &pool, &[]), FILE_CORRUPT_ERROR);
    assert_eq!(status(8, &pool[1..], &[]), FILE_CORRUPT_ERROR);
    assert_eq!(status(8, &pool, &[3, 0, 2, 0]), INVALID_PARAMETER);
    assert_eq!(status(8, &pool, &[0, 0, 2, 0]), NOT_SUPPORTED);
}

/// No image of form 1 is written while a record with a wide id is kept: the first
/// of three, the next or the last. Form 2 has room for it, and is not moved down.
#[test]
fn ids_in_a_save() {
    for pair in wide_pairs() {
        for wide in 0..3 {
            let mut changes = [change(1); 3];
            changes[wide] = change_of(1, pair);
            let (v, ring) = posted(&changes);
            // The image would have 224 bytes.
            for size in [0, 31, 32, 223, 224, 5000] {
                assert_eq!(save(&v, &ring, 1, size), (NOT_SUPPORTED, vec![]));
            }
            let unsound = Volume { last: 4248, ..v };
            assert_eq!(save(&unsound, &ring, 1, 5000).0, FILE_CORRUPT_ERROR);
            let deleting = Volume { state: 2, ..v };
            let status = save(&deleting, &ring, 1, 5000).0;
            assert_eq!(status, JOURNAL_DELETE_IN_PROGRESS);

            let body = &reply_of(3, 0, 0, &changes)[8..];
            let image = sealed(body, 4000, 3, 2);
            assert_eq!(save(&v, &ring, 2, 272), (SUCCESS, image.clone()));
            assert_eq!(save(&v, &ring, 2, 271), (BUFFER_TOO_SMALL, vec![]));
            for size in [0, 31, 32, 223, 224, 5000] {
                assert_eq!(move_from(&image, 2, size), (NOT_SUPPORTED, vec![]));
            }
            let (status, w, kept) = load_under(&volume(4096), &[0xAA; 4096], &image, 4);
            assert_eq!((status, w.first, w.last), (SUCCESS, v.first, v.last));
            assert_eq!(kept, ring);

            // It is kept no longer.
            let first = 4080 + 80 * wide as u64;
            let behind = Volume { first, ..v };
            assert_eq!(save(&behind, &ring, 1, 5000).0, SUCCESS);
        }
    }
    let (v, ring) = posted(&[change(1); 3]);
    assert_eq!(save(&v, &ring, 1, 223).0, BUFFER_TOO_SMALL);
    assert_eq!(save(&v, &ring, 1, 224).0, SUCCESS);
}

/// What an image of form 1 holds is read back with upper bytes of zero.
#[test]
fn ids_in_an_image() {
    let c = change_of(1, (u128::from(u64::MAX), u128::from(u64::MAX)));
    let (v, ring) = posted(&[c]);
    let (status, image) = save(&v, &ring, 1, 96);
    assert_eq!(status, SUCCESS);
    assert_eq!(image[8..24], [0xFF; 16]);
    let (status, w, kept) = load_under(&volume(1024), &[0xAA; 1024], &image, 4);
    assert_eq!((status, w.last), (SUCCESS, 4080));
    // 4,000 is 3 * 1,024 + 928.
    assert_eq!(kept[928..1008], plain(3, &c, 4080, b"a\0"));
}

#[test]
fn move_bytes() {
    for (one, two) in [
        (&EMPTY_IMAGE[..], &EMPTY_IMAGE_2[..]),
        (&ONE_IMAGE, &ONE_IMAGE_2),
    ] {
        for (image, from, moved) in [(one, 1, two), (two, 2, one)] {
            let size = moved.len();
            for room in [size, size + 1, 999] {
                assert_eq!(move_from(image, from, room), (SUCCESS, moved.to_vec()));
            }
            for room in 0..size {
                assert_eq!(move_from(image, from, room), (BUFFER_TOO_SMALL, vec![]));
            }
        }
    }
}

/// The form asked from, the form that the image has, the image, its ids, the room.
#[test]
fn move_order() {
    let wide = sealed(&WIDE_KEPT, 4096, 7, 2);
    let mut damaged = wide.clone();
    damaged[0] ^= 1;
    for from in NO_FORMS {
        // Also where the image has that number, or is none.
        for image in [&wide, &damaged, &sealed(&WIDE_KEPT, 4096, 7, from), &vec![]] {
            for size in [0, 999] {
                assert_eq!(move_from(image, from, size), (UNKNOWN_REVISION, vec![]));
            }
        }
    }
    for (image, from) in [
        (&ONE_IMAGE[..], 2),
        (&EMPTY_IMAGE, 2),
        (&ONE_IMAGE_2, 1),
        (&EMPTY_IMAGE_2, 1),
        (&wide, 1),
        (&damaged, 1),
        (&[0; 32], 1),
        (&[0; 32], 2),
    ] {
        for size in [0, 999] {
            assert_eq!(move_from(image, from, size), (UNKNOWN_REVISION, vec![]));
        }
    }
    for form in NO_FORMS {
        for from in [1, 2] {
            let image = sealed(&WIDE_KEPT, 4096, 7, form);
            assert_eq!(move_from(&image, from, 0), (UNKNOWN_REVISION, vec![]));
        }
    }
    for size in [0, 999] {
        assert_eq!(move_from(&damaged, 2, size), (FILE_CORRUPT_ERROR, vec![]));
        assert_eq!(move_from(&wide, 2, size), (NOT_SUPPORTED, vec![]));
    }
    assert_eq!(move_from(&ONE_IMAGE_2, 2, 0), (BUFFER_TOO_SMALL, vec![]));
    assert_eq!(move_from(&ONE_IMAGE, 1, 0), (BUFFER_TOO_SMALL, vec![]));
    // Below 32 bytes there is no form to differ.
    for size in 0..32 {
        for image in [EMPTY_IMAGE, EMPTY_IMAGE_2, [0; 32], [0xFF; 32]] {
            for from in [1, 2] {
                let got = move_from(&image[32 - size..], from, 999);
                assert_eq!(got, (FILE_CORRUPT_ERROR, vec![]), "{size}");
            }
        }
    }
}

/// Numbers are moved as they stand, with all bits that both versions have, up to
/// the last position.
#[test]
fn move_keeps_the_fields() {
    let narrow = u128::from(u64::MAX);
    let c = Change {
        file: narrow,
        parent: narrow - 1,
        time: u64::MAX,
        reason: u32::MAX,
        source: u32::MAX,
        security: u32::MAX,
        attributes: u32::MAX,
    };
    let last = (1u64 << 63) - 8;
    let body = |version| {
        [
            plain(version, &change(1), last - 80, b"a\0"),
            plain(version, &c, last, b"b\0"),
        ]
        .concat()
    };
    let [one, two] = [1, 2].map(|form| sealed(&body(version_of(form)), last - 160, 0, form));
    assert_eq!(move_from(&one, 1, 192), (SUCCESS, two.clone()));
    assert_eq!(move_from(&two, 2, 160), (SUCCESS, one));
}

/// A file in folder 5 with no attributes, whose name is the pool's bytes from a
/// place on.
fn entry(id: u128, usn: u64, name_place: u64, name_length: u32) -> Entry {
    Entry {
        id,
        parent: 5,
        usn,
        attributes: 0,
        name_length,
        name_place,
    }
}

/// Input of an enumeration of 24 bytes, or of 32 if versions are given.
fn from_to(start: u64, low: i64, high: i64, versions: Option<(u16, u16)>) -> Vec<u8> {
    let mut input = start.to_le_bytes().to_vec();
    input.extend(low.to_le_bytes());
    input.extend(high.to_le_bytes());
    if let Some((min, max)) = versions {
        input.extend(min.to_le_bytes());
        input.extend(max.to_le_bytes());
        input.extend([0xEE; 4]);
    }
    input
}

/// Enumerates into a buffer of `size` bytes and checks that the rest is untouched.
fn enumerated(table: &[Entry], pool: &[u8], input: &[u8], size: usize) -> (u32, Vec<u8>) {
    let mut output = vec![0xCC; size];
    let (status, count) = enumerate(&volume(0), table, pool, input, &mut output);
    assert!(output[count..].iter().all(|&b| b == 0xCC));
    output.truncate(count);
    (status, output)
}

/// The reply with an id to go on from and these files, in a version.
fn reply_with(version: u16, next: u64, files: &[Entry], pool: &[u8]) -> (u32, Vec<u8>) {
    let mut reply = next.to_le_bytes().to_vec();
    for file in files {
        let c = Change {
            file: file.id,
            parent: file.parent,
            attributes: file.attributes,
            ..Change::default()
        };
        let place = file.name_place as usize;
        let name = &pool[place..place + file.name_length as usize];
        reply.extend(plain(version, &c, file.usn, name));
    }
    (SUCCESS, reply)
}

/// The ids in a reply, and the one to go on from.
fn ids_of(reply: &[u8]) -> (u64, Vec<u128>) {
    let (next, count) = walk_reply(reply).unwrap();
    let mut at = 8;
    let ids: Vec<u128> = (0..count)
        .map(|_| {
            let record = read_record(reply, at).unwrap();
            at = record.next;
            record.file
        })
        .collect();
    (next, ids)
}

/// The reply of three files in V2: 3, without a name; 7; 9, with the attributes
/// 0x20 and a name of three units.
#[rustfmt::skip]
const THREE_FILES: [u8; 208] = [
    10, 0, 0, 0, 0, 0, 0, 0,
    64, 0, 0, 0, 2, 0, 0, 0, 3, 0, 0, 0, 0, 0, 0, 0,
    5, 0, 0, 0, 0, 0, 0, 0, 0, 0, 0, 0, 0, 0, 0, 0,
    0, 0, 0, 0, 0, 0, 0, 0, 0, 0, 0, 0, 0, 0, 0, 0,
    0, 0, 0, 0, 0x80, 0, 0, 0, 0, 0, 60, 0, 0, 0, 0, 0,
    64, 0, 0, 0, 2, 0, 0, 0, 7, 0, 0, 0, 0, 0, 0, 0,
    5, 0, 0, 0, 0, 0, 0, 0, 0x50, 0x10, 0, 0, 0, 0, 0, 0,
    0, 0, 0, 0, 0, 0, 0, 0, 0, 0, 0, 0, 0, 0, 0, 0,
    0, 0, 0, 0, 0x80, 0, 0, 0, 2, 0, 60, 0, 0x61, 0, 0, 0,
    72, 0, 0, 0, 2, 0, 0, 0, 9, 0, 0, 0, 0, 0, 0, 0,
    7, 0, 0, 0, 0, 0, 0, 0, 0xFF, 0xFF, 0xFF, 0xFF, 0xFF, 0xFF, 0xFF, 0x7F,
    0, 0, 0, 0, 0, 0, 0, 0, 0, 0, 0, 0, 0, 0, 0, 0,
    0, 0, 0, 0, 0x20, 0, 0, 0, 6, 0, 60, 0, 0x62, 0, 0x63, 0,
    0x64, 0, 0, 0, 0, 0, 0, 0,
];

/// The last of them in V3, behind its id and 1.
#[rustfmt::skip]
const ONE_FILE: [u8; 96] = [
    10, 0, 0, 0, 0, 0, 0, 0,
    88, 0, 0, 0, 3, 0, 0, 0, 9, 0, 0, 0, 0, 0, 0, 0,
    0, 0, 0, 0, 0, 0, 0, 0, 7, 0, 0, 0, 0, 0, 0, 0,
    0, 0, 0, 0, 0, 0, 0, 0, 0xFF, 0xFF, 0xFF, 0xFF, 0xFF, 0xFF, 0xFF, 0x7F,
    0, 0, 0, 0, 0, 0, 0, 0, 0, 0, 0, 0, 0, 0, 0, 0,
    0, 0, 0, 0, 0x20, 0, 0, 0, 6, 0, 76, 0, 0x62, 0, 0x63, 0,
    0x64, 0, 0, 0, 0, 0, 0, 0,
];

/// These files in any order, with their pool.
fn three_files() -> ([Entry; 3], &'static [u8]) {
    let nine = Entry {
        parent: 7,
        attributes: 0x20,
        ..entry(9, (1 << 63) - 1, 2, 6)
    };
    let table = [entry(3, 0, 8, 0), entry(7, 0x1050, 0, 2), nine];
    (table, b"a\0b\0c\0d\0")
}

#[test]
fn enumeration_bytes() {
    let (files, pool) = three_files();
    let orders = [
        [0, 1, 2],
        [0, 2, 1],
        [1, 0, 2],
        [1, 2, 0],
        [2, 0, 1],
        [2, 1, 0],
    ];
    for order in orders {
        let table = order.map(|place: usize| files[place]);
        let all = from_to(0, 0, i64::MAX, None);
        let whole = (SUCCESS, THREE_FILES.to_vec());
        assert_eq!(enumerated(&table, pool, &all, 208), whole, "{order:?}");
        let last = from_to(8, 0, i64::MAX, Some((2, 3)));
        let one = (SUCCESS, ONE_FILE.to_vec());
        assert_eq!(enumerated(&table, pool, &last, 600), one, "{order:?}");
    }
    assert_eq!(walk_reply(&THREE_FILES), Ok((10, 3)));
    assert_eq!(walk_reply(&ONE_FILE), Ok((10, 1)));
}

/// Each refusal comes behind those before it: a call has all faults at first, and
/// loses them one after the other.
#[test]
fn enumeration_order() {
    let (files, pool) = three_files();
    let bad = Entry {
        usn: 1 << 63,
        ..files[0]
    };
    let status = |v: &Volume, table: &[Entry], input: &[u8], size| {
        let mut output = vec![0xCC; size];
        let (status, count) = enumerate(v, table, pool, input, &mut output);
        assert_eq!(count, 0);
        assert!(output.iter().all(|&b| b == 0xCC));
        status
    };
    let v = volume(0);
    let unsupported = Volume { journal: 0, ..v };
    // Above every Usn, and with the lowest version above the highest.
    let input = from_to(10, 0, 8, Some((3, 2)));
    let short = &input[..23];
    let got = status(&unsupported, &[bad], short, 7);
    assert_eq!(got, INVALID_DEVICE_REQUEST);
    assert_eq!(status(&v, &[bad], short, 7), FILE_CORRUPT_ERROR);
    assert_eq!(status(&v, &files, short, 7), INVALID_PARAMETER);
    assert_eq!(status(&v, &files, &input, 7), INVALID_PARAMETER);
    let right = from_to(10, 0, 8, Some((0, 2)));
    assert_eq!(status(&v, &files, &right, 7), BUFFER_TOO_SMALL);
    assert_eq!(status(&v, &files, &right, 8), END_OF_FILE);
    assert_eq!(status(&v, &[], &right, 8), END_OF_FILE);
    let some = from_to(0, 0, 8, Some((0, 2)));
    for size in 8..72 {
        assert_eq!(status(&v, &files, &some, size), BUFFER_TOO_SMALL, "{size}");
    }
    let reply = reply_with(2, 4, &files[..1], pool);
    assert_eq!(enumerated(&files, pool, &some, 72), reply);

    // Other flags and the journal's state do not matter.
    let journal_alone = Volume {
        journal: 2,
        state: 2,
        ..Volume::default()
    };
    let mut output = [0; 72];
    let got = enumerate(&journal_alone, &files, pool, &some, &mut output);
    assert_eq!((got, output.to_vec()), ((SUCCESS, 72), reply.1));
}

#[test]
fn enumeration_versions() {
    let (files, pool) = three_files();
    for size in 0..=40 {
        let mut input = from_to(0, 0, i64::MAX, Some((2, 3)));
        input.resize(40, 0xEE);
        input.truncate(size);
        let due = match size {
            ..24 => (INVALID_PARAMETER, vec![]),
            24..32 => reply_with(2, 10, &files, pool),
            _ => reply_with(3, 10, &files, pool),
        };
        assert_eq!(enumerated(&files, pool, &input, 600), due, "{size}");
    }
    for (min, max, version) in [
        (0, 2, Some(2)),
        (2, 2, Some(2)),
        (0, 3, Some(3)),
        (3, 3, Some(3)),
        (2, 9, Some(3)),
        (3, 2, None),
        (4, 9, None),
        (0, 1, None),
    ] {
        let input = from_to(0, 0, i64::MAX, Some((min, max)));
        let due = match version {
            Some(version) => reply_with(version, 10, &files, pool),
            None => (INVALID_PARAMETER, vec![]),
        };
        assert_eq!(enumerated(&files, pool, &input, 600), due, "{min} {max}");
    }
}

/// Both ends of the Usns are in, and they are signed; a start is in too.
#[test]
fn enumeration_selection() {
    let (files, pool) = three_files();
    let usns = files.map(|file| file.usn as i64);
    let ends = [
        i64::MIN,
        -1,
        0,
        1,
        0x104F,
        0x1050,
        0x1051,
        i64::MAX - 1,
        i64::MAX,
    ];
    let starts = [0, 2, 3, 4, 6, 7, 8, 9, 10, 1 << 63, u64::MAX];
    let mut seen = [0; 4];
    for start in starts {
        for low in ends {
            for high in ends {
                let selected: Vec<Entry> = (0..3)
                    .filter(|&file| files[file].id >= start.into())
                    .filter(|&file| low <= usns[file] && usns[file] <= high)
                    .map(|file| files[file])
                    .collect();
                seen[selected.len()] += 1;
                let due = match selected.last() {
                    Some(last) => reply_with(2, last.id as u64 + 1, &selected, pool),
                    None => (END_OF_FILE, vec![]),
                };
                let input = from_to(start, low, high, None);
                let got = enumerated(&files, pool, &input, 600);
                assert_eq!(got, due, "{start} {low} {high}");
            }
        }
    }
    assert!(seen.iter().all(|&count| count > 5), "{seen:?}");
}

/// As many files as fit, and the id of the first that does not.
#[test]
fn enumeration_rooms() {
    let (files, pool) = three_files();
    for (version, ends) in [(2, [72, 136, 208]), (3, [88, 168, 256])] {
        let all = from_to(0, 0, i64::MAX, Some((2, version)));
        for size in 0..=300 {
            let due = match ends.iter().filter(|&&end| end <= size).count() {
                0 => (BUFFER_TOO_SMALL, vec![]),
                3 => reply_with(version, 10, &files, pool),
                fitting => {
                    let next = files[fitting].id as u64;
                    reply_with(version, next, &files[..fitting], pool)
                }
            };
            assert_eq!(enumerated(&files, pool, &all, size), due, "{size}");
        }
    }
    // A file that does not fit ends the reply, though the next one would fit.
    let table = [entry(1, 0, 0, 0), entry(2, 0, 0, 6), entry(3, 0, 0, 0)];
    let all = from_to(0, 0, 0, None);
    let got = enumerated(&table, pool, &all, 8 + 64 + 64 + 7);
    assert_eq!(got, reply_with(2, 2, &table[..1], pool));
}

/// The highest id that a file may have is given with the one above it.
#[test]
fn enumeration_ids() {
    let top = u128::from(u64::MAX);
    let all = from_to(0, 0, i64::MAX, Some((3, 3)));
    let table = [entry(top - 1, 1, 0, 0), entry(0, 2, 0, 0)];
    let files = [table[1], table[0]];
    let got = enumerated(&table, b"", &all, 600);
    assert_eq!(got, reply_with(3, u64::MAX, &files, b""));
    let next = from_to(u64::MAX, 0, i64::MAX, None);
    assert_eq!(enumerated(&table, b"", &next, 600).0, END_OF_FILE);

    // 2^64 - 1 is refused, wherever it stands; a wide id with this lower half is not.
    for place in 0..3 {
        let mut table = vec![entry(2, 0, 0, 0), entry(4, 0, 0, 0)];
        table.insert(place, entry(top, 0, 0, 0));
        for input in [&all, &next, &from_to(0, 1, 0, None)] {
            let got = enumerated(&table, b"", input, 600);
            assert_eq!(got, (FILE_CORRUPT_ERROR, vec![]), "{place}");
        }
        table[place].id = top | 1 << 127;
        let got = enumerated(&table, b"", &all, 600);
        let files = [entry(2, 0, 0, 0), entry(4, 0, 0, 0)];
        assert_eq!(got, reply_with(3, 5, &files, b""), "{place}");
    }

    // Files with a wide id or parent are left out in either version.
    for (id, parent) in wide_pairs() {
        let wide = Entry {
            parent,
            ..entry(id, 0, 0, 0)
        };
        for versions in [None, Some((2, 3))] {
            let input = from_to(0, 0, 0, versions);
            assert_eq!(enumerated(&[wide], b"", &input, 600).0, END_OF_FILE);
            let others = [entry(1, 0, 0, 0), entry(8, 0, 0, 0)];
            let due = reply_with(versions.map_or(2, |v| v.1), 9, &others, b"");
            for table in [[others[0], wide, others[1]], [wide, others[1], others[0]]] {
                let got = enumerated(&table, b"", &input, 600);
                assert_eq!(got, due, "{id:x} {parent:x}");
            }
        }
    }
}

/// An id that stands twice is refused at any two places, be it wide or not; ids
/// that share one half are different ones.
#[test]
fn enumeration_twice() {
    let all = from_to(0, 0, i64::MAX, None);
    for size in 2..9 {
        let rising: Vec<Entry> = (0..size).map(|n| entry(2 * n, 0, 0, 0)).collect();
        let falling: Vec<Entry> = rising.iter().rev().copied().collect();
        for before in [rising, falling] {
            for (one, other) in (0..size).flat_map(|a| (0..a).map(move |b| (a, b))) {
                for id in [before[one as usize].id, 3, 1 << 64 | 3] {
                    let mut table = before.clone();
                    table[one as usize].id = id;
                    table[other as usize].id = id;
                    let got = enumerated(&table, b"", &all, 2000).0;
                    assert_eq!(got, FILE_CORRUPT_ERROR, "{one} {other} {id:x}");
                    table[other as usize].id ^= 1 << 100;
                    let got = enumerated(&table, b"", &all, 2000);
                    let due = match table.iter().filter(|file| file.id >> 64 == 0).count() {
                        0 => (END_OF_FILE, 0),
                        narrow => (SUCCESS, 8 + 64 * narrow),
                    };
                    assert_eq!((got.0, got.1.len()), due, "{one} {other} {id:x}");
                }
            }
        }
    }
}

/// A row is refused though the call does not ask for it.
#[test]
fn enumeration_bad_rows() {
    let pool = [0x61; 512];
    let status = |bad: Entry, place: usize| {
        let mut table = vec![entry(2, 8, 0, 2), entry(4, 8, 510, 2)];
        table.insert(place, bad);
        let got = enumerated(&table, &pool, &from_to(4, 8, 8, None), 600);
        if got.0 == SUCCESS {
            assert_eq!(ids_of(&got.1), (5, vec![4]));
        }
        got.0
    };
    for place in 0..3 {
        for (usn, due) in [
            ((1 << 63) - 1, SUCCESS),
            (1 << 63, FILE_CORRUPT_ERROR),
            (u64::MAX, FILE_CORRUPT_ERROR),
        ] {
            assert_eq!(status(entry(3, usn, 0, 2), place), due, "{usn:x}");
            assert_eq!(status(entry(1 << 64, usn, 0, 2), place), due, "{usn:x}");
        }
        for (at, length, due) in [
            (0, 510, SUCCESS),
            (2, 510, SUCCESS),
            (3, 510, FILE_CORRUPT_ERROR),
            (0, 512, FILE_CORRUPT_ERROR),
            (0, 1, FILE_CORRUPT_ERROR),
            (0, 509, FILE_CORRUPT_ERROR),
            (0, u32::MAX, FILE_CORRUPT_ERROR),
            (0, 1 << 31, FILE_CORRUPT_ERROR),
            (511, 2, FILE_CORRUPT_ERROR),
            (512, 0, SUCCESS),
            (513, 0, FILE_CORRUPT_ERROR),
            (512, 2, FILE_CORRUPT_ERROR),
            (u64::MAX, 0, FILE_CORRUPT_ERROR),
            (u64::MAX, 2, FILE_CORRUPT_ERROR),
            (u64::MAX - 1, 2, FILE_CORRUPT_ERROR),
            (u64::MAX - 509, 510, FILE_CORRUPT_ERROR),
            (1 << 32, 2, FILE_CORRUPT_ERROR),
            (1 << 63, 2, FILE_CORRUPT_ERROR),
        ] {
            let bad = entry(3, 0, at, length);
            assert_eq!(status(bad, place), due, "{at} {length}");
        }
    }
}

#[test]
fn names_in_a_table() {
    for (names, due) in [
        (&GOOD_NAMES[..], SUCCESS),
        (&BAD_NAMES[..], FILE_CORRUPT_ERROR),
    ] {
        for name in names {
            let pool = [b"x\0", *name, &[0; 4]].concat();
            let it = entry(1, 0, 2, name.len() as u32);
            let table = [it, entry(3, 8, 0, 2), entry(2, 8, 2, 0)];
            let got = enumerated(&table, &pool, &from_to(0, 0, 0, None), 600);
            assert_eq!(got.0, due, "{name:?}");
            if due == SUCCESS {
                assert_eq!(got, reply_with(2, 2, &[it], &pool), "{name:?}");
            }
            // A name is judged though its file is not asked for.
            let others = enumerated(&table, &pool, &from_to(0, 8, 8, None), 600);
            assert_eq!(others.0, due, "{name:?}");
        }
    }
}

/// A file in a folder, whose name is the pool's bytes from a place on.
fn child(id: u128, parent: u128, name_place: u64, name_length: u32) -> Entry {
    Entry {
        parent,
        ..entry(id, 0, name_place, name_length)
    }
}

/// Asks for a path into a buffer of `size` bytes and checks that the rest is
/// untouched.
fn path(table: &[Entry], pool: &[u8], id: u128, root: u128, size: usize) -> (u32, Vec<u8>) {
    let mut output = vec![0xCC; size];
    let (status, count) = file_path(table, pool, id, root, &mut output);
    assert!(output[count..].iter().all(|&b| b == 0xCC));
    output.truncate(count);
    (status, output)
}

/// The files b, a, one without a name, and cd, each in the one before, and b in 2.
fn four_files() -> ([Entry; 4], &'static [u8]) {
    let table = [
        child(3, 2, 2, 2),
        child(7, 3, 0, 2),
        child(8, 7, 8, 0),
        child(9, 8, 4, 4),
    ];
    (table, b"a\0b\0c\0d\0")
}

#[test]
fn path_bytes() {
    let (mut table, pool) = four_files();
    let paths: [(u128, u128, &[u8]); 10] = [
        (2, 2, b""),
        (3, 3, b""),
        (3, 2, b"b\0"),
        (7, 2, b"b\0\x5C\0a\0"),
        (8, 2, b"b\0\x5C\0a\0\x5C\0"),
        (9, 2, b"b\0\x5C\0a\0\x5C\0\x5C\0c\0d\0"),
        (9, 3, b"a\0\x5C\0\x5C\0c\0d\0"),
        (9, 7, b"\x5C\0c\0d\0"),
        (9, 8, b"c\0d\0"),
        (8, 7, b""),
    ];
    for _ in 0..2 {
        for (id, root, due) in paths {
            let got = path(&table, pool, id, root, due.len());
            assert_eq!(got, (SUCCESS, due.to_vec()), "{id} {root}");
        }
        // Above 2 there is nothing, and 4 is no file.
        for (id, root) in [(9, 4), (3, 9), (2, 3), (4, 2), (4, 9)] {
            let got = path(&table, pool, id, root, 600);
            assert_eq!(got, (OBJECT_PATH_NOT_FOUND, vec![]), "{id} {root}");
        }
        table.reverse();
    }
}

/// A chain of `count` files, 1 in 0, 2 in 1 and so on, each with the name a.
fn chain(count: u128) -> Vec<Entry> {
    (1..=count).map(|id| child(id, id - 1, 0, 2)).collect()
}

/// The 64th step may reach the root. Where it does not, no file is looked for.
#[test]
fn path_steps() {
    let mut table = chain(70);
    for _ in 0..2 {
        for id in 0..=70usize {
            let due = match id {
                0 => (SUCCESS, vec![]),
                1..=64 => (SUCCESS, [b"a\0", &b"\x5C\0a\0".repeat(id - 1)[..]].concat()),
                _ => (NAME_TOO_LONG, vec![]),
            };
            assert_eq!(path(&table, b"a\0", id as u128, 0, 300), due, "{id}");
        }
        table.reverse();
    }
    // 64 steps from 64 lead to 0, which is not in the table and not the root.
    for (id, due) in [
        (0, OBJECT_PATH_NOT_FOUND),
        (1, OBJECT_PATH_NOT_FOUND),
        (63, OBJECT_PATH_NOT_FOUND),
        (64, NAME_TOO_LONG),
        (65, NAME_TOO_LONG),
    ] {
        assert_eq!(path(&table, b"a\0", id, 99, 300), (due, vec![]), "{id}");
    }
    // A file that is its own parent, two that are each other's, and one below.
    let table = [
        child(5, 5, 0, 2),
        child(7, 6, 0, 2),
        child(6, 7, 0, 2),
        child(8, 6, 0, 2),
    ];
    for id in [5, 6, 7, 8] {
        assert_eq!(
            path(&table, b"a\0", id, 2, 300),
            (NAME_TOO_LONG, vec![]),
            "{id}"
        );
    }
    assert_eq!(path(&table, b"a\0", 5, 5, 0), (SUCCESS, vec![]));
    let due = (SUCCESS, b"a\0\x5C\0a\0".to_vec());
    assert_eq!(path(&table, b"a\0", 8, 7, 300), due);
}

/// The table is judged first, for the root too; then the way; then the room.
#[test]
fn path_order() {
    let (table, pool) = four_files();
    let faults = [
        entry(10, 1 << 63, 0, 2),
        entry(u64::MAX.into(), 0, 0, 2),
        entry(10, 0, 0, 1),
        entry(10, 0, 6, 4),
        entry(10, 0, 9, 0),
        entry(7, 0, 0, 2),
    ];
    for bad in faults {
        for place in 0..=4 {
            let mut table = table.to_vec();
            table.insert(place, bad);
            for (id, root) in [(2, 2), (9, 2), (4, 2), (9, 4)] {
                let got = path(&table, pool, id, root, 0);
                assert_eq!(got, (FILE_CORRUPT_ERROR, vec![]), "{bad:?} {place}");
            }
        }
    }
    assert_eq!(path(&table, pool, 9, 4, 0).0, OBJECT_PATH_NOT_FOUND);
    assert_eq!(path(&chain(65), b"a\0", 65, 0, 0).0, NAME_TOO_LONG);
    for size in 0..14 {
        assert_eq!(path(&table, pool, 9, 2, size).0, BUFFER_TOO_SMALL, "{size}");
    }
    for size in 14..40 {
        assert_eq!(path(&table, pool, 9, 2, size).1.len(), 14, "{size}");
    }
    assert_eq!(path(&[], b"", 2, 2, 0), (SUCCESS, vec![]));
    assert_eq!(path(&[], b"", 3, 2, 0), (OBJECT_PATH_NOT_FOUND, vec![]));
}

/// Ids are the same if all sixteen bytes are: the file's, the parents' and the
/// root's.
#[test]
fn path_ids() {
    let due = (SUCCESS, b"b\0\x5C\0a\0".to_vec());
    for bit in 0..128 {
        let (root, top, file) = (0x00F, 0x0F0, 0xF00);
        let table = [child(file, top, 0, 2), child(top, root, 2, 2)];
        let pool = b"a\0b\0";
        assert_eq!(path(&table, pool, file, root, 6), due);
        for (id, root) in [(file ^ 1 << bit, root), (file, root ^ 1 << bit)] {
            let got = path(&table, pool, id, root, 600);
            assert_eq!(got, (OBJECT_PATH_NOT_FOUND, vec![]), "{bit}");
        }
        // With a third file whose id has the bit, the way goes by the right one.
        let other = child(top ^ 1 << bit, 1, 0, 0);
        let table = [table[0], other, table[1]];
        assert_eq!(path(&table, pool, file, root, 6), due, "{bit}");
        let moved = [child(file, top ^ 1 << bit, 0, 2), other, table[2]];
        let due = (SUCCESS, b"\x5C\0a\0".to_vec());
        assert_eq!(path(&moved, pool, file, 1, 6), due, "{bit}");
    }
    // No file may have the id 2^64 - 1, but the root may.
    let top = u128::from(u64::MAX);
    let table = [child(3, top, 0, 2)];
    assert_eq!(path(&table, b"a\0", 3, top, 2), (SUCCESS, b"a\0".to_vec()));
    assert_eq!(path(&table, b"a\0", top, top, 2), (SUCCESS, vec![]));
    assert_eq!(path(&table, b"a\0", top, 3, 2).0, OBJECT_PATH_NOT_FOUND);
}

/// A small generator of random numbers.
struct Random(u64);

impl Random {
    fn below(&mut self, limit: u64) -> u64 {
        self.0 = self
            .0
            .wrapping_mul(6364136223846793005)
            .wrapping_add(1442695040888963407);
        (self.0 >> 33) % limit
    }

    /// A number, or in one of three cases one that is often the last or the first of
    /// a kind.
    fn edge(&mut self, number: u64) -> u64 {
        const EDGES: [u64; 12] = [
            0,
            1,
            8,
            80,
            1024,
            1040,
            65_536,
            1 << 31,
            (1 << 63) - 8,
            1 << 63,
            u64::MAX - 7,
            u64::MAX,
        ];
        match self.below(3) {
            0 => EDGES[self.below(EDGES.len() as u64) as usize],
            _ => number,
        }
    }

    /// A good name: a unit whose upper byte is not 0 is none of the excluded.
    fn name(&mut self, length: usize) -> Vec<u8> {
        let mut name: Vec<u8> = (0..length).map(|_| self.below(256) as u8).collect();
        for upper in name.iter_mut().skip(1).step_by(2) {
            *upper = (*upper).max(1);
        }
        name
    }
}

/// Posts and reads against a plain list of the posted records.
#[test]
fn random_calls() {
    let mut random = Random(1);
    // Replies that stop before a record with a wide id, and reads that are
    // refused for one and for their room.
    let mut seen = [0; 3];
    for round in 0..40u64 {
        let capacity = [1024, 1032, 1480, 4096][round as usize % 4];
        let mut v = Volume {
            last: 8 * random.below(1 << 30),
            ..volume(capacity)
        };
        let mut ring = vec![0; capacity as usize];
        assert_eq!(create(&mut v, 9), SUCCESS);
        let mut first = v.first;
        let mut list: Vec<(Change, u64, Vec<u8>)> = vec![];
        for _ in 0..150 {
            let mut c = change(1 + random.below(7) as u32 + ((random.below(2) as u32) << 31));
            c.attributes = random.below(2) as u32;
            let byte = 1 << (64 + 8 * random.below(8));
            match random.below(20) {
                0 => c.file |= byte,
                1 => c.parent |= byte,
                _ => {}
            }
            let size = if random.below(4) == 0 { 256 } else { 12 };
            let name: Vec<u8> = (0..2 * random.below(size)).map(|b| b as u8 | 1).collect();
            let mut usn = 0;
            let before = ring.clone();
            let status = post(&mut v, &mut ring, &c, &name, &mut usn);
            if name.is_empty() {
                assert_eq!((status, usn), (INVALID_PARAMETER, 0));
            } else {
                let bytes = plain(3, &c, usn, &name);
                let mut expected = before;
                for (i, b) in bytes.iter().enumerate() {
                    expected[((usn - bytes.len() as u64 + i as u64) % capacity) as usize] = *b;
                }
                assert_eq!((status, &ring), (SUCCESS, &expected));
                list.push((c, usn, name));
                while usn - first > capacity {
                    first = list.remove(0).1;
                }
                assert_eq!((v.first, v.last), (first, usn));
            }

            let version = 2 + random.below(2) as u16;
            let start = match random.below(6) {
                0 => 0,
                1 => first + 8 * random.below(capacity / 8 + 2),
                2 => first,
                _ if list.is_empty() => v.last,
                _ => list[random.below(list.len() as u64) as usize].1,
            };
            let (mask, close) = (random.below(8) as u32, random.below(2) as u32);
            let size = 8 + random.below(1500) as usize;
            let got = read(
                &v,
                &ring,
                &ask(start, mask, close, 9, Some((0, version))),
                size,
            );
            let from = if start == 0 { first } else { start };
            if from != first && !list.iter().any(|r| r.1 == from) {
                assert_eq!(got.0, INVALID_PARAMETER);
                continue;
            }
            let mut records = vec![];
            let mut position = v.last;
            let mut stopped = None;
            for (c, usn, name) in list.iter().filter(|r| r.1 > from) {
                if c.reason & mask == 0 || (close != 0 && c.reason >> 31 == 0) {
                    continue;
                }
                let bytes = plain(version, c, *usn, name);
                if version == 2 && (c.file >> 64 != 0 || c.parent >> 64 != 0) {
                    stopped = Some(NOT_SUPPORTED);
                } else if 8 + records.len() + bytes.len() > size {
                    stopped = Some(BUFFER_TOO_SMALL);
                }
                if stopped.is_some() {
                    position = usn - plain(3, c, *usn, name).len() as u64;
                    break;
                }
                records.extend(bytes);
            }
            let reply = [&position.to_le_bytes()[..], &records].concat();
            let expected = match stopped {
                Some(status) if records.is_empty() => (status, vec![]),
                _ => (SUCCESS, reply),
            };
            assert_eq!(got, expected);
            match (got.0, stopped) {
                (SUCCESS, Some(NOT_SUPPORTED)) => seen[0] += 1,
                (NOT_SUPPORTED, _) => seen[1] += 1,
                (BUFFER_TOO_SMALL, _) => seen[2] += 1,
                _ => {}
            }
        }
    }
    assert!(seen.iter().all(|&count| count > 100), "{seen:?}");
}

/// Random tables are followed to their end, each call from the id that the last one
/// gave, with any room of 600 bytes or more and either version: every selected file
/// comes once, in order.
#[test]
fn random_tables() {
    let mut random = Random(3);
    let (mut calls, mut files, mut left_out) = (0, 0, 0);
    for round in 0..300 {
        let pool = random.name(1024);
        let mut table: Vec<Entry> = vec![];
        let mut id = u128::from(random.below(3));
        for _ in 0..random.below(60) {
            let length = 2 * random.below([256, 12][round % 2]);
            let wide = |random: &mut Random| u128::from(random.below(10) == 0) << 64;
            table.push(Entry {
                id: id | wide(&mut random),
                parent: u128::from(random.below(1 << 31)) | wide(&mut random),
                usn: random.below(100),
                attributes: random.below(3) as u32,
                name_length: length as u32,
                name_place: 2 * random.below((1024 - length) / 2 + 1),
            });
            id += 1 + u128::from(random.below(5)) * u128::from(random.below(1 << 31));
        }
        // As it stands, backwards, or with some files exchanged.
        match random.below(4) {
            0 => {}
            1 => table.reverse(),
            _ => {
                for _ in 0..random.below(60) {
                    let size = table.len() as u64;
                    if size > 0 {
                        table.swap(random.below(size) as usize, random.below(size) as usize);
                    }
                }
            }
        }
        let (low, high) = (random.below(40) as i64, 60 + random.below(40) as i64);
        let mut due: Vec<Entry> = table.clone();
        due.retain(|file| low <= file.usn as i64 && file.usn as i64 <= high);
        left_out += due
            .iter()
            .filter(|f| f.id >> 64 | f.parent >> 64 != 0)
            .count();
        due.retain(|file| file.id >> 64 == 0 && file.parent >> 64 == 0);
        due.sort_by_key(|file| file.id);

        let (mut start, mut given) = (0, 0);
        loop {
            let version = 2 + random.below(2) as u16;
            let input = from_to(start, low, high, Some((0, version)));
            let (status, reply) =
                enumerated(&table, &pool, &input, 600 + random.below(900) as usize);
            calls += 1;
            if given == due.len() {
                assert_eq!(status, END_OF_FILE);
                break;
            }
            let (next, ids) = ids_of(&reply);
            let shown = &due[given..given + ids.len()];
            assert!(!ids.is_empty());
            assert_eq!((status, reply), reply_with(version, next, shown, &pool));
            given += ids.len();
            start = next;
        }
        files += given;
    }
    assert!(
        files > 3000 && left_out > 500 && calls > 1000,
        "{files} {left_out} {calls}"
    );
}

/// A file's path is its parent's, a separator and its name, and that of a file in the
/// root its name alone.
#[test]
fn random_trees() {
    let mut random = Random(5);
    let (mut joined, mut tops) = (0, 0);
    for _ in 0..300 {
        let pool = random.name(64);
        let mut table: Vec<Entry> = vec![];
        for number in 1..=u128::from(random.below(40)) {
            let length = 2 * random.below(8);
            let place = 2 * random.below((64 - length) / 2 + 1);
            let parent = random.below(number as u64);
            table.push(child(number, parent.into(), place, length as u32));
        }
        for place in 1..table.len() {
            table.swap(place, random.below(place as u64 + 1) as usize);
        }
        for file in &table {
            let place = file.name_place as usize;
            let name = &pool[place..place + file.name_length as usize];
            let (status, above) = path(&table, &pool, file.parent, 0, 1000);
            assert_eq!(status, SUCCESS);
            let due = match file.parent {
                0 => name.to_vec(),
                _ => [&above[..], b"\x5C\0", name].concat(),
            };
            let got = path(&table, &pool, file.id, 0, due.len());
            assert_eq!(got, (SUCCESS, due), "{file:?}");
            tops += u32::from(file.parent == 0);
            joined += u32::from(file.parent != 0);
        }
    }
    assert!(joined > 3000 && tops > 500, "{joined} {tops}");
}

/// No call panics on garbage, and a refusal changes nothing.
#[test]
fn garbage() {
    let (mut random, mut random_rows) = (Random(2), Random(4));
    let (mut warnings, mut set_points, mut deleted_points) = (0, 0, 0);
    let (mut enumerations, mut paths) = (0, 0);
    let (sound, kept) = thirteen();
    for _ in 0..60_000 {
        let mut v = sound;
        let mut edge = |old| random.edge(old);
        (v.first, v.last, v.capacity, v.id) = (edge(80), edge(1040), edge(1024), edge(3));
        let asked = ask(
            edge(80),
            edge(1) as u32,
            0,
            edge(3),
            Some((0, edge(2) as u16)),
        );
        let f = File {
            usn: edge(8),
            eof: edge(8),
            valid: edge(8),
            tag: edge(1) as u32,
            length: edge(8),
            ..File::default()
        };
        let links = [Link {
            place: edge(0) as u32,
            length: edge(2) as u32,
            short: edge(0) as u32,
        }; 2];
        let query = range(edge(0), edge(8), edge(1) as u32);
        let mut edge = |old| random_rows.edge(old);
        let table = [2, 1].map(|id| Entry {
            id: edge(id).into(),
            parent: edge(5).into(),
            usn: edge(8),
            attributes: edge(0) as u32,
            name_length: edge(2) as u32,
            name_place: edge(80),
        });
        let listed = from_to(
            edge(0),
            edge(0) as i64,
            edge(80) as i64,
            Some((0, edge(2) as u16)),
        );
        let mut ring = kept.clone();
        for _ in 0..random.below(3) {
            let at = random.below(1024) as usize;
            ring[at] = random.below(256) as u8;
        }
        ring.truncate(if random.below(9) == 0 {
            random.below(1025) as usize
        } else {
            1024
        });
        let mut output = vec![0xCC; random.below(700) as usize];
        let store = vec![0xBB; 16_374 + random.below(6) as usize];
        let cut = |bytes: &[u8], n: u64| bytes[..bytes.len().min(n as usize)].to_vec();
        let asked = cut(&asked, 30 + random.below(40));
        let listed = cut(&listed, 20 + random_rows.below(40));
        let query = cut(&query, random.below(60));
        let form = random.below(4) as u32;
        let mut image =
            [ONE_IMAGE.to_vec(), ONE_IMAGE_2.to_vec()][random.below(2) as usize].clone();
        let at = random.below(image.len() as u64) as usize;
        image[at] = random.below(256) as u8;
        let image = cut(&image, 90 + random.below(40));
        let (leaf, root) = (random_rows.edge(1), random_rows.edge(5));
        for call in 0..8 {
            let (status, count) = match call {
                0 => read_journal(&v, &ring, &asked, &mut output),
                4 => save_journal(&v, &ring, form, &mut output),
                5 => move_image(&image, form, &mut output),
                6 => enumerate(&v, &table, &kept, &listed, &mut output),
                7 => file_path(&table, &kept, leaf.into(), root.into(), &mut output),
                1 => read_file(&v, &f, 1, &kept, &links, &query, &mut output),
                2 => query_file_regions(&v, &f, &query, &mut output),
                _ => get_reparse_point(&v, &f, &store, &mut output),
            };
            match status {
                SUCCESS => {
                    enumerations += u32::from(call == 6);
                    paths += u32::from(call == 7 && count > 0);
                }
                // Only the region query warns, and with its first region.
                BUFFER_OVERFLOW => {
                    assert_eq!((call, count), (2, 40));
                    warnings += 1;
                }
                _ => assert_eq!(count, 0),
            }
            assert!(output[count..].iter().all(|&b| b == 0xCC));
            output.fill(0xCC);
        }
        let (before, old) = (v, ring.clone());
        let mut usn = 0;
        let name = &kept[..random.below(600) as usize];
        if post(&mut v, &mut ring, &change(1), name, &mut usn) != SUCCESS {
            assert_eq!((v, &ring, usn), (before, &old, 0));
        }
        let mut points = Points {
            v,
            ring: ring.clone(),
            f,
            store,
            reason: 0,
            name: [name, b"a\0"][random.below(2) as usize].to_vec(),
        };
        let mut input = point(f.tag, random.below(4) as usize);
        let at = random.below(input.len() as u64) as usize;
        input[at] = random.below(256) as u8;
        set_points += u32::from(points.set(&input) == SUCCESS);
        deleted_points += u32::from(points.delete(&cut(&input, 24)) == SUCCESS);
        let at = random.below(1100) as usize;
        assert!(read_record(&ring, at).is_none_or(|r| r.next <= ring.len()));
        assert!(walk_reply(&ring).is_ok() || walk_reply(&ring).is_err_and(|at| at <= ring.len()));
    }
    let seen = [warnings, set_points, deleted_points, enumerations, paths];
    assert!(seen.iter().all(|&count| count > 0), "{seen:?}");
}
