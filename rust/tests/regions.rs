//! Region queries with little room; and that the regions of a reply tile what
//! was asked for, byte by byte, at once and in two parts.

mod common;

use common::{model_file, model_volume, region_input, GUARD, NEGATIVE};
use lanhduxe::{Answer, FileRecord, Status, Volume};

/// 2^63 - 1, the largest offset.
const TOP: u64 = NEGATIVE - 1;

/// A region, or a range that is asked for: offset, length and usage.
type Region = (u64, u64, u32);

/// The range that an empty input asks for.
const WHOLE: Region = (0, TOP, 1);

/// A volume that supports region queries and nothing else.
fn regions_only() -> Volume {
    Volume {
        regions: 1,
        ..Volume::default()
    }
}

/// A file record with these lengths.
fn sized(eof: u64, valid: u64) -> FileRecord {
    FileRecord {
        eof,
        valid,
        ..FileRecord::default()
    }
}

/// The input that asks for a range; the empty one for the whole file.
fn asking(range: Region) -> Vec<u8> {
    if range == WHOLE {
        return Vec::new();
    }
    let (offset, length, usage) = range;
    region_input(offset, length, usage)
}

/// The library's answer and reply. What lies behind the reply must be as it was.
fn query(file: &FileRecord, input: &[u8], room: usize) -> (Answer, Vec<u8>) {
    let mut output = vec![0xEE; room + GUARD];
    let answer = regions_only().query_file_regions(file, input, &mut output[..room]);
    let behind = &output[answer.count..];
    assert!(behind.iter().all(|byte| *byte == 0xEE), "{file:?} {room}");
    output.truncate(answer.count);
    (answer, output)
}

/// The bytes of a reply with some regions out of `total`.
fn lay_out_regions(total: u32, regions: &[Region]) -> Vec<u8> {
    let mut reply = Vec::new();
    for word in [0, total, regions.len() as u32, 0] {
        reply.extend(word.to_le_bytes());
    }
    for (offset, length, usage) in regions {
        reply.extend(offset.to_le_bytes());
        reply.extend(length.to_le_bytes());
        reply.extend(usage.to_le_bytes());
        reply.extend([0; 4]);
    }
    reply
}

/// The regions in a reply, as many as its entry count says.
fn regions_in(reply: &[u8]) -> Vec<Region> {
    if reply.is_empty() {
        return Vec::new();
    }
    let word = |at: usize| u32::from_le_bytes(reply[at..at + 4].try_into().expect("four bytes"));
    let long = |at: usize| u64::from_le_bytes(reply[at..at + 8].try_into().expect("eight bytes"));
    let entries = word(8) as usize;
    (0..entries)
        .map(|entry| 16 + 24 * entry)
        .map(|at| (long(at), long(at + 8), word(at + 16)))
        .collect()
}

#[test]
fn regions_at_the_edges_of_the_room() {
    use Status::{BufferOverflow, BufferTooSmall, Success};
    const ROOMS: [usize; 4] = [39, 40, 63, 64];
    const LAST: u64 = TOP - 1;
    let (small, warned) = ((BufferTooSmall, 0), (BufferOverflow, 40));
    let none = [small, (Success, 0), (Success, 0), (Success, 0)];
    let one = [small, (Success, 40), (Success, 40), (Success, 40)];
    let two = [small, warned, warned, (Success, 64)];
    // Eof, Vdl, the range, the answer for each room, the regions due.
    type Row = (u64, u64, Region, [(Status, usize); 4], &'static [Region]);
    let table: [Row; 20] = [
        // A second region is due.
        (100, 60, WHOLE, two, &[(0, 60, 1), (60, 40, 0)]),
        (100, 60, (0, 61, 1), two, &[(0, 60, 1), (60, 1, 0)]),
        (100, 60, (50, 20, 3), two, &[(50, 10, 3), (60, 10, 0)]),
        (100, 60, (59, 99, 1), two, &[(59, 1, 1), (60, 40, 0)]),
        (100, 99, (98, 2, 1), two, &[(98, 1, 1), (99, 1, 0)]),
        (2, 1, (0, 2, 1), two, &[(0, 1, 1), (1, 1, 0)]),
        (TOP, 1, WHOLE, two, &[(0, 1, 1), (1, LAST, 0)]),
        (TOP, LAST, WHOLE, two, &[(0, LAST, 1), (LAST, 1, 0)]),
        // All of the file is valid data.
        (100, 100, WHOLE, one, &[(0, 100, 1)]),
        (100, 100, (99, 50, 3), one, &[(99, 1, 3)]),
        (TOP, TOP, WHOLE, one, &[(0, TOP, 1)]),
        // The range ends with the valid data.
        (100, 60, (0, 60, 1), one, &[(0, 60, 1)]),
        (100, 60, (50, 10, 3), one, &[(50, 10, 3)]),
        // The range begins where the valid data ends or behind it.
        (100, 60, (60, 99, 3), one, &[(60, 40, 0)]),
        (100, 60, (99, 1, 1), one, &[(99, 1, 0)]),
        (100, 0, WHOLE, one, &[(0, 100, 0)]),
        // The file is empty.
        (0, 0, WHOLE, one, &[(0, 0, 0)]),
        // The range begins at the end of the file or behind it.
        (100, 60, (100, 1, 1), none, &[]),
        (100, 60, (101, 1, 1), none, &[]),
        (0, 0, (1, 1, 1), none, &[]),
    ];
    for (eof, valid, range, answers, due) in table {
        for (room, (status, count)) in ROOMS.into_iter().zip(answers) {
            let (answer, reply) = query(&sized(eof, valid), &asking(range), room);
            let expected = match count {
                0 => Vec::new(),
                40 => lay_out_regions(due.len() as u32, &due[..1]),
                _ => lay_out_regions(due.len() as u32, due),
            };
            assert_eq!(
                (answer, reply),
                (Answer { status, count }, expected),
                "Eof {eof}, Vdl {valid}, range {range:?}, room {room}"
            );
        }
    }
}

/// A file and a range to ask for.
type Case = (FileRecord, Region);

/// Usages to ask for: all have flag 1.
const USAGES: [u32; 3] = [1, 3, u32::MAX];

/// Every file of at most nine bytes, with the empty input and the ranges that
/// begin up to two bytes past Eof and are up to three bytes longer than the file.
fn small_cases() -> Vec<Case> {
    let mut cases = Vec::new();
    for eof in 0..=9 {
        for valid in 0..=eof {
            let file = sized(eof, valid);
            cases.push((file, WHOLE));
            for offset in 0..=eof + 2 {
                for length in 1..=eof + 3 {
                    cases.extend(USAGES.map(|usage| (file, (offset, length, usage))));
                }
            }
        }
    }
    cases
}

/// Files of 2^62 bytes and of the two largest lengths, with every range from one
/// edge to another. The empty input is among them.
fn large_cases() -> Vec<Case> {
    let mut cases = Vec::new();
    for eof in [1 << 62, TOP - 1, TOP] {
        for valid in [0, 1, eof / 2, eof - 1, eof] {
            let file = sized(eof, valid);
            for (offset, length) in between(edges(&file)) {
                cases.extend(USAGES.map(|usage| (file, (offset, length, usage))));
            }
        }
    }
    cases
}

/// The offsets at the edges of a file and of what can be asked for.
fn edges(file: &FileRecord) -> Vec<u64> {
    let mut edges = vec![0, 1, TOP - 1, TOP];
    for edge in [file.valid, file.eof] {
        edges.extend([edge.saturating_sub(1), edge, edge + 1]);
    }
    edges.retain(|edge| *edge <= TOP);
    edges.sort_unstable();
    edges.dedup();
    edges
}

/// The offset and the length of each range from one edge to another.
fn between(edges: Vec<u64>) -> Vec<(u64, u64)> {
    let mut ranges = Vec::new();
    for (index, offset) in edges.iter().enumerate() {
        let behind = &edges[index + 1..];
        ranges.extend(behind.iter().map(|end| (*offset, end - offset)));
    }
    ranges
}

/// Asks for a range of a file with `room` bytes of output. As long as the answer
/// is the warning, asks again for what is behind the last region. Gives the
/// regions and the number of calls.
fn ask_to_the_end(file: &FileRecord, range: Region, room: usize) -> (Vec<Region>, usize) {
    let mut regions = Vec::new();
    let mut rest = range;
    // Two regions at most are due, and a call that warns gives one.
    for calls in 1..=2 {
        let (answer, reply) = query(file, &asking(rest), room);
        regions.extend(regions_in(&reply));
        if answer.status == Status::Success {
            return (regions, calls);
        }
        assert_eq!(answer.status, Status::BufferOverflow);
        let (offset, length, usage) = rest;
        let last: &Region = regions.last().expect("a warning comes with a region");
        let next = last.0 + last.1;
        rest = (next, length - (next - offset), usage);
        assert!(rest.1 > 0, "{file:?} {range:?}: nothing is left to ask for");
    }
    panic!("{file:?} {range:?}: two calls with {room} bytes did not reach the end");
}

/// The regions that the model gives in one call with room for two.
fn regions_by_the_model(file: &FileRecord, range: Region) -> Vec<Region> {
    let (volume, file) = (model_volume(&regions_only()), model_file(file));
    let mut output = [0; 64];
    let (status, count) = model::query_file_regions(&volume, &file, &asking(range), &mut output);
    assert_eq!(status, model::status::SUCCESS);
    regions_in(&output[..count])
}

#[test]
fn asking_again_ends() {
    let cases = [small_cases(), large_cases()].concat();
    // The model says in one call with 64 bytes what is due. The last room is the
    // same call by the library.
    for room in 40..=64 {
        let mut twice = 0;
        for (file, range) in &cases {
            let due = regions_by_the_model(file, *range);
            let (regions, calls) = ask_to_the_end(file, *range, room);
            assert_eq!(regions, due, "{file:?} {range:?} {room}");
            // A second call is needed just where a second region had no room.
            let expected = if room < 64 && due.len() == 2 { 2 } else { 1 };
            assert_eq!(calls, expected, "{file:?} {range:?} {room}");
            twice += usize::from(calls == 2);
        }
        println!(
            "room {room}: {twice} of {} ranges took two calls",
            cases.len()
        );
        assert_eq!(twice > 0, room < 64);
    }
}

/// The byte behind a region. The sum may need more than 64 bits.
fn end(region: Region) -> u128 {
    u128::from(region.0) + u128::from(region.1)
}

/// What is due to a byte when a range of a file is asked for: one usage if it is
/// a byte of the file and of the range, else none.
fn due(file: &FileRecord, range: Region, byte: u128) -> Vec<u32> {
    let (offset, _, usage) = range;
    if byte < offset.into() || byte >= end(range).min(file.eof.into()) {
        return Vec::new();
    }
    if byte < file.valid.into() {
        return vec![usage];
    }
    vec![0]
}

/// The usages that some regions give to a byte: one for each that it lies in.
fn usages(regions: &[Region], byte: u128) -> Vec<u32> {
    let lies_in = |region: &&Region| byte >= region.0.into() && byte < end(**region);
    let regions = regions.iter().filter(lies_in);
    regions.map(|(_, _, usage)| *usage).collect()
}

/// The first places of a file, which are all that the ranges of a small one
/// reach, and those around each edge of the file and of some ranges. A byte's
/// usages change at such an edge only, so no byte is missed in a large file.
fn places(file: &FileRecord, ranges: &[Region]) -> Vec<u128> {
    let mut edges = vec![file.valid.into(), file.eof.into(), TOP.into()];
    for range in ranges {
        edges.extend([range.0.into(), end(*range)]);
    }
    let mut places: Vec<u128> = (0..24).collect();
    for edge in edges {
        places.extend([edge.saturating_sub(1), edge, edge + 1]);
    }
    places.sort_unstable();
    places.dedup();
    places
}

/// The library's regions for a range, or nothing where it warns, as it may do
/// with less room than two regions need.
fn ask(file: &FileRecord, range: Region, room: usize) -> Option<Vec<Region>> {
    let (answer, reply) = query(file, &asking(range), room);
    if answer.status == Status::BufferOverflow && room < 64 {
        return None;
    }
    assert_eq!(answer.status, Status::Success, "{file:?} {range:?} {room}");
    let regions = regions_in(&reply);
    if range.0 < file.eof {
        // The reply ends with its last region, and no region is empty.
        assert_eq!(reply.len(), 16 + 24 * regions.len(), "{file:?} {range:?}");
        assert!(regions.iter().all(|region| region.1 > 0), "{regions:?}");
        return Some(regions);
    }
    // Nothing is there. Only an empty file at offset 0 says so with a region.
    let expected: (usize, &[Region]) = match range.0 {
        0 => (40, &[(0, 0, 0)]),
        _ => (0, &[]),
    };
    let given = (reply.len(), &regions[..]);
    assert_eq!(given, expected, "{file:?} {range:?} {room}");
    Some(regions)
}

/// What the test of tiles has looked at.
#[derive(Debug, Default)]
struct Tiled {
    warnings: usize,
    /// The replies with no region, with one and with two.
    replies: [usize; 3],
    bytes: usize,
}

/// Compares what each byte has from a reply with what is due to it.
fn check_tiles(cases: &[Case]) -> Tiled {
    let mut seen = Tiled::default();
    for (file, range) in cases {
        for room in (40..=64).chain([80]) {
            let Some(regions) = ask(file, *range, room) else {
                seen.warnings += 1;
                continue;
            };
            let bytes = places(file, &[&[*range], &regions[..]].concat());
            for byte in &bytes {
                assert_eq!(
                    usages(&regions, *byte),
                    due(file, *range, *byte),
                    "{file:?} {range:?}, room {room}, byte {byte}: {regions:?}"
                );
            }
            seen.replies[regions.len()] += 1;
            seen.bytes += bytes.len();
        }
    }
    seen
}

#[test]
fn regions_tile_the_file() {
    for cases in [small_cases(), large_cases()] {
        let seen = check_tiles(&cases);
        println!("{} ranges, {seen:?}", cases.len());
        assert!(seen.warnings > 0);
        assert!(seen.replies.iter().all(|replies| *replies > 0));
    }
}

/// What the test of parts has looked at.
#[derive(Debug, Default)]
struct Parted {
    /// The ranges whose one reply has two regions.
    twos: usize,
    splits: usize,
    /// The splits at or past Eof.
    past: usize,
    /// Of these, the ones of a range that begins before Eof.
    across: usize,
    bytes: usize,
}

/// The two parts of a range, split at each of the places inside: at every byte,
/// where the range lies within the first places.
fn parts(file: &FileRecord, range: Region) -> Vec<[Region; 2]> {
    let (offset, length, usage) = range;
    let mut parts = Vec::new();
    for place in places(file, &[range]) {
        if place <= offset.into() || place >= end(range) {
            continue;
        }
        let split = u64::try_from(place).expect("the range ends below 2^64");
        let rest = length - (split - offset);
        parts.push([(offset, split - offset, usage), (split, rest, usage)]);
    }
    parts
}

/// Compares what each byte has from the replies to two parts with what it has
/// from the one reply.
fn check_parts(cases: &[Case]) -> Parted {
    let ask = |file, range| ask(file, range, 64).expect("room for two regions");
    let mut seen = Parted::default();
    for (file, range) in cases {
        let whole = ask(file, *range);
        seen.twos += usize::from(whole.len() == 2);
        for parts in parts(file, *range) {
            let regions = parts.map(|part| ask(file, part)).concat();
            let bytes = places(file, &[&parts, &whole[..], &regions].concat());
            for byte in &bytes {
                assert_eq!(
                    usages(&regions, *byte),
                    usages(&whole, *byte),
                    "{file:?} {parts:?}, byte {byte}: {regions:?} for {whole:?}"
                );
            }
            seen.splits += 1;
            let past = parts[1].0 >= file.eof;
            seen.past += usize::from(past);
            seen.across += usize::from(past && range.0 < file.eof);
            seen.bytes += bytes.len();
        }
    }
    seen
}

#[test]
fn asking_in_two_parts_gives_the_same() {
    // Every split of a small range is tried.
    for (file, range) in small_cases() {
        let splits = parts(&file, range).len() as u64;
        assert!(range == WHOLE || splits == range.1 - 1, "{range:?}");
    }
    for cases in [small_cases(), large_cases()] {
        let seen = check_parts(&cases);
        println!("{} ranges, {seen:?}", cases.len());
        assert!(seen.twos > 0);
        // The cases have splits on both sides of Eof, and ranges that begin there.
        assert!(0 < seen.across && seen.across < seen.past && seen.past < seen.splits);
    }
}

/// Whether a query with room for two regions succeeds. If not it is refused.
fn succeeds(file: &FileRecord, range: Region) -> bool {
    let (answer, reply) = query(file, &asking(range), 64);
    let success = answer.status == Status::Success;
    assert!(
        success || answer.status.is_refusal() && reply.is_empty(),
        "{file:?} {range:?}: {answer:?}"
    );
    success
}

#[test]
fn a_range_succeeds_if_both_parts_do() {
    let mut cases = Vec::new();
    // Ranges around the largest end that may be asked for, and those that a bad
    // file record or a usage without flag 1 refuses.
    for file in [sized(TOP, 3), sized(6, 4), sized(6, 7), sized(NEGATIVE, 4)] {
        for offset in [0, 1, TOP - 6, TOP - 1, TOP, NEGATIVE, u64::MAX - 9] {
            for end in [7, TOP - 1, TOP, NEGATIVE, NEGATIVE + 3, u64::MAX] {
                let length = end.saturating_sub(offset);
                cases.extend([0, 1, 2, 3].map(|usage| (file, (offset, length, usage))));
            }
        }
    }
    // How often none, one and both of the parts succeed.
    let mut seen = [0; 3];
    for (file, range) in &cases {
        let whole = succeeds(file, *range);
        for parts in parts(file, *range) {
            let answered = parts.map(|part| succeeds(file, part));
            assert_eq!(whole, answered == [true, true], "{file:?} {parts:?}");
            seen[usize::from(answered[0]) + usize::from(answered[1])] += 1;
        }
    }
    println!("{} ranges, {seen:?} splits", cases.len());
    assert!(seen.iter().all(|splits| *splits > 0), "{seen:?}");
}
