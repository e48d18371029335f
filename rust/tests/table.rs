//! Enumerations of the files of a table: the library against the model on random
//! calls, and every rule by itself.
//!
//! But for the random calls, what is due is said here, and not by the model: a plain
//! sort of the selected files, laid out one behind the other.

mod common;

use common::journal::{gave, given, refused, Given};
use common::table::{damage, due, each_order, entry, enumerate, enumerate_rows, good_table};
use common::table::{model_table, record, rows, supporting, EnumInput, ORDERS, ROW, TOP};
use common::{check, expected, model_volume, record_length, version_from};
use common::{Counts, Hex, Lent, Rng, EXCLUDED, GUARD, NEGATIVE};
use lanhduxe::Status::{self, *};
use lanhduxe::{list_reply, read_record, walk_reply, Entry, FileId, Volume};

// ---- Random tables.

/// An input: most of them good, near the ids and the Usns of the table.
fn input(rng: &mut Rng, table: &[Entry]) -> EnumInput {
    let near = |rng: &mut Rng| match table {
        [] => entry(rng.long().into(), rng.long(), 0, 0),
        _ => rng.pick(table),
    };
    let start = match rng.below(6) {
        0..=2 => 0,
        3..=4 => {
            let id = near(rng).id.number();
            rng.around(id as u64)
        }
        _ => rng.long(),
    };
    let low = match rng.below(8) {
        0..=3 => 0,
        4..=5 => {
            let usn = near(rng).usn;
            rng.around(usn)
        }
        6 => NEGATIVE,
        _ => rng.long(),
    };
    let high = match rng.below(8) {
        0..=4 => NEGATIVE - 1,
        5..=6 => {
            let usn = near(rng).usn;
            rng.around(usn)
        }
        _ => rng.long(),
    };
    EnumInput {
        start,
        low: low as i64,
        high: high as i64,
        lowest: rng.pick(&[0, 1, 2, 2, 2, 2, 2, 2, 3, 4]),
        highest: rng.pick(&[1, 2, 2, 2, 3, 3, 3, 3, 4, u16::MAX]),
        size: match rng.below(12) {
            0 => rng.below(49) as usize,
            1 => 23,
            2..=3 => 24,
            4 => 31,
            5 => rng.between(33, 48) as usize,
            _ => 32,
        },
    }
}

/// An output's length, near one that some of the selected files take.
fn room(rng: &mut Rng, table: &[Entry], input: &EnumInput) -> usize {
    let version = input.version().unwrap_or(2);
    let mut limits = vec![8];
    for file in input.selected(table) {
        let length = record_length(version, file.name_length as usize);
        limits.push(limits[limits.len() - 1] + length as u64);
    }
    let limit = rng.pick(&limits);
    let all = limits[limits.len() - 1];
    let room = match rng.below(10) {
        0 => rng.below(10),
        1..=3 => rng.around(limit),
        4..=5 => rng.around(all),
        6 => all,
        7 => rng.between(0, all),
        _ => rng.between(600, 2000),
    };
    room as usize
}

/// The status and the count that the model gives, for a table of whole rows or not.
fn by_model(
    volume: &Volume,
    table: &[Entry],
    whole: bool,
    pool: &[u8],
    input: &[u8],
    output: &mut [u8],
) -> (u32, usize) {
    match whole || volume.journal == 0 {
        true => model::enumerate(
            &model_volume(volume),
            &model_table(table),
            pool,
            input,
            output,
        ),
        false => (model::status::FILE_CORRUPT_ERROR, 0),
    }
}

/// A volume record of which only one flag matters.
fn volume(rng: &mut Rng) -> Volume {
    Volume {
        usn: rng.flag(50),
        regions: rng.flag(50),
        reparse: rng.flag(50),
        points: rng.flag(50),
        journal: rng.flag(3),
        state: rng.word(),
        id: rng.long(),
        first: rng.long(),
        last: rng.long(),
        capacity: rng.long(),
    }
}

/// Half of the calls have the table as structs, and half as bytes, which begin
/// anywhere and now and then are not whole rows.
#[test]
fn enumerations_agree_with_the_model() {
    const TEST: &str = "enumeration";
    let mut rng = Rng::new(TEST);
    let mut counts = Counts::new(TEST);
    let mut seen = [0; 6];
    for index in 0..200_000 {
        let volume = volume(&mut rng);
        let order = rng.pick(&ORDERS);
        let count = match rng.below(20) {
            0 => 0,
            1 => 1,
            2 => 2,
            3 if index % 16 == 0 => rng.between(100, 300),
            _ => rng.between(2, 24),
        };
        let (mut table, mut pool) = good_table(&mut rng, count as usize, order);
        let input = input(&mut rng, &table);
        let room = room(&mut rng, &table, &input);
        if rng.percent(25) {
            damage(&mut rng, &mut table, &mut pool);
        }
        let as_bytes = rng.percent(50);
        let extra = match as_bytes && rng.percent(5) {
            true => rng.between(1, ROW as u64 - 1) as usize,
            false => 0,
        };
        let before = rng.below(9) as usize;
        let lent = [rng.bytes(before), rows(&table), rng.bytes(extra)].concat();

        let lent = Lent::holding(&mut rng, &lent);
        let pool = Lent::holding(&mut rng, &pool);
        let bytes = input.bytes(&mut rng);
        let bytes = Lent::holding(&mut rng, &bytes);
        let mut output = Lent::output(&mut rng, room);
        let (pool_lent, input_lent) =
            (&pool.library[..pool.length], &bytes.library[..bytes.length]);
        let structs = table.clone();
        let answer = match as_bytes {
            true => volume.enumerate_rows(
                &lent.library[before..lent.length],
                pool_lent,
                input_lent,
                output.for_library(),
            ),
            false => volume.enumerate_files(&structs, pool_lent, input_lent, output.for_library()),
        };
        let (status, count) = by_model(
            &volume,
            &table,
            extra == 0,
            &pool.before[..pool.length],
            &bytes.before[..bytes.length],
            output.for_model(),
        );
        counts.add(answer.status);
        check(
            answer.status.number() == status
                && answer.count == count
                && output.agrees(count)
                && lent.same()
                && pool.same()
                && bytes.same()
                && structs == table,
            TEST,
            index,
            || {
                format!(
                    "library {answer:?}, model {status:#x} {count}\n{volume:?}\n{order:?} {table:?}\n\
                     and {extra} bytes, pool {:?}\n{input:?}\n\
                     output before {:?} (lent {room})\nlibrary's {:?}\nmodel's {:?}",
                    Hex(&pool.before[..pool.length]),
                    Hex(&output.before),
                    Hex(&output.library),
                    Hex(&output.model)
                )
            },
        );
        if answer.status == Success {
            seen[order as usize] += 1;
            let walk = walk_reply(&output.library[..answer.count]).expect("a whole reply");
            let whole = walk.count == input.selected(&table).len();
            seen[4 + usize::from(whole)] += 1;
        }
    }
    counts.finish_often(&expected::TABLE, 200_000, 1000);
    // Each order, and replies that end before the last selected file or with it.
    println!("{TEST}: {seen:?}");
    assert!(seen.iter().all(|count| *count > 5000), "{seen:?}");
}

// ---- Following.

/// Follows a table to its end with any room of 600 bytes or more and either version:
/// the files come as they are in `selected`. Gives their number and that of the calls.
fn followed(
    rng: &mut Rng,
    table: &[Entry],
    pool: &[u8],
    asked: &EnumInput,
    selected: &[Entry],
) -> (usize, usize) {
    let (mut files, mut calls) = (0, 0);
    let mut start = asked.start;
    loop {
        let version = rng.pick(&[2, 3]);
        let input = EnumInput {
            start,
            highest: version,
            ..*asked
        };
        let room = match rng.below(3) {
            0 => 600,
            1 => rng.between(600, 700),
            _ => rng.between(600, 3000),
        };
        let (answer, reply) = enumerate(table, pool, &input, room as usize);
        calls += 1;
        if answer.status == EndOfFile {
            return (files, calls);
        }
        assert_eq!(answer.status, Success);
        let walk = walk_reply(&reply).expect("a whole reply");
        assert!(walk.count > 0 && walk.position > start);
        let mut at = 8;
        while at < reply.len() {
            let next = read_record(&reply, at).expect("a record").next;
            let file = selected.get(files).expect("a file that is due");
            assert!(reply[at..next] == record(version, file, pool), "{file:?}");
            files += 1;
            at = next;
        }
        start = walk.position;
    }
}

#[test]
fn every_selected_file_comes_once_in_order() {
    let mut rng = Rng::new("followed");
    let (mut files, mut calls, mut left_out) = (0, 0, 0);
    for round in 0..2000 {
        let order = ORDERS[round % 4];
        let count = match rng.below(8) {
            0 => rng.below(4),
            1 => rng.between(60, 150),
            _ => rng.between(4, 40),
        };
        let (table, pool) = good_table(&mut rng, count as usize, order);
        let asked = match rng.below(4) {
            0 => EnumInput::all(2),
            _ => EnumInput {
                lowest: 2,
                size: 32,
                ..input(&mut rng, &table)
            },
        };
        let selected = asked.selected(&table);
        let (given, made) = followed(&mut rng, &table, &pool, &asked, &selected);
        assert_eq!(given, selected.len(), "{order:?} {asked:?}");
        assert!(made <= selected.len() + 1);
        files += selected.len();
        calls += made;
        left_out += table.len() - selected.len();
    }
    println!("followed: {files} files in {calls} calls, {left_out} left out");
    assert!(files > 15_000 && calls > 5_000 && left_out > 5_000);
}

/// Files with the longest names: a room of 600 bytes has one of them in version 3,
/// and every call brings one, so that there is a call for each, and one at the end.
#[test]
fn a_call_for_each_file_and_one_at_the_end() {
    let pool = [0x61; 510];
    for count in [0, 1, 2, 30] {
        let table: Vec<Entry> = (0..count)
            .map(|number| entry(3 * number as u128, 8, 0, 510))
            .collect();
        for version in [2, 3] {
            let (mut start, mut calls) = (0, 0);
            loop {
                let input = EnumInput {
                    start,
                    ..EnumInput::all(version)
                };
                let given = enumerate(&table, &pool, &input, 600);
                calls += 1;
                if calls > count {
                    assert_eq!(given, refused(EndOfFile));
                    break;
                }
                let next = if calls == count { start + 1 } else { start + 3 };
                let record = record(version, &table[calls - 1], &pool);
                assert_eq!(given, gave([&next.to_le_bytes()[..], &record].concat()));
                start = next;
            }
            assert_eq!(calls, count + 1);
        }
    }
}

// ---- A small table, whose names have 0, 2, 6, 4 and 2 bytes, and its reply.

const POOL: &[u8] = b"a\0b\0c\0d\0";

fn small() -> [Entry; 5] {
    [
        entry(3, 8, 8, 0),
        entry(7, 0x1050, 0, 2),
        entry(9, NEGATIVE - 1, 2, 6),
        entry(TOP - 1, 80, 4, 4),
        entry(1 << 64 | 8, 16, 0, 2),
    ]
}

#[test]
fn all_orders_give_the_same_reply() {
    let mut orders = 0;
    each_order(small(), &mut |table| {
        orders += 1;
        for version in [2, 3] {
            let all = EnumInput::all(version);
            let due = due(&small(), POOL, &all, 600);
            assert_eq!(due.1[..8], [0xFF; 8]);
            assert_eq!(walk_reply(&due.1).expect("a whole reply").count, 4);
            assert_eq!(enumerate(table, POOL, &all, 600), due, "{table:?}");
            let bytes = rows(table);
            assert_eq!(enumerate_rows(&bytes, POOL, &all, 600), due, "{table:?}");
        }
    });
    assert_eq!(orders, 120);
}

/// Every room from none to more than enough: as many files as fit, and the id of the
/// first that does not. With the last byte all have come.
#[test]
fn rooms_byte_by_byte() {
    for table in [small(), [4, 2, 0, 3, 1].map(|place| small()[place])] {
        for version in [2, 3] {
            for start in [0, 3, 4, 8, 10] {
                let input = EnumInput {
                    start,
                    ..EnumInput::all(version)
                };
                let whole = due(&table, POOL, &input, 700).1.len();
                for room in 0..=700 {
                    let due = match room {
                        ..8 => refused(BufferTooSmall),
                        _ => due(&table, POOL, &input, room),
                    };
                    assert_eq!(enumerate(&table, POOL, &input, room), due, "{start} {room}");
                    let next = due.1.first_chunk().map(|next| u64::from_le_bytes(*next));
                    assert_eq!(next == Some(u64::MAX), room >= whole, "{start} {room}");
                }
            }
        }
    }
}

/// An output as long as the whole reply of many files, and one that is a byte short.
#[test]
fn the_last_byte_of_a_long_reply() {
    let mut rng = Rng::new("long reply");
    for order in ORDERS {
        let (table, pool) = good_table(&mut rng, 300, order);
        for version in [2, 3] {
            let all = EnumInput::all(version);
            let selected = all.selected(&table);
            let last = selected.last().expect("a file");
            let whole = due(&table, &pool, &all, 1 << 20);
            let length = whole.1.len();
            let behind = FileId::new(last.id.number() + 1);
            assert_eq!(whole.1[..8], behind.bytes[..8]);
            assert_eq!(enumerate(&table, &pool, &all, length), whole);
            let short = enumerate(&table, &pool, &all, length - 1);
            assert_eq!(short, due(&table, &pool, &all, length - 1));
            assert_eq!(short.1[..8], last.id.bytes[..8]);
            let rest = length - record(version, last, &pool).len();
            assert_eq!(short.1[8..], whole.1[8..rest]);
        }
    }
}

/// Reads the records of a reply as text too.
#[test]
fn replies_are_walked_and_listed() {
    for version in [2, 3] {
        let reply = enumerate(&small(), POOL, &EnumInput::all(version), 600).1;
        let walk = walk_reply(&reply).expect("a whole reply");
        assert_eq!((walk.position, walk.count), (u64::MAX, 4));
        let room = 64 + 2 * reply.len();
        let mut output = vec![0xCC; room + GUARD];
        let answer = list_reply(&reply, &mut output[..room]);
        let text = "next -1\n8 00000000 -\n4176 00000000 6100\n\
                    9223372036854775807 00000000 620063006400\n80 00000000 63006400\nrecords 4\n";
        assert_eq!(given(output, answer), gave(text.into()));
    }
}

// ---- Inputs.

/// Below 24 bytes an input is refused, below 32 it asks for version 2, and from there
/// on for what it says, whatever is behind.
#[test]
fn inputs_of_every_size() {
    for (lowest, highest) in [(2, 2), (2, 3), (3, 3), (3, 2), (4, 9)] {
        for size in 0..=40 {
            let input = EnumInput {
                lowest,
                highest,
                size,
                ..EnumInput::all(3)
            };
            let due = match input.version() {
                _ if size < 24 => refused(InvalidParameter),
                None => refused(InvalidParameter),
                Some(_) => due(&small(), POOL, &input, 600),
            };
            assert_eq!(enumerate(&small(), POOL, &input, 600), due, "{input:?}");
        }
    }
}

#[test]
fn versions() {
    let numbers = [
        0,
        1,
        2,
        3,
        4,
        5,
        0x100,
        0x102,
        0x103,
        0x200,
        0x300,
        u16::MAX,
    ];
    let mut tried = [0; 3];
    for lowest in numbers {
        for highest in numbers {
            let input = EnumInput {
                lowest,
                highest,
                ..EnumInput::all(3)
            };
            let version = version_from(lowest, highest);
            let due = match version {
                None => refused(InvalidParameter),
                Some(_) => due(&small(), POOL, &input, 600),
            };
            tried[version.map_or(0, |version| version as usize - 1)] += 1;
            assert_eq!(enumerate(&small(), POOL, &input, 600), due, "{input:?}");
        }
    }
    // Version 2 for 0 to 2 up to 2, version 3 for 0 to 3 up to 3 or more.
    assert_eq!(tried, [144 - 3 - 36, 3, 36]);
}

/// Both ends of the Usns are in, and signed: -1 is below 0. A lowest one above the
/// highest selects nothing.
#[test]
fn usns_from_low_to_high() {
    let top = i64::MAX;
    let ends = [
        i64::MIN,
        i64::MIN + 1,
        -1,
        0,
        7,
        8,
        9,
        79,
        80,
        81,
        0x104F,
        0x1050,
        0x1051,
        top - 1,
        top,
    ];
    let mut counts = [0; 5];
    for low in ends {
        for high in ends {
            let input = EnumInput {
                low,
                high,
                ..EnumInput::all(2)
            };
            // The Usns of the narrow files, by rising id.
            let usns = [8, 0x1050, top, 80];
            let count = usns.iter().filter(|usn| low <= **usn && **usn <= high);
            counts[count.clone().count()] += 1;
            let given = enumerate(&small(), POOL, &input, 600);
            assert_eq!(given, due(&small(), POOL, &input, 600), "{low} {high}");
            let walked = walk_reply(&given.1).map_or(0, |walk| walk.count);
            assert_eq!(walked, count.count(), "{low} {high}");
        }
    }
    assert_eq!(counts.iter().sum::<u64>(), 225);
    assert!(counts.iter().all(|count| *count > 4), "{counts:?}");
}

/// A start is in, and is no signed number.
#[test]
fn starts() {
    let top = u64::MAX;
    let starts = [
        0,
        2,
        3,
        4,
        6,
        7,
        8,
        9,
        10,
        NEGATIVE - 1,
        NEGATIVE,
        top - 2,
        top - 1,
        top,
    ];
    for start in starts {
        for version in [2, 3] {
            let input = EnumInput {
                start,
                ..EnumInput::all(version)
            };
            let ids = [3, 7, 9, top - 1].into_iter().filter(|id| *id >= start);
            let given = enumerate(&small(), POOL, &input, 600);
            assert_eq!(given, due(&small(), POOL, &input, 600), "{start}");
            let walked = walk_reply(&given.1).map_or(0, |walk| walk.count);
            assert_eq!(walked, ids.count(), "{start}");
        }
    }
}

// ---- Rows.

/// A table with a row at each place, among those of rising and of falling ids, some
/// of which are asked for. The row is asked for by some inputs and not by others.
fn with_row(row: Entry, judge: &mut impl FnMut(&[Entry], &EnumInput)) {
    let mut others = [entry(10, 8, 0, 2), entry(20, 16, 2, 2), entry(30, 8, 4, 2)];
    let usns = [(0, i64::MAX), (16, 16), (-1, -1)];
    for _ in 0..2 {
        for place in 0..=others.len() {
            let mut table = others.to_vec();
            table.insert(place, row);
            for (low, high) in usns {
                for start in [0, 11, 31] {
                    let input = EnumInput {
                        start,
                        low,
                        high,
                        ..EnumInput::all(3)
                    };
                    judge(&table, &input);
                }
            }
        }
        others.reverse();
    }
}

/// Judges a row in every such table, over a pool.
fn judge_row(row: Entry, good: bool, pool: &[u8]) {
    with_row(row, &mut |table, input| {
        let due = match good {
            true => due(table, pool, input, 700),
            false => refused(FileCorruptError),
        };
        assert_eq!(enumerate(table, pool, input, 700), due, "{row:?} {input:?}");
    });
}

/// Ids at the ends of 64 and of 128 bits. Only one of them is refused.
#[test]
fn ids_at_the_ends() {
    for (id, good) in [
        (0, true),
        (1, true),
        ((1 << 63) - 1, true),
        (1 << 63, true),
        (TOP - 1, true),
        (TOP, false),
        (TOP + 1, true),
        (TOP + 2, true),
        (1 << 127, true),
        (TOP | 1 << 64, true),
        (TOP | 1 << 127, true),
        (TOP << 64, true),
        (u128::MAX - 1, true),
        (u128::MAX, true),
    ] {
        judge_row(entry(id, 16, 0, 2), good, POOL);
    }
    // As a parent's, any number is right, and a wide one leaves the file out.
    for parent in [0, TOP - 1, TOP, TOP + 1, u128::MAX] {
        let row = Entry {
            parent: FileId::new(parent),
            ..entry(15, 16, 0, 2)
        };
        judge_row(row, true, POOL);
        let given = enumerate(&[row], POOL, &EnumInput::all(3), 600);
        let status = if parent > TOP { EndOfFile } else { Success };
        assert_eq!(given.0.status, status, "{parent:x}");
    }
}

/// One of the upper eight bytes of a file's id or its parent's leaves it out.
#[test]
fn wide_ids_and_parents_are_left_out() {
    for byte in 0..16 {
        for value in [1, 0x80, 0xFF] {
            let mut wide = entry(15, 16, 0, 2);
            wide.id.bytes[byte] = value;
            let mut parent = entry(15, 16, 0, 2);
            parent.parent.bytes[byte] = value;
            for row in [wide, parent] {
                judge_row(row, true, POOL);
                for version in [2, 3] {
                    let given = enumerate(&[row], POOL, &EnumInput::all(version), 600);
                    let status = if byte < 8 { Success } else { EndOfFile };
                    assert_eq!(given.0.status, status, "{row:?}");
                }
            }
        }
    }
}

#[test]
fn usns_of_rows() {
    for (usn, good) in [
        (0, true),
        (NEGATIVE - 1, true),
        (NEGATIVE, false),
        (NEGATIVE + 16, false),
        (u64::MAX, false),
    ] {
        for id in [15, 1 << 64] {
            judge_row(entry(id, usn, 0, 2), good, POOL);
        }
    }
}

/// Where a name may lie, and how long it may be. An empty one lies inside the pool
/// too, at its end at the farthest.
#[test]
fn names_in_the_pool() {
    let pool = common::name(&mut Rng::fixed(), 600);
    for (place, length, good) in [
        (0, 0, true),
        (599, 0, true),
        (600, 0, true),
        (601, 0, false),
        (602, 0, false),
        (1 << 32, 0, false),
        (NEGATIVE, 0, false),
        (u64::MAX, 0, false),
        (0, 2, true),
        (597, 2, true),
        (598, 2, true),
        (599, 2, false),
        (600, 2, false),
        (0, 508, true),
        (0, 510, true),
        (90, 510, true),
        (91, 510, false),
        (92, 510, false),
        (0, 511, false),
        (0, 512, false),
        (0, 514, false),
        (0, 600, false),
        (0, 1, false),
        (0, 3, false),
        (0, 509, false),
        (0, 0x0001_0002, false),
        (0, 0x8000_0000, false),
        (0, 0x8000_0002, false),
        (0, u32::MAX, false),
        (0, u32::MAX - 1, false),
        (1 << 32, 2, false),
        (NEGATIVE, 2, false),
        (u64::MAX, 2, false),
        (u64::MAX - 1, 2, false),
        (u64::MAX - 3, 2, false),
        (u64::MAX - 509, 510, false),
        (u64::MAX - 507, 510, false),
        (u64::MAX - 600, 510, false),
    ] {
        judge_row(entry(15, 16, place, length), good, &pool);
        judge_row(entry(1 << 64, 16, place, length), good, &pool);
    }
    // No pool at all.
    for (place, length, good) in [(0, 0, true), (1, 0, false), (0, 2, false)] {
        let given = enumerate(
            &[entry(15, 16, place, length)],
            &[],
            &EnumInput::all(2),
            600,
        );
        let status = if good { Success } else { FileCorruptError };
        assert_eq!(given.0.status, status, "{place} {length}");
    }
}

/// A unit that no name may hold, at each place of a name, refuses the call.
#[test]
fn units_of_names() {
    for length in [2, 8, 10, 30, 510] {
        let pool = common::name(&mut Rng::fixed(), 520);
        let row = entry(15, 16, 6, length as u32);
        judge_row(row, true, &pool);
        for place in (0..length).step_by(2) {
            for unit in EXCLUDED {
                let mut bad = pool.clone();
                common::plant(&mut bad, 6 + place, unit);
                let given = enumerate(&[row], &bad, &EnumInput::all(2), 600);
                assert_eq!(given, refused(FileCorruptError), "{unit:#x} at {place}");
            }
        }
        // Right before the name and right behind it such a unit is nobody's.
        let mut beside = pool.clone();
        common::plant(&mut beside, 4, 0x5C);
        common::plant(&mut beside, 6 + length, 0x5C);
        let due = due(&[row], &beside, &EnumInput::all(2), 600);
        assert_eq!(enumerate(&[row], &beside, &EnumInput::all(2), 600), due);
    }
}

// ---- Ids that stand twice.

/// Tables of so many rows with different ids, of which each second one is wide where
/// that is asked for: by rising id, by falling id, and from three rows on in another order.
fn distinct(count: usize, wide: bool) -> [Vec<Entry>; 3] {
    let id = |number: usize| match wide && number % 2 == 1 {
        true => (10 + number as u128) | 7 << 64,
        false => 10 + number as u128,
    };
    let mut rising: Vec<Entry> = (0..count)
        .map(|number| entry(id(number), 8, 0, 2))
        .collect();
    rising.sort_by_key(|file| file.id.number());
    let falling: Vec<Entry> = rising.iter().rev().copied().collect();
    let mut mixed = rising.clone();
    mixed.rotate_left(count / 2);
    mixed.swap(0, count - 1);
    [rising, falling, mixed]
}

/// What a call is to give where two rows have got these ids.
fn judge_twice(table: &[Entry], same: bool) {
    let all = EnumInput::all(2);
    let due = match same {
        true => refused(FileCorruptError),
        false => due(table, POOL, &all, 1000),
    };
    assert_eq!(enumerate(table, POOL, &all, 1000), due, "{table:?}");
}

/// Every two places of small tables, with an id that stands there already, one of its
/// own, and wide ones; and two ids that share one half, which are different.
#[test]
fn an_id_twice_at_every_two_places() {
    let mut tried = 0;
    for count in 2..=9 {
        for before in [distinct(count, false), distinct(count, true)].concat() {
            judge_twice(&before, false);
            for one in 0..count {
                for other in (0..count).filter(|other| *other != one) {
                    for id in [
                        before[one].id.number(),
                        1,
                        1 << 64 | 1,
                        TOP << 64,
                        u128::MAX,
                    ] {
                        let mut table = before.clone();
                        table[one].id = FileId::new(id);
                        table[other].id = FileId::new(id);
                        judge_twice(&table, true);
                        // The same lower half, then the same upper half.
                        table[other].id = FileId::new(id ^ 1 << 64);
                        judge_twice(&table, false);
                        table[other].id = FileId::new(id ^ 1 << 127);
                        judge_twice(&table, false);
                        table[other].id = FileId::new(id ^ 1 << 62);
                        judge_twice(&table, false);
                        tried += 1;
                    }
                }
            }
        }
    }
    // The sum of n * (n - 1) for n from 2 to 9 is 240.
    assert_eq!(tried, 6 * 5 * 240);
}

/// Every distance in a table of 200 rows, at its front, at its end and between.
#[test]
fn an_id_twice_at_every_distance() {
    const COUNT: usize = 200;
    for before in distinct(COUNT, true) {
        for distance in 1..COUNT {
            let places = COUNT - distance;
            for one in [0, places / 3, places - 1] {
                let mut table = before.clone();
                table[one + distance].id = table[one].id;
                judge_twice(&table, true);
                let mut table = before.clone();
                table[one].id = table[one + distance].id;
                judge_twice(&table, true);
            }
        }
    }
}

/// Two rows are exchanged at every two places: the reply is that of the rising table.
#[test]
fn one_pair_exchanged() {
    let [rising, ..] = distinct(16, true);
    let all = EnumInput::all(3);
    let due = due(&rising, POOL, &all, 2000);
    for one in 0..16 {
        for other in 0..one {
            let mut table = rising.clone();
            table.swap(one, other);
            assert_eq!(enumerate(&table, POOL, &all, 2000), due, "{one} {other}");
        }
    }
}

// ---- Tables as bytes.

/// Any number of bytes up to those of four rows. All that are not whole rows are
/// refused, and none of them is a table of no files.
#[test]
fn bytes_that_are_not_whole_rows() {
    let bytes = rows(&small());
    for length in 0..=4 * ROW {
        for input in [EnumInput::all(2), EnumInput::all(3)] {
            let due = match length % ROW {
                0 => due(&small()[..length / ROW], POOL, &input, 600),
                _ => refused(FileCorruptError),
            };
            let given = enumerate_rows(&bytes[..length], POOL, &input, 600);
            assert_eq!(given, due, "{length}");
        }
    }
    assert_eq!(
        enumerate(&[], POOL, &EnumInput::all(2), 600),
        refused(EndOfFile)
    );
}

/// Rows and names may begin anywhere in memory.
#[test]
fn tables_at_every_place() {
    let all = EnumInput::all(3);
    let due = due(&small(), POOL, &all, 600);
    for before in 0..32 {
        let bytes = [&vec![0xFF; before], &rows(&small())[..], &[0xFF; GUARD]].concat();
        let rows = &bytes[before..bytes.len() - GUARD];
        let pool = [&vec![0; before], POOL, &[0; GUARD]].concat();
        let pool = &pool[before..before + POOL.len()];
        assert_eq!(enumerate_rows(rows, pool, &all, 600), due, "{before}");
    }
}

// ---- The order of the checks.

/// What is wrong with a call, in the order of the checks.
const FAULTS: [Status; 7] = [
    InvalidDeviceRequest, // no support
    FileCorruptError,     // a bad row
    InvalidParameter,     // a short input
    InvalidParameter,     // versions
    BufferTooSmall,       // below 8 bytes
    EndOfFile,            // nothing is selected
    BufferTooSmall,       // no room for the first file
];

/// The names' pool, with a slash at its end.
const SLASHED: &[u8] = b"a\0b\0c\0d\0/\0";

/// Makes a call with these faults, one bit each.
fn faulty(faults: u32, bad: &[u8], room: usize) -> Given {
    let has = |fault: u32| faults >> fault & 1 == 1;
    let volume = Volume {
        journal: u32::from(!has(0)),
        ..supporting()
    };
    let table = if has(1) { bad } else { &rows(&small()) };
    let input = EnumInput {
        low: if has(5) { 9 } else { 8 },
        high: 9,
        lowest: if has(3) { 3 } else { 2 },
        size: if has(2) { 23 } else { 32 },
        ..EnumInput::all(2)
    };
    let input = input.bytes(&mut Rng::fixed());
    let mut output = vec![0xCC; room + GUARD];
    let answer = volume.enumerate_rows(table, SLASHED, &input, &mut output[..room]);
    given(output, answer)
}

/// Tables of which each has something bad.
fn bad_tables() -> Vec<Vec<u8>> {
    let bad = [
        entry(15, 8, 0, 3),
        entry(15, 8, 0, 512),
        entry(15, 8, 8, 2),
        entry(15, 8, 8, 4),
        entry(15, 8, 11, 0),
        entry(15, 8, u64::MAX - 1, 2),
        entry(15, NEGATIVE, 0, 2),
        entry(TOP, 8, 0, 2),
        entry(3, 8, 0, 2),
        entry(1 << 64 | 8, 8, 0, 2),
        entry(1 << 65, NEGATIVE, 0, 2),
    ];
    let good = rows(&small());
    let mut tables = vec![good[1..].to_vec(), [&good[..], &[0]].concat()];
    for row in bad {
        tables.push(rows(&[&small()[..], &[row]].concat()));
        tables.push(rows(&[&[row], &small()[..]].concat()));
    }
    tables
}

/// Every set of faults, with every kind of bad table: the first fault is told. That has
/// every two checks of which both can apply.
#[test]
fn the_first_fault_is_told() {
    let first_file = record(2, &small()[0], SLASHED);
    let reply = gave([&4u64.to_le_bytes()[..], &first_file].concat());
    let (bad, mut both) = (bad_tables(), [[0; 7]; 7]);
    for faults in 0u32..1 << FAULTS.len() {
        // A short input has no versions.
        if faults & 0b1100 == 0b1100 {
            continue;
        }
        let rooms = match faults >> 4 & 0b101 {
            0b000 => [72, 600],
            0b100 => [8, 71],
            _ => [0, 7],
        };
        let first = faults.trailing_zeros() as usize;
        let due = match FAULTS.get(first) {
            Some(status) => refused(*status),
            None => reply.clone(),
        };
        for bad in &bad {
            for room in rooms {
                let given = faulty(faults, bad, room);
                assert_eq!(given, due, "{faults:#b} {room} {bad:x?}");
            }
        }
        if let Some(others) = both.get_mut(first) {
            let behind = others.iter_mut().enumerate().skip(first + 1);
            behind.for_each(|(other, count)| *count += faults >> other & 1);
        }
    }
    for (one, others) in both.iter().enumerate() {
        for (other, count) in others.iter().enumerate() {
            let can = one < other && (one, other) != (2, 3);
            assert_eq!(*count > 0, can, "{one} {other}");
        }
    }
}

/// The flag for the journal is asked, and no other; nor does the journal's state, or
/// anything else in the volume record, matter.
#[test]
fn only_the_journals_flag_matters() {
    let mut rng = Rng::new("volume");
    let all = EnumInput::all(3);
    let due = due(&small(), POOL, &all, 600);
    for round in 0..2000 {
        let volume = Volume {
            journal: if round % 2 == 0 { 0 } else { rng.yes() },
            state: rng.pick(&[0, 1, 2, 3, u32::MAX]),
            ..volume(&mut rng)
        };
        let mut output = vec![0xCC; 600];
        let input = all.bytes(&mut rng);
        let answer = volume.enumerate_files(&small(), POOL, &input, &mut output);
        let due = match round % 2 {
            0 => refused(InvalidDeviceRequest),
            _ => due.clone(),
        };
        assert_eq!(given(output, answer), due, "{volume:?}");
    }
}
