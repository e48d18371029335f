//! The record reader, the walker and the lister on good, damaged and random
//! replies, of which some are those of an enumeration: the library against the model.

mod common;

use common::table::{enumerate, EnumInput};
use common::{change_of, check, expected, lay_out, record_length, Counts, Hex, Lent, Rng};
use lanhduxe::{list_reply, read_record, walk_reply, Change, Entry, FileId, Record, Status};

const CALLS: u64 = 100_000;

/// A name for a record of a reply; it may be empty.
fn name(rng: &mut Rng) -> Vec<u8> {
    let length = match rng.below(8) {
        0 => 0,
        1 => rng.pick(&[508, 510]),
        2 => 2 * rng.between(0, 255) as usize,
        _ => 2 * rng.between(0, 12) as usize,
    };
    common::name(rng, length)
}

/// A change that a version can show.
fn change(rng: &mut Rng, version: u16) -> Change {
    match version {
        2 => common::change(rng),
        _ => common::any_change(rng, 40),
    }
}

/// The reply of an enumeration, and where each of its records begins.
fn reply_of_files(rng: &mut Rng) -> (Vec<u8>, Vec<usize>) {
    let version = rng.pick(&[2, 3]);
    let (mut table, mut pool) = (Vec::new(), Vec::new());
    let (mut places, mut end) = (Vec::new(), 8);
    let first = rng.pick(&[0, 41, u64::MAX - 8]);
    for number in 0..rng.between(1, 8) {
        let name = name(rng);
        table.push(Entry {
            id: FileId::from(first + number),
            parent: common::narrow_id(rng),
            usn: rng.long() >> 1,
            attributes: rng.word(),
            name_length: name.len() as u32,
            name_place: pool.len() as u64,
        });
        places.push(end);
        end += record_length(version, name.len());
        pool.extend(name);
    }
    let (answer, reply) = enumerate(&table, &pool, &EnumInput::all(version), end);
    assert_eq!((answer.status, answer.count), (Status::Success, end));
    (reply, places)
}

/// A good reply, and where each of its records begins.
fn good_reply(rng: &mut Rng) -> (Vec<u8>, Vec<usize>) {
    if rng.percent(20) {
        return reply_of_files(rng);
    }
    let mut reply = rng.long().to_le_bytes().to_vec();
    let mut places = Vec::new();
    for _ in 0..rng.pick(&[0, 1, 1, 2, 3, 4, 8]) {
        places.push(reply.len());
        let version = rng.pick(&[2, 3]);
        let usn = rng.long() >> 1;
        let change = change(rng, version);
        let name = name(rng);
        reply.extend(lay_out(version, &change, usn, &name));
    }
    (reply, places)
}

/// Damages one field of the record at a place, or one of its bytes.
fn damage_record(rng: &mut Rng, bytes: &mut [u8], at: usize) {
    let Some(rest) = bytes.get_mut(at..) else {
        return;
    };
    if rest.len() < 60 {
        return;
    }
    let three = rest[4] == 3;
    let put = |rest: &mut [u8], place: usize, value: &[u8]| {
        if let Some(field) = rest.get_mut(place..place + value.len()) {
            field.copy_from_slice(value);
        }
    };
    let length = u32::from_le_bytes([rest[0], rest[1], rest[2], rest[3]]);
    let fixed = if three { 76 } else { 60 };
    match rng.below(15) {
        // The length: one step up or down, one off, none, huge.
        0 => {
            let lengths = [
                length.wrapping_add(8),
                length.wrapping_sub(8),
                length.wrapping_add(1),
                0,
                8,
                u32::MAX,
                0x8000_0000,
            ];
            let length = rng.pick(&lengths);
            put(rest, 0, &length.to_le_bytes());
        }
        // The version and the minor version.
        1 => put(
            rest,
            4,
            &rng.pick(&[0u16, 1, 2, 3, 4, 0x102, 0x103]).to_le_bytes(),
        ),
        2 => put(rest, 6, &rng.pick(&[1u16, 0x100, u16::MAX]).to_le_bytes()),
        // The upper id bytes, which may be any (other fields in version 2).
        3 => put(rest, 16 + rng.below(8) as usize, &[rng.draw() as u8]),
        4 => put(rest, 32 + rng.below(8) as usize, &[rng.draw() as u8]),
        // The Usn: negative, or the highest.
        5 => {
            let usn = rng.pick(&[u64::MAX, 1 << 63, (1 << 63) - 1, 0]);
            put(rest, if three { 40 } else { 24 }, &usn.to_le_bytes());
        }
        // Attributes 0; reason 0, which the reader accepts.
        6 => put(rest, fixed - 8, &[0; 4]),
        7 => put(rest, fixed - 20, &[0; 4]),
        // The name's length and offset.
        8 => {
            let old = u16::from_le_bytes([rest[fixed - 4], rest[fixed - 3]]);
            let lengths = [
                old ^ 1,
                old.wrapping_add(2),
                old.wrapping_sub(2),
                old.wrapping_add(8),
                0,
                510,
                512,
                u16::MAX,
            ];
            let length = rng.pick(&lengths);
            put(rest, fixed - 4, &length.to_le_bytes());
        }
        9 => put(
            rest,
            fixed - 2,
            &rng.pick(&[0u16, 58, 60, 62, 76, 78, 316, 332])
                .to_le_bytes(),
        ),
        // The last bytes: padding or name.
        10 => {
            let back = rng.between(1, 8) as usize;
            put(
                rest,
                (length as usize).saturating_sub(back),
                &[1 << rng.below(8)],
            );
        }
        // A shorter name, with zeroes behind it, in a record as long as before.
        11 => {
            let old = u16::from_le_bytes([rest[fixed - 4], rest[fixed - 3]]) as usize;
            let name = old.saturating_sub(rng.pick(&[2, 4, 6, 8, 8, 8]));
            let zeroes = record_length(if three { 3 } else { 2 }, old) - fixed - name;
            put(rest, fixed + name, &vec![0; zeroes]);
            put(rest, fixed - 4, &(name as u16).to_le_bytes());
        }
        // A unit of the name.
        12 => {
            let name = u16::from_le_bytes([rest[fixed - 4], rest[fixed - 3]]) as usize;
            if let Some(name) = rest.get_mut(fixed..fixed + name) {
                common::plant_some(rng, name);
            }
        }
        // A single bit anywhere in the fixed fields, or anywhere at all.
        13 => rest[rng.below(60) as usize] ^= 1 << rng.below(8),
        _ => {
            let place = rng.below(rest.len() as u64) as usize;
            rest[place] ^= 1 << rng.below(8);
        }
    }
}

/// A reply: good, damaged, cut, lengthened or of random bytes, with the places
/// where its records began.
fn reply(rng: &mut Rng) -> (Vec<u8>, Vec<usize>) {
    let (mut reply, places) = good_reply(rng);
    match rng.below(10) {
        0..=2 => {}
        3..=6 if !places.is_empty() => {
            let at = rng.pick(&places);
            damage_record(rng, &mut reply, at);
        }
        7 => {
            let cut = match rng.below(3) {
                0 => rng.below(9),
                1 => reply.len() as u64 - rng.between(1, 8),
                _ => rng.below(reply.len() as u64),
            };
            reply.truncate(cut as usize);
        }
        8 => {
            let more = rng.between(1, 80) as usize;
            let zeroes = rng.percent(50);
            let tail = if zeroes {
                vec![0; more]
            } else {
                rng.bytes(more)
            };
            reply.extend(tail);
        }
        9 => {
            let length = rng.below(200) as usize;
            reply = rng.bytes(length);
        }
        _ => {}
    }
    (reply, places)
}

/// The library's and the model's records are the same, field by field.
fn same_record(library: &Option<Record>, model: &Option<model::Record>) -> bool {
    match (library, model) {
        (None, None) => true,
        (Some(library), Some(model)) => {
            library.version == model.version
                && library.file.number() == model.file
                && library.parent.number() == model.parent
                && library.usn == model.usn
                && library.time == model.time
                && library.reason == model.reason
                && library.source == model.source
                && library.security == model.security
                && library.attributes == model.attributes
                && library.name == (model.name..model.name + model.length)
                && library.next == model.next
        }
        _ => false,
    }
}

/// The bytes of a record that was read, laid out again from its fields.
fn again(record: &Record, bytes: &[u8]) -> Vec<u8> {
    let version = record.version as u16;
    let name = &bytes[record.name.clone()];
    lay_out(version, &change_of(record), record.usn, name)
}

#[test]
fn the_record_reader_agrees_with_the_model() {
    const TEST: &str = "record reader";
    let mut rng = Rng::new(TEST);
    let mut counts = Counts::new(TEST);
    for index in 0..CALLS {
        let (bytes, places) = reply(&mut rng);
        let at = match rng.below(20) {
            0 => rng.between(0, bytes.len() as u64 + 2) as usize,
            1 => bytes.len(),
            2 => bytes.len() + 1,
            3 => rng.pick(&[
                usize::MAX,
                usize::MAX - 7,
                usize::MAX - 75,
                1 << 63,
                1 << 32,
            ]),
            4 => 8,
            _ if !places.is_empty() => rng.pick(&places),
            _ => 0,
        };
        let lent = Lent::holding(&mut rng, &bytes);
        let library = read_record(&lent.library[..lent.length], at);
        let model = model::read_record(&bytes, at);
        // A record that is accepted is laid out again to the same bytes.
        let whole = library.as_ref().is_none_or(|record| {
            record.next <= bytes.len() && again(record, &bytes) == bytes[at..record.next]
        });
        counts.add(match library {
            Some(_) => Status::Success,
            None => Status::InvalidParameter,
        });
        check(
            same_record(&library, &model) && whole && lent.same(),
            TEST,
            index,
            || {
                format!(
                    "library {library:?}, model {model:?}\nat {at} in {:?}",
                    Hex(&bytes)
                )
            },
        );
    }
    counts.finish(&expected::RECORD, 50_000);
}

#[test]
fn a_record_laid_out_is_read_back_to_the_same_fields() {
    let mut rng = Rng::new("round trip");
    for _ in 0..20_000 {
        let version = rng.pick(&[2u16, 3]);
        let usn = rng.long() >> 1;
        let change = change(&mut rng, version);
        let name = name(&mut rng);
        let before = rng.below(100) as usize;
        let mut bytes = rng.bytes(before);
        bytes.extend(lay_out(version, &change, usn, &name));
        let next = bytes.len();
        let after = rng.below(20) as usize;
        bytes.extend(rng.bytes(after));
        let start = before + if version == 2 { 60 } else { 76 };
        let expected = Record {
            version: version as u32,
            file: change.file,
            parent: change.parent,
            usn,
            time: change.time,
            reason: change.reason,
            source: change.source,
            security: change.security,
            attributes: if change.attributes == 0 {
                0x80
            } else {
                change.attributes
            },
            name: start..start + name.len(),
            next,
        };
        assert_eq!(next, before + record_length(version, name.len()));
        assert_eq!(read_record(&bytes, before), Some(expected));
        assert_eq!(read_record(&bytes[..next], before).unwrap().next, next);
        assert_eq!(read_record(&bytes[..next - 1], before), None);
    }
}

#[test]
fn the_walker_agrees_with_the_model() {
    const TEST: &str = "walker";
    let mut rng = Rng::new(TEST);
    let mut counts = Counts::new(TEST);
    for index in 0..CALLS {
        let (bytes, _) = reply(&mut rng);
        let lent = Lent::holding(&mut rng, &bytes);
        let library = walk_reply(&lent.library[..lent.length]);
        let model = model::walk_reply(&bytes);
        counts.add(match library {
            Ok(_) => Status::Success,
            Err(_) => Status::InvalidParameter,
        });
        check(
            library.map(|walk| (walk.position, walk.count)) == model && lent.same(),
            TEST,
            index,
            || {
                format!(
                    "library {library:?}, model {model:?}\nreply {:?}",
                    Hex(&bytes)
                )
            },
        );
    }
    counts.finish(&expected::RECORD, 50_000);
}

#[test]
fn the_walker_has_no_length_limit() {
    let mut rng = Rng::new("long walk");
    let mut bytes = vec![0; 8];
    let mut count = 0;
    while bytes.len() < 200_000 {
        let version = rng.pick(&[2, 3]);
        let change = change(&mut rng, version);
        let name = name(&mut rng);
        bytes.extend(lay_out(version, &change, 8, &name));
        count += 1;
    }
    let walk = walk_reply(&bytes).expect("a whole reply");
    assert_eq!((walk.position, walk.count), (0, count));
    assert_eq!(model::walk_reply(&bytes), Ok((0, count)));
    bytes.push(0);
    assert_eq!(walk_reply(&bytes), Err(bytes.len() - 1));
}

#[test]
fn the_lister_agrees_with_the_model() {
    const TEST: &str = "lister";
    let mut rng = Rng::new(TEST);
    let mut counts = Counts::new(TEST);
    for index in 0..CALLS {
        let (mut bytes, _) = reply(&mut rng);
        if index % 256 == 0 {
            // A long reply, on both sides of the limit of 65,536 bytes.
            bytes = rng.long().to_le_bytes().to_vec();
            let goal = 65_536 + 8 * rng.pick(&[0, 0, 1]) - rng.pick(&[0, 0, 8]);
            while bytes.len() < goal {
                let rest = goal - bytes.len();
                let length = match rest {
                    1200.. => 510,
                    _ if rest >= 128 => 2 * rng.between(0, 2) as usize,
                    _ => rest - 60,
                };
                let change = common::change(&mut rng);
                let name = common::any_name(&mut rng, length, 1000);
                bytes.extend(lay_out(2, &change, rng.draw() >> 1, &name));
            }
            assert_eq!(bytes.len(), goal);
            bytes.extend(vec![0; rng.pick(&[0, 0, 0, 1, 9])]);
        }
        let limit = 64 + 2 * bytes.len() as u64;
        let room = match rng.below(10) {
            0 => limit - 1,
            1 => rng.below(limit),
            2 => limit + rng.below(50),
            3 => rng.around(limit),
            _ => limit,
        };
        let lent = Lent::holding(&mut rng, &bytes);
        let mut output = Lent::output(&mut rng, room as usize);
        let answer = list_reply(&lent.library[..lent.length], output.for_library());
        let (status, count) = model::list_reply(&bytes, output.for_model());
        counts.add(answer.status);
        check(
            answer.status.number() == status
                && answer.count == count
                && output.agrees(count)
                && lent.same(),
            TEST,
            index,
            || {
                format!(
                    "library {answer:?} {:?}\nmodel {status:#x} {count} {:?}\n\
                     reply {:?}\noutput before {:?} (lent {room})",
                    String::from_utf8_lossy(&output.library[..answer.count]),
                    String::from_utf8_lossy(&output.model[..count]),
                    Hex(&bytes),
                    Hex(&output.before)
                )
            },
        );
    }
    counts.finish(&expected::LISTER, 50_000);
}
