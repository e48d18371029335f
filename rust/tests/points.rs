//! Setting and deleting a file's reparse point: the library against the model on
//! random calls; and against what is due, said here and not by the model, for
//! every tag that is given where another stands, around every size, and for every
//! way in which a post may end.

mod common;

use common::journal::{Journal, CAPACITY};
use common::points::{damage, data_length, file, header_length, header_of, is_microsoft};
use common::points::{lay_out_point, most_data, tag_and_guid};
use common::points::{Arguments, Kind, KINDS, LONGEST, REASON, STORE};
use common::{check, expected, lay_out, model_file, model_volume, record_length};
use common::{Counts, Hex, Lent, Rng, CHANGE, GUARD, NEGATIVE};
use lanhduxe::Status::{self, *};
use lanhduxe::{Answer, Change, FileRecord, Volume};
use std::collections::BTreeMap;

// ---- Random calls.

const CALLS: u64 = 150_000;

/// A journal as posts left it: with room, full, or where few positions are left.
fn posted_to(rng: &mut Rng) -> (Volume, Vec<u8>) {
    let capacity = rng.pick(&[1024, 1032, 1104, 2048, 4096]);
    let last = match rng.below(6) {
        0 => NEGATIVE - 8 * rng.between(1, 90),
        _ => common::last_usn(rng),
    };
    let mut volume = Volume {
        journal: 1,
        last,
        capacity,
        ..Volume::default()
    };
    let mut ring = rng.bytes(capacity as usize);
    assert_eq!(volume.create(7), Success);
    for _ in 0..rng.below(capacity / 40) {
        let change = common::any_change(rng, 20);
        let length = common::name_length(rng, 0);
        let name = common::name(rng, length);
        // Where no position is left, it is refused.
        volume.post(&mut ring, &change, &name, &mut 0);
    }
    (volume, ring)
}

/// Damages the ring, its length or the volume record.
fn damage_journal(rng: &mut Rng, volume: &mut Volume, ring: &mut Vec<u8>) {
    let Volume { first, last, .. } = *volume;
    match rng.below(6) {
        0 => ring.resize(rng.pick(&[0, ring.len() - 8, ring.len() + 8]), 0),
        1 => volume.capacity = rng.pick(&[0, 1016, 1028, 65_544, NEGATIVE]),
        2 => volume.first = rng.pick(&[first + 8, last + 8, 4, u64::MAX]),
        3 => volume.last = rng.pick(&[last - last.min(8), last + 8, NEGATIVE, u64::MAX]),
        _ if first == last => volume.last = last | 4,
        _ => {
            let place = rng.between(first, last - 1) % volume.capacity;
            ring[place as usize] ^= 1 << rng.below(8);
        }
    }
}

/// How long a store is: mostly just long enough, seldom too short.
fn store_length(rng: &mut Rng) -> usize {
    match rng.below(40) {
        0 => STORE - 1,
        1 => rng.below(STORE as u64) as usize,
        2..=4 => STORE + 1,
        5..=6 => STORE + rng.below(300) as usize,
        _ => STORE,
    }
}

/// The input of a call on a file: mostly a good one.
fn input(rng: &mut Rng, kind: Kind, file: &FileRecord) -> Vec<u8> {
    let (tag, guid) = tag_and_guid(rng, file);
    let length = match kind {
        Kind::Delete if rng.percent(95) => 0,
        _ => data_length(rng, tag),
    };
    let mut input = lay_out_point(tag, &guid, &rng.bytes(length));
    if rng.percent(12) {
        damage(rng, &mut input);
    }
    input
}

/// How a call ended that came to its post, or what FILE_CORRUPT_ERROR was for. It
/// found the one volume record, and left the other.
fn ending(status: Status, good_file: bool, found: &Volume, left: &Volume) -> Option<&'static str> {
    match status {
        Success if left.first != found.first => Some("posted, with records dropped"),
        Success if left.last != found.last => Some("posted"),
        Success if found.journal == 0 => Some("skipped, no support"),
        Success if found.state == 2 => Some("skipped, deleting"),
        Success => Some("skipped, idle"),
        FileCorruptError if good_file => Some("ring not sound"),
        FileCorruptError => Some("bad file record"),
        _ => None,
    }
}

/// How many endings there are.
const ENDINGS: usize = 7;

/// Random calls of one kind, on files of which some out of a hundred have no point.
fn agree_with_the_model(test: &'static str, kind: Kind, none: u64, expected: &[Status]) {
    let mut rng = Rng::new(test);
    let mut counts = Counts::new(test);
    let mut endings = BTreeMap::new();
    let journals: Vec<_> = (0..200).map(|_| posted_to(&mut rng)).collect();
    for index in 0..CALLS {
        let (volume, mut ring) = journals[rng.below(200) as usize].clone();
        let mut volume = Volume {
            usn: rng.word(),
            regions: rng.word(),
            reparse: rng.flag(3),
            points: rng.flag(3),
            journal: rng.flag(6),
            ..volume
        };
        if rng.percent(12) {
            volume.state = rng.pick(&[0, 2, 2, 3, 0x100, u32::MAX]);
        }
        if rng.percent(8) {
            damage_journal(&mut rng, &mut volume, &mut ring);
        }
        let mut file = file(&mut rng, none);
        let change = common::any_change(&mut rng, 20);
        let length = common::name_length(&mut rng, 15);
        let name = common::any_name(&mut rng, length, 20);
        let input = input(&mut rng, kind, &file);

        let length = store_length(&mut rng);
        let mut store = Lent::output(&mut rng, length);
        let mut ring = Lent::holding(&mut rng, &ring);
        let name = Lent::holding(&mut rng, &name);
        let input = Lent::holding(&mut rng, &input);
        let (found, file_found) = (volume, file);
        let (mut model, mut model_of_file) = (model_volume(&volume), model_file(&file));
        let status = kind.by_library(
            &mut volume,
            ring.for_library(),
            &mut file,
            store.for_library(),
            Arguments {
                change: &change,
                name: &name.library[..name.length],
                input: &input.library[..input.length],
            },
        );
        let model_status = kind.by_model(
            &mut model,
            ring.for_model(),
            &mut model_of_file,
            store.for_model(),
            Arguments {
                change: &change,
                name: &name.before[..name.length],
                input: &input.before[..input.length],
            },
        );
        // A delete writes nothing to the store, and a set only the data.
        let written = match (kind, status) {
            (Kind::Set, Success) => file.length as usize,
            _ => 0,
        };
        let unchanged = (volume, file) == (found, file_found) && ring.same() && store.same();
        counts.add(status);
        let good_file = length >= STORE && file_found.length <= most_data(file_found.tag) as u64;
        if let Some(ending) = ending(status, good_file, &found, &volume) {
            *endings.entry(ending).or_insert(0) += 1;
        }
        check(
            status.number() == model_status
                && model_volume(&volume) == model
                && model_file(&file) == model_of_file
                && ring.agrees(ring.length)
                && store.agrees(written)
                && name.same()
                && input.same()
                && (status == Success || unchanged),
            test,
            index,
            || {
                format!(
                    "{kind:?}: library {status}, model {model_status:#x}\n\
                     found {found:?}\nlibrary's {volume:?}\nmodel's {model:?}\n\
                     found {file_found:?}\nlibrary's {file:?}\nmodel's {model_of_file:?}\n\
                     {change:?}\nname {:?}\ninput {:?}\nring {:?} (lent {})\nlibrary's {:?}\n\
                     model's {:?}\nstore of {}: changed {}, as the model's {}",
                    Hex(&name.before[..name.length]),
                    Hex(&input.before[..input.length]),
                    Hex(&ring.before),
                    ring.length,
                    Hex(&ring.library),
                    Hex(&ring.model),
                    store.length,
                    !store.same(),
                    store.library == store.model
                )
            },
        );
    }
    println!("{test}: {endings:?}");
    assert!(endings.len() == ENDINGS && endings.values().all(|count| *count > 500));
    counts.finish_often(expected, CALLS, 500);
}

#[test]
fn sets_agree_with_the_model() {
    agree_with_the_model("set", Kind::Set, 30, &expected::SET);
}

#[test]
fn deletes_agree_with_the_model() {
    agree_with_the_model("delete point", Kind::Delete, 8, &expected::DELETE);
}

// ---- What is due, said here.

/// What a call is lent and may change. Guard bytes are behind the ring and behind
/// the store.
#[derive(Clone, Debug, PartialEq, Eq)]
struct Scene {
    journal: Journal,
    file: FileRecord,
    store: Vec<u8>,
    ring_lent: usize,
    store_lent: usize,
}

/// The name of every post here.
const NAME: &[u8] = b"a\0";

/// Two points, of which the second has a GUID.
const TAGS: [u32; 2] = [0xA000_000C, 0x2000_000C];

/// A GUID with sixteen different bytes.
const GUID: [u8; 16] = [1, 2, 3, 4, 5, 6, 7, 8, 9, 10, 11, 12, 13, 14, 15, 16];

/// Some data.
fn data(length: usize) -> Vec<u8> {
    (0..=250).cycle().take(length).collect()
}

impl Scene {
    /// An empty journal at a position, and a file without a point. What is said of
    /// other things than the point is bad, or of no concern.
    fn new(last: u64) -> Scene {
        let mut journal = Journal::new(last);
        (journal.volume.reparse, journal.volume.points) = (1, 1);
        Scene {
            journal,
            file: FileRecord {
                id: CHANGE.file,
                usn: u64::MAX,
                eof: 1,
                valid: 2,
                guid: [0xA6; 16],
                ..FileRecord::default()
            },
            store: vec![0xD7; STORE + GUARD],
            ring_lent: CAPACITY,
            store_lent: STORE,
        }
    }

    /// The same without support of a journal, so that posts are skipped.
    fn without_journal() -> Scene {
        let mut scene = Scene::new(0);
        scene.journal.volume.journal = 0;
        scene
    }

    /// The same with a point.
    fn with(mut self, tag: u32, guid: [u8; 16], length: u64) -> Scene {
        (self.file.tag, self.file.guid, self.file.length) = (tag, guid, length);
        self
    }

    /// Makes a call that posts a name. A refusal changes nothing.
    fn post(&mut self, kind: Kind, change: &Change, name: &[u8], input: &[u8]) -> Status {
        let before = self.clone();
        let given = Arguments {
            change,
            name,
            input,
        };
        let status = kind.by_library(
            &mut self.journal.volume,
            &mut self.journal.ring[..self.ring_lent],
            &mut self.file,
            &mut self.store[..self.store_lent],
            given,
        );
        if status != Success {
            assert!(*self == before, "{kind:?} with {status} has changed");
        }
        status
    }

    /// Makes a call.
    fn call(&mut self, kind: Kind, input: &[u8]) -> Status {
        self.post(kind, &CHANGE, NAME, input)
    }

    /// What a call that succeeds leaves of the file and its store, but for the Usn.
    fn change_point(&mut self, kind: Kind, input: &[u8]) {
        let file = &mut self.file;
        match kind {
            Kind::Delete => (file.tag, file.guid, file.length) = (0, [0; 16], 0),
            Kind::Set => {
                let mut tag = [0; 4];
                tag.copy_from_slice(&input[..4]);
                file.tag = u32::from_le_bytes(tag);
                file.guid.fill(0);
                if !is_microsoft(file.tag) {
                    file.guid.copy_from_slice(&input[8..24]);
                }
                let data = &input[header_length(file.tag)..];
                file.length = data.len() as u64;
                self.store[..data.len()].copy_from_slice(data);
            }
        }
    }

    /// Gets the point into an output of so many bytes. Behind what is given the
    /// output is as it was.
    fn get(&self, output: &mut [u8], room: usize) -> Answer {
        output.fill(0xCC);
        let store = &self.store[..self.store_lent];
        let lent = &mut output[..room];
        let answer = self
            .journal
            .volume
            .get_reparse_point(&self.file, store, lent);
        assert!(output[answer.count..].iter().all(|byte| *byte == 0xCC));
        answer
    }
}

/// A tag and a GUID, given or standing.
type Marked = (u32, [u8; 16]);

/// A file without a point or with one of five, by row, and the statuses of a set of
/// tag 0 and of the same five, by column: two of Microsoft's, one that is not with
/// a GUID and with another, and one more that is not.
const SETS: [[Status; 6]; 6] = {
    const OK: Status = Success;
    const ZERO: Status = IoReparseTagInvalid;
    const TAG: Status = IoReparseTagMismatch;
    const ID: Status = ReparseAttributeConflict;
    [
        [ZERO, OK, OK, OK, OK, OK],
        [ZERO, OK, TAG, TAG, TAG, TAG],
        [ZERO, TAG, OK, TAG, TAG, TAG],
        [ZERO, TAG, TAG, OK, ID, TAG],
        [ZERO, TAG, TAG, ID, OK, TAG],
        [ZERO, TAG, TAG, TAG, TAG, OK],
    ]
};

/// Calls of both kinds for all pairs of one file's points and another's.
fn try_pairs(cases: [Marked; 6]) -> u64 {
    let mut calls = 0;
    for ((tag, guid), statuses) in cases.into_iter().zip(SETS) {
        // The GUID beside a Microsoft tag does not matter.
        let scene = Scene::without_journal().with(tag, guid, u64::from(tag != 0));
        for ((given, given_guid), of_set) in cases.into_iter().zip(statuses) {
            for kind in KINDS {
                let data: &[u8] = if kind == Kind::Set { b"xyz" } else { b"" };
                let input = lay_out_point(given, &given_guid, data);
                let due = match (kind, of_set) {
                    (Kind::Delete, Success) if tag == 0 => NotAReparsePoint,
                    _ => of_set,
                };
                let (mut left, mut after) = (scene.clone(), scene.clone());
                let status = left.call(kind, &input);
                let call =
                    || format!("{kind:?} of {given:#x} {given_guid:?} over {tag:#x} {guid:?}");
                assert_eq!(status, due, "{}", call());
                if due == Success {
                    after.change_point(kind, &input);
                }
                assert!(left == after, "{}", call());
                calls += 1;
            }
        }
    }
    calls
}

#[test]
fn every_tag_is_given_where_every_other_stands() {
    let tags = [
        [0xA000_000C, 0xA000_0003, 0x2000_000C, 0x2000_0003],
        [0x8000_0000, 0xFFFF_FFFF, 1, 0x7FFF_FFFF],
        [0x8000_0001, 0x8000_0100, 1, 0x0001_0000],
    ];
    let mut calls = 0;
    for [one, two, three, four] in tags {
        // GUIDs that differ in one byte.
        for byte in 0..16 {
            let mut other = GUID;
            other[byte] ^= 0x80 >> (byte % 8);
            calls += try_pairs([
                (0, GUID),
                (one, GUID),
                (two, other),
                (three, GUID),
                (three, other),
                (four, GUID),
            ]);
        }
    }
    assert_eq!(calls, 3 * 16 * 72);
}

/// The status of a call on a file that has the input's point, or none for tag 0.
fn due_to(kind: Kind, input: &[u8], tag: u32) -> Status {
    let word = |at: usize| usize::from(u16::from_le_bytes([input[at], input[at + 1]]));
    let header = header_length(tag);
    let good = input.len() >= header
        && input.len() <= LONGEST
        && header + word(4) == input.len()
        && word(6) == 0;
    match kind {
        _ if !good => IoReparseDataInvalid,
        Kind::Delete if input.len() > header => IoReparseDataInvalid,
        _ if tag == 0 => IoReparseTagInvalid,
        _ => Success,
    }
}

/// Inputs of all sizes around those of a header and the longest, with all lengths
/// in them that are right for a header or nearly so.
#[test]
fn inputs_of_every_size() {
    let mut counts = Counts::new("sizes of inputs");
    for tag in [0, TAGS[0], TAGS[1], 0x8000_0000, 0x7FFF_FFFF] {
        let mut scene = Scene::without_journal().with(tag, GUID, 0);
        let before = scene.clone();
        for size in (0..=40).chain(16_370..=16_400).chain([65_543, 65_559]) {
            let mut input = lay_out_point(tag, &GUID, &data(65_536));
            input.truncate(size);
            let right = [8, 24].map(|header| size.wrapping_sub(header) as u16);
            for length in right.into_iter().flat_map(|it| [it, it ^ 1, it ^ 256]) {
                for reserved in [0, 1, 0x8000u16] {
                    let words = [length, reserved].map(u16::to_le_bytes).concat();
                    let there = size.clamp(4, 8) - 4;
                    input[size.min(4)..size.min(8)].copy_from_slice(&words[..there]);
                    for kind in KINDS {
                        let due = due_to(kind, &input, tag);
                        let status = scene.call(kind, &input);
                        counts.add(status);
                        assert_eq!(status, due, "{kind:?} {tag:#x}, {:?}", Hex(&input));
                        if due == Success {
                            let mut after = before.clone();
                            after.change_point(kind, &input);
                            assert!(scene == after, "{kind:?} {tag:#x}, {:?}", Hex(&input));
                            scene.clone_from(&before);
                        }
                    }
                }
            }
        }
    }
    let expected = [Success, IoReparseTagInvalid, IoReparseDataInvalid];
    counts.finish(&expected, 10_000);
}

/// A store below 16,376 bytes is a bad file record, for all three controls and
/// with or without a point. Bytes behind the data are never written.
#[test]
fn stores_of_other_lengths() {
    for length in [0, 1, 16_360, 16_375, 16_376, 16_377, 16_384, 20_000] {
        let good = length >= 16_376;
        let or_bad = |status| if good { status } else { FileCorruptError };
        for tag in [0, TAGS[0], TAGS[1]] {
            let mut scene = Scene::without_journal().with(tag, GUID, 0);
            scene.store.resize(length + GUARD, 0xD7);
            scene.store_lent = length;
            let found = if tag == 0 { NotAReparsePoint } else { Success };
            let got = scene.get(&mut [0; 64], 64).status;
            assert_eq!(got, or_bad(found), "get {length} {tag:#x}");
            let given = if tag == 0 { TAGS[0] } else { tag };
            let header = lay_out_point(given, &GUID, &[]);
            let status = scene.clone().call(Kind::Delete, &header);
            assert_eq!(status, or_bad(found), "delete {length} {tag:#x}");

            let input = lay_out_point(given, &GUID, &data(most_data(given)));
            let mut left = scene.clone();
            let status = left.call(Kind::Set, &input);
            assert_eq!(status, or_bad(Success), "set {length} {tag:#x}");
            if good {
                scene.change_point(Kind::Set, &input);
            }
            assert!(left == scene, "set {length} {tag:#x}");
        }
    }
}

/// A length that does not go with the tag is a bad file record, for all three
/// controls, and the most that does is none.
#[test]
fn lengths_in_the_file_record() {
    for (tag, most) in [(0, 0), (TAGS[0], 16_376), (TAGS[1], 16_360)] {
        let bad = [
            most + 1,
            most + 65_536,
            most + (1 << 32),
            NEGATIVE,
            u64::MAX,
        ];
        for (length, good) in [(most, true)].into_iter().chain(bad.map(|it| (it, false))) {
            let scene = Scene::without_journal().with(tag, GUID, length);
            let or_bad = |status| if good { status } else { FileCorruptError };
            let found = if tag == 0 { NotAReparsePoint } else { Success };
            let got = scene.get(&mut [0; 64], 64).status;
            assert_eq!(got, or_bad(found), "get {tag:#x} {length}");
            let given = if tag == 0 { TAGS[0] } else { tag };
            let header = lay_out_point(given, &GUID, &[]);
            for (kind, due) in [(Kind::Set, Success), (Kind::Delete, found)] {
                let status = scene.clone().call(kind, &header);
                assert_eq!(status, or_bad(due), "{kind:?} {tag:#x} {length}");
            }
        }
    }
}

/// After a set a get gives the input's bytes, as many as fit, and after a delete
/// nothing.
#[test]
fn get_gives_what_was_set() {
    let mut output = vec![0; LONGEST + 2 * GUARD];
    for tag in TAGS {
        let (header, most) = (header_length(tag), LONGEST - header_length(tag));
        let mut scene = Scene::new(0);
        for length in [0, 1, 2, 7, 8, 100, 255, 256, 4096, most - 1, most, 3, 0] {
            let input = lay_out_point(tag, &GUID, &data(length));
            assert_eq!(scene.call(Kind::Set, &input), Success);
            for room in 0..=input.len() + GUARD {
                let answer = scene.get(&mut output, room);
                let due = match room < header {
                    true => (BufferTooSmall, 0),
                    false => (Success, room.min(input.len())),
                };
                assert_eq!(
                    (answer.status, answer.count),
                    due,
                    "{tag:#x} {length} {room}"
                );
                assert!(output[..answer.count] == input[..answer.count]);
            }
        }
        let header = header_of(&scene.file);
        assert_eq!(scene.call(Kind::Delete, &header), Success);
        for room in [0, 8, 24, LONGEST] {
            let answer = scene.get(&mut output, room);
            assert_eq!((answer.status, answer.count), (NotAReparsePoint, 0));
        }
    }
}

/// Sets and deletes in turn post one record each, with their own reason whatever
/// the change has, and drop as few records as needed.
#[test]
fn each_call_posts_one_record() {
    let mut dropped = 0;
    for (tag, length) in [(TAGS[0], 2), (TAGS[1], 2), (TAGS[0], 302), (TAGS[1], 510)] {
        let name = b"a\0".repeat(length / 2);
        let record = record_length(3, length) as u64;
        let mut scene = Scene::new(4096);
        for number in 1..=40 {
            let kind = KINDS[(number as usize + 1) % 2];
            let input = match kind {
                Kind::Set => lay_out_point(tag, &GUID, &data(number as usize)),
                Kind::Delete => header_of(&scene.file),
            };
            let change = Change {
                time: number,
                reason: [0, 1, REASON, u32::MAX][number as usize % 4],
                ..CHANGE
            };
            let mut after = scene.clone();
            assert_eq!(scene.post(kind, &change, &name, &input), Success);

            after.change_point(kind, &input);
            let end = 4096 + number * record;
            let kept = number.min(CAPACITY as u64 / record);
            after.file.usn = end;
            after.journal.volume.first = end - kept * record;
            after.journal.volume.last = end;
            let posted = Change {
                reason: REASON,
                ..change
            };
            for (position, byte) in (end - record..).zip(lay_out(3, &posted, end, &name)) {
                after.journal.ring[position as usize % CAPACITY] = byte;
            }
            assert!(scene == after, "{kind:?} {number}, name of {length}");
        }
        dropped += (scene.journal.volume.first - 4096) / record;
    }
    // Of 40 records a ring of 1,024 bytes keeps 12 of 80 bytes, 2 of 384, 1 of 592.
    assert_eq!(dropped, 28 + 28 + 38 + 39);
}

/// For each of the two calls and the two layouts, what makes it: a scene, a call
/// that would succeed on it, and what it would leave but for a post.
fn ready(last: u64) -> impl Iterator<Item = (Kind, Scene, Vec<u8>, Scene)> {
    let all = KINDS
        .into_iter()
        .flat_map(|kind| TAGS.map(|tag| (kind, tag)));
    all.map(move |(kind, tag)| {
        let scene = Scene::new(last).with(tag, GUID, 16_360);
        let length = if kind == Kind::Set { 300 } else { 0 };
        let input = lay_out_point(tag, &GUID, &data(length));
        let mut after = scene.clone();
        after.change_point(kind, &input);
        (kind, scene, input, after)
    })
}

/// A post that is skipped is no refusal, and changes nothing: the ring and the name
/// are not judged then.
#[test]
fn a_skipped_post_is_success() {
    for (journal, state) in [
        (0, 0),
        (0, 1),
        (0, 2),
        (1, 0),
        (1, 2),
        (1, 3),
        (1, u32::MAX),
    ] {
        for (ring_lent, name) in [(CAPACITY, NAME), (8, NAME), (CAPACITY, b"/\0"), (0, b"")] {
            for (kind, mut scene, input, mut after) in ready(8) {
                for scene in [&mut scene, &mut after] {
                    let volume = &mut scene.journal.volume;
                    (volume.journal, volume.state) = (journal, state);
                    scene.ring_lent = ring_lent;
                }
                let status = scene.post(kind, &CHANGE, name, &input);
                assert_eq!(status, Success, "{kind:?} {journal} {state} {ring_lent}");
                assert!(scene == after, "{kind:?} {journal} {state} {ring_lent}");
            }
        }
    }
}

/// A post that is refused refuses the call, which changes nothing.
#[test]
fn a_refused_post_refuses_the_call() {
    let names: [&[u8]; 6] = [b"", b"a", b"\0\0", b"/\0", b"a\0\\\0", &[0x61; 512]];
    for (kind, scene, input, _) in ready(8) {
        let refused = |change: &dyn Fn(&mut Scene), name: &[u8]| {
            let mut scene = scene.clone();
            let posted = scene.journal.post(&CHANGE, NAME);
            assert_eq!(posted, (Success, 88));
            change(&mut scene);
            scene.post(kind, &CHANGE, name, &input)
        };
        assert_eq!(refused(&|_| {}, NAME), Success);
        let unsound: [&dyn Fn(&mut Scene); 5] = [
            &|scene| scene.ring_lent -= 8,
            &|scene| scene.journal.ring[8 + 76] = 0x2F,
            &|scene| scene.journal.volume.first = 16,
            &|scene| scene.journal.volume.last = 96,
            &|scene| scene.journal.volume.capacity = 1016,
        ];
        for damage in unsound {
            assert_eq!(refused(damage, NAME), FileCorruptError);
            assert_eq!(refused(damage, b""), FileCorruptError);
        }
        for name in names {
            assert_eq!(refused(&|_| {}, name), InvalidParameter, "{name:?}");
        }
    }
    // A record of 80 bytes ends at the last position, or one past it.
    for (last, due) in [(NEGATIVE - 88, Success), (NEGATIVE - 80, DiskFull)] {
        for (kind, mut scene, input, _) in ready(last) {
            assert_eq!(scene.post(kind, &CHANGE, b"", &input), InvalidParameter);
            assert_eq!(scene.call(kind, &input), due, "{kind:?} at {last}");
        }
    }
}

/// With every fault at once the first status is given, and each time that a fault
/// is mended the next one.
#[test]
fn the_first_fault_is_told() {
    for kind in KINDS {
        let mut scene = Scene::new(NEGATIVE - 8).with(0, [9; 16], 1);
        let volume = &mut scene.journal.volume;
        (volume.reparse, volume.points, volume.first) = (0, 0, 4);
        let zero: [u8; 24] = [0; 24];
        let point = lay_out_point(TAGS[1], &GUID, &[]);
        assert_eq!(scene.post(kind, &CHANGE, b"", &[]), InvalidDeviceRequest);
        scene.journal.volume.reparse = 1;
        assert_eq!(scene.post(kind, &CHANGE, b"", &[]), VolumeNotUpgraded);
        scene.journal.volume.points = 1;
        assert_eq!(scene.post(kind, &CHANGE, b"", &[]), FileCorruptError);
        scene.file.length = 0;
        assert_eq!(
            scene.post(kind, &CHANGE, b"", &zero[..8]),
            IoReparseDataInvalid
        );
        assert_eq!(scene.post(kind, &CHANGE, b"", &zero), IoReparseTagInvalid);
        if kind == Kind::Delete {
            assert_eq!(scene.post(kind, &CHANGE, b"", &point), NotAReparsePoint);
        }
        scene.file.tag = TAGS[0];
        assert_eq!(scene.post(kind, &CHANGE, b"", &point), IoReparseTagMismatch);
        scene.file.tag = TAGS[1];
        let conflict = scene.post(kind, &CHANGE, b"", &point);
        assert_eq!(conflict, ReparseAttributeConflict);
        scene.file.guid = GUID;
        assert_eq!(scene.post(kind, &CHANGE, b"", &point), FileCorruptError);
        scene.journal.volume.first = NEGATIVE - 8;
        assert_eq!(scene.post(kind, &CHANGE, b"", &point), InvalidParameter);
        assert_eq!(scene.call(kind, &point), DiskFull);
        let volume = &mut scene.journal.volume;
        (volume.first, volume.last) = (8, 8);
        assert_eq!(scene.call(kind, &point), Success);
        assert_eq!(scene.file.usn, 88);
    }
}
