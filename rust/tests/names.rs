//! Names with a code unit that no name may hold: 0, the slash or the backslash.
//! They are tried wherever names are judged, with such a unit at every place of a
//! name; and names that only look like them, which are good.
//!
//! What is due is said here, and not by the model.

mod common;

use common::images::usn_place;
use common::journal::{gave, given, idle, moved, refused, Given, Journal, CAPACITY};
use common::table::{due, entry, enumerate, path, EnumInput};
use common::{image, lay_out, other_form, plant, record_length, seal, version_of};
use common::{Rng, ALIKE, CHANGE, EXCLUDED, FORMS, GUARD, TRAILER};
use lanhduxe::Status::{self, *};
use lanhduxe::{list_reply, read_record, walk_reply};
use lanhduxe::{Change, FileId, FileRecord, Link, Volume};

/// Lengths of names: around every width in which units might be judged together.
/// A name of 92 bytes has 0x5C in the field before it, where its length stands.
const LENGTHS: [usize; 20] = [
    2, 4, 6, 8, 10, 14, 16, 18, 30, 32, 34, 62, 64, 66, 92, 126, 254, 256, 508, 510,
];

/// The units of names of all these lengths.
const PLACES: u64 = 1056;

/// A name of letters, whose units are good.
fn letters(length: usize) -> Vec<u8> {
    let units = (0x61..=0x7A).cycle().take(length / 2);
    units.flat_map(|letter| [letter, 0]).collect()
}

/// A name of two units in turn.
fn in_turn(one: u16, other: u16, length: usize) -> Vec<u8> {
    let units = [one, other].into_iter().cycle().take(length / 2);
    units.flat_map(u16::to_le_bytes).collect()
}

/// A name with a unit's bytes planted at a place.
fn planted(mut name: Vec<u8>, place: usize, unit: u16) -> Vec<u8> {
    plant(&mut name, place, unit);
    name
}

/// The places of a name's units.
fn places(length: usize) -> impl Iterator<Item = usize> {
    (0..length).step_by(2)
}

/// How many names there were of each kind.
#[derive(Debug, Default, PartialEq, Eq)]
struct Tried {
    good: u64,
    bad: u64,
}

/// Calls `judge` with names of every length, and whether they are good.
fn each_name(mut judge: impl FnMut(&[u8], bool)) -> Tried {
    let mut tried = Tried::default();
    let mut judge = |name: &[u8], good: bool| {
        judge(name, good);
        match good {
            true => tried.good += 1,
            false => tried.bad += 1,
        }
    };
    for length in LENGTHS {
        one_unit(length, &mut judge);
        two_units(length, &mut judge);
        odd_places(length, &mut judge);
        judge(&letters(length), true);
        for one in ALIKE {
            for other in ALIKE {
                judge(&in_turn(one, other, length), true);
            }
        }
    }
    tried
}

/// What `each_name` tries. Good: each of 18 units that look alike at each place, a
/// name of letters and 18 * 18 of such units for each of 20 lengths, and the bytes
/// of each of 3 excluded units at each odd place but the last one. Bad: each
/// excluded unit at each place in 6 kinds of names, and in 2 ways with another one.
const TRIED: Tried = Tried {
    good: 18 * PLACES + 20 + 18 * 18 * 20 + 3 * (PLACES - 20),
    bad: 3 * 6 * PLACES + 2 * 3 * (PLACES - 20),
};

/// One unit in a good name. Behind and before an excluded one there are letters,
/// or units that are next to an excluded one or share a byte with it.
fn one_unit(length: usize, judge: &mut impl FnMut(&[u8], bool)) {
    for place in places(length) {
        for unit in ALIKE {
            judge(&planted(letters(length), place, unit), true);
        }
        for unit in EXCLUDED {
            judge(&planted(letters(length), place, unit), false);
            for other in [0x0001, 0x5C5C, 0x2F00, 0x8000, 0xFFFF] {
                judge(&planted(in_turn(other, other, length), place, unit), false);
            }
        }
    }
}

/// Two excluded units: beside each other, and the second one at the name's end.
fn two_units(length: usize, judge: &mut impl FnMut(&[u8], bool)) {
    for place in places(length - 2) {
        for (number, unit) in EXCLUDED.into_iter().enumerate() {
            let one = planted(letters(length), place, unit);
            let other = EXCLUDED[(number + 1) % EXCLUDED.len()];
            judge(&planted(one.clone(), place + 2, other), false);
            judge(&planted(one, length - 2, other), false);
        }
    }
}

/// The bytes of an excluded unit at an odd place, where they belong to two units:
/// in 41 5C 00 42 no unit is 0x5C.
fn odd_places(length: usize, judge: &mut impl FnMut(&[u8], bool)) {
    let name = in_turn(0x4241, 0x4241, length);
    for place in places(length - 2) {
        for unit in EXCLUDED {
            judge(&planted(name.clone(), place + 1, unit), true);
        }
    }
}

/// Bytes that are lent in the midst of zeroes, which would be excluded units: a
/// call that judges more than it is lent refuses what is good. The number of those
/// before varies with the bytes, which are so aligned in every way.
struct Amid {
    all: Vec<u8>,
    before: usize,
}

impl Amid {
    fn new(bytes: &[u8]) -> Amid {
        let before = bytes.iter().map(|byte| usize::from(*byte)).sum::<usize>() % 16;
        let all = [&vec![0; before], bytes, &[0; GUARD]].concat();
        Amid { all, before }
    }

    fn bytes(&self) -> &[u8] {
        &self.all[self.before..self.all.len() - GUARD]
    }
}

// ---- A journal, and every call that asks whether its ring is sound.

/// Room for whatever a journal here has.
const ROOM: usize = 2000;

impl Journal {
    /// Posts a name that has to be accepted.
    fn add(&mut self, name: &[u8]) {
        let end = self.volume.last + record_length(3, name.len()) as u64;
        assert_eq!(self.post(&CHANGE, name), (Success, end), "{name:x?}");
        assert_eq!(self.volume.last, end);
    }

    /// Writes bytes from a position on.
    fn put(&mut self, position: u64, bytes: &[u8]) {
        for (position, byte) in (position..).zip(bytes) {
            self.ring[position as usize % CAPACITY] = *byte;
        }
    }

    /// Posts, reads and saves a journal whose ring is not sound. Each is refused
    /// and changes nothing.
    fn is_refused(&mut self, what: &impl Fn() -> String) {
        let before = self.clone();
        let corrupt = refused(FileCorruptError);
        let posted = self.post(&CHANGE, b"a\0");
        assert_eq!(posted, (FileCorruptError, 3), "{}", what());
        assert!(*self == before, "a refused post changed: {}", what());
        assert_eq!(self.read(0, !0, 3, ROOM), corrupt, "{}", what());
        for form in FORMS {
            assert_eq!(self.save(form, ROOM), corrupt, "{}", what());
        }
    }

    /// Reads and saves a journal that keeps records with these names, then posts
    /// to it.
    fn is_accepted(&self, names: &[&[u8]], what: &impl Fn() -> String) {
        let Volume { first, last, .. } = self.volume;
        for version in [2, 3] {
            let records = laid_out(version, first, names);
            let reply = [&last.to_le_bytes()[..], &records].concat();
            assert_eq!(self.read(0, !0, version, ROOM), gave(reply), "{}", what());
        }
        for form in FORMS {
            let records = laid_out(version_of(form), first, names);
            let saved = image(form, &records, first, self.volume.id);
            assert_eq!(self.save(form, ROOM), gave(saved), "{}", what());
        }
        let posted = self.clone().post(&CHANGE, b"a\0");
        assert_eq!(posted, (Success, last + 80), "{}", what());
    }
}

/// Records with these names, back to back, from a position on.
fn laid_out(version: u16, first: u64, names: &[&[u8]]) -> Vec<u8> {
    let mut bytes = Vec::new();
    let mut usn = first;
    for name in names {
        usn += record_length(3, name.len()) as u64;
        bytes.extend(lay_out(version, &CHANGE, usn, name));
    }
    bytes
}

// ---- Posts.

#[test]
fn names_are_judged_by_a_post() {
    let mut before = Journal::new(4096);
    before.add(b"a\0");
    let tried = each_name(|name, good| {
        let lent = Amid::new(name);
        let mut journal = before.clone();
        let answer = journal.post(&CHANGE, lent.bytes());
        assert!(lent.bytes() == name);
        if !good {
            assert_eq!(answer, (InvalidParameter, 3), "{name:x?}");
            assert!(journal == before, "{name:x?}");
            return;
        }
        let mut after = before.clone();
        let end = 4176 + record_length(3, name.len()) as u64;
        after.volume.last = end;
        after.put(4176, &lay_out(3, &CHANGE, end, name));
        assert_eq!(answer, (Success, end), "{name:x?}");
        assert!(journal == after, "{name:x?}");
    });
    assert_eq!(tried, TRIED);
}

/// A name is judged behind what skips a post and behind the ring's soundness, and
/// ahead of the limit of the positions.
#[test]
fn a_post_gives_its_first_status() {
    let mut one = Journal::new(4096);
    one.add(b"a\0");
    let with = |journal, state, first| {
        let mut changed = one.clone();
        changed.volume = Volume {
            journal,
            state,
            first,
            ..one.volume
        };
        changed
    };
    let journals = [
        (with(0, 1, 4096), Success), // no support, not active, being deleted
        (with(1, 0, 4096), Success),
        (with(1, 2, 4096), Success),
        (with(1, 1, 4104), FileCorruptError),
        (with(1, 1, 4096), InvalidParameter),
        (Journal::new((1 << 63) - 8), InvalidParameter),
    ];
    for name in [&b"\0\0"[..], b"a\0/\0", b"\\\0a\0"] {
        for (before, status) in &journals {
            let mut journal = before.clone();
            assert_eq!(journal.post(&CHANGE, name), (*status, 3));
            let without_reason = Change {
                reason: 0,
                ..CHANGE
            };
            assert_eq!(journal.post(&without_reason, name), (Success, 3));
            assert!(journal == *before);
        }
    }
    assert_eq!(
        Journal::new((1 << 63) - 8).post(&CHANGE, b"a\0"),
        (DiskFull, 3)
    );
}

/// A name of a wrong length is refused whatever its units are.
#[test]
fn lengths_are_judged_as_before() {
    let mut journal = Journal::new(4096);
    let before = journal.clone();
    for length in [0, 1, 3, 509, 511, 512, 514, 65_538] {
        for byte in [0x61, 0x00] {
            let answer = journal.post(&CHANGE, &vec![byte; length]);
            assert_eq!(answer, (InvalidParameter, 3), "{length} of {byte:x}");
        }
    }
    assert!(journal == before);
}

// ---- Records and replies.

#[test]
fn names_are_judged_by_the_record_reader() {
    let tried = each_name(|name, good| {
        for version in [2, 3] {
            let record = lay_out(version, &CHANGE, 80, name);
            let lent = Amid::new(&record);
            let read = read_record(&lent.all, lent.before);
            assert_eq!(read.is_some(), good, "version {version}: {name:x?}");
            if let Some(read) = read {
                assert_eq!(lent.all[read.name], *name);
                assert_eq!(read.next, lent.before + record.len());
            }
        }
    });
    assert_eq!(tried, TRIED);
}

/// The walker and the lister name the record with such a name as the bad one.
#[test]
fn names_are_judged_in_a_reply() {
    let tried = each_name(|name, good| {
        for version in [2, 3] {
            let mut reply = laid_out(version, 0, &[b"a\0", name, b"b\0"]);
            reply.splice(0..0, 80u64.to_le_bytes());
            let bad = 8 + record_length(version, 2);
            let walked = walk_reply(&reply).map(|walk| (walk.position, walk.count));
            let due = if good { Ok((80, 3)) } else { Err(bad) };
            assert_eq!(walked, due, "version {version}: {name:x?}");

            let room = 64 + 2 * reply.len();
            let mut output = vec![0xCC; room + GUARD];
            let answer = list_reply(&reply, &mut output[..room]);
            let text = given(output, answer).1;
            assert_eq!(answer.status, Success);
            match good {
                true => assert!(text.ends_with(b"records 3\n"), "{name:x?}"),
                false => assert_eq!(text, format!("bad at {bad}\n").into_bytes(), "{name:x?}"),
            }
        }
    });
    assert_eq!(tried, TRIED);
}

// ---- Links.

/// A link without a short name.
fn link(place: usize, length: usize) -> Link {
    Link {
        place: place as u32,
        length: length as u32,
        short: 0,
    }
}

fn with_short(link: Link) -> Link {
    Link { short: 24, ..link }
}

/// The parent in every file read.
const PARENT: FileId = FileId::new(5);

/// Reads a file's record in version 2, without an input.
fn read_file(pool: &[u8], links: &[Link]) -> Given {
    let mut output = vec![0xCC; 600 + GUARD];
    let file = FileRecord::default();
    let answer = idle(0).read_file(&file, PARENT, pool, links, &[], &mut output[..600]);
    given(output, answer)
}

/// The record of a file with this name.
fn file_record(name: &[u8]) -> Given {
    let change = Change {
        parent: PARENT,
        ..Change::default()
    };
    let record = lay_out(2, &change, 0, name);
    gave(record)
}

/// A table is judged whole: a link's name is refused though another is chosen.
#[test]
fn names_are_judged_in_a_link_table() {
    let corrupt = refused(FileCorruptError);
    let tried = each_name(|name, good| {
        // The name is amid zeroes, and a good one is behind it.
        let lent = Amid::new(name);
        let pool = [&lent.all[..], b"x\0"].concat();
        let it = link(lent.before, name.len());
        let x = link(pool.len() - 2, 2);
        let empty = link(0, 0);
        let chosen = [
            vec![it],
            vec![empty, it],
            vec![it, x],
            vec![x, with_short(it)],
            vec![with_short(it), with_short(x)],
        ];
        let not_chosen = [
            vec![x, it],
            vec![it, with_short(x)],
            vec![with_short(x), it],
            vec![empty, with_short(x), with_short(it)],
        ];
        for (tables, taken) in [(&chosen[..], name), (&not_chosen, b"x\0")] {
            for links in tables {
                let due = match good {
                    true => file_record(taken),
                    false => corrupt.clone(),
                };
                assert_eq!(read_file(&pool, links), due, "{name:x?} {links:?}");
            }
        }
    });
    assert_eq!(tried, TRIED);
}

/// An empty name has no unit, wherever in the pool it stands; and units of the
/// pool that are in no link's name are nobody's.
#[test]
fn only_the_units_of_names_are_judged_in_a_pool() {
    let pool = *b"\0\0a\0/\0\\\0";
    for place in 0..=8 {
        let (empty, a) = (link(place, 0), link(2, 2));
        assert_eq!(read_file(&pool, &[empty]), file_record(b""));
        assert_eq!(read_file(&pool, &[empty, a]), file_record(b"a\0"));
        assert_eq!(read_file(&pool, &[a, with_short(empty)]), file_record(b""));
    }
    // A name may begin at an odd place, where the same bytes are other units.
    assert_eq!(read_file(&pool, &[link(1, 6)]), file_record(b"\0a\0/\0\\"));
    for bad in [link(0, 2), link(4, 2), link(6, 2), link(2, 4), link(0, 8)] {
        let corrupt = refused(FileCorruptError);
        assert_eq!(read_file(&pool, &[bad]), corrupt, "{bad:?}");
    }
}

/// The link table is judged behind the support, and ahead of versions and output.
#[test]
fn a_file_read_gives_its_first_status() {
    let links = [link(0, 2)];
    let read = |volume: Volume, input: &[u8]| {
        let file = FileRecord::default();
        let answer = volume.read_file(&file, PARENT, b"/\0", &links, input, &mut []);
        given(Vec::new(), answer)
    };
    let unsupported = Volume { usn: 0, ..idle(0) };
    assert_eq!(
        read(unsupported, &[3, 0, 2, 0]),
        refused(InvalidDeviceRequest)
    );
    assert_eq!(read(idle(0), &[3, 0, 2, 0]), refused(FileCorruptError));
    assert_eq!(read(idle(0), &[]), refused(FileCorruptError));
}

// ---- Tables of files.

/// Every row is judged: a name is refused though its file is not selected, and whatever
/// the order of the rows is.
#[test]
fn names_are_judged_in_a_table() {
    let corrupt = refused(FileCorruptError);
    let selecting = EnumInput::all(3);
    let not_selecting = EnumInput {
        start: 2,
        ..EnumInput::all(2)
    };
    let tried = each_name(|name, good| {
        // The name is amid zeroes, and a good one is behind it.
        let lent = Amid::new(name);
        let pool = [&lent.all[..], b"x\0"].concat();
        let it = entry(1, 8, lent.before as u64, name.len() as u32);
        let x = entry(2, 8, pool.len() as u64 - 2, 2);
        let empty = entry(3, 8, 0, 0);
        for table in [&[it][..], &[it, x, empty], &[x, it, empty], &[empty, x, it]] {
            for input in [&selecting, &not_selecting] {
                let due = match good {
                    true => due(table, &pool, input, 1000),
                    false => corrupt.clone(),
                };
                let given = enumerate(table, &pool, input, 1000);
                assert_eq!(given, due, "{name:x?} {table:?}");
            }
        }
    });
    assert_eq!(tried, TRIED);
}

/// Units of the pool that are in no row's name are nobody's, and a name may begin at an
/// odd place.
#[test]
fn only_the_units_of_names_are_judged_in_a_tables_pool() {
    let pool = *b"\0\0a\0/\0\\\0";
    let all = EnumInput::all(2);
    for place in 0..=8 {
        let table = [entry(1, 8, place, 0), entry(2, 8, 2, 2), entry(3, 8, 1, 6)];
        let given = enumerate(&table, &pool, &all, 600);
        assert_eq!(given, due(&table, &pool, &all, 600), "{place}");
        assert_eq!(given.0.status, Success);
    }
    for (place, length) in [(0, 2), (4, 2), (6, 2), (2, 4), (0, 8)] {
        let table = [entry(1, 8, 2, 2), entry(2, 8, place, length)];
        let given = enumerate(&table, &pool, &all, 600);
        assert_eq!(given, refused(FileCorruptError), "{place} {length}");
    }
}

// ---- Images.

/// Loads into an idle journal.
fn load(image: &[u8], id: u64) -> (Status, Journal) {
    let mut journal = Journal::idle(16);
    (journal.load(image, id), journal)
}

#[test]
fn names_are_judged_in_an_image() {
    let tried = each_name(|name, good| {
        // The name is that of the oldest record, the next one or the newest.
        let mut names = [&b"a\0"[..]; 3];
        names[name.len() / 2 % 3] = name;
        let in_form = |form| image(form, &laid_out(version_of(form), 4096, &names), 4096, 7);
        let kept = laid_out(3, 4096, &names);
        for form in FORMS {
            let bytes = in_form(form);
            let lent = Amid::new(&bytes);
            let (status, loaded) = load(lent.bytes(), 8);
            let other = moved(lent.bytes(), form, ROOM);
            if !good {
                assert_eq!(status, FileCorruptError, "{name:x?}");
                assert_eq!(other, refused(FileCorruptError), "{name:x?}");
                continue;
            }
            assert_eq!(status, Success, "{name:x?}");
            assert_eq!(loaded.volume.last, 4096 + kept.len() as u64);
            assert!(loaded.ring[..kept.len()] == kept, "{name:x?}");
            assert_eq!(other, gave(in_form(other_form(form))), "{name:x?}");
        }
    });
    assert_eq!(tried, TRIED);
}

/// The image of a journal is changed in one unit, and its sum put right.
#[test]
fn names_are_judged_in_a_saved_image() {
    for length in LENGTHS {
        let mut journal = Journal::new(4096 + 800);
        journal.add(b"a\0");
        journal.add(&letters(length));
        for form in FORMS {
            let (answer, saved) = journal.save(form, ROOM);
            assert_eq!(answer.status, Success);
            assert_eq!(load(&saved, 8).0, Success);
            let before = record_length(version_of(form), 2) + usn_place(form) + 36;
            for place in places(length) {
                let bad = EXCLUDED.map(|unit| (unit, FileCorruptError));
                let good = [0x5C00, 0x005D, 0x0001, 0xFFFF].map(|unit| (unit, Success));
                for (unit, status) in bad.into_iter().chain(good) {
                    let mut changed = planted(saved.clone(), before + place, unit);
                    seal(&mut changed);
                    assert_eq!(load(&changed, 8).0, status, "{unit:#x} at {place}");
                    let other = moved(&changed, form, ROOM).0.status;
                    assert_eq!(other, status, "{unit:#x} at {place}");
                }
            }
        }
    }
}

/// The image is judged behind its form, and ahead of the id and the room.
#[test]
fn a_load_and_a_move_give_their_first_status() {
    let long = letters(510);
    let names = [b"a\0/\0", &long[..], &long];
    for form in FORMS {
        let mut bytes = image(form, &laid_out(version_of(form), 4096, &names), 4096, 7);
        let slash = usn_place(form) + 38;
        assert_eq!(load(&bytes, 7).0, FileCorruptError);
        assert_eq!(load(&bytes, 8).0, FileCorruptError);
        assert_eq!(moved(&bytes, form, 0), refused(FileCorruptError));
        plant(&mut bytes, slash, 0x2F2F);
        seal(&mut bytes);
        assert_eq!(load(&bytes, 7).0, InvalidParameter);
        assert_eq!(load(&bytes, 8).0, DiskFull);
        assert_eq!(moved(&bytes, form, 0), refused(BufferTooSmall));
        plant(&mut bytes, slash, 0x002F);
        seal(&mut bytes);
        let number = bytes.len() - TRAILER + 28;
        bytes[number] = 3;
        assert_eq!(load(&bytes, 7).0, UnknownRevision);
        assert_eq!(moved(&bytes, form, 0), refused(UnknownRevision));
    }
}

// ---- Kept records.

/// The journal of a record with a name of letters, in which the ring's end falls
/// `cut` bytes behind the record's beginning; 0 for a record that begins at the
/// ring's front. There may be a short record before it and one behind it.
struct Cut {
    journal: Journal,
    before: bool,
    behind: bool,
    /// The position of the name.
    name: u64,
    length: usize,
    cut: usize,
}

impl Cut {
    fn new(length: usize, cut: usize) -> Cut {
        let (before, behind) =
            [(true, true), (false, true), (true, false), (false, false)][cut / 8 % 4];
        let record = 40 * CAPACITY as u64 - cut as u64;
        let mut journal = Journal::new(record - 80 * u64::from(before));
        if before {
            journal.add(b"a\0");
        }
        journal.add(&letters(length));
        if behind {
            journal.add(b"b\0");
        }
        Cut {
            journal,
            before,
            behind,
            name: record + 76,
            length,
            cut,
        }
    }

    /// The cuts of a record: none, and every multiple of 8 within it.
    fn all(length: usize) -> impl Iterator<Item = Cut> {
        let cuts = (0..record_length(3, length)).step_by(8);
        cuts.map(move |cut| Cut::new(length, cut))
    }

    /// The place of the name's first unit behind the ring's end, if the ring's
    /// end is in the name.
    fn wrap(&self) -> Option<usize> {
        let place = self.cut.checked_sub(76)?;
        (place < self.length).then_some(place)
    }

    /// The places of the first and the last unit, and of two units before the
    /// ring's end and two behind it.
    fn edges(&self) -> Vec<usize> {
        let mut edges = vec![0, self.length - 2];
        if let Some(wrap) = self.wrap() {
            edges.extend([wrap - 4, wrap - 2, wrap, wrap + 2]);
        }
        edges.retain(|place| *place < self.length);
        edges.sort();
        edges.dedup();
        edges
    }

    /// Writes a name's bytes from a place on, has them judged, and puts the
    /// letters back.
    fn judge(&mut self, place: usize, bytes: &[u8], good: bool) {
        let (length, cut) = (self.length, self.cut);
        let what = || format!("{bytes:x?} at {place} of {length}, cut at {cut}");
        let position = self.name + place as u64;
        self.journal.put(position, bytes);
        let mut name = letters(length);
        let old = name[place..place + bytes.len()].to_vec();
        if good {
            name[place..place + bytes.len()].copy_from_slice(bytes);
            let names = [b"a\0", &name[..], b"b\0"];
            let kept = &names[usize::from(!self.before)..2 + usize::from(self.behind)];
            self.journal.is_accepted(kept, &what);
        } else {
            self.journal.is_refused(&what);
        }
        self.journal.put(position, &old);
    }
}

#[test]
fn excluded_units_are_found_in_a_kept_name() {
    let (mut rings, mut tried) = (0, 0);
    for length in LENGTHS {
        for mut cut in Cut::all(length) {
            for place in places(length) {
                for unit in EXCLUDED {
                    cut.judge(place, &unit.to_le_bytes(), false);
                    tried += 1;
                }
            }
            rings += 1;
        }
    }
    println!("excluded units: {tried} in {rings} rings");
    assert_eq!((rings, tried), (463, 160_728));
}

#[test]
fn units_that_look_alike_are_good_in_a_kept_name() {
    let (mut wraps, mut tried) = (0, 0);
    for length in LENGTHS {
        for mut cut in Cut::all(length) {
            // Every place, or where the record is cut those that matter.
            let some: Vec<usize> = match cut.cut {
                0 => places(length).collect(),
                _ => cut.edges(),
            };
            for place in some {
                for unit in ALIKE {
                    cut.judge(place, &unit.to_le_bytes(), true);
                    tried += 1;
                }
            }
            wraps += u64::from(cut.wrap().is_some());
        }
    }
    println!("units alike: {tried}, the name wrapped {wraps} times");
    assert_eq!((wraps, tried), (263, 53_064));
}

/// Around the ring's end: two excluded units, one on either side, and the bytes of
/// one of which one byte is on either side, in two units that are good.
#[test]
fn units_on_both_sides_of_the_end() {
    let mut tried = 0;
    for length in LENGTHS {
        for mut cut in Cut::all(length) {
            let Some(wrap) = cut.wrap() else {
                continue;
            };
            for unit in EXCLUDED {
                let [low, high] = unit.to_le_bytes();
                for other in EXCLUDED {
                    let [next, last] = other.to_le_bytes();
                    cut.judge(wrap - 2, &[low, high, next, last], false);
                }
                cut.judge(wrap - 2, &[0x41, low, high, 0x42], true);
                tried += 1;
            }
        }
    }
    println!("both sides: {tried}");
    assert_eq!(tried, 3 * 263);
}

/// Each record of a full ring, the oldest too, which the post would drop.
#[test]
fn every_record_of_a_full_ring_is_judged() {
    let mut journal = Journal::new(4096 - 400);
    for _ in 0..20 {
        journal.add(b"a\0b\0");
    }
    let Volume { first, last, .. } = journal.volume;
    assert_eq!(last - first, 12 * 80);
    let names = [&b"a\0b\0"[..]; 12];
    journal.is_accepted(&names, &|| "as posted".into());
    for record in (first..last).step_by(80) {
        for place in [76, 78] {
            for unit in EXCLUDED {
                let mut journal = journal.clone();
                journal.put(record + place, &unit.to_le_bytes());
                journal.is_refused(&|| format!("{unit:#x} at {record}"));
            }
        }
    }
    // What is dropped or was never written is nobody's name.
    let free = (last..first + CAPACITY as u64).step_by(2);
    for position in free {
        journal.put(position, &[0x5C, 0]);
    }
    journal.is_accepted(&names, &|| "outside of the records".into());
}

/// A ring that holds such a name stays refused, whatever is called, until its
/// journal is deleted and created anew.
#[test]
fn a_journal_created_anew_takes_posts_again() {
    for unit in EXCLUDED {
        let what = || format!("{unit:#x}");
        let mut journal = Journal::new(4096 - 120);
        journal.add(b"a\0");
        journal.add(&letters(30));
        let Volume { first, last, .. } = journal.volume;
        journal.put(first + 80 + 76 + 16, &unit.to_le_bytes());
        let before = journal.clone();

        let corrupt = refused(FileCorruptError);
        for _ in 0..2 {
            journal.is_refused(&what);
            // A start before or behind the record, and a mask that selects none.
            for (start, mask) in [(first, !0), (first + 80, !0), (last, !0), (0, 1 << 30)] {
                for version in [2, 3] {
                    assert_eq!(
                        journal.read(start, mask, version, ROOM),
                        corrupt,
                        "{}",
                        what()
                    );
                }
            }
            for reason in [1, 0x8000_0000, !0] {
                let change = Change { reason, ..CHANGE };
                let posted = journal.post(&change, &letters(510));
                assert_eq!(posted, (FileCorruptError, 3), "{}", what());
            }
            let skipped = Change {
                reason: 0,
                ..CHANGE
            };
            assert_eq!(journal.post(&skipped, b"a\0"), (Success, 3));
            assert_eq!(journal.volume.create(8), InvalidParameter);
            assert_eq!(journal.volume.delete(8), InvalidParameter);
            assert_eq!(journal.volume.finish(), InvalidParameter);
        }
        assert!(journal == before, "{}", what());

        assert_eq!(journal.volume.delete(7), Success);
        assert_eq!(journal.post(&CHANGE, b"a\0"), (Success, 3));
        assert_eq!(journal.save(1, ROOM), refused(JournalDeleteInProgress));
        assert_eq!(journal.volume.finish(), Success);
        assert_eq!(journal.post(&CHANGE, b"a\0"), (Success, 3));
        assert_eq!(journal.save(2, ROOM), refused(JournalNotActive));
        assert!(journal.ring == before.ring, "{}", what());
        assert_eq!(journal.volume.create(8), Success);
        journal.is_accepted(&[], &what);
        journal.add(&letters(30));
        journal.add(b"c\0");
        assert_eq!(journal.volume.first, last);
        journal.is_accepted(&[&letters(30), b"c\0"], &what);
    }
}

// ---- Everywhere at once.

/// Has a name judged wherever names are: all have to agree.
fn judge_everywhere(name: &[u8], good: bool) {
    let due = |refusal| if good { Success } else { refusal };
    let empty = Journal::new(4096);
    let posted = empty.clone().post(&CHANGE, name).0;
    assert_eq!(posted, due(InvalidParameter), "post of {name:x?}");

    let mut keeper = empty;
    let record = laid_out(3, 4096, &[name]);
    keeper.put(4096, &record);
    keeper.volume.last += record.len() as u64;
    let read = keeper.read(0, 0, 3, ROOM).0.status;
    assert_eq!(read, due(FileCorruptError), "kept {name:x?}");

    for version in [2, 3] {
        let record = laid_out(version, 4096, &[name]);
        let read = read_record(&record, 0).is_some();
        assert_eq!(read, good, "record of version {version}: {name:x?}");
    }
    let linked = read_file(name, &[link(0, name.len())]).0.status;
    assert_eq!(linked, due(FileCorruptError), "link {name:x?}");
    let table = [entry(1, 8, 0, name.len() as u32)];
    let listed = enumerate(&table, name, &EnumInput::all(2), ROOM).0.status;
    assert_eq!(listed, due(FileCorruptError), "row {name:x?}");
    let shown = path(&table, name, table[0].id, table[0].parent, ROOM);
    let whole = if good {
        gave(name.to_vec())
    } else {
        refused(FileCorruptError)
    };
    assert_eq!(shown, whole, "path {name:x?}");
    for form in FORMS {
        let bytes = image(form, &laid_out(version_of(form), 4096, &[name]), 4096, 7);
        let loaded = load(&bytes, 8).0;
        assert_eq!(loaded, due(FileCorruptError), "image {name:x?}");
        let moved = moved(&bytes, form, ROOM).0.status;
        assert_eq!(moved, due(FileCorruptError), "move {name:x?}");
    }
}

/// Of all units that there are just three are excluded, at each place of a name
/// that is longer than a word of 64 bits.
#[test]
fn every_unit_is_judged() {
    for unit in 0..=u16::MAX {
        let good = unit != 0 && unit != 0x2F && unit != 0x5C;
        for place in places(10) {
            judge_everywhere(&planted(letters(10), place, unit), good);
        }
    }
}

/// Names of units that look alike, half of them with excluded ones in between.
#[test]
fn mixed_units_are_judged() {
    let mut rng = Rng::new("mixed units");
    for _ in 0..100_000 {
        let units = rng.between(1, 20);
        let drawn = (0..units).flat_map(|_| rng.pick(&ALIKE).to_le_bytes());
        let mut name: Vec<u8> = drawn.collect();
        let excluded = rng.pick(&[0, 0, 0, 1, 2, 3]);
        for _ in 0..excluded {
            common::plant_excluded(&mut rng, &mut name);
        }
        judge_everywhere(&name, excluded == 0);
    }
}
