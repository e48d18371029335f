//! Moving an image from one form to the other: the library against the model on
//! random images, sound ones and such as are damaged in each part; and what a move
//! promises, said here: the way back, the records, what a save in the other form
//! writes and what a load of either image leaves.

mod common;

use common::images::{changed, usn_place, Fault, Journal, Moves, Part};
use common::images::{damaged, due_of_load, due_of_move, first_and_id, has_wide, idle, image_of};
use common::images::{made, names, other, records, samples, short, stated, try_sets};
use common::journal::{gave, moved, refused, Given};
use common::{change_of, check, expected, image, is_wide, lay_out, other_form, record_length};
use common::{seal, version_of, Lent, Rng, CHANGE, FORMS, NEGATIVE, NO_FORMS, TRAILER};
use lanhduxe::Status::{self, *};
use lanhduxe::{Change, FileId, Volume};

/// How often an image is moved at random, at the least.
const CALLS: u64 = 200_000;

/// Room for any image.
const ROOM: usize = 65_536 + TRAILER;

// ---- What a move leaves.

/// The volume record and the ring that a load of an image leaves, with random
/// bytes in the ring before. The record is of no use if the load is refused.
fn loaded(image: &[u8], capacity: u64) -> (Status, Journal) {
    let mut journal = Journal {
        volume: Volume {
            last: 24,
            ..idle(capacity)
        },
        ring: Rng::fixed().bytes(capacity as usize),
    };
    let own = first_and_id(image).1;
    let id = if own == 99 { 98 } else { 99 };
    let status = journal.volume.load_journal(&mut journal.ring, image, id);
    (status, journal)
}

/// Both images have the same records, field by field but for the version, the same
/// first position and the same journal id.
fn hold_the_same(image: &[u8], moved: &[u8]) -> bool {
    let (ours, theirs) = (records(image), records(moved));
    let ends = |image: &[u8], records: &[(usize, lanhduxe::Record)]| {
        let end = records.last().map_or(0, |(_, record)| record.next);
        end == image.len() - TRAILER
    };
    let same = ours.iter().zip(&theirs).all(|((_, one), (_, two))| {
        change_of(one) == change_of(two)
            && one.usn == two.usn
            && image[one.name.clone()] == moved[two.name.clone()]
            && one.version != two.version
    });
    same && ours.len() == theirs.len()
        && ends(image, &ours)
        && ends(moved, &theirs)
        && first_and_id(image) == first_and_id(moved)
        && stated(image).map(other_form) == stated(moved)
}

// ---- Random moves.

/// The test's state over all calls.
struct Run {
    rng: Rng,
    moves: Moves,
    /// Moves that were done, from each form.
    done: [u64; 2],
    /// Images with damage in each part.
    parts: [u64; Part::ALL.len()],
}

impl Run {
    /// An image of a journal, in form 1 where it has no wide ids.
    fn saved(&mut self, journal: &Journal) -> Vec<u8> {
        let form = self.rng.pick(&FORMS);
        match journal.saved(form) {
            (Success, image) => image,
            (status, _) => {
                assert_eq!((form, status), (1, NotSupported));
                journal.saved(2).1
            }
        }
    }

    /// What a move is lent: an image that a save writes or the layout makes, which
    /// may make a wrong one, a damaged image, or a few bytes.
    fn lent(&mut self, journal: &Journal) -> Vec<u8> {
        let image = self.saved(journal);
        match self.rng.below(20) {
            0 => short(&mut self.rng, 41),
            1..=3 => changed(&mut self.rng, &image),
            4..=7 => {
                let parts: Vec<usize> = (0..Part::ALL.len())
                    .filter(|part| !Part::ALL[*part].is_in_record() || image.len() > TRAILER)
                    .collect();
                let part = self.rng.pick(&parts);
                self.parts[part] += 1;
                damaged(&mut self.rng, &image, Part::ALL[part])
            }
            8..=11 => {
                let form = self.rng.pick(&FORMS);
                let wide = common::share_of_wide(&mut self.rng);
                made(&mut self.rng, form, wide)
            }
            _ => image,
        }
    }

    /// A form to move from: mostly the image's own.
    fn from(&mut self, image: &[u8]) -> u32 {
        match self.rng.below(16) {
            0 => self.rng.pick(&NO_FORMS),
            1 => self.rng.word(),
            2 => self.rng.pick(&FORMS),
            _ => stated(image).unwrap_or(self.rng.pick(&FORMS)),
        }
    }

    /// The room of the output: around the moved image's length, the image's own, 0
    /// and 32, or any.
    fn room(&mut self, image: &[u8]) -> usize {
        let own = image.len() as u64;
        let known = stated(image).is_some_and(|form| FORMS.contains(&form));
        let new = match known {
            true => other(image).len() as u64,
            false => own + 16,
        };
        let room = match self.rng.below(10) {
            0 => self.rng.below(3),
            1 => self.rng.between(31, 33),
            2 => self.rng.around(own.max(1)),
            3..=6 => self.rng.around(new),
            7 => self.rng.below(new),
            8 => new + self.rng.below(300),
            _ => ROOM as u64,
        };
        room as usize
    }

    /// Moves once and holds a move that is done to what it promises.
    fn random_move(&mut self, image: &[u8]) {
        let from = self.from(image);
        let room = self.room(image);
        let (status, moved) = self.moves.call(&mut self.rng, image, from, room);
        if status != Success {
            return;
        }
        self.done[from as usize - 1] += 1;
        let back = self
            .moves
            .call(&mut self.rng, &moved, other_form(from), image.len());
        let right = moved == other(image)
            && hold_the_same(image, &moved)
            && back == (Success, image.to_vec());
        check(right, "moves", self.moves.index - 2, || {
            format!("not what was moved from {from}: {image:x?} {moved:x?}")
        });
    }
}

#[test]
fn random_moves_agree_with_the_model() {
    let mut run = Run {
        rng: Rng::new("moves"),
        moves: Moves::new("moves"),
        done: [0; 2],
        parts: [0; Part::ALL.len()],
    };
    while run.moves.index < CALLS {
        let journal = Journal::random(&mut run.rng);
        for _ in 0..run.rng.between(4, 20) {
            let image = run.lent(&journal);
            for _ in 0..run.rng.between(1, 4) {
                run.random_move(&image);
            }
        }
    }
    println!(
        "moves: {:?} done from each form, {:?} damaged in each part",
        run.done, run.parts
    );
    assert!(run.done.iter().all(|done| *done > 10_000), "{:?}", run.done);
    assert!(run.parts.iter().all(|part| *part > 300), "{:?}", run.parts);
    run.moves.counts.finish_often(&expected::MOVE, CALLS, 5000);
}

// ---- The way back, saves and loads.

/// Of random journals: what a save in one form writes is moved to what a save in
/// the other one answers, byte for byte and status for status; and both images
/// load to the same journal.
#[test]
fn a_moved_image_is_that_of_a_save_in_the_other_form() {
    let mut rng = Rng::new("moves and saves");
    let mut moves = Moves::new("moves of saved images");
    let (mut narrow, mut wide, mut loads) = (0, 0, 0);
    while narrow < 3000 || wide < 1500 {
        let journal = Journal::random(&mut rng);
        let (one, two) = (journal.saved(1), journal.saved(2));
        assert_eq!(two.0, Success);
        // The way down, and back up where it is accepted.
        let down = moves.call(&mut rng, &two.1, 2, ROOM);
        assert_eq!(down, one);
        if has_wide(&two.1) {
            assert_eq!(down, (NotSupported, Vec::new()));
            wide += 1;
            continue;
        }
        assert_eq!(down.0, Success);
        assert_eq!(moves.call(&mut rng, &down.1, 1, ROOM), two);
        // The way up, and back down.
        let up = moves.call(&mut rng, &one.1, 1, ROOM);
        assert_eq!(up, two);
        assert_eq!(moves.call(&mut rng, &up.1, 2, ROOM), one);
        assert!(hold_the_same(&one.1, &up.1));
        narrow += 1;

        for capacity in [journal.volume.capacity, common::capacity(&mut rng)] {
            let ours = loaded(&one.1, capacity);
            assert_eq!(loaded(&up.1, capacity), ours, "{:?}", journal.volume);
            loads += u64::from(ours.0 == Success);
        }
    }
    println!("moves and saves: {narrow} narrow journals, {wide} wide ones, {loads} loads");
    assert!(loads > narrow);
    moves.counts.finish(&[Success, NotSupported], 10_000);
}

/// Each field and byte of a name goes both ways, whatever it is: with all bits, or
/// with one.
#[test]
fn every_field_is_moved_as_it_stands() {
    let mut changes = vec![
        Change {
            file: FileId::from(u64::MAX),
            parent: FileId::from(u64::MAX),
            time: u64::MAX,
            reason: u32::MAX,
            source: u32::MAX,
            security: u32::MAX,
            attributes: u32::MAX,
        },
        Change {
            reason: 1,
            attributes: 1,
            ..Change::default()
        },
    ];
    for bit in 0..64 {
        let word = 1 << (bit % 32);
        let id = FileId::from(1u64 << bit);
        let time = 1 << bit;
        changes.extend([
            Change { file: id, ..CHANGE },
            Change {
                parent: id,
                ..CHANGE
            },
            Change { time, ..CHANGE },
            Change {
                reason: word,
                ..CHANGE
            },
            Change {
                source: word,
                ..CHANGE
            },
            Change {
                security: word,
                ..CHANGE
            },
            Change {
                attributes: word,
                ..CHANGE
            },
        ]);
    }
    let mut tried = 0;
    for change in &changes {
        for name in [&b"a\0"[..], b"\x01\0\xFF\xFF", &[0x5C; 510]] {
            for first in [0, 4096, NEGATIVE - 8 - record_length(3, name.len()) as u64] {
                let usn = first + record_length(3, name.len()) as u64;
                let [one, two] = FORMS.map(|form| {
                    let record = lay_out(version_of(form), change, usn, name);
                    image(form, &record, first, u64::MAX)
                });
                assert_eq!(moved(&one, 1, 700), gave(two.clone()), "{change:?}");
                assert_eq!(moved(&two, 2, 700), gave(one), "{change:?}");
                tried += 1;
            }
        }
    }
    assert_eq!(tried, (2 + 64 * 7) * 3 * 3);
}

/// Names of every length, in the midst of others. Of a wrong length they are those
/// of no image.
#[test]
fn names_of_every_length_are_moved() {
    for length in (2..=510).step_by(2) {
        let names = [2, length, 4, length, 6];
        let [one, two] = FORMS.map(|form| image_of(form, 88, &names));
        assert_eq!(two.len() - one.len(), 5 * 16);
        assert_eq!(moved(&one, 1, two.len()), gave(two.clone()), "{length}");
        assert_eq!(moved(&two, 2, one.len()), gave(one.clone()), "{length}");
        let short = refused(BufferTooSmall);
        assert_eq!(moved(&one, 1, two.len() - 1), short, "{length}");
        assert_eq!(moved(&two, 2, one.len() - 1), short, "{length}");
    }
    for length in [0, 1, 3, 509, 511, 512, 600] {
        for form in FORMS {
            let image = image_of(form, 88, &[2, length, 4]);
            let corrupt = refused(FileCorruptError);
            assert_eq!(moved(&image, form, 3000), corrupt, "{length}");
        }
    }
}

/// A wide id of a file or a parent, in any byte and in any record, is not moved
/// down, whatever the room is. The image loads.
#[test]
fn no_wide_id_is_moved_down() {
    let mut tried = 0;
    for byte in 8..16 {
        for bit in 0..8 {
            let mut id = CHANGE.file;
            id.bytes[byte] = 1 << bit;
            for number in 0..3 {
                for parent in [false, true] {
                    let mut changes = [CHANGE; 3];
                    match parent {
                        true => changes[number].parent = id,
                        false => changes[number].file = id,
                    }
                    assert!(is_wide(&changes[number]));
                    let records = (1..).zip(&changes);
                    let body: Vec<u8> = records
                        .flat_map(|(number, change)| lay_out(3, change, 80 * number, b"a\0"))
                        .collect();
                    let image = image(2, &body, 0, 7);
                    for room in [0, 31, 32, 223, 224, 272, ROOM] {
                        assert_eq!(moved(&image, 2, room), refused(NotSupported), "{id:?}");
                    }
                    assert_eq!(loaded(&image, 1024).0, Success);
                    tried += 1;
                }
            }
        }
    }
    assert_eq!(tried, 8 * 8 * 3 * 2);
}

// ---- Limits.

/// Every room of an output: too small below the moved image's length, whatever the
/// image's own is, and from there on the same bytes.
#[test]
fn every_room_of_an_output() {
    let mut rng = Rng::new("rooms of moves");
    let mut moves = Moves::new("rooms of moves");
    for form in FORMS {
        for image in samples(&mut rng, form)
            .into_iter()
            .filter(|image| !has_wide(image))
        {
            let due = other(&image);
            for room in 0..due.len() + 40 {
                let moved = moves.call(&mut rng, &image, form, room);
                match room < due.len() {
                    true => assert_eq!(moved, (BufferTooSmall, Vec::new()), "{room}"),
                    false => assert_eq!(moved, (Success, due.clone()), "{room}"),
                }
            }
        }
    }
    moves.counts.finish(&[Success, BufferTooSmall], 4000);
}

/// Records that span 65,536 positions are an image in both forms, and one record
/// more, or 8 bytes, is none.
#[test]
fn the_longest_images() {
    let longest = [
        names(817, 2),
        [vec![510; 108], names(20, 0)].concat(),
        vec![52; 512],
    ];
    for names in longest {
        let [one, two] = FORMS.map(|form| image_of(form, 808, &names));
        assert_eq!(two.len(), ROOM);
        assert_eq!(one.len(), ROOM - 16 * names.len());
        assert_eq!(moved(&one, 1, ROOM), gave(two.clone()));
        assert_eq!(moved(&one, 1, ROOM - 1), refused(BufferTooSmall));
        assert_eq!(moved(&two, 2, one.len()), gave(one.clone()));
        assert_eq!(moved(&two, 2, one.len() - 1), refused(BufferTooSmall));
        let ours = loaded(&one, 65_536);
        assert_eq!(ours.0, Success);
        assert!(loaded(&two, 65_536) == ours);

        let corrupt = refused(FileCorruptError);
        let last = names.len() - 1;
        let mut eight = names.clone();
        eight[last] += 8;
        let more = [&names[..], &[2]].concat();
        for names in [eight, more] {
            for form in FORMS {
                let image = image_of(form, 808, &names);
                assert_eq!(moved(&image, form, 70_000), corrupt, "{form}");
                assert_eq!(moved(&image, form, 0), corrupt, "{form}");
                assert_eq!(loaded(&image, 65_536).0, FileCorruptError, "{form}");
            }
        }
    }
}

/// From 0 to 40 bytes, of every kind: below 32 there is no form to know, and the
/// trailer alone is an image.
#[test]
fn the_shortest_images() {
    let mut rng = Rng::new("shortest moves");
    let mut moves = Moves::new("shortest moves");
    for form in FORMS {
        let whole = image_of(form, 4096, &[]);
        assert_eq!(whole.len(), TRAILER);
        for length in 0..=40 {
            let ending = |bytes: Vec<u8>| {
                let from = bytes.len() - length;
                bytes[from..].to_vec()
            };
            let before = ending([&[0; 8], &whole[..]].concat());
            let behind = [&whole[..], &[0; 8]].concat()[..length].to_vec();
            let mut numbers = vec![before, behind, vec![0; length], vec![0xFF; length]];
            for number in FORMS.into_iter().chain(NO_FORMS) {
                let drawn = rng.bytes(40);
                numbers.push(ending([&drawn[..], &number.to_le_bytes()].concat()));
                let mut sealed = ending([&[0; 40][..], &number.to_le_bytes()].concat());
                seal(&mut sealed);
                numbers.push(sealed);
            }
            for image in numbers {
                for from in FORMS.into_iter().chain(NO_FORMS) {
                    let status = moves.call(&mut rng, &image, from, 80).0;
                    // 32 zeroes with a form and the right sum are an empty journal at 0.
                    let empty = |form| common::image(form, &[], 0, 0);
                    let sound =
                        image == whole || stated(&image).is_some_and(|form| image == empty(form));
                    let due = match sound && stated(&image) == Some(from) && FORMS.contains(&from) {
                        true => Success,
                        false => due_of_move(&image, from),
                    };
                    assert_eq!(status, due, "{image:x?} from {from}");
                }
            }
        }
    }
    let seen = [Success, UnknownRevision, FileCorruptError];
    moves.counts.finish(&seen, 20_000);
}

/// An image has one form, and is moved from that one alone.
#[test]
fn an_image_is_moved_from_its_own_form() {
    let mut rng = Rng::new("forms of moves");
    let unknown = refused(UnknownRevision);
    for form in FORMS {
        for image in samples(&mut rng, form) {
            let due = match form == 2 && has_wide(&image) {
                true => refused(NotSupported),
                false => gave(other(&image)),
            };
            assert_eq!(moved(&image, form, 3000), due);
            for from in NO_FORMS.into_iter().chain([other_form(form)]) {
                for room in [0, 32, 3000] {
                    assert_eq!(moved(&image, from, room), unknown, "{from}");
                }
            }
            // With a number of no form, also where it is asked for; and with that of
            // the other form, from which it is no image, unless it has no records.
            for number in NO_FORMS {
                let mut renamed = image.clone();
                let at = image.len() - 4;
                renamed[at..].copy_from_slice(&number.to_le_bytes());
                seal(&mut renamed);
                for from in [1, 2, number] {
                    assert_eq!(moved(&renamed, from, 3000), unknown, "{number} {from}");
                }
            }
            let mut renamed = image.clone();
            let at = image.len() - 4;
            renamed[at] = other_form(form) as u8;
            seal(&mut renamed);
            let due = match image.len() > TRAILER {
                true => refused(FileCorruptError),
                false => gave(image.clone()),
            };
            assert_eq!(moved(&renamed, other_form(form), 3000), due);
            assert_eq!(moved(&renamed, form, 3000), unknown);
        }
    }
}

// ---- Damage.

/// Damage in each part, with a right sum: it is no image, or has another form.
#[test]
fn damage_in_each_part_is_refused() {
    let mut rng = Rng::new("damaged moves");
    let mut moves = Moves::new("damaged moves");
    for form in FORMS {
        for part in Part::ALL {
            for _ in 0..40 {
                for image in samples(&mut rng, form) {
                    if part.is_in_record() && image.len() == TRAILER {
                        continue;
                    }
                    let damaged = damaged(&mut rng, &image, part);
                    let due = match part {
                        Part::Form => UnknownRevision,
                        _ => FileCorruptError,
                    };
                    let moved = moves.call(&mut rng, &damaged, form, 3000);
                    assert_eq!(moved, (due, Vec::new()), "{part:?}");
                    // Without records the forms differ in the number alone.
                    let renamed = part == Part::Form && image.len() == TRAILER;
                    let due = match due_of_load(&damaged) {
                        FileCorruptError if renamed => Success,
                        due => due,
                    };
                    assert_eq!(loaded(&damaged, 65_536).0, due, "{part:?}");
                }
            }
        }
    }
    moves
        .counts
        .finish_often(&[UnknownRevision, FileCorruptError], 7000, 400);
}

/// Records of both versions under one form's number, in every order: only those of
/// the form's own are an image. The Usns chain by the length in version 3, and by
/// what that would be if all records were of the form's version.
#[test]
fn versions_are_not_mixed() {
    let mut tried = 0;
    for form in FORMS {
        let own = version_of(form);
        let growth = record_length(3, 2) - record_length(own, 2);
        for mixture in 0..8u32 {
            let versions = [0, 1, 2].map(|number| 2 + (mixture >> number & 1) as u16);
            let due: Given = match versions == [own; 3] {
                true => gave(image_of(other_form(form), 800, &[2; 3])),
                false => refused(FileCorruptError),
            };
            for by_form in [false, true] {
                let mut usn = 800;
                let mut body = Vec::new();
                for version in versions {
                    usn += match by_form {
                        true => record_length(version, 2) + growth,
                        false => record_length(3, 2),
                    } as u64;
                    body.extend(lay_out(version, &CHANGE, usn, b"aa"));
                }
                let image = image(form, &body, 800, 7);
                assert_eq!(moved(&image, form, 3000), due, "{versions:?} {by_form}");
                let status = loaded(&image, 1024).0;
                assert_eq!(status, due.0.status, "{versions:?} {by_form}");
                tried += 1;
            }
        }
    }
    assert_eq!(tried, 32);
}

/// Usns that chain by another length than that in version 3.
#[test]
fn usns_chain_by_the_length_in_version_3() {
    for form in FORMS {
        for (step, due) in [
            (64, refused(FileCorruptError)),
            (72, refused(FileCorruptError)),
            (80, gave(image_of(other_form(form), 800, &[2; 3]))),
            (96, refused(FileCorruptError)),
        ] {
            let body: Vec<u8> = (1..=3)
                .flat_map(|number| lay_out(version_of(form), &CHANGE, 800 + step * number, b"aa"))
                .collect();
            assert_eq!(
                moved(&image(form, &body, 800, 7), form, 3000),
                due,
                "{step}"
            );
        }
        // Positions up to the last one, and past it.
        let last = NEGATIVE - 8;
        let good = moved(&image_of(form, last - 160, &[2; 2]), form, 3000);
        assert_eq!(good, gave(image_of(other_form(form), last - 160, &[2; 2])));
        for first in [last - 152, last - 80, last, NEGATIVE, u64::MAX - 159] {
            let body = body_wrapping(form, first);
            let image = image(form, &body, first, 7);
            assert_eq!(
                moved(&image, form, 3000),
                refused(FileCorruptError),
                "{first}"
            );
        }
        // Where no record is, the position alone.
        for (first, sound) in [
            (last, true),
            (last + 4, false),
            (NEGATIVE, false),
            (4, false),
        ] {
            let due = match sound {
                true => gave(image_of(other_form(form), first, &[])),
                false => refused(FileCorruptError),
            };
            assert_eq!(
                moved(&image(form, &[], first, 7), form, 3000),
                due,
                "{first}"
            );
        }
    }
}

/// Two records from a position on that may be none.
fn body_wrapping(form: u32, first: u64) -> Vec<u8> {
    [80, 160]
        .into_iter()
        .flat_map(|behind| lay_out(version_of(form), &CHANGE, first.wrapping_add(behind), b"aa"))
        .collect()
}

// ---- Order.

/// What a move is called with.
struct Move {
    image: Vec<u8>,
    from: u32,
    room: usize,
}

impl Move {
    /// Changes bytes at a place of the record, and puts the sum right.
    fn put(&mut self, at: usize, bytes: &[u8]) {
        self.image[at..at + bytes.len()].copy_from_slice(bytes);
        seal(&mut self.image);
    }
}

#[test]
fn the_first_status_of_a_move_is_given() {
    let faults: [Fault<Move>; 11] = [
        (UnknownRevision, |call| call.from += 0x100),
        (UnknownRevision, |call| call.from = other_form(call.from)),
        (UnknownRevision, |call| {
            let at = call.image.len() - 4;
            call.put(at, &[3]);
        }),
        (FileCorruptError, |call| {
            let at = call.image.len() - TRAILER;
            call.put(at, &[1]);
        }),
        (FileCorruptError, |call| call.put(4, &[9])),
        (FileCorruptError, |call| {
            call.put(usn_place(call.from), &[1])
        }),
        (FileCorruptError, |call| {
            let own = call.image.len() - 8;
            call.image[own] ^= 1;
        }),
        // an upper byte of the oldest record's file id, of the next one's parent id
        (NotSupported, |call| call.put(16, &[1])),
        (NotSupported, |call| call.put(80 + 39, &[0x80])),
        (BufferTooSmall, |call| {
            call.room = call.room.saturating_sub(1)
        }),
        (BufferTooSmall, |call| call.room = 0),
    ];
    let mut rng = Rng::new("orders of a move");
    let mut moves = Moves::new("orders of a move");
    for form in FORMS {
        let image = image_of(form, 0, &[2; 12]);
        let length = image_of(other_form(form), 0, &[2; 12]).len();
        let fresh = || Move {
            image: image.clone(),
            from: form,
            room: length,
        };
        // In form 1 there is no upper byte to be wide.
        let in_form: Vec<Fault<Move>> = faults
            .into_iter()
            .filter(|(status, _)| form == 2 || *status != NotSupported)
            .collect();
        try_sets(&in_form, fresh, |call| {
            let mut output = Lent::output(&mut rng, call.room);
            moves.lend(&mut rng, &call.image, call.from, &mut output).0
        });
    }
    moves.counts.finish(&expected::MOVE, 2500);
}
