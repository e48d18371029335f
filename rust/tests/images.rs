//! Saving a journal to an image and loading it again, in both forms, the library
//! against the model: on random journals and images, on images that are cut or
//! changed, which are not moved either, and on images made by hand around every
//! limit.

mod common;

use common::images::{body, due_of_load, due_of_move, first_and_id, has_wide, idle, image_of};
use common::images::{laid_anew, long, names, records, samples, stated, trailer_in_a_record};
use common::images::{try_sets, usn_place, word, Fault, Journal, Moves};
use common::{change_of, check, expected, image, lay_out, model_volume, other_form, seal};
use common::{version_of, Counts, Hex, Lent, Rng, CHANGE, FORMS, NEGATIVE, NO_FORMS, TRAILER};
use lanhduxe::Status::{self, *};
use lanhduxe::{Change, Volume};

/// How often each of the two is called at random, at the least.
const CALLS: u64 = 100_000;

/// The test's state over all calls.
struct Run {
    test: &'static str,
    rng: Rng,
    saves: Counts,
    loads: Counts,
    index: u64,
}

impl Run {
    fn new(test: &'static str) -> Run {
        Run {
            test,
            rng: Rng::new(test),
            saves: Counts::new("saves"),
            loads: Counts::new("loads"),
            index: 0,
        }
    }

    /// Saves in a form into an output of `room` bytes and compares. Gives the
    /// status and the image.
    fn save(&mut self, journal: &Journal, form: u32, room: usize) -> (Status, Vec<u8>) {
        let mut ring = Lent::holding(&mut self.rng, &journal.ring);
        let mut output = Lent::output(&mut self.rng, room);
        let volume = journal.volume;
        let answer = volume.save_journal(ring.for_library(), form, output.for_library());
        let model = model::save_journal(
            &model_volume(&volume),
            &journal.ring,
            form,
            &mut output.model[..room],
        );
        self.saves.add(answer.status);
        check(
            (answer.status.number(), answer.count) == model
                && output.agrees(answer.count)
                && ring.same()
                && volume == journal.volume,
            self.test,
            self.index,
            || {
                format!(
                    "save in {form}: library {answer:?}, model {model:x?}\n{volume:?}\n\
                     ring {:?}\noutput before {:?} (lent {room})\nlibrary's {:?}\nmodel's {:?}",
                    Hex(&journal.ring),
                    Hex(&output.before),
                    Hex(&output.library),
                    Hex(&output.model)
                )
            },
        );
        self.index += 1;
        output.library.truncate(answer.count);
        (answer.status, output.library)
    }

    /// Loads into a ring and compares, every byte of it and every field of the
    /// record. Gives the status and the record. After a refusal the ring can be
    /// lent again.
    fn load(
        &mut self,
        before: &Volume,
        ring: &mut Lent,
        image: &[u8],
        id: u64,
    ) -> (Status, Volume) {
        let mut lent = Lent::holding(&mut self.rng, image);
        let (mut volume, mut model) = (*before, model_volume(before));
        let status = volume.load_journal(ring.for_library(), lent.for_library(), id);
        let by_model = model::load_journal(&mut model, ring.for_model(), image, id);
        self.loads.add(status);
        let frame = match status {
            Success => loaded_frame(before, &volume, ring, image, id),
            _ => volume == *before && ring.same(),
        };
        check(
            status.number() == by_model
                && model_volume(&volume) == model
                && ring.library == ring.model
                && lent.same()
                && frame,
            self.test,
            self.index,
            || {
                format!(
                    "load {id}: library {status}, model {by_model:#x}\nbefore {before:?}\n\
                     library's {volume:?}\nmodel's {model:?}\nimage {:?}\nring before {:?} (lent {})\n\
                     library's {:?}\nmodel's {:?}",
                    Hex(image),
                    Hex(&ring.before),
                    ring.length,
                    Hex(&ring.library),
                    Hex(&ring.model)
                )
            },
        );
        self.index += 1;
        (status, volume)
    }

    /// Loads an image that has to give this status, into a ring of random bytes.
    fn expect(&mut self, volume: &Volume, image: &[u8], id: u64, status: Status, what: &str) {
        let mut ring = Lent::output(&mut self.rng, volume.capacity as usize);
        let given = self.load(volume, &mut ring, image, id).0;
        assert_eq!(given, status, "{what}: {volume:?} id {id}");
    }
}

/// Whether a load changed state, id, first and last alone, to the new id and the
/// image's positions, and the ring only from first to last.
fn loaded_frame(before: &Volume, after: &Volume, ring: &Lent, image: &[u8], id: u64) -> bool {
    let (first, _) = first_and_id(image);
    let expected = Volume {
        state: 1,
        id,
        first,
        last: records(image).last().map_or(first, |newest| newest.1.usn),
        ..*before
    };
    let span = expected.last - first;
    let capacity = before.capacity;
    let outside = (span..capacity).map(|behind| (first.wrapping_add(behind) % capacity) as usize);
    *after == expected
        && outside
            .chain(ring.length..ring.library.len())
            .all(|place| ring.library[place] == ring.before[place])
}

// ---- Random journals, saves and loads.

impl Run {
    /// The journal after a post with a wide id, and some more posts, which may drop
    /// that record again.
    fn wide_journal(&mut self, journal: &Journal) -> Journal {
        let mut wide = journal.clone();
        let change = Change {
            reason: 1,
            ..common::any_change(&mut self.rng, 100)
        };
        wide.volume.post(&mut wide.ring, &change, b"a\0", &mut 0);
        let most = match self.rng.below(4) {
            0 => 0,
            1 => wide.volume.capacity + self.rng.below(1000),
            _ => self.rng.below(1000),
        };
        wide.post(&mut self.rng, most, 0);
        wide
    }

    /// A journal with something wrong in the volume record or the ring, or with an
    /// upper byte of an id that is not 0.
    fn damaged_journal(&mut self, journal: &Journal) -> Journal {
        let mut damaged = journal.clone();
        let rng = &mut self.rng;
        let volume = &mut damaged.volume;
        let (first, last, capacity) = (volume.first, volume.last, volume.capacity);
        match rng.below(15) {
            0 => volume.journal = 0,
            1..=2 => volume.state = rng.pick(&[0, 2, 2, 3, 0x101, u32::MAX]),
            3 => volume.first = rng.pick(&[first + 8, first.wrapping_sub(8), first ^ 4, last + 8]),
            4 => volume.last = rng.pick(&[last + 8, last.wrapping_sub(8), last ^ 1, NEGATIVE]),
            5 => volume.capacity = rng.pick(&[0, 1016, capacity + 8, capacity - 8, 1 << 32]),
            6 => {
                let length = journal.ring.len();
                let wrong = rng.pick(&[0, 1, length - 8, length - 1, length + 1, length + 8]);
                damaged.ring.resize(wrong, 0);
            }
            // A unit of the oldest record's name.
            7 if last > first => {
                let place = |at: u64| ((first + at) % capacity) as usize;
                let ring = &mut damaged.ring;
                let length = u16::from_le_bytes([ring[place(72)], ring[place(73)]]) as u64;
                let mut name: Vec<u8> = (0..length).map(|at| ring[place(76 + at)]).collect();
                common::plant_some(rng, &mut name);
                for (at, byte) in (76..).zip(name) {
                    ring[place(at)] = byte;
                }
            }
            // An upper byte of an id of the oldest record, which stays right.
            8..=9 if last > first => {
                let at = rng.pick(&[16, 32]) + rng.below(8);
                damaged.ring[((first + at) % capacity) as usize] = 1 << rng.below(8);
            }
            _ => {
                let span = (last - first).max(1);
                let place = ((first + rng.below(span)) % capacity) as usize;
                damaged.ring[place] ^= 1 << rng.below(8);
            }
        }
        damaged
    }

    /// Saves the journal, one with a wide id or a damaged one, in forms that are
    /// known and others, with an output around the image's length. Gives an image
    /// of the journal.
    fn random_save(&mut self, journal: &Journal) -> Vec<u8> {
        let room = journal.ring.len() + TRAILER;
        let (status, two) = self.save(journal, 2, room);
        assert_eq!(status, Success, "the room is always enough");
        let (status, one) = self.save(journal, 1, room);
        let due = match has_wide(&two) {
            true => NotSupported,
            false => Success,
        };
        assert_eq!(status, due);
        let image = match status == Success && self.rng.percent(50) {
            true => one,
            false => two,
        };
        for _ in 0..self.rng.between(1, 4) {
            let room = match self.rng.below(6) {
                0 => self.rng.below(64) as usize,
                1 => self.rng.below(room as u64) as usize,
                2..=4 => self.rng.around(image.len() as u64) as usize,
                _ => room,
            };
            let form = match self.rng.below(16) {
                0 => self.rng.pick(&NO_FORMS),
                1 => self.rng.word(),
                2..=4 => self.rng.pick(&FORMS),
                _ => stated(&image).expect("an image"),
            };
            match self.rng.below(6) {
                0..=2 => {
                    let damaged = self.damaged_journal(journal);
                    self.save(&damaged, form, room);
                }
                3 => {
                    let wide = self.wide_journal(journal);
                    self.save(&wide, form, room);
                }
                _ => {
                    self.save(journal, form, room);
                }
            }
        }
        image
    }

    /// A volume record to load into: mostly one that will do.
    fn target(&mut self, journal: &Journal) -> (Volume, usize) {
        let rng = &mut self.rng;
        let mut volume = Volume {
            usn: rng.word(),
            regions: rng.word(),
            reparse: rng.word(),
            points: rng.word(),
            journal: rng.flag(3),
            state: rng.pick(&[0, 0, 0, 0, 3, 0x101, u32::MAX]),
            id: rng.pick(&[0, journal.volume.id, 1, u64::MAX]),
            first: rng.long(),
            last: rng.long(),
            capacity: journal.volume.capacity,
        };
        match rng.below(20) {
            0 => volume.state = 1,
            1 => volume.state = 2,
            2..=5 => volume.capacity = common::capacity(rng),
            _ => {}
        }
        let mut lent = volume.capacity as usize;
        if rng.percent(3) {
            lent = rng.pick(&[0, lent - 8, lent - 1, lent + 1, lent + 8]);
        }
        if rng.percent(3) {
            volume.capacity = rng.pick(&[0, 8, 1016, 1028, 65_544, 1 << 32 | 1024, NEGATIVE]);
            if rng.percent(50) {
                lent = volume.capacity.min(70_000) as usize;
            }
        }
        (volume, lent)
    }

    /// Loads an image, a changed one or a made one. Gives the journal if it was
    /// loaded.
    fn random_load(&mut self, journal: &Journal, image: &[u8]) -> Option<Journal> {
        let image = match self.rng.below(16) {
            0..=6 => image.to_vec(),
            7..=13 => common::images::changed(&mut self.rng, image),
            _ => {
                let form = self.rng.pick(&FORMS);
                let wide = common::share_of_wide(&mut self.rng);
                common::images::made(&mut self.rng, form, wide)
            }
        };
        let (before, lent) = self.target(journal);
        let own = image.len().checked_sub(16).map_or(0, |at| long(&image, at));
        let id = match self.rng.below(16) {
            0 => 0,
            1 => before.id,
            2 => own,
            _ => self.rng.draw(),
        };
        let mut ring = Lent::output(&mut self.rng, lent);
        let (status, volume) = self.load(&before, &mut ring, &image, id);
        if status != Success {
            return None;
        }
        let loaded = Journal {
            volume,
            ring: ring.library[..lent].to_vec(),
        };
        if lent <= 4096 || self.rng.percent(5) {
            let posted = posted(&before, &ring.before[..lent], &image, id);
            check(
                posted.volume == loaded.volume && posted.ring == loaded.ring,
                self.test,
                self.index - 1,
                || format!("not as posts leave it: {volume:?} {:?}", posted.volume),
            );
        }
        self.comes_back(&loaded, &image);
        Some(loaded)
    }

    /// A loaded journal is saved to the image that it came from, but for the id, and
    /// to the same records in the other form, unless one has a wide id.
    fn comes_back(&mut self, loaded: &Journal, image: &[u8]) {
        let own = stated(image).expect("an image");
        let id = loaded.volume.id;
        let trailer = image.len() - TRAILER;
        let (first, _) = first_and_id(image);
        let expected = common::image(own, &image[..trailer], first, id);
        let other = match own == 2 && has_wide(image) {
            true => (NotSupported, Vec::new()),
            false => (Success, laid_anew(image, other_form(own), id)),
        };
        for (form, due) in [(own, (Success, expected)), (other_form(own), other)] {
            let saved = self.save(loaded, form, 65_536 + TRAILER);
            check(saved == due, self.test, self.index - 1, || {
                let (status, bytes) = &saved;
                let hex = (Hex(image), Hex(bytes), Hex(&due.1));
                format!("{status} in {form}: loaded, saved and due {hex:?}")
            });
        }
    }
}

/// What a creation at the image's first position and posts of its records leave.
fn posted(before: &Volume, ring: &[u8], image: &[u8], id: u64) -> Journal {
    let mut volume = Volume {
        last: first_and_id(image).0,
        ..*before
    };
    let mut ring = ring.to_vec();
    assert_eq!(volume.create(id), Success);
    for (_, record) in records(image) {
        let change = change_of(&record);
        let status = volume.post(&mut ring, &change, &image[record.name], &mut 0);
        assert_eq!(status, Success);
    }
    Journal { volume, ring }
}

#[test]
fn random_saves_and_loads_agree_with_the_model() {
    let mut run = Run::new("images");
    let (mut journals, mut loaded) = (0, 0);
    let mut forms = [0; 2];
    while run.index < 3 * CALLS {
        let mut journal = Journal::random(&mut run.rng);
        for _ in 0..run.rng.between(1, 12) {
            let image = run.random_save(&journal);
            forms[usize::from(stated(&image) == Some(2))] += 1;
            let mut next = None;
            for _ in 0..run.rng.between(1, 8) {
                next = run.random_load(&journal, &image).or(next);
            }
            // The journal goes on as it was, or as it was loaded.
            if let Some(next) = next {
                loaded += 1;
                journal = next;
            }
            let most = run.rng.below(journal.volume.capacity / 2);
            let wide = common::share_of_wide(&mut run.rng);
            journal.post(&mut run.rng, most, wide);
        }
        journals += 1;
    }
    println!("images: {journals} journals, {loaded} of them went on after a load, {forms:?}");
    assert!(journals > 500 && loaded > 5000);
    assert!(forms.iter().all(|count| *count > 3000), "{forms:?}");
    run.saves.finish(&expected::SAVE, CALLS);
    run.loads.finish(&expected::LOAD, CALLS);
}

// ---- Images that are cut or changed.

/// Images of both forms, small ones and the longest ones.
fn images_to_damage(run: &mut Run) -> Vec<Vec<u8>> {
    let mut images = Vec::new();
    for form in FORMS {
        images.extend(samples(&mut run.rng, form));
        let longest = Journal::longest(&mut run.rng, 20 * (u64::from(form) - 1));
        let (status, image) = run.save(&longest, form, 65_536 + TRAILER);
        assert_eq!(status, Success);
        images.push(image);
    }
    images
}

/// A ring and an output to which nothing that is damaged is loaded or moved, so
/// that they can be lent over and over again.
struct Targets {
    ring: Lent,
    output: Lent,
    moves: Moves,
}

impl Targets {
    fn new(run: &mut Run, test: &'static str) -> Targets {
        Targets {
            ring: Lent::output(&mut run.rng, 65_536),
            output: Lent::output(&mut run.rng, 65_536 + TRAILER),
            moves: Moves::new(test),
        }
    }

    /// What is left of an image is not loaded, and not moved from either form.
    fn refuse(&mut self, run: &mut Run, left: &[u8], what: &str) {
        let status = run.load(&idle(65_536), &mut self.ring, left, 99).0;
        assert_eq!(status, due_of_load(left), "{what}");
        for from in FORMS {
            let moved = self.moves.lend(&mut run.rng, left, from, &mut self.output);
            assert_eq!(moved, (due_of_move(left, from), Vec::new()), "{what}");
        }
    }
}

#[test]
fn an_image_cut_at_any_byte_is_refused() {
    let mut run = Run::new("cut images");
    let mut targets = Targets::new(&mut run, "moves of cut images");
    for form in FORMS {
        let (holder, cut) = trailer_in_a_record(form);
        assert_eq!(due_of_load(&holder[..cut]), FileCorruptError);
        assert_eq!(due_of_move(&holder[..cut], form), FileCorruptError);
    }
    for image in images_to_damage(&mut run) {
        for cut in 0..image.len() {
            targets.refuse(&mut run, &image[..cut], &format!("cut at {cut}"));
        }
        run.expect(&idle(65_536), &image, 99, Success, "whole");
    }
    let refused = [UnknownRevision, FileCorruptError];
    run.loads
        .finish(&[&[Success], &refused[..]].concat(), 100_000);
    targets.moves.counts.finish(&refused, 200_000);
}

#[test]
fn an_image_with_one_word_changed_is_refused() {
    let mut run = Run::new("changed images");
    let mut targets = Targets::new(&mut run, "moves of changed images");
    for image in images_to_damage(&mut run) {
        let mut changed = image.clone();
        for at in (0..image.len()).step_by(4) {
            let old = word(&image, at);
            let bit = old ^ 1 << run.rng.below(32);
            let mut values = vec![bit, run.rng.draw() as u32];
            if image.len() < 2000 {
                values.extend([0, 1, 2, !0, !old, old.wrapping_add(1), old.wrapping_sub(1)]);
                values.extend((0..32).map(|bit| old ^ 1 << bit));
            }
            for value in values.into_iter().filter(|value| *value != old) {
                changed[at..at + 4].copy_from_slice(&value.to_le_bytes());
                targets.refuse(&mut run, &changed, &format!("{value} at {at}"));
            }
            changed[at..at + 4].copy_from_slice(&old.to_le_bytes());
        }
        run.expect(&idle(65_536), &changed, 99, Success, "unchanged");
    }
    let refused = [UnknownRevision, FileCorruptError];
    run.loads
        .finish(&[&[Success], &refused[..]].concat(), 100_000);
    targets.moves.counts.finish(&refused, 200_000);
}

// ---- Images and journals around every limit.

/// An image of one record that is right but for some bytes at a place; its sum
/// is put right.
fn with(form: u32, at: usize, bytes: &[u8]) -> Vec<u8> {
    let mut image = image_of(form, 8, &[2]);
    image[at..at + bytes.len()].copy_from_slice(bytes);
    seal(&mut image);
    image
}

#[test]
fn images_around_every_limit() {
    let mut run = Run::new("images by hand");
    for form in FORMS {
        around_every_limit(&mut run, form);
    }
    run.loads
        .finish(&[Success, UnknownRevision, DiskFull, FileCorruptError], 120);
}

fn around_every_limit(run: &mut Run, form: u32) {
    let version = version_of(form);
    let image_of = |first, names: &[usize]| image_of(form, first, names);
    let image = |body: &[u8], first, id| image(form, body, first, id);
    let with = |at, bytes: &[u8]| with(form, at, bytes);
    let trailer = image_of(8, &[]);
    let one = body(form, 8, &[2]);
    let (usn, end) = (usn_place(form), one.len());
    let good = vec![
        ("a trailer alone", trailer.clone()),
        ("position 0", image_of(0, &[])),
        ("the last position, empty", image_of(NEGATIVE - 8, &[])),
        ("the last position", image_of(NEGATIVE - 88, &[2])),
        ("span 65,536", image_of(8, &names(817, 2))),
        (
            "span 65,536, longest names",
            image_of(8, &[vec![510; 108], names(20, 0)].concat()),
        ),
        ("a name of 510 bytes", image_of(8, &[510])),
        ("id 0", image(&one, 8, 0)),
        ("another id", image(&one, 8, u64::MAX)),
        ("another file", with(8, &[0xFF; 8])),
        ("other ids", with(8, &vec![0xFF; usn - 8])),
        ("another time", with(usn + 8, &[0; 8])),
    ];
    let other_version = |usn| lay_out(version_of(other_form(form)), &CHANGE, usn, b"a\0");
    let bad = vec![
        ("nothing", Vec::new()),
        ("31 bytes", trailer[1..].to_vec()),
        ("31 zeroes", vec![0; 31]),
        ("33 bytes", [&[0], &trailer[..]].concat()),
        ("36 bytes", image(&[0; 4], 8, 7)),
        (
            "a position that is no multiple of 8, empty",
            image(&[], 4, 7),
        ),
        ("a position that is no multiple of 8", image_of(4, &[2])),
        ("position 2^63, empty", image(&[], NEGATIVE, 7)),
        ("position 2^64 - 8", image(&[], u64::MAX - 7, 7)),
        ("past the last position", image_of(NEGATIVE - 80, &[2])),
        ("span 65,544", image_of(8, &names(816, 3))),
        ("span 65,616", image_of(8, &names(818, 2))),
        ("the other version", image(&other_version(88), 8, 7)),
        (
            "the other version, chained as the form's own",
            image(&other_version(if form == 1 { 104 } else { 72 }), 8, 7),
        ),
        (
            "the other version behind",
            image(&[&one[..], &other_version(168)].concat(), 8, 7),
        ),
        (
            "the other version before",
            image(
                &[other_version(88), lay_out(version, &CHANGE, 168, b"a\0")].concat(),
                8,
                7,
            ),
        ),
        ("the other form's number", {
            let mut image = image(&one, 8, 7);
            let at = image.len() - 4;
            image[at] = other_form(form) as u8;
            seal(&mut image);
            image
        }),
        ("a name of 0 bytes", image_of(8, &[0])),
        ("a name of 3 bytes", image_of(8, &[3])),
        ("a name of 512 bytes", image_of(8, &[512])),
        ("Reason 0", with(usn + 16, &[0; 4])),
        ("attributes 0", with(usn + 28, &[0; 4])),
        ("padding", with(end - 1, &[1])),
        ("a shorter name than the length says", with(usn + 32, &[0])),
        (
            "the other version's name offset",
            with(usn + 34, &[if form == 1 { 76 } else { 60 }]),
        ),
        ("a minor version", with(6, &[1])),
        ("a Usn below", with(usn, &80u64.to_le_bytes())),
        ("a Usn above", with(usn, &96u64.to_le_bytes())),
        (
            "a chain by the length in version 2",
            with(usn, &72u64.to_le_bytes()),
        ),
        (
            "a chain by the length and 16 bytes more",
            with(usn, &104u64.to_le_bytes()),
        ),
        ("another first position", image(&one, 16, 7)),
        ("two records exchanged", {
            image(&[&body(form, 88, &[2])[..], &one].concat(), 8, 7)
        }),
        ("half a record", image(&one[..32], 8, 7)),
        (
            "zeroes behind the records",
            image(&[&one[..], &[0; 8]].concat(), 8, 7),
        ),
        ("a word that is not zero", with(end, &[1])),
        (
            "a body longer than there is",
            with(end + 4, &[end as u8 + 8]),
        ),
        ("a body shorter than there is", with(end + 4, &[0])),
        ("a sum over itself", {
            let mut image = image_of(8, &[2]);
            let own = image.len() - 8;
            let sum = word(&image, own);
            image[own..own + 4].copy_from_slice(&sum.wrapping_mul(2).to_le_bytes());
            image
        }),
    ];
    let mut unknown = vec![
        ("32 zeroes", vec![0; 32]),
        ("a byte behind", [&trailer[..], &[0]].concat()),
        (
            "the form and nothing behind it but zeroes",
            [&trailer[..], &[0; 4]].concat(),
        ),
    ];
    for number in NO_FORMS {
        let mut image = image_of(8, &[2]);
        let at = image.len() - 4;
        image[at..].copy_from_slice(&number.to_le_bytes());
        seal(&mut image);
        unknown.push(("another form", image));
    }
    for (status, images) in [
        (Success, good),
        (FileCorruptError, bad),
        (UnknownRevision, unknown),
    ] {
        for (what, image) in images {
            run.expect(&idle(65_536), &image, 99, status, what);
        }
    }

    // Rings that the records fill, and that are 8 bytes too short.
    for (capacity, filling, above) in [
        (1024, names(4, 8), names(3, 9)),
        (65_528, names(818, 1), names(817, 2)),
    ] {
        let first = 8 * run.rng.below(1 << 40);
        let volume = idle(capacity);
        run.expect(&volume, &image_of(first, &filling), 99, Success, "filling");
        run.expect(&volume, &image_of(first, &above), 99, DiskFull, "above");
    }
    // The image's own id may be the last one used, and the new one any other.
    for id in [1, 6, 8, u64::MAX] {
        run.expect(&idle(1024), &image_of(8, &[2]), id, Success, "a new id");
    }
}

/// What a load is called with.
struct Load {
    form: u32,
    volume: Volume,
    lent: usize,
    image: Vec<u8>,
    id: u64,
}

#[test]
fn the_first_status_of_a_load_is_given() {
    let faults: [Fault<Load>; 13] = [
        (InvalidDeviceRequest, |load| load.volume.journal = 0),
        (JournalDeleteInProgress, |load| load.volume.state = 2),
        (InvalidParameter, |load| load.volume.state = 1),
        (UnknownRevision, |load| {
            let at = load.image.len() - 4;
            load.image[at] = 3;
        }),
        (FileCorruptError, |load| load.image[40] ^= 1),
        (FileCorruptError, |load| {
            let at = load.image.len() - TRAILER;
            load.image[at] = 1;
        }),
        (FileCorruptError, |load| load.lent = 1016),
        (FileCorruptError, |load| {
            (load.volume.capacity, load.lent) = (1020, 1020)
        }),
        (FileCorruptError, |load| load.volume.capacity = 65_544),
        (InvalidParameter, |load| load.id = 0),
        (InvalidParameter, |load| load.id = 8),
        (InvalidParameter, |load| load.id = load.volume.id),
        (DiskFull, |load| {
            load.image = image(load.form, &body(load.form, 8, &[2; 13]), 8, 8);
        }),
    ];
    let mut run = Run::new("orders of a load");
    for form in FORMS {
        let fresh = || Load {
            form,
            volume: idle(1024),
            lent: 1024,
            image: image(form, &body(form, 8, &[2; 12]), 8, 8),
            id: 9,
        };
        try_sets(&faults, fresh, |load| {
            let mut ring = Lent::output(&mut run.rng, load.lent);
            run.load(&load.volume, &mut ring, &load.image, load.id).0
        });
    }
    run.loads.finish(&expected::LOAD, 2 << faults.len());
}

/// What a save is called with.
struct Save {
    journal: Journal,
    form: u32,
    room: usize,
}

/// A journal with id 8 that an image of records with these names was loaded to.
fn loaded(run: &mut Run, first: u64, capacity: u64, names: &[usize]) -> Journal {
    let mut ring = Lent::output(&mut run.rng, capacity as usize);
    let form = run.rng.pick(&FORMS);
    let image = image_of(form, first, names);
    let (status, volume) = run.load(&idle(capacity), &mut ring, &image, 8);
    assert_eq!(status, Success);
    Journal {
        volume,
        ring: ring.library[..ring.length].to_vec(),
    }
}

#[test]
fn the_first_status_of_a_save_is_given() {
    let faults: [Fault<Save>; 15] = [
        (InvalidDeviceRequest, |save| save.journal.volume.journal = 0),
        (UnknownRevision, |save| save.form += 0x100),
        (JournalDeleteInProgress, |save| {
            save.journal.volume.state = 2
        }),
        (JournalNotActive, |save| save.journal.volume.state = 0),
        (JournalNotActive, |save| save.journal.volume.state = 0x101),
        (FileCorruptError, |save| save.journal.ring[120] ^= 1),
        (FileCorruptError, |save| save.journal.volume.first += 8),
        (FileCorruptError, |save| save.journal.volume.last += 8),
        (FileCorruptError, |save| save.journal.volume.last = NEGATIVE),
        (FileCorruptError, |save| save.journal.volume.capacity = 1016),
        (FileCorruptError, |save| save.journal.ring.push(0)),
        // an upper byte of the oldest record's file id, of the next one's parent id
        (NotSupported, |save| save.journal.ring[23] = 1),
        (NotSupported, |save| save.journal.ring[80 + 32] = 0x80),
        (BufferTooSmall, |save| {
            save.room = save.room.saturating_sub(1)
        }),
        (BufferTooSmall, |save| save.room = 0),
    ];
    let mut run = Run::new("orders of a save");
    let journal = loaded(&mut run, 0, 1024, &[2; 12]);
    for form in FORMS {
        let length = image_of(form, 0, &[2; 12]).len();
        for room in [length, length + 1, 1024 + TRAILER, 70_000] {
            let (status, saved) = run.save(&journal, form, room);
            assert_eq!((status, saved.len()), (Success, length));
        }
        let fresh = || Save {
            journal: journal.clone(),
            form,
            room: length,
        };
        // Form 2 has room for a wide id.
        let in_form: Vec<Fault<Save>> = faults
            .into_iter()
            .filter(|(status, _)| form == 1 || *status != NotSupported)
            .collect();
        try_sets(&in_form, fresh, |save| {
            run.save(&save.journal, save.form, save.room).0
        });
    }
    run.saves.finish(&expected::SAVE, 1 << faults.len());
}

#[test]
fn saves_around_every_limit() {
    let mut run = Run::new("saves by hand");
    let journals = [
        (0, 1024, names(0, 0)),
        (8, 1024, names(1, 0)),
        (8, 1024, names(4, 8)),
        (1000, 1032, vec![510]),
        (NEGATIVE - 88, 4096, names(1, 0)),
        (NEGATIVE - 8, 4096, names(0, 0)),
        (80, 65_536, names(817, 2)),
        (80, 65_536, vec![510; 110]),
    ];
    for (first, capacity, names) in journals {
        let journal = loaded(&mut run, first, capacity, &names);
        for form in FORMS {
            let due = image(form, &body(form, first, &names), first, 8);
            for room in [0, 31, due.len() - 1, due.len(), due.len() + 1] {
                let saved = run.save(&journal, form, room);
                let due = match room < due.len() {
                    true => (BufferTooSmall, Vec::new()),
                    false => (Success, due.clone()),
                };
                assert_eq!(saved, due, "room {room}");
            }
        }
        for form in NO_FORMS {
            let refused = (UnknownRevision, Vec::new());
            assert_eq!(run.save(&journal, form, 70_000), refused);
        }
    }
    run.saves
        .finish(&[Success, BufferTooSmall, UnknownRevision], 80);
}
