//! Journals and their images: made at random or by the layout, taken apart,
//! damaged, and moved by the library and the model.

use super::{any_change, any_name, change_of, check, image, is_wide, last_usn, lay_out};
use super::{name, name_length, plant_excluded, plant_some, record_length, seal, share_of_wide};
use super::{other_form, version_of, Counts, Hex, Lent, Rng, CHANGE, FORMS, TRAILER};
use lanhduxe::Status::{self, *};
use lanhduxe::{move_image, read_record, Change, FileId, Record, Volume};

// ---- Reading.

/// The 32-bit number at a place.
pub fn word(bytes: &[u8], at: usize) -> u32 {
    u32::from_le_bytes(bytes[at..at + 4].try_into().expect("four bytes"))
}

/// The 64-bit number at a place.
pub fn long(bytes: &[u8], at: usize) -> u64 {
    u64::from_le_bytes(bytes[at..at + 8].try_into().expect("eight bytes"))
}

/// The number where an image has its form, if there is room for a trailer.
pub fn stated(image: &[u8]) -> Option<u32> {
    image.len().checked_sub(TRAILER)?;
    Some(word(image, image.len() - 4))
}

/// The first position and the journal's id, which stand in the trailer.
pub fn first_and_id(image: &[u8]) -> (u64, u64) {
    let trailer = image.len() - TRAILER;
    (long(image, trailer + 8), long(image, trailer + 16))
}

/// The records of an image, with the places where they begin.
pub fn records(image: &[u8]) -> Vec<(usize, Record)> {
    let body = &image[..image.len() - TRAILER];
    let mut found = Vec::new();
    let mut at = 0;
    while let Some(record) = read_record(body, at) {
        let next = record.next;
        found.push((at, record));
        at = next;
    }
    found
}

/// One of an image's records, and where it begins.
pub fn some_record(rng: &mut Rng, image: &[u8]) -> (usize, Record) {
    let mut records = records(image);
    records.swap_remove(rng.below(records.len() as u64) as usize)
}

/// Whether a record of an image has an id that form 1 has no room for.
pub fn has_wide(image: &[u8]) -> bool {
    records(image)
        .iter()
        .any(|(_, record)| is_wide(&change_of(record)))
}

/// The image of the same records in a form and under an id, laid out from their
/// fields.
pub fn laid_anew(bytes: &[u8], form: u32, id: u64) -> Vec<u8> {
    let version = version_of(form);
    let mut body = Vec::new();
    for (_, record) in records(bytes) {
        let name = &bytes[record.name.clone()];
        body.extend(lay_out(version, &change_of(&record), record.usn, name));
    }
    image(form, &body, first_and_id(bytes).0, id)
}

/// The image in the other form.
pub fn other(image: &[u8]) -> Vec<u8> {
    let form = stated(image).expect("an image");
    laid_anew(image, other_form(form), first_and_id(image).1)
}

/// The status that is due for loading what is left of an image.
pub fn due_of_load(image: &[u8]) -> Status {
    match stated(image) {
        Some(form) if !FORMS.contains(&form) => UnknownRevision,
        _ => FileCorruptError,
    }
}

/// The status that is due for moving it from a form.
pub fn due_of_move(image: &[u8], from: u32) -> Status {
    match stated(image) {
        _ if !FORMS.contains(&from) => UnknownRevision,
        Some(form) if form != from => UnknownRevision,
        _ => FileCorruptError,
    }
}

// ---- Journals.

/// A volume record and its ring.
#[derive(Clone, Debug, PartialEq, Eq)]
pub struct Journal {
    pub volume: Volume,
    pub ring: Vec<u8>,
}

impl Journal {
    /// A journal that posts have left: empty, with some records, or gone round. Of
    /// its records as many as in `share_of_wide` have a wide id.
    pub fn random(rng: &mut Rng) -> Journal {
        let capacity = super::capacity(rng);
        let mut volume = Volume {
            usn: rng.word(),
            regions: rng.word(),
            reparse: rng.word(),
            points: rng.word(),
            journal: rng.yes(),
            last: last_usn(rng),
            capacity,
            ..Volume::default()
        };
        let id = rng.long().max(1);
        assert_eq!(volume.create(id), Success);
        let ring = rng.bytes(capacity as usize);
        let mut journal = Journal { volume, ring };
        let most = match rng.below(8) {
            0 => 0,
            1 => 80,
            2..=4 => rng.below(capacity),
            _ => 2 * capacity,
        };
        let wide = share_of_wide(rng);
        journal.post(rng, most, wide);
        journal
    }

    /// A full journal in the longest ring.
    pub fn longest(rng: &mut Rng, wide: u64) -> Journal {
        let mut journal = Journal {
            volume: idle(65_536),
            ring: vec![0; 65_536],
        };
        assert_eq!(journal.volume.create(8), Success);
        journal.post(rng, 140_000, wide);
        journal
    }

    /// Posts about so many bytes of records, `wide` times out of a hundred with a
    /// wide id.
    pub fn post(&mut self, rng: &mut Rng, most: u64, wide: u64) {
        let mut posted = 0;
        while posted < most {
            let change = any_change(rng, wide);
            let length = name_length(rng, 0);
            let name = name(rng, length);
            self.volume.post(&mut self.ring, &change, &name, &mut 0);
            posted += record_length(3, length) as u64;
        }
    }

    /// What a save in a form gives, with room for any image.
    pub fn saved(&self, form: u32) -> (Status, Vec<u8>) {
        let mut output = vec![0; self.ring.len() + TRAILER];
        let answer = self.volume.save_journal(&self.ring, form, &mut output);
        output.truncate(answer.count);
        (answer.status, output)
    }
}

/// A volume with an idle journal, and nothing but the journal's support.
pub fn idle(capacity: u64) -> Volume {
    Volume {
        journal: 1,
        id: 7,
        capacity,
        ..Volume::default()
    }
}

// ---- Images by the layout.

/// Records with names of these lengths, as a form has them, from a position on.
pub fn body(form: u32, first: u64, names: &[usize]) -> Vec<u8> {
    let mut bytes = Vec::new();
    let mut last = first;
    for length in names {
        last += record_length(3, *length) as u64;
        let name = vec![0x61; *length];
        bytes.extend(lay_out(version_of(form), &CHANGE, last, &name));
    }
    bytes
}

/// The image of such records.
pub fn image_of(form: u32, first: u64, names: &[usize]) -> Vec<u8> {
    image(form, &body(form, first, names), first, 7)
}

/// Names whose records span 80 and 88 bytes, so many of each.
pub fn names(short: usize, longer: usize) -> Vec<usize> {
    [vec![2; short], vec![6; longer]].concat()
}

/// An image whose one record holds a trailer, from the Usn to the attributes: cut
/// behind it, the bytes before it, their number, the sum and the form are right.
/// They are no whole record. Gives the image and the place to cut.
pub fn trailer_in_a_record(form: u32) -> (Vec<u8>, usize) {
    let begin = usn_place(form);
    let usn = (begin as u64) << 32; // the zero word, and the bytes before it
    let mut change = Change {
        time: 4096,
        reason: 9,
        source: 0,
        attributes: form,
        ..CHANGE
    };
    let record = |change: &Change| lay_out(version_of(form), change, usn, b"a\0");
    let whole = |change: &Change| image(form, &record(change), usn - 80, 7);
    let inner = image(form, &whole(&change)[..begin], 4096, 9);
    change.security = word(&inner, begin + 24);
    let whole = whole(&change);
    assert!(whole.starts_with(&inner));
    (whole, inner.len())
}

/// Images to cut and to change: the empty one, those with one record and several,
/// with a record whose words are 1, with ids of all bytes that the form has, and
/// with a record that holds a trailer.
pub fn samples(rng: &mut Rng, form: u32) -> Vec<Vec<u8>> {
    let version = version_of(form);
    let ones = Change {
        file: FileId::new(0x1_0000_0001),
        parent: FileId::new(0x1_0000_0001),
        time: 0x1_0000_0001,
        reason: 1,
        source: 1,
        security: 1,
        attributes: 1,
    };
    let full = Change {
        file: FileId::new(u128::MAX),
        parent: FileId::new(u128::MAX - 1),
        ..CHANGE
    };
    let any = Change {
        reason: 1,
        ..any_change(rng, 0)
    };
    let mut several = lay_out(version, &any, 1088, b"a\0");
    several.extend(lay_out(version, &ones, 1088 + 200, &[0x61; 120]));
    several.extend(lay_out(version, &CHANGE, 1288 + 592, &name(rng, 510)));
    vec![
        image_of(form, 4096, &[]),
        image_of(form, 4096, &[2]),
        image_of(form, 8, &[4; 12]),
        image(form, &several, 1008, 5),
        image(form, &lay_out(version, &full, 88, b"a\0"), 8, 5),
        trailer_in_a_record(form).0,
    ]
}

/// An image made by the layout alone, `wide` times out of a hundred with a wide id
/// where the form has room for one. Its records may span too much, have a wrong
/// name, by its length or by a unit, or no Reason, or pass the last position.
pub fn made(rng: &mut Rng, form: u32, wide: u64) -> Vec<u8> {
    let first = last_usn(rng) + rng.pick(&[0, 0, 0, 0, 0, 0, 0, 4]);
    let most = match rng.below(8) {
        0 => 65_536 + rng.pick(&[0, 80, 592]),
        _ => rng.below(3000),
    };
    let (no_reason, bad_names) = (rng.percent(10), 20 * rng.below(2));
    let planted = rng.pick(&[40, u64::MAX]);
    let mut body = Vec::new();
    let mut last = first;
    loop {
        let mut change = any_change(rng, wide);
        if !no_reason {
            change.reason |= 1;
        }
        let length = name_length(rng, bad_names);
        last += record_length(3, length) as u64;
        if last - first > most {
            return image(form, &body, first, rng.long());
        }
        let name = any_name(rng, length, planted);
        body.extend(lay_out(version_of(form), &change, last, &name));
    }
}

// ---- Damage.

/// Where a record has its Usn in an image of a form.
pub fn usn_place(form: u32) -> usize {
    match version_of(form) {
        2 => 24,
        _ => 40,
    }
}

/// The parts of an image that are damaged.
#[derive(Clone, Copy, Debug, PartialEq, Eq)]
pub enum Part {
    ZeroWord,
    BodyLength,
    First,
    Sum,
    Form,
    RecordLength,
    Version,
    OtherVersion,
    Usn,
    Reason,
    Attributes,
    NameLength,
    NameOffset,
    Name,
    Padding,
    End,
    Front,
}

impl Part {
    pub const ALL: [Part; 17] = [
        Part::ZeroWord,
        Part::BodyLength,
        Part::First,
        Part::Sum,
        Part::Form,
        Part::RecordLength,
        Part::Version,
        Part::OtherVersion,
        Part::Usn,
        Part::Reason,
        Part::Attributes,
        Part::NameLength,
        Part::NameOffset,
        Part::Name,
        Part::Padding,
        Part::End,
        Part::Front,
    ];

    /// Whether it is a part of a record.
    pub fn is_in_record(self) -> bool {
        Part::RecordLength as u32 <= self as u32 && self as u32 <= Part::Padding as u32
    }
}

/// Another number than one that stands at a place, near it or any.
fn another(rng: &mut Rng, bytes: &mut [u8]) {
    let mut number = [0; 8];
    number[..bytes.len()].copy_from_slice(bytes);
    let number = u64::from_le_bytes(number);
    let before = bytes.to_vec();
    while bytes == before {
        let step = rng.pick(&[1, 2, 4, 8, 16, 80, 1 << 8, 1 << 31, 1 << 63]);
        let any = rng.long();
        let up = number.wrapping_add(step);
        let down = number.wrapping_sub(step);
        let drawn = rng.pick(&[number ^ step, up, down, any, 0]);
        bytes.copy_from_slice(&drawn.to_le_bytes()[..bytes.len()]);
    }
}

/// Damages a part of an image, which has records if it is a part of one. Its sum is
/// put right, unless it is the part: what is left is no image of the form, by that
/// part alone.
pub fn damaged(rng: &mut Rng, bytes: &[u8], part: Part) -> Vec<u8> {
    let trailer = bytes.len() - TRAILER;
    let mut changed = bytes.to_vec();
    match part {
        Part::ZeroWord => another(rng, &mut changed[trailer..trailer + 4]),
        Part::BodyLength => another(rng, &mut changed[trailer + 4..trailer + 8]),
        // Without records any other position may be right.
        Part::First if trailer == 0 => changed[8] ^= 1 << rng.below(3),
        Part::First => another(rng, &mut changed[trailer + 8..trailer + 16]),
        Part::Form => another(rng, &mut changed[trailer + 28..]),
        Part::Sum => {
            another(rng, &mut changed[trailer + 24..trailer + 28]);
            return changed;
        }
        Part::End | Part::Front => {
            let more = vec![0; 4 * rng.between(1, 20) as usize];
            let body = match part {
                Part::Front => [&more, &bytes[..trailer]].concat(),
                _ => [&bytes[..trailer], &more].concat(),
            };
            return with_body(bytes, &body);
        }
        _ => return damaged_record(rng, bytes, part),
    }
    seal(&mut changed);
    changed
}

/// Damages a part of one of the records.
fn damaged_record(rng: &mut Rng, bytes: &[u8], part: Part) -> Vec<u8> {
    let form = stated(bytes).expect("an image");
    let mut changed = bytes.to_vec();
    let (at, record) = some_record(rng, bytes);
    let usn = at + usn_place(form);
    match part {
        Part::RecordLength => another(rng, &mut changed[at..at + 4]),
        Part::Version => another(rng, &mut changed[at + 4..at + 8]),
        Part::Usn => another(rng, &mut changed[usn..usn + 8]),
        Part::Reason => changed[usn + 16..usn + 20].fill(0),
        Part::Attributes => changed[usn + 28..usn + 32].fill(0),
        Part::NameLength => another(rng, &mut changed[usn + 32..usn + 34]),
        Part::NameOffset => another(rng, &mut changed[usn + 34..usn + 36]),
        Part::Name => plant_excluded(rng, &mut changed[record.name]),
        // A name without padding gets an odd length instead.
        Part::Padding if record.name.end == record.next => changed[usn + 32] ^= 1,
        Part::Padding => {
            let place = rng.between(record.name.end as u64, record.next as u64 - 1);
            changed[place as usize] = rng.between(1, 255) as u8;
        }
        Part::OtherVersion => {
            let version = version_of(other_form(form));
            let name = &bytes[record.name.clone()];
            let laid = lay_out(version, &change_of(&record), record.usn, name);
            let behind = &bytes[record.next..bytes.len() - TRAILER];
            return with_body(bytes, &[&bytes[..at], &laid, behind].concat());
        }
        _ => panic!("{part:?} is in no record"),
    }
    seal(&mut changed);
    changed
}

/// An image with other bytes before its trailer, whose length and sum are right.
fn with_body(bytes: &[u8], body: &[u8]) -> Vec<u8> {
    let (first, id) = first_and_id(bytes);
    image(stated(bytes).expect("an image"), body, first, id)
}

/// An image with something changed: sound ones too, where its sum is put right
/// behind a change that does no harm.
pub fn changed(rng: &mut Rng, bytes: &[u8]) -> Vec<u8> {
    let form = stated(bytes).expect("an image");
    let mut changed = bytes.to_vec();
    let trailer = bytes.len() - TRAILER;
    let found = records(bytes);
    match rng.below(15) {
        0 => {
            let at = rng.below(bytes.len() as u64) as usize;
            changed[at] ^= 1 << rng.below(8);
        }
        1..=2 => {
            let at = 4 * rng.below(bytes.len() as u64 / 4) as usize;
            changed[at..at + 4].copy_from_slice(&rng.word().to_le_bytes());
        }
        // A field of the trailer, to a number that is near or any.
        3..=5 => {
            let (at, size) = rng.pick(&[(0, 4), (4, 4), (8, 8), (16, 8), (24, 4), (28, 4)]);
            another(rng, &mut changed[trailer + at..trailer + at + size]);
        }
        6 => changed.truncate(rng.below(bytes.len() as u64) as usize),
        7 => {
            let more = rng.between(1, 40) as usize;
            changed.extend(rng.bytes(more));
        }
        // A field of a record, to none, all, or one bit more or less.
        8..=9 if !found.is_empty() => {
            let (record, _) = some_record(rng, bytes);
            let usn = usn_place(form);
            let (at, size) = rng.pick(&[
                (0, 4),
                (4, 4),
                (8, usn - 8),
                (usn, 8),
                (usn + 16, 4),
                (usn + 28, 4),
                (usn + 32, 2),
                (usn + 34, 2),
            ]);
            let bit = rng.below(8 * size as u64) as usize;
            let field = &mut changed[record + at..record + at + size];
            match rng.below(3) {
                0 => field.fill(0),
                1 => field.fill(0xFF),
                _ => field[bit / 8] ^= 1 << (bit % 8),
            }
        }
        // A unit of a name.
        10 if !found.is_empty() => {
            let (_, record) = some_record(rng, bytes);
            plant_some(rng, &mut changed[record.name]);
        }
        // The records behind one of them: an image again.
        11 if !found.is_empty() => {
            let (_, record) = some_record(rng, bytes);
            let body = &bytes[record.next..trailer];
            let id = first_and_id(bytes).1;
            changed = image(form, body, record.usn, id);
        }
        // The number of the other form, and a record of its version.
        12 => {
            let number = other_form(form).to_le_bytes();
            changed[trailer + 28..].copy_from_slice(&number);
        }
        13 if !found.is_empty() => return damaged(rng, bytes, Part::OtherVersion),
        _ => changed = short(rng, 100),
    }
    if rng.percent(60) {
        seal(&mut changed);
    }
    changed
}

/// Fewer bytes than so many, which mostly end with the number of a form.
pub fn short(rng: &mut Rng, most: u64) -> Vec<u8> {
    let length = rng.below(most) as usize;
    let mut bytes = rng.bytes(length);
    if rng.percent(20) {
        bytes.fill(0);
    }
    if let Some(form) = length.checked_sub(4) {
        let number = rng.pick(&[1, 1, 2, 2, 3]);
        bytes[form..].copy_from_slice(&u32::to_le_bytes(number));
    }
    bytes
}

// ---- Moves.

/// Moves by the library and the model, which are compared.
pub struct Moves {
    test: &'static str,
    pub counts: Counts,
    pub index: u64,
}

impl Moves {
    pub fn new(test: &'static str) -> Moves {
        Moves {
            test,
            counts: Counts::new(test),
            index: 0,
        }
    }

    /// Moves into a lent output and compares every byte of it. Gives the status and
    /// the moved image. After a refusal the output can be lent again.
    pub fn lend(
        &mut self,
        rng: &mut Rng,
        image: &[u8],
        from: u32,
        output: &mut Lent,
    ) -> (Status, Vec<u8>) {
        let mut lent = Lent::holding(rng, image);
        let answer = move_image(lent.for_library(), from, output.for_library());
        let model = model::move_image(image, from, output.for_model());
        self.counts.add(answer.status);
        check(
            (answer.status.number(), answer.count) == model
                && output.agrees(answer.count)
                && lent.same()
                && (answer.count > 0) == (answer.status == Success),
            self.test,
            self.index,
            || {
                format!(
                    "move from {from}: library {answer:?}, model {model:x?}\nimage {:?}\n\
                     output before {:?} (lent {})\nlibrary's {:?}\nmodel's {:?}",
                    Hex(image),
                    Hex(&output.before),
                    output.length,
                    Hex(&output.library),
                    Hex(&output.model)
                )
            },
        );
        self.index += 1;
        (answer.status, output.library[..answer.count].to_vec())
    }

    /// The same with a fresh output of so many bytes.
    pub fn call(
        &mut self,
        rng: &mut Rng,
        image: &[u8],
        from: u32,
        room: usize,
    ) -> (Status, Vec<u8>) {
        let mut output = Lent::output(rng, room);
        self.lend(rng, image, from, &mut output)
    }
}

// ---- Orders of statuses.

/// A fault, and the status that it has if no other comes before.
pub type Fault<T> = (Status, fn(&mut T));

/// Every set of faults out of a list in the order of their statuses: `call` is
/// given what they leave of a call without faults, and has to answer with the
/// first one's status. Where two change the same thing, the first one's stands.
pub fn try_sets<T>(faults: &[Fault<T>], fresh: impl Fn() -> T, mut call: impl FnMut(&T) -> Status) {
    for set in 0..1u32 << faults.len() {
        let chosen = |number: &usize| set >> number & 1 == 1;
        let mut lent = fresh();
        for number in (0..faults.len()).rev().filter(chosen) {
            faults[number].1(&mut lent);
        }
        let first = (0..faults.len()).find(chosen);
        let due = first.map_or(Success, |number| faults[number].0);
        assert_eq!(call(&lent), due, "faults {set:#b}");
    }
}
