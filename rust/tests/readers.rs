//! Readers of one journal over whole lists of calls: what they are handed, when
//! they are told that records are gone, and that they reach the journal's end.
//! Where a list ends with a save and the next one begins with a load, they go on
//! from where they stand, under the new id. In between the image may be moved to
//! the other form and back.
//!
//! They read in both versions, and records have wide ids: in version 2 a reader
//! comes to the first such record that it selects, and no further.
//!
//! A reparse point that is set or deleted is a post too, where it succeeds and the
//! post is not skipped.
//!
//! Nothing here looks into the ring. A history is kept from the calls' arguments
//! alone, and the records that readers were handed are compared with the history,
//! laid out anew.

mod common;

use common::points::{damage, data_length, lay_out_point, tag_and_guid};
use common::points::{Arguments, Kind, KINDS, REASON, STORE};
use common::{check, expected, holds_excluded, is_wide, lay_out, record_length, selects};
use common::{model_file, model_volume};
use common::{other_form, version_of, FORMS, NO_FORMS};
use common::{Counts, Hex, ReadInput, Rng, GUARD, NEGATIVE, TRAILER};
use lanhduxe::{move_image, Change, FileRecord, Status, Volume};

const TEST: &str = "readers";
const CALLS: u64 = 300_000;

/// A record that was posted.
struct Posted {
    usn: u64,
    change: Change,
    name: Vec<u8>,
}

impl Posted {
    /// Whether version 2 cannot show it.
    fn is_wide(&self) -> bool {
        is_wide(&self.change)
    }
}

/// A file whose point is set and deleted: its record, and its store with guard
/// bytes behind it.
#[derive(Clone, PartialEq, Eq)]
struct Linked {
    record: FileRecord,
    store: Vec<u8>,
}

/// A call that sets or deletes a point.
struct PointCall {
    kind: Kind,
    change: Change,
    name: Vec<u8>,
    input: Vec<u8>,
}

impl PointCall {
    fn arguments(&self) -> Arguments<'_> {
        Arguments {
            change: &self.change,
            name: &self.name,
            input: &self.input,
        }
    }
}

/// The history of one list, from its creation on. A load goes on with the one
/// that was saved.
struct History {
    /// The volume record as the creation or the load found it: what it supports
    /// stays so.
    found: Volume,
    live: bool,
    id: u64,
    capacity: u64,
    created: u64,
    first: u64,
    end: u64,
    posted: Vec<Posted>,
    /// How many of the posted records have been dropped, oldest first.
    dropped: usize,
}

impl History {
    /// The history of a creation that finds this volume record and this length of
    /// the lent buffer.
    fn new(found: &Volume, lent: usize, id: u64) -> History {
        History {
            found: *found,
            live: found.journal != 0 && lent as u64 == found.capacity,
            id,
            capacity: found.capacity,
            created: found.last,
            first: found.last,
            end: found.last,
            posted: Vec::new(),
            dropped: 0,
        }
    }

    /// The history after a load of what this one keeps: of a creation at the
    /// first kept position and posts of the kept records. What was dropped before
    /// stays dropped.
    fn loaded(self, found: &Volume, id: u64) -> History {
        History {
            found: *found,
            live: true,
            id,
            capacity: found.capacity,
            created: self.first,
            ..self
        }
    }

    /// Whether a record is kept that an image of a form cannot hold.
    fn keeps_too_wide(&self, form: u32) -> bool {
        form == 1 && self.posted[self.dropped..].iter().any(Posted::is_wide)
    }

    /// The image of what is kept, in a form. Of a wide id it has what its version
    /// has room for.
    fn image(&self, form: u32) -> Vec<u8> {
        let mut body = Vec::new();
        for record in &self.posted[self.dropped..] {
            body.extend(lay_out(
                version_of(form),
                &record.change,
                record.usn,
                &record.name,
            ));
        }
        common::image(form, &body, self.first, self.id)
    }

    /// Notes a post; true if the record counts as posted.
    fn post(&mut self, change: &Change, name: &[u8]) -> bool {
        let length = record_length(3, name.len()) as u64;
        let accepted = name.len().is_multiple_of(2)
            && !name.is_empty()
            && name.len() <= 510
            && !holds_excluded(name);
        if !self.live || change.reason == 0 || !accepted || self.end + length >= NEGATIVE {
            return false;
        }
        self.end += length;
        self.posted.push(Posted {
            usn: self.end,
            change: *change,
            name: name.to_vec(),
        });
        while self.end - self.first > self.capacity {
            self.first = self.posted[self.dropped].usn;
            self.dropped += 1;
        }
        true
    }

    /// What a set or a delete leaves of a file, but for the Usn, if nothing but its
    /// post can refuse it. The model says so for a volume without a journal, where
    /// posts are skipped.
    fn changed_point(&self, file: &Linked, call: &PointCall) -> Option<Linked> {
        let mut volume = model::Volume {
            journal: 0,
            ..model_volume(&self.found)
        };
        let mut record = model_file(&file.record);
        let mut store = file.store.clone();
        let lent = &mut store[..STORE];
        let status = call
            .kind
            .by_model(&mut volume, &mut [], &mut record, lent, call.arguments());
        let record = FileRecord {
            tag: record.tag,
            guid: record.guid,
            length: record.length,
            ..file.record
        };
        (status == Status::Success.number()).then_some(Linked { record, store })
    }

    /// Notes a set or a delete that only its post can refuse; true if that counts
    /// as posted.
    fn post_of_point(&mut self, call: &PointCall) -> bool {
        let change = Change {
            reason: REASON,
            ..call.change
        };
        self.post(&change, &call.name)
    }

    fn delete(&mut self, id: u64) {
        if id == self.id {
            self.live = false;
        }
    }

    /// Whether a record with a Usn above a position has been dropped.
    fn dropped_above(&self, position: u64) -> bool {
        self.posted[..self.dropped]
            .iter()
            .rev()
            .any(|record| record.usn > position)
    }

    /// The records with a Usn above a position that a filter selects.
    fn selected_above(
        &self,
        position: u64,
        mask: u32,
        only_on_close: u32,
    ) -> impl Iterator<Item = &Posted> {
        let from = self.posted.partition_point(|record| record.usn <= position);
        self.posted[from..]
            .iter()
            .filter(move |record| selects(mask, only_on_close, record.change.reason))
    }

    /// The records that are due to a reader from its position on.
    fn due(&self, reader: &Reader) -> impl Iterator<Item = &Posted> {
        self.selected_above(reader.position, reader.mask, reader.only_on_close)
    }

    /// The first of them.
    fn next(&self, reader: &Reader) -> Option<&Posted> {
        self.due(reader).next()
    }

    /// Whether a well-formed read brings a reader on: in version 3, or in version
    /// 2 if none of the records that are due has a wide id.
    fn brings_on(&self, reader: &Reader, version: u16) -> bool {
        version == 3 || !self.due(reader).any(Posted::is_wide)
    }
}

/// A reader with one filter.
#[derive(Debug)]
struct Reader {
    start: u64,
    mask: u32,
    only_on_close: u32,
    version: u16,
    position: u64,
    /// The records of each reply, with the reply's version.
    replies: Vec<(u16, Vec<u8>)>,
}

impl Reader {
    fn new(rng: &mut Rng, start: u64) -> Reader {
        Reader {
            start,
            mask: common::mask(rng),
            only_on_close: rng.pick(&[0, 0, 0, 1, 0x8000_0000]),
            version: rng.pick(&[2, 3]),
            position: start,
            replies: Vec::new(),
        }
    }

    /// Whether it has been handed exactly the selected records with a Usn above
    /// its start and at most its position: once each, in order, byte for byte, and
    /// none in version 2 that this version cannot show.
    fn handed_what_is_due(&self, history: &History) -> bool {
        let mut due = history
            .selected_above(self.start, self.mask, self.only_on_close)
            .take_while(|record| record.usn <= self.position);
        for (version, reply) in &self.replies {
            let mut rest = &reply[..];
            while !rest.is_empty() {
                let Some(record) = due.next() else {
                    return false;
                };
                if *version == 2 && record.is_wide() {
                    return false;
                }
                let bytes = lay_out(*version, &record.change, record.usn, &record.name);
                match rest.strip_prefix(&bytes[..]) {
                    Some(behind) => rest = behind,
                    None => return false,
                }
            }
        }
        due.next().is_none()
    }
}

/// One list: the volume and its ring, the history and the readers.
struct List {
    volume: Volume,
    ring: Vec<u8>,
    lent: usize,
    history: History,
    /// Files whose points are set and deleted.
    files: Vec<Linked>,
    readers: Vec<Reader>,
    /// Readers that were told that records are gone, and do not come back.
    retired: Vec<Reader>,
    names: Names,
    /// How many posts out of a hundred have a wide id.
    wide: u64,
}

/// What a list leaves for the next one.
enum Left {
    Nothing,
    /// The volume record, the ring and its lent length, with the journal deleted.
    Idle(Volume, Vec<u8>, usize),
    /// An image, what was saved in it, and the readers who go on. Volume record
    /// and ring are lost.
    Saved(Vec<u8>, History, Vec<Reader>),
}

/// Which names a list posts.
#[derive(Clone, Copy)]
enum Names {
    Mixed,
    Short,
    Long,
}

/// The test's state over all lists.
struct Run {
    rng: Rng,
    counts: Counts,
    index: u64,
    readers: u64,
    told: u64,
    brought: u64,
    handed: u64,
    loads: u64,
    went_on: u64,
    /// Loads of each form, moves of saved images, and moves that a wide id refused.
    forms: [u64; 2],
    moves: u64,
    unmoved: u64,
    /// Reads of readers in version 2 that ended before a record with a wide id,
    /// and that were refused for one.
    stopped: u64,
    refused: u64,
    /// Readers brought to the end past such a record, and by reads of version 2.
    past_wide: u64,
    by_two: u64,
    /// Sets and deletes that posted, whose post was skipped, that their post
    /// refused, and that were refused before.
    points: [[u64; 4]; 2],
}

impl Run {
    /// A fresh volume and its ring; sometimes the lent buffer has another length
    /// than the capacity, or the volume does not support a journal.
    fn volume(&mut self) -> (Volume, Vec<u8>, usize) {
        let rng = &mut self.rng;
        let capacity = common::capacity(rng);
        let mut lent = capacity as usize;
        if rng.percent(3) {
            lent = rng.pick(&[0, lent - 8, lent + 8]);
        }
        let volume = Volume {
            reparse: rng.flag(5),
            points: rng.flag(5),
            journal: rng.flag(3),
            state: rng.pick(&[0, 0, 3, u32::MAX]),
            first: rng.long(),
            last: common::last_usn(rng),
            capacity,
            ..Volume::default()
        };
        (volume, rng.bytes(lent + GUARD), lent)
    }

    /// An id that is not 0 and none of these.
    fn new_id(&mut self, used: &[u64]) -> u64 {
        let mut id = self.rng.draw().max(1);
        while used.contains(&id) {
            id = id.wrapping_add(1).max(1);
        }
        id
    }

    /// Begins a list with a creation that succeeds.
    fn begin(&mut self, mut volume: Volume, ring: Vec<u8>, lent: usize) -> List {
        let id = self.new_id(&[volume.id]);
        let history = History::new(&volume, lent, id);
        let status = volume.create(id);
        self.opened(volume, ring, lent, history, status)
    }

    /// Begins a list with a load that succeeds, on a fresh volume whose ring has
    /// room for what was saved. The readers who stood in the saved journal are
    /// refused under its id and go on under the new one.
    fn begin_again(&mut self, image: &[u8], saved: History, readers: Vec<Reader>) -> List {
        let (mut volume, _, _) = self.volume();
        if self.rng.percent(50) || volume.capacity < saved.end - saved.first {
            volume.capacity = saved.capacity;
        }
        volume.journal = self.rng.yes();
        volume.id = self.rng.pick(&[0, saved.id, 5]);
        volume.last = self.rng.long();
        let lent = volume.capacity as usize;
        let mut ring = self.rng.bytes(lent + GUARD);
        let id = self.new_id(&[volume.id, saved.id]);
        let old = saved.id;
        let history = saved.loaded(&volume, id);
        let status = volume.load_journal(&mut ring[..lent], image, id);
        let mut list = self.opened(volume, ring, lent, history, status);
        list.readers = readers;
        for reader in 0..list.readers.len() {
            let mut input = self.input(&list, reader);
            input.id = old;
            self.reader_read(&mut list, reader, &input, 600);
        }
        self.loads += 1;
        self.forms[usize::from(image.ends_with(&[2, 0, 0, 0]))] += 1;
        self.went_on += list.readers.len() as u64;
        list
    }

    /// The list that a creation or a load has begun.
    fn opened(
        &mut self,
        volume: Volume,
        ring: Vec<u8>,
        lent: usize,
        history: History,
        status: Status,
    ) -> List {
        let files = (0..3).map(|_| self.file()).collect();
        let list = List {
            volume,
            ring,
            lent,
            history,
            files,
            readers: Vec::new(),
            retired: Vec::new(),
            names: self
                .rng
                .pick(&[Names::Mixed, Names::Mixed, Names::Short, Names::Long]),
            wide: common::share_of_wide(&mut self.rng),
        };
        self.counts.add(status);
        let right = status == Status::Success && self.agrees(&list);
        check(right, TEST, self.index, || {
            format!("a list began with {status}: {:?}", list.volume)
        });
        self.index += 1;
        list
    }

    /// A file without a point. What is of no concern to a point may be bad.
    fn file(&mut self) -> Linked {
        let record = FileRecord {
            usn: self.rng.long(),
            eof: self.rng.long(),
            valid: self.rng.long(),
            ..FileRecord::default()
        };
        let store = self.rng.bytes(STORE + GUARD);
        Linked { record, store }
    }

    /// The volume record agrees with the history, as far as the history goes.
    fn agrees(&self, list: &List) -> bool {
        list.volume.last == list.history.end
            && list.volume.first == list.history.first
            && list.volume.id == list.history.id
            && (!list.history.live || list.volume.state == 1)
    }

    /// A call on the volume record alone has ended.
    fn after(&mut self, list: &List, before: &Volume, status: Status, call: &str) {
        self.counts.add(status);
        let unchanged = status == Status::Success || list.volume == *before;
        check(self.agrees(list) && unchanged, TEST, self.index, || {
            format!(
                "{call} gave {status}\nbefore {before:?}\nafter {:?}",
                list.volume
            )
        });
        self.index += 1;
    }

    /// A creation that has to be refused: another one would end the list.
    fn create(&mut self, list: &mut List) {
        let id = match list.volume.state {
            1 | 2 => self.rng.pick(&[0, list.history.id, 5]),
            _ => self.rng.pick(&[0, list.history.id]),
        };
        let before = list.volume;
        let status = list.volume.create(id);
        check(status != Status::Success, TEST, self.index, || {
            format!("create {id} was accepted: {before:?}")
        });
        self.after(list, &before, status, "create");
    }

    /// A load that has to be refused: another one would begin a new list.
    fn load(&mut self, list: &mut List) {
        let form = self.rng.pick(&FORMS);
        let mut image = list.history.image(form);
        let at = self.rng.below(image.len() as u64) as usize;
        match self.rng.below(4) {
            0 => image.truncate(at),
            1 => image[at] ^= 1 << self.rng.below(8),
            2 => image.extend([self.rng.pick(&[1, 2, 3]), 0, 0, 0]),
            _ => {}
        }
        let id = self.rng.pick(&[0, list.history.id]);
        let (before, ring) = (list.volume, list.ring.clone());
        let lent = &mut list.ring[..list.lent];
        let status = list.volume.load_journal(lent, &image, id);
        let refused = status != Status::Success && list.ring == ring;
        check(refused, TEST, self.index, || {
            format!(
                "load {id} gave {status}: {before:?} image {:?}",
                Hex(&image)
            )
        });
        self.after(list, &before, status, "load");
    }

    /// A save in a form: its image holds what the history keeps. In form 1 it is
    /// refused while that has a wide id.
    fn save(&mut self, list: &List, form: u32, room: usize) -> Vec<u8> {
        let before = self.rng.bytes(room + GUARD);
        let mut output = before.clone();
        let lent = &list.ring[..list.lent];
        let answer = list.volume.save_journal(lent, form, &mut output[..room]);
        self.counts.add(answer.status);
        let known = FORMS.contains(&form);
        let due = list.history.image(if known { form } else { 2 });
        let live = known && list.history.live;
        let shown = live && !list.history.keeps_too_wide(form);
        let right = match answer.status {
            Status::Success => shown && output[..answer.count] == due,
            Status::NotSupported => live && !shown,
            Status::BufferTooSmall => shown && room < due.len(),
            Status::UnknownRevision => !known && list.volume.journal != 0,
            Status::InvalidDeviceRequest => list.volume.journal == 0,
            _ => known && !list.history.live,
        };
        let behind = output[answer.count..] == before[answer.count..];
        check(right && behind, TEST, self.index, || {
            format!(
                "save in {form} gave {answer:?}\nbefore {:?} (lent {room})\nafter {:?}\n\
                 due {:?}\n{:?}",
                Hex(&before),
                Hex(&output),
                Hex(&due),
                list.volume
            )
        });
        self.index += 1;
        output.truncate(answer.count);
        output
    }

    /// A save in some form, with an output around the image's length.
    fn some_save(&mut self, list: &List) {
        let known = self.rng.pick(&FORMS);
        let form = match self.rng.below(8) {
            0 => self.rng.pick(&NO_FORMS),
            _ => known,
        };
        let length = list.history.image(known).len();
        let room = match self.rng.below(4) {
            0 => self.rng.below(length as u64) as usize,
            1 => length - 1,
            2 => length,
            _ => list.lent + TRAILER,
        };
        self.save(list, form, room);
    }

    /// Moves what was saved to the other form. It is then what a save in that form
    /// would have written. A wide id is not moved to form 1, and the image stays.
    fn move_saved(&mut self, saved: &History, from: u32, image: Vec<u8>) -> (u32, Vec<u8>) {
        let to = other_form(from);
        let due = saved.image(to);
        let room = due.len() + self.rng.pick(&[0, 0, 1, 100]);
        let before = self.rng.bytes(room + GUARD);
        let mut output = before.clone();
        let lent = image.clone();
        let answer = move_image(&lent, from, &mut output[..room]);
        self.counts.add(answer.status);
        let wide = saved.keeps_too_wide(to);
        let right = match answer.status {
            Status::Success => !wide && output[..answer.count] == due,
            Status::NotSupported => wide && answer.count == 0,
            _ => false,
        };
        let behind = output[answer.count..] == before[answer.count..];
        check(right && behind && lent == image, TEST, self.index, || {
            let hex = (Hex(&image), Hex(&output), Hex(&due));
            format!("move from {from} gave {answer:?}: image, output and due {hex:?}")
        });
        self.index += 1;
        if wide {
            self.unmoved += 1;
            return (from, image);
        }
        self.moves += 1;
        output.truncate(answer.count);
        (to, output)
    }

    fn delete(&mut self, list: &mut List, right: bool) {
        let id = match right {
            true => list.history.id,
            false => list.history.id ^ 1 << self.rng.below(64),
        };
        let before = list.volume;
        let status = list.volume.delete(id);
        list.history.delete(id);
        self.after(list, &before, status, "delete");
    }

    fn finish(&mut self, list: &mut List) {
        let before = list.volume;
        let status = list.volume.finish();
        self.after(list, &before, status, "finish");
    }

    /// What a post says, and its name. If it is not `good`, it has one of some
    /// faults; if it is, it may have one all the same.
    fn post_arguments(&mut self, list: &List, good: bool) -> (Change, Vec<u8>) {
        let rng = &mut self.rng;
        let mut change = common::any_change(rng, list.wide);
        let mut length = match list.names {
            Names::Mixed => common::name_length(rng, 20),
            Names::Short => rng.pick(&[2, 2, 2, 4, 6, 12]),
            Names::Long => rng.pick(&[506, 508, 510, 510]),
        };
        let fault = match good {
            true => None,
            false => Some(rng.below(3)),
        };
        match fault {
            Some(0) => change.reason = 0,
            Some(1) => length = rng.pick(&[0, 1, 511, 512]),
            Some(_) => length = length.clamp(2, 510),
            None => {}
        }
        let mut name = common::any_name(rng, length, 30);
        if fault == Some(2) {
            common::plant_excluded(rng, &mut name);
        }
        (change, name)
    }

    /// A post; `good` or not, it may be one that is skipped or refused.
    fn post(&mut self, list: &mut List, good: bool) {
        let (change, name) = self.post_arguments(list, good);
        let rng = &mut self.rng;
        let usn_before = rng.long();
        let mut usn = usn_before;
        let before = list.volume;
        let status = list
            .volume
            .post(&mut list.ring[..list.lent], &change, &name, &mut usn);
        self.counts.add(status);
        let posted = list.history.post(&change, &name);
        let right = match posted {
            true => status == Status::Success && usn == list.history.end,
            false => usn == usn_before && list.volume == before,
        };
        check(right && self.agrees(list), TEST, self.index, || {
            format!(
                "post gave {status}, usn {usn} (before {usn_before}), counts as posted: {posted}\n\
                 {change:?}\nname {:?}\nbefore {before:?}\nafter {:?}",
                Hex(&name),
                list.volume
            )
        });
        self.index += 1;
    }

    /// A set or a delete of a file's point, mostly one that nothing but its post can
    /// refuse. `damaged`, it is refused before that.
    fn point_call(&mut self, list: &List, file: &FileRecord, damaged: bool) -> PointCall {
        let (change, name) = self.post_arguments(list, true);
        let rng = &mut self.rng;
        let kind = match file.tag {
            0 if rng.percent(80) => Kind::Set,
            _ => rng.pick(&KINDS),
        };
        let (tag, guid) = tag_and_guid(rng, file);
        let length = match kind {
            Kind::Set if rng.percent(10) => data_length(rng, tag),
            Kind::Set => rng.below(40) as usize,
            Kind::Delete => 0,
        };
        let mut input = lay_out_point(tag, &guid, &rng.bytes(length));
        if damaged {
            damage(rng, &mut input);
        }
        PointCall {
            kind,
            change,
            name,
            input,
        }
    }

    /// Sets or deletes the point of one of the files. Where that succeeds, it is a
    /// post, unless the post is skipped.
    fn point(&mut self, list: &mut List, damaged: bool) {
        let which = self.rng.below(list.files.len() as u64) as usize;
        let call = self.point_call(list, &list.files[which].record, damaged);
        let file = &mut list.files[which];
        let (before, file_before) = (list.volume, file.clone());
        let changed = list.history.changed_point(file, &call);
        let posted = changed.is_some() && list.history.post_of_point(&call);
        let skipped = before.journal == 0 || before.state != 1;
        let due = match changed {
            Some(mut changed) if posted => {
                changed.record.usn = list.history.end;
                Some(changed)
            }
            changed => changed.filter(|_| skipped),
        };

        let status = call.kind.by_library(
            &mut list.volume,
            &mut list.ring[..list.lent],
            &mut file.record,
            &mut file.store[..STORE],
            call.arguments(),
        );
        self.counts.add(status);
        let right = (status == Status::Success) == due.is_some()
            && *file == *due.as_ref().unwrap_or(&file_before)
            && (posted || list.volume == before);
        let record = file.record;
        check(right && self.agrees(list), TEST, self.index, || {
            format!(
                "{:?} of a point gave {status}, counts as posted: {posted}, skipped: {skipped}\n\
                 {:?}\nname {:?}\ninput {:?}\nbefore {before:?}\nafter {:?}\n\
                 before {:?}\nafter {record:?}",
                call.kind,
                call.change,
                Hex(&call.name),
                Hex(&call.input),
                list.volume,
                file_before.record
            )
        });
        self.index += 1;
        let ending = match status {
            Status::Success if posted => 0,
            Status::Success => 1,
            _ if list.history.changed_point(&file_before, &call).is_some() => 2,
            _ => 3,
        };
        self.points[call.kind as usize][ending] += 1;
    }

    /// Makes a read and checks its frame. Gives the status and, for a success,
    /// the position and the records' bytes.
    fn read(&mut self, list: &List, input: &ReadInput, room: usize) -> (Status, u64, Vec<u8>) {
        let bytes = input.bytes(&mut self.rng);
        let before = self.rng.bytes(room + GUARD);
        let mut output = before.clone();
        let answer = list
            .volume
            .read_journal(&list.ring[..list.lent], &bytes, &mut output[..room]);
        self.counts.add(answer.status);
        let success = answer.status == Status::Success;
        check(
            success == (answer.count >= 8)
                && (success || answer.count == 0)
                && output[answer.count..] == before[answer.count..],
            TEST,
            self.index,
            || {
                format!(
                    "read gave {answer:?}\n{input:?}\noutput before {:?} (lent {room})\nafter {:?}\n{:?}",
                    Hex(&before),
                    Hex(&output),
                    list.volume
                )
            },
        );
        self.index += 1;
        if !success {
            return (answer.status, 0, Vec::new());
        }
        let mut position = [0; 8];
        position.copy_from_slice(&output[..8]);
        let records = output[8..answer.count].to_vec();
        (answer.status, u64::from_le_bytes(position), records)
    }

    /// A read that belongs to no reader.
    fn other_read(&mut self, list: &List) {
        let rng = &mut self.rng;
        let start = match rng.below(6) {
            0 => 0,
            1 => list.history.end,
            2 => list.history.first,
            3 => list.history.first.wrapping_sub(8),
            4 => list.history.end.wrapping_add(8),
            _ => rng.long(),
        };
        let input = ReadInput {
            start,
            mask: common::mask(rng),
            only_on_close: rng.pick(&[0, 1]),
            id: list.history.id,
            lowest: rng.between(0, 3) as u16,
            highest: rng.between(1, 4) as u16,
            size: rng.pick(&[0, 39, 40, 47, 48, 48, 48, 60]),
        };
        let room = rng.pick(&[0, 7, 8, 72, 88, 600, 1000]);
        self.read(list, &input, room);
    }

    /// The input with which a reader comes back. Before a record that version 2
    /// cannot show it often asks for version 3.
    fn input(&mut self, list: &List, reader: usize) -> ReadInput {
        let reader = &list.readers[reader];
        let before_wide = list.history.next(reader).is_some_and(Posted::is_wide);
        let version = match self.rng.below(5) {
            0 => self.rng.pick(&[2, 3]),
            1..=3 if before_wide => 3,
            _ => reader.version,
        };
        let size = match version {
            2 => self.rng.pick(&[40, 47, 48, 48, 56]),
            _ => self.rng.pick(&[48, 48, 60]),
        };
        ReadInput {
            start: reader.position,
            mask: reader.mask,
            only_on_close: reader.only_on_close,
            id: list.history.id,
            lowest: self.rng.pick(&[0, 2, version]),
            highest: version,
            size,
        }
    }

    /// A read by a reader, with everything that it promises.
    fn reader_read(&mut self, list: &mut List, reader: usize, input: &ReadInput, room: usize) {
        let (status, position, records) = self.read(list, input, room);
        let history = &list.history;
        let it = &mut list.readers[reader];
        let version = input.version();
        let well_formed = history.live
            && input.size >= 40
            && room >= 8
            && version.is_some()
            && input.id == history.id;
        let gone = history.dropped_above(it.position);
        let next = history.next(it);
        let fits = next.is_none_or(|record| {
            room >= 8 + record_length(version.unwrap_or(2), record.name.len())
        });
        let shown = version == Some(3) || !next.is_some_and(Posted::is_wide);
        let right = match status {
            Status::Success => {
                well_formed
                    && !gone
                    && shown
                    && fits
                    && position >= it.position
                    && position <= history.end
            }
            Status::JournalEntryDeleted => well_formed && gone,
            Status::NotSupported => well_formed && !gone && !shown,
            Status::BufferTooSmall => !well_formed || !gone && shown && !fits,
            _ => !well_formed,
        };
        // The read's index was the one before.
        check(right, TEST, self.index - 1, || {
            format!(
                "read gave {status}, position {position}, well-formed {well_formed}, \
                 records gone {gone}, next record can be shown {shown} and fits {fits}\n\
                 {input:?}, output of {room}\n\
                 start {} position {} history first {} end {}\n{:?}",
                it.start, it.position, history.first, history.end, list.volume
            )
        });
        if status == Status::JournalEntryDeleted {
            self.told += 1;
        }
        if status == Status::NotSupported {
            self.refused += 1;
        }
        if status == Status::Success {
            it.position = position;
            it.replies.push((version.unwrap_or(2), records));
            // The record that ended the reply, by its room or by its ids.
            let wide = history.next(it).is_some_and(Posted::is_wide);
            self.stopped += u64::from(version == Some(2) && wide);
        }
    }

    /// A reader comes back, mostly with a well-formed read.
    fn come_back(&mut self, list: &mut List, reader: usize) {
        let mut input = self.input(list, reader);
        let it = &list.readers[reader];
        let fixed = 8 + if input.highest == 2 { 60 } else { 76 };
        let lengths: Vec<usize> = list
            .history
            .due(it)
            .take(4)
            .map(|record| record_length(input.highest, record.name.len()))
            .collect();
        let some = lengths.len().min(self.rng.below(5) as usize);
        let sum = 8 + lengths[..some].iter().sum::<usize>();
        let room = match self.rng.below(8) {
            0 => self.rng.below(12) as usize,
            1..=3 => sum + self.rng.below(3) as usize - 1,
            4 => fixed + self.rng.below(100) as usize,
            5 => 600,
            _ => self.rng.between(600, 3000) as usize,
        };
        if self.rng.percent(8) {
            match self.rng.below(3) {
                0 => input.size = self.rng.below(40) as usize,
                1 => input.id ^= 1 << self.rng.below(64),
                _ => {
                    (input.size, input.lowest, input.highest) =
                        self.rng.pick(&[(48, 3, 2), (48, 4, 9), (50, 0, 1)])
                }
            }
        }
        self.reader_read(list, reader, &input, room);
    }

    /// A call that posts nothing and leaves the journal alive.
    fn idle_call(&mut self, list: &mut List, reader: usize) {
        match self.rng.below(9) {
            0 => self.create(list),
            1 => self.delete(list, false),
            2 => self.finish(list),
            3 => self.post(list, false),
            4 => self.point(list, true),
            5 => self.other_read(list),
            6 => self.load(list),
            7 => self.some_save(list),
            _ => self.come_back(list, reader),
        }
    }

    /// With no posts between, as many well-formed reads of 600 bytes or more as
    /// there are selected records bring a reader to the journal's end. Reads in
    /// version 2 before a record with a wide id do not count among them.
    fn bring_to_the_end(&mut self, list: &mut List, reader: usize) {
        let it = &list.readers[reader];
        if !list.history.live || list.history.dropped_above(it.position) {
            return;
        }
        let due = list.history.due(it).count();
        let past_wide = !list.history.brings_on(it, 2);
        let busy = self.rng.percent(50);
        let (mut counted, mut by_two) = (0, 0);
        while counted < due.max(1) {
            if busy && self.rng.percent(30) {
                self.idle_call(list, reader);
            }
            let mut input = self.input(list, reader);
            let it = &list.readers[reader];
            // A reader that does not come on mostly asks for version 3.
            if !list.history.brings_on(it, input.highest) && self.rng.percent(80) {
                (input.highest, input.size) = (3, 48);
            }
            let counts = list.history.brings_on(it, input.highest);
            counted += usize::from(counts);
            by_two += u64::from(counts && input.highest == 2);
            let room = 600 + self.rng.pick(&[0, 0, 0, 1, 8, 500]);
            self.reader_read(list, reader, &input, room);
        }
        self.past_wide += u64::from(past_wide);
        self.by_two += by_two;
        let it = &list.readers[reader];
        check(it.position == list.history.end, TEST, self.index, || {
            format!(
                "{due} reads did not reach the end {}: start {} position {} mask {:#x} {:?}",
                list.history.end, it.start, it.position, it.mask, list.volume
            )
        });
        self.brought += 1;
    }

    /// A new reader, at the creation's position or a Usn posted so far.
    fn new_reader(&mut self, list: &mut List) {
        let posted = list.history.posted.len() as u64;
        let start = match self.rng.below(4) {
            0 => list.history.created,
            1 => list.history.end,
            2 if posted > 0 => list.history.first,
            _ if posted > 0 => list.history.posted[self.rng.below(posted) as usize].usn,
            _ => list.history.created,
        };
        if start != 0 {
            let reader = Reader::new(&mut self.rng, start);
            list.readers.push(reader);
        }
    }

    /// Any call of a list.
    fn call(&mut self, list: &mut List, may_end: bool) {
        let readers = list.readers.len() as u64;
        match self.rng.below(200) {
            0..=1 => self.create(list),
            2..=3 => self.delete(list, false),
            4 if may_end => self.delete(list, true),
            5..=6 => self.finish(list),
            7..=12 => self.other_read(list),
            13..=14 => self.load(list),
            15..=16 => self.some_save(list),
            17..=24 if readers < 6 => self.new_reader(list),
            25..=26 if readers > 0 => {
                let reader = self.rng.below(readers) as usize;
                self.bring_to_the_end(list, reader);
            }
            27..=130 if readers > 0 => {
                let reader = self.rng.below(readers) as usize;
                self.come_back(list, reader);
                let it = &list.readers[reader];
                if list.history.dropped_above(it.position) && self.rng.percent(50) {
                    let it = list.readers.swap_remove(reader);
                    list.retired.push(it);
                }
            }
            131..=150 => {
                let damaged = self.rng.percent(10);
                self.point(list, damaged);
            }
            _ => self.post(list, true),
        }
    }

    /// Ends a list, and gives what the next one begins with.
    fn leave(&mut self, mut list: List) -> Left {
        match self.rng.below(4) {
            0..=1 => {
                if list.volume.state == 1 {
                    self.delete(&mut list, true);
                }
                if list.volume.state == 2 {
                    self.finish(&mut list);
                }
                self.end(&list);
                Left::Idle(list.volume, list.ring, list.lent)
            }
            2 if list.history.live => {
                let form = match list.history.keeps_too_wide(1) {
                    true => 2,
                    false => self.rng.pick(&FORMS),
                };
                let image = self.save(&list, form, list.lent + TRAILER);
                let mut moved = (form, image);
                for _ in 0..self.rng.below(4) {
                    moved = self.move_saved(&list.history, moved.0, moved.1);
                }
                let image = moved.1;
                let readers = std::mem::take(&mut list.readers);
                self.end(&list);
                Left::Saved(image, list.history, readers)
            }
            _ => {
                self.end(&list);
                Left::Nothing
            }
        }
    }

    /// After a list: each reader who does not go on has been handed what is due.
    fn end(&mut self, list: &List) {
        self.readers += (list.readers.len() + list.retired.len()) as u64;
        for reader in list.readers.iter().chain(&list.retired) {
            check(
                reader.handed_what_is_due(&list.history),
                TEST,
                self.index,
                || {
                    let replies: Vec<_> = reader
                        .replies
                        .iter()
                        .map(|(version, bytes)| (version, Hex(bytes)))
                        .collect();
                    let due: Vec<_> = list
                        .history
                        .selected_above(reader.start, reader.mask, reader.only_on_close)
                        .take_while(|record| record.usn <= reader.position)
                        .map(|record| (record.usn, record.change, Hex(&record.name)))
                        .collect();
                    format!(
                    "start {} position {} mask {:#x} only-on-close {}\nhanded {replies:?}\ndue {due:?}",
                    reader.start, reader.position, reader.mask, reader.only_on_close
                )
                },
            );
            self.handed += list
                .history
                .selected_above(reader.start, reader.mask, reader.only_on_close)
                .take_while(|record| record.usn <= reader.position)
                .count() as u64;
        }
    }
}

#[test]
fn readers_are_handed_what_was_posted() {
    let mut run = Run {
        rng: Rng::new(TEST),
        counts: Counts::new(TEST),
        index: 0,
        readers: 0,
        told: 0,
        brought: 0,
        handed: 0,
        loads: 0,
        went_on: 0,
        forms: [0; 2],
        moves: 0,
        unmoved: 0,
        stopped: 0,
        refused: 0,
        past_wide: 0,
        by_two: 0,
        points: [[0; 4]; 2],
    };
    let mut lists = 0;
    let mut left = Left::Nothing;
    // The readers who go on are held to the promise after their last list.
    while run.index < CALLS || matches!(left, Left::Saved(..)) {
        let mut list = match left {
            Left::Nothing => {
                let (volume, ring, lent) = run.volume();
                run.begin(volume, ring, lent)
            }
            Left::Idle(volume, ring, lent) => run.begin(volume, ring, lent),
            Left::Saved(image, saved, readers) => run.begin_again(&image, saved, readers),
        };
        let may_end = run.rng.percent(30);
        let calls = run.rng.between(10, 300) + list.volume.capacity / 40;
        for _ in 0..calls {
            run.call(&mut list, may_end);
        }
        for reader in 0..list.readers.len() {
            run.bring_to_the_end(&mut list, reader);
        }
        left = run.leave(list);
        lists += 1;
    }
    println!(
        "{TEST}: {lists} lists, {} of them begun with a load; {} readers, {} of them gone on after \
         a load; {} records handed out, {} times brought to the end, {} times told that records \
         are gone",
        run.loads, run.readers, run.went_on, run.handed, run.brought, run.told
    );
    assert!(run.handed > 50_000 && run.brought > 1000 && run.told > 1000);
    assert!(run.loads > 50 && run.went_on > 100);
    println!(
        "{TEST}: {:?} images of each form loaded; {} moves between save and load, {} refused for a \
         wide id",
        run.forms, run.moves, run.unmoved
    );
    assert!(run.forms.iter().all(|loads| *loads > 20), "{:?}", run.forms);
    assert!(run.moves > 50 && run.unmoved > 20);
    println!(
        "{TEST}: in version 2 {} replies ended before a wide id and {} reads were refused for one; \
         {} readers were brought past one, and {} of the reads that count were in version 2",
        run.stopped, run.refused, run.past_wide, run.by_two
    );
    assert!(run.stopped > 300 && run.refused > 500);
    assert!(run.past_wide > 200 && run.by_two > 1000);
    println!(
        "{TEST}: sets and deletes of points that posted, whose post was skipped, that their post \
         refused, and that were refused before: {:?}",
        run.points
    );
    let least = [2000, 200, 50, 500];
    for ends in run.points {
        assert!(ends.iter().zip(least).all(|(count, least)| *count > least));
    }
    let mut expected = [&expected::JOURNAL[..], &expected::SET, &expected::DELETE].concat();
    expected.push(Status::UnknownRevision);
    run.counts.finish(&expected, 200_000);
}
