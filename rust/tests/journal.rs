//! Random lists of creations, posts, reads, deletions and finishes on one
//! journal, with damaged rings and volume records among them: the library
//! against the model.

mod common;

use common::{check, expected, mask, model_change, model_volume, record_length};
use common::{Counts, Hex, Lent, ReadInput, Rng, GUARD, NEGATIVE};
use lanhduxe::{Status, Volume};
use std::collections::VecDeque;

const TEST: &str = "journal";
const CALLS: u64 = 400_000;

/// What the generator keeps of a record in the ring, to aim its calls.
#[derive(Clone, Copy)]
struct Kept {
    end: u64,
    reason: u32,
    name: usize,
    wide: bool,
}

/// A volume, its ring and the records in it. Library and model have a volume
/// record and a ring each, which are equal between calls.
#[derive(Clone)]
struct Journal {
    volume: Volume,
    model: model::Volume,
    ring: Vec<u8>,
    model_ring: Vec<u8>,
    lent: usize,
    kept: VecDeque<Kept>,
    /// How many posts out of a hundred have a wide id.
    wide: u64,
}

/// The test's state over all lists.
struct Run {
    rng: Rng,
    counts: Counts,
    index: u64,
    /// Replies that ended before a record with a wide id.
    stopped: u64,
}

impl Journal {
    /// A volume for a new list: mostly right, sometimes with a wrong capacity,
    /// position, state or buffer length.
    fn new(rng: &mut Rng) -> Journal {
        let mut capacity = common::capacity(rng);
        let mut lent = capacity as usize;
        let mut last = common::last_usn(rng);
        let mut state = rng.pick(&[0, 0, 0, 0, 0, 1, 3, 0x100, u32::MAX]);
        if rng.percent(10) {
            match rng.below(4) {
                0 => {
                    capacity = rng.pick(&[0, 8, 1016, 1020, 1025, 1028, 65_537, 65_544, NEGATIVE]);
                    lent = capacity.min(70_000) as usize;
                }
                1 => {
                    let wrong = [0, 1, lent - 8, lent - 1, lent + 1, lent + 8];
                    lent = rng.pick(&wrong);
                }
                2 => last = rng.pick(&[1, 4, 1028, NEGATIVE - 1, NEGATIVE, u64::MAX - 7]),
                _ => state = rng.pick(&[1, 2, 2]),
            }
        }
        let volume = Volume {
            usn: rng.flag(50),
            regions: rng.flag(50),
            reparse: rng.flag(50),
            points: rng.flag(50),
            journal: rng.flag(3),
            state,
            id: rng.pick(&[0, 1, 7, u64::MAX]),
            first: if state == 1 { last } else { rng.long() },
            last,
            capacity,
        };
        let ring = rng.bytes(lent + GUARD);
        Journal {
            volume,
            model: model_volume(&volume),
            model_ring: ring.clone(),
            ring,
            lent,
            kept: VecDeque::new(),
            wide: common::share_of_wide(rng),
        }
    }

    /// Library and model agree on the volume record and on every ring byte.
    fn agrees(&self) -> bool {
        model_volume(&self.volume) == self.model && self.ring == self.model_ring
    }

    /// Sets the model's volume record to the library's, after damage.
    fn share_volume(&mut self) {
        self.model = model_volume(&self.volume);
    }

    /// Changes one ring byte for both.
    fn put(&mut self, position: u64, value: u8) {
        if self.lent > 0 {
            let place = (position % self.lent as u64) as usize;
            self.ring[place] = value;
            self.model_ring[place] = value;
        }
    }

    fn describe(&self) -> String {
        format!(
            "library's {:?}\nmodel's {:?}\nlibrary's ring {:?} (lent {})\nmodel's ring {:?}",
            self.volume,
            self.model,
            Hex(&self.ring),
            self.lent,
            Hex(&self.model_ring)
        )
    }
}

impl Run {
    /// Compares after a call of one of the first three kinds.
    fn compare(
        &mut self,
        journal: &Journal,
        before: Volume,
        status: Status,
        model: u32,
        call: &str,
    ) {
        self.counts.add(status);
        let kept = status == Status::Success || journal.volume == before;
        check(
            status.number() == model && journal.agrees() && kept,
            TEST,
            self.index,
            || {
                format!(
                    "{call}: library {status}, model {model:#x}\nbefore {before:?}\n{}",
                    journal.describe()
                )
            },
        );
        self.index += 1;
    }

    fn create(&mut self, journal: &mut Journal) {
        let id = match self.rng.below(12) {
            0 => 0,
            1 => journal.volume.id,
            2 => self.rng.long(),
            _ => journal.volume.id.wrapping_add(1).max(1),
        };
        let before = journal.volume;
        let status = journal.volume.create(id);
        let model = model::create(&mut journal.model, id);
        if status == Status::Success {
            journal.kept.clear();
        }
        self.compare(journal, before, status, model, &format!("create {id}"));
    }

    fn delete(&mut self, journal: &mut Journal) {
        let id = match self.rng.below(4) {
            0 => self.rng.long(),
            1 => journal.volume.id ^ 1 << self.rng.below(64),
            _ => journal.volume.id,
        };
        let before = journal.volume;
        let status = journal.volume.delete(id);
        let model = model::delete(&mut journal.model, id);
        self.compare(journal, before, status, model, &format!("delete {id}"));
    }

    fn finish(&mut self, journal: &mut Journal) {
        let before = journal.volume;
        let status = journal.volume.finish();
        let model = model::finish(&mut journal.model);
        self.compare(journal, before, status, model, "finish");
    }

    fn post(&mut self, journal: &mut Journal) {
        let change = common::any_change(&mut self.rng, journal.wide);
        let length = common::name_length(&mut self.rng, 20);
        let name = common::any_name(&mut self.rng, length, 20);
        let name = Lent::holding(&mut self.rng, &name);
        let usn_before = self.rng.long();
        let (mut usn, mut model_usn) = (usn_before, usn_before);
        let before = journal.volume;
        // Now and then a copy of the ring, to see that a post which does nothing
        // leaves it as it was.
        let ring_before = self.rng.percent(5).then(|| journal.ring.clone());

        let status = journal.volume.post(
            &mut journal.ring[..journal.lent],
            &change,
            &name.library[..length],
            &mut usn,
        );
        let model = model::post(
            &mut journal.model,
            &mut journal.model_ring[..journal.lent],
            &model_change(&change),
            &name.before[..length],
            &mut model_usn,
        );

        let posted = journal.volume.last != before.last;
        let unchanged = posted
            || (journal.volume == before
                && usn == usn_before
                && ring_before.is_none_or(|ring| ring == journal.ring));
        self.counts.add(status);
        check(
            status.number() == model
                && usn == model_usn
                && journal.agrees()
                && name.same()
                && unchanged
                && (status == Status::Success || !posted),
            TEST,
            self.index,
            || {
                format!(
                    "post: library {status} usn {usn}, model {model:#x} usn {model_usn}\n\
                     usn before {usn_before}\n{change:?}\nname {:?}\nbefore {before:?}\n{}",
                    Hex(&name.before[..length]),
                    journal.describe()
                )
            },
        );
        self.index += 1;
        if posted {
            journal.kept.push_back(Kept {
                end: usn,
                reason: change.reason,
                name: length,
                wide: common::is_wide(&change),
            });
            while journal
                .kept
                .front()
                .is_some_and(|kept| kept.end <= journal.volume.first)
            {
                journal.kept.pop_front();
            }
        }
    }

    /// A StartUsn: good ones, and all kinds of wrong ones.
    fn start(&mut self, journal: &Journal) -> u64 {
        let Volume { first, last, .. } = journal.volume;
        match self.rng.below(32) {
            0..=3 => 0,
            4..=8 => first,
            9..=11 => last,
            12 => first.wrapping_sub(8),
            13 => first.wrapping_sub(self.rng.between(1, 2000)),
            14 => last.wrapping_add(8),
            15 => last.wrapping_add(self.rng.between(1, 2000)),
            16 => 0u64.wrapping_sub(self.rng.between(1, 16)),
            17 => self.rng.long(),
            18 => self.rng.pick(&[NEGATIVE, NEGATIVE - 8, NEGATIVE - 1, 8]),
            kind => {
                if journal.kept.is_empty() {
                    return first;
                }
                let some = self.rng.below(journal.kept.len() as u64) as usize;
                let end = journal.kept[some].end;
                match kind {
                    19 => end.wrapping_add(self.rng.pick(&[1, 4, 7, 8])),
                    20 => end.wrapping_sub(self.rng.pick(&[1, 4, 8, 16])),
                    _ => end,
                }
            }
        }
    }

    /// An output length near a limit for this input.
    fn room(&mut self, journal: &Journal, input: &ReadInput) -> usize {
        let version = input.version().unwrap_or(2);
        // The reply's lengths after each selected record.
        let mut limits = vec![8];
        for kept in &journal.kept {
            let wanted = input.start == 0 || kept.end > input.start;
            if wanted && input.selects(kept.reason) {
                limits.push(limits[limits.len() - 1] + record_length(version, kept.name));
            }
        }
        let some = self.rng.pick(&limits);
        match self.rng.below(16) {
            0 => self.rng.below(9) as usize,
            1..=3 => limits[limits.len().min(2) - 1] + self.rng.below(3) as usize - 1,
            4..=7 => some + self.rng.below(3) as usize - 1,
            8 => limits[limits.len() - 1] + self.rng.below(3) as usize - 1,
            9..=10 => 600,
            11 => self.rng.between(8, 700) as usize,
            12 if self.rng.percent(25) => 65_536 + self.rng.below(100) as usize,
            13 => limits[limits.len() - 1] + self.rng.below(200) as usize,
            _ => self.rng.between(592, 1400) as usize,
        }
    }

    fn read(&mut self, journal: &Journal) {
        let rng = &mut self.rng;
        let mut input = ReadInput {
            start: 0,
            mask: mask(rng),
            only_on_close: rng.pick(&[0, 0, 0, 1, 2, 0x8000_0000]),
            id: journal.volume.id,
            lowest: rng.pick(&[0, 1, 2, 2, 2, 2, 3]),
            highest: rng.pick(&[2, 2, 3, 3, 3, 4, 5, u16::MAX]),
            size: match rng.below(16) {
                0 => rng.below(61) as usize,
                1 => rng.pick(&[38, 39, 40, 41]),
                2..=4 => rng.between(40, 47) as usize,
                5..=6 => rng.between(49, 60) as usize,
                _ => 48,
            },
        };
        if rng.percent(5) {
            input.lowest = rng.below(6) as u16;
            input.highest = rng.below(6) as u16;
        }
        if rng.percent(3) {
            let near = input.id ^ 1 << rng.below(64);
            input.id = rng.pick(&[0, near, u64::MAX]);
        }
        input.start = self.start(journal);
        let room = self.room(journal, &input);

        let bytes = input.bytes(&mut self.rng);
        let bytes = Lent::holding(&mut self.rng, &bytes);
        let mut output = Lent::output(&mut self.rng, room);
        let before = journal.volume;
        let answer = journal.volume.read_journal(
            &journal.ring[..journal.lent],
            &bytes.library[..bytes.length],
            output.for_library(),
        );
        let (status, count) = model::read_journal(
            &journal.model,
            &journal.model_ring[..journal.lent],
            &bytes.before[..bytes.length],
            output.for_model(),
        );
        self.counts.add(answer.status);
        if answer.count > 8 && input.version() == Some(2) {
            let mut position = [0; 8];
            position.copy_from_slice(&output.library[..8]);
            let position = u64::from_le_bytes(position);
            let next = journal.kept.iter().find(|kept| kept.end > position);
            self.stopped += u64::from(next.is_some_and(|kept| kept.wide));
        }
        check(
            answer.status.number() == status
                && answer.count == count
                && output.agrees(count)
                && bytes.same()
                && journal.volume == before
                && journal.agrees(),
            TEST,
            self.index,
            || {
                format!(
                    "read: library {answer:?}, model {status:#x} {count}\n{input:?}\n\
                     input {:?}\noutput before {:?} (lent {room})\nlibrary's {:?}\nmodel's {:?}\n{}",
                    Hex(&bytes.before[..bytes.length]),
                    Hex(&output.before),
                    Hex(&output.library),
                    Hex(&output.model),
                    journal.describe()
                )
            },
        );
        self.index += 1;
    }

    /// Any call, with weights that keep the journal active most of the time.
    fn call(&mut self, journal: &mut Journal) {
        let odds = match journal.volume.state {
            1 => [2, 2, 1, 48],
            2 => [10, 5, 40, 60],
            _ => [45, 5, 5, 60],
        };
        let pick = self.rng.below(100);
        if pick < odds[0] {
            self.create(journal);
        } else if pick < odds[0] + odds[1] {
            self.delete(journal);
        } else if pick < odds[0] + odds[1] + odds[2] {
            self.finish(journal);
        } else if pick < odds[3].max(odds[0] + odds[1] + odds[2] + 5) {
            self.post(journal);
        } else {
            self.read(journal);
        }
    }

    /// Damages the ring, the volume record or the lent length.
    fn damage(&mut self, journal: &mut Journal) {
        let rng = &mut self.rng;
        let Volume {
            first,
            last,
            capacity,
            ..
        } = journal.volume;
        let some = match journal.kept.len() {
            0 => None,
            count => Some(rng.below(count as u64) as usize),
        };
        match rng.below(16) {
            // One byte in the kept part, or one outside of it.
            0 if last > first => {
                let position = rng.between(first, last - 1);
                let value = rng.draw() as u8;
                journal.put(position, value);
            }
            1 if capacity > last.wrapping_sub(first) && capacity <= 65_536 => {
                let position = last.wrapping_add(rng.below(capacity - last.wrapping_sub(first)));
                let value = rng.draw() as u8;
                journal.put(position, value);
            }
            // One field of a kept record: a bit of it, all of it zero, all of
            // it ones. Fields are (offset, length).
            2..=6 if some.is_some() => {
                let kept = journal.kept[some.unwrap_or(0)];
                let begin = kept.end - record_length(3, kept.name) as u64;
                let padding = record_length(3, kept.name) - 76 - kept.name;
                let fields = [
                    (0, 4),
                    (4, 2),
                    (6, 2),
                    (8, 8),
                    (16, 8),
                    (24, 8),
                    (32, 8),
                    (40, 8),
                    (48, 8),
                    (56, 4),
                    (60, 4),
                    (64, 4),
                    (68, 4),
                    (72, 2),
                    (74, 2),
                    (76, kept.name),
                    (76 + kept.name, padding),
                ];
                let (offset, length) = rng.pick(&fields);
                let bit = (length > 0).then(|| rng.below(8 * length as u64));
                let kind = rng.below(3);
                for place in 0..length as u64 {
                    let position = begin + offset as u64 + place;
                    let old = journal.ring[(position % journal.lent as u64) as usize];
                    let value = match kind {
                        0 => 0,
                        1 => 0xFF,
                        _ if bit.is_some_and(|bit| bit / 8 == place) => {
                            old ^ 1 << (bit.unwrap_or(0) % 8)
                        }
                        _ => old,
                    };
                    journal.put(position, value);
                }
            }
            // A shorter name, with zeroes behind it, in a record as long as before.
            14 if some.is_some_and(|some| journal.kept[some].name > 8) => {
                let kept = journal.kept[some.unwrap_or(0)];
                let length = record_length(3, kept.name) as u64;
                let begin = kept.end - length;
                let less = rng.pick(&[2, 4, 6, 8, 8, 8]);
                let name = kept.name as u64 - less;
                for place in 76 + name..length {
                    journal.put(begin + place, 0);
                }
                journal.put(begin + 72, name as u8);
                journal.put(begin + 73, (name >> 8) as u8);
            }
            // A unit of a kept name.
            15 if some.is_some() && journal.lent > 0 => {
                let kept = journal.kept[some.unwrap_or(0)];
                let begin = kept.end - record_length(3, kept.name) as u64 + 76;
                let place = |at: usize| ((begin + at as u64) % journal.lent as u64) as usize;
                let mut name: Vec<u8> = (0..kept.name).map(|at| journal.ring[place(at)]).collect();
                common::plant_some(rng, &mut name);
                for (position, byte) in (begin..).zip(name) {
                    journal.put(position, byte);
                }
            }
            // The first position. The end of a kept record leaves it sound.
            7..=8 => {
                let end = some.map_or(last, |some| journal.kept[some].end);
                let wrong = [
                    first.wrapping_add(8),
                    first.wrapping_sub(8),
                    first.wrapping_add(1),
                    end,
                    end,
                    last,
                    last.wrapping_add(8),
                    first.wrapping_sub(capacity),
                    last.wrapping_sub(capacity),
                    last.wrapping_sub(capacity).wrapping_sub(8),
                    NEGATIVE,
                    u64::MAX - 7,
                    0,
                ];
                journal.volume.first = rng.pick(&wrong);
                let first = journal.volume.first;
                journal.kept.retain(|kept| kept.end > first);
            }
            // The last position.
            9 => {
                let end = some.map_or(first, |some| journal.kept[some].end);
                let wrong = [
                    last.wrapping_add(8),
                    last.wrapping_sub(8),
                    last.wrapping_add(4),
                    end,
                    end,
                    first,
                    first.wrapping_sub(8),
                    first.wrapping_add(capacity),
                    first.wrapping_add(capacity).wrapping_add(8),
                    NEGATIVE,
                    NEGATIVE - 8,
                    NEGATIVE - 1,
                    u64::MAX,
                ];
                journal.volume.last = rng.pick(&wrong);
                let last = journal.volume.last;
                journal.kept.retain(|kept| kept.end <= last);
            }
            10 => {
                let wrong = [
                    capacity.wrapping_add(8),
                    capacity.wrapping_sub(8),
                    capacity.wrapping_add(4),
                    capacity.wrapping_mul(2),
                    0,
                    u64::MAX,
                    1 << 32 | capacity,
                ];
                journal.volume.capacity = rng.pick(&wrong);
            }
            // The lent part of the buffer; the rest is guard bytes.
            11 => {
                let most = journal.ring.len();
                let lent = journal.lent;
                let wrong = [
                    0,
                    lent.saturating_sub(8),
                    lent.saturating_sub(1),
                    lent + 1,
                    lent + 8,
                ];
                journal.lent = rng.pick(&wrong).min(most);
            }
            12 => journal.volume.state = rng.pick(&[0, 1, 2, 3, 0x101, 0x102, u32::MAX]),
            _ => {
                journal.volume.journal = rng.flag(60);
                journal.volume.id = rng.pick(&[0, 1, journal.volume.id, u64::MAX]);
            }
        }
        journal.share_volume();
    }
}

#[test]
fn random_lists_agree_with_the_model() {
    let mut run = Run {
        rng: Rng::new(TEST),
        counts: Counts::new(TEST),
        index: 0,
        stopped: 0,
    };
    let mut lists = 0;
    let mut damages = 0;
    while run.index < CALLS {
        let mut journal = Journal::new(&mut run.rng);
        if run.rng.percent(90) {
            run.create(&mut journal);
        }
        let with_damage = run.rng.percent(60);
        // Large rings get longer lists, so that they wrap too.
        let more = journal.lent as u64 / 40;
        let end = run.index + run.rng.between(20, 300) + more;
        while run.index < end {
            run.call(&mut journal);
            if with_damage && run.rng.percent(12) {
                // Some calls on a damaged copy; then the sound one goes on.
                let mut damaged = journal.clone();
                run.damage(&mut damaged);
                for _ in 0..run.rng.between(1, 4) {
                    run.call(&mut damaged);
                }
                damages += 1;
            }
        }
        lists += 1;
    }
    println!(
        "{TEST}: {lists} lists, {damages} damaged rings or volume records, {} replies that ended \
         before a wide id",
        run.stopped
    );
    assert!(run.stopped > 500);
    run.counts.finish(&expected::JOURNAL, 200_000);
}
