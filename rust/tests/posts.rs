//! Posts of names of every length: the record fits the ring, and only the limit
//! of the positions refuses one.

mod common;

use common::{lay_out, model_change, model_volume, record_length};
use common::{Rng, GUARD, NEGATIVE};
use lanhduxe::{Change, Status, Volume};

/// Every length that a name can have.
fn name_lengths() -> impl Iterator<Item = usize> {
    (2..=510).step_by(2)
}

/// A change with a reason, so that its post is not skipped, and with any ids.
fn change(rng: &mut Rng) -> Change {
    let change = common::any_change(rng, 30);
    Change {
        reason: change.reason.max(1),
        ..change
    }
}

/// A volume with a new journal, empty at a position.
fn created(capacity: u64, last: u64) -> Volume {
    let mut volume = Volume {
        journal: 1,
        last,
        capacity,
        ..Volume::default()
    };
    assert_eq!(volume.create(7), Status::Success, "{volume:?}");
    volume
}

/// A ring as the library has it, and as it should be. Both have guard bytes
/// behind them.
struct Ring {
    capacity: u64,
    library: Vec<u8>,
    expected: Vec<u8>,
}

impl Ring {
    fn new(capacity: u64) -> Ring {
        let length = capacity as usize + GUARD;
        Ring {
            capacity,
            library: vec![0; length],
            expected: vec![0; length],
        }
    }

    /// Fills both with the same random bytes.
    fn fill(&mut self, rng: &mut Rng) {
        rng.fill(&mut self.library);
        self.expected.copy_from_slice(&self.library);
    }

    /// The bytes as lent to the library.
    fn lent(&mut self) -> &mut [u8] {
        &mut self.library[..self.capacity as usize]
    }

    /// Expects a record's bytes from a position on.
    fn expect(&mut self, position: u64, record: &[u8]) {
        for (position, byte) in (position..).zip(record) {
            self.expected[(position % self.capacity) as usize] = *byte;
        }
    }
}

/// Where in a turn of the ring a journal begins: everywhere in the two smallest
/// rings. In the others in the middle, and where the end of the ring is near the
/// beginning of the first record or the end of one of the three.
fn places(capacity: u64, record: u64) -> Vec<u64> {
    if capacity <= 1032 {
        return (0..capacity).step_by(8).collect();
    }
    let mut places = vec![capacity / 16 * 8];
    for records in 0..=3 {
        let exact = 2 * capacity - records * record;
        places.extend([exact - 8, exact, exact + 8].map(|near| near % capacity));
    }
    places
}

/// The position where a turn of the ring begins: the first turn, the second, or
/// any up to 2^62.
fn turn(rng: &mut Rng, capacity: u64) -> u64 {
    let any = rng.below((1 << 62) / capacity);
    rng.pick(&[0, 1, any, any]) * capacity
}

/// A test's random numbers, and what it counts.
struct Run {
    rng: Rng,
    posts: u64,
    dropped: u64,
}

impl Run {
    /// Three posts to a journal that begins at a position.
    fn three(&mut self, ring: &mut Ring, start: u64, length: usize) {
        ring.fill(&mut self.rng);
        let name = common::name(&mut self.rng, length);
        let record = record_length(3, length) as u64;
        let mut volume = created(ring.capacity, start);
        for number in 1..=3 {
            let change = change(&mut self.rng);
            let mut usn = self.rng.long();
            let before = volume;
            let status = volume.post(ring.lent(), &change, &name, &mut usn);

            let end = start + number * record;
            // As many of the newest records stay as the ring has room for.
            let kept = number.min(ring.capacity / record);
            let after = Volume {
                first: end - kept * record,
                last: end,
                ..before
            };
            ring.expect(end - record, &lay_out(3, &change, end, &name));
            let call = || format!("post {number} of {length} bytes at {start}: {before:?}");
            assert_eq!(status, Status::Success, "{}", call());
            assert_eq!(usn, end, "{}", call());
            assert_eq!(volume, after, "{}", call());
            assert!(ring.library == ring.expected, "wrong ring, {}", call());
            self.posts += 1;
        }
        self.dropped += (volume.first - start) / record;
    }
}

/// Records that three posts drop, over all lengths of names:
/// - 1,024 bytes: 1 for names of 262 to 436 bytes (records of 344 to 512), 2 for
///   438 to 510 (520 to 592): 88 + 2 * 37.
/// - 1,032 bytes: 1 for names of 270 to 436 (352 to 512), 2 for 438 to 510:
///   84 + 2 * 37.
/// - 1,048 bytes: 1 for names of 270 to 444 (352 to 520), 2 for 446 to 510:
///   88 + 2 * 33.
/// - None in the other two.
#[test]
fn a_record_of_any_name_fits_the_ring() {
    let mut run = Run {
        rng: Rng::new("fits"),
        posts: 0,
        dropped: 0,
    };
    for capacity in [1024, 1032, 1048, 4096, 65_536] {
        let mut ring = Ring::new(capacity);
        for length in name_lengths() {
            let turn = turn(&mut run.rng, capacity);
            for place in places(capacity, record_length(3, length) as u64) {
                run.three(&mut ring, turn + place, length);
            }
        }
    }
    println!("fits: {} posts, {} dropped", run.posts, run.dropped);
    // 128 and 129 places in the two smallest rings, 13 in each of the others.
    assert_eq!(run.posts, 3 * 255 * (128 + 129 + 3 * 13));
    assert_eq!(run.dropped, 162 * 128 + 158 * 129 + 154 * 13);
}

/// A record of the longest name is 592 bytes, so that of three a ring below 1,184
/// bytes keeps one, and one below 1,776 two: 20 and 74 of the 8,065 capacities.
#[test]
fn the_longest_name_fits_every_ring() {
    let mut run = Run {
        rng: Rng::new("longest"),
        posts: 0,
        dropped: 0,
    };
    for capacity in (1024..=65_536).step_by(8) {
        let place = 8 * run.rng.below(capacity / 8);
        let start = turn(&mut run.rng, capacity) + place;
        run.three(&mut Ring::new(capacity), start, 510);
    }
    println!("longest: {} posts, {} dropped", run.posts, run.dropped);
    assert_eq!(run.posts, 3 * 8065);
    assert_eq!(run.dropped, 2 * 20 + 74);
}

/// What a post to an empty journal should leave: its status, the file's Usn and
/// the volume record.
fn outcome(before: Volume, usn: u64, record: u64) -> (Status, u64, Volume) {
    let end = before.last + record;
    if end >= NEGATIVE {
        return (Status::DiskFull, usn, before);
    }
    let after = Volume {
        last: end,
        ..before
    };
    (Status::Success, end, after)
}

/// Posts to empty journals at a position, the library's and the model's, and gives
/// the library's status.
fn post_to_both(
    rng: &mut Rng,
    ring: &mut Ring,
    model_ring: &mut [u8],
    last: u64,
    name: &[u8],
) -> Status {
    let change = change(rng);
    let before = created(ring.capacity, last);
    let usn_before = rng.long();
    let (mut volume, mut usn) = (before, usn_before);
    let status = volume.post(ring.lent(), &change, name, &mut usn);
    let (mut model, mut model_usn) = (model_volume(&before), usn_before);
    let model_status = model::post(
        &mut model,
        &mut model_ring[..ring.capacity as usize],
        &model_change(&change),
        name,
        &mut model_usn,
    );

    let expected = outcome(before, usn_before, record_length(3, name.len()) as u64);
    if expected.0 == Status::Success {
        ring.expect(last, &lay_out(3, &change, expected.1, name));
    }
    let call = || format!("post of {} bytes: {before:?}", name.len());
    assert_eq!((status, usn, volume), expected, "{}", call());
    assert!(ring.library == ring.expected, "wrong ring, {}", call());
    let expected = (expected.0.number(), expected.1, model_volume(&expected.2));
    assert_eq!((model_status, model_usn, model), expected, "{}", call());
    assert!(model_ring == ring.expected, "model's ring, {}", call());
    status
}

/// A record of 8 * n bytes is refused at the last n of the positions. Over all
/// lengths of names n is 10 for two, then 11 to 73 for four each, and 74 for one:
/// 20 + 4 * 63 * 42 + 74 = 10,678 refusals in each ring.
#[test]
fn disk_full_is_for_the_limit_alone() {
    let mut rng = Rng::new("full");
    let (mut refused, mut accepted) = (0, 0);
    for capacity in [1024, 65_536] {
        let mut ring = Ring::new(capacity);
        for length in name_lengths() {
            ring.fill(&mut rng);
            let mut model_ring = ring.library.clone();
            let name = common::name(&mut rng, length);
            for step in 1..=160 {
                let last = NEGATIVE - 8 * step;
                match post_to_both(&mut rng, &mut ring, &mut model_ring, last, &name) {
                    Status::DiskFull => refused += 1,
                    _ => accepted += 1,
                }
            }
        }
    }
    println!("full: {refused} refused, {accepted} accepted");
    assert_eq!(refused, 2 * 10_678);
    assert_eq!(accepted, 2 * (255 * 160 - 10_678));
}
