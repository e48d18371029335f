//! A journal in a small ring, for tests that say themselves what is due.

use super::{ReadInput, Rng, GUARD};
use lanhduxe::Status::{self, Success};
use lanhduxe::{move_image, Answer, Change, Volume};

/// The ring's length: with room for the longest record and others.
pub const CAPACITY: usize = 1024;

/// An answer, and the bytes that came with it.
pub type Given = (Answer, Vec<u8>);

/// What a call wrote. The bytes behind it are as they were.
pub fn given(mut output: Vec<u8>, answer: Answer) -> Given {
    assert!(output[answer.count..].iter().all(|byte| *byte == 0xCC));
    output.truncate(answer.count);
    (answer, output)
}

pub fn success(count: usize) -> Answer {
    let status = Success;
    Answer { status, count }
}

/// An answer with these bytes.
pub fn gave(bytes: Vec<u8>) -> Given {
    (success(bytes.len()), bytes)
}

pub fn refused(status: Status) -> Given {
    (Answer { status, count: 0 }, Vec::new())
}

/// Moves an image from a form. The image stays as it is.
pub fn moved(image: &[u8], from: u32, room: usize) -> Given {
    let before = image.to_vec();
    let mut output = vec![0xCC; room + GUARD];
    let answer = move_image(image, from, &mut output[..room]);
    assert!(image == before, "a move changed its image");
    given(output, answer)
}

/// Guard bytes of units that no name may hold, so that a call sees a difference if
/// it judges them, and half of them are not what padding is.
pub fn behind() -> Vec<u8> {
    [0x5C, 0].into_iter().cycle().take(GUARD).collect()
}

/// A volume that supports files' USN data and a journal, which is idle.
pub fn idle(capacity: usize) -> Volume {
    Volume {
        usn: 1,
        journal: 1,
        capacity: capacity as u64,
        ..Volume::default()
    }
}

/// A volume record and its ring with guard bytes behind it.
#[derive(Clone, Debug, PartialEq, Eq)]
pub struct Journal {
    pub volume: Volume,
    pub ring: Vec<u8>,
}

impl Journal {
    /// An idle journal that ended at a position.
    pub fn idle(last: u64) -> Journal {
        let volume = Volume {
            last,
            ..idle(CAPACITY)
        };
        let mut ring = vec![0xEE; CAPACITY];
        ring.extend(behind());
        Journal { volume, ring }
    }

    /// A journal that is empty at a position.
    pub fn new(last: u64) -> Journal {
        let mut journal = Journal::idle(last);
        assert_eq!(journal.volume.create(7), Success);
        journal
    }

    /// Posts, and gives the status and the file's Usn, which was 3.
    pub fn post(&mut self, change: &Change, name: &[u8]) -> (Status, u64) {
        let mut usn = 3;
        let ring = &mut self.ring[..CAPACITY];
        let status = self.volume.post(ring, change, name, &mut usn);
        (status, usn)
    }

    /// Reads what a mask selects from a position on.
    pub fn read(&self, start: u64, mask: u32, version: u16, room: usize) -> Given {
        let input = ReadInput {
            start,
            mask,
            only_on_close: 0,
            id: self.volume.id,
            lowest: 2,
            highest: version,
            size: 48,
        };
        self.ask(&input, room)
    }

    pub fn ask(&self, input: &ReadInput, room: usize) -> Given {
        let input = input.bytes(&mut Rng::fixed());
        let mut output = vec![0xCC; room + GUARD];
        let ring = &self.ring[..CAPACITY];
        let lent = &mut output[..room];
        let answer = self.volume.read_journal(ring, &input, lent);
        given(output, answer)
    }

    pub fn save(&self, form: u32, room: usize) -> Given {
        let mut output = vec![0xCC; room + GUARD];
        let ring = &self.ring[..CAPACITY];
        let answer = self.volume.save_journal(ring, form, &mut output[..room]);
        given(output, answer)
    }

    /// Loads an image. A refusal changes nothing.
    pub fn load(&mut self, image: &[u8], id: u64) -> Status {
        let before = self.clone();
        let ring = &mut self.ring[..CAPACITY];
        let status = self.volume.load_journal(ring, image, id);
        if status != Success {
            assert!(*self == before, "a refused load changed");
        }
        status
    }
}
