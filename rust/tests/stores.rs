//! What the calls that change the volume record or a file's record store in them:
//! nothing where they refuse, nothing in the volume record where a post is skipped,
//! and else only the fields that they may change.
//!
//! A store of the number that is there already cannot be seen by its value. So
//! both records lie on read-only pages, and the calls are made in a child process.
//! There a store to such a page comes to a handler, which knows where the fields
//! are that the call changes: if it begins in one of them, the page is writable for
//! this one instruction, and if not, the child is killed. Each record lies on two
//! pages, cut behind such a field, so that a store that begins right and goes too
//! far is seen too. The ring, a file's store and the Usn of a post are read-only
//! as a whole where the call must not write them, and the store always behind its
//! first page.
//!
//! A set or a delete of a point that succeeds must store the file's Usn, where its
//! post is skipped too, and the volume record behind the file record: a call that is
//! cut off leaves no position of a change that is not there.

mod common;

use common::points::{damage, file, lay_out_point, tag_and_guid, STORE};
use common::points::{Arguments, Kind};
use common::{check, expected, image, lay_out, model_change, model_file, model_volume};
use common::{version_of, Counts, Rng, FORMS, NEGATIVE};
use core::ffi::c_void;
use lanhduxe::Status::{self, *};
use lanhduxe::{Change, FileId, FileRecord, Volume};
use std::mem::{offset_of, size_of};
use std::ptr;
use std::sync::atomic::{AtomicPtr, AtomicUsize, Ordering::Relaxed};

/// How often each of the seven is called.
const CALLS: u64 = 25_000;

// The library's calls as C has them: a record on a read-only page may not be
// borrowed.
extern "C" {
    fn usn_create(volume: *mut Volume, id: u64) -> u32;
    fn usn_delete(volume: *mut Volume, id: u64) -> u32;
    fn usn_finish(volume: *mut Volume) -> u32;
    fn usn_post(
        volume: *mut Volume,
        ring: *mut u8,
        ring_size: usize,
        change: Change,
        name: *const u8,
        name_size: usize,
        usn: *mut u64,
    ) -> u32;
    fn usn_load_journal(
        volume: *mut Volume,
        ring: *mut u8,
        ring_size: usize,
        image: *const u8,
        image_size: usize,
        id: u64,
    ) -> u32;
    fn usn_set_reparse_point(
        volume: *mut Volume,
        ring: *mut u8,
        ring_size: usize,
        file: *mut FileRecord,
        store: *mut u8,
        store_size: usize,
        change: Change,
        name: *const u8,
        name_size: usize,
        input: *const u8,
        input_size: usize,
    ) -> u32;
    fn usn_delete_reparse_point(
        volume: *mut Volume,
        ring: *mut u8,
        ring_size: usize,
        file: *mut FileRecord,
        store: *const u8,
        store_size: usize,
        change: Change,
        name: *const u8,
        name_size: usize,
        input: *const u8,
        input_size: usize,
    ) -> u32;
}

// The system's calls, of the C library (x86-64 Linux).
extern "C" {
    fn mmap(
        at: *mut c_void,
        size: usize,
        access: i32,
        flags: i32,
        file: i32,
        from: i64,
    ) -> *mut c_void;
    fn mprotect(at: *mut c_void, size: usize, access: i32) -> i32;
    fn sigaction(signal: i32, action: *const Action, old: *mut Action) -> i32;
    fn fork() -> i32;
    fn waitpid(process: i32, status: *mut i32, options: i32) -> i32;
    fn _exit(status: i32) -> !;
}

const PAGE: usize = 4096;
const READ: i32 = 1;
const WRITE: i32 = 2;
const SHARED: i32 = 1;
const ANONYMOUS: i32 = 0x20;

const SIGTRAP: i32 = 5;
const SIGSEGV: i32 = 11;
const SA_SIGINFO: i32 = 4;

/// `struct sigaction`
#[repr(C)]
struct Action {
    handler: usize,
    mask: [u64; 16],
    flags: i32,
    restorer: usize,
}

/// The words of `siginfo_t` and `ucontext_t` that hold the address of a fault and
/// the processor's flags.
const FAULT_ADDRESS: usize = 2;
const FLAGS: usize = 22;

/// The flag that ends the next instruction with a signal.
const TRAP: u64 = 0x100;

/// A handler, with the words of `siginfo_t` and `ucontext_t`.
type Handler = extern "C" fn(i32, *const usize, *mut u64);

/// Lets a handler have a signal, or the system.
fn handle(signal: i32, handler: Option<Handler>) {
    let action = Action {
        handler: handler.map_or(0, |handler| handler as usize),
        mask: [0; 16],
        flags: SA_SIGINFO,
        restorer: 0,
    };
    // SAFETY: an action as the C library has it.
    unsafe {
        if sigaction(signal, &action, ptr::null_mut()) != 0 {
            _exit(1);
        }
    }
}

/// Pages that a child process shares with this one. They are never given back.
fn pages(count: usize) -> *mut u8 {
    let nowhere = ptr::null_mut();
    // SAFETY: new memory at an address that the system chooses.
    let at = unsafe {
        mmap(
            nowhere,
            count * PAGE,
            READ | WRITE,
            SHARED | ANONYMOUS,
            -1,
            0,
        )
    };
    assert!(at as isize != -1, "no memory");
    at.cast()
}

/// Lets pages be written, or only read. Ends the process where that fails.
fn protect(at: *mut u8, count: usize, writable: bool) {
    let access = if writable { READ | WRITE } else { READ };
    // SAFETY: pages that `pages` gave; nothing borrows their bytes.
    unsafe {
        if mprotect(at.cast(), count * PAGE, access) != 0 {
            _exit(1);
        }
    }
}

/// Fields that a call may store: where the first begins, and where the last ends.
type Fields = (usize, usize);

/// The most of these in both records together.
const MOST_FIELDS: usize = 3;

/// The addresses of the fields that the call at hand may store in read-only pages,
/// for the handlers.
static ALLOWED: [[AtomicUsize; 2]; MOST_FIELDS] =
    [const { [const { AtomicUsize::new(0) }; 2] }; MOST_FIELDS];

/// The page that is writable for one instruction.
static OPENED: AtomicUsize = AtomicUsize::new(0);

/// What a child tells while it makes its calls: how many it has made, and where the
/// store was that killed it.
struct Told {
    done: AtomicUsize,
    fault: AtomicUsize,
}

/// Where a child tells it, for the handlers.
static TOLD: AtomicPtr<Told> = AtomicPtr::new(ptr::null_mut());

/// What a call stored in its two records: how many stores there were, which of them
/// was the last in the file record and which the first in the volume record, counted
/// from 1 (0 where there was none), and whether one was in the file's Usn.
#[derive(Clone, Copy, Debug)]
struct Trace {
    count: usize,
    last_of_file: usize,
    first_of_volume: usize,
    usn: bool,
}

/// The trace of the call at hand, and where its file record lies, for the handlers.
static TRACE: AtomicPtr<Trace> = AtomicPtr::new(ptr::null_mut());
static FILE: AtomicUsize = AtomicUsize::new(0);

/// Notes a store at an address of one of the two records.
fn note(trace: &mut Trace, address: usize) {
    let file = FILE.load(Relaxed);
    trace.count += 1;
    if (file..file + size_of::<FileRecord>()).contains(&address) {
        trace.last_of_file = trace.count;
        trace.usn |= address - file == offset_of!(FileRecord, usn);
    } else if trace.first_of_volume == 0 {
        trace.first_of_volume = trace.count;
    }
}

/// Sets the addresses of a call's fields: those of its two records.
fn allow(records: [(*mut u8, &[Fields]); 2]) {
    let fields = records.into_iter().flat_map(|(record, fields)| {
        let at = record as usize;
        fields
            .iter()
            .map(move |(begin, end)| [at + begin, at + end])
    });
    let none = std::iter::repeat([0, 0]);
    for (allowed, addresses) in ALLOWED.iter().zip(fields.chain(none)) {
        allowed[0].store(addresses[0], Relaxed);
        allowed[1].store(addresses[1], Relaxed);
    }
}

/// A store to a read-only page: opens the page for it if it is allowed. If not, it
/// comes again when this returns, and the system kills the process.
extern "C" fn on_fault(_: i32, info: *const usize, context: *mut u64) {
    // SAFETY: the system hands both to a handler.
    let (address, flags) = unsafe { (*info.add(FAULT_ADDRESS), &mut *context.add(FLAGS)) };
    let allowed = ALLOWED
        .iter()
        .any(|fields| (fields[0].load(Relaxed)..fields[1].load(Relaxed)).contains(&address));
    if !allowed {
        // SAFETY: a page that the child shares with its parent.
        unsafe { (*TOLD.load(Relaxed)).fault.store(address, Relaxed) };
        return handle(SIGSEGV, None);
    }
    // SAFETY: the trace of the call at hand, which nothing borrows during the call.
    note(unsafe { &mut *TRACE.load(Relaxed) }, address);
    let page = address - address % PAGE;
    OPENED.store(page, Relaxed);
    protect(page as *mut u8, 1, true);
    *flags |= TRAP;
}

/// The store has been made: closes the page again.
extern "C" fn on_step(_: i32, _: *const usize, context: *mut u64) {
    protect(OPENED.load(Relaxed) as *mut u8, 1, false);
    // SAFETY: the system hands it to a handler.
    unsafe { *context.add(FLAGS) &= !TRAP };
}

/// The ring of every journal here, with room for twelve short records.
const RING: usize = 1024;

/// One call and its arguments.
#[derive(Clone, Copy, Debug)]
enum Call {
    Create(u64),
    Delete(u64),
    Finish,
    Post(Change, &'static [u8]),
    Load(&'static [u8], u64),
    Point(Kind, Change, &'static [u8], Input),
}

/// The input of a call that changes a point: at most 40 bytes.
#[derive(Clone, Copy, Debug)]
struct Input {
    bytes: [u8; 40],
    size: usize,
}

impl Input {
    fn of(input: &[u8]) -> Input {
        let size = input.len().min(40);
        let mut bytes = [0; 40];
        bytes[..size].copy_from_slice(&input[..size]);
        Input { bytes, size }
    }
}

/// A status, the records that a call left, and what it stored in them.
type Outcome = (u32, Volume, FileRecord, Trace);

/// The same by the model.
type ModelOutcome = (u32, model::Volume, model::File);

impl Call {
    /// The fields of the volume record that the call changes where it does
    /// something.
    fn changes(&self) -> &'static [Fields] {
        const STATE: usize = offset_of!(Volume, state);
        const ID: usize = offset_of!(Volume, id);
        const FIRST: usize = offset_of!(Volume, first);
        const LAST: usize = offset_of!(Volume, last);
        const CAPACITY: usize = offset_of!(Volume, capacity);
        match self {
            Call::Create(_) => &[(STATE, LAST)], // state, id, first
            Call::Delete(_) | Call::Finish => &[(STATE, ID)], // state
            Call::Post(..) | Call::Point(..) => &[(FIRST, CAPACITY)], // first, last
            Call::Load(..) => &[(STATE, CAPACITY)], // state, id, first, last
        }
    }

    /// The fields of the file record that the call stores where it succeeds. The
    /// Usn is among them where the post is skipped too: it is then the one that is
    /// there.
    fn changes_of_file(&self) -> &'static [Fields] {
        const USN: Fields = (offset_of!(FileRecord, usn), offset_of!(FileRecord, eof));
        const POINT: Fields = (offset_of!(FileRecord, tag), size_of::<FileRecord>());
        match self {
            Call::Point(..) => &[USN, POINT], // usn; tag, guid, length
            _ => &[],
        }
    }

    /// What the model makes of it.
    fn by_model(&self, volume: &Volume, file: &FileRecord, ring: &[u8]) -> ModelOutcome {
        let (mut after, mut file) = (model_volume(volume), model_file(file));
        let mut ring = ring.to_vec();
        let status = match self {
            Call::Create(id) => model::create(&mut after, *id),
            Call::Delete(id) => model::delete(&mut after, *id),
            Call::Finish => model::finish(&mut after),
            Call::Post(change, name) => {
                model::post(&mut after, &mut ring, &model_change(change), name, &mut 0)
            }
            Call::Load(image, id) => model::load_journal(&mut after, &mut ring, image, *id),
            Call::Point(kind, change, name, input) => {
                let given = Arguments {
                    change,
                    name,
                    input: &input.bytes[..input.size],
                };
                kind.by_model(&mut after, &mut ring, &mut file, &mut [0; STORE], given)
            }
        };
        (status, after, file)
    }

    /// Makes the call. What it must not store may be read-only.
    ///
    /// # Safety
    /// The records, the `RING` bytes of the ring, the Usn and the `STORE` bytes of
    /// the store can be read.
    unsafe fn by_library(&self, volume: *mut Volume, file: *mut FileRecord, lent: &Lent) -> u32 {
        let Lent { ring, usn, store } = *lent;
        match self {
            Call::Create(id) => usn_create(volume, *id),
            Call::Delete(id) => usn_delete(volume, *id),
            Call::Finish => usn_finish(volume),
            Call::Post(change, name) => {
                let (name, size) = (name.as_ptr(), name.len());
                usn_post(volume, ring, RING, *change, name, size, usn)
            }
            Call::Load(image, id) => {
                usn_load_journal(volume, ring, RING, image.as_ptr(), image.len(), *id)
            }
            Call::Point(kind, change, name, input) => {
                let (name, size) = (name.as_ptr(), name.len());
                let (input, length) = (input.bytes.as_ptr(), input.size);
                match kind {
                    Kind::Set => usn_set_reparse_point(
                        volume, ring, RING, file, store, STORE, *change, name, size, input, length,
                    ),
                    Kind::Delete => usn_delete_reparse_point(
                        volume, ring, RING, file, store, STORE, *change, name, size, input, length,
                    ),
                }
            }
        }
    }
}

/// A name for posts, of which the first bytes are taken.
const NAME: &[u8; 512] = &[0x61; 512];

/// Names for posts that have a right length and an excluded unit.
const BAD_NAMES: [&[u8]; 3] = [b"\0\0", b"a\0/\0b\0", b"abcdefghijklmnopqrst\\\0"];

/// A call on two records, each cut in two, the fields of both that it may store, and
/// what the model makes of it.
#[derive(Debug)]
struct Case {
    call: Call,
    volume: Volume,
    file: FileRecord,
    cuts: [usize; 2],
    fields: [&'static [Fields]; 2],
    model: ModelOutcome,
}

impl Case {
    /// Whether the call writes the ring, and for a post the Usn.
    fn writes_ring(&self) -> bool {
        !self.fields[0].is_empty()
    }

    /// Whether a call that succeeds, and changes the file record, stored its Usn, and
    /// the volume record, if it changes that too, behind the file record.
    fn stores_in_order(&self, trace: Trace) -> bool {
        let volume = trace.first_of_volume;
        let last = match self.fields[0] {
            [] => volume == 0,
            _ => trace.last_of_file < volume,
        };
        trace.usn && last
    }

    /// Whether the call writes the store.
    fn writes_store(&self) -> bool {
        let success = self.model.0 == Success.number();
        success && matches!(self.call, Call::Point(Kind::Set, ..))
    }
}

/// A journal with a full ring, as posts left it.
fn full() -> (Volume, Vec<u8>) {
    let mut ring = vec![0; RING];
    let mut volume = Volume {
        journal: 1,
        capacity: RING as u64,
        ..Volume::default()
    };
    assert_eq!(volume.create(7), Success);
    for file in 0..20 {
        let change = Change {
            file: FileId::new(file),
            reason: 0x100,
            ..Change::default()
        };
        assert_eq!(volume.post(&mut ring, &change, b"a\0", &mut 0), Success);
    }
    (volume, ring)
}

/// The volume record of a full ring, with some fields changed.
fn volume(rng: &mut Rng, full: &Volume) -> Volume {
    let mut volume = Volume {
        usn: rng.word(),
        regions: rng.word(),
        reparse: rng.flag(5),
        points: rng.flag(5),
        journal: rng.flag(10),
        state: rng.pick(&[0, 1, 1, 1, 2, 2, 3, u32::MAX]),
        ..*full
    };
    match rng.below(12) {
        0 => volume.capacity = rng.pick(&[0, 1016, 1020, 65_544, NEGATIVE]),
        1 => volume.last = rng.pick(&[4, volume.last - 8, NEGATIVE, u64::MAX]),
        2 => volume.first = rng.pick(&[volume.first + 8, volume.last + 8]),
        // no position is left: an empty journal close to the limit
        3 => (volume.first, volume.last) = (NEGATIVE - 8, NEGATIVE - 8),
        _ => {}
    }
    volume
}

/// Buffers that calls are lent, on pages of their own.
struct Lent {
    ring: *mut u8,
    usn: *mut u64,
    store: *mut u8,
}

/// The pages of a store.
const STORE_PAGES: usize = STORE.div_ceil(PAGE);

/// How a child was killed: in which call, by which signal, and where the store was
/// that it was killed for, from the first page of the volume record and of the file
/// record.
#[derive(Debug)]
struct Killed {
    call: usize,
    signal: i32,
    places: [usize; 2],
}

/// Makes all calls in a child process. Gives what came of them, or how the child was
/// killed.
fn run(cases: &[Case], ring: &[u8]) -> Result<Vec<Outcome>, Killed> {
    let size = size_of::<Outcome>() * cases.len();
    let outcomes: *mut Outcome = pages(size / PAGE + 1).cast();
    // SAFETY: zeroes on a page of their own, which is never given back.
    let told: &Told = unsafe { &*pages(1).cast() };
    let records = [pages(2), pages(2)];
    let (page, store) = (pages(1), pages(STORE_PAGES));
    let lent = Lent {
        ring: page,
        usn: page.wrapping_add(RING).cast(),
        store,
    };
    // SAFETY: the child makes only calls of the system and of the library, on
    // memory that it has for itself, and ends.
    let child = unsafe { fork() };
    assert!(child >= 0, "no child process");
    if child == 0 {
        let trace: *mut Trace = pages(1).cast();
        TOLD.store(ptr::from_ref(told).cast_mut(), Relaxed);
        TRACE.store(trace, Relaxed);
        handle(SIGSEGV, Some(on_fault));
        handle(SIGTRAP, Some(on_step));
        // The data of a set, at most 32 bytes here, goes to the first page of the store.
        protect(store, STORE_PAGES, false);
        for (number, case) in cases.iter().enumerate() {
            let at = [0, 1].map(|record| records[record].wrapping_add(PAGE - case.cuts[record]));
            let (volume, file): (*mut Volume, *mut FileRecord) = (at[0].cast(), at[1].cast());
            for record in records {
                protect(record, 2, true);
            }
            protect(page, 1, true);
            // SAFETY: each record lies on its two pages, at a multiple of 8;
            // the others hold as many bytes as are asked for.
            unsafe {
                volume.write(case.volume);
                file.write(case.file);
                ptr::copy_nonoverlapping(ring.as_ptr(), lent.ring, RING);
                for record in records {
                    protect(record, 2, false);
                }
                protect(page, 1, case.writes_ring());
                protect(store, 1, case.writes_store());
                allow([(at[0], case.fields[0]), (at[1], case.fields[1])]);
                told.done.store(number, Relaxed);
                trace.write(Trace {
                    count: 0,
                    last_of_file: 0,
                    first_of_volume: 0,
                    usn: false,
                });
                FILE.store(at[1] as usize, Relaxed);
                let status = case.call.by_library(volume, file, &lent);
                outcomes
                    .add(number)
                    .write((status, volume.read(), file.read(), trace.read()));
            }
        }
        // SAFETY: the child ends here, and runs nothing of its parent's.
        unsafe { _exit(0) };
    }
    let mut status = 0;
    // SAFETY: a child of this process; and once it has ended, nobody writes what
    // it has written.
    unsafe {
        assert_eq!(waitpid(child, &mut status, 0), child);
        match status {
            0 => Ok(std::slice::from_raw_parts(outcomes, cases.len()).to_vec()),
            _ => Err(Killed {
                call: told.done.load(Relaxed),
                signal: status & 0x7F,
                places: records.map(|at| told.fault.load(Relaxed).wrapping_sub(at as usize)),
            }),
        }
    }
}

/// A cut behind one of these fields, or any if there are none.
fn cut(rng: &mut Rng, fields: &[Fields], size: usize) -> usize {
    match fields {
        [] => 8 * rng.between(0, size as u64 / 8) as usize,
        _ => rng.pick(fields).1,
    }
}

/// Makes random calls of one kind. Every status of these must come.
fn try_calls(
    test: &'static str,
    expected: &[Status],
    draw: impl Fn(&mut Rng, &FileRecord) -> Call,
) {
    let mut rng = Rng::new(test);
    let mut counts = Counts::new(test);
    let (kept, ring) = full();
    let mut cases = Vec::new();
    while (cases.len() as u64) < CALLS {
        let file = file(&mut rng, 20);
        let call = draw(&mut rng, &file);
        let volume = volume(&mut rng, &kept);
        let model = call.by_model(&volume, &file, &ring);
        let acts = model.1 != model_volume(&volume);
        let succeeds = model.0 == Success.number();
        let fields = [
            if acts { call.changes() } else { &[] },
            if succeeds {
                call.changes_of_file()
            } else {
                &[]
            },
        ];
        let cuts = [
            cut(&mut rng, fields[0], size_of::<Volume>()),
            cut(&mut rng, fields[1], size_of::<FileRecord>()),
        ];
        cases.push(Case {
            call,
            volume,
            file,
            cuts,
            fields,
            model,
        });
    }
    let changing = cases.iter().filter(|case| case.writes_ring()).count();
    assert!(
        changing > 1000 && cases.len() - changing > 1000,
        "{test}: {changing}"
    );
    let outcomes = run(&cases, &ring).unwrap_or_else(|killed| {
        let case = &cases[killed.call];
        let place = |record: usize| {
            let from_cut = killed.places[record].wrapping_sub(PAGE) as isize;
            from_cut.wrapping_add(case.cuts[record] as isize)
        };
        panic!(
            "{test}: call {} was killed by signal {}: it stores at byte {} of the volume record, \
             or {} of the file record\n{case:?}",
            killed.call,
            killed.signal,
            place(0),
            place(1)
        )
    });
    for (index, (case, (status, after, file, trace))) in cases.iter().zip(outcomes).enumerate() {
        let agree = (status, model_volume(&after), model_file(&file)) == case.model
            && (case.fields[1].is_empty() || case.stores_in_order(trace));
        check(agree, test, index as u64, || {
            format!("library {status:#x} {after:?} {file:?} {trace:?}\n{case:?}")
        });
        let known = Status::ALL.iter().find(|known| known.number() == status);
        counts.add(*known.expect("a known status"));
    }
    counts.finish(expected, CALLS);
}

#[test]
fn create_stores_state_id_and_first_or_nothing() {
    let expected = [
        Success,
        InvalidParameter,
        FileCorruptError,
        JournalDeleteInProgress,
    ];
    try_calls("stores of create", &expected, |rng, _| {
        Call::Create(rng.pick(&[0, 7, 8, 9]))
    });
}

#[test]
fn delete_stores_the_state_or_nothing() {
    let expected = [
        Success,
        InvalidParameter,
        JournalDeleteInProgress,
        JournalNotActive,
    ];
    try_calls("stores of delete", &expected, |rng, _| {
        Call::Delete(rng.pick(&[0, 7, 7, 8]))
    });
}

#[test]
fn finish_stores_the_state_or_nothing() {
    let expected = [Success, InvalidParameter, JournalNotActive];
    try_calls("stores of finish", &expected, |_, _| Call::Finish);
}

/// A name for a post, good or not.
fn name(rng: &mut Rng) -> &'static [u8] {
    match rng.below(8) {
        0 => rng.pick(&BAD_NAMES),
        _ => &NAME[..rng.pick(&[0, 1, 2, 2, 2, 4, 100, 510, 511, 512])],
    }
}

#[test]
fn post_stores_first_and_last_or_nothing() {
    let expected = [Success, InvalidParameter, DiskFull, FileCorruptError];
    try_calls("stores of post", &expected, |rng, _| {
        Call::Post(common::any_change(rng, 30), name(rng))
    });
}

/// Images to load, in both forms: one that has room, an empty one, one that spans
/// too much, one of a form that is not known, and four that are none. They are
/// never given back.
fn images() -> Vec<&'static [u8]> {
    let change = Change {
        reason: 1,
        ..Change::default()
    };
    let mut images = Vec::new();
    for form in FORMS {
        let version = version_of(form);
        let body = |count: u64| -> Vec<u8> {
            (1..=count)
                .flat_map(|number| lay_out(version, &change, 80 * number, b"a\0"))
                .collect()
        };
        let right = image(form, &body(12), 0, 5);
        let mut unknown = right.clone();
        unknown[right.len() - 4] = 3;
        let mut changed = right.clone();
        changed[8] ^= 1;
        let short = right[..31].to_vec();
        let long = image(form, &body(13), 0, 5);
        let excluded = lay_out(version, &change, 80, b"a\0\\\0");
        let excluded = image(form, &excluded, 0, 5);
        let empty = image(form, &[], 1 << 40, 5);
        let other = image(3 - form, &body(12), 0, 5);
        images.extend([right, empty, long, unknown, changed, short, excluded, other]);
    }
    images.into_iter().map(|image| &*image.leak()).collect()
}

#[test]
fn load_stores_state_id_first_and_last_or_nothing() {
    let images = images();
    try_calls("stores of load", &expected::LOAD, |rng, _| {
        let image = match rng.below(2) {
            0 => rng.pick(&[images[0], images[images.len() / 2]]),
            _ => rng.pick(&images),
        };
        Call::Load(image, rng.pick(&[0, 5, 7, 8, 9, 10]))
    });
}

/// A call that changes a file's point, on a file with one that it mostly goes with.
fn point_call(rng: &mut Rng, kind: Kind, file: &FileRecord) -> Call {
    let (tag, guid) = tag_and_guid(rng, file);
    let length = match kind {
        Kind::Set => rng.below(16) as usize,
        Kind::Delete => 0,
    };
    let mut input = lay_out_point(tag, &guid, &rng.bytes(length));
    if rng.percent(10) {
        damage(rng, &mut input);
    }
    let change = common::any_change(rng, 30);
    Call::Point(kind, change, name(rng), Input::of(&input))
}

#[test]
fn set_stores_first_and_last_and_usn_and_the_point_or_nothing() {
    try_calls("stores of set", &expected::SET, |rng, file| {
        point_call(rng, Kind::Set, file)
    });
}

#[test]
fn delete_of_a_point_stores_the_same_or_nothing() {
    try_calls("stores of delete point", &expected::DELETE, |rng, file| {
        point_call(rng, Kind::Delete, file)
    });
}
