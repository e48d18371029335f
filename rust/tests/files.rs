//! The three controls on a file on random calls: the library against the model.

mod common;

use common::points::{header_length, STORE};
use common::{check, expected, model_file, model_links, model_volume, region_input};
use common::{Counts, Hex, Lent, Rng, NEGATIVE};
use lanhduxe::{FileRecord, Link, Volume};

const CALLS: u64 = 250_000;

/// 2^63 - 1, the largest offset.
const TOP: u64 = NEGATIVE - 1;

/// A volume record for the file controls: the journal's part is of no concern.
fn volume(rng: &mut Rng) -> Volume {
    Volume {
        usn: rng.flag(3),
        regions: rng.flag(3),
        reparse: rng.flag(3),
        points: rng.flag(3),
        journal: rng.flag(50),
        state: rng.word(),
        id: rng.long(),
        first: rng.long(),
        last: rng.long(),
        capacity: rng.long(),
    }
}

/// A file record that is good in all its parts.
fn file(rng: &mut Rng) -> FileRecord {
    let eof = rng.draw() >> rng.between(1, 63);
    let mut file = FileRecord {
        id: common::ids(rng, 30).0,
        usn: rng.long() & (NEGATIVE - 1),
        eof,
        valid: rng.between(0, eof),
        attributes: rng.word(),
        tag: rng.word(),
        guid: [0; 16],
        length: rng.below(100),
    };
    rng.fill(&mut file.guid);
    file
}

/// Gives a length near one of some limits, or any below `most`.
fn near(rng: &mut Rng, limits: &[u64], most: u64) -> usize {
    if rng.percent(80) {
        let limit = rng.pick(limits);
        match rng.around(limit) {
            u64::MAX => 0,
            length => length as usize,
        }
    } else {
        rng.between(0, most) as usize
    }
}

/// A link table over a pool: mostly good, else with one bad link.
fn link_table(rng: &mut Rng, pool: usize) -> Vec<Link> {
    let pool = pool as u64;
    let few_short = rng.percent(60);
    let many_empty = rng.percent(40);
    let mut links = Vec::new();
    for _ in 0..rng.below(7) {
        let most = pool.min(510) / 2;
        let length = match rng.below(10) {
            _ if many_empty && rng.percent(70) => 0,
            0 => 0,
            1 => most,
            2..=6 => rng.between(0, most.min(8)),
            _ => rng.between(0, most),
        } * 2;
        let place = match rng.below(4) {
            0 => pool - length,
            1 => 0,
            _ => rng.between(0, pool - length),
        };
        let short = match rng.below(10) {
            0..=2 if !few_short => rng.pick(&[1, 2, 24, 0x100, 0x10000, u32::MAX]),
            0 => rng.pick(&[1, 24, 0x8000_0000]),
            _ => 0,
        };
        links.push(Link {
            place: place as u32,
            length: length as u32,
            short,
        });
    }
    if !links.is_empty() && rng.percent(15) {
        let bad = rng.below(links.len() as u64) as usize;
        let link = &mut links[bad];
        match rng.below(8) {
            0 => link.length |= 1,
            1 => link.length = rng.pick(&[511, 512, 514, 1024]),
            2 => link.place = pool as u32 - link.length + rng.pick(&[1, 2, 3]),
            3 => link.place = u32::MAX - link.length.wrapping_sub(rng.below(3) as u32),
            4 => {
                link.place = u32::MAX - rng.below(600) as u32;
                link.length = 2 * rng.between(0, 300) as u32;
            }
            5 => link.length = u32::MAX - rng.below(600) as u32,
            6 => {
                // The sum is a small number if it wraps around 2^32.
                link.length = 2 * rng.between(1, 255) as u32;
                link.place = 0u32.wrapping_sub(link.length);
            }
            _ => link.place = pool as u32 + rng.below(2) as u32,
        }
    }
    links
}

/// Plants a unit in the name of a link, where that lies in the pool.
fn plant_in_a_name(rng: &mut Rng, pool: &mut [u8], links: &[Link]) {
    let link = rng.pick(links);
    let place = link.place as usize;
    if let Some(name) = pool.get_mut(place..place + link.length as usize) {
        common::plant_some(rng, name);
    }
}

#[test]
fn file_reads_agree_with_the_model() {
    const TEST: &str = "file read";
    let mut rng = Rng::new(TEST);
    let mut counts = Counts::new(TEST);
    for index in 0..CALLS {
        let volume = volume(&mut rng);
        let mut file = file(&mut rng);
        if rng.percent(4) {
            file.usn = rng.pick(&[NEGATIVE, NEGATIVE + 8, u64::MAX, u64::MAX - 7]);
        }
        // What only other controls judge may be bad.
        if rng.percent(10) {
            file.eof = rng.long();
            file.valid = rng.long();
            file.length = rng.long();
        }
        let (_, parent) = common::ids(&mut rng, 30);
        let pool_length = match rng.below(5) {
            0 => rng.between(0, 3),
            1 => rng.between(508, 514),
            2 => rng.between(0, 64),
            _ => rng.between(0, 1500),
        };
        let mut pool = common::name(&mut rng, pool_length as usize);
        let links = link_table(&mut rng, pool.len());
        if !links.is_empty() && rng.percent(10) {
            plant_in_a_name(&mut rng, &mut pool, &links);
        }

        let mut input = rng.bytes(7);
        let lowest = rng.pick(&[0u16, 1, 2, 2, 2, 3, 4, 5]);
        let highest = rng.pick(&[0u16, 1, 2, 2, 3, 3, 4, 5, u16::MAX]);
        input[..2].copy_from_slice(&lowest.to_le_bytes());
        input[2..4].copy_from_slice(&highest.to_le_bytes());
        input.truncate(rng.pick(&[0, 0, 1, 2, 3, 4, 4, 4, 5, 6, 7]));

        // Lengths of records with one of the table's names, in both versions.
        let mut limits = vec![0, 63, 64, 79, 80];
        for link in links.iter().filter(|link| link.length <= 510) {
            limits.push(common::record_length(2, link.length as usize) as u64);
            limits.push(common::record_length(3, link.length as usize) as u64);
        }
        let length = if rng.percent(25) {
            rng.between(592, 700) as usize
        } else {
            near(&mut rng, &limits, 700)
        };

        let pool = Lent::holding(&mut rng, &pool);
        let input = Lent::holding(&mut rng, &input);
        let mut output = Lent::output(&mut rng, length);
        let links_before = links.clone();

        let answer = volume.read_file(
            &file,
            parent,
            &pool.library[..pool.length],
            &links,
            &input.library[..input.length],
            output.for_library(),
        );
        let (status, count) = model::read_file(
            &model_volume(&volume),
            &model_file(&file),
            parent.number(),
            &pool.before[..pool.length],
            &model_links(&links),
            &input.before[..input.length],
            output.for_model(),
        );
        counts.add(answer.status);
        check(
            answer.status.number() == status
                && answer.count == count
                && output.agrees(count)
                && pool.same()
                && input.same()
                && links == links_before,
            TEST,
            index,
            || {
                format!(
                    "library {answer:?}, model {status:#x} {count}\n{volume:?}\n{file:?}\n\
                     parent {parent:?}\nlinks {links_before:?}\npool {:?}\ninput {:?}\n\
                     output before {:?} (lent {})\nlibrary's {:?}\nmodel's {:?}",
                    Hex(&pool.before),
                    Hex(&input.before[..input.length]),
                    Hex(&output.before),
                    output.length,
                    Hex(&output.library),
                    Hex(&output.model)
                )
            },
        );
    }
    counts.finish(&expected::FILE, 200_000);
}

#[test]
fn region_queries_agree_with_the_model() {
    const TEST: &str = "regions";
    let mut rng = Rng::new(TEST);
    let mut counts = Counts::new(TEST);
    for index in 0..CALLS {
        let volume = volume(&mut rng);
        let mut file = file(&mut rng);
        match rng.below(10) {
            0 => file.valid = file.eof,
            1 => file.valid = 0,
            2 => (file.eof, file.valid) = (0, 0),
            3 => {
                file.eof = TOP - rng.below(3);
                file.valid = file.eof - rng.below(3);
            }
            4..=7 => {
                file.eof = rng.below(200);
                file.valid = rng.between(0, file.eof);
            }
            _ => {}
        }
        if rng.percent(6) {
            match rng.below(4) {
                0 => file.valid = file.eof + 1,
                1 => file.eof = rng.pick(&[NEGATIVE, NEGATIVE + 1, u64::MAX]),
                2 => (file.eof, file.valid) = (u64::MAX, u64::MAX),
                _ => (file.eof, file.valid) = (rng.long(), rng.long()),
            }
        }
        if rng.percent(5) {
            file.usn = rng.long();
            file.length = rng.long();
        }

        let offset = match rng.below(8) {
            0 => 0,
            1 => rng.around(file.valid),
            2 => rng.around(file.eof),
            3 => file.valid.min(TOP) / 2,
            4 => rng.between(0, file.eof.min(TOP)),
            5 => rng.below(250),
            6 => rng.pick(&[TOP, TOP - 1, NEGATIVE, u64::MAX, u64::MAX - 1]),
            _ => rng.long(),
        };
        let to_valid = file.valid.wrapping_sub(offset);
        let to_eof = file.eof.wrapping_sub(offset);
        let length = match rng.below(10) {
            0 => rng.below(3),
            1..=2 => rng.around(to_valid),
            3..=4 => rng.around(to_eof),
            5 => rng.around(TOP.wrapping_sub(offset)),
            6 => rng.pick(&[TOP, NEGATIVE, u64::MAX]),
            7..=8 => rng.below(250),
            _ => rng.long(),
        };
        // Half of the wrong ranges are made right.
        let sum = offset.checked_add(length);
        let wrong = length == 0 || sum.is_none_or(|sum| sum > TOP);
        let (offset, length) = match wrong && rng.percent(50) {
            true => (offset & 0xFF, length & 0xFF | 1),
            false => (offset, length),
        };
        let usage = match rng.below(12) {
            0 => rng.word(),
            1 => 0,
            2 => 2,
            3..=5 => 3,
            _ => 1,
        };
        let mut input = region_input(offset, length, usage);
        input.truncate(20);
        input.extend(rng.bytes(12));
        let size = match rng.below(20) {
            0..=2 => 0,
            3 => rng.between(1, 23),
            4 => rng.pick(&[1, 22, 23]),
            5..=7 => rng.between(25, 30),
            _ => 24,
        };
        input.truncate(size as usize);
        let room = if rng.percent(40) {
            rng.between(64, 90) as usize
        } else {
            near(&mut rng, &[0, 39, 40, 40, 63, 64, 64], 90)
        };

        let input = Lent::holding(&mut rng, &input);
        let mut output = Lent::output(&mut rng, room);
        let answer =
            volume.query_file_regions(&file, &input.library[..input.length], output.for_library());
        let (status, count) = model::query_file_regions(
            &model_volume(&volume),
            &model_file(&file),
            &input.before[..input.length],
            output.for_model(),
        );
        counts.add(answer.status);
        check(
            answer.status.number() == status
                && answer.count == count
                && output.agrees(count)
                && input.same(),
            TEST,
            index,
            || {
                format!(
                    "library {answer:?}, model {status:#x} {count}\n{volume:?}\n{file:?}\n\
                     offset {offset} length {length} usage {usage:#x}, input {:?}\n\
                     output before {:?} (lent {})\nlibrary's {:?}\nmodel's {:?}",
                    Hex(&input.before[..input.length]),
                    Hex(&output.before),
                    output.length,
                    Hex(&output.library),
                    Hex(&output.model)
                )
            },
        );
    }
    counts.finish(&expected::REGIONS, 200_000);
}

#[test]
fn reparse_points_agree_with_the_model() {
    const TEST: &str = "reparse point";
    let mut rng = Rng::new(TEST);
    let mut counts = Counts::new(TEST);
    for index in 0..CALLS {
        let volume = volume(&mut rng);
        let mut file = file(&mut rng);
        file.tag = match rng.below(12) {
            0 => 0,
            1 => rng.pick(&[1, 0x7FFF_FFFF, 0x8000_0000, 0x8000_0001]),
            2..=4 => 0xA000_000C,
            5..=6 => rng.draw() as u32 | 0x8000_0000,
            _ => rng.draw() as u32 & 0x7FFF_FFFF,
        };
        if rng.percent(10) {
            file.eof = rng.long();
            file.valid = rng.long();
            file.usn = rng.long();
        }
        file.length = match rng.below(16) {
            0..=2 => rng.below(3),
            3 => rng.between(16_359, 16_361),
            4 => rng.between(16_375, 16_377),
            5 => rng.between(16_360, 16_376),
            6 => rng.below(16_376),
            7 if rng.percent(10) => rng.pick(&[16_384, 65_535, 65_536, 65_556, NEGATIVE, u64::MAX]),
            _ => rng.below(100),
        };
        if file.tag == 0 && rng.percent(70) {
            file.length = 0;
        }
        let store_length = match rng.below(40) {
            0 => rng.pick(&[0, 1, 100, 16_360, 16_374]),
            1..=2 => STORE - 1,
            3..=4 => STORE + 1,
            5 => STORE + rng.below(100) as usize,
            _ => STORE,
        };
        let whole = header_length(file.tag) as u64 + file.length.min(65_556);
        let room = match rng.below(10) {
            0..=1 => whole + rng.below(40),
            2..=4 => rng.between(0, whole),
            _ => near(&mut rng, &[0, 7, 8, 23, 24, whole, whole], whole) as u64,
        };

        let store = Lent::output(&mut rng, store_length);
        let mut output = Lent::output(&mut rng, room as usize);
        let answer =
            volume.get_reparse_point(&file, &store.library[..store.length], output.for_library());
        let (status, count) = model::get_reparse_point(
            &model_volume(&volume),
            &model_file(&file),
            &store.before[..store.length],
            output.for_model(),
        );
        counts.add(answer.status);
        check(
            answer.status.number() == status
                && answer.count == count
                && output.agrees(count)
                && store.same(),
            TEST,
            index,
            || {
                format!(
                    "library {answer:?}, model {status:#x} {count}\n{volume:?}\n{file:?}\n\
                     store {:?}\noutput before {:?} (lent {})\nlibrary's {:?}\nmodel's {:?}",
                    Hex(&store.before[..store.length]),
                    Hex(&output.before),
                    output.length,
                    Hex(&output.library),
                    Hex(&output.model)
                )
            },
        );
    }
    counts.finish(&expected::REPARSE, 200_000);
}
