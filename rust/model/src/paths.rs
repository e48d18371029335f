//! The path of a file: the names on the way from a root down to it.

use crate::table::{Entry, Files};
use crate::{answer, status};

/// The most steps, each from a file to its parent.
const STEPS: usize = 64;
/// The code unit between two names.
const SEPARATOR: [u8; 2] = [0x5C, 0];

/// Gives the path of the file with an id below a root: the names of the files from
/// the one nearest the root down to its own. The root's name is not among them, and
/// the root need not be in the table.
pub fn file_path(
    table: &[Entry],
    pool: &[u8],
    id: u128,
    root: u128,
    output: &mut [u8],
) -> (u32, usize) {
    answer(written(table, pool, id, root, output))
}

/// Judges the table, climbs to the root and writes the path.
fn written(
    table: &[Entry],
    pool: &[u8],
    id: u128,
    root: u128,
    output: &mut [u8],
) -> Result<usize, u32> {
    let files = Files::judge(table, pool).ok_or(status::FILE_CORRUPT_ERROR)?;
    let mut places = [&[][..]; STEPS];
    let steps = climb(&files, pool, id, root, &mut places)?;
    let names = &mut places[..steps];
    names.reverse();
    join(names, output).ok_or(status::BUFFER_TOO_SMALL)
}

/// Puts down the names from the file's own to the one nearest the root, and says
/// how many there are. A place for each step is lent.
fn climb<'a>(
    files: &Files,
    pool: &'a [u8],
    mut id: u128,
    root: u128,
    places: &mut [&'a [u8]; STEPS],
) -> Result<usize, u32> {
    let mut steps = 0;
    while id != root {
        // Whether a step is left comes before whether the table has the file.
        let place = places.get_mut(steps).ok_or(status::NAME_TOO_LONG)?;
        let file = files.find(id).ok_or(status::OBJECT_PATH_NOT_FOUND)?;
        *place = file.name(pool);
        id = file.parent;
        steps += 1;
    }
    Ok(steps)
}

/// Writes names with a separator between two of them, and says how long that
/// became. `None` if it doesn't fit.
fn join(names: &[&[u8]], output: &mut [u8]) -> Option<usize> {
    let separators = names.len().saturating_sub(1);
    let letters: usize = names.iter().map(|name| name.len()).sum();
    let length = letters + SEPARATOR.len() * separators;
    let mut rest = output.get_mut(..length)?;
    for (place, name) in names.iter().enumerate() {
        if place > 0 {
            rest = put(rest, &SEPARATOR);
        }
        rest = put(rest, name);
    }
    Some(length)
}

/// Writes bytes to the front of a slice and gives what is behind them.
fn put<'a>(out: &'a mut [u8], bytes: &[u8]) -> &'a mut [u8] {
    let (front, rest) = out.split_at_mut(bytes.len());
    front.copy_from_slice(bytes);
    rest
}
