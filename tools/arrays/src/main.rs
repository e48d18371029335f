//! Follows the calls of the journal read, of the file read, of the enumeration and of the path through the sources, and lists the arrays by
//! value on the way. Fails on one above sixteen bytes. Takes the folder of the crates.

use arrays::program::{sources, Program};
use arrays::search::{Array, Reached};
use std::path::Path;
use std::process::ExitCode;

/// The reads, as Rattle calls them and as C does.
const READS: [&str; 8] = [
    "journal_read::read_journal",
    "lanhduxe::usn_read_journal",
    "file_usn::read_file_usn",
    "lanhduxe::usn_read_file",
    "file_enumeration::enumerate_files",
    "lanhduxe::usn_enumerate_rows",
    "file_path::file_path",
    "lanhduxe::usn_row_path",
];

/// The largest array that a function on the way of a read may hold, take or return by value, in bytes.
const LARGEST: usize = 16;

fn main() -> ExitCode {
    let crates = std::env::args().nth(1).expect("usage: arrays CRATES");
    match check(Path::new(&crates)) {
        Ok(()) => ExitCode::SUCCESS,
        Err(fault) => {
            eprintln!("check-arrays: {fault}");
            ExitCode::FAILURE
        }
    }
}

fn check(crates: &Path) -> Result<(), String> {
    let sources = sources(crates).map_err(|fault| format!("{}: {fault}", crates.display()))?;
    let program = Program::read(&sources, &READS)?;
    let reached = Reached::from(&program, &READS)?;
    list(&reached);
    match &above(&reached)[..] {
        [] => Ok(()),
        above => Err(format!(
            "above {LARGEST} bytes (a number that does not say its type counts for 8)\n{}",
            above.join("\n")
        )),
    }
}

/// Prints the functions that the reads reach, a line for each crate, and the arrays, each with the functions that hold it.
fn list(reached: &Reached) {
    let functions = reached.functions();
    println!("{} reach", READS.join(", "));
    for of_one_crate in functions.chunk_by(|a, b| crate_of(a) == crate_of(b)) {
        let name = crate_of(of_one_crate[0]);
        let names: Vec<&str> = of_one_crate
            .iter()
            .map(|path| &path[name.len() + 2..])
            .collect();
        println!("    {name}: {}", names.join(" "));
    }
    for Array { item, text, bytes } in &reached.arrays {
        let holders: Vec<String> = reached.holders(item).into_iter().collect();
        println!("{bytes} bytes: {text} in {item}, by");
        println!("    {}", holders.join(" "));
    }
    let (followed, others, arrays) = (functions.len(), reached.others(), reached.arrays.len());
    println!("check-arrays: {followed} functions followed, with {others} types and constants; arrays: {arrays}");
}

/// The arrays that are too large, each with a way to it.
fn above(reached: &Reached) -> Vec<String> {
    let above = reached.arrays.iter().filter(|array| array.bytes > LARGEST);
    above
        .map(|Array { item, text, bytes }| {
            format!("{bytes} bytes: {text}, by {}", reached.way(item))
        })
        .collect()
}

fn crate_of(path: &str) -> &str {
    path.split("::").next().unwrap_or(path)
}
