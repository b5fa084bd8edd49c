//! The first inputs: document 01's examples, the shelf, the cases worked out by hand, and some tapes
//! for every family.

use crate::input::{raw, shelf, FAMILIES, HEAD};
use corrumai_tests::cases;
use corrumai_tests::planner_model::{verdict, Verdict};
use corrumai_tests::rng::Rng;
use std::fs;
use std::path::{Path, PathBuf};

/// No raw input is longer.
pub const LONGEST: usize = 4096;

const TAPES: usize = 60;

/// Buffer's room, filling, twist, delays, rates and correction of the seeds.
const PLAIN: [u8; HEAD] = [0, 5, 0, 0, 0, 0, 0, 23, 0, 0, 0, 0, 99, 4, 4, 99, 1, 4, 0, 99];

pub fn write(folder: &Path, examples: &Path) {
    let mut seeds = from_files(examples);
    for spec in shelf() {
        let sheet = spec.bytes();
        let list = match verdict(&sheet) {
            Verdict::Plan(list) => list,
            _ => vec![1, 0, 0, 0],
        };
        seeds.push(raw(&PLAIN, &sheet, &list));
    }
    for case in cases::all() {
        seeds.push(raw(&PLAIN, &case.sheet, &case.list));
    }
    seeds.extend(tapes());
    seeds.retain(|seed| seed.len() <= LONGEST);
    for (place, seed) in seeds.iter().enumerate() {
        let path = folder.join(format!("seed{place:04}"));
        fs::write(&path, seed).unwrap_or_else(|error| panic!("{}: {error}", path.display()));
    }
    println!("fuzz: {} seeds", seeds.len());
}

/// Every sheet of examples/, with its own list or P1's.
fn from_files(examples: &Path) -> Vec<Vec<u8>> {
    let read = |path: &Path| fs::read(path).unwrap_or_else(|e| panic!("{}: {e}", path.display()));
    let files = fs::read_dir(examples).expect("there are examples");
    let mut sheets: Vec<PathBuf> = files.map(|file| file.expect("a file").path()).collect();
    sheets.retain(|path| path.extension().is_some_and(|end| end == "sheet"));
    sheets.sort();
    let p1_list = read(&examples.join("p1.list"));
    let seed = |path: &PathBuf| {
        let list = fs::read(path.with_extension("list")).unwrap_or_else(|_| p1_list.clone());
        raw(&PLAIN, &read(path), &list)
    };
    sheets.iter().map(seed).collect()
}

fn tapes() -> Vec<Vec<u8>> {
    let mut rng = Rng::new(1);
    let mut seeds = Vec::new();
    for family in 1..FAMILIES.len() {
        for _ in 0..TAPES {
            let length = *rng.pick(&[0, 0, 20, 80, 300]);
            let rest = (1..HEAD + 4 + length).map(|_| rng.number() as u8);
            seeds.push(std::iter::once(family as u8).chain(rest).collect());
        }
    }
    seeds
}
