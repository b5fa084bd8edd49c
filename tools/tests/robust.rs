//! Whatever a file holds, every command answers and none breaks down.

mod common;

use common::{any_sheet, command, example, root};
use corrumai_tests::cases;
use corrumai_tests::generate::damage;
use corrumai_tests::rng::Rng;
use std::fs;
use std::path::PathBuf;

fn path(name: &str) -> String {
    let path = PathBuf::from(env!("CARGO_TARGET_TMPDIR")).join(name);
    path.to_str().unwrap().to_string()
}

/// Every command on this sheet and this list; each has an answer, and explanations pass their check.
fn try_all(test: &str, sheet: &[u8], list: &[u8]) {
    let (sheet_file, list_file) = (path(&format!("{test}.sheet")), path(&format!("{test}.list")));
    fs::write(&sheet_file, sheet).unwrap();
    fs::write(&list_file, list).unwrap();
    let (sheet, list) = (sheet_file.as_str(), list_file.as_str());
    let wood = example("corrected/wood-server.sheet");
    let words: [&[&str]; 17] = [
        &["plan", sheet],
        &["plan", "--names", "--start", "23:59", sheet],
        &["judge", sheet, list],
        &["sheet", "to-bytes", sheet],
        &["sheet", "to-text", sheet],
        &["sheet", "check", sheet],
        &["sheet", "to-edition2", sheet],
        &["sheet", "to-edition1", sheet],
        &["list", "to-bytes", sheet, list],
        &["list", "to-text", "--names", sheet, list],
        &["chart", sheet],
        &["explain", sheet],
        &["explain", "--json", sheet, list],
        &["cost", "--each", sheet, list],
        &["cost", "--each", sheet, list, "60", "1000000"],
        &["newer", sheet, &wood],
        &["newer", &wood, sheet],
    ];
    for words in words {
        let (out, said, status) = command(words);
        assert!(status < 2, "{words:?}: {said}");
        assert!(status == 0 || !out.is_empty() || !said.is_empty(), "{words:?}");
        let out = String::from_utf8_lossy(&out) + said.as_str();
        assert!(
            !out.contains("did not pass its check") && !out.contains("\"checked\":false"),
            "{out}"
        );
    }
}

/// The text with characters lost, doubled, exchanged or put in.
fn spoiled(rng: &mut Rng, text: &str) -> String {
    let mut chars: Vec<char> = text.chars().collect();
    for _ in 0..1 + rng.below(6) {
        let (one, other) = (rng.below(chars.len()), rng.below(chars.len()));
        match rng.below(5) {
            0 => drop(chars.remove(one)),
            1 => chars.insert(one, chars[other]),
            2 => chars.swap(one, other),
            3 => {
                chars[one] =
                    *rng.pick(&['"', '“', '\u{a0}', '–', '.', '9', '#', '\n', '\t', ':', ' '])
            }
            _ => drop(chars.drain(one..(one + rng.below(12)).min(chars.len()))),
        }
    }
    chars.into_iter().collect()
}

#[test]
fn texts_with_slips() {
    let read = |name: &str| fs::read_to_string(root().join("examples").join(name)).unwrap();
    let mut rng = Rng::new(111);
    for round in 0..600 {
        let name = ["wood", "p1", "p6", "wood-server", "wood-pasted", "wood-retired"][round % 6];
        let (sheet, list) = (read(&format!("{name}.txt")), read(&format!("{name}.run")));
        let sheet = if rng.chance(60) { spoiled(&mut rng, &sheet) } else { sheet };
        try_all("slips", sheet.as_bytes(), spoiled(&mut rng, &list).as_bytes());
    }
}

#[test]
fn any_bytes() {
    let mut rng = Rng::new(112);
    let cases = cases::all();
    for round in 0..600 {
        let case = rng.pick(&cases);
        let sheet = match round % 3 {
            0 => damage::noise(&mut rng),
            1 => {
                let spec = any_sheet(&mut rng);
                damage::damaged(&mut rng, &spec)
            }
            _ => case.sheet.clone(),
        };
        try_all("bytes", &sheet, &case.list);
    }
}
