//! Many sheets at once: a line for each, the lists beside them, and the status.

mod common;

use common::{any_sheet, command, proved, root};
use corrumai_tests::generate::{planned, tiny};
use corrumai_tests::rng::Rng;
use corrumai_tests::say;
use std::fs;
use std::path::PathBuf;
use std::time::Instant;

/// An empty folder of the tests' own.
fn folder(name: &str) -> PathBuf {
    let folder = PathBuf::from(env!("CARGO_TARGET_TMPDIR")).join(name);
    let _ = fs::remove_dir_all(&folder);
    fs::create_dir_all(&folder).unwrap();
    folder
}

fn example(name: &str) -> Vec<u8> {
    fs::read(root().join("examples").join(name)).unwrap()
}

/// What batch prints of these words, and its status.
fn batch(words: &[&str]) -> (String, u8) {
    let words: Vec<&str> = [&["batch"], words].concat();
    let (out, aside, status) = command(&words);
    assert_eq!(aside, "", "{words:?}");
    (String::from_utf8(out).unwrap(), status)
}

#[test]
fn each_sheet_has_its_line() {
    let folder = folder("batch-lines");
    for name in ["p1.sheet", "p3.sheet", "p7.txt", "p8.sheet", "wood.txt", "wood.run"] {
        fs::write(folder.join(name), example(name)).unwrap();
    }
    fs::write(folder.join("slip.txt"), "horizon 5 min\nfakt a\n").unwrap();
    fs::write(folder.join("short.sheet"), [1, 4, 1]).unwrap();
    let accident = root().join("tools/tests/mistakes/accident.txt");
    fs::copy(accident, folder.join("accident.txt")).unwrap();
    let path = folder.to_str().unwrap();
    let (out, status) = batch(&[path, "--start", "18:30"]);
    assert_eq!(status, 1);
    let expected = "\
P/accident.txt plan 30 min, 19:00 2 jobs, last 'load-codes ends its need of plot files'; 1 warning (sheet check)
P/p1.sheet     plan                  9 min, 18:39  2 jobs, last 'job20 ends its need of fact1'
P/p3.sheet     no plan                             'job20 ends its need of fact1' comes 1 minute past the horizon, 8
P/p7.txt       no plan                             a circle of rules puts 'job20 begins to need fact1' 1 minute after itself
P/p8.sheet     outside the class                   nothing shows whether 'fact1' is set before it is cleared or after
P/short.sheet  no sheet                            contents, byte 3: the end of the sheet, after 3 bytes; the contents are the first 26 bytes
P/slip.txt     text with errors                    P/slip.txt:2:1: error: expected 'edition', 'horizon', 'gap', 'revision', 'fact', 'job', 'need', 'set', 'clear', 'from' or '#', found 'fakt'
P/wood.txt     plan               75 min, 19:45  9 jobs, last 'report clears scratch disk'

8 sheets: 3 planned, 2 without a plan, 3 refused
";
    let plain = |text: &str| text.split_whitespace().collect::<Vec<&str>>().join(" ");
    let said = out.replace(path, "P");
    for (line, due) in said.lines().zip(expected.lines()) {
        assert_eq!(plain(line), plain(due));
    }
    assert_eq!(said.lines().count(), expected.lines().count(), "{said}");
    // The columns stand below each other.
    let lines: Vec<&str> = said.lines().collect();
    assert_eq!(lines[1].find("2 jobs"), lines[2].find("'job20"), "{said}");
}

#[test]
fn the_status_is_that_of_the_worst() {
    let p1 = root().join("examples/p1.sheet");
    let p3 = root().join("examples/p3.sheet");
    let (p1, p3) = (p1.to_str().unwrap(), p3.to_str().unwrap());
    let (out, status) = batch(&[p1]);
    assert!(out.ends_with("\n1 sheet: 1 planned, 0 without a plan, 0 refused\n"), "{out}");
    assert_eq!(status, 0);
    assert_eq!(batch(&[p1, p3]).1, 1);
    let (out, status) = batch(&[p1, "no-such", p3]);
    assert!(out.contains("not read") && out.contains("cannot read the file 'no-such'"), "{out}");
    assert!(out.ends_with(", 1 not read or not written\n"), "{out}");
    assert_eq!(status, 2);
    let empty = folder("batch-empty");
    let (out, aside, status) = command(&["batch", empty.to_str().unwrap()]);
    assert!(aside.contains("has no file that ends in .sheet or .txt"), "{aside}");
    assert_eq!((out.len(), status), (0, 2));
}

#[test]
fn lists_are_written_beside_the_sheets() {
    let folder = folder("batch-write");
    for name in ["p1.sheet", "p3.sheet", "wood.txt"] {
        fs::write(folder.join(name), example(name)).unwrap();
    }
    // From an earlier run, when this sheet had a plan.
    fs::write(folder.join("p3.sheet.list"), example("p1.list")).unwrap();
    let path = folder.to_str().unwrap();
    assert_eq!(batch(&[path]).1, 1);
    assert!(!folder.join("p1.sheet.list").exists() && folder.join("p3.sheet.list").exists());
    assert_eq!(batch(&["--write", path]).1, 1);
    assert_eq!(fs::read(folder.join("p1.sheet.list")).unwrap(), example("p1.list"));
    assert_eq!(fs::read(folder.join("wood.txt.list")).unwrap(), example("wood.list"));
    assert!(!folder.join("p3.sheet.list").exists());
    // Where a list cannot be written, that is said.
    fs::remove_file(folder.join("p1.sheet.list")).unwrap();
    fs::create_dir(folder.join("p1.sheet.list")).unwrap();
    let (out, status) = batch(&["--write", path]);
    assert!(out.contains("the list beside it cannot be written"), "{out}");
    assert_eq!(status, 2);
    assert!(!folder.join("p1.sheet.list.part").exists());
}

/// The bar: ten thousand sheets in under a minute on one core. A tenth of them, in a tenth of the time.
#[test]
fn a_thousand_sheets_take_six_seconds_at_most() {
    let folder = folder("batch-many");
    let mut rng = Rng::new(7);
    let mut planned_ones = 0;
    for number in 0..1_000 {
        let sheet = match number % 4 {
            0 => tiny::sheet(&mut rng).bytes(),
            1 => planned::plan(&mut rng, planned::SMALL).spec.bytes(),
            2 => planned::plan(&mut rng, planned::LARGE).spec.bytes(),
            _ => any_sheet(&mut rng).bytes(),
        };
        planned_ones += usize::from(proved().plan(&sheet, 1_024).0.number == 0);
        fs::write(folder.join(format!("{number:03}.sheet")), sheet).unwrap();
    }
    let start = Instant::now();
    let (out, _) = batch(&[folder.to_str().unwrap()]);
    let taken = start.elapsed().as_secs_f64();
    say(&format!("batch: 1,000 sheets in {taken:.2} s, {planned_ones} planned"));
    assert!(out.contains(&format!("1000 sheets: {planned_ones} planned")), "{out}");
    assert!(planned_ones > 100 && !out.contains("did not pass its check"));
    assert!(taken < 6.0, "{taken} s");
}
