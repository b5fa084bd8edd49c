//! corrumai newer: what it prints and why, for sheets as bytes and as text.

mod common;

use common::{any_sheet, command, command_with, example, file, proved};
use corrumai_tests::cases::examples;
use corrumai_tests::rng::Rng;
use corrumai_tests::say;
use corrumai_tools::answers::Proved;
use corrumai_tools::decode::decode;
use corrumai_tools::encode::encode;
use corrumai_tools::model::{Edition, Sheet};
use corrumai_tools::notation::{parse, print};
use std::cmp::Ordering;
use std::collections::BTreeMap;
use std::fs;
use std::os::unix::fs::symlink;

/// Standard output, standard error and status of `newer` with these words.
fn newer(words: &[&str]) -> (String, String, u8) {
    let (out, aside, status) = command(&[&["newer"], words].concat());
    (String::from_utf8(out).unwrap(), aside, status)
}

/// The same for two files with these bytes, which are called `a` and `b`; each test has files of its own.
fn of_two(a: &[u8], b: &[u8]) -> (String, String, u8) {
    let test = std::thread::current().name().unwrap_or("").to_string();
    let files = [file(&format!("{test}-a"), a), file(&format!("{test}-b"), b)];
    let (out, aside, status) = newer(&[&files[0], &files[1]]);
    (out, aside.replace(&files[0], "a").replace(&files[1], "b"), status)
}

/// P1 in edition 2.
fn p1(revision: u16) -> Vec<u8> {
    examples::p1(100).revised(1, revision).bytes()
}

/// As a text of plain events and bounds.
fn text(sheet: &[u8]) -> Vec<u8> {
    print(&decode(sheet).unwrap()).into_bytes()
}

/// With this line and no warning: a text of P1 has none.
fn says(line: &str, why: &str, status: u8) -> (String, String, u8) {
    (format!("{line}\n"), format!("corrumai: {why}\n"), status)
}

const REVISIONS: [u16; 7] = [0, 1, 255, 256, 32_767, 32_768, 65_535];

#[test]
fn the_higher_revision_counts() {
    for a in REVISIONS {
        for b in REVISIONS {
            let due = match a.cmp(&b) {
                Ordering::Greater => {
                    says("FIRST", &format!("a: revision {a} supersedes revision {b} of b"), 0)
                }
                Ordering::Less => {
                    says("SECOND", &format!("b: revision {b} supersedes revision {a} of a"), 0)
                }
                Ordering::Equal => {
                    let why = format!(
                        "both sheets have revision {a} and the same bytes: the first counts"
                    );
                    says("FIRST", &why, 0)
                }
            };
            let (one, other) = (p1(a), p1(b));
            for (one, other) in [
                (one.clone(), other.clone()),
                (text(&one), text(&other)),
                (one.clone(), text(&other)),
                (text(&one), other),
            ] {
                assert_eq!(of_two(&one, &other), due);
            }
        }
    }
}

/// Bytes hold neither names nor comments, so these make no difference.
#[test]
fn texts_are_compared_by_their_bytes() {
    let one = String::from_utf8(text(&p1(3))).unwrap();
    let other = format!("# sent again\n{}", one.replace("job10", "load").replace("fact1", "codes"));
    let why = "both sheets have revision 3 and the same bytes: the first counts";
    assert_eq!(of_two(one.as_bytes(), other.as_bytes()), says("FIRST", why, 0));
    // Where they differ, each is shown in its own names.
    let other = other.replace("gap 1\n", "gap 7\n");
    assert!(of_two(one.as_bytes(), other.as_bytes()).1.contains("\n  a: gap 1\n  b: gap 7\n"));
    let other = one.replace("job10", "load").replace("for 5 min", "for 6 min");
    let shown =
        "\n  a: job 10 job10: need fact0 for 5 min\n  b: job 10 load: need fact0 for 6 min\n";
    assert!(of_two(one.as_bytes(), other.as_bytes()).1.contains(shown));
}

/// What `newer` says of 56, with the lines that differ.
fn differs(revision: u16, lines: [&str; 2], remedy: &str) -> (String, String, u8) {
    let [a, b] = lines;
    let why = format!(
        "both sheets have revision {revision}, and other bytes; they differ first here:\n  a: {a}\n  b: {b}\n  {remedy}"
    );
    says("ANSWER 56 0", &why, 1)
}

#[test]
fn the_same_revision_with_other_bytes_is_56() {
    let one = String::from_utf8(text(&p1(4))).unwrap();
    let end = "  from end of need fact1 to set fact2: 0 min";
    for (from, to, lines) in [
        ("horizon 100 min", "horizon 99 min", ["horizon 100 min", "horizon 99 min"]),
        ("gap 1\n", "gap 2\n", ["gap 1", "gap 2"]),
        ("fact fact1\n", "fact fact1 goal\n", ["fact fact1", "fact fact1 goal"]),
        ("fact fact2 goal\n", "fact fact2 goal\nfact fact3\n", ["job 10 job10", "fact fact3"]),
        ("job 20 job20", "job 21 job21", ["job 20 job20", "job 21 job21"]),
        (
            "job 20 job20",
            "job 20 job20 not before 9 min",
            ["job 20 job20", "job 20 job20 not before 9 min"],
        ),
        ("  set fact2\n", "  set fact2\n  clear fact2\n", [end, "  clear fact2"]),
        ("for 3 min", "for 3..4 min", ["  need fact1 for 3 min", "  need fact1 for 3..4 min"]),
        (&format!("{end}\n"), "", [end, "no further line"]),
        (end, &format!("{end}\njob 30 job30\n"), ["no further line", "job 30 job30"]),
    ] {
        let other = one.replacen(from, to, 1);
        // A line of the second job is shown behind that job's.
        let lines = lines.map(|line| line.replacen("  ", "job 20 job20: ", 1));
        let due = differs(
            4,
            [&lines[0], &lines[1]],
            "give the corrected sheet a higher revision, 5 or more",
        );
        let bytes = |text: &str| encode(&parse(text.as_bytes()).unwrap());
        assert_eq!(of_two(&bytes(&one), &bytes(&other)), due, "{to}");
        // The texts have warnings of their own, which come first.
        let said = of_two(one.as_bytes(), other.as_bytes());
        assert_eq!((said.0, said.2), (due.0, due.2));
        assert!(said.1.ends_with(&due.1), "{}", said.1);
    }
}

/// Gap bytes 0 and 2 plan alike, and are other bytes.
#[test]
fn gaps_0_and_2_are_other_bytes() {
    let [a, b] = [0, 2].map(|gap| examples::p1(100).revised(gap, 9).bytes());
    let lines = ["gap 0  # the default, 2 min", "gap 2"];
    let remedy = "give the corrected sheet a higher revision, 10 or more";
    assert_eq!(of_two(&a, &b), differs(9, lines, remedy));
}

#[test]
fn the_lowest_and_the_highest_revision_have_words_of_their_own() {
    let other = |revision| examples::p1(99).revised(1, revision).bytes();
    let lines = ["horizon 100 min", "horizon 99 min"];
    let unsaid = "revision 0 is what 'sheet to-edition2' writes, and what a text without a revision line says\n  \
                  give the corrected sheet a higher revision, 1 or more";
    assert_eq!(of_two(&p1(0), &other(0)), differs(0, lines, unsaid));
    let highest = "no revision is higher than 65535: give the older sheet a lower one";
    assert_eq!(of_two(&p1(65_535), &other(65_535)), differs(65_535, lines, highest));
    let last = "give the corrected sheet a higher revision, 65535 or more";
    assert_eq!(of_two(&p1(65_534), &other(65_534)), differs(65_534, lines, last));
}

/// P1 in edition 2 with one byte changed, for each number.
fn ill_formed() -> [(u8, Vec<u8>); 5] {
    [(10, 1, 5), (11, 29, 61), (12, 39, 10), (13, 44, 9), (14, 61, 9)].map(|(number, at, byte)| {
        let mut sheet = p1(1);
        sheet[at] = byte;
        (number, sheet)
    })
}

/// What `sheet check` says of this sheet, called by this name.
fn checked(name: &str, sheet: &[u8]) -> String {
    let (out, said, status) = common::said(&["sheet", "check"], "newer-checked", sheet);
    assert!(out.is_empty() && status == 1, "{said}");
    said.replace("newer-checked", name)
}

/// The first sheet is tested first, whole; the reason is that of `sheet check`.
#[test]
fn ill_formed_sheets_get_their_number() {
    for (number, sheet) in ill_formed() {
        let due = |name: &str| says(&format!("ANSWER {number} 0"), &checked(name, &sheet), 1);
        assert!(checked("a", &sheet).contains(&format!("answer {number} 0")));
        for good in [p1(0), p1(1), p1(2), text(&p1(1))] {
            assert_eq!(of_two(&sheet, &good), due("a"));
            assert_eq!(of_two(&good, &sheet), due("b"));
        }
        for (_, second) in ill_formed() {
            assert_eq!(of_two(&sheet, &second), due("a"));
        }
    }
    for none in [&[][..], &[2], &p1(1)[..25], &[7; 40], &[p1(1), vec![0]].concat()] {
        assert_eq!(of_two(none, &p1(1)), says("ANSWER 10 0", &checked("a", none), 1));
        assert_eq!(of_two(&p1(1), none), says("ANSWER 10 0", &checked("b", none), 1));
    }
}

/// A sheet of edition 1 gets 10, whatever else is wrong with it.
#[test]
fn a_sheet_of_edition_1_is_refused() {
    let hint = "a sheet of edition 1 has no revision; 'corrumai sheet to-edition2' rewrites it, with revision 0";
    let first = examples::p1(100).bytes();
    for first in [first.clone(), text(&first)] {
        let due = |name: &str| says("ANSWER 10 0", &format!("{name}: {hint}"), 1);
        assert_eq!(of_two(&first, &p1(1)), due("a"));
        assert_eq!(of_two(&p1(1), &first), due("b"));
        assert_eq!(of_two(&first, &first), due("a"));
        for (number, other) in ill_formed() {
            assert_eq!(of_two(&first, &other), due("a"));
            assert!(of_two(&other, &first).0.starts_with(&format!("ANSWER {number} 0")));
        }
    }
    // As the hint says, it can be compared then.
    let (second, _, _) = common::said(&["sheet", "to-edition2"], "newer-first.sheet", &first);
    assert_eq!(of_two(&second, &p1(1)).0, "SECOND\n");
    let mut broken = first;
    broken[34] = 10;
    let fault = decode(&broken).unwrap_err();
    assert_eq!(fault.number, 12);
    for (a, b, name) in [(&broken, &p1(1), "a"), (&p1(1), &broken, "b")] {
        let why = format!("{name}: not of edition 2, and no well-formed sheet: {}", fault.reason());
        assert_eq!(of_two(a, b), says("ANSWER 10 0", &why, 1));
    }
}

/// A text with errors is refused as everywhere, with its line, and nothing is printed.
#[test]
fn texts_with_errors_are_refused() {
    for (a, b, name) in
        [(&b"edition 2\nhorizn 9"[..], &p1(1)[..], "a"), (&p1(1), b"edition 2\nhorizn 9", "b")]
    {
        let (out, aside, status) = of_two(a, b);
        assert_eq!((out.as_str(), status), ("", 1));
        assert!(aside.starts_with(&format!("{name}:2:1: error: ")), "{aside}");
    }
}

#[test]
fn wrong_use_is_status_2() {
    let file = example("p1-edition2.sheet");
    let p1 = file.as_str();
    for (words, message) in [
        (&[][..], "corrumai: a file is missing\n"),
        (&[p1], "corrumai: a file is missing\n"),
        (&[p1, p1, p1], "' is one too many\n"),
        (&["-", "-"], "corrumai: only one of the files can be standard input\n"),
        (&["--each", p1, p1], "corrumai: there is no option '--each' here"),
        (&[p1, "no-such-file"], "corrumai: cannot read the file 'no-such-file': "),
        (&["no-such-file", p1], "corrumai: cannot read the file 'no-such-file': "),
    ] {
        let (out, aside, status) = newer(words);
        assert_eq!((out.as_str(), status), ("", 2), "{words:?}");
        assert!(aside.contains(message), "{words:?}: {aside}");
    }
}

const ITSELF: &str =
    "corrumai: warning: both names are of the same file, so that a sheet is held against itself\n";
const STRANGERS: &str =
    "corrumai: warning: the sheets have no job code in common; are they of the same wood?\n";

#[test]
fn one_file_twice_is_named() {
    let (one, copy) = (file("newer-one.sheet", &p1(1)), file("newer-copy.sheet", &p1(1)));
    let roundabout = one.replace("newer-one", "./newer-one");
    let link = one.replace("newer-one", "newer-link");
    let _ = fs::remove_file(&link);
    symlink(&one, &link).unwrap();
    for (other, warns) in [(&one, true), (&roundabout, true), (&link, true), (&copy, false)] {
        let (out, aside, status) = newer(&[&one, other]);
        assert_eq!((out.as_str(), status), ("FIRST\n", 0));
        assert_eq!(aside.ends_with(ITSELF), warns, "{other}: {aside}");
    }
    let none = file("newer-none.sheet", &[]);
    assert!(newer(&[&none, &none]).1.ends_with(ITSELF));
}

/// Said whatever the revisions, where both have jobs.
#[test]
fn sheets_without_a_common_job_are_named() {
    let sheet = |revision: u16, jobs: &str| {
        format!("edition 2\nhorizon 9 min\ngap 1\nrevision {revision}\nfact a initial goal\n{jobs}")
    };
    let warns = |a: &str, b: &str| of_two(a.as_bytes(), b.as_bytes()).1.contains(STRANGERS);
    let (one, two) = ("job 1 x\n", "job 2 x\n");
    for revision in [1, 2] {
        let first = sheet(1, one);
        assert!(warns(&first, &sheet(revision, two)));
        assert!(warns(&sheet(revision, two), &first));
        assert!(!warns(&first, &sheet(revision, &format!("{one}{two}"))));
        assert!(!warns(&first, &sheet(revision, "")) && !warns(&sheet(revision, ""), &first));
        assert!(!warns(&first, &sheet(revision, "job 1 another\n")));
    }
    // A sheet that is refused is not compared.
    assert!(!warns(&sheet(1, one), "horizon 9 min\nfact a initial goal\njob 2 x\n"));
}

/// What looks like a slip in a text is named as ever, of both.
#[test]
fn slips_of_both_texts_are_named() {
    let sheet = |revision: u16| {
        format!(
            "edition 2\nhorizon 9 min\ngap 1\nrevision {revision}\nfact a initial goal\nfact b\njob 1 x\n  \
             need a for 2 min\n"
        )
    };
    let (out, aside, status) = of_two(sheet(1).as_bytes(), sheet(2).as_bytes());
    assert_eq!((out.as_str(), status), ("SECOND\n", 0));
    assert!(aside.starts_with("a:6:") && aside.contains("\nb:6:"), "{aside}");
    assert!(aside.ends_with("corrumai: b: revision 2 supersedes revision 1 of a\n"), "{aside}");
}

/// Whichever the library says counts is printed, and its number and detail.
#[test]
fn the_answer_is_the_library_s() {
    let lies = [
        (Proved { newer: |_, _| (0, 0, 1), ..proved() }, "SECOND\n", 0),
        (Proved { newer: |_, _| (0, 7, 0), ..proved() }, "FIRST\n", 0),
        (Proved { newer: |_, _| (77, 5, 1), ..proved() }, "ANSWER 77 5\n", 1),
    ];
    let [one, other] = ["corrected/wood-server.sheet", "wood-server.sheet"].map(example);
    for (lie, line, status) in lies {
        let (out, _, found) = command_with(&lie, &["newer", &one, &other]);
        assert_eq!((String::from_utf8(out).unwrap().as_str(), found), (line, status));
    }
    let told = Proved {
        newer: |first, second| match (first[30], second[30]) {
            (2, 1) => (0, 0, 1),
            found => panic!("{found:?}"),
        },
        ..proved()
    };
    assert_eq!(command_with(&told, &["newer", &one, &other]).0, b"SECOND\n");
}

/// Any sheet in edition 2, and another or almost the same.
fn any_pair(rng: &mut Rng) -> [Sheet; 2] {
    let revisions = [0, 1, 65_535];
    let mut any = || {
        let mut sheet = decode(&any_sheet(rng).bytes()).unwrap();
        let gap = sheet.edition.gap();
        sheet.edition = Edition::Two { gap, revision: *rng.pick(&revisions) };
        sheet
    };
    let (one, mut other) = (any(), any());
    if rng.chance(75) {
        other = Sheet { edition: other.edition, ..one.clone() };
    }
    let (fact, job) = (rng.below(other.facts.len().max(1)), rng.below(other.jobs.len().max(1)));
    match (rng.below(5), other.facts.get_mut(fact), other.jobs.get_mut(job)) {
        (0, ..) => other.horizon = other.horizon.checked_sub(1).unwrap_or(1),
        (1, Some(fact), _) => fact.goal = !fact.goal,
        (2, _, Some(job)) => job.release ^= 1,
        (3, _, Some(job)) => job.bounds.truncate(job.bounds.len() / 2),
        _ => {}
    }
    [one, other]
}

/// Against the tool's own reading; with 56 the two lines differ, and each stands in its sheet.
#[test]
fn any_two_sheets() {
    let mut rng = Rng::new(191);
    let mut tally: BTreeMap<String, usize> = BTreeMap::new();
    for _ in 0..1_000 {
        let pair = any_pair(&mut rng);
        let [one, other] = [&pair[0], &pair[1]].map(encode);
        let revisions = [&one, &other].map(|sheet| u16::from_le_bytes([sheet[30], sheet[31]]));
        let due = match (revisions[0].cmp(&revisions[1]), one == other) {
            (Ordering::Less, _) => "SECOND",
            (Ordering::Equal, false) => "ANSWER 56 0",
            _ => "FIRST",
        };
        let (out, aside, status) = of_two(&one, &other);
        assert_eq!((out, status), (format!("{due}\n"), u8::from(due.starts_with("ANSWER"))));
        *tally.entry(due.to_string()).or_default() += 1;
        if status == 0 {
            continue;
        }
        let shown: Vec<&str> = aside.lines().skip(1).take(2).map(|line| &line[5..]).collect();
        assert!(shown[0] != shown[1] && aside.contains("\n  a: "), "{aside}");
        for (shown, sheet) in shown.iter().zip(&pair) {
            let inner = shown.split_once(": ").filter(|(job, _)| job.starts_with("job "));
            let last = inner.map_or(*shown, |(_, inner)| inner);
            assert!(last == "no further line" || print(sheet).contains(last), "{last}");
        }
    }
    say(&format!("newer: {tally:?}"));
    assert!(tally.len() == 3 && tally.values().all(|count| *count > 150), "{tally:?}");
}
