//! Lists as text: every well-formed list goes there and back to the same bytes; every other is refused as
//! the judge refuses it.

mod common;

use common::{command, root};
use corrumai_tests::generate::{near, planned};
use corrumai_tests::rng::Rng;
use corrumai_tools::decode::decode;
use corrumai_tools::list::{self, Beside, Entry};
use corrumai_tools::model::Sheet;
use std::fs;

fn round_trip(sheet: &Sheet, bytes: &[u8], beside: Beside) -> Vec<Entry> {
    let entries = list::decode(sheet, bytes).unwrap();
    let text = list::print(sheet, &entries, beside);
    let again = list::parse(sheet, text.as_bytes()).unwrap_or_else(|e| panic!("{e:?}\n{text}"));
    assert_eq!(list::encode(sheet, &again), bytes, "\n{text}");
    entries
}

#[test]
fn lists_go_both_ways() {
    let mut rng = Rng::new(91);
    let (mut repeated, mut idle) = (0, 0);
    for round in 0..4_000 {
        let size = if round % 40 == 0 { planned::LARGE } else { planned::SMALL };
        let pair = planned::any(&mut rng, size);
        let pair = if rng.chance(30) { planned::crowded(&mut rng, &pair) } else { pair };
        let (sheet, bytes) = pair.bytes();
        let sheet = decode(&sheet).unwrap();
        let start = rng.chance(50).then(|| rng.below(1_440) as u32);
        let entries = round_trip(&sheet, &bytes, Beside { names: rng.chance(50), start });
        repeated += usize::from(entries.windows(2).any(|two| two[0].job == two[1].job));
        idle += usize::from(entries.iter().any(|entry| entry.times.is_empty()));
    }
    assert!(repeated > 200 && idle > 50, "{repeated} {idle}");
}

#[test]
fn other_bytes_are_refused_as_the_judge_refuses_them() {
    let mut rng = Rng::new(92);
    let (mut taken, mut refused) = (0, 0);
    for _ in 0..20_000 {
        let pair = planned::any(&mut rng, planned::SMALL);
        let (bytes, list) = near::miss(&mut rng, &pair);
        let Ok(sheet) = decode(&bytes) else { continue };
        let expected = corrumai_tests::judge(&bytes, &list).0;
        match list::decode(&sheet, &list) {
            Ok(_) => taken += 1,
            Err(fault) => {
                refused += 1;
                assert_eq!(fault.number, 40);
                assert!(fault.byte <= list.len());
            }
        }
        assert_eq!(list::decode(&sheet, &list).is_err(), expected == 40, "{list:02x?}");
    }
    assert!(taken > 2_000 && refused > 2_000, "{taken} {refused}");
}

fn p1() -> Sheet {
    decode(&fs::read(root().join("examples/p1.sheet")).unwrap()).unwrap()
}

const P1: [&str; 6] = ["10 B 0 0", "10 E 0 5", "10 S 1 5", "20 B 1 6", "20 E 1 9", "20 S 2 9"];

#[test]
fn the_same_in_other_forms() {
    let sheet = p1();
    let due = fs::read(root().join("examples/p1.list")).unwrap();
    let forms = [
        format!("PLAN 2\n{}\n", P1.join("\n")),
        P1.join("\r\n"),
        format!("# no count\n\n{}\n\n{}\n", P1[..3].join("\n"), P1[3..].join("\n")),
        [P1[2], P1[0], P1[1], P1[5], P1[4], P1[3]].join("\n"),
        P1.join("\n").replace("10 ", "job10 ").replace(" 1 ", " fact1 "),
        P1.join("\n")
            .replace("20 ", "\"job20\" ")
            .replace(" B ", " begins ")
            .replace(" S ", " set "),
    ];
    for form in forms {
        let entries =
            list::parse(&sheet, form.as_bytes()).unwrap_or_else(|e| panic!("{e:?}\n{form}"));
        assert_eq!(list::encode(&sheet, &entries), due, "\n{form}");
    }
}

#[test]
fn errors_name_their_place() {
    let sheet = p1();
    let all = P1.join("\n");
    let cases = [
        ("ANSWER 1 0".to_string(), "1:1: this is an answer and no list"),
        (format!("PLAN 3\n{all}"), "1:1: PLAN 3 is followed by 2 entries"),
        (format!("{all}\nPLAN 2"), "7:1: the count of entries stands once, on the first line"),
        (
            all.replace("10 E 0 5\n", ""),
            "1:1: this entry of the job 'job10' has no minute for 'end of need fact0'",
        ),
        (all.replace("10 S 1 5", "30 S 1 5"), "3:1: the sheet has no job '30'"),
        (all.replace("10 S 1 5", "10 S 7 5"), "3:6: the sheet has no fact '7'"),
        (all.replace("10 S 1 5", "10 C 1 5"), "3:1: the job 'job10' never clears 'fact1'"),
        (all.replace("10 S 1 5", "10 X 1 5"), "3:4: expected B, E, S or C, found 'X'"),
        (all.replace("10 S 1 5", "10 S 1"), "3:7: 3 fields are no step"),
        (all.replace("10 S 1 5", "10 S 1 70000"), "3:8: a list holds minutes from 0 to 65535"),
    ];
    for (text, expected) in cases {
        let errors = list::parse(&sheet, text.as_bytes()).expect_err(&text);
        assert!(errors.iter().any(|e| e.to_string() == expected), "{expected}: {errors:?}");
    }
}

#[test]
fn names_and_clock_times_stand_beside_the_numbers() {
    let path = |name: &str| root().join("examples").join(name).to_str().unwrap().to_string();
    let words = ["plan", "--names", "--start", "23:50", &path("wood.txt")];
    let text = String::from_utf8(command(&words).0).unwrap();
    let line = |start: &str| text.lines().find(|line| line.starts_with(start)).unwrap();
    assert_eq!(
        line("100 E 0 2"),
        "100 E 0 2         # 23:52  open-files ends its need of plot files"
    );
    assert_eq!(line("500 S 11 74"), "500 S 11 74       # 01:04 (+1 d)  report sets report");
    let plain = fs::read_to_string(path("wood.run")).unwrap();
    let numbers: Vec<&str> =
        text.lines().map(|line| line.split('#').next().unwrap().trim_end()).collect();
    assert_eq!(numbers, plain.lines().collect::<Vec<_>>());
}

#[test]
fn the_commands_go_both_ways() {
    let path = |name: &str| root().join("examples").join(name).to_str().unwrap().to_string();
    for name in ["p1", "p5", "p6", "wood"] {
        let (sheet, list) = (path(&format!("{name}.txt")), path(&format!("{name}.list")));
        let run = fs::read(path(&format!("{name}.run"))).unwrap();
        assert_eq!(command(&["list", "to-text", &sheet, &list]).0, run, "{name}");
        let bytes = command(&["list", "to-bytes", &sheet, &path(&format!("{name}.run"))]).0;
        assert_eq!(bytes, fs::read(list).unwrap(), "{name}");
    }
    let (_, said, status) = command(&["list", "to-text", &path("p1.sheet"), &path("p1.sheet")]);
    assert_eq!(status, 1);
    assert!(said.contains("no well-formed list for this sheet, answer 40 0: list, byte 1: 4; byte 1 of a list is 0"), "{said}");
}
