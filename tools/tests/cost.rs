//! corrumai cost: what it prints and why, and that the lines of `--each` come to the cost.

mod common;

use common::{command, command_with, example, file, proved};
use corrumai_tests::cases;
use corrumai_tests::generate::planned::{self, Size, SMALL, SMALL_2};
use corrumai_tests::rng::Rng;
use corrumai_tests::say;
use corrumai_tools::answers::Proved;
use corrumai_tools::decode::decode;
use corrumai_tools::list::{self, Entry};
use corrumai_tools::model::Sheet;
use corrumai_tools::notation::parse;
use std::collections::BTreeSet;

/// Standard output, standard error and status of `cost` with these words.
fn cost(words: &[&str]) -> (String, String, u8) {
    let (out, aside, status) = command(&[&["cost"], words].concat());
    (String::from_utf8(out).unwrap(), aside, status)
}

/// P1's list at these rates.
fn p1(rates: &[&str]) -> (String, String, u8) {
    let (sheet, list) = (example("p1.txt"), example("p1.run"));
    cost(&[&[sheet.as_str(), &list], rates].concat())
}

/// P1's list at these rates gets this line and this reason; leading zeros are a matter of taste, up to ten digits.
fn assert_p1(rates: &[&str], line: &str, why: &str) {
    let status = u8::from(line.starts_with("ANSWER"));
    assert_eq!(p1(rates), (format!("{line}\n"), why.to_string(), status), "{rates:?}");
    let zeros: Vec<String> = rates.iter().map(|rate| format!("{rate:0>10}")).collect();
    let zeros: Vec<&str> = zeros.iter().map(String::as_str).collect();
    assert_eq!(p1(&zeros).0, format!("{line}\n"), "{zeros:?}");
}

#[test]
fn the_costs_of_p1() {
    assert_p1(&["60", "60"], "COST 8 0", "");
    assert_p1(&["7", "11"], "COST 1 8", "");
    assert_p1(&["6", "10"], "COST 1 0", "");
    assert_p1(&["1000000", "1000000"], "COST 133333 20", "");
    assert_p1(&["0", "1"], "COST 0 3", "");
    let free = "corrumai: warning: every rate is 0, so that nothing is billed\n";
    assert_p1(&["0", "0"], "COST 0 0", free);
}

#[test]
fn what_is_wrong_with_rates_is_said() {
    let above =
        |rate: &str, job: &str| format!("the rate {rate}{job} is above 1000000 cents per hour\n");
    let counted = |rates: &str| {
        format!("corrumai: the sheet has 2 jobs, and {rates} given; it takes one for each, in their order: job 10, job 20\n")
    };
    for (rates, why) in [
        (&["1000001", "0"][..], format!("corrumai: {}", above("1000001", ", of job 10,"))),
        (&["0", "4294967295"], format!("corrumai: {}", above("4294967295", ", of job 20,"))),
        (
            &["4294967296", "9999999999"],
            format!(
                "corrumai: {}  {}",
                above("4294967296", ", of job 10,"),
                above("9999999999", ", of job 20,")
            ),
        ),
        (&["60"], counted("1 rate is")),
        (&["60", "60", "1000001"], format!("{}  {}", counted("3 rates are"), above("1000001", ""))),
        (&[], counted("0 rates are")),
    ] {
        assert_p1(rates, "ANSWER 51 0", &why);
    }
}

/// Sheets and lists in bytes and as text, of both editions; and with the entries exchanged.
#[test]
fn every_form_costs_the_same() {
    for name in ["p1", "p1-edition2"] {
        for (sheet, list) in [("txt", "run"), ("txt", "list"), ("sheet", "run"), ("sheet", "list")]
        {
            let files = [example(&format!("{name}.{sheet}")), example(&format!("{name}.{list}"))];
            let (out, aside, status) = cost(&["--each", &files[0], &files[1], "7", "11"]);
            assert_eq!((out.as_str(), status), ("10 5 7\n20 3 11\nCOST 1 8\n", 0), "{aside}");
        }
    }
    // Rates go by job, and lines by entry.
    let turned =
        file("cost-turned.run", b"20 B 1 6\n20 E 1 9\n20 S 2 9\n10 B 0 0\n10 E 0 5\n10 S 1 5\n");
    let said = cost(&["--each", &example("p1.txt"), &turned, "7", "11"]);
    assert_eq!(said, ("20 3 11\n10 5 7\nCOST 1 8\n".to_string(), String::new(), 0));
}

/// In time, not in sheet order; a single event, none and a job twice; an optional job that is not in the list.
#[test]
fn each_entry_is_billed_from_first_to_last_event() {
    let text = "edition 2\nhorizon 9 h\ngap 1\nfact a goal\nfact b\njob 1 idle\njob 2 lamp\n  set a\njob 3 twice\n  set a\n  clear b\n\
                job 9 spare\n  set b\n  clear b\n";
    let sheet = file("cost-each.txt", text.as_bytes());
    // The second run of job 3 clears b before it sets a.
    let list = file(
        "cost-each.run",
        b"3 S 0 10\n3 C 1 70\n1\n2 S 0 500\n3 S 0 400\n3 C 1 55\n3 S 0 8\n3 C 1 8\n",
    );
    let (out, _, status) = cost(&["--each", &sheet, &list, "1000000", "999999", "61", "1"]);
    let lines = "3 60 61\n1 0 1000000\n2 0 999999\n3 345 61\n3 0 61\n";
    assert_eq!((out.as_str(), status), (&*format!("{lines}COST 411 45\n"), 0));
    // A sheet without jobs takes no rates.
    let sheet = file("cost-none.txt", b"horizon 9 min\nfact a initial goal\n");
    let list = file("cost-none.list", &[1, 0, 0, 0]);
    let (out, aside, status) = cost(&["--each", &sheet, &list]);
    assert_eq!((out.as_str(), status), ("COST 0 0\n", 0));
    assert!(!aside.contains("every rate"), "{aside}");
    let (out, aside, status) = cost(&[&sheet, &list, "0"]);
    assert_eq!((out.as_str(), status), ("ANSWER 51 0\n", 1));
    assert!(
        aside.ends_with("the sheet has 0 jobs, and 1 rate is given; it takes none\n"),
        "{aside}"
    );
}

/// The judge's answers come first, whatever the rates, and with them nothing but the answer is printed.
#[test]
fn the_judge_comes_first() {
    let all = cases::all();
    // A file whose first byte begins a text is taken for one.
    let is_bytes = |bytes: &[u8]| bytes.first().map_or(true, |byte| *byte < 9);
    for answer in [10, 11, 12, 13, 14, 40, 41] {
        let of_answer = all.iter().filter(|case| {
            case.expected == answer && is_bytes(&case.sheet) && is_bytes(&case.list)
        });
        let some: Vec<_> = of_answer.take(5).collect();
        assert!(some.len() > 2, "{answer}");
        for case in some {
            let (sheet, list) =
                (file("cost-first.sheet", &case.sheet), file("cost-first.list", &case.list));
            for rates in [&[][..], &["60"], &["1000001"], &["9999999999", "0"], &["1"; 32]] {
                let (out, aside, status) = cost(&[&["--each", &sheet, &list], rates].concat());
                assert_eq!((out, status), (format!("ANSWER {answer} 0\n"), 1), "{aside}");
                let why = format!("; 'corrumai explain {sheet} {list}' says why\n");
                assert!(aside.starts_with("corrumai: ") && aside.ends_with(&why), "{aside}");
            }
        }
    }
    let (sheet, list) = (example("p10.sheet"), example("p10.list"));
    let why =
        format!("corrumai: the list is not a plan; 'corrumai explain {sheet} {list}' says why\n");
    assert_eq!(cost(&[&sheet, &list]), ("ANSWER 41 0\n".to_string(), why, 1));
}

/// A word that is no rate is no 51, and comes before all files.
#[test]
fn words_that_are_no_rates() {
    let whole = "; rates are whole cents per hour, each a word of its own";
    for (rate, hint) in [
        ("60ct", ""),
        ("+5", ""),
        ("", ""),
        ("\u{665}", ""),
        ("0x10", ""),
        ("10000000000", ""),
        ("00000000060", ""),
        ("99999999999999999999999", ""),
        ("-5", "; a rate is 0 or more"),
        ("--5", ""),
        ("1.5", whole),
        ("60,60", whole),
        ("60 60", whole),
    ] {
        let (out, aside, status) = p1(&["60", rate]);
        assert_eq!((out.as_str(), status), ("", 2), "{aside}");
        let due = match rate {
            "--5" => "corrumai: there is no option '--5' here\nusage: ".to_string(),
            _ => format!(
                "corrumai: the rate '{rate}' is no number of at most ten digits{hint}\nusage: "
            ),
        };
        assert!(
            aside.starts_with(&due) && aside.ends_with("corrumai cost [--each] SHEET LIST RATE.."),
            "{aside}"
        );
    }
    let (_, aside, status) = cost(&["no-such-file", "no-such-file", "x"]);
    assert!(aside.contains("the rate 'x'") && status == 2, "{aside}");
    let (_, aside, status) = cost(&[&example("p1.txt"), "60", "60"]);
    assert!(aside.ends_with("; the list comes before the rates") && status == 2, "{aside}");
    for words in [&[][..], &["examples/p1.txt"]] {
        assert!(cost(words).1.starts_with("corrumai: a file is missing\n") && cost(words).2 == 2);
    }
}

#[test]
fn slips_are_named() {
    let (sheet, list) = (example("wood.txt"), example("wood.run"));
    let wood = |rates: &[&str]| cost(&[&[sheet.as_str(), &list], rates].concat());
    // Nine entries, and ten jobs: draw-map does not run.
    let said = wood(&["60"; 9]).1;
    let head = "corrumai: the sheet has 10 jobs, and 9 rates are given; it takes one for each, in their order: job 100 ('open-files'), ";
    let tail = ", job 310 ('draw-map'), ..\n  rates go by the jobs of the sheet, and not by the entries of the list\n";
    assert!(said.starts_with(head) && said.ends_with(tail), "{said}");
    assert!(!wood(&["60"; 8]).1.contains("entries"));
    // The rate of a job that is not in the list is looked at too.
    let mut rates = ["60"; 10];
    rates[7] = "1000001";
    let why =
        "corrumai: the rate 1000001, of job 310 ('draw-map'), is above 1000000 cents per hour\n";
    assert_eq!(wood(&rates), ("ANSWER 51 0\n".to_string(), why.to_string(), 1));
    // Bytes hold no names.
    let said = cost(&[&[example("wood.sheet").as_str(), &list], &rates[..]].concat());
    assert_eq!(said.1, why.replace(" ('draw-map')", ""));
    // Some rates are 0, and others low: nothing is said.
    assert_eq!(
        wood(&["0", "1", "0", "0", "0", "0", "0", "0", "0", "0"]),
        ("COST 0 3\n".to_string(), String::new(), 0)
    );
    // What looks like a slip in the sheet is named as ever.
    let text = file(
        "cost-slip.txt",
        b"horizon 9 min\nfact a initial goal\nfact b\njob 1 one\n  need a for 2 min\n",
    );
    let list = file("cost-slip.run", b"1 B 0 1\n1 E 0 3\n");
    let (out, aside, _) = cost(&[&text, &list, "0"]);
    assert_eq!(out, "COST 0 0\n");
    assert!(
        aside.contains("cost-slip.txt:3:") && aside.ends_with("nothing is billed\n"),
        "{aside}"
    );
}

/// What four bytes cannot hold is handed in as their greatest number, so that the library's own order of tests holds.
#[test]
fn ten_digits_are_handed_in_as_four_bytes() {
    let lie = Proved {
        cost: |_, _, rates| match rates {
            [u32::MAX, u32::MAX, 4_294_967_294, 1_410_065_408] => (0, 7, 8),
            _ => panic!("{rates:?}"),
        },
        ..proved()
    };
    let words = ["9999999999", "4294967296", "4294967294", "1410065408"];
    let (sheet, list) = (example("p1.txt"), example("p1.run"));
    let said = command_with(&lie, &[&["cost", &sheet, &list], &words[..]].concat());
    assert_eq!((String::from_utf8(said.0).unwrap(), said.2), ("COST 7 8\n".to_string(), 0));
}

/// Where the lines do not come to the library's cost, that is said, and the cost alone is printed.
#[test]
fn a_bill_that_fails_its_check_is_not_given() {
    let lies = [
        Proved { cost: |_, _, _| (0, 1, 9), ..proved() },
        Proved { cost: |_, _, _| (0, 0, 68), ..proved() },
        Proved { cost: |_, _, _| (0, u64::MAX, 8), ..proved() },
    ];
    for (lie, due) in
        lies.iter().zip(["COST 1 9\n", "COST 0 68\n", "COST 18446744073709551615 8\n"])
    {
        let words = ["cost", "--each", &example("p1.txt"), &example("p1.run"), "7", "11"];
        let (out, aside, status) = command_with(lie, &words);
        assert_eq!((String::from_utf8(out).unwrap().as_str(), status), (due, 0));
        assert_eq!(aside, "corrumai: the bill did not pass its check: it came to COST 1 8\n");
    }
}

/// A plan in either edition, sometimes of few jobs, so that entries have twins, and rates for its jobs.
fn any_plan(rng: &mut Rng) -> (Vec<u8>, Sheet, Vec<Entry>, Vec<u32>) {
    let size = *rng.pick(&[SMALL, SMALL_2]);
    let twins = Size { facts: 2, jobs: 2, entries: 8, span: 30, ..size };
    let size = if rng.chance(40) { twins } else { size };
    let (bytes, list) = planned::plan(rng, size).bytes();
    let sheet = decode(&bytes).unwrap();
    let entries = list::decode(&sheet, &list).unwrap();
    let mut rate = |_| match rng.chance(50) {
        true => *rng.pick(&[0, 1, 59, 60, 61, 999_999, 1_000_000]),
        false => rng.below(1_000_001) as u32,
    };
    let rates = (0..sheet.jobs.len()).map(&mut rate).collect();
    (bytes, sheet, entries, rates)
}

/// The numbers of a line: code, minutes and rate.
fn numbers(line: &str) -> [u64; 3] {
    let numbers: Vec<u64> = line.split(' ').map(|word| word.parse().unwrap()).collect();
    numbers.try_into().unwrap()
}

/// What the line of this entry has to be.
fn due(sheet: &Sheet, entry: &Entry, rates: &[u32]) -> [u64; 3] {
    let mut times = entry.times.clone();
    times.sort_unstable();
    let minutes = times.last().map_or(0, |last| last - times[0]);
    [sheet.jobs[entry.job].code.into(), minutes.into(), rates[entry.job].into()]
}

/// The reader's own sum over the lines is 60 times the cents and the sixtieths; and each line is that of its entry.
#[test]
fn the_lines_come_to_the_cost() {
    let mut rng = Rng::new(181);
    let (mut editions, mut lines, mut again, mut still, mut left) = ([0; 2], 0, 0, 0, 0);
    for _ in 0..1_500 {
        let (bytes, sheet, entries, rates) = any_plan(&mut rng);
        let list = file("lines.list", &list::encode(&sheet, &entries));
        let mut words = vec!["--each".to_string(), file("lines.sheet", &bytes), list];
        words.extend(rates.iter().map(u32::to_string));
        let (out, aside, status) = cost(&words.iter().map(String::as_str).collect::<Vec<&str>>());
        assert!(status == 0 && !aside.contains("check"), "{aside}");
        let rows: Vec<&str> = out.lines().collect();
        let (last, rows) = rows.split_last().unwrap();
        let rows: Vec<[u64; 3]> = rows.iter().map(|line| numbers(line)).collect();
        assert!(
            rows.iter().copied().eq(entries.iter().map(|entry| due(&sheet, entry, &rates))),
            "{out}"
        );
        let sum: u64 = rows.iter().map(|[_, minutes, rate]| minutes * rate).sum();
        assert_eq!(*last, format!("COST {} {}", sum / 60, sum % 60), "{out}");
        editions[usize::from(bytes[0]) - 1] += 1;
        lines += rows.len();
        still += rows.iter().filter(|row| row[1] == 0).count();
        left += usize::from(sum % 60 > 0);
        let jobs = BTreeSet::from_iter(entries.iter().map(|entry| entry.job));
        again += entries.len() - jobs.len();
    }
    say(&format!(
        "cost: lists of edition 1 and 2 {editions:?}, {lines} lines, of jobs named before {again}, without a minute {still}, with sixtieths {left}"
    ));
    assert!(editions.iter().all(|count| *count > 500) && lines > 3_000, "{editions:?} {lines}");
    assert!(again > 500 && still > 200 && left > 500, "{again} {still} {left}");
}

/// The dearest list: 64 instances of a week each, at the highest rate.
#[test]
fn the_dearest_list() {
    let text = "horizon 10080 min\nfact a initial goal\njob 1 week\n  need a for 10080 min\n";
    let sheet = parse(text.as_bytes()).unwrap();
    let entries: Vec<Entry> = (0..64).map(|_| Entry { job: 0, times: vec![0, 10_080] }).collect();
    let files = [
        file("dearest.txt", text.as_bytes()),
        file("dearest.list", &list::encode(&sheet, &entries)),
    ];
    let (out, _, status) = cost(&["--each", &files[0], &files[1], "1000000"]);
    assert_eq!(out, "1 10080 1000000\n".repeat(64) + "COST 10752000000 0\n");
    assert_eq!(status, 0);
}
