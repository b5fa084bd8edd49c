//! Logs held against sheets: the verdicts, the differences, and the March accident.

mod common;

use common::{command, proved, root};
use corrumai_tests::generate::planned;
use corrumai_tests::rng::Rng;
use corrumai_tools::decode::decode;
use corrumai_tools::list::{self, Entry};
use corrumai_tools::model::Sheet;
use std::fs;
use std::path::PathBuf;
use std::process::Command;

fn file(name: &str, text: &[u8]) -> String {
    let path = PathBuf::from(env!("CARGO_TARGET_TMPDIR")).join(format!("compare-{name}"));
    fs::write(&path, text).unwrap();
    path.to_str().unwrap().to_string()
}

fn march(name: &str) -> String {
    root().join("examples/march").join(name).to_str().unwrap().to_string()
}

/// What compare prints of the March sheet and this log, and its status.
fn compare(log: &str) -> (String, u8) {
    let (out, aside, status) = command(&["compare", "--start", "18:30", &march("sheet.txt"), log]);
    (String::from_utf8(out).unwrap() + &aside, status)
}

fn compare_text(name: &str, log: &str) -> (String, u8) {
    compare(&file(name, log.as_bytes()))
}

/// A log of this sheet's own least list, moved as the test wants it.
const KEPT: &str = "\
load-codes,B,plot files,0
load-codes,E,plot files,30
load-codes,S,codes,30
20,begins,1,31
20,ends,1,51
20,sets,2,51
30,B,volume,52
30,E,volume,62
30,S,valuation,62
";

fn kept() -> String {
    KEPT.to_string()
}

/// Writes what the page should say with CORRUMAI_WRITE_SAID, to be read before it is kept.
#[test]
fn the_page_shows_the_evening_in_march() {
    let page = root().join("docs/LOGS.md");
    let mut text = fs::read_to_string(&page).unwrap();
    for (name, status) in [("evening", 1), ("next-evening", 0)] {
        let (said, due) = compare(&march(&format!("{name}.csv")));
        assert_eq!(due, status, "{name}");
        let open = format!("```{name}\n");
        let start = text.find(&open).unwrap() + open.len();
        let end = start + text[start..].find("```").unwrap();
        if std::env::var_os("CORRUMAI_WRITE_SAID").is_some() {
            text.replace_range(start..end, &said);
            fs::write(&page, &text).unwrap();
            continue;
        }
        assert_eq!(&text[start..end], said, "{name}");
    }
    let said = compare(&march("evening.csv")).0;
    assert!(said.starts_with("not a plan: point 3, entry 1 ('compute-volume'): needs 'codes'"));
    assert!(said.contains("19 min too early  compute-volume begins to need codes"), "{said}");
}

#[test]
fn each_verdict() {
    let cases = [
        (kept(), "as planned\n", 0, "Nothing differs"),
        (kept().replace("62", "62\n"), "as planned\n", 0, "Nothing differs"),
        (
            kept().replace(",52", ",53").replace("62", "63"),
            "later than planned, still a plan\n",
            0,
            "1 min late",
        ),
        (
            kept().replace("31", "30").replace("51", "50"),
            "not a plan: point 3, entry 1",
            1,
            "1 min too early",
        ),
        (
            kept().replace("30,S,valuation,62\n", ""),
            "not a plan: the log has no minute at which 'value-stand' sets 'valuation'\n",
            1,
            "broke off",
        ),
        (
            kept().lines().take(6).map(|l| format!("{l}\n")).collect(),
            "not a plan: point 4: 'valuation' is a goal",
            1,
            "missing: 'value-stand' (30)",
        ),
        (
            kept() + "10,B,0,70\n10,E,0,100\n10,S,1,100\n",
            "as planned\n",
            0,
            "repeated: 'load-codes' (10) was planned once and ran 2 times",
        ),
    ];
    for (place, (log, first, status, words)) in cases.iter().enumerate() {
        let (said, found) = compare_text(&format!("verdict-{place}.csv"), log);
        assert!(said.starts_with(first) && said.contains(words), "{log}\n{said}");
        assert_eq!(found, *status, "{log}");
    }
}

#[test]
fn logs_in_other_forms() {
    let rows: Vec<String> = kept().lines().map(String::from).collect();
    let mut mixed = rows.clone();
    mixed.rotate_left(4);
    let tabs = kept().replace(',', "\t");
    let header =
        format!("JOB;Event;Fact;Minute;host\n{}", kept().replace(',', ";").replace('\n', ";a\n"));
    let clock = kept()
        .replace(",0\n", ",18:30\n")
        .replace(",30\n", ",19:00:59\n")
        .replace(",31\n", ",19:01\n")
        .replace(",51\n", ",19:21\n")
        .replace(",52\n", ",19:22\n")
        .replace(",62\n", ",19:32\n");
    let plan = String::from_utf8(command(&["plan", &march("sheet.txt")]).0).unwrap();
    for (name, log) in [
        ("mixed", mixed.join("\r\n")),
        ("tabs", tabs),
        ("header", header),
        ("clock", clock),
        ("plan", plan),
    ] {
        let (said, status) = compare_text(name, &log);
        assert!(said.starts_with("as planned\n"), "{name}: {said}");
        assert_eq!(status, 0);
    }
    let named = "job,event,fact,minute,run\n\
                 10,B,0,0,x\n10,B,0,5,y\n10,E,0,30,x\n10,E,0,35,y\n10,S,1,35,y\n10,S,1,30,x\n";
    let (said, _) = compare_text("named", named);
    assert!(said.contains("ran 2 times") && said.contains("3 steps are where"), "{said}");
    let bytes = root().join("examples/p10.list");
    let p10 = root().join("examples/p10.sheet");
    let words = ["compare", p10.to_str().unwrap(), bytes.to_str().unwrap()];
    let (out, _, status) = command(&words);
    assert!(out.starts_with(b"not a plan: point 3"), "{}", String::from_utf8_lossy(&out));
    assert_eq!(status, 1);
}

#[test]
fn logs_with_mistakes() {
    for (log, words) in [
        ("load-code,B,plot files,0\n", "1:1: error: the sheet has no job 'load-code'"),
        ("load-code,B,plot files,0\n", "did you mean 'load-codes'?"),
        ("10,B,codex,0\n", "1:6: error: the sheet has no fact 'codex'"),
        ("10,B,codes,0\n", "1:6: error: the job 'load-codes' never begins to need 'codes'"),
        ("10,X,codes,0\n", "expected B, E, S or C, found 'X'"),
        ("10,S,codes,-1\n", "'-1' is no minute"),
        ("10,S,codes,25:00\n", "is no minute from 0 to 65535 and no time of day"),
        ("10,S,codes,\n", "this row has no time"),
        ("job,event,fact,when\n10,S,codes,1\n", "the header names no column 'minute' or 'time'"),
        ("10 S codes 5\n", "has no minute for"),
    ] {
        let (said, status) = compare_text("mistake", log);
        assert!(said.contains(words), "{log}: {said}");
        assert_eq!(status, 1, "{log}");
    }
    let (said, status) = compare("no-such");
    assert!(said.contains("cannot read the file") && status == 2, "{said}");
    let many: String = (0..65).map(|n| format!("10,B,0,{n}\n10,E,0,{n}\n10,S,1,{n}\n")).collect();
    assert!(compare_text("many", &many).0.contains("at most 64 runs and 512 steps"));
}

/// The steps as rows of a log, by minute, as a job server writes them.
fn as_csv(sheet: &Sheet, entries: &[Entry]) -> String {
    let mut rows: Vec<(u16, String)> = Vec::new();
    for (number, entry) in entries.iter().enumerate() {
        for (event, minute) in entry.steps(sheet) {
            let (code, letter) = (sheet.jobs[entry.job].code, event.kind.letter());
            rows.push((minute, format!("{code},{letter},{},{minute},{number}\n", event.fact)));
        }
    }
    rows.sort();
    let rows: String = rows.into_iter().map(|(_, row)| row).collect();
    format!("job,event,fact,minute,run\n{rows}")
}

/// The verdict goes with the judge on random plans, and none is "as planned" but the least list.
#[test]
fn verdicts_of_random_logs() {
    let mut rng = Rng::new(23);
    let (mut as_planned, mut later, mut no) = (0, 0, 0);
    for _ in 0..1_500 {
        let pair = planned::plan(&mut rng, planned::SMALL);
        let (bytes, mut list) = pair.bytes();
        let sheet = decode(&bytes).unwrap();
        let (answer, least) = proved().plan(&bytes, 1_024);
        if answer.number != 0 || sheet.jobs.iter().any(|job| job.events.is_empty()) {
            continue;
        }
        if rng.chance(30) {
            list = least.clone();
        }
        let mut entries = list::decode(&sheet, &list).unwrap();
        if rng.chance(30) && !entries.is_empty() {
            let place = rng.below(entries.len());
            entries[place].times.iter_mut().for_each(|time| *time += 1);
        }
        let csv = as_csv(&sheet, &entries);
        if entries.is_empty() {
            continue;
        }
        let (path, log) = (file("random.sheet", &bytes), file("random.csv", csv.as_bytes()));
        let (out, aside, status) = command(&["compare", &path, &log]);
        let said = String::from_utf8(out).unwrap();
        assert_eq!(aside, "");
        let verdict = proved().judge(&bytes, &list::encode(&sheet, &entries)).number;
        assert_eq!(status == 0, verdict == 0, "{said}");
        let least = list::decode(&sheet, &least).unwrap();
        let has_all = least.iter().all(|entry| entries.contains(entry));
        match said.lines().next().unwrap() {
            "as planned" => {
                assert!(has_all, "{said}");
                as_planned += 1;
            }
            "later than planned, still a plan" => {
                assert!(!has_all || said.contains("repeated"), "{said}");
                assert!(!said.contains("too early") && !said.contains("missing"), "{said}");
                later += 1;
            }
            line => {
                assert!(line.starts_with("not a plan: ") && verdict == 41, "{said}");
                no += 1;
            }
        }
    }
    assert!(as_planned > 50 && later > 50 && no > 50, "{as_planned} {later} {no}");
}

/// The converter of the page makes the log of a server's lines.
#[test]
fn the_converter_of_the_page() {
    let page = fs::read_to_string(root().join("docs/LOGS.md")).unwrap();
    let program = page.split("```awk\n").nth(1).unwrap().split("```").next().unwrap();
    let steps = "START load-codes begins plot files\nEND load-codes ends plot files\nEND load-codes sets codes\n\
                 START compute-volume begins codes\nEND compute-volume ends codes\nEND compute-volume sets volume\n\
                 START value-stand begins volume\nEND value-stand ends volume\nEND value-stand sets valuation\n";
    let server = "2026-03-12 18:30:02 START load-codes\n2026-03-12 18:42:10 START compute-volume\n\
                  2026-03-12 19:00:31 END load-codes\n2026-03-12 19:02:44 END compute-volume\n\
                  2026-03-12 19:04:00 START value-stand\n2026-03-12 19:14:05 END value-stand\n";
    let (steps, server) = (file("steps", steps.as_bytes()), file("server", server.as_bytes()));
    let output = Command::new("awk").args([program, &steps, &server]).output().unwrap();
    let evening = fs::read_to_string(march("evening.csv")).unwrap();
    let without_comment = evening.split_once('\n').unwrap().1;
    assert_eq!(String::from_utf8(output.stdout).unwrap(), without_comment);
}
