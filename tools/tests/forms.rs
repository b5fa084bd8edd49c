//! Ways to write a sheet that all say the same.

mod common;

use common::any_sheet;
use corrumai_tests::rng::Rng;
use corrumai_tools::decode::decode;
use corrumai_tools::model::{Bound, Edition, Event, Fact, Job, Kind, Sheet, Span};
use corrumai_tools::notation::{parse, print};
use std::collections::BTreeMap;

const TEXT: &str = "\
horizon 9 min
fact a initial goal
fact \"b c\"
job 10 one
  need a for 5 min
  set \"b c\"
  from end of need a to set \"b c\": -1..2 min
";

/// What the text says.
fn sheet() -> Sheet {
    let fact = |name: &str, mark| Fact { name: name.to_string(), initial: mark, goal: mark };
    let (begin, end) = (Event::new(Kind::Begins, 0), Event::new(Kind::Ends, 0));
    let set = Event::new(Kind::Sets, 1);
    let bound = |e, d, low, high| Bound { e, d, span: Span { low: Some(low), high: Some(high) } };
    let job = Job {
        code: 10,
        release: 0,
        name: "one".to_string(),
        events: vec![begin, end, set],
        bounds: vec![bound(end, begin, 5, 5), bound(set, end, -1, 2)],
    };
    let facts = vec![fact("a", true), fact("b c", false)];
    Sheet { edition: Edition::One, horizon: 9, facts, jobs: vec![job] }
}

#[test]
fn the_same_in_other_forms() {
    let forms = [
        TEXT.to_string(),
        TEXT.replace('\n', "\r\n"),
        format!("\u{feff}{TEXT}"),
        TEXT.trim_end().to_string(),
        TEXT.replace("initial goal", "goal initial"),
        TEXT.replace('\n', "#comment \"\n\n \t# another\n"),
        TEXT.replace(" a", " \"a\"").replace(' ', "\t \t").replace("b\t \tc", "b c"),
        TEXT.replace(": -1..2 min", " :-1 .. 2 min"),
        TEXT.replace("for 5 min", "for 5..5 min"),
        TEXT.replace(" for 5 min", "\nfrom begin of need a to end of need a: 5 min"),
        format!("edition 1\n{TEXT}"),
    ];
    for form in forms {
        assert_eq!(parse(form.as_bytes()), Ok(sheet()), "\n{form}");
    }
}

/// The text in edition 2, with these lines before its horizon and these words behind the job's name.
fn in_edition_2(lines: &str, words: &str) -> Sheet {
    let title = format!("job 10 one{words}\n");
    let text = format!("edition 2\n{lines}{}", TEXT.replace("job 10 one\n", &title));
    parse(text.as_bytes()).unwrap_or_else(|errors| panic!("{errors:?}\n{text}"))
}

#[test]
fn edition_2_says_gap_revision_and_releases() {
    let second = |gap, revision, release| {
        let mut sheet = Sheet { edition: Edition::Two { gap, revision }, ..sheet() };
        sheet.jobs[0].release = release;
        sheet
    };
    let forms = [
        ("", "", second(0, 0, 0)),
        ("gap 0\nrevision 0\n", " not before 0 min", second(0, 0, 0)),
        ("gap 2\n", "", second(2, 0, 0)),
        ("gap 2 min\n", "", second(2, 0, 0)),
        ("gap 1 h\n", "", second(60, 0, 0)),
        ("revision 7 # seven\n", "", second(0, 7, 0)),
        ("revision 65535\n\n gap 60\n", " not before 65535 min", second(60, 65_535, 65_535)),
        ("", " not before 40 min", second(0, 0, 40)),
        ("", " not before 1 h 30 min", second(0, 0, 90)),
        ("", " optional not before 2 days", second(0, 0, 2_880)),
        ("", " not before 40min optional", second(0, 0, 40)),
    ];
    for (lines, words, due) in forms {
        assert_eq!(in_edition_2(lines, words), due, "{lines}{words}");
    }
    // What is not said is the default, and edition 1 means less.
    let minutes = |sheet: &Sheet| sheet.gap();
    assert_eq!(["", "gap 0\n", "gap 1\n"].map(|said| minutes(&in_edition_2(said, ""))), [2, 2, 1]);
    assert_eq!(minutes(&sheet()), 1);
    // A text that is printed says the gap, so that a line can be changed, and what 0 stands for.
    let printed = |gap| print(&second(gap, 0, 0)).lines().nth(2).unwrap().to_string();
    assert_eq!([0, 1, 60].map(printed), ["gap 0  # the default, 2 min", "gap 1", "gap 60"]);
    assert!(!print(&sheet()).contains("gap"));
    // Gap and revision stand anywhere before the first job.
    let text = "edition 2\nfact a\nrevision 3\nhorizon 9 min\nfact b\ngap 5\n";
    let sheet = parse(text.as_bytes()).unwrap();
    assert_eq!(sheet.edition, Edition::Two { gap: 5, revision: 3 });
}

#[test]
fn the_clauses_of_a_job_come_in_any_order() {
    let clauses = ["takes 5 min", "optional", "not before 1 h", "retired"];
    let text = |order: &[usize]| {
        let words: Vec<&str> = order.iter().map(|&place| clauses[place]).collect();
        let words = words.join(" ");
        format!("edition 2\nhorizon 90 min\nfact a goal\njob 1 one {words}\nneed a\n")
    };
    let due = parse(text(&[0, 1, 2]).as_bytes()).unwrap();
    assert_eq!((due.jobs[0].release, due.jobs[0].bounds.len()), (60, 1));
    for order in [[0, 2, 1], [1, 0, 2], [1, 2, 0], [2, 0, 1], [2, 1, 0]] {
        assert_eq!(parse(text(&order).as_bytes()).as_ref(), Ok(&due), "{}", text(&order));
    }
    let due = parse(text(&[0, 1, 2, 3]).as_bytes()).unwrap();
    assert_eq!((due.jobs[0].release, due.jobs[0].bounds.len()), (60, 3));
    for order in [[3, 2, 1, 0], [0, 3, 2, 1], [1, 0, 3, 2], [2, 1, 3, 0]] {
        assert_eq!(parse(text(&order).as_bytes()).as_ref(), Ok(&due), "{}", text(&order));
    }
}

/// What `takes` and places become, event by event: the sheets on both sides have the same bytes.
#[test]
fn takes_becomes_plain_bounds() {
    let head = "horizon 90 min\nfact a initial\nfact b initial\nfact c\nfact d goal\njob 10 one";
    let pairs = [
        (
            " takes 5..9 min\nneed a\nset d at end",
            "\nneed a for 5..9 min\nset d\nfrom end of need a to set d: 0 min",
        ),
        (
            " takes 1 h\nneed b\nneed a\nset d at start\nclear a 5 min after start",
            "\nneed a for 60 min\nneed b\nset d\nclear a
             from begin of need a to begin of need b: 0 min\nfrom end of need a to end of need b: 0 min
             from begin of need a to set d: 0 min\nfrom begin of need a to clear a: 5 min",
        ),
        (
            " takes at least 5 min\nset c at start\nset d at end\nclear c 1..2 min before end",
            "\nset c\nset d\nclear c\nfrom set c to set d: at least 5 min
             from set d to clear c: -2..-1 min",
        ),
        (
            " takes at most 9 min\nset c at start\nset d at end\nclear d at least 1 min before end",
            "\nset c\nset d\nclear d\nfrom set c to set d: 0..9 min
             from set d to clear d: at most -1 min",
        ),
        (
            " takes 9 min\nneed a for 2 min at start\nneed b for 3 min at end\nset d at end",
            "\nneed a for 2 min\nneed b for 3 min\nset d
             from begin of need a to end of need b: 9 min\nfrom end of need b to set d: 0 min",
        ),
        (
            " takes 9 min\nneed a\nneed b for 3 min 2 min after start\nset d at most 4 min after end",
            "\nneed a for 9 min\nneed b for 3 min\nset d
             from begin of need a to begin of need b: 2 min\nfrom end of need a to set d: 0..4 min",
        ),
        (" takes any time\nneed a\nset d at end", "\nneed a\nset d\nfrom end of need a to set d: 0 min"),
        (" optional", ""),
        (" optional takes 5 min\nneed a", "\nneed a for 5 min"),
        (" takes 5 min optional\nneed a", "\nneed a for 5 min"),
    ];
    assert_same(head, &pairs);
}

/// Behind this head, the lines of each pair say the same.
fn assert_same<T: AsRef<str>>(head: &str, pairs: &[(T, T)]) {
    for (short, long) in pairs {
        let (short, long) = (short.as_ref(), long.as_ref());
        let parsed = |lines: &str| {
            let text = format!("{head}{lines}\n");
            parse(text.as_bytes()).unwrap_or_else(|errors| panic!("{errors:?}\n{text}"))
        };
        assert_eq!(print(&parsed(short)), print(&parsed(long)), "{short}");
        assert_eq!(parsed(short), parsed(long), "{short}");
    }
}

/// A pair of events may have several bounds, wherever they come from: they stand in the order of their lines.
#[test]
fn bounds_of_one_pair_keep_the_order_of_their_lines() {
    let head = "horizon 90 min\nfact a initial\nfact b goal\njob 10 one";
    let length = "from begin of need a to end of need a";
    let later = "from end of need a to set b";
    let pairs = [
        (
            format!("\n{length}: at most 9 min\nset b\nneed a for 5 min\n{length}: any time"),
            format!("\nneed a for at most 9 min\nset b\n{length}: 5 min\n{length}: any time"),
        ),
        (
            format!(" takes 5 min\n{length}: at most 9 min\nneed a\nset b\n{length}: 5 min"),
            format!("\nneed a for 5 min\nset b\n{length}: at most 9 min\n{length}: 5 min"),
        ),
        (
            format!(" takes 5 min\nneed a\n{later}: any time\nset b at end\n{later}: 0..2 min"),
            format!(
                "\nneed a for 5 min\nset b\n{later}: any time\n{later}: 0 min\n{later}: 0..2 min"
            ),
        ),
        (
            " takes 5 min\nfrom set a to set b: 2..9 min\nset b at end\nset a at start".to_string(),
            "\nset a\nset b\nfrom set a to set b: 5 min\nfrom set a to set b: 2..9 min".to_string(),
        ),
    ];
    assert_same(head, &pairs);
    // What is printed says each of them.
    let text = format!("{head}{}\n", pairs[0].0);
    let printed = print(&parse(text.as_bytes()).unwrap());
    assert!(printed.ends_with(&format!(
        "  need a for at most 9 min\n  set b\n  {length}: 5 min\n  {length}: any time\n"
    )));
}

#[test]
fn minutes_have_units() {
    let span = |words: &str| {
        let text = format!("horizon 9 min\nfact a\njob 1 one\nneed a for {words}\n");
        parse(text.as_bytes()).unwrap().jobs[0].bounds[0].span
    };
    let due = |low, high| Span { low: Some(low), high: Some(high) };
    assert_eq!(span("2 h"), due(120, 120));
    assert_eq!(span("2 hours 5 minutes"), due(125, 125));
    assert_eq!(span("1..2 h"), due(60, 120));
    assert_eq!(span("30 min..2h"), due(30, 120));
    assert_eq!(span("5min..1 h 30 min"), due(5, 90));
    assert_eq!(span("-1 h 30 min"), due(-90, -90));
    assert_eq!(span("at most 1 day"), Span { low: None, high: Some(1_440) });
}

/// Words that came later are still free as names, so that old texts keep their bytes.
#[test]
fn newer_words_are_names() {
    let newer = ["takes", "start", "after", "before", "optional", "retired", "h", "hours", "PLAN"];
    for word in newer.into_iter().chain(["edition", "gap", "revision", "not"]) {
        let text = format!(
            "horizon 9 min\nfact {word} initial goal\njob 1 {word}\nneed {word} for 5 min\nset {word}\n\
             from end of need {word} to set {word}: 0 min\n"
        );
        assert_eq!(parse(text.as_bytes()).unwrap().facts[0].name, word);
        let text = format!("horizon 9 min\nfact {word}\njob 1 {word} takes 5 min\nneed {word}\n");
        assert_eq!(parse(text.as_bytes()).unwrap().jobs[0].name, word);
        let text = format!(
            "edition 2\nhorizon 9 min\nfact {word} goal\njob 1 {word} not before 5 min\nset {word}\n"
        );
        let sheet = parse(text.as_bytes()).unwrap();
        assert_eq!((sheet.jobs[0].name.as_str(), sheet.jobs[0].release), (word, 5));
        assert_eq!(parse(print(&sheet).as_bytes()), Ok(sheet));
    }
}

#[test]
fn the_words_of_the_notation_are_names_in_quotes() {
    let words =
        "any at begin clear end fact for from goal horizon initial job least min most need \
                 of set time to";
    let page = std::fs::read_to_string(common::root().join("docs/NOTATION.md")).unwrap();
    assert!(page.replace('\n', " ").contains(&format!("(`{words}`)")));
    for word in words.split(' ') {
        let text = |name: &str| format!("horizon 9 min\nfact {name}\n");
        assert!(parse(text(word).as_bytes()).is_err(), "{word}");
        let quoted = parse(text(&format!("\"{word}\"")).as_bytes()).unwrap();
        assert_eq!(quoted.facts[0].name, word);
    }
}

/// The text with the lines behind each job's title in some other order.
fn shuffled(rng: &mut Rng, text: &str) -> String {
    let mut parts: Vec<Vec<&str>> = vec![vec![]];
    for line in text.lines() {
        if line.starts_with("job") {
            parts.push(vec![]);
        }
        parts.last_mut().unwrap().push(line);
    }
    for job in &mut parts[1..] {
        rng.shuffle(&mut job[1..]);
    }
    parts.concat().join("\n")
}

/// For each job and each pair of its events, the spans in the order of their lines.
fn spans(text: &str) -> BTreeMap<String, Vec<&str>> {
    let mut found: BTreeMap<String, Vec<&str>> = BTreeMap::new();
    let mut job = "";
    for line in text.lines().map(str::trim_start) {
        job = if line.starts_with("job") { line } else { job };
        let need = line.strip_prefix("need ").and_then(|need| need.split_once(" for "));
        let length = need
            .map(|(fact, span)| (format!("from begin of need {fact} to end of need {fact}"), span));
        let bound = line.split_once(": ").map(|(pair, span)| (pair.to_string(), span));
        if let Some((pair, span)) = length.or(bound) {
            found.entry(format!("{job}: {pair}")).or_default().push(span);
        }
    }
    found
}

/// But for several bounds of one pair of events, which keep the order of their lines.
#[test]
fn the_order_of_a_job_s_lines_does_not_matter() {
    let mut rng = Rng::new(81);
    let (mut moved, mut turned) = (0, 0);
    for _ in 0..1_000 {
        let sheet = decode(&any_sheet(&mut rng).bytes()).unwrap();
        let text = print(&sheet);
        let other = shuffled(&mut rng, &text);
        moved += usize::from(other.trim_end() != text.trim_end());
        let found = parse(other.as_bytes()).unwrap_or_else(|errors| panic!("{errors:?}\n{other}"));
        assert_eq!(sorted(&found), sorted(&sheet), "\n{other}");
        assert_eq!(spans(&print(&found)), spans(&other), "\n{other}");
        turned += usize::from(found != sheet);
    }
    assert!(moved > 500 && turned > 100, "{moved} {turned}");
}

/// The sheet with the bounds of each pair by their spans.
fn sorted(sheet: &Sheet) -> Sheet {
    let mut sheet = sheet.clone();
    for job in &mut sheet.jobs {
        job.bounds.sort_by_key(|bound| (bound.e, bound.d, bound.span.low, bound.span.high));
    }
    sheet
}
