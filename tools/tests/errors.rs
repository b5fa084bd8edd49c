//! Errors of the notation: what they say, and at which line and column.

use corrumai_tools::notation::parse;
use std::fmt::Write;

/// The errors of a text, each as line:column: message.
fn errors(text: &str) -> Vec<String> {
    let errors = parse(text.as_bytes()).expect_err(text);
    errors.iter().map(|error| error.to_string()).collect()
}

/// The errors of these lines within a job that needs a, sets b and may use c. The first is line 7.
fn in_job(lines: &str) -> Vec<String> {
    let start = "horizon 9 min\nfact a\nfact b\nfact c\njob 10 one\n  need a\n";
    assert!(parse(start.as_bytes()).is_ok());
    errors(&format!("{start}{lines}"))
}

#[test]
fn form_of_a_line() {
    let cases = [
        ("horizn 9 min", "1:1: expected 'edition', 'horizon', 'gap', 'revision', 'fact', 'job', 'need', 'set', 'clear', 'from' or '#', found 'horizn'"),
        ("  9 min", "1:3: expected 'edition', 'horizon', 'gap', 'revision', 'fact', 'job', 'need', 'set', 'clear', 'from' or '#', found '9'"),
        ("horizon 9", "1:10: expected 'min', found the end of the line"),
        ("horizon min", "1:9: expected a number of minutes, found 'min'"),
        ("horizon 9 min 9", "1:15: expected the end of the line, found '9'"),
        ("fact", "1:5: expected the name of a fact, found the end of the line"),
        ("fact initial", "1:6: expected the name of a fact (the word 'initial' is a name only in quotes), found 'initial'"),
        ("fact a inital", "1:8: expected 'initial', 'goal' or the end of the line, found 'inital'"),
        ("fact a initial initial", "1:16: expected the end of the line, found 'initial'"),
        ("job one", "1:5: expected the job's code, a number, found 'one'"),
        ("job 10 # no name", "1:7: expected the name of the job, found the end of the line"),
        ("job 10 one two", "1:12: expected 'takes', 'optional', 'not before', 'retired' or the end of the line, found 'two'"),
        ("job 10 one takes 5 min takes 5 min", "1:24: expected 'optional', 'not before', 'retired' or the end of the line, found 'takes'"),
        ("job 10 one not after 5 min", "1:16: expected 'before', found 'after'"),
        ("job 10 one not before", "1:22: expected a number of minutes, found the end of the line"),
        ("job 10 one not before two", "1:23: expected a number of minutes, found 'two'"),
        ("job 10 one not before 5", "1:24: expected 'min', found the end of the line"),
        ("job 10 one not before 18:30", "1:25: expected 'min', found ':'"),
        ("job 10 one not before 5 min not before 5 min", "1:29: expected 'takes', 'optional', 'retired' or the end of the line, found 'not'"),
        ("job 10 one optional takes 5 min not before 5 min x", "1:50: expected 'retired' or the end of the line, found 'x'"),
        ("job 10 one retired optional takes 5 min not before 5 min x", "1:58: expected the end of the line, found 'x'"),
        ("job 10 one retired retired", "1:20: expected 'takes', 'optional', 'not before' or the end of the line, found 'retired'"),
        ("job 10 retired one", "1:16: expected 'takes', 'optional', 'not before', 'retired' or the end of the line, found 'one'"),
        ("job retired 10 one", "1:5: expected the job's code, a number, found 'retired'"),
        ("fact a retired", "1:8: expected 'initial', 'goal' or the end of the line, found 'retired'"),
        ("edition", "1:8: expected the number of the edition, found the end of the line"),
        ("edition two", "1:9: expected the number of the edition, found 'two'"),
        ("edition 2 x", "1:11: expected the end of the line, found 'x'"),
        ("gap", "1:4: expected a number of minutes, found the end of the line"),
        ("gap x", "1:5: expected a number of minutes, found 'x'"),
        ("gap 2 x", "1:7: expected 'min', found 'x'"),
        ("gap 2 min 3", "1:11: expected the end of the line, found '3'"),
        ("gap 2.5", "1:5: minutes are whole: 2.5 is no number here"),
        ("revision", "1:9: expected the number of the revision, found the end of the line"),
        ("revision b", "1:10: expected the number of the revision, found 'b'"),
        ("revision 2 min", "1:12: expected the end of the line, found 'min'"),
        ("need a of 5 min", "1:8: expected 'for', 'at start', 'at end', minutes 'after start' or the end of the line, found 'of'"),
        ("need a for", "1:11: expected minutes, 'at least', 'at most' or 'any time', found the end of the line"),
        ("need a for 5mm", "1:12: '5mm' is neither a number nor a name"),
        ("need a for 5-7 min", "1:12: low and high are written '5..7'"),
        ("need a for 5.. min", "1:16: expected a number of minutes, found 'min'"),
        ("need a for 5..7", "1:16: expected 'min', found the end of the line"),
        ("need a for at 5 min", "1:15: expected 'least' or 'most', found '5'"),
        ("need a for any", "1:15: expected 'time', found the end of the line"),
        ("set \"a", "1:5: the name in quotes does not end on this line"),
        ("clear 5", "1:7: expected the name of a fact, found '5'"),
        ("clear a, b", "1:8: unexpected character ','"),
    ];
    for (text, expected) in cases {
        assert_eq!(errors(text), [expected], "{text}");
    }
}

#[test]
fn form_of_a_bound() {
    let cases = [
        ("from a to set b: 5 min", "1:6: expected 'begin of need', 'end of need', 'set' or 'clear', found 'a'"),
        ("from begin need a to set b: 5 min", "1:12: expected 'of', found 'need'"),
        ("from end of a to set b: 5 min", "1:13: expected 'need', found 'a'"),
        ("from set a: 5 min", "1:11: expected 'to', found ':'"),
        ("from set a to set b 5 min", "1:21: expected ':', found '5'"),
        ("from set a to set b:", "1:21: expected minutes, 'at least', 'at most' or 'any time', found the end of the line"),
        // Between two jobs there is no bound, and no form for one.
        ("from set a of job 10 to set b: 5 min", "1:12: expected 'to', found 'of'"),
        ("from job 10 set a to set b: 5 min", "1:6: expected 'begin of need', 'end of need', 'set' or 'clear', found 'job'"),
    ];
    for (text, expected) in cases {
        assert_eq!(errors(text), [expected], "{text}");
    }
}

#[test]
fn errors_of_form_are_said_together_and_before_all_others() {
    let text = "fact a\nfact a\nset\n\nneed \"b\n";
    assert_eq!(
        errors(text),
        [
            "3:4: expected the name of a fact, found the end of the line",
            "5:6: the name in quotes does not end on this line",
        ]
    );
}

#[test]
fn no_text() {
    let error = |bytes: &[u8]| parse(bytes).unwrap_err()[0].to_string();
    assert_eq!(error(b"horizon 9 min\nfact \xc3\xa4\xff"), "2:7: this is no text in UTF-8");
    assert_eq!(error(b"\xff"), "1:1: this is no text in UTF-8");
    assert_eq!(error(b"horizon 9 min\0"), "1:14: unexpected character '\\0'");
}

#[test]
fn head() {
    let missing = "1:1: there is no horizon";
    assert_eq!(errors(""), [missing]);
    assert_eq!(errors("fact a\n"), [missing]);
    assert_eq!(errors("horizon 10081 min"), ["1:9: the horizon lies from 0 to 10080 minutes"]);
    assert_eq!(errors("horizon -1 min"), ["1:9: the horizon lies from 0 to 10080 minutes"]);
    assert_eq!(
        errors("horizon 9 min\n\nhorizon 9 min"),
        ["3:1: the horizon stands on line 1 already"]
    );
    assert_eq!(
        errors("horizon 9 min\nfact a\nfact b\nfact \"a\" goal"),
        ["4:6: the fact 'a' is declared on line 2 already"]
    );
    let outside = "2:2: this line belongs to a job, and no job has begun";
    for line in ["need a", "set a", "clear a", "from set a to clear a: 5 min"] {
        assert_eq!(errors(&format!("horizon 9 min\n {line}")), [outside], "{line}");
    }
    let late = "3:1: horizon and facts stand before the first job";
    assert_eq!(errors("horizon 9 min\njob 10 one\nfact a\nset a"), [late]);
    assert_eq!(errors("\njob 10 one\nhorizon 9 min"), [late]);
}

#[test]
fn editions() {
    let text = |lines: &str| errors(&format!("edition 2\nhorizon 9 min\n{lines}"));
    for edition in ["0", "3", "-1", "20", "99999999999999999999"] {
        let lines = format!("edition {edition}\nhorizon 9 min\ngap 2\n");
        assert_eq!(errors(&lines), ["1:9: the edition of a sheet is 1 or 2"], "{edition}");
    }
    assert_eq!(text("edition 2"), ["3:1: the edition stands on line 1 already"]);
    assert_eq!(text(" edition 1"), ["3:2: the edition stands on line 1 already"]);
    let late = "2:1: the edition stands before all else";
    assert_eq!(errors("horizon 9 min\nedition 2\ngap 2"), [late]);
    assert_eq!(errors("horizon 9 min\nedition 1"), [late]);
    assert_eq!(
        errors("horizon 9 min\njob 10 one not before 5 min\n  edition 2"),
        ["3:3: the edition stands before all else"]
    );
}

#[test]
fn gap_and_revision() {
    let text = |lines: &str| errors(&format!("# a comment\n\nedition 2\nhorizon 9 min\n{lines}"));
    let range = "5:5: the gap lies from 0 to 60 minutes";
    for gap in ["61", "-1", "256", "2 h", "99999999999999999999"] {
        assert_eq!(text(&format!("gap {gap}")), [range], "{gap}");
    }
    assert_eq!(text("gap 2\ngap 2"), ["6:1: the gap stands on line 5 already"]);
    assert_eq!(
        text("gap 61\ngap 2"),
        ["5:5: the gap lies from 0 to 60 minutes", "6:1: the gap stands on line 5 already"]
    );
    for revision in ["65536", "-1", "99999999999999999999"] {
        let range = "5:10: a revision lies from 0 to 65535";
        assert_eq!(text(&format!("revision {revision}")), [range], "{revision}");
    }
    assert_eq!(text("revision 0\nrevision 1"), ["6:1: the revision stands on line 5 already"]);
    let late = "6:1: gap and revision stand before the first job";
    assert_eq!(text("job 10 one\ngap 2"), [late]);
    assert_eq!(text("job 10 one\nrevision 2"), [late]);
}

#[test]
fn releases() {
    let text = |words: &str| errors(&format!("edition 2\nhorizon 9 min\njob 10 one {words}"));
    let range = "the minute of 'not before' lies from 0 to 65535";
    for minutes in ["65536 min", "-1 min", "1093 h", "46 d", "99999999999999999999 min"] {
        let due = format!("3:23: {range}");
        assert_eq!(text(&format!("not before {minutes}")), [due], "{minutes}");
    }
    assert_eq!(text("optional not before 70000 min"), [format!("3:32: {range}")]);
}

#[test]
fn lines_of_edition_2_need_their_first_line() {
    let lines =
        "horizon 9 min\ngap 2\nrevision 3\nfact a goal\njob 10 one not before 5 min\nset a\n";
    let due = [
        "2:1: 'gap' belongs to edition 2",
        "3:1: 'revision' belongs to edition 2",
        "5:12: 'not before' belongs to edition 2",
    ];
    assert_eq!(errors(lines), due);
    let lower = due.map(|due| format!("{}{}", due[..1].parse::<u8>().unwrap() + 1, &due[1..]));
    assert_eq!(errors(&format!("edition 1\n{lines}")), lower);
    assert!(parse(format!("edition 2\n{lines}").as_bytes()).is_ok());
}

#[test]
fn titles() {
    let jobs = |lines: &str| errors(&format!("horizon 9 min\njob 10 one\n{lines}"));
    assert_eq!(jobs("job 10 two"), ["3:5: the job code 10 stands on line 2 already"]);
    assert_eq!(jobs("job 9 two"), ["3:5: job codes rise: 9 comes before 10 of line 2"]);
    assert_eq!(jobs("job -1 two"), ["3:5: a job code lies from 0 to 65535"]);
    assert_eq!(jobs("job 65536 two"), ["3:5: a job code lies from 0 to 65535"]);
    assert_eq!(jobs("job 11 \"one\""), ["3:8: the job 'one' is declared on line 2 already"]);
    assert_eq!(
        jobs("job 30 two\njob 20 three\njob 10 four"),
        [
            "4:5: job codes rise: 20 comes before 30 of line 3",
            "5:5: the job code 10 stands on line 2 already",
        ]
    );
}

#[test]
fn events() {
    assert_eq!(in_job("  set d"), ["7:7: no fact has the name 'd'"]);
    assert_eq!(in_job("  need A for 5 min"), ["7:8: no fact has the name 'A'"]);
    assert_eq!(in_job("  need a for 5 min"), ["7:3: 'need a' stands on line 6 already"]);
    let twice = "need b for 5 min\nneed b for 7 min";
    assert_eq!(in_job(twice), ["8:1: 'need b' stands on line 7 already"]);
    assert_eq!(in_job("set b\nset b"), ["8:1: 'set b' stands on line 7 already"]);
    assert_eq!(in_job("clear a\nset a\nclear a"), ["9:1: 'clear a' stands on line 7 already"]);
}

#[test]
fn bounds() {
    let cases = [
        ("from set d to begin of need a: 5 min", "8:10: no fact has the name 'd'"),
        ("from set c to begin of need a: 5 min", "8:6: the job 'one' has no line 'set c'"),
        ("from set b to clear b: 5 min", "8:15: the job 'one' has no line 'clear b'"),
        ("from set b to end of need b: 5 min", "8:15: the job 'one' has no line 'need b'"),
        ("from set b to set b: 5 min", "8:1: a bound lies between two different events"),
        ("from set b to end of need a: 7..5 min", "8:30: low 7 is above high 5"),
        ("from set b to end of need a: 10081 min", "8:30: minutes lie from -10080 to 10080"),
        (
            "from set b to end of need a: at least -10081 min",
            "8:39: minutes lie from -10080 to 10080",
        ),
        (
            "from set b to end of need a: at most 99999999999999999999 min",
            "8:38: minutes lie from -10080 to 10080",
        ),
        // The values of an open side are none of the notation.
        ("from set b to end of need a: -32768..5 min", "8:30: minutes lie from -10080 to 10080"),
        ("from set b to end of need a: 5..32767 min", "8:33: minutes lie from -10080 to 10080"),
    ];
    for (line, expected) in cases {
        assert_eq!(in_job(&format!("set b\n{line}")), [expected], "{line}");
    }
}

/// Each line of a pair that has several is looked at.
#[test]
fn each_bound_of_a_pair_keeps_its_rules() {
    let once = "from set b to begin of need a: 5 min\n";
    let low = "from set b to begin of need a: 7..5 min\n";
    assert_eq!(in_job(&format!("set b\n{once}{low}{once}")), ["9:32: low 7 is above high 5"]);
    let far = "need b for 5 min\nfrom begin of need b to end of need b: 10081 min";
    assert_eq!(in_job(far), ["8:40: minutes lie from -10080 to 10080"]);
}

#[test]
fn everything_wrong_in_a_sheet_is_said_by_place() {
    assert_eq!(
        in_job("from set b to set c: 7..5 min\nset b\nset d\nset c\njob 5 two\nneed e"),
        [
            "7:22: low 7 is above high 5",
            "9:5: no fact has the name 'd'",
            "11:5: job codes rise: 5 comes before 10 of line 5",
            "12:6: no fact has the name 'e'",
        ]
    );
}

/// A head with this many facts, f0 and so on; the first job's line is `facts` + 2.
fn facts(count: usize) -> String {
    (0..count).fold("horizon 9 min\n".to_string(), |text, k| text + &format!("fact f{k}\n"))
}

#[test]
fn too_many() {
    assert!(parse(facts(64).as_bytes()).is_ok());
    assert_eq!(errors(&facts(66)), ["66:6: too many facts: a sheet holds at most 64"]);

    let jobs = |count: usize| (0..count).map(|k| format!("job {k} j{k}\n")).collect::<String>();
    let text = |count| format!("horizon 9 min\n{}", jobs(count));
    assert!(parse(text(32).as_bytes()).is_ok());
    assert_eq!(errors(&text(34)), ["34:1: too many jobs: a sheet holds at most 32"]);
}

#[test]
fn too_many_events() {
    let mut text = format!("{}job 1 one\n", facts(64));
    for fact in 0..64 {
        let _ = write!(text, "set f{fact}\nneed f{fact}\nclear f{fact}\n");
    }
    assert!(parse(text.as_bytes()).is_ok());
    let lines = text.lines().count();
    let expected = format!("{}:2: too many events: a sheet holds at most 256", lines + 2);
    assert_eq!(errors(&format!("{text}job 2 two\n need f0\n set f0\n")), [expected]);
    // A need is two events: the first of the two is too many, or the second.
    let one_less = text.replacen("set f0\n", "", 1);
    let expected = format!("{}:2: too many events: a sheet holds at most 256", lines + 1);
    assert_eq!(errors(&format!("{one_less}job 2 two\n need f0\n set f0\n")), [expected]);
}

#[test]
fn too_many_bounds() {
    let mut text = format!("{}job 1 one\n", facts(17));
    let events: String = (0..17).map(|fact| format!("set f{fact}\n")).collect();
    text.push_str(&events);
    let pairs = (0..17).flat_map(|e| (0..17).map(move |d| (e, d))).filter(|(e, d)| e != d);
    for (e, d) in pairs.take(256) {
        let _ = writeln!(text, "from set f{d} to set f{e}: any time");
    }
    assert!(parse(text.as_bytes()).is_ok());
    let expected =
        format!("{}:1: too many bounds: a sheet holds at most 256", text.lines().count() + 1);
    let more = "from set f15 to set f16: 5 min\nfrom set f14 to set f16: 5 min\n";
    assert_eq!(errors(&format!("{text}{more}")), [expected]);
}

/// A bound that stands several times counts each time, and so does the length of a job.
#[test]
fn too_many_bounds_of_one_pair() {
    let again = |count| "from set f0 to set f1: any time\n".repeat(count);
    let text = |count| format!("{}job 1 one\nset f0\nset f1\n{}", facts(2), again(count));
    assert!(parse(text(256).as_bytes()).is_ok());
    let expected = |line: usize| format!("{line}:1: too many bounds: a sheet holds at most 256");
    assert_eq!(errors(&text(258)), [expected(6 + 257)]);
    let takes = |count| {
        let events = "takes 5 min\nset f0 at start\nset f1 at end\n";
        format!("{}job 1 one {events}{}", facts(2), again(count))
    };
    assert!(parse(takes(255).as_bytes()).is_ok());
    assert_eq!(errors(&takes(256)), [expected(6 + 256)]);
}
