//! The commands of bin/ as a user meets them: what they print, where, and with which status.

mod common;

use common::{build, root, text};
use corrumai_tests::cases::{self, examples};
use corrumai_tests::rng::Rng;
use std::fs::{self, File};
use std::io::Write;
use std::os::unix::fs::symlink;
use std::path::{Path, PathBuf};
use std::process::{Command, Output, Stdio};

/// Runs a program in the repository's folder.
fn run_at(program: &Path, words: &[&str], input: &[u8]) -> Output {
    build();
    let mut command = Command::new(program);
    command.args(words).current_dir(root()).stdin(Stdio::piped());
    let mut child = command.stdout(Stdio::piped()).stderr(Stdio::piped()).spawn().unwrap();
    // A program may leave without reading its input.
    let _ = child.stdin.take().unwrap().write_all(input);
    child.wait_with_output().unwrap()
}

fn run(name: &str, words: &[&str], input: &[u8]) -> Output {
    run_at(&root().join("bin").join(name), words, input)
}

/// The command prints this and nothing else, with this status.
fn assert_prints(name: &str, words: &[&str], input: &[u8], expected: &[u8], status: i32) {
    let output = run(name, words, input);
    assert!(output.stdout == expected, "{name} {words:?}: {output:?}");
    assert_eq!(output.status.code(), Some(status), "{name} {words:?}");
    if status == 0 {
        assert_eq!(String::from_utf8_lossy(&output.stderr), "", "{name} {words:?}");
    }
}

/// The command leaves with this status and a message that holds these words, and prints nothing.
fn assert_fails(name: &str, words: &[&str], input: &[u8], status: i32, message: &str) {
    let output = run(name, words, input);
    let said = String::from_utf8_lossy(&output.stderr);
    assert!(said.contains(message), "{name} {words:?}: {said}");
    assert_eq!(output.status.code(), Some(status), "{name} {words:?}: {said}");
    assert!(output.stdout.is_empty(), "{name} {words:?}");
}

fn example(name: &str) -> Vec<u8> {
    fs::read(root().join("examples").join(name)).unwrap()
}

/// A path in a folder of the tests' own.
fn path(name: &str) -> PathBuf {
    PathBuf::from(env!("CARGO_TARGET_TMPDIR")).join(name)
}

/// A file with these bytes.
fn file(name: &str, bytes: &[u8]) -> String {
    fs::write(path(name), bytes).unwrap();
    path(name).to_str().unwrap().to_string()
}

#[test]
fn sheets_go_both_ways() {
    let (text, bytes) = (example("wood.txt"), example("wood.sheet"));
    assert_prints("corrumai", &["sheet", "to-bytes", "examples/wood.txt"], b"", &bytes, 0);
    assert_prints("corrumai", &["sheet", "to-bytes", "-"], &text, &bytes, 0);
    assert_prints("corrumai", &["sheet", "to-bytes"], &text, &bytes, 0);
    let printed = run("corrumai", &["sheet", "to-text", "examples/wood.sheet"], b"").stdout;
    assert!(String::from_utf8_lossy(&printed).starts_with("# "));
    assert_prints("corrumai", &["sheet", "to-text"], &bytes, &printed, 0);
    let again = run("corrumai", &["sheet", "to-bytes"], &printed);
    assert_eq!(again.stdout, bytes);
    assert_prints("corrumai", &["sheet", "check", "--strict", "examples/wood.txt"], b"", b"", 0);
}

#[test]
fn editions_go_both_ways() {
    let (first, second) = (example("p1.sheet"), example("p1-edition2.sheet"));
    let (there, back) = (["sheet", "to-edition2"], ["sheet", "to-edition1"]);
    assert_prints("corrumai", &[&there[..], &["examples/p1.sheet"]].concat(), b"", &second, 0);
    assert_prints("corrumai", &[&there[..], &["-"]].concat(), &first, &second, 0);
    assert_prints("corrumai", &there, &example("p1.txt"), &second, 0);
    assert_prints("corrumai", &back, &second, &first, 0);
    let text = [&back[..], &["examples/p1-edition2.txt"]].concat();
    assert_prints("corrumai", &text, b"", &first, 0);
    for (words, input, said) in [
        (&there, &second, "ANSWER 10 0\n"),
        (&back, &first, "ANSWER 10 0\n"),
        (&back, &example("wood-server.sheet"), "ANSWER 50 0\n"),
        (&back, &example("wood-server.txt"), "ANSWER 50 0\n"),
        (&there, &b"horizn".to_vec(), "did you mean 'horizon'?"),
    ] {
        assert_fails("corrumai", words, input, 1, said);
    }
}

/// The commands of CHANGELOG.md for a sheet that was rewritten before 0.4.0, as they stand there.
#[test]
fn an_old_sheet_is_mended_as_the_page_of_changes_says() {
    build();
    let page = text("CHANGELOG.md");
    let about = |line: &&str| line.starts_with("    ") && line.contains("old.sheet");
    let line = |end: &str| page.lines().filter(about).find(|line| line.contains(end)).unwrap();
    assert!(text("docs/NOTATION.md").lines().any(|found| found == line("sheet to-text")));
    let go_back = page.lines().find(|line| line.contains("to-edition1 mended.sheet")).unwrap();
    let folder = path("mending");
    fs::create_dir_all(&folder).unwrap();
    fs::write(folder.join("old.sheet"), examples::p1(100).with_gap(0).bytes()).unwrap();
    let shell = |line: &str| {
        let program = root().join("bin/corrumai");
        let line = line.replace("bin/corrumai", &format!("'{}'", program.display()));
        let words = ["-euo", "pipefail", "-c", &line];
        let output = Command::new("bash").args(words).current_dir(&folder).output().unwrap();
        assert!(output.status.success(), "{line}: {output:?}");
        String::from_utf8(output.stderr).unwrap()
    };
    let warning = "old.sheet: warning: no gap is said, so it is the default, 2 min; ";
    assert!(shell(line("sheet check")).starts_with(warning));
    let written = |name: &str| fs::read(folder.join(name)).unwrap();
    assert_eq!(shell(line("sheet to-text")), "");
    assert_eq!(written("mended.sheet"), example("p1-edition2.sheet"));
    assert_eq!(shell(go_back), "");
    assert_eq!(written("first.sheet"), example("p1.sheet"));
    assert_eq!(shell(line("seek=29")), "");
    assert_eq!(written("old.sheet"), example("p1-edition2.sheet"));
    assert_eq!(shell(line("sheet check")), "");
}

#[test]
fn plans_are_printed_from_bytes_and_from_text() {
    let run = example("wood.run");
    assert_prints("corrumai", &["plan", "examples/wood.sheet"], b"", &run, 0);
    assert_prints("corrumai", &["plan", "examples/wood.txt"], b"", &run, 0);
    assert_prints("corrumai", &["plan", "-"], &example("wood.txt"), &run, 0);
    assert_prints("corrumai", &["plan", "examples/p3.sheet"], b"", b"ANSWER 1 0\n", 1);
    assert_prints("corrumai", &["plan", "examples/p8.txt"], b"", b"ANSWER 21 1\n", 1);
    let p4 = ["plan", "--buffer", "23", "examples/p4.sheet"];
    assert_prints("corrumai", &p4, b"", b"ANSWER 30 24\n", 1);
    assert_prints("corrumai", &["plan"], b"", b"ANSWER 10 0\n", 1);
}

#[test]
fn runlist_is_the_program_of_document_01() {
    let sheet = examples::p1(100).bytes();
    assert_prints("runlist", &["examples/p1.sheet"], b"", &example("p1.run"), 0);
    assert_prints("runlist", &[], &sheet, &example("p1.run"), 0);
    assert_prints("runlist", &["-"], &sheet, &example("p1.run"), 0);
    for name in ["p1-edition2", "wood-server", "wood-pasted", "wood-retired"] {
        let (sheet, run) = (format!("examples/{name}.sheet"), example(&format!("{name}.run")));
        assert_prints("runlist", &[&sheet], b"", &run, 0);
        assert_prints("corrumai", &["plan", &sheet], b"", &run, 0);
    }
    assert_prints("runlist", &["examples/p3.sheet"], b"", b"ANSWER 1 0\n", 1);
    assert_prints("runlist", &["examples/wood.txt"], b"", b"ANSWER 10 0\n", 1);
    assert_fails("runlist", &["no-such"], b"", 2, "runlist: cannot read the file 'no-such'");
    assert_fails("runlist", &["bin"], b"", 2, "runlist: cannot read the file 'bin'");
    assert_fails(
        "runlist",
        &["examples/p1.sheet", "b"],
        b"",
        2,
        "the argument 'b' is one too many",
    );
    assert_fails("runlist", &["--chart"], b"", 2, "there is no option '--chart'");
    assert!(run("runlist", &["--help"], b"").status.success());
}

/// A list that could not be written is never status 0.
#[test]
fn a_full_disk_is_status_2() {
    for (name, words) in [
        ("runlist", &["examples/p1.sheet"][..]),
        ("runlist", &["--help"]),
        ("corrumai", &["plan", "examples/p1.sheet"]),
        ("corrumai", &["--help"]),
        ("corrumai", &["sheet", "to-bytes", "examples/p1.txt"]),
        ("corrumai", &["chart", "examples/p1.txt"]),
    ] {
        build();
        let full = File::options().write(true).open("/dev/full").unwrap();
        let mut command = Command::new(root().join("bin").join(name));
        command.args(words).current_dir(root()).stdout(full);
        let output = command.output().unwrap();
        assert_eq!(output.status.code(), Some(2), "{name} {words:?}");
        assert!(String::from_utf8_lossy(&output.stderr).contains("cannot write the result"));
        let mut shell = Command::new("sh");
        let program = root().join("bin").join(name);
        shell.args(["-c", "exec \"$@\" >&-", "sh"]).arg(program).args(words).current_dir(root());
        assert_eq!(shell.output().unwrap().status.code(), Some(2), "{name} {words:?}");
    }
}

/// Input that cannot be read is never taken for an empty sheet, nor waited for.
#[test]
fn an_input_that_cannot_be_read_is_status_2() {
    build();
    for (name, words) in [("runlist", ""), ("corrumai", "plan"), ("corrumai", "explain -")] {
        for input in ["<bin", "<&-"] {
            let line = format!("exec timeout 20 bin/{name} {words} {input}");
            let output = Command::new("sh").args(["-c", &line]).current_dir(root()).output();
            let output = output.unwrap();
            let said = String::from_utf8_lossy(&output.stderr);
            assert!(said.contains("cannot read standard input"), "{line}: {said}");
            assert_eq!(output.status.code(), Some(2), "{line}: {said}");
            assert!(output.stdout.is_empty(), "{line}");
        }
        let line = format!("exec timeout 20 bin/{name} {words} examples/p1.sheet <&-");
        let output = Command::new("sh").args(["-c", &line]).current_dir(root()).output().unwrap();
        // A file needs no standard input; behind `-` it is the list.
        let due = if words == "explain -" { Some(2) } else { Some(0) };
        assert_eq!(output.status.code(), due, "{line}: {output:?}");
    }
    assert_fails("runlist", &[""], b"", 2, "runlist: cannot read the file ''");
}

#[test]
fn charts_are_of_plans() {
    let chart = |words: &[&str], input: &[u8]| {
        let output = run("corrumai", words, input);
        assert!(output.status.success() && output.stderr.is_empty(), "{output:?}");
        String::from_utf8(output.stdout).unwrap()
    };
    let invented = chart(&["chart", "examples/wood.sheet"], b"");
    assert!(invented.contains(">Run list of wood.sheet<") && invented.contains(">110 job110<"));
    let named = chart(&["chart", "examples/wood.txt"], b"");
    assert!(named.contains(">Run list of wood.txt<") && named.contains(">110 load-codes<"));
    assert!(named.contains(">need files open: minute 3 to 6<"));
    let unnamed = chart(&["chart"], &example("wood.txt"));
    assert_eq!(unnamed, named.replace("wood.txt", "standard input"));
    for (name, answer) in [("p3", "1 0"), ("p7", "1 0"), ("p8", "21 1"), ("p9", "21 0")] {
        let path = format!("examples/{name}.sheet");
        assert_fails("corrumai", &["chart", &path], b"", 1, &format!("ANSWER {answer}\n"));
    }
    let mut rng = Rng::new(71);
    let noise: Vec<u8> = (0..200_000).map(|_| rng.below(8) as u8).collect();
    assert_fails("corrumai", &["chart"], &noise, 1, "ANSWER 10 0\n");
}

#[test]
fn judge_prints_the_answer() {
    let all = cases::all();
    for answer in [0, 10, 11, 12, 13, 14, 40, 41] {
        let printed = format!("ANSWER {answer} 0\n");
        // A sheet whose first byte begins a text is taken for one.
        let is_bytes = |bytes: &[u8]| bytes.first().map_or(true, |byte| *byte < 9);
        let mut known = all.iter().filter(|case| {
            case.expected == answer && is_bytes(&case.sheet) && is_bytes(&case.list)
        });
        for place in 0..3 {
            let case = known.next().expect("there are three cases of each answer");
            let sheet = file(&format!("{answer}-{place}.sheet"), &case.sheet);
            let list = file(&format!("{answer}-{place}.list"), &case.list);
            let status = i32::from(answer != 0);
            assert_prints("corrumai", &["judge", &sheet, &list], b"", printed.as_bytes(), status);
        }
    }
    for name in ["wood", "wood-server", "wood-pasted", "wood-retired"] {
        let (sheet, list) = (format!("examples/{name}.txt"), format!("examples/{name}.run"));
        assert_prints("corrumai", &["judge", &sheet, &list], b"", b"ANSWER 0 0\n", 0);
    }
}

#[test]
fn late_starts_are_answered_and_followed() {
    let p1 = |option: &[&'static str], delays: &[&'static str]| {
        [&["late"], option, &["examples/p1.txt", "examples/p1.run"], delays].concat()
    };
    assert_prints("corrumai", &p1(&[], &["0", "1"]), b"", b"ANSWER 0 0\n", 0);
    assert_prints("corrumai", &p1(&[], &["1", "0"]), b"", b"ANSWER 41 6\n", 1);
    let followed = b"- 0\n5 0 1\n10 0 1 2\nANSWER 0 0\n";
    assert_prints("corrumai", &p1(&["--follow"], &["0", "1"]), b"", followed, 0);
    assert_prints("corrumai", &p1(&["--follow"], &["0"]), b"", b"ANSWER 40 0\n", 1);
    let drawn = run("corrumai", &p1(&["--chart"], &["0", "1"]), b"");
    assert!(drawn.status.success() && drawn.stderr.is_empty(), "{drawn:?}");
    let drawn = run("corrumai", &p1(&["--chart"], &["1", "0"]), b"");
    assert!(String::from_utf8_lossy(&drawn.stdout).contains(">goes wrong at minute 6</text>"));
    assert!(String::from_utf8_lossy(&drawn.stderr).starts_with("ANSWER 41 6\n"), "{drawn:?}");
    assert_eq!(drawn.status.code(), Some(1));
    assert_fails("corrumai", &p1(&["--chart"], &["601", "0"]), b"", 1, "ANSWER 40 0\n");
    let list = ["late", "examples/p1.sheet", "-", "0", "1"];
    assert_prints("corrumai", &list, &example("p1.list"), b"ANSWER 0 0\n", 0);
}

#[test]
fn costs_are_answered_and_billed() {
    let p1 = |option: &[&'static str], rates: &[&'static str]| {
        [&["cost"], option, &["examples/p1.txt", "examples/p1.run"], rates].concat()
    };
    assert_prints("corrumai", &p1(&[], &["60", "60"]), b"", b"COST 8 0\n", 0);
    let billed = b"10 5 7\n20 3 11\nCOST 1 8\n";
    assert_prints("corrumai", &p1(&["--each"], &["7", "11"]), b"", billed, 0);
    for rates in [&["1000001", "0"][..], &["60"], &["9999999999", "0"]] {
        assert_prints("corrumai", &p1(&["--each"], rates), b"", b"ANSWER 51 0\n", 1);
    }
    let list = ["cost", "examples/p1-edition2.sheet", "-", "7", "11"];
    assert_prints("corrumai", &list, &example("p1.list"), b"COST 1 8\n", 0);
    let p10 = ["cost", "examples/p10.sheet", "examples/p10.list"];
    assert_prints("corrumai", &p10, b"", b"ANSWER 41 0\n", 1);
    // As docs/COMMANDS.md has it, in a shell.
    let page = text("docs/COMMANDS.md");
    let line = page.lines().find_map(|line| line.strip_prefix("$ bin/corrumai cost --each "));
    let line = format!("bin/corrumai cost --each {}", line.unwrap());
    let output = Command::new("sh").args(["-c", &line]).current_dir(root()).output().unwrap();
    assert!(output.stdout.ends_with(b"\nCOST 2443 50\n"), "{output:?}");
    assert!(output.status.success() && output.stderr.is_empty(), "{output:?}");
}

/// The reason goes to standard error, whatever the answer.
#[test]
fn which_sheet_counts_is_answered() {
    let [server, corrected] = ["examples/wood-server.txt", "examples/corrected/wood-server.txt"];
    let supersedes = format!("{corrected}: revision 2 supersedes revision 1 of {server}");
    let same = "both sheets have revision 2 and the same bytes: the first counts";
    let (one, other) = (example("corrected/wood-server.sheet"), example("wood-server.txt"));
    let piped = format!("standard input: revision 2 supersedes revision 1 of {server}");
    for (words, input, line, status, why) in [
        ([server, corrected], &[][..], "SECOND\n", 0, supersedes.as_str()),
        ([corrected, server], &[], "FIRST\n", 0, &supersedes),
        ([corrected, "-"], &one, "FIRST\n", 0, same),
        (["-", server], &one, "FIRST\n", 0, &piped),
        ([server, "-"], &other, "FIRST\n", 0, &same.replace('2', "1")),
        ([server, "examples/p1.sheet"], &[], "ANSWER 10 0\n", 1, "examples/p1.sheet: "),
        (["-", corrected], &[], "ANSWER 10 0\n", 1, "standard input: no well-formed sheet"),
    ] {
        let words = [&["newer"], &words[..]].concat();
        let output = run("corrumai", &words, input);
        let said = String::from_utf8_lossy(&output.stderr);
        assert_eq!(String::from_utf8_lossy(&output.stdout), line, "{words:?}");
        assert!(said.starts_with(&format!("corrumai: {why}")), "{words:?}: {said}");
        assert_eq!(output.status.code(), Some(status), "{words:?}");
    }
}

#[test]
fn wrong_use_is_status_2() {
    let p1 = "examples/p1.sheet";
    let cases: [(&[&str], &str); 27] = [
        (&[], "a subcommand is missing"),
        (&["plann", p1], "did you mean 'plan'?"),
        (&["sheet"], "'sheet' goes on"),
        (&["sheet", "to-words"], "'sheet' goes on"),
        (&["plan", p1, p1], "is one too many"),
        (&["plan", "--bytes", p1], "there is no option '--bytes' here"),
        (&["plan", "--name", p1], "did you mean '--names'?"),
        (&["plan", p1, "--start"], "--start needs a time of day"),
        (&["plan", "--start", "25:00", p1], "no time of day"),
        (&["plan", "--buffer", "-1", p1], "no number of bytes"),
        (&["judge", p1], "a file is missing"),
        (&["judge", "-", "-"], "only one of the files"),
        (&["judge", p1, "no-such"], "cannot read the file 'no-such'"),
        (&["judge", "bin", p1], "cannot read the file 'bin'"),
        (&["--version", "x"], "there is no subcommand '--version'"),
        (&["chart", "no-such"], "cannot read the file 'no-such'"),
        (&["late", p1], "a file is missing"),
        (&["late", p1, "-5", "1"], "cannot read the file '-5'"),
        (&["late", p1, p1, "1", "5min"], "the delay '5min' is no number of minutes from 0 to 600"),
        (&["late", "--chart", "--follow", p1, p1], "one of them at a time"),
        (&["cost", p1], "a file is missing"),
        (&["cost", p1, p1, "60", "1.5"], "the rate '1.5' is no number of at most ten digits"),
        (&["cost", "--eech", p1, p1], "did you mean '--each'?"),
        (&["newer", p1], "a file is missing"),
        (&["newer", p1, p1, p1], "is one too many"),
        (&["newer", "-", "-"], "only one of the files"),
        (&["newer", p1, "no-such"], "cannot read the file 'no-such'"),
    ];
    for (words, message) in cases {
        assert_fails("corrumai", words, b"", 2, message);
    }
}

#[test]
fn help_is_there_for_each_subcommand() {
    for words in [&["--help"][..], &["help"], &["sheet", "--help"], &["help", "list"]] {
        let output = run("corrumai", words, b"");
        assert!(output.status.success() && output.stdout.len() > 100, "{words:?}");
    }
    for command in corrumai_tools::command::COMMANDS {
        let mut words: Vec<&str> = command.name.split(' ').collect();
        words.push("--help");
        let (out, aside, status) = common::command(&words);
        let out = String::from_utf8(out).unwrap();
        assert_eq!((aside.as_str(), status), ("", 0), "{words:?}");
        assert!(out.contains(&format!("corrumai {}", command.name)), "{out}");
        assert!(command.options.iter().all(|option| out.matches(option).count() > 1), "{out}");
        assert!(out.lines().all(|line| line.chars().count() <= 110), "{out}");
    }
    assert!(common::command(&["--version"]).0.starts_with(b"corrumai "));
}

#[test]
fn a_link_from_elsewhere_works() {
    for name in ["corrumai", "runlist"] {
        let link = path(&format!("link-to-{name}"));
        let _ = fs::remove_file(&link);
        symlink(root().join("bin").join(name), &link).unwrap();
        let words = if name == "runlist" {
            &["examples/p1.sheet"][..]
        } else {
            &["plan", "examples/p1.sheet"]
        };
        assert_eq!(run_at(&link, words, b"").stdout, example("p1.run"), "{name}");
    }
}
