//! README.md and docs/COMMANDS.md: every command that they show is run as it stands there, in a shell, and what stands below it is
//! what it prints.

mod common;

use common::{build, fenced, root, text};
use corrumai_tools::command::COMMANDS;
use std::fs;
use std::os::unix::fs::symlink;
use std::path::{Path, PathBuf};
use std::process::{Command, Output};

const FRONT: &str = "README.md";
const PAGE: &str = "docs/COMMANDS.md";

/// What a command of a page begins with.
const PROGRAMS: [&str; 2] = ["bin/corrumai ", "bin/runlist "];

fn is_command(words: &str) -> bool {
    PROGRAMS.iter().any(|program| words.starts_with(program))
}

/// A command of a page, with the status that is said of it, or 0. What it prints is there if the page shows it.
struct Shown {
    line: String,
    status: i32,
    due: Option<String>,
}

/// The number behind the word `status`, or 0.
fn status_in(words: &str) -> i32 {
    let digits = |rest: &str| rest.chars().take_while(char::is_ascii_digit).collect::<String>();
    words.split_once("status ").map_or(0, |(_, rest)| digits(rest).parse().expect("a status"))
}

/// Commands behind `$`, and what each prints. The status behind the fence is that of the last.
fn with_output(kind: &str, block: &str) -> Vec<Shown> {
    let block = block.strip_prefix("$ ").expect("a block begins with a command");
    let all: Vec<&str> = block.split("\n$ ").collect();
    let shown = |(place, part): (usize, &&str)| {
        let (line, due) = part.split_once('\n').unwrap_or((part, ""));
        let status = if place + 1 == all.len() { status_in(kind) } else { 0 };
        Shown { line: line.to_string(), status, due: Some(due.trim_end().to_string()) }
    };
    all.iter().enumerate().map(shown).collect()
}

/// A command alone; its comment may name the status.
fn alone(line: &str) -> Shown {
    let status = line.split_once(" # ").map_or(0, |(_, comment)| status_in(comment));
    Shown { line: line.to_string(), status, due: None }
}

/// All commands of a page, those within sentences too, if they name their files.
fn shown(page: &str) -> Vec<Shown> {
    let mut all = Vec::new();
    for (kind, block) in fenced(page) {
        match kind.split(' ').next().unwrap() {
            "console" => all.extend(with_output(&kind, &block)),
            "sh" => all.extend(block.lines().map(alone)),
            "sheet" | "c" => {}
            _ => panic!("a block '{kind}'"),
        }
    }
    let outside = page.lines().filter(|line| !line.starts_with("```"));
    let quoted = outside.flat_map(|line| line.split('`').skip(1).step_by(2));
    all.extend(quoted.filter(|words| is_command(words) && words.contains(" examples/")).map(alone));
    all
}

/// A folder of the test's own, where a page's commands find what they find in the repository's, and may write.
fn folder(name: &str) -> PathBuf {
    let folder = PathBuf::from(env!("CARGO_TARGET_TMPDIR")).join(name);
    let _ = fs::remove_dir_all(&folder);
    fs::create_dir_all(&folder).unwrap();
    for part in ["examples", "include", "dist"] {
        symlink(fs::canonicalize(root().join(part)).unwrap(), folder.join(part)).unwrap();
    }
    folder
}

/// Runs a line in a shell.
fn run(line: &str, folder: &Path) -> Output {
    let bin = fs::canonicalize(root().join("bin")).unwrap();
    let line = PROGRAMS.iter().fold(line.to_string(), |line, program| {
        let name = program.trim_start_matches("bin/");
        line.replace(program, &format!("'{}'/{name}", bin.display()))
    });
    let words = ["-euo", "pipefail", "-c", &line];
    Command::new("bash").args(words).current_dir(folder).output().unwrap()
}

#[test]
fn what_the_pages_show_is_what_is_printed() {
    build();
    for (name, place) in [(FRONT, "front"), (PAGE, "commands")] {
        let (page, folder) = (text(name), folder(place));
        for Shown { line, status, due } in shown(&page) {
            let output = run(&line, &folder);
            assert_eq!(output.status.code(), Some(status), "{line}: {output:?}");
            let is_quiet = status != 0 || output.stderr.is_empty();
            let printed = String::from_utf8([output.stdout, output.stderr].concat()).unwrap();
            match due {
                Some(due) => assert_eq!(printed.trim_end(), due, "{line}"),
                None => assert!(is_quiet, "{line}: {printed}"),
            }
        }
        // No command stands where nothing runs it.
        let unseen = |line: &&str| line.starts_with("    ") && is_command(line.trim_start());
        assert_eq!(page.lines().find(unseen), None, "{name}");
    }
}

/// Each subcommand has its place on the page, and of these the output is compared.
#[test]
fn every_command_is_shown() {
    let all = shown(&text(PAGE));
    let has = |words: &str, with_output: bool| {
        let call = format!("bin/corrumai {words} ");
        all.iter().any(|shown| shown.line.contains(&call) && shown.due.is_some() >= with_output)
    };
    for command in COMMANDS {
        assert!(has(command.name, false), "{PAGE} does not show '{}'", command.name);
    }
    for words in ["plan --names", "judge", "late --follow", "cost --each", "newer", "batch"] {
        assert!(has(words, true), "{PAGE} does not show what '{words}' prints");
    }
}

/// The front page is short, shows a sheet that is there, and has the command that runs it beside the one that tests it.
#[test]
fn the_front_page() {
    let page = text(FRONT);
    assert!(page.lines().count() <= 130, "{} lines", page.lines().count());
    let sheets: Vec<_> = fenced(&page).into_iter().filter(|(kind, _)| kind == "sheet").collect();
    assert_eq!(sheets.len(), 1);
    assert!(text("examples/march/sheet.txt").contains(&sheets[0].1));
    let row = |head: &str| page.lines().position(|line| line.starts_with(head)).expect(head);
    assert_eq!(row("| Run it | `bin/corrumai plan ") + 1, row("| Test it | `.ci/run` |"));
    for crate_name in ["tests", "tools"] {
        row(&format!("    (cd {crate_name} && cargo test --offline)"));
    }
}

/// What holds after each piece of C, where sheet and list are P1's and the two sheets those of `newer` above it.
const AFTER: [&str; 4] = [
    "number == 0 && detail == 6 && run.next == 1 && run.held == 1",
    "number == 0 && cents == 1 && sixtieths == 8",
    "number == 0 && detail == 0 && which == 1 && part == second && part_len == second_len",
    "number == 0 && verdict == 0 && there == 0 && back == 10",
];

/// A C function for a piece of the page: whether what is said of it holds.
fn piece((place, (block, holds)): (usize, (String, &str))) -> String {
    let bytes = |name: &str| format!("const uint8_t *{name}, size_t {name}_len, ");
    let taken = ["sheet", "list", "first", "second"].map(bytes).concat();
    let taken = format!("{taken}uint8_t *buffer, size_t buffer_len");
    format!("static int piece{place}({taken}) {{\n  size_t detail;\n{block}  return {holds};\n}}\n")
}

/// A file's bytes as a C array.
fn array(name: &str, file: &str) -> String {
    let bytes = fs::read(root().join("examples").join(file)).unwrap();
    let bytes: Vec<String> = bytes.iter().map(u8::to_string).collect();
    format!("static const uint8_t {name}[] = {{{}}};\n", bytes.join(", "))
}

/// The pieces of C compile, and give what their comments say.
#[test]
fn the_pieces_of_c_are_right() {
    let pieces = fenced(&text(PAGE)).into_iter().filter(|(kind, _)| kind == "c");
    let pieces: Vec<String> = pieces.map(|(_, block)| block).collect();
    assert_eq!(pieces.len(), AFTER.len());
    let files = [
        ("sheet", "p1.sheet"),
        ("list", "p1.list"),
        ("first", "wood-server.sheet"),
        ("second", "corrected/wood-server.sheet"),
    ];
    let arrays = files.map(|(name, file)| array(name, file)).concat();
    let given = files.map(|(name, _)| format!("{name}, sizeof {name}, ")).concat();
    let call = |place: usize| {
        format!("  if (!piece{place}({given}buffer, sizeof buffer)) return {};\n", place + 1)
    };
    let calls: String = (0..AFTER.len()).map(call).collect();
    let functions: String = pieces.into_iter().zip(AFTER).enumerate().map(piece).collect();
    let source = format!(
        "#include <corrumai.h>\n{arrays}static uint8_t buffer[CORRUMAI_LONGEST_SHEET];\n{functions}int main(void) {{\n{calls}  return 0;\n}}\n"
    );
    let folder = folder("pieces");
    fs::write(folder.join("pieces.c"), source).unwrap();
    let quiet = "-Wno-unused-variable -Wno-unused-parameter -Wno-unused-but-set-variable";
    let line = format!("cc -std=c11 -Wall -Wextra -Werror {quiet} -Iinclude pieces.c dist/libcorrumai.a -o pieces && ./pieces");
    let output = run(&line, &folder);
    assert_eq!(output.status.code(), Some(0), "{output:?}");
}
