//! The header and the bindings: numbers, lengths and version are one and the same, the C border keeps its promises, and the
//! stack stays within what the header names.

mod common;

use common::root;
use corrumai_tests::build::Spec;
use corrumai_tests::cases::{hostile, ordinary};
use corrumai_tests::say;
use corrumai_tools::answers::ROWS;
use corrumai_tools::layout::{
    LIST_ENTRIES_AT, LIST_ENTRY, LIST_TIME, LONGEST_PLAN, LONGEST_SHEET, MAX_DELAY, MAX_ENTRIES,
    MAX_JOBS, MAX_RATE, MAX_TIMES,
};
use std::collections::BTreeSet;
use std::fs;
use std::path::PathBuf;
use std::process::Command;

fn text(name: &str) -> String {
    fs::read_to_string(root().join(name)).unwrap()
}

/// The folder of libcorrumai.a.
fn library() -> PathBuf {
    let given = std::env::var_os("CORRUMAI_LIB_DIR").map(PathBuf::from);
    given.unwrap_or_else(|| root().join("crates/corrumai/out"))
}

/// What the header defines under this name.
fn defined(name: &str) -> String {
    let open = format!("#define CORRUMAI_{name} ");
    let header = text("include/corrumai.h");
    let line = header.lines().find_map(|line| line.strip_prefix(&open));
    line.unwrap_or_else(|| panic!("{name} is not defined")).to_string()
}

#[test]
fn the_version_is_one() {
    let version = text("VERSION").trim_end().to_string();
    assert_eq!(defined("VERSION"), format!("\"{version}\""));
    let parts = ["MAJOR", "MINOR", "PATCH"].map(|part| defined(&format!("VERSION_{part}")));
    assert_eq!(parts.join("."), version);
    for manifest in ["tools/Cargo.toml", "bindings/rust/Cargo.toml"] {
        assert!(text(manifest).contains(&format!("\nversion = \"{version}\"\n")), "{manifest}");
    }
    assert!(text("bindings/python/corrumai.py").contains(&format!("__version__ = \"{version}\"\n")));
    let printed = common::command(&["--version"]).0;
    assert_eq!(String::from_utf8(printed).unwrap(), format!("corrumai {version}\n"));
}

#[test]
fn the_header_has_every_answer_and_length() {
    let header = text("include/corrumai.h");
    let body = header.split("enum corrumai_answer {").nth(1).unwrap().split("};").next().unwrap();
    let number =
        |line: &str| line.split(" = ").nth(1)?.split([',', ' ']).next()?.parse::<u8>().ok();
    let numbers: BTreeSet<u8> = body.lines().filter_map(number).collect();
    // 15 is given no more; its name stays, so that programs which have it compile.
    let given = ROWS.iter().map(|row| row.number);
    assert_eq!(numbers, given.chain([15]).collect());
    assert_eq!(LONGEST_SHEET, 26 + 6 + 64 + 4 * 32 + 3 * 256 + 6 * 256);
    assert_eq!(defined("LONGEST_SHEET"), LONGEST_SHEET.to_string());
    assert_eq!(defined("LONGEST_PLAN"), LONGEST_PLAN.to_string());
    let longest = LIST_ENTRIES_AT + LIST_ENTRY * MAX_ENTRIES + LIST_TIME * MAX_TIMES;
    assert_eq!(defined("LONGEST_LIST"), longest.to_string());
    let rust = text("bindings/rust/src/lib.rs").replace('_', "");
    for name in ["LONGEST_SHEET", "LONGEST_PLAN", "LONGEST_LIST", "MOST_INSTANCES", "MOST_JOBS"] {
        let line = format!("{}: usize = {};", name.replace('_', ""), defined(name));
        assert!(rust.contains(&line), "{line}");
    }
    assert_eq!(defined("MOST_INSTANCES"), MAX_ENTRIES.to_string());
    assert_eq!(defined("MOST_DELAY"), MAX_DELAY.to_string());
    assert!(rust.contains(&format!("MOSTDELAY: u16 = {MAX_DELAY};")));
    assert_eq!(defined("MOST_JOBS"), MAX_JOBS.to_string());
    assert_eq!(defined("MOST_RATE"), MAX_RATE.to_string());
    assert!(rust.contains(&format!("MOSTRATE: u32 = {MAX_RATE};")));
}

#[test]
fn c_rust_and_python() {
    let output = Command::new(root().join("bindings/test")).arg(library()).output().unwrap();
    let said = String::from_utf8_lossy(&output.stdout);
    assert!(output.status.success(), "{}", String::from_utf8_lossy(&output.stderr));
    say(&format!("bindings: {}", said.trim_end().replace('\n', "; ")));
    assert_eq!(said.lines().count(), 3, "{said}");
}

/// The most that each took of a painted stack.
#[derive(Debug)]
struct Stack {
    plan: usize,
    judge: usize,
    rewrite: usize,
    late: usize,
    cost: usize,
    newer: usize,
}

/// On these sheets and lists.
fn stack(program: &PathBuf, files: &[String]) -> Stack {
    let output = Command::new(program).args(files).output().unwrap();
    let said = String::from_utf8(output.stdout).unwrap();
    let words: Vec<&str> = said.split_whitespace().collect();
    let number = |place: usize| words[place].parse().unwrap();
    let (late, cost, newer) = (number(7), number(9), number(11));
    Stack { plan: number(1), judge: number(3), rewrite: number(5), late, cost, newer }
}

#[test]
fn the_stack_stays_within_the_header_s_figures() {
    let folder = PathBuf::from(env!("CARGO_TARGET_TMPDIR")).join("stack");
    fs::create_dir_all(&folder).unwrap();
    let program = folder.join("stack");
    let mut build = Command::new("cc");
    build.args(["-O1", "-I"]).arg(root().join("include")).arg(root().join("tools/tests/c/stack.c"));
    assert!(build
        .arg(library().join("libcorrumai.a"))
        .arg("-o")
        .arg(&program)
        .status()
        .unwrap()
        .success());
    let write = |name: String, bytes: &[u8]| {
        fs::write(folder.join(&name), bytes).unwrap();
        folder.join(name).to_str().unwrap().to_string()
    };
    // Each sheet in both editions, without and with a gap.
    let both = |spec: &Spec| [spec.clone(), spec.clone().with_gap(0), spec.clone().with_gap(2)];
    let full = both(&ordinary::full());
    let mut files: Vec<String> =
        (0..full.len()).map(|place| write(format!("full-{place}"), &full[place].bytes())).collect();
    let retired = hostile::retired().into_iter().map(|(name, spec, _)| (name, spec));
    for (place, (_, spec)) in
        hostile::sheets().iter().chain(&retired.collect::<Vec<_>>()).enumerate()
    {
        for (way, spec) in both(spec).iter().enumerate() {
            files.push(write(format!("{place}-{way}.sheet"), &spec.bytes()));
        }
    }
    for (place, (_, spec, list)) in hostile::lists().iter().enumerate() {
        let list = write(format!("{place}.list"), list);
        for (way, spec) in both(spec).iter().enumerate() {
            let sheet = write(format!("{place}-{way}-list.sheet"), &spec.bytes());
            files.push(format!("{sheet},{list}"));
        }
    }
    let example =
        |name: &str| vec![root().join("examples").join(name).to_str().unwrap().to_string()];
    let (p1, wood, full, any) = (
        stack(&program, &example("p1.sheet")),
        stack(&program, &example("wood-server.sheet")),
        stack(&program, &files[..full.len()]),
        stack(&program, &files),
    );
    say(&format!(
        "stack, bytes: plan {} for P1, {} for the wood, {} for 32 jobs of 8, {} at most; judge {}, rewriting {}, late starts {}, cost {}, which sheet counts {} at most",
        p1.plan, wood.plan, full.plan, any.plan, any.judge, any.rewrite, any.late, any.cost, any.newer
    ));
    let most = |name: &str| defined(name).parse::<usize>().unwrap();
    for ordinary in [p1, wood, full] {
        assert!(ordinary.plan <= most("STACK_PLAN_ORDINARY"), "{ordinary:?}");
    }
    assert!(any.plan > 1_000 && any.plan <= most("STACK_PLAN"), "{any:?}");
    assert!(any.judge > 1_000 && any.judge <= most("STACK_JUDGE"), "{any:?}");
    assert!(any.rewrite > 100 && any.rewrite <= most("STACK_REWRITE"), "{any:?}");
    assert!(any.late > 1_000 && any.late <= most("STACK_LATE"), "{any:?}");
    assert!(any.cost > 1_000 && any.cost <= most("STACK_COST"), "{any:?}");
    assert!(any.newer > 100 && any.newer <= most("STACK_NEWER"), "{any:?}");
}
