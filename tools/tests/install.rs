//! bin/install: what it puts where, and that it works there.

mod common;

use common::root;
use std::fs;
use std::path::{Path, PathBuf};
use std::process::{Command, Output};

fn install(words: &[&str]) -> Output {
    Command::new(root().join("bin/install")).args(words).output().unwrap()
}

/// What a program prints; it goes well.
fn printed(command: &mut Command) -> String {
    let output = command.output().unwrap();
    assert!(output.status.success(), "{command:?}: {output:?}");
    String::from_utf8(output.stdout).unwrap()
}

/// The example, compiled with what pkg-config says.
fn example(prefix: &Path, name: &str) -> PathBuf {
    let mut config = Command::new("pkg-config");
    config.args(["--cflags", "--libs", "corrumai"]);
    let flags = printed(config.env("PKG_CONFIG_PATH", prefix.join("lib/pkgconfig")));
    let program = prefix.join(name);
    let mut cc = Command::new("cc");
    cc.arg(root().join(format!("examples/c/{name}.c"))).args(flags.split_whitespace());
    printed(cc.arg("-o").arg(&program));
    program
}

#[test]
fn all_is_put_in_its_place_and_works() {
    let prefix = PathBuf::from(env!("CARGO_TARGET_TMPDIR")).join("a prefix").join("of two words");
    let _ = fs::remove_dir_all(&prefix);
    let output = install(&[prefix.to_str().unwrap()]);
    assert!(output.status.success(), "{output:?}");
    let version = fs::read_to_string(root().join("VERSION")).unwrap();
    let version = version.trim_end();
    let command = prefix.join("bin/corrumai");
    assert_eq!(printed(Command::new(&command).arg("--version")), format!("corrumai {version}\n"));
    let p1 = fs::canonicalize(root().join("examples/p1.sheet")).unwrap();
    let run = fs::read_to_string(root().join("examples/p1.run")).unwrap();
    assert_eq!(printed(Command::new(&command).arg("plan").arg(&p1).current_dir("/")), run);
    for (file, source) in [
        ("include/corrumai.h", "include/corrumai.h"),
        ("share/man/man1/corrumai.1", "docs/corrumai.1"),
        ("share/doc/corrumai/LOGS.md", "docs/LOGS.md"),
        ("share/doc/corrumai/COMMANDS.md", "docs/COMMANDS.md"),
        ("share/doc/corrumai/CHANGELOG.md", "CHANGELOG.md"),
    ] {
        assert_eq!(fs::read(prefix.join(file)).unwrap(), fs::read(root().join(source)).unwrap());
    }
    let python = "import corrumai, sys; print(corrumai.plan(open(sys.argv[1], 'rb').read()).hex())";
    let mut command = Command::new("python3");
    command.args(["-B", "-c", python]).arg(&p1);
    command.env("PYTHONPATH", prefix.join("share/corrumai/python"));
    command.env("CORRUMAI_LIBRARY", prefix.join("lib/libcorrumai.so"));
    assert!(printed(&mut command).starts_with("010002000a000c00"));
}

#[test]
fn programs_are_linked_through_pkg_config() {
    let prefix = PathBuf::from(env!("CARGO_TARGET_TMPDIR")).join("prefix");
    let _ = fs::remove_dir_all(&prefix);
    assert!(install(&[prefix.to_str().unwrap()]).status.success());
    let file = |name: &str| root().join("examples").join(name);
    let plan = example(&prefix, "plan");
    assert!(printed(Command::new(plan).arg(file("p1.sheet"))).starts_with("01 00 02 00 0A 00"));
    let judge = example(&prefix, "judge");
    let said = printed(Command::new(judge).arg(file("p1.sheet")).arg(file("p1.list")));
    assert_eq!(said, "a plan\n");
}

#[test]
fn wrong_use_is_status_2() {
    for words in [&[][..], &["a", "b"], &["--help"], &[""], &["/proc/no-such"]] {
        let output = install(words);
        assert_eq!(output.status.code(), Some(2), "{words:?}");
        assert!(String::from_utf8_lossy(&output.stderr).starts_with("install: "), "{words:?}");
    }
}

/// The man page has every subcommand with its options, and the version.
#[test]
fn the_man_page_is_complete() {
    let page = fs::read_to_string(root().join("docs/corrumai.1")).unwrap();
    let plain = page.replace('\\', "");
    for command in corrumai_tools::command::COMMANDS {
        assert!(plain.contains(command.name), "{}", command.name);
        for option in command.options.iter().map(|option| option.split(' ').next().unwrap()) {
            assert!(plain.contains(option), "{option}");
        }
    }
    let version = fs::read_to_string(root().join("VERSION")).unwrap();
    assert!(page.contains(&format!("\"corrumai {}\"", version.trim_end())));
}
