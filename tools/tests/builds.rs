//! What the scripts of bin/ build, keep and use, in a small repository whose `rt` and `cargo` only count how often they are called.

mod common;

use common::root;
use std::env;
use std::fs;
use std::os::unix::fs::{symlink, PermissionsExt};
use std::path::{Path, PathBuf};
use std::process::{self, Command, Stdio};
use std::thread::sleep;
use std::time::Duration;

/// Proves nothing: writes a program that prints the first crate's source, or a library that holds it. `rt ci` writes the program, and
/// leaves the libraries that the kit's compiler takes. No file here ends in .rt: the kit would miss it in crates.txt.
const RT: &str = "\
#!/bin/sh
case $PWD in */crates/*) cd ../.. ;; esac
[ \"$1\" != doc ] || { echo \"$PWD/kit/START-HERE.md\"; exit 0; }
echo \"$*\" >>calls
[ \"$1\" != version ] || { echo 'kit 1'; exit 0; }
grep -q broken crates/one/src/code && { echo 'rt: one NOT PROVED'; exit 1; }
[ \"$1\" != ci ] || { rm -rf crates/*/out/*; mkdir -p crates/one/out/rlib/one.rlib; }
echo 'rt: one proved'
if [ \"$1\" = lib ]; then
  cp crates/one/src/code crates/corrumai/out/libcorrumai.a
  echo 'crate corrumai: modules loaded=1 checked=2'
else
  printf '#!/bin/sh\\ncat >/dev/null\\necho PLAN %s\\n' \"$(cat crates/one/src/code)\" >crates/runlist/out/runlist
  chmod +x crates/runlist/out/runlist
  echo 'crate runlist: modules loaded=1 checked=2'
fi
";

/// The kit's compiler: writes the library as `rt lib` does.
const RATTLE: &str = "\
#!/bin/sh
cd ../..
echo \"rattle $1\" >>calls
cp crates/one/src/code crates/corrumai/out/libcorrumai.a
";

/// Compiles nothing: writes a program that says where its library stands.
const CARGO: &str = "\
#!/bin/sh
echo \"cargo $1\" >>calls
mkdir -p tools/target/debug
printf '#!/bin/sh\\necho linked with %s\\n' \"${CORRUMAI_LIB_DIR#$PWD/}\" >tools/target/debug/corrumai
chmod +x tools/target/debug/corrumai
";

/// The commands that the scripts and the stand-ins above may call: neither `rt` nor `cargo` is among them.
const PLAIN: &str = "awk bash cat chmod cmp cp cut env find flock grep head install mkdir mktemp mv readlink rm sed sh \
                     sha256sum sort tail tee tr uname xargs";

struct Small {
    folder: PathBuf,
}

impl Small {
    fn new(name: &str) -> Small {
        // Outside this repository: `rt ci` takes a crates.txt below its top for one too many.
        let folder = env::temp_dir().join(format!("corrumai-builds-{}-{name}", process::id()));
        let _ = fs::remove_dir_all(&folder);
        let folders = [
            "bin",
            "tools/src",
            "crates/one/src",
            "crates/one/specs",
            "crates/one/out",
            "crates/runlist/out",
            "crates/corrumai/out",
            "kit/bin",
            "include",
            "plain",
        ];
        for part in folders {
            fs::create_dir_all(folder.join(part)).unwrap();
        }
        let files = [
            "bin/corrumai",
            "bin/runlist",
            "bin/prove",
            "tools/archive",
            "tools/ready",
            "tools/progress",
            "tools/build.rs",
            "tools/Cargo.toml",
            "tools/Cargo.lock",
            "include/corrumai.h",
        ];
        for file in files {
            fs::copy(root().join(file), folder.join(file)).unwrap();
        }
        for name in PLAIN.split_whitespace() {
            let places = ["/usr/bin", "/bin"].map(|place| Path::new(place).join(name));
            let place = places.iter().find(|place| place.is_file());
            symlink(place.unwrap_or_else(|| panic!("{name}")), folder.join("plain").join(name))
                .unwrap();
        }
        let small = Small { folder };
        small.write_at("crates.txt", "one:\nrunlist: one\ncorrumai staticlib: one\n");
        small.write_program("kit/rt", RT);
        small.write_program("kit/bin/rattle", RATTLE);
        small.write_program("kit/cargo", CARGO);
        small.write("first");
        small
    }

    fn write_at(&self, name: &str, text: &str) {
        fs::write(self.folder.join(name), text).unwrap();
    }

    fn write_program(&self, name: &str, text: &str) {
        self.write_at(name, text);
        let mode = fs::Permissions::from_mode(0o755);
        fs::set_permissions(self.folder.join(name), mode).unwrap();
    }

    /// Writes the source of the first crate.
    fn write(&self, text: &str) {
        self.write_at("crates/one/src/code", text);
    }

    /// What a command of bin/ says, on both outputs, and its status, with or without `rt` and `cargo`.
    fn run(&self, name: &str, words: &[&str], has_kit: bool) -> (String, Option<i32>) {
        self.run_with(name, words, if has_kit { &["kit", "plain"] } else { &["plain"] })
    }

    /// The same with the commands of these folders alone.
    fn run_with(&self, name: &str, words: &[&str], folders: &[&str]) -> (String, Option<i32>) {
        let folders = folders.iter().map(|part| self.folder.join(part));
        let mut command = Command::new(self.folder.join("bin").join(name));
        command.args(words).env("PATH", env::join_paths(folders).unwrap()).stdin(Stdio::null());
        let output = command.output().unwrap();
        let said =
            String::from_utf8_lossy(&output.stdout) + String::from_utf8_lossy(&output.stderr);
        (said.into_owned(), output.status.code())
    }

    fn runlist(&self, has_kit: bool) -> (String, Option<i32>) {
        self.run("runlist", &[], has_kit)
    }

    /// The commands that a script calls, in order, and what it says.
    fn called_by(&self, name: &str) -> (Vec<String>, (String, Option<i32>)) {
        let log = self.folder.join("called");
        let _ = fs::remove_file(&log);
        fs::create_dir_all(self.folder.join("noted")).unwrap();
        for command in PLAIN.split_whitespace() {
            let (log, plain) = (log.display(), self.folder.join("plain").join(command));
            let text =
                format!("#!/bin/sh\necho {command} >>{log}\nexec {} \"$@\"\n", plain.display());
            self.write_program(&format!("noted/{command}"), &text);
        }
        let said = self.run_with(name, &[], &["noted"]);
        let log = fs::read_to_string(&log).unwrap_or_default();
        (log.lines().map(str::to_string).collect(), said)
    }

    /// How often `rt` was called with these words.
    fn calls(&self, words: &str) -> usize {
        let calls = fs::read_to_string(self.folder.join("calls")).unwrap_or_default();
        calls.lines().filter(|line| *line == words).count()
    }

    /// How often the library was built.
    fn libraries(&self) -> usize {
        self.calls("lib corrumai") + self.calls("rattle build")
    }

    fn forget_the_build(&self) {
        let _ = fs::remove_dir_all(self.folder.join("target"));
        for file in ["crates/runlist/out/runlist", "crates/corrumai/out/libcorrumai.a"] {
            let _ = fs::remove_file(self.folder.join(file));
        }
    }

    fn kept(&self, name: &str) -> PathBuf {
        self.folder.join("dist").join(name)
    }
}

impl Drop for Small {
    fn drop(&mut self) {
        let _ = fs::remove_dir_all(&self.folder);
    }
}

fn planned(text: &str) -> (String, Option<i32>) {
    (format!("PLAN {text}\n"), Some(0))
}

#[test]
fn a_stale_build_is_noticed() {
    let small = Small::new("stale");
    let (said, status) = small.runlist(false);
    assert!(said.contains("is not that of the sources, and the command 'rt' is missing"), "{said}");
    assert_eq!((status, small.calls("run runlist")), (Some(2), 0));
    let (said, status) = small.runlist(true);
    assert!(
        said.starts_with("PLAN first\n") && said.contains("building crates/runlist/out/runlist"),
        "{said}"
    );
    assert!(said.contains("runlist: crate 1 of 2, proving one\n"), "{said}");
    assert!(said.contains("runlist: crate 2 of 2, proving runlist\n"), "{said}");
    assert_eq!((status, small.calls("run runlist")), (Some(0), 1));
    // Nothing has changed: no build, and `rt` is not even needed.
    assert_eq!(small.runlist(false), planned("first"));
    // A new date alone is no change.
    small.write("first");
    assert_eq!(small.runlist(false), planned("first"));
    // The same length, and another text.
    small.write("other");
    let (said, status) = small.runlist(false);
    assert!(said.contains("is not that of the sources"), "{said}");
    assert_eq!(status, Some(2));
    assert_eq!(small.runlist(true).1, Some(0));
    assert_eq!(small.calls("run runlist"), 2);
    // What is not proved is not run, and what the prover said is shown.
    small.write("broken");
    let (said, status) = small.runlist(true);
    assert!(
        said.contains("one NOT PROVED") && said.contains("the build failed: rt run runlist"),
        "{said}"
    );
    assert_eq!(status, Some(2));
}

/// Proofs leave the bytes as they are; a file that is no longer what was built is built again.
#[test]
fn code_and_what_was_built_are_looked_at() {
    let small = Small::new("looked");
    assert_eq!(small.runlist(true).1, Some(0));
    small.write_at("crates/one/specs/laws", "a law");
    assert_eq!(small.runlist(false), planned("first"));
    let built = small.folder.join("crates/runlist/out/runlist");
    let forged = fs::read_to_string(&built).unwrap().replace("first", "forged");
    fs::write(&built, forged).unwrap();
    let (said, status) = small.runlist(false);
    assert!(said.contains("is not that of the sources") && status == Some(2), "{said}");
    assert_eq!(small.runlist(true).1, Some(0));
    assert_eq!(small.runlist(false), planned("first"));
    // A file more, a file less, and a crate more.
    small.write_at("crates/one/src/more", "more");
    assert_eq!(small.runlist(false).1, Some(2));
    fs::remove_file(small.folder.join("crates/one/src/more")).unwrap();
    assert_eq!(small.runlist(false), planned("first"));
    fs::create_dir_all(small.folder.join("crates/two/src")).unwrap();
    small.write_at("crates/two/src/code", "two");
    assert_eq!(small.runlist(false).1, Some(2));
}

/// What another repository built, and noted as seen, is not taken for that of these sources.
#[test]
fn a_copied_build_is_not_believed() {
    let (one, other) = (Small::new("copied-from"), Small::new("copied-to"));
    other.write("other");
    assert_eq!(one.runlist(true).1, Some(0));
    sleep(Duration::from_millis(2_100));
    assert_eq!(one.runlist(false), planned("first"));
    for (part, place) in [("target", ""), ("crates/runlist/out", "crates/runlist")] {
        let mut copy = Command::new("cp");
        copy.arg("-r").arg(one.folder.join(part)).arg(other.folder.join(place));
        assert!(copy.status().unwrap().success());
    }
    // The note comes last, so that its date is above all others.
    sleep(Duration::from_millis(50));
    let note = "target/built/runlist.seen";
    fs::copy(one.folder.join(note), other.folder.join(note)).unwrap();
    let (said, status) = other.runlist(false);
    assert!(said.contains("is not that of the sources") && status == Some(2), "{said}");
    other.write("first");
    assert_eq!(other.runlist(false), planned("first"));
}

/// Where nothing has changed, a command calls `find` once, and nothing else but its program.
#[test]
fn a_command_that_is_ready_calls_one_other() {
    let small = Small::new("called");
    for name in ["corrumai", "runlist"] {
        assert_eq!(small.run(name, &[], true).1, Some(0));
        // What has changed within the last second is looked at again.
        sleep(Duration::from_millis(2_100));
        assert_eq!(small.run(name, &[], false).1, Some(0));
    }
    let (called, said) = small.called_by("corrumai");
    assert_eq!(said, ("linked with crates/corrumai/out\n".to_string(), Some(0)));
    assert_eq!(called, ["bash", "find"]);
    let (called, said) = small.called_by("runlist");
    assert_eq!(said, planned("first"));
    // The last is the stand-in's own.
    assert!(called.iter().all(|name| ["bash", "find", "head", "cat"].contains(&name.as_str())));
    assert_eq!(called.len(), 4, "{called:?}");
}

/// The command needs `cargo` where it is not built yet, and not the kit where dist/ fits.
#[test]
fn the_command_is_linked_with_what_is_kept() {
    let small = Small::new("linked");
    let (said, status) = small.run("corrumai", &[], false);
    assert!(said.contains("and the command 'rt' is missing") && status == Some(2), "{said}");
    assert_eq!(small.run("prove", &["--refresh"], true).1, Some(0));
    small.forget_the_build();
    let (said, status) = small.run("corrumai", &[], false);
    assert!(said.contains("tools/target/debug/corrumai is not that of the sources"), "{said}");
    assert!(said.contains("the command 'cargo' is missing") && status == Some(2), "{said}");
    let (said, status) = small.run("corrumai", &[], true);
    assert!(said.starts_with("linked with dist\n") && status == Some(0), "{said}");
    assert_eq!((small.calls("cargo build"), small.libraries()), (1, 1));
    assert_eq!(small.run("corrumai", &[], false).0, "linked with dist\n");
    small.write_at("tools/src/main.rs", "other");
    assert_eq!(small.run("corrumai", &[], false).1, Some(2));
    assert_eq!(small.run("corrumai", &[], true).1, Some(0));
    // dist/ of other sources: the library is built.
    small.write("other");
    let (said, status) = small.run("corrumai", &[], true);
    assert!(said.starts_with("linked with crates/corrumai/out\n") && status == Some(0), "{said}");
    assert!(said.contains("building crates/corrumai/out/libcorrumai.a"), "{said}");
    assert_eq!((small.calls("cargo build"), small.libraries()), (3, 2));
}

/// A clone without the kit answers from dist/, as long as its sources and its bytes fit.
#[test]
fn what_is_kept_is_used_where_it_fits() {
    let small = Small::new("kept");
    let (said, status) = small.run("prove", &["--refresh"], true);
    assert_eq!(status, Some(0), "{said}");
    assert!(
        said.contains("dist/ is written anew") && said.contains("dist/ is what was proved"),
        "{said}"
    );
    small.forget_the_build();
    assert_eq!(small.runlist(false), planned("first"));
    assert_eq!(small.runlist(false), planned("first"));
    assert_eq!(small.calls("run runlist"), 0);
    assert!(!small.folder.join("crates/runlist/out/runlist").exists());
    // Other sources: dist/ is not theirs.
    small.write("other");
    let (said, status) = small.runlist(false);
    assert!(said.contains("is not that of the sources") && status == Some(2), "{said}");
    assert_eq!(small.runlist(true).0.lines().next(), Some("PLAN other"));
    // The old sources again, and a program that somebody changed.
    small.write("first");
    small.forget_the_build();
    fs::write(small.kept("runlist"), "#!/bin/sh\necho PLAN forged\n").unwrap();
    let (said, status) = small.runlist(false);
    assert!(said.contains("dist/ does not hold what its SHA256SUMS says"), "{said}");
    assert!(!said.contains("PLAN") && status == Some(2), "{said}");
    // No dist/ at all.
    fs::remove_dir_all(small.folder.join("dist")).unwrap();
    let (said, status) = small.runlist(false);
    assert!(said.contains("and the command 'rt' is missing") && status == Some(2), "{said}");
    assert_eq!(small.runlist(true).0.lines().next(), Some("PLAN first"));
}

#[test]
fn prove_compares_byte_for_byte() {
    let small = Small::new("compared");
    let (said, status) = small.run("prove", &[], false);
    assert!(said.contains("the command 'rt'") && status == Some(2), "{said}");
    let (said, status) = small.run("prove", &[], true);
    assert!(said.contains("dist/runlist differs") && status == Some(1), "{said}");
    assert_eq!(small.run("prove", &["--refresh"], true).1, Some(0));
    let (said, status) = small.run("prove", &[], true);
    assert!(said.contains("crate 2 of 3, proving runlist") && status == Some(0), "{said}");
    assert_eq!((small.calls("ci"), small.libraries()), (3, 3));
    assert_eq!(small.run("prove", &["--compare"], false).1, Some(0));
    assert_eq!(small.calls("ci"), 3);
    for name in ["runlist", "libcorrumai.a", "corrumai.h", "SOURCES", "SHA256SUMS"] {
        let kept = fs::read(small.kept(name)).unwrap();
        let mut other = kept.clone();
        other[0] ^= 1;
        fs::write(small.kept(name), other).unwrap();
        let (said, status) = small.run("prove", &["--compare"], false);
        assert!(said.contains(&format!("dist/{name}")) && status == Some(1), "{name}: {said}");
        fs::write(small.kept(name), kept).unwrap();
    }
    assert_eq!(small.run("prove", &["--compare"], false).1, Some(0));
    small.write("broken");
    let (said, status) = small.run("prove", &["--refresh"], true);
    assert!(said.contains("one NOT PROVED") && said.contains("not all is proved"), "{said}");
    assert_eq!(status, Some(1));
    for words in [&["--new"][..], &["--refresh", "x"], &["x"]] {
        assert_eq!(small.run("prove", words, true).1, Some(2), "{words:?}");
    }
}

/// The command links the library of the folder that it is told, or that of the sources.
#[test]
fn the_folder_of_the_library_is_named_once() {
    for build in ["tools/build.rs", "tests/build.rs", "bindings/rust/build.rs"] {
        let text = fs::read_to_string(Path::new(&root()).join(build)).unwrap();
        assert!(
            text.contains("CORRUMAI_LIB_DIR") && text.contains("crates/corrumai/out"),
            "{build}"
        );
    }
}
