//! Mistakes that people make in sheets, each as a file with the words that the command says of it; and the
//! ties of the wood, each taken out in turn.

mod common;

use common::{command, root};
use corrumai_tests::cases::examples;
use corrumai_tools::encode::encode;
use corrumai_tools::notation::read;
use corrumai_tools::warnings;
use std::fs;
use std::path::{Path, PathBuf};

/// The mistakes, by name, with the text and what is expected of it.
fn mistakes() -> Vec<(String, PathBuf, PathBuf)> {
    let folder = root().join("tools/tests/mistakes");
    let files = fs::read_dir(folder).unwrap().map(|file| file.unwrap().path());
    let texts = files.filter(|path| path.extension().is_some_and(|end| end == "txt"));
    let with_said = |path: PathBuf| {
        let name = path.file_stem().unwrap().to_str().unwrap().to_string();
        (name, path.clone(), path.with_extension("said"))
    };
    texts.map(with_said).collect()
}

/// What `sheet check` says of the file, with the file's name alone.
fn said(path: &Path) -> (String, u8) {
    let file = path.to_str().unwrap();
    let (out, aside, status) = command(&["sheet", "check", file]);
    assert!(out.is_empty());
    let folder = format!("{}/", path.parent().unwrap().display());
    (aside.replace(&folder, ""), status)
}

/// With CORRUMAI_WRITE_SAID the files are written anew, to be read before they are kept.
#[test]
fn each_mistake_is_met_with_the_right_words() {
    let all = mistakes();
    assert!(all.len() >= 48, "{}", all.len());
    for (name, text, expected) in all {
        let (said, status) = said(&text);
        if std::env::var_os("CORRUMAI_WRITE_SAID").is_some() {
            fs::write(&expected, &said).unwrap();
        }
        assert_eq!(said, fs::read_to_string(&expected).unwrap(), "{name}");
        assert_eq!(status == 1, said.contains(" error: "), "{name}");
        let strict = command(&["sheet", "check", "--strict", text.to_str().unwrap()]).2;
        assert_eq!(strict == 0, said.is_empty(), "{name}");
    }
}

/// What the command says of these bytes on standard error.
fn aside(words: &[&str], bytes: &[u8]) -> String {
    let file = PathBuf::from(env!("CARGO_TARGET_TMPDIR")).join("in-bytes.sheet");
    fs::write(&file, bytes).unwrap();
    let file = file.to_str().unwrap();
    command(&[words, &[file]].concat()).1.replace(file, "old.sheet")
}

/// A sheet as rewriting wrote it before 0.4.0 is named in bytes too, by those who look into sheets; no other is.
#[test]
fn a_gap_that_once_meant_another() {
    let p1 = || examples::p1(9);
    let old = p1().with_gap(0).bytes();
    let due = "old.sheet: warning: no gap is said, so it is the default, 2 min; before 0.4.0 that was 1 min, \
               and sheets rewritten from edition 1 then say none\n   = if it was rewritten then, write 'gap 1' \
               (in bytes: 1 in byte 29); if 2 min are meant, write 'gap 2'\n";
    for words in [&["explain"][..], &["sheet", "check"]] {
        assert_eq!(aside(words, &old), due, "{words:?}");
        let others = [
            p1(),
            p1().with_gap(1),
            p1().with_gap(2),
            p1().revised(0, 1),
            p1().with_gap(0).released(&[0, 1]),
        ];
        for other in others {
            assert_eq!(aside(words, &other.bytes()), "", "{words:?} {other:?}");
        }
    }
}

fn wood() -> String {
    fs::read_to_string(root().join("examples/wood.txt")).unwrap()
}

/// The text without each of its ties in turn: where events stand, and bounds of their own.
fn without_each_tie(text: &str) -> Vec<(String, String)> {
    let lines: Vec<&str> = text.lines().collect();
    let mut texts = Vec::new();
    for (number, line) in lines.iter().enumerate() {
        let code = line.split('#').next().unwrap().trim_end();
        let shorter = match code {
            _ if code.trim_start().starts_with("from ") => "".to_string(),
            _ if code.ends_with("at end") || code.ends_with("at start") => {
                code[..code.rfind(" at ").unwrap()].to_string()
            }
            _ if code.ends_with("after end") => {
                let minutes = code[..code.rfind(" min after").unwrap()].rfind(' ').unwrap();
                code[..minutes].to_string()
            }
            _ => continue,
        };
        let mut other = lines.clone();
        other[number] = &shorter;
        texts.push((code.to_string(), other.join("\n")));
    }
    texts
}

#[test]
fn the_wood_has_no_warning() {
    let (sheet, source) = read(wood().as_bytes()).unwrap();
    assert_eq!(warnings::of(&sheet, Some(&source)), []);
}

#[test]
fn the_wood_without_any_one_of_its_ties_has_one() {
    let texts = without_each_tie(&wood());
    assert_eq!(texts.len(), 17);
    for (tie, text) in texts {
        let (sheet, source) = read(text.as_bytes()).unwrap_or_else(|e| panic!("{tie}: {e:?}"));
        let notes = warnings::of(&sheet, Some(&source));
        assert!(!notes.is_empty(), "no warning without '{tie}'");
    }
}

/// Without its length a job has no start and no end.
#[test]
fn the_wood_without_a_length_is_refused() {
    let wood = wood();
    let lengths: Vec<&str> = wood.lines().filter(|line| line.starts_with("job ")).collect();
    assert_eq!(lengths.len(), 10);
    for line in lengths {
        let shorter = &line[..line.find(" takes ").unwrap()];
        let errors = read(wood.replacen(line, shorter, 1).as_bytes()).unwrap_err();
        assert!(errors[0].message.ends_with("does not say how long it takes"), "{errors:?}");
    }
}

/// The wood as it was written before there was `takes`: the same bytes as then, the same plan, and no tie can
/// be taken out that changes the plan without a warning.
#[test]
fn the_wood_of_plain_bounds() {
    let path = root().join("tools/tests/texts/wood-of-plain-bounds.txt");
    let text = fs::read_to_string(&path).unwrap();
    let plan = |file: &str| String::from_utf8(command(&["plan", file]).0).unwrap();
    let wood = root().join("examples/wood.txt");
    assert_eq!(plan(path.to_str().unwrap()), plan(wood.to_str().unwrap()));
    let (sheet, _) = read(text.as_bytes()).unwrap();
    assert_eq!(encode(&sheet), fs::read(path.with_extension("sheet")).unwrap());
    let count = |text: &str| {
        let (sheet, source) = read(text.as_bytes()).unwrap();
        warnings::of(&sheet, Some(&source)).len()
    };
    // The map that nobody wants.
    assert_eq!(count(&text), 1);
    let file = PathBuf::from(env!("CARGO_TARGET_TMPDIR")).join("without-a-tie.txt");
    let (mut warned, mut changed) = (0, 0);
    for (tie, text) in without_each_tie(&text) {
        fs::write(&file, &text).unwrap();
        let other = plan(file.to_str().unwrap()) != plan(path.to_str().unwrap());
        assert!(!other || count(&text) > 1, "another plan without a word: {tie}");
        warned += usize::from(count(&text) > 1);
        changed += usize::from(other);
    }
    assert_eq!((warned, changed), (29, 28));
}
