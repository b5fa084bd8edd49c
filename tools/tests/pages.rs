//! The pages of docs/ that show what the command says are right, block by block.

mod common;

use common::{command, fenced, file, proved, root, shell_words, text};
use corrumai_tools::decode::decode;
use corrumai_tools::encode::encode;
use corrumai_tools::explain::{self, Context};
use corrumai_tools::list;
use corrumai_tools::model::Edition;
use corrumai_tools::notation::{parse, print, read};
use corrumai_tools::note::render;
use corrumai_tools::warnings::of;
use std::fs;

fn page(name: &str) -> String {
    text(&format!("docs/{name}"))
}

/// The blocks of one kind.
fn blocks(page: &str, kind: &str) -> Vec<String> {
    let of_kind = fenced(page).into_iter().filter(|(found, _)| found == kind);
    of_kind.map(|(_, block)| block).collect()
}

/// The bytes of a block in hexadecimal; words behind three spaces are no bytes.
fn hex(block: &str) -> Vec<u8> {
    let lines = block.lines().map(|line| line.split("   ").next().unwrap());
    let digits = lines.flat_map(str::split_whitespace);
    digits.map(|byte| u8::from_str_radix(byte, 16).unwrap()).collect()
}

#[test]
fn notation() {
    let page = page("NOTATION.md");
    let sheets = blocks(&page, "sheet");
    assert_eq!(sheets.len(), 2);
    let due = blocks(&page, "bytes").concat();
    assert_eq!(encode(&parse(sheets[0].as_bytes()).unwrap()), hex(&due));
    let errors = parse(sheets[1].as_bytes()).unwrap_err();
    let said = render("wrong.txt", sheets[1].as_bytes(), "error", &errors);
    assert_eq!(blocks(&page, "errors"), [said]);
    let second = blocks(&page, "sheet-2").concat();
    let (sheet, source) = read(second.as_bytes()).unwrap();
    assert_eq!(sheet.edition, Edition::Two { gap: 2, revision: 7 });
    assert_eq!((sheet.jobs[1].release, of(&sheet, Some(&source))), (120, vec![]));
    for (text, warnings) in [("slip", "warnings"), ("pasted", "pasted-warnings")] {
        let slip = blocks(&page, text).concat();
        let (sheet, source) = read(slip.as_bytes()).unwrap();
        let notes = of(&sheet, Some(&source));
        let said = render(&format!("{text}.txt"), slip.as_bytes(), "warning", &notes);
        assert_eq!(blocks(&page, warnings), [said]);
    }
    retired(&page);
}

/// A retired job: as if it were not in the sheet, without a warning, and as bounds once it is printed.
fn retired(page: &str) {
    let text = blocks(page, "retired").concat();
    let (sheet, source) = read(text.as_bytes()).unwrap();
    assert_eq!(of(&sheet, Some(&source)), []);
    let printed = print(&sheet);
    let job = printed.split("\n\n").find(|part| part.starts_with("job 9 ")).unwrap();
    assert_eq!(blocks(page, "retired-text"), [format!("{job}\n")]);
    let planned = |bytes: &[u8]| proved().plan(bytes, 1_024);
    let present = parse(text.replace(" retired", "").as_bytes()).unwrap();
    assert_eq!(planned(&encode(&present)).0.to_string(), "ANSWER 20 1");
    let mut without = present;
    without.jobs.remove(0);
    let due = planned(&encode(&without));
    assert_eq!((due.0.number, planned(&encode(&sheet))), (0, due));
}

#[test]
fn format() {
    let page = page("FORMAT.md");
    let bytes = |name: &str| fs::read(root().join("examples").join(name)).unwrap();
    assert_eq!(hex(&blocks(&page, "hex").concat()), bytes("p1.sheet"));
    assert_eq!(hex(&blocks(&page, "hex-2").concat()), bytes("p1-edition2.sheet"));
    assert_eq!(hex(&blocks(&page, "list-hex").concat()), bytes("p1.list"));
}

/// What `explain` says of the sheet, and of the list if there is one, behind its first line.
fn explained(sheet: &str, is_text: bool, list: Option<&(String, String)>, room: usize) -> String {
    let (bytes, source) = match is_text {
        true => {
            let (sheet, source) = read(sheet.as_bytes()).unwrap();
            (encode(&sheet), Some((sheet, source)))
        }
        false => (hex(sheet), None),
    };
    let decoded = decode(&bytes).ok();
    let sheet = source.as_ref().map(|(sheet, _)| sheet).or(decoded.as_ref());
    let context = Context { sheet, source: source.as_ref().map(|(_, source)| source), start: None };
    let explanation = match list {
        None => explain::plan(&bytes, room, &proved()),
        Some((kind, text)) => {
            let parsed = |text: &str| list::parse(sheet.unwrap(), text.as_bytes()).unwrap();
            let list = match kind.as_str() {
                "list" => list::encode(sheet.unwrap(), &parsed(text)),
                _ => hex(text),
            };
            explain::judge(&bytes, &list, &proved())
        }
    };
    let text = explanation.text(&context);
    text.split_once("\n\n").unwrap().1.to_string()
}

/// What `sheet to-edition1` says of the sheet.
fn sent_back(sheet: &str) -> String {
    let file = file("page.txt", sheet.as_bytes());
    let (out, said, status) = command(&["sheet", "to-edition1", &file]);
    assert!(out.is_empty() && status == 1, "{said}");
    said + "\n"
}

/// What the command, `late` or `cost`, says of sheet, list and numbers, before which there may be an option.
fn tried(sheet: &str, list: &str, call: &str) -> String {
    let files = [file("page.txt", sheet.as_bytes()), file("page.run", list.as_bytes())];
    let (options, numbers): (Vec<&str>, Vec<&str>) =
        call.split(' ').partition(|word| word.starts_with(|c: char| !c.is_ascii_digit()));
    let (out, said, _) = command(&[options, vec![&files[0], &files[1]], numbers].concat());
    let warnings = said.find("corrumai: ").unwrap_or(said.len());
    String::from_utf8(out).unwrap() + &said[warnings..]
}

/// What `newer` says of two sheets.
fn chosen(first: &str, second: &str) -> String {
    let names = ["first.txt", "second.txt"];
    let files = [file(names[0], first.as_bytes()), file(names[1], second.as_bytes())];
    let (out, said, _) = command(&["newer", &files[0], &files[1]]);
    let said = names.iter().zip(&files).fold(said, |said, (name, file)| said.replace(file, name));
    let warnings = said.find("corrumai: ").unwrap_or(said.len());
    String::from_utf8(out).unwrap() + &said[warnings..]
}

/// Each answer has its section, with a sheet that gets it and what is said of that sheet.
#[test]
fn refusals() {
    let page = page("REFUSALS.md");
    let (mut sheet, mut list, mut before) = (None, None, None);
    let mut answers = Vec::new();
    let number = |said: &str| {
        let word = said.split([' ', '\n']).nth(1);
        word.unwrap().parse::<u8>().unwrap()
    };
    for (kind, block) in fenced(&page) {
        match kind.split(' ').next().unwrap() {
            "sheet" | "hex" => (before, sheet, list) = (sheet, Some((kind, block)), None),
            "list" | "list-hex" => list = Some((kind, block)),
            "explain" => {
                let (kind, text) = sheet.as_ref().expect("a sheet comes first");
                let room = kind.strip_prefix("sheet buffer ").map_or(1_024, |n| n.parse().unwrap());
                let due = explained(text, kind.starts_with("sheet"), list.as_ref(), room);
                assert_eq!(block, due);
                answers.push(number(&due));
            }
            "late" | "cost" => {
                let (Some((_, sheet)), Some((_, list))) = (&sheet, &list) else {
                    panic!("a sheet and a list come first")
                };
                let due = tried(sheet, list, &kind);
                assert_eq!(block, due);
                let refused = due.starts_with("ANSWER").then(|| number(&due));
                answers.extend(refused.filter(|number| *number != 0));
            }
            "newer" => {
                let (Some((_, first)), Some((_, second))) = (&before, &sheet) else {
                    panic!("two sheets come first")
                };
                let due = chosen(first, second);
                assert_eq!(block, due);
                answers.extend(due.starts_with("ANSWER").then(|| number(&due)));
            }
            "to-edition1" => {
                let due = sent_back(&sheet.as_ref().expect("a sheet comes first").1);
                assert_eq!(block, due);
                answers.push(number(&due));
            }
            _ => panic!("a block '{kind}'"),
        }
    }
    answers.dedup();
    assert_eq!(answers, [0, 1, 10, 11, 12, 13, 14, 20, 21, 22, 30, 40, 41, 50, 51, 56]);
    let known: Vec<u8> = corrumai_tools::answers::ROWS.iter().map(|row| row.number).collect();
    assert_eq!(answers, known);
}

/// The pages, by their paths in the repository.
fn pages() -> Vec<String> {
    let files = fs::read_dir(root().join("docs")).unwrap();
    let names = files.map(|file| file.unwrap().file_name().into_string().unwrap());
    let docs = names.filter(|name| name.ends_with(".md")).map(|name| format!("docs/{name}"));
    docs.chain(["README.md", "CHANGELOG.md"].map(String::from)).collect()
}

/// The name by which a link leads to a heading: small letters, `-` for a space, no other signs.
fn anchor(heading: &str) -> String {
    let kept = |c: &char| c.is_alphanumeric() || " -_".contains(*c);
    heading.to_lowercase().chars().filter(kept).collect::<String>().replace(' ', "-")
}

/// Whether the page has a heading of this name.
fn has_heading(page: &str, name: &str) -> bool {
    let heading =
        |line: &str| line.starts_with('#').then(|| anchor(line.trim_start_matches('#').trim()));
    page.lines().filter_map(heading).any(|found| found == name)
}

/// Every page is linked from the front page.
#[test]
fn the_front_page_links_every_document() {
    let front = text("README.md");
    for name in pages().iter().filter(|name| *name != "README.md") {
        assert!(front.contains(&format!("({name})")), "{name} is not linked");
    }
}

/// Every link of a page leads to a file, and to a heading if it names one.
#[test]
fn every_link_of_a_page_leads_somewhere() {
    for name in pages() {
        let page = text(&name);
        let folder = name.rsplit_once('/').map_or("", |(folder, _)| folder);
        for link in page.split("](").skip(1).map(|rest| rest.split(')').next().unwrap()) {
            let (path, heading) = link.split_once('#').unwrap_or((link, ""));
            let path = if path.is_empty() { name.clone() } else { format!("{folder}/{path}") };
            let path = path.trim_start_matches('/');
            assert!(root().join(path).is_file(), "{name}: {link}");
            assert!(heading.is_empty() || has_heading(&text(path), heading), "{name}: {link}");
        }
    }
}

/// What the page of the commands shows of a late start, of a bill and of two sheets is what the command prints.
#[test]
fn the_late_start_bill_and_choice_of_the_commands_page() {
    let page = page("COMMANDS.md");
    for call in ["late --follow examples/p1.txt ", "cost --each ", "newer "] {
        let (_, shown) = page.split_once(&format!("\n$ bin/corrumai {call}")).unwrap();
        let mut lines = shown.split("\n```").next().unwrap().lines();
        let words = shell_words(&(call.to_string() + lines.next().unwrap()));
        let out = command(&words.iter().map(String::as_str).collect::<Vec<&str>>()).0;
        let out = String::from_utf8(out).unwrap();
        // The reason, which is to standard error, stands below the answer.
        let due: Vec<&str> = lines.take_while(|line| !line.starts_with("corrumai: ")).collect();
        assert_eq!(out.lines().collect::<Vec<&str>>(), due);
    }
}

/// The page of changes begins with this version, and has each version once, the later ones first.
#[test]
fn the_changes_are_of_this_version() {
    let page = text("CHANGELOG.md");
    let version = |line: &str| line.strip_prefix("## ")?.split(" - ").next().map(String::from);
    let is_number = |version: &String| version.starts_with(|c: char| c.is_ascii_digit());
    let versions: Vec<String> = page.lines().filter_map(version).filter(is_number).collect();
    assert_eq!(versions[0], text("VERSION").trim_end());
    let number = |version: &String| {
        Vec::from_iter(version.split('.').map(|part| part.parse::<u32>().unwrap()))
    };
    assert!(versions.windows(2).all(|two| number(&two[0]) > number(&two[1])), "{versions:?}");
}

/// The table of crates has each crate once.
#[test]
fn every_crate_is_in_the_table() {
    let page = page("ARCHITECTURE.md");
    let table = page.split("\n## The crates\n").nth(1).unwrap().split("\n## ").next().unwrap();
    let rows = table.lines().filter(|line| line.starts_with("| `"));
    let cells = rows.map(|line| line.split('|').nth(1).unwrap());
    let mut named: Vec<&str> = cells.flat_map(|cell| cell.split('`').skip(1).step_by(2)).collect();
    let listed = text("crates.txt");
    let listed = listed.lines().filter(|line| !line.starts_with('#'));
    // A name may have `staticlib` behind it.
    let mut due: Vec<&str> = listed.filter_map(|line| line.split([':', ' ']).next()).collect();
    named.sort_unstable();
    due.sort_unstable();
    assert_eq!(named, due);
}

/// The command's help names no page that is not there.
#[test]
fn help_names_pages_that_exist() {
    let help = String::from_utf8(command(&["--help"]).0).unwrap();
    for word in help.split_whitespace().filter(|word| word.starts_with("docs/")) {
        let path = word.trim_end_matches(|c: char| !c.is_alphanumeric());
        assert!(root().join(path).exists(), "{path}");
    }
}
