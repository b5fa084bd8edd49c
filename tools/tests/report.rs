//! Reports: one file without outside resources, complete, and as a browser shows it.

mod common;

use common::{command, root};
use corrumai_tests::say;
use std::collections::BTreeSet;
use std::env;
use std::fs;
use std::path::{Path, PathBuf};
use std::process::Command;

const SHEETS: [&str; 6] = [
    "examples/wood.txt",
    "examples/march/sheet.txt",
    "examples/p3.txt",
    "examples/p5.sheet",
    "examples/p8.sheet",
    "tools/tests/mistakes/accident.txt",
];

fn report(words: &[&str]) -> (String, u8) {
    let words: Vec<&str> = [&["report"], words].concat();
    let (out, aside, status) = command(&words);
    assert_eq!(aside, "");
    (String::from_utf8(out).unwrap(), status)
}

fn path(name: &str) -> String {
    root().join(name).to_str().unwrap().to_string()
}

fn whole() -> String {
    let files: Vec<String> = SHEETS.iter().map(|name| path(name)).collect();
    let mut words = vec!["--start", "18:30"];
    words.extend(files.iter().map(String::as_str));
    let (text, status) = report(&words);
    assert_eq!(status, 1);
    text
}

/// The values of an attribute.
fn values<'a>(text: &'a str, name: &str) -> Vec<&'a str> {
    let open = format!(" {name}=\"");
    text.split(&open).skip(1).map(|rest| rest.split('"').next().unwrap()).collect()
}

#[test]
fn nothing_comes_from_outside() {
    let text = whole();
    for outside in ["<script", "<link", "<img", "<iframe", "@import", "url(", " src=", "onload"] {
        assert!(!text.contains(outside), "{outside}");
    }
    let names: Vec<&str> =
        text.match_indices("://").map(|(at, _)| &text[at - 5..at + 13]).collect();
    assert!(names.iter().all(|name| name.contains("www.w3.org")), "{names:?}");
}

#[test]
fn every_link_leads_somewhere_and_every_wide_part_has_the_focus() {
    let text = whole();
    let ids: Vec<&str> = values(&text, "id");
    let set: BTreeSet<&str> = ids.iter().copied().collect();
    assert_eq!(ids.len(), set.len(), "an id stands twice");
    let links = values(&text, "href");
    assert_eq!(links.len(), 2 * SHEETS.len());
    for target in links.iter().map(|link| link.trim_start_matches('#')) {
        assert!(set.contains(target), "{target}");
    }
    for target in values(&text, "aria-labelledby") {
        assert!(set.contains(target), "{target}");
    }
    let wide = "<div class=\"wide\" tabindex=\"0\" role=\"region\"";
    assert_eq!(text.matches("class=\"wide\"").count(), text.matches(wide).count());
    assert_eq!(
        text.matches("<svg role=\"img\" aria-label=").count(),
        text.matches("<svg ").count()
    );
}

#[test]
fn each_page_has_its_parts() {
    let text = whole();
    let pages: Vec<&str> = text.split("<section ").skip(1).collect();
    assert_eq!(pages.len(), SHEETS.len());
    for (page, name) in pages.iter().zip(SHEETS) {
        assert!(
            page.contains(&format!("{name}</h2>")) && page.contains("<h3 id=\"text-"),
            "{name}"
        );
    }
    for place in [0, 1, 5] {
        assert!(pages[place].contains("<svg ") && pages[place].contains(">Steps</caption>"));
        assert!(pages[place].contains(">The critical chain of the finish</caption>"));
    }
    assert!(pages[0].contains("<th scope=\"row\">74 (19:44)</th><td>report sets report</td>"));
    assert!(pages[0].contains("one evening&apos;s") || pages[0].contains("One evening's run"));
    for (place, why) in [(2, "past the horizon, 8"), (4, "no fact guards that")] {
        assert!(pages[place].contains(why) && !pages[place].contains("<svg "), "{}", pages[place]);
    }
    assert!(
        pages[5].contains("<h3 class=\"bad\">Warnings</h3>") && text.contains("; 1 warning</td>")
    );
    assert!(!pages[0].contains("Warnings"));
}

#[test]
fn one_sheet_needs_no_index() {
    let (text, status) = report(&[&path("examples/p1.sheet")]);
    assert_eq!(status, 0);
    assert!(
        !text.contains("<nav")
            && !text.contains("All sheets")
            && text.contains("<td>job10 sets fact1</td>")
    );
    let (text, status) = report(&[&path("examples")]);
    assert_eq!((text.matches("<section ").count(), status), (30, 1));
    let broken = PathBuf::from(env!("CARGO_TARGET_TMPDIR")).join("report.txt");
    fs::write(&broken, "fakt").unwrap();
    let (out, aside, status) = command(&["report", broken.to_str().unwrap()]);
    assert!(out.is_empty() && aside.contains("did you mean 'fact'?") && status == 1);
}

/// Names of every sign come out as they are.
#[test]
fn names_are_no_markup() {
    let sheet =
        "horizon 9 min\nfact \"<script>alert(1)</script>&'\" goal\njob 1 \"<b>\" takes 1 min\n  \
                 set \"<script>alert(1)</script>&'\" at end\n  need \"<i>\" \n";
    let sheet = sheet.replace("horizon 9 min\n", "horizon 9 min\nfact \"<i>\" initial\n");
    let file = PathBuf::from(env!("CARGO_TARGET_TMPDIR")).join("markup<&>.txt");
    fs::write(&file, sheet).unwrap();
    let (text, status) = report(&[file.to_str().unwrap()]);
    assert_eq!(status, 0);
    assert!(!text.contains("<script") && !text.contains("<b>") && !text.contains("<i>"));
    assert!(text.contains("&lt;script&gt;alert(1)"));
}

fn has_browser() -> bool {
    let folders = env::var_os("PATH").unwrap_or_default();
    let mut folders = env::split_paths(&folders);
    folders.any(|folder| folder.join("chromium").is_file())
}

fn browser(words: &[&str]) -> Vec<u8> {
    let output = Command::new(root().join("tools/browser")).args(words).output().unwrap();
    assert!(output.status.success(), "{}", String::from_utf8_lossy(&output.stderr));
    output.stdout
}

fn written(name: &str) -> PathBuf {
    let file = PathBuf::from(env!("CARGO_TARGET_TMPDIR")).join(name);
    fs::write(&file, "").unwrap();
    file
}

fn pixels(file: &Path) -> Vec<u8> {
    fs::read(file).unwrap()
}

/// Where there is a browser; `tools/browser install` installs one.
#[test]
fn a_browser_shows_the_steps() {
    if !has_browser() {
        return say("report: there is no chromium on this machine, so that no browser opened it");
    }
    let page = written("report.html");
    fs::write(&page, whole()).unwrap();
    let page = page.to_str().unwrap();
    let shown = String::from_utf8(browser(&["dump", page])).unwrap();
    let listed = String::from_utf8(command(&["plan", "--names", &path(SHEETS[0])]).0).unwrap();
    let steps: Vec<&str> = listed.lines().filter_map(|line| line.split("# ").nth(1)).collect();
    assert!(steps.len() > 30);
    for step in steps {
        assert!(shown.contains(&format!("<td>{step}</td>")), "{step}");
    }
    let (light, dark, pdf) = (written("light.png"), written("dark.png"), written("report.pdf"));
    browser(&["picture", page, light.to_str().unwrap()]);
    browser(&["picture", page, dark.to_str().unwrap(), "dark"]);
    assert!(pixels(&light).len() > 50_000 && pixels(&dark).len() > 50_000);
    assert_ne!(pixels(&light), pixels(&dark));
    browser(&["pdf", page, pdf.to_str().unwrap()]);
    let paper = pixels(&pdf);
    let pages = paper.windows(12).filter(|part| *part == b"/Type /Page\n").count();
    assert!(paper.starts_with(b"%PDF") && pages > SHEETS.len(), "{pages}");
}
