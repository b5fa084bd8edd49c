//! The chart: bars and marks where the minutes put them, names that XML takes, texts that do not meet.

mod common;

use common::any_sheet;
use corrumai_tests::cases::examples;
use corrumai_tests::rng::Rng;
use corrumai_tools::chart::{draw, draw_late, Late};
use corrumai_tools::decode::decode;
use corrumai_tools::list::{parse, Entry};
use corrumai_tools::model::{Bound, Job, Sheet, Span};

const P1_RUN: &str = "PLAN 2\n10 B 0 0\n10 E 0 5\n10 S 1 5\n20 B 1 6\n20 E 1 9\n20 S 2 9\n";

/// The entries of a list's text.
fn entries(sheet: &Sheet, text: &str) -> Vec<Entry> {
    parse(sheet, text.as_bytes()).unwrap()
}

fn p1() -> Sheet {
    decode(&examples::p1(100).bytes()).unwrap()
}

/// The line of the chart that has these words.
fn line<'a>(chart: &'a str, words: &str) -> &'a str {
    let mut lines = chart.lines().filter(|line| line.contains(words));
    let found = lines.next().unwrap_or_else(|| panic!("no line has '{words}'"));
    assert_eq!(lines.next(), None, "two lines have '{words}'");
    found
}

/// The text of the attribute.
fn attribute<'a>(line: &'a str, name: &str) -> &'a str {
    let (_, rest) = line.split_once(&format!(" {name}=\"")).expect(line);
    rest.split('"').next().unwrap()
}

fn number(line: &str, name: &str) -> i32 {
    attribute(line, name).parse().unwrap()
}

/// Where a mark's tip is.
fn tip(line: &str) -> i32 {
    attribute(line, "points").split(',').next().unwrap().parse().unwrap()
}

#[test]
fn minutes_are_places() {
    let chart = draw("P1", &p1(), &entries(&p1(), P1_RUN));
    let first = line(&chart, ">need fact0: minute 0 to 5<");
    let second = line(&chart, ">need fact1: minute 6 to 9<");
    let start = number(first, "x") + 1;
    let at = |minute: i32| start + 640 * minute / 9;
    assert_eq!(number(first, "width"), at(5) - at(0) + 2);
    assert_eq!(number(second, "x") + 1, at(6));
    assert_eq!(number(second, "width"), at(9) - at(6) + 2);
    assert_eq!(tip(line(&chart, ">set fact1: minute 5<")), at(5));
    assert_eq!(tip(line(&chart, ">set fact2: minute 9<")), at(9));
    let job = line(&chart, ">20 job20: minute 6 to 9<");
    assert_eq!((number(job, "x"), number(job, "width")), (at(6) - 1, at(9) - at(6) + 2));
    line(&chart, ">2 of 2 jobs, done at minute 9 of 100<");
    let axis = chart.lines().filter(|line| line.contains(&format!(" x=\"{}\"", at(7))));
    assert_eq!(axis.filter(|line| line.ends_with(">7</text>")).count(), 2);
}

/// P1 in edition 2 with these releases, and its chart.
fn released(gap: u8, releases: &[u16], run: &str) -> String {
    let spec = examples::p1(100).with_gap(gap).released(releases);
    let sheet = decode(&spec.bytes()).unwrap();
    draw("P1", &sheet, &entries(&sheet, run))
}

#[test]
fn the_minutes_before_a_release_are_shaded() {
    let run = "PLAN 2\n10 B 0 0\n10 E 0 5\n10 S 1 5\n20 B 1 11\n20 E 1 14\n20 S 2 14\n";
    let chart = released(1, &[0, 11], run);
    assert_xml(&chart);
    assert_apart(&chart);
    let start = number(line(&chart, ">need fact0: minute 0 to 5<"), "x") + 1;
    let shade = line(&chart, ">20 job20: not before minute 11<");
    let (row, job) = (shade, line(&chart, ">20 job20: minute 11 to 14<"));
    assert_eq!((number(shade, "x"), number(shade, "width")), (start, 640 * 11 / 14));
    // The shade fills the job's row, and the job's own band begins where it ends.
    assert_eq!(number(row, "y") + 2, number(job, "y"));
    assert_eq!(number(row, "height") - 4, number(job, "height"));
    assert_eq!(number(shade, "x") + number(shade, "width"), number(job, "x") + 1);
    assert_eq!(chart.matches("class=\"before\"").count(), 2);
    line(&chart, ">before the job&apos;s release<");
    // A job that does not run may be released behind the end of the axis, which its shade does not pass.
    let chart = released(1, &[0, 65_535], "PLAN 1\n10 B 0 0\n10 E 0 5\n10 S 1 5\n");
    assert_apart(&chart);
    assert_eq!(number(line(&chart, ">20 job20: not before minute 65535<"), "width"), 640);
}

#[test]
fn the_caption_has_the_gap_of_edition_2() {
    for (gap, minutes) in [(0, 2), (1, 1), (2, 2), (3, 3), (60, 60)] {
        let chart = released(gap, &[], P1_RUN);
        line(&chart, &format!(">2 of 2 jobs, done at minute 9 of 100; gap {minutes} min<"));
        assert!(!chart.contains("class=\"before\"") && !chart.contains("release"));
        let chart = released(gap, &[], "PLAN 0\n");
        line(&chart, &format!(">none of 2 jobs has to run; gap {minutes} min<"));
    }
    let chart = draw("P1", &p1(), &entries(&p1(), P1_RUN));
    assert!(!chart.contains("gap") && !chart.contains("class=\"before\""));
}

#[test]
fn clears_point_down_and_sets_up() {
    let sheet = decode(&examples::p6(6, true).bytes()).unwrap();
    let run =
        "PLAN 2\n10 B 0 0\n10 E 0 0\n10 C 0 0\n10 S 1 0\n10 C 1 6\n20 B 1 1\n20 E 1 5\n20 S 2 5\n";
    let chart = draw("P6", &sheet, &entries(&sheet, run));
    let heights = |words: &str| {
        let points = attribute(line(&chart, words), "points").to_string();
        let ys: Vec<i32> =
            points.split(' ').map(|p| p.split(',').nth(1).unwrap().parse().unwrap()).collect();
        ys[1] - ys[0]
    };
    assert!(heights(">set fact1: minute 0<") > 0);
    assert!(heights(">clear fact1: minute 6<") < 0);
    line(&chart, ">set 0, clear 6<");
    line(&chart, ">need 0–0, clear 0<");
}

#[test]
fn a_job_that_is_not_listed_has_a_row() {
    let chart = draw("P5", &p1(), &entries(&p1(), "PLAN 0\n"));
    assert_eq!(chart.matches(">not in the run list<").count(), 2);
    line(&chart, ">10 job10<");
    line(&chart, ">none of 2 jobs has to run<");
    let chart = draw("P1", &p1(), &entries(&p1(), P1_RUN));
    assert!(!chart.contains("not in the run list"));
}

/// P1 with so many more jobs that set its fact 1, each of them retired.
fn with_retired(count: usize, name: &str) -> Sheet {
    let mut sheet = p1();
    for number in 0..count {
        let mut job =
            Job { code: 100 + number as u16, name: name.to_string(), ..p1().jobs[0].clone() };
        let length = job.bounds[0];
        job.bounds.insert(1, Bound { span: Span { low: Some(6), high: None }, ..length });
        sheet.jobs.push(job);
    }
    sheet
}

#[test]
fn the_caption_names_the_absent_jobs() {
    let sheet = with_retired(1, "old");
    let chart = draw("P1", &sheet, &entries(&sheet, P1_RUN));
    assert_apart(&chart);
    line(&chart, ">2 of 3 jobs, done at minute 9 of 100<");
    line(&chart, ">absent: 100 old<");
    line(&chart, ">absent<");
    assert!(!chart.contains("not in the run list"));
    let chart = draw("P1", &p1(), &entries(&p1(), P1_RUN));
    assert!(!chart.contains("absent"));
    // A job that nobody wants is not absent.
    let chart = draw("P1", &sheet, &entries(&sheet, "PLAN 0\n"));
    assert_eq!(chart.matches(">not in the run list<").count(), 2);
}

/// As many lines as they take, each job once, and all else stands lower by as much.
#[test]
fn many_absent_jobs() {
    let names =
        ["old", "the loader that looked up names", "MWMWMWMWMWMWMWMWMWMWMWMWMWMWMWMWMWMWMWMW"];
    for (count, name) in [2, 9, 30].into_iter().flat_map(|count| names.map(|name| (count, name))) {
        let sheet = with_retired(count, name);
        let chart = draw("P1", &sheet, &entries(&sheet, P1_RUN));
        assert_xml(&chart);
        assert_apart(&chart);
        let first = chart.lines().position(|line| line.contains(">absent: 100 ")).unwrap();
        let caption: Vec<&str> = chart
            .lines()
            .skip(first)
            .take_while(|line| line.contains("class=\"quiet\" x=\"16\""))
            .collect();
        for code in 100..100 + count {
            let named = |line: &&&str| line.contains(&format!("{code} "));
            assert_eq!(caption.iter().filter(named).count(), 1, "{code}: {caption:?}");
        }
        assert_eq!(number(caption[0], "y"), 66);
        let axis = chart.lines().find(|line| line.ends_with(">minute</text>")).unwrap();
        assert_eq!(number(axis, "y"), 66 + 18 * caption.len() as i32);
    }
}

/// P1's chart with its entries as late as these delays say.
fn late(delays: &[u16], fault: Option<u16>) -> String {
    let entries = entries(&p1(), P1_RUN);
    let entries: Vec<Entry> =
        entries.iter().zip(delays).map(|(entry, by)| entry.later(*by)).collect();
    let chart = draw_late("P1", &p1(), &entries, &Late { delays, fault });
    assert_xml(&chart);
    assert_apart(&chart);
    chart
}

/// The delayed minutes, who is late, and a line where the run goes wrong.
#[test]
fn late_starts_are_drawn_with_their_fault() {
    let chart = late(&[1, 0], Some(6));
    line(&chart, ">late: 10 job10 by 1 min<");
    let start = number(line(&chart, ">need fact0: minute 1 to 6<"), "x") + 1 - 640 / 9;
    let fault = line(&chart, "class=\"fault\"");
    assert_eq!(
        (number(fault, "x1"), number(fault, "x2")),
        (start + 640 * 6 / 9, start + 640 * 6 / 9)
    );
    // Its minute stands between the caption and the axis.
    let words = line(&chart, ">goes wrong at minute 6</text>");
    assert_eq!((number(words, "x"), number(words, "y")), (number(fault, "x1"), 84));
    assert_eq!(
        number(chart.lines().find(|line| line.ends_with(">minute</text>")).unwrap(), "y"),
        102
    );
    // The horizon, behind the last step and before it.
    let at = |chart: &str| number(line(chart, "class=\"fault\""), "x1");
    assert_eq!(at(&late(&[0, 0], Some(100))), start + 640);
    assert_eq!(at(&late(&[0, 92], Some(100))), start + 640 * 100 / 101);
    // Without a fault nothing is marked, and without delays the chart is that of the plan.
    let chart = late(&[0, 3], None);
    line(&chart, ">late: 20 job20 by 3 min<");
    assert!(!chart.contains("fault\"") && !chart.contains("goes wrong"));
    assert_eq!(late(&[0, 0], None), draw("P1", &p1(), &entries(&p1(), P1_RUN)));
}

/// A job with several entries has a row for each, and is counted once.
#[test]
fn twins_have_rows_of_their_own() {
    let twins = "10 B 0 0\n10 E 0 5\n10 S 1 5\n\n20 B 1 9\n20 E 1 12\n20 S 2 12\n\n10 B 0 3\n10 E 0 8\n10 S 1 8\n";
    let chart = draw("P1", &p1(), &entries(&p1(), twins));
    assert_xml(&chart);
    assert_apart(&chart);
    line(&chart, ">2 of 2 jobs, done at minute 12 of 100<");
    for (label, span) in
        [("10 job10, entry 0", "0 to 5"), ("10 job10, entry 2", "3 to 8"), ("20 job20", "9 to 12")]
    {
        line(&chart, &format!(">{label}<"));
        line(&chart, &format!(">{label}: minute {span}<"));
    }
    line(&chart, ">need fact0: minute 0 to 5<");
    line(&chart, ">need fact0: minute 3 to 8<");
}

/// Opened and closed elements match, and every & begins an entity.
fn assert_xml(chart: &str) {
    let mut open = Vec::new();
    for part in chart.split('<').skip(1) {
        let (tag, text) = part.split_once('>').expect("a tag ends");
        if let Some(name) = tag.strip_prefix('/') {
            assert_eq!(open.pop(), Some(name), "{tag}");
        } else if !tag.ends_with('/') {
            open.push(tag.split(' ').next().unwrap());
        }
        assert!(!text.contains('>') && !tag.contains('&'), "{part}");
        for entity in text.split('&').skip(1) {
            let name = entity.split(';').next().unwrap();
            assert!(["lt", "gt", "amp", "quot", "apos"].contains(&name), "{part}");
        }
    }
    assert!(open.is_empty() && chart.starts_with("<svg ") && chart.ends_with("</svg>\n"));
}

#[test]
fn names_are_escaped() {
    let mut sheet = p1();
    sheet.facts[0].name = "a<b> & 'c'".to_string();
    sheet.jobs[0].name = "</text><script>".to_string();
    let chart = draw("<&>", &sheet, &entries(&sheet, P1_RUN));
    assert_xml(&chart);
    line(&chart, ">10 &lt;/text&gt;&lt;script&gt;<");
    line(&chart, ">need a&lt;b&gt; &amp; &apos;c&apos;: minute 0 to 5<");
    assert_eq!(chart.matches("&lt;&amp;&gt;").count(), 2);
}

/// Where a text stands, from left to right, in a wide font.
fn extent(line: &str) -> (i32, i32) {
    let shown = line.split_once('>').unwrap().1.split('<').next().unwrap();
    let shown = shown.replace("&lt;", "<").replace("&apos;", "'");
    let size = if line.contains("heading") { 10 } else { 8 };
    let wide = shown.chars().filter(|c| "MW木".contains(*c)).count() as i32;
    let width = size * shown.chars().count() as i32 + 4 * wide;
    let x = number(line, "x");
    match attribute(line, "class") {
        class if class.contains("middle") => (x - width / 2, x + width / 2),
        class if class.contains("end") => (x - width, x),
        _ => (x, x + width),
    }
}

/// No text meets another or leaves the picture, and each row of texts has its own place.
fn assert_apart(chart: &str) {
    let (width, height) = (number(chart, "width"), number(chart, "height"));
    let texts: Vec<&str> = chart.lines().filter(|line| line.starts_with("<text")).collect();
    for (place, one) in texts.iter().enumerate() {
        let (left, right) = extent(one);
        assert!(left >= 0 && right <= width && number(one, "y") < height, "{one}");
        for other in &texts[place + 1..] {
            let (start, end) = extent(other);
            let apart = (number(one, "y") - number(other, "y")).abs() >= 12;
            assert!(apart || right < start || end < left, "{one}\n{other}");
        }
    }
}

/// Some time for each event, which for a drawing is as good as a plan.
fn some_entries(rng: &mut Rng, sheet: &Sheet) -> Vec<Entry> {
    let most = 1 + usize::from(sheet.horizon);
    let jobs: Vec<usize> = (0..sheet.jobs.len()).filter(|_| rng.chance(90)).collect();
    let mut entry = |job: usize| {
        let times = sheet.jobs[job].events.iter().map(|_| rng.below(most) as u16);
        Entry { job, times: times.collect() }
    };
    jobs.into_iter().map(&mut entry).collect()
}

/// Names that differ at their end only are told apart, and the axis is never far.
#[test]
fn a_tall_chart_with_long_names() {
    let mut sheet = p1();
    let job = sheet.jobs[0].clone();
    let name =
        |number: usize| format!("compute the volume of the spruce stand, compartment {number}");
    let code = |number: usize| number as u16;
    sheet.jobs = (0..32).map(|k| Job { code: code(k), name: name(k), ..job.clone() }).collect();
    let entries: Vec<Entry> = (0..32).map(|job| Entry { job, times: vec![0, 5, 5] }).collect();
    let chart = draw("Tall", &sheet, &entries);
    assert_xml(&chart);
    assert_apart(&chart);
    line(&chart, ">12 compute the v… compartment 12<");
    line(&chart, ">13 compute the v… compartment 13<");
    let axes: Vec<i32> = chart
        .lines()
        .filter(|line| line.ends_with(">minute</text>"))
        .map(|l| number(l, "y"))
        .collect();
    assert!(axes.len() > 1 && axes.windows(2).all(|two| two[1] - two[0] < 760), "{axes:?}");
    assert_eq!(chart.lines().filter(|line| line.ends_with(">5</text>")).count(), axes.len() + 1);
}

#[test]
fn charts_of_any_sheet_are_readable() {
    let mut rng = Rng::new(61);
    for _ in 0..150 {
        let mut sheet = decode(&any_sheet(&mut rng).bytes()).unwrap();
        for fact in &mut sheet.facts {
            fact.name = rng.pick(&["<long", "WM", "木"]).repeat(rng.below(12)) + &fact.name;
        }
        for job in &mut sheet.jobs {
            job.name = "name ".repeat(rng.below(12)) + &job.name;
        }
        let mut entries = some_entries(&mut rng, &sheet);
        let twins = rng.below(1 + entries.len().min(8));
        entries.extend_from_within(..twins);
        let delays: Vec<u16> = entries.iter().map(|_| *rng.pick(&[0, 0, 7, 600])).collect();
        let fault = rng.chance(50).then(|| rng.below(1 + usize::from(sheet.horizon)) as u16);
        let late = Late { delays: &delays, fault };
        let chart = draw_late(&"x".repeat(rng.below(200)), &sheet, &entries, &late);
        assert_xml(&chart);
        assert_apart(&chart);
        let count = |words| chart.matches(words).count();
        let events: usize =
            count("class=\"set\"") + count("class=\"clear\"") + 2 * count("class=\"need\"");
        // Three shapes stand in the legend, one of them a need.
        let steps: usize = entries.iter().map(|entry| entry.times.len()).sum();
        assert_eq!(events, steps + 4);
    }
}
