//! Draws a run list: a row for each job, in it a lane for each fact that the job touches. A job with several entries has a row for each.

mod layout;
mod svg;

use crate::list::Entry;
use crate::model::{Edition, Kind, Sheet};
use crate::rules::present::Present;
use layout::Layout;
use std::collections::BTreeMap;
use svg::Svg;

/// Stands beside a job that has no entry; the second beside one that is absent.
const NOT_LISTED: &str = "not in the run list";
const ABSENT: &str = "absent";

/// The times of one fact's events within one job.
#[derive(Clone, Copy, Debug, Default, PartialEq, Eq)]
struct Lane {
    begin: Option<u16>,
    end: Option<u16>,
    set: Option<u16>,
    clear: Option<u16>,
}

impl Lane {
    fn put(&mut self, kind: Kind, tick: u16) {
        let place = match kind {
            Kind::Begins => &mut self.begin,
            Kind::Ends => &mut self.end,
            Kind::Sets => &mut self.set,
            Kind::Clears => &mut self.clear,
        };
        *place = Some(tick);
    }

    fn need(&self) -> Option<(u16, u16)> {
        self.begin.zip(self.end)
    }

    /// The minutes in words.
    fn note(&self) -> String {
        let mut parts = Vec::new();
        parts.extend(self.need().map(|(begin, end)| format!("need {begin}–{end}")));
        parts.extend(self.set.map(|tick| format!("set {tick}")));
        parts.extend(self.clear.map(|tick| format!("clear {tick}")));
        parts.join(", ")
    }
}

/// A job of the sheet with its lanes by fact; none if it is not in the list.
struct Row {
    label: String,
    job: usize,
    /// The minutes that its entry is late.
    delay: u16,
    /// No event of the job comes before this minute.
    release: u16,
    lanes: BTreeMap<usize, Lane>,
    span: Option<(u16, u16)>,
    absent: bool,
}

/// What late starts have besides.
#[derive(Clone, Copy, Debug, Default)]
pub struct Late<'a> {
    /// The minutes that each entry is late; none where nothing is.
    pub delays: &'a [u16],
    /// The minute at which the run goes wrong.
    pub fault: Option<u16>,
}

/// The chart of the plan with these entries, as an SVG.
pub fn draw(title: &str, sheet: &Sheet, entries: &[Entry]) -> String {
    draw_late(title, sheet, entries, &Late::default())
}

/// The chart of entries at their delayed minutes.
pub fn draw_late(title: &str, sheet: &Sheet, entries: &[Entry], late: &Late) -> String {
    let rows = rows(sheet, entries, late.delays);
    let last = entries.iter().flat_map(|entry| entry.times.iter().copied()).max();
    let layout = Layout::new(sheet, &rows, last.max(late.fault).unwrap_or(0), late.fault.is_some());
    let mut svg = Svg::new(layout.width(), layout.height(), title);
    draw_heading(&mut svg, &layout, title, &summary(sheet, &rows, last));
    for (number, row) in rows.iter().enumerate() {
        draw_band(&mut svg, &layout, number, row);
    }
    draw_axis(&mut svg, &layout);
    for (number, row) in rows.iter().enumerate() {
        draw_row(&mut svg, &layout, number, row, sheet);
    }
    if let Some(tick) = late.fault {
        draw_fault(&mut svg, &layout, tick);
    }
    draw_legend(&mut svg, &layout);
    if rows.iter().any(|row| row.release > 0) {
        draw_release_legend(&mut svg, &layout);
    }
    svg.finish()
}

fn rows(sheet: &Sheet, entries: &[Entry], delays: &[u16]) -> Vec<Row> {
    let present = Present::of(sheet);
    let row = |number: usize, place: Option<usize>, label: String| {
        let steps = place.map_or(Vec::new(), |place| entries[place].steps(sheet).collect());
        let mut lanes: BTreeMap<usize, Lane> = BTreeMap::new();
        for (event, tick) in &steps {
            lanes.entry(event.fact).or_default().put(event.kind, *tick);
        }
        let span = place.and_then(|place| entries[place].span());
        let delay = place.and_then(|place| delays.get(place)).copied().unwrap_or(0);
        let (release, absent) = (sheet.jobs[number].release, !present.has(number));
        Row { label, job: number, delay, release, lanes, span, absent }
    };
    let mut rows = Vec::new();
    for (number, job) in sheet.jobs.iter().enumerate() {
        let own = (0..entries.len()).filter(|&place| entries[place].job == number);
        let label = format!("{} {}", job.code, job.name);
        match own.collect::<Vec<usize>>()[..] {
            [] => rows.push(row(number, None, label)),
            [place] => rows.push(row(number, Some(place), label)),
            ref own => rows.extend(
                own.iter()
                    .map(|place| row(number, Some(*place), format!("{label}, entry {place}"))),
            ),
        }
    }
    rows
}

fn summary(sheet: &Sheet, rows: &[Row], last: Option<u16>) -> String {
    let mut listed: Vec<usize> =
        rows.iter().filter(|row| row.span.is_some()).map(|row| row.job).collect();
    listed.dedup();
    let (listed, all, horizon) = (listed.len(), sheet.jobs.len(), sheet.horizon);
    let gap = match sheet.edition {
        Edition::One => String::new(),
        Edition::Two { .. } => format!("; gap {} min", sheet.gap()),
    };
    match last {
        Some(last) => format!("{listed} of {all} jobs, done at minute {last} of {horizon}{gap}"),
        None => format!("none of {all} jobs has to run{gap}"),
    }
}

/// The title, and below it the caption: what runs, what is late, and which jobs are absent.
fn draw_heading(svg: &mut Svg, layout: &Layout, title: &str, summary: &str) {
    svg.text("heading", layout::MARGIN, 28, &layout::shorten(title, layout::LONGEST_TITLE));
    let lines = [summary].into_iter().chain(layout.caption().iter().map(String::as_str));
    for (line, y) in lines.zip((48..).step_by(layout::CAPTION_LINE)) {
        svg.text("quiet", layout::MARGIN, y, line);
    }
}

/// The row's ground, the minutes before the job's release, and the time from its first step to its last.
fn draw_band(svg: &mut Svg, layout: &Layout, number: usize, row: &Row) {
    let (top, height) = (layout.top(number), layout.row_height(number));
    let ground = if number % 2 == 0 { "even" } else { "odd" };
    svg.rect(ground, 0, top, layout.width(), height, "");
    if row.release > 0 {
        let (left, right) = (layout.x(0), layout.x_within(row.release));
        let words = format!("{}: not before minute {}", row.label, row.release);
        svg.rect("before", left, top, right - left, height, &words);
    }
    if let Some((first, last)) = row.span {
        let (left, right) = (layout.x(first), layout.x(last));
        let words = format!("{}: minute {first} to {last}", row.label);
        svg.rect("span", left - 1, top + 2, right - left + 2, height - 4, &words);
    }
}

fn draw_axis(svg: &mut Svg, layout: &Layout) {
    let (top, bottom) = (layout.head(), layout.bottom());
    let lines = layout.axis_lines();
    for y in &lines[..lines.len() - 1] {
        svg.text("quiet end", layout.time_left() - 20, *y, "minute");
    }
    for tick in layout.ticks() {
        let x = layout.x(tick);
        svg.line("grid", x, top - 4, bottom + 4);
        for y in &lines {
            svg.text("quiet middle", x, *y, &tick.to_string());
        }
    }
}

/// A line through all rows where the run goes wrong, with its minute above the axis.
fn draw_fault(svg: &mut Svg, layout: &Layout, tick: u16) {
    let (x, words) = (layout.x(tick), format!("goes wrong at minute {tick}"));
    svg.fault(x, layout.head() - 4, layout.bottom() + 4, &words);
    svg.text("middle", x, layout.fault_line(), &words);
}

fn draw_row(svg: &mut Svg, layout: &Layout, number: usize, row: &Row, sheet: &Sheet) {
    let class = if row.span.is_some() { "job" } else { "job quiet" };
    let y = layout.lane_middle(number, 0);
    svg.label(class, layout::MARGIN, y + 4, &row.label);
    if row.span.is_none() {
        let note = if row.absent { ABSENT } else { NOT_LISTED };
        svg.text("quiet", layout.note_left(), y + 4, note);
    }
    for (place, (fact, lane)) in row.lanes.iter().enumerate() {
        let y = layout.lane_middle(number, place);
        let fact = &sheet.facts[*fact];
        let class = if fact.goal { "goal" } else { "" };
        svg.label(class, layout.fact_left(), y + 4, &fact.name);
        svg.text("quiet", layout.note_left(), y + 4, &lane.note());
        draw_lane(svg, layout, y, lane, &fact.name);
    }
}

fn draw_lane(svg: &mut Svg, layout: &Layout, y: i32, lane: &Lane, fact: &str) {
    if let Some((begin, end)) = lane.need() {
        let (left, right) = (layout.x(begin), layout.x(end));
        let words = format!("need {fact}: minute {begin} to {end}");
        // A need of no length is to be seen too.
        let edge = if right - left < 2 { 2 } else { 1 };
        svg.rect("need", left - edge, y - 4, right - left + 2 * edge, 8, &words);
    }
    if let Some(tick) = lane.set {
        svg.mark("set", layout.x(tick), y, 8, &format!("set {fact}: minute {tick}"));
    }
    if let Some(tick) = lane.clear {
        svg.mark("clear", layout.x(tick), y, -8, &format!("clear {fact}: minute {tick}"));
    }
}

fn draw_legend(svg: &mut Svg, layout: &Layout) {
    let y = layout.bottom() + 44;
    let x = layout::MARGIN;
    svg.rect("need", x, y - 8, 20, 8, "");
    svg.text("", x + 26, y, "need");
    svg.mark("set", x + 84, y - 8, 8, "");
    svg.text("", x + 96, y, "set");
    svg.mark("clear", x + 144, y, -8, "");
    svg.text("", x + 156, y, "clear");
    svg.rect("span", x + 206, y - 10, 20, 12, "");
    svg.text("", x + 232, y, "from the job's first step to its last");
    svg.text("goal", x + 540, y, "bold: a goal");
}

/// The shade of the minutes before a release, behind the rest of the legend.
fn draw_release_legend(svg: &mut Svg, layout: &Layout) {
    let (x, y) = (layout::MARGIN + 652, layout.bottom() + 44);
    svg.rect("before", x, y - 10, 20, 12, "");
    svg.text("", x + 26, y, "before the job's release");
}
