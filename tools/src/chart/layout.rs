//! Where things stand in the chart, in pixels.

use super::{Row, NOT_LISTED};
use crate::model::Sheet;

pub const MARGIN: i32 = 16;
/// The longest name and the longest title that are shown whole.
pub const LONGEST_NAME: usize = 32;
pub const LONGEST_TITLE: usize = 72;
/// The heading has room for one more line of caption; each further one takes so much more, and so does the minute of a fault.
const HEADING: i32 = 92;
pub const CAPTION_LINE: usize = 18;
const LEGEND: i32 = 60;
const LANE: i32 = 20;
const PADDING: i32 = 4;
const TIME: i32 = 640;
/// The steps that an axis may have, in minutes.
const STEPS: [u16; 14] = [1, 2, 5, 10, 15, 20, 30, 60, 120, 240, 480, 720, 1440, 2880];
const MOST_TICKS: u16 = 12;

/// A tall chart has its axis again after so many pixels, on a strip of its own.
const AXIS_AFTER: i32 = 640;
const AXIS_STRIP: i32 = 22;

pub struct Layout {
    /// The lines of the caption that name the late and the absent jobs.
    caption: Vec<String>,
    /// The top of the first row.
    head: i32,
    /// The top of each row, and its height.
    rows: Vec<(i32, i32)>,
    /// The top of each strip with a further axis.
    axes: Vec<i32>,
    bottom: i32,
    labels: i32,
    facts: i32,
    notes: i32,
    last: u16,
}

/// About the width of a text; hardly less, also in wide and bold fonts.
fn text_width(text: &str) -> i32 {
    let width = |c| match c {
        'W' | 'M' | 'm' | 'w' | '@' | '%' | '—' => 13,
        c if c < '\u{500}' && c.is_uppercase() => 10,
        '–' | '…' => 8,
        c if c < '\u{500}' => 8,
        _ => 13,
    };
    text.chars().map(width).sum()
}

/// The text, cut in the middle if it has more than `longest` characters: names often differ at their end.
pub fn shorten(text: &str, longest: usize) -> String {
    let count = text.chars().count();
    if count <= longest {
        return text.to_string();
    }
    let front = longest / 2;
    let back = count - (longest - 1 - front);
    text.chars().take(front).chain(['…']).chain(text.chars().skip(back)).collect()
}

fn widest(texts: impl Iterator<Item = String>) -> i32 {
    texts.map(|text| text_width(&text)).max().unwrap_or(0)
}

/// The names in lines of this width, behind a word; none where there is no name.
fn lines_of(what: &str, names: impl Iterator<Item = String>, width: i32) -> Vec<String> {
    let mut lines: Vec<String> = Vec::new();
    for name in names {
        match lines.last_mut() {
            None => lines.push(format!("{what}: {name}")),
            Some(line) => {
                line.push(',');
                if text_width(&format!("{line} {name},")) > width {
                    lines.push(name);
                } else {
                    *line += &format!(" {name}");
                }
            }
        }
    }
    lines
}

/// The late jobs, and the absent ones.
fn caption(rows: &[Row], width: i32) -> Vec<String> {
    let name = |row: &Row| shorten(&row.label, LONGEST_NAME);
    let late = rows.iter().filter(|row| row.delay > 0);
    let late = late.map(|row| format!("{} by {} min", name(row), row.delay));
    let mut lines = lines_of("late", late, width);
    lines.extend(lines_of("absent", rows.iter().filter(|row| row.absent).map(name), width));
    lines
}

impl Layout {
    /// With a fault, its minute has a line of its own above the axis.
    pub fn new(sheet: &Sheet, rows: &[Row], last: u16, fault: bool) -> Layout {
        let lanes = || rows.iter().flat_map(|row| &row.lanes);
        let mut layout = Layout {
            caption: Vec::new(),
            head: HEADING,
            rows: Vec::new(),
            axes: Vec::new(),
            bottom: HEADING,
            labels: widest(rows.iter().map(|row| shorten(&row.label, LONGEST_NAME))),
            facts: widest(lanes().map(|(fact, _)| shorten(&sheet.facts[*fact].name, LONGEST_NAME))),
            notes: widest(lanes().map(|(_, lane)| lane.note()).chain([NOT_LISTED.to_string()])),
            last: last.max(1),
        };
        layout.caption = caption(rows, layout.width() - 2 * MARGIN);
        let further = layout.caption.len().saturating_sub(1) + usize::from(fault);
        layout.head += further as i32 * CAPTION_LINE as i32;
        layout.place_rows(rows);
        layout
    }

    /// The rows below each other, with strips for further axes between them.
    fn place_rows(&mut self, rows: &[Row]) {
        self.bottom = self.head;
        for row in rows {
            if self.bottom - self.axes.last().unwrap_or(&self.head) > AXIS_AFTER {
                self.axes.push(self.bottom);
                self.bottom += AXIS_STRIP;
            }
            let height = row.lanes.len().max(1) as i32 * LANE + PADDING;
            self.rows.push((self.bottom, height));
            self.bottom += height;
        }
    }

    /// The lines of the caption that name the late and the absent jobs.
    pub fn caption(&self) -> &[String] {
        &self.caption
    }

    /// Where the minute of a fault stands.
    pub fn fault_line(&self) -> i32 {
        self.axis_lines()[0] - CAPTION_LINE as i32
    }

    pub fn top(&self, row: usize) -> i32 {
        self.rows[row].0
    }

    pub fn row_height(&self, row: usize) -> i32 {
        self.rows[row].1
    }

    /// Where the texts of the axis stand: above the rows, on the strips between them, and below.
    pub fn axis_lines(&self) -> Vec<i32> {
        let strips = self.axes.iter().map(|top| top + AXIS_STRIP - 7);
        [self.head - 8].into_iter().chain(strips).chain([self.bottom + 16]).collect()
    }

    /// The top of the first row.
    pub fn head(&self) -> i32 {
        self.head
    }

    pub fn lane_middle(&self, row: usize, lane: usize) -> i32 {
        self.top(row) + (PADDING + LANE) / 2 + LANE * lane as i32
    }

    /// The bottom of the last row.
    pub fn bottom(&self) -> i32 {
        self.bottom
    }

    pub fn height(&self) -> i32 {
        self.bottom() + LEGEND
    }

    pub fn fact_left(&self) -> i32 {
        2 * MARGIN + self.labels
    }

    pub fn time_left(&self) -> i32 {
        // Wide enough for the axis's name, and for marks at minute 0.
        self.fact_left() + self.facts.max(40) + 2 * MARGIN
    }

    pub fn note_left(&self) -> i32 {
        self.time_left() + TIME + 2 * MARGIN
    }

    pub fn width(&self) -> i32 {
        self.note_left() + self.notes + MARGIN
    }

    pub fn x(&self, tick: u16) -> i32 {
        self.time_left() + TIME * i32::from(tick) / i32::from(self.last)
    }

    /// The same for a minute that may lie behind the end of the axis.
    pub fn x_within(&self, tick: u16) -> i32 {
        self.x(tick.min(self.last))
    }

    /// The minutes that the axis names.
    pub fn ticks(&self) -> impl Iterator<Item = u16> {
        let fits = |step: &&u16| self.last / **step <= MOST_TICKS;
        let step = STEPS.iter().find(fits).unwrap_or(&u16::MAX);
        (0..=self.last).step_by(usize::from(*step))
    }
}
