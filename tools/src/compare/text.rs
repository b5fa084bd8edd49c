//! The comparison in words.

use super::{Differences, Moved};
use crate::list::clock;
use crate::model::Sheet;

/// The differences, paragraph by paragraph; minutes as times of day too where the start is known.
pub fn render(sheet: &Sheet, found: &Differences, start: Option<u32>) -> String {
    let mut text = String::new();
    let name = |job: usize| format!("'{}' ({})", sheet.jobs[job].name, sheet.jobs[job].code);
    let times =
        |count: usize| if count == 1 { "once".to_string() } else { format!("{count} times") };
    for &job in &found.missing {
        text += &format!("missing: {} was planned and is not in the log\n", name(job));
    }
    for &(job, count) in &found.repeated {
        text += &format!("repeated: {} was planned once and ran {}\n", name(job), times(count));
    }
    for &(job, count) in &found.unplanned {
        text += &format!("not planned: {} ran {}\n", name(job), times(count));
    }
    if !text.is_empty() {
        text += "\n";
    }
    text += &moved(sheet, &found.moved, start);
    match found.kept {
        1 => text + "1 step is where it was planned.\n",
        kept => text + &format!("{kept} steps are where they were planned.\n"),
    }
}

fn moved(sheet: &Sheet, moved: &[Moved], start: Option<u32>) -> String {
    if moved.is_empty() {
        return String::new();
    }
    let minute = |minute: u16| match start {
        Some(start) => format!("{minute} ({})", clock(start, minute)),
        None => minute.to_string(),
    };
    let row = |moved: &Moved| {
        let (job, fact) = (&sheet.jobs[moved.job].name, &sheet.facts[moved.event.fact].name);
        let step = format!("{job} {} {fact}", moved.event.kind.verb());
        [minute(moved.logged), minute(moved.planned), how_far(moved), step]
    };
    let head = ["logged", "planned", "", "step"].map(String::from);
    let rows: Vec<[String; 4]> = [head].into_iter().chain(moved.iter().map(row)).collect();
    let width =
        |column: usize| rows.iter().map(|row| row[column].chars().count()).max().unwrap_or(0);
    let (one, two, three) = (width(0), width(1), width(2));
    let line = |[logged, planned, far, step]: &[String; 4]| {
        format!("  {logged:>one$}  {planned:>two$}  {far:<three$}  {step}\n")
    };
    rows.iter().map(line).collect::<String>() + "\n"
}

fn how_far(moved: &Moved) -> String {
    if moved.logged > moved.planned {
        return format!("{} min late", moved.logged - moved.planned);
    }
    format!("{} min too early", moved.planned - moved.logged)
}
