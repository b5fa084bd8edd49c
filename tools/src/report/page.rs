//! The page of one sheet: chart and steps, or why there is no plan; and the sheet's text.

use super::html::{escape, table};
use super::Page;
use crate::answers::{meaning, short};
use crate::chart::draw;
use crate::explain::{Reason, Words};
use crate::model::Sheet;
use crate::notation::print;

const PROVED: &str =
    "The list is the proved planner's. Chart, table and explanation are a help outside \
                      the proof; the explanation has checked itself.";

pub fn render(page: &Page, number: usize, indexed: bool, start: Option<u32>) -> String {
    let answer = page.explanation.answer;
    let class = if page.is_planned() { "good" } else { "bad" };
    let mut text = format!(
        "<section id=\"sheet-{number}\" aria-labelledby=\"title-{number}\">\n\
         <h2 id=\"title-{number}\">{}</h2>\n\
         <p><strong class=\"{class}\">{}</strong> ({answer}): {}.</p>\n",
        escape(&page.title),
        escape(short(answer.number)),
        escape(&page.explanation.clause(&page.context(start)))
    );
    text += &match page.given.sheet.as_ref() {
        Ok(sheet) if page.is_planned() => plan(page, sheet, number, start),
        _ => refused(page, start),
    };
    text += &warnings(page);
    text += &sheet_text(page, number);
    text += &format!("<p class=\"note\">{PROVED}</p>\n");
    if indexed {
        text += "<p class=\"back\"><a href=\"#index\">All sheets</a></p>\n";
    }
    text + "</section>\n"
}

/// The chart, the steps and the critical chain.
fn plan(page: &Page, sheet: &Sheet, number: usize, start: Option<u32>) -> String {
    let Ok([Reason::Plan { entries, steps, finish }]) = page.explanation.reasons.as_deref() else {
        return refused(page, start);
    };
    let svg = draw(&format!("Run list of {}", page.given.input.base_name()), sheet, entries);
    let label =
        format!("Chart of the run list of {}; the steps are in the table below", page.title);
    let svg =
        svg.replacen("<svg ", &format!("<svg role=\"img\" aria-label=\"{}\" ", escape(&label)), 1);
    let context = page.context(start);
    let words = Words { sheet, context: &context };
    let mut steps = steps.to_vec();
    steps.sort_by_key(|held| held.minute);
    let row = |held: &crate::explain::Held| {
        let by = held.by.map_or("the start of the run".to_string(), |rule| words.holder(&rule));
        vec![words.minute(held.minute), words.step(held.event), by]
    };
    let rows: Vec<Vec<String>> = steps.iter().map(row).collect();
    let mut sum = 0;
    let mut chain = Vec::new();
    for rule in &finish.steps {
        sum += rule.minutes;
        let minute = words.minute(u16::try_from(sum).unwrap_or(0));
        chain.push(vec![minute, words.step(rule.to), words.rule(rule)]);
    }
    let mut text = format!(
        "<div class=\"wide\" tabindex=\"0\" role=\"region\" aria-label=\"Chart\">\n{svg}</div>\n"
    );
    if !rows.is_empty() {
        let head = ["Minute", "Step", "Held back by"];
        text += &table(&format!("steps-{number}"), "Steps", &head, &rows);
    }
    if !chain.is_empty() {
        let head = ["Minute", "Step, at the earliest", "Because"];
        text +=
            &table(&format!("chain-{number}"), "The critical chain of the finish", &head, &chain);
    }
    text
}

/// The explanation, as `explain` prints it.
fn refused(page: &Page, start: Option<u32>) -> String {
    let text = page.explanation.text(&page.context(start));
    let number = page.explanation.answer.number;
    format!("<h3>Why: {}</h3>\n<pre>{}</pre>\n", escape(meaning(number)), escape(text.trim_end()))
}

/// What looks like a slip in the sheet's text.
fn warnings(page: &Page) -> String {
    let notes = page.warnings();
    if notes.is_empty() {
        return String::new();
    }
    let items: String =
        notes.iter().map(|note| format!("<li>{}</li>\n", escape(&note.to_string()))).collect();
    format!("<h3 class=\"bad\">Warnings</h3>\n<ul>\n{items}</ul>\n")
}

/// The text as it was given; of bytes, what they say.
fn sheet_text(page: &Page, number: usize) -> String {
    let given = &page.given;
    let text = match (&given.source, &given.sheet) {
        (Some(_), _) => String::from_utf8_lossy(&given.input.bytes).into_owned(),
        (None, Ok(sheet)) => print(sheet),
        (None, Err(_)) => return String::new(),
    };
    let text = text.trim_start_matches('\u{feff}').replace('\r', "");
    format!("<h3 id=\"text-{number}\">The sheet</h3>\n<pre>{}</pre>\n", escape(text.trim_end()))
}
