//! A report: one HTML file with a page for each sheet and an index, without any outside resource.

mod html;
mod page;
mod style;

use crate::answers::{short, Proved};
use crate::explain::{self, Context, Explanation};
use crate::layout::LONGEST_PLAN;
use crate::note::Note;
use crate::shell::Given;
use crate::warnings;
use html::escape;

/// A sheet of the report: what it says, and the planner's answer with its reasons.
pub struct Page {
    pub title: String,
    pub given: Given,
    pub explanation: Explanation,
}

impl Page {
    pub fn new(given: Given, proved: &Proved) -> Page {
        let explanation = explain::plan(&given.bytes, LONGEST_PLAN, proved);
        Page { title: given.input.name.clone(), given, explanation }
    }

    fn context(&self, start: Option<u32>) -> Context<'_> {
        let source = self.given.source.as_ref();
        Context { sheet: self.given.sheet.as_ref().ok(), source, start }
    }

    /// What looks like a slip in the sheet's text.
    fn warnings(&self) -> Vec<Note> {
        match (&self.given.sheet, &self.given.source) {
            (Ok(sheet), Some(source)) => warnings::of(sheet, Some(source)),
            _ => Vec::new(),
        }
    }

    pub fn is_planned(&self) -> bool {
        self.explanation.answer.number == 0
    }
}

/// The whole file; minutes as times of day too where the start is known.
pub fn render(pages: &[Page], start: Option<u32>) -> String {
    let title = match pages {
        [page] => format!("Run list of {}", page.title),
        _ => format!("Run lists of {} sheets", pages.len()),
    };
    let mut text = format!(
        "<!DOCTYPE html>\n<html lang=\"en\">\n<head>\n<meta charset=\"utf-8\">\n\
         <meta name=\"viewport\" content=\"width=device-width, initial-scale=1\">\n\
         <meta name=\"color-scheme\" content=\"light dark\">\n\
         <title>{}</title>\n<style>\n{}</style>\n</head>\n<body>\n",
        escape(&title),
        style::STYLE
    );
    if pages.len() > 1 {
        text += &index(&title, pages, start);
    }
    text += "<main>\n";
    for (number, page) in pages.iter().enumerate() {
        text += &page::render(page, number, pages.len() > 1, start);
    }
    text + "</main>\n</body>\n</html>\n"
}

/// How many warnings there are, for a line among many.
fn slips(count: usize) -> String {
    match count {
        0 => String::new(),
        1 => "; 1 warning".to_string(),
        count => format!("; {count} warnings"),
    }
}

/// A line for each page, with its answer.
fn index(title: &str, pages: &[Page], start: Option<u32>) -> String {
    let row = |(number, page): (usize, &Page)| {
        let answer = page.explanation.answer;
        let class = if page.is_planned() { "good" } else { "bad" };
        format!(
            "<tr><th scope=\"row\"><a href=\"#sheet-{number}\">{}</a></th>\
             <td class=\"{class}\">{}</td><td>{}{}</td></tr>\n",
            escape(&page.title),
            escape(short(answer.number)),
            escape(&page.explanation.clause(&page.context(start))),
            slips(page.warnings().len())
        )
    };
    let planned = pages.iter().filter(|page| page.is_planned()).count();
    let rows: String = pages.iter().enumerate().map(row).collect();
    format!(
        "<nav id=\"index\" aria-label=\"Sheets\">\n<h1>{}</h1>\n<p>{planned} of {} have a plan.</p>\n\
         <table>\n<thead><tr><th scope=\"col\">Sheet</th><th scope=\"col\">Answer</th>\
         <th scope=\"col\">Why</th></tr></thead>\n<tbody>\n{rows}</tbody>\n</table>\n</nav>\n",
        escape(title),
        pages.len()
    )
}
