//! What to write instead, for slips that are seen from a line alone.

use super::cursor::Cursor;
use super::spans::AFTER_SPAN;
use super::{EVENTS, MINUTES, NOT_BEFORE, RETIRED, TAKES, WORDS};
use crate::lexer::{Piece, RANGE};
use crate::similar::closest;

/// Said wherever a sheet tries to tie one job to another.
pub const BETWEEN_JOBS: &str = "bounds lie within one job; jobs follow each other through facts: \
                                let the first job set a fact and the second need it";

/// What can stand behind `at` in a place.
pub const PLACE_AT: &str = "'start' or 'end' after 'at'";
const PLACES_HELP: &str = "write 'at start', 'at end', or minutes as in '5 min after start'";

/// What to say where `what` was expected; empty if nothing fits.
pub fn help(cursor: &Cursor, what: &str) -> String {
    let found = cursor.peek_word();
    if what == PLACE_AT {
        return place_at(found);
    }
    if what == "'need'" && found.is_some() {
        return format!("an event of this job is 'end of need FACT'; {BETWEEN_JOBS}");
    }
    if what.contains(NOT_BEFORE) && is_start(cursor) {
        return "say when it may start with 'not before', as in 'not before 40 min'".to_string();
    }
    if let Some(help) = retired(cursor, what) {
        return help.to_string();
    }
    if what == MINUTES && found.is_some() && cursor.word_behind() == Some("before") {
        return BETWEEN_JOBS.to_string();
    }
    if cursor.at == 0 && matches!(cursor.word_ahead(1), Some("after" | "before")) {
        return BETWEEN_JOBS.to_string();
    }
    if let Some(help) = found.and_then(|word| other_job(word, cursor.word_ahead(1))) {
        return help.to_string();
    }
    if what == "'min'" && is_range(cursor) {
        return RANGE.to_string();
    }
    if what == "'min'" && cursor.peek() == Some(&Piece::Colon) {
        return "times are minutes from the start of the run, as in '40 min'".to_string();
    }
    let close = found.and_then(|word| closest(word, quoted(what).into_iter()));
    if let Some(word) = close.filter(|word| Some(*word) != found) {
        return format!("did you mean '{word}'?");
    }
    if let Some(name) = name_with_spaces(cursor) {
        return format!("a name with a space stands in quotes: \"{name}\"");
    }
    let first = cursor.tokens.first().map(|token| &token.piece);
    let needs = first == Some(&Piece::Word("need".to_string()));
    match what {
        AFTER_SPAN if needs => {
            "how long a need lasts is said with 'for': 'need codes for 5 min'".into()
        }
        AFTER_SPAN => "say after what, as in '5 min after start'".to_string(),
        EVENTS => "bounds lie between events of this job, such as 'end of need FACT'".to_string(),
        _ if what.starts_with(TAKES) && found.is_none() => {
            "say how long the job takes with 'takes': 'job 10 load-codes takes 30 min'".to_string()
        }
        _ if cursor.at == 0 && found.is_some_and(|word| ["goal", "initial"].contains(&word)) => {
            "it stands after its fact: 'fact volume goal'".to_string()
        }
        _ if what.starts_with("minutes, ") => "write a number and its unit: '30 min'".to_string(),
        "'min'" => "say the unit: 'min' for minutes, 'h' for hours".to_string(),
        "':'" => "between two events and their minutes stands ':'".to_string(),
        "the job's code, a number" => {
            "each job has a number and a name: 'job 10 load-codes'".into()
        }
        _ if what.starts_with("the name") && found.is_none() && cursor.peek().is_some() => {
            "a name begins with a letter, or stands in quotes".to_string()
        }
        _ => String::new(),
    }
}

/// What to say of a word that is meant to tie one job to another.
fn other_job(word: &str, next: Option<&str>) -> Option<&'static str> {
    match (word, next) {
        ("after" | "before", Some("start" | "end")) => {
            Some("say how many minutes, as in '5 min after start', or write 'at start' or 'at end'")
        }
        ("at", _) => Some(PLACES_HELP),
        ("start", _) => Some("nothing of a job comes before its start"),
        ("after" | "before" | "job", _) | ("of", Some(_)) => Some(BETWEEN_JOBS),
        _ => None,
    }
}

/// Whether a word here, with minutes behind it, is meant to say when the job may start.
fn is_start(cursor: &Cursor) -> bool {
    const STARTS: [&str; 9] =
        ["after", "at", "before", "earliest", "from", "release", "since", "start", "starts"];
    let number = |ahead: usize| {
        let token = cursor.tokens.get(cursor.at + ahead);
        token.is_some_and(|token| matches!(token.piece, Piece::Number(_)))
    };
    let word = cursor.peek_word().is_some_and(|word| STARTS.contains(&word));
    word && (number(1) || number(2))
}

/// What to say of a job that is meant to be retired: the word in another place, or another word for it.
fn retired(cursor: &Cursor, what: &str) -> Option<&'static str> {
    const OTHERS: [&str; 7] =
        ["absent", "cancelled", "disabled", "inactive", "obsolete", "removed", "withdrawn"];
    let (found, behind) = (cursor.peek_word()?, cursor.word_behind());
    let in_title = what.contains(RETIRED);
    if in_title && cursor.at == 3 && behind == Some("retired") {
        return Some("the job's name stands before 'retired': 'job 10 load-codes retired'");
    }
    if found == "retired" && cursor.tokens.first()?.piece != Piece::Word("job".to_string()) {
        return Some("it stands behind its job's name: 'job 10 load-codes retired'");
    }
    let other = in_title && OTHERS.contains(&found);
    other.then_some(
        "a job that shall no longer run is marked 'retired': 'job 10 load-codes retired'",
    )
}

/// What to say behind `at`: one of its two places, by a letter or two, or all that can stand there.
fn place_at(found: Option<&str>) -> String {
    match found.and_then(|word| closest(word, ["start", "end"].into_iter())) {
        Some(word) => format!("did you mean '{word}'?"),
        None => PLACES_HELP.to_string(),
    }
}

/// Whether a number stands before this place and one behind it, tied by a dash or a word.
fn is_range(cursor: &Cursor) -> bool {
    let number = |at: Option<usize>| {
        let token = at.and_then(|at| cursor.tokens.get(at));
        token.is_some_and(|token| matches!(token.piece, Piece::Number(_)))
    };
    let here = Some(cursor.at);
    let behind = here.map(|at| at + 1).filter(|_| cursor.peek_word().is_some());
    number(cursor.at.checked_sub(1)) && (number(here) || number(behind))
}

/// The words that stand between single quotes.
fn quoted(what: &str) -> Vec<&str> {
    let words = what.split('\'').skip(1).step_by(2);
    words.flat_map(|words| words.split(' ')).filter(|word| *word != "of").collect()
}

/// The name that the words before and behind this place make, if two names stand side by side.
fn name_with_spaces(cursor: &Cursor) -> Option<String> {
    // Behind a job's name these words begin something else.
    let job = cursor.tokens.first().map(|token| &token.piece) == Some(&Piece::Word("job".into()));
    let clauses: &[&str] =
        if job { &["takes", "optional", "not", "before", "retired"] } else { &["takes"] };
    let plain = |at: usize| match &cursor.tokens.get(at)?.piece {
        Piece::Word(word) => {
            Some(word.as_str()).filter(|word| !clauses.contains(word) && !WORDS.contains(word))
        }
        _ => None,
    };
    let first = plain(cursor.at.checked_sub(1)?)?;
    let mut words = vec![first];
    words.extend((cursor.at..).map_while(plain));
    (words.len() > 1).then(|| words.join(" "))
}
