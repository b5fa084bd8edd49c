//! Wrong ways to take several bounds of one pair of events, and wrong rules for the order of rows.

use super::{limited, reading, seeing, Wrong, UNCHANGED};
use crate::bounds::Span;
use crate::build::{bound_row, Bodies};
use crate::model::limits::{Limits, LIMITS};
use crate::model::sheet::{self, number, MAX_BOUNDS};
use crate::planner_model::Look;

/// Wrong planners and judges that are right as long as no pair has several bounds.
pub fn of_several_rows() -> Vec<(&'static str, Wrong)> {
    vec![
        ("the first row alone", reading(|bodies| look_up(bodies, |rows| rows[0]))),
        ("the last row alone", reading(|bodies| look_up(bodies, |rows| rows[rows.len() - 1]))),
        ("one row too few", reading(|bodies| look_up(bodies, all_but_the_last))),
        ("a none loosens", reading(|bodies| look_up(bodies, none_loosens))),
        (
            "the greatest high",
            reading(|bodies| look_up(bodies, |r| (greatest_low(r), widest(r).1))),
        ),
        ("the least low", reading(|bodies| look_up(bodies, |r| (widest(r).0, least_high(r))))),
        (
            "the judge by the first row",
            Wrong { judged: |bodies| look_up(bodies, |rows| rows[0]), ..UNCHANGED },
        ),
        ("orders by the first row", seeing(|look| !matches!(look, Look::LaterBounds { .. }))),
        ("crossing rows are 14", reading(crossing_is_14)),
        ("a pair twice is 14", reading(twice_is_14)),
    ]
}

/// Wrong readers: of the rows of one pair, and of the order of bounds, events and codes.
pub fn of_row_order() -> Vec<(&'static str, Wrong)> {
    let bounds = MAX_BOUNDS + 1;
    vec![
        ("257 rows at most", limited(Limits { bounds, ..LIMITS })),
        ("the first row alone is tested", reading(test_the_first)),
        ("a row may cross itself", reading(cross_themselves)),
        ("a pair may come back", reading(gathered)),
        ("a pair may fall", reading(sorted)),
        ("(e, d) and (d, e) are one pair", reading(turned)),
        ("codes may be equal", reading(equal_codes)),
        ("events may be equal", reading(equal_events)),
    ]
}

/// The bound of a pair by its rows.
type Lookup = fn(&[Span]) -> Span;

fn greatest_low(rows: &[Span]) -> i16 {
    rows.iter().map(|row| row.0).max().unwrap_or(i16::MIN)
}

fn least_high(rows: &[Span]) -> i16 {
    rows.iter().map(|row| row.1).min().unwrap_or(i16::MAX)
}

/// The least low, and the greatest high.
fn widest(rows: &[Span]) -> Span {
    let low = rows.iter().map(|row| row.0).min();
    (low.unwrap_or(i16::MIN), rows.iter().map(|row| row.1).max().unwrap_or(i16::MAX))
}

fn all_but_the_last(rows: &[Span]) -> Span {
    let rows = &rows[..rows.len() - 1];
    (greatest_low(rows), least_high(rows))
}

fn none_loosens(rows: &[Span]) -> Span {
    let (low, high) = widest(rows);
    let low = if low == i16::MIN { low } else { greatest_low(rows) };
    (low, if high == i16::MAX { high } else { least_high(rows) })
}

/// The rows of each pair, where the sheet is well formed.
fn groups(bodies: &Bodies) -> Option<Vec<Vec<&[u8]>>> {
    let good = sheet::read(&bodies.bytes()).is_ok();
    let mut groups: Vec<Vec<&[u8]>> = Vec::new();
    for row in bodies.bounds.chunks_exact(6) {
        match groups.last_mut().filter(|group| group[0][..2] == row[..2]) {
            Some(group) => group.push(row),
            None => groups.push(vec![row]),
        }
    }
    good.then_some(groups)
}

fn span(row: &[u8]) -> Span {
    (number(row, 2) as i16, number(row, 4) as i16)
}

fn spans(rows: &[&[u8]]) -> Vec<Span> {
    rows.iter().map(|row| span(row)).collect()
}

/// A pair with several rows gets this bound.
fn look_up(bodies: &mut Bodies, lookup: Lookup) {
    let Some(groups) = groups(bodies) else {
        return;
    };
    let rows = groups.into_iter().flat_map(|rows| {
        if rows.len() == 1 {
            return rows[0].to_vec();
        }
        two_rows(rows[0][0], rows[0][1], lookup(&spans(&rows)))
    });
    bodies.bounds = rows.collect();
}

fn crossing_is_14(bodies: &mut Bodies) {
    let crosses = |rows: &Vec<&[u8]>| greatest_low(&spans(rows)) > least_high(&spans(rows));
    if groups(bodies).is_some_and(|groups| groups.iter().any(crosses)) {
        bodies.bounds.push(0);
    }
}

fn twice_is_14(bodies: &mut Bodies) {
    if groups(bodies).is_some_and(|groups| groups.iter().any(|rows| rows.len() > 1)) {
        bodies.bounds.push(0);
    }
}

/// A row of the same pair as the one before it is taken for that one.
fn test_the_first(bodies: &mut Bodies) {
    let mut rows: Vec<Vec<u8>> = bodies.bounds.chunks(6).map(<[u8]>::to_vec).collect();
    for place in 1..rows.len() {
        if rows[place].starts_with(&rows[place - 1][..2]) {
            rows[place] = rows[place - 1].clone();
        }
    }
    bodies.bounds = rows.concat();
}

/// A row with its low above its high is taken for two rows.
fn cross_themselves(bodies: &mut Bodies) {
    let rows = bodies.bounds.chunks(6).flat_map(|row| match row {
        [e, d, ..] if row.len() == 6 && span(row).0 > span(row).1 => two_rows(*e, *d, span(row)),
        row => row.to_vec(),
    });
    bodies.bounds = rows.collect();
}

/// The low in one row, the high in another: they may cross.
fn two_rows(e: u8, d: u8, (low, high): Span) -> Vec<u8> {
    [bound_row(e, d, low, i16::MAX), bound_row(e, d, i16::MIN, high)].concat()
}

/// The rows of a body, sorted by key; equal ones keep their order.
fn by_key<K: Ord>(body: &[u8], size: usize, key: impl Fn(&[u8]) -> K) -> Vec<u8> {
    let mut rows: Vec<&[u8]> = body.chunks_exact(size).collect();
    rows.sort_by_key(|row| key(row));
    rows.concat()
}

/// Rows in any order are taken for the sorted ones.
fn sorted(bodies: &mut Bodies) {
    if bodies.bounds.len() % 6 == 0 {
        bodies.bounds = by_key(&bodies.bounds, 6, |row| (row[0], row[1]));
    }
}

/// A row whose pair stood before is taken to stand there; a pair that falls and is new stays where it is.
fn gathered(bodies: &mut Bodies) {
    if bodies.bounds.len() % 6 == 0 {
        let rows: Vec<[u8; 2]> =
            bodies.bounds.chunks_exact(6).map(|row| [row[0], row[1]]).collect();
        let first = |row: &[u8]| rows.iter().position(|pair| *pair == row[..2]);
        bodies.bounds = by_key(&bodies.bounds, 6, first);
    }
}

/// Rows of (d, e) right behind those of (e, d) are taken for rows of it.
fn turned(bodies: &mut Bodies) {
    if groups(bodies).is_some() {
        let mut last = [0; 2];
        for row in bodies.bounds.chunks_exact_mut(6) {
            if [row[1], row[0]] == last {
                row.swap(0, 1);
            }
            last = [row[0], row[1]];
        }
    }
}

/// The second of two equal codes is taken for the next one.
fn equal_codes(bodies: &mut Bodies) {
    let size = sheet::job_row(bodies.edition);
    let codes: Vec<u16> = bodies.jobs.chunks_exact(size).map(|row| number(row, 0)).collect();
    if let Some(place) = codes.windows(2).position(|two| two[0] == two[1]) {
        let code = codes[place].wrapping_add(1).to_le_bytes();
        bodies.jobs[(place + 1) * size..][..2].copy_from_slice(&code);
    }
}

/// The second of two equal events is passed over.
fn equal_events(bodies: &mut Bodies) {
    let mut rows: Vec<&[u8]> = bodies.events.chunks(3).collect();
    rows.dedup();
    bodies.events = rows.concat();
}
