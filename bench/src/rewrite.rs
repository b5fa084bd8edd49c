//! Rewriting to the other edition: the sheet is read as for planning, and its bodies are copied.

use crate::sheet::{Said, PLAIN_GAP};

/// Number and detail; the sheet of edition 2 goes to the front of the buffer.
pub fn to_edition_2(sheet: &[u8], buffer: &mut [u8]) -> (u8, usize) {
    let said = match read(1, sheet) {
        Ok(said) => said,
        Err(number) => return (number, 0),
    };
    let [facts, jobs, events, bounds] = said.bodies;
    let lengths = [facts.len() + 3, 2 * jobs.len(), events.len(), bounds.len()];
    write(2, lengths, buffer, |out| {
        let (head, out) = out.split_at_mut(6);
        head[..3].copy_from_slice(&facts[..3]);
        head[3..].copy_from_slice(&[PLAIN_GAP, 0, 0]);
        let (marks, out) = out.split_at_mut(facts.len() - 3);
        marks.copy_from_slice(&facts[3..]);
        let (rows, out) = out.split_at_mut(2 * jobs.len());
        for (row, code) in rows.chunks_exact_mut(4).zip(jobs.chunks_exact(2)) {
            row[..2].copy_from_slice(code);
            row[2..].fill(0);
        }
        out[..events.len()].copy_from_slice(events);
        out[events.len()..].copy_from_slice(bounds);
    })
}

/// And back.
pub fn to_edition_1(sheet: &[u8], buffer: &mut [u8]) -> (u8, usize) {
    let said = match read(2, sheet) {
        Ok(said) => said,
        Err(number) => return (number, 0),
    };
    let released = said.jobs.releases.iter().any(|release| *release != 0);
    if said.facts.gap != PLAIN_GAP || said.facts.revision != 0 || released {
        return (50, 0);
    }
    let [facts, jobs, events, bounds] = said.bodies;
    let lengths = [facts.len() - 3, jobs.len() / 2, events.len(), bounds.len()];
    write(1, lengths, buffer, |out| {
        let (head, out) = out.split_at_mut(3);
        head.copy_from_slice(&facts[..3]);
        let (marks, out) = out.split_at_mut(facts.len() - 6);
        marks.copy_from_slice(&facts[6..]);
        let (rows, out) = out.split_at_mut(jobs.len() / 2);
        for (code, row) in rows.chunks_exact_mut(2).zip(jobs.chunks_exact(4)) {
            code.copy_from_slice(&row[..2]);
        }
        out[..events.len()].copy_from_slice(events);
        out[events.len()..].copy_from_slice(bounds);
    })
}

fn read(edition: u8, sheet: &[u8]) -> Result<Said<'_>, u8> {
    match sheet.first() {
        Some(first) if *first == edition => Said::by(sheet),
        _ => Err(10),
    }
}

/// The contents, and the bodies by `fill`, if there is room.
fn write(
    edition: u8,
    lengths: [usize; 4],
    buffer: &mut [u8],
    fill: impl FnOnce(&mut [u8]),
) -> (u8, usize) {
    let length = 26 + lengths.iter().sum::<usize>();
    let Some(out) = buffer.get_mut(..length) else {
        return (30, length);
    };
    out[..2].copy_from_slice(&[edition, 4]);
    let mut start = 26;
    for (part, length) in lengths.into_iter().enumerate() {
        let entry = &mut out[2 + 6 * part..8 + 6 * part];
        entry[..2].copy_from_slice(&[part as u8 + 1, 0]);
        entry[2..4].copy_from_slice(&(start as u16).to_le_bytes());
        entry[4..].copy_from_slice(&(length as u16).to_le_bytes());
        start += length;
    }
    fill(&mut out[26..]);
    (0, length)
}
