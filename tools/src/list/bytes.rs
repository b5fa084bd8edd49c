//! A list's bytes to its entries, or to the fault for which the judge refuses them, and back.

use super::Entry;
use crate::fault::{Body, Fault};
use crate::layout::{
    two, LIST_COUNT_AT, LIST_ENTRIES_AT, LIST_ENTRY, LIST_OPENING, LIST_TIME, MAX_ENTRIES,
    MAX_TIMES,
};
use crate::model::Sheet;

/// The answer for a list whose form is broken.
const BAD_LIST: u8 = 40;

/// The entries of a list for this sheet.
pub fn decode(sheet: &Sheet, bytes: &[u8]) -> Result<Vec<Entry>, Fault> {
    let list = Body { number: BAD_LIST, name: "list", start: 0, bytes };
    let count = read_head(&list)?;
    let mut entries: Vec<Entry> = Vec::new();
    let mut start = LIST_ENTRIES_AT + LIST_ENTRY * count;
    let mut times = 0;
    for row in 0..count {
        let entry = read_entry(&list, sheet, row, start).map_err(|fault| fault.in_row(row))?;
        times += entry.times.len();
        if times > MAX_TIMES {
            let rule = ("times-most", format!("a list holds at most {MAX_TIMES} times"));
            return Err(list.fault(start, format!("{times} times so far"), rule).in_row(row));
        }
        start += LIST_TIME * entry.times.len();
        entries.push(entry);
    }
    if start != bytes.len() {
        let rule = ("list-ends", "the last body ends with the list".to_string());
        return Err(list.fault(start, format!("{} bytes more", bytes.len() - start), rule));
    }
    Ok(entries)
}

/// The count of entries.
fn read_head(list: &Body) -> Result<usize, Fault> {
    let length = list.bytes.len();
    let short = format!("the end of the list, after {length} bytes");
    if length < LIST_ENTRIES_AT {
        let rule = ("list-head", format!("a list begins with {LIST_ENTRIES_AT} bytes"));
        return Err(list.fault(length, short, rule));
    }
    for (at, due) in LIST_OPENING.into_iter().enumerate() {
        if list.bytes[at] != due {
            let rule = ("list-opening", format!("byte {at} of a list is {due}"));
            return Err(list.fault(at, list.bytes[at].to_string(), rule));
        }
    }
    let count = usize::from(two(list.bytes, LIST_COUNT_AT));
    if count > MAX_ENTRIES {
        let rule = ("entries-most", format!("a list holds at most {MAX_ENTRIES} entries"));
        return Err(list.fault(LIST_COUNT_AT, format!("count {count}"), rule));
    }
    if length < LIST_ENTRIES_AT + LIST_ENTRY * count {
        let rule = ("entries-fit", format!("{count} entries of {LIST_ENTRY} bytes come first"));
        return Err(list.fault(length, short, rule));
    }
    Ok(count)
}

/// The entry of this row; its body starts where the last one ended.
fn read_entry(list: &Body, sheet: &Sheet, row: usize, start: usize) -> Result<Entry, Fault> {
    let at = LIST_ENTRIES_AT + LIST_ENTRY * row;
    let (code, offset) = (two(list.bytes, at), usize::from(two(list.bytes, at + 2)));
    let Some(job) = sheet.jobs.iter().position(|job| job.code == code) else {
        let rule = ("code-known", "the code is that of a job in the sheet".to_string());
        return Err(list.fault(at, format!("code {code}"), rule));
    };
    if offset != start {
        let rule = ("list-offset", format!("a body starts where the last one ends, at {start}"));
        return Err(list.fault(at + 2, format!("offset {offset}"), rule));
    }
    let count = sheet.jobs[job].events.len();
    let Some(body) = list.bytes.get(start..start + LIST_TIME * count) else {
        let found = format!("the end of the list, after {} bytes", list.bytes.len());
        let rule = ("times-fit", format!("job {code} has {count} events, two bytes for each"));
        return Err(list.fault(list.bytes.len(), found, rule));
    };
    Ok(Entry { job, times: body.chunks(LIST_TIME).map(|time| two(time, 0)).collect() })
}

/// The bytes of these entries.
pub fn encode(sheet: &Sheet, entries: &[Entry]) -> Vec<u8> {
    let mut bytes = LIST_OPENING.to_vec();
    bytes.extend((entries.len() as u16).to_le_bytes());
    let mut start = LIST_ENTRIES_AT + LIST_ENTRY * entries.len();
    for entry in entries {
        bytes.extend(sheet.jobs[entry.job].code.to_le_bytes());
        bytes.extend((start as u16).to_le_bytes());
        start += LIST_TIME * entry.times.len();
    }
    for time in entries.iter().flat_map(|entry| &entry.times) {
        bytes.extend(time.to_le_bytes());
    }
    bytes
}
