//! Whether the rule that a fault of form names is broken where it says, from the bytes alone.

use super::json::Value;

fn two(bytes: &[u8], at: usize) -> usize {
    usize::from(bytes[at]) + 256 * usize::from(bytes[at + 1])
}

fn signed(bytes: &[u8], at: usize) -> i64 {
    let value = two(bytes, at) as i64;
    if value < 32_768 {
        value
    } else {
        value - 65_536
    }
}

/// A fault of the sheet: 10 to 14.
pub fn sheet_fault(bytes: &[u8], number: i64, fault: &Value) {
    let byte = fault.get("byte").place();
    let row = fault.get("row").some().map(Value::place);
    let bodies = ["contents", "facts", "jobs", "events", "bounds"];
    assert_eq!(bodies[number as usize - 10], fault.get("body").text());
    assert!(byte <= bytes.len());
    let rule = fault.get("rule").text();
    let broken = match number {
        10 => contents(bytes, rule, byte, row),
        11 => facts(bytes, rule, byte, row),
        12 => jobs(bytes, rule, byte, row),
        13 => events(bytes, rule, byte, row),
        _ => bounds(bytes, rule, byte, row),
    };
    assert!(broken, "not broken: {fault:?}\n{bytes:02x?}");
}

/// Where the bodies before this one end, by their lengths.
fn start(bytes: &[u8], body: usize) -> usize {
    26 + (0..body).map(|k| two(bytes, 6 + 6 * k)).sum::<usize>()
}

fn body(bytes: &[u8], number: usize) -> &[u8] {
    let start = start(bytes, number);
    &bytes[start..start + two(bytes, 6 + 6 * number)]
}

/// The head of the facts body and the row of a job, by edition.
fn sizes(bytes: &[u8]) -> (usize, usize) {
    match bytes[0] {
        1 => (3, 2),
        _ => (6, 4),
    }
}

fn contents(bytes: &[u8], rule: &str, byte: usize, row: Option<usize>) -> bool {
    let entry = 2 + 6 * row.unwrap_or(0);
    match rule {
        "contents-length" => bytes.len() < 26 && byte == bytes.len(),
        "edition" => bytes[0] != 1 && bytes[0] != 2 && byte == 0,
        "parts" => bytes[1] != 4 && byte == 1,
        "kind" => byte == entry && usize::from(bytes[entry]) != row.unwrap() + 1,
        "zero" => byte == entry + 1 && bytes[byte] != 0,
        "offset" => byte == entry + 2 && two(bytes, byte) != start(bytes, row.unwrap()),
        "length" => byte == entry + 4 && start(bytes, row.unwrap() + 1) > bytes.len(),
        "sheet-ends" => byte == start(bytes, 4) && byte < bytes.len(),
        _ => panic!("unknown rule {rule}"),
    }
}

fn facts(bytes: &[u8], rule: &str, byte: usize, row: Option<usize>) -> bool {
    let (at, body) = (start(bytes, 0), body(bytes, 0));
    let (head, _) = sizes(bytes);
    match rule {
        "facts-head" => body.len() < head,
        "gap" => bytes[0] == 2 && byte == at + 3 && body[3] > 60,
        "facts-most" => byte == at && body[0] > 64,
        "horizon" => byte == at + 1 && two(body, 1) > 10_080,
        "facts-length" => byte == at && body.len() != head + usize::from(body[0]),
        "mark" => byte == at + head + row.unwrap() && bytes[byte] > 3,
        _ => panic!("unknown rule {rule}"),
    }
}

/// Rules that all bodies of rows share.
fn rows(rule: &str, body: &[u8], size: usize, most: usize) -> Option<bool> {
    match rule {
        "rows-whole" => Some(body.len() % size != 0),
        "rows-most" => Some(body.len() / size > most),
        _ => None,
    }
}

fn jobs(bytes: &[u8], rule: &str, byte: usize, row: Option<usize>) -> bool {
    let (body, size) = (body(bytes, 1), sizes(bytes).1);
    if let Some(broken) = rows(rule, body, size, 32) {
        return broken;
    }
    let row = row.unwrap();
    assert_eq!((rule, byte), ("codes-rise", start(bytes, 1) + size * row));
    row > 0 && two(body, size * row) <= two(body, size * row - size)
}

fn events(bytes: &[u8], rule: &str, byte: usize, row: Option<usize>) -> bool {
    let body = body(bytes, 2);
    if let Some(broken) = rows(rule, body, 3, 256) {
        return broken;
    }
    let at = 3 * row.unwrap();
    let place = byte - start(bytes, 2) - at;
    // Job, fact, type.
    let key = |at: usize| (body[at], body[at + 2], body[at + 1]);
    let other = |at: usize| (body[at], body[at + 2], 1 - body[at + 1]);
    match rule {
        "job-exists" => {
            place == 0 && usize::from(body[at]) >= self::body(bytes, 1).len() / sizes(bytes).1
        }
        "type" => place == 1 && body[at + 1] > 3,
        "fact-exists" => place == 2 && body[at + 2] >= self::body(bytes, 0)[0],
        "events-rise" => place == 0 && at > 0 && key(at) <= key(at - 3),
        "both-ends" => {
            let all = (0..body.len() / 3).map(|row| key(3 * row));
            body[at + 1] < 2 && all.into_iter().all(|found| found != other(at))
        }
        _ => panic!("unknown rule {rule}"),
    }
}

fn bounds(bytes: &[u8], rule: &str, byte: usize, row: Option<usize>) -> bool {
    let body = body(bytes, 3);
    if let Some(broken) = rows(rule, body, 6, 256) {
        return broken;
    }
    let at = 6 * row.unwrap();
    let place = byte - start(bytes, 3) - at;
    let events = self::body(bytes, 2);
    let job = |event: u8| events[3 * usize::from(event)];
    let (e, d) = (body[at], body[at + 1]);
    let (low, high) = (signed(body, at + 2), signed(body, at + 4));
    let outside = |value: i64| value.abs() > 10_080;
    match rule {
        "event-exists" => place < 2 && usize::from(body[at + place]) >= events.len() / 3,
        "one-job" => job(e) != job(d),
        "two-events" => e == d,
        "bounds-rise" => place == 0 && at > 0 && (e, d) < (body[at - 6], body[at - 5]),
        "low" => place == 2 && low != -32_768 && outside(low),
        "high" => place == 4 && high != 32_767 && outside(high),
        "low-high" => low > high,
        _ => panic!("unknown rule {rule}"),
    }
}

/// A fault of the list: 40. `events` gives the count of events of the job with a code, if there is one.
pub fn list_fault(bytes: &[u8], events: impl Fn(usize) -> Option<usize>, fault: &Value) {
    let byte = fault.get("byte").place();
    let rule = fault.get("rule").text();
    let entry = |row: usize| 4 + 4 * row;
    let count = if bytes.len() < 4 { 0 } else { two(bytes, 2) };
    // Where the body of this row starts.
    let start = |row: usize| {
        let lengths = (0..row).map(|k| 2 * events(two(bytes, entry(k))).unwrap());
        entry(count) + lengths.sum::<usize>()
    };
    let row = fault.get("row").some().map_or(0, Value::place);
    let broken = match rule {
        "list-head" => bytes.len() < 4,
        "list-opening" => byte < 2 && bytes[byte] != [1, 0][byte],
        "entries-most" => byte == 2 && count > 64,
        "entries-fit" => bytes.len() < entry(count),
        "code-known" => byte == entry(row) && events(two(bytes, byte)).is_none(),
        "list-offset" => byte == entry(row) + 2 && two(bytes, byte) != start(row),
        "times-fit" => bytes.len() < start(row + 1),
        "times-most" => start(row + 1) - entry(count) > 2 * 512,
        "list-ends" => byte == start(count) && byte < bytes.len(),
        _ => panic!("unknown rule {rule}"),
    };
    assert!(broken && byte <= bytes.len(), "not broken: {fault:?}\n{bytes:02x?}");
}
