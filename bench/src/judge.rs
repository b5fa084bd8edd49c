//! A judge in the same manner: the events of each fact sorted by tick, sources by binary search.

use crate::sheet::{number, Sheet, BEGINS, CLEARS, SETS};

/// Number and detail.
pub fn judge(sheet: &[u8], list: &[u8]) -> (u8, usize) {
    let sheet = match Sheet::read(sheet) {
        Ok(sheet) => sheet,
        Err(number) => return (number, 0),
    };
    let Some(entries) = entries(&sheet, list) else {
        return (40, 0);
    };
    let number = if is_plan(&sheet, list, &entries) { 0 } else { 41 };
    (number, 0)
}

/// A job, and where its times start.
struct Entry {
    job: usize,
    start: usize,
}

fn entries(sheet: &Sheet, list: &[u8]) -> Option<Vec<Entry>> {
    if list.get(..2)? != [1, 0] || list.len() < 4 {
        return None;
    }
    let count = usize::from(number(list, 2));
    let heads = list.get(4..4 + 4 * count).filter(|_| count <= 64)?;
    let mut start = 4 + 4 * count;
    let first = start;
    let mut entries = Vec::with_capacity(count);
    for head in heads.chunks_exact(4) {
        let job = sheet.codes.binary_search(&number(head, 0)).ok()?;
        if usize::from(number(head, 2)) != start {
            return None;
        }
        entries.push(Entry { job, start });
        start += 2 * sheet.events_of(job).len();
    }
    (start == list.len() && start - first <= 1024).then_some(entries)
}

/// A tick with the entry it belongs to; by tick.
type Deed = (i32, u8);

/// A need of an entry.
struct Need {
    fact: u8,
    entry: u8,
    begin: i32,
    end: i32,
}

struct Deeds {
    sets: Vec<Vec<Deed>>,
    clears: Vec<Vec<Deed>>,
    needs: Vec<Need>,
}

fn is_plan(sheet: &Sheet, list: &[u8], entries: &[Entry]) -> bool {
    let mut deeds = Deeds {
        sets: vec![Vec::new(); sheet.facts],
        clears: vec![Vec::new(); sheet.facts],
        needs: Vec::with_capacity(256),
    };
    for (place, entry) in entries.iter().enumerate() {
        if !collect(sheet, list, entry, place as u8, &mut deeds) {
            return false;
        }
    }
    deeds.sets.iter_mut().chain(&mut deeds.clears).for_each(|all| all.sort_unstable());
    let facts = 0..sheet.facts;
    !facts.clone().any(|fact| clash(&deeds.sets[fact], &deeds.clears[fact]))
        && deeds.needs.iter().all(|need| has_source(sheet, &deeds, need))
        && facts.into_iter().all(|fact| reaches_goal(sheet, &deeds, fact))
}

/// Point 1 and the window, and the entry's deeds noted by fact.
fn collect(sheet: &Sheet, list: &[u8], entry: &Entry, place: u8, deeds: &mut Deeds) -> bool {
    let events = sheet.events_of(entry.job);
    let first = events.start;
    let time = |event: usize| i32::from(number(list, entry.start + 2 * (event - first)));
    let window = i32::from(sheet.releases[entry.job])..=sheet.horizon;
    for number in events {
        let tick = time(number);
        let rules = sheet.forward.of(number as u8);
        let met = rules.iter().all(|r| time(usize::from(r.to)) >= tick + i32::from(r.gap));
        if !window.contains(&tick) || !met {
            return false;
        }
        let event = sheet.events[number];
        let fact = usize::from(event.fact);
        match event.kind {
            BEGINS => deeds.needs.push(Need {
                fact: event.fact,
                entry: place,
                begin: tick,
                end: time(number + 1),
            }),
            SETS => deeds.sets[fact].push((tick, place)),
            CLEARS => deeds.clears[fact].push((tick, place)),
            _ => {}
        }
    }
    true
}

/// Some set and some clear share a tick.
fn clash(sets: &[Deed], clears: &[Deed]) -> bool {
    let (mut set, mut clear) = (0, 0);
    while set < sets.len() && clear < clears.len() {
        match sets[set].0.cmp(&clears[clear].0) {
            std::cmp::Ordering::Equal => return true,
            std::cmp::Ordering::Less => set += 1,
            std::cmp::Ordering::Greater => clear += 1,
        }
    }
    false
}

fn has_source(sheet: &Sheet, deeds: &Deeds, need: &Need) -> bool {
    let fact = usize::from(need.fact);
    let clears = &deeds.clears[fact];
    // The last clear less than a gap after the end, own ones from the end on left out.
    let upto = clears.partition_point(|clear| clear.0 < need.end + sheet.gap);
    let harms = |clear: &&Deed| clear.1 != need.entry || clear.0 < need.end;
    let Some(&(clear, _)) = clears[..upto].iter().rev().find(harms) else {
        return sheet.initial >> fact & 1 == 1 || set_between(sheet, deeds, need, 0);
    };
    set_between(sheet, deeds, need, clear)
}

/// Some set from this tick on serves the need: any a gap before it, or its own.
fn set_between(sheet: &Sheet, deeds: &Deeds, need: &Need, from: i32) -> bool {
    let sets = &deeds.sets[usize::from(need.fact)];
    let before = sets.partition_point(|set| set.0 + sheet.gap <= need.begin);
    let own = |set: &Deed| set.1 == need.entry && set.0 >= from;
    before > 0 && sets[before - 1].0 >= from
        || sets[before..].iter().take_while(|set| set.0 <= need.begin).any(own)
}

fn reaches_goal(sheet: &Sheet, deeds: &Deeds, fact: usize) -> bool {
    if sheet.goals >> fact & 1 == 0 {
        return true;
    }
    match (deeds.sets[fact].last(), deeds.clears[fact].last()) {
        (set, None) => sheet.initial >> fact & 1 == 1 || set.is_some(),
        (set, Some(clear)) => set.is_some_and(|set| set.0 > clear.0),
    }
}
