//! Finds the planner's answer again, with its reasons.

use super::{Absent, Found, Held, Reason, Unordered, Walk};
use crate::answers::Answer;
use crate::decode::decode;
use crate::layout::{LIST_ENTRIES_AT, LIST_ENTRY, LIST_TIME};
use crate::list::Entry;
use crate::model::{Kind, Sheet};
use crate::rules::least::least;
use crate::rules::orders::{Order, Orders};
use crate::rules::present::Present;
use crate::rules::wanted::{wanted, Wanted};
use crate::rules::{list, own, Rule};

fn found(number: u8, detail: usize, reason: Reason) -> Found {
    Found { answer: Answer { number, detail }, reasons: vec![reason], absent: Vec::new() }
}

pub fn find(bytes: &[u8], room: usize) -> Found {
    let sheet = match decode(bytes) {
        Ok(sheet) => sheet,
        Err(fault) => return found(fault.number, 0, Reason::Form(fault)),
    };
    let present = Present::of(&sheet);
    let wanted = wanted(&present);
    let orders = Orders::new(&present, &wanted);
    let found = out_of_class(&present, &wanted, &orders);
    let found = found.unwrap_or_else(|| inside(&present, &wanted, &orders, room));
    Found { absent: absent(&present), ..found }
}

/// The absent jobs, each with the rules that no times meet.
fn absent(present: &Present) -> Vec<Absent> {
    let of = |job: usize| {
        let walk = no_times(present.sheet, &own::rules(present.sheet, job))?;
        Some(Absent { job, walk })
    };
    present.absent().into_iter().filter_map(of).collect()
}

/// The circle, or the chain that passes the horizon; none if there are times that meet the rules.
fn no_times(sheet: &Sheet, rules: &[Rule]) -> Option<Walk> {
    let horizon = i32::from(sheet.horizon);
    let count = sheet.first_event(sheet.jobs.len());
    let least = match least(count, rules) {
        Ok(least) => least,
        Err(steps) => return Some(Walk { circle: true, steps: from_lowest(steps) }),
    };
    let late = least.times.iter().position(|time| *time > horizon)?;
    let mut steps = least.chain(rules, late);
    let mut sum = 0;
    let passes = steps.iter().position(|rule| {
        sum += rule.minutes;
        sum > horizon
    });
    steps.truncate(passes.map_or(steps.len(), |place| place + 1));
    Some(Walk { circle: false, steps })
}

/// The circle from its lowest step on, so that no running sum is negative.
fn from_lowest(mut circle: Vec<Rule>) -> Vec<Rule> {
    let (mut sum, mut lowest) = (0, (0, 0));
    for (place, rule) in circle.iter().enumerate() {
        lowest = lowest.min((sum, place));
        sum += rule.minutes;
    }
    circle.rotate_left(lowest.1);
    circle
}

/// The first class rule that is broken, with the lowest fact that breaks it.
fn out_of_class(present: &Present, wanted: &Wanted, orders: &Orders) -> Option<Found> {
    let sheet = present.sheet;
    let facts = || 0..sheet.facts.len();
    let is_wanted = |fact: usize| wanted.facts[fact].is_some();
    let initial = |fact: usize| sheet.facts[fact].initial;
    let neither = |fact: usize| !orders.last[fact] && !orders.first[fact];
    let setters = |fact: usize| present.jobs_that(Kind::Sets, fact);
    let two = |fact: usize| is_wanted(fact) && !initial(fact) && setters(fact).len() > 1;
    if let Some(fact) = facts().find(|&fact| two(fact)) {
        let (wants, setters) = (wanted.chain(fact), setters(fact));
        return Some(found(20, fact, Reason::TwoSetters { fact, wants, setters }));
    }
    let unordered =
        |fact: usize| is_wanted(fact) && (neither(fact) || initial(fact) && !orders.last[fact]);
    if let Some(fact) = facts().find(|&fact| unordered(fact)) {
        let wants = wanted.chain(fact);
        let tries = tries(sheet, orders, fact, initial(fact));
        return Some(found(21, fact, Reason::NoOrder { fact, wants, tries }));
    }
    let does = |fact: usize, kind: Kind| {
        sheet.jobs_that(kind, fact).iter().any(|&job| wanted.is_wanted(job))
    };
    let idle = |fact: usize| {
        !is_wanted(fact) && does(fact, Kind::Sets) && does(fact, Kind::Clears) && neither(fact)
    };
    let fact = facts().find(|&fact| idle(fact))?;
    let tries = tries(sheet, orders, fact, false);
    Some(found(22, fact, Reason::NoOrder { fact, wants: Vec::new(), tries }))
}

/// For each order that would do, a pair that no fact guards.
fn tries(sheet: &Sheet, orders: &Orders, fact: usize, initial: bool) -> Vec<Unordered> {
    let would_do = [Order::ClearedLast, Order::ClearedFirst];
    let would_do = &would_do[..if initial { 1 } else { 2 }];
    let unordered = |&order: &Order| {
        let pair = orders.unguarded(fact, order)?;
        let candidate = |guard| orders.candidate(fact, order, pair, guard);
        let candidates = (0..sheet.facts.len()).map(candidate).collect();
        Some(Unordered { order, pair, candidates })
    };
    would_do.iter().filter_map(unordered).collect()
}

/// Inside the class: a plan, or all that stands against one.
fn inside(present: &Present, wanted: &Wanted, orders: &Orders, room: usize) -> Found {
    let sheet = present.sheet;
    let mut reasons = Vec::new();
    let lacks = |fact: &usize| {
        let set = || !present.jobs_that(Kind::Sets, *fact).is_empty();
        wanted.facts[*fact].is_some() && !sheet.facts[*fact].initial && !set()
    };
    if let Some(fact) = (0..sheet.facts.len()).find(lacks) {
        let (wants, absent) = (wanted.chain(fact), present.absent_setters(fact));
        reasons.push(Reason::NoSource { fact, wants, absent });
    }
    let clearers = |fact: usize| {
        let mut jobs = sheet.jobs_that(Kind::Clears, fact);
        jobs.retain(|&job| wanted.is_wanted(job));
        jobs
    };
    let spoiled =
        |fact: &usize| sheet.facts[*fact].goal && orders.last[*fact] && !clearers(*fact).is_empty();
    if let Some(fact) = (0..sheet.facts.len()).find(spoiled) {
        reasons.push(Reason::GoalCleared { fact, jobs: clearers(fact) });
    }
    let rules = list::rules(sheet, wanted, orders);
    reasons.extend(no_times(sheet, &rules).map(|walk| Reason::NoTimes { walk }));
    if reasons.is_empty() {
        return planned(sheet, wanted, &rules, room);
    }
    Found { answer: Answer { number: 1, detail: 0 }, reasons, absent: Vec::new() }
}

fn planned(sheet: &Sheet, wanted: &Wanted, rules: &[Rule], room: usize) -> Found {
    let count = sheet.first_event(sheet.jobs.len());
    let least = least(count, rules).unwrap_or_else(|_| unreachable!("there are times"));
    let (mut entries, mut steps) = (Vec::new(), Vec::new());
    for job in (0..sheet.jobs.len()).filter(|&job| wanted.is_wanted(job)) {
        let first = sheet.first_event(job);
        let events = first..first + sheet.jobs[job].events.len();
        let minute = |event: usize| least.times[event] as u16;
        entries.push(Entry { job, times: events.clone().map(minute).collect() });
        let held = |event| Held { event, minute: minute(event), by: least.hold(rules, event) };
        steps.extend(events.map(held));
    }
    let times: usize = entries.iter().map(|entry| entry.times.len()).sum();
    let length = LIST_ENTRIES_AT + LIST_ENTRY * entries.len() + LIST_TIME * times;
    if length > room {
        return found(30, length, Reason::TooLong { length, room });
    }
    // The last step; of several, that with the lowest number.
    let last = steps.iter().rev().max_by_key(|held| held.minute);
    let chain = last.map_or(Vec::new(), |held| least.chain(rules, held.event));
    let finish = Walk { circle: false, steps: chain };
    found(0, length, Reason::Plan { entries, steps, finish })
}
