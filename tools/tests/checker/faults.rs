//! The faults of a list that is not a plan: each is true, and none of the model's is missing.

use super::json::Value;
use super::tightest;
use corrumai_tests::model::list::Instance;
use corrumai_tests::model::plan::{faults, Fault};
use corrumai_tests::model::sheet::{Kind, Sheet};
use std::collections::BTreeSet;

/// So many are named.
const MOST: usize = 20;

pub fn check(sheet: &Sheet, plan: &[Instance], reason: &Value) -> Vec<String> {
    assert_eq!(reason.get("kind").text(), "faults");
    let list = List { sheet, plan };
    let named = reason.get("faults").list();
    let found: BTreeSet<String> = named.iter().map(|fault| list.fault(fault)).collect();
    let due: BTreeSet<String> = faults(sheet, plan).into_iter().map(words).collect();
    if reason.get("more").place() == 0 {
        assert_eq!(found, due);
    } else {
        assert!(named.len() == MOST && found.is_subset(&due));
    }
    named.iter().map(|fault| fault.get("kind").text().to_string()).collect()
}

fn words(fault: Fault) -> String {
    match fault {
        Fault::Window { entry } => format!("window {entry}"),
        Fault::OwnTimes { entry } => format!("own {entry}"),
        Fault::Clash { fact } => format!("clash {fact}"),
        Fault::Need { entry, fact } => format!("need {entry} {fact}"),
        Fault::Goal { fact } => format!("goal {fact}"),
    }
}

struct List<'a> {
    sheet: &'a Sheet,
    plan: &'a [Instance],
}

impl List<'_> {
    fn minute(&self, entry: usize, kind: Kind, fact: usize) -> Option<i64> {
        let job = self.plan[entry].job;
        let event = self.sheet.event(job, kind, fact)?;
        let place = self.sheet.events_of(job).iter().position(|k| *k == event)?;
        Some(i64::from(self.plan[entry].times[place]))
    }

    fn at(&self, happening: &Value, kind: Kind, fact: usize) -> (usize, i64) {
        let (entry, minute) = (happening.get("entry").place(), happening.get("minute").number());
        assert_eq!(self.minute(entry, kind, fact), Some(minute));
        (entry, minute)
    }

    /// The fault is true; gives the model's words for it.
    fn fault(&self, fault: &Value) -> String {
        let entry = || fault.get("entry").place();
        let fact = || fault.get("fact").place();
        let minutes = || {
            let both = fault.get("minutes").list();
            (both[0].number(), both[1].number())
        };
        let point = |due: i64| assert_eq!(fault.get("point").number(), due);
        match fault.get("kind").text() {
            "window" => {
                assert!(self.step(fault, entry()) > i64::from(self.sheet.horizon));
                format!("window {}", entry())
            }
            "release" => {
                point(1);
                let minute = self.step(fault, entry());
                assert!(minute < i64::from(self.sheet.releases[self.plan[entry()].job]));
                format!("window {}", entry())
            }
            "bound" => {
                point(1);
                self.bound(fault, entry(), minutes());
                format!("own {}", entry())
            }
            "need" => {
                point(1);
                assert_eq!(self.need(entry(), fact()), minutes());
                assert!(minutes().0 > minutes().1);
                format!("own {}", entry())
            }
            "clash" => {
                point(2);
                let (_, set) = self.at(fault.get("set"), Kind::Sets, fact());
                let (_, clear) = self.at(fault.get("clear"), Kind::Clears, fact());
                assert_eq!(set, clear);
                format!("clash {}", fact())
            }
            "unserved" => {
                point(3);
                assert_eq!(self.need(entry(), fact()), minutes());
                self.sources(fault, fact(), Some((entry(), minutes())));
                format!("need {} {}", entry(), fact())
            }
            "goal" => {
                point(4);
                assert!(self.sheet.facts[fact()].goal);
                self.sources(fault, fact(), None);
                format!("goal {}", fact())
            }
            kind => panic!("unknown fault {kind}"),
        }
    }

    /// The minute of the event that the fault names.
    fn step(&self, fault: &Value, entry: usize) -> i64 {
        let event = self.sheet.events[fault.get("event").place()];
        let minute = self.minute(entry, event.kind, event.fact).unwrap();
        assert_eq!((fault.get("minute").number(), event.job), (minute, self.plan[entry].job));
        minute
    }

    fn need(&self, entry: usize, fact: usize) -> (i64, i64) {
        let at = |kind| self.minute(entry, kind, fact).unwrap();
        (at(Kind::Begins), at(Kind::Ends))
    }

    fn bound(&self, fault: &Value, entry: usize, (one, other): (i64, i64)) {
        let bound = &self.sheet.bounds[fault.get("row").place()];
        let events: Vec<usize> = fault.get("events").list().iter().map(Value::place).collect();
        assert_eq!(events, [bound.e, bound.d]);
        let minute = |event: usize| {
            let event = self.sheet.events[event];
            assert_eq!(event.job, self.plan[entry].job);
            self.minute(entry, event.kind, event.fact).unwrap()
        };
        assert_eq!((one, other), (minute(bound.e), minute(bound.d)));
        // Of several bounds of one pair the tightest is named.
        let (low, high) = tightest(self.sheet, bound);
        let short = low.is_some_and(|low| one - other < i64::from(low));
        let long = high.is_some_and(|high| one - other > i64::from(high));
        assert!(short && bound.low == low || long && bound.high == high);
    }

    /// Every source that could serve is named, and each is spoiled by the clear that is named with it.
    fn sources(&self, fault: &Value, fact: usize, need: Option<(usize, (i64, i64))>) {
        let gap = |entry, own| if entry == own { 0 } else { i64::from(self.sheet.gap()) };
        let in_time = |entry: usize, set: i64| match need {
            Some((own, (begin, _))) => set + gap(entry, own) <= begin,
            None => true,
        };
        let sets = (0..self.plan.len()).filter_map(|entry| {
            let set = self.minute(entry, Kind::Sets, fact)?;
            in_time(entry, set).then_some(Some((entry, set)))
        });
        let initial = self.sheet.facts[fact].initial.then_some(None);
        let due: Vec<Option<(usize, i64)>> = initial.into_iter().chain(sets).collect();
        let mut found = Vec::new();
        for source in fault.get("sources").list() {
            let set = source.get("set").some().map(|set| self.at(set, Kind::Sets, fact));
            let (by, clear) = self.at(source.get("cleared"), Kind::Clears, fact);
            assert!(set.map_or(true, |(_, set)| set < clear));
            if let Some((own, (_, end))) = need {
                assert!(clear < end + gap(by, own));
            }
            found.push(set);
        }
        assert_eq!(found, due);
    }
}
