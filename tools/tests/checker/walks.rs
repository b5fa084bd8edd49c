//! Chains and circles of rules: each rule exists, each sum adds up.

use super::json::Value;
use super::tightest;
use corrumai_tests::model::list;
use corrumai_tests::model::sheet::{Event, Kind, Sheet};
use corrumai_tests::planner_model::Study;
use std::collections::{BTreeMap, BTreeSet};

/// The rules of one job's own times, or those of the least list.
pub struct Rules<'a> {
    pub sheet: &'a Sheet,
    pub study: Option<&'a Study<'a>>,
    pub job: Option<usize>,
}

impl Rules<'_> {
    /// The minutes that the rule of this name asks from one event to another; none if there is no such rule.
    fn asks(&self, step: &Value) -> Option<i64> {
        let to = step.get("to").place();
        // A release is a rule from no event, and the only one.
        let from = step.get("from").some().map(Value::place);
        assert_eq!(from.is_none(), step.get("rule").text() == "release", "{step:?}");
        let other = self.sheet.events.get(to)?;
        let one = self.sheet.events.get(from.unwrap_or(to))?;
        let counts = |job: usize| match (self.job, self.study) {
            (Some(own), _) => job == own,
            (_, Some(study)) => study.wanted_jobs[job],
            _ => false,
        };
        if !counts(one.job) || !counts(other.job) {
            return None;
        }
        let row = || {
            let bound = self.sheet.bounds.get(step.get("row").place())?;
            let pair = (bound.e, bound.d);
            (pair == (to, from?) || pair == (from?, to)).then_some(bound)
        };
        match step.get("rule").text() {
            "release" => {
                let release = i64::from(self.sheet.releases[other.job]);
                (release > 0).then_some(release)
            }
            "bound-low" => {
                let bound = row().filter(|bound| bound.e == to)?;
                let (low, _) = tightest(self.sheet, bound);
                low.filter(|_| low == bound.low).map(i64::from)
            }
            "bound-high" => {
                let bound = row().filter(|bound| Some(bound.e) == from)?;
                let (_, high) = tightest(self.sheet, bound);
                high.filter(|_| high == bound.high).map(|high| -i64::from(high))
            }
            "need" => {
                let need = one.job == other.job && kinds(one, other, Kind::Begins, Kind::Ends);
                need.then_some(0)
            }
            name => self.between(name, one, other),
        }
    }

    /// The list rules of document 01 between wanted jobs.
    fn between(&self, name: &str, one: &Event, other: &Event) -> Option<i64> {
        let (study, fact) = (self.study?, one.fact);
        let gap = if one.job == other.job { 0 } else { i64::from(self.sheet.gap()) };
        let (holds, minutes) = match name {
            "set-before-need" => {
                let due = study.wanted_facts[fact] && !self.sheet.facts[fact].initial;
                (due && kinds(one, other, Kind::Sets, Kind::Begins), gap)
            }
            "set-before-clear" => {
                (study.cleared_last[fact] && kinds(one, other, Kind::Sets, Kind::Clears), 1)
            }
            "need-before-clear" => {
                (study.cleared_last[fact] && kinds(one, other, Kind::Ends, Kind::Clears), gap)
            }
            "clear-before-set" => {
                (study.cleared_first[fact] && kinds(one, other, Kind::Clears, Kind::Sets), 1)
            }
            _ => panic!("unknown rule {name}"),
        };
        holds.then_some(minutes)
    }

    /// The sum of a walk whose steps exist and follow each other.
    fn sum(&self, walk: &Value) -> i64 {
        let steps = walk.get("steps").list();
        let mut sum = 0;
        for (place, step) in steps.iter().enumerate() {
            let minutes = step.get("minutes").number();
            assert_eq!(self.asks(step), Some(minutes), "no such rule: {step:?}");
            assert!(place == 0 || steps[place - 1].get("to") == step.get("from"), "{walk:?}");
            sum += minutes;
            assert_eq!(step.get("sum").number(), sum);
        }
        assert_eq!(walk.get("sum").number(), sum);
        sum
    }

    /// No times meet these rules: the circle gains, or the chain passes the horizon with its last step.
    pub fn forbid(&self, walk: &Value) {
        let sum = self.sum(walk);
        let steps = walk.get("steps").list();
        if walk.get("kind").text() == "circle" {
            assert!(steps.iter().all(|step| step.get("from").some().is_some()));
            assert!(sum > 0 && steps[0].get("from") == steps[steps.len() - 1].get("to"));
            return;
        }
        let horizon = i64::from(self.sheet.horizon);
        assert!(sum > horizon);
        let before = &steps[..steps.len() - 1];
        assert!(before.iter().all(|step| step.get("sum").number() <= horizon));
    }

    /// The steps are those of the list, each held by a rule without slack, down to minute 0 or a release; and the
    /// chain of the finish ends with the last minute.
    pub fn plan(&self, list: &[u8], reason: &Value) {
        let mut due: BTreeMap<usize, i64> = BTreeMap::new();
        for instance in list::read(self.sheet, list).unwrap() {
            let events = self.sheet.events_of(instance.job);
            due.extend(events.into_iter().zip(instance.times.iter().copied().map(i64::from)));
        }
        let steps = reason.get("steps").list();
        let events: BTreeSet<usize> = steps.iter().map(|step| step.get("event").place()).collect();
        assert!(steps.len() == due.len() && events.len() == due.len());
        let mut before: BTreeMap<usize, usize> = BTreeMap::new();
        for step in steps {
            let (event, minute) = (step.get("event").place(), step.get("minute").number());
            assert_eq!(due.get(&event), Some(&minute));
            let Some(by) = step.get("held_by").some() else {
                assert_eq!(minute, 0);
                continue;
            };
            let from = by.get("from").some().map(Value::place);
            assert_eq!(by.get("to").place(), event);
            assert_eq!(self.asks(by), Some(by.get("minutes").number()));
            assert_eq!(from.map_or(0, |from| due[&from]) + by.get("minutes").number(), minute);
            before.extend(from.map(|from| (event, from)));
        }
        for event in due.keys() {
            let mut at = *event;
            let mut left = due.len();
            while let Some(from) = before.get(&at) {
                at = *from;
                left -= 1;
                assert!(left > 0, "steps hold each other");
            }
        }
        let finish = reason.get("finish");
        assert_eq!(finish.get("kind").text(), "chain");
        assert_eq!(self.sum(finish), due.values().max().copied().unwrap_or(0));
        // From minute 0 on, or from a release.
        let first = finish.get("steps").list().first().and_then(|step| step.get("from").some());
        assert!(first.map_or(true, |first| due[&first.place()] == 0));
    }
}

fn kinds(one: &Event, other: &Event, first: Kind, second: Kind) -> bool {
    one.fact == other.fact && (one.kind, other.kind) == (first, second)
}
