//! An explanation as data. Jobs, facts, events and bounds are their numbers in the sheet, from 0.

use super::judge::{Happening, Spoiled};
use super::{Absent, Context, Explanation, Held, PlanFault, Reason, Unordered, Walk};
use crate::answers::meaning;
use crate::fault::Fault;
use crate::json::Json;
use crate::rules::orders::{Candidate, Order};
use crate::rules::wanted::Link;
use crate::rules::{Rule, Why};

pub fn of(explanation: &Explanation, context: &Context) -> Json {
    let (reasons, failed) = match &explanation.reasons {
        Ok(reasons) => (reasons.iter().map(reason).collect(), Json::Null),
        Err(why) => (Vec::new(), why.as_str().into()),
    };
    let names = |list: Vec<&str>| -> Json { list.into() };
    let sheet = context.sheet;
    let absent = (!explanation.judged).then(|| list(&explanation.absent, absent));
    Json::Map(vec![
        ("asked", if explanation.judged { "judge" } else { "planner" }.into()),
        ("answer", explanation.answer.number.into()),
        ("detail", explanation.answer.detail.into()),
        ("meaning", meaning(explanation.answer.number).into()),
        ("checked", explanation.reasons.is_ok().into()),
        ("failed", failed),
        ("reasons", Json::List(reasons)),
        ("absent", absent.into()),
        (
            "facts",
            sheet.map(|s| names(s.facts.iter().map(|fact| fact.name.as_str()).collect())).into(),
        ),
        ("codes", sheet.map(|s| s.jobs.iter().map(|job| job.code).collect::<Vec<u16>>()).into()),
        ("jobs", sheet.map(|s| names(s.jobs.iter().map(|job| job.name.as_str()).collect())).into()),
    ])
}

fn map(kind: &str, fields: Vec<(&'static str, Json)>) -> Json {
    Json::Map([("kind", kind.into())].into_iter().chain(fields).collect())
}

fn list<T>(items: &[T], item: impl Fn(&T) -> Json) -> Json {
    Json::List(items.iter().map(item).collect())
}

fn reason(reason: &Reason) -> Json {
    match reason {
        Reason::Form(fault) => form(fault),
        Reason::TwoSetters { fact, wants, setters } => map(
            "two-setters",
            vec![
                ("fact", (*fact).into()),
                ("wants", list(wants, want)),
                ("setters", setters.clone().into()),
            ],
        ),
        Reason::NoOrder { fact, wants, tries } => map(
            "no-order",
            vec![
                ("fact", (*fact).into()),
                ("wants", list(wants, want)),
                ("orders", list(tries, unordered)),
            ],
        ),
        Reason::NoSource { fact, wants, absent } => map(
            "no-source",
            vec![
                ("fact", (*fact).into()),
                ("wants", list(wants, want)),
                ("absent", absent.clone().into()),
            ],
        ),
        Reason::GoalCleared { fact, jobs } => {
            map("goal-cleared", vec![("fact", (*fact).into()), ("jobs", jobs.clone().into())])
        }
        Reason::NoTimes { walk } => map("no-times", vec![("walk", walk_of(walk))]),
        Reason::Plan { steps, finish, .. } => {
            map("plan", vec![("steps", list(steps, held)), ("finish", walk_of(finish))])
        }
        Reason::TooLong { length, room } => {
            map("too-long", vec![("length", (*length).into()), ("buffer", (*room).into())])
        }
        Reason::Yes => map("yes", vec![]),
        Reason::Faults { faults, more, .. } => {
            map("faults", vec![("faults", list(faults, fault)), ("more", (*more).into())])
        }
    }
}

fn absent(absent: &Absent) -> Json {
    Json::Map(vec![("job", absent.job.into()), ("walk", walk_of(&absent.walk))])
}

fn form(fault: &Fault) -> Json {
    map(
        "form",
        vec![
            ("body", fault.body.into()),
            ("row", fault.row.into()),
            ("byte", fault.byte.into()),
            ("found", fault.found.as_str().into()),
            ("rule", fault.rule.into()),
            ("words", fault.words.as_str().into()),
        ],
    )
}

/// A rule, by name and, for a bound, by its row.
fn rule(rule: &Rule, sum: Option<i32>) -> Json {
    let (name, row) = match rule.why {
        Why::Low(row) => ("bound-low", Some(row)),
        Why::High(row) => ("bound-high", Some(row)),
        Why::Release => ("release", None),
        Why::Need => ("need", None),
        Why::SetBeforeNeed => ("set-before-need", None),
        Why::SetBeforeClear => ("set-before-clear", None),
        Why::NeedBeforeClear => ("need-before-clear", None),
        Why::ClearBeforeSet => ("clear-before-set", None),
    };
    let mut fields = vec![
        ("from", rule.from.into()),
        ("to", rule.to.into()),
        ("rule", name.into()),
        ("row", row.into()),
        ("minutes", rule.minutes.into()),
    ];
    fields.extend(sum.map(|sum| ("sum", sum.into())));
    Json::Map(fields)
}

fn walk_of(walk: &Walk) -> Json {
    let mut sum = 0;
    let mut steps = Vec::new();
    for step in &walk.steps {
        sum += step.minutes;
        steps.push(rule(step, Some(sum)));
    }
    let kind = if walk.circle { "circle" } else { "chain" };
    map(kind, vec![("steps", Json::List(steps)), ("sum", sum.into())])
}

fn want(link: &Link) -> Json {
    Json::Map(vec![
        ("fact", link.fact.into()),
        ("needed_by", link.by.map(|(job, _)| job).into()),
        ("which_sets", link.by.map(|(_, set)| set).into()),
    ])
}

fn unordered(unordered: &Unordered) -> Json {
    let order = match unordered.order {
        Order::ClearedLast => "cleared-last",
        Order::ClearedFirst => "cleared-first",
    };
    Json::Map(vec![
        ("order", order.into()),
        ("set", unordered.pair.set.into()),
        ("clear", unordered.pair.clear.into()),
        ("candidates", list(&unordered.candidates, candidate)),
    ])
}

fn candidate(candidate: &Candidate) -> Json {
    Json::Map(vec![
        ("fact", candidate.fact.into()),
        ("shown", candidate.shown.into()),
        ("needed", candidate.needed.into()),
        ("cleared", candidate.cleared.into()),
        ("greatest", candidate.greatest.into()),
        ("least", candidate.least.into()),
        ("excess", candidate.excess().into()),
    ])
}

fn held(held: &Held) -> Json {
    Json::Map(vec![
        ("event", held.event.into()),
        ("minute", held.minute.into()),
        ("held_by", held.by.map(|by| rule(&by, None)).into()),
    ])
}

fn happening(happening: Happening) -> Json {
    Json::Map(vec![("entry", happening.entry.into()), ("minute", happening.minute.into())])
}

fn spoiled(spoiled: &Spoiled) -> Json {
    Json::Map(vec![
        ("set", spoiled.source.map(happening).into()),
        ("cleared", happening(spoiled.by)),
    ])
}

fn fault(fault: &PlanFault) -> Json {
    let number = |value: &usize| Json::from(*value);
    let minutes = |(one, other): &(u16, u16)| Json::from(vec![*one, *other]);
    match fault {
        PlanFault::Window { entry, event, minute } => map(
            "window",
            vec![("entry", number(entry)), ("event", number(event)), ("minute", (*minute).into())],
        ),
        PlanFault::Release { entry, event, minute } => point(
            "release",
            1,
            vec![("entry", number(entry)), ("event", number(event)), ("minute", (*minute).into())],
        ),
        PlanFault::Bound { entry, row, e, d, minutes: both } => {
            let events = ("events", vec![*e, *d].into());
            let row = ("row", number(row));
            point(
                "bound",
                1,
                vec![("entry", number(entry)), row, events, ("minutes", minutes(both))],
            )
        }
        PlanFault::Need { entry, fact, minutes: both } => {
            let fact = ("fact", number(fact));
            point("need", 1, vec![("entry", number(entry)), fact, ("minutes", minutes(both))])
        }
        PlanFault::Clash { fact, set, clear } => {
            let (set, clear) = (("set", happening(*set)), ("clear", happening(*clear)));
            point("clash", 2, vec![("fact", number(fact)), set, clear])
        }
        PlanFault::Unserved { entry, fact, minutes: both, sources } => {
            let (entry, fact) = (("entry", number(entry)), ("fact", number(fact)));
            let sources = ("sources", list(sources, spoiled));
            point("unserved", 3, vec![entry, fact, ("minutes", minutes(both)), sources])
        }
        PlanFault::Goal { fact, sources } => {
            point("goal", 4, vec![("fact", number(fact)), ("sources", list(sources, spoiled))])
        }
    }
}

/// A fault with the point of a plan that it breaks.
fn point(kind: &str, point: usize, fields: Vec<(&'static str, Json)>) -> Json {
    map(kind, [("point", point.into())].into_iter().chain(fields).collect())
}
