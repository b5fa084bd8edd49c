//! Wrong planners and judges, each a change of the model at full size, and which cases at the limits tell them from the
//! right ones. A case is named by how its name starts; all cases whose names start so must tell.

use corrumai_tests::cases::limits::{self, full_size};
use corrumai_tests::cases::planner::PlannerCase;
use corrumai_tests::cases::retired::RetiredCase;
use corrumai_tests::cases::{self, Case};
use corrumai_tests::model::limits::{Limits, LIMITS};
use corrumai_tests::model::plan::Fault;
use corrumai_tests::model::sheet;
use corrumai_tests::model::sheet::Kind::{Begins, Clears, Ends, Sets};
use corrumai_tests::planner_model::Look::{ClassRule, Goal, Guard, OwnTimes, Source};
use corrumai_tests::say;
use corrumai_tests::wrong::*;

/// What is wrong, and the cases that tell it.
type Told = (&'static str, Wrong, Starts);

/// How the names of cases start.
type Starts = &'static [&'static str];

/// A case for the judge or for the planner.
enum Trial {
    Judge(Case),
    Plan(PlannerCase),
    Retired(RetiredCase),
}

impl Trial {
    fn name(&self) -> &str {
        match self {
            Trial::Judge(case) => &case.name,
            Trial::Plan(case) | Trial::Retired(RetiredCase { case, .. }) => &case.name,
        }
    }

    fn sheet(&self) -> &[u8] {
        match self {
            Trial::Judge(case) => &case.sheet,
            Trial::Plan(case) | Trial::Retired(RetiredCase { case, .. }) => &case.sheet,
        }
    }

    /// The wrong one gives another answer than is due, or takes other jobs for absent.
    fn tells(&self, wrong: &Wrong) -> bool {
        match self {
            Trial::Judge(case) => wrong.judge(&case.sheet, &case.list) != case.expected,
            Trial::Plan(case) => planned_otherwise(wrong, case),
            Trial::Retired(RetiredCase { case, absent }) => {
                planned_otherwise(wrong, case) || wrong.absent(&case.sheet) != *absent
            }
        }
    }
}

fn planned_otherwise(wrong: &Wrong, case: &PlannerCase) -> bool {
    wrong.plan(&case.sheet) != (case.number, case.detail, case.list.clone())
}

fn trials(judged: Vec<Case>, planned: Vec<PlannerCase>) -> Vec<Trial> {
    let judged = judged.into_iter().map(Trial::Judge);
    judged.chain(planned.into_iter().map(Trial::Plan)).collect()
}

/// Limits one too low or one too high.
#[rustfmt::skip]
fn limits_off() -> Vec<Told> {
    let with = |name, change: fn(&mut Limits), told_by: Starts| {
        let mut limits = LIMITS;
        change(&mut limits);
        (name, limited(limits), told_by)
    };
    vec![
        with("63 facts at most", |l| l.facts = 63, &["64 facts"]),
        with("65 facts at most", |l| l.facts = 65, &["65 facts"]),
        with("H 10,079 at most", |l| l.horizon = 10_079, &["H 10,080"]),
        with("H 10,081 at most", |l| l.horizon = 10_081, &["H 10,081"]),
        with("31 jobs at most", |l| l.jobs = 31, &["32 jobs", "job 31 just fits"]),
        with("33 jobs at most", |l| l.jobs = 33, &["33 jobs"]),
        with("255 events at most", |l| l.events = 255, &["256 events", "the largest sheet"]),
        with("257 events at most", |l| l.events = 257, &["257 events"]),
        with("255 bounds at most", |l| l.bounds = 255,
            &["256 bounds", "the largest sheet", "bound 255 just fits", "bound 255 again bound 254"]),
        with("257 bounds at most", |l| l.bounds = 257, &["257 bounds"]),
        with("low -10,079 at least", |l| l.low.0 = -10_079, &["low -10,080"]),
        with("low -10,081 at least", |l| l.low.0 = -10_081, &["low -10,081"]),
        with("low 10,079 at most", |l| l.low.1 = 10_079, &["low 10,080"]),
        with("low 10,081 at most", |l| l.low.1 = 10_081, &["low 10,081"]),
        with("high -10,079 at least", |l| l.high.0 = -10_079, &["low -10,080 and high", "no low, high -10,080"]),
        with("high -10,081 at least", |l| l.high.0 = -10_081, &["high -10,081"]),
        with("high 10,079 at most", |l| l.high.1 = 10_079, &["low 10,080 and high", "no low, high 10,080"]),
        with("high 10,081 at most", |l| l.high.1 = 10_081, &["high 10,081", "bound 255 with high 10,081"]),
        with("low -32,767 means none", |l| l.no_low = -32_767, &["low -32,767", "no low", "neither low nor high"]),
        with("low 32,767 means none", |l| l.no_low = 32_767, &["low 32,767", "no low", "neither low nor high"]),
        with("high 32,766 means none", |l| l.no_high = 32_766,
            &["high 32,766", "low 10,080, no high", "neither low nor high"]),
        with("high -32,768 means none", |l| l.no_high = -32_768, &["high -32,768", "low -10,080, no high"]),
        with("63 entries at most", |l| l.instances = 63, &["64 entries", "64th entry"]),
        with("65 entries at most", |l| l.instances = 65, &["65 entries"]),
        with("511 times at most", |l| l.times = 511, &["512 times", "512th time", "64 entries of 7, 8 and 9"]),
        with("513 times at most", |l| l.times = 513, &["513 times"]),
    ]
}

/// Readers that are wrong about the first or the last code.
#[rustfmt::skip]
fn codes() -> Vec<Told> {
    vec![
        ("code 0 is refused", reading(|b| if b.jobs.starts_with(&[0, 0]) { b.jobs.push(0) }),
            &["code 0", "codes 0 and 65,535"]),
        ("code 65,535 is refused", reading(|b| if b.jobs.ends_with(&[255, 255]) { b.jobs.push(0) }),
            &["code 65,535", "codes 0 and 65,535"]),
        ("codes have a sign", reading(with_signs),
            &["codes 32,767 and 32,768", "codes 65,535 and 0", "codes 0 and 65,535"]),
    ]
}

/// Readers that leave out the last of a part.
#[rustfmt::skip]
fn left_out() -> Vec<Told> {
    vec![
        ("fact 63's mark is not read", reading(|b| if b.facts.len() == 67 { b.facts[66] = 0 }),
            &["mark 4 of fact 63"]),
        ("fact 63 is not initial", reading(|b| if b.facts.len() == 67 { b.facts[66] &= 2 }), &["fact 63 initial"]),
        ("fact 63 is no goal", reading(|b| if b.facts.len() == 67 { b.facts[66] &= 1 }),
            &["fact 63 the goal, nobody", "fact 63 the goal, not set", "fact 63 the goal, set and"]),
        ("job 31 is not read", reading(|b| if b.jobs.len() == 64 { b.jobs.truncate(62) }),
            &["32 jobs, the last", "32 jobs, all are"]),
        ("job 31 has any code", reading(|b| if b.jobs.len() == 64 { b.jobs[62..].fill(255) }), &["code of job 31"]),
        ("event 255 is not read", reading(|b| if b.events.len() == 768 { b.events.truncate(765) }), &["event 255"]),
        ("bound 255 is not read", reading(|b| if b.bounds.len() == 1_536 { b.bounds.truncate(1_530) }),
            &["bound 255 alone leaves the goal", "bound 255 alone not", "bound 255 alone exceeded", "bound 255 of",
              "bound 255 with", "bound 255 again bound 253"]),
    ]
}

/// Judges that overlook something in the last place.
#[rustfmt::skip]
fn judges() -> Vec<Told> {
    vec![
        ("63 entries are judged", judging(|_, plan| plan.truncate(63)), &["64th entry alone"]),
        ("63 entries are held to H", finding(|f| f != Fault::Window { entry: 63 }),
            &["64th entry alone ends above H"]),
        ("63 entries are held to point 1", finding(|f| f != Fault::OwnTimes { entry: 63 }),
            &["64th entry alone below", "64th entry alone above", "64th entry alone ends before",
              "512th time alone above its", "512th time alone below"]),
        ("63 entries have needs", finding(|f| !matches!(f, Fault::Need { entry: 63, .. })),
            &["64th entry alone needs"]),
        ("511 times are held to H", judging(|s, plan| change_last_of_512(plan, |t| t.min(s.horizon))),
            &["512th time alone above H"]),
        ("time 512 is taken for 0", judging(|_, plan| change_last_of_512(plan, |_| 0)),
            &["512th time at", "512th time alone clears", "bound 255 kept"]),
        ("time 512 is taken for H", judging(|s, plan| change_last_of_512(plan, |_| s.horizon)),
            &["512th time alone above H", "512th time at its", "512th time alone clears", "bound 255 kept"]),
        ("facts 0 to 62 clash", finding(|f| f != Fault::Clash { fact: 63 }),
            &["fact 63 set and cleared on one tick", "512th time alone clears on"]),
        ("facts 0 to 62 have needs", finding(|f| !matches!(f, Fault::Need { fact: 63, .. })),
            &["fact 63 needed without", "fact 63 needed on", "fact 63 cleared as",
              "fact 63 cleared, then needed", "512th time alone clears as"]),
        ("facts 0 to 62 are goals", finding(|f| f != Fault::Goal { fact: 63 }),
            &["fact 63 the goal, not set", "fact 63 the goal, set", "fact 63 the goal, initial"]),
        ("facts 0 to 62 begin in time", judging(|s, plan| begin_63_in_time(s, plan)),
            &["fact 63 needed from 5 to 4"]),
        ("facts 0 to 62 are set", judging(|s, plan| pass_over_63(s, plan, Sets)),
            &["fact 63 needed after", "fact 63 the goal, cleared and set", "fact 63 set and cleared"]),
        ("facts 0 to 62 are cleared", judging(|s, plan| pass_over_63(s, plan, Clears)),
            &["fact 63 cleared as", "fact 63 the goal, set", "fact 63 the goal, initial", "fact 63 set and cleared"]),
    ]
}

/// Planners that overlook something in the last place, or stop marking too soon.
#[rustfmt::skip]
fn planners() -> Vec<Told> {
    vec![
        ("rule 20 for facts 0 to 62", seeing(|l| l != ClassRule { number: 20, fact: 63 }), &["rule 20"]),
        ("rule 21 for facts 0 to 62", seeing(|l| l != ClassRule { number: 21, fact: 63 }), &["rule 21"]),
        ("rule 22 for facts 0 to 62", seeing(|l| l != ClassRule { number: 22, fact: 63 }), &["rule 22"]),
        ("facts 0 to 62 lack a source", seeing(|l| l != Source { fact: 63 }),
            &["fact 63 needed, nobody", "fact 63 the goal, nobody", "line falling, its first fact unset"]),
        ("goals 0 to 62 are cleared", seeing(|l| l != Goal { fact: 63 }), &["fact 63 the goal, cleared last"]),
        ("facts 0 to 62 guard", seeing(|l| l != Guard { fact: 63 }), &["fact 63 guards"]),
        ("jobs 0 to 30 need own times", seeing(|l| l != OwnTimes { job: 31 }), &["job 31 is an absent"]),
        ("facts 0 to 62 begin in time", seeing(|l| l != order_63(Begins, Ends)), &["the goal by a need of fact 63"]),
        ("facts 0 to 62 are set, then needed", seeing(|l| l != order_63(Sets, Begins)),
            &["fact 63 wanted through", "fact 63 set, needed, cleared"]),
        ("facts 0 to 62 are set, then cleared", seeing(|l| l != order_63(Sets, Clears)),
            &["fact 63 cleared one tick after"]),
        ("facts 0 to 62 are needed, then cleared", seeing(|l| l != order_63(Ends, Clears)),
            &["fact 63 cleared before its need ends", "the largest sheet"]),
        ("facts 0 to 62 are cleared, then set", seeing(|l| l != order_63(Clears, Sets)),
            &["fact 63 set one tick after"]),
        ("needs of facts 0 to 62 mark", marking(|s| marked_without(s, |e| (e.kind, e.fact) != (Begins, 63))),
            &["fact 63 wanted through", "fact 63 needed, nobody", "rule 20 by fact 63, needed"]),
        ("setters of facts 0 to 62 are marked", marking(|s| marked_without(s, |e| (e.kind, e.fact) != (Sets, 63))),
            &["fact 63 wanted through", "fact 63 the goal, set by job 31", "line of 32 jobs, rising"]),
        ("jobs 0 to 30 are marked", marking(|s| marked_without(s, |e| e.job < 31)),
            &["fact 63 the goal, set by job 31", "32 jobs, the last", "line"]),
        ("goals 0 to 62 mark", marking(marked_without_goal_63), &["fact 63 the goal", "line of 32 jobs, rising"]),
        ("marking goes 31 jobs deep", marking(|s| marked_to(s, 31)), &["line"]),
        ("marking is one rising sweep", marking(|s| swept(s, 1, false)), &["line of 32 jobs, rising", "line rising"]),
        ("marking is one falling sweep", marking(|s| swept(s, 1, true)),
            &["line of 32 jobs, falling", "line falling"]),
        ("marking is 31 rising sweeps", marking(|s| swept(s, 31, false)),
            &["line of 32 jobs, rising", "line rising"]),
        ("marking is 31 falling sweeps", marking(|s| swept(s, 31, true)),
            &["line of 32 jobs, falling", "line falling"]),
    ]
}

/// Those that are right as long as a sheet is of edition 1. Both planner and judge are wrong so.
#[rustfmt::skip]
fn edition_2() -> Vec<Told> {
    let told_by = |name| -> Starts {
        match name {
            "one tick from set to need" => &[
                "P1, gap 2", "P1, gap 3, H", "P1, gap 60", "gap 4, another's set 3", "gap 4, twin's set 3"
            ],
            "one tick from need to clear" => &[
                "P6, gap 2, 7", "gap 4, twin's clear 3", "gap 4, another's clear 3",
                "gap 4, set anew, cleared 3"
            ],
            "the gap for the own set" => &[
                "own set on the begin's", "gap 4, own set at", "gap 4, own set a tick"
            ],
            "the gap for the own clear" => &[
                "own clear on the end's", "gap 4, own clear at", "gap 4, own clear a tick"
            ],
            "the gap between set and clear" => &[
                "own clear a tick after", "own set a tick after", "gap 60, cleared a", "gap 60, set a tick"
            ],
            "the initial state waits" => &[
                "P1, gap 60, H 68", "P1, gap 3, H 11", "gap 60, initial, needed"
            ],
            "gap byte 0 is no gap" => &[
                "gap byte 0, set on", "gap byte 0, cleared on", "P1, gap byte 0, H 8"
            ],
            "gap byte 0 is 1 tick" => &[
                "gap byte 0, set a tick", "gap byte 0, cleared a tick", "P1, gap byte 0, H 9",
                "P1, gap byte 0, H 10", "P6, gap byte 0", "list for P1, gap byte 0, P1's"
            ],
            "gap byte 0 is 3 ticks" => &[
                "gap byte 0, set two", "gap byte 0, cleared two", "P1, gap byte 0, H 10",
                "P6, gap byte 0, 8", "list for P1, gap byte 0, its", "list for P1, gap byte 0, H 10"
            ],
            "gap byte 1 is the default" => &[
                "P1, gap byte 1, H 9", "P6, gap byte 1, 6", "gap byte 1, set a", "gap byte 1, cleared a",
                "list for P1 in edition 2"
            ],
            "gap byte 2 is 1 tick" => &[
                "P1, gap 2", "P6, gap 2", "list for P1, gap 2, P1's"
            ],
            "a tick less of gap" => &[
                "P1, gap byte 1, H 8", "P1, gap byte 0, H 9", "P1, gap byte 0, H 10", "P6, gap byte 1",
                "P6, gap byte 0", "gap byte 0, set a tick", "gap byte 1, set on", "gap byte 1, cleared on"
            ],
            "a tick more of gap" => &[
                "P1, gap 3, H 11", "P6, gap 2, 8", "gap 4, another's set 4", "gap 4, another's clear 4"
            ],
            "no releases" => &[
                "P1, release", "release one above", "in order by", "all a tick before", "the set before"
            ],
            "releases a tick early" => &[
                "P1, release 4", "P1, release 98", "release one above", "all a tick before",
                "list for P1, released a tick"
            ],
            "releases a tick late" => &[
                "P1, release 97", "release at H", "all on the release", "list for P1, released at"
            ],
            "the first release alone" => &[
                "P1, release 97", "P1, release 98", "list for P1, released a tick"
            ],
            "the first release for all" => &[
                "P1, release 97", "in order by"
            ],
            "orders without releases" => &[
                "in order by a late release", "in order by the release"
            ],
            _ => panic!("{name} is told by nothing"),
        }
    };
    of_edition_2().into_iter().map(|(name, wrong)| (name, wrong, told_by(name))).collect()
}

/// Those that are right as long as a sheet is of edition 2, told by cases of edition 1.
fn edition_1() -> Vec<Told> {
    let told_by = |name| -> Starts {
        match name {
            "the default of edition 2" => &[
                "P2",
                "P6",
                "another's set one earlier",
                "another's clear one after",
                "twin's clear one later",
            ],
            _ => panic!("{name} is told by nothing"),
        }
    };
    of_edition_1().into_iter().map(|(name, wrong)| (name, wrong, told_by(name))).collect()
}

/// Wrong products and a judge without point 3, told by the cases whose names have one of these parts, and by no others.
/// The list rules go by job, so that a planner with the mark by job is right.
#[rustfmt::skip]
fn products() -> Vec<Told> {
    let told_by = |name| -> Starts {
        match name {
            "the mark of the same instance" => &[
                "a tick short", "own set on", "own clear on", "twin's set on", "twin's clear on", "just fits",
                "P1 with this gap, a tick too few"
            ],
            "the sum of gap and mark" => &["at the gap", "own set on", "own clear on", "just fits"],
            "the mark always 1" => &["own set on", "own clear on", "P6 with this gap just fits"],
            "the mark always 0" => &[
                "a tick short", "twin's set on", "twin's clear on", "just fits", "a tick too few"
            ],
            "the mark by job" => &[
                "twin's set a tick short", "twin's clear a tick short", "twin's set on", "twin's clear on"
            ],
            _ => panic!("{name} is told by nothing"),
        }
    };
    let blind: Told = ("no point 3", finding(|f| !matches!(f, Fault::Need { .. })),
        &["a tick short", "a tick late", "a tick early", "twin's set on", "twin's clear on"]);
    let wrong = of_the_product().into_iter().map(|(name, wrong)| (name, wrong, told_by(name)));
    wrong.chain([blind]).collect()
}

/// Wrong ways to take several bounds of one pair, and wrong orders of rows.
#[rustfmt::skip]
fn several_rows() -> Vec<Told> {
    let told_by = |name| -> Starts {
        match name {
            "the first row alone" => &[
                "P1 with none..5, 5..none: p", "P1 with none..5, 5..none: 4 ticks", "P1 with 5..none, none..5: 6 ticks",
                "P1 with 5..5, 6..6: p", "P1 with 5..5, 6..6: 5 ticks", "P1 with 0..7, 2..5, 5..9: p",
                "253 rows, low in 252, high in 0: p", "the cleaner's clear, loose, tight",
                "the end of the setter's need, loose, tight", "the clear of an unwanted fact, loose, tight"
            ],
            "the last row alone" => &[
                "P1 with 5..none, none..5: p", "P1 with none..5, 5..none: 6 ticks", "P1 with 5..5, none..none: 4 ticks",
                "P1 with 6..6, 5..5: p", "P1 with 6..6, 5..5: 5 ticks", "P1 with 5..9, 0..7, 2..5: p",
                "253 rows, low in 0, high in 252: p", "the cleaner's clear, tight, loose"
            ],
            "one row too few" => &[
                "P1 with none..5, 5..none: p", "P1 with 5..9, 0..7, 2..5: 6 ticks", "P1 with 0..7, 2..5, 5..9: p",
                "P1 with 0..9, 0..4, 5..9: p", "253 rows, low in 252, high in 252: p",
                "253 rows, low in 0, high in 252: 6 ticks", "the end of the cleaner's need, loose, tight"
            ],
            "a none loosens" => &[
                "P1 with 5..none, none..5: p", "P1 with none..5, 5..none: 6 ticks", "P1 with 5..5, none..none: p",
                "P1 with none..none, 5..5: 4 ticks", "P1 with 5..none, none..4: p", "64 rows of each pair: p",
                "64 rows of each pair: 6 ticks", "the cleaner's clear, low, high", "P1 with 5..5, 6..6, none..none: p"
            ],
            "the greatest high" => &[
                "P1 with 5..9, 0..7, 2..5: 6 ticks", "P1 with 2..5, 5..9, 0..7: 6 ticks", "P1 with 5..5, 6..6: p",
                "P1 turned round with -9..-5, -5..none: p", "P1 turned round with -5..none, -9..-5: p",
                "the cleaner's clear, loose, tight", "the clear of an unwanted fact, tight, loose"
            ],
            "the least low" => &[
                "P1 with 5..9, 0..7, 2..5: p", "P1 with 2..5, 5..9, 0..7: 4 ticks", "P1 with 5..5, 6..6: p",
                "the end of the setter's need, tight, loose", "the end of the cleaner's need, loose, tight"
            ],
            "the judge by the first row" => &[
                "P1 with 5..none, none..5: 6 ticks", "P1 with none..5, 5..none: 4 ticks", "P1 with 5..5, 6..6: 5 ticks",
                "P1 with 5..9, 2..5, 0..7: 6 ticks", "crossing rows of a job that is listed"
            ],
            "orders by the first row" => &[
                "the cleaner's clear, loose, tight", "the end of the setter's need, loose, tight",
                "the end of the cleaner's need, loose, tight", "the clear of an unwanted fact, loose, tight"
            ],
            "crossing rows are 14" => &[
                "P1 with 5..5, 6..6", "P1 with 6..9, 3..5", "P1 with 5..none, none..4", "3..3, 4..4 in job 1",
                "crossing rows"
            ],
            "a pair twice is 14" => &[
                "P1 with", "253 rows", "64 rows", "the cleaner's clear, loose, tight", "crossing rows"
            ],
            "257 rows at most" => &["257 rows"],
            "the first row alone is tested" => &["5..5 and a row"],
            "a row may cross itself" => &["5..5 and a row 6..5", "a row 6..5 and 5..5"],
            "a pair may come back" => &["the first bound again"],
            "a pair may fall" => &["the first bound again", "the second bound before", "the last bound before"],
            "(e, d) and (d, e) are one pair" => &[
                "P1 and, turned round, -5..-5: p", "P1 and, turned round, -5..-5: 5 ticks"
            ],
            "codes may be equal" => &["codes 10 and 10"],
            "events may be equal" => &["the last event twice"],
            _ => panic!("{name} is told by nothing"),
        }
    };
    let all = of_several_rows().into_iter().chain(of_row_order());
    all.map(|(name, wrong)| (name, wrong, told_by(name))).collect()
}

/// Those that are right as long as every job could run alone.
#[rustfmt::skip]
fn absent_jobs() -> Vec<Told> {
    let told_by = |name| -> Starts {
        match name {
            "20 counts an absent setter" => &[
                "P1, a third job retired", "P1, a retired job before", "P1, a retired job between",
                "P1, both setters of fact 1", "P1 and two", "P6, a retired setter", "its need that"
            ],
            "needs of an absent job are wanted" => &["its need that"],
            "an absent job is wanted" => &[
                "P1, a third job retired", "P1, a retired job before", "P1 and two", "its need that"
            ],
            "an absent setter in cleared last" => &[
                "a retired setter of", "P6, a retired setter", "P9, job 20 retired"
            ],
            "an absent setter is a source" => &[
                "P1, job 10 retired", "P1, job 20 retired", "P1, both setters", "P1, H too short",
                "P1, all jobs retired", "a need longer than H"
            ],
            "1 for any absent setter" => &[
                "P1, a third job retired", "P1, a retired job before", "P1 and two", "P1, the second retired",
                "P6, a retired setter", "its need that"
            ],
            "rules of absent jobs are left in" => &[
                "P1, a third job retired", "P1, a retired job", "P1 and two", "P1 among three", "P5", "all jobs retired",
                "a retired setter", "its need that"
            ],
            "a job without events is absent" => &[
                "P1, a job without events", "P1, a late job without events", "a job without events"
            ],
            "the first absent job alone" => &[
                "P1 and two", "P1 among three", "P1, the second retired", "P5, all jobs", "P1, both setters"
            ],
            "absent with its events at H" => &[
                "P1, a third job just not retired by its release", "P1, a third job just not retired by its length",
                "a need as long as H", "a set at tick 0"
            ],
            "15 is given" => &[
                "P1, a third job retired", "P1, a retired job", "P1, job", "P1, H too short", "P9, job 20 retired",
                "P5", "all jobs retired", "P1, all jobs", "one of three", "P8 and", "rule 22 and", "a retired setter"
            ],
            "15 for a job with its events at H" => &[
                "P1, a third job just not retired by its release", "a need as long as H"
            ],
            _ => panic!("{name} is told by nothing"),
        }
    };
    of_absent_jobs().into_iter().map(|(name, wrong)| (name, wrong, told_by(name))).collect()
}

/// Of these, those that cases at the limits tell.
fn absent_at_the_limits() -> Vec<Told> {
    let told_by = |name| -> Option<Starts> {
        match name {
            "20 counts an absent setter" => Some(&["job 31 is an absent"]),
            "absent with its events at H" => Some(&["job 31 is a second"]),
            "15 is given" => {
                Some(&["job 31 alone", "need of fact 63 ends", "bound 255 alone leaves"])
            }
            "15 for a job with its events at H" => Some(&["job 31 just", "bound 255 just"]),
            _ => None,
        }
    };
    let all = of_absent_jobs().into_iter();
    all.filter_map(|(name, wrong)| Some((name, wrong, told_by(name)?))).collect()
}

/// Wrong readers of edition 2.
#[rustfmt::skip]
fn forms() -> Vec<Told> {
    let gap = |gap| limited(Limits { gap, ..LIMITS });
    vec![
        ("gap 59 at most", gap(59), &["gap 60"]),
        ("gap 61 at most", gap(61), &["gap 61"]),
        ("one byte of the revision", reading(|b| if byte_of_facts(b, 5) > 0 { b.facts.push(0) }),
            &["revision 256", "revision 65,535"]),
        ("revision below 256 is 0", reading(|b| if byte_of_facts(b, 4) > 0 { b.facts.push(0) }),
            &["revision 1", "revision 65,535"]),
        ("no release above H", reading(late_release_is_12), &["a release above H is no"]),
        ("releases rise with the codes", reading(|b| if b.edition == 2 && !releases_rise(b) { b.jobs.push(0) }),
            &["codes 10 and 20, releases 1", "codes 10 and 20, releases 65,535"]),
        ("codes rise together with releases", reading(codes_with_releases), &["codes 10 and 10"]),
        ("the head of edition 1", reading(|b| if b.edition == 2 && b.facts.len() == 3 { b.facts.extend([0; 3]) }),
            &["three bytes of facts"]),
        ("rows of edition 1", reading(|b| if b.edition == 2 && b.jobs.len() == 2 { b.jobs.extend([0; 2]) }),
            &["two bytes of jobs"]),
    ]
}

type Asked = fn(&Trial) -> bool;

/// The wrong ones, with the cases that they can be told apart by.
fn all() -> Vec<(Asked, Told)> {
    let any: Asked = |_| true;
    let judge: Asked = |trial| matches!(trial, Trial::Judge(_));
    let planner: Asked = |trial| matches!(trial, Trial::Plan(_));
    let groups = [
        (any, limits_off()),
        (any, codes()),
        (any, left_out()),
        (judge, judges()),
        (planner, planners()),
        (planner, absent_at_the_limits()),
    ];
    let pair =
        |(asked, group): (Asked, Vec<Told>)| group.into_iter().map(move |told| (asked, told));
    groups.into_iter().flat_map(pair).collect()
}

/// The wrong one is told apart by each of these cases that is named for it. Gives their places.
fn tell(trials: &[Trial], asked: Asked, (name, wrong, told_by): Told) -> Vec<usize> {
    let mut told = Vec::new();
    for start in told_by {
        let named = |trial: &Trial| asked(trial) && trial.name().starts_with(start);
        let named: Vec<usize> = (0..trials.len()).filter(|&k| named(&trials[k])).collect();
        assert!(!named.is_empty(), "{name}: no case {start}");
        for &place in &named {
            assert!(trials[place].tells(&wrong), "{name}: {}", trials[place].name());
        }
        told.extend(named);
    }
    told
}

/// Every wrong one is told apart by each case named for it, and every case is named.
#[test]
fn told_apart() {
    let trials = trials(limits::judged(), limits::planned());
    let mut used = vec![false; trials.len()];
    for (asked, told) in all() {
        tell(&trials, asked, told).into_iter().for_each(|place| used[place] = true);
    }
    for (trial, used) in trials.iter().zip(used) {
        assert!(used, "{} tells nothing apart", trial.name());
    }
    say(&format!("{} wrong ones told apart by {} cases", all().len(), trials.len()));
}

/// The cases of edition 1 tell those who read it by edition 2.
#[test]
fn edition_1_told_apart() {
    let judged = [cases::examples::cases(), cases::plans::cases()].concat();
    let trials = trials(judged, cases::planner::cases());
    for told in edition_1() {
        tell(&trials, |_| true, told);
    }
    for (name, wrong) in of_edition_1() {
        let at_full_size = full_size::judged().into_iter().map(Trial::Judge);
        let at_full_size = at_full_size.chain(full_size::planned().into_iter().map(Trial::Plan));
        let (old, new): (Vec<Trial>, Vec<Trial>) = at_full_size.partition(|t| t.sheet()[0] == 1);
        assert!(old.iter().any(|trial| trial.tells(&wrong)), "{name} at full size");
        assert!(!new.iter().any(|trial| trial.tells(&wrong)), "{name} is right in edition 2");
    }
}

/// The cases of edition 2 tell wrong readers, planners and judges apart, and each tells some.
#[test]
fn edition_2_told_apart() {
    let forms_of_2 = trials(cases::edition_2::forms_judged(), cases::edition_2::forms_planned());
    for told in forms() {
        tell(&forms_of_2, |_| true, told);
    }
    let trials = trials(cases::edition_2::judged(), cases::edition_2::planned());
    for told in edition_2() {
        tell(&trials, |_| true, told);
    }
    let blind: Vec<Told> = vec![
        ("no point 2", finding(|f| !matches!(f, Fault::Clash { .. })), &[]),
        ("no point 3", finding(|f| !matches!(f, Fault::Need { .. })), &[]),
        ("no point 4", finding(|f| !matches!(f, Fault::Goal { .. })), &[]),
        ("no rule 21", seeing(|l| !matches!(l, ClassRule { number: 21, .. })), &[]),
    ];
    let wrong: Vec<Told> = [edition_2(), forms(), blind, absent_jobs()].concat();
    for trial in trials.iter().chain(&forms_of_2) {
        assert!(!trial.tells(&UNCHANGED), "{}", trial.name());
    }
    for trial in &trials {
        assert!(wrong.iter().any(|(_, wrong, _)| trial.tells(wrong)), "{}", trial.name());
    }
    let (all, cases) = (edition_2().len() + forms().len(), trials.len() + forms_of_2.len());
    say(&format!("{all} wrong ones told apart by {cases} cases of edition 2"));
}

/// With every single gap each wrong product is told by the cases that are to tell it, lists among them, and by no
/// others. Each case tells some.
#[test]
fn products_told_apart() {
    for gap in cases::distances::gaps() {
        let judged = cases::distances::tried(gap).into_iter().map(|tried| tried.case).collect();
        let planned = gap.map(cases::edition_2::planned_with).unwrap_or_default();
        let trials = trials(judged, planned);
        let mut used = vec![false; trials.len()];
        for (name, wrong, told_by) in products() {
            let due = |trial: &Trial| told_by.iter().any(|part| trial.name().contains(part));
            let lists = |trial: &&Trial| matches!(trial, Trial::Judge(_));
            assert!(trials.iter().filter(lists).any(due), "{name}: no list with gap {gap:?}");
            for (trial, used) in trials.iter().zip(&mut used) {
                let told = trial.tells(&wrong);
                assert_eq!(told, due(trial), "{name}: {}, gap {gap:?}", trial.name());
                *used |= told;
            }
        }
        for (trial, used) in trials.iter().zip(used) {
            assert!(!trial.tells(&UNCHANGED) && used, "{}, gap {gap:?}", trial.name());
        }
    }
}

/// Wrong ones that overlook something, so that a case tells more than how rows are taken.
fn blind() -> Vec<Told> {
    vec![
        ("no point 1", finding(|f| !matches!(f, Fault::OwnTimes { .. })), &[]),
        ("no guards", seeing(|l| !matches!(l, Guard { .. })), &[]),
        ("no rule 20", seeing(|l| !matches!(l, ClassRule { number: 20, .. })), &[]),
        ("no rule 21", seeing(|l| !matches!(l, ClassRule { number: 21, .. })), &[]),
        ("no rule 22", seeing(|l| !matches!(l, ClassRule { number: 22, .. })), &[]),
        ("no own times", seeing(|l| !matches!(l, OwnTimes { .. })), &[]),
    ]
}

/// The cases of several bounds of a pair tell each wrong way to take them, and each case tells some. Both a list and a
/// sheet alone tell each wrong lookup, but for what the judge or the planner alone does.
#[test]
fn several_rows_told_apart() {
    let trials = trials(cases::repeated::judged(), cases::repeated::planned());
    for told in several_rows() {
        tell(&trials, |_| true, told);
    }
    for (name, wrong) in of_several_rows() {
        let told = |judged: bool| {
            let asked = |trial: &&Trial| matches!(trial, Trial::Judge(_)) == judged;
            trials.iter().filter(asked).any(|trial| trial.tells(&wrong))
        };
        let due = (name != "orders by the first row", name != "the judge by the first row");
        assert_eq!((told(true), told(false)), due, "{name}");
    }
    let wrong = [several_rows(), blind(), absent_jobs()].concat();
    for trial in &trials {
        assert!(!trial.tells(&UNCHANGED), "{}", trial.name());
        assert!(wrong.iter().any(|(_, wrong, _)| trial.tells(wrong)), "{}", trial.name());
    }
    let count = several_rows().len();
    say(&format!("{count} wrong ones told apart by {} cases of several rows", trials.len()));
}

/// The cases of retired jobs tell each wrong way to treat them, and each case tells some. A job without events has no part in
/// an answer: who takes it for absent is told by that alone.
#[test]
fn absent_jobs_told_apart() {
    let trials: Vec<Trial> = cases::retired::cases().into_iter().map(Trial::Retired).collect();
    for told in absent_jobs() {
        tell(&trials, |_| true, told);
    }
    let wrong = [absent_jobs(), blind()].concat();
    for trial in &trials {
        assert!(!trial.tells(&UNCHANGED), "{}", trial.name());
        assert!(wrong.iter().any(|(_, wrong, _)| trial.tells(wrong)), "{}", trial.name());
    }
    for (name, wrong) in of_absent_jobs() {
        let told = cases::retired::planned().iter().any(|case| planned_otherwise(&wrong, case));
        assert_eq!(told, name != "a job without events is absent", "{name}");
    }
    let count = absent_jobs().len();
    say(&format!("{count} wrong ones told apart by {} cases of retired jobs", trials.len()));
}

/// Every case at full size tells a wrong one apart that is not just wrong about a limit; nothing changed, none does.
#[test]
fn full_size_tells() {
    let read = |edition| if edition == 2 { [edition_2(), forms()].concat() } else { left_out() };
    for trial in trials(full_size::judged(), full_size::planned()) {
        let planners = || [planners(), absent_jobs()].concat();
        let routine = if matches!(trial, Trial::Judge(_)) { judges() } else { planners() };
        let wrong = match sheet::read(trial.sheet()).is_ok_and(|sheet| sheet.repeats()) {
            true => several_rows(),
            false => [read(trial.sheet()[0]), routine].concat(),
        };
        assert!(!trial.tells(&UNCHANGED), "{}", trial.name());
        assert!(wrong.iter().any(|(_, wrong, _)| trial.tells(wrong)), "{}", trial.name());
    }
}
