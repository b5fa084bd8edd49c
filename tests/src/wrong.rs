//! Wrong planners and judges: the models with one thing changed.

mod cost;
mod late;
mod newer;
mod repeated;
mod retired;

pub use cost::of_costs;
pub use late::of_late_starts;
pub use newer::of_two_sheets;
pub use repeated::{of_row_order, of_several_rows};
pub use retired::of_absent_jobs;

use crate::build::Bodies;
use crate::model::limits::{Limits, LIMITS};
use crate::model::list::{self, Instance};
use crate::model::plan::{faults_by, Distances, Fault, DISTANCES};
use crate::model::sheet::{self, number, Edition, Kind, Sheet};
use crate::planner_model::{verdict_on, Look, Manner, Study, Verdict, RIGHT};
use crate::wanted::Wanted;

/// What is changed; the rest is `UNCHANGED`.
#[derive(Clone, Copy)]
pub struct Wrong {
    pub limits: Limits,
    /// What the planner reads in place of these bodies.
    pub planned: fn(&mut Bodies),
    /// What the judge reads.
    pub judged: fn(&mut Bodies),
    /// What is judged in place of these instances.
    pub instances: fn(&Sheet, &mut Vec<Instance>),
    /// Whether the judge sees this fault.
    pub finds: fn(Fault) -> bool,
    pub manner: Manner,
    /// What the planner says in place of this.
    pub says: fn(&Sheet, Verdict) -> Verdict,
}

pub const UNCHANGED: Wrong = Wrong {
    limits: LIMITS,
    planned: |_| (),
    judged: |_| (),
    instances: |_, _| (),
    finds: |_| true,
    manner: RIGHT,
    says: |_, verdict| verdict,
};

impl Wrong {
    /// The planner's answer with its list, if the buffer is long enough.
    pub fn plan(&self, sheet: &[u8]) -> (u8, usize, Option<Vec<u8>>) {
        let verdict = match self.read(sheet, self.planned) {
            Ok(sheet) => (self.says)(&sheet, verdict_on(&sheet, self.manner)),
            Err(number) => Verdict::Refused(number, 0),
        };
        match verdict {
            Verdict::Refused(number, detail) => (number, detail, None),
            Verdict::NoPlan(_) => (1, 0, None),
            Verdict::Plan(list) => (0, list.len(), Some(list)),
        }
    }

    /// The absent jobs of a well-formed sheet, as the planner takes it.
    pub fn absent(&self, sheet: &[u8]) -> Vec<usize> {
        let sheet = self.read(sheet, self.planned).expect("it is well formed");
        let present = Study::by(&sheet, self.manner).present;
        (0..present.len()).filter(|&job| !present[job]).collect()
    }

    /// The judge's number.
    pub fn judge(&self, sheet: &[u8], list: &[u8]) -> u8 {
        let sheet = match self.read(sheet, self.judged) {
            Ok(sheet) => sheet,
            Err(number) => return number,
        };
        let Some(mut instances) = list::read_within(&sheet, list, &self.limits) else {
            return 40;
        };
        (self.instances)(&sheet, &mut instances);
        let found = faults_by(&sheet, &instances, &self.manner.distances);
        let found = found.into_iter().any(self.finds);
        41 * u8::from(found)
    }

    fn read(&self, sheet: &[u8], change: fn(&mut Bodies)) -> Result<Sheet, u8> {
        match Bodies::of(sheet) {
            Some(mut bodies) => {
                change(&mut bodies);
                sheet::read_within(&bodies.bytes(), &self.limits)
            }
            None => sheet::read_within(sheet, &self.limits),
        }
    }
}

/// Marks facts by going from each to the jobs that set it and on to their needs, through at most `depth` jobs.
pub fn marked_to(sheet: &Sheet, depth: usize) -> Wanted {
    let mut wanted = Wanted::goals(sheet);
    for _ in 0..depth {
        let mut more = wanted.clone();
        for fact in (0..sheet.facts.len()).filter(|&fact| wanted.facts[fact]) {
            more.visit(sheet, fact);
        }
        wanted = more;
    }
    wanted
}

/// Marks in sweeps over all facts by rising or falling numbers.
pub fn swept(sheet: &Sheet, sweeps: usize, falling: bool) -> Wanted {
    let mut wanted = Wanted::goals(sheet);
    let count = sheet.facts.len();
    for _ in 0..sweeps {
        for place in 0..count {
            let fact = if falling { count - 1 - place } else { place };
            wanted.visit(sheet, fact);
        }
    }
    wanted
}

/// Marks as if fact 63 were no goal.
pub fn marked_without_goal_63(sheet: &Sheet) -> Wanted {
    let mut less = sheet.clone();
    if let Some(fact) = less.facts.get_mut(63) {
        fact.goal = false;
    }
    Wanted::of(&less)
}

/// Marks as if these events alone were there.
pub fn marked_without(sheet: &Sheet, keep: fn(&sheet::Event) -> bool) -> Wanted {
    let mut less = sheet.clone();
    less.events.retain(keep);
    Wanted::of(&less)
}

/// A planner that sees all but this.
pub fn seeing(sees: fn(Look) -> bool) -> Wrong {
    Wrong { manner: Manner { sees, ..RIGHT }, ..UNCHANGED }
}

pub fn marking(mark: fn(&Sheet) -> Wanted) -> Wrong {
    Wrong { manner: Manner { mark, ..RIGHT }, ..UNCHANGED }
}

/// A planner and a judge that keep these distances.
pub fn keeping(distances: Distances) -> Wrong {
    Wrong { manner: Manner { distances, ..RIGHT }, ..UNCHANGED }
}

pub fn finding(finds: fn(Fault) -> bool) -> Wrong {
    Wrong { finds, ..UNCHANGED }
}

pub fn judging(instances: fn(&Sheet, &mut Vec<Instance>)) -> Wrong {
    Wrong { instances, ..UNCHANGED }
}

/// A planner and a judge that read this in place of the bodies.
pub fn reading(change: fn(&mut Bodies)) -> Wrong {
    Wrong { planned: change, judged: change, ..UNCHANGED }
}

pub fn limited(limits: Limits) -> Wrong {
    Wrong { limits, ..UNCHANGED }
}

/// The highest bit of a code counts as a sign: turned over where that changes whether the codes rise.
pub fn with_signs(bodies: &mut Bodies) {
    let mut turned = bodies.jobs.clone();
    turned.iter_mut().skip(1).step_by(2).for_each(|byte| *byte ^= 128);
    let rise = |jobs: &[u8]| {
        let codes: Vec<u16> = jobs.chunks_exact(2).map(|code| number(code, 0)).collect();
        codes.windows(2).all(|two| two[0] < two[1])
    };
    if rise(&turned) != rise(&bodies.jobs) {
        bodies.jobs = turned;
    }
}

/// The last of 512 times is taken for another.
pub fn change_last_of_512(plan: &mut [Instance], change: impl Fn(i32) -> i32) {
    if plan.iter().map(|i| i.times.len()).sum::<usize>() == 512 {
        let last = plan.iter_mut().rev().find_map(|i| i.times.last_mut());
        let last = last.expect("there are 512");
        *last = change(*last);
    }
}

/// A need of fact 63 that begins too late is taken to begin when it ends.
pub fn begin_63_in_time(sheet: &Sheet, plan: &mut [Instance]) {
    for instance in plan {
        let events = sheet.events_of(instance.job);
        let place = |kind| {
            let event = sheet.event(instance.job, kind, 63)?;
            events.iter().position(|k| *k == event)
        };
        if let (Some(begin), Some(end)) = (place(Kind::Begins), place(Kind::Ends)) {
            instance.times[begin] = instance.times[begin].min(instance.times[end]);
        }
    }
}

/// Entries with this kind of event of fact 63 are passed over.
pub fn pass_over_63(sheet: &Sheet, plan: &mut Vec<Instance>, kind: Kind) {
    plan.retain(|instance| sheet.event(instance.job, kind, 63).is_none());
}

/// The order of the two kinds of events of fact 63.
pub fn order_63(one: Kind, other: Kind) -> Look {
    Look::Order { one, other, fact: 63 }
}

/// Wrong planners and judges that are right as long as a sheet is of edition 1.
pub fn of_edition_2() -> Vec<(&'static str, Wrong)> {
    [wrong_distances(), wrong_gap_bytes(), wrong_releases()].concat()
}

fn wrong_distances() -> Vec<(&'static str, Wrong)> {
    let one = |_: &Sheet, same: bool| i32::from(!same);
    let always = |sheet: &Sheet, _: bool| sheet.gap();
    let right = DISTANCES;
    vec![
        ("one tick from set to need", keeping(Distances { to_need: one, ..right })),
        ("one tick from need to clear", keeping(Distances { to_clear: one, ..right })),
        ("the gap for the own set", keeping(Distances { to_need: always, ..right })),
        ("the gap for the own clear", keeping(Distances { to_clear: always, ..right })),
        ("the gap between set and clear", keeping(Distances { apart: Sheet::gap, ..right })),
        ("the initial state waits", keeping(Distances { from_start: |s| s.gap() - 1, ..right })),
        (
            "gap byte 0 is no gap",
            keeping(Distances { to_need: gap_byte, to_clear: gap_byte, ..right }),
        ),
        (
            "a tick less of gap",
            keeping(Distances { to_need: tick_less, to_clear: tick_less, ..right }),
        ),
    ]
}

fn wrong_gap_bytes() -> Vec<(&'static str, Wrong)> {
    vec![
        (
            "gap byte 0 is 1 tick",
            reading(|bodies| change_gap(bodies, |gap| if gap == 0 { 1 } else { gap })),
        ),
        (
            "gap byte 0 is 3 ticks",
            reading(|bodies| change_gap(bodies, |gap| if gap == 0 { 3 } else { gap })),
        ),
        (
            "gap byte 1 is the default",
            reading(|bodies| change_gap(bodies, |gap| if gap == 1 { 0 } else { gap })),
        ),
        (
            "gap byte 2 is 1 tick",
            reading(|bodies| change_gap(bodies, |gap| if gap == 2 { 1 } else { gap })),
        ),
        (
            "a tick more of gap",
            reading(|bodies| change_gap(bodies, |gap| if gap == 0 { 3 } else { gap + 1 })),
        ),
    ]
}

fn wrong_releases() -> Vec<(&'static str, Wrong)> {
    vec![
        ("no releases", reading(|bodies| change_releases(bodies, |_, _| 0))),
        (
            "releases a tick early",
            reading(|bodies| change_releases(bodies, |_, r| r.saturating_sub(1))),
        ),
        (
            "releases a tick late",
            reading(|bodies| {
                change_releases(bodies, |_, r| if r == 0 { 0 } else { r.saturating_add(1) })
            }),
        ),
        (
            "the first release alone",
            reading(|bodies| change_releases(bodies, |job, r| if job == 0 { r } else { 0 })),
        ),
        ("the first release for all", reading(first_release_for_all)),
        ("orders without releases", seeing(|look| !matches!(look, Look::Release { .. }))),
    ]
}

/// Wrong products of the gap with a mark of 0 or 1, in both editions.
pub fn of_the_product() -> Vec<(&'static str, Wrong)> {
    let ticks = |ticks| keeping(Distances { to_need: ticks, to_clear: ticks, ..DISTANCES });
    let by_job = |plan: &[Instance], i: usize, k: usize| plan[i].job == plan[k].job;
    vec![
        ("the mark of the same instance", ticks(|sheet, same| sheet.gap() * i32::from(same))),
        ("the sum of gap and mark", ticks(|sheet, same| sheet.gap() + i32::from(!same))),
        ("the mark always 1", ticks(|sheet, _| sheet.gap())),
        ("the mark always 0", ticks(|_, _| 0)),
        ("the mark by job", keeping(Distances { same: by_job, ..DISTANCES })),
    ]
}

/// Wrong planners and judges that are right as long as a sheet is of edition 2.
pub fn of_edition_1() -> Vec<(&'static str, Wrong)> {
    let distances = Distances { to_need: always_default, to_clear: always_default, ..DISTANCES };
    vec![("the default of edition 2", keeping(distances))]
}

/// The gap of edition 2 with gap byte 0, also in edition 1.
fn always_default(sheet: &Sheet, same: bool) -> i32 {
    match sheet.edition {
        Edition::One if !same => Edition::Two { gap: 0, revision: 0 }.gap(),
        _ => (DISTANCES.to_need)(sheet, same),
    }
}

/// A tick less than the gap, in edition 2.
fn tick_less(sheet: &Sheet, same: bool) -> i32 {
    match sheet.edition {
        Edition::Two { .. } if !same => sheet.gap() - 1,
        _ => (DISTANCES.to_need)(sheet, same),
    }
}

/// The byte of the gap as it is.
fn gap_byte(sheet: &Sheet, same: bool) -> i32 {
    match sheet.edition {
        Edition::Two { gap, .. } if !same => i32::from(gap),
        _ => i32::from(!same),
    }
}

fn change_gap(bodies: &mut Bodies, change: fn(u8) -> u8) {
    if let (2, Some(gap)) = (bodies.edition, bodies.facts.get_mut(3)) {
        *gap = change(*gap);
    }
}

/// From the job's number and release to the release that is read.
fn change_releases(bodies: &mut Bodies, change: fn(usize, u16) -> u16) {
    if bodies.edition == 2 {
        for (job, row) in bodies.jobs.chunks_exact_mut(4).enumerate() {
            let release = change(job, number(row, 2));
            row[2..].copy_from_slice(&release.to_le_bytes());
        }
    }
}

fn first_release_for_all(bodies: &mut Bodies) {
    if let (2, Some(first)) = (bodies.edition, bodies.jobs.get(2..4)) {
        let first = first.to_vec();
        bodies.jobs.chunks_exact_mut(4).for_each(|row| row[2..].copy_from_slice(&first));
    }
}

/// Code and release of each job of an edition 2 sheet.
fn job_rows(bodies: &Bodies) -> Vec<(u16, u16)> {
    bodies.jobs.chunks_exact(4).map(|row| (number(row, 0), number(row, 2))).collect()
}

pub fn releases_rise(bodies: &Bodies) -> bool {
    job_rows(bodies).windows(2).all(|two| two[0].1 <= two[1].1)
}

/// A release above H is taken for a fault of form.
pub fn late_release_is_12(bodies: &mut Bodies) {
    let horizon = bodies.facts.get(1..3).map_or(0, |two| number(two, 0));
    if bodies.edition == 2 && job_rows(bodies).iter().any(|row| row.1 > horizon) {
        bodies.jobs.push(0);
    }
}

/// Of two equal codes with rising releases the second is taken for a greater one.
pub fn codes_with_releases(bodies: &mut Bodies) {
    let rows = job_rows(bodies);
    if bodies.edition == 2 && rows.len() == 2 && rows[0].0 == rows[1].0 && rows[0].1 < rows[1].1 {
        bodies.jobs[4] += 1;
    }
}

/// A byte of the facts body of an edition 2 sheet, 0 where there is none.
pub fn byte_of_facts(bodies: &Bodies, place: usize) -> u8 {
    let byte = bodies.facts.get(place).copied().unwrap_or(0);
    if bodies.edition == 2 {
        byte
    } else {
        0
    }
}
