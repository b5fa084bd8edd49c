//! Request N3 of document 02, "trying late starts", from its words: a delayed list by brute force over all its events, and
//! the facts that a run holds by what was set and cleared, with no look at the states before.

use crate::build::list_of_instances;
use crate::model::list::{self, Instance};
use crate::model::plan::{happenings, is_plan, Happening};
use crate::model::sheet::{self, Kind, Sheet};
use crate::Run;

/// The tick of the initial state, which precedes tick 0.
const START: i32 = -1;

/// A tick at which a delayed list goes wrong.
#[derive(Clone, Copy, Debug, PartialEq, Eq, PartialOrd, Ord)]
pub struct Fault {
    pub tick: i32,
    pub kind: FaultKind,
}

#[derive(Clone, Copy, Debug, PartialEq, Eq, PartialOrd, Ord)]
pub enum FaultKind {
    /// A set meets a clear.
    Meets,
    /// A need begins, and there never was a source for it.
    NoSource,
    /// A need begins, and each of its sources was cleared before that tick.
    ClearedBefore,
    /// A clear by another instance, from a need's begin on and before its end.
    BrokenWithin,
    /// The same at the end or after it, before the gap is over.
    BrokenInGap,
    /// A clear by the need's own instance, from its begin on and before its end.
    BrokenByOwn,
}

/// Why a list fails that has no fault up to H.
#[derive(Clone, Copy, Debug, PartialEq, Eq, PartialOrd, Ord)]
pub enum Cause {
    GoalLost,
    TimeAbove,
    /// A goal is lost and a time lies above H.
    Both,
    /// Faults, but above H alone.
    FaultsAbove,
}

/// How a run is tried and followed. A value, so that tests can make wrong programs.
#[derive(Clone, Copy)]
pub struct Manner {
    /// The greatest delay.
    pub most: u16,
    pub delays_before_judge: bool,
    /// Whether the entries at these places of a list are one instance.
    pub same: fn(&[Instance], usize, usize) -> bool,
    /// The ticks from a set to the begin of a need, by whether one instance has both.
    pub to_need: fn(&Sheet, bool) -> i32,
    /// The ticks from the end of a need to a clear, likewise.
    pub to_clear: fn(&Sheet, bool) -> i32,
    /// Whether a need that begins is served.
    pub served: fn(&Tried, &Manner, &Need) -> bool,
    /// Whether faults of this kind are seen.
    pub sees: fn(FaultKind) -> bool,
    /// The tick of a clear that breaks a need, and of the need's begin, to the tick of the fault.
    pub broken_at: fn(i32, i32) -> i32,
    /// The tick that is told, out of those of all faults.
    pub told: fn(&Sheet, &[i32]) -> Option<i32>,
    /// The tick that is told where there is none.
    pub without: fn(&Sheet) -> i32,
    pub clear_acts_last: bool,
    /// The tick that no move runs, nor any after it.
    pub end: fn(&Sheet) -> u64,
    /// The number of a move with a delayed list that is no plan.
    pub failing: u8,
    pub moves_when_refused: bool,
}

/// That of the document.
pub const RIGHT: Manner = Manner {
    most: 600,
    delays_before_judge: false,
    same: |_, i, k| i == k,
    to_need: gap_of_others,
    to_clear: gap_of_others,
    served: |tried, manner, need| tried.sources(manner, need).any(|s| tried.lasts_to(s, need)),
    sees: |_| true,
    broken_at: |clear, _| clear,
    told: |sheet, ticks| ticks.iter().copied().filter(|tick| *tick <= sheet.horizon).min(),
    without: |sheet| sheet.horizon,
    clear_acts_last: true,
    end: |sheet| sheet.horizon as u64 + 1,
    failing: 0,
    moves_when_refused: false,
};

fn gap_of_others(sheet: &Sheet, same: bool) -> i32 {
    if same {
        0
    } else {
        sheet.gap()
    }
}

/// A need of an entry, from `begin` to `end`.
#[derive(Clone, Copy, Debug)]
pub struct Need {
    pub entry: usize,
    pub fact: usize,
    pub begin: i32,
    pub end: i32,
}

/// A list that the judge accepts, with delays in order.
pub struct Tried {
    pub sheet: Sheet,
    /// The delayed instances.
    pub plan: Vec<Instance>,
    pub all: Vec<Happening>,
}

/// Number and detail for a delayed list.
pub fn late(sheet: &[u8], list: &[u8], delays: &[u16]) -> (u8, usize) {
    match tried(sheet, list, delays, &RIGHT) {
        Ok(tried) => tried.answer(),
        Err(number) => (number, 0),
    }
}

/// The number for a fresh state, and the facts that stand there after.
pub fn fresh(sheet: &[u8], held: u64) -> (u8, u64) {
    match sheet::read(sheet) {
        Ok(sheet) => (0, initial(&sheet)),
        Err(number) => (number, held),
    }
}

/// The number for one move of any state, and the state after.
pub fn move_on(sheet: &[u8], list: &[u8], delays: &[u16], run: Run) -> (u8, Run) {
    moved_by(sheet, list, delays, run, &RIGHT)
}

pub fn late_by(sheet: &[u8], list: &[u8], delays: &[u16], manner: &Manner) -> (u8, usize) {
    match tried(sheet, list, delays, manner) {
        Ok(tried) => tried.answer_by(manner),
        Err(number) => (number, 0),
    }
}

pub fn moved_by(sheet: &[u8], list: &[u8], delays: &[u16], run: Run, manner: &Manner) -> (u8, Run) {
    match tried(sheet, list, delays, manner) {
        Ok(tried) if tried.answer_by(manner).0 == 0 => (0, tried.moved(run, manner)),
        Ok(tried) => (manner.failing, tried.moved(run, manner)),
        Err(number) if manner.moves_when_refused => (number, moved_in_vain(run)),
        Err(number) => (number, run),
    }
}

fn moved_in_vain(run: Run) -> Run {
    Run { next: run.next.wrapping_add(1), ..run }
}

/// The judge's refusals first, then that of the delays.
pub fn tried(sheet: &[u8], list: &[u8], delays: &[u16], manner: &Manner) -> Result<Tried, u8> {
    let sheet = sheet::read(sheet)?;
    let plan = list::read(&sheet, list).ok_or(40)?;
    let in_order = delays.len() == plan.len() && delays.iter().all(|d| *d <= manner.most);
    if manner.delays_before_judge && !in_order {
        return Err(40);
    }
    if !is_plan(&sheet, &plan) {
        return Err(41);
    }
    if !in_order {
        return Err(40);
    }
    Ok(Tried::new(sheet, &delayed(&plan, delays)))
}

/// The same instances, the delay of each added to all its times.
pub fn delayed(plan: &[Instance], delays: &[u16]) -> Vec<Instance> {
    let one = |(instance, delay): (&Instance, &u16)| {
        let times = instance.times.iter().map(|tick| tick + i32::from(*delay)).collect();
        Instance { times, ..*instance }
    };
    plan.iter().zip(delays).map(one).collect()
}

fn initial(sheet: &Sheet) -> u64 {
    let facts = 0..sheet.facts.len();
    facts.filter(|&fact| sheet.facts[fact].initial).map(|fact| 1 << fact).sum()
}

impl Tried {
    fn new(sheet: Sheet, plan: &[Instance]) -> Tried {
        let all = happenings(&sheet, plan);
        Tried { sheet, plan: plan.to_vec(), all }
    }

    /// 0 exactly if the judge accepts the delayed list; else 41 with the first tick, up to H, that has a fault, or with H.
    pub fn answer(&self) -> (u8, usize) {
        if is_plan(&self.sheet, &self.plan) {
            return (0, 0);
        }
        (41, self.first_tick(&RIGHT) as usize)
    }

    /// The same, but 0 where no fault is seen at any tick, no time lies above H, and every goal is kept.
    pub fn answer_by(&self, manner: &Manner) -> (u8, usize) {
        let holds = !self.is_late() && self.lost_goals() == 0 && self.faults_by(manner).is_empty();
        if holds {
            return (0, 0);
        }
        (41, self.first_tick(manner) as usize)
    }

    fn first_tick(&self, manner: &Manner) -> i32 {
        let ticks: Vec<i32> = self.faults_by(manner).iter().map(|fault| fault.tick).collect();
        (manner.told)(&self.sheet, &ticks).unwrap_or((manner.without)(&self.sheet))
    }

    /// The first fault up to H; of several at one tick all kinds.
    pub fn first_kinds(&self) -> Vec<FaultKind> {
        let faults = self.faults();
        let first = self.first_tick(&RIGHT);
        let mut kinds: Vec<FaultKind> =
            faults.iter().filter(|fault| fault.tick == first).map(|fault| fault.kind).collect();
        kinds.sort();
        kinds.dedup();
        kinds
    }

    /// Why it fails, if it does, though it has no fault up to H.
    pub fn cause(&self) -> Option<Cause> {
        let faults = self.faults();
        if faults.iter().any(|fault| fault.tick <= self.sheet.horizon) {
            return None;
        }
        match (self.lost_goals() > 0, self.is_late()) {
            _ if !faults.is_empty() => Some(Cause::FaultsAbove),
            (true, true) => Some(Cause::Both),
            (true, false) => Some(Cause::GoalLost),
            (false, true) => Some(Cause::TimeAbove),
            (false, false) => None,
        }
    }

    pub fn faults(&self) -> Vec<Fault> {
        self.faults_by(&RIGHT)
    }

    /// Every fault, at any tick.
    pub fn faults_by(&self, manner: &Manner) -> Vec<Fault> {
        let mut faults = Vec::new();
        for set in self.all.iter().filter(|h| h.kind == Kind::Sets) {
            let meets = self.of(Kind::Clears, set.fact).any(|clear| clear.tick == set.tick);
            if meets {
                faults.push(Fault { tick: set.tick, kind: FaultKind::Meets });
            }
        }
        for need in self.needs() {
            if !(manner.served)(self, manner, &need) {
                let kind = match self.sources(manner, &need).next() {
                    Some(_) => FaultKind::ClearedBefore,
                    None => FaultKind::NoSource,
                };
                faults.push(Fault { tick: need.begin, kind });
            }
            for clear in self.of(Kind::Clears, need.fact) {
                let own = (manner.same)(&self.plan, clear.entry, need.entry);
                let from = need.end + (manner.to_clear)(&self.sheet, own);
                if need.begin <= clear.tick && clear.tick < from {
                    let tick = (manner.broken_at)(clear.tick, need.begin);
                    let kind = match clear.tick < need.end {
                        true if own => FaultKind::BrokenByOwn,
                        true => FaultKind::BrokenWithin,
                        false => FaultKind::BrokenInGap,
                    };
                    faults.push(Fault { tick, kind });
                }
            }
        }
        faults.retain(|fault| (manner.sees)(fault.kind));
        faults
    }

    /// The happenings of one kind and one fact.
    fn of(&self, kind: Kind, fact: usize) -> impl Iterator<Item = &Happening> {
        self.all.iter().filter(move |h| h.kind == kind && h.fact == fact)
    }

    pub fn needs(&self) -> Vec<Need> {
        let mut needs = Vec::new();
        for one in self.all.iter().filter(|h| h.kind == Kind::Begins) {
            for other in self.of(Kind::Ends, one.fact).filter(|h| h.entry == one.entry) {
                let (begin, end) = (one.tick, other.tick);
                needs.push(Need { entry: one.entry, fact: one.fact, begin, end });
            }
        }
        needs
    }

    /// The ticks of all that may be the need's source.
    pub fn sources<'a>(
        &'a self,
        manner: &'a Manner,
        need: &'a Need,
    ) -> impl Iterator<Item = i32> + 'a {
        let in_time = move |set: &&Happening| {
            let own = (manner.same)(&self.plan, set.entry, need.entry);
            set.tick + (manner.to_need)(&self.sheet, own) <= need.begin
        };
        let start = self.sheet.facts[need.fact].initial.then_some(START);
        let sets = self.of(Kind::Sets, need.fact).filter(in_time).map(|set| set.tick);
        start.into_iter().chain(sets)
    }

    /// No clear lies after the source and before the need's begin.
    pub fn lasts_to(&self, source: i32, need: &Need) -> bool {
        let mut clears = self.of(Kind::Clears, need.fact);
        !clears.any(|clear| source < clear.tick && clear.tick < need.begin)
    }

    fn is_late(&self) -> bool {
        self.all.iter().any(|h| h.tick > self.sheet.horizon)
    }

    /// How many goals have no source without a clear after it.
    fn lost_goals(&self) -> usize {
        let lost = |fact: &usize| {
            let start = self.sheet.facts[*fact].initial.then_some(START);
            let mut sources =
                start.into_iter().chain(self.of(Kind::Sets, *fact).map(|set| set.tick));
            let lasts = |source| !self.of(Kind::Clears, *fact).any(|clear| source < clear.tick);
            self.sheet.facts[*fact].goal && !sources.any(lasts)
        };
        (0..self.sheet.facts.len()).filter(lost).count()
    }

    /// The facts initial or set before this tick and not cleared since; a clear acts after a set of the same tick.
    pub fn held_before(&self, tick: u64) -> u64 {
        self.held_before_by(tick, &RIGHT)
    }

    pub fn held_before_by(&self, tick: u64, manner: &Manner) -> u64 {
        let before = |h: &Happening| (h.tick as u64) < tick;
        let holds = |fact: &usize| {
            let start = self.sheet.facts[*fact].initial.then_some(START);
            let sets = self.of(Kind::Sets, *fact).filter(|set| before(set)).map(|set| set.tick);
            let lasts = |from: i32| {
                !self.of(Kind::Clears, *fact).any(|clear| {
                    let since = from < clear.tick || manner.clear_acts_last && from == clear.tick;
                    before(clear) && since
                })
            };
            start.into_iter().chain(sets).any(lasts)
        };
        (0..self.sheet.facts.len()).filter(holds).map(|fact| 1 << fact).sum()
    }

    /// One move of any state: what is set at its tick is added, then what is cleared at it is taken away.
    pub fn moved(&self, run: Run, manner: &Manner) -> Run {
        if run.next >= (manner.end)(&self.sheet) {
            return run;
        }
        let now = |kind| {
            let all = self.all.iter().filter(move |h| h.kind == kind && h.tick as u64 == run.next);
            all.fold(0, |facts, h| facts | 1 << h.fact)
        };
        let (sets, clears): (u64, u64) = (now(Kind::Sets), now(Kind::Clears));
        let held = match manner.clear_acts_last {
            true => (run.held | sets) & !clears,
            false => run.held & !clears | sets,
        };
        Run { next: run.next + 1, held }
    }

    /// The delayed list as bytes.
    pub fn bytes(&self) -> Vec<u8> {
        list_of_instances(&self.sheet, &self.plan)
    }
}
