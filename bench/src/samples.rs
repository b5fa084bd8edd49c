//! The sheets and lists of the benchmark, with their bars in instructions of one call.
//!
//! The worst sheet we could construct for each part:
//! - own times: a ring of 256 events in one job, each rule leading to the event before it; it takes
//!   a sweep for each event before the gain of one tick can be seen ("ring of 256 events").
//!   "one too far away" has its answer after a single rule: what it costs is what was made ready for the orders.
//! - wanted: a line of jobs, each wanted by the one before; the marking is linear, so it never counts.
//! - orders: two jobs of 128 events on one tick, in which every set and every clear is asked for a row of widest own
//!   times, and each row leads from one event to all others ("61 facts in both orders", which a planner is spared that
//!   tests rule 20 first; "60 unwanted facts so", which it is not). Dearest of all is one job whose events are tied to
//!   one of them with some slack ("tied loosely to one", found by a search). A row is dearest for a planner that looks
//!   at the wrong event first where a long way with shortcuts that fall one tick short goes to and fro over the numbers
//!   ("round a zigzag", found by a search that climbed to sheets of 83 million for an earlier library of ours). Others:
//!   one job of 256 events with 256 loose bounds in no order ("tangled"), and exact bounds along one path, where every
//!   round shows one fact more ("guard in a chain") or none ("along one path").
//! - class: what it adds to the orders is a pass over the facts; "62 facts cleared first" makes it ask
//!   for the second order of every fact. The calls named "class test" end with it (answer 21), so that
//!   they count reading and the class test, and nothing after.
//! - chains: each job needs what the one before it sets; where the numbers fall along the chain, sweeps over all events by
//!   their numbers settle one job at a time.
//! - list rules: 32 jobs that set and clear the same two facts, shown in both orders: 5,120 pairs; rings of jobs against
//!   the order of the sheet; and a zigzag that lifts the events of 1,083 pairs again and again.
//! - writing: 32 jobs of 8 events, the longest list: linear.
//! - gaps and releases: they move ticks, but make neither more rules nor longer ways. A search from all of these sheets with
//!   gaps and releases, 260,000 sheets in twenty minutes, came from 7.46 to 7.64 million ("tied loosely"), and nowhere above.
//! - judge: 32 entries of a job with a bound for any two of its 16 events: 7,680 bounds are tested.
//! - repeated bounds: the rows of a pair are looked up as one bound, so that a sheet costs what its tightest rows cost, and
//!   some 55 instructions for each row more. The dearest of the sheets above, with as many rows as there is room for, and
//!   for the judge 64 entries of a job with 256 rows on one pair, on few, and on as many as it can have. A search from
//!   these, 87,000 sheets in four minutes, came nowhere above 7.5 million.
//! - absent jobs: rings that gain a tick a turn, in as many jobs as there may be or in few, long and short, against the order
//!   of the sheet and along it; rows that cross; ways a tick too long for the window; a zigzag with shortcuts, closed to a
//!   ring; and absent jobs beside the dearest present one, the dearest of all. A search from the others by the clock, 291,000
//!   sheets in three minutes: the sheet that took longest has 3.8 million instructions.
//! - delayed lists: beside the judge's way over the list given, a second one over the delayed rows, which is dear where the first
//!   was not. Rows are dear to sort where order at a distance of 8 leaves them far from their places. Needs are dear where
//!   the sets of all other entries lie close before them, too close to serve: 64 sets for each of 128 needs, or 170.
//! - lists with rates: beside the judge's way a look at each rate, at each row and at each entry. That is most beside the judge
//!   where a row is cheap to judge: clears alone, in order, few entries with many rows each. A search over 2,100 shapes of jobs,
//!   entries and ticks came nowhere above 1.22 of the judge.
//! - two sheets: each is read once, and their bytes are compared once, where the revisions are the same: dearest are two full
//!   sheets. What is longer than any sheet is refused by its contents or by the count of its rows, before its rows are read.

use crate::bars::{self, Bars};
use crate::planner;
use corrumai_tests::build::{Bodies, Spec};
use corrumai_tests::cases::hostile::{self, LateList};
use corrumai_tests::cases::limits::sheets;
use corrumai_tests::cases::newer::with_last_byte;
use corrumai_tests::cases::{examples, ordinary};
use corrumai_tests::model::sheet::{self, Edition, MAX_FACTS};
use corrumai_tests::rng::Rng;
use corrumai_tests::Run;

/// What is called: the planner, the judge with a list, rewriting to edition 2 or back, a list with delays, tried or moved
/// on, a list with rates, or the sheet beside another.
#[derive(Clone)]
pub enum Call {
    Plan,
    Judge(Vec<u8>),
    There,
    Back,
    Late(Vec<u8>, Vec<u16>),
    MoveOn(Vec<u8>, Vec<u16>, Run),
    Cost(Vec<u8>, Vec<u32>),
    Newer(Vec<u8>),
}

impl Call {
    pub fn name(&self) -> &'static str {
        match self {
            Call::Plan => "plan",
            Call::Judge(_) => "judge",
            Call::There => "to edition 2",
            Call::Back => "to edition 1",
            Call::Late(..) => "late",
            Call::MoveOn(..) => "move on",
            Call::Cost(..) => "cost",
            Call::Newer(_) => "newer",
        }
    }

    /// The sheet beside which the first stands.
    pub fn second(&self) -> &[u8] {
        match self {
            Call::Newer(second) => second,
            _ => panic!("{} has one sheet", self.name()),
        }
    }

    pub fn list(&self) -> &[u8] {
        match self {
            Call::Judge(list) | Call::Late(list, _) => list,
            Call::MoveOn(list, ..) | Call::Cost(list, _) => list,
            Call::Plan | Call::There | Call::Back | Call::Newer(_) => &[],
        }
    }
}

/// A call, and its bars.
pub struct Sample {
    pub name: String,
    pub sheet: Vec<u8>,
    /// The same sheet in edition 2 with gap byte 1, where it is planned or judged in edition 1.
    pub again: Option<Vec<u8>>,
    pub call: Call,
    pub bars: Bars,
}

pub fn all() -> Vec<Sample> {
    let mut samples = ordinary_sheets();
    let mut lists: Vec<Sample> =
        samples.iter().filter_map(|sample| judge_least(sample, bars::LEAST_LIST)).collect();
    let hostile: Vec<Sample> =
        hostile::sheets().iter().map(|(name, spec)| plan(name, spec, bars::HOSTILE)).collect();
    lists.extend(hostile.iter().filter_map(|sample| judge_least(sample, bars::NONE)));
    samples.extend(hostile);
    samples.extend(settled_sheets());
    samples.extend(repeated_sheets());
    samples.extend(retired_sheets());
    samples.extend(lists);
    for (name, spec, list) in hostile::lists().into_iter().chain(hostile::repeated_lists()) {
        let sample = plan(&name, &spec, bars::LONG_LIST);
        samples.push(Sample { call: Call::Judge(list), ..sample });
    }
    let billed = billed_lists(&samples);
    samples.extend(rewriting());
    samples.extend(late_lists());
    samples.extend(billed);
    samples.extend(two_sheets());
    samples
}

/// Hostile sheets of edition 2, with gaps and releases.
fn settled_sheets() -> Vec<Sample> {
    let sheets = hostile::settled();
    sheets.iter().map(|(name, spec)| plan(name, spec, bars::SETTLED)).collect()
}

/// Hostile sheets with several bounds of some pairs.
fn repeated_sheets() -> Vec<Sample> {
    let sheets = hostile::repeated();
    sheets.iter().map(|(name, spec)| plan(name, spec, bars::REPEATED)).collect()
}

/// Ordinary sheets with half of their jobs retired, and hostile ones with absent jobs.
fn retired_sheets() -> Vec<Sample> {
    let ordinary = ordinary::half_retired().into_iter();
    let mut samples: Vec<Sample> =
        ordinary.map(|(name, spec)| plan(name, &spec, bars::HALF_RETIRED)).collect();
    let hostile = hostile::retired().into_iter();
    samples.extend(hostile.map(|(name, spec, _)| plan(name, &spec, bars::RETIRED)));
    samples
}

/// Lists with delays: the least lists of ordinary sheets, long lists, and such as are dear only when they are delayed.
fn late_lists() -> Vec<Sample> {
    let mut all = Vec::new();
    for (name, spec) in [("12 jobs", ordinary::small()), ("32 jobs", ordinary::full())] {
        let sample = judge_least(&plan(name, &spec, bars::NONE), bars::NONE);
        let list = sample.expect("it has a plan").call.list().to_vec();
        all.extend(delayed_so(name, &spec, &list));
    }
    let long = hostile::lists().into_iter().filter(|(_, _, list)| list.len() == LONGEST_LIST);
    for (name, spec, list) in long {
        all.extend(delayed_so(name.trim_start_matches("list: "), &spec, &list));
    }
    let plain = all.iter().flat_map(|late| late_and_moved(late, bars::LATE));
    let dear = hostile::late();
    plain.chain(dear.iter().flat_map(|late| late_and_moved(late, bars::LATE_AND_DEAR))).collect()
}

/// 64 entries of 8 times.
const LONGEST_LIST: usize = 4 + 64 * 4 + 512 * 2;

/// A list with no delay, with such as turn the order round, with any delays, and with its first or its last entry late.
fn delayed_so(name: &str, spec: &Spec, list: &[u8]) -> Vec<LateList> {
    const MOST: u16 = 600;
    let count = u16::from(list[2]);
    let step = MOST / count;
    let rng = &mut Rng::new(u64::from(count));
    let any: Vec<u16> = (0..count).map(|_| rng.below(usize::from(MOST)) as u16).collect();
    let late = |place: u16| (0..count).map(|k| if k == place { MOST } else { 0 }).collect();
    let ways: [(&str, Vec<u16>); 5] = [
        ("no delay", vec![0; usize::from(count)]),
        ("turned round", (0..count).map(|k| step * (count - 1 - k)).collect()),
        ("any delays", any),
        ("first late", late(0)),
        ("last late", late(count - 1)),
    ];
    let one = |(way, delays): (&str, Vec<u16>)| LateList {
        name: format!("{name}, {way}"),
        spec: spec.clone(),
        list: list.to_vec(),
        delays,
        tick: MOST,
    };
    ways.into_iter().map(one).collect()
}

fn late_and_moved(late: &LateList, bars: Bars) -> [Sample; 2] {
    let LateList { name, spec, list, delays, tick } = late;
    let sample = |call, bars| Sample { call, again: None, ..plan(name, spec, bars) };
    let run = Run { next: u64::from(*tick), held: 0 };
    [
        sample(Call::Late(list.clone(), delays.clone()), bars),
        sample(Call::MoveOn(list.clone(), delays.clone(), run), bars::MOVE_ON),
    ]
}

/// With rates: all lists that are judged, those that are given to be delayed, and such as are cheap to judge.
fn billed_lists(judged: &[Sample]) -> Vec<Sample> {
    let judged = judged.iter().filter_map(|sample| match &sample.call {
        Call::Judge(list) => Some(cost(&sample.name, &sample.sheet, list)),
        _ => None,
    });
    let late = hostile::late().into_iter().map(|late| (late.name, late.spec, late.list));
    let others = late.chain(hostile::billed());
    judged.chain(others.map(|(name, spec, list)| cost(&name, &spec.bytes(), &list))).collect()
}

fn cost(name: &str, sheet: &[u8], list: &[u8]) -> Sample {
    const MOST: u32 = 1_000_000;
    let jobs = sheet::read(sheet).expect("it is well formed").codes.len() as u32;
    let call = Call::Cost(list.to_vec(), (0..jobs).map(|job| MOST - job).collect());
    let (name, sheet) = (name.to_string(), sheet.to_vec());
    Sample { name, sheet, again: None, call, bars: bars::COST }
}

/// As long as two bytes can say, in whole bounds.
const LONGEST_BODY: usize = 65_535 / 6 * 6;

/// Two sheets of edition 2: as large as there may be, small, and such as are refused late or long.
fn two_sheets() -> Vec<Sample> {
    use bars::{NEWER, NEWER_MARKS};
    let of = |spec: Spec, revision| spec.revised(0, revision).bytes();
    let full = |revision| of(sheets::largest(), revision);
    let (p1, facts) = (of(examples::p1(100), 7), of(Spec::new(100, &[3; MAX_FACTS], &[]), 7));
    // The last high is none, 0x7FFF; it becomes 255 minutes, or more than there may be.
    let [other, bad] = [0, 0x7E].map(|byte| with_last_byte(full(7), byte));
    let mut many_bounds = sheets::largest().revised(0, 7).bodies();
    many_bounds.bounds.resize(LONGEST_BODY, 0);
    let edition_1 = Bodies { edition: 1, ..many_bounds.clone() };
    let junk_behind = [full(7), vec![2; LONGEST_BODY]].concat();
    [
        ("the largest sheet twice", full(7), full(7), NEWER),
        ("the largest sheet, last byte other", full(7), other, NEWER),
        ("the largest sheet, second higher", full(7), full(8), NEWER),
        ("the largest sheet, a bad last bound", full(7), bad, NEWER),
        ("P1 twice", p1.clone(), p1.clone(), NEWER),
        ("only facts", facts.clone(), facts, NEWER_MARKS),
        ("64 kB of bounds in the second", full(7), many_bounds.bytes(), NEWER),
        ("64 kB behind the second", full(7), junk_behind, NEWER),
        ("64 kB of edition 1", edition_1.bytes(), full(7), NEWER),
        ("P1 and nothing", p1, Vec::new(), NEWER),
        ("nothing", Vec::new(), Vec::new(), NEWER),
    ]
    .into_iter()
    .map(|(name, sheet, second, bars)| {
        let (name, call) = (name.to_string(), Call::Newer(second));
        Sample { name, sheet, again: None, call, bars }
    })
    .collect()
}

fn rewriting() -> Vec<Sample> {
    let (full, largest) = (ordinary::full(), sheets::largest());
    let new = |spec: &Spec| spec.clone().with_gap(1);
    [
        ("32 jobs of 8 events", full.clone(), Call::There),
        ("the largest sheet", largest.clone(), Call::There),
        ("32 jobs of 8 events", new(&full), Call::Back),
        ("the largest sheet", new(&largest), Call::Back),
    ]
    .into_iter()
    .map(|(name, spec, call)| {
        let sample = plan(name, &spec, bars::REWRITING);
        Sample { call, again: None, ..sample }
    })
    .collect()
}

fn ordinary_sheets() -> Vec<Sample> {
    let mut samples: Vec<Sample> = [
        ("12 jobs of 6 events", ordinary::small(), bars::SMALL),
        (ordinary::FULL, ordinary::full(), bars::FULL),
        ("the same, half of them wanted", ordinary::half_wanted(), bars::FULL),
        ("the same, one tick too few", ordinary::too_short(), bars::FULL),
        ("the same, class test alone", ordinary::unordered(), bars::CLASS),
    ]
    .into_iter()
    .map(|(name, spec, bars)| plan(name, &spec, bars))
    .collect();
    let chains = ordinary::chains();
    samples.extend(chains.iter().map(|(name, spec)| plan(name, spec, bars::CHAIN)));
    let repeated = ordinary::repeated();
    samples.extend(repeated.iter().map(|(name, spec)| plan(name, spec, bars::FULL)));
    samples
}

fn plan(name: &str, spec: &Spec, bars: Bars) -> Sample {
    let (name, sheet) = (name.to_string(), spec.bytes());
    let again = (spec.edition == Edition::One).then(|| spec.clone().with_gap(1).bytes());
    Sample { name, sheet, again, call: Call::Plan, bars }
}

/// The judge on the least list, where there is one.
fn judge_least(sample: &Sample, bars: Bars) -> Option<Sample> {
    let mut list = vec![0; 1_024];
    let (number, length) = planner::plan(&sample.sheet, &mut list);
    list.truncate(length);
    let Sample { name, sheet, again, .. } = sample;
    let (name, sheet, again) = (name.clone(), sheet.clone(), again.clone());
    (number == 0).then_some(Sample { name, sheet, again, call: Call::Judge(list), bars })
}
