//! A fuzz target for libFuzzer: the planner, the judge, both ways of rewriting, late starts, costs and which sheet counts
//! against the independent models of ../tests, in number, detail and bytes, in memory with guards. `fuzz/run` builds and
//! runs it.

mod input;
mod product;
mod room;
mod seeds;
mod shape;
mod tally;

use corrumai_tests::build::Spec;
use corrumai_tests::cost_model;
use corrumai_tests::generate::{corrected, damage, delays, rates};
use corrumai_tests::late_model::{self, Tried, RIGHT};
use corrumai_tests::model;
use corrumai_tests::newer_model;
use corrumai_tests::planner_model::{absent_jobs, verdict, Verdict};
use corrumai_tests::rewrite_model::{to_edition_1, to_edition_2};
use corrumai_tests::rng::Rng;
use corrumai_tests::Run;
use input::{Trial, FAMILIES, HEAD, RAW};
use product::{Bench, Billed, Buffer, Due, Late, Routine, Sent, DELIVERED, TWIN};
use room::Side;
use std::env;
use std::path::Path;
use std::slice;
use std::sync::Mutex;
use tally::Tally;

extern "C" {
    fn atexit(call: extern "C" fn()) -> i32;
    fn LLVMFuzzerMutate(data: *mut u8, size: usize, most: usize) -> usize;
}

struct State {
    bench: Bench,
    tally: Tally,
}

static STATE: Mutex<Option<State>> = Mutex::new(None);

/// With CORRUMAI_FUZZ_SEEDS only writes the first inputs to that folder.
#[no_mangle]
pub extern "C" fn LLVMFuzzerInitialize(_count: *mut i32, _words: *mut *mut *mut u8) -> i32 {
    if let Some(folder) = env::var_os("CORRUMAI_FUZZ_SEEDS") {
        let examples =
            env::var_os("CORRUMAI_EXAMPLES").expect("the folder of the examples is named");
        seeds::write(Path::new(&folder), Path::new(&examples));
        std::process::exit(0);
    }
    *STATE.lock().unwrap() = Some(State { bench: Bench::new(), tally: Tally::default() });
    // A function that takes and gives nothing.
    unsafe { atexit(print_tally) };
    0
}

extern "C" fn print_tally() {
    // Not after a difference: then the lock is still held.
    let Ok(Some(state)) = STATE.try_lock().map(|mut state| state.take()) else {
        return;
    };
    state.tally.print();
    if let Some(folder) = env::var_os("CORRUMAI_FUZZ_FINDINGS") {
        state.tally.save_slowest(Path::new(&folder));
    }
}

#[no_mangle]
pub extern "C" fn LLVMFuzzerTestOneInput(data: *const u8, size: usize) -> i32 {
    // The fuzzer lends so many bytes for this call.
    let bytes = if size == 0 { &[] } else { unsafe { slice::from_raw_parts(data, size) } };
    let trial = input::read(bytes);
    if env::var_os("CORRUMAI_FUZZ_SHOW").is_some() {
        show(&trial);
    }
    STATE.lock().unwrap().as_mut().expect("made at the start").run(&trial);
    0
}

fn show(trial: &Trial) {
    println!("family {}, room {}", FAMILIES[trial.family], trial.room);
    println!("sheet {:02x?}\nlist {:02x?}", trial.sheet, trial.list);
    println!("model's judge: {:?}", model::judge(&trial.sheet, &trial.list));
    println!("model's planner: {:02x?}", verdict(&trial.sheet));
    let delays = some_delays(&mut trial.for_delays(), &trial.sheet, &trial.list);
    let late = late_model::late(&trial.sheet, &trial.list, &delays);
    println!("delays {delays:?}: model {late:?}");
    let rates = some_rates(&mut trial.for_rates(), &trial.sheet);
    let cost = cost_model::cost(&trial.sheet, &trial.list, &rates);
    println!("rates {rates:?}: model {cost:?}");
    for [first, second] in some_pairs(trial) {
        let verdict = newer_model::verdict(&first, &second);
        println!("first {first:02x?}\nsecond {second:02x?}\nmodel: {verdict:?}");
    }
    println!("model to edition 2: {:?}", to_edition_2(&trial.sheet, &mut [0; LONGEST_SHEET]));
    println!("model to edition 1: {:?}", to_edition_1(&trial.sheet, &mut [0; LONGEST_SHEET]));
}

/// No well-formed sheet is longer.
const LONGEST_SHEET: usize = 2_528;

impl State {
    fn run(&mut self, trial: &Trial) {
        self.tally.inputs += 1;
        self.tally.families[trial.family] += 1;
        self.tally.of_edition_2 += usize::from(trial.sheet.first() == Some(&2));
        let read = model::sheet::read(&trial.sheet);
        self.tally.repeated += usize::from(read.as_ref().is_ok_and(|sheet| sheet.repeats()));
        self.judge(&trial.sheet, &trial.list, trial.salt);
        self.late(trial, &trial.list);
        self.cost(trial, &trial.list);
        self.newer(trial);
        self.rewrite(trial);
        let number = match verdict(&trial.sheet) {
            Verdict::Refused(number, detail) => self.refused(trial, (number, detail)),
            Verdict::NoPlan(_) => self.refused(trial, (1, 0)),
            Verdict::Plan(list) => self.planned(trial, &list),
        };
        if read.is_ok_and(|sheet| !absent_jobs(&sheet).is_empty()) {
            *self.tally.absent.entry(number).or_default() += 1;
        }
    }

    /// Gives the number, as does `planned`.
    fn refused(&mut self, trial: &Trial, due: (u8, usize)) -> u8 {
        *self.tally.verdicts.entry(due.0).or_default() += 1;
        self.write(trial, Routine::Plan, trial.room, Due { answer: due, written: &[] });
        due.0
    }

    /// Both ways of rewriting answer as the models do, and each leads back to the byte where the other came from.
    fn rewrite(&mut self, trial: &Trial) {
        let mut buffer = [0; LONGEST_SHEET];
        let there = to_edition_2(&trial.sheet, &mut buffer);
        self.rewritten(trial, Routine::ToEdition2, there, &buffer);
        self.returned(trial, Routine::ToEdition1, there, &buffer);
        let back = to_edition_1(&trial.sheet, &mut buffer);
        self.rewritten(trial, Routine::ToEdition1, back, &buffer);
        self.returned(trial, Routine::ToEdition2, back, &buffer);
    }

    /// What was written, if anything was, is rewritten to the sheet that it came from.
    fn returned(&mut self, trial: &Trial, routine: Routine, answer: (u8, usize), buffer: &[u8]) {
        if let (0, length) = answer {
            let sheet = buffer[..length].to_vec();
            let other = Trial { sheet, list: Vec::new(), ..*trial };
            self.fits_or_not(&other, routine, &trial.sheet);
        }
    }

    fn rewritten(&mut self, trial: &Trial, routine: Routine, answer: (u8, usize), buffer: &[u8]) {
        match answer {
            (0, length) => self.fits_or_not(trial, routine, &buffer[..length]),
            _ => [0, trial.room].into_iter().for_each(|length| {
                self.write(trial, routine, length, Due { answer, written: &[] })
            }),
        }
    }

    /// Buffers of every telling length for what is due.
    fn fits_or_not(&mut self, trial: &Trial, routine: Routine, written: &[u8]) {
        let needed = written.len();
        for length in [trial.room % needed, needed - 1] {
            self.write(trial, routine, length, Due { answer: (30, needed), written: &[] });
        }
        for length in [needed, needed + 1 + trial.room] {
            self.write(trial, routine, length, Due { answer: (0, needed), written });
        }
    }

    /// The list is judged, and so is one close to it.
    fn planned(&mut self, trial: &Trial, list: &[u8]) -> u8 {
        *self.tally.verdicts.entry(0).or_default() += 1;
        self.fits_or_not(trial, Routine::Plan, list);
        assert_eq!(self.judge(&trial.sheet, list, trial.salt), 0, "the model refuses its own list");
        self.tally.least_judged += 1;
        self.late(trial, list);
        self.cost(trial, list);
        let twisted = input::twisted(&trial.sheet, list, trial.twist);
        self.judge(&trial.sheet, &twisted, trial.salt);
        self.late(trial, &twisted);
        self.cost(trial, &twisted);
        0
    }

    /// The list with delays: tried, and a state of its run moved on.
    fn late(&mut self, trial: &Trial, list: &[u8]) {
        let (sheet, rng) = (&trial.sheet, &mut trial.for_delays());
        let delays = some_delays(rng, sheet, list);
        let tried = late_model::tried(sheet, list, &delays, &RIGHT);
        let from = some_state(rng, tried.as_ref().ok());
        let late = Late {
            sheet,
            list,
            delays: &delays,
            from,
            answer: tried.as_ref().map_or_else(|number| (*number, 0), Tried::answer),
            fresh: late_model::fresh(sheet, from.held),
            moved: match &tried {
                Ok(tried) => (0, tried.moved(from, &RIGHT)),
                Err(number) => (*number, from),
            },
        };
        let side = if trial.salt & 1 == 0 { Side::Back } else { Side::Front };
        for product in std::iter::once(DELIVERED).chain(TWIN) {
            self.bench.late(product, &late, side);
        }
        self.tally.note_late(&late, tried.ok().as_ref());
    }

    /// The list with rates.
    fn cost(&mut self, trial: &Trial, list: &[u8]) {
        let sheet = &trial.sheet;
        let rates = some_rates(&mut trial.for_rates(), sheet);
        let answer = cost_model::cost(sheet, list, &rates);
        let billed = Billed { sheet, list, rates: &rates, answer };
        let side = if trial.salt & 1 == 0 { Side::Back } else { Side::Front };
        for product in std::iter::once(DELIVERED).chain(TWIN) {
            self.bench.cost(product, &billed, side);
        }
        self.tally.note_cost(&billed);
    }

    /// Pairs of sheets, both ways round.
    fn newer(&mut self, trial: &Trial) {
        let side = if trial.salt & 1 == 0 { Side::Back } else { Side::Front };
        for [first, second] in &some_pairs(trial) {
            for (first, second) in [(first, second), (second, first)] {
                let due = newer_model::verdict(first, second);
                let sent = Sent { first, second, due };
                for product in std::iter::once(DELIVERED).chain(TWIN) {
                    self.bench.newer(product, &sent, side);
                }
                *self.tally.pairs.entry(due).or_default() += 1;
            }
        }
    }

    fn judge(&mut self, sheet: &[u8], list: &[u8], salt: u8) -> u8 {
        let (due, _) = model::judge(sheet, list);
        let side = if salt & 1 == 0 { Side::Back } else { Side::Front };
        for product in std::iter::once(DELIVERED).chain(TWIN) {
            self.bench.judge(product, sheet, list, due, side);
        }
        *self.tally.judged.entry(due).or_default() += 1;
        due
    }

    /// Each length with both fillings, one at either end of the room.
    fn write(&mut self, trial: &Trial, routine: Routine, length: usize, due: Due) {
        let length = length.min(self.bench.longest());
        for (salt, side) in [(trial.salt, Side::Back), (!trial.salt, Side::Front)] {
            let buffer = Buffer { length, salt, side };
            let took = self.bench.write(DELIVERED, routine, &trial.sheet, buffer, due);
            if let Some(twin) = TWIN {
                self.bench.write(twin, routine, &trial.sheet, buffer, due);
            }
            if routine == Routine::Plan && self.tally.is_slowest(took) {
                self.time(trial, buffer, due);
            }
            let counts = self.tally.writes.entry(routine).or_default();
            *counts.entry(due.answer.0).or_default() += 1;
            self.tally.written += due.written.len();
            self.tally.kept += self.bench.longest() - due.written.len();
        }
    }

    /// A plan that took longer than all before, measured again: the least of five counts.
    fn time(&mut self, trial: &Trial, buffer: Buffer, due: Due) {
        let call = |_| self.bench.write(DELIVERED, Routine::Plan, &trial.sheet, buffer, due);
        let least = (0..5).map(call).min().unwrap_or(0);
        self.tally.note_slowest(least, &trial.sheet);
    }
}

/// For an accepted list mostly good delays, for others any.
fn some_delays(rng: &mut Rng, sheet: &[u8], list: &[u8]) -> Vec<u16> {
    let said = model::sheet::read(sheet).ok();
    let plan = said.as_ref().and_then(|said| model::list::read(said, list));
    let (Some(said), Some(plan)) = (said, plan) else {
        return (0..rng.below(6)).map(|_| rng.number() as u16).collect();
    };
    let good = delays::some(rng, &said, &plan);
    if rng.chance(12) {
        delays::bad(rng, &good)
    } else {
        good
    }
}

/// For a well-formed sheet mostly good rates, for others any.
fn some_rates(rng: &mut Rng, sheet: &[u8]) -> Vec<u32> {
    let jobs = match model::sheet::read(sheet) {
        Ok(sheet) => sheet.codes.len(),
        Err(_) => rng.below(6),
    };
    let good = rates::some(rng, jobs);
    if rng.chance(15) {
        rates::bad(rng, &good)
    } else {
        good
    }
}

/// Sheet and list as two sheets, the sheet twice and, if it is well formed, the sheet as it is sent again, twice.
fn some_pairs(trial: &Trial) -> Vec<[Vec<u8>; 2]> {
    let Trial { sheet, list, .. } = trial;
    let mut pairs = vec![[sheet.clone(), list.clone()], [sheet.clone(), sheet.clone()]];
    if let Ok(said) = model::sheet::read(sheet) {
        let rng = &mut trial.for_again();
        let mut spec = Spec::of(&said);
        pairs.push(corrected::pair(rng, &spec));
        shape::change(rng, &mut spec);
        pairs.push([sheet.clone(), spec.bytes()]);
    }
    pairs
}

/// Any state, or half of the time the one that the run has at some tick.
fn some_state(rng: &mut Rng, tried: Option<&Tried>) -> Run {
    let Some(tried) = tried else {
        return Run { next: rng.number(), held: rng.number() };
    };
    let any = delays::any_state(rng, tried);
    let last = tried.sheet.horizon as u64;
    if rng.chance(50) || any.next > last {
        return any;
    }
    let run = Run { next: any.next, held: tried.held_before(any.next) };
    assert_eq!(tried.moved(run, &RIGHT).held, tried.held_before(any.next + 1), "the model");
    run
}

/// Half of the changes are the fuzzer's own; the others change the sheet as a sheet, or write down
/// what a tape says, so that the fuzzer can go on from there.
#[no_mangle]
pub extern "C" fn LLVMFuzzerCustomMutator(
    data: *mut u8,
    size: usize,
    most: usize,
    seed: u32,
) -> usize {
    let mut rng = Rng::new(u64::from(seed));
    // The fuzzer lends `most` bytes, the first `size` of them filled.
    let bytes = unsafe { slice::from_raw_parts_mut(data, most) };
    let family = bytes.first().copied().unwrap_or(0) % FAMILIES.len() as u8;
    if size >= HEAD && rng.chance(if family == RAW { 50 } else { 10 }) {
        let changed = reshaped(&mut rng, &bytes[..size]);
        if changed.len() <= most {
            bytes[..changed.len()].copy_from_slice(&changed);
            return changed.len();
        }
    }
    // As above.
    unsafe { LLVMFuzzerMutate(data, size, most) }
}

fn reshaped(rng: &mut Rng, bytes: &[u8]) -> Vec<u8> {
    let trial = input::read(bytes);
    let Ok(sheet) = model::sheet::read(&trial.sheet) else {
        return input::raw(&bytes[..HEAD], &trial.sheet, &trial.list);
    };
    let mut spec = Spec::of(&sheet);
    for _ in 0..1 + rng.below(3) {
        shape::change(rng, &mut spec);
    }
    let damaged = rng.chance(8);
    let sheet = if damaged { damage::damaged(rng, &spec) } else { spec.bytes() };
    let list = if rng.chance(30) { near_list(rng, &sheet) } else { None };
    input::raw(&bytes[..HEAD], &sheet, &list.unwrap_or(trial.list))
}

/// The least list with a small change, where there is one.
fn near_list(rng: &mut Rng, sheet: &[u8]) -> Option<Vec<u8>> {
    let Verdict::Plan(list) = verdict(sheet) else {
        return None;
    };
    let twist = [0; 3].map(|_: u8| rng.number() as u8);
    Some(input::twisted(sheet, &list, twist))
}
