//! The product beside a Rust planner, judge, rewriting and choice of sheets made for speed; `bench/run` is the command.
//! `check`: both give the same answers. `calls ROUTINE`: each call of it once, for valgrind.
//! `table DIRECTORY`: the instructions of those calls, in a file for each routine, as a table.

mod bars;
mod bits;
mod judge;
mod newer;
mod orders;
mod own;
mod planner;
mod raise;
mod rewrite;
mod samples;
mod sheet;
mod ticks;

use bars::{Cost, Plans};
use corrumai_tests::generate::{corrected, damage, large, planned, retire, tiny};
use corrumai_tests::rng::Rng;
use corrumai_tests::{cost_model, late_model};
use corrumai_tests::{Bill, Handed, Run};
use samples::{Call, Sample};
use std::collections::{BTreeMap, VecDeque};
use std::process::ExitCode;

/// Longer than any list and any sheet.
const BUFFER: usize = 2_600;

fn main() -> ExitCode {
    let arguments: Vec<String> = std::env::args().skip(1).collect();
    match arguments.first().map(String::as_str) {
        Some("check") => check(),
        Some("calls") => calls(arguments.last().expect("there is one")),
        Some("table") => return table(arguments.last().expect("there is one")),
        _ => {
            eprintln!("corrumai-bench: check, calls ROUTINE, or table DIRECTORY");
            return ExitCode::FAILURE;
        }
    }
    ExitCode::SUCCESS
}

/// A routine from a sheet into a buffer.
type Routine = fn(&[u8], &mut [u8]) -> (u8, usize);

// Each under its own name for valgrind.

#[no_mangle]
#[inline(never)]
pub fn rust_plan(sheet: &[u8], buffer: &mut [u8]) -> (u8, usize) {
    planner::plan(sheet, buffer)
}

#[no_mangle]
#[inline(never)]
pub fn rust_judge(sheet: &[u8], list: &[u8]) -> (u8, usize) {
    judge::judge(sheet, list)
}

#[no_mangle]
#[inline(never)]
pub fn rust_to_edition2(sheet: &[u8], buffer: &mut [u8]) -> (u8, usize) {
    rewrite::to_edition_2(sheet, buffer)
}

#[no_mangle]
#[inline(never)]
pub fn rust_to_edition1(sheet: &[u8], buffer: &mut [u8]) -> (u8, usize) {
    rewrite::to_edition_1(sheet, buffer)
}

#[no_mangle]
#[inline(never)]
pub fn rust_newer<'a>(first: &'a [u8], second: &'a [u8]) -> (u8, &'a [u8]) {
    newer::newer(first, second)
}

/// The routine that a sample calls, as valgrind knows it: of the product, and what it is held beside, of Rust mostly.
fn routines(call: &Call) -> [&'static str; 2] {
    match call {
        Call::Plan => ["corrumai_plan", "rust_plan"],
        Call::Judge(_) => ["corrumai_judge", "rust_judge"],
        Call::There => ["corrumai_to_edition2", "rust_to_edition2"],
        Call::Back => ["corrumai_to_edition1", "rust_to_edition1"],
        Call::Newer(_) => ["corrumai_newer", "rust_newer"],
        // No Rust of ours does these: beside them stands the judge.
        Call::Late(..) => ["corrumai_late", "corrumai_judge"],
        Call::MoveOn(..) => ["corrumai_move_on", "corrumai_judge"],
        Call::Cost(..) => ["corrumai_cost", "corrumai_judge"],
    }
}

/// Every call of one routine; the product's also with the same sheet in edition 2, right after, and the judge's also with
/// the delayed list.
fn calls(routine: &str) {
    for sample in samples::all() {
        let [product, rust] = routines(&sample.call);
        if routine == product || routine == rust {
            call(routine, &sample.sheet, &sample.call);
        }
        if let Some(again) = sample.again.as_ref().filter(|_| routine == product) {
            call(routine, again, &sample.call);
        }
        if let Some(delayed) = delayed_list(&sample).filter(|_| routine == rust) {
            corrumai_tests::judge(&sample.sheet, &delayed);
        }
    }
}

/// The bytes of the list that is tried.
fn delayed_list(sample: &Sample) -> Option<Vec<u8>> {
    let Call::Late(list, delays) = &sample.call else {
        return None;
    };
    let tried = late_model::tried(&sample.sheet, list, delays, &late_model::RIGHT);
    Some(tried.unwrap_or_else(|number| panic!("list or delays get {number}")).bytes())
}

fn call(routine: &str, sheet: &[u8], call: &Call) {
    let mut buffer = vec![0; BUFFER];
    let list = call.list();
    match routine {
        "corrumai_plan" => corrumai_tests::plan(sheet, &mut buffer),
        "rust_plan" => rust_plan(sheet, &mut buffer),
        "corrumai_judge" => corrumai_tests::judge(sheet, list),
        "rust_judge" => rust_judge(sheet, list),
        "corrumai_to_edition2" => corrumai_tests::to_edition_2(sheet, &mut buffer),
        "rust_to_edition2" => rust_to_edition2(sheet, &mut buffer),
        "corrumai_to_edition1" => corrumai_tests::to_edition_1(sheet, &mut buffer),
        "rust_to_edition1" => rust_to_edition1(sheet, &mut buffer),
        "corrumai_late" | "corrumai_move_on" => delayed(sheet, call),
        "corrumai_cost" => (billed(sheet, call).0, 0),
        "corrumai_newer" => (chosen(sheet, call.second()).0, 0),
        "rust_newer" => (rust_newer(sheet, call.second()).0, 0),
        _ => panic!("{routine} is no routine"),
    };
}

/// A delayed list, tried or moved on.
fn delayed(sheet: &[u8], call: &Call) -> (u8, usize) {
    match call {
        Call::Late(list, delays) => corrumai_tests::late(sheet, list, delays),
        Call::MoveOn(list, delays, run) => {
            (corrumai_tests::move_on(sheet, list, delays, &mut run.clone()), 0)
        }
        _ => panic!("{} has no delays", call.name()),
    }
}

/// Number and bill of a list with rates.
fn billed(sheet: &[u8], call: &Call) -> (u8, Bill) {
    let Call::Cost(list, rates) = call else {
        panic!("{} has no rates", call.name());
    };
    let mut bill = Bill { cents: u64::MAX, sixtieths: u64::MAX };
    (corrumai_tests::cost(sheet, list, rates, &mut bill), bill)
}

/// Number and part of two sheets.
fn chosen<'a>(first: &'a [u8], second: &'a [u8]) -> (u8, &'a [u8]) {
    let mut handed = Handed { detail: usize::MAX, which: u8::MAX, part_len: usize::MAX };
    corrumai_tests::newer(first, second, &mut handed)
}

fn check() {
    for sample in samples::all() {
        for sheet in std::iter::once(&sample.sheet).chain(&sample.again) {
            match &sample.call {
                Call::Plan => agree(PLAN, sheet),
                Call::Judge(list) => agree_on_list(sheet, list),
                Call::There => agree(THERE, sheet),
                Call::Back => agree(BACK, sheet),
                Call::Late(list, delays) => agree_on_delays(sheet, list, delays),
                Call::MoveOn(list, delays, run) => agree_on_move(sheet, list, delays, *run),
                Call::Newer(second) => agree_on_two(sheet, second),
                Call::Cost(list, rates) => {
                    let model = cost_model::cost(sheet, list, rates);
                    assert_eq!(billed(sheet, &sample.call), model, "{}", sample.name);
                }
            }
        }
    }
    let mut rng = Rng::new(20);
    for round in 0..10_000 {
        for spec in [tiny::sheet(&mut rng), tiny::sheet_2(&mut rng)] {
            agree_on_all(&spec.bytes());
            agree_on_all(&damage::damaged(&mut rng, &spec));
        }
        let mut spec = rng.pick(&[tiny::sheet, tiny::sheet_2])(&mut rng);
        retire::retire(&mut rng, &mut spec);
        agree_on_all(&spec.bytes());
        let [first, second] = corrected::pair(&mut rng, &spec);
        agree_on_two(&first, &second);
        if round % 10 == 0 {
            agree_on_all(&large::sheet(&mut rng).bytes());
            agree_on_all(&large::sheet_2(&mut rng).bytes());
        }
        if round % 5 == 0 {
            for size in [planned::SMALL, planned::SMALL_2] {
                let (sheet, list) = planned::any(&mut rng, size).bytes();
                agree_on_list(&sheet, &list);
                let (sheet, list) = planned::plan(&mut rng, size).bytes();
                agree_on_list(&sheet, &list);
            }
        }
    }
    println!("product and Rust agree on the samples and on 70,000 random sheets, pairs and lists");
}

/// A routine of the product, and of Rust.
type Both = [Routine; 2];

const PLAN: Both = [corrumai_tests::plan, rust_plan];
const THERE: Both = [corrumai_tests::to_edition_2, rust_to_edition2];
const BACK: Both = [corrumai_tests::to_edition_1, rust_to_edition1];

fn agree_on_all(sheet: &[u8]) {
    [PLAN, THERE, BACK].into_iter().for_each(|both| agree(both, sheet));
}

fn agree([product, rust]: Both, sheet: &[u8]) {
    let (mut ours, mut theirs) = (vec![7; BUFFER], vec![7; BUFFER]);
    let answer = product(sheet, &mut ours);
    assert_eq!(answer, rust(sheet, &mut theirs), "product (left) and Rust\n{sheet:?}");
    assert_eq!(ours, theirs, "buffers of the product (left) and of Rust\n{sheet:?}");
}

fn agree_on_list(sheet: &[u8], list: &[u8]) {
    let product = corrumai_tests::judge(sheet, list);
    assert_eq!(product, rust_judge(sheet, list), "product (left) and Rust\n{sheet:?}\n{list:?}");
}

/// The parts lie at the same place, if there are any.
fn agree_on_two(first: &[u8], second: &[u8]) {
    let (product, rust) = (chosen(first, second), rust_newer(first, second));
    assert_eq!(product, rust, "product (left) and Rust\n{first:?}\n{second:?}");
    let placed = product.1.is_empty() || std::ptr::eq(product.1, rust.1);
    assert!(placed, "the parts lie elsewhere\n{first:?}\n{second:?}");
}

/// With the model in the place of Rust, as is the next.
fn agree_on_delays(sheet: &[u8], list: &[u8], delays: &[u16]) {
    let product = corrumai_tests::late(sheet, list, delays);
    let model = late_model::late(sheet, list, delays);
    assert_eq!(product, model, "product (left) and model\n{sheet:?}\n{list:?}\n{delays:?}");
}

fn agree_on_move(sheet: &[u8], list: &[u8], delays: &[u16], from: Run) {
    let mut run = from;
    let number = corrumai_tests::move_on(sheet, list, delays, &mut run);
    let model = late_model::move_on(sheet, list, delays, from);
    assert_eq!((number, run), model, "product (left) and model\n{sheet:?}\n{list:?}\n{delays:?}");
}

/// The counts of each routine that are left, one a line of its file, in the order of `calls`.
struct Counts {
    directory: String,
    left: BTreeMap<&'static str, VecDeque<u64>>,
}

impl Counts {
    fn of(directory: &str) -> Counts {
        Counts { directory: directory.to_string(), left: BTreeMap::new() }
    }

    /// The count of the next call of the routine.
    fn next(&mut self, routine: &'static str) -> u64 {
        let directory = &self.directory;
        let counts = self.left.entry(routine).or_insert_with(|| {
            let text = std::fs::read_to_string(format!("{directory}/{routine}"));
            text.unwrap_or_default().lines().filter_map(|line| line.trim().parse().ok()).collect()
        });
        counts.pop_front().unwrap_or_else(|| panic!("{routine} was called too seldom"))
    }

    fn sample(&mut self, sample: &Sample) -> Cost {
        let [product, rust] = routines(&sample.call);
        Cost {
            rust: self.next(rust),
            product: self.next(product),
            again: sample.again.as_ref().map(|_| self.next(product)),
            delayed: delayed_list(sample).map(|_| self.next(rust)),
        }
    }

    fn is_empty(&self) -> bool {
        self.left.values().all(VecDeque::is_empty)
    }
}

fn table(directory: &str) -> ExitCode {
    let mut counts = Counts::of(directory);
    println!(
        "{:53} {:>9} {:>9} {:>6} {:>9} {:>6}  bar",
        "one call (late, move on, cost: the judge for Rust)",
        "product",
        "Rust",
        "ratio",
        "edition 2",
        "more"
    );
    let mut kept = true;
    let mut plans = Plans::new();
    for sample in &samples::all() {
        let cost = counts.sample(sample);
        if matches!(sample.call, Call::Plan) {
            plans.insert(sample.name.clone(), cost.product);
        }
        kept &= print_row(sample, &cost, &plans);
    }
    assert!(counts.is_empty(), "a routine was called too often");
    println!("{}", if kept { "every bar is kept" } else { "a bar is not kept" });
    if kept {
        ExitCode::SUCCESS
    } else {
        ExitCode::FAILURE
    }
}

/// Prints the row; false if a bar is passed.
fn print_row(sample: &Sample, cost: &Cost, plans: &Plans) -> bool {
    let name = format!("{}, {}", sample.call.name(), sample.name);
    let (again, more) = match cost.again {
        Some(again) => (again.to_string(), format!("{:+.1}%", 100.0 * (cost.more() - 1.0))),
        None => (String::new(), String::new()),
    };
    let (bar, kept) = (bars::list(sample.bars), bars::kept(sample.bars, cost, plans));
    let remark = if kept { "" } else { "over its bar" };
    let Cost { product, rust, .. } = cost;
    let ratio = cost.ratio();
    let row = format!(
        "{name:53} {product:>9} {rust:>9} {ratio:>6.2} {again:>9} {more:>6}  {bar:17} {remark}"
    );
    println!("{}", row.trim_end());
    kept
}
