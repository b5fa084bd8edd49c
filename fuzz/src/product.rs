//! Calls of the product between guards, each compared in full with what is due.

use crate::room::{Room, Side};
use corrumai_tests::newer_model::Verdict;
use corrumai_tests::{Bill, Handed, Run};
use std::arch::x86_64::_rdtsc;

type Judge = unsafe extern "C" fn(*const u8, usize, *const u8, usize, *mut usize) -> u8;
type Write = unsafe extern "C" fn(*const u8, usize, *mut u8, usize, *mut usize) -> u8;
type Try =
    unsafe extern "C" fn(*const u8, usize, *const u8, usize, *const u16, usize, *mut usize) -> u8;
type Fresh = unsafe extern "C" fn(*const u8, usize, *mut u64) -> u8;
type MoveOn =
    unsafe extern "C" fn(*const u8, usize, *const u8, usize, *const u16, usize, *mut Run) -> u8;
type Cost = unsafe extern "C" fn(
    *const u8,
    usize,
    *const u8,
    usize,
    *const u32,
    usize,
    *mut u64,
    *mut u64,
) -> u8;
type Newer =
    unsafe extern "C" fn(*const u8, usize, *const u8, usize, *mut usize, *mut u8, *mut usize) -> u8;

/// A library with its routines.
#[derive(Clone, Copy)]
pub struct Product {
    pub name: &'static str,
    judge: Judge,
    /// By `Routine`.
    writers: [Write; 3],
    late: Try,
    fresh: Fresh,
    move_on: MoveOn,
    cost: Cost,
    newer: Newer,
}

/// The routines that go from a sheet into a buffer.
#[derive(Clone, Copy, Debug, PartialEq, Eq, PartialOrd, Ord)]
pub enum Routine {
    Plan,
    ToEdition2,
    ToEdition1,
}

extern "C" {
    fn corrumai_judge(s: *const u8, sl: usize, l: *const u8, ll: usize, detail: *mut usize) -> u8;
    fn corrumai_plan(s: *const u8, sl: usize, b: *mut u8, bl: usize, detail: *mut usize) -> u8;
    fn corrumai_to_edition2(s: *const u8, sl: usize, b: *mut u8, bl: usize, d: *mut usize) -> u8;
    fn corrumai_to_edition1(s: *const u8, sl: usize, b: *mut u8, bl: usize, d: *mut usize) -> u8;
    fn corrumai_late(
        s: *const u8,
        sl: usize,
        l: *const u8,
        ll: usize,
        d: *const u16,
        dl: usize,
        detail: *mut usize,
    ) -> u8;
    fn corrumai_fresh(s: *const u8, sl: usize, held: *mut u64) -> u8;
    fn corrumai_move_on(
        s: *const u8,
        sl: usize,
        l: *const u8,
        ll: usize,
        d: *const u16,
        dl: usize,
        run: *mut Run,
    ) -> u8;
    fn corrumai_cost(
        s: *const u8,
        sl: usize,
        l: *const u8,
        ll: usize,
        r: *const u32,
        rl: usize,
        cents: *mut u64,
        sixtieths: *mut u64,
    ) -> u8;
    fn corrumai_newer(
        a: *const u8,
        al: usize,
        b: *const u8,
        bl: usize,
        detail: *mut usize,
        which: *mut u8,
        part_len: *mut usize,
    ) -> u8;
}

/// The library as it is delivered.
pub const DELIVERED: Product = Product {
    name: "libcorrumai.a",
    judge: corrumai_judge,
    writers: [corrumai_plan, corrumai_to_edition2, corrumai_to_edition1],
    late: corrumai_late,
    fresh: corrumai_fresh,
    move_on: corrumai_move_on,
    cost: corrumai_cost,
    newer: corrumai_newer,
};

#[cfg(feature = "twin")]
mod twin {
    use corrumai_tests::Run;

    extern "C" {
        pub fn twin_judge(s: *const u8, sl: usize, l: *const u8, ll: usize, d: *mut usize) -> u8;
        pub fn twin_plan(s: *const u8, sl: usize, b: *mut u8, bl: usize, d: *mut usize) -> u8;
        pub fn twin_to_edition2(
            s: *const u8,
            sl: usize,
            b: *mut u8,
            bl: usize,
            d: *mut usize,
        ) -> u8;
        pub fn twin_to_edition1(
            s: *const u8,
            sl: usize,
            b: *mut u8,
            bl: usize,
            d: *mut usize,
        ) -> u8;
        pub fn twin_late(
            s: *const u8,
            sl: usize,
            l: *const u8,
            ll: usize,
            d: *const u16,
            dl: usize,
            detail: *mut usize,
        ) -> u8;
        pub fn twin_fresh(s: *const u8, sl: usize, held: *mut u64) -> u8;
        pub fn twin_move_on(
            s: *const u8,
            sl: usize,
            l: *const u8,
            ll: usize,
            d: *const u16,
            dl: usize,
            run: *mut Run,
        ) -> u8;
        pub fn twin_cost(
            s: *const u8,
            sl: usize,
            l: *const u8,
            ll: usize,
            r: *const u32,
            rl: usize,
            cents: *mut u64,
            sixtieths: *mut u64,
        ) -> u8;
        pub fn twin_newer(
            a: *const u8,
            al: usize,
            b: *const u8,
            bl: usize,
            detail: *mut usize,
            which: *mut u8,
            part_len: *mut usize,
        ) -> u8;
    }
}

/// The same proved code, compiled with the fuzzer's counters.
#[cfg(feature = "twin")]
pub const TWIN: Option<Product> = Some(Product {
    name: "twin",
    judge: twin::twin_judge,
    writers: [twin::twin_plan, twin::twin_to_edition2, twin::twin_to_edition1],
    late: twin::twin_late,
    fresh: twin::twin_fresh,
    move_on: twin::twin_move_on,
    cost: twin::twin_cost,
    newer: twin::twin_newer,
});
#[cfg(not(feature = "twin"))]
pub const TWIN: Option<Product> = None;

/// Stands around the detail, and in it before the call.
const UNTOUCHED: usize = 0xA5A5_5A5A_C3C3_3C3C;

/// What a routine has to answer, and what it has to write to the front of the buffer.
#[derive(Clone, Copy)]
pub struct Due<'a> {
    pub answer: (u8, usize),
    pub written: &'a [u8],
}

/// What a buffer is filled with, and where it lies.
#[derive(Clone, Copy, Debug)]
pub struct Buffer {
    pub length: usize,
    pub salt: u8,
    pub side: Side,
}

/// A list with delays and a state of its run, and what is due for them.
pub struct Late<'a> {
    pub sheet: &'a [u8],
    pub list: &'a [u8],
    pub delays: &'a [u16],
    pub from: Run,
    /// Number and detail.
    pub answer: (u8, usize),
    /// A fresh state's number, and the facts where the state's stood.
    pub fresh: (u8, u64),
    /// A move's number, and the state after.
    pub moved: (u8, Run),
}

/// A list with rates, and what is due for them.
pub struct Billed<'a> {
    pub sheet: &'a [u8],
    pub list: &'a [u8],
    pub rates: &'a [u32],
    /// Number, and what is stored.
    pub answer: (u8, Bill),
}

/// Two sheets, and what is to be said of them.
pub struct Sent<'a> {
    pub first: &'a [u8],
    pub second: &'a [u8],
    pub due: Verdict,
}

pub struct Bench {
    sheet: Room,
    /// A list, or the second sheet.
    list: Room,
    buffer: Room,
    /// Delays, rates, or which sheet counts.
    numbers: Room,
    /// A state, or cents; then sixtieths lie in the buffer's room. Or a detail; then the part's length lies there.
    state: Room,
}

impl Bench {
    pub fn new() -> Bench {
        let [buffer, numbers, state] = [1; 3].map(Room::new);
        Bench { sheet: Room::new(64), list: Room::new(64), buffer, numbers, state }
    }

    /// The longest buffer that can be tried.
    pub fn longest(&self) -> usize {
        self.buffer.size()
    }

    /// The judge gives this number with detail 0, and leaves sheet and list as they are.
    pub fn judge(&mut self, product: Product, sheet: &[u8], list: &[u8], due: u8, side: Side) {
        let (at, from) = (self.sheet.put(sheet, side), self.list.put(list, side));
        let (s, l) = (self.sheet.at(at), self.list.at(from));
        let mut detail = [UNTOUCHED; 3];
        // Each pointer goes with the length of what was put there.
        let number = unsafe { (product.judge)(s, sheet.len(), l, list.len(), &mut detail[1]) };
        let answer = (number, detail[1]);
        assert!(
            answer == (due, 0),
            "{}: judge answers {answer:?}, due is {:?}{}",
            product.name,
            (due, 0),
            shown(sheet, Some(list))
        );
        self.look_at_the_rest(product, &detail, sheet, at);
        assert!(
            &self.list.bytes()[from..from + list.len()] == list,
            "{}: judge changed the list{}",
            product.name,
            shown(sheet, Some(list))
        );
    }

    /// The routine gives number and detail, writes what is due, and no other byte. Gives the clock
    /// ticks that it took.
    pub fn write(
        &mut self,
        product: Product,
        routine: Routine,
        sheet: &[u8],
        buffer: Buffer,
        due: Due,
    ) -> u64 {
        let at = self.sheet.put(sheet, buffer.side);
        let from = self.buffer.place(buffer.length, buffer.side);
        fill(self.buffer.bytes(), buffer.salt);
        let (s, b) = (self.sheet.at(at), self.buffer.at(from));
        let mut detail = [UNTOUCHED; 3];
        // As above.
        let (number, took) = unsafe {
            let start = _rdtsc();
            let writer = product.writers[routine as usize];
            let number = writer(s, sheet.len(), b, buffer.length, &mut detail[1]);
            (number, _rdtsc() - start)
        };
        let answer = (number, detail[1]);
        assert!(
            answer == due.answer,
            "{}: {routine:?} answers {answer:?}, due is {:?}, {buffer:?}{}",
            product.name,
            due.answer,
            shown(sheet, None)
        );
        self.look_at_the_rest(product, &detail, sheet, at);
        let mut expected = vec![0; self.buffer.size()];
        fill(&mut expected, buffer.salt);
        expected[from..from + due.written.len()].copy_from_slice(due.written);
        let found = self.buffer.bytes();
        if let Some(place) = (0..expected.len()).find(|&place| found[place] != expected[place]) {
            panic!(
                "{}: after {routine:?} {answer:?} byte {} of the buffer is {}, due is {}, {buffer:?}{}",
                product.name,
                place as isize - from as isize,
                found[place],
                expected[place],
                shown(sheet, None)
            );
        }
        took
    }

    /// A delayed list gets number and detail that are due, and so do a fresh state and a move of the state. Nothing else
    /// changes.
    pub fn late(&mut self, product: Product, late: &Late, side: Side) {
        let Late { sheet, list, delays, from, .. } = late;
        let bytes: Vec<u8> = delays.iter().flat_map(|delay| delay.to_ne_bytes()).collect();
        let (at, from_list) = (self.sheet.put(sheet, side), self.list.put(list, side));
        let from_delays = self.numbers.put(&bytes, side);
        let (s, l) = (self.sheet.at(at), self.list.at(from_list));
        // Rooms start and end with a page, so that this stands at an even place.
        let d = self.numbers.at(from_delays).cast::<u16>();
        let mut detail = [UNTOUCHED; 3];
        // Each pointer goes with the length of what was put there.
        let number = unsafe {
            (product.late)(s, sheet.len(), l, list.len(), d, delays.len(), &mut detail[1])
        };
        late.same(product, "late", (number, detail[1]), late.answer);
        let held = lent(&mut self.state, &from.held.to_ne_bytes(), side, |held| {
            // As above, with the state's facts where they were put.
            unsafe { (product.fresh)(s, sheet.len(), held.cast()) }
        });
        let found = (held.0, eight_bytes(&held.1));
        late.same(product, "fresh", found, late.fresh);
        let moved = lent(&mut self.state, &state_bytes(*from), side, |run| {
            // As above.
            unsafe { (product.move_on)(s, sheet.len(), l, list.len(), d, delays.len(), run.cast()) }
        });
        late.same(product, "move_on", (moved.0, state_of(&moved.1)), late.moved);
        self.look_at_the_rest(product, &detail, sheet, at);
        let list_stays = &self.list.bytes()[from_list..from_list + list.len()] == *list;
        let delays_stay = self.numbers.bytes()[from_delays..from_delays + bytes.len()] == bytes;
        assert!(list_stays && delays_stay, "{}: late changed its input{late}", product.name);
    }

    /// A list with rates gets number, cents and sixtieths that are due. Both are stored over numbers that share no bit with
    /// what is due. Nothing else changes.
    pub fn cost(&mut self, product: Product, billed: &Billed, side: Side) {
        let Billed { sheet, list, rates, answer: (_, due) } = billed;
        let bytes: Vec<u8> = rates.iter().flat_map(|rate| rate.to_ne_bytes()).collect();
        let (at, from_list) = (self.sheet.put(sheet, side), self.list.put(list, side));
        let from_rates = self.numbers.put(&bytes, side);
        let (s, l) = (self.sheet.at(at), self.list.at(from_list));
        // As the delays above, at a place that four divides.
        let r = self.numbers.at(from_rates).cast::<u32>();
        let (cents, sixtieths) = ((!due.cents).to_ne_bytes(), (!due.sixtieths).to_ne_bytes());
        let buffer = &mut self.buffer;
        let ((number, sixtieths), cents) = lent(&mut self.state, &cents, side, |c| {
            lent(buffer, &sixtieths, side, |x| {
                // Each pointer goes with the length of what was put there.
                let (c, x) = (c.cast(), x.cast());
                unsafe { (product.cost)(s, sheet.len(), l, list.len(), r, rates.len(), c, x) }
            })
        });
        let bill = Bill { cents: eight_bytes(&cents), sixtieths: eight_bytes(&sixtieths) };
        let (found, name) = ((number, bill), product.name);
        assert!(found == billed.answer, "{name}: cost gives {found:?}, due is {billed}");
        self.look_at_the_rest(product, &[UNTOUCHED; 3], sheet, at);
        let list_stays = &self.list.bytes()[from_list..from_list + list.len()] == *list;
        let rates_stay = self.numbers.bytes()[from_rates..from_rates + bytes.len()] == bytes;
        assert!(list_stays && rates_stay, "{name}: cost changed its input, due is {billed}");
    }

    /// Two sheets get number, detail, which and length that are due, each stored over a number that shares no bit with it.
    /// Equal sheets get the same from one place. Nothing else changes.
    pub fn newer(&mut self, product: Product, sent: &Sent, side: Side) {
        let Sent { first, second, .. } = sent;
        let (at, beside) = (self.sheet.put(first, side), self.list.put(second, side));
        let (one, other) = (self.sheet.at(at), self.list.at(beside));
        self.choose(product, sent, [one, other], side);
        if first == second {
            self.choose(product, sent, [one, one], side);
        }
        self.look_at_the_rest(product, &[UNTOUCHED; 3], first, at);
        let stays = &self.list.bytes()[beside..beside + second.len()] == *second;
        assert!(stays, "{}: newer changed the second sheet, due is {sent}", product.name);
    }

    /// One call of it, with the sheets at these places.
    fn choose(&mut self, product: Product, sent: &Sent, [one, other]: [*mut u8; 2], side: Side) {
        let Sent { first, second, due } = sent;
        let stored = due.handed(first, second);
        let [detail, length] = [stored.detail, stored.part_len].map(|due| (!due).to_ne_bytes());
        let (numbers, buffer) = (&mut self.numbers, &mut self.buffer);
        let (((number, length), which), detail) = lent(&mut self.state, &detail, side, |d| {
            lent(numbers, &[!stored.which], side, |w| {
                lent(buffer, &length, side, |l| {
                    // Each pointer goes with the length of what was put there.
                    let (d, l) = (d.cast(), l.cast());
                    unsafe { (product.newer)(one, first.len(), other, second.len(), d, w, l) }
                })
            })
        });
        let [detail, part_len] = [detail, length].map(|bytes| eight_bytes(&bytes) as usize);
        let found = (number, Handed { detail, which: which[0], part_len });
        let name = product.name;
        let same = found == (due.number(), stored);
        assert!(same, "{name}: newer gives {found:?}, due is {sent}");
    }

    /// Nothing beside the detail is written, and the sheet stays.
    fn look_at_the_rest(&mut self, product: Product, detail: &[usize; 3], sheet: &[u8], at: usize) {
        let name = product.name;
        let beside = detail[0] == UNTOUCHED && detail[2] == UNTOUCHED;
        assert!(beside, "{name}: wrote beside the detail{}", shown(sheet, None));
        let stays = &self.sheet.bytes()[at..at + sheet.len()] == sheet;
        assert!(stays, "{name}: changed the sheet{}", shown(sheet, None));
    }
}

impl Late<'_> {
    fn same<T: PartialEq + std::fmt::Debug>(&self, by: Product, what: &str, found: T, due: T) {
        assert!(found == due, "{}: {what} gives {found:?}, due is {due:?}{self}", by.name);
    }
}

impl std::fmt::Display for Late<'_> {
    fn fmt(&self, to: &mut std::fmt::Formatter) -> std::fmt::Result {
        let Late { sheet, list, delays, from, .. } = self;
        write!(to, "{}\ndelays {delays:?}\nstate {from:?}", shown(sheet, Some(list)))
    }
}

impl std::fmt::Display for Billed<'_> {
    fn fmt(&self, to: &mut std::fmt::Formatter) -> std::fmt::Result {
        let Billed { sheet, list, rates, answer } = self;
        write!(to, "{answer:?}{}\nrates {rates:?}", shown(sheet, Some(list)))
    }
}

impl std::fmt::Display for Sent<'_> {
    fn fmt(&self, to: &mut std::fmt::Formatter) -> std::fmt::Result {
        let Sent { first, second, due } = self;
        write!(to, "{due:?}{}\nsecond {second:02x?}", shown(first, None))
    }
}

/// What the call gives, and what it leaves where these bytes were put. All others of the room stay.
fn lent<T>(
    room: &mut Room,
    bytes: &[u8],
    side: Side,
    call: impl FnOnce(*mut u8) -> T,
) -> (T, Vec<u8>) {
    fill(room.bytes(), 0);
    let mut expected = room.bytes().to_vec();
    let at = room.put(bytes, side);
    let given = call(room.at(at));
    let places = at..at + bytes.len();
    let left = room.bytes()[places.clone()].to_vec();
    expected[places].copy_from_slice(&left);
    assert!(room.bytes() == expected, "wrote beside what was lent");
    (given, left)
}

fn eight_bytes(bytes: &[u8]) -> u64 {
    u64::from_ne_bytes(bytes.try_into().expect("there are 8"))
}

/// As it lies in memory.
fn state_bytes(run: Run) -> Vec<u8> {
    [run.next.to_ne_bytes(), run.held.to_ne_bytes()].concat()
}

fn state_of(bytes: &[u8]) -> Run {
    let (next, held) = bytes.split_at(8);
    Run { next: eight_bytes(next), held: eight_bytes(held) }
}

/// Neighbouring bytes differ, and a change of the salt changes every byte.
fn fill(bytes: &mut [u8], salt: u8) {
    for (place, byte) in bytes.iter_mut().enumerate() {
        *byte = (place * 37 + 11) as u8 ^ salt;
    }
}

fn shown(sheet: &[u8], list: Option<&[u8]>) -> String {
    let list = list.map_or(String::new(), |list| format!("\nlist  {list:02x?}"));
    format!("\nsheet {sheet:02x?}{list}")
}
