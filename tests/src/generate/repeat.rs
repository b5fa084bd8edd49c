//! Pairs of events with several bounds: a bound is spread over rows that say together what it said; now and then a row
//! says more.

use crate::bounds::Span;
use crate::build::Spec;
use crate::model::sheet::{MAX_BOUNDS, MAX_HORIZON, NO_HIGH, NO_LOW};
use crate::rng::Rng;

/// In about `percent` of a hundred sheets some pairs get several rows.
pub fn sometimes(rng: &mut Rng, percent: usize, spec: &mut Spec) {
    if rng.chance(percent) {
        repeat(rng, spec);
    }
}

/// Some pairs with one row get several, up to the limit of a sheet: mostly few, now and then all that there is room for.
pub fn repeat(rng: &mut Rng, spec: &mut Spec) {
    let few = *rng.pick(&[1, 1, 2, 4]);
    let often = *rng.pick(&[20, 50, 100]);
    let mut room = MAX_BOUNDS.saturating_sub(spec.bound_count());
    for bounds in spec.jobs.iter_mut().map(|job| &mut job.bounds) {
        for pair in bounds.pairs() {
            let [span] = bounds.of(pair)[..] else {
                continue;
            };
            if rng.chance(often) && room > 0 {
                let more = if rng.chance(1) { room } else { 1 + rng.below(few.min(room)) };
                bounds.replace(pair, &spread(rng, span, more));
                room -= more;
            }
        }
    }
    if rng.chance(20) && room > 0 {
        say_more(rng, spec);
    }
}

/// One row more for some pair, anywhere among its rows: it may narrow them, cross them, or say nothing new.
fn say_more(rng: &mut Rng, spec: &mut Spec) {
    let job = rng.below(spec.jobs.len().max(1));
    let Some(bounds) = spec.jobs.get_mut(job).map(|job| &mut job.bounds) else {
        return;
    };
    if !bounds.is_empty() {
        let pair = *rng.pick(&bounds.pairs());
        let mut spans = bounds.of(pair);
        let near = near(rng, spans[0]);
        spans.insert(rng.below(spans.len() + 1), near);
        bounds.replace(pair, &spans);
    }
}

/// The bound as so many more rows than one, at least two in all and in any order. Low and high come from two of them, so
/// that no single one says all.
pub fn spread(rng: &mut Rng, span: Span, more: usize) -> Vec<Span> {
    let mut spans = vec![looser(rng, span), looser(rng, span)];
    spans.extend((1..more).map(|_| looser(rng, span)));
    spans[0].0 = span.0;
    spans[1].1 = span.1;
    rng.shuffle(&mut spans);
    spans
}

/// No tighter than this on either side; often open on one.
fn looser(rng: &mut Rng, (low, high): Span) -> Span {
    let mut slack = || match rng.below(5) {
        0 => Some(0),
        1 => None,
        2 => Some(1),
        _ => Some(rng.between(1, 9)),
    };
    let (less, more) = (slack(), slack());
    let less = less.filter(|_| low != NO_LOW as i16);
    let more = more.filter(|_| high != NO_HIGH as i16);
    (
        less.map_or(NO_LOW as i16, |less| ticks(i32::from(low) - less)),
        more.map_or(NO_HIGH as i16, |more| ticks(i32::from(high) + more)),
    )
}

/// Another bound, some ticks off.
fn near(rng: &mut Rng, (low, high): Span) -> Span {
    let some = if low == NO_LOW as i16 { high } else { low };
    let some = if some == NO_HIGH as i16 { 0 } else { i32::from(some) };
    let tick = ticks(some + rng.between(-2, 2));
    *rng.pick(&[(tick, tick), (tick, NO_HIGH as i16), (NO_LOW as i16, tick)])
}

/// As far as a bound may go.
fn ticks(value: i32) -> i16 {
    value.clamp(-MAX_HORIZON, MAX_HORIZON) as i16
}
