//! Why nothing shows in which order a fact is set and cleared.

use super::{count, wants};
use crate::explain::words::Words;
use crate::explain::Unordered;
use crate::rules::orders::{Candidate, Order};
use crate::rules::wanted::Link;

pub fn no_order(words: &Words, fact: usize, chain: &[Link], tries: &[Unordered]) -> String {
    let name = words.fact(fact);
    let mut text =
        format!(
        "Nothing shows that every plan sets {name} before it clears it, or clears it before it sets it.\n"
    );
    for unordered in tries {
        text += &format!("\n{}", unguarded(words, fact, unordered));
    }
    if chain.is_empty() {
        return text
            + &format!("\nNobody wants {name}; wanted jobs set and clear it all the same.\n");
    }
    text + "\n" + &wants(words, chain)
}

/// The pair without a guard, and what each candidate lacks.
fn unguarded(words: &Words, fact: usize, unordered: &Unordered) -> String {
    let name = words.fact(fact);
    let (set, clear) = (words.job(unordered.pair.set), words.job(unordered.pair.clear));
    let (order, early, late, events) = match unordered.order {
        Order::ClearedLast => ("Cleared last", &set, &clear, ("sets", "clears")),
        Order::ClearedFirst => ("Cleared first", &clear, &set, ("clears", "sets")),
    };
    let (useful, idle): (Vec<&Candidate>, Vec<&Candidate>) =
        unordered.candidates.iter().partition(|candidate| candidate.needed || candidate.cleared);
    let mut text = format!(
        "{order}: no fact guards that {early} {} {name} before {late} {} it.\n",
        events.0, events.1
    );
    if unordered.pair.set == unordered.pair.clear {
        text +=
            "The job may run more than once, so that one run's set meets another run's clear.\n";
    }
    text += &format!(
        "A guard is a fact, shown cleared last itself, that {early} needs at least until it {} {name},\n\
         and that {late} clears no later than it {} {name}:\n",
        events.0, events.1
    );
    for candidate in useful {
        text += &format!("  {}: {}\n", words.fact(candidate.fact), lacks(candidate, early, late));
    }
    if !idle.is_empty() {
        let facts = count(idle.len(), "other fact");
        text += &format!("  {facts}: not needed by {early}, nor cleared by {late}\n");
    }
    text
}

fn lacks(candidate: &Candidate, early: &str, late: &str) -> String {
    let mut lacks = Vec::new();
    if !candidate.needed {
        lacks.push(format!("not needed by {early}"));
    }
    if !candidate.cleared {
        lacks.push(format!("not cleared by {late}"));
    }
    if let Some(minutes) = candidate.excess().filter(|minutes| *minutes > 0) {
        let minutes = count(minutes as usize, "minute");
        lacks.push(format!("cleared up to {minutes} too late for the end of its need"));
    }
    if !candidate.shown {
        lacks.push("not shown cleared last itself".to_string());
    }
    lacks.join("; ")
}
