//! The least times that meet rules, from minute 0 on, each with the rule that holds it there; or a circle
//! of rules that no times can meet.

use super::Rule;

pub struct Least {
    pub times: Vec<i32>,
    /// The rule that holds each time up; none for minute 0.
    holds: Vec<Option<usize>>,
}

impl Least {
    /// The rules from minute 0 to this event, in order.
    pub fn chain(&self, rules: &[Rule], event: usize) -> Vec<Rule> {
        let mut chain = Vec::new();
        let mut at = Some(event);
        while let Some(rule) = at.and_then(|at| self.holds[at]) {
            chain.push(rules[rule]);
            at = rules[rule].from;
        }
        chain.reverse();
        chain
    }

    pub fn hold(&self, rules: &[Rule], event: usize) -> Option<Rule> {
        self.holds[event].map(|rule| rules[rule])
    }
}

/// The least times of so many events, or a circle of rules whose minutes add up to more than 0.
pub fn least(count: usize, rules: &[Rule]) -> Result<Least, Vec<Rule>> {
    let mut least = Least { times: vec![0; count], holds: vec![None; count] };
    for _ in 0..=count {
        let Some(last) = raise(&mut least, rules) else {
            return Ok(least);
        };
        // After as many rounds as there are events a time can only grow on a circle.
        if let Some(circle) = circle_before(&least, rules, last) {
            return Err(circle);
        }
    }
    unreachable!("times that still grow lie behind a circle")
}

/// One round over all rules; the last event whose time grew.
fn raise(least: &mut Least, rules: &[Rule]) -> Option<usize> {
    let mut last = None;
    for (number, rule) in rules.iter().enumerate() {
        let time = rule.from.map_or(0, |from| least.times[from]) + rule.minutes;
        if time > least.times[rule.to] {
            least.times[rule.to] = time;
            least.holds[rule.to] = Some(number);
            last = Some(rule.to);
        }
    }
    last
}

/// The circle that the holds before this event run into, if they do.
fn circle_before(least: &Least, rules: &[Rule], event: usize) -> Option<Vec<Rule>> {
    let mut seen = vec![false; least.times.len()];
    let mut at = event;
    while !seen[at] {
        seen[at] = true;
        at = rules[least.holds[at]?].from?;
    }
    let mut circle = Vec::new();
    let start = at;
    loop {
        let rule = rules[least.holds[at]?];
        circle.push(rule);
        at = rule.from?;
        if at == start {
            circle.reverse();
            return Some(circle);
        }
    }
}
