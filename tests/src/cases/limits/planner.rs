//! The planner where all hangs on the last fact, the last job or the last bound, and on lines of 32 jobs.

use super::marks;
use crate::build::{begins, clears, ends, list_bytes, list_of_rows, sets, Act, Job, Spec};
use crate::cases::examples::P5_LIST;
use crate::cases::planner::{at_once, planned, refused, PlannerCase};

pub fn cases() -> Vec<PlannerCase> {
    let mut cases = class_rules();
    cases.extend(wanted());
    cases.extend(no_plan());
    cases.extend(guards());
    cases.extend(orders());
    cases.extend(own_times());
    cases.extend(lines());
    cases
}

/// The job with all these events, each on the tick of the first.
fn on_one_tick(code: u16, acts: &[Act]) -> Job {
    let mut job = Job::new(code);
    job.acts.extend(acts);
    acts[1..].iter().fold(job, |job, act| job.exactly(*act, acts[0], 0))
}

/// 32 jobs by rising code from 0 on: those given last, idle ones before them.
fn after_idle(last: &[Job]) -> Vec<Job> {
    let mut jobs: Vec<Job> = (0..32 - last.len()).map(|k| Job::new(k as u16)).collect();
    jobs.extend_from_slice(last);
    jobs
}

/// Every fact but 63 keeps the class rules.
fn class_rules() -> Vec<PlannerCase> {
    let set_63 = |code| Job::new(code).sets(63);
    let spec = |some: &[(usize, u8)], jobs: &[Job]| Spec::new(9, &marks(some), jobs);
    let twice = spec(&[(63, 2)], &[set_63(1), set_63(2)]);
    let mut far_apart = after_idle(&[set_63(65_535)]);
    far_apart[0] = set_63(0);
    let far_apart = spec(&[(63, 2)], &far_apart);
    let user = Job::new(1).needs(63).sets(0);
    let needed = spec(&[(0, 2)], &[user.clone(), set_63(2), set_63(3)]);
    let initial = spec(&[(63, 3)], &[set_63(1), set_63(2)]);
    let renewed = spec(&[(0, 2), (63, 3)], &[Job::new(1).sets(0).clears(63), set_63(2)]);
    let unordered = spec(&[(0, 2)], &[user, set_63(2).clears(63).exactly(clears(63), sets(63), 6)]);
    let two_jobs = [set_63(1).sets(0), Job::new(2).clears(63).sets(1)];
    let two_jobs = spec(&[(0, 2), (1, 2)], &two_jobs);
    let one_job = spec(&[(0, 2)], &[set_63(1).clears(63).sets(0)]);
    vec![
        refused("rule 20 by fact 63 alone", &twice, 20, 63),
        refused("rule 20 by fact 63, jobs 0 and 31", &far_apart, 20, 63),
        refused("rule 20 by fact 63, needed", &needed, 20, 63),
        planned("fact 63 initial, set twice", &initial, P5_LIST.to_vec()),
        refused("rule 21 by fact 63 alone, initial", &renewed, 21, 63),
        refused("rule 21 by fact 63 alone, in no order", &unordered, 21, 63),
        refused("rule 22 by fact 63 alone, two jobs", &two_jobs, 22, 63),
        refused("rule 22 by fact 63 alone, one job", &one_job, 22, 63),
    ]
}

/// Job 1 needs fact 63 and sets the goal at once; job 2 sets fact 63.
fn wanted() -> Vec<PlannerCase> {
    let user = on_one_tick(1, &[begins(63), ends(63), sets(0)]);
    let needed = |horizon| {
        let jobs = [user.clone(), Job::new(2).sets(63)];
        Spec::new(horizon, &marks(&[(0, 2)]), &jobs)
    };
    let needed_list = list_of_rows(&[(1, vec![1, 1, 1]), (2, vec![0])]);
    let goal = Spec::new(0, &marks(&[(63, 2)]), &after_idle(&[Job::new(65_535).sets(63)]));
    vec![
        planned("fact 63 wanted through a need", &needed(1), needed_list),
        refused("fact 63 wanted through a need, too late", &needed(0), 1, 0),
        planned("fact 63 the goal, set by job 31", &goal, list_of_rows(&[(65_535, vec![0])])),
    ]
}

fn no_plan() -> Vec<PlannerCase> {
    let user = Job::new(1).needs(63).sets(0);
    let needed = Spec::new(9, &marks(&[(0, 2)]), &[user]);
    let goal = Spec::new(9, &marks(&[(63, 2)]), &[]);
    // Fact 0 shows that fact 63 is cleared last.
    let job = on_one_tick(1, &[begins(0), ends(0), clears(0), sets(63)]);
    let job = job.clears(63).exactly(clears(63), sets(63), 1);
    let cleared = Spec::new(9, &marks(&[(0, 1), (63, 2)]), &[job]);
    vec![
        refused("fact 63 needed, nobody sets it", &needed, 1, 0),
        refused("fact 63 the goal, nobody sets it", &goal, 1, 0),
        refused("fact 63 the goal, cleared last", &cleared, 1, 0),
    ]
}

/// Fact 63 alone can put the jobs in order.
fn guards() -> Vec<PlannerCase> {
    let setter = on_one_tick(1, &[begins(63), ends(63), sets(0)]);
    let cleaner = on_one_tick(2, &[begins(0), ends(0), clears(0), clears(63), sets(1)]);
    let last = Spec::new(9, &marks(&[(0, 1), (1, 2)]), &[setter, cleaner]);
    let last_list = list_bytes(&last, &[at_once(&last, 1, 0)]);
    let cleaner = on_one_tick(1, &[clears(0), sets(1), begins(63), ends(63)]);
    let setter = on_one_tick(2, &[sets(0), clears(63)]);
    let first = Spec::new(1, &marks(&[(0, 2), (1, 2), (63, 1)]), &[cleaner, setter]);
    let first_list = list_bytes(&first, &[0, 1].map(|k| at_once(&first, k, k as u16)));
    vec![
        planned("fact 63 guards a fact cleared last", &last, last_list),
        planned("fact 63 guards a fact cleared first", &first, first_list),
    ]
}

/// Fact 63 is set, needed and cleared; fact 0 shows in which order.
fn orders() -> Vec<PlannerCase> {
    let mut start = on_one_tick(1, &[begins(0), ends(0), clears(0), sets(63)]);
    start.acts.insert(clears(63));
    let used = |gap| {
        let user = Job::new(2).needs(63).sets(1).exactly(ends(63), begins(63), 4);
        let user = user.exactly(sets(1), ends(63), 0);
        let jobs = [start.clone().exactly(clears(63), sets(63), gap), user];
        Spec::new(9, &marks(&[(0, 1), (1, 2)]), &jobs)
    };
    let used_list = list_of_rows(&[(1, vec![0, 0, 0, 0, 6]), (2, vec![5, 1, 5])]);
    let last = start.clone().sets(1).exactly(sets(1), sets(63), 0);
    let last = last.bound(clears(63), sets(63), 0, 3);
    let last = Spec::new(9, &marks(&[(0, 1), (1, 2)]), &[last]);
    let last_list = list_of_rows(&[(1, vec![0, 0, 0, 0, 0, 1])]);
    let first = on_one_tick(1, &[begins(0), ends(0), clears(0), clears(63)]);
    let first = first.sets(63).bound(sets(63), clears(63), 0, 3);
    let first = Spec::new(9, &marks(&[(0, 1), (63, 2)]), &[first]);
    let first_list = list_of_rows(&[(1, vec![0, 0, 0, 1, 0])]);
    vec![
        planned("fact 63 set, needed, cleared", &used(6), used_list),
        refused("fact 63 cleared before its need ends", &used(5), 1, 0),
        planned("fact 63 cleared one tick after its set", &last, last_list),
        planned("fact 63 set one tick after its clear", &first, first_list),
    ]
}

/// What is left without own times is absent: the others are planned, and what it alone sets has no source.
fn own_times() -> Vec<PlannerCase> {
    let job = || Job::new(65_535).needs(63).exactly(ends(63), begins(63), 4);
    let long = |horizon| Spec::new(horizon, &marks(&[]), &after_idle(&[job()]));
    let two_setters = |horizon| {
        let mut jobs = after_idle(&[job().sets(0)]);
        jobs[0] = Job::new(0).sets(0);
        Spec::new(horizon, &marks(&[(0, 2), (63, 1)]), &jobs)
    };
    let late = Job::new(1).needs(63).bound(ends(63), begins(63), -5, -1);
    let late_goal = Spec::new(9, &marks(&[(0, 2), (63, 1)]), &[late.clone().sets(0)]);
    let late = Spec::new(9, &marks(&[]), &[late]);
    let with_goal = |spec: Spec| Spec { marks: marks(&[(0, 2)]).to_vec(), ..spec };
    vec![
        planned("job 31 just fits", &long(4), P5_LIST.to_vec()),
        planned("job 31 alone has no own times", &long(3), P5_LIST.to_vec()),
        refused("job 31 is a second setter", &two_setters(4), 20, 0),
        planned("job 31 is an absent setter", &two_setters(3), list_of_rows(&[(0, vec![0])])),
        planned("need of fact 63 ends before it begins", &late, P5_LIST.to_vec()),
        refused("the goal by a need of fact 63 that ends before it begins", &late_goal, 1, 0),
        planned("bound 255 just fits", &last_bound(4), P5_LIST.to_vec()),
        planned("bound 255 alone leaves no own times", &last_bound(3), P5_LIST.to_vec()),
        refused("bound 255 alone leaves the goal to nobody", &with_goal(last_bound(3)), 1, 0),
    ]
}

/// One job of 256 events and 256 bounds, of which the last alone says something.
fn last_bound(horizon: u16) -> Spec {
    let mut job = (0..64).fold(Job::new(1), |job, fact| job.needs(fact).sets(fact).clears(fact));
    for fact in 0..64 {
        let pairs =
            [(ends(fact), begins(fact)), (sets(fact), ends(fact)), (clears(fact), sets(fact))];
        for (e, d) in pairs {
            job = job.bound(e, d, i16::MIN, i16::MAX);
        }
        job = job.bound(begins(fact), sets(fact), i16::MIN, i16::MAX);
    }
    Spec::new(horizon, &marks(&[]), &[job.now_exactly(clears(63), sets(63), 4)])
}

/// 32 jobs, each of which needs what the one before it sets, all on one tick. Facts 31 to 63 lie along the line.
fn line(falling: bool, horizon: u16) -> Spec {
    let number = |place: usize| if falling { 31 - place } else { place };
    let fact = |place: usize| if falling { 63 - place } else { 31 + place };
    let mut jobs = vec![Job::new(0); 32];
    for place in 0..32 {
        let (need, product) = (fact(place), fact(place + 1));
        let acts = [begins(need), ends(need), sets(product)];
        jobs[number(place)] = on_one_tick(number(place) as u16, &acts);
    }
    Spec::new(horizon, &marks(&[(fact(0), 1), (fact(32), 2)]), &jobs)
}

fn lines() -> Vec<PlannerCase> {
    let list = |falling| {
        let spec = line(falling, 31);
        let tick = |job| if falling { 31 - job } else { job };
        let entries: Vec<_> = (0..32).map(|job| at_once(&spec, job, tick(job) as u16)).collect();
        list_bytes(&spec, &entries)
    };
    // The first fact of the line is wanted only through all 32 jobs.
    let unset = |falling, first: usize| {
        let mut spec = line(falling, 31);
        spec.marks[first] = 0;
        spec
    };
    let set_twice = |falling, first| {
        let mut spec = unset(falling, first);
        for job in [3, 28] {
            spec.jobs[job] = spec.jobs[job].clone().sets(first);
        }
        spec
    };
    vec![
        planned("line of 32 jobs, rising", &line(false, 31), list(false)),
        planned("line of 32 jobs, falling", &line(true, 31), list(true)),
        refused("line rising, one tick too few", &line(false, 30), 1, 0),
        refused("line falling, one tick too few", &line(true, 30), 1, 0),
        refused("line rising, its first fact unset", &unset(false, 31), 1, 0),
        refused("line falling, its first fact unset", &unset(true, 63), 1, 0),
        refused("line rising, its first fact set twice", &set_twice(false, 31), 20, 31),
        refused("line falling, its first fact set twice", &set_twice(true, 63), 20, 63),
    ]
}
