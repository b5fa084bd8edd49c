//! Retired jobs: what the notation writes for them, and that they are planned, explained, warned of and drawn as absent.

mod checker;
mod common;

use checker::json;
use common::{proved, round_trip, rows_of, said, Row};
use corrumai_tests::build::{list_of_rows, Job, Spec};
use corrumai_tests::cases::examples;
use corrumai_tests::generate::tiny;
use corrumai_tests::retire::{retired, Cause};
use corrumai_tests::rng::Rng;
use corrumai_tests::say;
use corrumai_tools::decode::decode;
use corrumai_tools::encode::encode;
use corrumai_tools::explain::{self, Context};
use corrumai_tools::layout::{LONGEST_PLAN, MAX_BOUNDS};
use corrumai_tools::model::Sheet;
use corrumai_tools::notation::{parse, print, read};
use corrumai_tools::note::Note;
use corrumai_tools::rules::present::LEFT_OUT;
use corrumai_tools::warnings;

const NO_LOW: i16 = i16::MIN;
const NO_HIGH: i16 = i16::MAX;

/// The rows that mark a retired job, of the pair (e, d).
fn marks(e: u8, d: u8) -> [Row; 2] {
    [(e, d, 1, NO_HIGH), (e, d, NO_LOW, 0)]
}

/// The rows of a sheet with this job and, behind it, another.
fn rows(job: &str) -> Vec<Row> {
    let text = format!(
        "horizon 90 min\nfact a initial\nfact b\nfact c goal\njob 10 {job}\njob 20 two takes 3 min\nneed b\nset c at end\n"
    );
    let sheet = parse(text.as_bytes()).unwrap_or_else(|errors| panic!("{errors:?}\n{text}"));
    round_trip_named(&sheet);
    rows_of(&encode(&sheet))
}

/// The sheet's text says bounds and not the word, and goes back to the same bytes.
fn round_trip_named(sheet: &Sheet) {
    let text = print(sheet);
    assert!(!text.contains("retired"), "{text}");
    assert_eq!(parse(text.as_bytes()).as_ref(), Ok(sheet), "{text}");
    round_trip(&encode(sheet));
}

/// From the first event to the second, in the order of the sheet whatever that of the lines; behind the pair's other bounds.
#[test]
fn the_word_writes_two_bounds() {
    let two = |first: u8| [(first + 1, first, 3, 3), (first + 2, first + 1, 0, 0)];
    let all = |own: &[&[Row]], first| [&own.concat()[..], &two(first)].concat();
    assert_eq!(rows("one retired\nneed a"), all(&[&marks(1, 0)], 2));
    assert_eq!(rows("one retired\nset c\nset b"), all(&[&marks(1, 0)], 2));
    assert_eq!(rows("one retired\nset c\nneed b\nset a"), all(&[&marks(1, 0)], 4));
    let length = [(1, 0, 5, 5)];
    let end = [(2, 1, 0, 0)];
    for title in ["one retired takes 5 min", "one takes 5 min retired"] {
        let job = format!("{title}\nneed a\nset b at end");
        assert_eq!(rows(&job), all(&[&length, &marks(1, 0), &end], 3));
    }
    let more = "from begin of need a to end of need a: at most 9 min";
    let job = format!("one retired\n{more}\nneed a for 5 min\nset b");
    assert_eq!(rows(&job), all(&[&[(1, 0, NO_LOW, 9)], &length, &marks(1, 0)], 3));
    // The other direction is a pair of its own, and stands before it.
    let job =
        "one retired\nset a\nset b\nfrom set b to set a: 2 min\nfrom set a to set b: any time";
    let own: [&[_]; 3] = [&[(0, 1, 2, 2)], &[(1, 0, NO_LOW, NO_HIGH)], &marks(1, 0)];
    assert_eq!(rows(job), all(&own, 2));
}

#[test]
fn several_retired_jobs_in_either_edition() {
    let text = "horizon 90 min\nfact a initial\nfact b goal\njob 1 one retired\nneed a\nset b\n\
                job 2 two takes 5 min\nneed a\nset b at end\njob 3 three takes 5 min retired optional\nneed a\nclear b at end\n";
    let first = encode(&parse(text.as_bytes()).unwrap());
    let second = format!("edition 2\n{text}").replace("3 three", "3 three not before 20 h");
    let second = parse(second.as_bytes()).unwrap();
    assert_eq!(second.jobs[2].release, 1_200);
    let due: Vec<_> = [
        &marks(1, 0)[..],
        &[(4, 3, 5, 5), (5, 4, 0, 0), (7, 6, 5, 5)],
        &marks(7, 6),
        &[(8, 7, 0, 0)],
    ]
    .concat();
    assert_eq!((rows_of(&first), rows_of(&encode(&second))), (due.clone(), due));
    let list = list_of_rows(&[(2, vec![0, 5, 5])]);
    for sheet in [first, encode(&second)] {
        assert_eq!(proved().plan(&sheet, LONGEST_PLAN).1, list);
    }
}

/// As many other bounds as leave room for two more, and one more than that.
#[test]
fn the_two_bounds_count() {
    let text = |others: usize| {
        let line = "from set a to set b: any time\n".repeat(others);
        format!("horizon 9 min\nfact a\nfact b\njob 1 one retired\nset a\nset b\n{line}")
    };
    let sheet = parse(text(MAX_BOUNDS - 2).as_bytes()).unwrap();
    let rows = rows_of(&encode(&sheet));
    assert_eq!((rows.len(), &rows[MAX_BOUNDS - 2..]), (MAX_BOUNDS, &marks(1, 0)[..]));
    round_trip_named(&sheet);
    let error = |text: String| parse(text.as_bytes()).unwrap_err()[0].to_string();
    let many = "too many bounds: a sheet holds at most 256";
    assert_eq!(error(text(MAX_BOUNDS - 1)), format!("{}:1: {many}", 6 + MAX_BOUNDS - 1));
    // Where the word itself is too much, its line is named.
    let full = text(MAX_BOUNDS - 1).replace(" retired", "");
    let late = format!("{full}job 2 two retired\nset a\nset b\n");
    assert_eq!(error(late), format!("{}:1: {many}", 6 + MAX_BOUNDS));
}

#[test]
fn a_job_with_fewer_than_two_events_is_refused() {
    let errors = |lines: &str| {
        let text = format!("horizon 9 min\nfact a\n\n  job 1 one takes 5 min retired\n{lines}");
        let text = if lines.contains("at ") { text } else { text.replace(" takes 5 min", "") };
        parse(text.as_bytes()).unwrap_err()
    };
    for (lines, has) in [("", "no event"), ("set a\n", "one event"), ("clear a\n", "one event")] {
        let found = errors(lines);
        let due = format!("4:13: the job 'one' cannot be marked as retired: it has {has}");
        assert_eq!(found.iter().map(ToString::to_string).collect::<Vec<_>>(), [due]);
        assert!(found[0].help.starts_with("the mark is two bounds between its first two events"));
    }
    // What is wrong with its lines is said, and not what follows from that.
    let found = errors("set b\n");
    assert_eq!((found.len(), found[0].message.as_str()), (1, "no fact has the name 'b'"));
    assert!(errors("set a at end\n").iter().any(|e| e.message.contains("stands at its start")));
}

/// P1 in edition 2 with gap 1 and a third job, like its first, which sets fact 1.
fn p1_and(third: Job) -> Spec {
    let mut spec = examples::p1(100).with_gap(1);
    spec.jobs.push(third);
    spec
}

fn third() -> Job {
    Job::new(30).needs(0).sets(1)
}

/// P1 and the third job, without own times for this cause; with a slack of 1 it just has some.
fn p1_by(cause: Cause, slack: i16) -> Vec<u8> {
    let mut spec = p1_and(third());
    cause.put_on(&mut spec, 2, slack);
    spec.bytes()
}

/// With which words it is said why the job has no own times.
fn words(cause: Cause) -> &'static str {
    match cause {
        Cause::Crossing | Cause::Ring | Cause::Need => "come 1 minute after itself:",
        Cause::Release => "not before minute 101",
        Cause::Length => "1 minute past the horizon, 100:",
    }
}

/// The explanation of the planner's answer, which has passed its check and that of the second checker.
fn explained(bytes: &[u8], room: usize) -> String {
    let sheet = decode(bytes).unwrap();
    let context = Context { sheet: Some(&sheet), source: None, start: None };
    let explanation = explain::plan(bytes, room, &proved());
    let (due, list) = proved().plan(bytes, room);
    checker::planner(bytes, (due.number, due.detail), &list, &explanation.json(&context));
    explanation.text(&context)
}

#[test]
fn whatever_the_cause_it_is_planned_as_if_it_were_not_there() {
    for cause in Cause::ALL {
        let bytes = p1_by(cause, 0);
        let (answer, list) = proved().plan(&bytes, LONGEST_PLAN);
        assert_eq!((answer.number, list), (0, examples::P1_LIST.to_vec()), "{cause:?}");
        let text = explained(&bytes, LONGEST_PLAN);
        let due =
            format!("The job 'job30' (code 30) is absent, and {LEFT_OUT}: no times meet its ");
        assert!(text.contains(&due) && text.contains(words(cause)), "{cause:?}\n{text}");
        assert!(explained(&bytes, 23).contains("ANSWER 30 24: "), "{cause:?}");
        let text = explained(&p1_by(cause, 1), LONGEST_PLAN);
        assert!(text.contains("ANSWER 20 1: ") && !text.contains("absent"), "{cause:?}\n{text}");
    }
}

/// Every cause but a crossing that the text calls retired is warned of, in bytes too.
#[test]
fn an_absent_job_that_is_not_said_to_be_retired_is_warned_of() {
    for cause in Cause::ALL {
        let bytes = p1_by(cause, 0);
        let (_, aside, status) = said(&["sheet", "check"], "unsaid.sheet", &bytes);
        let left_out = format!("{LEFT_OUT}\n");
        assert_eq!((aside.matches(&left_out).count(), status), (1, 0), "{cause:?}\n{aside}");
        let help = "if the job shall not run, write 'job 30 job30 retired'\n";
        assert!(aside.contains("job 'job30'") && aside.ends_with(help), "{cause:?}\n{aside}");
        // Said so, with all its other bounds, it is no slip.
        let text = print(&decode(&bytes).unwrap()).replace("job 30 job30", "job 30 job30 retired");
        let checked = said(&["sheet", "check", "--strict"], "absent.txt", text.as_bytes());
        assert_eq!(checked, (vec![], String::new(), 0), "{cause:?}");
    }
}

/// P1 with its first job retired, P9 with its second, and jobs that are all retired with nothing wanted.
#[test]
fn what_only_absent_jobs_set_has_no_source() {
    let retired = |spec: Spec, job: usize| retired(spec, job, Cause::Crossing);
    let p1 = retired(examples::p1(100), 0);
    let text = explained(&p1.bytes(), LONGEST_PLAN);
    let due = "ANSWER 1 0: no plan exists.\n\n\
               'fact1' is wanted and not initial, and no job sets it but 'job10', which is absent.\n\n\
               Why it is wanted:\n  'fact2' is a goal\n  'fact1' is needed by 'job20', which sets 'fact2'\n\n\
               The job 'job10' (code 10) is absent";
    assert!(text.contains(due), "{text}");
    // A second one that sets the fact is named too; were it present, it would be the source.
    let mut two = p1;
    two.jobs.push(third());
    assert!(explained(&two.bytes(), LONGEST_PLAN).contains("ANSWER 0 24: "));
    let two = retired(two, 2).bytes();
    let text = explained(&two, LONGEST_PLAN);
    assert!(text.contains("no job sets it but 'job10', 'job30', which are absent.\n"), "{text}");
    let line = String::from_utf8(said(&["batch"], "absent.sheet", &two).0).unwrap();
    let clause =
        "only the absent 'job10', 'job30' set 'fact1', which 'job20' needs; 2 jobs absent\n";
    assert!(line.contains(clause), "{line}");
    // In P9 nothing sets fact 0 any more, which job 10 clears: it is shown cleared last.
    let mut p9 = examples::p9();
    p9.jobs[1] = p9.jobs[1].clone().needs(1);
    let text = explained(&retired(p9, 1).bytes(), LONGEST_PLAN);
    let due = "ANSWER 1 0: no plan exists.\n\n'fact0' is a goal and is cleared for good by 'job10'";
    assert!(text.contains(due), "{text}");
    let idle = Spec::new(9, &[1, 0], &[third(), Job::new(40).sets(0).sets(1)]);
    let idle = retired(retired(idle, 0), 1).bytes();
    assert!(explained(&idle, LONGEST_PLAN).contains("ANSWER 0 4: "));
    assert_eq!(proved().plan(&idle, 4).1, [1, 0, 0, 0]);
}

/// A job without events is there, whatever its release.
#[test]
fn a_job_without_events_is_never_absent() {
    let mut spec = p1_and(Job::new(30).not_before(65_535));
    assert!(!explained(&spec.bytes(), LONGEST_PLAN).contains("absent"));
    spec.jobs[2] = Job::new(30).not_before(65_535).sets(1);
    assert!(explained(&spec.bytes(), LONGEST_PLAN).contains("The job 'job30' (code 30) is absent"));
}

const TEXT: &str = "\
horizon 100 min
fact files initial
fact codes
fact volume goal
job 9 by-name retired takes 9 min
  need files
  set codes at end
job 10 load takes 5 min
  need files
  set codes at end
job 20 compute takes 3 min
  need codes
  set volume at end
";

/// The text says that it is retired, and on which line; as data its rules are there all the same.
#[test]
fn an_explanation_of_a_text_names_the_line() {
    let (out, aside, status) = said(&["explain"], "retired.txt", TEXT.as_bytes());
    let out = String::from_utf8(out).unwrap();
    let due = "\n\nThe job 'by-name' (code 9) is retired (line 5): the planner plans as if it were not in the sheet.\n";
    assert!(out.ends_with(due) && out.matches("by-name").count() == 1, "{out}");
    assert_eq!((aside.as_str(), status), ("", 0));
    let (out, ..) = said(&["explain", "--json"], "retired.txt", TEXT.as_bytes());
    let data = json::parse(&String::from_utf8(out).unwrap());
    let [absent] = data.get("absent").list() else { panic!("{data:?}") };
    assert_eq!((absent.get("job").place(), absent.get("walk").get("kind").text()), (0, "circle"));
    // The same in bytes: both bounds are named.
    let bytes = encode(&parse(TEXT.as_bytes()).unwrap());
    let text = explained(&bytes, LONGEST_PLAN);
    assert!(
        text.contains("+9 min, bound 0: ") && text.contains("bound 2: not before end of need"),
        "{text}"
    );
}

/// Batch, report and chart name it, and a text that says it has no warning.
#[test]
fn the_other_commands_name_it() {
    let printed = |words: &[&str]| {
        let (out, aside, status) = said(words, "retired.txt", TEXT.as_bytes());
        assert_eq!((aside.as_str(), status), ("", 0), "{words:?}");
        String::from_utf8(out).unwrap()
    };
    let line = "plan  9 min  2 jobs, last 'compute ends its need of codes'; 1 job absent\n";
    assert!(printed(&["batch"]).contains(line));
    let chart = printed(&["chart"]);
    assert!(
        chart.contains(">2 of 3 jobs, done at minute 9 of 100<")
            && chart.contains(">absent: 9 by-name<")
    );
    let report = printed(&["report"]);
    assert!(report.contains("; 1 job absent.</p>") && report.contains(">absent: 9 by-name<"));
    assert!(!report.contains("Warnings"));
    assert_eq!(printed(&["plan"]).lines().next(), Some("PLAN 2"));
    // Nothing in its place: its fact is missed, and who is left without a task is named.
    let alone = TEXT.replace("job 10 load takes", "job 10 load retired takes");
    let (sheet, source) = read(alone.as_bytes()).unwrap();
    let notes = warnings::of(&sheet, Some(&source));
    let due = "12:3: the job 'compute' needs 'codes', but only retired jobs set it ('by-name', 'load') and it is not initial: \
               the job can never run";
    assert_eq!(notes.iter().map(ToString::to_string).collect::<Vec<_>>(), [due]);
}

/// The judge knows no absent jobs: a list with one is 41, by the bounds that cannot both hold; and so is a log.
#[test]
fn the_judge_refuses_a_list_with_a_retired_job() {
    let bytes = encode(&parse(TEXT.as_bytes()).unwrap());
    let rows = [(9, vec![0, 9, 9]), (10, vec![0, 5, 5]), (20, vec![6, 9, 9])];
    let sheet = decode(&bytes).unwrap();
    let context = Context { sheet: Some(&sheet), source: None, start: None };
    let judged = |rows: &[(u16, Vec<u16>)]| {
        let explanation = explain::judge(&bytes, &list_of_rows(rows), &proved());
        assert!(json::parse(&explanation.json(&context)).get("absent").some().is_none());
        explanation.text(&context)
    };
    assert!(judged(&rows[1..]).contains("ANSWER 0 0: "));
    let text = judged(&rows);
    assert!(
        text.contains("ANSWER 41 0: ") && text.contains("bound 2 asks for at most 0 min"),
        "{text}"
    );
    let file = std::path::PathBuf::from(env!("CARGO_TARGET_TMPDIR")).join("logged.txt");
    std::fs::write(&file, TEXT).unwrap();
    let log = "by-name,B,files,0\nby-name,E,files,9\nby-name,S,codes,9\n\
               compute,B,codes,10\ncompute,E,codes,13\ncompute,S,volume,13\n";
    let (out, _, status) = said(&["compare", file.to_str().unwrap()], "logged.csv", log.as_bytes());
    let out = String::from_utf8(out).unwrap();
    assert!(status == 1 && out.starts_with("not a plan: point 1, entry 0 ('by-name'): "), "{out}");
    assert!(out.contains("\nnot planned: 'by-name' (9) ran once\n"), "{out}");
}

/// The text of a sheet with some of its jobs said to be retired, and the sheet without them.
fn some_retired(rng: &mut Rng, sheet: &Sheet) -> (String, Sheet) {
    let mut without = sheet.clone();
    let bounds: usize = sheet.jobs.iter().map(|job| job.bounds.len()).sum();
    let mut room = MAX_BOUNDS - bounds;
    let mut retired = |events: usize| {
        let retired = events > 1 && room > 1 && rng.chance(30);
        room -= 2 * usize::from(retired);
        retired
    };
    let retired: Vec<bool> = sheet.jobs.iter().map(|job| retired(job.events.len())).collect();
    let mut kept = retired.iter().map(|retired| !retired);
    without.jobs.retain(|_| kept.next().unwrap());
    let mut number = 0;
    let mut line = |line: &str| {
        let mut text = line.to_string();
        if line.starts_with("job ") {
            text += if retired[number] { " retired" } else { "" };
            number += 1;
        }
        text + "\n"
    };
    (print(sheet).lines().map(&mut line).collect(), without)
}

/// Any sheet gets the answer and the list that it gets without its retired jobs, and no warning for them.
#[test]
fn a_sheet_without_its_retired_jobs_gets_the_same_answer() {
    let mut rng = Rng::new(121);
    let mut seen = std::collections::BTreeMap::new();
    for round in 0..20_000 {
        let spec = if round % 2 == 0 { tiny::sheet(&mut rng) } else { tiny::sheet_2(&mut rng) };
        let (text, without) = some_retired(&mut rng, &decode(&spec.bytes()).unwrap());
        let (sheet, source) = read(text.as_bytes()).unwrap_or_else(|e| panic!("{e:?}\n{text}"));
        let bytes = encode(&sheet);
        let due = proved().plan(&encode(&without), LONGEST_PLAN);
        assert_eq!(proved().plan(&bytes, LONGEST_PLAN), due, "{text}");
        assert!(explained(&bytes, LONGEST_PLAN).contains(&format!("{}: ", due.0)), "{text}");
        let notes = warnings::of(&sheet, Some(&source));
        for (job, said) in sheet.jobs.iter().zip(&source.jobs).filter(|(_, said)| said.retired) {
            let named = |note: &&Note| note.message.contains(&format!("the job '{}'", job.name));
            assert_eq!(notes.iter().find(named), None, "line {}\n{text}", said.place.line);
        }
        if without.jobs.len() < sheet.jobs.len() {
            *seen.entry(due.0.number).or_insert(0) += 1;
        }
    }
    say(&format!("retired, answers of sheets with retired jobs: {seen:?}"));
    for number in [0, 1, 20, 21, 22] {
        assert!(seen.get(&number).copied().unwrap_or(0) >= 10, "{number}: {seen:?}");
    }
}
