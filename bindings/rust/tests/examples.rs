//! The wrapper on P1 to P10 of document 01.

use corrumai::{
    cost, fresh, judge, late, length, move_on, newer, plan, to_edition1, to_edition2, Answer, Cost,
    Run, LONGEST_PLAN, LONGEST_SHEET, MOST_DELAY, MOST_RATE,
};
use std::fs;

fn example(name: &str) -> Vec<u8> {
    fs::read(format!("{}/../../examples/{name}", env!("CARGO_MANIFEST_DIR"))).unwrap()
}

#[test]
fn plans_and_refusals() {
    let (sheet, list) = (example("p1.sheet"), example("p1.list"));
    let mut buffer = [0xA5; LONGEST_PLAN];
    assert_eq!(plan(&sheet, &mut buffer), Ok(&list[..]));
    assert!(buffer[list.len()..].iter().all(|byte| *byte == 0xA5));
    assert_eq!(length(&sheet), Ok(24));
    assert_eq!(plan(&sheet, &mut [0; 23]), Err(Answer::BufferTooShort { needed: 24 }));
    assert_eq!(plan(&example("p5.sheet"), &mut buffer), Ok(&[1, 0, 0, 0][..]));
    for (name, answer) in [
        ("p3.sheet", Answer::NoPlan),
        ("p7.sheet", Answer::NoPlan),
        ("p8.sheet", Answer::NoOrder { fact: 1 }),
        ("p9.sheet", Answer::NoOrder { fact: 0 }),
        ("p1.list", Answer::BadContents),
    ] {
        assert_eq!(plan(&example(name), &mut [0; LONGEST_PLAN]), Err(answer), "{name}");
        assert_eq!(length(&example(name)), Err(answer), "{name}");
    }
    assert_eq!(
        Answer::NoOrder { fact: 1 }.to_string(),
        "ANSWER 21 1: a wanted fact's sets and clears have no order"
    );
}

#[test]
fn editions() {
    let (first, second) = (example("p1.sheet"), example("p1-edition2.sheet"));
    let mut buffer = [0xA5; LONGEST_SHEET];
    assert_eq!(to_edition2(&first, &mut buffer), Ok(&second[..]));
    assert!(buffer[second.len()..].iter().all(|byte| *byte == 0xA5));
    assert_eq!(to_edition1(&second, &mut buffer), Ok(&first[..]));
    assert_eq!(buffer[first.len()..second.len()], second[first.len()..]);
    assert_eq!(plan(&second, &mut [0; LONGEST_PLAN]), Ok(&example("p1.list")[..]));
    let short = |needed| Err(Answer::BufferTooShort { needed });
    assert_eq!(to_edition2(&first, &mut [0; 84]), short(85));
    assert_eq!(to_edition1(&second, &mut []), short(78));
    assert_eq!(to_edition2(&second, &mut buffer), Err(Answer::BadContents));
    assert_eq!(to_edition1(&first, &mut buffer), Err(Answer::BadContents));
    assert_eq!(to_edition1(&example("wood-server.sheet"), &mut []), Err(Answer::NoWayBack));
    // The gap byte: 0 is the default, which edition 1 has not.
    let mut old = second.clone();
    assert_eq!(std::mem::take(&mut old[29]), 1);
    assert_eq!(to_edition1(&old, &mut buffer), Err(Answer::NoWayBack));
    assert_eq!(
        Answer::NoWayBack.to_string(),
        "ANSWER 50 0: edition 1 cannot say what the sheet says"
    );
}

#[test]
fn verdicts() {
    let sheet = example("p1.sheet");
    assert_eq!(judge(&sheet, &example("p1.list")), Ok(()));
    assert_eq!(judge(&example("p10.sheet"), &example("p10.list")), Err(Answer::NotAPlan));
    assert_eq!(judge(&sheet, &[]), Err(Answer::BadList));
    assert_eq!(judge(&[], &[]), Err(Answer::BadContents));
}

#[test]
fn late_starts() {
    let (sheet, list) = (example("p1.sheet"), example("p1.list"));
    for (delays, due) in [
        (&[0, 1][..], Ok(())),
        (&[0, 91], Ok(())),
        (&[1, 0], Err(Answer::GoesWrong { tick: 6 })),
        (&[0, 92], Err(Answer::GoesWrong { tick: 100 })),
        (&[MOST_DELAY, 0], Err(Answer::GoesWrong { tick: 6 })),
        (&[MOST_DELAY + 1, 0], Err(Answer::BadList)),
        (&[0], Err(Answer::BadList)),
        (&[0, 0, 0], Err(Answer::BadList)),
    ] {
        assert_eq!(late(&sheet, &list, delays), due, "{delays:?}");
    }
    assert_eq!(late(&sheet, &example("p10.list"), &[]), Err(Answer::NotAPlan));
    assert_eq!(late(&[], &list, &[]), Err(Answer::BadContents));
    assert_eq!(
        late(&sheet, &list, &[1, 0]).unwrap_err().to_string(),
        "ANSWER 41 6: with these delays the list is not a plan"
    );
}

#[test]
fn runs_are_followed() {
    let (sheet, list) = (example("p1.sheet"), example("p1.list"));
    let mut run = fresh(&sheet).unwrap();
    assert_eq!((run, fresh(&[])), (Run { next: 0, held: 1 }, Err(Answer::BadContents)));
    // Job 10 a minute late: fact 1 is set at 6, and fact 2 at 9, although the list is no plan.
    for tick in 0..=110 {
        assert_eq!(move_on(&sheet, &list, &[1, 0], &mut run), Ok(()));
        let held = [true, tick >= 6, tick >= 9, false, false];
        assert_eq!([0, 1, 2, 3, 64].map(|fact| run.holds(fact)), held, "{tick}");
        assert_eq!(run.next, (tick + 1).min(101));
    }
    let stays = run;
    assert_eq!(move_on(&sheet, &list, &[1], &mut run), Err(Answer::BadList));
    assert_eq!(move_on(&sheet, &example("p10.list"), &[], &mut run), Err(Answer::NotAPlan));
    assert_eq!(run, stays);
}

#[test]
fn costs() {
    let (sheet, list) = (example("p1.sheet"), example("p1.list"));
    let costs = |cents, sixtieths| Ok(Cost { cents, sixtieths });
    for (rates, due) in [
        (&[60, 60][..], costs(8, 0)),
        (&[7, 11], costs(1, 8)),
        (&[MOST_RATE, MOST_RATE], costs(133_333, 20)),
        (&[MOST_RATE + 1, 0], Err(Answer::BadRates)),
        (&[0, u32::MAX], Err(Answer::BadRates)),
        (&[60], Err(Answer::BadRates)),
        (&[60, 60, 60], Err(Answer::BadRates)),
    ] {
        assert_eq!(cost(&sheet, &list, rates), due, "{rates:?}");
        assert_eq!(cost(&example("p1-edition2.sheet"), &list, rates), due, "{rates:?}");
    }
    assert_eq!(cost(&sheet, &example("p10.list"), &[]), Err(Answer::NotAPlan));
    assert_eq!(cost(&sheet, &[], &[60, 60]), Err(Answer::BadList));
    assert_eq!(cost(&[], &list, &[]), Err(Answer::BadContents));
    assert_eq!(
        cost(&sheet, &list, &[]).unwrap_err().to_string(),
        "ANSWER 51 0: a rate is too high, or the rates are not one for each job"
    );
}

/// The sheet with this revision, which stands in bytes 30 and 31.
fn revised(sheet: &[u8], revision: u16) -> Vec<u8> {
    let mut bytes = sheet.to_vec();
    bytes[30..32].copy_from_slice(&revision.to_le_bytes());
    bytes
}

/// What is handed back is the slice itself, by its place and its length.
#[test]
fn the_sheet_that_counts_is_handed_back() {
    let p1 = example("p1-edition2.sheet");
    let place = |sheet: &[u8]| sheet.as_ptr_range();
    for (one, other) in [(1, 2), (255, 256), (32_767, 32_768), (0, 65_535)] {
        let (older, later) = (revised(&p1, one), revised(&p1, other));
        assert_eq!(newer(&older, &later).map(place), Ok(place(&later)), "{one} {other}");
        assert_eq!(newer(&later, &older).map(place), Ok(place(&later)), "{one} {other}");
        let again = later.clone();
        assert_eq!(newer(&later, &again).map(place), Ok(place(&later)), "{other}");
        assert_eq!(newer(&later, &later).map(place), Ok(place(&later)), "{other}");
    }
    let (server, corrected) =
        (example("wood-server.sheet"), example("corrected/wood-server.sheet"));
    assert_eq!(newer(&server, &corrected).map(place), Ok(place(&corrected)));
    let mut shorter = p1.clone();
    shorter[27] = 99;
    assert_eq!(newer(&p1, &shorter), Err(Answer::OtherBytes));
    let (first, none) = (example("p1.sheet"), &p1[..p1.len() - 1]);
    for other in [&first[..], &[], none] {
        assert_eq!(newer(&p1, other), Err(Answer::BadContents));
        assert_eq!(newer(other, &p1), Err(Answer::BadContents));
    }
    // The first sheet is tested first.
    let (mut facts, mut bounds) = (p1.clone(), p1.clone());
    facts[29] = 61;
    bounds[61] = 9;
    assert_eq!(newer(&facts, &bounds), Err(Answer::BadFacts));
    assert_eq!(newer(&bounds, &facts), Err(Answer::BadBounds));
    assert_eq!(
        newer(&p1, &shorter).unwrap_err().to_string(),
        "ANSWER 56 0: the two sheets have the same revision and other bytes"
    );
}
