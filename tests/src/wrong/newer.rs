//! Wrong ways to say which sheet counts: the model of N11 with one thing changed.

use crate::cases::rewriting::GAP_AT;
use crate::model::sheet::{self, Edition};
use crate::newer_model::Verdict::{
    self, BadFirst, BadSecond, FirstHigher, OtherBytes, SameBytes, SecondHigher,
};
use crate::newer_model::{revision, verdict, Manner, RIGHT};
use crate::Handed;

pub fn of_two_sheets() -> Vec<(&'static str, Manner)> {
    [wrong_revisions(), wrong_bytes(), wrong_forms(), wrong_numbers(), wrong_parts()].concat()
}

fn wrong_revisions() -> Vec<(&'static str, Manner)> {
    let comparing = |compare| Manner { compare, ..RIGHT };
    vec![
        ("the lower revision", comparing(|one, other| other.cmp(&one))),
        ("big-endian revisions", comparing(|one, other| one.swap_bytes().cmp(&other.swap_bytes()))),
        ("signed revisions", comparing(|one, other| (one as i16).cmp(&(other as i16)))),
        (
            "revisions that start again behind the last",
            comparing(|one, other| (one.wrapping_sub(other) as i16).cmp(&0)),
        ),
        ("the low byte of the revision", comparing(|one, other| (one as u8).cmp(&(other as u8)))),
        ("the high byte of the revision", comparing(|one, other| (one >> 8).cmp(&(other >> 8)))),
    ]
}

fn wrong_bytes() -> Vec<(&'static str, Manner)> {
    let taking = |same| Manner { same, ..RIGHT };
    let saying = |says| Manner { says, ..RIGHT };
    vec![
        ("any bytes are the same", taking(|_, _| true)),
        ("no bytes are the same", taking(|_, _| false)),
        ("lengths alone", taking(|a, b| a.len() == b.len())),
        ("the last byte not compared", taking(|a, b| a[..a.len() - 1] == b[..b.len() - 1])),
        ("64 bytes compared", taking(|a, b| a.iter().take(64).eq(b.iter().take(64)))),
        ("gaps that plan alike", taking(|a, b| default_gap(a) == default_gap(b))),
        (
            "the second of two equal sheets",
            saying(|_, _, v| if v == SameBytes { SecondHigher } else { v }),
        ),
        ("the longer of two others", saying(longer)),
        (
            "other revisions of other lengths",
            saying(|a, b, v| if v.number() == 0 && a.len() != b.len() { OtherBytes } else { v }),
        ),
        ("other revisions of other contents", saying(|a, b, v| only_contents(a, b, v, false))),
        ("other revisions of the same contents", saying(|a, b, v| only_contents(a, b, v, true))),
    ]
}

/// Where gap byte 2 is taken for 0, which stands for it.
fn default_gap(sheet: &[u8]) -> Vec<u8> {
    let mut sheet = sheet.to_vec();
    if sheet[GAP_AT] == 2 {
        sheet[GAP_AT] = 0;
    }
    sheet
}

/// Other revisions are refused where the contents but for them are the same, or where they are not.
fn only_contents(first: &[u8], second: &[u8], due: Verdict, same: bool) -> Verdict {
    let contents = |sheet: &[u8]| [&sheet[..=GAP_AT], &sheet[GAP_AT + 3..]].concat();
    match due {
        FirstHigher | SecondHigher if (contents(first) == contents(second)) == same => OtherBytes,
        due => due,
    }
}

fn longer(first: &[u8], second: &[u8], due: Verdict) -> Verdict {
    match due {
        OtherBytes if first.len() > second.len() => FirstHigher,
        OtherBytes if first.len() < second.len() => SecondHigher,
        due => due,
    }
}

fn wrong_forms() -> Vec<(&'static str, Manner)> {
    let reading = |read| Manner { read, ..RIGHT };
    let saying = |says| Manner { says, ..RIGHT };
    vec![
        ("edition 1 read", reading(|bytes| sheet::read(bytes).map(|sheet| revision(&sheet)))),
        ("edition 1 refused behind 11 to 14", reading(edition_last)),
        ("10 for every fault", reading(|bytes| (RIGHT.read)(bytes).map_err(|_| 10))),
        ("14 not tested", reading(|bytes| (RIGHT.read)(bytes).or_else(without_14))),
        (
            "the second sheet tested first",
            saying(|a, b, v| match verdict(b, a) {
                BadFirst(number) => BadSecond(number),
                _ => v,
            }),
        ),
        (
            "the lower number of both",
            saying(|a, b, v| match (v, verdict(b, a)) {
                (BadFirst(one), BadFirst(other)) => BadFirst(one.min(other)),
                _ => v,
            }),
        ),
        (
            "the second sheet not tested",
            saying(|_, _, v| match v {
                BadSecond(_) => FirstHigher,
                v => v,
            }),
        ),
        (
            "the first sheet not tested",
            saying(|a, b, v| match (v, verdict(b, a)) {
                (BadFirst(_), BadFirst(number)) => BadSecond(number),
                (BadFirst(_), _) => SecondHigher,
                _ => v,
            }),
        ),
        ("contents before form", saying(|a, b, v| if a == b { SameBytes } else { v })),
        (
            "56 before the second's form",
            saying(|_, b, v| match v {
                BadSecond(11..) if b.len() > GAP_AT => OtherBytes,
                v => v,
            }),
        ),
    ]
}

/// Edition 1 is a fault that comes last.
fn edition_last(bytes: &[u8]) -> Result<u16, u8> {
    let sheet = sheet::read(bytes)?;
    if sheet.edition == Edition::One {
        return Err(10);
    }
    Ok(revision(&sheet))
}

fn without_14(number: u8) -> Result<u16, u8> {
    if number == 14 {
        Ok(0)
    } else {
        Err(number)
    }
}

fn wrong_numbers() -> Vec<(&'static str, Manner)> {
    let saying = |number| Manner { number, ..RIGHT };
    vec![
        ("50 for other bytes", saying(|v| if v == OtherBytes { 50 } else { v.number() })),
        ("0 for other bytes", saying(|v| if v == OtherBytes { 0 } else { v.number() })),
        ("56 for the same bytes", saying(|v| if v == SameBytes { 56 } else { v.number() })),
    ]
}

fn wrong_parts() -> Vec<(&'static str, Manner)> {
    let storing = |stores| Manner { stores, ..RIGHT };
    vec![
        (
            "a part with 56",
            storing(|v, due, _| if v == OtherBytes { Handed { part_len: 1, ..due } } else { due }),
        ),
        (
            "the part without its last byte",
            storing(|_, due, _| Handed { part_len: due.part_len.saturating_sub(1), ..due }),
        ),
        (
            "the length not stored",
            storing(|_, due, from| Handed { part_len: from.part_len, ..due }),
        ),
        ("which not stored", storing(|_, due, from| Handed { which: from.which, ..due })),
        ("the detail not stored", storing(|_, due, from| Handed { detail: from.detail, ..due })),
        (
            "nothing stored with 56",
            storing(|v, due, from| if v == OtherBytes { from } else { due }),
        ),
        (
            "nothing stored with a fault",
            storing(
                |v, due, from| if matches!(v, BadFirst(_) | BadSecond(_)) { from } else { due },
            ),
        ),
        ("the length as the detail", storing(|_, due, _| Handed { detail: due.part_len, ..due })),
        ("2 for the second", storing(|_, due, _| Handed { which: 2 * due.which, ..due })),
        (
            "which of the ill-formed sheet",
            storing(|v, due, _| match v {
                BadSecond(_) => Handed { which: 1, ..due },
                _ => due,
            }),
        ),
    ]
}
