//! "Did you mean": a word among others that differs by case, plural, or one or two letters.

/// The candidate that the word is probably meant to be.
pub fn closest<'a>(word: &str, candidates: impl Iterator<Item = &'a str>) -> Option<&'a str> {
    let (word, candidates) = (folded(word), candidates.collect::<Vec<&str>>());
    let most = match word.chars().count() {
        0..=2 => 0,
        3..=4 => 1,
        _ => 2,
    };
    let near = candidates.iter().map(|other| (difference(&word, &folded(other)), *other));
    let best = near.min_by_key(|(difference, _)| *difference);
    let found = best.filter(|(difference, _)| *difference <= most).map(|(_, other)| other);
    found.or_else(|| only_one_with(&word, &candidates))
}

/// Without case, and with one sign for space, dash and line.
fn folded(word: &str) -> String {
    let sign = |c: char| if c.is_alphanumeric() { c } else { '-' };
    word.to_lowercase().chars().map(sign).collect()
}

fn singular(word: &str) -> &str {
    word.strip_suffix('s').unwrap_or(word)
}

/// Letters to change, add, drop or exchange; a plural is no difference at all.
fn difference(one: &str, other: &str) -> usize {
    if singular(one) == singular(other) {
        return 0;
    }
    let (a, b): (Vec<char>, Vec<char>) = (one.chars().collect(), other.chars().collect());
    let mut rows = vec![(0..=b.len()).collect::<Vec<usize>>()];
    for i in 1..=a.len() {
        let mut row = vec![i];
        for j in 1..=b.len() {
            let changed = rows[i - 1][j - 1] + usize::from(a[i - 1] != b[j - 1]);
            let mut least = changed.min(rows[i - 1][j] + 1).min(row[j - 1] + 1);
            if i > 1 && j > 1 && a[i - 1] == b[j - 2] && a[i - 2] == b[j - 1] {
                least = least.min(rows[i - 2][j - 2] + 1);
            }
            row.push(least);
        }
        rows.push(row);
    }
    rows[a.len()][b.len()]
}

/// The only candidate that has the word as one of its words.
fn only_one_with<'a>(word: &str, candidates: &[&'a str]) -> Option<&'a str> {
    let has = |other: &&&str| folded(other).split('-').any(|part| singular(part) == singular(word));
    let mut found = candidates.iter().filter(has);
    let first = found.next()?;
    (found.next().is_none() && word.chars().count() > 2).then_some(first)
}

#[cfg(test)]
mod tests {
    #[test]
    fn slips_are_seen() {
        let names = ["codes", "plot files", "curve_beech", "volume", "h"];
        let closest = |word| super::closest(word, names.into_iter());
        for (word, expected) in [
            ("Codes", "codes"),
            ("code", "codes"),
            ("coeds", "codes"),
            ("plot-files", "plot files"),
            ("Curve Beech", "curve_beech"),
            ("volme", "volume"),
            ("vloumes", "volume"),
            ("plots", "plot files"),
        ] {
            assert_eq!(closest(word), Some(expected), "{word}");
        }
        for word in ["x", "valuation", "no"] {
            assert_eq!(closest(word), None, "{word}");
        }
        assert_eq!(super::closest("curve", ["curve spruce", "curve beech"].into_iter()), None);
    }
}
