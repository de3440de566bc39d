//! The known word that is nearest to one that is not known.

/// `; did you mean opening?`, where a word is near enough to be meant, and nothing where none is.
pub fn did_you_mean<'a>(word: &str, known: impl IntoIterator<Item = &'a str>) -> String {
    match nearest(word, known) {
        Some(known) => format!("; did you mean {known}?"),
        None => String::new(),
    }
}

/// The word at the least distance, if that is at most a third of the word, or one letter.
pub fn nearest<'a>(word: &str, known: impl IntoIterator<Item = &'a str>) -> Option<&'a str> {
    const LONGEST: usize = 100;
    let letters = folded(word);
    if letters.len() > LONGEST {
        return None;
    }
    let far = (letters.len() / 3).max(1);
    let distances = known.into_iter().map(|known| (distance(&letters, &folded(known)), known));
    distances
        .filter(|&(distance, _)| distance <= far)
        .min_by_key(|&(distance, _)| distance)
        .map(|(_, known)| known)
}

fn folded(word: &str) -> Vec<char> {
    word.to_lowercase().chars().collect()
}

/// How many letters must be put in, left out, changed, or exchanged with the next.
fn distance(a: &[char], b: &[char]) -> usize {
    let mut two_before = vec![0; b.len() + 1];
    let mut before: Vec<usize> = (0..=b.len()).collect();
    for i in 0..a.len() {
        let mut row = vec![i + 1; b.len() + 1];
        for j in 0..b.len() {
            let changed = before[j] + usize::from(a[i] != b[j]);
            row[j + 1] = changed.min(before[j + 1] + 1).min(row[j] + 1);
            if i > 0 && j > 0 && a[i] == b[j - 1] && a[i - 1] == b[j] {
                row[j + 1] = row[j + 1].min(two_before[j - 1] + 1);
            }
        }
        two_before = before;
        before = row;
    }
    before[b.len()]
}

#[cfg(test)]
mod tests {
    use super::*;

    #[test]
    fn near_words() {
        let known = ["opening", "mornings", "evenings", "in"];
        for (word, expected) in [
            ("openning", Some("opening")),
            ("Opening", Some("opening")),
            ("oepning", Some("opening")),
            ("evening", Some("evenings")),
            ("im", Some("in")),
            ("nights", None),
        ] {
            assert_eq!(nearest(word, known), expected, "{word}");
        }
        assert_eq!(did_you_mean("x", known), "");
        assert_eq!(did_you_mean("i", ["in"]), "; did you mean in?");
        assert_eq!(nearest(&"x".repeat(1000), known), None);
    }
}
