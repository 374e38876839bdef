//! Names in messages. A long name is cut, and for a misspelt name the nearest one is proposed.

use crate::notation::is_name;

/// The number of characters of a name that a message shows.
const SHOWN: usize = 40;

/// A name as a message shows it: its first line, or the beginning of that line.
pub fn cut(name: &str) -> String {
    let line = name.lines().next().unwrap_or("");
    let start: String = line.chars().take(SHOWN).collect();
    match start.len() < name.len() {
        true => format!("{start}..."),
        false => start,
    }
}

/// The name of a file as a message shows it. Of a long name, the message shows the end.
pub fn cut_file(name: &str) -> String {
    const SHOWN: usize = 60;
    let count = name.chars().count();
    match count > SHOWN {
        true => format!(
            "...{}",
            name.chars().skip(count - SHOWN).collect::<String>()
        ),
        false => name.to_string(),
    }
}

/// A name as text writes it: in quotation marks if it is not a word of small letters.
pub fn written(name: &str) -> String {
    match is_name(name) {
        true => name.to_string(),
        false => format!("\"{name}\""),
    }
}

/// A written name as a message shows it.
pub fn shown(name: &str) -> String {
    match is_name(name) {
        true => cut(name),
        false => format!("\"{}\"", cut(name)),
    }
}

/// What keeps a word from being a name in quotation marks, if anything does. A name of digits
/// would be a number in CSV.
pub fn unquotable(name: &str) -> Option<&'static str> {
    let is_digits = name.chars().all(|c| c.is_ascii_digit());
    if name.is_empty() {
        Some("there is nothing between these quotation marks")
    } else if is_digits {
        Some("a name in quotation marks has more than digits")
    } else if name.trim() != name {
        Some("a name in quotation marks has no blanks at its ends")
    } else {
        let control = name.chars().any(char::is_control);
        control.then_some("a name has no control characters")
    }
}

/// The name that a misspelt name probably means, if one is near. A near name differs in few
/// letters, without regard to capitals, or begins with the misspelt name.
pub fn nearest<'a>(wrong: &str, names: impl IntoIterator<Item = &'a str>) -> Option<&'a str> {
    let wrong: Vec<char> = wrong.to_lowercase().chars().collect();
    let near = names.into_iter().filter_map(|name| {
        let letters: Vec<char> = name.to_lowercase().chars().collect();
        let most = match wrong.len().max(letters.len()) {
            0..=2 => 0,
            3..=5 => 1,
            6..=8 => 2,
            _ => 3,
        };
        let goes_on = wrong.len() > 2 && letters.starts_with(&wrong);
        match letters.len().abs_diff(wrong.len()) <= most {
            true => Some(distance(&wrong, &letters)).filter(|&letters| letters <= most),
            false => goes_on.then_some(most + 1),
        }
        .map(|letters| (letters, name))
    });
    near.min().map(|(_, name)| name)
}

/// How many letters must be put in, left out or changed, or neighbours exchanged, to make
/// one word of another.
fn distance(a: &[char], b: &[char]) -> usize {
    let mut before: Vec<usize> = Vec::new();
    let mut row: Vec<usize> = (0..=b.len()).collect();
    for (i, x) in a.iter().enumerate() {
        let mut next = vec![i + 1];
        for (j, y) in b.iter().enumerate() {
            let mut least = (row[j] + usize::from(x != y)).min(row[j + 1] + 1);
            least = least.min(next[j] + 1);
            if i > 0 && j > 0 && *x == b[j - 1] && a[i - 1] == *y {
                least = least.min(before[j - 1] + 1);
            }
            next.push(least);
        }
        before = std::mem::replace(&mut row, next);
    }
    row[b.len()]
}

#[cfg(test)]
mod tests {
    use super::*;

    #[test]
    fn a_long_name_is_cut() {
        assert_eq!(cut("höhe"), "höhe");
        assert_eq!(cut(""), "");
        assert_eq!(cut(&"ä".repeat(40)), "ä".repeat(40));
        assert_eq!(cut(&"ä".repeat(41)), format!("{}...", "ä".repeat(40)));
        assert_eq!(cut("one\ntwo"), "one...");
        assert_eq!(cut_file(&"ä".repeat(60)), "ä".repeat(60));
        let long = format!("{}/map.txt", "folder".repeat(20));
        assert_eq!(cut_file(&long), format!("...{}", &long[long.len() - 60..]));
    }

    #[test]
    fn the_nearest_name_is_found() {
        let names = ["peaks", "interleaved", "rate", "ACE", "on", "off"];
        let near = |wrong| nearest(wrong, names);
        // A letter changed, left out, put in; two exchanged; capitals; a beginning.
        assert_eq!(near("peeks"), Some("peaks"));
        assert_eq!(near("interleavd"), Some("interleaved"));
        assert_eq!(near("ratee"), Some("rate"));
        assert_eq!(near("raet"), Some("rate"));
        assert_eq!(near("Peaks"), Some("peaks"));
        assert_eq!(near("ace"), Some("ACE"));
        assert_eq!(near("ON"), Some("on"));
        assert_eq!(near("inter"), Some("interleaved"));
        // Short names with another letter are other names.
        assert_eq!(near("an"), None);
        assert_eq!(near("oft"), Some("off"));
        assert_eq!(near("out"), None);
        assert_eq!(near("volume"), None);
        assert_eq!(near(""), None);
        assert_eq!(near(&"a".repeat(1_000_000)), None);
        assert_eq!(nearest("a", []), None);
    }
}
