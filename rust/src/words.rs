//! Words that messages share: counts, names, quotes, and what a plan's
//! numbers may be.

use crate::planner::MOST_BARRED;
use crate::reference::{MOST_CLASS, MOST_COST, MOST_EDGES, MOST_VERTICES};

/// A count with the name of what is counted.
pub fn count(number: usize, name: &str) -> String {
    let plural = if number == 1 { "" } else { "s" };
    format!("{number} {name}{plural}")
}

/// Rising numbers, where three or more follow one another the first and the
/// last of them.
pub fn ranges(numbers: &[u32]) -> String {
    let follows = |before: &u32, after: &u32| before + 1 == *after;
    let word = |run: &[u32]| match *run {
        [first, _, .., last] => format!("{first}-{last}"),
        _ => {
            let numbers: Vec<String> = run.iter().map(u32::to_string).collect();
            numbers.join(" ")
        }
    };
    let words: Vec<String> = numbers.chunk_by(follows).map(word).collect();
    words.join(" ")
}

/// A word between quotes, characters that nobody sees spelt out, its first
/// 40 if it is long.
pub fn quoted(word: &str) -> String {
    let mut shown = String::new();
    for letter in word.chars().take(40) {
        match letter {
            '\'' | '"' | '\\' => shown.push(letter),
            _ => shown.extend(letter.escape_debug()),
        }
    }
    let more = if word.chars().count() > 40 { ".." } else { "" };
    format!("'{shown}'{more}")
}

/// What a table is called: 0 is the anchor table.
pub fn table_name(table: usize) -> String {
    match table {
        0 => "the anchor table".into(),
        guide => format!("guide {guide}"),
    }
}

/// The classes whose bits a barred number has.
pub fn classes_of(barred: u32) -> Vec<u32> {
    (0..=MOST_CLASS)
        .filter(|class| barred >> class & 1 == 1)
        .collect()
}

/// Classes by their name and numbers.
pub fn class_words(classes: &[u32]) -> String {
    let named: Vec<String> = classes.iter().map(u32::to_string).collect();
    let plural = if classes.len() == 1 { "" } else { "es" };
    format!("class{plural} {}", named.join(", "))
}

/// What a job bars, with the count of its lanes that are barred; nothing is
/// said of a job that bars nothing.
pub fn barred_words(barred: u32, lanes: usize) -> String {
    let classes = classes_of(barred);
    let (named, lanes) = (class_words(&classes), count(lanes, "lane"));
    match classes.len() {
        0 => String::new(),
        1 => format!("; {named} is barred, {lanes}"),
        _ => format!("; {named} are barred, {lanes}"),
    }
}

/// Which guides have no opinion on any place; nothing is said where all have
/// one.
pub fn opinion_words(guides: &[usize]) -> String {
    let named: Vec<String> = guides.iter().map(usize::to_string).collect();
    let named = named.join(", ");
    match guides.len() {
        0 => String::new(),
        1 => format!("; guide {named} has no opinion on any place: all its turns go to the anchor"),
        _ => format!(
            "; guides {named} have no opinion on any place: all their turns go to the anchor"
        ),
    }
}

/// A tail, head, start or goal that is none of the places.
pub fn not_a_place(name: &str, place: u32, places: u32) -> String {
    let range = match places {
        0 => "there are no places".into(),
        1 => "the only place is 0".into(),
        _ => format!("places are 0 to {}", places - 1),
    };
    format!("{name} {place} is not a place; {range}")
}

pub fn wrong_place_count(places: u32) -> String {
    format!("a plan has 1 to {MOST_VERTICES} places, not {places}")
}

pub fn too_many_lanes(lanes: usize) -> String {
    format!("a plan has at most {MOST_EDGES} lanes, not {lanes}")
}

pub fn too_dear(cost: u32) -> String {
    format!("cost {cost} is above {MOST_COST}")
}

pub fn no_class(class: u32) -> String {
    format!("class {class} is above {MOST_CLASS}")
}

pub fn no_barred_number(barred: u32) -> String {
    format!("barred {barred} is above {MOST_BARRED}; it has bit k for class k, classes 0 to 7")
}

#[cfg(test)]
mod tests {
    use super::ranges;

    #[test]
    fn numbers_that_follow_one_another() {
        for (numbers, words) in [
            (&[][..], ""),
            (&[7], "7"),
            (&[0, 1], "0 1"),
            (&[0, 1, 2], "0-2"),
            (&[0, 2, 4], "0 2 4"),
            (&[0, 1, 3, 4, 5, 6, 9], "0 1 3-6 9"),
            (&[4_093, 4_094, 4_095], "4093-4095"),
        ] {
            assert_eq!(ranges(numbers), words);
        }
    }
}
