//! The words of a line, read as `trials` reads them.

/// The word at place `at`, the first being 0; nothing where there is none.
pub fn word(line: &str, at: usize) -> &str {
    line.split_whitespace().nth(at).unwrap_or("")
}

/// A number, 0 where the word is none.
pub fn number(text: &str) -> u32 {
    text.parse().unwrap_or(0)
}

/// The part before `mark`, and the number behind it.
pub fn parted<'a>(text: &'a str, mark: &str) -> (&'a str, u32) {
    match text.split_once(mark) {
        Some((name, index)) => (name, number(index)),
        None => (text, 0),
    }
}

/// The numbers behind the arrow.
pub fn types(line: &str) -> Vec<u32> {
    line.split_whitespace()
        .take_while(|each| *each != "/")
        .skip_while(|each| *each != "->")
        .skip(1)
        .map(number)
        .collect()
}

/// The marks behind the slash: is it `graph`?
pub fn marks(line: &str) -> Vec<bool> {
    line.split_whitespace().skip_while(|each| *each != "/").skip(1).map(|each| each == "graph").collect()
}
