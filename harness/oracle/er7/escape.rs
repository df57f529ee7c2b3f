//! A stand-in for the module escape of er7, after the specification.
use crate::Separators;
use std::borrow::Cow;

/// "an escape character pairs with the next one; where the letter between two escape characters is F, S, T, R or E, the run is the
/// field, component, subcomponent, repetition or escape delimiter. Any other pair, and an unpaired one with all that follows it, stands
/// for itself."
pub fn unescape<'a>(raw: &'a str, separators: &Separators) -> Cow<'a, str> {
    if !raw.contains(separators.escape) {
        return Cow::Borrowed(raw);
    }
    let mut value = String::with_capacity(raw.len());
    let mut rest = raw;
    while let Some((before, behind)) = rest.split_once(separators.escape) {
        value.push_str(before);
        let Some((between, further)) = behind.split_once(separators.escape) else {
            rest = &rest[before.len()..];
            break;
        };
        match between {
            "F" => value.push(separators.field),
            "S" => value.push(separators.component),
            "T" => value.push(separators.subcomponent),
            "R" => value.push(separators.repetition),
            "E" => value.push(separators.escape),
            _ => {
                value.push(separators.escape);
                value.push_str(between);
                value.push(separators.escape);
            }
        }
        rest = further;
    }
    value.push_str(rest);
    Cow::Owned(value)
}

/// "Writing: each of the five delimiters becomes such a run."
pub fn escape<'a>(value: &'a str, separators: &Separators) -> Cow<'a, str> {
    let letter = |c: char| match c {
        c if c == separators.field => Some('F'),
        c if c == separators.component => Some('S'),
        c if c == separators.subcomponent => Some('T'),
        c if c == separators.repetition => Some('R'),
        c if c == separators.escape => Some('E'),
        _ => None,
    };
    if !value.contains(|c| letter(c).is_some()) {
        return Cow::Borrowed(value);
    }
    let mut raw = String::with_capacity(value.len() + 8);
    for c in value.chars() {
        match letter(c) {
            Some(letter) => raw.extend([separators.escape, letter, separators.escape]),
            None => raw.push(c),
        }
    }
    Cow::Owned(raw)
}
