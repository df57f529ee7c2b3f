//! A stand-in for the root of the crate er7-redact: its modules and the error type.
use std::fmt;

pub mod action;
mod days;
pub mod policy;
pub mod pseudonym;
pub mod redact;

pub use action::{Action, CustomAction};
pub use policy::{Policy, Posture, Rule, Unrecognised};
pub use pseudonym::pseudonym;
pub use redact::{Change, Redactor, Report};

#[derive(Debug, Clone, PartialEq, Eq)]
pub enum Error {
    BadPolicy(String),
    Er7(er7::Error),
}

impl From<er7::Error> for Error {
    fn from(e: er7::Error) -> Error {
        Error::Er7(e)
    }
}

impl fmt::Display for Error {
    fn fmt(&self, f: &mut fmt::Formatter<'_>) -> fmt::Result {
        match self {
            Error::BadPolicy(detail) => write!(f, "{detail}"),
            Error::Er7(e) => write!(f, "{e}"),
        }
    }
}

impl std::error::Error for Error {}

/// Every place at which a word stands in a text, overlapping ones too.
pub(crate) fn every_place<'a>(text: &'a str, word: &'a str) -> impl Iterator<Item = (usize, &'a str)> {
    let mut from = 0;
    std::iter::from_fn(move || {
        let i = from + text[from..].find(word)?;
        from = i + text[i..].chars().next().map_or(1, char::len_utf8);
        Some((i, word))
    })
}
