//! A stand-in for the root of the crate er7: its modules, the error type, and the reading and writing of escapes.
//! There is no parser: messages are built through their public fields.
use std::fmt;

pub mod escape;
pub mod message;
pub mod path;
pub mod render;
pub mod separators;

pub use message::{Component, Field, Message, Repetition, Segment, Subcomponent};
pub use path::Path;
pub use render::RenderOptions;
pub use separators::{Separators, Terminator};

#[derive(Debug, Clone, PartialEq, Eq)]
pub enum Error {
    BadHeader(String),
    BadPath(String),
}

impl fmt::Display for Error {
    fn fmt(&self, f: &mut fmt::Formatter<'_>) -> fmt::Result {
        match self {
            Error::BadHeader(detail) => write!(f, "bad header: {detail}"),
            Error::BadPath(detail) => write!(f, "bad path: {detail}"),
        }
    }
}

impl std::error::Error for Error {}
