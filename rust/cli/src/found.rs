//! What is found in a trace: by an import, or of one link alone.

use std::fmt;

use crate::words::named;
use lumbryth::{one_link_with, Imported, Link, LinkList, Options, Refusal, Span, Stretch};

/// A connection and a DLCI, whose frames are asked for alone.
#[derive(Debug, Clone, Copy, PartialEq, Eq)]
pub struct Alone {
    pub link: Link,
    pub dlci: u8,
}

/// In words. The adapter is named also where a trace has no other, for it is asked for.
impl fmt::Display for Alone {
    fn fmt(&self, f: &mut fmt::Formatter<'_>) -> fmt::Result {
        write!(f, "{}, DLCI {}", named(self.link, true), self.dlci)
    }
}

impl Alone {
    /// Its list in a trace.
    pub fn list(self, file: &[u8], options: &Options) -> Result<LinkList, Refusal> {
        one_link_with(file, self.link, self.dlci, options)
    }
}

/// What is found.
pub enum List {
    /// By an import, with the stretches of its DLCI that are open at the end.
    Import(Imported, Vec<Stretch>),
    /// Of one link.
    Link(Alone, LinkList),
}

impl List {
    pub fn dlci(&self) -> u8 {
        match self {
            List::Import(imported, _) => imported.dlci,
            List::Link(alone, _) => alone.dlci,
        }
    }

    pub fn spans(&self) -> &[Span] {
        match self {
            List::Import(imported, _) => &imported.spans,
            List::Link(_, list) => &list.spans,
        }
    }

    pub fn unfinished(&self) -> usize {
        match self {
            List::Import(imported, _) => imported.unfinished,
            List::Link(_, list) => list.unfinished,
        }
    }
}
