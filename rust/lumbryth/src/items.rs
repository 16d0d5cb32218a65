//! Lists of items, as the library reads and writes them: the body's length (4 bytes, lowest
//! first), a kind (2 bytes, lowest first), the body.

use crate::{Direction, Fixture, Span};

pub const NAME: u16 = 3;
pub const WIRE: u16 = 4;

fn push(list: &mut Vec<u8>, kind: u16, parts: &[&[u8]]) {
    let length = parts.iter().map(|part| part.len()).sum::<usize>();
    // A body whose length does not fit makes a list that is refused for its own length.
    list.extend(u32::try_from(length).unwrap_or(u32::MAX).to_le_bytes());
    list.extend(kind.to_le_bytes());
    for part in parts {
        list.extend_from_slice(part);
    }
}

pub fn of_spans(spans: &[Span]) -> Vec<u8> {
    let mut list = Vec::with_capacity(spans.iter().map(|span| 14 + span.wire.len()).sum());
    for span in spans {
        push(&mut list, u16::from(span.direction.number()), &[&span.ms.to_le_bytes(), &span.wire]);
    }
    list
}

pub fn of_names<N: AsRef<[u8]>>(names: &[N]) -> Vec<u8> {
    let mut list = Vec::new();
    for name in names {
        push(&mut list, NAME, &[name.as_ref()]);
    }
    list
}

/// The items of a list that the library wrote: kind and body.
struct Items<'a>(&'a [u8]);

impl<'a> Iterator for Items<'a> {
    type Item = (u16, &'a [u8]);

    fn next(&mut self) -> Option<Self::Item> {
        let (length, rest) = self.0.split_first_chunk()?;
        let (kind, rest) = rest.split_first_chunk()?;
        let (body, rest) = rest.split_at_checked(u32::from_le_bytes(*length) as usize)?;
        self.0 = rest;
        Some((u16::from_le_bytes(*kind), body))
    }
}

pub fn spans(list: &[u8]) -> Vec<Span> {
    let spans = Items(list).filter_map(|(kind, body)| {
        let direction = if kind == 1 { Direction::Rx } else { Direction::Tx };
        let (ms, wire) = body.split_first_chunk()?;
        Some(Span { direction, ms: u64::from_le_bytes(*ms), wire: wire.to_vec() })
    });
    spans.collect()
}

pub fn names(list: &[u8]) -> Vec<Vec<u8>> {
    Items(list).map(|(_, body)| body.to_vec()).collect()
}

/// A plan: names and wires take turns.
pub fn fixtures(list: &[u8]) -> Vec<Fixture> {
    let mut fixtures = Vec::new();
    let mut name = String::new();
    for (kind, body) in Items(list) {
        match kind {
            NAME => name = String::from_utf8_lossy(body).into_owned(),
            WIRE => fixtures.push(Fixture { name: std::mem::take(&mut name), wire: body.to_vec() }),
            // A plan has names and wires only.
            _ => {}
        }
    }
    fixtures
}
