//! Packets with data, by the records of a trace.

use crate::records::Kind;
use crate::trace::Trace;
use lumbryth::{Direction, Link};

/// A packet: a fragment of a PDU.
pub struct Packet<'a> {
    pub link: Link,
    pub direction: Direction,
    /// Whether it starts a PDU; else it goes on with one.
    pub starts: bool,
    pub data: &'a [u8],
}

/// What a record holds.
pub enum Held<'a> {
    Packet(Packet<'a>),
    /// A packet with data that ends before one of its fields, or with less data than its length.
    Short,
    /// A command, an event, or anything else.
    Other,
}

/// A number of two bytes, the low one first.
pub fn le16(bytes: &[u8], at: usize) -> Option<u16> {
    bytes.get(at..at + 2).map(|bytes| u16::from_le_bytes([bytes[0], bytes[1]]))
}

/// What each record holds, by where the records start.
pub fn each<'a>(trace: Trace<'a>, starts: &'a [usize]) -> impl Iterator<Item = Held<'a>> + 'a {
    starts.iter().map(move |&start| {
        let record = trace.record(start);
        match (record.adapter, record.direction, record.kind) {
            (Some(adapter), Some(direction), Kind::Data(bytes)) => {
                fragment(adapter, direction, bytes).map_or(Held::Short, Held::Packet)
            }
            _ => Held::Other,
        }
    })
}

fn fragment(adapter: u16, direction: Direction, bytes: &[u8]) -> Option<Packet<'_>> {
    let (field, length) = (le16(bytes, 0)?, le16(bytes, 2)?);
    let data = bytes[4..].get(..usize::from(length))?;
    Some(Packet { link: Link { adapter, handle: field & 0x0FFF }, direction, starts: field >> 12 & 3 != 1, data })
}
