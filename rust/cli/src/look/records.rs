//! Records: what each says of its packet.

use crate::trace::Trace;
use lumbryth::Container;
use lumbryth::Direction::{self, Rx, Tx};

/// 1970 in a btsnoop file: microseconds since the year 0.
const EPOCH: u64 = 0x00dc_ddb3_0f2f_8000;

/// What a record's packet is.
#[derive(Debug, Clone, Copy, PartialEq, Eq)]
pub enum Kind<'a> {
    Command,
    Event,
    /// ACL data: the packet, without its type byte.
    Data(&'a [u8]),
    /// Anything else, which is passed over.
    Other,
}

/// A whole record.
#[derive(Debug, Clone, Copy, PartialEq, Eq)]
pub struct Record<'a> {
    /// Milliseconds since 1970.
    pub ms: u64,
    /// How many bytes stand behind the record's header; in pcap the direction is among them.
    pub length: usize,
    /// The adapter's index, if there is a packet of one: 0 but for datalink 2001. What else the Linux monitor writes may be of none.
    pub adapter: Option<u16>,
    /// Which way the packet went, if that is told.
    pub direction: Option<Direction>,
    pub kind: Kind<'a>,
}

impl<'a> Trace<'a> {
    /// The record that starts there.
    pub fn record(self, start: usize) -> Record<'a> {
        let (head, rest) = self.file[start..].split_at(self.container.record_header());
        let stored = |length: u32| &rest[..rest.len().min(length as usize)];
        match self.container {
            Container::Pcap => {
                let [seconds, fraction, length] = [0, 4, 8].map(|at| self.number(&head[at..]));
                let fraction = fraction / if self.is_nano() { 1_000_000 } else { 1000 };
                directed(1000 * u64::from(seconds) + u64::from(fraction), stored(length))
            }
            _ => {
                let time = u64::from(self.number(&head[16..])) << 32 | u64::from(self.number(&head[20..]));
                let ms = time.saturating_sub(EPOCH) / 1000;
                let (packet, flags) = (stored(self.number(&head[4..])), self.number(&head[8..]));
                match self.datalink() {
                    2001 => monitored(ms, flags, packet),
                    datalink => flagged(ms, flags, packet, datalink == 1002),
                }
            }
        }
    }
}

/// A record of link type 201: a direction, four bytes with the highest first, then the type byte of H4.
fn directed(ms: u64, stored: &[u8]) -> Record<'_> {
    let (direction, packet) = match stored.split_first_chunk() {
        Some(([0, 0, 0, 0], packet)) => (Some(Tx), packet),
        Some(([0, 0, 0, 1], packet)) => (Some(Rx), packet),
        _ => (None, &[][..]),
    };
    let kind = match packet.split_first() {
        Some((1, _)) => Kind::Command,
        Some((2, packet)) => Kind::Data(packet),
        Some((4, _)) => Kind::Event,
        _ => Kind::Other,
    };
    Record { ms, length: stored.len(), adapter: direction.map(|_| 0), direction, kind }
}

/// A record of the Linux monitor: a code below the adapter's index.
fn monitored(ms: u64, flags: u32, packet: &[u8]) -> Record<'_> {
    let (direction, kind) = match flags & 0xFFFF {
        2 => (Some(Tx), Kind::Command),
        3 => (Some(Rx), Kind::Event),
        4 => (Some(Tx), Kind::Data(packet)),
        5 => (Some(Rx), Kind::Data(packet)),
        _ => (None, Kind::Other),
    };
    Record { ms, length: packet.len(), adapter: direction.map(|_| (flags >> 16) as u16), direction, kind }
}

/// A record of datalink 1001, or of 1002, where the type byte of H4 comes first.
fn flagged(ms: u64, flags: u32, packet: &[u8], h4: bool) -> Record<'_> {
    let direction = if flags & 1 == 0 { Tx } else { Rx };
    let data = if h4 { packet.strip_prefix(&[2]) } else { Some(packet) };
    let kind = match direction {
        _ if flags & 2 == 0 => data.map_or(Kind::Other, Kind::Data),
        Tx => Kind::Command,
        Rx => Kind::Event,
    };
    Record { ms, length: packet.len(), adapter: Some(0), direction: Some(direction), kind }
}
