//! What is judged: records, PDUs, pieces of information, and the spans that they give.

use std::collections::BTreeMap;

use lumbryth::{Direction, Span};

/// A connection: an adapter's index, which is 0 but for the Linux monitor, and a handle.
pub type Link = (u16, u16);

/// A whole L2CAP PDU, at the record that completes it.
#[derive(Debug, Clone, PartialEq)]
pub struct Pdu {
    pub record: usize,
    pub direction: Direction,
    pub link: Link,
    pub ms: u64,
    pub bytes: Vec<u8>,
}

/// Information of a UIH frame.
#[derive(Debug, Clone, PartialEq)]
pub struct Piece {
    pub record: usize,
    pub direction: Direction,
    pub link: Link,
    pub cid: u16,
    pub dlci: u8,
    pub ms: u64,
    pub information: Vec<u8>,
    /// Whether the frame's FCS is right.
    pub right: bool,
}

/// What a reader sees in a trace.
#[derive(Debug, Default)]
pub struct Seen {
    pub records: usize,
    pub pdus: Vec<Pdu>,
    /// How many of the PDUs came in more than one fragment.
    pub joined: usize,
    pub pieces: Vec<Piece>,
    /// Each UIH frame whose FCS is wrong, with information or without: its record and its DLCI.
    pub wrong: Vec<(usize, u8)>,
}

/// The FCS that a UIH frame should have, by its address and control: the remainder by x^8 + x^2 + x + 1 of their bits, the lowest of
/// each byte first, begun with ones; its complement, the highest term in the lowest bit.
pub fn fcs(head: [u8; 2]) -> u8 {
    let mut rest = 0xFF_u8;
    for bit in head.iter().flat_map(|byte| (0..8).map(move |i| byte >> i & 1)) {
        let carry = rest >> 7 ^ bit;
        rest = (rest << 1) ^ (0x07 * carry);
    }
    (!rest).reverse_bits()
}

/// The spans that the pieces of a DLCI give, from 3E through 3C, and how many bytes there are of
/// each that is under way at the end.
pub fn spans(pieces: &[Piece], dlci: u8) -> (Vec<Span>, Vec<usize>) {
    let mut spans = Vec::new();
    let mut buffers: BTreeMap<(Link, u16, Direction), Vec<u8>> = BTreeMap::new();
    for piece in pieces.iter().filter(|piece| piece.dlci == dlci) {
        let buffer = buffers.entry((piece.link, piece.cid, piece.direction)).or_default();
        for &byte in &piece.information {
            if buffer.is_empty() && byte != 0x3E {
                continue;
            }
            buffer.push(byte);
            if byte == 0x3C {
                spans.push(Span::new(piece.direction, piece.ms, std::mem::take(buffer)));
            }
        }
    }
    (spans, buffers.values().map(Vec::len).filter(|held| *held > 0).collect())
}
