//! RFCOMM: the pieces on each DLCI, the spans in them, and those that are frames.

use std::collections::HashMap;

use crate::pdus::Pdu;
use crate::signals::{asks_session, Key};
use lumbryth::{unpack, Account, Link, Refusal};

/// The most bytes that wait for their end marker.
const HELD_MAX: usize = 65_536;

/// How much came on a DLCI: over one connection, or over all.
#[derive(Debug, Clone, Copy, PartialEq, Eq, Default)]
pub struct Share {
    pub pieces: usize,
    /// From 3E through 3C.
    pub spans: usize,
    /// The spans that unpack.
    pub frames: usize,
    /// How many stretches and directions hold bytes without an end marker at the end.
    pub unfinished: usize,
    /// Where each byte of the pieces went.
    pub bytes: Account,
}

/// What two accounts come to.
fn together(mut one: Account, other: Account) -> Account {
    one.in_spans += other.in_spans;
    one.dropped += other.dropped;
    one.cleared += other.cleared;
    one.left += other.left;
    one
}

impl Share {
    /// So many bytes of a stretch and direction have no end marker.
    fn leave(&mut self, held: usize) {
        self.unfinished += usize::from(held > 0);
        self.bytes.left += held;
    }

    fn and(self, other: Share) -> Share {
        Share {
            pieces: self.pieces + other.pieces,
            spans: self.spans + other.spans,
            frames: self.frames + other.frames,
            unfinished: self.unfinished + other.unfinished,
            bytes: together(self.bytes, other.bytes),
        }
    }
}

/// A DLCI, and what came on it.
#[derive(Debug, Clone, PartialEq, Eq)]
pub struct Dlci {
    pub dlci: u8,
    /// Over all connections together.
    pub all: Share,
    /// Over each connection, in the order of their first pieces.
    pub links: Vec<(Link, Share)>,
    /// The spans that do not unpack, by the number of the refusal.
    pub refused: Vec<Refused>,
    /// How many UIH frames on it have a wrong FCS, with information or without, whether they are passed over or not.
    pub wrong_fcs: usize,
}

impl Dlci {
    /// Its RFCOMM channel.
    pub fn channel(&self) -> u8 {
        self.dlci / 2
    }
}

/// Spans that do not unpack for one reason.
#[derive(Debug, Clone, PartialEq, Eq)]
pub struct Refused {
    /// Of the first of them.
    pub refusal: Refusal,
    pub spans: usize,
}

enum Frame<'a> {
    /// Opens a DLCI.
    Sabm(u8),
    /// Carries information on a DLCI, or none; and whether its FCS is right.
    Uih(u8, &'a [u8], bool),
}

/// The FCS that a UIH frame should have, by its address and control.
fn fcs(address: u8, control: u8) -> u8 {
    let mut check = 0xFF;
    for byte in [address, control] {
        check ^= byte;
        for _ in 0..8 {
            check = check >> 1 ^ if check % 2 == 1 { 0xE0 } else { 0 };
        }
    }
    !check
}

/// The frame of a PDU, if it opens something or carries information.
fn frame(bytes: &[u8]) -> Option<Frame<'_>> {
    let (address, control) = (*bytes.first()?, *bytes.get(1)?);
    let dlci = address / 4;
    if matches!(control, 0x2F | 0x3F) {
        return Some(Frame::Sabm(dlci));
    }
    if !matches!(control, 0xEF | 0xFF) {
        return None;
    }
    let low = usize::from(*bytes.get(2)?);
    let (length, start) = match low % 2 {
        1 => (low / 2, 3),
        _ => (low / 2 + 128 * usize::from(*bytes.get(3)?), 4),
    };
    let start = start + usize::from(control == 0xFF);
    // The FCS has to be there too.
    let (check, information) = bytes.get(start..start + length + 1)?.split_last()?;
    Some(Frame::Uih(dlci, information, *check == fcs(address, control)))
}

/// How often a connection's session, and its link of each DLCI, was opened.
#[derive(Default)]
struct Opened {
    sessions: usize,
    links: HashMap<u8, usize>,
}

/// What is held for a connection, channel and DLCI, since a session and link were opened. Both only grow, so that what was held
/// before is never gone on with.
#[derive(Default)]
struct Buffer {
    opened: (usize, usize),
    held: Vec<u8>,
}

/// What is known so far.
#[derive(Default)]
pub struct Lines {
    /// Whether UIH frames with a wrong FCS are passed over.
    check_fcs: bool,
    /// How many there are on each DLCI.
    wrong_fcs: HashMap<u8, usize>,
    opened: HashMap<Link, Opened>,
    dlcis: Vec<Dlci>,
    /// Where a connection is among those of a DLCI.
    places: HashMap<(u8, Link), usize>,
    buffers: HashMap<(Link, Key, u8), Buffer>,
}

impl Lines {
    pub fn new(check_fcs: bool) -> Lines {
        Lines { check_fcs, ..Lines::default() }
    }

    /// Takes a PDU, which is tried as RFCOMM or not.
    pub fn pdu(&mut self, pdu: &Pdu, tried: bool) {
        let opened = self.opened.entry(pdu.link).or_default();
        if asks_session(pdu) {
            opened.sessions += 1;
            return;
        }
        match frame(&pdu.payload).filter(|_| tried) {
            Some(Frame::Sabm(0)) => opened.sessions += 1,
            Some(Frame::Sabm(dlci)) => *opened.links.entry(dlci).or_default() += 1,
            Some(Frame::Uih(dlci, information, right)) => {
                *self.wrong_fcs.entry(dlci).or_default() += usize::from(!right);
                if dlci != 0 && !information.is_empty() && (right || !self.check_fcs) {
                    let opened = (opened.sessions, opened.links.get(&dlci).copied().unwrap_or(0));
                    self.piece(pdu, dlci, opened, information);
                }
            }
            None => {}
        }
    }

    fn piece(&mut self, pdu: &Pdu, dlci: u8, opened: (usize, usize), information: &[u8]) {
        let place = self.dlcis.iter().position(|line| line.dlci == dlci).unwrap_or_else(|| {
            let (links, refused) = (Vec::new(), Vec::new());
            self.dlcis.push(Dlci { dlci, all: Share::default(), links, refused, wrong_fcs: 0 });
            self.dlcis.len() - 1
        });
        let line = &mut self.dlcis[place];
        let next = line.links.len();
        let link = *self.places.entry((dlci, pdu.link)).or_insert(next);
        if link == next {
            line.links.push((pdu.link, Share::default()));
        }
        let share = &mut line.links[link].1;
        share.pieces += 1;
        let buffer = self.buffers.entry((pdu.link, (pdu.direction, pdu.cid), dlci)).or_default();
        if buffer.opened != opened {
            share.leave(buffer.held.len());
            *buffer = Buffer { opened, held: Vec::new() };
        }
        let went = buffer.take(information, |wire| line.span(link, wire));
        let share = &mut line.links[link].1;
        share.bytes = together(share.bytes, went);
    }

    pub fn dlcis(mut self) -> Vec<Dlci> {
        for ((link, _, dlci), buffer) in &self.buffers {
            let line = self.dlcis.iter_mut().find(|line| line.dlci == *dlci);
            line.into_iter().for_each(|line| line.links[self.places[&(*dlci, *link)]].1.leave(buffer.held.len()));
        }
        for line in &mut self.dlcis {
            line.all = line.links.iter().fold(Share::default(), |all, (_, share)| all.and(*share));
            line.refused.sort_by_key(|refused| refused.refusal.number());
            line.wrong_fcs = self.wrong_fcs.get(&line.dlci).copied().unwrap_or(0);
        }
        self.dlcis
    }
}

impl Buffer {
    /// Takes the bytes of a piece, and gives each span that they complete. Tells how many bytes were dropped, went into spans and were
    /// cleared by it.
    fn take(&mut self, bytes: &[u8], mut span: impl FnMut(&[u8])) -> Account {
        let mut went = Account::default();
        for &byte in bytes {
            if self.held.is_empty() && byte != 0x3E {
                went.dropped += 1;
                continue;
            }
            self.held.push(byte);
            if byte == 0x3C {
                span(&self.held);
                went.in_spans += self.held.len();
                self.held.clear();
            }
        }
        if self.held.len() > HELD_MAX {
            went.cleared += self.held.len();
            self.held.clear();
        }
        went
    }
}

impl Dlci {
    /// A span that came over one of its connections, by the place of that.
    fn span(&mut self, link: usize, wire: &[u8]) {
        let share = &mut self.links[link].1;
        share.spans += 1;
        let Err(refusal) = unpack(wire) else {
            share.frames += 1;
            return;
        };
        match self.refused.iter_mut().find(|refused| refused.refusal.number() == refusal.number()) {
            Some(refused) => refused.spans += 1,
            None => self.refused.push(Refused { refusal, spans: 1 }),
        }
    }
}
