//! Honest recordings, as documents 01 and 02 have them, with what is left at each cut known
//! from the making: nothing here reads a file back.

use std::collections::{BTreeMap, VecDeque};

use crate::answer::{Answer, Container};
use crate::codec;
use crate::fcs;
use crate::items;
use crate::model::packed;
use crate::rng::Rng;
use crate::trace::{self, Trace};
use oracle::capture::Direction::{self, Rx, Tx};

/// A data PDU, at the record that completes it.
struct Brought {
    /// Where that record ends.
    end: usize,
    ms: u64,
    /// Link and direction.
    link: usize,
    direction: Direction,
    /// The frames whose closing 3C it brings.
    frames: Vec<Vec<u8>>,
    /// How many bytes of the direction then stand behind the last closing 3C.
    behind: usize,
}

/// What the FCS bytes of a recording are.
#[derive(Clone, Copy, PartialEq)]
pub enum Sums {
    /// One for all. Honest with the switch off.
    Same,
    /// Left to chance. Honest with the switch off.
    Chance,
    /// Right in the data, and left to chance elsewhere. Honest in both positions of the switch.
    Right,
    /// The same, and between the data come frames with a wrong FCS, with data on both DLCIs of the channel. Honest with the
    /// switch on.
    Noisy,
}

pub struct Honest {
    pub file: Vec<u8>,
    /// Where the first record starts.
    pub head: usize,
    pub dlci: u8,
    pub ends: Vec<usize>,
    sums: Sums,
    brought: Vec<Brought>,
    /// Where the frames of the links end that are on the DLCI and have a wrong FCS.
    wrong: Vec<usize>,
    /// Whether there are no others: such as are tried in one cut and not in another.
    all_known: bool,
}

impl Honest {
    pub fn channel(&self) -> u32 {
        u32::from(self.dlci / 2)
    }

    /// Whether the recording is honest with the switch in this position.
    pub fn holds(&self, checks: bool) -> bool {
        match self.sums {
            Sums::Same | Sums::Chance => !checks,
            Sums::Right => true,
            Sums::Noisy => checks,
        }
    }

    /// How many frames with a wrong FCS are counted in the first `n` bytes, if that is known.
    pub fn wrong(&self, n: usize) -> Option<u64> {
        let known = self.all_known && [Sums::Right, Sums::Noisy].contains(&self.sums);
        known.then(|| self.wrong.iter().filter(|end| **end <= n).count() as u64)
    }

    /// How many records are left in the first `n` bytes.
    pub fn records(&self, n: usize) -> u64 {
        self.ends.iter().filter(|end| **end <= n).count() as u64
    }

    /// What tolerant import answers for the first `n` bytes, if no frame with a wrong FCS is counted. Every byte is in a
    /// frame that is left, or stands behind the last of its direction.
    pub fn left(&self, n: usize) -> Answer {
        let tail = self.ends.iter().copied().take_while(|&end| end <= n).last().unwrap_or(self.head);
        let mut frames = Vec::new();
        let mut midway: BTreeMap<(usize, usize), usize> = BTreeMap::new();
        for pdu in self.brought.iter().filter(|pdu| pdu.end <= n) {
            frames.extend(pdu.frames.iter().map(|wire| (pdu.ms, pdu.direction, wire.clone())));
            midway.insert((pdu.link, way(pdu.direction)), pdu.behind);
        }
        midway.retain(|_, behind| *behind > 0);
        if frames.is_empty() {
            return Answer::refused(6, &[]);
        }
        let wires: usize = frames.iter().map(|(_, _, wire)| wire.len()).sum();
        let values = [self.dlci.into(), frames.len(), midway.len(), tail, 0].map(|v: usize| v as u64);
        let bytes = [wires as u64, 0, 0, midway.values().sum::<usize>() as u64];
        Answer::imported(values, bytes, items::span_list(&frames))
    }
}

/// A PDU to send: the bytes, the data it brings once complete, whether it is the
/// response that the other direction waits for, and whether it is on the DLCI and has a wrong FCS.
struct Sending {
    bytes: Vec<u8>,
    data: Option<(Vec<Vec<u8>>, usize)>,
    answers: bool,
    wrong: bool,
}

fn plain(cid: u16, payload: &[u8]) -> Sending {
    Sending { bytes: trace::l2cap(cid, payload), data: None, answers: false, wrong: false }
}

/// A UIH frame whose FCS nobody asks for.
fn any_fcs(rng: &mut Rng, sums: Sums, dlci: u8, information: &[u8], credit: Option<u8>, wide: bool) -> Vec<u8> {
    if sums == Sums::Same {
        return trace::with_fcs(trace::uih(dlci, information, credit, wide), trace::SAME);
    }
    let frame = trace::framed(dlci << 2 | rng.pick(&[1, 3, 3]), information, credit, wide);
    if rng.percent(50) {
        return frame;
    }
    let fcs = trace::wrong_fcs(rng, &frame);
    trace::with_fcs(frame, fcs)
}

/// The same, sent on a CID.
fn any_frame(rng: &mut Rng, sums: Sums, cid: u16, dlci: u8, information: &[u8], credit: Option<u8>) -> Sending {
    plain(cid, &any_fcs(rng, sums, dlci, information, credit, false))
}

/// The PDU under way, what is left of it to send, and whether it has begun.
type Open = (Sending, VecDeque<Vec<u8>>, bool);

/// One link: its adapter's index and handle, its CIDs (Rx first), what has to be complete before any of its data, and
/// what each way then sends.
struct Link {
    pair: (u16, u16),
    cids: [u16; 2],
    setup: VecDeque<(Direction, Sending)>,
    sending: [VecDeque<Sending>; 2],
    open: [Option<Open>; 2],
    begun: bool,
    /// A direction whose channel is admitted only by a response still to come.
    held: Option<Direction>,
}

/// How large a recording is.
#[derive(Clone, Copy)]
pub struct Scale {
    pub links: usize,
    pub frames: usize,
    pub payload: usize,
    pub piece: usize,
    pub fragment: usize,
}

pub const SMALL: Scale = Scale { links: 3, frames: 4, payload: 6, piece: 25, fragment: 12 };
pub const LARGE: Scale = Scale { links: 4, frames: 400, payload: 900, piece: 900, fragment: 500 };

fn way(direction: Direction) -> usize {
    usize::from(direction == Tx)
}

fn frame(rng: &mut Rng, payload: usize) -> Vec<u8> {
    let n = rng.below(payload + 1);
    let percent = rng.pick(&[5, 40, 100]);
    let payload = rng.mixed(n, &codec::BYTES, percent);
    packed(rng.pick(&[0x01, 0x0C, 0x0E, 0x3D, 0x77]), rng.byte(), &payload)
}

/// The data PDUs of one direction: its frames and a partial one, cut into pieces
/// anywhere.
fn data_pdus(
    rng: &mut Rng,
    sums: Sums,
    (cid, dlci): (u16, u8),
    frames: &[Vec<u8>],
    partial: &[u8],
    piece: usize,
) -> VecDeque<Sending> {
    let stream: Vec<u8> = frames.concat().into_iter().chain(partial.iter().copied()).collect();
    let mut closings = Vec::new();
    for wire in frames {
        closings.push(closings.last().copied().unwrap_or(0) + wire.len());
    }
    let mut pdus = VecDeque::new();
    let mut at = 0;
    while at < stream.len() {
        let n = rng.within(1, piece).min(stream.len() - at);
        let closed = (0..frames.len()).filter(|&i| at < closings[i] && closings[i] <= at + n);
        let brought = closed.map(|i| frames[i].clone()).collect();
        let information = &stream[at..at + n];
        at += n;
        let behind = at - closings.iter().copied().rfind(|&end| end <= at).unwrap_or(0);
        let credit = if rng.percent(20) { Some(rng.byte()) } else { None };
        let wide = n > 127 || rng.percent(20);
        let frame = match sums {
            Sums::Same | Sums::Chance => any_fcs(rng, sums, dlci, information, credit, wide),
            Sums::Right | Sums::Noisy => trace::framed(dlci << 2 | rng.pick(&[1, 3]), information, credit, wide),
        };
        let bytes = trace::l2cap(cid, &frame);
        pdus.push_back(Sending { bytes, data: Some((brought, behind)), answers: false, wrong: false });
    }
    pdus
}

/// PDUs that the rules leave free on a link: nothing that adds to its sessions or
/// links on the DLCI, and no data on either DLCI of its channel, but with a wrong FCS where that is checked.
fn free_pdu(rng: &mut Rng, sums: Sums, cid: u16, dlci: u8) -> Sending {
    if sums == Sums::Noisy && rng.percent(50) {
        return wrong_pdu(rng, cid, dlci);
    }
    let other = loop {
        let other = rng.pick(&[1, 2, 3, 18, 19, 40, 63]);
        if other / 2 != dlci / 2 {
            break other;
        }
    };
    match rng.below(7) {
        0 => any_frame(rng, sums, cid, other, &packed(0x0C, 7, &[0x22]), None),
        1 => {
            let frame = any_fcs(rng, sums, dlci, &[], Some(3), false);
            let wrong = frame.last() != Some(&fcs::right(frame[0], frame[1]));
            Sending { wrong, ..plain(cid, &frame) }
        }
        2 => any_frame(rng, sums, cid, 0, &[0xE3, 0x05, 0x3E], None),
        3 => plain(cid, &trace::sabm(other)),
        4 => plain(cid, &[dlci << 2 | 1, rng.pick(&[0x63, 0x73, 0x0F, 0x53]), 1, 0]),
        5 => any_frame(rng, sums, 2, dlci, &packed(0x0C, 9, &[]), None),
        _ => plain(cid, &[]),
    }
}

/// A UIH frame with a wrong FCS on a DLCI of the channel, with a frame, with parts of one, or empty.
fn wrong_pdu(rng: &mut Rng, cid: u16, dlci: u8) -> Sending {
    let own = rng.percent(75);
    let wire = packed(0x0C, 4, &[0x22]);
    let information = match rng.below(6) {
        0 => &wire[..],
        1 => &wire[..5],
        2 => &wire[5..],
        3 => &[0x3E],
        4 => &[0x3C],
        _ => &[],
    };
    let credit = if rng.percent(30) { Some(rng.byte()) } else { None };
    let address = (if own { dlci } else { dlci ^ 1 }) << 2 | rng.pick(&[1, 3]);
    let frame = trace::framed(address, information, credit, rng.percent(20));
    let fcs = trace::wrong_fcs(rng, &frame);
    Sending { wrong: own, ..plain(cid, &trace::with_fcs(frame, fcs)) }
}

/// PDUs that may come before a link's first data: sessions and links begin.
fn before(rng: &mut Rng, sums: Sums, cids: [u16; 2], dlci: u8) -> (Direction, Sending) {
    let direction = rng.pick(&[Rx, Tx]);
    let cid = cids[way(direction)];
    let sending = match rng.below(4) {
        0 => plain(cid, &trace::sabm(0)),
        1 => plain(cid, &trace::sabm(dlci)),
        2 => plain(1, &trace::command(2, 9, &[3, 0])),
        _ => free_pdu(rng, sums, cid, dlci),
    };
    (direction, sending)
}

fn link(rng: &mut Rng, sums: Sums, pair: (u16, u16), dlci: u8, scale: Scale) -> Link {
    let cids = [rng.pick(&[0x40, 0x41, 0x42, 0xFFFF]), rng.pick(&[0x40, 0x41, 0x1234])];
    let mut setup = VecDeque::new();
    let mut late = [VecDeque::new(), VecDeque::new()];
    let mut held = None;
    let announced = rng.percent(60);
    for _ in 0..rng.pick(&[0, 0, 1, 3]) {
        setup.push_back(before(rng, sums, cids, dlci));
    }
    if announced {
        // The request's source is the CID of data to its sender; the response's
        // destination that of data from it.
        let asking = rng.pick(&[Rx, Tx]);
        let answering = if asking == Rx { Tx } else { Rx };
        let (source, destination) = (cids[way(answering)], cids[way(asking)]);
        let mut request = trace::request(3, source);
        if rng.percent(30) {
            request.extend(trace::command(0x0A, 2, &[2, 0]));
        }
        setup.push_back((asking, plain(1, &request)));
        if rng.percent(30) {
            setup.push_back((answering, plain(1, &trace::response(0, source, 1))));
        }
        let response = plain(1, &trace::response(destination, source, 0));
        if rng.percent(25) {
            held = Some(asking);
            late[way(answering)].push_back(Sending { answers: true, ..response });
        } else {
            setup.push_back((answering, response));
        }
        for _ in 0..rng.pick(&[0, 0, 1, 2]) {
            setup.push_back(before(rng, sums, cids, dlci));
        }
    }
    let mut sending = late;
    for direction in [Rx, Tx] {
        let mut frames: Vec<Vec<u8>> = (0..rng.below(scale.frames + 1)).map(|_| frame(rng, scale.payload)).collect();
        frames.retain(|wire| wire.len() <= 65_536);
        let mut partial = Vec::new();
        if rng.percent(50) {
            partial = frame(rng, scale.payload);
            partial.truncate(rng.within(1, partial.len().min(65_536) - 1));
        }
        let cid = cids[way(direction)];
        for pdu in data_pdus(rng, sums, (cid, dlci), &frames, &partial, scale.piece) {
            if rng.percent(20) {
                sending[way(direction)].push_back(free_pdu(rng, sums, cid, dlci));
            }
            sending[way(direction)].push_back(pdu);
        }
    }
    Link { pair, cids, setup, sending, open: [None, None], begun: false, held }
}

/// The parts of a PDU, each of at least one byte.
fn fragments(rng: &mut Rng, bytes: &[u8], most: usize) -> VecDeque<Vec<u8>> {
    let mut parts = VecDeque::new();
    let mut rest = bytes;
    while !rest.is_empty() {
        let n = if rng.percent(30) { rest.len() } else { rng.within(1, most).min(rest.len()) };
        parts.push_back(rest[..n].to_vec());
        rest = &rest[n..];
    }
    parts
}

/// A recording being made.
struct Maker<'a> {
    rng: &'a mut Rng,
    trace: Trace,
    sums: Sums,
    brought: Vec<Brought>,
    wrong: Vec<usize>,
    all_known: bool,
    dlci: u8,
    scale: Scale,
    /// Whether other adapters ask for PSM 3. If not, no response admits a channel of theirs.
    asking: bool,
}

impl<'a> Maker<'a> {
    fn new(rng: &'a mut Rng, trace: Trace, sums: Sums, dlci: u8, scale: Scale, asking: bool) -> Maker<'a> {
        let (brought, wrong) = (Vec::new(), Vec::new());
        Maker { rng, trace, sums, brought, wrong, all_known: true, dlci, scale, asking }
    }

    /// What was recorded.
    fn recording(self) -> Honest {
        let (head, _) = self.trace.heads();
        let Maker { trace, sums, brought, wrong, all_known, dlci, .. } = self;
        Honest { file: trace.file, head, dlci, ends: trace.ends, sums, brought, wrong, all_known }
    }

    /// A PDU that is free, by others than the links. Whether such a one is tried depends on the cut.
    fn free_bytes(&mut self, cid: u16) -> Vec<u8> {
        let sending = free_pdu(self.rng, self.sums, cid, self.dlci);
        self.all_known &= !sending.wrong;
        sending.bytes
    }

    /// A frame with data on the DLCI, of a PDU that is never tried.
    fn untried(&mut self, wire: &[u8]) -> Vec<u8> {
        any_fcs(self.rng, self.sums, self.dlci, wire, None, false)
    }

    /// Sends one fragment of what a link has to send one way, if there is one.
    fn step(&mut self, index: usize, link: &mut Link) {
        let direction = self.rng.pick(&[Rx, Tx]);
        let i = way(direction);
        if link.open[i].is_none() {
            // All of the setup is complete before anything else begins.
            let idle = link.open.iter().all(Option::is_none);
            let next = if link.setup.is_empty() && (link.begun || idle) {
                link.begun = true;
                if link.held == Some(direction) {
                    None
                } else {
                    link.sending[i].pop_front()
                }
            } else if idle && link.setup.front().is_some_and(|(d, _)| *d == direction) {
                link.setup.pop_front().map(|(_, sending)| sending)
            } else {
                None
            };
            let Some(sending) = next else { return };
            let parts = fragments(self.rng, &sending.bytes, self.scale.fragment);
            link.open[i] = Some((sending, parts, false));
        }
        let Some((sending, mut parts, begun)) = link.open[i].take() else { return };
        let part = parts.pop_front().expect("a PDU under way has bytes left");
        let flag = if begun { 1 } else { self.rng.pick(&[0, 2, 3]) };
        let stamp = trace::stamp(self.rng);
        let mut packet = trace::acl_packet(link.pair.1, flag, &part);
        if self.rng.percent(10) {
            packet.extend([0x3E, 0x3C]);
        }
        let extra = self.rng.next() as u32;
        self.trace.on(link.pair.0).acl(direction, stamp, extra, &packet);
        if !parts.is_empty() {
            link.open[i] = Some((sending, parts, true));
            return;
        }
        if sending.answers {
            link.held = None;
        }
        if sending.wrong {
            self.wrong.push(self.trace.file.len());
        }
        if let Some((frames, behind)) = sending.data {
            let ms = self.trace.ms(stamp);
            let end = self.trace.file.len();
            self.brought.push(Brought { end, ms, link: index, direction, frames, behind });
        }
    }

    /// A record that the rules leave free, of other links or of none.
    fn noise(&mut self, links: &[Link], adapters: &[u16]) {
        if adapters.len() > 1 && self.rng.percent(70) {
            return self.beside(links, adapters);
        }
        if self.trace.form.is_some() && self.rng.percent(40) {
            return self.undirected(links);
        }
        self.trace.index = self.rng.pick(adapters);
        let stamp = trace::stamp(self.rng);
        let direction = self.rng.pick(&[Rx, Tx]);
        let handle = 0x0A0 + self.rng.below(2) as u16;
        let wire = packed(0x0C, 5, &[0x22]);
        match self.rng.below(8) {
            0 => {
                let own = trace::acl_packet(links[self.rng.below(links.len())].pair.1, 2, &[1, 2, 3]);
                let n = self.rng.below(own.len());
                self.trace.acl(direction, stamp, 0, &own[..n]);
            }
            1 => {
                let request = trace::request(self.rng.pick(&[1, 3, 5]), 0x50);
                self.trace.pdu(direction, stamp, handle, 1, &request);
            }
            2 => self.trace.pdu(direction, stamp, handle, 1, &trace::response(0x51, 0x50, 0)),
            3 => {
                let cid = self.rng.pick(&[0x50, 0x51]);
                let bytes = self.free_bytes(cid);
                self.trace.fragment(direction, stamp, handle, 0, &bytes);
            }
            4 => self.trace.pdu(direction, stamp, handle, 0x60, &trace::sabm(self.dlci)),
            5 => {
                let frame = self.untried(&wire);
                self.trace.pdu(direction, stamp, handle, 0x20, &frame);
            }
            6 => {
                // Named for another service before it is used: never tried.
                let back = if direction == Rx { Tx } else { Rx };
                let frame = self.untried(&wire);
                self.trace.pdu(back, stamp, 0x0B0, 1, &trace::request(1, 0x70));
                self.trace.pdu(direction, stamp, 0x0B0, 0x70, &frame);
            }
            _ => trace::noise(self.rng, &mut self.trace),
        }
    }

    /// A packet of a link, with data, in a pcap file and of a direction that is neither of the two, or of another type.
    fn undirected(&mut self, links: &[Link]) {
        let Link { pair: (_, handle), cids, .. } = links[self.rng.below(links.len())];
        let wire = packed(0x0C, 8, &[0x22]);
        let cid = cids[self.rng.below(2)];
        let pdu = trace::l2cap(cid, &self.untried(&wire));
        let rng = &mut *self.rng;
        let packet = trace::acl_packet(handle, rng.pick(&[0, 1, 2]), &pdu);
        let stamp = trace::stamp(rng);
        let (direction, kind) = match rng.percent(60) {
            true => (rng.pick(&trace::OTHERS), 2),
            false => (rng.below(2) as u32, trace::other_type(rng)),
        };
        self.trace.record(direction, stamp, &[&[kind], &packet[..]].concat());
    }

    /// A record of another adapter on a link's handle and CID, where no link is: what it does there is free, but for
    /// data on either DLCI of the channel.
    fn beside(&mut self, links: &[Link], adapters: &[u16]) {
        let rng = &mut *self.rng;
        let Link { pair: (_, handle), cids, .. } = links[rng.below(links.len())];
        let index = rng.pick(adapters);
        if links.iter().any(|link| link.pair == (index, handle)) {
            return;
        }
        let stamp = trace::stamp(rng);
        let direction = rng.pick(&[Rx, Tx]);
        let [own, back] = [cids[way(direction)], cids[1 - way(direction)]];
        let psm = if self.asking { 3 } else { rng.pick(&[1, 5]) };
        let choice = rng.below(12);
        let (frame, free) = match choice {
            8..=10 if !self.asking => (self.untried(&packed(0x0C, 6, &[0x22])), Vec::new()),
            0..=7 => (Vec::new(), Vec::new()),
            _ => (Vec::new(), self.free_bytes(own)),
        };
        let rng = &mut *self.rng;
        let trace = self.trace.on(index);
        match choice {
            // A PDU that never ends, and more of it, or of nothing: here a link's PDU may be under way.
            0 => trace.fragment(direction, stamp, handle, rng.pick(&[0, 2, 3]), &[0xFF, 0x7F, own as u8]),
            1 => trace.fragment(direction, stamp, handle, 1, &[0x3E, 0x3C, 0x00][..rng.below(4)]),
            2 | 3 => trace.pdu(direction, stamp, handle, 1, &trace::request(psm, back)),
            4 => trace.pdu(direction, stamp, handle, 1, &trace::response(back, own, rng.pick(&[0, 1]))),
            5 => trace.pdu(direction, stamp, handle, own, &trace::sabm(0)),
            6 => trace.pdu(direction, stamp, handle, own, &trace::sabm(self.dlci)),
            7 => trace.pdu(direction, stamp, handle, 1, &trace::command(2, 9, &[3, 0])),
            8..=10 if !self.asking => {
                // A link's request is no request here: named and not admitted, the channel is never tried.
                let other = if direction == Rx { Tx } else { Rx };
                trace.pdu(direction, stamp, handle, 1, &trace::response(0x71, own, 0));
                trace.pdu(other, stamp, handle, 0x71, &frame);
            }
            _ => trace.fragment(direction, stamp, handle, 0, &free),
        }
    }
}

impl Link {
    fn waits(&self) -> bool {
        !self.setup.is_empty() || self.sending.iter().any(|s| !s.is_empty()) || self.open.iter().any(Option::is_some)
    }
}

/// A random honest recording, with one FCS for all frames.
pub fn recording(rng: &mut Rng, scale: Scale) -> Honest {
    recording_in(rng, Container::Btsnoop, Sums::Same, scale)
}

pub fn recording_in(rng: &mut Rng, container: Container, sums: Sums, scale: Scale) -> Honest {
    let dlci = rng.pick(&[1, 2, 18, 19, 63]);
    let trace = Trace::any(rng, container);
    let adapters = trace::adapters(rng, trace.datalink);
    // Of two or three adapters, links share handles.
    let mut pairs = trace::on_each(&adapters, &[0x040, 0x041, 0x000, 0xFFF]);
    pairs.truncate(rng.within(2, scale.links + 1));
    pairs.remove(rng.below(pairs.len()));
    let mut links: Vec<Link> = pairs.iter().map(|&pair| link(rng, sums, pair, dlci, scale)).collect();
    let noisy = if adapters.len() == 1 { rng.pick(&[0, 3, 15]) } else { rng.pick(&[3, 15, 40]) };
    let asking = rng.percent(30);
    let mut maker = Maker::new(rng, trace, sums, dlci, scale, asking);
    // Now and then a recording stops before everything was sent.
    let stops = maker.rng.pick(&[0, 0, 0, 2]);
    while links.iter().any(Link::waits) && !(stops > 0 && maker.rng.below(100) < stops) {
        if maker.rng.percent(noisy) {
            maker.noise(&links, &adapters);
        }
        let index = maker.rng.below(links.len());
        maker.step(index, &mut links[index]);
    }
    maker.recording()
}

/// A random honest recording of up to 1,048,576 bytes.
pub fn large(rng: &mut Rng, container: Container, sums: Sums) -> Honest {
    loop {
        let recording = recording_in(rng, container, sums, LARGE);
        if (200_000..=1_048_576).contains(&recording.file.len()) {
            return recording;
        }
    }
}

/// One guessed link on DLCI 18 that sends these PDUs, Rx first.
fn sent(rng: &mut Rng, container: Container, sums: Sums, sending: [VecDeque<Sending>; 2]) -> Honest {
    let pair = (rng.pick(&[0, 1, 0xFFFF]), 0x40);
    let (setup, open) = (VecDeque::new(), [None, None]);
    let mut link = Link { pair, cids: [0x41, 0x42], setup, sending, open, begun: false, held: None };
    let scale = Scale { fragment: 40_000, ..SMALL };
    let trace = match container {
        Container::Btsnoop => Trace::new(2001),
        Container::Pcap => Trace::any(rng, container),
    };
    let mut maker = Maker::new(rng, trace, sums, 18, scale, false);
    while link.waits() {
        maker.step(0, &mut link);
    }
    maker.recording()
}

/// A recording whose frames are as long as they may be: a whole one of exactly 65,536
/// bytes and a partial one of 65,535.
pub fn longest(rng: &mut Rng, container: Container, sums: Sums) -> Honest {
    let wire = longest_frame();
    let (one, two) = (frame(rng, 3), frame(rng, 3));
    let sending = [
        data_pdus(rng, sums, (0x41, 18), &[wire.clone(), one], &wire[..65_535], 32_767),
        data_pdus(rng, sums, (0x42, 18), &[two, wire.clone()], &[], 9_000),
    ];
    sent(rng, container, sums, sending)
}

/// A recording that is honest but for a frame longer than 65,536 bytes, of which 65,537
/// come before its end.
pub fn too_long(rng: &mut Rng, container: Container) -> Honest {
    let wire = packed(0x0C, 0, &vec![0x3E; 32_765]);
    assert!(wire.len() > 65_537);
    let parts = [&wire[..32_767], &wire[32_767..65_534], &wire[65_534..65_537], &wire[65_537..]];
    let mut behind = 0;
    let pdus = parts.iter().enumerate().map(|(i, part)| {
        let closed = i + 1 == parts.len();
        behind += part.len();
        let bytes = trace::l2cap(0x41, &trace::uih(18, part, None, true));
        let data = Some(if closed { (vec![wire.clone()], 0) } else { (Vec::new(), behind) });
        Sending { bytes, data, answers: false, wrong: false }
    });
    let sending = [pdus.collect(), VecDeque::new()];
    sent(rng, container, Sums::Right, sending)
}

/// A packed frame of exactly 65,536 bytes.
pub fn longest_frame() -> Vec<u8> {
    for plain in 0..8 {
        for kind in [0x00, 0x3E] {
            let mut payload = vec![0x3E; 32_760];
            payload[..plain].fill(0x01);
            for extra in 0..8 {
                let wire = packed(kind, 0x3E, &[&payload[..], &vec![0x02; extra]].concat());
                if wire.len() == 65_536 {
                    return wire;
                }
            }
        }
    }
    unreachable!("some payload fits")
}
