//! Makes traces that lack something: at random, and with signs that are known from the making.

use std::collections::{BTreeMap, VecDeque};

use crate::answer::Container;
use crate::gaps::{Found, SIGNS};
use crate::pcap::LINK;
use crate::rng::Rng;
use crate::trace::{self, acl_packet, l2cap, Trace};

/// Flags of ACL data of an adapter, at times with bits that mean nothing.
fn acl_flags(rng: &mut Rng, datalink: u32, index: u16, rx: bool) -> u32 {
    match datalink {
        2001 => return u32::from(index) << 16 | 4 | u32::from(rx),
        LINK => return u32::from(rx),
        _ => (),
    }
    let extra = if rng.percent(20) { rng.next() as u32 } else { 0 };
    extra << 2 | u32::from(rx)
}

/// The bytes of an ACL packet as a record of the datalink has them.
pub fn typed(datalink: u32, packet: &[u8]) -> Vec<u8> {
    match datalink {
        1002 | LINK => [&[2], packet].concat(),
        _ => packet.to_vec(),
    }
}

/// Flags and bytes that are no ACL data, though they may look like it.
fn other(rng: &mut Rng, datalink: u32, packet: &[u8]) -> (u32, Vec<u8>) {
    let side = rng.below(2) as u32;
    match datalink {
        2001 => (rng.pick(&[0, 1, 2, 3, 6, 7, 0x14, 0x105, 0x8004, 0x4_0000, 0x5_0003]), packet.to_vec()),
        LINK if rng.percent(40) => (rng.pick(&trace::OTHERS), typed(LINK, packet)),
        1002 | LINK if datalink == LINK || rng.percent(60) => {
            let mut packet = typed(1002, packet);
            packet[0] = rng.pick(&[0, 1, 3, 4, 5, 0x82, 0x20]);
            packet.truncate(if rng.percent(30) { rng.below(3) } else { packet.len() });
            (side, packet)
        }
        _ => (2 | side | rng.pick(&[0, 0, 4, 0xFFFF_FFF0]), typed(datalink, packet)),
    }
}

// ---- at random

/// How often, in a hundred, a record has something; and the links that there are.
struct Mood {
    /// Adapters' indexes and handles.
    links: Vec<(u16, u16)>,
    short: usize,
    drops: usize,
    lacking: usize,
    others: usize,
    zeros: usize,
    /// A fragment that does not come, or comes out of turn.
    trouble: usize,
    /// All that waits is sent.
    whole: usize,
}

impl Mood {
    fn new(rng: &mut Rng, datalink: u32) -> Mood {
        let indexes = trace::adapters(rng, datalink);
        let handles: Vec<u16> = (0..rng.within(1, 3)).map(|_| rng.pick(&[0x000, 0x001, 0x040, 0x041, 0xFFF])).collect();
        let often = [0, 0, 3, 10, 40];
        Mood {
            links: trace::on_each(&indexes, &handles),
            short: rng.pick(&often),
            drops: rng.pick(&often),
            lacking: rng.pick(&often),
            others: rng.pick(&often),
            zeros: rng.pick(&[0, 0, 3, 10]),
            trouble: rng.pick(&often),
            whole: rng.pick(&[0, 30, 80]),
        }
    }

    /// The recorder's count of drops after another record: mostly as it was, else more or less.
    fn drops(&self, rng: &mut Rng, drops: u32) -> u32 {
        if !rng.percent(self.drops) {
            return drops;
        }
        match rng.below(8) {
            0..=2 => drops.wrapping_add(1),
            3 => drops.wrapping_add(rng.below(300) as u32),
            4 => drops.saturating_sub(rng.within(1, 3) as u32),
            5 => 0,
            6 => rng.pick(&[u32::MAX, u32::MAX - 1, 1 << 31, 1 << 24, 255, 256]),
            _ => rng.next() as u32,
        }
    }

    /// The fragment that comes next of what waits: mostly as it should.
    fn fragment(&self, rng: &mut Rng, handle: u16, waits: &mut VecDeque<u8>) -> Vec<u8> {
        let mut start = waits.is_empty();
        if rng.percent(self.trouble) {
            start = !start;
        }
        if start {
            *waits = pdu(rng, self.trouble).into();
        }
        let n = if rng.percent(self.whole) { waits.len() } else { rng.below(7).min(waits.len()) };
        let data: Vec<u8> = waits.drain(..n).collect();
        let flag = if start { rng.pick(&[0, 2, 2, 3]) } else { 1 };
        let mut packet = acl_packet(handle, flag, &data);
        if rng.percent(10) {
            packet[1] ^= rng.pick(&[0x40, 0x80, 0xC0]);
        }
        if rng.percent(self.trouble / 4) {
            packet.extend([1, 0, 0]);
        }
        packet
    }

    /// The packet without its end, or with a length that is not there.
    fn cut(&self, rng: &mut Rng, packet: &mut Vec<u8>) {
        match rng.below(5) {
            0 => packet.truncate(packet.len().saturating_sub(1)),
            1 => packet[3] = rng.pick(&[1, 0x80, 0xFF]),
            2 => packet[2] = packet[2].wrapping_add(1),
            _ => packet.truncate(rng.below(6)),
        }
    }
}

/// A short PDU; at times one that says another length.
fn pdu(rng: &mut Rng, trouble: usize) -> Vec<u8> {
    let n = rng.pick(&[0, 0, 1, 2, 3, 5, 9]);
    let mut pdu = l2cap(0x41, &rng.bytes(n));
    if rng.percent(trouble) {
        pdu[0] = pdu[0].wrapping_add(rng.pick(&[1, 2, 255]));
    }
    if rng.percent(trouble / 4) {
        pdu[1] = rng.pick(&[1, 0xFF]);
    }
    pdu
}

/// A record of zeros, or one that is nearly that.
fn zeros(rng: &mut Rng, trace: &mut Trace) {
    let from = trace.file.len();
    trace.zeros();
    if rng.percent(30) {
        // Not of the included length, so that the record keeps its size.
        let at = match trace.form {
            None => rng.pick(&[0, 3, 8, 9, 11, 12, 15, 16, 20, 23]),
            Some(_) => rng.pick(&[0, 3, 4, 7, 12, 13, 15]),
        };
        trace.file[from + at] = rng.pick(&[1, 2, 4, 0x80]);
    }
}

/// A random trace of so many records at most, in which signs meet.
pub fn made(rng: &mut Rng, container: Container, records: usize) -> Trace {
    let mut trace = Trace::any(rng, container);
    let datalink = trace.datalink;
    let mood = Mood::new(rng, datalink);
    let mut waiting: BTreeMap<((u16, u16), bool), VecDeque<u8>> = BTreeMap::new();
    let mut drops = if rng.percent(20) { rng.below(5) as u32 } else { 0 };
    for _ in 0..rng.within(1, records) {
        if rng.percent(mood.zeros) {
            zeros(rng, &mut trace);
            continue;
        }
        drops = mood.drops(rng, drops);
        let (link, rx) = (rng.pick(&mood.links), rng.percent(50));
        let mut packet = mood.fragment(rng, link.1, waiting.entry((link, rx)).or_default());
        let there = packet.len();
        if rng.percent(mood.lacking) {
            mood.cut(rng, &mut packet);
        }
        let snapped = rng.percent(mood.short);
        if snapped && rng.percent(50) {
            packet.truncate(rng.within(4, 8));
        }
        let (flags, packet) = if rng.percent(mood.others) {
            other(rng, datalink, &packet)
        } else {
            (acl_flags(rng, datalink, link.0, rx), typed(datalink, &packet))
        };
        let included = packet.len() as u32;
        let original = match rng.below(8) {
            _ if snapped => included.max(there as u32) + rng.pick(&[0, 1, 1, 2, 300]),
            0 => included.saturating_sub(rng.pick(&[1, 2, 255])),
            1 if mood.short > 0 => rng.pick(&[0, included + 1, u32::MAX, 1 << 31]),
            _ => included,
        };
        let stamp = if rng.percent(10) { 0 } else { trace::stamp(rng) };
        // Packets too short for a direction.
        if trace.form.is_some() && rng.percent(mood.others / 2) {
            trace.captured(original, stamp, &packet[..rng.below(4).min(packet.len())]);
            continue;
        }
        trace.row(original, flags, drops, stamp, &packet);
    }
    trace
}

/// The bytes of a trace, at times with a cut end: of its last record, or of one that begins behind it.
pub fn ended(rng: &mut Rng, trace: &Trace) -> Vec<u8> {
    let mut file = trace.file.clone();
    let (head, row) = trace.heads();
    match rng.below(6) {
        0 => file.truncate(file.len() - rng.below(40).min(file.len() - head)),
        1 => file.extend(vec![0; rng.within(1, row - 1)]),
        2 => {
            let pcap = trace.form.map(|form| [7, 7, 9].map(|number| form.bytes(number)).concat());
            file.extend(pcap.unwrap_or(vec![0, 0, 1, 0, 0, 0, 0, 9]));
            file.extend(vec![0xFF; rng.below(25)]);
        }
        _ => (),
    }
    file
}

/// A header and then bytes that are mostly zeros, so that many make records.
pub fn scattered(rng: &mut Rng, container: Container) -> Vec<u8> {
    let mut file = Trace::any(rng, container).file;
    let zeros = rng.pick(&[50, 80, 95]);
    for _ in 0..rng.below(300) {
        let byte = rng.pick(&[1, 2, 3, 4, 5, 8, 0x10, 0x20, 0x40, 0xFF]);
        file.push(if rng.percent(zeros) { 0 } else { byte });
    }
    file
}

// ---- known from the making

/// A record of a mixture.
#[derive(Clone, Copy)]
enum Step {
    /// A PDU in one packet, or something that is no ACL data.
    Whole,
    Other,
    /// The same stored short; or after that many drops.
    Short,
    Dropped(u32),
    /// Less of a packet than its fields say.
    Lacking,
    Zeros,
    /// A continuation where nothing is open.
    Stray,
    /// The beginning of a PDU that is given up, that ends, or that stays open.
    Begin,
    BeginOpen,
    /// A start where one is open.
    Again,
    /// A continuation that ends a PDU, and one that does not.
    End,
    More,
}

/// The steps that make a sign once, on a link of their own.
fn steps(rng: &mut Rng, sign: usize) -> Vec<Step> {
    match sign {
        0 => vec![Step::Short],
        1 => vec![Step::Dropped(rng.pick(&[1, 1, 2, 70_000]))],
        2 => vec![Step::Lacking],
        3 => vec![Step::Zeros],
        4 => rng
            .pick(&[&[Step::Stray][..], &[Step::Begin, Step::End, Step::Stray], &[Step::Whole, Step::Stray]])
            .to_vec(),
        5 => rng.pick(&[&[Step::Begin, Step::Again][..], &[Step::Begin, Step::More, Step::Again]]).to_vec(),
        _ => rng
            .pick(&[&[Step::BeginOpen][..], &[Step::BeginOpen, Step::More], &[Step::Whole, Step::BeginOpen]])
            .to_vec(),
    }
}

/// A timestamp that is not 0: a record with it is not one of zeros.
fn since(rng: &mut Rng) -> u64 {
    trace::stamp(rng).max(1)
}

/// A mixture under construction.
struct Mixture {
    trace: Trace,
    /// The adapters, which share handles.
    adapters: Vec<u16>,
    drops: u32,
    known: Found,
}

impl Mixture {
    /// The index and the handle of a link by its number.
    fn pair(&self, link: u16) -> (u16, u16) {
        let many = self.adapters.len() as u16;
        (self.adapters[usize::from(link % many)], link / many)
    }

    fn packet(&mut self, rng: &mut Rng, link: u16, original: u32, packet: &[u8]) {
        let datalink = self.trace.datalink;
        let packet = typed(datalink, packet);
        let original = (packet.len() as u32).wrapping_add(original);
        // The direction is one for each handle; half of them are received.
        let (index, handle) = self.pair(link);
        let flags = acl_flags(rng, datalink, index, handle % 2 == 1);
        self.trace.row(original, flags, self.drops, since(rng), &packet);
    }

    fn step(&mut self, rng: &mut Rng, link: u16, step: Step) {
        let at = self.trace.file.len();
        let (_, handle) = self.pair(link);
        let start = |data: &[u8]| acl_packet(handle, 2, data);
        let whole = start(&l2cap(0x41, &[7]));
        // Of a packet of nine bytes, and of six bytes of data, so many.
        let (part, data) = (rng.below(whole.len()), rng.below(7));
        match step {
            Step::Whole => self.packet(rng, link, 0, &whole),
            Step::Other => {
                let (flags, packet) = other(rng, self.trace.datalink, &whole[..part]);
                self.trace.row(packet.len() as u32, flags, self.drops, since(rng), &packet);
            }
            Step::Short => {
                self.known.short.push(at);
                let missing = rng.pick(&[1, 2, 1000]);
                self.packet(rng, link, missing, &whole);
            }
            Step::Dropped(by) => {
                // A pcap record has no count.
                if self.trace.form.is_none() {
                    self.known.dropped += u64::from(by);
                    self.known.dropped_at.push(at);
                }
                self.drops += by;
                self.packet(rng, link, 0, &whole);
            }
            Step::Lacking => {
                self.known.skipped.push(at);
                self.packet(rng, link, 0, &whole[..part]);
            }
            Step::Zeros => {
                self.known.zeros.push(at);
                // Of 1001 it is ACL data too, without a packet.
                if self.trace.datalink == 1001 {
                    self.known.skipped.push(at);
                }
                self.drops = 0;
                self.trace.zeros();
            }
            Step::Stray => {
                self.known.stray.push(at);
                self.packet(rng, link, 0, &acl_packet(handle, 1, &[9; 6][..data]));
            }
            Step::Begin | Step::BeginOpen => {
                if matches!(step, Step::BeginOpen) {
                    self.known.open.push(at);
                }
                self.packet(rng, link, 0, &start(&[3, 0, 0x41, 0, 7, 7][..data]));
            }
            Step::Again => {
                self.known.given_up.push(at);
                self.packet(rng, link, 0, &whole);
            }
            // After at most six bytes of a PDU of seven.
            Step::More => self.packet(rng, link, 0, &acl_packet(handle, 1, &[])),
            Step::End => self.packet(rng, link, 0, &acl_packet(handle, 1, &[0; 7])),
        }
    }
}

/// A trace with each sign so often as `times` says, among records without any, and the signs.
pub fn mixture(rng: &mut Rng, trace: Trace, times: [usize; SIGNS.len()]) -> (Trace, Found) {
    let mut queues: Vec<VecDeque<Step>> = Vec::new();
    for (sign, &times) in times.iter().enumerate() {
        queues.extend((0..times).map(|_| steps(rng, sign).into()));
    }
    for neutral in [&[Step::Whole][..], &[Step::Begin, Step::End], &[Step::Other], &[Step::Other, Step::Whole]] {
        if rng.percent(50) {
            queues.push(neutral.to_vec().into());
        }
    }
    let adapters = trace::adapters(rng, trace.datalink);
    let mut mixture = Mixture { trace, adapters, drops: 0, known: Found::default() };
    loop {
        let left: Vec<usize> = (0..queues.len()).filter(|i| !queues[*i].is_empty()).collect();
        if left.is_empty() {
            return (mixture.trace, mixture.known);
        }
        let link = left[rng.below(left.len())];
        let step = queues[link].pop_front().expect("a step is left");
        // The count may fall, but not where it rises.
        if rng.percent(10) && !matches!(step, Step::Dropped(_)) {
            mixture.drops = mixture.drops.saturating_sub(1);
        }
        mixture.step(rng, link as u16, step);
    }
}
