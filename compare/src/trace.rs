//! Makes traces: records, fragments, PDUs, commands and RFCOMM frames by hand, and
//! random traces out of them that reach deep into the import.

use std::collections::{BTreeMap, VecDeque};

use crate::answer::{Container, NO_CHANNEL};
use crate::codec;
use crate::fcs;
use crate::model::packed;
use crate::pcap::{Form, FORMS, HEAD, LINK, ROW};
use crate::rng::Rng;
use oracle::capture::Direction::{self, Rx, Tx};
use oracle::capture::BTSNOOP_EPOCH_DELTA_US as EPOCH;

pub const DATALINKS: [u32; 3] = [1001, 1002, 2001];

/// A trace under construction.
#[derive(Clone)]
pub struct Trace {
    /// Of a pcap file its link type, which no datalink has.
    pub datalink: u32,
    /// Of a pcap file how it is written.
    pub form: Option<Form>,
    /// The upper 16 flag bits of the next ACL packets: in 2001 their adapter's index, in 1001 and 1002 nothing.
    pub index: u16,
    pub file: Vec<u8>,
    /// Where each record ends.
    pub ends: Vec<usize>,
}

impl Trace {
    pub fn new(datalink: u32) -> Trace {
        let mut file = b"btsnoop\0\0\0\0\x01".to_vec();
        file.extend(datalink.to_be_bytes());
        Trace { datalink, form: None, index: 0, file, ends: Vec::new() }
    }

    /// A pcap file, with what recorders write where nobody looks: version 2.4, no time zone, and a snap length.
    pub fn pcap(form: Form) -> Trace {
        let [snap, link] = [262_144, LINK].map(|number| form.bytes(number));
        let version: [u8; 4] = if form.big { [0, 2, 0, 4] } else { [2, 0, 4, 0] };
        let file = [form.magic(), version, [0; 4], [0; 4], snap, link].concat();
        Trace { datalink: LINK, form: Some(form), index: 0, file, ends: Vec::new() }
    }

    /// An empty trace of a container, of any datalink or form. What nobody looks at in the header of a pcap file is left to
    /// chance.
    pub fn any(rng: &mut Rng, container: Container) -> Trace {
        match container {
            Container::Btsnoop => Trace::new(rng.pick(&DATALINKS)),
            Container::Pcap => {
                let mut trace = Trace::pcap(rng.pick(&FORMS));
                if rng.percent(70) {
                    let other = rng.mixed(16, &[0, 1, 2, 4, 0x7F, 0xFF], 50);
                    trace.file[4..20].copy_from_slice(&other);
                }
                if let (Some(form), true) = (trace.form, rng.percent(30)) {
                    trace.file[16..20].copy_from_slice(&form.bytes(rng.pick(&[0, 1, 25, 40])));
                }
                trace
            }
        }
    }

    /// The lengths of the file's header and of a record's.
    pub fn heads(&self) -> (usize, usize) {
        match self.form {
            None => (16, 24),
            Some(_) => (HEAD, ROW),
        }
    }

    /// The trace, with the next ACL packets of this adapter.
    pub fn on(&mut self, index: u16) -> &mut Trace {
        self.index = index;
        self
    }

    /// A record; original length and drops are told from the rest, so that nothing
    /// can lean on them.
    pub fn record(&mut self, flags: u32, stamp: u64, packet: &[u8]) {
        let original = packet.len() as u32 ^ (stamp as u32 & 0xFF);
        self.row(original, flags, (stamp as u32).rotate_left(7), stamp, packet);
    }

    /// A record of these fields; the included length is the packet's. In a pcap file the flags are the direction, which
    /// both lengths count, and there are no drops.
    pub fn row(&mut self, original: u32, flags: u32, drops: u32, stamp: u64, packet: &[u8]) {
        if self.form.is_some() {
            let directed = [&flags.to_be_bytes()[..], packet].concat();
            return self.captured(original.wrapping_add(4), stamp, &directed);
        }
        for word in [original, packet.len() as u32, flags, drops] {
            self.file.extend(word.to_be_bytes());
        }
        self.file.extend(stamp.to_be_bytes());
        self.file.extend(packet);
        self.ends.push(self.file.len());
    }

    /// A record of a pcap file, of these bytes.
    pub fn captured(&mut self, original: u32, stamp: u64, bytes: &[u8]) {
        let form = self.form.expect("a pcap file");
        let (seconds, fraction) = time(form, stamp);
        for number in [seconds, fraction, bytes.len() as u32, original] {
            self.file.extend(form.bytes(number));
        }
        self.file.extend(bytes);
        self.ends.push(self.file.len());
    }

    /// A record of zeros and nothing else.
    pub fn zeros(&mut self) {
        let (_, row) = self.heads();
        self.file.extend(vec![0; row]);
        self.ends.push(self.file.len());
    }

    /// The milliseconds of a record with this stamp.
    pub fn ms(&self, stamp: u64) -> u64 {
        match self.form {
            None => stamp.saturating_sub(EPOCH) / 1000,
            Some(form) => {
                let (seconds, fraction) = time(form, stamp);
                1000 * u64::from(seconds) + u64::from(fraction) / form.parts()
            }
        }
    }

    /// An ACL packet in its record. `extra` are flag bits that mean nothing; 2001 has none.
    pub fn acl(&mut self, direction: Direction, stamp: u64, extra: u32, bytes: &[u8]) {
        let upper = u32::from(self.index) << 16;
        let way = u32::from(direction == Rx);
        match self.datalink {
            2001 => self.record(upper | 4 | way, stamp, bytes),
            LINK => self.record(way, stamp, &[&[2], bytes].concat()),
            1002 => self.record(upper | extra << 2 | way, stamp, &[&[2], bytes].concat()),
            _ => self.record(upper | extra << 2 | way, stamp, bytes),
        }
    }

    pub fn fragment(&mut self, direction: Direction, stamp: u64, handle: u16, flag: u16, data: &[u8]) {
        self.acl(direction, stamp, 0, &acl_packet(handle, flag, data));
    }

    /// A PDU in one fragment.
    pub fn pdu(&mut self, direction: Direction, stamp: u64, handle: u16, cid: u16, payload: &[u8]) {
        self.fragment(direction, stamp, handle, 2, &l2cap(cid, payload));
    }
}

/// Seconds and fraction of a stamp: mostly those of its time. At times there are too many fractions for a second, and at
/// times the seconds are the last that there are.
fn time(form: Form, stamp: u64) -> (u32, u32) {
    let mixed = stamp.wrapping_mul(0x9E37_79B9_7F4A_7C15).rotate_left(29);
    let us = stamp.wrapping_sub(EPOCH);
    let fraction = us % 1_000_000;
    let fraction = if form.nano { fraction * 1000 + mixed % 1000 } else { fraction };
    let seconds = us / 1_000_000;
    match mixed >> 32 & 15 {
        0 => (seconds as u32, (mixed >> 36) as u32),
        1 => (u32::MAX - (mixed >> 60) as u32, fraction as u32),
        _ => (seconds as u32, fraction as u32),
    }
}

pub fn acl_packet(handle: u16, flag: u16, data: &[u8]) -> Vec<u8> {
    let mut packet = (handle & 0x0FFF | flag << 12).to_le_bytes().to_vec();
    packet.extend((data.len() as u16).to_le_bytes());
    packet.extend(data);
    packet
}

pub fn l2cap(cid: u16, payload: &[u8]) -> Vec<u8> {
    let mut pdu = (payload.len() as u16).to_le_bytes().to_vec();
    pdu.extend(cid.to_le_bytes());
    pdu.extend(payload);
    pdu
}

pub fn command(code: u8, identifier: u8, body: &[u8]) -> Vec<u8> {
    let mut command = vec![code, identifier];
    command.extend((body.len() as u16).to_le_bytes());
    command.extend(body);
    command
}

fn words(words: &[u16]) -> Vec<u8> {
    words.iter().flat_map(|w| w.to_le_bytes()).collect()
}

pub fn request(psm: u16, source: u16) -> Vec<u8> {
    command(2, 1, &words(&[psm, source]))
}

pub fn response(destination: u16, source: u16, result: u16) -> Vec<u8> {
    command(3, 1, &words(&[destination, source, result, 0]))
}

/// A UIH frame with the right FCS. `credit` sets control 0xFF and adds the byte; `wide` takes the
/// two-byte length even where one byte would do.
pub fn uih(dlci: u8, information: &[u8], credit: Option<u8>, wide: bool) -> Vec<u8> {
    framed(dlci << 2 | 1, information, credit, wide)
}

/// The same of an address, whose lowest two bits are not the DLCI's.
pub fn framed(address: u8, information: &[u8], credit: Option<u8>, wide: bool) -> Vec<u8> {
    let n = information.len();
    let mut frame = vec![address, if credit.is_some() { 0xFF } else { 0xEF }];
    if n < 128 && !wide {
        frame.push((n << 1 | 1) as u8);
    } else {
        frame.push((n << 1) as u8);
        frame.push((n >> 7) as u8);
    }
    frame.extend(credit);
    frame.extend(information);
    frame.push(fcs::right(frame[0], frame[1]));
    frame
}

/// The FCS of all frames of the samples.
pub const SAME: u8 = 0x9A;

/// A frame that ends with its FCS, with another.
pub fn with_fcs(mut frame: Vec<u8>, fcs: u8) -> Vec<u8> {
    if let Some(last) = frame.last_mut() {
        *last = fcs;
    }
    frame
}

/// A frame that ends with its FCS, with a wrong one.
pub fn wrong(frame: Vec<u8>) -> Vec<u8> {
    let fcs = fcs::right(frame[0], frame[1]) ^ 0x20;
    with_fcs(frame, fcs)
}

/// A wrong FCS for a frame: mostly one that is right by another reading, or nearly right.
pub fn wrong_fcs(rng: &mut Rng, frame: &[u8]) -> u8 {
    let (address, control) = (frame[0], frame[1]);
    let right = fcs::right(address, control);
    let other = match rng.below(9) {
        0 => fcs::over(&frame[..3]),
        1 => fcs::over(&frame[..if frame[2] % 2 == 1 { 3 } else { 4 }]),
        2 => !right,
        3 => fcs::right(address, control ^ 0x10),
        4 => fcs::right(address ^ 2, control),
        5 => fcs::right(address & 0xFC, control),
        6 => right ^ 1 << rng.below(8),
        7 => rng.pick(&[0x00, 0x1C, SAME, 0xFF]),
        _ => rng.byte(),
    };
    if other == right {
        right ^ 1
    } else {
        other
    }
}

/// A payload that is a UIH frame and, on CID 1, commands of which `request` is the second:
/// the two-byte length of n bytes of information is that of a body of 2 * n bytes.
pub fn asking(dlci: u8, information: &[u8], credit: Option<u8>, request: &[u8]) -> Vec<u8> {
    asking_behind(uih(dlci, information, credit, true), information.len(), request)
}

/// The same of a frame with the two-byte length of so many bytes.
pub fn asking_behind(frame: Vec<u8>, information: usize, request: &[u8]) -> Vec<u8> {
    let mut payload = frame;
    payload.resize(4 + 2 * information, 0);
    payload.extend(request);
    payload
}

pub fn sabm(dlci: u8) -> Vec<u8> {
    vec![dlci << 2 | 3, 0x3F, 0x01, 0x1C]
}

/// A timestamp: about the epoch, about a millisecond's edge, at the ends, or any.
pub fn stamp(rng: &mut Rng) -> u64 {
    match rng.below(8) {
        0 => EPOCH - 1 + rng.below(3) as u64,
        1 => EPOCH + 1000 * rng.below(5) as u64 + rng.pick(&[0, 1, 999]),
        2 => rng.pick(&[0, 1, u64::MAX, 1 << 63, EPOCH - 1000]),
        3 => rng.next(),
        _ => EPOCH + 1_700_000_000_000_000 + rng.below(1_000_000_000) as u64,
    }
}

/// An adapter's index.
fn index(rng: &mut Rng) -> u16 {
    let any = rng.next() as u16;
    rng.pick(&[0, 0, 1, 0xFFFF, 0x0100, any])
}

/// The adapters of a random trace of this datalink: mostly one, else two or three. At times they differ in one bit.
/// Of 1001 and 1002 there is one, of index 0.
pub fn adapters(rng: &mut Rng, datalink: u32) -> Vec<u16> {
    if datalink != 2001 {
        return vec![0];
    }
    let first = index(rng);
    let mut indexes = vec![first];
    for _ in 0..rng.pick(&[0, 0, 0, 1, 1, 2]) {
        let other = if rng.percent(50) { first ^ 1 << rng.below(16) } else { index(rng) };
        if !indexes.contains(&other) {
            indexes.push(other);
        }
    }
    indexes
}

/// Every handle on every adapter.
pub fn on_each(indexes: &[u16], handles: &[u16]) -> Vec<(u16, u16)> {
    handles.iter().flat_map(|&handle| indexes.iter().map(move |&index| (index, handle))).collect()
}

/// What a random trace is made of, few of each so that they meet.
struct Pools {
    /// Adapters' indexes and handles.
    links: Vec<(u16, u16)>,
    cids: Vec<u16>,
    dlcis: Vec<u8>,
    /// How often, in a hundred, something goes wrong with a packet.
    trouble: usize,
    /// How often a PDU is signalling, a SABM, or something else than data.
    signalling: usize,
    sabms: usize,
    others: usize,
    /// How often a UIH frame has a wrong FCS. If it is not said, all have the same.
    wrong: Option<usize>,
    /// How often a piece sends all that its stream has.
    whole: usize,
    /// Longest information in a piece and longest data in a fragment.
    piece: usize,
    fragment: usize,
}

fn few<T: Copy>(rng: &mut Rng, from: &[T], most: usize) -> Vec<T> {
    (0..rng.within(1, most)).map(|_| rng.pick(from)).collect()
}

impl Pools {
    fn new(rng: &mut Rng, datalink: u32, wrong: Option<usize>) -> Pools {
        let indexes = adapters(rng, datalink);
        let handles = few(rng, &[0x000, 0x001, 0x040, 0x041, 0x100, 0xFFF], 3);
        Pools {
            links: on_each(&indexes, &handles),
            cids: few(rng, &[0x40, 0x41, 0x42, 0x1040, 0xFFFF, 0x3F, 0x20, 0x40, 0x41, 0x43, 0x44], 4),
            dlcis: few(rng, &[1, 2, 3, 18, 19, 18, 18, 19, 62, 63, 0], 3),
            trouble: rng.pick(&[0, 0, 3, 10, 30]),
            signalling: rng.pick(&[0, 5, 5, 15, 40]),
            sabms: rng.pick(&[0, 0, 3, 10, 30]),
            others: rng.pick(&[0, 5, 20]),
            wrong,
            whole: rng.pick(&[0, 10, 50, 90]),
            piece: rng.pick(&[1, 3, 8, 20, 40, 200]),
            fragment: rng.pick(&[1, 2, 3, 5, 17, 64, 1000]),
        }
    }

    fn cid(&self, rng: &mut Rng) -> u16 {
        if rng.percent(4) {
            rng.pick(&[0, 1, 1, 2, 0x3F, 0x40])
        } else {
            rng.pick(&self.cids)
        }
    }

    /// A UIH frame, with a right FCS or a wrong one.
    fn frame(&self, rng: &mut Rng, dlci: u8, information: &[u8], credit: Option<u8>, wide: bool) -> Vec<u8> {
        let Some(wrong) = self.wrong else { return with_fcs(uih(dlci, information, credit, wide), SAME) };
        let frame = framed(dlci << 2 | rng.pick(&[1, 1, 3, 3, 0, 2]), information, credit, wide);
        if !rng.percent(wrong) {
            return frame;
        }
        let fcs = wrong_fcs(rng, &frame);
        with_fcs(frame, fcs)
    }

    /// At times bytes behind a frame, such as another FCS.
    fn behind(&self, rng: &mut Rng, frame: &mut Vec<u8>) {
        if self.wrong.is_some() && rng.percent(5) {
            let right = fcs::right(frame[0], frame[1]);
            let n = rng.below(3);
            frame.extend(rng.mixed(n, &codec::BYTES, 80));
            frame.push(rng.pick(&[right, right, SAME]));
        }
    }

    /// A signalling payload: some commands, at times cut short or with bytes left.
    fn signalling(&self, rng: &mut Rng) -> Vec<u8> {
        let mut payload = Vec::new();
        for _ in 0..rng.pick(&[1, 1, 1, 2, 3, 5]) {
            let psm = rng.pick(&[3, 3, 3, 1, 0x0103, 0x0300]);
            let (first, second) = (self.cid(rng), self.cid(rng));
            let result = rng.pick(&[0, 0, 0, 1, 0x0100, 4]);
            let mut command = match rng.below(10) {
                0..=3 => request(psm, first),
                4..=7 => response(first, second, result),
                8 => command(rng.pick(&[2, 3]), rng.byte(), &{
                    let mut body = words(&[rng.pick(&[3, first]), second, result, 0]);
                    body.truncate(rng.below(9));
                    body
                }),
                _ => command(rng.pick(&[1, 4, 5, 6, 7, 0x12]), rng.byte(), &words(&[3, first])),
            };
            if rng.percent(self.trouble / 2) {
                let length = rng.pick(&[0, 1, 2, 3, 5, 6, 12, 13, 255, 65535]) as u16;
                command[2..4].copy_from_slice(&length.to_le_bytes());
            }
            payload.extend(command);
        }
        if rng.percent(self.trouble) {
            payload.truncate(rng.below(payload.len() + 1));
        }
        if rng.percent(10) {
            let n = rng.below(5);
            payload.extend(rng.mixed(n, &[0, 2, 3], 90));
        }
        payload
    }

    /// For CID 1: a request that admits it, or data on it, mostly with a PSM 3 request behind.
    fn doubled(&self, rng: &mut Rng) -> Vec<u8> {
        if rng.percent(40) {
            return request(3, 1);
        }
        let credit = if rng.percent(25) { Some(rng.byte()) } else { None };
        let request = match rng.below(5) {
            0 => request(1, self.cid(rng)),
            1 | 2 => request(3, self.cid(rng)),
            _ => command(2, rng.byte(), &[3, 0]),
        };
        let (dlci, information) = (rng.pick(&self.dlcis), stream_bytes(rng));
        let frame = self.frame(rng, dlci, &information, credit, true);
        asking_behind(frame, information.len(), &request)
    }

    /// Puts the start of another PDU behind one that is in parts, in excess of its length. The
    /// rest of it follows, in a continuation.
    fn exceed(&self, rng: &mut Rng, parts: &mut Vec<Vec<u8>>) {
        let (dlci, information, wide) = (rng.pick(&self.dlcis), stream_bytes(rng), rng.percent(20));
        let frame = self.frame(rng, dlci, &information, None, wide);
        let mut next = l2cap(rng.pick(&self.cids), &frame);
        let rest = next.split_off(rng.within(1, next.len()));
        if let Some(last) = parts.last_mut() {
            last.extend(next);
        }
        if !rest.is_empty() || rng.percent(50) {
            parts.push(rest);
        }
    }

    /// An RFCOMM frame that is neither a SABM nor well-formed data.
    fn other(&self, rng: &mut Rng) -> Vec<u8> {
        let dlci = rng.pick(&self.dlcis);
        let n = rng.below(8);
        let information = rng.mixed(n, &codec::BYTES, 80);
        match rng.below(7) {
            0 => self.frame(rng, 0, &information, None, false),
            1 => {
                let credit = if rng.percent(50) { Some(rng.byte()) } else { None };
                let wide = rng.percent(50);
                self.frame(rng, dlci, &[], credit, wide)
            }
            2 => vec![dlci << 2 | 3, rng.pick(&[0x63, 0x73, 0x0F, 0x1F, 0x43, 0x53, 0x2E, 0x6F, 0xEE, 0xDF]), 1, 0],
            3 => {
                let wide = rng.percent(50);
                let mut frame = self.frame(rng, dlci, &information, None, wide);
                frame.truncate(rng.below(frame.len() + 1));
                frame
            }
            4 => {
                let (credit, wide) = (Some(rng.byte()), rng.percent(50));
                let mut frame = self.frame(rng, dlci, &information, credit, wide);
                frame.pop();
                frame
            }
            5 => {
                let mut frame = self.frame(rng, dlci, &information, None, false);
                frame[2] = frame[2].wrapping_add(rng.pick(&[1, 2, 255, 254]));
                frame
            }
            _ => {
                let n = rng.below(6);
                rng.mixed(n, &[0x00, 0x01, 0x2F, 0x3F, 0xEF, 0xFF, 0x3E, 0x3C, dlci << 2], 90)
            }
        }
    }
}

/// What a stream sends next: mostly frames, at times damaged ones, junk or marks.
fn stream_bytes(rng: &mut Rng) -> Vec<u8> {
    match rng.below(12) {
        0 => {
            let n = rng.below(6);
            rng.mixed(n, &codec::BYTES, 80)
        }
        1 => vec![rng.pick(&[0x3E, 0x3C, 0x3D])],
        2 => {
            let mut wire = packed(rng.byte(), rng.byte(), &[]);
            codec::damage(rng, &mut wire);
            wire
        }
        3 => {
            let mut wire = packed(rng.byte(), rng.byte(), &[]);
            wire.truncate(rng.below(wire.len()));
            wire
        }
        _ => {
            let n = rng.pick(&[0, 0, 1, 2, 5, 12]);
            let payload = rng.mixed(n, &codec::BYTES, 30);
            packed(rng.pick(&[0x01, 0x0C, 0x0E, 0x3C]), rng.byte(), &payload)
        }
    }
}

/// Splits `bytes` into parts of at most `most`, at times empty ones.
fn parts(rng: &mut Rng, bytes: &[u8], most: usize, trouble: usize) -> Vec<Vec<u8>> {
    let mut parts = Vec::new();
    let mut rest = bytes;
    while !rest.is_empty() || parts.is_empty() {
        let n = if rng.percent(trouble) { rng.below(4) } else { rng.within(1, most) }.min(rest.len());
        parts.push(rest[..n].to_vec());
        rest = &rest[n..];
    }
    parts
}

type Packet = (Direction, Vec<u8>);
/// A link and whether it is received: what packets wait by.
type Side = ((u16, u16), bool);

/// A random trace whose parts meet, and a channel to import it by. `events` bounds
/// the number of PDUs.
pub fn structured(rng: &mut Rng, events: usize) -> (Trace, u32) {
    structured_in(rng, Container::Btsnoop, events)
}

pub fn structured_in(rng: &mut Rng, container: Container, events: usize) -> (Trace, u32) {
    let odd = rng.pick(&[0, 3, 10, 30]);
    let wrong = rng.pick(&[0, 0, 5, 20, 20, 60, 100]);
    with_odd(rng, container, events, odd, Some(wrong))
}

/// The same without PDUs that look like more than they are, and with one FCS for all. The samples are made of it.
pub fn plain(rng: &mut Rng, events: usize) -> (Trace, u32) {
    with_odd(rng, Container::Btsnoop, events, 0, None)
}

/// `odd` is how often, in a hundred, a PDU is one that CID 1 carries as a channel too, or has
/// another behind it in excess; `wrong` how often a frame has a wrong FCS.
fn with_odd(rng: &mut Rng, container: Container, events: usize, odd: usize, wrong: Option<usize>) -> (Trace, u32) {
    let mut trace = Trace::any(rng, container);
    let pools = Pools::new(rng, trace.datalink, wrong);
    let mut streams: BTreeMap<(Side, u8), VecDeque<u8>> = BTreeMap::new();
    let mut queues: BTreeMap<Side, VecDeque<Packet>> = BTreeMap::new();
    let mut now = stamp(rng);
    for _ in 0..rng.within(1, events) {
        let link = rng.pick(&pools.links);
        let handle = link.1;
        let direction = rng.pick(&[Rx, Tx]);
        let mut cid = pools.cid(rng);
        let choice = rng.below(100);
        let payload = if odd > 0 && rng.percent(odd) {
            cid = 1;
            pools.doubled(rng)
        } else if choice < pools.signalling {
            cid = if rng.percent(95) { 1 } else { cid };
            pools.signalling(rng)
        } else if choice < pools.signalling + pools.sabms {
            let mut frame = sabm(if rng.percent(30) { 0 } else { rng.pick(&pools.dlcis) });
            if rng.percent(50) {
                frame[1] = 0x2F;
            }
            frame.truncate(rng.pick(&[1, 2, 3, 4, 4, 4]));
            frame
        } else if choice < pools.signalling + pools.sabms + pools.others {
            pools.other(rng)
        } else {
            let dlci = rng.pick(&pools.dlcis);
            // Mostly one channel for each handle and direction, so that streams go on.
            if rng.percent(85) {
                cid = pools.cids[(usize::from(handle) + usize::from(direction == Rx)) % pools.cids.len()];
            }
            let stream = streams.entry(((link, direction == Rx), dlci)).or_default();
            let mut n = rng.within(1, pools.piece);
            while stream.len() < n {
                stream.extend(stream_bytes(rng));
            }
            if rng.percent(pools.whole) {
                n = stream.len();
            }
            let information: Vec<u8> = stream.drain(..n).collect();
            let credit = if rng.percent(25) { Some(rng.byte()) } else { None };
            let wide = rng.percent(20);
            let mut frame = pools.frame(rng, dlci, &information, credit, wide);
            pools.behind(rng, &mut frame);
            frame
        };
        let mut pdu = l2cap(cid, &payload);
        if rng.percent(pools.trouble) {
            match rng.below(3) {
                0 => pdu.extend(rng.mixed(3, &codec::BYTES, 80)),
                1 => pdu[0] = pdu[0].wrapping_add(rng.pick(&[1, 255, 2, 7])),
                _ => pdu.truncate(rng.below(pdu.len() + 1)),
            }
        }
        let mut parts = parts(rng, &pdu, pools.fragment, pools.trouble / 3);
        if odd > 0 && rng.percent(odd) {
            pools.exceed(rng, &mut parts);
        }
        let queue = queues.entry((link, direction == Rx)).or_default();
        for (i, part) in parts.into_iter().enumerate() {
            let mut flag = if i == 0 { rng.pick(&[0, 2, 2, 3]) } else { 1 };
            if rng.percent(pools.trouble / 3) {
                flag = rng.below(4) as u16;
            }
            let mut packet = acl_packet(handle, flag, &part);
            if rng.percent(pools.trouble / 2) {
                match rng.below(4) {
                    0 => packet.truncate(rng.below(packet.len() + 1)),
                    1 => packet.extend([0x3E, 0x01]),
                    2 => packet[2] = packet[2].wrapping_sub(1),
                    _ => packet[1] ^= 0x40 << rng.below(2),
                }
            }
            if !rng.percent(pools.trouble / 3) {
                queue.push_back((direction, packet));
            }
            if rng.percent(pools.trouble / 4) {
                let lone = rng.below(4);
                queue.push_back((direction, acl_packet(handle, 1, &rng.mixed(lone, &codec::BYTES, 50))));
            }
        }
        // Let some of what waits cross, whichever link and direction it is on.
        for _ in 0..rng.below(9) {
            emit(rng, &mut trace, &mut queues, &mut now, pools.trouble);
        }
    }
    while rng.percent(98) && emit(rng, &mut trace, &mut queues, &mut now, pools.trouble) {}
    let dlci = rng.pick(&pools.dlcis);
    let channel = match rng.below(10) {
        0..=6 => NO_CHANNEL,
        7..=8 => u32::from(dlci / 2),
        _ => rng.pick(&[0, 1, 9, 31, 32, 255, u32::from(dlci)]),
    };
    (trace, channel)
}

/// One waiting packet crosses; false if none waits.
fn emit(
    rng: &mut Rng,
    trace: &mut Trace,
    queues: &mut BTreeMap<Side, VecDeque<Packet>>,
    now: &mut u64,
    trouble: usize,
) -> bool {
    let keys: Vec<_> = queues.iter().filter(|(_, q)| !q.is_empty()).map(|(k, _)| *k).collect();
    if keys.is_empty() {
        return false;
    }
    if rng.percent(trouble / 2) {
        noise(rng, trace);
    }
    let key = keys[rng.below(keys.len())];
    let Some((direction, packet)) = queues.get_mut(&key).and_then(VecDeque::pop_front) else { return false };
    *now = if rng.percent(5) { stamp(rng) } else { now.wrapping_add(rng.below(3000) as u64) };
    if trace.form.is_some() && rng.percent(5) {
        // The same with another direction or type.
        let (other, kind) =
            if rng.percent(60) { (rng.pick(&OTHERS), 2) } else { (rng.below(2) as u32, other_type(rng)) };
        trace.record(other, *now, &[&[kind], &packet[..]].concat());
    }
    let extra = if rng.percent(20) { rng.next() as u32 } else { 0 };
    trace.on(key.0 .0).acl(direction, *now, extra, &packet);
    true
}

/// A record that is no ACL packet of its datalink, or too short for one.
pub fn noise(rng: &mut Rng, trace: &mut Trace) {
    let n = rng.pick(&[0, 1, 2, 3, 4, 5, 12]);
    let mut packet = rng.mixed(n, &[0, 1, 2, 3, 4, 5], 50);
    let stamp = stamp(rng);
    match trace.datalink {
        2001 => trace.record(rng.pick(&[0, 1, 2, 3, 6, 7, 0x1_0003, 0x4_0006, 0x5_0000]), stamp, &packet),
        LINK => undirected(rng, trace, stamp, packet),
        1002 => {
            let command = rng.percent(50);
            if !command && !packet.is_empty() {
                packet[0] = rng.pick(&[0, 1, 3, 4, 0x82]);
            }
            trace.record(if command { 2 } else { 0 } | rng.below(2) as u32, stamp, &packet);
        }
        _ => trace.record(2 | rng.below(2) as u32, stamp, &packet),
    }
}

/// Directions that are neither of the two.
pub const OTHERS: [u32; 9] = [2, 3, 0xFF, 0x100, 0x101, 0x1_0000, 0x0100_0000, 0x8000_0000, u32::MAX];

/// An H4 type other than ACL data's.
pub fn other_type(rng: &mut Rng) -> u8 {
    rng.pick(&[0, 1, 3, 4, 5, 0x12, 0x82])
}

/// A record of a pcap file that is no ACL packet: of another direction, of another type, or too short for either.
fn undirected(rng: &mut Rng, trace: &mut Trace, stamp: u64, mut packet: Vec<u8>) {
    match rng.below(3) {
        0 => trace.captured(rng.pick(&[0, 1, 4, 5, 300]), stamp, &packet[..packet.len().min(4)]),
        1 => {
            packet.insert(0, 2);
            trace.record(rng.pick(&OTHERS), stamp, &packet);
        }
        _ => {
            if let Some(kind) = packet.first_mut() {
                *kind = other_type(rng);
            }
            trace.record(rng.below(2) as u32, stamp, &packet);
        }
    }
}

/// Random damage to a whole file: bytes, records, cuts.
pub fn damaged(rng: &mut Rng, trace: &Trace) -> Vec<u8> {
    let mut file = trace.file.clone();
    let (head, row) = trace.heads();
    let bounds: Vec<usize> = std::iter::once(head).chain(trace.ends.iter().copied()).collect();
    match rng.below(8) {
        0 => file.truncate(rng.below(file.len() + 1)),
        1 if bounds.len() > 2 => {
            let i = rng.below(bounds.len() - 1);
            file.drain(bounds[i]..bounds[i + 1]);
        }
        2 if bounds.len() > 2 => {
            let i = rng.below(bounds.len() - 1);
            let row = file[bounds[i]..bounds[i + 1]].to_vec();
            let to = bounds[rng.below(bounds.len())];
            file.splice(to..to, row);
        }
        3 => file.truncate(bounds[rng.below(bounds.len())]),
        _ => {
            for _ in 0..rng.within(1, 4) {
                // After the record's own header most damage goes deeper.
                let i = rng.below(bounds.len());
                let low = (bounds[i] + row).min(file.len() - 1);
                let high = bounds.get(i + 1).copied().unwrap_or(file.len()).min(file.len());
                let at = if low < high && rng.percent(85) { rng.within(low, high - 1) } else { rng.below(file.len()) };
                file[at] = match rng.below(3) {
                    0 => file[at] ^ 1 << rng.below(8),
                    1 => rng.pick(&[0, 1, 2, 3, 4, 0x20, 0x2F, 0x3C, 0x3E, 0x3F, 0x40, 0x41, 0x49, 0xEF, 0xFF]),
                    _ => rng.byte(),
                };
            }
        }
    }
    file
}
