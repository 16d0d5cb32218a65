//! Traces made at random, of what devices send and of what they should not: several adapters and handles, channels named for RFCOMM
//! and for other services or not at all, sessions and links opened anew, PDUs in fragments that get lost, frames that unpack and
//! that do not, and RFCOMM frames whose FCS is wrong.

use std::collections::{BTreeMap, VecDeque};

use crate::trace::{control, pdu, uih, Trace};
use lumbryth::pack;
use lumbryth::Direction::{self, Rx, Tx};

/// A small seeded generator (SplitMix64): the same seed gives the same traces.
pub struct Rng(pub u64);

impl Rng {
    fn next(&mut self) -> u64 {
        self.0 = self.0.wrapping_add(0x9E37_79B9_7F4A_7C15);
        let mut z = self.0;
        z = (z ^ (z >> 30)).wrapping_mul(0xBF58_476D_1CE4_E5B9);
        z = (z ^ (z >> 27)).wrapping_mul(0x94D0_49BB_1331_11EB);
        z ^ (z >> 31)
    }

    /// A number from `low` to `high`, both included.
    fn within(&mut self, low: usize, high: usize) -> usize {
        low + (self.next() % (high - low + 1) as u64) as usize
    }

    fn percent(&mut self, percent: usize) -> bool {
        self.within(1, 100) <= percent
    }

    fn byte(&mut self) -> u8 {
        self.next() as u8
    }

    /// A file with some of its bytes changed, anywhere.
    pub fn damaged(&mut self, file: &[u8]) -> Vec<u8> {
        let mut file = file.to_vec();
        for _ in 0..self.within(1, 8) {
            let at = self.within(0, file.len() - 1);
            file[at] = if self.percent(50) { self.byte() } else { file[at] ^ 1 << self.within(0, 7) };
        }
        file
    }

    /// A file cut somewhere, from so many bytes on.
    pub fn cut<'a>(&mut self, file: &'a [u8], least: usize) -> &'a [u8] {
        &file[..self.within(least, file.len())]
    }

    fn pick<T: Copy>(&mut self, from: &[T]) -> T {
        from[self.within(0, from.len() - 1)]
    }
}

/// An adapter's index, and a handle.
type Link = (u16, u16);

/// A boundary flag, and data.
type Fragment = (u16, Vec<u8>);

struct Maker<'a> {
    rng: &'a mut Rng,
    trace: Trace,
    datalink: u32,
    us: u64,
    links: Vec<Link>,
    cids: Vec<u16>,
    dlcis: Vec<u8>,
    /// How many RFCOMM frames of a hundred have a wrong FCS.
    noise: usize,
    /// What is left of a frame of which a piece was sent, for each link, direction, CID and DLCI.
    rest: BTreeMap<(Link, bool, u16, u8), Vec<u8>>,
    /// Fragments that wait, for each link and direction.
    waiting: BTreeMap<(Link, bool), VecDeque<Fragment>>,
}

impl Maker<'_> {
    fn frame(&mut self) -> Vec<u8> {
        let most = self.rng.pick(&[0, 2, 12, 150]);
        let n = self.rng.within(0, most);
        let byte = |rng: &mut Rng| if rng.percent(20) { rng.pick(&[0x3C, 0x3D, 0x3E]) } else { rng.byte() };
        let payload: Vec<u8> = (0..n).map(|_| byte(self.rng)).collect();
        let mut wire = pack(self.rng.pick(&[0x01, 0x0C, 0x0E, 0x3D]), self.rng.byte(), &payload).unwrap();
        if self.rng.percent(25) {
            let at = self.rng.within(0, wire.len() - 1);
            wire[at] = if self.rng.percent(30) { self.rng.pick(&[0x3C, 0x3D, 0x3E]) } else { self.rng.byte() };
        }
        wire
    }

    /// What a UIH frame carries: the rest of a frame, frames, a part of one, junk.
    fn information(&mut self, key: (Link, bool, u16, u8)) -> Vec<u8> {
        let mut bytes = Vec::new();
        if self.rng.percent(70) {
            bytes.extend(self.rest.remove(&key).unwrap_or_default());
        }
        for _ in 0..self.rng.within(0, 2) {
            if self.rng.percent(10) {
                let junk = self.rng.within(1, 4);
                bytes.extend((0..junk).map(|_| self.rng.byte()));
            }
            bytes.extend(self.frame());
        }
        if self.rng.percent(35) {
            let mut wire = self.frame();
            let left = wire.split_off(self.rng.within(1, wire.len() - 1));
            bytes.extend(wire);
            self.rest.insert(key, left);
        }
        bytes
    }

    fn cid(&mut self) -> u16 {
        let cids = self.cids.clone();
        self.rng.pick(&cids)
    }

    /// Some commands of signalling, most of them requests and responses, some of them too short or too long.
    fn signals(&mut self) -> Vec<u8> {
        let mut payload = Vec::new();
        if self.rng.percent(10) {
            // A command that is an RFCOMM frame too, for CID 1 may be admitted: 21 bytes of body, and 10 of information.
            let frame = pack(0x01, 0, &[]).unwrap();
            payload.extend([0x49, 0xEF, 21, 0]);
            payload.extend([&frame[..], &[0; 12]].concat());
        }
        for _ in 0..self.rng.pick(&[1, 1, 1, 2, 3]) {
            let (code, words) = match self.rng.within(0, 9) {
                0..=4 => (2, vec![self.rng.pick(&[3, 3, 3, 0x19, 0x1001]), self.cid()]),
                5..=8 => (3, vec![self.cid(), self.cid(), self.rng.pick(&[0, 0, 0, 1, 2]), 0]),
                _ => (self.rng.pick(&[4, 5, 6, 7]), vec![self.cid(), self.cid()]),
            };
            let mut body: Vec<u8> = words.iter().flat_map(|word: &u16| word.to_le_bytes()).collect();
            if self.rng.percent(10) {
                body.truncate(self.rng.within(0, body.len()));
            }
            let more = if self.rng.percent(4) { self.rng.within(1, 300) } else { 0 };
            payload.extend([code, self.rng.byte()]);
            payload.extend(((body.len() + more) as u16).to_le_bytes());
            payload.extend(body);
        }
        if self.rng.percent(5) {
            payload.extend(&[2, 1, 4][..self.rng.within(1, 3)]);
        }
        pdu(1, &payload)
    }

    /// A PDU that may be RFCOMM.
    fn data(&mut self, link: Link, direction: Direction) -> Vec<u8> {
        let (cid, dlcis) = (self.cid(), self.dlcis.clone());
        let dlci = if self.rng.percent(3) { 0 } else { self.rng.pick(&dlcis) };
        let command = self.rng.percent(50);
        let mut frame = match self.rng.within(0, 99) {
            0..=3 => control(0, command, self.rng.pick(&[0x2F, 0x3F])),
            4..=9 => control(dlci, command, self.rng.pick(&[0x2F, 0x3F])),
            10..=13 => control(dlci, command, self.rng.pick(&[0x73, 0x53, 0x1F])),
            14..=16 => uih(0, command, None, &[0xE3, 0x05, 0x4B, 0x8D]),
            17..=19 => uih(dlci, command, Some(7), &[]),
            _ => {
                let credit = if self.rng.percent(25) { Some(self.rng.byte()) } else { None };
                let information = self.information((link, direction == Rx, cid, dlci));
                let mut frame = uih(dlci, command, credit, &information);
                // A length of two bytes where one would do.
                if self.rng.percent(15) && frame[2] % 2 == 1 {
                    frame[2] -= 1;
                    frame.insert(3, 0);
                }
                frame
            }
        };
        if self.rng.percent(self.noise) {
            // The FCS is changed, or the bit of a command, for which it is not right then.
            let at = if self.rng.percent(80) { frame.len() - 1 } else { 0 };
            frame[at] ^= if at == 0 { 2 } else { 1 << self.rng.within(0, 7) };
        }
        if self.rng.percent(4) {
            frame.truncate(self.rng.within(0, frame.len()));
        }
        if self.rng.percent(4) {
            frame.extend([0x3E, 0x3C]);
        }
        pdu(cid, &frame)
    }

    /// A PDU waits to be sent, in fragments, some of which are lost.
    fn push(&mut self, link: Link, direction: Direction, mut pdu: Vec<u8>) {
        // Bytes in excess, which may be the beginning of another PDU; what would go on with it comes too.
        let mut more = if self.rng.percent(5) { self.data(link, direction) } else { Vec::new() };
        let left = more.split_off(self.rng.within(0, more.len()));
        pdu.extend(more);
        let split = self.rng.percent(40);
        let (mut flag, mut rest) = (self.rng.pick(&[0, 2, 2, 2, 3]), &pdu[..]);
        loop {
            let n = if split { self.rng.within(0, rest.len()) } else { rest.len() };
            if !self.rng.percent(2) {
                let waiting = self.waiting.entry((link, direction == Rx)).or_default();
                waiting.push_back((flag, rest[..n].to_vec()));
            }
            (flag, rest) = (1, &rest[n..]);
            if rest.is_empty() {
                break;
            }
        }
        if !left.is_empty() {
            self.waiting.entry((link, direction == Rx)).or_default().push_back((1, left));
        }
    }

    /// One fragment that waits crosses.
    fn step(&mut self) -> bool {
        let keys: Vec<(Link, bool)> = self.waiting.keys().copied().collect();
        if keys.is_empty() {
            return false;
        }
        let key = self.rng.pick(&keys);
        let queue = self.waiting.get_mut(&key).unwrap();
        let (flag, data) = queue.pop_front().unwrap();
        if queue.is_empty() {
            self.waiting.remove(&key);
        }
        let ((adapter, handle), rx) = (key.0, u32::from(key.1));
        let mut packet = [handle | flag << 12, data.len() as u16].map(u16::to_le_bytes).concat();
        packet.extend(data);
        if self.rng.percent(2) {
            packet.truncate(self.rng.within(0, packet.len()));
        }
        if self.rng.percent(2) {
            packet.push(self.rng.byte());
        }
        self.us += self.rng.within(0, 3000) as u64;
        let us = self.us;
        // Flags that say that it is something else, and in 1001 and 1002 some that say nothing.
        let other = self.rng.percent(3);
        let more = self.rng.pick(&[0, 0, 0x7_0000, 0xFFFF_0000]);
        let kind = if self.rng.percent(3) { self.rng.byte() } else { 2 };
        match self.datalink {
            2001 => self.trace.record(
                u32::from(adapter) << 16 | if other { self.rng.pick(&[0, 2, 3, 6, 7, 0x104]) } else { 4 + rx },
                us,
                &packet,
            ),
            1002 => self.trace.record(more | rx | u32::from(other) << 1, us, &[&[kind], &packet[..]].concat()),
            _ => self.trace.record(more | rx | u32::from(other) << 1, us, &packet),
        }
        true
    }
}

fn some<T: Copy>(rng: &mut Rng, from: &[T], most: usize) -> Vec<T> {
    (0..rng.within(1, most)).map(|_| rng.pick(from)).collect()
}

/// A trace, which may be cut, or have a few bytes changed.
pub fn trace(rng: &mut Rng) -> Vec<u8> {
    let datalink = rng.pick(&[1001, 1002, 2001, 2001]);
    // The handles of two adapters may be the same.
    let adapters = if datalink == 2001 { some(rng, &[0, 1, 3, 0xFFFF], 3) } else { vec![0] };
    let handles = some(rng, &[1, 6, 0x40, 0xEFF], 2);
    let links = (0..rng.within(1, 3)).map(|_| (rng.pick(&adapters), rng.pick(&handles))).collect();
    let cids = some(rng, &[0x40, 0x41, 0x41, 0x45, 0x70, 0xFFFF, 0x3F, 0x04, 0x01], 5);
    let dlcis = some(rng, &[1, 2, 3, 18, 19, 18, 19, 40, 41, 62, 63], 5);
    let noise = rng.pick(&[0, 0, 10, 60]);
    let (us, rest, waiting) = (1_700_000_000_000_000, BTreeMap::new(), BTreeMap::new());
    let mut maker = Maker { rng, trace: Trace::new(datalink), datalink, us, links, cids, dlcis, noise, rest, waiting };
    for _ in 0..maker.rng.within(1, 60) {
        let (links, direction) = (maker.links.clone(), maker.rng.pick(&[Rx, Tx]));
        let link = maker.rng.pick(&links);
        match maker.rng.within(0, 99) {
            0..=14 => {
                let pdu = maker.signals();
                maker.push(link, direction, pdu);
            }
            15..=59 => {
                let pdu = maker.data(link, direction);
                maker.push(link, direction, pdu);
            }
            60..=62 => maker.trace.hci_event(maker.us, &[0x13, 0x05, 0x01, 0x06, 0x00, 0x02, 0x00]),
            63..=64 => maker.trace.hci_command(maker.us, &[0x02, 0x04, 0x00]),
            _ => {
                maker.step();
            }
        }
    }
    while maker.step() {}
    let Trace { mut file, starts, .. } = maker.trace;
    if rng.percent(10) && !starts.is_empty() {
        // Bytes of packets, not of the records' own.
        for _ in 0..rng.within(1, 5) {
            let start = rng.pick(&starts);
            let at = start + 24 + rng.within(0, 60);
            if starts.iter().all(|&other| at < other || at >= other + 24) && at < file.len() {
                file[at] = rng.byte();
            }
        }
    }
    if rng.percent(15) {
        file.truncate(rng.within(16, file.len()));
    }
    file
}
