//! Well-behaved traces at random: what two devices that keep to the rules of Bluetooth send.
//!
//! One to three links open RFCOMM and then send frames on one to three DLCIs, both ways, in pieces and fragments of any size,
//! with credits, with fragments of all links mixed, and with other traffic between. In a trace of the Linux monitor the links are
//! those of one to three adapters, which may use the same handle. Some frames are damaged, there is junk
//! between frames, and the last frame may be a partial one: all of that is the devices' own business.
//! Some adapters are noisy: the FCS of some RFCOMM frames is wrong.

use std::collections::VecDeque;

use crate::rng::Rng;
use crate::trace::pcap::{self, Form};
use crate::trace::{control, pdu, signal, uih, Trace};
use lumbryth::Direction::{self, Rx, Tx};
use lumbryth::{pack, Container};

pub struct Generated {
    pub container: Container,
    pub file: Vec<u8>,
    pub starts: Vec<usize>,
    /// The DLCIs in use, no two of one channel.
    pub dlcis: Vec<u8>,
}

struct Link {
    /// 0 but for the Linux monitor.
    adapter: u16,
    handle: u16,
    /// The CIDs of what comes in and of what goes out.
    cids: [u16; 2],
    /// Who opened the channel.
    opener: Direction,
    /// The PDUs that wait to be sent, and the fragments of the one under way, for each way.
    waiting: [VecDeque<Vec<u8>>; 2],
    open: [VecDeque<(bool, Vec<u8>)>; 2],
}

fn way(direction: Direction) -> usize {
    usize::from(direction == Tx)
}

fn other(direction: Direction) -> Direction {
    if direction == Rx {
        Tx
    } else {
        Rx
    }
}

/// A CID that has no other use: 0x70 and up are taken by the second channel.
fn cid(rng: &mut Rng) -> u16 {
    rng.pick(&[0x40, 0x41, 0x42, 0x45, 0x6F, 0x1234, 0xFFFF])
}

fn frame(rng: &mut Rng) -> Vec<u8> {
    let most = rng.pick(&[0, 3, 12, 40, 300]);
    let n = rng.within(0, most);
    let payload: Vec<u8> =
        (0..n).map(|_| if rng.percent(20) { rng.pick(&[0x3C, 0x3D, 0x3E]) } else { rng.byte() }).collect();
    let kind = rng.pick(&[0x01, 0x0C, 0x0C, 0x0E, 0x3D, 0x77]);
    pack(kind, rng.byte(), &payload).expect("a short payload is packed")
}

/// What one side sends on one DLCI: frames, some of them damaged, junk, perhaps a partial one.
fn stream(rng: &mut Rng) -> Vec<u8> {
    let mut bytes = Vec::new();
    let damage = rng.pick(&[0, 0, 15]);
    for _ in 0..rng.within(1, 12) {
        let mut wire = frame(rng);
        if rng.percent(damage) {
            let at = rng.within(0, wire.len() - 1);
            wire[at] ^= 1 << rng.within(0, 7);
        }
        if rng.percent(damage) {
            bytes.extend([rng.byte(), rng.byte()]);
        }
        bytes.extend(wire);
    }
    if rng.percent(30) {
        let wire = frame(rng);
        bytes.extend(&wire[..rng.within(1, wire.len() - 1)]);
    }
    bytes
}

/// A stream cut into pieces. None begins with 7E, which tshark takes for the beginning of PPP.
fn pieces(rng: &mut Rng, stream: &[u8]) -> Vec<Vec<u8>> {
    let most = rng.pick(&[3, 10, 20, 127, 128, 400]);
    let mut pieces: Vec<Vec<u8>> = Vec::new();
    let mut rest = stream;
    while !rest.is_empty() {
        let n = rng.within(1, most).min(rest.len());
        match pieces.last_mut() {
            Some(last) if rest[0] == 0x7E => last.extend(&rest[..n]),
            _ => pieces.push(rest[..n].to_vec()),
        }
        rest = &rest[n..];
    }
    pieces.retain(|piece| piece[0] != 0x7E);
    pieces
}

impl Link {
    fn cid(&self, direction: Direction) -> u16 {
        self.cids[way(direction)]
    }

    /// A PDU waits behind those that wait already.
    fn push(&mut self, direction: Direction, pdu: Vec<u8>) {
        self.waiting[way(direction)].push_back(pdu);
    }
}

struct Maker<'a> {
    rng: &'a mut Rng,
    trace: Trace,
    us: u64,
    fragment: usize,
    /// How many RFCOMM frames of a hundred have a wrong FCS.
    noise: usize,
}

impl Maker<'_> {
    /// A PDU with an RFCOMM frame, whose FCS may be wrong: it is changed, or the bit of a command, for which it is not right then.
    fn rfcomm(&mut self, cid: u16, mut frame: Vec<u8>) -> Vec<u8> {
        if self.rng.percent(self.noise) {
            let at = if self.rng.percent(80) { frame.len() - 1 } else { 0 };
            frame[at] ^= if at == 0 { 2 } else { 1 << self.rng.within(0, 7) };
        }
        pdu(cid, &frame)
    }

    fn tick(&mut self) -> u64 {
        let step = self.rng.pick(&[1, 999, 1_000, 1_001, 40_000]);
        self.us += self.rng.within(0, step) as u64;
        self.us
    }

    /// The controller's own traffic.
    fn noise(&mut self) {
        let us = self.tick();
        if self.rng.percent(50) {
            self.trace.hci_command(us, &[0x02, 0x04, 0x00]);
        } else {
            self.trace.hci_event(us, &[0x0E, 0x04, 0x01, 0x02, 0x04, 0x00]);
        }
    }

    /// One fragment crosses, if one waits.
    fn step(&mut self, link: &mut Link, direction: Direction) -> bool {
        let i = way(direction);
        if link.open[i].is_empty() {
            let Some(pdu) = link.waiting[i].pop_front() else { return false };
            let mut rest = &pdu[..];
            while !rest.is_empty() {
                let n = if self.rng.percent(50) { rest.len() } else { self.rng.within(1, self.fragment) };
                // A first fragment has the whole header: tshark wants the length in it.
                let first = rest.len() == pdu.len();
                let n = if first { n.max(4) } else { n }.min(rest.len());
                link.open[i].push_back((first, rest[..n].to_vec()));
                rest = &rest[n..];
            }
        }
        let us = self.tick();
        let Some((first, data)) = link.open[i].pop_front() else { return false };
        self.trace.adapter = link.adapter;
        self.trace.fragment(direction, us, link.handle, first, &data);
        true
    }

    /// A PDU crosses before anything else of its link does.
    fn send(&mut self, link: &mut Link, direction: Direction, pdu: Vec<u8>) {
        link.push(direction, pdu);
        while self.step(link, direction) {}
    }

    /// The channel is opened, then the multiplexer, then each DLCI. A second channel, of another service, may be opened too.
    fn open(&mut self, link: &mut Link, dlcis: &[u8], second: bool) {
        let (from, to) = (link.opener, other(link.opener));
        // What goes to the one who asks has the request's source.
        let (source, destination) = (link.cid(to), link.cid(from));
        self.send(link, from, signal(2, 1, &[3, source]));
        if self.rng.percent(30) {
            self.send(link, to, signal(3, 1, &[destination, source, 1, 0]));
        }
        self.send(link, to, signal(3, 1, &[destination, source, 0, 0]));
        self.send(link, from, signal(4, 2, &[destination, 0]));
        self.send(link, to, signal(5, 2, &[source, 0, 0]));
        if second {
            self.send(link, from, signal(2, 3, &[0x1001, 0x0070]));
            self.send(link, to, signal(3, 3, &[0x0071, 0x0070, 0, 0]));
        }
        let mut frames = vec![(from, control(0, true, 0x3F)), (to, control(0, true, 0x73))];
        for &dlci in dlcis {
            frames.push((from, uih(0, true, None, &[0x83, 0x11, dlci, 0xF0, 7, 0, 0x7A, 0x03, 0, 7])));
            frames.push((to, uih(0, false, None, &[0x81, 0x11, dlci, 0xE0, 7, 0, 0x7A, 0x03, 0, 7])));
            frames.push((from, control(dlci, true, 0x3F)));
            frames.push((to, control(dlci, true, 0x73)));
            frames.push((from, uih(0, true, None, &[0xE3, 0x05, dlci << 2 | 3, 0x8D])));
        }
        for (direction, frame) in frames {
            let pdu = self.rfcomm(link.cid(direction), frame);
            self.send(link, direction, pdu);
        }
    }

    /// What a link is to send one way: the pieces of all DLCIs, mixed, with credits and other PDUs between.
    fn fill(&mut self, link: &mut Link, direction: Direction, dlcis: &[u8], second: bool) {
        let mut streams: Vec<(u8, VecDeque<Vec<u8>>)> = dlcis
            .iter()
            .map(|&dlci| {
                let stream = stream(self.rng);
                (dlci, pieces(self.rng, &stream).into())
            })
            .collect();
        let command = direction == link.opener;
        while !streams.is_empty() {
            let i = self.rng.within(0, streams.len() - 1);
            let (dlci, left) = &mut streams[i];
            let Some(piece) = left.pop_front() else {
                streams.swap_remove(i);
                continue;
            };
            let credit = if self.rng.percent(25) { Some(self.rng.byte()) } else { None };
            link.push(direction, self.rfcomm(link.cid(direction), uih(*dlci, command, credit, &piece)));
            if self.rng.percent(10) {
                link.push(direction, self.rfcomm(link.cid(direction), uih(*dlci, command, Some(4), &[])));
            }
            if second && self.rng.percent(15) {
                // A frame on another service's channel is nobody's frame.
                let cid = if direction == link.opener { 0x0071 } else { 0x0070 };
                let frame = frame(self.rng);
                link.push(direction, self.rfcomm(cid, uih(*dlci, true, None, &frame)));
            }
        }
    }
}

/// A trace of one of the three datalinks.
pub fn trace(rng: &mut Rng, datalink: u32) -> Generated {
    let mut channels: Vec<u8> = (1..=30).collect();
    let mut dlcis = Vec::new();
    for _ in 0..rng.within(1, 3) {
        let channel = channels.swap_remove(rng.within(0, channels.len() - 1));
        dlcis.push(channel << 1 | rng.byte() & 1);
    }
    // Adapters that share few handles, or one adapter with many.
    let (adapters, most) = if datalink == 2001 { (&[0, 1, 3][..], rng.within(1, 2)) } else { (&[0][..], 5) };
    let handles = &[0x001, 0x006, 0x040, 0x100, 0xEFF][..most];
    let mut names: Vec<(u16, u16)> =
        adapters.iter().flat_map(|&adapter| handles.iter().map(move |&handle| (adapter, handle))).collect();
    let count = rng.within(1, 3);
    let fragment = rng.pick(&[5, 17, 27, 64, 339]);
    let us = 1_600_000_000_000_000 + rng.within(0, 200_000_000_000_000) as u64;
    let noise = rng.pick(&[0, 5, 40]);
    let mut maker = Maker { rng, trace: Trace::new(datalink), us, fragment, noise };
    let mut links = Vec::new();
    for _ in 0..count {
        let (adapter, handle) = names.swap_remove(maker.rng.within(0, names.len() - 1));
        let cids = [cid(maker.rng), cid(maker.rng)];
        let opener = maker.rng.pick(&[Rx, Tx]);
        let mut link = Link { adapter, handle, cids, opener, waiting: Default::default(), open: Default::default() };
        let second = maker.rng.percent(40);
        maker.open(&mut link, &dlcis, second);
        for direction in [Rx, Tx] {
            maker.fill(&mut link, direction, &dlcis, second);
        }
        links.push(link);
    }
    // Whatever waits crosses, one fragment at a time, of any link and either way.
    while links.iter().any(|link| [0, 1].iter().any(|&i| !link.waiting[i].is_empty() || !link.open[i].is_empty())) {
        let i = maker.rng.within(0, links.len() - 1);
        let direction = maker.rng.pick(&[Rx, Tx]);
        maker.step(&mut links[i], direction);
        if maker.rng.percent(5) {
            maker.noise();
        }
    }
    Generated { container: Container::Btsnoop, file: maker.trace.file, starts: maker.trace.starts, dlcis }
}

/// The packets of a trace of datalink 1002 in pcap, with the same times. Its directions are 0 and 1, and every packet has one: tshark
/// takes others by their low bit, and gives up a file at a packet without one.
pub fn in_pcap(rng: &mut Rng, form: Form) -> Generated {
    let made = trace(rng, 1002);
    let file = pcap::twin(&made.file, form);
    // A record's header is 24 bytes in btsnoop; in pcap 16, and 4 for the direction.
    let starts = made.starts.iter().enumerate().map(|(i, start)| start - 16 - 24 * i + 24 + 20 * i).collect();
    Generated { container: Container::Pcap, file, starts, dlcis: made.dlcis }
}
