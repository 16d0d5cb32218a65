//! The packets of a file by their links, read plainly from documents 01 and 02: which links a file has; the file with one
//! link's records alone, which the source can list; and files that hold the same packets of a link and differ in all else.

use crate::answer::{Container, Stream};
use crate::codec;
use crate::import::ack;
use crate::model::be;
use crate::pcap::{self, Form, FORMS, HEAD};
use crate::rng::Rng;
use crate::trace::{self, Trace, DATALINKS, OTHERS};
use oracle::capture::Direction::Rx;
use oracle::capture::BTSNOOP_EPOCH_DELTA_US as EPOCH;

/// An adapter's index and a handle.
pub type Link = (u16, u16);

/// An ACL packet all of whose fields are there.
#[derive(Clone, Debug, PartialEq)]
pub struct Packet {
    pub link: Link,
    pub ms: u64,
    pub received: bool,
    /// The boundary flag.
    pub flag: u16,
    pub data: Vec<u8>,
}

/// A whole record: where it starts and ends, and its packet.
struct Row {
    at: usize,
    end: usize,
    packet: Option<Packet>,
}

fn head(container: Container) -> usize {
    match container {
        Container::Btsnoop => 16,
        Container::Pcap => HEAD,
    }
}

/// The packet that these bytes are.
fn packet(index: u16, ms: u64, received: bool, bytes: &[u8]) -> Option<Packet> {
    let [low, high, short, long, behind @ ..] = bytes else { return None };
    let [field, length] = [[*low, *high], [*short, *long]].map(u16::from_le_bytes);
    let data = behind.get(..length.into())?.to_vec();
    Some(Packet { link: (index, field & 0x0FFF), ms, received, flag: field >> 12 & 3, data })
}

/// The whole records of a file. One without a header has none.
fn rows(container: Container, file: &[u8]) -> Vec<Row> {
    if container == Container::Pcap {
        let of = |record: pcap::Record| {
            let packet = match (record.received, record.acl) {
                (Some(received), Some(acl)) => packet(0, record.ms, received, acl),
                _ => None,
            };
            Row { at: record.at, end: record.at + record.bytes.len(), packet }
        };
        return pcap::read(file, pcap::RIGHT).0.into_iter().map(of).collect();
    }
    let mut rows = Vec::new();
    let Some(datalink) = file.get(12..16).map(be) else { return rows };
    let mut at = 16;
    while let Some(head) = file.get(at..at + 24) {
        let Some(bytes) = file[at + 24..].get(..be(&head[4..8]) as usize) else { break };
        let (flags, ms) = (be(&head[8..12]) as u32, be(&head[16..24]).saturating_sub(EPOCH) / 1000);
        let (received, upper) = (flags % 2 == 1, (flags >> 16) as u16);
        let packet = match (datalink, flags as u16) {
            (2001, 4 | 5) => packet(upper, ms, received, bytes),
            (1001, low) if low & 2 == 0 => packet(0, ms, received, bytes),
            (1002, low) if low & 2 == 0 => bytes.strip_prefix(&[2]).and_then(|acl| packet(0, ms, received, acl)),
            _ => None,
        };
        rows.push(Row { at, end: at + 24 + bytes.len(), packet });
        at += 24 + bytes.len();
    }
    rows
}

/// All packets of a file.
pub fn packets(container: Container, file: &[u8]) -> Vec<Packet> {
    rows(container, file).into_iter().filter_map(|row| row.packet).collect()
}

/// The file with one link's records alone.
pub fn alone(container: Container, file: &[u8], link: Link) -> Vec<u8> {
    let mut alone = file[..head(container)].to_vec();
    let own = rows(container, file).into_iter().filter(|row| row.packet.as_ref().is_some_and(|p| p.link == link));
    own.for_each(|row| alone.extend(&file[row.at..row.end]));
    alone
}

/// The same as a btsnoop file.
pub fn for_rust(container: Container, file: &[u8], link: Link) -> Vec<u8> {
    let alone = alone(container, file, link);
    match container {
        Container::Btsnoop => alone,
        Container::Pcap => pcap::twin(&alone, [1001, 1002][file.len() % 2]),
    }
}

/// A btsnoop file of one handle with a frame of another before all else, on this DLCI.
pub fn behind_frame(file: &[u8], stream: Stream) -> Vec<u8> {
    let mut trace = Trace::new(be(&file[12..16]) as u32);
    trace.pdu(Rx, EPOCH, stream.handle ^ 1, 0x41, &trace::uih(stream.dlci, &ack(0), None, false));
    [&trace.file[..], &file[16..]].concat()
}

// ---- files that differ in all else

/// How a file is written.
#[derive(Clone, Copy, Debug, PartialEq)]
pub enum Kind {
    Datalink(u32),
    Pcap(Form),
}

impl Kind {
    pub fn container(self) -> Container {
        match self {
            Kind::Datalink(_) => Container::Btsnoop,
            Kind::Pcap(_) => Container::Pcap,
        }
    }

    /// The kind of a file that has a header.
    pub fn of(container: Container, file: &[u8]) -> Option<Kind> {
        match container {
            Container::Btsnoop => file.get(12..16).map(|datalink| Kind::Datalink(be(datalink) as u32)),
            Container::Pcap => (pcap::RIGHT.form)(file).map(Kind::Pcap),
        }
    }

    /// Whether a file of this kind can hold the packets of the link: its index, and their times.
    fn holds(self, link: Link, own: &[Packet]) -> bool {
        match self {
            Kind::Datalink(2001) => true,
            Kind::Datalink(_) => link.0 == 0,
            Kind::Pcap(_) => link.0 == 0 && own.iter().all(|packet| packet.ms / 1000 <= u64::from(u32::MAX)),
        }
    }

    /// An empty file of this kind.
    fn empty(self, rng: &mut Rng) -> Vec<u8> {
        match self {
            Kind::Datalink(datalink) => Trace::new(datalink).file,
            Kind::Pcap(form) => {
                let mut file = Trace::pcap(form).file;
                let other = rng.bytes(16);
                file[4..20].copy_from_slice(&other);
                file
            }
        }
    }

    /// A record with this packet, whose bytes these are; what nobody looks at is left to chance.
    fn put(self, rng: &mut Rng, file: &mut Vec<u8>, packet: &Packet, bytes: &[u8]) {
        let way = u32::from(packet.received);
        match self {
            Kind::Datalink(datalink) => {
                let any = (rng.next() as u32) << 2;
                let flags = if datalink == 2001 { u32::from(packet.link.0) << 16 | 4 | way } else { any | way };
                let kind = if datalink == 1002 { &[2][..] } else { &[] };
                self.row(rng, file, flags, packet.ms, &[kind, bytes].concat());
            }
            Kind::Pcap(_) => self.row(rng, file, way, packet.ms, &[&[2], bytes].concat()),
        }
    }

    /// A record of these flags, or this direction, at this time.
    fn row(self, rng: &mut Rng, file: &mut Vec<u8>, flags: u32, ms: u64, bytes: &[u8]) {
        let any = rng.next() as u32;
        let length = bytes.len() as u32;
        match self {
            Kind::Datalink(_) => {
                for word in [rng.pick(&[length, 0, any]), length, flags, rng.pick(&[0, 0, 1, any])] {
                    file.extend(word.to_be_bytes());
                }
                file.extend(stamp(rng, ms).to_be_bytes());
            }
            Kind::Pcap(form) => {
                // At times some of the seconds stand among the fractions.
                let seconds = ms / 1000;
                let most = (u64::from(u32::MAX) / (1000 * form.parts())).saturating_sub(1).min(seconds);
                let moved = if rng.percent(20) { rng.below(most as usize + 1) as u64 } else { 0 };
                let fraction = (ms % 1000 + 1000 * moved) * form.parts() + rng.below(form.parts() as usize) as u64;
                let lengths = [length + 4, rng.pick(&[length + 4, 0, any])];
                for number in [(seconds - moved) as u32, fraction as u32, lengths[0], lengths[1]] {
                    file.extend(form.bytes(number));
                }
                file.extend(flags.to_be_bytes());
            }
        }
        file.extend(bytes);
    }

    /// A record that has no packet: of another type or direction, or without some of its data.
    fn put_none(self, rng: &mut Rng, file: &mut Vec<u8>, packet: &Packet) {
        let mut bytes = acl(rng, packet);
        let ms = rng.pick(&[packet.ms, 0, 5]).min(1000 * u64::from(u32::MAX));
        if rng.percent(40) {
            bytes.truncate(rng.below(4 + packet.data.len()));
            return self.put(rng, file, &Packet { ms, ..packet.clone() }, &bytes);
        }
        let (way, upper) = (u32::from(packet.received), u32::from(packet.link.0) << 16);
        match self {
            Kind::Datalink(2001) => {
                let flags = upper | rng.pick(&[0, 1, 2, 3, 6, 7, 0x104, 0x8005]);
                self.row(rng, file, flags, ms, &bytes);
            }
            Kind::Datalink(1002) if rng.percent(50) => {
                let kind = trace::other_type(rng);
                self.row(rng, file, way, ms, &[&[kind], &bytes[..]].concat());
            }
            Kind::Datalink(datalink) => {
                let kind = if datalink == 1002 { &[2][..] } else { &[] };
                self.row(rng, file, way | 2 | upper, ms, &[kind, &bytes].concat());
            }
            Kind::Pcap(_) => {
                let (flags, kind) =
                    if rng.percent(50) { (rng.pick(&OTHERS), 2) } else { (way, trace::other_type(rng)) };
                self.row(rng, file, flags, ms, &[&[kind], &bytes[..]].concat());
            }
        }
    }
}

/// A timestamp of these milliseconds.
fn stamp(rng: &mut Rng, ms: u64) -> u64 {
    if ms == 0 && rng.percent(50) {
        return rng.pick(&[0, 1, EPOCH - 1000, EPOCH - 1, EPOCH]);
    }
    let start = EPOCH + 1000 * ms;
    start.checked_add(rng.below(1000) as u64).unwrap_or(start)
}

/// A packet's bytes, with any broadcast bits, and at times bytes past its data.
fn acl(rng: &mut Rng, packet: &Packet) -> Vec<u8> {
    let mut bytes = trace::acl_packet(packet.link.1, packet.flag, &packet.data);
    bytes[1] |= rng.pick(&[0, 0, 0x40, 0x80, 0xC0]);
    if rng.percent(20) {
        let n = rng.below(6);
        bytes.extend(rng.mixed(n, &codec::BYTES, 60));
    }
    bytes
}

/// Another link: with the same handle on another adapter, with another handle, or any.
fn another(rng: &mut Rng, kind: Kind, (index, handle): Link) -> Link {
    let own = (index, handle ^ (1 << rng.below(12)));
    if kind != Kind::Datalink(2001) {
        return (0, own.1);
    }
    let (bit, any) = (1 << rng.below(16), (rng.next() as u16, handle));
    let link = rng.pick(&[own, (index ^ bit, handle), (index ^ bit, own.1), any]);
    if link == (index, handle) {
        own
    } else {
        link
    }
}

/// What other links may do that would mean something to this one: name and admit its CIDs, serve its requests, begin its
/// sessions and links, and send on its CIDs.
fn meddling(rng: &mut Rng, own: &[Packet], dlci: u8) -> (u16, Vec<u8>) {
    let begun: Vec<u16> =
        own.iter().filter(|p| p.data.len() >= 4).map(|p| u16::from_le_bytes([p.data[2], p.data[3]])).collect();
    let cid = if begun.is_empty() { 0x41 } else { rng.pick(&begun) };
    let other = rng.pick(&[cid, 0x40, 0x41, 0x42, 0x20]);
    match rng.below(7) {
        0 => (1, trace::request(1, cid)),
        1 => (1, trace::request(3, cid)),
        2 => (1, trace::response(cid, other, 0)),
        3 => (1, trace::response(other, cid, rng.pick(&[0, 1]))),
        4 => (cid, trace::sabm(0)),
        5 => (cid, trace::sabm(dlci)),
        _ => (cid, trace::uih(dlci, rng.pick(&[&[0x3E][..], &[0x3C], &[0x3E, 0x3C], &[0]]), None, false)),
    }
}

/// A file that holds the same packets of a link as these, in any kind that can hold them. Of the others some are left out,
/// changed, moved or said twice, and there are more.
pub fn other(rng: &mut Rng, all: &[Packet], more: &[Packet], stream: Stream) -> (Kind, Vec<u8>) {
    let link = (stream.index, stream.handle);
    let own: Vec<Packet> = all.iter().filter(|packet| packet.link == link).cloned().collect();
    let kinds = DATALINKS.map(Kind::Datalink).into_iter().chain(FORMS.map(Kind::Pcap));
    let kinds: Vec<Kind> = kinds.filter(|kind| kind.holds(link, &own)).collect();
    let kind = rng.pick(&kinds);
    // How often, in a hundred, another packet is left out, said twice, changed, and how many come to them.
    let [gone, twice, changed] = [[0, 20, 100], [0, 10, 30], [0, 30, 90]].map(|often| rng.pick(&often));
    let mut others = Vec::new();
    for packet in all.iter().filter(|packet| packet.link != link) {
        for _ in 0..if rng.percent(gone) { 0 } else { 1 + usize::from(rng.percent(twice)) } {
            others.push(packet.clone());
        }
    }
    let many = rng.pick(&[0, 4, 30]);
    for _ in 0..many {
        let from = if rng.percent(40) { more } else { &own };
        let mut packet = Packet { link, ms: 7, received: rng.percent(50), flag: 2, data: Vec::new() };
        if rng.percent(50) || from.is_empty() {
            let (cid, payload) = meddling(rng, &own, stream.dlci);
            packet.data = trace::l2cap(cid, &payload);
        } else {
            packet = from[rng.below(from.len())].clone();
        }
        packet.link = another(rng, kind, link);
        others.push(packet);
    }
    for packet in &mut others {
        if rng.percent(changed) {
            change(rng, packet);
        }
        if kind != Kind::Datalink(2001) {
            packet.link.0 = 0;
        }
        if packet.link == link {
            packet.link = another(rng, kind, link);
        }
        packet.ms = packet.ms.min(if let Kind::Pcap(_) = kind { 1000 * u64::from(u32::MAX) } else { u64::MAX });
    }
    if rng.percent(40) {
        for i in (1..others.len()).rev() {
            others.swap(i, rng.below(i + 1));
        }
    }
    (kind, joined(rng, kind, &own, &others))
}

/// Another time, direction, flag, data or link.
fn change(rng: &mut Rng, packet: &mut Packet) {
    match rng.below(5) {
        0 => packet.ms = rng.below(1 << 40) as u64,
        1 => packet.received = !packet.received,
        2 => packet.flag = rng.below(4) as u16,
        3 => packet.link.1 ^= 1 << rng.below(12),
        _ => {
            let n = packet.data.len();
            if n > 0 {
                packet.data[rng.below(n)] = rng.byte();
            }
        }
    }
}

/// A file of both, each in its order, with records between that have no packet.
fn joined(rng: &mut Rng, kind: Kind, own: &[Packet], others: &[Packet]) -> Vec<u8> {
    let mut file = kind.empty(rng);
    let (mut own, mut others) = (own.iter(), others.iter());
    let noise = rng.pick(&[0, 5, 40]);
    loop {
        let (mine, left) = (own.len(), own.len() + others.len());
        if left == 0 {
            return file;
        }
        let next = if rng.below(left) < mine { own.next() } else { others.next() };
        let Some(packet) = next else { return file };
        if rng.percent(noise) {
            kind.put_none(rng, &mut file, packet);
        }
        let bytes = acl(rng, packet);
        kind.put(rng, &mut file, packet, &bytes);
    }
}
