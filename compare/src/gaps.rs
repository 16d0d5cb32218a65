//! The signs in a file that something is not in it, written plainly from their definitions (Places, Recorded, Partial and
//! Gaps in `crates/signs/specs`) and not from any code: what the call is held to, and what planted faults are made of.

use std::collections::BTreeMap;

use crate::answer::{Answer, Container};
use crate::model;
use crate::pcap;

/// How many values the call answers: two for each sign.
pub const VALUES: usize = 14;

/// The signs in the order of their values.
pub const SIGNS: [&str; 7] = ["short", "dropped", "skipped", "zeros", "stray", "given up", "open"];

/// Four bytes, highest first; one that is not there is 0.
pub fn be32(bytes: &[u8], at: usize) -> u64 {
    (at..at + 4).fold(0, |n, i| n * 256 + u64::from(bytes.get(i).copied().unwrap_or(0)))
}

/// Two bytes, lowest first; one that is not there is 0.
pub fn le16(bytes: &[u8], at: usize) -> usize {
    let byte = |i: usize| usize::from(bytes.get(i).copied().unwrap_or(0));
    byte(at) + 256 * byte(at + 1)
}

// ---- records

/// The whole records with their places: the byte of the file at which each starts.
fn records(file: &[u8]) -> Vec<(usize, &[u8])> {
    let mut records = Vec::new();
    let mut at = 16;
    while file.len() - at >= 24 && (file.len() - at - 24) as u64 >= be32(&file[at..], 4) {
        let size = 24 + be32(&file[at..], 4) as usize;
        records.push((at, &file[at..at + size]));
        at += size;
    }
    records
}

/// Stored short: the original length is over the included one.
fn is_short(record: &[u8]) -> bool {
    be32(record, 4) < be32(record, 0)
}

fn is_zeros(record: &[u8]) -> bool {
    record.iter().all(|byte| *byte == 0)
}

/// ACL data by its flags and, of 1002, by its first byte.
pub fn is_acl(datalink: u64, record: &[u8]) -> bool {
    let flags = be32(record, 8);
    match datalink {
        2001 => [4, 5].contains(&(flags % 65536)),
        1002 => flags / 2 % 2 != 1 && record.get(24) == Some(&2),
        _ => flags / 2 % 2 != 1,
    }
}

/// By how much the recorder's count of drops rises at each record over what it was before, from 0.
pub fn rises(drops: &[u64]) -> Vec<u64> {
    let before = std::iter::once(&0).chain(drops);
    drops.iter().zip(before).map(|(now, before)| now.saturating_sub(*before)).collect()
}

// ---- packets

/// An ACL packet with its place, all of whose fields are there.
#[derive(Clone, Copy)]
pub struct Packet<'a> {
    pub at: usize,
    /// 4096 times the adapter's index, and the handle.
    pub link: usize,
    pub rx: bool,
    pub start: bool,
    pub bytes: &'a [u8],
}

/// A packet's fields, by its adapter's index. One that is not there, or data, skips it; bytes past the data are ignored.
fn fragment(at: usize, index: u64, rx: bool, bytes: &[u8]) -> Option<Packet<'_>> {
    let (field, length) = (le16(bytes, 0), le16(bytes, 2));
    let start = field / 4096 % 4 != 1;
    let link = 4096 * index as usize + field % 4096;
    (4 + length <= bytes.len()).then(|| Packet { at, link, rx, start, bytes: &bytes[4..4 + length] })
}

/// What reads the packet of a record, by datalink and place.
pub type PacketOf = for<'a> fn(u64, usize, &'a [u8]) -> Option<Packet<'a>>;

/// The packet of a record.
pub fn packet_of(datalink: u64, at: usize, record: &[u8]) -> Option<Packet<'_>> {
    let (flags, bytes) = (be32(record, 8), &record[24..]);
    let rx = flags % 2 == 1;
    match datalink {
        2001 if [4, 5].contains(&(flags % 65536)) => fragment(at, flags / 65536, rx, bytes),
        1001 if flags / 2 % 2 != 1 => fragment(at, 0, rx, bytes),
        1002 if flags / 2 % 2 != 1 => fragment(at, 0, rx, bytes.strip_prefix(&[2])?),
        _ => None,
    }
}

/// What is open: the bytes at hand, and the place of the packet that began them.
#[derive(Clone)]
pub struct Begun {
    pub at: usize,
    pub bytes: Vec<u8>,
}

/// What stays open of the bytes at hand: none if a PDU is complete, else all of them.
fn still_open(bytes: Vec<u8>) -> Option<Vec<u8>> {
    (bytes.len() < 4 + le16(&bytes, 0)).then_some(bytes)
}

// ---- the definitions together

/// The definitions, each of which a fault may replace. Only `RIGHT` is the model.
#[derive(Clone, Copy)]
pub struct Reading {
    pub is_short: fn(&[u8]) -> bool,
    pub is_zeros: fn(&[u8]) -> bool,
    pub is_acl: fn(u64, &[u8]) -> bool,
    pub rises: fn(&[u64]) -> Vec<u64>,
    pub packet_of: PacketOf,
    /// A continuation with nothing open.
    pub is_stray: fn(Option<&Begun>, &Packet) -> bool,
    /// A start where a PDU is open.
    pub gives_up: fn(Option<&Begun>, &Packet) -> bool,
    /// The place at which what is open after a packet began.
    pub began: fn(Option<&Begun>, &Packet) -> usize,
    pub still_open: fn(Vec<u8>) -> Option<Vec<u8>>,
    /// A start gives up nothing of another adapter.
    pub start_apart: bool,
    /// The place that is told of all those where a sign shows; 0 if there is none.
    pub first: fn(&[usize]) -> usize,
    /// Changes what was found.
    pub change: fn(&mut Found, &[u8]),
    /// What is read otherwise in a pcap file.
    pub pcap: InPcap,
}

/// The definitions of what a record of a pcap file shows, each of which a fault may replace.
#[derive(Clone, Copy)]
pub struct InPcap {
    pub reading: pcap::Reading,
    pub is_short: fn(&pcap::Record) -> bool,
    /// The recorder's count of drops, which a record does not have.
    pub drops: fn(&pcap::Record) -> u64,
    pub is_zeros: fn(&pcap::Record) -> bool,
    pub is_acl: fn(&pcap::Record) -> bool,
    pub packet_of: for<'a> fn(&pcap::Record<'a>) -> Option<Packet<'a>>,
    /// The place that is told of a record.
    pub place: fn(&pcap::Record) -> usize,
}

/// ACL data is what has one of the two directions, and type 02 behind it.
const PCAP: InPcap = InPcap {
    reading: pcap::RIGHT,
    is_short: |record| record.original() > record.captured(),
    drops: |_| 0,
    is_zeros: |record| is_zeros(record.bytes),
    is_acl: |record| record.acl.is_some(),
    packet_of: |record| fragment(record.at, 0, record.received?, record.acl?),
    place: |record| record.at,
};

pub const RIGHT: Reading = Reading {
    is_short,
    is_zeros,
    is_acl,
    rises,
    packet_of,
    is_stray: |open, packet| open.is_none() && !packet.start,
    gives_up: |open, packet| open.is_some() && packet.start,
    began: |open, packet| match open {
        Some(begun) if !packet.start => begun.at,
        _ => packet.at,
    },
    still_open,
    start_apart: true,
    first: |places| places.first().copied().unwrap_or(0),
    change: |_, _| (),
    pcap: PCAP,
};

/// The places where each sign shows.
#[derive(Default)]
pub struct Found {
    pub short: Vec<usize>,
    /// How many packets were dropped in all.
    pub dropped: u64,
    pub dropped_at: Vec<usize>,
    pub skipped: Vec<usize>,
    pub zeros: Vec<usize>,
    pub stray: Vec<usize>,
    pub given_up: Vec<usize>,
    pub open: Vec<usize>,
    /// Packets that start a PDU. No sign; faults are made of it.
    pub starts: Vec<usize>,
}

/// What a record shows by itself.
struct Shown<'a> {
    at: usize,
    short: bool,
    drops: u64,
    acl: bool,
    zeros: bool,
    packet: Option<Packet<'a>>,
}

fn shown(container: Container, file: &[u8], reading: Reading) -> Vec<Shown<'_>> {
    let datalink = be32(file, 12);
    match container {
        Container::Btsnoop => {
            let shows = |(at, record)| Shown {
                at,
                short: (reading.is_short)(record),
                drops: be32(record, 12),
                acl: (reading.is_acl)(datalink, record),
                zeros: (reading.is_zeros)(record),
                packet: (reading.packet_of)(datalink, at, record),
            };
            records(file).into_iter().map(shows).collect()
        }
        Container::Pcap => {
            let own = reading.pcap;
            let mut shown = Vec::new();
            for record in pcap::read(file, own.reading).0 {
                let at = (own.place)(&record);
                let packet = (own.packet_of)(&record).map(|packet| Packet { at, ..packet });
                let [short, acl, zeros] = [own.is_short, own.is_acl, own.is_zeros].map(|shows| shows(&record));
                shown.push(Shown { at, short, drops: (own.drops)(&record), acl, zeros, packet });
            }
            shown
        }
    }
}

/// The signs of a file with a good header.
pub fn find(container: Container, file: &[u8], reading: Reading) -> Found {
    let records = shown(container, file, reading);
    let places = |test: &dyn Fn(&Shown) -> bool| -> Vec<usize> {
        records.iter().filter(|record| test(record)).map(|record| record.at).collect()
    };
    let packets: Vec<Packet> = records.iter().filter_map(|record| record.packet).collect();
    let drops: Vec<u64> = records.iter().map(|record| record.drops).collect();
    let rises = (reading.rises)(&drops);
    let mut found = Found {
        short: places(&|record| record.short),
        dropped: rises.iter().sum(),
        dropped_at: records.iter().zip(&rises).filter(|(_, by)| **by > 0).map(|(record, _)| record.at).collect(),
        skipped: places(&|record| record.acl && record.packet.is_none()),
        zeros: places(&|record| record.zeros),
        ..Found::default()
    };
    follow(&packets, reading, &mut found);
    (reading.change)(&mut found, file);
    found
}

/// Follows the packets of each link and direction, by what is open when each comes.
fn follow(packets: &[Packet], reading: Reading, found: &mut Found) {
    let mut open: BTreeMap<(usize, bool), Begun> = BTreeMap::new();
    for packet in packets {
        let before = open.remove(&(packet.link, packet.rx));
        if packet.start {
            found.starts.push(packet.at);
            open.retain(|(link, rx), _| reading.start_apart || (link % 4096, *rx) != (packet.link % 4096, packet.rx));
        }
        if (reading.is_stray)(before.as_ref(), packet) {
            found.stray.push(packet.at);
        }
        if (reading.gives_up)(before.as_ref(), packet) {
            found.given_up.push(packet.at);
        }
        let at = (reading.began)(before.as_ref(), packet);
        let joined = match before {
            _ if packet.start => Some(packet.bytes.to_vec()),
            Some(Begun { mut bytes, .. }) => {
                bytes.extend(packet.bytes);
                Some(bytes)
            }
            None => None,
        };
        if let Some(bytes) = joined.and_then(reading.still_open) {
            open.insert((packet.link, packet.rx), Begun { at, bytes });
        }
    }
    let began = |packet: &&Packet| open.get(&(packet.link, packet.rx)).is_some_and(|begun| begun.at == packet.at);
    found.open = packets.iter().filter(began).map(|packet| packet.at).collect();
}

impl Found {
    /// The places where each sign shows.
    pub fn places(&self) -> [&[usize]; SIGNS.len()] {
        [&self.short, &self.dropped_at, &self.skipped, &self.zeros, &self.stray, &self.given_up, &self.open]
    }

    /// The values: for each sign how many, and where the first is.
    pub fn values(&self, reading: Reading) -> [u64; VALUES] {
        let places = self.places();
        let mut many = places.map(|places| places.len() as u64);
        many[1] = self.dropped;
        std::array::from_fn(|i| if i % 2 == 0 { many[i / 2] } else { (reading.first)(places[i / 2]) as u64 })
    }
}

/// The call of a btsnoop file.
pub fn answer(file: &[u8], work: usize, tolerant: bool, reading: Reading) -> Answer {
    answer_in(Container::Btsnoop, file, work, tolerant, reading)
}

pub fn answer_in(container: Container, file: &[u8], work: usize, tolerant: bool, reading: Reading) -> Answer {
    let refusal = match container {
        Container::Btsnoop => model::refusal(container, file, work, tolerant, model::RIGHT),
        Container::Pcap => pcap::refusal(file, work, tolerant, reading.pcap.reading),
    };
    refusal.unwrap_or_else(|| Answer::done(&find(container, file, reading).values(reading), Vec::new()))
}
