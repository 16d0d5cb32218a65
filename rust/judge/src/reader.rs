//! A plain reader of traces, for what the library does not show: records and whole PDUs.

use std::collections::BTreeMap;

use crate::judged::{Link, Pdu, Seen};
use crate::trace::EPOCH;
use lumbryth::Container;
use lumbryth::Direction::{self, Rx, Tx};

fn big(bytes: &[u8]) -> u64 {
    bytes.iter().fold(0, |n, &byte| n << 8 | u64::from(byte))
}

fn little(bytes: &[u8]) -> usize {
    bytes.iter().rev().fold(0, |n, &byte| n << 8 | usize::from(byte))
}

/// A record: its time, and the ACL packet in it with its direction and its adapter's index, if it has one.
struct Record<'a> {
    ms: u64,
    acl: Option<(Direction, u16, &'a [u8])>,
}

fn of_btsnoop(file: &[u8]) -> Vec<Record<'_>> {
    let datalink = big(&file[12..16]);
    let mut records = Vec::new();
    let mut at = 16;
    while at < file.len() {
        let packet = &file[at + 24..at + 24 + big(&file[at + 4..at + 8]) as usize];
        let (index, flags) = (big(&file[at + 8..at + 10]) as u16, big(&file[at + 10..at + 12]));
        let ms = (big(&file[at + 16..at + 24]) - EPOCH) / 1000;
        at += 24 + packet.len();
        let acl = match (datalink, flags) {
            (2001, 4) => Some((Tx, index, packet)),
            (2001, 5) => Some((Rx, index, packet)),
            (1001, 0) => Some((Tx, 0, packet)),
            (1001, 1) => Some((Rx, 0, packet)),
            (1002, 0) => Some((Tx, 0, &packet[1..])),
            (1002, 1) => Some((Rx, 0, &packet[1..])),
            _ => None,
        };
        records.push(Record { ms, acl });
    }
    records
}

fn of_pcap(file: &[u8]) -> Vec<Record<'_>> {
    // The magic number is A1B2C3D4, or A1B23C4D with nanoseconds.
    let number = |at: usize| match file[0] {
        0xA1 => big(&file[at..at + 4]),
        _ => little(&file[at..at + 4]) as u64,
    };
    let millisecond = if number(0) == 0xA1B2_3C4D { 1_000_000 } else { 1000 };
    let mut records = Vec::new();
    let mut at = 24;
    while at < file.len() {
        let packet = &file[at + 16..at + 16 + number(at + 8) as usize];
        let ms = 1000 * number(at) + number(at + 4) / millisecond;
        at += 16 + packet.len();
        let acl = match (big(&packet[..4]), packet[4]) {
            (0, 2) => Some((Tx, 0, &packet[5..])),
            (1, 2) => Some((Rx, 0, &packet[5..])),
            _ => None,
        };
        records.push(Record { ms, acl });
    }
    records
}

/// The records and PDUs of a well-behaved trace.
pub fn read(container: Container, file: &[u8]) -> Seen {
    let records = match container {
        Container::Pcap => of_pcap(file),
        _ => of_btsnoop(file),
    };
    let mut seen = Seen::default();
    let mut open: BTreeMap<(Link, Direction), Vec<u8>> = BTreeMap::new();
    for Record { ms, acl } in records {
        seen.records += 1;
        let Some((direction, index, acl)) = acl else { continue };
        let field = little(&acl[..2]) as u16;
        let link = (index, field & 0x0FFF);
        let partial = open.entry((link, direction)).or_default();
        if field >> 12 & 3 != 1 {
            partial.clear();
        }
        partial.extend(&acl[4..]);
        if partial.len() >= 4 && partial.len() == 4 + little(&partial[..2]) {
            let bytes = std::mem::take(partial);
            seen.joined += usize::from(bytes.len() > acl.len() - 4);
            seen.pdus.push(Pdu { record: seen.records, direction, link, ms, bytes });
        }
    }
    seen
}
