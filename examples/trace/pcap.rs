//! Writes pcap files: the packets of a btsnoop file, with the same times.

#![allow(dead_code)]

use super::EPOCH;

/// The form of a pcap file: how its numbers stand, and what the fractions of its times are.
#[derive(Debug, Clone, Copy, PartialEq, Eq)]
pub struct Form {
    /// The highest byte first, else the lowest.
    pub big: bool,
    /// Nanoseconds, else microseconds.
    pub nano: bool,
}

/// As most programs write it.
pub const PLAIN: Form = Form { big: false, nano: false };

/// Each form.
pub const FORMS: [Form; 4] =
    [PLAIN, Form { big: true, nano: false }, Form { big: false, nano: true }, Form { big: true, nano: true }];

impl Form {
    fn number(self, n: u32) -> [u8; 4] {
        if self.big {
            n.to_be_bytes()
        } else {
            n.to_le_bytes()
        }
    }

    /// The header of a file: version 2.4, packets of up to 262,144 bytes.
    pub fn header(self, link_type: u32) -> Vec<u8> {
        let magic = self.number(if self.nano { 0xA1B2_3C4D } else { 0xA1B2_C3D4 });
        let version = if self.big { [0, 2, 0, 4] } else { [2, 0, 4, 0] };
        [magic, version, [0; 4], [0; 4], self.number(262_144), self.number(link_type)].concat()
    }

    /// A record, at so many microseconds since 1970, of a packet that had so many bytes when it was recorded.
    pub fn record(self, us: u64, original: u32, packet: &[u8]) -> Vec<u8> {
        let fraction = (us % 1_000_000) as u32 * if self.nano { 1000 } else { 1 };
        let numbers = [(us / 1_000_000) as u32, fraction, packet.len() as u32, original];
        [&numbers.map(|n| self.number(n)).concat(), packet].concat()
    }
}

fn be32(bytes: &[u8], at: usize) -> u32 {
    u32::from_be_bytes([bytes[at], bytes[at + 1], bytes[at + 2], bytes[at + 3]])
}

/// What stands before a record's packet in pcap: the direction, and the H4 type where the packet has none. What btsnoop passes over by
/// its flags gets a direction that is neither way.
fn before(datalink: u32, flags: u32, packet: &[u8]) -> Vec<u8> {
    let (direction, kind) = match (datalink, flags & 0xFFFF) {
        (2001, code @ 2..=5) => (code % 2, Some([1, 4, 2, 2][code as usize - 2])),
        (2001, _) => (2, None),
        (1002, _) if flags & 2 != 0 && packet.first() == Some(&2) => (2, None),
        (1002, _) => (flags % 2, None),
        _ => (flags % 2, Some([2, 2, 1, 4][flags as usize % 4])),
    };
    [&direction.to_be_bytes()[..], kind.as_slice()].concat()
}

/// The packets of a btsnoop file's whole records, with the same times, in a pcap file of link type 201. That has no place for an
/// adapter's index, nor for what the recorder dropped.
pub fn twin(btsnoop: &[u8], form: Form) -> Vec<u8> {
    let datalink = be32(btsnoop, 12);
    let (mut file, mut rest) = (form.header(201), &btsnoop[16..]);
    while let Some((head, more)) = rest.split_at_checked(24) {
        let (original, flags) = (be32(head, 0), be32(head, 8));
        let time = u64::from(be32(head, 16)) << 32 | u64::from(be32(head, 20));
        let Some((packet, more)) = more.split_at_checked(be32(head, 4) as usize) else { break };
        let before = before(datalink, flags, packet);
        let original = original.saturating_add(before.len() as u32);
        file.extend(form.record(time.saturating_sub(EPOCH), original, &[&before, packet].concat()));
        rest = more;
    }
    file
}
