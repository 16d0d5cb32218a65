//! The FCS of a UIH frame, from the words of TS 07.10, and a walk through a file that finds the frames whose FCS is wrong.
//! The walk shares nothing with `model` but the container pcap. It says how many of them count on a DLCI, and writes the file
//! in which they are no UIH frames: the source, which checks no FCS, reads of it what is to be read with the FCS checked.

use std::borrow::Cow;
use std::collections::{BTreeMap, BTreeSet};

use crate::answer::Container;
use crate::expected::LONGEST_FILE;
use crate::pcap;

/// x^8 + x^2 + x + 1.
const GENERATOR: u64 = 0b1_0000_0111;

/// What is left of a polynomial divided by the generator, modulo 2.
fn remainder(mut dividend: u64) -> u64 {
    for power in (8..64).rev() {
        if dividend >> power & 1 == 1 {
            dividend ^= GENERATOR << (power - 8);
        }
    }
    dividend
}

/// The FCS over at most four bytes: the complement of the sum of two remainders, that of x^k (x^7 + .. + 1), where k is the
/// number of bits, and that of x^8 times their polynomial. A byte is sent from its lowest bit on, and what is sent first has
/// the highest power; so has the FCS.
pub fn over(bytes: &[u8]) -> u8 {
    let content = bytes.iter().fold(0, |content, byte| content << 8 | u64::from(byte.reverse_bits()));
    let sum = remainder(0xFF << (8 * bytes.len())) ^ remainder(content << 8);
    (!(sum as u8)).reverse_bits()
}

/// The FCS of a UIH frame, which is over address and control.
pub fn right(address: u8, control: u8) -> u8 {
    over(&[address, control])
}

/// The control of an unnumbered acknowledgement, which import passes over.
const UA: u8 = 0x73;

/// A UIH frame with a wrong FCS.
pub struct Wrong {
    pub dlci: u8,
    /// Whether it is counted: its PDU is tried, and is no PSM 3 request.
    pub counts: bool,
    /// Where in the file its control stands.
    control: usize,
}

/// How many frames count on a DLCI.
pub fn count(wrong: &[Wrong], dlci: u64) -> u64 {
    wrong.iter().filter(|frame| frame.counts && u64::from(frame.dlci) == dlci).count() as u64
}

/// The file without its wrong frames: each has another control.
pub fn rewritten<'a>(file: &'a [u8], wrong: &[Wrong]) -> Cow<'a, [u8]> {
    let mut file = Cow::Borrowed(file);
    for frame in wrong {
        file.to_mut()[frame.control] = UA;
    }
    file
}

/// The frames of a file whose FCS is wrong, of whole PDUs in whole records. A file that import refuses has none to tell.
pub fn wrong(container: Container, file: &[u8]) -> Vec<Wrong> {
    if file.len() > LONGEST_FILE {
        return Vec::new();
    }
    let pdus = pdus(&packets(container, file));
    let channels = Channels::of(&pdus);
    pdus.iter().filter_map(|pdu| pdu.wrong(&channels)).collect()
}

/// The information of a UIH frame: its link (index and handle in one number) and DLCI, how many bytes it has, whether its
/// FCS is right, and whether its PDU is tried.
pub struct Information {
    pub link: u32,
    pub dlci: u8,
    pub bytes: usize,
    pub right: bool,
    pub tried: bool,
}

/// The information of the UIH frames of a file, of whole PDUs in whole records.
pub fn information(container: Container, file: &[u8]) -> Vec<Information> {
    let pdus = pdus(&packets(container, file));
    let channels = Channels::of(&pdus);
    let read = |pdu: &Pdu| {
        let (dlci, bytes, right) = pdu.frame()?;
        Some(Information { link: pdu.side.0, dlci, bytes, right, tried: pdu.is_tried(&channels) })
    };
    pdus.iter().filter_map(read).collect()
}

/// How many whole PDUs a file has, and how many pieces with the FCS not checked, and checked: information that is not empty,
/// of any DLCI but 0.
pub fn counts(container: Container, file: &[u8]) -> (usize, [usize; 2]) {
    let pieces: Vec<Information> = information(container, file)
        .into_iter()
        .filter(|frame| frame.tried && frame.dlci > 0 && frame.bytes > 0)
        .collect();
    let right = pieces.iter().filter(|frame| frame.right).count();
    (pdus(&packets(container, file)).len(), [pieces.len(), right])
}

/// Link and direction.
type Side = (u32, bool);

/// An ACL packet: its link and direction, whether it starts a PDU, and its data, which stand at this place.
struct Packet<'a> {
    side: Side,
    start: bool,
    at: usize,
    data: &'a [u8],
}

/// Where the ACL packets of a file stand, each with its adapter's index and direction.
fn acl(container: Container, file: &[u8]) -> Vec<(usize, &[u8], u32, bool)> {
    let mut found = Vec::new();
    if container == Container::Pcap {
        for record in pcap::read(file, pcap::RIGHT).0 {
            if let (Some(received), Some(packet)) = (record.received, record.acl) {
                found.push((record.at + record.bytes.len() - packet.len(), packet, 0, received));
            }
        }
        return found;
    }
    let four = |at: usize| file.get(at..at + 4).map(|four| u32::from_be_bytes(four.try_into().unwrap()));
    let Some(datalink) = four(12) else { return found };
    let mut at = 16;
    while let (Some(included), Some(flags), Some(_)) = (four(at + 4), four(at + 8), four(at + 20)) {
        let Some(packet) = file[at + 24..].get(..included as usize) else { break };
        let start = at + 24;
        at = start + packet.len();
        match (datalink, flags as u16, packet) {
            (2001, 4 | 5, _) => found.push((start, packet, flags >> 16, flags & 1 == 1)),
            (1001, low, _) if low & 2 == 0 => found.push((start, packet, 0, low & 1 == 1)),
            (1002, low, [2, behind @ ..]) if low & 2 == 0 => found.push((start + 1, behind, 0, low & 1 == 1)),
            _ => (),
        }
    }
    found
}

fn packets(container: Container, file: &[u8]) -> Vec<Packet<'_>> {
    let mut packets = Vec::new();
    for (at, packet, index, received) in acl(container, file) {
        let [low, high, short, long, behind @ ..] = packet else { continue };
        let length = usize::from(*short) | usize::from(*long) << 8;
        let Some(data) = behind.get(..length) else { continue };
        let handle = u32::from(*low) | u32::from(*high & 0x0F) << 8;
        packets.push(Packet { side: (index << 12 | handle, received), start: *high >> 4 & 3 != 1, at: at + 4, data });
    }
    packets
}

/// A whole PDU: its payload, and where in the file the payload's second byte stands, if it has one.
struct Pdu {
    side: Side,
    cid: u16,
    payload: Vec<u8>,
    second: Option<usize>,
}

fn pdus(packets: &[Packet]) -> Vec<Pdu> {
    // The bytes that are there, and where each stands.
    let mut open: BTreeMap<Side, Vec<(u8, usize)>> = BTreeMap::new();
    let mut pdus = Vec::new();
    for packet in packets {
        if packet.start {
            open.insert(packet.side, Vec::new());
        }
        let Some(bytes) = open.get_mut(&packet.side) else { continue };
        bytes.extend(packet.data.iter().copied().zip(packet.at..));
        let byte = |at: usize| bytes.get(at).map(|(byte, _)| *byte);
        let (Some(low), Some(high)) = (byte(0), byte(1)) else { continue };
        let end = 4 + usize::from(u16::from_le_bytes([low, high]));
        if bytes.len() < end {
            continue;
        }
        let cid = u16::from_le_bytes([bytes[2].0, bytes[3].0]);
        let payload = bytes[4..end].iter().map(|(byte, _)| *byte).collect();
        let second = bytes[..end].get(5).map(|(_, place)| *place);
        pdus.push(Pdu { side: packet.side, cid, payload, second });
        open.remove(&packet.side);
    }
    pdus
}

/// The commands of a payload on CID 1, each by its code and the numbers of its body.
fn commands(payload: &[u8]) -> Vec<(u8, Vec<u16>)> {
    let mut commands = Vec::new();
    let mut rest = payload;
    while let [code, _, low, high, behind @ ..] = rest {
        let Some(body) = behind.get(..usize::from(u16::from_le_bytes([*low, *high]))) else { break };
        commands.push((*code, body.chunks_exact(2).map(|two| u16::from_le_bytes([two[0], two[1]])).collect()));
        rest = &behind[body.len()..];
    }
    commands
}

/// What the signalling of a whole file names and admits: data with these CIDs on these sides.
#[derive(Default)]
struct Channels {
    named: BTreeSet<(Side, u16)>,
    admitted: BTreeSet<(Side, u16)>,
}

impl Channels {
    fn of(pdus: &[Pdu]) -> Channels {
        let mut channels = Channels::default();
        // PSM 3 requests so far: who asked, and for which source.
        let mut requests = BTreeSet::new();
        for pdu in pdus.iter().filter(|pdu| pdu.cid == 1) {
            let other = (pdu.side.0, !pdu.side.1);
            for (code, numbers) in commands(&pdu.payload) {
                match (code, &numbers[..]) {
                    (2, [psm, source, ..]) => {
                        channels.named.insert((other, *source));
                        if *psm == 3 {
                            channels.admitted.insert((other, *source));
                            requests.insert((pdu.side, *source));
                        }
                    }
                    (3, [destination, source, results @ ..]) => {
                        channels.named.insert((other, *destination));
                        if results.first() == Some(&0) && requests.contains(&(other, *source)) {
                            channels.admitted.insert((other, *destination));
                        }
                    }
                    _ => (),
                }
            }
        }
        channels
    }
}

impl Pdu {
    /// Whether it is tried as RFCOMM. On CID 1 one with a PSM 3 request is done with before.
    fn is_tried(&self, channels: &Channels) -> bool {
        let asks = |(code, numbers): &(u8, Vec<u16>)| *code == 2 && numbers.first() == Some(&3);
        if self.cid == 1 && commands(&self.payload).iter().any(asks) {
            return false;
        }
        let key = (self.side, self.cid);
        channels.admitted.contains(&key) || self.cid >= 0x40 && !channels.named.contains(&key)
    }

    /// The UIH frame that it is, if it has all its bytes: DLCI, how many bytes of information, and whether the FCS is right.
    fn frame(&self) -> Option<(u8, usize, bool)> {
        let [address, control @ (0xEF | 0xFF), short, rest @ ..] = &self.payload[..] else { return None };
        let (length, rest) = match (short % 2, rest) {
            (1, rest) => (usize::from(short / 2), rest),
            (_, [long, rest @ ..]) => (usize::from(short / 2) + usize::from(*long) * 128, rest),
            _ => return None,
        };
        let credit = usize::from(*control == 0xFF);
        let fcs = *rest.get(credit + length)?;
        Some((address / 4, length, fcs == right(*address, *control)))
    }

    /// The wrong frame that it is, if it is one.
    fn wrong(&self, channels: &Channels) -> Option<Wrong> {
        let (dlci, _, right) = self.frame()?;
        let control = self.second?;
        (!right).then(|| Wrong { dlci, counts: self.is_tried(channels), control })
    }
}
