//! Writes btsnoop files: records, ACL packets, L2CAP PDUs, RFCOMM frames. Beside it, the same packets in pcap.

pub mod pcap;

use lumbryth::Direction::{self, Rx};

/// The time of 1970-01-01 00:00 UTC in a btsnoop file: microseconds since the year 0.
pub const EPOCH: u64 = 0x00dc_ddb3_0f2f_8000;

/// A trace under construction.
pub struct Trace {
    datalink: u32,
    /// The adapter's index of the packets to come. Only datalink 2001 has a place for it.
    pub adapter: u16,
    /// Its bytes so far.
    pub file: Vec<u8>,
    /// Where each record starts.
    pub starts: Vec<usize>,
}

impl Trace {
    pub fn new(datalink: u32) -> Trace {
        let mut file = b"btsnoop\0\0\0\0\x01".to_vec();
        file.extend(datalink.to_be_bytes());
        Trace { datalink, adapter: 0, file, starts: Vec::new() }
    }

    /// A record, at so many microseconds since 1970.
    pub fn record(&mut self, flags: u32, us: u64, packet: &[u8]) {
        self.starts.push(self.file.len());
        self.file.extend((packet.len() as u32).to_be_bytes());
        self.file.extend((packet.len() as u32).to_be_bytes());
        self.file.extend(flags.to_be_bytes());
        self.file.extend(0_u32.to_be_bytes());
        self.file.extend((EPOCH + us).to_be_bytes());
        self.file.extend(packet);
    }

    /// A record of the Linux monitor: its code stands below the adapter's index.
    fn monitor(&mut self, code: u32, us: u64, packet: &[u8]) {
        self.record(u32::from(self.adapter) << 16 | code, us, packet);
    }

    /// An ACL packet: one fragment of a PDU, the first of it or one that goes on.
    pub fn fragment(&mut self, direction: Direction, us: u64, handle: u16, first: bool, data: &[u8]) {
        let mut packet = (handle | if first { 2 } else { 1 } << 12).to_le_bytes().to_vec();
        packet.extend((data.len() as u16).to_le_bytes());
        packet.extend(data);
        let rx = u32::from(direction == Rx);
        match self.datalink {
            2001 => self.monitor(4 + rx, us, &packet),
            1002 => self.record(rx, us, &[&[2], &packet[..]].concat()),
            _ => self.record(rx, us, &packet),
        }
    }

    /// An HCI command, to the controller.
    pub fn hci_command(&mut self, us: u64, command: &[u8]) {
        match self.datalink {
            2001 => self.monitor(2, us, command),
            1002 => self.record(2, us, &[&[1], command].concat()),
            _ => self.record(2, us, command),
        }
    }

    /// An HCI event, from the controller.
    pub fn hci_event(&mut self, us: u64, event: &[u8]) {
        match self.datalink {
            2001 => self.monitor(3, us, event),
            1002 => self.record(3, us, &[&[4], event].concat()),
            _ => self.record(3, us, event),
        }
    }
}

/// An L2CAP PDU.
pub fn pdu(cid: u16, payload: &[u8]) -> Vec<u8> {
    [&(payload.len() as u16).to_le_bytes(), &cid.to_le_bytes(), payload].concat()
}

/// A signalling PDU with one command, its body made of 16-bit words.
pub fn signal(code: u8, identifier: u8, words: &[u16]) -> Vec<u8> {
    let body: Vec<u8> = words.iter().flat_map(|word| word.to_le_bytes()).collect();
    pdu(1, &[&[code, identifier], &(body.len() as u16).to_le_bytes()[..], &body].concat())
}

/// RFCOMM's frame check sequence.
fn fcs(bytes: &[u8]) -> u8 {
    let mut crc = 0xFF_u8;
    for byte in bytes {
        crc ^= byte;
        for _ in 0..8 {
            crc = if crc & 1 == 1 { crc >> 1 ^ 0xE0 } else { crc >> 1 };
        }
    }
    0xFF - crc
}

/// An RFCOMM frame without information: SABM is 0x3F, UA 0x73, DISC 0x53.
pub fn control(dlci: u8, command: bool, control: u8) -> Vec<u8> {
    let mut frame = vec![dlci << 2 | u8::from(command) << 1 | 1, control, 1];
    frame.push(fcs(&frame));
    frame
}

/// A UIH frame; with a credit it has control 0xFF and the credit byte.
pub fn uih(dlci: u8, command: bool, credit: Option<u8>, information: &[u8]) -> Vec<u8> {
    let n = information.len();
    let mut frame = vec![dlci << 2 | u8::from(command) << 1 | 1, if credit.is_some() { 0xFF } else { 0xEF }];
    let check = fcs(&frame);
    if n < 128 {
        frame.push((n << 1 | 1) as u8);
    } else {
        frame.extend([(n << 1) as u8, (n >> 7) as u8]);
    }
    frame.extend(credit);
    frame.extend(information);
    frame.push(check);
    frame
}
