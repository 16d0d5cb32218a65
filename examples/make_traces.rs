//! Makes the example traces: `headset.btsnoop`, and `cut.btsnoop`, which is the same
//! recording cut off inside its last record but one, while a reply is under way;
//! `headset.pcap` and `cut.pcap`, the same packets with the same times in the other
//! container; `two-adapters.btsnoop`; `noisy.btsnoop`; and `late.btsnoop`.
//!
//!     cargo run --example make_traces -- DIR
//!
//! A phone opens RFCOMM to a headset, asks for this and that, and the headset replies. The
//! recording keeps the rules of an honest one (document 01), but for one frame that was
//! damaged on its way. In `two-adapters.btsnoop` a desk with two adapters does so with two
//! headsets at once. In `noisy.btsnoop` the FCS of three UIH frames is wrong. The recorder of
//! `late.btsnoop` was switched on while a reply was under way. The same bytes come out each
//! time.

mod trace;

use std::error::Error;
use std::path::Path;
use std::{env, fs};

use lumbryth::Direction::{self, Rx, Tx};
use lumbryth::{pack, Refusal};
use trace::pcap::{twin, PLAIN};
use trace::{control, pdu, signal, uih, Trace};

const HANDLE: u16 = 0x0006;
/// The CIDs of what goes to the phone and of what goes to the headset.
const PHONE: u16 = 0x0045;
const HEADSET: u16 = 0x0041;
/// RFCOMM channel 9.
const DLCI: u8 = 18;
/// 2024-05-14 09:30:00 UTC, in microseconds.
const START: u64 = 1_715_679_000_000_000;

const ACK: u8 = 0x01;
const MDR: u8 = 0x0C;
const MDR_NO2: u8 = 0x0E;

/// The recording under construction, and the time.
struct Recording {
    trace: Trace,
    us: u64,
}

impl Recording {
    fn tick(&mut self) -> u64 {
        // Steps that differ, so that no two records have the same distance.
        self.us += 3_250 + self.trace.starts.len() as u64 % 7 * 1_375;
        self.us
    }

    /// What comes next is of this adapter.
    fn on(&mut self, adapter: u16) -> &mut Recording {
        self.trace.adapter = adapter;
        self
    }

    /// A PDU in fragments that end where `ends` says, and at its own end.
    fn send(&mut self, direction: Direction, pdu: &[u8], ends: &[usize]) {
        let mut from = 0;
        for &end in ends.iter().chain([&pdu.len()]) {
            let us = self.tick();
            self.trace.fragment(direction, us, HANDLE, from == 0, &pdu[from..end]);
            from = end;
        }
    }

    /// An RFCOMM frame.
    fn rfcomm(&mut self, direction: Direction, frame: &[u8], ends: &[usize]) {
        let cid = if direction == Rx { PHONE } else { HEADSET };
        self.send(direction, &pdu(cid, frame), ends);
    }

    /// Information on the channel, in one piece. The phone began the session, so that the
    /// frames it sends have the bit of a command.
    fn data(&mut self, direction: Direction, information: &[u8]) {
        self.rfcomm(direction, &uih(DLCI, direction == Tx, None, information), &[]);
    }

    /// A request from the phone, the headset's ACK and reply, and the phone's ACK. The reply
    /// may come in two pieces, the first of so many bytes.
    fn ask(&mut self, kind: u8, seq: u8, request: &[u8], reply: &[u8], split: Option<usize>) -> Result<(), Refusal> {
        self.data(Tx, &pack(kind, seq, request)?);
        self.data(Rx, &pack(ACK, 1 - seq, &[])?);
        let wire = pack(kind, seq, reply)?;
        let (first, second) = wire.split_at(split.unwrap_or(wire.len()));
        self.data(Rx, first);
        if !second.is_empty() {
            self.data(Rx, second);
        }
        self.data(Tx, &pack(ACK, 1 - seq, &[])?);
        Ok(())
    }
}

/// The signalling and the multiplexer's frames that come before any data.
fn open(r: &mut Recording) {
    // The controller's own traffic is passed over: an inquiry stopped, a command complete.
    let us = r.tick();
    r.trace.hci_command(us, &[0x02, 0x04, 0x00]);
    let us = r.tick();
    r.trace.hci_event(us, &[0x0E, 0x04, 0x01, 0x02, 0x04, 0x00]);
    // PSM 3 is RFCOMM: asked, pending, granted; then both sides configure.
    r.send(Tx, &signal(2, 3, &[3, PHONE]), &[]);
    r.send(Rx, &signal(3, 3, &[HEADSET, PHONE, 1, 0]), &[]);
    r.send(Rx, &signal(3, 3, &[HEADSET, PHONE, 0, 0]), &[]);
    r.send(Tx, &signal(4, 4, &[HEADSET, 0, 0x0201, 1021]), &[]);
    r.send(Rx, &signal(5, 4, &[PHONE, 0, 0]), &[]);
    r.send(Rx, &signal(4, 7, &[PHONE, 0, 0x0201, 895]), &[]);
    r.send(Tx, &signal(5, 7, &[HEADSET, 0, 0]), &[]);
    // The multiplexer, then the channel; parameters, modem status and credits.
    r.rfcomm(Tx, &control(0, true, 0x3F), &[]);
    r.rfcomm(Rx, &control(0, true, 0x73), &[]);
    r.rfcomm(Tx, &uih(0, true, None, &[0x83, 0x11, DLCI, 0xF0, 7, 0, 0x7A, 0x03, 0, 7]), &[]);
    r.rfcomm(Rx, &uih(0, false, None, &[0x81, 0x11, DLCI, 0xE0, 7, 0, 0x7A, 0x03, 0, 7]), &[]);
    r.rfcomm(Tx, &control(DLCI, true, 0x3F), &[]);
    r.rfcomm(Rx, &control(DLCI, true, 0x73), &[]);
    r.rfcomm(Tx, &uih(0, true, None, &[0xE3, 0x05, DLCI << 2 | 3, 0x8D]), &[]);
    r.rfcomm(Rx, &uih(0, false, None, &[0xE1, 0x05, DLCI << 2 | 3, 0x8D]), &[]);
    r.rfcomm(Rx, &uih(DLCI, false, Some(20), &[]), &[]);
}

fn headset() -> Result<Trace, Refusal> {
    let mut r = Recording { trace: Trace::new(1002), us: START };
    open(&mut r);
    r.ask(MDR, 0, &[0x00, 0x00], &[0x01, 0x00, 0x70, 0x00, 0x20, 0x01], None)?;
    let device = [&[0x05, 0x01, 0x0A], &b"LUMBRYTH-1"[..]].concat();
    r.ask(MDR, 1, &[0x04, 0x01], &device, None)?;
    // 60 per cent is 3C, which is escaped on the wire.
    r.ask(MDR, 0, &[0x22, 0x00], &[0x23, 0x00, 0x3C, 0x00], None)?;
    // A reply in two pieces.
    r.ask(MDR, 1, &[0x66, 0x17], &[0x67, 0x17, 0x01, 0x01, 0x00, 0x00, 0x0E], Some(6))?;
    // A notice that is damaged on its way: its checksum no longer fits. No ACK follows, and
    // the headset sends it again.
    let notice = pack(MDR, 0, &[0x25, 0x00, 0x3B, 0x00])?;
    let mut damaged = notice.clone();
    damaged[9] ^= 0x40;
    r.data(Rx, &damaged);
    r.data(Rx, &notice);
    r.data(Tx, &pack(ACK, 1, &[])?);
    // A long reply, with a credit byte and in four fragments; an event comes between them.
    r.data(Tx, &pack(MDR, 0, &[0x56, 0x00])?);
    let bands: Vec<u8> = (0..150).map(|i| i * 5 % 61).collect();
    let reply = [pack(ACK, 1, &[])?, pack(MDR, 1, &[&[0x57, 0x00], &bands[..]].concat())?].concat();
    let frame = pdu(PHONE, &uih(DLCI, false, Some(5), &reply));
    for (i, part) in frame.chunks(54).enumerate() {
        let us = r.tick();
        r.trace.fragment(Rx, us, HANDLE, i == 0, part);
        if i == 1 {
            r.trace.hci_event(us + 500, &[0x13, 0x05, 0x01, 0x06, 0x00, 0x02, 0x00]);
        }
    }
    r.data(Tx, &pack(ACK, 0, &[])?);
    r.ask(MDR_NO2, 1, &[0x32, 0x01], &[0x33, 0x01, 0x00], None)?;
    // The last reply comes in two pieces; the cut trace ends inside the second.
    r.ask(MDR, 0, &[0xE6, 0x01], &[0xE7, 0x01, 0x3E, 0x01], Some(8))?;
    Ok(r.trace)
}

/// A desk with two adapters, as the Linux monitor records it, and a headset on each. Both use
/// one handle and the same CIDs, and the fragments of their replies cross. At the end a reply
/// on adapter 1 lacks its second piece, and a notice on adapter 0 its second fragment.
fn two_adapters() -> Result<Trace, Refusal> {
    let mut r = Recording { trace: Trace::new(2001), us: START };
    for adapter in [0, 1] {
        r.on(adapter).send(Tx, &signal(2, 3, &[3, PHONE]), &[]);
        r.send(Rx, &signal(3, 3, &[HEADSET, PHONE, 0, 0]), &[]);
    }
    // What adapter 0 exchanges has sequence number 0, what adapter 1 does has 1.
    r.on(0).data(Tx, &pack(MDR, 0, &[0x22, 0x00])?);
    r.on(1).data(Tx, &pack(MDR, 1, &[0x66, 0x17])?);
    r.on(0).data(Rx, &pack(ACK, 1, &[])?);
    r.on(1).data(Rx, &pack(ACK, 0, &[])?);
    let frame = |seq, payload: &[u8]| pack(MDR, seq, payload).map(|wire| pdu(PHONE, &uih(DLCI, false, None, &wire)));
    let replies = [frame(0, &[0x23, 0x00, 0x3C, 0x00])?, frame(1, &[0x67, 0x17, 0x01, 0x01, 0x00, 0x00, 0x0E])?];
    for first in [true, false] {
        for (adapter, reply) in (0..).zip(&replies) {
            let (us, (begin, end)) = (r.tick(), reply.split_at(12));
            r.on(adapter).trace.fragment(Rx, us, HANDLE, first, if first { begin } else { end });
        }
    }
    r.on(0).data(Tx, &pack(ACK, 1, &[])?);
    r.on(1).data(Tx, &pack(ACK, 0, &[])?);
    r.data(Tx, &pack(MDR, 0, &[0x22, 0x00])?);
    r.data(Rx, &pack(ACK, 1, &[])?);
    r.data(Rx, &pack(MDR, 0, &[0x23, 0x00, 0x50, 0x00])?[..8]);
    let us = r.tick();
    r.on(0).trace.fragment(Rx, us, HANDLE, true, &frame(1, &[0x25, 0x00, 0x3B, 0x00])?[..12]);
    Ok(r.trace)
}

/// A noisy adapter: three UIH frames come on the channel whose FCS is wrong. The first is of
/// another channel, with a bit of its address changed, and comes between the pieces of a
/// reply; the second has a credit and no information; the third is a whole notice, which no
/// ACK follows, so that the headset sends it again.
fn noisy() -> Result<Trace, Refusal> {
    // The DLCI of RFCOMM channel 11, which differs from the other in this bit of the address.
    let (other, bit) = (22, 0x10);
    let mut r = Recording { trace: Trace::new(1002), us: START };
    r.send(Tx, &signal(2, 3, &[3, PHONE]), &[]);
    r.send(Rx, &signal(3, 3, &[HEADSET, PHONE, 0, 0]), &[]);
    r.ask(MDR, 0, &[0x22, 0x00], &[0x23, 0x00, 0x3C, 0x00], None)?;
    r.rfcomm(Tx, &uih(other, true, None, b"AT\r"), &[]);
    r.data(Tx, &pack(MDR, 1, &[0x66, 0x17])?);
    r.data(Rx, &pack(ACK, 0, &[])?);
    let reply = pack(MDR, 1, &[0x67, 0x17, 0x01, 0x01, 0x00, 0x00, 0x0E])?;
    r.data(Rx, &reply[..6]);
    let mut frame = uih(other, false, None, b"\r\nOK\r\n");
    frame[0] ^= bit;
    r.rfcomm(Rx, &frame, &[]);
    r.data(Rx, &reply[6..]);
    r.data(Tx, &pack(ACK, 0, &[])?);
    let mut credit = uih(DLCI, false, Some(5), &[]);
    let notice = uih(DLCI, false, None, &pack(MDR, 0, &[0x25, 0x00, 0x3B, 0x00])?);
    let mut changed = notice.clone();
    for frame in [&mut credit, &mut changed] {
        *frame.last_mut().expect("the FCS is there") ^= 0x04;
        r.rfcomm(Rx, frame, &[]);
    }
    r.rfcomm(Rx, &notice, &[]);
    r.data(Tx, &pack(ACK, 1, &[])?);
    Ok(r.trace)
}

/// A recorder that is switched on late, and off early. Of its first reply only the second
/// piece is there, of a notice too, and of its last reply only the first. How the channel was
/// opened is not in it either.
fn late() -> Result<Trace, Refusal> {
    let mut r = Recording { trace: Trace::new(1002), us: START };
    let reply = pack(MDR, 1, &[0x67, 0x17, 0x01, 0x01, 0x00, 0x00, 0x0E])?;
    r.data(Rx, &reply[6..]);
    r.data(Tx, &pack(ACK, 0, &[])?);
    r.ask(MDR, 0, &[0x22, 0x00], &[0x23, 0x00, 0x3C, 0x00], None)?;
    let notice = pack(MDR, 1, &[0x25, 0x00, 0x3B, 0x00])?;
    r.data(Rx, &notice[5..]);
    r.data(Tx, &pack(ACK, 0, &[])?);
    r.data(Tx, &pack(MDR, 1, &[0x66, 0x17])?);
    r.data(Rx, &pack(ACK, 0, &[])?);
    r.data(Rx, &reply[..6]);
    Ok(r.trace)
}

fn main() -> Result<(), Box<dyn Error>> {
    let dir = env::args_os().nth(1).ok_or("say which directory to write the traces to")?;
    let trace = headset()?;
    let last_but_one = trace.starts[trace.starts.len() - 2];
    fs::write(Path::new(&dir).join("headset.btsnoop"), &trace.file)?;
    fs::write(Path::new(&dir).join("cut.btsnoop"), &trace.file[..last_but_one + 30])?;
    println!("{} records, {} bytes; the other is cut at {}", trace.starts.len(), trace.file.len(), last_but_one + 30);
    // A record's header is 24 bytes in btsnoop and 16 in pcap, where the direction's 4 follow; then 6 of the packet are there.
    let (file, before) = (twin(&trace.file, PLAIN), twin(&trace.file[..last_but_one], PLAIN).len());
    fs::write(Path::new(&dir).join("headset.pcap"), &file)?;
    fs::write(Path::new(&dir).join("cut.pcap"), &file[..before + 16 + 4 + 6])?;
    println!("in pcap {} bytes; the other is cut at {}", file.len(), before + 26);
    let trace = two_adapters()?;
    fs::write(Path::new(&dir).join("two-adapters.btsnoop"), &trace.file)?;
    println!("two adapters: {} records, {} bytes", trace.starts.len(), trace.file.len());
    let trace = noisy()?;
    fs::write(Path::new(&dir).join("noisy.btsnoop"), &trace.file)?;
    println!("a noisy adapter: {} records, {} bytes", trace.starts.len(), trace.file.len());
    let trace = late()?;
    fs::write(Path::new(&dir).join("late.btsnoop"), &trace.file)?;
    println!("a late recorder: {} records, {} bytes", trace.starts.len(), trace.file.len());
    Ok(())
}
