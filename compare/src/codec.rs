//! Packing and unpacking.

use crate::answer::{Case, Checked, Lender, Subject};
use crate::expected;
use crate::model::packed;
use crate::rng::Rng;
use crate::Options;

/// Bytes at which something changes: the special ones, what they escape to, their
/// neighbours and the ends of the range.
pub const BYTES: [u8; 14] = [0x00, 0x01, 0x2B, 0x2C, 0x2D, 0x2E, 0x2F, 0x3B, 0x3C, 0x3D, 0x3E, 0x3F, 0x7F, 0xFF];
const SPECIAL: [u8; 6] = [0x2C, 0x2D, 0x2E, 0x3C, 0x3D, 0x3E];

/// Payload lengths about the boundaries of frames, of a length byte and of packing.
const LENGTHS: [usize; 19] = [0, 1, 2, 3, 4, 7, 8, 9, 10, 59, 60, 61, 62, 254, 255, 256, 257, 300, 1000];
const LONG: [usize; 10] = [32_759, 32_760, 32_761, 32_762, 32_768, 65_529, 65_535, 65_536, 65_537, 100_000];

struct Codec<'a> {
    subject: &'a dyn Subject,
    lender: Lender,
}

impl Codec<'_> {
    fn unpack(&mut self, wire: &[u8]) -> Checked {
        let expected = expected::unpack(wire);
        let subject = self.subject;
        self.lender.about(&expected, &mut |out, values| subject.unpack(wire, out, values), &|| Case {
            call: "unpack".into(),
            inputs: vec![("wire", wire.to_vec())],
        })
    }

    fn pack(&mut self, kind: u8, seq: u8, payload: &[u8]) -> Checked {
        let expected = expected::pack(kind, seq, payload);
        let subject = self.subject;
        self.lender.about(&expected, &mut |out, values| subject.pack(kind, seq, payload, out, values), &|| Case {
            call: format!("pack, type {kind:02X}, seq {seq:02X}"),
            inputs: vec![("payload", payload.to_vec())],
        })
    }
}

/// Calls `f` with every string of exactly `n` bytes of `alphabet`.
pub fn each_string(n: usize, alphabet: &[u8], f: &mut dyn FnMut(&[u8]) -> Checked) -> Checked {
    let mut digits = vec![0usize; n];
    let mut string = vec![alphabet[0]; n];
    loop {
        f(&string)?;
        let Some(i) = (0..n).rev().find(|&i| digits[i] + 1 < alphabet.len()) else { return Ok(()) };
        digits[i] += 1;
        string[i] = alphabet[digits[i]];
        for j in i + 1..n {
            digits[j] = 0;
            string[j] = alphabet[0];
        }
    }
}

pub fn framed(first: u8, inside: &[u8], last: u8) -> Vec<u8> {
    let mut wire = vec![first];
    wire.extend(inside);
    wire.push(last);
    wire
}

fn sum(bytes: &[u8]) -> u8 {
    bytes.iter().fold(0, |s: u8, b| s.wrapping_add(*b))
}

/// Bytes between the markers, escaped or left as they are.
fn wrapped(body: &[u8], escape: bool) -> Vec<u8> {
    let mut inside = Vec::new();
    if escape {
        oracle::mdr::frame::escape_into(body, &mut inside);
    } else {
        inside.extend(body);
    }
    framed(0x3E, &inside, 0x3C)
}

/// Every short string: all of up to three bytes between right and wrong ends, and
/// all of up to nine bytes over the bytes that matter.
fn short(codec: &mut Codec) -> Checked {
    for n in 0..=3 {
        each_string(n, &BYTES, &mut |s| {
            codec.unpack(s)?;
            for (first, last) in [(0x3E, 0x3C), (0x3C, 0x3E), (0x3D, 0x3C), (0x3E, 0x3D)] {
                codec.unpack(&framed(first, s, last))?;
            }
            Ok(())
        })?;
    }
    for n in 4..=9 {
        each_string(n, &[0x00, 0x2C, 0x3C, 0x3D, 0x3E], &mut |s| codec.unpack(s))?;
    }
    each_string(8, &[0x00, 0x01, 0x2E, 0x3D], &mut |s| codec.unpack(&framed(0x3E, s, 0x3C)))
}

/// Bodies of 7 to 10 bytes with every choice of three places set to every choice of
/// the bytes that matter, with the right sum or not, escaped or not.
fn placed(codec: &mut Codec) -> Checked {
    for n in 7..=10 {
        for a in 0..n {
            for b in a + 1..n {
                for c in b + 1..n {
                    each_string(3, &BYTES, &mut |s| {
                        let mut body = vec![0; n];
                        body[5] = (n - 7) as u8;
                        (body[a], body[b], body[c]) = (s[0], s[1], s[2]);
                        codec.unpack(&wrapped(&body, true))?;
                        body[n - 1] = sum(&body[..n - 1]);
                        codec.unpack(&wrapped(&body, true))?;
                        codec.unpack(&wrapped(&body, false))
                    })?;
                }
            }
        }
    }
    Ok(())
}

pub fn payload(rng: &mut Rng, n: usize) -> Vec<u8> {
    let percent = rng.pick(&[0, 2, 50, 100]);
    if rng.percent(10) {
        return vec![rng.pick(&BYTES); n];
    }
    rng.mixed(n, &SPECIAL, percent)
}

pub fn kind(rng: &mut Rng) -> u8 {
    if rng.percent(50) {
        rng.pick(&[
            0x00, 0x01, 0x02, 0x09, 0x0A, 0x0C, 0x0D, 0x0E, 0x10, 0x12, 0x19, 0x1A, 0x1C, 0x1D, 0x1E, 0x3C, 0x3D, 0x3E,
        ])
    } else {
        rng.byte()
    }
}

/// A body whose length field is wrong, with the right sum.
pub fn mislength(rng: &mut Rng, payload: &[u8]) -> Vec<u8> {
    let n = payload.len() as u32;
    let declared = match rng.below(6) {
        0 => n.wrapping_add(1),
        1 => n.wrapping_sub(1),
        2 => n | 1 << 24,
        3 => n.swap_bytes(),
        4 => u32::MAX,
        _ => rng.next() as u32,
    };
    let mut body = vec![rng.byte(), rng.byte()];
    body.extend(declared.to_be_bytes());
    body.extend(payload);
    body.push(sum(&body));
    wrapped(&body, true)
}

pub fn damage(rng: &mut Rng, bytes: &mut Vec<u8>) {
    let at = rng.below(bytes.len() + 1);
    let byte = if rng.percent(60) { rng.pick(&BYTES) } else { rng.byte() };
    match rng.below(4) {
        0 => bytes.insert(at, byte),
        1 if at < bytes.len() => {
            bytes.remove(at);
        }
        2 if at < bytes.len() => bytes[at] ^= 1 << rng.below(8),
        _ if at < bytes.len() => bytes[at] = byte,
        _ => bytes.push(byte),
    }
}

/// Frames of every length about the boundaries, good and with a wrong length field.
fn random(codec: &mut Codec, rng: &mut Rng, size: u64) -> Checked {
    for i in 0..size {
        let n = if i % 3 == 0 { rng.pick(&LENGTHS) } else { rng.below(40) };
        let payload = payload(rng, n);
        let wire = packed(kind(rng), rng.byte(), &payload);
        codec.unpack(&wire)?;
        if i % 4 == 0 {
            let wire = mislength(rng, &payload);
            codec.unpack(&wire)?;
        }
    }
    for n in LONG.into_iter().chain(LONG) {
        let payload = payload(rng, n);
        codec.unpack(&packed(kind(rng), rng.byte(), &payload))?;
        let wire = mislength(rng, &payload);
        codec.unpack(&wire)?;
    }
    Ok(())
}

/// Good frames with one to three bytes changed, removed or inserted; of a short one,
/// every single change.
fn damaged(codec: &mut Codec, rng: &mut Rng, size: u64) -> Checked {
    for good in [packed(0x0C, 0x01, &[0x3D, 0x00, 0x3C]), packed(0x01, 0x00, &[]), packed(0x3E, 0x3D, &[0xC2])] {
        for at in 0..good.len() {
            let mut wire = good.clone();
            wire.remove(at);
            codec.unpack(&wire)?;
            for byte in 0..=255 {
                let mut wire = good.clone();
                wire[at] = byte;
                codec.unpack(&wire)?;
                wire = good.clone();
                wire.insert(at, byte);
                codec.unpack(&wire)?;
            }
        }
    }
    for _ in 0..size {
        let n = rng.below(30);
        let payload = payload(rng, n);
        let mut wire = packed(kind(rng), rng.byte(), &payload);
        for _ in 0..rng.within(1, 3) {
            damage(rng, &mut wire);
        }
        codec.unpack(&wire)?;
    }
    for n in LONG {
        let payload = payload(rng, n);
        let mut wire = packed(kind(rng), rng.byte(), &payload);
        damage(rng, &mut wire);
        codec.unpack(&wire)?;
    }
    Ok(())
}

/// Every type and sequence number, every first byte, and payloads about each boundary.
fn packing(codec: &mut Codec, rng: &mut Rng, size: u64) -> Checked {
    for kind in 0..=255 {
        for seq in 0..=255 {
            codec.pack(kind, seq, &[])?;
            codec.pack(kind, 0, &[seq])?;
        }
    }
    for n in 0..=4 {
        each_string(n, &BYTES, &mut |s| codec.pack(0x0C, 0x00, s))?;
    }
    for i in 0..size {
        let n = if i % 3 == 0 { rng.pick(&LENGTHS) } else { rng.below(40) };
        let payload = payload(rng, n);
        codec.pack(kind(rng), rng.byte(), &payload)?;
    }
    for n in LONG {
        codec.pack(0x3E, 0x3E, &vec![0x3E; n])?;
        codec.pack(0x00, 0x00, &vec![0x00; n])?;
        let payload = payload(rng, n);
        codec.pack(kind(rng), rng.byte(), &payload)?;
    }
    Ok(())
}

pub fn run(subject: &dyn Subject, options: &Options) -> Checked {
    let size = options.size.unwrap_or(300_000);
    let mut rng = Rng::new(options.seed);
    let mut codec = Codec { subject, lender: Lender::default() };
    let mut log = options.log("codec");
    packing(&mut codec, &mut rng, size)?;
    log.line("pack", &codec.lender);
    random(&mut codec, &mut rng, size)?;
    log.line("unpack, random frames", &codec.lender);
    damaged(&mut codec, &mut rng, size)?;
    log.line("unpack, damaged frames", &codec.lender);
    short(&mut codec)?;
    log.line("unpack, short frames", &codec.lender);
    placed(&mut codec)?;
    log.line("unpack, three places", &codec.lender);
    Ok(())
}
