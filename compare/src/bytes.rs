//! Where every byte went: made traces of which the four numbers are known, by all calls that import, in both containers and
//! in both positions of the switch; and the law of their sum, of any trace.

use crate::answer::{Bytes, Checked, Container, Difference, Subject, NO_CHANNEL, NUMBERS, VALUES};
use crate::codec::each_string;
use crate::expected;
use crate::fcs;
use crate::import::{ack, sequences, Import, Rule, Taker};
use crate::pcap::{self, FORMS};
use crate::rng::Rng;
use crate::sums::{Both, Switch};
use crate::trace::{self, acl_packet, l2cap, Trace};
use crate::Options;
use oracle::capture::Direction::{self, Rx, Tx};
use oracle::capture::BTSNOOP_EPOCH_DELTA_US as EPOCH;

/// All calls that import: those by number, by both rules, and those that take a container.
struct Calls<'a> {
    strict: Import<'a>,
    tolerant: Import<'a>,
    switch: Switch<'a>,
}

impl<'a> Calls<'a> {
    fn new(subject: &'a dyn Subject) -> Calls<'a> {
        let [strict, tolerant] = [Rule::Strict, Rule::Tolerant].map(|rule| Import::new(subject, rule));
        Calls { strict, tolerant, switch: Switch::new(subject) }
    }

    /// How many calls were to be answered with each number.
    fn answers(&self) -> [u64; NUMBERS] {
        let all = [&self.strict.lender.answers, &self.tolerant.lender.answers, &self.switch.answers()];
        std::array::from_fn(|number| all.iter().map(|answers| answers[number]).sum())
    }

    /// A btsnoop file, and no pcap file of it.
    fn btsnoop(&mut self, file: &[u8], channel: u32) -> Checked {
        self.strict.file(file, channel)?;
        self.tolerant.file(file, channel)
    }
}

impl Taker for Calls<'_> {
    fn file(&mut self, file: &[u8], channel: u32) -> Checked {
        self.btsnoop(file, channel)?;
        self.switch.file(file, channel)
    }
}

// ---- fixed traces

/// The most information that a frame has.
const MOST: usize = 32_767;

/// A PDU: its adapter's index and handle, direction, CID and payload, and whether its last byte never comes.
#[derive(Clone)]
struct Step {
    pair: (u16, u16),
    direction: Direction,
    cid: u16,
    payload: Vec<u8>,
    open: bool,
}

/// The PDUs of some words. Bytes in hex are information, `2x3E` two of the same, `F` is a frame, and `h` and `t` are its
/// head and tail. It is received on DLCI 18 if nothing else is said, and what is too long for one PDU is in several. Some
/// words are no data but a SABM, or a request for PSM 3.
fn pdus(words: &str) -> Vec<Step> {
    let mut step = Step { pair: (0, 0x40), direction: Rx, cid: 0x41, payload: Vec::new(), open: false };
    let (mut dlci, mut credit, mut bad) = (18, None, false);
    let mut information = Vec::new();
    let hex = |word: &str| u8::from_str_radix(word, 16).expect("a byte");
    for word in words.split_whitespace() {
        match word {
            "tx" => step.direction = Tx,
            "cid" => step.cid = 0x43,
            "untried" => step.cid = 0x20,
            "handle" => step.pair.1 = 0x41,
            "adapter" => step.pair.0 = 1,
            "credit" => credit = Some(0x3E),
            "bad" => bad = true,
            "open" => step.open = true,
            "sabm" => step.payload = trace::sabm(18),
            "sabm0" => step.payload = trace::sabm(0),
            "sabm20" => step.payload = trace::sabm(20),
            "psm3" => (step.cid, step.payload) = (1, trace::command(2, 1, &[3, 0])),
            "F" => information.extend(ack(1)),
            "h" => information.extend(&ack(1)[..5]),
            "t" => information.extend(&ack(1)[5..]),
            _ => match (word.strip_prefix("dlci"), word.split_once('x')) {
                (Some(number), _) => dlci = number.parse().expect("a DLCI"),
                (_, Some((many, byte))) => information.extend(vec![hex(byte); many.parse().expect("how many")]),
                _ => information.push(hex(word)),
            },
        }
    }
    if !step.payload.is_empty() {
        return vec![step];
    }
    let parts: Vec<&[u8]> = if information.is_empty() { vec![&[]] } else { information.chunks(MOST).collect() };
    let frame = |part: &&[u8]| trace::uih(dlci, part, credit, false);
    let frames = parts.iter().map(|part| if bad { trace::wrong(frame(part)) } else { frame(part) });
    frames.map(|payload| Step { payload, ..step.clone() }).collect()
}

/// The PDUs of words with bars between them.
fn steps_of(text: &str) -> Vec<Step> {
    text.split('|').flat_map(pdus).collect()
}

fn take(trace: &mut Trace, step: &Step) {
    let stamp = EPOCH + trace.file.len() as u64 * 1000;
    let mut pdu = l2cap(step.cid, &step.payload);
    if step.open {
        pdu.pop();
    }
    trace.on(step.pair.0).acl(step.direction, stamp, 0, &acl_packet(step.pair.1, 2, &pdu));
}

pub fn send(trace: &mut Trace, text: &str) {
    steps_of(text).iter().for_each(|step| take(trace, step));
}

/// What is known of a made trace: its PDUs, and where the bytes went.
type Known = (&'static str, Bytes);

/// Pieces of one direction.
const ONE_WAY: &[Known] = &[
    ("F", [9, 0, 0, 0]),
    ("00 F", [9, 1, 0, 0]),
    ("00 01 02 F", [9, 3, 0, 0]),
    ("F 00", [9, 1, 0, 0]),
    ("F 00 01 F", [18, 2, 0, 0]),
    ("00 F 01 F 02", [18, 3, 0, 0]),
    ("3C F", [9, 1, 0, 0]),
    ("F 3C", [9, 1, 0, 0]),
    ("3C 3C F 3C 00 3C F 3C", [18, 6, 0, 0]),
    ("3D 2E F 3D 2C", [9, 4, 0, 0]),
    ("00 | F", [9, 1, 0, 0]),
    ("F | 00 01", [9, 2, 0, 0]),
    ("3C | F | 3C", [9, 2, 0, 0]),
    ("00 00 | 3C | 00 | F | 00 | 00", [9, 6, 0, 0]),
    ("F | 3E", [9, 0, 0, 1]),
    ("F 3E 00", [9, 0, 0, 2]),
    ("F 00 3E 01", [9, 1, 0, 2]),
    ("F | 3E | 3E | 00 3E", [9, 0, 0, 4]),
    ("F | 00 | 3E 00 | 01", [9, 1, 0, 3]),
    ("3E 3C F", [11, 0, 0, 0]),
    ("3E | 3C | F", [11, 0, 0, 0]),
    ("F 3E 3E 3C", [12, 0, 0, 0]),
    ("F 3E 00 3C 00 3E 3C 3C", [14, 2, 0, 0]),
    ("h | t", [9, 0, 0, 0]),
    ("00 h | t 00", [9, 2, 0, 0]),
    ("h | 00 t F", [19, 0, 0, 0]),
    ("t h | F F", [23, 4, 0, 0]),
    ("300x00 F 300x3C", [9, 600, 0, 0]),
    ("F | 300x3E", [9, 0, 0, 300]),
];

/// Pieces of several stretches and directions, and what is no piece of the DLCI.
const MANY_WAYS: &[Known] = &[
    ("F | tx 3E", [9, 0, 0, 1]),
    ("F 3E | tx 3E 00 | cid 3E 00 00", [9, 0, 0, 6]),
    ("F | tx 00 | cid 3C", [9, 2, 0, 0]),
    ("h | tx t | tx F", [9, 4, 0, 5]),
    ("handle h | t | F", [9, 4, 0, 5]),
    ("adapter h | t | F", [9, 4, 0, 5]),
    ("F 3E | adapter 00 | handle 3C 3E 00 | tx adapter 3E 01 02", [9, 2, 0, 6]),
    ("F h | sabm | t", [9, 4, 0, 5]),
    ("F h | sabm0 | t F", [18, 4, 0, 5]),
    ("F h | psm3 | 3E 00", [9, 0, 0, 7]),
    ("F 3E | sabm | 3E | sabm | 3E | sabm | 3E 3C", [11, 0, 0, 3]),
    ("F 3E | sabm20 | 3C", [11, 0, 0, 0]),
    ("dlci20 00 3E 3C 3E | F", [9, 0, 0, 0]),
    ("dlci19 3C 3E | F 00", [9, 1, 0, 0]),
    ("F | dlci20 F 3E | dlci19 00 | dlci0 3E 00", [9, 0, 0, 0]),
    ("dlci20 3E 3C 00 | dlci19 00 3E 3C 3C | F 01 01 01", [9, 3, 0, 0]),
    ("untried 00 3E | F", [9, 0, 0, 0]),
    ("F | untried F 00 3E", [9, 0, 0, 0]),
    ("F | credit", [9, 0, 0, 0]),
    ("credit F | credit 00", [9, 1, 0, 0]),
    ("F | open 00 3E", [9, 0, 0, 0]),
    ("open 00 | F", [9, 0, 0, 0]),
    ("F 3E | open 00 3C | 00", [9, 0, 0, 2]),
];

/// About the limit of 65,536 bytes.
const LIMITS: &[Known] = &[
    ("F | 3E 65535x00", [9, 0, 0, 65_536]),
    ("F | 3E 65536x00", [9, 0, 65_537, 0]),
    ("F | 3E 65534x00 | 00 | 3C", [65_546, 0, 0, 0]),
    ("F | 3E 65535x00 | 00 3C", [65_547, 0, 0, 0]),
    ("F | 3E 65535x00 | 00 | 3C F", [18, 1, 65_537, 0]),
    ("F | 3E 65535x00 | 32767x00", [9, 0, 98_303, 0]),
    ("F | 3E 65535x00 | 32766x00 3C", [98_312, 0, 0, 0]),
    ("F | 3E 65536x00 | 3E 65536x00", [9, 0, 131_074, 0]),
    ("F | 3E 65536x00 | 3E 65535x00 | 32767x00 | 3E 69999x00", [9, 0, 233_840, 0]),
    ("F | 3E 65536x00 | 00 3C 00 F", [18, 3, 65_537, 0]),
    ("F | 3E 65536x00 | 00 | 3C | 00 3E 00", [9, 3, 65_537, 2]),
    ("F | 3E 65536x00 | 00 | 3E 65536x00 | 3C 3C | 3E", [9, 3, 131_074, 1]),
    ("F | 00 00 3E 65536x00", [9, 2, 65_537, 0]),
    ("F | 00 3E 65535x00", [9, 1, 0, 65_536]),
    ("F | 100000x00", [9, 100_000, 0, 0]),
    ("F | 100000x3C", [9, 100_000, 0, 0]),
    ("F | 65536x3E", [9, 0, 0, 65_536]),
    ("F | 65537x3E", [9, 0, 65_537, 0]),
    ("F 3E 32000x00 | 33535x00", [9, 0, 0, 65_536]),
    ("F 3E 32000x00 | 33536x00", [9, 0, 65_537, 0]),
    ("F | 3E 65535x00 | 3C 3E 32764x00 | 32767x00 | 5x00", [65_546, 0, 65_537, 0]),
    ("F | 3E 65536x00 | tx 3E 65535x00", [9, 0, 65_537, 65_536]),
    ("F | 3E 65536x00 | sabm | 3E 65535x00 | tx 3E 65536x00 | cid 3E", [9, 0, 131_074, 65_537]),
    ("F | 3E 65535x00 | tx 3E 65535x00 | cid 3E 65535x00", [9, 0, 0, 196_608]),
    ("F | 3E 65535x00 | sabm | 00 3C", [9, 2, 0, 65_536]),
    ("dlci20 3E 65536x00 00 | F 3E", [9, 0, 0, 1]),
    ("F | untried 3E 65536x00", [9, 0, 0, 0]),
];

/// With wrong frames, by the switch off and on; without a frame it is 6.
const SWITCHED: &[(&str, Option<Bytes>, Option<Bytes>)] = &[
    ("F | bad 00 01", Some([9, 2, 0, 0]), Some([9, 0, 0, 0])),
    ("bad 00 00 | F", Some([9, 2, 0, 0]), Some([9, 0, 0, 0])),
    ("F | bad 3E 00", Some([9, 0, 0, 2]), Some([9, 0, 0, 0])),
    ("F | bad F", Some([18, 0, 0, 0]), Some([9, 0, 0, 0])),
    ("F | bad 3E 3C", Some([11, 0, 0, 0]), Some([9, 0, 0, 0])),
    ("h | bad 00 | t F", Some([19, 0, 0, 0]), Some([18, 0, 0, 0])),
    ("F 3E | bad 3C | 00", Some([11, 1, 0, 0]), Some([9, 0, 0, 2])),
    ("F 3E | bad 00 | bad 3C", Some([12, 0, 0, 0]), Some([9, 0, 0, 1])),
    ("F | tx bad 00 | cid bad 3E | bad credit 3C", Some([9, 2, 0, 1]), Some([9, 0, 0, 0])),
    ("F 00 | bad | bad credit", Some([9, 1, 0, 0]), Some([9, 1, 0, 0])),
    ("F 00 | untried bad F 00", Some([9, 1, 0, 0]), Some([9, 1, 0, 0])),
    ("dlci20 bad F 00 | F 01 01", Some([9, 1, 0, 0]), Some([9, 2, 0, 0])),
    ("F 3E | dlci20 bad 00 | dlci19 bad 3C", Some([9, 0, 0, 1]), Some([9, 0, 0, 1])),
    ("bad F", Some([9, 0, 0, 0]), None),
    ("00 3E | bad 01 F", None, None),
    ("00 | 3C | 00", None, None),
    ("3E 3C 00 | bad 3E", None, None),
    ("3E 00 | tx 3E 3C 3C", None, None),
    ("F | 3E 65535x00 | bad 00 | 3C", Some([9, 1, 65_537, 0]), Some([65_546, 0, 0, 0])),
    ("F | 3E 65535x00 | bad 32767x00", Some([9, 0, 98_303, 0]), Some([9, 0, 0, 65_536])),
    ("F | bad 3E 65536x00", Some([9, 0, 65_537, 0]), Some([9, 0, 0, 0])),
];

/// By the channel that is asked for.
const ASKED: &[(u32, &str, Bytes)] = &[
    (9, "dlci20 F 00 | F 01 01 | dlci19 F 3E", [9, 2, 0, 0]),
    (10, "dlci20 F 00 | F 01 01 | dlci19 F 3E", [9, 1, 0, 0]),
    (9, "dlci19 F 3E | F 00", [9, 0, 0, 1]),
    (9, "dlci19 3E 3C 3E | F 00", [9, 1, 0, 0]),
    (10, "F 00 3E | dlci20 3E 3C 3C F", [11, 1, 0, 0]),
];

/// Traces of nearly 1,048,576 bytes.
fn full() -> [(String, Bytes); 3] {
    let all = |words: &str, many: usize| format!("F | {}", vec![words; many].join(" | "));
    [
        (all("3E 65536x00", 15), [9, 0, 983_055, 0]),
        (all("32767x3C", 31), [9, 1_015_777, 0, 0]),
        (all("3E 65535x00 | sabm", 15), [9, 0, 0, 983_040]),
    ]
}

/// A made trace, by its words, its channel, and where the bytes went with the switch off and on.
type Made = (String, u32, [Option<Bytes>; 2]);

fn made() -> Vec<Made> {
    let same = |bytes: &Bytes| [Some(*bytes), Some(*bytes)];
    let known = [ONE_WAY, MANY_WAYS, LIMITS].concat();
    let mut all: Vec<Made> = known.iter().map(|(words, bytes)| (words.to_string(), NO_CHANNEL, same(bytes))).collect();
    all.extend(SWITCHED.iter().map(|(words, off, on)| (words.to_string(), NO_CHANNEL, [*off, *on])));
    all.extend(ASKED.iter().map(|(channel, words, bytes)| (words.to_string(), *channel, same(bytes))));
    all.extend(full().iter().map(|(words, bytes)| (words.clone(), NO_CHANNEL, same(bytes))));
    all
}

/// The made traces; with `cuts` the cuts of the short ones too.
fn by_hand(calls: &mut Calls, cuts: bool) -> Checked {
    for (turn, (words, channel, known)) in made().into_iter().enumerate() {
        let steps = steps_of(&words);
        let adapters = steps.iter().any(|step| step.pair.0 != 0);
        let mut trace = Trace::new(if adapters { 2001 } else { trace::DATALINKS[turn % 3] });
        steps.iter().for_each(|step| take(&mut trace, step));
        let both = expected::import(Container::Btsnoop, &trace.file, channel, false);
        assert_eq!(both.each_ref().map(|answer| answer.bytes()), known, "a made trace has its numbers: {words}");
        calls.file(&trace.file, channel)?;
        for &end in trace.ends.iter().filter(|_| cuts && trace.file.len() < 1000) {
            for n in end - 24..=end {
                calls.btsnoop(&trace.file[..n], channel)?;
            }
        }
    }
    Ok(())
}

// ---- every short string, every few steps

/// Every string of up to `n` bytes over the markers and another, in pieces of every kind, behind a frame sent the other way.
fn strings(calls: &mut Calls, n: usize) -> Checked {
    for length in 1..=n {
        each_string(length, &[0x3E, 0x3C, 0x00], &mut |bytes| {
            for cuts in 0..1usize << (length - 1) {
                let mut trace = Trace::new(1001);
                let mut send = |direction, part: &[u8]| {
                    trace.pdu(direction, EPOCH, 0x40, 0x41, &trace::uih(18, part, None, false))
                };
                send(Tx, &ack(2));
                let mut from = 0;
                for to in (1..=length).filter(|to| *to == length || cuts >> (to - 1) & 1 == 1) {
                    send(Rx, &bytes[from..to]);
                    from = to;
                }
                calls.btsnoop(&trace.file, NO_CHANNEL)?;
            }
            Ok(())
        })?;
    }
    Ok(())
}

/// Every sequence of `n` pieces and what parts them, and a frame behind.
fn steps(calls: &mut Calls, n: usize) -> Checked {
    let words = [
        "00",
        "3E 00",
        "3C",
        "00 3E 3C 00 3E 3C",
        "tx 3E",
        "tx 00 3C",
        "dlci19 3C 3E 3C",
        "bad 3E",
        "bad 00",
        "sabm",
        "psm3",
    ];
    let alphabet = words.map(|words| pdus(words).remove(0));
    sequences(n, &alphabet, &Trace::new(1002), &|trace, step| take(trace, step), &mut |trace| {
        send(trace, "cid F 00");
        calls.file(&trace.file, NO_CHANNEL)
    })
}

// ---- made at random

/// One stretch and direction: where its pieces are sent, and how many bytes are held.
struct Stream {
    step: Step,
    held: usize,
}

/// Information, and what becomes of it, as it is made.
struct Maker<'a> {
    rng: &'a mut Rng,
    bytes: Bytes,
}

impl Maker<'_> {
    /// How many bytes come next: a few, or as many as bring what is held to the limit, or to nearly it.
    fn many(&mut self, held: usize, room: usize, long: bool) -> usize {
        let rng = &mut *self.rng;
        let many = match rng.below(if long { 8 } else { 3 }) {
            0..=2 => rng.within(1, 4),
            3 => rng.within(1, MOST),
            4 => MOST,
            _ => rng.pick(&[65_535usize, 65_536, 65_536, 65_537, 65_537, 65_538]).saturating_sub(held),
        };
        many.clamp(1, room)
    }

    /// A part of a piece, of at most `room` bytes: dropped, a start, held too, or an end.
    fn part(&mut self, held: &mut usize, room: usize, long: bool) -> Vec<u8> {
        let ends = self.rng.percent(40);
        match (*held, ends) {
            (0, true) => {
                let n = self.many(0, room.min(40), false);
                self.bytes[1] += n as u64;
                (0..n).map(|_| self.rng.pick(&[0x00, 0x3C, 0x3C, 0x3D, 0x3F])).collect()
            }
            (0, false) => {
                *held = 1;
                vec![0x3E]
            }
            (_, true) if !long || self.rng.percent(20) => {
                self.bytes[0] += *held as u64 + 1;
                *held = 0;
                vec![0x3C]
            }
            _ => {
                let n = self.many(*held, room, long);
                *held += n;
                let percent = self.rng.pick(&[0, 0, 50]);
                (0..n).map(|_| if self.rng.percent(percent) { 0x3E } else { 0x00 }).collect()
            }
        }
    }

    /// A piece. What is too long at its end is cleared.
    fn piece(&mut self, held: &mut usize, long: bool) -> Vec<u8> {
        let mut piece = Vec::new();
        for _ in 0..self.rng.within(1, if long { 2 } else { 5 }) {
            if piece.len() < MOST {
                piece.extend(self.part(held, MOST - piece.len(), long));
            }
        }
        if *held > 65_536 {
            self.bytes[2] += std::mem::take(held) as u64;
        }
        piece
    }
}

/// What a trace made at random has besides its pieces: nothing that counts, and with a wrong FCS nothing that does with the
/// switch on.
const OTHERS: [&str; 4] = ["dlci20 00 3E", "dlci19 3E 00 3C 3C", "untried F 00", "open F"];
const BAD: [&str; 5] = ["bad 00 3C", "bad 3E 00", "bad F", "tx bad 3C 3E", "bad 32767x00"];

/// What a trace made at random is like.
#[derive(Clone, Copy)]
struct Kind {
    container: Container,
    /// With buffers about the limit.
    long: bool,
    /// With wrong frames between the pieces.
    noisy: bool,
}

/// A trace that is made byte by byte, and where the bytes went, if it is noisy with the switch on. Now and then a session or
/// a link begins, and what was held before is left.
fn at_random(rng: &mut Rng, kind: Kind) -> (Trace, Bytes) {
    let mut trace = Trace::any(rng, kind.container);
    let ways = ["", "tx", "cid", "tx handle", "adapter"];
    let most = if trace.datalink == 2001 { 5 } else { 4 };
    let stream = |words: &&str| Stream { step: pdus(words).remove(0), held: 0 };
    let mut streams: Vec<Stream> = ways[..rng.within(1, most)].iter().map(stream).collect();
    send(&mut trace, rng.pick(&["F", "F", "dlci20 3E 00 3C 3C 3E | F", "dlci19 00 | F"]));
    let pieces = rng.within(1, if kind.long { 14 } else { 20 });
    let mut maker = Maker { rng, bytes: [9, 0, 0, 0] };
    for _ in 0..pieces {
        let at = maker.rng.below(streams.len());
        let Stream { step, held } = &mut streams[at];
        let information = maker.piece(held, kind.long);
        let credit = if maker.rng.percent(20) { Some(0x3C) } else { None };
        let payload = trace::uih(18, &information, credit, maker.rng.percent(20));
        take(&mut trace, &Step { payload, ..step.clone() });
        if maker.rng.percent(10) {
            let pair = step.pair;
            let begins = pdus(maker.rng.pick(&["sabm", "tx sabm0", "psm3"])).remove(0);
            take(&mut trace, &Step { pair, ..begins });
            for other in streams.iter_mut().filter(|other| other.step.pair == pair) {
                maker.bytes[3] += std::mem::take(&mut other.held) as u64;
            }
        }
        let others = [(true, &OTHERS[..]), (kind.noisy, &BAD)];
        for (_, others) in others.into_iter().filter(|(has, _)| *has) {
            if maker.rng.percent(10) {
                send(&mut trace, maker.rng.pick(others));
            }
        }
    }
    let mut bytes = maker.bytes;
    bytes[3] += streams.iter().map(|stream| stream.held as u64).sum::<u64>();
    (trace, bytes)
}

/// Traces that are made at random, of which one in so many is long.
fn random(calls: &mut Calls, rng: &mut Rng, size: u64, long: u64) -> Checked {
    for i in 0..size {
        for container in [Container::Btsnoop, Container::Pcap] {
            let kind = Kind { container, long: i % long == 0, noisy: i % 3 == 0 };
            let (trace, bytes) = at_random(rng, kind);
            let [off, on] = expected::import(container, &trace.file, NO_CHANNEL, false).map(|answer| answer.bytes());
            let made = on == Some(bytes) && (kind.noisy || off == on);
            assert!(made, "the numbers are those of the making, {bytes:?}: {:02X?}", trace.file);
            calls.switch.one(container, &trace.file, NO_CHANNEL)?;
            if container == Container::Btsnoop {
                calls.btsnoop(&trace.file, NO_CHANNEL)?;
            }
        }
    }
    Ok(())
}

// ---- the law

/// How many bytes of information are taken in on a DLCI, by the walk of `fcs`.
fn taken(container: Container, file: &[u8], dlci: u64, checks: bool) -> u64 {
    let all = fcs::information(container, file).into_iter();
    let own = all.filter(|frame| u64::from(frame.dlci) == dlci && frame.tried && (frame.right || !checks));
    own.map(|frame| frame.bytes as u64).sum()
}

/// The four add up to what is taken in; the list has 14 bytes more for each frame than the spans; bytes are left just if a
/// buffer is unfinished. Of an answer this is all that is looked at.
fn law_of(subject: &dyn Subject, container: Container, file: &[u8], channel: u32, checks: bool) -> Checked {
    let (mut work, mut out) = (vec![0; 8 * file.len()], vec![0; 8 * file.len()]);
    let mut values = [u64::MAX; VALUES];
    let options = [u64::from(channel), 1, u64::from(container == Container::Pcap), u64::from(checks)];
    if subject.import_with(file, &mut work, &mut out, &options, &mut values) != 0 {
        return Ok(());
    }
    let [dlci, frames, unfinished, _, written, _, in_spans, dropped, cleared, left] = values;
    let taken = taken(container, file, dlci, checks);
    let sum = [in_spans, dropped, cleared, left].into_iter().fold(0u64, u64::wrapping_add);
    if sum == taken && in_spans.wrapping_add(14 * frames) == written && (left == 0) == (unfinished == 0) {
        return Ok(());
    }
    Err(Box::new(Difference {
        call: format!("import_with, options {options:?}"),
        inputs: vec![("file", file.to_vec())],
        lent: "enough".into(),
        expected: format!("four numbers for {taken} bytes, a list of the spans, and bytes left where a buffer is"),
        got: format!("values {values:?}"),
    }))
}

fn law(subject: &dyn Subject, rng: &mut Rng, size: u64) -> Checked {
    for i in 0..size {
        for container in [Container::Btsnoop, Container::Pcap] {
            let (trace, channel) = trace::structured_in(rng, container, 60);
            let damaged = trace::damaged(rng, &trace);
            let (random, _) = at_random(rng, Kind { container, long: i % 100 == 0, noisy: i % 3 == 0 });
            for (file, channel) in [(&trace.file, channel), (&damaged, channel), (&random.file, NO_CHANNEL)] {
                law_of(subject, container, file, channel, false)?;
                law_of(subject, container, file, channel, true)?;
            }
        }
    }
    for (words, channel, _) in made() {
        let mut trace = Trace::new(2001);
        send(&mut trace, &words);
        let pcap = pcap::of_btsnoop(&trace.file, FORMS[words.len() % 4]);
        for checks in [false, true] {
            law_of(subject, Container::Btsnoop, &trace.file, channel, checks)?;
            law_of(subject, Container::Pcap, &pcap, channel, checks)?;
        }
    }
    Ok(())
}

// ---- the group and its parts

pub fn run(subject: &dyn Subject, options: &Options) -> Checked {
    let size = options.size.unwrap_or(50_000);
    let mut rng = Rng::new(options.seed);
    let mut log = options.log("bytes");
    let mut calls = Calls::new(subject);
    by_hand(&mut calls, true)?;
    log.counts("fixed traces, and their cuts", &calls.answers());
    strings(&mut calls, if options.quiet { 4 } else { 6 })?;
    log.counts("every short string, in all pieces", &calls.answers());
    steps(&mut calls, if options.quiet { 2 } else { 4 })?;
    log.counts("every few steps", &calls.answers());
    random(&mut calls, &mut rng, size / 5, 20)?;
    log.counts("traces made byte by byte", &calls.answers());
    log.total(&calls.answers());
    law(subject, &mut rng, size / 10)?;
    if !options.quiet {
        println!(
            "bytes: the law of the sum: {} files, with the FCS checked or not",
            size / 10 * 6 + 2 * made().len() as u64
        );
    }
    Ok(())
}

/// One part alone; in a short run more of what is random.
pub fn run_by_hand(subject: &dyn Subject, _: &Options) -> Checked {
    by_hand(&mut Calls::new(subject), false)
}

pub fn run_strings(subject: &dyn Subject, _: &Options) -> Checked {
    strings(&mut Calls::new(subject), 4)
}

pub fn run_steps(subject: &dyn Subject, _: &Options) -> Checked {
    steps(&mut Calls::new(subject), 3)
}

pub fn run_random(subject: &dyn Subject, options: &Options) -> Checked {
    let size = options.size.unwrap_or(50_000).max(500);
    random(&mut Calls::new(subject), &mut Rng::new(options.seed), size, 10)
}

pub fn run_law(subject: &dyn Subject, options: &Options) -> Checked {
    law(subject, &mut Rng::new(options.seed), options.size.unwrap_or(50_000).max(500))
}
