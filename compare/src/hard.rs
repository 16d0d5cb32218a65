//! The traces of `bench import` and `bench adapters`: honest ones, and those that are dear to one reading or the
//! other. Each is made for the size that is asked for.

use crate::deep;
use crate::import::ack;
use crate::model::packed;
use crate::rng::Rng;
use crate::trace::{self, Trace};
use oracle::capture::Direction::{self, Rx, Tx};
use oracle::capture::BTSNOOP_EPOCH_DELTA_US as EPOCH;

type Maker = Box<dyn Fn(usize, u64) -> Option<Vec<u8>>>;

/// A trace that is timed.
pub struct Hard {
    pub label: String,
    /// What our time divided by the Rust's is to be at most.
    pub limit: f64,
    /// The sizes, in KiB, if none are asked for.
    sizes: &'static [usize],
    /// Whether it is one file, of one size.
    single: bool,
    /// Whether it is made at random, and another seed gives another file.
    random: bool,
    make: Maker,
}

impl Hard {
    /// The file, of at most so many KiB; `None` if the trace does not fit.
    pub fn file(&self, kib: usize) -> Option<Vec<u8>> {
        (self.make)(kib << 10, 7)
    }

    /// Files of at most so many KiB. Of a trace made at random there are 1 MiB of them: a short
    /// one that is imported again and again would be known by heart to the processor, which
    /// learns where branches go.
    pub fn files(&self, kib: usize) -> Option<Vec<Vec<u8>>> {
        let count = if self.random { 1024 / kib as u64 } else { 1 };
        (7..7 + count).map(|seed| (self.make)(kib << 10, seed)).collect()
    }

    /// The sizes to time: those asked for, if any are.
    pub fn sizes(&self, asked: Option<&[usize]>) -> Vec<usize> {
        match asked {
            None => self.sizes.to_vec(),
            Some(asked) if self.single => self.sizes.iter().copied().filter(|kib| asked.contains(kib)).collect(),
            Some(asked) => asked.to_vec(),
        }
    }

    /// Whether it has a size that can grow.
    pub fn grows(&self) -> bool {
        !self.single
    }
}

const TYPICAL: f64 = 0.27;
/// For frames that cross pieces, and for those with payloads of 900 bytes or more.
const CROSSING: f64 = 0.45;
const LONG: f64 = 0.2;
/// For what the Rust is slow at.
const EASY: f64 = 0.25;
/// For everything else: no trace is to be slower than the Rust.
const ANY: f64 = 1.0;

/// A trace that is the same each time.
fn fitting(label: &str, limit: f64, make: fn(usize) -> Vec<u8>) -> Hard {
    let make = Box::new(move |most, _| Some(make(most)));
    Hard { label: label.into(), limit, sizes: &[16, 128, 1024], single: false, random: false, make }
}

/// A trace made at random, by a seed.
fn random(label: &str, limit: f64, make: impl Fn(usize, Rng) -> Option<Vec<u8>> + 'static) -> Hard {
    let make = Box::new(move |most, seed| make(most, Rng::new(seed)));
    Hard { label: label.into(), limit, sizes: &[16, 128, 1024], single: false, random: true, make }
}

/// One file.
fn single(label: &str, sizes: &'static [usize], make: fn() -> Vec<u8>) -> Hard {
    let make = Box::new(move |_, _| Some(make()));
    Hard { label: label.into(), limit: ANY, sizes, single: true, random: false, make }
}

/// All traces, in the order of the table.
pub fn traces() -> Vec<Hard> {
    let typical = random("typical", TYPICAL, |most, rng| Some(typical(most, rng)));
    let typical = Hard { sizes: &[128, 256, 512, 1024], ..typical };
    let mut all = vec![typical];
    all.extend(honest());
    all.extend(dear());
    all.extend(many_keys());
    all.extend(deep::traces().map(|(label, make)| fitting(label, ANY, make)));
    all
}

/// Traces whose keys have an adapter's index. They have no more links than the Rust has handles.
pub fn of_many_adapters() -> Vec<Hard> {
    let far = |(label, make)| Hard { sizes: &[1024], ..fitting(label, ANY, make) };
    deep::of_many_adapters().map(far).collect()
}

/// Links that behave, with frames that cross pieces.
fn honest() -> Vec<Hard> {
    let mut all = Vec::new();
    let mut add = |label: String, links: usize, piece: (usize, usize), payload: (usize, usize)| {
        let limit = if payload.0 < 900 { CROSSING } else { LONG };
        all.push(random(&label, limit, move |most, rng| crossing(most, rng, links, piece, payload)));
    };
    for (piece, payload) in [(120, 60), (300, 100), (600, 500), (990, 900), (4000, 3900), (32_767, 30_000)] {
        add(format!("pieces of {piece}, payloads of {payload}, 2 links"), 2, (piece, piece), (payload, payload));
    }
    add("pieces of 20 to 70 cut anywhere, payloads of 0 to 120".into(), 2, (20, 70), (0, 120));
    add("pieces of 40, payloads of 10, 2 links".into(), 2, (40, 40), (10, 10));
    for links in [1, 2, 8, 64, 500] {
        let plural = if links == 1 { "" } else { "s" };
        add(format!("pieces of 40, payloads of 60, {links} link{plural}"), links, (40, 40), (60, 60));
    }
    add("pieces of 3, payloads of 0 to 4,000".into(), 2, (3, 3), (0, 4000));
    all
}

/// What looks for long, copies much or asks often.
fn dear() -> Vec<Hard> {
    vec![
        fitting("requests, then PDUs", EASY, requests_then_pdus),
        fitting("requests, then responses", EASY, requests_then_responses),
        fitting("fragments of many handles, far apart", EASY, far_apart),
        fitting("a buffer for every piece", EASY, buffers),
        fitting("a SABM before every piece", EASY, sabm_before_piece),
        fitting("spans of two bytes", EASY, short_spans),
        fitting("one-byte pieces that close and open", ANY, close_and_open),
        fitting("one-byte pieces on a long pending buffer", EASY, long_pending),
        fitting("62 DLCIs without a frame, one with", ANY, many_dlcis),
        fitting("one-byte fragments", EASY, byte_fragments),
        fitting("records without a packet", ANY, bare_records),
        fitting("a byte, then empty fragments", ANY, |most| empty_fragments(most, false)),
        fitting("a byte, then empty fragments, others between", ANY, |most| empty_fragments(most, true)),
        fitting("empty fragments, then bytes", ANY, empty_then_bytes),
    ]
}

/// Very many keys, and keys that an index by remainders would put into one place.
fn many_keys() -> Vec<Hard> {
    vec![
        fitting("fragments of 2 bytes of 4,096 handles", ANY, two_byte_fragments),
        fitting("a SABM on another handle and DLCI each", ANY, sabms),
        fitting("very many channels", ANY, |most| channels(most, 1, regular)),
        fitting("channels with one remainder, PSM 1", ANY, |most| channels(most, 1, one_remainder)),
        fitting("channels with one remainder, PSM 3", ANY, |most| channels(most, 3, one_remainder)),
        fitting("a buffer for every piece, with one remainder", ANY, buffers_of_one_remainder),
        single("442 buffers", &[16], few_buffers),
        single("480 SABMs", &[16], few_sabms),
        single("3,200 channels", &[32], few_channels),
    ]
}

/// Records until the file would pass `most` bytes, without the frame at the end.
pub struct Filler {
    pub trace: Trace,
    pub most: usize,
}

impl Filler {
    pub fn new(datalink: u32, most: usize) -> Filler {
        // Room for the frame at the end that makes the import answer.
        Filler { trace: Trace::new(datalink), most: most - 64 }
    }

    pub fn fits(&self, packet: usize) -> bool {
        self.trace.file.len() + 24 + packet <= self.most
    }

    /// False once the PDU would not fit.
    pub fn pdu(&mut self, direction: Direction, handle: u16, cid: u16, payload: &[u8]) -> bool {
        let fits = self.fits(8 + payload.len());
        if fits {
            self.trace.pdu(direction, EPOCH + self.trace.file.len() as u64, handle, cid, payload);
        }
        fits
    }

    /// The file, ended by a frame that unpacks on `dlci`.
    pub fn ended(mut self, dlci: u8) -> Vec<u8> {
        self.trace.pdu(Tx, EPOCH, 0x0EEE, 0xEEEE, &trace::uih(dlci, &ack(0), None, false));
        self.trace.file
    }
}

/// A UIH frame with one byte.
pub fn byte(dlci: u8, byte: u8) -> Vec<u8> {
    trace::uih(dlci, &[byte], None, false)
}

/// A link is set up: the channel of each direction, the session, and DLCI 18.
fn set_up(filler: &mut Filler, handle: u16) {
    filler.pdu(Tx, handle, 1, &trace::request(3, 0x41));
    filler.pdu(Rx, handle, 1, &trace::response(0x42, 0x41, 0));
    filler.pdu(Tx, handle, 0x42, &trace::sabm(0));
    filler.pdu(Tx, handle, 0x42, &trace::sabm(18));
}

/// An ordinary trace: two links, commands and events between, most frames in a packet
/// of their own, some in two fragments.
fn typical(most: usize, mut rng: Rng) -> Vec<u8> {
    let mut filler = Filler::new(1002, most);
    for handle in [0x40, 0x41] {
        set_up(&mut filler, handle);
    }
    loop {
        let handle = rng.pick(&[0x40, 0x41]);
        let (direction, cid) = rng.pick(&[(Rx, 0x41), (Tx, 0x42)]);
        let wire = if rng.percent(45) {
            ack(rng.pick(&[0, 1]))
        } else {
            let n = rng.within(2, 104);
            packed(0x0C, rng.pick(&[0, 1]), &rng.bytes(n))
        };
        let payload = trace::uih(18, &wire, if rng.percent(10) { Some(5) } else { None }, false);
        if !filler.fits(200) {
            return filler.ended(18);
        }
        let pdu = trace::l2cap(cid, &payload);
        let stamp = EPOCH + 1_700_000_000_000_000 + filler.trace.file.len() as u64 * 50;
        if rng.percent(5) {
            let cut = rng.within(1, pdu.len() - 1);
            filler.trace.fragment(direction, stamp, handle, 2, &pdu[..cut]);
            filler.trace.fragment(direction, stamp, handle, 1, &pdu[cut..]);
        } else {
            filler.trace.fragment(direction, stamp, handle, 2, &pdu);
        }
        if rng.percent(16) {
            filler.trace.record(3, stamp, &[0x04, 0x13, 0x05, 0x01, 0x40, 0x00, 0x01, 0x00]);
        }
    }
}

/// A stream of frames for each link and direction, cut into pieces without regard to them.
/// `None` if the links and a piece of each do not fit.
fn crossing(
    most: usize,
    mut rng: Rng,
    links: usize,
    piece: (usize, usize),
    payload: (usize, usize),
) -> Option<Vec<u8>> {
    let mut filler = Filler::new(1002, most);
    (0..links).for_each(|link| set_up(&mut filler, 0x40 + link as u16));
    if !filler.fits(links * (piece.1 + 40)) {
        return None;
    }
    let mut streams: Vec<Vec<u8>> = vec![Vec::new(); 2 * links];
    loop {
        let way = rng.below(2 * links);
        let n = rng.within(piece.0, piece.1);
        while streams[way].len() < n {
            let length = rng.within(payload.0, payload.1);
            streams[way].extend(packed(0x0C, rng.pick(&[0, 1]), &rng.bytes(length)));
        }
        let information: Vec<u8> = streams[way].drain(..n).collect();
        let (direction, cid) = [(Rx, 0x41), (Tx, 0x42)][way % 2];
        if !filler.pdu(direction, 0x40 + (way / 2) as u16, cid, &trace::uih(18, &information, None, false)) {
            return Some(filler.ended(18));
        }
    }
}

/// `count` commands in PDUs of at most 65,528 bytes.
fn commands(filler: &mut Filler, direction: Direction, count: usize, command: &dyn Fn(u16) -> Vec<u8>) {
    let numbers: Vec<u16> = (0..count).map(|i| (i % 0xEE00) as u16 + 0x40).collect();
    for some in numbers.chunks(8191) {
        let payload: Vec<u8> = some.iter().flat_map(|&n| command(n)).collect();
        filler.pdu(direction, 0x40, 1, &payload);
    }
}

fn requests_then_pdus(most: usize) -> Vec<u8> {
    let mut filler = Filler::new(1001, most);
    commands(&mut filler, Tx, most / 16 - 65, &|source| trace::request(3, source));
    while filler.pdu(Rx, 0x40, 0xFFFF, &byte(18, 0)) {}
    filler.ended(18)
}

fn requests_then_responses(most: usize) -> Vec<u8> {
    let mut filler = Filler::new(1001, most);
    let count = most / 16 - most / 1024;
    commands(&mut filler, Tx, count, &|source| trace::request(3, source));
    commands(&mut filler, Rx, count, &|n| trace::command(3, 1, &[n as u8, (n >> 8) as u8, 0, 0]));
    filler.ended(18)
}

fn far_apart(most: usize) -> Vec<u8> {
    let mut filler = Filler::new(1001, most);
    let pdu = trace::l2cap(0x41, &trace::uih(18, &ack(1), None, false));
    for cut in [0..5, 5..9, 9..pdu.len()] {
        for key in 0..most / 128 {
            let direction = if key % 2 == 0 { Rx } else { Tx };
            let flag = if cut.start == 0 { 2 } else { 1 };
            filler.trace.fragment(direction, EPOCH, (key / 2) as u16, flag, &pdu[cut.clone()]);
        }
    }
    filler.ended(18)
}

/// The piece of a buffer of its own, by its number.
fn buffer(filler: &mut Filler, key: u32) -> bool {
    filler.pdu(Rx, (key % 4096) as u16, 0x40 + (key / 4096) as u16, &byte(18, 0x3E))
}

fn buffers(most: usize) -> Vec<u8> {
    let mut filler = Filler::new(1001, most);
    let mut key = 0;
    while buffer(&mut filler, key) {
        key += 1;
    }
    filler.ended(18)
}

fn sabm_before_piece(most: usize) -> Vec<u8> {
    let mut filler = Filler::new(1001, most);
    while filler.pdu(Rx, 0x40, 0x41, &[73, 0x2F]) && filler.pdu(Rx, 0x40, 0x41, &byte(18, 0x3E)) {}
    filler.ended(18)
}

fn short_spans(most: usize) -> Vec<u8> {
    let mut filler = Filler::new(1001, most);
    let mut pairs = 16_383;
    while pairs > 0 {
        if !filler.pdu(Rx, 0x40, 0x41, &trace::uih(18, &[0x3E, 0x3C].repeat(pairs), None, true)) {
            pairs /= 2;
        }
    }
    filler.ended(18)
}

fn close_and_open(most: usize) -> Vec<u8> {
    let mut filler = Filler::new(1001, most);
    for n in [32_767, 32_767, 2].map(|n| n.min(most / 20)) {
        filler.pdu(Rx, 0x40, 0x41, &trace::uih(18, &vec![0x3E; n], None, true));
    }
    while filler.pdu(Rx, 0x40, 0x41, &byte(18, 0x3C)) && filler.pdu(Rx, 0x40, 0x41, &byte(18, 0x3E)) {}
    filler.ended(18)
}

fn long_pending(most: usize) -> Vec<u8> {
    let mut filler = Filler::new(1001, most);
    let held = (most / 20).min(36_000);
    for n in [held / 2, held / 2] {
        filler.pdu(Rx, 0x40, 0x41, &trace::uih(18, &vec![0x3E; n], None, true));
    }
    while filler.pdu(Rx, 0x40, 0x41, &byte(18, 0x00)) {}
    filler.ended(18)
}

fn many_dlcis(most: usize) -> Vec<u8> {
    let mut filler = Filler::new(1001, most);
    let mut step = 0u32;
    while filler.pdu(Rx, 0x40, 0x41, &byte(1 + (step % 62) as u8, 0x3E)) {
        step += 1;
    }
    filler.ended(63)
}

fn byte_fragments(most: usize) -> Vec<u8> {
    let mut filler = Filler::new(1001, most);
    let long = trace::l2cap(0x41, &vec![0; 65_535]);
    let mut at = 0;
    while filler.fits(5) {
        filler.trace.fragment(Rx, EPOCH, 0x40, if at == 0 { 2 } else { 1 }, &long[at..at + 1]);
        at = (at + 1) % long.len();
    }
    filler.ended(18)
}

fn bare_records(most: usize) -> Vec<u8> {
    let mut filler = Filler::new(1001, most);
    while filler.fits(0) {
        filler.trace.record(2, EPOCH, &[]);
    }
    filler.ended(18)
}

/// A PDU with one byte for ever; `between` puts a piece of another handle between any two.
fn empty_fragments(most: usize, between: bool) -> Vec<u8> {
    let mut filler = Filler::new(1001, most);
    filler.trace.fragment(Tx, EPOCH, 7, 2, &[0xFF]);
    while filler.fits(4) {
        filler.trace.fragment(Tx, EPOCH, 7, 1, &[]);
        if between {
            filler.pdu(Tx, 8, 0x41, &byte(18, 0));
        }
    }
    filler.ended(18)
}

fn empty_then_bytes(most: usize) -> Vec<u8> {
    let mut filler = Filler::new(1001, most);
    filler.trace.fragment(Tx, EPOCH, 7, 2, &[]);
    while filler.fits(5) {
        let data: &[u8] = if filler.trace.file.len() < most / 2 { &[] } else { &[0xFF] };
        filler.trace.fragment(Tx, EPOCH, 7, 1, data);
    }
    filler.ended(18)
}

/// PDUs of four fragments, each of another handle.
fn two_byte_fragments(most: usize) -> Vec<u8> {
    let mut filler = Filler::new(1001, most);
    let pdu = trace::l2cap(0x41, &[9; 4]);
    let mut i = 0;
    while filler.fits(6) {
        let at = 2 * (i % 4);
        let flag = if at == 0 { 2 } else { 1 };
        filler.trace.fragment(Tx, EPOCH, (i / 4 % 4096) as u16, flag, &pdu[at..at + 2]);
        i += 1;
    }
    filler.ended(18)
}

fn sabms(most: usize) -> Vec<u8> {
    let mut filler = Filler::new(1001, most);
    let mut i = 0u32;
    while filler.pdu(Tx, (i % 4096) as u16, 0x40, &trace::sabm((1 + i / 4096) as u8)) {
        i += 1;
    }
    filler.ended(18)
}

/// PDU number `i` with 16 requests. `cid` says which channels they name, by the side (twice
/// the handle, and 1 for Rx) and a number under 16.
fn name_channels(filler: &mut Filler, i: u32, psm: u16, cid: fn(u32, u32) -> u16) -> bool {
    let handle = i % 4096;
    let (direction, side) = if (i / 4096).is_multiple_of(2) { (Tx, 2 * handle + 1) } else { (Rx, 2 * handle) };
    let payload: Vec<u8> = (0..16).flat_map(|k| trace::request(psm, cid(side, k))).collect();
    filler.pdu(direction, handle as u16, 1, &payload)
}

fn channels(most: usize, psm: u16, cid: fn(u32, u32) -> u16) -> Vec<u8> {
    let mut filler = Filler::new(1001, most);
    let mut i = 0;
    while name_channels(&mut filler, i, psm, cid) {
        i += 1;
    }
    filler.ended(18)
}

fn regular(_: u32, k: u32) -> u16 {
    0x40 + k as u16
}

/// The CID and 31 times the side are a multiple of 4,096 together.
fn one_remainder(side: u32, k: u32) -> u16 {
    ((31 * side).wrapping_neg() % 4096 + 4096 * k) as u16
}

/// The handle and 31 times the CID are a multiple of 4,096 together.
fn buffers_of_one_remainder(most: usize) -> Vec<u8> {
    let mut filler = Filler::new(1001, most);
    let mut cid = 0x40u32;
    while filler.pdu(Tx, ((31 * cid).wrapping_neg() % 4096) as u16, cid as u16, &byte(18, 0x3E)) {
        cid += 1;
    }
    filler.ended(18)
}

// Three small files with many keys.

fn few_buffers() -> Vec<u8> {
    let mut filler = Filler::new(1001, 1 << 20);
    (0..441).for_each(|key| assert!(buffer(&mut filler, key)));
    filler.ended(18)
}

fn few_sabms() -> Vec<u8> {
    let mut filler = Filler::new(1001, 1 << 20);
    (0..480).for_each(|handle| assert!(filler.pdu(Rx, handle, 0x41, &[73, 0x2F])));
    filler.ended(18)
}

fn few_channels() -> Vec<u8> {
    let mut filler = Filler::new(1001, 1 << 20);
    (0..200).for_each(|i| assert!(name_channels(&mut filler, i, 1, regular)));
    filler.ended(18)
}

// Many links of many adapters.

/// A trace of as many links as fit, made twice: of one handle on an adapter each, and of links that are spread over
/// handles first.
pub struct Twins {
    pub label: &'static str,
    make: fn(&mut Filler, &dyn Fn(u32) -> Pair),
}

/// An adapter's index and a handle, by a link's number.
type Pair = (u16, u16);

impl Twins {
    /// The file of one handle, of at most so many KiB.
    pub fn one_handle(&self, kib: usize) -> Vec<u8> {
        self.file(kib, &|link| (link as u16, 0x40))
    }

    /// Its twin.
    pub fn spread(&self, kib: usize) -> Vec<u8> {
        self.file(kib, &|link| ((link / 4096) as u16, (link % 4096) as u16))
    }

    fn file(&self, kib: usize, pair: &dyn Fn(u32) -> Pair) -> Vec<u8> {
        let mut filler = Filler::new(2001, kib << 10);
        (self.make)(&mut filler, pair);
        filler.ended(18)
    }
}

/// Each place where import keys on a link, by as many as fit.
pub fn twins() -> [Twins; 9] {
    [
        Twins { label: "open PDUs, two bytes of each", make: |filler, pair| fragments(filler, pair, 1) },
        Twins { label: "open PDUs, begun and then ended", make: |filler, pair| fragments(filler, pair, 2) },
        Twins {
            label: "channels, a PSM 1 request each",
            make: |filler, pair| pdus(filler, pair, 1, &|_| (Tx, 1, trace::request(1, 0x41))),
        },
        Twins { label: "channels, PSM 3 requests, then responses", make: requests_and_responses },
        Twins {
            label: "sessions, a SABM each",
            make: |filler, pair| pdus(filler, pair, 1, &|_| (Rx, 0x41, vec![3, 0x2F])),
        },
        Twins {
            label: "links, a SABM each",
            make: |filler, pair| pdus(filler, pair, 1, &|_| (Rx, 0x41, vec![73, 0x2F])),
        },
        Twins {
            label: "links, SABMs, then a piece each",
            make: |filler, pair| {
                pdus(filler, pair, 2, &|turn| (Rx, 0x41, if turn == 0 { vec![73, 0x2F] } else { byte(18, 0x3E) }))
            },
        },
        Twins {
            label: "a buffer for every piece",
            make: |filler, pair| pdus(filler, pair, 1, &|_| (Rx, 0x41, byte(18, 0x3E))),
        },
        Twins {
            label: "buffers, two pieces each",
            make: |filler, pair| pdus(filler, pair, 2, &|_| (Rx, 0x41, byte(18, 0x3E))),
        },
    ]
}

/// So many turns through as many links as fit, each with a record of so many bytes.
fn turns(filler: &mut Filler, turns: u32, bytes: usize, record: &mut dyn FnMut(&mut Filler, u32, u32)) {
    let links = (filler.most - filler.trace.file.len()) / (turns as usize * bytes);
    for turn in 0..turns {
        (0..links as u32).for_each(|link| record(filler, turn, link));
    }
}

/// Fragments of two bytes, one or two of each PDU.
fn fragments(filler: &mut Filler, pair: &dyn Fn(u32) -> Pair, parts: u32) {
    turns(filler, parts, 30, &mut |filler, turn, link| {
        let ((index, handle), flag) = (pair(link), if turn == 0 { 2 } else { 1 });
        filler.trace.on(index).fragment(Tx, EPOCH, handle, flag, &[[0, 0], [0x41, 0]][turn as usize]);
    });
}

/// A PDU for each link in each of so many turns.
fn pdus(filler: &mut Filler, pair: &dyn Fn(u32) -> Pair, many: u32, pdu: &dyn Fn(u32) -> (Direction, u16, Vec<u8>)) {
    let bytes = (0..many).map(|turn| 32 + pdu(turn).2.len()).max().unwrap_or(32);
    turns(filler, many, bytes, &mut |filler, turn, link| {
        let ((index, handle), (direction, cid, payload)) = (pair(link), pdu(turn));
        filler.trace.on(index).pdu(direction, EPOCH, handle, cid, &payload);
    });
}

fn requests_and_responses(filler: &mut Filler, pair: &dyn Fn(u32) -> Pair) {
    pdus(filler, pair, 2, &|turn| match turn {
        0 => (Tx, 1, trace::request(3, 0x41)),
        _ => (Rx, 1, trace::response(0x42, 0x41, 0)),
    });
}
