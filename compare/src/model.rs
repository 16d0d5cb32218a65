//! The calls once more, written plainly from documents 01 and 02 and not from the source:
//! a second reading to hold against the oracle, a stand-in for the library while
//! the comparison itself is worked on, and what planted faults are made of. Only
//! the words of the names come from the oracle; 01 does not repeat them.

use std::borrow::Cow;
use std::collections::BTreeMap;
use std::sync::LazyLock;

use crate::answer::{self, chosen, container, Answer, Asked, Bytes, Container, Stream, Subject, NO_CHANNEL};
use crate::expected::{LONGEST_FILE, LONGEST_PAYLOAD};
use crate::gaps;
use crate::pcap;
use oracle::capture;
use oracle::mdr::DataType;

pub struct Model;

/// Stores an answer the way the C interface does.
pub fn store(answer: &Answer, out: &mut [u8], values: &mut [u64]) -> u32 {
    let answer = answer.within(out.len());
    for (place, value) in values.iter_mut().zip(&answer.values) {
        *place = *value;
    }
    out[..answer.written.len()].copy_from_slice(&answer.written);
    answer.number
}

impl Subject for Model {
    fn unpack(&self, wire: &[u8], out: &mut [u8], values: &mut [u64]) -> u32 {
        store(&unpack(wire), out, values)
    }

    fn pack(&self, kind: u8, seq: u8, payload: &[u8], out: &mut [u8], values: &mut [u64]) -> u32 {
        store(&pack(kind, seq, payload), out, values)
    }

    fn fixture_name(
        &self,
        ms: u64,
        counter: u32,
        direction: u8,
        wire: &[u8],
        out: &mut [u8],
        values: &mut [u64],
    ) -> u32 {
        store(&fixture_name(ms, counter, direction, wire, SPELT), out, values)
    }

    fn is_command_name(&self, name: &[u8]) -> u32 {
        u32::from(is_command_name(name, SPELT))
    }

    fn plan(&self, spans: &[u8], excluded: &[u8], out: &mut [u8], values: &mut [u64]) -> u32 {
        store(&plan(spans, excluded, SPELT), out, values)
    }

    fn capture_order(&self, names: &[u8], out: &mut [u8], values: &mut [u64]) -> u32 {
        store(&capture_order(names), out, values)
    }

    fn import_strict(&self, file: &[u8], work: &mut [u8], out: &mut [u8], channel: u32, values: &mut [u64]) -> u32 {
        self.import(file, work, out, channel, 0, values)
    }

    fn import(
        &self,
        file: &[u8],
        work: &mut [u8],
        out: &mut [u8],
        channel: u32,
        tolerant: u32,
        values: &mut [u64],
    ) -> u32 {
        store(&import(file, work.len(), channel, tolerant != 0, RIGHT), out, values)
    }

    fn import_stretches(
        &self,
        file: &[u8],
        work: &mut [u8],
        stretches: &mut [answer::Stretch],
        out: &mut [u8],
        channel: u32,
        tolerant: u32,
        values: &mut [u64],
    ) -> u32 {
        let options = [u64::from(channel), u64::from(tolerant)];
        self.import_stretches_with(file, work, stretches, out, &options, values)
    }

    fn import_with(&self, file: &[u8], work: &mut [u8], out: &mut [u8], options: &[u64], values: &mut [u64]) -> u32 {
        store(&import_with(file, work.len(), options, RIGHT), out, values)
    }

    fn import_stretches_with(
        &self,
        file: &[u8],
        work: &mut [u8],
        stretches: &mut [answer::Stretch],
        out: &mut [u8],
        options: &[u64],
        values: &mut [u64],
    ) -> u32 {
        let answer = if lacks_places(file.len(), stretches.len()) {
            Answer::refused(2, &[])
        } else {
            import_with(file, work.len(), options, RIGHT)
        };
        let number = store(&answer, out, values);
        if number == 0 {
            fill(stretches, &open(container(options), file, answer.values[0], chosen(options).checks, RIGHT));
        }
        number
    }

    fn records(&self, file: &[u8], starts: &mut [u64], values: &mut [u64]) -> u32 {
        self.records_with(file, starts, &[], values)
    }

    fn records_with(&self, file: &[u8], starts: &mut [u64], options: &[u64], values: &mut [u64]) -> u32 {
        let (answer, found) = records_with(container(options), file, pcap::RIGHT);
        starts.iter_mut().zip(found).for_each(|(place, start)| *place = start);
        store(&answer, &mut [], values)
    }

    fn gaps(&self, file: &[u8], work: &mut [u8], tolerant: u32, values: &mut [u64]) -> u32 {
        self.gaps_with(file, work, &[0, u64::from(tolerant)], values)
    }

    fn gaps_with(&self, file: &[u8], work: &mut [u8], options: &[u64], values: &mut [u64]) -> u32 {
        let answer = gaps::answer_in(container(options), file, work.len(), chosen(options).tolerant, gaps::RIGHT);
        store(&answer, &mut [], values)
    }

    fn sizes_with(&self, file: &[u8], work: &mut [u8], options: &[u64], values: &mut [u64]) -> u32 {
        store(&sizes_with(file, work.len(), options, RIGHT), &mut [], values)
    }

    fn one_link_with(
        &self,
        file: &[u8],
        work: &mut [u8],
        out: &mut [u8],
        stream: Stream,
        options: &[u64],
        values: &mut [u64],
    ) -> u32 {
        store(&one_link(container(options), file, work.len(), stream, RIGHT), out, values)
    }
}

/// How 01 is read in the places where it warns of another reading. Only `RIGHT` is
/// the model; the others are faults to plant.
#[derive(Clone, Copy)]
pub struct Reading {
    /// A start discards the partial PDU before it.
    pub start_discards: bool,
    /// A PDU's time is that of the record completing it, not of its first fragment.
    pub last_time: bool,
    /// Channels are judged by the whole file.
    pub whole_file: bool,
    /// A new session is a new stretch.
    pub sessions: bool,
    /// The longest buffer that stays.
    pub longest: usize,
    /// A request admits its source without a response.
    pub request_admits: bool,
    /// Bytes past a PDU's length are dropped, and do not begin the next.
    pub excess_dropped: bool,
    /// A PDU on CID 1 with a PSM 3 request is done with, and not tried as well.
    pub request_ends: bool,
    /// The adapter's index by datalink and flags; without one the record is skipped.
    pub index: fn(u64, u64) -> Option<u32>,
    /// The link of an index and a handle.
    pub link: fn(u32, u32) -> u32,
    /// Records of every adapter are read, not of the first alone.
    pub every_adapter: bool,
    /// A start discards nothing of another adapter.
    pub start_apart: bool,
    pub keys: Keys,
    /// How pcap files are read.
    pub pcap: pcap::Reading,
    /// How the FCS is checked.
    pub sums: Sums,
    /// How it is told where every byte went.
    pub account: Account,
}

/// How 02 is read where it has the FCS checked. Only `BY_02` is the model.
#[derive(Clone, Copy)]
pub struct Sums {
    /// The FCS that is right, by the frame.
    pub right: fn(&[u8]) -> u8,
    /// The byte that is held to it, by the frame and the place after its information.
    pub byte: fn(&[u8], usize) -> u8,
    /// A frame with a wrong FCS is not taken in.
    pub passed_over: bool,
    /// It does not begin a link, nor a session.
    pub no_link: bool,
    pub no_session: bool,
    /// Its DLCI is not seen by it.
    pub unseen: bool,
    /// The DLCI is chosen among what is left with the switch on.
    pub chosen_on: bool,
    /// Only UIH frames are checked, and no SABM.
    pub uih_alone: bool,
    /// A frame that is cut short is no UIH frame, and not a wrong one.
    pub whole: bool,
    /// With the switch off nothing is counted.
    pub on_alone: bool,
    /// Which are counted, by the DLCI that is chosen.
    pub counts: fn(&Wrong, u8) -> bool,
    /// The count that is told, by those that are counted and the pieces of the DLCI.
    pub told: fn(u64, u64) -> u64,
}

/// A frame with a wrong FCS.
#[derive(Clone, Copy)]
pub struct Wrong {
    pub dlci: u8,
    pub control: u8,
    /// How many bytes of information it has.
    pub information: usize,
    /// Whether its PDU is tried, and whether it is done with before as a PSM 3 request.
    pub tried: bool,
    pub asks: bool,
    /// How many pieces there are before it.
    pub before: usize,
}

/// The reversed polynomial of TS 07.10's FCS, and what it starts from.
pub const POLYNOMIAL: u8 = 0xE0;
pub const START: u8 = 0xFF;

/// A check over bytes, lowest bits first, before its complement.
pub fn divided(bytes: &[u8], polynomial: u8, start: u8) -> u8 {
    bytes.iter().fold(start, |sum, byte| {
        (0..8).fold(sum ^ byte, |sum, _| if sum % 2 == 1 { (sum / 2) ^ polynomial } else { sum / 2 })
    })
}

pub const BY_02: Sums = Sums {
    right: |frame| 0xFF - divided(&frame[..2], POLYNOMIAL, START),
    byte: |frame, at| frame[at],
    passed_over: true,
    no_link: true,
    no_session: true,
    unseen: true,
    chosen_on: true,
    uih_alone: true,
    whole: true,
    on_alone: true,
    counts: |wrong, dlci| wrong.dlci == dlci && wrong.tried && !wrong.asks,
    told: |counted, _| counted,
};

/// How 02 is read where it says where every byte went. Only `BY_BYTE` is the model.
#[derive(Clone, Copy)]
pub struct Account {
    /// Whether a piece is taken in, by its DLCI, the DLCI chosen and the first that is tried.
    pub own: fn(u8, u8, u8) -> bool,
    /// What its bytes are held with.
    pub key: fn(&Piece) -> (Stretch, Way),
    /// The longest that stays held, and that only the end of a piece is where it is looked at.
    pub longest: usize,
    pub at_ends: bool,
    /// A 3E with something held does not start anew.
    pub from_first: bool,
    /// The four numbers, by what became of the bytes.
    pub told: fn(&Fates) -> Bytes,
}

/// What became of the bytes of pieces.
#[derive(Default)]
pub struct Fates {
    pub spans: Vec<Vec<u8>>,
    pub dropped: Vec<Dropped>,
    pub cleared: Vec<Cleared>,
    /// What is held at the end, where something is.
    pub left: Vec<((Stretch, Way), usize)>,
    /// Information bytes of the frames with a wrong FCS that are counted.
    pub wrong: usize,
}

/// Bytes of a piece that were dropped in a row.
#[derive(Default)]
pub struct Dropped {
    pub bytes: usize,
    /// How many of them are 3C.
    pub ends: usize,
    /// Whether a span ends before them in their piece, and whether a 3E comes behind them in it.
    pub behind: bool,
    pub started: bool,
    /// Whether what was held last before their piece was cleared.
    pub cleared: bool,
}

/// What was cleared at the end of a piece, and how long the piece was.
pub struct Cleared {
    pub bytes: usize,
    pub piece: usize,
}

pub const BY_BYTE: Account = Account {
    own: |dlci, chosen, _| dlci == chosen,
    key: |piece| (piece.stretch, piece.way),
    longest: 65_536,
    at_ends: true,
    from_first: true,
    told: Fates::told,
};

impl Fates {
    pub fn in_spans(&self) -> u64 {
        self.spans.iter().map(|wire| wire.len() as u64).sum()
    }

    /// Bytes dropped in those rows that count.
    pub fn dropped(&self, counts: fn(&Dropped) -> bool) -> u64 {
        self.dropped.iter().filter(|row| counts(row)).map(|row| row.bytes as u64).sum()
    }

    pub fn cleared(&self) -> u64 {
        self.cleared.iter().map(|cleared| cleared.bytes as u64).sum()
    }

    pub fn left(&self) -> u64 {
        self.left.iter().map(|(_, held)| *held as u64).sum()
    }

    pub fn told(&self) -> Bytes {
        [self.in_spans(), self.dropped(|_| true), self.cleared(), self.left()]
    }
}

/// What of a link is looked at, wherever import keys on it.
#[derive(Clone, Copy)]
pub struct Keys {
    /// Open PDUs.
    pub open: fn(u32) -> u32,
    /// The channel triple, where it is named and where it is admitted.
    pub named: fn(u32) -> u32,
    pub admitted: fn(u32) -> u32,
    /// An earlier PSM 3 request.
    pub requested: fn(u32) -> u32,
    pub sessions: fn(u32) -> u32,
    pub links: fn(u32) -> u32,
    pub stretch: fn(u32) -> u32,
}

const WHOLE: fn(u32) -> u32 = |link| link;

/// All of the link everywhere.
pub const BY_LINK: Keys = Keys {
    open: WHOLE,
    named: WHOLE,
    admitted: WHOLE,
    requested: WHOLE,
    sessions: WHOLE,
    links: WHOLE,
    stretch: WHOLE,
};

/// The upper 16 flag bits of 2001; 1001 and 1002 have one adapter.
pub fn index(datalink: u64, flags: u64) -> Option<u32> {
    Some(if datalink == 2001 { (flags / 65536) as u32 } else { 0 })
}

pub const RIGHT: Reading = Reading {
    start_discards: true,
    last_time: true,
    whole_file: true,
    sessions: true,
    longest: 65_536,
    request_admits: true,
    excess_dropped: true,
    request_ends: true,
    index,
    link: |index, handle| 4096 * index + handle,
    every_adapter: true,
    start_apart: true,
    keys: BY_LINK,
    pcap: pcap::RIGHT,
    sums: BY_02,
    account: BY_BYTE,
};

// MDR frames.

fn sum(bytes: &[u8]) -> u8 {
    (bytes.iter().map(|&b| b as u64).sum::<u64>() % 256) as u8
}

/// The escaped part undone, or the refusal met first.
fn unescaped(part: &[u8]) -> Result<Vec<u8>, Answer> {
    let mut body = Vec::new();
    let mut at = 0;
    while at < part.len() {
        if part[at] != 0x3D {
            body.push(part[at]);
            at += 1;
        } else if at + 1 == part.len() {
            return Err(Answer::refused(13, &[]));
        } else if (0x2C..=0x2E).contains(&part[at + 1]) {
            body.push(part[at + 1] + 0x10);
            at += 2;
        } else {
            return Err(Answer::refused(14, &[part[at + 1].into()]));
        }
    }
    Ok(body)
}

/// The body of a frame: type, seq, length, payload, without the sum.
fn body(wire: &[u8]) -> Result<Vec<u8>, Answer> {
    if wire.len() < 9 {
        return Err(Answer::refused(10, &[]));
    }
    if wire[0] != 0x3E {
        return Err(Answer::refused(11, &[]));
    }
    if wire[wire.len() - 1] != 0x3C {
        return Err(Answer::refused(12, &[]));
    }
    let mut body = unescaped(&wire[1..wire.len() - 1])?;
    if body.len() < 7 {
        return Err(Answer::refused(15, &[]));
    }
    let declared = body.pop().unwrap();
    if declared != sum(&body) {
        return Err(Answer::refused(17, &[declared.into(), sum(&body).into()]));
    }
    let length = body[2..6].iter().fold(0u64, |n, &b| n * 256 + u64::from(b));
    let actual = body.len() as u64 - 6;
    if length != actual {
        return Err(Answer::refused(16, &[length, actual]));
    }
    Ok(body)
}

pub fn unpack(wire: &[u8]) -> Answer {
    match body(wire) {
        Ok(body) => Answer::done(&[body[0].into(), body[1].into(), body.len() as u64 - 6], body[6..].to_vec()),
        Err(refusal) => refusal,
    }
}

/// The packed form of any payload.
pub fn packed(kind: u8, seq: u8, payload: &[u8]) -> Vec<u8> {
    let n = payload.len();
    let mut body = vec![kind, seq, (n >> 24) as u8, (n >> 16) as u8, (n >> 8) as u8, n as u8];
    body.extend(payload);
    body.push(sum(&body));
    let mut wire = vec![0x3E];
    for b in body {
        if (0x3C..=0x3E).contains(&b) {
            wire.push(0x3D);
            wire.push(b - 0x10);
        } else {
            wire.push(b);
        }
    }
    wire.push(0x3C);
    wire
}

pub fn pack(kind: u8, seq: u8, payload: &[u8]) -> Answer {
    if payload.len() > LONGEST_PAYLOAD {
        return Answer::refused(18, &[]);
    }
    let wire = packed(kind, seq, payload);
    Answer::done(&[wire.len() as u64], wire)
}

// Names, plan, order.

/// How names are spelt, looked up and compared. Only `SPELT` is the model.
#[derive(Clone, Copy)]
pub struct Spelling {
    /// A name as it is written, of a type or a command.
    pub word: fn(&'static str) -> Cow<'static, str>,
    /// The type whose table is looked into, by a command's type and byte.
    pub table: fn(u8, u8) -> u8,
    /// Whether a name that is asked for or excluded is this one.
    pub same: fn(&[u8], &str) -> bool,
}

pub const SPELT: Spelling =
    Spelling { word: |name| Cow::Borrowed(name), table: |kind, _| kind, same: |asked, name| asked == name.as_bytes() };

/// The types that have a table.
const TABLES: [u8; 2] = [0x0C, 0x0E];

/// The name that the source's table has for a byte.
fn listed(kind: u8, byte: u8) -> Option<&'static str> {
    let name = capture::command_name(DataType::from_wire(kind), &[byte]);
    (name != "UNKNOWN" || byte == 0xFF).then_some(name)
}

/// The name a table has for a byte.
pub fn table_name(kind: u8, byte: u8) -> Option<&'static str> {
    static LISTED: LazyLock<[[Option<&str>; 256]; 2]> =
        LazyLock::new(|| TABLES.map(|kind| std::array::from_fn(|byte| listed(kind, byte as u8))));
    let table = TABLES.iter().position(|table| *table == kind)?;
    LISTED[table][usize::from(byte)]
}

/// The same as it is looked up and written.
fn spelt_name(kind: u8, byte: u8, spelling: Spelling) -> Option<Cow<'static, str>> {
    table_name((spelling.table)(kind, byte), byte).map(spelling.word)
}

pub fn is_command_name(name: &[u8], spelling: Spelling) -> bool {
    let is = |kind, byte| spelt_name(kind, byte, spelling).is_some_and(|known| (spelling.same)(name, &known));
    (0..=255).any(|byte| TABLES.iter().any(|kind| is(*kind, byte)))
}

fn command(body: &[u8], spelling: Spelling) -> Cow<'static, str> {
    match body.get(6) {
        None => (spelling.word)("NO_COMMAND"),
        Some(&byte) => spelt_name(body[0], byte, spelling).unwrap_or_else(|| (spelling.word)("UNKNOWN")),
    }
}

fn name_of(ms: u64, counter: u32, direction: u8, body: &[u8], spelling: Spelling) -> String {
    let way = if direction == 1 { "rx" } else { "tx" };
    let kind = (spelling.word)(capture::data_type_name(DataType::from_wire(body[0])));
    let first = body.get(6).copied().unwrap_or(0);
    let digits = counter.to_string();
    let counter = "0".repeat(6usize.saturating_sub(digits.len())) + &digits;
    format!(
        "mdr-packet-{ms}-{counter}-{way}.type-{kind}-{:02x}.seq-{:02x}.cmd-{}-{first:02x}.bin",
        body[0],
        body[1],
        command(body, spelling)
    )
}

pub fn fixture_name(ms: u64, counter: u32, direction: u8, wire: &[u8], spelling: Spelling) -> Answer {
    match body(wire) {
        Ok(body) => {
            let name = name_of(ms, counter, direction, &body, spelling);
            Answer::done(&[name.len() as u64], name.into_bytes())
        }
        Err(refusal) => refusal,
    }
}

/// The items of a list in which a span is `spans` and a name is not, or the offset
/// at which it is ill-formed.
fn items(list: &[u8], spans: bool) -> Result<Vec<(u8, &[u8])>, u64> {
    if list.len() > 16_777_216 {
        return Err(0);
    }
    let mut items = Vec::new();
    let mut rest = list;
    while !rest.is_empty() {
        let here = (list.len() - rest.len()) as u64;
        if rest.len() < 6 {
            return Err(here);
        }
        let length = (0..4).map(|i| (rest[i] as usize) << (8 * i)).sum::<usize>();
        let kind = rest[4] as usize + rest[5] as usize * 256;
        let right = if spans { (kind == 1 || kind == 2) && length >= 8 } else { kind == 3 };
        if rest.len() - 6 < length || !right {
            return Err(here);
        }
        items.push((kind as u8, &rest[6..6 + length]));
        rest = &rest[6 + length..];
    }
    Ok(items)
}

fn item(list: &mut Vec<u8>, kind: u8, body: &[u8]) {
    for i in 0..4 {
        list.push((body.len() >> (8 * i)) as u8);
    }
    list.push(kind);
    list.push(0);
    list.extend(body);
}

pub fn plan(spans: &[u8], excluded: &[u8], spelling: Spelling) -> Answer {
    let spans = match items(spans, true) {
        Ok(items) => items,
        Err(at) => return Answer::refused(19, &[at]),
    };
    let excluded = match items(excluded, false) {
        Ok(items) => items,
        Err(at) => return Answer::refused(20, &[at]),
    };
    let mut fixtures = 0;
    let mut list = Vec::new();
    for (counter, (direction, span)) in (1..).zip(spans) {
        let ms = (0..8).map(|i| u64::from(span[i]) << (8 * i)).sum::<u64>();
        let wire = &span[8..];
        let Ok(body) = body(wire) else { continue };
        let command = command(&body, spelling);
        if excluded.iter().any(|(_, name)| (spelling.same)(name, &command)) {
            continue;
        }
        item(&mut list, 3, name_of(ms, counter, direction, &body, spelling).as_bytes());
        item(&mut list, 4, wire);
        fixtures += 1;
    }
    Answer::done(&[fixtures, list.len() as u64], list)
}

/// The counter of a name: the second part between hyphens after `mdr-packet-`.
fn counter(name: &[u8]) -> Option<u32> {
    let part = name.strip_prefix(b"mdr-packet-")?.split(|&b| b == b'-').nth(1)?;
    let digits = part.strip_prefix(b"+").unwrap_or(part);
    if digits.is_empty() {
        return None;
    }
    let mut n = 0u64;
    for d in digits {
        if !d.is_ascii_digit() {
            return None;
        }
        n = n * 10 + u64::from(d - b'0');
        if n > 4_294_967_295 {
            return None;
        }
    }
    Some(n as u32)
}

pub fn capture_order(names: &[u8]) -> Answer {
    let mut names = match items(names, false) {
        Ok(items) => items,
        Err(at) => return Answer::refused(20, &[at]),
    };
    names.sort_by_key(|(_, name)| (counter(name).map_or(0, |c| u64::from(c) + 1), *name));
    let mut list = Vec::new();
    for (_, name) in names {
        item(&mut list, 3, name);
    }
    Answer::done(&[list.len() as u64], list)
}

// Import.

/// True is Rx.
pub type Way = bool;
type Triple = (u32, Way, u16);

pub struct Pdu {
    pub ms: u64,
    pub way: Way,
    /// Adapter's index and handle in one number.
    pub link: u32,
    pub cid: u16,
    pub payload: Vec<u8>,
}

/// Adapter's index and handle in one number, CID, session, and link of the DLCI.
pub type Stretch = (u32, u16, u32, u32);

pub struct Piece {
    pub link: u32,
    pub dlci: u8,
    pub ms: u64,
    pub way: Way,
    pub stretch: Stretch,
    pub information: Vec<u8>,
}

fn le16(bytes: &[u8], at: usize) -> Option<u16> {
    Some(u16::from(*bytes.get(at)?) + u16::from(*bytes.get(at + 1)?) * 256)
}

pub fn be(bytes: &[u8]) -> u64 {
    bytes.iter().fold(0, |n, &b| n * 256 + u64::from(b))
}

/// The whole records after the header, and the bytes they take.
pub fn records(mut rest: &[u8]) -> (Vec<&[u8]>, usize) {
    let mut rows = Vec::new();
    let mut taken = 0;
    while rest.len() >= 24 && (rest.len() - 24) as u64 >= be(&rest[4..8]) {
        let (row, after) = rest.split_at(24 + be(&rest[4..8]) as usize);
        rows.push(row);
        taken += row.len();
        rest = after;
    }
    (rows, taken)
}

/// Time, direction, flags and bytes of the ACL packet in a record.
fn packet(datalink: u64, row: &[u8]) -> Option<(u64, Way, u64, &[u8])> {
    let flags = be(&row[8..12]);
    let ms = be(&row[16..24]).saturating_sub(0x00dc_ddb3_0f2f_8000) / 1000;
    let packet = &row[24..];
    if datalink == 2001 {
        return match flags % 65536 {
            4 => Some((ms, false, flags, packet)),
            5 => Some((ms, true, flags, packet)),
            _ => None,
        };
    }
    if flags / 2 % 2 == 1 {
        return None;
    }
    let packet = if datalink == 1002 { packet.strip_prefix(&[2])? } else { packet };
    Some((ms, flags % 2 == 1, flags, packet))
}

/// Handle, flag and data, if every field is there.
fn fragment(packet: &[u8]) -> Option<(u16, u16, &[u8])> {
    let field = le16(packet, 0)?;
    let length = le16(packet, 2)?;
    Some((field % 4096, field / 4096 % 4, packet.get(4..4 + usize::from(length))?))
}

/// A packet all of whose fields are there.
pub struct Packet<'a> {
    pub ms: u64,
    pub way: Way,
    pub link: u32,
    pub start: bool,
    pub data: &'a [u8],
}

/// The packets of a file with a good header, and where its whole records end.
pub fn packets(container: Container, file: &[u8], reading: Reading) -> (Vec<Packet<'_>>, usize) {
    match container {
        Container::Btsnoop => {
            let (rows, taken) = records(&file[16..]);
            (of_btsnoop(be(&file[12..16]), &rows, reading), 16 + taken)
        }
        Container::Pcap => {
            let (records, tail) = pcap::read(file, reading.pcap);
            (of_pcap(&records), tail)
        }
    }
}

/// A pcap file has one adapter.
fn of_pcap<'a>(records: &[pcap::Record<'a>]) -> Vec<Packet<'a>> {
    let mut packets = Vec::new();
    for record in records {
        let (Some(way), Some(bytes)) = (record.received, record.acl) else { continue };
        let Some((handle, flag, data)) = fragment(bytes) else { continue };
        packets.push(Packet { ms: record.ms, way, link: u32::from(handle), start: flag != 1, data });
    }
    packets
}

fn of_btsnoop<'a>(datalink: u64, rows: &[&'a [u8]], reading: Reading) -> Vec<Packet<'a>> {
    let mut first = None;
    let mut packets = Vec::new();
    for row in rows {
        let Some((ms, way, flags, bytes)) = packet(datalink, row) else { continue };
        let Some((handle, flag, data)) = fragment(bytes) else { continue };
        let Some(index) = (reading.index)(datalink, flags) else { continue };
        if reading.every_adapter || *first.get_or_insert(index) == index {
            let link = (reading.link)(index, u32::from(handle));
            packets.push(Packet { ms, way, link, start: flag != 1, data });
        }
    }
    packets
}

pub fn pdus(packets: &[Packet], reading: Reading) -> Vec<Pdu> {
    let mut open: BTreeMap<(u32, Way), (u64, Vec<u8>)> = BTreeMap::new();
    let mut pdus = Vec::new();
    for &Packet { ms, way, link, start, data } in packets {
        let key = ((reading.keys.open)(link), way);
        let before = open.remove(&key);
        if start && !reading.start_apart {
            open.retain(|(other, side), _| (other % 4096, *side) != (link % 4096, way));
        }
        let (first, bytes) = match (start, before) {
            (false, None) => continue,
            (false, Some((first, before))) => (first, [&before, data].concat()),
            (true, Some((first, before))) if !reading.start_discards => (first, [&before, data].concat()),
            (true, _) => (ms, data.to_vec()),
        };
        let ms = if reading.last_time { ms } else { first };
        match le16(&bytes, 0) {
            Some(length) if bytes.len() >= 4 + usize::from(length) => {
                let cid = le16(&bytes, 2).unwrap();
                let (pdu, excess) = bytes.split_at(4 + usize::from(length));
                pdus.push(Pdu { ms, way, link, cid, payload: pdu[4..].to_vec() });
                if !reading.excess_dropped && !excess.is_empty() {
                    open.insert(key, (ms, excess.to_vec()));
                }
            }
            _ => {
                open.insert(key, (first, bytes));
            }
        }
    }
    pdus
}

/// The commands of a PDU on CID 1: code and body.
fn commands(mut rest: &[u8]) -> Vec<(u8, &[u8])> {
    let mut commands = Vec::new();
    while rest.len() >= 4 {
        let length = usize::from(le16(rest, 2).unwrap());
        if rest.len() - 4 < length {
            break;
        }
        commands.push((rest[0], &rest[4..4 + length]));
        rest = &rest[4 + length..];
    }
    commands
}

fn asks(pdu: &Pdu) -> bool {
    pdu.cid == 1 && commands(&pdu.payload).iter().any(|(code, body)| *code == 2 && le16(body, 0) == Some(3))
}

/// The triples that are admitted, and those that are named.
pub fn channels(pdus: &[Pdu], reading: Reading) -> (Vec<Triple>, Vec<Triple>) {
    let mut admitted = Vec::new();
    let mut named = Vec::new();
    let mut requested: Vec<Triple> = Vec::new();
    for pdu in pdus.iter().filter(|p| p.cid == 1) {
        let keys = reading.keys;
        let (names, admits, asked) = ((keys.named)(pdu.link), (keys.admitted)(pdu.link), (keys.requested)(pdu.link));
        for (code, body) in commands(&pdu.payload) {
            let (Some(first), Some(second)) = (le16(body, 0), le16(body, 2)) else { continue };
            if code == 2 {
                named.push((names, !pdu.way, second));
                if first == 3 {
                    if reading.request_admits {
                        admitted.push((admits, !pdu.way, second));
                    }
                    requested.push((asked, pdu.way, second));
                }
            } else if code == 3 {
                named.push((names, !pdu.way, first));
                if le16(body, 4) == Some(0) && requested.contains(&(asked, !pdu.way, second)) {
                    admitted.push((admits, !pdu.way, first));
                }
            }
        }
    }
    admitted.sort();
    named.sort();
    (admitted, named)
}

/// DLCI and information of a UIH frame, and the place after the information.
fn uih(frame: &[u8]) -> Option<(u8, &[u8], usize)> {
    let control = *frame.get(1)?;
    if control != 0xEF && control != 0xFF {
        return None;
    }
    let low = usize::from(*frame.get(2)?);
    let (length, start) = if low % 2 == 1 { (low / 2, 3) } else { (low / 2 + 128 * usize::from(*frame.get(3)?), 4) };
    let start = if control == 0xFF { start + 1 } else { start };
    (frame.len() > start + length).then(|| (frame[0] / 4, &frame[start..start + length], start + length))
}

/// The wrong frame that a payload is, if it is one: all but how its PDU stands.
fn wrong(frame: &[u8], sums: Sums) -> Option<Wrong> {
    let found = |dlci: u8, information: usize| {
        let control = frame[1];
        Some(Wrong { dlci, control, information, tried: false, asks: false, before: 0 })
    };
    match uih(frame) {
        Some((dlci, information, end)) if (sums.byte)(frame, end) != (sums.right)(frame) => {
            found(dlci, information.len())
        }
        None if !sums.whole && frame.len() >= 2 && matches!(frame[1], 0xEF | 0xFF) => found(frame[0] / 4, 0),
        _ => None,
    }
}

/// Whether a SABM is a wrong one, for a reading that checks it.
fn wrong_sabm(frame: &[u8], sums: Sums) -> bool {
    !sums.uih_alone && frame.len() > 3 && frame[3] != 0xFF - divided(&frame[..3], POLYNOMIAL, START)
}

/// The pieces of a file.
pub fn pieces(pdus: &[Pdu], reading: Reading) -> Vec<Piece> {
    frames(pdus, false, reading).0
}

/// The pieces of a file, and its frames with a wrong FCS, which are looked for with the switch on.
pub fn frames(pdus: &[Pdu], checks: bool, reading: Reading) -> (Vec<Piece>, Vec<Wrong>) {
    let (mut admitted, mut named) = channels(pdus, reading);
    let mut sessions: BTreeMap<u32, u32> = BTreeMap::new();
    let mut links: BTreeMap<(u32, u8), u32> = BTreeMap::new();
    let (mut pieces, mut wrongs) = (Vec::new(), Vec::new());
    let (keys, sums) = (reading.keys, reading.sums);
    for (i, pdu) in pdus.iter().enumerate() {
        let (of_sessions, of_links) = ((keys.sessions)(pdu.link), (keys.links)(pdu.link));
        if !reading.whole_file {
            (admitted, named) = channels(&pdus[..=i], reading);
        }
        let triple = |link: u32| (link, pdu.way, pdu.cid);
        let guessed = pdu.cid >= 0x40 && named.binary_search(&triple((keys.named)(pdu.link))).is_err();
        let tried = guessed || admitted.binary_search(&triple((keys.admitted)(pdu.link))).is_ok();
        let asks = asks(pdu);
        let wrong = if checks || !sums.on_alone { wrong(&pdu.payload, sums) } else { None };
        wrongs.extend(wrong.map(|wrong| Wrong { tried, asks, before: pieces.len(), ..wrong }));
        if asks {
            *sessions.entry(of_sessions).or_insert(0) += 1;
            if reading.request_ends {
                continue;
            }
        }
        if !tried {
            continue;
        }
        if let (Some(wrong), true) = (wrong, checks) {
            if !sums.no_link {
                *links.entry((of_links, wrong.dlci)).or_insert(0) += 1;
            }
            if !sums.no_session {
                *sessions.entry(of_sessions).or_insert(0) += 1;
            }
            if sums.passed_over {
                continue;
            }
        }
        if pdu.payload.len() >= 2 && matches!(pdu.payload[1], 0x2F | 0x3F) {
            if checks && wrong_sabm(&pdu.payload, sums) {
                continue;
            }
            match pdu.payload[0] / 4 {
                0 => *sessions.entry(of_sessions).or_insert(0) += 1,
                dlci => *links.entry((of_links, dlci)).or_insert(0) += 1,
            }
        } else if let Some((dlci, information, _)) = uih(&pdu.payload) {
            if dlci == 0 || information.is_empty() {
                continue;
            }
            let mut session = sessions.get(&of_sessions).copied().unwrap_or(0);
            let link = links.get(&(of_links, dlci)).copied().unwrap_or(0);
            if !reading.sessions {
                session = 0;
            }
            pieces.push(Piece {
                link: pdu.link,
                dlci,
                ms: pdu.ms,
                way: pdu.way,
                stretch: ((keys.stretch)(pdu.link), pdu.cid, session, link),
                information: information.to_vec(),
            });
        }
    }
    (pieces, wrongs)
}

/// 01's rule on one buffer: what is taken from it, and what it then holds.
pub fn split(mut buffer: Vec<u8>, longest: usize) -> (Vec<Vec<u8>>, Vec<u8>) {
    let mut spans = Vec::new();
    loop {
        match buffer.iter().position(|&b| b == 0x3E) {
            None => return (spans, Vec::new()),
            Some(start) => buffer = buffer.split_off(start),
        }
        let Some(end) = buffer.iter().position(|&b| b == 0x3C) else {
            if buffer.len() > longest {
                buffer.clear();
            }
            return (spans, buffer);
        };
        let rest = buffer.split_off(end + 1);
        spans.push(buffer);
        buffer = rest;
    }
}

/// Time, direction and wire of a span.
pub type Spans = Vec<(u64, Way, Vec<u8>)>;

/// The spans of one DLCI's pieces, and how many buffers are left nonempty.
pub fn spans(pieces: &[&Piece], reading: Reading) -> (Spans, usize) {
    let (spans, buffers) = buffers(pieces, reading);
    (spans, buffers.len())
}

/// The list of spans.
pub fn span_list(spans: &Spans) -> Vec<u8> {
    let mut list = Vec::new();
    for (ms, way, wire) in spans {
        let span: Vec<u8> = (0..8).map(|i| (ms >> (8 * i)) as u8).chain(wire.iter().copied()).collect();
        item(&mut list, if *way { 1 } else { 2 }, &span);
    }
    list
}

/// The spans of one DLCI's pieces, and the buffers that are left nonempty.
fn buffers(pieces: &[&Piece], reading: Reading) -> (Spans, BTreeMap<(Stretch, Way), Vec<u8>>) {
    let mut buffers: BTreeMap<(Stretch, Way), Vec<u8>> = BTreeMap::new();
    let mut spans = Vec::new();
    for piece in pieces {
        let buffer = buffers.entry((piece.stretch, piece.way)).or_default();
        buffer.extend(&piece.information);
        let (taken, held) = split(std::mem::take(buffer), reading.longest);
        *buffer = held;
        spans.extend(taken.into_iter().map(|wire| (piece.ms, piece.way, wire)));
    }
    buffers.retain(|_, buffer| !buffer.is_empty());
    (spans, buffers)
}

/// What becomes of each byte of these pieces. With nothing held a 3E is held, and any other byte dropped. With something
/// held a 3C makes a span of it all, and any other byte is held too. What is too long at a piece's end is cleared.
fn fates(pieces: &[&Piece], account: Account) -> Fates {
    // What is held, and whether the last of it was cleared.
    let mut all: BTreeMap<(Stretch, Way), (Vec<u8>, bool)> = BTreeMap::new();
    let mut fates = Fates::default();
    for piece in pieces {
        let (held, cleared) = all.entry((account.key)(piece)).or_default();
        let mut row = Dropped { cleared: *cleared, ..Dropped::default() };
        for &byte in &piece.information {
            if byte == 0x3E && (held.is_empty() || !account.from_first) {
                row.bytes += held.len();
                fates.dropped.push(Dropped { started: true, ..std::mem::take(&mut row) });
                (*held, *cleared) = (vec![byte], false);
            } else if held.is_empty() {
                row.bytes += 1;
                row.ends += usize::from(byte == 0x3C);
            } else {
                held.push(byte);
            }
            if byte == 0x3C && !held.is_empty() {
                fates.spans.push(std::mem::take(held));
                row = Dropped { behind: true, ..Dropped::default() };
            }
            if !account.at_ends && held.len() > account.longest {
                fates.cleared.push(Cleared { bytes: std::mem::take(held).len(), piece: piece.information.len() });
            }
        }
        fates.dropped.push(row);
        if held.len() > account.longest {
            fates.cleared.push(Cleared { bytes: std::mem::take(held).len(), piece: piece.information.len() });
            *cleared = true;
        }
    }
    let left = all.into_iter().map(|(key, (held, _))| (key, held.len()));
    fates.left = left.filter(|(_, held)| *held > 0).collect();
    fates
}

/// The stretches of a DLCI that are open at the end of a file with a good header, in the
/// order of their first pieces.
pub fn open(container: Container, file: &[u8], dlci: u64, checks: bool, reading: Reading) -> Vec<answer::Stretch> {
    let pieces = frames(&pdus(&packets(container, file, reading).0, reading), checks, reading).0;
    let own: Vec<&Piece> = pieces.iter().filter(|p| u64::from(p.dlci) == dlci).collect();
    let mut buffers = buffers(&own, reading).1;
    // the first piece of a key takes its buffer out
    let stretch = |piece: &&Piece| {
        let held = buffers.remove(&(piece.stretch, piece.way))?;
        let (link, cid, sessions, links) = piece.stretch;
        let way = 2 * link + u32::from(piece.way);
        Some(answer::Stretch { way, cid: u32::from(cid), dlci: dlci as u32, sessions, links, held: held.len() as u32 })
    };
    own.iter().filter_map(stretch).collect()
}

/// Puts stretches to the first places of a list.
pub fn fill(places: &mut [answer::Stretch], stretches: &[answer::Stretch]) {
    for (place, stretch) in places.iter_mut().zip(stretches) {
        *place = *stretch;
    }
}

/// Whether a list of stretches has fewer places than a file of this length wants. One that is too long is refused before.
pub fn lacks_places(length: usize, places: usize) -> bool {
    length <= LONGEST_FILE && places < length / 24
}

/// The DLCIs of pieces in the order of their first.
pub fn dlcis(pieces: &[Piece]) -> Vec<u8> {
    let mut dlcis = Vec::new();
    for piece in pieces {
        if !dlcis.contains(&piece.dlci) {
            dlcis.push(piece.dlci);
        }
    }
    dlcis
}

/// The refusals of a file that come before its packets are looked at.
pub fn refusal(container: Container, file: &[u8], work: usize, tolerant: bool, reading: Reading) -> Option<Answer> {
    if container == Container::Pcap {
        return pcap::refusal(file, work, tolerant, reading.pcap);
    }
    if file.len() > LONGEST_FILE {
        return Some(Answer::refused(1, &[]));
    }
    if work < 8 * file.len() {
        return Some(Answer::refused(2, &[]));
    }
    if file.len() < 16 || file[..12] != *b"btsnoop\0\0\0\0\x01" {
        return Some(Answer::refused(3, &[]));
    }
    let datalink = be(&file[12..16]);
    if ![1001, 1002, 2001].contains(&datalink) {
        return Some(Answer::refused(4, &[datalink]));
    }
    let tail = 16 + records(&file[16..]).1;
    (!tolerant && tail < file.len()).then(|| Answer::refused(5, &[tail as u64]))
}

/// How many records a file has and where they end, and where they start. Work is not asked for.
pub fn records_with(container: Container, file: &[u8], reading: pcap::Reading) -> (Answer, Vec<u64>) {
    if let Some(refusal) = refusal(container, file, usize::MAX, true, Reading { pcap: reading, ..RIGHT }) {
        return (refusal, Vec::new());
    }
    let (starts, tail) = match container {
        Container::Btsnoop => {
            let (rows, taken) = records(&file[16..]);
            let mut at = 16;
            let starts = rows.iter().map(|row| {
                at += row.len() as u64;
                at - row.len() as u64
            });
            (starts.collect::<Vec<u64>>(), 16 + taken)
        }
        Container::Pcap => {
            let (records, tail) = pcap::read(file, reading);
            (records.iter().map(|record| (reading.offset)(record.at) as u64).collect(), (reading.offset)(tail))
        }
    };
    (Answer::done(&[starts.len() as u64, tail as u64], Vec::new()), starts)
}

/// The DLCIs in the order in which they are seen, also by wrong frames where a reading has it so.
fn in_order(pieces: &[Piece], wrong: &[Wrong], sums: Sums) -> Vec<u8> {
    if sums.unseen {
        return dlcis(pieces);
    }
    let mut seen = Vec::new();
    let mut wrong = wrong.iter().filter(|wrong| wrong.tried && wrong.dlci > 0).peekable();
    for at in 0..=pieces.len() {
        while let Some(wrong) = wrong.next_if(|wrong| wrong.before <= at) {
            seen.push(wrong.dlci);
        }
        seen.extend(pieces.get(at).map(|piece| piece.dlci));
    }
    let first = |(i, dlci): (usize, &u8)| (!seen[..i].contains(dlci)).then_some(*dlci);
    seen.iter().enumerate().filter_map(first).collect()
}

/// Import of a btsnoop file, with the FCS not checked.
pub fn import(file: &[u8], work: usize, channel: u32, tolerant: bool, reading: Reading) -> Answer {
    import_from(Container::Btsnoop, file, work, Asked { channel, tolerant, checks: false }, reading)
}

/// Import by a list of options.
pub fn import_with(file: &[u8], work: usize, options: &[u64], reading: Reading) -> Answer {
    import_from(container(options), file, work, chosen(options), reading)
}

pub fn import_from(container: Container, file: &[u8], work: usize, asked: Asked, reading: Reading) -> Answer {
    if let Some(refusal) = refusal(container, file, work, asked.tolerant, reading) {
        return refusal;
    }
    let (packets, tail) = packets(container, file, reading);
    let tail = if container == Container::Pcap { (reading.pcap.offset)(tail) } else { tail };
    let pdus = pdus(&packets, reading);
    let (pieces, wrong) = frames(&pdus, asked.checks, reading);
    let mut dlcis = in_order(&pieces, &wrong, reading.sums);
    if asked.checks && !reading.sums.chosen_on {
        let off = import_from(container, file, work, Asked { checks: false, ..asked }, reading);
        dlcis.retain(|dlci| off.values.first() == Some(&u64::from(*dlci)));
    }
    dlcis.retain(|dlci| asked.channel == NO_CHANNEL || asked.channel == u32::from(dlci / 2));
    for &dlci in &dlcis {
        let own: Vec<&Piece> = pieces.iter().filter(|p| p.dlci == dlci).collect();
        let (spans, unfinished) = spans(&own, reading);
        if spans.iter().all(|(_, _, wire)| body(wire).is_err()) {
            continue;
        }
        let list = span_list(&spans);
        let counted: Vec<&Wrong> = wrong.iter().filter(|wrong| (reading.sums.counts)(wrong, dlci)).collect();
        let taken: Vec<&Piece> = pieces.iter().filter(|p| (reading.account.own)(p.dlci, dlci, dlcis[0])).collect();
        let mut fates = fates(&taken, reading.account);
        fates.wrong = counted.iter().map(|wrong| wrong.information).sum();
        let counted = (reading.sums.told)(counted.len() as u64, own.len() as u64);
        let values = [u64::from(dlci), spans.len() as u64, unfinished as u64, tail as u64, counted];
        return Answer::imported(values, (reading.account.told)(&fates), list);
    }
    Answer::refused(6, &[])
}

/// What a file with a good header has: whole records, skipped ones too; the packets with all fields; the PDUs they
/// complete; and the pieces of every DLCI and channel, with the FCS checked or not.
pub struct Lists<'a> {
    pub records: usize,
    pub packets: Vec<Packet<'a>>,
    pub pdus: Vec<Pdu>,
    pub pieces: Vec<Piece>,
}

impl Lists<'_> {
    /// How many records, PDUs and pieces there are.
    pub fn counts(&self) -> [u64; 3] {
        [self.records, self.pdus.len(), self.pieces.len()].map(|many| many as u64)
    }
}

pub fn lists(container: Container, file: &[u8], checks: bool, reading: Reading) -> Lists<'_> {
    let records = match container {
        Container::Btsnoop => records(&file[16..]).0.len(),
        Container::Pcap => pcap::read(file, reading.pcap).0.len(),
    };
    let packets = packets(container, file, reading).0;
    let pdus = pdus(&packets, reading);
    let pieces = frames(&pdus, checks, reading).0;
    Lists { records, packets, pdus, pieces }
}

/// The length of the list that import by these options would write, and how many records, PDUs and pieces the file has.
/// Refused as import is, but for want of an output.
pub fn sizes_with(file: &[u8], work: usize, options: &[u64], reading: Reading) -> Answer {
    sizes_from(container(options), file, work, chosen(options), reading)
}

pub fn sizes_from(container: Container, file: &[u8], work: usize, asked: Asked, reading: Reading) -> Answer {
    let import = import_from(container, file, work, asked, reading);
    match import.number {
        0 => import.sizes(lists(container, file, asked.checks, reading).counts()),
        _ => import,
    }
}

/// The spans of one link's DLCI: of the packets of that link alone, by what import makes of them.
pub fn one_link(container: Container, file: &[u8], work: usize, stream: Stream, reading: Reading) -> Answer {
    if let Some(refusal) = refusal(container, file, work, false, reading) {
        return refusal;
    }
    if !stream.may_be() {
        return Answer::refused(23, &[]);
    }
    let mut packets = packets(container, file, reading).0;
    packets.retain(|packet| packet.link == stream.link());
    let pieces = pieces(&pdus(&packets, reading), reading);
    let own: Vec<&Piece> = pieces.iter().filter(|piece| piece.dlci == stream.dlci).collect();
    let (spans, unfinished) = spans(&own, reading);
    Answer::listed(spans.len(), unfinished, span_list(&spans))
}
