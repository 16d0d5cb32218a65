//! Wrong importers that tell where the bytes went, and wrong calls that answer it, planted to be reported by `bytes` and by
//! what else has bytes that are dropped, cleared or left.

use crate::answer::{Answer, Bytes, Container, Stretch, BYTES, VALUES};
use crate::fcs;
use crate::misfiled::{self, Change, Store};
use crate::missummed;
use crate::mistaken;
use crate::model::{self, Account, Dropped, Fates, Reading, BY_BYTE, RIGHT};

/// Parts of the group, for faults that each of them has to report alone.
pub const BY_HAND: &str = "bytes, fixed traces";
pub const STRINGS: &str = "bytes, every short string";
pub const STEPS: &str = "bytes, every few steps";
pub const RANDOM: &str = "bytes, traces made byte by byte";
pub const LAW: &str = "bytes, the law of the sum";

/// What every short string shows: what the vectors do not; by bytes that are dropped, with and without the law of the sum, and by bytes that are held.
const OWN: &[&str] = &[BY_HAND, STRINGS, STEPS, RANDOM, LAW, mistaken::RANDOM, misfiled::RANDOM, missummed::RANDOM];
const LOST: &[&str] =
    &[BY_HAND, STRINGS, STEPS, RANDOM, LAW, mistaken::RANDOM, misfiled::RANDOM, missummed::RANDOM, "vectors"];
const DROPPED: &[&str] =
    &[BY_HAND, STRINGS, STEPS, RANDOM, mistaken::RANDOM, misfiled::RANDOM, missummed::RANDOM, "vectors"];
const HELD: &[&str] = &[
    BY_HAND,
    STRINGS,
    STEPS,
    RANDOM,
    LAW,
    mistaken::RANDOM,
    misfiled::RANDOM,
    missummed::RANDOM,
    mistaken::HONEST,
    misfiled::HONEST,
    "vectors",
];

/// What takes more than one buffer, or another DLCI; the first of these in honest recordings too.
const SEVERAL: &[&str] = &[
    BY_HAND,
    STEPS,
    RANDOM,
    LAW,
    mistaken::RANDOM,
    misfiled::RANDOM,
    missummed::RANDOM,
    mistaken::HONEST,
    misfiled::HONEST,
    "vectors",
];
const APART: &[&str] = &[BY_HAND, STEPS, RANDOM, mistaken::RANDOM, misfiled::RANDOM, missummed::RANDOM, "vectors"];

/// What takes frames with a wrong FCS.
const WRONG: &[&str] = &[
    BY_HAND,
    STEPS,
    RANDOM,
    LAW,
    missummed::BY_HAND,
    missummed::STEPS,
    missummed::RANDOM,
    misfiled::RANDOM,
    misfiled::HONEST,
    mistaken::HONEST,
    "vectors",
];

/// What takes a long buffer, with and without the law; more than one; and what only fixed traces are made for.
const LONG_LOST: &[&str] = &[BY_HAND, RANDOM, LAW, "vectors"];
const LONG: &[&str] = &[BY_HAND, RANDOM, "vectors"];
const LONGER: &[&str] = &[BY_HAND, RANDOM, LAW];
const HAND: &[&str] = &[BY_HAND];

/// A wrong importer with its label and the parts that have to report it.
type Importer = (&'static [&'static str], &'static str, Account);

fn told(told: fn(&Fates) -> Bytes) -> Account {
    Account { told, ..BY_BYTE }
}

/// The numbers with those rows dropped that count.
fn dropping(fates: &Fates, counts: fn(&Dropped) -> bool) -> Bytes {
    let [in_spans, _, cleared, left] = fates.told();
    [in_spans, fates.dropped(counts), cleared, left]
}

/// The numbers with another in the place of one of them.
fn with(fates: &Fates, place: usize, number: u64) -> Bytes {
    let mut bytes = fates.told();
    bytes[place] = number;
    bytes
}

/// The numbers with one of them moved to another.
fn moved(fates: &Fates, from: usize, to: usize) -> Bytes {
    let mut bytes = fates.told();
    bytes[to] += std::mem::take(&mut bytes[from]);
    bytes
}

/// The numbers with bytes of one of them told as another.
fn shifted(fates: &Fates, from: usize, to: usize, many: u64) -> Bytes {
    let mut bytes = fates.told();
    bytes[from] -= many;
    bytes[to] += many;
    bytes
}

fn ends(fates: &Fates) -> u64 {
    fates.dropped.iter().map(|row| row.ends as u64).sum()
}

/// Of bytes dropped.
fn of_dropped() -> Vec<Importer> {
    vec![
        (LOST, "dropped for want of a start is forgotten", told(|f| dropping(f, |row| row.started))),
        (LOST, "dropped before a start is forgotten", told(|f| dropping(f, |row| !row.started))),
        (
            LOST,
            "dropped before a piece's first span is forgotten",
            told(|f| dropping(f, |row| row.behind || !row.started)),
        ),
        (LOST, "dropped between spans is forgotten", told(|f| dropping(f, |row| !row.behind || !row.started))),
        (OWN, "dropped behind the last span is forgotten", told(|f| dropping(f, |row| !row.behind || row.started))),
        (LOST, "pieces without a start are forgotten", told(|f| dropping(f, |row| row.behind || row.started))),
        (LOST, "a stray 3C is forgotten", told(|f| with(f, 1, f.dropped(|_| true) - ends(f)))),
        (DROPPED, "a stray 3C is a span", told(|f| shifted(f, 1, 0, ends(f)))),
        (LONG, "what follows a cleared frame is cleared", told(|f| shifted(f, 1, 2, f.dropped(|row| row.cleared)))),
        (LONG_LOST, "what follows a cleared frame is forgotten", told(|f| dropping(f, |row| !row.cleared))),
        (LOST, "rows of dropped bytes are counted", told(|f| with(f, 1, rows(f)))),
        (HAND, "dropped has 8 bits", told(|f| with(f, 1, f.dropped(|_| true) % 256))),
        (HAND, "dropped has 16 bits", told(|f| with(f, 1, f.dropped(|_| true) % 65_536))),
        (LOST, "none is dropped", told(|f| with(f, 1, 0))),
    ]
}

fn rows(fates: &Fates) -> u64 {
    fates.dropped.iter().filter(|row| row.bytes > 0).count() as u64
}

/// Of bytes cleared.
fn of_cleared() -> Vec<Importer> {
    vec![
        (LONG, "cleared is told as dropped", told(|f| moved(f, 2, 1))),
        (LONG, "cleared is told as left", told(|f| moved(f, 2, 3))),
        (LONG_LOST, "what is cleared stays left as well", told(|f| with(f, 3, f.cleared() + f.left()))),
        (LONG_LOST, "65,536 are cleared each time", told(|f| with(f, 2, 65_536 * f.cleared.len() as u64))),
        (
            LONG_LOST,
            "the last piece alone is cleared",
            told(|f| with(f, 2, f.cleared.iter().map(|c| c.piece as u64).sum())),
        ),
        (LONG_LOST, "clearings are counted", told(|f| with(f, 2, f.cleared.len() as u64))),
        (
            LONGER,
            "the last clearing alone is told",
            told(|f| with(f, 2, f.cleared.last().map_or(0, |c| c.bytes as u64))),
        ),
        (
            LONGER,
            "the first clearing alone is told",
            told(|f| with(f, 2, f.cleared.first().map_or(0, |c| c.bytes as u64))),
        ),
        (
            LONG_LOST,
            "only what is over the limit is cleared",
            told(|f| with(f, 2, f.cleared() - 65_536 * f.cleared.len() as u64)),
        ),
        (LONG, "the start is not cleared", told(|f| shifted(f, 2, 1, f.cleared.len() as u64))),
        (LONG_LOST, "cleared has 16 bits", told(|f| with(f, 2, f.cleared() % 65_536))),
        (LONG_LOST, "none is cleared", told(|f| with(f, 2, 0))),
        (LONG, "65,536 bytes are cleared", Account { longest: 65_535, ..BY_BYTE }),
        (LONG, "65,537 bytes stay", Account { longest: 65_537, ..BY_BYTE }),
        (LONG, "the limit is looked at at every byte", Account { at_ends: false, ..BY_BYTE }),
    ]
}

/// Of bytes left.
fn of_left() -> Vec<Importer> {
    vec![
        (HELD, "buffers are counted", told(|f| with(f, 3, f.left.len() as u64))),
        (SEVERAL, "the last buffer alone is left", told(|f| with(f, 3, f.left.last().map_or(0, |l| l.1 as u64)))),
        (SEVERAL, "the first buffer alone is left", told(|f| with(f, 3, f.left.first().map_or(0, |l| l.1 as u64)))),
        (SEVERAL, "only what was received is left", told(|f| with(f, 3, sided(f, true)))),
        (HELD, "only what was sent is left", told(|f| with(f, 3, sided(f, false)))),
        (HELD, "a start is not left", told(|f| shifted(f, 3, 1, f.left.len() as u64))),
        (HELD, "left is told as dropped", told(|f| moved(f, 3, 1))),
        (HELD, "left is told as cleared", told(|f| moved(f, 3, 2))),
        (APART, "what an earlier session or link left is dropped", told(|f| shifted(f, 3, 1, f.left() - last(f)))),
        (APART, "what an earlier session or link left is forgotten", told(|f| with(f, 3, last(f)))),
        (LONGER, "left has 8 bits", told(|f| with(f, 3, f.left() % 256))),
        (LONGER, "left has 16 bits", told(|f| with(f, 3, f.left() % 65_536))),
        (HELD, "none is left", told(|f| with(f, 3, 0))),
    ]
}

/// What is left in one direction.
fn sided(fates: &Fates, received: bool) -> u64 {
    fates.left.iter().filter(|((_, way), _)| *way == received).map(|(_, held)| *held as u64).sum()
}

/// What is left on the last session and link of each link, CID and direction.
fn last(fates: &Fates) -> u64 {
    let place = |((link, cid, ..), way): &(model::Stretch, model::Way)| (*link, *cid, *way);
    let later = |key, i: usize| fates.left[i + 1..].iter().any(|(other, _)| place(other) == place(key));
    let all = fates.left.iter().enumerate();
    all.filter(|(i, (key, _))| !later(key, *i)).map(|(_, (_, held))| *held as u64).sum()
}

/// Of bytes in spans.
fn of_spans() -> Vec<Importer> {
    let unpacked: fn(&Fates) -> Bytes = |f| {
        let wires = f.spans.iter().filter(|wire| model::unpack(wire).number == 0);
        with(f, 0, wires.map(|wire| wire.len() as u64).sum())
    };
    vec![
        (LOST, "only spans that unpack count", told(unpacked)),
        (HELD, "the list's bytes are in spans", told(|f| with(f, 0, f.in_spans() + 14 * f.spans.len() as u64))),
        (HELD, "markers are not in spans", told(|f| with(f, 0, f.in_spans() - 2 * f.spans.len() as u64))),
        (HELD, "markers are dropped", told(|f| shifted(f, 0, 1, 2 * f.spans.len() as u64))),
        (HELD, "spans are counted", told(|f| with(f, 0, f.spans.len() as u64))),
        (LONGER, "in spans has 8 bits", told(|f| with(f, 0, f.in_spans() % 256))),
        (LONGER, "in spans has 16 bits", told(|f| with(f, 0, f.in_spans() % 65_536))),
    ]
}

/// Of the pieces that are walked, and of what they are held with.
fn of_pieces() -> Vec<Importer> {
    let own = |own| Account { own, ..BY_BYTE };
    let key = |key| Account { key, ..BY_BYTE };
    vec![
        (APART, "all DLCIs count", own(|_, _, _| true)),
        (APART, "both DLCIs of the channel count", own(|dlci, chosen, _| dlci / 2 == chosen / 2)),
        (APART, "the first DLCI that is tried counts", own(|dlci, _, first| dlci == first)),
        (APART, "the first DLCI that is tried counts too", own(|dlci, chosen, first| [chosen, first].contains(&dlci))),
        (APART, "both directions are one", key(|piece| (piece.stretch, true))),
        (APART, "all stretches are one", key(|piece| ((0, 0, 0, 0), piece.way))),
        (APART, "sessions are one", key(|piece| ((piece.stretch.0, piece.stretch.1, 0, piece.stretch.3), piece.way))),
        (APART, "links are one", key(|piece| ((piece.stretch.0, piece.stretch.1, piece.stretch.2, 0), piece.way))),
        (APART, "CIDs are one", key(|piece| ((piece.stretch.0, 0, piece.stretch.2, piece.stretch.3), piece.way))),
        (
            &[BY_HAND, RANDOM, mistaken::RANDOM, misfiled::RANDOM, missummed::RANDOM, "vectors"],
            "handles are one",
            key(|piece| ((0, piece.stretch.1, piece.stretch.2, piece.stretch.3), piece.way)),
        ),
        (DROPPED, "a 3E starts anew", Account { from_first: false, ..BY_BYTE }),
        (WRONG, "wrong frames are dropped", told(|f| with(f, 1, f.dropped(|_| true) + f.wrong as u64))),
        (WRONG, "wrong frames are cleared", told(|f| with(f, 2, f.cleared() + f.wrong as u64))),
    ]
}

/// The wrong importers, each for the parts that have to report it.
pub fn importers() -> Vec<(&'static str, String, Reading)> {
    let all = [of_dropped(), of_cleared(), of_left(), of_spans(), of_pieces()].concat().into_iter();
    let each = |(groups, label, account): Importer| {
        groups.iter().map(move |group| (*group, format!("bytes: {label}"), Reading { account, ..RIGHT }))
    };
    let limits = [65_535, 65_537].into_iter().flat_map(|longest| {
        let reading = Reading { longest, account: Account { longest, ..BY_BYTE }, ..RIGHT };
        LONG.iter().map(move |group| (*group, format!("bytes: {longest} bytes stay held, and no more"), reading))
    });
    all.flat_map(each).chain(limits).collect()
}

// ---- what is answered

/// The container that a file is.
fn container(file: &[u8]) -> Container {
    match file.starts_with(b"btsnoop") {
        true => Container::Btsnoop,
        false => Container::Pcap,
    }
}

/// Dropped bytes more, in an answer of import.
fn drops(answer: &mut Answer, many: u64) {
    if answer.values.len() == VALUES {
        answer.values[BYTES + 1] += many;
    }
}

/// Information bytes of a file that are not taken in.
fn beside(file: &[u8], counts: fn(&fcs::Information, u64) -> bool, answer: &Answer) -> u64 {
    let dlci = answer.values.first().copied().unwrap_or(0);
    let all = fcs::information(container(file), file).into_iter();
    all.filter(|frame| counts(frame, dlci)).map(|frame| frame.bytes as u64).sum()
}

/// Bytes of packets that are in no PDU.
fn in_no_pdu(file: &[u8]) -> u64 {
    let packets = model::packets(container(file), file, RIGHT).0;
    let whole: usize = model::pdus(&packets, RIGHT).iter().map(|pdu| 4 + pdu.payload.len()).sum();
    (packets.iter().map(|packet| packet.data.len()).sum::<usize>() - whole) as u64
}

/// Two values exchanged.
fn exchanged(answer: &mut Answer, one: usize, other: usize) {
    missummed::exchange(&mut answer.values, one, other);
}

/// Wrong values, each with the part that has to report them.
pub fn changes() -> Vec<(&'static str, &'static str, Change)> {
    vec![
        (BY_HAND, "bytes: the four are not stored", |answer, _| answer.values.truncate(BYTES)),
        (BY_HAND, "bytes: the last is not stored", |answer, _| answer.values.truncate(VALUES - 1)),
        (BY_HAND, "bytes: a fifth is stored", |answer, _| {
            answer.values.extend((answer.number == 0).then_some(0));
        }),
        (BY_HAND, "bytes: in spans and dropped are exchanged", |answer, _| exchanged(answer, 6, 7)),
        (BY_HAND, "bytes: dropped and cleared are exchanged", |answer, _| exchanged(answer, 7, 8)),
        (BY_HAND, "bytes: cleared and left are exchanged", |answer, _| exchanged(answer, 8, 9)),
        (BY_HAND, "bytes: dropped and left are exchanged", |answer, _| exchanged(answer, 7, 9)),
        (BY_HAND, "bytes: in spans and bytes written are exchanged", |answer, _| exchanged(answer, 4, 6)),
        (BY_HAND, "bytes: in spans and wrong frames are exchanged", |answer, _| exchanged(answer, 5, 6)),
        (BY_HAND, "bytes: the four come before the wrong frames", |answer, _| {
            if answer.values.len() == VALUES {
                answer.values[BYTES - 1..].rotate_left(1);
            }
        }),
        (BY_HAND, "bytes: the four come first", |answer, _| {
            if answer.values.len() == VALUES {
                answer.values.rotate_left(BYTES);
            }
        }),
        (BY_HAND, "bytes: 6 carries four zeros", |answer, _| {
            answer.values.extend(vec![0; if answer.number == 6 { 4 } else { 0 }]);
        }),
        (BY_HAND, "bytes: dropped is the rest of the file", |answer, file| {
            if answer.values.len() == VALUES {
                let others = answer.values[6] + answer.values[8] + answer.values[9];
                answer.values[7] = file.len() as u64 - others.min(file.len() as u64);
            }
        }),
        (BY_HAND, "bytes: PDUs that are never completed are dropped", |answer, file| {
            if answer.number == 0 {
                drops(answer, in_no_pdu(file));
            }
        }),
        (BY_HAND, "bytes: frames of PDUs that are not tried are dropped", |answer, file| {
            let many = beside(file, |frame, dlci| u64::from(frame.dlci) == dlci && !frame.tried, answer);
            drops(answer, many);
        }),
        (BY_HAND, "bytes: frames of DLCI 0 are dropped", |answer, file| {
            let many = beside(file, |frame, _| frame.dlci == 0, answer);
            drops(answer, many);
        }),
        (mistaken::HONEST, "bytes: the record that is cut is dropped", |answer, file| {
            let many = answer.values.get(3).map_or(0, |tail| file.len() as u64 - tail);
            drops(answer, many);
        }),
    ]
}

/// The stretches that are listed, with a byte less held where much is.
pub fn a_byte_less(number: u32, places: &mut [Stretch], open: &[Stretch]) {
    (misfiled::NONE.fill)(number, places, open);
    let filled = places.iter_mut().take(open.len());
    filled.filter(|place| place.held > 30_000).for_each(|place| place.held -= 1);
}

/// Wrong ways to store them.
pub fn stores() -> Vec<(&'static str, &'static str, Store)> {
    vec![
        (BY_HAND, "bytes: 7 carries the four", |answer, out, values| {
            let number = model::store(answer, out, values);
            if number == 7 {
                let behind = values.iter_mut().skip(1);
                behind.zip(&answer.values[BYTES..]).for_each(|(place, value)| *place = *value);
            }
            number
        }),
        (BY_HAND, "bytes: 7 leaves the four in their places", |answer, out, values| {
            let number = model::store(answer, out, values);
            if number == 7 {
                let places = values.iter_mut().zip(&answer.values).skip(BYTES);
                places.for_each(|(place, value)| *place = *value);
            }
            number
        }),
        (BY_HAND, "bytes: with room for six the last is stored in it", |answer, out, values| {
            let number = model::store(answer, out, values);
            if let (0, Some(left), 6) = (number, answer.values.get(VALUES - 1), values.len()) {
                values[5] = *left;
            }
            number
        }),
        (BY_HAND, "bytes: with room for fewer than ten, six are stored", |answer, out, values| {
            let fewer = if (7..10).contains(&values.len()) { 6 } else { values.len() };
            model::store(answer, out, &mut values[..fewer])
        }),
        (BY_HAND, "bytes: with room for six nothing is stored", |answer, out, values| {
            let fewer = if values.len() == 6 { 0 } else { values.len() };
            model::store(answer, out, &mut values[..fewer])
        }),
    ]
}
