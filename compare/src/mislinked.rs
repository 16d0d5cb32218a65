//! Wrong calls for one link, planted to be reported by `links`, and by the vectors where those show them.

use std::collections::{BTreeMap, BTreeSet};

use crate::answer::{chosen, container, Answer, Container, Stream, LISTED};
use crate::expected::LONGEST_FILE;
use crate::misfiled::Store;
use crate::model::{self, Keys, Packet, Piece, Reading, Spans, BY_LINK, RIGHT};
use crate::pcap;

/// Parts of the group, for faults that each of them has to report alone.
pub const BY_HAND: &str = "links, fixed files";
pub const RANDOM: &str = "links, random traces";
pub const SHORT: &str = "links, the short files of import and pcap";
pub const STEPS: &str = "links, every few steps on two links";
pub const LONG: &str = "links, long files";
pub const BESIDE: &str = "links, beside import";
pub const APART: &str = "links, the same packets in another file";

/// What files with known lists show; what the laws show too, each and both; and what one shows alone.
const MADE: &[&str] = &[BY_HAND, RANDOM, "vectors"];
const ALL: &[&str] = &[BY_HAND, RANDOM, BESIDE, APART, "vectors"];
const WITH_BESIDE: &[&str] = &[BY_HAND, RANDOM, BESIDE, "vectors"];
const WITH_APART: &[&str] = &[BY_HAND, RANDOM, STEPS, APART, "vectors"];
/// What the vectors do not have.
const OURS: &[&str] = &[BY_HAND, RANDOM];

/// What a call is given.
#[derive(Clone, Copy)]
pub struct Given<'a> {
    pub reading: Reading,
    pub file: &'a [u8],
    pub work: usize,
    pub options: &'a [u64],
    pub stream: Stream,
}

/// Whether a packet, and whether a piece, counts for what is asked for.
type Own = fn(&Packet, Stream) -> bool;
type Counts = fn(&Piece, Stream) -> bool;

impl<'a> Given<'a> {
    fn container(&self) -> Container {
        container(self.options)
    }

    /// The right answer.
    fn right(&self) -> Answer {
        self.of(self.stream)
    }

    /// The right answer of another stream.
    fn of(&self, stream: Stream) -> Answer {
        model::one_link(self.container(), self.file, self.work, stream, self.reading)
    }

    fn read(&self, reading: Reading) -> Answer {
        model::one_link(self.container(), self.file, self.work, self.stream, reading)
    }

    fn in_container(&self, container: Container) -> Answer {
        model::one_link(container, self.file, self.work, self.stream, self.reading)
    }

    fn with(&self, work: usize) -> Answer {
        model::one_link(self.container(), self.file, work, self.stream, self.reading)
    }

    fn refusal(&self) -> Option<Answer> {
        let refused = model::refusal(self.container(), self.file, self.work, false, self.reading);
        refused.or_else(|| (!self.stream.may_be()).then(|| Answer::refused(23, &[])))
    }

    /// The pieces by another reading of these packets.
    fn pieces(&self, reading: Reading, own: Own) -> Vec<Piece> {
        let mut packets = model::packets(self.container(), self.file, reading).0;
        packets.retain(|packet| own(packet, self.stream));
        model::pieces(&model::pdus(&packets, reading), reading)
    }

    /// The answer with the FCS checked, or not.
    fn checked(&self, checks: bool) -> Answer {
        self.told(|| {
            let mut packets = model::packets(self.container(), self.file, RIGHT).0;
            packets.retain(|packet| OF_LINK(packet, self.stream));
            let pieces = model::frames(&model::pdus(&packets, RIGHT), checks, RIGHT).0;
            model::spans(&pieces.iter().filter(|piece| ON_DLCI(piece, self.stream)).collect::<Vec<_>>(), RIGHT)
        })
    }

    /// The answer by another reading, with those packets, and then pieces, that count.
    fn taken(&self, reading: Reading, own: Own, counts: Counts) -> Answer {
        self.told(|| {
            let pieces = self.pieces(reading, own);
            let own: Vec<&Piece> = pieces.iter().filter(|piece| counts(piece, self.stream)).collect();
            model::spans(&own, reading)
        })
    }

    /// The answer with these spans and so many unfinished, if it is not refused.
    fn told(&self, listed: impl FnOnce() -> (Spans, usize)) -> Answer {
        self.refusal().unwrap_or_else(|| {
            let (spans, unfinished) = listed();
            Answer::listed(spans.len(), unfinished, model::span_list(&spans))
        })
    }

    /// The spans and the unfinished of the stream's pieces.
    fn listed(&self) -> (Spans, usize) {
        let pieces = self.pieces(self.reading, OF_LINK);
        model::spans(&pieces.iter().filter(|piece| ON_DLCI(piece, self.stream)).collect::<Vec<_>>(), self.reading)
    }

    /// How many buffers are unfinished of other pieces.
    fn unfinished(&self, own: Own, counts: Counts) -> u64 {
        let pieces = self.pieces(self.reading, own);
        model::dlcis(&pieces)
            .into_iter()
            .map(|dlci| {
                let own = pieces.iter().filter(|piece| piece.dlci == dlci && counts(piece, self.stream));
                model::spans(&own.collect::<Vec<_>>(), self.reading).1 as u64
            })
            .sum()
    }

    /// The right answer with the spans changed.
    fn with_spans(&self, change: fn(&mut Spans)) -> Answer {
        self.told(|| {
            let (mut spans, unfinished) = self.listed();
            change(&mut spans);
            (spans, unfinished)
        })
    }

    /// The answer with another of what bytes are held by.
    fn held_by<K: Ord>(&self, key: fn(&Piece) -> K) -> Answer {
        self.told(|| {
            let pieces = self.pieces(self.reading, OF_LINK);
            let (mut held, mut spans) = (BTreeMap::new(), Vec::new());
            for piece in pieces.iter().filter(|piece| ON_DLCI(piece, self.stream)) {
                let buffer: &mut Vec<u8> = held.entry(key(piece)).or_default();
                buffer.extend(&piece.information);
                let (wires, left) = model::split(std::mem::take(buffer), self.reading.longest);
                *buffer = left;
                spans.extend(wires.into_iter().map(|wire| (piece.ms, piece.way, wire)));
            }
            let unfinished = held.values().filter(|buffer| !buffer.is_empty()).count();
            (spans, unfinished)
        })
    }

    /// The answer by Bluetooth Core's rule: a channel that is named has its data between success and end alone.
    fn by_core(&self) -> Answer {
        self.told(|| {
            let mut packets = model::packets(self.container(), self.file, RIGHT).0;
            packets.retain(|packet| OF_LINK(packet, self.stream));
            let mut pdus = model::pdus(&packets, RIGHT);
            let named = model::channels(&pdus, RIGHT).1;
            let (mut asked, mut holds) = (BTreeMap::new(), BTreeSet::new());
            for pdu in &mut pdus {
                let (way, other) = (pdu.way, !pdu.way);
                for (code, identifier, numbers) in if pdu.cid == 1 { commands(&pdu.payload) } else { Vec::new() } {
                    match (code, &numbers[..]) {
                        (2, [psm, source, ..]) => {
                            asked.insert((way, identifier), (*psm, *source));
                        }
                        (3, [destination, _, 0, ..]) => {
                            if let Some((3, source)) = asked.get(&(other, identifier)) {
                                holds.extend([(other, *destination), (way, *source)]);
                            }
                        }
                        (7, [destination, source, ..]) => {
                            holds.remove(&(other, *destination));
                            holds.remove(&(way, *source));
                        }
                        _ => (),
                    }
                }
                let named = named.binary_search(&(pdu.link, way, pdu.cid)).is_ok();
                if pdu.cid != 1 && named && !holds.contains(&(way, pdu.cid)) {
                    pdu.payload.clear();
                }
            }
            let pieces = model::pieces(&pdus, RIGHT);
            model::spans(&pieces.iter().filter(|piece| ON_DLCI(piece, self.stream)).collect::<Vec<_>>(), RIGHT)
        })
    }

    /// The right answer, changed if it has this number.
    fn numbered(&self, number: u32, change: impl Fn(&mut Answer)) -> Answer {
        let mut answer = self.right();
        if answer.number == number {
            change(&mut answer);
        }
        answer
    }
}

/// The commands of a payload: code, identifier and the numbers of the body.
fn commands(payload: &[u8]) -> Vec<(u8, u8, Vec<u16>)> {
    let mut commands = Vec::new();
    let mut rest = payload;
    while let [code, identifier, low, high, behind @ ..] = rest {
        let Some(body) = behind.get(..usize::from(u16::from_le_bytes([*low, *high]))) else { break };
        let numbers = body.chunks_exact(2).map(|two| u16::from_le_bytes([two[0], two[1]])).collect();
        commands.push((*code, *identifier, numbers));
        rest = &behind[body.len()..];
    }
    commands
}

const EVERY: Own = |_, _| true;
const OF_LINK: Own = |packet, stream| packet.link == stream.link();
const ON_DLCI: Counts = |piece, stream| piece.dlci == stream.dlci;
const ON_LINK: Counts = |piece, stream| piece.link == stream.link() && piece.dlci == stream.dlci;

/// The call with a fault in it.
#[derive(Clone, Copy)]
pub struct Mislinked {
    pub answer: fn(&Given) -> Answer,
    pub store: Store,
    /// Whether a byte of work is changed, after this number.
    pub spoils: fn(u32) -> bool,
}

/// Without a fault.
pub const NONE: Mislinked = Mislinked { answer: |given| given.right(), store: model::store, spoils: |_| false };

impl Mislinked {
    pub fn call(&self, given: Given, work: &mut [u8], out: &mut [u8], values: &mut [u64]) -> u32 {
        let number = (self.store)(&(self.answer)(&given), out, values);
        if let Some(byte) = work.last_mut() {
            *byte ^= u8::from((self.spoils)(number));
        }
        number
    }
}

/// A fault with its label and the parts that have to report it.
type Fault = (&'static [&'static str], &'static str, Mislinked);

fn fault(groups: &'static [&'static str], label: &'static str, answer: fn(&Given) -> Answer) -> Fault {
    (groups, label, Mislinked { answer, ..NONE })
}

/// A reading by which something of all links counts, or of all that have the handle.
fn by(keys: Keys) -> Reading {
    Reading { keys, ..RIGHT }
}

const ONE: fn(u32) -> u32 = |_| 0;
const HANDLE: fn(u32) -> u32 = |link| link % 4096;

/// Other links have a say.
fn of_others() -> Vec<Fault> {
    vec![
        fault(WITH_APART, "what other links name counts", |g| {
            g.taken(by(Keys { named: ONE, ..BY_LINK }), EVERY, ON_LINK)
        }),
        fault(WITH_APART, "what the handle names on other adapters counts", |g| {
            g.taken(by(Keys { named: HANDLE, ..BY_LINK }), EVERY, ON_LINK)
        }),
        fault(WITH_APART, "what other links admit counts", |g| {
            g.taken(by(Keys { admitted: ONE, ..BY_LINK }), EVERY, ON_LINK)
        }),
        fault(&[BY_HAND, RANDOM, APART], "what the handle admits on other adapters counts", |g| {
            g.taken(by(Keys { admitted: HANDLE, ..BY_LINK }), EVERY, ON_LINK)
        }),
        fault(&[BY_HAND, RANDOM, APART], "a request of another link is served", |g| {
            g.taken(by(Keys { requested: ONE, ..BY_LINK }), EVERY, ON_LINK)
        }),
        fault(WITH_APART, "sessions of other links are counted", |g| {
            g.taken(by(Keys { sessions: ONE, ..BY_LINK }), EVERY, ON_LINK)
        }),
        fault(WITH_APART, "sessions of the handle are counted", |g| {
            g.taken(by(Keys { sessions: HANDLE, ..BY_LINK }), EVERY, ON_LINK)
        }),
        fault(WITH_APART, "links of other links are counted", |g| {
            g.taken(by(Keys { links: ONE, ..BY_LINK }), EVERY, ON_LINK)
        }),
        fault(&[BY_HAND, STEPS, APART, "vectors"], "links of the handle are counted", |g| {
            g.taken(by(Keys { links: HANDLE, ..BY_LINK }), EVERY, ON_LINK)
        }),
        fault(WITH_APART, "fragments of other links are put together", |g| {
            g.taken(by(Keys { open: ONE, ..BY_LINK }), EVERY, ON_LINK)
        }),
        fault(WITH_APART, "the index is left out where fragments are put together", |g| {
            g.taken(by(Keys { open: HANDLE, ..BY_LINK }), EVERY, ON_LINK)
        }),
        fault(ALL, "the index is left out of the choice", |g| {
            g.taken(RIGHT, |packet, stream| packet.link % 4096 == stream.link() % 4096, ON_DLCI)
        }),
        fault(ALL, "the index is left out twice", |g| {
            let keys = Keys { open: HANDLE, stretch: HANDLE, sessions: HANDLE, links: HANDLE, ..BY_LINK };
            g.taken(by(keys), |packet, stream| packet.link % 4096 == stream.link() % 4096, ON_DLCI)
        }),
        fault(ALL, "the index counts twice", |g| {
            let doubled = Stream { index: g.stream.index.wrapping_mul(2), ..g.stream };
            g.of(if g.stream.may_be() { doubled } else { g.stream })
        }),
        fault(&[BY_HAND, RANDOM, BESIDE, APART], "the index has 8 bits", |g| {
            g.taken(RIGHT, |packet, stream| packet.link % (4096 * 256) == stream.link() % (4096 * 256), ON_DLCI)
        }),
        fault(ALL, "all links are listed", |g| g.taken(RIGHT, EVERY, ON_DLCI)),
        fault(ALL, "index and handle are exchanged", |g| {
            let Stream { index, handle, dlci } = g.stream;
            g.of(if g.stream.may_be() { Stream { index: handle, handle: index % 4096, dlci } } else { g.stream })
        }),
        fault(ALL, "unfinished of all links", |g| g.numbered(0, |a| a.values[1] = g.unfinished(EVERY, ON_DLCI))),
        fault(WITH_BESIDE, "unfinished of all DLCIs", |g| {
            g.numbered(0, |a| a.values[1] = g.unfinished(OF_LINK, |_, _| true))
        }),
        fault(ALL, "only the first adapter is read", |g| g.read(Reading { every_adapter: false, ..RIGHT })),
        fault(&[BY_HAND, RANDOM, APART], "upper flag bits of 1001 and 1002 are an index", |g| {
            g.read(Reading { index: |_, flags| Some((flags / 65536) as u32), ..RIGHT })
        }),
        fault(&[BY_HAND, RANDOM], "in pcap, 1001 and 1002 every index has the packets", |g| {
            let one = g.file.get(12..16).is_none_or(|datalink| datalink != 2001u32.to_be_bytes());
            g.of(if one { Stream { index: 0, ..g.stream } } else { g.stream })
        }),
        fault(WITH_BESIDE, "index FFFF has nothing", |g| {
            g.taken(RIGHT, |packet, stream| OF_LINK(packet, stream) && stream.index < 0xFFFF, ON_DLCI)
        }),
    ]
}

/// The DLCI, the handle, and what they may be.
fn of_asked() -> Vec<Fault> {
    vec![
        fault(WITH_BESIDE, "both DLCIs of the channel are listed", |g| {
            g.taken(RIGHT, OF_LINK, |piece, stream| piece.dlci / 2 == stream.dlci / 2)
        }),
        fault(WITH_BESIDE, "the DLCI is taken for a channel", |g| {
            g.taken(RIGHT, OF_LINK, |piece, stream| piece.dlci / 2 == stream.dlci)
        }),
        fault(WITH_BESIDE, "all DLCIs are listed", |g| g.taken(RIGHT, OF_LINK, |_, _| true)),
        fault(WITH_BESIDE, "the other DLCI of the channel is listed", |g| {
            g.of(if g.stream.may_be() && g.stream.dlci > 1 {
                Stream { dlci: g.stream.dlci ^ 1, ..g.stream }
            } else {
                g.stream
            })
        }),
        fault(MADE, "the handle is masked", |g| g.of(Stream { handle: g.stream.handle % 4096, ..g.stream })),
        fault(MADE, "a handle over 4,095 has an empty list", |g| {
            g.numbered(23, |a| {
                if g.stream.handle > 4095 && (1..=63).contains(&g.stream.dlci) {
                    *a = Answer::listed(0, 0, Vec::new());
                }
            })
        }),
        fault(MADE, "the DLCI is masked", |g| {
            let dlci = g.stream.dlci % 64;
            g.of(Stream { dlci: if dlci == 0 { g.stream.dlci } else { dlci }, ..g.stream })
        }),
        fault(MADE, "DLCI 0 is taken", |g| {
            g.numbered(23, |a| {
                if g.stream.handle <= 4095 && g.stream.dlci == 0 {
                    *a = Answer::listed(0, 0, Vec::new());
                }
            })
        }),
        fault(MADE, "DLCI 64 is taken", |g| {
            g.numbered(23, |a| {
                if g.stream.handle <= 4095 && g.stream.dlci == 64 {
                    *a = Answer::listed(0, 0, Vec::new());
                }
            })
        }),
        fault(ALL, "DLCI 63 is refused", |g| {
            g.numbered(0, |a| {
                if g.stream.dlci == 63 {
                    *a = Answer::refused(23, &[]);
                }
            })
        }),
        fault(ALL, "DLCI 1 is refused", |g| {
            g.numbered(0, |a| {
                if g.stream.dlci == 1 {
                    *a = Answer::refused(23, &[]);
                }
            })
        }),
        fault(ALL, "handle 4,095 is refused", |g| {
            g.numbered(0, |a| {
                if g.stream.handle == 4095 {
                    *a = Answer::refused(23, &[]);
                }
            })
        }),
        fault(&[BY_HAND, RANDOM, APART, "vectors"], "an index that the file does not have is refused", |g| {
            g.numbered(0, |a| {
                let packets = model::packets(g.container(), g.file, RIGHT).0;
                if g.stream.index > 0 && packets.iter().all(|p| p.link / 4096 != u32::from(g.stream.index)) {
                    *a = Answer::refused(23, &[]);
                }
            })
        }),
        fault(&[BY_HAND, RANDOM, APART, "vectors"], "a link without packets is refused", |g| {
            g.numbered(0, |a| {
                let packets = model::packets(g.container(), g.file, RIGHT).0;
                if packets.iter().all(|packet| packet.link != g.stream.link()) {
                    *a = Answer::refused(6, &[]);
                }
            })
        }),
    ]
}

/// What is listed, and how.
fn of_lists() -> Vec<Fault> {
    vec![
        fault(ALL, "6 for an empty list", |g| {
            g.numbered(0, |a| {
                if a.values[0] == 0 {
                    *a = Answer::refused(6, &[]);
                }
            })
        }),
        fault(&[BY_HAND, RANDOM, BESIDE, APART], "6 where nothing unpacks", |g| {
            let (spans, _) = if g.right().number == 0 { g.listed() } else { return g.right() };
            match spans.iter().all(|(_, _, wire)| model::unpack(wire).number != 0) && !spans.is_empty() {
                true => Answer::refused(6, &[]),
                false => g.right(),
            }
        }),
        fault(WITH_BESIDE, "only spans that unpack are listed", |g| {
            g.with_spans(|spans| spans.retain(|(_, _, wire)| model::unpack(wire).number == 0))
        }),
        fault(WITH_BESIDE, "an empty list has nothing unfinished", |g| {
            g.numbered(0, |a| a.values[1] *= u64::from(a.values[0] > 0))
        }),
        fault(WITH_BESIDE, "unfinished is 0", |g| g.numbered(0, |a| a.values[1] = 0)),
        fault(&[BY_HAND, RANDOM, BESIDE, "vectors"], "unfinished is 1 at most", |g| {
            g.numbered(0, |a| a.values[1] = a.values[1].min(1))
        }),
        fault(&[RANDOM, BESIDE, "vectors"], "the list is in the order of times", |g| {
            g.with_spans(|spans| spans.sort_by_key(|(ms, ..)| *ms))
        }),
        fault(WITH_BESIDE, "the list has what is received first", |g| {
            g.with_spans(|spans| spans.sort_by_key(|(_, way, _)| !way))
        }),
        fault(WITH_BESIDE, "the list is reversed", |g| g.with_spans(|spans| spans.reverse())),
        fault(WITH_BESIDE, "directions are exchanged", |g| {
            g.with_spans(|spans| spans.iter_mut().for_each(|(_, way, _)| *way = !*way))
        }),
        fault(WITH_BESIDE, "times have no milliseconds", |g| {
            g.with_spans(|spans| spans.iter_mut().for_each(|(ms, ..)| *ms -= *ms % 1000))
        }),
        fault(WITH_BESIDE, "the last span is not listed", |g| {
            g.with_spans(|spans| {
                spans.pop();
            })
        }),
        fault(WITH_BESIDE, "buffers without directions", |g| g.held_by(|piece| piece.stretch)),
        fault(WITH_BESIDE, "buffers without stretches", |g| g.held_by(|piece| piece.way)),
        fault(WITH_BESIDE, "buffers without CIDs", |g| {
            g.held_by(|piece| (piece.stretch.2, piece.stretch.3, piece.way))
        }),
        fault(WITH_BESIDE, "buffers without sessions", |g| {
            g.held_by(|piece| (piece.stretch.1, piece.stretch.3, piece.way))
        }),
        fault(WITH_BESIDE, "buffers without links", |g| {
            g.held_by(|piece| (piece.stretch.1, piece.stretch.2, piece.way))
        }),
        fault(WITH_BESIDE, "a buffer for the whole link", |g| g.held_by(|_| ())),
        fault(WITH_BESIDE, "a buffer for each piece", |g| {
            g.told(|| {
                let pieces = g.pieces(RIGHT, OF_LINK);
                let all = pieces.iter().filter(|piece| ON_DLCI(piece, g.stream));
                let parts = all.map(|piece| (piece, model::split(piece.information.clone(), RIGHT.longest)));
                let (mut spans, mut unfinished) = (Spans::new(), 0);
                for (piece, (wires, held)) in parts {
                    spans.extend(wires.into_iter().map(|wire| (piece.ms, piece.way, wire)));
                    unfinished += usize::from(!held.is_empty());
                }
                (spans, unfinished)
            })
        }),
        fault(&[BY_HAND], "65,536 bytes are cleared", |g| g.read(Reading { longest: 65_535, ..RIGHT })),
        fault(&[BY_HAND], "65,537 bytes stay", |g| g.read(Reading { longest: 65_537, ..RIGHT })),
    ]
}

/// How the packets are read.
fn of_readings() -> Vec<Fault> {
    vec![
        fault(WITH_BESIDE, "frames with a wrong FCS are passed over", |g| g.checked(true)),
        fault(MADE, "the rule is tolerant", |g| {
            let whole = match g.refusal() {
                Some(Answer { number: 5, values, .. }) => &g.file[..values[0] as usize],
                _ => g.file,
            };
            Given { file: whole, ..*g }.right()
        }),
        fault(WITH_BESIDE, "a request admits only by its response", |g| {
            g.read(Reading { request_admits: false, ..RIGHT })
        }),
        fault(WITH_BESIDE, "channels are Bluetooth Core's", |g| g.by_core()),
        fault(WITH_BESIDE, "channels are judged as they come", |g| g.read(Reading { whole_file: false, ..RIGHT })),
        fault(&[RANDOM, SHORT, "vectors"], "a request for PSM 3 is tried too", |g| {
            g.read(Reading { request_ends: false, ..RIGHT })
        }),
        fault(WITH_BESIDE, "a start discards nothing", |g| g.read(Reading { start_discards: false, ..RIGHT })),
        fault(&[RANDOM, SHORT], "what is in excess begins the next", |g| {
            g.read(Reading { excess_dropped: false, ..RIGHT })
        }),
        fault(&[BY_HAND, RANDOM, BESIDE], "the time is that of the first fragment", |g| {
            g.read(Reading { last_time: false, ..RIGHT })
        }),
        fault(WITH_BESIDE, "a session begins no stretch", |g| g.read(Reading { sessions: false, ..RIGHT })),
    ]
}

/// Refusals, their order, and values.
fn of_answers() -> Vec<Fault> {
    /// The right answer, but that 23 comes before these numbers.
    fn first(g: &Given, numbers: &[u32]) -> Answer {
        match (numbers.contains(&g.right().number), g.stream.may_be()) {
            (true, false) => Answer::refused(23, &[]),
            _ => g.right(),
        }
    }
    vec![
        fault(MADE, "23 before 5", |g| first(g, &[5])),
        fault(&[BY_HAND], "23 before 3 and 4", |g| first(g, &[3, 4])),
        fault(&[BY_HAND, RANDOM, "vectors"], "23 before 21 and 22", |g| first(g, &[21, 22])),
        fault(OURS, "23 before 2", |g| first(g, &[2])),
        fault(&[LONG], "2 before 1", |g| match g.work < 8 * g.file.len() {
            true => Answer::refused(2, &[]),
            false => g.right(),
        }),
        fault(OURS, "5 before 2", |g| match g.with(usize::MAX) {
            enough if enough.number == 5 => enough,
            _ => g.right(),
        }),
        fault(MADE, "23 carries the handle", |g| g.numbered(23, |a| a.values.push(g.stream.handle.into()))),
        fault(MADE, "23 carries zeros", |g| g.numbered(23, |a| a.values = vec![0; LISTED])),
        fault(MADE, "5 carries nothing", |g| g.numbered(5, |a| a.values.clear())),
        fault(MADE, "5 carries the file's length", |g| g.numbered(5, |a| a.values = vec![g.file.len() as u64])),
        fault(&[BY_HAND, RANDOM, "vectors"], "21 is told as 3", |g| g.numbered(21, |a| a.number = 3)),
        fault(OURS, "22 is told as 4", |g| g.numbered(22, |a| a.number = 4)),
        fault(OURS, "22 carries nothing", |g| g.numbered(22, |a| a.values.clear())),
        fault(MADE, "every file is btsnoop", |g| g.in_container(Container::Btsnoop)),
        fault(&[BY_HAND, RANDOM, "vectors"], "the container is guessed", |g| {
            let pcap = (pcap::RIGHT.form)(g.file).is_some();
            g.in_container(if pcap { Container::Pcap } else { Container::Btsnoop })
        }),
        fault(OURS, "the rule that is asked for is gone by", |g| {
            let whole = match (g.refusal(), chosen(g.options).tolerant) {
                (Some(Answer { number: 5, values, .. }), true) => &g.file[..values[0] as usize],
                _ => g.file,
            };
            Given { file: whole, ..*g }.right()
        }),
        fault(OURS, "the channel that is asked for is gone by", |g| {
            let channel = chosen(g.options).channel;
            g.numbered(0, |a| {
                if channel < 256 && channel != u32::from(g.stream.dlci / 2) {
                    *a = Answer::listed(0, 0, Vec::new());
                }
            })
        }),
        fault(OURS, "the switch that is asked for is gone by", |g| g.checked(chosen(g.options).checks)),
        fault(OURS, "work is not asked for", |g| g.with(usize::MAX)),
        fault(OURS, "work one byte short is enough", |g| g.with(g.work + 1)),
        fault(&[LONG], "one byte more is taken", |g| {
            let file = g.file.get(..LONGEST_FILE).unwrap_or(g.file);
            Given { file, ..*g }.right()
        }),
        fault(MADE, "unfinished comes first", |g| g.numbered(0, |a| a.values.swap(0, 1))),
        fault(WITH_BESIDE, "bytes written come before unfinished", |g| g.numbered(0, |a| a.values.swap(1, 2))),
        fault(ALL, "bytes written are not stored", |g| g.numbered(0, |a| a.values.truncate(2))),
        fault(MADE, "the DLCI is told first", |g| g.numbered(0, |a| a.values.insert(0, g.stream.dlci.into()))),
        fault(MADE, "the tail offset is told", |g| g.numbered(0, |a| a.values.push(g.file.len() as u64))),
    ]
}

/// What is lent.
fn of_lent() -> Vec<Fault> {
    let spoils = |spoils| Mislinked { spoils, ..NONE };
    let stores = |store| Mislinked { store, ..NONE };
    vec![
        (&[BY_HAND, RANDOM, "vectors"], "writes to work after 2", spoils(|number| number == 2)),
        (&[LONG], "writes to work after 1", spoils(|number| number == 1)),
        (
            MADE,
            "7 before 23",
            Mislinked {
                answer: |g| match g.right() {
                    Answer { number: 23, .. } => {
                        Answer { number: 23, values: Vec::new(), written: g.of(masked(g.stream)).written }
                    }
                    answer => answer,
                },
                store: |answer, out, values| match answer.number {
                    23 if answer.written.len() > out.len() || out.is_empty() => {
                        model::store(&Answer::refused(7, &[answer.written.len() as u64]), out, values)
                    }
                    23 => model::store(&Answer::refused(23, &[]), out, values),
                    _ => model::store(answer, out, values),
                },
                ..NONE
            },
        ),
        (
            MADE,
            "7 for an exact output",
            stores(|answer, out, values| {
                let exact = answer.number == 0 && answer.written.len() == out.len();
                let short = Answer::refused(7, &[out.len() as u64]);
                model::store(if exact { &short } else { answer }, out, values)
            }),
        ),
        (
            OURS,
            "an output of a byte less is filled",
            stores(|answer, out, values| {
                if answer.number != 0 || answer.written.len() != out.len() + 1 {
                    return model::store(answer, out, values);
                }
                out.copy_from_slice(&answer.written[..out.len()]);
                model::store(&Answer::done(&answer.values, Vec::new()), &mut [], values)
            }),
        ),
        (
            MADE,
            "7 carries what is lent",
            stores(|answer, out, values| {
                let short = Answer::refused(7, &[out.len() as u64]);
                model::store(if answer.written.len() <= out.len() { answer } else { &short }, out, values)
            }),
        ),
        (
            OURS,
            "7 carries spans and unfinished too",
            stores(|answer, out, values| {
                let short = Answer::refused(7, &[&[answer.written.len() as u64][..], &answer.values].concat());
                model::store(if answer.written.len() <= out.len() { answer } else { &short }, out, values)
            }),
        ),
        (
            OURS,
            "7 fills the output",
            stores(|answer, out, values| {
                let number = model::store(answer, out, values);
                if number == 7 {
                    out.copy_from_slice(&answer.written[..out.len()]);
                }
                number
            }),
        ),
        (
            MADE,
            "a refusal writes",
            stores(|answer, out, values| {
                let number = model::store(answer, out, values);
                if let (Some(first), true) = (out.first_mut(), number != 0) {
                    *first ^= 1;
                }
                number
            }),
        ),
        (
            &[BY_HAND, RANDOM, BESIDE, APART],
            "a byte behind the list is touched",
            stores(|answer, out, values| {
                let number = model::store(answer, out, values);
                if let (0, Some(byte)) = (number, out.get_mut(answer.written.len())) {
                    *byte = 0;
                }
                number
            }),
        ),
        (
            OURS,
            "with room for fewer than three nothing is stored",
            stores(|answer, out, values| {
                let room = if values.len() < answer.values.len() { &mut [] } else { values };
                model::store(answer, out, room)
            }),
        ),
        (
            OURS,
            "a place past the values is touched",
            stores(|answer, out, values| {
                let number = model::store(answer, out, values);
                if let (0, Some(place)) = (number, values.get_mut(answer.values.len())) {
                    *place = 0;
                }
                number
            }),
        ),
    ]
}

/// A handle and a DLCI that there can be.
fn masked(stream: Stream) -> Stream {
    let dlci = if stream.dlci.is_multiple_of(64) { 18 } else { stream.dlci % 64 };
    Stream { handle: stream.handle % 4096, dlci, ..stream }
}

/// The wrong calls, each for the parts that have to report it.
pub fn faults() -> Vec<(&'static str, String, Mislinked)> {
    let all = [of_others(), of_asked(), of_lists(), of_readings(), of_answers(), of_lent()].concat().into_iter();
    let each =
        |(groups, label, planted): Fault| groups.iter().map(move |group| (*group, format!("links: {label}"), planted));
    all.flat_map(each).collect()
}
