//! One headset's list beside another's: the spans of one adapter's index, handle and DLCI. Each file is asked for several of
//! these, and held to the source's import of the file with that link's records alone. Then the laws: files that hold the same
//! packets of a link give the same; and the lists of all links are what import gives.

use std::collections::BTreeSet;
use std::sync::LazyLock;

use crate::adapters;
use crate::alone::{self, Kind, Link};
use crate::answer::{
    Answer, Case, Checked, Container, Difference, Lender, Stream, Subject, LISTED, NO_CHANNEL, NUMBERS, VALUES,
};
use crate::bytes;
use crate::codec::each_string;
use crate::containers::{self, Converted};
use crate::expected::{self, LONGEST_FILE};
use crate::fcs;
use crate::hard;
use crate::honest;
use crate::import::{self, ack, Taker};
use crate::items::{self, Span};
use crate::model::{self, RIGHT};
use crate::pcap::{self, FORMS};
use crate::rng::Rng;
use crate::sums::{self, Both};
use crate::tolerant::KINDS;
use crate::trace::{self, l2cap, Trace};
use crate::Options;
use oracle::capture::Direction::{Rx, Tx};
use oracle::capture::BTSNOOP_EPOCH_DELTA_US as EPOCH;

/// Bytes before and after the work lent that nobody may touch.
const GUARD: usize = 16;
/// The places of the noise from which work is filled.
const TURNS: usize = 251;

/// What work is filled with, from another place each time.
static NOISE: LazyLock<Vec<u8>> =
    LazyLock::new(|| Rng::new(2).bytes(8 * (LONGEST_FILE + 1) + 64 + 2 * GUARD + 8 + TURNS));

/// The longest file that the model is asked for too.
const SHORT: usize = 20_000;

/// The call for one link, held to what is expected.
pub struct Links<'a> {
    subject: &'a dyn Subject,
    lender: Lender,
    /// Says what is asked for.
    rng: Rng,
    turn: usize,
    files: usize,
    /// How many btsnoop files went as pcap too.
    twins: usize,
    work: Vec<u8>,
    out: Vec<u8>,
    /// How many lists were the source's by the link's records alone, and by these with a frame of another handle before them.
    by: [u64; 2],
    /// How many calls the laws made.
    told: u64,
}

impl<'a> Links<'a> {
    pub fn new(subject: &'a dyn Subject) -> Links<'a> {
        Links {
            subject,
            lender: Lender::default(),
            rng: Rng::new(3),
            turn: 0,
            files: 0,
            twins: 0,
            work: Vec::new(),
            out: Vec::new(),
            by: [0; 2],
            told: 0,
        }
    }

    /// A file, asked for these.
    fn asked(&mut self, container: Container, file: &[u8], streams: &[Stream]) -> Checked {
        let refused = expected::refused(container, file);
        streams.iter().try_for_each(|stream| {
            let expected = self.due(container, file, *stream, &refused)?;
            self.held(container, file, *stream, &expected)
        })
    }

    /// What is due, by the source; of a short file the model has to say the same.
    fn due(
        &mut self,
        container: Container,
        file: &[u8],
        stream: Stream,
        refused: &Option<Answer>,
    ) -> Result<Answer, Box<Difference>> {
        let (due, behind) = expected::one_link(container, file, stream, refused);
        self.by[usize::from(behind)] += u64::from(due.number == 0);
        if file.len() > SHORT {
            return Ok(due);
        }
        let other = model::one_link(container, file, usize::MAX, stream, RIGHT);
        if other == due {
            return Ok(due);
        }
        Err(Box::new(Difference {
            call: format!("the model of the call for {stream:?}"),
            inputs: vec![("file", file.to_vec())],
            lent: "enough".into(),
            expected: format!("{due:?}"),
            got: format!("{other:?}"),
        }))
    }

    /// The file with enough work, and outputs about what is needed; at times with less work.
    pub fn held(&mut self, container: Container, file: &[u8], stream: Stream, expected: &Answer) -> Checked {
        self.files += 1;
        let enough = 8 * file.len() + [0, 0, 1, 64][self.files % 4];
        let needed = expected.written.len();
        if expected.number == 0 {
            self.call(container, file, stream, (enough, needed), expected)?;
            if needed > 0 {
                self.call(container, file, stream, (enough, needed - 1), expected)?;
            }
        }
        let more = if self.files.is_multiple_of(3) { 0 } else { needed + [1, 2, 9, 64][self.files % 4] };
        self.call(container, file, stream, (enough, more), expected)?;
        if expected.number == 1 || self.files.is_multiple_of(11) {
            self.less(container, file, stream, expected)?;
        }
        Ok(())
    }

    /// The file with less work than it wants: one byte, any number of bytes, all.
    pub fn less(&mut self, container: Container, file: &[u8], stream: Stream, expected: &Answer) -> Checked {
        let n = file.len();
        if n == 0 {
            return Ok(());
        }
        let short = if expected.number == 1 { expected.clone() } else { Answer::refused(2, &[]) };
        [8 * n - 1, self.turn % (8 * n), 0]
            .into_iter()
            .try_for_each(|lent| self.call(container, file, stream, (lent, self.turn % 50), &short))
    }

    /// One call with so much work, full of noise, and so much output, and some room for values. After refusals 1 and 2 work
    /// is as it was.
    pub fn call(
        &mut self,
        container: Container,
        file: &[u8],
        stream: Stream,
        (lent, out): (usize, usize),
        expected: &Answer,
    ) -> Checked {
        self.turn += 1;
        let turn = self.turn % TURNS;
        // Work begins at any place, not at multiples of 8 alone.
        let front = GUARD + turn % 8;
        let noise = &NOISE[turn..turn + front + lent + GUARD];
        self.work.clear();
        self.work.extend(noise);
        let options = self.options(container);
        let (subject, work) = (self.subject, &mut self.work[front..front + lent]);
        let case = || Case {
            call: format!("one_link_with, {stream:?}, options {options:?}, {lent} bytes of work"),
            inputs: vec![("file", file.to_vec())],
        };
        let mut call =
            |out: &mut [u8], values: &mut [u64]| subject.one_link_with(file, work, out, stream, &options, values);
        let room = self.lender.room(expected);
        self.lender.call(expected, out, room, &mut call, &case)?;
        let used = if [1, 2].contains(&expected.number) { 0 } else { lent };
        let changed = |i: &usize| self.work[*i] != noise[*i];
        match (0..front).chain(front + used..noise.len()).find(changed) {
            None => Ok(()),
            Some(at) => {
                let Case { call, inputs } = case();
                let (lent, got) = (format!("{lent} bytes of work"), "it was changed".into());
                let expected = format!("byte {} of work is left as it was", at as i64 - front as i64);
                Err(Box::new(Difference { call, inputs, lent, expected, got }))
            }
        }
    }

    /// The options of a call; neither the channel nor the rule nor the switch is looked at.
    fn options(&self, container: Container) -> Vec<u64> {
        let turn = self.turn;
        let (channel, rule) = ([256, 0, 9, u64::MAX, 31][turn % 5], [0, 1, 0, u64::MAX, 2, 1][turn % 6]);
        let more = [&[][..], &[0], &[1], &[1, 7], &[u64::MAX, 0, 1]][turn % 5];
        if container == Container::Pcap {
            let pcap = [1, 1, 3, u64::MAX, 1 << 32, 1 << 63, 1 << 8][turn % 7];
            return [&[channel, rule, pcap], more].concat();
        }
        match turn % 7 {
            0 => vec![],
            1 => vec![channel],
            2 => vec![channel, rule],
            _ => [&[channel, rule, 0], more].concat(),
        }
    }

    /// What a file is asked for: mostly a link and DLCI that a frame of it has, at times one near to that, and at times what
    /// there cannot be.
    fn streams(&mut self, container: Container, file: &[u8], many: usize) -> Vec<Stream> {
        let known = if file.len() <= LONGEST_FILE { seen(container, file) } else { Vec::new() };
        (0..many).map(|_| self.stream(&known)).collect()
    }

    fn stream(&mut self, known: &[Stream]) -> Stream {
        let rng = &mut self.rng;
        let any = Stream { index: rng.pick(&[0, 0, 1, 0xFFFF]), handle: rng.pick(&[0x40, 0, 0xFFF]), dlci: 18 };
        let [mut stream, other] = [0, 1].map(|_| if known.is_empty() { any } else { rng.pick(known) });
        match rng.below(40) {
            0 | 1 => stream.dlci ^= 1,
            2 => stream.dlci = other.dlci,
            3 => stream.dlci = rng.within(1, 63) as u8,
            4 => stream.handle = other.handle,
            5 => stream.handle ^= 1 << rng.below(12),
            6 => stream.index = other.index,
            7 => stream.index ^= 1 << rng.below(16),
            8 => stream.index = rng.pick(&[0, 1, 0xFFFF]),
            9 => stream.handle |= 1 << rng.within(12, 15),
            10 => stream.handle = rng.pick(&[4096, 4097, 0x8000, 0xFFFF]),
            11 => stream.dlci = rng.pick(&[0, 64, 65, 128, 255]),
            12 => stream.dlci = rng.pick(&[stream.dlci | 0x40, stream.dlci | 0x80, stream.dlci.wrapping_mul(4)]),
            _ => (),
        }
        stream
    }

    // ---- what the subject tells

    /// Number, values and output of a call that is lent enough: the list, and whether all behind it stayed as it was.
    fn told(&mut self, container: Container, file: &[u8], stream: Stream) -> (u32, [u64; LISTED], Vec<u8>) {
        let options = [NO_CHANNEL.into(), 0, u64::from(container == Container::Pcap)];
        let (mut values, subject) = ([UNSTORED; LISTED], self.subject);
        let n = 8 * file.len();
        self.told += 1;
        self.work.resize(self.work.len().max(n), 0);
        self.out.clear();
        self.out.resize(n, 0xB7);
        let number = subject.one_link_with(file, &mut self.work[..n], &mut self.out, stream, &options, &mut values);
        let written = if number == 0 { (values[2] as usize).min(n) } else { 0 };
        if let Some(at) = self.out[written..].iter().position(|byte| *byte != 0xB7) {
            values[2] = UNSTORED ^ at as u64;
        }
        (number, values, self.out[..written].to_vec())
    }

    /// What a call that has nothing to refuse lists: values, and the spans of the list, which are as many as it says.
    fn listed(
        &mut self,
        container: Container,
        file: &[u8],
        stream: Stream,
    ) -> Result<([u64; LISTED], Vec<Span>), Box<Difference>> {
        let (number, values, list) = self.told(container, file, stream);
        let spans = items::read_spans(&list).unwrap_or_default();
        if number == 0 && values == [spans.len() as u64, values[1], list.len() as u64] && values[1] != UNSTORED {
            return Ok((values, spans));
        }
        Err(differs(
            format!("one_link_with, {stream:?}, of a {container:?} file"),
            file,
            "number 0, and spans and bytes as many as the list has".into(),
            format!("number {number}, values {values:?}: {}", shown(&spans)),
        ))
    }

    /// The strict import of a file by this channel: values and spans, if it is not refused.
    fn imported(&mut self, container: Container, file: &[u8], channel: u32) -> (u32, [u64; VALUES], Vec<Span>) {
        let options = [channel.into(), 0, u64::from(container == Container::Pcap)];
        let (mut values, subject) = ([UNSTORED; VALUES], self.subject);
        let n = 8 * file.len();
        self.told += 1;
        self.work.resize(self.work.len().max(n), 0);
        self.out.resize(self.out.len().max(n), 0);
        let number = subject.import_with(file, &mut self.work[..n], &mut self.out[..n], &options, &mut values);
        let written = if number == 0 { (values[4] as usize).min(n) } else { 0 };
        (number, values, items::read_spans(&self.out[..written]).unwrap_or_default())
    }

    // ---- beside import

    /// Where import takes a DLCI, the lists of all links are its list: each in its order, all spans together, and so many
    /// unfinished in all. How many links there were.
    fn beside(&mut self, container: Container, file: &[u8], channel: u32) -> Result<usize, Box<Difference>> {
        let (number, values, spans) = self.imported(container, file, channel);
        if number != 0 {
            return Ok(0);
        }
        let dlci = values[0] as u8;
        let links: BTreeSet<Link> = alone::packets(container, file).iter().map(|packet| packet.link).collect();
        let (mut unfinished, mut all) = (0, Vec::new());
        for &(index, handle) in &links {
            let stream = Stream { index, handle, dlci };
            let (values, own) = self.listed(container, file, stream)?;
            if !is_part(&own, &spans) {
                return Err(differs(
                    format!("import and one_link_with, {stream:?}"),
                    file,
                    format!("spans of import's list, in its order: {}", shown(&spans)),
                    format!("values {values:?}: {}", shown(&own)),
                ));
            }
            unfinished += values[1];
            all.extend(own);
        }
        let sorted = |spans: &[Span]| {
            let spans = spans.iter().map(|(ms, way, wire)| (*ms, items::kind_of(*way), wire.clone()));
            let mut spans: Vec<(u64, u16, Vec<u8>)> = spans.collect();
            spans.sort();
            spans
        };
        if sorted(&all) == sorted(&spans) && unfinished == values[2] {
            return Ok(links.len());
        }
        Err(differs(
            format!("import and one_link_with, DLCI {dlci} of all links"),
            file,
            format!("{} unfinished, and all spans of {}", values[2], shown(&spans)),
            format!("{unfinished} unfinished, and {}", shown(&all)),
        ))
    }

    // ---- apart from the other links

    /// Two files that hold the same packets of a link give the same.
    fn same(&mut self, one: (Container, &[u8]), two: (Container, &[u8]), stream: Stream) -> Checked {
        let left = self.told(one.0, one.1, stream);
        let right = self.told(two.0, two.1, stream);
        if left == right {
            return Ok(());
        }
        let shown = |(number, values, list): &(u32, [u64; LISTED], Vec<u8>)| {
            format!("number {number}, values {values:?}, {}", shown(&items::read_spans(list).unwrap_or_default()))
        };
        Err(Box::new(Difference {
            call: format!("one_link_with, {stream:?}, of a {:?} file, then of a {:?} file", one.0, two.0),
            inputs: vec![("file", one.1.to_vec()), ("other", two.1.to_vec())],
            lent: "enough".into(),
            expected: shown(&left),
            got: shown(&right),
        }))
    }
}

/// A value that was not stored.
const UNSTORED: u64 = 0xB7B7_B7B7_B7B7_B7B7;

fn differs(call: String, file: &[u8], expected: String, got: String) -> Box<Difference> {
    Box::new(Difference { call, inputs: vec![("file", file.to_vec())], lent: "enough".into(), expected, got })
}

fn shown(spans: &[Span]) -> String {
    format!("{:.2000}", format!("{spans:02X?}"))
}

/// Whether these are some of the spans, in their order.
fn is_part(some: &[Span], all: &[Span]) -> bool {
    let mut all = all.iter();
    some.iter().all(|span| all.any(|other| other == span))
}

/// The links and DLCIs of a file's UIH frames, whether their PDUs are tried or not.
fn seen(container: Container, file: &[u8]) -> Vec<Stream> {
    let frames = fcs::information(container, file).into_iter().filter(|frame| frame.dlci > 0);
    let stream = |frame: fcs::Information| Stream {
        index: (frame.link / 4096) as u16,
        handle: (frame.link % 4096) as u16,
        dlci: frame.dlci,
    };
    frames.map(stream).collect::<BTreeSet<Stream>>().into_iter().collect()
}

impl Both for Links<'_> {
    fn one(&mut self, container: Container, file: &[u8], _: u32) -> Checked {
        let streams = self.streams(container, file, if file.len() > SHORT { 2 } else { 3 });
        import::smallest(container, file, &mut |file| self.asked(container, file, &streams))
    }

    fn turn(&mut self) -> &mut usize {
        &mut self.twins
    }
}

/// Takes the files of one container.
struct Of<'b, 'a>(Container, &'b mut Links<'a>);

impl Taker for Of<'_, '_> {
    fn file(&mut self, file: &[u8], channel: u32) -> Checked {
        self.1.one(self.0, file, channel)
    }
}

// ---- fixed traces

/// What is asked for by hand: the link of which nothing is said, another handle, another adapter, and others' DLCIs.
const OWN: Stream = Stream { index: 0, handle: 0x40, dlci: 18 };
const HANDLE: Stream = Stream { handle: 0x41, ..OWN };
const ADAPTER: Stream = Stream { index: 1, ..OWN };
const NEITHER: Stream = Stream { index: 1, handle: 0x41, dlci: 18 };
const DLCI_19: Stream = Stream { dlci: 19, ..OWN };
const DLCI_20: Stream = Stream { dlci: 20, ..OWN };
const DLCI_1: Stream = Stream { dlci: 1, ..OWN };
const DLCI_63: Stream = Stream { dlci: 63, ..OWN };

/// What is known of a made trace: its records, and spans, unfinished and bytes of what is asked for. Bars part the records.
/// They are PDUs by the words of `bytes`, and these, which with `handle` or `adapter` before them are of that link: a request
/// for PSM 1 that names CID 41; one for PSM 3 that admits CID 20, or CID 41; the response that admits CID 21 to be sent on;
/// data on that; the beginning of a PDU with a frame, and its end; one that is skipped, and an ACL packet without its last
/// byte.
type Known = (&'static str, &'static [(Stream, [u64; LISTED])]);

const MADE: &[Known] = &[
    // Each link has its own list.
    ("F", &[(OWN, [1, 0, 23]), (HANDLE, [0; 3]), (ADAPTER, [0; 3]), (DLCI_19, [0; 3])]),
    (
        "F | handle F F | adapter F F F",
        &[(OWN, [1, 0, 23]), (HANDLE, [2, 0, 46]), (ADAPTER, [3, 0, 69]), (NEITHER, [0; 3])],
    ),
    ("h | handle h | adapter h | t | handle t", &[(OWN, [1, 0, 23]), (HANDLE, [1, 0, 23]), (ADAPTER, [0, 1, 0])]),
    ("h | handle t | adapter t", &[(OWN, [0, 1, 0]), (HANDLE, [0; 3]), (ADAPTER, [0; 3])]),
    ("F | handle 3E | adapter 3E 00", &[(OWN, [1, 0, 23]), (HANDLE, [0, 1, 0]), (ADAPTER, [0, 1, 0])]),
    // Sessions and links of others.
    ("h | handle sabm | t", &[(OWN, [1, 0, 23])]),
    ("h | adapter sabm | t", &[(OWN, [1, 0, 23])]),
    ("h | handle sabm0 | t", &[(OWN, [1, 0, 23])]),
    ("h | adapter sabm0 | t", &[(OWN, [1, 0, 23])]),
    ("h | handle psm3 | t", &[(OWN, [1, 0, 23])]),
    ("h | adapter psm3 | t", &[(OWN, [1, 0, 23])]),
    ("h | sabm20 | t", &[(OWN, [1, 0, 23])]),
    ("h | sabm | t", &[(OWN, [0, 1, 0])]),
    ("h | sabm0 | t F", &[(OWN, [1, 1, 23])]),
    ("h | psm3 | t 3E", &[(OWN, [0, 2, 0])]),
    // Names and requests of others.
    ("names | F", &[(OWN, [0; 3])]),
    ("F | names", &[(OWN, [0; 3])]),
    ("handle names | F", &[(OWN, [1, 0, 23])]),
    ("adapter names | F | handle F", &[(OWN, [1, 0, 23]), (HANDLE, [1, 0, 23])]),
    ("F | adapter names | adapter F", &[(OWN, [1, 0, 23]), (ADAPTER, [0; 3])]),
    ("admits | untried F", &[(OWN, [1, 0, 23])]),
    ("handle admits | untried F", &[(OWN, [0; 3])]),
    ("adapter admits | untried F", &[(OWN, [0; 3])]),
    ("untried F | untried adapter F F | adapter admits", &[(OWN, [0; 3]), (ADAPTER, [2, 0, 46])]),
    ("names | handle asks | F", &[(OWN, [0; 3])]),
    ("names | asks | F", &[(OWN, [1, 0, 23])]),
    ("asks | serves | served", &[(OWN, [1, 0, 23])]),
    ("handle asks | serves | served", &[(OWN, [0; 3])]),
    ("adapter asks | serves | served", &[(OWN, [0; 3])]),
    ("asks | handle serves | served", &[(OWN, [0; 3])]),
    ("asks | adapter serves | adapter served", &[(OWN, [0; 3]), (ADAPTER, [0; 3])]),
    ("asks | F", &[(OWN, [1, 0, 23])]),
    // Open PDUs of others.
    ("begin | handle begin | adapter begin | end | handle end", &[(OWN, [1, 0, 23]), (HANDLE, [1, 0, 23])]),
    ("begin | handle end | adapter end", &[(OWN, [0; 3]), (HANDLE, [0; 3]), (ADAPTER, [0; 3])]),
    ("begin | adapter F | handle F F | end", &[(OWN, [1, 0, 23])]),
    ("begin | skipped | lacking | end", &[(OWN, [1, 0, 23])]),
    ("begin | F F | end", &[(OWN, [2, 0, 46])]),
    // The DLCI, and not the channel.
    ("F | dlci19 F F | dlci20 F F F", &[(OWN, [1, 0, 23]), (DLCI_19, [2, 0, 46]), (DLCI_20, [3, 0, 69])]),
    ("dlci19 h | h | dlci19 t", &[(OWN, [0, 1, 0]), (DLCI_19, [1, 0, 23])]),
    ("F | dlci19 3E | dlci20 3E | dlci1 3E", &[(OWN, [1, 0, 23]), (DLCI_19, [0, 1, 0])]),
    ("dlci9 F | dlci36 F F", &[(OWN, [0; 3])]),
    ("dlci1 F | dlci63 F F | dlci0 F", &[(DLCI_1, [1, 0, 23]), (DLCI_63, [2, 0, 46])]),
    // The list may be empty, and nothing need unpack.
    ("skipped", &[(OWN, [0; 3])]),
    ("3E", &[(OWN, [0, 1, 0])]),
    ("00 01 02", &[(OWN, [0; 3])]),
    ("3E 3C", &[(OWN, [1, 0, 16])]),
    ("3E 3C | F | 3E 00 3C", &[(OWN, [3, 0, 56])]),
    ("dlci19 F | 3E 3C", &[(OWN, [1, 0, 16]), (DLCI_19, [1, 0, 23])]),
    // Stretches and directions.
    ("h | tx t", &[(OWN, [0, 1, 0])]),
    ("h | cid t", &[(OWN, [0, 1, 0])]),
    ("h | tx h | cid h | t | cid t | tx t", &[(OWN, [3, 0, 69])]),
    ("3E | tx 3E | cid 3E | tx cid 3E", &[(OWN, [0, 4, 0])]),
    ("3E | sabm | 3E | sabm0 | 3E 3C | 3E", &[(OWN, [1, 3, 16])]),
    ("h | tx F | t | F", &[(OWN, [3, 0, 69])]),
    // The FCS is not looked at.
    ("bad F", &[(OWN, [1, 0, 23])]),
    ("h | bad 00 | t", &[(OWN, [1, 0, 24])]),
    ("bad 3E | bad dlci19 3E", &[(OWN, [0, 1, 0]), (DLCI_19, [0, 1, 0])]),
    // About the limit of 65,536 bytes.
    ("3E 65535x00 | 3C F", &[(OWN, [2, 0, 65_574])]),
    ("3E 65536x00 | 3C F", &[(OWN, [1, 0, 23])]),
    ("3E 65535x00", &[(OWN, [0, 1, 0])]),
    ("3E 65536x00", &[(OWN, [0; 3])]),
];

/// A trace by its words.
fn made(datalink: u32, words: &str) -> Trace {
    let mut trace = Trace::new(datalink);
    let pdu = l2cap(0x41, &trace::uih(18, &ack(1), None, false));
    for record in words.split('|').map(str::trim) {
        let (index, handle, what) = match record.split_once(' ') {
            Some(("handle", what)) => (0, 0x41, what),
            Some(("adapter", what)) => (1, 0x40, what),
            _ => (0, 0x40, record),
        };
        let stamp = EPOCH + trace.file.len() as u64 * 1000;
        trace.on(index);
        match what {
            "names" => trace.pdu(Tx, stamp, handle, 1, &trace::request(1, 0x41)),
            "admits" => trace.pdu(Tx, stamp, handle, 1, &trace::request(3, 0x20)),
            "asks" => trace.pdu(Tx, stamp, handle, 1, &trace::request(3, 0x41)),
            "serves" => trace.pdu(Rx, stamp, handle, 1, &trace::response(0x21, 0x41, 0)),
            "served" => trace.pdu(Tx, stamp, handle, 0x21, &trace::uih(18, &ack(1), None, false)),
            "begin" => trace.fragment(Rx, stamp, handle, 2, &pdu[..9]),
            "end" => trace.fragment(Rx, stamp, handle, 1, &pdu[9..]),
            "skipped" => trace.record(2, stamp, &trace::acl_packet(handle, 2, &pdu)),
            "lacking" => trace.acl(Rx, stamp, 0, &trace::acl_packet(handle, 2, &pdu)[..pdu.len() + 3]),
            _ => bytes::send(&mut trace, record),
        }
    }
    trace
}

/// The made traces in each datalink, and as pcap, each asked for what is known, for what there cannot be, and with the
/// beginning of a record behind it.
fn by_hand(links: &mut Links) -> Checked {
    for (turn, (words, known)) in MADE.iter().enumerate() {
        let adapters = words.contains("adapter");
        for (datalink, form) in trace::DATALINKS.into_iter().zip(FORMS.into_iter().cycle().skip(turn)) {
            let file = made(datalink, words).file;
            if datalink == 2001 || !adapters {
                file_by_hand(links, Container::Btsnoop, &file, known)?;
                let pcap = pcap::of_btsnoop(&made(1002, words).file, form);
                if !adapters {
                    file_by_hand(links, Container::Pcap, &pcap, known)?;
                }
            }
            // In 1001 and 1002 all of these are of one adapter.
            let streams: Vec<Stream> = known.iter().map(|(stream, _)| *stream).chain([ADAPTER]).collect();
            links.asked(Container::Btsnoop, &file, &streams)?;
        }
    }
    by_pairs(links)?;
    // Files that are refused before, and those of other groups.
    let example = import::example().file;
    for n in 0..=example.len() {
        links.asked(Container::Btsnoop, &example[..n], &impossible(OWN))?;
        links.asked(Container::Btsnoop, &example[..n], &[OWN, HANDLE, ADAPTER, DLCI_19])?;
    }
    for (file, ..) in containers::fixed() {
        links.asked(Container::Pcap, &file, &[OWN, ADAPTER, Stream { handle: 4096, ..OWN }])?;
        links.asked(Container::Btsnoop, &file, &[OWN, Stream { dlci: 0, ..OWN }])?;
    }
    sums::by_hand(links, false)?;
    import::fixed(&mut Of(Container::Btsnoop, links))
}

/// What there cannot be, about a stream: a handle over 4,095, a DLCI not 1 to 63, and both.
fn impossible(stream: Stream) -> Vec<Stream> {
    let Stream { handle, dlci, .. } = stream;
    let handles = (12..16).map(|bit| handle | 1 << bit).chain([4096, 0xFFFF]);
    let dlcis = [0, 64, 255, dlci | 0x40, dlci | 0x80];
    let mut all: Vec<Stream> = handles.map(|handle| Stream { handle, ..stream }).collect();
    all.extend(dlcis.map(|dlci| Stream { dlci, ..stream }));
    all.push(Stream { handle: 4096, dlci: 64, ..stream });
    all
}

fn file_by_hand(links: &mut Links, container: Container, file: &[u8], known: &[(Stream, [u64; LISTED])]) -> Checked {
    let refused = expected::refused(container, file);
    for &(stream, values) in known {
        let due = links.due(container, file, stream, &refused)?;
        assert!((due.number, &due.values[..]) == (0, &values), "a made trace has its list: {due:?} {file:02X?}");
        links.held(container, file, stream, &due)?;
        links.less(container, file, stream, &due)?;
    }
    if file.len() > 1000 {
        return Ok(());
    }
    let impossible = impossible(known[0].0);
    links.asked(container, file, &impossible)?;
    // 5 comes before 23.
    let cut = [file, &[0; 9]].concat();
    links.asked(container, &cut, &impossible[..3])?;
    links.asked(container, &cut, &[known[0].0])
}

/// Links that a key with too few bits takes for one, each with a list of its own.
fn by_pairs(links: &mut Links) -> Checked {
    for pair in adapters::pairs() {
        let mut trace = Trace::new(2001);
        for (many, (index, handle)) in (1..).zip(pair) {
            for seq in 0..many {
                trace.on(index).pdu(Rx, EPOCH, handle, 0x41, &trace::uih(18, &ack(seq), None, false));
            }
            trace.on(index).pdu(Tx, EPOCH, handle, 0x42, &trace::uih(18, &ack(0)[..4], None, false));
        }
        let streams = pair.map(|(index, handle)| Stream { index, handle, dlci: 18 });
        links.asked(Container::Btsnoop, &trace.file, &streams)?;
    }
    Ok(())
}

// ---- the files of other groups

fn random(links: &mut Links, rng: &mut Rng, size: u64) -> Checked {
    for container in [Container::Btsnoop, Container::Pcap] {
        containers::random(&mut Of(container, links), container, rng, size)?;
        containers::damaged(&mut Of(container, links), container, rng, size / 2)?;
    }
    containers::scattered(&mut Of(Container::Pcap, links), rng, size / 4)
}

/// Honest recordings, whole and cut.
fn recordings(links: &mut Links, rng: &mut Rng, size: u64) -> Checked {
    for i in 0..size as usize {
        for container in [Container::Btsnoop, Container::Pcap] {
            let recording = honest::recording_in(rng, container, KINDS[i % 3], honest::SMALL);
            links.one(container, &recording.file, NO_CHANNEL)?;
            let n = rng.within(0, recording.file.len());
            links.one(container, &recording.file[..n], NO_CHANNEL)?;
        }
    }
    Ok(())
}

/// The files that show where import keys on a link, and those full of the smallest records.
fn of_import(links: &mut Links, quiet: bool) -> Checked {
    let mut taker = Of(Container::Btsnoop, links);
    adapters::by_hand(&mut taker)?;
    import::excess(&mut taker)?;
    import::doubled(&mut taker)?;
    adapters::steps(&mut taker, if quiet { 2 } else { 3 })?;
    let mut taker = Of(Container::Pcap, links);
    import::excess(&mut Converted::new(&mut taker))?;
    containers::most(&mut taker, if quiet { 60 } else { 200 })
}

/// What a link does, in the words of made traces.
const STEPS: [&str; 8] = ["h", "t", "begin", "end", "names", "admits", "sabm", "sabm0"];

/// Every sequence of `n` steps on two links, that have the same handle or the same adapter, and data behind them on both.
fn steps(links: &mut Links, n: usize) -> Checked {
    let letters: Vec<u8> = (0..2 * STEPS.len() as u8).collect();
    let mut turn = 0;
    each_string(n, &letters, &mut |letters| {
        turn += 1;
        let (other, stream, datalink) = match turn % 4 {
            0 => ("handle", HANDLE, 1001),
            1 => ("handle", HANDLE, 1002),
            _ => ("adapter", ADAPTER, 2001),
        };
        let words = letters.iter().map(|letter| match (letter % 2, STEPS[usize::from(letter / 2)]) {
            (0, step) => step.to_string(),
            (_, step) => format!("{other} {step}"),
        });
        let behind = ["F".into(), format!("{other} F"), "untried F".into(), format!("untried {other} F")];
        let words: Vec<String> = words.chain(behind).collect();
        let file = made(datalink, &words.join(" | ")).file;
        let streams = if turn % 5 == 0 { vec![OWN, stream] } else { vec![OWN] };
        if turn % 4 == 0 {
            let file = pcap::of_btsnoop(&file, FORMS[turn / 4 % 4]);
            return import::smallest(Container::Pcap, &file, &mut |file| links.asked(Container::Pcap, file, &streams));
        }
        import::smallest(Container::Btsnoop, &file, &mut |file| links.asked(Container::Btsnoop, file, &streams))
    })
}

/// Long buffers, and files of up to 1,048,576 bytes and over.
fn long(links: &mut Links, rng: &mut Rng, quiet: bool) -> Checked {
    let mut taker = Of(Container::Btsnoop, links);
    taker.file(&vec![0; LONGEST_FILE + 1], NO_CHANNEL)?;
    taker.file(&import::filled(rng, LONGEST_FILE).0.file, NO_CHANNEL)?;
    for trace in hard::traces() {
        trace.file(if quiet { 16 } else { 32 }).map_or(Ok(()), |file| taker.file(&file, NO_CHANNEL))?;
    }
    if quiet {
        return Ok(());
    }
    import::limits(&mut |file| taker.file(file, NO_CHANNEL), rng)?;
    import::large(&mut taker, rng)?;
    let mut taker = Of(Container::Pcap, links);
    containers::hard_traces(&mut taker, &[16])?;
    containers::large(&mut taker, rng)
}

// ---- the laws

/// A random file of a container that strict reading does not refuse: made, damaged, or an honest recording.
fn whole_file(rng: &mut Rng, container: Container, turn: usize) -> Vec<u8> {
    let (trace, _) = trace::structured_in(rng, container, if turn.is_multiple_of(100) { 300 } else { 60 });
    match turn % 4 {
        0 => honest::recording_in(rng, container, KINDS[turn % 3], honest::SMALL).file,
        1 => trace::damaged(rng, &trace),
        _ => trace.file,
    }
}

/// A law that was held to nothing of a sort says nothing of it: each of these is above 0.
fn above_zero(of: &str, counts: &[(&str, u64)]) -> Checked {
    if counts.iter().all(|(_, many)| *many > 0) {
        return Ok(());
    }
    let got: Vec<String> = counts.iter().map(|(what, many)| format!("{many} {what}")).collect();
    Err(Box::new(Difference {
        call: format!("how much one_link_with was held to: {of}"),
        inputs: Vec::new(),
        lent: "nothing".into(),
        expected: "each count is above 0".into(),
        got: got.join(", "),
    }))
}

/// How many imports took a DLCI, of how many of them the file has several links, and how many links there were in all.
#[derive(Default)]
struct Beside {
    imports: u64,
    several: u64,
    links: u64,
}

impl Beside {
    fn counts(&self) -> [(&'static str, u64); 3] {
        let Beside { imports, several, links } = *self;
        [("imports", imports), ("of several links", several), ("links", links)]
    }
}

/// The lists of all links beside import. With `floors` the random files alone have some of each.
fn beside(links: &mut Links, rng: &mut Rng, size: u64, floors: bool) -> Result<Beside, Box<Difference>> {
    let mut counts = Beside::default();
    for turn in 0..size as usize {
        for container in [Container::Btsnoop, Container::Pcap] {
            both_channels(links, container, &whole_file(rng, container, turn), &mut counts)?;
        }
    }
    if floors {
        above_zero("lists of all links of random files beside import", &counts.counts())?;
    }
    for (words, _) in MADE {
        both_channels(links, Container::Btsnoop, &made(2001, words).file, &mut counts)?;
        let file = pcap::of_btsnoop(&made(1001, words).file, FORMS[words.len() % 4]);
        both_channels(links, Container::Pcap, &file, &mut counts)?;
    }
    Ok(counts)
}

/// A file beside its import on any channel, and on that of a frame in it.
fn both_channels(links: &mut Links, container: Container, file: &[u8], counts: &mut Beside) -> Checked {
    let known = seen(container, file);
    let own = known.get(file.len() % known.len().max(1)).map_or(9, |stream| u32::from(stream.dlci / 2));
    for channel in [NO_CHANNEL, own] {
        let mut many = 0;
        import::smallest(container, file, &mut |file| {
            links.beside(container, file, channel).map(|found| many = found)
        })?;
        counts.imports += u64::from(many > 0);
        counts.several += u64::from(many > 1);
        counts.links += many as u64;
    }
    Ok(())
}

/// How many pairs of files were held beside each other, and of those that are not of one kind, that list something, that
/// have something unfinished, of which import takes a DLCI each and not the same, and of which it takes one in one file and
/// finds none in the other. `long` more were passed over, since the other file is longer than a file may be.
#[derive(Default)]
struct Apart {
    pairs: u64,
    kinds: u64,
    listed: u64,
    unfinished: u64,
    chosen: u64,
    lacking: u64,
    long: u64,
}

impl Apart {
    /// Those that there have to be.
    fn counts(&self) -> [(&'static str, u64); 6] {
        let Apart { pairs, kinds, listed, unfinished, chosen, lacking, .. } = *self;
        [
            ("pairs", pairs),
            ("not of one kind", kinds),
            ("with spans", listed),
            ("with something unfinished", unfinished),
            ("with two DLCIs by import", chosen),
            ("with a DLCI by import in one file alone", lacking),
        ]
    }
}

/// Files that hold the same packets of a link. With `floors` the random files alone have some of each.
fn apart(links: &mut Links, rng: &mut Rng, size: u64, floors: bool) -> Result<Apart, Box<Difference>> {
    let mut counts = Apart::default();
    for turn in 0..size as usize {
        for container in [Container::Btsnoop, Container::Pcap] {
            let file = whole_file(rng, container, turn);
            if model::refusal(container, &file, usize::MAX, false, RIGHT).is_none() {
                let more = whole_file(rng, Container::Btsnoop, turn + 1);
                of_others(links, rng, (container, &file), &alone::packets(Container::Btsnoop, &more), &mut counts)?;
            }
        }
    }
    if floors {
        above_zero("random files and others with the same packets of a link", &counts.counts())?;
    }
    for (words, known) in MADE.iter().filter(|(words, _)| words.len() < 60) {
        for (stream, _) in *known {
            let file = made(2001, words).file;
            for _ in 0..20 {
                pair(links, rng, (Container::Btsnoop, &file), &[], *stream, &mut counts)?;
            }
        }
    }
    Ok(counts)
}

/// A file, and others that hold the same packets of one of its links.
fn of_others(
    links: &mut Links,
    rng: &mut Rng,
    (container, file): (Container, &[u8]),
    more: &[alone::Packet],
    counts: &mut Apart,
) -> Checked {
    let known: Vec<Stream> = seen(container, file);
    (0..2).try_for_each(|_| {
        let mut stream = links.stream(&known);
        stream.handle %= 4096;
        stream.dlci = stream.dlci % 64 + u8::from(stream.dlci.is_multiple_of(64));
        pair(links, rng, (container, file), more, stream, counts)
    })
}

fn pair(
    links: &mut Links,
    rng: &mut Rng,
    (container, file): (Container, &[u8]),
    more: &[alone::Packet],
    stream: Stream,
    counts: &mut Apart,
) -> Checked {
    let all = alone::packets(container, file);
    let (kind, other) = alone::other(rng, &all, more, stream);
    let link = (stream.index, stream.handle);
    let own = |packets: Vec<alone::Packet>| packets.into_iter().filter(|p| p.link == link).collect::<Vec<_>>();
    assert!(
        own(alone::packets(kind.container(), &other)) == own(all),
        "the other file has the same packets: {stream:?} {file:02X?} {other:02X?}"
    );
    if other.len() > LONGEST_FILE {
        counts.long += 1;
        return Ok(());
    }
    // Both files are accepted and the stream can be. Two calls that were refused alike would be the same, and say nothing.
    let ([_, unfinished, _], spans) = links.listed(container, file, stream)?;
    links.same((container, file), (kind.container(), &other), stream)?;
    links.same((container, file), (container, &alone::alone(container, file, link)), stream)?;
    let imports = [(container, file), (kind.container(), &other)].map(|(of, file)| {
        let (number, [dlci, ..], _) = links.imported(of, file, NO_CHANNEL);
        (number, dlci)
    });
    counts.pairs += 1;
    counts.kinds += u64::from(Kind::of(container, file) != Some(kind));
    counts.listed += u64::from(!spans.is_empty());
    counts.unfinished += u64::from(unfinished > 0);
    match imports {
        [(0, one), (0, two)] => counts.chosen += u64::from(one != two),
        [(0, _), (6, _)] | [(6, _), (0, _)] => counts.lacking += 1,
        _ => (),
    }
    Ok(())
}

// ---- the group and its parts

/// How many random cases there are, if nothing else is asked for.
const SIZE: u64 = 50_000;

pub fn run(subject: &dyn Subject, options: &Options) -> Checked {
    let (size, quiet) = (options.size.unwrap_or(SIZE), options.quiet);
    // A short run may have none of a sort.
    let floors = size >= SIZE;
    let mut rng = Rng::new(options.seed);
    let mut log = options.log("links");
    let mut links = Links::new(subject);
    by_hand(&mut links)?;
    log.line("fixed files", &links.lender);
    random(&mut links, &mut rng, size / 6)?;
    log.line("random and damaged traces", &links.lender);
    recordings(&mut links, &mut rng, size / 20)?;
    log.line("honest recordings, whole and cut", &links.lender);
    of_import(&mut links, quiet)?;
    log.line("the short files of import and pcap", &links.lender);
    steps(&mut links, if quiet { 2 } else { 4 })?;
    log.line("every few steps on two links", &links.lender);
    long(&mut links, &mut rng, quiet)?;
    log.line("long buffers, and files of up to 1,048,576 bytes", &links.lender);
    log.total(links.answers());
    let [alone, behind] = links.by;
    if floors {
        above_zero("lists of the Rust", &[("by the link's records alone", alone), ("behind a frame", behind)])?;
    }
    let beside = beside(&mut links, &mut rng, size / 12, floors)?;
    let apart = apart(&mut links, &mut rng, size / 12, floors)?;
    if !quiet {
        println!(
            "links: lists of the Rust by the link's records alone {alone}, by these behind a frame of another handle \
             {behind}"
        );
        let calls = links.told;
        let Beside { imports, several, links } = beside;
        println!(
            "links: the lists of all links are that of import: {imports} imports, {several} of several links, {links} links \
             in all"
        );
        let Apart { pairs, kinds, listed, unfinished, chosen, lacking, long } = apart;
        println!(
            "links: the same of {pairs} pairs of files with the same packets of the link, {kinds} not of one kind, {listed} with \
             spans, {unfinished} with something unfinished; import takes another DLCI of {chosen}, and finds one in one of the files \
             alone of {lacking}; {long} pairs passed over, whose other file is too long"
        );
        println!("links: {calls} calls by the laws");
    }
    // Imports were asked for by the makers of traces alone.
    expected::asked();
    Ok(())
}

impl Links<'_> {
    /// How many calls were to be answered with each number.
    fn answers(&self) -> &[u64; NUMBERS] {
        &self.lender.answers
    }
}

/// One part alone; in a short run more of what is random.
pub fn run_by_hand(subject: &dyn Subject, _: &Options) -> Checked {
    by_hand(&mut Links::new(subject))
}

pub fn run_random(subject: &dyn Subject, options: &Options) -> Checked {
    let size = options.size.unwrap_or(SIZE).max(1_000);
    random(&mut Links::new(subject), &mut Rng::new(options.seed), size)
}

pub fn run_short(subject: &dyn Subject, _: &Options) -> Checked {
    of_import(&mut Links::new(subject), true)
}

pub fn run_steps(subject: &dyn Subject, _: &Options) -> Checked {
    steps(&mut Links::new(subject), 3)
}

pub fn run_long(subject: &dyn Subject, options: &Options) -> Checked {
    long(&mut Links::new(subject), &mut Rng::new(options.seed), true)
}

pub fn run_beside(subject: &dyn Subject, options: &Options) -> Checked {
    let size = options.size.unwrap_or(SIZE).max(1_000);
    beside(&mut Links::new(subject), &mut Rng::new(options.seed), size, false).map(|_| ())
}

pub fn run_apart(subject: &dyn Subject, options: &Options) -> Checked {
    let size = options.size.unwrap_or(SIZE).max(1_000);
    apart(&mut Links::new(subject), &mut Rng::new(options.seed), size, false).map(|_| ())
}
