//! The calls that take a container, each file by all of them: pcap files held to the oracle by their twins, and btsnoop files
//! as the other calls have them.

use crate::answer::{Answer, Case, Checked, Container, Difference, Lender, Subject, NO_CHANNEL, NUMBERS};
use crate::codec::each_string;
use crate::editcap;
use crate::expected::{self, LONGEST_FILE};
use crate::gaps::VALUES;
use crate::hard;
use crate::import::{self, ack, Import, Rule, Taker};
use crate::lacking;
use crate::model;
use crate::pcap::{self, Form, FORMS, HEAD, LINK, ROW};
use crate::rng::Rng;
use crate::signs::{self, Gaps};
use crate::trace::{self, acl_packet, l2cap, Trace, OTHERS};
use crate::{items, tolerant, Options};
use oracle::capture::Direction::{Rx, Tx};
use oracle::capture::BTSNOOP_EPOCH_DELTA_US as EPOCH;

/// A place for a start that was not filled.
const EMPTY: u64 = 0xC7C7_C7C7_C7C7_C7C7;

/// Where the records of a file start, held to the container's own rule.
struct Records<'a> {
    subject: &'a dyn Subject,
    container: Container,
    lender: Lender,
    files: usize,
}

impl<'a> Records<'a> {
    fn new(subject: &'a dyn Subject, container: Container) -> Records<'a> {
        Records { subject, container, lender: Lender::default(), files: 0 }
    }

    /// The file with a place for each record, with one fewer, and with none or more.
    fn once(&mut self, file: &[u8]) -> Checked {
        self.files += 1;
        let (expected, starts) = model::records_with(self.container, file, pcap::RIGHT);
        let many = starts.len();
        self.call(file, many, &expected, &starts)?;
        if many > 0 {
            self.call(file, many - 1, &expected, &starts)?;
        }
        self.call(file, [0, many + 1, many / 2, many + 9][self.files % 4], &expected, &starts)
    }

    /// One call with so many places lent, between two that nobody may touch. A btsnoop file goes through the call without
    /// options too.
    fn call(&mut self, file: &[u8], places: usize, expected: &Answer, starts: &[u64]) -> Checked {
        self.called(file, places, expected, starts, Some(&self.options()))?;
        match self.container {
            Container::Btsnoop => self.called(file, places, expected, starts, None),
            Container::Pcap => Ok(()),
        }
    }

    fn called(
        &mut self,
        file: &[u8],
        places: usize,
        expected: &Answer,
        starts: &[u64],
        options: Option<&[u64]>,
    ) -> Checked {
        let mut lent = vec![EMPTY; places + 2];
        let room = self.lender.room(expected);
        let asked = options.map_or("records".into(), |options| format!("records_with, options {options:?}"));
        let case = || Case { call: format!("{asked}, {places} places"), inputs: vec![("file", file.to_vec())] };
        let subject = self.subject;
        let mut call = |_: &mut [u8], values: &mut [u64]| match options {
            Some(options) => subject.records_with(file, &mut lent[1..=places], options, values),
            None => subject.records(file, &mut lent[1..=places], values),
        };
        self.lender.call(expected, 0, room, &mut call, &case)?;
        let filled = starts.iter().copied().chain(std::iter::repeat(EMPTY));
        let due: Vec<u64> = std::iter::once(EMPTY).chain(filled.take(places)).chain([EMPTY]).collect();
        match due.iter().zip(&lent).position(|(due, found)| due != found) {
            None => Ok(()),
            Some(at) => {
                let shown = |places: &[u64]| match places[at] {
                    EMPTY => format!("place {} as it was", at as i64 - 1),
                    start => format!("place {} has {start}", at as i64 - 1),
                };
                let Case { call, inputs } = case();
                let (lent, expected, got) = (format!("{places} places"), shown(&due), shown(&lent));
                Err(Box::new(Difference { call, inputs, lent, expected, got }))
            }
        }
    }

    /// The options of a call; neither the channel nor the rule nor the switch is looked at.
    fn options(&self) -> Vec<u64> {
        let turn = self.files;
        let (channel, tolerant) = ([256, 0, u64::MAX, 7][turn % 4], [0, 1, 0, u64::MAX, 2][turn % 5]);
        let more = [&[0][..], &[], &[1], &[0, 7], &[u64::MAX, 0, 1]][turn % 5];
        if self.container == Container::Pcap {
            let pcap = [1, 3, u64::MAX, 1 << 32, 1, 1 << 63, 1 << 8][turn % 7];
            return [&[channel, tolerant, pcap], more].concat();
        }
        match turn % 6 {
            0 => vec![],
            1 => vec![channel],
            2 => vec![channel, tolerant],
            _ => [&[channel, tolerant, 0], more].concat(),
        }
    }
}

/// The calls that take a container.
pub struct ByContainer<'a> {
    container: Container,
    /// Strict and tolerant.
    imports: [Import<'a>; 2],
    records: Records<'a>,
    gaps: Gaps<'a>,
}

impl<'a> ByContainer<'a> {
    pub fn new(subject: &'a dyn Subject, container: Container) -> ByContainer<'a> {
        ByContainer {
            container,
            imports: [Rule::Strict, Rule::Tolerant].map(|rule| Import::by_container(subject, rule, container)),
            records: Records::new(subject, container),
            gaps: Gaps::by_container(subject, container),
        }
    }

    /// How many calls were to be answered with each number.
    pub fn answers(&self) -> [u64; NUMBERS] {
        let [strict, tolerant] = &self.imports;
        let all = [&strict.lender.answers, &tolerant.lender.answers, &self.records.lender.answers, self.gaps.answers()];
        std::array::from_fn(|number| all.iter().map(|answers| answers[number]).sum())
    }

    /// The file by all calls, held to the oracle and the container's own rule.
    fn once(&mut self, file: &[u8], channel: u32) -> Checked {
        self.held(file, channel, &expected::by_both_rules(self.container, file, channel))
    }

    /// The file by all calls, import in both positions of the switch and held to these answers: strict, then tolerant.
    fn held(&mut self, file: &[u8], channel: u32, expected: &[[Answer; 2]; 2]) -> Checked {
        self.imported(file, channel, expected)?;
        self.records.once(file)?;
        self.gaps.once(file)
    }

    /// The file by the calls that import.
    pub fn imported(&mut self, file: &[u8], channel: u32, expected: &[[Answer; 2]; 2]) -> Checked {
        self.imports.iter_mut().zip(expected).try_for_each(|(import, both)| import.in_both(file, channel, both))
    }
}

impl Taker for ByContainer<'_> {
    fn file(&mut self, file: &[u8], channel: u32) -> Checked {
        import::smallest(self.container, file, &mut |file| self.once(file, channel))
    }
}

/// Takes btsnoop files of one adapter and hands them on as pcap, in each form in turn.
pub struct Converted<'a> {
    calls: &'a mut dyn Taker,
    turn: usize,
}

impl Converted<'_> {
    pub fn new(calls: &mut dyn Taker) -> Converted<'_> {
        Converted { calls, turn: 0 }
    }
}

impl Taker for Converted<'_> {
    fn file(&mut self, file: &[u8], channel: u32) -> Checked {
        self.turn += 1;
        self.calls.file(&pcap::of_btsnoop(file, FORMS[self.turn % 4]), channel)
    }
}

// ---- fixed files, with answers that are known from the making

/// The H4 packet of 01's worked example, with this type.
fn example(kind: u8) -> Vec<u8> {
    [&[kind], &acl_packet(0x40, 2, &l2cap(0x41, &trace::uih(18, &ack(0), None, false)))[..]].concat()
}

/// A pcap file under construction, written by hand.
#[derive(Clone)]
struct Hand {
    form: Form,
    file: Vec<u8>,
}

impl Hand {
    /// A header of these fields: version, time zone, accuracy, snap length, link type.
    fn with(form: Form, fields: [u32; 4], link: u32) -> Hand {
        let fields = [fields[0], fields[1], fields[2], fields[3], link].map(|field| form.bytes(field));
        Hand { form, file: [form.magic().to_vec(), fields.concat()].concat() }
    }

    /// The header that recorders write.
    fn new(form: Form) -> Hand {
        Hand { form, file: Trace::pcap(form).file }
    }

    /// A record of these fields and bytes; the captured length is theirs.
    fn row(mut self, seconds: u32, fraction: u32, original: u32, bytes: &[u8]) -> Hand {
        for field in [seconds, fraction, bytes.len() as u32, original] {
            self.file.extend(self.form.bytes(field));
        }
        self.file.extend(bytes);
        self
    }

    /// The worked example's packet, in this direction.
    fn sent(self, direction: u32, seconds: u32, fraction: u32) -> Hand {
        let bytes = [&direction.to_be_bytes()[..], &example(2)].concat();
        let length = bytes.len() as u32;
        self.row(seconds, fraction, length, &bytes)
    }

    /// Skipped, if it is one that is: at a second of its own.
    fn other(self, bytes: &[u8]) -> Hand {
        self.row(77, 0, bytes.len() as u32, bytes)
    }
}

/// The answer with these frames of the worked example, each received or sent at its time; or 6.
fn frames(frames: &[(bool, u64)], tail: usize) -> Answer {
    if frames.is_empty() {
        return Answer::refused(6, &[]);
    }
    let spans: Vec<items::Span> = frames.iter().map(|&(rx, ms)| (ms, if rx { Rx } else { Tx }, ack(0))).collect();
    let many = frames.len() as u64;
    Answer::imported([18, many, 0, tail as u64, 0], [9 * many, 0, 0, 0], items::span_list(&spans))
}

/// A fixed file and its answers by the strict rule and the tolerant.
pub type Fixed = (Vec<u8>, Answer, Answer);

/// A whole file with these frames.
fn whole(hand: Hand, list: &[(bool, u64)]) -> Fixed {
    let answer = frames(list, hand.file.len());
    (hand.file, answer.clone(), answer)
}

fn refused(file: Vec<u8>, number: u32, carried: &[u64]) -> Fixed {
    (file, Answer::refused(number, carried), Answer::refused(number, carried))
}

/// The first bytes of a file, of which the records up to `tail` are left.
fn cut(hand: &Hand, n: usize, tail: usize, list: &[(bool, u64)]) -> Fixed {
    (hand.file[..n].to_vec(), Answer::refused(5, &[tail as u64]), frames(list, tail))
}

/// Directions: of four bytes, highest first, in either byte order.
fn directions(form: Form) -> Vec<Fixed> {
    let mut all = vec![
        whole(Hand::new(form).sent(1, 0, 0), &[(true, 0)]),
        whole(Hand::new(form).sent(0, 0, 0), &[(false, 0)]),
        whole(Hand::new(form).sent(0, 1, 0).sent(1, 2, 0).sent(0, 3, 0), &[(false, 1000), (true, 2000), (false, 3000)]),
    ];
    for direction in OTHERS {
        all.push(whole(Hand::new(form).sent(direction, 0, 0), &[]));
        all.push(whole(Hand::new(form).sent(direction, 0, 0).sent(1, 9, 0), &[(true, 9000)]));
    }
    all
}

/// Link types: all four bytes, by the file's byte order.
fn links(form: Form) -> Vec<Fixed> {
    let bits = (0..32).map(|bit| LINK ^ 1 << bit);
    let others =
        [0, 1, 187, 200, 202, 251, 254, 1001, 1002, 2001, u32::MAX, LINK.swap_bytes(), LINK << 16, 0xF000_0000 | LINK];
    let link = |link: u32| {
        let mut file = Hand::new(form).sent(1, 0, 0).file;
        file[20..24].copy_from_slice(&form.bytes(link));
        refused(file, 22, &[link.into()])
    };
    let mut all: Vec<Fixed> = bits.chain(others).map(link).collect();
    // Before a record that passes the end.
    all.push(refused([&Hand::with(form, [0; 4], 1).file[..], &[0; 15]].concat(), 22, &[1]));
    all
}

/// Headers: 24 bytes, of one of the four magics; the fields between are not looked at.
fn headers(form: Form) -> Vec<Fixed> {
    let good = Hand::new(form).sent(1, 5, 0);
    let mut all: Vec<Fixed> = (0..HEAD).map(|n| refused(good.file[..n].to_vec(), 21, &[])).collect();
    all.push(whole(Hand::new(form), &[]));
    for magic in
        [[0xA1, 0xB2, 0xCD, 0x34], [0x34, 0xCD, 0xB2, 0xA1], [0x0A, 0x0D, 0x0D, 0x0A], [0xA1, 0xB2, 0xC3, 0x4D], [0; 4]]
    {
        all.push(refused([&magic[..], &good.file[4..]].concat(), 21, &[]));
    }
    all.push(refused(import::example().file, 21, &[]));
    // Version, time zone, accuracy, snap length.
    for fields in
        [[0; 4], [0x0001_0000, 0, 0, 1], [0x0002_0003, 3600, 7, 0], [0x0004_0002, u32::MAX, 0, 10], [u32::MAX; 4]]
    {
        all.push(whole(Hand::with(form, fields, LINK).sent(1, 5, 0).sent(0, 6, 0), &[(true, 5000), (false, 6000)]));
    }
    all
}

/// Times: unsigned, no fraction too large, rounded down.
fn times(form: Form) -> Vec<Fixed> {
    let mut all = Vec::new();
    let parts = form.parts() as u32;
    for (seconds, fraction, ms) in [
        (0, parts - 1, 0),
        (0, parts, 1),
        (0, parts + parts / 2, 1),
        (0, 2 * parts - 1, 1),
        (1, 999 * parts + parts - 1, 1999),
        (1, 1999 * parts + parts - 1, 2999),
        (1_700_000_000, 123 * parts + 456, 1_700_000_000_123),
        (4_294_967, 295 * parts, 4_294_967_295),
        (4_294_967, 296 * parts, 4_294_967_296),
        (0x7FFF_FFFF, 0, 2_147_483_647_000),
        (0x8000_0000, 0, 2_147_483_648_000),
        (u32::MAX, 0, 4_294_967_295_000),
        (u32::MAX, u32::MAX, 4_294_967_295_000 + if form.nano { 4294 } else { 4_294_967 }),
        (0, u32::MAX, if form.nano { 4294 } else { 4_294_967 }),
        (0, 0x8000_0000, if form.nano { 2147 } else { 2_147_483 }),
    ] {
        all.push(whole(Hand::new(form).sent(1, seconds, fraction), &[(true, ms)]));
    }
    all
}

/// Records: the captured length counts, and what is no ACL packet is skipped.
fn records(form: Form) -> Vec<Fixed> {
    let both = [(true, 1000), (false, 2000)];
    let between = |bytes: &[u8]| whole(Hand::new(form).sent(1, 1, 0).other(bytes).sent(0, 2, 0), &both);
    let mut all = Vec::new();
    // Too short for a direction, or for a type behind it.
    for n in 0..=4 {
        all.extend([0, 1, 2].map(|byte| between(&vec![byte; n])));
    }
    // Other types, and longer packets than others read.
    for kind in [0, 1, 3, 4, 5, 0x20, 0x82, 0xFF] {
        all.push(between(&[&[0, 0, 0, 1], &example(kind)[..]].concat()));
    }
    for n in [65_536, 262_144, 262_145, 300_000] {
        all.push(between(&[&[0, 0, 0, 1, 4], &vec![0x3E; n - 5][..]].concat()));
    }
    // Bytes past the packet's data.
    all.push(whole(Hand::new(form).other(&[&[0, 0, 0, 1], &example(2)[..], &[0x3E; 9]].concat()), &[(true, 77_000)]));
    // Less than the packet's data.
    all.push(whole(Hand::new(form).other(&[&[0, 0, 0, 1], &example(2)[..21]].concat()), &[]));
    let packet = [&[0, 0, 0, 1], &example(2)[..]].concat();
    for original in [0, 1, 16, 25, 27, 42, 1 << 16, u32::MAX] {
        let hand = Hand::new(form).row(1, 0, original, &packet).sent(0, 2, 0);
        all.push(whole(hand, &both));
    }
    all
}

/// Cuts: the offset of the record that passes the end.
fn cuts(form: Form) -> Vec<Fixed> {
    let first = Hand::new(form).sent(1, 1, 0);
    let hand = first.clone().sent(0, 2, 0);
    let (one, two) = (first.file.len(), hand.file.len());
    assert_eq!((one, two), (66, 108), "a header, and records of 42 bytes");
    let mut all: Vec<Fixed> = (HEAD + 1..one).map(|n| cut(&hand, n, HEAD, &[])).collect();
    // 4 and 8 bytes into the second record are among these.
    all.extend((one + 1..two).map(|n| cut(&hand, n, one, &[(true, 1000)])));
    all.push(whole(first.clone(), &[(true, 1000)]));
    all.push(whole(hand, &[(true, 1000), (false, 2000)]));
    // Captured lengths of which less is there.
    for captured in [1, 26, 0xFFFF, 1 << 24, 1 << 31, u32::MAX - 15, u32::MAX] {
        let mut hand = first.clone();
        for field in [0, 0, captured, captured] {
            hand.file.extend(form.bytes(field));
        }
        let n = hand.file.len();
        all.push(cut(&hand, n, one, &[(true, 1000)]));
    }
    all
}

/// All fixed files, in each form.
pub fn fixed() -> impl Iterator<Item = Fixed> {
    let parts = [directions, links, headers, times, records, cuts];
    FORMS.into_iter().flat_map(move |form| parts.into_iter().flat_map(move |part| part(form)))
}

/// The oracle says the same of each. Every FCS is right, so the switch makes no difference.
fn by_hand(calls: &mut ByContainer) -> Checked {
    for (file, strict, tolerant) in fixed() {
        let known = [strict, tolerant].map(|answer| [answer.clone(), answer]);
        let found = expected::by_both_rules(Container::Pcap, &file, NO_CHANNEL);
        assert!(found == known, "a fixed file has its answer: {file:02X?}");
        calls.held(&file, NO_CHANNEL, &known)?;
    }
    Ok(())
}

// ---- short files

/// A small pcap file with a bit of everything that a record may be.
fn small(form: Form) -> Trace {
    let mut trace = Trace::pcap(form);
    let pdu = l2cap(0x41, &trace::uih(18, &ack(1), None, false));
    trace.pdu(Tx, EPOCH + 1_000_000, 0x40, 1, &trace::request(3, 0x41));
    trace.fragment(Rx, EPOCH + 2_000_000, 0x40, 2, &pdu[..6]);
    trace.captured(2, EPOCH, &[0, 1]);
    trace.record(3, EPOCH + 3_000_000, &example(2));
    trace.fragment(Rx, EPOCH + 4_000_000, 0x40, 1, &pdu[6..]);
    trace.record(1, EPOCH, &[4, 0x0E]);
    trace.zeros();
    trace
}

/// Headers and what little may follow them, and every beginning of good files.
pub fn short(calls: &mut dyn Taker, rng: &mut Rng) -> Checked {
    for form in FORMS {
        let bare = Trace::pcap(form).file;
        let example = Hand::new(form).sent(1, 0, 0).file;
        for at in 0..HEAD {
            for byte in 0..=255 {
                for good in [&bare, &example] {
                    let mut file = good.clone();
                    file[at] = byte;
                    calls.file(&file, NO_CHANNEL)?;
                }
            }
        }
        for byte in 0..=255 {
            calls.file(&[&bare[..], &[byte]].concat(), NO_CHANNEL)?;
        }
        for n in 2..=3 {
            each_string(n, &[0x00, 0x01, 0x10, 0x80, 0xC9, 0xFF], &mut |tail| {
                calls.file(&[&bare[..], tail].concat(), NO_CHANNEL)
            })?;
        }
        // A record whose captured length is anything about what is there.
        for there in 0..=30usize {
            for captured in (0..=32u32).chain([255, 256, 65_536, 1 << 24, 1 << 31, u32::MAX, u32::MAX - 15]) {
                let fields = [1, 2, captured, 4].map(|number| form.bytes(number)).concat();
                calls.file(&[&bare[..], &fields, &vec![0; there]].concat(), NO_CHANNEL)?;
            }
        }
        let good = small(form).file;
        for n in 0..=good.len() {
            calls.file(&good[..n], NO_CHANNEL)?;
        }
    }
    // Every four bytes out of those of the magics and of others'.
    let link = Form { big: true, nano: false }.bytes(LINK);
    each_string(4, &[0xA1, 0xB2, 0xC3, 0xD4, 0x3C, 0x4D, 0xCD, 0x34], &mut |magic| {
        calls.file(&[magic, &[0; 16], &link].concat(), NO_CHANNEL)
    })?;
    for _ in 0..10 {
        let (trace, channel) = trace::structured_in(rng, Container::Pcap, 20);
        for n in 0..=trace.file.len().min(3000) {
            calls.file(&trace.file[..n], channel)?;
        }
    }
    Ok(())
}

/// Every change of one byte in small files.
pub fn one_byte(calls: &mut dyn Taker) -> Checked {
    for good in FORMS.map(|form| small(form).file) {
        for at in HEAD..good.len() {
            for byte in 0..=255 {
                let mut file = good.clone();
                file[at] = byte;
                calls.file(&file, NO_CHANNEL)?;
            }
        }
    }
    Ok(())
}

/// Every packet of up to six bytes over the bytes that matter, direction and type included, between the fragments of a PDU;
/// then those with a direction and up to six bytes behind it.
pub fn packets(calls: &mut dyn Taker) -> Checked {
    let pdu = l2cap(0x41, &trace::uih(18, &ack(1), None, false));
    let mut turn = 0;
    let mut between = |bytes: &[u8]| {
        turn += 1;
        let mut trace = Trace::pcap(FORMS[turn % 4]);
        trace.fragment(Rx, EPOCH, 0x40, 2, &pdu[..9]);
        trace.captured(bytes.len() as u32, EPOCH + 1_000_000, bytes);
        trace.fragment(Rx, EPOCH + 2_000_000, 0x40, 1, &pdu[9..]);
        calls.file(&trace.file, NO_CHANNEL)
    };
    for n in 0..=6 {
        each_string(n, &[0x00, 0x01, 0x02], &mut between)?;
    }
    for direction in [0u32, 1, 2, 0x0100_0000] {
        for n in 0..=6 {
            each_string(n, &[0x00, 0x01, 0x02, 0x40, 0x10, 0x20][..if n < 6 { 6 } else { 4 }], &mut |behind| {
                between(&[&direction.to_be_bytes()[..], behind].concat())
            })?;
        }
    }
    Ok(())
}

/// The traces of the bench of import, of so many KiB.
pub fn hard_traces(calls: &mut dyn Taker, sizes: &[usize]) -> Checked {
    let mut converted = Converted::new(calls);
    for trace in hard::traces() {
        for kib in trace.sizes(Some(sizes)) {
            trace.file(kib).map_or(Ok(()), |file| converted.file(&file, NO_CHANNEL))?;
        }
    }
    Ok(())
}

// ---- files full of the smallest records

/// Puts a record of the least size that has something, by its number.
type Least = fn(&mut Trace, u32);

/// Sent in one of 8,192 ways: half as many links, and two directions.
fn least(trace: &mut Trace, way: u32, flag: u16, data: &[u8]) {
    let packet = [&[2], &acl_packet((way / 2 % 4096) as u16, flag, data)[..]].concat();
    trace.row(packet.len() as u32, way % 2, 0, EPOCH + 1000 * u64::from(way), &packet);
}

/// As many rows of each table as a file can ask for, each with the size of its records.
const LEAST: [(&str, usize, Least); 11] = [
    ("most records", 16, |trace, i| trace.captured(0, EPOCH + u64::from(i), &[])),
    ("most records of zeros", 16, |trace, _| trace.zeros()),
    ("most packets, PDUs that stay open", 25, |trace, i| least(trace, i, 2, &[])),
    ("most PDUs", 29, |trace, i| least(trace, i, 2, &l2cap(0x41, &[]))),
    ("most SABMs", 31, |trace, i| least(trace, i, 2, &l2cap(0x41, &[18 << 2 | 3, 0x2F]))),
    ("most empty UIHs", 33, |trace, i| least(trace, i, 2, &l2cap(0x41, &trace::uih(18, &[], None, false)))),
    ("most empty UIHs with a wrong FCS", 33, |trace, i| {
        least(trace, i, 2, &l2cap(0x41, &trace::wrong(trace::uih(18, &[], None, false))))
    }),
    ("pieces and UIHs with a wrong FCS, in turn", 34, |trace, i| {
        let frame = trace::uih(18, &[ack(0)[(i / 2) as usize % 9]], None, false);
        least(trace, 1, 2, &l2cap(0x41, &if i % 2 == 0 { frame } else { trace::wrong(frame) }))
    }),
    ("most pieces", 34, |trace, i| {
        least(trace, 1, 2, &l2cap(0x41, &trace::uih(18, &[ack(0)[i as usize % 9]], None, false)))
    }),
    ("most buffers", 34, |trace, i| {
        let cid = 0x50 + (i / 8192) as u16;
        least(trace, i, 2, &l2cap(cid, &trace::uih(18, &[0x3E], None, false)));
    }),
    ("commands, one in each PDU", 37, |trace, i| {
        least(trace, i % 2, 2, &l2cap(1, &trace::request(3, 0x40 + (i % 60_000) as u16)))
    }),
];

/// A file of so many bytes, full of such records; what is left over is a record that is skipped, or the beginning of one.
/// With `frame` the last whole record is of the worked example, where there is room for it.
fn full(form: Form, length: usize, frame: bool, (_, size, record): (&str, usize, Least)) -> Vec<u8> {
    let mut trace = Trace::pcap(form);
    let packet = example(2);
    let last = ROW + 4 + packet.len();
    let room = if frame && length >= HEAD + last { length - last } else { length };
    for i in 0.. {
        if trace.file.len() + size > room {
            break;
        }
        record(&mut trace, i);
    }
    if room < length {
        trace.row(packet.len() as u32, 1, 0, EPOCH, &packet);
    }
    match length - trace.file.len() {
        rest if rest < ROW => trace.file.extend(vec![0; rest]),
        rest => trace.captured(0, EPOCH, &vec![0xFF; rest - ROW]),
    }
    trace.file
}

/// The files of at most so many bytes that have the most rows of one table, for the bench: whole ones.
pub fn fullest(length: usize) -> impl Iterator<Item = (&'static str, Vec<u8>)> {
    LEAST.into_iter().map(move |kind| {
        let mut file = full(FORMS[0], length, true, kind);
        file.truncate(pcap::read(&file, pcap::RIGHT).1);
        (kind.0, file)
    })
}

/// Files of every short length, and of the longest, that have the most rows of one table.
pub fn most(calls: &mut dyn Taker, longest: usize) -> Checked {
    for (turn, kind) in LEAST.into_iter().enumerate() {
        for length in HEAD..=longest {
            for frame in [false, true] {
                calls.file(&full(FORMS[(length + turn) % 4], length, frame, kind), NO_CHANNEL)?;
            }
        }
    }
    Ok(())
}

pub fn large(calls: &mut dyn Taker, rng: &mut Rng) -> Checked {
    for (turn, kind) in LEAST.into_iter().enumerate() {
        for (length, frame) in [(LONGEST_FILE - 1 - turn, true), (LONGEST_FILE, true), (LONGEST_FILE, false)] {
            calls.file(&full(FORMS[(length + turn) % 4], length, frame, kind), NO_CHANNEL)?;
        }
    }
    for length in [LONGEST_FILE - 1, LONGEST_FILE, LONGEST_FILE + 1] {
        let (mut trace, channel) = trace::structured_in(rng, Container::Pcap, 2000);
        let rest = length - ROW - trace.file.len();
        trace.captured(0, EPOCH, &vec![0xFF; rest]);
        calls.file(&trace.file, channel)?;
        calls.file(&vec![0; length], NO_CHANNEL)?;
    }
    // Of zeros alone behind the header, one byte too long.
    calls.file(&[&Trace::pcap(FORMS[0]).file[..], &vec![0; LONGEST_FILE + 1 - HEAD]].concat(), NO_CHANNEL)
}

// ---- random files

pub fn random(calls: &mut dyn Taker, container: Container, rng: &mut Rng, size: u64) -> Checked {
    for i in 0..size {
        let (trace, channel) = trace::structured_in(rng, container, if i % 100 == 0 { 600 } else { 60 });
        calls.file(&trace.file, channel)?;
    }
    Ok(())
}

pub fn damaged(calls: &mut dyn Taker, container: Container, rng: &mut Rng, size: u64) -> Checked {
    for _ in 0..size / 4 {
        let (trace, channel) = trace::structured_in(rng, container, 30);
        for _ in 0..4 {
            calls.file(&trace::damaged(rng, &trace), channel)?;
        }
    }
    Ok(())
}

/// A good header, or nearly, and then bytes that are mostly small.
pub fn scattered(calls: &mut dyn Taker, rng: &mut Rng, size: u64) -> Checked {
    for i in 0..size {
        let mut file = Trace::any(rng, Container::Pcap).file;
        if i % 8 == 0 {
            let at = rng.below(file.len());
            file[at] = rng.byte();
        }
        let n = rng.below(200);
        let percent = rng.pick(&[70, 90, 98]);
        file.extend(rng.mixed(n, &[0, 0, 0, 0, 0, 1, 2], percent));
        calls.file(&file, NO_CHANNEL)?;
        if i % 16 == 0 {
            let n = rng.below(60);
            calls.file(&rng.bytes(n), NO_CHANNEL)?;
        }
    }
    Ok(())
}

/// Every cut of honest recordings in both positions of the switch, held to what is left: by the strict rule too, where that does not refuse.
fn honest(calls: &mut ByContainer, rng: &mut Rng, size: u64) -> Checked {
    tolerant::each_cut(rng, calls.container, size, &mut |recording, n| {
        let left = tolerant::due(calls.container, recording, n);
        let tail = recording.ends.iter().copied().take_while(|end| *end <= n).last().unwrap_or(recording.head);
        let refused = Answer::refused(5, &[tail as u64]);
        let strict = if tail < n { [refused.clone(), refused] } else { left.clone() };
        calls.held(&recording.file[..n], recording.channel(), &[strict, left])
    })
}

// ---- signs of losses

/// The pcap file and its twin have the same signs, but for what their records show by themselves: drops and zeros.
fn twins_of(subject: &dyn Subject, file: &[u8]) -> Checked {
    if pcap::refusal(file, usize::MAX, true, pcap::RIGHT).is_some() {
        return Ok(());
    }
    let twin = pcap::twin(file, 1002);
    if twin.len() > LONGEST_FILE {
        return Ok(());
    }
    let (mut ours, mut others) = ([0; VALUES], [0; VALUES]);
    let number = subject.gaps_with(file, &mut vec![0; 8 * file.len()], &[0, 1, 1], &mut ours);
    let other = subject.gaps(&twin, &mut vec![0; 8 * twin.len()], 0, &mut others);
    let (starts, here) =
        (model::records_with(Container::Btsnoop, &twin, pcap::RIGHT).1, pcap::read(file, pcap::RIGHT).0);
    for sign in [0, 2, 4, 5, 6] {
        let first = &mut others[2 * sign + 1];
        *first = starts.iter().position(|start| start == first).map_or(0, |i| here[i].at as u64);
    }
    let seen = |values: &[u64; VALUES]| [0, 2, 4, 5, 6].map(|sign| [values[2 * sign], values[2 * sign + 1]]);
    if (number, seen(&ours)) == (other, seen(&others)) {
        return Ok(());
    }
    Err(Box::new(Difference {
        call: "gaps_with of a pcap file, and gaps of its twin".into(),
        inputs: vec![("file", file.to_vec())],
        lent: "enough".into(),
        expected: format!("number {other}, short, skipped, stray, given up, open: {:?}", seen(&others)),
        got: format!("number {number}, {:?}", seen(&ours)),
    }))
}

fn twins(subject: &dyn Subject, rng: &mut Rng, size: u64) -> Checked {
    for _ in 0..size {
        let trace = lacking::made(rng, Container::Pcap, 40);
        let (other, _) = trace::structured_in(rng, Container::Pcap, 30);
        for file in [&trace.file, &trace::damaged(rng, &trace), &other.file, &trace::damaged(rng, &other)] {
            import::smallest(Container::Pcap, file, &mut |file| twins_of(subject, file))?;
        }
    }
    Ok(())
}

/// Traces without a record, of each form.
fn forms() -> Vec<Trace> {
    FORMS.map(Trace::pcap).into()
}

/// The signs alone: made traces, every mixture of signs, and every one of a kind.
fn losses(gaps: &mut Gaps, rng: &mut Rng, size: u64) -> Checked {
    signs::made(gaps, rng, size)?;
    signs::scattered(gaps, rng, size)?;
    signs::mixtures(gaps, rng, &forms())?;
    signs::lengths(gaps, &forms())?;
    signs::zeros(gaps, &forms())?;
    signs::changes(gaps, rng, &forms())?;
    // Packets and fragments are the same in all forms.
    signs::packets(gaps, &forms()[1..2])?;
    for (form, n) in forms().iter().zip([3, 3, 3, 4]) {
        signs::fragments_of(gaps, n, form, None)?;
    }
    signs::long(gaps, &forms()[2..])
}

// ---- the group and its parts

pub fn run(subject: &dyn Subject, options: &Options) -> Checked {
    let size = options.size.unwrap_or(50_000);
    let mut rng = Rng::new(options.seed);
    let mut log = options.log("pcap");
    let mut calls = ByContainer::new(subject, Container::Pcap);
    by_hand(&mut calls)?;
    log.counts("fixed files", &calls.answers());
    random(&mut calls, Container::Pcap, &mut rng, size / 5)?;
    log.counts("random traces", &calls.answers());
    damaged(&mut calls, Container::Pcap, &mut rng, size / 5)?;
    scattered(&mut calls, &mut rng, size / 5)?;
    log.counts("damaged traces and random bytes", &calls.answers());
    honest(&mut calls, &mut rng, size / 500)?;
    log.counts("every cut of honest recordings", &calls.answers());
    short(&mut calls, &mut rng)?;
    log.counts("short files, headers, and every beginning of good ones", &calls.answers());
    one_byte(&mut calls)?;
    log.counts("every one-byte change of small files", &calls.answers());
    packets(&mut calls)?;
    log.counts("every short packet", &calls.answers());
    let mut converted = Converted::new(&mut calls);
    import::fragments(&mut converted)?;
    import::excess(&mut converted)?;
    import::limits(&mut |file| converted.file(file, NO_CHANNEL), &mut rng)?;
    log.counts("every four fragments, three of two PDUs, and long buffers", &calls.answers());
    hard_traces(&mut calls, if options.quiet { &[16] } else { &[16, 128, 1024] })?;
    log.counts("the traces of the bench of import", &calls.answers());
    most(&mut calls, if options.quiet { 300 } else { 1000 })?;
    large(&mut calls, &mut rng)?;
    log.counts("files full of the smallest records, up to 1,048,576 bytes", &calls.answers());
    let mut gaps = Gaps::by_container(subject, Container::Pcap);
    losses(&mut gaps, &mut rng, size / 2)?;
    let mut answers = calls.answers();
    add(&mut answers, gaps.answers());
    log.counts("signs", &answers);
    let mut btsnoop = ByContainer::new(subject, Container::Btsnoop);
    others(&mut btsnoop, &mut rng, size / 10)?;
    add(&mut answers, &btsnoop.answers());
    log.counts("btsnoop files by the calls that take a container", &answers);
    log.total(&answers);
    if !options.quiet {
        calls.gaps.print("pcap");
        gaps.print("pcap, signs alone");
    }
    signs::law(subject, Container::Pcap, &mut rng, size / 10)?;
    twins(subject, &mut rng, size / 10)?;
    if !options.quiet {
        println!("pcap: the law of starts, and the same signs as in the twin: {} files each", size / 10 * 4);
        editcap::run(subject, &mut rng)?;
    }
    Ok(())
}

fn add(answers: &mut [u64; NUMBERS], more: &[u64; NUMBERS]) {
    answers.iter_mut().zip(more).for_each(|(all, more)| *all += more);
}

/// btsnoop files, and pcap files that are asked for as btsnoop.
fn others(calls: &mut ByContainer, rng: &mut Rng, size: u64) -> Checked {
    for form in FORMS {
        let file = Hand::new(form).sent(1, 0, 0).file;
        let refused = [Answer::refused(3, &[]), Answer::refused(3, &[])];
        calls.held(&file, NO_CHANNEL, &[refused.clone(), refused])?;
        for n in 0..=HEAD {
            calls.file(&file[..n], NO_CHANNEL)?;
        }
    }
    let example = import::example().file;
    for n in 0..=example.len() {
        calls.file(&example[..n], NO_CHANNEL)?;
    }
    for datalink in [1001, 1002, 2001, 0, 1003, u32::MAX] {
        calls.file(&Trace::new(datalink).file, NO_CHANNEL)?;
    }
    for _ in 0..size {
        let trace = lacking::made(rng, Container::Btsnoop, 20);
        calls.file(&lacking::ended(rng, &trace), NO_CHANNEL)?;
    }
    random(calls, Container::Btsnoop, rng, size)?;
    damaged(calls, Container::Btsnoop, rng, size)
}

/// One part alone; in a short run more of what is random.
pub fn run_by_hand(subject: &dyn Subject, _: &Options) -> Checked {
    by_hand(&mut ByContainer::new(subject, Container::Pcap))
}

pub fn run_random(subject: &dyn Subject, options: &Options) -> Checked {
    let mut calls = ByContainer::new(subject, Container::Pcap);
    random(&mut calls, Container::Pcap, &mut Rng::new(options.seed), options.size.unwrap_or(50_000).max(1_000))
}

pub fn run_damaged(subject: &dyn Subject, options: &Options) -> Checked {
    let (mut calls, mut rng) = (ByContainer::new(subject, Container::Pcap), Rng::new(options.seed));
    let size = options.size.unwrap_or(50_000).max(1_000);
    damaged(&mut calls, Container::Pcap, &mut rng, size)?;
    scattered(&mut calls, &mut rng, size)
}

pub fn run_honest(subject: &dyn Subject, options: &Options) -> Checked {
    let mut calls = ByContainer::new(subject, Container::Pcap);
    honest(&mut calls, &mut Rng::new(options.seed), options.size.unwrap_or(50_000) / 500 + 30)
}

pub fn run_short(subject: &dyn Subject, options: &Options) -> Checked {
    short(&mut ByContainer::new(subject, Container::Pcap), &mut Rng::new(options.seed))
}

pub fn run_most(subject: &dyn Subject, _: &Options) -> Checked {
    most(&mut ByContainer::new(subject, Container::Pcap), 300)
}

pub fn run_long(subject: &dyn Subject, options: &Options) -> Checked {
    large(&mut ByContainer::new(subject, Container::Pcap), &mut Rng::new(options.seed))
}

pub fn run_losses(subject: &dyn Subject, options: &Options) -> Checked {
    let mut gaps = Gaps::by_container(subject, Container::Pcap);
    losses(&mut gaps, &mut Rng::new(options.seed), options.size.unwrap_or(50_000))
}

pub fn run_twins(subject: &dyn Subject, options: &Options) -> Checked {
    twins(subject, &mut Rng::new(options.seed), options.size.unwrap_or(50_000) / 10)
}

pub fn run_law(subject: &dyn Subject, options: &Options) -> Checked {
    signs::law(subject, Container::Pcap, &mut Rng::new(options.seed), options.size.unwrap_or(50_000) / 10)
}

pub fn run_others(subject: &dyn Subject, options: &Options) -> Checked {
    let mut calls = ByContainer::new(subject, Container::Btsnoop);
    others(&mut calls, &mut Rng::new(options.seed), options.size.unwrap_or(50_000) / 10)
}
