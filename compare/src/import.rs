//! Import under the strict rule.

use std::cell::RefCell;

use crate::adapters;
use crate::answer::{Answer, Case, Checked, Container, Difference, Lender, Stretch, Subject, NO_CHANNEL};
use crate::codec::each_string;
use crate::expected::{self, LONGEST_FILE};
use crate::hard;
use crate::model::{self, packed};
use crate::pcap;
use crate::rng::Rng;
use crate::trace::{self, Trace};
use crate::Options;
use oracle::capture::Direction::{self, Rx, Tx};
use oracle::capture::BTSNOOP_EPOCH_DELTA_US as EPOCH;

/// Which call imports.
#[derive(Clone, Copy, PartialEq)]
pub enum Rule {
    /// `lumbryth_import_strict`.
    Strict,
    /// `lumbryth_import` with the tolerant rule.
    Tolerant,
    /// `lumbryth_import` with the strict rule.
    NotTolerant,
}

/// How a call is told what to import.
#[derive(Clone, Copy)]
enum By {
    /// Channel and tail rule by number.
    Numbers,
    /// By a list of options.
    Options,
    /// By number, with so many places for stretches lent; and by a list of options.
    Places(usize),
    OptionsPlaces(usize),
}

impl By {
    fn places(self) -> usize {
        match self {
            By::Places(places) | By::OptionsPlaces(places) => places,
            _ => 0,
        }
    }
}

/// Takes the files that generators make, each with a channel to import it by.
pub trait Taker {
    fn file(&mut self, file: &[u8], channel: u32) -> Checked;
}

pub struct Import<'a> {
    subject: &'a dyn Subject,
    rule: Rule,
    container: Container,
    /// Whether every call is by a list of options, which may have a container in it.
    takes_container: bool,
    /// Whether the FCS is checked. Only a list of options can ask for that.
    checks: bool,
    pub lender: Lender,
    /// How many files there were with the switch off, and on.
    files: [usize; 2],
    work: RefCell<Vec<u8>>,
    stretches: RefCell<Vec<Stretch>>,
}

/// Bytes after the work lent that nobody may touch.
const GUARD: usize = 16;
const GUARDED: u8 = 0xC7;

/// A place in the list of stretches that was not filled.
const EMPTY: Stretch = {
    let word = 0xC7C7_C7C7;
    Stretch { way: word, cid: word, dlci: word, sessions: word, links: word, held: word }
};

impl<'a> Import<'a> {
    pub fn new(subject: &'a dyn Subject, rule: Rule) -> Import<'a> {
        Import {
            subject,
            rule,
            container: Container::Btsnoop,
            takes_container: false,
            checks: false,
            lender: Lender::default(),
            files: [0; 2],
            work: RefCell::default(),
            stretches: RefCell::default(),
        }
    }

    /// Files of a container, by the calls that take one.
    pub fn by_container(subject: &'a dyn Subject, rule: Rule, container: Container) -> Import<'a> {
        Import { container, takes_container: true, ..Import::new(subject, rule) }
    }

    fn case(&self, file: &[u8], channel: u32, work: usize, by: By) -> Case {
        let inputs = vec![("file", file.to_vec())];
        let rule = match self.rule {
            Rule::Strict => "import_strict",
            Rule::Tolerant => "import, tolerant",
            Rule::NotTolerant => "import, strict",
        };
        let asked = if channel == NO_CHANNEL { "no channel".into() } else { format!("channel {channel}") };
        let call = match by {
            By::Numbers => format!("{rule}, {asked}, {work} bytes of work"),
            By::Options => format!("import_with, options {:?}, {work} bytes of work", self.options(channel)),
            By::Places(n) => format!("{rule}, {asked}, {work} bytes of work, {n} places for stretches"),
            By::OptionsPlaces(n) => format!(
                "import_stretches_with, options {:?}, {work} bytes of work, {n} places for stretches",
                self.options(channel)
            ),
        };
        Case { call, inputs }
    }

    fn call(&self, file: &[u8], lent: usize, by: By, out: &mut [u8], channel: u32, values: &mut [u64]) -> u32 {
        let work = &mut self.work.borrow_mut()[..lent];
        let tolerant = u32::from(self.rule == Rule::Tolerant);
        match by {
            By::Places(places) => {
                let stretches = &mut self.stretches.borrow_mut()[..places];
                self.subject.import_stretches(file, work, stretches, out, channel, tolerant, values)
            }
            By::OptionsPlaces(places) => {
                let stretches = &mut self.stretches.borrow_mut()[..places];
                self.subject.import_stretches_with(file, work, stretches, out, &self.options(channel), values)
            }
            By::Options => self.subject.import_with(file, work, out, &self.options(channel), values),
            By::Numbers if self.rule == Rule::Strict => self.subject.import_strict(file, work, out, channel, values),
            By::Numbers => self.subject.import(file, work, out, channel, tolerant, values),
        }
    }

    fn once(&mut self, file: &[u8], channel: u32) -> Checked {
        if !self.has_switch() {
            return self.held(file, channel, &expected::import_off(self.container, file, channel, self.tolerant()));
        }
        self.in_both(file, channel, &expected::import(self.container, file, channel, self.tolerant()))
    }

    /// The file in both positions of the switch, off first; a call by number has no switch.
    pub fn in_both(&mut self, file: &[u8], channel: u32, [off, on]: &[Answer; 2]) -> Checked {
        self.held(file, channel, off)?;
        if self.has_switch() {
            self.checking(true).held(file, channel, on)?;
            self.checking(false);
        }
        Ok(())
    }

    /// The file with enough work and outputs about what is needed; at times also
    /// with one byte of work less.
    pub fn held(&mut self, file: &[u8], channel: u32, expected: &Answer) -> Checked {
        self.files[usize::from(self.checks)] += 1;
        let mut lender = std::mem::take(&mut self.lender);
        let checked = self.held_by(&mut lender, file, channel, expected);
        self.lender = lender;
        if checked.is_err() {
            self.checks = false;
        }
        checked
    }

    /// The calls from now on with the FCS checked, or not.
    pub fn checking(&mut self, checks: bool) -> &mut Import<'a> {
        self.checks = checks;
        self
    }

    /// Whether there is a call that checks the FCS: one by a list of options.
    fn has_switch(&self) -> bool {
        self.takes_container || self.rule != Rule::Strict
    }

    /// How many files there were with the switch as it stands: what calls differ by.
    fn turn(&self) -> usize {
        self.files[usize::from(self.checks)]
    }

    pub fn container(&self) -> Container {
        self.container
    }

    /// Whether the rule is tolerant.
    pub fn tolerant(&self) -> bool {
        self.rule == Rule::Tolerant
    }

    /// The ways in which the call is told what to import.
    fn ways(&self) -> &'static [By] {
        if self.takes_container || self.checks {
            &[By::Options]
        } else if self.rule == Rule::Strict {
            &[By::Numbers]
        } else {
            &[By::Numbers, By::Options]
        }
    }

    /// The file with so much work and output, where they are given; else with enough.
    pub fn lent(
        &mut self,
        file: &[u8],
        channel: u32,
        expected: &Answer,
        work: Option<usize>,
        out: Option<usize>,
    ) -> Checked {
        self.files[usize::from(self.checks)] += 1;
        let mut lender = std::mem::take(&mut self.lender);
        let work = work.unwrap_or(8 * file.len());
        let out = out.unwrap_or(expected.written.len());
        for &by in self.ways() {
            self.lend(work, None);
            let room = expected.values.len();
            lender.call(
                expected,
                out,
                room,
                &mut |out, values| self.call(file, work, by, out, channel, values),
                &|| self.case(file, channel, work, by),
            )?;
            self.guards(work, file, channel, by)?;
        }
        self.lender = lender;
        Ok(())
    }

    fn held_by(&self, lender: &mut Lender, file: &[u8], channel: u32, expected: &Answer) -> Checked {
        let enough = 8 * file.len() + [0, 0, 1, 64][self.turn() % 4];
        let fill = [None, None, Some(0), Some(0xFF), Some(0x3E)][self.turn() % 5];
        for &by in self.ways() {
            self.lend(enough, fill);
            lender.about(expected, &mut |out, values| self.call(file, enough, by, out, channel, values), &|| {
                self.case(file, channel, enough, by)
            })?;
            self.guards(enough, file, channel, by)?;
            if expected.number == 1 {
                // However much work there is.
                for lent in [enough, 8 * file.len() - 1, self.turn() % 100] {
                    self.unworked(lender, file, channel, expected, lent, by)?;
                }
            } else if self.turn().is_multiple_of(7) && !file.is_empty() {
                self.unworked(lender, file, channel, &Answer::refused(2, &[]), 8 * file.len() - 1, by)?;
                self.unworked(lender, file, channel, &Answer::refused(2, &[]), self.turn() % (8 * file.len()), by)?;
            }
        }
        let linked = match self.checks {
            true => self.subject.takes_container(),
            false => self.subject.has_stretches(),
        };
        if self.takes_container || linked {
            self.with_stretches(lender, file, channel, expected, enough, fill)?;
        }
        Ok(())
    }

    /// The options of a call: all of them, more than there are, or those that are not the default.
    fn options(&self, channel: u32) -> Vec<u64> {
        let turn = self.turn();
        let any = [u64::from(NO_CHANNEL), u64::MAX, 1 << 32][turn % 3];
        let channel = if channel == NO_CHANNEL { any } else { u64::from(channel) };
        let tolerant = if self.tolerant() { [1, u64::MAX, 2][turn % 3] } else { 0 };
        let pcap = match self.container {
            Container::Btsnoop => 0,
            Container::Pcap => [1, 1, 2, u64::MAX, 1 << 32, 1, 1 << 63, 0x100, 1 << 16][turn % 9],
        };
        let more = &[0, 1, u64::MAX][..turn % 4];
        if self.checks {
            let on = [1, 2, 1, u64::MAX, 1 << 32, 1, 1 << 63, 0x100, 1, 1 << 16, 6][turn % 11];
            return [&[channel, tolerant, pcap, on], more].concat();
        }
        if self.container == Container::Pcap {
            return [&[channel, tolerant, pcap], more].concat();
        }
        match turn % 5 {
            0 if tolerant == 0 && channel > 255 => vec![],
            0 | 1 if tolerant == 0 => vec![channel],
            1 => vec![channel, tolerant, 0],
            2 => vec![channel, tolerant, 0, 0, 2, 3],
            3 => vec![channel, tolerant, 0, 0],
            _ => vec![channel, tolerant],
        }
    }

    /// The same with a list of stretches lent, of as many places as are wanted; at times
    /// with one fewer, or with less work.
    fn with_stretches(
        &self,
        lender: &mut Lender,
        file: &[u8],
        channel: u32,
        expected: &Answer,
        enough: usize,
        fill: Option<u8>,
    ) -> Checked {
        let places = file.len() / 24;
        let needed = expected.written.len();
        let lent = if self.turn().is_multiple_of(3) { needed.saturating_sub(1) } else { needed + self.turn() % 2 };
        let room = lender.room(expected);
        let with = if self.takes_container || self.checks { By::OptionsPlaces } else { By::Places };
        let by = with(places);
        self.lend(enough, fill);
        self.lend_stretches(places);
        lender.call(
            expected,
            lent,
            room,
            &mut |out, values| self.call(file, enough, by, out, channel, values),
            &|| self.case(file, channel, enough, by),
        )?;
        self.guards(enough, file, channel, by)?;
        match expected.within(lent).number {
            0 => self.listed(file, channel, expected, enough, by)?,
            _ => self.unfilled(file, channel, enough, by, 0)?,
        }
        if expected.number == 1 {
            self.unworked(lender, file, channel, expected, enough, by)?;
            return self.unworked(lender, file, channel, expected, enough, with(0));
        }
        if self.turn() % 7 == 1 && places > 0 {
            let short = Answer::refused(2, &[]);
            self.unworked(lender, file, channel, &short, enough, with(places - 1))?;
            self.unworked(lender, file, channel, &short, enough, with(self.turn() % places))?;
            self.unworked(lender, file, channel, &short, 8 * file.len() - 1, by)?;
        }
        Ok(())
    }

    /// Empty places to lend, and one more that nobody may touch.
    fn lend_stretches(&self, places: usize) {
        let mut stretches = self.stretches.borrow_mut();
        stretches.clear();
        stretches.resize(places + 1, EMPTY);
    }

    /// The first `unfinished` places hold the open stretches, in the order of their first
    /// pieces, and no other place is touched. Of a long file with few of them only the DLCI
    /// and the bounds of what is held are seen, and that it is what is left in all.
    fn listed(&self, file: &[u8], channel: u32, expected: &Answer, lent: usize, by: By) -> Checked {
        let unfinished = expected.values[2] as usize;
        self.unfilled(file, channel, lent, by, unfinished)?;
        if unfinished == 0 {
            return Ok(());
        }
        let found = self.stretches.borrow()[..unfinished].to_vec();
        let wrong = if file.len() < 20_000 || unfinished > 4096 {
            let open = model::open(self.container, file, expected.values[0], self.checks, model::RIGHT);
            (found != open).then(|| format!("{open:?}"))
        } else {
            let fits = |s: &Stretch| u64::from(s.dlci) == expected.values[0] && (1..=65_536).contains(&s.held);
            (!found.iter().all(fits)).then(|| format!("bytes held on DLCI {}", expected.values[0]))
        };
        let held: u64 = found.iter().map(|stretch| u64::from(stretch.held)).sum();
        let left = expected.bytes().map_or(0, |bytes| bytes[3]);
        let wrong = wrong.or((held != left).then(|| format!("{left} bytes held in all")));
        wrong.map_or(Ok(()), |open| Err(self.differs(file, channel, lent, by, open, format!("{found:?}"))))
    }

    /// From place `from` on, all are empty, the one after those lent too.
    fn unfilled(&self, file: &[u8], channel: u32, lent: usize, by: By, from: usize) -> Checked {
        match self.stretches.borrow().iter().skip(from).position(|s| *s != EMPTY) {
            None => Ok(()),
            Some(at) => {
                let expected = format!("place {} of the stretches is left as it was", from + at);
                Err(self.differs(file, channel, lent, by, expected, "it was changed".into()))
            }
        }
    }

    /// A call that has to leave `lent` bytes of work, and the stretches, as they were.
    fn unworked(
        &self,
        lender: &mut Lender,
        file: &[u8],
        channel: u32,
        expected: &Answer,
        lent: usize,
        by: By,
    ) -> Checked {
        self.lend(lent, Some(self.turn() as u8));
        self.lend_stretches(by.places());
        let room = lender.room(expected);
        lender.call(
            expected,
            self.turn() % 40,
            room,
            &mut |out, values| self.call(file, lent, by, out, channel, values),
            &|| self.case(file, channel, lent, by),
        )?;
        self.unfilled(file, channel, lent, by, 0)?;
        let first = self.work.borrow().first().copied();
        match self.work.borrow()[..lent].iter().position(|b| Some(*b) != first) {
            None => self.guards(lent, file, channel, by),
            Some(at) => Err(self.touched(file, channel, lent, by, at)),
        }
    }

    /// Work to lend: as the last call left it, or filled.
    fn lend(&self, lent: usize, fill: Option<u8>) {
        let mut work = self.work.borrow_mut();
        let length = work.len().max(lent + GUARD);
        work.resize(length, 0xA5);
        if let Some(byte) = fill {
            work[..lent].fill(byte);
        }
        work[lent..lent + GUARD].fill(GUARDED);
    }

    fn guards(&self, lent: usize, file: &[u8], channel: u32, by: By) -> Checked {
        match self.work.borrow()[lent..lent + GUARD].iter().position(|b| *b != GUARDED) {
            None => Ok(()),
            Some(at) => Err(self.touched(file, channel, lent, by, lent + at)),
        }
    }

    fn touched(&self, file: &[u8], channel: u32, lent: usize, by: By, at: usize) -> Box<Difference> {
        let expected = format!("byte {at} of work is left as it was");
        self.differs(file, channel, lent, by, expected, "it was changed".into())
    }

    fn differs(
        &self,
        file: &[u8],
        channel: u32,
        lent: usize,
        by: By,
        expected: String,
        got: String,
    ) -> Box<Difference> {
        let case = self.case(file, channel, lent, by);
        let lent = format!("{lent} bytes of work");
        Box::new(Difference { call: case.call, inputs: case.inputs, lent, expected, got })
    }
}

impl Taker for Import<'_> {
    /// The file held to the oracle.
    fn file(&mut self, file: &[u8], channel: u32) -> Checked {
        smallest(self.container, file, &mut |file| self.once(file, channel))
    }
}

/// Checks a file. A difference is reported for the smallest file that leaving out records finds: many at a time, then fewer.
pub fn smallest(container: Container, file: &[u8], check: &mut dyn FnMut(&[u8]) -> Checked) -> Checked {
    check(file).map_err(|found| {
        let mut found = found;
        let mut file = file.to_vec();
        let mut bounds = bounds(container, &file);
        let mut many = bounds.len() / 2;
        while many > 0 && file.len() < 100_000 {
            let mut to = bounds.len() - 1;
            while to > 0 {
                let from = to.saturating_sub(many);
                let mut fewer = file.clone();
                fewer.drain(bounds[from]..bounds[to]);
                if let Err(difference) = check(&fewer) {
                    (found, file) = (difference, fewer);
                    bounds = self::bounds(container, &file);
                }
                to = from.min(bounds.len() - 1);
            }
            many /= 2;
        }
        found
    })
}

/// Where the records of a file begin and end.
fn bounds(container: Container, file: &[u8]) -> Vec<usize> {
    if container == Container::Pcap {
        let (records, tail) = pcap::read(file, pcap::RIGHT);
        return records.iter().map(|record| record.at).chain([tail]).collect();
    }
    let mut bounds = vec![16];
    if file.len() < 16 {
        return bounds;
    }
    for row in crate::model::records(&file[16..]).0 {
        bounds.push(bounds[bounds.len() - 1] + row.len());
    }
    bounds
}

/// The frame of 01's worked example: an ACK of nine bytes.
pub fn ack(seq: u8) -> Vec<u8> {
    packed(0x01, seq, &[])
}

/// 01's worked example.
pub fn example() -> Trace {
    let mut trace = Trace::new(1002);
    trace.record(
        1,
        EPOCH,
        &[
            0x02, 0x40, 0x20, 0x11, 0x00, 0x0D, 0x00, 0x41, 0x00, 0x49, 0xEF, 0x13, 0x3E, 0x01, 0x00, 0x00, 0x00, 0x00,
            0x00, 0x01, 0x3C, 0x00,
        ],
    );
    trace
}

/// A small trace with a bit of everything: both channels signalled, SABMs, joined
/// fragments, a credit byte, a wide length, a damaged frame and half a frame.
pub fn small(datalink: u32) -> Trace {
    let mut trace = Trace::new(datalink);
    let frame = packed(0x0C, 0x00, &[0x22, 0x3D]);
    trace.pdu(Tx, EPOCH + 1000, 0x40, 1, &trace::request(3, 0x41));
    trace.pdu(Rx, EPOCH + 2000, 0x40, 1, &trace::response(0x30, 0x41, 0));
    trace.pdu(Tx, EPOCH + 3000, 0x40, 0x30, &trace::sabm(18));
    let pdu = trace::l2cap(0x41, &trace::uih(18, &frame[..7], None, false));
    trace.fragment(Rx, EPOCH + 4000, 0x40, 2, &pdu[..3]);
    trace.pdu(Tx, EPOCH + 5000, 0x40, 0x30, &trace::uih(18, &ack(0), Some(9), true));
    trace.fragment(Rx, EPOCH + 6000, 0x40, 1, &pdu[3..]);
    trace.pdu(
        Rx,
        EPOCH + 7000,
        0x40,
        0x41,
        &trace::uih(18, &[&frame[7..], &[0x3E, 0x3C, 0x3E, 0x00]].concat(), None, false),
    );
    trace
}

/// Headers and what little may follow them, and every beginning of good traces.
pub fn short(taker: &mut dyn Taker, rng: &mut Rng) -> Checked {
    let bare = Trace::new(1002).file;
    for n in 0..=bare.len() {
        taker.file(&bare[..n], NO_CHANNEL)?;
    }
    for at in 0..bare.len() {
        for byte in 0..=255 {
            for good in [&bare, &example().file] {
                let mut file = good.clone();
                file[at] = byte;
                taker.file(&file, NO_CHANNEL)?;
            }
        }
    }
    for datalink in [0, 1000, 1003, 2000, 2002, 1001 << 8, u32::MAX, 1001u32.swap_bytes(), 1 << 31 | 1001] {
        taker.file(&Trace::new(datalink).file, NO_CHANNEL)?;
    }
    for n in 1..=2 {
        let all: Vec<u8> = (0..=255).collect();
        each_string(n, &all, &mut |tail| taker.file(&[&bare[..], tail].concat(), NO_CHANNEL))?;
    }
    // A record whose included length is anything about what is there.
    for there in 0..=40usize {
        for included in (0..=42u32).chain([255, 256, 65_536, 1 << 24, u32::MAX, u32::MAX - 23]) {
            let mut file = bare.clone();
            file.extend(0u32.to_be_bytes());
            file.extend(included.to_be_bytes());
            file.extend([0; 16]);
            file.extend(vec![0; there]);
            taker.file(&file, NO_CHANNEL)?;
        }
    }
    for datalink in trace::DATALINKS {
        let good = small(datalink).file;
        for n in 0..=good.len() {
            taker.file(&good[..n], NO_CHANNEL)?;
        }
    }
    for _ in 0..20 {
        let (trace, channel) = trace::structured(rng, 20);
        for n in 0..=trace.file.len().min(4000) {
            taker.file(&trace.file[..n], channel)?;
        }
    }
    // A file of the other container.
    for form in pcap::FORMS {
        taker.file(&pcap::of_btsnoop(&example().file, form), NO_CHANNEL)?;
    }
    Ok(())
}

/// Every change of one byte in small traces.
pub fn one_byte(taker: &mut dyn Taker) -> Checked {
    for good in trace::DATALINKS.map(small).into_iter().chain([example()]) {
        for at in 0..good.file.len() {
            for byte in 0..=255 {
                let mut file = good.file.clone();
                file[at] = byte;
                taker.file(&file, NO_CHANNEL)?;
            }
        }
    }
    Ok(())
}

/// Every sequence of `n` steps out of `alphabet`, each appended to the trace in turn
/// by its function, followed by `end`.
pub fn sequences<T>(
    n: usize,
    alphabet: &[T],
    start: &Trace,
    step: &dyn Fn(&mut Trace, &T),
    end: &mut dyn FnMut(&mut Trace) -> Checked,
) -> Checked {
    let letters: Vec<u8> = (0..alphabet.len() as u8).collect();
    each_string(n, &letters, &mut |word| {
        let mut trace = start.clone();
        for letter in word {
            step(&mut trace, &alphabet[usize::from(*letter)]);
        }
        end(&mut trace)
    })
}

/// Every sequence of four fragments out of fifteen: parts of one PDU as starts and
/// as continuations.
pub fn fragments(taker: &mut dyn Taker) -> Checked {
    let pdu = trace::l2cap(0x41, &trace::uih(18, &ack(0), None, false));
    let cuts = [0, 1, 3, 5, pdu.len()];
    let mut alphabet: Vec<(u16, &[u8])> = Vec::new();
    for &n in &cuts {
        alphabet.push((2, &pdu[..n]));
    }
    for (i, &from) in cuts.iter().enumerate() {
        for &to in &cuts[i + 1..] {
            alphabet.push((1, &pdu[from..to]));
        }
    }
    let step = |trace: &mut Trace, (flag, data): &(u16, &[u8])| {
        let stamp = EPOCH + trace.file.len() as u64 * 1000;
        trace.fragment(Rx, stamp, 0x40, *flag, data);
    };
    sequences(4, &alphabet, &Trace::new(2001), &step, &mut |trace| taker.file(&trace.file, NO_CHANNEL))
}

/// Every three fragments out of twenty: parts of two PDUs in a row, as starts and as
/// continuations, so that one may have bytes of the other in excess.
pub fn excess(taker: &mut dyn Taker) -> Checked {
    let one = trace::l2cap(0x41, &trace::uih(18, &ack(0), None, false));
    let both = [&one[..], &trace::l2cap(0x41, &trace::uih(18, &ack(1), None, false))].concat();
    let cuts = [0, 5, one.len(), one.len() + 2, one.len() + 9, both.len()];
    let mut alphabet: Vec<(u16, &[u8])> = Vec::new();
    for (i, &from) in cuts.iter().enumerate() {
        for &to in &cuts[i + 1..] {
            alphabet.push((1, &both[from..to]));
            if from == 0 {
                alphabet.push((2, &both[..to]));
            }
        }
    }
    let step = |trace: &mut Trace, (flag, data): &(u16, &[u8])| {
        let stamp = EPOCH + trace.file.len() as u64 * 1000;
        trace.fragment(Rx, stamp, 0x40, *flag, data);
    };
    sequences(3, &alphabet, &Trace::new(1001), &step, &mut |trace| taker.file(&trace.file, NO_CHANNEL))
}

/// One step on a link: direction, CID, payload.
type Step = (Direction, u16, Vec<u8>);

fn send(trace: &mut Trace, (direction, cid, payload): &Step) {
    let stamp = EPOCH + trace.file.len() as u64 * 1000;
    trace.pdu(*direction, stamp, 0x40, *cid, payload);
}

/// Every sequence of six steps that halve frames and start sessions and links.
pub fn stretches(import: &mut dyn Taker) -> Checked {
    let (one, two) = (ack(1), ack(2));
    let data = |dlci, information: &[u8]| trace::uih(dlci, information, None, false);
    let alphabet: Vec<Step> = vec![
        (Rx, 0x41, data(18, &one[..5])),
        (Rx, 0x41, data(18, &one[5..])),
        (Tx, 0x42, data(18, &two[..4])),
        (Tx, 0x42, data(18, &two[4..])),
        (Rx, 0x43, data(18, &one[5..])),
        (Tx, 0x42, trace::sabm(0)),
        (Rx, 0x41, trace::sabm(18)),
        (Rx, 1, trace::command(2, 1, &[3, 0])),
    ];
    sequences(6, &alphabet, &Trace::new(1001), &send, &mut |trace| {
        send(trace, &(Tx, 0x42, data(18, &ack(3))));
        import.file(&trace.file, NO_CHANNEL)
    })
}

/// Every sequence of four steps on several DLCIs, with each kind of channel.
pub fn choices(import: &mut dyn Taker) -> Checked {
    let data = |dlci, information: &[u8]| trace::uih(dlci, information, None, false);
    let alphabet: Vec<Step> = vec![
        (Rx, 0x41, data(18, &ack(1))),
        (Rx, 0x41, data(19, &ack(2))),
        (Rx, 0x41, data(2, &[0x3E, 0x3C])),
        (Rx, 0x41, data(2, &ack(3))),
        (Rx, 0x41, data(19, &[0x3E])),
        (Rx, 0x41, data(18, &[])),
        (Rx, 0x41, data(0, &ack(4))),
        (Rx, 0x41, data(63, &ack(5))),
        (Rx, 0x3F, data(18, &ack(6))),
    ];
    for channel in [NO_CHANNEL, 9, 1, 31, 0, 63, 255] {
        sequences(4, &alphabet, &Trace::new(1002), &send, &mut |trace| import.file(&trace.file, channel))?;
    }
    Ok(())
}

/// Every sequence of up to three signalling PDUs out of many, before or after data on
/// channels that need admission or lose it.
pub fn signalling(import: &mut dyn Taker) -> Checked {
    let mut commands = Vec::new();
    for source in [0x30, 0x41] {
        for psm in [3, 1] {
            commands.push(trace::request(psm, source));
        }
        for destination in [0x30, 0x41] {
            for result in [0, 1] {
                commands.push(trace::response(destination, source, result));
            }
        }
    }
    let mut alphabet: Vec<Step> = Vec::new();
    for direction in [Rx, Tx] {
        alphabet.extend(commands.iter().map(|c| (direction, 1, c.clone())));
    }
    let data = |trace: &mut Trace| {
        for (direction, cid, seq) in [(Rx, 0x30, 1), (Rx, 0x41, 2), (Tx, 0x30, 3), (Tx, 0x41, 4)] {
            send(trace, &(direction, cid, trace::uih(18, &ack(seq), None, false)));
        }
    };
    let mut after = Trace::new(1001);
    data(&mut after);
    sequences(3, &alphabet, &after, &send, &mut |trace| import.file(&trace.file, NO_CHANNEL))?;
    sequences(3, &alphabet, &Trace::new(1001), &send, &mut |trace| {
        data(trace);
        import.file(&trace.file, NO_CHANNEL)
    })?;
    // Two commands in one PDU, each cut short in its body or in the PDU.
    for first in &commands {
        for second in &commands {
            let joined = [&first[..], second].concat();
            for n in 0..=joined.len() {
                for cut_body in [false, true] {
                    let mut payload = joined[..n].to_vec();
                    if cut_body && n > first.len() + 4 {
                        payload[first.len() + 2] = (n - first.len() - 4) as u8;
                    } else if cut_body && (4..first.len()).contains(&n) {
                        payload[2] = (n - 4) as u8;
                    }
                    let mut trace = Trace::new(1001);
                    send(&mut trace, &(Tx, 1, trace::request(3, 0x41)));
                    send(&mut trace, &(Rx, 1, payload));
                    data(&mut trace);
                    import.file(&trace.file, NO_CHANNEL)?;
                }
            }
        }
    }
    Ok(())
}

/// Every four PDUs on CID 1 that admit it or carry data on it, with a request for PSM 3, one
/// for another or half of one behind, then a frame on another channel.
pub fn doubled(import: &mut dyn Taker) -> Checked {
    let cut = &trace::request(3, 0x41)[..7];
    let alphabet: Vec<Step> = vec![
        (Tx, 1, trace::request(3, 1)),
        (Rx, 1, trace::request(3, 1)),
        (Tx, 1, trace::request(1, 1)),
        (Rx, 1, trace::asking(18, &ack(1), None, &trace::command(2, 1, &[3, 0]))),
        (Rx, 1, trace::asking(18, &ack(2), Some(7), &trace::request(3, 0x41))),
        (Rx, 1, trace::asking(18, &ack(3), None, &trace::request(1, 0x41))),
        (Tx, 1, trace::asking(18, &ack(4), None, &trace::command(2, 1, &[3, 0]))),
        (Tx, 1, trace::asking(18, &ack(5), None, cut)),
        (Rx, 1, trace::asking(18, &ack(6)[..5], None, &trace::command(2, 1, &[3, 0]))),
        (Rx, 1, trace::uih(18, &ack(6)[5..], None, false)),
    ];
    sequences(4, &alphabet, &Trace::new(1002), &send, &mut |trace| {
        import.file(&trace.file, NO_CHANNEL)?;
        send(trace, &(Rx, 0x43, trace::uih(18, &ack(7), None, false)));
        import.file(&trace.file, NO_CHANNEL)
    })
}

/// Two traces that a wrong reading finds a frame more in.
pub fn fixed(import: &mut dyn Taker) -> Checked {
    // In excess of a PDU's length comes the start of another, and a continuation has its rest.
    let pdu = trace::l2cap(0x40, &trace::uih(18, &ack(0), None, false));
    let mut excess = Trace::new(1001);
    excess.fragment(Rx, EPOCH + 5000, 0x40, 2, &[&pdu[..], &pdu[..8]].concat());
    excess.fragment(Rx, EPOCH + 6000, 0x40, 1, &pdu[8..]);
    // CID 1 is admitted, and data on it are also a request for PSM 3.
    let mut request = Trace::new(1001);
    request.pdu(Tx, EPOCH + 5000, 0x40, 1, &trace::request(3, 1));
    let asking = trace::asking(18, &ack(0), None, &trace::command(2, 1, &[3, 0]));
    request.pdu(Rx, EPOCH + 6000, 0x40, 1, &asking);
    for (file, number, frames) in [(excess.file, 0, Some(1)), (request.file, 6, None)] {
        let found = expected::import_strict(&file, NO_CHANNEL);
        assert!((found.number, found.values.get(1).copied()) == (number, frames), "a fixed trace has its answer");
        import.file(&file, NO_CHANNEL)?;
    }
    Ok(())
}

/// Every RFCOMM frame of up to five bytes over the bytes that matter, between the
/// halves of a frame.
pub fn rfcomm(import: &mut dyn Taker) -> Checked {
    let half = ack(1);
    let mut start = Trace::new(2001);
    send(&mut start, &(Rx, 0x41, trace::uih(18, &half[..5], None, false)));
    for n in 0..=5 {
        each_string(n, &[0x00, 0x01, 0x03, 0x05, 0x4B, 0x2F, 0x3F, 0xEF, 0xFF, 0x3E, 0x3C], &mut |payload| {
            let mut trace = start.clone();
            send(&mut trace, &(Rx, 0x41, payload.to_vec()));
            send(&mut trace, &(Rx, 0x41, trace::uih(18, &half[5..], None, false)));
            send(&mut trace, &(Rx, 0x41, trace::uih(18, &ack(2), None, false)));
            import.file(&trace.file, NO_CHANNEL)
        })?;
    }
    Ok(())
}

/// Every ACL packet of up to six bytes over the bytes that matter, between the
/// fragments of a PDU.
pub fn packets(taker: &mut dyn Taker) -> Checked {
    let pdu = trace::l2cap(0x41, &trace::uih(18, &ack(1), None, false));
    for datalink in trace::DATALINKS {
        let mut start = Trace::new(datalink);
        start.fragment(Rx, EPOCH, 0x40, 2, &pdu[..9]);
        for n in 0..=6 {
            each_string(n, &[0x00, 0x01, 0x02, 0x40, 0x10, 0x20], &mut |packet| {
                let mut trace = start.clone();
                trace.acl(Rx, EPOCH + 1000, 0, packet);
                trace.fragment(Rx, EPOCH + 2000, 0x40, 1, &pdu[9..]);
                trace.pdu(Tx, EPOCH + 3000, 0x40, 0x41, &trace::uih(18, &ack(2), None, false));
                taker.file(&trace.file, NO_CHANNEL)
            })?;
        }
    }
    Ok(())
}

pub fn random(taker: &mut dyn Taker, rng: &mut Rng, size: u64) -> Checked {
    for i in 0..size {
        let (trace, channel) = trace::structured(rng, if i % 100 == 0 { 600 } else { 60 });
        taker.file(&trace.file, channel)?;
    }
    Ok(())
}

pub fn damaged(taker: &mut dyn Taker, rng: &mut Rng, size: u64) -> Checked {
    for _ in 0..size / 4 {
        let (trace, channel) = trace::structured(rng, 30);
        for _ in 0..4 {
            let file = trace::damaged(rng, &trace);
            taker.file(&file, channel)?;
        }
    }
    Ok(())
}

/// Buffers that grow to about 65,536 bytes without an end, then get one.
pub fn limits(import: &mut dyn FnMut(&[u8]) -> Checked, rng: &mut Rng) -> Checked {
    let most = 32_767;
    for held in [65_534, 65_535, 65_536, 65_537, 65_538, 98_000] {
        for last in [1, 2, 3, 100, most] {
            for end in [&[0x3C][..], &[0x00, 0x3C, 0x3E, 0x3C], &[0x3E], &[0x00]] {
                let mut trace = Trace::new(rng.pick(&trace::DATALINKS));
                let mut buffer = rng.mixed(held, &[0x3D, 0x3E], 5);
                buffer.iter_mut().filter(|b| **b == 0x3C).for_each(|b| *b = 0);
                buffer[0] = 0x3E;
                let mut rest = &buffer[..held - last];
                while !rest.is_empty() {
                    let n = rng.within(most / 2, most).min(rest.len());
                    send(&mut trace, &(Rx, 0x41, trace::uih(18, &rest[..n], None, true)));
                    rest = &rest[n..];
                }
                let mut tail = buffer[held - last..].to_vec();
                if last < most - end.len() && rng.percent(50) {
                    tail.extend(end);
                    send(&mut trace, &(Rx, 0x41, trace::uih(18, &tail, None, true)));
                } else {
                    send(&mut trace, &(Rx, 0x41, trace::uih(18, &tail, None, true)));
                    send(&mut trace, &(Rx, 0x41, trace::uih(18, end, None, true)));
                }
                send(&mut trace, &(Tx, 0x41, trace::uih(18, &ack(1), None, false)));
                send(&mut trace, &(Rx, 0x41, trace::uih(18, &ack(2), None, false)));
                import(&trace.file)?;
            }
        }
    }
    Ok(())
}

/// A trace of exactly `length` bytes: a random one and a record that fills it up.
pub fn filled(rng: &mut Rng, length: usize) -> (Trace, u32) {
    let (mut trace, mut channel) = trace::structured(rng, 20);
    let bytes = [0; 24];
    while trace.file.len() < length {
        let (more, other) = trace::structured(rng, 2000);
        if more.datalink == trace.datalink {
            channel = other;
            let base = trace.file.len() - 16;
            trace.file.extend(&more.file[16..]);
            trace.ends.extend(more.ends.iter().map(|e| e + base));
        }
    }
    while trace.file.len() > length - bytes.len() {
        trace.ends.pop();
        trace.file.truncate(trace.ends.last().copied().unwrap_or(16));
    }
    let rest = length - 24 - trace.file.len();
    trace.record(2, 0, &vec![0; rest]);
    (trace, channel)
}

pub fn large(taker: &mut dyn Taker, rng: &mut Rng) -> Checked {
    for round in 0..4 {
        for length in [LONGEST_FILE - 1, LONGEST_FILE, LONGEST_FILE + 1] {
            let (trace, channel) = filled(rng, length);
            taker.file(&trace.file, if round % 2 == 0 { NO_CHANNEL } else { channel })?;
        }
    }
    // More links than handles, which only the model can be asked for.
    for twins in hard::twins() {
        taker.file(&twins.one_handle(256), NO_CHANNEL)?;
    }
    for trace in hard::of_many_adapters() {
        trace.file(128).map_or(Ok(()), |file| taker.file(&file, NO_CHANNEL))?;
    }
    taker.file(&vec![0; LONGEST_FILE + 1], NO_CHANNEL)?;
    taker.file(&vec![0; LONGEST_FILE], NO_CHANNEL)
}

pub fn run_rule(subject: &dyn Subject, options: &Options, group: &'static str, rule: Rule, size: u64) -> Checked {
    let mut rng = Rng::new(options.seed);
    let mut import = Import::new(subject, rule);
    let mut log = options.log(group);
    random(&mut import, &mut rng, size)?;
    log.line("random traces", &import.lender);
    damaged(&mut import, &mut rng, size)?;
    log.line("damaged traces", &import.lender);
    limits(&mut |file| import.file(file, NO_CHANNEL), &mut rng)?;
    log.line("long buffers", &import.lender);
    fixed(&mut import)?;
    log.line("fixed traces", &import.lender);
    adapters::by_hand(&mut import)?;
    log.line("fixed traces of two adapters", &import.lender);
    short(&mut import, &mut rng)?;
    log.line("short files and every beginning of good ones", &import.lender);
    if rule == Rule::NotTolerant {
        return Ok(());
    }
    one_byte(&mut import)?;
    log.line("every one-byte change of small traces", &import.lender);
    fragments(&mut import)?;
    log.line("every four fragments", &import.lender);
    excess(&mut import)?;
    log.line("every three fragments of two PDUs", &import.lender);
    packets(&mut import)?;
    log.line("every short packet", &import.lender);
    signalling(&mut import)?;
    log.line("every three commands", &import.lender);
    doubled(&mut import)?;
    log.line("every four PDUs on CID 1", &import.lender);
    rfcomm(&mut import)?;
    log.line("every short RFCOMM frame", &import.lender);
    stretches(&mut import)?;
    log.line("every six steps of sessions and links", &import.lender);
    adapters::steps(&mut import, if rule == Rule::Strict { 4 } else { 3 })?;
    log.line("every few steps on two adapters", &import.lender);
    choices(&mut import)?;
    log.line("every four pieces on several DLCIs", &import.lender);
    large(&mut import, &mut rng)?;
    log.line("traces of about 1,048,576 bytes", &import.lender);
    Ok(())
}

/// The random traces alone; in a short run more of them.
pub fn run_random(subject: &dyn Subject, options: &Options) -> Checked {
    let size = options.size.unwrap_or(50_000).max(2_000);
    random(&mut Import::new(subject, Rule::Strict), &mut Rng::new(options.seed), size)
}

/// One part alone.
pub fn run_fixed(subject: &dyn Subject, _: &Options) -> Checked {
    fixed(&mut Import::new(subject, Rule::Strict))
}

pub fn run_large(subject: &dyn Subject, options: &Options) -> Checked {
    large(&mut Import::new(subject, Rule::Strict), &mut Rng::new(options.seed))
}

pub fn run_by_hand(subject: &dyn Subject, _: &Options) -> Checked {
    adapters::by_hand(&mut Import::new(subject, Rule::Strict))
}

pub fn run_steps(subject: &dyn Subject, _: &Options) -> Checked {
    adapters::steps(&mut Import::new(subject, Rule::Strict), 3)
}

pub fn run_excess(subject: &dyn Subject, _: &Options) -> Checked {
    excess(&mut Import::new(subject, Rule::Strict))
}

pub fn run_doubled(subject: &dyn Subject, _: &Options) -> Checked {
    doubled(&mut Import::new(subject, Rule::Strict))
}

pub fn run(subject: &dyn Subject, options: &Options) -> Checked {
    run_rule(subject, options, "import", Rule::Strict, options.size.unwrap_or(50_000))
}
