//! The signs that something is not in a file: the call held to their definitions, and its refusals to those of import.

use std::collections::BTreeSet;

use crate::adapters;
use crate::answer::{Answer, Case, Checked, Container, Difference, Lender, Subject, NO_CHANNEL, NUMBERS};
use crate::codec::each_string;
use crate::expected::{self, LONGEST_FILE};
use crate::gaps::{self, Found, RIGHT, SIGNS, VALUES};
use crate::hard;
use crate::import::{self, Taker};
use crate::lacking::{self, typed};
use crate::model;
use crate::pcap::LINK;
use crate::rng::Rng;
use crate::trace::{self, acl_packet, Trace, DATALINKS};
use crate::{tolerant, Options};

/// How often the signs came.
#[derive(Default)]
struct Tally {
    files: u64,
    /// In how many files each sign shows, and shows at more than one place.
    came: [u64; SIGNS.len()],
    more: [u64; SIGNS.len()],
    /// The mixtures of signs that came.
    mixtures: BTreeSet<[bool; SIGNS.len()]>,
}

impl Tally {
    fn add(&mut self, found: &Found) {
        let places = found.places();
        self.files += 1;
        for (i, places) in places.iter().enumerate() {
            self.came[i] += u64::from(!places.is_empty());
            self.more[i] += u64::from(places.len() > 1);
        }
        self.mixtures.insert(places.map(|places| !places.is_empty()));
    }

    fn print(&self, group: &str) {
        let signs = SIGNS.iter().zip(self.came).zip(self.more);
        let signs: Vec<String> = signs.map(|((sign, came), more)| format!("{sign} {came} ({more})")).collect();
        println!(
            "{group}: {} files with a good header; with a sign (at more than one place): {}; {} of 128 mixtures",
            self.files,
            signs.join(", "),
            self.mixtures.len()
        );
    }
}

pub struct Gaps<'a> {
    subject: &'a dyn Subject,
    container: Container,
    /// Whether the call is by a list of options, which may have a container in it.
    takes_container: bool,
    lender: Lender,
    files: usize,
    /// What work is filled with, from another place each time.
    noise: Vec<u8>,
    work: Vec<u8>,
    tally: Tally,
}

/// Bytes before and after the work lent that nobody may touch.
const GUARD: usize = 16;
/// The places of the noise from which work is filled.
const TURNS: usize = 251;

impl<'a> Gaps<'a> {
    pub fn new(subject: &'a dyn Subject) -> Gaps<'a> {
        let noise = Rng::new(1).bytes(8 * (LONGEST_FILE + 1) + 64 + 2 * GUARD + 8 + TURNS);
        let (lender, work, tally) = (Lender::default(), Vec::new(), Tally::default());
        Gaps { subject, container: Container::Btsnoop, takes_container: false, lender, files: 0, noise, work, tally }
    }

    /// Files of a container, by the call that takes one.
    pub fn by_container(subject: &'a dyn Subject, container: Container) -> Gaps<'a> {
        Gaps { container, takes_container: true, ..Gaps::new(subject) }
    }

    /// How many calls were to be answered with each number.
    pub fn answers(&self) -> &[u64; NUMBERS] {
        &self.lender.answers
    }

    /// How often signs came, in words.
    pub fn print(&self, group: &str) {
        self.tally.print(group);
    }

    /// The file by both rules, with enough work; at times also with less.
    pub fn once(&mut self, file: &[u8]) -> Checked {
        self.files += 1;
        let refused = model::refusal(self.container, file, usize::MAX, true, model::RIGHT).is_some();
        let found = (!refused).then(|| gaps::find(self.container, file, RIGHT));
        if let Some(found) = &found {
            self.tally.add(found);
        }
        let n = file.len();
        for tolerant in [0, [1, 2, 1 << 31, u32::MAX][self.files % 4]] {
            let expected = self.expected(file, tolerant != 0, found.as_ref());
            self.call(file, 8 * n + [0, 0, 1, 64][self.files % 4], tolerant, &expected)?;
            let long = expected.number == 1;
            if (long || self.files.is_multiple_of(7)) && n > 0 {
                let short = if long { expected } else { Answer::refused(2, &[]) };
                for less in [8 * n - 1, self.files % (8 * n), 0] {
                    self.call(file, less, tolerant, &short)?;
                }
            }
        }
        Ok(())
    }

    /// The refusal of import by the oracle, or in a pcap file by the container; else the signs by their definitions.
    fn expected(&self, file: &[u8], tolerant: bool, found: Option<&Found>) -> Answer {
        let import = match (self.container, tolerant) {
            (Container::Pcap, _) => {
                let refusal = model::refusal(self.container, file, usize::MAX, tolerant, model::RIGHT);
                refusal.unwrap_or(Answer::refused(6, &[]))
            }
            (_, true) => expected::import_tolerant(file, NO_CHANNEL),
            (_, false) => expected::import_strict(file, NO_CHANNEL),
        };
        match (found, import.number) {
            (Some(found), 0 | 6) => Answer::done(&found.values(RIGHT), Vec::new()),
            _ => import,
        }
    }

    /// The options of a call: the channel, which is not looked at, the rule, the container, and the switch, which is not either.
    fn options(&self, tolerant: u32) -> Vec<u64> {
        let (channel, tolerant) = ([256, 0, u64::MAX, 9][self.files % 4], u64::from(tolerant));
        if self.container == Container::Pcap {
            let pcap = [1, 2, u64::MAX, 1 << 32, 1 << 63][self.files % 5];
            let more = [&[0][..], &[], &[1], &[0, 7], &[u64::MAX, 0, 1], &[0]][self.files % 6];
            return [&[channel, tolerant, pcap], more].concat();
        }
        match self.files % 5 {
            0 if tolerant == 0 => vec![],
            1 if tolerant == 0 => vec![channel],
            2 => vec![channel, tolerant, 0],
            3 => vec![channel, tolerant, 0, 1, 2],
            _ => vec![channel, tolerant],
        }
    }

    /// One call with so much work lent, full of noise. After refusals 1 and 2 it is as it was.
    fn call(&mut self, file: &[u8], lent: usize, tolerant: u32, expected: &Answer) -> Checked {
        let turn = self.files % TURNS;
        // Work begins at any place, not at multiples of 8 alone.
        let front = GUARD + turn % 8;
        let noise = &self.noise[turn..turn + front + lent + GUARD];
        self.work.clear();
        self.work.extend(noise);
        let options = self.options(tolerant);
        let work = &mut self.work[front..front + lent];
        let asked = match self.takes_container {
            true => format!("gaps_with, options {options:?}"),
            false => format!("gaps, tolerant {tolerant}"),
        };
        let case = || Case { call: format!("{asked}, {lent} bytes of work"), inputs: vec![("file", file.to_vec())] };
        let room = room(self.lender.answers.iter().sum());
        let mut call = |_: &mut [u8], values: &mut [u64]| match self.takes_container {
            true => self.subject.gaps_with(file, work, &options, values),
            false => self.subject.gaps(file, work, tolerant, values),
        };
        self.lender.call(expected, 0, room, &mut call, &case)?;
        let used = if [1, 2].contains(&expected.number) { 0 } else { lent };
        let changed = |i: &usize| self.work[*i] != noise[*i];
        match (0..front).chain(front + used..noise.len()).find(changed) {
            None => Ok(()),
            Some(at) => {
                let case = case();
                Err(Box::new(Difference {
                    call: case.call,
                    inputs: case.inputs,
                    lent: format!("{lent} bytes of work"),
                    expected: format!("byte {} of work is left as it was", at as i64 - front as i64),
                    got: "it was changed".into(),
                }))
            }
        }
    }
}

impl Taker for Gaps<'_> {
    fn file(&mut self, file: &[u8], _: u32) -> Checked {
        import::smallest(self.container, file, &mut |file| self.once(file))
    }
}

/// Room for values: from none to more than there are; mostly for all.
fn room(turn: u64) -> usize {
    let turn = turn as usize;
    match turn % 3 {
        0 => turn / 3 % (VALUES + 3),
        1 => VALUES,
        _ => VALUES + turn / 3 % 3,
    }
}

// ---- made traces

pub fn made(gaps: &mut Gaps, rng: &mut Rng, size: u64) -> Checked {
    for i in 0..size {
        let trace = lacking::made(rng, gaps.container, [6, 20, 60][i as usize % 3]);
        gaps.file(&lacking::ended(rng, &trace), NO_CHANNEL)?;
        gaps.file(&trace::damaged(rng, &trace), NO_CHANNEL)?;
    }
    Ok(())
}

pub fn scattered(gaps: &mut Gaps, rng: &mut Rng, size: u64) -> Checked {
    for i in 0..size {
        gaps.file(&lacking::scattered(rng, gaps.container), NO_CHANNEL)?;
        if i % 8 == 0 {
            let n = rng.below(100);
            gaps.file(&rng.bytes(n), NO_CHANNEL)?;
        }
    }
    Ok(())
}

/// Traces without a record, of each datalink.
fn datalinks() -> Vec<Trace> {
    DATALINKS.map(Trace::new).into()
}

/// Every mixture of signs that show not at all, once or twice, in each of these traces. The signs are known from the making.
pub fn mixtures(gaps: &mut Gaps, rng: &mut Rng, starts: &[Trace]) -> Checked {
    for start in starts {
        each_string(SIGNS.len(), &[0, 1, 2], &mut |times| {
            let times = std::array::from_fn(|i| usize::from(times[i]));
            let (trace, known) = lacking::mixture(rng, start.clone(), times);
            let found = gaps::find(gaps.container, &trace.file, RIGHT);
            assert_eq!(found.values(RIGHT), known.values(RIGHT), "a mixture has the signs that it was made with");
            gaps.file(&trace.file, NO_CHANNEL)
        })?;
    }
    Ok(())
}

/// Every beginning of traces with every sign twice, and many changes of one byte.
pub fn changes(gaps: &mut Gaps, rng: &mut Rng, starts: &[Trace]) -> Checked {
    for start in starts {
        let good = lacking::mixture(rng, start.clone(), [2; SIGNS.len()]).0.file;
        for n in 0..good.len() {
            gaps.file(&good[..n], NO_CHANNEL)?;
        }
        for at in 0..good.len() {
            let byte = good[at];
            let near = [byte ^ 1, byte ^ 2, byte.wrapping_add(1), byte.wrapping_sub(1)];
            for other in [0, 1, 2, 3, 4, 5, 0x10, 0x20, 0x40, 0x80, 0xFF].into_iter().chain(near) {
                let mut file = good.clone();
                file[at] = other;
                gaps.file(&file, NO_CHANNEL)?;
            }
        }
    }
    Ok(())
}

// ---- every one of a kind

/// Every four counts of drops.
fn drops(gaps: &mut Gaps) -> Checked {
    let counts = [0, 1, 2, 7, 1 << 24, u32::MAX];
    let step = |trace: &mut Trace, drops: &u32| trace.row(0, 2, *drops, 1, &[]);
    for datalink in DATALINKS {
        import::sequences(4, &counts, &Trace::new(datalink), &step, &mut |trace| gaps.file(&trace.file, NO_CHANNEL))?;
    }
    Ok(())
}

/// Every original length about the included one, and some far from it.
pub fn lengths(gaps: &mut Gaps, starts: &[Trace]) -> Checked {
    for start in starts {
        for included in 0..=20 {
            for original in (0..=22).chain([255, 256, 65_536, 1 << 24, 1 << 31, u32::MAX]) {
                let mut packet = typed(start.datalink, &acl_packet(0x40, 2, &[4, 0, 0x41, 0, 1, 2, 3, 4]));
                packet.resize(included, 0);
                let mut trace = start.clone();
                trace.row(0, 2, 0, 1, &[]);
                trace.row(original, if start.datalink == LINK { 0 } else { 4 }, 0, 1, &packet);
                gaps.file(&trace.file, NO_CHANNEL)?;
            }
        }
    }
    Ok(())
}

/// Records of zeros with every change of one byte.
pub fn zeros(gaps: &mut Gaps, starts: &[Trace]) -> Checked {
    for start in starts {
        let good = [&start.file[..], &[0; 48]].concat();
        for at in start.file.len()..good.len() {
            for byte in 0..=255 {
                let mut file = good.clone();
                file[at] = byte;
                gaps.file(&file, NO_CHANNEL)?;
            }
        }
    }
    Ok(())
}

/// Every packet of up to five bytes over the bytes that matter, by every kind of flags, between the fragments of a PDU.
pub fn packets(gaps: &mut Gaps, starts: &[Trace]) -> Checked {
    let hci = [0, 1, 2, 3, 4, 7, 0xFFFF_FFFC, 0xFFFF_FFFF];
    let codes = [0, 2, 3, 4, 5, 6, 0x1_0004, 0xFFFF_0005, 0x5_0003, 0x0105];
    let directions = [0, 1, 2, 3, 0x100, 0x0100_0000, 0xFFFF_FFFF];
    for start in starts {
        let datalink = start.datalink;
        // Flags of ACL data, flags to try, and the longest packet.
        let (acl, flags, most) = match datalink {
            LINK => (0, &directions[..], 6),
            2001 => (4, &codes[..], 5),
            1002 => (4, &hci[..], 6),
            _ => (4, &hci[..], 5),
        };
        for n in 0..=most {
            each_string(n, &[0x00, 0x01, 0x02, 0x10, 0x20], &mut |packet| {
                flags.iter().try_for_each(|flags| {
                    let mut trace = start.clone();
                    trace.row(0, acl, 0, 1, &typed(datalink, &acl_packet(0, 2, &[1, 0])));
                    trace.row(0, *flags, 0, 1, packet);
                    trace.row(0, acl, 0, 1, &typed(datalink, &acl_packet(0, 1, &[0x41, 0, 7])));
                    gaps.file(&trace.file, NO_CHANNEL)
                })
            })?;
        }
    }
    Ok(())
}

/// Every four packets out of fourteen, on two links and in both directions: parts of PDUs as starts and as continuations.
/// In 2001 the two links are also those of one handle on two adapters.
fn fragments(gaps: &mut Gaps) -> Checked {
    let shared = |index: u32| Some([0, index]);
    for (n, datalink, adapters) in [
        (4, 1001, None),
        (3, 1001, shared(1)),
        (3, 1002, None),
        (3, 2001, None),
        (4, 2001, shared(1)),
        (3, 2001, shared(0x100)),
        (3, 2001, shared(0xFFFF)),
    ] {
        fragments_of(gaps, n, &Trace::new(datalink), adapters)?;
    }
    Ok(())
}

/// Every `n` of them in one trace; of two adapters' indexes where they are given.
pub fn fragments_of(gaps: &mut Gaps, n: usize, start: &Trace, adapters: Option<[u32; 2]>) -> Checked {
    let alphabet: Vec<(u32, u16, u16, &[u8])> = vec![
        (0, 0x40, 2, &[]),
        (0, 0x40, 0, &[1]),
        (0, 0x40, 3, &[0, 0, 0x41, 0]),
        (0, 0x40, 2, &[2, 0, 0x41, 0, 7]),
        (0, 0x40, 2, &[1, 0, 0x41, 0, 7, 2, 0]),
        (0, 0x40, 1, &[]),
        (0, 0x40, 1, &[0]),
        (0, 0x40, 1, &[0, 0x41, 0]),
        (0, 0x40, 1, &[7, 7, 7, 7]),
        (1, 0x40, 2, &[1, 0, 0x41]),
        (1, 0x40, 1, &[0, 7]),
        (0, 0x41, 2, &[0, 0, 0]),
        (0, 0x41, 1, &[0]),
        (0, 0x41, 1, &[7, 0, 0x41, 0]),
    ];
    let datalink = start.datalink;
    let step = |trace: &mut Trace, (rx, handle, flag, data): &(u32, u16, u16, &[u8])| {
        let way = if datalink == 2001 { 4 | rx } else { *rx };
        let (upper, handle) = match adapters {
            Some(indexes) => (indexes[usize::from(handle % 2)] << 16, 0x40),
            None => (0, *handle),
        };
        let packet = typed(datalink, &acl_packet(handle, *flag, data));
        trace.row(packet.len() as u32, upper | way, 0, 1, &packet);
    };
    import::sequences(n, &alphabet, start, &step, &mut |trace| gaps.file(&trace.file, NO_CHANNEL))
}

// ---- long files

/// Makes a record by its number.
type Record = fn(&mut Trace, u32);

/// A trace that is full of records.
fn full(start: &Trace, record: Record) -> Vec<u8> {
    let mut trace = start.clone();
    for i in 0.. {
        record(&mut trace, i);
        if trace.file.len() > LONGEST_FILE {
            trace.file.truncate(trace.ends[trace.ends.len() - 2]);
            break;
        }
    }
    trace.file
}

/// A packet in one of 8,192 ways: half as many links, and two directions. In 2001 there are more, on other adapters.
fn sent(trace: &mut Trace, way: u32, flag: u16, data: &[u8]) {
    let flags = way % 2 + if trace.datalink == 2001 { (way / 8192) << 16 | 4 } else { 0 };
    let packet = typed(trace.datalink, &acl_packet((way / 2 % 4096) as u16, flag, data));
    trace.row(packet.len() as u32, flags, 0, 1, &packet);
}

/// 1 from the number `from` on, and 2 before: starts, then continuations.
fn flag(i: u32, from: u32) -> u16 {
    if i < from {
        2
    } else {
        1
    }
}

/// Files of 1,048,576 bytes at most with as many signs as there can be: of one kind, in all ways, or far from each other.
pub fn long(gaps: &mut Gaps, starts: &[Trace]) -> Checked {
    let kinds: [Record; 12] = [
        |trace, _| trace.zeros(),
        |trace, i| trace.row(1 + i % 2, 2, 0, 1, &[9]),
        // Drops that are over 32 bits in all.
        |trace, i| trace.row(0, 2, [u32::MAX, 0][i as usize % 2], 1, &[]),
        |trace, i| trace.row(0, if trace.datalink == 2001 { 4 } else { 0 }, i, 1, &[2][..i as usize % 2]),
        |trace, _| sent(trace, 9, 1, &[]),
        |trace, _| sent(trace, 9, 2, &[]),
        |trace, i| sent(trace, i, 2, &[1]),
        // One handle on as many adapters as there are records, in 2001.
        |trace, i| sent(trace, 8192 * (i % 16_000) + 7, flag(i, 16_000), &[1]),
        |trace, i| sent(trace, i.wrapping_mul(2_654_435_761) % 8192, flag(i, 12_000), &[0]),
        // One PDU that is open to the end; PDUs of some hundred packets; PDUs of two.
        |trace, i| sent(trace, 9, flag(i, 6), &[0xFF]),
        |trace, i| sent(trace, i % 64, flag(i, 64), &[0xFF, 0x00]),
        |trace, i| sent(trace, i % 8192, flag(i / 8192 % 2, 1), &[0, 0, 0x41][..3 - i as usize % 2]),
    ];
    for start in starts {
        for kind in kinds {
            gaps.file(&full(start, kind), NO_CHANNEL)?;
        }
    }
    Ok(())
}

// ---- the law of starts

/// Starts are as many as PDUs, those given up and those open at the end: by the subject's answer and the model of import.
pub fn law_of(subject: &dyn Subject, container: Container, file: &[u8]) -> Checked {
    if model::refusal(container, file, usize::MAX, true, model::RIGHT).is_some() {
        return Ok(());
    }
    let (mut work, mut values) = (vec![0; 8 * file.len()], [0; VALUES]);
    let number = match container {
        Container::Btsnoop => subject.gaps(file, &mut work, 1, &mut values),
        Container::Pcap => subject.gaps_with(file, &mut work, &[0, 1, 1], &mut values),
    };
    let packets = model::packets(container, file, model::RIGHT).0;
    let starts = packets.iter().filter(|packet| packet.start).count() as u64;
    let pdus = model::pdus(&packets, model::RIGHT).len() as u64;
    let [given_up, open] = [values[10], values[12]];
    if number == 0 && starts == pdus + given_up + open {
        return Ok(());
    }
    Err(Box::new(Difference {
        call: "gaps, the law of starts".into(),
        inputs: vec![("file", file.to_vec())],
        lent: "enough".into(),
        expected: format!("{starts} starts are {pdus} PDUs, those given up and those open at the end"),
        got: format!("number {number}, {given_up} given up, {open} open"),
    }))
}

pub fn law(subject: &dyn Subject, container: Container, rng: &mut Rng, size: u64) -> Checked {
    for _ in 0..size {
        let trace = lacking::made(rng, container, 40);
        let (other, _) = trace::structured_in(rng, container, 30);
        for file in [&trace.file, &trace::damaged(rng, &trace), &other.file, &trace::damaged(rng, &other)] {
            import::smallest(container, file, &mut |file| law_of(subject, container, file))?;
        }
    }
    Ok(())
}

// ---- the group and its parts

pub fn run(subject: &dyn Subject, options: &Options) -> Checked {
    let size = options.size.unwrap_or(50_000);
    let mut rng = Rng::new(options.seed);
    let mut log = options.log("gaps");
    let mut gaps = Gaps::new(subject);
    made(&mut gaps, &mut rng, size)?;
    log.line("made traces, whole, cut and damaged", &gaps.lender);
    mixtures(&mut gaps, &mut rng, &datalinks())?;
    log.line("every mixture of signs", &gaps.lender);
    scattered(&mut gaps, &mut rng, size)?;
    log.line("random bytes", &gaps.lender);
    import::random(&mut gaps, &mut rng, size / 5)?;
    import::damaged(&mut gaps, &mut rng, size / 5)?;
    for trace in hard::traces().into_iter().chain(hard::of_many_adapters()) {
        trace.file(16).map_or(Ok(()), |file| gaps.file(&file, NO_CHANNEL))?;
    }
    for twins in hard::twins() {
        gaps.file(&twins.one_handle(16), NO_CHANNEL)?;
        gaps.file(&twins.spread(16), NO_CHANNEL)?;
    }
    log.line("random traces of import, whole and damaged, and those of its bench", &gaps.lender);
    tolerant::each_cut(&mut rng, Container::Btsnoop, size / 500, &mut |recording, n| {
        gaps.file(&recording.file[..n], NO_CHANNEL)
    })?;
    log.line("every cut of honest recordings", &gaps.lender);
    drops(&mut gaps)?;
    log.line("every four counts of drops", &gaps.lender);
    lengths(&mut gaps, &datalinks())?;
    log.line("every length about the included one", &gaps.lender);
    zeros(&mut gaps, &datalinks())?;
    log.line("every one-byte change of zeros", &gaps.lender);
    packets(&mut gaps, &datalinks())?;
    log.line("every short packet by every kind of flags", &gaps.lender);
    fragments(&mut gaps)?;
    import::fragments(&mut gaps)?;
    import::excess(&mut gaps)?;
    log.line("every four fragments", &gaps.lender);
    adapters::by_hand(&mut gaps)?;
    log.line("fixed traces of two adapters", &gaps.lender);
    changes(&mut gaps, &mut rng, &datalinks())?;
    log.line("every beginning and one-byte changes of traces with every sign", &gaps.lender);
    import::short(&mut gaps, &mut rng)?;
    log.line("short files and every beginning of good ones", &gaps.lender);
    long(&mut gaps, &datalinks())?;
    import::large(&mut gaps, &mut rng)?;
    log.line("traces of about 1,048,576 bytes", &gaps.lender);
    if !options.quiet {
        gaps.tally.print("gaps");
    }
    law(subject, Container::Btsnoop, &mut rng, size / 10)?;
    if !options.quiet {
        println!("gaps: the law of starts: {} files", size / 10 * 4);
    }
    Ok(())
}

/// One part alone.
pub fn run_made(subject: &dyn Subject, options: &Options) -> Checked {
    made(&mut Gaps::new(subject), &mut Rng::new(options.seed), options.size.unwrap_or(50_000))
}

pub fn run_mixtures(subject: &dyn Subject, options: &Options) -> Checked {
    mixtures(&mut Gaps::new(subject), &mut Rng::new(options.seed), &datalinks())
}

pub fn run_packets(subject: &dyn Subject, _: &Options) -> Checked {
    packets(&mut Gaps::new(subject), &datalinks())
}

pub fn run_fragments(subject: &dyn Subject, _: &Options) -> Checked {
    fragments(&mut Gaps::new(subject))
}

pub fn run_by_hand(subject: &dyn Subject, _: &Options) -> Checked {
    adapters::by_hand(&mut Gaps::new(subject))
}

pub fn run_long(subject: &dyn Subject, options: &Options) -> Checked {
    let mut gaps = Gaps::new(subject);
    import::large(&mut gaps, &mut Rng::new(options.seed))?;
    long(&mut gaps, &datalinks())
}

pub fn run_law(subject: &dyn Subject, options: &Options) -> Checked {
    law(subject, Container::Btsnoop, &mut Rng::new(options.seed), options.size.unwrap_or(50_000) / 10)
}
