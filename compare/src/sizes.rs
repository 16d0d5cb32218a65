//! The sizes before the import: how many bytes its list needs, and how many records, PDUs and pieces a file has. Each file by
//! both rules, in both positions of the switch and in its container: held to the list of the oracle's import and to two
//! readings of the file, and to import by the same subject with as much output as needed and with a byte less.

use std::sync::LazyLock;

use crate::adapters;
use crate::answer::{
    Answer, Asked, Case, Checked, Container, Difference, Lender, Subject, NO_CHANNEL, NUMBERS, SIZES, VALUES,
};
use crate::bytes;
use crate::containers::{self, Converted};
use crate::expected::{self, LONGEST_FILE};
use crate::honest::{self, Honest};
use crate::import::{self, Taker};
use crate::pcap::{self, FORMS};
use crate::rng::Rng;
use crate::sums::{self, Both};
use crate::tolerant::{self, KINDS};
use crate::trace::{self, Trace};
use crate::Options;
use oracle::capture::Direction::Rx;
use oracle::capture::BTSNOOP_EPOCH_DELTA_US as EPOCH;

/// Bytes before and after the work lent that nobody may touch.
const GUARD: usize = 16;
/// The places of the noise from which work is filled.
const TURNS: usize = 251;

/// What work is filled with, from another place each time.
static NOISE: LazyLock<Vec<u8>> =
    LazyLock::new(|| Rng::new(1).bytes(8 * (LONGEST_FILE + 1) + 64 + 2 * GUARD + 8 + TURNS));

/// The least that is needed where something is: a frame has nine bytes, and an item 14 more.
const LEAST: u64 = 23;

/// A call's number, and all that is stored; a place that is not keeps `UNSTORED`.
type Told<const N: usize> = (u32, [u64; N]);

const UNSTORED: u64 = 0xB7B7_B7B7_B7B7_B7B7;

/// The calls that tell sizes, held to what is expected and to import.
pub struct Sizes<'a> {
    subject: &'a dyn Subject,
    lender: Lender,
    turn: usize,
    files: usize,
    /// How many btsnoop files went as pcap too.
    twins: usize,
    work: Vec<u8>,
    out: Vec<u8>,
    /// How many answers were held to import with as much output as needed, and how many refusals to its own.
    needed: u64,
    refused: u64,
}

impl<'a> Sizes<'a> {
    pub fn new(subject: &'a dyn Subject) -> Sizes<'a> {
        let (work, out) = (Vec::new(), Vec::new());
        Sizes { subject, lender: Lender::default(), turn: 0, files: 0, twins: 0, work, out, needed: 0, refused: 0 }
    }

    /// A file by both rules and in both positions of the switch.
    fn once(&mut self, container: Container, file: &[u8], channel: u32) -> Checked {
        let imports = expected::by_both_rules(container, file, channel);
        self.held(container, file, channel, &expected::sizes(container, file, &imports))
    }

    /// The file held to these answers: strict, then tolerant, each with the switch off and on. At times with less work; and
    /// in one of the four ways import is asked too.
    fn held(&mut self, container: Container, file: &[u8], channel: u32, due: &[[Answer; 2]; 2]) -> Checked {
        self.files += 1;
        let turn = self.files;
        for (tolerant, both) in [false, true].into_iter().zip(due) {
            for (checks, expected) in [false, true].into_iter().zip(both) {
                let asked = Asked { channel, tolerant, checks };
                let room = self.lender.room(expected);
                let enough = 8 * file.len() + [0, 0, 1, 64][turn % 4];
                self.call(container, file, asked, enough, room, expected)?;
                if expected.number == 1 || turn.is_multiple_of(7) {
                    self.less(container, file, asked, expected)?;
                }
            }
        }
        let (tolerant, checks) = (turn % 2 == 1, turn / 2 % 2 == 1);
        self.as_import(container, file, Asked { channel, tolerant, checks })
    }

    /// The file with less work than it wants: one byte, any number of bytes, all.
    pub fn less(&mut self, container: Container, file: &[u8], asked: Asked, expected: &Answer) -> Checked {
        let n = file.len();
        if n == 0 {
            return Ok(());
        }
        let short = if expected.number == 1 { expected.clone() } else { Answer::refused(2, &[]) };
        for lent in [8 * n - 1, self.turn % (8 * n), 0] {
            let room = self.lender.room(&short);
            self.call(container, file, asked, lent, room, &short)?;
        }
        Ok(())
    }

    /// One call with so much work lent, full of noise, and so much room for values. After refusals 1 and 2 work is as it was.
    pub fn call(
        &mut self,
        container: Container,
        file: &[u8],
        asked: Asked,
        lent: usize,
        room: usize,
        expected: &Answer,
    ) -> Checked {
        self.turn += 1;
        let turn = self.turn % TURNS;
        // Work begins at any place, not at multiples of 8 alone.
        let front = GUARD + turn % 8;
        let noise = &NOISE[turn..turn + front + lent + GUARD];
        self.work.clear();
        self.work.extend(noise);
        let options = self.options(container, asked);
        let (subject, work) = (self.subject, &mut self.work[front..front + lent]);
        let case = || Case {
            call: format!("sizes_with, options {options:?}, {lent} bytes of work"),
            inputs: vec![("file", file.to_vec())],
        };
        let mut call = |_: &mut [u8], values: &mut [u64]| subject.sizes_with(file, work, &options, values);
        self.lender.call(expected, 0, room, &mut call, &case)?;
        let used = if [1, 2].contains(&expected.number) { 0 } else { lent };
        let changed = |i: &usize| self.work[*i] != noise[*i];
        match (0..front).chain(front + used..noise.len()).find(changed) {
            None => Ok(()),
            Some(at) => {
                let Case { call, inputs } = case();
                let (lent, got) = (format!("{lent} bytes of work"), "it was changed".into());
                let expected = format!("byte {} of work is left as it was", at as i64 - front as i64);
                Err(Box::new(Difference { call, inputs, lent, expected, got }))
            }
        }
    }

    /// The options of a call: all of them, more than there are, or no more than those that are not the default.
    fn options(&self, container: Container, asked: Asked) -> Vec<u64> {
        let turn = self.turn;
        let any = [u64::from(NO_CHANNEL), u64::MAX, 1 << 32][turn % 3];
        let channel = if asked.channel == NO_CHANNEL { any } else { u64::from(asked.channel) };
        let on = [1, 1, 2, u64::MAX, 1 << 32, 1 << 63, 0x100];
        let rule = if asked.tolerant { on[turn % 7] } else { 0 };
        let pcap = if container == Container::Pcap { on[turn / 2 % 7] } else { 0 };
        let checks = if asked.checks { on[turn / 3 % 7] } else { 0 };
        let all = [channel, rule, pcap, checks];
        if turn % 5 < 2 {
            let default = |place: &usize| if *place == 0 { channel > 255 } else { all[*place] == 0 };
            let last = (0..4).rev().find(|place| !default(place));
            return all[..last.map_or(0, |place| place + 1)].to_vec();
        }
        [&all[..], &[0, 1, u64::MAX][..turn % 4]].concat()
    }

    // ---- held to import

    /// What a call that is lent enough tells.
    fn told(&mut self, container: Container, file: &[u8], asked: Asked) -> Told<SIZES> {
        let (mut values, subject) = ([UNSTORED; SIZES], self.subject);
        let number = subject.sizes_with(file, self.enough(file), &list(container, asked), &mut values);
        (number, values)
    }

    /// What import tells that is lent so much output.
    fn imported(&mut self, container: Container, file: &[u8], asked: Asked, out: usize) -> Told<VALUES> {
        let (mut values, subject) = ([UNSTORED; VALUES], self.subject);
        let mut lent = std::mem::take(&mut self.out);
        lent.resize(lent.len().max(out), 0);
        let number =
            subject.import_with(file, self.enough(file), &mut lent[..out], &list(container, asked), &mut values);
        self.out = lent;
        (number, values)
    }

    /// Work for a file.
    fn enough(&mut self, file: &[u8]) -> &mut [u8] {
        let n = 8 * file.len();
        self.work.resize(self.work.len().max(n), 0);
        &mut self.work[..n]
    }

    /// What sizes and import by the same subject tell of a file: import with exactly what is needed is accepted, and with a
    /// byte less refused by 7, which carries it; where the sizes are refused, import is too, with no output and with a big
    /// one.
    fn as_import(&mut self, container: Container, file: &[u8], asked: Asked) -> Checked {
        let (number, values) = self.told(container, file, asked);
        let differs = |expected: String, out: usize, got: Told<VALUES>| {
            Err(Box::new(Difference {
                call: format!("sizes_with and import_with, options {:?}", list(container, asked)),
                inputs: vec![("file", file.to_vec())],
                lent: format!("{out} bytes of output"),
                expected: format!("{expected}, by sizes of number {number} and values {}", shown(&values)),
                got: format!("import has number {} and values {}", got.0, shown(&got.1)),
            }))
        };
        if number != 0 {
            self.refused += 1;
            for out in [0, 8 * file.len().min(LONGEST_FILE)] {
                let import = self.imported(container, file, asked, out);
                let alike = import.0 == number && import.1[..SIZES] == values && import.1[SIZES..] == [UNSTORED; 6];
                if !alike || number == 7 {
                    return differs("the same refusal, and never 7".into(), out, import);
                }
            }
            return Ok(());
        }
        self.needed += 1;
        let needed = values[0];
        if !(LEAST..=8 * file.len() as u64).contains(&needed) {
            return differs("23 bytes needed or more".into(), 0, (number, [UNSTORED; VALUES]));
        }
        let out = needed as usize;
        let import = self.imported(container, file, asked, out);
        if import.0 != 0 || import.1[4] != needed {
            return differs("import writes what is needed".into(), out, import);
        }
        let less = self.imported(container, file, asked, out - 1);
        if less.0 != 7 || less.1[0] != needed || less.1[1..] != [UNSTORED; VALUES - 1] {
            return differs("7 carries what is needed".into(), out - 1, less);
        }
        Ok(())
    }

    /// The laws of the sizes alone, for any file: as import by both rules, in both positions of the switch and with any
    /// channel; records, as the call for records counts them, and PDUs are the same for all of these, and pieces for all
    /// channels; pieces are no more than PDUs, and good ones no more than all.
    fn law_of(&mut self, container: Container, file: &[u8], channel: u32) -> Checked {
        let mut records = [UNSTORED; 2];
        self.subject.records_with(file, &mut [], &list(container, ASKED), &mut records);
        // Records, PDUs and pieces that were told, with the switch off and on.
        let mut all: [Option<[u64; 3]>; 2] = [None; 2];
        for tolerant in [false, true] {
            for (checks, known) in [false, true].into_iter().zip(&mut all) {
                for channel in [channel, NO_CHANNEL, 9, 0] {
                    let asked = Asked { channel, tolerant, checks };
                    self.as_import(container, file, asked)?;
                    let (0, [_, counts @ ..]) = self.told(container, file, asked) else { continue };
                    let before = *known.get_or_insert(counts);
                    if counts != before || counts[0] != records[0] || counts[2] > counts[1] {
                        return Err(self.broken(container, file, asked, records[0], before, counts));
                    }
                }
            }
        }
        match all {
            [Some(off), Some(on)] if off[..2] != on[..2] || on[2] > off[2] => {
                Err(self.broken(container, file, Asked { checks: true, ..ASKED }, records[0], off, on))
            }
            _ => Ok(()),
        }
    }

    fn broken(
        &self,
        container: Container,
        file: &[u8],
        asked: Asked,
        records: u64,
        before: [u64; 3],
        got: [u64; 3],
    ) -> Box<Difference> {
        Box::new(Difference {
            call: format!("sizes_with, options {:?}", list(container, asked)),
            inputs: vec![("file", file.to_vec())],
            lent: "enough".into(),
            expected: format!(
                "{records} records and no more pieces than PDUs; by other options records, PDUs and pieces were {before:?}"
            ),
            got: format!("records, PDUs and pieces {got:?}"),
        })
    }
}

/// Any channel, strict, the FCS not checked.
const ASKED: Asked = Asked { channel: NO_CHANNEL, tolerant: false, checks: false };

/// All four options.
fn list(container: Container, asked: Asked) -> [u64; 4] {
    let pcap = container == Container::Pcap;
    [asked.channel.into(), asked.tolerant.into(), pcap.into(), asked.checks.into()]
}

fn shown(values: &[u64]) -> String {
    let each = values.iter().map(|value| if *value == UNSTORED { "-".into() } else { value.to_string() });
    format!("[{}]", each.collect::<Vec<String>>().join(", "))
}

impl Both for Sizes<'_> {
    fn one(&mut self, container: Container, file: &[u8], channel: u32) -> Checked {
        import::smallest(container, file, &mut |file| self.once(container, file, channel))
    }

    fn turn(&mut self) -> &mut usize {
        &mut self.twins
    }
}

/// Takes the files of one container.
struct Of<'b, 'a>(Container, &'b mut Sizes<'a>);

impl Taker for Of<'_, '_> {
    fn file(&mut self, file: &[u8], channel: u32) -> Checked {
        self.1.one(self.0, file, channel)
    }
}

// ---- fixed traces

/// What is known of a made trace: its records, and the four sizes with the switch off and on, or 6. Bars part the records.
/// They are PDUs by the words of `bytes`, and these: one that is skipped, an ACL packet without its last byte, an empty PDU
/// on CID 4, the beginning of a PDU, and its end.
type Known = (&'static str, Option<[u64; SIZES]>, Option<[u64; SIZES]>);

/// A trace of which the switch makes no difference.
const fn same(words: &'static str, sizes: [u64; SIZES]) -> Known {
    (words, Some(sizes), Some(sizes))
}

const MADE: &[Known] = &[
    // Bytes needed: all spans of the DLCI chosen, with 14 for each.
    same("F", [23, 1, 1, 1]),
    same("F | F", [46, 2, 2, 2]),
    same("F F F", [69, 1, 1, 1]),
    same("3E 3C | F", [39, 2, 2, 2]),
    same("F | 3E 00 3C | 3E 3C", [56, 3, 3, 3]),
    same("F 3E", [23, 1, 1, 1]),
    same("00 F 00", [23, 1, 1, 1]),
    same("h | t", [23, 2, 2, 2]),
    same("h | tx F | t", [46, 3, 3, 3]),
    same("h | sabm | t F", [23, 3, 3, 2]),
    same("F | handle F | adapter F | tx F | cid F", [115, 5, 5, 5]),
    same("F 300x00 3E 300x00 3C", [339, 1, 1, 1]),
    // Records: skipped ones too.
    same("skipped | F", [23, 2, 1, 1]),
    same("F | skipped | skipped", [23, 3, 1, 1]),
    same("lacking | F | lacking", [23, 3, 1, 1]),
    // PDUs: all that are completed.
    same("begin | end | F", [23, 3, 2, 1]),
    same("begin | F", [23, 2, 1, 1]),
    same("F | end", [23, 2, 1, 1]),
    same("begin | begin | end | F", [23, 4, 2, 1]),
    same("begin | F | end", [23, 3, 2, 1]),
    same("F | begin", [23, 2, 1, 1]),
    same("F | empty", [23, 2, 2, 1]),
    same("F | untried F", [23, 2, 2, 1]),
    same("F | psm3", [23, 2, 2, 1]),
    same("psm3 | F | sabm", [23, 3, 3, 1]),
    same("F | open F | open 00", [23, 3, 1, 1]),
    same("F | open 00 | F", [46, 3, 2, 2]),
    // Pieces: of every DLCI but 0, with information.
    same("F | dlci20 F", [23, 2, 2, 2]),
    same("dlci20 F F | F", [46, 2, 2, 2]),
    same("dlci20 3E 3C | F", [23, 2, 2, 2]),
    same("dlci20 3E | dlci19 3C | F", [23, 3, 3, 3]),
    same("F | dlci0 F | dlci19 00", [23, 3, 3, 2]),
    same("F | credit", [23, 2, 2, 1]),
    same("F | credit 00", [23, 2, 2, 2]),
    same("F | dlci20 credit | dlci0 credit", [23, 3, 3, 1]),
    // By the switch.
    ("F | bad F", Some([46, 2, 2, 2]), Some([23, 2, 2, 1])),
    ("bad F | F", Some([46, 2, 2, 2]), Some([23, 2, 2, 1])),
    ("F | bad 3E 3C | bad 00", Some([39, 3, 3, 3]), Some([23, 3, 3, 1])),
    ("h | bad 00 | t F", Some([47, 3, 3, 3]), Some([46, 3, 3, 2])),
    ("h | bad 00 | t", None, Some([23, 3, 3, 2])),
    ("F | dlci20 bad F", Some([23, 2, 2, 2]), Some([23, 2, 2, 1])),
    ("dlci20 bad F F | F", Some([46, 2, 2, 2]), Some([23, 2, 2, 1])),
    ("F | bad credit", Some([23, 2, 2, 1]), Some([23, 2, 2, 1])),
    ("F | untried bad F", Some([23, 2, 2, 1]), Some([23, 2, 2, 1])),
    ("bad F", Some([23, 1, 1, 1]), None),
    // Nothing is needed.
    ("3E 3C", None, None),
    ("dlci0 F | untried F", None, None),
    ("skipped", None, None),
    ("h", None, None),
    // About the limit of 65,536 bytes.
    same("3E 65535x00 | 3C F", [23 + 65_551, 4, 4, 4]),
    same("3E 65536x00 | 3C F", [23, 4, 4, 4]),
];

/// The same by a channel that is asked for.
const CHANNELS: &[(u32, Known)] = &[
    (9, same("dlci20 F F | F", [23, 2, 2, 2])),
    (10, same("dlci20 F F | F", [46, 2, 2, 2])),
    (9, same("dlci19 F | F F", [23, 2, 2, 2])),
    (9, same("dlci19 3E 3C | F F", [46, 2, 2, 2])),
    (10, same("F | dlci20 F | dlci20 F | dlci19 F", [46, 4, 4, 4])),
    (1, ("F | dlci20 F", None, None)),
    (0, ("F", None, None)),
    (255, ("F", None, None)),
    (9, ("bad F | dlci20 F", Some([23, 2, 2, 2]), None)),
];

/// A trace by its words.
fn made(datalink: u32, words: &str) -> Trace {
    let mut trace = Trace::new(datalink);
    let pdu = trace::l2cap(0x41, &[]);
    let whole = trace::acl_packet(0x40, 2, &trace::l2cap(0x41, &[0]));
    for record in words.split('|').map(str::trim) {
        match record {
            "skipped" if datalink == 2001 => trace.record(2, EPOCH, &whole),
            "skipped" => trace.record(2, EPOCH, &[2]),
            "lacking" => trace.acl(Rx, EPOCH, 0, &whole[..whole.len() - 1]),
            "empty" => trace.pdu(Rx, EPOCH, 0x40, 4, &[]),
            "begin" => trace.fragment(Rx, EPOCH, 0x41, 2, &pdu[..2]),
            "end" => trace.fragment(Rx, EPOCH, 0x41, 1, &pdu[2..]),
            words => bytes::send(&mut trace, words),
        }
    }
    trace
}

/// The made traces in each datalink, and as pcap; with a record behind them that is cut, and with any room for values.
fn by_hand(sizes: &mut Sizes) -> Checked {
    let any = MADE.iter().map(|made| (NO_CHANNEL, *made));
    for (channel, (words, off, on)) in any.chain(CHANNELS.iter().copied()) {
        let datalinks = if words.contains("adapter") { &[2001][..] } else { &trace::DATALINKS };
        for (turn, &datalink) in datalinks.iter().enumerate() {
            let known = [off, on].map(|known| match known {
                Some(known) => Answer::done(&known, Vec::new()),
                None => Answer::refused(6, &[]),
            });
            let file = made(datalink, words).file;
            files_by_hand(sizes, Container::Btsnoop, &file, channel, &known, 24)?;
            if !words.contains("adapter") {
                let file = pcap::of_btsnoop(&file, FORMS[(turn + words.len()) % 4]);
                files_by_hand(sizes, Container::Pcap, &file, channel, &known, 16)?;
            }
        }
    }
    // Files that are refused before, and those of the group pcap.
    let example = import::example().file;
    for n in 0..=example.len() {
        sizes.one(Container::Btsnoop, &example[..n], NO_CHANNEL)?;
    }
    containers::fixed().try_for_each(|(file, ..)| sizes.one(Container::Pcap, &file, NO_CHANNEL))?;
    sums::by_hand(sizes, false)?;
    import::fixed(&mut Of(Container::Btsnoop, sizes))
}

/// A whole file, and the same with the beginning of another record's header behind it: of some, each beginning.
fn files_by_hand(
    sizes: &mut Sizes,
    container: Container,
    file: &[u8],
    channel: u32,
    known: &[Answer; 2],
    header: usize,
) -> Checked {
    let tail = file.len() as u64;
    let both = [known.clone(), known.clone()];
    let found = expected::sizes(container, file, &expected::by_both_rules(container, file, channel));
    assert!(found == both, "a made trace has its sizes: {found:?} {file:02X?}");
    sizes.held(container, file, channel, &both)?;
    for (tolerant, checks) in [(false, false), (false, true), (true, false), (true, true)] {
        let asked = Asked { channel, tolerant, checks };
        let expected = &known[usize::from(checks)];
        (0..=SIZES + 1).try_for_each(|room| sizes.call(container, file, asked, 8 * file.len(), room, expected))?;
        sizes.less(container, file, asked, expected)?;
        sizes.as_import(container, file, asked)?;
    }
    if file.len() > 1000 {
        return Ok(());
    }
    let refused = Answer::refused(5, &[tail]);
    let cut = [[refused.clone(), refused], known.clone()];
    let parts = if file.len().is_multiple_of(4) { (1..header).collect() } else { vec![1, header - 1] };
    parts.into_iter().try_for_each(|n| sizes.held(container, &[file, &vec![0; n]].concat(), channel, &cut))
}

// ---- the files of other groups

fn random(sizes: &mut Sizes, rng: &mut Rng, size: u64) -> Checked {
    for container in [Container::Btsnoop, Container::Pcap] {
        containers::random(&mut Of(container, sizes), container, rng, size)?;
        containers::damaged(&mut Of(container, sizes), container, rng, size)?;
    }
    containers::scattered(&mut Of(Container::Pcap, sizes), rng, size)
}

/// Every few steps of what import keys on, and every short part of a file.
fn of_import(sizes: &mut Sizes, rng: &mut Rng, quiet: bool) -> Checked {
    let mut taker = Of(Container::Btsnoop, sizes);
    adapters::by_hand(&mut taker)?;
    import::excess(&mut taker)?;
    import::doubled(&mut taker)?;
    adapters::steps(&mut taker, if quiet { 2 } else { 3 })?;
    if quiet {
        return Ok(());
    }
    import::short(&mut taker, rng)?;
    import::one_byte(&mut taker)?;
    import::fragments(&mut taker)?;
    import::packets(&mut taker)?;
    import::signalling(&mut taker)?;
    import::rfcomm(&mut taker)?;
    import::stretches(&mut taker)?;
    import::choices(&mut taker)
}

fn of_pcap(sizes: &mut Sizes, rng: &mut Rng, quiet: bool) -> Checked {
    let mut taker = Of(Container::Pcap, sizes);
    import::excess(&mut Converted::new(&mut taker))?;
    containers::most(&mut taker, if quiet { 60 } else { 500 })?;
    if quiet {
        return Ok(());
    }
    containers::short(&mut taker, rng)?;
    containers::one_byte(&mut taker)?;
    containers::packets(&mut taker)?;
    import::fragments(&mut Converted::new(&mut taker))
}

fn of_fcs(sizes: &mut Sizes, quiet: bool) -> Checked {
    sums::in_fragments(sizes)?;
    sums::steps(sizes, if quiet { 2 } else { 4 })?;
    sums::short_frames(sizes, if quiet { 3 } else { 5 })
}

/// Long buffers, and files of up to 1,048,576 bytes and over.
fn long(sizes: &mut Sizes, rng: &mut Rng, quiet: bool) -> Checked {
    let mut taker = Of(Container::Btsnoop, sizes);
    taker.file(&vec![0; LONGEST_FILE + 1], NO_CHANNEL)?;
    taker.file(&import::filled(rng, LONGEST_FILE).0.file, NO_CHANNEL)?;
    if quiet {
        return Ok(());
    }
    import::limits(&mut |file| taker.file(file, NO_CHANNEL), rng)?;
    import::large(&mut taker, rng)?;
    let mut taker = Of(Container::Pcap, sizes);
    containers::hard_traces(&mut taker, &[16, 128])?;
    containers::large(&mut taker, rng)?;
    sums::most(sizes, 500)
}

// ---- honest recordings

/// A cut of an honest recording. Where it is honest, what is needed is the length of the list that is left; the records are
/// those left, by the recording alone.
fn cut(sizes: &mut Sizes, container: Container, recording: &Honest, n: usize) -> Checked {
    let file = &recording.file[..n];
    let tail = recording.ends.iter().copied().take_while(|end| *end <= n).last().unwrap_or(recording.head);
    let left = tolerant::due(container, recording, n);
    let counts = expected::counts(container, file).map(|[_, pdus, pieces]| [recording.records(n), pdus, pieces]);
    let left = [left[0].sizes(counts[0]), left[1].sizes(counts[1])];
    let refused = Answer::refused(5, &[tail as u64]);
    let strict = if tail < n { [refused.clone(), refused] } else { left.clone() };
    sizes.held(container, file, recording.channel(), &[strict, left])
}

/// Many short recordings, cut where a record ends, and every cut of others.
fn cuts(sizes: &mut Sizes, rng: &mut Rng, size: u64) -> Checked {
    let containers = [Container::Btsnoop, Container::Pcap];
    for i in 0..10 * size as usize {
        for container in containers {
            let recording = honest::recording_in(rng, container, KINDS[i % 3], honest::SMALL);
            recording.ends.iter().try_for_each(|&n| cut(sizes, container, &recording, n))?;
        }
    }
    containers.into_iter().try_for_each(|container| {
        tolerant::each_cut(rng, container, size, &mut |recording, n| cut(sizes, container, recording, n))
    })
}

// ---- the laws

fn law(sizes: &mut Sizes, rng: &mut Rng, size: u64) -> Checked {
    for i in 0..size {
        for container in [Container::Btsnoop, Container::Pcap] {
            let (trace, channel) = trace::structured_in(rng, container, if i % 100 == 0 { 600 } else { 60 });
            let damaged = trace::damaged(rng, &trace);
            let honest = honest::recording_in(rng, container, KINDS[i as usize % 3], honest::SMALL);
            let n = rng.within(honest.head, honest.file.len());
            for file in [&trace.file, &damaged, &honest.file[..n]] {
                import::smallest(container, file, &mut |file| sizes.law_of(container, file, channel))?;
            }
        }
    }
    for (words, ..) in MADE {
        let file = made(2001, words).file;
        let pcap = pcap::of_btsnoop(&file, FORMS[words.len() % 4]);
        sizes.law_of(Container::Btsnoop, &file, NO_CHANNEL)?;
        sizes.law_of(Container::Pcap, &pcap, NO_CHANNEL)?;
        // Of the other container, and without a header.
        sizes.law_of(Container::Pcap, &file, NO_CHANNEL)?;
        sizes.law_of(Container::Btsnoop, &pcap[..pcap.len().min(15)], NO_CHANNEL)?;
    }
    for length in [LONGEST_FILE, LONGEST_FILE + 1] {
        sizes.law_of(Container::Btsnoop, &import::filled(rng, length).0.file, NO_CHANNEL)?;
    }
    Ok(())
}

// ---- the group and its parts

pub fn run(subject: &dyn Subject, options: &Options) -> Checked {
    let (size, quiet) = (options.size.unwrap_or(50_000), options.quiet);
    let mut rng = Rng::new(options.seed);
    let mut log = options.log("sizes");
    let mut sizes = Sizes::new(subject);
    by_hand(&mut sizes)?;
    log.line("fixed files", &sizes.lender);
    random(&mut sizes, &mut rng, size / 5)?;
    log.line("random and damaged traces", &sizes.lender);
    cuts(&mut sizes, &mut rng, size / 500)?;
    log.line("every cut of honest recordings", &sizes.lender);
    of_import(&mut sizes, &mut rng, quiet)?;
    log.line("the short files of import", &sizes.lender);
    of_pcap(&mut sizes, &mut rng, quiet)?;
    log.line("the short files of pcap", &sizes.lender);
    of_fcs(&mut sizes, quiet)?;
    log.line("the short files of fcs", &sizes.lender);
    long(&mut sizes, &mut rng, quiet)?;
    log.line("long buffers, and files of up to 1,048,576 bytes", &sizes.lender);
    log.total(sizes.answers());
    law(&mut sizes, &mut rng, size / 20)?;
    if !quiet {
        println!(
            "sizes: import with as much output as {} answers told and with a byte less; with none and with much where {} were refused",
            sizes.needed, sizes.refused
        );
    }
    Ok(())
}

impl Sizes<'_> {
    /// How many calls were to be answered with each number.
    fn answers(&self) -> &[u64; NUMBERS] {
        &self.lender.answers
    }
}

/// One part alone; in a short run more of what is random.
pub fn run_by_hand(subject: &dyn Subject, _: &Options) -> Checked {
    by_hand(&mut Sizes::new(subject))
}

pub fn run_random(subject: &dyn Subject, options: &Options) -> Checked {
    let size = options.size.unwrap_or(50_000).max(500);
    random(&mut Sizes::new(subject), &mut Rng::new(options.seed), size)
}

pub fn run_honest(subject: &dyn Subject, options: &Options) -> Checked {
    cuts(&mut Sizes::new(subject), &mut Rng::new(options.seed), options.size.unwrap_or(50_000) / 500 + 10)
}

pub fn run_long(subject: &dyn Subject, options: &Options) -> Checked {
    long(&mut Sizes::new(subject), &mut Rng::new(options.seed), true)
}

pub fn run_law(subject: &dyn Subject, options: &Options) -> Checked {
    law(&mut Sizes::new(subject), &mut Rng::new(options.seed), options.size.unwrap_or(50_000).max(200) / 2)
}
