//! The program `traceprint` held to the oracle: what it prints of the first 4,096
//! bytes of its input, and that it ends with status 0.

use std::io::{self, ErrorKind, Write};
use std::process::{ChildStdin, Command, Stdio};
use std::time::Duration;

use crate::answer::{Answer, Checked, Difference, NO_CHANNEL, NUMBERS};
use crate::expected;
use crate::honest;
use crate::import::{ack, filled, small};
use crate::items;
use crate::model::packed;
use crate::rng::Rng;
use crate::trace::{self, Trace};
use crate::Options;
use oracle::capture::Direction::{self, Rx, Tx};
use oracle::capture::BTSNOOP_EPOCH_DELTA_US as EPOCH;

/// How much of its input the program reads.
pub const READ: usize = 4096;

/// How a good run ends.
pub const GOOD: &str = "exit status: 0";

/// 01's worked example and what it prints.
const EXAMPLE: &[u8] = include_bytes!("../../crates/traceprint/stdin");
const EXAMPLE_PRINTS: &str = "\
dlci 18 frames 1 unfinished 0
mdr-packet-0-000001-rx.type-ACK-01.seq-00.cmd-NO_COMMAND-00.bin
";

/// How a run ended and its standard output.
#[derive(PartialEq)]
pub struct Printed {
    pub ended: String,
    pub text: Vec<u8>,
}

/// What is held to the oracle. Its input comes in parts, one after another.
pub type Printer<'a> = &'a dyn Fn(&[&[u8]]) -> Printed;

// What is to be printed.

fn refusal(answer: &Answer) -> String {
    let values: String = answer.values.iter().map(|v| format!(" {v}")).collect();
    format!("refused {}{values}\n", answer.number)
}

/// 01's lines for the answer of an import. `plan` plans its spans, nothing excluded.
pub fn lines(imported: &Answer, plan: &dyn Fn(&[u8]) -> Answer) -> String {
    if imported.number != 0 {
        return refusal(imported);
    }
    let planned = plan(&imported.written);
    if planned.number != 0 {
        return refusal(&planned);
    }
    let values = &imported.values;
    let mut text = format!("dlci {} frames {} unfinished {}\n", values[0], values[1], values[2]);
    for name in items::read_fixture_names(&planned.written).expect("a plan is well-formed") {
        text += &String::from_utf8(name).expect("names are ASCII");
        text.push('\n');
    }
    text
}

/// The oracle's answer for an input, in its number and its lines.
fn asked(input: &[u8]) -> (u32, String) {
    let imported = expected::import_strict(&input[..input.len().min(READ)], NO_CHANNEL);
    let plan = |spans: &[u8]| expected::plan(spans, &[]).expect("no name is excluded");
    (imported.number, lines(&imported, &plan))
}

// The program.

/// Writes the parts with a pause after each but the last. A program that has read
/// enough may be gone before.
fn feed(mut stdin: ChildStdin, parts: &[&[u8]]) -> io::Result<()> {
    for (i, part) in parts.iter().enumerate() {
        if i > 0 {
            std::thread::sleep(Duration::from_millis(20));
        }
        match stdin.write_all(part) {
            Err(e) if e.kind() == ErrorKind::BrokenPipe => return Ok(()),
            written => written?,
        }
    }
    Ok(())
}

/// One run of the program. It is fed from a thread of its own, so that neither side
/// waits for the other.
fn start(program: &str, parts: &[&[u8]]) -> io::Result<Printed> {
    let mut child = Command::new(program).stdin(Stdio::piped()).stdout(Stdio::piped()).spawn()?;
    let stdin = child.stdin.take().expect("a pipe");
    let (fed, output) = std::thread::scope(|scope| {
        let feeder = scope.spawn(|| feed(stdin, parts));
        let output = child.wait_with_output();
        (feeder.join().expect("the feeder does not panic"), output)
    });
    fed?;
    let output = output?;
    Ok(Printed { ended: output.status.to_string(), text: output.stdout })
}

// The inputs.

struct Runs<'a> {
    printer: Printer<'a>,
    /// How many runs were to answer with each number.
    answers: [u64; NUMBERS],
}

impl Runs<'_> {
    fn input(&mut self, input: &[u8]) -> Checked {
        self.parts(&[input])
    }

    fn parts(&mut self, parts: &[&[u8]]) -> Checked {
        let (number, text) = asked(&parts.concat());
        self.answers[number as usize] += 1;
        self.held(parts, &text)
    }

    /// An input of which 01 says what is printed: the oracle's lines are held to it too.
    fn stated(&mut self, input: &[u8], text: &str) -> Checked {
        let (_, lines) = asked(input);
        if lines != text {
            let oracle = Printed { ended: GOOD.into(), text: lines.into_bytes() };
            return Err(differs("the oracle's lines against 01's", &[input], text, &oracle));
        }
        self.input(input)
    }

    fn held(&self, parts: &[&[u8]], text: &str) -> Checked {
        let got = (self.printer)(parts);
        if got.ended == GOOD && got.text == text.as_bytes() {
            return Ok(());
        }
        Err(differs("traceprint", parts, text, &got))
    }
}

fn differs(call: &str, parts: &[&[u8]], text: &str, got: &Printed) -> Box<Difference> {
    let sizes: Vec<String> = parts.iter().map(|part| part.len().to_string()).collect();
    Box::new(Difference {
        call: call.into(),
        inputs: vec![("input", parts.concat())],
        lent: format!("standard input in parts of {} bytes", sizes.join(", ")),
        expected: format!("{GOOD}, {text:?}"),
        got: format!("{}, {:?}", got.ended, String::from_utf8_lossy(&got.text)),
    })
}

/// 01's example, then each beginning of it.
fn example(runs: &mut Runs) -> Checked {
    runs.stated(EXAMPLE, EXAMPLE_PRINTS)?;
    runs.stated(&EXAMPLE[..EXAMPLE.len() - 1], "refused 5 16\n")?;
    (0..EXAMPLE.len() - 1).rev().try_for_each(|n| runs.input(&EXAMPLE[..n]))
}

/// Bare headers, good and bad, and each beginning of a trace of each datalink.
fn headers(runs: &mut Runs) -> Checked {
    runs.stated(&[], "refused 3\n")?;
    runs.stated(&Trace::new(1003).file, "refused 4 1003\n")?;
    for datalink in trace::DATALINKS {
        runs.stated(&Trace::new(datalink).file, "refused 6\n")?;
        let good = small(datalink).file;
        (0..=good.len()).try_for_each(|n| runs.input(&good[..n]))?;
    }
    for datalink in [0, 1000, 2000, 2002, 1 << 31, u32::MAX] {
        runs.input(&Trace::new(datalink).file)?;
    }
    let mut version = EXAMPLE.to_vec();
    version[11] = 2;
    runs.input(&version)?;
    runs.input(&vec![0; READ])?;
    runs.input(&vec![0; 2 * READ])
}

fn data(trace: &mut Trace, direction: Direction, stamp: u64, handle: u16, information: &[u8]) {
    trace.pdu(direction, stamp, handle, 0x41, &trace::uih(18, information, None, true));
}

/// A trace with one piece of data.
fn piece(datalink: u32, direction: Direction, stamp: u64, information: &[u8]) -> Vec<u8> {
    let mut trace = Trace::new(datalink);
    data(&mut trace, direction, stamp, 0x40, information);
    trace.file
}

/// Frames up to a record that ends at `at`, about 4,096, and more frames after it.
fn crossing(datalink: u32, at: usize) -> Vec<u8> {
    let mut trace = Trace::new(datalink);
    for seq in 0..80 {
        data(&mut trace, if seq % 3 == 0 { Tx } else { Rx }, EPOCH + 700 * u64::from(seq), 0x40, &ack(seq));
    }
    let rest = at - trace.file.len() - 24;
    trace.record(2, EPOCH, &vec![0; rest]);
    for seq in 80..90 {
        data(&mut trace, Rx, EPOCH, 0x40, &ack(seq));
    }
    trace.file
}

/// Traces that go on past what is read, with a record's end at and about there.
fn crossings(runs: &mut Runs) -> Checked {
    for datalink in trace::DATALINKS {
        for at in READ - 60..=READ + 60 {
            let file = crossing(datalink, at);
            runs.input(&file)?;
            runs.input(&file[..at])?;
        }
    }
    Ok(())
}

/// Frames crossing each other on two handles, cut after each record.
fn two_links(runs: &mut Runs) -> Checked {
    let (one, other) = (ack(1), packed(0x0C, 2, &[0x22, 0x3D]));
    for datalink in trace::DATALINKS {
        let mut trace = Trace::new(datalink);
        for (at, direction) in [(4, Rx), (5, Tx), (7, Rx)] {
            data(&mut trace, direction, EPOCH + 1000, 0x40, &one[..at]);
            data(&mut trace, direction, EPOCH + 2000, 0x41, &other[..at]);
            data(&mut trace, direction, EPOCH + 3000, 0x40, &one[at..]);
            data(&mut trace, direction, EPOCH + 4000, 0x41, &other[at..]);
        }
        trace.pdu(Rx, EPOCH, 0x41, 0x41, &trace::uih(20, &one, None, false));
        trace.ends.iter().try_for_each(|end| runs.input(&trace.file[..*end]))?;
    }
    Ok(())
}

/// Spans that do not unpack, before, between and after ones that do, and alone.
fn broken_spans(runs: &mut Runs) -> Checked {
    let good = ack(1);
    let mut summed = ack(2);
    summed[7] ^= 1;
    for broken in [&[0x3E, 0x3C][..], &summed, &[0x3E, 0x3D, 0, 0, 0, 0, 0, 0, 0x3C]] {
        for order in [&[broken][..], &[broken, &good], &[&good, broken], &[&good, broken, broken, &good]] {
            runs.input(&piece(1002, Rx, EPOCH, &order.concat()))?;
        }
    }
    Ok(())
}

/// Times at the ends of what a record can say.
fn stamps(runs: &mut Runs) -> Checked {
    for datalink in trace::DATALINKS {
        for stamp in [0, EPOCH - 1, EPOCH, EPOCH + 999, EPOCH + 1000, 1 << 63, u64::MAX - 1, u64::MAX] {
            runs.input(&piece(datalink, Tx, stamp, &ack(0)))?;
        }
    }
    Ok(())
}

/// A trace of at most what is read, full of `unit` after a good frame.
fn full_of(unit: &[u8]) -> Vec<u8> {
    let mut information = ack(0);
    let room = READ - piece(1001, Rx, u64::MAX, &information).len();
    information.extend(unit.repeat(room / unit.len()));
    piece(1001, Rx, u64::MAX, &information)
}

/// The frame of one byte of payload that has the longest name.
fn longest_name() -> Vec<u8> {
    let frames = [0x0C, 0x0E].into_iter().flat_map(|kind| (0..=255).map(move |b| packed(kind, 255, &[b])));
    frames.max_by_key(|wire| expected::fixture_name(u64::MAX, 1, Tx, wire).written.len()).expect("some frame")
}

/// Every command, and the most spans, names and letters that fit.
fn fullest(runs: &mut Runs) -> Checked {
    for kind in 0..=255 {
        let frames: Vec<u8> = (0..=255).flat_map(|b| packed(kind, b, &[b])).collect();
        runs.input(&piece(2001, Rx, EPOCH, &frames))?;
    }
    for unit in [&ack(0)[..], &[0x3E, 0x3C], &[0x3E], &longest_name()] {
        runs.input(&full_of(unit))?;
    }
    Ok(())
}

/// Inputs that do not come all at once.
fn in_parts(runs: &mut Runs) -> Checked {
    for at in [1, 16, 40, EXAMPLE.len() - 1] {
        runs.parts(&[&EXAMPLE[..at], &EXAMPLE[at..]])?;
    }
    let long = crossing(1002, READ);
    for at in [1, 2000, READ - 1, READ, READ + 1] {
        runs.parts(&[&long[..at], &long[at..]])?;
    }
    runs.parts(&[&long[..100], &long[100..200], &long[200..READ]])
}

/// The file, or if it is longer than what is read, mostly its whole records in that.
fn shortened<'a>(rng: &mut Rng, file: &'a [u8], ends: &[usize]) -> &'a [u8] {
    if file.len() <= READ || rng.percent(20) {
        return file;
    }
    let end = ends.iter().copied().take_while(|end| *end <= READ).last();
    &file[..end.unwrap_or(16)]
}

fn random(runs: &mut Runs, rng: &mut Rng, size: u64) -> Checked {
    for _ in 0..size {
        let events = rng.pick(&[5, 20, 60, 200]);
        let (trace, _) = trace::structured(rng, events);
        runs.input(shortened(rng, &trace.file, &trace.ends))?;
    }
    for _ in 0..size / 4 {
        let length = rng.within(READ - 40, READ + 40);
        runs.input(&filled(rng, length).0.file)?;
    }
    Ok(())
}

fn damaged(runs: &mut Runs, rng: &mut Rng, size: u64) -> Checked {
    for _ in 0..size {
        let (trace, _) = trace::structured(rng, 30);
        runs.input(&trace::damaged(rng, &trace))?;
    }
    Ok(())
}

fn honest_ones(runs: &mut Runs, rng: &mut Rng, size: u64) -> Checked {
    for _ in 0..size {
        let recording = honest::recording(rng, honest::SMALL);
        runs.input(shortened(rng, &recording.file, &recording.ends))?;
    }
    Ok(())
}

pub fn run(printer: Printer, options: &Options) -> Checked {
    let size = options.size.unwrap_or(400);
    let mut rng = Rng::new(options.seed);
    let mut runs = Runs { printer, answers: [0; NUMBERS] };
    let mut log = options.log("traceprint");
    example(&mut runs)?;
    log.counts("01's example and every beginning of it", &runs.answers);
    headers(&mut runs)?;
    log.counts("headers and every beginning of small traces", &runs.answers);
    crossings(&mut runs)?;
    log.counts("records about byte 4,096", &runs.answers);
    two_links(&mut runs)?;
    log.counts("two links", &runs.answers);
    broken_spans(&mut runs)?;
    log.counts("spans that do not unpack", &runs.answers);
    stamps(&mut runs)?;
    log.counts("first and last times", &runs.answers);
    fullest(&mut runs)?;
    log.counts("every command, and the fullest traces", &runs.answers);
    in_parts(&mut runs)?;
    log.counts("inputs in parts", &runs.answers);
    random(&mut runs, &mut rng, size)?;
    log.counts("random traces", &runs.answers);
    damaged(&mut runs, &mut rng, size / 2)?;
    log.counts("damaged traces", &runs.answers);
    honest_ones(&mut runs, &mut rng, size / 2)?;
    log.counts("honest recordings", &runs.answers);
    log.total(&runs.answers);
    Ok(())
}

/// The program at a path.
pub fn run_program(program: &str, options: &Options) -> Checked {
    let printer = |parts: &[&[u8]]| {
        start(program, parts).unwrap_or_else(|e| Printed { ended: format!("no run: {e}"), text: Vec::new() })
    };
    run(&printer, options)
}
