//! A fixed list of the oracle's answers, for a program that replays them where no
//! Rust is at hand. The layout is in README.md.

use crate::adapters;
use crate::answer::{Answer, NO_CHANNEL};
use crate::codec;
use crate::expected;
use crate::honest;
use crate::import;
use crate::items::{self, kind_of, Span};
use crate::model::packed;
use crate::names::command_words;
use crate::order;
use crate::plan;
use crate::rng::Rng;
use crate::trace;
use oracle::capture::{self, Direction};

/// A sample does not change with the command line.
const SEED: u64 = 20_261_115;

struct Sample {
    bytes: Vec<u8>,
    cases: u64,
}

impl Sample {
    fn case(&mut self, op: u8, numbers: &[u8], inputs: &[&[u8]], lent: usize, answer: &Answer) {
        let answer = answer.within(lent);
        self.bytes.push(op);
        self.bytes.extend(numbers);
        for input in inputs {
            self.counted(input);
        }
        self.bytes.extend((lent as u32).to_le_bytes());
        self.bytes.extend(answer.number.to_le_bytes());
        self.bytes.push(answer.values.len() as u8);
        answer.values.iter().for_each(|v| self.bytes.extend(v.to_le_bytes()));
        self.counted(&answer.written);
        self.cases += 1;
    }

    fn counted(&mut self, bytes: &[u8]) {
        self.bytes.extend((bytes.len() as u32).to_le_bytes());
        self.bytes.extend(bytes);
    }

    /// The case with as much lent as needed, and with a byte less and more.
    fn about(&mut self, op: u8, numbers: &[u8], inputs: &[&[u8]], answer: &Answer) {
        let needed = answer.written.len();
        self.case(op, numbers, inputs, needed + if answer.number == 0 { 0 } else { 5 }, answer);
        if answer.number == 0 && needed > 0 {
            self.case(op, numbers, inputs, needed - 1, answer);
        }
        if self.cases.is_multiple_of(3) {
            self.case(op, numbers, inputs, needed + 1, answer);
        }
    }

    fn unpack(&mut self, wire: &[u8]) {
        self.about(1, &[0, 0], &[wire], &expected::unpack(wire));
    }

    fn pack(&mut self, kind: u8, seq: u8, payload: &[u8]) {
        self.about(2, &[kind, seq], &[payload], &expected::pack(kind, seq, payload));
    }

    fn fixture_name(&mut self, ms: u64, counter: u32, direction: Direction, wire: &[u8]) {
        let mut numbers = ms.to_le_bytes().to_vec();
        numbers.extend(counter.to_le_bytes());
        numbers.push(kind_of(direction) as u8);
        self.about(3, &numbers, &[wire], &expected::fixture_name(ms, counter, direction, wire));
    }

    fn is_command_name(&mut self, name: &str) {
        let answer = Answer::refused(u32::from(capture::is_command_name(name)), &[]);
        self.case(4, &[], &[name.as_bytes()], 0, &answer);
    }

    fn plan(&mut self, spans: &[u8], excluded: &[u8]) {
        self.about(5, &[], &[spans, excluded], &expected::plan(spans, excluded).expect("UTF-8"));
    }

    fn capture_order(&mut self, names: &[u8]) {
        self.about(6, &[], &[names], &expected::capture_order(names).expect("UTF-8"));
    }

    fn import_strict(&mut self, file: &[u8], channel: u32) {
        self.about(7, &channel.to_le_bytes(), &[file], &expected::import_strict(file, channel));
    }

    fn import_tolerant(&mut self, file: &[u8], channel: u32) {
        self.about(8, &channel.to_le_bytes(), &[file], &expected::import_tolerant(file, channel));
    }
}

/// 01's examples of refusals 10 to 17.
pub const REFUSED: [&[u8]; 8] = [
    &[],
    &[0, 0, 0, 0, 0, 0, 0, 0, 0],
    &[0x3E, 0, 0, 0, 0, 0, 0, 0, 0],
    &[0x3E, 0, 0, 0, 0, 0, 0, 0x3D, 0x3C],
    &[0x3E, 0x3D, 0, 0, 0, 0, 0, 0, 0x3C],
    &[0x3E, 0x3D, 0x2C, 0, 0, 0, 0, 0, 0x3C],
    &[0x3E, 1, 0, 0, 0, 0, 1, 2, 0x3C],
    &[0x3E, 1, 0, 0, 0, 0, 0, 2, 0x3C],
];

fn codec_cases(sample: &mut Sample, rng: &mut Rng) {
    for wire in REFUSED {
        sample.unpack(wire);
    }
    for kind in [0x00, 0x01, 0x0C, 0x3C, 0x3D, 0x3E, 0xFF] {
        for payload in [&[][..], &[0x22], &[0x3C], &[0x3D, 0x3D], &[0x2C, 0x3E, 0x2D], &[0xFF; 9]] {
            sample.pack(kind, 0x01, payload);
            sample.unpack(&packed(kind, 0x01, payload));
        }
    }
    for _ in 0..60 {
        let n = rng.below(20);
        let payload = codec::payload(rng, n);
        let wire = codec::mislength(rng, &payload);
        sample.unpack(&wire);
        let (kind, seq) = (codec::kind(rng), rng.byte());
        sample.pack(kind, seq, &payload);
        let mut wire = packed(kind, seq, &payload);
        sample.unpack(&wire);
        codec::damage(rng, &mut wire);
        sample.unpack(&wire);
    }
    for n in [255, 256, 257, 1000] {
        let payload = codec::payload(rng, n);
        let (kind, seq) = (codec::kind(rng), rng.byte());
        sample.case(2, &[kind, seq], &[&payload], 3000, &expected::pack(kind, seq, &payload));
        let wire = packed(kind, seq, &payload);
        sample.case(1, &[0, 0], &[&wire], 1000, &expected::unpack(&wire));
    }
    // The longest payload that is packed, and one more, which is not.
    let longest = vec![0; 32_760];
    sample.case(2, &[1, 0], &[&longest], 32_769, &expected::pack(1, 0, &longest));
    let longer = vec![0; 32_761];
    sample.case(2, &[1, 0], &[&longer], 8, &expected::pack(1, 0, &longer));
}

fn name_cases(sample: &mut Sample, rng: &mut Rng) {
    for wire in REFUSED {
        sample.fixture_name(1, 1, Direction::Rx, wire);
    }
    for kind in 0..=255 {
        let payload: &[u8] = if kind % 2 == 0 { &[] } else { &[0x22] };
        let direction = if kind % 3 == 0 { Direction::Tx } else { Direction::Rx };
        sample.fixture_name(
            rng.next() >> (kind % 64),
            rng.next() as u32 >> (kind % 32),
            direction,
            &packed(kind, rng.byte(), payload),
        );
    }
    for kind in [0x0C, 0x0E] {
        for first in 0..=255 {
            let wire = packed(kind, 0, &[first]);
            let answer = expected::fixture_name(0, 1, Direction::Rx, &wire);
            let numbers = [0, 0, 0, 0, 0, 0, 0, 0, 1, 0, 0, 0, 1];
            sample.case(3, &numbers, &[&wire], 118, &answer);
        }
    }
    for word in command_words() {
        sample.is_command_name(word);
        sample.is_command_name(&word[1..]);
        sample.is_command_name(&word[..word.len() - 1]);
    }
    sample.is_command_name("");
}

fn plan_cases(sample: &mut Sample, rng: &mut Rng) {
    let words = command_words();
    for _ in 0..150 {
        let spans: Vec<Span> = (0..rng.below(5)).map(|_| plan::random_span(rng)).collect();
        let excluded = plan::random_excluded(rng, &spans, &words);
        sample.plan(&items::span_list(&spans), &items::name_list(&excluded));
    }
    let spans = items::span_list(&[(1, Direction::Rx, packed(0x0C, 0, &[0x22])), (2, Direction::Tx, vec![])]);
    let excluded = items::name_list(&["UNKNOWN", "x"]);
    for n in 0..spans.len() {
        sample.plan(&spans[..n], &excluded);
    }
    for n in 0..excluded.len() {
        sample.plan(&spans, &excluded[..n]);
    }
}

fn order_cases(sample: &mut Sample, rng: &mut Rng) {
    let odd = order::odd_names();
    for _ in 0..200 {
        let names: Vec<String> = (0..rng.below(9)).map(|_| order::random_name(rng, &odd)).collect();
        sample.capture_order(&items::name_list(&names));
    }
    let list = items::name_list(&odd[..3]);
    for n in 0..list.len() {
        sample.capture_order(&list[..n]);
    }
}

/// Traces small enough for the sample, most of them with something to import, and a third of more than one adapter.
fn traces(rng: &mut Rng, count: usize) -> Vec<(trace::Trace, u32)> {
    let mut traces = Vec::new();
    while traces.len() < count {
        let (trace, channel) = trace::plain(rng, 20);
        let wanted = expected::import_strict(&trace.file, channel).number == if traces.len() % 4 == 3 { 6 } else { 0 };
        let many = traces.len() % 3 == 2;
        if wanted && trace.file.len() < 1200 && many == (expected::adapters(&trace.file) > 1) {
            traces.push((trace, channel));
        }
    }
    traces
}

fn import_cases(sample: &mut Sample, rng: &mut Rng) {
    let example = import::example().file;
    for n in 0..=example.len() {
        sample.import_strict(&example[..n], NO_CHANNEL);
    }
    for datalink in trace::DATALINKS {
        sample.import_strict(&import::small(datalink).file, NO_CHANNEL);
    }
    for file in adapters::short() {
        sample.import_strict(&file, NO_CHANNEL);
    }
    for (trace, channel) in traces(rng, 60) {
        sample.import_strict(&trace.file, channel);
        sample.import_strict(&trace::damaged(rng, &trace), channel);
    }
}

fn tolerant_cases(sample: &mut Sample, rng: &mut Rng) {
    let example = import::example().file;
    for n in 0..=example.len() {
        sample.import_tolerant(&example[..n], NO_CHANNEL);
    }
    let mut made = 0;
    while made < 6 {
        let recording = honest::recording(rng, honest::Scale { links: 2, frames: 2, ..honest::SMALL });
        let (length, many) = (recording.file.len(), made % 2 == 1);
        if length > 1000 || recording.left(length).number != 0 || many != (expected::adapters(&recording.file) > 1) {
            continue;
        }
        made += 1;
        for _ in 0..15 {
            let n = rng.within(16, length);
            sample.import_tolerant(&recording.file[..n], recording.channel());
        }
    }
    for (trace, channel) in traces(rng, 24) {
        let n = rng.within(16, trace.file.len());
        sample.import_tolerant(&trace.file[..n], channel);
    }
}

/// The sample of a group, and its number of cases.
pub fn of(group: &str) -> Option<(Vec<u8>, u64)> {
    let make = match group {
        "codec" => codec_cases,
        "names" => name_cases,
        "plan" => plan_cases,
        "order" => order_cases,
        "import" => import_cases,
        "tolerant" => tolerant_cases,
        _ => return None,
    };
    let mut sample = Sample { bytes: Vec::new(), cases: 0 };
    make(&mut sample, &mut Rng::new(SEED));
    Some((sample.bytes, sample.cases))
}
