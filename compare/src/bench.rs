//! Times of the subject and of the oracle, from one driver and in one run: their
//! repetitions take turns, and the ratio is the median of the turns' ratios. `least` is the
//! ratio of the least times.
//!
//! Before a row is timed, the answer is held against the oracle's. Buffers are allocated
//! once and never cleared between calls. The oracle allocates what it answers, and that is
//! part of its time, but the allocator has the memory already.

use std::cell::RefCell;
use std::collections::BTreeSet;
use std::hint::black_box;
use std::path::Path;

use crate::alone;
use crate::answer::{
    Answer, Case, Checked, Container, Difference, Lender, Stream, Subject, LISTED, NO_CHANNEL, SIZES, VALUES,
};
use crate::containers;
use crate::expected::{self, LONGEST_FILE};
use crate::gaps;
use crate::hard::{self, Hard};
use crate::import::ack;
use crate::items::{self, Span};
use crate::model::{self, packed};
use crate::pcap::{self, Form, FORMS};
use crate::rng::Rng;
use crate::times;
use crate::Options;
use oracle::capture::Direction::Rx;
use oracle::capture::{self, Imported};
use oracle::mdr::frame;
use oracle::mdr::DataType;

/// No row of these groups is to be slower than the oracle.
const ANY: Option<f64> = Some(1.0);
/// What the first name of the tables is to take at most: the oracle finds it by one comparison.
const FIRST_NAME: Option<f64> = Some(5.0);
/// What our growth is to be at most, divided by that of the bytes.
const GROWTH: f64 = 1.1;
/// What one handle on many adapters is to cost at most, divided by links that are spread over handles.
const ADAPTERS: f64 = 1.1;
/// What packets in pcap are to cost at most, divided by the same in btsnoop.
const PCAP: f64 = 1.1;
/// What an import that checks the FCS is to cost at most, divided by one that does not.
const FCS: f64 = 1.1;

/// What the sizes of a file, and the list of one of its links, are to cost at most, divided by its import; and where both do
/// the same, as import writes a single span or nearly all packets are of the link, so that chance says which takes longer.
const SIZED: f64 = 1.0;
const EVEN: f64 = 1.02;

/// The rows of a run, and those that are over their limit.
struct Bench<'a> {
    subject: &'a dyn Subject,
    options: &'a Options,
    judged: usize,
    over: Vec<String>,
}

/// What a row is about.
struct Row<'a> {
    label: &'a str,
    bytes: usize,
    limit: Option<f64>,
    /// What a copy of is timed as well; a call is one for each of these, if there are any.
    copied: &'a [Vec<u8>],
}

impl Bench<'_> {
    fn wants(&self, label: &str) -> bool {
        self.options.only.as_ref().is_none_or(|text| label.contains(text.as_str()))
    }

    fn head(&self, what: &str, copies: bool) {
        print!("{what:64} {:>10} {:>10} {:>10} {:>7} {:>7}", "bytes", "ours", "Rust", "ratio", "least");
        println!("{}", if copies { "  copies" } else { "" });
    }

    /// One row: both calls timed in turns, and copies of the inputs.
    fn row(&mut self, row: Row, ours: &mut dyn FnMut(), rust: &mut dyn FnMut()) {
        let mut to = vec![0; row.copied.iter().map(Vec::len).max().unwrap_or(0)];
        let mut copy = || {
            for bytes in row.copied {
                to[..bytes.len()].copy_from_slice(black_box(bytes));
                black_box(&mut to);
            }
        };
        let mut sides: Vec<&mut dyn FnMut()> = vec![ours, rust];
        if !row.copied.is_empty() {
            sides.push(&mut copy);
        }
        let times = times::turns(&mut sides);
        let (a, b) = (&times[0], &times[1]);
        let (ratio, least) = (times::ratio(a, b), times::least(a) / times::least(b));
        let copies = times.get(2).map_or(String::new(), |c| format!(" {:>7.1}", times::least(a) / times::least(c)));
        let shown = |times: &[f64]| times::shown(times::median(times.to_vec()) / row.copied.len().max(1) as f64);
        let (ours, rust) = (shown(a), shown(b));
        println!("{:64} {:>10} {ours:>10} {rust:>10} {ratio:>7.3} {least:>7.3}{copies}", row.label, row.bytes);
        self.judge(row.label, row.bytes, ratio, row.limit);
    }

    fn judge(&mut self, label: &str, bytes: usize, ratio: f64, limit: Option<f64>) {
        let Some(limit) = limit else { return };
        self.judged += 1;
        if ratio > limit {
            self.over.push(format!("{label}, {bytes} bytes: {ratio:.2}, at most {limit}"));
        }
    }

    /// The rows that are over their limit. That is no error: a busy machine has some.
    fn verdict(&self) {
        if self.options.judge {
            println!("{} of {} rows over their limit", self.over.len(), self.judged);
            self.over.iter().for_each(|row| println!("  {row}"));
        }
    }
}

/// One call held against the oracle's answer.
fn check(label: &str, expected: &Answer, call: &mut dyn FnMut(&mut [u8], &mut [u64]) -> u32) -> Checked {
    let case = || Case { call: format!("bench, {label}"), inputs: Vec::new() };
    Lender::default().call(expected, expected.written.len(), expected.values.len(), call, &case)
}

/// A payload whose packed frame has `wire` bytes, and the words for it.
fn payloads(rng: &mut Rng, wire: usize) -> Vec<(&'static str, Vec<u8>)> {
    let plain: Vec<u8> = (0..wire - 9).map(|i| (i % 40) as u8).collect();
    if wire == 9 {
        return vec![("no payload", plain)];
    }
    let mut random = rng.bytes(wire - 9);
    while packed(0x0C, 0, &random).len() > wire {
        random.pop();
    }
    vec![("no escapes", plain), ("random bytes", random), ("all escaped", vec![0x3E; (wire - 9) / 2])]
}

fn codec(bench: &mut Bench) -> Checked {
    let mut rng = Rng::new(1);
    bench.head("codec", false);
    for wire in [9, 300, 30_000] {
        for (label, payload) in payloads(&mut rng, wire) {
            let limit = if (wire, label) == (300, "all escaped") { Some(0.5) } else { ANY };
            codec_rows(bench, label, limit, &payload)?;
        }
    }
    Ok(())
}

fn codec_rows(bench: &mut Bench, what: &str, limit: Option<f64>, payload: &[u8]) -> Checked {
    let subject = bench.subject;
    let packed = packed(0x0C, 0, payload);
    let bytes = packed.len();
    let mut out = vec![0; 70_000];
    let mut values = [0; 4];
    let label = &format!("unpack, {what}");
    if bench.wants(label) {
        check(label, &expected::unpack(&packed), &mut |out, values| subject.unpack(&packed, out, values))?;
        bench.row(
            Row { label, bytes, limit, copied: &[] },
            &mut || {
                black_box(subject.unpack(black_box(&packed), black_box(&mut out), &mut values));
            },
            &mut || {
                black_box(frame::unpack(black_box(&packed)).is_ok());
            },
        );
    }
    let label = &format!("pack, {what}");
    if bench.wants(label) {
        check(label, &expected::pack(0x0C, 0, payload), &mut |o, v| subject.pack(0x0C, 0, payload, o, v))?;
        bench.row(
            Row { label, bytes, limit, copied: &[] },
            &mut || {
                black_box(subject.pack(0x0C, 0, black_box(payload), black_box(&mut out), &mut values));
            },
            &mut || {
                black_box(frame::pack(DataType::DataMdr, 0, black_box(payload)));
            },
        );
    }
    Ok(())
}

fn names(bench: &mut Bench) -> Checked {
    let subject = bench.subject;
    let mut out = [0; 128];
    let mut values = [0; 4];
    bench.head("names", false);
    for (what, wire) in
        [("an ACK", ack(0)), ("a long name", packed(0x0E, 0, &[0x5B])), ("300 bytes", packed(0x0C, 0, &[0xFF; 291]))]
    {
        let label = &format!("fixture_name, {what}");
        if !bench.wants(label) {
            continue;
        }
        let ms = 1_700_000_000_000;
        check(label, &expected::fixture_name(ms, 7, Rx, &wire), &mut |out, values| {
            subject.fixture_name(ms, 7, 1, &wire, out, values)
        })?;
        bench.row(
            Row { label, bytes: wire.len(), limit: ANY, copied: &[] },
            &mut || {
                black_box(subject.fixture_name(ms, 7, 1, black_box(&wire), &mut out, &mut values));
            },
            &mut || {
                black_box(capture::fixture_name(ms, 7, Rx, black_box(&wire)));
            },
        );
    }
    for (name, limit) in [
        ("CONNECT_GET_PROTOCOL_INFO", FIRST_NAME),
        ("SYSTEM_NTFY_EXTENDED_PARAM", ANY),
        ("SYSTEM_NTFY_EXTENDED_PARAX", ANY),
    ] {
        let label = &format!("is_command_name, {name}");
        if !bench.wants(label) {
            continue;
        }
        bench.row(
            Row { label, bytes: name.len(), limit, copied: &[] },
            &mut || {
                black_box(subject.is_command_name(black_box(name.as_bytes())));
            },
            &mut || {
                black_box(capture::is_command_name(black_box(name)));
            },
        );
    }
    Ok(())
}

fn plan(bench: &mut Bench) -> Checked {
    let mut rng = Rng::new(1);
    let mut span = || -> Span {
        let payload = rng.bytes(20);
        (1_700_000_000_000 + rng.below(1 << 20) as u64, Rx, packed(rng.pick(&[0x0C, 0x0E, 0x01]), 0, &payload))
    };
    bench.head("plan", false);
    for count in [100, 12_000, 120_000] {
        let frames: Vec<Span> = (0..count).map(|_| span()).collect();
        for excluded in [vec![], vec!["UNKNOWN".to_string(), "POWER_RET_STATUS".to_string()]] {
            let label = format!("plan of {count} spans, {} excluded", excluded.len());
            plan_row(bench, &label, frames.clone(), &excluded)?;
        }
    }
    plan_row(bench, "plan of 60000 spans 3E 3C", vec![(0, Rx, vec![0x3E, 0x3C]); 60_000], &[])?;
    for (what, payload) in payloads(&mut Rng::new(1), 60_000) {
        let label = format!("plan of 200 spans of 60000 bytes, {what}, a late bad escape");
        plan_row(bench, &label, vec![(0, Rx, bad_escape(&payload)); 200], &[])?;
    }
    Ok(())
}

/// A frame that does not unpack because of what comes near its end.
fn bad_escape(payload: &[u8]) -> Vec<u8> {
    let mut wire = packed(0x0C, 0, payload);
    let end = wire.len() - 8;
    wire[end..end + 2].copy_from_slice(&[0x3D, 0x00]);
    wire
}

fn plan_row(bench: &mut Bench, label: &str, frames: Vec<Span>, excluded: &[String]) -> Checked {
    if !bench.wants(label) {
        return Ok(());
    }
    let subject = bench.subject;
    let (list, names) = (items::span_list(&frames), items::name_list(excluded));
    let imported = Imported { dlci: 0, frames, unfinished: 0 };
    let expected = expected::plan(&list, &names).expect("the excluded names are UTF-8");
    check(label, &expected, &mut |out, values| subject.plan(&list, &names, out, values))?;
    let mut out = vec![0; expected.written.len()];
    let mut values = [0; 2];
    bench.row(
        Row { label, bytes: list.len(), limit: ANY, copied: &[] },
        &mut || {
            black_box(subject.plan(black_box(&list), &names, &mut out, &mut values));
        },
        &mut || {
            let names = capture::write_fixtures(black_box(&imported), Path::new("."), excluded);
            black_box((names.is_ok(), oracle::sony::take_written()));
        },
    );
    Ok(())
}

fn shuffled(mut names: Vec<String>) -> Vec<String> {
    let mut rng = Rng::new(1);
    for i in (1..names.len()).rev() {
        names.swap(i, rng.below(i + 1));
    }
    names
}

fn order(bench: &mut Bench) -> Checked {
    bench.head("order", false);
    for count in [1000, 20_000, 200_000] {
        let name = |i: usize, ms: usize| format!("mdr-packet-{ms}-{i:06}-rx.type-ACK-01.seq-00.cmd-NO_COMMAND-00.bin");
        let sorted: Vec<String> = (1..=count).map(|i| name(i, 1_700_000_000 + i)).collect();
        let mixed = shuffled(sorted.clone());
        let reversed: Vec<String> = sorted.iter().rev().cloned().collect();
        let same: Vec<String> = vec![name(1, 1); count];
        let bare: Vec<String> = mixed.iter().map(|n| n[4..].to_string()).collect();
        order_row(bench, &format!("order of {count} names, sorted"), sorted)?;
        order_row(bench, &format!("order of {count} names, shuffled"), mixed)?;
        order_row(bench, &format!("order of {count} names, reversed"), reversed)?;
        order_row(bench, &format!("order of {count} names, all the same"), same)?;
        order_row(bench, &format!("order of {count} names, without counters"), bare)?;
    }
    long_names(bench)
}

/// Names whose counter comes late, or whose counter is looked for in vain. The latter differ
/// at the end only.
fn long_names(bench: &mut Bench) -> Checked {
    let count = 20_000;
    let late = |i: usize, bytes: usize| format!("mdr-packet-{}-{i:06}-rx.bin", "7".repeat(bytes));
    let none = |i: usize, bytes: usize| format!("mdr-packet-{}{i:06}", "7".repeat(bytes - 6));
    // Before and behind these bytes a name with a counter has 11 and 14 others.
    for (what, with, without) in [("700 bytes before the counter", 700, 700), ("255 bytes", 255 - 25, 255 - 11)] {
        let names = shuffled((1..=count).map(|i| late(i, with)).collect());
        order_row(bench, &format!("order of {count} names, {what}"), names)?;
        let names = shuffled((1..=count).map(|i| none(i, without)).collect());
        order_row(bench, &format!("order of {count} names, {what}, without a hyphen"), names)?;
    }
    Ok(())
}

/// The Rust gets its names as strings, already split; copying them is not timed
/// apart, and the copy is made for both.
fn order_row(bench: &mut Bench, label: &str, names: Vec<String>) -> Checked {
    if !bench.wants(label) {
        return Ok(());
    }
    let subject = bench.subject;
    let list = items::name_list(&names);
    let expected = expected::capture_order(&list).expect("the names are UTF-8");
    check(label, &expected, &mut |out, values| subject.capture_order(&list, out, values))?;
    let mut out = vec![0; list.len()];
    let mut values = [0];
    bench.row(
        Row { label, bytes: list.len(), limit: ANY, copied: &[] },
        &mut || {
            black_box(names.clone());
            black_box(subject.capture_order(black_box(&list), &mut out, &mut values));
        },
        &mut || {
            let mut names = names.clone();
            capture::capture_order(black_box(&mut names));
            black_box(names);
        },
    );
    Ok(())
}

/// What files are imported as, and whether their FCS is checked.
#[derive(Clone, Copy)]
struct How {
    container: Container,
    /// If it is not said, the call is by number where the container allows it.
    checks: Option<bool>,
}

const BTSNOOP: How = How { container: Container::Btsnoop, checks: None };
const AS_PCAP: How = How { container: Container::Pcap, checks: None };

/// Files to import one after another, with what is lent for all of them.
struct Files {
    how: How,
    files: Vec<Vec<u8>>,
    answers: Vec<Answer>,
    work: Vec<u8>,
    out: Vec<u8>,
}

impl Files {
    /// The files, once the subject's answers are the oracle's.
    fn checked(subject: &dyn Subject, label: &str, files: Vec<Vec<u8>>) -> Result<Files, Box<Difference>> {
        Files::checked_in(BTSNOOP, subject, label, files)
    }

    fn checked_in(how: How, subject: &dyn Subject, label: &str, files: Vec<Vec<u8>>) -> Result<Files, Box<Difference>> {
        let mut work = vec![0; 8 * files.iter().map(Vec::len).max().unwrap_or(0)];
        let mut answers = Vec::new();
        for file in &files {
            let expected = match how.checks {
                Some(true) => expected::import(how.container, file, NO_CHANNEL, false)[1].clone(),
                _ => expected::import_off(how.container, file, NO_CHANNEL, false),
            };
            check(label, &expected, &mut |out, v| imported(how, subject, file, &mut work, out, v))?;
            answers.push(expected);
        }
        let out = vec![0; answers.iter().map(|a| a.written.len()).max().unwrap_or(0)];
        Ok(Files { how, files, answers, work, out })
    }

    fn bytes(&self) -> f64 {
        self.files.iter().map(Vec::len).sum::<usize>() as f64
    }

    /// The label with what the first file comes to.
    fn label(&self, label: &str) -> String {
        match self.answers[0].number {
            0 => format!("{label} ({} spans)", self.answers[0].values[1]),
            number => format!("{label} (refusal {number})"),
        }
    }

    /// The sizes of the files, each with the work of an import.
    fn sizes(&mut self, subject: &dyn Subject) {
        let mut values = [0; SIZES];
        for (file, answer) in self.files.iter().zip(&self.answers) {
            let number = subject.sizes_with(black_box(file), &mut self.work, &options(self.how), &mut values);
            assert_eq!(number, answer.number);
        }
    }

    /// The list of one link of each file, with the work of an import.
    fn listed(&mut self, subject: &dyn Subject, streams: &[(Stream, Answer)]) {
        let mut values = [0; LISTED];
        for (file, (stream, answer)) in self.files.iter().zip(streams) {
            let (work, out) = (&mut self.work[..], &mut self.out[..]);
            let number = subject.one_link_with(black_box(file), work, out, *stream, &options(self.how), &mut values);
            assert_eq!(number, answer.number);
        }
    }

    fn import(&mut self, subject: &dyn Subject) {
        let mut values = [0; VALUES];
        for (file, answer) in self.files.iter().zip(&self.answers) {
            let lent = (&mut self.work[..], &mut self.out[..]);
            let number = imported(self.how, subject, black_box(file), lent.0, lent.1, &mut values);
            assert_eq!(number, answer.number);
        }
    }
}

/// The strict import of a file, on any channel.
fn imported(how: How, subject: &dyn Subject, file: &[u8], work: &mut [u8], out: &mut [u8], values: &mut [u64]) -> u32 {
    match how {
        How { container: Container::Btsnoop, checks: None } => {
            subject.import_strict(file, work, out, NO_CHANNEL, values)
        }
        How { checks: None, .. } => subject.import_with(file, work, out, &options(how)[..3], values),
        How { checks: Some(_), .. } => subject.import_with(file, work, out, &options(how), values),
    }
}

/// All options of a strict import on any channel.
fn options(how: How) -> [u64; 4] {
    let container = u64::from(how.container == Container::Pcap);
    [NO_CHANNEL.into(), 0, container, how.checks.unwrap_or(false).into()]
}

/// The files as the Rust can read them: each index and handle has a handle of its own, if there is more than one adapter.
fn for_rust(files: &[Vec<u8>]) -> Vec<Vec<u8>> {
    let known = |file: &Vec<u8>| expected::for_one_adapter(file).expect("no more links than handles").into_owned();
    files.iter().map(known).collect()
}

fn import_rust(files: &[Vec<u8>]) {
    for file in files {
        black_box(capture::import(black_box(file), None).is_ok());
    }
}

fn import(bench: &mut Bench) -> Checked {
    bench.head("import", true);
    import_rows(bench, hard::traces())
}

fn import_rows(bench: &mut Bench, traces: Vec<Hard>) -> Checked {
    for trace in traces {
        if !bench.wants(&trace.label) {
            continue;
        }
        for kib in trace.sizes(bench.options.kib.as_deref()) {
            if let Some(files) = trace.files(kib) {
                import_row(bench, &trace, files)?;
            }
        }
    }
    Ok(())
}

fn import_row(bench: &mut Bench, trace: &Hard, files: Vec<Vec<u8>>) -> Checked {
    let subject = bench.subject;
    let mut ours = Files::checked(subject, &trace.label, files.clone())?;
    let label = ours.label(&trace.label);
    let row = Row { label: &label, bytes: files[0].len(), limit: Some(trace.limit), copied: &files };
    let known = for_rust(&files);
    bench.row(row, &mut || ours.import(subject), &mut || import_rust(&known));
    Ok(())
}

/// The time of the signs as a part of that of import, on the typical trace.
fn gaps(bench: &mut Bench) -> Checked {
    println!("{:64} {:>10} {:>10} {:>10} {:>7} {:>7}", "gaps", "bytes", "gaps", "import", "ratio", "least");
    for trace in hard::traces() {
        if !trace.label.starts_with("typical") || !bench.wants(&trace.label) {
            continue;
        }
        for kib in bench.options.kib.as_deref().unwrap_or(&[16, 128, 1024]) {
            if let Some(files) = trace.files(*kib) {
                gaps_row(bench.subject, &trace.label, files)?;
            }
        }
    }
    Ok(())
}

fn gaps_row(subject: &dyn Subject, label: &str, files: Vec<Vec<u8>>) -> Checked {
    let mut imports = Files::checked(subject, label, files.clone())?;
    let (mut work, mut values) = (imports.work.clone(), [0; gaps::VALUES]);
    for file in &files {
        let expected = gaps::answer(file, work.len(), false, gaps::RIGHT);
        check(label, &expected, &mut |_, values| subject.gaps(file, &mut work, 0, values))?;
    }
    let times = times::turns(&mut [
        &mut || {
            for file in &files {
                black_box(subject.gaps(black_box(file), &mut work, 0, &mut values));
            }
        },
        &mut || imports.import(subject),
    ]);
    let (ratio, least) = (times::ratio(&times[0], &times[1]), times::least(&times[0]) / times::least(&times[1]));
    let [gaps, import] = [0, 1].map(|i| times::shown(times::median(times[i].clone()) / files.len() as f64));
    println!("{label:64} {:>10} {gaps:>10} {import:>10} {ratio:>7.3} {least:>7.3}", files[0].len());
    Ok(())
}

/// One handle on as many adapters as fit, timed against as many links that are spread over handles: by import, and by gaps
/// where a PDU is open. Then traces of fewer links against the Rust.
fn adapters(bench: &mut Bench) -> Checked {
    println!("{:64} {:>10} {:>10} {:>10} {:>7} {:>7}", "adapters", "bytes", "one handle", "spread", "ratio", "least");
    for twins in hard::twins() {
        for &kib in bench.options.kib.as_deref().unwrap_or(&[1024]) {
            let (one, spread) = (twins.one_handle(kib), twins.spread(kib));
            let label = |call: &str| format!("{call}, {}, {} links", twins.label, links(&one));
            if bench.wants(&label("import")) {
                let subject = bench.subject;
                let [mut left, mut right] = [
                    Files::checked(subject, twins.label, vec![one.clone()])?,
                    Files::checked(subject, twins.label, vec![spread.clone()])?,
                ];
                adapters_row(bench, &label("import"), one.len(), &mut || left.import(subject), &mut || {
                    right.import(subject)
                });
            }
            if twins.label.starts_with("open PDUs") && bench.wants(&label("gaps")) {
                gaps_twins(bench, &label("gaps"), &one, &spread)?;
            }
        }
    }
    bench.head("adapters, import against the Rust", true);
    import_rows(bench, hard::of_many_adapters())
}

/// The same packets in pcap and in btsnoop, where they fit: our times for both, and the Rust's for the latter. The typical
/// trace in each form, then files that are full of the smallest records.
fn pcap(bench: &mut Bench) -> Checked {
    println!(
        "{:64} {:>10} {:>10} {:>10} {:>10} {:>10} {:>7} {:>7}",
        "pcap", "bytes", "pcap", "btsnoop", "Rust", "by btsnoop", "least", "by Rust"
    );
    let sizes = bench.options.kib.clone().unwrap_or(vec![128, 1024]);
    for &kib in &sizes {
        for form in FORMS {
            for trace in hard::traces().iter().filter(|trace| trace.label.starts_with("typical")) {
                let files = trace.files(kib).unwrap_or_default();
                let files = files.iter().map(|file| pcap::of_btsnoop(file, form)).collect();
                pcap_row(bench, &format!("{}, {}", trace.label, words(form)), Some(PCAP), files)?;
            }
        }
    }
    for &kib in &sizes {
        for (label, file) in containers::fullest(kib << 10) {
            pcap_row(bench, label, None, vec![file])?;
        }
    }
    Ok(())
}

/// Import with the FCS checked in turns with the same call that does not check it, and with the Rust, which never does: the
/// typical trace, where every FCS is right, in both containers; then files that are full of frames with a wrong one.
fn fcs(bench: &mut Bench) -> Checked {
    println!(
        "{:64} {:>10} {:>10} {:>10} {:>7} {:>7} {:>7}",
        "fcs", "bytes", "checked", "not", "ratio", "least", "by Rust"
    );
    for trace in hard::traces().iter().filter(|trace| trace.label.starts_with("typical")) {
        for kib in trace.sizes(bench.options.kib.as_deref()) {
            let files = trace.files(kib).unwrap_or_default();
            let others = files.iter().map(|file| pcap::of_btsnoop(file, FORMS[0])).collect();
            fcs_row(bench, &trace.label, Container::Btsnoop, Some(FCS), files)?;
            fcs_row(bench, &format!("{}, pcap", trace.label), Container::Pcap, Some(FCS), others)?;
        }
    }
    for kib in bench.options.kib.clone().unwrap_or(vec![1024]) {
        for (label, file) in containers::fullest(kib << 10).filter(|(label, _)| label.contains("UIHs")) {
            fcs_row(bench, &format!("{label}, pcap"), Container::Pcap, None, vec![file])?;
        }
    }
    Ok(())
}

fn fcs_row(bench: &mut Bench, label: &str, container: Container, limit: Option<f64>, files: Vec<Vec<u8>>) -> Checked {
    if !bench.wants(label) {
        return Ok(());
    }
    let (subject, bytes, count) = (bench.subject, files[0].len(), files.len() as f64);
    let how = |checks: bool| How { container, checks: Some(checks) };
    let mut on = Files::checked_in(how(true), subject, label, files.clone())?;
    let mut off = Files::checked_in(how(false), subject, label, files.clone())?;
    let known: Vec<Vec<u8>> = match container {
        Container::Btsnoop => files,
        Container::Pcap => files.iter().map(|file| pcap::twin(file, 1002)).collect(),
    };
    let label = match on.answers[0].values.get(5) {
        Some(wrong) => format!("{} ({wrong} wrong)", on.label(label)),
        None => on.label(label),
    };
    let times =
        times::turns(&mut [&mut || on.import(subject), &mut || off.import(subject), &mut || import_rust(&known)]);
    let (ratio, least) = (times::ratio(&times[0], &times[1]), times::least(&times[0]) / times::least(&times[1]));
    let by_rust = times::ratio(&times[0], &times[2]);
    let [on, off] = [0, 1].map(|i| times::shown(times::median(times[i].clone()) / count));
    println!("{label:64} {bytes:>10} {on:>10} {off:>10} {ratio:>7.3} {least:>7.3} {by_rust:>7.3}");
    bench.judge(&label, bytes, ratio, limit);
    bench.judge(&format!("{label}, by the Rust"), bytes, by_rust, ANY);
    Ok(())
}

/// The sizes of a file in turns with its import by the same options: the typical trace, as pcap and with the FCS checked too;
/// the other traces of import, of their longest size; and pcap files that are full of the smallest records.
fn sizes(bench: &mut Bench) -> Checked {
    println!("{:64} {:>10} {:>10} {:>10} {:>7} {:>7}", "sizes", "bytes", "sizes", "import", "ratio", "least");
    let asked = bench.options.kib.clone();
    let [off, on] = [false, true].map(|checks| move |container| How { container, checks: Some(checks) });
    for trace in hard::traces() {
        let typical = trace.label.starts_with("typical");
        let mut kibs = trace.sizes(asked.as_deref());
        if asked.is_none() && !typical {
            kibs.drain(..kibs.len() - 1);
        }
        for kib in kibs {
            let Some(files) = trace.files(kib) else { continue };
            sizes_row(bench, &trace.label, off(Container::Btsnoop), files.clone())?;
            if typical {
                let others: Vec<Vec<u8>> = files.iter().map(|file| pcap::of_btsnoop(file, FORMS[0])).collect();
                sizes_row(bench, &format!("{}, FCS checked", trace.label), on(Container::Btsnoop), files)?;
                sizes_row(bench, &format!("{}, pcap", trace.label), off(Container::Pcap), others)?;
            }
        }
    }
    for kib in asked.unwrap_or(vec![1024]) {
        for (label, file) in containers::fullest(kib << 10) {
            sizes_row(bench, &format!("{label}, pcap"), off(Container::Pcap), vec![file])?;
        }
    }
    Ok(())
}

fn sizes_row(bench: &mut Bench, label: &str, how: How, files: Vec<Vec<u8>>) -> Checked {
    if !bench.wants(label) {
        return Ok(());
    }
    let (subject, bytes, count) = (bench.subject, files[0].len(), files.len() as f64);
    let mut ours = Files::checked_in(how, subject, label, files)?;
    for (file, answer) in ours.files.iter().zip(&ours.answers) {
        let counts = expected::counts(how.container, file)[usize::from(how.checks == Some(true))];
        let work = &mut ours.work;
        check(label, &answer.sizes(counts), &mut |_, values| subject.sizes_with(file, work, &options(how), values))?;
    }
    let label = ours.label(label);
    let limit = if ours.answers.iter().all(|answer| answer.values.get(1) <= Some(&1)) { EVEN } else { SIZED };
    // Both get the same work: where it lies makes a difference.
    let ours = RefCell::new(ours);
    let times =
        times::turns(&mut [&mut || ours.borrow_mut().sizes(subject), &mut || ours.borrow_mut().import(subject)]);
    let (ratio, least) = (times::ratio(&times[0], &times[1]), times::least(&times[0]) / times::least(&times[1]));
    let [sizes, import] = [0, 1].map(|i| times::shown(times::median(times[i].clone()) / count));
    println!("{label:64} {bytes:>10} {sizes:>10} {import:>10} {ratio:>7.3} {least:>7.3}");
    bench.judge(&label, bytes, ratio, Some(limit));
    Ok(())
}

/// The list of one link in turns with import of the same file: the typical trace, as pcap too; the other traces of import, of
/// their longest size; traces of many adapters; and pcap files that are full of the smallest records.
fn lists(bench: &mut Bench) -> Checked {
    println!("{:64} {:>10} {:>10} {:>10} {:>7} {:>7}", "links", "bytes", "one link", "import", "ratio", "least");
    let asked = bench.options.kib.clone();
    for trace in hard::traces().into_iter().chain(hard::of_many_adapters()) {
        let typical = trace.label.starts_with("typical");
        let mut kibs = trace.sizes(asked.as_deref());
        if asked.is_none() && !typical {
            kibs.drain(..kibs.len() - 1);
        }
        for kib in kibs {
            let Some(files) = trace.files(kib) else { continue };
            lists_row(bench, &trace.label, Container::Btsnoop, files.clone())?;
            if typical {
                let others: Vec<Vec<u8>> = files.iter().map(|file| pcap::of_btsnoop(file, FORMS[0])).collect();
                lists_row(bench, &format!("{}, pcap", trace.label), Container::Pcap, others)?;
            }
        }
    }
    for kib in asked.unwrap_or(vec![1024]) {
        for (label, file) in containers::fullest(kib << 10) {
            lists_row(bench, &format!("{label}, pcap"), Container::Pcap, vec![file])?;
        }
    }
    Ok(())
}

/// The link of a file's first packet, with this DLCI; and how much of all packets are of that link.
fn first_link(container: Container, file: &[u8], dlci: u64) -> (Stream, f64) {
    let packets = alone::packets(container, file);
    let (index, handle) = packets.first().map_or((0, 0x40), |packet| packet.link);
    let own = packets.iter().filter(|packet| packet.link == (index, handle)).count();
    (Stream { index, handle, dlci: dlci as u8 }, own as f64 / packets.len().max(1) as f64)
}

fn lists_row(bench: &mut Bench, label: &str, container: Container, files: Vec<Vec<u8>>) -> Checked {
    if !bench.wants(label) {
        return Ok(());
    }
    let (subject, bytes, count) = (bench.subject, files[0].len(), files.len() as f64);
    let how = How { container, checks: Some(false) };
    let mut ours = Files::checked_in(how, subject, label, files)?;
    let (mut streams, mut parts) = (Vec::new(), Vec::new());
    for (file, answer) in ours.files.iter().zip(&ours.answers) {
        let (stream, part) = first_link(container, file, answer.values[0]);
        let (expected, _) = expected::one_link(container, file, stream, &None);
        let work = &mut ours.work;
        check(label, &expected, &mut |out, values| {
            subject.one_link_with(file, work, out, stream, &options(how), values)
        })?;
        streams.push((stream, expected));
        parts.push(part);
    }
    let label = format!("{label} ({} of {} spans)", streams[0].1.values[0], ours.answers[0].values[1]);
    let limit = if parts.iter().all(|part| *part > 0.9) { EVEN } else { SIZED };
    // Both get the same work: where it lies makes a difference.
    let ours = RefCell::new(ours);
    let times = times::turns(&mut [&mut || ours.borrow_mut().listed(subject, &streams), &mut || {
        ours.borrow_mut().import(subject)
    }]);
    let (ratio, least) = (times::ratio(&times[0], &times[1]), times::least(&times[0]) / times::least(&times[1]));
    let [list, import] = [0, 1].map(|i| times::shown(times::median(times[i].clone()) / count));
    println!("{label:64} {bytes:>10} {list:>10} {import:>10} {ratio:>7.3} {least:>7.3}");
    bench.judge(&label, bytes, ratio, Some(limit));
    Ok(())
}

fn words(form: Form) -> String {
    let order = if form.big { "big-endian" } else { "little-endian" };
    format!("{order} {}", if form.nano { "nanoseconds" } else { "microseconds" })
}

fn pcap_row(bench: &mut Bench, label: &str, limit: Option<f64>, files: Vec<Vec<u8>>) -> Checked {
    if !bench.wants(label) {
        return Ok(());
    }
    let (subject, bytes, count) = (bench.subject, files[0].len(), files.len() as f64);
    let twins: Vec<Vec<u8>> = files.iter().map(|file| pcap::twin(file, 1002)).collect();
    let mut ours = Files::checked_in(AS_PCAP, subject, label, files)?;
    let label = ours.label(label);
    let fit = twins.iter().all(|twin| twin.len() <= LONGEST_FILE);
    let mut others = if fit { Some(Files::checked(subject, &label, twins.clone())?) } else { None };
    let (mut import, mut rust) = (|| ours.import(subject), || import_rust(&twins));
    let mut btsnoop = others.as_mut().map(|others| || others.import(subject));
    let mut sides: Vec<&mut dyn FnMut()> = vec![&mut import, &mut rust];
    sides.extend(btsnoop.as_mut().map(|side| side as &mut dyn FnMut()));
    let times = times::turns(&mut sides);
    let shown = |times: &Vec<f64>| times::shown(times::median(times.clone()) / count);
    let (own, rust) = (shown(&times[0]), shown(&times[1]));
    let by_rust = times::ratio(&times[0], &times[1]);
    let (btsnoop, ratio, least) = match times.get(2) {
        None => ("too long".into(), "-".into(), "-".into()),
        Some(twin) => {
            let ratio = times::ratio(&times[0], twin);
            bench.judge(&label, bytes, ratio, limit);
            let least = times::least(&times[0]) / times::least(twin);
            (shown(twin), format!("{ratio:.3}"), format!("{least:.3}"))
        }
    };
    println!("{label:64} {bytes:>10} {own:>10} {btsnoop:>10} {rust:>10} {ratio:>10} {least:>7} {by_rust:>7.3}");
    bench.judge(&format!("{label}, by the Rust"), bytes, by_rust, ANY);
    Ok(())
}

/// How many links a file has.
fn links(file: &[u8]) -> usize {
    let rows = model::records(&file[16..]).0;
    rows.iter().map(|row| (&row[8..10], row[24], row[25] % 16)).collect::<BTreeSet<_>>().len()
}

fn gaps_twins(bench: &mut Bench, label: &str, one: &[u8], spread: &[u8]) -> Checked {
    let subject = bench.subject;
    let mut work = vec![0; 8 * one.len().max(spread.len())];
    for file in [one, spread] {
        let expected = gaps::answer(file, work.len(), false, gaps::RIGHT);
        check(label, &expected, &mut |_, values| subject.gaps(file, &mut work, 0, values))?;
    }
    let mut other = work.clone();
    let (mut values, mut others) = ([0; gaps::VALUES], [0; gaps::VALUES]);
    adapters_row(
        bench,
        label,
        one.len(),
        &mut || {
            black_box(subject.gaps(black_box(one), &mut work, 0, &mut values));
        },
        &mut || {
            black_box(subject.gaps(black_box(spread), &mut other, 0, &mut others));
        },
    );
    Ok(())
}

fn adapters_row(bench: &mut Bench, label: &str, bytes: usize, one: &mut dyn FnMut(), spread: &mut dyn FnMut()) {
    let times = times::turns(&mut [one, spread]);
    let (ratio, least) = (times::ratio(&times[0], &times[1]), times::least(&times[0]) / times::least(&times[1]));
    let [one, spread] = [0, 1].map(|i| times::shown(times::median(times[i].clone())));
    println!("{label:64} {bytes:>10} {one:>10} {spread:>10} {ratio:>7.3} {least:>7.3}");
    bench.judge(label, bytes, ratio, Some(ADAPTERS));
}

/// How the times of each trace grow from 128 KiB to 1 MiB, divided by the growth of the bytes.
fn growth(bench: &mut Bench) -> Checked {
    println!(
        "{:64} {:>7} {:>7} {:>7} {:>7}",
        "growth of the time, by that of the bytes", "bytes", "ours", "least", "Rust"
    );
    for trace in hard::traces() {
        if !trace.grows() || !bench.wants(&trace.label) {
            continue;
        }
        if let (Some(small), Some(large)) = (trace.files(128), trace.files(1024)) {
            growth_row(bench, &trace.label, small, large)?;
        }
    }
    Ok(())
}

fn growth_row(bench: &mut Bench, label: &str, small: Vec<Vec<u8>>, large: Vec<Vec<u8>>) -> Checked {
    let subject = bench.subject;
    let mut less = Files::checked(subject, label, small.clone())?;
    let mut more = Files::checked(subject, label, large.clone())?;
    let bytes = more.bytes() / less.bytes();
    let (small_known, large_known) = (for_rust(&small), for_rust(&large));
    let times = times::turns(&mut [
        &mut || less.import(subject),
        &mut || more.import(subject),
        &mut || import_rust(&small_known),
        &mut || import_rust(&large_known),
    ]);
    let ours = times::ratio(&times[1], &times[0]) / bytes;
    let least = times::least(&times[1]) / times::least(&times[0]) / bytes;
    let rust = times::ratio(&times[3], &times[2]) / bytes;
    let grown = large[0].len() as f64 / small[0].len() as f64;
    println!("{label:64} {grown:>7.2} {ours:>7.2} {least:>7.2} {rust:>7.2}");
    bench.judge(label, large[0].len(), ours, Some(GROWTH));
    Ok(())
}

/// The bench of a group, or `growth`; `None` if there is none.
pub fn run(group: &str, subject: &dyn Subject, options: &Options) -> Option<Checked> {
    let table: fn(&mut Bench) -> Checked = match group {
        "codec" => codec,
        "names" => names,
        "plan" => plan,
        "order" => order,
        "import" => import,
        "growth" => growth,
        "gaps" => gaps,
        "adapters" => adapters,
        "pcap" => pcap,
        "fcs" => fcs,
        "sizes" => sizes,
        "links" => lists,
        _ => return None,
    };
    times::keep_memory();
    let mut bench = Bench { subject, options, judged: 0, over: Vec::new() };
    Some(table(&mut bench).map(|()| bench.verdict()))
}

/// Imports of one trace and nothing else, to be counted or profiled: the trace of that label,
/// or the first whose label has it; with the FCS checked or as pcap, if the label begins with `fcs` or `pcap`, or with both.
/// With `sizes` before these the sizes are told instead, and with `link` the spans of the first packet's link are listed.
pub fn once(label: &str, kib: usize, subject: &dyn Subject, options: &Options) -> Result<(), String> {
    let traces = [hard::traces(), hard::of_many_adapters()].into_iter().flatten().collect::<Vec<Hard>>();
    let (call, label) = match label.split_once(' ') {
        Some((call @ ("sizes" | "link"), label)) => (call, label),
        _ => ("import", label),
    };
    let (checks, label) = match label.strip_prefix("fcs ") {
        Some(label) => (Some(true), label),
        None => (None, label),
    };
    let (container, label) = match label.strip_prefix("pcap ") {
        Some(label) => (Container::Pcap, label),
        None => (Container::Btsnoop, label),
    };
    let same = traces.iter().find(|t| t.label == label);
    let trace = same.or_else(|| traces.iter().find(|t| t.label.contains(label)));
    let trace = trace.ok_or_else(|| format!("no trace has the label `{label}`"))?;
    let mut file = trace.file(kib).ok_or_else(|| format!("`{}` does not fit {kib} KiB", trace.label))?;
    if container == Container::Pcap {
        file = pcap::of_btsnoop(&file, FORMS[0]);
    }
    let bytes = file.len();
    let mut work = vec![0; 8 * bytes];
    // No list of spans is longer than that of the shortest, which are two bytes long.
    let mut out = vec![0; 8 * bytes];
    let (mut number, mut values) = (0, [0; VALUES]);
    let how = How { container, checks };
    let (all, (stream, _)) = (self::options(how), first_link(container, &file, 18));
    for _ in 0..options.times {
        let file = black_box(&file[..]);
        number = match call {
            "sizes" => subject.sizes_with(file, &mut work, &all, &mut values[..SIZES]),
            "link" => subject.one_link_with(file, &mut work, &mut out, stream, &all, &mut values[..LISTED]),
            _ => imported(how, subject, file, &mut work, &mut out, &mut values),
        };
    }
    let stored = match call {
        "sizes" => SIZES,
        "link" => LISTED,
        _ => VALUES,
    };
    let values = &values[..stored];
    println!("{}: {bytes} bytes, number {number}, values {values:?}", trace.label);
    Ok(())
}

/// What the traces of `bench import` are, by the oracle and without times.
pub fn describe() {
    for trace in hard::traces() {
        let kib = trace.sizes(None).into_iter().max().unwrap_or(1024);
        let Some(file) = trace.file(kib) else { continue };
        let rows = model::records(&file[16..]).0.len();
        let answer = expected::import_strict(&file, NO_CHANNEL);
        let (label, bytes) = (&trace.label, file.len());
        println!("{label}: {bytes} bytes, {rows} records, number {}, values {:?}", answer.number, answer.values);
    }
}
