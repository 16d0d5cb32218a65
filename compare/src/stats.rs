//! How deep the random traces reach, by the oracle's answers and the model's steps.

use std::collections::BTreeMap;

use crate::answer::{Answer, Asked, Container};
use crate::expected;
use crate::fcs;
use crate::mistaken;
use crate::model::{self, Reading, RIGHT};
use crate::pcap;
use crate::rng::Rng;
use crate::trace;
use crate::Options;

#[derive(Default)]
struct Stats {
    files: u64,
    numbers: BTreeMap<u32, u64>,
    bytes: u64,
    pdus: u64,
    pieces: u64,
    dlcis: BTreeMap<usize, u64>,
    stretches: BTreeMap<usize, u64>,
    spans: BTreeMap<usize, u64>,
    broken: u64,
    unfinished: BTreeMap<u64, u64>,
    /// Files with bytes in spans, dropped, cleared and left.
    went: [u64; 4],
    admitted: u64,
    named: u64,
    later: u64,
    excess: u64,
    tried_too: u64,
    /// Files of more than one adapter, and of those the ones that show each place where import keys on a link.
    adapters: u64,
    keys: BTreeMap<&'static str, u64>,
    /// Of pcap files, how many there are of each form, and what their records are.
    forms: BTreeMap<String, u64>,
    records: BTreeMap<&'static str, u64>,
    on: Switched,
}

/// What comes of the files with the FCS checked.
#[derive(Default)]
struct Switched {
    numbers: BTreeMap<u32, u64>,
    /// Frames with a wrong FCS in a file, and how many of them are counted.
    wrong: BTreeMap<usize, u64>,
    counted: BTreeMap<usize, u64>,
    /// Files with wrong frames on the DLCI that do not count.
    untried: u64,
    /// Files of which another DLCI is chosen, the same with other spans, and none.
    other: u64,
    fewer: u64,
    lost: u64,
}

/// 0, 1, 2, 3, then the power of two at or under.
fn class(n: usize) -> usize {
    if n < 4 {
        n
    } else {
        1 << n.ilog2()
    }
}

impl Stats {
    fn add(&mut self, container: Container, file: &[u8], channel: u32) {
        let [answer, on] = expected::import(container, file, channel, false);
        self.add_on(container, file, &answer, &on);
        self.files += 1;
        self.bytes += file.len() as u64;
        *self.numbers.entry(answer.number).or_default() += 1;
        let asked = Asked { channel, tolerant: false, checks: false };
        let differs = |reading| model::import_from(container, file, 8 * file.len(), asked, reading) != answer;
        self.excess += u64::from(differs(Reading { excess_dropped: false, ..RIGHT }));
        self.tried_too += u64::from(differs(Reading { request_ends: false, ..RIGHT }));
        match container {
            Container::Btsnoop => {
                self.adapters += u64::from(expected::adapters(file) > 1);
                for (what, keys) in mistaken::by_handle_alone() {
                    *self.keys.entry(what).or_default() += u64::from(differs(Reading { keys, ..RIGHT }));
                }
            }
            Container::Pcap => self.add_records(file),
        }
        if ![0, 6].contains(&answer.number) {
            return;
        }
        let pdus = model::pdus(&model::packets(container, file, RIGHT).0, RIGHT);
        let pieces = model::pieces(&pdus, RIGHT);
        let (admitted, named) = model::channels(&pdus, RIGHT);
        self.admitted += u64::from(!admitted.is_empty());
        self.named += u64::from(named.iter().any(|t| !admitted.contains(t)));
        self.pdus += pdus.len() as u64;
        self.pieces += pieces.len() as u64;
        *self.dlcis.entry(model::dlcis(&pieces).len()).or_default() += 1;
        if answer.number == 0 {
            self.chosen(&answer, &pieces);
        }
    }

    /// What the switch does to a file.
    fn add_on(&mut self, container: Container, file: &[u8], off: &Answer, on: &Answer) {
        let Switched { numbers, wrong, counted, untried, other, fewer, .. } = &mut self.on;
        *numbers.entry(on.number).or_default() += 1;
        let frames = fcs::wrong(container, file);
        *wrong.entry(class(frames.len())).or_default() += 1;
        if on.number == 0 {
            let count = on.values[5];
            *counted.entry(class(count as usize)).or_default() += 1;
            *untried += u64::from(frames.iter().any(|frame| !frame.counts && u64::from(frame.dlci) == on.values[0]));
            let same = off.values.first() == Some(&on.values[0]);
            *other += u64::from(!same);
            *fewer += u64::from(same && on.written != off.written);
        }
        self.on.lost += u64::from(off.number == 0 && on.number == 6);
    }

    /// What the records of a pcap file are.
    fn add_records(&mut self, file: &[u8]) {
        let form = (pcap::RIGHT.form)(file).map_or("none".into(), |form| format!("{form:?}"));
        *self.forms.entry(form).or_default() += 1;
        for record in pcap::read(file, pcap::RIGHT).0 {
            let what = match (record.received, record.acl) {
                (_, Some(_)) => "ACL data",
                (Some(_), None) if record.packet().len() > 4 => "another type",
                (Some(_), None) => "no type",
                _ if record.packet().len() < 4 => "no direction",
                _ => "another direction",
            };
            *self.records.entry(what).or_default() += 1;
            let over = record.form.number(record.bytes, 4) >= 1000 * record.form.parts();
            *self.records.entry("over a second of fractions").or_default() += u64::from(over);
        }
    }

    fn chosen(&mut self, answer: &Answer, pieces: &[model::Piece]) {
        let own: Vec<_> = pieces.iter().filter(|p| u64::from(p.dlci) == answer.values[0]).collect();
        let mut stretches: Vec<_> = own.iter().map(|p| (p.stretch, p.way)).collect();
        stretches.sort();
        stretches.dedup();
        let (spans, _) = model::spans(&own, RIGHT);
        let broken = spans.iter().filter(|(_, _, wire)| oracle::mdr::frame::unpack(wire).is_err()).count();
        *self.stretches.entry(class(stretches.len())).or_default() += 1;
        *self.spans.entry(class(spans.len())).or_default() += 1;
        self.broken += u64::from(broken > 0);
        *self.unfinished.entry(answer.values[2].min(4)).or_default() += 1;
        let bytes = answer.bytes().unwrap_or_default();
        self.went.iter_mut().zip(bytes).for_each(|(files, bytes)| *files += u64::from(bytes > 0));
        self.later += u64::from(pieces[0].dlci != own[0].dlci);
    }

    fn print(&self, what: &str) {
        println!("{what}: {} files, {} bytes, {} PDUs, {} pieces", self.files, self.bytes, self.pdus, self.pieces);
        println!("  answers and refusals: {:?}", self.numbers);
        println!("  files with a channel admitted {}, named only {}", self.admitted, self.named);
        println!(
            "  files that show that excess is dropped {}, that a PSM 3 request is not tried {}",
            self.excess, self.tried_too
        );
        if self.forms.is_empty() {
            println!("  files of more than one adapter {}; that show: {:?}", self.adapters, self.keys);
        } else {
            println!("  forms: {:?}; records: {:?}", self.forms, self.records);
        }
        println!("  DLCIs with pieces: {:?}", self.dlcis);
        println!("  of those answered, buffers of the DLCI: {:?}", self.stretches);
        println!("  spans (from): {:?}; with one that does not unpack {}", self.spans, self.broken);
        let [_, dropped, cleared, left] = self.went;
        println!("  with bytes dropped {dropped}, cleared {cleared}, left {left}");
        let Switched { numbers, wrong, counted, untried, other, fewer, lost } = &self.on;
        println!("  FCS checked: {numbers:?}; frames with a wrong one (from): {wrong:?}; counted (from): {counted:?}");
        println!(
            "  with some of the DLCI not counted {untried}, another DLCI {other}, the same with other spans {fewer}, none left {lost}"
        );
        println!("  unfinished (4 and up together): {:?}; not the first DLCI {}", self.unfinished, self.later);
    }
}

/// The random traces of a container.
pub fn import(options: &Options, container: Container) {
    let mut rng = Rng::new(options.seed);
    let (mut random, mut damaged) = (Stats::default(), Stats::default());
    for _ in 0..options.size.unwrap_or(20_000) {
        let (trace, channel) = trace::structured_in(&mut rng, container, 60);
        random.add(container, &trace.file, channel);
        damaged.add(container, &trace::damaged(&mut rng, &trace), channel);
    }
    random.print("random traces");
    damaged.print("damaged traces");
}
