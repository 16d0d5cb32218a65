//! Holds the proved library against the Rust it was ported from.

mod account;
mod adapters;
mod alone;
mod answer;
mod bench;
mod bytes;
mod codec;
mod containers;
mod deep;
mod editcap;
mod expected;
mod fcs;
mod gaps;
mod hard;
mod honest;
mod import;
mod items;
mod lacking;
mod links;
mod misfiled;
mod mislinked;
mod misplaced;
mod misprint;
mod misread;
mod missized;
mod misspelt;
mod missummed;
mod mistaken;
mod model;
mod names;
mod order;
mod pcap;
mod plan;
mod planted;
mod proved;
mod rng;
mod sample;
mod signs;
mod sizes;
mod stats;
mod sums;
mod times;
mod tolerant;
mod trace;
mod traceprint;
mod vectors;

use std::process::ExitCode;

use answer::{Checked, Container, Difference, Lender, Subject, NUMBERS};

const USAGE: &str = "\
usage: compare GROUP [--seed N] [--size N] [--against proved|model]
       compare all [--seed N] [--size N] [--against proved|model]
       compare traceprint PROGRAM [--seed N] [--size N]
       compare selfcheck [--only TEXT]
       compare bench GROUP|growth|adapters [--only TEXT] [--kib N,N,..] [--judge] [--against proved|model]
       compare once LABEL KIB [--times N] [--against proved|model]
       compare sample GROUP FILE
       compare stats import|pcap|honest|bench [--seed N] [--size N]

GROUP is codec, names, plan, order, import, tolerant, gaps, pcap, fcs, bytes, sizes, links
or vectors. --size is the number of random cases; what is exhaustive stays whole. `all` runs
every group that this build links. There is no sample of gaps, pcap, fcs, sizes and links, and
neither sample nor bench of bytes and vectors.
PROGRAM is the built traceprint.

`bench` times the rows of a group, `bench growth` how the times of import grow,
`bench gaps` how long the signs take as a part of import, `bench adapters` one handle
on many adapters against as many links that are spread over handles, `bench pcap` the
same packets in pcap and in btsnoop, `bench fcs` import with the FCS checked against
import without, `bench sizes` the sizes of a file against its import, `bench links` one
link's list against the file's import.
--only takes the rows, or of selfcheck the faults, whose label has TEXT, --kib the sizes
of the files of import (16 to 1024), and --judge says at the end which rows are over
their limit. `once` imports the trace of a row --times times and does nothing else; with the FCS checked or
as pcap, if LABEL begins with `fcs` or `pcap`; or tells its sizes, if LABEL begins with `sizes`;
or lists one of its links, if LABEL begins with `link`.";

/// What the command line says besides the command.
pub struct Options {
    pub seed: u64,
    pub size: Option<u64>,
    pub quiet: bool,
    model: bool,
    /// For `bench`: the sizes in KiB, what a label has to have, and whether limits are judged.
    pub kib: Option<Vec<usize>>,
    pub only: Option<String>,
    pub judge: bool,
    /// For `once`: how often.
    pub times: u64,
}

impl Default for Options {
    fn default() -> Options {
        Options { seed: 1, size: None, quiet: false, model: false, kib: None, only: None, judge: false, times: 1 }
    }
}

/// Prints how many cases each part of a group compared, by the number expected.
pub struct Log {
    group: &'static str,
    before: [u64; NUMBERS],
    quiet: bool,
}

impl Options {
    pub fn log(&self, group: &'static str) -> Log {
        Log { group, before: [0; NUMBERS], quiet: self.quiet }
    }
}

impl Log {
    pub fn line(&mut self, part: &str, lender: &Lender) {
        self.counts(part, &lender.answers);
    }

    /// A line for what was added to the counts since the line before.
    pub fn counts(&mut self, part: &str, answers: &[u64; NUMBERS]) {
        let counts: Vec<u64> = answers.iter().zip(self.before).map(|(now, before)| now - before).collect();
        self.before = *answers;
        if !self.quiet {
            println!("{}: {part}: {}", self.group, cases(&counts));
        }
    }

    /// A line for all that was counted.
    pub fn total(&self, answers: &[u64; NUMBERS]) {
        if !self.quiet {
            println!("{}: {}", self.group, cases(answers));
        }
    }
}

/// How many cases there are, and how many of each number.
fn cases(counts: &[u64]) -> String {
    let total: u64 = counts.iter().sum();
    let shown = counts.iter().enumerate().filter(|(_, n)| **n > 0).map(|(number, n)| format!("{number}: {n}"));
    format!("{total} cases ({})", shown.collect::<Vec<_>>().join(", "))
}

pub type Group = fn(&dyn Subject, &Options) -> Checked;

const GROUPS: [(&str, Group); 13] = [
    ("codec", codec::run),
    ("names", names::run),
    ("plan", plan::run),
    ("order", order::run),
    ("import", import::run),
    ("tolerant", tolerant::run),
    ("gaps", signs::run),
    ("pcap", containers::run),
    ("fcs", sums::run),
    ("bytes", bytes::run),
    ("sizes", sizes::run),
    ("links", links::run),
    ("vectors", vectors::run),
];

/// Prints a difference; an input too long to print is left in a file.
fn report(difference: &Difference) {
    println!("DIFFERENCE in {}, with {}", difference.call, difference.lent);
    for (name, bytes) in &difference.inputs {
        let shown = &bytes[..bytes.len().min(4096)];
        println!("  {name}, {} bytes: {}", bytes.len(), answer::hex(shown));
        if shown.len() < bytes.len() {
            let path = format!("{}/target/difference.{name}", env!("CARGO_MANIFEST_DIR"));
            match std::fs::write(&path, bytes) {
                Ok(()) => println!("  (the first 4096; all of it is in {path})"),
                Err(e) => println!("  (the first 4096; {path}: {e})"),
            }
        }
    }
    println!("  expected: {:.20000}", difference.expected);
    println!("  got: {}", difference.got);
}

/// Whether no difference was found.
fn verdict(checked: Checked) -> bool {
    if let Err(difference) = &checked {
        report(difference);
    }
    checked.is_ok()
}

/// Runs a group, and says by which way the imports that it was held to were found.
fn compared((name, group): &(&str, Group), subject: &dyn Subject, options: &Options) -> bool {
    let good = verdict(group(subject, options));
    let [direct, renamed, model, rewritten, dropped, cleared, left] = expected::asked();
    if direct + renamed + model > 0 {
        println!(
            "{name}: held to the Rust {direct} times by the file as it is, {renamed} times with a handle of its own for \
             each adapter's index and handle; to the model {model} times, with more of these than handles; {rewritten} of \
             these times by the file without the frames that have a wrong FCS; bytes were dropped {dropped} times, cleared \
             {cleared} times and left {left} times"
        );
    }
    good
}

fn number(text: Option<String>) -> Result<u64, String> {
    text.and_then(|t| t.parse().ok()).ok_or_else(|| "a number is missing".to_string())
}

/// A size of a file to make, in KiB.
fn size(text: &str) -> Result<usize, String> {
    let kib = text.parse().ok().filter(|kib| (16..=1024).contains(kib));
    kib.ok_or_else(|| format!("`{text}` is no size from 16 to 1024"))
}

fn sizes(text: &str) -> Result<Vec<usize>, String> {
    text.split(',').map(size).collect()
}

fn arguments() -> Result<(Vec<String>, Options), String> {
    let mut words = Vec::new();
    let mut options = Options::default();
    let mut args = std::env::args().skip(1);
    while let Some(arg) = args.next() {
        match arg.as_str() {
            "--seed" => options.seed = number(args.next())?,
            "--size" => options.size = Some(number(args.next())?),
            "--times" => options.times = number(args.next())?,
            "--kib" => options.kib = Some(sizes(&args.next().unwrap_or_default())?),
            "--only" => options.only = Some(args.next().ok_or("--only takes a text")?),
            "--judge" => options.judge = true,
            "--against" => match args.next().as_deref() {
                Some("model") => options.model = true,
                Some("proved") => options.model = false,
                _ => return Err("--against takes proved or model".into()),
            },
            _ => words.push(arg),
        }
    }
    Ok((words, options))
}

fn selfcheck(options: Options) -> bool {
    let options = Options { quiet: true, size: options.size.or(Some(200)), ..options };
    let (calls, mut missed) = planted::unreported(&GROUPS, &options);
    if options.only.is_some() {
        println!("selfcheck: {} of {calls} planted faults reported", calls - missed.len());
        missed.iter().for_each(|label| println!("  not reported: {label}"));
        return missed.is_empty();
    }
    let (prints, unseen) = misprint::unreported(&options);
    let planted = calls + prints;
    missed.extend(unseen.iter().map(ToString::to_string));
    println!("selfcheck: {} of {planted} planted faults reported", planted - missed.len());
    missed.iter().for_each(|label| println!("  not reported: {label}"));
    let without = planted::reported_without(&GROUPS, &options);
    without.iter().for_each(|group| println!("  reported without a fault: {group}"));
    missed.is_empty() && without.is_empty()
}

/// False if something differs.
fn run() -> Result<bool, String> {
    let (words, options) = arguments()?;
    let words: Vec<&str> = words.iter().map(String::as_str).collect();
    let subject: &dyn Subject = if options.model { &model::Model } else { &proved::Proved };
    let linked = |group: &str| options.model || proved::has(group);
    let need = |group: &str| if linked(group) { Ok(()) } else { Err(format!("built without the feature `{group}`")) };
    match words[..] {
        ["all"] => Ok(GROUPS.iter().all(|group| !linked(group.0) || compared(group, subject, &options))),
        ["traceprint", program] => Ok(verdict(traceprint::run_program(program, &options))),
        ["selfcheck"] => Ok(selfcheck(options)),
        ["bench", group] => {
            let calls: &[&str] = match group {
                "growth" => &["import"],
                "adapters" => &["import", "gaps"],
                "pcap" | "fcs" => &["import", "pcap"],
                "sizes" => &["sizes", "pcap"],
                "links" => &["links", "pcap"],
                _ => &[group],
            };
            calls.iter().try_for_each(|call| need(call))?;
            bench::run(group, subject, &options).map(verdict).ok_or_else(|| USAGE.into())
        }
        ["once", label, kib] => {
            let by_options = ["pcap ", "fcs "].iter().any(|word| label.starts_with(word));
            need(match label.split_once(' ') {
                Some(("sizes", _)) => "sizes",
                Some(("link", _)) => "links",
                _ if by_options => "pcap",
                _ => "import",
            })?;
            bench::once(label, size(kib)?, subject, &options).map(|()| true)
        }
        ["sample", group, path] => {
            let (bytes, cases) = sample::of(group).ok_or(USAGE)?;
            std::fs::write(path, &bytes).map_err(|e| format!("{path}: {e}"))?;
            println!("sample: {group}: {cases} cases, {} bytes", bytes.len());
            Ok(true)
        }
        ["stats", group @ ("import" | "pcap")] => {
            stats::import(&options, if group == "pcap" { Container::Pcap } else { Container::Btsnoop });
            Ok(true)
        }
        ["stats", "honest"] => Ok(verdict(tolerant::check_makers(&options))),
        ["stats", "bench"] => {
            bench::describe();
            Ok(true)
        }
        [name] => {
            let group = GROUPS.iter().find(|(group, _)| *group == name).ok_or(USAGE)?;
            need(name)?;
            Ok(compared(group, subject, &options))
        }
        _ => Err(USAGE.into()),
    }
}

fn main() -> ExitCode {
    match run() {
        Ok(true) => ExitCode::SUCCESS,
        Ok(false) => ExitCode::FAILURE,
        Err(message) => {
            eprintln!("{message}");
            ExitCode::from(2)
        }
    }
}
