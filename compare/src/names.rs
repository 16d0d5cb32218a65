//! Fixture names and command names.

use std::collections::BTreeSet;

use crate::answer::{Case, Checked, Difference, Lender, Subject};
use crate::codec;
use crate::expected;
use crate::items::kind_of;
use crate::model::packed;
use crate::rng::Rng;
use crate::Options;
use oracle::capture::{self, Direction};
use oracle::mdr::DataType;

struct Names<'a> {
    subject: &'a dyn Subject,
    lender: Lender,
}

impl Names<'_> {
    fn new(subject: &dyn Subject) -> Names<'_> {
        Names { subject, lender: Lender::default() }
    }

    fn name(&mut self, ms: u64, counter: u32, direction: Direction, wire: &[u8]) -> Checked {
        let expected = expected::fixture_name(ms, counter, direction, wire);
        let subject = self.subject;
        let direction = kind_of(direction) as u8;
        self.lender.about(
            &expected,
            &mut |out, values| subject.fixture_name(ms, counter, direction, wire, out, values),
            &|| Case {
                call: format!("fixture_name, ms {ms}, counter {counter}, direction {direction}"),
                inputs: vec![("wire", wire.to_vec())],
            },
        )
    }

    fn command(&mut self, name: &[u8]) -> Checked {
        let expected = std::str::from_utf8(name).is_ok_and(capture::is_command_name);
        self.lender.answers[usize::from(expected)] += 1;
        let got = self.subject.is_command_name(name);
        if got == u32::from(expected) {
            return Ok(());
        }
        Err(Box::new(Difference {
            call: "is_command_name".into(),
            inputs: vec![("name", name.to_vec())],
            lent: "nothing".into(),
            expected: u32::from(expected).to_string(),
            got: got.to_string(),
        }))
    }
}

const BOTH: [Direction; 2] = [Direction::Rx, Direction::Tx];

/// 0, the numbers on either side of each power of ten up to `most`, and `most`.
fn digit_boundaries(most: u64) -> Vec<u64> {
    let mut numbers = vec![0, most];
    let mut power = 1u64;
    loop {
        numbers.extend([power - 1, power, power + 1]);
        match power.checked_mul(10) {
            Some(next) if next <= most => power = next,
            _ => return numbers,
        }
    }
}

/// The words that a payload's command can have, as the source spells them.
pub fn command_words() -> Vec<&'static str> {
    let mut words = vec![capture::command_name(DataType::Ack, &[])];
    for kind in [0x0C, 0x0E] {
        for byte in 0..=255 {
            words.push(capture::command_name(DataType::from_wire(kind), &[byte]));
        }
    }
    words.sort_unstable();
    words.dedup();
    words
}

/// The words of commands and of types.
pub fn words() -> Vec<&'static str> {
    let types = (0..=255).map(|kind| capture::data_type_name(DataType::from_wire(kind)));
    command_words().into_iter().chain(types).collect()
}

/// Where a word can be split: at its ends, before an underscore and behind one.
fn splits(word: &str) -> impl Iterator<Item = usize> + '_ {
    let about = word.match_indices('_').flat_map(|(at, _)| [at, at + 1]);
    [0, word.len()].into_iter().chain(about)
}

/// The stems and the endings of all words, wherever they can be split.
pub fn stems_and_endings() -> [Vec<&'static str>; 2] {
    let (mut stems, mut endings) = (BTreeSet::new(), BTreeSet::new());
    for word in words() {
        for (stem, ending) in splits(word).map(|at| word.split_at(at)) {
            stems.insert(stem);
            endings.insert(ending);
        }
    }
    [stems, endings].map(|parts| parts.into_iter().collect())
}

/// Every type with no payload and with each first byte.
fn all_types(names: &mut Names, rng: &mut Rng) -> Checked {
    let times = digit_boundaries(u64::MAX);
    let counters = digit_boundaries(u32::MAX.into());
    for kind in 0..=255 {
        for first in 0..=256 {
            let mut payload = Vec::new();
            if first < 256 {
                payload.push(first as u8);
                payload.extend(rng.mixed(first % 3, &[0x3C, 0x3D, 0x3E], 30));
            }
            let wire = packed(kind, rng.byte(), &payload);
            names.name(rng.pick(&times), rng.pick(&counters) as u32, rng.pick(&BOTH), &wire)?;
        }
    }
    Ok(())
}

/// Every time and counter about a change in the number of digits.
fn numbers(names: &mut Names) -> Checked {
    let wire = packed(0x0C, 0x00, &[0x00]);
    for &ms in &digit_boundaries(u64::MAX) {
        for &counter in &digit_boundaries(u32::MAX.into()) {
            for direction in BOTH {
                names.name(ms, counter as u32, direction, &wire)?;
            }
        }
    }
    Ok(())
}

fn refusals(names: &mut Names, rng: &mut Rng, size: u64) -> Checked {
    for n in 0..=9 {
        codec::each_string(n, &[0x00, 0x3C, 0x3D, 0x3E], &mut |s| names.name(7, 1, Direction::Rx, s))?;
    }
    for _ in 0..size {
        let n = rng.below(12);
        let payload = rng.mixed(n, &codec::BYTES, 50);
        let mut wire = packed(rng.pick(&[0x01, 0x0C, 0x0E]), rng.byte(), &payload);
        if rng.percent(80) {
            codec::damage(rng, &mut wire);
        }
        names.name(rng.next(), rng.next() as u32, rng.pick(&BOTH), &wire)?;
    }
    Ok(())
}

/// Every name of both tables, its beginnings, and it with a letter changed, added
/// or removed.
fn commands(names: &mut Names, rng: &mut Rng) -> Checked {
    for word in command_words() {
        let word = word.as_bytes();
        for n in 0..=word.len() {
            names.command(&word[..n])?;
            names.command(&word[n..])?;
        }
        for at in 0..word.len() {
            let mut other = word.to_vec();
            other[at] = other[at].wrapping_add(1);
            names.command(&other)?;
            other[at] = word[at].to_ascii_lowercase();
            names.command(&other)?;
            other[at] = rng.byte();
            names.command(&other)?;
            other[at] = rng.pick(b"ABCDEFGHIJKLMNOPQRSTUVWXYZ_0129");
            names.command(&other)?;
            other.remove(at);
            names.command(&other)?;
        }
        for byte in 0..=255 {
            names.command(&[word, &[byte]].concat())?;
            names.command(&[&[byte], word].concat())?;
        }
        names.command(&[word, word].concat())?;
    }
    Ok(())
}

/// Every stem joined with every ending: a name is taken whole, not by its parts.
fn joins(names: &mut Names) -> Checked {
    let [stems, endings] = stems_and_endings();
    for stem in stems {
        for ending in &endings {
            names.command([stem, ending].concat().as_bytes())?;
        }
    }
    Ok(())
}

pub fn run(subject: &dyn Subject, options: &Options) -> Checked {
    let mut rng = Rng::new(options.seed);
    let mut names = Names::new(subject);
    let mut log = options.log("names");
    all_types(&mut names, &mut rng)?;
    log.line("every type and first byte", &names.lender);
    numbers(&mut names)?;
    log.line("times and counters", &names.lender);
    refusals(&mut names, &mut rng, options.size.unwrap_or(100_000))?;
    log.line("damaged frames", &names.lender);
    commands(&mut names, &mut rng)?;
    log.line("is_command_name", &names.lender);
    joins(&mut names)?;
    log.line("is_command_name, every join of a stem and an ending", &names.lender);
    Ok(())
}

/// One part alone.
pub fn run_types(subject: &dyn Subject, options: &Options) -> Checked {
    all_types(&mut Names::new(subject), &mut Rng::new(options.seed))
}

pub fn run_about(subject: &dyn Subject, options: &Options) -> Checked {
    commands(&mut Names::new(subject), &mut Rng::new(options.seed))
}

pub fn run_joins(subject: &dyn Subject, _: &Options) -> Checked {
    joins(&mut Names::new(subject))
}
