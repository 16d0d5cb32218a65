//! Wrong readings of the container pcap, and wrong calls that take a container, planted to be reported by `pcap`.

use crate::answer::{chosen, container, Answer, Container, Stretch};
use crate::gaps::{self, InPcap};
use crate::model::{self, be};
use crate::pcap::{self, Form, Reading, Record, FORMS, HEAD, RIGHT, ROW};

/// Parts of the group, for faults that each of them has to report alone.
pub const BY_HAND: &str = "pcap, fixed files";
pub const RANDOM: &str = "pcap, random traces";
pub const DAMAGED: &str = "pcap, damaged traces and random bytes";
pub const HONEST: &str = "pcap, every cut of honest recordings";
pub const SHORT: &str = "pcap, short files and headers";
pub const MOST: &str = "pcap, files full of the smallest records";
pub const LONG: &str = "pcap, long files";
pub const LOSSES: &str = "pcap, signs";
pub const TWINS: &str = "pcap, the same signs as in the twin";
pub const LAW: &str = "pcap, the law of starts";
pub const OTHERS: &str = "pcap, btsnoop files";

/// Which options a call goes by, instead of those that it gets.
pub type Asks = fn(&[u8], &[u64]) -> Vec<u64>;

/// Changes the answer for a file.
pub type Change = fn(&mut Answer, &[u8]);

/// Stores an answer in the output and the values that are lent.
pub type Store = fn(&Answer, &mut [u8], &mut [u64]) -> u32;

/// The calls that take a container, with some of them replaced.
#[derive(Clone, Copy)]
pub struct Misfiled {
    /// What import asks for; then of the other three.
    pub options: Asks,
    pub stretches: Asks,
    pub records: Asks,
    pub gaps: Asks,
    /// Whether so many places are too few for a file of this length.
    pub lacks: fn(usize, usize) -> bool,
    /// Fills the places with the open stretches, after this number.
    pub fill: fn(u32, &mut [Stretch], &[Stretch]),
    /// How the records of a pcap file are found, which of them are told, and how their starts are stored.
    pub found: Reading,
    pub told: fn(&Record) -> bool,
    pub starts: fn(&mut [u64], &[u64]),
    /// How the signs of a pcap file are found.
    pub signs: gaps::Reading,
    /// Whether the stretches are those that are open with the FCS not checked.
    pub unchecked: bool,
    /// Stores the answer of import.
    pub store: Store,
    /// Changes the answers, each before it is stored.
    pub change_stretches: Change,
    pub change_records: fn(&mut Answer, &[u8]),
    /// Of the call that takes no options.
    pub change_alone: fn(&mut Answer, &[u8]),
    pub change_gaps: fn(&mut Answer, &[u8]),
    /// Whether a byte of work is changed, after this number.
    pub spoils: fn(u32) -> bool,
}

const AS_ASKED: Asks = |_, options| options.to_vec();

/// Without a fault.
pub const NONE: Misfiled = Misfiled {
    options: AS_ASKED,
    stretches: AS_ASKED,
    records: AS_ASKED,
    gaps: AS_ASKED,
    lacks: model::lacks_places,
    fill: |number, places, open| {
        if number == 0 {
            model::fill(places, open);
        }
    },
    found: RIGHT,
    told: |_| true,
    starts: |places, starts| places.iter_mut().zip(starts).for_each(|(place, start)| *place = *start),
    signs: gaps::RIGHT,
    unchecked: false,
    store: model::store,
    change_stretches: |_, _| (),
    change_records: |_, _| (),
    change_alone: |_, _| (),
    change_gaps: |_, _| (),
    spoils: |_| false,
};

impl Misfiled {
    #[allow(clippy::too_many_arguments)]
    pub fn import_stretches(
        &self,
        reading: model::Reading,
        file: &[u8],
        work: &mut [u8],
        places: &mut [Stretch],
        out: &mut [u8],
        options: &[u64],
        values: &mut [u64],
    ) -> u32 {
        let options = (self.stretches)(file, options);
        let mut answer = match (self.lacks)(file.len(), places.len()) {
            true => Answer::refused(2, &[]),
            false => model::import_with(file, work.len(), &options, reading),
        };
        (self.change_stretches)(&mut answer, file);
        let number = (self.store)(&answer, out, values);
        let checks = chosen(&options).checks && !self.unchecked;
        let open = || model::open(container(&options), file, answer.values[0], checks, reading);
        (self.fill)(number, places, &if number == 0 { open() } else { Vec::new() });
        self.spoil(number, work);
        number
    }

    pub fn records(&self, file: &[u8], places: &mut [u64], options: &[u64], values: &mut [u64]) -> u32 {
        let container = container(&(self.records)(file, options));
        let (mut answer, mut starts) = model::records_with(container, file, self.found);
        if answer.number == 0 && container == Container::Pcap {
            let records = pcap::read(file, self.found).0;
            let mut told = records.iter().map(self.told);
            starts.retain(|_| told.next() == Some(true));
            answer.values[0] = starts.len() as u64;
        }
        (self.change_records)(&mut answer, file);
        (self.starts)(places, &starts);
        model::store(&answer, &mut [], values)
    }

    pub fn records_alone(&self, file: &[u8], places: &mut [u64], values: &mut [u64]) -> u32 {
        Misfiled { change_records: self.change_alone, ..NONE }.records(file, places, &[], values)
    }

    pub fn gaps(&self, file: &[u8], work: &mut [u8], options: &[u64], values: &mut [u64]) -> u32 {
        let options = (self.gaps)(file, options);
        let mut answer = gaps::answer_in(container(&options), file, work.len(), chosen(&options).tolerant, self.signs);
        (self.change_gaps)(&mut answer, file);
        let number = model::store(&answer, &mut [], values);
        self.spoil(number, work);
        number
    }

    fn spoil(&self, number: u32, work: &mut [u8]) {
        if let Some(byte) = work.last_mut() {
            *byte ^= u8::from((self.spoils)(number));
        }
    }
}

// ---- import

/// A wrong importer with its label and the parts that have to report it.
type Importer = (&'static [&'static str], &'static str, Reading);

/// What every part shows; what the vectors do not; what is left to chance in random traces alone; and headers that only files
/// made for them have.
const MADE: &[&str] = &[BY_HAND, RANDOM, DAMAGED, HONEST, "vectors"];
const ALL: &[&str] = &[BY_HAND, RANDOM, HONEST];
const BY_HAND_RANDOM: &[&str] = &[BY_HAND, RANDOM];
const FIXED: &[&str] = &[BY_HAND, SHORT];
const HAND: &[&str] = &[BY_HAND];

fn four(packet: &[u8]) -> Option<u64> {
    packet.get(..4).map(be)
}

/// By four bytes: sent, received, or neither.
fn way(direction: u64) -> Option<bool> {
    match direction {
        0 => Some(false),
        1 => Some(true),
        _ => None,
    }
}

/// Of a direction.
fn of_directions() -> Vec<Importer> {
    let reads = |received| Reading { received, ..RIGHT };
    vec![
        (
            MADE,
            "the direction is in the file's byte order",
            reads(|form, packet| packet.get(..4).and_then(|_| way(form.number(packet, 0)))),
        ),
        (MADE, "the direction is its low bit", reads(|_, packet| four(packet).map(|direction| direction % 2 == 1))),
        (
            MADE,
            "the direction is its last byte",
            reads(|_, packet| four(packet).and_then(|direction| way(direction % 256))),
        ),
        (MADE, "the directions are swapped", reads(|_, packet| four(packet).and_then(way).map(|received| !received))),
        (
            MADE,
            "the direction is 16 bits",
            reads(|_, packet| four(packet).and_then(|direction| way(direction % 65_536))),
        ),
        (BY_HAND_RANDOM, "the direction is its first byte", reads(|_, packet| way(u64::from(*packet.first()?)))),
    ]
}

/// Of a file's header.
fn of_headers() -> Vec<Importer> {
    let links = |link| Reading { link, ..RIGHT };
    let forms = |form| Reading { form, ..RIGHT };
    vec![
        (
            FIXED,
            "the link type has 16 bits",
            links(|form, file| (form.number(file, 20) % 65_536, form.number(file, 20))),
        ),
        (
            HAND,
            "the link type's upper 4 bits are masked",
            links(|form, file| (form.number(file, 20) % (1 << 28), form.number(file, 20))),
        ),
        (
            FIXED,
            "the link type's upper 6 bits are masked",
            links(|form, file| (form.number(file, 20) % (1 << 26), form.number(file, 20))),
        ),
        (FIXED, "the link type has 8 bits", links(|form, file| (form.number(file, 20) % 256, form.number(file, 20)))),
        (
            FIXED,
            "the link type is carried in the other byte order",
            links(|form, file| (form.number(file, 20), Form { big: !form.big, ..form }.number(file, 20))),
        ),
        (
            FIXED,
            "the link type is carried in 16 bits",
            links(|form, file| (form.number(file, 20), form.number(file, 20) % 65_536)),
        ),
        (
            FIXED,
            "the link type is little-endian",
            links(|form, file| {
                let little = Form { big: false, ..form };
                (little.number(file, 20), little.number(file, 20))
            }),
        ),
        (
            HAND,
            "16 bytes of header are enough",
            forms(|file| FORMS.into_iter().find(|form| file.len() >= 16 && file.starts_with(&form.magic()))),
        ),
        (
            FIXED,
            "23 bytes of header are enough",
            forms(|file| FORMS.into_iter().find(|form| file.len() >= 23 && file.starts_with(&form.magic()))),
        ),
        (FIXED, "25 bytes are wanted", forms(|file| (RIGHT.form)(file).filter(|_| file.len() > HEAD))),
        (
            &[BY_HAND, RANDOM, SHORT],
            "the version has to be 2.4",
            forms(|file| {
                (RIGHT.form)(file).filter(|form| file[4..8] == if form.big { [0, 2, 0, 4] } else { [2, 0, 4, 0] })
            }),
        ),
        (
            ALL,
            "little-endian microseconds are forgotten",
            forms(|file| (RIGHT.form)(file).filter(|form| *form != FORMS[0])),
        ),
        (
            ALL,
            "big-endian microseconds are forgotten",
            forms(|file| (RIGHT.form)(file).filter(|form| *form != FORMS[1])),
        ),
        (
            ALL,
            "little-endian nanoseconds are forgotten",
            forms(|file| (RIGHT.form)(file).filter(|form| *form != FORMS[2])),
        ),
        (
            ALL,
            "big-endian nanoseconds are forgotten",
            forms(|file| (RIGHT.form)(file).filter(|form| *form != FORMS[3])),
        ),
        (
            FIXED,
            "a modified pcap is taken",
            forms(|file| {
                let modified = file.len() >= HEAD && file.starts_with(&[0xA1, 0xB2, 0xCD, 0x34]);
                if modified {
                    Some(FORMS[1])
                } else {
                    (RIGHT.form)(file)
                }
            }),
        ),
        (
            FIXED,
            "three bytes of the magic are looked at",
            forms(|file| FORMS.into_iter().find(|form| file.len() >= HEAD && file.starts_with(&form.magic()[..3]))),
        ),
    ]
}

/// The milliseconds by a fraction that was changed.
fn by(form: Form, row: &[u8], fraction: u64) -> u64 {
    1000 * form.number(row, 0) + fraction / form.parts()
}

/// Of times.
fn of_times() -> Vec<Importer> {
    let times = |ms| Reading { ms, ..RIGHT };
    vec![
        (
            MADE,
            "nanoseconds are read as microseconds",
            times(|form, _, row| 1000 * form.number(row, 0) + form.number(row, 4) / 1000),
        ),
        (
            MADE,
            "microseconds are read as nanoseconds",
            times(|form, _, row| 1000 * form.number(row, 0) + form.number(row, 4) / 1_000_000),
        ),
        (
            ALL,
            "a fraction is capped at a second",
            times(|form, _, row| by(form, row, form.number(row, 4).min(1000 * form.parts() - 1))),
        ),
        (
            ALL,
            "a fraction is taken modulo a second",
            times(|form, _, row| by(form, row, form.number(row, 4) % (1000 * form.parts()))),
        ),
        (
            ALL,
            "seconds are signed",
            times(|form, _, row| {
                let seconds = i64::from(form.number(row, 0) as u32 as i32);
                (1000 * seconds).wrapping_add((form.number(row, 4) / form.parts()) as i64) as u64
            }),
        ),
        (
            MADE,
            "a fraction is rounded to the nearest",
            times(|form, _, row| by(form, row, form.number(row, 4) + form.parts() / 2)),
        ),
        (ALL, "a fraction is rounded up", times(|form, _, row| by(form, row, form.number(row, 4) + form.parts() - 1))),
        (MADE, "milliseconds have 32 bits", times(|form, file, row| (RIGHT.ms)(form, file, row) % (1 << 32))),
        (
            ALL,
            "seconds in milliseconds have 32 bits",
            times(|form, _, row| 1000 * form.number(row, 0) % (1 << 32) + form.number(row, 4) / form.parts()),
        ),
        (
            BY_HAND_RANDOM,
            "the time zone is added",
            times(|form, file, row| {
                (RIGHT.ms)(form, file, row).wrapping_add((1000 * i64::from(form.number(file, 8) as u32 as i32)) as u64)
            }),
        ),
        (
            BY_HAND_RANDOM,
            "the time zone is taken away",
            times(|form, file, row| {
                (RIGHT.ms)(form, file, row).wrapping_sub((1000 * i64::from(form.number(file, 8) as u32 as i32)) as u64)
            }),
        ),
        (MADE, "the fraction is left out", times(|form, _, row| 1000 * form.number(row, 0))),
    ]
}

/// Of records and their packets.
fn of_records() -> Vec<Importer> {
    let ends = |ends| Reading { ends, ..RIGHT };
    let acl = |acl| Reading { acl, ..RIGHT };
    vec![
        (MADE, "the original length counts", Reading { length: |form, row| form.number(row, 12), ..RIGHT }),
        (
            MADE,
            "the smaller length counts",
            Reading { length: |form, row| form.number(row, 8).min(form.number(row, 12)), ..RIGHT },
        ),
        (MADE, "record headers are little-endian", Reading { row: |form| Form { big: false, ..form }, ..RIGHT }),
        (MADE, "record headers are big-endian", Reading { row: |form| Form { big: true, ..form }, ..RIGHT }),
        (
            &[BY_HAND, RANDOM, HONEST, "vectors"],
            "a packet under 4 bytes ends the reading",
            ends(|_, _, record| record.len() < ROW + 4),
        ),
        (
            BY_HAND_RANDOM,
            "a packet over the snap length ends the reading",
            ends(|form, file, record| (record.len() - ROW) as u64 > form.number(file, 16)),
        ),
        (HAND, "a packet over 262,144 bytes ends the reading", ends(|_, _, record| record.len() > ROW + 262_144)),
        (
            ALL,
            "another direction ends the reading",
            ends(|_, _, record| four(&record[ROW..]).is_some_and(|direction| direction > 1)),
        ),
        (BY_HAND_RANDOM, "an empty record ends the reading", ends(|_, _, record| record.len() == ROW)),
        (MADE, "the H4 type is not looked at", acl(|behind| behind.get(1..))),
        (MADE, "the H4 type is kept", acl(|behind| behind.strip_prefix(&[2]).map(|_| behind))),
        (
            BY_HAND_RANDOM,
            "the H4 type is its low 4 bits",
            acl(|behind| (behind.first()? % 16 == 2).then(|| &behind[1..])),
        ),
        (MADE, "there is no H4 type", acl(|behind| behind.get(..))),
        (
            &[BY_HAND, DAMAGED, HONEST, "vectors"],
            "offsets count from the first record",
            Reading { offset: |at| at - HEAD, ..RIGHT },
        ),
        (
            &[BY_HAND, DAMAGED, HONEST],
            "offsets count as if the header had 16 bytes",
            Reading { offset: |at| at - 8, ..RIGHT },
        ),
    ]
}

/// The wrong importers, each for the parts that have to report it.
pub fn importers() -> Vec<(&'static str, String, model::Reading)> {
    let all = [of_directions(), of_headers(), of_times(), of_records()].concat().into_iter();
    let reading = |pcap| model::Reading { pcap, ..model::RIGHT };
    let each = |(groups, label, pcap): Importer| {
        groups.iter().map(move |group| (*group, format!("pcap: {label}"), reading(pcap)))
    };
    all.flat_map(each).collect()
}

// ---- the options

/// The options with another container.
fn with_container(options: &[u64], container: u64) -> Vec<u64> {
    let mut all = options.to_vec();
    all.resize(all.len().max(3), 0);
    // Where no channel was asked for, none is.
    if options.is_empty() {
        all[0] = 256;
    }
    all[2] = container;
    all
}

/// Wrong ways to find the container, each with the part that has to report it.
const CHOICES: [(&str, &str, Asks); 9] = [
    (BY_HAND, "the container is not looked at", |_, options| with_container(options, 0)),
    (OTHERS, "every file is pcap", |_, options| with_container(options, 1)),
    (BY_HAND, "1 alone is pcap", |_, options| with_container(options, u64::from(options.get(2) == Some(&1)))),
    (BY_HAND, "the container has 32 bits", |_, options| {
        with_container(options, options.get(2).map_or(0, |container| container % (1 << 32)))
    }),
    (BY_HAND, "the container has 8 bits", |_, options| {
        with_container(options, options.get(2).map_or(0, |container| container % 256))
    }),
    (OTHERS, "without a container, pcap is asked for", |_, options| {
        with_container(options, options.get(2).copied().unwrap_or(1))
    }),
    (OTHERS, "the container is in the place of the rule", |_, options| {
        with_container(options, options.get(1).copied().unwrap_or(0))
    }),
    (BY_HAND, "the container is in the place after its own", |_, options| {
        with_container(options, options.get(3).copied().unwrap_or(0))
    }),
    (BY_HAND, "of more options than there are, the last is the container", |_, options| {
        with_container(options, options.get(2..).and_then(|more| more.last()).copied().unwrap_or(0))
    }),
];

/// The container is guessed from the file; reported where the other is asked for.
const GUESSED: Asks = |file, options| with_container(options, u64::from((RIGHT.form)(file).is_some()));

/// A wrong call with its label and the part that has to report it.
type Fault = (&'static str, String, Misfiled);

/// Plants a choice of options in one of the calls.
type Planting = fn(Asks) -> Misfiled;

fn of_options() -> Vec<Fault> {
    let calls: [(&str, Planting); 4] = [
        ("import_with", |asks| Misfiled { options: asks, ..NONE }),
        ("import_stretches_with", |asks| Misfiled { stretches: asks, ..NONE }),
        ("records_with", |asks| Misfiled { records: asks, ..NONE }),
        ("gaps_with", |asks| Misfiled { gaps: asks, ..NONE }),
    ];
    let mut faults = Vec::new();
    for (call, planted) in calls {
        for (part, label, asks) in CHOICES {
            faults.push((part, format!("{call}: {label}"), planted(asks)));
        }
        faults.push((BY_HAND, format!("{call}: the container is guessed, pcap asked for"), planted(GUESSED)));
        faults.push((OTHERS, format!("{call}: the container is guessed, btsnoop asked for"), planted(GUESSED)));
    }
    let strict: Asks = |_, options| options.iter().enumerate().map(|(i, n)| if i == 1 { 0 } else { *n }).collect();
    let tolerant: Asks = |_, options| options.iter().enumerate().map(|(i, n)| if i == 1 { 1 } else { *n }).collect();
    for (label, asks) in
        [("the rule is strict whatever they say", strict), ("the rule is tolerant whatever they say", tolerant)]
    {
        faults.push((BY_HAND, format!("import_stretches_with: {label}"), Misfiled { stretches: asks, ..NONE }));
        faults.push((BY_HAND, format!("gaps_with: {label}"), Misfiled { gaps: asks, ..NONE }));
        faults.push((BY_HAND, format!("import_with of pcap: {label}"), Misfiled { options: asks, ..NONE }));
    }
    faults
}

// ---- places, records and signs

/// Changes an answer of this number.
macro_rules! numbered {
    ($number:literal, $answer:ident, $file:ident, $change:expr) => {
        |$answer: &mut Answer, $file: &[u8]| {
            let _ = $file;
            if $answer.number == $number {
                $change
            }
        }
    };
}

fn of_stretches() -> Vec<Fault> {
    let lacks = |lacks| Misfiled { lacks, ..NONE };
    let change = |change_stretches| Misfiled { change_stretches, ..NONE };
    let fill = |fill| Misfiled { fill, ..NONE };
    let fault = |(part, label, planted): (&'static str, &str, Misfiled)| {
        (part, format!("import_stretches_with: {label}"), planted)
    };
    let all = vec![
        (BY_HAND, "places are not counted", lacks(|_, _| false)),
        (BY_HAND, "one place less is enough", lacks(|n, places| model::lacks_places(n, places + 1))),
        (SHORT, "a place for every 16 bytes is wanted", lacks(|n, places| n <= 1 << 20 && places < n / 16)),
        (SHORT, "a place for every 25 bytes is enough", lacks(|n, places| n <= 1 << 20 && places < n / 25)),
        (BY_HAND, "22 carries nothing", change(numbered!(22, answer, file, answer.values.clear()))),
        (
            BY_HAND,
            "5 carries the file's length",
            change(numbered!(5, answer, file, answer.values[0] = file.len() as u64)),
        ),
        (BY_HAND, "21 is told as 3", change(numbered!(21, answer, file, answer.number = 3))),
        (BY_HAND, "22 is told as 4", change(numbered!(22, answer, file, answer.number = 4))),
        (HONEST, "unfinished is invented", change(numbered!(0, answer, file, answer.values[2] = 0))),
        (
            HONEST,
            "an open stretch is not listed",
            fill(|_, places, open| model::fill(places, open.get(1..).unwrap_or(&[]))),
        ),
        (
            BY_HAND,
            "a place is touched by a refusal",
            fill(|number, places, open| match places.last_mut() {
                Some(place) if number != 0 => place.held = 0,
                _ => (NONE.fill)(number, places, open),
            }),
        ),
        (BY_HAND, "work is touched by 2", Misfiled { spoils: |number| number == 2, ..NONE }),
    ];
    all.into_iter().map(fault).collect()
}

fn of_found() -> Vec<Fault> {
    let found = |found| Misfiled { found, ..NONE };
    let told = |told| Misfiled { told, ..NONE };
    let starts = |starts| Misfiled { starts, ..NONE };
    let change = |change_records| Misfiled { change_records, ..NONE };
    let fault =
        |(part, label, planted): (&'static str, &str, Misfiled)| (part, format!("records_with: {label}"), planted);
    let all = vec![
        (BY_HAND, "the original length counts", found(Reading { length: |form, row| form.number(row, 12), ..RIGHT })),
        (
            BY_HAND,
            "record headers are little-endian",
            found(Reading { row: |form| Form { big: false, ..form }, ..RIGHT }),
        ),
        (BY_HAND, "record headers are big-endian", found(Reading { row: |form| Form { big: true, ..form }, ..RIGHT })),
        (BY_HAND, "places count from the first record", found(Reading { offset: |at| at - HEAD, ..RIGHT })),
        (BY_HAND, "places count as if the header had 16 bytes", found(Reading { offset: |at| at - 8, ..RIGHT })),
        (
            BY_HAND,
            "a start is where the packet starts",
            starts(|places, starts| {
                places.iter_mut().zip(starts).for_each(|(place, start)| *place = start + ROW as u64);
            }),
        ),
        (
            BY_HAND,
            "a packet under 4 bytes ends the reading",
            found(Reading { ends: |_, _, record| record.len() < ROW + 4, ..RIGHT }),
        ),
        (BY_HAND, "records that are skipped are left out", told(|record| record.acl.is_some())),
        (BY_HAND, "records without a direction are left out", told(|record| record.received.is_some())),
        (BY_HAND, "empty records are left out", told(|record| record.bytes.len() > ROW)),
        (BY_HAND, "the link type is not looked at", found(Reading { link: |_, _| (201, 201), ..RIGHT })),
        (BY_HAND, "22 carries nothing", change(numbered!(22, answer, file, answer.values.clear()))),
        (
            BY_HAND,
            "21 carries the file's length",
            change(numbered!(21, answer, file, answer.values.push(file.len() as u64))),
        ),
        (BY_HAND, "21 is told as 3", change(numbered!(21, answer, file, answer.number = 3))),
        (
            BY_HAND,
            "a file that is cut is refused",
            change(numbered!(0, answer, file, {
                if answer.values[1] < file.len() as u64 {
                    *answer = Answer::refused(5, &answer.values[1..]);
                }
            })),
        ),
        (
            BY_HAND,
            "the tail is the file's length",
            change(numbered!(0, answer, file, answer.values[1] = file.len() as u64)),
        ),
        (BY_HAND, "one record more is counted", change(numbered!(0, answer, file, answer.values[0] += 1))),
        (
            BY_HAND,
            "a file without a record has no stream",
            change(numbered!(0, answer, file, {
                if answer.values[0] == 0 {
                    *answer = Answer::refused(6, &[]);
                }
            })),
        ),
        (
            BY_HAND,
            "the starts are stored from the last to the first",
            starts(|places, starts| {
                places.iter_mut().zip(starts.iter().rev()).for_each(|(place, start)| *place = *start);
            }),
        ),
        (
            BY_HAND,
            "nothing is stored in a list that is too short",
            starts(|places, starts| {
                if places.len() >= starts.len() {
                    (NONE.starts)(places, starts);
                }
            }),
        ),
        (
            BY_HAND,
            "a place past the starts is touched",
            starts(|places, starts| {
                (NONE.starts)(places, starts);
                if let Some(place) = places.get_mut(starts.len()) {
                    *place = 0;
                }
            }),
        ),
        (
            MOST,
            "the last start is not stored",
            starts(|places, starts| {
                (NONE.starts)(places, &starts[..starts.len().saturating_sub(1)]);
            }),
        ),
    ];
    all.into_iter().map(fault).collect()
}

/// In the call for records that takes no options.
fn of_records_alone() -> Vec<Fault> {
    let change = |change_alone| Misfiled { change_alone, ..NONE };
    let all = vec![
        ("one record more is counted", change(numbered!(0, answer, file, answer.values[0] += 1))),
        ("the tail is the file's length", change(numbered!(0, answer, file, answer.values[1] = file.len() as u64))),
        ("4 carries nothing", change(numbered!(4, answer, file, answer.values.clear()))),
        (
            "a pcap file is taken",
            change(numbered!(3, answer, file, {
                *answer = model::records_with(Container::Pcap, file, RIGHT).0;
            })),
        ),
    ];
    all.into_iter().map(|(label, planted)| (OTHERS, format!("records: {label}"), planted)).collect()
}

/// The signs by another definition of what a record shows.
fn signs(pcap: InPcap) -> Misfiled {
    Misfiled { signs: gaps::Reading { pcap, ..gaps::RIGHT }, ..NONE }
}

fn of_signs() -> Vec<Fault> {
    let own = gaps::RIGHT.pcap;
    let short = |is_short| signs(InPcap { is_short, ..own });
    let drops = |drops| signs(InPcap { drops, ..own });
    let zeros = |is_zeros| signs(InPcap { is_zeros, ..own });
    let acl = |is_acl| signs(InPcap { is_acl, ..own });
    let place = |place| signs(InPcap { place, ..own });
    let reads = |reading| signs(InPcap { reading, ..own });
    let change = |change_gaps| Misfiled { change_gaps, ..NONE };
    let fault = |(parts, label, planted): (&'static [&'static str], &'static str, Misfiled)| {
        parts.iter().map(move |part| (*part, format!("gaps_with: {label}"), planted))
    };
    const LOST: &[&str] = &[LOSSES, TWINS];
    let all: Vec<(&'static [&'static str], &'static str, Misfiled)> = vec![
        (LOST, "short is captured over original", short(|record| record.captured() > record.original())),
        (
            &[LOSSES, TWINS, BY_HAND],
            "short with equal lengths too",
            short(|record| record.captured() <= record.original()),
        ),
        (LOST, "short is any other length", short(|record| record.captured() != record.original())),
        (LOST, "short by signed numbers", short(|record| (record.captured() as i32) < record.original() as i32)),
        (
            LOST,
            "short by little-endian numbers",
            short(|record| {
                let little = Form { big: false, ..record.form };
                little.number(record.bytes, 12) > little.number(record.bytes, 8)
            }),
        ),
        (
            LOST,
            "short by the packet behind the direction",
            short(|record| record.captured().saturating_sub(4) < record.original()),
        ),
        (LOST, "original length for captured", reads(Reading { length: |form, row| form.number(row, 12), ..RIGHT })),
        (&[LOSSES, BY_HAND], "drops are read from the original length", drops(|record| record.original())),
        (&[LOSSES, BY_HAND], "drops are read from the fraction", drops(|record| record.form.number(record.bytes, 4))),
        (
            &[LOSSES, BY_HAND],
            "drops are what is stored short",
            drops(|record| record.original().saturating_sub(record.captured())),
        ),
        (&[LOSSES, TWINS, BY_HAND], "places count as if the header had 16 bytes", place(|record| record.at - 8)),
        (&[LOSSES, TWINS, BY_HAND], "places count from the first record", place(|record| record.at - HEAD)),
        (&[LOSSES, TWINS, BY_HAND], "a place is where the packet starts", place(|record| record.at + ROW)),
        (LOST, "other directions are skipped data", acl(|record| record.packet().get(4) == Some(&2))),
        (LOST, "other types are skipped data", acl(|record| record.received.is_some())),
        (
            LOST,
            "packets under 4 bytes are skipped data",
            acl(|record| record.acl.is_some() || record.packet().len() < 4),
        ),
        (
            &[LOSSES, TWINS],
            "packets of 4 bytes are skipped data",
            acl(|record| record.acl.is_some() || record.received.is_some() && record.packet().len() == 4),
        ),
        (LOST, "every record without a packet is skipped data", acl(|_| true)),
        (LOST, "only data received is skipped", acl(|record| record.acl.is_some() && record.received == Some(true))),
        (LOST, "a packet without its data is not skipped", acl(|record| record.acl.is_some_and(|acl| acl.len() < 4))),
        (
            LOST,
            "a packet without a whole header is not skipped",
            acl(|record| record.acl.is_some_and(|acl| acl.len() >= 4)),
        ),
        (
            &[LOSSES, BY_HAND],
            "zeros wants the lengths alone",
            zeros(|record| record.bytes[8..16].iter().all(|byte| *byte == 0)),
        ),
        (
            &[LOSSES, BY_HAND],
            "zeros wants the times alone",
            zeros(|record| record.bytes[..8].iter().all(|byte| *byte == 0)),
        ),
        (&[LOSSES], "zeros wants 15 bytes", zeros(|record| record.bytes[..15].iter().all(|byte| *byte == 0))),
        (
            &[LOSSES, SHORT],
            "a record of zeros has 24 bytes",
            zeros(|record| record.bytes.len() >= 24 && record.bytes.iter().all(|byte| *byte == 0)),
        ),
        (
            &[LOSSES, TWINS, LAW],
            "the direction is its low bit",
            reads(Reading { received: |_, packet| four(packet).map(|direction| direction % 2 == 1), ..RIGHT }),
        ),
        (
            LOST,
            "the direction is in the file's byte order",
            reads(Reading {
                received: |form, packet| packet.get(..4).and_then(|_| way(form.number(packet, 0))),
                ..RIGHT
            }),
        ),
        (
            &[LOSSES, TWINS, LAW],
            "a packet under 4 bytes ends the reading",
            reads(Reading { ends: |_, _, record| record.len() < ROW + 4, ..RIGHT }),
        ),
        (LOST, "record headers are little-endian", reads(Reading { row: |form| Form { big: false, ..form }, ..RIGHT })),
        (
            &[LOSSES, TWINS, LAW],
            "the H4 type is not looked at",
            reads(Reading { acl: |behind| behind.get(1..), ..RIGHT }),
        ),
        (&[BY_HAND], "22 carries nothing", change(numbered!(22, answer, file, answer.values.clear()))),
        (&[BY_HAND], "21 is told as 3", change(numbered!(21, answer, file, answer.number = 3))),
        (
            &[BY_HAND],
            "5 carries the file's length",
            change(numbered!(5, answer, file, answer.values[0] = file.len() as u64)),
        ),
        (
            &[BY_HAND],
            "a file without a record has no stream",
            change(numbered!(0, answer, file, {
                if file.len() == HEAD {
                    *answer = Answer::refused(6, &[]);
                }
            })),
        ),
        (&[BY_HAND], "work is touched by 2", Misfiled { spoils: |number| number == 2, ..NONE }),
    ];
    all.into_iter().flat_map(fault).collect()
}

/// The wrong calls.
pub fn faults() -> Vec<Fault> {
    [of_options(), of_stretches(), of_found(), of_records_alone(), of_signs()].concat()
}
