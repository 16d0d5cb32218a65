//! Wrong answers planted on purpose: each must be reported, or the comparison could
//! not fail.

use crate::answer::{chosen, Answer, Asked, Container, Stream, Stretch, Subject, BYTES, NO_CHANNEL};
use crate::expected::LONGEST_FILE;
use crate::misfiled::{self, Change, Misfiled, Store};
use crate::mislinked::{self, Given, Mislinked};
use crate::misplaced;
use crate::misread::{self, Misread};
use crate::missized::{self, Missized};
use crate::misspelt;
use crate::missummed;
use crate::mistaken::{self, RANDOM};
use crate::model::{self, Reading, Spelling, RIGHT, SPELT};
use crate::{bytes, containers, import, links, names, plan, signs, sizes, sums, tolerant, Group, Options};

/// The model with some of its calls replaced.
#[derive(Clone, Copy)]
struct Planted {
    unpack: fn(&[u8]) -> Answer,
    pack: fn(u8, u8, &[u8]) -> Answer,
    fixture_name: fn(u64, u32, u8, &[u8], Spelling) -> Answer,
    is_command_name: fn(&[u8], Spelling) -> bool,
    plan: fn(&[u8], &[u8], Spelling) -> Answer,
    capture_order: fn(&[u8]) -> Answer,
    /// How names are spelt, looked up and compared.
    spelling: Spelling,
    /// How import reads.
    reading: Reading,
    import: fn(Reading, &[u8], usize, u32, bool) -> Answer,
    /// Changes the answers of import by number, of import with stretches by number, and of import by a list of options.
    changes: [Change; 3],
    /// Stores an answer in what is lent.
    store: Store,
    /// Changes work, whatever the answer.
    spoils: bool,
    /// Import with so many places for stretches.
    import_in: fn(&Planted, &[u8], usize, usize, u32, bool) -> Answer,
    /// Fills the places with the open stretches, after this number.
    fill: fn(u32, &mut [Stretch], &[Stretch]),
    /// Import by a list of options, with so much work, and how its answer is stored.
    import_with: fn(Reading, &[u8], usize, &[u64]) -> Answer,
    store_with: Store,
    /// Changes work in the call with options, whatever the answer.
    spoils_with: bool,
    gaps: Misread,
    /// The calls that take a container.
    misfiled: Misfiled,
    /// The call that tells sizes.
    missized: Missized,
    /// The call for one link.
    mislinked: Mislinked,
}

fn read(file: &[u8], work: usize, channel: u32, tolerant: bool, reading: Reading) -> Answer {
    model::import(file, work, channel, tolerant, reading)
}

const NONE: Planted = Planted {
    unpack: model::unpack,
    pack: model::pack,
    fixture_name: model::fixture_name,
    is_command_name: model::is_command_name,
    plan: model::plan,
    capture_order: model::capture_order,
    spelling: SPELT,
    reading: RIGHT,
    import: |reading, file, work, channel, tolerant| read(file, work, channel, tolerant, reading),
    changes: [|_, _| (); 3],
    store: model::store,
    spoils: false,
    import_in: |planted, file, work, places, channel, tolerant| match places_want(file.len()) {
        wanted if places < wanted => Answer::refused(2, &[]),
        _ => (planted.import)(planted.reading, file, work, channel, tolerant),
    },
    fill: |number, places, open| {
        if number == 0 {
            model::fill(places, open);
        }
    },
    import_with: |reading, file, work, options| model::import_with(file, work, options, reading),
    store_with: model::store,
    spoils_with: false,
    gaps: misread::NONE,
    misfiled: misfiled::NONE,
    missized: missized::NONE,
    mislinked: mislinked::NONE,
};

fn by_options(file: &[u8], work: usize, asked: Asked) -> Answer {
    model::import_from(Container::Btsnoop, file, work, asked, RIGHT)
}

/// How many places a file wants; one that is too long is refused before.
fn places_want(length: usize) -> usize {
    if length > LONGEST_FILE {
        return 0;
    }
    length / 24
}

impl Subject for Planted {
    fn unpack(&self, wire: &[u8], out: &mut [u8], values: &mut [u64]) -> u32 {
        (self.store)(&(self.unpack)(wire), out, values)
    }

    fn pack(&self, kind: u8, seq: u8, payload: &[u8], out: &mut [u8], values: &mut [u64]) -> u32 {
        (self.store)(&(self.pack)(kind, seq, payload), out, values)
    }

    fn fixture_name(
        &self,
        ms: u64,
        counter: u32,
        direction: u8,
        wire: &[u8],
        out: &mut [u8],
        values: &mut [u64],
    ) -> u32 {
        (self.store)(&(self.fixture_name)(ms, counter, direction, wire, self.spelling), out, values)
    }

    fn is_command_name(&self, name: &[u8]) -> u32 {
        u32::from((self.is_command_name)(name, self.spelling))
    }

    fn plan(&self, spans: &[u8], excluded: &[u8], out: &mut [u8], values: &mut [u64]) -> u32 {
        (self.store)(&(self.plan)(spans, excluded, self.spelling), out, values)
    }

    fn capture_order(&self, names: &[u8], out: &mut [u8], values: &mut [u64]) -> u32 {
        (self.store)(&(self.capture_order)(names), out, values)
    }

    fn import_strict(&self, file: &[u8], work: &mut [u8], out: &mut [u8], channel: u32, values: &mut [u64]) -> u32 {
        self.import(file, work, out, channel, 0, values)
    }

    fn import(
        &self,
        file: &[u8],
        work: &mut [u8],
        out: &mut [u8],
        channel: u32,
        tolerant: u32,
        values: &mut [u64],
    ) -> u32 {
        if self.spoils && !work.is_empty() {
            work[work.len() / 2] ^= 0xFF;
        }
        let mut answer = (self.import)(self.reading, file, work.len(), channel, tolerant != 0);
        (self.changes[0])(&mut answer, file);
        (self.store)(&answer, out, values)
    }

    fn import_stretches(
        &self,
        file: &[u8],
        work: &mut [u8],
        stretches: &mut [Stretch],
        out: &mut [u8],
        channel: u32,
        tolerant: u32,
        values: &mut [u64],
    ) -> u32 {
        let mut answer = (self.import_in)(self, file, work.len(), stretches.len(), channel, tolerant != 0);
        (self.changes[1])(&mut answer, file);
        let number = (self.store)(&answer, out, values);
        let open = || model::open(Container::Btsnoop, file, answer.values[0], false, self.reading);
        (self.fill)(number, stretches, &if number == 0 { open() } else { Vec::new() });
        number
    }

    fn import_with(&self, file: &[u8], work: &mut [u8], out: &mut [u8], options: &[u64], values: &mut [u64]) -> u32 {
        if self.spoils_with && !work.is_empty() {
            work[work.len() / 2] ^= 0xFF;
        }
        let options = &(self.misfiled.options)(file, options)[..];
        let mut answer = (self.import_with)(self.reading, file, work.len(), options);
        (self.changes[2])(&mut answer, file);
        (self.store_with)(&answer, out, values)
    }

    fn import_stretches_with(
        &self,
        file: &[u8],
        work: &mut [u8],
        stretches: &mut [Stretch],
        out: &mut [u8],
        options: &[u64],
        values: &mut [u64],
    ) -> u32 {
        self.misfiled.import_stretches(self.reading, file, work, stretches, out, options, values)
    }

    fn records(&self, file: &[u8], starts: &mut [u64], values: &mut [u64]) -> u32 {
        self.misfiled.records_alone(file, starts, values)
    }

    fn records_with(&self, file: &[u8], starts: &mut [u64], options: &[u64], values: &mut [u64]) -> u32 {
        self.misfiled.records(file, starts, options, values)
    }

    fn gaps_with(&self, file: &[u8], work: &mut [u8], options: &[u64], values: &mut [u64]) -> u32 {
        self.misfiled.gaps(file, work, options, values)
    }

    fn sizes_with(&self, file: &[u8], work: &mut [u8], options: &[u64], values: &mut [u64]) -> u32 {
        self.missized.call(self.reading, file, work, options, values)
    }

    fn one_link_with(
        &self,
        file: &[u8],
        work: &mut [u8],
        out: &mut [u8],
        stream: Stream,
        options: &[u64],
        values: &mut [u64],
    ) -> u32 {
        let given = Given { reading: self.reading, file, work: work.len(), options, stream };
        self.mislinked.call(given, work, out, values)
    }

    fn gaps(&self, file: &[u8], work: &mut [u8], tolerant: u32, values: &mut [u64]) -> u32 {
        self.gaps.call(file, work, tolerant != 0, values)
    }
}

fn swap(text: &[u8], from: &str, to: &str) -> Vec<u8> {
    String::from_utf8_lossy(text).replace(from, to).into_bytes()
}

/// The answer of import with its values changed.
fn changed(file: &[u8], work: usize, channel: u32, tolerant: bool, change: fn(&mut Answer)) -> Answer {
    let mut answer = read(file, work, channel, tolerant, RIGHT);
    if answer.number == 0 {
        change(&mut answer);
    }
    answer
}

/// Parts of a group, for faults that each of them has to report alone.
const FIXED: &str = "import, fixed traces";
const FRAGMENTS: &str = "import, every three fragments of two PDUs";
const CID_1: &str = "import, every four PDUs on CID 1";
const STRICT: &str = "tolerant, switched to strict";
const LARGE: &str = "import, long files";
const PARTS: [(&str, Group); 53] = [
    (misspelt::TYPES, names::run_types),
    (misspelt::ABOUT, names::run_about),
    (misspelt::JOINS, names::run_joins),
    (misspelt::EXCLUDED, plan::run_joins),
    (RANDOM, import::run_random),
    (FIXED, import::run_fixed),
    (FRAGMENTS, import::run_excess),
    (CID_1, import::run_doubled),
    (STRICT, tolerant::run_strict),
    (LARGE, import::run_large),
    (mistaken::BY_HAND, import::run_by_hand),
    (mistaken::STEPS, import::run_steps),
    (mistaken::HONEST, tolerant::run_honest),
    (misread::BY_HAND, signs::run_by_hand),
    (misread::MADE, signs::run_made),
    (misread::MIXTURES, signs::run_mixtures),
    (misread::SHORT_PACKETS, signs::run_packets),
    (misread::FOUR, signs::run_fragments),
    (misread::LONG, signs::run_long),
    (misread::LAW, signs::run_law),
    (misfiled::BY_HAND, containers::run_by_hand),
    (misfiled::RANDOM, containers::run_random),
    (misfiled::DAMAGED, containers::run_damaged),
    (misfiled::HONEST, containers::run_honest),
    (misfiled::SHORT, containers::run_short),
    (misfiled::MOST, containers::run_most),
    (misfiled::LONG, containers::run_long),
    (misfiled::LOSSES, containers::run_losses),
    (misfiled::TWINS, containers::run_twins),
    (misfiled::LAW, containers::run_law),
    (misfiled::OTHERS, containers::run_others),
    (missummed::HEADS, sums::run_heads),
    (missummed::BY_HAND, sums::run_by_hand),
    (missummed::STEPS, sums::run_steps),
    (missummed::SHORT, sums::run_short),
    (missummed::RANDOM, sums::run_random),
    (misplaced::BY_HAND, bytes::run_by_hand),
    (misplaced::STRINGS, bytes::run_strings),
    (misplaced::STEPS, bytes::run_steps),
    (misplaced::RANDOM, bytes::run_random),
    (misplaced::LAW, bytes::run_law),
    (missized::BY_HAND, sizes::run_by_hand),
    (missized::RANDOM, sizes::run_random),
    (missized::HONEST, sizes::run_honest),
    (missized::LONG, sizes::run_long),
    (missized::LAW, sizes::run_law),
    (mislinked::BY_HAND, links::run_by_hand),
    (mislinked::RANDOM, links::run_random),
    (mislinked::SHORT, links::run_short),
    (mislinked::STEPS, links::run_steps),
    (mislinked::LONG, links::run_long),
    (mislinked::BESIDE, links::run_beside),
    (mislinked::APART, links::run_apart),
];

const EXCESS: Planted = Planted { reading: Reading { excess_dropped: false, ..RIGHT }, ..NONE };
const TRIED_TOO: Planted = Planted { reading: Reading { request_ends: false, ..RIGHT }, ..NONE };

/// Each fault with the group, or part of one, that has to report it.
fn faults() -> Vec<(&'static str, &'static str, Planted)> {
    vec![
        (
            "codec",
            "16 judged before 17",
            Planted {
                unpack: |wire| match model::unpack(wire) {
                    a if a.number == 17 && wire.len() > 12 => Answer::refused(16, &[0, 1]),
                    a => a,
                },
                ..NONE
            },
        ),
        (
            "codec",
            "17 carries its sums swapped",
            Planted {
                unpack: |wire| {
                    let mut a = model::unpack(wire);
                    if a.number == 17 {
                        a.values.swap(0, 1);
                    }
                    a
                },
                ..NONE
            },
        ),
        (
            "codec",
            "an escapee 2F is taken",
            Planted {
                unpack: |wire| {
                    let at = wire.windows(2).position(|w| w == [0x3D, 0x2F]);
                    at.map_or_else(
                        || model::unpack(wire),
                        |at| {
                            let mut wire = wire.to_vec();
                            wire.splice(at..at + 2, [0x3F]);
                            model::unpack(&wire)
                        },
                    )
                },
                ..NONE
            },
        ),
        (
            "codec",
            "a bare 3E inside is refused",
            Planted {
                unpack: |wire| match model::unpack(wire) {
                    a if a.number == 0 && wire[1..].contains(&0x3E) => Answer::refused(11, &[]),
                    a => a,
                },
                ..NONE
            },
        ),
        (
            "codec",
            "a payload's last byte is left out",
            Planted {
                unpack: |wire| {
                    let mut a = model::unpack(wire);
                    a.written.pop();
                    a
                },
                ..NONE
            },
        ),
        (
            "codec",
            "the sum is not escaped",
            Planted {
                pack: |kind, seq, payload| {
                    let mut a = model::pack(kind, seq, payload);
                    let n = a.written.len();
                    if n > 3 && a.written[n - 3] == 0x3D && a.written[n - 2] == 0x2C {
                        a.written.splice(n - 3..n - 1, [0x3C]);
                        a.values[0] -= 1;
                    }
                    a
                },
                ..NONE
            },
        ),
        (
            "codec",
            "18 from 32,760",
            Planted {
                pack: |kind, seq, payload| {
                    if payload.len() == 32_760 {
                        Answer::refused(18, &[])
                    } else {
                        model::pack(kind, seq, payload)
                    }
                },
                ..NONE
            },
        ),
        (
            "codec",
            "32,761 is packed",
            Planted {
                pack: |kind, seq, payload| {
                    let wire = model::packed(kind, seq, payload);
                    if payload.len() == 32_761 {
                        Answer::done(&[wire.len() as u64], wire)
                    } else {
                        model::pack(kind, seq, payload)
                    }
                },
                ..NONE
            },
        ),
        (
            "codec",
            "the output is cleared past what is written",
            Planted {
                store: |answer, out, values| {
                    let number = model::store(answer, out, values);
                    if number == 0 {
                        out[answer.written.len()..].fill(0);
                    }
                    number
                },
                ..NONE
            },
        ),
        (
            "codec",
            "a refusal writes",
            Planted {
                store: |answer, out, values| {
                    let number = model::store(answer, out, values);
                    if number != 0 && !out.is_empty() {
                        out[0] ^= 1;
                    }
                    number
                },
                ..NONE
            },
        ),
        (
            "codec",
            "7 is claimed with just enough lent",
            Planted {
                store: |answer, out, values| {
                    if answer.number == 0 && out.len() == answer.written.len() {
                        return model::store(&Answer::refused(7, &[out.len() as u64]), out, values);
                    }
                    model::store(answer, out, values)
                },
                ..NONE
            },
        ),
        (
            "codec",
            "nothing is written",
            Planted {
                store: |answer, out, values| {
                    let mut other = out.to_vec();
                    model::store(answer, &mut other, values)
                },
                ..NONE
            },
        ),
        (
            "codec",
            "a value too many is stored",
            Planted {
                store: |answer, out, values| {
                    if let Some(last) = values.last_mut() {
                        *last = 0;
                    }
                    model::store(answer, out, values)
                },
                ..NONE
            },
        ),
        (
            "codec",
            "the last value is not stored",
            Planted {
                store: |answer, out, values| {
                    let mut fewer = answer.within(out.len()).into_owned();
                    fewer.values.pop();
                    model::store(&fewer, out, values)
                },
                ..NONE
            },
        ),
        (
            "names",
            "a counter of five digits",
            Planted {
                fixture_name: |ms, counter, direction, wire, _| {
                    let mut a = model::fixture_name(ms, counter, direction, wire, SPELT);
                    if a.number == 0 && counter < 10 {
                        let from = format!("-00000{counter}-");
                        a.written = swap(&a.written, &from, &from.replacen("-0", "-", 1));
                        a.values[0] = a.written.len() as u64;
                    }
                    a
                },
                ..NONE
            },
        ),
        (
            "names",
            "one name respelled",
            Planted {
                fixture_name: |ms, counter, direction, wire, _| {
                    let mut a = model::fixture_name(ms, counter, direction, wire, SPELT);
                    a.written = swap(&a.written, "GENERAL_SETTING_NTNY_PARAM", "GENERAL_SETTING_NTFY_PARAM");
                    a
                },
                ..NONE
            },
        ),
        (
            "names",
            "rx and tx exchanged",
            Planted {
                fixture_name: |ms, counter, direction, wire, _| {
                    model::fixture_name(ms, counter, 3 - direction, wire, SPELT)
                },
                ..NONE
            },
        ),
        (
            "names",
            "NO_COMMAND is a command name",
            Planted { is_command_name: |name, _| name == b"NO_COMMAND" || model::is_command_name(name, SPELT), ..NONE },
        ),
        (
            "names",
            "a beginning is a command name",
            Planted { is_command_name: |name, _| name == b"GET_TES" || model::is_command_name(name, SPELT), ..NONE },
        ),
        (
            "plan",
            "an excluded span spends no counter",
            Planted {
                plan: |spans, excluded, _| {
                    let mut a = model::plan(spans, excluded, SPELT);
                    if a.number == 0 && !excluded.is_empty() {
                        a.written = swap(&a.written, "-000002-", "-000001-");
                    }
                    a
                },
                ..NONE
            },
        ),
        (
            "plan",
            "excluded names are not looked at",
            Planted {
                plan: |spans, excluded, _| match model::plan(spans, excluded, SPELT) {
                    a if a.number == 20 => a,
                    _ => model::plan(spans, &[], SPELT),
                },
                ..NONE
            },
        ),
        (
            "plan",
            "20 before 19",
            Planted {
                plan: |spans, excluded, _| match model::plan(&[], excluded, SPELT) {
                    a if a.number == 20 => a,
                    _ => model::plan(spans, excluded, SPELT),
                },
                ..NONE
            },
        ),
        (
            "plan",
            "the offset of 19 is the byte and not the item",
            Planted {
                plan: |spans, excluded, _| {
                    let mut a = model::plan(spans, excluded, SPELT);
                    if a.number == 19 && a.values[0] > 0 {
                        a.values[0] += 4;
                    }
                    a
                },
                ..NONE
            },
        ),
        (
            "order",
            "names without a counter last",
            Planted {
                capture_order: |names| {
                    let a = model::capture_order(names);
                    match crate::items::read_names(&a.written) {
                        Ok(sorted) if a.number == 0 => {
                            let start = b"mdr-packet-".as_slice();
                            let (with, without): (Vec<_>, Vec<_>) =
                                sorted.into_iter().partition(|n| n.starts_with(start));
                            let list = crate::items::name_list(&[with, without].concat());
                            Answer::done(&[list.len() as u64], list)
                        }
                        _ => a,
                    }
                },
                ..NONE
            },
        ),
        (
            "order",
            "duplicates are dropped",
            Planted {
                capture_order: |names| {
                    let a = model::capture_order(names);
                    match crate::items::read_names(&a.written) {
                        Ok(mut sorted) if a.number == 0 => {
                            sorted.dedup();
                            let list = crate::items::name_list(&sorted);
                            Answer::done(&[list.len() as u64], list)
                        }
                        _ => a,
                    }
                },
                ..NONE
            },
        ),
        (
            "import",
            "a partial PDU is kept past a start",
            Planted { reading: Reading { start_discards: false, ..RIGHT }, ..NONE },
        ),
        (
            "import",
            "a new session finishes an old frame",
            Planted { reading: Reading { sessions: false, ..RIGHT }, ..NONE },
        ),
        (
            "import",
            "channels are judged before the file's end",
            Planted { reading: Reading { whole_file: false, ..RIGHT }, ..NONE },
        ),
        (
            "import",
            "a source is admitted only by a response",
            Planted { reading: Reading { request_admits: false, ..RIGHT }, ..NONE },
        ),
        (
            "import",
            "a PDU has the time of its first fragment",
            Planted { reading: Reading { last_time: false, ..RIGHT }, ..NONE },
        ),
        (RANDOM, "bytes in excess of a PDU begin the next, random traces", EXCESS),
        (FIXED, "bytes in excess of a PDU begin the next, fixed traces", EXCESS),
        (FRAGMENTS, "bytes in excess of a PDU begin the next, every three fragments", EXCESS),
        ("tolerant", "bytes in excess of a PDU begin the next, tolerant", EXCESS),
        (RANDOM, "a PDU with a PSM 3 request is tried as well, random traces", TRIED_TOO),
        (FIXED, "a PDU with a PSM 3 request is tried as well, fixed traces", TRIED_TOO),
        (CID_1, "a PDU with a PSM 3 request is tried as well, every four PDUs on CID 1", TRIED_TOO),
        ("tolerant", "a PDU with a PSM 3 request is tried as well, tolerant", TRIED_TOO),
        ("import", "65,536 bytes are cleared", Planted { reading: Reading { longest: 65_535, ..RIGHT }, ..NONE }),
        ("import", "65,537 bytes stay", Planted { reading: Reading { longest: 65_537, ..RIGHT }, ..NONE }),
        (
            "import",
            "everything is refused with 6",
            Planted {
                import: |_, f, w, c, t| match read(f, w, c, t, RIGHT) {
                    a if a.number == 0 => Answer::refused(6, &[]),
                    a => a,
                },
                ..NONE
            },
        ),
        (
            "import",
            "unfinished is invented",
            Planted { import: |_, f, w, c, t| changed(f, w, c, t, |a| a.values[2] = 0), ..NONE },
        ),
        (
            "import",
            "the first span is listed each time",
            Planted {
                import: |_, f, w, c, t| {
                    changed(f, w, c, t, |a| {
                        let n = 6 + u32::from_le_bytes(a.written[..4].try_into().unwrap()) as usize;
                        for at in (n..a.written.len().saturating_sub(n) + 1).step_by(n) {
                            a.written.copy_within(..n, at);
                        }
                    })
                },
                ..NONE
            },
        ),
        (
            "import",
            "the channel is not looked at",
            Planted { import: |_, f, w, _, t| read(f, w, NO_CHANNEL, t, RIGHT), ..NONE },
        ),
        (
            "import",
            "work one byte short is enough",
            Planted { import: |_, f, w, c, t| read(f, w + 1, c, t, RIGHT), ..NONE },
        ),
        (
            LARGE,
            "2 before 1",
            Planted {
                import: |reading, f, w, c, t| match w < 8 * f.len() {
                    true => Answer::refused(2, &[]),
                    false => read(f, w, c, t, reading),
                },
                ..NONE
            },
        ),
        ("import", "work is touched by a refusal", Planted { spoils: true, ..NONE }),
        (
            "import",
            "places for stretches are not counted",
            Planted { import_in: |p, f, w, _, c, t| (p.import)(p.reading, f, w, c, t), ..NONE },
        ),
        (
            "import",
            "one place less is enough",
            Planted { import_in: |p, f, w, places, c, t| (NONE.import_in)(p, f, w, places + 1, c, t), ..NONE },
        ),
        (
            "import",
            "one place more is wanted",
            Planted {
                import_in: |p, f, w, places, c, t| match places.checked_sub(1) {
                    None => Answer::refused(2, &[]),
                    Some(fewer) => (NONE.import_in)(p, f, w, fewer, c, t),
                },
                ..NONE
            },
        ),
        (
            "import",
            "places are counted before the file's length",
            Planted {
                import_in: |p, f, w, places, c, t| match places < f.len() / 24 {
                    true => Answer::refused(2, &[]),
                    false => (p.import)(p.reading, f, w, c, t),
                },
                ..NONE
            },
        ),
        (
            "tolerant",
            "the call with stretches is strict",
            Planted { import_in: |p, f, w, places, c, _| (NONE.import_in)(p, f, w, places, c, false), ..NONE },
        ),
        (
            "import",
            "a stretch is touched by a refusal",
            Planted {
                fill: |number, places, open| match places.last_mut() {
                    Some(place) if number == 2 => place.held = 0,
                    _ => (NONE.fill)(number, places, open),
                },
                ..NONE
            },
        ),
        (
            "import",
            "a stretch is touched where the output is short",
            Planted {
                fill: |number, places, open| match places.first_mut() {
                    Some(place) if number == 7 => place.held = 0,
                    _ => (NONE.fill)(number, places, open),
                },
                ..NONE
            },
        ),
        (
            "import",
            "the place after the open stretches is touched",
            Planted {
                fill: |number, places, open| {
                    (NONE.fill)(number, places, open);
                    if let (0, Some(place)) = (number, places.get_mut(open.len())) {
                        place.held = 0;
                    }
                },
                ..NONE
            },
        ),
        (
            "import",
            "open stretches are listed from the last to the first",
            Planted {
                fill: |number, places, open| {
                    let turned: Vec<Stretch> = open.iter().rev().copied().collect();
                    (NONE.fill)(number, places, &turned);
                },
                ..NONE
            },
        ),
        (
            "import",
            "an open stretch is not listed",
            Planted { fill: |_, places, open| model::fill(places, open.get(1..).unwrap_or(&[])), ..NONE },
        ),
        (
            "import",
            "a stretch holds a byte less",
            Planted {
                fill: |number, places, open| {
                    (NONE.fill)(number, places, open);
                    if let (Some(place), false) = (places.first_mut(), open.is_empty()) {
                        place.held -= 1;
                    }
                },
                ..NONE
            },
        ),
        (
            mistaken::BY_HAND,
            "a stretch that is listed has no index",
            Planted {
                fill: |number, places, open| {
                    let without = |stretch: &Stretch| Stretch { way: stretch.way % 8192, ..*stretch };
                    (NONE.fill)(number, places, &open.iter().map(without).collect::<Vec<_>>());
                },
                ..NONE
            },
        ),
        (
            "tolerant",
            "the tail offset is the file's length",
            Planted {
                import: |_, f, w, c, t| {
                    let mut a = read(f, w, c, t, RIGHT);
                    if a.number == 0 {
                        a.values[3] = f.len() as u64;
                    }
                    a
                },
                ..NONE
            },
        ),
        (
            "tolerant",
            "the tolerant rule is strict",
            Planted { import: |_, f, w, c, _| read(f, w, c, false, RIGHT), ..NONE },
        ),
    ]
}

/// Faults of the call with options alone.
fn faults_of_options() -> Vec<(&'static str, &'static str, Planted)> {
    vec![
        (
            "tolerant",
            "options: the channel is not looked at",
            Planted { import_with: |_, f, w, o| by_options(f, w, Asked { channel: NO_CHANNEL, ..chosen(o) }), ..NONE },
        ),
        (
            "tolerant",
            "options: the rule is strict whatever they say",
            Planted { import_with: |_, f, w, o| by_options(f, w, Asked { tolerant: false, ..chosen(o) }), ..NONE },
        ),
        (
            STRICT,
            "options: the rule is tolerant whatever they say",
            Planted { import_with: |_, f, w, o| by_options(f, w, Asked { tolerant: true, ..chosen(o) }), ..NONE },
        ),
        (
            "tolerant",
            "options: the channel is read from the place of the rule",
            Planted {
                import_with: |_, f, w, o| {
                    by_options(f, w, Asked { channel: chosen(o.get(1..).unwrap_or(&[])).channel, ..chosen(o) })
                },
                ..NONE
            },
        ),
        (
            STRICT,
            "options: the rule is read from the place of the channel",
            Planted {
                import_with: |_, f, w, o| {
                    by_options(f, w, Asked { tolerant: o.first().is_some_and(|&n| n != 0), ..chosen(o) })
                },
                ..NONE
            },
        ),
        (
            "tolerant",
            "options: the rule is read from the place after its own",
            Planted {
                import_with: |_, f, w, o| {
                    by_options(f, w, Asked { tolerant: o.get(2).is_some_and(|&n| n != 0), ..chosen(o) })
                },
                ..NONE
            },
        ),
        (
            "tolerant",
            "options: 1 alone is tolerant",
            Planted {
                import_with: |_, f, w, o| by_options(f, w, Asked { tolerant: o.get(1) == Some(&1), ..chosen(o) }),
                ..NONE
            },
        ),
        (
            "tolerant",
            "options: a channel is cut to 32 bits",
            Planted {
                import_with: |_, f, w, o| {
                    let channel = o.first().map_or(NO_CHANNEL, |&n| (n as u32).min(NO_CHANNEL));
                    by_options(f, w, Asked { channel, ..chosen(o) })
                },
                ..NONE
            },
        ),
        (
            "tolerant",
            "options: a channel is cut to 8 bits",
            Planted {
                import_with: |_, f, w, o| {
                    let channel = o.first().map_or(NO_CHANNEL, |&n| u32::from(n as u8));
                    by_options(f, w, Asked { channel, ..chosen(o) })
                },
                ..NONE
            },
        ),
        (
            STRICT,
            "options: without a channel, 0 is asked for",
            Planted { import_with: |_, f, w, o| by_options(f, w, chosen(if o.is_empty() { &[0] } else { o })), ..NONE },
        ),
        (
            STRICT,
            "options: without a rule, it is tolerant",
            Planted {
                import_with: |_, f, w, o| {
                    by_options(f, w, Asked { tolerant: o.len() < 2 || chosen(o).tolerant, ..chosen(o) })
                },
                ..NONE
            },
        ),
        (
            "tolerant",
            "options: of more than there are, none counts",
            Planted { import_with: |_, f, w, o| by_options(f, w, chosen(if o.len() > 4 { &[] } else { o })), ..NONE },
        ),
        (
            "tolerant",
            "options: one frame too many is counted",
            Planted { import_with: |_, f, w, o| numbered(f, w, o, 0, |a, _| a.values[1] += 1), ..NONE },
        ),
        (
            "tolerant",
            "options: unfinished is invented",
            Planted { import_with: |_, f, w, o| numbered(f, w, o, 0, |a, _| a.values[2] = 0), ..NONE },
        ),
        (
            "tolerant",
            "options: the tail offset is the file's length",
            Planted { import_with: |_, f, w, o| numbered(f, w, o, 0, |a, f| a.values[3] = f.len() as u64), ..NONE },
        ),
        (
            "tolerant",
            "options: the tail offset counts from after the header",
            Planted { import_with: |_, f, w, o| numbered(f, w, o, 0, |a, _| a.values[3] -= 16), ..NONE },
        ),
        (
            "tolerant",
            "options: a list is told one byte shorter than it is",
            Planted { import_with: |_, f, w, o| numbered(f, w, o, 0, |a, _| a.values[4] -= 1), ..NONE },
        ),
        (
            "tolerant",
            "options: 4 carries nothing",
            Planted { import_with: |_, f, w, o| numbered(f, w, o, 4, |a, _| a.values.clear()), ..NONE },
        ),
        (
            STRICT,
            "options: 5 carries the file's length",
            Planted { import_with: |_, f, w, o| numbered(f, w, o, 5, |a, f| a.values[0] = f.len() as u64), ..NONE },
        ),
        (
            "tolerant",
            "options: 6 is told as 5",
            Planted { import_with: |_, f, w, o| numbered(f, w, o, 6, |a, _| a.number = 5), ..NONE },
        ),
        (
            "tolerant",
            "options: 7 carries what is lent",
            Planted {
                store_with: |answer, out, values| {
                    let short = Answer::refused(7, &[out.len() as u64]);
                    let fits = answer.written.len() <= out.len();
                    model::store(if fits { answer } else { &short }, out, values)
                },
                ..NONE
            },
        ),
        (
            "tolerant",
            "options: a refusal writes",
            Planted {
                store_with: |answer, out, values| {
                    let number = model::store(answer, out, values);
                    if let (Some(first), true) = (out.first_mut(), number != 0) {
                        *first ^= 1;
                    }
                    number
                },
                ..NONE
            },
        ),
        (
            "tolerant",
            "options: an output that is too short is filled",
            Planted {
                store_with: |answer, out, values| {
                    let number = model::store(answer, out, values);
                    if number == 7 {
                        out.copy_from_slice(&answer.written[..out.len()]);
                    }
                    number
                },
                ..NONE
            },
        ),
        (
            "tolerant",
            "options: the last value is not stored",
            Planted {
                store_with: |answer, out, values| {
                    let mut fewer = answer.within(out.len()).into_owned();
                    fewer.values.pop();
                    model::store(&fewer, out, values)
                },
                ..NONE
            },
        ),
        (
            "tolerant",
            "options: work one byte short is enough",
            Planted { import_with: |_, f, w, o| by_options(f, w + 1, chosen(o)), ..NONE },
        ),
        ("tolerant", "options: work is touched by a refusal", Planted { spoils_with: true, ..NONE }),
    ]
}

/// Faults of the call with options on pcap files: in its refusals and their order, and in what is answered and lent.
fn faults_of_pcap() -> Vec<(&'static str, &'static str, Planted)> {
    const HAND: &str = misfiled::BY_HAND;
    let calls = |import_with| Planted { import_with, ..NONE };
    let stores = |store_with| Planted { store_with, ..NONE };
    vec![
        (HAND, "pcap: work one byte short is enough", calls(|r, f, w, o| model::import_with(f, w + 1, o, r))),
        (HAND, "pcap: 21 before 2", calls(|r, f, w, o| judged_first(r, f, w, o, &[21]))),
        (HAND, "pcap: 22 before 2", calls(|r, f, w, o| judged_first(r, f, w, o, &[22]))),
        (HAND, "pcap: 5 before 2", calls(|r, f, w, o| judged_first(r, f, w, o, &[5]))),
        (
            misfiled::LONG,
            "pcap: 2 before 1",
            calls(|r, f, w, o| match w < 8 * f.len() {
                true => Answer::refused(2, &[]),
                false => model::import_with(f, w, o, r),
            }),
        ),
        (
            misfiled::LONG,
            "pcap: one byte more is taken",
            calls(|r, f, w, o| model::import_with(f.get(..LONGEST_FILE).unwrap_or(f), w, o, r)),
        ),
        (
            HAND,
            "pcap: 5 before 22",
            calls(|r, f, w, o| {
                let answer = model::import_with(f, w, o, r);
                let tail = crate::pcap::read(f, r.pcap).1;
                match answer.number == 22 && !chosen(o).tolerant && tail < f.len() {
                    true => Answer::refused(5, &[tail as u64]),
                    false => answer,
                }
            }),
        ),
        (HAND, "pcap: 21 is told as 3", calls(|r, f, w, o| of_pcap(r, f, w, o, 21, |a, _| a.number = 3))),
        (HAND, "pcap: 22 is told as 4", calls(|r, f, w, o| of_pcap(r, f, w, o, 22, |a, _| a.number = 4))),
        (HAND, "pcap: 22 carries nothing", calls(|r, f, w, o| of_pcap(r, f, w, o, 22, |a, _| a.values.clear()))),
        (HAND, "pcap: 21 carries a number", calls(|r, f, w, o| of_pcap(r, f, w, o, 21, |a, _| a.values.push(0)))),
        (HAND, "pcap: 5 carries nothing", calls(|r, f, w, o| of_pcap(r, f, w, o, 5, |a, _| a.values.clear()))),
        (
            HAND,
            "pcap: 5 carries the file's length",
            calls(|r, f, w, o| of_pcap(r, f, w, o, 5, |a, f| a.values[0] = f.len() as u64)),
        ),
        (
            misfiled::HONEST,
            "pcap: the tail offset is the file's length",
            calls(|r, f, w, o| of_pcap(r, f, w, o, 0, |a, f| a.values[3] = f.len() as u64)),
        ),
        (
            misfiled::HONEST,
            "pcap: unfinished is invented",
            calls(|r, f, w, o| of_pcap(r, f, w, o, 0, |a, _| a.values[2] = 0)),
        ),
        (HAND, "pcap: 6 is told as 5", calls(|r, f, w, o| of_pcap(r, f, w, o, 6, |a, _| a.number = 5))),
        (
            misfiled::RANDOM,
            "pcap: the channel is not looked at",
            calls(|r, f, w, o| {
                let any = [&[u64::from(NO_CHANNEL)], &o[1..]].concat();
                model::import_with(f, w, &any, r)
            }),
        ),
        (
            HAND,
            "pcap: 7 carries what is lent",
            stores(|answer, out, values| {
                let short = Answer::refused(7, &[out.len() as u64]);
                let fits = answer.written.len() <= out.len();
                model::store(if fits { answer } else { &short }, out, values)
            }),
        ),
        (
            HAND,
            "pcap: a refusal writes",
            stores(|answer, out, values| {
                let number = model::store(answer, out, values);
                if let (Some(first), true) = (out.first_mut(), number != 0) {
                    *first ^= 1;
                }
                number
            }),
        ),
        (HAND, "pcap: work is touched by a refusal", Planted { spoils_with: true, ..NONE }),
    ]
}

/// Faults of the sixth value, in the calls by number and in the call with options.
fn faults_of_sixth() -> Vec<(&'static str, &'static str, Planted)> {
    const HAND: &str = missummed::BY_HAND;
    let calls = |import_with| Planted { import_with, ..NONE };
    let numbers = |import| Planted { import, ..NONE };
    vec![
        (
            "import",
            "the sixth value is not stored",
            numbers(|_, f, w, c, t| changed(f, w, c, t, |a| missummed::leave_out(&mut a.values))),
        ),
        (
            "import",
            "the sixth value is stored first",
            numbers(|_, f, w, c, t| changed(f, w, c, t, |a| missummed::first(&mut a.values))),
        ),
        (
            "import",
            "the sixth value is that of frames",
            numbers(|_, f, w, c, t| changed(f, w, c, t, |a| a.values[5] = a.values[1])),
        ),
        (
            "tolerant",
            "the call by number checks the FCS",
            numbers(|reading, file, work, channel, tolerant| {
                let asked = Asked { channel, tolerant, checks: true };
                model::import_from(Container::Btsnoop, file, work, asked, reading)
            }),
        ),
        (
            HAND,
            "import_with: the count is not stored",
            calls(|r, f, w, o| of_pcap(r, f, w, o, 0, |a, _| missummed::leave_out(&mut a.values))),
        ),
        (
            HAND,
            "import_with: count and bytes written are exchanged",
            calls(|r, f, w, o| of_pcap(r, f, w, o, 0, |a, _| missummed::exchange(&mut a.values, 4, 5))),
        ),
        (
            HAND,
            "import_with: count and unfinished are exchanged",
            calls(|r, f, w, o| of_pcap(r, f, w, o, 0, |a, _| missummed::exchange(&mut a.values, 2, 5))),
        ),
        (
            HAND,
            "import_with: the count is stored first",
            calls(|r, f, w, o| of_pcap(r, f, w, o, 0, |a, _| missummed::first(&mut a.values))),
        ),
        (
            HAND,
            "import_with: the count is added to the frames",
            calls(|r, f, w, o| of_pcap(r, f, w, o, 0, |a, _| a.values[1] += a.values[5])),
        ),
        (
            HAND,
            "import_with: the count is stored with room for five",
            Planted {
                store_with: |answer, out, values| {
                    let number = model::store(answer, out, values);
                    if let (0, Some(count), 5) = (number, answer.values.get(5), values.len()) {
                        values[4] = *count;
                    }
                    number
                },
                ..NONE
            },
        ),
        (
            HAND,
            "import_with: nothing is stored with room for five",
            Planted {
                store_with: |answer, out, values| {
                    let room = if values.len() == 5 { &mut [][..] } else { values };
                    model::store(answer, out, room)
                },
                ..NONE
            },
        ),
        (HAND, "import_with: 6 carries a count", calls(|r, f, w, o| of_pcap(r, f, w, o, 6, |a, _| a.values.push(0)))),
        (
            HAND,
            "import_with: a file of wrong frames alone is answered",
            calls(|r, f, w, o| {
                let (answer, off) = (model::import_with(f, w, o, r), model::import_with(f, w, &o[..o.len().min(3)], r));
                match answer.number == 6 && off.number == 0 {
                    true => Answer::imported([off.values[0], 0, 0, off.values[3], 1], [0; 4], Vec::new()),
                    false => answer,
                }
            }),
        ),
    ]
}

/// Faults of the numbers that say where the bytes went, in each of the calls that import.
fn faults_of_bytes() -> Vec<(&'static str, String, Planted)> {
    let mut faults = Vec::new();
    for (part, label, change) in misplaced::changes() {
        let stretches = Misfiled { change_stretches: change, ..misfiled::NONE };
        let changes = |place: usize| {
            let mut changes = NONE.changes;
            changes[place] = change;
            Planted { changes, ..NONE }
        };
        faults.extend([
            (part, format!("import: {label}"), changes(0)),
            (part, format!("import_stretches: {label}"), changes(1)),
            (part, format!("import_with: {label}"), changes(2)),
            (part, format!("import_stretches_with: {label}"), Planted { misfiled: stretches, ..NONE }),
        ]);
    }
    for (part, label, store) in misplaced::stores() {
        let stretches = Misfiled { store, ..misfiled::NONE };
        faults.extend([
            (part, format!("import, with stretches or not: {label}"), Planted { store, ..NONE }),
            (part, format!("import_with: {label}"), Planted { store_with: store, ..NONE }),
            (part, format!("import_stretches_with: {label}"), Planted { misfiled: stretches, ..NONE }),
        ]);
    }
    let unchecked: fn(Reading, &[u8], usize, &[u64]) -> Answer = |reading, file, work, options| {
        let mut answer = model::import_with(file, work, options, reading);
        let off = model::import_with(file, work, &options[..options.len().min(3)], reading);
        if let (0, Some(bytes)) = (answer.number, off.bytes()) {
            answer.values[BYTES..].copy_from_slice(&bytes);
        }
        answer
    };
    let fill = misplaced::a_byte_less;
    let stretches = Misfiled { fill, ..misfiled::NONE };
    let label = "bytes: a long stretch holds a byte less";
    faults.extend([
        (misplaced::BY_HAND, format!("import_stretches: {label}"), Planted { fill, ..NONE }),
        (misplaced::BY_HAND, format!("import_stretches_with: {label}"), Planted { misfiled: stretches, ..NONE }),
    ]);
    let label = "import_with: bytes: as with the switch off";
    faults.extend(
        [misplaced::BY_HAND, misplaced::STEPS, missummed::RANDOM]
            .map(|part| (part, label.into(), Planted { import_with: unchecked, ..NONE })),
    );
    faults
}

/// Import that does not write what the sizes tell: it refuses an output of exactly what is needed, wants other bytes, or
/// takes a byte less.
fn faults_of_needed() -> Vec<(&'static str, String, Planted)> {
    let stores: [(&str, Store); 3] = [
        ("7 for an exact output", |answer, out, values| {
            let exact = answer.number == 0 && answer.written.len() == out.len();
            let refused = Answer::refused(7, &[out.len() as u64]);
            model::store(if exact { &refused } else { answer }, out, values)
        }),
        ("7 carries a byte more", |answer, out, values| {
            let number = model::store(answer, out, values);
            if let (7, Some(needed)) = (number, values.first_mut()) {
                *needed += 1;
            }
            number
        }),
        ("an output of a byte less is filled", |answer, out, values| {
            let short = answer.number == 0 && answer.written.len() == out.len() + 1;
            if !short {
                return model::store(answer, out, values);
            }
            out.copy_from_slice(&answer.written[..out.len()]);
            model::store(&Answer::done(&answer.values, Vec::new()), &mut [], values)
        }),
    ];
    let each = |(label, store_with): (&str, Store)| {
        let label = format!("sizes: import: {label}");
        [missized::BY_HAND, missized::RANDOM, missized::HONEST, missized::LAW]
            .map(|part| (part, label.clone(), Planted { store_with, ..NONE }))
    };
    stores.into_iter().flat_map(each).collect()
}

/// The answer of the call with options, changed if it has this number.
fn of_pcap(
    reading: Reading,
    file: &[u8],
    work: usize,
    options: &[u64],
    number: u32,
    change: fn(&mut Answer, &[u8]),
) -> Answer {
    let mut answer = model::import_with(file, work, options, reading);
    if answer.number == number {
        change(&mut answer, file);
    }
    answer
}

/// The same with these refusals before that of work.
fn judged_first(reading: Reading, file: &[u8], work: usize, options: &[u64], first: &[u32]) -> Answer {
    let enough = model::import_with(file, usize::MAX, options, reading);
    match first.contains(&enough.number) {
        true => enough,
        false => model::import_with(file, work, options, reading),
    }
}

/// The answer of import by options, changed if it has this number.
fn numbered(file: &[u8], work: usize, options: &[u64], number: u32, change: fn(&mut Answer, &[u8])) -> Answer {
    let mut answer = by_options(file, work, chosen(options));
    if answer.number == number {
        change(&mut answer, file);
    }
    answer
}

/// The groups, and the parts of them, that report something where no fault is planted; what they say of a fault would
/// mean nothing.
pub fn reported_without(groups: &[(&'static str, Group)], options: &Options) -> Vec<&'static str> {
    groups.iter().chain(&PARTS).filter(|(_, group)| group(&NONE, options).is_err()).map(|(name, _)| *name).collect()
}

/// All faults.
fn all() -> Vec<(&'static str, String, Planted)> {
    let labelled = [faults(), faults_of_options(), faults_of_pcap(), faults_of_sixth()].concat().into_iter();
    let mut all: Vec<_> = labelled.map(|(group, label, planted)| (group, label.to_string(), planted)).collect();
    let misspelt = misspelt::faults().into_iter();
    all.extend(misspelt.map(|(group, label, spelling)| (group, label, Planted { spelling, ..NONE })));
    let stores = misspelt::stores().into_iter();
    all.extend(stores.map(|(group, label, store)| (group, label.to_string(), Planted { store, ..NONE })));
    let mistaken = mistaken::faults().into_iter();
    all.extend(mistaken.map(|(group, label, reading)| (group, label, Planted { reading, ..NONE })));
    let misread = misread::faults().into_iter();
    all.extend(misread.map(|(group, label, gaps)| (group, label, Planted { gaps, ..NONE })));
    let importers = misfiled::importers().into_iter();
    all.extend(importers.map(|(group, label, reading)| (group, label, Planted { reading, ..NONE })));
    let misfiled = misfiled::faults().into_iter();
    all.extend(misfiled.map(|(group, label, misfiled)| (group, label, Planted { misfiled, ..NONE })));
    let importers = missummed::importers().into_iter();
    all.extend(importers.map(|(group, label, reading)| (group, label, Planted { reading, ..NONE })));
    let missummed = missummed::faults().into_iter();
    all.extend(missummed.map(|(group, label, misfiled)| (group, label, Planted { misfiled, ..NONE })));
    let importers = misplaced::importers().into_iter();
    all.extend(importers.map(|(group, label, reading)| (group, label, Planted { reading, ..NONE })));
    all.extend(faults_of_bytes());
    let missized = missized::faults().into_iter();
    all.extend(missized.map(|(group, label, missized)| (group, label, Planted { missized, ..NONE })));
    all.extend(faults_of_needed());
    let mislinked = mislinked::faults().into_iter();
    all.extend(mislinked.map(|(group, label, mislinked)| (group, label, Planted { mislinked, ..NONE })));
    all
}

/// Runs every fault's group on it; the labels of those that no one reported.
pub fn unreported(groups: &[(&'static str, Group)], options: &Options) -> (usize, Vec<String>) {
    let mut missed = Vec::new();
    let wanted = |label: &str| options.only.as_ref().is_none_or(|text| label.contains(text.as_str()));
    let named = |group: &str, label: &str| format!("{label}, by {group}");
    let faults: Vec<_> = all().into_iter().filter(|(group, label, _)| wanted(&named(group, label))).collect();
    let planted = faults.len();
    for (name, label, planted) in faults {
        let (_, group) = groups.iter().chain(&PARTS).find(|(group, _)| *group == name).expect("a group");
        if group(&planted, options).is_ok() {
            missed.push(named(name, &label));
        }
    }
    (planted, missed)
}
