//! The oracle's answers in document 01's numbers, with what 01 adds to the source:
//! refusals 1, 2, 18, 19 and 20. Refusal 7 depends on what is lent, and
//! `Answer::within` adds it.

use std::borrow::Cow;
use std::cell::Cell;
use std::collections::{BTreeMap, BTreeSet};
use std::path::Path;

use crate::account;
use crate::alone;
use crate::answer::{Answer, Container, Stream, NO_CHANNEL};
use crate::fcs;
use crate::items;
use crate::model::{self, RIGHT};
use crate::pcap;
use oracle::capture::{self, Direction, ImportError, Imported};
use oracle::mdr::frame::{self, FrameError};
use oracle::mdr::DataType;

pub const LONGEST_PAYLOAD: usize = 32_760;
pub const LONGEST_FILE: usize = 1_048_576;

pub fn frame_refusal(error: FrameError) -> Answer {
    match error {
        FrameError::TooShort => Answer::refused(10, &[]),
        FrameError::NoStart => Answer::refused(11, &[]),
        FrameError::NoEnd => Answer::refused(12, &[]),
        FrameError::TrailingSentry => Answer::refused(13, &[]),
        FrameError::BadEscapee(byte) => Answer::refused(14, &[byte.into()]),
        FrameError::BodyTooShort => Answer::refused(15, &[]),
        FrameError::LengthMismatch { declared, actual } => Answer::refused(16, &[declared as u64, actual as u64]),
        FrameError::BadChecksum { declared, computed } => Answer::refused(17, &[declared.into(), computed.into()]),
    }
}

pub fn unpack(wire: &[u8]) -> Answer {
    match frame::unpack(wire) {
        Ok(f) => Answer::done(&[f.data_type.to_wire().into(), f.seq.into(), f.payload.len() as u64], f.payload),
        Err(e) => frame_refusal(e),
    }
}

pub fn pack(kind: u8, seq: u8, payload: &[u8]) -> Answer {
    if payload.len() > LONGEST_PAYLOAD {
        return Answer::refused(18, &[]);
    }
    let wire = frame::pack(DataType::from_wire(kind), seq, payload);
    Answer::done(&[wire.len() as u64], wire)
}

pub fn fixture_name(ms: u64, counter: u32, direction: Direction, wire: &[u8]) -> Answer {
    match (capture::fixture_name(ms, counter, direction, wire), frame::unpack(wire)) {
        (Some(name), _) => Answer::done(&[name.len() as u64], name.into_bytes()),
        (None, Err(e)) => frame_refusal(e),
        (None, Ok(_)) => unreachable!("a frame that unpacks has a name"),
    }
}

/// The names of a list as the oracle takes them, if it can: UTF-8.
fn strings(names: Vec<Vec<u8>>) -> Option<Vec<String>> {
    names.into_iter().map(|n| String::from_utf8(n).ok()).collect()
}

/// `None` if an excluded name is not UTF-8: the oracle has no such input.
pub fn plan(spans: &[u8], excluded: &[u8]) -> Option<Answer> {
    let frames = match items::read_spans(spans) {
        Ok(frames) => frames,
        Err(at) => return Some(Answer::refused(19, &[at as u64])),
    };
    let excluded = match items::read_names(excluded) {
        Ok(names) => strings(names)?,
        Err(at) => return Some(Answer::refused(20, &[at as u64])),
    };
    let imported = Imported { dlci: 0, frames, unfinished: 0 };
    let names = capture::write_fixtures(&imported, Path::new("."), &excluded).expect("the stand-in writes");
    let written = oracle::sony::take_written();
    assert!(names.iter().eq(written.iter().map(|(name, _)| name)));
    let mut list = Vec::new();
    for (name, wire) in &written {
        items::push(&mut list, items::NAME, name.as_bytes());
        items::push(&mut list, items::WIRE, wire);
    }
    Some(Answer::done(&[written.len() as u64, list.len() as u64], list))
}

/// `None` if a name is not UTF-8.
pub fn capture_order(names: &[u8]) -> Option<Answer> {
    let mut names = match items::read_names(names) {
        Ok(names) => strings(names)?,
        Err(at) => return Some(Answer::refused(20, &[at as u64])),
    };
    capture::capture_order(&mut names);
    let list = items::name_list(&names);
    Some(Answer::done(&[list.len() as u64], list))
}

/// Import by either rule, first with the switch off and then with the FCS checked. The latter is the oracle's import of the
/// file without its wrong frames, and how many of them the walk counts on the DLCI that it chooses.
pub fn import(container: Container, file: &[u8], channel: u32, tolerant: bool) -> [Answer; 2] {
    let off = import_off(container, file, channel, tolerant);
    let wrong = fcs::wrong(container, file);
    if wrong.is_empty() {
        return [off.clone(), off];
    }
    count(3);
    let mut on = import_off(container, &fcs::rewritten(file, &wrong), channel, tolerant);
    if on.number == 0 {
        on.values[5] = fcs::count(&wrong, on.values[0]);
    }
    [off, on]
}

/// Import by the strict rule and the tolerant, each in both positions of the switch.
pub fn by_both_rules(container: Container, file: &[u8], channel: u32) -> [[Answer; 2]; 2] {
    let tolerant = import(container, file, channel, true);
    let strict = match container {
        // Of whole records alone: the same import.
        Container::Btsnoop if tail(file) == file.len() => tolerant.clone(),
        Container::Btsnoop => import(container, file, channel, false),
        // What is refused is the container's to say.
        Container::Pcap => match pcap::refusal(file, usize::MAX, false, pcap::RIGHT) {
            Some(refused) => [refused.clone(), refused],
            None => tolerant.clone(),
        },
    };
    [strict, tolerant]
}

/// Import by either rule with the switch off.
pub fn import_off(container: Container, file: &[u8], channel: u32, tolerant: bool) -> Answer {
    match (container, tolerant) {
        (Container::Pcap, _) => import_pcap(file, channel).by(tolerant),
        (_, true) => import_tolerant(file, channel),
        (_, false) => import_strict(file, channel),
    }
}

/// Import of a whole file under the strict rule, for enough work.
pub fn import_strict(file: &[u8], channel: u32) -> Answer {
    import_judged(file, file.len(), channel)
}

/// Import under the tolerant rule: strict import of the whole records, with
/// refusal 1 judged on the file.
pub fn import_tolerant(file: &[u8], channel: u32) -> Answer {
    import_judged(&file[..tail(file)], file.len(), channel)
}

/// Import of a pcap file by either rule.
pub struct FromPcap {
    strict: Answer,
    tolerant: Answer,
}

impl FromPcap {
    pub fn by(self, tolerant: bool) -> Answer {
        if tolerant {
            self.tolerant
        } else {
            self.strict
        }
    }
}

/// The oracle's import of a pcap file's twin, of 1001 or 1002 in turn; the refusals before it and the tail offset are those
/// of the container. A twin may be longer than a file that is imported, which is nothing to the oracle.
pub fn import_pcap(file: &[u8], channel: u32) -> FromPcap {
    let refusal = |tolerant| pcap::refusal(file, usize::MAX, tolerant, pcap::RIGHT);
    if let Some(refused) = refusal(true) {
        return FromPcap { strict: refused.clone(), tolerant: refused };
    }
    let twin = pcap::twin(file, [1001, 1002][file.len() % 2]);
    let mut found = import_judged(&twin, 0, channel);
    if found.number == 0 {
        found.values[3] = pcap::read(file, pcap::RIGHT).1 as u64;
    }
    FromPcap { strict: refusal(false).unwrap_or_else(|| found.clone()), tolerant: found }
}

fn import_judged(file: &[u8], whole: usize, channel: u32) -> Answer {
    if whole > LONGEST_FILE {
        return Answer::refused(1, &[]);
    }
    let Some(known) = for_one_adapter(file) else {
        return model::import(file, usize::MAX, channel, false, RIGHT);
    };
    let channel = if channel == NO_CHANNEL { None } else { Some(channel as u8) };
    match capture::import(&known, channel) {
        Ok(imported) => {
            let list = items::span_list(&imported.frames);
            let bytes = account::of(&known, channel, &imported);
            let values = [imported.dlci.into(), imported.frames.len(), imported.unfinished, file.len(), 0];
            told(Answer::imported(values.map(|v: usize| v as u64), bytes, list))
        }
        Err(ImportError::NotBtsnoop) => Answer::refused(3, &[]),
        Err(ImportError::Datalink(n)) => Answer::refused(4, &[n.into()]),
        Err(ImportError::Truncated(at)) => Answer::refused(5, &[at as u64]),
        Err(ImportError::NoStream) => Answer::refused(6, &[]),
    }
}

/// The oracle's answer, once its numbers are as the laws have them: the list has 14 bytes more for each frame than the
/// spans, bytes are left just if a buffer is unfinished, at most 65,536 for each, and what is cleared is over that.
fn told(answer: Answer) -> Answer {
    let (values, [in_spans, dropped, cleared, left]) = (&answer.values, answer.bytes().expect("an import"));
    assert_eq!(values[4], in_spans + 14 * values[1], "the list has the spans");
    assert!((values[2]..=65_536 * values[2]).contains(&left), "{left} bytes are left in {} buffers", values[2]);
    assert!(cleared == 0 || cleared > 65_536, "{cleared} bytes are cleared");
    (4..).zip([dropped, cleared, left]).filter(|(_, bytes)| *bytes > 0).for_each(|(way, _)| count(way));
    answer
}

thread_local! {
    static ASKED: Cell<[u64; 7]> = const { Cell::new([0; 7]) };
}

/// How many imports the oracle was asked for with the file as it is, how many with handles given anew, and how many
/// the model was asked for; in how many of all these the file had lost its wrong frames; and in how many that the oracle
/// answered bytes were dropped, cleared and left. Since this was last called.
pub fn asked() -> [u64; 7] {
    ASKED.replace([0; 7])
}

fn count(way: usize) {
    let mut asked = ASKED.get();
    asked[way] += 1;
    ASKED.set(asked);
}

/// The file for the oracle, which knows one adapter. Where packets have more than one index, each index and handle gets
/// a handle of its own, in place: renaming links one to one changes no answer. `None` if there are not handles enough.
pub fn for_one_adapter(file: &[u8]) -> Option<Cow<'_, [u8]>> {
    let links = links(file);
    if links.iter().all(|(_, index, _)| *index == links[0].1) {
        count(0);
        return Some(Cow::Borrowed(file));
    }
    let mut own: BTreeMap<(u16, u16), u16> = BTreeMap::new();
    let mut renamed = file.to_vec();
    for (at, index, field) in links {
        let free = own.len() as u16;
        let handle = *own.entry((index, field % 4096)).or_insert(free);
        if handle == 4096 {
            count(2);
            return None;
        }
        renamed[at..at + 2].copy_from_slice(&(field / 4096 * 4096 + handle).to_le_bytes());
    }
    count(1);
    Some(Cow::Owned(renamed))
}

/// How many adapters' packets a file has, of those that have all fields.
pub fn adapters(file: &[u8]) -> usize {
    links(file).iter().map(|(_, index, _)| *index).collect::<BTreeSet<_>>().len()
}

/// The packets of a file of 2001 that have a handle and all other fields: where the handle's field is, the adapter's
/// index, and the field.
fn links(file: &[u8]) -> Vec<(usize, u16, u16)> {
    let mut links = Vec::new();
    if file.get(12..16) != Some(&2001u32.to_be_bytes()) {
        return links;
    }
    let mut at = 16;
    while let Some(row) = record(file, at) {
        let half = |i: usize| u16::from_be_bytes([row[i], row[i + 1]]);
        let field = |i: usize| u16::from_le_bytes([row[i], row[i + 1]]);
        if [4, 5].contains(&half(10)) && row.len() >= 28 && row.len() - 28 >= usize::from(field(26)) {
            links.push((at + 24, half(8), field(24)));
        }
        at += row.len();
    }
    links
}

/// The whole record at a place, if there is one.
fn record(file: &[u8], at: usize) -> Option<&[u8]> {
    let included = file.get(at + 4..at + 8)?;
    file.get(at..)?.get(..24 + u32::from_be_bytes(included.try_into().unwrap()) as usize)
}

/// Where the whole records end; the file's length if it has no header to follow.
pub fn tail(file: &[u8]) -> usize {
    if file.len() < 16 {
        return file.len();
    }
    16 + rows(file).map(<[u8]>::len).sum::<usize>()
}

/// The whole records behind a header.
fn rows(file: &[u8]) -> impl Iterator<Item = &[u8]> {
    let mut at = 16;
    std::iter::from_fn(move || {
        let row = record(file, at)?;
        at += row.len();
        Some(row)
    })
}

/// The sizes that import of a file by either rule has, first with the switch off and then with the FCS checked: by the
/// oracle the bytes of its list, and by two readings how many records, PDUs and pieces there are.
pub fn sizes(container: Container, file: &[u8], imports: &[[Answer; 2]; 2]) -> [[Answer; 2]; 2] {
    let header = imports.iter().flatten().any(|import| import.number == 0);
    let counts = if header { counts(container, file) } else { [[0; 3]; 2] };
    imports.each_ref().map(|[off, on]| [off.sizes(counts[0]), on.sizes(counts[1])])
}

/// How many records, PDUs and pieces a file with a good header has, with the switch off and on.
pub fn counts(container: Container, file: &[u8]) -> [[u64; 3]; 2] {
    let off = model::lists(container, file, false, RIGHT);
    let on = model::frames(&off.pdus, true, RIGHT).0.len() as u64;
    let [records, pdus, pieces] = off.counts();
    let walk = fcs::counts(container, file);
    assert_eq!((walk.0 as u64, walk.1.map(|n| n as u64)), (pdus, [pieces, on]), "both readings find as many");
    if container == Container::Btsnoop {
        assert_eq!(rows(file).count() as u64, records, "both readings find as many records");
    }
    [[records, pdus, pieces], [records, pdus, on]]
}

/// What strict reading refuses a file by: 1 to 5, 21 or 22, for enough work. The oracle is asked by a channel that no DLCI has.
pub fn refused(container: Container, file: &[u8]) -> Option<Answer> {
    if container == Container::Pcap {
        return pcap::refusal(file, usize::MAX, false, pcap::RIGHT);
    }
    if file.len() > LONGEST_FILE {
        return Some(Answer::refused(1, &[]));
    }
    match capture::import(file, Some(255)) {
        Err(ImportError::NotBtsnoop) => Some(Answer::refused(3, &[])),
        Err(ImportError::Datalink(n)) => Some(Answer::refused(4, &[n.into()])),
        Err(ImportError::Truncated(at)) => Some(Answer::refused(5, &[at as u64])),
        Err(ImportError::NoStream) => None,
        Ok(imported) => unreachable!("DLCI {} is of no such channel", imported.dlci),
    }
}

/// The spans of one link's DLCI, of a file that is refused so, or not: the oracle's list of the file with that link's records
/// alone, if it takes that DLCI. Else a frame of another handle stands before them, so that
/// it does, and is left out of the list. The second says whether that was so.
pub fn one_link(container: Container, file: &[u8], stream: Stream, refused: &Option<Answer>) -> (Answer, bool) {
    if let Some(refused) = refused {
        return (refused.clone(), false);
    }
    if !stream.may_be() {
        return (Answer::refused(23, &[]), false);
    }
    let alone = alone::for_rust(container, file, (stream.index, stream.handle));
    let channel = Some(stream.dlci / 2);
    let listed =
        |frames: &[items::Span], unfinished| Answer::listed(frames.len(), unfinished, items::span_list(frames));
    if let Ok(imported) = capture::import(&alone, channel) {
        if imported.dlci == stream.dlci {
            return (listed(&imported.frames, imported.unfinished), false);
        }
    }
    let imported = capture::import(&alone::behind_frame(&alone, stream), channel).expect("it has a frame");
    assert_eq!(imported.dlci, stream.dlci, "the DLCI of the first frame is taken");
    (listed(&imported.frames[1..], imported.unfinished), true)
}
