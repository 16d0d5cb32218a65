//! What was found, in words, and as objects for other programs.

use std::fmt::Write;
use std::path::Path;

use crate::args::Look;
use crate::bytes::{self, In};
use crate::channels;
use crate::found::{Alone, List};
use crate::hints::{self, Hint, Kind};
use crate::losses;
use crate::set;
use crate::time::utc;
use crate::words::{
    capital, count, datalink, datalink_fields, hex, named, null_or, object, several, shown, string, way, wrong_fcs,
};
use crate::write::Done;
use look::{adapters, Kind as Held, Trace};
use lumbryth::{unpack, Cut, Direction, Ending, Gaps, Imported, LinkList, Records, Sizes, Span, Stretch};

/// How many spans do not unpack.
pub fn broken(spans: &[Span]) -> usize {
    spans.iter().filter(|span| unpack(&span.wire).is_err()).count()
}

/// How many spans there are, and whether they unpack. A report calls each of them a frame.
fn how_many(spans: &[Span]) -> String {
    let unpack = match broken(spans) {
        0 if spans.is_empty() => return "No frame".to_string(),
        0 if spans.len() == 1 => "which unpacks".to_string(),
        0 => "all of which unpack".to_string(),
        n => count(n, "of which does not unpack", "of which do not unpack"),
    };
    format!("{}, {unpack}", count(spans.len(), "frame", "frames"))
}

/// How much of the record in which a file ends is there.
fn bytes_of(cut: Cut) -> String {
    let present = count(cut.present, "byte of it is there", "bytes of it are there");
    match cut.missing {
        Some(1) => format!("{present} and 1 is missing"),
        Some(missing) => format!("{present} and {missing} are missing"),
        None => format!("{present}, too few to say how many are missing"),
    }
}

/// What is seen of a file's end, without a full stop; and whether it is more than that the end is at a record's end.
fn end(trace: Trace, ending: Ending) -> (String, bool) {
    match ending {
        Ending::Inside(cut) => {
            (format!("the file ends inside the record that starts at byte {}: {}", cut.offset, bytes_of(cut)), true)
        }
        Ending::Length { offset, length } => (
            format!(
                "the file is damaged: the record that starts at byte {offset} gives its packet {length} bytes, \
                 and no packet has over {}",
                trace.container.packet_max()
            ),
            true,
        ),
        Ending::Zeros { offset, count: n } => {
            (format!("the file is damaged: from byte {offset} to its end there are zeros only, {n} of them"), true)
        }
        _ => {
            let bare = trace.file.len() == trace.container.header();
            let place = if bare { "after its header" } else { "at a record's end" };
            (format!("the file ends {place}, so whether more was recorded cannot be seen"), false)
        }
    }
}

/// How a file ends, in words; a file that has no records to look at says nothing.
pub fn end_of(trace: Trace) -> Option<(String, bool)> {
    trace.ending().ok().map(|ending| end(trace, ending))
}

/// A text with a capital and a full stop.
pub fn sentence(words: &str) -> String {
    if words.is_empty() {
        return String::new();
    }
    capital(words) + "."
}

/// The open stretches, a sentence each, by adapter, handle and direction.
fn unfinished(open: &[Stretch], several: bool) -> Vec<String> {
    let mut open = open.to_vec();
    open.sort_by_key(|stretch| {
        (stretch.link(), stretch.direction == Direction::Rx, stretch.cid, stretch.sessions, stretch.links)
    });
    let sentence = |stretch: &Stretch| {
        format!(
            "Unfinished on {}, {}, DLCI {}: {} held without an end marker.",
            named(stretch.link(), several),
            if stretch.direction == Direction::Rx { "received" } else { "sent" },
            stretch.dlci,
            count(stretch.held, "byte is", "bytes are"),
        )
    };
    open.iter().map(sentence).collect()
}

/// How the file ends, and where that is more than at a record's end, what it means for so many frames, which have their place among the
/// fixtures or are listed.
fn at_the_end(trace: Trace, frames: usize, place: &str) -> String {
    let (words, seen) = end_of(trace).unwrap_or_default();
    let mut text = format!("{}\n", sentence(&words));
    if seen {
        let _ = writeln!(text, "Kept: {}, complete before that.", count(frames, "frame", "frames"));
        let _ = writeln!(text, "Missing: whatever was not complete before that, or came later.");
        let _ = writeln!(text, "A reply that is not {place} may have been sent all the same.");
    }
    text
}

/// What was found, by how it was asked for. `place` is where the frames are: among the fixtures, or listed.
pub fn findings(trace: Trace, look: &Look, list: &List, place: &str) -> String {
    match list {
        List::Import(imported, open) => import_findings(trace, look, imported, open, place),
        List::Link(alone, list) => link_findings(trace, *alone, list, place),
    }
}

/// What was found of one link and DLCI. Its list may be empty, or have nothing that unpacks; then it is said what that means.
fn link_findings(trace: Trace, alone: Alone, list: &LinkList, place: &str) -> String {
    let (spans, link) = (&list.spans, named(alone.link, true));
    let mut text = format!("{}: {alone}.\n", how_many(spans));
    text += "Other links are not in this list and do not change it; other DLCIs are not in it.\n";
    if broken(spans) == spans.len() {
        if !look::links(trace).contains(&alone.link) {
            let _ = writeln!(text, "The trace has no whole packet with data of {link}.");
        }
        let so = if spans.is_empty() { "be empty" } else { "have no frame that unpacks" };
        let _ = writeln!(
            text,
            "The list of one link may {so}, and is not refused for that; lumbryth channels shows which links and \
             DLCIs have frames."
        );
    }
    let held = match list.unfinished {
        0 => "nothing is held without an end marker".to_string(),
        n => count(n, "frame is begun and has no end marker", "frames are begun and have no end marker"),
    };
    let _ = writeln!(text, "Unfinished on {alone}: {held}.");
    text + &at_the_end(trace, spans.len(), place)
}

/// What an import found. `open` are the stretches that hold bytes at the end.
fn import_findings(trace: Trace, look: &Look, imported: &Imported, open: &[Stretch], place: &str) -> String {
    let (dlci, channel) = (imported.dlci, imported.dlci / 2);
    let mut text = format!("{}: DLCI {dlci}, channel {channel}.\n", how_many(&imported.spans));
    if look.check_fcs {
        let _ = writeln!(text, "{}", wrong_fcs(dlci, imported.wrong_fcs));
    }
    let adapters = adapters(trace).len();
    if adapters > 1 {
        let _ = writeln!(
            text,
            "The trace has {adapters} adapters: their frames come in one list, in order of completion, \
             which does not tell the adapters apart."
        );
    }
    if let Some(line) = channels::links_line(trace, look.check_fcs, imported) {
        let _ = writeln!(text, "{line}");
    }
    let went = bytes::words(&imported.bytes, In::Frames);
    let _ = writeln!(text, "{}", bytes::line(dlci, &went));
    bytes::reasons(dlci, &imported.bytes).iter().for_each(|sentence| text += &format!("{sentence}\n"));
    let unfinished = unfinished(open, adapters > 1);
    if unfinished.is_empty() {
        let _ = writeln!(text, "Unfinished on DLCI {dlci}: nothing is held without an end marker.");
    }
    unfinished.iter().for_each(|sentence| text += &format!("{sentence}\n"));
    text += &at_the_end(trace, imported.frames, place);
    if look.channel.is_none() {
        let _ = writeln!(text, "What is proved of a cut is for a channel that is asked for, here --channel {channel}.");
    }
    text
}

/// The hints that the frames give. That the end may be missing is none where the file tells it.
fn hints_of(trace: Trace, spans: &[Span]) -> Vec<Hint> {
    let told = end_of(trace).is_some_and(|(_, seen)| seen);
    hints::hints(spans).into_iter().filter(|hint| hint.kind != Kind::End || !told).collect()
}

/// What is not in the trace: the signs of it that are seen, then hints. The signs are of all links, and so are the hints, unless one link
/// was asked for.
pub fn missing(trace: Trace, list: &List, gaps: &Gaps) -> String {
    let (mut text, hints) = (losses::lines(trace, gaps), hints_of(trace, list.spans()));
    match list {
        List::Link(alone, _) if !text.is_empty() && look::links(trace).iter().any(|link| *link != alone.link) => {
            text.insert_str(0, "What follows of losses is of the whole file, and may be of another link.\n");
        }
        List::Import(..) if !hints.is_empty() && several(trace) => {
            text += "Hints go by the one list of frames: they may take a frame of one adapter for one of another.\n";
        }
        _ => {}
    }
    text + &hints::lines(&hints)
}

/// What was done with the fixtures.
pub fn written(done: &Done, dir: &Path) -> String {
    let mut text = format!("{} written", count(done.written, "fixture", "fixtures"));
    if done.there > 0 {
        text += &format!(", {} there already with the same bytes", count(done.there, "was", "were"));
    } else if done.written == 0 {
        text += &format!(", for the set has none, only its list, {}", set::NAME);
    }
    format!("{text}: {}\n", shown(dir))
}

/// The list of frames, a line each.
pub fn frames(spans: &[Span]) -> String {
    let mut text = String::new();
    for (counter, span) in (1..).zip(spans) {
        let counter: usize = counter;
        let (way, bytes, time) = (way(span.direction), count(span.wire.len(), "byte", "bytes"), utc(span.ms));
        let _ = match unpack(&span.wire) {
            Ok(frame) => {
                let (command, number) = (frame.command_name(), frame.command().unwrap_or(0));
                let (kind, byte, seq) = (frame.kind.name(), frame.kind.byte(), frame.seq);
                writeln!(
                    text,
                    "{command} {way} {counter}, {kind}, seq {seq:02x}, {bytes}, command {number:02x}, type {byte:02x}, {time}"
                )
            }
            Err(refusal) => {
                let number = refusal.number();
                writeln!(text, "does not unpack {way} {counter}, refusal {number}, {refusal}, {bytes}, {time}")
            }
        };
    }
    text
}

/// How the file ends, as fields of an object.
pub fn end_fields(trace: Trace) -> Vec<(&'static str, String)> {
    let (name, mut fields) = match trace.ending() {
        Ok(Ending::Inside(cut)) => {
            let missing = null_or(cut.missing);
            (
                "cut",
                vec![("offset", cut.offset.to_string()), ("present", cut.present.to_string()), ("missing", missing)],
            )
        }
        Ok(Ending::Length { offset, length }) => {
            ("length", vec![("offset", offset.to_string()), ("length", length.to_string())])
        }
        Ok(Ending::Zeros { offset, count }) => {
            ("zeros", vec![("offset", offset.to_string()), ("zeros", count.to_string())])
        }
        _ => ("record", Vec::new()),
    };
    fields.insert(0, ("end", string(name)));
    fields
}

/// What was found as a whole, as fields of an object: of an import, or of one link.
fn found_fields(trace: Trace, look: &Look, list: &List) -> Vec<(&'static str, String)> {
    let dlci = ("dlci", list.dlci().to_string());
    let (frames, unfinished) =
        (("frames", list.spans().len().to_string()), ("unfinished", list.unfinished().to_string()));
    match list {
        List::Import(imported, _) => {
            let links = channels::links(trace, look.check_fcs, imported.dlci);
            let links: Vec<String> = links.iter().map(|link| string(&link.to_string())).collect();
            vec![
                ("kind", string("import")),
                dlci,
                ("channel", (imported.dlci / 2).to_string()),
                frames,
                unfinished,
                ("check_fcs", look.check_fcs.to_string()),
                ("wrong_fcs", null_or(look.check_fcs.then_some(imported.wrong_fcs))),
                bytes::field(imported.bytes),
                ("links", format!("[{}]", links.join(","))),
            ]
        }
        List::Link(Alone { link, .. }, _) => vec![
            ("kind", string("link")),
            ("link", string(&link.to_string())),
            ("adapter", link.adapter.to_string()),
            ("handle", link.handle.to_string()),
            dlci,
            frames,
            unfinished,
        ],
    }
}

/// What `findings`, `missing` and `frames` say, an object a line.
pub fn frame_objects(trace: Trace, look: &Look, list: &List, gaps: &Gaps) -> String {
    let mut fields = found_fields(trace, look, list);
    fields.push(("adapters", adapters(trace).len().to_string()));
    fields.extend(end_fields(trace));
    fields.push(("losses", losses::fields(trace, gaps)));
    let mut text = object(&fields);
    let open = if let List::Import(_, open) = list { &open[..] } else { &[] };
    for stretch in open {
        text += &object(&[
            ("kind", string("unfinished")),
            ("adapter", stretch.adapter.to_string()),
            ("handle", stretch.handle.to_string()),
            ("direction", string(way(stretch.direction))),
            ("dlci", stretch.dlci.to_string()),
            ("held", stretch.held.to_string()),
        ]);
    }
    text += &hints::objects(&hints_of(trace, list.spans()));
    for (counter, span) in (1..).zip(list.spans()) {
        let mut fields = vec![
            ("kind", string("frame")),
            ("counter", counter.to_string()),
            ("direction", string(way(span.direction))),
            ("ms", span.ms.to_string()),
            ("wire", string(&hex(&span.wire))),
        ];
        match unpack(&span.wire) {
            Ok(frame) => fields.extend([
                ("type", frame.kind.byte().to_string()),
                ("type_name", string(frame.kind.name())),
                ("seq", frame.seq.to_string()),
                ("command", frame.command().map_or("null".to_string(), |byte| byte.to_string())),
                ("command_name", string(&frame.command_name())),
                ("payload", string(&hex(&frame.payload))),
            ]),
            Err(refusal) => {
                fields.extend([("refusal", refusal.number().to_string()), ("reason", string(&refusal.to_string()))]);
            }
        }
        text += &object(&fields);
    }
    text
}

/// What a record's packet is, as the import reads it; with the adapter if the trace has several.
fn what(record: &look::Record, several: bool) -> String {
    let (name, data) = match record.kind {
        Held::Command => ("command", None),
        Held::Event => ("event", None),
        Held::Data(bytes) => ("ACL data", bytes.get(..2)),
        Held::Other => ("other", None),
    };
    let mut what = name.to_string();
    record.adapter.filter(|_| several).into_iter().for_each(|adapter| what += &format!(", adapter {adapter}"));
    if let Some(field) = data {
        let handle = u16::from(field[1] & 0x0F) << 8 | u16::from(field[0]);
        let part = if field[1] >> 4 & 3 == 1 { "continues a PDU" } else { "begins a PDU" };
        what += &format!(", handle {handle}, {part}");
    }
    what
}

/// A record in words: where it starts, its packet's adapter, which way that went, what it is, its length, milliseconds since 1970.
struct Record {
    start: usize,
    adapter: Option<u16>,
    way: Option<&'static str>,
    what: String,
    length: usize,
    ms: u64,
}

fn each_record<'a>(trace: Trace<'a>, found: &'a Records) -> impl Iterator<Item = Record> + 'a {
    let several = several(trace);
    found.starts.iter().map(move |&start| {
        let record = trace.record(start);
        let (way, what) = (record.direction.map(way), what(&record, several));
        Record { start, adapter: record.adapter, way, what, length: record.length, ms: record.ms }
    })
}

/// The list of records, a line each.
pub fn records(trace: Trace, found: &Records, gaps: &Gaps) -> String {
    let mut records = count(found.starts.len(), "record", "records");
    let adapters = adapters(trace).len();
    if adapters > 1 {
        records += &format!(", {adapters} adapters");
    }
    let mut text = format!("{records}: {}.\n", datalink(trace));
    let (words, seen) = end_of(trace).unwrap_or_default();
    let _ = writeln!(text, "{}", sentence(&words));
    if seen {
        text += "Whatever came later is missing.\n";
    }
    text += &losses::lines(trace, gaps);
    for (n, record) in (1..).zip(each_record(trace, found)) {
        let (way, bytes) = (record.way.unwrap_or("no direction"), count(record.length, "byte", "bytes"));
        let _ = writeln!(text, "{}, {way} {n}, {bytes} at {}, {}", record.what, record.start, utc(record.ms));
    }
    text
}

/// What `records` says, an object a line.
pub fn record_objects(trace: Trace, found: &Records, gaps: &Gaps) -> String {
    let mut fields = vec![("kind", string("file"))];
    fields.extend(datalink_fields(trace));
    fields.push(("records", found.starts.len().to_string()));
    fields.push(("adapters", adapters(trace).len().to_string()));
    fields.extend(end_fields(trace));
    fields.push(("losses", losses::fields(trace, gaps)));
    let mut text = object(&fields);
    for (n, record) in (1..).zip(each_record(trace, found)) {
        let n: usize = n;
        text += &object(&[
            ("kind", string("record")),
            ("number", n.to_string()),
            ("offset", record.start.to_string()),
            ("adapter", null_or(record.adapter)),
            ("direction", record.way.map_or("null".to_string(), string)),
            ("ms", record.ms.to_string()),
            ("length", record.length.to_string()),
            ("what", string(&record.what)),
        ]);
    }
    text
}

/// The sizes of a trace, a line each, by how they were asked for; and how the file ends.
pub fn sizes(trace: Trace, look: &Look, sizes: &Sizes) -> String {
    let on = look.channel.map_or(String::new(), |channel| format!(" on channel {channel}"));
    let fcs = if look.check_fcs { " with a right FCS" } else { "" };
    let mut text = format!("Needed for the list of spans{on}: {} bytes.\n", sizes.needed);
    let _ = writeln!(text, "Records: {}.", sizes.records);
    let _ = writeln!(text, "PDUs put together: {}.", sizes.pdus);
    let _ = writeln!(text, "Pieces of information{fcs}: {}.", sizes.pieces);
    let (words, seen) = end_of(trace).unwrap_or_default();
    let _ = writeln!(text, "{}", sentence(&words));
    if seen {
        text += "Whatever came later is missing.\n";
    }
    text
}

/// What `sizes` says, as an object.
pub fn sizes_object(trace: Trace, sizes: &Sizes) -> String {
    let numbers =
        [("needed", sizes.needed), ("records", sizes.records), ("pdus", sizes.pdus), ("pieces", sizes.pieces)];
    let mut fields = vec![("kind", string("sizes"))];
    fields.extend(numbers.map(|(name, number)| (name, number.to_string())));
    fields.extend(end_fields(trace));
    object(&fields)
}
