//! What a look inside a trace found, in words, and as objects for other programs.

use std::fmt::Write;

use crate::bytes::{self, In};
use crate::losses;
use crate::report::{end_fields, end_of, sentence};
use crate::words::{capital, count, datalink, datalink_fields, named, null_or, object, string, way};
use look::{Channel, Dlci, Handle, Seen, Share, Standing, Trace};
use lumbryth::{Gaps, Imported, Link};

/// How import is asked to read the file: one that ends inside a record is read by the tolerant rule only.
fn import(trace: Trace, seen: &Seen) -> &'static str {
    if is_cut(trace, seen) {
        "import --tolerant"
    } else {
        "import"
    }
}

fn channels(seen: &Seen) -> usize {
    seen.handles.iter().map(|handle| handle.channels.len()).sum()
}

/// One word for what a channel is.
fn name(standing: Standing) -> &'static str {
    match standing {
        Standing::Admitted => "admitted",
        Standing::Guessed => "guessed",
        Standing::Signals => "signals",
        Standing::Service | Standing::Unasked | Standing::Refused => "named",
        Standing::Fixed => "passed over",
    }
}

/// Why a channel's PDUs are passed over.
fn reason(channel: &Channel) -> Option<String> {
    match channel.standing() {
        Standing::Admitted | Standing::Guessed | Standing::Signals => None,
        Standing::Service => Some("no request for it has PSM 0x0003, RFCOMM".to_string()),
        Standing::Unasked => Some("a response names it, and the request is not in the file before that".to_string()),
        Standing::Refused => Some(match channel.result {
            Some(result) => {
                format!("no response to a request for RFCOMM is a success, and the last has result {result}")
            }
            None => "no response to a request for RFCOMM is a success, and the last has no result".to_string(),
        }),
        Standing::Fixed => Some("nothing names it, and its CID is under 0x0040".to_string()),
    }
}

/// A channel, with its handle in words.
fn channel_line(link: &str, channel: &Channel) -> String {
    let standing = channel.standing();
    let mut line = format!("CID 0x{:04x} {}, {}", channel.cid, way(channel.direction), name(standing));
    if !channel.psms.is_empty() {
        let psms: Vec<String> = channel.psms.iter().map(|psm| format!("0x{psm:04x}")).collect();
        line += &format!(", PSM {}", psms.join(" then "));
    }
    line += &format!(", {}, {link}", count(channel.pdus, "PDU", "PDUs"));
    let over = if standing == Standing::Fixed { "" } else { "passed over, for " };
    reason(channel).into_iter().for_each(|words| line += &format!(": {over}{words}"));
    line + ".\n"
}

fn handle_lines(handle: &Handle, several: bool) -> String {
    let link = named(handle.link, several);
    let first = capital(&link);
    let ways = [("rx", handle.packets.rx, handle.pdus.rx), ("tx", handle.packets.tx, handle.pdus.tx)];
    let line = |(way, packets, pdus)| {
        let (packets, pdus) = (count(packets, "packet", "packets"), count(pdus, "PDU", "PDUs"));
        format!("{first} {way}: {packets}, {pdus}.\n")
    };
    let channels = handle.channels.iter().map(|channel| channel_line(&link, channel));
    ways.map(line).into_iter().chain(channels).collect()
}

/// The DLCI that a channel gives in place of this one, if it is another.
fn before<'a>(seen: &'a Seen, dlci: &Dlci) -> Option<&'a Dlci> {
    seen.taken(Some(dlci.channel())).filter(|first| first.dlci != dlci.dlci)
}

/// Whether and how import takes a DLCI, without a full stop.
fn taking(import: &str, seen: &Seen, dlci: &Dlci) -> String {
    let channel = dlci.channel();
    match before(seen, dlci) {
        _ if dlci.all.spans == 0 => format!("{import} does not take it, for it has no span"),
        _ if dlci.all.frames == 0 => format!("{import} does not take it, for no span unpacks"),
        Some(first) => {
            format!(
                "no channel asks for it, for {import} --channel {channel} takes DLCI {}, which comes first",
                first.dlci
            )
        }
        None if seen.taken(None) == Some(dlci) => format!("{import} takes it, with --channel {channel} or without"),
        None => format!("{import} --channel {channel} takes it"),
    }
}

/// What came on a DLCI, in numbers.
fn numbers(share: &Share) -> String {
    format!(
        "{}, {}, {}, {} unfinished",
        count(share.frames, "frame", "frames"),
        count(share.spans, "span", "spans"),
        count(share.pieces, "piece", "pieces"),
        share.unfinished,
    )
}

/// How import is asked for one link and DLCI.
fn alone(link: Link, dlci: u8) -> String {
    format!("--link {link} --dlci {dlci}")
}

/// Whether the file ends inside a record. Of such a file nothing is taken by --link, which reads by the strict rule.
fn is_cut(trace: Trace, seen: &Seen) -> bool {
    seen.tail < trace.file.len()
}

fn dlci_lines(trace: Trace, seen: &Seen, dlci: &Dlci, several: bool) -> String {
    let import = import(trace, seen);
    let mut text = format!("DLCI {}, channel {}: {}.\n", dlci.dlci, dlci.channel(), numbers(&dlci.all));
    for (link, share) in dlci.links.iter().filter(|_| several || dlci.links.len() > 1) {
        let _ = writeln!(text, "DLCI {} on {}: {}.", dlci.dlci, named(*link, several), numbers(share));
    }
    let _ = writeln!(text, "{}", bytes::line(dlci.dlci, &bytes::words(&dlci.all.bytes, In::Spans)));
    let _ = writeln!(text, "DLCI {}: {}.", dlci.dlci, taking(import, seen, dlci));
    for (link, _) in dlci.links.iter().filter(|(_, share)| share.spans > 0 && !is_cut(trace, seen)) {
        let (name, asks) = (named(*link, several), alone(*link, dlci.dlci));
        let _ = writeln!(text, "DLCI {} on {name}: import {asks} takes it alone.", dlci.dlci);
    }
    if dlci.wrong_fcs > 0 {
        let frames = count(dlci.wrong_fcs, "UIH frame has", "UIH frames have");
        let them = if dlci.wrong_fcs == 1 { "it" } else { "them" };
        let passes = format!("{import} --check-fcs passes {them} over");
        let _ = writeln!(text, "DLCI {}: {frames} a wrong FCS, and {passes}.", dlci.dlci);
    }
    for refused in &dlci.refused {
        let spans = count(refused.spans, "span does not unpack", "spans do not unpack");
        let first = if refused.spans == 1 { "" } else { "the first: " };
        let (number, words) = (refused.refusal.number(), refused.refusal);
        let _ = writeln!(text, "DLCI {}: {spans}, refusal {number}, {first}{words}.", dlci.dlci);
    }
    text
}

/// Why there is no frame, if there is none.
fn none(seen: &Seen) -> Option<&'static str> {
    let pdus: usize = seen.handles.iter().map(|handle| handle.pdus.rx + handle.pdus.tx).sum();
    match seen {
        _ if seen.taken(None).is_some() => None,
        _ if seen.handles.is_empty() && seen.skipped == 0 => Some("there is no packet with data"),
        _ if seen.handles.is_empty() => Some("no packet with data was recorded whole"),
        _ if pdus == 0 => Some("no PDU is whole"),
        _ if seen.tried() == 0 => Some("nothing came on a channel that is admitted or guessed to be RFCOMM"),
        _ if seen.dlcis.is_empty() => Some("PDUs came on RFCOMM, and no piece of information"),
        _ if seen.dlcis.iter().all(|dlci| dlci.all.spans == 0) => Some("pieces came, and no span"),
        _ => Some("spans came, and none unpacks"),
    }
}

/// Handles, channels and DLCIs, a line for each fact.
pub fn text(trace: Trace, seen: &Seen, gaps: &Gaps) -> String {
    let adapters = seen.adapters().len();
    let several = adapters > 1;
    let mut text = if several { format!("{adapters} adapters, ") } else { String::new() };
    let _ = writeln!(
        text,
        "{}, {}, {}: {}.",
        count(seen.handles.len(), "handle", "handles"),
        count(channels(seen), "channel", "channels"),
        count(seen.dlcis.len(), "DLCI", "DLCIs"),
        datalink(trace),
    );
    let (words, ends) = end_of(trace).unwrap_or_default();
    let _ = writeln!(text, "{}", sentence(&words));
    if ends {
        text += "Whatever came later is missing.\n";
    }
    text += &losses::lines(trace, gaps);
    text.extend(seen.handles.iter().map(|handle| handle_lines(handle, several)));
    text.extend(seen.dlcis.iter().map(|dlci| dlci_lines(trace, seen, dlci, several)));
    if let Some(words) = none(seen) {
        let _ = writeln!(text, "{} refuses the trace (6): {words}.", capital(import(trace, seen)));
    }
    if is_cut(trace, seen) && seen.dlcis.iter().any(|dlci| dlci.all.spans > 0) {
        text += "Import --link refuses the trace (5), for it reads whole files only.\n";
    }
    text
}

/// What `text` says, an object a line.
pub fn objects(trace: Trace, seen: &Seen, gaps: &Gaps) -> String {
    let mut fields = vec![("kind", string("file"))];
    fields.extend(datalink_fields(trace));
    fields.extend([
        ("records", seen.records.to_string()),
        ("adapters", seen.adapters().len().to_string()),
        ("taken", null_or(seen.taken(None).map(|dlci| dlci.dlci))),
        ("reason", none(seen).map_or("null".to_string(), string)),
    ]);
    fields.extend(end_fields(trace));
    fields.push(("losses", losses::fields(trace, gaps)));
    let mut text = object(&fields);
    for handle in &seen.handles {
        text += &object(&[
            ("kind", string("handle")),
            ("adapter", handle.link.adapter.to_string()),
            ("handle", handle.link.handle.to_string()),
            ("rx_packets", handle.packets.rx.to_string()),
            ("rx_pdus", handle.pdus.rx.to_string()),
            ("tx_packets", handle.packets.tx.to_string()),
            ("tx_pdus", handle.pdus.tx.to_string()),
        ]);
        text.extend(handle.channels.iter().map(|channel| channel_object(handle.link, channel)));
    }
    text.extend(seen.dlcis.iter().map(|dlci| dlci_objects(seen, dlci)));
    text
}

fn channel_object(link: Link, channel: &Channel) -> String {
    let psms: Vec<String> = channel.psms.iter().map(|psm| psm.to_string()).collect();
    object(&[
        ("kind", string("channel")),
        ("adapter", link.adapter.to_string()),
        ("handle", link.handle.to_string()),
        ("direction", string(way(channel.direction))),
        ("cid", channel.cid.to_string()),
        ("psms", format!("[{}]", psms.join(","))),
        ("standing", string(name(channel.standing()))),
        ("tried", channel.standing().is_tried().to_string()),
        ("pdus", channel.pdus.to_string()),
        ("reason", reason(channel).map_or("null".to_string(), |words| string(&words))),
    ])
}

fn dlci_objects(seen: &Seen, dlci: &Dlci) -> String {
    let asked = (dlci.all.frames > 0 && before(seen, dlci).is_none()).then(|| dlci.channel());
    let mut text = object(&[
        ("kind", string("dlci")),
        ("dlci", dlci.dlci.to_string()),
        ("channel", dlci.channel().to_string()),
        ("pieces", dlci.all.pieces.to_string()),
        ("spans", dlci.all.spans.to_string()),
        ("frames", dlci.all.frames.to_string()),
        ("unfinished", dlci.all.unfinished.to_string()),
        ("wrong_fcs", dlci.wrong_fcs.to_string()),
        bytes::field(dlci.all.bytes),
        ("asked_by", null_or(asked)),
    ]);
    for (link, share) in &dlci.links {
        text += &object(&[
            ("kind", string("share")),
            ("dlci", dlci.dlci.to_string()),
            ("link", string(&link.to_string())),
            ("adapter", link.adapter.to_string()),
            ("handle", link.handle.to_string()),
            ("pieces", share.pieces.to_string()),
            ("spans", share.spans.to_string()),
            ("frames", share.frames.to_string()),
            ("unfinished", share.unfinished.to_string()),
            bytes::field(share.bytes),
        ]);
    }
    for refused in &dlci.refused {
        text += &object(&[
            ("kind", string("refused")),
            ("dlci", dlci.dlci.to_string()),
            ("refusal", refused.refusal.number().to_string()),
            ("spans", refused.spans.to_string()),
            ("reason", string(&refused.refusal.to_string())),
        ]);
    }
    text
}

/// The links that have spans on a DLCI, in the order of their first pieces.
pub fn links(trace: Trace, check_fcs: bool, dlci: u8) -> Vec<Link> {
    let Ok(seen) = look::look(trace, check_fcs) else { return Vec::new() };
    let line = seen.dlcis.iter().find(|line| line.dlci == dlci);
    let with_spans = line.iter().flat_map(|line| &line.links).filter(|(_, share)| share.spans > 0);
    with_spans.map(|(link, _)| *link).collect()
}

/// How one link is taken alone, if the frames of an import are of several.
pub fn links_line(trace: Trace, check_fcs: bool, imported: &Imported) -> Option<String> {
    let (links, dlci) = (links(trace, check_fcs, imported.dlci), imported.dlci);
    let (first, more) = links.split_first().filter(|(_, more)| !more.is_empty())?;
    let several = format!("The frames are of {} links.", links.len());
    if imported.tail < trace.file.len() {
        return Some(format!("{several} --link takes one alone, but not of a file that ends inside a record."));
    }
    let others = match more {
        [second] => alone(*second, dlci),
        _ => format!("one of {} more that lumbryth channels shows", more.len()),
    };
    let fcs = if check_fcs { ", with the FCS not checked" } else { "" };
    Some(format!("{several} For one alone{fcs}: {}, or {others}.", alone(*first, dlci)))
}

/// The DLCIs with frames but for the one taken, if one is.
fn others(seen: &Seen, taken: Option<u8>) -> impl Iterator<Item = &Dlci> {
    seen.dlcis.iter().filter(move |dlci| dlci.all.frames > 0 && Some(dlci.dlci) != taken)
}

/// What other DLCIs have frames than the one taken, if one is: a sentence each.
pub fn other_lines(trace: Trace, check_fcs: bool, taken: Option<u8>) -> Vec<String> {
    let Ok(seen) = look::look(trace, check_fcs) else { return Vec::new() };
    let line = |dlci: &Dlci| {
        let (number, channel) = (dlci.dlci, dlci.channel());
        let frames = count(dlci.all.frames, "frame that unpacks", "frames that unpack");
        let too = if taken.is_some() { " too" } else { "" };
        match before(&seen, dlci) {
            None => format!("DLCI {number}, channel {channel}, has {frames}{too}: --channel {channel}."),
            Some(first) => {
                let first = first.dlci;
                format!(
                    "DLCI {number}, channel {channel}, has {frames}{too}, and no channel asks for it: \
                     --channel {channel} takes DLCI {first}, which comes first."
                )
            }
        }
    };
    others(&seen, taken).map(line).collect()
}

/// What is taken without --check-fcs, if that is another DLCI than the one taken with it, or none is.
pub fn unchecked_line(trace: Trace, channel: Option<u8>, taken: Option<u8>) -> Option<String> {
    let seen = look::look(trace, false).ok()?;
    let other = seen.taken(channel).filter(|dlci| Some(dlci.dlci) != taken)?;
    let frames = count(other.all.frames, "frame that unpacks", "frames that unpack");
    let (number, channel) = (other.dlci, other.channel());
    Some(format!("Without --check-fcs, DLCI {number}, channel {channel}, is taken, which has {frames}."))
}

/// What `other_lines` says, an object a line.
pub fn other_objects(trace: Trace, check_fcs: bool, taken: u8) -> String {
    let Ok(seen) = look::look(trace, check_fcs) else { return String::new() };
    let other = |dlci: &Dlci| {
        object(&[
            ("kind", string("other")),
            ("dlci", dlci.dlci.to_string()),
            ("channel", dlci.channel().to_string()),
            ("frames", dlci.all.frames.to_string()),
            ("asked_by", null_or(before(&seen, dlci).is_none().then(|| dlci.channel()))),
        ])
    };
    others(&seen, Some(taken)).map(other).collect()
}
