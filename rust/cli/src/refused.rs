//! Why a trace is refused, in words that fit what was asked, and what helps.

use std::path::Path;

use crate::args::Look;
use crate::words::{count, shown};
use crate::{channels, losses, report};
use look::Trace;
use lumbryth::{Refusal, TailRule};

/// What helps against pcapng.
const CONVERT: &str =
    "to save it as pcap: editcap -F pcap TRACE NEW; or in Wireshark, Save As, and choose pcap, not pcapng";

/// How an import was asked for, as far as a refusal depends on it.
#[derive(Clone, Copy, Default)]
pub struct Asked {
    pub channel: Option<u8>,
    pub check_fcs: bool,
    /// Whether one link is asked for.
    pub alone: bool,
}

impl From<&Look> for Asked {
    fn from(look: &Look) -> Asked {
        Asked { channel: look.channel, check_fcs: look.check_fcs, alone: look.alone.is_some() }
    }
}

/// What a refusal says of a trace.
fn words(trace: Trace, asked: Asked, refusal: Refusal) -> String {
    let only = |header: &str| format!("the file has only {}, and {header}", count(trace.file.len(), "byte", "bytes"));
    match (refusal, report::end_of(trace)) {
        (Refusal::NotBtsnoop, _) if trace.file.is_empty() => "the file is empty".to_string(),
        (Refusal::NotBtsnoop, _) if trace.file.len() < 16 => only("a btsnoop header has 16, a pcap header 24"),
        (Refusal::NotBtsnoop, _) => "this is neither a btsnoop file nor a pcap file: its first 16 bytes are not a \
             btsnoop header of version 1, and its first 4 are not those of pcap"
            .to_string(),
        (Refusal::NotPcap, _) if trace.is_pcapng() => {
            "this is a pcapng file, which Wireshark saves by default, and only btsnoop and pcap can be read".to_string()
        }
        (Refusal::NotPcap, _) if trace.file.len() < 24 => only("a pcap header has 24"),
        (Refusal::LinkType(187), _) => {
            "the trace has link type 187, Bluetooth HCI H4 without direction: which way each \
             packet went is not in the file. Link type 201 is needed, Bluetooth HCI H4 with pseudo-header, which has it"
                .to_string()
        }
        (Refusal::LinkType(n), _) => format!(
            "the trace has link type {n}, and 201 is needed: Bluetooth HCI H4 with pseudo-header, which has the \
             direction of each packet"
        ),
        (Refusal::Truncated { .. }, Some((words, _))) => words,
        (Refusal::NoStream, Some((words, _))) => {
            let place = asked.channel.map_or("in the trace".to_string(), |channel| format!("on channel {channel}"));
            let fcs = if asked.check_fcs { " with a right FCS" } else { "" };
            format!("nothing {place}{fcs} unpacks as a frame; {words}")
        }
        (other, _) => other.to_string(),
    }
}

/// What helps, a line each.
fn hints(trace: Trace, asked: Asked, refusal: Refusal) -> Vec<String> {
    let hint = match refusal {
        Refusal::FileLong => "record a shorter log; a file that is trimmed by hand loses frames and does not tell",
        Refusal::Truncated { .. } if asked.alone => {
            "--link reads whole files only; without it, lumbryth frames and lumbryth import --tolerant read up to there"
        }
        Refusal::Truncated { .. } => "--tolerant keeps what was complete before that",
        Refusal::NoStream => "see lumbryth channels, which shows what there is and why it is not taken",
        Refusal::NotPcap if trace.is_pcapng() => CONVERT,
        // The Linux monitor's own records, which btsnoop has as datalink 2001.
        Refusal::LinkType(254) => "to save it as btsnoop, which can be read: editcap -F btsnoop TRACE NEW",
        _ => return Vec::new(),
    };
    let mut hints = vec![hint.to_string()];
    if refusal == Refusal::FileLong && trace.is_pcapng() {
        hints.push(format!("this is a pcapng file; {CONVERT}"));
    }
    hints
}

/// A refusal of a trace, with its number, in words; then what else the trace shows, and what helps.
pub fn refused(path: &Path, asked: Asked, trace: Trace, refusal: Refusal) -> String {
    // On another channel than the one asked for there may be frames; and why nothing is found may be that it is not in the file.
    let mut more: Vec<String> = Vec::new();
    if refusal == Refusal::NoStream {
        // So there may be in what came with a wrong FCS.
        more.extend(asked.check_fcs.then(|| channels::unchecked_line(trace, asked.channel, None)).flatten());
        more.extend(channels::other_lines(trace, asked.check_fcs, None));
        let lost = trace.gaps(TailRule::Tolerant).unwrap_or_default();
        more.extend(losses::seen(trace, &lost).iter().map(|loss| loss.sentence()));
    }
    more.extend(hints(trace, asked, refusal));
    let more: String = more.iter().map(|line| format!("\nlumbryth: {line}")).collect();
    format!("refused ({}): {}: {}{more}", refusal.number(), words(trace, asked, refusal), shown(path))
}
