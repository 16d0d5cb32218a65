//! A look inside a trace: handles, channels and DLCIs, what is tried as RFCOMM, and what is found there.
//!
//! It is the program's own reading, plain and not proved; what import gives is proved. The rules are those of docs/FORMATS.md, and
//! the tests hold what is found here against the import.
//!
//! The records are walked twice, each time with little in memory: a channel is judged by all signals of the file, also by those that
//! come after its data. The first walk reads the signals, the second the data of the channels that are tried.

#![deny(unsafe_code)]

mod channels;
mod packets;
mod pdus;
mod records;
mod rfcomm;
mod signals;
mod trace;

pub use channels::{Channel, Handle, Standing, Ways};
pub use records::{Kind, Record};
pub use rfcomm::{Dlci, Refused, Share};
pub use trace::Trace;

use std::collections::BTreeSet;

use channels::Channels;
use lumbryth::{Link, Refusal};
use packets::Held;
use pdus::Joining;
use rfcomm::Lines;

/// What a trace has inside.
#[derive(Debug, Clone, PartialEq, Eq)]
pub struct Seen {
    /// How many whole records there are.
    pub records: usize,
    /// Where the reading stopped: the file's length, or where the record starts that passes its end.
    pub tail: usize,
    /// How many packets with data are skipped, because a part of each is not in the file.
    pub skipped: usize,
    /// The handles of each adapter, in the order of their first packets.
    pub handles: Vec<Handle>,
    /// The DLCIs, in the order of their first pieces, which is the order in which import looks at them.
    pub dlcis: Vec<Dlci>,
}

impl Seen {
    /// The adapters that have a packet with data, recorded whole.
    pub fn adapters(&self) -> BTreeSet<u16> {
        self.handles.iter().map(|handle| handle.link.adapter).collect()
    }

    /// The DLCI that import takes: the first that has a frame, on the channel if one is asked for.
    pub fn taken(&self, channel: Option<u8>) -> Option<&Dlci> {
        self.dlcis.iter().find(|dlci| dlci.all.frames > 0 && channel.is_none_or(|channel| channel == dlci.channel()))
    }

    /// How many PDUs are tried as RFCOMM.
    pub fn tried(&self) -> usize {
        let channels = self.handles.iter().flat_map(|handle| &handle.channels);
        channels.filter(|channel| channel.standing().is_tried()).map(|channel| channel.pdus).sum()
    }
}

/// The connections of a trace that have a packet with data, recorded whole; none if the trace is refused.
pub fn links(trace: Trace) -> BTreeSet<Link> {
    let Ok(found) = trace.records() else { return BTreeSet::new() };
    let link = |held| match held {
        Held::Packet(packet) => Some(packet.link),
        Held::Short | Held::Other => None,
    };
    packets::each(trace, &found.starts).filter_map(link).collect()
}

/// The adapters of those.
pub fn adapters(trace: Trace) -> BTreeSet<u16> {
    links(trace).iter().map(|link| link.adapter).collect()
}

/// Looks inside a trace, up to where it ends if that is inside a record. With `check_fcs`, UIH frames with a wrong FCS are passed
/// over, as import does if it is asked to. Refuses as [`Trace::records`] does.
pub fn look(trace: Trace, check_fcs: bool) -> Result<Seen, Refusal> {
    let found = trace.records()?;
    let (mut channels, mut joining, mut skipped) = (Channels::default(), Joining::default(), 0);
    for held in packets::each(trace, &found.starts) {
        match held {
            Held::Packet(packet) => {
                channels.packet(&packet);
                if let Some(pdu) = joining.join(&packet) {
                    channels.pdu(&pdu);
                }
            }
            Held::Short => skipped += 1,
            Held::Other => {}
        }
    }
    let (mut lines, mut joining) = (Lines::new(check_fcs), Joining::default());
    for held in packets::each(trace, &found.starts) {
        if let Held::Packet(packet) = held {
            if let Some(pdu) = joining.join(&packet) {
                lines.pdu(&pdu, channels.is_tried(&pdu));
            }
        }
    }
    Ok(Seen {
        records: found.starts.len(),
        tail: found.tail,
        skipped,
        handles: channels.handles(),
        dlcis: lines.dlcis(),
    })
}
