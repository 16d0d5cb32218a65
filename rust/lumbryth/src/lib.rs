//! The MDR frames that a headset and a phone exchanged, from a recorded Bluetooth trace (a
//! btsnoop or a pcap file): every frame whole, in order, with direction and time.
//!
//! The work is done by a library whose calls are proved to do what their definitions say, and
//! this crate makes them safe to call from Rust: it lends the memory that they need, and turns
//! their numbers into enums and structs. It has no dependencies. The library has to be built
//! first, by `tools/library`; the build says so if it is missing.
//!
//! ```
//! use lumbryth::{import, plan, Direction, TailRule};
//!
//! // A trace with one record, which carries one frame from the headset.
//! let mut trace = b"btsnoop\0\0\0\0\x01\0\0\x03\xEA".to_vec();
//! trace.extend([0, 0, 0, 22, 0, 0, 0, 22, 0, 0, 0, 1, 0, 0, 0, 0]);
//! trace.extend([0x00, 0xDC, 0xDD, 0xB3, 0x0F, 0x2F, 0x80, 0x00]);
//! trace.extend([0x02, 0x40, 0x20, 0x11, 0x00, 0x0D, 0x00, 0x41, 0x00, 0x49, 0xEF, 0x13]);
//! trace.extend([0x3E, 0x01, 0x00, 0x00, 0x00, 0x00, 0x00, 0x01, 0x3C, 0x00]);
//!
//! let imported = import(&trace, None, TailRule::Strict)?;
//! assert_eq!((imported.dlci, imported.frames, imported.unfinished), (18, 1, 0));
//! assert_eq!(imported.spans[0].direction, Direction::Rx);
//!
//! let fixtures = plan(&imported.spans, &[] as &[&str])?;
//! assert_eq!(fixtures[0].name, "mdr-packet-0-000001-rx.type-ACK-01.seq-00.cmd-NO_COMMAND-00.bin");
//! assert_eq!(fixtures[0].wire, imported.spans[0].wire);
//! # Ok::<(), lumbryth::Refusal>(())
//! ```
//!
//! [`import`] and the other functions that take a trace read btsnoop. Those whose names end with `_with` take [`Options`], which say
//! what the file is; nothing is guessed.
//!
//! ```
//! use lumbryth::{import_with, Container, Options};
//!
//! let file = std::fs::read("../../examples/headset.pcap")?;
//! let imported = import_with(&file, &Options::default().with_container(Container::Pcap))?;
//! assert_eq!((imported.dlci, imported.frames), (18, 31));
//! # Ok::<(), Box<dyn std::error::Error>>(())
//! ```
//!
//! They also say whether the FCS of RFCOMM's UIH frames is checked, which it is not by default. If it is, those with a wrong one, as a
//! noisy adapter gives them, are passed over and counted. The FCS is of address and control alone, and tells nothing of the information.
//!
//! ```
//! use lumbryth::{import_with, Options};
//!
//! let file = std::fs::read("../../examples/noisy.btsnoop")?;
//! let imported = import_with(&file, &Options::default().with_check_fcs(true))?;
//! assert_eq!((imported.dlci, imported.frames, imported.wrong_fcs), (18, 10, 3));
//! # Ok::<(), Box<dyn std::error::Error>>(())
//! ```
//!
//! Where two headsets share a desk, one file has both, and an import gives them in one list. [`one_link`] gives the spans of one of
//! them, by the adapter's index, the handle and the DLCI.
//!
//! ```
//! use lumbryth::{one_link, Link};
//!
//! let file = std::fs::read("../../examples/two-adapters.btsnoop")?;
//! let list = one_link(&file, Link { adapter: 1, handle: 6 }, 18)?;
//! assert_eq!((list.spans.len(), list.unfinished), (6, 1));
//! # Ok::<(), Box<dyn std::error::Error>>(())
//! ```

#![deny(missing_docs)]
#![deny(unsafe_code)]

mod container;
#[allow(unsafe_code)]
mod ffi;
mod items;
mod kind;
mod refusal;

use std::fmt;

pub use container::Container;
pub use kind::FrameType;
pub use refusal::Refusal;

/// The longest trace that is taken, in bytes.
pub const FILE_MAX: usize = 1_048_576;
/// The longest payload that is packed, in bytes.
pub const PAYLOAD_MAX: usize = 32_760;
/// The longest list of spans or of names, in bytes: 14 and its wire for a span, 6 and its bytes for a name.
pub const LIST_MAX: usize = 16_777_216;

/// The longest packet that a record of btsnoop can hold: 65,535 bytes of data, 4 before them, and one for the packet's type.
/// [`Container::packet_max`] tells it for each container.
pub const PACKET_MAX: u32 = 65_540;

/// The most bytes of a stretch and direction that wait for an end marker, 3C: if more are held after a UIH frame, they are cleared.
pub const HELD_MAX: usize = 65_536;

/// A channel number that stands for any.
const ANY_CHANNEL: u32 = 256;
/// The most values that a call stores, but for that of the gaps.
const VALUES: usize = 10;
/// The values of the gaps: two for each sign.
const GAPS: usize = 14;

/// Which way a frame went. There is no third.
#[derive(Debug, Clone, Copy, PartialEq, Eq, PartialOrd, Ord, Hash)]
pub enum Direction {
    /// From the headset.
    Rx,
    /// To the headset.
    Tx,
}

impl Direction {
    fn number(self) -> u8 {
        match self {
            Direction::Rx => 1,
            Direction::Tx => 2,
        }
    }
}

/// What an import does with a file that ends inside a record.
#[derive(Debug, Clone, Copy, PartialEq, Eq, Hash, Default)]
#[non_exhaustive]
pub enum TailRule {
    /// It refuses, with [`Refusal::Truncated`].
    #[default]
    Strict,
    /// It reads what comes before that record; [`Imported::tail`] says where it starts.
    Tolerant,
}

/// What a caller chooses: by default any channel, the strict rule, btsnoop, and the FCS not checked.
///
/// ```
/// use lumbryth::{Container, Options, TailRule};
///
/// let options = Options::default().with_channel(9).with_tail(TailRule::Tolerant);
/// assert_eq!((options.channel, options.tail), (Some(9), TailRule::Tolerant));
/// assert_eq!((options.container, options.check_fcs), (Container::Btsnoop, false));
/// assert_eq!(options.with_container(Container::Pcap).container, Container::Pcap);
/// assert!(options.with_check_fcs(true).check_fcs);
/// ```
#[derive(Debug, Clone, Copy, PartialEq, Eq, Hash, Default)]
#[non_exhaustive]
pub struct Options {
    /// The RFCOMM channel; any if it is none.
    pub channel: Option<u8>,
    /// What becomes of a file that ends inside a record.
    pub tail: TailRule,
    /// What the file is.
    pub container: Container,
    /// Whether the FCS of UIH frames is checked. An import then passes over those with a wrong one as if they were none, and counts
    /// those of its DLCI in [`Imported::wrong_fcs`]. It may give another DLCI than without, or [`Refusal::NoStream`].
    pub check_fcs: bool,
}

impl Options {
    /// The same with this channel.
    pub fn with_channel(self, channel: u8) -> Options {
        Options { channel: Some(channel), ..self }
    }

    /// The same with this rule.
    pub fn with_tail(self, tail: TailRule) -> Options {
        Options { tail, ..self }
    }

    /// The same with this container.
    pub fn with_container(self, container: Container) -> Options {
        Options { container, ..self }
    }

    /// The same with the FCS of UIH frames checked, or not.
    pub fn with_check_fcs(self, check_fcs: bool) -> Options {
        Options { check_fcs, ..self }
    }

    /// The list that the library takes.
    fn numbers(&self) -> [u64; 4] {
        let (channel, tolerant) = numbers(self.channel, self.tail);
        [u64::from(channel), u64::from(tolerant), self.container.number(), u64::from(self.check_fcs)]
    }
}

/// What a frame holds.
#[derive(Debug, Clone, PartialEq, Eq, Hash)]
#[non_exhaustive]
pub struct Frame {
    /// The type.
    pub kind: FrameType,
    /// The sequence number.
    pub seq: u8,
    /// The payload; its first byte is the command.
    pub payload: Vec<u8>,
}

impl Frame {
    /// The command, if there is one.
    pub fn command(&self) -> Option<u8> {
        self.payload.first().copied()
    }

    /// The command's name, as in a fixture's name: `NO_COMMAND` if there is none, `UNKNOWN` if the table of the type has no name for
    /// it.
    ///
    /// ```
    /// let frame = lumbryth::unpack(&[0x3E, 0x0C, 0x01, 0x00, 0x00, 0x00, 0x01, 0x22, 0x30, 0x3C])?;
    /// assert_eq!((frame.kind.name(), frame.command_name()), ("DATA_MDR", "POWER_GET_STATUS".to_string()));
    /// # Ok::<(), lumbryth::Refusal>(())
    /// ```
    pub fn command_name(&self) -> String {
        let first = &self.payload[..self.payload.len().min(1)];
        let name = pack(self.kind, 0, first).and_then(|wire| fixture_name(0, 0, Direction::Rx, &wire));
        let name = name.unwrap_or_default();
        let part = name.split_once(".cmd-").and_then(|(_, part)| part.rsplit_once('-'));
        part.map_or(String::new(), |(command, _)| command.to_string())
    }
}

/// A stretch of wire bytes from 3E through 3C, as it was found in a trace. It may not unpack.
#[derive(Debug, Clone, PartialEq, Eq, Hash)]
#[non_exhaustive]
pub struct Span {
    /// Which way it went.
    pub direction: Direction,
    /// When it was complete, in milliseconds since 1970-01-01 00:00 UTC.
    pub ms: u64,
    /// Its bytes.
    pub wire: Vec<u8>,
}

impl Span {
    /// A span of this direction, time and wire.
    pub fn new(direction: Direction, ms: u64, wire: Vec<u8>) -> Span {
        Span { direction, ms, wire }
    }
}

/// What an import found.
#[derive(Debug, Clone, PartialEq, Eq, Hash)]
#[non_exhaustive]
pub struct Imported {
    /// The DLCI of the spans. Its RFCOMM channel is half of it.
    pub dlci: u8,
    /// How many spans there are, also of those that do not unpack.
    pub frames: usize,
    /// How many stretches and directions of the DLCI held bytes without an end marker, 3C, when
    /// the reading stopped. A PDU of which only a part was recorded is not counted.
    pub unfinished: usize,
    /// Where the reading stopped: the file's length, or where the record starts that passes its
    /// end. If it is the file's length, more may have been recorded all the same: [`ending`] says
    /// what can be seen.
    pub tail: usize,
    /// The spans, in the order in which they were complete.
    pub spans: Vec<Span>,
    /// How many UIH frames of the DLCI have a wrong FCS, with information or without, and were passed over; 0 if the FCS is not
    /// checked ([`Options::check_fcs`]).
    pub wrong_fcs: usize,
    /// Where every information byte of the DLCI went.
    pub bytes: Account,
}

/// How much output an import needs, and how much a trace holds, as [`sizes`] tells them, of one reading of the file.
#[derive(Debug, Clone, Copy, PartialEq, Eq, Hash)]
#[non_exhaustive]
pub struct Sizes {
    /// How many bytes the library's import needs for its output: the length of its list of spans, [`Account::in_spans`] and 14 for
    /// each span, and so 23 or more.
    pub needed: usize,
    /// How many whole records there are, whatever they hold.
    pub records: usize,
    /// How many PDUs were completed, of all connections, directions and channels, empty ones too. Those that were given up, or are
    /// open at the end, are not counted.
    pub pdus: usize,
    /// How many UIH frames with information are taken, of all DLCIs but 0: those on channels that are RFCOMM or may be, with the FCS
    /// checked those with a right one.
    pub pieces: usize,
}

/// Where every information byte of a DLCI went: those of the UIH frames that an import takes in, with the FCS checked of those with
/// a right one. Each byte counts in one of the four, so that their sum is [`Account::taken_in`].
///
/// Bytes of a UIH frame that is passed over for its FCS, of a PDU that is never complete, and of a record that passes the end of the
/// file count in none.
///
/// ```
/// use lumbryth::{import, TailRule};
///
/// // The recorder was switched on, and off again, while a reply was under way.
/// let file = std::fs::read("../../examples/late.btsnoop")?;
/// let imported = import(&file, None, TailRule::Strict)?;
/// let bytes = imported.bytes;
/// assert_eq!((bytes.in_spans, bytes.dropped, bytes.cleared, bytes.left), (81, 18, 0, 6));
/// assert_eq!(bytes.taken_in(), 105);
/// assert_eq!(bytes.in_spans, imported.spans.iter().map(|span| span.wire.len()).sum());
/// # Ok::<(), Box<dyn std::error::Error>>(())
/// ```
#[derive(Debug, Clone, Copy, PartialEq, Eq, Hash, Default)]
#[non_exhaustive]
pub struct Account {
    /// In the spans listed, markers included, whether they unpack or not.
    pub in_spans: usize,
    /// Dropped before a start marker, 3E, or for want of one: also an end marker, 3C, that nothing begins, and what follows bytes
    /// that were cleared, up to the next start marker.
    pub dropped: usize,
    /// Cleared because over [`HELD_MAX`] bytes were held without an end marker after a UIH frame; then all of them are, from their
    /// start marker on.
    pub cleared: usize,
    /// Left without an end marker when the reading stopped, in all stretches and directions together: 0 just if
    /// [`Imported::unfinished`] is 0.
    pub left: usize,
}

impl Account {
    /// How many information bytes were taken in on the DLCI. That the sum of the four is that, is proved of every import.
    pub fn taken_in(&self) -> usize {
        self.in_spans + self.dropped + self.cleared + self.left
    }
}

/// A stretch and direction that holds bytes without an end marker at the end of a trace.
#[derive(Debug, Clone, Copy, PartialEq, Eq, Hash)]
#[non_exhaustive]
pub struct Stretch {
    /// The adapter's index, by which a trace of datalink 2001 tells adapters apart; 0 for 1001, 1002 and pcap.
    pub adapter: u16,
    /// The handle, 0 to 4095. Two adapters may use the same one for two connections, so that the connection is `(adapter, handle)`.
    pub handle: u16,
    /// Which way the bytes went.
    pub direction: Direction,
    /// The CID.
    pub cid: u16,
    /// The DLCI.
    pub dlci: u8,
    /// How many sessions of the connection had been asked for.
    pub sessions: u32,
    /// How often the connection's link of the DLCI had been opened.
    pub links: u32,
    /// How many bytes are held.
    pub held: usize,
}

impl Stretch {
    /// Its connection.
    pub fn link(&self) -> Link {
        Link { adapter: self.adapter, handle: self.handle }
    }

    /// A stretch as the library tells it: its way is 2 * link + direction, and link is 4096 * adapter + handle.
    fn of(raw: &ffi::Stretch) -> Stretch {
        let link = raw.way / 2;
        Stretch {
            adapter: (link / 4096) as u16,
            handle: (link % 4096) as u16,
            direction: if raw.way % 2 == 1 { Direction::Rx } else { Direction::Tx },
            cid: raw.cid as u16,
            dlci: raw.dlci as u8,
            sessions: raw.sessions,
            links: raw.links,
            held: raw.held as usize,
        }
    }
}

/// A connection: an adapter's index and a handle, since two adapters may use the same handle. It is written `INDEX:HANDLE`.
///
/// ```
/// use lumbryth::Link;
///
/// assert_eq!(Link { adapter: 1, handle: 6 }.to_string(), "1:6");
/// ```
#[derive(Debug, Clone, Copy, PartialEq, Eq, PartialOrd, Ord, Hash)]
pub struct Link {
    /// The adapter's index, by which a trace of datalink 2001 tells adapters apart; 0 for 1001, 1002 and pcap.
    pub adapter: u16,
    /// The handle, 0 to 4095.
    pub handle: u16,
}

impl fmt::Display for Link {
    fn fmt(&self, f: &mut fmt::Formatter<'_>) -> fmt::Result {
        write!(f, "{}:{}", self.adapter, self.handle)
    }
}

/// What [`one_link`] found.
#[derive(Debug, Clone, PartialEq, Eq, Hash)]
#[non_exhaustive]
pub struct LinkList {
    /// The spans of the link and DLCI, in the order in which they were complete, also those that do not unpack. There may be none.
    pub spans: Vec<Span>,
    /// How many stretches and directions of the link and DLCI held bytes without an end marker, 3C, at the end.
    pub unfinished: usize,
}

/// A file to write: a frame with its name.
#[derive(Debug, Clone, PartialEq, Eq, Hash)]
#[non_exhaustive]
pub struct Fixture {
    /// The file's name: time, counter, direction, type, sequence number and command.
    pub name: String,
    /// The file's bytes: the frame as it was on the wire.
    pub wire: Vec<u8>,
}

/// The records of a trace.
#[derive(Debug, Clone, PartialEq, Eq, Hash)]
#[non_exhaustive]
pub struct Records {
    /// Where each whole record starts: [`Container::record_header`] bytes, then its packet.
    pub starts: Vec<usize>,
    /// The file's length, or where the record starts that passes its end.
    pub tail: usize,
}

/// A sign that something is not in a trace.
#[derive(Debug, Clone, PartialEq, Eq, Default)]
#[non_exhaustive]
pub struct Gap {
    /// How many there are.
    pub count: u64,
    /// The byte at which the record starts that shows it first.
    pub first: Option<usize>,
}

/// The signs in a trace that something is not in it, as [`gaps`] finds them. If none is seen, something may be missing all the
/// same.
#[derive(Debug, Clone, PartialEq, Eq, Default)]
#[non_exhaustive]
pub struct Gaps {
    /// Records stored short: their original length is over that of what is stored.
    pub short: Gap,
    /// Packets that the recorder says it dropped: by how much the drops field rises from record to record, from 0. A pcap file has no
    /// such field, and so none is ever told.
    pub dropped: Gap,
    /// ACL packets that were skipped because a field or data is not there.
    pub skipped: Gap,
    /// Records of zeros.
    pub zeros: Gap,
    /// Continuations with nothing open.
    pub stray: Gap,
    /// Partial PDUs given up because another starts; the record is that of the start.
    pub given_up: Gap,
    /// PDUs open at the end; the record is that of the packet that began the first of them.
    pub open: Gap,
}

/// A file that ends inside a record.
#[derive(Debug, Clone, Copy, PartialEq, Eq, Hash)]
#[non_exhaustive]
pub struct Cut {
    /// Where the record starts.
    pub offset: usize,
    /// How many of its bytes are there.
    pub present: usize,
    /// How many are missing, by the length that the record gives; none if that is missing too.
    pub missing: Option<u64>,
}

/// How a trace ends, as far as that can be seen.
#[derive(Debug, Clone, Copy, PartialEq, Eq, Hash)]
#[non_exhaustive]
pub enum Ending {
    /// At the end of a record, or of the header if there is no record. Whether more was recorded cannot be seen.
    AtRecord,
    /// Inside a record: the file was cut.
    Inside(Cut),
    /// At a record that gives its packet more bytes than any packet has, over [`Container::packet_max`]: the file is damaged there.
    Length {
        /// Where the record starts.
        offset: usize,
        /// The length that it gives.
        length: u32,
    },
    /// With zeros only, from the start of a record on: the file is damaged there.
    Zeros {
        /// Where they start.
        offset: usize,
        /// How many they are.
        count: usize,
    },
}

/// Runs a call with an output of `first` bytes and, if that is too short, once more with what it
/// says it needs. Gives the output and the values.
fn with_output(
    first: usize,
    mut call: impl FnMut(&mut [u8], &mut [u64]) -> u32,
) -> Result<(Vec<u8>, [u64; VALUES]), Refusal> {
    let mut values = [0; VALUES];
    let mut out = vec![0; first];
    let mut number = call(&mut out, &mut values);
    if number == 7 {
        out = vec![0; values[0] as usize];
        number = call(&mut out, &mut values);
    }
    if number == 0 {
        Ok((out, values))
    } else {
        Err(Refusal::of(number, &values))
    }
}

/// Runs an import with work and exactly as much output as its list takes. How much that is, the file's length does not tell: spans of
/// two bytes take eight times their bytes. So the file's sizes are asked for first, with the same work. That an import by the same
/// options takes what they say, and refuses where they do, is proved. Gives the list, which is all of the output, and the values.
fn with_list(
    file: &[u8],
    options: &[u64],
    import: impl FnOnce(&mut [u8], &mut [u8], &mut [u64]) -> u32,
) -> Result<(Vec<u8>, [u64; VALUES]), Refusal> {
    let mut work = vec![0; 8 * lent(file)];
    let needed = sizes_in(file, &mut work, options)?.needed;
    let (mut list, mut values) = (vec![0; needed], [0; VALUES]);
    match import(&mut work, &mut list, &mut values) {
        0 => Ok((list, values)),
        number => Err(Refusal::of(number, &values)),
    }
}

/// Reads one frame, from its 3E through its 3C.
///
/// ```
/// let frame = lumbryth::unpack(&[0x3E, 0x0C, 0x01, 0x00, 0x00, 0x00, 0x01, 0x22, 0x30, 0x3C])?;
/// assert_eq!((frame.kind, frame.seq, frame.payload), (lumbryth::FrameType::DataMdr, 1, vec![0x22]));
///
/// let refusal = lumbryth::unpack(&[0x3E, 0x3D, 0x00, 0, 0, 0, 0, 0, 0x3C]).unwrap_err();
/// assert_eq!(refusal, lumbryth::Refusal::BadEscapee(0));
/// # Ok::<(), lumbryth::Refusal>(())
/// ```
pub fn unpack(wire: &[u8]) -> Result<Frame, Refusal> {
    let (mut payload, values) = with_output(wire.len(), |out, values| ffi::unpack(wire, out, values))?;
    payload.truncate(values[2] as usize);
    Ok(Frame { kind: FrameType::from(values[0] as u8), seq: values[1] as u8, payload })
}

/// Writes a frame: 3E, then type, sequence number, length, payload and checksum, escaped, then
/// 3C. A payload of over [`PAYLOAD_MAX`] bytes is refused. The type may be given as its byte.
///
/// ```
/// let wire = lumbryth::pack(lumbryth::FrameType::DataMdr, 1, &[0x3E])?;
/// assert_eq!(wire, [0x3E, 0x0C, 0x01, 0x00, 0x00, 0x00, 0x01, 0x3D, 0x2E, 0x4C, 0x3C]);
/// assert_eq!(lumbryth::unpack(&wire)?.payload, [0x3E]);
///
/// assert_eq!(lumbryth::pack(0x0C, 1, &[0; 32_761]), Err(lumbryth::Refusal::PayloadLong));
/// # Ok::<(), lumbryth::Refusal>(())
/// ```
pub fn pack(kind: impl Into<FrameType>, seq: u8, payload: &[u8]) -> Result<Vec<u8>, Refusal> {
    let kind = kind.into().byte();
    let room = 16 + 2 * payload.len().min(PAYLOAD_MAX);
    let (mut wire, values) = with_output(room, |out, values| ffi::pack(kind, seq, payload, out, values))?;
    wire.truncate(values[0] as usize);
    Ok(wire)
}

/// The file name of a frame, of the time, number and direction given. Refuses as [`unpack`] does.
///
/// ```
/// use lumbryth::{fixture_name, Direction};
///
/// let wire = lumbryth::pack(0x0C, 0, &[0x22, 0x00])?;
/// let name = fixture_name(1_700_000_000_123, 7, Direction::Tx, &wire)?;
/// assert_eq!(name, "mdr-packet-1700000000123-000007-tx.type-DATA_MDR-0c.seq-00.cmd-POWER_GET_STATUS-22.bin");
/// # Ok::<(), lumbryth::Refusal>(())
/// ```
pub fn fixture_name(ms: u64, counter: u32, direction: Direction, wire: &[u8]) -> Result<String, Refusal> {
    let way = direction.number();
    let (mut name, values) = with_output(118, |out, values| ffi::fixture_name(ms, counter, way, wire, out, values))?;
    name.truncate(values[0] as usize);
    Ok(String::from_utf8_lossy(&name).into_owned())
}

/// Whether one of the two tables of commands has the name.
///
/// ```
/// assert!(lumbryth::is_command_name("POWER_GET_STATUS"));
/// assert!(!lumbryth::is_command_name("power_get_status"));
/// ```
pub fn is_command_name(name: impl AsRef<[u8]>) -> bool {
    ffi::is_command_name(name.as_ref()) != 0
}

/// The fixtures of spans: one for each that unpacks and whose command is not excluded, in the
/// order of the spans. Spans are counted from 1, and those left out are counted too, so that a
/// gap in the names tells of them.
///
/// ```
/// use lumbryth::{pack, plan, Direction, Span};
///
/// let span = |payload: &[u8]| pack(0x0C, 0, payload).map(|wire| Span::new(Direction::Tx, 5, wire));
/// let spans = [span(&[0x22])?, span(&[0x66])?];
/// let fixtures = plan(&spans, &["POWER_GET_STATUS"])?;
/// assert_eq!(fixtures.len(), 1);
/// assert_eq!(fixtures[0].name, "mdr-packet-5-000002-tx.type-DATA_MDR-0c.seq-00.cmd-NCASM_GET_PARAM-66.bin");
/// # Ok::<(), lumbryth::Refusal>(())
/// ```
pub fn plan<N: AsRef<[u8]>>(spans: &[Span], excluded: &[N]) -> Result<Vec<Fixture>, Refusal> {
    let (count, spans, excluded) = (spans.len(), items::of_spans(spans), items::of_names(excluded));
    // A span of 14 and n bytes gives at most a name of 6 and 118 and a wire of 6 and n.
    let room = spans.len().min(LIST_MAX) + count.min(LIST_MAX / 14) * 116;
    let (mut list, values) = with_output(room, |out, values| ffi::plan(&spans, &excluded, out, values))?;
    list.truncate(values[1] as usize);
    Ok(items::fixtures(&list))
}

/// Names in the order in which their frames crossed the link: those without a counter first,
/// then by counter, then by bytes.
///
/// ```
/// let names = ["mdr-packet-9-000010-rx.bin", "mdr-packet-9-000009-tx.bin", "notes.txt"];
/// let ordered = lumbryth::capture_order(&names)?;
/// assert_eq!(ordered, [&b"notes.txt"[..], b"mdr-packet-9-000009-tx.bin", b"mdr-packet-9-000010-rx.bin"]);
/// # Ok::<(), lumbryth::Refusal>(())
/// ```
pub fn capture_order<N: AsRef<[u8]>>(names: &[N]) -> Result<Vec<Vec<u8>>, Refusal> {
    let names = items::of_names(names);
    let (list, _) = with_output(names.len(), |out, values| ffi::capture_order(&names, out, values))?;
    Ok(items::names(&list))
}

/// Imports a btsnoop file: the spans of one DLCI. It is the first DLCI seen that has a span which
/// unpacks; with a channel, one of that channel.
///
/// A trace of datalink 2001 may be of several adapters. Connections are told apart by the
/// adapter's index and the handle. The spans of all of them come in one list, which does not
/// tell whose they are; [`one_link`] gives those of one connection.
///
/// ```
/// use lumbryth::{import, Refusal, TailRule};
///
/// let header = b"btsnoop\0\0\0\0\x01\0\0\x03\xEA";
/// assert_eq!(import(header, None, TailRule::Strict), Err(Refusal::NoStream));
///
/// let cut = [&header[..], &[0]].concat();
/// assert_eq!(import(&cut, None, TailRule::Strict), Err(Refusal::Truncated { offset: 16 }));
/// assert_eq!(import(&cut, None, TailRule::Tolerant), Err(Refusal::NoStream));
/// ```
pub fn import(file: &[u8], channel: Option<u8>, tail: TailRule) -> Result<Imported, Refusal> {
    import_with(file, &Options { channel, tail, ..Options::default() })
}

/// Imports as [`import`] does, by options: a btsnoop or a pcap file, with the FCS of UIH frames checked or not.
///
/// ```
/// use lumbryth::{import_with, Container, Options, Refusal, TailRule};
///
/// let cut = b"btsnoop\0\0\0\0\x01\0\0\x03\xEA\0";
/// assert_eq!(import_with(cut, &Options::default()), Err(Refusal::Truncated { offset: 16 }));
///
/// let tolerant = Options::default().with_tail(TailRule::Tolerant);
/// assert_eq!(import_with(cut, &tolerant), Err(Refusal::NoStream));
///
/// let pcap = Options::default().with_container(Container::Pcap);
/// assert_eq!(import_with(cut, &pcap), Err(Refusal::NotPcap));
///
/// // Some UIH frames of the example have a wrong FCS.
/// let file = std::fs::read("../../examples/noisy.btsnoop")?;
/// let taken = import_with(&file, &Options::default())?;
/// assert_eq!((taken.frames, taken.wrong_fcs), (11, 0));
/// let checked = import_with(&file, &Options::default().with_check_fcs(true))?;
/// assert_eq!((checked.frames, checked.wrong_fcs), (10, 3));
/// # Ok::<(), Box<dyn std::error::Error>>(())
/// ```
pub fn import_with(file: &[u8], options: &Options) -> Result<Imported, Refusal> {
    let options = options.numbers();
    let import =
        |work: &mut [u8], list: &mut [u8], values: &mut [u64]| ffi::import_with(file, work, list, &options, values);
    let (list, values) = with_list(file, &options, import)?;
    Ok(imported(&list, &values))
}

/// The sizes of a btsnoop file, before it is imported: how much output the library's import needs, and how many records, PDUs and
/// pieces the file holds. Refuses as [`import`] does. What is told is proved, also that [`import`], which lends that much, needs
/// neither more nor less.
///
/// ```
/// use lumbryth::{import, sizes, Refusal, TailRule};
///
/// let file = std::fs::read("../../examples/headset.btsnoop")?;
/// let told = sizes(&file, None, TailRule::Strict)?;
/// assert_eq!((told.needed, told.records, told.pdus, told.pieces), (927, 54, 48, 32));
///
/// // A span takes 14 bytes in the list, and its wire.
/// let spans = import(&file, None, TailRule::Strict)?.spans;
/// assert_eq!(told.needed, spans.iter().map(|span| 14 + span.wire.len()).sum());
///
/// assert_eq!(sizes(&file, Some(8), TailRule::Strict), Err(Refusal::NoStream));
/// # Ok::<(), Box<dyn std::error::Error>>(())
/// ```
pub fn sizes(file: &[u8], channel: Option<u8>, tail: TailRule) -> Result<Sizes, Refusal> {
    sizes_with(file, &Options { channel, tail, ..Options::default() })
}

/// The sizes of a btsnoop or a pcap file, as [`sizes`] tells them, by options. Records and PDUs do not depend on the channel and on
/// whether the FCS is checked, pieces not on the channel. Refuses as [`import_with`] does.
///
/// ```
/// use lumbryth::{sizes_with, Container, Options, Refusal, TailRule};
///
/// // The example is cut inside a record.
/// let file = std::fs::read("../../examples/cut.pcap")?;
/// let pcap = Options::default().with_container(Container::Pcap);
/// assert_eq!(sizes_with(&file, &pcap), Err(Refusal::Truncated { offset: 2253 }));
/// let left = sizes_with(&file, &pcap.with_tail(TailRule::Tolerant))?;
/// assert_eq!((left.needed, left.records, left.pdus, left.pieces), (876, 52, 46, 30));
///
/// // Some UIH frames of the example have a wrong FCS.
/// let file = std::fs::read("../../examples/noisy.btsnoop")?;
/// let taken = sizes_with(&file, &Options::default())?;
/// let checked = sizes_with(&file, &Options::default().with_check_fcs(true))?;
/// assert_eq!((taken.pieces, checked.pieces), (14, 12));
/// # Ok::<(), Box<dyn std::error::Error>>(())
/// ```
pub fn sizes_with(file: &[u8], options: &Options) -> Result<Sizes, Refusal> {
    sizes_in(file, &mut vec![0; 8 * lent(file)], &options.numbers())
}

/// The sizes of a file, with work lent.
fn sizes_in(file: &[u8], work: &mut [u8], options: &[u64]) -> Result<Sizes, Refusal> {
    let mut values = [0; VALUES];
    match ffi::sizes_with(file, work, options, &mut values) {
        0 => Ok(Sizes {
            needed: values[0] as usize,
            records: values[1] as usize,
            pdus: values[2] as usize,
            pieces: values[3] as usize,
        }),
        number => Err(Refusal::of(number, &values)),
    }
}

/// The spans of one connection and one DLCI of a btsnoop file, as of one of two headsets at one desk. The DLCI is 1 to 63, and not a
/// channel: 18 and 19 are two lists.
///
/// The file is read by the strict rule, and the FCS is not checked. Nothing has to unpack, and the list may be empty: a connection
/// that has no packet in the file has an empty list, and is not refused. Refuses as [`import`] does by the strict rule, but for
/// [`Refusal::NoStream`], and with [`Refusal::NoLink`].
///
/// What is given depends on that connection's own ACL packets alone, which is proved: two files that are not refused and hold the
/// same ones, with the same times, directions and order, give the same, whatever else differs.
///
/// ```
/// use lumbryth::{import, one_link, Link, Refusal, TailRule};
///
/// // Two adapters with a headset each, which both have handle 6.
/// let file = std::fs::read("../../examples/two-adapters.btsnoop")?;
/// let one = one_link(&file, Link { adapter: 0, handle: 6 }, 18)?;
/// assert_eq!((one.spans.len(), one.unfinished), (4, 0));
/// let other = one_link(&file, Link { adapter: 1, handle: 6 }, 18)?;
/// assert_eq!((other.spans.len(), other.unfinished), (6, 1));
///
/// // An import has both in one list.
/// let imported = import(&file, None, TailRule::Strict)?;
/// assert_eq!((imported.dlci, imported.frames, imported.unfinished), (18, 10, 1));
///
/// assert_eq!(one_link(&file, Link { adapter: 2, handle: 6 }, 18)?.spans, []);
/// assert_eq!(one_link(&file, Link { adapter: 0, handle: 4096 }, 18), Err(Refusal::NoLink));
/// # Ok::<(), Box<dyn std::error::Error>>(())
/// ```
pub fn one_link(file: &[u8], link: Link, dlci: u8) -> Result<LinkList, Refusal> {
    one_link_with(file, link, dlci, &Options::default())
}

/// The spans of one connection and one DLCI of a btsnoop or a pcap file, as [`one_link`] gives them. Of the options, only the
/// container is looked at.
///
/// ```
/// use lumbryth::{one_link_with, Container, Link, Options};
///
/// let file = std::fs::read("../../examples/headset.pcap")?;
/// let pcap = Options::default().with_container(Container::Pcap);
/// let list = one_link_with(&file, Link { adapter: 0, handle: 6 }, 18, &pcap)?;
/// assert_eq!((list.spans.len(), list.unfinished), (31, 0));
///
/// // In pcap all packets are of index 0.
/// assert_eq!(one_link_with(&file, Link { adapter: 1, handle: 6 }, 18, &pcap)?.spans, []);
/// # Ok::<(), Box<dyn std::error::Error>>(())
/// ```
pub fn one_link_with(file: &[u8], link: Link, dlci: u8, options: &Options) -> Result<LinkList, Refusal> {
    let (link, options) = ((link.adapter, link.handle), options.numbers());
    link_list(file, |work, list, values| ffi::one_link_with(file, work, list, link, dlci, &options, values))
}

/// Runs a call that gives one link's list with work and exactly as much output as the list takes. An empty output asks for that, and
/// is enough for an empty list.
fn link_list(file: &[u8], mut call: impl FnMut(&mut [u8], &mut [u8], &mut [u64]) -> u32) -> Result<LinkList, Refusal> {
    let mut work = vec![0; 8 * lent(file)];
    let (list, values) = with_output(0, |list, values| call(&mut work, list, values))?;
    Ok(LinkList { spans: items::spans(&list), unfinished: values[1] as usize })
}

/// Imports as [`import`] does, and tells the stretches of the DLCI that hold bytes at the end, as many
/// as [`Imported::unfinished`] says, in the order of their first bytes. What is proved of the import is
/// proved of this one too, and that exactly these stretches are told.
///
/// ```
/// use lumbryth::{import_stretches, Refusal, TailRule};
///
/// let header = b"btsnoop\0\0\0\0\x01\0\0\x03\xEA";
/// assert_eq!(import_stretches(header, None, TailRule::Strict), Err(Refusal::NoStream));
///
/// // The example of two adapters ends with a part of a reply on adapter 1.
/// let file = std::fs::read("../../examples/two-adapters.btsnoop")?;
/// let (imported, open) = import_stretches(&file, None, TailRule::Strict)?;
/// assert_eq!((imported.frames, imported.unfinished), (10, 1));
/// assert_eq!((open[0].adapter, open[0].handle, open[0].held), (1, 6, 8));
/// # Ok::<(), Box<dyn std::error::Error>>(())
/// ```
pub fn import_stretches(file: &[u8], channel: Option<u8>, tail: TailRule) -> Result<(Imported, Vec<Stretch>), Refusal> {
    let options = Options { channel, tail, ..Options::default() }.numbers();
    let (channel, tolerant) = numbers(channel, tail);
    let mut stretches = vec![ffi::Stretch::default(); lent(file) / 24];
    let (list, values) = with_list(file, &options, |work, list, values| {
        ffi::import_stretches(file, work, &mut stretches, list, channel, tolerant, values)
    })?;
    Ok(with_stretches(&list, &values, &stretches))
}

/// Imports as [`import_stretches`] does, by options: a btsnoop or a pcap file, with the FCS of UIH frames checked or not.
///
/// ```
/// use lumbryth::{import_stretches_with, Container, Options, TailRule};
///
/// // The example is cut inside a reply.
/// let file = std::fs::read("../../examples/cut.pcap")?;
/// let options = Options::default().with_container(Container::Pcap).with_tail(TailRule::Tolerant);
/// let (imported, open) = import_stretches_with(&file, &options)?;
/// assert_eq!((imported.frames, imported.unfinished), (29, 1));
/// assert_eq!((open[0].adapter, open[0].handle, open[0].held), (0, 6, 8));
/// # Ok::<(), Box<dyn std::error::Error>>(())
/// ```
pub fn import_stretches_with(file: &[u8], options: &Options) -> Result<(Imported, Vec<Stretch>), Refusal> {
    let options = options.numbers();
    let mut stretches = vec![ffi::Stretch::default(); lent(file) / 24];
    let (list, values) = with_list(file, &options, |work, list, values| {
        ffi::import_stretches_with(file, work, &mut stretches, list, &options, values)
    })?;
    Ok(with_stretches(&list, &values, &stretches))
}

/// What an import answered, and the stretches that it told, among the places lent.
fn with_stretches(list: &[u8], values: &[u64; VALUES], places: &[ffi::Stretch]) -> (Imported, Vec<Stretch>) {
    let imported = imported(list, values);
    let open = places.iter().take(imported.unfinished).map(Stretch::of).collect();
    (imported, open)
}

/// Channel and tail rule by number.
fn numbers(channel: Option<u8>, tail: TailRule) -> (u32, u32) {
    (channel.map_or(ANY_CHANNEL, u32::from), u32::from(tail == TailRule::Tolerant))
}

/// For how many bytes of a file memory is lent: a file that is too long is refused before any of
/// it is looked at.
fn lent(file: &[u8]) -> usize {
    if file.len() <= FILE_MAX {
        file.len()
    } else {
        0
    }
}

/// What an import answered.
fn imported(list: &[u8], values: &[u64; VALUES]) -> Imported {
    Imported {
        dlci: values[0] as u8,
        frames: values[1] as usize,
        unfinished: values[2] as usize,
        tail: values[3] as usize,
        spans: items::spans(list),
        wrong_fcs: values[5] as usize,
        bytes: Account {
            in_spans: values[6] as usize,
            dropped: values[7] as usize,
            cleared: values[8] as usize,
            left: values[9] as usize,
        },
    }
}

/// The records of a btsnoop file. A file that ends inside a record is not refused; [`Records::tail`] tells.
///
/// ```
/// use lumbryth::{records, Refusal};
///
/// let mut file = b"btsnoop\0\0\0\0\x01\0\0\x03\xEA".to_vec();
/// file.extend([0; 24]);
/// file.extend([0; 25]);
/// let found = records(&file)?;
/// assert_eq!((found.starts, found.tail), (vec![16, 40], 64));
/// assert_eq!(records(&file[..15]), Err(Refusal::NotBtsnoop));
/// # Ok::<(), Refusal>(())
/// ```
pub fn records(file: &[u8]) -> Result<Records, Refusal> {
    found_records(file, Container::Btsnoop, |starts, values| ffi::records(file, starts, values))
}

/// The records of a btsnoop or a pcap file. Of the options, only the container is looked at.
///
/// ```
/// use lumbryth::{records_with, Container, Options, Refusal};
///
/// // Little-endian, with microseconds; link type 201. Two records, the second cut.
/// let mut file = [&[0xD4, 0xC3, 0xB2, 0xA1], &[0; 16][..], &[201, 0, 0, 0]].concat();
/// file.extend([0, 0, 0, 0, 0, 0, 0, 0, 2, 0, 0, 0, 2, 0, 0, 0, 0, 0]);
/// file.extend([0; 15]);
/// let pcap = Options::default().with_container(Container::Pcap);
/// let found = records_with(&file, &pcap)?;
/// assert_eq!((found.starts, found.tail), (vec![24], 42));
/// file[20] = 187;
/// assert_eq!(records_with(&file, &pcap), Err(Refusal::LinkType(187)));
/// # Ok::<(), Refusal>(())
/// ```
pub fn records_with(file: &[u8], options: &Options) -> Result<Records, Refusal> {
    let numbers = options.numbers();
    found_records(file, options.container, |starts, values| ffi::records_with(file, starts, &numbers, values))
}

/// The records that a call finds, with room for as many as a file of this container can have.
fn found_records(
    file: &[u8],
    container: Container,
    call: impl FnOnce(&mut [u64], &mut [u64]) -> u32,
) -> Result<Records, Refusal> {
    // A file that is too long is refused.
    let room = file.len().min(FILE_MAX).saturating_sub(container.header()) / container.record_header();
    let (mut starts, mut values) = (vec![0; room], [0; VALUES]);
    match call(&mut starts, &mut values) {
        0 => {
            starts.truncate(values[0] as usize);
            Ok(Records { starts: starts.into_iter().map(|start| start as usize).collect(), tail: values[1] as usize })
        }
        number => Err(Refusal::of(number, &values)),
    }
}

/// The signs in a btsnoop file that something is not in it: how many of each there are, and where the first is. They are those of the
/// whole records of the file, whatever DLCI they are of. Refuses as [`import`] does, but for [`Refusal::NoStream`].
///
/// ```
/// use lumbryth::{gaps, Gaps, TailRule};
///
/// // A record of zeros, and one that was stored short and does not hold a packet's header.
/// let mut file = b"btsnoop\0\0\0\0\x01\0\0\x03\xEA".to_vec();
/// file.extend([0; 24]);
/// file.extend([0, 0, 0, 9, 0, 0, 0, 2, 0, 0, 0, 1, 0, 0, 0, 0, 0, 0, 0, 0, 0, 0, 0, 0, 0x02, 0x40]);
/// let found = gaps(&file, TailRule::Strict)?;
/// assert_eq!((found.zeros.count, found.zeros.first), (1, Some(16)));
/// assert_eq!((found.short.count, found.short.first), (1, Some(40)));
/// assert_eq!((found.skipped.count, found.skipped.first), (1, Some(40)));
/// assert_eq!((found.open.count, found.open.first), (0, None));
///
/// // Nothing is seen to be missing in the example.
/// let headset = std::fs::read("../../examples/headset.btsnoop")?;
/// assert_eq!(gaps(&headset, TailRule::Strict)?, Gaps::default());
/// # Ok::<(), Box<dyn std::error::Error>>(())
/// ```
pub fn gaps(file: &[u8], tail: TailRule) -> Result<Gaps, Refusal> {
    let mut work = vec![0; 8 * lent(file)];
    let mut values = [0; GAPS];
    match ffi::gaps(file, &mut work, u32::from(tail == TailRule::Tolerant), &mut values) {
        0 => Ok(found(&values)),
        number => Err(Refusal::of(number, &values)),
    }
}

/// The signs in a btsnoop or a pcap file that something is not in it, as [`gaps`] finds them. Of the options, the rule and the
/// container are looked at. What the recorder dropped is never told of pcap, whose records have no such count.
///
/// ```
/// use lumbryth::{gaps_with, Container, Gaps, Options};
///
/// // A record of zeros, and one that was stored short: the direction, the type of ACL data, and one byte more.
/// let mut file = [&[0xD4, 0xC3, 0xB2, 0xA1], &[0; 16][..], &[201, 0, 0, 0]].concat();
/// file.extend([0; 16]);
/// file.extend([0, 0, 0, 0, 0, 0, 0, 0, 6, 0, 0, 0, 13, 0, 0, 0, 0, 0, 0, 1, 0x02, 0x40]);
/// let pcap = Options::default().with_container(Container::Pcap);
/// let found = gaps_with(&file, &pcap)?;
/// assert_eq!((found.zeros.count, found.zeros.first), (1, Some(24)));
/// assert_eq!((found.short.count, found.short.first), (1, Some(40)));
/// assert_eq!((found.skipped.count, found.skipped.first), (1, Some(40)));
/// assert_eq!((found.dropped.count, found.dropped.first), (0, None));
///
/// let headset = std::fs::read("../../examples/headset.pcap")?;
/// assert_eq!(gaps_with(&headset, &pcap)?, Gaps::default());
/// # Ok::<(), Box<dyn std::error::Error>>(())
/// ```
pub fn gaps_with(file: &[u8], options: &Options) -> Result<Gaps, Refusal> {
    let mut work = vec![0; 8 * lent(file)];
    let mut values = [0; GAPS];
    match ffi::gaps_with(file, &mut work, &options.numbers(), &mut values) {
        0 => Ok(found(&values)),
        number => Err(Refusal::of(number, &values)),
    }
}

/// The signs by their values, two for each.
fn found(values: &[u64; GAPS]) -> Gaps {
    let gap = |i: usize| {
        let (count, first) = (values[2 * i], values[2 * i + 1]);
        Gap { count, first: (count > 0).then_some(first as usize) }
    };
    Gaps {
        short: gap(0),
        dropped: gap(1),
        skipped: gap(2),
        zeros: gap(3),
        stray: gap(4),
        given_up: gap(5),
        open: gap(6),
    }
}

/// How a btsnoop file ends inside a record, if it does, by the tail offset that was answered for it or the offset of
/// [`Refusal::Truncated`]. [`ending`] also says whether the record can be one.
///
/// ```
/// use lumbryth::cut;
///
/// let mut file = b"btsnoop\0\0\0\0\x01\0\0\x03\xEA".to_vec();
/// assert_eq!(cut(&file, 16), None);
/// file.extend([0, 0, 0, 9, 0, 0, 0, 9]);
/// let cut_there = cut(&file, 16).unwrap();
/// assert_eq!((cut_there.offset, cut_there.present, cut_there.missing), (16, 8, Some(25)));
/// file.pop();
/// assert_eq!(cut(&file, 16).unwrap().missing, None);
/// ```
pub fn cut(file: &[u8], tail: usize) -> Option<Cut> {
    cut_with(file, tail, &Options::default())
}

/// How a btsnoop or a pcap file ends inside a record, if it does, as [`cut`] says it. Of the options, only the container is looked
/// at.
///
/// ```
/// use lumbryth::{cut_with, Container, Options};
///
/// let pcap = Options::default().with_container(Container::Pcap);
/// let mut file = [&[0xD4, 0xC3, 0xB2, 0xA1], &[0; 16][..], &[201, 0, 0, 0]].concat();
/// assert_eq!(cut_with(&file, 24, &pcap), None);
/// file.extend([0, 0, 0, 0, 0, 0, 0, 0, 9, 0, 0, 0]);
/// let cut = cut_with(&file, 24, &pcap).unwrap();
/// assert_eq!((cut.offset, cut.present, cut.missing), (24, 12, Some(13)));
/// file.pop();
/// assert_eq!(cut_with(&file, 24, &pcap).unwrap().missing, None);
/// ```
pub fn cut_with(file: &[u8], tail: usize, options: &Options) -> Option<Cut> {
    let record = file.get(tail..).filter(|record| !record.is_empty())?;
    let container = options.container;
    let whole = |length: u32| container.record_header() as u64 + u64::from(length);
    let missing = container.length(file, record).map(|length| whole(length).saturating_sub(record.len() as u64));
    Some(Cut { offset: tail, present: record.len(), missing })
}

/// How a btsnoop file ends. Refuses as [`records`] does.
///
/// ```
/// use lumbryth::{cut, ending, Ending};
///
/// let mut file = b"btsnoop\0\0\0\0\x01\0\0\x03\xEA".to_vec();
/// assert_eq!(ending(&file), Ok(Ending::AtRecord));
/// file.extend([0, 0, 0, 9, 0, 0, 0, 9]);
/// assert_eq!(ending(&file), Ok(Ending::Inside(cut(&file, 16).unwrap())));
/// file[20..24].fill(0xFF);
/// assert_eq!(ending(&file), Ok(Ending::Length { offset: 16, length: u32::MAX }));
/// file[16..24].fill(0);
/// assert_eq!(ending(&file), Ok(Ending::Zeros { offset: 16, count: 8 }));
/// ```
pub fn ending(file: &[u8]) -> Result<Ending, Refusal> {
    ending_with(file, &Options::default())
}

/// How a btsnoop or a pcap file ends. Of the options, only the container is looked at. Refuses as [`records_with`] does.
///
/// ```
/// use lumbryth::{cut_with, ending_with, Container, Ending, Options};
///
/// let pcap = Options::default().with_container(Container::Pcap);
/// let mut file = [&[0xA1, 0xB2, 0xC3, 0xD4], &[0; 16][..], &[0, 0, 0, 201]].concat();
/// assert_eq!(ending_with(&file, &pcap), Ok(Ending::AtRecord));
/// file.extend([0, 0, 0, 0, 0, 0, 0, 0, 0, 0, 0, 9, 0, 0, 0, 9]);
/// assert_eq!(ending_with(&file, &pcap), Ok(Ending::Inside(cut_with(&file, 24, &pcap).unwrap())));
/// file[32..36].fill(0xFF);
/// assert_eq!(ending_with(&file, &pcap), Ok(Ending::Length { offset: 24, length: u32::MAX }));
/// file[24..40].fill(0);
/// assert_eq!(ending_with(&file, &pcap), Ok(Ending::Zeros { offset: 24, count: 16 }));
/// ```
pub fn ending_with(file: &[u8], options: &Options) -> Result<Ending, Refusal> {
    let container = options.container;
    let records = records_with(file, options)?;
    let zeros = file.len() - file.iter().rev().take_while(|byte| **byte == 0).count();
    let starts = records.starts.iter().chain([&records.tail]);
    let offset = starts.copied().find(|start| *start >= zeros).unwrap_or(file.len());
    // Of a record in which both lengths are there and 0; fewer zeros may be the beginning of any record.
    if file.len() - offset >= container.zeros() {
        return Ok(Ending::Zeros { offset, count: file.len() - offset });
    }
    let Some(cut) = cut_with(file, records.tail, options) else {
        return Ok(Ending::AtRecord);
    };
    match container.length(file, &file[cut.offset..]) {
        Some(length) if length > container.packet_max() => Ok(Ending::Length { offset: cut.offset, length }),
        _ => Ok(Ending::Inside(cut)),
    }
}

#[cfg(test)]
mod tests {
    use super::{ffi, imported, link_list, sizes_with, with_list, Container, Options, Refusal, TailRule, VALUES};

    /// An import is lent its work once, and exactly as much output as its list takes; with a byte less it is refused.
    #[test]
    fn an_import_is_lent_what_it_needs() {
        let options = Options::default().with_tail(TailRule::Tolerant);
        let pcap = options.with_container(Container::Pcap);
        let traces: [(&[u8], Options, usize); 6] = [
            (include_bytes!("../../../examples/headset.btsnoop"), options, 927),
            (include_bytes!("../../../examples/headset.pcap"), pcap, 927),
            (include_bytes!("../../../examples/cut.btsnoop"), options, 876),
            (include_bytes!("../../../examples/two-adapters.btsnoop"), options, 248),
            (include_bytes!("../../../examples/noisy.btsnoop"), options, 283),
            (include_bytes!("../../../examples/noisy.btsnoop"), options.with_check_fcs(true), 250),
        ];
        for (file, options, needed) in traces {
            assert_eq!(sizes_with(file, &options).map(|sizes| sizes.needed), Ok(needed));
            let numbers = options.numbers();
            let mut lent = Vec::new();
            let (list, values) = with_list(file, &numbers, |work, list, values| {
                lent.push((work.len(), list.len()));
                let mut short = [0; VALUES];
                let number = ffi::import_with(file, work, &mut list[1..], &numbers, &mut short);
                assert_eq!(Refusal::of(number, &short), Refusal::OutShort { needed });
                ffi::import_with(file, work, list, &numbers, values)
            })
            .unwrap();
            assert_eq!(lent, [(8 * file.len(), needed)]);
            assert_eq!((list.len(), list.capacity(), values[4]), (needed, needed, needed as u64));
            let spans = imported(&list, &values).spans;
            assert_eq!(spans.iter().map(|span| 14 + span.wire.len()).sum::<usize>(), needed);
        }
    }

    /// One link's list is asked for with no output, and then lent exactly what it takes; an empty list is there at once.
    #[test]
    fn one_link_is_lent_what_it_needs() {
        let file = include_bytes!("../../../examples/two-adapters.btsnoop");
        let options = Options::default().numbers();
        for (link, needed) in [((0, 6), 99), ((1, 6), 149), ((2, 6), 0)] {
            let mut lent = Vec::new();
            let list = link_list(file, |work, list, values| {
                lent.push((work.len(), list.len()));
                ffi::one_link_with(file, work, list, link, 18, &options, values)
            })
            .unwrap();
            assert_eq!(list.spans.iter().map(|span| 14 + span.wire.len()).sum::<usize>(), needed);
            let outputs = if needed == 0 { vec![0] } else { vec![0, needed] };
            assert_eq!(lent, outputs.into_iter().map(|n| (8 * file.len(), n)).collect::<Vec<_>>());
        }
        // What is refused is asked for once.
        let mut asked = 0;
        let refused = link_list(file, |work, list, values| {
            asked += 1;
            ffi::one_link_with(file, work, list, (0, 6), 64, &options, values)
        });
        assert_eq!((refused, asked), (Err(Refusal::NoLink), 1));
    }

    /// What the sizes refuse is not imported, and no output is lent for it.
    #[test]
    fn no_output_for_a_refused_trace() {
        let file = include_bytes!("../../../examples/cut.btsnoop");
        for (file, refusal) in [
            (&file[..], Refusal::Truncated { offset: 2453 }),
            (&file[..15], Refusal::NotBtsnoop),
            (&file[..16], Refusal::NoStream),
        ] {
            let answer = with_list(file, &Options::default().numbers(), |_, _, _| panic!("this is an import"));
            assert_eq!(answer, Err(refusal));
        }
    }
}
