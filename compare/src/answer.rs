//! What a call answers, the calls that are compared, and one call held against
//! the answer expected of it.

use std::borrow::Cow;

/// A call's whole answer: 0 or document 01's refusal number, the values answered
/// or carried, and the bytes written at the front of the output.
#[derive(Clone, Debug, PartialEq, Eq)]
pub struct Answer {
    pub number: u32,
    pub values: Vec<u64>,
    pub written: Vec<u8>,
}

impl Answer {
    pub fn done(values: &[u64], written: Vec<u8>) -> Answer {
        Answer { number: 0, values: values.to_vec(), written }
    }

    /// The answer of an import, by DLCI, frames, unfinished, tail offset and frames with a wrong FCS.
    pub fn imported([dlci, frames, unfinished, tail, wrong]: [u64; 5], bytes: Bytes, list: Vec<u8>) -> Answer {
        let values = [dlci, frames, unfinished, tail, list.len() as u64, wrong];
        Answer::done(&[&values[..], &bytes].concat(), list)
    }

    /// The sizes of a file by the answer of its import, and by how many records, PDUs and pieces there are. What import
    /// refuses, sizes refuse likewise.
    pub fn sizes(&self, counts: [u64; 3]) -> Answer {
        match self.number {
            0 => Answer::done(&[&[self.written.len() as u64][..], &counts].concat(), Vec::new()),
            number => Answer::refused(number, &self.values),
        }
    }

    /// The answer with the spans of one link's DLCI: how many there are, how many buffers are unfinished, and the list.
    pub fn listed(spans: usize, unfinished: usize, list: Vec<u8>) -> Answer {
        Answer::done(&[spans, unfinished, list.len()].map(|value| value as u64), list)
    }

    /// Where the bytes went, of the answer of an import.
    pub fn bytes(&self) -> Option<Bytes> {
        self.values.get(BYTES..VALUES)?.try_into().ok()
    }

    pub fn refused(number: u32, values: &[u64]) -> Answer {
        Answer { number, values: values.to_vec(), written: Vec::new() }
    }

    /// The answer with `lent` bytes of output: refusal 7 is the last in every call.
    pub fn within(&self, lent: usize) -> Cow<'_, Answer> {
        if self.written.len() > lent {
            Cow::Owned(Answer::refused(7, &[self.written.len() as u64]))
        } else {
            Cow::Borrowed(self)
        }
    }
}

/// The calls of the C interface. Each returns 0 or a refusal number and stores the
/// values at the front of `values`, as many as there is room for.
pub trait Subject {
    fn unpack(&self, wire: &[u8], out: &mut [u8], values: &mut [u64]) -> u32;
    fn pack(&self, kind: u8, seq: u8, payload: &[u8], out: &mut [u8], values: &mut [u64]) -> u32;
    #[allow(clippy::too_many_arguments)]
    fn fixture_name(
        &self,
        ms: u64,
        counter: u32,
        direction: u8,
        wire: &[u8],
        out: &mut [u8],
        values: &mut [u64],
    ) -> u32;
    fn is_command_name(&self, name: &[u8]) -> u32;
    fn plan(&self, spans: &[u8], excluded: &[u8], out: &mut [u8], values: &mut [u64]) -> u32;
    fn capture_order(&self, names: &[u8], out: &mut [u8], values: &mut [u64]) -> u32;
    fn import_strict(&self, file: &[u8], work: &mut [u8], out: &mut [u8], channel: u32, values: &mut [u64]) -> u32;
    #[allow(clippy::too_many_arguments)]
    fn import(
        &self,
        file: &[u8],
        work: &mut [u8],
        out: &mut [u8],
        channel: u32,
        tolerant: u32,
        values: &mut [u64],
    ) -> u32;
    #[allow(clippy::too_many_arguments)]
    fn import_stretches(
        &self,
        file: &[u8],
        work: &mut [u8],
        stretches: &mut [Stretch],
        out: &mut [u8],
        channel: u32,
        tolerant: u32,
        values: &mut [u64],
    ) -> u32;
    /// Import by a list of options: the channel, the tail rule, the container, whether the FCS is checked; what it lacks has
    /// its default.
    fn import_with(&self, file: &[u8], work: &mut [u8], out: &mut [u8], options: &[u64], values: &mut [u64]) -> u32;
    #[allow(clippy::too_many_arguments)]
    fn import_stretches_with(
        &self,
        file: &[u8],
        work: &mut [u8],
        stretches: &mut [Stretch],
        out: &mut [u8],
        options: &[u64],
        values: &mut [u64],
    ) -> u32;
    /// Where the records of a btsnoop file start.
    fn records(&self, file: &[u8], starts: &mut [u64], values: &mut [u64]) -> u32;
    /// Where the records of a file start. Of the options only the container is looked at.
    fn records_with(&self, file: &[u8], starts: &mut [u64], options: &[u64], values: &mut [u64]) -> u32;
    /// The signs that something is not in a file: how many of each, and where the first is.
    fn gaps(&self, file: &[u8], work: &mut [u8], tolerant: u32, values: &mut [u64]) -> u32;
    /// The same by a list of options, of which the channel and the FCS are not looked at.
    fn gaps_with(&self, file: &[u8], work: &mut [u8], options: &[u64], values: &mut [u64]) -> u32;
    /// What an import by the same options would write and the file holds: bytes needed, records, PDUs and pieces.
    fn sizes_with(&self, file: &[u8], work: &mut [u8], options: &[u64], values: &mut [u64]) -> u32;
    /// The spans of one link's DLCI, by a list of options of which only the container is looked at.
    #[allow(clippy::too_many_arguments)]
    fn one_link_with(
        &self,
        file: &[u8],
        work: &mut [u8],
        out: &mut [u8],
        stream: Stream,
        options: &[u64],
        values: &mut [u64],
    ) -> u32;
    /// Whether the call with stretches is linked.
    fn has_stretches(&self) -> bool {
        true
    }
    /// Whether the calls that take a container are linked.
    fn takes_container(&self) -> bool {
        true
    }
    /// Whether the call that tells sizes is linked.
    fn has_sizes(&self) -> bool {
        true
    }
    /// Whether the call for one link is linked.
    fn has_links(&self) -> bool {
        true
    }
}

/// What a file is asked for as.
#[derive(Clone, Copy, Debug, PartialEq, Eq)]
pub enum Container {
    Btsnoop,
    Pcap,
}

/// The container that a list of options chooses.
pub fn container(options: &[u64]) -> Container {
    match options.get(2) {
        None | Some(0) => Container::Btsnoop,
        Some(_) => Container::Pcap,
    }
}

/// What an import is asked for besides the container.
#[derive(Clone, Copy, Debug)]
pub struct Asked {
    pub channel: u32,
    /// Whether the rule is tolerant.
    pub tolerant: bool,
    /// Whether the FCS of UIH frames is checked.
    pub checks: bool,
}

/// What a list of options chooses besides the container.
pub fn chosen(options: &[u64]) -> Asked {
    let channel = options.first().map_or(NO_CHANNEL, |&n| n.min(u64::from(NO_CHANNEL)) as u32);
    let on = |place: usize| options.get(place).is_some_and(|&n| n != 0);
    Asked { channel, tolerant: on(1), checks: on(3) }
}

/// How many values an import answers: DLCI, frames, unfinished, tail offset, bytes written, frames with a wrong FCS, and
/// where the information bytes of the DLCI went.
pub const VALUES: usize = 10;

/// Bytes in spans, bytes dropped, bytes cleared, and bytes left in buffers.
pub type Bytes = [u64; 4];

/// The place of the first of them among the values.
pub const BYTES: usize = 6;

/// How many values the sizes are: bytes needed, records, PDUs, pieces.
pub const SIZES: usize = 4;

/// What the spans of one link are asked for by: an adapter's index, a handle and a DLCI.
#[derive(Clone, Copy, Debug, PartialEq, Eq, PartialOrd, Ord)]
pub struct Stream {
    pub index: u16,
    pub handle: u16,
    pub dlci: u8,
}

impl Stream {
    /// Index and handle in one number.
    pub fn link(self) -> u32 {
        4096 * u32::from(self.index) + u32::from(self.handle)
    }

    /// Whether there can be such a handle, and such a DLCI; else it is 23.
    pub fn may_be(self) -> bool {
        self.handle <= 4095 && (1..=63).contains(&self.dlci)
    }
}

/// How many values the call for one link answers: spans, unfinished, bytes written.
pub const LISTED: usize = 3;

/// A stretch and direction with bytes held, as the library lays it out.
#[repr(C)]
#[derive(Clone, Copy, Debug, PartialEq, Eq, PartialOrd, Ord)]
pub struct Stretch {
    /// Twice the link (4096 times the adapter's index, and the handle), and 1 for Rx.
    pub way: u32,
    pub cid: u32,
    pub dlci: u32,
    pub sessions: u32,
    pub links: u32,
    pub held: u32,
}

/// The channel of a call that gives none.
pub const NO_CHANNEL: u32 = 256;

/// A call that answered something else than expected.
#[derive(Debug)]
pub struct Difference {
    pub call: String,
    pub inputs: Vec<(&'static str, Vec<u8>)>,
    pub lent: String,
    pub expected: String,
    pub got: String,
}

pub type Checked = Result<(), Box<Difference>>;

/// The input of a call, for a report.
pub struct Case {
    pub call: String,
    pub inputs: Vec<(&'static str, Vec<u8>)>,
}

pub fn hex(bytes: &[u8]) -> String {
    bytes.iter().map(|b| format!("{b:02X}")).collect::<Vec<_>>().join(" ")
}

/// Bytes lent on either side of the output that nobody may touch.
const GUARD: usize = 32;
const UNTOUCHED: u64 = 0xD15E_A5ED_0DDB_A115;

/// Buffers to lend, refilled with a new pattern for each call.
#[derive(Default)]
pub struct Lender {
    bytes: Vec<u8>,
    values: Vec<u64>,
    turn: usize,
    /// How many calls were to be answered with each number.
    pub answers: [u64; NUMBERS],
}

/// One more than the highest number of a refusal.
pub const NUMBERS: usize = 24;

impl Lender {
    /// One call with `lent` bytes of output and room for `room` values. Everything is
    /// compared: number, values, written bytes, and all that has to stay as it was.
    pub fn call(
        &mut self,
        expected: &Answer,
        lent: usize,
        room: usize,
        call: &mut dyn FnMut(&mut [u8], &mut [u64]) -> u32,
        case: &dyn Fn() -> Case,
    ) -> Checked {
        self.turn += 1;
        let salt = (self.turn as u8).wrapping_mul(29);
        let pattern = |i: usize| (i as u8).wrapping_mul(7) ^ salt;
        self.bytes.clear();
        self.bytes.extend((0..lent + 2 * GUARD).map(pattern));
        self.values.clear();
        self.values.resize(room + 2, UNTOUCHED);
        let number = call(&mut self.bytes[GUARD..GUARD + lent], &mut self.values[1..1 + room]);
        let expected = expected.within(lent);
        self.answers[expected.number as usize] += 1;
        let mut wrong = Vec::new();
        if number != expected.number {
            wrong.push(format!("number {number}"));
        }
        let stored = expected.values.len().min(room);
        let values_differ = self.values[1..1 + stored] != expected.values[..stored]
            || self.values[0] != UNTOUCHED
            || self.values[1 + stored..].iter().any(|&v| v != UNTOUCHED);
        if values_differ {
            let shown = |v: &u64| if *v == UNTOUCHED { "unchanged".to_string() } else { v.to_string() };
            wrong.push(format!(
                "values [{}]",
                self.values[1..1 + room].iter().map(shown).collect::<Vec<_>>().join(", ")
            ));
        }
        let written = &expected.written;
        let written_end = GUARD + written.len();
        if self.bytes[GUARD..written_end] != written[..] {
            let at = (0..written.len()).find(|&i| self.bytes[GUARD + i] != written[i]).unwrap_or(0);
            wrong.push(format!("output byte {at} is {:02X}, expected {:02X}", self.bytes[GUARD + at], written[at]));
        }
        let kept = |i: &usize| self.bytes[*i] == pattern(*i);
        if let Some(i) = (0..GUARD).chain(written_end..self.bytes.len()).find(|i| !kept(i)) {
            let at = i as i64 - GUARD as i64;
            wrong.push(format!("output byte {at} was to stay {:02X} and is {:02X}", pattern(i), self.bytes[i]));
        }
        if wrong.is_empty() {
            return Ok(());
        }
        if !wrong[0].starts_with("number") {
            wrong.insert(0, format!("number {number}"));
        }
        let case = case();
        Err(Box::new(Difference {
            call: case.call,
            inputs: case.inputs,
            lent: format!("{lent} bytes of output, room for {room} values"),
            expected: format!("number {}, values {:?}, written: {}", expected.number, expected.values, hex(written)),
            got: wrong.join("; "),
        }))
    }

    /// The call with outputs of one byte less than needed, as many, more, and none.
    pub fn about(
        &mut self,
        expected: &Answer,
        call: &mut dyn FnMut(&mut [u8], &mut [u64]) -> u32,
        case: &dyn Fn() -> Case,
    ) -> Checked {
        let needed = expected.written.len();
        if expected.number == 0 {
            let room = self.room(expected);
            self.call(expected, needed, room, call, case)?;
            if needed > 0 {
                let room = self.room(expected);
                self.call(expected, needed - 1, room, call, case)?;
            }
        }
        let more = needed + [1, 0, 2, 9, 64][self.turn % 5];
        let lent = if self.turn.is_multiple_of(7) { 0 } else { more };
        let room = self.room(expected);
        self.call(expected, lent, room, call, case)
    }

    /// Room for values: mostly one more than there are, at times fewer.
    pub fn room(&self, expected: &Answer) -> usize {
        let all = expected.values.len();
        // Calls come in rounds of a few, so the turn alone would give each of them the same.
        let turn = self.turn.wrapping_mul(0x9E37_79B9) >> 8;
        match turn % 4 {
            0 => turn / 4 % (all + 1),
            1 => all,
            _ => all.max(1) + 1,
        }
    }
}
