//! The container pcap, written plainly from document 02 and not from any code: the header of a file, its records and the
//! packets in them; and the same packets as a btsnoop file, its twin, which the source can read.

use crate::answer::Answer;
use crate::expected::LONGEST_FILE;
use crate::model::be;
use crate::trace::Trace;
use oracle::capture::BTSNOOP_EPOCH_DELTA_US as EPOCH;

/// How a file writes its numbers, and what its fractions are.
#[derive(Clone, Copy, Debug, PartialEq, Eq)]
pub struct Form {
    /// The highest byte comes first; else the lowest.
    pub big: bool,
    /// Fractions are nanoseconds; else microseconds.
    pub nano: bool,
}

pub const FORMS: [Form; 4] = [
    Form { big: false, nano: false },
    Form { big: true, nano: false },
    Form { big: false, nano: true },
    Form { big: true, nano: true },
];

/// The lengths of a file's header and of a record's, and the link type that is taken.
pub const HEAD: usize = 24;
pub const ROW: usize = 16;
pub const LINK: u32 = 201;

impl Form {
    pub fn magic(self) -> [u8; 4] {
        self.bytes(if self.nano { 0xA1B2_3C4D } else { 0xA1B2_C3D4 })
    }

    /// A number as the file has it.
    pub fn bytes(self, number: u32) -> [u8; 4] {
        if self.big {
            number.to_be_bytes()
        } else {
            number.to_le_bytes()
        }
    }

    /// The number of the four bytes at a place; one that is not there is 0.
    pub fn number(self, bytes: &[u8], at: usize) -> u64 {
        let mut four: [u8; 4] = std::array::from_fn(|i| bytes.get(at + i).copied().unwrap_or(0));
        if !self.big {
            four.reverse();
        }
        be(&four)
    }

    /// How many of its fractions a millisecond has.
    pub fn parts(self) -> u64 {
        if self.nano {
            1_000_000
        } else {
            1000
        }
    }
}

/// How document 02 is read. Only `RIGHT` is the model; the others are faults to plant.
#[derive(Clone, Copy)]
pub struct Reading {
    /// The form of a file; without one it is refused with 21.
    pub form: fn(&[u8]) -> Option<Form>,
    /// The link type that is judged, and the one that 22 carries.
    pub link: fn(Form, &[u8]) -> (u64, u64),
    /// How the numbers of a record's header are written.
    pub row: fn(Form) -> Form,
    /// The length of a record's packet.
    pub length: fn(Form, &[u8]) -> u64,
    /// By the file: a whole record that ends the reading all the same.
    pub ends: fn(Form, &[u8], &[u8]) -> bool,
    /// By the file: the milliseconds of a record.
    pub ms: fn(Form, &[u8], &[u8]) -> u64,
    /// Whether a packet is received; without an answer it is skipped.
    pub received: fn(Form, &[u8]) -> Option<bool>,
    /// The ACL packet behind a direction.
    pub acl: fn(&[u8]) -> Option<&[u8]>,
    /// The offset that is told of a place in the file.
    pub offset: fn(usize) -> usize,
}

pub const RIGHT: Reading = Reading {
    form: |file| FORMS.into_iter().find(|form| file.len() >= HEAD && file.starts_with(&form.magic())),
    link: |form, file| (form.number(file, 20), form.number(file, 20)),
    row: |form| form,
    length: |form, row| form.number(row, 8),
    ends: |_, _, _| false,
    ms: |form, _, row| 1000 * form.number(row, 0) + form.number(row, 4) / form.parts(),
    received: |_, packet| match be(packet.get(..4)?) {
        0 => Some(false),
        1 => Some(true),
        _ => None,
    },
    acl: |behind| behind.strip_prefix(&[2]),
    offset: |at| at,
};

/// A whole record.
#[derive(Clone, Copy)]
pub struct Record<'a> {
    /// Where it starts.
    pub at: usize,
    /// All its bytes, and how its numbers are written.
    pub bytes: &'a [u8],
    pub form: Form,
    pub ms: u64,
    /// Whether its packet is received, and the ACL packet; without one it is skipped.
    pub received: Option<bool>,
    pub acl: Option<&'a [u8]>,
}

impl<'a> Record<'a> {
    pub fn packet(&self) -> &'a [u8] {
        &self.bytes[ROW..]
    }

    pub fn captured(&self) -> u64 {
        self.form.number(self.bytes, 8)
    }

    pub fn original(&self) -> u64 {
        self.form.number(self.bytes, 12)
    }
}

/// The whole records of a file, and where they end. A file without a form has none.
pub fn read(file: &[u8], reading: Reading) -> (Vec<Record<'_>>, usize) {
    let Some(form) = (reading.form)(file) else { return (Vec::new(), HEAD) };
    let row = (reading.row)(form);
    let mut records = Vec::new();
    let mut at = HEAD;
    while let Some(rest) = file.get(at..).filter(|rest| rest.len() >= ROW) {
        let size = ROW as u64 + (reading.length)(row, rest);
        if size > rest.len() as u64 || (reading.ends)(row, file, &rest[..size as usize]) {
            break;
        }
        let bytes = &rest[..size as usize];
        let packet = &bytes[ROW..];
        let received = (reading.received)(form, packet);
        let acl = received.and_then(|_| (reading.acl)(packet.get(4..).unwrap_or(&[])));
        records.push(Record { at, bytes, form: row, ms: (reading.ms)(row, file, bytes), received, acl });
        at += size as usize;
    }
    (records, at)
}

/// The refusals of a file that come before its packets are looked at.
pub fn refusal(file: &[u8], work: usize, tolerant: bool, reading: Reading) -> Option<Answer> {
    if file.len() > LONGEST_FILE {
        return Some(Answer::refused(1, &[]));
    }
    if work < 8 * file.len() {
        return Some(Answer::refused(2, &[]));
    }
    let Some(form) = (reading.form)(file) else {
        return Some(Answer::refused(21, &[]));
    };
    let (link, carried) = (reading.link)(form, file);
    if link != u64::from(LINK) {
        return Some(Answer::refused(22, &[carried]));
    }
    let tail = read(file, reading).1;
    (!tolerant && tail < file.len()).then(|| Answer::refused(5, &[(reading.offset)(tail) as u64]))
}

/// The twin of a file, of datalink 1001 or 1002: each whole record with its packet and its time. A record without a
/// direction, and in 1001 one of another type than 02, becomes a command, which is skipped.
pub fn twin(file: &[u8], datalink: u32) -> Vec<u8> {
    let mut twin = Trace::new(datalink);
    for record in read(file, RIGHT).0 {
        let behind = record.received.map(|_| &record.packet()[4..]);
        let packet = if datalink == 1002 { behind } else { record.acl };
        let (flags, packet) = match (record.received, packet) {
            (Some(received), Some(packet)) => (u32::from(received), packet),
            _ => (2, &[][..]),
        };
        let more = u32::from(record.original() > record.captured());
        twin.row(packet.len() as u32 + more, flags, 0, EPOCH + 1000 * record.ms, packet);
    }
    twin.file
}

/// A btsnoop file of whole records and one adapter as pcap: each record with its packet. One that is skipped gets another
/// direction.
pub fn of_btsnoop(file: &[u8], form: Form) -> Vec<u8> {
    let mut trace = Trace::pcap(form);
    let datalink = be(&file[12..16]);
    for row in crate::model::records(&file[16..]).0 {
        let (flags, stamp) = (be(&row[8..12]) as u32, be(&row[16..24]));
        let (taken, typed) = match datalink {
            2001 => ([4, 5].contains(&flags), true),
            1002 => (flags & 2 == 0, false),
            _ => (flags & 2 == 0, true),
        };
        let direction = if taken { flags & 1 } else { 2 | flags };
        let packet = if typed { [&[2], &row[24..]].concat() } else { row[24..].to_vec() };
        trace.record(direction, stamp, &packet);
    }
    trace.file
}
