//! Why a call refused, in the numbers of the library and in words.

use std::error::Error;
use std::fmt;

use crate::{FILE_MAX, LIST_MAX, PAYLOAD_MAX};

/// Why a call refused. [`Refusal::number`] is the number that the documents use, and the text (by `Display`) says what was
/// wrong and where.
///
/// ```
/// use lumbryth::{unpack, Refusal};
///
/// let refusal = unpack(&[0x3E, 0x01, 0x00, 0x00, 0x00, 0x00, 0x00, 0x02, 0x3C]).unwrap_err();
/// assert_eq!(refusal, Refusal::BadChecksum { declared: 2, computed: 1 });
/// assert_eq!(refusal.number(), 17);
/// assert_eq!(refusal.to_string(), "the frame's checksum is 02 where its bytes give 01");
/// ```
#[derive(Debug, Clone, Copy, PartialEq, Eq, Hash)]
#[non_exhaustive]
pub enum Refusal {
    /// 1: the file is over [`FILE_MAX`] bytes.
    FileLong,
    /// 2: the work lent is under 8 times the file's length. The functions of this crate lend enough.
    WorkShort,
    /// 3: under 16 bytes, or no btsnoop file of version 1.
    NotBtsnoop,
    /// 4: a datalink other than 1001, 1002 and 2001.
    Datalink(u32),
    /// 5: by the strict rule only: the record that starts at `offset` passes the end of the file.
    Truncated {
        /// Where the record starts.
        offset: usize,
    },
    /// 6: no DLCI that was asked for has a span that unpacks.
    NoStream,
    /// 7: the output lent is too short. The functions of this crate lend enough.
    OutShort {
        /// The length that the output needs.
        needed: usize,
    },
    /// 10: a frame of under 9 bytes.
    TooShort,
    /// 11: a frame whose first byte is not 3E.
    NoStart,
    /// 12: a frame whose last byte is not 3C.
    NoEnd,
    /// 13: an escape, 3D, with nothing after it.
    TrailingSentry,
    /// 14: an escape, 3D, and then this byte, which is not 2C, 2D or 2E.
    BadEscapee(u8),
    /// 15: under 7 bytes once the escapes are undone.
    BodyTooShort,
    /// 16: the length field is not the payload's length.
    LengthMismatch {
        /// What the length field says.
        declared: u64,
        /// How many bytes there are.
        actual: u64,
    },
    /// 17: the checksum is not the sum of the bytes.
    BadChecksum {
        /// What the frame says.
        declared: u8,
        /// What its bytes give.
        computed: u8,
    },
    /// 18: a payload of over [`PAYLOAD_MAX`] bytes is not packed.
    PayloadLong,
    /// 19: the list of spans is ill-formed: over [`LIST_MAX`] bytes.
    SpansIll {
        /// Where its first wrong item starts.
        offset: usize,
    },
    /// 20: the list of names is ill-formed: over [`LIST_MAX`] bytes.
    NamesIll {
        /// Where its first wrong item starts.
        offset: usize,
    },
    /// 21: of a file that is asked for as pcap, in the place of 3: under 24 bytes, or none of the four magic numbers first.
    NotPcap,
    /// 22: of a pcap file, in the place of 4: a link type other than 201. All 4 bytes of the field count.
    LinkType(u32),
    /// 23: of what is asked for of one link, right after 5: a handle over 4095, or a DLCI that is not 1 to 63.
    NoLink,
    /// A number that this crate does not know: the library that is linked is not the one that it was written for.
    Unknown(u32),
}

impl Refusal {
    /// The refusal's number, 1 to 23 if it is known.
    pub fn number(self) -> u32 {
        match self {
            Refusal::FileLong => 1,
            Refusal::WorkShort => 2,
            Refusal::NotBtsnoop => 3,
            Refusal::Datalink(_) => 4,
            Refusal::Truncated { .. } => 5,
            Refusal::NoStream => 6,
            Refusal::OutShort { .. } => 7,
            Refusal::TooShort => 10,
            Refusal::NoStart => 11,
            Refusal::NoEnd => 12,
            Refusal::TrailingSentry => 13,
            Refusal::BadEscapee(_) => 14,
            Refusal::BodyTooShort => 15,
            Refusal::LengthMismatch { .. } => 16,
            Refusal::BadChecksum { .. } => 17,
            Refusal::PayloadLong => 18,
            Refusal::SpansIll { .. } => 19,
            Refusal::NamesIll { .. } => 20,
            Refusal::NotPcap => 21,
            Refusal::LinkType(_) => 22,
            Refusal::NoLink => 23,
            Refusal::Unknown(number) => number,
        }
    }

    /// The refusal of a number and the values that came with it.
    pub(crate) fn of(number: u32, values: &[u64]) -> Refusal {
        match number {
            1 => Refusal::FileLong,
            2 => Refusal::WorkShort,
            3 => Refusal::NotBtsnoop,
            4 => Refusal::Datalink(values[0] as u32),
            5 => Refusal::Truncated { offset: values[0] as usize },
            6 => Refusal::NoStream,
            7 => Refusal::OutShort { needed: values[0] as usize },
            10 => Refusal::TooShort,
            11 => Refusal::NoStart,
            12 => Refusal::NoEnd,
            13 => Refusal::TrailingSentry,
            14 => Refusal::BadEscapee(values[0] as u8),
            15 => Refusal::BodyTooShort,
            16 => Refusal::LengthMismatch { declared: values[0], actual: values[1] },
            17 => Refusal::BadChecksum { declared: values[0] as u8, computed: values[1] as u8 },
            18 => Refusal::PayloadLong,
            19 => Refusal::SpansIll { offset: values[0] as usize },
            20 => Refusal::NamesIll { offset: values[0] as usize },
            21 => Refusal::NotPcap,
            22 => Refusal::LinkType(values[0] as u32),
            23 => Refusal::NoLink,
            other => Refusal::Unknown(other),
        }
    }
}

impl fmt::Display for Refusal {
    fn fmt(&self, f: &mut fmt::Formatter<'_>) -> fmt::Result {
        match *self {
            Refusal::FileLong => write!(f, "the file is longer than {FILE_MAX} bytes"),
            Refusal::WorkShort => write!(f, "the work buffer is shorter than 8 times the file"),
            Refusal::NotBtsnoop => {
                write!(f, "this is not a btsnoop file: its first 16 bytes are not a btsnoop header of version 1")
            }
            Refusal::Datalink(n) => {
                write!(f, "the trace has datalink {n}, and only 1001, 1002 and 2001 can be read")
            }
            Refusal::Truncated { offset } => {
                write!(f, "the record that starts at byte {offset} passes the end of the file")
            }
            Refusal::NoStream => write!(f, "no channel that was asked for carries a frame that unpacks"),
            Refusal::OutShort { needed } => write!(f, "the output buffer is too short: {needed} bytes are needed"),
            Refusal::TooShort => write!(f, "the frame is shorter than 9 bytes"),
            Refusal::NoStart => write!(f, "the frame does not start with 3E"),
            Refusal::NoEnd => write!(f, "the frame does not end with 3C"),
            Refusal::TrailingSentry => write!(f, "the frame has an escape byte, 3D, right before its end"),
            Refusal::BadEscapee(byte) => {
                write!(f, "the frame has an escape byte, 3D, followed by {byte:02X}, which is not 2C, 2D or 2E")
            }
            Refusal::BodyTooShort => write!(f, "the frame has fewer than 7 bytes once its escapes are undone"),
            Refusal::LengthMismatch { declared, actual } => {
                write!(f, "the frame says that its payload has {declared} bytes, and it has {actual}")
            }
            Refusal::BadChecksum { declared, computed } => {
                write!(f, "the frame's checksum is {declared:02X} where its bytes give {computed:02X}")
            }
            Refusal::PayloadLong => write!(f, "the payload is longer than {PAYLOAD_MAX} bytes"),
            Refusal::SpansIll { offset } => {
                write!(f, "the list of spans is longer than {LIST_MAX} bytes, or wrong at byte {offset}")
            }
            Refusal::NamesIll { offset } => {
                write!(f, "the list of names is longer than {LIST_MAX} bytes, or wrong at byte {offset}")
            }
            Refusal::NotPcap => {
                write!(f, "this is not a pcap file: its first 24 bytes are not a pcap header")
            }
            Refusal::LinkType(n) => {
                write!(f, "the trace has link type {n}, and only 201, Bluetooth HCI H4 with direction, can be read")
            }
            Refusal::NoLink => {
                write!(f, "there is no such handle or no such DLCI: a handle is 0 to 4095, a DLCI 1 to 63")
            }
            Refusal::Unknown(number) => {
                write!(f, "the linked library refused with {number}, which this program does not know")
            }
        }
    }
}

impl Error for Refusal {}

#[cfg(test)]
mod tests {
    use super::Refusal;

    #[test]
    fn each_number_there_and_back() {
        for number in 0..300 {
            let refusal = Refusal::of(number, &[1, 2, 3, 4, 5]);
            assert_eq!(refusal.number(), number);
            let known = matches!(number, 1..=7 | 10..=23);
            assert_eq!(refusal == Refusal::Unknown(number), !known, "{number}");
            assert!(!refusal.to_string().is_empty());
        }
    }
}
