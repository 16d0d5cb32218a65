//! A trace: the bytes of a file, and the container that they are read as.

use lumbryth::{ending_with, gaps_with, records_with};
use lumbryth::{Container, Ending, Gaps, Options, Records, Refusal, TailRule};

/// What a pcap file begins with: microseconds, then nanoseconds, the lowest byte of a number first or the highest.
const PCAP: [[u8; 4]; 4] =
    [[0xD4, 0xC3, 0xB2, 0xA1], [0xA1, 0xB2, 0xC3, 0xD4], [0x4D, 0x3C, 0xB2, 0xA1], [0xA1, 0xB2, 0x3C, 0x4D]];

/// What a pcapng file begins with.
const PCAPNG: [u8; 4] = [0x0A, 0x0D, 0x0D, 0x0A];

/// A trace, as the program reads it.
#[derive(Debug, Clone, Copy)]
pub struct Trace<'a> {
    pub file: &'a [u8],
    pub container: Container,
}

impl<'a> Trace<'a> {
    /// The container by the first four bytes. The library guesses nothing, and refuses what is not a file of it: a pcapng file is asked
    /// for as pcap, and what is neither as btsnoop.
    pub fn of(file: &'a [u8]) -> Trace<'a> {
        let is_pcap = PCAP.iter().chain([&PCAPNG]).any(|magic| file.starts_with(magic));
        Trace { file, container: if is_pcap { Container::Pcap } else { Container::Btsnoop } }
    }

    /// Whether it is a pcapng file, which is refused.
    pub fn is_pcapng(self) -> bool {
        self.file.starts_with(&PCAPNG)
    }

    /// How the library is asked for it.
    pub fn options(self) -> Options {
        Options::default().with_container(self.container)
    }

    pub fn records(self) -> Result<Records, Refusal> {
        records_with(self.file, &self.options())
    }

    pub fn ending(self) -> Result<Ending, Refusal> {
        ending_with(self.file, &self.options())
    }

    pub fn gaps(self, tail: TailRule) -> Result<Gaps, Refusal> {
        gaps_with(self.file, &self.options().with_tail(tail))
    }

    /// The datalink, or of pcap the link type. Both stand at the end of the header.
    pub fn datalink(self) -> u32 {
        self.number(&self.file[self.container.header() - 4..])
    }

    /// The four bytes at the front as a number, in the order of the file.
    pub(crate) fn number(self, bytes: &[u8]) -> u32 {
        let bytes = [bytes[0], bytes[1], bytes[2], bytes[3]];
        match self.container {
            Container::Pcap if self.file[0] != 0xA1 => u32::from_le_bytes(bytes),
            _ => u32::from_be_bytes(bytes),
        }
    }

    /// Whether the fractions of times are nanoseconds: no other magic number has this byte.
    pub(crate) fn is_nano(self) -> bool {
        self.file[..4].contains(&0x3C)
    }
}
