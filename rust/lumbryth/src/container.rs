//! The containers of a trace, and what stands where in them.

/// What a trace file is. The caller says it: a file of one container that is asked for as the other is refused, with
/// [`Refusal::NotBtsnoop`](crate::Refusal::NotBtsnoop) or [`Refusal::NotPcap`](crate::Refusal::NotPcap).
///
/// ```
/// use lumbryth::{records_with, Container, Options, Refusal};
///
/// let file = std::fs::read("../../examples/headset.pcap")?;
/// let pcap = Options::default().with_container(Container::Pcap);
/// assert_eq!(records_with(&file, &pcap)?.starts.len(), 54);
/// assert_eq!(records_with(&file, &Options::default()), Err(Refusal::NotBtsnoop));
/// # Ok::<(), Box<dyn std::error::Error>>(())
/// ```
#[derive(Debug, Clone, Copy, PartialEq, Eq, Hash, Default)]
#[non_exhaustive]
pub enum Container {
    /// btsnoop, as phones and the Linux monitor write it: datalink 1001, 1002 or 2001.
    #[default]
    Btsnoop,
    /// pcap, as network analysers write it: in either byte order, with microseconds or nanoseconds, of link type 201, Bluetooth HCI
    /// H4 with direction. Not pcapng.
    Pcap,
}

impl Container {
    /// How many bytes the file's header has.
    ///
    /// ```
    /// use lumbryth::Container;
    ///
    /// assert_eq!((Container::Btsnoop.header(), Container::Pcap.header()), (16, 24));
    /// assert_eq!((Container::Btsnoop.record_header(), Container::Pcap.record_header()), (24, 16));
    /// assert_eq!((Container::Btsnoop.packet_max(), Container::Pcap.packet_max()), (65_540, 65_544));
    /// ```
    pub fn header(self) -> usize {
        match self {
            Container::Btsnoop => 16,
            Container::Pcap => 24,
        }
    }

    /// How many bytes stand before the packet in a record.
    pub fn record_header(self) -> usize {
        match self {
            Container::Btsnoop => 24,
            Container::Pcap => 16,
        }
    }

    /// The longest packet that a record can hold: [`PACKET_MAX`](crate::PACKET_MAX), and in pcap 4 more, for the direction.
    pub fn packet_max(self) -> u32 {
        match self {
            Container::Btsnoop => crate::PACKET_MAX,
            Container::Pcap => crate::PACKET_MAX + 4,
        }
    }

    /// The container as an option of the library.
    pub(crate) fn number(self) -> u64 {
        match self {
            Container::Btsnoop => 0,
            Container::Pcap => 1,
        }
    }

    /// The length that the record at the front of `record` gives its packet, if so much of it is there. `file` tells the byte order.
    pub(crate) fn length(self, file: &[u8], record: &[u8]) -> Option<u32> {
        let at = match self {
            Container::Btsnoop => 4,
            Container::Pcap => 8,
        };
        let bytes = *record.get(at..)?.first_chunk()?;
        // The highest byte of pcap's magic numbers is A1.
        let big = self == Container::Btsnoop || file.first() == Some(&0xA1);
        Some(if big { u32::from_be_bytes(bytes) } else { u32::from_le_bytes(bytes) })
    }

    /// How many zeros a record begins with that is none: those of both its lengths, and what stands before them.
    pub(crate) fn zeros(self) -> usize {
        match self {
            Container::Btsnoop => 8,
            Container::Pcap => 16,
        }
    }
}
