//! The types of frames.

/// The type of a frame.
///
/// ```
/// use lumbryth::FrameType;
///
/// assert_eq!(FrameType::from(0x0C), FrameType::DataMdr);
/// assert_eq!((FrameType::DataMdr.byte(), FrameType::DataMdr.name()), (0x0C, "DATA_MDR"));
/// assert_eq!((FrameType::from(0x77), FrameType::from(0x77).name()), (FrameType::Other(0x77), "UNKNOWN"));
/// ```
#[derive(Debug, Clone, Copy, PartialEq, Eq, Hash)]
#[non_exhaustive]
pub enum FrameType {
    /// 00.
    Data,
    /// 01: an acknowledgement, mostly without a payload.
    Ack,
    /// 02.
    DataMcNo1,
    /// 09.
    DataIcd,
    /// 0A.
    DataEv,
    /// 0C: commands of the first table.
    DataMdr,
    /// 0D.
    DataCommon,
    /// 0E: commands of the second table.
    DataMdrNo2,
    /// 10.
    Shot,
    /// 12.
    ShotMcNo1,
    /// 19.
    ShotIcd,
    /// 1A.
    ShotEv,
    /// 1C.
    ShotMdr,
    /// 1D.
    ShotCommon,
    /// 1E.
    ShotMdrNo2,
    /// Any other byte. One that has a name here is that name's: [`From<u8>`] gives it.
    Other(u8),
}

use FrameType::*;

/// Each type that has a name.
const NAMED: [(u8, FrameType, &str); 15] = [
    (0x00, Data, "DATA"),
    (0x01, Ack, "ACK"),
    (0x02, DataMcNo1, "DATA_MC_NO1"),
    (0x09, DataIcd, "DATA_ICD"),
    (0x0A, DataEv, "DATA_EV"),
    (0x0C, DataMdr, "DATA_MDR"),
    (0x0D, DataCommon, "DATA_COMMON"),
    (0x0E, DataMdrNo2, "DATA_MDR_NO2"),
    (0x10, Shot, "SHOT"),
    (0x12, ShotMcNo1, "SHOT_MC_NO1"),
    (0x19, ShotIcd, "SHOT_ICD"),
    (0x1A, ShotEv, "SHOT_EV"),
    (0x1C, ShotMdr, "SHOT_MDR"),
    (0x1D, ShotCommon, "SHOT_COMMON"),
    (0x1E, ShotMdrNo2, "SHOT_MDR_NO2"),
];

impl From<u8> for FrameType {
    fn from(byte: u8) -> FrameType {
        NAMED.iter().find(|named| named.0 == byte).map_or(Other(byte), |named| named.1)
    }
}

impl FrameType {
    /// The type as its byte.
    pub fn byte(self) -> u8 {
        match self {
            Other(byte) => byte,
            named => NAMED.iter().find(|row| row.1 == named).map_or(0, |row| row.0),
        }
    }

    /// The type's name, as in a fixture's name: `UNKNOWN` if it has none.
    pub fn name(self) -> &'static str {
        NAMED.iter().find(|named| named.0 == self.byte()).map_or("UNKNOWN", |named| named.2)
    }
}
