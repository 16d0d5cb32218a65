//! Signals: the commands on CID 1 that say which channels carry what.

use crate::packets::le16;
use crate::pdus::Pdu;
use lumbryth::Direction::{self, Rx, Tx};

/// The PSM of RFCOMM.
pub const RFCOMM: u16 = 3;

/// The CID of the channel with the signals.
pub const SIGNALS: u16 = 1;

/// A channel of a connection: which way its data goes, and its CID.
pub type Key = (Direction, u16);

pub enum Signal {
    /// The channel that it names, and the PSM.
    Request(Key, u16),
    /// The channel that it names, the channel of the request that it answers, and the result if that is there; 0 is a success.
    Response(Key, Key, Option<u16>),
}

fn opposite(direction: Direction) -> Direction {
    match direction {
        Rx => Tx,
        Tx => Rx,
    }
}

/// The commands of a payload: code and body. One whose body passes the end has none, and is the last.
fn commands(mut rest: &[u8]) -> Vec<(u8, &[u8])> {
    let mut commands = Vec::new();
    while let (Some(&code), Some(length)) = (rest.first(), le16(rest, 2)) {
        let end = 4 + usize::from(length);
        let Some(body) = rest.get(4..end) else { break };
        commands.push((code, body));
        rest = &rest[end..];
    }
    commands
}

/// The requests and responses of a PDU. Under 4 bytes of body name nothing.
pub fn signals(pdu: &Pdu) -> Vec<Signal> {
    if pdu.cid != SIGNALS {
        return Vec::new();
    }
    let signal = |(code, body): (u8, &[u8])| {
        let (first, second) = (le16(body, 0)?, le16(body, 2)?);
        match code {
            2 => Some(Signal::Request((opposite(pdu.direction), second), first)),
            3 => Some(Signal::Response((opposite(pdu.direction), first), (pdu.direction, second), le16(body, 4))),
            _ => None,
        }
    };
    commands(&pdu.payload).into_iter().filter_map(signal).collect()
}

/// Whether a PDU asks for RFCOMM, and so starts a session of its connection; the PSM alone is enough for that.
pub fn asks_session(pdu: &Pdu) -> bool {
    let asks = |(code, body): &(u8, &[u8])| *code == 2 && le16(body, 0) == Some(RFCOMM);
    pdu.cid == SIGNALS && commands(&pdu.payload).iter().any(asks)
}
