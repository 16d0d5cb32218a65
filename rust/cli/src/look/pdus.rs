//! PDUs, put together from packets for each connection and direction.

use std::collections::HashMap;

use crate::packets::{le16, Packet};
use lumbryth::{Direction, Link};

/// A PDU.
pub struct Pdu {
    pub link: Link,
    pub direction: Direction,
    pub cid: u16,
    pub payload: Vec<u8>,
}

/// The PDUs under way.
#[derive(Default)]
pub struct Joining {
    open: HashMap<(Link, Direction), Vec<u8>>,
}

impl Joining {
    /// Takes a packet, and gives the PDU that it completes. A start gives up what is not complete, a packet that goes on with nothing
    /// is passed over, and bytes in excess are dropped.
    pub fn join(&mut self, packet: &Packet) -> Option<Pdu> {
        let key = (packet.link, packet.direction);
        if packet.starts {
            self.open.insert(key, Vec::new());
        }
        let bytes = self.open.get_mut(&key)?;
        bytes.extend(packet.data);
        let end = 4 + usize::from(le16(bytes, 0)?);
        let cid = le16(bytes, 2)?;
        if bytes.len() < end {
            return None;
        }
        let bytes = self.open.remove(&key)?;
        Some(Pdu { link: packet.link, direction: packet.direction, cid, payload: bytes[4..end].to_vec() })
    }
}
