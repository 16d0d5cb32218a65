//! Channels: what signals name and admit, and how many PDUs each has.

use std::collections::HashMap;

use crate::packets::Packet;
use crate::pdus::Pdu;
use crate::signals::{signals, Key, Signal, RFCOMM, SIGNALS};
use lumbryth::Direction::{self, Rx};
use lumbryth::Link;

/// How many there are each way.
#[derive(Debug, Clone, Copy, PartialEq, Eq, Default)]
pub struct Ways {
    pub rx: usize,
    pub tx: usize,
}

impl Ways {
    fn add(&mut self, direction: Direction) {
        *(if direction == Rx { &mut self.rx } else { &mut self.tx }) += 1;
    }
}

/// A handle of an adapter, and the channels on it in the order in which they came up: named, or with a PDU.
#[derive(Debug, Clone, PartialEq, Eq)]
pub struct Handle {
    pub link: Link,
    pub packets: Ways,
    /// Those that were complete.
    pub pdus: Ways,
    pub channels: Vec<Channel>,
}

/// A channel: data of one direction with one CID.
#[derive(Debug, Clone, PartialEq, Eq)]
pub struct Channel {
    pub cid: u16,
    pub direction: Direction,
    pub pdus: usize,
    /// The PSMs that requests tell of it, in order, each once.
    pub psms: Vec<u16>,
    /// Whether a request or a response names it.
    pub named: bool,
    /// Whether one of them admits it, so that it is RFCOMM.
    pub admitted: bool,
    /// The result of the last response to a request for RFCOMM that names it.
    pub result: Option<u16>,
    /// The PSM of the last request that names it, and whether any such request has RFCOMM's.
    asked: Option<u16>,
    asked_rfcomm: bool,
}

/// What becomes of a channel's PDUs.
#[derive(Debug, Clone, Copy, PartialEq, Eq)]
pub enum Standing {
    /// Signals say that it is RFCOMM: they are tried.
    Admitted,
    /// Nothing names it, and its CID is a dynamic one: they are tried.
    Guessed,
    /// It carries the signals.
    Signals,
    /// It is named for another service.
    Service,
    /// A response names it, and no request before that tells the PSM.
    Unasked,
    /// A response to a request for RFCOMM names it, and none is a success.
    Refused,
    /// Nothing names it, and its CID is not a dynamic one.
    Fixed,
}

impl Standing {
    /// Whether the PDUs are tried as RFCOMM; else they are passed over.
    pub fn is_tried(self) -> bool {
        matches!(self, Standing::Admitted | Standing::Guessed)
    }
}

impl Channel {
    fn new((direction, cid): Key) -> Channel {
        Channel {
            cid,
            direction,
            pdus: 0,
            psms: Vec::new(),
            named: false,
            admitted: false,
            result: None,
            asked: None,
            asked_rfcomm: false,
        }
    }

    /// By all signals so far.
    pub fn standing(&self) -> Standing {
        match self {
            _ if self.admitted => Standing::Admitted,
            _ if self.named && self.psms.contains(&RFCOMM) => Standing::Refused,
            _ if self.named && self.psms.is_empty() => Standing::Unasked,
            _ if self.named => Standing::Service,
            _ if self.cid >= 0x40 => Standing::Guessed,
            _ if self.cid == SIGNALS => Standing::Signals,
            _ => Standing::Fixed,
        }
    }

    fn tell(&mut self, psm: u16) {
        if !self.psms.contains(&psm) {
            self.psms.push(psm);
        }
    }
}

/// What is known so far.
#[derive(Default)]
pub struct Channels {
    handles: Vec<Handle>,
    /// Where a handle is, by its connection, and where a channel of it is.
    places: HashMap<Link, (usize, HashMap<Key, usize>)>,
}

impl Channels {
    fn handle(&mut self, link: Link) -> &mut Handle {
        let next = self.handles.len();
        let (place, _) = self.places.entry(link).or_insert_with(|| (next, HashMap::new()));
        let place = *place;
        if place == next {
            let (packets, pdus) = (Ways::default(), Ways::default());
            self.handles.push(Handle { link, packets, pdus, channels: Vec::new() });
        }
        &mut self.handles[place]
    }

    fn find(&self, link: Link, key: Key) -> Option<&Channel> {
        let (place, channels) = self.places.get(&link)?;
        Some(&self.handles[*place].channels[*channels.get(&key)?])
    }

    fn channel(&mut self, link: Link, key: Key) -> &mut Channel {
        let next = self.handle(link).channels.len();
        let (place, channels) = self.places.entry(link).or_default();
        let channel = *channels.entry(key).or_insert(next);
        let all = &mut self.handles[*place].channels;
        if channel == next {
            all.push(Channel::new(key));
        }
        &mut all[channel]
    }

    pub fn packet(&mut self, packet: &Packet) {
        self.handle(packet.link).packets.add(packet.direction);
    }

    /// Counts a PDU, and reads its signals.
    pub fn pdu(&mut self, pdu: &Pdu) {
        self.handle(pdu.link).pdus.add(pdu.direction);
        self.channel(pdu.link, (pdu.direction, pdu.cid)).pdus += 1;
        for signal in signals(pdu) {
            self.signal(pdu.link, &signal);
        }
    }

    fn signal(&mut self, link: Link, signal: &Signal) {
        match *signal {
            Signal::Request(key, psm) => {
                let channel = self.channel(link, key);
                channel.named = true;
                channel.admitted |= psm == RFCOMM;
                channel.asked = Some(psm);
                channel.asked_rfcomm |= psm == RFCOMM;
                channel.tell(psm);
            }
            // Any earlier request for RFCOMM with that source counts; else the PSM is that of the last request with it.
            Signal::Response(key, answered, result) => {
                let request = self.find(link, answered);
                let (psm, rfcomm) = request.map_or((None, false), |request| (request.asked, request.asked_rfcomm));
                let channel = self.channel(link, key);
                channel.named = true;
                if rfcomm {
                    channel.admitted |= result == Some(0);
                    channel.result = result;
                    channel.tell(RFCOMM);
                }
                psm.into_iter().for_each(|psm| channel.tell(psm));
            }
        }
    }

    /// Whether a PDU is tried as RFCOMM.
    pub fn is_tried(&self, pdu: &Pdu) -> bool {
        self.find(pdu.link, (pdu.direction, pdu.cid)).is_some_and(|channel| channel.standing().is_tried())
    }

    pub fn handles(self) -> Vec<Handle> {
        self.handles
    }
}
