//! Traces for a reading that finds keys by their bits, the lowest first, in trees: keys of one
//! tree that begin with the same bits stand one under another, and the paths to those that are
//! used most are as long as a file can make them.
//!
//! The key of a channel is 65,536 times the side (twice the link, and 1 for Rx) plus the CID, that of an open PDU the side,
//! and that of a count 64 times the link plus the DLCI. `mixed` makes a number of a key: its bits are the way, and a product
//! of it says the tree. A buffer's bits are those of the channel, in turn with those of DLCI and counts. On one adapter a
//! side has 13 bits, and with the adapter's index 29.

use crate::hard::{byte, Filler};
use crate::trace;
use oracle::capture::Direction::{self, Rx, Tx};
use oracle::capture::BTSNOOP_EPOCH_DELTA_US as EPOCH;

/// The DLCI of all pieces.
const DLCI: u8 = 18;

/// Makes a trace of at most so many bytes.
type Maker = fn(usize) -> Vec<u8>;

pub fn traces() -> impl Iterator<Item = (&'static str, Maker)> {
    let all: [(&str, Maker); 13] = [
        ("long paths: a channel for every request", |most| many_channels(most, &request)),
        ("long paths: a channel for every response", |most| many_channels(most, &response)),
        ("long paths: requests for one channel", |most| few_channels(most, ONE, &[FIRST], &request)),
        ("long paths: requests for two channels in turn", |most| few_channels(most, ONE, &[FIRST, TWIN], &request)),
        ("long paths: responses for one channel", |most| few_channels(most, ONE, &[FIRST], &response)),
        ("long paths: responses for two channels in turn", |most| few_channels(most, ONE, &[FIRST, TWIN], &response)),
        ("long paths: a buffer for every piece", many_buffers),
        ("long paths: one-byte fragments", |most| fragments(most, ONE, &[FIRST])),
        ("long paths: one-byte fragments, two handles in turn", |most| fragments(most, ONE, &BOTH)),
        ("long paths: one-byte pieces", |most| every_tree(most, ONE, &[FIRST], &byte(DLCI, 0))),
        ("long paths: one-byte pieces, two links in turn", |most| every_tree(most, ONE, &BOTH, &byte(DLCI, 0))),
        ("long paths: SABMs", |most| every_tree(most, ONE, &[FIRST], &SABM)),
        ("long paths: SABMs, two links in turn", |most| every_tree(most, ONE, &BOTH, &SABM)),
    ];
    all.into_iter()
}

/// The same with keys that have an adapter's index, and so more bits.
pub fn of_many_adapters() -> impl Iterator<Item = (&'static str, Maker)> {
    let all: [(&str, Maker); 7] = [
        ("longer paths: requests for two channels in turn", |most| few_channels(most, ALL, &[FAR, FAR_TWIN], &request)),
        ("longer paths: responses for two channels in turn", |most| {
            few_channels(most, ALL, &[FAR, FAR_TWIN], &response)
        }),
        ("longer paths: one-byte fragments", |most| fragments(most, ALL, &[FAR])),
        ("longer paths: one-byte fragments, two links in turn", |most| fragments(most, ALL, &FARTHEST)),
        ("longer paths: one-byte fragments of 4,000 links in turn", fragments_of_one_tree),
        ("longer paths: one-byte pieces, two links in turn", |most| every_tree(most, ALL, &FARTHEST, &byte(DLCI, 0))),
        ("longer paths: SABMs, two links in turn", |most| every_tree(most, ALL, &FARTHEST, &SABM)),
    ];
    all.into_iter()
}

/// The shortest SABM.
const SABM: [u8; 2] = [DLCI << 2 | 1, 0x2F];

/// The sides that there are: so many bits of them, in a file of this datalink.
#[derive(Clone, Copy)]
struct Sides {
    datalink: u32,
    bits: u32,
}

/// Those of one adapter, and of all.
const ONE: Sides = Sides { datalink: 1001, bits: 13 };
const ALL: Sides = Sides { datalink: 2001, bits: 29 };

/// A channel: data with this CID on this side.
#[derive(Clone, Copy, PartialEq)]
struct Channel {
    side: u64,
    cid: u16,
}

/// Two channels whose numbers differ in bit 28 alone.
const FIRST: Channel = Channel { side: 0x0A5A, cid: 0xA5A5 };
const SECOND: Channel = Channel { side: 0x1A5A, cid: 0x95A5 };
const BOTH: [Channel; 2] = [FIRST, SECOND];

/// A channel of the side of the first, whose number differs in bit 15 alone.
const TWIN: Channel = Channel { side: 0x0A5A, cid: 0x25A5 };

/// The same on many adapters: two that differ in the highest bits alone, and one of the side of the first.
const FAR: Channel = Channel { side: 0x05A5_4A5A, cid: 0xA5A5 };
const FARTHEST: [Channel; 2] = [FAR, Channel { side: 0x15A5_4A5A, cid: 0xA5A5 }];
const FAR_TWIN: Channel = Channel { side: 0x05A5_4A5A, cid: 0x25A5 };

fn handle_of(side: u64) -> u16 {
    (side / 2 % 4096) as u16
}

fn index_of(side: u64) -> u16 {
    (side / 8192) as u16
}

fn direction_of(side: u64) -> Direction {
    if side % 2 == 1 {
        Rx
    } else {
        Tx
    }
}

impl Channel {
    fn number(self) -> u64 {
        mixed(65_536 * self.side + u64::from(self.cid))
    }

    /// The channel of a number, if there is one, and it is dynamic.
    fn of(number: u64, sides: Sides) -> Option<Channel> {
        let key = key_of(number)?;
        let (side, cid) = (key / 65_536, key % 65_536);
        (side >> sides.bits == 0 && cid >= 0x40).then_some(Channel { side, cid: cid as u16 })
    }

    fn send(self, filler: &mut Filler, payload: &[u8]) -> bool {
        filler.trace.on(index_of(self.side));
        filler.pdu(direction_of(self.side), handle_of(self.side), self.cid, payload)
    }
}

/// The number of a key.
fn mixed(key: u64) -> u64 {
    key + key / 65_536 + key / 536_870_912
}

/// The key of a number, if it is one's.
fn key_of(number: u64) -> Option<u64> {
    let (mut low, mut high) = (0, number + 1);
    while high - low > 1 {
        let middle = (low + high) / 2;
        if mixed(middle) > number {
            high = middle;
        } else {
            low = middle;
        }
    }
    (mixed(low) == number).then_some(low)
}

/// Where a number's tree stands among all, of 2^32.
fn spread(number: u64) -> u64 {
    number % (1 << 32) * 2_654_435_769 % (1 << 32)
}

/// Numbers of `width` bits, of the same tree of so many, that begin with `bits` of the same bits
/// and not with one more.
fn beside(number: u64, width: u32, bits: u32, trees: u64) -> impl Iterator<Item = u64> {
    let numbers = (0..1u64 << (width - 1 - bits)).map(move |high| number ^ (2 * high + 1) << bits);
    numbers.filter(move |n| spread(number).abs_diff(spread(*n)) < (1 << 30) / trees)
}

/// How many trees the channels of a file of so many bytes have.
fn trees(most: usize) -> u64 {
    most as u64 / 32 + 1
}

/// Sends commands that name channels of a side: they go the other way.
fn signal(filler: &mut Filler, side: u64, commands: &[u8]) -> bool {
    filler.trace.on(index_of(side));
    filler.pdu(direction_of(side ^ 1), handle_of(side), 1, commands)
}

/// A command that names a channel. A response asks for a source on the other side, too.
type Command = dyn Fn(Channel, u16) -> Vec<u8>;

fn request(channel: Channel, _: u16) -> Vec<u8> {
    trace::request(1, channel.cid)
}

/// A success, without the status that nothing reads.
fn response(channel: Channel, source: u16) -> Vec<u8> {
    let [a, b] = channel.cid.to_le_bytes();
    let [c, d] = source.to_le_bytes();
    trace::command(3, 1, &[a, b, c, d, 0, 0])
}

/// Some 16 channels of a side in one tree, or in the fewest that hold 16 of every side; and if
/// the tree holds more, those that begin with the same bits.
fn sixteen(side: u64, most: usize) -> Vec<Channel> {
    let part = trees(most).min(4096);
    let bits = 12 - part.ilog2();
    let all = (0x40..=u16::MAX).map(|cid| Channel { side, cid });
    all.filter(|c| spread(c.number()) < (1 << 32) / part && c.number() % (1 << bits) == 0x5A5 % (1 << bits)).collect()
}

/// 16 channels of each side. Few sides are as far apart as they can be: then they begin with
/// the same bits as well.
fn many_channels(most: usize, command: &Command) -> Vec<u8> {
    let mut filler = Filler::new(1001, most);
    let size = 32 + 16 * command(FIRST, 0).len();
    let step = (8192 / (most / size).next_power_of_two()).max(1);
    for side in (0..8192).step_by(step) {
        let sources = sixteen(side ^ 1, most);
        let named = sixteen(side, most).into_iter().enumerate();
        let commands = named.flat_map(|(k, c)| command(c, sources.get(k).map_or(0x40, |s| s.cid)));
        if !signal(&mut filler, side, &commands.collect::<Vec<u8>>()) {
            break;
        }
    }
    filler.ended(DLCI)
}

/// Requests for channels that begin with more and more of the bits of each of some channels, in
/// the same tree, without those that are used.
fn name_beside(filler: &mut Filler, sides: Sides, used: &[Channel], trees: u64) {
    let width = sides.bits + 16;
    for channel in used {
        let others = |bits| beside(channel.number(), width, bits, trees).find_map(|n| Channel::of(n, sides));
        for other in (0..width).filter_map(others) {
            if !used.contains(&other) {
                signal(filler, other.side, &request(other, 0));
            }
        }
    }
}

/// A few channels of one side named again and again, with sources that are as far down.
fn few_channels(most: usize, sides: Sides, named: &[Channel], command: &Command) -> Vec<u8> {
    let mut filler = Filler::new(sides.datalink, most);
    let sources: Vec<Channel> = named.iter().map(|c| Channel { side: c.side ^ 1, ..*c }).collect();
    name_beside(&mut filler, sides, &[named, &sources].concat(), trees(most));
    let turn: Vec<u8> = named.iter().zip(&sources).flat_map(|(c, source)| command(*c, source.cid)).collect();
    let mut count = 65_000 / turn.len();
    while count > 0 {
        if !signal(&mut filler, named[0].side, &turn.repeat(count)) {
            count /= 2;
        }
    }
    filler.ended(DLCI)
}

/// As many bits are the same as can be, for as many buffers as there are pieces.
fn many_buffers(most: usize) -> Vec<u8> {
    let mut filler = Filler::new(1001, most);
    let shared = 29 - (most / 37).next_power_of_two().ilog2();
    let low = FIRST.number() % (1 << shared);
    let channels = (0..1 << (29 - shared)).filter_map(|high: u64| Channel::of(high << shared | low, ONE));
    for channel in channels {
        if !channel.send(&mut filler, &byte(DLCI, 0x3E)) {
            break;
        }
    }
    filler.ended(DLCI)
}

/// Sides that begin with more and more of the bits of a side, in the same tree, without those
/// that are used.
fn sides_beside(sides: Sides, used: &[Channel], trees: u64) -> Vec<u64> {
    let near = |bits| beside(mixed(used[0].side), sides.bits, bits, trees).find_map(key_of);
    let near = (0..sides.bits).filter_map(near);
    near.filter(|side| side >> sides.bits == 0 && used.iter().all(|u| u.side != *side)).collect()
}

/// An empty PDU on each of some sides.
fn empty_pdus<'a>(filler: &mut Filler, sides: impl Iterator<Item = &'a u64>) {
    for &side in sides {
        filler.trace.on(index_of(side)).pdu(direction_of(side), EPOCH, handle_of(side), 0x3F, &[]);
    }
}

/// How many trees the open PDUs of a file of so many bytes have.
fn fragment_trees(most: usize) -> u64 {
    most as u64 / 256 + 1
}

/// What `fill` sends, between two paths to the sides that are used: packets may be read from
/// the first one on or from the last.
fn between_paths(filler: &mut Filler, sides: Sides, used: &[Channel], fill: &mut dyn FnMut(&mut Filler)) {
    let sides = sides_beside(sides, used, fragment_trees(filler.most));
    empty_pdus(filler, sides.iter());
    let room = 32 * sides.len();
    filler.most -= room;
    fill(filler);
    filler.most += room;
    empty_pdus(filler, sides.iter().rev());
}

/// PDUs of 65,535 bytes in fragments of one, of each side in turn.
fn send_fragments(filler: &mut Filler, used: &[u64]) {
    let head = [0xFF, 0xFF];
    let mut i = 0;
    while filler.fits(5) {
        let (turn, side) = (i / used.len() % 65_539, used[i % used.len()]);
        let data = head.get(turn).copied().unwrap_or(0);
        let flag = if turn == 0 { 2 } else { 1 };
        filler.trace.on(index_of(side)).fragment(direction_of(side), EPOCH, handle_of(side), flag, &[data]);
        i += 1;
    }
}

fn fragments(most: usize, sides: Sides, used: &[Channel]) -> Vec<u8> {
    let mut filler = Filler::new(sides.datalink, most);
    let own: Vec<u64> = used.iter().map(|channel| channel.side).collect();
    between_paths(&mut filler, sides, used, &mut |filler| send_fragments(filler, &own));
    filler.ended(DLCI)
}

/// Sides of one tree that begin with the same bits, as many as there can be of 4,000.
fn fragments_of_one_tree(most: usize) -> Vec<u8> {
    let mut filler = Filler::new(ALL.datalink, most);
    let number = mixed(FAR.side);
    let near = (0..).flat_map(|bits| beside(number, ALL.bits, 28 - bits, fragment_trees(most)));
    let sides = near.filter_map(key_of).filter(|side| side >> ALL.bits == 0);
    send_fragments(&mut filler, &sides.take(4000).collect::<Vec<u64>>());
    filler.ended(DLCI)
}

/// A piece in each of the buffers on the way to those of both channels: two for a bit, since
/// the bits of DLCI and counts, which are all the same, come between.
fn buffers_beside(filler: &mut Filler, sides: Sides, first: Channel) {
    let of = |number| Channel::of(number, sides);
    for bit in 0..28 {
        let number = first.number() ^ 1 << bit;
        let further = if bit < 27 { of(number ^ 1 << 27) } else { None };
        for other in of(number).into_iter().chain(further) {
            other.send(filler, &byte(DLCI, 0));
        }
    }
}

/// The key of a count.
fn count_key(channel: &Channel, dlci: u8) -> u64 {
    64 * (channel.side / 2) + u64::from(dlci)
}

/// A SABM for each of the counts on the way to those of the channels, which are none themselves.
fn counts_beside(filler: &mut Filler, sides: Sides, used: &[Channel]) {
    let keys: Vec<u64> = used.iter().flat_map(|c| [count_key(c, 0), count_key(c, DLCI)]).collect();
    let trees = filler.most as u64 / 1024 + 1;
    let width = sides.bits + 5;
    for key in &keys {
        for near in (0..width).filter_map(|bits| beside(mixed(*key), width, bits, trees).find_map(key_of)) {
            if near >> width == 0 && !keys.contains(&near) {
                let side = near / 64 * 2;
                Channel { side, cid: 0x41 }.send(filler, &trace::sabm((near % 64) as u8));
            }
        }
    }
}

/// One payload on each channel in turn, with long paths in every tree. The buffers on the way
/// come before the SABMs, so that they begin with the same counts.
fn every_tree(most: usize, sides: Sides, used: &[Channel], payload: &[u8]) -> Vec<u8> {
    let mut filler = Filler::new(sides.datalink, most);
    between_paths(&mut filler, sides, used, &mut |filler| {
        buffers_beside(filler, sides, used[0]);
        name_beside(filler, sides, if sides.bits == 13 { &BOTH } else { &FARTHEST }, trees(most));
        counts_beside(filler, sides, used);
        while used.iter().all(|channel| channel.send(filler, payload)) {}
    });
    filler.ended(DLCI)
}
