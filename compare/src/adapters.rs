//! Traces of two adapters: short ones by hand, each of which shows one place where import keys on a link, and every
//! sequence of a few steps.

use crate::answer::{Checked, NO_CHANNEL};
use crate::expected;
use crate::import::{ack, sequences, Taker};
use crate::trace::{self, Trace};
use oracle::capture::Direction::{self, Rx, Tx};
use oracle::capture::BTSNOOP_EPOCH_DELTA_US as EPOCH;

/// An adapter's index and a handle.
pub type Pair = (u16, u16);

/// What a link does: a PDU by direction, CID and payload, or a fragment on CID 0x43 by direction, flag and data.
#[derive(Clone)]
enum Step {
    Pdu(Direction, u16, Vec<u8>),
    Fragment(Direction, u16, Vec<u8>),
}
use Step::{Fragment, Pdu};

fn take(trace: &mut Trace, (index, handle): Pair, step: &Step) {
    let stamp = EPOCH + trace.file.len() as u64 * 1000;
    match step {
        Pdu(direction, cid, payload) => trace.on(index).pdu(*direction, stamp, handle, *cid, payload),
        Fragment(direction, flag, data) => trace.on(index).fragment(*direction, stamp, handle, *flag, data),
    }
}

fn data(information: &[u8]) -> Vec<u8> {
    trace::uih(18, information, None, false)
}

/// A frame's halves, received on CID 0x41.
fn halves(seq: u8) -> [Step; 2] {
    let wire = ack(seq);
    [&wire[..5], &wire[5..]].map(|half| Pdu(Rx, 0x41, data(half)))
}

/// A PDU with a frame in two fragments.
fn parts(seq: u8) -> [Step; 2] {
    let pdu = trace::l2cap(0x43, &data(&ack(seq)));
    [Fragment(Rx, 2, pdu[..9].to_vec()), Fragment(Rx, 1, pdu[9..].to_vec())]
}

/// The steps of two links, the first's marked 0, and the frames and the unfinished that are found; none if it is 6.
type Made = (Vec<(usize, Step)>, Option<[u64; 2]>);

/// Two to four records for each place where import keys on a link.
fn made() -> Vec<Made> {
    let [one, two] = halves(1);
    let [other_one, other_two] = halves(2);
    let [begins, ends] = parts(3);
    let between = |step: Step| vec![(0, one.clone()), (1, step), (0, two.clone())];
    let whole = |direction: Direction, cid: u16| Pdu(direction, cid, data(&ack(4)));
    let asks = |psm: u16, source: u16| Pdu(Tx, 1, trace::request(psm, source));
    vec![
        // Open PDUs.
        (vec![(0, begins.clone()), (1, begins.clone()), (0, ends.clone())], Some([1, 0])),
        (vec![(0, begins.clone()), (1, ends.clone())], None),
        (vec![(0, begins.clone()), (1, begins.clone()), (1, ends.clone()), (0, ends.clone())], Some([2, 0])),
        // Channels that are named, and admitted.
        (vec![(1, asks(1, 0x41)), (0, whole(Rx, 0x41))], Some([1, 0])),
        (vec![(1, asks(3, 0x30)), (0, whole(Rx, 0x30))], None),
        // An earlier request.
        (vec![(0, asks(3, 0x41)), (1, Pdu(Rx, 1, trace::response(0x30, 0x41, 0))), (1, whole(Tx, 0x30))], None),
        // Sessions, by a SABM and by a request.
        (between(Pdu(Tx, 0x42, trace::sabm(0))), Some([1, 0])),
        (between(Pdu(Tx, 1, trace::command(2, 1, &[3, 0]))), Some([1, 0])),
        // Links.
        (between(Pdu(Tx, 0x42, trace::sabm(18))), Some([1, 0])),
        // Stretches: halves that are not of one frame, then frames that cross.
        (vec![(0, one.clone()), (1, Pdu(Rx, 0x41, data(&[&ack(1)[5..], &ack(2)].concat())))], Some([1, 1])),
        (vec![(0, one.clone()), (1, other_one), (0, two.clone()), (1, other_two)], Some([2, 0])),
        // All adapters are read.
        (vec![(0, whole(Rx, 0x41)), (1, whole(Rx, 0x41))], Some([2, 0])),
    ]
}

/// Pairs that a key with too few bits, or with bits of index and handle in one place, takes for one.
pub fn pairs() -> Vec<[Pair; 2]> {
    let mut pairs = Vec::new();
    for bit in 0..16 {
        pairs.extend([0, 0xFFFF, 0x0101].map(|index: u16| [(index, 0x40), (index ^ 1 << bit, 0x40)]));
        // The handle before the index, so many bits up.
        pairs.push([(1 << bit, 0), (0, 1)]);
    }
    for shift in 0..12 {
        pairs.extend([0, 0x40].map(|handle| [(1, handle), (0, handle + (1 << shift))]));
        pairs.push([(0xFFFF, 0x40), (0xFFFE, 0x40 + (1 << shift))]);
    }
    pairs.extend([0, 0x40, 0xFFF].map(|handle| [(0, handle), (0xFFFF, handle)]));
    pairs
}

/// The short traces, each for many pairs. In 1001 and 1002 the upper flag bits are those of the index and mean nothing.
pub fn by_hand(taker: &mut dyn Taker) -> Checked {
    for (steps, known) in made() {
        for pair in pairs() {
            for (datalink, order) in [(2001, [0, 1]), (2001, [1, 0]), (1001, [0, 1]), (1002, [1, 0])] {
                let mut trace = Trace::new(datalink);
                for (link, step) in &steps {
                    take(&mut trace, pair[order[*link]], step);
                }
                if datalink == 2001 || pair[0].1 != pair[1].1 {
                    assert_eq!(found(&trace.file), known, "a trace by hand has its answer");
                }
                taker.file(&trace.file, NO_CHANNEL)?;
            }
        }
    }
    Ok(())
}

/// The short traces for one handle on two adapters.
pub fn short() -> Vec<Vec<u8>> {
    let file = |(steps, _): Made| {
        let mut trace = Trace::new(2001);
        for (link, step) in &steps {
            take(&mut trace, [(0, 0x40), (0x0100, 0x40)][*link], step);
        }
        trace.file
    };
    made().into_iter().map(file).collect()
}

/// The frames and the unfinished that the oracle finds.
fn found(file: &[u8]) -> Option<[u64; 2]> {
    let answer = expected::import_strict(file, NO_CHANNEL);
    (answer.number == 0).then(|| [answer.values[1], answer.values[2]])
}

/// Every sequence of `n` steps on one handle of two adapters that begin and end PDUs, frames, sessions and links, and name
/// channels; then data on those.
pub fn steps(taker: &mut dyn Taker, n: usize) -> Checked {
    let mut each = vec![
        Pdu(Tx, 0x42, trace::sabm(0)),
        Pdu(Tx, 0x42, trace::sabm(18)),
        Pdu(Tx, 1, trace::request(1, 0x41)),
        Pdu(Tx, 1, trace::request(3, 0x30)),
        Pdu(Rx, 1, trace::response(0x31, 0x30, 0)),
    ];
    each.extend(halves(1).into_iter().chain(parts(2)));
    let alphabet: Vec<(Pair, Step)> =
        each.into_iter().flat_map(|step| [0, 1].map(|index| ((index, 0x40), step.clone()))).collect();
    sequences(n, &alphabet, &Trace::new(2001), &|trace, (pair, step)| take(trace, *pair, step), &mut |trace| {
        for (index, direction, cid) in [(0, Rx, 0x30), (1, Tx, 0x31), (1, Rx, 0x41)] {
            take(trace, (index, 0x40), &Pdu(direction, cid, data(&ack(3))));
        }
        taker.file(&trace.file, NO_CHANNEL)
    })
}
