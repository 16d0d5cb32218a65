//! The FCS of UIH frames: each file in both positions of the switch, by both rules and in both containers. With the switch off
//! import is held to the oracle as it is, and with the switch on to the oracle's import of the file without its wrong frames.

use crate::answer::{Answer, Checked, Container, Subject, NO_CHANNEL, NUMBERS};
use crate::codec::each_string;
use crate::containers::ByContainer;
use crate::expected::{self, LONGEST_FILE};
use crate::fcs;
use crate::import::{self, ack, sequences};
use crate::items;
use crate::model::BY_02;
use crate::pcap::{self, FORMS};
use crate::rng::Rng;
use crate::trace::{self, framed, l2cap, uih, wrong, Trace};
use crate::Options;
use oracle::capture::Direction::{self, Rx, Tx};
use oracle::capture::BTSNOOP_EPOCH_DELTA_US as EPOCH;

/// The calls that can check the FCS.
pub struct Switch<'a> {
    btsnoop: ByContainer<'a>,
    pcap: ByContainer<'a>,
    turn: usize,
}

/// Takes the files of both containers that generators make.
pub trait Both {
    /// A file of one container.
    fn one(&mut self, container: Container, file: &[u8], channel: u32) -> Checked;

    /// How many btsnoop files there were.
    fn turn(&mut self) -> &mut usize;

    /// The btsnoop file, and if it has a header the same packets as pcap.
    fn file(&mut self, file: &[u8], channel: u32) -> Checked {
        self.one(Container::Btsnoop, file, channel)?;
        if file.len() < 16 {
            return Ok(());
        }
        *self.turn() += 1;
        let form = FORMS[*self.turn() % 4];
        self.one(Container::Pcap, &pcap::of_btsnoop(file, form), channel)
    }
}

impl<'a> Switch<'a> {
    pub fn new(subject: &'a dyn Subject) -> Switch<'a> {
        let [btsnoop, pcap] =
            [Container::Btsnoop, Container::Pcap].map(|container| ByContainer::new(subject, container));
        Switch { btsnoop, pcap, turn: 0 }
    }

    /// How many calls were to be answered with each number.
    pub fn answers(&self) -> [u64; NUMBERS] {
        let [one, other] = [self.btsnoop.answers(), self.pcap.answers()];
        std::array::from_fn(|number| one[number] + other[number])
    }
}

impl Both for Switch<'_> {
    fn one(&mut self, container: Container, file: &[u8], channel: u32) -> Checked {
        let calls = match container {
            Container::Btsnoop => &mut self.btsnoop,
            Container::Pcap => &mut self.pcap,
        };
        import::smallest(container, file, &mut |file| {
            calls.imported(file, channel, &expected::by_both_rules(container, file, channel))
        })
    }

    fn turn(&mut self) -> &mut usize {
        &mut self.turn
    }
}

// ---- the check

/// What is known of some heads, by address and control.
const KNOWN: [(u8, u8, u8); 6] = [
    (0x49, 0xEF, 0x14),
    (0x4B, 0xEF, 0xCE),
    (0x03, 0xEF, 0x70),
    (0x01, 0xEF, 0xAA),
    (0x4B, 0xFF, 0xD2),
    (0x49, 0xFF, 0x08),
];

/// The addresses and the controls of UIH frames.
fn heads() -> impl Iterator<Item = (u8, u8)> {
    (0..=255).flat_map(|address| [0xEF, 0xFF].map(|control| (address, control)))
}

/// The two ways to compute the check agree.
fn checks_agree() {
    for (address, control, fcs) in KNOWN {
        assert_eq!(fcs::right(address, control), fcs, "the FCS of {address:02X} {control:02X}");
    }
    for address in 0..=255 {
        for control in 0..=255 {
            assert_eq!(fcs::right(address, control), (BY_02.right)(&[address, control]), "both checks agree");
        }
    }
}

/// The answer with the frame of the worked example so many times, and so many wrong ones; or 6.
fn told(dlci: u8, frames: usize, wrong: u64, tail: usize) -> Answer {
    if frames == 0 || dlci == 0 {
        return Answer::refused(6, &[]);
    }
    let (list, frames) = (items::span_list(&vec![(0, Rx, ack(0)); frames]), frames as u64);
    Answer::imported([dlci.into(), frames, 0, tail as u64, wrong], [9 * frames, 0, 0, 0], list)
}

/// Every address and control, with these FCS bytes: alone, and behind a frame of the same DLCI.
fn every_head(calls: &mut Switch, bytes: &dyn Fn(u8) -> Vec<u8>) -> Checked {
    for (address, control) in heads() {
        let dlci = address / 4;
        let credit = if control == 0xFF { Some(0x3E) } else { None };
        let right = fcs::right(address, control);
        for byte in bytes(right) {
            for before in [0, 1] {
                let mut trace = Trace::new(1001);
                let first = uih(dlci, &ack(0), None, false);
                let frame = trace::with_fcs(framed(address, &ack(0), credit, false), byte);
                [first, frame][1 - before..].iter().for_each(|f| trace.pdu(Rx, EPOCH, 0x40, 0x41, f));
                let (tail, good) = (trace.file.len(), byte == right);
                let off = told(dlci, before + 1, 0, tail);
                let on = told(dlci, before + usize::from(good), u64::from(!good), tail);
                let both = [off, on];
                let found = expected::import(Container::Btsnoop, &trace.file, NO_CHANNEL, false);
                assert!(found == both, "a head has its answer: {:02X?}", trace.file);
                calls.btsnoop.imported(&trace.file, NO_CHANNEL, &[both.clone(), both])?;
            }
        }
    }
    Ok(())
}

/// The right one and some that are near it.
fn few(right: u8) -> Vec<u8> {
    vec![right, right ^ 1, right ^ 0x80, !right]
}

fn all(_: u8) -> Vec<u8> {
    (0..=255).collect()
}

// ---- fixed traces

/// A PDU of an adapter's index and a handle, by direction, CID and payload.
#[derive(Clone)]
struct Step {
    pair: (u16, u16),
    direction: Direction,
    cid: u16,
    payload: Vec<u8>,
}

fn on(direction: Direction, cid: u16, payload: Vec<u8>) -> Step {
    Step { pair: (0, 0x40), direction, cid, payload }
}

/// Received where most data are.
fn sent(payload: Vec<u8>) -> Step {
    on(Rx, 0x41, payload)
}

fn take(trace: &mut Trace, step: &Step) {
    let stamp = EPOCH + trace.file.len() as u64 * 1000;
    trace.on(step.pair.0).pdu(step.direction, stamp, step.pair.1, step.cid, &step.payload);
}

/// DLCI, frames, unfinished and wrong frames; or 6.
type Known = Option<[u64; 4]>;

/// A made trace: the channel it is imported by, its PDUs, and what is known of it with the switch off and on.
struct Made {
    channel: u32,
    steps: Vec<Step>,
    known: [Known; 2],
}

fn made(steps: Vec<Step>, off: Known, on: Known) -> Made {
    Made { channel: NO_CHANNEL, steps, known: [off, on] }
}

/// So many frames of DLCI 18 with the switch off; and on, with wrong ones.
fn frames(steps: Vec<Step>, off: u64, on: u64, wrong: u64) -> Made {
    let known = |frames: u64, wrong: u64| (frames > 0).then_some([18, frames, 0, wrong]);
    made(steps, known(off, 0), known(on, wrong))
}

/// A frame on DLCI 18.
fn data(information: &[u8]) -> Vec<u8> {
    uih(18, information, None, false)
}

fn bad(information: &[u8]) -> Vec<u8> {
    wrong(data(information))
}

/// A frame, and these PDUs before or behind it.
fn about(others: &[Step], off: u64, on: u64, wrong: u64) -> [Made; 2] {
    let good = [sent(data(&ack(1)))];
    [frames([others, &good].concat(), off, on, wrong), frames([&good, others].concat(), off, on, wrong)]
}

/// Wrong frames of each form, before and behind a good one.
fn forms() -> Vec<Made> {
    let long = [&[0; 300][..], &ack(2)].concat();
    let mut all = vec![frames(vec![sent(bad(&ack(1)))], 1, 0, 0), frames(vec![sent(data(&ack(1)))], 1, 1, 0)];
    for credit in [None, Some(0), Some(0x3C)] {
        for wide in [false, true] {
            let frame = |information: &[u8]| uih(18, information, credit, wide);
            all.extend(about(&[sent(frame(&ack(2)))], 2, 2, 0));
            all.extend(about(&[sent(wrong(frame(&ack(2))))], 2, 1, 1));
            all.extend(about(&[sent(frame(&[]))], 1, 1, 0));
            all.extend(about(&[sent(wrong(frame(&[])))], 1, 1, 1));
            all.extend(about(&[sent(wrong(frame(&long)))], 2, 1, 1));
            all.extend(about(&[sent(frame(&long))], 2, 2, 0));
        }
    }
    let empty = [data(&[]), uih(18, &[], Some(1), false), uih(18, &[], None, true)].map(|frame| sent(wrong(frame)));
    all.extend(about(&empty, 1, 1, 3));
    all.extend(about(&vec![sent(bad(&[])); 300], 1, 1, 300));
    all
}

/// Bytes behind the FCS, and frames that are cut short.
fn ends() -> Vec<Made> {
    let mut all = Vec::new();
    for credit in [None, Some(7)] {
        let frame = uih(18, &ack(2), credit, false);
        let right = frame[frame.len() - 1];
        for behind in [&[right][..], &[right ^ 1], &[0, right], &[0; 9]] {
            all.extend(about(&[sent([&frame[..], behind].concat())], 2, 2, 0));
            all.extend(about(&[sent([&wrong(frame.clone())[..], behind].concat())], 2, 1, 1));
        }
        for wide in [false, true] {
            for information in [&[][..], &ack(2)] {
                let frame = uih(18, information, credit, wide);
                for n in 0..frame.len() {
                    all.extend(about(&[sent(frame[..n].to_vec())], 1, 1, 0));
                }
            }
        }
    }
    all
}

/// A wrong frame between the halves of a frame: they join.
fn between() -> Vec<Made> {
    let wire = ack(1);
    let [one, two] = [&wire[..5], &wire[5..]].map(|half| sent(data(half)));
    let joined = |step: Step, off: u64| frames(vec![one.clone(), step, two.clone()], off, 1, 1);
    let other = |step: Step, off: u64, wrong: u64| frames(vec![one.clone(), step, two.clone()], off, 1, wrong);
    let mut all = vec![
        joined(sent(bad(&[])), 1),
        joined(sent(wrong(uih(18, &[], Some(9), false))), 1),
        joined(sent(bad(&[0x3C])), 0),
        joined(sent(bad(&ack(2))), 0),
        joined(sent(bad(&[0x01])), 0),
        joined(on(Tx, 0x42, bad(&ack(2))), 2),
        joined(on(Rx, 0x43, bad(&ack(2))), 2),
        other(sent(wrong(uih(19, &ack(2), None, false))), 1, 0),
        other(sent(wrong(uih(0, &[], None, false))), 1, 0),
    ];
    // A SABM ends the halves' stretch, whatever its FCS.
    for dlci in [0, 18] {
        let head = [dlci << 2 | 3, 0x3F, 0x01];
        let right = fcs::over(&head);
        for byte in [right, right ^ 1, fcs::right(head[0], head[1]), 0] {
            let sabm = sent([&head[..], &[byte]].concat());
            let steps = vec![one.clone(), sabm, two.clone(), sent(data(&ack(3)))];
            all.push(made(steps, Some([18, 1, 1, 0]), Some([18, 1, 1, 0])));
        }
    }
    // What is held at the end.
    all.push(made(vec![sent(data(&wire)), sent(bad(&[0x3E]))], Some([18, 1, 1, 0]), Some([18, 1, 0, 1])));
    let closed = vec![sent(data(&wire)), sent(data(&[0x3E])), sent(bad(&[0x3C]))];
    all.push(made(closed, Some([18, 2, 0, 0]), Some([18, 1, 1, 1])));
    all
}

/// Wrong frames on other DLCIs and links, and which DLCI is chosen.
fn choices() -> Vec<Made> {
    let good = sent(data(&ack(1)));
    let of = |dlci: u8| sent(uih(dlci, &ack(2), None, false));
    let wrong_of = |dlci: u8, information: &[u8]| sent(wrong(uih(dlci, information, None, false)));
    let mut all = Vec::new();
    // Not counted, but for a link of its own on the DLCI.
    for dlci in [0, 1, 16, 17, 19, 20, 50, 63] {
        let known = Some([18, 1, 0, 0]);
        all.push(made(vec![good.clone(), wrong_of(dlci, &ack(2)), wrong_of(dlci, &[])], known, known));
    }
    for pair in [(0, 0x41), (0, 0), (1, 0x40), (0xFFFF, 0xFFF)] {
        all.extend(about(&[Step { pair, ..sent(bad(&ack(2))) }], 2, 1, 1));
    }
    all.extend(about(&[on(Tx, 0x50, bad(&ack(2)))], 2, 1, 1));
    // Another DLCI than with the switch off: that of the first good piece.
    let other = Some([20, 1, 0, 0]);
    let both = Some([20, 2, 0, 0]);
    let own = Some([18, 1, 0, 0]);
    all.push(made(vec![wrong_of(20, &ack(2)), good.clone()], other, own));
    all.push(made(vec![wrong_of(20, &ack(2)), good.clone(), of(20)], both, own));
    all.push(made(vec![wrong_of(20, &[]), good.clone(), of(20)], own, own));
    all.push(made(vec![wrong_of(20, &[0x3E]), wrong_of(20, &[0x3C]), of(20), good.clone()], both, Some([20, 1, 0, 2])));
    // With the switch off its frame has a byte too many.
    all.push(made(vec![wrong_of(20, &[0x3E]), good.clone(), of(20)], own, own));
    all.push(made(vec![wrong_of(20, &[0x3E]), of(20), good.clone()], own, Some([20, 1, 0, 1])));
    // Without its wrong frames the first DLCI has a frame, or none.
    all.push(made(vec![of(20), wrong_of(20, &ack(2)), good.clone()], both, Some([20, 1, 0, 1])));
    all.push(made(vec![sent(uih(20, &[0x3E, 0x3C], None, false)), wrong_of(20, &ack(2)), good.clone()], both, own));
    // Both DLCIs of a channel that is asked for.
    for (steps, off, on) in [
        (vec![wrong_of(19, &ack(2)), good.clone()], Some([19, 1, 0, 0]), own),
        (vec![of(19), wrong_of(18, &ack(2)), good.clone()], Some([19, 1, 0, 0]), Some([19, 1, 0, 0])),
        (vec![of(20), good.clone(), wrong_of(18, &[]), wrong_of(20, &[])], own, Some([18, 1, 0, 1])),
        (vec![of(20), wrong_of(18, &ack(2))], own, None),
    ] {
        all.push(Made { channel: 9, steps, known: [off, on] });
    }
    all
}

/// Wrong frames of PDUs that are not tried, by the whole file, or done with before.
fn untried() -> Vec<Made> {
    let asks = |psm: u16, source: u16| on(Tx, 1, trace::request(psm, source));
    let wide = |fcs: fn(Vec<u8>) -> Vec<u8>| fcs(uih(18, &ack(2), None, true));
    let behind = |request: &[u8]| on(Rx, 1, trace::asking_behind(wide(wrong), 9, request));
    let right_behind = |request: &[u8]| on(Rx, 1, trace::asking_behind(wide(|frame| frame), 9, request));
    let admits = asks(3, 1);
    let mut all = Vec::new();
    all.extend(about(&[on(Rx, 0x20, bad(&ack(2)))], 1, 1, 0));
    all.extend(about(&[on(Rx, 0x3F, bad(&[]))], 1, 1, 0));
    for frame in [bad(&ack(2)), wrong(uih(18, &ack(2), Some(1), false))] {
        let (named, low) = (on(Rx, 0x43, frame.clone()), on(Rx, 0x30, frame));
        all.extend(about(&[named.clone(), asks(1, 0x43)], 1, 1, 0));
        all.extend(about(&[asks(5, 0x43), named.clone()], 1, 1, 0));
        all.extend(about(&[named.clone(), asks(3, 0x43)], 2, 1, 1));
        all.extend(about(&[low.clone(), asks(3, 0x30)], 2, 1, 1));
        all.extend(about(&[asks(3, 0x30), low.clone()], 2, 1, 1));
        let answered = on(Rx, 1, trace::response(0x31, 0x30, 0));
        let back = Step { direction: Tx, cid: 0x31, ..low.clone() };
        all.extend(about(&[back.clone(), asks(3, 0x30), answered.clone()], 2, 1, 1));
        all.extend(about(&[back.clone(), asks(1, 0x30), answered], 1, 1, 0));
        all.extend(about(&[back, asks(3, 0x30), on(Rx, 1, trace::response(0x31, 0x30, 1))], 1, 1, 0));
    }
    // An empty one that is tried in the cut before the request.
    all.extend(about(&[on(Rx, 0x43, bad(&[])), asks(5, 0x43)], 1, 1, 0));
    // On CID 1, which its own request admits.
    all.extend(about(&[admits.clone(), on(Rx, 1, wide(wrong))], 2, 1, 1));
    all.extend(about(&[admits.clone(), on(Rx, 1, wide(|frame| frame))], 2, 2, 0));
    all.extend(about(&[admits.clone(), behind(&trace::request(1, 0x55))], 2, 1, 1));
    all.extend(about(&[admits.clone(), behind(&trace::command(2, 1, &[3, 0]))], 1, 1, 0));
    all.extend(about(&[admits.clone(), behind(&trace::request(3, 0x55))], 1, 1, 0));
    all.extend(about(&[admits.clone(), right_behind(&trace::request(3, 0x55))], 1, 1, 0));
    all.extend(about(&[admits, right_behind(&trace::request(1, 0x55))], 2, 2, 0));
    all
}

/// What the oracle finds: DLCI, frames, unfinished and wrong frames, or 6.
fn found(answer: &Answer) -> Known {
    (answer.number == 0).then(|| [0, 1, 2, 5].map(|i| answer.values[i]))
}

/// The made traces; with `cuts` each beginning of them too.
pub fn by_hand(calls: &mut dyn Both, cuts: bool) -> Checked {
    for (turn, made) in [forms(), ends(), between(), choices(), untried()].into_iter().flatten().enumerate() {
        let adapters = made.steps.iter().any(|step| step.pair.0 != 0);
        let mut trace = Trace::new(if adapters { 2001 } else { trace::DATALINKS[turn % 3] });
        made.steps.iter().for_each(|step| take(&mut trace, step));
        let both = expected::import(Container::Btsnoop, &trace.file, made.channel, false);
        assert!(both.each_ref().map(found) == made.known, "a made trace has its answers: {:02X?}", trace.file);
        calls.file(&trace.file, made.channel)?;
        for &end in trace.ends.iter().filter(|_| cuts && trace.file.len() < 1000) {
            for n in end - 24..=end {
                calls.one(Container::Btsnoop, &trace.file[..n], made.channel)?;
            }
        }
    }
    let example = import::example().file;
    let both = expected::import(Container::Btsnoop, &example, NO_CHANNEL, false);
    assert!(both.each_ref().map(found) == [Some([18, 1, 0, 0]), None], "the worked example has a wrong FCS");
    calls.file(&example, NO_CHANNEL)
}

/// A wrong frame in fragments, cut at every two places, behind a good one: its control stands in any of them.
pub fn in_fragments(calls: &mut dyn Both) -> Checked {
    for credit in [None, Some(5)] {
        let pdu = l2cap(0x41, &wrong(uih(18, &ack(2), credit, true)));
        for one in 0..=pdu.len() {
            for two in one..=pdu.len() {
                let mut trace = Trace::new(trace::DATALINKS[(one + two) % 3]);
                trace.pdu(Rx, EPOCH, 0x40, 0x41, &data(&ack(1)));
                for (flag, part) in [(2, &pdu[..one]), (1, &pdu[one..two]), (1, &pdu[two..])] {
                    trace.fragment(Rx, EPOCH + 1000, 0x40, flag, part);
                }
                calls.file(&trace.file, NO_CHANNEL)?;
            }
        }
    }
    Ok(())
}

// ---- every few steps, every short frame

/// Every sequence of `n` steps with right and wrong FCS bytes, and a frame behind them.
pub fn steps(calls: &mut dyn Both, n: usize) -> Checked {
    let wire = ack(1);
    let alphabet = [
        sent(data(&wire[..5])),
        sent(data(&wire[5..])),
        sent(bad(&wire[..5])),
        sent(bad(&wire[5..])),
        sent(bad(&[])),
        on(Tx, 0x42, wrong(uih(18, &ack(2), Some(0x3E), false))),
        on(Tx, 0x42, uih(18, &ack(2), Some(0x3C), true)),
        sent(uih(20, &ack(3), None, false)),
        sent(wrong(uih(20, &ack(3), None, false))),
        sent([&data(&ack(4))[..10], &[0x12]].concat()),
        sent(vec![0x4B, 0x3F, 0x01, 0x00]),
        on(Tx, 1, trace::request(1, 0x41)),
    ];
    sequences(n, &alphabet, &Trace::new(1001), &|trace, step| take(trace, step), &mut |trace| {
        take(trace, &on(Rx, 0x43, data(&ack(5))));
        calls.file(&trace.file, NO_CHANNEL)
    })
}

/// Every RFCOMM frame of up to `n` bytes over those that matter, FCS bytes among them, between the halves of a frame.
pub fn short_frames(calls: &mut dyn Both, n: usize) -> Checked {
    let wire = ack(1);
    let mut start = Trace::new(2001);
    take(&mut start, &sent(data(&wire[..5])));
    let [plain, credit] = [0xEF, 0xFF].map(|control| fcs::right(0x49, control));
    for length in 0..=n {
        each_string(length, &[0x49, 0xEF, 0xFF, 0x01, 0x03, 0x00, 0x3F, plain, credit], &mut |payload| {
            if payload.len() > 3 && ![0xEF, 0xFF].contains(&payload[1]) {
                return Ok(());
            }
            let mut trace = start.clone();
            take(&mut trace, &sent(payload.to_vec()));
            take(&mut trace, &sent(data(&wire[5..])));
            calls.one(Container::Btsnoop, &trace.file, NO_CHANNEL)
        })?;
    }
    Ok(())
}

// ---- random files, and full ones

pub fn random(calls: &mut dyn Both, rng: &mut Rng, size: u64) -> Checked {
    for i in 0..size {
        for container in [Container::Btsnoop, Container::Pcap] {
            let (trace, channel) = trace::structured_in(rng, container, if i % 100 == 0 { 600 } else { 60 });
            calls.one(container, &trace.file, channel)?;
        }
    }
    Ok(())
}

pub fn damaged(calls: &mut dyn Both, rng: &mut Rng, size: u64) -> Checked {
    for _ in 0..size / 4 {
        for container in [Container::Btsnoop, Container::Pcap] {
            let (trace, channel) = trace::structured_in(rng, container, 30);
            for _ in 0..4 {
                calls.one(container, &trace::damaged(rng, &trace), channel)?;
            }
        }
    }
    Ok(())
}

/// A btsnoop file of at most so many bytes, full of empty frames with a wrong FCS, or of pieces and wrong frames in turn.
fn full(length: usize, pieces: bool) -> Vec<u8> {
    let mut trace = Trace::new(1001);
    let wire = ack(1);
    for i in 0.. {
        let information = if pieces { &wire[i / 2 % 9..i / 2 % 9 + 1] } else { &[] };
        let frame = data(information);
        let frame = if pieces && i % 2 == 0 { frame } else { wrong(frame) };
        if trace.file.len() + 36 + information.len() > length.saturating_sub(50) {
            break;
        }
        trace.pdu(Rx, EPOCH, 0x40, 0x41, &frame);
    }
    if length > 66 {
        trace.pdu(Rx, EPOCH, 0x40, 0x41, &data(&ack(2)));
    }
    trace.file
}

/// Files of many lengths that have the most wrong frames.
pub fn most(calls: &mut dyn Both, longest: usize) -> Checked {
    for pieces in [false, true] {
        for length in (16..=longest).step_by(7).chain([LONGEST_FILE / 8, LONGEST_FILE]) {
            calls.one(Container::Btsnoop, &full(length, pieces), NO_CHANNEL)?;
        }
    }
    Ok(())
}

// ---- the group and its parts

pub fn run(subject: &dyn Subject, options: &Options) -> Checked {
    let size = options.size.unwrap_or(50_000);
    let mut rng = Rng::new(options.seed);
    let mut log = options.log("fcs");
    let mut calls = Switch::new(subject);
    checks_agree();
    every_head(&mut calls, if options.quiet { &few } else { &all })?;
    log.counts("every address, control and FCS", &calls.answers());
    by_hand(&mut calls, true)?;
    log.counts("fixed traces, and their cuts", &calls.answers());
    in_fragments(&mut calls)?;
    log.counts("a wrong frame in fragments", &calls.answers());
    steps(&mut calls, if options.quiet { 3 } else { 4 })?;
    log.counts("every few steps", &calls.answers());
    short_frames(&mut calls, 5)?;
    log.counts("every short frame", &calls.answers());
    random(&mut calls, &mut rng, size / 5)?;
    log.counts("random traces", &calls.answers());
    damaged(&mut calls, &mut rng, size / 5)?;
    log.counts("damaged traces", &calls.answers());
    most(&mut calls, 1000)?;
    log.counts("files full of wrong frames, up to 1,048,576 bytes", &calls.answers());
    log.total(&calls.answers());
    Ok(())
}

/// One part alone; in a short run more of what is random.
pub fn run_heads(subject: &dyn Subject, _: &Options) -> Checked {
    every_head(&mut Switch::new(subject), &few)
}

pub fn run_by_hand(subject: &dyn Subject, _: &Options) -> Checked {
    by_hand(&mut Switch::new(subject), false)
}

pub fn run_steps(subject: &dyn Subject, _: &Options) -> Checked {
    steps(&mut Switch::new(subject), 3)
}

pub fn run_short(subject: &dyn Subject, _: &Options) -> Checked {
    short_frames(&mut Switch::new(subject), 5)
}

pub fn run_random(subject: &dyn Subject, options: &Options) -> Checked {
    let size = options.size.unwrap_or(50_000).max(1_000);
    random(&mut Switch::new(subject), &mut Rng::new(options.seed), size)
}
