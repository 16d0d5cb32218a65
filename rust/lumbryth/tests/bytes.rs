//! Where every information byte went: each of the four numbers by the scanning rule, that they add up to what was taken in, and what
//! counts nowhere.

#[allow(dead_code)]
#[path = "../../../examples/trace/mod.rs"]
mod trace;

use lumbryth::Direction::{self, Rx, Tx};
use lumbryth::{import, import_stretches, import_stretches_with, import_with, pack, Account, Container, Options};
use lumbryth::{TailRule, HELD_MAX};
use trace::pcap::{twin, FORMS};
use trace::{control, pdu, signal, uih, Trace};

/// What a record has: handle, direction, CID, RFCOMM frame.
type Sent = (u16, Direction, u16, Vec<u8>);

/// A trace of RFCOMM frames, one to a record.
fn trace_of(frames: &[Sent]) -> Vec<u8> {
    let mut trace = Trace::new(1002);
    for (us, (handle, direction, cid, frame)) in (0..).step_by(1000).zip(frames) {
        trace.fragment(*direction, us, *handle, true, &pdu(*cid, frame));
    }
    trace.file
}

/// Information on DLCI 18, which is received.
fn piece(information: &[u8]) -> Sent {
    (64, Rx, 0x41, uih(18, false, None, information))
}

/// The same with another FCS.
fn wrong(information: &[u8]) -> Sent {
    let (handle, direction, cid, mut frame) = piece(information);
    *frame.last_mut().unwrap() ^= 0x20;
    (handle, direction, cid, frame)
}

/// The shortest frame there is.
fn wire() -> Vec<u8> {
    pack(0x01, 0, &[]).unwrap()
}

fn tolerant() -> Options {
    Options::default().with_tail(TailRule::Tolerant)
}

/// In spans, dropped, cleared, left.
fn numbers(bytes: Account) -> [usize; 4] {
    let four = [bytes.in_spans, bytes.dropped, bytes.cleared, bytes.left];
    assert_eq!(bytes.taken_in(), four.iter().sum());
    four
}

/// The account of a trace, by each call and in each container. It fits the spans and the stretches.
#[track_caller]
fn account(file: &[u8], options: &Options) -> [usize; 4] {
    let (imported, open) = import_stretches_with(file, options).unwrap();
    assert_eq!(import_with(file, options), Ok(imported.clone()));
    let bytes = imported.bytes;
    assert_eq!(bytes.in_spans, imported.spans.iter().map(|span| span.wire.len()).sum());
    assert_eq!(bytes.left, open.iter().map(|stretch| stretch.held).sum());
    assert_eq!(bytes.left == 0, imported.unfinished == 0);
    assert!(bytes.cleared == 0 || bytes.cleared > HELD_MAX);
    if *options == tolerant() {
        assert_eq!(import(file, None, TailRule::Tolerant), Ok(imported.clone()));
        assert_eq!(import_stretches(file, None, TailRule::Tolerant), Ok((imported, open)));
    }
    numbers(bytes)
}

/// The account of frames of which one unpacks, also in pcap.
#[track_caller]
fn of_frames(frames: &[Sent]) -> [usize; 4] {
    let file = trace_of(frames);
    let four = account(&file, &tolerant());
    for form in FORMS {
        assert_eq!(account(&twin(&file, form), &tolerant().with_container(Container::Pcap)), four, "{form:?}");
    }
    four
}

#[test]
fn the_examples() {
    let examples: [(&[u8], [usize; 4]); 5] = [
        (include_bytes!("../../../examples/headset.btsnoop"), [493, 0, 0, 0]),
        (include_bytes!("../../../examples/cut.btsnoop"), [470, 0, 0, 8]),
        (include_bytes!("../../../examples/two-adapters.btsnoop"), [108, 0, 0, 8]),
        (include_bytes!("../../../examples/noisy.btsnoop"), [129, 0, 0, 0]),
        (include_bytes!("../../../examples/late.btsnoop"), [81, 18, 0, 6]),
    ];
    for (file, four) in examples {
        assert_eq!(account(file, &tolerant()), four);
        assert_eq!(account(file, &tolerant().with_channel(9)), four);
    }
    let [.., (noisy, _), _] = examples;
    assert_eq!(account(noisy, &tolerant().with_check_fcs(true)), [110, 0, 0, 0]);
    let pcap = tolerant().with_container(Container::Pcap);
    assert_eq!(account(include_bytes!("../../../examples/headset.pcap"), &pcap), [493, 0, 0, 0]);
    assert_eq!(account(include_bytes!("../../../examples/cut.pcap"), &pcap), [470, 0, 0, 8]);
}

/// Every cut of some examples: what is taken in only grows, and so does what is in spans. Of the two whose recorder was there from the
/// beginning nothing is dropped.
#[test]
fn every_cut() {
    let examples: [&[u8]; 3] = [
        include_bytes!("../../../examples/headset.btsnoop"),
        include_bytes!("../../../examples/two-adapters.btsnoop"),
        include_bytes!("../../../examples/late.btsnoop"),
    ];
    for (n, whole) in examples.into_iter().enumerate() {
        let (mut most, mut spans) = (0, 0);
        for length in (16..=whole.len()).filter(|length| import(&whole[..*length], None, TailRule::Tolerant).is_ok()) {
            let [in_spans, dropped, cleared, left] = account(&whole[..length], &tolerant());
            assert!(cleared == 0 && (n == 2 || dropped == 0), "cut at {length}");
            let all = in_spans + dropped + left;
            assert!(all >= most && in_spans >= spans, "cut at {length}");
            (most, spans) = (all, in_spans);
        }
        assert_eq!(most, [493, 116, 105][n]);
    }
}

/// Each byte of a piece by the rule, in whatever pieces they come.
#[test]
fn each_place() {
    let cases: [(&[u8], [usize; 4]); 12] = [
        (&[], [0, 0, 0, 0]),
        // Before a start marker, and for want of one.
        (&[1], [0, 1, 0, 0]),
        (&[1, 0x3D, 3], [0, 3, 0, 0]),
        (&[1, 2, 0x3E, 0x3C], [2, 2, 0, 0]),
        // An end marker that nothing begins.
        (&[0x3C], [0, 1, 0, 0]),
        (&[0x3C, 0x3C, 0x3E, 1, 0x3C, 0x3C], [3, 3, 0, 0]),
        // A start marker inside begins nothing.
        (&[0x3E, 0x3E, 0x3C], [3, 0, 0, 0]),
        (&[0x3E, 1, 0x3E, 0x3C, 2, 0x3C], [4, 2, 0, 0]),
        // Without an end marker.
        (&[0x3E], [0, 0, 0, 1]),
        (&[1, 0x3E, 0x3E, 2], [0, 1, 0, 3]),
        // Before, between and behind.
        (&[1, 0x3E, 2, 0x3C, 3, 3, 0x3E, 4, 0x3C, 5], [6, 4, 0, 0]),
        (&[1, 0x3E, 2, 0x3C, 3, 3, 0x3E, 4, 0x3C, 5, 0x3E, 6], [6, 4, 0, 2]),
    ];
    let wire = wire();
    for (bytes, [in_spans, dropped, cleared, left]) in cases {
        let due = [wire.len() + in_spans, dropped, cleared, left];
        assert_eq!(of_frames(&[piece(&wire), piece(bytes)]), due, "{bytes:02X?}");
        assert_eq!(of_frames(&[piece(&[&wire, bytes].concat())]), due, "{bytes:02X?}");
        let single: Vec<Sent> = wire.iter().chain(bytes).map(|byte| piece(&[*byte])).collect();
        assert_eq!(of_frames(&single), due, "{bytes:02X?}");
        for at in 0..bytes.len() {
            let (first, second) = bytes.split_at(at);
            assert_eq!(of_frames(&[piece(&wire), piece(first), piece(second)]), due, "{bytes:02X?}, {at}");
        }
    }
    // A frame that does not unpack is a span like any other.
    let mut damaged = wire.clone();
    damaged[1] ^= 0x40;
    assert_eq!(of_frames(&[piece(&damaged), piece(&wire)]), [18, 0, 0, 0]);
}

/// So many bytes from a start marker on, without an end marker, in pieces.
fn long(n: usize) -> Vec<Sent> {
    let bytes = [&[0x3E], &vec![0; n - 1][..]].concat();
    bytes.chunks(32_767).map(piece).collect()
}

#[test]
fn over_the_limit() {
    let wire = wire();
    let after = |first: &[Sent], more: &[&[u8]]| -> [usize; 4] {
        let more: Vec<Sent> = more.iter().map(|bytes| piece(bytes)).collect();
        of_frames(&[&[piece(&wire)], first, &more].concat())
    };
    let full = long(HELD_MAX);
    // As many as are held, and one more.
    assert_eq!(after(&full, &[]), [9, 0, 0, 65_536]);
    assert_eq!(after(&long(HELD_MAX + 1), &[]), [9, 0, 65_537, 0]);
    assert_eq!(after(&full, &[&[0]]), [9, 0, 65_537, 0]);
    assert_eq!(after(&full, &[&[0x3E]]), [9, 0, 65_537, 0]);
    // All of it goes, with the longest piece there is.
    assert_eq!(after(&full, &[&[0; 32_767]]), [9, 0, 98_303, 0]);
    // An end marker in the same piece is in time.
    assert_eq!(after(&full, &[&[0x3C]]), [9 + 65_537, 0, 0, 0]);
    assert_eq!(after(&full, &[&[0, 0, 0x3C, 1]]), [9 + 65_539, 1, 0, 0]);
    // What follows is dropped up to the next start marker.
    assert_eq!(after(&full, &[&[0], &[1, 2], &[0x3C], &[3, 0x3E, 4]]), [9, 4, 65_537, 2]);
    assert_eq!(after(&full, &[&[0], &wire]), [18, 0, 65_537, 0]);
    // What was dropped before it is not cleared, and what is in a span is not.
    let behind = [&[7, 7], &wire[..], &[7, 0x3E]].concat();
    let zeros = [0; 32_767];
    assert_eq!(after(&[], &[&behind, &zeros, &zeros]), [18, 3, 0, 65_535]);
    assert_eq!(after(&[], &[&behind, &zeros, &zeros, &[0, 0]]), [18, 3, 65_537, 0]);
    // Again and again; each counts.
    let twice: Vec<Sent> = [long(HELD_MAX + 1), long(HELD_MAX + 5)].concat();
    assert_eq!(after(&twice, &[&[0x3E]]), [9, 0, 65_537 + 65_541, 1]);
    // The other way has a buffer of its own.
    let sent = |(handle, _, cid, frame): Sent| (handle, Tx, cid, frame);
    let both: Vec<Sent> = long(40_000).into_iter().flat_map(|one| [one.clone(), sent(one)]).collect();
    assert_eq!(after(&both, &[]), [9, 0, 0, 80_000]);
}

/// Each handle, direction, CID, session and link has its own buffer; the account is of all of them, and of one DLCI.
#[test]
fn of_all_stretches() {
    let wire = wire();
    let (begin, end) = wire.split_at(4);
    let on = |handle, direction, cid, bytes: &[u8]| (handle, direction, cid, uih(18, direction == Tx, None, bytes));
    let frames = [
        piece(&wire),
        piece(begin),
        on(65, Rx, 0x41, begin),
        on(64, Tx, 0x41, begin),
        on(64, Rx, 0x42, begin),
        // Their ends are those of the buffers that they come to.
        on(65, Rx, 0x41, end),
        on(66, Rx, 0x41, end),
        // Another DLCI does not count.
        (64, Rx, 0x41, uih(19, false, None, &wire)),
        (64, Rx, 0x41, uih(20, false, None, &[1, 2, 3])),
    ];
    assert_eq!(of_frames(&frames), [9 + 9, 5, 0, 3 * 4]);
    // A link or a session anew: what was held stays, and what comes then is not its end.
    for anew in [control(18, true, 0x3F), control(0, true, 0x3F)] {
        let frames = [piece(&wire), piece(begin), (64, Tx, 0x41, anew), piece(end), piece(&begin[..2])];
        assert_eq!(of_frames(&frames), [9, 5, 0, 4 + 2]);
    }
}

/// Where the FCS is checked, what comes with a wrong one counts nowhere.
#[test]
fn with_the_fcs_checked() {
    let wire = wire();
    let (begin, end) = wire.split_at(4);
    let frames = [
        wrong(&[1, 2, 3]),
        piece(&wire),
        wrong(&wire),
        piece(&[7]),
        piece(begin),
        wrong(&[0x3C]),
        piece(end),
        wrong(begin),
        piece(&end[..3]),
        piece(&begin[..2]),
    ];
    let file = trace_of(&frames);
    assert_eq!(account(&file, &tolerant().with_check_fcs(true)), [18, 1 + 3, 0, 2]);
    assert_eq!(account(&file, &tolerant()), [9 + 9 + 5, 3 + 1 + 5, 0, 4 + 3 + 2]);
    // So that a buffer is not over the limit by it.
    let mut frames = [&[piece(&wire)], &long(HELD_MAX)[..], &[wrong(&[0])]].concat();
    let checked = tolerant().with_check_fcs(true);
    assert_eq!(account(&trace_of(&frames), &checked), [9, 0, 0, 65_536]);
    assert_eq!(account(&trace_of(&frames), &tolerant()), [9, 0, 65_537, 0]);
    frames.push(piece(&[0x3C]));
    assert_eq!(account(&trace_of(&frames), &checked), [9 + 65_537, 0, 0, 0]);
    assert_eq!(account(&trace_of(&frames), &tolerant()), [9, 1, 65_537, 0]);
}

/// What counts nowhere: bytes that are not taken in on the DLCI.
#[test]
fn what_is_not_taken_in() {
    let wire = wire();
    let mut cut_short = uih(18, false, None, &[1, 2, 3]);
    cut_short.pop();
    let frames = [
        piece(&wire),
        // A credit byte is no information; nor is what follows the FCS.
        (64, Rx, 0x41, uih(18, false, Some(0x3E), &[])),
        (64, Rx, 0x41, [uih(18, false, None, &[5]), vec![0x3E, 1]].concat()),
        // Without its FCS it is no UIH frame. DLCI 0, and frames that carry nothing.
        (64, Rx, 0x41, cut_short),
        (64, Rx, 0x41, uih(0, false, None, &[1, 2, 3])),
        (64, Rx, 0x41, control(18, true, 0x53)),
    ];
    assert_eq!(of_frames(&frames), [9, 1, 0, 0]);
    // A channel of another service; a PDU that lacks its end; a record that passes the end of the file.
    let mut trace = Trace::new(1002);
    trace.fragment(Tx, 0, 64, true, &signal(2, 1, &[0x1001, 0x50]));
    trace.fragment(Rx, 0, 64, true, &pdu(0x50, &uih(18, false, None, &[1, 2, 3])));
    let data = |bytes: &[u8]| pdu(0x41, &uih(18, false, None, bytes));
    trace.fragment(Rx, 0, 64, true, &data(&wire));
    trace.fragment(Rx, 0, 64, true, &data(&[1; 40])[..30]);
    trace.fragment(Rx, 0, 64, true, &data(&[0x3E, 1]));
    trace.fragment(Rx, 0, 64, true, &data(&[2; 40])[..30]);
    trace.fragment(Tx, 0, 64, true, &data(&[3; 40]));
    assert_eq!(account(&trace.file, &tolerant()), [9, 40, 0, 2]);
    let cut = &trace.file[..trace.file.len() - 1];
    assert_eq!(account(cut, &tolerant()), [9, 0, 0, 2]);
}
