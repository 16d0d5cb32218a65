//! Traces of several adapters: what each command says of them, that one adapter is never named, and that links are told apart by
//! adapter and handle throughout.

mod common;
#[allow(dead_code)]
mod made;
#[allow(dead_code)]
#[path = "../../../examples/trace/mod.rs"]
mod trace;

use std::collections::BTreeMap;
use std::fs;
use std::path::Path;

use common::*;
use look::look;
use lumbryth::Direction::{self, Rx, Tx};
use lumbryth::{gaps, import, import_stretches, pack, records, Stretch, TailRule};
use trace::{control, pdu, signal, uih, Trace};

const COMMANDS: [&str; 3] = ["frames", "records", "channels"];

/// What a command prints of a trace.
#[track_caller]
fn said(command: &str, trace: &Path) -> String {
    let output = words(&[&command, &trace]);
    assert_eq!((status(&output), err(&output)), (0, String::new()));
    out(&output)
}

#[track_caller]
fn objects(command: &str, trace: &Path) -> String {
    let output = words(&[&command, &trace, &"--json"]);
    assert_eq!((status(&output), err(&output)), (0, String::new()));
    out(&output)
}

/// All that is printed of a file, in words, by every command that reads a trace.
fn all_said(place: &Place, file: &[u8]) -> Vec<String> {
    let trace = place.file("trace", file);
    let mut all: Vec<String> =
        COMMANDS.iter().map(|command| words(&[command, &trace])).map(|o| out(&o) + &err(&o)).collect();
    let output = words(&[&"import", &trace, &"--dry-run", &"--tolerant"]);
    all.push(out(&output) + &err(&output));
    all
}

fn names_adapters(text: &str) -> bool {
    text.to_lowercase().contains("adapter")
}

/// A trace of the Linux monitor: adapter, handle, direction, whether it begins a PDU, data.
fn monitored(packets: &[(u16, u16, Direction, bool, &[u8])]) -> Vec<u8> {
    let mut trace = Trace::new(2001);
    for (n, (adapter, handle, direction, first, data)) in (0..).zip(packets) {
        trace.adapter = *adapter;
        trace.fragment(*direction, 1_715_679_000_000_000 + 1000 * n, *handle, *first, data);
    }
    trace.file
}

fn wire(seq: u8) -> Vec<u8> {
    pack(0x0C, seq, &[0x22, seq]).unwrap()
}

/// A PDU with these bytes on DLCI 18.
fn piece(information: &[u8]) -> Vec<u8> {
    pdu(0x41, &uih(18, true, None, information))
}

const LIST_SENTENCE: &str = "The trace has 2 adapters: their frames come in one list, in order of completion, \
    which does not tell the adapters apart.";

#[test]
fn the_example_in_words() {
    let place = Place::new();
    let trace = example("two-adapters.btsnoop");
    let channels = "2 adapters, 2 handles, 8 channels, 1 DLCI: datalink 2001.\n\
        The file ends at a record's end, so whether more was recorded cannot be seen.\n\
        Open at the end: 1 message, begun at byte 752 on adapter 0. Its rest is not in the file.\n\
        Adapter 0, handle 6 rx: 5 packets, 3 PDUs.\n\
        Adapter 0, handle 6 tx: 3 packets, 3 PDUs.\n\
        CID 0x0001 tx, signals, 1 PDU, adapter 0, handle 6.\n\
        CID 0x0045 rx, admitted, PSM 0x0003, 2 PDUs, adapter 0, handle 6.\n\
        CID 0x0001 rx, signals, 1 PDU, adapter 0, handle 6.\n\
        CID 0x0041 tx, admitted, PSM 0x0003, 2 PDUs, adapter 0, handle 6.\n\
        Adapter 1, handle 6 rx: 6 packets, 5 PDUs.\n\
        Adapter 1, handle 6 tx: 4 packets, 4 PDUs.\n\
        CID 0x0001 tx, signals, 1 PDU, adapter 1, handle 6.\n\
        CID 0x0045 rx, admitted, PSM 0x0003, 4 PDUs, adapter 1, handle 6.\n\
        CID 0x0001 rx, signals, 1 PDU, adapter 1, handle 6.\n\
        CID 0x0041 tx, admitted, PSM 0x0003, 3 PDUs, adapter 1, handle 6.\n\
        DLCI 18, channel 9: 10 frames, 10 spans, 11 pieces, 1 unfinished.\n\
        DLCI 18 on adapter 0, handle 6: 4 frames, 4 spans, 4 pieces, 0 unfinished.\n\
        DLCI 18 on adapter 1, handle 6: 6 frames, 6 spans, 7 pieces, 1 unfinished.\n\
        Bytes on DLCI 18: 116 taken in, 108 in spans, 8 left without an end marker.\n\
        DLCI 18: import takes it, with --channel 9 or without.\n\
        DLCI 18 on adapter 0, handle 6: import --link 0:6 --dlci 18 takes it alone.\n\
        DLCI 18 on adapter 1, handle 6: import --link 1:6 --dlci 18 takes it alone.\n";
    assert_eq!(said("channels", &trace), channels);

    let found = format!(
        "10 frames, all of which unpack: DLCI 18, channel 9.\n\
        {LIST_SENTENCE}\n\
        The frames are of 2 links. For one alone: --link 0:6 --dlci 18, or --link 1:6 --dlci 18.\n\
        Bytes on DLCI 18: 116 taken in, 108 in frames, 8 left without an end marker.\n\
        Unfinished on adapter 1, handle 6, received, DLCI 18: 8 bytes are held without an end marker.\n\
        The file ends at a record's end, so whether more was recorded cannot be seen.\n\
        What is proved of a cut is for a channel that is asked for, here --channel 9.\n\
        Open at the end: 1 message, begun at byte 752 on adapter 0. Its rest is not in the file.\n"
    );
    let frames = said("frames", &trace);
    assert!(frames.starts_with(&found), "{frames}");
    let names: Vec<&str> = frames[found.len()..].lines().map(|line| line.split(',').next().unwrap()).collect();
    let told = [
        "POWER_GET_STATUS tx 1",
        "NCASM_GET_PARAM tx 2",
        "NO_COMMAND rx 3",
        "NO_COMMAND rx 4",
        "POWER_RET_STATUS rx 5",
        "NCASM_RET_PARAM rx 6",
        "NO_COMMAND tx 7",
        "NO_COMMAND tx 8",
        "POWER_GET_STATUS tx 9",
        "NO_COMMAND rx 10",
    ];
    assert_eq!(names, told);
    let dir = place.join("out");
    let output = words(&[&"import", &trace, &"--out", &dir]);
    assert_eq!(out(&output), format!("{found}10 fixtures written: {}\n", dir.display()));

    let text = said("records", &trace);
    let lines: Vec<&str> = text.lines().collect();
    assert_eq!(lines.len(), 3 + 18);
    assert_eq!(lines[0], "18 records, 2 adapters: datalink 2001.");
    let tenth = "ACL data, adapter 1, handle 6, begins a PDU, rx 10, 16 bytes at 408, 2024-05-14 09:30:00.";
    assert!(lines[12].starts_with(tenth), "{}", lines[12]);
    let last = "ACL data, adapter 0, handle 6, begins a PDU, rx 18, 16 bytes at 752, 2024-05-14 09:30:00.";
    assert!(lines[20].starts_with(last), "{}", lines[20]);
}

#[test]
fn the_example_in_objects() {
    let trace = example("two-adapters.btsnoop");
    let losses = r#""end":"record","losses":{"open":{"count":1,"first":752,"adapter":0}}}"#;
    let text = objects("frames", &trace);
    let lines: Vec<&str> = text.lines().collect();
    let import = r#"{"kind":"import","dlci":18,"channel":9,"frames":10,"unfinished":1,"check_fcs":false,"wrong_fcs":null,"bytes":{"taken_in":116,"in_spans":108,"dropped":0,"cleared":0,"left":8},"links":["0:6","1:6"],"adapters":2,"#;
    assert_eq!(lines[0], format!("{import}{losses}"));
    assert_eq!(lines[1], r#"{"kind":"unfinished","adapter":1,"handle":6,"direction":"rx","dlci":18,"held":8}"#);
    assert_eq!(lines.len(), 12);
    let text = objects("records", &trace);
    let lines: Vec<&str> = text.lines().collect();
    assert_eq!(lines[0], format!(r#"{{"kind":"file","datalink":2001,"records":18,"adapters":2,{losses}"#));
    let third = r#"{"kind":"record","number":3,"offset":100,"adapter":1,"direction":"tx","#;
    assert!(lines[3].starts_with(third), "{}", lines[3]);
    assert!(lines[3].ends_with(r#","what":"ACL data, adapter 1, handle 6, begins a PDU"}"#), "{}", lines[3]);
    let text = objects("channels", &trace);
    let lines: Vec<&str> = text.lines().collect();
    let file = r#"{"kind":"file","datalink":2001,"records":18,"adapters":2,"taken":18,"reason":null,"#;
    assert_eq!(lines[0], format!("{file}{losses}"));
    let told = [
        r#"{"kind":"handle","adapter":1,"handle":6,"rx_packets":6,"rx_pdus":5,"tx_packets":4,"tx_pdus":4}"#,
        r#"{"kind":"channel","adapter":1,"handle":6,"direction":"tx","cid":1,"psms":[],"standing":"signals","tried":false,"pdus":1,"reason":null}"#,
    ];
    assert_eq!(lines[6..8], told);
    let told = [
        r#"{"kind":"dlci","dlci":18,"channel":9,"pieces":11,"spans":10,"frames":10,"unfinished":1,"wrong_fcs":0,"bytes":{"taken_in":116,"in_spans":108,"dropped":0,"cleared":0,"left":8},"asked_by":9}"#,
        r#"{"kind":"share","dlci":18,"link":"0:6","adapter":0,"handle":6,"pieces":4,"spans":4,"frames":4,"unfinished":0,"bytes":{"taken_in":43,"in_spans":43,"dropped":0,"cleared":0,"left":0}}"#,
        r#"{"kind":"share","dlci":18,"link":"1:6","adapter":1,"handle":6,"pieces":7,"spans":6,"frames":6,"unfinished":1,"bytes":{"taken_in":73,"in_spans":65,"dropped":0,"cleared":0,"left":8}}"#,
    ];
    assert_eq!(lines[11..], told);
}

/// A record of the example that is lost is told of on its own adapter, and the other adapter's frames are all there.
#[test]
fn what_is_lost_is_told_by_adapter() {
    let place = Place::new();
    let file = fs::read(example("two-adapters.btsnoop")).unwrap();
    let starts = bounds(&file);
    let told = |record: usize| {
        let file = [&file[..starts[record - 1]], &file[starts[record]..]].concat();
        let text = said("frames", &place.file("trace", &file));
        let losses = text.lines().filter(|line| line.starts_with("Without") || line.starts_with("Broken off"));
        (losses.map(String::from).collect::<Vec<_>>(), text)
    };
    let (begun, rest) = ("What it continues is not in the file.", "Its rest is not in the file.");
    for (record, line, other) in [
        (9, format!("Without a beginning: 1 packet, at byte 408 on adapter 0. {begun}"), "NCASM_RET_PARAM rx"),
        (10, format!("Without a beginning: 1 packet, at byte 446 on adapter 1. {begun}"), "POWER_RET_STATUS rx"),
        (
            11,
            format!("Broken off: 1 message, at byte 714 on adapter 0, where another begins. {rest}"),
            "NCASM_RET_PARAM rx",
        ),
        (
            12,
            format!("Broken off: 1 message, at byte 623 on adapter 1, where another begins. {rest}"),
            "POWER_RET_STATUS rx",
        ),
    ] {
        let (losses, text) = told(record);
        assert_eq!(losses, [line], "without record {record}");
        assert!(text.contains(&format!("\n{other} ")), "without record {record}: {text}");
        // The frames of both stand in one list, so hints may mix them up, and that is told before them.
        let hints = text.find("\nHint: ").unwrap();
        let told = text
            .find("\nHints go by the one list of frames: they may take a frame of one adapter for one of another.\n");
        assert!(told.is_some_and(|told| told < hints), "without record {record}: {text}");
    }
    // Where there is no hint there is nothing to say of them.
    assert!(!said("frames", &example("two-adapters.btsnoop")).contains("Hint"));
}

/// The list of a set names the adapter too, and the set is checked by it.
#[test]
fn sets() {
    let place = Place::new();
    let (trace, dir) = (example("two-adapters.btsnoop"), place.join("out"));
    assert_eq!(status(&words(&[&"import", &trace, &"--out", &dir])), 0);
    let text = fs::read_to_string(dir.join(LIST)).unwrap();
    assert!(text.contains("\n# losses: open at the end, 1 message, begun at byte 752 on adapter 0\n"), "{text}");
    let output = words(&[&"check", &dir, &trace]);
    assert_eq!((status(&output), err(&output)), (0, String::new()));
    let told = "Losses: open at the end, 1 message, begun at byte 752 on adapter 0.\n10 fixtures, all as the list and the trace";
    assert!(out(&output).contains(told), "{}", out(&output));
}

/// A trace that is refused tells its losses too.
#[test]
fn refused_traces() {
    let place = Place::new();
    let begun = &piece(&wire(0))[..9];
    let file = monitored(&[(0, 64, Rx, true, begun), (7, 64, Rx, false, begun), (7, 64, Tx, true, begun)]);
    let output = words(&[&"frames", &place.file("trace", &file)]);
    let told = [
        "lumbryth: Without a beginning: 1 packet, at byte 53 on adapter 7. ",
        "lumbryth: Open at the end: 2 messages, the first begun at byte 16 on adapter 0. ",
    ];
    fails(&output, 1, &told);
}

/// The frames of two adapters with one handle and CID, in fragments that cross: each is whole, by when it was complete.
#[test]
fn crossing_fragments() {
    let place = Place::new();
    let (one, two) = (piece(&wire(1)), piece(&wire(2)));
    for (a, b) in [(0, 1), (1, 0), (0, 0xFFFF), (0x8000, 0x7FFF)] {
        let file = monitored(&[
            (a, 64, Rx, true, &one[..6]),
            (b, 64, Rx, true, &two[..1]),
            (a, 64, Rx, false, &one[6..9]),
            (b, 64, Rx, false, &two[1..15]),
            (b, 64, Rx, false, &two[15..]),
            (a, 64, Rx, false, &one[9..]),
        ]);
        let imported = import(&file, None, TailRule::Strict).unwrap();
        let wires: Vec<&[u8]> = imported.spans.iter().map(|span| &span.wire[..]).collect();
        assert_eq!((wires, imported.unfinished), (vec![&wire(2)[..], &wire(1)], 0));
        let lines = said("channels", &place.file("trace", &file));
        let told = format!(
            "Adapter {a}, handle 64 rx: 3 packets, 1 PDU.\n\
            Adapter {a}, handle 64 tx: 0 packets, 0 PDUs.\n\
            CID 0x0041 rx, guessed, 1 PDU, adapter {a}, handle 64.\n\
            Adapter {b}, handle 64 rx: 3 packets, 1 PDU.\n\
            Adapter {b}, handle 64 tx: 0 packets, 0 PDUs.\n\
            CID 0x0041 rx, guessed, 1 PDU, adapter {b}, handle 64.\n\
            DLCI 18, channel 9: 2 frames, 2 spans, 2 pieces, 0 unfinished.\n\
            DLCI 18 on adapter {b}, handle 64: 1 frame, 1 span, 1 piece, 0 unfinished.\n\
            DLCI 18 on adapter {a}, handle 64: 1 frame, 1 span, 1 piece, 0 unfinished.\n"
        );
        assert!(lines.contains(&told), "{lines}");
    }
}

/// Wherever a handle is a key, the adapter is too: what another adapter does on the same handle changes nothing.
#[test]
fn each_key_has_the_adapter() {
    let place = Place::new();
    let (whole, begin, end) = (piece(&wire(1)), piece(&wire(2)[..4]), piece(&wire(2)[4..]));
    let sabm = |dlci| pdu(0x41, &control(dlci, true, 0x3F));
    let (names, asks) = (signal(2, 1, &[0x1001, 0x41]), signal(2, 1, &[3, 0x50]));
    let (refers, answers) = (signal(2, 1, &[3, 0x50]), signal(3, 1, &[0x41, 0x50, 0, 0]));
    // What comes between the two pieces of a frame: a link or a session opened, a session asked for, a channel named.
    for (between, frames) in [(sabm(18), 1), (sabm(0), 1), (asks, 1), (names, 0)] {
        let direction = if between[2] == 1 { Tx } else { Rx };
        for (adapter, found) in [(0, frames), (1, 2)] {
            let file = monitored(&[
                (0, 64, Rx, true, &whole),
                (0, 64, Rx, true, &begin),
                (adapter, 64, direction, true, &between),
                (0, 64, Rx, true, &end),
            ]);
            let seen = look(look::Trace::of(&file), false).unwrap();
            let imported = import(&file, None, TailRule::Strict);
            assert_eq!(imported.map_or(0, |imported| imported.frames), found, "{between:?} on adapter {adapter}");
            assert_eq!(seen.taken(None).map_or(0, |dlci| dlci.all.frames), found, "{between:?} on adapter {adapter}");
        }
    }
    // A response is admitted by a request on its own adapter only.
    for (adapter, admitted) in [(0, true), (1, false)] {
        let file =
            monitored(&[(adapter, 64, Tx, true, &refers), (0, 64, Rx, true, &answers), (0, 64, Tx, true, &whole)]);
        assert_eq!(import(&file, None, TailRule::Strict).is_ok(), admitted, "request on adapter {adapter}");
        let text = said("channels", &place.file("trace", &file));
        let standing = if admitted { "admitted, PSM 0x0003, " } else { "named, " };
        assert!(text.contains(&format!("\nCID 0x0041 tx, {standing}1 PDU, ")), "{text}");
    }
}

/// The bytes that are held, by adapter, then handle, then direction.
#[test]
fn unfinished_by_adapter() {
    let place = Place::new();
    let (whole, held) = (piece(&wire(1)), |n: usize| piece(&wire(1)[..n]));
    let file = monitored(&[
        (3, 6, Rx, true, &held(5)),
        (0, 64, Rx, true, &held(4)),
        (3, 6, Tx, true, &held(1)),
        (0xFFFF, 4095, Tx, true, &held(2)),
        (0, 7, Rx, true, &whole),
    ]);
    let text = said("frames", &place.file("trace", &file));
    let lines: Vec<&str> = text.lines().filter(|line| line.starts_with("Unfinished")).collect();
    let told = [
        "Unfinished on adapter 0, handle 64, received, DLCI 18: 4 bytes are held without an end marker.",
        "Unfinished on adapter 3, handle 6, sent, DLCI 18: 1 byte is held without an end marker.",
        "Unfinished on adapter 3, handle 6, received, DLCI 18: 5 bytes are held without an end marker.",
        "Unfinished on adapter 65535, handle 4095, sent, DLCI 18: 2 bytes are held without an end marker.",
    ];
    assert_eq!(lines, told);
    assert!(text.contains("\nThe trace has 3 adapters: their frames come in one list, "), "{text}");
    let text = objects("frames", &place.join("trace"));
    let told = r#"{"kind":"unfinished","adapter":65535,"handle":4095,"direction":"tx","dlci":18,"held":2}"#;
    assert!(text.lines().any(|line| line == told), "{text}");
}

/// A file with other flags in each of its records.
fn flagged(file: &[u8], mut flags: impl FnMut(u32) -> u32) -> Vec<u8> {
    let mut file = file.to_vec();
    for start in records(&file).unwrap().starts {
        let field = &mut file[start + 8..start + 12];
        let new = flags(u32::from_be_bytes([field[0], field[1], field[2], field[3]]));
        field.copy_from_slice(&new.to_be_bytes());
    }
    file
}

/// One of the examples as the Linux monitor writes it, all of it of one adapter.
fn as_monitored(name: &str, adapter: u16) -> Vec<u8> {
    let file = fs::read(example(name)).unwrap();
    let mut trace = Trace::new(2001);
    let found = records(&file).unwrap();
    for start in found.starts {
        let (head, rest) = file[start..].split_at(24);
        let number = |at: usize| u32::from_be_bytes([head[at], head[at + 1], head[at + 2], head[at + 3]]);
        let time = head[16..].iter().fold(0, |n, byte| n << 8 | u64::from(*byte));
        // Commands and events have bit 1, data has not.
        let code = [4, 5, 2, 3][number(8) as usize];
        trace.record(u32::from(adapter) << 16 | code, time - trace::EPOCH, &rest[1..number(4) as usize]);
    }
    trace.file
}

/// One adapter, whichever it is, is not named, and all else is said as without it.
#[test]
fn one_adapter_is_not_named() {
    let place = Place::new();
    for name in ["headset.btsnoop", "cut.btsnoop"] {
        let plain = as_monitored(name, 0);
        let expected = all_said(&place, &plain);
        assert!(expected.iter().all(|text| !names_adapters(text)), "{expected:?}");
        let listed = |file: &[u8]| import(file, None, TailRule::Tolerant).unwrap().spans;
        assert_eq!(listed(&plain), listed(&fs::read(example(name)).unwrap()));
        for adapter in [1, 3, 0xFFFF] {
            let file = as_monitored(name, adapter);
            // What --link takes has the index all the same.
            let said = all_said(&place, &file);
            let said: Vec<_> =
                said.iter().map(|text| text.replace(&format!("--link {adapter}:"), "--link 0:")).collect();
            assert_eq!(said, expected, "{name}, adapter {adapter}");
            // Objects tell it all the same, and that there is one.
            for command in COMMANDS {
                let text = objects(command, &place.join("trace"));
                assert!(text.lines().next().unwrap().contains(r#""adapters":1,"#), "{text}");
                let changed = text.replace(&format!(r#""adapter":{adapter},"#), r#""adapter":0,"#);
                let changed = changed.replace(&format!(r#""links":["{adapter}:6"]"#), r#""links":["0:6"]"#);
                let changed = changed.replace(&format!(r#""link":"{adapter}:6""#), r#""link":"0:6""#);
                assert_eq!(changed, objects(command, &place.file("plain", &plain)));
                assert_ne!(changed, text);
            }
        }
    }
}

/// The upper flag bits of the other two datalinks say nothing.
#[test]
fn no_adapter_but_of_the_monitor() {
    let place = Place::new();
    let mut plain = Trace::new(1001);
    let (whole, held) = (piece(&wire(1)), piece(&wire(1)[..6]));
    for (direction, first, data) in [
        (Rx, true, &whole[..9]),
        (Rx, false, &whole[9..]),
        (Tx, true, &whole),
        (Rx, true, &held),
        (Tx, true, &held[..7]),
    ] {
        plain.fragment(direction, 0, 64, first, data);
    }
    for plain in [plain.file, fs::read(example("headset.btsnoop")).unwrap(), fs::read(example("cut.btsnoop")).unwrap()]
    {
        let (mut n, expected) = (0, all_said(&place, &plain));
        let file = flagged(&plain, |flags| {
            n += 0x3_0000;
            flags | n | 0x8000_0000
        });
        assert_ne!(file, plain);
        assert_eq!(all_said(&place, &file), expected);
        for command in COMMANDS {
            let told = objects(command, &place.file("plain", &plain));
            assert_eq!(objects(command, &place.file("trace", &file)), told);
            assert!(told.lines().next().unwrap().contains(r#""adapters":1,"#), "{told}");
            assert!(told.split(r#""adapter":"#).skip(1).all(|rest| rest.starts_with("0,") || rest.starts_with("0}")));
        }
        let found = import_stretches(&file, None, TailRule::Tolerant).unwrap();
        assert_eq!(Ok(&found), import_stretches(&plain, None, TailRule::Tolerant).as_ref());
        assert!(found.1.iter().all(|stretch| stretch.adapter == 0));
    }
}

/// An adapter is one that has a packet with data, recorded whole.
#[test]
fn which_adapters_there_are() {
    let place = Place::new();
    let mut plain = Trace::new(2001);
    plain.fragment(Rx, 0, 64, true, &piece(&wire(1)));
    let with = |flags: u32, packet: &[u8]| {
        let mut trace = Trace::new(2001);
        trace.record(flags, 0, packet);
        [&plain.file[..], &trace.file[16..]].concat()
    };
    let none: [(u32, &[u8]); 7] = [
        (0x1_0002, &[2, 4, 0]),
        (0x1_0003, &[0x0E, 0]),
        (0x1_0000, &[]),
        (0x1_0006, &[0x40, 0x20, 0, 0]),
        (0x1_0004, &[0x40, 0x20, 0]),
        (0x1_0005, &[0x40, 0x20, 2, 0, 9]),
        (0xFFFF_000C, &[0x40, 0x20, 0, 0]),
    ];
    for (flags, packet) in none {
        let texts = all_said(&place, &with(flags, packet));
        assert!(texts.iter().all(|text| !names_adapters(text)), "{flags:x}: {texts:?}");
    }
    for (flags, packet) in [(0x1_0005, &[0x40, 0x20, 0, 0][..]), (0xFFFF_0004, &[0x40, 0x10, 1, 0, 9])] {
        let texts = all_said(&place, &with(flags, packet));
        assert!(texts.iter().all(|text| text.contains("2 adapters")), "{flags:x}: {texts:?}");
    }
}

/// In a trace of several adapters each command, event and packet with data is told with its own; what else there is has none.
#[test]
fn records_of_several_adapters() {
    let place = Place::new();
    let mut trace = Trace::new(2001);
    let data: &[u8] = &[0x40, 0x10, 0, 0];
    for (flags, packet) in [
        (0xFFFF_0004, data),
        (5, data),
        (0x2_0004, &data[..1]),
        (0x3_0002, &[2, 4, 0]),
        (0x4_0003, &[0x0E, 0]),
        (0x5_0006, data),
        (0xFFFF_000C, data),
    ] {
        trace.record(flags, 0, packet);
    }
    let trace = place.file("trace", &trace.file);
    let text = said("records", &trace);
    let listed = text.lines().skip_while(|line| line.ends_with('.')).map(|line| line.split(" at ").next().unwrap());
    let told = [
        "ACL data, adapter 65535, handle 64, continues a PDU, tx 1, 4 bytes",
        "ACL data, adapter 0, handle 64, continues a PDU, rx 2, 4 bytes",
        "ACL data, adapter 2, tx 3, 1 byte",
        "command, adapter 3, tx 4, 3 bytes",
        "event, adapter 4, rx 5, 2 bytes",
        "other, no direction 6, 4 bytes",
        "other, no direction 7, 4 bytes",
    ];
    assert_eq!(listed.collect::<Vec<_>>(), told);
    let text = objects("records", &trace);
    let adapters: Vec<&str> = text.lines().skip(1).map(|line| line.split(&[':', ','][..]).nth(7).unwrap()).collect();
    assert_eq!(adapters, ["65535", "0", "2", "3", "4", "null", "null"]);
}

/// A trace with a handle of its own for each adapter and handle, as datalink 1001; and the link of each handle.
fn renamed(file: &[u8]) -> (Vec<u8>, Vec<(u16, u16)>) {
    let mut links: Vec<(u16, u16)> = Vec::new();
    let mut new = [b"btsnoop\0\0\0\0\x01".as_slice(), &1001_u32.to_be_bytes()].concat();
    let found = records(file).unwrap();
    for start in found.starts {
        let (head, rest) = file[start..].split_at(24);
        let mut packet = rest[..u32::from_be_bytes([head[4], head[5], head[6], head[7]]) as usize].to_vec();
        let flags = match u16::from_be_bytes([head[10], head[11]]) {
            code @ (4 | 5) => u32::from(code) - 4,
            _ => 2,
        };
        if let [low, high, ..] = &mut packet[..] {
            let link = (u16::from_be_bytes([head[8], head[9]]), u16::from_le_bytes([*low, *high & 0x0F]));
            let place = links.iter().position(|other| *other == link).unwrap_or_else(|| {
                links.push(link);
                links.len() - 1
            });
            let handle = (place as u16).to_le_bytes();
            (*low, *high) = (handle[0], *high & 0xF0 | handle[1]);
        }
        new.extend([&head[..8], &flags.to_be_bytes(), &head[12..], &packet].concat());
    }
    new.extend(&file[found.tail..]);
    (new, links)
}

/// What is told of a stretch but its link, by that.
fn by_link(stretches: &[Stretch], link: impl Fn(&Stretch) -> (u16, u16)) -> BTreeMap<(u16, u16), Vec<String>> {
    let mut found: BTreeMap<(u16, u16), Vec<String>> = BTreeMap::new();
    for stretch in stretches {
        let Stretch { direction, cid, dlci, sessions, links, held, .. } = stretch;
        let rest = format!("{direction:?} {cid} {dlci} {sessions} {links} {held}");
        found.entry(link(stretch)).or_default().push(rest);
    }
    found
}

/// Names are nothing: with a handle of its own for each adapter and handle, a trace of one adapter gives the same.
#[test]
fn links_renamed() {
    let mut rng = made::Rng(3);
    let (mut several, mut shared, mut held) = (0, 0, 0);
    for _ in 0..6_000 {
        let file = made::trace(&mut rng);
        if file[12..16] != 2001_u32.to_be_bytes() {
            continue;
        }
        let (new, links) = renamed(&file);
        assert_eq!(gaps(&new, TailRule::Tolerant), gaps(&file, TailRule::Tolerant));
        let (seen, again) = (look(look::Trace::of(&file), false).unwrap(), look(look::Trace::of(&new), false).unwrap());
        for channel in (0..=31).map(Some).chain([None]) {
            let found = import_stretches(&file, channel, TailRule::Tolerant);
            match (found, import_stretches(&new, channel, TailRule::Tolerant)) {
                (Ok((one, stretches)), Ok((two, others))) => {
                    assert_eq!(one, two);
                    let others = by_link(&others, |stretch| links[usize::from(stretch.handle)]);
                    assert_eq!(by_link(&stretches, |stretch| (stretch.adapter, stretch.handle)), others);
                    held += usize::from(others.len() > 1);
                }
                (one, two) => assert_eq!(one, two),
            }
            assert_eq!(seen.taken(channel).map(|dlci| dlci.all), again.taken(channel).map(|dlci| dlci.all));
        }
        let handles: Vec<u16> = seen.handles.iter().map(|handle| handle.link.handle).collect();
        several += usize::from(seen.adapters().len() > 1);
        shared += usize::from((1..handles.len()).any(|i| handles[..i].contains(&handles[i])));
    }
    assert!(several >= 300 && shared >= 200 && held >= 100, "{several} {shared} {held}");
}
