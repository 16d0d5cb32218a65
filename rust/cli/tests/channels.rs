//! The command channels: what it shows of handles, channels and DLCIs, and that its reading agrees with the import.

mod common;
mod made;
#[allow(dead_code)]
#[path = "../../../examples/trace/mod.rs"]
mod trace;

use std::collections::{BTreeMap, BTreeSet};
use std::ffi::OsStr;
use std::fs;
use std::os::unix::ffi::OsStrExt;
use std::process::{Command, Stdio};

use common::*;
use look::{look, Seen};
use lumbryth::Direction::{self, Rx, Tx};
use lumbryth::{import_stretches_with, import_with, pack, unpack, Link, Refusal, TailRule};
use trace::pcap::{twin, FORMS};
use trace::{control, pdu, signal, uih, Trace};

/// A trace of PDUs, a packet each: handle, direction, PDU.
fn trace_of_pdus(pdus: &[(u16, Direction, Vec<u8>)]) -> Vec<u8> {
    let mut trace = Trace::new(1002);
    for (n, (handle, direction, pdu)) in (0..).zip(pdus) {
        trace.fragment(*direction, 1_715_679_000_000_000 + 1000 * n, *handle, true, pdu);
    }
    trace.file
}

/// A piece with a frame, and one with a frame whose checksum is wrong.
fn good(cid: u16, dlci: u8) -> Vec<u8> {
    pdu(cid, &uih(dlci, true, None, &pack(0x0C, 0, &[0x22, 0x00]).unwrap()))
}

fn bad(cid: u16, dlci: u8) -> Vec<u8> {
    let mut wire = pack(0x0C, 0, &[0x22, 0x00]).unwrap();
    wire[2] ^= 0x40;
    pdu(cid, &uih(dlci, true, None, &wire))
}

/// What the command says of a trace.
fn said(file: &[u8]) -> Vec<String> {
    let place = Place::new();
    let output = words(&[&"channels", &place.file("trace", file)]);
    assert_eq!((status(&output), err(&output)), (0, String::new()));
    out(&output).lines().map(String::from).collect()
}

/// The lines after those about the file.
#[track_caller]
fn shows(file: &[u8], first: &str, lines: &[&str]) {
    let said = said(file);
    assert_eq!(said[0], first);
    assert_eq!(said[1], "The file ends at a record's end, so whether more was recorded cannot be seen.");
    assert_eq!(said[2..], *lines);
}

#[test]
fn shipped_traces() {
    let text = |name| out(&words(&[&"channels", &example(name)]));
    let headset = "1 handle, 4 channels, 1 DLCI: datalink 1002.\n\
        The file ends at a record's end, so whether more was recorded cannot be seen.\n\
        Handle 6 rx: 29 packets, 26 PDUs.\n\
        Handle 6 tx: 22 packets, 22 PDUs.\n\
        CID 0x0001 tx, signals, 3 PDUs, handle 6.\n\
        CID 0x0045 rx, admitted, PSM 0x0003, 22 PDUs, handle 6.\n\
        CID 0x0001 rx, signals, 4 PDUs, handle 6.\n\
        CID 0x0041 tx, admitted, PSM 0x0003, 19 PDUs, handle 6.\n\
        DLCI 18, channel 9: 30 frames, 31 spans, 32 pieces, 0 unfinished.\n\
        Bytes on DLCI 18: 493 taken in, all in spans.\n\
        DLCI 18: import takes it, with --channel 9 or without.\n\
        DLCI 18 on handle 6: import --link 0:6 --dlci 18 takes it alone.\n\
        DLCI 18: 1 span does not unpack, refusal 17, the frame's checksum is 70 where its bytes give B0.\n";
    assert_eq!(text("headset.btsnoop"), headset);
    let cut = "1 handle, 4 channels, 1 DLCI: datalink 1002.\n\
        The file ends inside the record that starts at byte 2453: 30 bytes of it are there and 13 are missing.\n\
        Whatever came later is missing.\n\
        Handle 6 rx: 28 packets, 25 PDUs.\n\
        Handle 6 tx: 21 packets, 21 PDUs.\n\
        CID 0x0001 tx, signals, 3 PDUs, handle 6.\n\
        CID 0x0045 rx, admitted, PSM 0x0003, 21 PDUs, handle 6.\n\
        CID 0x0001 rx, signals, 4 PDUs, handle 6.\n\
        CID 0x0041 tx, admitted, PSM 0x0003, 18 PDUs, handle 6.\n\
        DLCI 18, channel 9: 28 frames, 29 spans, 30 pieces, 1 unfinished.\n\
        Bytes on DLCI 18: 478 taken in, 470 in spans, 8 left without an end marker.\n\
        DLCI 18: import --tolerant takes it, with --channel 9 or without.\n\
        DLCI 18: 1 span does not unpack, refusal 17, the frame's checksum is 70 where its bytes give B0.\n\
        Import --link refuses the trace (5), for it reads whole files only.\n";
    assert_eq!(text("cut.btsnoop"), cut);
}

/// RFCOMM on 0x0045 and 0x0041, another service on 0x0070 and 0x0071; frames on DLCIs 18 and 19, which are of one channel, and 40.
fn many_dlcis() -> Vec<u8> {
    trace_of_pdus(&[
        (6, Tx, signal(2, 1, &[3, 0x45])),
        (6, Rx, signal(3, 1, &[0x41, 0x45, 0, 0])),
        (6, Tx, signal(2, 2, &[0x1001, 0x70])),
        (6, Rx, signal(3, 2, &[0x71, 0x70, 0, 0])),
        (6, Rx, good(0x70, 8)),
        (6, Rx, good(0x45, 18)),
        (6, Tx, good(0x41, 40)),
        (6, Rx, good(0x45, 40)),
        (6, Rx, bad(0x45, 40)),
        (6, Rx, bad(0x45, 40)),
        (6, Tx, pdu(0x41, &uih(40, true, Some(3), &[0x3E, 0x01]))),
        (6, Rx, good(0x45, 19)),
        (6, Rx, bad(0x45, 62)),
        (6, Rx, pdu(0x45, &uih(63, false, None, b"AT\r"))),
    ])
}

#[test]
fn a_second_channel_and_dlcis() {
    shows(
        &many_dlcis(),
        "1 handle, 6 channels, 5 DLCIs: datalink 1002.",
        &[
            "Handle 6 rx: 10 packets, 10 PDUs.",
            "Handle 6 tx: 4 packets, 4 PDUs.",
            "CID 0x0001 tx, signals, 2 PDUs, handle 6.",
            "CID 0x0045 rx, admitted, PSM 0x0003, 7 PDUs, handle 6.",
            "CID 0x0001 rx, signals, 2 PDUs, handle 6.",
            "CID 0x0041 tx, admitted, PSM 0x0003, 2 PDUs, handle 6.",
            "CID 0x0070 rx, named, PSM 0x1001, 1 PDU, handle 6: passed over, for no request for it has PSM 0x0003, RFCOMM.",
            "CID 0x0071 tx, named, PSM 0x1001, 0 PDUs, handle 6: passed over, for no request for it has PSM 0x0003, RFCOMM.",
            "DLCI 18, channel 9: 1 frame, 1 span, 1 piece, 0 unfinished.",
            "Bytes on DLCI 18: 11 taken in, all in spans.",
            "DLCI 18: import takes it, with --channel 9 or without.",
            "DLCI 18 on handle 6: import --link 0:6 --dlci 18 takes it alone.",
            "DLCI 40, channel 20: 2 frames, 4 spans, 5 pieces, 1 unfinished.",
            "Bytes on DLCI 40: 46 taken in, 44 in spans, 2 left without an end marker.",
            "DLCI 40: import --channel 20 takes it.",
            "DLCI 40 on handle 6: import --link 0:6 --dlci 40 takes it alone.",
            "DLCI 40: 2 spans do not unpack, refusal 17, the first: the frame's checksum is 30 where its bytes give 70.",
            "DLCI 19, channel 9: 1 frame, 1 span, 1 piece, 0 unfinished.",
            "Bytes on DLCI 19: 11 taken in, all in spans.",
            "DLCI 19: no channel asks for it, for import --channel 9 takes DLCI 18, which comes first.",
            "DLCI 19 on handle 6: import --link 0:6 --dlci 19 takes it alone.",
            "DLCI 62, channel 31: 0 frames, 1 span, 1 piece, 0 unfinished.",
            "Bytes on DLCI 62: 11 taken in, all in spans.",
            "DLCI 62: import does not take it, for no span unpacks.",
            "DLCI 62 on handle 6: import --link 0:6 --dlci 62 takes it alone.",
            "DLCI 62: 1 span does not unpack, refusal 17, the frame's checksum is 30 where its bytes give 70.",
            "DLCI 63, channel 31: 0 frames, 0 spans, 1 piece, 0 unfinished.",
            "Bytes on DLCI 63: 3 taken in, 3 dropped before a start marker or for want of one.",
            "DLCI 63: import does not take it, for it has no span.",
        ],
    );
}

/// The lines and objects of import and frames that name other DLCIs.
#[test]
fn other_dlcis_are_named() {
    let place = Place::new();
    let trace = place.file("trace", &many_dlcis());
    let on_18 = "DLCI 18, channel 9, has 1 frame that unpacks too: --channel 9.";
    let on_19 = "DLCI 19, channel 9, has 1 frame that unpacks too, and no channel asks for it: --channel 9 takes DLCI 18, which comes first.";
    let on_40 = "DLCI 40, channel 20, has 2 frames that unpack too: --channel 20.";
    for (options, told) in
        [(&[][..], [on_40, on_19]), (&["--channel=9"], [on_40, on_19]), (&["--channel=20"], [on_18, on_19])]
    {
        let with = |first: &[&dyn AsRef<OsStr>]| {
            let mut all = first.to_vec();
            options.iter().for_each(|option| all.push(option));
            words(&all)
        };
        let named = |text: String| -> Vec<String> {
            text.lines().filter(|line| line.starts_with("DLCI ")).map(String::from).collect()
        };
        assert_eq!(named(out(&with(&[&"frames", &trace]))), told);
        assert_eq!(named(err(&with(&[&"import", &"--dry-run", &trace]))), told);
        let dir = place.join(format!("out {options:?}"));
        assert_eq!(named(out(&with(&[&"import", &"--out", &dir, &trace]))), told);
    }
    let objects = out(&words(&[&"frames", &"--json", &trace]));
    let others: Vec<&str> = objects.lines().filter(|line| line.contains(r#""kind":"other""#)).collect();
    let told = [
        r#"{"kind":"other","dlci":40,"channel":20,"frames":2,"asked_by":20}"#,
        r#"{"kind":"other","dlci":19,"channel":9,"frames":1,"asked_by":null}"#,
    ];
    assert_eq!(others, told);
    // Where a channel that was asked for has none, what others have is told too.
    let output = words(&[&"import", &"--dry-run", &trace, &"--channel", &"31"]);
    let told = [
        "lumbryth: DLCI 18, channel 9, has 1 frame that unpacks: --channel 9.\n",
        "lumbryth: DLCI 40, channel 20, has 2 frames that unpack: --channel 20.\n",
        "lumbryth: DLCI 19, channel 9, has 1 frame that unpacks, and no channel asks for it: ",
    ];
    fails(&output, 1, &told);
    // Where there are no others, nothing is said of them.
    let output = words(&[&"frames", &example("headset.btsnoop")]);
    assert!(!out(&output).contains("\nDLCI "), "{}", out(&output));
}

#[test]
fn two_handles() {
    let file = trace_of_pdus(&[
        (64, Rx, good(0x41, 18)),
        (6, Tx, signal(2, 1, &[3, 0x41])),
        (6, Rx, good(0x41, 18)),
        (64, Tx, good(0x52, 18)),
    ]);
    let lines = [
        "Handle 64 rx: 1 packet, 1 PDU.",
        "Handle 64 tx: 1 packet, 1 PDU.",
        "CID 0x0041 rx, guessed, 1 PDU, handle 64.",
        "CID 0x0052 tx, guessed, 1 PDU, handle 64.",
        "Handle 6 rx: 1 packet, 1 PDU.",
        "Handle 6 tx: 1 packet, 1 PDU.",
        "CID 0x0001 tx, signals, 1 PDU, handle 6.",
        "CID 0x0041 rx, admitted, PSM 0x0003, 1 PDU, handle 6.",
        "DLCI 18, channel 9: 3 frames, 3 spans, 3 pieces, 0 unfinished.",
        "DLCI 18 on handle 64: 2 frames, 2 spans, 2 pieces, 0 unfinished.",
        "DLCI 18 on handle 6: 1 frame, 1 span, 1 piece, 0 unfinished.",
        "Bytes on DLCI 18: 33 taken in, all in spans.",
        "DLCI 18: import takes it, with --channel 9 or without.",
        "DLCI 18 on handle 64: import --link 0:64 --dlci 18 takes it alone.",
        "DLCI 18 on handle 6: import --link 0:6 --dlci 18 takes it alone.",
    ];
    shows(&file, "2 handles, 4 channels, 1 DLCI: datalink 1002.", &lines);
}

#[test]
fn a_cid_for_another_psm() {
    // Nothing is ever released: the channel is RFCOMM for the whole file, and what answers a later request of its source is too.
    let file = trace_of_pdus(&[
        (6, Tx, signal(2, 1, &[0x19, 0x45])),
        (6, Rx, signal(3, 1, &[0x41, 0x45, 0, 0])),
        (6, Rx, good(0x45, 18)),
        (6, Tx, signal(2, 2, &[3, 0x45])),
        (6, Tx, signal(2, 3, &[0x1001, 0x45])),
        (6, Rx, signal(3, 3, &[0x50, 0x45, 0, 0])),
        (6, Tx, good(0x41, 18)),
        (6, Tx, good(0x50, 18)),
    ]);
    let lines = [
        "Handle 6 rx: 3 packets, 3 PDUs.",
        "Handle 6 tx: 5 packets, 5 PDUs.",
        "CID 0x0001 tx, signals, 3 PDUs, handle 6.",
        "CID 0x0045 rx, admitted, PSM 0x0019 then 0x0003 then 0x1001, 1 PDU, handle 6.",
        "CID 0x0001 rx, signals, 2 PDUs, handle 6.",
        "CID 0x0041 tx, named, PSM 0x0019, 1 PDU, handle 6: passed over, for no request for it has PSM 0x0003, RFCOMM.",
        "CID 0x0050 tx, admitted, PSM 0x0003 then 0x1001, 1 PDU, handle 6.",
        "DLCI 18, channel 9: 2 frames, 2 spans, 2 pieces, 0 unfinished.",
        "Bytes on DLCI 18: 22 taken in, all in spans.",
        "DLCI 18: import takes it, with --channel 9 or without.",
        "DLCI 18 on handle 6: import --link 0:6 --dlci 18 takes it alone.",
    ];
    shows(&file, "1 handle, 5 channels, 1 DLCI: datalink 1002.", &lines);
    agrees(&file);
}

#[test]
fn guessed_and_passed_over() {
    let guessed = trace_of_pdus(&[(6, Rx, good(0x40, 18)), (6, Rx, good(0x3F, 20)), (6, Tx, good(0xFFFF, 18))]);
    let lines = [
        "Handle 6 rx: 2 packets, 2 PDUs.",
        "Handle 6 tx: 1 packet, 1 PDU.",
        "CID 0x0040 rx, guessed, 1 PDU, handle 6.",
        "CID 0x003f rx, passed over, 1 PDU, handle 6: nothing names it, and its CID is under 0x0040.",
        "CID 0xffff tx, guessed, 1 PDU, handle 6.",
        "DLCI 18, channel 9: 2 frames, 2 spans, 2 pieces, 0 unfinished.",
        "Bytes on DLCI 18: 22 taken in, all in spans.",
        "DLCI 18: import takes it, with --channel 9 or without.",
        "DLCI 18 on handle 6: import --link 0:6 --dlci 18 takes it alone.",
    ];
    shows(&guessed, "1 handle, 3 channels, 1 DLCI: datalink 1002.", &lines);
    agrees(&guessed);
    // What comes after the data counts too: of the two guesses one is named for another service, and the other has no request.
    let later = [
        &guessed[..],
        &trace_of_pdus(&[
            (6, Tx, signal(2, 1, &[0x1001, 0x40])),
            (6, Rx, signal(3, 9, &[0xFFFF, 0x77, 0, 0])),
            (6, Tx, signal(2, 2, &[3, 0x3F])),
        ])[16..],
    ]
    .concat();
    let lines = [
        "Handle 6 rx: 3 packets, 3 PDUs.",
        "Handle 6 tx: 3 packets, 3 PDUs.",
        "CID 0x0040 rx, named, PSM 0x1001, 1 PDU, handle 6: passed over, for no request for it has PSM 0x0003, RFCOMM.",
        "CID 0x003f rx, admitted, PSM 0x0003, 1 PDU, handle 6.",
        "CID 0xffff tx, named, 1 PDU, handle 6: passed over, for a response names it, and the request is not in the file before that.",
        "CID 0x0001 tx, signals, 2 PDUs, handle 6.",
        "CID 0x0001 rx, signals, 1 PDU, handle 6.",
        "DLCI 20, channel 10: 1 frame, 1 span, 1 piece, 0 unfinished.",
        "Bytes on DLCI 20: 11 taken in, all in spans.",
        "DLCI 20: import takes it, with --channel 10 or without.",
        "DLCI 20 on handle 6: import --link 0:6 --dlci 20 takes it alone.",
    ];
    shows(&later, "1 handle, 5 channels, 1 DLCI: datalink 1002.", &lines);
    agrees(&later);
}

/// Each way to have no frame, and what the last line says of it.
fn without_frames() -> Vec<(Vec<u8>, &'static str)> {
    let (request, refused) = (signal(2, 1, &[3, 0x45]), signal(3, 1, &[0x41, 0x45, 2, 0]));
    let mut short = Trace::new(1001);
    short.record(1, 0, &[6, 0x20, 9, 0, 1]);
    let mut event = Trace::new(1001);
    event.hci_event(0, &[0x0E, 0x00]);
    let mut part = Trace::new(1001);
    part.fragment(Rx, 0, 6, true, &good(0x41, 18)[..9]);
    let sabm = pdu(0x45, &control(18, true, 0x3F));
    vec![
        (trace_of_pdus(&[]), "there is no packet with data"),
        (event.file, "there is no packet with data"),
        (short.file, "no packet with data was recorded whole"),
        (part.file, "no PDU is whole"),
        (
            trace_of_pdus(&[(6, Tx, request.clone()), (6, Rx, refused), (6, Tx, good(0x41, 18))]),
            "nothing came on a channel that is admitted or guessed to be RFCOMM",
        ),
        (trace_of_pdus(&[(6, Tx, request.clone()), (6, Rx, sabm)]), "PDUs came on RFCOMM, and no piece of information"),
        (
            trace_of_pdus(&[(6, Rx, pdu(0x45, &uih(18, false, None, &[0x3E, 0x01]))), (6, Rx, request)]),
            "pieces came, and no span",
        ),
        (trace_of_pdus(&[(6, Rx, bad(0x45, 18)), (6, Rx, bad(0x45, 40))]), "spans came, and none unpacks"),
    ]
}

#[test]
fn no_stream_is_explained() {
    let place = Place::new();
    for (file, why) in without_frames() {
        let trace = place.file("trace", &file);
        let text = out(&words(&[&"channels", &trace]));
        assert_eq!(text.lines().last(), Some(&*format!("Import refuses the trace (6): {why}.")), "{text}");
        for command in ["frames", "import"] {
            let mut all: Vec<&dyn AsRef<OsStr>> = vec![&command, &trace];
            if command == "import" {
                all.push(&"--dry-run");
            }
            let told = "\nlumbryth: see lumbryth channels, which shows what there is and why it is not taken\n";
            fails(&words(&all), 1, &["refused (6): nothing in the trace unpacks as a frame; ", told]);
        }
        agrees(&file);
    }
    let files = without_frames();
    let lines = said(&files[2].0);
    assert_eq!(lines[2], "Skipped: 1 data packet, at byte 16. A part of it is not in the file.");
    let lines = said(&files[4].0);
    let told = "CID 0x0041 tx, named, PSM 0x0003, 1 PDU, handle 6: passed over, for no response to a request for RFCOMM is a success, and the last has result 2.";
    assert!(lines.iter().any(|line| line == told), "{lines:?}");
    let short = [&files[2].0[..], &files[2].0[16..]].concat();
    assert_eq!(said(&short)[2], "Skipped: 2 data packets, the first at byte 16. A part of each is not in the file.");
    // Nor is a success that answers another request, or comes before the one for RFCOMM.
    let file = trace_of_pdus(&[
        (6, Rx, signal(3, 1, &[0x41, 0x45, 0, 0])),
        (6, Tx, signal(2, 1, &[3, 0x45])),
        (6, Rx, signal(3, 1, &[0x41, 0x45, 1, 0])),
        (6, Tx, signal(2, 2, &[0x1001, 0x46])),
        (6, Rx, signal(3, 2, &[0x41, 0x46, 0, 0])),
    ]);
    let told = "CID 0x0041 tx, named, PSM 0x0003 then 0x1001, 0 PDUs, handle 6: passed over, \
        for no response to a request for RFCOMM is a success, and the last has result 1.";
    assert!(said(&file).iter().any(|line| line == told), "{:?}", said(&file));
    // A response that has no result either.
    let file = trace_of_pdus(&[(6, Tx, signal(2, 1, &[3, 0x45])), (6, Rx, signal(3, 1, &[0x41, 0x45]))]);
    let told = "CID 0x0041 tx, named, PSM 0x0003, 0 PDUs, handle 6: passed over, for no response to a request for RFCOMM is a success, and the last has no result.";
    assert!(said(&file).iter().any(|line| line == told), "{:?}", said(&file));
}

#[test]
fn a_cut_file_is_looked_at_up_to_there() {
    let place = Place::new();
    let whole = many_dlcis();
    let bounds = bounds(&whole);
    for n in 16..=whole.len() {
        let file = &whole[..n];
        agrees(file);
        let start = bounds.iter().copied().rfind(|&start| start <= n).unwrap();
        let looked = |file| look(look::Trace::of(file), false);
        assert_eq!(looked(file), looked(&whole[..start]).map(|seen| Seen { tail: start, ..seen }), "cut at {n}");
        if n % 9 == 0 {
            let output = words(&[&"channels", &place.file("trace", file)]);
            assert_eq!((status(&output), err(&output)), (0, String::new()), "cut at {n}");
            let text = out(&output);
            let inside = format!("\nThe file ends inside the record that starts at byte {start}: ");
            assert_eq!(text.contains(&inside), start < n, "cut at {n}: {text}");
            assert_eq!(text.contains("\nWhatever came later is missing.\n"), start < n, "cut at {n}: {text}");
            // Of what has a span nothing is taken by --link, and else nothing is said of it.
            let refused = text.strip_suffix("Import --link refuses the trace (5), for it reads whole files only.\n");
            let spans = looked(file).unwrap().dlcis.iter().any(|dlci| dlci.all.spans > 0);
            assert_eq!(refused.is_some(), start < n && spans, "cut at {n}: {text}");
            assert_eq!(refused.unwrap_or(&text).contains("--link"), start == n && spans, "cut at {n}: {text}");
            let last = refused.unwrap_or(&text).lines().last().unwrap();
            assert!(start == n || last.contains("mport --tolerant ") || last.contains("unpack"), "cut at {n}: {text}");
        }
    }
    for file in [&b""[..], b"btsnoop\0", b"btsnoop\0\0\0\0\x01\0\0\x03\xEB"] {
        let trace = place.file("trace", file);
        let output = words(&[&"channels", &trace]);
        fails(&output, 1, &["lumbryth: refused ("]);
        assert_eq!(err(&output), err(&words(&[&"records", &trace])));
    }
}

#[test]
fn asked_wrongly() {
    fails(&run(&["channels"]), 2, &["no trace is named; see lumbryth channels --help"]);
    fails(&run(&["channels", "a", "b"]), 2, &["one trace at a time: 'b' is one too many"]);
    fails(
        &run(&["channels", "a", "--channel", "9"]),
        2,
        &["channels has no option '--channel'; see lumbryth channels --help"],
    );
    let output = run(&["channels", "--help"]);
    assert_eq!((status(&output), err(&output)), (0, String::new()));
    assert!(out(&output).starts_with("usage: lumbryth channels TRACE [options]\n"));
    let proved = "program's own reading and is not proved; what import gives is proved.\n";
    assert!(out(&output).contains(proved));
}

#[test]
fn names_with_control_bytes() {
    let place = Place::new();
    let looked = |name: &[u8]| {
        let name = OsStr::from_bytes(name);
        let mut command = Command::new(PROGRAM);
        command.current_dir(&place.0).args(["channels", "--"]).arg(name).stdin(Stdio::null());
        command.output().unwrap()
    };
    for name in [&b"a\n\x1B[31m\xFF"[..], b"--json", b"-", b"channels"] {
        fs::write(place.join(OsStr::from_bytes(name)), many_dlcis()).unwrap();
        let output = looked(name);
        assert_eq!((status(&output), err(&output)), (0, String::new()));
        assert!(!out(&output).chars().any(|c| c.is_control() && c != '\n'));
    }
    fails(&looked(b"none\n\x1B[31m\xFF\t"), 1, &["lumbryth: there is no such file: none\\n\\x1b[31m\\xff\\t\n"]);
    fs::write(place.join("empty\n\x07"), b"").unwrap();
    fails(&looked(b"empty\n\x07"), 1, &["lumbryth: refused (3): the file is empty: empty\\n\\x07\n"]);
}

/// Takes a value of JSON from the front of a text, and gives what is left.
fn value(text: &str) -> Option<&str> {
    let list = |open: char, close: char, one: fn(&str) -> Option<&str>| {
        let mut rest = text.strip_prefix(open)?;
        if let Some(rest) = rest.strip_prefix(close) {
            return Some(rest);
        }
        loop {
            rest = one(rest)?;
            match rest.strip_prefix(',') {
                Some(more) => rest = more,
                None => return rest.strip_prefix(close),
            }
        }
    };
    match text.chars().next()? {
        '{' => list('{', '}', |text| value(text.starts_with('"').then_some(text).and_then(value)?.strip_prefix(':')?)),
        '[' => list('[', ']', value),
        '"' => {
            let end = text[1..].find(['"', '\\'])? + 1;
            assert_ne!(text.as_bytes()[end], b'\\', "no value here has an escape: {text}");
            text[1..end].chars().all(|c| !c.is_control()).then_some(&text[end + 1..])
        }
        '0'..='9' => Some(text.trim_start_matches(|c: char| c.is_ascii_digit())),
        _ => ["true", "false", "null"].iter().find_map(|word| text.strip_prefix(word)),
    }
}

#[test]
fn an_object_a_line() {
    let place = Place::new();
    let mut files: Vec<Vec<u8>> = without_frames().into_iter().map(|(file, _)| file).collect();
    files.extend([many_dlcis(), fs::read(example("cut.btsnoop")).unwrap()]);
    let mut rng = made::Rng(7);
    files.extend((0..40).map(|_| made::trace(&mut rng)));
    let mut kinds = BTreeSet::new();
    for file in files {
        let seen = look(look::Trace::of(&file), false).unwrap();
        let output = words(&[&"channels", &place.file("trace", &file), &"--json"]);
        assert_eq!((status(&output), err(&output)), (0, String::new()));
        let text = out(&output);
        for line in text.lines() {
            assert!(line.starts_with(r#"{"kind":""#) && value(line) == Some(""), "{line}");
            kinds.insert(line.split('"').nth(3).unwrap().to_string());
        }
        let channels: usize = seen.handles.iter().map(|handle| handle.channels.len()).sum();
        let more: usize = seen.dlcis.iter().map(|dlci| dlci.links.len() + dlci.refused.len()).sum();
        assert_eq!(text.lines().count(), 1 + seen.handles.len() + channels + seen.dlcis.len() + more);
        // Whatever has a handle has an adapter before it.
        assert_eq!(text.matches(r#""handle":"#).count(), text.matches(r#","handle":"#).count());
        for line in text.lines().filter(|line| line.contains(r#","handle":"#)) {
            let adapter = line.split(r#""adapter":"#).nth(1).unwrap().split(r#","handle":"#).next().unwrap();
            assert!(adapter.parse::<u16>().is_ok(), "{line}");
        }
    }
    assert!(kinds.iter().eq(["channel", "dlci", "file", "handle", "refused", "share"]), "{kinds:?}");

    let text = out(&words(&[&"channels", &place.file("trace", &many_dlcis()), &"--json"]));
    let lines: Vec<&str> = text.lines().collect();
    let told = [
        r#"{"kind":"file","datalink":1002,"records":14,"adapters":1,"taken":18,"reason":null,"end":"record","losses":{}}"#,
        r#"{"kind":"handle","adapter":0,"handle":6,"rx_packets":10,"rx_pdus":10,"tx_packets":4,"tx_pdus":4}"#,
        r#"{"kind":"channel","adapter":0,"handle":6,"direction":"tx","cid":1,"psms":[],"standing":"signals","tried":false,"pdus":2,"reason":null}"#,
        r#"{"kind":"channel","adapter":0,"handle":6,"direction":"rx","cid":69,"psms":[3],"standing":"admitted","tried":true,"pdus":7,"reason":null}"#,
    ];
    assert_eq!(lines[..4], told);
    let told = r#"{"kind":"channel","adapter":0,"handle":6,"direction":"rx","cid":112,"psms":[4097],"standing":"named","tried":false,"pdus":1,"reason":"no request for it has PSM 0x0003, RFCOMM"}"#;
    assert_eq!(lines[6], told);
    let told = [
        r#"{"kind":"dlci","dlci":40,"channel":20,"pieces":5,"spans":4,"frames":2,"unfinished":1,"wrong_fcs":0,"bytes":{"taken_in":46,"in_spans":44,"dropped":0,"cleared":0,"left":2},"asked_by":20}"#,
        r#"{"kind":"share","dlci":40,"link":"0:6","adapter":0,"handle":6,"pieces":5,"spans":4,"frames":2,"unfinished":1,"bytes":{"taken_in":46,"in_spans":44,"dropped":0,"cleared":0,"left":2}}"#,
        r#"{"kind":"refused","dlci":40,"refusal":17,"spans":2,"reason":"the frame's checksum is 30 where its bytes give 70"}"#,
        r#"{"kind":"dlci","dlci":19,"channel":9,"pieces":1,"spans":1,"frames":1,"unfinished":0,"wrong_fcs":0,"bytes":{"taken_in":11,"in_spans":11,"dropped":0,"cleared":0,"left":0},"asked_by":null}"#,
    ];
    assert_eq!(lines[10..14], told);
}

/// The look and the proved import agree, for each channel and without one. So they do with the FCS checked; what comes back is the look without.
#[track_caller]
fn agrees(file: &[u8]) -> Seen {
    agrees_by(file, true);
    agrees_by(file, false)
}

#[track_caller]
fn agrees_by(file: &[u8], check_fcs: bool) -> Seen {
    let trace = look::Trace::of(file);
    let seen = look(trace, check_fcs).unwrap();
    assert_eq!(seen.skipped as u64, trace.gaps(TailRule::Tolerant).unwrap().skipped.count);
    let mut options = trace.options().with_tail(TailRule::Tolerant).with_check_fcs(check_fcs);
    for channel in (0..=31).map(Some).chain([None]) {
        options.channel = channel;
        match (import_stretches_with(file, &options), seen.taken(channel)) {
            (Err(Refusal::NoStream), None) => {}
            (Ok((imported, open)), Some(dlci)) => {
                let frames = imported.spans.iter().filter(|span| unpack(&span.wire).is_ok()).count();
                let proved = (imported.dlci, imported.frames, frames, imported.unfinished, imported.tail);
                assert_eq!(
                    (dlci.dlci, dlci.all.spans, dlci.all.frames, dlci.all.unfinished, seen.tail),
                    proved,
                    "channel {channel:?}"
                );
                let refused: usize = dlci.refused.iter().map(|refused| refused.spans).sum();
                assert_eq!(dlci.all.spans, dlci.all.frames + refused);
                assert_eq!(imported.wrong_fcs, if check_fcs { dlci.wrong_fcs } else { 0 }, "channel {channel:?}");
                assert_eq!(imported.bytes, dlci.all.bytes, "channel {channel:?}");
                // What is unfinished, by adapter and handle, and how many bytes are held there.
                let mut proved = BTreeMap::new();
                for stretch in open {
                    let (stretches, held) = proved.entry((stretch.adapter, stretch.handle)).or_insert((0, 0));
                    (*stretches, *held) = (*stretches + 1, *held + stretch.held);
                }
                let held = dlci.links.iter().filter(|(_, share)| share.unfinished > 0);
                let held =
                    held.map(|(link, share)| ((link.adapter, link.handle), (share.unfinished, share.bytes.left)));
                assert_eq!(held.collect::<BTreeMap<_, _>>(), proved, "channel {channel:?}");
            }
            (imported, dlci) => panic!("channel {channel:?}: import {imported:?}, look {dlci:?}"),
        }
    }
    seen
}

/// The links over which a DLCI has frames.
fn carriers(dlci: &look::Dlci) -> impl Iterator<Item = Link> + '_ {
    dlci.links.iter().filter(|(_, share)| share.frames > 0).map(|(link, _)| *link)
}

/// Whether two adapters use the same handle.
fn shares_a_handle(seen: &Seen) -> bool {
    let handles: BTreeSet<u16> = seen.handles.iter().map(|handle| handle.link.handle).collect();
    handles.len() < seen.handles.len()
}

#[test]
fn the_look_agrees_with_the_import() {
    let mut rng = made::Rng(1);
    let mut hit = BTreeSet::new();
    let mut counts = [0; 14];
    for _ in 0..6_000 {
        let file = made::trace(&mut rng);
        let seen = agrees(&file);
        let taken: Vec<_> = (0..32).filter_map(|channel| seen.taken(Some(channel))).collect();
        // What is taken without a channel, and with the FCS checked.
        let right = look(look::Trace::of(&file), true).unwrap();
        let (first, checked) = (seen.taken(None), right.taken(None));
        let shared =
            |dlci: &look::Dlci| seen.dlcis.iter().any(|other| other.dlci == dlci.dlci ^ 1 && other.all.pieces > 0);
        let facts = [
            taken.is_empty() && seen.dlcis.is_empty(),
            taken.is_empty() && !seen.dlcis.is_empty(),
            taken.len() > 1,
            taken.iter().any(|dlci| shared(dlci)),
            taken.iter().any(|dlci| dlci.all.unfinished > 1),
            taken.iter().any(|dlci| dlci.all.spans > dlci.all.frames),
            taken.iter().any(|dlci| dlci.all.bytes.dropped > 0),
            !taken.is_empty() && seen.handles.len() > 1,
            !taken.is_empty() && seen.skipped > 0,
            // Several adapters, with frames on more than one of them; and two that use one handle.
            taken.iter().any(|dlci| carriers(dlci).map(|link| link.adapter).collect::<BTreeSet<_>>().len() > 1),
            !taken.is_empty() && shares_a_handle(&seen),
            // A wrong FCS on a DLCI that is taken all the same; another DLCI then, or none.
            checked.is_some_and(|dlci| dlci.wrong_fcs > 0),
            checked.is_some_and(|dlci| first.is_some_and(|first| first.dlci != dlci.dlci)),
            checked.is_none() && first.is_some(),
        ];
        counts.iter_mut().zip(facts).for_each(|(count, fact)| *count += usize::from(fact));
        let channels = seen.handles.iter().flat_map(|handle| &handle.channels).filter(|channel| channel.pdus > 0);
        hit.extend(channels.map(|channel| format!("{:?}", channel.standing())));
    }
    // The traces are of many kinds.
    assert!(counts.iter().all(|count| *count >= 200), "{counts:?}");
    assert_eq!(hit.len(), 7, "{hit:?}");
}

/// The same packets in pcap, in each form, and cut anywhere.
#[test]
fn the_look_agrees_in_pcap() {
    let mut rng = made::Rng(3);
    let mut counts = [0; 5];
    for n in 0..2_000 {
        let file = made::trace(&mut rng);
        let pcap = twin(&file, FORMS[n % 4]);
        let seen = agrees(&pcap);
        agrees(rng.cut(&pcap, 24));
        // Where there is one adapter, the same is seen as in btsnoop, but for its index and where the reading stopped.
        let there = look(look::Trace::of(&file), false).unwrap();
        let adapters = there.adapters();
        if adapters.iter().all(|adapter| *adapter == 0) {
            assert_eq!(Seen { tail: there.tail, ..seen.clone() }, there);
        }
        let facts = [
            seen.taken(None).is_some(),
            seen.taken(None).is_none(),
            seen.skipped > 0,
            adapters.len() <= 1 && seen.taken(None).is_some_and(|dlci| dlci.all.unfinished > 0),
            seen.handles.len() > 1,
        ];
        counts.iter_mut().zip(facts).for_each(|(count, fact)| *count += usize::from(fact));
    }
    assert!(counts.iter().all(|count| *count >= 100), "{counts:?}");
}

/// Whatever a file has, it is read as the import reads it, or refused as it refuses.
#[test]
fn damaged_files_agree() {
    let mut rng = made::Rng(2);
    let files = ["headset.btsnoop", "two-adapters.btsnoop", "noisy.btsnoop", "late.btsnoop"]
        .map(|name| fs::read(example(name)).unwrap());
    let pcap = FORMS.map(|form| twin(&files[0], form));
    for (n, whole) in files.into_iter().chain(pcap).enumerate() {
        let (mut read, mut refused) = (0, 0);
        for _ in 0..2_000 {
            let file = rng.damaged(&whole);
            let trace = look::Trace::of(&file);
            match look(trace, false) {
                Ok(_) => {
                    agrees(&file);
                    read += 1;
                }
                Err(refusal) => {
                    assert_eq!(import_with(&file, &trace.options().with_tail(TailRule::Tolerant)), Err(refusal));
                    refused += 1;
                }
            }
        }
        assert!(read >= 1_000 && refused >= 20, "trace {n}: {read} {refused}");
    }
}

/// Every cut of a trace of two adapters, and every one of its records taken out.
#[test]
fn two_adapters_agree() {
    let whole = fs::read(example("two-adapters.btsnoop")).unwrap();
    for n in 16..=whole.len() {
        agrees(&whole[..n]);
    }
    for pair in bounds(&whole).windows(2) {
        agrees(&[&whole[..pair[0]], &whole[pair[1]..]].concat());
    }
}

#[test]
fn long_buffers_agree() {
    let wire = pack(0x0C, 0, &[0x22]).unwrap();
    for (more, held) in [(0, 1), (1, 0)] {
        let mut pdus = vec![(6, Rx, good(0x45, 18))];
        let mut left = 65_536 + more;
        while left > 0 {
            let n = left.min(32_000);
            let information = if left == 65_536 + more { [&[0x3E], &vec![0; n - 1][..]].concat() } else { vec![0; n] };
            pdus.push((6, Rx, pdu(0x45, &uih(18, false, None, &information))));
            left -= n;
        }
        let seen = agrees(&trace_of_pdus(&pdus));
        let all = seen.dlcis[0].all;
        assert_eq!((all.spans, all.unfinished), (1, held));
        assert_eq!((all.bytes.dropped, all.bytes.cleared, all.bytes.left), (0, 65_537 * more, 65_536 * held));
        // What is not cleared ends with the next 3C, of whatever it is; else that is dropped.
        pdus.push((6, Rx, pdu(0x45, &uih(18, false, None, &[&[0x3C], &wire[..]].concat()))));
        let all = agrees(&trace_of_pdus(&pdus)).dlcis[0].all;
        assert_eq!((all.spans, all.frames), (2 + held, 2));
        assert_eq!((all.bytes.dropped, all.bytes.cleared, all.bytes.left), (more, 65_537 * more, 0));
    }
}
