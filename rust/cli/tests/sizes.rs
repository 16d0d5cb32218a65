//! The command sizes: what it prints, that it refuses what import refuses, and that the sizes agree with the program's own reading.

mod common;
mod made;
#[allow(dead_code)]
#[path = "../../../examples/trace/mod.rs"]
mod trace;

use std::fs;
use std::path::Path;
use std::process::Output;

use common::*;
use look::look;
use lumbryth::{import_with, sizes_with, Imported, TailRule};
use trace::pcap::{twin, FORMS};

/// The program, with these words and then a trace.
fn asked(args: &[&str], trace: &Path) -> Output {
    run(&args.iter().map(Path::new).chain([trace]).collect::<Vec<_>>())
}

/// What is printed of an example.
fn said(args: &[&str], name: &str) -> String {
    let output = asked(args, &example(name));
    assert_eq!((status(&output), err(&output)), (0, String::new()));
    out(&output)
}

#[test]
fn the_examples_in_words() {
    let headset = "Needed for the list of spans: 927 bytes.\n\
        Records: 54.\n\
        PDUs put together: 48.\n\
        Pieces of information: 32.\n\
        The file ends at a record's end, so whether more was recorded cannot be seen.\n";
    assert_eq!(said(&["sizes"], "headset.btsnoop"), headset);
    assert_eq!(said(&["sizes", "--tolerant"], "headset.btsnoop"), headset);
    assert_eq!(said(&["sizes"], "headset.pcap"), headset);
    let on_9 = headset.replace("the list of spans:", "the list of spans on channel 9:");
    assert_eq!(said(&["sizes", "--channel=9"], "headset.btsnoop"), on_9);
    let right = headset.replace("information:", "information with a right FCS:");
    assert_eq!(said(&["sizes", "--check-fcs"], "headset.btsnoop"), right);
    let cut = "Needed for the list of spans: 876 bytes.\n\
        Records: 52.\n\
        PDUs put together: 46.\n\
        Pieces of information: 30.\n\
        The file ends inside the record that starts at byte 2453: 30 bytes of it are there and 13 are missing.\n\
        Whatever came later is missing.\n";
    assert_eq!(said(&["sizes", "--tolerant"], "cut.btsnoop"), cut);
    let in_pcap = cut.replace("2453: 30 bytes", "2253: 26 bytes");
    assert_eq!(said(&["sizes", "--tolerant"], "cut.pcap"), in_pcap);
    // Of the example of a noisy adapter, less with the FCS checked.
    let noisy = |args: &[&str]| said(args, "noisy.btsnoop").lines().take(4).map(String::from).collect::<Vec<_>>();
    let (records, pdus) = ("Records: 17.", "PDUs put together: 17.");
    let told = ["Needed for the list of spans: 283 bytes.", records, pdus, "Pieces of information: 14."];
    assert_eq!(noisy(&["sizes"]), told);
    let pieces = "Pieces of information with a right FCS: 12.";
    assert_eq!(noisy(&["sizes", "--check-fcs"]), ["Needed for the list of spans: 250 bytes.", records, pdus, pieces]);
}

#[test]
fn the_examples_in_objects() {
    let headset = r#"{"kind":"sizes","needed":927,"records":54,"pdus":48,"pieces":32,"end":"record"}"#;
    for args in [&["sizes", "--json"][..], &["sizes", "--json", "--tolerant"], &["sizes", "--channel", "9", "--json"]] {
        assert_eq!(said(args, "headset.btsnoop"), format!("{headset}\n"));
        assert_eq!(said(args, "headset.pcap"), format!("{headset}\n"));
    }
    let cut = r#"{"kind":"sizes","needed":876,"records":52,"pdus":46,"pieces":30,"end":"cut","offset":2453,"present":30,"missing":13}"#;
    assert_eq!(said(&["sizes", "--json", "--tolerant"], "cut.btsnoop"), format!("{cut}\n"));
    let noisy = r#"{"kind":"sizes","needed":250,"records":17,"pdus":17,"pieces":12,"end":"record"}"#;
    assert_eq!(said(&["sizes", "--check-fcs", "--json"], "noisy.btsnoop"), format!("{noisy}\n"));
}

/// What import refuses, in the same words.
#[test]
fn refused_as_import_refuses() {
    let place = Place::new();
    let headset = fs::read(example("headset.btsnoop")).unwrap();
    let changed = |at: usize, byte: u8| {
        let mut file = headset.clone();
        file[at] = byte;
        file
    };
    let pcap = twin(&headset, FORMS[0]);
    let cases: [(&str, Vec<u8>, &[&str], &str); 10] = [
        ("long", vec![0; 1_048_577], &[], "refused (1): "),
        ("empty", Vec::new(), &[], "refused (3): the file is empty: "),
        ("text", b"This is not a trace of any kind.".to_vec(), &["--tolerant"], "refused (3): this is neither "),
        ("datalink", changed(15, 0xEB), &[], "refused (4): "),
        (
            "cut",
            headset[..headset.len() - 1].to_vec(),
            &[],
            "refused (5): the file ends inside the record that starts at ",
        ),
        ("header", headset[..16].to_vec(), &[], "refused (6): nothing in the trace unpacks as a frame; "),
        ("channel", headset.clone(), &["--channel=8"], "refused (6): nothing on channel 8 unpacks as a frame; "),
        (
            "fcs",
            trace_of(&[vec![0x22]]),
            &["--check-fcs"],
            "refused (6): nothing in the trace with a right FCS unpacks ",
        ),
        ("short", pcap[..23].to_vec(), &[], "refused (21): the file has only 23 bytes, and a pcap header has 24: "),
        ("link type", [&pcap[..20], &[187], &pcap[21..]].concat(), &[], "refused (22): the trace has link type 187, "),
    ];
    for (name, file, args, told) in cases {
        let trace = place.file(name, &file);
        for json in [&[][..], &["--json"]] {
            let output = asked(&[&["sizes"], args, json].concat(), &trace);
            fails(&output, 1, &[told]);
            assert_eq!(err(&output), err(&asked(&[&["import", "--dry-run"], args].concat(), &trace)));
        }
    }
    // What helps fits this command too.
    let output = asked(&["sizes"], &place.join("cut"));
    fails(&output, 1, &["\nlumbryth: --tolerant keeps what was complete before that\n"]);
    fails(&asked(&["sizes"], &place.join("none")), 1, &["there is no such file: "]);
}

/// A file that is seen to be damaged at its end, which each rule takes.
#[test]
fn a_damaged_end() {
    let place = Place::new();
    let file = [fs::read(example("late.btsnoop")).unwrap(), vec![0; 48]].concat();
    let told = "Needed for the list of spans: 193 bytes.\n\
        Records: 13.\n\
        PDUs put together: 11.\n\
        Pieces of information: 11.\n\
        The file is damaged: from byte 528 to its end there are zeros only, 48 of them.\n\
        Whatever came later is missing.\n";
    assert_eq!(out(&words(&[&"sizes", &place.file("trace", &file)])), told);
}

/// The library's sizes, by every rule, against what import gives and the program's own reading of the file. Tells how many times they
/// were refused, and how many times not.
#[track_caller]
fn agree(file: &[u8]) -> [usize; 2] {
    let (trace, mut counts) = (look::Trace::of(file), [0; 2]);
    for check_fcs in [false, true] {
        let seen = look(trace, check_fcs);
        for channel in [None, Some(1), Some(9), Some(20)] {
            for tail in [TailRule::Tolerant, TailRule::Strict] {
                let mut options = trace.options().with_tail(tail).with_check_fcs(check_fcs);
                options.channel = channel;
                let sizes = sizes_with(file, &options);
                let list = |found: Imported| found.spans.iter().map(|span| 14 + span.wire.len()).sum();
                assert_eq!(sizes.map(|sizes| sizes.needed), import_with(file, &options).map(list));
                counts[usize::from(sizes.is_ok())] += 1;
                if let (Ok(sizes), Ok(seen)) = (sizes, &seen) {
                    let pdus: usize = seen.handles.iter().map(|handle| handle.pdus.rx + handle.pdus.tx).sum();
                    let pieces: usize = seen.dlcis.iter().map(|dlci| dlci.all.pieces).sum();
                    assert_eq!((sizes.records, sizes.pdus, sizes.pieces), (seen.records, pdus, pieces));
                }
            }
        }
    }
    counts
}

#[test]
fn the_sizes_agree() {
    let mut rng = made::Rng(6);
    let mut sum = [0; 2];
    for n in 0..2_000 {
        let file = made::trace(&mut rng);
        let pcap = twin(&file, FORMS[n % 4]);
        let counts = [agree(&file), agree(&rng.damaged(&file)), agree(&pcap), agree(rng.cut(&pcap, 24))];
        counts.iter().for_each(|counts| sum.iter_mut().zip(counts).for_each(|(sum, count)| *sum += count));
    }
    assert!(sum.iter().all(|count| *count >= 10_000), "{sum:?}");
}
