//! UIH frames with a wrong FCS: passed over and counted with --check-fcs, told in words, in objects and in the list of a set; and
//! taken as they are without it.

mod common;
#[allow(dead_code)]
mod made;
#[allow(dead_code)]
#[path = "../../../examples/trace/mod.rs"]
mod trace;

use std::fs;
use std::path::Path;
use std::process::Output;

use common::*;
use lumbryth::Direction::{self, Rx};
use lumbryth::{import_with, pack, plan, Fixture, Options, TailRule};
use trace::pcap::{twin, FORMS};
use trace::{pdu, uih, Trace};

/// A trace of RFCOMM frames on CID 0x41, one to a record.
fn trace_of_frames(frames: &[(Direction, Vec<u8>)]) -> Vec<u8> {
    let mut trace = Trace::new(1002);
    for (us, (direction, frame)) in (0..).step_by(1000).zip(frames) {
        trace.fragment(*direction, us, 6, true, &pdu(0x41, frame));
    }
    trace.file
}

/// A UIH frame with a frame in it, and one whose FCS is wrong.
fn good(dlci: u8) -> (Direction, Vec<u8>) {
    (Rx, uih(dlci, false, None, &pack(0x01, 0, &[]).unwrap()))
}

fn wrong(dlci: u8) -> (Direction, Vec<u8>) {
    let (direction, mut frame) = good(dlci);
    *frame.last_mut().unwrap() ^= 0x01;
    (direction, frame)
}

fn noisy() -> Vec<u8> {
    fs::read(example("noisy.btsnoop")).unwrap()
}

fn options(check_fcs: bool) -> Options {
    Options::default().with_tail(TailRule::Tolerant).with_check_fcs(check_fcs)
}

fn fixtures_by(file: &[u8], check_fcs: bool) -> Vec<Fixture> {
    let options = options(check_fcs).with_container(look::Trace::of(file).container);
    plan(&import_with(file, &options).unwrap().spans, &[] as &[&str]).unwrap()
}

/// The program, with these words and then a trace.
fn asked(args: &[&str], trace: &Path) -> Output {
    run(&args.iter().map(Path::new).chain([trace]).collect::<Vec<_>>())
}

fn list(dir: &Path) -> String {
    fs::read_to_string(dir.join(LIST)).unwrap()
}

#[test]
fn the_example_in_words() {
    let lines = |args: &[&dyn AsRef<std::ffi::OsStr>]| -> Vec<String> {
        let output = words(args);
        assert_eq!((status(&output), err(&output)), (0, String::new()));
        out(&output).lines().map(String::from).collect()
    };
    let file = example("noisy.btsnoop");
    let told = [
        "10 frames, all of which unpack: DLCI 18, channel 9.",
        "3 UIH frames on DLCI 18 have a wrong FCS and were passed over.",
        "Bytes on DLCI 18: 110 taken in, all in frames.",
        "Unfinished on DLCI 18: nothing is held without an end marker.",
        "The file ends at a record's end, so whether more was recorded cannot be seen.",
        "What is proved of a cut is for a channel that is asked for, here --channel 9.",
    ];
    let frames = lines(&[&"frames", &file, &"--check-fcs"]);
    assert_eq!(frames[..6], told);
    assert_eq!(frames.len(), 16);
    assert!(frames[12].starts_with("NCASM_RET_PARAM rx 7, "), "{}", frames[12]);
    let place = Place::new();
    let dir = place.join("out");
    let written = lines(&[&"import", &file, &"--check-fcs", &"--out", &dir]);
    assert_eq!(written[..6], told);
    assert_eq!(written[6..], [format!("10 fixtures written: {}", dir.display())]);
    holds(&dir, &fixtures_by(&noisy(), true));
    let dry = words(&[&"import", &"--dry-run", &"--check-fcs", &file]);
    assert_eq!(err(&dry).lines().collect::<Vec<_>>(), told);
    assert_eq!(out(&dry).lines().count(), 10);
    // With a channel the same is said.
    assert_eq!(lines(&[&"frames", &file, &"--check-fcs", &"--channel=9"])[..5], told[..5]);
    // Without the switch nothing is said of it: two frames more, one of which does not unpack, and one that is there again.
    let frames = lines(&[&"frames", &file]);
    assert_eq!(frames[0], "11 frames, 1 of which does not unpack: DLCI 18, channel 9.");
    assert!(!frames.iter().any(|line| line.contains("FCS")), "{frames:?}");
    assert_eq!(frames[1], "Bytes on DLCI 18: 129 taken in, all in frames.");
    assert!(frames[12].starts_with("does not unpack rx 7, refusal 17, "), "{}", frames[12]);
    // Where none is wrong, that is said.
    let frames = lines(&[&"frames", &example("headset.btsnoop"), &"--check-fcs"]);
    assert_eq!(frames[1], "No UIH frame on DLCI 18 has a wrong FCS.");
    assert_eq!([&frames[..1], &frames[2..]].concat(), lines(&[&"frames", &example("headset.btsnoop")]));
    // And one is one.
    let trace = place.file("trace", &trace_of_frames(&[wrong(18), good(18)]));
    let frames = lines(&[&"frames", &trace, &"--check-fcs"]);
    assert_eq!(frames[1], "1 UIH frame on DLCI 18 has a wrong FCS and was passed over.");
}

#[test]
fn the_example_in_channels() {
    let text = out(&words(&[&"channels", &example("noisy.btsnoop")]));
    let lines: Vec<&str> = text.lines().skip(8).collect();
    let told = [
        "DLCI 18, channel 9: 10 frames, 11 spans, 13 pieces, 0 unfinished.",
        "Bytes on DLCI 18: 129 taken in, all in spans.",
        "DLCI 18: import takes it, with --channel 9 or without.",
        "DLCI 18 on handle 6: import --link 0:6 --dlci 18 takes it alone.",
        "DLCI 18: 3 UIH frames have a wrong FCS, and import --check-fcs passes them over.",
        "DLCI 18: 1 span does not unpack, refusal 17, the frame's checksum is A2 where its bytes give 6A.",
        "DLCI 22, channel 11: 0 frames, 0 spans, 1 piece, 0 unfinished.",
        "Bytes on DLCI 22: 3 taken in, 3 dropped before a start marker or for want of one.",
        "DLCI 22: import does not take it, for it has no span.",
    ];
    assert_eq!(lines, told);
    let objects = out(&words(&[&"channels", &"--json", &example("noisy.btsnoop")]));
    let dlcis: Vec<&str> = objects.lines().filter(|line| line.contains(r#""kind":"dlci""#)).collect();
    let told = [
        r#"{"kind":"dlci","dlci":18,"channel":9,"pieces":13,"spans":11,"frames":10,"unfinished":0,"wrong_fcs":3,"bytes":{"taken_in":129,"in_spans":129,"dropped":0,"cleared":0,"left":0},"asked_by":9}"#,
        r#"{"kind":"dlci","dlci":22,"channel":11,"pieces":1,"spans":0,"frames":0,"unfinished":0,"wrong_fcs":0,"bytes":{"taken_in":3,"in_spans":0,"dropped":3,"cleared":0,"left":0},"asked_by":null}"#,
    ];
    assert_eq!(dlcis, told);
    // Of one, and of a file that is cut.
    let place = Place::new();
    let trace = place.file("trace", &[&trace_of_frames(&[wrong(18)])[..], &[0, 0, 0]].concat());
    let told = "\nDLCI 18: 1 UIH frame has a wrong FCS, and import --tolerant --check-fcs passes it over.\n";
    let text = out(&words(&[&"channels", &trace]));
    assert!(text.contains(told), "{text}");
}

#[test]
fn the_example_in_objects() {
    let first = |args: &[&str]| out(&asked(args, &example("noisy.btsnoop"))).lines().next().unwrap().to_string();
    let told = r#"{"kind":"import","dlci":18,"channel":9,"frames":10,"unfinished":0,"check_fcs":true,"wrong_fcs":3,"bytes":{"taken_in":110,"in_spans":110,"dropped":0,"cleared":0,"left":0},"links":["0:6"],"adapters":1,"end":"record","losses":{}}"#;
    assert_eq!(first(&["frames", "--json", "--check-fcs"]), told);
    let told = r#"{"kind":"import","dlci":18,"channel":9,"frames":11,"unfinished":0,"check_fcs":false,"wrong_fcs":null,"bytes":{"taken_in":129,"in_spans":129,"dropped":0,"cleared":0,"left":0},"links":["0:6"],"adapters":1,"end":"record","losses":{}}"#;
    assert_eq!(first(&["frames", "--json"]), told);
}

/// A set says whether the FCS was checked, and how many were passed over, and is checked as it was made.
#[test]
fn the_list_keeps_the_fcs() {
    let place = Place::new();
    let trace = example("noisy.btsnoop");
    let (on, off) = (place.join("on"), place.join("off"));
    assert_eq!(status(&words(&[&"import", &trace, &"--out", &on, &"--check-fcs"])), 0);
    assert_eq!(status(&words(&[&"import", &trace, &"--out", &off])), 0);
    assert!(list(&on).contains("\n# fcs: checked\n# fixtures: 10\n"), "{}", list(&on));
    assert!(list(&on).contains("\n# unfinished: 0\n# wrong fcs: 3\n"), "{}", list(&on));
    assert!(list(&off).contains("\n# fcs: not checked\n# fixtures: 10\n"), "{}", list(&off));
    assert!(!list(&off).contains("wrong fcs"), "{}", list(&off));
    let told = "3 UIH frames on DLCI 18 have a wrong FCS and were passed over.\n";
    let bytes = |n: usize| format!("Bytes on DLCI 18: {n} taken in, all in frames.\n");
    for (dir, more) in [(&on, format!("{told}{}", bytes(110))), (&off, bytes(129))] {
        for with_trace in [false, true] {
            let output = if with_trace { words(&[&"check", dir, &trace]) } else { words(&[&"check", dir]) };
            assert_eq!((status(&output), err(&output)), (0, String::new()));
            assert!(out(&output).contains(&format!(": noisy.btsnoop\n{more}10 fixtures, all as ")), "{}", out(&output));
        }
    }
    let object = |dir| {
        let text = out(&words(&[&"check", &"--json", dir]));
        text.lines().nth(1).unwrap().to_string()
    };
    assert_eq!(object(&on), r#"{"kind":"fcs","check_fcs":true,"wrong_fcs":3}"#);
    assert_eq!(object(&off), r#"{"kind":"fcs","check_fcs":false,"wrong_fcs":null}"#);
    // A set stays as it was made, and is not mixed with one that was asked for otherwise.
    let otherwise = "nothing was written: the directory has a set of this trace that was asked for otherwise, with fcs";
    let output = words(&[&"import", &trace, &"--out", &on]);
    fails(&output, 1, &[&format!("lumbryth: {otherwise} checked: ")]);
    let output = words(&[&"import", &trace, &"--out", &off, &"--check-fcs"]);
    fails(&output, 1, &[&format!("lumbryth: {otherwise} not checked: ")]);
    let again = words(&[&"import", &trace, &"--out", &on, &"--check-fcs"]);
    assert!(out(&again).contains("\n0 fixtures written, 10 were there already with the same bytes: "));
    // What was passed over is told also where something is wrong.
    fs::remove_file(on.join(&listing(&on)[3])).unwrap();
    let output = words(&[&"check", &on]);
    assert_eq!(status(&output), 1);
    assert!(out(&output).starts_with(&format!("{told}{}missing: ", bytes(110))), "{}", out(&output));
}

/// What a list says of the FCS has to be so. One that says nothing is of an import that did not check it.
#[test]
fn lists_that_say_otherwise() {
    let place = Place::new();
    let trace = example("noisy.btsnoop");
    let (on, off) = (place.join("on"), place.join("off"));
    assert_eq!(status(&words(&[&"import", &trace, &"--out", &on, &"--check-fcs"])), 0);
    assert_eq!(status(&words(&[&"import", &trace, &"--out", &off])), 0);
    let (checked, unchecked) = (list(&on), list(&off));
    relist(&place, &off, &unchecked.replace("# fcs: not checked\n", ""));
    let before = list(&off);
    for output in [words(&[&"check", &off]), words(&[&"check", &off, &trace])] {
        assert_eq!((status(&output), err(&output)), (0, String::new()));
        assert!(!out(&output).contains("FCS"), "{}", out(&output));
    }
    assert!(out(&words(&[&"check", &"--json", &off])).contains(r#"{"kind":"fcs","check_fcs":false,"wrong_fcs":null}"#));
    let again = words(&[&"import", &trace, &"--out", &off]);
    assert!(out(&again).contains("\n0 fixtures written, 10 were there already with the same bytes: "));
    let output = words(&[&"import", &trace, &"--out", &off, &"--check-fcs"]);
    fails(&output, 1, &["that was asked for otherwise, with fcs not checked: "]);
    assert_eq!(list(&off), before);
    // Another count; one that is not there; and what is neither yes nor no.
    let differs = |from: &str, to: &str, lines: &[&str]| {
        relist(&place, &on, &checked.replace(from, to));
        assert_eq!(status(&words(&[&"check", &on])), 0);
        let output = words(&[&"check", &on, &trace]);
        assert_eq!(status(&output), 1);
        let told: String = lines.iter().map(|line| format!("{line}\n")).collect();
        assert!(out(&output).ends_with(&told), "{}", out(&output));
    };
    differs(
        "# wrong fcs: 3\n",
        "# wrong fcs: 2\n",
        &["trace: only the list has wrong fcs: 2", "trace: only the trace has wrong fcs: 3"],
    );
    differs("# wrong fcs: 3\n", "", &["trace: only the trace has wrong fcs: 3"]);
    differs("# fcs: checked\n", "# fcs: perhaps\n", &["list: it does not say how the set was asked for"]);
    // Without the word, what is imported again is not what the set was made of.
    relist(&place, &on, &checked.replace("# fcs: checked\n", ""));
    let output = words(&[&"check", &on, &trace]);
    assert_eq!(status(&output), 1);
    assert!(out(&output).contains("\ntrace: only the list has wrong fcs: 3\n"), "{}", out(&output));
    assert!(out(&output).contains("\ntrace: only the trace has frames: 11\n"), "{}", out(&output));
}

/// Where nothing that is right has frames, it is said what there is without the switch.
#[test]
fn nothing_is_right() {
    let place = Place::new();
    let none = "refused (6): nothing in the trace with a right FCS unpacks as a frame; the file ends at a record's end";
    let see = "\nlumbryth: see lumbryth channels, which shows what there is and why it is not taken\n";
    let trace = place.file("trace", &trace_of_frames(&[wrong(18), wrong(18), wrong(40)]));
    let told = "\nlumbryth: Without --check-fcs, DLCI 18, channel 9, is taken, which has 2 frames that unpack.\n";
    for command in [&["frames"][..], &["import", "--dry-run"]] {
        let asked = |more: &[&str]| asked(&[command, more].concat(), &trace);
        assert_eq!(status(&asked(&[])), 0);
        fails(&asked(&["--check-fcs"]), 1, &[none, told, see]);
        let on_9 = "refused (6): nothing on channel 9 with a right FCS unpacks as a frame; ";
        fails(&asked(&["--check-fcs", "--channel=9"]), 1, &[on_9, told, see]);
        let one = "\nlumbryth: Without --check-fcs, DLCI 40, channel 20, is taken, which has 1 frame that unpacks.\n";
        fails(&asked(&["--check-fcs", "--channel=20"]), 1, &[one]);
        // Where the switch changes nothing, nothing is said of it.
        let output = asked(&["--check-fcs", "--channel=3"]);
        fails(&output, 1, &["refused (6): nothing on channel 3 with a right FCS unpacks as a frame; "]);
        assert!(!err(&output).contains("Without"), "{}", err(&output));
        let output = asked(&["--channel=3"]);
        fails(
            &output,
            1,
            &["refused (6): nothing on channel 3 unpacks as a frame; ", "\nlumbryth: DLCI 18, channel 9, "],
        );
        assert!(!err(&output).contains("FCS"), "{}", err(&output));
    }
    // Nothing is written then.
    let output = words(&[&"import", &trace, &"--check-fcs", &"--out", &place.join("out")]);
    fails(&output, 1, &[none, told]);
    assert!(!place.join("out").exists());
    // A channel that has nothing right, where another has: both are said.
    let trace = place.file("trace", &trace_of_frames(&[wrong(18), good(40)]));
    let output = words(&[&"frames", &trace, &"--check-fcs", &"--channel=9"]);
    let other = "\nlumbryth: DLCI 40, channel 20, has 1 frame that unpacks: --channel 20.\n";
    let one = "\nlumbryth: Without --check-fcs, DLCI 18, channel 9, is taken, which has 1 frame that unpacks.\n";
    fails(&output, 1, &[one, other]);
}

/// Another DLCI than without the switch; and the others are told by what is right.
#[test]
fn another_dlci() {
    let place = Place::new();
    let trace = place.file("trace", &trace_of_frames(&[wrong(18), wrong(19), good(40), good(19), wrong(60)]));
    let text = |more: &[&str]| {
        let output = asked(&[&["frames"], more].concat(), &trace);
        assert_eq!((status(&output), err(&output)), (0, String::new()));
        out(&output)
    };
    let told = |more: &[&str]| -> Vec<String> {
        let text = text(more);
        text.lines().filter(|line| line.contains("DLCI ")).map(String::from).collect()
    };
    let on = told(&["--check-fcs"]);
    let lines = [
        "1 frame, which unpacks: DLCI 40, channel 20.",
        "No UIH frame on DLCI 40 has a wrong FCS.",
        "Bytes on DLCI 40: 9 taken in, all in frames.",
        "Unfinished on DLCI 40: nothing is held without an end marker.",
        "Without --check-fcs, DLCI 18, channel 9, is taken, which has 1 frame that unpacks.",
        "DLCI 19, channel 9, has 1 frame that unpacks too: --channel 9.",
    ];
    assert_eq!(on, lines);
    let on_9 = told(&["--check-fcs", "--channel=9"]);
    let lines = [
        "1 frame, which unpacks: DLCI 19, channel 9.",
        "1 UIH frame on DLCI 19 has a wrong FCS and was passed over.",
        "Bytes on DLCI 19: 9 taken in, all in frames.",
        "Unfinished on DLCI 19: nothing is held without an end marker.",
        "Without --check-fcs, DLCI 18, channel 9, is taken, which has 1 frame that unpacks.",
        "DLCI 40, channel 20, has 1 frame that unpacks too: --channel 20.",
    ];
    assert_eq!(on_9, lines);
    let off = told(&[]);
    let lines = [
        "1 frame, which unpacks: DLCI 18, channel 9.",
        "Bytes on DLCI 18: 9 taken in, all in frames.",
        "Unfinished on DLCI 18: nothing is held without an end marker.",
        "DLCI 19, channel 9, has 2 frames that unpack too, and no channel asks for it: --channel 9 takes DLCI 18, which comes first.",
        "DLCI 40, channel 20, has 1 frame that unpacks too: --channel 20.",
        "DLCI 60, channel 30, has 1 frame that unpacks too: --channel 30.",
    ];
    assert_eq!(off, lines);
    let objects = text(&["--check-fcs", "--json"]);
    assert!(objects.contains(r#""dlci":40,"channel":20,"frames":1,"unfinished":0,"check_fcs":true,"wrong_fcs":0,"#));
    assert!(objects.ends_with("{\"kind\":\"other\",\"dlci\":19,\"channel\":9,\"frames\":1,\"asked_by\":9}\n"));
}

#[test]
fn asked_wrongly() {
    fails(&run(&["import", "a", "--check-fcs=yes"]), 2, &["--check-fcs takes no value; see lumbryth import --help"]);
    for command in ["records", "channels", "check"] {
        let told = format!("{command} has no option '--check-fcs'; see lumbryth {command} --help");
        fails(&run(&[command, "a", "--check-fcs"]), 2, &[&told]);
    }
    for command in ["import", "frames"] {
        assert!(out(&run(&[command, "--help"])).contains("\n  --check-fcs "), "{command}");
    }
}

/// Every cut of the example, in btsnoop and in each form of pcap: what is there comes out as of the whole, and the count of what is
/// wrong only grows.
#[test]
fn every_cut() {
    let place = Place::new();
    for (n, whole) in [noisy()].into_iter().chain(FORMS.map(|form| twin(&noisy(), form))).enumerate() {
        let all: Vec<String> = fixtures_by(&whole, true).into_iter().map(|fixture| fixture.name).collect();
        let (mut most, mut counted) = (0, 0);
        for length in (16 + n.min(1) * 8..whole.len()).step_by([1, 23][n.min(1)]).chain([whole.len()]) {
            let trace = place.file("trace", &whole[..length]);
            let output = words(&[&"import", &trace, &"--tolerant", &"--check-fcs", &"--dry-run"]);
            let names: Vec<String> = out(&output).lines().map(String::from).collect();
            assert_eq!(names, all[..names.len()], "cut at {length}");
            assert!(names.len() >= most, "cut at {length}");
            most = names.len();
            let told = err(&output);
            let count = told.lines().find_map(|line| line.split_once(" UIH frame")).map(|(count, _)| count);
            match count {
                None => assert!(names.is_empty() && told.contains("refused (6)"), "cut at {length}: {told}"),
                Some("No") => assert_eq!(counted, 0, "cut at {length}"),
                Some(number) => {
                    let number: usize = number.parse().unwrap();
                    assert!(number >= counted, "cut at {length}");
                    counted = number;
                }
            }
        }
        assert_eq!((most, counted), (10, 3));
    }
}

/// Traces made at random: what the program says is what the library answers, with the switch and without.
#[test]
fn as_the_library_answers() {
    let place = Place::new();
    let mut rng = made::Rng(5);
    let mut counts = [0; 4];
    for n in 0..150 {
        let file = made::trace(&mut rng);
        let file = if n % 3 == 0 { twin(&file, FORMS[n % 4]) } else { file };
        let container = look::Trace::of(&file).container;
        let trace = place.file("trace", &file);
        let answers = [false, true].map(|on| import_with(&file, &options(on).with_container(container)));
        for (answer, more) in answers.iter().zip([&[][..], &["--check-fcs"]]) {
            let output = asked(&[&["frames", "--json"], more].concat(), &trace);
            match answer {
                Ok(imported) => {
                    let fcs = match more {
                        [] => r#""check_fcs":false,"wrong_fcs":null"#.to_string(),
                        _ => format!(r#""check_fcs":true,"wrong_fcs":{}"#, imported.wrong_fcs),
                    };
                    let (dlci, channel) = (imported.dlci, imported.dlci / 2);
                    let start = format!(
                        r#"{{"kind":"import","dlci":{dlci},"channel":{channel},"frames":{},"unfinished":{},{fcs},"#,
                        imported.frames, imported.unfinished
                    );
                    assert!(out(&output).starts_with(&start), "{}", out(&output));
                }
                Err(_) => fails(&output, 1, &["lumbryth: refused (6): "]),
            }
        }
        let [off, on] = answers;
        let facts = [
            on.as_ref().is_ok_and(|on| on.wrong_fcs > 0),
            on.as_ref().is_ok_and(|on| off.as_ref().is_ok_and(|off| off.dlci != on.dlci)),
            on.is_err() && off.is_ok(),
            on == off,
        ];
        counts.iter_mut().zip(facts).for_each(|(count, fact)| *count += usize::from(fact));
    }
    assert!(counts.iter().all(|count| *count >= 3), "{counts:?}");
}
