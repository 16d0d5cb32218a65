//! Where every byte went: a line that accounts for all of them, in import, frames and channels, in objects, in the list of a set and
//! where that is checked.

mod common;
#[allow(dead_code)]
mod made;
#[allow(dead_code)]
#[path = "../../../examples/trace/mod.rs"]
mod trace;

use std::fs;
use std::path::Path;

use common::*;
use lumbryth::Direction::{self, Rx, Tx};
use lumbryth::{import_with, pack, Account, TailRule};
use trace::pcap::{twin, FORMS};
use trace::{control, pdu, uih, Trace};

const DROPPED: &str = "dropped before a start marker or for want of one";
const CLEARED: &str = "cleared because over 65536 had no end marker";
const LEFT: &str = "left without an end marker";

/// What a record has: handle, direction, RFCOMM frame. All have one CID.
type Sent = (u16, Direction, Vec<u8>);

fn trace_of_frames(frames: &[Sent]) -> Vec<u8> {
    let mut trace = Trace::new(1002);
    for (us, (handle, direction, frame)) in (0..).step_by(1000).zip(frames) {
        trace.fragment(*direction, us, *handle, true, &pdu(0x41, frame));
    }
    trace.file
}

/// Information on DLCI 18, which is received.
fn piece(information: &[u8]) -> Sent {
    (6, Rx, uih(18, false, None, information))
}

/// A frame of 11 bytes.
fn wire() -> Vec<u8> {
    pack(0x0C, 0, &[0x22, 0x00]).unwrap()
}

/// A trace with one frame, and more information after it, a piece each.
fn after_a_frame(more: &[&[u8]]) -> Vec<u8> {
    let pieces: Vec<Sent> = [&wire()[..]].iter().chain(more).map(|bytes| piece(bytes)).collect();
    trace_of_frames(&pieces)
}

/// A start marker and zeros, so many bytes in all, in pieces.
fn long(n: usize) -> Vec<Vec<u8>> {
    let bytes = [&[0x3E], &vec![0; n - 1][..]].concat();
    bytes.chunks(32_000).map(<[u8]>::to_vec).collect()
}

fn slices(pieces: &[Vec<u8>]) -> Vec<&[u8]> {
    pieces.iter().map(|piece| &piece[..]).collect()
}

/// The lines that tell of bytes: the account, and what it may be due to.
fn told(text: &str) -> Vec<String> {
    let is = |line: &&str| line.starts_with("Bytes on DLCI ") || line.starts_with("What was ");
    text.lines().filter(is).map(String::from).collect()
}

fn object(bytes: Account) -> String {
    let Account { in_spans, dropped, cleared, left, .. } = bytes;
    let all = bytes.taken_in();
    format!(r#""taken_in":{all},"in_spans":{in_spans},"dropped":{dropped},"cleared":{cleared},"left":{left}}}"#)
}

fn list(dir: &Path) -> String {
    fs::read_to_string(dir.join(LIST)).unwrap()
}

/// What is said of the bytes of a trace, in these words: by frames and import, in the list and by check, with the trace and without;
/// in channels, which says spans; and in objects, as the library has them. Frames and import say what may be the reason: of what, and
/// which part of a frame.
#[track_caller]
fn says(file: &[u8], account: &str, reason: Option<&str>) {
    let place = Place::new();
    let (trace, dir) = (place.file("trace", file), place.join("out"));
    let line = format!("Bytes on DLCI 18: {account}.");
    let due = reason.map(|reason| {
        let (what, part) = reason.split_once(": ").unwrap();
        format!("What was {what} may be due to damage, to another protocol on DLCI 18, or to a frame {part} was not taken in.")
    });
    let all: Vec<String> = [line.clone()].into_iter().chain(due).collect();
    let said = |args: &[&dyn AsRef<std::ffi::OsStr>]| {
        let output = words(args);
        assert_eq!(status(&output), 0, "{}", err(&output));
        (out(&output), err(&output))
    };
    assert_eq!(told(&said(&[&"frames", &trace]).0), all);
    assert_eq!(told(&said(&[&"import", &trace, &"--dry-run"]).1), all);
    assert_eq!(told(&said(&[&"import", &trace, &"--out", &dir]).0), all);
    assert!(list(&dir).starts_with(&format!("# lumbryth fixture set 1\n# bytes: {account}\n# channel: any\n")));
    assert_eq!(told(&said(&[&"check", &dir]).0), [&*line]);
    assert_eq!(told(&said(&[&"check", &dir, &trace]).0), [&*line]);
    let spans = told(&said(&[&"channels", &trace]).0);
    assert!(spans.contains(&line.replace(" in frames", " in spans")), "{spans:?}");
    // The same in objects.
    let bytes = import_with(file, &look::Trace::of(file).options()).unwrap().bytes;
    let first = said(&[&"frames", &"--json", &trace]).0;
    assert!(first.lines().next().unwrap().contains(&format!(r#","bytes":{{{},"#, object(bytes))), "{first}");
    let objects = said(&[&"check", &"--json", &dir]).0;
    assert_eq!(objects.lines().nth(2).unwrap(), format!(r#"{{"kind":"bytes",{}"#, object(bytes)));
    let objects = said(&[&"channels", &"--json", &trace]).0;
    let dlci = objects.lines().find(|line| line.starts_with(r#"{"kind":"dlci","dlci":18,"#)).unwrap();
    assert!(dlci.contains(&format!(r#","bytes":{{{},"#, object(bytes))), "{dlci}");
}

#[test]
fn all_in_frames() {
    let wire = wire();
    says(&after_a_frame(&[]), "11 taken in, all in frames", None);
    says(&after_a_frame(&[&wire[..5], &wire[5..], &[]]), "22 taken in, all in frames", None);
    // Also in one that does not unpack.
    says(&after_a_frame(&[&[0x3E, 0x3C]]), "13 taken in, all in frames", None);
}

#[test]
fn dropped() {
    let wire = wire();
    let due = Some("dropped: whose beginning");
    let says = |more: &[&[u8]], words: &str| says(&after_a_frame(more), words, due);
    says(&[&[&[1, 2, 3], &wire[..]].concat()], &format!("25 taken in, 22 in frames, 3 {DROPPED}"));
    // An end marker by itself, before a frame, between frames and behind them.
    says(&[&[0x3C]], &format!("12 taken in, 11 in frames, 1 {DROPPED}"));
    says(
        &[&[&[0x3C], &wire[..], &[0x3C], &wire, &[0x3C]].concat()],
        &format!("36 taken in, 33 in frames, 3 {DROPPED}"),
    );
    // No start marker in a piece, and the rest of a frame.
    says(&[b"AT\r", &wire[4..]], &format!("21 taken in, 11 in frames, 10 {DROPPED}"));
    says(&[b"AT\r", &wire[4..], &wire[..1]], &format!("22 taken in, 11 in frames, 10 {DROPPED}, 1 {LEFT}"));
}

#[test]
fn left() {
    let wire = wire();
    says(&after_a_frame(&[&wire[..1]]), &format!("12 taken in, 11 in frames, 1 {LEFT}"), None);
    says(&after_a_frame(&[&wire[..3], &[0x3E; 5]]), &format!("19 taken in, 11 in frames, 8 {LEFT}"), None);
}

#[test]
fn cleared() {
    let (wire, full) = (wire(), long(65_536));
    let full = slices(&full);
    let due = Some("cleared: whose end");
    says(&after_a_frame(&full), &format!("65547 taken in, 11 in frames, 65536 {LEFT}"), None);
    let over = [&full[..], &[&[0]]].concat();
    says(&after_a_frame(&over), &format!("65548 taken in, 11 in frames, 65537 {CLEARED}"), due);
    let all = [&full[..], &[&[0; 32_767]]].concat();
    says(&after_a_frame(&all), &format!("98314 taken in, 11 in frames, 98303 {CLEARED}"), due);
    // An end marker in the piece that passes the limit is in time.
    says(&after_a_frame(&[&full[..], &[&[0, 0x3C]]].concat()), "65549 taken in, all in frames", None);
    // What follows is dropped up to the next start marker.
    let more = [&over[..], &[&[1, 2, 0x3C], &wire, &[0x3E]]].concat();
    let words = format!("65563 taken in, 22 in frames, 3 {DROPPED}, 65537 {CLEARED}, 1 {LEFT}");
    says(&after_a_frame(&more), &words, Some("dropped or cleared: of which a part"));
    let twice = [&over[..], &over].concat();
    says(&after_a_frame(&twice), &format!("131085 taken in, 11 in frames, 131074 {CLEARED}"), due);
}

/// The account is of all stretches of the DLCI together, and of no other DLCI.
#[test]
fn several_stretches() {
    let wire = wire();
    let (begin, end) = wire.split_at(4);
    let on = |handle, direction, dlci, bytes: &[u8]| (handle, direction, uih(dlci, direction == Tx, None, bytes));
    let frames = [
        piece(&wire),
        piece(begin),
        on(7, Rx, 18, begin),
        on(7, Rx, 18, end),
        on(7, Tx, 18, end),
        on(6, Tx, 18, &begin[..2]),
        on(6, Rx, 19, &wire),
        on(6, Rx, 40, b"AT\r"),
        (6, Rx, control(18, true, 0x3F)),
        piece(end),
        piece(&begin[..3]),
    ];
    let file = trace_of_frames(&frames);
    says(&file, &format!("45 taken in, 22 in frames, 14 {DROPPED}, 9 {LEFT}"), Some("dropped: whose beginning"));
    let place = Place::new();
    let trace = place.file("trace", &file);
    let text = out(&words(&[&"frames", &trace]));
    let held =
        text.lines().filter_map(|line| line.strip_prefix("Unfinished on ")?.rsplit_once(": ")?.1.split(' ').next());
    assert_eq!(held.map(|n| n.parse::<usize>().unwrap()).sum::<usize>(), 9, "{text}");
    // In channels each DLCI has its own, also one that import does not take.
    let last = ["Bytes on DLCI 19: 11 taken in, all in spans.", &format!("Bytes on DLCI 40: 3 taken in, 3 {DROPPED}.")];
    assert_eq!(told(&out(&words(&[&"channels", &trace])))[1..], last);
}

/// With the FCS checked, what came with a wrong one is not taken in.
#[test]
fn wrong_fcs() {
    let place = Place::new();
    let (wire, text) = (wire(), b"AT\r");
    let wrong = |bytes: &[u8]| {
        let (handle, direction, mut frame) = piece(bytes);
        *frame.last_mut().unwrap() ^= 0x04;
        (handle, direction, frame)
    };
    let frames = [wrong(text), piece(&wire), wrong(&wire), piece(&wire[..5]), wrong(&[0x3C]), piece(&wire[5..])];
    let trace = place.file("trace", &trace_of_frames(&frames));
    let said = |more: &str| out(&words(&[&"frames", &trace, &more]));
    assert_eq!(told(&said("--check-fcs")), ["Bytes on DLCI 18: 22 taken in, all in frames."]);
    let lines: Vec<String> = said("--check-fcs").lines().take(4).map(String::from).collect();
    let due = [
        "2 frames, all of which unpack: DLCI 18, channel 9.",
        "3 UIH frames on DLCI 18 have a wrong FCS and were passed over.",
        "Bytes on DLCI 18: 22 taken in, all in frames.",
        "Unfinished on DLCI 18: nothing is held without an end marker.",
    ];
    assert_eq!(lines, due);
    let off = format!("Bytes on DLCI 18: 37 taken in, 28 in frames, 9 {DROPPED}.");
    assert_eq!(told(&said("--tolerant"))[0], off);
    let dir = place.join("out");
    assert_eq!(status(&words(&[&"import", &trace, &"--out", &dir, &"--check-fcs"])), 0);
    assert!(list(&dir).contains("\n# bytes: 22 taken in, all in frames\n"), "{}", list(&dir));
    assert_eq!(status(&words(&[&"check", &dir, &trace])), 0);
    let first = out(&words(&[&"frames", &"--json", &"--check-fcs", &trace]));
    let bytes = r#""wrong_fcs":3,"bytes":{"taken_in":22,"in_spans":22,"dropped":0,"cleared":0,"left":0},"#;
    assert!(first.contains(bytes), "{first}");
}

#[test]
fn the_example() {
    let file = fs::read(example("late.btsnoop")).unwrap();
    let account = format!("105 taken in, 81 in frames, 18 {DROPPED}, 6 {LEFT}");
    says(&file, &account, Some("dropped: whose beginning"));
    for form in FORMS {
        says(&twin(&file, form), &account, Some("dropped: whose beginning"));
    }
    // A record that passes the end of the file is not taken in, nor is anything of its PDU.
    let place = Place::new();
    let cut = place.file("cut", &file[..file.len() - 1]);
    let text = out(&words(&[&"frames", &cut]));
    assert_eq!(told(&text)[0], format!("Bytes on DLCI 18: 99 taken in, 81 in frames, 18 {DROPPED}."));
}

/// A list without the account is taken as it is; what one says has to be so.
#[test]
fn lists_that_do_not_tell() {
    let place = Place::new();
    let (trace, dir) = (example("late.btsnoop"), place.join("out"));
    assert_eq!(status(&words(&[&"import", &trace, &"--out", &dir])), 0);
    let text = list(&dir);
    let fact = format!("# bytes: 105 taken in, 81 in frames, 18 {DROPPED}, 6 {LEFT}\n");
    assert!(text.contains(&fact), "{text}");
    relist(&place, &dir, &text.replace(&fact, ""));
    let before = list(&dir);
    for output in [words(&[&"check", &dir]), words(&[&"check", &dir, &trace])] {
        assert_eq!((status(&output), err(&output)), (0, String::new()));
        let line = ": late.btsnoop\nBytes on DLCI 18: the list does not tell.\n8 fixtures, all as ";
        assert!(out(&output).contains(line), "{}", out(&output));
    }
    let objects = out(&words(&[&"check", &"--json", &dir]));
    let none = r#"{"kind":"bytes","taken_in":null,"in_spans":null,"dropped":null,"cleared":null,"left":null}"#;
    assert_eq!(objects.lines().nth(2), Some(none));
    let again = words(&[&"import", &trace, &"--out", &dir]);
    assert!(out(&again).contains("\n0 fixtures written, 8 were there already with the same bytes: "));
    assert_eq!(list(&dir), before);
    // Other numbers, which add up: only the trace shows it.
    let other = format!("# bytes: 105 taken in, 82 in frames, 17 {DROPPED}, 6 {LEFT}\n");
    relist(&place, &dir, &text.replace(&fact, &other));
    assert_eq!(status(&words(&[&"check", &dir])), 0);
    let output = words(&[&"check", &dir, &trace]);
    assert_eq!(status(&output), 1);
    let lines = format!("trace: only the list has {}trace: only the trace has {}", &other[2..], &fact[2..]);
    assert!(out(&output).ends_with(&lines), "{}", out(&output));
    fails(&words(&[&"import", &trace, &"--out", &dir]), 1, &["whose list says something else"]);
    // Numbers that do not add up, and other words.
    for other in ["105 taken in, 81 in frames", "105 taken in, all in pieces", "lost"] {
        relist(&place, &dir, &text.replace(&fact, &format!("# bytes: {other}\n")));
        let output = words(&[&"check", &dir]);
        assert_eq!(status(&output), 1);
        let line = "\nlist: where its bytes went cannot be read, or does not add up\n";
        assert!(out(&output).ends_with(line), "{}", out(&output));
        assert!(err(&output).contains("the set is not as it was made, 1 fault in the list"), "{}", err(&output));
        let objects = out(&words(&[&"check", &"--json", &dir]));
        assert_eq!(objects.lines().nth(2), Some(none));
    }
}

/// Traces made at random: what is said is what the library answers, and it adds up to what the program's own reading takes in.
#[test]
fn as_the_library_answers() {
    let place = Place::new();
    let mut rng = made::Rng(9);
    let mut counts = [0; 4];
    for n in 0..200 {
        let file = made::trace(&mut rng);
        let file = if n % 3 == 0 { twin(&file, FORMS[n % 4]) } else { file };
        let (there, check_fcs) = (look::Trace::of(&file), n % 2 == 0);
        let options = there.options().with_tail(TailRule::Tolerant).with_check_fcs(check_fcs);
        let Ok(imported) = import_with(&file, &options) else { continue };
        let trace = place.file("trace", &file);
        let output = words(&[&"frames", &trace, &if check_fcs { "--check-fcs" } else { "--tolerant" }]);
        let lines = told(&out(&output));
        let parts = lines[0].split(": ").nth(1).unwrap().split(", ");
        let numbers: Vec<usize> = parts.filter_map(|part| part.split(' ').next()?.parse().ok()).collect();
        let bytes = imported.bytes;
        let parts = [bytes.in_spans, bytes.dropped, bytes.cleared, bytes.left];
        let parts: Vec<usize> = parts.into_iter().filter(|part| *part > 0).collect();
        let due = if parts.len() == 1 { vec![bytes.taken_in()] } else { [&[bytes.taken_in()], &parts[..]].concat() };
        assert_eq!(numbers, due, "{}", lines[0]);
        assert_eq!(lines.len(), 1 + usize::from(bytes.dropped + bytes.cleared > 0));
        let seen = look::look(there, check_fcs).unwrap();
        assert_eq!(seen.taken(None).unwrap().all.bytes, bytes);
        let facts = [parts.len() == 1, bytes.dropped > 0, bytes.left > 0, bytes.dropped > 0 && bytes.left > 0];
        counts.iter_mut().zip(facts).for_each(|(count, fact)| *count += usize::from(fact));
    }
    assert!(counts.iter().all(|count| *count >= 5), "{counts:?}");
}
