//! What is not in a trace: the signs that it shows of that, the hints that its frames give, and what a set's list keeps of them.

mod common;

use std::fs;
use std::path::Path;
use std::process::{Command, Stdio};
use std::time::{Duration, Instant};

use common::*;
use lumbryth::{pack, Fixture};

/// What the sentences about losses begin with.
const HEADS: [&str; 7] = [
    "Stored short: ",
    "Dropped by the recorder: ",
    "Skipped: ",
    "Zeros only: ",
    "Without a beginning: ",
    "Broken off: ",
    "Open at the end: ",
];

fn is_loss(line: &str) -> bool {
    HEADS.iter().any(|head| line.starts_with(head))
}

/// The lines of a text that tell of losses, and those that give hints.
fn told(text: &str) -> (Vec<&str>, Vec<&str>) {
    (
        text.lines().filter(|line| is_loss(line)).collect(),
        text.lines().filter(|line| line.starts_with("Hint: ")).collect(),
    )
}

/// What an import says of a file that it takes, and the names it would write.
#[track_caller]
fn said(place: &Place, file: &[u8]) -> (String, Vec<String>) {
    let output = words(&[&"import", &place.file("trace", file), &"--tolerant", &"--dry-run"]);
    assert_eq!(status(&output), 0, "{}", err(&output));
    let text = err(&output);
    assert!(
        !text.contains("nothing is missing") && !text.contains("is complete") && !text.contains("none seen"),
        "{text}"
    );
    (text, out(&output).lines().map(String::from).collect())
}

fn whole() -> Vec<u8> {
    fs::read(example("headset.btsnoop")).unwrap()
}

/// A file without one of its records.
fn without(file: &[u8], record: usize) -> Vec<u8> {
    let bounds = bounds(file);
    [&file[..bounds[record - 1]], &file[bounds[record]..]].concat()
}

/// A fixture without its counter, which changes with what comes before it.
fn content(fixture: &Fixture) -> (String, Vec<u8>) {
    let parts: Vec<&str> = fixture.name.split('-').collect();
    (format!("{} {}", parts[2], parts[4..].join("-")), fixture.wire.clone())
}

#[test]
fn the_whole_says_nothing() {
    let place = Place::new();
    for name in ["headset.btsnoop", "cut.btsnoop"] {
        let (text, _) = said(&place, &fs::read(example(name)).unwrap());
        assert_eq!(told(&text), (vec![], vec![]), "{name}");
        for command in ["frames", "records"] {
            let text = out(&words(&[&command, &example(name)]));
            assert_eq!(told(&text), (vec![], vec![]), "{name}");
        }
        let json = out(&words(&[&"frames", &"--json", &example(name)]));
        assert!(json.lines().next().unwrap().ends_with(r#","losses":{}}"#) && !json.contains(r#""kind":"hint""#));
    }
}

/// Whichever record is taken out, if a fixture is lost with it, something speaks; else nothing does.
#[test]
fn every_removed_record() {
    let place = Place::new();
    let file = whole();
    let all: Vec<_> = fixtures(&file).iter().map(content).collect();
    let (mut losing, mut by_loss, mut by_hint) = (0, 0, 0);
    for record in 1..=54 {
        let file = without(&file, record);
        let left: Vec<_> = fixtures(&file).iter().map(content).collect();
        assert!(left.iter().all(|fixture| all.contains(fixture)), "without record {record}");
        let (text, names) = said(&place, &file);
        assert_eq!(names.len(), left.len());
        let (losses, hints) = told(&text);
        assert!(text.contains("whether more was recorded cannot be seen"), "{text}");
        // All of the example's bytes are there but for the record: what was stored is whole, and none was dropped.
        assert!(losses.iter().all(|line| line.starts_with("Without") || line.starts_with("Broken")), "{text}");
        assert!(
            hints.iter().all(|line| line.contains(" may be missing: ") || line.starts_with("Hint: and ")),
            "{text}"
        );
        if left.len() < all.len() {
            losing += 1;
            by_loss += usize::from(!losses.is_empty());
            by_hint += usize::from(!hints.is_empty());
            assert!(!losses.is_empty() || !hints.is_empty(), "without record {record}: {text}");
        } else {
            assert_eq!((losses, hints), (vec![], vec![]), "without record {record}");
        }
    }
    assert_eq!((losing, by_loss, by_hint), (36, 4, 36));
}

/// What is said of a record taken out names what is missing.
#[test]
fn removed_records_in_words() {
    let place = Place::new();
    let file = whole();
    let says = |record: usize, lines: &[&str]| {
        let (text, _) = said(&place, &without(&file, record));
        let (losses, hints) = told(&text);
        assert_eq!([losses, hints].concat(), lines, "without record {record}");
        // Losses come before hints, and both after how the file ends.
        let from = text.find("The file ends").unwrap();
        assert!(lines.iter().all(|line| text.find(line).unwrap() > from));
    };
    says(19, &["Hint: a frame tx may be missing: ACK rx 1 fits none there."]);
    says(28, &["Hint: an ACK rx may be missing: none fits POWER_GET_STATUS tx 9."]);
    says(
        29,
        &[
            "Hint: a frame rx may be missing: ACK tx 11 fits none there.",
            "Hint: POWER_RET_STATUS rx may be missing: POWER_GET_STATUS tx 9 has no answer.",
        ],
    );
    says(37, &["Hint: bytes of rx 17 may be missing: it does not unpack, yet an ACK follows."]);
    let hints = [
        "Hint: a frame rx may be missing: ACK tx 21 fits none there.",
        "Hint: an ACK rx may be missing: none fits EQEBB_GET_PARAM tx 20.",
        "Hint: EQEBB_RET_PARAM rx may be missing: EQEBB_GET_PARAM tx 20 has no answer.",
    ];
    let stray = "Without a beginning: 3 packets, the first at byte 1750. What they continue is not in the file.";
    says(40, &[&[stray], &hints[..]].concat());
    let broken = "Broken off: 1 message, at byte 2090, where another begins. Its rest is not in the file.";
    says(41, &[&[broken], &hints[..]].concat());
    says(54, &["Hint: the end may be missing: no ACK follows AUDIO_RET_PARAM rx 30."]);
    // Without the request that opens the channel, nothing sent is found: the first few are told, and how many more.
    let (text, names) = said(&place, &without(&file, 3));
    assert!(names.iter().all(|name| name.contains("-rx.")));
    assert_eq!(told(&text).1.len(), 9, "{text}");
    assert_eq!(text.matches("Hint: and 4 more of this kind.\n").count(), 2, "{text}");
}

/// A cut at a record's end is not seen; what may be missing after it is a hint, and never is it said that nothing is.
#[test]
fn every_cut_at_a_records_end() {
    let place = Place::new();
    let file = whole();
    let bounds = bounds(&file);
    assert_eq!(bounds.len(), 55);
    for (n, &end) in bounds.iter().enumerate().skip(1) {
        if n < 19 {
            let output = words(&[&"import", &place.file("trace", &file[..end]), &"--dry-run"]);
            fails(&output, 1, &["refused (6): ", "whether more was recorded cannot be seen"]);
            continue;
        }
        let (text, names) = said(&place, &file[..end]);
        assert!(text.contains("The file ends at a record's end, so whether more was recorded cannot be seen.\n"));
        let (losses, hints) = told(&text);
        // Four fragments, and an event between them, make one message.
        let open = ["Open at the end: 1 message, begun at byte 1750. Its rest is not in the file."];
        assert_eq!(losses, if (40..44).contains(&n) { &open[..] } else { &[] }, "after record {n}");
        // A frame that waits for its ACK is the only one at the end that may.
        let last: Vec<&str> = names[names.len() - 1].split(&['-', '.'][..]).collect();
        let (counter, way, command) = (last[3].parse::<usize>().unwrap(), last[4], last[last.len() - 3]);
        let hint = format!("Hint: the end may be missing: no ACK follows {command} {way} {counter}.");
        let waits = last[6] != "ACK";
        assert_eq!(hints, if waits { vec![&*hint] } else { vec![] }, "after record {n}");
    }
    // Where the file ends inside a record it is told that more is missing, so that needs no hint.
    for (n, &end) in bounds.iter().enumerate().skip(19).take(35) {
        let (text, _) = said(&place, &file[..end + 9]);
        assert_eq!(told(&text).1, [""; 0], "after record {n}");
        assert!(text.contains("Missing: whatever was not complete before that, or came later.\n"));
    }
}

/// Any number of bytes of any packet left out, and said so by its record.
#[test]
fn snapped_packets() {
    let place = Place::new();
    let file = whole();
    let bounds = bounds(&file);
    let all: Vec<_> = fixtures(&file).iter().map(content).collect();
    for record in 1..=54 {
        let (at, end) = (bounds[record - 1], bounds[record]);
        let length = end - at - 24;
        for kept in [0, 1, 4, length / 2, length - 1].into_iter().filter(|kept| *kept < length) {
            let mut short = [&file[..at + 24 + kept], &file[end..]].concat();
            short[at + 4..at + 8].copy_from_slice(&(kept as u32).to_be_bytes());
            let (text, _) = said(&place, &short);
            let (losses, hints) = told(&text);
            let line = format!("Stored short: 1 record, at byte {at}. The recorder kept only a part of its packet.");
            assert_eq!(losses[0], line, "{text}");
            // Data packets of which a part is missing are skipped; without its first byte it is not known what a packet is.
            let skipped = format!("Skipped: 1 data packet, at byte {at}. A part of it is not in the file.");
            let is_data = file[at + 24] == 2 && kept > 0;
            assert_eq!(losses.contains(&&*skipped), is_data, "{kept} bytes of record {record}: {text}");
            let left: Vec<_> = fixtures(&short).iter().map(content).collect();
            assert!(left.iter().all(|fixture| all.contains(fixture)));
            assert_eq!(left.len() < all.len(), fixtures(&without(&file, record)).len() < all.len());
            assert!(left.len() == all.len() || !hints.is_empty(), "{text}");
        }
    }
    // Every packet snapped to so many bytes.
    for snap in [0, 8, 20, 21, 22, 40, 59] {
        let mut short = file[..16].to_vec();
        let (mut records, mut first) = (0, None);
        for pair in bounds.windows(2) {
            let (head, packet) = file[pair[0]..pair[1]].split_at(24);
            if packet.len() > snap {
                records += 1;
                first = first.or(Some(short.len()));
            }
            let kept = &packet[..packet.len().min(snap)];
            short.extend([&head[..4], &(kept.len() as u32).to_be_bytes(), &head[8..], kept].concat());
        }
        let output = words(&[&"import", &place.file("trace", &short), &"--dry-run"]);
        let text = err(&output);
        assert_eq!(text.contains("Stored short: "), records > 0, "{text}");
        if let Some(first) = first {
            let what = if records == 1 { "1 record, at".into() } else { format!("{records} records, the first at") };
            assert!(
                text.contains(&format!("Stored short: {what} byte {first}. The recorder kept only a part of ")),
                "{text}"
            );
        }
        // Where nothing is left to import the refusal tells it.
        if status(&output) != 0 {
            assert!(text.starts_with("lumbryth: refused (6): "), "{text}");
            assert!(text.lines().all(|line| line.starts_with("lumbryth: ")), "{text}");
        }
    }
}

/// A file whose records from one on say that so many packets were dropped, in all.
fn dropping(file: &mut [u8], from: usize, drops: u32) {
    let bounds = bounds(file);
    for &at in &bounds[from - 1..54] {
        file[at + 12..at + 16].copy_from_slice(&drops.to_be_bytes());
    }
}

#[test]
fn drops() {
    let place = Place::new();
    let bounds = bounds(&whole());
    for record in 1..=54 {
        let mut file = whole();
        dropping(&mut file, record, 1);
        let at = bounds[record - 1];
        let line =
            format!("Dropped by the recorder: 1 packet, told at byte {at}. By its own count it did not keep it.");
        assert_eq!(told(&said(&place, &file).0), (vec![&*line], vec![]));
    }
    // It drops more, begins to count anew, which is no loss, and drops again.
    let mut file = whole();
    for (record, drops) in [(10, 4), (20, 1), (30, 6)] {
        dropping(&mut file, record, drops);
    }
    let at = bounds[9];
    let line =
        format!("Dropped by the recorder: 9 packets, first told at byte {at}. By its own count it did not keep them.");
    assert_eq!(told(&said(&place, &file).0), (vec![&*line], vec![]));
    dropping(&mut file, 31, u32::MAX);
    assert!(said(&place, &file).0.contains(&format!("Dropped by the recorder: {} packets, ", u64::from(u32::MAX) + 3)));
}

#[test]
fn zero_fill() {
    let place = Place::new();
    let file = whole();
    for (n, &at) in bounds(&file).iter().enumerate() {
        for zeros in [1, 2, 20] {
            let filled = [&file[..at], &vec![0; 24 * zeros], &file[at..]].concat();
            let (text, names) = said(&place, &filled);
            let what = if zeros == 1 { "1 record, at".into() } else { format!("{zeros} records, the first at") };
            let line = format!("Zeros only: {what} byte {at}. Something else may have stood there.");
            assert_eq!(told(&text), (vec![&*line], vec![]));
            assert_eq!(names.len(), 30);
            assert_eq!(text.contains("The file is damaged: from byte "), n == 54);
        }
    }
    // In the place of a record that is lost.
    let bounds = bounds(&file);
    let (at, end) = (bounds[19], bounds[20]);
    let filled = [&file[..at], &vec![0; (end - at) / 24 * 24], &file[end..]].concat();
    let (text, _) = said(&place, &filled);
    let lines = [
        format!("Zeros only: 1 record, at byte {at}. Something else may have stood there."),
        "Hint: an ACK rx may be missing: none fits CONNECT_GET_PROTOCOL_INFO tx 1.".to_string(),
    ];
    let (losses, hints) = told(&text);
    assert_eq!([losses, hints].concat(), lines);
}

/// The frames of an exchange on a DLCI, one to a piece.
fn exchange(dlci: u8, seq: u8, command: u8) -> Vec<(bool, u8, Vec<u8>)> {
    let wire = |kind: u8, seq: u8, payload: &[u8]| pack(kind, seq, payload).unwrap();
    vec![
        (false, dlci, wire(0x0C, seq, &[command, 0])),
        (true, dlci, wire(0x01, 1 - seq, &[])),
        (true, dlci, wire(0x0C, seq, &[command + 1, 0, 7])),
        (false, dlci, wire(0x01, 1 - seq, &[])),
    ]
}

/// Hints are of the channel that is imported; signs of loss are of the file.
#[test]
fn a_second_channel() {
    let place = Place::new();
    let mut frames = Vec::new();
    for (seq, command) in [(0, 0x00), (1, 0x22), (0, 0x66)] {
        let (one, two) = (exchange(18, seq, command), exchange(20, seq, command));
        frames.extend(one.into_iter().zip(two).flat_map(|(one, two)| [one, two]));
    }
    let file = |frames: &[(bool, u8, Vec<u8>)]| {
        let pieces: Vec<_> = frames.iter().map(|(rx, dlci, wire)| (6, *rx, *dlci, &wire[..])).collect();
        trace_of_pieces(&pieces)
    };
    let hints = |frames: &[(bool, u8, Vec<u8>)], channel: &str| {
        let output = words(&[&"frames", &place.file("trace", &file(frames)), &"--channel", &channel]);
        assert_eq!(status(&output), 0, "{}", err(&output));
        let text = out(&output);
        assert_eq!(told(&text).0, [""; 0]);
        told(&text).1.into_iter().map(String::from).collect::<Vec<_>>()
    };
    assert_eq!((hints(&frames, "9"), hints(&frames, "10")), (vec![], vec![]));
    for n in 0..frames.len() {
        let mut left = frames.clone();
        let dlci = left.remove(n).1;
        let (here, there) = if dlci == 18 { ("9", "10") } else { ("10", "9") };
        assert_ne!(hints(&left, here), [""; 0], "without frame {n}");
        assert_eq!(hints(&left, there), [""; 0], "without frame {n}");
    }
}

/// What was left out by its name is not missing.
#[test]
fn what_is_excluded_gives_no_hint() {
    let place = Place::new();
    let file = whole();
    let names = said(&place, &file).1;
    for name in names.iter().map(|name| name.split(".cmd-").nth(1).unwrap().rsplit_once('-').unwrap().0) {
        let output = words(&[&"import", &example("headset.btsnoop"), &"--dry-run", &"--exclude", &name]);
        assert_eq!(told(&err(&output)), (vec![], vec![]), "{name}");
        assert!(err(&output).contains(" left out by --exclude.\n"));
    }
    // What is missing is told all the same.
    let trace = place.file("trace", &without(&file, 29));
    let output = words(&[&"import", &trace, &"--dry-run", &"--exclude=POWER_GET_STATUS"]);
    assert_eq!(told(&err(&output)).1.len(), 2);
}

#[test]
fn objects_tell_it_too() {
    let place = Place::new();
    let mut file = without(&whole(), 41);
    file[16 + 12..16 + 16].copy_from_slice(&[0, 0, 1, 0]);
    let trace = place.file("trace", &file);
    let losses = r#""losses":{"dropped":{"count":256,"first":16,"adapter":null},"given_up":{"count":1,"first":2090,"adapter":0}}}"#;
    let text = out(&words(&[&"frames", &"--json", &trace]));
    let lines: Vec<&str> = text.lines().collect();
    assert!(lines[0].starts_with(r#"{"kind":"import","#) && lines[0].ends_with(losses), "{}", lines[0]);
    let hint = |kind: &str, rest: &str| format!(r#"{{"kind":"hint","hint":"{kind}",{rest}}}"#);
    assert_eq!(
        lines[1..4],
        [
            hint("ack", r#""counter":21,"direction":"tx","command_name":"ACK""#),
            hint("unacknowledged", r#""counter":20,"direction":"tx","command_name":"EQEBB_GET_PARAM""#),
            hint("unanswered", r#""counter":20,"direction":"tx","command_name":"EQEBB_GET_PARAM""#),
        ]
    );
    assert!(lines[4].starts_with(r#"{"kind":"frame","counter":1,"#));
    let text = out(&words(&[&"records", &"--json", &trace]));
    assert!(text.lines().next().unwrap().ends_with(losses), "{text}");
    let text = out(&words(&[&"records", &trace]));
    let told = "Dropped by the recorder: 256 packets, first told at byte 16. By its own count it did not keep them.\n\
        Broken off: 1 message, at byte 2090, where another begins. Its rest is not in the file.\n";
    assert!(text.contains(told), "{text}");
}

/// The set of a trace, in a directory of this name.
#[track_caller]
fn made(place: &Place, name: &str, trace: &Path) -> std::path::PathBuf {
    let dir = place.join(name);
    assert_eq!(status(&words(&[&"import", &trace, &"--out", &dir])), 0);
    dir
}

#[test]
fn the_list_keeps_losses() {
    let place = Place::new();
    let mut file = without(&whole(), 40);
    let bounds = bounds(&file);
    file[bounds[52] + 15] = 9;
    let trace = place.file("trace", &file);
    let dir = made(&place, "out", &trace);
    let text = fs::read_to_string(dir.join(LIST)).unwrap();
    let dropped = format!("dropped by the recorder, 9 packets, first told at byte {}", bounds[52]);
    let stray = "without a beginning, 3 packets, the first at byte 1750";
    let facts = format!("\n# frames: 29\n# losses: {dropped}\n# losses: {stray}\n# not a fixture: ");
    assert!(text.contains(&facts), "{text}");
    // Checking tells what the list says, with and without the trace.
    let bytes = "Bytes on DLCI 18: 322 taken in, all in frames.\n";
    let lines = format!("\n{bytes}Losses: {dropped}.\nLosses: {stray}.\n28 fixtures, all as the list ");
    for output in [words(&[&"check", &dir]), words(&[&"check", &dir, &trace])] {
        assert_eq!((status(&output), err(&output)), (0, String::new()));
        assert!(out(&output).contains(&lines), "{}", out(&output));
    }
    let json = out(&words(&[&"check", &"--json", &dir]));
    let first = format!("{{\"kind\":\"losses\",\"told\":\"{dropped}\"}}\n{{\"kind\":\"losses\",\"told\":\"{stray}\"}}\n{{\"kind\":\"fcs\"");
    assert!(json.starts_with(&first), "{json}");
    // Also where something is wrong.
    fs::remove_file(dir.join(&listing(&dir)[3])).unwrap();
    let output = words(&[&"check", &dir]);
    assert_eq!(status(&output), 1);
    let lines = format!("{bytes}Losses: {dropped}.\nLosses: {stray}.\nmissing: ");
    assert!(out(&output).starts_with(&lines), "{}", out(&output));
}

/// A list that says nothing of losses is taken as it is; one that says something else than the trace is not.
#[test]
fn lists_that_do_not_tell() {
    let place = Place::new();
    let trace = place.file("trace", &without(&whole(), 41));
    let dir = made(&place, "out", &trace);
    let text = fs::read_to_string(dir.join(LIST)).unwrap();
    let told = "# losses: broken off, 1 message, at byte 2090, where another begins\n";
    assert!(text.contains(told), "{text}");
    relist(&place, &dir, &text.replace(told, ""));
    for output in [words(&[&"check", &dir]), words(&[&"check", &dir, &trace])] {
        assert_eq!((status(&output), err(&output)), (0, String::new()));
        assert!(out(&output).contains("\nLosses: the list does not tell.\n28 fixtures, all as "), "{}", out(&output));
    }
    let before = fs::read(dir.join(LIST)).unwrap();
    let again = words(&[&"import", &trace, &"--out", &dir]);
    assert_eq!(status(&again), 0);
    assert!(out(&again).contains("\n0 fixtures written, 28 were there already with the same bytes: "));
    assert_eq!(fs::read(dir.join(LIST)).unwrap(), before);
    // What is told has to be so.
    for other in ["# losses: none seen\n", "# losses: broken off, 1 message, at byte 2091, where another begins\n"] {
        relist(&place, &dir, &text.replace(told, other));
        assert_eq!(status(&words(&[&"check", &dir])), 0);
        let output = words(&[&"check", &dir, &trace]);
        assert_eq!(status(&output), 1);
        let lines = format!("trace: only the list has {}trace: only the trace has {}", &other[2..], &told[2..]);
        assert!(out(&output).ends_with(&lines), "{}", out(&output));
        fails(&words(&[&"import", &trace, &"--out", &dir]), 1, &["whose list says something else"]);
    }
}

/// Of many hints the first few are told, and all in objects, and that takes no long time.
#[test]
fn twenty_thousand() {
    let place = Place::new();
    let payloads: Vec<Vec<u8>> = (0..20_000).map(|i: u32| vec![0x22, i as u8, (i >> 8) as u8]).collect();
    let trace = place.file("trace", &trace_of(&payloads));
    let started = Instant::now();
    let output = words(&[&"import", &trace, &"--dry-run"]);
    let objects = out(&words(&[&"frames", &"--json", &trace]));
    assert!(started.elapsed() < Duration::from_secs(20), "{:?}", started.elapsed());
    assert_eq!((status(&output), out(&output).lines().count()), (0, 20_000));
    let lines = [
        "Hint: an ACK tx may be missing: none fits POWER_GET_STATUS rx 1.",
        "Hint: an ACK tx may be missing: none fits POWER_GET_STATUS rx 2.",
        "Hint: an ACK tx may be missing: none fits POWER_GET_STATUS rx 3.",
        "Hint: and 19996 more of this kind.",
        "Hint: the end may be missing: no ACK follows POWER_GET_STATUS rx 20000.",
    ];
    assert_eq!(told(&err(&output)), (vec![], lines.to_vec()));
    assert_eq!(objects.matches("{\"kind\":\"hint\",").count(), 20_000);
}

/// The list is the last that is written: if there is no room for it, nothing is left.
#[test]
fn no_room_for_the_list() {
    let place = Place::new();
    let (new, there) = (place.join("new/deep"), place.join("there"));
    fs::create_dir(&there).unwrap();
    fs::write(there.join("note"), b"mine").unwrap();
    for dir in [&new, &there] {
        // No file may grow past 4 blocks: the fixtures do not, the list does.
        let mut command = Command::new("sh");
        command.args(["-c", "ulimit -f 4; exec \"$0\" \"$@\"", PROGRAM, "import"]).arg(example("headset.btsnoop"));
        let output = command.arg("--out").arg(dir).stdin(Stdio::null()).output().unwrap();
        fails(&output, 1, &["cannot be written: File too large", LIST]);
    }
    assert_eq!((listing(&place.0), listing(&there)), (vec!["there".to_string()], vec!["note".to_string()]));
}

/// What is said does not depend on what is asked for.
#[test]
fn the_same_is_said_with_any_options() {
    let place = Place::new();
    let file = without(&whole(), 43);
    let trace = place.file("trace", &file);
    let said = |args: &[&str]| {
        let mut words: Vec<&std::ffi::OsStr> = vec!["import".as_ref(), trace.as_ref(), "--dry-run".as_ref()];
        words.extend(args.iter().map(|arg| -> &std::ffi::OsStr { arg.as_ref() }));
        let text = err(&run(&words));
        let (losses, hints) = told(&text);
        [losses, hints].concat().into_iter().map(String::from).collect::<Vec<_>>()
    };
    let plain = said(&[]);
    assert_eq!(plain.len(), 4);
    for args in [&["--tolerant"][..], &["--channel=9"], &["--exclude=NO_COMMAND"], &["--channel=9", "--tolerant"]] {
        assert_eq!(said(args), plain, "{args:?}");
    }
    let frames = out(&words(&[&"frames", &trace]));
    let (losses, hints) = told(&frames);
    assert_eq!([losses, hints].concat(), plain);
}
