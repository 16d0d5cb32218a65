//! The program as people call it: what it prints, its exit status, and what it leaves in a directory.

mod common;

use std::ffi::OsStr;
use std::fs;
use std::io::pipe;
use std::os::unix::ffi::OsStrExt;
use std::os::unix::fs::PermissionsExt;
use std::path::Path;
use std::process::{Command, Output, Stdio};

use common::*;
use lumbryth::pack;

#[test]
fn help_and_version() {
    for args in [
        &["--help"][..],
        &["-h"],
        &["import", "--help"],
        &["frames", "--help"],
        &["records", "--help"],
        &["channels", "--help"],
        &["sizes", "--help"],
        &["check", "--help"],
        &["import", "x", "-h"],
    ] {
        let output = run(args);
        assert_eq!(status(&output), 0);
        assert!(out(&output).contains("usage: lumbryth "), "{args:?}");
        assert_eq!(err(&output), "");
    }
    assert_eq!(out(&run(&["--version"])), "lumbryth 1.0.0\n");
}

#[test]
fn usage() {
    fails(&run::<&str>(&[]), 2, &["no command is given", "usage: lumbryth import"]);
    fails(&run(&["export"]), 2, &["there is no command 'export'; see lumbryth --help"]);
    fails(&run(&["--out"]), 2, &["there is no option '--out'"]);
    fails(&run(&["import"]), 2, &["no trace is named; see lumbryth import --help"]);
    fails(&run(&["import", ""]), 2, &["the trace's name is empty"]);
    fails(&run(&["import", "a"]), 2, &["--out says where the fixtures go, and is not given"]);
    fails(&run(&["import", "a", "--out"]), 2, &["--out needs a value"]);
    fails(&run(&["import", "a", "--out="]), 2, &["the name of the directory is empty"]);
    fails(&run(&["import", "a", "--out", "b", "--out", "c"]), 2, &["--out is given more than once"]);
    fails(&run(&["import", "a", "b", "--out", "c"]), 2, &["one trace at a time: 'b' is one too many"]);
    fails(&run(&["import", "a", "--out", "b", "--force"]), 2, &["import has no option '--force'"]);
    fails(&run(&["import", "a", "--tolerant=1"]), 2, &["--tolerant takes no value"]);
    fails(&run(&["frames", "a", "--out", "b"]), 2, &["frames has no option '--out'; see lumbryth frames --help"]);
    fails(&run(&["records"]), 2, &["no trace is named; see lumbryth records --help"]);
    fails(
        &run(&["records", "a", "--tolerant"]),
        2,
        &["records has no option '--tolerant'; see lumbryth records --help"],
    );
    fails(&run(&["sizes", "--json"]), 2, &["no trace is named; see lumbryth sizes --help"]);
    fails(&run(&["sizes", "a", "b"]), 2, &["one trace at a time: 'b' is one too many; see lumbryth sizes --help"]);
    fails(&run(&["sizes", "a", "--out", "b"]), 2, &["sizes has no option '--out'; see lumbryth sizes --help"]);
    for channel in ["32", "256", "-1", "+5", "", "x", "0x9", "99999999999999999999"] {
        let told = format!("--channel takes a number from 0 to 31, not '{channel}'");
        fails(&run(&["frames", "a", "--channel", channel]), 2, &[&told]);
        fails(&run(&["sizes", "a", "--channel", channel]), 2, &[&told]);
    }
    fails(&run(&["check"]), 2, &["no directory is named; see lumbryth check --help"]);
    fails(&run(&["check", ""]), 2, &["the name of the directory is empty"]);
    fails(&run(&["check", "a", ""]), 2, &["the trace's name is empty"]);
    fails(&run(&["check", "a", "b", "c\n"]), 2, &["a directory and a trace: 'c\\n' is one too many"]);
    fails(&run(&["check", "a", "--tolerant"]), 2, &["check has no option '--tolerant'"]);
    for name in
        ["power_get_status", "", "POWER_GET_STATUS ", "POWER", "cmd-POWER-22", "cmd-POWER_GET_STATUS-222", "ACK"]
    {
        let told = format!("--exclude takes the name of a command, as lumbryth frames shows it, and '{name}' is none");
        fails(&run(&["import", "a", "--dry-run", "--exclude", name]), 2, &[&told]);
    }
}

#[test]
fn import_writes_the_fixtures() {
    let place = Place::new();
    let (trace, dir) = (example("headset.btsnoop"), place.join("made/on the way"));
    let output = words(&[&"import", &trace, &"--out", &dir]);
    assert_eq!((status(&output), err(&output)), (0, String::new()));
    let found = "31 frames, 1 of which does not unpack: DLCI 18, channel 9.\n\
        Bytes on DLCI 18: 493 taken in, all in frames.\n\
        Unfinished on DLCI 18: nothing is held without an end marker.\n\
        The file ends at a record's end, so whether more was recorded cannot be seen.\n\
        What is proved of a cut is for a channel that is asked for, here --channel 9.\n";
    assert_eq!(out(&output), format!("{found}30 fixtures written: {}\n", dir.display()));
    let whole = fixtures(&fs::read(&trace).unwrap());
    assert_eq!(whole.len(), 30);
    holds(&dir, &whole);

    // Once more: nothing to do. With one missing, that one is made.
    let again = out(&words(&[&"import", &trace, &"--out", &dir]));
    let line = format!("0 fixtures written, 30 were there already with the same bytes: {}\n", dir.display());
    assert_eq!(again, format!("{found}{line}"));
    fs::remove_file(dir.join(&whole[7].name)).unwrap();
    let again = out(&words(&[&"import", &trace, &"--out", &dir]));
    assert!(
        again.ends_with(&format!("1 fixture written, 29 were there already with the same bytes: {}\n", dir.display()))
    );
    holds(&dir, &whole);
}

#[test]
fn a_dry_run_prints_names() {
    let place = Place::new();
    let (trace, dir) = (example("headset.btsnoop"), place.join("not made"));
    let names: String = fixtures(&fs::read(&trace).unwrap()).iter().map(|f| format!("{}\n", f.name)).collect();
    for output in [words(&[&"import", &trace, &"--dry-run"]), words(&[&"import", &"--dry-run", &trace, &"--out", &dir])]
    {
        assert_eq!((status(&output), out(&output)), (0, names.clone()));
        assert!(err(&output).starts_with("31 frames, 1 of which does not unpack: DLCI 18, channel 9.\n"));
    }
    assert!(!dir.exists());
}

#[test]
fn excluded_commands_are_left_out() {
    let trace = example("headset.btsnoop");
    let output =
        words(&[&"import", &trace, &"--dry-run", &"--exclude", &"POWER_GET_STATUS", &"--exclude=NCASM_RET_PARAM"]);
    assert_eq!(status(&output), 0);
    assert_eq!(out(&output).lines().count(), 28);
    assert!(!out(&output).contains("POWER_GET_STATUS") && !out(&output).contains("NCASM_RET_PARAM"));
    assert!(out(&output).contains("-000016-"), "counters are spent");
    assert!(err(&output).ends_with("2 frames left out by --exclude.\n"));
    // As a part of a file name, which is how other programs show it; and frames that have no command.
    let again = words(&[
        &"import",
        &trace,
        &"--dry-run",
        &"--exclude",
        &"cmd-NCASM_RET_PARAM-67",
        &"--exclude=POWER_GET_STATUS",
    ]);
    assert_eq!(out(&again), out(&output));
    let output = words(&[&"import", &trace, &"--dry-run", &"--exclude", &"NO_COMMAND"]);
    assert_eq!((status(&output), out(&output).lines().count()), (0, 15));
    assert!(!out(&output).contains("NO_COMMAND"));
}

#[test]
fn the_channel_is_asked_for() {
    let trace = example("headset.btsnoop");
    let output = words(&[&"frames", &trace, &"--channel", &"9"]);
    assert_eq!(status(&output), 0);
    assert_eq!(out(&output).lines().count(), 35);
    let output = words(&[&"frames", &trace, &"--channel=8"]);
    let told = "refused (6): nothing on channel 8 unpacks as a frame; the file ends at a record's end, \
        so whether more was recorded cannot be seen: ";
    fails(&output, 1, &[told, "headset.btsnoop\n"]);
}

#[test]
fn frames_are_listed() {
    let output = words(&[&"frames", &example("headset.btsnoop")]);
    let text = out(&output);
    let lines: Vec<&str> = text.lines().collect();
    assert_eq!(
        lines[5],
        "CONNECT_GET_PROTOCOL_INFO tx 1, DATA_MDR, seq 00, 11 bytes, command 00, type 0c, 2024-05-14 09:30:00.133"
    );
    assert_eq!(
        lines[21],
        "does not unpack rx 17, refusal 17, the frame's checksum is 70 where its bytes give B0, 13 bytes, 2024-05-14 09:30:00.261"
    );
}

#[test]
fn records_are_listed() {
    let output = words(&[&"records", &example("headset.btsnoop")]);
    assert_eq!((status(&output), err(&output)), (0, String::new()));
    let text = out(&output);
    let lines: Vec<&str> = text.lines().collect();
    assert_eq!(lines.len(), 56);
    assert_eq!(lines[0], "54 records: datalink 1002.");
    assert_eq!(lines[1], "The file ends at a record's end, so whether more was recorded cannot be seen.");
    assert_eq!(lines[2], "command, tx 1, 4 bytes at 16, 2024-05-14 09:30:00.003");
    assert_eq!(lines[3], "event, rx 2, 7 bytes at 44, 2024-05-14 09:30:00.007");
    assert_eq!(lines[4], "ACL data, handle 6, begins a PDU, tx 3, 17 bytes at 75, 2024-05-14 09:30:00.013");
    assert_eq!(lines[42], "ACL data, handle 6, continues a PDU, rx 41, 59 bytes at 1833, 2024-05-14 09:30:00.298");
    let output = words(&[&"records", &example("cut.btsnoop")]);
    assert_eq!(status(&output), 0);
    let text = out(&output);
    let lines: Vec<&str> = text.lines().collect();
    assert_eq!(lines[0], "52 records: datalink 1002.");
    let end = "The file ends inside the record that starts at byte 2453: 30 bytes of it are there and 13 are missing.";
    assert_eq!(lines[1], end);
    assert_eq!(lines[2], "Whatever came later is missing.");
    assert_eq!(lines.len(), 55);
}

#[test]
fn records_of_each_datalink() {
    let place = Place::new();
    let record = |flags: u32, packet: &[u8]| {
        let length = (packet.len() as u32).to_be_bytes();
        [&length, &length, &flags.to_be_bytes(), &[0; 4][..], &[0x00, 0xDC, 0xDD, 0xB3, 0x0F, 0x2F, 0x80, 0x00], packet]
            .concat()
    };
    let listed = |datalink: u32, records: &[Vec<u8>]| {
        let file = [b"btsnoop\0\0\0\0\x01", &datalink.to_be_bytes()[..], &records.concat()].concat();
        let output = words(&[&"records", &place.file("trace", &file)]);
        assert_eq!(status(&output), 0);
        let text = out(&output);
        // Sentences come first.
        let listed = text.lines().skip_while(|line| line.ends_with('.'));
        listed.map(|line| line.split(" at ").next().unwrap().to_string()).collect::<Vec<_>>()
    };
    assert_eq!(listed(1001, &[]), [""; 0]);
    let acl = [0x40, 0x10, 0, 0];
    let found = listed(1001, &[record(0, &acl), record(1, &[0x40]), record(2, &acl), record(3, &[])]);
    assert_eq!(
        found,
        [
            "ACL data, handle 64, continues a PDU, tx 1, 4 bytes",
            "ACL data, rx 2, 1 byte",
            "command, tx 3, 4 bytes",
            "event, rx 4, 0 bytes"
        ]
    );
    let found = listed(1002, &[record(0, &[2, 0x40, 0x2F]), record(1, &[3, 0, 0]), record(0, &[]), record(3, &[4, 0])]);
    assert_eq!(
        found,
        [
            "ACL data, handle 3904, begins a PDU, tx 1, 3 bytes",
            "other, rx 2, 3 bytes",
            "other, tx 3, 0 bytes",
            "event, rx 4, 2 bytes"
        ]
    );
    let found =
        listed(2001, &[record(4, &acl), record(0x1_0005, &[]), record(2, &acl), record(3, &[]), record(0, &acl)]);
    let acl = "ACL data, handle 64, continues a PDU, tx 1, 4 bytes";
    let rest =
        ["ACL data, rx 2, 0 bytes", "command, tx 3, 4 bytes", "event, rx 4, 0 bytes", "other, no direction 5, 4 bytes"];
    assert_eq!((&*found[0], &found[1..]), (acl, &rest.map(String::from)[..]));
}

#[test]
fn a_cut_file() {
    let place = Place::new();
    let (trace, dir) = (example("cut.btsnoop"), place.join("out"));
    let strict = words(&[&"import", &trace, &"--out", &dir]);
    let told = "refused (5): the file ends inside the record that starts at byte 2453: 30 bytes of it are there and 13 are missing: ";
    fails(&strict, 1, &[told, "cut.btsnoop\nlumbryth: --tolerant keeps what was complete before that\n"]);
    assert!(!dir.exists());
    let output = words(&[&"import", &trace, &"--out", &dir, &"--tolerant"]);
    assert_eq!(status(&output), 0);
    let lines = [
        "29 frames, 1 of which does not unpack: DLCI 18, channel 9.",
        "Bytes on DLCI 18: 478 taken in, 470 in frames, 8 left without an end marker.",
        "Unfinished on handle 6, received, DLCI 18: 8 bytes are held without an end marker.",
        "The file ends inside the record that starts at byte 2453: 30 bytes of it are there and 13 are missing.",
        "Kept: 29 frames, complete before that.",
        "Missing: whatever was not complete before that, or came later.",
        "A reply that is not among the fixtures may have been sent all the same.",
        "What is proved of a cut is for a channel that is asked for, here --channel 9.",
        &format!("28 fixtures written: {}", dir.display()),
    ];
    assert_eq!(out(&output).lines().collect::<Vec<_>>(), lines);
    holds(&dir, &fixtures(&fs::read(&trace).unwrap()));
    let output = words(&[&"import", &trace, &"--dry-run", &"--tolerant", &"--channel=9"]);
    assert!(err(&output).ends_with("may have been sent all the same.\n"), "{}", err(&output));
}

#[test]
fn every_cut() {
    let place = Place::new();
    let whole = fs::read(example("headset.btsnoop")).unwrap();
    let all: Vec<String> = fixtures(&whole).into_iter().map(|f| f.name).collect();
    let bounds = bounds(&whole);
    let mut most = 0;
    for n in 16..=whole.len() {
        let trace = place.file("trace", &whole[..n]);
        let record = bounds.iter().rposition(|&start| start <= n).unwrap();
        let (start, inside) = (bounds[record], bounds[record] < n);
        let output = words(&[&"import", &trace, &"--tolerant", &"--dry-run"]);
        let told = err(&output);
        // Frames of the whole, from its first on, and never fewer than of a shorter cut.
        let names: Vec<String> = out(&output).lines().map(String::from).collect();
        assert_eq!(names, all[..names.len()], "cut at {n}");
        assert!(names.len() >= most, "cut at {n}");
        most = names.len();
        assert_eq!(status(&output), i32::from(names.is_empty()), "cut at {n}: {told}");
        assert_eq!(told.contains("refused (6)"), names.is_empty());
        // It says where the file ends, and if that is at a record's end, that more cannot be seen.
        let (there, gone) = (n - start, if inside { bounds[record + 1] - n } else { 0 });
        let gone = match gone {
            _ if there < 8 => ", too few to say how many are missing".into(),
            1 => " and 1 is missing".into(),
            gone => format!(" and {gone} are missing"),
        };
        let there = if there == 1 { "1 byte of it is".into() } else { format!("{there} bytes of it are") };
        let end = if inside {
            format!("he file ends inside the record that starts at byte {start}: {there} there{gone}")
        } else {
            let place = if n == 16 { "after its header" } else { "at a record's end" };
            format!("he file ends {place}, so whether more was recorded cannot be seen")
        };
        assert!(told.contains(&end), "cut at {n}: {told}");
        assert_eq!(told.matches("he file ").count(), 1, "cut at {n}: {told}");
        let strict = words(&[&"import", &trace, &"--dry-run"]);
        if inside {
            fails(&strict, 1, &[&format!("refused (5): t{end}: ")]);
        } else {
            assert_eq!((out(&strict), err(&strict)), (out(&output), told.clone()), "cut at {n}");
        }
        if n % 5 == 0 {
            let listed = out(&words(&[&"records", &trace]));
            assert!(listed.starts_with(&format!("{record} record")), "cut at {n}: {listed}");
            assert!(listed.contains(&end), "cut at {n}: {listed}");
            // Frames are listed of a cut file too.
            let listed = words(&[&"frames", &trace]);
            let found = if status(&listed) == 0 { out(&listed) } else { err(&listed) };
            assert_eq!(status(&listed), status(&output), "cut at {n}: {found}");
            assert!(found.contains(&end), "cut at {n}: {found}");
        }
        // Between the two pieces of a reply its first eight bytes are held, wherever the cut is.
        let held = "Unfinished on handle 6, received, DLCI 18: 8 bytes are held without an end marker.\n";
        let between = record == bounds.len() - 3 && n >= start;
        assert_eq!(told.contains(held), between, "cut at {n}: {told}");
    }
    assert_eq!(most, all.len());
}

/// What is no cut is not called one: lengths that no packet has, and zeros where a record would be.
#[test]
fn damage_is_told() {
    let place = Place::new();
    let whole = fs::read(example("headset.btsnoop")).unwrap();
    let bounds = bounds(&whole);
    let look = |file: &[u8], damage: &str, strict: bool| {
        let trace = place.file("trace", file);
        for command in ["frames", "records"] {
            let output = words(&[&command, &trace]);
            let text = if status(&output) == 0 { out(&output) } else { err(&output) };
            assert!(text.contains(&format!("he file is damaged: {damage}")), "{text}");
            assert!(!text.contains("ends inside") && !text.contains("more was recorded"), "{text}");
        }
        let output = words(&[&"import", &trace, &"--dry-run"]);
        assert_eq!(
            err(&output).contains(&format!("refused (5): the file is damaged: {damage}")),
            strict,
            "{}",
            err(&output)
        );
        let output = words(&[&"import", &trace, &"--dry-run", &"--tolerant"]);
        assert!(err(&output).contains(damage), "{}", err(&output));
        assert_eq!(err(&output).contains("Missing: whatever was not complete"), status(&output) == 0);
    };
    for (n, &start) in bounds.iter().enumerate().take(54) {
        // The included length, too long for any packet.
        let mut file = whole.clone();
        for length in [u32::MAX, 65_541] {
            file[start + 4..start + 8].copy_from_slice(&length.to_be_bytes());
            let words = format!(
                "the record that starts at byte {start} gives its packet {length} bytes, and no packet has over 65540"
            );
            if start + 24 + length as usize > file.len() {
                look(&file, &words, true);
            }
        }
        // Zeros from here on, to any length.
        for zeros in [8, 23, 24, 25, 48, 500 + n] {
            let file = [&whole[..start], &vec![0; zeros]].concat();
            let words = format!("from byte {start} to its end there are zeros only, {zeros} of them");
            look(&file, &words, zeros % 24 != 0);
        }
    }
    // Fewer zeros may be the beginning of a record.
    let trace = place.file("trace", &[&whole[..], &[0; 7]].concat());
    let told = "The file ends inside the record that starts at byte 2542: 7 bytes of it are there, too few to say how many are missing.";
    assert!(out(&words(&[&"frames", &trace])).contains(told));
    // Zeros in the packet of a record are its own.
    let mut file = whole.clone();
    file[bounds[53] + 24..].fill(0);
    let output = words(&[&"records", &place.file("trace", &file)]);
    assert!(out(&output).contains("The file ends at a record's end, "), "{}", out(&output));
}

#[test]
fn objects_a_line() {
    let output = words(&[&"frames", &"--json", &example("cut.btsnoop")]);
    assert_eq!((status(&output), err(&output)), (0, String::new()));
    let text = out(&output);
    let lines: Vec<&str> = text.lines().collect();
    assert_eq!(lines.len(), 31);
    let first = r#"{"kind":"import","dlci":18,"channel":9,"frames":29,"unfinished":1,"check_fcs":false,"wrong_fcs":null,"bytes":{"taken_in":478,"in_spans":470,"dropped":0,"cleared":0,"left":8},"links":["0:6"],"adapters":1,"end":"cut","offset":2453,"present":30,"missing":13,"losses":{}}"#;
    assert_eq!(lines[0], first);
    assert_eq!(lines[1], r#"{"kind":"unfinished","adapter":0,"handle":6,"direction":"rx","dlci":18,"held":8}"#);
    let frame = r#"{"kind":"frame","counter":9,"direction":"tx","ms":1715679000195,"wire":"3e0c000000000222003"#;
    assert!(lines[10].starts_with(frame), "{}", lines[10]);
    let rest =
        r#","type":12,"type_name":"DATA_MDR","seq":0,"command":34,"command_name":"POWER_GET_STATUS","payload":"2200"}"#;
    assert!(lines[10].ends_with(rest), "{}", lines[10]);
    assert!(lines[18].ends_with(r#""refusal":17,"reason":"the frame's checksum is 70 where its bytes give B0"}"#));
    let output = words(&[&"records", &"--json", &example("headset.btsnoop")]);
    let text = out(&output);
    let lines: Vec<&str> = text.lines().collect();
    assert_eq!(lines.len(), 55);
    assert_eq!(lines[0], r#"{"kind":"file","datalink":1002,"records":54,"adapters":1,"end":"record","losses":{}}"#);
    let third = r#"{"kind":"record","number":3,"offset":75,"adapter":0,"direction":"tx","ms":1715679000013,"length":17,"what":"ACL data, handle 6, begins a PDU"}"#;
    assert_eq!(lines[3], third);
}

#[test]
fn files_that_cannot_be_read() {
    let place = Place::new();
    let look = |path: &Path| words(&[&"frames", &path]);
    fails(&look(&place.join("none")), 1, &["lumbryth: there is no such file: ", "none\n"]);
    for path in [place.join("none"), place.0.clone()] {
        assert_eq!(err(&look(&path)), err(&words(&[&"records", &path])));
    }
    fails(&look(&place.0), 1, &["lumbryth: this is a directory, not a file: "]);
    fails(
        &look(Path::new("/dev/zero")),
        1,
        &["this is a device, not a file; save the trace to a file first: /dev/zero\n"],
    );
    let fifo = place.join("fifo");
    assert!(Command::new("mkfifo").arg(&fifo).status().unwrap().success());
    fails(&look(&fifo), 1, &["this is a pipe, not a file; save the trace to a file first: ", "fifo\n"]);
    fails(&look(&place.file("empty", b"")), 1, &["lumbryth: refused (3): the file is empty: ", "empty\n"]);
    let short = place.file("short", b"btsnoop\0");
    fails(
        &look(&short),
        1,
        &["refused (3): the file has only 8 bytes, and a btsnoop header has 16, a pcap header 24: "],
    );
    let text = place.file("text", b"This is a letter and not a trace.");
    let told =
        "refused (3): this is neither a btsnoop file nor a pcap file: its first 16 bytes are not a btsnoop header \
        of version 1, and its first 4 are not those of pcap: ";
    fails(&look(&text), 1, &[told]);
    let other = place.file("other", b"btsnoop\0\0\0\0\x01\0\0\x03\xEB");
    fails(&words(&[&"records", &other]), 1, &["refused (4): the trace has datalink 1003"]);
    fails(&look(&other), 1, &["refused (4): the trace has datalink 1003, and only 1001, 1002 and 2001 can be read: "]);
    let bare = place.file("bare", b"btsnoop\0\0\0\0\x01\0\0\x03\xEA");
    assert_eq!(
        out(&words(&[&"records", &bare])),
        "0 records: datalink 1002.\nThe file ends after its header, so whether more was recorded cannot be seen.\n"
    );
    fails(&look(&bare), 1, &["refused (6): nothing in the trace unpacks as a frame; the file ends after its header"]);
    let long = place.join("long");
    fs::File::create(&long).unwrap().set_len(1_048_577).unwrap();
    let told = ["refused (1): the file is longer than 1048576 bytes: ", "long\nlumbryth: record a shorter log; "];
    fails(&look(&long), 1, &told);
    fs::File::create(&long).unwrap().set_len(1 << 40).unwrap();
    fails(&look(&long), 1, &["lumbryth: refused (1)"]);
    fails(&words(&[&"records", &long]), 1, &told);
    fs::File::create(&long).unwrap().set_len(1_048_576).unwrap();
    fails(&look(&long), 1, &["lumbryth: refused (3)"]);
}

/// The program as a user without rights, where that can be had.
fn as_nobody(args: &[&dyn AsRef<OsStr>]) -> Option<Output> {
    let nobody = |args: &[&OsStr]| {
        let mut command = Command::new("setpriv");
        command.args(["--reuid", "65534", "--regid", "65534", "--clear-groups"]).arg(PROGRAM).args(args);
        command.stdin(Stdio::null()).output()
    };
    let works = nobody(&["--version".as_ref()]).is_ok_and(|output| output.status.success());
    works.then(|| nobody(&args.iter().map(|arg| arg.as_ref()).collect::<Vec<_>>()).unwrap())
}

#[test]
fn without_the_right_to() {
    let place = Place::new();
    let trace = place.file("trace", &fs::read(example("headset.btsnoop")).unwrap());
    let dir = place.join("read-only");
    fs::create_dir(&dir).unwrap();
    fs::set_permissions(&dir, fs::Permissions::from_mode(0o555)).unwrap();
    let Some(output) = as_nobody(&[&"import", &trace, &"--out", &dir]) else {
        println!("skipped: no other user can be had");
        return;
    };
    fails(&output, 1, &["cannot be written: Permission denied", "/read-only"]);
    assert!(listing(&dir).is_empty());
    let output = as_nobody(&[&"import", &trace, &"--out", &dir.join("inside/it")]).unwrap();
    fails(&output, 1, &["cannot be written: Permission denied", "/read-only/inside/it\n"]);
    assert!(listing(&dir).is_empty());
    fs::set_permissions(&trace, fs::Permissions::from_mode(0o000)).unwrap();
    fails(&as_nobody(&[&"frames", &trace]).unwrap(), 1, &["lumbryth: the file may not be read: "]);
}

#[test]
fn what_is_there_stays() {
    let place = Place::new();
    let (trace, dir) = (example("headset.btsnoop"), place.join("out"));
    let whole = fixtures(&fs::read(&trace).unwrap());
    let taken = dir.join(&whole[20].name);
    fs::create_dir(&dir).unwrap();
    fs::write(&taken, b"mine").unwrap();
    let told = ["lumbryth: nothing was written: this exists and holds something else: "];
    fails(&words(&[&"import", &trace, &"--out", &dir]), 1, &told);
    assert_eq!((listing(&dir).len(), fs::read(&taken).unwrap()), (1, b"mine".to_vec()));
    // Nor a directory, a link that leads nowhere, or a pipe.
    fs::remove_file(&taken).unwrap();
    fs::create_dir(&taken).unwrap();
    fails(&words(&[&"import", &trace, &"--out", &dir]), 1, &told);
    fs::remove_dir(&taken).unwrap();
    std::os::unix::fs::symlink("nowhere", &taken).unwrap();
    fails(&words(&[&"import", &trace, &"--out", &dir]), 1, &told);
    fs::remove_file(&taken).unwrap();
    assert!(Command::new("mkfifo").arg(&taken).status().unwrap().success());
    fails(&words(&[&"import", &trace, &"--out", &dir]), 1, &told);
    assert_eq!(listing(&dir).len(), 1);

    let file = place.file("file", b"mine");
    let told = ["lumbryth: nothing was written: this is not a directory: ", "file\n"];
    fails(&words(&[&"import", &trace, &"--out", &file]), 1, &told);
    fails(&words(&[&"import", &trace, &"--out", &file.join("below/it")]), 1, &told);
    assert_eq!(fs::read(&file).unwrap(), b"mine");
}

/// The lines of a text that tell what is unfinished.
fn unfinished(text: &str) -> Vec<&str> {
    text.lines().filter(|line| line.contains("Unfinished")).collect()
}

#[test]
fn unfinished_bytes_are_told_by_handle_and_direction() {
    let place = Place::new();
    let wire = pack(0x0C, 0, &[0x22, 0x00]).unwrap();
    let begun = wire.len() - 1;
    let pieces: [(u16, bool, u8, &[u8]); 9] = [
        (0x0FFF, true, 18, &wire),
        (0x0FFF, false, 18, &wire[..begun]),
        (6, true, 18, &wire[..4]),
        (6, false, 18, &wire[..1]),
        (7, true, 18, &wire[..5]),
        (6, true, 40, &wire[..3]),
        (6, false, 41, &wire),
        (7, true, 18, &wire[5..]),
        (6, true, 18, &[]),
    ];
    let file = trace_of_pieces(&pieces);
    let told = [
        "Unfinished on handle 6, sent, DLCI 18: 1 byte is held without an end marker.",
        "Unfinished on handle 6, received, DLCI 18: 4 bytes are held without an end marker.",
        &format!("Unfinished on handle 4095, sent, DLCI 18: {begun} bytes are held without an end marker."),
    ];
    let trace = place.file("trace", &file);
    let listed = words(&[&"frames", &trace]);
    assert_eq!((status(&listed), err(&listed)), (0, String::new()));
    assert_eq!(unfinished(&out(&listed)), told);
    let dry = words(&[&"import", &trace, &"--dry-run"]);
    assert_eq!((status(&dry), out(&dry).lines().count()), (0, 2));
    assert_eq!(unfinished(&err(&dry)), told);
    let written = words(&[&"import", &trace, &"--out", &place.join("out")]);
    assert_eq!((status(&written), err(&written)), (0, String::new()));
    assert_eq!(unfinished(&out(&written)), told);
    assert_eq!(listing(&place.join("out")).len(), 3);

    // Only the DLCI that is chosen is told of: of channel 20 that is 41, which holds nothing.
    let other = out(&words(&[&"frames", &trace, &"--channel", &"20"]));
    assert_eq!(unfinished(&other), ["Unfinished on DLCI 41: nothing is held without an end marker."]);

    // Cut inside its last record, the file tells the same; inside the one before, more is held.
    let cut = place.file("cut", &file[..file.len() - 1]);
    assert_eq!(unfinished(&out(&words(&[&"frames", &cut, &"--tolerant"]))), told);
    let starts = bounds(&file);
    let cut = place.file("cut", &file[..starts[8] - 1]);
    let more = "Unfinished on handle 7, received, DLCI 18: 5 bytes are held without an end marker.";
    let all = [told[0], told[1], more, told[2]];
    assert_eq!(unfinished(&out(&words(&[&"frames", &cut, &"--tolerant"]))), all);
    // Cut inside the second, nothing is held.
    let cut = place.file("cut", &file[..starts[1] + 30]);
    let said = words(&[&"frames", &cut, &"--tolerant"]);
    assert_eq!(unfinished(&out(&said)), ["Unfinished on DLCI 18: nothing is held without an end marker."]);
}

#[test]
fn stretches_of_one_handle_are_told_apart() {
    let place = Place::new();
    let wire = pack(0x0C, 0, &[0x22]).unwrap();
    // A SABM on the DLCI begins a new link: what was held before it stays, and is told too.
    let mut file = trace_of_pieces(&[(6, true, 18, &wire), (6, true, 18, &wire[..7])]);
    let sabm = [0x06, 0x20, 8, 0, 4, 0, 0x41, 0, 0x4B, 0x3F, 0x01, 0x1C];
    let included = (sabm.len() as u32).to_be_bytes();
    file.extend([&included, &included, &[0, 0, 0, 1], &[0; 4][..], &[0; 8], &sabm].concat());
    file.extend(&trace_of_pieces(&[(6, true, 18, &wire[..2])])[16..]);
    let listed = out(&words(&[&"frames", &place.file("trace", &file)]));
    let told = [
        "Unfinished on handle 6, received, DLCI 18: 7 bytes are held without an end marker.",
        "Unfinished on handle 6, received, DLCI 18: 2 bytes are held without an end marker.",
    ];
    assert_eq!(unfinished(&listed), told);
}

#[test]
fn a_failure_midway_leaves_nothing() {
    let place = Place::new();
    let payloads = [vec![0x22], vec![0x23; 9_000], vec![0x66]];
    let trace = place.file("trace", &trace_of(&payloads));
    let (dir, kept) = (place.join("new/deep"), place.join("kept"));
    fs::create_dir(&kept).unwrap();
    fs::write(kept.join("note"), b"mine").unwrap();
    // No file may grow past 4 blocks, so the second fixture cannot be written.
    let limited = |dir: &Path| {
        let script = "ulimit -f 4; exec \"$0\" \"$@\"";
        let mut command = Command::new("sh");
        command.args(["-c", script, PROGRAM, "import"]).arg(&trace).arg("--out").arg(dir);
        command.stdin(Stdio::null()).output().unwrap()
    };
    fails(&limited(&dir), 1, &["cannot be written: File too large"]);
    assert!(!place.join("new").exists());
    fails(&limited(&kept), 1, &["cannot be written: File too large"]);
    assert_eq!(listing(&kept), ["note"]);
    // Without the limit it works.
    assert_eq!(status(&words(&[&"import", &trace, &"--out", &dir])), 0);
    assert_eq!(listing(&dir).len(), 4);
}

#[test]
fn nobody_listens() {
    let trace = example("headset.btsnoop");
    for command in ["frames", "records", "channels", "import"] {
        let (reader, writer) = pipe().unwrap();
        drop(reader);
        let mut program = Command::new(PROGRAM);
        program.arg(command).arg(&trace);
        if command == "import" {
            program.arg("--dry-run");
        }
        let output = program.stdout(writer).stderr(Stdio::piped()).spawn().unwrap().wait_with_output().unwrap();
        assert_eq!(status(&output), 0);
        assert!(!err(&output).contains("panic") && !err(&output).contains("lumbryth:"), "{}", err(&output));
    }
    let full = fs::OpenOptions::new().write(true).open("/dev/full").unwrap();
    let output = Command::new(PROGRAM).arg("frames").arg(&trace).stdout(full).stderr(Stdio::piped()).spawn().unwrap();
    fails(&output.wait_with_output().unwrap(), 1, &["cannot print: No space left on device"]);
}

#[test]
fn odd_names() {
    let place = Place::new();
    let bytes = fs::read(example("headset.btsnoop")).unwrap();
    for name in [&b"--tolerant"[..], b"-", b"new\nline", b"\xFF\xFE", b"*", b"import"] {
        let name = OsStr::from_bytes(name);
        fs::write(place.join(name), &bytes).unwrap();
        let out = OsStr::from_bytes(b"out \xFE\n");
        let output = Command::new(PROGRAM)
            .current_dir(&place.0)
            .args(["import", "--out"])
            .arg(out)
            .arg("--")
            .arg(name)
            .stdin(Stdio::null())
            .output()
            .unwrap();
        assert_eq!(output.status.code(), Some(0));
        holds(&place.join(out), &fixtures(&bytes));
        fs::remove_dir_all(place.join(out)).unwrap();
    }
}

#[test]
fn a_full_size_trace() {
    let place = Place::new();
    let payloads: Vec<Vec<u8>> = (0..20_000).map(|i| vec![0x22, i as u8, (i >> 8) as u8]).collect();
    let file = trace_of(&payloads);
    assert!(file.len() > 900_000 && file.len() <= 1_048_576, "{}", file.len());
    let output = words(&[&"import", &place.file("trace", &file), &"--dry-run"]);
    assert_eq!((status(&output), out(&output).lines().count()), (0, 20_000));
}
