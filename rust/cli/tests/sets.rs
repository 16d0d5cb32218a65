//! Fixture sets: the list that stands in them, checking, and that a set appears whole or not at all.

mod common;

use std::fs;
use std::io::Read;
use std::os::unix::fs::symlink;
use std::os::unix::process::ExitStatusExt;
use std::path::Path;
use std::process::{Command, Output, Stdio};
use std::thread::sleep;
use std::time::{Duration, Instant};

use common::*;

/// What the list of the example says of bytes.
const BYTES: &str = "Bytes on DLCI 18: 493 taken in, all in frames.";

/// The program ended with status 1, these lines on standard output after that of the bytes, and these words last.
#[track_caller]
fn finds(output: &Output, lines: &[&str], told: &str) {
    assert_eq!(status(output), 1, "{}", err(output));
    assert_eq!(out(output).lines().collect::<Vec<_>>(), [&[BYTES], lines].concat());
    let words = format!("lumbryth: the set is {told}: ");
    assert!(err(output).starts_with(&words), "{}", err(output));
}

/// The set of the example, in a directory of this name.
fn made(place: &Place, name: &str) -> std::path::PathBuf {
    let dir = place.join(name);
    assert_eq!(status(&words(&[&"import", &example("headset.btsnoop"), &"--out", &dir])), 0);
    dir
}

/// Everything in a directory, with its bytes.
fn contents(dir: &Path) -> Vec<(String, Vec<u8>)> {
    listing(dir).into_iter().map(|name| (name.clone(), fs::read(dir.join(&name)).unwrap())).collect()
}

#[test]
fn the_list_says_where_a_set_came_from() {
    let place = Place::new();
    let dir = made(&place, "out");
    let text = fs::read_to_string(dir.join(LIST)).unwrap();
    let lines: Vec<&str> = text.lines().collect();
    let facts = [
        "# lumbryth fixture set 1",
        "# bytes: 493 taken in, all in frames",
        "# channel: any",
        "# container: btsnoop, datalink 1002",
        "# dlci: 18",
        "# end: at a record's end, more may have been recorded",
        "# exclude: none",
        "# fcs: not checked",
        "# fixtures: 30",
        "# frames: 31",
        "# losses: none seen",
        "# not a fixture: 000017 refusal 17, the frame's checksum is 70 where its bytes give B0",
        "# tail offset: 2542",
        "# tail rule: strict",
        "# trace length: 2542",
        "# trace name: headset.btsnoop",
        "# trace sha256: 02480fec8dc4f20bc60dc49fa0094d490a2d9a0543146c046d461ba5ea3fad2f",
        "# unfinished: 0",
    ];
    assert_eq!(lines[..facts.len()], facts);
    assert_eq!(lines.len(), facts.len() + 30 + 1);
    let names: Vec<&str> = lines[facts.len()..lines.len() - 1].iter().map(|line| &line[66..]).collect();
    assert_eq!(
        names,
        fixtures(&fs::read(example("headset.btsnoop")).unwrap()).iter().map(|f| &*f.name).collect::<Vec<_>>()
    );

    // What was cut, left out, asked for.
    let dir = place.join("cut");
    let trace = example("cut.btsnoop");
    let output = words(&[
        &"import",
        &trace,
        &"--out",
        &dir,
        &"--tolerant",
        &"--channel=9",
        &"--exclude=POWER_GET_STATUS",
        &"--exclude=AUDIO_GET_PARAM",
    ]);
    assert_eq!(status(&output), 0);
    let text = fs::read_to_string(dir.join(LIST)).unwrap();
    for line in [
        "# bytes: 478 taken in, 470 in frames, 8 left without an end marker",
        "# channel: 9",
        "# end: cut inside the record that starts at byte 2453",
        "# exclude: AUDIO_GET_PARAM\n# exclude: POWER_GET_STATUS",
        "# fixtures: 26",
        "# frames: 29",
        "# not a fixture: 000009 excluded, POWER_GET_STATUS\n# not a fixture: 000017 refusal 17, ",
        "# tail offset: 2453",
        "# tail rule: tolerant",
        "# trace length: 2483",
        "# unfinished: 1",
    ] {
        assert!(text.contains(&format!("\n{line}")), "{line:?} is not in {text}");
    }
}

#[test]
fn a_set_is_checked_without_the_program() {
    let place = Place::new();
    let dir = made(&place, "out");
    let sums =
        |dir: &Path| Command::new("sha256sum").args(["--check", "--strict", LIST]).current_dir(dir).output().unwrap();
    let output = sums(&dir);
    assert_eq!((status(&output), err(&output)), (0, String::new()));
    assert_eq!(out(&output).lines().filter(|line| line.ends_with(": OK")).count(), 30);
    let name = &listing(&dir)[9];
    fs::write(dir.join(name), b"other").unwrap();
    assert_eq!(status(&sums(&dir)), 1);
    fs::remove_file(dir.join(name)).unwrap();
    assert_eq!(status(&sums(&dir)), 1);
}

#[test]
fn a_set_is_checked() {
    let place = Place::new();
    let (dir, trace) = (made(&place, "out"), example("headset.btsnoop"));
    let names = listing(&dir);
    let told = "31 frames in the trace, end at a record's end, more may have been recorded: headset.btsnoop\n";
    let told = format!("{told}{BYTES}\n");
    let output = words(&[&"check", &dir]);
    assert_eq!((status(&output), err(&output)), (0, String::new()));
    assert_eq!(out(&output), format!("{told}30 fixtures, all as the list has them: {}\n", dir.display()));
    let output = words(&[&"check", &dir, &trace]);
    assert_eq!((status(&output), err(&output)), (0, String::new()));
    assert_eq!(
        out(&output),
        format!("{told}30 fixtures, all as the list and the trace have them: {}\n", dir.display())
    );

    // What no reader of fixtures takes is passed over.
    fs::write(dir.join("notes.txt"), b"mine").unwrap();
    assert_eq!(status(&words(&[&"check", &dir])), 0);

    fs::write(dir.join(&names[3]), b"other").unwrap();
    fs::remove_file(dir.join(&names[5])).unwrap();
    fs::remove_file(dir.join(&names[7])).unwrap();
    fs::create_dir(dir.join(&names[7])).unwrap();
    fs::write(dir.join("more-rx.\u{1B}.bin"), b"mine").unwrap();
    let loop_to_itself = &names[11];
    fs::remove_file(dir.join(loop_to_itself)).unwrap();
    symlink(loop_to_itself, dir.join(loop_to_itself)).unwrap();
    let lines = [
        format!("changed: {}", names[3]),
        format!("missing: {}", names[5]),
        format!("changed: {}", names[7]),
        format!("unreadable: {loop_to_itself}"),
        "extra: more-rx.\\x1b.bin".to_string(),
    ];
    let lines: Vec<&str> = lines.iter().map(|line| &**line).collect();
    finds(&words(&[&"check", &dir]), &lines, "not as it was made, 1 missing, 2 changed, 1 unreadable, 1 extra");
    finds(&words(&[&"check", &dir, &trace]), &lines, "not as it was made, 1 missing, 2 changed, 1 unreadable, 1 extra");

    let json = words(&[&"check", &"--json", &dir]);
    assert_eq!(status(&json), 1);
    let text = out(&json);
    assert_eq!(text.lines().count(), 34);
    let first = [
        r#"{"kind":"losses","told":"none seen"}"#,
        r#"{"kind":"fcs","check_fcs":false,"wrong_fcs":null}"#,
        r#"{"kind":"bytes","taken_in":493,"in_spans":493,"dropped":0,"cleared":0,"left":0}"#,
    ];
    assert_eq!(text.lines().take(3).collect::<Vec<_>>(), first);
    assert_eq!(text.lines().filter(|line| line.starts_with("{\"kind\":\"ok\",\"name\":\"mdr-packet-")).count(), 26);
    assert!(text.contains(&format!("{{\"kind\":\"missing\",\"name\":\"{}\"}}\n", names[5])));
    assert!(text.ends_with("{\"kind\":\"extra\",\"name\":\"more-rx.\\u001b.bin\"}\n"), "{text}");
}

/// Each byte of each fixture matters, and each fixture.
#[test]
fn every_change_is_found() {
    let place = Place::new();
    let dir = made(&place, "out");
    for name in listing(&dir) {
        let path = dir.join(&name);
        let bytes = fs::read(&path).unwrap();
        fs::remove_file(&path).unwrap();
        assert_eq!(status(&words(&[&"check", &dir])), 1, "{name} is missing");
        let at = bytes.len() / 2;
        for changed in [
            [&bytes[..at], &[bytes[at] ^ 1], &bytes[at + 1..]].concat(),
            bytes[..at].to_vec(),
            [&bytes[..], &[0]].concat(),
        ] {
            fs::write(&path, changed).unwrap();
            assert_eq!(status(&words(&[&"check", &dir])), 1, "{name} is changed");
        }
        fs::write(&path, bytes).unwrap();
    }
    assert_eq!(status(&words(&[&"check", &dir])), 0);
}

#[test]
fn a_set_is_held_against_a_trace() {
    let place = Place::new();
    let (dir, cut) = (made(&place, "out"), example("cut.btsnoop"));
    let output = words(&[&"check", &dir, &cut]);
    assert_eq!(status(&output), 1);
    let told = format!("{BYTES}\ntrace: it is not the one that the set was made from\ntrace: refused (5): ");
    assert!(out(&output).starts_with(&told), "{}", out(&output));
    // The set of a cut, against the whole: what is more is named.
    let less = place.join("cut");
    assert_eq!(status(&words(&[&"import", &cut, &"--out", &less, &"--tolerant"])), 0);
    assert_eq!(status(&words(&[&"check", &less, &cut])), 0);
    let output = words(&[&"check", &less, &example("headset.btsnoop")]);
    assert_eq!(status(&output), 1);
    let more = out(&output).lines().filter(|line| line.starts_with("trace: only the trace has mdr-packet-")).count();
    assert_eq!(more, 2, "{}", out(&output));
    assert!(out(&output).contains("trace: only the list has frames: 29\n"));
    // One that leaves out what has no command.
    let dry = place.join("commands");
    assert_eq!(status(&words(&[&"import", &cut, &"--out", &dry, &"--tolerant", &"--exclude=NO_COMMAND"])), 0);
    assert_eq!(status(&words(&[&"check", &dry, &cut])), 0);
    // A list that says what the trace does not, with a right sum.
    let another = "as its list has it, but not as the trace gives it";
    let text = fs::read_to_string(dir.join(LIST)).unwrap();
    relist(&place, &dir, &text.replace("# unfinished: 0", "# unfinished: 1"));
    assert_eq!(status(&words(&[&"check", &dir])), 0);
    let lines = ["trace: only the list has unfinished: 1", "trace: only the trace has unfinished: 0"];
    finds(
        &words(&[&"check", &dir, &example("headset.btsnoop")]),
        &lines,
        &format!("{another}, 2 differences from the trace"),
    );
    // A fixture that was changed together with its list.
    let name = &listing(&dir)[4];
    let before = sum(&dir.join(name));
    fs::write(dir.join(name), b"other").unwrap();
    relist(&place, &dir, &text.replace(&format!("{before}  {name}"), &format!("{}  {name}", sum(&dir.join(name)))));
    assert_eq!(status(&words(&[&"check", &dir])), 0);
    let line = format!("trace: other bytes than in the list has {name}");
    finds(
        &words(&[&"check", &dir, &example("headset.btsnoop")]),
        &[&line],
        &format!("{another}, 1 difference from the trace"),
    );
}

#[test]
fn what_is_no_set() {
    let place = Place::new();
    fails(&words(&[&"check", &place.join("none")]), 1, &["lumbryth: there is no such directory: "]);
    fails(&words(&[&"check", &place.file("file", b"")]), 1, &["lumbryth: this is not a directory: "]);
    fails(&words(&[&"check", &place.0]), 1, &["lumbryth: no list of a fixture set is there: "]);
    let dir = made(&place, "out");
    let text = fs::read_to_string(dir.join(LIST)).unwrap();
    for changed in
        ["", "\n", &text.replace("# frames: 31", "# frames: 30"), &text[..text.len() / 2], &text.replace('\n', "\r\n")]
    {
        fs::write(dir.join(LIST), changed).unwrap();
        fails(&words(&[&"check", &dir]), 1, &["lumbryth: the list of the set is wrong: ", LIST]);
        let again = words(&[&"import", &example("headset.btsnoop"), &"--out", &dir]);
        fails(&again, 1, &["lumbryth: nothing was written: the list of the set is wrong: "]);
    }
    // A name in the list cannot lead out of the directory, and a counter is there once.
    for (from, to) in
        [("  mdr-packet-", "  ../mdr-packet-"), ("-000031-tx", "-000030-tx"), ("fixtures: 30", "fixtures: 29")]
    {
        relist(&place, &dir, &text.replace(from, to));
        let output = words(&[&"check", &dir]);
        assert_eq!(status(&output), 1);
        assert!(format!("{}{}", out(&output), err(&output)).contains("list"), "{}", err(&output));
    }
    finds(
        &words(&[&"check", &dir]),
        &["list: it names 30 fixtures and says another number"],
        "not as it was made, 1 fault in the list",
    );
    fs::remove_file(dir.join(LIST)).unwrap();
    fs::create_dir(dir.join(LIST)).unwrap();
    fails(&words(&[&"check", &dir]), 1, &["the list of the set cannot be read: it is not a file: "]);
}

#[test]
fn sets_are_not_mixed() {
    let place = Place::new();
    let (dir, trace) = (made(&place, "out"), example("headset.btsnoop"));
    let before = contents(&dir);
    let told = |args: &[&dyn AsRef<std::ffi::OsStr>], told: &str| {
        fails(&words(args), 1, &[&format!("lumbryth: nothing was written: {told}"), "/out"]);
        assert_eq!(contents(&dir), before);
    };
    let other = "the directory has the set of another trace, headset.btsnoop: ";
    told(&[&"import", &example("cut.btsnoop"), &"--tolerant", &"--out", &dir], other);
    let otherwise = "the directory has a set of this trace that was asked for otherwise, with";
    told(&[&"import", &trace, &"--out", &dir, &"--exclude=NO_COMMAND"], &format!("{otherwise} exclude none: "));
    told(&[&"import", &trace, &"--out", &dir, &"--channel=9"], &format!("{otherwise} channel any: "));
    told(&[&"import", &trace, &"--out", &dir, &"--tolerant"], &format!("{otherwise} tail rule strict: "));
    told(&[&"import", &trace, &"--out", &dir, &"--check-fcs"], &format!("{otherwise} fcs not checked: "));
    // The same trace by another name is the same, and so is a set whose list is lost.
    let copy = place.file("copy", &fs::read(&trace).unwrap());
    assert_eq!(status(&words(&[&"import", &copy, &"--out", &dir])), 0);
    assert_eq!(contents(&dir), before);
    fs::remove_file(dir.join(LIST)).unwrap();
    assert_eq!(status(&words(&[&"import", &trace, &"--out", &dir])), 0);
    assert_eq!(contents(&dir), before);
    // Without a list too, fixtures of another trace stay by themselves.
    let odd = dir.join("mdr-packet-1-000099-rx.bin");
    fs::remove_file(dir.join(LIST)).unwrap();
    fs::write(&odd, b"mine").unwrap();
    let output = words(&[&"import", &trace, &"--out", &dir]);
    fails(
        &output,
        1,
        &["lumbryth: nothing was written: the directory has a fixture of another set: ", "-000099-rx.bin\n"],
    );
    assert!(!dir.join(LIST).exists());
    // In a directory with other files a set is at home.
    let home = place.join("home");
    fs::create_dir(&home).unwrap();
    fs::write(home.join("notes.txt"), b"mine").unwrap();
    assert_eq!(status(&words(&[&"import", &trace, &"--out", &home])), 0);
    assert_eq!(listing(&home).len(), 32);
    assert_eq!(status(&words(&[&"check", &home, &trace])), 0);
}

#[test]
fn odd_places() {
    let place = Place::new();
    let trace = example("headset.btsnoop");
    fs::create_dir(place.join("there")).unwrap();
    symlink("there", place.join("link")).unwrap();
    for dir in ["new/.", "a/b/../c", "x/..", "there/", "link/below", "./y//z"] {
        let output =
            Command::new(PROGRAM).current_dir(&place.0).args(["import", "--out", dir]).arg(&trace).output().unwrap();
        assert_eq!(status(&output), 0, "{dir}: {}", err(&output));
        assert_eq!(status(&words(&[&"check", &place.join(dir)])), 0, "{dir}");
    }
    let output = Command::new(PROGRAM)
        .current_dir(place.join("link"))
        .args(["import", "--out", "."])
        .arg(&trace)
        .output()
        .unwrap();
    assert_eq!(status(&output), 0, "{}", err(&output));
}

#[test]
fn fifteen_thousand() {
    let place = Place::new();
    let (trace, dir) = (many(&place, 15_000), place.join("out"));
    // The recorder drops a packet before each of the last 8,000.
    let mut file = fs::read(&trace).unwrap();
    let bounds = bounds(&file);
    for (drops, at) in (1_u32..).zip(&bounds[7_000..15_000]) {
        file[at + 12..at + 16].copy_from_slice(&drops.to_be_bytes());
    }
    fs::write(&trace, &file).unwrap();
    let started = Instant::now();
    let output = words(&[&"import", &trace, &"--out", &dir]);
    let took = started.elapsed();
    assert_eq!((status(&output), err(&output)), (0, String::new()));
    assert!(took < Duration::from_secs(60), "{took:?}");
    assert_eq!(listing(&dir).len(), 15_001);
    let line = format!("Dropped by the recorder: 8000 packets, first told at byte {}. ", bounds[7_000]);
    assert!(out(&output).contains(&line), "{}", out(&output));
    let output = words(&[&"check", &dir, &trace]);
    assert_eq!((status(&output), err(&output)), (0, String::new()));
    let line = format!("\nLosses: dropped by the recorder, 8000 packets, first told at byte {}.\n", bounds[7_000]);
    assert!(out(&output).contains(&line), "{}", out(&output));
    // Into a directory that is there, half of it missing.
    for name in listing(&dir).iter().step_by(2) {
        fs::remove_file(dir.join(name)).unwrap();
    }
    assert_eq!(status(&words(&[&"import", &trace, &"--out", &dir])), 0);
    assert_eq!(status(&words(&[&"check", &dir])), 0);
}

/// A signal at any time leaves the whole set or nothing.
#[test]
fn an_interrupt_leaves_nothing() {
    let place = Place::new();
    let trace = many(&place, 15_000);
    let (mut ended, mut done) = (0, 0);
    for (i, signal) in ["INT", "TERM", "HUP"].into_iter().cycle().take(9).enumerate() {
        // In turn a new directory, below another that is new, and one that is there.
        let (top, there) = (place.join("top"), i % 2 == 1);
        let dir = if there { top.clone() } else { top.join("below") };
        if there {
            fs::create_dir(&top).unwrap();
            fs::write(top.join("notes.txt"), b"mine").unwrap();
        }
        let mut program = Command::new(PROGRAM);
        program.arg("import").arg(&trace).arg("--out").arg(&dir).stdout(Stdio::null()).stderr(Stdio::piped());
        let mut child = program.spawn().unwrap();
        sleep(Duration::from_millis(20 + 40 * i as u64));
        let sent = Command::new("sh").args(["-c", "kill -s $0 $1", signal, &child.id().to_string()]).status().unwrap();
        assert!(sent.success());
        let mut told = String::new();
        child.stderr.take().unwrap().read_to_string(&mut told).unwrap();
        let status = child.wait().unwrap();
        if status.signal().is_some() && fs::symlink_metadata(dir.join(LIST)).is_err() {
            ended += 1;
            if there {
                assert_eq!(listing(&top), ["notes.txt"], "{told}");
            } else {
                assert!(!top.exists(), "{told}");
            }
        } else {
            done += 1;
            assert_eq!(status.code(), Some(0), "{told}");
            assert_eq!(common::status(&words(&[&"check", &dir])), 0);
        }
        assert!(listing(&place.0).iter().all(|name| name == "many" || name == "top"), "{:?}", listing(&place.0));
        let _ = fs::remove_dir_all(&top);
    }
    println!("{ended} ended, {done} done");
    assert!(ended > 0, "no signal came in time");
}

/// A signal that asks to end: the terminal's, unless this process was started so that it is ignored.
fn signal() -> (&'static str, i32) {
    let status = fs::read_to_string("/proc/self/status").unwrap();
    let ignored = status.lines().find_map(|line| line.strip_prefix("SigIgn:")).unwrap();
    if u64::from_str_radix(ignored.trim(), 16).unwrap() & 2 == 0 {
        ("INT", 2)
    } else {
        ("TERM", 15)
    }
}

/// Starts an import of many, interrupts it once something of it is seen, and holds it to leaving a directory as it was. The signal
/// may come too late: then once more.
#[track_caller]
fn interrupted(place: &Place, trace: &Path, out: &Path, seen: impl Fn() -> bool) {
    for _ in 0..20 {
        let mut program = Command::new(PROGRAM);
        program.arg("import").arg(trace).arg("--out").arg(out).stdout(Stdio::null()).stderr(Stdio::piped());
        let before = listing(&place.0);
        let mut child = program.spawn().unwrap();
        while child.try_wait().unwrap().is_none() && !seen() {}
        let (name, number) = signal();
        let kill = ["-c", "kill -s $0 $1", name, &child.id().to_string()];
        let _ = Command::new("sh").args(kill).stderr(Stdio::null()).status().unwrap();
        let mut told = String::new();
        child.stderr.take().unwrap().read_to_string(&mut told).unwrap();
        let status = child.wait().unwrap();
        if status.success() {
            for name in listing(out).iter().filter(|name| *name != "notes.txt") {
                fs::remove_file(out.join(name)).unwrap();
            }
            let _ = fs::remove_dir(out);
            continue;
        }
        assert_eq!((status.signal(), &*told), (Some(number), "lumbryth: interrupted: nothing was written\n"));
        assert_eq!(listing(&place.0), before);
        return;
    }
    panic!("no signal came in time");
}

#[test]
fn an_interrupt_is_told() {
    let place = Place::new();
    let trace = many(&place, 15_000);
    interrupted(&place, &trace, &place.join("out"), || listing(&place.0) != ["many"]);
}

/// In a directory that is there the names appear one by one: those that did go again.
#[test]
fn an_interrupt_while_names_appear() {
    let place = Place::new();
    let (trace, dir) = (many(&place, 15_000), place.join("out"));
    fs::create_dir(&dir).unwrap();
    fs::write(dir.join("notes.txt"), b"mine").unwrap();
    interrupted(&place, &trace, &dir, || listing(&dir).len() > 2);
    assert_eq!(listing(&dir), ["notes.txt"]);
}

/// At a terminal, where one can be had, it says what it does; without one nothing.
#[test]
fn progress_is_told_at_a_terminal() {
    let place = Place::new();
    let trace = many(&place, 2_000);
    let output = words(&[&"import", &trace, &"--out", &place.join("quiet")]);
    assert_eq!((status(&output), err(&output)), (0, String::new()));
    let mut terminal = Command::new("script");
    terminal.args(["--quiet", "--return", "--command", "\"$PROGRAM\" import \"$TRACE\" --out \"$DIR\"", "/dev/null"]);
    terminal.env("PROGRAM", PROGRAM).env("TRACE", &trace).env("DIR", place.join("told")).env("SHELL", "/bin/sh");
    let Ok(output) = terminal.stdin(Stdio::null()).output() else {
        println!("skipped: no terminal can be had");
        return;
    };
    assert!(out(&output).contains("lumbryth: 2000 fixtures written, waiting for the disk\r\n"), "{}", out(&output));
    assert_eq!(status(&words(&[&"check", &place.join("told")])), 0);
}

/// A small file system that fills up, where one can be mounted: by any user, or else by one who may.
#[test]
fn a_full_disk() {
    let place = Place::new();
    let trace = many(&place, 2_000);
    let disk = place.join("disk");
    fs::create_dir(&disk).unwrap();
    let script =
        "mount -t tmpfs -o size=1m none \"$1\" 2> /dev/null || exit 77; mkdir \"$1/there\"; touch \"$1/there/note\"
        for dir in new/deep there; do
            \"$0\" import \"$2\" --out \"$1/$dir\" && exit 78
        done
        find \"$1\" -mindepth 1 -printf '%P\\n' | sort";
    for who in [&["--user", "--map-root-user", "--mount"][..], &["--mount"]] {
        let mut command = Command::new("unshare");
        command.args(who).args(["sh", "-c", script, PROGRAM]).arg(&disk).arg(&trace).stdin(Stdio::null());
        match command.output() {
            Ok(output) if output.status.code() == Some(0) => {
                assert_eq!(out(&output), "there\nthere/note\n");
                assert_eq!(err(&output).matches("lumbryth: cannot be written: No space left on device").count(), 2);
                return;
            }
            Ok(output) if output.status.code() == Some(78) => panic!("the disk was not full"),
            _ => {}
        }
    }
    println!("skipped: no file system can be mounted");
}

#[test]
fn names_in_the_list_stay_in_their_line() {
    let place = Place::new();
    let trace = place.file("a\nb\u{1B}", &fs::read(example("headset.btsnoop")).unwrap());
    let dir = place.join("out\n");
    let output = words(&[&"import", &trace, &"--out", &dir]);
    assert!(out(&output).ends_with("/out\\n\n"), "{}", out(&output));
    assert!(fs::read_to_string(dir.join(LIST)).unwrap().contains("\n# trace name: a\\nb\\x1b\n"));
    assert_eq!(status(&words(&[&"check", &dir, &trace])), 0);
}
