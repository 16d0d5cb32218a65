//! Traces in pcap: that the same packets give the same as in btsnoop, in each form of a file; and what is cut, damaged, snapped, of
//! another link type or of another format.

mod common;
#[allow(dead_code)]
mod made;
#[allow(dead_code)]
#[path = "../../../examples/trace/mod.rs"]
mod trace;

use std::collections::BTreeSet;
use std::fs;
use std::path::{Path, PathBuf};
use std::process::{Command, Output};

use common::{bounds as btsnoop_bounds, err, example, fails, holds, listing, out, status, words, Place, LIST};
use lumbryth::{import_with, plan, Container, Fixture, Options, TailRule};
use trace::pcap::{twin, Form, FORMS, PLAIN};

fn whole() -> Vec<u8> {
    fs::read(example("headset.btsnoop")).unwrap()
}

fn number(form: Form, n: u32) -> [u8; 4] {
    if form.big {
        n.to_be_bytes()
    } else {
        n.to_le_bytes()
    }
}

/// Where each record of a pcap file starts, and where the last ends.
fn bounds(form: Form, file: &[u8]) -> Vec<usize> {
    let mut bounds = vec![24];
    while bounds[bounds.len() - 1] < file.len() {
        let at = bounds[bounds.len() - 1];
        let length: [u8; 4] = file[at + 8..at + 12].try_into().unwrap();
        let length = if form.big { u32::from_be_bytes(length) } else { u32::from_le_bytes(length) };
        bounds.push(at + 16 + length as usize);
    }
    bounds
}

fn options() -> Options {
    Options::default().with_container(Container::Pcap).with_tail(TailRule::Tolerant)
}

fn fixtures(file: &[u8]) -> Vec<Fixture> {
    plan(&import_with(file, &options()).unwrap().spans, &[] as &[&str]).unwrap()
}

/// All that is printed, on both outputs.
fn said(output: &Output) -> String {
    out(output) + &err(output)
}

/// What every command says of a trace, in words and in objects; each `byte N`, or N as a place in an object, as the number of the
/// record that starts there.
fn by_record(place: &Place, file: &[u8], bounds: &[usize]) -> Vec<String> {
    let trace = place.file("trace", file);
    let asked: [&[&str]; 6] = [
        &["frames"],
        &["frames", "--json"],
        &["channels"],
        &["channels", "--json"],
        &["import", "--dry-run"],
        &["import", "--dry-run", "--tolerant", "--channel=9"],
    ];
    let texts = asked.iter().map(|asked| {
        let args: Vec<&std::ffi::OsStr> = asked.iter().map(|arg| arg.as_ref()).chain([trace.as_os_str()]).collect();
        said(&common::run(&args))
    });
    texts
        .map(|mut text| {
            for before in ["byte ", r#""first":"#, r#""offset":"#] {
                let mut parts = text.split(before).map(String::from);
                let mut whole = parts.next().unwrap();
                for part in parts {
                    let end = part.find(|c: char| !c.is_ascii_digit()).unwrap_or(part.len());
                    match part[..end].parse::<usize>() {
                        Ok(at) => {
                            let record = bounds.iter().position(|bound| *bound == at);
                            let record = record.unwrap_or_else(|| panic!("no record starts at {at}: {text}"));
                            whole += &format!("{before}[{record}]{}", &part[end..]);
                        }
                        Err(_) => whole += &format!("{before}{part}"),
                    }
                }
                text = whole;
            }
            text
        })
        .collect()
}

/// What is said of a btsnoop file of this datalink, as it is said of a pcap file.
fn in_pcap(texts: Vec<String>, datalink: u32) -> Vec<String> {
    let words = (format!(": datalink {datalink}."), ": pcap, link type 201.");
    let object = (format!(r#""datalink":{datalink},"#), r#""container":"pcap","link_type":201,"#);
    texts.iter().map(|text| text.replace(&words.0, words.1).replace(&object.0, object.1)).collect()
}

#[test]
fn the_examples_in_words() {
    let text = |command: &str, name: &str| out(&words(&[&command, &example(name)]));
    for name in ["headset", "cut"] {
        for command in ["frames", "channels"] {
            let cut = |text: String| text.replace(": datalink 1002.", ": pcap, link type 201.");
            let cut = |name: &str| cut(text(command, name)).replace("byte 2453: 30 bytes", "byte 2253: 26 bytes");
            assert_eq!(text(command, &format!("{name}.pcap")), cut(&format!("{name}.btsnoop")));
        }
    }
    let records = text("records", "headset.pcap");
    let lines: Vec<&str> = records.lines().collect();
    assert_eq!(lines.len(), 56);
    assert_eq!(lines[0], "54 records: pcap, link type 201.");
    assert_eq!(lines[1], "The file ends at a record's end, so whether more was recorded cannot be seen.");
    assert_eq!(lines[2], "command, tx 1, 8 bytes at 24, 2024-05-14 09:30:00.003");
    assert_eq!(lines[3], "event, rx 2, 11 bytes at 48, 2024-05-14 09:30:00.007");
    assert_eq!(lines[4], "ACL data, handle 6, begins a PDU, tx 3, 21 bytes at 75, 2024-05-14 09:30:00.013");
    // The same as in btsnoop, but for the 4 bytes of a direction and where a record starts.
    let plain = text("records", "headset.btsnoop");
    let parts = |line: &str| {
        let (what, rest) = line.rsplit_once(" bytes at ").unwrap();
        let (what, length) = what.rsplit_once(", ").unwrap();
        let (at, time) = rest.split_once(", ").unwrap();
        (format!("{what} {time}"), length.parse::<usize>().unwrap(), at.parse::<usize>().unwrap())
    };
    let (here, there) = (bounds(PLAIN, &fs::read(example("headset.pcap")).unwrap()), btsnoop_bounds(&whole()));
    for (n, (line, other)) in lines.iter().zip(plain.lines()).skip(2).enumerate() {
        let ((what, length, at), (other, before, place)) = (parts(line), parts(other));
        assert_eq!((what, length, at), (other, before + 4, here[n]));
        assert_eq!(place, there[n]);
    }
    let output = words(&[&"import", &example("cut.pcap"), &"--dry-run"]);
    let told = "refused (5): the file ends inside the record that starts at byte 2253: 26 bytes of it are there and 13 are missing: ";
    fails(&output, 1, &[told, "cut.pcap\nlumbryth: --tolerant keeps what was complete before that\n"]);
}

#[test]
fn the_examples_in_objects() {
    let text = |args: &[&str], name| {
        let args: Vec<PathBuf> = args.iter().map(PathBuf::from).chain([example(name)]).collect();
        out(&common::run(&args))
    };
    let records = text(&["records", "--json"], "headset.pcap");
    let lines: Vec<&str> = records.lines().collect();
    let first =
        r#"{"kind":"file","container":"pcap","link_type":201,"records":54,"adapters":1,"end":"record","losses":{}}"#;
    assert_eq!((lines.len(), lines[0]), (55, first));
    let third = r#"{"kind":"record","number":3,"offset":75,"adapter":0,"direction":"tx","ms":1715679000013,"length":21,"what":"ACL data, handle 6, begins a PDU"}"#;
    assert_eq!(lines[3], third);
    let channels = text(&["channels", "--json"], "cut.pcap");
    let first = r#"{"kind":"file","container":"pcap","link_type":201,"records":52,"adapters":1,"taken":18,"reason":null,"end":"cut","offset":2253,"present":26,"missing":13,"losses":{}}"#;
    assert_eq!(channels.lines().next().unwrap(), first);
    assert_eq!(text(&["frames", "--json"], "headset.pcap"), text(&["frames", "--json"], "headset.btsnoop"));
}

/// The same fixtures, and a list that differs in what tells of the file.
#[test]
fn each_form_gives_the_same_fixtures() {
    let place = Place::new();
    let there = place.join("btsnoop");
    assert_eq!(status(&words(&[&"import", &example("headset.btsnoop"), &"--out", &there])), 0);
    let list = |dir: &Path| fs::read_to_string(dir.join(LIST)).unwrap();
    for form in FORMS {
        let (file, dir) = (twin(&whole(), form), place.join(format!("{form:?}")));
        let trace = place.file("trace.pcap", &file);
        let output = words(&[&"import", &trace, &"--out", &dir]);
        assert_eq!((status(&output), err(&output)), (0, String::new()));
        assert!(out(&output).ends_with(&format!("30 fixtures written: {}\n", dir.display())));
        holds(&dir, &common::fixtures(&whole()));
        assert_eq!(fixtures(&file), common::fixtures(&whole()));
        let facts = |text: &str| -> BTreeSet<String> { text.lines().map(String::from).collect() };
        let (here, other) = (facts(&list(&dir)), facts(&list(&there)));
        let mut only: Vec<&String> = here.difference(&other).filter(|line| !line.contains("sha256: ")).collect();
        only.sort();
        let lines = [
            "# container: pcap, link type 201",
            "# tail offset: 2334",
            "# trace length: 2334",
            "# trace name: trace.pcap",
        ];
        assert_eq!(only, lines);
        assert_eq!(here.difference(&other).count(), 6);
        assert!(here.contains("# losses: none seen") && here.contains("# bytes: 493 taken in, all in frames"));
        assert!(here.contains(&format!("# trace sha256: {}", common::sum(&trace))));
        // The set is checked by its own trace; another, with the same frames, is another.
        assert_eq!(status(&words(&[&"check", &dir, &trace])), 0);
        let output = words(&[&"check", &dir, &example("headset.btsnoop")]);
        assert_eq!(status(&output), 1);
        let told = out(&output);
        assert!(told.contains("\ntrace: it is not the one that the set was made from\n"), "{told}");
        for line in
            ["only the list has container: pcap, link type 201", "only the trace has container: btsnoop, datalink 1002"]
        {
            assert!(told.contains(&format!("trace: {line}\n")), "{told}");
        }
        assert!(!told.contains(".bin"), "{told}");
        let output = words(&[&"import", &trace, &"--out", &there]);
        fails(&output, 1, &["nothing was written: the directory has the set of another trace, headset.btsnoop: "]);
    }
    let dir = place.join("cut");
    assert_eq!(status(&words(&[&"import", &example("cut.pcap"), &"--out", &dir, &"--tolerant"])), 0);
    for line in ["end: cut inside the record that starts at byte 2253", "tail offset: 2253", "trace length: 2279"] {
        assert!(list(&dir).contains(&format!("\n# {line}\n")), "{line}");
    }
    assert_eq!(listing(&dir).len(), 29);
}

/// Traces of all kinds, in each form: the same is said, but for the container and where records start.
#[test]
fn each_form_says_the_same() {
    let place = Place::new();
    let mut rng = made::Rng(21);
    let mut files = vec![whole(), fs::read(example("cut.btsnoop")).unwrap()];
    while files.len() < 60 {
        let file = made::trace(&mut rng);
        // Adapters have no place in pcap; and of one adapter the index is told in objects.
        if look::adapters(look::Trace::of(&file)).iter().all(|adapter| *adapter == 0) {
            files.push(file);
        }
    }
    let (mut taken, mut lossy) = (0, 0);
    for (n, file) in files.iter().enumerate() {
        let found = lumbryth::records(file).unwrap();
        let file = &file[..found.tail];
        let there = btsnoop_bounds(file);
        let datalink = u32::from(file[14]) << 8 | u32::from(file[15]);
        let expected = in_pcap(by_record(&place, file, &there), datalink);
        for form in if n < 10 { &FORMS[..] } else { &FORMS[n % 4..n % 4 + 1] } {
            let pcap = twin(file, *form);
            assert_eq!(by_record(&place, &pcap, &bounds(*form, &pcap)), expected, "{form:?}");
        }
        taken += usize::from(!expected[0].contains("refused ("));
        lossy += usize::from(expected[2].contains("Without a beginning") || expected[2].contains("Skipped"));
    }
    assert!(taken >= 20 && lossy >= 10, "{taken} {lossy}");
}

/// Every cut from the header on gives the frames of the whole from its first on, and says where the file ends.
#[test]
fn every_cut() {
    let place = Place::new();
    for form in FORMS {
        let whole = twin(&whole(), form);
        let all: Vec<String> = fixtures(&whole).into_iter().map(|fixture| fixture.name).collect();
        let bounds = bounds(form, &whole);
        // Of one form every cut, of the others some.
        let step = if form == PLAIN { 1 } else { 29 };
        let mut most = 0;
        for n in (24..whole.len()).step_by(step).chain([whole.len()]) {
            let trace = place.file("trace", &whole[..n]);
            let record = bounds.iter().rposition(|&start| start <= n).unwrap();
            let (start, inside) = (bounds[record], bounds[record] < n);
            let output = words(&[&"import", &trace, &"--tolerant", &"--dry-run"]);
            let told = err(&output);
            let names: Vec<String> = out(&output).lines().map(String::from).collect();
            assert_eq!(names, all[..names.len()], "cut at {n}");
            assert!(names.len() >= most, "cut at {n}");
            most = names.len();
            assert_eq!(status(&output), i32::from(names.is_empty()), "cut at {n}: {told}");
            assert_eq!(told.contains("refused (6)"), names.is_empty());
            let (there, gone) = (n - start, if inside { bounds[record + 1] - n } else { 0 });
            let gone = match gone {
                _ if there < 12 => ", too few to say how many are missing".into(),
                1 => " and 1 is missing".into(),
                gone => format!(" and {gone} are missing"),
            };
            let there = if there == 1 { "1 byte of it is".into() } else { format!("{there} bytes of it are") };
            let end = if inside {
                format!("he file ends inside the record that starts at byte {start}: {there} there{gone}")
            } else {
                let place = if n == 24 { "after its header" } else { "at a record's end" };
                format!("he file ends {place}, so whether more was recorded cannot be seen")
            };
            assert!(told.contains(&end), "cut at {n}: {told}");
            assert_eq!(told.matches("he file ").count(), 1, "cut at {n}: {told}");
            let strict = words(&[&"import", &trace, &"--dry-run"]);
            if inside {
                fails(&strict, 1, &[&format!("refused (5): t{end}: ")]);
            } else {
                assert_eq!((out(&strict), err(&strict)), (out(&output), told.clone()), "cut at {n}");
            }
            if n % 7 == 0 {
                let listed = out(&words(&[&"records", &trace]));
                assert!(listed.starts_with(&format!("{record} record")), "cut at {n}: {listed}");
                assert!(listed.contains(&end), "cut at {n}: {listed}");
                let shown = out(&words(&[&"channels", &trace]));
                assert!(shown.contains(&end), "cut at {n}: {shown}");
            }
        }
        assert_eq!(most, all.len());
        // Less than a header is no pcap file; less than a magic number could be anything.
        for n in 0..24 {
            let trace = place.file("trace", &whole[..n]);
            let told = match n {
                0 => "refused (3): the file is empty: ".to_string(),
                1 => {
                    "refused (3): the file has only 1 byte, and a btsnoop header has 16, a pcap header 24: ".to_string()
                }
                2..4 => {
                    format!("refused (3): the file has only {n} bytes, and a btsnoop header has 16, a pcap header 24: ")
                }
                _ => format!("refused (21): the file has only {n} bytes, and a pcap header has 24: "),
            };
            for command in ["frames", "records", "channels"] {
                fails(&words(&[&command, &trace]), 1, &[&told]);
            }
            fails(&words(&[&"import", &trace, &"--dry-run", &"--tolerant"]), 1, &[&told]);
        }
    }
}

/// What is no cut is not called one: lengths that no packet has, and zeros where a record would be.
#[test]
fn damage_is_told() {
    let place = Place::new();
    let look = |file: &[u8], damage: &str, strict: bool| {
        let trace = place.file("trace", file);
        for command in ["frames", "records", "channels"] {
            let text = said(&words(&[&command, &trace]));
            assert!(text.contains(&format!("he file is damaged: {damage}")), "{text}");
            assert!(!text.contains("ends inside") && !text.contains("more was recorded"), "{text}");
        }
        let output = words(&[&"import", &trace, &"--dry-run"]);
        let told = format!("refused (5): the file is damaged: {damage}");
        assert_eq!(err(&output).contains(&told), strict, "{}", err(&output));
        let output = words(&[&"import", &trace, &"--dry-run", &"--tolerant"]);
        assert!(err(&output).contains(damage), "{}", err(&output));
        assert_eq!(err(&output).contains("Missing: whatever was not complete"), status(&output) == 0);
    };
    for (form, step) in FORMS.into_iter().zip([5, 17, 17, 17]) {
        let whole = twin(&whole(), form);
        let bounds = bounds(form, &whole);
        for (n, &start) in bounds.iter().enumerate().take(54).step_by(step) {
            let mut file = whole.clone();
            for length in [u32::MAX, 65_545] {
                file[start + 8..start + 12].copy_from_slice(&number(form, length));
                let words = format!(
                    "the record that starts at byte {start} gives its packet {length} bytes, and no packet has over 65544"
                );
                look(&file, &words, true);
            }
            // The longest that a packet may be is a cut.
            file[start + 8..start + 12].copy_from_slice(&number(form, 65_544));
            let text = said(&words(&[&"records", &place.file("trace", &file)]));
            let gone = start + 16 + 65_544 - file.len();
            assert!(text.contains(&format!(" bytes of it are there and {gone} are missing.")), "{text}");
            for zeros in [16, 17, 31, 32, 500 + n] {
                let file = [&whole[..start], &vec![0; zeros]].concat();
                let words = format!("from byte {start} to its end there are zeros only, {zeros} of them");
                look(&file, &words, zeros % 16 != 0);
            }
        }
        // Fewer zeros may be the beginning of a record.
        for zeros in 1..16 {
            let output = words(&[&"records", &place.file("trace", &[&whole[..], &vec![0; zeros]].concat())]);
            let there = if zeros == 1 { "1 byte of it is".into() } else { format!("{zeros} bytes of it are") };
            let told = format!("The file ends inside the record that starts at byte 2334: {there} there");
            assert!(out(&output).contains(&told), "{}", out(&output));
        }
        // Zeros in the packet of a record are its own.
        let mut file = whole.clone();
        file[bounds[53] + 16..].fill(0);
        let output = words(&[&"records", &place.file("trace", &file)]);
        assert!(out(&output).contains("The file ends at a record's end, "), "{}", out(&output));
    }
}

/// Records of zeros between others are told, and pass nothing on.
#[test]
fn zero_fill() {
    let place = Place::new();
    let file = twin(&whole(), PLAIN);
    let bounds = bounds(PLAIN, &file);
    for &at in &bounds[..54] {
        let filled = [&file[..at], &[0; 32], &file[at..]].concat();
        let output = words(&[&"import", &place.file("trace", &filled), &"--dry-run"]);
        let line = format!("Zeros only: 2 records, the first at byte {at}. Something else may have stood there.\n");
        assert!(err(&output).contains(&line), "{}", err(&output));
        assert_eq!(out(&output).lines().count(), 30);
    }
}

/// Any number of bytes of any packet left out, and said so by its record. What a recorder dropped is never told.
#[test]
fn snapped_packets() {
    let place = Place::new();
    for (form, step) in FORMS.into_iter().zip([1, 9, 9, 9]) {
        let file = twin(&whole(), form);
        let bounds = bounds(form, &file);
        for record in (1..=54).step_by(step) {
            let (at, end) = (bounds[record - 1], bounds[record]);
            let length = end - at - 16;
            for kept in [0, 1, 3, 4, 5, 8, length - 1].into_iter().filter(|kept| *kept < length) {
                let mut short = [&file[..at + 16 + kept], &file[end..]].concat();
                short[at + 8..at + 12].copy_from_slice(&number(form, kept as u32));
                let output = words(&[&"import", &place.file("trace", &short), &"--dry-run"]);
                let text = err(&output);
                assert_eq!(status(&output), 0, "{text}");
                let line =
                    format!("Stored short: 1 record, at byte {at}. The recorder kept only a part of its packet.\n");
                assert!(text.contains(&line), "{text}");
                // Without direction and type it is not known what a packet is.
                let skipped = format!("Skipped: 1 data packet, at byte {at}. A part of it is not in the file.\n");
                assert_eq!(text.contains(&skipped), file[at + 20] == 2 && kept > 4, "{kept} of {record}: {text}");
                assert!(!text.contains("Dropped"), "{text}");
                // As if it were not there.
                let without = fixtures(&[&file[..at], &file[end..]].concat());
                let names: Vec<String> = without.into_iter().map(|fixture| fixture.name).collect();
                assert_eq!(out(&output).lines().collect::<Vec<_>>(), names, "{kept} of {record}");
            }
        }
    }
}

/// A packet of 0 to 4 bytes, and one of another direction, is a record and is passed over; what follows it is read.
#[test]
fn records_that_are_passed_over() {
    let place = Place::new();
    let acl = [2, 6, 0x20, 4, 0, 0, 0, 0x41, 0];
    let directed = |direction: u32| [&direction.to_be_bytes()[..], &acl].concat();
    // Direction, as it is listed; number of bytes; what it is.
    let packets = [
        (vec![], "other, no direction", "null", "null"),
        (vec![0], "other, no direction", "null", "null"),
        (vec![0, 0], "other, no direction", "null", "null"),
        (vec![0, 0, 1], "other, no direction", "null", "null"),
        (vec![0, 0, 0, 0], "other, tx", r#""tx""#, "0"),
        (vec![0, 0, 0, 1], "other, rx", r#""rx""#, "0"),
        (directed(2), "other, no direction", "null", "null"),
        (directed(3), "other, no direction", "null", "null"),
        (directed(0x100), "other, no direction", "null", "null"),
        (directed(0x101), "other, no direction", "null", "null"),
        (directed(0x8000_0001), "other, no direction", "null", "null"),
        (directed(0x0100_0000), "other, no direction", "null", "null"),
        (directed(u32::MAX), "other, no direction", "null", "null"),
        (vec![0, 0, 0, 0, 3, 6, 0], "other, tx", r#""tx""#, "0"),
        (vec![0, 0, 0, 0, 1, 3, 12, 0], "command, tx", r#""tx""#, "0"),
        (vec![0, 0, 0, 1, 4, 19, 0], "event, rx", r#""rx""#, "0"),
    ];
    for form in FORMS {
        let file = twin(&whole(), form);
        let plain = said(&words(&[&"frames", &place.file("plain", &file)]));
        for (packet, listed, direction, adapter) in &packets {
            let n = packet.len();
            // A time that is none of zeros, so that the shortest is no record of zeros.
            let record = form.record(1_715_679_000_000_000, n as u32, packet);
            let with = [&file[..24], &record, &file[24..]].concat();
            let trace = place.file("trace", &with);
            assert_eq!(said(&words(&[&"frames", &trace])), plain, "{packet:?}");
            let text = out(&words(&[&"records", &trace]));
            let bytes = if n == 1 { "1 byte".into() } else { format!("{n} bytes") };
            let line = format!("{listed} 1, {bytes} at 24, 2024-05-14 09:30:00.000");
            assert_eq!(text.lines().nth(2), Some(&*line));
            assert!(text.starts_with("55 records: pcap, link type 201.\n"));
            let objects = out(&words(&[&"records", &trace, &"--json"]));
            let fields = format!(r#""adapter":{adapter},"direction":{direction},"ms":1715679000000,"length":{n},"#);
            assert!(objects.lines().nth(1).unwrap().contains(&fields), "{objects}");
            assert!(objects.lines().next().unwrap().ends_with(r#""losses":{}}"#), "{objects}");
        }
        // The same bytes with a direction are data.
        let with = [&file[..24], &form.record(0, 13, &directed(1)), &file[24..]].concat();
        let text = out(&words(&[&"records", &place.file("trace", &with)]));
        let line = "ACL data, handle 6, begins a PDU, rx 1, 13 bytes at 24, 1970-01-01 00:00:00.000";
        assert_eq!(text.lines().nth(2), Some(line));
    }
}

/// Seconds and fractions are as large as they can be; a fraction may be over a second. The records and the import tell the same time.
#[test]
fn times() {
    let place = Place::new();
    let packet = [0, 0, 0, 1, 2, 0x40, 0x20, 0x11, 0, 0x0D, 0, 0x41, 0, 0x49, 0xEF, 0x13];
    let packet = [&packet[..], &[0x3E, 1, 0, 0, 0, 0, 0, 1, 0x3C, 0]].concat();
    for form in FORMS {
        for (seconds, fraction) in
            [(0, 0), (0, 999), (0, 999_999), (1, 1_999_999), (1_715_679_000, 999_999_999), (u32::MAX, u32::MAX)]
        {
            let numbers = [seconds, fraction, packet.len() as u32, packet.len() as u32];
            let record = [&numbers.map(|n| number(form, n)).concat(), &packet[..]].concat();
            let file = [form.header(201), record].concat();
            let ms = 1000 * u64::from(seconds) + u64::from(fraction) / if form.nano { 1_000_000 } else { 1000 };
            let records = out(&words(&[&"records", &place.file("trace", &file), &"--json"]));
            assert!(records.lines().nth(1).unwrap().contains(&format!(r#""ms":{ms},"#)), "{form:?}: {records}");
            assert_eq!(import_with(&file, &options()).unwrap().spans[0].ms, ms, "{form:?}");
        }
    }
}

/// What Wireshark saves by default is named, with how to convert it.
#[test]
fn pcapng() {
    let place = Place::new();
    let mut file = vec![0x0A, 0x0D, 0x0D, 0x0A, 0x1C, 0, 0, 0, 0x4D, 0x3C, 0x2B, 0x1A, 1, 0, 0, 0];
    file.extend([0xFF; 8]);
    file.extend([0x1C, 0, 0, 0]);
    let told = [
        "lumbryth: refused (21): this is a pcapng file, which Wireshark saves by default, and only btsnoop and pcap can be read: ",
        "trace\nlumbryth: to save it as pcap: editcap -F pcap TRACE NEW; or in Wireshark, Save As, and choose pcap, not pcapng\n",
    ];
    for n in [4, 15, 23, 24, 28] {
        let trace = place.file("trace", &file[..n]);
        for command in ["frames", "records", "channels"] {
            fails(&words(&[&command, &trace]), 1, &told);
        }
        fails(&words(&[&"import", &trace, &"--out", &place.join("out")]), 1, &told);
        assert!(!place.join("out").exists());
    }
    // One that is too long is told both.
    file.resize(1_048_577, 0);
    let output = words(&[&"frames", &place.file("trace", &file)]);
    fails(&output, 1, &["refused (1): the file is longer than 1048576 bytes: ", "\nlumbryth: record a shorter log; "]);
    fails(&output, 1, &["\nlumbryth: this is a pcapng file; to save it as pcap: editcap -F pcap TRACE NEW; "]);
    // A set is not of such a file.
    let dir = place.join("set");
    assert_eq!(status(&words(&[&"import", &example("headset.pcap"), &"--out", &dir])), 0);
    let output = words(&[&"check", &dir, &place.file("trace", &file[..28])]);
    assert_eq!(status(&output), 1);
    assert!(out(&output).contains("trace: refused (21): this is a pcapng file, "), "{}", out(&output));
}

/// What begins with none of the magic numbers is neither.
#[test]
fn neither() {
    let place = Place::new();
    let file = fs::read(example("headset.pcap")).unwrap();
    let told =
        "refused (3): this is neither a btsnoop file nor a pcap file: its first 16 bytes are not a btsnoop header \
        of version 1, and its first 4 are not those of pcap: ";
    for magic in [[0xA1, 0xB2, 0xCD, 0x34], [0x34, 0xCD, 0xB2, 0xA1], [0xA1, 0xB2, 0xC3, 0xD5], [0x1F, 0x8B, 8, 0]] {
        let mut other = file.clone();
        other[..4].copy_from_slice(&magic);
        let trace = place.file("trace", &other);
        for command in ["frames", "records", "channels"] {
            fails(&words(&[&command, &trace]), 1, &[told]);
        }
    }
}

#[test]
fn other_link_types() {
    let place = Place::new();
    for form in FORMS {
        for n in [0, 1, 147, 187, 202, 254, 0x1_00C9, 0x1000_00C9, 0xC900_0000, u32::MAX] {
            let mut file = twin(&whole(), form);
            file[20..24].copy_from_slice(&number(form, n));
            let told = match n {
                187 => "refused (22): the trace has link type 187, Bluetooth HCI H4 without direction: which way each \
                    packet went is not in the file. Link type 201 is needed, Bluetooth HCI H4 with pseudo-header, which \
                    has it: "
                    .to_string(),
                n => format!(
                    "refused (22): the trace has link type {n}, and 201 is needed: Bluetooth HCI H4 with pseudo-header, \
                     which has the direction of each packet: "
                ),
            };
            // With records, and without.
            for length in [24, file.len()] {
                let trace = place.file("trace", &file[..length]);
                for command in ["frames", "records", "channels"] {
                    let output = words(&[&command, &trace]);
                    fails(&output, 1, &[&told]);
                    let monitor =
                        "\nlumbryth: to save it as btsnoop, which can be read: editcap -F btsnoop TRACE NEW\n";
                    assert_eq!(err(&output).contains(monitor), n == 254, "{}", err(&output));
                }
                fails(&words(&[&"import", &trace, &"--dry-run"]), 1, &[&told]);
            }
        }
    }
}

/// Of a bare header there is nothing to say.
#[test]
fn no_records() {
    let place = Place::new();
    for form in FORMS {
        let bare = place.file("bare", &form.header(201));
        let text = "0 records: pcap, link type 201.\n\
            The file ends after its header, so whether more was recorded cannot be seen.\n";
        assert_eq!(out(&words(&[&"records", &bare])), text);
        let text = "0 handles, 0 channels, 0 DLCIs: pcap, link type 201.\n\
            The file ends after its header, so whether more was recorded cannot be seen.\n\
            Import refuses the trace (6): there is no packet with data.\n";
        assert_eq!(out(&words(&[&"channels", &bare])), text);
        let told = "refused (6): nothing in the trace unpacks as a frame; the file ends after its header";
        fails(&words(&[&"frames", &bare]), 1, &[told]);
    }
}

/// A file of 1,048,576 bytes is read, and one byte more is not.
#[test]
fn a_full_size_trace() {
    let place = Place::new();
    let mut file = twin(&whole(), PLAIN);
    let left = 1_048_576 - file.len();
    for _ in 0..left / 17 - 1 {
        file.extend(PLAIN.record(0, 1, &[9]));
    }
    let last = 1_048_576 - file.len() - 16;
    file.extend(PLAIN.record(0, last as u32, &vec![9; last]));
    assert_eq!(file.len(), 1_048_576);
    let output = words(&[&"import", &place.file("trace", &file), &"--dry-run"]);
    assert_eq!((status(&output), out(&output).lines().count()), (0, 30), "{}", err(&output));
    file.push(0);
    let output = words(&[&"import", &place.file("trace", &file), &"--dry-run", &"--tolerant"]);
    fails(&output, 1, &["refused (1): the file is longer than 1048576 bytes: "]);
}

/// What another program makes of the btsnoop example, and of the pcap example, where it is there.
#[test]
fn by_editcap() {
    if Command::new("editcap").arg("--version").output().is_err() {
        println!("skipped: editcap is not there");
        return;
    }
    let place = Place::new();
    let convert = |from: &Path, format: &str| {
        let to = place.join(format);
        assert!(Command::new("editcap").args(["-F", format]).arg(from).arg(&to).status().unwrap().success());
        to
    };
    let headset = example("headset.btsnoop");
    let names = out(&words(&[&"import", &headset, &"--dry-run"]));
    for format in ["pcap", "nsecpcap"] {
        let trace = convert(&headset, format);
        let output = words(&[&"import", &trace, &"--dry-run"]);
        assert_eq!((status(&output), out(&output)), (0, names.clone()), "{}", err(&output));
        assert!(out(&words(&[&"records", &trace])).starts_with("54 records: pcap, link type 201.\n"));
    }
    assert_eq!(fs::read(place.join("pcap")).unwrap(), fs::read(example("headset.pcap")).unwrap());
    assert_eq!(fs::read(convert(&example("headset.pcap"), "btsnoop")).unwrap(), whole());
    // As it is told of pcapng, and of the Linux monitor's link type.
    let ng = convert(&headset, "pcapng");
    fails(&words(&[&"frames", &ng]), 1, &["refused (21): this is a pcapng file, "]);
    assert_eq!(out(&words(&[&"import", &convert(&ng, "pcap"), &"--dry-run"])), names);
    let monitor = convert(&example("two-adapters.btsnoop"), "pcap");
    fails(&words(&[&"frames", &monitor]), 1, &["refused (22): the trace has link type 254, "]);
    let back = fs::read(convert(&monitor, "btsnoop")).unwrap();
    assert_eq!(back, fs::read(example("two-adapters.btsnoop")).unwrap());
}
