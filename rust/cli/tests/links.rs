//! One link's list: what import and frames say of it, its set, what does not go with it, and that it is what the program's own reading
//! finds of that link, whatever else is in the file.

mod common;
#[allow(dead_code)]
mod made;
#[allow(dead_code)]
#[path = "../../../examples/trace/mod.rs"]
mod trace;

use std::ffi::OsStr;
use std::fs;
use std::path::Path;
use std::process::Output;

use common::*;
use look::{look, Kind};
use lumbryth::Direction::{Rx, Tx};
use lumbryth::{
    import_with, one_link, one_link_with, pack, records, unpack, Container, Link, LinkList, Options, Refusal, Span,
};
use trace::pcap::{twin, FORMS, PLAIN};
use trace::{pdu, uih, Trace};

const NONE_OTHER: &str = "Other links are not in this list and do not change it; other DLCIs are not in it.\n";
const AT_RECORD: &str = "The file ends at a record's end, so whether more was recorded cannot be seen.\n";

/// The program: a command, a trace, and words behind them.
fn asked(command: &str, trace: &Path, more: &[&str]) -> Output {
    let more: Vec<&OsStr> = more.iter().map(OsStr::new).collect();
    run(&[&[OsStr::new(command), trace.as_os_str()], &more[..]].concat())
}

#[track_caller]
fn said(command: &str, trace: &Path, more: &[&str]) -> String {
    let output = asked(command, trace, more);
    assert_eq!((status(&output), err(&output)), (0, String::new()));
    out(&output)
}

/// A trace of datalink 2001 with pieces of information, one to a record, all received: adapter, handle, DLCI, information.
fn monitored(pieces: &[(u16, u16, u8, &[u8])]) -> Vec<u8> {
    let mut trace = Trace::new(2001);
    for (n, (adapter, handle, dlci, information)) in (0..).zip(pieces) {
        trace.adapter = *adapter;
        let pdu = pdu(0x41, &uih(*dlci, false, None, information));
        trace.fragment(Rx, 1_715_679_000_000_000 + 1000 * n, *handle, true, &pdu);
    }
    trace.file
}

fn wire(seq: u8) -> Vec<u8> {
    pack(0x0C, seq, &[0x22, seq]).unwrap()
}

/// Every name of `frames` in a list: command, direction, counter.
fn names(frames: &str) -> Vec<&str> {
    frames.lines().filter(|line| line.contains(", seq ")).map(|line| line.split(',').next().unwrap()).collect()
}

#[test]
fn two_listeners_in_words() {
    let place = Place::new();
    let trace = example("two-adapters.btsnoop");
    let losses = "What follows of losses is of the whole file, and may be of another link.\n\
        Open at the end: 1 message, begun at byte 752 on adapter 0. Its rest is not in the file.\n";
    let told = [
        (
            "0:6",
            format!(
                "4 frames, all of which unpack: adapter 0, handle 6, DLCI 18.\n{NONE_OTHER}\
                Unfinished on adapter 0, handle 6, DLCI 18: nothing is held without an end marker.\n{AT_RECORD}{losses}"
            ),
            vec!["POWER_GET_STATUS tx 1", "NO_COMMAND rx 2", "POWER_RET_STATUS rx 3", "NO_COMMAND tx 4"],
        ),
        (
            "1:6",
            format!(
                "6 frames, all of which unpack: adapter 1, handle 6, DLCI 18.\n{NONE_OTHER}\
                Unfinished on adapter 1, handle 6, DLCI 18: 1 frame is begun and has no end marker.\n{AT_RECORD}{losses}"
            ),
            vec![
                "NCASM_GET_PARAM tx 1",
                "NO_COMMAND rx 2",
                "NCASM_RET_PARAM rx 3",
                "NO_COMMAND tx 4",
                "POWER_GET_STATUS tx 5",
                "NO_COMMAND rx 6",
            ],
        ),
    ];
    for (link, found, listed) in told {
        let more = ["--link", link, "--dlci", "18"];
        let frames = said("frames", &trace, &more);
        assert!(frames.starts_with(&found), "{frames}");
        assert_eq!(names(&frames), listed);
        let dir = place.join(link);
        let output = asked("import", &trace, &[&more[..], &["--out", dir.to_str().unwrap()]].concat());
        let written = format!("{found}{} fixtures written: {}\n", listed.len(), dir.display());
        assert_eq!((out(&output), err(&output)), (written, String::new()));
        // Without --out the same is said beside the names.
        let output = asked("import", &trace, &[&more[..], &["--dry-run"]].concat());
        assert_eq!((out(&output).lines().count(), err(&output)), (listed.len(), found));
    }
}

#[test]
fn two_listeners_in_objects() {
    let trace = example("two-adapters.btsnoop");
    let text = said("frames", &trace, &["--json", "--link=1:6", "--dlci=18"]);
    let lines: Vec<&str> = text.lines().collect();
    let first = r#"{"kind":"link","link":"1:6","adapter":1,"handle":6,"dlci":18,"frames":6,"unfinished":1,"adapters":2,"end":"record","losses":{"open":{"count":1,"first":752,"adapter":0}}}"#;
    assert_eq!((lines[0], lines.len()), (first, 7));
    for (n, line) in (1..).zip(&lines[1..]) {
        assert!(line.starts_with(&format!(r#"{{"kind":"frame","counter":{n},"#)), "{line}");
    }
    let text = said("frames", &trace, &["--json", "--link=2:6", "--dlci=18"]);
    let first =
        r#"{"kind":"link","link":"2:6","adapter":2,"handle":6,"dlci":18,"frames":0,"unfinished":0,"adapters":2,"#;
    assert!(text.starts_with(first) && text.lines().count() == 1, "{text}");
}

/// Where a trace has one link, its list has the frames of the import, in either container.
#[test]
fn a_trace_of_one_link() {
    let place = Place::new();
    let both = ["--link", "0:6", "--dlci", "18"];
    let listed = |name: &str, more: &[&str]| {
        let frames = said("frames", &example(name), more);
        frames.lines().filter(|line| line.contains(", 2024-")).map(String::from).collect::<Vec<_>>()
    };
    let sets = ["headset.btsnoop", "headset.pcap"].map(|name| {
        assert_eq!((listed(name, &both).len(), listed(name, &both)), (31, listed(name, &[])));
        let first = "31 frames, 1 of which does not unpack: adapter 0, handle 6, DLCI 18.\n";
        assert!(said("frames", &example(name), &both).starts_with(first));
        assert!(!said("frames", &example(name), &[]).contains("--link"));
        let dir = place.join(name);
        let output = asked("import", &example(name), &[&both[..], &["--out", dir.to_str().unwrap()]].concat());
        assert!(out(&output).ends_with(&format!("\n30 fixtures written: {}\n", dir.display())), "{}", out(&output));
        let not = "\n# not a fixture: 000017 refusal 17, the frame's checksum is 70 where its bytes give B0\n";
        assert!(facts(&dir).contains(not), "{}", facts(&dir));
        holds(&dir, &fixtures(&fs::read(example("headset.btsnoop")).unwrap()));
        listing(&dir)
    });
    assert_eq!(sets[0], sets[1]);
}

/// The facts of a set.
fn facts(dir: &Path) -> String {
    fs::read_to_string(dir.join(LIST)).unwrap()
}

/// A set says that it is of one link, and is checked as it was made.
#[test]
fn sets_of_one_link() {
    let place = Place::new();
    let trace = example("two-adapters.btsnoop");
    let import = |name: &str, more: &[&str]| {
        let dir = place.join(name);
        (asked("import", &trace, &[more, &["--out", dir.to_str().unwrap()]].concat()), dir)
    };
    let (output, left) = import("left", &["--link", "0:6", "--dlci", "18"]);
    assert_eq!(status(&output), 0, "{}", err(&output));
    let text = facts(&left);
    for fact in ["one link: 0:6", "dlci: 18", "frames: 4", "fixtures: 4", "tail rule: strict", "fcs: not checked"] {
        assert!(text.contains(&format!("\n# {fact}\n")), "{fact} is not in {text}");
    }
    for fact in ["channel", "bytes", "tail offset", "wrong fcs"] {
        assert!(!text.contains(&format!("\n# {fact}: ")), "{fact} is in {text}");
    }
    let spans = one_link(&fs::read(&trace).unwrap(), Link { adapter: 0, handle: 6 }, 18).unwrap().spans;
    holds(&left, &lumbryth::plan(&spans, &[] as &[&str]).unwrap());
    let told =
        "4 frames of one link in the trace, adapter 0, handle 6, DLCI 18, end at a record's end, more may have been \
        recorded: two-adapters.btsnoop\n\
        Losses: open at the end, 1 message, begun at byte 752 on adapter 0.\n4 fixtures, all as ";
    for more in [&[][..], &[&trace]] {
        let output =
            run(&[&[Path::new("check"), &left], &more.iter().map(|p| p.as_path()).collect::<Vec<_>>()[..]].concat());
        assert_eq!((status(&output), err(&output)), (0, String::new()));
        assert!(out(&output).starts_with(told), "{}", out(&output));
    }
    let objects = out(&words(&[&"check", &left, &trace, &"--json"]));
    let link = r#"{"kind":"link","link":"0:6","adapter":0,"handle":6,"dlci":18}"#;
    assert_eq!(objects.lines().filter(|line| *line == link).count(), 1, "{objects}");
    let bytes = r#"{"kind":"bytes","taken_in":null,"in_spans":null,"dropped":null,"cleared":null,"left":null}"#;
    assert_eq!(objects.lines().filter(|line| *line == bytes).count(), 1, "{objects}");
    // It is not mixed with a set of another link or DLCI, or of all links, and what is there stays.
    let taken = |output: &Output, links: &str, dir: &Path| {
        let told = format!(
            "lumbryth: nothing was written: give another directory to --out, for this one has a set of this trace of \
            {links}: {}\n",
            dir.display()
        );
        assert_eq!((status(output), out(output), err(output)), (1, String::new(), told));
    };
    for more in [&["--link", "1:6", "--dlci", "18"][..], &["--link", "0:6", "--dlci", "19"], &[], &["--channel", "9"]] {
        taken(&import("left", more).0, "adapter 0, handle 6, DLCI 18", &left);
        assert_eq!(facts(&left), text);
    }
    // With another choice of the same link it is said in what.
    let (output, _) = import("left", &["--link", "0:6", "--dlci", "18", "--exclude", "NO_COMMAND"]);
    let otherwise =
        "nothing was written: the directory has a set of this trace that was asked for otherwise, with exclude none: ";
    fails(&output, 1, &[otherwise]);
    let (output, all) = import("all", &[]);
    assert_eq!(status(&output), 0);
    taken(&import("all", &["--link", "0:6", "--dlci", "18"]).0, "all links", &all);
    let objects = out(&words(&[&"check", &all, &trace, &"--json"]));
    assert!(!objects.contains(r#""kind":"link""#), "{objects}");
    // The same once more is there already.
    let (output, _) = import("left", &["--dlci", "18", "--link", "0:6"]);
    assert!(
        out(&output).contains("\n0 fixtures written, 4 were there already with the same bytes: "),
        "{}",
        out(&output)
    );
    // A list is checked by the link that it says. One that says more than goes with a link cannot be imported again.
    let changed = |from: &str, to: &str| {
        relist(&place, &left, &text.replace(from, to));
        let output = words(&[&"check", &left, &trace]);
        relist(&place, &left, &text);
        assert_eq!(status(&output), 1);
        out(&output)
    };
    let other = changed("# one link: 0:6", "# one link: 1:6");
    assert!(other.contains("\ntrace: only the list has frames: 4\n"), "{other}");
    for (from, to) in [
        ("# one link: 0:6", "# one link: 0:4096"),
        ("# one link: 0:6", "# one link: adapter 0, handle 6"),
        ("# dlci: 18", "# dlci: 64"),
        ("# tail rule: strict", "# tail rule: tolerant"),
        ("# fcs: not checked", "# fcs: checked"),
        ("# dlci: 18", "# channel: 9\n# dlci: 18"),
    ] {
        let told = "\nlist: it does not say how the set was asked for\n";
        assert!(changed(from, to).contains(told), "{to}: {}", changed(from, to));
    }
    // Of which links such a set is cannot be said.
    relist(&place, &left, &text.replace("# one link: 0:6", "# one link: 0:4096"));
    for more in [&["--link", "0:6", "--dlci", "18"][..], &[]] {
        let told = "nothing was written: the directory has a set of this trace whose list says something else: ";
        fails(&import("left", more).0, 1, &[told]);
    }
}

/// A list may be empty, or have nothing that unpacks. It is said what that means, and the set has no fixture.
#[test]
fn no_frame_is_no_refusal() {
    let place = Place::new();
    let broken = [&wire(1)[..5], &[0x3C]].concat();
    let file = monitored(&[
        (0, 6, 18, &wire(1)),
        (0, 6, 40, &broken),
        (0, 6, 40, &broken),
        (0, 6, 50, b"AT\r"),
        (0, 7, 60, &wire(1)[..3]),
    ]);
    let trace = place.file("trace", &file);
    let may = |what| {
        format!(
        "The list of one link may {what}, and is not refused for that; lumbryth channels shows which links and DLCIs have frames.\n"
    )
    };
    let none = |link: &str| format!("The trace has no whole packet with data of {link}.\n");
    let (empty, broken) = (may("be empty"), may("have no frame that unpacks"));
    let cases = [
        (
            "1:6",
            "18",
            "No frame: adapter 1, handle 6, DLCI 18.\n",
            none("adapter 1, handle 6") + &empty,
            "nothing is held",
        ),
        (
            "0:4095",
            "1",
            "No frame: adapter 0, handle 4095, DLCI 1.\n",
            none("adapter 0, handle 4095") + &empty,
            "nothing is held",
        ),
        (
            "65535:0",
            "63",
            "No frame: adapter 65535, handle 0, DLCI 63.\n",
            none("adapter 65535, handle 0") + &empty,
            "nothing is held",
        ),
        ("0:6", "19", "No frame: adapter 0, handle 6, DLCI 19.\n", empty.clone(), "nothing is held"),
        ("0:6", "50", "No frame: adapter 0, handle 6, DLCI 50.\n", empty.clone(), "nothing is held"),
        ("0:7", "60", "No frame: adapter 0, handle 7, DLCI 60.\n", empty.clone(), "1 frame is begun and has no"),
        ("0:6", "40", "2 frames, 2 of which do not unpack: adapter 0, handle 6, DLCI 40.\n", broken, "nothing is held"),
    ];
    for (link, dlci, first, why, held) in cases {
        let more = ["--link", link, "--dlci", dlci];
        let told = format!(
            "{first}{NONE_OTHER}{why}Unfinished on {}: {held}",
            &first[first.find("adapter").unwrap()..first.len() - 2]
        );
        let frames = said("frames", &trace, &more);
        assert!(frames.starts_with(&told), "{frames}");
        assert_eq!(frames.matches("does not unpack rx ").count(), if dlci == "40" { 2 } else { 0 });
        let output = asked("import", &trace, &[&more[..], &["--dry-run"]].concat());
        assert_eq!((status(&output), out(&output)), (0, String::new()));
        assert!(err(&output).starts_with(&told), "{}", err(&output));
        let dir = place.join(format!("{link} {dlci}"));
        let set = [&more[..], &["--out", dir.to_str().unwrap()]].concat();
        // Written, and once more.
        for _ in 0..2 {
            let output = asked("import", &trace, &set);
            assert_eq!((status(&output), err(&output)), (0, String::new()));
            let end = format!(
                "\n0 fixtures written, for the set has none, only its list, fixtures.sha256: {}\n",
                dir.display()
            );
            assert!(out(&output).starts_with(&told) && out(&output).ends_with(&end), "{}", out(&output));
            assert_eq!(listing(&dir), [LIST]);
        }
        assert!(facts(&dir).contains(&format!("\n# one link: {link}\n")));
        let output = words(&[&"check", &dir, &trace]);
        assert_eq!((status(&output), err(&output)), (0, String::new()));
        assert!(out(&output)
            .ends_with(&format!("0 fixtures, all as the list and the trace have them: {}\n", dir.display())));
    }
    // Not even a record is needed.
    let bare = place.file("bare", &file[..16]);
    assert!(said("frames", &bare, &["--link", "0:6", "--dlci", "18"]).starts_with("No frame: "));
    // One that is left out is another matter.
    let output =
        asked("import", &trace, &["--link", "0:6", "--dlci", "18", "--dry-run", "--exclude", "POWER_GET_STATUS"]);
    assert!(
        err(&output).starts_with("1 frame, which unpacks: ")
            && err(&output).ends_with("1 frame left out by --exclude.\n")
    );
}

/// What is refused of a trace, in import's words, but for what helps.
#[test]
fn refused_traces() {
    let place = Place::new();
    let whole = fs::read(example("headset.btsnoop")).unwrap();
    let mut datalink = whole.clone();
    datalink[15] = 0xEB;
    let pcap = twin(&whole, PLAIN);
    let cases: [(&str, Vec<u8>, &str); 7] = [
        ("long", vec![0; 1_048_577], "refused (1): "),
        ("empty", Vec::new(), "refused (3): the file is empty: "),
        ("datalink", datalink, "refused (4): "),
        ("cut", whole[..whole.len() - 1].to_vec(), "refused (5): the file ends inside the record that starts at "),
        ("short", pcap[..23].to_vec(), "refused (21): the file has only 23 bytes, "),
        ("link type", [&pcap[..20], &[187], &pcap[21..]].concat(), "refused (22): the trace has link type 187, "),
        ("cut pcap", pcap[..pcap.len() - 1].to_vec(), "refused (5): the file ends inside the record that starts at "),
    ];
    for (name, file, told) in cases {
        let trace = place.file(name, &file);
        // Where nothing is of the link, too.
        for link in ["0:6", "9:9"] {
            for command in ["frames", "import"] {
                let more = ["--link", link, "--dlci", "18", "--dry-run"];
                let output = asked(command, &trace, if command == "frames" { &more[..4] } else { &more });
                fails(&output, 1, &[told]);
                let helps =
                    "\nlumbryth: --link reads whole files only; without it, lumbryth frames and lumbryth import \
                    --tolerant read up to there\n";
                assert_eq!(err(&output).contains(helps), name.starts_with("cut"), "{}", err(&output));
                assert!(!err(&output).contains("--tolerant keeps"), "{}", err(&output));
            }
        }
    }
}

/// What is wrong on the command line, before any file is looked at.
#[test]
fn wrong_words() {
    let none = Path::new("no such trace");
    let wrong = |more: &[&str], told: &str| {
        for command in ["frames", "import"] {
            let dry: &[&str] = if command == "import" { &["--dry-run"] } else { &[] };
            let output = asked(command, none, &[more, dry].concat());
            fails(&output, 2, &[told, &format!("; see lumbryth {command} --help\n")]);
        }
    };
    for link in ["", "6", ":", "0:", ":6", "0:6:18", "-1:6", "+0:6", "0x0:6", "0: 6", "0:4096", "65536:6", "a:b", "0;6"]
    {
        let told = format!(
            "--link takes an adapter's index, 0 to 65535, a colon and a handle, 0 to 4095, such as 0:6, not '{link}'"
        );
        wrong(&["--link", link, "--dlci", "18"], &told);
    }
    for dlci in ["", "0", "64", "256", "-1", "+18", "0x12", "18.0", "eighteen"] {
        wrong(&["--link", "0:6", "--dlci", dlci], &format!("--dlci takes a number from 1 to 63, not '{dlci}'"));
    }
    wrong(&["--link", "0:6"], "--link needs --dlci beside it, the DLCI to take");
    wrong(&["--dlci", "18"], "--dlci needs --link beside it, the link to take");
    let both = ["--link", "0:6", "--dlci", "18"];
    for (more, told) in [
        (&["--link", "0:6"][..], "--link is given more than once"),
        (&["--dlci", "18"], "--dlci is given more than once"),
        (&["--channel", "9"], "--channel does not go with --link, which takes one DLCI, by --dlci; a channel has two"),
        (&["--tolerant"], "--tolerant does not go with --link, which reads by the strict rule: it refuses a file that ends inside a record"),
        (&["--check-fcs"], "--check-fcs does not go with --link, which does not check the FCS"),
    ] {
        wrong(&[more, &both].concat(), told);
    }
    // Other commands have no such option.
    for command in ["sizes", "channels", "records"] {
        fails(&asked(command, none, &both), 2, &[&format!("{command} has no option '--link'")]);
    }
    // The limits themselves are taken.
    for (link, dlci) in [("0:0", "1"), ("65535:4095", "63"), ("00:06", "018")] {
        let output = asked("frames", &example("headset.btsnoop"), &["--link", link, "--dlci", dlci]);
        assert_eq!(status(&output), 0, "{}", err(&output));
    }
}

/// Where the frames of an import are of several links, it says so, with what to give for one alone.
#[test]
fn import_points_to_links() {
    let place = Place::new();
    let line = |text: String| text.lines().find(|line| line.contains("--link")).map(String::from);
    let wire = wire(1);
    let of = |links: &[(u16, u16)]| {
        let pieces: Vec<_> = links.iter().map(|(index, handle)| (*index, *handle, 18, &wire[..])).collect();
        monitored(&pieces)
    };
    let told = |file: &[u8], more: &[&str]| {
        let trace = place.file("trace", file);
        let frames = line(said("frames", &trace, more));
        let import = asked("import", &trace, &[more, &["--dry-run", "--tolerant"]].concat());
        assert_eq!(line(err(&import)), frames);
        frames
    };
    assert_eq!(told(&of(&[(0, 6), (0, 6)]), &[]), None);
    let two = "The frames are of 2 links. For one alone: --link 0:7 --dlci 18, or --link 0:6 --dlci 18.";
    assert_eq!(told(&of(&[(0, 7), (0, 6), (0, 7)]), &[]).as_deref(), Some(two));
    let three = "The frames are of 3 links. For one alone: --link 3:6 --dlci 18, or one of 2 more that lumbryth channels shows.";
    assert_eq!(told(&of(&[(3, 6), (0, 6), (65535, 4095)]), &[]).as_deref(), Some(three));
    // A link without a span has no frame in the list; nor has one with frames on another DLCI.
    let mut file = of(&[(0, 6)]);
    file.extend(&monitored(&[(1, 6, 18, b"AT\r"), (2, 6, 18, &wire[..4]), (3, 6, 20, &wire)])[16..]);
    assert_eq!(told(&file, &[]), None);
    // A frame with a wrong FCS is passed over by --check-fcs, and not by --link.
    let mut file = of(&[(0, 6), (1, 6), (2, 6)]);
    *file.last_mut().unwrap() ^= 1;
    let checked = "The frames are of 2 links. For one alone, with the FCS not checked: --link 0:6 --dlci 18, or --link 1:6 --dlci 18.";
    assert_eq!(told(&file, &["--check-fcs"]).as_deref(), Some(checked));
    // Of a file that is cut, --link takes nothing; channels says so too.
    let file = of(&[(0, 6), (1, 6), (2, 6)]);
    let cut = "The frames are of 2 links. --link takes one alone, but not of a file that ends inside a record.";
    assert_eq!(told(&file[..file.len() - 1], &[]).as_deref(), Some(cut));
    let channels = said("channels", &place.join("trace"), &[]);
    assert_eq!(channels.lines().last(), Some("Import --link refuses the trace (5), for it reads whole files only."));
    assert_eq!(channels.matches("--link").count(), 1, "{channels}");
    // Objects name them all.
    let objects = said("frames", &place.file("trace", &of(&[(3, 6), (0, 6), (3, 6), (65535, 4095)])), &["--json"]);
    assert!(objects.lines().next().unwrap().contains(r#""links":["3:6","0:6","65535:4095"],"#), "{objects}");
}

/// What is told of losses and hints beside one link's list.
#[test]
fn losses_and_hints() {
    let place = Place::new();
    let sentence = "What follows of losses is of the whole file, and may be of another link.\n";
    // Without losses, and without another link, there is nothing to say.
    let both = ["--link", "0:6", "--dlci", "18"];
    assert!(!said("frames", &example("headset.btsnoop"), &both).contains("losses"));
    let headset = fs::read(example("headset.btsnoop")).unwrap();
    let lost = |handle| {
        let mut trace = Trace::new(1002);
        trace.file = headset.clone();
        trace.fragment(Rx, 1_715_679_001_000_000, handle, false, &[0]);
        said("frames", &place.file("trace", &trace.file), &both)
    };
    assert!(lost(6).contains("\nWithout a beginning: 1 packet, ") && !lost(6).contains(sentence), "{}", lost(6));
    assert!(lost(7).contains(&format!("\n{sentence}Without a beginning: 1 packet, ")), "{}", lost(7));
    // The hints are of the link's own frames. Here a question of one headset comes between those of the other, which are answered.
    let mut trace = Trace::new(2001);
    let send = |trace: &mut Trace, index, direction, wire: Vec<u8>| {
        trace.adapter = index;
        trace.fragment(direction, 0, 6, true, &pdu(0x41, &uih(18, false, None, &wire)));
    };
    for _ in 0..2 {
        send(&mut trace, 0, Tx, pack(0x0C, 0, &[0x22, 0]).unwrap());
        send(&mut trace, 1, Tx, pack(0x0C, 1, &[0x66, 0]).unwrap());
        send(&mut trace, 0, Rx, pack(0x01, 1, &[]).unwrap());
        send(&mut trace, 0, Rx, pack(0x0C, 0, &[0x23, 0]).unwrap());
        send(&mut trace, 0, Tx, pack(0x01, 1, &[]).unwrap());
    }
    let trace = place.file("trace", &trace.file);
    let hints = |more: &[&str]| said("frames", &trace, more).matches("\nHint: ").count();
    assert_eq!(hints(&both), 0, "{}", said("frames", &trace, &both));
    assert!(hints(&[]) > 0 && hints(&["--link", "1:6", "--dlci", "18"]) > 0);
    let one = said("frames", &trace, &["--link", "1:6", "--dlci", "18"]);
    assert!(!one.contains("Hints go by the one list"), "{one}");
}

/// The link of a record, if it has a packet.
fn link_of(trace: look::Trace, start: usize) -> Option<Link> {
    let record = trace.record(start);
    match (record.adapter, record.direction, record.kind) {
        (Some(adapter), Some(_), Kind::Data(&[low, high, ..])) => {
            Some(Link { adapter, handle: u16::from_le_bytes([low, high & 0x0F]) })
        }
        _ => None,
    }
}

/// A file without the record that passes its end, if there is one.
fn whole(file: &[u8]) -> &[u8] {
    &file[..look::Trace::of(file).records().unwrap().tail]
}

/// The records of a file, as `change` gives them: by their link and bytes, or not at all.
fn with_records(file: &[u8], mut change: impl FnMut(Option<Link>, &[u8]) -> Option<Vec<u8>>) -> Vec<u8> {
    let trace = look::Trace::of(file);
    let starts = trace.records().unwrap().starts;
    let ends = starts.iter().skip(1).copied().chain([file.len()]);
    let mut new = file[..trace.container.header()].to_vec();
    for (start, end) in starts.iter().zip(ends) {
        new.extend(change(link_of(trace, *start), &file[*start..end]).unwrap_or_default());
    }
    new
}

fn list(file: &[u8], link: Link, dlci: u8) -> Result<LinkList, Refusal> {
    one_link_with(file, link, dlci, &look::Trace::of(file).options())
}

/// Whether the spans come in a list in this order, with others between them.
fn comes_in(spans: &[Span], all: &[Span]) -> bool {
    let mut rest = all.iter();
    spans.iter().all(|span| rest.any(|other| other == span))
}

/// How often each was looked at.
#[derive(Debug, Default)]
struct Tally {
    lists: usize,
    spans: usize,
    /// Spans that do not unpack.
    broken: usize,
    unfinished: usize,
    /// Lists of a DLCI on which others have spans too, and of a DLCI whose channel has another.
    beside: usize,
    paired: usize,
    /// Lists of a link whose handle another adapter has too.
    shared: usize,
    merged: usize,
}

/// The lists of a file's links are what the program's own reading finds of them, and import's list is made of them.
#[track_caller]
fn agree(file: &[u8], tally: &mut Tally) {
    let trace = look::Trace::of(file);
    let seen = look(trace, false).unwrap();
    for dlci in &seen.dlcis {
        for (link, share) in &dlci.links {
            let found = list(file, *link, dlci.dlci).unwrap();
            let unpack = found.spans.iter().filter(|span| unpack(&span.wire).is_ok()).count();
            let bytes: usize = found.spans.iter().map(|span| span.wire.len()).sum();
            let here = (found.spans.len(), unpack, found.unfinished, bytes);
            assert_eq!(here, (share.spans, share.frames, share.unfinished, share.bytes.in_spans), "{link}");
            tally.lists += 1;
            tally.spans += here.0;
            tally.broken += here.0 - here.1;
            tally.unfinished += here.2;
            tally.beside += usize::from(here.0 > 0 && dlci.all.spans > here.0);
            tally.paired += usize::from(seen.dlcis.iter().any(|other| other.dlci == dlci.dlci ^ 1));
            let same = |handle: &look::Handle| handle.link.handle == link.handle && handle.link.adapter != link.adapter;
            tally.shared += usize::from(here.0 > 0 && seen.handles.iter().any(same));
        }
        // A link without pieces there has none.
        let none = list(file, Link { adapter: 9, handle: 9 }, dlci.dlci).unwrap();
        assert_eq!((none.spans.len(), none.unfinished), (0, 0));
        for handle in seen.handles.iter().filter(|handle| dlci.links.iter().all(|(link, _)| *link != handle.link)) {
            let none = list(file, handle.link, dlci.dlci).unwrap();
            assert_eq!((none.spans.len(), none.unfinished), (0, 0));
        }
    }
    let Ok(imported) = import_with(file, &trace.options()) else { return };
    let lists: Vec<LinkList> =
        seen.handles.iter().map(|handle| list(file, handle.link, imported.dlci).unwrap()).collect();
    assert_eq!(lists.iter().map(|list| list.unfinished).sum::<usize>(), imported.unfinished);
    assert_eq!(lists.iter().map(|list| list.spans.len()).sum::<usize>(), imported.frames);
    assert!(lists.iter().all(|list| comes_in(&list.spans, &imported.spans)));
    let sorted = |mut spans: Vec<Span>| {
        spans.sort_by(|a, b| (a.direction, a.ms, &a.wire).cmp(&(b.direction, b.ms, &b.wire)));
        spans
    };
    let all = lists.iter().flat_map(|list| list.spans.clone()).collect();
    assert_eq!(sorted(all), sorted(imported.spans));
    tally.merged += usize::from(lists.iter().filter(|list| !list.spans.is_empty()).count() > 1);
}

#[test]
fn lists_agree() {
    let (mut rng, mut tally) = (made::Rng(7), Tally::default());
    for n in 0..3_000 {
        let made = made::trace(&mut rng);
        agree(whole(&made), &mut tally);
        agree(&twin(&made, FORMS[n % 4]), &mut tally);
    }
    let Tally { lists, spans, broken, unfinished, beside, paired, shared, merged } = tally;
    let counts = [lists, spans, broken, unfinished, beside, paired, shared, merged];
    assert!(counts.iter().all(|count| *count >= 300), "{counts:?}");
}

/// What is given depends on the packets of the link alone: without the others, with the others changed, and in another container.
#[test]
fn nothing_else_counts() {
    let mut rng = made::Rng(8);
    let (mut with_others, mut mixed, mut chosen) = (0, 0, 0);
    for n in 0..4_000 {
        let made = [made::trace(&mut rng), made::trace(&mut rng)];
        let [file, other] = [whole(&made[0]), whole(&made[1])];
        let seen = look(look::Trace::of(file), false).unwrap();
        for handle in &seen.handles {
            let link = handle.link;
            let own = with_records(file, |of, bytes| (of == Some(link)).then(|| bytes.to_vec()));
            // The others' data is damaged, behind the handle and the length; or their records are those of another trace.
            let data = if file[12..16] == 1002_u32.to_be_bytes() { 29 } else { 28 };
            let damaged = with_records(file, |of, bytes| match of {
                Some(of) if of != link && bytes.len() > data => {
                    Some([&bytes[..data], &rng.damaged(&bytes[data..])].concat())
                }
                _ => Some(bytes.to_vec()),
            });
            let mut changed = with_records(file, |of, bytes| (of == Some(link)).then(|| bytes.to_vec()));
            if other[12..16] == file[12..16] {
                let of_others = with_records(other, |of, bytes| (of != Some(link)).then(|| bytes.to_vec()));
                changed.splice(16..16, of_others[16..].iter().copied());
                changed.extend(&of_others[16..]);
            }
            let in_pcap = twin(&own, FORMS[n % 4]);
            for dlci in seen.dlcis.iter().map(|dlci| dlci.dlci) {
                let found = list(file, link, dlci).unwrap();
                for same in [&own, &damaged, &changed] {
                    assert_eq!(list(same, link, dlci).as_ref(), Ok(&found), "{link}, DLCI {dlci}");
                }
                assert_eq!(
                    list(&in_pcap, Link { adapter: 0, ..link }, dlci).as_ref(),
                    Ok(&found),
                    "{link}, DLCI {dlci}"
                );
                with_others += usize::from(!found.spans.is_empty() && damaged != own);
                mixed += usize::from(!found.spans.is_empty() && changed != own);
            }
        }
        // Of import's choice that is not so.
        let first = seen.handles.first().map(|handle| handle.link);
        let own = with_records(file, |of, bytes| (of == first).then(|| bytes.to_vec()));
        let dlci = |file: &[u8]| import_with(file, &Options::default()).map(|found| found.dlci).ok();
        chosen += usize::from(dlci(&own).is_some() && dlci(&own) != dlci(file));
    }
    assert!(with_others >= 1_000 && mixed >= 1_000 && chosen >= 50, "{with_others} {mixed} {chosen}");
}

/// Every cut of a trace of two adapters is refused, or lists what is before it.
#[test]
fn cuts() {
    let whole = fs::read(example("two-adapters.btsnoop")).unwrap();
    let (link, ends) = (Link { adapter: 1, handle: 6 }, bounds(&whole));
    let all = one_link(&whole, link, 18).unwrap();
    let mut before = 0;
    for n in 0..=whole.len() {
        match one_link(&whole[..n], link, 18) {
            Ok(list) => {
                assert!(ends.contains(&n) && all.spans.starts_with(&list.spans) && list.spans.len() >= before);
                before = list.spans.len();
            }
            Err(refusal) => {
                let start = ends.iter().rfind(|end| **end <= n).copied();
                let told = start.map_or(Refusal::NotBtsnoop, |offset| Refusal::Truncated { offset });
                assert_eq!((refusal, ends.contains(&n)), (told, false), "{n} bytes");
            }
        }
    }
    assert_eq!((before, records(&whole).unwrap().starts.len()), (6, 18));
    // As pcap it is none.
    let pcap = Options::default().with_container(Container::Pcap);
    assert_eq!(one_link_with(&whole, link, 18, &pcap), Err(Refusal::NotPcap));
}
