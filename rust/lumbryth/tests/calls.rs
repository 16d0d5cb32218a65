//! The calls by document 01's examples: each refusal with its number, values and words, and what is empty, long or full. Then the
//! same of pcap files, imports that check the FCS, sizes, and one link's list.

#[allow(dead_code)]
#[path = "../../../examples/trace/mod.rs"]
mod trace;

use lumbryth::{
    capture_order, cut, cut_with, ending, ending_with, fixture_name, gaps, gaps_with, import, import_stretches,
    import_stretches_with, import_with, is_command_name, one_link, one_link_with, pack, plan, records, records_with,
    sizes, sizes_with, unpack, Container, Direction, Ending, Fixture, Frame, FrameType, Gap, Gaps, Link, LinkList,
    Options, Records, Refusal, Sizes, Span, TailRule,
};
use trace::pcap::{twin, Form, FORMS, PLAIN};
use trace::{control, uih, Trace};

/// Document 01's worked example.
const EXAMPLE: [u8; 62] = [
    0x62, 0x74, 0x73, 0x6E, 0x6F, 0x6F, 0x70, 0x00, 0x00, 0x00, 0x00, 0x01, 0x00, 0x00, 0x03, 0xEA, 0x00, 0x00, 0x00,
    0x16, 0x00, 0x00, 0x00, 0x16, 0x00, 0x00, 0x00, 0x01, 0x00, 0x00, 0x00, 0x00, 0x00, 0xDC, 0xDD, 0xB3, 0x0F, 0x2F,
    0x80, 0x00, 0x02, 0x40, 0x20, 0x11, 0x00, 0x0D, 0x00, 0x41, 0x00, 0x49, 0xEF, 0x13, 0x3E, 0x01, 0x00, 0x00, 0x00,
    0x00, 0x00, 0x01, 0x3C, 0x00,
];

/// A refusal has its number, and its words say the numbers that it carries.
#[track_caller]
fn refused<T: std::fmt::Debug>(answer: Result<T, Refusal>, refusal: Refusal, number: u32, said: &[&str]) {
    assert_eq!(answer.unwrap_err(), refusal);
    assert_eq!(refusal.number(), number);
    for part in said {
        assert!(refusal.to_string().contains(part), "{part} is not in: {refusal}");
    }
}

#[test]
fn frames_refused() {
    refused(unpack(&[]), Refusal::TooShort, 10, &["9 bytes"]);
    refused(unpack(&[0; 9]), Refusal::NoStart, 11, &["3E"]);
    refused(unpack(&[0x3E, 0, 0, 0, 0, 0, 0, 0, 0]), Refusal::NoEnd, 12, &["3C"]);
    refused(unpack(&[0x3E, 0, 0, 0, 0, 0, 0, 0x3D, 0x3C]), Refusal::TrailingSentry, 13, &["3D"]);
    refused(unpack(&[0x3E, 0x3D, 0, 0, 0, 0, 0, 0, 0x3C]), Refusal::BadEscapee(0), 14, &["by 00"]);
    refused(unpack(&[0x3E, 0x3D, 0x2C, 0, 0, 0, 0, 0, 0x3C]), Refusal::BodyTooShort, 15, &["7 bytes"]);
    let refusal = Refusal::LengthMismatch { declared: 1, actual: 0 };
    refused(unpack(&[0x3E, 1, 0, 0, 0, 0, 1, 2, 0x3C]), refusal, 16, &["has 1 bytes", "has 0"]);
    let refusal = Refusal::BadChecksum { declared: 2, computed: 1 };
    refused(unpack(&[0x3E, 1, 0, 0, 0, 0, 0, 2, 0x3C]), refusal, 17, &["is 02", "give 01"]);
    refused(fixture_name(0, 1, Direction::Rx, &[]), Refusal::TooShort, 10, &[]);
    refused(pack(0, 0, &[0; 32_761]), Refusal::PayloadLong, 18, &["32760"]);
}

#[test]
fn frames_there_and_back() {
    for n in [0, 1, 2, 300, 32_759, 32_760] {
        for byte in [0x00, 0x3C, 0x3D, 0x3E] {
            let wire = pack(byte, 0x3E, &vec![byte; n]).unwrap();
            let frame = unpack(&wire).unwrap();
            assert_eq!((frame.kind.byte(), frame.seq, frame.payload), (byte, 0x3E, vec![byte; n]));
        }
    }
}

#[test]
fn traces_refused() {
    use TailRule::{Strict, Tolerant};
    refused(import(&[0; 1_048_577], None, Strict), Refusal::FileLong, 1, &["1048576"]);
    refused(import(&[], None, Strict), Refusal::NotBtsnoop, 3, &["btsnoop"]);
    refused(import(&EXAMPLE[..15], None, Tolerant), Refusal::NotBtsnoop, 3, &[]);
    let mut other = EXAMPLE;
    other[15] = 0xEB;
    refused(import(&other, None, Strict), Refusal::Datalink(1003), 4, &["1003"]);
    refused(import(&EXAMPLE[..17], None, Strict), Refusal::Truncated { offset: 16 }, 5, &["byte 16"]);
    refused(import(&EXAMPLE[..17], None, Tolerant), Refusal::NoStream, 6, &[]);
    refused(import(&EXAMPLE[..16], None, Strict), Refusal::NoStream, 6, &[]);
    refused(import(&EXAMPLE, Some(8), Strict), Refusal::NoStream, 6, &[]);
    assert_eq!(Refusal::WorkShort.number(), 2);
    assert_eq!(Refusal::OutShort { needed: 23 }.number(), 7);
    assert!(Refusal::OutShort { needed: 23 }.to_string().contains("23 bytes"));
}

#[test]
fn the_example() {
    let longer = [&EXAMPLE[..], &[0]].concat();
    for (file, rule) in
        [(&EXAMPLE[..], TailRule::Strict), (&EXAMPLE[..], TailRule::Tolerant), (&longer, TailRule::Tolerant)]
    {
        for channel in [None, Some(9)] {
            let imported = import(file, channel, rule).unwrap();
            let span = Span::new(Direction::Rx, 0, EXAMPLE[52..61].to_vec());
            assert_eq!((imported.dlci, imported.frames, imported.unfinished, imported.tail), (18, 1, 0, 62));
            assert_eq!(imported.spans, [span]);
        }
    }
}

/// Spans of two bytes take eight times their bytes in a list.
#[test]
fn many_short_spans() {
    let information: Vec<u8> = [0x3E, 0x3C].repeat(500).into_iter().chain(pack(1, 0, &[]).unwrap()).collect();
    let n = information.len() as u16;
    let mut file = EXAMPLE[..16].to_vec();
    let acl = [(n + 9).to_le_bytes(), (n + 5).to_le_bytes()].concat();
    let packet =
        [&[2, 0x40, 0x20], &acl[..], &[0x41, 0, 0x49, 0xEF], &(n << 1).to_le_bytes(), &information, &[0]].concat();
    let length = (packet.len() as u32).to_be_bytes();
    file.extend([&length, &length, &EXAMPLE[24..40], &packet].concat());
    let imported = import(&file, None, TailRule::Strict).unwrap();
    assert_eq!((imported.frames, imported.spans.len()), (501, 501));
    assert!(imported.spans[..500].iter().all(|span| span.wire == [0x3E, 0x3C]));
    assert_eq!(plan(&imported.spans, &[] as &[&str]).unwrap().len(), 1);
}

#[test]
fn lists() {
    let none: [&str; 0] = [];
    assert_eq!(plan(&[], &none), Ok(Vec::<Fixture>::new()));
    assert_eq!(capture_order(&none), Ok(Vec::new()));
    assert_eq!(capture_order(&["b", "", "a", "a"]).unwrap(), [&b""[..], b"a", b"a", b"b"]);
    assert_eq!(capture_order(&[[0xFF], [0xFE]]).unwrap(), [[0xFE], [0xFF]]);
    // A list may have 16,777,216 bytes: 14 of them before the wire of a span, 6 before a name.
    let span = |n| Span::new(Direction::Tx, 0, vec![0; n]);
    assert_eq!(plan(&[span(16_777_202)], &none), Ok(Vec::new()));
    refused(plan(&[span(16_777_203)], &none), Refusal::SpansIll { offset: 0 }, 19, &["16777216"]);
    refused(plan(&[], &[vec![0; 16_777_211]]), Refusal::NamesIll { offset: 0 }, 20, &["16777216"]);
    refused(capture_order(&[vec![0; 16_777_211]]), Refusal::NamesIll { offset: 0 }, 20, &[]);
    // The longest name there is.
    let wire = pack(0x0E, 0, &[0x5A]).unwrap();
    let name = fixture_name(u64::MAX, u32::MAX, Direction::Rx, &wire).unwrap();
    assert_eq!(name.len(), 118, "{name}");
}

/// The names of types and commands are those in fixtures' names.
#[test]
fn names_of_frames() {
    for byte in 0..=255 {
        let kind = FrameType::from(byte);
        assert_eq!(kind.byte(), byte);
        for payload in [&[][..], &[0x22], &[0x57, 1, 2], &[0xEE]] {
            let wire = pack(kind, 0, payload).unwrap();
            let frame: Frame = unpack(&wire).unwrap();
            let parts = format!(
                "type-{}-{byte:02x}.seq-00.cmd-{}-{:02x}.bin",
                kind.name(),
                frame.command_name(),
                frame.command().unwrap_or(0)
            );
            let name = fixture_name(5, 1, Direction::Rx, &wire).unwrap();
            assert_eq!(name, format!("mdr-packet-5-000001-rx.{parts}"));
        }
    }
    assert_eq!(FrameType::Other(0x0C).name(), "DATA_MDR");
}

#[test]
fn commands() {
    assert!(is_command_name("GENERAL_SETTING_NTNY_PARAM"));
    assert!(!is_command_name("") && !is_command_name("NO_COMMAND") && !is_command_name([0xFF]));
}

#[test]
fn the_records() {
    let found = |starts: &[usize], tail| Ok((starts.to_vec(), tail));
    let records = |file: &[u8]| records(file).map(|Records { starts, tail, .. }| (starts, tail));
    assert_eq!(records(&EXAMPLE), found(&[16], 62));
    for n in 16..62 {
        assert_eq!(records(&EXAMPLE[..n]), found(&[], 16), "{n} bytes");
    }
    refused(records(&[0; 1_048_577]), Refusal::FileLong, 1, &[]);
    refused(records(&EXAMPLE[..15]), Refusal::NotBtsnoop, 3, &[]);
    let mut other = EXAMPLE;
    other[15] = 0xEB;
    refused(records(&other), Refusal::Datalink(1003), 4, &["1003"]);
    // As many as there can be.
    let full = [&EXAMPLE[..16], &[0; 24 * 43_690][..]].concat();
    assert_eq!(full.len(), 1_048_576);
    let starts: Vec<usize> = (0..43_690).map(|i| 16 + 24 * i).collect();
    assert_eq!(records(&full), found(&starts, 1_048_576));
}

/// The entry with stretches imports the same, and tells what is open: eight bytes of a reply in the cut trace, nothing in the
/// whole.
#[test]
fn stretches_that_are_open() {
    let traces: [(&[u8], usize); 2] = [
        (include_bytes!("../../../examples/headset.btsnoop"), 0),
        (include_bytes!("../../../examples/cut.btsnoop"), 1),
    ];
    for (trace, open) in traces {
        let (imported, stretches) = import_stretches(trace, None, TailRule::Tolerant).unwrap();
        assert_eq!(import(trace, None, TailRule::Tolerant), Ok(imported.clone()));
        assert_eq!((imported.unfinished, stretches.len()), (open, open));
        for stretch in stretches {
            assert_eq!((stretch.adapter, stretch.handle, stretch.direction), (0, 6, Direction::Rx));
            assert_eq!((stretch.cid, stretch.dlci, stretch.sessions, stretch.links), (0x45, 18, 2, 1));
            assert_eq!(stretch.held, 8);
        }
    }
    refused(import_stretches(&[0; 16], None, TailRule::Strict), Refusal::NotBtsnoop, 3, &[]);
}

/// A trace of pieces on DLCI 18 and CID 0x41, one to a record: flags, handle, information.
fn pieces(datalink: u32, pieces: &[(u32, u16, &[u8])]) -> Vec<u8> {
    let mut file = [&EXAMPLE[..12], &datalink.to_be_bytes()].concat();
    for (flags, handle, information) in pieces {
        let n = information.len() as u16;
        let numbers = [0x2000 | handle, n + 8, n + 4, 0x41].map(u16::to_le_bytes).concat();
        let kind: &[u8] = if datalink == 1002 { &[2] } else { &[] };
        let packet = [kind, &numbers, &[0x49, 0xEF, (n << 1 | 1) as u8], information, &[0]].concat();
        let length = (packet.len() as u32).to_be_bytes();
        file.extend([&length, &length, &flags.to_be_bytes(), &EXAMPLE[28..40], &packet].concat());
    }
    file
}

/// A stretch tells its adapter, handle and direction, from the lowest to the highest, in the order of the first bytes.
#[test]
fn stretches_of_adapters() {
    use Direction::{Rx, Tx};
    let whole = &EXAMPLE[52..61];
    let ways = [(0, 0), (0, 4095), (1, 0), (1, 4095), (0x7FFF, 64), (0x8000, 64), (0xFFFF, 0), (0xFFFF, 4095)];
    let mut all = vec![(5, 64, whole)];
    for (n, (adapter, handle)) in ways.into_iter().enumerate() {
        all.push((adapter << 16 | 4, handle, &whole[..1 + n % 8]));
        all.push((adapter << 16 | 5, handle, &whole[..8 - n % 8]));
    }
    let (imported, stretches) = import_stretches(&pieces(2001, &all), None, TailRule::Strict).unwrap();
    assert_eq!((imported.frames, imported.unfinished), (1, 16));
    let told: Vec<_> = stretches.iter().map(|s| (s.adapter, s.handle, s.direction, s.cid, s.dlci, s.held)).collect();
    let expected: Vec<_> = (0..8)
        .zip(ways)
        .flat_map(|(n, (adapter, handle))| {
            [(Tx, 1 + n), (Rx, 8 - n)].map(|(way, held)| (adapter as u16, handle, way, 0x41, 18, held))
        })
        .collect();
    assert_eq!(told, expected);
    assert!(stretches.iter().all(|stretch| (stretch.sessions, stretch.links) == (0, 0)));
}

/// Only datalink 2001 has an adapter: what stands in its place in 1001 and 1002 says nothing, and is one connection.
#[test]
fn adapters_of_each_datalink() {
    let whole = &EXAMPLE[52..61];
    let (begin, end) = whole.split_at(4);
    for (datalink, rx, frames, open) in
        [(1001, 1, 2, vec![(0, 2)]), (1002, 1, 2, vec![(0, 2)]), (2001, 5, 1, vec![(7, 4), (3, 2)])]
    {
        let upper = |adapter: u32| adapter << 16 | rx;
        let parts: [(u32, u16, &[u8]); 4] =
            [(upper(0), 64, whole), (upper(7), 64, begin), (upper(9), 64, end), (upper(3), 64, &whole[..2])];
        let (imported, stretches) = import_stretches(&pieces(datalink, &parts), None, TailRule::Strict).unwrap();
        assert_eq!((imported.frames, imported.spans.len()), (frames, frames), "datalink {datalink}");
        let told: Vec<_> = stretches.iter().map(|stretch| (stretch.adapter, stretch.held)).collect();
        assert_eq!(told, open, "datalink {datalink}");
    }
}

/// Two headsets on one handle of two adapters, with fragments that cross: every frame is whole.
#[test]
fn two_adapters() {
    let trace: &[u8] = include_bytes!("../../../examples/two-adapters.btsnoop");
    let (imported, stretches) = import_stretches(trace, Some(9), TailRule::Strict).unwrap();
    assert_eq!((imported.dlci, imported.frames, imported.unfinished), (18, 10, 1));
    let commands: Vec<_> = imported.spans.iter().map(|span| unpack(&span.wire).unwrap().command()).collect();
    let told = [Some(0x22), Some(0x66), None, None, Some(0x23), Some(0x67), None, None, Some(0x22), None];
    assert_eq!(commands, told);
    let stretch = stretches[0];
    assert_eq!((stretch.adapter, stretch.handle, stretch.direction, stretch.held), (1, 6, Direction::Rx, 8));
    assert_eq!((stretch.sessions, stretch.links), (1, 0));
    // A message on adapter 0 is not complete; nothing else is missing.
    assert_eq!(signs(trace), [(0, 0), (0, 0), (0, 0), (0, 0), (0, 0), (0, 0), (1, 752)]);
}

/// A file of these records, of datalink 1002: original length, flags, drops and packet.
fn recorded(records: &[(u32, u32, u32, &[u8])]) -> Vec<u8> {
    let mut file = EXAMPLE[..16].to_vec();
    for (original, flags, drops, packet) in records {
        for word in [*original, packet.len() as u32, *flags, *drops] {
            file.extend(word.to_be_bytes());
        }
        file.extend(&EXAMPLE[32..40]);
        file.extend(*packet);
    }
    file
}

/// How many there are and where the first is; 0 and 0 if there is none.
fn told(gap: &Gap) -> (u64, usize) {
    assert_eq!(gap.count > 0, gap.first.is_some());
    (gap.count, gap.first.unwrap_or(0))
}

/// The signs of a file, in the order of the fields.
#[track_caller]
fn signs(file: &[u8]) -> [(u64, usize); 7] {
    let found = gaps(file, TailRule::Strict).unwrap();
    assert_eq!(gaps(file, TailRule::Tolerant), Ok(found.clone()));
    let Gaps { short, dropped, skipped, zeros, stray, given_up, open, .. } = found;
    [short, dropped, skipped, zeros, stray, given_up, open].map(|gap| told(&gap))
}

/// Each sign once: the first record, of 33 bytes, has none, so the one that shows it starts at byte 49.
#[test]
fn each_gap_once() {
    // A whole PDU of no payload, the beginning of one, its end, and a packet without its data.
    let whole: &[u8] = &[2, 0x40, 0x20, 4, 0, 0, 0, 0x41, 0];
    let begun: &[u8] = &[2, 0x40, 0x20, 1, 0, 0];
    let ended: &[u8] = &[2, 0x40, 0x10, 3, 0, 0, 0x41, 0];
    let lacking: &[u8] = &[2, 0x40, 0x20, 4, 0, 0, 0];
    let first = (9, 1, 0, whole);
    let none = [(0, 0); 7];
    let only = |sign: usize, count, at| {
        let mut signs = none;
        signs[sign] = (count, at);
        signs
    };
    assert_eq!(signs(&recorded(&[])), none);
    assert_eq!(signs(&recorded(&[first])), none);
    assert_eq!(signs(&recorded(&[first, (6, 1, 0, begun), (8, 1, 0, ended)])), none);
    assert_eq!(signs(&recorded(&[first, (10, 1, 0, whole), (8, 1, 0, whole)])), only(0, 1, 49));
    // The recorder's count rises by 3 and 4, and falls between.
    assert_eq!(signs(&recorded(&[first, (9, 1, 3, whole), (9, 1, 1, whole), (9, 1, 5, whole)])), only(1, 7, 49));
    assert_eq!(signs(&recorded(&[first, (7, 1, 0, lacking)])), only(2, 1, 49));
    assert_eq!(signs(&recorded(&[first, (4, 1, 0, &lacking[..4])])), only(2, 1, 49));
    let zeros = [&recorded(&[first])[..], &[0; 24]].concat();
    assert_eq!(signs(&zeros), only(3, 1, 49));
    assert_eq!(signs(&recorded(&[first, (8, 1, 0, ended)])), only(4, 1, 49));
    // Another starts where one is open; the first record's PDU is whole, so nothing of it is given up.
    let again = [first, (6, 1, 0, begun), (9, 1, 0, whole)];
    assert_eq!(signs(&recorded(&again)), only(5, 1, 49 + 30));
    // Open at the end, by the record that began it; what came the other way is whole.
    let open = [first, (6, 1, 0, begun), (6, 0, 0, begun), (8, 0, 0, ended)];
    assert_eq!(signs(&recorded(&open)), only(6, 1, 49));
    // Commands, events and other types are not ACL data.
    let others = [first, (1, 2, 0, &[2][..]), (2, 3, 0, &[4, 0]), (1, 0, 0, &[3])];
    assert_eq!(signs(&recorded(&others)), none);
}

/// All signs in one file: most come more than once, and the first is told.
#[test]
fn gaps_together() {
    let begun: &[u8] = &[2, 0x40, 0x20, 1, 0, 9];
    let stray: &[u8] = &[2, 0x41, 0x10, 0, 0];
    let records = [(9, 1, 1, stray), (6, 1, 1, begun), (9, 1, 5, begun), (5, 0, 5, stray), (6, 1, 0, begun)];
    let zeros = [0; 48];
    let lacking = recorded(&[(2, 4, 0, &[2, 0])]).split_off(16);
    let file = [recorded(&records), zeros.to_vec(), lacking].concat();
    assert_eq!(signs(&file), [(2, 16), (5, 16), (1, 212), (2, 164), (2, 16), (2, 75), (1, 134)]);
}

#[test]
fn gaps_refused() {
    use TailRule::{Strict, Tolerant};
    for tail in [Strict, Tolerant] {
        refused(gaps(&[0; 1_048_577], tail), Refusal::FileLong, 1, &[]);
        refused(gaps(&[], tail), Refusal::NotBtsnoop, 3, &[]);
        refused(gaps(&EXAMPLE[..15], tail), Refusal::NotBtsnoop, 3, &[]);
        let mut other = EXAMPLE;
        other[15] = 0xEB;
        refused(gaps(&other, tail), Refusal::Datalink(1003), 4, &["1003"]);
        // No stream is no refusal here.
        assert_eq!(gaps(&EXAMPLE[..16], tail), Ok(Gaps::default()));
    }
    for n in 17..62 {
        refused(gaps(&EXAMPLE[..n], Strict), Refusal::Truncated { offset: 16 }, 5, &["byte 16"]);
        assert_eq!(gaps(&EXAMPLE[..n], Tolerant), Ok(Gaps::default()));
    }
    // As many records of zeros as there can be, and a cut one.
    let full = [&EXAMPLE[..16], &[0; 24 * 43_690][..]].concat();
    assert_eq!(gaps(&full, Strict).map(|found| told(&found.zeros)), Ok((43_690, 16)));
    assert_eq!(gaps(&full[..full.len() - 1], Tolerant).map(|found| told(&found.zeros)), Ok((43_689, 16)));
}

/// The shipped traces: nothing is seen to be missing in the whole one, nor before the end of the one that is cut.
#[test]
fn gaps_of_the_examples() {
    let headset: &[u8] = include_bytes!("../../../examples/headset.btsnoop");
    assert_eq!(gaps(headset, TailRule::Strict), Ok(Gaps::default()));
    let cut: &[u8] = include_bytes!("../../../examples/cut.btsnoop");
    assert_eq!(gaps(cut, TailRule::Tolerant), Ok(Gaps::default()));
    assert!(matches!(gaps(cut, TailRule::Strict), Err(Refusal::Truncated { .. })));
}

fn strict() -> Options {
    Options::default().with_container(Container::Pcap)
}

fn tolerant() -> Options {
    strict().with_tail(TailRule::Tolerant)
}

/// A number in a pcap file.
fn number(form: Form, n: u32) -> [u8; 4] {
    if form.big {
        n.to_be_bytes()
    } else {
        n.to_le_bytes()
    }
}

/// Document 01's worked example in pcap: a header, a record of 16 bytes, a direction, and the packet.
#[test]
fn the_example_in_pcap() {
    for form in FORMS {
        let file = twin(&EXAMPLE, form);
        assert_eq!((file.len(), &file[40..44], &file[44..]), (66, &[0, 0, 0, 1][..], &EXAMPLE[40..]));
        let longer = [&file[..], &[0]].concat();
        for (file, options) in [(&file, strict()), (&file, tolerant()), (&longer, tolerant())] {
            for options in [options, options.with_channel(9)] {
                let imported = import_with(file, &options).unwrap();
                let span = Span::new(Direction::Rx, 0, EXAMPLE[52..61].to_vec());
                assert_eq!((imported.dlci, imported.frames, imported.unfinished, imported.tail), (18, 1, 0, 66));
                assert_eq!(imported.spans, [span]);
                assert_eq!(import_stretches_with(file, &options), Ok((imported, Vec::new())));
            }
        }
        refused(import_with(&file, &strict().with_channel(8)), Refusal::NoStream, 6, &[]);
    }
}

/// Each refusal of a pcap file, by each call that takes one.
#[test]
fn pcap_refused() {
    let each = |file: &[u8], options: &Options, refusal: Refusal, number: u32, said: &[&str]| {
        refused(import_with(file, options), refusal, number, said);
        refused(import_stretches_with(file, options), refusal, number, said);
        refused(sizes_with(file, options), refusal, number, said);
        if !matches!(refusal, Refusal::NoStream) {
            refused(gaps_with(file, options), refusal, number, said);
        }
        if !matches!(refusal, Refusal::NoStream | Refusal::Truncated { .. }) {
            refused(records_with(file, options), refusal, number, said);
            refused(ending_with(file, options), refusal, number, said);
        }
    };
    for form in FORMS {
        let file = twin(&EXAMPLE, form);
        for options in [strict(), tolerant()] {
            each(&vec![0; 1_048_577], &options, Refusal::FileLong, 1, &["1048576"]);
            for n in 0..24 {
                each(&file[..n], &options, Refusal::NotPcap, 21, &["pcap"]);
            }
            for magic in [[0xA1, 0xB2, 0xCD, 0x34], [0x0A, 0x0D, 0x0D, 0x0A], [0xA1, 0xB2, 0xC3, 0xA1], [0; 4]] {
                let mut other = file.clone();
                other[..4].copy_from_slice(&magic);
                each(&other, &options, Refusal::NotPcap, 21, &[]);
            }
            // All 4 bytes count, and come as the file has them.
            for n in [0, 187, 202, 0x1_00C9, 0x1000_00C9, 0xC900_0000, u32::MAX] {
                let mut other = file.clone();
                other[20..24].copy_from_slice(&number(form, n));
                each(&other, &options, Refusal::LinkType(n), 22, &[&format!("link type {n},"), "201"]);
            }
            each(&file[..24], &options, Refusal::NoStream, 6, &[]);
        }
        for n in 25..66 {
            each(&file[..n], &strict(), Refusal::Truncated { offset: 24 }, 5, &["byte 24"]);
            each(&file[..n], &tolerant(), Refusal::NoStream, 6, &[]);
        }
        // A captured length that no sum may wrap.
        let mut other = file.clone();
        other[32..36].fill(0xFF);
        each(&other, &strict(), Refusal::Truncated { offset: 24 }, 5, &[]);
    }
}

/// Nothing is guessed: each container's file asked for as the other.
#[test]
fn the_container_is_the_callers() {
    let pcap = twin(&EXAMPLE, PLAIN);
    for tail in [TailRule::Strict, TailRule::Tolerant] {
        refused(import(&pcap, None, tail), Refusal::NotBtsnoop, 3, &[]);
        refused(import_stretches(&pcap, None, tail), Refusal::NotBtsnoop, 3, &[]);
        refused(sizes(&pcap, None, tail), Refusal::NotBtsnoop, 3, &[]);
        refused(gaps(&pcap, tail), Refusal::NotBtsnoop, 3, &[]);
        let options = Options::default().with_tail(tail);
        refused(import_with(&pcap, &options), Refusal::NotBtsnoop, 3, &[]);
        refused(import_with(&EXAMPLE, &options.with_container(Container::Pcap)), Refusal::NotPcap, 21, &[]);
        refused(gaps_with(&EXAMPLE, &options.with_container(Container::Pcap)), Refusal::NotPcap, 21, &[]);
    }
    refused(records(&pcap), Refusal::NotBtsnoop, 3, &[]);
    refused(ending(&pcap), Refusal::NotBtsnoop, 3, &[]);
    refused(records_with(&EXAMPLE, &strict()), Refusal::NotPcap, 21, &[]);
    refused(ending_with(&EXAMPLE, &strict()), Refusal::NotPcap, 21, &[]);
    assert_eq!((Options::default().container, Container::default()), (Container::Btsnoop, Container::Btsnoop));
}

/// By the default options the calls that take them answer as those without.
#[test]
fn btsnoop_with_options() {
    let traces: [&[u8]; 4] = [
        include_bytes!("../../../examples/headset.btsnoop"),
        include_bytes!("../../../examples/cut.btsnoop"),
        include_bytes!("../../../examples/two-adapters.btsnoop"),
        &EXAMPLE,
    ];
    for trace in traces {
        for n in (0..trace.len()).step_by(7).chain([trace.len()]) {
            let file = &trace[..n];
            for tail in [TailRule::Strict, TailRule::Tolerant] {
                let options = Options::default().with_tail(tail);
                assert_eq!(import_with(file, &options), import(file, None, tail));
                assert_eq!(import_stretches_with(file, &options), import_stretches(file, None, tail));
                assert_eq!(
                    import_stretches_with(file, &options.with_channel(9)),
                    import_stretches(file, Some(9), tail)
                );
                assert_eq!(sizes_with(file, &options), sizes(file, None, tail));
                assert_eq!(sizes_with(file, &options.with_channel(9)), sizes(file, Some(9), tail));
                assert_eq!(gaps_with(file, &options), gaps(file, tail));
                assert_eq!(records_with(file, &options), records(file));
                assert_eq!(ending_with(file, &options), ending(file));
                assert_eq!(cut_with(file, 16, &options), cut(file, 16));
            }
        }
    }
}

#[test]
fn the_records_of_pcap() {
    let found = |starts: &[usize], tail| Ok((starts.to_vec(), tail));
    let records = |file: &[u8]| records_with(file, &strict()).map(|Records { starts, tail, .. }| (starts, tail));
    for form in FORMS {
        let file = twin(&EXAMPLE, form);
        assert_eq!(records(&file), found(&[24], 66));
        assert_eq!(records_with(&file, &strict()), records_with(&file, &tolerant().with_channel(3)));
        for n in 24..66 {
            assert_eq!(records(&file[..n]), found(&[], 24), "{n} bytes");
        }
        // Packets of any length, and of 0 bytes, which are the shortest records.
        let lengths = [0, 3, 0, 500, 1, 70_000];
        let mut file = form.header(201);
        let mut starts = Vec::new();
        for length in lengths {
            starts.push(file.len());
            file.extend(form.record(5, 0, &vec![7; length]));
        }
        assert_eq!(records(&file), found(&starts, file.len()));
        assert_eq!(records(&file[..file.len() - 1]), found(&starts[..5], starts[5]));
        // As many as there can be, and 8 bytes that are none.
        let full = [&form.header(201)[..], &[0; 16 * 65_534 + 8]].concat();
        assert_eq!(full.len(), 1_048_576);
        let starts: Vec<usize> = (0..65_534).map(|i| 24 + 16 * i).collect();
        assert_eq!(records(&full), found(&starts, 1_048_568));
        refused(import_with(&full, &tolerant()), Refusal::NoStream, 6, &[]);
        let zeros = gaps_with(&full, &tolerant()).unwrap().zeros;
        assert_eq!((zeros.count, zeros.first), (65_534, Some(24)));
    }
}

/// The same packets give the same answer, but for where the reading stopped.
#[test]
fn the_examples_in_pcap() {
    let [headset, cut_short]: [&[u8]; 2] =
        [include_bytes!("../../../examples/headset.btsnoop"), include_bytes!("../../../examples/cut.btsnoop")];
    assert_eq!(twin(headset, PLAIN), include_bytes!("../../../examples/headset.pcap"));
    let shipped: &[u8] = include_bytes!("../../../examples/cut.pcap");
    for form in FORMS {
        let whole = twin(headset, form);
        let cut_there = if form == PLAIN { shipped.to_vec() } else { whole[..shipped.len()].to_vec() };
        for (file, other, open) in [(whole, headset, 0), (cut_there, cut_short, 1)] {
            let (mut imported, stretches) = import_stretches_with(&file, &tolerant()).unwrap();
            assert_eq!(import_with(&file, &tolerant()), Ok(imported.clone()));
            let (expected, told) = import_stretches(other, None, TailRule::Tolerant).unwrap();
            imported.tail = expected.tail;
            assert_eq!((&imported, &stretches, stretches.len()), (&expected, &told, open));
            assert_eq!(gaps_with(&file, &tolerant()), Ok(Gaps::default()));
        }
    }
    refused(import_with(shipped, &strict()), Refusal::Truncated { offset: 2253 }, 5, &["byte 2253"]);
    let there = cut_with(shipped, 2253, &strict()).unwrap();
    assert_eq!((there.offset, there.present, there.missing), (2253, 26, Some(13)));
    assert_eq!(ending_with(shipped, &strict()), Ok(Ending::Inside(there)));
}

/// Every beginning of a file: at a record's end, or inside a record, with what is missing as far as that can be told.
#[test]
fn how_pcap_ends() {
    let headset: &[u8] = include_bytes!("../../../examples/headset.btsnoop");
    for form in FORMS {
        let file = twin(headset, form);
        let starts = records_with(&file, &strict()).unwrap().starts;
        let ends: Vec<usize> = starts.iter().copied().chain([file.len()]).collect();
        for n in 24..=file.len() {
            let at = ends.iter().rposition(|&end| end <= n).unwrap();
            let ending = ending_with(&file[..n], &strict()).unwrap();
            if ends[at] == n {
                assert_eq!(ending, Ending::AtRecord, "{n} bytes");
                assert_eq!(cut_with(&file[..n], n, &strict()), None);
                continue;
            }
            let Ending::Inside(cut) = ending else { panic!("{n} bytes: {ending:?}") };
            let missing = (n - ends[at] >= 12).then_some((ends[at + 1] - n) as u64);
            assert_eq!((cut.offset, cut.present, cut.missing), (ends[at], n - ends[at], missing), "{n} bytes");
            assert_eq!(cut_with(&file[..n], ends[at], &strict()), Some(cut));
        }
        // A length that no packet has; the longest that one has, with its direction, is a cut.
        for (length, damaged) in [(65_544, false), (65_545, true), (u32::MAX, true)] {
            let mut other = file.clone();
            other[starts[9] + 8..starts[9] + 12].copy_from_slice(&number(form, length));
            let ending = ending_with(&other, &strict()).unwrap();
            assert_eq!(ending == Ending::Length { offset: starts[9], length }, damaged);
            assert_eq!(matches!(ending, Ending::Inside(_)), !damaged);
        }
        // Zeros: of a record with both its lengths; fewer may begin any record.
        for count in 1..70 {
            let other = [&file[..], &vec![0; count]].concat();
            let zeros = Ending::Zeros { offset: file.len(), count };
            assert_eq!(ending_with(&other, &strict()) == Ok(zeros), count >= 16, "{count} zeros");
        }
    }
}

/// The signs of a pcap file, in the order of the fields.
#[track_caller]
fn pcap_signs(file: &[u8]) -> [(u64, usize); 7] {
    let found = gaps_with(file, &strict()).unwrap();
    assert_eq!(gaps_with(file, &tolerant().with_channel(3)), Ok(found.clone()));
    let Gaps { short, dropped, skipped, zeros, stray, given_up, open, .. } = found;
    [short, dropped, skipped, zeros, stray, given_up, open].map(|gap| told(&gap))
}

/// Each sign once, but for what the recorder dropped: the first record, of 29 bytes, has none, so the one that shows it starts at
/// byte 53.
#[test]
fn each_gap_once_in_pcap() {
    let whole: &[u8] = &[0, 0, 0, 1, 2, 0x40, 0x20, 4, 0, 0, 0, 0x41, 0];
    let begun: &[u8] = &[0, 0, 0, 1, 2, 0x40, 0x20, 1, 0, 0];
    let ended: &[u8] = &[0, 0, 0, 1, 2, 0x40, 0x10, 3, 0, 0, 0x41, 0];
    let sent: &[u8] = &[0, 0, 0, 0, 2, 0x40, 0x20, 1, 0, 0];
    let sent_rest: &[u8] = &[0, 0, 0, 0, 2, 0x40, 0x10, 3, 0, 0, 0x41, 0];
    let lacking: &[u8] = &[0, 0, 0, 1, 2, 0x40, 0x20, 4, 0, 0, 0];
    let none = [(0, 0); 7];
    let only = |sign: usize, count, at| {
        let mut signs = none;
        signs[sign] = (count, at);
        signs
    };
    for form in FORMS {
        // Packets with their lengths, behind the first record.
        let recorded = |packets: &[(u32, &[u8])]| {
            let packets = [&[(13, whole)], packets].concat();
            let records = packets.iter().flat_map(|(n, packet)| form.record(7, *n, packet));
            form.header(201).into_iter().chain(records).collect::<Vec<u8>>()
        };
        assert_eq!(pcap_signs(&form.header(201)), none);
        assert_eq!(pcap_signs(&recorded(&[])), none);
        assert_eq!(pcap_signs(&recorded(&[(10, begun), (12, ended)])), none);
        // The original length over the captured one, also by its highest byte alone; one under it is none.
        assert_eq!(pcap_signs(&recorded(&[(14, whole), (12, whole)])), only(0, 1, 53));
        assert_eq!(pcap_signs(&recorded(&[(0x0100_0000, whole), (0, whole)])), only(0, 1, 53));
        assert_eq!(pcap_signs(&recorded(&[(11, lacking)])), only(2, 1, 53));
        assert_eq!(pcap_signs(&recorded(&[(5, &lacking[..5])])), only(2, 1, 53));
        let zeros = [&recorded(&[])[..], &[0; 16]].concat();
        assert_eq!(pcap_signs(&zeros), only(3, 1, 53));
        assert_eq!(pcap_signs(&recorded(&[(12, ended)])), only(4, 1, 53));
        assert_eq!(pcap_signs(&recorded(&[(10, begun), (13, whole)])), only(5, 1, 53 + 26));
        assert_eq!(pcap_signs(&recorded(&[(10, begun), (10, sent), (12, sent_rest)])), only(6, 1, 53));
        // Another direction, another type, or neither: no ACL data.
        let others: [(u32, &[u8]); 6] = [
            (6, &[0, 0, 0, 2, 2, 0x40]),
            (6, &[1, 0, 0, 0, 2, 0x40]),
            (5, &[0, 0, 0, 1, 3]),
            (4, &[0, 0, 0, 1]),
            (3, &[0, 0, 0]),
            (0, &[]),
        ];
        assert_eq!(pcap_signs(&recorded(&others)), none);
    }
}

/// A trace of RFCOMM frames on CID 0x41, one to a record: direction, frame.
fn frames_of(frames: &[(Direction, Vec<u8>)]) -> Vec<u8> {
    let mut trace = Trace::new(1002);
    for (us, (direction, frame)) in (0..).step_by(1000).zip(frames) {
        trace.fragment(*direction, us, 64, true, &trace::pdu(0x41, frame));
    }
    trace.file
}

/// The frame with another FCS, which is its last byte.
fn wrong(mut frame: Vec<u8>) -> Vec<u8> {
    *frame.last_mut().unwrap() ^= 0x80;
    frame
}

fn checked() -> Options {
    Options::default().with_check_fcs(true)
}

/// DLCI, frames, unfinished and UIH frames with a wrong FCS, by both calls, in btsnoop and in pcap.
#[track_caller]
fn found(file: &[u8], options: &Options) -> Result<(u8, usize, usize, usize), Refusal> {
    let imported = import_with(file, options);
    assert_eq!(import_stretches_with(file, options).map(|(imported, _)| imported), imported);
    let numbers = |imported: lumbryth::Imported| {
        assert_eq!(imported.frames, imported.spans.len());
        (imported.dlci, imported.frames, imported.unfinished, imported.wrong_fcs)
    };
    let numbers = imported.map(numbers);
    for form in FORMS {
        let imported = import_with(&twin(file, form), &options.with_container(Container::Pcap));
        let again = imported.map(|found| (found.dlci, found.frames, found.unfinished, found.wrong_fcs));
        assert_eq!(again, numbers, "{form:?}");
    }
    numbers
}

/// Document 01's worked example has FCS 00, where 14 is right; off, nothing is checked.
#[test]
fn the_example_with_the_fcs_checked() {
    for fcs in 0..=255 {
        let mut file = EXAMPLE;
        file[61] = fcs;
        for options in [Options::default(), Options::default().with_channel(9)] {
            assert_eq!(found(&file, &options), Ok((18, 1, 0, 0)));
            let due = if fcs == 0x14 { Ok((18, 1, 0, 0)) } else { Err(Refusal::NoStream) };
            assert_eq!(found(&file, &options.with_check_fcs(true)), due, "FCS {fcs:02X}");
        }
    }
}

/// Of each address and control one FCS is right, over these two bytes as they stand and no other.
#[test]
fn the_fcs_of_each_head() {
    let wire = pack(0x01, 0, &[]).unwrap();
    let heads: [(&[u8], u8); 6] = [
        (&[0x49, 0xEF], 0x14),
        (&[0x4B, 0xEF], 0xCE),
        (&[0x48, 0xEF], 0x79),
        (&[0x4A, 0xEF], 0xA3),
        (&[0x49, 0xFF, 0x55], 0x08),
        (&[0x4B, 0xFF, 0xAA], 0xD2),
    ];
    for (head, right) in heads {
        // A length of one byte or two; a credit stands behind it.
        for length in [&[19][..], &[18, 0]] {
            let frame = |fcs| [&head[..2], length, &head[2..], &wire, &[fcs]].concat();
            for fcs in 0..=255 {
                let file = frames_of(&[(Direction::Rx, frame(fcs))]);
                assert_eq!(found(&file, &Options::default()), Ok((18, 1, 0, 0)));
                let due = if fcs == right { Ok((18, 1, 0, 0)) } else { Err(Refusal::NoStream) };
                assert_eq!(found(&file, &checked()), due, "{head:02X?} {fcs:02X}");
            }
            // The byte behind the information is the FCS, whatever follows it.
            for more in [&[][..], &[0], &[right ^ 1], &[0, right]] {
                let file = |fcs| frames_of(&[(Direction::Rx, [&frame(fcs)[..], more].concat())]);
                assert_eq!(found(&file(right), &checked()), Ok((18, 1, 0, 0)));
                assert_eq!(found(&file(right ^ 1), &checked()), Err(Refusal::NoStream));
            }
        }
    }
}

/// What is counted: UIH frames with a wrong FCS on the DLCI that is taken, with information or without, anywhere.
#[test]
fn wrong_fcs_is_counted() {
    use Direction::{Rx, Tx};
    let wire = pack(0x01, 0, &[]).unwrap();
    let good = (Rx, uih(18, false, None, &wire));
    let each: [(Direction, Vec<u8>, usize); 9] = [
        (Tx, wrong(uih(18, true, None, &wire)), 1),
        (Rx, wrong(uih(18, false, None, &[])), 1),
        (Rx, wrong(uih(18, false, Some(7), &[])), 1),
        (Rx, wrong(uih(18, false, Some(7), &[0; 200])), 1),
        // Another DLCI, and DLCI 0.
        (Rx, wrong(uih(19, false, None, &wire)), 0),
        (Rx, wrong(uih(0, false, None, &wire)), 0),
        // A SABM; a UIH frame without its FCS; and one with the right one.
        (Rx, wrong(control(18, true, 0x3F)), 0),
        (Rx, uih(18, false, None, &[0x3C]).split_last().unwrap().1.to_vec(), 0),
        (Tx, uih(18, true, Some(7), &[]), 0),
    ];
    for (direction, frame, count) in &each {
        let frame = (*direction, frame.clone());
        for frames in [[frame.clone(), good.clone()], [good.clone(), frame.clone()]] {
            assert_eq!(found(&frames_of(&frames), &checked()), Ok((18, 1, 0, *count)), "{:02X?}", frame.1);
        }
    }
    let all: Vec<_> = each.iter().map(|(direction, frame, _)| (*direction, frame.clone())).chain([good]).collect();
    assert_eq!(found(&frames_of(&all), &checked()), Ok((18, 1, 0, 4)));
    assert_eq!(found(&frames_of(&all), &checked().with_channel(9)), Ok((18, 1, 0, 4)));
    // Off, each is taken, and nothing is counted.
    assert_eq!(found(&frames_of(&all), &Options::default()), Ok((18, 2, 0, 0)));
    // Only the whole records of a file count.
    let file = [&frames_of(&all)[..], &[0; 30]].concat();
    let imported = import_with(&file, &checked().with_tail(TailRule::Tolerant)).unwrap();
    assert_eq!((imported.wrong_fcs, imported.tail), (4, file.len() - 30 + 24));
    // A channel that is named for another service is not tried, and what comes on it is not counted.
    let mut trace = Trace::new(1002);
    trace.fragment(Tx, 0, 64, true, &trace::signal(2, 1, &[0x1001, 0x50]));
    for (cid, frame) in [(0x50, &all[0].1), (0x51, &all[0].1), (0x51, &all[9].1)] {
        trace.fragment(Rx, 0, 64, true, &trace::pdu(cid, frame));
    }
    assert_eq!(found(&trace.file, &checked()), Ok((18, 1, 0, 1)));
}

/// What is passed over leaves no trace: what comes before and after it joins. A SABM is taken whatever its FCS is.
#[test]
fn wrong_fcs_is_passed_over() {
    use Direction::Rx;
    let wire = pack(0x01, 0, &[]).unwrap();
    let (begin, end) = wire.split_at(4);
    let piece = |information: &[u8]| (Rx, uih(18, false, None, information));
    let between = |frame: Vec<u8>| frames_of(&[piece(&wire), piece(begin), (Rx, frame), piece(end)]);
    for information in [&wire[..], &[0x3C], &[], end] {
        let file = between(wrong(uih(18, false, None, information)));
        let imported = import_with(&file, &checked()).unwrap();
        assert_eq!((imported.frames, imported.unfinished, imported.wrong_fcs), (2, 0, 1));
        assert!(imported.spans.iter().all(|span| span.wire == wire));
        assert_eq!(imported.spans[1].ms, 3);
    }
    for sabm in [control(18, true, 0x3F), wrong(control(18, true, 0x3F)), wrong(control(0, true, 0x2F))] {
        let (imported, open) = import_stretches_with(&between(sabm), &checked()).unwrap();
        assert_eq!((imported.frames, imported.unfinished, imported.wrong_fcs), (1, 1, 0));
        assert_eq!((open[0].sessions + open[0].links, open[0].held), (0, 4));
    }
}

/// The DLCI is chosen by what is right: another than without the check, or none.
#[test]
fn the_dlci_with_the_fcs_checked() {
    use Direction::{Rx, Tx};
    let wire = pack(0x01, 0, &[]).unwrap();
    let frames = [
        (Rx, wrong(uih(18, false, None, &wire))),
        (Tx, wrong(uih(40, true, Some(1), &[]))),
        (Tx, uih(40, true, None, &wire)),
        (Rx, uih(18, false, None, b"AT")),
        (Rx, uih(19, false, None, &wire)),
        (Rx, wrong(uih(19, false, None, &wire))),
    ];
    let file = frames_of(&frames);
    let channel = |channel| (Options::default().with_channel(channel), checked().with_channel(channel));
    assert_eq!(found(&file, &Options::default()), Ok((18, 1, 0, 0)));
    assert_eq!(found(&file, &checked()), Ok((40, 1, 0, 1)));
    assert_eq!((found(&file, &channel(9).0), found(&file, &channel(9).1)), (Ok((18, 1, 0, 0)), Ok((19, 1, 0, 1))));
    assert_eq!((found(&file, &channel(20).0), found(&file, &channel(20).1)), (Ok((40, 1, 0, 0)), Ok((40, 1, 0, 1))));
    // The order is that of the right ones too: 40 comes before 18 if the first on 18 is wrong.
    let file = frames_of(&[&frames[..3], &[(Rx, uih(18, false, None, &wire))]].concat());
    assert_eq!((found(&file, &Options::default()), found(&file, &checked())), (Ok((18, 2, 0, 0)), Ok((40, 1, 0, 1))));
    // Nothing that is right.
    let file = frames_of(&frames[..2]);
    assert_eq!(found(&file, &Options::default()), Ok((18, 1, 0, 0)));
    refused(import_with(&file, &checked()), Refusal::NoStream, 6, &[]);
}

/// The example of a noisy adapter; and those whose FCS is right everywhere, at every cut.
#[test]
fn the_examples_with_the_fcs_checked() {
    let noisy: &[u8] = include_bytes!("../../../examples/noisy.btsnoop");
    assert_eq!(found(noisy, &Options::default()), Ok((18, 11, 0, 0)));
    assert_eq!(found(noisy, &checked()), Ok((18, 10, 0, 3)));
    let broken = |options| {
        let spans = import_with(noisy, &options).unwrap().spans;
        spans.iter().filter(|span| unpack(&span.wire).is_err()).count()
    };
    assert_eq!((broken(Options::default()), broken(checked())), (1, 0));
    let traces: [&[u8]; 3] = [
        include_bytes!("../../../examples/headset.btsnoop"),
        include_bytes!("../../../examples/cut.btsnoop"),
        include_bytes!("../../../examples/two-adapters.btsnoop"),
    ];
    for trace in traces {
        for n in (16..trace.len()).step_by(11).chain([trace.len()]) {
            for options in [Options::default(), Options::default().with_tail(TailRule::Tolerant)] {
                let on = options.with_check_fcs(true);
                assert_eq!(import_with(&trace[..n], &on), import_with(&trace[..n], &options), "{n} bytes");
                assert_eq!(import_stretches_with(&trace[..n], &on), import_stretches_with(&trace[..n], &options));
            }
        }
    }
}

/// The other calls that take options do not look at this one.
#[test]
fn only_imports_check_the_fcs() {
    let noisy: &[u8] = include_bytes!("../../../examples/noisy.btsnoop");
    for n in (0..noisy.len()).step_by(5).chain([noisy.len()]) {
        let file = &noisy[..n];
        for options in [Options::default(), Options::default().with_tail(TailRule::Tolerant), strict()] {
            let on = options.with_check_fcs(true);
            assert_eq!(records_with(file, &on), records_with(file, &options));
            assert_eq!(gaps_with(file, &on), gaps_with(file, &options));
            assert_eq!(ending_with(file, &on), ending_with(file, &options));
            assert_eq!(cut_with(file, 16, &on), cut_with(file, 16, &options));
        }
    }
}

/// Needed, records, PDUs and pieces.
fn sized(file: &[u8], options: &Options) -> Result<[usize; 4], Refusal> {
    sizes_with(file, options).map(|Sizes { needed, records, pdus, pieces, .. }| [needed, records, pdus, pieces])
}

/// The same of a file's whole records, in btsnoop and in pcap.
#[track_caller]
fn sized_in_both(file: &[u8], options: &Options) -> Result<[usize; 4], Refusal> {
    let told = sized(file, options);
    for form in FORMS {
        assert_eq!(sized(&twin(file, form), &options.with_container(Container::Pcap)), told, "{form:?}");
    }
    told
}

/// The sizes are what the calls give that they are of, and are refused as an import is.
#[track_caller]
fn sizes_fit(file: &[u8], options: &Options) {
    let needed = import_with(file, options).map(|found| found.spans.iter().map(|span| 14 + span.wire.len()).sum());
    let told = sized(file, options);
    assert_eq!(told.map(|told| told[0]), needed, "{} bytes, {options:?}", file.len());
    if let Ok(told) = told {
        assert_eq!(told[1], records_with(file, options).unwrap().starts.len());
    }
}

#[test]
fn sizes_of_the_examples() {
    let (strict, tolerant) = (Options::default(), Options::default().with_tail(TailRule::Tolerant));
    let headset: &[u8] = include_bytes!("../../../examples/headset.btsnoop");
    let whole = Ok([927, 54, 48, 32]);
    assert_eq!(sized_in_both(headset, &strict), whole);
    assert_eq!(sized_in_both(headset, &tolerant.with_channel(9).with_check_fcs(true)), whole);
    assert_eq!(sized_in_both(headset, &tolerant.with_channel(8)), Err(Refusal::NoStream));
    // Cut inside a record, which is not counted: what is left of each.
    let cut_short: [(&[u8], Container, usize); 2] = [
        (include_bytes!("../../../examples/cut.btsnoop"), Container::Btsnoop, 2453),
        (include_bytes!("../../../examples/cut.pcap"), Container::Pcap, 2253),
    ];
    for (file, container, offset) in cut_short {
        assert_eq!(sized(file, &strict.with_container(container)), Err(Refusal::Truncated { offset }));
        assert_eq!(sized(file, &tolerant.with_container(container)), Ok([876, 52, 46, 30]));
    }
    let late = include_bytes!("../../../examples/late.btsnoop");
    assert_eq!(sized_in_both(late, &strict), Ok([193, 11, 11, 11]));
    // A message on adapter 0, and with it a record, is not complete.
    let adapters = include_bytes!("../../../examples/two-adapters.btsnoop");
    assert_eq!(sized(adapters, &strict), Ok([248, 18, 15, 11]));
    // Of three UIH frames with a wrong FCS one has no information.
    let noisy = include_bytes!("../../../examples/noisy.btsnoop");
    assert_eq!(sized_in_both(noisy, &strict), Ok([283, 17, 17, 14]));
    assert_eq!(sized_in_both(noisy, &checked()), Ok([250, 17, 17, 12]));
}

/// What is written to a trace, and what it counts: records, PDUs, pieces, and pieces with the FCS checked.
type Part<'a> = (&'a dyn Fn(&mut Trace), [usize; 4]);

/// What counts, by what comes beside one whole frame.
#[test]
fn what_sizes_count() {
    use Direction::{Rx, Tx};
    let whole = |t: &mut Trace, frame: &[u8]| t.fragment(Rx, 0, 64, true, &trace::pdu(0x41, frame));
    let text: &[u8] = &uih(40, false, None, b"AT");
    let on = |cid| trace::pdu(cid, text);
    let parts: [Part; 20] = [
        (&|_| {}, [0, 0, 0, 0]),
        // Records without an ACL packet, or with one that is not whole.
        (&|t| t.record(1, 0, &[]), [1, 0, 0, 0]),
        (&|t| t.hci_event(0, &[0x13, 0]), [1, 0, 0, 0]),
        (&|t| t.record(1, 0, &[2, 0x40, 0x20, 4, 0, 0]), [1, 0, 0, 0]),
        // PDUs that carry nothing: an empty one, a signal, one that is not tried, and other frames of RFCOMM.
        (&|t| t.fragment(Rx, 0, 64, true, &trace::pdu(0, &[])), [1, 1, 0, 0]),
        (&|t| t.fragment(Tx, 0, 64, true, &trace::signal(2, 1, &[3, 0x45])), [1, 1, 0, 0]),
        (&|t| t.fragment(Rx, 0, 64, true, &on(0x3F)), [1, 1, 0, 0]),
        (&|t| whole(t, &control(18, true, 0x3F)), [1, 1, 0, 0]),
        (&|t| whole(t, &text[..text.len() - 1]), [1, 1, 0, 0]),
        (&|t| whole(t, &uih(0, false, None, b"AT")), [1, 1, 0, 0]),
        (&|t| whole(t, &uih(18, false, Some(7), &[])), [1, 1, 0, 0]),
        // A channel that is named for another service.
        (
            &|t| {
                t.fragment(Tx, 0, 64, true, &trace::signal(2, 1, &[0x1001, 0x50]));
                t.fragment(Rx, 0, 64, true, &on(0x50));
            },
            [2, 2, 0, 0],
        ),
        // Pieces: of any DLCI, connection and direction, with a start marker or not.
        (&|t| whole(t, text), [1, 1, 1, 1]),
        (&|t| whole(t, &uih(18, false, None, &[0x3C])), [1, 1, 1, 1]),
        (&|t| t.fragment(Tx, 0, 7, true, &on(0xFFFF)), [1, 1, 1, 1]),
        (&|t| whole(t, &wrong(text.to_vec())), [1, 1, 1, 0]),
        // What comes in two packets is one PDU; what comes behind its end is none.
        (
            &|t| {
                t.fragment(Rx, 0, 64, true, &on(0x41)[..5]);
                t.fragment(Rx, 0, 64, false, &[&on(0x41)[5..], &on(0x41)].concat());
            },
            [2, 1, 1, 1],
        ),
        // One that goes on with nothing, one that is given up, and one that is open at the end.
        (&|t| t.fragment(Rx, 0, 64, false, &on(0x41)), [1, 0, 0, 0]),
        (
            &|t| {
                t.fragment(Rx, 0, 64, true, &on(0x41)[..5]);
                t.fragment(Rx, 0, 64, true, &on(0x41));
            },
            [2, 1, 1, 1],
        ),
        (&|t| t.fragment(Rx, 0, 64, true, &on(0x41)[..5]), [1, 0, 0, 0]),
    ];
    let frame = uih(18, false, None, &pack(0x01, 0, &[]).unwrap());
    let is = |file: &[u8], [records, pdus, pieces, right]: [usize; 4]| {
        for channel in [Options::default(), Options::default().with_channel(9)] {
            assert_eq!(sized_in_both(file, &channel), Ok([23, 1 + records, 1 + pdus, 1 + pieces]));
            let checked = channel.with_check_fcs(true);
            assert_eq!(sized_in_both(file, &checked), Ok([23, 1 + records, 1 + pdus, 1 + right]));
        }
    };
    let (mut all, mut sum) = (Trace::new(1002), [0; 4]);
    whole(&mut all, &frame);
    for (part, counts) in parts {
        let mut behind = Trace::new(1002);
        whole(&mut behind, &frame);
        part(&mut behind);
        is(&behind.file, counts);
        let mut before = Trace::new(1002);
        part(&mut before);
        whole(&mut before, &frame);
        is(&before.file, counts);
        part(&mut all);
        sum.iter_mut().zip(counts).for_each(|(sum, count)| *sum += count);
        is(&all.file, sum);
    }
}

/// What is needed is of the DLCI that is taken; the rest is of the file.
#[test]
fn sizes_by_options() {
    use Direction::{Rx, Tx};
    let wire = pack(0x01, 0, &[]).unwrap();
    let two = [&wire[..], &wire].concat();
    let file = frames_of(&[
        (Rx, uih(18, false, None, b"AT")),
        (Tx, wrong(uih(18, true, None, &wire))),
        (Tx, uih(40, true, None, &two)),
        (Rx, uih(40, false, None, &[0x3E, 0x3C, 0x3E])),
    ]);
    assert_eq!(sized_in_both(&file, &Options::default()), Ok([23, 4, 4, 4]));
    assert_eq!(sized_in_both(&file, &Options::default().with_channel(9)), Ok([23, 4, 4, 4]));
    assert_eq!(sized_in_both(&file, &Options::default().with_channel(20)), Ok([62, 4, 4, 4]));
    assert_eq!(sized_in_both(&file, &checked()), Ok([62, 4, 4, 3]));
    assert_eq!(sized_in_both(&file, &checked().with_channel(9)), Err(Refusal::NoStream));
    // A record that passes the end is not counted, and the strict rule refuses it.
    let cut_short = [&file[..], &[0; 23]].concat();
    assert_eq!(sized(&cut_short, &Options::default()), Err(Refusal::Truncated { offset: file.len() }));
    assert_eq!(sized(&cut_short, &Options::default().with_tail(TailRule::Tolerant)), Ok([23, 4, 4, 4]));
    assert_eq!(sized(&[&file[..], &[0; 24]].concat(), &Options::default()), Ok([23, 5, 4, 4]));
}

#[test]
fn sizes_refused() {
    use TailRule::{Strict, Tolerant};
    refused(sizes(&[0; 1_048_577], None, Strict), Refusal::FileLong, 1, &["1048576"]);
    refused(sizes(&[], None, Strict), Refusal::NotBtsnoop, 3, &["btsnoop"]);
    refused(sizes(&EXAMPLE[..15], None, Tolerant), Refusal::NotBtsnoop, 3, &[]);
    let mut other = EXAMPLE;
    other[15] = 0xEB;
    refused(sizes(&other, None, Strict), Refusal::Datalink(1003), 4, &["1003"]);
    refused(sizes(&EXAMPLE[..17], None, Strict), Refusal::Truncated { offset: 16 }, 5, &["byte 16"]);
    refused(sizes(&EXAMPLE[..17], None, Tolerant), Refusal::NoStream, 6, &[]);
    refused(sizes(&EXAMPLE[..16], None, Strict), Refusal::NoStream, 6, &[]);
    refused(sizes(&EXAMPLE, Some(8), Strict), Refusal::NoStream, 6, &[]);
    assert_eq!(sized(&EXAMPLE, &Options::default()), Ok([23, 1, 1, 1]));
}

/// Of the examples, cut anywhere, by each rule and with the FCS checked or not, in both containers.
#[test]
fn sizes_of_cuts() {
    let traces: [&[u8]; 4] = [
        include_bytes!("../../../examples/headset.btsnoop"),
        include_bytes!("../../../examples/two-adapters.btsnoop"),
        include_bytes!("../../../examples/noisy.btsnoop"),
        include_bytes!("../../../examples/late.btsnoop"),
    ];
    let files = traces.iter().zip(FORMS).flat_map(|(trace, form)| {
        [(trace.to_vec(), Options::default()), (twin(trace, form), Options::default().with_container(Container::Pcap))]
    });
    for (file, options) in files {
        for n in (0..file.len()).step_by(3).chain([file.len()]) {
            for options in [options, options.with_tail(TailRule::Tolerant)] {
                sizes_fit(&file[..n], &options);
                sizes_fit(&file[..n], &options.with_channel(9).with_check_fcs(true));
            }
        }
    }
}

/// As much of each as a file can have beside a frame.
#[test]
fn sizes_of_full_files() {
    let full = |mut file: Vec<u8>, record: &[u8]| {
        let n = (1_048_576 - file.len()) / record.len();
        file.extend(record.repeat(n));
        (file, n)
    };
    let tail = TailRule::Tolerant;
    // Records of no packet.
    let (file, n) = full(EXAMPLE.to_vec(), &[0; 24]);
    assert_eq!((n, sized(&file, &Options::default())), (43_688, Ok([23, 43_689, 1, 1])));
    let (file, n) = full(twin(&EXAMPLE, PLAIN), &[0; 16]);
    assert_eq!((n, sized(&file, &strict())), (65_531, Ok([23, 65_532, 1, 1])));
    sizes_fit(&[&file[..], &[0; 14]].concat(), &tolerant());
    // Empty PDUs, and pieces of a byte.
    let pcap = |packet: &[u8]| PLAIN.record(0, 0, &[&[0, 0, 0, 1, 2, 0x40, 0x20], packet].concat());
    let (file, n) = full(twin(&EXAMPLE, PLAIN), &pcap(&[4, 0, 0, 0, 0x41, 0]));
    assert_eq!((n, sized(&file, &strict())), (36_155, Ok([23, 36_156, 36_156, 1])));
    let (file, n) = full(twin(&EXAMPLE, PLAIN), &pcap(&[9, 0, 5, 0, 0x41, 0, 0x49, 0xEF, 3, 0x3C, 0x14]));
    assert_eq!((n, sized(&file, &strict())), (30_838, Ok([23, 30_839, 30_839, 30_839])));
    // Spans of two bytes take eight times as much of a list.
    let information = [0x3E, 0x3C].repeat(16_000);
    let mut trace = Trace::new(1002);
    trace.fragment(Direction::Rx, 0, 64, true, &trace::pdu(0x41, &uih(18, false, None, &pack(0x01, 0, &[]).unwrap())));
    trace.fragment(Direction::Rx, 0, 64, true, &trace::pdu(0x41, &uih(18, false, None, &information)));
    let record = trace.file[trace.starts[1]..].to_vec();
    let (file, n) = full(trace.file, &record);
    let options = Options::default().with_tail(tail);
    assert_eq!((n, sized(&file, &options)), (31, Ok([23 + 32 * 16_000 * 16, 33, 33, 33])));
    sizes_fit(&file, &options);
}

/// The link of document 01's example.
const LINK: Link = Link { adapter: 0, handle: 0x40 };

/// Directions and wires of one link's list, and how many buffers are unfinished; the same of the file's packets in pcap.
#[track_caller]
fn listed(file: &[u8], link: Link, dlci: u8) -> (Vec<(Direction, Vec<u8>)>, usize) {
    let list = one_link(file, link, dlci).unwrap();
    if file[12..16] != 2001_u32.to_be_bytes() {
        for form in FORMS {
            assert_eq!(one_link_with(&twin(file, form), link, dlci, &strict()).as_ref(), Ok(&list), "{form:?}");
        }
    }
    (list.spans.into_iter().map(|span| (span.direction, span.wire)).collect(), list.unfinished)
}

#[test]
fn one_link_refused() {
    let none = Link { handle: 4096, ..LINK };
    refused(one_link(&[0; 1_048_577], none, 0), Refusal::FileLong, 1, &["1048576"]);
    refused(one_link(&[], none, 0), Refusal::NotBtsnoop, 3, &["btsnoop"]);
    let mut other = EXAMPLE;
    other[15] = 0xEB;
    refused(one_link(&other, none, 0), Refusal::Datalink(1003), 4, &["1003"]);
    for n in 17..62 {
        refused(one_link(&EXAMPLE[..n], none, 0), Refusal::Truncated { offset: 16 }, 5, &["byte 16"]);
        refused(one_link(&EXAMPLE[..n], LINK, 18), Refusal::Truncated { offset: 16 }, 5, &["byte 16"]);
    }
    for handle in [4096, 4096 + 0x40, 0xFFFF] {
        let link = Link { handle, ..LINK };
        refused(one_link(&EXAMPLE, link, 18), Refusal::NoLink, 23, &["0 to 4095", "1 to 63"]);
        refused(one_link(&EXAMPLE[..16], link, 18), Refusal::NoLink, 23, &[]);
    }
    for dlci in [0, 64, 64 + 18, 255] {
        refused(one_link(&EXAMPLE, LINK, dlci), Refusal::NoLink, 23, &[]);
    }
    // The container is asked for; of other options none counts.
    let file = twin(&EXAMPLE, PLAIN);
    refused(one_link(&file, LINK, 18), Refusal::NotBtsnoop, 3, &[]);
    refused(one_link_with(&EXAMPLE, LINK, 18, &strict()), Refusal::NotPcap, 21, &[]);
    refused(one_link_with(&file, none, 18, &strict()), Refusal::NoLink, 23, &[]);
    refused(one_link_with(&file[..65], none, 18, &tolerant()), Refusal::Truncated { offset: 24 }, 5, &[]);
    let mut other = file.clone();
    other[20] = 187;
    refused(one_link_with(&other, none, 0, &strict()), Refusal::LinkType(187), 22, &["187"]);
    let list = one_link_with(&file, LINK, 18, &tolerant().with_channel(3).with_check_fcs(true));
    assert_eq!(list, one_link(&EXAMPLE, LINK, 18));
}

#[test]
fn one_link_of_the_example() {
    let frame = (vec![(Direction::Rx, EXAMPLE[52..61].to_vec())], 0);
    assert_eq!(listed(&EXAMPLE, LINK, 18), frame);
    assert_eq!(one_link(&EXAMPLE, LINK, 18).unwrap().spans[0].ms, 0);
    // Another handle, another index or another DLCI has nothing, and a file without records neither.
    let empty = (Vec::new(), 0);
    for (link, dlci) in [
        (Link { handle: 0x41, ..LINK }, 18),
        (Link { handle: 0, ..LINK }, 18),
        (Link { adapter: 1, ..LINK }, 18),
        (Link { adapter: 0xFFFF, handle: 4095 }, 18),
        (LINK, 19),
        (LINK, 9),
        (LINK, 1),
        (LINK, 63),
    ] {
        assert_eq!(listed(&EXAMPLE, link, dlci), empty, "{link}, DLCI {dlci}");
    }
    assert_eq!(listed(&EXAMPLE[..16], LINK, 18), empty);
    assert_eq!(
        (LINK.to_string(), Link { adapter: 0xFFFF, handle: 4095 }.to_string()),
        ("0:64".into(), "65535:4095".into())
    );
}

/// What is listed: all spans of the DLCI, in order of completion, whether they unpack or not and whatever their FCS.
#[test]
fn what_one_link_lists() {
    use Direction::{Rx, Tx};
    let wire = |seq| pack(0x01, seq, &[]).unwrap();
    let file = frames_of(&[
        (Rx, uih(18, false, None, &wire(1)[..4])),
        (Tx, uih(18, true, None, &[&[0x3C], &wire(2)[..], &[0x3E, 0x3C, 0x3E]].concat())),
        (Rx, uih(19, false, None, &wire(3))),
        (Rx, wrong(uih(18, false, None, &wire(1)[4..]))),
        (Rx, uih(40, false, None, &[0x3E, 0x00, 0x3C])),
        (Rx, uih(63, false, None, &[0x3E])),
        (Rx, uih(1, false, Some(3), &wire(4))),
        (Rx, uih(0, false, None, &wire(5))),
    ]);
    let lists = [
        (18, vec![(Tx, wire(2)), (Tx, vec![0x3E, 0x3C]), (Rx, wire(1))], 1),
        (19, vec![(Rx, wire(3))], 0),
        (40, vec![(Rx, vec![0x3E, 0x00, 0x3C])], 0),
        (63, vec![], 1),
        (1, vec![(Rx, wire(4))], 0),
        (20, vec![], 0),
    ];
    for (dlci, spans, unfinished) in lists {
        assert_eq!(listed(&file, LINK, dlci), (spans, unfinished), "DLCI {dlci}");
    }
    // A SABM begins a link, also by a wrong FCS; what is held before it stays, and is unfinished.
    let opened = frames_of(&[
        (Rx, uih(18, false, None, &[0x3E])),
        (Tx, wrong(control(18, true, 0x3F))),
        (Rx, uih(18, false, None, &[0x3E, 0x3C, 0x3E])),
        (Tx, control(0, true, 0x2F)),
        (Rx, uih(18, false, None, &[0x3E])),
    ]);
    assert_eq!(listed(&opened, LINK, 18), (vec![(Rx, vec![0x3E, 0x3C])], 3));
}

/// Two links with one handle, and one with another: each as if the others were not there.
#[test]
fn links_apart() {
    use Direction::{Rx, Tx};
    let wire = |seq| pack(0x01, seq, &[]).unwrap();
    let piece = |wire: &[u8]| trace::pdu(0x41, &uih(18, false, None, wire));
    let whole = |seq| piece(&wire(seq));
    let mut trace = Trace::new(2001);
    let mut send = |adapter, handle, direction, first, data: &[u8]| {
        trace.adapter = adapter;
        trace.fragment(direction, 0, handle, first, data);
    };
    // Between the fragments and pieces of one: fragments of another, names of its channel for another service, a session asked
    // for, a link opened.
    send(0, 6, Rx, true, &whole(1)[..9]);
    send(1, 6, Rx, true, &whole(2)[..5]);
    send(0, 7, Rx, true, &whole(3));
    send(0, 6, Rx, false, &whole(1)[9..]);
    send(1, 6, Rx, false, &whole(2)[5..]);
    send(0, 6, Rx, true, &piece(&wire(4)[..3]));
    send(1, 6, Tx, true, &trace::signal(2, 1, &[3, 0x50]));
    send(1, 6, Rx, true, &trace::pdu(0x41, &control(18, true, 0x3F)));
    send(0, 7, Tx, true, &trace::signal(2, 1, &[0x1001, 0x41]));
    send(0, 6, Rx, true, &piece(&wire(4)[3..]));
    send(1, 6, Rx, true, &piece(&wire(5)[..3]));
    let spans = |seqs: &[u8]| seqs.iter().map(|seq| (Rx, wire(*seq))).collect::<Vec<_>>();
    let file = trace.file;
    let list = |adapter, handle| listed(&file, Link { adapter, handle }, 18);
    assert_eq!(list(0, 6), (spans(&[1, 4]), 0));
    assert_eq!(list(1, 6), (spans(&[2]), 1));
    // It is named for another service, by its own request alone.
    assert_eq!(list(0, 7), (vec![], 0));
    let imported = import(&file, None, TailRule::Strict).unwrap();
    assert_eq!((imported.frames, imported.unfinished), (3, 1));
}

/// The longest list: spans of two bytes take eight times as much.
#[test]
fn one_link_of_a_full_file() {
    let information = [0x3E, 0x3C].repeat(16_000);
    let mut trace = Trace::new(1002);
    while trace.file.len() < 1_010_000 {
        trace.fragment(Direction::Rx, 0, 64, true, &trace::pdu(0x41, &uih(18, false, None, &information)));
    }
    let LinkList { spans, unfinished, .. } = one_link(&trace.file, LINK, 18).unwrap();
    assert_eq!((spans.len(), unfinished), (16_000 * trace.starts.len(), 0));
    assert_eq!(one_link(&trace.file, LINK, 18).unwrap().spans.len() * 16, 8_192_000);
    assert!(spans.iter().all(|span| span.wire == [0x3E, 0x3C] && span.direction == Direction::Rx));
    assert_eq!(listed(&trace.file, Link { adapter: 0, handle: 65 }, 18), (vec![], 0));
    // A cleared buffer is not unfinished; what follows is dropped up to a start marker.
    let long = |n: usize| uih(18, false, None, &vec![0x3E; n]);
    let frames: Vec<_> = [30_000, 30_000, 5_536].map(|n| (Direction::Rx, long(n))).to_vec();
    assert_eq!(listed(&frames_of(&frames), LINK, 18), (vec![], 1));
    let frames: Vec<_> = [30_000, 30_000, 5_537].map(|n| (Direction::Rx, long(n))).to_vec();
    assert_eq!(listed(&frames_of(&frames), LINK, 18), (vec![], 0));
}
