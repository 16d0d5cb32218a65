//! The outside judge: holds the import against tshark, on traces made at random.
//!
//!     judge [TRACES [SEED]]
//!
//! For each trace tshark says which PDUs it put together, and which information it found on which DLCI. The PDUs are held to
//! those of a plain reader here; the information, scanned for frames, to what the library imports for each DLCI: every span's
//! bytes, direction and time, in order, how many are under way at the end, and where every byte of the information went. So are the
//! sizes that it tells before: the bytes of the list, and how many records, PDUs and pieces there are. Cuts of the trace are held to
//! what tshark found in the records that are left. Then faults are planted in what our side reads, and each of them
//! has to show.
//!
//! Each import is judged with the FCS not checked and with it checked. tshark shows an FCS and does not say whether it is right; that
//! is computed here. Checked, the information of frames with a wrong one is taken out of what tshark found, and the library's count of
//! them has to be that of tshark's UIH frames on the DLCI.
//!
//! The traces are btsnoop files of each datalink and pcap files of each form. What tshark reads otherwise than the documents have it
//! is in none of them: directions other than 0 and 1, packets too short for one, packets over 262,144 bytes. But a pcap file with
//! microseconds that is cut 4 or 8 bytes into its second record is among the cuts: tshark takes it for a file of another kind.

#![forbid(unsafe_code)]

mod generate;
mod judged;
mod reader;
mod rng;
#[path = "../../../examples/trace/mod.rs"]
mod trace;
mod tshark;

use std::path::Path;
use std::process::ExitCode;
use std::{env, fs, process};

use generate::Generated;
use judged::{spans, Piece, Seen};
use lumbryth::{
    import_with, records_with, sizes_with, unpack, Container, Imported, Options, Refusal, Sizes, Span, TailRule,
};
use rng::Rng;
use trace::pcap::{Form, FORMS};

/// How many cuts of each trace are judged.
const CUTS: usize = 40;

/// How much was judged.
#[derive(Default)]
struct Tally {
    traces: usize,
    records: usize,
    pdus: usize,
    joined: usize,
    pieces: usize,
    spans: usize,
    unfinished: usize,
    /// Those of the pieces on DLCIs that have a frame.
    bytes: usize,
    dlcis: usize,
    cuts: usize,
    faults: usize,
    /// With the FCS checked: the spans of all DLCIs, the UIH frames with a wrong one on those that have a frame all the same, and
    /// how many DLCIs have a frame only without the check.
    checked: usize,
    wrong: usize,
    emptied: usize,
    /// Traces in pcap; cuts into a second record; and of these, those that only the library reads as they were written.
    pcap: usize,
    second: usize,
    misread: usize,
}

/// The tolerant rule, for a file of this container.
fn tolerant(container: Container) -> Options {
    Options::default().with_tail(TailRule::Tolerant).with_container(container)
}

/// Holds the PDUs that a plain reader finds in a file to those of tshark. The difference in words, if there is one.
fn judge_pdus(seen: &Seen, container: Container, file: &[u8], tally: &mut Tally) -> Result<(), String> {
    let ours = reader::read(container, file);
    if ours.records != seen.records {
        return Err(format!("{} records here, {} there", ours.records, seen.records));
    }
    for (here, there) in ours.pdus.iter().zip(&seen.pdus) {
        if here != there {
            return Err(format!("PDU here:  {here:?}\nPDU there: {there:?}"));
        }
    }
    if ours.pdus.len() != seen.pdus.len() {
        return Err(format!("{} PDUs here, {} there", ours.pdus.len(), seen.pdus.len()));
    }
    tally.records += seen.records;
    tally.pdus += seen.pdus.len();
    tally.joined += ours.joined;
    Ok(())
}

/// Holds what the library imports, with the FCS checked and without, to what tshark found. A file that was cut ends at the tail.
fn judge_spans(seen: &Seen, made: &Generated, file: &[u8], tail: usize, tally: &mut Tally) -> Result<(), String> {
    judge_by(false, seen, made, file, tail, tally)?;
    judge_by(true, seen, made, file, tail, tally).map_err(|words| format!("with the FCS checked: {words}"))
}

/// Whether something unpacks on a DLCI.
fn carries(pieces: &[Piece], dlci: u8) -> bool {
    spans(pieces, dlci).0.iter().any(|span| unpack(&span.wire).is_ok())
}

/// Holds where every byte went, by the library, to the information that tshark found on the DLCI: so many bytes in spans, held at the
/// end, and in all. None are cleared, for the frames are short; the rest is dropped.
fn judge_bytes(imported: &Imported, there: &[Span], held: &[usize], pieces: &[Piece]) -> Result<(), String> {
    let dlci = imported.dlci;
    let information = pieces.iter().filter(|piece| piece.dlci == dlci).map(|piece| piece.information.len());
    let in_spans: usize = there.iter().map(|span| span.wire.len()).sum();
    let bytes = &imported.bytes;
    let here = (bytes.in_spans, bytes.cleared, bytes.left, bytes.taken_in());
    let there = (in_spans, 0, held.iter().sum(), information.sum());
    if here != there {
        return Err(format!("DLCI {dlci}, bytes in spans, cleared, left, in all: {here:?} here, {there:?} there"));
    }
    Ok(())
}

/// Holds the sizes that the library tells to the spans that tshark's information gives, its records and PDUs, and the pieces.
fn judge_sizes(sizes: &Sizes, seen: &Seen, there: &[Span], pieces: &[Piece]) -> Result<(), String> {
    let list: usize = there.iter().map(|span| 14 + span.wire.len()).sum();
    let here = (sizes.needed, sizes.records, sizes.pdus, sizes.pieces);
    let told = (list, seen.records, seen.pdus.len(), pieces.len());
    if here != told {
        return Err(format!("bytes of the list, records, PDUs, pieces: {here:?} here, {told:?} there"));
    }
    Ok(())
}

/// Holds what the library imports for each DLCI, and without a channel, to what tshark found on it.
fn judge_by(
    check_fcs: bool,
    seen: &Seen,
    made: &Generated,
    file: &[u8],
    tail: usize,
    tally: &mut Tally,
) -> Result<(), String> {
    let dlcis = &made.dlcis;
    if let Some(piece) = seen.pieces.iter().find(|piece| !dlcis.contains(&piece.dlci)) {
        return Err(format!("record {}: DLCI {} is not in use", piece.record, piece.dlci));
    }
    let pieces: Vec<Piece> = seen.pieces.iter().filter(|piece| piece.right || !check_fcs).cloned().collect();
    let pieces = &pieces[..];
    // The DLCIs on which something unpacks; of those the first seen is taken where no channel is given.
    let first = pieces.iter().map(|piece| piece.dlci).find(|&dlci| carries(pieces, dlci));
    let wanted = dlcis.iter().map(|&dlci| (Some(dlci / 2), Some(dlci).filter(|&dlci| carries(pieces, dlci))));
    for (channel, dlci) in wanted.chain([(None, first)]) {
        let options = tolerant(made.container).with_check_fcs(check_fcs);
        let options = channel.iter().fold(options, |options, channel| options.with_channel(*channel));
        let (imported, sizes) = (import_with(file, &options), sizes_with(file, &options));
        let Some(dlci) = dlci else {
            if imported != Err(Refusal::NoStream) || sizes != Err(Refusal::NoStream) {
                return Err(format!("channel {channel:?}: nothing there unpacks; here {imported:?}, {sizes:?}"));
            }
            continue;
        };
        let refused = |refusal: Refusal| format!("DLCI {dlci}: refused ({}): {refusal}", refusal.number());
        let (imported, sizes) = (imported.map_err(refused)?, sizes.map_err(refused)?);
        let (there, held) = spans(pieces, dlci);
        for (i, (here, there)) in imported.spans.iter().zip(&there).enumerate() {
            if here != there {
                return Err(format!("DLCI {dlci}, span {}\nhere:  {here:?}\nthere: {there:?}", i + 1));
            }
        }
        let wrong = seen.wrong.iter().filter(|(_, other)| check_fcs && *other == dlci).count();
        let frames = imported.frames;
        let here =
            (imported.dlci, frames, imported.spans.len(), imported.unfinished, imported.tail, imported.wrong_fcs);
        let told = (dlci, there.len(), there.len(), held.len(), tail, wrong);
        if here != told {
            return Err(format!("DLCI, frames, spans, unfinished, tail, wrong FCS: {here:?} here, {told:?} there"));
        }
        judge_bytes(&imported, &there, &held, pieces)?;
        judge_sizes(&sizes, seen, &there, pieces).map_err(|words| format!("DLCI {dlci}, {words}"))?;
        if channel.is_some() && check_fcs {
            tally.checked += frames;
            tally.wrong += wrong;
        } else if channel.is_some() {
            tally.spans += frames;
            tally.unfinished += held.len();
            tally.bytes += imported.bytes.taken_in();
            tally.dlcis += 1;
        }
    }
    Ok(())
}

/// The library's records are those that were made, and as many as tshark shows.
fn judge_records(shown: usize, container: Container, starts: &[usize], file: &[u8], tail: usize) -> Result<(), String> {
    let found = records_with(file, &tolerant(container));
    if shown != starts.len() || found.as_ref().map(|found| (&found.starts[..], found.tail)) != Ok((starts, tail)) {
        return Err(format!("{shown} records there, {} made, here {found:?}", starts.len()));
    }
    Ok(())
}

/// The same of the first `n` bytes, held to what tshark found in the records that are left.
fn judge_cut(seen: &Seen, generated: &Generated, n: usize) -> Result<(), String> {
    let ends: Vec<usize> = generated.starts[1..].iter().copied().chain([generated.file.len()]).collect();
    let left = ends.iter().filter(|&&end| end <= n).count();
    let tail = if left == 0 { generated.container.header() } else { ends[left - 1] };
    judge_records(left, generated.container, &generated.starts[..left], &generated.file[..n], tail)?;
    let pieces = seen.pieces.iter().filter(|piece| piece.record <= left).cloned().collect();
    let wrong = seen.wrong.iter().filter(|(record, _)| *record <= left).copied().collect();
    let pdus = seen.pdus.iter().filter(|pdu| pdu.record <= left).cloned().collect();
    let seen = Seen { records: left, pdus, pieces, wrong, ..Seen::default() };
    judge_spans(&seen, generated, &generated.file[..n], tail, &mut Tally::default())
        .map_err(|words| format!("cut at {n}: {words}"))
}

/// The cuts 4, 8 and 9 bytes into the second record. The library has to read them as they were written. How many of the first two
/// tshark reads otherwise than the whole file, of whose first record all is there; the third it has to read alike.
fn judge_misread(path: &Path, seen: &Seen, made: &Generated) -> Result<usize, String> {
    let whole = tshark::packets(path)?;
    let mut misread = 0;
    for more in [4, 8, 9] {
        let n = made.starts[1] + more;
        judge_cut(seen, made, n)?;
        let cut = path.with_extension(format!("cut-{more}"));
        fs::write(&cut, &made.file[..n]).map_err(|error| error.to_string())?;
        let alike = tshark::packets(&cut)? == whole[..1];
        fs::remove_file(&cut).map_err(|error| error.to_string())?;
        match (more, alike) {
            (_, true) => (),
            (9, false) => return Err("tshark reads another first record where the second is cut after 9 bytes".into()),
            (_, false) => misread += 1,
        }
    }
    Ok(misread)
}

/// Where the record of a piece starts and ends.
fn bounds(piece: &Piece, generated: &Generated) -> (usize, usize) {
    let end = generated.starts.get(piece.record).copied().unwrap_or(generated.file.len());
    (generated.starts[piece.record - 1], end)
}

/// Where the last record starts and ends that completes a piece which ends a span, with the span's last byte in it.
fn closing(seen: &Seen, generated: &Generated) -> Option<(usize, usize)> {
    let closes = |&i: &usize| {
        let dlci = seen.pieces[i].dlci;
        let more = spans(&seen.pieces[..=i], dlci).0.len() > spans(&seen.pieces[..i], dlci).0.len();
        let (start, end) = bounds(&seen.pieces[i], generated);
        // The record's header, at most 9 bytes before the data, the 3C and the FCS.
        let least = generated.container.record_header() + 9 + 2;
        more && seen.pieces[i].information.last() == Some(&0x3C) && end - start >= least
    };
    (0..seen.pieces.len()).rev().find(closes).map(|i| bounds(&seen.pieces[i], generated))
}

/// Where the last FCS stands that is right, of a piece on a DLCI that has a frame where the FCS is checked.
fn right_fcs(seen: &Seen, generated: &Generated) -> Option<usize> {
    let right: Vec<Piece> = seen.pieces.iter().filter(|piece| piece.right).cloned().collect();
    let piece = right.iter().rfind(|piece| carries(&right, piece.dlci))?;
    Some(bounds(piece, generated).1 - 1)
}

/// Plants faults in copies of a trace that only our side reads: how many, or which of them went unseen.
fn plant(seen: &Seen, generated: &Generated) -> Result<usize, String> {
    let Some((start, end)) = closing(seen, generated) else { return Ok(0) };
    let file = &generated.file;
    let changed = |at: usize, bits: u8| {
        let mut copy = file.clone();
        copy[at] ^= bits;
        copy
    };
    // The last byte of a direction; and a byte of a time that is 65,536 microseconds, or seconds in either byte order.
    let (time, direction) = match generated.container {
        Container::Pcap => (start + if file[0] == 0xA1 { 2 } else { 1 }, start + 16 + 3),
        _ => (start + 21, start + 11),
    };
    let mut faults = vec![
        // The last byte is the FCS; information comes before it.
        ("a byte of information", changed(end - 2, 0x01)),
        ("a time", changed(time, 0x01)),
        ("a direction", changed(direction, 0x01)),
        ("a record that is lost", [&file[..start], &file[end..]].concat()),
    ];
    faults.extend(right_fcs(seen, generated).map(|at| ("an FCS", changed(at, 0x01))));
    for (name, copy) in &faults {
        let tally = &mut Tally::default();
        if judge_pdus(seen, generated.container, copy, tally).is_ok()
            || judge_spans(seen, generated, copy, copy.len(), tally).is_ok()
        {
            return Err(format!("a planted fault went unseen: {name}"));
        }
    }
    Ok(faults.len())
}

/// Everything about one trace, which stands at `path`.
fn judge(path: &Path, made: &Generated, rng: &mut Rng, tally: &mut Tally) -> Result<(), String> {
    let file = &made.file;
    let seen = tshark::read(path)?;
    judge_records(seen.records, made.container, &made.starts, file, file.len())?;
    judge_pdus(&seen, made.container, file, tally)?;
    judge_spans(&seen, made, file, file.len(), tally)?;
    let right: Vec<Piece> = seen.pieces.iter().filter(|piece| piece.right).cloned().collect();
    let emptied = |dlci: u8| carries(&seen.pieces, dlci) && !carries(&right, dlci);
    tally.emptied += made.dlcis.iter().filter(|dlci| emptied(**dlci)).count();
    for tolerant in [false, true].map(|check_fcs| tolerant(made.container).with_check_fcs(check_fcs)) {
        if import_with(file, &tolerant.with_tail(TailRule::Strict)) != import_with(file, &tolerant) {
            return Err("the strict rule finds something else than the tolerant".to_string());
        }
    }
    for _ in 0..CUTS {
        judge_cut(&seen, made, rng.within(made.container.header(), file.len()))?;
    }
    if made.container == Container::Pcap {
        tally.pcap += 1;
        // One file of each form is enough.
        if tally.pcap <= FORMS.len() {
            tally.second += 2;
            tally.misread += judge_misread(path, &seen, made)?;
        }
    }
    tally.pieces += seen.pieces.len();
    tally.cuts += CUTS;
    tally.faults += plant(&seen, made)?;
    tally.traces += 1;
    Ok(())
}

/// A trace that is shipped as an example.
fn shipped(path: &Path, container: Container, dlcis: &[u8]) -> Result<Generated, String> {
    let file = fs::read(path).map_err(|error| format!("{}: {error}", path.display()))?;
    let found = records_with(&file, &tolerant(container)).map_err(|refusal| refusal.to_string())?;
    Ok(Generated { container, file, starts: found.starts, dlcis: dlcis.to_vec() })
}

/// A btsnoop file of this datalink, or a pcap file of this form.
#[derive(Debug, Clone, Copy)]
enum Kind {
    Datalink(u32),
    Pcap(Form),
}

fn run(traces: usize, seed: u64, dir: &Path) -> Result<Tally, String> {
    let mut rng = Rng::new(seed);
    let mut tally = Tally::default();
    let kinds: Vec<Kind> = [1001, 1002, 2001].map(Kind::Datalink).into_iter().chain(FORMS.map(Kind::Pcap)).collect();
    for i in 0..traces {
        let kind = kinds[i % kinds.len()];
        let (made, extension) = match kind {
            Kind::Datalink(datalink) => (generate::trace(&mut rng, datalink), "btsnoop"),
            Kind::Pcap(form) => (generate::in_pcap(&mut rng, form), "pcap"),
        };
        let path = dir.join(format!("{i}.{extension}"));
        fs::write(&path, &made.file).map_err(|error| format!("{}: {error}", path.display()))?;
        judge(&path, &made, &mut rng, &mut tally).map_err(|words| {
            format!("trace {i}, {kind:?}, seed {seed}: {words}\nthe trace is kept: {}", path.display())
        })?;
        fs::remove_file(&path).map_err(|error| error.to_string())?;
    }
    let examples = Path::new(env!("CARGO_MANIFEST_DIR")).join("../../examples");
    let shipped_traces = [
        ("headset.btsnoop", Container::Btsnoop, &[18][..]),
        ("headset.pcap", Container::Pcap, &[18]),
        ("noisy.btsnoop", Container::Btsnoop, &[18, 22]),
    ];
    for (name, container, dlcis) in shipped_traces {
        // A copy, as cuts of it are put beside it.
        let example = shipped(&examples.join(name), container, dlcis)?;
        let path = dir.join(name);
        fs::write(&path, &example.file).map_err(|error| error.to_string())?;
        judge(&path, &example, &mut rng, &mut tally).map_err(|words| format!("{name}: {words}"))?;
        fs::remove_file(&path).map_err(|error| error.to_string())?;
    }
    Ok(tally)
}

fn main() -> ExitCode {
    let number = |i, otherwise| env::args().nth(i).map_or(Ok(otherwise), |arg| arg.parse::<u64>());
    let (Ok(traces), Ok(seed)) = (number(1, 70), number(2, 1)) else {
        eprintln!("usage: judge [TRACES [SEED]]");
        return ExitCode::from(2);
    };
    let dir = env::temp_dir().join(format!("lumbryth-judge-{}", process::id()));
    let done = fs::create_dir(&dir).map_err(|error| error.to_string()).and_then(|()| run(traces as usize, seed, &dir));
    match done {
        Ok(tally) => {
            let _ = fs::remove_dir(&dir);
            println!(
                "tshark and the library agree on {} traces, {} of them in pcap and three of them the examples: {} records, {} PDUs ({} of them in \
                 fragments), {} pieces on {} DLCIs, {} spans, {} unfinished, and where each of {} bytes went; and on {} cuts of them; \
                 {} planted faults, each seen",
                tally.traces,
                tally.pcap,
                tally.records,
                tally.pdus,
                tally.joined,
                tally.pieces,
                tally.dlcis,
                tally.spans,
                tally.unfinished,
                tally.bytes,
                tally.cuts,
                tally.faults
            );
            println!(
                "with the FCS checked, they agree on {} spans, and that {} UIH frames on their DLCIs have a wrong one; {} DLCIs have no \
                 frame left then",
                tally.checked,
                tally.wrong,
                tally.emptied
            );
            println!(
                "of {} pcap files that are cut 4 or 8 bytes into the second record, the library reads the first as it was written; tshark does \
                 not in {}",
                tally.second,
                tally.misread
            );
            ExitCode::SUCCESS
        }
        Err(words) => {
            eprintln!("judge: {words}");
            ExitCode::FAILURE
        }
    }
}
