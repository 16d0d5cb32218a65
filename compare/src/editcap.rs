//! editcap's own conversion of pcap files to btsnoop and back, where it is installed: the import of both has to be the same.
//!
//! What it reads otherwise is left out: it takes the low bit of any direction, gives up a file at a packet under 4 bytes,
//! looks at the original length and at the version, and has no room for fractions of many seconds.

use std::path::{Path, PathBuf};
use std::process::Command;
use std::{env, fs, process};

use crate::answer::{Answer, Checked, Container, Difference, Subject, NO_CHANNEL, VALUES};
use crate::expected;
use crate::honest::{self, Scale, Sums};
use crate::model::{self, be};
use crate::pcap::{self, Form, FORMS, ROW};
use crate::rng::Rng;
use crate::trace::{self, Trace};
use oracle::capture::BTSNOOP_EPOCH_DELTA_US as EPOCH;

/// How many files are converted each way.
const FILES: usize = 12;

fn failed(what: &str, got: String) -> Box<Difference> {
    Box::new(Difference {
        call: format!("editcap, {what}"),
        inputs: Vec::new(),
        lent: "nothing".into(),
        expected: "a file that is converted".into(),
        got,
    })
}

/// The program, without anyone's own settings.
fn editcap() -> Command {
    let mut command = Command::new("editcap");
    command.env("WIRESHARK_CONFIG_DIR", env::temp_dir().join("lumbryth-compare-no-settings"));
    command
}

/// A file converted to one of editcap's types.
fn converted(directory: &Path, file: &[u8], kind: &str) -> Result<Vec<u8>, Box<Difference>> {
    let [from, to] = ["from", "to"].map(|name| directory.join(name));
    let words = |error: std::io::Error| failed(kind, error.to_string());
    fs::write(&from, file).map_err(words)?;
    let output = editcap().args(["-F", kind]).args([&from, &to]).output().map_err(words)?;
    if !output.status.success() {
        let path = directory.join("refused");
        fs::copy(&from, &path).map_err(words)?;
        return Err(failed(kind, format!("{}: {}", path.display(), String::from_utf8_lossy(&output.stderr))));
    }
    fs::read(&to).map_err(words)
}

/// A pcap file that editcap reads as we do: an honest recording, then random traces.
fn made_pcap(rng: &mut Rng, form: Form) -> Vec<u8> {
    let mut file = Trace::pcap(form).file;
    let scale = Scale { links: 3, frames: 40, payload: 40, piece: 60, fragment: 100 };
    let mut others = vec![honest::recording_in(rng, Container::Pcap, Sums::Noisy, scale).file];
    others.extend((0..4).map(|_| trace::structured_in(rng, Container::Pcap, 60).0.file));
    for other in others {
        for record in pcap::read(&other, pcap::RIGHT).0.iter().filter(|record| record.received.is_some()) {
            let fraction = record.form.number(record.bytes, 4) as u32 % (2000 * form.parts() as u32);
            let length = record.packet().len() as u32;
            for number in [record.form.number(record.bytes, 0) as u32, fraction, length, length] {
                file.extend(form.bytes(number));
            }
            file.extend(&record.bytes[ROW..]);
        }
    }
    file
}

/// A btsnoop file that editcap reads as we do: times that pcap has, and no command that is typed as data.
fn made_btsnoop(rng: &mut Rng) -> Vec<u8> {
    let mut trace = Trace::new(1002);
    let mut rows = 0;
    while rows < 500 {
        let (other, _) = trace::structured(rng, 60);
        if other.datalink != 1002 {
            continue;
        }
        for row in model::records(&other.file[16..]).0 {
            let (flags, packet) = (be(&row[8..12]) as u32 & 3, &row[24..]);
            if flags & 2 == 0 || packet.first() != Some(&2) {
                let us = rng.below(4_294_967_296_000_000) as u64;
                trace.row(packet.len() as u32, flags, 0, EPOCH + us, packet);
                rows += 1;
            }
        }
    }
    trace.file
}

/// An import as an answer, without the tail offset, which is another in each container.
fn imported(subject: &dyn Subject, container: Container, checks: bool, file: &[u8]) -> Answer {
    let (mut work, mut out) = (vec![0; 8 * file.len()], vec![0; 8 * file.len()]);
    let mut values = [0; VALUES];
    let options = [256, 0, u64::from(container == Container::Pcap), u64::from(checks)];
    let number = subject.import_with(file, &mut work, &mut out, &options, &mut values);
    assert!(number != 0 || values[3] == file.len() as u64, "a whole file is read to its end");
    values[3] = 0;
    match number {
        0 => Answer::done(&values, out[..values[4] as usize].to_vec()),
        _ => Answer::refused(number, &[]),
    }
}

/// Both files are imported alike, and as the oracle imports the btsnoop file, in both positions of the switch.
fn alike(subject: &dyn Subject, what: &str, pcap: &[u8], btsnoop: &[u8]) -> Result<u64, Box<Difference>> {
    let [off, on] = expected::import(Container::Btsnoop, btsnoop, NO_CHANNEL, false);
    Ok(alike_in(subject, what, pcap, btsnoop, false, off)? + alike_in(subject, what, pcap, btsnoop, true, on)?)
}

fn alike_in(
    subject: &dyn Subject,
    what: &str,
    pcap: &[u8],
    btsnoop: &[u8],
    checks: bool,
    mut oracle: Answer,
) -> Result<u64, Box<Difference>> {
    let ours = imported(subject, Container::Pcap, checks, pcap);
    let other = imported(subject, Container::Btsnoop, checks, btsnoop);
    if oracle.number == 0 {
        oracle.values[3] = 0;
    }
    if ours == other && ours == oracle && [0, 6].contains(&ours.number) {
        return Ok(ours.values.get(1).copied().unwrap_or(0));
    }
    let shown = |answer: &Answer| format!("number {}, values {:?}", answer.number, answer.values);
    Err(Box::new(Difference {
        call: format!("import of a pcap file and of a btsnoop file, {what}"),
        inputs: vec![("pcap", pcap.to_vec()), ("btsnoop", btsnoop.to_vec())],
        lent: "enough".into(),
        expected: format!("the same frames; of btsnoop {}, the oracle's {}", shown(&other), shown(&oracle)),
        got: shown(&ours),
    }))
}

fn directory() -> Result<PathBuf, Box<Difference>> {
    let directory = env::temp_dir().join(format!("lumbryth-compare-{}", process::id()));
    fs::create_dir_all(&directory).map_err(|error| failed("a directory", error.to_string()))?;
    Ok(directory)
}

/// Files converted from pcap, of each form, and to it. Where editcap is not installed, it says so.
pub fn run(subject: &dyn Subject, rng: &mut Rng) -> Checked {
    if editcap().arg("--version").output().is_err() {
        println!("pcap: editcap is not installed: its conversion is passed over");
        return Ok(());
    }
    let directory = directory()?;
    let mut frames = 0;
    for turn in 0..FILES {
        let file = made_pcap(rng, FORMS[turn % 4]);
        let btsnoop = converted(&directory, &file, "btsnoop")?;
        frames += alike(subject, "which editcap made of it", &file, &btsnoop)?;
        let file = made_btsnoop(rng);
        let pcap = converted(&directory, &file, ["pcap", "nsecpcap"][turn % 2])?;
        frames += alike(subject, "of which editcap made it", &pcap, &file)?;
    }
    let _ = fs::remove_dir_all(&directory);
    if frames == 0 {
        return Err(failed("frames", "none in any file".into()));
    }
    println!(
        "pcap: editcap converted {} files, and {frames} frames are the same in both, with the FCS checked or not",
        2 * FILES
    );
    Ok(())
}
