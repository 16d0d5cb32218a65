//! What the tests of the program share.

#![allow(dead_code)]

use std::ffi::OsStr;
use std::fs;
use std::os::unix::fs::PermissionsExt;
use std::path::{Path, PathBuf};
use std::process::{Command, Output, Stdio};
use std::sync::atomic::{AtomicUsize, Ordering};

use lumbryth::{import, pack, plan, Fixture, TailRule};

pub const PROGRAM: &str = env!("CARGO_BIN_EXE_lumbryth");
/// The list that stands beside the fixtures.
pub const LIST: &str = "fixtures.sha256";

pub fn example(name: &str) -> PathBuf {
    Path::new(env!("CARGO_MANIFEST_DIR")).join("../../examples").join(name)
}

/// A directory of a test's own, removed after it. Its name is one that scripts stumble over.
pub struct Place(pub PathBuf);

impl Place {
    pub fn new() -> Place {
        static COUNT: AtomicUsize = AtomicUsize::new(0);
        let n = COUNT.fetch_add(1, Ordering::Relaxed);
        let dir = std::env::temp_dir().join(format!("lumbryth cli '{}' $n {n}", std::process::id()));
        fs::create_dir(&dir).unwrap();
        fs::set_permissions(&dir, fs::Permissions::from_mode(0o777)).unwrap();
        Place(dir)
    }

    pub fn join(&self, name: impl AsRef<Path>) -> PathBuf {
        self.0.join(name)
    }

    pub fn file(&self, name: &str, bytes: &[u8]) -> PathBuf {
        fs::write(self.join(name), bytes).unwrap();
        self.join(name)
    }
}

impl Drop for Place {
    fn drop(&mut self) {
        let _ = fs::remove_dir_all(&self.0);
    }
}

pub fn run<A: AsRef<OsStr>>(args: &[A]) -> Output {
    Command::new(PROGRAM).args(args).stdin(Stdio::null()).output().unwrap()
}

pub fn words(args: &[&dyn AsRef<OsStr>]) -> Output {
    run(&args.iter().map(|arg| arg.as_ref()).collect::<Vec<_>>())
}

pub fn status(output: &Output) -> i32 {
    output.status.code().expect("the program ends by itself")
}

pub fn out(output: &Output) -> String {
    String::from_utf8(output.stdout.clone()).unwrap()
}

pub fn err(output: &Output) -> String {
    String::from_utf8(output.stderr.clone()).unwrap()
}

/// The program ended with this status, nothing on standard output, and these words on standard error.
#[track_caller]
pub fn fails(output: &Output, with: i32, told: &[&str]) {
    assert_eq!(status(output), with, "{}", err(output));
    assert_eq!(out(output), "");
    for part in told {
        assert!(err(output).contains(part), "{part:?} is not in {:?}", err(output));
    }
    assert!(err(output).starts_with("lumbryth: "));
}

/// What a directory has, sorted.
pub fn listing(dir: &Path) -> Vec<String> {
    let mut names: Vec<_> = fs::read_dir(dir).unwrap().map(|e| e.unwrap().file_name().into_string().unwrap()).collect();
    names.sort();
    names
}

pub fn fixtures(file: &[u8]) -> Vec<Fixture> {
    plan(&import(file, None, TailRule::Tolerant).unwrap().spans, &[] as &[&str]).unwrap()
}

#[track_caller]
pub fn holds(dir: &Path, fixtures: &[Fixture]) {
    let mut names: Vec<_> = fixtures.iter().map(|f| f.name.clone()).chain([LIST.to_string()]).collect();
    names.sort();
    assert_eq!(listing(dir), names);
    for fixture in fixtures {
        assert_eq!(fs::read(dir.join(&fixture.name)).unwrap(), fixture.wire);
    }
}

/// Where each record starts, and where the last ends.
pub fn bounds(file: &[u8]) -> Vec<usize> {
    let mut bounds = vec![16];
    while bounds[bounds.len() - 1] < file.len() {
        let at = bounds[bounds.len() - 1];
        bounds.push(at + 24 + u32::from_be_bytes(file[at + 4..at + 8].try_into().unwrap()) as usize);
    }
    bounds
}

/// A trace with frames of these payloads, one to a record.
pub fn trace_of(payloads: &[Vec<u8>]) -> Vec<u8> {
    let mut file = b"btsnoop\0\0\0\0\x01\0\0\x03\xE9".to_vec();
    for payload in payloads {
        let wire = pack(0x0C, 0, payload).unwrap();
        let n = wire.len() as u16;
        let lengths = [n + 9, n + 5].map(u16::to_le_bytes);
        let length = (n << 1).to_le_bytes();
        let packet =
            [&[0x40, 0x20], &lengths[0][..], &lengths[1], &[0x41, 0, 0x49, 0xEF], &length, &wire, &[0]].concat();
        let included = (packet.len() as u32).to_be_bytes();
        file.extend(
            [&included, &included, &[0, 0, 0, 1], &[0; 4][..], &[0x00, 0xDD, 0, 0, 0, 0, 0, 0], &packet].concat(),
        );
    }
    file
}

/// A trace of pieces, one to a record: handle, whether it was received, DLCI, information.
pub fn trace_of_pieces(pieces: &[(u16, bool, u8, &[u8])]) -> Vec<u8> {
    let mut file = b"btsnoop\0\0\0\0\x01\0\0\x03\xE9".to_vec();
    for (handle, received, dlci, information) in pieces {
        let n = information.len() as u16;
        let numbers = [0x2000 | handle, n + 9, n + 5].map(u16::to_le_bytes).concat();
        let length = (n << 1).to_le_bytes();
        let packet = [&numbers[..], &[0x41, 0, dlci << 2 | 1, 0xEF], &length, information, &[0]].concat();
        let included = (packet.len() as u32).to_be_bytes();
        let flags = [0, 0, 0, u8::from(*received)];
        file.extend([&included, &included, &flags, &[0; 4][..], &[0x00, 0xDD, 0, 0, 0, 0, 0, 0], &packet].concat());
    }
    file
}

/// The sum of a file, by another program.
pub fn sum(path: &Path) -> String {
    out(&Command::new("sha256sum").arg("--").arg(path).output().unwrap()).trim_start_matches('\\')[..64].to_string()
}

/// Puts a changed text in the place of a list, with a right last line.
pub fn relist(place: &Place, dir: &Path, text: &str) {
    let body = &text[..text.rfind("# lines above").unwrap()];
    let last = sum(&place.file("body", body.as_bytes()));
    fs::write(dir.join(LIST), format!("{body}# lines above sha256: {last}\n")).unwrap();
}

/// A trace with many frames.
pub fn many(place: &Place, n: u32) -> PathBuf {
    let payloads: Vec<Vec<u8>> = (0..n).map(|i| vec![0x22, i as u8, (i >> 8) as u8]).collect();
    place.file("many", &trace_of(&payloads))
}
