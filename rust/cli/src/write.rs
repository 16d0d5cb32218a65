//! Writing a fixture set: all of it or nothing, and nothing over another file.

use std::fs::{self, File, OpenOptions};
use std::io::{self, IsTerminal, Write};
use std::path::{Path, PathBuf};
use std::process;
use std::time::{Duration, Instant};

use crate::os;
use crate::set::{self, Set};
use crate::words::{count, shown};
use lumbryth::Fixture;

/// How many were written, and how many were there already.
pub struct Done {
    pub written: usize,
    pub there: usize,
}

/// Why nothing was written.
pub enum Stopped {
    Failed(String),
    /// A signal asked the program to end.
    Asked,
}

impl From<String> for Stopped {
    fn from(words: String) -> Stopped {
        Stopped::Failed(words)
    }
}

/// What was made so far; it is removed again unless it is kept.
#[derive(Default)]
struct Made {
    dirs: Vec<PathBuf>,
    files: Vec<PathBuf>,
    /// A directory with the files before they have their place; never kept.
    stage: Option<PathBuf>,
    kept: bool,
}

impl Drop for Made {
    fn drop(&mut self) {
        if let Some(stage) = &self.stage {
            let _ = fs::remove_dir_all(stage);
        }
        if self.kept {
            return;
        }
        for file in self.files.iter().rev() {
            let _ = fs::remove_file(file);
        }
        for dir in self.dirs.iter().rev() {
            let _ = fs::remove_dir(dir);
        }
    }
}

impl Made {
    /// Makes a directory in this one, for files that have no place yet.
    fn stage(&mut self, above: &Path) -> io::Result<PathBuf> {
        for n in 0.. {
            let stage = above.join(format!(".lumbryth.{}.{n}.part", process::id()));
            match fs::create_dir(&stage) {
                Err(error) if error.kind() == io::ErrorKind::AlreadyExists => {}
                Err(error) => return Err(error),
                Ok(()) => {
                    self.stage = Some(stage.clone());
                    return Ok(stage);
                }
            }
        }
        unreachable!("some number is free")
    }
}

fn failed(path: &Path) -> impl Fn(io::Error) -> Stopped + '_ {
    move |error| Stopped::Failed(format!("cannot be written: {error}: {}", shown(path)))
}

/// Says now and then how far it is, a line each time, where someone may be waiting at a terminal.
struct Progress {
    total: usize,
    told: Option<Instant>,
}

impl Progress {
    fn of(total: usize) -> Progress {
        Progress { total, told: io::stderr().is_terminal().then(Instant::now) }
    }

    fn say(words: &str) {
        let _ = writeln!(io::stderr(), "lumbryth: {words}");
    }

    fn at(&mut self, n: usize) {
        if self.told.is_some_and(|told| told.elapsed() >= Duration::from_secs(1)) {
            Progress::say(&format!("{n} of {} written so far", count(self.total, "fixture", "fixtures")));
            self.told = Some(Instant::now());
        }
    }

    fn waits(&self) {
        if self.told.is_some() && self.total >= 1000 {
            Progress::say(&format!("{} written, waiting for the disk", count(self.total, "fixture", "fixtures")));
        }
    }
}

/// Writes a set to a directory, which is made if it is not there. If anything fails, or a signal asks the program to end, nothing is
/// left of it.
pub fn set(dir: &Path, set: &Set, fixtures: &[Fixture]) -> Result<Done, Stopped> {
    // The nearest of the directory and those above it that is there.
    let nearest = dir.ancestors().find(|above| fs::symlink_metadata(above).is_ok());
    if let Some(other) = nearest.filter(|above| !above.is_dir()) {
        return Err(format!("nothing was written: this is not a directory: {}", shown(other)).into());
    }
    os::watch();
    if dir.is_dir() {
        return join(dir, set, fixtures);
    }
    let mut made = Made::default();
    let Some(name) = dir.file_name() else {
        // A name such as `a/..` is there once what stands before it is.
        make_dirs(dir, &mut made.dirs).map_err(failed(dir))?;
        let done = join(dir, set, fixtures)?;
        made.kept = true;
        return Ok(done);
    };
    let above = above(dir);
    make_dirs(above, &mut made.dirs).map_err(failed(dir))?;
    let stage = made.stage(above).map_err(failed(dir))?;
    fill(&stage, Some(set), &fixtures.iter().collect::<Vec<_>>())?;
    // It appears whole; what has come to stand there meanwhile stays, unless it is an empty directory.
    fs::rename(&stage, above.join(name)).map_err(failed(dir))?;
    made.stage = None;
    made.kept = true;
    sync_names(above);
    Ok(Done { written: fixtures.len(), there: 0 })
}

/// The directory that a path is in.
fn above(path: &Path) -> &Path {
    path.parent().filter(|above| !above.as_os_str().is_empty()).unwrap_or(Path::new("."))
}

/// Completes a set in a directory that is there.
fn join(dir: &Path, set: &Set, fixtures: &[Fixture]) -> Result<Done, Stopped> {
    let listed = same_set(dir, set)?;
    let new = still_to_write(dir, fixtures)?;
    let there = fixtures.len() - new.len();
    if new.is_empty() && listed {
        return Ok(Done { written: 0, there });
    }
    let mut made = Made::default();
    let stage = made.stage(dir).map_err(failed(dir))?;
    fill(&stage, (!listed).then_some(set), &new)?;
    // The list last: where it is, all is.
    let list = (!listed).then_some(set::NAME);
    for name in new.iter().map(|fixture| &*fixture.name).chain(list) {
        let path = dir.join(name);
        appear(&stage.join(name), &path).map_err(failed(&path))?;
        made.files.push(path);
        go_on()?;
    }
    made.kept = true;
    drop(made);
    sync_names(dir);
    Ok(Done { written: new.len(), there })
}

/// Whether the set's list is in a directory. What belongs to another set is refused.
fn same_set(dir: &Path, set: &Set) -> Result<bool, String> {
    let list = dir.join(set::NAME);
    let listed = fs::symlink_metadata(&list).is_ok();
    if listed {
        let found = read_list(&list).map_err(|words| format!("nothing was written: {words}: {}", shown(&list)))?;
        if let Some(words) = other(&found, set) {
            return Err(format!("nothing was written: {words}: {}", shown(dir)));
        }
    }
    let names = fs::read_dir(dir).map_err(|error| format!("the directory cannot be read: {error}: {}", shown(dir)))?;
    for name in names.filter_map(|entry| Some(entry.ok()?.file_name())) {
        let path = dir.join(&name);
        let name = name.to_string_lossy();
        if set::is_fixture_name(&name) && !set.fixtures.contains_key(&*name) {
            return Err(format!("nothing was written: the directory has a fixture of another set: {}", shown(&path)));
        }
    }
    Ok(listed)
}

/// Reads a set's list.
pub fn read_list(list: &Path) -> Result<Set, String> {
    let is_file = fs::metadata(list).is_ok_and(|data| data.is_file());
    let bytes = if is_file { fs::read(list) } else { Err(io::Error::other("it is not a file")) };
    let bytes = bytes.map_err(|error| format!("the list of the set cannot be read: {error}"))?;
    let text = String::from_utf8(bytes).map_err(|_| "the list of the set is not text".to_string())?;
    Set::read(&text).map_err(|words| format!("the list of the set is wrong: {words}"))
}

/// In what a set that is there is another.
fn other(found: &Set, set: &Set) -> Option<String> {
    if found == set {
        return None;
    }
    if found.fact("trace sha256") != set.fact("trace sha256") {
        let name = found.fact("trace name").unwrap_or("of no name");
        return Some(format!("the directory has the set of another trace, {name}"));
    }
    if let Some(links) = of_links(found).filter(|there| of_links(set).as_ref() != Some(there)) {
        return Some(format!("give another directory to --out, for this one has a set of this trace of {links}"));
    }
    let (there, here) = found.differences(set);
    if there.is_empty() && here.is_empty() && found.fixtures == set.fixtures {
        return None;
    }
    let asked = ["exclude", "channel", "tail rule", "fcs"]
        .into_iter()
        .filter(|name| {
            let of = |facts: &[String]| facts.iter().any(|fact| fact.starts_with(&format!("{name}: ")));
            of(&there) || of(&here)
        })
        .map(|name| (name, if name == "fcs" { vec![found.fcs()] } else { found.all(name) }))
        .find(|(_, values)| !values.is_empty());
    Some(match asked {
        Some((name, values)) => format!(
            "the directory has a set of this trace that was asked for otherwise, with {name} {}",
            values.join(" ")
        ),
        None => "the directory has a set of this trace whose list says something else".to_string(),
    })
}

/// Of which links a set is, if its list says it.
fn of_links(set: &Set) -> Option<String> {
    match set.fact(set::ONE_LINK) {
        None => Some("all links".to_string()),
        Some(_) => set.alone().map(|alone| alone.to_string()),
    }
}

/// Writes files to a directory of their own, and waits once until they are on the disk.
fn fill(stage: &Path, set: Option<&Set>, fixtures: &[&Fixture]) -> Result<(), Stopped> {
    // Opened first, so that what goes wrong on the way to the disk is told at the end.
    let open = File::open(stage).map_err(failed(stage))?;
    let mut progress = Progress::of(fixtures.len());
    for (n, fixture) in fixtures.iter().enumerate() {
        let path = stage.join(&fixture.name);
        write_new(&path, &fixture.wire).map_err(failed(&path))?;
        progress.at(n + 1);
        go_on()?;
    }
    if let Some(set) = set {
        let path = stage.join(set::NAME);
        write_new(&path, set.text().as_bytes()).map_err(failed(&path))?;
    }
    progress.waits();
    os::sync(&open).map_err(failed(stage))?;
    go_on()
}

/// Stops if a signal asked for it.
fn go_on() -> Result<(), Stopped> {
    if os::asked_to_end() {
        Err(Stopped::Asked)
    } else {
        Ok(())
    }
}

/// The names in a directory go down to the disk, where the file system can do that.
fn sync_names(dir: &Path) {
    let _ = File::open(dir).and_then(|dir| dir.sync_all());
}

/// The fixtures that are not there yet; a file that holds something else is refused.
fn still_to_write<'a>(dir: &Path, fixtures: &'a [Fixture]) -> Result<Vec<&'a Fixture>, String> {
    let mut new = Vec::new();
    for fixture in fixtures {
        let path = dir.join(&fixture.name);
        if fs::symlink_metadata(&path).is_err() {
            new.push(fixture);
        } else if !holds(&path, &fixture.wire) {
            return Err(format!("nothing was written: this exists and holds something else: {}", shown(&path)));
        }
    }
    Ok(new)
}

/// Whether a path is a file with these bytes.
pub fn holds(path: &Path, bytes: &[u8]) -> bool {
    let is_file = fs::metadata(path).is_ok_and(|data| data.is_file() && data.len() == bytes.len() as u64);
    is_file && fs::read(path).is_ok_and(|found| found == bytes)
}

/// Makes a directory and those above it, and notes which were made.
fn make_dirs(dir: &Path, made: &mut Vec<PathBuf>) -> io::Result<()> {
    if dir.as_os_str().is_empty() || dir.is_dir() {
        return Ok(());
    }
    if let Some(above) = dir.parent() {
        make_dirs(above, made)?;
    }
    match fs::create_dir(dir) {
        Ok(()) => made.push(dir.to_path_buf()),
        // Such as `a/.`, or made by someone else just now.
        Err(_) if dir.is_dir() => {}
        Err(error) => return Err(error),
    }
    Ok(())
}

/// Writes a file that is not there yet.
fn write_new(path: &Path, bytes: &[u8]) -> io::Result<()> {
    OpenOptions::new().write(true).create_new(true).open(path)?.write_all(bytes)
}

/// Gives a finished file its place, unless something has that name by now.
fn appear(from: &Path, path: &Path) -> io::Result<()> {
    match fs::hard_link(from, path) {
        Ok(()) => Ok(()),
        Err(error) if error.kind() == io::ErrorKind::AlreadyExists => Err(error),
        // Some file systems have no second names.
        Err(_) if fs::symlink_metadata(path).is_err() => fs::rename(from, path),
        Err(error) => Err(error),
    }
}
