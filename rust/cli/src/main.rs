//! `lumbryth`: fixtures from recorded Bluetooth traces, and a look inside them. A thin program over the proved library; what it
//! adds is reading and writing files, and words.

#![deny(unsafe_code)]

mod args;
mod bytes;
mod channels;
mod check;
mod found;
mod help;
mod hints;
mod losses;
#[allow(unsafe_code)]
mod os;
mod refused;
mod report;
mod set;
mod sha256;
mod source;
mod time;
mod words;
mod write;

use std::env;
use std::ffi::OsString;
use std::io::{self, Write};
use std::path::Path;
use std::process::ExitCode;

use args::{Check, Command, Import, Look};
use check::Fault;
use found::List;
use look::Trace;
use lumbryth::{import_stretches_with, plan, sizes_with, Fixture, Gaps, Options, TailRule};
use refused::{refused, Asked};
use set::Set;
use words::{count, shown};
use write::Stopped;

/// Why the program ends without doing what was asked.
enum Failure {
    /// Refused, or not possible: exit status 1.
    Refused(String),
    /// Asked wrongly: exit status 2.
    Usage(String),
    /// Nobody reads what is printed: nothing to say.
    Closed,
    /// Ended by a signal.
    Asked,
}

/// What can go wrong with printing.
impl From<io::Error> for Failure {
    fn from(error: io::Error) -> Failure {
        if error.kind() == io::ErrorKind::BrokenPipe {
            Failure::Closed
        } else {
            Failure::Refused(format!("cannot print: {error}"))
        }
    }
}

impl From<Stopped> for Failure {
    fn from(stopped: Stopped) -> Failure {
        match stopped {
            Stopped::Failed(words) => Failure::Refused(words),
            Stopped::Asked => Failure::Asked,
        }
    }
}

fn main() -> ExitCode {
    let args: Vec<OsString> = env::args_os().skip(1).collect();
    let (status, words) = match run(&args) {
        Ok(()) | Err(Failure::Closed) => return ExitCode::SUCCESS,
        Err(Failure::Refused(words)) => (1, words),
        Err(Failure::Usage(words)) => (2, words),
        Err(Failure::Asked) => (1, "interrupted: nothing was written".to_string()),
    };
    // If this cannot be printed either, the status still tells.
    let _ = writeln!(io::stderr(), "lumbryth: {words}");
    if os::asked_to_end() {
        os::end();
    }
    ExitCode::from(status)
}

fn run(args: &[OsString]) -> Result<(), Failure> {
    match args::parse(args).map_err(Failure::Usage)? {
        Command::Say(text) => print(&text),
        Command::Import(options) => run_import(&options),
        Command::Frames(look, json) => run_frames(&look, json),
        Command::Records(trace, json) => run_records(&trace, json),
        Command::Channels(trace, json) => run_channels(&trace, json),
        Command::Sizes(look, json) => run_sizes(&look, json),
        Command::Check(options) => run_check(&options),
    }
}

/// Prints all of a text, at once.
fn print(text: &str) -> Result<(), Failure> {
    let mut out = io::stdout().lock();
    out.write_all(text.as_bytes())?;
    out.flush()?;
    Ok(())
}

/// A trace that was read, and what was found in it.
struct Found {
    file: Vec<u8>,
    list: List,
    /// The signs that something is not in it.
    gaps: Gaps,
}

impl Found {
    fn trace(&self) -> Trace<'_> {
        Trace::of(&self.file)
    }
}

/// Reads and imports a trace; what is refused is told in words.
fn found(look: &Look) -> Result<Found, Failure> {
    imported(look, source::read(&look.trace).map_err(Failure::Refused)?)
}

/// How a trace is asked for.
fn options(look: &Look, trace: Trace) -> Options {
    let tail = if look.tolerant { TailRule::Tolerant } else { TailRule::Strict };
    let options = trace.options().with_tail(tail).with_check_fcs(look.check_fcs);
    look.channel.map_or(options, |channel| options.with_channel(channel))
}

fn imported(look: &Look, file: Vec<u8>) -> Result<Found, Failure> {
    let trace = Trace::of(&file);
    let options = options(look, trace);
    let list = match look.alone {
        Some(alone) => alone.list(&file, &options).map(|list| List::Link(alone, list)),
        None => import_stretches_with(&file, &options).map(|(imported, open)| List::Import(imported, open)),
    };
    match list.and_then(|list| Ok((list, trace.gaps(options.tail)?))) {
        Ok((list, gaps)) => Ok(Found { file, list, gaps }),
        Err(refusal) => Err(Failure::Refused(refused(&look.trace, look.into(), trace, refusal))),
    }
}

/// The fixtures of an import, and the list of their set.
fn planned(look: &Look, exclude: &[String], found: &Found) -> Result<(Vec<Fixture>, Set), Failure> {
    let fixtures = plan(found.list.spans(), exclude).map_err(|refusal| {
        Failure::Refused(format!("refused ({}): {refusal}: {}", refusal.number(), shown(&look.trace)))
    })?;
    let set = Set::of(found.trace(), look, exclude, &found.list, &found.gaps, &fixtures);
    Ok((fixtures, set))
}

/// The DLCI that is taken where the FCS is not checked, if it is another, and the other DLCIs that carry frames, a line each. Where one
/// link is asked for, nothing else is told.
fn others(trace: Trace, look: &Look, list: &List) -> String {
    let List::Import(imported, _) = list else { return String::new() };
    let taken = Some(imported.dlci);
    let unchecked = look.check_fcs.then(|| channels::unchecked_line(trace, look.channel, taken)).flatten();
    let others = channels::other_lines(trace, look.check_fcs, taken);
    unchecked.iter().chain(&others).map(|line| format!("{line}\n")).collect()
}

fn run_import(options: &Import) -> Result<(), Failure> {
    let found = found(&options.look)?;
    let (fixtures, set) = planned(&options.look, &options.exclude, &found)?;
    let (trace, Found { list, gaps, .. }) = (found.trace(), &found);
    let mut findings = report::findings(trace, &options.look, list, "among the fixtures");
    findings += &report::missing(trace, list, gaps);
    findings += &others(trace, &options.look, list);
    let excluded = list.spans().len() - report::broken(list.spans()) - fixtures.len();
    if !options.exclude.is_empty() {
        findings += &format!("{} left out by --exclude.\n", count(excluded, "frame", "frames"));
    }
    let Some(dir) = &options.out else {
        let _ = io::stderr().write_all(findings.as_bytes());
        let names: Vec<&str> = fixtures.iter().flat_map(|fixture| [&fixture.name, "\n"]).collect();
        return print(&names.concat());
    };
    let done = write::set(dir, &set, &fixtures)?;
    findings += &report::written(&done, dir);
    print(&findings)
}

fn run_frames(look: &Look, json: bool) -> Result<(), Failure> {
    let found = found(look)?;
    let (trace, Found { list, gaps, .. }) = (found.trace(), &found);
    if json {
        let others = match list {
            List::Import(imported, _) => channels::other_objects(trace, look.check_fcs, imported.dlci),
            List::Link(..) => String::new(),
        };
        return print(&(report::frame_objects(trace, look, list, gaps) + &others));
    }
    let mut findings = report::findings(trace, look, list, "listed");
    findings += &report::missing(trace, list, gaps);
    findings += &others(trace, look, list);
    print(&(findings + &report::frames(list.spans())))
}

fn run_records(path: &Path, json: bool) -> Result<(), Failure> {
    let file = source::read(path).map_err(Failure::Refused)?;
    let trace = Trace::of(&file);
    let told = |refusal| Failure::Refused(refused(path, Asked::default(), trace, refusal));
    let (found, gaps) = (trace.records().map_err(told)?, trace.gaps(TailRule::Tolerant).map_err(told)?);
    print(&if json { report::record_objects(trace, &found, &gaps) } else { report::records(trace, &found, &gaps) })
}

fn run_channels(path: &Path, json: bool) -> Result<(), Failure> {
    let file = source::read(path).map_err(Failure::Refused)?;
    let trace = Trace::of(&file);
    let told = |refusal| Failure::Refused(refused(path, Asked::default(), trace, refusal));
    let (seen, gaps) = (look::look(trace, false).map_err(told)?, trace.gaps(TailRule::Tolerant).map_err(told)?);
    print(&if json { channels::objects(trace, &seen, &gaps) } else { channels::text(trace, &seen, &gaps) })
}

fn run_sizes(look: &Look, json: bool) -> Result<(), Failure> {
    let file = source::read(&look.trace).map_err(Failure::Refused)?;
    let trace = Trace::of(&file);
    let told = |refusal| Failure::Refused(refused(&look.trace, look.into(), trace, refusal));
    let sizes = sizes_with(&file, &options(look, trace)).map_err(told)?;
    print(&if json { report::sizes_object(trace, &sizes) } else { report::sizes(trace, look, &sizes) })
}

fn run_check(options: &Check) -> Result<(), Failure> {
    let dir = &options.dir;
    if !dir.is_dir() {
        let words = if dir.exists() { "this is not a directory" } else { "there is no such directory" };
        return Err(Failure::Refused(format!("{words}: {}", shown(dir))));
    }
    let list = dir.join(set::NAME);
    if !list.exists() {
        return Err(Failure::Refused(format!("no list of a fixture set is there: {}", shown(&list))));
    }
    let there = write::read_list(&list).map_err(|words| Failure::Refused(format!("{words}: {}", shown(&list))))?;
    let mut faults = check::list(&there);
    faults.extend(check::fixtures(dir, &there).map_err(Failure::Refused)?);
    if let Some(trace) = &options.trace {
        faults.extend(imported_again(trace, &there)?);
    }
    let text =
        if options.json { check::objects(&there, &faults) } else { check::lacks(&there) + &check::lines(&faults) };
    if faults.is_empty() {
        let by = if options.trace.is_some() { "as the list and the trace have them" } else { "as the list has them" };
        let words = format!("{}, all {by}: {}\n", count(there.fixtures.len(), "fixture", "fixtures"), shown(dir));
        return print(&if options.json { text } else { check::told(&there) + &text + &words });
    }
    print(&text)?;
    Err(Failure::Refused(format!("{}: {}", check::verdict(&faults), shown(dir))))
}

/// In what a trace, imported as the set was asked for, differs from the set.
fn imported_again(trace: &Path, there: &Set) -> Result<Vec<Fault>, Failure> {
    let Some(asked) = there.asked() else {
        return Ok(vec![Fault::list("it does not say how the set was asked for")]);
    };
    let tolerant = asked.tail == TailRule::Tolerant;
    let set::Asked { channel, check_fcs, alone, .. } = asked;
    let look = Look { trace: trace.to_path_buf(), channel, tolerant, check_fcs, alone };
    let file = source::read(trace).map_err(Failure::Refused)?;
    let mut faults = Vec::new();
    if Some(&*sha256::sum(&file)) != there.fact("trace sha256") {
        faults.push(Fault::trace("it is not the one that the set was made from"));
    }
    match imported(&look, file).and_then(|found| planned(&look, &asked.exclude, &found)) {
        Ok((_, again)) => faults.extend(check::trace(there, &again)),
        Err(Failure::Refused(words)) => faults.push(Fault::trace(words)),
        Err(other) => return Err(other),
    }
    Ok(faults)
}
