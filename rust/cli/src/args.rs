//! The words of the command line.

use std::ffi::{OsStr, OsString};
use std::os::unix::ffi::OsStrExt;
use std::path::PathBuf;
use std::str::FromStr;

use crate::found::Alone;
use crate::help;
use crate::words::shown;
use lumbryth::{is_command_name, Link};

/// A trace, and how to import it.
#[derive(Debug, PartialEq)]
pub struct Look {
    pub trace: PathBuf,
    pub channel: Option<u8>,
    pub tolerant: bool,
    /// Whether UIH frames with a wrong FCS are passed over.
    pub check_fcs: bool,
    /// The one link and DLCI to take; then the rule is strict, and neither a channel nor the FCS is looked at.
    pub alone: Option<Alone>,
}

#[derive(Debug, PartialEq)]
pub struct Import {
    pub look: Look,
    pub exclude: Vec<String>,
    /// Where the fixtures go; none for a dry run.
    pub out: Option<PathBuf>,
}

#[derive(Debug, PartialEq)]
pub struct Check {
    pub dir: PathBuf,
    /// The trace to import again.
    pub trace: Option<PathBuf>,
    pub json: bool,
}

#[derive(Debug, PartialEq)]
pub enum Command {
    Import(Import),
    /// With `true`, an object a line.
    Frames(Look, bool),
    Records(PathBuf, bool),
    Channels(PathBuf, bool),
    Sizes(Look, bool),
    Check(Check),
    /// Print this and nothing else.
    Say(String),
}

/// The options that a command takes: those with a value, and those without.
struct Takes {
    command: &'static str,
    values: &'static [&'static str],
    flags: &'static [&'static str],
}

const IMPORT: Takes = Takes {
    command: "import",
    values: &["--out", "--channel", "--link", "--dlci", "--exclude"],
    flags: &["--tolerant", "--check-fcs", "--dry-run"],
};
const RECORDS: Takes = Takes { command: "records", values: &[], flags: &["--json"] };
const FRAMES: Takes = Takes {
    command: "frames",
    values: &["--channel", "--link", "--dlci"],
    flags: &["--tolerant", "--check-fcs", "--json"],
};
const CHANNELS: Takes = Takes { command: "channels", values: &[], flags: &["--json"] };
const SIZES: Takes =
    Takes { command: "sizes", values: &["--channel"], flags: &["--tolerant", "--check-fcs", "--json"] };
const CHECK: Takes = Takes { command: "check", values: &[], flags: &["--json"] };

/// What was given: the trace, and options with their values.
#[derive(Default)]
struct Given {
    traces: Vec<OsString>,
    values: Vec<(&'static str, OsString)>,
    flags: Vec<&'static str>,
    help: bool,
}

impl Given {
    fn all(&self, option: &str) -> Vec<&OsString> {
        self.values.iter().filter(|(name, _)| *name == option).map(|(_, value)| value).collect()
    }

    /// The value of an option that may be given once.
    fn once(&self, option: &str) -> Result<Option<&OsString>, String> {
        match self.all(option)[..] {
            [] => Ok(None),
            [value] => Ok(Some(value)),
            _ => Err(format!("{option} is given more than once")),
        }
    }

    fn has(&self, flag: &str) -> bool {
        self.flags.contains(&flag)
    }

    fn look(&self) -> Result<Look, String> {
        let trace = match &self.traces[..] {
            [] => return Err("no trace is named".to_string()),
            [trace] if trace.is_empty() => return Err("the trace's name is empty".to_string()),
            [trace] => trace.into(),
            [_, second, ..] => return Err(format!("one trace at a time: '{}' is one too many", shown(second))),
        };
        let channel = self.once("--channel")?.map(|value| channel(value)).transpose()?;
        let (tolerant, check_fcs, alone) = (self.has("--tolerant"), self.has("--check-fcs"), self.alone()?);
        Ok(Look { trace, channel, tolerant, check_fcs, alone })
    }

    /// The one link and DLCI to take, if they are given. What does not go with them is refused, so that nothing is asked for and not
    /// done.
    fn alone(&self) -> Result<Option<Alone>, String> {
        let link = self.once("--link")?.map(|value| link(value)).transpose()?;
        let dlci = self.once("--dlci")?.map(|value| dlci(value)).transpose()?;
        let alone = match (link, dlci) {
            (Some(link), Some(dlci)) => Alone { link, dlci },
            (None, None) => return Ok(None),
            (Some(_), None) => return Err("--link needs --dlci beside it, the DLCI to take".to_string()),
            (None, Some(_)) => return Err("--dlci needs --link beside it, the link to take".to_string()),
        };
        if !self.all("--channel").is_empty() {
            return Err(
                "--channel does not go with --link, which takes one DLCI, by --dlci; a channel has two".to_string()
            );
        }
        if self.has("--tolerant") {
            return Err("--tolerant does not go with --link, which reads by the strict rule: it refuses a file that \
                 ends inside a record"
                .to_string());
        }
        if self.has("--check-fcs") {
            return Err("--check-fcs does not go with --link, which does not check the FCS".to_string());
        }
        Ok(Some(alone))
    }
}

pub fn parse(args: &[OsString]) -> Result<Command, String> {
    let Some((first, rest)) = args.split_first() else {
        return Err(format!("no command is given\n{}", help::USAGE.trim_end()));
    };
    match first.to_str() {
        Some("import") => command(&IMPORT, help::IMPORT, rest, import),
        Some("frames") => command(&FRAMES, help::FRAMES, rest, |given| {
            // A file that is cut is listed up to there; not that of one link, whose list is strict.
            given.look().map(|look| {
                let tolerant = look.alone.is_none();
                Command::Frames(Look { tolerant, ..look }, given.has("--json"))
            })
        }),
        Some("records") => command(&RECORDS, help::RECORDS, rest, |given| {
            given.look().map(|look| Command::Records(look.trace, given.has("--json")))
        }),
        Some("channels") => command(&CHANNELS, help::CHANNELS, rest, |given| {
            given.look().map(|look| Command::Channels(look.trace, given.has("--json")))
        }),
        Some("sizes") => command(&SIZES, help::SIZES, rest, |given| {
            given.look().map(|look| Command::Sizes(look, given.has("--json")))
        }),
        Some("check") => command(&CHECK, help::CHECK, rest, check),
        Some("--help" | "-h") => Ok(Command::Say(help::ALL.to_string())),
        Some("--version" | "-V") => Ok(Command::Say(concat!("lumbryth ", env!("CARGO_PKG_VERSION"), "\n").to_string())),
        _ => {
            let kind = if first.as_bytes().starts_with(b"-") { "option" } else { "command" };
            Err(format!("there is no {kind} '{}'; see lumbryth --help", shown(first)))
        }
    }
}

/// A command's words: help if it is asked for, else what `make` makes of them.
fn command(
    takes: &Takes,
    text: &str,
    args: &[OsString],
    make: impl Fn(&Given) -> Result<Command, String>,
) -> Result<Command, String> {
    let more = |words| format!("{words}; see lumbryth {} --help", takes.command);
    let given = read(takes, args).map_err(more)?;
    if given.help {
        return Ok(Command::Say(text.to_string()));
    }
    make(&given).map_err(more)
}

fn read(takes: &Takes, args: &[OsString]) -> Result<Given, String> {
    let mut given = Given::default();
    let mut args = args.iter();
    while let Some(arg) = args.next() {
        let bytes = arg.as_bytes();
        if bytes == b"--" {
            given.traces.extend(args.cloned());
            break;
        }
        if bytes.len() < 2 || bytes[0] != b'-' {
            given.traces.push(arg.clone());
            continue;
        }
        if bytes == b"--help" || bytes == b"-h" {
            given.help = true;
            continue;
        }
        if let Some(flag) = takes.flags.iter().find(|flag| flag.as_bytes() == bytes) {
            given.flags.push(flag);
            continue;
        }
        let (name, attached) = match bytes.iter().position(|b| *b == b'=') {
            Some(i) => (&bytes[..i], Some(OsStr::from_bytes(&bytes[i + 1..]))),
            None => (bytes, None),
        };
        let Some(option) = takes.values.iter().find(|option| option.as_bytes() == name) else {
            let name = shown(OsStr::from_bytes(name));
            if attached.is_some() && takes.flags.contains(&&*name) {
                return Err(format!("{name} takes no value"));
            }
            return Err(format!("{} has no option '{name}'", takes.command));
        };
        let value = match attached {
            Some(value) => value.to_os_string(),
            None => args.next().cloned().ok_or(format!("{option} needs a value"))?,
        };
        given.values.push((option, value));
    }
    Ok(given)
}

fn channel(value: &OsStr) -> Result<u8, String> {
    match value.to_str().and_then(decimal) {
        Some(channel @ 0..=31) => Ok(channel),
        _ => Err(format!("--channel takes a number from 0 to 31, not '{}'", shown(value))),
    }
}

/// A number in digits alone.
fn decimal<N: FromStr>(text: &str) -> Option<N> {
    text.bytes().all(|b| b.is_ascii_digit()).then(|| text.parse().ok()).flatten()
}

/// A connection by its adapter and handle, as `--link` takes it.
pub fn read_link(text: &str) -> Option<Link> {
    let (adapter, handle) = text.split_once(':')?;
    Some(Link { adapter: decimal(adapter)?, handle: decimal(handle).filter(|handle| *handle <= 4095)? })
}

/// A DLCI, as `--dlci` takes it.
pub fn read_dlci(text: &str) -> Option<u8> {
    decimal(text).filter(|dlci| (1..=63).contains(dlci))
}

fn link(value: &OsStr) -> Result<Link, String> {
    value.to_str().and_then(read_link).ok_or_else(|| {
        format!(
            "--link takes an adapter's index, 0 to 65535, a colon and a handle, 0 to 4095, such as 0:6, not '{}'",
            shown(value)
        )
    })
}

fn dlci(value: &OsStr) -> Result<u8, String> {
    let words = || format!("--dlci takes a number from 1 to 63, not '{}'", shown(value));
    value.to_str().and_then(read_dlci).ok_or_else(words)
}

/// Whether a frame can have a command of this name; those without one, such as acknowledgements, have NO_COMMAND.
pub fn is_name(name: &str) -> bool {
    name == "NO_COMMAND" || is_command_name(name)
}

/// A name to leave out, alone or as a part of a file name, such as `cmd-POWER_GET_STATUS-22`. One that no frame can have would leave
/// in what was meant to be left out, so it is refused.
fn excluded(value: &OsStr) -> Result<String, String> {
    let text = value.to_str().unwrap_or("");
    let inside = text.strip_prefix("cmd-").and_then(|part| part.rsplit_once('-'));
    let name = match inside {
        Some((name, number)) if number.len() == 2 && number.bytes().all(|b| b.is_ascii_hexdigit()) => name,
        _ => text,
    };
    match name {
        name if is_name(name) => Ok(name.to_string()),
        _ => Err(format!(
            "--exclude takes the name of a command, as lumbryth frames shows it, and '{}' is none",
            shown(value)
        )),
    }
}

fn check(given: &Given) -> Result<Command, String> {
    let (dir, trace) = match &given.traces[..] {
        [] => return Err("no directory is named".to_string()),
        [dir] => (dir, None),
        [dir, trace] => (dir, Some(trace)),
        [_, _, third, ..] => return Err(format!("a directory and a trace: '{}' is one too many", shown(third))),
    };
    if dir.is_empty() {
        return Err("the name of the directory is empty".to_string());
    }
    if trace.is_some_and(|trace| trace.is_empty()) {
        return Err("the trace's name is empty".to_string());
    }
    Ok(Command::Check(Check { dir: dir.into(), trace: trace.map(PathBuf::from), json: given.has("--json") }))
}

fn import(given: &Given) -> Result<Command, String> {
    let look = given.look()?;
    let mut exclude = given.all("--exclude").into_iter().map(|name| excluded(name)).collect::<Result<Vec<_>, _>>()?;
    exclude.sort();
    exclude.dedup();
    let out = given.once("--out")?.map(PathBuf::from);
    match &out {
        Some(dir) if dir.as_os_str().is_empty() => return Err("the name of the directory is empty".to_string()),
        None if !given.has("--dry-run") => return Err("--out says where the fixtures go, and is not given".to_string()),
        _ => {}
    }
    Ok(Command::Import(Import { look, exclude, out: out.filter(|_| !given.has("--dry-run")) }))
}
