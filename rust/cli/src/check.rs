//! Checking a fixture set: by its list, and by the trace that it came from.

use std::collections::{BTreeMap, BTreeSet};
use std::fs::{self, File};
use std::io::{self, Read};
use std::path::Path;

use crate::bytes;
use crate::found::Alone;
use crate::losses;
use crate::set::{self, Set};
use crate::sha256::sum;
use crate::words::{count, null_or, object, shown, string, wrong_fcs};
use lumbryth::FILE_MAX;

/// What is wrong with a set, or with a name of it.
pub struct Fault {
    /// One word: missing, changed, unreadable or extra, of a fixture; or list or trace.
    pub kind: &'static str,
    /// The fixture's name, or what is wrong with the list or the trace.
    pub what: String,
}

fn fault(kind: &'static str, what: impl Into<String>) -> Fault {
    Fault { kind, what: what.into() }
}

impl Fault {
    pub fn list(what: impl Into<String>) -> Fault {
        fault("list", what)
    }

    pub fn trace(what: impl Into<String>) -> Fault {
        fault("trace", what)
    }

    /// Whether it says the name of a fixture.
    fn of_a_name(&self) -> bool {
        !matches!(self.kind, "list" | "trace")
    }
}

/// What became of the fixtures that a list names, and what a reader would take that it does not name.
pub fn fixtures(dir: &Path, set: &Set) -> Result<Vec<Fault>, String> {
    let mut faults = Vec::new();
    for (name, sum) in &set.fixtures {
        match sum_of(&dir.join(name)) {
            Ok(Some(found)) if found == *sum => {}
            Ok(_) => faults.push(fault("changed", name)),
            Err(error) if error.kind() == io::ErrorKind::NotFound => faults.push(fault("missing", name)),
            Err(_) => faults.push(fault("unreadable", name)),
        }
    }
    let names = fs::read_dir(dir).map_err(|error| format!("the directory cannot be read: {error}: {}", shown(dir)))?;
    let mut extra = Vec::new();
    for entry in names {
        let name = entry.map_err(|error| format!("the directory cannot be read: {error}: {}", shown(dir)))?.file_name();
        if set::is_fixture_name(&name.to_string_lossy())
            && !name.to_str().is_some_and(|name| set.fixtures.contains_key(name))
        {
            extra.push(fault("extra", name.to_string_lossy()));
        }
    }
    extra.sort_by(|a, b| a.what.cmp(&b.what));
    faults.extend(extra);
    Ok(faults)
}

/// The sum of a file, if it is one that is not longer than any fixture.
fn sum_of(path: &Path) -> io::Result<Option<String>> {
    if !fs::metadata(path)?.is_file() {
        return Ok(None);
    }
    let mut bytes = Vec::new();
    File::open(path)?.take(FILE_MAX as u64 + 1).read_to_end(&mut bytes)?;
    Ok((bytes.len() <= FILE_MAX).then(|| sum(&bytes)))
}

/// Where a list contradicts itself: each counter is that of one fixture, or of one span that is none.
pub fn list(set: &Set) -> Vec<Fault> {
    let mut faults = Vec::new();
    let number = |name: &str| set.fact(name).and_then(|value| value.parse::<usize>().ok());
    if number("fixtures") != Some(set.fixtures.len()) {
        faults.push(Fault::list(format!("it names {} fixtures and says another number", set.fixtures.len())));
    }
    let mut seen = BTreeMap::new();
    let of_fixtures = set.fixtures.keys().map(|name| name.split('-').nth(3));
    let of_others = set.facts.iter().filter(|fact| fact.0 == "not a fixture").map(|fact| fact.1.split(' ').next());
    for counter in of_fixtures.chain(of_others) {
        *seen.entry(counter.and_then(|counter| counter.parse::<usize>().ok())).or_insert(0) += 1;
    }
    let frames = number("frames").unwrap_or(0);
    if seen.len() != frames || !(1..=frames).all(|counter| seen.get(&Some(counter)) == Some(&1)) {
        faults.push(Fault::list(format!("it does not name each of the counters 1 to {frames} once")));
    }
    if set.fact("bytes").is_some_and(|words| bytes::read(words).is_none()) {
        faults.push(Fault::list("where its bytes went cannot be read, or does not add up"));
    }
    faults
}

/// In what the set of a trace differs from the list that is there.
pub fn trace(found: &Set, again: &Set) -> Vec<Fault> {
    let (there, here) = found.differences(again);
    let mut faults: Vec<Fault> = there.iter().map(|fact| Fault::trace(format!("only the list has {fact}"))).collect();
    faults.extend(here.iter().map(|fact| Fault::trace(format!("only the trace has {fact}"))));
    for name in again.fixtures.keys().filter(|name| !found.fixtures.contains_key(*name)) {
        faults.push(Fault::trace(format!("only the trace has {name}")));
    }
    for (name, sum) in &found.fixtures {
        match again.fixtures.get(name) {
            None => faults.push(Fault::trace(format!("only the list has {name}"))),
            Some(other) if other != sum => {
                faults.push(Fault::trace(format!("other bytes than in the list has {name}")))
            }
            _ => {}
        }
    }
    faults
}

/// A line for each fault.
pub fn lines(faults: &[Fault]) -> String {
    let what = |fault: &Fault| if fault.of_a_name() { shown(&fault.what) } else { fault.what.clone() };
    faults.iter().map(|fault| format!("{}: {}\n", fault.kind, what(fault))).collect()
}

/// What is wrong in all: with the set itself, or only that the trace gives another; and how many faults of each kind there are.
pub fn verdict(faults: &[Fault]) -> String {
    let of = |kind: &str| faults.iter().filter(|fault| fault.kind == kind).count();
    let of_names = ["missing", "changed", "unreadable", "extra"].map(|kind| (of(kind), format!("{} {kind}", of(kind))));
    let of_list = (of("list"), count(of("list"), "fault in the list", "faults in the list"));
    let of_trace = (of("trace"), count(of("trace"), "difference", "differences") + " from the trace");
    let all = of_names.into_iter().chain([of_list, of_trace]);
    let parts: Vec<String> = all.filter(|(n, _)| *n > 0).map(|(_, words)| words).collect();
    let head = if of("trace") == faults.len() {
        "the set is as its list has it, but not as the trace gives it"
    } else {
        "the set is not as it was made"
    };
    format!("{head}, {}", parts.join(", "))
}

/// What a list says of its trace.
pub fn told(set: &Set) -> String {
    let fact = |name| set.fact(name).unwrap_or("not told");
    let (name, end) = (fact("trace name"), fact("end"));
    let frames = fact("frames");
    match set.alone() {
        Some(alone) => format!("{frames} frames of one link in the trace, {alone}, end {end}: {name}\n"),
        None => format!("{frames} frames in the trace, end {end}: {name}\n"),
    }
}

/// What a list says that the set lacks. Of UIH frames with a wrong FCS a line, if they were passed over; where the bytes went, a line,
/// also if it does not say, unless the set is of one link, whose list never says it; of losses a line for each, and one if it does not say; none if none was seen.
pub fn lacks(set: &Set) -> String {
    let dlci = set.fact("dlci").unwrap_or("not told");
    let wrong = set.wrong_fcs().map_or(String::new(), |n| wrong_fcs(dlci, n) + "\n");
    let bytes = match (set.fact("bytes"), set.fact(set::ONE_LINK)) {
        (None, Some(_)) => String::new(),
        (told, _) => bytes::line(dlci, told.unwrap_or("the list does not tell")) + "\n",
    };
    let told = set.all("losses");
    if told.is_empty() {
        return wrong + &bytes + "Losses: the list does not tell.\n";
    }
    let losses = told.iter().filter(|loss| **loss != losses::NONE).map(|loss| format!("Losses: {loss}.\n"));
    wrong + &bytes + &losses.collect::<String>()
}

/// An object for what the list says of losses, of the one link if it is of one, of the FCS and of the bytes, each fixture that is as it
/// should be, and each fault.
pub fn objects(set: &Set, faults: &[Fault]) -> String {
    let wrong: BTreeSet<&str> = faults.iter().map(|fault| &*fault.what).collect();
    let right = set.fixtures.keys().filter(|name| !wrong.contains(&***name));
    let of = |kind: &str, field: &str, what: &str| object(&[("kind", string(kind)), (field, string(what))]);
    let mut text: String = set.all("losses").iter().map(|loss| of("losses", "told", loss)).collect();
    text.extend(set.alone().map(|Alone { link, dlci }| {
        object(&[
            ("kind", string("link")),
            ("link", string(&link.to_string())),
            ("adapter", link.adapter.to_string()),
            ("handle", link.handle.to_string()),
            ("dlci", dlci.to_string()),
        ])
    }));
    text += &object(&[
        ("kind", string("fcs")),
        ("check_fcs", (set.fcs() == set::CHECKED).to_string()),
        ("wrong_fcs", null_or(set.wrong_fcs())),
    ]);
    let mut bytes = vec![("kind", string("bytes"))];
    bytes.extend(bytes::fields(set.fact("bytes").and_then(bytes::read)));
    text += &object(&bytes);
    text.extend(right.map(|name| of("ok", "name", name)));
    text.extend(
        faults.iter().map(|fault| of(fault.kind, if fault.of_a_name() { "name" } else { "reason" }, &fault.what)),
    );
    text
}
