//! The list of a fixture set: the file in it that says where the set came from and what belongs to it, so that a set can be checked.
//!
//! Its first line says what it is; then come facts, a line each, sorted, which begin with `#`; then a line for each fixture, sorted
//! by name, in the form that `sha256sum -c` takes, which passes over lines with `#`; then the sum of all lines above.

use std::collections::{BTreeMap, BTreeSet};

use crate::args::{is_name, read_dlci, read_link, Look};
use crate::bytes::{self, In};
use crate::found::{Alone, List};
use crate::losses;
use crate::sha256::sum;
use crate::words::{datalink, shown};
use look::Trace;
use lumbryth::{fixture_name, Container, Ending, Fixture, Gaps, TailRule};

/// The list's name. A reader of fixtures takes only names with -rx. or -tx. that end with .bin.
pub const NAME: &str = "fixtures.sha256";

/// Whether UIH frames with a wrong FCS were passed over. A list that does not say it is of an import that did not look.
pub const CHECKED: &str = "checked";
const NOT_CHECKED: &str = "not checked";

/// The link, as `--link` takes it, if the set is of one link and DLCI alone.
pub const ONE_LINK: &str = "one link";

const TITLE: &str = "# lumbryth fixture set 1";
const LAST: &str = "# lines above sha256: ";

/// Whether a reader of fixtures takes a file of this name.
pub fn is_fixture_name(name: &str) -> bool {
    name.ends_with(".bin") && (name.contains("-rx.") || name.contains("-tx."))
}

/// What a list says.
#[derive(Debug, PartialEq, Clone)]
pub struct Set {
    /// Names and values, sorted. A name may come again.
    pub facts: Vec<(String, String)>,
    /// The sum of each fixture, by its name.
    pub fixtures: BTreeMap<String, String>,
}

/// How an import was asked for.
#[derive(Debug, PartialEq)]
pub struct Asked {
    pub channel: Option<u8>,
    pub tail: TailRule,
    pub check_fcs: bool,
    pub exclude: Vec<String>,
    pub alone: Option<Alone>,
}

/// The command in a fixture's name.
pub fn command_in(name: &str) -> &str {
    let part = name.split_once(".cmd-").map_or("", |(_, part)| part);
    part.rsplit_once('-').map_or("", |(command, _)| command)
}

/// How a file ends.
fn end(trace: Trace) -> String {
    match trace.ending() {
        Ok(Ending::Inside(cut)) => format!("cut inside the record that starts at byte {}", cut.offset),
        Ok(Ending::Length { offset, length }) => {
            format!("damaged, the record that starts at byte {offset} has length {length}")
        }
        Ok(Ending::Zeros { offset, .. }) => format!("damaged, zeros only from byte {offset} on"),
        _ => "at a record's end, more may have been recorded".to_string(),
    }
}

/// The format of a trace, and its datalink or link type.
fn container(trace: Trace) -> String {
    match trace.container {
        Container::Btsnoop => format!("btsnoop, {}", datalink(trace)),
        _ => datalink(trace),
    }
}

impl Set {
    /// The list of what was found and the fixtures planned from it.
    pub fn of(trace: Trace, look: &Look, exclude: &[String], list: &List, gaps: &Gaps, fixtures: &[Fixture]) -> Set {
        let fixtures: BTreeMap<String, String> =
            fixtures.iter().map(|fixture| (fixture.name.clone(), sum(&fixture.wire))).collect();
        let name = look.trace.file_name().unwrap_or(look.trace.as_os_str());
        let mut facts = vec![
            ("container", container(trace)),
            ("dlci", list.dlci().to_string()),
            ("end", end(trace)),
            ("fcs", if look.check_fcs { CHECKED } else { NOT_CHECKED }.to_string()),
            ("fixtures", fixtures.len().to_string()),
            ("frames", list.spans().len().to_string()),
            ("tail rule", if look.tolerant { "tolerant" } else { "strict" }.to_string()),
            ("trace length", trace.file.len().to_string()),
            ("trace name", shown(name)),
            ("trace sha256", sum(trace.file)),
            ("unfinished", list.unfinished().to_string()),
        ];
        match list {
            List::Import(imported, _) => {
                facts.push(("bytes", bytes::words(&imported.bytes, In::Frames)));
                facts.push(("channel", look.channel.map_or("any".to_string(), |channel| channel.to_string())));
                facts.push(("tail offset", imported.tail.to_string()));
                facts.extend(look.check_fcs.then(|| ("wrong fcs", imported.wrong_fcs.to_string())));
            }
            List::Link(alone, _) => facts.push((ONE_LINK, alone.link.to_string())),
        }
        facts.extend(exclude.iter().map(|name| ("exclude", name.clone())));
        if exclude.is_empty() {
            facts.push(("exclude", "none".to_string()));
        }
        facts.extend(losses::facts(trace, gaps).into_iter().map(|loss| ("losses", loss)));
        for (counter, span) in (1..).zip(list.spans()) {
            let reason = match fixture_name(span.ms, counter, span.direction, &span.wire) {
                Ok(name) if fixtures.contains_key(&name) => continue,
                Ok(name) => format!("excluded, {}", command_in(&name)),
                Err(refusal) => format!("refusal {}, {refusal}", refusal.number()),
            };
            facts.push(("not a fixture", format!("{counter:06} {reason}")));
        }
        let mut facts: Vec<_> = facts.into_iter().map(|(name, value)| (name.to_string(), value)).collect();
        facts.sort();
        facts.dedup();
        Set { facts, fixtures }
    }

    /// The list as a file.
    pub fn text(&self) -> String {
        let mut text = format!("{TITLE}\n");
        for (name, value) in &self.facts {
            text += &format!("# {name}: {value}\n");
        }
        for (name, sum) in &self.fixtures {
            text += &format!("{sum}  {name}\n");
        }
        let last = sum(text.as_bytes());
        text + LAST + &last + "\n"
    }

    /// Reads a list, or says why it is none.
    pub fn read(text: &str) -> Result<Set, String> {
        let body = text.strip_suffix('\n').and_then(|text| text.rsplit_once('\n'));
        let Some((above, given)) = body.and_then(|(above, last)| Some((above, last.strip_prefix(LAST)?))) else {
            return Err("its last line is not the sum of those above".to_string());
        };
        let above = format!("{above}\n");
        if sum(above.as_bytes()) != given {
            return Err("it was changed: its last line is not the sum of those above".to_string());
        }
        let mut set = Set { facts: Vec::new(), fixtures: BTreeMap::new() };
        let mut lines = above.lines();
        if lines.next() != Some(TITLE) {
            return Err("its first line is not that of a list of this form".to_string());
        }
        for line in lines {
            let fact = line.strip_prefix("# ").and_then(|line| line.split_once(": "));
            let fixture =
                line.split_once("  ").filter(|(sum, name)| is_sum(sum) && !name.is_empty() && !name.contains('/'));
            match (fact, fixture) {
                (Some((name, value)), _) => set.facts.push((name.to_string(), value.to_string())),
                (_, Some((sum, name))) => {
                    set.fixtures.insert(name.to_string(), sum.to_string());
                }
                _ => return Err(format!("a line of it cannot be read: {}", shown(line))),
            }
        }
        Ok(set)
    }

    /// A fact that comes once.
    pub fn fact(&self, name: &str) -> Option<&str> {
        self.facts.iter().find(|fact| fact.0 == name).map(|fact| &*fact.1)
    }

    /// A fact that may come again.
    pub fn all(&self, name: &str) -> Vec<&str> {
        self.facts.iter().filter(|fact| fact.0 == name).map(|fact| &*fact.1).collect()
    }

    /// The link and DLCI that the set is of, if it is of one link alone.
    pub fn alone(&self) -> Option<Alone> {
        Some(Alone { link: read_link(self.fact(ONE_LINK)?)?, dlci: read_dlci(self.fact("dlci")?)? })
    }

    /// How the set was asked for, if the list says it.
    pub fn asked(&self) -> Option<Asked> {
        let tail = match self.fact("tail rule")? {
            "strict" => TailRule::Strict,
            "tolerant" => TailRule::Tolerant,
            _ => return None,
        };
        let check_fcs = match self.fcs() {
            CHECKED => true,
            NOT_CHECKED => false,
            _ => return None,
        };
        let (channel, alone) = match (self.fact("channel"), self.fact(ONE_LINK)) {
            (Some("any"), None) => (None, None),
            (Some(number), None) => (Some(number.parse().ok()?), None),
            // One link is read by the strict rule, with the FCS not checked.
            (None, Some(_)) if tail == TailRule::Strict && !check_fcs => (None, Some(self.alone()?)),
            _ => return None,
        };
        let names = self.all("exclude").into_iter().filter(|name| *name != "none");
        let exclude: Vec<String> = names.map(String::from).collect();
        exclude.iter().all(|name| is_name(name)).then_some(Asked { channel, tail, check_fcs, exclude, alone })
    }

    /// What became of UIH frames with a wrong FCS.
    pub fn fcs(&self) -> &str {
        self.fact("fcs").unwrap_or(NOT_CHECKED)
    }

    /// How many UIH frames with a wrong FCS were passed over, if the list says it.
    pub fn wrong_fcs(&self) -> Option<usize> {
        self.fact("wrong fcs")?.parse().ok()
    }

    /// Facts that only this set has, and those that only the other has. The name of the trace is free, and so are losses and bytes if
    /// one of the two does not tell them, and that the FCS is not checked if one does not say it.
    pub fn differences(&self, other: &Set) -> (Vec<String>, Vec<String>) {
        let untold = |name: &str| self.fact(name).is_none() || other.fact(name).is_none();
        let free = |name: &str, value: &str| match name {
            "trace name" => true,
            "bytes" | "losses" => untold(name),
            "fcs" => value == NOT_CHECKED && untold(name),
            _ => false,
        };
        let only = |one: &Set, two: &Set| {
            let two: BTreeSet<_> = two.facts.iter().collect();
            let facts = one.facts.iter().filter(|fact| !free(&fact.0, &fact.1) && !two.contains(fact));
            facts.map(|(name, value)| format!("{name}: {value}")).collect()
        };
        (only(self, other), only(other, self))
    }
}

fn is_sum(text: &str) -> bool {
    text.len() == 64 && text.bytes().all(|byte| matches!(byte, b'0'..=b'9' | b'a'..=b'f'))
}

#[cfg(test)]
mod tests {
    use super::{command_in, is_fixture_name, Set, NAME};
    use std::collections::BTreeMap;

    fn set() -> Set {
        let facts = [("channel", "any"), ("exclude", "none"), ("tail rule", "strict"), ("trace name", "a: b")];
        Set {
            facts: facts.iter().map(|(name, value)| (name.to_string(), value.to_string())).collect(),
            fixtures: BTreeMap::from([("x-rx.bin".to_string(), "0".repeat(64))]),
        }
    }

    #[test]
    fn there_and_back() {
        assert_eq!(Set::read(&set().text()), Ok(set()));
        assert!(set().asked().is_some());
    }

    #[test]
    fn every_change_is_seen() {
        let text = set().text();
        for i in 0..text.len() {
            let changed = [&text[..i], if &text[i..=i] == "x" { "y" } else { "x" }, &text[i + 1..]].concat();
            assert!(Set::read(&changed).is_err(), "{changed}");
            assert!(Set::read(&text[..i]).is_err(), "{}", &text[..i]);
        }
        assert!(Set::read(&text.replace('\n', "\r\n")).is_err());
    }

    #[test]
    fn names() {
        assert!(!is_fixture_name(NAME));
        assert!(is_fixture_name("a-rx.b.bin") && !is_fixture_name("a-rx.b") && !is_fixture_name("a.bin"));
        assert_eq!(
            command_in("mdr-packet-5-000002-tx.type-DATA_MDR-0c.seq-00.cmd-NCASM_GET_PARAM-66.bin"),
            "NCASM_GET_PARAM"
        );
    }
}
