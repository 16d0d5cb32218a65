//! Names that are joined, looked up, compared or measured wrong, planted to be reported by `names` and `plan`.

use std::borrow::Cow;
use std::collections::BTreeMap;
use std::sync::LazyLock;

use crate::answer::Answer;
use crate::misfiled::Store;
use crate::model::{self, Spelling, SPELT};
use crate::names;

/// Parts of the groups, for faults that each of them has to report alone.
pub const TYPES: &str = "names, every type and first byte";
pub const ABOUT: &str = "names, about each name";
pub const JOINS: &str = "names, every join";
pub const EXCLUDED: &str = "plan, joins excluded";

/// What shows wherever names are; what shows only where they are written, or only where they are asked for or excluded.
const ALL: &[&str] = &[TYPES, ABOUT, JOINS, "plan"];
const WRITTEN: &[&str] = &[TYPES, "plan"];
const ASKED: &[&str] = &[ABOUT, JOINS, EXCLUDED];

/// A wrong spelling with its label and the groups, or parts of them, each of which has to report it.
type Fault = (&'static [&'static str], &'static str, Spelling);

/// The words of a run of letters that has every stem and every ending once.
const WORDS: &str = "_COMMON_ CONNECT_GET_ CONNECT_RET_ POWER_ UPDT_ LEA_ EQEBB_ NCASM_ SENSE_ OPT_ ALERT_ SAR_AUTO_PLAY_ \
    LOG_ GENERAL_SETTING_ AUDIO_ SYSTEM_ PERI_ VOICE_GUIDANCE_ SAFE_LISTENING_ PARTY_ SHOT GET_CAPABILITY RET_CAPABILITY \
    GET_STATUS RET_STATUS SET_STATUS NTFY_STATUS GET_PARAM RET_PARAM SET_PARAM NTFY_PARAM NTNY_PARAM GET_EXTENDED_PARAM \
    RET_EXTENDED_PARAM SET_EXTENDED_PARAM NTFY_EXTENDED_PARAM GET_EXT_PARAM RET_EXT_PARAM SET_EXT_PARAM NTFY_EXT_PARAM \
    GET_EXTENDED_INFO RET_EXTENDED_INFO GET_EXT_INFO RET_EXT_INFO CAPABILITY_INFO DEVICE_INFO PROTOCOL_INFO \
    SUPPORT_FUNCTION TRANSFER_DATA NTFY_MESSAGE GET_TEST ACK UNKNOWN NO_COMMAND _MC_NO1 _ICD _EV _MDR_NO2";

/// Stems and endings that are no words of their own.
const WITHIN: [&str; 6] = ["", "DATA", "PLAY_", "_MDR", "_COMMON", "COMMON_"];

fn is_part(letters: &str) -> bool {
    WITHIN.contains(&letters) || WORDS.split(' ').any(|word| word == letters)
}

/// The longest stem of a name that leaves an ending, and that ending.
fn pair(name: &'static str) -> (&'static str, &'static str) {
    let mut splits = (0..=name.len()).rev().map(|at| name.split_at(at));
    splits.find(|(stem, ending)| is_part(stem) && is_part(ending)).expect("a stem and an ending")
}

static PAIRS: LazyLock<BTreeMap<&str, (&str, &str)>> =
    LazyLock::new(|| names::words().into_iter().map(|name| (name, pair(name))).collect());

fn stem(name: &str) -> &'static str {
    PAIRS[name].0
}

fn ending(name: &str) -> &'static str {
    PAIRS[name].1
}

/// The letters at a part's start in the run, of which 8 bits are kept.
fn at_short_start(part: &str) -> &'static str {
    static RUN: LazyLock<String> = LazyLock::new(|| WORDS.replace(' ', ""));
    let start = RUN.find(part).expect("a part") % 256;
    &RUN[start..][..part.len()]
}

/// A name, or what is put in its place.
fn replaced(name: &'static str, by: &[(&str, &'static str)]) -> Cow<'static, str> {
    by.iter().find(|(from, _)| *from == name).map_or(name, |(_, to)| to).into()
}

/// Of what is written, and asked for, in the place of a name.
fn of_words() -> Vec<Fault> {
    let words = |word| Spelling { word, ..SPELT };
    vec![
        (ALL, "each name is its stem", words(|name| stem(name).into())),
        (ALL, "each name is its ending", words(|name| ending(name).into())),
        (ALL, "a name is its stem", words(|name| replaced(name, &[("PARTY_RET_STATUS", "PARTY_")]))),
        (ALL, "a name is its ending", words(|name| replaced(name, &[("PARTY_RET_STATUS", "RET_STATUS")]))),
        (&[TYPES], "a type is its stem", words(|name| replaced(name, &[("SHOT_MDR_NO2", "SHOT")]))),
        (&[TYPES], "a type is its ending", words(|name| replaced(name, &[("SHOT_MDR_NO2", "_MDR_NO2")]))),
        (
            WRITTEN,
            "two names are exchanged",
            words(|name| {
                let (get, set) = ("POWER_GET_PARAM", "POWER_SET_PARAM");
                replaced(name, &[(get, set), (set, get)])
            }),
        ),
        (
            ALL,
            "two names' endings are exchanged",
            words(|name| {
                let log = ("LOG_SET_STATUS", "LOG_RET_CAPABILITY");
                replaced(name, &[log, ("AUDIO_RET_CAPABILITY", "AUDIO_SET_STATUS")])
            }),
        ),
        (
            ALL,
            "NTNY is put right",
            words(|name| replaced(name, &[("GENERAL_SETTING_NTNY_PARAM", "GENERAL_SETTING_NTFY_PARAM")])),
        ),
        (
            &[TYPES, JOINS, "plan"],
            "a stem's start has 8 bits",
            words(|name| [at_short_start(stem(name)), ending(name)].concat().into()),
        ),
        (ALL, "an ending's start has 8 bits", words(|name| [stem(name), at_short_start(ending(name))].concat().into())),
    ]
}

/// Table 1 in the place of table 2, if it is to be.
fn first_if(wrong: bool, kind: u8) -> u8 {
    if wrong && kind == 0x0E {
        0x0C
    } else {
        kind
    }
}

/// Of the table that is looked into.
fn of_tables() -> Vec<Fault> {
    let tables = |table| Spelling { table, ..SPELT };
    vec![
        (
            ALL,
            "table 2 has the names of table 1, where both have one",
            tables(|kind, byte| {
                let both = [0x0C, 0x0E].iter().all(|table| model::table_name(*table, byte).is_some());
                first_if(both, kind)
            }),
        ),
        (ALL, "table 2 has a name of table 1", tables(|kind, byte| first_if(byte == 0x35, kind))),
        (
            WRITTEN,
            "table 2 has a name of table 1 in the place of one that both have",
            tables(|kind, byte| first_if(byte == 0x60, kind)),
        ),
    ]
}

/// Whether this name is asked for, or another that has letters.
fn either(asked: &[u8], name: &str, other: &str) -> bool {
    asked == name.as_bytes() || !other.is_empty() && asked == other.as_bytes()
}

/// Whether a name's stem is asked for with the ending of any.
fn with_any_ending(asked: &[u8], name: &str) -> bool {
    let rest = asked.strip_prefix(stem(name).as_bytes());
    rest.is_some_and(|rest| !rest.is_empty() && PAIRS.values().any(|(_, ending)| ending.as_bytes() == rest))
}

/// Of what is asked for or excluded.
fn of_comparing() -> Vec<Fault> {
    let compares = |same| Spelling { same, ..SPELT };
    vec![
        (
            &[ABOUT, JOINS, "plan"],
            "what begins with a name is one",
            compares(|asked, name| asked.starts_with(name.as_bytes())),
        ),
        (
            ASKED,
            "a name's beginning is one",
            compares(|asked, name| !asked.is_empty() && name.as_bytes().starts_with(asked)),
        ),
        (ASKED, "a stem is a name", compares(|asked, name| either(asked, name, stem(name)))),
        (ASKED, "an ending is a name", compares(|asked, name| either(asked, name, ending(name)))),
        (
            &[JOINS, EXCLUDED],
            "any stem with any ending is a name",
            compares(|asked, name| asked == name.as_bytes() || with_any_ending(asked, name)),
        ),
        (
            &[JOINS],
            "one stem with another name's ending is a name",
            compares(|asked, name| either(asked, name, "LOG_GET_PARAM")),
        ),
        (
            ASKED,
            "what begins with a name's stem and ends with its ending is one",
            compares(|asked, name| {
                asked.starts_with(stem(name).as_bytes()) && asked.ends_with(ending(name).as_bytes())
            }),
        ),
        (
            &[ABOUT, JOINS, "plan"],
            "UNKNOWN is none",
            compares(|asked, name| name != "UNKNOWN" && asked == name.as_bytes()),
        ),
        (&[JOINS], "NO_COMMAND is a name", compares(|asked, name| either(asked, name, "NO_COMMAND"))),
        (&[JOINS, EXCLUDED], "a type is a name", compares(|asked, name| either(asked, name, "DATA_MDR"))),
    ]
}

/// Each fault once for each group that has to report it.
pub fn faults() -> Vec<(&'static str, String, Spelling)> {
    let all = [of_words(), of_tables(), of_comparing()].concat().into_iter();
    all.flat_map(|(groups, label, spelling)| {
        groups.iter().map(move |group| (*group, format!("stems: {label}"), spelling))
    })
    .collect()
}

/// The length of a fixture name, of whose type and command the stems alone are counted.
fn length_of_stems(name: &[u8]) -> usize {
    let words: Vec<&str> = std::str::from_utf8(name).expect("a name").split('-').collect();
    name.len() - ending(words[5]).len() - ending(words[8]).len()
}

/// Stores a fixture name after a change by that length, and by how much is lent.
fn stored(answer: &Answer, out: &mut [u8], values: &mut [u64], change: fn(&mut Answer, usize, usize)) -> u32 {
    let mut answer = answer.clone();
    if answer.number == 0 {
        let short = length_of_stems(&answer.written);
        change(&mut answer, short, out.len());
    }
    model::store(&answer, out, values)
}

/// Of the length, all for every type and first byte to report.
pub fn stores() -> Vec<(&'static str, &'static str, Store)> {
    vec![
        (TYPES, "stems: a name is as long as its stems", |answer, out, values| {
            stored(answer, out, values, |answer, short, _| {
                answer.written.truncate(short);
                answer.values[0] = short as u64;
            })
        }),
        (TYPES, "stems: a name is told to be as long as its stems", |answer, out, values| {
            stored(answer, out, values, |answer, short, _| answer.values[0] = short as u64)
        }),
        (TYPES, "stems: 7 is judged by the stems", |answer, out, values| {
            stored(answer, out, values, |answer, short, lent| answer.written.truncate(lent.max(short)))
        }),
        (TYPES, "stems: 7 carries the length of the stems", |answer, out, values| {
            stored(answer, out, values, |answer, short, lent| {
                if lent < answer.written.len() {
                    *answer = Answer::refused(7, &[short as u64]);
                }
            })
        }),
    ]
}
