//! The cases of `shared/vectors`: answers of models that were written apart from this one. Those that the calls can
//! answer are run; the others are counted by what they ask for.

use std::collections::BTreeMap;
use std::path::PathBuf;

use crate::answer::{
    Answer, Asked, Checked, Container, Difference, Stream, Subject, LISTED, NO_CHANNEL, SIZES, VALUES,
};
use crate::expected;
use crate::import::{Import, Rule};
use crate::links::Links;
use crate::model::{self, RIGHT};
use crate::sizes::Sizes;
use crate::Options;

/// All files have to be there, also those of calls that are not run.
const FILES: [&str; 12] = [
    "jobs-1-2-3-4-6.txt",
    "edges-1-2-3-4-6.txt",
    "edges-big.txt",
    "job-7.txt",
    "job-8.txt",
    "job-9.txt",
    "job-10.txt",
    "job-11.txt",
    "job-12.txt",
    "job-13.txt",
    "edges-7-8-9-12-13.txt",
    "edges-10-11.txt",
];

/// Whether a case asks for something.
type Asks = fn(&Line) -> bool;

/// What the calls do not do: a case that asks for it is passed over.
const LATER: [(&str, Asks); 2] = [
    ("the strict channel rule", |line| line.has("rule", &["strict"])),
    ("heads before wires", |line| line.has("heads", &["yes"])),
];

/// What a case is called that has no name.
const UNNAMED: &str = "a case";

/// The calls that are run, besides that for one link, where it is linked.
const CALLS: [&str; 1] = ["import"];

/// A case as it stands in its file.
struct Line<'a> {
    file: &'static str,
    number: usize,
    /// By the line before, if it has one.
    name: &'a str,
    text: &'a str,
    call: &'a str,
    given: BTreeMap<&'a str, &'a str>,
    answer: &'a str,
}

impl<'a> Line<'a> {
    fn read(file: &'static str, number: usize, name: &'a str, text: &'a str) -> Option<Line<'a>> {
        let (asked, answer) = text.split_once(" -> ")?;
        let mut words = asked.split(' ');
        let call = words.next()?;
        let given = words.map(|word| word.split_once('=')).collect::<Option<_>>()?;
        Some(Line { file, number, name, text, call, given, answer })
    }

    /// An argument; `None` if it is not given.
    fn get(&self, name: &str) -> Option<&'a str> {
        self.given.get(name).copied().filter(|value| *value != "none")
    }

    fn has(&self, name: &str, values: &[&str]) -> bool {
        self.get(name).is_some_and(|value| values.contains(&value))
    }

    fn number_of(&self, name: &str) -> Option<usize> {
        self.get(name).map(|value| value.parse().expect("a number"))
    }

    /// Why it is passed over, if it is.
    fn later(&self) -> Option<String> {
        if !CALLS.contains(&self.call) {
            return Some(format!("the call {}", self.call));
        }
        LATER.iter().find(|(_, asks)| asks(self)).map(|(what, _)| what.to_string())
    }

    /// What the file is asked for as.
    fn container(&self) -> Container {
        match self.get("box") {
            None | Some("btsnoop") => Container::Btsnoop,
            Some("pcap") => Container::Pcap,
            Some(other) => panic!("{} line {}: no container: {other}", self.file, self.number),
        }
    }

    /// Whether the FCS is checked.
    fn checks(&self) -> bool {
        self.has("fcs", &["on", "yes"])
    }

    fn tolerant(&self) -> bool {
        self.has("tail", &["tolerant"]) || self.has("tolerant", &["yes"])
    }

    fn differs(&self, what: &str, expected: String, got: String) -> Box<Difference> {
        let call = format!("{what}, {} line {}, {}: {:.4096}", self.file, self.number, self.name, self.text);
        Box::new(Difference { call, inputs: Vec::new(), lent: "what the line says".into(), expected, got })
    }
}

/// Bytes in hex; `-` is none.
fn bytes(hex: &str) -> Vec<u8> {
    if hex == "-" {
        return Vec::new();
    }
    let digit = |c: u8| (c as char).to_digit(16).expect("hex") as u8;
    hex.as_bytes().chunks(2).map(|pair| digit(pair[0]) << 4 | digit(pair[1])).collect()
}

/// The answer of import that a line tells. After `ok` come DLCI, frames, unfinished and the tail offset; then the list, or
/// the bytes written, `wrong` with the frames that have a wrong FCS, `bytes` with where the bytes went, words with numbers
/// that import does not answer, and `list=` with the list. A line without `wrong` does not ask for the FCS to be checked,
/// and does not tell where the bytes went.
fn answer(line: &Line) -> Answer {
    let words: Vec<&str> = line.answer.split(' ').collect();
    let values = |words: &[&str]| -> Vec<u64> { words.iter().map(|n| n.parse().expect("a number")).collect() };
    if words[0] == "refused" {
        let numbers = values(&words[1..]);
        return Answer::refused(numbers[0] as u32, &numbers[1..]);
    }
    let last = words[words.len() - 1];
    match (last.strip_prefix("list="), words.get(6), words.get(8)) {
        (Some(list), Some(&"wrong"), Some(&"bytes")) => {
            Answer::done(&values(&[&words[1..6], &words[7..8], &words[9..13]].concat()), bytes(list))
        }
        (None, None, _) if !line.checks() => {
            let list = bytes(last);
            let written = list.len() as u64;
            Answer::done(&[&values(&words[1..5])[..], &[written, 0]].concat(), list)
        }
        _ => panic!("{} line {}: no answer: {:.200}", line.file, line.number, line.answer),
    }
}

/// How many cases were run, of which pcap, and passed over by reason.
#[derive(Default)]
struct Tally {
    run: BTreeMap<&'static str, u64>,
    pcap: u64,
    /// How many have the FCS checked, and of those that are answered how many count a wrong one.
    checked: u64,
    wrong: u64,
    /// How many tell where the bytes went, and of those how many have some dropped, cleared and left.
    bytes: u64,
    lost: [u64; 3],
    /// How many told the number of records.
    records: u64,
    /// Of one link: how many list spans, list none, and are refused, and how many were run of each file.
    one: [u64; 3],
    one_of: BTreeMap<&'static str, u64>,
    /// How many the sizes were held to: those that tell them, those that tell the list alone, those that are refused by 1 to
    /// 6, 21 or 22, and those that are refused by 7.
    sizes: [u64; 4],
    passed: BTreeMap<String, u64>,
}

impl Tally {
    fn add(&mut self, line: &Line, told: &Answer) {
        self.pcap += u64::from(line.container() == Container::Pcap);
        self.checked += u64::from(line.checks());
        self.wrong += u64::from(told.values.get(5).is_some_and(|wrong| *wrong > 0));
        if let Some([_, lost @ ..]) = told.bytes() {
            self.bytes += 1;
            self.lost.iter_mut().zip(lost).for_each(|(cases, bytes)| *cases += u64::from(bytes > 0));
        }
    }
}

/// The calls held to the cases.
struct Vectors<'a> {
    subject: &'a dyn Subject,
    imports: Vec<Import<'a>>,
    sizes: Sizes<'a>,
    links: Links<'a>,
    tally: Tally,
}

impl Vectors<'_> {
    fn case(&mut self, line: &Line) -> Checked {
        if line.call == "one" && self.subject.has_links() {
            return self.one_link(line);
        }
        self.records(line)?;
        let asked = (line.container(), line.tolerant());
        let linked = self.imports.iter().any(|import| (import.container(), import.tolerant()) == asked);
        if let Some(why) = line.later().or((!linked).then(|| "built without `pcap`".into())) {
            *self.tally.passed.entry(why).or_default() += 1;
            return Ok(());
        }
        *self.tally.run.entry(line.file).or_default() += 1;
        let told = answer(line);
        let file = bytes(line.get("file").expect("a file"));
        let channel = line.number_of("channel").map_or(NO_CHANNEL, |channel| channel as u32);
        let lent = (line.number_of("work_len"), line.number_of("out_len"));
        let expected = readings(line, &file, channel, &told, lent)?;
        self.tally.add(line, &told);
        for import in self.imports.iter_mut().filter(|import| (import.container(), import.tolerant()) == asked) {
            import.checking(line.checks());
            let checked = match lent {
                (None, None) => import.held(&file, channel, &expected),
                (work, out) => import.lent(&file, channel, &expected, work, out),
            };
            checked.map_err(|found| line.differs(&found.call, found.expected, found.got))?;
        }
        if self.subject.has_sizes() {
            self.sizes(line, &file, channel, &told, lent.0)?;
        }
        Ok(())
    }

    /// The sizes that the case tells, or those by its list or by what 7 carries, or its refusal; what it does not tell is the
    /// model's. With any room for values, and with less work.
    fn sizes(&mut self, line: &Line, file: &[u8], channel: u32, told: &Answer, work: Option<usize>) -> Checked {
        let (container, asked) =
            (line.container(), Asked { channel, tolerant: line.tolerant(), checks: line.checks() });
        let work = work.unwrap_or(8 * file.len());
        let expected = model::sizes_from(container, file, work, asked, RIGHT);
        let (way, agrees) = match (told.number, sizes(line)) {
            (0, Some(sizes)) => (0, expected == Answer::done(&sizes, Vec::new())),
            (0, None) => (1, expected.number == 0 && expected.values[0] == told.written.len() as u64),
            (7, _) => (3, expected.number == 0 && expected.values[..1] == told.values),
            _ => (2, expected == *told),
        };
        self.tally.sizes[way] += 1;
        if !agrees {
            return Err(line.differs("the model's sizes", line.answer.to_string(), format!("{expected:?}")));
        }
        let mut rooms = 0..=SIZES + 1;
        let held = rooms.try_for_each(|room| self.sizes.call(container, file, asked, work, room, &expected));
        let checked = held.and_then(|()| self.sizes.less(container, file, asked, &expected));
        checked.map_err(|found| line.differs(&found.call, found.expected, found.got))
    }
}

impl Vectors<'_> {
    /// A case of one link: some times with the work and the output that it lends, then with outputs about what is needed and
    /// with less work.
    fn one_link(&mut self, line: &Line) -> Checked {
        let told = one(line);
        let file = bytes(line.get("file").expect("a file"));
        let number = |name| line.number_of(name).expect("a number");
        let (index, handle, dlci) = (number("index") as u16, number("handle") as u16, number("dlci") as u8);
        let (container, stream) = (line.container(), Stream { index, handle, dlci });
        let (work, out) = (line.number_of("work_len"), line.number_of("out_len"));
        *self.tally.one_of.entry(line.file).or_default() += 1;
        self.tally.one[if told.number != 0 { 2 } else { usize::from(told.values[0] == 0) }] += 1;
        let refused = expected::refused(container, &file);
        let rust = expected::one_link(container, &file, stream, &refused).0;
        let model = model::one_link(container, &file, work.unwrap_or(usize::MAX), stream, RIGHT);
        for (what, found) in [("the Rust", &rust), ("the model", &model)] {
            let found = found.within(out.unwrap_or(usize::MAX));
            if *found != told && (told.number != 2 || what == "the model") {
                return Err(line.differs(what, format!("{told:?}"), format!("{found:?}")));
            }
        }
        let lent = (work.unwrap_or(8 * file.len()), out.unwrap_or(rust.written.len()));
        let links = &mut self.links;
        let held = (0..=LISTED + 1).try_for_each(|_| links.call(container, &file, stream, lent, &model));
        let all = held.and_then(|()| links.held(container, &file, stream, &rust));
        let checked = all.and_then(|()| links.less(container, &file, stream, &rust));
        checked.map_err(|found| line.differs(&found.call, found.expected, found.got))
    }
}

/// The answer for one link that a line tells: after `ok` spans, unfinished and the list.
fn one(line: &Line) -> Answer {
    let words: Vec<&str> = line.answer.split(' ').collect();
    let number = |word: &str| word.parse::<usize>().expect("a number");
    match words[..] {
        ["ok", spans, unfinished, list] => Answer::listed(number(spans), number(unfinished), bytes(list)),
        ["refused", refused, ref values @ ..] => {
            Answer::refused(number(refused) as u32, &values.iter().map(|n| number(n) as u64).collect::<Vec<u64>>())
        }
        _ => panic!("{} line {}: no answer: {:.200}", line.file, line.number, line.answer),
    }
}

/// The sizes that a line tells, if it does.
fn sizes(line: &Line) -> Option<[u64; SIZES]> {
    let words: Vec<&str> = line.answer.split(' ').collect();
    let at = words.iter().position(|word| *word == "sizes")?;
    Some(std::array::from_fn(|i| words[at + 1 + i].parse().expect("a number")))
}

impl Vectors<'_> {
    /// Where a case of import tells how many records the file has, or a refusal that does not ask for work, the records are
    /// held to it, whatever else the case asks for.
    fn records(&mut self, line: &Line) -> Checked {
        if line.call != "import" || !self.subject.takes_container() {
            return Ok(());
        }
        let words: Vec<&str> = line.answer.split(' ').collect();
        let number = |word: &str| word.parse::<u64>().expect("a number");
        let expected = match (words[0], words.iter().position(|word| *word == "sizes")) {
            ("ok", Some(sizes)) => (0, vec![number(words[sizes + 2]), number(words[4])]),
            ("refused", _) if ["1", "3", "4", "21", "22"].contains(&words[1]) => {
                (number(words[1]) as u32, words[2..].iter().map(|word| number(word)).collect())
            }
            _ => return Ok(()),
        };
        let file = bytes(line.get("file").expect("a file"));
        let container = u64::from(line.container() == Container::Pcap);
        let mut values = [u64::MAX; 2];
        let found = self.subject.records_with(&file, &mut [], &[256, 0, container], &mut values);
        let found = (found, values[..expected.1.len()].to_vec());
        self.tally.records += 1;
        if found == expected {
            return Ok(());
        }
        Err(line.differs("records_with", format!("{expected:?}"), format!("{found:?}")))
    }
}

/// The Rust and the model agree with the line, where nothing is lent that it names, and with each other. The line's answer;
/// what it does not tell is the model's.
fn readings(
    line: &Line,
    file: &[u8],
    channel: u32,
    told: &Answer,
    (work, out): (Option<usize>, Option<usize>),
) -> Result<Answer, Box<Difference>> {
    let (container, tolerant, checks) = (line.container(), line.tolerant(), line.checks());
    let asked = Asked { channel, tolerant, checks };
    let model = model::import_from(container, file, work.unwrap_or(usize::MAX), asked, RIGHT);
    let mut expected = told.clone();
    if told.number == 0 && model.values.len() == VALUES {
        expected.values.extend(&model.values[told.values.len()..]);
    }
    let [off, on] = expected::import(container, file, channel, tolerant);
    let rust = if checks { on } else { off };
    for (what, found) in [("the Rust", rust), ("the model", model)] {
        let found = found.within(out.unwrap_or(usize::MAX));
        if *found != expected && (work.is_none() || what == "the model") {
            return Err(line.differs(what, format!("{expected:?}"), format!("{found:?}")));
        }
    }
    Ok(expected)
}

/// Where the files are.
fn directory() -> PathBuf {
    match std::env::var_os("LUMBRYTH_VECTORS") {
        Some(directory) => PathBuf::from(directory),
        None => PathBuf::from(env!("CARGO_MANIFEST_DIR")).join("../../shared/vectors"),
    }
}

/// Something is wrong with the files themselves.
fn unusable(expected: &str, got: String) -> Box<Difference> {
    Box::new(Difference {
        call: "vectors".into(),
        inputs: Vec::new(),
        lent: "nothing".into(),
        expected: expected.into(),
        got,
    })
}

pub fn run(subject: &dyn Subject, options: &Options) -> Checked {
    let mut imports: Vec<Import> =
        [Rule::Strict, Rule::NotTolerant, Rule::Tolerant].map(|rule| Import::new(subject, rule)).into();
    if subject.takes_container() {
        for container in [Container::Btsnoop, Container::Pcap] {
            imports.extend([Rule::Strict, Rule::Tolerant].map(|rule| Import::by_container(subject, rule, container)));
        }
    }
    let mut vectors =
        Vectors { subject, imports, sizes: Sizes::new(subject), links: Links::new(subject), tally: Tally::default() };
    for file in FILES {
        let path = directory().join(file);
        let text = std::fs::read_to_string(&path)
            .map_err(|e| unusable("a file of cases", format!("{}: {e}", path.display())))?;
        let mut name = UNNAMED;
        for (number, text) in (1..).zip(text.lines()) {
            if let Some(named) = text.strip_prefix("# ") {
                name = named;
                continue;
            }
            let line = Line::read(file, number, name, text)
                .ok_or_else(|| unusable("a case", format!("{file} line {number}: {text:.200}")))?;
            vectors.case(&line)?;
            name = UNNAMED;
        }
    }
    let Tally { run, pcap, checked, wrong, bytes, lost, records, one, one_of, sizes, passed } = vectors.tally;
    if run.is_empty() {
        return Err(unusable("cases to run", "none".into()));
    }
    if !options.quiet {
        let shown = |counts: Vec<String>| counts.join(", ");
        let total: u64 = run.values().sum();
        println!("vectors: records as {records} cases of import tell them");
        println!(
            "vectors: {total} cases run, {pcap} of them of pcap, {checked} with the FCS checked, {wrong} with a wrong one \
             counted: {}",
            shown(run.iter().map(|(file, n)| format!("{file} {n}")).collect())
        );
        let [dropped, cleared, left] = lost;
        println!(
            "vectors: where the bytes went as {bytes} cases tell it, {dropped} with some dropped, {cleared} with some \
             cleared, {left} with some left"
        );
        let [told, list, refused, short] = sizes;
        println!(
            "vectors: sizes as {told} cases tell them, {list} by the list alone, {refused} that are refused likewise, {short} \
             by what 7 carries"
        );
        let [listed, empty, refused] = one;
        println!(
            "vectors: {} cases of one link, {listed} that list spans, {empty} that list none, {refused} refused: {}",
            listed + empty + refused,
            shown(one_of.iter().map(|(file, n)| format!("{file} {n}")).collect())
        );
        let total: u64 = passed.values().sum();
        let reasons = passed.iter().map(|(why, n)| format!("{why} {n}")).collect();
        println!("vectors: {total} passed over: {}", shown(reasons));
    }
    Ok(())
}
