//! The plan of fixtures.

use crate::answer::{Answer, Case, Checked, Lender, Subject};
use crate::codec;
use crate::expected;
use crate::items::{self, Span};
use crate::model::{self, packed, SPELT};
use crate::names::{command_words, stems_and_endings};
use crate::rng::Rng;
use crate::Options;
use oracle::capture::Direction;

struct Plan<'a> {
    subject: &'a dyn Subject,
    lender: Lender,
}

impl Plan<'_> {
    fn new(subject: &dyn Subject) -> Plan<'_> {
        Plan { subject, lender: Lender::default() }
    }

    fn lists(&mut self, spans: &[u8], excluded: &[u8]) -> Checked {
        let expected = expected::plan(spans, excluded).expect("UTF-8");
        self.held(spans, excluded, &expected)
    }

    fn held(&mut self, spans: &[u8], excluded: &[u8], expected: &Answer) -> Checked {
        let subject = self.subject;
        self.lender.about(expected, &mut |out, values| subject.plan(spans, excluded, out, values), &|| Case {
            call: "plan".into(),
            inputs: vec![("spans", spans.to_vec()), ("excluded", excluded.to_vec())],
        })
    }
}

pub fn random_span(rng: &mut Rng) -> Span {
    let ms = if rng.percent(50) { rng.next() >> rng.below(64) } else { rng.below(2000) as u64 };
    let direction = rng.pick(&[Direction::Rx, Direction::Tx]);
    let wire = match rng.below(10) {
        0 => packed(rng.byte(), rng.byte(), &[]),
        1 => packed(0x01, rng.byte(), &[]),
        2 => {
            let n = rng.below(12);
            rng.mixed(n, &codec::BYTES, 70)
        }
        _ => {
            let n = rng.below(5);
            let mut payload = vec![rng.byte()];
            payload.extend(rng.mixed(n, &codec::BYTES, 50));
            packed(rng.pick(&[0x0C, 0x0C, 0x0E, 0x0E, 0x00, 0x2D]), rng.byte(), &payload)
        }
    };
    let mut span = (ms, direction, wire);
    if rng.percent(15) {
        codec::damage(rng, &mut span.2);
    }
    span
}

/// Names to exclude: mostly ones that the spans have, and ones nearly so.
pub fn random_excluded(rng: &mut Rng, spans: &[Span], words: &[&'static str]) -> Vec<String> {
    let mut names = Vec::new();
    for _ in 0..rng.below(4) {
        let own = || {
            let (_, _, wire) = spans.first()?;
            let f = oracle::mdr::frame::unpack(wire).ok()?;
            Some(oracle::capture::command_name(f.data_type, &f.payload).to_string())
        };
        let name = match rng.below(6) {
            0 | 1 => own().unwrap_or_default(),
            2 => rng.pick(&["NO_COMMAND", "UNKNOWN", ""]).to_string(),
            3 => own().unwrap_or_default() + rng.pick(&["_", " ", "é"]),
            4 => own().unwrap_or_default().chars().skip(1).collect(),
            _ => rng.pick(words).to_string(),
        };
        names.push(name);
    }
    names
}

fn random(plan: &mut Plan, rng: &mut Rng, words: &[&'static str], size: u64) -> Checked {
    for i in 0..size {
        let n = if i % 200 == 0 { rng.below(150) } else { rng.below(7) };
        let spans: Vec<Span> = (0..n).map(|_| random_span(rng)).collect();
        let excluded = random_excluded(rng, &spans, words);
        plan.lists(&items::span_list(&spans), &items::name_list(&excluded))?;
    }
    Ok(())
}

/// A list with every command.
fn every_command() -> Vec<u8> {
    let mut spans = vec![(0, Direction::Rx, packed(0x01, 0, &[]))];
    for kind in [0x0C, 0x0E, 0x0D] {
        spans.extend((0..=255).map(|b| (u64::from(b), Direction::Tx, packed(kind, b, &[b]))));
    }
    items::span_list(&spans)
}

/// Each word of the tables excluded from a list with every command.
fn each_word(plan: &mut Plan, words: &[&'static str]) -> Checked {
    let list = every_command();
    plan.lists(&list, &[])?;
    for word in words {
        plan.lists(&list, &items::name_list(&[word]))?;
    }
    plan.lists(&list, &items::name_list(words))
}

/// Stems and endings that are no names, and joins of them, few of which are, excluded from a list with every command.
fn joins(plan: &mut Plan, rng: &mut Rng, words: &[&'static str]) -> Checked {
    let list = every_command();
    let [stems, endings] =
        stems_and_endings().map(|parts| parts.into_iter().filter(|part| !words.contains(part)).collect::<Vec<_>>());
    plan.lists(&list, &items::name_list(&stems))?;
    plan.lists(&list, &items::name_list(&endings))?;
    for _ in 0..12 {
        let excluded: Vec<String> = (0..50).map(|_| [rng.pick(&stems), rng.pick(&endings)].concat()).collect();
        plan.lists(&list, &items::name_list(&excluded))?;
    }
    Ok(())
}

/// Both lists cut at every byte, and with every byte changed.
fn forms(plan: &mut Plan, rng: &mut Rng) -> Checked {
    let spans = items::span_list(&[
        (1, Direction::Rx, packed(0x0C, 0, &[0x22])),
        (2, Direction::Tx, vec![]),
        (3, Direction::Tx, packed(0x01, 1, &[])),
    ]);
    let excluded = items::name_list(&["POWER_GET_PARAM", "", "NO_COMMAND"]);
    for n in 0..=spans.len() {
        plan.lists(&spans[..n], &excluded)?;
        plan.lists(&spans[..n], &excluded[..excluded.len() - 1])?;
    }
    for n in 0..=excluded.len() {
        plan.lists(&spans, &excluded[..n])?;
        plan.lists(&spans[..5], &excluded[..n])?;
    }
    for at in 0..spans.len() {
        for byte in 0..=255 {
            let mut other = spans.clone();
            other[at] = byte;
            plan.lists(&other, &excluded)?;
        }
    }
    for at in 0..excluded.len() {
        for byte in 0..128 {
            let mut other = excluded.clone();
            other[at] = byte;
            plan.lists(&spans, &other)?;
        }
    }
    for kind in [0u16, 1, 2, 3, 4, 5, 0x0101, 0x0201, 0x0102, 0xFFFF] {
        for body in 0..=20 {
            let mut other = spans.clone();
            items::push(&mut other, kind, &rng.bytes(body));
            plan.lists(&other, &excluded)?;
        }
    }
    for length in [16_777_215, 16_777_216, 16_777_217] {
        let mut long = spans.clone();
        let rest = length - long.len() - 6;
        items::push(&mut long, 1, &vec![0x3E; rest]);
        plan.lists(&long, &[])?;
        let mut long = Vec::new();
        items::push(&mut long, items::NAME, &vec![b'A'; length - 6]);
        plan.lists(&spans, &long)?;
    }
    Ok(())
}

/// Excluded names that are not UTF-8: held to the model.
fn bytes(plan: &mut Plan, rng: &mut Rng, size: u64) -> Checked {
    for _ in 0..size {
        let spans: Vec<Span> = (0..rng.below(4)).map(|_| random_span(rng)).collect();
        let spans = items::span_list(&spans);
        let names: Vec<Vec<u8>> = (0..rng.below(3))
            .map(|_| {
                let mut name = rng.pick(&["UNKNOWN", "NO_COMMAND", "GET_TEST"]).as_bytes().to_vec();
                let at = rng.below(name.len());
                name[at] |= 0x80;
                name
            })
            .collect();
        let excluded = items::name_list(&names);
        plan.held(&spans, &excluded, &model::plan(&spans, &excluded, SPELT))?;
    }
    Ok(())
}

pub fn run(subject: &dyn Subject, options: &Options) -> Checked {
    let size = options.size.unwrap_or(100_000);
    let mut rng = Rng::new(options.seed);
    let words = command_words();
    let mut plan = Plan::new(subject);
    let mut log = options.log("plan");
    each_word(&mut plan, &words)?;
    log.line("every command, each one excluded", &plan.lender);
    random(&mut plan, &mut rng, &words, size)?;
    log.line("random spans and excludes", &plan.lender);
    forms(&mut plan, &mut rng)?;
    log.line("ill-formed lists", &plan.lender);
    bytes(&mut plan, &mut rng, size / 10)?;
    log.line("excludes that are not UTF-8, against the model", &plan.lender);
    joins(&mut plan, &mut rng, &words)?;
    log.line("every command, stems, endings and joins excluded", &plan.lender);
    Ok(())
}

/// One part alone.
pub fn run_joins(subject: &dyn Subject, options: &Options) -> Checked {
    joins(&mut Plan::new(subject), &mut Rng::new(options.seed), &command_words())
}
