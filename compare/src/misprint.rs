//! Programs that print something wrong, planted to be reported by `traceprint`.

use crate::answer::{Answer, NO_CHANNEL};
use crate::items::{self, Span};
use crate::model::{self, RIGHT, SPELT};
use crate::traceprint::{self, Printed, GOOD, READ};
use crate::Options;

/// A program made of the model, with some of it replaced.
#[derive(Clone, Copy)]
struct Misprint {
    /// What is read of an input.
    read: fn(&[&[u8]]) -> Vec<u8>,
    import: fn(&[u8]) -> Answer,
    /// Changes the spans that are planned.
    spans: fn(&mut Vec<Span>),
    /// Changes the lines.
    text: fn(&mut String),
    ended: &'static str,
}

fn beginning(parts: &[&[u8]], most: usize) -> Vec<u8> {
    let mut input = parts.concat();
    input.truncate(most);
    input
}

fn import(file: &[u8], channel: u32, tolerant: bool) -> Answer {
    model::import(file, 8 * file.len(), channel, tolerant, RIGHT)
}

/// Import with the values that it answers changed.
fn changed(file: &[u8], change: fn(&mut Answer)) -> Answer {
    let mut answer = import(file, NO_CHANNEL, false);
    if answer.number == 0 {
        change(&mut answer);
    }
    answer
}

const NONE: Misprint = Misprint {
    read: |parts| beginning(parts, READ),
    import: |file| import(file, NO_CHANNEL, false),
    spans: |_| (),
    text: |_| (),
    ended: GOOD,
};

impl Misprint {
    fn print(&self, parts: &[&[u8]]) -> Printed {
        let plan = |list: &[u8]| {
            let mut spans = items::read_spans(list).expect("import lists spans");
            (self.spans)(&mut spans);
            model::plan(&items::span_list(&spans), &[], SPELT)
        };
        let mut text = traceprint::lines(&(self.import)(&(self.read)(parts)), &plan);
        (self.text)(&mut text);
        Printed { ended: self.ended.into(), text: text.into_bytes() }
    }

    fn reported(&self, options: &Options) -> bool {
        traceprint::run(&|parts| self.print(parts), options).is_err()
    }
}

fn misprints() -> Vec<(&'static str, Misprint)> {
    vec![
        ("all of the input is read", Misprint { read: |parts| parts.concat(), ..NONE }),
        ("4,097 bytes are read", Misprint { read: |parts| beginning(parts, READ + 1), ..NONE }),
        ("4,095 bytes are read", Misprint { read: |parts| beginning(parts, READ - 1), ..NONE }),
        ("only what comes first is read", Misprint { read: |parts| beginning(&parts[..1], READ), ..NONE }),
        ("the end may be cut", Misprint { import: |file| import(file, NO_CHANNEL, true), ..NONE }),
        ("channel 9 is asked for", Misprint { import: |file| import(file, 9, false), ..NONE }),
        ("unfinished is 0", Misprint { import: |file| changed(file, |a| a.values[2] = 0), ..NONE }),
        (
            "a span that does not unpack spends no counter",
            Misprint { spans: |spans| spans.retain(|(_, _, wire)| model::unpack(wire).number == 0), ..NONE },
        ),
        (
            "milliseconds of 32 bits",
            Misprint { spans: |spans| spans.iter_mut().for_each(|span| span.0 &= 0xFFFF_FFFF), ..NONE },
        ),
        ("names stop after 400", Misprint { spans: |spans| spans.truncate(400), ..NONE }),
        ("output stops after 32,768 bytes", Misprint { text: |text| text.truncate(32_768), ..NONE }),
        (
            "a refusal is printed without its values",
            Misprint {
                text: |text| {
                    if let Some(end) = text.strip_prefix("refused ").and_then(|rest| rest.find(' ')) {
                        text.replace_range("refused ".len() + end..text.len() - 1, "");
                    }
                },
                ..NONE
            },
        ),
        ("nothing is refused with 6", Misprint { text: |text| *text = text.replace("refused 6\n", ""), ..NONE }),
        (
            "the last line is not ended",
            Misprint {
                text: |text| {
                    text.pop();
                },
                ..NONE
            },
        ),
        ("the exit status is 1", Misprint { ended: "exit status: 1", ..NONE }),
    ]
}

/// How many there are, and the labels of those that were not reported. The program
/// with nothing planted must not be.
pub fn unreported(options: &Options) -> (usize, Vec<&'static str>) {
    let misprints = misprints();
    let mut missed: Vec<&str> =
        misprints.iter().filter(|(_, misprint)| !misprint.reported(options)).map(|(label, _)| *label).collect();
    if NONE.reported(options) {
        missed.push("traceprint reports a program with nothing planted");
    }
    (misprints.len(), missed)
}
