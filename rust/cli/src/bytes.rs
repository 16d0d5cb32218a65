//! Where every information byte of a DLCI went, in words: a sentence for people, a fact for the list of a set, fields for programs.
//! What is 0 is not in the words; what is there adds up to what was taken in.

use std::fmt::Display;

use crate::words::{null_or, object};
use lumbryth::{Account, HELD_MAX};

/// What the bytes are in that are listed. A report of an import calls each span a frame, also one that does not unpack.
#[derive(Clone, Copy)]
pub enum In {
    Frames,
    Spans,
}

impl In {
    fn name(self) -> &'static str {
        match self {
            In::Frames => "in frames",
            In::Spans => "in spans",
        }
    }
}

/// Where they went, without a full stop.
pub fn words(bytes: &Account, spans: In) -> String {
    let (all, spans) = (bytes.taken_in(), spans.name());
    if bytes.in_spans == all {
        return format!("{all} taken in, all {spans}");
    }
    let parts = [
        (bytes.in_spans, spans.to_string()),
        (bytes.dropped, "dropped before a start marker or for want of one".to_string()),
        (bytes.cleared, format!("cleared because over {HELD_MAX} had no end marker")),
        (bytes.left, "left without an end marker".to_string()),
    ];
    let parts = parts.iter().filter(|(n, _)| *n > 0).map(|(n, words)| format!(", {n} {words}"));
    format!("{all} taken in{}", parts.collect::<String>())
}

/// What the words of a list say. None if they are no such words, or do not add up.
pub fn read(text: &str) -> Option<Account> {
    let mut bytes = Account::default();
    let (all, parts) = text.split_once(" taken in, ")?;
    for part in parts.split(", ") {
        let (n, words) = part.split_once(' ')?;
        let place = match words.split(' ').next()? {
            "in" => &mut bytes.in_spans,
            "dropped" => &mut bytes.dropped,
            "cleared" => &mut bytes.cleared,
            "left" => &mut bytes.left,
            _ => return None,
        };
        *place = if n == "all" { all } else { n }.parse::<u32>().ok()? as usize;
    }
    (words(&bytes, In::Frames) == text).then_some(bytes)
}

/// Such words as a sentence.
pub fn line(dlci: impl Display, words: &str) -> String {
    format!("Bytes on DLCI {dlci}: {words}.")
}

/// What it may be due to that bytes were dropped or cleared, if some were.
pub fn reasons(dlci: u8, bytes: &Account) -> Option<String> {
    let (what, part) = match (bytes.dropped > 0, bytes.cleared > 0) {
        (false, false) => return None,
        (true, false) => ("dropped", "whose beginning"),
        (false, true) => ("cleared", "whose end"),
        (true, true) => ("dropped or cleared", "of which a part"),
    };
    Some(format!(
        "What was {what} may be due to damage, to another protocol on DLCI {dlci}, or to a frame {part} was not taken in."
    ))
}

/// As fields of an object, null if nothing is known.
pub fn fields(bytes: Option<Account>) -> Vec<(&'static str, String)> {
    let field = |of: fn(&Account) -> usize| null_or(bytes.as_ref().map(of));
    vec![
        ("taken_in", field(Account::taken_in)),
        ("in_spans", field(|bytes| bytes.in_spans)),
        ("dropped", field(|bytes| bytes.dropped)),
        ("cleared", field(|bytes| bytes.cleared)),
        ("left", field(|bytes| bytes.left)),
    ]
}

/// As one field of an object.
pub fn field(bytes: Account) -> (&'static str, String) {
    ("bytes", object(&fields(Some(bytes))).trim_end().to_string())
}

#[cfg(test)]
mod tests {
    use super::{field, fields, line, read, reasons, words, In};
    use lumbryth::Account;

    fn account(in_spans: usize, dropped: usize, cleared: usize, left: usize) -> Account {
        let mut bytes = Account::default();
        (bytes.in_spans, bytes.dropped, bytes.cleared, bytes.left) = (in_spans, dropped, cleared, left);
        bytes
    }

    #[test]
    fn each_part() {
        let told = [
            (account(51, 0, 0, 0), "51 taken in, all in frames"),
            (account(9, 1, 0, 0), "10 taken in, 9 in frames, 1 dropped before a start marker or for want of one"),
            (account(9, 0, 0, 1), "10 taken in, 9 in frames, 1 left without an end marker"),
            (
                account(9, 0, 65_537, 0),
                "65546 taken in, 9 in frames, 65537 cleared because over 65536 had no end marker",
            ),
            (
                account(3100, 812, 131_074, 88),
                "135074 taken in, 3100 in frames, 812 dropped before a start marker or for want of one, \
                 131074 cleared because over 65536 had no end marker, 88 left without an end marker",
            ),
        ];
        for (bytes, text) in told {
            assert_eq!(words(&bytes, In::Frames), text);
        }
        assert_eq!(line(18, told[0].1), "Bytes on DLCI 18: 51 taken in, all in frames.");
        // On a DLCI that import does not take there may be no span.
        let text = "3 taken in, 3 dropped before a start marker or for want of one";
        assert_eq!(words(&account(0, 3, 0, 0), In::Spans), text);
        assert_eq!(words(&account(0, 0, 0, 1), In::Spans), "1 taken in, 1 left without an end marker");
        assert_eq!(words(&account(2, 0, 0, 0), In::Spans), "2 taken in, all in spans");
    }

    #[test]
    fn what_it_may_be_due_to() {
        let said = |dropped, cleared| reasons(18, &account(9, dropped, cleared, 5));
        assert_eq!(said(0, 0), None);
        let told = [
            (1, 0, "What was dropped ", "a frame whose beginning was not taken in."),
            (0, 65_537, "What was cleared ", "a frame whose end was not taken in."),
            (2, 65_537, "What was dropped or cleared ", "a frame of which a part was not taken in."),
        ];
        for (dropped, cleared, start, end) in told {
            let text = format!("{start}may be due to damage, to another protocol on DLCI 18, or to {end}");
            assert_eq!(said(dropped, cleared), Some(text));
        }
    }

    /// What is told is read again, of every shape; nothing else is.
    #[test]
    fn there_and_back() {
        for shape in 0..16 {
            let n = |bit: usize, n: usize| if shape >> bit & 1 == 1 { n } else { 0 };
            let bytes = account(n(0, 9), n(1, 1), n(2, 65_537), n(3, 500));
            let text = words(&bytes, In::Frames);
            assert_eq!(read(&text), Some(bytes), "{text}");
        }
        let texts = [
            "",
            "51",
            "51 taken in",
            "51 taken in, all in spans",
            "51 taken in, 50 in frames",
            "51 taken in, 51 in frames",
            "51 taken in, all in frames, 0 left without an end marker",
            "10 taken in, 9 in frames, 2 dropped before a start marker or for want of one",
            "10 taken in, 1 left without an end marker, 9 in frames",
            "10 taken in, 9 in frames, 1 lost",
            "-1 taken in, all in frames",
            "1 taken in, 18446744073709551615 in frames, 2 left without an end marker",
        ];
        for text in texts {
            assert_eq!(read(text), None, "{text}");
        }
    }

    #[test]
    fn in_objects() {
        let told = r#"{"taken_in":100,"in_spans":90,"dropped":7,"cleared":0,"left":3}"#;
        assert_eq!(field(account(90, 7, 0, 3)), ("bytes", told.to_string()));
        assert!(fields(None).iter().all(|(_, value)| value == "null"));
    }
}
