//! What a trace shows of what is not in it, in words: a sentence for people, a fact for the list of a set, an object for programs.

use crate::words::{count, null_or, object, several};
use look::Trace;
use lumbryth::{Gap, Gaps};

/// The words for a sign: for one, and for more.
struct Words {
    /// Its name in an object.
    name: &'static str,
    head: &'static str,
    what: [&'static str; 2],
    /// What stands before the byte at which it is first seen.
    at: [&'static str; 2],
    /// What stands behind it.
    behind: &'static str,
    means: [&'static str; 2],
    /// Whether what is missing is of the adapter of the record that shows it. The recorder's own count is of all adapters.
    of_adapter: bool,
}

const SHORT: Words = Words {
    name: "short",
    head: "Stored short",
    what: ["record", "records"],
    at: ["at", "the first at"],
    behind: "",
    means: ["The recorder kept only a part of its packet.", "The recorder kept only a part of their packets."],
    of_adapter: true,
};
const DROPPED: Words = Words {
    name: "dropped",
    head: "Dropped by the recorder",
    what: ["packet", "packets"],
    at: ["told at", "first told at"],
    behind: "",
    means: ["By its own count it did not keep it.", "By its own count it did not keep them."],
    of_adapter: false,
};
const SKIPPED: Words = Words {
    name: "skipped",
    head: "Skipped",
    what: ["data packet", "data packets"],
    at: ["at", "the first at"],
    behind: "",
    means: ["A part of it is not in the file.", "A part of each is not in the file."],
    of_adapter: true,
};
const ZEROS: Words = Words {
    name: "zeros",
    head: "Zeros only",
    what: ["record", "records"],
    at: ["at", "the first at"],
    behind: "",
    means: ["Something else may have stood there.", "Something else may have stood there."],
    of_adapter: false,
};
const STRAY: Words = Words {
    name: "stray",
    head: "Without a beginning",
    what: ["packet", "packets"],
    at: ["at", "the first at"],
    behind: "",
    means: ["What it continues is not in the file.", "What they continue is not in the file."],
    of_adapter: true,
};
const GIVEN_UP: Words = Words {
    name: "given_up",
    head: "Broken off",
    what: ["message", "messages"],
    at: ["at", "the first at"],
    behind: ", where another begins",
    means: ["Its rest is not in the file.", "Their rest is not in the file."],
    of_adapter: true,
};
const OPEN: Words = Words {
    name: "open",
    head: "Open at the end",
    what: ["message", "messages"],
    at: ["begun at", "the first begun at"],
    behind: "",
    means: ["Its rest is not in the file.", "Their rest is not in the file."],
    of_adapter: true,
};

/// A sign that is seen.
pub struct Loss {
    words: &'static Words,
    count: usize,
    first: usize,
    /// The adapter that the first is of, if that can be told.
    adapter: Option<u16>,
    /// Whether the trace has other adapters too.
    several: bool,
}

/// The signs that are seen in a trace.
pub fn seen(trace: Trace, gaps: &Gaps) -> Vec<Loss> {
    let all: [(&'static Words, &Gap); 7] = [
        (&SHORT, &gaps.short),
        (&DROPPED, &gaps.dropped),
        (&SKIPPED, &gaps.skipped),
        (&ZEROS, &gaps.zeros),
        (&STRAY, &gaps.stray),
        (&GIVEN_UP, &gaps.given_up),
        (&OPEN, &gaps.open),
    ];
    let several = several(trace);
    let loss = |(words, gap): (&'static Words, &Gap)| {
        let first = gap.first?;
        let adapter = trace.record(first).adapter.filter(|_| words.of_adapter);
        Some(Loss { words, count: gap.count as usize, first, adapter, several })
    };
    all.into_iter().filter_map(loss).collect()
}

impl Loss {
    /// How many, and where.
    fn many(&self) -> String {
        let (words, more) = (self.words, usize::from(self.count != 1));
        let what = count(self.count, words.what[0], words.what[1]);
        let adapter = self.adapter.filter(|_| self.several).map_or(String::new(), |n| format!(" on adapter {n}"));
        format!("{what}, {} byte {}{adapter}{}", words.at[more], self.first, words.behind)
    }

    /// In a sentence or two.
    pub fn sentence(&self) -> String {
        format!("{}: {}. {}", self.words.head, self.many(), self.words.means[usize::from(self.count != 1)])
    }

    /// As a fact.
    fn fact(&self) -> String {
        format!("{}, {}", self.words.head.to_lowercase(), self.many())
    }
}

/// A line for each sign that is seen.
pub fn lines(trace: Trace, gaps: &Gaps) -> String {
    seen(trace, gaps).iter().map(|loss| format!("{}\n", loss.sentence())).collect()
}

/// What a list says where no sign is seen.
pub const NONE: &str = "none seen";

/// The facts for a list.
pub fn facts(trace: Trace, gaps: &Gaps) -> Vec<String> {
    let seen = seen(trace, gaps);
    if seen.is_empty() {
        return vec![NONE.to_string()];
    }
    seen.iter().map(Loss::fact).collect()
}

/// The signs that are seen as one object, by name: how often, where first, and of which adapter that is.
pub fn fields(trace: Trace, gaps: &Gaps) -> String {
    let of = |loss: &Loss| {
        object(&[
            ("count", loss.count.to_string()),
            ("first", loss.first.to_string()),
            ("adapter", null_or(loss.adapter)),
        ])
    };
    let seen = seen(trace, gaps);
    let fields: Vec<(&str, String)> =
        seen.iter().map(|loss| (loss.words.name, of(loss).trim_end().to_string())).collect();
    object(&fields).trim_end().to_string()
}

#[cfg(test)]
mod tests {
    use super::{facts, fields, lines};
    use look::Trace;
    use lumbryth::{Gap, Gaps};

    fn set(gap: &mut Gap, count: u64, first: usize) {
        gap.count = count;
        gap.first = Some(first);
    }

    /// Each sign so often, the first of each so many bytes behind the one before.
    fn each(count: u64, step: usize) -> Gaps {
        let mut gaps = Gaps::default();
        let Gaps { short, dropped, skipped, zeros, stray, given_up, open, .. } = &mut gaps;
        for (i, gap) in [short, dropped, skipped, zeros, stray, given_up, open].into_iter().enumerate() {
            set(gap, count, 16 + step * i);
        }
        gaps
    }

    /// A file of one adapter, whatever its records.
    const FILE: [u8; 80] = {
        let mut file = [0; 80];
        file.split_at_mut(16).0.copy_from_slice(b"btsnoop\0\0\0\0\x01\0\0\x03\xEA");
        file
    };

    /// A trace of the Linux monitor with records of these flags, 28 bytes each.
    fn monitored(flags: &[u32]) -> Vec<u8> {
        let mut file = b"btsnoop\0\0\0\0\x01\0\0\x07\xD1".to_vec();
        for flags in flags {
            file.extend([0, 0, 0, 4, 0, 0, 0, 4]);
            file.extend(flags.to_be_bytes());
            file.extend([0; 12]);
            file.extend([0x40, 0x20, 0, 0]);
        }
        file
    }

    #[test]
    fn none() {
        let gaps = Gaps::default();
        assert_eq!((lines(Trace::of(&FILE), &gaps), fields(Trace::of(&FILE), &gaps)), (String::new(), "{}".into()));
        assert_eq!(facts(Trace::of(&FILE), &gaps), ["none seen"]);
    }

    #[test]
    fn one_of_each() {
        let text = "\
Stored short: 1 record, at byte 16. The recorder kept only a part of its packet.
Dropped by the recorder: 1 packet, told at byte 17. By its own count it did not keep it.
Skipped: 1 data packet, at byte 18. A part of it is not in the file.
Zeros only: 1 record, at byte 19. Something else may have stood there.
Without a beginning: 1 packet, at byte 20. What it continues is not in the file.
Broken off: 1 message, at byte 21, where another begins. Its rest is not in the file.
Open at the end: 1 message, begun at byte 22. Its rest is not in the file.
";
        assert_eq!(lines(Trace::of(&FILE), &each(1, 1)), text);
        // The same of any one adapter.
        assert_eq!(lines(Trace::of(&monitored(&[0x3_0004, 0x3_0005])), &each(1, 1)), text);
    }

    #[test]
    fn more_of_each() {
        let text = "\
Stored short: 3 records, the first at byte 16. The recorder kept only a part of their packets.
Dropped by the recorder: 3 packets, first told at byte 17. By its own count it did not keep them.
Skipped: 3 data packets, the first at byte 18. A part of each is not in the file.
Zeros only: 3 records, the first at byte 19. Something else may have stood there.
Without a beginning: 3 packets, the first at byte 20. What they continue is not in the file.
Broken off: 3 messages, the first at byte 21, where another begins. Their rest is not in the file.
Open at the end: 3 messages, the first begun at byte 22. Their rest is not in the file.
";
        assert_eq!(lines(Trace::of(&FILE), &each(3, 1)), text);
    }

    #[test]
    fn as_facts_and_fields() {
        let mut gaps = Gaps::default();
        set(&mut gaps.given_up, 2, 40);
        set(&mut gaps.short, 1, 16);
        let told = [
            "stored short, 1 record, at byte 16",
            "broken off, 2 messages, the first at byte 40, where another begins",
        ];
        assert_eq!(facts(Trace::of(&FILE), &gaps), told);
        assert_eq!(
            fields(Trace::of(&FILE), &gaps),
            r#"{"short":{"count":1,"first":16,"adapter":0},"given_up":{"count":2,"first":40,"adapter":0}}"#
        );
    }

    /// The adapter of the first is named where there is another; not for the recorder's count, nor for zeros.
    #[test]
    fn of_two_adapters() {
        let file = monitored(&[0xFFFF_0002, 0x1_0005, 0x1_0005, 0, 4, 0x1_0004, 5]);
        let text = "\
Stored short: 1 record, at byte 16 on adapter 65535. The recorder kept only a part of its packet.
Dropped by the recorder: 1 packet, told at byte 44. By its own count it did not keep it.
Skipped: 1 data packet, at byte 72 on adapter 1. A part of it is not in the file.
Zeros only: 1 record, at byte 100. Something else may have stood there.
Without a beginning: 1 packet, at byte 128 on adapter 0. What it continues is not in the file.
Broken off: 1 message, at byte 156 on adapter 1, where another begins. Its rest is not in the file.
Open at the end: 1 message, begun at byte 184 on adapter 0. Its rest is not in the file.
";
        assert_eq!(lines(Trace::of(&file), &each(1, 28)), text);
        let mut gaps = Gaps::default();
        set(&mut gaps.dropped, 5, 44);
        set(&mut gaps.given_up, 2, 156);
        let told = [
            "dropped by the recorder, 5 packets, first told at byte 44",
            "broken off, 2 messages, the first at byte 156 on adapter 1, where another begins",
        ];
        assert_eq!(facts(Trace::of(&file), &gaps), told);
        assert_eq!(
            fields(Trace::of(&file), &gaps),
            r#"{"dropped":{"count":5,"first":44,"adapter":null},"given_up":{"count":2,"first":156,"adapter":1}}"#
        );
        // A record that has no packet is of no adapter.
        let file = monitored(&[0xFFFF_000C, 4, 0x1_0004]);
        let mut gaps = Gaps::default();
        set(&mut gaps.short, 1, 16);
        assert_eq!(facts(Trace::of(&file), &gaps), ["stored short, 1 record, at byte 16"]);
        assert_eq!(fields(Trace::of(&file), &gaps), r#"{"short":{"count":1,"first":16,"adapter":null}}"#);
    }
}
