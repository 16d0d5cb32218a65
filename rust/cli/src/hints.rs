//! Hints that frames are missing, from the list of frames alone.
//!
//! A frame of DATA_MDR, DATA_MDR_NO2 or DATA_COMMON is acknowledged from the other side, by an ACK with 1 minus its sequence number,
//! before the next one is sent; one that is sent again counts once. A command XXX_GET_YYY is answered by XXX_RET_YYY from the other
//! side. Where that is not so, something may be missing. It need not be, so a hint is no evidence; and what may be honest gives none:
//! ACKs of frames before the recording began, questions at its end, and what a frame that does not unpack may have been.

use std::collections::BTreeMap;

use crate::words::{object, string, way};
use lumbryth::{is_command_name, unpack, Direction, Frame, FrameType, Span};

/// How many hints of a kind are told.
const TOLD: usize = 3;

/// What gives a hint.
#[derive(Debug, Clone, Copy, PartialEq, Eq, PartialOrd, Ord)]
pub enum Kind {
    /// An ACK of a frame that is not there.
    Ack,
    /// A frame that is not acknowledged.
    Unacknowledged,
    /// A question that is not answered, and a later one is.
    Unanswered,
    /// An ACK of nothing but a frame that does not unpack: that one is told of.
    Broken,
    /// The last frame of its side, not acknowledged, with nothing from the other side behind it.
    End,
}

/// A hint, and the frame that gives it.
#[derive(Debug, PartialEq)]
pub struct Hint {
    pub kind: Kind,
    pub counter: usize,
    pub direction: Direction,
    /// The frame's command; of an ACK, ACK.
    pub command: String,
}

fn other(direction: Direction) -> Direction {
    if direction == Direction::Rx {
        Direction::Tx
    } else {
        Direction::Rx
    }
}

impl Hint {
    /// In a line.
    pub fn sentence(&self) -> String {
        let Hint { counter, command, .. } = self;
        let (here, there) = (way(self.direction), way(other(self.direction)));
        match self.kind {
            Kind::Ack => format!("Hint: a frame {there} may be missing: ACK {here} {counter} fits none there."),
            Kind::Unacknowledged => {
                format!("Hint: an ACK {there} may be missing: none fits {command} {here} {counter}.")
            }
            Kind::Unanswered => {
                let answer = answer_to(command).unwrap_or_default();
                format!("Hint: {answer} {there} may be missing: {command} {here} {counter} has no answer.")
            }
            Kind::Broken => {
                format!("Hint: bytes of {here} {counter} may be missing: it does not unpack, yet an ACK follows.")
            }
            Kind::End => format!("Hint: the end may be missing: no ACK follows {command} {here} {counter}."),
        }
    }
}

/// The first few hints of each kind, a line each, and how many more there are.
pub fn lines(hints: &[Hint]) -> String {
    let mut text = String::new();
    for kind in [Kind::Ack, Kind::Unacknowledged, Kind::Unanswered, Kind::Broken, Kind::End] {
        let of: Vec<&Hint> = hints.iter().filter(|hint| hint.kind == kind).collect();
        of.iter().take(TOLD).for_each(|hint| text += &format!("{}\n", hint.sentence()));
        if of.len() > TOLD {
            text += &format!("Hint: and {} more of this kind.\n", of.len() - TOLD);
        }
    }
    text
}

/// An object for each hint.
pub fn objects(hints: &[Hint]) -> String {
    let name = |kind| match kind {
        Kind::Ack => "ack",
        Kind::Unacknowledged => "unacknowledged",
        Kind::Unanswered => "unanswered",
        Kind::Broken => "broken",
        Kind::End => "end",
    };
    let of = |hint: &Hint| {
        object(&[
            ("kind", string("hint")),
            ("hint", string(name(hint.kind))),
            ("counter", hint.counter.to_string()),
            ("direction", string(way(hint.direction))),
            ("command_name", string(&hint.command)),
        ])
    };
    hints.iter().map(of).collect()
}

/// The name of the command that answers one of this name.
fn answer_to(name: &str) -> Option<String> {
    let answer = name.replacen("_GET_", "_RET_", 1);
    (answer != name && is_command_name(&answer)).then_some(answer)
}

/// A frame of the list.
struct Seen {
    counter: usize,
    direction: Direction,
    what: What,
}

enum What {
    /// With its sequence number.
    Ack(u8),
    /// Any other frame, with its command.
    Data(Frame, String),
    /// A span that does not unpack.
    Broken,
}

impl Seen {
    fn of(counter: usize, span: &Span) -> Seen {
        let what = match unpack(&span.wire) {
            Ok(frame) if frame.kind == FrameType::Ack => What::Ack(frame.seq),
            Ok(frame) => {
                let name = frame.command_name();
                What::Data(frame, name)
            }
            Err(_) => What::Broken,
        };
        Seen { counter, direction: span.direction, what }
    }

    fn hint(&self, kind: Kind) -> Hint {
        let command = match &self.what {
            What::Ack(_) => "ACK",
            What::Data(_, name) => name,
            What::Broken => "",
        };
        Hint { kind, counter: self.counter, direction: self.direction, command: command.to_string() }
    }

    /// The frame and its command, if it went this way and is no ACK.
    fn data(&self, direction: Direction) -> Option<(&Frame, &str)> {
        match &self.what {
            What::Data(frame, name) if self.direction == direction => Some((frame, name)),
            _ => None,
        }
    }

    fn is_broken(&self, direction: Direction) -> bool {
        self.direction == direction && matches!(self.what, What::Broken)
    }
}

/// The first question on every link, and its answer.
const FIRST: [&str; 2] = ["CONNECT_GET_PROTOCOL_INFO", "CONNECT_RET_PROTOCOL_INFO"];

/// The hints that a list of spans gives, by kind and counter.
pub fn hints(spans: &[Span]) -> Vec<Hint> {
    let list: Vec<Seen> = (1..).zip(spans).map(|(counter, span)| Seen::of(counter, span)).collect();
    let mut hints = Vec::new();
    let mut rest = &list[..];
    while !rest.is_empty() {
        let (link, behind) = rest.split_at(link_length(rest));
        rest = behind;
        let mut of_link = Vec::new();
        for direction in [Direction::Tx, Direction::Rx] {
            acknowledging(link, direction, &mut of_link);
            answering(link, direction, &mut of_link);
        }
        // A link may end before an ACK; the last one ends with the recording.
        hints.extend(of_link.into_iter().filter(|hint| hint.kind != Kind::End || rest.is_empty()));
    }
    hints.sort_by_key(|hint| (hint.kind, hint.counter));
    hints
}

/// Up to where a list is of one link: to the next first question that is not sent again.
fn link_length(list: &[Seen]) -> usize {
    let mut last: [Option<&Frame>; 2] = [None; 2];
    for (i, seen) in list.iter().enumerate() {
        let What::Data(frame, name) = &seen.what else { continue };
        let last = &mut last[usize::from(seen.direction == Direction::Rx)];
        if i > 0 && name == FIRST[0] && *last != Some(frame) {
            return i;
        }
        *last = Some(frame);
    }
    list.len()
}

/// Whether a link is there from its beginning on: whether its first frame that is no ACK is the first question, or the answer to it.
fn is_whole(link: &[Seen]) -> bool {
    let mut names = link.iter().filter_map(|seen| match &seen.what {
        What::Data(_, name) => Some(&**name),
        _ => None,
    });
    names.next().is_some_and(|name| FIRST.contains(&name))
}

/// Whether a frame has to be acknowledged.
fn wants_ack(frame: &Frame) -> bool {
    matches!(frame.kind, FrameType::DataMdr | FrameType::DataMdrNo2 | FrameType::DataCommon)
}

/// Whether an ACK may be that of a frame.
fn fits(ack: u8, frame: &Frame) -> bool {
    ack == 1_u8.wrapping_sub(frame.seq)
}

/// A frame that waits for its ACK.
struct Waiting<'a> {
    seen: &'a Seen,
    frame: &'a Frame,
    /// How often it was sent again, and the last time.
    again: usize,
    last: usize,
}

/// The frames that went one way, and their ACKs.
#[derive(Default)]
struct Side<'a> {
    /// Those that wait, in order.
    waiting: Vec<Waiting<'a>>,
    /// How many of them stand before one that was acknowledged.
    passed: usize,
    /// Those for which no ACK can come any more.
    late: Vec<Waiting<'a>>,
    /// The last frame, and how many ACKs more may be its own.
    last: Option<&'a Frame>,
    spare: usize,
    /// A span after it that does not unpack.
    broken: Option<&'a Seen>,
}

/// As far back as an ACK is looked for.
const BACK: usize = 16;

impl<'a> Side<'a> {
    fn sent(&mut self, seen: &'a Seen, frame: &'a Frame) {
        if self.last == Some(frame) {
            match self.waiting.last_mut().filter(|waiting| waiting.frame == frame) {
                Some(waiting) => (waiting.again, waiting.last) = (waiting.again + 1, seen.counter),
                None => self.spare += 1,
            }
            return;
        }
        self.late.extend(self.waiting.drain(..self.passed));
        self.waiting.push(Waiting { seen, frame, again: 0, last: seen.counter });
        (self.passed, self.last, self.spare, self.broken) = (0, Some(frame), 0, None);
    }

    /// Takes an ACK, if it may be that of a frame. The latest comes first.
    fn takes(&mut self, ack: u8) -> bool {
        if self.spare > 0 && self.last.is_some_and(|frame| fits(ack, frame)) {
            self.spare -= 1;
            return true;
        }
        let from = self.waiting.len().saturating_sub(BACK);
        let Some(i) = self.waiting[from..].iter().rposition(|waiting| fits(ack, waiting.frame)) else {
            return false;
        };
        let taken = self.waiting.remove(from + i);
        self.passed = from + i;
        if self.last == Some(taken.frame) {
            self.spare = taken.again;
        }
        true
    }
}

/// The counters of some frames of a link, in order.
struct Places(Vec<usize>);

impl Places {
    fn of(link: &[Seen], is: impl Fn(&Seen) -> bool) -> Places {
        Places(link.iter().filter(|seen| is(seen)).map(|seen| seen.counter).collect())
    }

    /// The first after another.
    fn after(&self, counter: usize) -> Option<usize> {
        self.0.get(self.0.partition_point(|place| *place <= counter)).copied()
    }
}

/// The hints of a link that ACKs give, of frames that went one way.
fn acknowledging(link: &[Seen], direction: Direction, hints: &mut Vec<Hint>) {
    let mut side = Side::default();
    // The first ACK, and more with its number, may be of a frame before the recording.
    let (mut begins, mut before) = (!is_whole(link), None);
    for seen in link {
        match &seen.what {
            What::Data(frame, _) if seen.direction == direction => {
                side.sent(seen, frame);
                begins = false;
            }
            What::Broken if seen.direction == direction => side.broken = Some(seen),
            What::Ack(seq) if seen.direction != direction && !side.takes(*seq) => {
                if let Some(broken) = side.broken.take() {
                    hints.push(broken.hint(Kind::Broken));
                } else if !begins || *before.get_or_insert(*seq) != *seq {
                    hints.push(seen.hint(Kind::Ack));
                }
            }
            _ => {}
        }
    }
    let back = other(direction);
    let broken = Places::of(link, |seen| seen.is_broken(back));
    let data = Places::of(link, |seen| seen.data(back).is_some());
    let own = Places::of(link, |seen| seen.data(direction).is_some());
    let all = Places::of(link, |seen| seen.direction == back);
    for waiting in side.late.iter().chain(&side.waiting).filter(|waiting| wants_ack(waiting.frame)) {
        let counter = waiting.seen.counter;
        // A span that does not unpack may be the ACK, unless another frame came from that side before.
        let may_be = |broken: usize| data.after(counter).is_none_or(|data| broken < data);
        if broken.after(counter).is_some_and(may_be) {
            continue;
        }
        let goes_on = all.after(waiting.last).is_some() || own.after(waiting.last).is_some();
        hints.push(waiting.seen.hint(if goes_on { Kind::Unacknowledged } else { Kind::End }));
    }
}

/// The hints of a link that questions give, which went one way.
fn answering(link: &[Seen], direction: Direction, hints: &mut Vec<Hint>) {
    let back = other(direction);
    // Those that wait, with the name of the answer; and where those were answered that do not.
    let mut waiting: Vec<(&Seen, &Frame, String)> = Vec::new();
    let mut answered = BTreeMap::new();
    let mut last = [None, None];
    for seen in link {
        let What::Data(frame, name) = &seen.what else { continue };
        let asks = seen.direction == direction;
        if last[usize::from(asks)].replace(frame) == Some(frame) {
            continue;
        }
        if asks {
            waiting.extend(answer_to(name).map(|answer| (seen, frame, answer)));
        } else {
            let answers = |(_, get, answer): &(&Seen, &Frame, String)| get.kind == frame.kind && answer == name;
            // Most say again in their second byte what was asked for.
            let same = |row: &(&Seen, &Frame, String)| answers(row) && row.1.payload.get(1) == frame.payload.get(1);
            if let Some(i) = waiting.iter().position(same).or_else(|| waiting.iter().position(answers)) {
                answered.insert(waiting.remove(i).0.counter, seen.counter);
            }
        }
    }
    let broken = Places::of(link, |seen| seen.is_broken(back));
    for (get, ..) in waiting {
        // Only if a later one is answered; and a span that does not unpack may be the answer.
        let Some((_, &until)) = answered.range(get.counter..).next() else { continue };
        if broken.after(get.counter).is_none_or(|broken| until < broken) {
            hints.push(get.hint(Kind::Unanswered));
        }
    }
}

#[cfg(test)]
mod tests {
    use super::{hints, lines, objects, Hint, Kind};
    use lumbryth::Direction::{self, Rx, Tx};
    use lumbryth::{pack, Span};

    const MDR: u8 = 0x0C;
    const NO2: u8 = 0x0E;

    fn data(direction: Direction, seq: u8, payload: &[u8]) -> Span {
        Span::new(direction, 0, pack(MDR, seq, payload).unwrap())
    }

    fn ack(direction: Direction, seq: u8) -> Span {
        Span::new(direction, 0, pack(0x01, seq, &[]).unwrap())
    }

    fn broken(direction: Direction) -> Span {
        Span::new(direction, 0, vec![0x3E, 0x0C, 0, 0, 0, 0, 1, 0x22, 0, 0x3C])
    }

    /// A question, its ACK, its answer, and the ACK of that.
    fn exchange(seq: u8, command: u8) -> Vec<Span> {
        vec![data(Tx, seq, &[command, 0]), ack(Rx, 1 - seq), data(Rx, seq, &[command + 1, 0, 9]), ack(Tx, 1 - seq)]
    }

    /// A link: the first question of every link, power, noise, equalizer.
    fn link() -> Vec<Span> {
        [exchange(0, 0x00), exchange(1, 0x22), exchange(0, 0x66), exchange(1, 0x56)].concat()
    }

    #[track_caller]
    fn gives(spans: &[Span], told: &[(Kind, usize)]) {
        let found: Vec<_> = hints(spans).iter().map(|hint| (hint.kind, hint.counter)).collect();
        assert_eq!(found, told);
    }

    #[test]
    fn what_is_whole_gives_none() {
        gives(&[], &[]);
        gives(&link(), &[]);
        // Once more, after the link was lost while a frame was under way.
        gives(&[link(), link()].concat(), &[]);
        gives(&[link(), vec![data(Tx, 0, &[0x22, 0])], link()].concat(), &[]);
    }

    #[test]
    fn each_frame_of_a_link_is_missed() {
        use Kind::*;
        for n in 0..16 {
            let mut spans = link();
            spans.remove(n);
            let told: &[(Kind, usize)] = match (n % 4, n) {
                (0, _) => &[(Ack, n + 1)],
                (1, _) => &[(Unacknowledged, n)],
                (2, 14) => &[(Ack, n + 1)],
                (2, _) => &[(Ack, n + 1), (Unanswered, n - 1)],
                (_, 15) => &[(End, n)],
                _ => &[(Unacknowledged, n)],
            };
            gives(&spans, told);
        }
    }

    #[test]
    fn a_recording_from_the_middle() {
        // What came before it is not missed, but for the first question where its answer is there.
        gives(&link()[1..], &[(Kind::Ack, 1)]);
        for n in 2..16 {
            gives(&link()[n..], &[]);
        }
        // One frame each way may have been under way before it, which may have been sent again, and no more.
        let both = vec![ack(Rx, 0), ack(Tx, 1), data(Rx, 0, &[0x25, 0]), ack(Tx, 1)];
        gives(&both, &[]);
        gives(&[vec![ack(Tx, 1)], both.clone()].concat(), &[]);
        gives(&[vec![ack(Tx, 0)], both].concat(), &[(Kind::Ack, 3)]);
        // Nor where frames came before.
        gives(&[exchange(0, 0x22), vec![ack(Rx, 0)]].concat(), &[(Kind::Ack, 5)]);
    }

    #[test]
    fn a_recording_that_ends() {
        let whole = link();
        for n in 0..16 {
            // Only a frame that waits for its ACK: not a question that waits for its answer.
            let told = if n % 2 == 1 { vec![(Kind::End, n)] } else { vec![] };
            gives(&whole[..n], &told);
        }
        // Each side's last; and one that goes on without an ACK is no end.
        gives(&[data(Rx, 0, &[0x25]), data(Tx, 0, &[0x22])], &[(Kind::Unacknowledged, 1), (Kind::End, 2)]);
        gives(&[data(Rx, 0, &[0x25]), data(Rx, 1, &[0x25])], &[(Kind::Unacknowledged, 1), (Kind::End, 2)]);
    }

    #[test]
    fn notices_need_no_question() {
        let notice = |seq| vec![data(Rx, seq, &[0x25, 0, seq]), ack(Tx, 1 - seq)];
        gives(&[link(), notice(0), notice(1), notice(1), exchange(0, 0x22), notice(0)].concat(), &[]);
        // One comes between a frame and its ACK.
        gives(
            &[data(Tx, 0, &[0x22]), data(Rx, 0, &[0x25]), ack(Tx, 1), ack(Rx, 1), data(Rx, 1, &[0x23]), ack(Tx, 0)],
            &[],
        );
    }

    #[test]
    fn what_is_sent_again_counts_once() {
        let get = || data(Tx, 0, &[0x22, 0]);
        let rest = || vec![data(Rx, 1, &[0x23, 0]), ack(Tx, 0), data(Tx, 1, &[0x24, 0]), ack(Rx, 0)];
        // One ACK for all, or one for each, before or after.
        gives(&[vec![get(), get(), get(), ack(Rx, 1)], rest()].concat(), &[]);
        gives(&[vec![get(), get(), ack(Rx, 1), ack(Rx, 1)], rest()].concat(), &[]);
        gives(&[vec![get(), ack(Rx, 1), get(), ack(Rx, 1)], rest()].concat(), &[]);
        gives(&[vec![get(), ack(Rx, 1), get()], rest()].concat(), &[]);
        // More ACKs than frames, or with another number.
        gives(&[vec![get(), get(), ack(Rx, 1), ack(Rx, 0)], rest()].concat(), &[(Kind::Ack, 4)]);
        gives(&[vec![get(), ack(Rx, 1), get(), ack(Rx, 1), ack(Rx, 1)], rest()].concat(), &[(Kind::Ack, 5)]);
        gives(&[vec![get(), get()], rest()].concat(), &[(Kind::Unacknowledged, 1)]);
        // Another sequence number is another frame.
        let other = [vec![get(), data(Tx, 1, &[0x22, 0]), ack(Rx, 0)], rest(), vec![data(Tx, 0, &[0x24]), ack(Rx, 1)]];
        gives(&other.concat(), &[(Kind::Unacknowledged, 1)]);
    }

    #[test]
    fn an_ack_has_the_other_number() {
        gives(&[data(Tx, 0, &[0x24]), ack(Rx, 0)], &[(Kind::Ack, 2), (Kind::Unacknowledged, 1)]);
        gives(&[data(Tx, 1, &[0x24]), ack(Rx, 0)], &[]);
        // Two under way, of either number.
        gives(&[data(Tx, 0, &[0x24]), data(Tx, 1, &[0x24]), ack(Rx, 1), ack(Rx, 0)], &[]);
        gives(&[data(Tx, 0, &[0x24]), data(Tx, 0, &[0x28]), ack(Rx, 1), ack(Rx, 1)], &[]);
        // One that others were sent after, and acknowledged, has none any more.
        let set = |seq, value| data(Tx, seq, &[0x24, value]);
        let late = [set(0, 1), set(1, 2), ack(Rx, 0), set(1, 3), ack(Rx, 0), ack(Rx, 1)];
        gives(&late, &[(Kind::Ack, 6), (Kind::Unacknowledged, 1)]);
        // The same way it is none.
        gives(&[data(Tx, 0, &[0x24]), ack(Tx, 1)], &[(Kind::End, 1)]);
    }

    #[test]
    fn other_types_need_no_ack() {
        for kind in 0..=255 {
            let spans = [Span::new(Tx, 0, pack(kind, 0, &[0xFF]).unwrap()), data(Rx, 0, &[0x25]), ack(Tx, 1)];
            let told: &[_] = match kind {
                0x01 => &[],
                0x0C..=0x0E => &[(Kind::Unacknowledged, 1)],
                _ => &[],
            };
            gives(&spans, told);
            // They may have one.
            if kind != 0x01 {
                gives(&[spans[0].clone(), ack(Rx, 1)], &[]);
            }
        }
    }

    #[test]
    fn answers_are_of_the_same_table_and_what_was_asked() {
        let get = |kind, what| Span::new(Tx, 0, pack(kind, 0, &[0x32, what]).unwrap());
        let ret = |kind, what| Span::new(Rx, 0, pack(kind, 0, &[0x33, what]).unwrap());
        let ask = |kind, what| vec![get(kind, what), ack(Rx, 1)];
        let say = |kind, what| vec![ret(kind, what), ack(Tx, 1)];
        gives(&[ask(MDR, 0), ask(NO2, 0), say(NO2, 0), say(MDR, 0)].concat(), &[]);
        gives(&[ask(MDR, 0), ask(NO2, 0), say(NO2, 0)].concat(), &[(Kind::Unanswered, 1)]);
        // The one that was asked for, if it can be told; else the first.
        gives(&[ask(MDR, 1), ask(MDR, 2), say(MDR, 2)].concat(), &[(Kind::Unanswered, 1)]);
        gives(&[ask(MDR, 1), ask(MDR, 2), say(MDR, 1)].concat(), &[]);
        gives(&[ask(MDR, 1), ask(MDR, 2), say(MDR, 7), say(MDR, 2)].concat(), &[]);
        // An answer that is sent again is no other.
        let again = [vec![ret(MDR, 1)], say(MDR, 1)].concat();
        gives(&[ask(MDR, 1), ask(NO2, 2), ask(MDR, 3), again].concat(), &[]);
        // A command that has no answer by its name.
        let test = vec![data(Tx, 0, &[0x0F]), ack(Rx, 1)];
        gives(&[test, exchange(1, 0x22)].concat(), &[]);
    }

    #[test]
    fn what_does_not_unpack_may_be_what_is_missing() {
        let ends = || exchange(1, 0x66);
        // Sent again, whole.
        let again = || vec![broken(Rx), data(Rx, 0, &[0x25]), ack(Tx, 1)];
        gives(&[again(), ends()].concat(), &[]);
        gives(&[again(), vec![ack(Tx, 1)], ends()].concat(), &[(Kind::Ack, 4)]);
        // It may be the ACK, or the answer.
        gives(&[vec![data(Tx, 0, &[0x24]), broken(Rx)], ends()].concat(), &[]);
        gives(&[vec![data(Tx, 0, &[0x22]), ack(Rx, 1), broken(Rx)], ends()].concat(), &[]);
        // Not the other way, and no ACK after an answer.
        gives(&[vec![data(Tx, 0, &[0x22]), ack(Rx, 1), broken(Tx)], ends()].concat(), &[(Kind::Unanswered, 1)]);
        let late = [vec![data(Tx, 0, &[0x22]), data(Rx, 0, &[0x23]), ack(Tx, 1), broken(Rx)], ends()].concat();
        gives(&late, &[(Kind::Unacknowledged, 1)]);
        // Of an ACK that fits nothing else it is told that it was taken whole.
        gives(&[ends(), vec![broken(Rx), ack(Tx, 1)]].concat(), &[(Kind::Broken, 5)]);
        gives(&[ends(), vec![broken(Rx), ack(Tx, 1), ack(Tx, 0)]].concat(), &[(Kind::Ack, 7), (Kind::Broken, 5)]);
    }

    #[test]
    fn the_first_few_are_told() {
        let acks: Vec<Span> = (0..6).map(|_| ack(Rx, 1)).collect();
        let found = hints(&[exchange(0, 0x22), acks, vec![data(Tx, 1, &[0x24, 0])]].concat());
        let text = "\
Hint: a frame tx may be missing: ACK rx 5 fits none there.
Hint: a frame tx may be missing: ACK rx 6 fits none there.
Hint: a frame tx may be missing: ACK rx 7 fits none there.
Hint: and 3 more of this kind.
Hint: the end may be missing: no ACK follows POWER_SET_STATUS tx 11.
";
        assert_eq!(lines(&found), text);
        let objects = objects(&found);
        assert_eq!(objects.lines().count(), 7);
        let last = r#"{"kind":"hint","hint":"end","counter":11,"direction":"tx","command_name":"POWER_SET_STATUS"}"#;
        assert_eq!(objects.lines().last(), Some(last));
    }

    #[test]
    fn each_in_words() {
        let told = |spans: &[Span]| lines(&hints(spans));
        let mut spans = link();
        spans.remove(5);
        assert_eq!(told(&spans), "Hint: an ACK rx may be missing: none fits POWER_GET_STATUS tx 5.\n");
        let mut spans = link();
        spans.drain(6..8);
        let text = "Hint: POWER_RET_STATUS rx may be missing: POWER_GET_STATUS tx 5 has no answer.\n";
        assert_eq!(told(&spans), text);
        let text = "Hint: bytes of rx 5 may be missing: it does not unpack, yet an ACK follows.\n";
        assert_eq!(told(&[exchange(0, 0x22), vec![broken(Rx), ack(Tx, 0)]].concat()), text);
    }

    /// A side of a conversation: what it has to say, its sequence number, and where its frame is that waits for an ACK.
    #[derive(Default)]
    struct Talker {
        to_say: Vec<Vec<u8>>,
        seq: u8,
        waits: Option<usize>,
    }

    /// A frame of a conversation: where it was sent first, or of an ACK, the frame that it acknowledges; and how often it is there.
    struct Row {
        span: Span,
        of: usize,
        times: usize,
    }

    /// An ACK is shorter than any other frame here.
    fn is_ack(row: &Row) -> bool {
        row.span.wire.len() == 9
    }

    /// A conversation as two sides have it that keep the rules, from the first question on: each says the next when the last is
    /// acknowledged, and sometimes the last again; that may have more than one ACK.
    fn conversation(seed: u64) -> Vec<Row> {
        let mut state = seed * 2 + 1;
        let mut below = |n: u64| {
            state = state.wrapping_mul(6_364_136_223_846_793_005).wrapping_add(1_442_695_040_888_963_407);
            (state >> 33) % n
        };
        let mut list: Vec<Row> = Vec::new();
        let mut sides = [Talker::default(), Talker::default()];
        sides[0].to_say.push(vec![0x00, 0]);
        let mut left = 25;
        loop {
            let (me, way) = if below(2) == 0 { (0, Tx) } else { (1, Rx) };
            if let Some(of) = sides[1 - me].waits.filter(|_| below(3) > 0) {
                let (seq, said) = (sides[1 - me].seq, sides[1 - me].to_say.remove(0));
                let times = 1 + (1..list[of].times).filter(|_| below(2) == 0).count();
                list.extend((0..times).map(|_| Row { span: ack(way, 1 - seq), of, times }));
                if me == 1 && [0x00, 0x22, 0x66, 0x56].contains(&said[0]) {
                    sides[1].to_say.push(vec![said[0] + 1, said[1], 9]);
                }
                // The headset's numbers do not always change.
                sides[1 - me].seq = if me == 1 || below(3) > 0 { 1 - seq } else { seq };
                sides[1 - me].waits = None;
            } else if let Some(of) = sides[me].waits {
                if below(8) == 0 {
                    list[of].times += 1;
                    list.push(Row { span: list[of].span.clone(), of, times: 2 });
                }
            } else {
                // Nobody says more before the first answer.
                let begun = list.iter().any(|row| row.span.direction == Rx && !is_ack(row));
                if sides[me].to_say.is_empty() && left > 0 && begun {
                    left -= 1;
                    let command = if me == 1 { 0x25 } else { [0x24, 0x22, 0x66, 0x56][below(4) as usize] };
                    sides[me].to_say.push(vec![command, left]);
                }
                if let Some(payload) = sides[me].to_say.first() {
                    let of = list.len();
                    list.push(Row { span: data(way, sides[me].seq, payload), of, times: 1 });
                    sides[me].waits = Some(of);
                } else if left == 0 && sides.iter().all(|side| side.to_say.is_empty() && side.waits.is_none()) {
                    return list;
                }
            }
        }
    }

    /// Many conversations: of the whole nothing is said, from the middle on nothing, up to the middle only what is not acknowledged
    /// yet; and without a frame or an ACK that is there once, something.
    #[test]
    fn conversations() {
        let (mut frames, mut starts, mut missed) = (0, 0, 0);
        for seed in 0..100 {
            let list = conversation(seed);
            let spans: Vec<Span> = list.iter().map(|row| row.span.clone()).collect();
            gives(&spans, &[]);
            frames += spans.len();
            for n in 1..spans.len() {
                // From here on, unless that parts a frame that is sent again, or the first question from its answer.
                let parted = |row: &Row| row.of < n && (row.of == 0 || list[row.of].times > 1);
                if !list[n..].iter().any(parted) {
                    gives(&spans[n..], &[]);
                    starts += 1;
                }
                let cut = hints(&spans[..n]);
                let known = |hint: &Hint| matches!(hint.kind, Kind::End | Kind::Unacknowledged);
                assert!(cut.len() <= 2 && cut.iter().all(known), "{seed} to {n}: {cut:?}");
                if list[n].times == 1 {
                    let left = [&spans[..n], &spans[n + 1..]].concat();
                    // The ACK of a frame that is lost may pass for one more of the frame before it, if that was sent again.
                    let before = list[..n].iter().rfind(|row| row.span.direction == spans[n].direction && !is_ack(row));
                    let passes = !is_ack(&list[n]) && before.is_some_and(|row| list[row.of].times > 1);
                    assert!(passes || !hints(&left).is_empty(), "{seed} without {n}");
                    missed += usize::from(!passes);
                }
            }
        }
        assert!(frames > 7_000 && starts > 4_000 && missed > 4_000, "{frames} {starts} {missed}");
    }

    /// Long lists take no long time.
    #[test]
    fn many() {
        let spans: Vec<Span> = (0..24_000_u32).map(|i| data(Rx, 0, &[0x22, i as u8, (i >> 8) as u8])).collect();
        assert_eq!(hints(&spans).len(), 24_000);
        let spans: Vec<Span> = (0..24_000).map(|i| ack(Tx, i as u8)).collect();
        assert_eq!(hints(&spans).len(), 24_000 - 94);
    }
}
