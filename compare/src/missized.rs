//! Wrong calls that tell sizes, planted to be reported by `sizes`, and by the vectors where those show them.

use crate::answer::{chosen, container, Answer, Asked, Container, NO_CHANNEL, SIZES};
use crate::expected::LONGEST_FILE;
use crate::fcs;
use crate::items;
use crate::model::{self, Lists, Pdu, Reading, RIGHT};

/// Parts of the group, for faults that each of them has to report alone.
pub const BY_HAND: &str = "sizes, fixed files";
pub const RANDOM: &str = "sizes, random traces";
pub const HONEST: &str = "sizes, every cut of honest recordings";
pub const LONG: &str = "sizes, long files";
pub const LAW: &str = "sizes, the laws";

/// What every part shows; and what the laws do not, which know no number but what is needed and are lent enough.
const ALL: &[&str] = &[BY_HAND, RANDOM, HONEST, LAW, "vectors"];
const MADE: &[&str] = &[BY_HAND, RANDOM, HONEST, "vectors"];

/// What a call is given.
pub struct Given<'a> {
    pub reading: Reading,
    pub file: &'a [u8],
    pub work: usize,
    pub container: Container,
    pub asked: Asked,
}

impl<'a> Given<'a> {
    /// The right answer.
    fn sizes(&self) -> Answer {
        model::sizes_from(self.container, self.file, self.work, self.asked, self.reading)
    }

    /// The right answer with so much work, or asked for something else.
    fn with(&self, work: usize, asked: Asked) -> Answer {
        model::sizes_from(self.container, self.file, work, asked, self.reading)
    }

    fn import(&self) -> Answer {
        model::import_from(self.container, self.file, self.work, self.asked, self.reading)
    }

    fn lists(&self) -> Lists<'a> {
        model::lists(self.container, self.file, self.asked.checks, self.reading)
    }

    /// The wires of the list that import writes.
    fn wires(&self) -> Vec<Vec<u8>> {
        let spans = items::read_spans(&self.import().written).expect("a list of spans");
        spans.into_iter().map(|(_, _, wire)| wire).collect()
    }
}

/// The call with a fault in it.
#[derive(Clone, Copy)]
pub struct Missized {
    pub answer: fn(&Given) -> Answer,
    pub store: fn(&Answer, &mut [u64]) -> u32,
    /// Whether a byte of work is changed, after this number.
    pub spoils: fn(u32) -> bool,
}

/// Without a fault.
pub const NONE: Missized = Missized {
    answer: |given| given.sizes(),
    store: |answer, values| model::store(answer, &mut [], values),
    spoils: |_| false,
};

impl Missized {
    pub fn call(&self, reading: Reading, file: &[u8], work: &mut [u8], options: &[u64], values: &mut [u64]) -> u32 {
        let (container, asked) = (container(options), chosen(options));
        let given = Given { reading, file, work: work.len(), container, asked };
        let number = (self.store)(&(self.answer)(&given), values);
        if let Some(byte) = work.last_mut() {
            *byte ^= u8::from((self.spoils)(number));
        }
        number
    }
}

/// A fault with its label and the parts that have to report it.
type Fault = (&'static [&'static str], &'static str, Missized);

fn answers(answer: fn(&Given) -> Answer) -> Missized {
    Missized { answer, ..NONE }
}

/// The sizes with another number in the place of one, where there are sizes.
fn told(given: &Given, place: usize, number: impl Fn(u64) -> u64) -> Answer {
    let mut answer = given.sizes();
    if answer.number == 0 {
        answer.values[place] = number(answer.values[place]);
    }
    answer
}

/// The right answer, changed if it has this number.
fn numbered(given: &Given, number: u32, change: impl Fn(&mut Answer)) -> Answer {
    let mut answer = given.sizes();
    if answer.number == number {
        change(&mut answer);
    }
    answer
}

fn with_heads(wires: impl Iterator<Item = Vec<u8>>) -> u64 {
    wires.map(|wire| 14 + wire.len() as u64).sum()
}

/// The bytes of the spans of some DLCIs, all joined.
fn of_dlcis(given: &Given, counts: fn(u8, u8) -> bool) -> u64 {
    let (lists, own) = (given.lists(), given.import().values[0] as u8);
    let spans = |dlci: &u8| {
        let pieces: Vec<&model::Piece> = lists.pieces.iter().filter(|piece| piece.dlci == *dlci).collect();
        model::spans(&pieces, RIGHT).0
    };
    let dlcis = model::dlcis(&lists.pieces).into_iter().filter(|dlci| counts(*dlci, own));
    with_heads(dlcis.collect::<Vec<u8>>().iter().flat_map(spans).map(|(_, _, wire)| wire))
}

/// Of bytes needed.
fn of_needed() -> Vec<Fault> {
    let needed = |number| answers(number);
    vec![
        (
            ALL,
            "items' heads forgotten",
            needed(|g| told(g, 0, |_| g.wires().iter().map(|wire| wire.len() as u64).sum())),
        ),
        (ALL, "items' lengths and kinds forgotten", needed(|g| told(g, 0, |n| n - 6 * g.import().values[1]))),
        (ALL, "items' times forgotten", needed(|g| told(g, 0, |n| n - 8 * g.import().values[1]))),
        (
            ALL,
            "only spans that unpack are needed",
            needed(|g| {
                told(g, 0, |_| with_heads(g.wires().into_iter().filter(|wire| model::unpack(wire).number == 0)))
            }),
        ),
        (ALL, "all DLCIs' spans are needed", needed(|g| told(g, 0, |_| of_dlcis(g, |_, _| true)))),
        (
            ALL,
            "both DLCIs of the channel are needed",
            needed(|g| told(g, 0, |_| of_dlcis(g, |dlci, own| dlci / 2 == own / 2))),
        ),
        (ALL, "a byte more is needed", needed(|g| told(g, 0, |n| n + 1))),
        (ALL, "a byte less is needed", needed(|g| told(g, 0, |n| n - 1))),
        (ALL, "heads come first", needed(|g| told(g, 0, |n| n + 4))),
        (ALL, "the work is needed", needed(|g| told(g, 0, |_| 8 * g.file.len() as u64))),
        (ALL, "what is left is needed too", needed(|g| told(g, 0, |n| n + g.import().values[9]))),
        (&[BY_HAND, LAW, "vectors"], "needed has 16 bits", needed(|g| told(g, 0, |n| n % 65_536))),
    ]
}

/// Whether each PDU is tried.
fn tried(pdus: &[Pdu]) -> Vec<bool> {
    let (admitted, named) = model::channels(pdus, RIGHT);
    let tried = |pdu: &Pdu| {
        let triple = (pdu.link, pdu.way, pdu.cid);
        pdu.cid >= 0x40 && named.binary_search(&triple).is_err() || admitted.binary_search(&triple).is_ok()
    };
    pdus.iter().map(tried).collect()
}

/// How many PDUs count, by whether each is tried.
fn pdus(given: &Given, counts: fn(&Pdu, bool) -> bool) -> u64 {
    let pdus = given.lists().pdus;
    let all = pdus.iter().zip(tried(&pdus));
    all.filter(|(pdu, tried)| counts(pdu, *tried)).count() as u64
}

/// Whether a record is cut.
fn is_cut(given: &Given) -> bool {
    given.import().values.get(3).is_some_and(|tail| *tail < given.file.len() as u64)
}

/// Of records.
fn of_records() -> Vec<Fault> {
    let records = |number| answers(number);
    vec![
        (ALL, "packets for records", records(|g| told(g, 1, |_| g.lists().packets.len() as u64))),
        (ALL, "the cut record is counted", records(|g| told(g, 1, |n| n + u64::from(is_cut(g))))),
        (ALL, "the last record is not counted", records(|g| told(g, 1, |n| n - 1))),
        (ALL, "PDUs for records", records(|g| told(g, 1, |_| g.lists().pdus.len() as u64))),
        (ALL, "records have 2 bits", records(|g| told(g, 1, |n| n % 4))),
    ]
}

/// Of PDUs.
fn of_pdus() -> Vec<Fault> {
    let fault = |number| answers(number);
    vec![
        (MADE, "tried PDUs only", fault(|g| told(g, 2, |_| pdus(g, |_, tried| tried)))),
        (MADE, "packets for PDUs", fault(|g| told(g, 2, |_| g.lists().packets.len() as u64))),
        (MADE, "PDUs without CID 1", fault(|g| told(g, 2, |_| pdus(g, |pdu, _| pdu.cid != 1)))),
        (MADE, "PDUs without those under CID 40", fault(|g| told(g, 2, |_| pdus(g, |pdu, _| pdu.cid >= 0x40)))),
        (MADE, "PDUs without empty ones", fault(|g| told(g, 2, |_| pdus(g, |pdu, _| !pdu.payload.is_empty())))),
        (
            MADE,
            "starts for PDUs",
            fault(|g| told(g, 2, |_| g.lists().packets.iter().filter(|packet| packet.start).count() as u64)),
        ),
        (MADE, "frames for PDUs", fault(|g| told(g, 2, |_| g.import().values[1]))),
        (MADE, "PDUs of the first adapter", fault(|g| told(g, 2, |_| pdus(g, |pdu, _| pdu.link < 4096)))),
        (MADE, "records for PDUs", fault(|g| told(g, 2, |_| g.lists().records as u64))),
    ]
}

/// How many pieces count, by the DLCI that import chooses.
fn pieces(given: &Given, counts: impl Fn(u8, u8) -> bool) -> u64 {
    let own = given.import().values[0] as u8;
    given.lists().pieces.iter().filter(|piece| counts(piece.dlci, own)).count() as u64
}

/// How many UIH frames there are that are tried, by DLCI and whether they have information.
fn frames(given: &Given, counts: fn(u8, bool) -> bool) -> u64 {
    let all = fcs::information(given.container, given.file);
    let taken = all.iter().filter(|frame| frame.tried && (frame.right || !given.asked.checks));
    taken.filter(|frame| counts(frame.dlci, frame.bytes > 0)).count() as u64
}

/// Of pieces.
fn of_pieces() -> Vec<Fault> {
    let fault = |number| answers(number);
    vec![
        (MADE, "pieces of the chosen DLCI", fault(|g| told(g, 3, |_| pieces(g, |dlci, own| dlci == own)))),
        (
            MADE,
            "pieces of the chosen DLCI's channel",
            fault(|g| told(g, 3, |_| pieces(g, |dlci, own| dlci / 2 == own / 2))),
        ),
        (
            MADE,
            "pieces of the channel that is asked for",
            fault(|g| {
                told(g, 3, |n| match g.asked.channel {
                    NO_CHANNEL => n,
                    channel => pieces(g, |dlci, _| u32::from(dlci / 2) == channel),
                })
            }),
        ),
        (
            MADE,
            "wrong frames as pieces",
            fault(|g| told(g, 3, |_| model::lists(g.container, g.file, false, g.reading).pieces.len() as u64)),
        ),
        (
            MADE,
            "wrong frames are never pieces",
            fault(|g| told(g, 3, |_| model::lists(g.container, g.file, true, g.reading).pieces.len() as u64)),
        ),
        (MADE, "empty UIH as pieces", fault(|g| told(g, 3, |_| frames(g, |dlci, _| dlci > 0)))),
        (MADE, "pieces of DLCI 0 too", fault(|g| told(g, 3, |_| frames(g, |_, has| has)))),
        (
            MADE,
            "pieces of PDUs that are not tried",
            fault(|g| {
                told(g, 3, |_| {
                    let all = fcs::information(g.container, g.file);
                    let taken = all.iter().filter(|frame| frame.dlci > 0 && (frame.right || !g.asked.checks));
                    taken.filter(|frame| frame.bytes > 0).count() as u64
                })
            }),
        ),
        (MADE, "PDUs for pieces", fault(|g| told(g, 3, |_| g.lists().pdus.len() as u64))),
        (MADE, "frames for pieces", fault(|g| told(g, 3, |_| g.import().values[1]))),
    ]
}

/// Of refusals, of what is asked for, and of the order of values.
fn of_answers() -> Vec<Fault> {
    let fault = |answer| answers(answer);
    vec![
        (ALL, "zeros for 6", fault(|g| numbered(g, 6, |a| *a = Answer::done(&[0; SIZES], Vec::new())))),
        (ALL, "6 carries zeros", fault(|g| numbered(g, 6, |a| a.values = vec![0; SIZES]))),
        (
            MADE,
            "6 carries records, PDUs and pieces",
            fault(|g| numbered(g, 6, |a| a.values = [&[0][..], &g.lists().counts()].concat())),
        ),
        (ALL, "6 is told as 7", fault(|g| numbered(g, 6, |a| *a = Answer::refused(7, &[0])))),
        (ALL, "7 carries what is needed", fault(|g| numbered(g, 0, |a| *a = Answer::refused(7, &a.values[..1])))),
        (ALL, "5 carries nothing", fault(|g| numbered(g, 5, |a| a.values.clear()))),
        (ALL, "5 carries the file's length", fault(|g| numbered(g, 5, |a| a.values = vec![g.file.len() as u64]))),
        (&[BY_HAND, RANDOM, "vectors"], "22 is told as 4", fault(|g| numbered(g, 22, |a| a.number = 4))),
        (&[BY_HAND, RANDOM, LAW, "vectors"], "21 is told as 3", fault(|g| numbered(g, 21, |a| a.number = 3))),
        (ALL, "the channel is not looked at", fault(|g| g.with(g.work, Asked { channel: NO_CHANNEL, ..g.asked }))),
        (ALL, "always tolerant", fault(|g| g.with(g.work, Asked { tolerant: true, ..g.asked }))),
        (ALL, "always strict", fault(|g| g.with(g.work, Asked { tolerant: false, ..g.asked }))),
        (ALL, "the switch is not looked at", fault(|g| g.with(g.work, Asked { checks: false, ..g.asked }))),
        (ALL, "the FCS is always checked", fault(|g| g.with(g.work, Asked { checks: true, ..g.asked }))),
        (
            ALL,
            "every file is btsnoop",
            fault(|g| model::sizes_from(Container::Btsnoop, g.file, g.work, g.asked, g.reading)),
        ),
        (
            &[BY_HAND, RANDOM, LAW, "vectors"],
            "the container is guessed",
            fault(|g| {
                let guessed = if g.file.starts_with(b"btsnoop") { Container::Btsnoop } else { Container::Pcap };
                model::sizes_from(guessed, g.file, g.work, g.asked, g.reading)
            }),
        ),
        (MADE, "work is not asked for", fault(|g| g.with(usize::MAX, g.asked))),
        (MADE, "work one byte short is enough", fault(|g| g.with(g.work + 1, g.asked))),
        (
            &[LONG],
            "2 before 1",
            fault(|g| match g.work < 8 * g.file.len() {
                true => Answer::refused(2, &[]),
                false => g.sizes(),
            }),
        ),
        (
            &[LONG, LAW],
            "one byte more is taken",
            fault(|g| {
                let file = g.file.get(..LONGEST_FILE).unwrap_or(g.file);
                model::sizes_from(g.container, file, g.work, g.asked, g.reading)
            }),
        ),
        (MADE, "records come first", fault(|g| numbered(g, 0, |a| a.values.swap(0, 1)))),
        (MADE, "PDUs before records", fault(|g| numbered(g, 0, |a| a.values.swap(1, 2)))),
        (MADE, "pieces before PDUs", fault(|g| numbered(g, 0, |a| a.values.swap(2, 3)))),
        (MADE, "pieces are not stored", fault(|g| numbered(g, 0, |a| a.values.truncate(SIZES - 1)))),
        (MADE, "a fifth is stored", fault(|g| numbered(g, 0, |a| a.values.push(0)))),
    ]
}

/// Of what is lent.
fn of_lent() -> Vec<Fault> {
    let spoils = |spoils| Missized { spoils, ..NONE };
    vec![
        (MADE, "writes to work after 2", spoils(|number| number == 2)),
        (&[LONG], "writes to work after 1", spoils(|number| number == 1)),
        (
            MADE,
            "with room for fewer than four nothing is stored",
            Missized {
                store: |answer, values| {
                    let room = if values.len() < answer.values.len() { &mut [] } else { values };
                    model::store(answer, &mut [], room)
                },
                ..NONE
            },
        ),
        (
            MADE,
            "with room for fewer the last are stored",
            Missized {
                store: |answer, values| {
                    let more = answer.values.len().saturating_sub(values.len());
                    let last = Answer { values: answer.values[more..].to_vec(), ..answer.clone() };
                    model::store(&last, &mut [], values)
                },
                ..NONE
            },
        ),
        (
            MADE,
            "a place past the values is touched",
            Missized {
                store: |answer, values| {
                    let number = (NONE.store)(answer, values);
                    if let Some(place) = values.get_mut(answer.values.len()) {
                        *place = 0;
                    }
                    number
                },
                ..NONE
            },
        ),
    ]
}

/// The wrong calls, each for the parts that have to report it.
pub fn faults() -> Vec<(&'static str, String, Missized)> {
    let all = [of_needed(), of_records(), of_pdus(), of_pieces(), of_answers(), of_lent()].concat().into_iter();
    let each =
        |(groups, label, planted): Fault| groups.iter().map(move |group| (*group, format!("sizes: {label}"), planted));
    all.flat_map(each).collect()
}
