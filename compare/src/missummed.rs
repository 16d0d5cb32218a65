//! Wrong importers that check the FCS, and wrong calls that are asked to, planted to be reported by `fcs` and by what else has
//! frames with a wrong one.

use crate::misfiled::{self, Asks, Misfiled};
use crate::mistaken;
use crate::model::{divided, Reading, Sums, BY_02, POLYNOMIAL, RIGHT, START};

/// Parts of the group, for faults that each of them has to report alone.
pub const HEADS: &str = "fcs, every address and control";
pub const BY_HAND: &str = "fcs, fixed traces";
pub const STEPS: &str = "fcs, every few steps";
pub const SHORT: &str = "fcs, every short frame";
pub const RANDOM: &str = "fcs, random traces";

/// What every part shows; what the vectors and short frames do not; nor the every few steps; what honest recordings do not
/// show either; and what every address and control shows.
const ALL: &[&str] = &[BY_HAND, STEPS, SHORT, RANDOM, mistaken::HONEST, misfiled::HONEST, "vectors"];
const MADE: &[&str] = &[BY_HAND, STEPS, RANDOM, mistaken::HONEST, misfiled::HONEST];
const HONEST: &[&str] = &[BY_HAND, RANDOM, mistaken::HONEST, misfiled::HONEST];
const RARE: &[&str] = &[BY_HAND, RANDOM];
const HEAD: &[&str] = &[HEADS, RANDOM, mistaken::HONEST, misfiled::HONEST];

/// A wrong importer with its label and the parts that have to report it.
type Importer = (&'static [&'static str], &'static str, Sums);

/// The check over these bytes.
fn over(bytes: &[u8]) -> u8 {
    0xFF - divided(bytes, POLYNOMIAL, START)
}

/// Address, control and length.
fn with_length(frame: &[u8]) -> &[u8] {
    &frame[..if frame[2] % 2 == 1 { 3 } else { 4 }]
}

fn is_empty(frame: &[u8]) -> bool {
    frame[2] == 1 || frame[2..4] == [0, 0]
}

/// The check with the polynomial as it is written, over bits from the highest on.
fn unreversed(bytes: &[u8]) -> u8 {
    0xFF - bytes
        .iter()
        .fold(START, |sum, byte| (0..8).fold(sum ^ byte, |sum, _| if sum >= 0x80 { sum << 1 ^ 0x07 } else { sum << 1 }))
}

/// Of the check.
fn of_checks() -> Vec<Importer> {
    let sums = |right| Sums { right, ..BY_02 };
    vec![
        (ALL, "over address, control and length", sums(|frame| over(with_length(frame)))),
        (ALL, "over address, control and the length's first byte", sums(|frame| over(&frame[..3]))),
        (ALL, "over the address alone", sums(|frame| over(&frame[..1]))),
        (ALL, "over all but the last byte", sums(|frame| over(&frame[..frame.len() - 1]))),
        (ALL, "no complement", sums(|frame| divided(&frame[..2], POLYNOMIAL, START))),
        (ALL, "from 0 on", sums(|frame| 0xFF - divided(&frame[..2], POLYNOMIAL, 0))),
        (ALL, "the polynomial is not reversed", sums(|frame| 0xFF - divided(&frame[..2], 0x07, START))),
        (ALL, "neither polynomial nor bits are reversed", sums(|frame| unreversed(&frame[..2]))),
        (ALL, "the bits of the check are reversed", sums(|frame| over(&frame[..2]).reverse_bits())),
        (ALL, "control before address", sums(|frame| over(&[frame[1], frame[0]]))),
        (
            &[HEADS, BY_HAND, RANDOM, mistaken::HONEST, misfiled::HONEST],
            "P/F is masked",
            sums(|frame| over(&[frame[0], frame[1] & 0xEF])),
        ),
        (ALL, "C/R and EA are masked", sums(|frame| over(&[frame[0] & 0xFC, frame[1]]))),
        (HEAD, "C/R is masked", sums(|frame| over(&[frame[0] & 0xFD, frame[1]]))),
        (&[HEADS, RANDOM], "EA is set", sums(|frame| over(&[frame[0] | 1, frame[1]]))),
        (&[HEADS], "one head of 512", sums(|frame| over(&frame[..2]) ^ u8::from(frame[..2] == [0xB6, 0xFF]))),
        (
            &[HEADS],
            "the check has 7 bits",
            Sums { right: |frame| over(&frame[..2]) & 0x7F, byte: |frame, at| frame[at] & 0x7F, ..BY_02 },
        ),
    ]
}

/// Of the byte that is looked at, and of what is a wrong frame.
fn of_bytes() -> Vec<Importer> {
    let bytes = |byte| Sums { byte, ..BY_02 };
    vec![
        (RARE, "the PDU's last byte", bytes(|frame, _| frame[frame.len() - 1])),
        (
            &[BY_HAND, STEPS, SHORT, RANDOM, mistaken::HONEST, misfiled::HONEST],
            "the credit byte is forgotten",
            bytes(|frame, at| if frame[1] == 0xFF { frame[at - 1] } else { frame[at] }),
        ),
        (ALL, "the byte before", bytes(|frame, at| frame[at - 1])),
        (
            MADE,
            "empty frames are never wrong",
            bytes(|frame, at| if is_empty(frame) { over(&frame[..2]) } else { frame[at] }),
        ),
        (
            MADE,
            "frames with a credit byte are never wrong",
            bytes(|frame, at| if frame[1] == 0xFF { over(&frame[..2]) } else { frame[at] }),
        ),
        (
            ALL,
            "frames without a credit byte are never wrong",
            bytes(|frame, at| if frame[1] == 0xEF { over(&frame[..2]) } else { frame[at] }),
        ),
        (
            HONEST,
            "frames with a two-byte length are never wrong",
            bytes(|frame, at| if frame[2] % 2 == 0 { over(&frame[..2]) } else { frame[at] }),
        ),
        (&[BY_HAND, STEPS, SHORT, RANDOM], "a frame cut short is wrong", Sums { whole: false, ..BY_02 }),
        (&[BY_HAND, RANDOM], "a SABM is checked", Sums { uih_alone: false, ..BY_02 }),
    ]
}

/// Of what a wrong frame does.
fn of_frames() -> Vec<Importer> {
    vec![
        (ALL, "counted and still taken in", Sums { passed_over: false, ..BY_02 }),
        (MADE, "a wrong frame begins a link", Sums { no_link: false, ..BY_02 }),
        (MADE, "a wrong frame begins a session", Sums { no_session: false, ..BY_02 }),
        (
            &[BY_HAND, STEPS, RANDOM, "vectors"],
            "DLCIs are ordered by wrong frames too",
            Sums { unseen: false, ..BY_02 },
        ),
        (
            &[BY_HAND, STEPS, RANDOM, "vectors"],
            "the DLCI is chosen as with the switch off",
            Sums { chosen_on: false, ..BY_02 },
        ),
    ]
}

/// Of the count.
fn of_counts() -> Vec<Importer> {
    let counts = |counts| Sums { counts, ..BY_02 };
    let told = |told| Sums { told, ..BY_02 };
    vec![
        (&[BY_HAND, STEPS, RANDOM, "vectors"], "counted on every DLCI", counts(|wrong, _| wrong.tried && !wrong.asks)),
        (
            &[BY_HAND, RANDOM, mistaken::HONEST, misfiled::HONEST, "vectors"],
            "counted on both DLCIs of the channel",
            counts(|wrong, dlci| wrong.dlci / 2 == dlci / 2 && wrong.tried && !wrong.asks),
        ),
        (
            &[BY_HAND, RANDOM, mistaken::HONEST, misfiled::HONEST, "vectors"],
            "counted on DLCI 0 too",
            counts(|wrong, dlci| [0, dlci].contains(&wrong.dlci) && wrong.tried && !wrong.asks),
        ),
        (
            MADE,
            "counted only with information",
            counts(|wrong, dlci| (BY_02.counts)(wrong, dlci) && wrong.information > 0),
        ),
        (
            ALL,
            "counted only without information",
            counts(|wrong, dlci| (BY_02.counts)(wrong, dlci) && wrong.information == 0),
        ),
        (
            &[BY_HAND, STEPS, RANDOM, mistaken::HONEST, misfiled::HONEST],
            "counted though not tried",
            counts(|wrong, dlci| wrong.dlci == dlci && !wrong.asks),
        ),
        (
            &[BY_HAND, RANDOM],
            "counted though done with as a PSM 3 request",
            counts(|wrong, dlci| wrong.dlci == dlci && wrong.tried),
        ),
        (
            &[BY_HAND, STEPS, RANDOM, mistaken::HONEST, misfiled::HONEST],
            "counted from the first piece on",
            counts(|wrong, dlci| (BY_02.counts)(wrong, dlci) && wrong.before > 0),
        ),
        (
            ALL,
            "counted only with a credit byte",
            counts(|wrong, dlci| (BY_02.counts)(wrong, dlci) && wrong.control == 0xFF),
        ),
        (&["import", "tolerant", BY_HAND, "vectors"], "counted with the switch off", Sums { on_alone: false, ..BY_02 }),
        (ALL, "the pieces are counted", told(|_, pieces| pieces)),
        (ALL, "the good ones are counted too", told(|counted, pieces| counted + pieces)),
        (ALL, "none is counted", told(|_, _| 0)),
        (ALL, "one too many is counted", told(|counted, _| counted + 1)),
        (MADE, "one is counted, however many there are", told(|counted, _| counted.min(1))),
        (&[BY_HAND], "the count has 8 bits", told(|counted, _| counted % 256)),
    ]
}

/// The wrong importers, each for the parts that have to report it.
pub fn importers() -> Vec<(&'static str, String, Reading)> {
    let all = [of_checks(), of_bytes(), of_frames(), of_counts()].concat().into_iter();
    let each = |(groups, label, sums): Importer| {
        groups.iter().map(move |group| (*group, format!("FCS: {label}"), Reading { sums, ..RIGHT }))
    };
    all.flat_map(each).collect()
}

// ---- the option

/// The options with the switch in this position.
fn switched(options: &[u64], on: bool) -> Vec<u64> {
    let mut all = options.to_vec();
    all.resize(all.len().max(4), 0);
    // Where no channel was asked for, none is.
    if options.is_empty() {
        all[0] = 256;
    }
    all[3] = on.into();
    all
}

/// Whether the option at a place is not 0.
fn at(options: &[u64], place: usize) -> bool {
    options.get(place).is_some_and(|option| *option != 0)
}

/// The switch by some of its bits.
fn bits(options: &[u64], bits: u32) -> bool {
    options.get(3).is_some_and(|on| on << (64 - bits) != 0)
}

/// Wrong ways to find the switch.
const CHOICES: [(&str, Asks); 14] = [
    ("the switch is not looked at", |_, options| switched(options, false)),
    ("the FCS is checked whatever they say", |_, options| switched(options, true)),
    ("without a switch the FCS is checked", |_, options| switched(options, options.len() < 4 || at(options, 3))),
    ("1 alone is on", |_, options| switched(options, options.get(3) == Some(&1))),
    ("the switch is its lowest bit", |_, options| switched(options, bits(options, 1))),
    ("the switch has 8 bits", |_, options| switched(options, bits(options, 8))),
    ("the switch has 16 bits", |_, options| switched(options, bits(options, 16))),
    ("the switch has 32 bits", |_, options| switched(options, bits(options, 32))),
    ("the switch has 63 bits", |_, options| switched(options, bits(options, 63))),
    ("on and off are exchanged", |_, options| switched(options, !at(options, 3))),
    ("the switch is in the place of the rule", |_, options| switched(options, at(options, 1))),
    ("the switch is in the place of the container", |_, options| switched(options, at(options, 2))),
    ("the switch is in the place after its own", |_, options| switched(options, at(options, 4))),
    ("the last option is the switch", |_, options| switched(options, options.len() > 3 && options.last() != Some(&0))),
];

/// A wrong call with its label and the part that has to report it.
type Fault = (&'static str, String, Misfiled);

fn of_options() -> Vec<Fault> {
    let mut faults = Vec::new();
    for (label, asks) in CHOICES {
        let with = Misfiled { options: asks, ..misfiled::NONE };
        let stretches = Misfiled { stretches: asks, ..misfiled::NONE };
        for part in [BY_HAND, RANDOM] {
            faults.push((part, format!("import_with: {label}"), with));
            faults.push((part, format!("import_stretches_with: {label}"), stretches));
        }
        faults.push(("tolerant", format!("import_with: {label}"), with));
        faults.push((misfiled::HONEST, format!("import_stretches_with: {label}"), stretches));
    }
    // The calls that are not to look at it.
    let tolerant = |_: &[u8], options: &[u64]| {
        let mut all = switched(options, false);
        all[1] = u64::from(at(options, 1) || at(options, 3));
        all
    };
    let btsnoop = |_: &[u8], options: &[u64]| {
        let mut all = switched(options, false);
        all[2] = u64::from(at(options, 2) && !at(options, 3));
        all
    };
    let of_gaps = |gaps| Misfiled { gaps, ..misfiled::NONE };
    faults.extend([
        (misfiled::BY_HAND, "gaps_with: on is tolerant".into(), of_gaps(tolerant)),
        (misfiled::BY_HAND, "gaps_with: on is btsnoop".into(), of_gaps(btsnoop)),
        (misfiled::BY_HAND, "records_with: on is btsnoop".into(), Misfiled { records: btsnoop, ..misfiled::NONE }),
    ]);
    faults
}

// ---- the values of the call with stretches

fn of_stretches() -> Vec<Fault> {
    let change = |change_stretches| Misfiled { change_stretches, ..misfiled::NONE };
    let all = [
        ("the count is not stored", change(|answer, _| leave_out(&mut answer.values))),
        ("count and bytes written are exchanged", change(|answer, _| exchange(&mut answer.values, 4, 5))),
        ("the count is stored first", change(|answer, _| first(&mut answer.values))),
        ("a count is carried by 6", change(|answer, _| answer.values.extend((answer.number == 6).then_some(0)))),
    ];
    let fault = |(label, planted): (&str, Misfiled)| {
        [BY_HAND, RANDOM].map(|part| (part, format!("import_stretches_with: {label}"), planted))
    };
    let unchecked = Misfiled { unchecked: true, ..misfiled::NONE };
    let listed = "import_stretches_with: stretches are listed as with the switch off";
    let mut faults: Vec<Fault> = all.into_iter().flat_map(fault).collect();
    faults.extend([BY_HAND, STEPS, RANDOM, misfiled::HONEST].map(|part| (part, listed.into(), unchecked)));
    faults
}

/// Two values exchanged, where there are so many.
pub fn exchange(values: &mut [u64], one: usize, other: usize) {
    if values.len() > one.max(other) {
        values.swap(one, other);
    }
}

/// The sixth value before the others.
pub fn first(values: &mut [u64]) {
    if values.len() > 5 {
        values[..6].rotate_right(1);
    }
}

/// The sixth value left out.
pub fn leave_out(values: &mut Vec<u64>) {
    if values.len() > 5 {
        values.remove(5);
    }
}

/// The wrong calls.
pub fn faults() -> Vec<Fault> {
    [of_options(), of_stretches()].concat()
}
