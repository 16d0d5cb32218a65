//! Wrong readings of the signs in a file, and wrong calls, planted to be reported by `gaps`.

use std::collections::BTreeMap;

use crate::answer::Answer;
use crate::gaps::{self, be32, le16, packet_of, Found, Packet, PacketOf, Reading, RIGHT, VALUES};
use crate::model;

/// The call, with some of it replaced.
#[derive(Clone, Copy)]
pub struct Misread {
    reading: Reading,
    /// The answer for so much work, by the rule.
    answer: fn(&[u8], usize, bool, Reading) -> Answer,
    /// Changes the answer.
    change: fn(&mut Answer, &[u8]),
    store: fn(&Answer, &mut [u64]) -> u32,
    /// Whether a byte of work is changed, after this number.
    spoils: fn(u32) -> bool,
}

/// Without a fault.
pub const NONE: Misread = Misread {
    reading: RIGHT,
    answer: gaps::answer,
    change: |_, _| (),
    store: |answer, values| model::store(answer, &mut [], values),
    spoils: |_| false,
};

impl Misread {
    pub fn call(&self, file: &[u8], work: &mut [u8], tolerant: bool, values: &mut [u64]) -> u32 {
        let mut answer = (self.answer)(file, work.len(), tolerant, self.reading);
        (self.change)(&mut answer, file);
        let number = (self.store)(&answer, values);
        if let Some(byte) = work.last_mut() {
            *byte ^= u8::from((self.spoils)(number));
        }
        number
    }
}

/// Parts of the group, for faults that each of them has to report alone.
pub const MADE: &str = "gaps, made traces";
pub const MIXTURES: &str = "gaps, every mixture of signs";
pub const SHORT_PACKETS: &str = "gaps, every short packet";
pub const FOUR: &str = "gaps, every four fragments";
pub const LONG: &str = "gaps, long files";
pub const LAW: &str = "gaps, the law of starts";
pub const BY_HAND: &str = "gaps, fixed traces of two adapters";

/// A fault with its label and the group, or part of one, that has to report it.
type Fault = (&'static str, &'static str, Misread);

/// A call that reads its definitions so.
fn reads(reading: Reading) -> Misread {
    Misread { reading, ..NONE }
}

/// A call whose answers are changed.
fn answers(change: fn(&mut Answer, &[u8])) -> Misread {
    Misread { change, ..NONE }
}

/// A call that finds something else.
fn finds(change: fn(&mut Found, &[u8])) -> Misread {
    reads(Reading { change, ..RIGHT })
}

/// A call that takes packets otherwise.
fn takes(packet_of: PacketOf) -> Misread {
    reads(Reading { packet_of, ..RIGHT })
}

/// A call that takes other records for ACL data.
fn admits(is_acl: fn(u64, &[u8]) -> bool) -> Misread {
    reads(Reading { is_acl, ..RIGHT })
}

/// The packet of a record, changed by its handle field.
fn changed<'a>(datalink: u64, at: usize, record: &'a [u8], change: fn(&mut Packet, usize)) -> Option<Packet<'a>> {
    let mut packet = packet_of(datalink, at, record)?;
    change(&mut packet, le16(record, header(datalink) - 4));
    Some(packet)
}

/// Has every place of a sign moved.
fn moved(found: &mut Found, to: &dyn Fn(usize) -> usize) {
    let all = [
        &mut found.short,
        &mut found.dropped_at,
        &mut found.skipped,
        &mut found.zeros,
        &mut found.stray,
        &mut found.given_up,
        &mut found.open,
    ];
    for place in all.into_iter().flatten() {
        *place = to(*place);
    }
}

pub fn faults() -> Vec<(&'static str, String, Misread)> {
    let all = [of_records(), of_packets(), of_calls()].concat().into_iter();
    let all = all.map(|(group, label, misread)| (group, label.to_string(), misread));
    all.chain(of_adapters()).collect()
}

/// In the adapter's index and the link, each for the parts that have to report it.
fn of_adapters() -> impl Iterator<Item = (&'static str, String, Misread)> {
    let all = &[BY_HAND, MADE, MIXTURES, FOUR][..];
    let many = &[BY_HAND, MADE, MIXTURES][..];
    let skips = |packet_of, is_acl| reads(Reading { packet_of, is_acl, ..RIGHT });
    let first = Misread { answer: |f, w, t, r| gaps::answer(&first_adapter(f), w, t, r), ..NONE };
    let mut faults = vec![
        (all, "links are handles".to_string(), takes(|d, at, r| linked(d, at, r, |_, handle| handle))),
        (many, "an index has 8 bits".into(), takes(|d, at, r| linked(d, at, r, |i, h| 4096 * (i % 256) + h))),
        (&[BY_HAND, MADE, FOUR], "upper flag bits of 1001 and 1002 are an index".into(), takes(upper_bits)),
        (
            all,
            "all flag bits are compared with 4 and 5".into(),
            skips(
                |d, at, r| packet_of(d, at, r).filter(|_| index(d, r) == 0),
                |d, r| gaps::is_acl(d, r) && index(d, r) == 0,
            ),
        ),
        (
            &[BY_HAND, MADE, SHORT_PACKETS],
            "index FFFF is skipped".into(),
            skips(
                |d, at, r| packet_of(d, at, r).filter(|_| index(d, r) < 0xFFFF),
                |d, r| gaps::is_acl(d, r) && index(d, r) < 0xFFFF,
            ),
        ),
        (all, "only the first adapter is read".into(), first),
        (
            all,
            "a start gives up what is open on another adapter".into(),
            reads(Reading { start_apart: false, ..RIGHT }),
        ),
    ];
    faults.extend(packed().into_iter().map(|(label, packet_of)| (&[BY_HAND][..], label, takes(packet_of))));
    let each = |(groups, label, misread): (&'static [&'static str], String, Misread)| {
        groups.iter().map(move |group| (*group, format!("gaps: {label}"), misread))
    };
    faults.into_iter().flat_map(each)
}

/// Links of index and handle packed into a number that does not tell them all apart.
fn packed() -> Vec<(String, PacketOf)> {
    let over: [PacketOf; 12] = [
        shifted::<0>,
        shifted::<1>,
        shifted::<2>,
        shifted::<3>,
        shifted::<4>,
        shifted::<5>,
        shifted::<6>,
        shifted::<7>,
        shifted::<8>,
        shifted::<9>,
        shifted::<10>,
        shifted::<11>,
    ];
    let few: PacketOf = |d, at, r| linked(d, at, r, |index, handle| 4096 * (index % 16) + handle);
    let before: PacketOf = |d, at, r| linked(d, at, r, |index, handle| 256 * handle + index);
    let over = (0..).zip(over).map(|(bits, packet_of)| (format!("links with the index {bits} bits up"), packet_of));
    over.chain([("links without upper bits".into(), few), ("links with the handle 8 bits up".into(), before)]).collect()
}

/// The adapter's index of a record.
fn index(datalink: u64, record: &[u8]) -> usize {
    if datalink == 2001 {
        be32(record, 8) as usize / 65536
    } else {
        0
    }
}

/// The packet of a record, with another link of its index and handle.
fn linked<'a>(datalink: u64, at: usize, record: &'a [u8], link: fn(usize, usize) -> usize) -> Option<Packet<'a>> {
    let packet = packet_of(datalink, at, record)?;
    Some(Packet { link: link(packet.link / 4096, packet.link % 4096), ..packet })
}

/// The index so many bits above the handle's lowest.
fn shifted<const BITS: u32>(datalink: u64, at: usize, record: &[u8]) -> Option<Packet<'_>> {
    linked(datalink, at, record, |index, handle| (index << BITS) + handle)
}

/// The upper flag bits are an index in every datalink.
fn upper_bits(datalink: u64, at: usize, record: &[u8]) -> Option<Packet<'_>> {
    let packet = packet_of(datalink, at, record)?;
    Some(Packet { link: 4096 * (be32(record, 8) as usize / 65536) + packet.link % 4096, ..packet })
}

/// The file with no packets but the first adapter's: the others' codes are of something else.
fn first_adapter(file: &[u8]) -> Vec<u8> {
    let mut file = file.to_vec();
    if file.len() < 16 || be32(&file, 12) != 2001 {
        return file;
    }
    let (mut at, mut first) = (16, None);
    let rows: Vec<(usize, Option<usize>)> = model::records(&file[16..])
        .0
        .iter()
        .map(|row| (row.len(), packet_of(2001, 0, row).map(|packet| packet.link / 4096)))
        .collect();
    for (size, index) in rows {
        if index.is_some_and(|index| *first.get_or_insert(index) != index) {
            file[at + 10..at + 12].copy_from_slice(&[0, 3]);
        }
        at += size;
    }
    file
}

/// In what a record shows by itself.
fn of_records() -> Vec<Fault> {
    let first = |first| reads(Reading { first, ..RIGHT });
    let short = |is_short| reads(Reading { is_short, ..RIGHT });
    let rises = |rises| reads(Reading { rises, ..RIGHT });
    let zeros = |is_zeros| reads(Reading { is_zeros, ..RIGHT });
    vec![
        ("gaps", "gaps: the first is the last", first(|places| places.last().copied().unwrap_or(0))),
        (
            MIXTURES,
            "gaps: the first is the second if there is one",
            first(|places| places.get(1).or(places.first()).copied().unwrap_or(0)),
        ),
        ("gaps", "gaps: places count from after the header", finds(|found, _| moved(found, &|at| at - 16))),
        ("gaps", "gaps: a place is where the packet starts", finds(|found, _| moved(found, &|at| at + 24))),
        ("gaps", "gaps: short with equal lengths too", short(|r| be32(r, 4) <= be32(r, 0))),
        ("gaps", "gaps: short is any other length", short(|r| be32(r, 4) != be32(r, 0))),
        (MADE, "gaps: short by signed numbers", short(|r| (be32(r, 4) as i32) < be32(r, 0) as i32)),
        ("gaps", "gaps: drops as records", finds(|found, _| found.dropped = found.dropped_at.len() as u64)),
        ("gaps", "gaps: a rise against 0", rises(|drops| drops.to_vec())),
        (
            "gaps",
            "gaps: drops from the first record's count",
            rises(|drops| gaps::rises(drops).iter().enumerate().map(|(i, by)| if i == 0 { 0 } else { *by }).collect()),
        ),
        ("gaps", "gaps: drops are the last count", finds(|found, file| found.dropped = last_count(file))),
        (MADE, "gaps: a rise over the highest count so far", rises(over_the_highest)),
        (MADE, "gaps: a fall counts as a rise", rises(any_change)),
        (MADE, "gaps: drops in 32 bits", finds(|found, _| found.dropped %= 1 << 32)),
        (LONG, "gaps: drops in 32 bits, long files", finds(|found, _| found.dropped %= 1 << 32)),
        ("gaps", "gaps: a count of 0 is passed over", rises(without_zeros)),
        (
            "gaps",
            "gaps: skipped counts commands and events",
            admits(|datalink, r| match datalink {
                2001 => gaps::is_acl(2001, r),
                1002 => r.get(24) == Some(&2),
                _ => true,
            }),
        ),
        (
            "gaps",
            "gaps: the type byte is not looked at",
            admits(|datalink, r| match datalink {
                1002 => be32(r, 8) / 2 % 2 != 1,
                _ => gaps::is_acl(datalink, r),
            }),
        ),
        (
            SHORT_PACKETS,
            "gaps: the codes of 2001 in 32 bits",
            admits(|datalink, r| match datalink {
                2001 => [4, 5].contains(&be32(r, 8)),
                _ => gaps::is_acl(datalink, r),
            }),
        ),
        (
            SHORT_PACKETS,
            "gaps: 2001 by bit 1 of its codes",
            admits(|datalink, r| match datalink {
                2001 => be32(r, 8) / 2 % 2 != 1,
                _ => gaps::is_acl(datalink, r),
            }),
        ),
        (
            "gaps",
            "gaps: only data sent is skipped",
            admits(|datalink, r| gaps::is_acl(datalink, r) && be32(r, 8) % 2 != 1),
        ),
        (
            SHORT_PACKETS,
            "gaps: an empty packet is not skipped",
            admits(|datalink, r| gaps::is_acl(datalink, r) && r.len() > 24),
        ),
        (
            SHORT_PACKETS,
            "gaps: a packet without a whole header is not skipped",
            admits(|datalink, r| gaps::is_acl(datalink, r) && r.len() >= header(datalink)),
        ),
        (
            SHORT_PACKETS,
            "gaps: a packet without its data is not skipped",
            admits(|datalink, r| gaps::is_acl(datalink, r) && r.len() < header(datalink)),
        ),
        (
            SHORT_PACKETS,
            "gaps: a packet with more than its data is skipped",
            takes(|datalink, at, r| {
                packet_of(datalink, at, r).filter(|packet| r.len() == header(datalink) + packet.bytes.len())
            }),
        ),
        ("gaps", "gaps: zeros wants 16 bytes", zeros(|r| r[..16].iter().all(|b| *b == 0))),
        ("gaps", "gaps: zeros wants the lengths alone", zeros(|r| r[..8].iter().all(|b| *b == 0))),
        ("gaps", "gaps: zeros wants 23 bytes", zeros(|r| r[..23].iter().all(|b| *b == 0))),
        ("gaps", "gaps: zeros is of packets", zeros(|r| r.len() > 24 && r[24..].iter().all(|b| *b == 0))),
    ]
}

/// The length of a record that has a packet's header and no data.
fn header(datalink: u64) -> usize {
    if datalink == 1002 {
        29
    } else {
        28
    }
}

/// The last record's count of drops.
fn last_count(file: &[u8]) -> u64 {
    model::records(&file[16..]).0.last().map_or(0, |record| be32(record, 12))
}

fn over_the_highest(drops: &[u64]) -> Vec<u64> {
    let mut most = 0;
    let over = |now: &u64| {
        let by = now.saturating_sub(most);
        most = most.max(*now);
        by
    };
    drops.iter().map(over).collect()
}

fn any_change(drops: &[u64]) -> Vec<u64> {
    let before = std::iter::once(&0).chain(drops);
    drops.iter().zip(before).map(|(now, before)| now.abs_diff(*before)).collect()
}

fn without_zeros(drops: &[u64]) -> Vec<u64> {
    let seen: Vec<u64> = drops.iter().copied().filter(|count| *count > 0).collect();
    let mut rises = gaps::rises(&seen).into_iter();
    drops.iter().map(|count| if *count > 0 { rises.next().unwrap_or(0) } else { 0 }).collect()
}

/// In what packets show.
fn of_packets() -> Vec<Fault> {
    let stray = |is_stray| reads(Reading { is_stray, ..RIGHT });
    let gives_up = |gives_up| reads(Reading { gives_up, ..RIGHT });
    let began = |began| reads(Reading { began, ..RIGHT });
    let still_open = |still_open| reads(Reading { still_open, ..RIGHT });
    vec![
        ("gaps", "gaps: a start is stray", stray(|open, _| open.is_none())),
        (
            FOUR,
            "gaps: a continuation is stray before the first start alone",
            finds(|found, _| {
                let first = found.starts.first().copied().unwrap_or(usize::MAX);
                found.stray.retain(|at| *at < first);
            }),
        ),
        (
            FOUR,
            "gaps: an empty continuation is not stray",
            stray(|open, packet| open.is_none() && !packet.start && !packet.bytes.is_empty()),
        ),
        (
            SHORT_PACKETS,
            "gaps: a packet that is skipped is stray",
            finds(|found, _| found.stray.extend(&found.skipped)),
        ),
        (FOUR, "gaps: a start gives up what is complete", finds(all_given_up)),
        (LAW, "gaps: a start gives up what is complete, by the law", finds(all_given_up)),
        (
            FOUR,
            "gaps: an empty PDU is not given up",
            gives_up(|open, packet| packet.start && open.is_some_and(|begun| !begun.bytes.is_empty())),
        ),
        (
            FOUR,
            "gaps: only a start that is complete gives up",
            gives_up(|open, packet| open.is_some() && packet.start && packet.bytes.len() >= 4 + le16(packet.bytes, 0)),
        ),
        (
            FOUR,
            "gaps: what is given up is told by a start before",
            finds(|found, _| {
                let before = |at: &usize| found.starts.iter().rev().copied().find(|start| start < at);
                found.given_up = found.given_up.iter().filter_map(before).collect();
            }),
        ),
        (FOUR, "gaps: open counts a complete PDU", finds(complete_open)),
        (LAW, "gaps: open counts a complete PDU, by the law", finds(complete_open)),
        (LAW, "gaps: nothing is open, by the law", finds(|found, _| found.open.clear())),
        (FOUR, "gaps: open is told by its last packet", began(|_, packet| packet.at)),
        (MIXTURES, "gaps: open is told by its last packet, every mixture", began(|_, packet| packet.at)),
        ("gaps", "gaps: open from the last to the first", finds(|found, _| found.open.reverse())),
        ("gaps", "gaps: open in the order of links", finds(by_links)),
        (
            FOUR,
            "gaps: a PDU without its length is not open",
            still_open(|bytes| (bytes.len() >= 2 && bytes.len() < 4 + le16(&bytes, 0)).then_some(bytes)),
        ),
        (
            FOUR,
            "gaps: a PDU without its CID is complete",
            still_open(|bytes| (bytes.len() < 2 + le16(&bytes, 0)).then_some(bytes)),
        ),
        (
            FOUR,
            "gaps: a PDU wants a byte more",
            still_open(|bytes| (bytes.len() <= 4 + le16(&bytes, 0)).then_some(bytes)),
        ),
        (
            MADE,
            "gaps: a PDU's length has one byte",
            still_open(|bytes| (bytes.len() < 4 + le16(&bytes, 0) % 256).then_some(bytes)),
        ),
        (
            FOUR,
            "gaps: bytes in excess of a PDU begin the next",
            still_open(|mut bytes| {
                let length = 4 + le16(&bytes, 0);
                if bytes.len() < length {
                    return Some(bytes);
                }
                bytes.drain(..length);
                (!bytes.is_empty()).then_some(bytes)
            }),
        ),
        (
            FOUR,
            "gaps: directions are one",
            takes(|datalink, at, r| changed(datalink, at, r, |packet, _| packet.rx = false)),
        ),
        (FOUR, "gaps: links are one", takes(|datalink, at, r| changed(datalink, at, r, |packet, _| packet.link = 0))),
        (
            MADE,
            "gaps: a link has 8 bits",
            takes(|datalink, at, r| changed(datalink, at, r, |packet, _| packet.link %= 256)),
        ),
        (
            MADE,
            "gaps: a link has 16 bits without the flag",
            takes(|datalink, at, r| changed(datalink, at, r, |packet, field| packet.link += field / 16384 * 16384)),
        ),
        (
            FOUR,
            "gaps: flag 0 continues",
            takes(|datalink, at, r| changed(datalink, at, r, |packet, field| packet.start &= field / 4096 % 4 != 0)),
        ),
        (
            FOUR,
            "gaps: flag 3 continues",
            takes(|datalink, at, r| changed(datalink, at, r, |packet, field| packet.start &= field / 4096 % 4 != 3)),
        ),
        (
            MADE,
            "gaps: the flag has four bits",
            takes(|datalink, at, r| changed(datalink, at, r, |packet, field| packet.start = field / 4096 != 1)),
        ),
    ]
}

fn all_given_up(found: &mut Found, _: &[u8]) {
    found.given_up = found.starts.iter().skip(1).copied().collect();
}

fn complete_open(found: &mut Found, _: &[u8]) {
    if found.open.is_empty() {
        found.open.extend(found.starts.last());
    }
}

/// What is open at the end, in the order of links and directions.
fn by_links(found: &mut Found, file: &[u8]) {
    let mut last: BTreeMap<(usize, bool), usize> = BTreeMap::new();
    let mut at = 16;
    for record in model::records(&file[16..]).0 {
        if let Some(packet) = packet_of(be32(file, 12), at, record).filter(|packet| packet.start) {
            last.insert((packet.link, packet.rx), at);
        }
        at += record.len();
    }
    found.open = last.into_values().filter(|began| found.open.contains(began)).collect();
}

/// In refusals, in what is stored, and in work.
fn of_calls() -> Vec<Fault> {
    let rule = |answer| Misread { answer, ..NONE };
    let store = |store| Misread { store, ..NONE };
    let spoils = |spoils| Misread { spoils, ..NONE };
    vec![
        ("gaps", "gaps: the strict rule is tolerant", rule(|f, w, _, r| gaps::answer(f, w, true, r))),
        ("gaps", "gaps: the tolerant rule is strict", rule(|f, w, _, r| gaps::answer(f, w, false, r))),
        ("gaps", "gaps: work one byte short is enough", rule(|f, w, t, r| gaps::answer(f, w + 1, t, r))),
        (
            LONG,
            "gaps: 2 before 1",
            rule(|f, w, t, r| match w < 8 * f.len() {
                true => Answer::refused(2, &[]),
                false => gaps::answer(f, w, t, r),
            }),
        ),
        (
            "gaps",
            "gaps: a file that is cut has no signs",
            answers(|answer, file| {
                if answer.number == 0 && 16 + model::records(&file[16..]).1 < file.len() {
                    answer.values.fill(0);
                }
            }),
        ),
        (
            "gaps",
            "gaps: a file without a record has no stream",
            answers(|answer, file| {
                if answer.number == 0 && file.len() == 16 {
                    *answer = Answer::refused(6, &[]);
                }
            }),
        ),
        (
            "gaps",
            "gaps: 4 carries nothing",
            answers(|answer, _| {
                if answer.number == 4 {
                    answer.values.clear();
                }
            }),
        ),
        (
            "gaps",
            "gaps: 5 carries the file's length",
            answers(|answer, file| {
                if answer.number == 5 {
                    answer.values[0] = file.len() as u64;
                }
            }),
        ),
        (
            "gaps",
            "gaps: 5 is told as 3",
            answers(|answer, _| {
                if answer.number == 5 {
                    *answer = Answer::refused(3, &[]);
                }
            }),
        ),
        (
            "gaps",
            "gaps: two signs exchanged",
            answers(|answer, _| {
                if answer.number == 0 {
                    answer.values[8..12].rotate_left(2);
                }
            }),
        ),
        (
            "gaps",
            "gaps: where there is none, the first is at 16",
            answers(|answer, _| answer.values.iter_mut().skip(1).step_by(2).for_each(|first| *first = 16.max(*first))),
        ),
        (LONG, "gaps: work is touched by 1", spoils(|number| number == 1)),
        ("gaps", "gaps: work is touched by 2", spoils(|number| number == 2)),
        (
            "gaps",
            "gaps: the last value is not stored",
            store(|answer, values| {
                let few = values.len().min(answer.values.len().saturating_sub(1));
                (NONE.store)(answer, &mut values[..few])
            }),
        ),
        (
            "gaps",
            "gaps: a value too many is stored",
            store(|answer, values| {
                values.iter_mut().skip(answer.values.len()).take(1).for_each(|place| *place = 0);
                (NONE.store)(answer, values)
            }),
        ),
        (
            "gaps",
            "gaps: nothing is stored in a list that is too short",
            store(|answer, values| match values.len() < answer.values.len() {
                true => answer.number,
                false => (NONE.store)(answer, values),
            }),
        ),
        (
            "gaps",
            "gaps: a list that is too short is refused",
            store(|answer, values| match answer.number == 0 && values.len() < VALUES {
                true => 7,
                false => (NONE.store)(answer, values),
            }),
        ),
    ]
}
