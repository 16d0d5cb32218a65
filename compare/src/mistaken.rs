//! Wrong readings of adapters and handles, planted to be reported by the groups of import.

use crate::model::{index, Keys, Reading, BY_LINK, RIGHT};

/// Parts of the groups, for faults that each of them has to report alone.
pub const BY_HAND: &str = "import, fixed traces of two adapters";
pub const STEPS: &str = "import, every few steps on two adapters";
pub const RANDOM: &str = "import, random traces";
pub const HONEST: &str = "tolerant, every cut of honest recordings";

/// All that has traces of two adapters; without the vectors; and without the every few steps, which know two indexes.
const ALL: &[&str] = &[BY_HAND, STEPS, RANDOM, HONEST, "tolerant", "vectors"];
const MADE: &[&str] = &[BY_HAND, STEPS, RANDOM, HONEST, "tolerant"];
const OF_MANY: &[&str] = &[BY_HAND, RANDOM, HONEST, "tolerant", "vectors"];

/// A wrong reading with its label and the groups, or parts of them, each of which has to report it.
type Fault = (&'static [&'static str], String, Reading);

/// The handle alone, of a link.
const ALONE: fn(u32) -> u32 = |link| link % 4096;

/// In one of the places where import keys on a link, the handle alone is looked at.
pub fn by_handle_alone() -> [(&'static str, Keys); 6] {
    [
        ("fragments put together", Keys { open: ALONE, ..BY_LINK }),
        ("channels named", Keys { named: ALONE, admitted: ALONE, ..BY_LINK }),
        ("an earlier request found", Keys { requested: ALONE, ..BY_LINK }),
        ("sessions counted", Keys { sessions: ALONE, ..BY_LINK }),
        ("links counted", Keys { links: ALONE, ..BY_LINK }),
        ("stretches told apart", Keys { stretch: ALONE, ..BY_LINK }),
    ]
}

fn by_handle() -> Vec<Fault> {
    let groups = |what| if what == "links counted" { MADE } else { ALL };
    let fault = |(what, keys)| (groups(what), format!("{what} by the handle alone"), Reading { keys, ..RIGHT });
    by_handle_alone().map(fault).into()
}

/// The index is read wrong.
fn of_index() -> Vec<Fault> {
    let reads = |index| Reading { index, ..RIGHT };
    let upper = reads(|_, flags| Some((flags / 65536) as u32));
    let bytes = reads(|datalink, flags| index(datalink, flags).map(|index| index % 256));
    let zero = reads(|datalink, flags| index(datalink, flags).filter(|index| *index == 0));
    let last = reads(|datalink, flags| index(datalink, flags).filter(|index| *index < 0xFFFF));
    vec![
        (&[BY_HAND, RANDOM, HONEST], "upper flag bits of 1001 and 1002 are an index".into(), upper),
        (OF_MANY, "an index has 8 bits".into(), bytes),
        (ALL, "all flag bits are compared with 4 and 5".into(), zero),
        (OF_MANY, "index FFFF is skipped".into(), last),
        (ALL, "only the first adapter is read".into(), Reading { every_adapter: false, ..RIGHT }),
        (ALL, "a start discards what is open on another adapter".into(), Reading { start_apart: false, ..RIGHT }),
    ]
}

/// An index so many bits above the handle's lowest.
fn shifted<const BITS: u32>(index: u32, handle: u32) -> u32 {
    (index << BITS) + handle
}

/// An index of so many bits.
fn narrow<const BITS: u32>(index: u32, handle: u32) -> u32 {
    4096 * (index % (1 << BITS)) + handle
}

type Packed = fn(u32, u32) -> u32;

/// Index and handle are packed into a number that does not tell them all apart.
fn packed() -> Vec<Fault> {
    let over: [Packed; 12] = [
        shifted::<0>,
        shifted::<1>,
        shifted::<2>,
        shifted::<3>,
        shifted::<4>,
        shifted::<5>,
        shifted::<6>,
        shifted::<7>,
        shifted::<8>,
        shifted::<9>,
        shifted::<10>,
        shifted::<11>,
    ];
    let few: [Packed; 6] = [narrow::<1>, narrow::<4>, narrow::<7>, narrow::<8>, narrow::<12>, narrow::<15>];
    let before: Packed = |index, handle| 256 * handle + index;
    let over = over.iter().enumerate().map(|(bits, link)| (format!("index {bits} bits above the handle"), *link));
    let few = few.iter().map(|link| (format!("the index's {} upper bits dropped", dropped(*link)), *link));
    let all = over.chain(few).chain([("the handle 8 bits above the index".into(), before)]);
    all.map(|(what, link)| (&[BY_HAND][..], format!("links are packed with {what}"), Reading { link, ..RIGHT }))
        .collect()
}

/// How many of an index's bits make no difference.
fn dropped(link: Packed) -> usize {
    (0..16).filter(|bit| link(1 << bit, 0) == 0).count()
}

/// Each fault once for each group that has to report it.
pub fn faults() -> Vec<(&'static str, String, Reading)> {
    let all = [by_handle(), of_index(), packed()].concat().into_iter();
    all.flat_map(|(groups, label, reading)| groups.iter().map(move |group| (*group, label.clone(), reading))).collect()
}
