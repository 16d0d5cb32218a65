//! Item lists: a length (4 bytes, little-endian, counting the body), a kind (2
//! bytes, little-endian) and a body. Kinds 1 and 2 are spans, 3 names, 4 wires.

use oracle::capture::Direction;

pub const NAME: u16 = 3;
pub const WIRE: u16 = 4;
const LONGEST_LIST: usize = 16_777_216;

/// A span: milliseconds, direction, wire.
pub type Span = (u64, Direction, Vec<u8>);

pub fn push(list: &mut Vec<u8>, kind: u16, body: &[u8]) {
    list.extend((body.len() as u32).to_le_bytes());
    list.extend(kind.to_le_bytes());
    list.extend(body);
}

pub fn kind_of(direction: Direction) -> u16 {
    match direction {
        Direction::Rx => 1,
        Direction::Tx => 2,
    }
}

pub fn span_list(spans: &[Span]) -> Vec<u8> {
    let mut list = Vec::new();
    for (ms, direction, wire) in spans {
        let body = [&ms.to_le_bytes()[..], wire].concat();
        push(&mut list, kind_of(*direction), &body);
    }
    list
}

pub fn name_list<T: AsRef<[u8]>>(names: &[T]) -> Vec<u8> {
    let mut list = Vec::new();
    for name in names {
        push(&mut list, NAME, name.as_ref());
    }
    list
}

/// The items of a list, or where it is ill-formed. `fits` is the rule for an item.
fn read(list: &[u8], fits: fn(u16, &[u8]) -> bool) -> Result<Vec<(u16, &[u8])>, usize> {
    if list.len() > LONGEST_LIST {
        return Err(0);
    }
    let mut items = Vec::new();
    let mut at = 0;
    while at < list.len() {
        let head = list.get(at..at + 6).ok_or(at)?;
        let length = u32::from_le_bytes([head[0], head[1], head[2], head[3]]) as usize;
        let kind = u16::from_le_bytes([head[4], head[5]]);
        let body = list.get(at + 6..at + 6 + length).ok_or(at)?;
        if !fits(kind, body) {
            return Err(at);
        }
        items.push((kind, body));
        at += 6 + length;
    }
    Ok(items)
}

pub fn read_spans(list: &[u8]) -> Result<Vec<Span>, usize> {
    let items = read(list, |kind, body| (kind == 1 || kind == 2) && body.len() >= 8)?;
    let span = |(kind, body): (u16, &[u8])| {
        let ms = u64::from_le_bytes(body[..8].try_into().unwrap());
        let direction = if kind == 1 { Direction::Rx } else { Direction::Tx };
        (ms, direction, body[8..].to_vec())
    };
    Ok(items.into_iter().map(span).collect())
}

pub fn read_names(list: &[u8]) -> Result<Vec<Vec<u8>>, usize> {
    let items = read(list, |kind, _| kind == NAME)?;
    Ok(items.into_iter().map(|(_, body)| body.to_vec()).collect())
}

/// The names in a list of fixtures.
pub fn read_fixture_names(list: &[u8]) -> Result<Vec<Vec<u8>>, usize> {
    let items = read(list, |kind, _| kind == NAME || kind == WIRE)?;
    Ok(items.into_iter().filter(|(kind, _)| *kind == NAME).map(|(_, body)| body.to_vec()).collect())
}
