//! Where the information bytes of the DLCI chosen went, by the source: its import is made once more, with its scanners heard.
//! What they are given is what is taken in.
//!
//! In spans is what they give, and left what they hold at the end. Dropped and cleared together are what they held and neither
//! give nor hold. Apart: a scanner that is asked for a span and holds nothing after has cleared what stands from a start on, and
//! the source's own scanner says where that is; all else is dropped. A walk over the bytes has to find the same four.

use heard::mdr::frame::{self as scanners, Stream};
use oracle::capture::Imported;
use oracle::mdr::frame::{Scanner, END};

use crate::answer::Bytes;

/// Where the bytes went of what import finds in a file. The import that is heard has to find the same.
pub fn of(file: &[u8], channel: Option<u8>, found: &Imported) -> Bytes {
    let heard = heard::capture::import(file, channel).expect("what was imported is imported again");
    assert!(is_same(&heard, found), "scanners that are heard do what they did");
    let streams = scanners::heard();
    let mut all = [0; 4];
    for stream in &streams {
        let bytes = by_scanner(stream);
        assert_eq!(bytes, by_walk(stream), "the scanner and the walk agree: {stream:02X?}");
        all.iter_mut().zip(bytes).for_each(|(all, bytes)| *all += bytes);
    }
    let taken: usize = streams.iter().flatten().map(|piece| piece.bytes.len()).sum();
    assert_eq!(all.iter().sum::<u64>(), taken as u64, "every byte that is taken in goes somewhere");
    all
}

fn is_same(heard: &heard::capture::Imported, found: &Imported) -> bool {
    let ours = heard.frames.iter().map(|(ms, direction, wire)| (ms, direction.as_str(), wire));
    let others = found.frames.iter().map(|(ms, direction, wire)| (ms, direction.as_str(), wire));
    (heard.dlci, heard.unfinished) == (found.dlci, found.unfinished) && ours.eq(others)
}

/// By what a scanner gave, and held before and after.
fn by_scanner(stream: &Stream) -> Bytes {
    let (mut in_spans, mut dropped, mut cleared) = (0, 0, 0);
    let mut given = Vec::new();
    let mut held = 0;
    for piece in stream {
        given.extend(&piece.bytes);
        held += piece.bytes.len();
        for &(span, after) in &piece.asked {
            let span = span.unwrap_or(0);
            let lost = held - after - span;
            let over = if span == 0 && after == 0 { from_start(&given[given.len() - held..]) } else { 0 };
            in_spans += span;
            dropped += lost - over;
            cleared += over;
            held = after;
        }
    }
    [in_spans, dropped, cleared, held].map(|bytes| bytes as u64)
}

/// How many bytes there are from a start on, of bytes without an end behind it: with one, the scanner gives them.
fn from_start(bytes: &[u8]) -> usize {
    let mut scanner = Scanner::new();
    scanner.push(bytes);
    scanner.push(&[END]);
    scanner.next_raw().map_or(0, |span| span.len() - 1)
}

/// Byte by byte.
fn by_walk(stream: &Stream) -> Bytes {
    let (mut in_spans, mut dropped, mut cleared, mut held) = (0, 0, 0, 0);
    for piece in stream {
        for byte in &piece.bytes {
            match (held, byte) {
                (0, 0x3E) => held = 1,
                (0, _) => dropped += 1,
                (_, 0x3C) => in_spans += std::mem::take(&mut held) + 1,
                _ => held += 1,
            }
        }
        if held > 65_536 {
            cleared += std::mem::take(&mut held);
        }
    }
    [in_spans, dropped, cleared, held]
}
