//! Stands before the source's module of frames, which is unchanged behind it. All of it is passed on; what a scanner
//! is given, and what it then gives and holds, is kept.

mod source;

use std::cell::RefCell;

use super::DataType;
pub use source::*;

/// A piece that a scanner was given, and each time that it was then asked for a span: the length of the one that it
/// gave, if it gave one, and how many bytes it held after.
#[derive(Debug)]
pub struct Pushed {
    pub bytes: Vec<u8>,
    pub asked: Vec<(Option<usize>, usize)>,
}

/// All that one scanner was given.
pub type Stream = Vec<Pushed>;

#[derive(Default)]
struct Heard {
    living: usize,
    streams: Vec<Stream>,
}

thread_local! {
    static HEARD: RefCell<Heard> = const { RefCell::new(Heard { living: 0, streams: Vec::new() }) };
}

/// What the scanners heard that lived together last. An import has those of a DLCI all at once, and those of the DLCI
/// that it chooses last.
pub fn heard() -> Vec<Stream> {
    HEARD.with_borrow_mut(|heard| std::mem::take(&mut heard.streams))
}

#[derive(Debug)]
pub struct Scanner {
    scanner: source::Scanner,
    stream: Stream,
}

impl Default for Scanner {
    fn default() -> Scanner {
        HEARD.with_borrow_mut(|heard| {
            if heard.living == 0 {
                heard.streams.clear();
            }
            heard.living += 1;
        });
        Scanner { scanner: source::Scanner::new(), stream: Stream::new() }
    }
}

impl Drop for Scanner {
    fn drop(&mut self) {
        HEARD.with_borrow_mut(|heard| {
            heard.living -= 1;
            heard.streams.push(std::mem::take(&mut self.stream));
        });
    }
}

impl Scanner {
    pub fn new() -> Scanner {
        Scanner::default()
    }

    pub fn buffered(&self) -> usize {
        self.scanner.buffered()
    }

    pub fn push(&mut self, bytes: &[u8]) {
        self.stream.push(Pushed { bytes: bytes.to_vec(), asked: Vec::new() });
        self.scanner.push(bytes);
    }

    pub fn next_frame(&mut self) -> Option<Result<Frame, FrameError>> {
        self.next_raw().map(|span| unpack(&span))
    }

    pub fn next_raw(&mut self) -> Option<Vec<u8>> {
        let span = self.scanner.next_raw();
        if let Some(piece) = self.stream.last_mut() {
            piece.asked.push((span.as_ref().map(Vec::len), self.scanner.buffered()));
        }
        span
    }
}
