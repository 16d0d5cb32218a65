//! Reads a trace, btsnoop or pcap, imports it tolerantly, and prints what was found. With
//! --check-fcs, RFCOMM's UIH frames with a wrong FCS are passed over, and counted. `import.c`
//! does and prints the same.
//!
//!     cargo run --example import -- TRACE [--check-fcs]

use std::env;
use std::error::Error;
use std::fs;

use lumbryth::{cut_with, fixture_name, import_with, Account, Container, Direction, Options, TailRule};

/// What pcap files begin with: microseconds, then nanoseconds, the lowest byte of a number first or the highest.
const PCAP: [[u8; 4]; 4] =
    [[0xD4, 0xC3, 0xB2, 0xA1], [0xA1, 0xB2, 0xC3, 0xD4], [0x4D, 0x3C, 0xB2, 0xA1], [0xA1, 0xB2, 0x3C, 0x4D]];

/// Where every information byte of the DLCI went.
fn account(bytes: &Account) -> String {
    format!(
        "bytes taken in {}: in spans {}, dropped {}, cleared {}, left {}",
        bytes.taken_in(),
        bytes.in_spans,
        bytes.dropped,
        bytes.cleared,
        bytes.left
    )
}

fn main() -> Result<(), Box<dyn Error>> {
    let path = env::args_os().nth(1).ok_or("say which trace to read")?;
    let file = fs::read(&path)?;
    // The library guesses nothing, so that a caller says what the file is. This one goes by its first four bytes; what is not pcap is
    // asked for as btsnoop, and refused if it is not.
    let is_pcap = PCAP.iter().any(|magic| file.starts_with(magic));
    let container = if is_pcap { Container::Pcap } else { Container::Btsnoop };
    let check_fcs = env::args_os().nth(2).is_some_and(|word| word == "--check-fcs");
    let options = Options::default().with_tail(TailRule::Tolerant).with_container(container).with_check_fcs(check_fcs);
    let imported = import_with(&file, &options)?;
    println!("DLCI {}, frames {}, unfinished {}", imported.dlci, imported.frames, imported.unfinished);
    println!("{}", account(&imported.bytes));
    if check_fcs {
        println!("UIH frames with a wrong FCS, passed over: {}", imported.wrong_fcs);
    }
    if let Some(cut) = cut_with(&file, imported.tail, &options) {
        println!("the file ends inside the record that starts at byte {}", cut.offset);
    }
    for (counter, span) in (1..).zip(&imported.spans) {
        match fixture_name(span.ms, counter, span.direction, &span.wire) {
            Ok(name) => println!("{name}"),
            Err(refusal) => {
                let way = if span.direction == Direction::Rx { "rx" } else { "tx" };
                println!("frame {counter}, {way}, {} bytes: refused ({})", span.wire.len(), refusal.number());
            }
        }
    }
    Ok(())
}
