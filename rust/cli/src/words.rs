//! Names and numbers as they are printed, and text for other programs.

use std::ffi::OsStr;
use std::fmt::{Display, Write};
use std::os::unix::ffi::OsStrExt;

use look::Trace;
use lumbryth::{Container, Direction, Link};

/// A number and what it counts.
pub fn count(n: usize, one: &str, more: &str) -> String {
    format!("{n} {}", if n == 1 { one } else { more })
}

/// A text with a capital.
pub fn capital(words: &str) -> String {
    let mut chars = words.chars();
    chars.next().map_or(String::new(), |first| format!("{}{}", first.to_ascii_uppercase(), chars.as_str()))
}

/// A direction in two letters: rx is from the headset.
pub fn way(direction: Direction) -> &'static str {
    if direction == Direction::Rx {
        "rx"
    } else {
        "tx"
    }
}

/// Whether a trace has more than one adapter. Only then are adapters named.
pub fn several(trace: Trace) -> bool {
    look::adapters(trace).len() > 1
}

/// What a trace is: its datalink, or that it is pcap and its link type.
pub fn datalink(trace: Trace) -> String {
    let number = trace.datalink();
    match trace.container {
        Container::Pcap => format!("pcap, link type {number}"),
        _ => format!("datalink {number}"),
    }
}

/// What `datalink` says, as fields of an object.
pub fn datalink_fields(trace: Trace) -> Vec<(&'static str, String)> {
    let number = trace.datalink().to_string();
    match trace.container {
        Container::Pcap => vec![("container", string("pcap")), ("link_type", number)],
        _ => vec![("datalink", number)],
    }
}

/// A connection by its handle, and by its adapter where there are several.
pub fn named(link: Link, several: bool) -> String {
    if several {
        format!("adapter {}, handle {}", link.adapter, link.handle)
    } else {
        format!("handle {}", link.handle)
    }
}

/// What the FCS of the UIH frames on a DLCI shows, where it is checked.
pub fn wrong_fcs(dlci: impl Display, n: usize) -> String {
    match n {
        0 => format!("No UIH frame on DLCI {dlci} has a wrong FCS."),
        1 => format!("1 UIH frame on DLCI {dlci} has a wrong FCS and was passed over."),
        n => format!("{n} UIH frames on DLCI {dlci} have a wrong FCS and were passed over."),
    }
}

/// A number, or null if there is none.
pub fn null_or(number: Option<impl ToString>) -> String {
    number.map_or("null".to_string(), |number| number.to_string())
}

/// Whether a character does something else than to be seen: controls, and marks of direction and width.
fn unseen(c: char) -> bool {
    c.is_control()
        || matches!(c, '\u{200B}'..='\u{200F}' | '\u{2028}'..='\u{202E}' | '\u{2060}'..='\u{2069}' | '\u{FEFF}')
}

/// A name in one line: what would not be seen, bytes that are no text, and the backslash are escaped.
pub fn shown(name: impl AsRef<OsStr>) -> String {
    let mut text = String::new();
    for part in name.as_ref().as_bytes().utf8_chunks() {
        for c in part.valid().chars() {
            match c {
                '\\' => text += "\\\\",
                '\n' => text += "\\n",
                '\t' => text += "\\t",
                c if unseen(c) && u32::from(c) < 0x80 => {
                    let _ = write!(text, "\\x{:02x}", u32::from(c));
                }
                c if unseen(c) => {
                    let _ = write!(text, "\\u{{{:x}}}", u32::from(c));
                }
                c => text.push(c),
            }
        }
        for byte in part.invalid() {
            let _ = write!(text, "\\x{byte:02x}");
        }
    }
    text
}

/// An object in one line. Values are put in as they are, so that they are made by `string` or are numbers, true, false or null.
pub fn object(fields: &[(&str, String)]) -> String {
    let fields: Vec<String> = fields.iter().map(|(name, value)| format!("{}:{value}", string(name))).collect();
    format!("{{{}}}\n", fields.join(","))
}

/// A string for an object.
pub fn string(text: &str) -> String {
    let mut quoted = String::from("\"");
    for c in text.chars() {
        match c {
            '"' => quoted += "\\\"",
            '\\' => quoted += "\\\\",
            c if unseen(c) => {
                let _ = write!(quoted, "\\u{:04x}", u32::from(c));
            }
            c => quoted.push(c),
        }
    }
    quoted + "\""
}

/// Bytes in hexadecimal.
pub fn hex(bytes: &[u8]) -> String {
    bytes.iter().map(|byte| format!("{byte:02x}")).collect()
}

#[cfg(test)]
mod tests {
    use super::{object, shown, string};
    use std::ffi::OsStr;
    use std::os::unix::ffi::OsStrExt;

    #[test]
    fn names_stay_in_their_line() {
        assert_eq!(shown("plain nåme.btsnoop"), "plain nåme.btsnoop");
        assert_eq!(shown("a\nb\x1B[31m\\\u{202E}\u{85}"), "a\\nb\\x1b[31m\\\\\\u{202e}\\u{85}");
        assert_eq!(shown(OsStr::from_bytes(b"a\xFF\xC3")), "a\\xff\\xc3");
    }

    #[test]
    fn objects() {
        assert_eq!(string("a\"\\\n\u{7F}"), "\"a\\\"\\\\\\u000a\\u007f\"");
        assert_eq!(object(&[("a", "1".into()), ("b", string("c"))]), "{\"a\":1,\"b\":\"c\"}\n");
    }
}
