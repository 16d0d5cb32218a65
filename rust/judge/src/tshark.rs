//! What tshark finds in a trace.

use std::path::Path;
use std::process::{Command, Output};

use crate::judged::{fcs, Pdu, Piece, Seen};
use lumbryth::Direction;

/// Runs tshark on a trace.
fn run(path: &Path) -> Result<Output, String> {
    Command::new("tshark")
        .args(["-n", "-T", "json", "-x", "-J", "frame hci_mon bthci_acl btl2cap btrfcomm data", "-r"])
        .arg(path)
        // No one's own settings.
        .env("WIRESHARK_CONFIG_DIR", std::env::temp_dir().join("lumbryth-judge-no-settings"))
        .output()
        .map_err(|error| format!("tshark cannot be run: {error}"))
}

/// The bytes that tshark takes for the packet of each record, up to where it finds a file cut.
pub fn packets(path: &Path) -> Result<Vec<Vec<u8>>, String> {
    let text = String::from_utf8(run(path)?.stdout).map_err(|error| error.to_string())?;
    let packet = |record| raw(record, "frame_raw").map(Option::unwrap_or_default);
    text.split("\"_index\":").skip(1).map(packet).collect()
}

/// Runs tshark, and gives what it shows of each record.
pub fn read(path: &Path) -> Result<Seen, String> {
    let output = run(path)?;
    if !output.status.success() {
        return Err(format!("tshark failed: {}", String::from_utf8_lossy(&output.stderr)));
    }
    let text = String::from_utf8(output.stdout).map_err(|error| error.to_string())?;
    let mut seen = Seen::default();
    // One object for each record; the first key of each is this one.
    for (i, record) in text.split("\"_index\":").skip(1).enumerate() {
        let number = i + 1;
        if value(record, "frame.number")? != number.to_string() {
            return Err(format!("tshark shows record {number} out of turn"));
        }
        seen.records = number;
        let Some(pdu) = raw(record, "btl2cap_raw")? else { continue };
        let direction = direction(record).map_err(|words| format!("record {number}: {words}"))?;
        let link = (adapter(record)?, hex(value(record, "bthci_acl.chandle")?)?);
        let ms = milliseconds(value(record, "frame.time_epoch")?)?;
        let cid = u16::from_le_bytes([pdu[2], pdu[3]]);
        seen.pdus.push(Pdu { record: number, direction, link, ms, bytes: pdu });
        if raw(record, "btrfcomm_raw")?.is_none() || value(record, "btrfcomm.frame_type")? != "0xef" {
            continue;
        }
        let dlci = hex(value(record, "btrfcomm.dlci")?)? as u8;
        let length = value(record, "btrfcomm.len")?;
        // It shows the FCS, and does not say whether that is right.
        let byte =
            |key| raw(record, key)?.and_then(|bytes| bytes.first().copied()).ok_or(format!("{key} is not shown"));
        let head = [byte("btrfcomm.address_raw")?, byte("btrfcomm.control_raw")?];
        let right = hex(value(record, "btrfcomm.fcs")?)? == u16::from(fcs(head));
        if !right {
            seen.wrong.push((number, dlci));
        }
        // What tshark reads inside DLCI 0 is its own affair.
        if dlci == 0 || length == "0" {
            continue;
        }
        let information = raw(record, "data_raw")?.ok_or(format!("record {number}: no information is shown"))?;
        if information.len().to_string() != length {
            return Err(format!("record {number}: {} bytes are shown, of length {length}", information.len()));
        }
        seen.pieces.push(Piece { record: number, direction, link, cid, dlci, ms, information, right });
    }
    Ok(seen)
}

/// The way of a record; the Linux monitor has an opcode for it.
fn direction(record: &str) -> Result<Direction, String> {
    match value(record, "frame.p2p_dir").or_else(|_| value(record, "hci_mon.opcode"))? {
        "0" | "4" | "0x0004" => Ok(Direction::Tx),
        "1" | "5" | "0x0005" => Ok(Direction::Rx),
        other => Err(format!("direction {other}")),
    }
}

/// The adapter of a record; only the Linux monitor tells it.
fn adapter(record: &str) -> Result<u16, String> {
    let Ok(index) = value(record, "hci_mon.adapter_id") else { return Ok(0) };
    index.parse().map_err(|error| format!("adapter {index}: {error}"))
}

/// The text of a key, the first time it is there.
fn value<'a>(record: &'a str, key: &str) -> Result<&'a str, String> {
    let start = format!("\"{key}\": \"");
    let at = record.find(&start).ok_or(format!("tshark does not show {key}"))? + start.len();
    let rest = &record[at..];
    Ok(&rest[..rest.find('"').unwrap_or(rest.len())])
}

/// The bytes of a layer, if it is there: the first entry of a list.
fn raw(record: &str, key: &str) -> Result<Option<Vec<u8>>, String> {
    let Some(at) = record.find(&format!("\"{key}\": [")) else { return Ok(None) };
    let text = record[at..].split('"').nth(3).ok_or("a layer without bytes")?;
    let digits = text.as_bytes();
    let bytes = digits.chunks(2).map(|pair| {
        let pair = std::str::from_utf8(pair).map_err(|error| error.to_string())?;
        u8::from_str_radix(pair, 16).map_err(|error| format!("{key} {pair}: {error}"))
    });
    bytes.collect::<Result<_, _>>().map(Some)
}

fn hex(text: &str) -> Result<u16, String> {
    u16::from_str_radix(text.trim_start_matches("0x"), 16).map_err(|error| format!("{text}: {error}"))
}

/// Seconds with nine places after the point, as milliseconds, rounded down.
fn milliseconds(text: &str) -> Result<u64, String> {
    let (seconds, places) = text.split_once('.').ok_or(format!("time {text}"))?;
    if places.len() != 9 {
        return Err(format!("time {text}"));
    }
    let number = |digits: &str| digits.parse::<u64>().map_err(|error| format!("time {text}: {error}"));
    Ok(1000 * number(seconds)? + number(&places[..3])?)
}
