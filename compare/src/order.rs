//! The order of fixture names.

use crate::answer::{Answer, Case, Checked, Lender, Subject};
use crate::expected;
use crate::items;
use crate::model;
use crate::rng::Rng;
use crate::Options;

struct Order<'a> {
    subject: &'a dyn Subject,
    lender: Lender,
}

impl Order<'_> {
    fn list(&mut self, list: &[u8]) -> Checked {
        let expected = expected::capture_order(list).expect("UTF-8");
        self.held(list, &expected)
    }

    fn held(&mut self, list: &[u8], expected: &Answer) -> Checked {
        let subject = self.subject;
        self.lender.about(expected, &mut |out, values| subject.capture_order(list, out, values), &|| Case {
            call: "capture_order".into(),
            inputs: vec![("names", list.to_vec())],
        })
    }

    fn names<T: AsRef<[u8]>>(&mut self, names: &[T]) -> Checked {
        self.list(&items::name_list(names))
    }
}

/// Parts that stand where a counter stands, or nearly.
const COUNTERS: [&str; 30] = [
    "",
    "0",
    "+",
    "++7",
    "+7",
    "7",
    "07",
    "007",
    "000007",
    "+007",
    "8",
    "10",
    "9",
    "4294967295",
    "+4294967295",
    "4294967296",
    "0004294967295",
    "42949672950",
    "18446744073709551623",
    "340282366920938463463374607431768211463",
    " 7",
    "7 ",
    "7a",
    "a7",
    "0x7",
    "1_000",
    "7+",
    "é",
    "٧",
    "000001",
];

/// Names about the counter: each part after each beginning, with each ending.
pub fn odd_names() -> Vec<String> {
    let mut names = Vec::new();
    for start in [
        "mdr-packet-",
        "mdr-packet-5-",
        "mdr-packet--",
        "mdr-packet-5-6-",
        "mdr-packe-5-",
        "-mdr-packet-5-",
        "Mdr-packet-5-",
        "",
    ] {
        for counter in COUNTERS {
            for end in ["", "-rx", "-", ".bin"] {
                names.push(format!("{start}{counter}{end}"));
            }
        }
    }
    names.extend(
        [
            "mdr-packet",
            "mdr-packet-",
            "mdr-packet-5",
            "-",
            "--",
            "mdr-packet-5-7-rx.type-ACK-01.seq-00.cmd-NO_COMMAND-00.bin",
        ]
        .map(String::from),
    );
    names
}

pub fn random_name(rng: &mut Rng, odd: &[String]) -> String {
    match rng.below(10) {
        0..=3 => odd[rng.below(odd.len())].clone(),
        4..=6 => {
            format!("mdr-packet-{}-{:06}-rx.type-ACK-01.seq-00.cmd-NO_COMMAND-00.bin", rng.below(20), rng.below(12))
        }
        7 => format!("mdr-packet-{}-{}-tx", rng.next(), rng.next() as u32),
        8 => (0..rng.below(6)).map(|_| rng.pick(&['-', '+', '0', '7', 'm', 'é'])).collect(),
        _ => format!("mdr-packet-1-{}", rng.next()),
    }
}

fn pairs(order: &mut Order, odd: &[String]) -> Checked {
    for name in odd {
        order.names(&[name])?;
    }
    for a in odd {
        for b in odd.iter().step_by(3) {
            order.names(&[a, b])?;
        }
    }
    order.names(odd)
}

fn random(order: &mut Order, rng: &mut Rng, odd: &[String], size: u64) -> Checked {
    for i in 0..size {
        let n = if i % 100 == 0 { rng.below(300) } else { rng.below(12) };
        let mut names: Vec<String> = (0..n).map(|_| random_name(rng, odd)).collect();
        if n > 1 && rng.percent(30) {
            names[n - 1] = names[0].clone();
        }
        order.names(&names)?;
    }
    Ok(())
}

/// Lists cut at every byte, and with every single byte changed.
fn forms(order: &mut Order, rng: &mut Rng) -> Checked {
    let list = items::name_list(&["mdr-packet-1-2-x", "", "b", "mdr-packet-1-1-x"]);
    for n in 0..=list.len() {
        order.list(&list[..n])?;
    }
    for at in 0..list.len() {
        for byte in 0..128 {
            let mut other = list.clone();
            other[at] = byte;
            order.list(&other)?;
        }
    }
    for kind in [0u16, 1, 2, 4, 5, 0x0103, 0x0300, 0xFFFF] {
        let mut other = list.clone();
        items::push(&mut other, kind, b"x");
        order.list(&other)?;
        let mut first = Vec::new();
        items::push(&mut first, kind, b"x");
        first.extend(&list);
        order.list(&first)?;
    }
    for length in [0xFFFF_FFFFu32, 0xFFFF_FFFA, 0x8000_0000, 7, 6] {
        let mut other = list.clone();
        other.extend(length.to_le_bytes());
        other.extend([3, 0, 1, 2, 3, 4, 5, 6]);
        order.list(&other)?;
    }
    let mut longest = Vec::new();
    items::push(&mut longest, items::NAME, &vec![b'x'; 16_777_216 - 12 - rng.below(2)]);
    items::push(&mut longest, items::NAME, &[]);
    for more in 0..3 {
        let mut list = longest.clone();
        list.resize(16_777_216 - 1 + more, 0);
        order.list(&list)?;
    }
    let mut exact = Vec::new();
    items::push(&mut exact, items::NAME, &vec![b'x'; 16_777_216 - 12]);
    items::push(&mut exact, items::NAME, &[]);
    order.list(&exact)?;
    items::push(&mut exact, items::NAME, &[]);
    order.list(&exact)
}

/// Names that are not UTF-8, which the oracle does not take: held to the model.
fn bytes(order: &mut Order, rng: &mut Rng, size: u64) -> Checked {
    for _ in 0..size {
        let n = rng.below(8);
        let names: Vec<Vec<u8>> = (0..n)
            .map(|_| {
                let m = rng.below(5);
                let end = rng.mixed(m, b"+-017\x80\xFF", 90);
                [if rng.percent(70) { &b"mdr-packet-1-"[..] } else { &b""[..] }, &end].concat()
            })
            .collect();
        let list = items::name_list(&names);
        order.held(&list, &model::capture_order(&list))?;
    }
    Ok(())
}

pub fn run(subject: &dyn Subject, options: &Options) -> Checked {
    let size = options.size.unwrap_or(100_000);
    let mut rng = Rng::new(options.seed);
    let mut order = Order { subject, lender: Lender::default() };
    let odd = odd_names();
    let mut log = options.log("order");
    pairs(&mut order, &odd)?;
    log.line("odd counters, in pairs", &order.lender);
    random(&mut order, &mut rng, &odd, size)?;
    log.line("random names", &order.lender);
    forms(&mut order, &mut rng)?;
    log.line("ill-formed lists", &order.lender);
    bytes(&mut order, &mut rng, size / 10)?;
    log.line("names that are not UTF-8, against the model", &order.lender);
    Ok(())
}
