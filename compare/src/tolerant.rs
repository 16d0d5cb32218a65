//! Import under the tolerant rule: every cut of honest recordings against what is
//! known to be left, and all that strict import is compared on.

use crate::answer::{Answer, Checked, Container, Difference, Subject};
use crate::expected;
use crate::fcs;
use crate::honest::{self, Honest, Scale, Sums};
use crate::import::{self, Import, Rule, Taker};
use crate::pcap::HEAD;
use crate::rng::Rng;
use crate::Options;

/// The cuts of a recording that are tried: all, or if it is long, those about the
/// records' ends and a few more.
fn cuts(rng: &mut Rng, recording: &Honest) -> Vec<usize> {
    let (head, length) = (recording.head, recording.file.len());
    if length <= 3000 {
        return (head..=length).collect();
    }
    let mut cuts: Vec<usize> = (0..40).map(|_| rng.within(head, length)).collect();
    cuts.extend([head, length]);
    let step = recording.ends.len() / 40 + 1;
    for &end in recording.ends.iter().step_by(step) {
        cuts.extend([end - 1, end, (end + 1).min(length), (end + 24).min(length)]);
        if head == HEAD {
            cuts.extend([4, 8, 16].map(|more| (end + more).min(length)));
        }
    }
    cuts
}

const SCALES: [Scale; 4] = [
    honest::SMALL,
    Scale { links: 1, frames: 2, payload: 3, piece: 12, fragment: 30 },
    Scale { links: 4, frames: 10, payload: 40, piece: 60, fragment: 100 },
    Scale { links: 2, frames: 6, payload: 900, piece: 300, fragment: 200 },
];

/// The FCS bytes of recordings, in turn.
pub const KINDS: [Sums; 3] = [Sums::Right, Sums::Noisy, Sums::Chance];

/// What is called with a recording and a cut of it.
type Cut<'a> = dyn FnMut(&Honest, usize) -> Checked + 'a;

/// Calls `f` with recordings and each of their cuts.
pub fn each_cut(rng: &mut Rng, container: Container, size: u64, f: &mut Cut) -> Checked {
    for i in 0..size {
        let sums = KINDS[i as usize % 3];
        let recording = if i % 50 == 49 {
            honest::longest(rng, container, sums)
        } else if i % 250 == 124 {
            honest::large(rng, container, sums)
        } else {
            let scale = if i % 4 == 0 { rng.pick(&SCALES) } else { honest::SMALL };
            honest::recording_in(rng, container, sums, scale)
        };
        for n in cuts(rng, &recording) {
            f(&recording, n)?;
        }
    }
    Ok(())
}

/// What tolerant import is to answer for a cut, with the switch off and on: what is left by the making, if the recording is
/// honest in that position, and else what the oracle finds. The wrong frames are those of the walk, and of the making where
/// that knows them all.
pub fn due(container: Container, recording: &Honest, n: usize) -> [Answer; 2] {
    let file = &recording.file[..n];
    let mut due = match recording.holds(false) && recording.holds(true) {
        true => [recording.left(n), recording.left(n)],
        false => expected::import(container, file, recording.channel(), true),
    };
    let wrong = fcs::count(&fcs::wrong(container, file), recording.dlci.into());
    if let Some(known) = recording.wrong(n) {
        assert_eq!(wrong, known, "the walk finds the wrong frames that were made");
    }
    for (checks, answer) in [false, true].into_iter().zip(&mut due) {
        if recording.holds(checks) {
            *answer = recording.left(n);
        }
        if let (true, Some(count)) = (checks && recording.holds(true), answer.values.get_mut(5)) {
            *count = wrong;
        }
    }
    due
}

/// The rule on the size of frames is needed: a recording that breaks only it loses its
/// frame. Import answers as the oracle does.
fn size_rule(import: &mut Import, rng: &mut Rng) -> Checked {
    let recording = honest::too_long(rng, Container::Btsnoop);
    let (left, found) =
        (recording.left(recording.file.len()), expected::import_tolerant(&recording.file, recording.channel()));
    assert!((left.number, found.number) == (0, 6), "a frame over 65,536 bytes is left, and is not found");
    import.file(&recording.file, recording.channel())
}

/// The makers of honest recordings against the oracle alone: what is said to be left
/// is what strict import of the whole records finds.
pub fn check_makers(options: &Options) -> Checked {
    [("honest", Container::Btsnoop), ("honest, pcap", Container::Pcap)]
        .into_iter()
        .try_for_each(|(label, container)| check_maker(options, label, container))
}

fn check_maker(options: &Options, label: &str, container: Container) -> Checked {
    let mut rng = Rng::new(options.seed);
    let (mut cuts, mut none, mut spans, mut unfinished, mut recordings) = (0u64, 0u64, 0u64, 0u64, 0u64);
    let (mut wrong, mut apart) = (0u64, 0u64);
    each_cut(&mut rng, container, options.size.unwrap_or(50_000) / 100, &mut |recording, n| {
        let due = due(container, recording, n);
        let found = expected::import(container, &recording.file[..n], recording.channel(), true);
        cuts += 1;
        recordings += u64::from(n == recording.head);
        apart += u64::from(found[0].number != found[1].number || found[0].written != found[1].written);
        wrong += u64::from(found[1].values.get(5).is_some_and(|wrong| *wrong > 0));
        let left = recording.left(n);
        none += u64::from(left.number == 6);
        if left.number == 0 {
            spans += left.values[1];
            unfinished += u64::from(left.values[2] > 0);
        }
        if due == found {
            return Ok(());
        }
        let shown = |both: &[Answer; 2]| {
            let each = both.each_ref().map(|answer| format!("number {}, values {:?}", answer.number, answer.values));
            format!("off {}, on {}", each[0], each[1])
        };
        Err(Box::new(Difference {
            call: format!("{label} recording, DLCI {}, cut at {n}", recording.dlci),
            inputs: vec![("file", recording.file[..n].to_vec())],
            lent: "nothing".into(),
            expected: shown(&due),
            got: shown(&found),
        }))
    })?;
    println!(
        "{label}: {recordings} recordings, {cuts} cuts, {none} with nothing left, {unfinished} with a frame under way, \
         {spans} frames left in all; {wrong} with a wrong FCS counted, {apart} with other frames in the other position"
    );
    Ok(())
}

pub fn run(subject: &dyn Subject, options: &Options) -> Checked {
    let size = options.size.unwrap_or(50_000);
    let mut rng = Rng::new(options.seed);
    let mut log = options.log("tolerant");
    let mut import = Import::new(subject, Rule::Tolerant);
    honest_cuts(&mut import, &mut rng, size / 100)?;
    log.line("every cut of honest recordings", &import.lender);
    record_cuts(&mut import, &mut rng, size / 10)?;
    log.line("honest recordings cut where a record ends", &import.lender);
    size_rule(&mut import, &mut rng)?;
    log.line("a frame longer than an honest recording has", &import.lender);
    import::run_rule(subject, options, "tolerant", Rule::Tolerant, size / 5)?;
    run_strict(subject, options)
}

/// Every cut of honest recordings in both positions of the switch, held to what is left.
fn honest_cuts(import: &mut Import, rng: &mut Rng, size: u64) -> Checked {
    each_cut(rng, Container::Btsnoop, size, &mut |recording, n| {
        import.in_both(&recording.file[..n], recording.channel(), &due(Container::Btsnoop, recording, n))
    })
}

/// Many short recordings, cut where their records end: what takes two adapters to meet comes in few of them.
fn record_cuts(import: &mut Import, rng: &mut Rng, size: u64) -> Checked {
    for i in 0..size as usize {
        let recording = honest::recording_in(rng, Container::Btsnoop, KINDS[i % 3], honest::SMALL);
        for &n in &recording.ends {
            import.in_both(&recording.file[..n], recording.channel(), &due(Container::Btsnoop, &recording, n))?;
        }
    }
    Ok(())
}

/// The honest recordings alone; in a short run more of them.
pub fn run_honest(subject: &dyn Subject, options: &Options) -> Checked {
    let (mut import, mut rng) = (Import::new(subject, Rule::Tolerant), Rng::new(options.seed));
    let size = options.size.unwrap_or(50_000);
    record_cuts(&mut import, &mut rng, 2_000.max(size / 10))?;
    honest_cuts(&mut import, &mut rng, 100.max(size / 100))
}

/// The part that asks for the strict rule.
pub fn run_strict(subject: &dyn Subject, options: &Options) -> Checked {
    let size = options.size.unwrap_or(50_000) / 50;
    import::run_rule(subject, options, "tolerant, switched to strict", Rule::NotTolerant, size)
}
