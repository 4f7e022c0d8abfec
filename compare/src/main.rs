//! Compares the card written here with the proved one on random call lists: compare [calls] [seed]
use compare::calls::{self, Call};
use compare::host::{HostFlow, Start};
use compare::messages::set_lengths;
use compare::pair::{self, hex, Pair, Seen};
use compare::rng::Rng;
use compare::sources::Sources;
use compare::starts;
use compare::zeros::{self, Zeros};
use std::collections::BTreeMap;
use std::process::ExitCode;

const LOOK_AT_ALL: usize = 50;
const CODES: [u16; 12] = [0x2, 0x6, 0x13, 0x51, 0x53, 0x54, 0x55, 0x64, 0x65, 0x66, 0x67, 0x500];

/// How many rows of a table are meant.
type Count = fn(&mut Start) -> &mut usize;

/// A call list that shows a difference.
struct Difference {
    start: Start,
    calls: Vec<Call>,
    what: String,
}

/// How often what came back.
#[derive(Default)]
struct Counts {
    calls: usize,
    lists: usize,
    most_extras: usize,
    numbers: [usize; 17],
    /// By type, Result and code of the reply.
    replies: BTreeMap<(u8, u8, u16), usize>,
    zeros: Zeros,
    sources: Sources,
}

impl Counts {
    fn number(&mut self, number: u8) {
        self.calls += 1;
        self.numbers[number as usize] += 1;
    }

    fn seen(&mut self, seen: &Seen) {
        self.number(seen.number);
        if seen.reply.len() >= 16 {
            let field = u16::from_be_bytes([seen.reply[6], seen.reply[7]]);
            *self.replies.entry((seen.reply[5], (field >> 12) as u8, field & 0xFFF)).or_default() += 1;
        }
    }

    fn failures(&self, code: u16) -> usize {
        self.replies.iter().filter(|((_, result, c), _)| *result == 4 && *c == code).map(|(_, n)| n).sum()
    }

    fn reply(&self, kind: u8, result: u8, code: u16) -> usize {
        self.replies.get(&(kind, result, code)).copied().unwrap_or(0)
    }
}

fn main() -> ExitCode {
    let mut arguments = std::env::args().skip(1).map(|a| a.parse::<u64>());
    let calls = arguments.next().and_then(Result::ok).unwrap_or(1_000_000) as usize;
    let seed = arguments.next().and_then(Result::ok).unwrap_or(1);
    let mut counts = Counts::default();
    let mut list = 0;
    while counts.calls < calls {
        let mut rng = Rng::new(seed.wrapping_mul(0x1_0000_0001).wrapping_add(list));
        if let Err(difference) = run_list(&mut rng, &mut counts) {
            println!("difference in list {list} of seed {seed}, after {} calls", counts.calls);
            show(&minimised(*difference));
            return ExitCode::from(1);
        }
        list += 1;
    }
    report(&counts, seed)
}

fn run_list(rng: &mut Rng, counts: &mut Counts) -> Result<(), Box<Difference>> {
    counts.lists += 1;
    for _ in 0..rng.below(6) {
        begin(&starts::damaged(rng), counts)?;
    }
    let start = starts::valid(rng);
    match begin(&start, counts)? {
        Some(pair) => run_calls(rng, &start, pair, counts),
        None => Ok(()),
    }
}

fn begin(start: &Start, counts: &mut Counts) -> Result<Option<Pair>, Box<Difference>> {
    let started = pair::start(start).map_err(|what| difference(start, &[], what))?;
    counts.number(if started.is_some() { 0 } else { 14 });
    Ok(started)
}

fn run_calls(rng: &mut Rng, start: &Start, mut pair: Pair, counts: &mut Counts) -> Result<(), Box<Difference>> {
    let aim = calls::aim(rng, start);
    let opening = calls::opening(rng, start, aim);
    let length = opening.len() + rng.from_to(50, 350);
    let mut done = Vec::new();
    for i in 0..length {
        let call = opening.get(i).cloned().unwrap_or_else(|| calls::call(rng, start, &pair.card));
        let zero = zeros::zero(&pair.card, &call);
        done.push(call);
        let seen = perform(&mut pair, &done, i + 1 == length).map_err(|what| difference(start, &done, what))?;
        counts.seen(&seen);
        counts.sources.seen(&pair.card, &done[i], &seen);
        if let Some(zero) = zero {
            counts.zeros.seen(&zero, &seen);
        }
        counts.most_extras = counts.most_extras.max(pair.card.extras());
    }
    Ok(())
}

fn difference(start: &Start, calls: &[Call], what: String) -> Box<Difference> {
    Box::new(Difference { start: start.clone(), calls: calls.to_vec(), what })
}

/// The last call of those given; all ports are looked at every so often.
fn perform(pair: &mut Pair, done: &[Call], last: bool) -> Result<Seen, String> {
    let seen = pair.perform(&done[done.len() - 1])?;
    if last || done.len().is_multiple_of(LOOK_AT_ALL) {
        pair.compare_all()?;
    }
    Ok(seen)
}

/// What differs when the calls run again, and after how many calls.
fn differs(start: &Start, calls: &[Call]) -> Option<(usize, String)> {
    let mut pair = match pair::start(start) {
        Err(what) => return Some((0, what)),
        Ok(None) => return None,
        Ok(Some(pair)) => pair,
    };
    for (i, call) in calls.iter().enumerate() {
        if let Err(what) = pair.perform(call).and_then(|_| pair.compare_all()) {
            return Some((i + 1, what));
        }
    }
    None
}

fn minimised(mut d: Difference) -> Difference {
    keep_if_differs(&mut d, |_| true);
    drop_calls(&mut d);
    shorten_message(&mut d);
    let tables: [Count; 3] = [|s| &mut s.entry_count, |s| &mut s.channel_count, |s| &mut s.ports];
    for count in tables {
        while shorten_table(&mut d, count, |n| n / 2) || shorten_table(&mut d, count, |n| n.saturating_sub(1)) {}
    }
    d
}

/// Makes a table shorter if the calls still differ then.
fn shorten_table(d: &mut Difference, count: Count, shorter: fn(usize) -> usize) -> bool {
    let mut start = d.start.clone();
    let rows = count(&mut start);
    let was = *rows;
    *rows = shorter(was);
    if *rows == was {
        return false;
    }
    let Some((calls, what)) = differs(&start, &d.calls) else { return false };
    d.calls.truncate(calls);
    d.start = start;
    d.what = what;
    true
}

/// Changes the calls if they still differ then.
fn keep_if_differs(d: &mut Difference, change: impl Fn(&mut Vec<Call>) -> bool) -> bool {
    let mut calls = d.calls.clone();
    if !change(&mut calls) {
        return false;
    }
    let Some((count, what)) = differs(&d.start, &calls) else { return false };
    calls.truncate(count);
    d.calls = calls;
    d.what = what;
    true
}

fn drop_calls(d: &mut Difference) {
    let mut piece = d.calls.len().max(1);
    while piece > 0 {
        let mut at = 0;
        while at < d.calls.len() {
            let dropped = keep_if_differs(d, |calls| {
                let end = (at + piece).min(calls.len());
                calls.drain(at..end);
                true
            });
            if !dropped {
                at += piece;
            }
        }
        piece /= 2;
    }
}

/// Cuts words out of the last call's message while the difference stays; the header's lengths are made right.
fn shorten_message(d: &mut Difference) {
    for words in [256, 128].into_iter().chain((1..=64).rev()) {
        let mut at = 16;
        while at < message_size(d) {
            if !keep_if_differs(d, |calls| cut_message(calls, at, words * 4)) {
                at += 4;
            }
        }
    }
}

fn message_size(d: &Difference) -> usize {
    match d.calls.last() {
        Some(Call::Message { octets, .. }) => octets.len(),
        _ => 0,
    }
}

fn cut_message(calls: &mut [Call], at: usize, size: usize) -> bool {
    let Some(Call::Message { octets, .. }) = calls.last_mut() else { return false };
    if at + size > octets.len() {
        return false;
    }
    octets.drain(at..at + size);
    set_lengths(octets);
    true
}

fn show(d: &Difference) {
    show_start(&d.start);
    for call in &d.calls {
        match call {
            Call::Message { octets, space, .. } => println!("message, space {space}: {}", hex(octets)),
            Call::Join { port, flow: f, space } => println!("join, port {port}, space {space}: {}", flow(f)),
            Call::Leave { port, flow: f } => println!("leave, port {port}: {}", flow(f)),
            other => println!("{other:?}"),
        }
    }
    println!("differs: {}", d.what);
}

fn show_start(s: &Start) {
    println!("start: {} ports, {} channels, {} entries", s.ports, s.channel_count, s.entry_count);
    println!("White-List-CAC {}, MRepCtl-CAC {}, first transaction {}", s.white_cac, s.add_cac, s.first);
    for (i, row) in s.ids.iter().take(s.ports).enumerate() {
        println!("  port {i}: id length {}, {}", row.length, hex(row.id().unwrap_or(&row.octets)));
    }
    for (i, row) in s.channels.iter().take(s.channel_count).enumerate() {
        println!("  channel {i}: {}, rate {}", flow(&row.flow), row.rate);
    }
    for (i, row) in s.entries.iter().take(s.entry_count).enumerate() {
        let (group, source) = (words(&row.group), words(&row.source));
        println!(
            "  entry {i}: family {}, list {}, group {group}/{}, source {source}/{}",
            row.family, row.list, row.group_bits, row.source_bits
        );
    }
}

fn flow(f: &HostFlow) -> String {
    format!("family {}, sourced {}, group {}, source {}", f.family, f.sourced, words(&f.group), words(&f.source))
}

fn words(words: &[u32; 4]) -> String {
    words.map(|word| format!("{word:08X}")).join(" ")
}

/// The counts, and whether everything that has to occur did.
fn report(counts: &Counts, seed: u64) -> ExitCode {
    println!("{} calls in {} lists, seed {seed}; most extras {}", counts.calls, counts.lists, counts.most_extras);
    let mut missing = Vec::new();
    let mut line = |what: String, count: usize| {
        println!("{what:<33} {count:>9}");
        if count == 0 {
            missing.push(what);
        }
    };
    for (number, &count) in counts.numbers.iter().enumerate() {
        line(format!("number {number}"), count);
    }
    for code in CODES {
        line(format!("Failure, code {code:#x}"), counts.failures(code));
    }
    line("91 Success".into(), counts.reply(91, 3, 0));
    line("145 (grey join)".into(), counts.reply(145, 0, 0));
    line("146 (ask)".into(), counts.reply(146, 0, 0));
    line("147 Success".into(), counts.reply(147, 3, 0));
    line("147 Failure, code 0x0".into(), counts.reply(147, 4, 0));
    line("148 Success".into(), counts.reply(148, 3, 0));
    line("149 Success".into(), counts.reply(149, 3, 0));
    for (what, count) in counts.zeros.lines().into_iter().chain(counts.sources.lines()) {
        line(what, count);
    }
    if missing.is_empty() {
        println!("no difference");
        return ExitCode::SUCCESS;
    }
    println!("never occurred: {}", missing.join(", "));
    ExitCode::from(1)
}
