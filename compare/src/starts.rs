//! Random start tables: mostly valid ones, and damaged ones.
use crate::flow::Flow;
use crate::host::{HostChannel, HostEntry, HostFlow, HostId, Start, MAX_CHANNELS, MAX_ENTRIES, MAX_PORTS};
use crate::rng::Rng;
use std::collections::HashSet;

/// Tables that number 14 is about, or that look like it.
pub fn damaged(rng: &mut Rng) -> Start {
    let mut s = valid(rng);
    for _ in 0..rng.from_to(1, 2) {
        damage(rng, &mut s);
    }
    s
}

pub fn valid(rng: &mut Rng) -> Start {
    let (ports, channel_count, entry_count) = counts(rng);
    let channels = channels(rng, channel_count);
    Start {
        ids: ids(rng, ports),
        ports,
        entries: entries(rng, entry_count, &channels, channel_count),
        channels,
        channel_count,
        entry_count,
        white_cac: rng.chance(60),
        add_cac: rng.chance(50),
        first: first(rng),
    }
}

fn counts(rng: &mut Rng) -> (usize, usize, usize) {
    match rng.below(10) {
        0..=4 => (rng.from_to(1, 4), rng.from_to(1, 24), rng.from_to(0, 8)),
        5..=6 => (rng.from_to(2, 30), rng.from_to(16, 60), rng.from_to(1, 40)),
        7..=8 => (MAX_PORTS, rng.from_to(17, 40), rng.from_to(1, MAX_ENTRIES)),
        _ => (rng.from_to(0, MAX_PORTS), rng.pick(&[0, 1, MAX_CHANNELS]), rng.pick(&[0, 1, MAX_ENTRIES])),
    }
}

fn first(rng: &mut Rng) -> u32 {
    match rng.below(4) {
        0 => 1,
        1 => rng.from_to(1, 16_777_215) as u32,
        _ => 16_777_215 - rng.below(4) as u32,
    }
}

/// Ids that all differ in the first `count` rows; the rows that follow are anything.
fn ids(rng: &mut Rng, count: usize) -> Vec<HostId> {
    let mut seen = HashSet::new();
    let mut rows = Vec::new();
    while rows.len() < MAX_PORTS {
        let id = id(rng);
        if rows.len() >= count || seen.insert(id.clone()) {
            rows.push(junk_after(rng, HostId::new(&id)));
        }
    }
    rows
}

fn id(rng: &mut Rng) -> Vec<u8> {
    match rng.below(4) {
        0 => format!("p{}", rng.below(100)).into_bytes(),
        1 => vec![b'a'; rng.from_to(1, 63)],
        2 => (0..rng.from_to(1, 63)).map(|_| rng.octet()).collect(),
        _ => vec![rng.below(2) as u8; rng.from_to(1, 4)],
    }
}

/// Fills what lies after the id: nobody may read it.
fn junk_after(rng: &mut Rng, mut row: HostId) -> HostId {
    if rng.chance(50) {
        let junk = rng.octet();
        let length = (row.length as usize).min(63);
        row.octets[length..].fill(junk);
    }
    row
}

fn channels(rng: &mut Rng, count: usize) -> Vec<HostChannel> {
    let mut seen = HashSet::new();
    let mut rows = Vec::new();
    while rows.len() < MAX_CHANNELS {
        let flow = flow(rng);
        if seen.insert(flow) {
            rows.push(HostChannel { flow: flow.to_host(), rate: rate(rng) });
        }
    }
    for row in &mut rows[count..] {
        row.rate = rng.pick(&[0, 1000, u32::MAX]);
    }
    rows
}

fn rate(rng: &mut Rng) -> u32 {
    match rng.below(8) {
        0..=2 => 1000,
        3 => 1001,
        4 => 1,
        5 => 10_000_000,
        _ => rng.from_to(1, 5000) as u32,
    }
}

/// A good flow, near others so that prefixes and groups meet.
pub fn flow(rng: &mut Rng) -> Flow {
    loop {
        let v4 = rng.chance(55);
        let group = if v4 { group_v4(rng) } else { group_v6(rng) };
        let source = if v4 { source_v4(rng) } else { source_v6(rng) };
        let sourced = rng.chance(65) as u32;
        let source = if sourced == 1 { source } else { [0; 4] };
        let host = HostFlow { family: if v4 { 1 } else { 2 }, sourced, group, source };
        if let Some(flow) = Flow::from_host(&host) {
            return flow;
        }
    }
}

fn group_v4(rng: &mut Rng) -> [u32; 4] {
    let word = match rng.below(8) {
        0 => 0xE000_0000 | rng.word() >> 4,
        1 => rng.pick(&[0xE000_0000, 0xEFFF_FFFF]),
        _ => 0xE9FC_0000 | rng.below(24) as u32 | (rng.below(2) as u32) << 12,
    };
    [word, 0, 0, 0]
}

fn group_v6(rng: &mut Rng) -> [u32; 4] {
    match rng.below(8) {
        0 => [0xFF00_0000 | rng.word() >> 8, rng.word(), rng.word(), rng.word()],
        1 => rng.pick(&[[0xFF00_0000, 0, 0, 0], [u32::MAX; 4]]),
        2 => [0xFF34_0000, rng.below(2) as u32, rng.below(2) as u32, rng.below(4) as u32],
        _ => [0xFF34_0000, 0, 0, rng.below(24) as u32],
    }
}

fn source_v4(rng: &mut Rng) -> [u32; 4] {
    let word = match rng.below(8) {
        0 => rng.word(),
        1 => rng.pick(&[u32::MAX, 1, 0xDFFF_FFFF, 0xF000_0000]),
        _ => 0xC000_0200 | rng.from_to(1, 4) as u32,
    };
    [word, 0, 0, 0]
}

fn source_v6(rng: &mut Rng) -> [u32; 4] {
    match rng.below(8) {
        0 => [rng.word(), rng.word(), rng.word(), rng.word()],
        1 => rng.pick(&[[0, 0, 0, 1], [0xFEFF_FFFF, 0, 0, 0], [0, 1, 0, 0]]),
        _ => [0x2001_0DB8, 0, 0, rng.from_to(1, 4) as u32],
    }
}

fn entries(rng: &mut Rng, count: usize, channels: &[HostChannel], channel_count: usize) -> Vec<HostEntry> {
    let mut rows: Vec<HostEntry> = (0..MAX_ENTRIES).map(|_| entry(rng, channels)).collect();
    if rng.chance(80) {
        for (i, row) in rows.iter_mut().take(count.min(2)).enumerate() {
            *row = HostEntry { family: 1 + i as u32, list: 1, group_bits: rng.below(9) as u32, source_bits: 0, ..*row };
        }
    }
    let from = if count < 4 { 0 } else { 2 };
    for _ in 0..rng.from_to(0, 4 + count / 4) {
        let flow = channels[rng.below(channel_count.clamp(1, 20))].flow;
        contend(rng, &mut rows[from..count], flow);
    }
    rows
}

fn entry(rng: &mut Rng, channels: &[HostChannel]) -> HostEntry {
    let flow = channels[rng.below(channels.len().min(40))].flow;
    let width = width(flow.family);
    let group_bits = bits(rng, width);
    let source_bits = if rng.chance(60) { 0 } else { bits(rng, width) };
    let list = rng.pick(&[1, 1, 1, 2, 3]);
    entry_of(rng, &flow, list, (group_bits, source_bits), 15)
}

fn entry_of(rng: &mut Rng, flow: &HostFlow, list: u32, (group_bits, source_bits): (u32, u32), inside: usize) -> HostEntry {
    HostEntry {
        family: flow.family,
        list,
        group_bits,
        source_bits,
        group: beyond(rng, flow.group, group_bits, inside),
        source: beyond(rng, flow.source, source_bits, inside),
    }
}

fn width(family: u32) -> u32 {
    if family == 1 {
        32
    } else {
        128
    }
}

/// Two or three entries of different lists for the flow, in rows next to each other. If it has no source, those with a
/// source prefix are for other flows of its group, or there are none.
fn contend(rng: &mut Rng, rows: &mut [HostEntry], mut flow: HostFlow) {
    let width = width(flow.family);
    let mut lengths = lengths(rng, width);
    if flow.sourced == 0 {
        flow.source = if width == 32 { source_v4(rng) } else { source_v6(rng) };
        if rng.chance(50) {
            lengths.iter_mut().for_each(|(_, source)| *source = 0);
        }
    }
    let lists = rng.pick(&[[1, 2, 3], [1, 3, 2], [2, 1, 3], [2, 3, 1], [3, 1, 2], [3, 2, 1]]);
    let at = rng.below(rows.len().max(1));
    for (i, (list, lengths)) in lists.into_iter().zip(lengths).take(rows.len()).enumerate() {
        rows[(at + i) % rows.len()] = entry_of(rng, &flow, list, lengths, 4);
    }
}

/// Lengths of group and source prefix that rules weigh differently, in any order.
fn lengths(rng: &mut Rng, width: u32) -> Vec<(u32, u32)> {
    let group = if rng.chance(50) { width } else { bits(rng, width) };
    let (source, other) = (source_bits(rng, width), source_bits(rng, width));
    let fewer = group.min(rng.from_to(1, 8) as u32);
    let moved = fewer.min(width - source);
    let mut lengths = match rng.below(10) {
        0..=1 => vec![(group, source), (group, other)],
        2 => vec![(group, 1), (group, 0)],
        3 => vec![(group, width), (group, width - 1)],
        4 => vec![(group, source), (group, source)],
        5 => vec![(group - fewer, source.max(other)), (group, source.min(other))],
        6..=7 => vec![(group - moved, source + moved), (group, source)],
        _ => vec![(group.saturating_sub(1), width), (group, 0)],
    };
    if rng.chance(30) {
        lengths.push((group - rng.pick(&[0, fewer]), source_bits(rng, width)));
    }
    if rng.chance(50) {
        lengths.reverse();
    }
    lengths
}

fn source_bits(rng: &mut Rng, width: u32) -> u32 {
    match rng.below(6) {
        0 => 0,
        1 => 1,
        2 => width - 1,
        3 => width,
        4 => rng.from_to(0, width as usize) as u32,
        _ => width - rng.below(9) as u32,
    }
}

fn bits(rng: &mut Rng, width: u32) -> u32 {
    match rng.below(6) {
        0 => width,
        1 => rng.from_to(0, width as usize) as u32,
        2 => 0,
        3 => width - 1,
        _ => width - rng.below(9) as u32,
    }
}

/// Changes bits beyond the prefix, which do not count, and with a chance of so many percent the last one inside it, or one
/// of the first word.
fn beyond(rng: &mut Rng, mut words: [u32; 4], bits: u32, inside: usize) -> [u32; 4] {
    let mut change = |bit: usize| words[bit / 32] ^= 1 << (31 - bit % 32);
    for _ in 0..rng.below(4) {
        if bits < 128 {
            change(rng.from_to(bits as usize, 127));
        }
    }
    if rng.chance(inside) {
        let last = bits.max(1) as usize - 1;
        change(if rng.chance(50) { rng.below(32) } else { last });
    }
    words
}

/// One thing that number 14 is about, or that looks like it.
fn damage(rng: &mut Rng, s: &mut Start) {
    match rng.below(12) {
        0 => s.first = rng.pick(&[0, 16_777_216, u32::MAX, 0x0100_0001]),
        1 => s.ports = large(rng, MAX_PORTS),
        2 => s.channel_count = large(rng, MAX_CHANNELS),
        3 => s.entry_count = large(rng, MAX_ENTRIES),
        4 => repeat_id(rng, s),
        5 => damage_row(rng, s.ports, &mut s.ids, |rng, row| row.length = rng.pick(&[0, 64, 65, 255])),
        6 => repeat_channel(rng, s),
        7 => damage_row(rng, s.channel_count, &mut s.channels, |rng, row| row.rate = rng.pick(&[0, 10_000_001, 10_000_000, u32::MAX])),
        8 => damage_row(rng, s.channel_count, &mut s.channels, |rng, row| damage_flow(rng, &mut row.flow)),
        9 => damage_row(rng, s.entry_count, &mut s.entries, |rng, row| row.family = rng.pick(&[0, 3, u32::MAX, 257])),
        10 => damage_row(rng, s.entry_count, &mut s.entries, |rng, row| row.list = rng.pick(&[0, 4, u32::MAX, 257])),
        _ => damage_row(rng, s.entry_count, &mut s.entries, damage_bits),
    }
}

fn large(rng: &mut Rng, limit: usize) -> usize {
    rng.pick(&[limit + 1, limit + 2, 2 * limit, usize::MAX, 1 << 32, limit])
}

/// Damages a row that is meant, or the first one after those.
fn damage_row<T>(rng: &mut Rng, count: usize, rows: &mut [T], with: impl Fn(&mut Rng, &mut T)) {
    let row = rng.from_to(0, count.min(rows.len() - 1));
    with(rng, &mut rows[row]);
}

fn damage_bits(rng: &mut Rng, row: &mut HostEntry) {
    let width = width(row.family);
    let bits = rng.pick(&[width, width + 1, 129, 33, u32::MAX]);
    match rng.chance(50) {
        true => row.group_bits = bits,
        false => row.source_bits = bits,
    }
}

/// Two rows get the same id; what lies after it may differ.
fn repeat_id(rng: &mut Rng, s: &mut Start) {
    let (from, to) = two_rows(rng, s.ports, MAX_PORTS);
    s.ids[to] = s.ids[from];
    s.ids[to] = junk_after(rng, s.ids[to]);
}

fn repeat_channel(rng: &mut Rng, s: &mut Start) {
    let (from, to) = two_rows(rng, s.channel_count, MAX_CHANNELS);
    s.channels[to].flow = s.channels[from].flow;
}

fn two_rows(rng: &mut Rng, count: usize, limit: usize) -> (usize, usize) {
    let count = count.min(limit);
    let to = if rng.chance(80) { count.saturating_sub(1) } else { count.min(limit - 1) };
    (rng.below(to.max(1)), to)
}

/// Makes a flow's address bad, or another one.
pub fn damage_flow(rng: &mut Rng, f: &mut HostFlow) {
    match rng.below(9) {
        0 => f.family = rng.pick(&[0, 3, u32::MAX, 257, 3 - f.family.min(3)]),
        1 => f.sourced = rng.pick(&[2, u32::MAX, 256, 1 - f.sourced.min(1)]),
        2 => f.group[0] = rng.pick(&[0xDFFF_FFFF, 0xF000_0000, 0xFEFF_FFFF, 0, 0xC000_0201]),
        3 => f.source = [0; 4],
        4 => f.source = f.group,
        5 => f.group[rng.from_to(1, 3)] ^= 1 << rng.below(32),
        6 => f.source[rng.below(4)] ^= 1 << rng.below(32),
        7 => f.source[0] = rng.pick(&[0xE000_0000, 0xEFFF_FFFF, 0xFF00_0000, 0xF000_0000]),
        _ => f.group[0] = rng.word(),
    }
}
