//! Req 02: joins that got as far as the lists, where the source prefix, a tie or a missing source mattered.
use crate::calls::Call;
use crate::card::Card;
use crate::flow::{family, Flow};
use crate::lists::{matching, Entry, List};
use crate::pair::Seen;

/// A rule: of the matching entries the one that weighs most decides.
type Weight = fn(&Entry) -> [u32; 3];

const RULE: Weight = |e| [e.group.length, e.source.length, rank(e)];
/// The rule before the request, which is also the wrong one that takes the list before the source prefix.
const OLD: Weight = |e| [e.group.length, rank(e), 0];
const SUM: Weight = |e| [e.group.length + e.source.length, rank(e), 0];
/// Rules that look right.
const WRONG: [(&str, Weight); 6] = [
    ("not source before group", |e| [e.source.length, e.group.length, rank(e)]),
    ("not the lengths' sum", SUM),
    ("not group * width + source", |e| [e.group.length * width(e) + e.source.length, rank(e), 0]),
    ("not the shorter source", |e| [e.group.length, width(e) - e.source.length, rank(e)]),
    ("source length 1 over 0", |e| [e.group.length, e.source.length.max(1), rank(e)]),
    ("source width over width - 1", |e| [e.group.length, e.source.length.min(width(e) - 1), rank(e)]),
];
/// Two lists, the one that decides a tie first.
const PAIRS: [(List, List); 3] = [(List::Black, List::Grey), (List::Black, List::White), (List::Grey, List::White)];

fn rank(e: &Entry) -> u32 {
    match e.list {
        List::Black => 2,
        List::Grey => 1,
        List::White => 0,
    }
}

fn width(e: &Entry) -> u32 {
    if e.family == 1 {
        32
    } else {
        128
    }
}

fn decided<'a>(entries: impl Iterator<Item = &'a Entry>, weight: Weight) -> Option<List> {
    entries.max_by_key(|&e| weight(e)).map(|e| e.list)
}

/// The list that decided a join, by its number: with the others it did not get as far, except that 3 also means no entry.
fn list_of(number: u8) -> Option<List> {
    match number {
        0 | 4 | 5 => Some(List::White),
        2 => Some(List::Grey),
        3 => Some(List::Black),
        _ => None,
    }
}

/// How often what occurred, for IPv4 and IPv6.
#[derive(Default)]
pub struct Sources([Counts; 2]);

#[derive(Default)]
struct Counts {
    /// The old rule gives the first list of the pair, and the second one decided.
    changed: [usize; 3],
    /// By the rule of `WRONG` that gives another list.
    wrong: [usize; 6],
    /// The same for the sum, where the entry that decided is among those with the largest one.
    equal_sums: usize,
    /// Both lengths are equal, and the first list of the pair decided.
    ties: [usize; 3],
    /// Of such a tie, the first row has another list; the last row has.
    rows: [usize; 2],
    /// Flows without a source: entries of several lists match.
    several: usize,
    /// Flows without a source: another list would decide if source prefixes matched them.
    unsourced: usize,
}

impl Sources {
    pub fn seen(&mut self, card: &Card, call: &Call, seen: &Seen) {
        let Call::Join { flow, .. } = call else { return };
        let (Some(list), Some(flow)) = (list_of(seen.number), Flow::from_host(flow)) else { return };
        let entries: Vec<&Entry> = matching(&card.entries, &flow).collect();
        if entries.is_empty() {
            return;
        }
        let counts = &mut self.0[family(flow.group) as usize - 1];
        counts.by_rules(&entries, list);
        counts.by_ties(&entries, list);
        if flow.source.is_none() {
            let of_group = card.entries.iter().filter(|e| e.matches_group(flow.group));
            counts.several += entries.iter().any(|e| e.list != list) as usize;
            counts.unsourced += (decided(of_group, RULE) != Some(list)) as usize;
        }
    }

    /// What has to occur, and how often it did.
    pub fn lines(&self) -> Vec<(String, usize)> {
        let families = ["IPv4", "IPv6"].into_iter().zip(&self.0);
        families.flat_map(|(name, counts)| counts.lines().into_iter().map(move |(what, n)| (format!("{name}, {what}"), n))).collect()
    }
}

impl Counts {
    fn by_rules(&mut self, entries: &[&Entry], list: List) {
        let by = |weight| decided(entries.iter().copied(), weight);
        for (pair, count) in PAIRS.iter().zip(&mut self.changed) {
            *count += (by(OLD) == Some(pair.0) && list == pair.1) as usize;
        }
        for ((_, weight), count) in WRONG.iter().zip(&mut self.wrong) {
            *count += (by(*weight) != Some(list)) as usize;
        }
        let largest = |weight: Weight| entries.iter().max_by_key(|e| weight(e)).map(|e| SUM(e)[0]);
        self.equal_sums += (by(SUM) != Some(list) && largest(RULE) == largest(SUM)) as usize;
    }

    fn by_ties(&mut self, entries: &[&Entry], list: List) {
        let lengths = |e: &Entry| (e.group.length, e.source.length);
        let longest = entries.iter().map(|e| lengths(e)).max();
        let tied: Vec<List> = entries.iter().filter(|e| Some(lengths(e)) == longest).map(|e| e.list).collect();
        for (pair, count) in PAIRS.iter().zip(&mut self.ties) {
            *count += (list == pair.0 && tied.contains(&pair.0) && tied.contains(&pair.1)) as usize;
        }
        self.rows[0] += (tied.first() != Some(&list)) as usize;
        self.rows[1] += (tied.last() != Some(&list)) as usize;
    }

    fn lines(&self) -> Vec<(String, usize)> {
        let of_pairs = |what: fn((List, List)) -> String, counts: &[usize; 3]| PAIRS.map(what).into_iter().zip(*counts).collect::<Vec<_>>();
        let mut lines = of_pairs(|(old, new)| format!("was {old:?}, now {new:?}").to_lowercase(), &self.changed);
        lines.extend(WRONG.iter().zip(self.wrong).map(|((what, _), n)| (what.to_string(), n)));
        lines.push(("not the sum, sums equal".into(), self.equal_sums));
        lines.extend(of_pairs(|(first, other)| format!("tie of {first:?} and {other:?}").to_lowercase(), &self.ties));
        lines.push(("tie, not the first row".into(), self.rows[0]));
        lines.push(("tie, not the last row".into(), self.rows[1]));
        lines.push(("no source, several lists".into(), self.several));
        lines.push(("no source, not a source's".into(), self.unsourced));
        lines
    }
}
