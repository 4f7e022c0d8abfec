//! White, black and grey lists.
use crate::flow::{family, Flow};
use crate::host::HostEntry;
use std::cmp::Reverse;
use std::net::IpAddr;

/// The order is the one that decides a tie: the smallest goes first.
#[derive(Clone, Copy, Debug, PartialEq, Eq, PartialOrd, Ord)]
pub enum List {
    Black,
    Grey,
    White,
}

#[derive(Clone, Debug)]
pub struct Entry {
    pub(crate) family: u32,
    pub(crate) list: List,
    pub(crate) group: Prefix,
    pub(crate) source: Prefix,
}

/// An address's bits, left-aligned, and how many of them count.
#[derive(Clone, Debug)]
pub(crate) struct Prefix {
    bits: u128,
    pub length: u32,
}

impl Prefix {
    fn holds(&self, a: IpAddr) -> bool {
        let differing = self.bits ^ aligned(a);
        self.length == 0 || differing >> (128 - self.length) == 0
    }
}

impl Entry {
    /// The entry, if family, list and prefix lengths are within their limits.
    pub fn from_host(e: &HostEntry) -> Option<Entry> {
        let list = list(e.list)?;
        let width = match e.family {
            1 => 32,
            2 => 128,
            _ => return None,
        };
        if e.group_bits > width || e.source_bits > width {
            return None;
        }
        let group = Prefix { bits: join_words(&e.group), length: e.group_bits };
        let source = Prefix { bits: join_words(&e.source), length: e.source_bits };
        Some(Entry { family: e.family, list, group, source })
    }

    fn matches(&self, flow: &Flow) -> bool {
        self.matches_group(flow.group) && self.matches_source(flow.source)
    }

    pub(crate) fn matches_group(&self, group: IpAddr) -> bool {
        self.family == family(group) && self.group.holds(group)
    }

    fn matches_source(&self, source: Option<IpAddr>) -> bool {
        match source {
            None => self.source.length == 0,
            Some(s) => self.source.holds(s),
        }
    }
}

/// The entries that match the flow, in the order of their rows.
pub(crate) fn matching<'a>(entries: &'a [Entry], flow: &'a Flow) -> impl Iterator<Item = &'a Entry> {
    entries.iter().filter(|e| e.matches(flow))
}

/// Of the matching entries those with the longest group prefix, of these those with the longest source prefix; of these
/// black goes before grey, grey before white.
pub fn decide(entries: &[Entry], flow: &Flow) -> Option<List> {
    matching(entries, flow).max_by_key(|e| (e.group.length, e.source.length, Reverse(e.list))).map(|e| e.list)
}

fn list(number: u32) -> Option<List> {
    match number {
        1 => Some(List::White),
        2 => Some(List::Black),
        3 => Some(List::Grey),
        _ => None,
    }
}

fn join_words(words: &[u32; 4]) -> u128 {
    words.iter().fold(0, |bits, &word| bits << 32 | word as u128)
}

fn aligned(a: IpAddr) -> u128 {
    match a {
        IpAddr::V4(v4) => (u32::from(v4) as u128) << 96,
        IpAddr::V6(v6) => u128::from(v6),
    }
}
