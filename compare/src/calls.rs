//! Random call lists.
use crate::card::Card;
use crate::flow::Flow;
use crate::host::{HostFlow, Start};
use crate::messages::{flow_node, near, set_lengths, Maker, Node};
use crate::rng::Rng;
use crate::starts;
use crate::tlv::{CIRCUIT_ID, COMMAND, TARGET};

#[derive(Clone, Debug)]
pub enum Call {
    Up { port: usize },
    Down { port: usize },
    SetDelegation { port: usize, amount: u32 },
    Join { port: usize, flow: HostFlow, space: usize },
    Leave { port: usize, flow: HostFlow },
    Ask { port: usize, required: u32, preferred: u32, space: usize },
    Message { octets: Vec<u8>, port: usize, space: usize },
}

impl Call {
    /// The port concerned.
    pub fn port(&self) -> usize {
        match *self {
            Call::Up { port } | Call::Down { port } | Call::SetDelegation { port, .. } | Call::Join { port, .. } => port,
            Call::Leave { port, .. } | Call::Ask { port, .. } | Call::Message { port, .. } => port,
        }
    }
}

/// What a list aims at.
#[derive(Clone, Copy, Debug, PartialEq)]
pub enum Aim {
    /// Calls of every kind.
    Mixed,
    /// Fills the pool up to its limits first.
    Full,
}

pub fn aim(rng: &mut Rng, s: &Start) -> Aim {
    let can_fill = s.ports >= 22 && s.channel_count >= 17;
    if can_fill && rng.chance(70) {
        Aim::Full
    } else {
        Aim::Mixed
    }
}

/// The calls that come first: ports up with a delegation, and flows up to the limits.
pub fn opening(rng: &mut Rng, s: &Start, aim: Aim) -> Vec<Call> {
    let mut calls = Vec::new();
    let count = if aim == Aim::Full { s.ports } else { s.ports.min(6) };
    for port in 0..count {
        if aim == Aim::Full || rng.chance(85) {
            calls.push(Call::Up { port });
            calls.push(Call::SetDelegation { port, amount: first_delegation(rng, aim) });
        }
    }
    if aim == Aim::Full {
        fill(rng, s, &mut calls);
    }
    calls
}

fn first_delegation(rng: &mut Rng, aim: Aim) -> u32 {
    match aim {
        Aim::Full => rng.pick(&[u32::MAX, 200_000_000, 160_000_000]),
        Aim::Mixed => rng.pick(&[0, 1000, 4000, 4001, 20_000, 10_000_000, u32::MAX]),
    }
}

/// Twenty-one ports with 16 flows are 252 extras; the next one brings them to 254, 255 or 256. The others then get four.
fn fill(rng: &mut Rng, s: &Start, calls: &mut Vec<Call>) {
    let last = rng.from_to(6, 8);
    let by_join = rng.chance(25);
    for port in 0..s.ports {
        let flows = match port {
            0..=20 => 16,
            21 => last,
            _ => rng.pick(&[4, 4, 3, 5]),
        };
        fill_port(rng, s, port, flows, by_join, calls);
    }
}

fn fill_port(rng: &mut Rng, s: &Start, port: usize, flows: usize, by_join: bool, calls: &mut Vec<Call>) {
    let from = rng.below(s.channel_count);
    let rows = (0..flows).map(|i| s.channels[(from + i) % s.channel_count].flow);
    if by_join {
        calls.extend(rows.map(|flow| Call::Join { port, flow, space: 4608 }));
    } else {
        calls.push(Call::Message { octets: add_all(s, port, rows), port, space: 4608 });
    }
}

/// A 144 that adds the flows.
pub fn add_all(s: &Start, port: usize, flows: impl Iterator<Item = HostFlow>) -> Vec<u8> {
    let id = s.ids[port].id().unwrap_or(&[]).to_vec();
    let target = Node { kind: TARGET, lead: Vec::new(), inside: vec![Node::leaf(CIRCUIT_ID, id)] };
    let mut octets = vec![0x88, 0x0C, 0, 0, 0x32, 144, 0x20, 0, 0, 0, 0, 9, 0x80, 0x01, 0, 0];
    octets.extend(target.encode(0));
    for flow in flows.filter_map(|f| Flow::from_host(&f)) {
        let add = Node { kind: COMMAND, lead: vec![1, 0, 0, 0], inside: vec![flow_node(&flow)] };
        octets.extend(add.encode(0));
    }
    set_lengths(&mut octets);
    octets
}

/// One random call; the card tells which numbers are near a limit.
pub fn call(rng: &mut Rng, s: &Start, card: &Card) -> Call {
    let port = port(rng, s);
    match rng.below(100) {
        0..=6 => Call::Up { port },
        7..=8 => Call::Down { port },
        9..=16 => Call::SetDelegation { port, amount: delegation(rng, s, card, port) },
        17..=42 => Call::Join { port, flow: joined_flow(rng, s), space: space(rng) },
        43..=51 => Call::Leave { port, flow: left_flow(rng, s, card, port) },
        52..=59 => ask(rng, card, port),
        _ => Call::Message { octets: Maker { rng, start: s, card, port }.message(), port, space: space(rng) },
    }
}

fn port(rng: &mut Rng, s: &Start) -> usize {
    match rng.below(30) {
        0 => s.ports,
        1 => rng.pick(&[s.ports + 1, 63, 64, 65, 255, 256, 257, 1 << 32, usize::MAX]),
        2..=9 => rng.below(s.ports.max(1)),
        _ => rng.below(s.ports.clamp(1, 4)),
    }
}

fn space(rng: &mut Rng) -> usize {
    match rng.below(20) {
        0 => rng.pick(&[4607, 0, 1, 16, 4000]),
        1 => 4700,
        _ => 4608,
    }
}

/// Just under, at and over what is committed, alone or with one more flow.
fn delegation(rng: &mut Rng, s: &Start, card: &Card, port: usize) -> u32 {
    let committed = card.committed(port) as u32;
    let rate = s.channels[rng.below(s.channel_count.clamp(1, 20))].rate;
    let with_one = committed.saturating_add(rate);
    near(rng, &[committed, with_one, with_one, card.delegation(port), 4000, u32::MAX])
}

fn ask(rng: &mut Rng, card: &Card, port: usize) -> Call {
    let delegation = card.delegation(port);
    let required = near(rng, &[delegation, delegation.saturating_add(1), u32::MAX]);
    let preferred = near(rng, &[required, required.saturating_add(1), u32::MAX]);
    Call::Ask { port, required, preferred, space: space(rng) }
}

fn listed_flow(rng: &mut Rng, s: &Start) -> HostFlow {
    if s.channel_count == 0 {
        return starts::flow(rng).to_host();
    }
    let among = if rng.chance(80) { s.channel_count.min(20) } else { s.channel_count };
    s.channels[rng.below(among)].flow
}

fn joined_flow(rng: &mut Rng, s: &Start) -> HostFlow {
    let mut flow = listed_flow(rng, s);
    match rng.below(20) {
        0 => starts::damage_flow(rng, &mut flow),
        1 => flow = starts::flow(rng).to_host(),
        _ => (),
    }
    flow
}

fn left_flow(rng: &mut Rng, s: &Start, card: &Card, port: usize) -> HostFlow {
    let active = card.flows(port);
    if active.is_empty() || rng.chance(30) {
        return joined_flow(rng, s);
    }
    rng.pick(&active).to_host()
}
