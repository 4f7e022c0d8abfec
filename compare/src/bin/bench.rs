//! Nanoseconds per call of both cards on the same inputs: cargo run --release --bin bench
use compare::calls::{add_all, Call};
use compare::card::Card;
use compare::host::{HostChannel, HostEntry, HostFlow, HostId, Start};
use compare::messages::set_lengths;
use compare::pair::{on_card, on_proved};
use compare::proved::Proved;
use std::hint::black_box;
use std::time::Instant;

const ROUNDS: usize = 2001;
const COPIES: usize = 16;
const PORT: usize = 63;
const SPACE: usize = 4608;

/// Both cards in the same state.
#[derive(Clone)]
struct State {
    card: Card,
    proved: Proved,
}

fn main() {
    let s = tables();
    let empty = started(&s);
    let full = filled(&s, &empty);
    println!("{:<44} {:>12} {:>12} {:>8}", "call", "proved ns", "here ns", "ratio");
    measure("port up", &down_port(&empty), &Call::Up { port: PORT });
    measure("port down", &empty, &Call::Down { port: PORT });
    measure("set delegation", &empty, &Call::SetDelegation { port: PORT, amount: 4000 });
    for (pool, state) in [("empty", &empty), ("full", &full)] {
        host_calls(&s, pool, state);
        queries(&s, pool, state);
        replications(&s, pool, state);
        reallocations(&s, pool, state);
    }
    measure("149, 16 flows", &with_flows(&s, &empty, 16), &message(&s, 149, 2, &[]));
}

fn host_calls(s: &Start, pool: &str, state: &State) {
    for (name, row) in [("first", 0), ("last", 255)] {
        let join = Call::Join { port: PORT, flow: s.channels[row].flow, space: SPACE };
        measure(&format!("join, {name} of 256 channels, {pool} pool"), state, &join);
        let joined = after(state, &[join]);
        let leave = Call::Leave { port: PORT, flow: s.channels[row].flow };
        measure(&format!("leave, {name} of 256 channels, {pool} pool"), &joined, &leave);
    }
}

fn queries(s: &Start, pool: &str, state: &State) {
    measure(&format!("148, {pool} pool"), state, &message(s, 148, 2, &[]));
    measure(&format!("149, {} flows, {pool} pool", state.card.flows(PORT).len()), state, &message(s, 149, 2, &[]));
}

fn replications(s: &Start, pool: &str, state: &State) {
    for commands in [1, 10, 100] {
        let call = message_of(add_and_delete(s, commands));
        measure(&format!("144, {commands} commands, {pool} pool"), state, &call);
    }
}

fn reallocations(s: &Start, pool: &str, state: &State) {
    let amounts = [0, 0x16, 0, 8, 0x7F, 0, 0, 0, 0x7F, 0, 0, 0];
    measure(&format!("146, {pool} pool"), state, &message(s, 146, 0, &amounts));
    let lower = after(state, &[Call::SetDelegation { port: PORT, amount: 200_000_000 }]);
    let ask = Call::Ask { port: PORT, required: 0x7F00_0000, preferred: 0x7F00_0001, space: SPACE };
    measure(&format!("ask, {pool} pool"), &lower, &ask);
    let asked = after(&lower, &[ask]);
    let granted = [0, 0x15, 0, 4, 0x7F, 0, 0, 0];
    measure(&format!("147, {pool} pool"), &asked, &message(s, 147, 3, &granted));
}

/// Prints the lower quartile of both over many rounds, taken in turn.
fn measure(name: &str, state: &State, call: &Call) {
    check(name, state, call);
    let mut buffer = vec![0; SPACE];
    let (mut proved, mut here) = (Vec::new(), Vec::new());
    for _ in 0..ROUNDS {
        proved.push(round(&state.proved, |card| on_proved(card, call, &mut buffer).length));
        here.push(round(&state.card, |card| on_card(card, call, &mut buffer).length));
    }
    let (proved, here) = (lower_quartile(proved), lower_quartile(here));
    println!("{name:<44} {proved:>12.0} {here:>12.0} {:>8.2}", proved / here);
}

/// Nanoseconds per call: fresh copies of the card get one call each.
fn round<T: Clone>(state: &T, mut call: impl FnMut(&mut T) -> usize) -> f64 {
    let mut copies = vec![state.clone(); COPIES];
    let begin = Instant::now();
    for card in &mut copies {
        black_box(call(black_box(card)));
    }
    begin.elapsed().as_nanos() as f64 / COPIES as f64
}

fn lower_quartile(mut times: Vec<f64>) -> f64 {
    times.sort_by(f64::total_cmp);
    times[times.len() / 4]
}

/// Both must do the call, with the same reply.
fn check(name: &str, state: &State, call: &Call) {
    let mut state = state.clone();
    let (mut here, mut there) = (vec![0; SPACE], vec![0; SPACE]);
    let answer = on_card(&mut state.card, call, &mut here);
    let proved = on_proved(&mut state.proved, call, &mut there);
    assert_eq!((answer.number as u8, answer.length), (proved.number, proved.length), "{name}");
    assert_eq!(proved.number, 0, "{name}");
    assert!(here == there, "{name}: replies");
    assert!(answer.length < 7 || here[6] >> 4 != 4, "{name}: a Failure");
}

fn after(state: &State, calls: &[Call]) -> State {
    let mut state = state.clone();
    let mut buffer = vec![0; SPACE];
    for call in calls {
        assert_eq!(on_card(&mut state.card, call, &mut buffer).number as u8, 0, "{call:?}");
        assert_eq!(on_proved(&mut state.proved, call, &mut buffer).number, 0, "{call:?}");
    }
    state
}

fn started(s: &Start) -> State {
    let card = Card::start(s).expect("good tables");
    let proved = Proved::start(s).unwrap_or_else(|number| panic!("number {number}"));
    let calls: Vec<Call> = (0..s.ports).flat_map(|port| [Call::Up { port }, Call::SetDelegation { port, amount: u32::MAX }]).collect();
    after(&State { card, proved }, &calls)
}

fn down_port(state: &State) -> State {
    after(state, &[Call::Down { port: PORT }])
}

/// 256 extras, and four flows on every other port but three on the measured one.
fn filled(s: &Start, empty: &State) -> State {
    let flows = |port| match port {
        0..=20 => 16,
        21 => 8,
        PORT => 3,
        _ => 4,
    };
    let calls: Vec<Call> = (0..s.ports).map(|port| add_rows(s, port, flows(port))).collect();
    after(empty, &calls)
}

fn with_flows(s: &Start, empty: &State, flows: usize) -> State {
    after(empty, &[add_rows(s, PORT, flows)])
}

/// Adds flows of rows from 100 on, which no measured call names.
fn add_rows(s: &Start, port: usize, flows: usize) -> Call {
    message_of(add_all(s, port, (100..100 + flows).map(|row| s.channels[row].flow)))
}

/// Add and Delete of one channel in turn.
fn add_and_delete(s: &Start, commands: usize) -> Vec<u8> {
    let flows = (0..commands).map(|i| s.channels[i / 2 % 100].flow);
    let mut octets = add_all(s, PORT, flows);
    let size = (octets.len() - 16 - target(s).len()) / commands;
    for command in (1..commands).step_by(2) {
        octets[16 + target(s).len() + command * size + 4] = 2;
    }
    octets
}

fn message(s: &Start, kind: u8, result: u8, tlvs: &[u8]) -> Call {
    let transaction = if kind == 147 { 1 } else { 9 };
    let mut octets = vec![0x88, 0x0C, 0, 0, 0x32, kind, result << 4, 0, 0, 0, 0, transaction, 0x80, 0x01, 0, 0];
    octets.extend(target(s));
    octets.extend(tlvs);
    set_lengths(&mut octets);
    message_of(octets)
}

fn message_of(octets: Vec<u8>) -> Call {
    Call::Message { octets, port: PORT, space: SPACE }
}

fn target(s: &Start) -> Vec<u8> {
    compare::reply::target(s.ids[PORT].id().expect("a good id"))
}

/// 64 ports, 256 channels of IPv4 with a source, 128 entries of which the last one is white and matches all.
fn tables() -> Start {
    let mut entries = vec![entry(2, 32, 0xEFFF_FFFF); 128];
    entries[127] = entry(1, 4, 0xE000_0000);
    Start {
        ids: (0..64).map(|i| HostId::new(format!("access-node-1 eth 1/1/{i}").as_bytes())).collect(),
        ports: 64,
        channels: (0..256).map(channel).collect(),
        channel_count: 256,
        entries,
        entry_count: 128,
        white_cac: true,
        add_cac: true,
        first: 1,
    }
}

fn entry(list: u32, group_bits: u32, group: u32) -> HostEntry {
    HostEntry { family: 1, list, group_bits, source_bits: 0, group: [group, 0, 0, 0], source: [0; 4] }
}

fn channel(i: u32) -> HostChannel {
    let flow = HostFlow { family: 1, sourced: 1, group: [0xE9FC_0000 + i, 0, 0, 0], source: [0xC000_0201, 0, 0, 0] };
    HostChannel { flow, rate: 1000 }
}
