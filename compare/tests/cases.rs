//! The worked cases (CARD.md), on both cards at once.
use compare::calls::{add_all, Call};
use compare::flow::Flow;
use compare::host::{HostChannel, HostEntry, HostFlow, HostId, Start};
use compare::messages::set_lengths;
use compare::pair::{self, hex, Pair};
use std::net::IpAddr;

fn flow(i: u32) -> HostFlow {
    HostFlow { family: 1, sourced: 1, group: [0xE9FC_0000 + i, 0, 0, 0], source: [0xC000_0201, 0, 0, 0] }
}

/// Channels at the rates given, all white or all grey; both switches on.
fn tables(ports: usize, list: u32, rates: &[u32]) -> Start {
    let entry = HostEntry { family: 1, list, group_bits: 4, source_bits: 0, group: [0xE000_0000, 0, 0, 0], source: [0; 4] };
    Start {
        ids: (1..=ports).map(|i| HostId::new(format!("p{i}").as_bytes())).collect(),
        ports,
        channels: rates.iter().zip(0..).map(|(&rate, i)| HostChannel { flow: flow(i), rate }).collect(),
        channel_count: rates.len(),
        entries: vec![entry],
        entry_count: 1,
        white_cac: true,
        add_cac: true,
        first: 16_777_215,
    }
}

fn up(s: &Start, delegation: u32) -> Pair {
    let mut pair = pair::start(s).expect("no difference").expect("a node");
    for port in 0..s.ports {
        does(&mut pair, &Call::Up { port });
        does(&mut pair, &Call::SetDelegation { port, amount: delegation });
    }
    pair
}

fn number(pair: &mut Pair, call: &Call) -> u8 {
    pair.perform(call).expect("no difference").number
}

fn does(pair: &mut Pair, call: &Call) {
    assert_eq!(number(pair, call), 0, "{call:?}");
}

fn join(port: usize, channel: u32) -> Call {
    join_flow(port, flow(channel))
}

fn join_flow(port: usize, flow: HostFlow) -> Call {
    Call::Join { port, flow, space: 4608 }
}

fn message(octets: Vec<u8>) -> Call {
    Call::Message { octets, port: 0, space: 4608 }
}

/// Both cards answer the message with this number and this reply, and keep what they hold.
fn kept(pair: &mut Pair, text: &str, number: u8, reply: &str) {
    let before = pair.proved.record();
    let seen = pair.perform(&message(of_hex(text))).expect("no difference");
    assert_eq!((seen.number, hex(&seen.reply)), (number, reply.into()), "{text}");
    assert!(before == pair.proved.record(), "{text}: the card changed");
    pair.compare_all().expect("no difference");
}

fn of_hex(text: &str) -> Vec<u8> {
    (0..text.len()).step_by(2).map(|i| u8::from_str_radix(&text[i..i + 2], 16).expect("hex")).collect()
}

#[test]
fn rate_fits_exactly_or_not() {
    let mut pair = up(&tables(1, 1, &[3000, 1000, 1001]), 4000);
    does(&mut pair, &join(0, 0));
    assert_eq!(number(&mut pair, &join(0, 2)), 4);
    does(&mut pair, &join(0, 1));
}

#[test]
fn extras() {
    let s = tables(24, 1, &[1; 20]);
    let mut pair = up(&s, 100);
    for port in 0..21 {
        does(&mut pair, &message(add_all(&s, port, (0..16).map(flow))));
    }
    does(&mut pair, &message(add_all(&s, 21, (0..7).map(flow))));
    does(&mut pair, &message(add_all(&s, 22, (0..3).map(flow))));
    does(&mut pair, &message(add_all(&s, 23, (0..4).map(flow))));
    assert_eq!(pair.card.extras(), 255);
    assert_eq!(number(&mut pair, &join(0, 16)), 5, "a 17th");
    does(&mut pair, &join(23, 4));
    assert_eq!(pair.card.extras(), 256);
    does(&mut pair, &join(22, 3));
    assert_eq!(number(&mut pair, &join(22, 4)), 5, "a fifth");
}

#[test]
fn reallocation() {
    let cases = [
        (4000, 3000, 0x3000, 3500),
        (3400, 3000, 0x4000, 6000),
        (6000, 6000, 0x3000, 6000),
        (7000, 8000, 0x4067, 6000),
        (6001, 6001, 0x3000, 6000),
    ];
    for (required, preferred, field, amount) in cases {
        let mut pair = up(&tables(1, 1, &[3500]), 6000);
        does(&mut pair, &join(0, 0));
        let mut octets = of_hex("880C0000329200000000000780010000100000080001000270310000");
        octets.extend(of_hex(&format!("00160008{required:08X}{preferred:08X}")));
        set_lengths(&mut octets);
        let reply = pair.perform(&message(octets)).expect("no difference").reply;
        let expected = format!("880C00203293{field:04X}000000078001002010000008000100027031000000150004{amount:08X}");
        assert_eq!(hex(&reply), expected);
        assert_eq!(pair.card.delegation(0), amount);
    }
}

#[test]
fn transaction_after_the_last_is_1() {
    let mut pair = up(&tables(1, 3, &[1]), 0);
    assert_eq!(pair.card.next_transaction(), 16_777_215);
    assert_eq!(number(&mut pair, &join(0, 0)), 2);
    assert_eq!(pair.card.next_transaction(), 1);
}

#[test]
fn octet_program() {
    let mut pair = up(&tables(1, 1, &[1]), 4000);
    let seen = pair.perform(&message(of_hex("880C0018329420000000000780010018100000080001000270310000"))).expect("no difference");
    assert_eq!((seen.number, seen.reply.len()), (0, 36));
    assert_eq!(hex(&seen.reply), "880C00203294300000000007800100201000000800010002703100000015000400000FA0");
}

/// Req 06: 144, 146, 148 and 149 with transaction 0 are refused with 0x2, after the check of Result and before 0x53.
#[test]
fn transaction_0_is_refused() {
    let mut pair = up(&tables(3, 1, &[1000, 500]), 4000);
    does(&mut pair, &join(0, 0));
    let refused_148 = "880C0014325B400200000000800100140106000400940000";
    kept(&mut pair, "880C0018329420000000000080010018100000080001000270310000", 0, refused_148);
    kept(&mut pair, "880C001932942000000000008001001910000008000100027031000000", 0, refused_148);
    let delete_all = "880C00203290100009000000800100201000000800010002703100000011000403000000";
    kept(&mut pair, delete_all, 0, "880C0014325B400209000000800100140106000400900000");
    let request = "880C00243292000000000000800100241000000800010002703100000016000800000FA000000FA0";
    kept(&mut pair, request, 0, "880C0014325B400200000000800100140106000400920000");
    let flow_query = "880C0018329520000000000080010018100000080001000270310000";
    kept(&mut pair, flow_query, 0, "880C0014325B400200000000800100140106000400950000");
    assert_eq!(pair.card.flows(0).len(), 1, "the flow goes on");
}

/// Req 06 leaves the notice, an answer (147) and types that are not handled as they were.
#[test]
fn transaction_0_elsewhere() {
    let mut pair = up(&tables(3, 1, &[1000, 500]), 4000);
    kept(&mut pair, "880C000C32900000000000008001000C", 0, "");
    let transfer = "880C00203293300000000000800100201000000800010002703100000015000400000001";
    kept(&mut pair, transfer, 16, "");
    does(&mut pair, &Call::Ask { port: 0, required: 4001, preferred: 5000, space: 4608 });
    kept(&mut pair, "880C00203293300000000000800100201000000800010002703100000015000400001388", 16, "");
    assert_eq!(pair.card.request(0).map(|open| open.transaction), Some(16_777_215), "the request stays open");
    kept(&mut pair, "880C0010325D0000000000008001001000240000", 0, "880C0014325B4051000000008001001401060004005D0000");
}

/// A list entry: list, group prefix, source prefix.
type Row = (u32, &'static str, &'static str);

const WHITE: u32 = 1;
const BLACK: u32 = 2;
const GREY: u32 = 3;
const TWO_LISTS: [(u32, u32); 6] = [(WHITE, GREY), (WHITE, BLACK), (GREY, WHITE), (GREY, BLACK), (BLACK, WHITE), (BLACK, GREY)];
const ALL: &str = "0.0.0.0/0";
const ALL6: &str = "::/0";

fn address(text: &str) -> IpAddr {
    text.parse().expect("an address")
}

fn flow_from(group: &str, source: Option<&str>) -> HostFlow {
    Flow::checked(address(group), source.map(address)).expect("a good flow").to_host()
}

/// A, B1, B2 and V of the examples of Req 02, and V's group without a source.
fn example_flows() -> [HostFlow; 5] {
    let b = |source| flow_from("239.1.1.2", Some(source));
    [flow_from("239.1.1.1", None), b("192.0.2.1"), b("192.0.2.2"), flow_from("ff3e::1", Some("2001:db8::1")), flow_from("ff3e::1", None)]
}

fn host_entry(&(list, group, source): &Row) -> HostEntry {
    let (group, group_bits) = prefix(group);
    let (source, source_bits) = prefix(source);
    assert_eq!(group.is_ipv4(), source.is_ipv4());
    let words = |a: IpAddr| match a {
        IpAddr::V4(v4) => [u32::from(v4), 0, 0, 0],
        IpAddr::V6(v6) => [96, 64, 32, 0].map(|shift| (u128::from(v6) >> shift) as u32),
    };
    let family = if group.is_ipv4() { 1 } else { 2 };
    HostEntry { family, list, group_bits, source_bits, group: words(group), source: words(source) }
}

fn prefix(text: &str) -> (IpAddr, u32) {
    let (before, bits) = text.split_once('/').expect("a length");
    (address(before), bits.parse().expect("a length"))
}

/// Two ports, and the example flows at rate 1000, with this list.
fn listed(rows: &[Row]) -> Start {
    let mut s = tables(2, WHITE, &[]);
    s.channels = example_flows().map(|flow| HostChannel { flow, rate: 1000 }).to_vec();
    s.channel_count = s.channels.len();
    s.entries = rows.iter().map(host_entry).collect();
    s.entry_count = rows.len();
    s
}

/// A join's number if this list decides.
fn joined(list: u32) -> u8 {
    match list {
        WHITE => 0,
        GREY => 2,
        _ => 3,
    }
}

/// What joins of the example flows give, each on cards of its own, with the rows in both orders.
fn decides(rows: &[Row], numbers: [u8; 5]) {
    let backwards: Vec<Row> = rows.iter().rev().copied().collect();
    for rows in [rows, &backwards] {
        let s = listed(rows);
        let seen = example_flows().map(|flow| number(&mut up(&s, 4000), &join_flow(0, flow)));
        assert_eq!(seen, numbers, "{rows:?}");
    }
}

/// R02.E1: a white entry for one source, a grey one for the whole group.
#[test]
fn two_sources_one_group() {
    let rows = [(WHITE, "239.1.1.2/32", "192.0.2.1/32"), (GREY, "239.1.1.2/32", ALL)];
    decides(&rows, [3, 0, 2, 3, 3]);
    let mut pair = up(&Start { first: 1, ..listed(&rows) }, 4000);
    let [_, b1, b2, ..] = example_flows();
    does(&mut pair, &join_flow(0, b1));
    let seen = pair.perform(&join_flow(0, b2)).expect("no difference");
    let admission = "880C00303291000000000001800100301000000800010002703100000011001401000000";
    assert_eq!((seen.number, hex(&seen.reply)), (2, format!("{admission}0019000C02010001EF010102C0000202")));
}

/// R02.E2: the group prefix first, then the source prefix, and only then the list.
#[test]
fn group_then_source_then_list() {
    decides(&[(WHITE, "239.1.1.2/24", "192.0.2.1/32"), (BLACK, "239.1.1.2/32", ALL)], [3, 3, 3, 3, 3]);
    decides(&[(WHITE, "239.1.1.2/32", "192.0.2.1/32"), (BLACK, "239.1.1.2/32", ALL)], [3, 0, 3, 3, 3]);
    decides(&[(WHITE, "239.1.1.2/32", "192.0.2.1/24"), (GREY, "239.1.1.2/32", "192.0.2.1/24")], [3, 2, 2, 3, 3]);
}

#[test]
fn longer_source_decides_for_each_two_lists() {
    for (longer, shorter) in TWO_LISTS {
        let (first, other) = (joined(longer), joined(shorter));
        for (long, short) in [("192.0.2.1/32", ALL), ("192.0.2.1/32", "192.0.2.1/24"), ("192.0.2.1/31", "192.0.2.1/30")] {
            decides(&[(longer, "239.1.1.2/32", long), (shorter, "239.1.1.2/32", short)], [3, first, other, 3, 3]);
        }
        let rows = [(longer, "239.1.1.2/31", "192.0.2.1/1"), (shorter, "239.1.1.2/31", ALL)];
        decides(&rows, [3, first, first, 3, 3]);
        let rows = [(longer, "ff3e::1/128", "2001:db8::1/128"), (shorter, "ff3e::1/128", "2001:db8::1/127")];
        decides(&rows, [3, 3, 3, first, 3]);
        decides(&[(longer, "ff3e::1/8", "2001:db8::1/1"), (shorter, "ff3e::1/8", ALL6)], [3, 3, 3, first, other]);
    }
}

/// Not the source first, nor the sum of both lengths.
#[test]
fn longer_group_decides_whatever_the_source() {
    for (longer, shorter) in TWO_LISTS {
        let (first, other) = (joined(longer), joined(shorter));
        decides(&[(longer, "239.1.1.2/32", ALL), (shorter, "239.1.1.2/24", "192.0.2.1/32")], [3, first, first, 3, 3]);
        decides(&[(longer, "239.1.1.2/32", ALL), (shorter, "239.1.1.2/31", "192.0.2.1/32")], [3, first, first, 3, 3]);
        let equal_sums = [(longer, "239.1.1.2/32", "192.0.2.1/31"), (shorter, "239.1.1.2/31", "192.0.2.1/32")];
        decides(&equal_sums, [3, first, 3, 3, 3]);
        decides(&[(longer, "239.1.1.2/32", ALL), (shorter, "239.1.1.2/8", "192.0.2.1/24")], [3, first, first, 3, 3]);
        decides(&[(longer, "ff3e::1/128", ALL6), (shorter, "ff3e::1/127", "2001:db8::1/128")], [3, 3, 3, first, first]);
        decides(&[(longer, "ff3e::1/9", ALL6), (shorter, "ff3e::1/8", ALL6)], [3, 3, 3, first, first]);
        decides(&[(longer, "239.1.1.2/32", "192.0.2.1/32"), (shorter, "239.1.1.2/0", ALL)], [other, first, other, 3, 3]);
    }
}

#[test]
fn third_entry() {
    let rows = [(WHITE, "239.1.1.2/32", "192.0.2.1/32"), (GREY, "239.1.1.2/32", "192.0.2.1/32"), (BLACK, "239.1.1.2/32", "192.0.2.0/24")];
    decides(&rows, [3, 2, 3, 3, 3]);
    let rows = [(BLACK, "239.1.1.2/31", "192.0.2.1/32"), (WHITE, "239.1.1.2/32", "192.0.2.1/24"), (GREY, "239.1.1.2/32", ALL)];
    decides(&rows, [3, 0, 0, 3, 3]);
    let rows = [(WHITE, "239.1.1.2/32", "192.0.2.1/32"), (BLACK, "239.1.1.2/32", "192.0.2.2/32"), (GREY, "239.1.1.0/24", ALL)];
    decides(&rows, [2, 0, 3, 3, 3]);
}

/// No entry with a source prefix matches them, nor one whose source prefix is zeros.
#[test]
fn flows_without_a_source() {
    for source in ["192.0.2.1/32", "192.0.2.1/1", "0.0.0.0/1", "0.0.0.0/32"] {
        decides(&[(WHITE, "239.1.1.1/32", ALL), (BLACK, "239.1.1.1/32", source)], [0, 3, 3, 3, 3]);
        decides(&[(GREY, "239.1.1.1/31", ALL), (WHITE, "239.1.1.1/32", source)], [2, 3, 3, 3, 3]);
        decides(&[(WHITE, "239.1.1.1/32", source)], [3, 3, 3, 3, 3]);
    }
    decides(&[(BLACK, "ff3e::1/128", "2001:db8::1/128"), (WHITE, "ff3e::1/128", ALL6)], [3, 3, 3, 3, 0]);
    decides(&[(BLACK, "ff3e::1/128", "::/1"), (WHITE, "ff3e::1/128", ALL6)], [3, 3, 3, 3, 0]);
    decides(&[(WHITE, "239.1.1.1/32", ALL), (GREY, "239.1.1.1/32", ALL)], [2, 3, 3, 3, 3]);
}

/// No refusal moves: 13, 7, 6, 8, 9, 1 come before the lists; an Add does not look at them.
#[test]
fn refusals_before_the_lists() {
    let rows = [(GREY, "239.1.1.2/32", ALL), (WHITE, "239.1.1.2/32", "192.0.2.1/32"), (BLACK, "239.1.1.2/32", "192.0.2.2/32")];
    let s = listed(&rows);
    let mut pair = up(&s, 4000);
    does(&mut pair, &Call::Down { port: 1 });
    let [_, white, black, ..] = example_flows();
    let unlisted = flow_from("239.1.1.2", Some("192.0.2.3"));
    let bad = HostFlow { source: white.group, ..white };
    for flow in [white, black, unlisted, bad] {
        assert_eq!(number(&mut pair, &Call::Join { port: 2, flow, space: 4607 }), 13);
        assert_eq!(number(&mut pair, &join_flow(2, flow)), 7);
        assert_eq!(number(&mut pair, &join_flow(1, flow)), 6);
    }
    assert_eq!(number(&mut pair, &join_flow(0, bad)), 8);
    assert_eq!(number(&mut pair, &join_flow(0, unlisted)), 9);
    assert_eq!(number(&mut pair, &join_flow(0, black)), 3);
    does(&mut pair, &message(add_all(&s, 0, [white, black].into_iter())));
    assert_eq!(number(&mut pair, &join_flow(0, white)), 1);
    assert_eq!(number(&mut pair, &join_flow(0, black)), 1);
}

/// A join that is white by its source: 5 before 4.
#[test]
fn refusals_after_the_lists() {
    let from = |i: u32| HostFlow { source: [0xC000_0200 + i, 0, 0, 0], ..flow(0) };
    let mut s = tables(1, GREY, &[]);
    s.channels = (1..=18).map(|i| HostChannel { flow: from(i), rate: if i < 17 { 1 } else { 100 } }).collect();
    s.channel_count = 18;
    let rows = [(GREY, "233.252.0.0/32", ALL), (WHITE, "233.252.0.0/32", "192.0.2.0/28"), (WHITE, "233.252.0.0/32", "192.0.2.16/31")];
    s.entries = rows.iter().map(host_entry).collect();
    s.entry_count = rows.len();
    let mut pair = up(&s, 50);
    for i in 1..=15 {
        does(&mut pair, &join_flow(0, from(i)));
    }
    assert_eq!(number(&mut pair, &join_flow(0, from(17))), 4);
    does(&mut pair, &join_flow(0, from(16)));
    assert_eq!(number(&mut pair, &join_flow(0, from(17))), 5);
    assert_eq!(number(&mut pair, &join_flow(0, from(18))), 2, "grey");
}
