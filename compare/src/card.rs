//! The card: ports, flows, delegations, and the host's calls.
use crate::flow::Flow;
use crate::host::{HostFlow, Start, MAX_CHANNELS, MAX_ENTRIES, MAX_PORTS};
use crate::lists::{decide, Entry, List};
use crate::reply::{self, Header};
use std::collections::{BTreeMap, BTreeSet};
use std::rc::Rc;

pub const REPLY_ROOM: usize = 4608;
pub const LAST_TRANSACTION: u32 = 16_777_215;
const MAX_RATE: u32 = 10_000_000;
const OWN_FLOWS: usize = 4;
const MAX_FLOWS: usize = 16;
const MAX_EXTRAS: usize = 256;
pub const ADMISSION_CONTROL: u8 = 145;
pub const REALLOCATION: u8 = 146;

/// What comes back from a call.
#[derive(Clone, Copy, Debug, PartialEq, Eq)]
pub enum Number {
    Done = 0,
    Active = 1,
    Grey = 2,
    Ignored = 3,
    RateDoesNotFit = 4,
    NoRoom = 5,
    PortDown = 6,
    NoSuchPort = 7,
    BadFlow = 8,
    NotListed = 9,
    NotActive = 10,
    UnderCommitted = 11,
    FiguresWrong = 12,
    SmallBuffer = 13,
    BadStart = 14,
    Unusable = 15,
    NotAsked = 16,
}

#[derive(Clone, Copy, Debug, PartialEq, Eq)]
pub struct Answer {
    pub number: Number,
    pub length: usize,
}

/// A call's number and the reply that is due, before it stands in the buffer.
pub type Outcome = (Number, Vec<u8>);

#[derive(Clone, Debug)]
pub struct Card {
    pub(crate) ports: Vec<Port>,
    /// Each channel's rate. Copies of a card share what the start fixed.
    pub(crate) channels: Rc<BTreeMap<Flow, u32>>,
    pub(crate) entries: Rc<[Entry]>,
    white_cac: bool,
    pub(crate) add_cac: bool,
    next: u32,
}

#[derive(Clone, Debug)]
pub(crate) struct Port {
    pub id: Vec<u8>,
    pub up: bool,
    pub delegation: u32,
    pub request: Option<Request>,
    pub flows: BTreeMap<Flow, Active>,
}

/// A request for bandwidth that the server has not answered.
#[derive(Clone, Copy, Debug, PartialEq, Eq)]
pub struct Request {
    pub transaction: u32,
    pub required: u32,
    pub preferred: u32,
}

#[derive(Clone, Copy, Debug)]
pub struct Active {
    pub rate: u32,
    pub charged: bool,
    pub accounting: u8,
}

impl Port {
    fn new(id: &[u8]) -> Port {
        Port { id: id.to_vec(), up: false, delegation: 0, request: None, flows: BTreeMap::new() }
    }

    pub fn committed(&self) -> u64 {
        self.flows.values().filter(|f| f.charged).map(|f| f.rate as u64).sum()
    }

    pub fn fits(&self, rate: u32) -> bool {
        self.committed() + rate as u64 <= self.delegation as u64
    }

    fn extras(&self) -> usize {
        self.flows.len().saturating_sub(OWN_FLOWS)
    }
}

impl Card {
    /// A card with its ports down, or none if the tables are bad.
    pub fn start(s: &Start) -> Option<Card> {
        let within = s.ports <= MAX_PORTS && s.channel_count <= MAX_CHANNELS && s.entry_count <= MAX_ENTRIES;
        if !within || !(1..=LAST_TRANSACTION).contains(&s.first) {
            return None;
        }
        Some(Card {
            ports: start_ports(s)?,
            channels: Rc::new(start_channels(s)?),
            entries: s.entries[..s.entry_count].iter().map(Entry::from_host).collect::<Option<_>>()?,
            white_cac: s.white_cac,
            add_cac: s.add_cac,
            next: s.first,
        })
    }

    pub fn port_up(&mut self, port: usize) -> Answer {
        match self.ports.get_mut(port) {
            None => plain(Number::NoSuchPort),
            Some(p) => {
                p.up = true;
                plain(Number::Done)
            }
        }
    }

    pub fn port_down(&mut self, port: usize) -> Answer {
        match self.ports.get_mut(port) {
            None => plain(Number::NoSuchPort),
            Some(p) => {
                p.up = false;
                p.flows.clear();
                p.request = None;
                plain(Number::Done)
            }
        }
    }

    pub fn set_delegation(&mut self, port: usize, amount: u32) -> Answer {
        match self.ports.get_mut(port) {
            None => plain(Number::NoSuchPort),
            Some(p) if (amount as u64) < p.committed() => plain(Number::UnderCommitted),
            Some(p) => {
                p.delegation = amount;
                p.request = None;
                plain(Number::Done)
            }
        }
    }

    pub fn join(&mut self, port: usize, flow: &HostFlow, buffer: &mut [u8]) -> Answer {
        in_buffer(buffer, || self.joined(port, flow).unwrap_or_else(refused))
    }

    fn joined(&mut self, port: usize, flow: &HostFlow) -> Result<Outcome, Number> {
        self.up_port(port)?;
        let flow = Flow::from_host(flow).ok_or(Number::BadFlow)?;
        let rate = *self.channels.get(&flow).ok_or(Number::NotListed)?;
        if self.ports[port].flows.contains_key(&flow) {
            return Err(Number::Active);
        }
        match decide(&self.entries, &flow) {
            None | Some(List::Black) => Err(Number::Ignored),
            Some(List::Grey) => Ok((Number::Grey, self.admission_control(port, &flow))),
            Some(List::White) => self.begin_white(port, flow, rate),
        }
    }

    fn begin_white(&mut self, port: usize, flow: Flow, rate: u32) -> Result<Outcome, Number> {
        if !self.has_room(port) {
            return Err(Number::NoRoom);
        }
        if self.white_cac && !self.ports[port].fits(rate) {
            return Err(Number::RateDoesNotFit);
        }
        let active = Active { rate, charged: self.white_cac, accounting: 0 };
        self.ports[port].flows.insert(flow, active);
        Ok(done())
    }

    fn admission_control(&mut self, port: usize, flow: &Flow) -> Vec<u8> {
        let header = self.begin_message(ADMISSION_CONTROL);
        reply::message(&header, &[reply::target(&self.ports[port].id), reply::add_command(flow)])
    }

    pub fn leave(&mut self, port: usize, flow: &HostFlow) -> Answer {
        plain(self.left(port, flow).err().unwrap_or(Number::Done))
    }

    fn left(&mut self, port: usize, flow: &HostFlow) -> Result<(), Number> {
        let port = self.up_port(port)?;
        let flow = Flow::from_host(flow).ok_or(Number::BadFlow)?;
        port.flows.remove(&flow).map(|_| ()).ok_or(Number::NotActive)
    }

    pub fn ask(&mut self, port: usize, required: u32, preferred: u32, buffer: &mut [u8]) -> Answer {
        in_buffer(buffer, || self.asked(port, required, preferred).unwrap_or_else(refused))
    }

    fn asked(&mut self, port: usize, required: u32, preferred: u32) -> Result<Outcome, Number> {
        let p = self.up_port(port)?;
        let figures_right = p.delegation < required && required <= preferred;
        if !figures_right || p.request.is_some() {
            return Err(Number::FiguresWrong);
        }
        let header = self.begin_message(REALLOCATION);
        let p = &mut self.ports[port];
        p.request = Some(Request { transaction: header.transaction, required, preferred });
        let octets = reply::message(&header, &[reply::target(&p.id), reply::request(required, preferred)]);
        Ok((Number::Done, octets))
    }

    fn up_port(&mut self, port: usize) -> Result<&mut Port, Number> {
        match self.ports.get_mut(port) {
            None => Err(Number::NoSuchPort),
            Some(p) if !p.up => Err(Number::PortDown),
            Some(p) => Ok(p),
        }
    }

    /// The header of a message that the card begins: it takes the next transaction number.
    fn begin_message(&mut self, kind: u8) -> Header {
        let transaction = self.next;
        self.next = if transaction == LAST_TRANSACTION { 1 } else { transaction + 1 };
        Header { kind, result: 0, code: 0, partition: 0, transaction }
    }

    pub(crate) fn has_room(&self, port: usize) -> bool {
        let flows = self.ports[port].flows.len();
        flows < OWN_FLOWS || (flows < MAX_FLOWS && self.extras() < MAX_EXTRAS)
    }
}

/// What a host may read. Of a number that is no port's: down, 0, no flows.
impl Card {
    pub fn port_count(&self) -> usize {
        self.ports.len()
    }

    pub fn is_up(&self, port: usize) -> bool {
        self.ports.get(port).is_some_and(|p| p.up)
    }

    pub fn delegation(&self, port: usize) -> u32 {
        self.ports.get(port).map_or(0, |p| p.delegation)
    }

    pub fn committed(&self, port: usize) -> u64 {
        self.ports.get(port).map_or(0, Port::committed)
    }

    pub fn flows(&self, port: usize) -> Vec<Flow> {
        self.ports.get(port).map_or(Vec::new(), |p| p.flows.keys().copied().collect())
    }

    pub fn is_active(&self, port: usize, flow: &HostFlow) -> bool {
        let Some(flow) = Flow::from_host(flow) else { return false };
        self.ports.get(port).is_some_and(|p| p.flows.contains_key(&flow))
    }

    /// Each flow's accounting and whether it is charged, in the order of `flows`.
    pub fn marks(&self, port: usize) -> Vec<(u8, bool)> {
        self.ports.get(port).map_or(Vec::new(), |p| p.flows.values().map(|f| (f.accounting, f.charged)).collect())
    }

    pub fn request(&self, port: usize) -> Option<Request> {
        self.ports.get(port).and_then(|p| p.request)
    }

    pub fn extras(&self) -> usize {
        self.ports.iter().map(Port::extras).sum()
    }

    pub fn next_transaction(&self) -> u32 {
        self.next
    }
}

fn start_ports(s: &Start) -> Option<Vec<Port>> {
    let mut seen = BTreeSet::new();
    let mut ports = Vec::new();
    for row in &s.ids[..s.ports] {
        let id = row.id()?;
        if !seen.insert(id) {
            return None;
        }
        ports.push(Port::new(id));
    }
    Some(ports)
}

fn start_channels(s: &Start) -> Option<BTreeMap<Flow, u32>> {
    let mut channels = BTreeMap::new();
    for row in &s.channels[..s.channel_count] {
        let flow = Flow::from_host(&row.flow)?;
        let good = (1..=MAX_RATE).contains(&row.rate);
        if !good || channels.insert(flow, row.rate).is_some() {
            return None;
        }
    }
    Some(channels)
}

/// Done, with no reply due.
pub(crate) fn done() -> Outcome {
    (Number::Done, Vec::new())
}

pub(crate) fn refused(number: Number) -> Outcome {
    (number, Vec::new())
}

fn plain(number: Number) -> Answer {
    Answer { number, length: 0 }
}

/// Runs a call that may reply, if the buffer is large enough, and puts its reply into the buffer.
pub(crate) fn in_buffer(buffer: &mut [u8], call: impl FnOnce() -> Outcome) -> Answer {
    if buffer.len() < REPLY_ROOM {
        return plain(Number::SmallBuffer);
    }
    let (number, octets) = call();
    buffer[..octets.len()].copy_from_slice(&octets);
    Answer { number, length: octets.len() }
}
