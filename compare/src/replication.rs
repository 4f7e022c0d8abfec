//! Multicast Replication Control (144): commands in order, up to the first failure.
use crate::card::{done, Active, Card, Number, Outcome};
use crate::flow::Flow;
use crate::message::{generic_failure, Body, Fault, GENERIC_RESPONSE};
use crate::reply::{self, Header, SUCCESS};
use crate::tlv::{self, u16_at, Tlv, COMMAND, FLOW};
use std::net::IpAddr;

const ADD: u8 = 1;
const DELETE: u8 = 2;
const DELETE_ALL: u8 = 3;

impl Card {
    pub(crate) fn replication(&mut self, header: &Header, body: &Body) -> Outcome {
        let commands = body.tlvs.iter().filter(|t| t.kind == COMMAND);
        for (number, command) in (1..).zip(commands) {
            if let Err(code) = self.command(body.port, command) {
                let fault = self.failed_command(body.port, number, command, code);
                return (Number::Done, generic_failure(header, fault));
            }
        }
        match header.result {
            1 => done(),
            _ => (Number::Done, acknowledged(header)),
        }
    }

    fn failed_command(&self, port: usize, number: u32, command: &Tlv, code: u16) -> Fault {
        let target = reply::target(&self.ports[port].id);
        Fault { code, enclosed: vec![target, reply::sequence(number), reply::copy(command.whole)] }
    }

    fn command(&mut self, port: usize, command: &Tlv) -> Result<(), u16> {
        let (code, accounting) = (command.content[0], command.content[1]);
        let flows: Vec<Tlv> = tlv::children(command).filter(|c| c.kind == FLOW).collect();
        let called_for = match code {
            ADD | DELETE => 1,
            DELETE_ALL => 0,
            _ => return Err(0x64),
        };
        if accounting > 1 || flows.len() != called_for {
            return Err(0x64);
        }
        match code {
            ADD => self.add(port, read_flow(flows[0].content)?, accounting),
            DELETE => self.delete(port, &read_flow(flows[0].content)?),
            _ => {
                self.ports[port].flows.clear();
                Ok(())
            }
        }
    }

    fn add(&mut self, port: usize, flow: Flow, accounting: u8) -> Result<(), u16> {
        let rate = *self.channels.get(&flow).ok_or(0x66u16)?;
        if let Some(active) = self.ports[port].flows.get_mut(&flow) {
            active.accounting = accounting;
            return Ok(());
        }
        if !self.has_room(port) || (self.add_cac && !self.ports[port].fits(rate)) {
            return Err(0x13);
        }
        let active = Active { rate, charged: self.add_cac, accounting };
        self.ports[port].flows.insert(flow, active);
        Ok(())
    }

    fn delete(&mut self, port: usize, flow: &Flow) -> Result<(), u16> {
        self.ports[port].flows.remove(flow).map(|_| ()).ok_or(0x66)
    }
}

fn acknowledged(header: &Header) -> Vec<u8> {
    reply::message(&Header { kind: GENERIC_RESPONSE, result: SUCCESS, ..*header }, &[])
}

/// The flow in a Multicast-Flow: fields 0x55, address 0x65.
fn read_flow(content: &[u8]) -> Result<Flow, u16> {
    let sources = read_fields(content).ok_or(0x55u16)?;
    let width = (content.len() - 4) / (1 + sources);
    let group = read_address(&content[4..4 + width]);
    let source = (sources == 1).then(|| read_address(&content[4 + width..]));
    Flow::checked(group, source).ok_or(0x65)
}

/// How many sources follow the group, if type, family, count and length are right.
fn read_fields(content: &[u8]) -> Option<usize> {
    if content.len() < 4 {
        return None;
    }
    let sources = match (content[0], u16_at(content, 2)) {
        (1, 0) => 0,
        (2, 1) => 1,
        _ => return None,
    };
    let width = match content[1] {
        1 => 4,
        2 => 16,
        _ => return None,
    };
    (content.len() == 4 + width * (sources + 1)).then_some(sources)
}

fn read_address(octets: &[u8]) -> IpAddr {
    match <[u8; 4]>::try_from(octets) {
        Ok(v4) => IpAddr::from(v4),
        Err(_) => IpAddr::from(<[u8; 16]>::try_from(octets).expect("4 or 16 octets")),
    }
}
