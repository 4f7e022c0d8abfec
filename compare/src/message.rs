//! A message from the server, check by check.
use crate::card::{done, in_buffer, refused, Answer, Card, Number, Outcome, REALLOCATION};
use crate::reply::{self, Header, FAILURE, SUCCESS};
use crate::tlv::{self, u16_at, u32_at, Tlv, ALLOCATION, CIRCUIT_ID, COMMAND, REQUEST, TARGET};

pub const GENERIC_RESPONSE: u8 = 91;
pub const REPLICATION: u8 = 144;
pub const TRANSFER: u8 = 147;
pub const DELEGATION_QUERY: u8 = 148;
pub const FLOW_QUERY: u8 = 149;
const MESSAGE_SIZES: std::ops::RangeInclusive<usize> = 16..=4096;

/// A code, and the TLVs that its Status-Info encloses.
pub(crate) struct Fault {
    pub code: u16,
    pub enclosed: Vec<Vec<u8>>,
}

/// A message past the table: its port is up, its named TLVs are sound.
pub(crate) struct Body<'a> {
    pub port: usize,
    pub tlvs: Vec<Tlv<'a>>,
}

impl Body<'_> {
    fn content(&self, kind: u16) -> &[u8] {
        self.tlvs.iter().find(|t| t.kind == kind).map_or(&[], |t| t.content)
    }
}

impl Card {
    pub fn message(&mut self, octets: &[u8], buffer: &mut [u8]) -> Answer {
        in_buffer(buffer, || self.taken(octets))
    }

    fn taken(&mut self, octets: &[u8]) -> Outcome {
        let Some(header) = read_header(octets) else { return refused(Number::Unusable) };
        let is_answer = header.result == SUCCESS || header.result == FAILURE;
        if is_answer != (header.kind == TRANSFER) {
            return refused(Number::Unusable);
        }
        if header.kind == REPLICATION && header.result == 0 {
            return done();
        }
        match self.checked(&header, &octets[16..]) {
            Ok(body) => self.carried_out(&header, &body),
            Err(fault) if header.kind == TRANSFER => refused(transfer_refusal(&fault)),
            Err(fault) => (Number::Done, generic_failure(&header, fault)),
        }
    }

    fn carried_out(&mut self, header: &Header, body: &Body) -> Outcome {
        match header.kind {
            REPLICATION => self.replication(header, body),
            REALLOCATION => self.reallocation(header, body),
            TRANSFER => self.transfer(header, body),
            DELEGATION_QUERY => self.delegation_query(header, body.port),
            _ => self.flow_query(header, body.port),
        }
    }

    /// The table, row by row.
    fn checked<'a>(&self, header: &Header, octets: &'a [u8]) -> Result<Body<'a>, Fault> {
        check_kind_and_result(header)?;
        check_transaction(header)?;
        let levels = if header.kind == TRANSFER { 4 } else { 3 };
        if !tlv::sound(octets, levels) {
            return Err(fault(0x53));
        }
        let tlvs: Vec<Tlv> = tlv::list(octets).collect();
        check_none_missing(header.kind, &tlvs)?;
        check_contents(header.kind, &tlvs)?;
        let port = self.named_port(&tlvs)?;
        Ok(Body { port, tlvs })
    }

    fn named_port(&self, tlvs: &[Tlv]) -> Result<usize, Fault> {
        let id = named_id(tlvs);
        let port = self.ports.iter().position(|p| p.id == id);
        match port {
            None => Err(Fault { code: 0x500, enclosed: vec![reply::target(id)] }),
            Some(p) if !self.ports[p].up => Err(Fault { code: 0x6, enclosed: vec![reply::target(id)] }),
            Some(p) => Ok(p),
        }
    }

    fn reallocation(&mut self, header: &Header, body: &Body) -> Outcome {
        let amounts = body.content(REQUEST);
        let (required, preferred) = (u32_at(amounts, 0), u32_at(amounts, 4));
        let port = &mut self.ports[body.port];
        let committed = port.committed();
        if preferred > required {
            return self.transfer_reply(header, body.port, FAILURE, 0x67);
        }
        if (required as u64) < committed {
            return self.transfer_reply(header, body.port, FAILURE, 0);
        }
        port.delegation = preferred.min(port.delegation).max(committed as u32);
        port.request = None;
        self.transfer_reply(header, body.port, SUCCESS, 0)
    }

    fn transfer_reply(&self, header: &Header, port: usize, result: u8, code: u16) -> Outcome {
        let port = &self.ports[port];
        let header = Header { kind: TRANSFER, result, code, ..*header };
        let tlvs = [reply::target(&port.id), reply::allocation(port.delegation)];
        (Number::Done, reply::message(&header, &tlvs))
    }

    fn transfer(&mut self, header: &Header, body: &Body) -> Outcome {
        let amount = u32_at(body.content(ALLOCATION), 0);
        let port = &mut self.ports[body.port];
        let Some(open) = port.request.filter(|r| r.transaction == header.transaction) else {
            return refused(Number::NotAsked);
        };
        if header.result == SUCCESS {
            if !(open.required..=open.preferred).contains(&amount) {
                return refused(Number::NotAsked);
            }
            port.delegation = amount;
        }
        port.request = None;
        done()
    }

    fn delegation_query(&self, header: &Header, port: usize) -> Outcome {
        let port = &self.ports[port];
        let tlvs = [reply::target(&port.id), reply::allocation(port.delegation)];
        (Number::Done, reply::message(&success(header), &tlvs))
    }

    fn flow_query(&self, header: &Header, port: usize) -> Outcome {
        let port = &self.ports[port];
        let mut tlvs = vec![reply::target(&port.id)];
        tlvs.extend(port.flows.keys().map(reply::multicast_flow));
        (Number::Done, reply::message(&success(header), &tlvs))
    }
}

/// The header, if size, identifier, lengths, version and submessage are right. The code is not read.
fn read_header(octets: &[u8]) -> Option<Header> {
    if !MESSAGE_SIZES.contains(&octets.len()) {
        return None;
    }
    let length = octets.len() - 4;
    let lengths_right = u16_at(octets, 2) as usize == length && u16_at(octets, 14) as usize == length;
    let usable = u16_at(octets, 0) == 0x880C && octets[4] == 0x32 && u16_at(octets, 12) == 0x8001;
    (lengths_right && usable).then(|| Header {
        kind: octets[5],
        result: octets[6] >> 4,
        code: 0,
        partition: octets[8],
        transaction: u32_at(octets, 8) & 0xFF_FFFF,
    })
}

fn check_kind_and_result(header: &Header) -> Result<(), Fault> {
    let right = match header.kind {
        REPLICATION => header.result == 1 || header.result == 2,
        REALLOCATION => header.result == 0,
        TRANSFER => true,
        DELEGATION_QUERY | FLOW_QUERY => header.result == 2,
        _ => return Err(fault(0x51)),
    };
    if right {
        Ok(())
    } else {
        Err(fault(0x2))
    }
}

/// Zero is no transaction of a request. A 147 is an answer: no open request has this number.
fn check_transaction(header: &Header) -> Result<(), Fault> {
    let is_request = matches!(header.kind, REPLICATION | REALLOCATION | DELEGATION_QUERY | FLOW_QUERY);
    if is_request && header.transaction == 0 {
        Err(fault(0x2))
    } else {
        Ok(())
    }
}

/// The TLV types that a message must have, in the row's order.
fn needed(kind: u8) -> &'static [u16] {
    match kind {
        REPLICATION => &[TARGET, COMMAND],
        REALLOCATION => &[TARGET, REQUEST],
        TRANSFER => &[TARGET, ALLOCATION],
        _ => &[TARGET],
    }
}

fn check_none_missing(kind: u8, tlvs: &[Tlv]) -> Result<(), Fault> {
    let missing = needed(kind).iter().filter(|&&k| tlvs.iter().all(|t| t.kind != k));
    let enclosed: Vec<Vec<u8>> = missing.map(|&k| reply::bare(k, 0)).collect();
    if enclosed.is_empty() {
        Ok(())
    } else {
        Err(Fault { code: 0x54, enclosed })
    }
}

fn check_contents(kind: u8, tlvs: &[Tlv]) -> Result<(), Fault> {
    for (i, t) in tlvs.iter().enumerate() {
        let named = t.kind != COMMAND && needed(kind).contains(&t.kind);
        let second = tlvs[..i].iter().any(|earlier| earlier.kind == t.kind);
        if named && (second || !well_shaped(t)) {
            return Err(Fault { code: 0x55, enclosed: vec![reply::copy(t.whole)] });
        }
    }
    Ok(())
}

fn well_shaped(t: &Tlv) -> bool {
    match t.kind {
        TARGET => tlv::children(t).filter(|c| c.kind == CIRCUIT_ID).count() == 1,
        REQUEST => t.content.len() == 8,
        ALLOCATION => t.content.len() == 4,
        _ => true,
    }
}

/// The circuit id in the message's Target.
fn named_id<'a>(tlvs: &[Tlv<'a>]) -> &'a [u8] {
    let target = tlvs.iter().find(|t| t.kind == TARGET);
    let id = target.and_then(|t| tlv::children(t).find(|c| c.kind == CIRCUIT_ID));
    id.map_or(&[], |c| c.content)
}

fn transfer_refusal(fault: &Fault) -> Number {
    match fault.code {
        0x500 | 0x6 => Number::NotAsked,
        _ => Number::Unusable,
    }
}

fn fault(code: u16) -> Fault {
    Fault { code, enclosed: Vec::new() }
}

fn success(header: &Header) -> Header {
    Header { result: SUCCESS, code: 0, ..*header }
}

/// Generic Response, Failure: Status-Info gives the message type and an empty text.
pub(crate) fn generic_failure(header: &Header, fault: Fault) -> Vec<u8> {
    let status = reply::status(header.kind, &fault.enclosed);
    let header = Header { kind: GENERIC_RESPONSE, result: FAILURE, code: fault.code, ..*header };
    reply::message(&header, &[status])
}
