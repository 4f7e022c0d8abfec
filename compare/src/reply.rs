//! What the card writes.
use crate::flow::{octets, Flow};
use crate::tlv::{padded, ALLOCATION, CIRCUIT_ID, COMMAND, FLOW, REQUEST, SEQUENCE, STATUS, TARGET};

pub const SUCCESS: u8 = 3;
pub const FAILURE: u8 = 4;

/// The header fields that vary.
#[derive(Clone, Copy, Debug)]
pub struct Header {
    pub kind: u8,
    pub result: u8,
    pub code: u16,
    pub partition: u8,
    pub transaction: u32,
}

/// A whole message: header, then the TLVs.
pub fn message(header: &Header, tlvs: &[Vec<u8>]) -> Vec<u8> {
    let body = tlvs.concat();
    let length = (12 + body.len()) as u16;
    let mut octets = vec![0x88, 0x0C];
    octets.extend(length.to_be_bytes());
    octets.extend([0x32, header.kind]);
    octets.extend(((header.result as u16) << 12 | header.code).to_be_bytes());
    octets.extend(((header.partition as u32) << 24 | header.transaction).to_be_bytes());
    octets.extend(0x8001u16.to_be_bytes());
    octets.extend(length.to_be_bytes());
    octets.extend(body);
    octets
}

pub fn tlv(kind: u16, content: &[u8]) -> Vec<u8> {
    let mut octets = bare(kind, content.len());
    octets.extend(content);
    octets.resize(4 + padded(content.len()), 0);
    octets
}

/// A header alone.
pub fn bare(kind: u16, length: usize) -> Vec<u8> {
    [kind.to_be_bytes(), (length as u16).to_be_bytes()].concat()
}

/// A TLV as received, the padding after it zero.
pub fn copy(whole: &[u8]) -> Vec<u8> {
    let mut octets = whole.to_vec();
    octets.resize(padded(whole.len()), 0);
    octets
}

pub fn target(id: &[u8]) -> Vec<u8> {
    tlv(TARGET, &tlv(CIRCUIT_ID, id))
}

pub fn allocation(amount: u32) -> Vec<u8> {
    tlv(ALLOCATION, &amount.to_be_bytes())
}

pub fn request(required: u32, preferred: u32) -> Vec<u8> {
    tlv(REQUEST, &[required.to_be_bytes(), preferred.to_be_bytes()].concat())
}

pub fn sequence(number: u32) -> Vec<u8> {
    tlv(SEQUENCE, &number.to_be_bytes())
}

pub fn status(kind: u8, enclosed: &[Vec<u8>]) -> Vec<u8> {
    tlv(STATUS, &[&[0, kind, 0, 0], enclosed.concat().as_slice()].concat())
}

pub fn add_command(flow: &Flow) -> Vec<u8> {
    tlv(COMMAND, &[&[1, 0, 0, 0], multicast_flow(flow).as_slice()].concat())
}

pub fn multicast_flow(flow: &Flow) -> Vec<u8> {
    let sources = flow.source.is_some() as u8;
    let family = crate::flow::family(flow.group) as u8;
    let mut content = vec![1 + sources, family, 0, sources];
    content.extend(octets(flow.group));
    content.extend(flow.source.map(octets).unwrap_or_default());
    tlv(FLOW, &content)
}
