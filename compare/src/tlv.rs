//! TLVs: checking lengths and depth, then stepping over them.

pub const CIRCUIT_ID: u16 = 0x0001;
pub const COMMAND: u16 = 0x0011;
pub const ALLOCATION: u16 = 0x0015;
pub const REQUEST: u16 = 0x0016;
pub const FLOW: u16 = 0x0019;
pub const SEQUENCE: u16 = 0x0022;
pub const STATUS: u16 = 0x0106;
pub const TARGET: u16 = 0x1000;

/// One TLV: `whole` is header and content, without the padding.
#[derive(Clone, Copy, Debug)]
pub struct Tlv<'a> {
    pub kind: u16,
    pub content: &'a [u8],
    pub whole: &'a [u8],
}

pub fn u16_at(octets: &[u8], at: usize) -> u16 {
    u16::from_be_bytes([octets[at], octets[at + 1]])
}

pub fn u32_at(octets: &[u8], at: usize) -> u32 {
    u32::from_be_bytes([octets[at], octets[at + 1], octets[at + 2], octets[at + 3]])
}

pub fn padded(length: usize) -> usize {
    length.div_ceil(4) * 4
}

/// The first TLV and what follows its padding; none if they do not lie inside.
fn split(octets: &[u8]) -> Option<(Tlv<'_>, &[u8])> {
    if octets.len() < 4 {
        return None;
    }
    let length = u16_at(octets, 2) as usize;
    let rest = octets.get(4 + padded(length)..)?;
    let whole = &octets[..4 + length];
    Some((Tlv { kind: u16_at(octets, 0), content: &whole[4..], whole }, rest))
}

/// Whether lengths are sound and the nesting goes no deeper than `levels`.
pub fn sound(octets: &[u8], levels: u32) -> bool {
    sound_list(octets, levels, false)
}

fn sound_list(mut octets: &[u8], levels: u32, in_status: bool) -> bool {
    while !octets.is_empty() {
        match split(octets) {
            Some((tlv, rest)) if levels > 0 && sound_inside(&tlv, levels, in_status) => octets = rest,
            _ => return false,
        }
    }
    true
}

fn sound_inside(tlv: &Tlv, levels: u32, in_status: bool) -> bool {
    if in_status && tlv.content.is_empty() {
        return true;
    }
    match tlv.kind {
        TARGET | COMMAND | STATUS => embedded(tlv).is_some_and(|inner| sound_list(inner, levels - 1, tlv.kind == STATUS)),
        _ => true,
    }
}

/// What a holder holds after its leading octets; none if it is too short for them.
fn embedded<'a>(tlv: &Tlv<'a>) -> Option<&'a [u8]> {
    match tlv.kind {
        TARGET => Some(tlv.content),
        COMMAND => tlv.content.get(4..),
        STATUS if tlv.content.len() >= 4 => tlv.content.get(4 + padded(u16_at(tlv.content, 2) as usize)..),
        _ => None,
    }
}

/// The TLVs of a sound list, in order.
pub fn list(octets: &[u8]) -> Tlvs<'_> {
    Tlvs { rest: octets }
}

pub struct Tlvs<'a> {
    rest: &'a [u8],
}

impl<'a> Iterator for Tlvs<'a> {
    type Item = Tlv<'a>;

    fn next(&mut self) -> Option<Tlv<'a>> {
        let (tlv, rest) = split(self.rest)?;
        self.rest = rest;
        Some(tlv)
    }
}

/// The TLVs directly inside a holder.
pub fn children<'a>(holder: &Tlv<'a>) -> Tlvs<'a> {
    list(embedded(holder).unwrap_or(&[]))
}
