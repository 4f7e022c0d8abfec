//! What the host hands in, unchecked: flows and the start's tables, with addresses as four words, the highest first.

pub const MAX_PORTS: usize = 64;
pub const MAX_CHANNELS: usize = 256;
pub const MAX_ENTRIES: usize = 128;

#[derive(Clone, Copy, Debug, PartialEq, Eq)]
pub struct HostFlow {
    pub family: u32,
    pub sourced: u32,
    pub group: [u32; 4],
    pub source: [u32; 4],
}

#[derive(Clone, Copy, Debug)]
pub struct HostId {
    pub length: u8,
    pub octets: [u8; 63],
}

#[derive(Clone, Copy, Debug)]
pub struct HostChannel {
    pub flow: HostFlow,
    pub rate: u32,
}

#[derive(Clone, Copy, Debug)]
pub struct HostEntry {
    pub family: u32,
    pub list: u32,
    pub group_bits: u32,
    pub source_bits: u32,
    pub group: [u32; 4],
    pub source: [u32; 4],
}

/// The tables have all their rows; the counts say how many of them are meant.
#[derive(Clone, Debug)]
pub struct Start {
    pub ids: Vec<HostId>,
    pub ports: usize,
    pub channels: Vec<HostChannel>,
    pub channel_count: usize,
    pub entries: Vec<HostEntry>,
    pub entry_count: usize,
    pub white_cac: bool,
    pub add_cac: bool,
    pub first: u32,
}

impl HostId {
    pub fn new(id: &[u8]) -> HostId {
        let mut octets = [0; 63];
        octets[..id.len()].copy_from_slice(id);
        HostId { length: id.len() as u8, octets }
    }

    /// The circuit id, if its length is 1 to 63.
    pub fn id(&self) -> Option<&[u8]> {
        match self.length {
            1..=63 => Some(&self.octets[..self.length as usize]),
            _ => None,
        }
    }
}
