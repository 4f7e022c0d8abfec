//! Flows: family, group and source or none, in the order of a flow query's reply.
use crate::host::HostFlow;
use std::net::{IpAddr, Ipv4Addr, Ipv6Addr};

/// The derived order is family, group, source, none first.
#[derive(Clone, Copy, Debug, PartialEq, Eq, PartialOrd, Ord, Hash)]
pub struct Flow {
    pub group: IpAddr,
    pub source: Option<IpAddr>,
}

impl Flow {
    /// The flow, if its address is good.
    pub fn checked(group: IpAddr, source: Option<IpAddr>) -> Option<Flow> {
        let good = is_group(group) && source.is_none_or(|s| !s.is_unspecified() && !is_group(s));
        good.then_some(Flow { group, source })
    }

    /// The flow that the host names, if its address is good.
    pub fn from_host(f: &HostFlow) -> Option<Flow> {
        let group = address(f.family, &f.group)?;
        match f.sourced {
            0 if f.source == [0; 4] => Flow::checked(group, None),
            1 => Flow::checked(group, Some(address(f.family, &f.source)?)),
            _ => None,
        }
    }

    pub fn to_host(self) -> HostFlow {
        HostFlow {
            family: family(self.group),
            sourced: self.source.is_some() as u32,
            group: words(self.group),
            source: self.source.map_or([0; 4], words),
        }
    }
}

pub fn family(a: IpAddr) -> u32 {
    match a {
        IpAddr::V4(_) => 1,
        IpAddr::V6(_) => 2,
    }
}

/// 224.0.0.0/4 and ff00::/8.
fn is_group(a: IpAddr) -> bool {
    match a {
        IpAddr::V4(v4) => v4.octets()[0] >> 4 == 0xE,
        IpAddr::V6(v6) => v6.octets()[0] == 0xFF,
    }
}

/// The address in the host's four words; IPv4 uses the first, and the others must be zero.
fn address(family: u32, words: &[u32; 4]) -> Option<IpAddr> {
    match family {
        1 if words[1..] == [0; 3] => Some(IpAddr::V4(Ipv4Addr::from(words[0]))),
        2 => Some(IpAddr::V6(v6(words))),
        _ => None,
    }
}

fn v6(words: &[u32; 4]) -> Ipv6Addr {
    let bits = words.iter().fold(0u128, |bits, &word| bits << 32 | word as u128);
    Ipv6Addr::from(bits)
}

fn words(a: IpAddr) -> [u32; 4] {
    match a {
        IpAddr::V4(v4) => [u32::from(v4), 0, 0, 0],
        IpAddr::V6(v6) => {
            let bits = u128::from(v6);
            [(bits >> 96) as u32, (bits >> 64) as u32, (bits >> 32) as u32, bits as u32]
        }
    }
}

/// The address's octets.
pub fn octets(a: IpAddr) -> Vec<u8> {
    match a {
        IpAddr::V4(v4) => v4.octets().to_vec(),
        IpAddr::V6(v6) => v6.octets().to_vec(),
    }
}
