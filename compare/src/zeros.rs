//! Messages with transaction 0: what came back, and what the same message would have got with transaction 1.
use crate::calls::Call;
use crate::card::Card;
use crate::pair::{on_card, Seen};
use std::collections::BTreeMap;

const KINDS: [u8; 4] = [144, 146, 148, 149];
const LATER: [u16; 5] = [0x53, 0x54, 0x55, 0x500, 0x6];
const BUFFER: usize = 5120;

/// A message with transaction 0, before it is handed in.
pub struct Zero {
    kind: u8,
    result: u8,
    /// The port has a request open.
    open: bool,
    /// The code of the reply to the same message with transaction 1; 0 if it is not answered.
    code: u16,
}

/// The call's message, if its transaction is 0.
pub fn zero(card: &Card, call: &Call) -> Option<Zero> {
    let Call::Message { octets, port, space } = call else { return None };
    if octets.len() < 16 || octets[9..12] != [0; 3] {
        return None;
    }
    let mut other = octets.clone();
    other[11] = 1;
    let mut buffer = [0; BUFFER];
    let answer = on_card(&mut card.clone(), &Call::Message { octets: other, port: *port, space: *space }, &mut buffer);
    let code = field(&buffer[..answer.length]) & 0xFFF;
    Some(Zero { kind: octets[5], result: octets[6] >> 4, open: card.request(*port).is_some(), code })
}

/// Result and code of a reply, 0 without one.
fn field(reply: &[u8]) -> u16 {
    reply.get(6..8).map_or(0, |f| u16::from_be_bytes([f[0], f[1]]))
}

/// How often what occurred.
#[derive(Default)]
pub struct Zeros {
    /// Refused with 0x2: by type, and by the code of the reply with transaction 1.
    refused: BTreeMap<(u8, u16), usize>,
    notices: usize,
    /// Number 16 for a 147; the second one with a request open.
    transfers: [usize; 2],
}

impl Zeros {
    pub fn seen(&mut self, zero: &Zero, seen: &Seen) {
        let is_silent = seen.reply.is_empty();
        match (zero.kind, seen.number) {
            (144, 0) if zero.result == 0 && is_silent => self.notices += 1,
            (147, 16) => self.transfers[zero.open as usize] += 1,
            (kind, 0) if field(&seen.reply) == 0x4002 => *self.refused.entry((kind, zero.code)).or_default() += 1,
            _ => (),
        }
    }

    fn refused(&self, which: impl Fn(u8, u16) -> bool) -> usize {
        self.refused.iter().filter(|((kind, code), _)| which(*kind, *code)).map(|(_, n)| n).sum()
    }

    /// What has to occur, and how often it did. A wrong Result is refused with 0x2 too: it does not count for its type.
    pub fn lines(&self) -> Vec<(String, usize)> {
        let by_kind = |k| (format!("transaction 0, {k}: 0x2"), self.refused(|kind, code| kind == k && code != 0x2));
        let by_code = |c| (format!("transaction 0 before {c:#x}"), self.refused(|_, code| code == c));
        let mut lines: Vec<(String, usize)> = KINDS.into_iter().map(by_kind).collect();
        lines.extend(LATER.into_iter().map(by_code));
        lines.push(("transaction 0, wrong Result".into(), self.refused(|_, code| code == 0x2)));
        lines.push(("transaction 0, notice".into(), self.notices));
        lines.push(("transaction 0, 147: 16".into(), self.transfers[0]));
        lines.push(("the same, request open: 16".into(), self.transfers[1]));
        lines
    }
}
