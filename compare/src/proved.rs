//! The proved card, as a host in C has it: through the functions of include/ancp_card.h (header.c).
use crate::card::Request;
use crate::host::{HostFlow, Start};
use std::rc::Rc;

include!(concat!(env!("OUT_DIR"), "/sizes.rs"));

/// A card's memory. What lies where in it only the header knows.
#[repr(C, align(8))]
#[derive(Clone, Copy, PartialEq, Eq)]
pub struct Record([u8; CARD_OCTETS]);

/// The memory of the start's tables.
#[repr(C, align(8))]
struct Tables([u8; TABLES_OCTETS]);

/// A flow as ten words: family, sourced, group, source.
type Words = [u32; 10];

extern "C" {
    fn compare_set_port(t: *mut Tables, p: usize, length: u8, octets: *const u8);
    fn compare_set_channel(t: *mut Tables, k: usize, flow: *const Words, rate: u32);
    fn compare_set_entry(t: *mut Tables, i: usize, list: u32, flow: *const Words, group_bits: u32, source_bits: u32);
    fn compare_start(
        card: *mut Record,
        t: *const Tables,
        ports: usize,
        channels: usize,
        entries: usize,
        white_cac: bool,
        add_cac: bool,
        first: u32,
    ) -> u32;
    fn compare_port_up(card: *mut Record, t: *const Tables, p: usize) -> u32;
    fn compare_port_down(card: *mut Record, t: *const Tables, p: usize) -> u32;
    fn compare_set_delegation(card: *mut Record, t: *const Tables, p: usize, amount: u32) -> u32;
    fn compare_join(
        card: *mut Record,
        t: *const Tables,
        p: usize,
        flow: *const Words,
        reply: *mut u8,
        space: usize,
        length: *mut usize,
    ) -> u32;
    fn compare_leave(card: *mut Record, t: *const Tables, p: usize, flow: *const Words) -> u32;
    fn compare_ask(
        card: *mut Record,
        t: *const Tables,
        p: usize,
        required: u32,
        preferred: u32,
        reply: *mut u8,
        space: usize,
        length: *mut usize,
    ) -> u32;
    fn compare_message(
        card: *mut Record,
        t: *const Tables,
        octets: *const u8,
        n: usize,
        reply: *mut u8,
        space: usize,
        length: *mut usize,
    ) -> u32;
    fn compare_is_up(card: *const Record, p: usize) -> bool;
    fn compare_delegation(card: *const Record, p: usize) -> u32;
    fn compare_committed(card: *const Record, t: *const Tables, p: usize) -> u64;
    fn compare_flows(card: *const Record, t: *const Tables, p: usize, rows: *mut [u8; 16]) -> usize;
    fn compare_is_active(card: *const Record, t: *const Tables, p: usize, flow: *const Words) -> bool;
    fn compare_extras(card: *const Record) -> usize;
    fn compare_next_transaction(card: *const Record) -> u32;
    fn compare_is_clean(card: *const Record) -> bool;
    fn compare_request(card: *const Record, p: usize, request: *mut [u32; 3]) -> bool;
    fn compare_marks(card: *const Record, p: usize, row: u8, marks: *mut [u8; 2]) -> bool;
}

/// A number and a reply length.
#[derive(Clone, Copy, Debug, PartialEq, Eq)]
pub struct ProvedAnswer {
    pub number: u8,
    pub length: usize,
}

/// A card with its tables, which copies share.
#[derive(Clone)]
pub struct Proved {
    card: Record,
    tables: Rc<Tables>,
}

impl Proved {
    /// The started card, or the number.
    pub fn start(s: &Start) -> Result<Proved, u8> {
        let tables = Rc::new(fill(s));
        let mut card = Record([0xA5; CARD_OCTETS]);
        let (ports, channels, entries) = (s.ports, s.channel_count, s.entry_count);
        match unsafe { compare_start(&mut card, &*tables, ports, channels, entries, s.white_cac, s.add_cac, s.first) } {
            0 => Ok(Proved { card, tables }),
            number => Err(number as u8),
        }
    }

    pub fn port_up(&mut self, p: usize) -> ProvedAnswer {
        silent(unsafe { compare_port_up(&mut self.card, &*self.tables, p) })
    }

    pub fn port_down(&mut self, p: usize) -> ProvedAnswer {
        silent(unsafe { compare_port_down(&mut self.card, &*self.tables, p) })
    }

    pub fn set_delegation(&mut self, p: usize, amount: u32) -> ProvedAnswer {
        silent(unsafe { compare_set_delegation(&mut self.card, &*self.tables, p, amount) })
    }

    pub fn join(&mut self, p: usize, f: &HostFlow, reply: &mut [u8]) -> ProvedAnswer {
        let (words, space, mut length) = (words(f), reply.len(), 0);
        let number = unsafe { compare_join(&mut self.card, &*self.tables, p, &words, reply.as_mut_ptr(), space, &mut length) };
        ProvedAnswer { number: number as u8, length }
    }

    pub fn leave(&mut self, p: usize, f: &HostFlow) -> ProvedAnswer {
        silent(unsafe { compare_leave(&mut self.card, &*self.tables, p, &words(f)) })
    }

    pub fn ask(&mut self, p: usize, required: u32, preferred: u32, reply: &mut [u8]) -> ProvedAnswer {
        let (to, space, mut length) = (reply.as_mut_ptr(), reply.len(), 0);
        let number = unsafe { compare_ask(&mut self.card, &*self.tables, p, required, preferred, to, space, &mut length) };
        ProvedAnswer { number: number as u8, length }
    }

    pub fn message(&mut self, octets: &[u8], reply: &mut [u8]) -> ProvedAnswer {
        let (from, n, to, space, mut length) = (octets.as_ptr(), octets.len(), reply.as_mut_ptr(), reply.len(), 0);
        let number = unsafe { compare_message(&mut self.card, &*self.tables, from, n, to, space, &mut length) };
        ProvedAnswer { number: number as u8, length }
    }
}

/// The readers.
impl Proved {
    pub fn is_up(&self, p: usize) -> bool {
        unsafe { compare_is_up(&self.card, p) }
    }

    pub fn delegation(&self, p: usize) -> u32 {
        unsafe { compare_delegation(&self.card, p) }
    }

    pub fn committed(&self, p: usize) -> u64 {
        unsafe { compare_committed(&self.card, &*self.tables, p) }
    }

    /// The channel rows of the port's flows, in order; none if the count is above 16.
    pub fn flows(&self, p: usize) -> Option<Vec<u8>> {
        let mut rows = [0; 16];
        let count = unsafe { compare_flows(&self.card, &*self.tables, p, &mut rows) };
        rows.get(..count).map(<[u8]>::to_vec)
    }

    pub fn is_active(&self, p: usize, f: &HostFlow) -> bool {
        unsafe { compare_is_active(&self.card, &*self.tables, p, &words(f)) }
    }

    pub fn extras(&self) -> usize {
        unsafe { compare_extras(&self.card) }
    }

    pub fn next_transaction(&self) -> u32 {
        unsafe { compare_next_transaction(&self.card) }
    }

    /// The whole record, octet by octet, to see that a refusal keeps it.
    pub fn record(&self) -> Record {
        self.card
    }

    /// What is unused of the record is zero.
    pub fn is_clean(&self) -> bool {
        unsafe { compare_is_clean(&self.card) }
    }

    /// The open request.
    pub fn request(&self, p: usize) -> Option<Request> {
        let mut figures = [0; 3];
        let open = unsafe { compare_request(&self.card, p, &mut figures) };
        let [required, preferred, transaction] = figures;
        open.then_some(Request { transaction, required, preferred })
    }

    /// Accounting and charge of the port's flow on a channel row.
    pub fn marks(&self, p: usize, row: u8) -> Option<(u8, bool)> {
        let mut marks = [0; 2];
        let found = unsafe { compare_marks(&self.card, p, row, &mut marks) };
        found.then_some((marks[0], marks[1] != 0))
    }
}

fn silent(number: u32) -> ProvedAnswer {
    ProvedAnswer { number: number as u8, length: 0 }
}

fn words(f: &HostFlow) -> Words {
    words_of(f.family, f.sourced, &f.group, &f.source)
}

fn words_of(family: u32, sourced: u32, group: &[u32; 4], source: &[u32; 4]) -> Words {
    let mut words = [0; 10];
    words[..2].copy_from_slice(&[family, sourced]);
    words[2..6].copy_from_slice(group);
    words[6..].copy_from_slice(source);
    words
}

fn fill(s: &Start) -> Tables {
    let mut t = Tables([0; TABLES_OCTETS]);
    for (row, id) in s.ids.iter().enumerate() {
        unsafe { compare_set_port(&mut t, row, id.length, id.octets.as_ptr()) }
    }
    for (row, c) in s.channels.iter().enumerate() {
        unsafe { compare_set_channel(&mut t, row, &words(&c.flow), c.rate) }
    }
    for (row, e) in s.entries.iter().enumerate() {
        let prefix = words_of(e.family, 0, &e.group, &e.source);
        unsafe { compare_set_entry(&mut t, row, e.list, &prefix, e.group_bits, e.source_bits) }
    }
    t
}
