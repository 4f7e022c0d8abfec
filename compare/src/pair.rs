//! Both cards side by side: one call on each, and everything they show compared.
use crate::calls::Call;
use crate::card::{Answer, Card};
use crate::flow::Flow;
use crate::host::Start;
use crate::proved::{Proved, ProvedAnswer};

const BUFFER: usize = 5120;
const PATTERN: u8 = 0xA5;

pub struct Pair {
    pub card: Card,
    pub proved: Proved,
    /// The flow of each channel row.
    channels: Vec<Flow>,
    buffer: [u8; BUFFER],
    proved_buffer: [u8; BUFFER],
}

/// What both answered.
pub struct Seen {
    pub number: u8,
    pub reply: Vec<u8>,
}

/// Both started; none if both refuse.
pub fn start(s: &Start) -> Result<Option<Pair>, String> {
    match (Card::start(s), Proved::start(s)) {
        (None, Err(14)) => Ok(None),
        (Some(card), Ok(proved)) => {
            let mut pair = Pair { card, proved, channels: channel_flows(s), buffer: [PATTERN; BUFFER], proved_buffer: [PATTERN; BUFFER] };
            pair.compare_all()?;
            Ok(Some(pair))
        }
        (card, proved) => {
            let here = if card.is_some() { 0 } else { 14 };
            let there = proved.err().unwrap_or(0);
            Err(format!("start: number {here} here, {there} from the proved card"))
        }
    }
}

fn channel_flows(s: &Start) -> Vec<Flow> {
    s.channels[..s.channel_count].iter().filter_map(|row| Flow::from_host(&row.flow)).collect()
}

impl Pair {
    /// One call on both; what they answered, or where they differ.
    pub fn perform(&mut self, call: &Call) -> Result<Seen, String> {
        let before = self.proved.record();
        self.buffer.fill(PATTERN);
        self.proved_buffer.fill(PATTERN);
        let here = on_card(&mut self.card, call, &mut self.buffer);
        let there = on_proved(&mut self.proved, call, &mut self.proved_buffer);
        let seen = self.compare_answers(here, there)?;
        let kept = matches!(seen.number, 1 | 3..=16) || encloses_nothing(&seen.reply);
        if kept && before != self.proved.record() {
            return Err(format!("number {}, but the proved card's record changed", seen.number));
        }
        self.compare_port(call.port())?;
        self.compare_node()?;
        self.compare_active(call)?;
        Ok(seen)
    }

    fn compare_answers(&self, here: Answer, there: ProvedAnswer) -> Result<Seen, String> {
        same("number", here.number as u8, there.number)?;
        same("reply length", here.length, there.length)?;
        let (reply, proved_reply) = (&self.buffer[..here.length], &self.proved_buffer[..here.length]);
        if reply != proved_reply {
            return Err(format!("reply\n  here   {}\n  proved {}", hex(reply), hex(proved_reply)));
        }
        match self.proved_buffer[here.length..].iter().position(|&octet| octet != PATTERN) {
            Some(at) => Err(format!("the proved card wrote octet {} beyond the reply's {}", here.length + at, here.length)),
            None => Ok(Seen { number: there.number, reply: reply.to_vec() }),
        }
    }

    /// Every port, and the first numbers that are no port's.
    pub fn compare_all(&mut self) -> Result<(), String> {
        for port in 0..self.card.port_count() + 2 {
            self.compare_port(port)?;
        }
        self.compare_node()
    }

    fn compare_node(&self) -> Result<(), String> {
        same("extras", self.card.extras(), self.proved.extras())?;
        same("unused octets zero", true, self.proved.is_clean())?;
        same("next transaction", self.card.next_transaction(), self.proved.next_transaction())
    }

    fn compare_port(&self, port: usize) -> Result<(), String> {
        let of = |what: &str| format!("{what} of port {port}");
        same(&of("up"), self.card.is_up(port), self.proved.is_up(port))?;
        same(&of("delegation"), self.card.delegation(port), self.proved.delegation(port))?;
        same(&of("committed"), self.card.committed(port), self.proved.committed(port))?;
        let rows = self.proved.flows(port).ok_or_else(|| of("more than 16 flows"))?;
        let flows: Option<Vec<Flow>> = rows.iter().map(|&row| self.channels.get(row as usize).copied()).collect();
        same(&of("flows"), Some(self.card.flows(port)), flows)?;
        self.compare_record(port, &rows)
    }

    /// The open request, and each flow's accounting and charge.
    fn compare_record(&self, port: usize, rows: &[u8]) -> Result<(), String> {
        let of = |what: &str| format!("{what} of port {port}");
        same(&of("request"), self.card.request(port), self.proved.request(port))?;
        let marks: Option<Vec<(u8, bool)>> = rows.iter().map(|&row| self.proved.marks(port, row)).collect();
        same(&of("accounting and charge"), Some(self.card.marks(port)), marks)
    }

    fn compare_active(&self, call: &Call) -> Result<(), String> {
        match call {
            Call::Join { port, flow, .. } | Call::Leave { port, flow } => {
                same("active", self.card.is_active(*port, flow), self.proved.is_active(*port, flow))
            }
            _ => Ok(()),
        }
    }
}

/// A Generic Response, Failure, whose Status-Info gives the message type alone: no TLV was looked at (0x2, 0x51, 0x53).
fn encloses_nothing(reply: &[u8]) -> bool {
    reply.len() == 24 && reply[5] == 91 && reply[6] >> 4 == 4
}

/// The call on the card written here.
pub fn on_card(card: &mut Card, call: &Call, buffer: &mut [u8]) -> Answer {
    match call {
        Call::Up { port } => card.port_up(*port),
        Call::Down { port } => card.port_down(*port),
        Call::SetDelegation { port, amount } => card.set_delegation(*port, *amount),
        Call::Join { port, flow, space } => card.join(*port, flow, &mut buffer[..*space]),
        Call::Leave { port, flow } => card.leave(*port, flow),
        Call::Ask { port, required, preferred, space } => card.ask(*port, *required, *preferred, &mut buffer[..*space]),
        Call::Message { octets, space, .. } => card.message(octets, &mut buffer[..*space]),
    }
}

/// The call on the proved card.
pub fn on_proved(card: &mut Proved, call: &Call, buffer: &mut [u8]) -> ProvedAnswer {
    match call {
        Call::Up { port } => card.port_up(*port),
        Call::Down { port } => card.port_down(*port),
        Call::SetDelegation { port, amount } => card.set_delegation(*port, *amount),
        Call::Join { port, flow, space } => card.join(*port, flow, &mut buffer[..*space]),
        Call::Leave { port, flow } => card.leave(*port, flow),
        Call::Ask { port, required, preferred, space } => card.ask(*port, *required, *preferred, &mut buffer[..*space]),
        Call::Message { octets, space, .. } => card.message(octets, &mut buffer[..*space]),
    }
}

fn same<T: PartialEq + std::fmt::Debug>(what: &str, here: T, there: T) -> Result<(), String> {
    if here == there {
        return Ok(());
    }
    Err(format!("{what}\n  here   {here:?}\n  proved {there:?}"))
}

pub fn hex(octets: &[u8]) -> String {
    octets.iter().map(|o| format!("{o:02X}")).collect()
}
