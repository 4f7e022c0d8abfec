//! Random messages: valid ones of every type, and damaged ones at every check.
use crate::card::Card;
use crate::flow::{family, octets, Flow};
use crate::host::Start;
use crate::rng::Rng;
use crate::starts;
use crate::tlv::{ALLOCATION, CIRCUIT_ID, COMMAND, FLOW, REQUEST, SEQUENCE, STATUS, TARGET};

/// A TLV to be: leading octets, then TLVs inside.
#[derive(Clone)]
pub struct Node {
    pub kind: u16,
    pub lead: Vec<u8>,
    pub inside: Vec<Node>,
}

impl Node {
    pub fn leaf(kind: u16, content: Vec<u8>) -> Node {
        Node { kind, lead: content, inside: Vec::new() }
    }

    pub fn encode(&self, padding: u8) -> Vec<u8> {
        let mut content = self.lead.clone();
        self.inside.iter().for_each(|n| content.extend(n.encode(padding)));
        let mut octets = self.kind.to_be_bytes().to_vec();
        octets.extend((content.len() as u16).to_be_bytes());
        octets.extend(content);
        octets.resize(octets.len().div_ceil(4) * 4, padding);
        octets
    }
}

/// What a message is made from.
pub struct Maker<'a> {
    pub rng: &'a mut Rng,
    pub start: &'a Start,
    pub card: &'a Card,
    pub port: usize,
}

impl Maker<'_> {
    pub fn message(&mut self) -> Vec<u8> {
        let kind = self.kind();
        let mut nodes = self.body(kind);
        if self.rng.chance(25) {
            self.damage_tree(kind, &mut nodes);
        }
        let padding = if self.rng.chance(20) { self.rng.octet() } else { 0 };
        let mut body: Vec<u8> = nodes.iter().flat_map(|n| n.encode(padding)).collect();
        if self.rng.chance(12) {
            self.damage_octets(&mut body);
        }
        let result = self.result(kind);
        let mut octets = self.with_header(kind, result, &body);
        if self.rng.chance(8) {
            self.damage_header(&mut octets);
        }
        octets
    }

    /// An open request gets more answers than its share.
    fn kind(&mut self) -> u8 {
        if self.card.request(self.port).is_some() && self.rng.chance(20) {
            return 147;
        }
        match self.rng.below(100) {
            0..=44 => 144,
            45..=59 => 146,
            60..=74 => 147,
            75..=82 => 148,
            83..=93 => 149,
            94..=98 => self.rng.pick(&[91, 93, 145, 150, 10, 32, 80, 81, 0, 255, 143, 151]),
            _ => self.rng.octet(),
        }
    }

    fn result(&mut self, kind: u8) -> u8 {
        if self.rng.chance(7) {
            return self.rng.below(16) as u8;
        }
        match kind {
            144 if self.rng.chance(7) => 0,
            144 => self.rng.pick(&[1, 2, 2]),
            147 => self.rng.pick(&[3, 3, 4]),
            148 | 149 => 2,
            _ => 0,
        }
    }

    fn with_header(&mut self, kind: u8, result: u8, body: &[u8]) -> Vec<u8> {
        let length = (body.len() + 12) as u16;
        let code = if self.rng.chance(20) { self.rng.word() as u16 & 0xFFF } else { 0 };
        let mut octets = vec![0x88, 0x0C];
        octets.extend(length.to_be_bytes());
        octets.extend([0x32, kind]);
        octets.extend(((result as u16) << 12 | code).to_be_bytes());
        octets.extend(self.transaction(kind).to_be_bytes());
        octets.extend([0x80, 0x01]);
        octets.extend(length.to_be_bytes());
        octets.extend(body);
        octets
    }

    /// Partition and transaction: 0 in one message of twelve, and numbers near it or with octets that are 0.
    fn transaction(&mut self, kind: u8) -> u32 {
        let partition = (self.rng.pick(&[0, 0, 1, 255]) as u32) << 24;
        let open = self.card.request(self.port);
        let transaction = match (kind, open) {
            _ if self.rng.below(12) == 0 => 0,
            (147, Some(open)) if self.rng.chance(85) => open.transaction,
            _ => self.rng.pick(&[1, 1, 7, 16_777_215, 16_777_215, 16_777_214, 0x00_0100, 0x01_0000]),
        };
        partition | transaction
    }

    fn body(&mut self, kind: u8) -> Vec<Node> {
        let mut nodes = vec![self.target()];
        match kind {
            144 => nodes.extend(self.commands()),
            146 => nodes.push(self.request()),
            147 => nodes.push(self.allocation()),
            _ => (),
        }
        if self.rng.chance(15) {
            let at = self.rng.below(nodes.len() + 1);
            let node = self.other();
            nodes.insert(at, node);
        }
        if self.rng.chance(10) {
            let at = self.rng.below(nodes.len());
            nodes.swap(0, at);
        }
        nodes
    }

    fn target(&mut self) -> Node {
        let id = match self.start.ids.get(self.port).and_then(|row| row.id()) {
            Some(id) => id.to_vec(),
            None => b"nobody".to_vec(),
        };
        let mut inside = vec![Node::leaf(CIRCUIT_ID, id)];
        if self.rng.chance(8) {
            let at = self.rng.below(2);
            let node = self.small_other();
            inside.insert(at, node);
        }
        Node { kind: TARGET, lead: Vec::new(), inside }
    }

    fn commands(&mut self) -> Vec<Node> {
        if self.rng.chance(1) {
            return self.many_commands();
        }
        let count = match self.rng.below(20) {
            0 => self.rng.from_to(20, 100),
            1..=3 => self.rng.from_to(5, 17),
            _ => self.rng.from_to(1, 4),
        };
        (0..count).map(|_| self.command()).collect()
    }

    /// More commands than an octet counts, up to the largest message.
    fn many_commands(&mut self) -> Vec<Node> {
        let count = self.rng.from_to(250, 490);
        let mut commands: Vec<Node> = (0..count).map(|_| self.delete_all()).collect();
        let last = self.command();
        commands.push(last);
        commands
    }

    fn command(&mut self) -> Node {
        let mut node = match self.rng.below(20) {
            0 => self.delete_all(),
            1..=4 => self.with_flow(2),
            _ => self.with_flow(1),
        };
        if self.rng.chance(6) {
            self.damage_command(&mut node);
        }
        node
    }

    fn delete_all(&mut self) -> Node {
        Node { kind: COMMAND, lead: self.lead(3), inside: Vec::new() }
    }

    fn with_flow(&mut self, code: u8) -> Node {
        let flow = if code == 2 && self.rng.chance(80) { self.active_flow() } else { self.flow() };
        let mut inside = vec![flow_node(&flow)];
        if self.rng.chance(8) {
            let at = self.rng.below(2);
            let node = self.small_other();
            inside.insert(at, node);
        }
        Node { kind: COMMAND, lead: self.lead(code), inside }
    }

    /// Code, accounting, reserved.
    fn lead(&mut self, code: u8) -> Vec<u8> {
        let reserved = if self.rng.chance(10) { self.rng.octet() } else { 0 };
        vec![code, self.rng.pick(&[0, 1]), reserved, reserved]
    }

    fn damage_command(&mut self, node: &mut Node) {
        match self.rng.below(8) {
            0 => node.lead[0] = self.rng.pick(&[0, 4, 255, 1, 2, 3]),
            1 => node.lead[1] = self.rng.pick(&[2, 255, 128]),
            2 => node.inside.clear(),
            3 => {
                let flow = self.flow();
                node.inside.push(flow_node(&flow));
            }
            4 | 5 => self.damage_fields(node),
            6 => self.damage_address(node),
            _ => {
                let flow = starts::flow(self.rng);
                node.inside = vec![flow_node(&flow)];
            }
        }
    }

    fn damage_fields(&mut self, command: &mut Node) {
        let Some(content) = command.inside.iter_mut().find(|n| n.kind == FLOW).map(|n| &mut n.lead) else { return };
        match self.rng.below(6) {
            0 => content[0] = self.rng.pick(&[0, 1, 2, 3, 255]),
            1 => content[1] = self.rng.pick(&[0, 1, 2, 3, 255]),
            2 => content[3] = self.rng.pick(&[0, 1, 2]),
            3 => content[2] = 1,
            4 => content.truncate(self.rng.below(content.len())),
            _ => content.extend(vec![0; self.rng.pick(&[1, 4, 16])]),
        }
    }

    fn damage_address(&mut self, command: &mut Node) {
        let Some(content) = command.inside.iter_mut().find(|n| n.kind == FLOW).map(|n| &mut n.lead) else { return };
        let width = if content.get(1) == Some(&1) { 4 } else { 16 };
        match self.rng.below(3) {
            0 if content.len() > 4 => content[4] = self.rng.pick(&[0xDF, 0xF0, 0xFE, 0]),
            1 if content.len() > 4 + width => content[4 + width] = self.rng.pick(&[0xE0, 0xEF, 0xFF, 0xF0]),
            _ if content.len() > 4 + width => content[4 + width..].fill(0),
            _ => (),
        }
    }

    /// A channel's flow, one of a few so that flows meet.
    fn flow(&mut self) -> Flow {
        let count = self.start.channel_count;
        if count == 0 || self.rng.chance(3) {
            return starts::flow(self.rng);
        }
        let among = if self.rng.chance(80) { count.min(20) } else { count };
        let row = self.rng.below(among);
        Flow::from_host(&self.start.channels[row].flow).expect("a started card's channel")
    }

    fn active_flow(&mut self) -> Flow {
        let active = self.card.flows(self.port);
        if active.is_empty() {
            return self.flow();
        }
        self.rng.pick(&active)
    }

    fn request(&mut self) -> Node {
        let required = self.amount();
        let preferred = match self.rng.below(4) {
            0 => required,
            1 => required.wrapping_add(1),
            2 => required.saturating_sub(1),
            _ => self.amount(),
        };
        Node::leaf(REQUEST, [required.to_be_bytes(), preferred.to_be_bytes()].concat())
    }

    fn allocation(&mut self) -> Node {
        let amount = match self.card.request(self.port) {
            Some(open) => near(self.rng, &[open.required, open.preferred]),
            None => self.amount(),
        };
        Node::leaf(ALLOCATION, amount.to_be_bytes().to_vec())
    }

    fn amount(&mut self) -> u32 {
        let (committed, delegation) = (self.card.committed(self.port) as u32, self.card.delegation(self.port));
        near(self.rng, &[committed, delegation, delegation, u32::MAX, 0])
    }

    /// A TLV that the message's rules may not name.
    fn other(&mut self) -> Node {
        match self.rng.below(12) {
            0..=2 => self.status(),
            3..=4 => self.chain(3),
            5..=6 => self.target_like(),
            7 => self.short_holder(),
            _ => self.small_other(),
        }
    }

    /// A holder with too few leading octets or just enough, inside up to two others.
    fn short_holder(&mut self) -> Node {
        let length = self.rng.pick(&[0, 0, 1, 2, 3, 4]);
        let mut node = Node::leaf(self.rng.pick(&[TARGET, COMMAND, STATUS]), vec![0; length]);
        for _ in 0..self.rng.below(3) {
            node = self.around(node);
        }
        node
    }

    /// A sound holder around a TLV.
    fn around(&mut self, node: Node) -> Node {
        let kind = self.rng.pick(&[TARGET, COMMAND, STATUS]);
        let lead = if kind == TARGET { Vec::new() } else { vec![0; 4] };
        Node { kind, lead, inside: vec![node] }
    }

    fn small_other(&mut self) -> Node {
        let kind = self.rng.pick(&[0x0002, 0x0092, 0x0096, 0x0013, 0x0095, 0x1001, ALLOCATION, REQUEST, SEQUENCE, 0xFFFF, 0]);
        let length = self.rng.pick(&[0, 1, 2, 3, 4, 5, 8, 12]);
        Node::leaf(kind, (0..length).map(|_| self.rng.octet()).collect())
    }

    /// Status-Info with a text, TLVs and bare headers; now and then the text's padding is left out.
    fn status(&mut self) -> Node {
        let text = self.rng.pick(&[0, 0, 1, 3, 4, 5, 9]);
        let mut lead = vec![0, 144, 0, text as u8];
        lead.extend(vec![b't'; text]);
        if self.rng.chance(10) {
            return Node::leaf(STATUS, lead);
        }
        lead.resize(4 + text.div_ceil(4) * 4, 0);
        let inside = (0..self.rng.below(4)).map(|_| self.in_status()).collect();
        Node { kind: STATUS, lead, inside }
    }

    fn in_status(&mut self) -> Node {
        match self.rng.below(3) {
            0 => self.small_other(),
            1 => Node::leaf(self.rng.pick(&[TARGET, COMMAND, STATUS, REQUEST]), Vec::new()),
            _ => Node::leaf(SEQUENCE, vec![0, 0, 0, 1]),
        }
    }

    /// A holder that names no port: no id, or others inside.
    fn target_like(&mut self) -> Node {
        let inside = vec![Node::leaf(CIRCUIT_ID, b"x".to_vec())];
        Node { kind: self.rng.pick(&[STATUS, COMMAND]), lead: vec![0; 4], inside }
    }

    /// Holders one inside the other, `depth` TLVs deep.
    fn chain(&mut self, depth: usize) -> Node {
        let mut node = match self.rng.below(3) {
            0 => Node::leaf(TARGET, Vec::new()),
            1 => Node::leaf(COMMAND, vec![0; 4]),
            _ => Node::leaf(0x0092, vec![1]),
        };
        for _ in 1..depth {
            node = self.around(node);
        }
        node
    }

    /// Missing, second, misshapen and too deep TLVs, other ids, large TLVs.
    fn damage_tree(&mut self, kind: u8, nodes: &mut Vec<Node>) {
        let at = self.rng.below(nodes.len());
        match self.rng.below(14) {
            0 => drop(nodes.remove(at)),
            1 => nodes.clear(),
            2 => nodes.push(nodes[at].clone()),
            3 => {
                let target = self.target();
                nodes.insert(at, target);
            }
            4 => self.misshape(kind, nodes),
            5 | 6 => self.damage_id(&mut nodes[0]),
            7 | 8 => {
                let depth = self.rng.from_to(3, 5);
                let node = self.chain(depth);
                nodes.insert(at, node);
            }
            9 => {
                let depth = self.rng.from_to(2, 4);
                let node = self.chain(depth);
                nodes[at].inside.push(node);
            }
            10 => self.fill_up(nodes),
            11 => {
                let command = self.command();
                let at = self.rng.below(nodes.len());
                nodes[at].inside.push(command);
            }
            12 => {
                let status = self.status();
                nodes[at].inside.push(status);
            }
            _ => nodes.truncate(1),
        }
    }

    fn misshape(&mut self, kind: u8, nodes: &mut Vec<Node>) {
        let wanted = if kind == 147 { ALLOCATION } else { REQUEST };
        let length = self.rng.pick(&[0, 1, 3, 4, 5, 6, 7, 8, 9, 12, 4000]);
        let node = Node::leaf(wanted, vec![self.rng.octet(); length]);
        match nodes.iter_mut().find(|n| n.kind == wanted) {
            Some(right) if self.rng.chance(70) => *right = node,
            _ => {
                let at = self.rng.below(nodes.len() + 1);
                nodes.insert(at, node);
            }
        }
    }

    fn damage_id(&mut self, target: &mut Node) {
        if target.kind != TARGET || target.inside.is_empty() {
            return;
        }
        let first = target.inside[0].clone();
        match self.rng.below(8) {
            0 => target.inside.clear(),
            1 => target.inside.push(first),
            2 => target.inside[0].kind = 0x0002,
            3 => target.inside[0].lead.clear(),
            4 => target.inside[0].lead.push(b'x'),
            5 => target.inside[0].lead.resize(self.rng.pick(&[63, 64, 65, 1000, 4000]), b'y'),
            6 => drop(target.inside[0].lead.pop()),
            _ => target.inside[0].lead.iter_mut().for_each(|octet| *octet ^= 1),
        }
    }

    /// A TLV, at top level or inside another, that brings the message to its largest size, or over it.
    fn fill_up(&mut self, nodes: &mut Vec<Node>) {
        let size: usize = 16 + nodes.iter().map(|n| n.encode(0).len()).sum::<usize>();
        let whole = self.rng.pick(&[4092, 4096, 4096, 4100, 4097, 5000]);
        if size + 4 <= whole {
            let filling = Node::leaf(self.rng.pick(&[0x0092, FLOW]), vec![0; whole - size - 4]);
            let at = self.rng.below(nodes.len() + 1);
            match nodes.get_mut(at) {
                Some(node) => node.inside.push(filling),
                None => nodes.push(filling),
            }
        }
    }

    /// Lengths and octets anywhere, tails cut or added.
    fn damage_octets(&mut self, body: &mut Vec<u8>) {
        if body.is_empty() {
            return;
        }
        let word = self.rng.below(body.len().div_ceil(4)) * 4;
        match self.rng.below(7) {
            0 | 1 if word + 3 < body.len() => {
                body[word + 3] = body[word + 3].wrapping_add(self.rng.pick(&[1, 2, 3, 4, 252, 253, 254, 255]))
            }
            2 if word + 3 < body.len() => body[word + 2] = self.rng.pick(&[1, 16, 255]),
            3 => body.truncate(body.len() - self.rng.from_to(1, body.len().min(9))),
            4 => body.extend(vec![0; self.rng.from_to(1, 5)]),
            5 if word + 1 < body.len() => {
                let kind = self.rng.pick(&[TARGET, COMMAND, STATUS, FLOW, CIRCUIT_ID]).to_be_bytes();
                body[word..word + 2].copy_from_slice(&kind);
            }
            _ => {
                let at = self.rng.below(body.len());
                body[at] = self.rng.octet();
            }
        }
    }

    fn damage_header(&mut self, octets: &mut Vec<u8>) {
        match self.rng.below(13) {
            0 => octets[self.rng.below(2)] ^= 1 << self.rng.below(8),
            1 => octets[3] = octets[3].wrapping_add(self.rng.pick(&[1, 4, 255])),
            2 => octets[15] = octets[15].wrapping_add(self.rng.pick(&[1, 4, 255])),
            3 => octets[4] = self.rng.pick(&[0x31, 0x33, 0, 0x72]),
            4 => octets[12] = self.rng.pick(&[0, 0x81, 0xC0]),
            5 => octets[13] = self.rng.pick(&[0, 2, 0x81]),
            6 => octets.truncate(self.rng.below(17)),
            7 => octets.push(0),
            8 => {
                octets.truncate(16);
                set_lengths(octets);
            }
            11 => octets.resize(octets.len() + 65_536, 0),
            9 => octets[2] ^= 1 << self.rng.below(8),
            10 => {
                octets.truncate(self.rng.from_to(4, octets.len().max(5)));
                if octets.len() >= 16 {
                    set_lengths(octets);
                }
            }
            _ => octets[14] ^= 1 << self.rng.below(8),
        }
    }
}

/// Both lengths made right.
pub fn set_lengths(octets: &mut [u8]) {
    let length = ((octets.len() - 4) as u16).to_be_bytes();
    octets[2..4].copy_from_slice(&length);
    octets[14..16].copy_from_slice(&length);
}

/// One of the numbers, or one beside it.
pub fn near(rng: &mut Rng, of: &[u32]) -> u32 {
    let number = rng.pick(of);
    match rng.below(5) {
        0 => number.saturating_sub(1),
        1 => number.saturating_add(1),
        2 => number.saturating_add(rng.pick(&[1000, 1001, 999, 2000, 10_000_000])),
        _ => number,
    }
}

pub fn flow_node(flow: &Flow) -> Node {
    let sources = flow.source.is_some() as u8;
    let mut content = vec![1 + sources, family(flow.group) as u8, 0, sources];
    content.extend(octets(flow.group));
    content.extend(flow.source.map(octets).unwrap_or_default());
    Node::leaf(FLOW, content)
}
