//! Reading a table: pieces in order, each read whole and then checked (refusals 1 to 8).

/// The number that stands for the outside as a writer or a reader.
pub const OUTSIDE: usize = 63;
/// All capacities together are at most this.
pub const MOST_CAPACITY: usize = 1024;
/// How many inputs a node of each kind has.
pub const INPUTS: [usize; 12] = [0, 1, 1, 2, 2, 2, 2, 1, 3, 2, 1, 1];

#[derive(Clone, Copy, Debug, PartialEq, Eq)]
pub struct Refusal {
    pub number: u32,
    pub place: usize,
}

pub fn refuse<T>(number: u32, place: usize) -> Result<T, Refusal> {
    Err(Refusal { number, place })
}

#[derive(Clone)]
pub struct Node {
    pub kind: usize,
    pub period: u64,
    pub deadline: u64,
    pub constant: i32,
}

#[derive(Clone)]
pub struct Channel {
    pub register: bool,
    pub writer: usize,
    pub reader: usize,
    pub port: usize,
    pub capacity: usize,
    pub initial: usize,
    pub tokens: Vec<i32>,
}

pub struct Table {
    pub nodes: Vec<Node>,
    pub channels: Vec<Channel>,
}

/// The bytes and the bit it stands at.
struct Reader<'a> {
    bytes: &'a [u8],
    at: usize,
}

impl Reader<'_> {
    fn left(&self) -> usize {
        self.bytes.len() * 8 - self.at
    }

    /// Refusal 1 if the bits end before or inside a piece of this width.
    fn piece(&self, width: usize) -> Result<(), Refusal> {
        if self.left() < width {
            return refuse(1, self.at);
        }
        Ok(())
    }

    /// The next bits as a number, most significant first.
    fn field(&mut self, width: usize) -> u32 {
        let mut value = 0u32;
        for _ in 0..width {
            let bit = self.bytes[self.at / 8] >> (7 - self.at % 8) & 1;
            value = value << 1 | u32::from(bit);
            self.at += 1;
        }
        value
    }

    fn number(&mut self, width: usize) -> usize {
        self.field(width) as usize
    }
}

pub fn read_table(bytes: &[u8]) -> Result<Table, Refusal> {
    let mut reader = Reader { bytes, at: 0 };
    let (node_count, channel_count) = read_header(&mut reader)?;
    let mut nodes = Vec::new();
    for place in 0..node_count {
        nodes.push(read_node(&mut reader, place)?);
    }
    let mut channels = Vec::new();
    let mut capacities = 0;
    for place in 0..channel_count {
        let mut channel = read_channel(&mut reader, place, node_count)?;
        capacities += channel.capacity;
        if capacities > MOST_CAPACITY {
            return refuse(6, place);
        }
        for _ in 0..channel.initial {
            reader.piece(32)?;
            channel.tokens.push(reader.field(32) as i32);
        }
        channels.push(channel);
    }
    // Zero bits to the end of the byte, then nothing.
    let left = reader.left();
    if left >= 8 || reader.field(left) != 0 {
        return refuse(7, 0);
    }
    let table = Table { nodes, channels };
    check_ports(&table)?;
    Ok(table)
}

fn read_header(reader: &mut Reader) -> Result<(usize, usize), Refusal> {
    reader.piece(24)?;
    let version = reader.number(4);
    let node_count = reader.number(6);
    let channel_count = reader.number(7);
    let spare = reader.number(7);
    if version != 1 {
        return refuse(2, 0);
    }
    if !(1..=32).contains(&node_count) || channel_count > 64 || spare != 0 {
        return refuse(3, 0);
    }
    Ok((node_count, channel_count))
}

fn read_node(reader: &mut Reader, place: usize) -> Result<Node, Refusal> {
    reader.piece(69)?;
    let node = Node {
        kind: reader.number(5),
        period: u64::from(reader.field(16)),
        deadline: u64::from(reader.field(16)),
        constant: reader.field(32) as i32,
    };
    let constant_good = match node.kind {
        0 | 2 => true,
        7 => node.constant != 0,
        _ => node.constant == 0,
    };
    // A period of 0 leaves no good deadline.
    let deadline_good = 1 <= node.deadline && node.deadline <= node.period;
    if node.kind > 11 || !deadline_good || !constant_good {
        return refuse(4, place);
    }
    Ok(node)
}

/// A channel's 29 bits; its tokens are pieces of their own.
fn read_channel(reader: &mut Reader, place: usize, node_count: usize) -> Result<Channel, Refusal> {
    reader.piece(29)?;
    let c = Channel {
        register: reader.number(1) == 1,
        writer: reader.number(6),
        reader: reader.number(6),
        port: reader.number(2),
        capacity: reader.number(7),
        initial: reader.number(7),
        tokens: Vec::new(),
    };
    let known = |end: usize| end < node_count || end == OUTSIDE;
    let ends_good = known(c.writer) && known(c.reader) && !(c.writer == OUTSIDE && c.reader == OUTSIDE);
    let sizes_good = (1..=64).contains(&c.capacity) && c.initial <= c.capacity;
    let register_good = !c.register || (c.capacity == 1 && c.initial == 1);
    let outside_good = c.reader != OUTSIDE || (!c.register && c.port == 0 && c.capacity == 1 && c.initial == 0);
    if !ends_good || !sizes_good || !register_good || !outside_good {
        return refuse(5, place);
    }
    Ok(c)
}

/// Every port below the input count is served by exactly one channel, any other by none.
fn check_ports(table: &Table) -> Result<(), Refusal> {
    for (place, node) in table.nodes.iter().enumerate() {
        for port in 0..4 {
            let serves = |c: &&Channel| c.reader == place && c.port == port;
            let served = table.channels.iter().filter(serves).count();
            let wanted = if port < INPUTS[node.kind] { 1 } else { 0 };
            if served != wanted {
                return refuse(8, place);
            }
        }
    }
    Ok(())
}
