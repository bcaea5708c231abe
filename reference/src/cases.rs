//! Networks, maps and dialogues from seeds.

/// SplitMix64.
pub struct Random(u64);

impl Random {
    pub fn new(seed: u64) -> Random {
        Random(seed.wrapping_mul(0x9E37_79B9_7F4A_7C15) ^ 0xD1B5_4A32_D192_ED03)
    }

    pub fn next(&mut self) -> u64 {
        self.0 = self.0.wrapping_add(0x9E37_79B9_7F4A_7C15);
        let mut z = self.0;
        z = (z ^ (z >> 30)).wrapping_mul(0xBF58_476D_1CE4_E5B9);
        z = (z ^ (z >> 27)).wrapping_mul(0x94D0_49BB_1331_11EB);
        z ^ (z >> 31)
    }

    /// Below n.
    pub fn below(&mut self, n: usize) -> usize {
        (self.next() % n.max(1) as u64) as usize
    }

    /// True once in n times.
    pub fn once_in(&mut self, n: usize) -> bool {
        self.below(n) == 0
    }
}

#[derive(Clone)]
pub struct Links {
    pub nodes: usize,
    /// Tail, head, figure, groups.
    pub links: Vec<(u16, u16, u32, u32)>,
}

impl Links {
    pub fn bytes(&self) -> Vec<u8> {
        let mut out = Vec::new();
        out.extend((self.nodes as u16).to_be_bytes());
        out.extend((self.links.len() as u16).to_be_bytes());
        for (tail, head, _, _) in &self.links {
            out.extend(tail.to_be_bytes());
            out.extend(head.to_be_bytes());
        }
        for (_, _, figure, groups) in &self.links {
            out.extend(figure.to_be_bytes());
            out.extend(groups.to_be_bytes());
        }
        out
    }
}

fn figure(r: &mut Random, kind: usize) -> u32 {
    match kind {
        0 => r.below(4) as u32,
        1 => 7,
        2 => [0, 1, u32::MAX - 1, u32::MAX][r.below(4)],
        3 => r.next() as u32,
        _ => 1 + r.below(100) as u32,
    }
}

fn groups(r: &mut Random, kind: usize) -> u32 {
    match kind {
        0 => 0,
        1 if r.once_in(3) => 1 << r.below(3),
        1 => 0,
        2 => 1 << r.below(32),
        _ if r.once_in(4) => (r.next() & r.next()) as u32,
        _ => 1 << r.below(32) & r.next() as u32,
    }
}

pub fn network(r: &mut Random) -> Links {
    let nodes = match r.below(20) {
        0 => 1,
        1..=11 => 2 + r.below(7),
        12..=16 => 9 + r.below(24),
        17 => 33 + r.below(100),
        18 => 133 + r.below(123),
        _ => 256,
    };
    let (figures, grouping) = (r.below(5), r.below(4));
    let mut links = Vec::new();
    let most = 1024.min(match r.below(4) {
        0 => nodes,
        1 => 2 * nodes,
        2 => 4 * nodes,
        _ => nodes * nodes,
    });
    let shape = r.below(4);
    // two parts that no link joins
    let split = if r.once_in(5) { nodes / 2 } else { 0 };
    for i in 0..most {
        let (tail, head) = match shape {
            // both ways along a ring, then chords
            0 if i < 2 * nodes => {
                let a = i / 2;
                let b = (a + 1) % nodes;
                if i % 2 == 0 { (a, b) } else { (b, a) }
            }
            // a grid
            1 => {
                let w = (nodes as f64).sqrt() as usize + 1;
                let a = r.below(nodes);
                let b = [a + 1, a + w, a.wrapping_sub(1), a.wrapping_sub(w)][r.below(4)];
                (a, if b < nodes { b } else { r.below(nodes) })
            }
            // many parallel links
            2 => (r.below(nodes.min(4)), r.below(nodes.min(4))),
            _ => (r.below(nodes), r.below(nodes)),
        };
        if tail == head || (tail < split) != (head < split) {
            continue;
        }
        links.push((tail as u16, head as u16, figure(r, figures), groups(r, grouping)));
    }
    Links { nodes, links }
}

fn damage(r: &mut Random, mut links: Links) -> Vec<u8> {
    let m = links.links.len();
    match r.below(8) {
        0 if m > 0 => links.links[r.below(m)].0 = links.nodes as u16 + r.below(3) as u16,
        1 if m > 0 => links.links[r.below(m)].1 = links.nodes as u16 + r.below(3) as u16,
        2 if m > 0 => {
            let k = r.below(m);
            links.links[k].1 = links.links[k].0;
        }
        3 => links.nodes = [0, 257, 300, 65_535][r.below(4)],
        _ => {}
    }
    let mut bytes = links.bytes();
    match r.below(7) {
        0 => bytes.truncate(r.below(bytes.len() + 1)),
        1 => bytes.extend((0..1 + r.below(20)).map(|i| i as u8)),
        2 => bytes.truncate(r.below(5)),
        3 => {
            let at = r.below(bytes.len());
            bytes[at] ^= 1 << r.below(8);
        }
        4 => bytes.resize(12_280 + r.below(40), 0),
        5 => bytes[2..4].copy_from_slice(&[1025, 1026, 4096, 65_535u16][r.below(4)].to_be_bytes()),
        _ => {}
    }
    bytes
}

fn number(r: &mut Random, below: usize) -> String {
    match r.below(40) {
        0 => below.to_string(),
        1 => (below + r.below(1000)).to_string(),
        2 => "65535".into(),
        3 => "65536".into(),
        4 => format!("{:0>w$}", r.below(below), w = 1 + r.below(40)),
        5 => format!("{}", r.next()),
        6 => "184467440737095516170000000000000000000000000000000000".into(),
        _ => r.below(below).to_string(),
    }
}

fn malformed(r: &mut Random) -> Vec<u8> {
    match r.below(9) {
        0 => Vec::new(),
        1 => b" ".repeat(1 + r.below(4)),
        2 => (0..r.below(80)).map(|_| (r.next() as u8).max(11)).collect(),
        3 => format!("P  {}", r.below(4)).into_bytes(),
        4 => format!("P {} ", r.below(4)).into_bytes(),
        5 => format!("G {}\r", r.below(4)).into_bytes(),
        6 => vec![b'7'; 60 + r.below(8)],
        7 => [b"P ".to_vec(), vec![b'0'; 58 + r.below(8)]].concat(),
        _ => ["p 3", "X 1", "D", "P", "L 0", "S 1", "P x", "L 0 1 2", "W -1", "G 1 2", "3 P"][r.below(11)].into(),
    }
}

/// A map and what is typed to the console.
#[derive(Clone)]
pub struct Case {
    pub map: Option<Links>,
    pub bytes: Vec<u8>,
    pub lines: Vec<Vec<u8>>,
    pub last_break: bool,
}

impl Case {
    pub fn input(&self) -> Vec<u8> {
        let mut input = self.lines.join(&b'\n');
        if self.last_break && !self.lines.is_empty() {
            input.push(b'\n');
        }
        input
    }

    pub fn map_bytes(&self) -> Vec<u8> {
        self.map.as_ref().map_or_else(|| self.bytes.clone(), Links::bytes)
    }
}

pub fn case(seed: u64) -> Case {
    let mut r = Random::new(seed);
    let links = network(&mut r);
    let (nodes, places) = (links.nodes, links.links.len());
    let damaged = r.once_in(10);
    let bytes = if damaged { damage(&mut r, links.clone()) } else { Vec::new() };
    let first: &[u8] = match r.below(30) {
        0 => [&b"d"[..], b"", b"D ", b"DC", b"P 0"][r.below(5)],
        n if n % 2 == 0 => b"D",
        _ => b"C",
    };
    let mut lines = vec![first.to_vec()];
    let mut plans = if nodes > 100 { 3 } else { 12 };
    let wanted = r.below(40);
    let target = r.below(nodes);
    while lines.len() <= wanted {
        let u = number(&mut r, nodes);
        let k = number(&mut r, places);
        let line = match r.below(20) {
            0 => malformed(&mut r),
            1..=3 => {
                if plans == 0 {
                    continue;
                }
                plans -= 1;
                let t = if r.once_in(3) { u } else { target.to_string() };
                format!("P {t}").into_bytes()
            }
            4..=6 => format!("G {u}").into_bytes(),
            7 | 8 => format!("R {u}").into_bytes(),
            9 | 10 => format!("B {u}").into_bytes(),
            11 | 12 => format!("W {k}").into_bytes(),
            13 => format!("M {k}").into_bytes(),
            14..=16 => format!("L {u} {k}").into_bytes(),
            _ => format!("S {u} {}", number(&mut r, 32)).into_bytes(),
        };
        lines.push(line);
    }
    if r.once_in(100) {
        lines.clear();
    }
    Case { map: if damaged { None } else { Some(links) }, bytes, lines, last_break: !r.once_in(5) }
}
