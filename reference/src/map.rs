//! Reads a map and says what is wrong with it.

#[derive(Clone, Copy, Debug)]
pub struct Link {
    pub tail: usize,
    pub head: usize,
    pub figure: u64,
    pub groups: u32,
}

pub struct Network {
    pub nodes: usize,
    pub links: Vec<Link>,
}

/// Layer, number and place.
pub type Fault = (u32, u32, usize);

fn number(bytes: &[u8]) -> u64 {
    bytes.iter().fold(0, |n, b| n * 256 + u64::from(*b))
}

pub fn read(bytes: &[u8]) -> Result<Network, Fault> {
    if bytes.len() < 4 {
        return Err((2, 6, bytes.len()));
    }
    let nodes = number(&bytes[0..2]) as usize;
    let m = number(&bytes[2..4]) as usize;
    if !(1..=256).contains(&nodes) {
        return Err((2, 1, nodes));
    }
    if m > 1024 {
        return Err((2, 2, m));
    }
    let right = 4 + 12 * m;
    if bytes.len() != right {
        return Err((2, 7, bytes.len().min(right)));
    }
    let (ends, loads) = bytes[4..].split_at(4 * m);
    let mut links = Vec::new();
    for (k, (end, load)) in ends.chunks(4).zip(loads.chunks(8)).enumerate() {
        let link = Link {
            tail: number(&end[0..2]) as usize,
            head: number(&end[2..4]) as usize,
            figure: number(&load[0..4]),
            groups: number(&load[4..8]) as u32,
        };
        if link.tail >= nodes {
            return Err((1, 3, k));
        }
        if link.head >= nodes {
            return Err((1, 4, k));
        }
        if link.tail == link.head {
            return Err((1, 5, k));
        }
        links.push(link);
    }
    Ok(Network { nodes, links })
}
