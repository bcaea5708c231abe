//! Guaranteed routes by the published way: remove what fails with a link, run Dijkstra again for its recovery value,
//! then one Dijkstra-like sweep that takes the worse of the recovery value and the extended value.

use crate::map::{Link, Network};
use std::cmp::Ordering;
use std::collections::{BinaryHeap, VecDeque};

#[derive(Clone, Copy, PartialEq, Eq)]
pub enum Measure {
    Delay,
    Width,
}

impl Measure {
    pub fn start(self) -> u64 {
        match self {
            Measure::Delay => 0,
            Measure::Width => 4_294_967_295,
        }
    }

    pub fn extend(self, value: u64, figure: u64) -> u64 {
        match self {
            Measure::Delay => value.saturating_add(figure),
            Measure::Width => value.min(figure),
        }
    }

    /// Less is better.
    fn order(self, a: u64, b: u64) -> Ordering {
        match self {
            Measure::Delay => a.cmp(&b),
            Measure::Width => b.cmp(&a),
        }
    }

    fn worse(self, a: u64, b: u64) -> u64 {
        if self.order(a, b) == Ordering::Less {
            b
        } else {
            a
        }
    }
}

struct Entry {
    measure: Measure,
    value: u64,
    node: usize,
}

impl PartialEq for Entry {
    fn eq(&self, other: &Entry) -> bool {
        self.cmp(other) == Ordering::Equal
    }
}
impl Eq for Entry {}
impl PartialOrd for Entry {
    fn partial_cmp(&self, other: &Entry) -> Option<Ordering> {
        Some(self.cmp(other))
    }
}
impl Ord for Entry {
    fn cmp(&self, other: &Entry) -> Ordering {
        // the best comes out of the heap first
        self.measure.order(other.value, self.value).then(other.node.cmp(&self.node))
    }
}

/// Which links are there, and the links into each node.
pub struct Service<'a> {
    pub network: &'a Network,
    pub present: Vec<bool>,
    into: Vec<Vec<usize>>,
}

impl<'a> Service<'a> {
    pub fn new(network: &'a Network, withdrawn: &[bool]) -> Service<'a> {
        let mut into = vec![Vec::new(); network.nodes];
        for (k, link) in network.links.iter().enumerate() {
            into[link.head].push(k);
        }
        Service { network, present: withdrawn.iter().map(|w| !w).collect(), into }
    }

    fn link(&self, k: usize) -> &Link {
        &self.network.links[k]
    }

    fn at_risk(&self, k: usize, j: usize) -> bool {
        j == k || self.link(j).groups & self.link(k).groups != 0
    }

    /// Best values to t over the links that `usable` takes, where `bound` (if given) holds each link's recovery value.
    /// Stops once `goal` is settled.
    fn sweep(&self, measure: Measure, t: usize, usable: impl Fn(usize) -> bool, bound: Option<&[Option<u64>]>, goal: Option<usize>) -> Vec<Option<u64>> {
        let mut best = vec![None; self.network.nodes];
        let mut heap = BinaryHeap::new();
        heap.push(Entry { measure, value: measure.start(), node: t });
        while let Some(Entry { value, node, .. }) = heap.pop() {
            if best[node].is_some() {
                continue;
            }
            best[node] = Some(value);
            if goal == Some(node) {
                break;
            }
            for &k in &self.into[node] {
                let link = self.link(k);
                if !self.present[k] || best[link.tail].is_some() || !usable(k) {
                    continue;
                }
                let mut next = measure.extend(value, link.figure);
                if let Some(bound) = bound {
                    match bound[k] {
                        Some(r) => next = measure.worse(r, next),
                        None => continue,
                    }
                }
                heap.push(Entry { measure, value: next, node: link.tail });
            }
        }
        best
    }

    pub fn plain(&self, measure: Measure, t: usize, without: Option<usize>) -> Vec<Option<u64>> {
        self.sweep(measure, t, |j| without.map_or(true, |k| !self.at_risk(k, j)), None, None)
    }

    /// The recovery value of every link that is there: one search for each.
    pub fn recoveries(&self, measure: Measure, t: usize) -> Vec<Option<u64>> {
        (0..self.network.links.len())
            .map(|k| {
                if !self.present[k] {
                    return None;
                }
                let tail = self.link(k).tail;
                self.sweep(measure, t, |j| !self.at_risk(k, j), None, Some(tail))[tail]
            })
            .collect()
    }

    /// The same with the published shortcut: a search only where a link at risk lies on the best route of the tail.
    pub fn recoveries_by_shortcut(&self, measure: Measure, t: usize) -> Vec<Option<u64>> {
        let best = self.plain(measure, t, None);
        let parent = self.tree(measure, t, &best);
        (0..self.network.links.len())
            .map(|k| {
                if !self.present[k] {
                    return None;
                }
                let tail = self.link(k).tail;
                best[tail]?;
                let mut node = tail;
                let mut met = false;
                while node != t {
                    let j = parent[node].unwrap();
                    if self.at_risk(k, j) {
                        met = true;
                        break;
                    }
                    node = self.link(j).head;
                }
                if !met {
                    return best[tail];
                }
                self.sweep(measure, t, |j| !self.at_risk(k, j), None, Some(tail))[tail]
            })
            .collect()
    }

    /// One parent link per node, along which the best values are met.
    fn tree(&self, measure: Measure, t: usize, best: &[Option<u64>]) -> Vec<Option<usize>> {
        let tight = |k: usize| {
            let link = self.link(k);
            match (best[link.head], best[link.tail]) {
                (Some(beyond), Some(own)) => measure.extend(beyond, link.figure) == own,
                _ => false,
            }
        };
        self.nexts(t, tight).0
    }

    /// Next links and steps over tight links: breadth first from t, the lowest number among equals.
    pub fn nexts(&self, t: usize, tight: impl Fn(usize) -> bool) -> (Vec<Option<usize>>, Vec<Option<usize>>) {
        let n = self.network.nodes;
        let mut steps: Vec<Option<usize>> = vec![None; n];
        steps[t] = Some(0);
        let mut queue = VecDeque::from([t]);
        while let Some(node) = queue.pop_front() {
            for &k in &self.into[node] {
                let tail = self.link(k).tail;
                if self.present[k] && tail != t && steps[tail].is_none() && tight(k) {
                    steps[tail] = Some(steps[node].unwrap() + 1);
                    queue.push_back(tail);
                }
            }
        }
        let mut next = vec![None; n];
        for (k, link) in self.network.links.iter().enumerate() {
            if self.present[k] && link.tail != t && next[link.tail].is_none() && tight(k) {
                if let (Some(a), Some(b)) = (steps[link.tail], steps[link.head]) {
                    if a == b + 1 {
                        next[link.tail] = Some(k);
                    }
                }
            }
        }
        (next, steps)
    }
}

pub struct Plan {
    pub destination: usize,
    pub guarantee: Vec<Option<u64>>,
    pub next: Vec<Option<usize>>,
}

pub fn plan(service: &Service, measure: Measure, t: usize, shortcut: bool) -> Plan {
    let r = if shortcut { service.recoveries_by_shortcut(measure, t) } else { service.recoveries(measure, t) };
    let guarantee = service.sweep(measure, t, |_| true, Some(&r), None);
    let tight = |k: usize| {
        let link = service.link(k);
        match (r[k], guarantee[link.head], guarantee[link.tail]) {
            (Some(r), Some(beyond), Some(own)) => measure.worse(r, measure.extend(beyond, link.figure)) == own,
            _ => false,
        }
    };
    let next = service.nexts(t, tight).0;
    Plan { destination: t, guarantee, next }
}

/// The places along next links.
fn follow(service: &Service, next: &[Option<usize>], from: usize, t: usize) -> Vec<usize> {
    let mut node = from;
    let mut places = Vec::new();
    while node != t {
        let k = next[node].expect("a node with a value has a next link");
        places.push(k);
        node = service.link(k).head;
    }
    places
}

impl Plan {
    pub fn route(&self, service: &Service, node: usize) -> Vec<usize> {
        follow(service, &self.next, node, self.destination)
    }

    pub fn backup(&self, service: &Service, measure: Measure, k: usize) -> Vec<usize> {
        let t = self.destination;
        let best = service.plain(measure, t, Some(k));
        let tight = |j: usize| {
            let link = service.link(j);
            match (best[link.head], best[link.tail]) {
                (Some(beyond), Some(own)) => !service.at_risk(k, j) && measure.extend(beyond, link.figure) == own,
                _ => false,
            }
        };
        let next = service.nexts(t, tight).0;
        follow(service, &next, service.link(k).tail, t)
    }

    pub fn trace(&self, service: &Service, measure: Measure, node: usize, failed: impl Fn(usize) -> bool) -> (u64, Vec<usize>) {
        let mut places = Vec::new();
        let mut at = node;
        while at != self.destination {
            let k = self.next[at].expect("a node with a guarantee has a next link");
            if failed(k) {
                places.extend(self.backup(service, measure, k));
                break;
            }
            places.push(k);
            at = service.link(k).head;
        }
        let value = places.iter().rev().fold(measure.start(), |v, &k| measure.extend(v, service.link(k).figure));
        (value, places)
    }
}
