//! The console: one line in, one line out.

use crate::map::Network;
use crate::plan::{plan, Measure, Plan, Service};
use std::io::Write;

struct Session<'a> {
    network: &'a Network,
    measure: Measure,
    withdrawn: Vec<bool>,
    plan: Option<Plan>,
    shortcut: bool,
}

enum Word<'a> {
    Letter(u8),
    Number(&'a [u8]),
    Other,
}

type Fault = (u32, u32, usize);

fn words(line: &[u8]) -> Vec<(usize, Word<'_>)> {
    let mut out = Vec::new();
    let mut start = 0;
    for word in line.split(|b| *b == b' ') {
        let kind = match word {
            [b] if b.is_ascii_alphabetic() => Word::Letter(*b),
            w if !w.is_empty() && w.iter().all(|b| b.is_ascii_digit()) => Word::Number(w),
            _ => Word::Other,
        };
        out.push((start, kind));
        start += word.len() + 1;
    }
    out
}

/// A letter and its numbers.
fn parse(line: &[u8]) -> Result<(u8, Vec<usize>), Fault> {
    if line.len() > 64 {
        return Err((4, 19, 64));
    }
    let words = words(line);
    let letter = match words[0].1 {
        Word::Letter(b) if b"PGRBWMLS".contains(&b) => b,
        _ => return Err((4, 19, 0)),
    };
    let wanted = if b"LS".contains(&letter) { 2 } else { 1 };
    let mut numbers = Vec::new();
    for i in 1..=wanted {
        let Some((start, word)) = words.get(i) else {
            return Err((4, 19, line.len() + 1));
        };
        let Word::Number(digits) = word else {
            return Err((4, 19, *start));
        };
        let significant = digits.iter().skip_while(|d| **d == b'0').count();
        let value = digits.iter().fold(0u64, |n, d| (n * 10 + u64::from(d - b'0')).min(1_000_000));
        if significant > 5 || value > 65_535 {
            return Err((4, 20, *start));
        }
        numbers.push(value as usize);
    }
    match words.get(wanted + 1) {
        Some((start, _)) => Err((4, 19, *start)),
        None => Ok((letter, numbers)),
    }
}

impl Session<'_> {
    fn link(&self, k: usize) -> Result<(), Fault> {
        if k < self.network.links.len() {
            Ok(())
        } else {
            Err((3, 8, k))
        }
    }

    fn standing(&self, u: usize) -> Result<(&Plan, u64), Fault> {
        let plan = self.plan.as_ref().ok_or((3, 12, 0))?;
        if u >= self.network.nodes {
            return Err((3, 13, u));
        }
        let value = plan.guarantee[u].ok_or((3, 14, u))?;
        Ok((plan, value))
    }

    fn answer(&mut self, letter: u8, n: &[usize]) -> Result<Vec<u64>, Fault> {
        let service = Service::new(self.network, &self.withdrawn);
        let places = |ks: Vec<usize>| ks.into_iter().map(|k| k as u64).collect();
        match letter {
            b'P' => {
                if n[0] >= self.network.nodes {
                    return Err((3, 11, n[0]));
                }
                let plan = plan(&service, self.measure, n[0], self.shortcut);
                let count = plan.guarantee.iter().flatten().count();
                self.plan = Some(plan);
                Ok(vec![count as u64])
            }
            b'W' | b'M' => {
                self.link(n[0])?;
                let out = letter == b'W';
                if self.withdrawn[n[0]] == out {
                    return Err((3, if out { 9 } else { 10 }, n[0]));
                }
                self.withdrawn[n[0]] = out;
                self.plan = None;
                Ok(Vec::new())
            }
            b'G' => Ok(vec![self.standing(n[0])?.1]),
            b'R' => Ok(places(self.standing(n[0])?.0.route(&service, n[0]))),
            b'B' => {
                let plan = self.standing(n[0])?.0;
                if n[0] == plan.destination {
                    return Err((3, 15, n[0]));
                }
                let k = plan.next[n[0]].expect("a node with a guarantee has a next link");
                Ok(places(plan.backup(&service, self.measure, k)))
            }
            _ => {
                let plan = self.standing(n[0])?.0;
                let (value, route) = if letter == b'L' {
                    self.link(n[1])?;
                    plan.trace(&service, self.measure, n[0], |k| k == n[1])
                } else {
                    if n[1] >= 32 {
                        return Err((3, 17, n[1]));
                    }
                    plan.trace(&service, self.measure, n[0], |k| self.network.links[k].groups >> n[1] & 1 == 1)
                };
                let mut answer = vec![value];
                answer.extend(route.into_iter().map(|k| k as u64));
                Ok(answer)
            }
        }
    }
}

fn refuse(out: &mut Vec<u8>, line: usize, (layer, number, place): Fault) {
    writeln!(out, "E {line} {layer} {number} {place}").unwrap();
}

/// What the program prints for a map and these bytes of input.
pub fn run(map: Result<Network, Fault>, input: &[u8], shortcut: bool) -> Vec<u8> {
    let mut out = Vec::new();
    let network = match map {
        Ok(network) => network,
        Err(fault) => {
            refuse(&mut out, 0, fault);
            return out;
        }
    };
    let mut lines: Vec<&[u8]> = input.split(|b| *b == b'\n').collect();
    if lines.last() == Some(&&b""[..]) {
        lines.pop();
    }
    let measure = match lines.first() {
        Some(&b"D") => Measure::Delay,
        Some(&b"C") => Measure::Width,
        _ => {
            refuse(&mut out, 1, (4, 19, 0));
            return out;
        }
    };
    out.extend_from_slice(lines[0]);
    writeln!(out, " {} {}", network.nodes, network.links.len()).unwrap();
    let mut session = Session { network: &network, measure, withdrawn: vec![false; network.links.len()], plan: None, shortcut };
    for (i, line) in lines.iter().enumerate().skip(1) {
        match parse(line).and_then(|(letter, n)| session.answer(letter, &n).map(|answer| (letter, n, answer))) {
            Ok((letter, n, answer)) => {
                out.push(letter);
                for field in n.iter().map(|x| *x as u64).chain(answer) {
                    write!(out, " {field}").unwrap();
                }
                out.push(b'\n');
            }
            Err(fault) => refuse(&mut out, i + 1, fault),
        }
    }
    out
}
