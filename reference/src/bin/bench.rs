//! Times plans towards every destination, in the product and in the reference, in one run.
//!
//! bench PRODUCT
//!
//! The product is timed through its console: a dialogue that plans towards every node, less the time of the same
//! dialogue with no plan in it. The reference is timed in this process, once with a search for each link and once
//! with the published shortcut. Times are of one plan, the best of several runs.

use reference::cases::{Links, Random};
use reference::map::{self, Network};
use reference::plan::{plan, Measure, Service};
use std::io::Write;
use std::path::Path;
use std::process::{Command, Stdio};
use std::time::Instant;

fn grid(nodes: usize) -> Vec<(usize, usize)> {
    let w = (nodes as f64).sqrt().round() as usize;
    let mut pairs = Vec::new();
    for a in 0..nodes {
        if (a + 1) % w != 0 && a + 1 < nodes {
            pairs.push((a, a + 1));
        }
        if a + w < nodes {
            pairs.push((a, a + w));
        }
    }
    pairs
}

fn ring(nodes: usize, r: &mut Random) -> Vec<(usize, usize)> {
    let mut pairs: Vec<_> = (0..nodes).map(|a| (a, (a + 1) % nodes)).collect();
    for _ in 0..nodes {
        let (a, b) = (r.below(nodes), r.below(nodes));
        if a != b {
            pairs.push((a, b));
        }
    }
    pairs
}

/// Long lines of stations that meet at junctions.
fn railway(nodes: usize, r: &mut Random) -> Vec<(usize, usize)> {
    let mut pairs: Vec<_> = (1..nodes).map(|a| (if a % 12 == 0 { r.below(a) } else { a - 1 }, a)).collect();
    for _ in 0..nodes / 4 {
        let (a, b) = (r.below(nodes), r.below(nodes));
        if a != b {
            pairs.push((a, b));
        }
    }
    pairs
}

fn links(nodes: usize, mut pairs: Vec<(usize, usize)>, grouped: bool, r: &mut Random) -> Links {
    pairs.truncate(512);
    let mut links = Vec::new();
    for (a, b) in pairs {
        let figure = 1 + r.below(1000) as u32;
        let groups = if grouped && r.once_in(2) { 1 << r.below(32) } else { 0 };
        links.push((a as u16, b as u16, figure, groups));
        links.push((b as u16, a as u16, figure, groups));
    }
    Links { nodes, links }
}

fn backbone(r: &mut Random) -> Links {
    // 153 nodes and 382 links: 191 lines, both ways
    let mut pairs: Vec<_> = (1..153).map(|a| (r.below(a), a)).collect();
    while pairs.len() < 191 {
        let (a, b) = (r.below(153), r.below(153));
        if a != b {
            pairs.push((a, b));
        }
    }
    links(153, pairs, false, r)
}

fn seconds(product: &Path, folder: &Path, input: &str) -> f64 {
    let mut best = f64::MAX;
    for _ in 0..3 {
        let start = Instant::now();
        let mut child = Command::new(product)
            .current_dir(folder)
            .stdin(Stdio::piped())
            .stdout(Stdio::null())
            .spawn()
            .expect("the product starts");
        child.stdin.take().unwrap().write_all(input.as_bytes()).unwrap();
        child.wait().unwrap();
        best = best.min(start.elapsed().as_secs_f64());
    }
    best
}

/// The time of one call, in milliseconds: the lines, less the same input without them.
fn per_call(product: &Path, folder: &Path, before: &str, lines: &[String]) -> f64 {
    let with = format!("{before}{}", lines.concat());
    (seconds(product, folder, &with) - seconds(product, folder, before)).max(0.0) * 1000.0 / lines.len().max(1) as f64
}

fn reference_plan(network: &Network, measure: Measure, shortcut: bool) -> f64 {
    let withdrawn = vec![false; network.links.len()];
    let service = Service::new(network, &withdrawn);
    let start = Instant::now();
    for t in 0..network.nodes {
        std::hint::black_box(plan(&service, measure, t, shortcut));
    }
    start.elapsed().as_secs_f64() * 1000.0 / network.nodes as f64
}

fn row(product: &Path, folder: &Path, name: &str, links: &Links, measure: Measure) {
    let bytes = links.bytes();
    std::fs::write(folder.join("net.map"), &bytes).unwrap();
    let network = map::read(&bytes).expect("a map");
    let letter = if measure == Measure::Delay { "D" } else { "C" };
    let first = format!("{letter}\n");
    let plans: Vec<String> = (0..links.nodes).map(|t| format!("P {t}\n")).collect();
    let product_ms = per_call(product, folder, &first, &plans);
    let each = reference_plan(&network, measure, false);
    let shortcut = reference_plan(&network, measure, true);
    let planned = format!("{letter}\nP 0\n");
    let nodes = links.nodes;
    let backups: Vec<String> = (0..2000).map(|i| format!("B {}\n", 1 + i % (nodes - 1))).collect();
    let traces: Vec<String> = (0..2000).map(|i| format!("L {} {}\n", i % nodes, i % network.links.len())).collect();
    let backup = per_call(product, folder, &planned, &backups);
    let trace = per_call(product, folder, &planned, &traces);
    println!(
        "| {name} | {letter} | {} | {} | {product_ms:.3} | {each:.3} | {shortcut:.3} | {:.2} | {:.2} | {backup:.4} | {trace:.4} |",
        links.nodes,
        links.links.len(),
        each / product_ms,
        shortcut / product_ms
    );
}

fn main() {
    let args: Vec<String> = std::env::args().collect();
    if args.len() != 2 {
        eprintln!("usage: bench PRODUCT");
        std::process::exit(2);
    }
    let product = std::fs::canonicalize(&args[1]).expect("the product is there");
    let folder = std::env::temp_dir().join(format!("bench-{}", std::process::id()));
    std::fs::create_dir_all(&folder).unwrap();
    println!("| map | measure | nodes | links | product, ms per plan | search per link | shortcut | search per link / product | shortcut / product | backup, ms | trace, ms |");
    println!("|---|---|---|---|---|---|---|---|---|---|---|");
    for nodes in [64, 128, 256] {
        for grouped in [false, true] {
            for measure in [Measure::Delay, Measure::Width] {
                let mut r = Random::new(nodes as u64);
                let suffix = if grouped { ", 32 groups" } else { "" };
                row(&product, &folder, &format!("grid{suffix}"), &links(nodes, grid(nodes), grouped, &mut r), measure);
                let pairs = ring(nodes, &mut r);
                row(&product, &folder, &format!("ring with chords{suffix}"), &links(nodes, pairs, grouped, &mut r), measure);
                let pairs = railway(nodes, &mut r);
                row(&product, &folder, &format!("railway{suffix}"), &links(nodes, pairs, grouped, &mut r), measure);
            }
        }
    }
    for measure in [Measure::Delay, Measure::Width] {
        let links = backbone(&mut Random::new(153));
        row(&product, &folder, "backbone", &links, measure);
    }
    let _ = std::fs::remove_dir_all(&folder);
}
