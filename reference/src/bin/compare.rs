//! Runs two programs that speak the language of the console on cases made from seeds, and compares every byte.
//!
//! compare PROGRAM OTHER FIRST COUNT [--whole]
//!
//! The first difference is shrunk, unless --whole is given, and printed with the way to repeat it.

use reference::cases::{case, Case};
use std::io::Write;
use std::path::{Path, PathBuf};
use std::process::{Command, Stdio};
use std::sync::atomic::{AtomicBool, AtomicU64, Ordering};

/// What a program prints, and its exit status.
fn run(program: &Path, folder: &Path, input: &[u8]) -> (Vec<u8>, Option<i32>) {
    let mut child = Command::new(program)
        .current_dir(folder)
        .stdin(Stdio::piped())
        .stdout(Stdio::piped())
        .stderr(Stdio::null())
        .spawn()
        .expect("the program starts");
    let mut stdin = child.stdin.take().unwrap();
    let input = input.to_vec();
    let writer = std::thread::spawn(move || {
        // a program that has ended its run reads no further
        let _ = stdin.write_all(&input);
    });
    let output = child.wait_with_output().unwrap();
    writer.join().unwrap();
    (output.stdout, output.status.code())
}

struct Programs {
    program: PathBuf,
    other: PathBuf,
}

impl Programs {
    fn differ(&self, folder: &Path, case: &Case) -> bool {
        std::fs::write(folder.join("net.map"), case.map_bytes()).unwrap();
        let input = case.input();
        run(&self.program, folder, &input) != run(&self.other, folder, &input)
    }

    /// Leaves out lines, then links, as long as the programs still differ.
    fn shrink(&self, folder: &Path, mut case: Case) -> Case {
        loop {
            let mut smaller = None;
            for i in (1..case.lines.len()).rev() {
                let mut try_case = case.clone();
                try_case.lines.remove(i);
                if self.differ(folder, &try_case) {
                    smaller = Some(try_case);
                    break;
                }
            }
            if smaller.is_none() {
                if let Some(links) = &case.map {
                    for k in (0..links.links.len()).rev() {
                        let mut try_case = case.clone();
                        try_case.map.as_mut().unwrap().links.remove(k);
                        if self.differ(folder, &try_case) {
                            smaller = Some(try_case);
                            break;
                        }
                    }
                }
            }
            match smaller {
                Some(next) => case = next,
                None => return case,
            }
        }
    }
}

fn report(programs: &Programs, folder: &Path, seed: u64, case: &Case) {
    std::fs::write(folder.join("net.map"), case.map_bytes()).unwrap();
    std::fs::write(folder.join("input"), case.input()).unwrap();
    println!("DIFFERENCE at seed {seed}; repeat it with: compare PROGRAM OTHER {seed} 1");
    match &case.map {
        Some(links) => println!("network: {} nodes, links (tail, head, figure, groups): {:?}", links.nodes, links.links),
        None => println!("map bytes: {:?}", case.bytes),
    }
    println!("input: {}", String::from_utf8_lossy(&case.input()));
    let input = case.input();
    println!("program: {}", String::from_utf8_lossy(&run(&programs.program, folder, &input).0));
    println!("other: {}", String::from_utf8_lossy(&run(&programs.other, folder, &input).0));
    println!("net.map and input are in {}", folder.display());
}

fn main() {
    let args: Vec<String> = std::env::args().collect();
    let whole = args.len() == 6 && args[5] == "--whole";
    if args.len() != 5 && !whole {
        eprintln!("usage: compare PROGRAM OTHER FIRST COUNT [--whole]");
        std::process::exit(2);
    }
    let full = |p: &str| std::fs::canonicalize(p).expect("the program is there");
    let programs = Programs { program: full(&args[1]), other: full(&args[2]) };
    let first: u64 = args[3].parse().expect("FIRST is a number");
    let count: u64 = args[4].parse().expect("COUNT is a number");
    let next = AtomicU64::new(first);
    let found = AtomicBool::new(false);
    let threads = std::thread::available_parallelism().map_or(1, |n| n.get());
    std::thread::scope(|scope| {
        for i in 0..threads {
            let (programs, next, found) = (&programs, &next, &found);
            scope.spawn(move || {
                let folder = std::env::temp_dir().join(format!("compare-{}-{i}", std::process::id()));
                std::fs::create_dir_all(&folder).unwrap();
                while !found.load(Ordering::Relaxed) {
                    let seed = next.fetch_add(1, Ordering::Relaxed);
                    if seed >= first + count {
                        break;
                    }
                    let made = case(seed);
                    if programs.differ(&folder, &made) && !found.swap(true, Ordering::Relaxed) {
                        let small = if whole { made } else { programs.shrink(&folder, made) };
                        report(programs, &folder, seed, &small);
                        return;
                    }
                }
                let _ = std::fs::remove_dir_all(&folder);
            });
        }
    });
    if found.load(Ordering::Relaxed) {
        std::process::exit(1);
    }
    println!("compared: {count} cases from seed {first}, no difference");
}
