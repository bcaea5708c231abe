//! A second program for the language of the console, written from the rules and the published algorithms alone.
//! It shares no code with the product.

pub mod cases;
pub mod console;
pub mod map;
pub mod plan;

use std::io::{Read, Write};

/// Reads net.map and standard input, and prints the answers.
pub fn speak(shortcut: bool) {
    let mut bytes = Vec::new();
    if let Ok(file) = std::fs::File::open("net.map") {
        if file.take(12_293).read_to_end(&mut bytes).is_err() {
            bytes.clear();
        }
    }
    let mut input = Vec::new();
    std::io::stdin().read_to_end(&mut input).unwrap();
    let output = console::run(map::read(&bytes), &input, shortcut);
    std::io::stdout().write_all(&output).unwrap();
}
