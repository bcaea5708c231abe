//! The reference with one search for each link.

fn main() {
    reference::speak(false);
}
