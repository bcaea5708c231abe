//! The reference with the published shortcut: a recovery value is searched only where a link at risk lies on the
//! best route of the tail.

fn main() {
    reference::speak(true);
}
