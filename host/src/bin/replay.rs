//! Runs the script on standard input; docs/REPLAY.md has its format.

use std::io::{Read, Write};

fn main() {
    let mut script = Vec::new();
    std::io::stdin().read_to_end(&mut script).expect("standard input");
    std::io::stdout().write_all(host::replay::run(&script).as_bytes()).expect("standard output");
}
