//! Lists the volume on standard input.

use std::io::{Read, Write};

fn main() {
    let mut image = Vec::new();
    std::io::stdin().read_to_end(&mut image).expect("standard input");
    std::io::stdout().write_all(host::catalog::print(&image).as_bytes()).expect("standard output");
}
