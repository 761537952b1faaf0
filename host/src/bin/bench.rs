//! Times a `replay` program against the plain Rust one of this package on the same scripts, and prints the ratios.
//!
//!     bench REPLAY_PROGRAM RUST_REPLAY_PROGRAM
//!
//! Each script runs five times with each program, in turn; the least time of each counts. A ratio below 1 means that the program is the faster one.

use std::fmt::Write as _;
use std::io::Write as _;
use std::process::{exit, Command, Stdio};
use std::time::{Duration, Instant};

const RUNS: usize = 5;

fn main() {
    let words: Vec<String> = std::env::args().skip(1).collect();
    let [program, rust] = words.as_slice() else {
        eprintln!("usage: bench REPLAY_PROGRAM RUST_REPLAY_PROGRAM");
        exit(2)
    };
    for (name, script) in scripts() {
        let mut least = [Duration::MAX; 2];
        for _ in 0..RUNS {
            for (i, which) in [program, rust].into_iter().enumerate() {
                least[i] = least[i].min(time_of(which, script.as_bytes()));
            }
        }
        let [ours, theirs] = least.map(|d| d.as_secs_f64());
        println!("{name}: {:.2} of plain Rust ({:.1} ms against {:.1} ms)", ours / theirs, ours * 1e3, theirs * 1e3);
    }
}

fn time_of(program: &str, script: &[u8]) -> Duration {
    let begun = Instant::now();
    let mut child = Command::new(program).stdin(Stdio::piped()).stdout(Stdio::null()).spawn().unwrap_or_else(|error| {
        eprintln!("{program}: {error}");
        exit(2)
    });
    child.stdin.take().expect("a pipe").write_all(script).expect("the script is read");
    child.wait().expect("an end");
    begun.elapsed()
}

/// A volume of 8,192 blocks with a hundred days of one sapling each.
fn days() -> String {
    let mut script = String::from("blocks 8192\nformat SITE7 1 2\ncreate /SITE7/DAYS 0D 0F 0 1 2\n");
    for day in 0..100 {
        let _ = writeln!(script, "create /SITE7/DAYS/D{day} 01 04 0 1 2\nfill /SITE7/DAYS/D{day} 0 1 2 20000 41");
    }
    script
}

fn scripts() -> Vec<(&'static str, String)> {
    let mut look = days();
    let mut read = days();
    let mut write = days();
    let mut shrink = days();
    for round in 0..500 {
        let day = round % 100;
        let _ = writeln!(look, "getinfo /SITE7/DAYS/D{day}");
        let _ = writeln!(read, "read /SITE7/DAYS/D{day} 0 20000");
        let _ = writeln!(write, "fill /SITE7/DAYS/D{day} 10000 1 2 20000 42");
        let _ = writeln!(shrink, "seteof /SITE7/DAYS/D{day} {} 1 2", 200_000 - (round / 100) * 40_000);
    }
    vec![("100 days made", days()), ("500 get infos", look), ("500 reads of 20,000 bytes", read), ("500 writes of 20,000 bytes", write), ("500 set EOFs", shrink)]
}
