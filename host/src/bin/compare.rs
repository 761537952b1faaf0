//! Runs a `replay` and a `catalog` program on random scripts and images, and compares all that they print.
//!
//!     compare REPLAY_PROGRAM CATALOG_PROGRAM SEEDS COUNT
//!
//! SEEDS is a number (seeds 1 to it) or a range A-B; for each seed there is a script of about COUNT calls and there are COUNT images.
//! A program given as `-` is left out. The first difference ends the run, with the script or image that shows it in a file.

use host::catalog;
use host::generate::{script, Script};
use host::random::Random;
use host::replay::LARGEST_SCRIPT;
use host::volumes::{build, damage};
use std::collections::BTreeMap;
use std::io::Write;
use std::path::PathBuf;
use std::process::{exit, Command, Stdio};

fn main() {
    let words: Vec<String> = std::env::args().skip(1).collect();
    let [replay, catalog, seeds, count] = words.as_slice() else { usage() };
    let (first, last) = range(seeds).unwrap_or_else(|| usage());
    let count: usize = count.parse().unwrap_or_else(|_| usage());
    let mut tally = Tally::default();
    for seed in first..=last {
        if replay != "-" {
            compare_script(replay, seed, count, &mut tally);
        }
        if catalog != "-" {
            compare_images(catalog, seed, count, &mut tally);
        }
    }
    tally.print();
    println!("no difference");
}

fn usage() -> ! {
    eprintln!("usage: compare REPLAY_PROGRAM CATALOG_PROGRAM SEEDS COUNT (SEEDS: N or A-B; a program may be -)");
    exit(2)
}

fn range(seeds: &str) -> Option<(u64, u64)> {
    match seeds.split_once('-') {
        Some((first, last)) => Some((first.parse().ok()?, last.parse().ok()?)),
        None => Some((1, seeds.parse().ok()?)),
    }
}

/// What a program prints when it reads the input; its way of ending too, where that is not plain success.
fn output_of(program: &str, input: &[u8]) -> Vec<u8> {
    let mut child = Command::new(program).stdin(Stdio::piped()).stdout(Stdio::piped()).spawn().unwrap_or_else(|error| {
        eprintln!("{program}: {error}");
        exit(2)
    });
    let mut pipe = child.stdin.take().expect("a pipe");
    let input = input.to_vec();
    // Its own thread, as the program may print before it has read all. One that stops reading early shows in its output.
    let writer = std::thread::spawn(move || drop(pipe.write_all(&input)));
    let output = child.wait_with_output().expect("output");
    writer.join().expect("the writer");
    let mut bytes = output.stdout;
    if !output.status.success() {
        bytes.extend(format!("(the program ended with {})\n", output.status).bytes());
    }
    bytes
}

// ---- scripts

fn compare_script(program: &str, seed: u64, count: usize, tally: &mut Tally) {
    let made = script(seed, count);
    let all = fitting(&made.lines);
    if !agrees(program, &made, all) {
        let length = shortest(program, &made, all);
        tally.add(&made, length - 1);
        tally.print();
        report_script(program, seed, &made, length);
    }
    tally.add(&made, all);
    tally.scripts += 1;
}

/// How many of the lines fit into the largest script.
fn fitting(lines: &[String]) -> usize {
    let mut size = 0;
    let fits = |line: &&String| {
        size += line.len() + 1;
        size <= LARGEST_SCRIPT
    };
    lines.iter().take_while(fits).count()
}

fn first_lines(lines: &[String], length: usize) -> String {
    lines[..length].iter().map(|line| format!("{line}\n")).collect()
}

/// Does the program print what is expected for the first lines of a script?
fn agrees(program: &str, made: &Script, length: usize) -> bool {
    let output = output_of(program, first_lines(&made.lines, length).as_bytes());
    output == first_lines(&made.answers, length).as_bytes()
}

/// The least number of lines that show a difference. Halving, as a program that breaks down may print nothing at all.
fn shortest(program: &str, made: &Script, all: usize) -> usize {
    let (mut good, mut bad) = (0, all);
    while bad - good > 1 {
        let middle = (good + bad) / 2;
        if agrees(program, made, middle) {
            good = middle;
        } else {
            bad = middle;
        }
    }
    bad
}

/// Writes the script that shows the difference in its last line, and ends.
fn report_script(program: &str, seed: u64, made: &Script, length: usize) -> ! {
    let path = file(&format!("difference-{seed}.txt"));
    let text = first_lines(&made.lines, length);
    std::fs::write(&path, &text).expect("a file for the difference");
    let output = output_of(program, text.as_bytes());
    let printed = host::replay::lines(&output).get(length - 1).map(|bytes| String::from_utf8_lossy(bytes).to_string());
    println!("seed {seed}, line {length}: {}", short(&made.lines[length - 1]));
    println!("  expected: {}", short(&made.answers[length - 1]));
    println!(
        "  printed:  {}",
        short(&printed.unwrap_or_else(|| format!("(the program ended; all it printed has {} bytes)", output.len())))
    );
    println!("the script is in {}", path.display());
    exit(1)
}

fn short(text: &str) -> String {
    if text.len() > 160 {
        format!("{}... ({} bytes)", text.chars().take(160).collect::<String>(), text.len())
    } else {
        text.to_string()
    }
}

fn file(name: &str) -> PathBuf {
    std::env::temp_dir().join(name)
}

// ---- images

fn compare_images(program: &str, seed: u64, count: usize, tally: &mut Tally) {
    let mut random = Random::new(seed ^ 0xCA7A_1060);
    let mut sound = Vec::new();
    for i in 0..count {
        // A new sound volume now and then; the images in between are damaged copies of it.
        if i % 8 == 0 {
            let total = random.between(16, 128);
            let deepest = *random.pick(&[2, 5, 31, 32]);
            sound = build(&mut random, total, deepest);
        }
        let image = next_image(&mut random, &sound, i);
        compare_image(program, seed, &image, tally);
    }
}

fn next_image(random: &mut Random, sound: &[u8], i: usize) -> Vec<u8> {
    let mut image = sound.to_vec();
    if i % 8 != 0 {
        if catalog::print(&image).starts_with("REFUSED") {
            // Too deep on purpose: as it is.
            return image;
        }
        damage(random, &mut image);
    }
    if random.once_in(200) {
        image.resize(65_536 + random.below(3) * 256, 0);
    }
    image
}

fn compare_image(program: &str, seed: u64, image: &[u8], tally: &mut Tally) {
    let expected = catalog::print(image);
    let printed = output_of(program, image);
    *tally.images.entry(image_case(&expected, image)).or_default() += 1;
    if printed != expected.as_bytes() {
        tally.print();
        let path = file(&format!("difference-{seed}.po"));
        std::fs::write(&path, image).expect("a file for the difference");
        println!("seed {seed}: an image of {} bytes", image.len());
        println!("  expected: {}", short(&expected.replace('\n', " | ")));
        println!("  printed:  {}", short(&String::from_utf8_lossy(&printed).replace('\n', " | ")));
        if let Err(sentence) = reason(image) {
            println!("  why it is refused here: {sentence}");
        }
        println!("the image is in {}", path.display());
        exit(1)
    }
}

fn reason(image: &[u8]) -> Result<(), &'static str> {
    if host::sound::is_volume(image) {
        host::sound::check(image)
    } else {
        Err("it does not pass the $52 test")
    }
}

/// What is counted: listed, or the refusal, with the first sentence that is broken.
fn image_case(printed: &str, image: &[u8]) -> String {
    match (printed.lines().next().unwrap_or(""), reason(image)) {
        ("REFUSED 5A", Err(sentence)) => format!("REFUSED 5A: {sentence}"),
        (line, _) if line.starts_with("REFUSED") || line == "TOO LARGE" => line.to_string(),
        _ => "listed".to_string(),
    }
}

// ---- counts

#[derive(Default)]
struct Tally {
    scripts: usize,
    digests: usize,
    /// By call, then by answer.
    calls: BTreeMap<String, BTreeMap<String, usize>>,
    images: BTreeMap<String, usize>,
}

impl Tally {
    /// Counts the first `compared` lines of a script.
    fn add(&mut self, made: &Script, compared: usize) {
        for (line, answer) in made.lines.iter().zip(&made.answers).take(compared) {
            let call = line.split(' ').next().expect("a command");
            match call {
                "digest" => self.digests += 1,
                "blocks" | "bytes" | "set" | "setrun" => (),
                _ => *self.calls.entry(call.to_string()).or_default().entry(answer_case(answer)).or_default() += 1,
            }
        }
    }

    fn print(&self) {
        let all: usize = self.calls.values().flat_map(|answers| answers.values()).sum();
        if all > 0 {
            println!("{} scripts, {all} calls and {} digests compared", self.scripts, self.digests);
        }
        for (call, answers) in &self.calls {
            let parts: Vec<String> = answers.iter().map(|(answer, n)| format!("{answer} {n}")).collect();
            println!("  {call:8} {}", parts.join(", "));
        }
        let images: usize = self.images.values().sum();
        if images > 0 {
            println!("{images} images compared");
        }
        for (case, n) in &self.images {
            println!("  {n:6} {case}");
        }
    }
}

fn answer_case(answer: &str) -> String {
    match answer.strip_prefix("REFUSED ") {
        Some(number) => format!("${number}"),
        None => "OK".to_string(),
    }
}
