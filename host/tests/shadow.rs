//! Checks on the Rust code itself: random volumes are sound, accepted calls keep a volume sound, refused ones change nothing,
//! and files read as plain byte vectors would.

use host::calls::{create, destroy, format, read, set_eof, write};
use host::generate::script;
use host::random::Random;
use host::replay::Machine;
use host::sound::{check, is_volume};
use host::volumes::build;

#[test]
fn random_volumes_are_sound() {
    for seed in 1..=300 {
        let mut random = Random::new(seed);
        let total = random.between(16, 200);
        let image = build(&mut random, total, 31);
        assert!(is_volume(&image));
        assert_eq!(check(&image), Ok(()), "seed {seed}");
    }
}

#[test]
fn calls_keep_a_volume_sound_and_refusals_change_nothing() {
    for seed in 1..=40 {
        let mut machine = Machine::default();
        for line in script(seed, 60).lines {
            let before = machine.image.clone();
            let answer = machine.line(line.as_bytes()).expect("an answer");
            let raw = ["set ", "setrun ", "blocks ", "bytes "].iter().any(|command| line.starts_with(command));
            if raw {
                continue;
            } else if answer.starts_with("REFUSED") {
                assert!(machine.image == before, "seed {seed}: {line}");
            } else if !line.starts_with("digest") {
                assert!(is_volume(&machine.image) && check(&machine.image).is_ok(), "seed {seed}: {line}");
            }
        }
    }
}

/// Writes and new EOFs at random, next to a vector for each file.
#[test]
fn files_read_as_vectors_would() {
    for seed in 1..=12 {
        let mut random = Random::new(seed);
        let mut image = vec![0x77; 900 * 512];
        format(&mut image, b"V", [0; 4]).unwrap();
        let paths: [&[u8]; 3] = [b"/V/A", b"/V/B", b"/V/C"];
        let mut shadows = vec![Vec::new(); 3];
        for path in paths {
            create(&mut image, path, 1, 4, 0, [0; 4]).unwrap();
        }
        for _ in 0..60 {
            step(&mut random, &mut image, &paths, &mut shadows);
            for (path, shadow) in paths.iter().zip(&shadows) {
                let mut buffer = vec![0xA5; shadow.len()];
                assert!(shadow.is_empty() || read(&image, path, 0, &mut buffer) == Ok(shadow.len()));
                assert!(&buffer == shadow, "seed {seed}");
            }
        }
    }
}

fn step(random: &mut Random, image: &mut Vec<u8>, paths: &[&[u8]], shadows: &mut [Vec<u8>]) {
    let i = random.below(3);
    let before = image.clone();
    let done = match random.below(8) {
        0 => {
            destroy(image, paths[i]).unwrap();
            create(image, paths[i], 1, 4, 0, [0; 4]).unwrap();
            shadows[i].clear();
            true
        }
        1..=3 => {
            let eof = *random.pick(&[0, 1, 100, 511, 512, 513, 1_000, 5_000, 131_072, 131_073, 140_000, 300_000]);
            let answer = set_eof(image, paths[i], eof as u64, [1; 4]);
            if answer.is_ok() {
                shadows[i].resize(eof, 0);
            }
            answer.is_ok()
        }
        _ => {
            let position = random.below(shadows[i].len() + 1);
            let mut data = vec![0; *random.pick(&[1, 10, 511, 512, 513, 2_000, 140_000])];
            random.fill(&mut data);
            let answer = write(image, paths[i], position as u64, &data, [1; 4]);
            if answer.is_ok() {
                let end = shadows[i].len().max(position + data.len());
                shadows[i].resize(end, 0);
                shadows[i][position..position + data.len()].copy_from_slice(&data);
            }
            answer.is_ok()
        }
    };
    assert!(done || *image == before);
}
