//! Random scripts for `replay`, with the lines that they should print.
//!
//! Each line is run as it is made, so that the next one can be chosen by what is on the volume.

use crate::bytes::BLOCK;
use crate::catalog::{volume_name, walk};
use crate::directory::{Entry, SUBDIRECTORY};
use crate::map;
use crate::random::Random;
use crate::replay::{hex, Machine, LARGEST_COUNT};
use crate::sound::refusal;
use crate::volumes::{build, changed, flaw, weak_address, EDGES};

pub struct Script {
    pub lines: Vec<String>,
    /// What is printed for each line.
    pub answers: Vec<String>,
}

/// A script of about `count` calls.
pub fn script(seed: u64, count: usize) -> Script {
    let mut maker = Maker::new(seed, count);
    maker.scenario(seed);
    Script { lines: maker.lines, answers: maker.answers }
}

const IMPROPER: [&[u8]; 22] = [
    b"",
    b"/",
    b"//",
    b"//A",
    b"A",
    b"SITE7/A",
    b"/SITE7/",
    b"/SITE7//A",
    b"/SITE7/A/",
    b"/1A",
    b"/.A",
    b"/SITE7/9",
    b"/SITE7/.A",
    b"/SITE7/A_B",
    b"/SITE7/A B",
    b"/SITE7/A\0",
    b"/SITE7/\xC1",
    b"/SITE7/A-",
    b"/SITE7/A\n",
    b"/ABCDEFGHIJKLMNOP",
    b"/SITE7/ABCDEFGHIJKLMNOP",
    b" /SITE7/A",
];

const IMPROPER_NAMES: [&[u8]; 12] = [b"", b"/", b"/A", b"A/B", b"1A", b".A", b"A B", b"A_", b"ABCDEFGHIJKLMNOP", b"\x80", b"A\0", b"-"];

struct Maker {
    random: Random,
    machine: Machine,
    lines: Vec<String>,
    answers: Vec<String>,
    calls: usize,
    count: usize,
    /// The volume's name and entries when it was last sound, for calls on a damaged one.
    volume: String,
    entries: Vec<(String, Entry)>,
}

impl Maker {
    fn new(seed: u64, count: usize) -> Maker {
        let random = Random::new(seed);
        Maker {
            random,
            machine: Machine::default(),
            lines: Vec::new(),
            answers: Vec::new(),
            calls: 0,
            count,
            volume: "SITE7".to_string(),
            entries: Vec::new(),
        }
    }

    /// Twelve seeds in a row have every kind of beginning.
    fn scenario(&mut self, seed: u64) {
        match seed % 12 {
            0 | 1 => self.formatted(16, 40),
            2 => self.formatted(40, 300),
            3 | 4 => self.formatted(270, 700),
            5..=7 => self.built(16, 128),
            8 => self.full_volume_directory(),
            9 => self.full_subdirectory(),
            10 => self.deep(),
            _ => self.large(),
        }
        while self.calls < self.count {
            match self.random.below(40) {
                0 | 1 => self.damaged(),
                2 if self.random.once_in(4) => self.wrong_length(),
                _ => self.any_call(),
            }
        }
    }

    // ---- lines

    fn say(&mut self, line: String) {
        let answer = self.machine.line(line.as_bytes()).expect("no comments are made");
        self.lines.push(line);
        self.answers.push(answer);
    }

    /// A call, and the digest of the image after it.
    fn call(&mut self, line: String) {
        self.say(line);
        self.say("digest".to_string());
        self.calls += 1;
        self.look();
    }

    /// Learns what is on the volume, if it is sound.
    fn look(&mut self) {
        if refusal(&self.machine.image).is_ok() {
            self.volume = volume_name(&self.machine.image);
            self.entries = walk(&self.machine.image);
        }
    }

    fn free(&self) -> usize {
        if refusal(&self.machine.image).is_ok() {
            map::count_free(&self.machine.image)
        } else {
            0
        }
    }

    /// A path or name as a field: plain where that is possible, now and then in hex all the same.
    fn field(&mut self, bytes: &[u8]) -> String {
        let plain = bytes.iter().all(|c| (0x21..=0x7E).contains(c)) && bytes.first() != Some(&b'=') && bytes != b"-";
        if bytes.is_empty() && !self.random.once_in(3) {
            "-".to_string()
        } else if !plain || bytes.is_empty() || self.random.once_in(30) {
            format!("={}", hex(bytes))
        } else {
            String::from_utf8(bytes.to_vec()).expect("plain bytes")
        }
    }

    fn stamp(&mut self) -> String {
        format!("{} {}", self.random.below(65_536), self.random.below(65_536))
    }

    // ---- volumes

    fn formatted(&mut self, low: usize, high: usize) {
        let total = self.random.between(low, high);
        self.fresh(total);
    }

    /// A formatted volume on an image that held other bytes before.
    fn fresh(&mut self, total: usize) {
        self.say(format!("blocks {total}"));
        if self.random.once_in(2) {
            let byte = self.random.byte();
            self.say(format!("setrun 0 {} {byte:02X}", total * BLOCK));
        }
        let stamp = self.stamp();
        self.call(format!("format SITE7 {stamp}"));
    }

    fn built(&mut self, low: usize, high: usize) {
        let total = self.random.between(low, high);
        let deepest = *self.random.pick(&[2, 5, 31]);
        let image = build(&mut self.random, total, deepest);
        self.load(&image);
    }

    /// Puts a whole image by `set`, leaving out runs of zero.
    fn load(&mut self, image: &[u8]) {
        self.say(format!("bytes {}", image.len()));
        for (i, part) in image.chunks(1_024).enumerate() {
            if part.iter().any(|&byte| byte != 0) {
                self.say(format!("set {} {}", i * 1_024, hex(part)));
            }
        }
        self.call("space".to_string());
    }

    fn full_volume_directory(&mut self) {
        let total = self.random.between(60, 90);
        self.fresh(total);
        for i in 1..=52 {
            let kind = *self.random.pick(&["01 04", "01 04", "0D 0F"]);
            self.call(format!("create /SITE7/E{i} {kind} 0 1 2"));
        }
        let inside = self.existing(|e| e.kind == SUBDIRECTORY);
        self.call(format!("create {inside}/X 01 04 0 1 2"));
        self.call("create /SITE7/E53 0D 0F 0 1 2".to_string());
        let path = self.existing(|_| true);
        self.call(format!("destroy {path}"));
    }

    fn full_subdirectory(&mut self) {
        let entries = self.random.between(12, 26);
        let total = 7 + 1 + entries + self.random.between(0, 3);
        self.fresh(total);
        self.call("create /SITE7/DAYS 0D 0F 0 1 2".to_string());
        for i in 1..=entries + 2 {
            self.call(format!("create /SITE7/DAYS/D{i} 01 04 0 1 2"));
        }
    }

    /// Directories in directories, as deep as a path reaches, and beyond by renaming.
    fn deep(&mut self) {
        let total = self.random.between(40, 50);
        self.fresh(total);
        self.call("rename /SITE7 V".to_string());
        let mut path = "/V".to_string();
        for _ in 0..31 {
            path += "/D";
            self.call(format!("create {path} 0D 0F 0 1 2"));
        }
        self.call(format!("create {path}/D 0D 0F 0 1 2"));
        self.call(format!("destroy {path}"));
        self.call(format!("create {path} 01 04 0 1 2"));
        if self.random.once_in(2) {
            self.call("rename /V/D LONGER".to_string());
        }
    }

    /// More than one map block. Few calls: every one looks at the whole volume.
    fn large(&mut self) {
        let total = *self.random.pick(&[4_095, 4_096, 4_097, 4_105, 8_191, 8_192]);
        self.fresh(total);
        self.count = self.count.min(60);
        self.call("create /SITE7/BIG 01 06 0 1 2".to_string());
        for _ in 0..7 {
            let eof = self.size("/SITE7/BIG");
            self.call(format!("fill /SITE7/BIG {eof} 3 4 {LARGEST_COUNT} 5A"));
        }
        self.call("create /SITE7/NEXT 01 06 0 1 2".to_string());
    }

    fn size(&self, path: &str) -> usize {
        self.entries.iter().find(|(p, _)| p == path).map_or(0, |(_, e)| e.eof)
    }

    // ---- damage

    /// Damages the structure, makes some calls, and repairs it.
    fn damaged(&mut self) {
        if refusal(&self.machine.image).is_err() {
            return self.fresh(20);
        }
        let before = self.machine.image.clone();
        if self.random.once_in(2) {
            self.flawed(&before);
        } else {
            self.changed_bytes(&before);
        }
        for _ in 0..self.random.between(2, 5) {
            self.any_call();
        }
        let now = self.machine.image.clone();
        if refusal(&now).is_err() {
            self.repair(&before, &now);
        }
    }

    fn changed_bytes(&mut self, before: &[u8]) {
        for _ in 0..self.random.between(1, 3) {
            let address = weak_address(&mut self.random, before);
            let byte = changed(&mut self.random, before[address]);
            self.say(format!("set {address} {byte:02X}"));
        }
    }

    fn flawed(&mut self, before: &[u8]) {
        let mut image = before.to_vec();
        flaw(&mut self.random, &mut image);
        self.put_differences(before, &image);
    }

    /// `set` lines for the bytes that differ, run by run.
    fn put_differences(&mut self, old: &[u8], new: &[u8]) {
        let mut i = 0;
        while i < new.len() {
            let length = (i..new.len()).take_while(|&j| old[j] != new[j] && j - i < 1_024).count();
            if length > 0 {
                self.say(format!("set {i} {}", hex(&new[i..i + length])));
            }
            i += length.max(1);
        }
    }

    fn repair(&mut self, before: &[u8], now: &[u8]) {
        if before.len() != now.len() {
            return self.load(before);
        }
        self.put_differences(now, before);
        self.look();
    }

    /// An image of a length that no volume has, its header otherwise right.
    fn wrong_length(&mut self) {
        let before = self.machine.image.clone();
        let length = match self.random.below(3) {
            0 => *self.random.pick(&[0, 1, 511, 512, 1_023, 1_536, 7_680, 8_191, 8_193]),
            1 => BLOCK * self.random.between(16, 40) + self.random.between(1, 511),
            _ => BLOCK * self.random.below(16),
        };
        self.say(format!("bytes {length}"));
        if length >= 7 * BLOCK {
            self.say(format!("set 1024 00000300F55349544537{}", "00".repeat(33)));
            self.say(format!("set 1058 C3270D00000600{:02X}{:02X}", length / BLOCK % 256, length / BLOCK / 256));
        }
        let stamp = self.stamp();
        self.call(format!("format OTHER {stamp}"));
        for _ in 0..4 {
            self.any_call();
        }
        self.load(&before);
    }

    // ---- paths

    /// The path of an entry that passes the test, or a missing one where none does.
    fn existing(&mut self, test: fn(&Entry) -> bool) -> String {
        let all: Vec<String> = self.entries.iter().filter(|(_, e)| test(e)).map(|(path, _)| path.clone()).collect();
        if all.is_empty() {
            return format!("/{}/NONE", self.volume);
        }
        // The last one is taken more often, so that files deep down have their turn.
        let path = if self.random.once_in(8) { all[all.len() - 1].clone() } else { self.random.pick(&all).clone() };
        self.letters(path)
    }

    /// The same path, now and then in small letters.
    fn letters(&mut self, path: String) -> String {
        if !self.random.once_in(5) {
            return path;
        }
        path.chars().map(|c| if self.random.once_in(2) { c.to_ascii_lowercase() } else { c }).collect()
    }

    /// The path of the volume or of some directory on it.
    fn directory(&mut self) -> String {
        let has_directories = self.entries.iter().any(|(_, e)| e.kind == SUBDIRECTORY);
        if has_directories && !self.random.once_in(3) {
            self.existing(|e| e.kind == SUBDIRECTORY)
        } else {
            format!("/{}", self.volume)
        }
    }

    /// A name out of few, so that they meet.
    fn name(&mut self) -> String {
        match self.random.below(8) {
            0 => self.random.pick(&["LOG", "DAYS", "A.VERY.LONG.NAM", "Z", "D1"]).to_string(),
            1 => format!("n{}", self.random.below(30)),
            _ => format!("N{}", self.random.below(30)),
        }
    }

    /// A field that names something, mostly what the test asks for.
    fn path(&mut self, test: fn(&Entry) -> bool) -> String {
        let path = match self.random.below(40) {
            0 => return self.improper_path(),
            1 => format!("/{}", self.volume),
            2 => format!("/{}X/{}", self.volume.clone(), self.name()),
            3 | 4 => format!("{}/{}", self.directory(), self.name()),
            5 => format!("{}/{}/{}", self.directory(), self.name(), self.name()),
            6 => format!("{}/{}", self.existing(|e| e.kind != SUBDIRECTORY), self.name()),
            7 => self.existing(|_| true),
            _ => self.existing(test),
        };
        self.field(path.as_bytes())
    }

    fn improper_path(&mut self) -> String {
        let path = match self.random.below(3) {
            0 => format!("/{}{}", self.volume, "/ABCDEFGHI".repeat(6)).into_bytes(),
            1 => format!("{}/", self.existing(|_| true)).into_bytes(),
            _ => self.random.pick(&IMPROPER).to_vec(),
        };
        self.field(&path)
    }

    // ---- calls

    fn any_call(&mut self) {
        // An empty volume would refuse nearly everything with $46.
        let line = match self.random.below(100) {
            _ if self.entries.is_empty() && !self.random.once_in(4) => self.create(),
            0..=17 => self.create(),
            18..=25 => format!("destroy {}", self.path(|_| true)),
            26..=32 => self.rename(),
            33..=38 => self.set_info(),
            39..=41 => format!("getinfo {}", self.path(|_| true)),
            42..=43 => format!("find {}", self.path(|_| true)),
            44..=45 => "space".to_string(),
            46..=59 => self.read(),
            60..=73 => self.write(),
            74..=84 => self.fill(),
            85..=98 => self.set_eof(),
            _ if self.random.once_in(2) => "space".to_string(),
            _ => self.format(),
        };
        self.call(line);
    }

    fn create(&mut self) -> String {
        let path = match self.random.below(10) {
            0 | 1 => self.path(|_| true),
            2 if self.random.once_in(3) => format!("/{}X/{}", self.volume.clone(), self.name()),
            _ => {
                let path = format!("{}/{}", self.directory(), self.name());
                self.field(path.as_bytes())
            }
        };
        let kind_and_type = match self.random.below(12) {
            0 => format!("{:02X} {:02X}", self.random.byte(), self.random.byte()),
            1 => self.random.pick(&["11 04", "D0 0F", "0D 04", "01 0F", "00 04", "02 04", "0E 0F", "0F 0F", "03 0F"]).to_string(),
            2..=4 => "0D 0F".to_string(),
            _ => format!("01 {:02X}", self.random.pick(&[0, 4, 6, 0xFC, 0xFF, 0x0E])),
        };
        format!("create {path} {kind_and_type} {} {}", self.random.below(65_536), self.stamp())
    }

    fn rename(&mut self) -> String {
        // Renaming the volume to and fro keeps later paths from going stale: they follow its name.
        let path = if self.random.once_in(8) { format!("/{}", self.volume) } else { self.path(|_| true) };
        let name = match self.random.below(8) {
            0 => {
                let improper = *self.random.pick(&IMPROPER_NAMES);
                self.field(improper)
            }
            1 => {
                let own = self.existing(|_| true);
                own.rsplit('/').next().expect("a last name").to_string()
            }
            _ => self.name(),
        };
        format!("rename {path} {name}")
    }

    fn set_info(&mut self) -> String {
        let path = self.path(|_| true);
        let access = match self.random.below(8) {
            0 => self.random.byte(),
            1 => *self.random.pick(&[0x04, 0x08, 0x10, 0xE7, 0xFF]),
            2 => *self.random.pick(&[0x00, 0x01, 0x02, 0x21, 0x40, 0x80]),
            3 => self.random.byte() & 0xE3,
            _ => 0xE3,
        };
        format!("setinfo {path} {access:02X} {} {}", self.random.below(65_536), self.stamp())
    }

    fn format(&mut self) -> String {
        let name = match self.random.below(3) {
            0 => {
                let improper = *self.random.pick(&IMPROPER_NAMES);
                self.field(improper)
            }
            _ => self.random.pick(&["SITE7", "site7", "ABCDEFGHIJKLMNO", "V", "V.1"]).to_string(),
        };
        format!("format {name} {}", self.stamp())
    }

    /// The field of a path, and the EOF of the file that it names (0 for none).
    fn data_file(&mut self) -> (String, usize) {
        let path = self.path(|e| e.kind != SUBDIRECTORY);
        let eof = self.size(&path.to_ascii_uppercase());
        (path, eof)
    }

    fn position(&mut self, eof: usize) -> usize {
        let edge = *self.random.pick(&EDGES);
        match self.random.below(12) {
            0 => eof + 1,
            1 => *self.random.pick(&[16_777_215, 16_777_216, 4_294_967_295]),
            2..=4 => eof,
            5 => eof.saturating_sub(1),
            6 | 7 => edge.min(eof),
            8 => 0,
            9 => self.random.below(eof + 1) / BLOCK * BLOCK,
            _ => self.random.below(eof + 1),
        }
    }

    fn read(&mut self) -> String {
        let (path, eof) = self.data_file();
        let position = self.position(eof);
        let count = match self.random.below(10) {
            0 => 0,
            1 => 1,
            2 => *self.random.pick(&[1_024, 1_025, 131_072, LARGEST_COUNT]),
            3 => eof.saturating_sub(position).min(LARGEST_COUNT),
            4 => (eof.saturating_sub(position) + 1).min(LARGEST_COUNT),
            5 => self.random.between(1_025, 20_000),
            _ => self.random.below(700),
        };
        format!("read {path} {position} {count}")
    }

    fn write(&mut self) -> String {
        let (path, eof) = self.data_file();
        let position = self.position(eof);
        let length = match self.random.below(6) {
            0 => self.random.below(3),
            1 => self.random.between(500, 1_100),
            _ => self.random.between(1, 60),
        };
        let mut data = vec![0; length];
        self.random.fill(&mut data);
        let data = if data.is_empty() { "-".to_string() } else { hex(&data) };
        format!("write {path} {position} {} {data}", self.stamp())
    }

    fn fill(&mut self) -> String {
        let (path, eof) = self.data_file();
        let position = self.position(eof);
        let free = self.free();
        let count = match self.random.below(9) {
            0 => *self.random.pick(&[0, 1, 512, 513, 130_561, 131_072, 131_073, LARGEST_COUNT]),
            1 => free * BLOCK,
            2 => (free * BLOCK).saturating_sub(BLOCK),
            3 => free * BLOCK + 1,
            4 => 131_073_usize.saturating_sub(position),
            5 => self.random.below(140_000),
            _ => self.random.below(5_000),
        };
        let stamp = self.stamp();
        format!("fill {path} {position} {stamp} {} {:02X}", count.min(LARGEST_COUNT), self.random.byte())
    }

    fn set_eof(&mut self) -> String {
        let (path, eof) = self.data_file();
        let new_eof = match self.random.below(10) {
            0..=2 => *self.random.pick(&EDGES),
            3 => *self.random.pick(&[16_777_216, 4_294_967_295]),
            4 => eof,
            5 => eof.saturating_sub(self.random.below(700)),
            6 => eof + self.random.below(700),
            7 => self.random.below(200_000),
            8 => self.random.below(eof + 1),
            _ => self.random.below(16_777_216),
        };
        format!("seteof {path} {new_eof} {}", self.stamp())
    }
}
