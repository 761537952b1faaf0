//! Random volumes, laid out freely and not by the calls, and random damage to them.
//!
//! Every byte that soundness does not name is random too, so that a test that looks at one of them is caught.

use crate::bytes::{block_mut, get16, put16, put24, BLOCK};
use crate::catalog::walk;
use crate::directory::{
    active_places, chain, entry, header, places, put_name, put_shape, set_count, slot_mut, Entry, Place, DIRECTORY_TYPE, SLOTS,
    SLOT_LENGTH, SUBDIRECTORY, VOLUME_KEY,
};
use crate::file::{blocks_of, kind_of, pointer, set_pointer, POINTERS, SAPLING, SEEDLING, TREE};
use crate::map;
use crate::random::Random;

/// EOFs at which something changes.
pub const EDGES: [usize; 16] =
    [0, 1, 511, 512, 513, 1_023, 1_024, 1_025, 130_560, 131_071, 131_072, 131_073, 131_584, 262_144, 16_777_214, 16_777_215];

/// A random volume of `total` blocks. Sound, unless `deepest` is above 31 and the volume happens to use it.
pub fn build(random: &mut Random, total: usize, deepest: usize) -> Vec<u8> {
    let mut builder = Builder::new(random, total, deepest);
    builder.volume();
    builder.image
}

struct Builder<'a> {
    random: &'a mut Random,
    image: Vec<u8>,
    /// Blocks not used yet, in the order in which they will be.
    spare: Vec<usize>,
    used: Vec<bool>,
    deepest: usize,
    names: usize,
}

impl<'a> Builder<'a> {
    fn new(random: &'a mut Random, total: usize, deepest: usize) -> Builder<'a> {
        let mut image = vec![0; total * BLOCK];
        if !random.once_in(3) {
            random.fill(&mut image);
        }
        let first = map::MAP_BLOCK + map::length(total);
        let mut spare: Vec<usize> = (first..total).rev().collect();
        if !random.once_in(3) {
            shuffle(random, &mut spare);
        }
        // Some blocks stay free, unless the volume is to be full.
        if !random.once_in(6) {
            let rest = random.between(spare.len() / 8, spare.len());
            spare.truncate(rest);
        }
        let mut used = vec![false; total];
        used[..first].fill(true);
        Builder { random, image, spare, used, deepest, names: 0 }
    }

    fn take(&mut self) -> Option<usize> {
        let number = self.spare.pop()?;
        self.used[number] = true;
        Some(number)
    }

    fn volume(&mut self) {
        let total = self.image.len() / BLOCK;
        let blocks = [2, 3, 4, 5];
        self.link(&blocks);
        let name = self.name();
        self.header(VOLUME_KEY, 0xF, &name);
        let b = block_mut(&mut self.image, VOLUME_KEY);
        put16(b, 0x27, map::MAP_BLOCK);
        put16(b, 0x29, total);
        self.content(VOLUME_KEY, &blocks, 0);
        for number in 0..map::length(total) * 4096 {
            self.map_bit(number, total);
        }
    }

    fn map_bit(&mut self, number: usize, total: usize) {
        let byte = &mut self.image[map::MAP_BLOCK * BLOCK + number / 8];
        let weight = 128 >> (number % 8);
        if number < total && !self.used[number] {
            *byte |= weight;
        } else {
            *byte &= !weight;
        }
    }

    /// Links the blocks of a directory and makes all slots inactive, with whatever low half.
    fn link(&mut self, blocks: &[usize]) {
        for (i, &number) in blocks.iter().enumerate() {
            let b = block_mut(&mut self.image, number);
            put16(b, 0, if i == 0 { 0 } else { blocks[i - 1] });
            put16(b, 2, if i + 1 == blocks.len() { 0 } else { blocks[i + 1] });
            for slot in 0..SLOTS {
                b[4 + slot * SLOT_LENGTH] &= 0x0F;
            }
        }
    }

    fn header(&mut self, key: usize, kind: u8, name: &[u8]) {
        let b = block_mut(&mut self.image, key);
        b[4] = kind * 16 + name.len() as u8;
        b[5..5 + name.len()].copy_from_slice(name);
        b[0x23] = SLOT_LENGTH as u8;
        b[0x24] = SLOTS as u8;
    }

    /// A name that no other entry of the volume has.
    fn name(&mut self) -> Vec<u8> {
        self.names += 1;
        let mut name = format!("{}{}", self.random.pick(&["A", "B", "Z", "DAY.", "LOG", "Q9.."]), self.names).into_bytes();
        while name.len() < 15 && self.random.once_in(2) {
            name.push(*self.random.pick(b"AZ.09"));
        }
        name
    }

    fn content(&mut self, key: usize, blocks: &[usize], level: usize) {
        let mut free_slots = places(blocks);
        shuffle(self.random, &mut free_slots);
        let wanted = match self.random.below(4) {
            0 => free_slots.len(),
            1 => self.random.below(3),
            _ => self.random.below(free_slots.len() + 1).min(8),
        };
        // The directory's last block may stay empty: a directory never shrinks.
        let mut made = 0;
        for place in free_slots.into_iter().take(wanted) {
            if !self.entry(key, place, level) {
                break;
            }
            made += 1;
        }
        set_count(&mut self.image, key, made);
    }

    /// Makes an entry of some kind; false when no block is left for its key.
    fn entry(&mut self, key: usize, place: Place, level: usize) -> bool {
        if self.spare.is_empty() {
            return false;
        }
        let name = self.name();
        let spare_bytes = slot_mut(&mut self.image, place)[1..16].to_vec();
        let s = slot_mut(&mut self.image, place);
        put_name(s, &name);
        s[1 + name.len()..16].copy_from_slice(&spare_bytes[name.len()..]);
        put16(s, 0x25, key);
        // A volume that may be deep mostly is: the way down goes on until the blocks end.
        let down = if self.deepest > 20 { !self.random.once_in(10) } else { self.random.once_in(4) };
        if level < self.deepest && down {
            self.subdirectory(place, &name, level + 1);
        } else {
            self.file(place);
        }
        true
    }

    fn subdirectory(&mut self, place: Place, name: &[u8], level: usize) {
        let wanted = if self.random.once_in(3) && self.deepest <= 20 { self.random.between(2, 4) } else { 1 };
        let blocks: Vec<usize> = (0..wanted).filter_map(|_| self.take()).collect();
        let s = slot_mut(&mut self.image, place);
        s[0x10] = DIRECTORY_TYPE;
        put_shape(s, SUBDIRECTORY, blocks[0], blocks.len(), blocks.len() * BLOCK);
        self.link(&blocks);
        self.header(blocks[0], 0xE, name);
        let b = block_mut(&mut self.image, blocks[0]);
        put16(b, 0x27, place.block);
        b[0x29] = place.slot as u8;
        b[0x2A] = SLOT_LENGTH as u8;
        self.content(blocks[0], &blocks, level);
    }

    fn file(&mut self, place: Place) {
        let eof = self.eof();
        let kind = kind_of(eof);
        let key = self.take().expect("a block is left");
        let more = match kind {
            SEEDLING => 0,
            SAPLING => self.index(key, blocks_of(eof)),
            _ => self.master(key, blocks_of(eof)),
        };
        let s = slot_mut(&mut self.image, place);
        if s[0x10] == DIRECTORY_TYPE {
            s[0x10] = 4;
        }
        put_shape(s, kind, key, 1 + more, eof);
    }

    fn eof(&mut self) -> usize {
        match self.random.below(6) {
            0 => *self.random.pick(&EDGES),
            1 => self.random.between(131_073, 16_777_215),
            2 => self.random.between(131_073, 400_000),
            3 => self.random.between(513, 131_072),
            4 => self.random.between(513, 6_000),
            _ => self.random.between(0, 512),
        }
    }

    /// Which of the first `limit` pointers to set: often the first, then the last, then any.
    fn pointer_for(&mut self, step: usize, limit: usize) -> usize {
        match step {
            0 if !self.random.once_in(3) => 0,
            1 => limit - 1,
            _ => self.random.below(limit),
        }
    }

    /// Makes an index with a few data blocks before `below`; the answer is how many.
    fn index(&mut self, index: usize, below: usize) -> usize {
        block_mut(&mut self.image, index).fill(0);
        let limit = below.min(POINTERS);
        let wanted = if self.random.once_in(4) { 0 } else { self.random.between(1, 6) };
        let mut made = 0;
        for step in 0..wanted {
            let i = self.pointer_for(step, limit);
            if pointer(&self.image, index, i) == 0 {
                let Some(data) = self.take() else { break };
                set_pointer(&mut self.image, index, i, data);
                made += 1;
            }
        }
        made
    }

    fn master(&mut self, master: usize, below: usize) -> usize {
        block_mut(&mut self.image, master).fill(0);
        let limit = below.div_ceil(POINTERS);
        let wanted = self.random.below(4);
        let mut made = 0;
        for step in 0..wanted {
            let i = self.pointer_for(step, limit);
            if pointer(&self.image, master, i) == 0 {
                let Some(index) = self.take() else { break };
                set_pointer(&mut self.image, master, i, index);
                made += 1 + self.index(index, below - i * POINTERS);
            }
        }
        made
    }
}

pub fn shuffle<T>(random: &mut Random, items: &mut [T]) {
    for i in (1..items.len()).rev() {
        let j = random.below(i + 1);
        items.swap(i, j);
    }
}

/// The blocks of a sound volume that are structure and not data: directories, map, indexes.
pub fn structure(image: &[u8]) -> Vec<usize> {
    let mut all: Vec<usize> = (2..map::MAP_BLOCK + map::length(image.len() / BLOCK)).collect();
    for (_, e) in walk(image) {
        match e.kind {
            SUBDIRECTORY => all.extend(chain(image, e.key)),
            SAPLING => all.push(e.key),
            TREE => {
                all.push(e.key);
                let indexes = (0..POINTERS).map(|i| pointer(image, e.key, i));
                all.extend(indexes.filter(|&index| index != 0));
            }
            _ => (),
        }
    }
    all
}

/// The places of all active entries of a sound volume.
fn entries(image: &[u8]) -> Vec<Place> {
    let mut all = active_places(image, VOLUME_KEY);
    for (_, e) in walk(image) {
        if e.kind == SUBDIRECTORY {
            all.extend(active_places(image, e.key));
        }
    }
    all
}

/// An address of a sound volume where a changed byte is likely to matter.
pub fn weak_address(random: &mut Random, image: &[u8]) -> usize {
    let all = entries(image);
    if !all.is_empty() && random.once_in(2) {
        return random.pick(&all).address() + random.below(SLOT_LENGTH);
    }
    // The volume directory has its turn also where there are many other blocks.
    let number = if random.once_in(4) { random.between(2, 5) } else { *random.pick(&structure(image)) };
    let offset = match random.below(4) {
        0 | 1 => random.below(0x2B),
        2 => *random.pick(&[0, 256]) + random.below(8),
        _ => random.below(BLOCK),
    };
    number * BLOCK + offset
}

/// Another value for a byte, often a near one.
pub fn changed(random: &mut Random, old: u8) -> u8 {
    match random.below(6) {
        0 => old.wrapping_add(1),
        1 => old.wrapping_sub(1),
        2 => old ^ (1 << random.below(8)),
        3 => 0,
        4 => old ^ 0x20,
        _ => random.byte(),
    }
}

/// Damages a sound volume in one of several ways. What comes out may still be sound.
pub fn damage(random: &mut Random, image: &mut Vec<u8>) {
    match random.below(12) {
        0 => change_length(random, image),
        1..=5 => flaw(random, image),
        _ => change_byte(random, image),
    }
}

/// Breaks one sentence of soundness and keeps the others where that is possible, the map and the counts above all.
pub fn flaw(random: &mut Random, image: &mut [u8]) {
    match random.below(11) {
        0 => copy_slot(random, image),
        1 => swap_slots(random, image),
        2 => change_number(random, image),
        3 => change_map(random, image),
        4 => same_name(random, image),
        5 => other_eof(random, image),
        6 => other_type(random, image),
        7 => other_count(random, image),
        8 => longer_chain(random, image),
        9 => second_owner(random, image),
        _ => pointer_past_eof(random, image),
    }
}

fn change_byte(random: &mut Random, image: &mut [u8]) {
    let address = weak_address(random, image);
    image[address] = changed(random, image[address]);
}

fn change_length(random: &mut Random, image: &mut Vec<u8>) {
    let length = image.len();
    let new_length = match random.below(6) {
        0 => length - 1,
        1 => length + 1,
        2 => length - BLOCK,
        3 => length + BLOCK,
        4 => random.below(length),
        _ => *random.pick(&[0, 1, 511, 512, 1_024, 1_536, 7_680, 8_191, 8_192]),
    };
    image.resize(new_length, 0);
    // A header that agrees with the new length leaves soundness to find the fault.
    if new_length % BLOCK == 0 && new_length >= 3 * BLOCK && random.once_in(2) {
        put16(image, VOLUME_KEY * BLOCK + 0x29, new_length / BLOCK);
    }
}

/// A slot of some directory, mostly an active one.
fn some_slot(random: &mut Random, image: &[u8]) -> usize {
    let all = entries(image);
    if all.is_empty() || random.once_in(4) {
        Place { block: random.between(2, 5), slot: random.between(1, SLOTS) }.address()
    } else {
        random.pick(&all).address()
    }
}

fn copy_slot(random: &mut Random, image: &mut [u8]) {
    let (from, to) = (some_slot(random, image), some_slot(random, image));
    image.copy_within(from..from + SLOT_LENGTH, to);
}

fn swap_slots(random: &mut Random, image: &mut [u8]) {
    let (one, other) = (some_slot(random, image), some_slot(random, image));
    for i in 0..SLOT_LENGTH {
        image.swap(one + i, other + i);
    }
}

/// Puts another number of two bytes into an entry or header: a block, a length, an edge.
fn change_number(random: &mut Random, image: &mut [u8]) {
    let total = image.len() / BLOCK;
    let at = some_slot(random, image) + *random.pick(&[0x11, 0x13, 0x15, 0x16, 0x21, 0x23, 0x25]);
    let number = match random.below(4) {
        0 => random.below(total),
        1 => *random.pick(&[0, 1, 2, 6, total - 1, total, 512, 513, 65_535]),
        2 => (get16(image, at) + 1) % 65_536,
        _ => (get16(image, at) + 65_535) % 65_536,
    };
    put16(image, at, number);
}

fn change_map(random: &mut Random, image: &mut [u8]) {
    let total = image.len() / BLOCK;
    let last = map::length(total) * 4096 - 1;
    let number = match random.below(3) {
        0 => random.below(total),
        1 => (total + random.below(8)).min(last),
        _ => random.between(0, last),
    };
    image[map::MAP_BLOCK * BLOCK + number / 8] ^= 128 >> (number % 8);
}

/// Some entry that passes the test.
fn some_entry(random: &mut Random, image: &[u8], test: fn(&Entry) -> bool) -> Option<(Place, Entry)> {
    let all: Vec<Place> = entries(image).into_iter().filter(|&place| test(&entry(image, place))).collect();
    if all.is_empty() {
        return None;
    }
    let place = *random.pick(&all);
    Some((place, entry(image, place)))
}

/// Two entries of one directory get one name, headers too; now and then in different letters, which no entry may have.
fn same_name(random: &mut Random, image: &mut [u8]) {
    let Some((_, one)) = some_entry(random, image, |_| true) else { return };
    let others: Vec<Place> = active_places(image, one.directory).into_iter().filter(|&p| entry(image, p).name != one.name).collect();
    if others.is_empty() {
        return;
    }
    let place = *random.pick(&others);
    let e = entry(image, place);
    let name = if random.once_in(4) { one.name.to_ascii_lowercase() } else { one.name };
    put_name(slot_mut(image, place), &name);
    if e.kind == SUBDIRECTORY {
        put_name(slot_mut(image, header(e.key)), &name);
    }
}

/// A near EOF, so that the kind or the last pointer does not fit, or everything still does.
fn other_eof(random: &mut Random, image: &mut [u8]) {
    let Some((place, e)) = some_entry(random, image, |_| true) else { return };
    let near = [e.eof + 1, e.eof.saturating_sub(1), e.eof + 512, e.eof.saturating_sub(512), 0, e.eof / 512 * 512];
    let eof = if random.once_in(2) { *random.pick(&EDGES) } else { *random.pick(&near) };
    put24(slot_mut(image, place), 0x15, eof.min(16_777_215));
}

fn other_type(random: &mut Random, image: &mut [u8]) {
    let Some((place, e)) = some_entry(random, image, |_| true) else { return };
    let s = slot_mut(image, place);
    match random.below(3) {
        0 => s[0] = (random.below(16) * 16) as u8 + s[0] % 16,
        _ => s[0x10] = if e.kind == SUBDIRECTORY { random.byte() } else { DIRECTORY_TYPE },
    }
}

/// Blocks used, or a header's count, one more or one less.
fn other_count(random: &mut Random, image: &mut [u8]) {
    let Some((place, e)) = some_entry(random, image, |_| true) else { return };
    let at = if random.once_in(2) { place.address() + 0x13 } else { e.directory * BLOCK + 0x25 };
    let number = get16(image, at) + 1;
    put16(image, at, if random.once_in(2) { number } else { number.saturating_sub(2) });
}

fn some_free(random: &mut Random, image: &[u8]) -> Option<usize> {
    let all: Vec<usize> = (0..image.len() / BLOCK).filter(|&b| map::is_free(image, b)).collect();
    if all.is_empty() {
        None
    } else {
        Some(*random.pick(&all))
    }
}

fn mark_used(image: &mut [u8], number: usize) {
    image[map::MAP_BLOCK * BLOCK + number / 8] &= !(128 >> (number % 8));
}

/// A subdirectory gains an empty block, but not everything that counts it is told.
fn longer_chain(random: &mut Random, image: &mut [u8]) {
    let Some((place, e)) = some_entry(random, image, |e| e.kind == SUBDIRECTORY) else { return };
    let Some(added) = some_free(random, image) else { return };
    let blocks = chain(image, e.key);
    let last = blocks[blocks.len() - 1];
    put16(image, last * BLOCK + 2, if random.once_in(8) { *random.pick(&blocks) } else { added });
    block_mut(image, added).fill(0);
    put16(image, added * BLOCK, if random.once_in(6) { 0 } else { last });
    if !random.once_in(6) {
        mark_used(image, added);
    }
    let s = slot_mut(image, place);
    if !random.once_in(4) {
        put16(s, 0x13, e.used + 1);
    }
    if !random.once_in(4) {
        put24(s, 0x15, e.eof + BLOCK);
    }
}

/// A pointer of an index becomes another block, the old one free in the map.
fn second_owner(random: &mut Random, image: &mut [u8]) {
    let Some((_, e)) = some_entry(random, image, |e| e.kind == SAPLING || e.kind == TREE) else { return };
    let held: Vec<usize> = (0..POINTERS).filter(|&i| pointer(image, e.key, i) != 0).collect();
    if held.is_empty() {
        return;
    }
    let i = *random.pick(&held);
    let old = pointer(image, e.key, i);
    let total = image.len() / BLOCK;
    let any = random.below(total);
    let new = *random.pick(&[0, 1, 2, 6, e.key, total - 1, total, any, any, 256, 65_535]);
    set_pointer(image, e.key, i, new);
    map::set_free(image, old);
}

/// A pointer is put at or after the last one that EOF allows, or just before it; block counted and used in the map.
fn pointer_past_eof(random: &mut Random, image: &mut [u8]) {
    let Some((place, e)) = some_entry(random, image, |e| e.kind == SAPLING || e.kind == TREE) else { return };
    let Some(number) = some_free(random, image) else { return };
    let below = blocks_of(e.eof);
    let limit = if e.kind == TREE { below.div_ceil(POINTERS) } else { below };
    let i = match random.below(4) {
        0 => limit - 1,
        1 => limit,
        2 => 128,
        _ => random.below(POINTERS),
    };
    if i >= POINTERS || pointer(image, e.key, i) != 0 {
        return;
    }
    if e.kind == TREE {
        block_mut(image, number).fill(0);
    }
    set_pointer(image, e.key, i, number);
    mark_used(image, number);
    put16(slot_mut(image, place), 0x13, e.used + 1);
}
