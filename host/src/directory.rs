//! Directories: chains of blocks, slots, entries, and the way from a path to an entry. All of it on a sound volume.

use crate::bytes::{block, get16, get24, put16, put24, BLOCK};

pub const VOLUME_KEY: usize = 2;
pub const SLOT_LENGTH: usize = 39;
pub const SLOTS: usize = 13;
pub const SUBDIRECTORY: u8 = 0xD;
pub const DIRECTORY_TYPE: u8 = 0x0F;

/// Where a slot is: its block, and its number in the block, 1 to 13.
#[derive(Clone, Copy, PartialEq, Eq, Debug)]
pub struct Place {
    pub block: usize,
    pub slot: usize,
}

impl Place {
    pub fn address(self) -> usize {
        self.block * BLOCK + 4 + (self.slot - 1) * SLOT_LENGTH
    }
}

/// The 39 bytes of a slot as numbers.
#[derive(Clone, PartialEq, Eq, Debug)]
pub struct Entry {
    pub kind: u8,
    pub name: Vec<u8>,
    pub file_type: u8,
    pub key: usize,
    pub used: usize,
    pub eof: usize,
    pub created: [u8; 4],
    pub access: u8,
    pub aux: usize,
    pub modified: [u8; 4],
    pub directory: usize,
}

pub fn slot(image: &[u8], place: Place) -> &[u8] {
    &image[place.address()..place.address() + SLOT_LENGTH]
}

pub fn slot_mut(image: &mut [u8], place: Place) -> &mut [u8] {
    &mut image[place.address()..place.address() + SLOT_LENGTH]
}

/// The name at the start of a slot or header: as many bytes as the low half of byte 0 says.
pub fn stored_name(slot: &[u8]) -> &[u8] {
    &slot[1..1 + (slot[0] % 16) as usize]
}

pub fn entry(image: &[u8], place: Place) -> Entry {
    let s = slot(image, place);
    Entry {
        kind: s[0] / 16,
        name: stored_name(s).to_vec(),
        file_type: s[0x10],
        key: get16(s, 0x11),
        used: get16(s, 0x13),
        eof: get24(s, 0x15),
        created: stamp(s, 0x18),
        access: s[0x1E],
        aux: get16(s, 0x1F),
        modified: stamp(s, 0x21),
        directory: get16(s, 0x25),
    }
}

pub fn stamp(bytes: &[u8], at: usize) -> [u8; 4] {
    bytes[at..at + 4].try_into().unwrap()
}

/// Writes kind, key, blocks used and EOF, the part of an entry that follows the blocks of its file.
pub fn put_shape(slot: &mut [u8], kind: u8, key: usize, used: usize, eof: usize) {
    slot[0] = kind * 16 + slot[0] % 16;
    put16(slot, 0x11, key);
    put16(slot, 0x13, used);
    put24(slot, 0x15, eof);
}

/// Writes the name, spare bytes 0, and its length; the kind stays.
pub fn put_name(slot: &mut [u8], name: &[u8]) {
    slot[0] = slot[0] / 16 * 16 + name.len() as u8;
    slot[1..16].fill(0);
    slot[1..1 + name.len()].copy_from_slice(name);
}

pub fn next(image: &[u8], number: usize) -> usize {
    get16(block(image, number), 2)
}

/// The blocks of a directory, key block first.
pub fn chain(image: &[u8], key: usize) -> Vec<usize> {
    let mut blocks = vec![key];
    while next(image, blocks[blocks.len() - 1]) != 0 {
        blocks.push(next(image, blocks[blocks.len() - 1]));
    }
    blocks
}

/// The header, as the first slot of the key block.
pub fn header(key: usize) -> Place {
    Place { block: key, slot: 1 }
}

/// Every slot of the given blocks but the header, in chain order.
pub fn places(blocks: &[usize]) -> Vec<Place> {
    let mut all = Vec::new();
    for &block in blocks {
        for slot in 1..=SLOTS {
            all.push(Place { block, slot });
        }
    }
    all.remove(0);
    all
}

pub fn active(image: &[u8], place: Place) -> bool {
    slot(image, place)[0] / 16 != 0
}

pub fn active_places(image: &[u8], key: usize) -> Vec<Place> {
    let all = places(&chain(image, key));
    all.into_iter().filter(|&place| active(image, place)).collect()
}

pub fn find(image: &[u8], key: usize, name: &[u8]) -> Option<Place> {
    let all = active_places(image, key);
    all.into_iter().find(|&place| stored_name(slot(image, place)) == name)
}

pub fn first_inactive(image: &[u8], key: usize) -> Option<Place> {
    let all = places(&chain(image, key));
    all.into_iter().find(|&place| !active(image, place))
}

pub fn count(image: &[u8], key: usize) -> usize {
    get16(block(image, key), 0x25)
}

pub fn set_count(image: &mut [u8], key: usize, count: usize) {
    put16(image, key * BLOCK + 0x25, count);
}

/// The slot of the entry that a subdirectory's header points at.
pub fn parent(image: &[u8], key: usize) -> Place {
    let b = block(image, key);
    Place { block: get16(b, 0x27), slot: b[0x29] as usize }
}

/// What a path names: the volume, or a last name in a directory, with its entry if there is one.
#[derive(Debug)]
pub enum Target {
    Volume,
    Name { directory: usize, name: Vec<u8>, place: Option<Place> },
}

/// Follows the names of a proper path. Refusals $45 and $44.
pub fn look_up(image: &[u8], names: &[Vec<u8>]) -> Result<Target, u8> {
    if stored_name(slot(image, header(VOLUME_KEY))) != names[0] {
        return Err(0x45);
    }
    if names.len() == 1 {
        return Ok(Target::Volume);
    }
    let mut directory = VOLUME_KEY;
    for name in &names[1..names.len() - 1] {
        directory = subdirectory(image, directory, name).ok_or(0x44)?;
    }
    let name = names[names.len() - 1].clone();
    let place = find(image, directory, &name);
    Ok(Target::Name { directory, name, place })
}

fn subdirectory(image: &[u8], key: usize, name: &[u8]) -> Option<usize> {
    let found = entry(image, find(image, key, name)?);
    if found.kind == SUBDIRECTORY {
        Some(found.key)
    } else {
        None
    }
}
