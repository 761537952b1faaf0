//! The ten calls. Each answers its parts or a refusal number; a refused call has changed nothing.
//!
//! The checks of each call stand in the order of the refusal table, and nothing is written before the last of them.

use crate::bytes::{block, block_mut, get16, put16, BLOCK};
use crate::directory::{
    chain, count, entry, find, first_inactive, header, look_up, parent, put_name, put_shape, set_count, slot_mut, stamp, Entry, Place,
    Target, DIRECTORY_TYPE, SLOTS, SLOT_LENGTH, SUBDIRECTORY, VOLUME_KEY,
};
use crate::file::{self, LONGEST_FILE, SEEDLING};
use crate::map;
use crate::names::{capitals, proper, split};
use crate::sound::{good_length, refusal};

pub const NOT_A_VOLUME: u8 = 0x52;
pub const NOT_SOUND: u8 = 0x5A;
pub const BAD_PATH: u8 = 0x40;
pub const BAD_KIND: u8 = 0x4B;
pub const BAD_TYPE: u8 = 0x53;
pub const NO_VOLUME: u8 = 0x45;
pub const NO_DIRECTORY: u8 = 0x44;
pub const NOT_FOUND: u8 = 0x46;
pub const DUPLICATE: u8 = 0x47;
pub const NO_ACCESS: u8 = 0x4E;
pub const BAD_POSITION: u8 = 0x4D;
pub const END_OF_FILE: u8 = 0x4C;
pub const DIRECTORY_FULL: u8 = 0x49;
pub const NO_ROOM: u8 = 0x48;

const MAY_DESTROY: u8 = 0x80;
const MAY_RENAME: u8 = 0x40;
const BACKUP: u8 = 0x20;
const MAY_WRITE: u8 = 0x02;
const MAY_READ: u8 = 0x01;
const NO_ACCESS_BITS: u8 = 0x1C;

/// Date and time, two bytes each, stored unread.
pub type Stamp = [u8; 4];

/// The parts of an answer, or the number of the refusal.
pub type Answer<T> = Result<T, u8>;

#[derive(Clone, PartialEq, Eq, Debug)]
pub struct Info {
    pub kind: u8,
    pub file_type: u8,
    pub access: u8,
    pub aux: usize,
    pub used: usize,
    pub eof: usize,
    pub created: Stamp,
    pub modified: Stamp,
}

fn refuse_if(condition: bool, number: u8) -> Answer<()> {
    if condition {
        Err(number)
    } else {
        Ok(())
    }
}

// ---- format

pub fn format(image: &mut [u8], name: &[u8], created: Stamp) -> Answer<()> {
    refuse_if(!good_length(image.len()), NOT_A_VOLUME)?;
    refuse_if(!proper(name), BAD_PATH)?;
    image.fill(0);
    for number in 2..=5 {
        put16(image, number * BLOCK, if number == 2 { 0 } else { number - 1 });
        put16(image, number * BLOCK + 2, if number == 5 { 0 } else { number + 1 });
    }
    let total = image.len() / BLOCK;
    let b = block_mut(image, VOLUME_KEY);
    put_header(b, 0xF, &capitals(name), created, 0xC3);
    put16(b, 0x27, map::MAP_BLOCK);
    put16(b, 0x29, total);
    for number in map::MAP_BLOCK + map::length(total)..total {
        map::set_free(image, number);
    }
    Ok(())
}

/// The fields that both kinds of header have, in a block that is zero but for its links.
fn put_header(b: &mut [u8], kind: u8, name: &[u8], created: Stamp, access: u8) {
    b[4] = kind * 16;
    put_name(&mut b[4..], name);
    b[0x1C..0x20].copy_from_slice(&created);
    b[0x22] = access;
    b[0x23] = SLOT_LENGTH as u8;
    b[0x24] = SLOTS as u8;
}

// ---- create

pub fn create(image: &mut [u8], path: &[u8], kind: u8, file_type: u8, aux: usize, created: Stamp) -> Answer<()> {
    refusal(image)?;
    let names = split(path).ok_or(BAD_PATH)?;
    refuse_if(kind != SEEDLING && kind != SUBDIRECTORY, BAD_KIND)?;
    refuse_if((kind == SUBDIRECTORY) != (file_type == DIRECTORY_TYPE), BAD_TYPE)?;
    let (directory, name) = match look_up(image, &names)? {
        Target::Name { directory, name, place: None } => (directory, name),
        _ => return Err(DUPLICATE),
    };
    let slot = first_inactive(image, directory);
    refuse_if(slot.is_none() && directory == VOLUME_KEY, DIRECTORY_FULL)?;
    let need = if slot.is_none() { 2 } else { 1 };
    refuse_if(need > map::count_free(image), NO_ROOM)?;

    let place = slot.unwrap_or_else(|| lengthen(image, directory));
    let key = map::take(image);
    let eof = if kind == SUBDIRECTORY { BLOCK } else { 0 };
    let s = slot_mut(image, place);
    s.fill(0);
    put_name(s, &name);
    put_shape(s, kind, key, 1, eof);
    s[0x10] = file_type;
    s[0x18..0x1C].copy_from_slice(&created);
    s[0x1E] = 0xE3;
    put16(s, 0x1F, aux);
    s[0x21..0x25].copy_from_slice(&created);
    put16(s, 0x25, directory);
    let entries = count(image, directory);
    set_count(image, directory, entries + 1);
    if kind == SUBDIRECTORY {
        put_subdirectory(block_mut(image, key), &name, created, place);
    }
    Ok(())
}

/// Puts a block at the end of a full subdirectory; the answer is its first slot.
fn lengthen(image: &mut [u8], directory: usize) -> Place {
    let blocks = chain(image, directory);
    let last = blocks[blocks.len() - 1];
    let added = map::take(image);
    put16(image, last * BLOCK + 2, added);
    put16(image, added * BLOCK, last);
    let own = parent(image, directory);
    let e = entry(image, own);
    put_shape(slot_mut(image, own), e.kind, e.key, e.used + 1, e.eof + BLOCK);
    Place { block: added, slot: 1 }
}

fn put_subdirectory(b: &mut [u8], name: &[u8], created: Stamp, place: Place) {
    put_header(b, 0xE, name, created, 0xE3);
    b[0x14] = 0x75;
    put16(b, 0x27, place.block);
    b[0x29] = place.slot as u8;
    b[0x2A] = SLOT_LENGTH as u8;
}

// ---- destroy

pub fn destroy(image: &mut [u8], path: &[u8]) -> Answer<()> {
    let (directory, place) = match existing(image, path)? {
        Existing::Volume => return Err(NO_ACCESS),
        Existing::Entry { directory, place } => (directory, place),
    };
    let e = entry(image, place);
    refuse_if(e.access & MAY_DESTROY == 0, NO_ACCESS)?;
    refuse_if(e.kind == SUBDIRECTORY && count(image, e.key) != 0, NO_ACCESS)?;

    let blocks = if e.kind == SUBDIRECTORY { chain(image, e.key) } else { file::owned(image, e.kind, e.key) };
    for number in blocks {
        map::set_free(image, number);
    }
    slot_mut(image, place)[0] = 0;
    let entries = count(image, directory);
    set_count(image, directory, entries - 1);
    Ok(())
}

/// What a path names, all refusals up to $46 done.
enum Existing {
    Volume,
    Entry { directory: usize, place: Place },
}

fn existing(image: &[u8], path: &[u8]) -> Answer<Existing> {
    refusal(image)?;
    let names = split(path).ok_or(BAD_PATH)?;
    found(image, &names)
}

fn found(image: &[u8], names: &[Vec<u8>]) -> Answer<Existing> {
    match look_up(image, names)? {
        Target::Volume => Ok(Existing::Volume),
        Target::Name { place: None, .. } => Err(NOT_FOUND),
        Target::Name { directory, place: Some(place), .. } => Ok(Existing::Entry { directory, place }),
    }
}

// ---- rename

pub fn rename(image: &mut [u8], path: &[u8], new_name: &[u8]) -> Answer<()> {
    refusal(image)?;
    let names = split(path).ok_or(BAD_PATH)?;
    refuse_if(!proper(new_name), BAD_PATH)?;
    let name = capitals(new_name);
    match found(image, &names)? {
        Existing::Volume => rename_volume(image, &name),
        Existing::Entry { directory, place } => rename_entry(image, directory, place, &name),
    }
}

fn rename_volume(image: &mut [u8], name: &[u8]) -> Answer<()> {
    refuse_if(block(image, VOLUME_KEY)[0x22] & MAY_RENAME == 0, NO_ACCESS)?;
    put_name(slot_mut(image, header(VOLUME_KEY)), name);
    Ok(())
}

fn rename_entry(image: &mut [u8], directory: usize, place: Place, name: &[u8]) -> Answer<()> {
    let other = find(image, directory, name);
    refuse_if(other.is_some() && other != Some(place), DUPLICATE)?;
    let e = entry(image, place);
    refuse_if(e.access & MAY_RENAME == 0, NO_ACCESS)?;
    let s = slot_mut(image, place);
    put_name(s, name);
    s[0x1E] |= BACKUP;
    if e.kind == SUBDIRECTORY {
        put_name(slot_mut(image, header(e.key)), name);
    }
    Ok(())
}

// ---- set info, get info, space

pub fn set_info(image: &mut [u8], path: &[u8], access: u8, aux: usize, modified: Stamp) -> Answer<()> {
    refusal(image)?;
    let names = split(path).ok_or(BAD_PATH)?;
    refuse_if(access & NO_ACCESS_BITS != 0, BAD_TYPE)?;
    let place = match found(image, &names)? {
        Existing::Volume => return Err(NO_ACCESS),
        Existing::Entry { place, .. } => place,
    };
    let s = slot_mut(image, place);
    s[0x1E] = access;
    put16(s, 0x1F, aux);
    s[0x21..0x25].copy_from_slice(&modified);
    Ok(())
}

pub fn get_info(image: &[u8], path: &[u8]) -> Answer<Info> {
    match existing(image, path)? {
        Existing::Volume => Ok(volume_info(image)),
        Existing::Entry { place, .. } => Ok(entry_info(entry(image, place))),
    }
}

/// Where the entry of a path stands, and how many blocks of its directory are read until it is found.
pub fn find_entry(image: &[u8], path: &[u8]) -> Answer<(Place, usize)> {
    match existing(image, path)? {
        Existing::Volume => Ok((header(VOLUME_KEY), 1)),
        Existing::Entry { directory, place } => {
            let before = chain(image, directory).into_iter().take_while(|&block| block != place.block).count();
            Ok((place, before + 1))
        }
    }
}

fn volume_info(image: &[u8]) -> Info {
    let b = block(image, VOLUME_KEY);
    let total = get16(b, 0x29);
    let created = stamp(b, 0x1C);
    Info {
        kind: 0xF,
        file_type: DIRECTORY_TYPE,
        access: b[0x22],
        aux: total,
        used: total - map::count_free(image),
        eof: 4 * BLOCK,
        created,
        modified: created,
    }
}

fn entry_info(e: Entry) -> Info {
    Info {
        kind: e.kind,
        file_type: e.file_type,
        access: e.access,
        aux: e.aux,
        used: e.used,
        eof: e.eof,
        created: e.created,
        modified: e.modified,
    }
}

/// Total and free.
pub fn space(image: &[u8]) -> Answer<(usize, usize)> {
    refusal(image)?;
    Ok((image.len() / BLOCK, map::count_free(image)))
}

// ---- read, write, set EOF

/// The data file that a path names and that has the access bit: refusals up to $4E.
fn data_file(image: &[u8], path: &[u8], bit: u8) -> Answer<(Place, Entry)> {
    let place = match existing(image, path)? {
        Existing::Volume => return Err(BAD_KIND),
        Existing::Entry { place, .. } => place,
    };
    let e = entry(image, place);
    refuse_if(e.kind == SUBDIRECTORY, BAD_KIND)?;
    refuse_if(e.access & bit == 0, NO_ACCESS)?;
    Ok((place, e))
}

/// The number of bytes put at the start of the buffer.
pub fn read(image: &[u8], path: &[u8], position: u64, buffer: &mut [u8]) -> Answer<usize> {
    let (_, e) = data_file(image, path, MAY_READ)?;
    refuse_if(position > e.eof as u64, BAD_POSITION)?;
    let position = position as usize;
    refuse_if(position == e.eof && !buffer.is_empty(), END_OF_FILE)?;
    let count = buffer.len().min(e.eof - position);
    file::read(image, &e, position, &mut buffer[..count]);
    Ok(count)
}

/// The number of bytes stored.
pub fn write(image: &mut [u8], path: &[u8], position: u64, data: &[u8], modified: Stamp) -> Answer<usize> {
    let (place, e) = data_file(image, path, MAY_WRITE)?;
    refuse_if(position > e.eof as u64 || position + data.len() as u64 > LONGEST_FILE, BAD_POSITION)?;
    if data.is_empty() {
        return Ok(0);
    }
    let position = position as usize;
    let end = position + data.len();
    refuse_if(file::need_of_write(image, &e, position, data.len()) > map::count_free(image), NO_ROOM)?;
    if end > e.eof {
        file::grow(image, place, end);
    }
    file::store(image, place, position, data);
    mark_changed(image, place, modified);
    Ok(data.len())
}

pub fn set_eof(image: &mut [u8], path: &[u8], eof: u64, modified: Stamp) -> Answer<()> {
    let (place, e) = data_file(image, path, MAY_WRITE)?;
    refuse_if(eof > LONGEST_FILE, BAD_POSITION)?;
    let eof = eof as usize;
    refuse_if(file::need_of_kind(e.eof, eof) > map::count_free(image), NO_ROOM)?;
    if eof > e.eof {
        file::grow(image, place, eof);
    } else if eof < e.eof {
        file::shrink(image, place, eof);
    }
    mark_changed(image, place, modified);
    Ok(())
}

fn mark_changed(image: &mut [u8], place: Place, modified: Stamp) {
    let s = slot_mut(image, place);
    s[0x1E] |= BACKUP;
    s[0x21..0x25].copy_from_slice(&modified);
}
