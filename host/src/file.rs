//! Data files: the blocks that hold their bytes, growing and shrinking. All of it on a sound volume.

use crate::bytes::{block, block_mut, BLOCK};
use crate::directory::{entry, put_shape, slot_mut, Entry, Place};
use crate::map;
use std::collections::HashSet;

pub const SEEDLING: u8 = 1;
pub const SAPLING: u8 = 2;
pub const TREE: u8 = 3;
pub const POINTERS: usize = 256;
pub const LONGEST_FILE: u64 = 16_777_215;

pub fn kind_of(eof: usize) -> u8 {
    match eof {
        0..=512 => SEEDLING,
        513..=131_072 => SAPLING,
        _ => TREE,
    }
}

/// EOF/512 rounded up.
pub fn blocks_of(eof: usize) -> usize {
    eof.div_ceil(BLOCK)
}

/// Pointer i of an index: low byte in the first half, high byte in the second.
pub fn pointer(image: &[u8], index: usize, i: usize) -> usize {
    let b = block(image, index);
    b[i] as usize + 256 * b[POINTERS + i] as usize
}

pub fn set_pointer(image: &mut [u8], index: usize, i: usize, number: usize) {
    let b = block_mut(image, index);
    b[i] = (number % 256) as u8;
    b[POINTERS + i] = (number / 256) as u8;
}

/// The index that holds the pointer to file block n: 0 for none (a hole of the master).
fn index_of(image: &[u8], kind: u8, key: usize, n: usize) -> usize {
    match kind {
        SAPLING if n < POINTERS => key,
        TREE if n < POINTERS * POINTERS => pointer(image, key, n / POINTERS),
        _ => 0,
    }
}

/// The block that holds file block n: 0 for a hole.
pub fn data_block(image: &[u8], kind: u8, key: usize, n: usize) -> usize {
    if kind == SEEDLING {
        return if n == 0 { key } else { 0 };
    }
    match index_of(image, kind, key, n) {
        0 => 0,
        index => pointer(image, index, n % POINTERS),
    }
}

fn pointers(image: &[u8], index: usize) -> Vec<usize> {
    (0..POINTERS).map(|i| pointer(image, index, i)).filter(|&b| b != 0).collect()
}

/// Every block of a file: key, indexes and data.
pub fn owned(image: &[u8], kind: u8, key: usize) -> Vec<usize> {
    let mut all = vec![key];
    match kind {
        SEEDLING => (),
        SAPLING => all.extend(pointers(image, key)),
        _ => {
            for index in pointers(image, key) {
                all.push(index);
                all.extend(pointers(image, index));
            }
        }
    }
    all
}

/// Copies the bytes from `position` on, all of them before EOF.
pub fn read(image: &[u8], e: &Entry, position: usize, buffer: &mut [u8]) {
    for (i, byte) in buffer.iter_mut().enumerate() {
        let p = position + i;
        let data = data_block(image, e.kind, e.key, p / BLOCK);
        *byte = if data == 0 { 0 } else { block(image, data)[p % BLOCK] };
    }
}

/// How many blocks a new EOF takes for the change of kind alone.
pub fn need_of_kind(old_eof: usize, new_eof: usize) -> usize {
    if new_eof > old_eof {
        (kind_of(new_eof) - kind_of(old_eof)) as usize
    } else {
        0
    }
}

/// How many blocks a write of `length` bytes (1 or more) takes: the change of kind, the missing indexes, the missing data blocks.
pub fn need_of_write(image: &[u8], e: &Entry, position: usize, length: usize) -> usize {
    let end = position + length;
    let (first, last) = (position / BLOCK, (end - 1) / BLOCK);
    let missing = (first..=last).filter(|&n| data_block(image, e.kind, e.key, n) == 0).count();
    let indexes = if kind_of(e.eof.max(end)) == TREE {
        (first / POINTERS..=last / POINTERS).filter(|&i| !will_have_index(image, e, i)).count()
    } else {
        0
    };
    need_of_kind(e.eof, end) + indexes + missing
}

/// Will a tree made of this file have index i, the change of kind done? A smaller file brings index 0 along.
fn will_have_index(image: &[u8], e: &Entry, i: usize) -> bool {
    if e.kind == TREE {
        pointer(image, e.key, i) != 0
    } else {
        i == 0
    }
}

/// Gives the file a larger EOF, with the change of kind. Blocks for new bytes are not taken here: they are holes.
pub fn grow(image: &mut [u8], place: Place, new_eof: usize) {
    let e = entry(image, place);
    zero_from_eof(image, &e);
    let mut key = e.key;
    for _ in 0..need_of_kind(e.eof, new_eof) {
        let upper = map::take(image);
        set_pointer(image, upper, 0, key);
        key = upper;
    }
    finish(image, place, key, new_eof);
}

/// Old bytes past EOF must not show when EOF rises. Blocks after the one of EOF are holes already.
fn zero_from_eof(image: &mut [u8], e: &Entry) {
    let data = data_block(image, e.kind, e.key, e.eof / BLOCK);
    if data != 0 {
        block_mut(image, data)[e.eof % BLOCK..].fill(0);
    }
}

/// Writes kind, key, blocks used and EOF into the entry.
fn finish(image: &mut [u8], place: Place, key: usize, eof: usize) {
    let kind = kind_of(eof);
    let used = owned(image, kind, key).len();
    put_shape(slot_mut(image, place), kind, key, used, eof);
}

/// Stores the bytes, taking what is missing by rising file block. EOF is already large enough.
pub fn store(image: &mut [u8], place: Place, position: usize, data: &[u8]) {
    let e = entry(image, place);
    let end = position + data.len();
    for n in position / BLOCK..=(end - 1) / BLOCK {
        let target = data_block_made(image, &e, n);
        let (from, to) = (position.max(n * BLOCK), end.min((n + 1) * BLOCK));
        block_mut(image, target)[from - n * BLOCK..to - n * BLOCK].copy_from_slice(&data[from - position..to - position]);
    }
    finish(image, place, e.key, e.eof);
}

/// The block of file block n, its index and itself taken if missing.
fn data_block_made(image: &mut [u8], e: &Entry, n: usize) -> usize {
    if e.kind == SEEDLING {
        return e.key;
    }
    if index_of(image, e.kind, e.key, n) == 0 {
        let index = map::take(image);
        set_pointer(image, e.key, n / POINTERS, index);
    }
    let index = index_of(image, e.kind, e.key, n);
    if pointer(image, index, n % POINTERS) == 0 {
        let data = map::take(image);
        set_pointer(image, index, n % POINTERS, data);
    }
    pointer(image, index, n % POINTERS)
}

/// Gives the file a smaller EOF. What the file owns before and not after is freed as it was.
pub fn shrink(image: &mut [u8], place: Place, new_eof: usize) {
    let e = entry(image, place);
    let before = owned(image, e.kind, e.key);
    let key = lowered(image, &e, kind_of(new_eof));
    cut(image, kind_of(new_eof), key, blocks_of(new_eof).max(1));
    finish(image, place, key, new_eof);
    let after: HashSet<usize> = owned(image, kind_of(new_eof), key).into_iter().collect();
    for number in before {
        if !after.contains(&number) {
            map::set_free(image, number);
        }
    }
}

/// The key when the file becomes of a lower kind: pointer 0 moves up; where it is a hole, the block above is zeroed and serves.
fn lowered(image: &mut [u8], e: &Entry, new_kind: u8) -> usize {
    let mut key = e.key;
    for _ in new_kind..e.kind {
        match pointer(image, key, 0) {
            0 => block_mut(image, key).fill(0),
            lower => key = lower,
        }
    }
    key
}

/// Zeroes the pointers to what is no longer kept, in the blocks that the file keeps.
fn cut(image: &mut [u8], kind: u8, key: usize, keep: usize) {
    match kind {
        SEEDLING => (),
        SAPLING => cut_index(image, key, keep),
        _ => {
            for i in 0..POINTERS {
                let index = pointer(image, key, i);
                if index != 0 && i * POINTERS >= keep {
                    set_pointer(image, key, i, 0);
                } else if index != 0 {
                    cut_index(image, index, keep - i * POINTERS);
                }
            }
        }
    }
}

fn cut_index(image: &mut [u8], index: usize, keep: usize) {
    for i in keep..POINTERS {
        set_pointer(image, index, i, 0);
    }
}
