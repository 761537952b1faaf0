//! The bit map: block b is bit 7 - b mod 8 of byte b div 8, and 1 is free.

use crate::bytes::{block_mut, BLOCK};

pub const MAP_BLOCK: usize = 6;
const BLOCKS_PER_MAP_BLOCK: usize = 4096;

/// How many blocks the map of a volume of `total` blocks has.
pub fn length(total: usize) -> usize {
    total.div_ceil(BLOCKS_PER_MAP_BLOCK)
}

fn address(number: usize) -> usize {
    MAP_BLOCK * BLOCK + number / 8
}

fn weight(number: usize) -> u8 {
    128 >> (number % 8)
}

pub fn is_free(image: &[u8], number: usize) -> bool {
    image[address(number)] & weight(number) != 0
}

pub fn set_free(image: &mut [u8], number: usize) {
    image[address(number)] |= weight(number);
}

fn set_used(image: &mut [u8], number: usize) {
    image[address(number)] &= !weight(number);
}

/// The ones of the whole map; the bits past the last block are 0 on a sound volume.
pub fn count_free(image: &[u8]) -> usize {
    let total = image.len() / BLOCK;
    let map = &image[MAP_BLOCK * BLOCK..(MAP_BLOCK + length(total)) * BLOCK];
    map.iter().map(|byte| byte.count_ones() as usize).sum()
}

/// Takes the lowest free block and zeroes it. The caller has seen that there is one.
pub fn take(image: &mut [u8]) -> usize {
    let total = image.len() / BLOCK;
    let number = (0..total).find(|&b| is_free(image, b)).expect("the need was counted");
    set_used(image, number);
    block_mut(image, number).fill(0);
    number
}
