//! Blocks of an image, and numbers of two and three bytes, low byte first.

pub const BLOCK: usize = 512;

pub fn get16(bytes: &[u8], at: usize) -> usize {
    bytes[at] as usize + 256 * bytes[at + 1] as usize
}

pub fn get24(bytes: &[u8], at: usize) -> usize {
    get16(bytes, at) + 65_536 * bytes[at + 2] as usize
}

pub fn put16(bytes: &mut [u8], at: usize, number: usize) {
    assert!(number < 1 << 16);
    bytes[at] = (number % 256) as u8;
    bytes[at + 1] = (number / 256) as u8;
}

pub fn put24(bytes: &mut [u8], at: usize, number: usize) {
    assert!(number < 1 << 24);
    put16(bytes, at, number % 65_536);
    bytes[at + 2] = (number / 65_536) as u8;
}

pub fn block(image: &[u8], number: usize) -> &[u8] {
    &image[number * BLOCK..(number + 1) * BLOCK]
}

pub fn block_mut(image: &mut [u8], number: usize) -> &mut [u8] {
    &mut image[number * BLOCK..(number + 1) * BLOCK]
}
