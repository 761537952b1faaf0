//! The nine worked cases of the requirements, and the listing that they print, byte for byte.

use host::bytes::{block, get16, BLOCK};
use host::calls::*;
use host::directory::{entry, Entry, Place};
use host::file::pointer;

const FIRST: Stamp = [1, 2, 3, 4];
const LATER: Stamp = [5, 6, 7, 8];

fn fresh(total: usize) -> Vec<u8> {
    let mut image = vec![0xE5; total * BLOCK];
    assert_eq!(format(&mut image, b"SITE7", FIRST), Ok(()));
    image
}

fn case_2() -> Vec<u8> {
    let mut image = fresh(16);
    assert_eq!(create(&mut image, b"/SITE7/LOG", 1, 4, 0, FIRST), Ok(()));
    assert_eq!(write(&mut image, b"/SITE7/LOG", 0, b"ABC", LATER), Ok(3));
    assert_eq!(create(&mut image, b"/SITE7/DAYS", 0xD, 0x0F, 0, FIRST), Ok(()));
    assert_eq!(create(&mut image, b"/SITE7/DAYS/D1", 1, 4, 0, FIRST), Ok(()));
    image
}

fn d1(image: &[u8]) -> Entry {
    entry(image, Place { block: 8, slot: 2 })
}

fn free(image: &[u8]) -> usize {
    space(image).unwrap().1
}

/// The whole image of case 2, put together from the tables of the requirements and not by the calls.
fn case_2_by_hand() -> Vec<u8> {
    let mut image = vec![0; 16 * BLOCK];
    for (at, bytes) in [
        (1024, &b"\x00\x00\x03\x00\xF5SITE7"[..]),
        (1024 + 0x1C, &[1, 2, 3, 4, 0, 0, 0xC3, 39, 13, 2, 0, 6, 0, 16, 0]),
        (1024 + 0x2B, b"\x13LOG"),
        (1024 + 0x2B + 0x10, &[4, 7, 0, 1, 0, 3, 0, 0, 1, 2, 3, 4, 0, 0, 0xE3, 0, 0, 5, 6, 7, 8, 2, 0]),
        (1024 + 0x52, b"\xD4DAYS"),
        (1024 + 0x52 + 0x10, &[15, 8, 0, 1, 0, 0, 2, 0, 1, 2, 3, 4, 0, 0, 0xE3, 0, 0, 1, 2, 3, 4, 2, 0]),
        (3 * BLOCK, &[2, 0, 4, 0]),
        (4 * BLOCK, &[3, 0, 5, 0]),
        (5 * BLOCK, &[4, 0, 0, 0]),
        (6 * BLOCK, &[0x00, 0x3F]),
        (7 * BLOCK, b"ABC"),
        (8 * BLOCK, b"\x00\x00\x00\x00\xE4DAYS"),
        (8 * BLOCK + 0x14, &[0x75, 0, 0, 0, 0, 0, 0, 0, 1, 2, 3, 4, 0, 0, 0xE3, 39, 13, 1, 0, 2, 0, 3, 39]),
        (8 * BLOCK + 0x2B, b"\x12D1"),
        (8 * BLOCK + 0x2B + 0x10, &[4, 9, 0, 1, 0, 0, 0, 0, 1, 2, 3, 4, 0, 0, 0xE3, 0, 0, 1, 2, 3, 4, 8, 0]),
    ] {
        image[at..at + bytes.len()].copy_from_slice(bytes);
    }
    image
}

#[test]
fn case_1_fresh_volumes() {
    let image = fresh(16);
    assert_eq!(block(&image, 6)[..3], [0x01, 0xFF, 0x00]);
    assert_eq!(space(&image), Ok((16, 9)));
    let image = fresh(280);
    assert_eq!(block(&image, 6)[0], 0x01);
    assert!(block(&image, 6)[1..35].iter().all(|&byte| byte == 0xFF));
    assert!(block(&image, 6)[35..].iter().all(|&byte| byte == 0));
}

#[test]
fn case_2_first_files() {
    let image = case_2();
    assert_eq!(image, case_2_by_hand());
    assert_eq!(space(&image), Ok((16, 6)));
}

#[test]
fn case_3_a_sapling() {
    let mut image = case_2();
    assert_eq!(write(&mut image, b"/SITE7/DAYS/D1", 0, &[7; 513], LATER), Ok(513));
    assert_eq!((d1(&image).kind, d1(&image).key, d1(&image).used), (2, 10, 3));
    assert_eq!((pointer(&image, 10, 0), pointer(&image, 10, 1), pointer(&image, 10, 2)), (9, 11, 0));
    assert_eq!(free(&image), 4);
}

#[test]
fn case_4_a_tree_and_back() {
    let mut image = case_2();
    assert_eq!(write(&mut image, b"/SITE7/DAYS/D1", 0, &[7; 513], LATER), Ok(513));
    assert_eq!(set_eof(&mut image, b"/SITE7/DAYS/D1", 131_073, LATER), Ok(()));
    assert_eq!((d1(&image).kind, d1(&image).key, d1(&image).used), (3, 12, 4));
    let (index, master, data) = (block(&image, 10).to_vec(), block(&image, 12).to_vec(), block(&image, 9).to_vec());
    assert_eq!(set_eof(&mut image, b"/SITE7/DAYS/D1", 100, LATER), Ok(()));
    assert_eq!((d1(&image).kind, d1(&image).key, d1(&image).used, d1(&image).eof), (1, 9, 1, 100));
    assert_eq!(free(&image), 6);
    assert_eq!((block(&image, 10), block(&image, 12), block(&image, 9)), (&index[..], &master[..], &data[..]));
}

#[test]
fn case_5_fits_exactly() {
    let mut image = case_2();
    let before = image.clone();
    assert_eq!(write(&mut image, b"/SITE7/DAYS/D1", 0, &[7; 3_073], LATER), Err(NO_ROOM));
    assert_eq!(image, before);
    assert_eq!(write(&mut image, b"/SITE7/DAYS/D1", 0, &[7; 3_072], LATER), Ok(3_072));
    assert_eq!(free(&image), 0);
}

#[test]
fn case_6_positions_and_a_full_directory() {
    let mut image = case_2();
    let before = image.clone();
    assert_eq!(write(&mut image, b"/SITE7/LOG", 4, &[7], LATER), Err(BAD_POSITION));
    assert_eq!(read(&image, b"/SITE7/LOG", 3, &mut [0xA5]), Err(END_OF_FILE));
    assert_eq!(read(&image, b"/SITE7/LOG", 3, &mut []), Ok(0));
    assert_eq!(destroy(&mut image, b"/SITE7/DAYS"), Err(NO_ACCESS));
    assert_eq!(image, before);
}

#[test]
fn case_7_names_and_paths() {
    let mut image = fresh(32);
    let name = b"ABCDEFGHIJKLMNOP";
    let mut path = b"/SITE7".to_vec();
    for length in [15, 15, 15, 9] {
        path.push(b'/');
        path.extend(&name[..length]);
        assert_eq!(create(&mut image, &path, 0xD, 0x0F, 0, FIRST), Ok(()));
    }
    assert_eq!(path.len(), 64);
    path.push(b'X');
    assert_eq!(create(&mut image, &path, 0xD, 0x0F, 0, FIRST), Err(BAD_PATH));
    assert_eq!(create(&mut image, b"/SITE7/ABCDEFGHIJKLMNOP", 0xD, 0x0F, 0, FIRST), Err(BAD_PATH));
    assert_eq!(get_info(&image, b"/SITE7/"), Err(BAD_PATH));
}

#[test]
fn case_8_a_directory_gains_a_block() {
    let mut image = fresh(32);
    assert_eq!(create(&mut image, b"/SITE7/DAYS", 0xD, 0x0F, 0, FIRST), Ok(()));
    for i in 1..=13 {
        let path = format!("/SITE7/DAYS/D{i}");
        assert_eq!(create(&mut image, path.as_bytes(), 1, 4, 0, FIRST), Ok(()));
    }
    assert_eq!((get16(block(&image, 7), 2), get16(block(&image, 20), 0)), (20, 7));
    assert_eq!(entry(&image, Place { block: 20, slot: 1 }).key, 21);
    let days = get_info(&image, b"/SITE7/DAYS").unwrap();
    assert_eq!((days.used, days.eof, days.modified), (2, 1_024, FIRST));
}

#[test]
fn case_9_the_52nd_name() {
    let mut image = fresh(100);
    for i in 1..=51 {
        assert_eq!(create(&mut image, format!("/SITE7/F{i}").as_bytes(), 1, 4, 0, FIRST), Ok(()));
    }
    let before = image.clone();
    assert_eq!(create(&mut image, b"/SITE7/F52", 1, 4, 0, FIRST), Err(DIRECTORY_FULL));
    assert_eq!(image, before);
}

#[test]
fn the_listing_of_case_2() {
    let expected = "SITE7 16 6\n1 04 1 3 /SITE7/LOG\nD 0F 1 512 /SITE7/DAYS\n1 04 1 0 /SITE7/DAYS/D1\n";
    assert_eq!(host::catalog::print(&case_2()), expected);
    assert_eq!(host::catalog::print(&[0; 65_536]), "REFUSED 52\n");
    assert_eq!(host::catalog::print(&[0; 65_537]), "TOO LARGE\n");
}
