//! The listing of a volume, as the program `catalog` prints it.

use crate::bytes::BLOCK;
use crate::directory::{active_places, entry, header, slot, stored_name, Entry, SUBDIRECTORY, VOLUME_KEY};
use crate::map;
use crate::sound::refusal;

pub const LARGEST: usize = 65_536;

/// All that is printed for the bytes read from standard input.
pub fn print(image: &[u8]) -> String {
    if image.len() > LARGEST {
        return "TOO LARGE\n".to_string();
    }
    match refusal(image) {
        Err(number) => format!("REFUSED {number:02X}\n"),
        Ok(()) => listing(image),
    }
}

fn listing(image: &[u8]) -> String {
    let mut text = format!("{} {} {}\n", volume_name(image), image.len() / BLOCK, map::count_free(image));
    for (path, e) in walk(image) {
        text += &format!("{:X} {:02X} {} {} {}\n", e.kind, e.file_type, e.used, e.eof, path);
    }
    text
}

pub fn volume_name(image: &[u8]) -> String {
    text(stored_name(slot(image, header(VOLUME_KEY))))
}

/// Every entry of a sound volume with its path, a subdirectory's content straight after it.
pub fn walk(image: &[u8]) -> Vec<(String, Entry)> {
    let mut all = Vec::new();
    walk_directory(image, VOLUME_KEY, &format!("/{}", volume_name(image)), &mut all);
    all
}

fn walk_directory(image: &[u8], key: usize, path: &str, all: &mut Vec<(String, Entry)>) {
    for place in active_places(image, key) {
        let e = entry(image, place);
        let own_path = format!("{path}/{}", text(&e.name));
        all.push((own_path.clone(), e.clone()));
        if e.kind == SUBDIRECTORY {
            walk_directory(image, e.key, &own_path, all);
        }
    }
}

fn text(name: &[u8]) -> String {
    String::from_utf8(name.to_vec()).expect("a proper name")
}
