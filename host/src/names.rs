//! Names and paths.

pub const LONGEST_NAME: usize = 15;
pub const LONGEST_PATH: usize = 64;

/// A name as a caller may give it, in small letters too.
pub fn proper(name: &[u8]) -> bool {
    (1..=LONGEST_NAME).contains(&name.len())
        && name[0].is_ascii_alphabetic()
        && name.iter().all(|&c| c.is_ascii_alphanumeric() || c == b'.')
}

/// A name as it must stand on the volume.
pub fn proper_capitals(name: &[u8]) -> bool {
    proper(name) && !name.iter().any(|c| c.is_ascii_lowercase())
}

pub fn capitals(name: &[u8]) -> Vec<u8> {
    name.to_ascii_uppercase()
}

/// The names of a path, in capitals; nothing for an improper path.
pub fn split(path: &[u8]) -> Option<Vec<Vec<u8>>> {
    if path.is_empty() || path.len() > LONGEST_PATH || path[0] != b'/' {
        return None;
    }
    let names: Vec<&[u8]> = path[1..].split(|&c| c == b'/').collect();
    if names.iter().all(|name| proper(name)) {
        Some(names.into_iter().map(capitals).collect())
    } else {
        None
    }
}
