//! Is it a ProDOS volume ($52), and is it sound ($5A)? Nothing here trusts a byte of the image.

use crate::bytes::{block, get16, BLOCK};
use crate::directory::{
    active, entry, header, places, slot, stored_name, Entry, Place, DIRECTORY_TYPE, SLOTS, SLOT_LENGTH, SUBDIRECTORY, VOLUME_KEY,
};
use crate::file::{blocks_of, kind_of, pointer, POINTERS, SAPLING, SEEDLING, TREE};
use crate::map;
use crate::names::proper_capitals;
use std::collections::HashSet;

const DEEPEST: usize = 31;

/// Passed, or the sentence that is broken.
pub type Check = Result<(), &'static str>;

fn must(condition: bool, sentence: &'static str) -> Check {
    if condition {
        Ok(())
    } else {
        Err(sentence)
    }
}

pub fn good_length(length: usize) -> bool {
    length % BLOCK == 0 && (16..=65_535).contains(&(length / BLOCK))
}

/// The $52 test.
pub fn is_volume(image: &[u8]) -> bool {
    if !good_length(image.len()) {
        return false;
    }
    let b = block(image, VOLUME_KEY);
    get16(b, 0) == 0
        && b[4] / 16 == 0xF
        && b[0x23] as usize == SLOT_LENGTH
        && b[0x24] as usize == SLOTS
        && get16(b, 0x29) == image.len() / BLOCK
}

/// Both tests, as the calls make them before anything else.
pub fn refusal(image: &[u8]) -> Result<(), u8> {
    if !is_volume(image) {
        return Err(0x52);
    }
    check(image).map_err(|_| 0x5A)
}

/// Is a volume that passed the $52 test sound?
pub fn check(image: &[u8]) -> Check {
    let mut walk = Walk { image, owned: vec![false; image.len() / BLOCK] };
    walk.volume()?;
    walk.map()
}

struct Walk<'a> {
    image: &'a [u8],
    owned: Vec<bool>,
}

impl Walk<'_> {
    fn claim(&mut self, number: usize) -> Check {
        must(number < self.owned.len(), "a pointer leaves the volume")?;
        must(!self.owned[number], "a block has two owners")?;
        self.owned[number] = true;
        Ok(())
    }

    fn volume(&mut self) -> Check {
        let total = self.owned.len();
        for number in [0, 1].into_iter().chain(map::MAP_BLOCK..map::MAP_BLOCK + map::length(total)) {
            self.claim(number)?;
        }
        must(proper_capitals(stored_name(slot(self.image, header(VOLUME_KEY)))), "the volume's name")?;
        must(get16(block(self.image, VOLUME_KEY), 0x27) == map::MAP_BLOCK, "the map is not at 6")?;
        let blocks = self.chain(VOLUME_KEY)?;
        must(blocks == [2, 3, 4, 5], "the volume directory is not 2, 3, 4, 5")?;
        self.content(VOLUME_KEY, &blocks, 0)
    }

    /// Claims the blocks of a directory, looking at both links of each.
    fn chain(&mut self, key: usize) -> Result<Vec<usize>, &'static str> {
        let mut blocks = Vec::new();
        let (mut before, mut number) = (0, key);
        loop {
            // A chain that came back to itself would claim a block twice, so this ends.
            self.claim(number)?;
            must(get16(block(self.image, number), 0) == before, "a previous field is wrong")?;
            blocks.push(number);
            before = number;
            number = get16(block(self.image, number), 2);
            if number == 0 {
                return Ok(blocks);
            }
        }
    }

    /// The count and the entries of a directory, `level` levels below the volume directory.
    fn content(&mut self, key: usize, blocks: &[usize], level: usize) -> Check {
        let all: Vec<Place> = places(blocks).into_iter().filter(|&p| active(self.image, p)).collect();
        must(all.len() == get16(block(self.image, key), 0x25), "a header's count is wrong")?;
        let mut names = HashSet::new();
        for place in all {
            let e = entry(self.image, place);
            must(proper_capitals(&e.name), "an entry's name")?;
            must(names.insert(e.name.clone()), "two names alike")?;
            must(e.directory == key, "an entry's directory key")?;
            self.entry(&e, place, level)?;
        }
        Ok(())
    }

    fn entry(&mut self, e: &Entry, place: Place, level: usize) -> Check {
        match e.kind {
            SEEDLING | SAPLING | TREE => self.file(e),
            SUBDIRECTORY => self.subdirectory(e, place, level + 1),
            _ => Err("an entry of no kind"),
        }
    }

    fn subdirectory(&mut self, e: &Entry, place: Place, level: usize) -> Check {
        must(level <= DEEPEST, "a directory lies too deep")?;
        must(e.file_type == DIRECTORY_TYPE, "a subdirectory's type")?;
        let blocks = self.chain(e.key)?;
        must(e.used == blocks.len(), "a subdirectory's blocks used")?;
        must(e.eof == BLOCK * blocks.len(), "a subdirectory's EOF")?;
        let b = block(self.image, e.key);
        must(b[4] / 16 == 0xE, "a subdirectory header's kind")?;
        must(stored_name(&b[4..]) == e.name, "a subdirectory header's name")?;
        must(b[0x23] as usize == SLOT_LENGTH && b[0x24] as usize == SLOTS, "a subdirectory header's 39 and 13")?;
        must(get16(b, 0x27) == place.block && b[0x29] as usize == place.slot, "a subdirectory header's parent")?;
        must(b[0x2A] as usize == SLOT_LENGTH, "a subdirectory header's second 39")?;
        self.content(e.key, &blocks, level)
    }

    fn file(&mut self, e: &Entry) -> Check {
        must(e.file_type != DIRECTORY_TYPE, "a data file's type")?;
        must(e.kind == kind_of(e.eof), "a kind that does not fit the EOF")?;
        self.claim(e.key)?;
        let below = blocks_of(e.eof);
        let more = match e.kind {
            SEEDLING => 0,
            SAPLING => self.index(e.key, below)?,
            _ => self.master(e.key, below)?,
        };
        must(e.used == 1 + more, "a file's blocks used")
    }

    /// Claims what an index points at: pointers from `below` on must be 0.
    fn index(&mut self, index: usize, below: usize) -> Result<usize, &'static str> {
        let mut claimed = 0;
        for i in 0..POINTERS {
            let data = pointer(self.image, index, i);
            if data != 0 {
                must(i < below, "a pointer at or past EOF")?;
                self.claim(data)?;
                claimed += 1;
            }
        }
        Ok(claimed)
    }

    fn master(&mut self, master: usize, below: usize) -> Result<usize, &'static str> {
        let mut claimed = 0;
        for i in 0..POINTERS {
            let index = pointer(self.image, master, i);
            if index != 0 {
                must(i * POINTERS < below, "an index with nothing before EOF")?;
                self.claim(index)?;
                claimed += 1 + self.index(index, below - i * POINTERS)?;
            }
        }
        Ok(claimed)
    }

    /// Every bit of every map block, those past the last block too.
    fn map(&self) -> Check {
        let total = self.owned.len();
        for number in 0..map::length(total) * 4096 {
            let free = number < total && !self.owned[number];
            must(map::is_free(self.image, number) == free, "the map is wrong")?;
        }
        Ok(())
    }
}
