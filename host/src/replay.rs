//! The interpreter of scripts. docs/REPLAY.md has the format; nothing here knows more than it says.

use crate::bytes::BLOCK;
use crate::calls::{self, Answer, Info, Stamp};
use crate::directory::Place;

pub const LARGEST_SCRIPT: usize = 1_048_576;
pub const LONGEST_LINE: usize = 4_096;
pub const LONGEST_TEXT: usize = 128;
pub const LARGEST_IMAGE: usize = 4_194_304;
pub const LARGEST_COUNT: usize = 262_144;
/// Reads of more bytes print a digest in place of the bytes.
pub const LARGEST_SHOWN: usize = 1_024;
/// What a buffer holds before a read, so that bytes left alone are seen.
pub const PREFILL: u8 = 0xA5;

/// Runs a whole script.
pub fn run(script: &[u8]) -> String {
    if script.len() > LARGEST_SCRIPT {
        return "SCRIPT TOO LARGE\n".to_string();
    }
    let mut machine = Machine::default();
    let mut output = String::new();
    for line in lines(script) {
        if let Some(answer) = machine.line(line) {
            output += &answer;
            output.push('\n');
        }
    }
    output
}

/// The lines of a script; the last one may lack its newline.
pub fn lines(script: &[u8]) -> Vec<&[u8]> {
    let mut all: Vec<&[u8]> = script.split(|&c| c == b'\n').collect();
    if all.last().is_some_and(|line| line.is_empty()) {
        all.pop();
    }
    all
}

/// FNV-1a of 32 bits.
pub fn digest(bytes: &[u8]) -> u32 {
    bytes.iter().fold(2_166_136_261, |hash, &byte| (hash ^ byte as u32).wrapping_mul(16_777_619))
}

#[derive(Default, Clone)]
pub struct Machine {
    pub image: Vec<u8>,
    number: usize,
}

impl Machine {
    /// The line that is printed for a line of the script; nothing for a comment or an empty line.
    pub fn line(&mut self, line: &[u8]) -> Option<String> {
        self.number += 1;
        if line.len() <= LONGEST_LINE && (line.is_empty() || line[0] == b'#') {
            return None;
        }
        let answer = if line.len() > LONGEST_LINE { None } else { self.command(line) };
        Some(answer.unwrap_or_else(|| format!("BAD LINE {}", self.number)))
    }

    /// Nothing for a bad line: every field is read before anything is done.
    fn command(&mut self, line: &[u8]) -> Option<String> {
        let fields: Vec<&[u8]> = line.split(|&c| c == b' ').collect();
        match fields.as_slice() {
            [b"blocks", n] => self.resize(number(n, LARGEST_IMAGE / BLOCK)? * BLOCK),
            [b"bytes", length] => self.resize(number(length, LARGEST_IMAGE)?),
            [b"set", address, hex] => self.set(number(address, LARGEST_IMAGE)?, &data(hex)?),
            [b"setrun", address, count, value] => {
                let (address, count) = (number(address, LARGEST_IMAGE)?, number(count, LARGEST_IMAGE)?);
                self.set(address, &vec![byte(value)?; count])
            }
            [b"digest"] => Some(format!("OK {} {:08X}", self.image.len(), digest(&self.image))),
            [b"block", b] => self.block(number(b, LARGEST_IMAGE / BLOCK)?),
            [b"format", name, date, time] => {
                let (name, stamp) = (text(name)?, stamp(date, time)?);
                Some(plain(calls::format(&mut self.image, &name, stamp)))
            }
            [b"create", path, kind, file_type, aux, date, time] => {
                let (path, kind, file_type) = (text(path)?, byte(kind)?, byte(file_type)?);
                let (aux, stamp) = (number(aux, 65_535)?, stamp(date, time)?);
                Some(plain(calls::create(&mut self.image, &path, kind, file_type, aux, stamp)))
            }
            [b"destroy", path] => {
                let path = text(path)?;
                Some(plain(calls::destroy(&mut self.image, &path)))
            }
            [b"rename", path, name] => {
                let (path, name) = (text(path)?, text(name)?);
                Some(plain(calls::rename(&mut self.image, &path, &name)))
            }
            [b"setinfo", path, access, aux, date, time] => {
                let (path, access) = (text(path)?, byte(access)?);
                let (aux, stamp) = (number(aux, 65_535)?, stamp(date, time)?);
                Some(plain(calls::set_info(&mut self.image, &path, access, aux, stamp)))
            }
            [b"getinfo", path] => Some(shown(calls::get_info(&self.image, &text(path)?).map(info))),
            [b"find", path] => Some(shown(calls::find_entry(&self.image, &text(path)?).map(found))),
            [b"space"] => Some(shown(calls::space(&self.image).map(|(total, free)| format!("{total} {free}")))),
            [b"read", path, position, count] => {
                let (path, position, count) = (text(path)?, number(position, u32::MAX as usize)?, number(count, LARGEST_COUNT)?);
                Some(self.read(&path, position, count))
            }
            [b"write", path, position, date, time, hex] => {
                let (path, position, stamp) = (text(path)?, number(position, u32::MAX as usize)?, stamp(date, time)?);
                let data = data(hex)?;
                Some(self.write(&path, position, &data, stamp))
            }
            [b"fill", path, position, date, time, count, value] => {
                let (path, position, stamp) = (text(path)?, number(position, u32::MAX as usize)?, stamp(date, time)?);
                let data = vec![byte(value)?; number(count, LARGEST_COUNT)?];
                Some(self.write(&path, position, &data, stamp))
            }
            [b"seteof", path, eof, date, time] => {
                let (path, eof, stamp) = (text(path)?, number(eof, u32::MAX as usize)?, stamp(date, time)?);
                Some(plain(calls::set_eof(&mut self.image, &path, eof as u64, stamp)))
            }
            _ => None,
        }
    }

    fn resize(&mut self, length: usize) -> Option<String> {
        self.image = vec![0; length];
        Some("OK".to_string())
    }

    fn set(&mut self, address: usize, bytes: &[u8]) -> Option<String> {
        self.image.get_mut(address..address + bytes.len())?.copy_from_slice(bytes);
        Some("OK".to_string())
    }

    fn block(&self, number: usize) -> Option<String> {
        let bytes = self.image.get(number * BLOCK..(number + 1) * BLOCK)?;
        Some(format!("OK {}", hex(bytes)))
    }

    fn read(&self, path: &[u8], position: usize, count: usize) -> String {
        let mut buffer = vec![PREFILL; count];
        let answer = calls::read(&self.image, path, position as u64, &mut buffer);
        shown(answer.map(|transferred| format!("{transferred} {}", buffer_text(&buffer))))
    }

    fn write(&mut self, path: &[u8], position: usize, data: &[u8], stamp: Stamp) -> String {
        shown(calls::write(&mut self.image, path, position as u64, data, stamp).map(|count| count.to_string()))
    }
}

// ---- fields

/// A decimal number of 1 to 10 digits, at most `limit`.
fn number(field: &[u8], limit: usize) -> Option<usize> {
    if field.is_empty() || field.len() > 10 || !field.iter().all(|c| c.is_ascii_digit()) {
        return None;
    }
    let value = field.iter().fold(0, |sum, &c| 10 * sum + (c - b'0') as usize);
    (value <= limit).then_some(value)
}

fn digit(c: u8) -> Option<u8> {
    (c as char).to_digit(16).map(|d| d as u8)
}

/// Pairs of hex digits.
fn pairs(field: &[u8]) -> Option<Vec<u8>> {
    if field.len() % 2 != 0 {
        return None;
    }
    field.chunks(2).map(|pair| Some(digit(pair[0])? * 16 + digit(pair[1])?)).collect()
}

/// A byte as two hex digits.
fn byte(field: &[u8]) -> Option<u8> {
    if field.len() == 2 {
        Some(pairs(field)?[0])
    } else {
        None
    }
}

/// Data: pairs of hex digits, at least one, or `-` for none.
fn data(field: &[u8]) -> Option<Vec<u8>> {
    match field {
        b"" => None,
        b"-" => Some(Vec::new()),
        _ => pairs(field),
    }
}

/// A path or name: itself, `=` and pairs of hex digits, or `-` for an empty one.
fn text(field: &[u8]) -> Option<Vec<u8>> {
    let bytes = match field {
        b"" => return None,
        b"-" => Vec::new(),
        [b'=', digits @ ..] => pairs(digits)?,
        _ if field.iter().all(|c| (0x21..=0x7E).contains(c)) => field.to_vec(),
        _ => return None,
    };
    (bytes.len() <= LONGEST_TEXT).then_some(bytes)
}

fn stamp(date: &[u8], time: &[u8]) -> Option<Stamp> {
    let (date, time) = (number(date, 65_535)?, number(time, 65_535)?);
    Some([(date % 256) as u8, (date / 256) as u8, (time % 256) as u8, (time / 256) as u8])
}

// ---- answers

pub fn hex(bytes: &[u8]) -> String {
    bytes.iter().map(|byte| format!("{byte:02X}")).collect()
}

fn plain(answer: Answer<()>) -> String {
    match answer {
        Ok(()) => "OK".to_string(),
        Err(number) => format!("REFUSED {number:02X}"),
    }
}

fn shown(answer: Answer<String>) -> String {
    match answer {
        Ok(parts) => format!("OK {parts}"),
        Err(number) => format!("REFUSED {number:02X}"),
    }
}

/// The whole buffer of a read, the bytes left alone too.
fn buffer_text(buffer: &[u8]) -> String {
    match buffer.len() {
        0 => "-".to_string(),
        1..=LARGEST_SHOWN => hex(buffer),
        _ => format!("#{:08X}", digest(buffer)),
    }
}

fn info(i: Info) -> String {
    let (created, modified) = (stamp_text(i.created), stamp_text(i.modified));
    format!("{:02X} {:02X} {:02X} {} {} {} {created} {modified}", i.kind, i.file_type, i.access, i.aux, i.used, i.eof)
}

fn found((place, read): (Place, usize)) -> String {
    format!("{} {} {read}", place.block, place.slot)
}

fn stamp_text(stamp: Stamp) -> String {
    format!("{} {}", stamp[0] as usize + 256 * stamp[1] as usize, stamp[2] as usize + 256 * stamp[3] as usize)
}
