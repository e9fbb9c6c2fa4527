//! A reader of certificates without proofs, to compare the proved one's speed with: `checker PROGRAM
//! CERTIFICATE` reads a `cert 2` text into one list of entries for each task, sees that the lists rise, and
//! looks at the masks of two successors of each entry. It writes how many entries there are, and how many
//! of them it found something in.

use std::{env, fs, process};

const NONE: u64 = u64::MAX;
const CODE: usize = 4096;
const MASK_DIGITS: usize = 16;

type Entry = (u32, u64);

fn index_of(digits: &[u8]) -> Option<u32> {
    if digits.is_empty() || digits.len() > 5 || digits[0] == b'0' && digits.len() > 1 {
        return None;
    }
    let mut index = 0;
    for digit in digits {
        if !digit.is_ascii_digit() {
            return None;
        }
        index = index * 10 + u32::from(digit - b'0');
    }
    Some(index)
}

fn mask_of(digits: &[u8]) -> Option<u64> {
    let mut mask = 0;
    for digit in digits {
        let value = match digit {
            b'0'..=b'9' => digit - b'0',
            b'a'..=b'f' => digit - b'a' + 10,
            _ => return None,
        };
        mask = mask * 16 + u64::from(value);
    }
    (mask >> 34 == 0).then_some(mask)
}

fn entry_of(text: &[u8]) -> Option<(Entry, &[u8])> {
    let space = text.iter().position(|byte| *byte == b' ')?;
    let end = space + 1 + MASK_DIGITS;
    if text.get(end) != Some(&b'\n') {
        return None;
    }
    Some(((index_of(&text[..space])?, mask_of(&text[space + 1..end])?), &text[end + 1..]))
}

fn lists_of(text: &[u8], names: &[&[u8]]) -> Option<Vec<Vec<Entry>>> {
    let mut rest = text.strip_prefix(b"cert 2\n")?;
    let mut lists = Vec::with_capacity(names.len());
    for name in names {
        rest = rest.strip_prefix(b"task ")?.strip_prefix(*name)?.strip_prefix(b"\n")?;
        let mut list = Vec::new();
        while let Some((entry, after)) = entry_of(rest) {
            list.push(entry);
            rest = after;
        }
        lists.push(list);
    }
    rest.is_empty().then_some(lists)
}

/// How many entries of a list fall out of its order, or lack a register of a successor's mask.
fn faults(list: &[Entry], masks: &mut [u64]) -> usize {
    let mut faults = 0;
    let mut from = 0;
    for &(index, mask) in list {
        if index < from || index as usize >= CODE {
            faults += 1;
            continue;
        }
        from = index + 1;
        masks[index as usize] = mask;
    }
    for &(index, mask) in list {
        for next in [index as usize + 1, index as usize * 37 % CODE] {
            let needed = masks.get(next).copied().unwrap_or(NONE);
            faults += usize::from(needed != NONE && needed & !mask != 0);
        }
    }
    masks.fill(NONE);
    faults
}

fn main() {
    let words: Vec<String> = env::args().collect();
    let [_, program, certificate] = &words[..] else {
        eprintln!("checker PROGRAM CERTIFICATE");
        process::exit(2);
    };
    let (Ok(program), Ok(text)) = (fs::read_to_string(program), fs::read(certificate)) else {
        process::exit(2);
    };
    let names: Vec<&[u8]> = program.lines().filter_map(|line| line.strip_prefix(".task ")?.split(' ').next()).map(str::as_bytes).collect();
    let Some(lists) = lists_of(&text, &names) else {
        process::exit(1);
    };
    let mut masks = vec![NONE; CODE + 1];
    let entries: usize = lists.iter().map(Vec::len).sum();
    let found: usize = lists.iter().map(|list| faults(list, &mut masks)).sum();
    println!("{entries} {found}");
}
