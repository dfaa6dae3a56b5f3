//! An image in frames, as `fmap` reads it (crates/reading/specs/Frames.antt has the form of each line), put into the lists.
use crate::lists::{CODE, Lists};

/// Code words that `fmap` takes.
const WORDS: usize = 1024;

/// A line's fields, taken from the front.
struct Fields<'a>(&'a [u8]);

impl Fields<'_> {
    fn digits(&mut self, n: usize) -> Option<u32> {
        let (first, rest) = self.0.split_at_checked(n)?;
        self.0 = rest;
        first.iter().try_fold(0, |v, &b| Some(v << 4 | (b as char).to_digit(16)?))
    }

    fn word(&mut self) -> Option<u32> { self.digits(8) }

    /// A byte in a range.
    fn byte(&mut self, least: u32, most: u32) -> Option<u32> { self.digits(2).filter(|n| (least..=most).contains(n)) }

    fn bit(&mut self) -> Option<u32> { self.byte(0, 1) }
}

/// The last row of a list, if its first number is this one.
fn last(list: &mut [u32], width: usize, first: u32) -> Option<&mut [u32]> {
    let at = list.len().checked_sub(width)?;
    Some(&mut list[at..]).filter(|row| row[0] == first)
}

fn put(lists: &mut Lists, line: &str) -> Option<()> {
    let mut f = Fields(line.as_bytes());
    match f.digits(2)? {
        1 => lists.sections.extend([f.byte(1, 4)?, f.word()?, f.word()?, 0]),
        2 => {
            let row = lists.sections.len().checked_sub(4)?;
            lists.bytes.extend(f.word()?.to_be_bytes());
            lists.sections[row + 3] += 4;
            if lists.sections[row] == CODE {
                lists.outcomes.extend([f.byte(0, 6)?, f.bit()?, 0, 0, 0, 0]);
            }
        }
        3 => last(&mut lists.outcomes, 6, 4)?[2] = f.word()?,
        4 => {
            let row = last(&mut lists.outcomes, 6, 5)?;
            (row[2], row[3]) = (f.word()?, f.word()?);
        }
        5 => {
            let row = last(&mut lists.outcomes, 6, 6)?;
            let (link, to, address) = (f.bit()?, f.byte(0, 2)?, f.word()?);
            match (row[2], row[4]) {
                (0, _) => (row[2], row[3]) = (4 * link + to + 1, address),
                (_, 0) => (row[4], row[5]) = (4 * link + to + 1, address),
                // a third one: a way that is none
                _ => row[4] = 4,
            }
        }
        6 => lists.functions.extend([f.word()?, f.word()?, f.bit()?]),
        7 => lists.objects.extend([f.word()?, f.word()?, f.bit()?]),
        8 => lists.skips.extend([f.word()?, f.word()?]),
        9 => lists.entry.push(f.word()?),
        _ => return None,
    }
    f.0.is_empty().then_some(())
}

/// The lists of an image's lines; none where a line is no frame, or code has more words than `fmap` takes.
pub fn read<'a>(lines: impl Iterator<Item = &'a str>) -> Option<Lists> {
    let mut lists = Lists::default();
    for line in lines {
        put(&mut lists, line)?;
    }
    (lists.outcomes.len() <= 6 * WORDS).then_some(lists)
}
