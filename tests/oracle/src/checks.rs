//! The rules under "The image" of document 01, on the lists that are lent: 0, or the number of the first that is broken.
use crate::lists::{CODE, Lists};

const BSS: u32 = 4;

fn ascend<T: PartialOrd>(keys: impl Iterator<Item = T>) -> bool { keys.collect::<Vec<_>>().windows(2).all(|k| k[0] < k[1]) }

impl Lists {
    fn image_passes(&self) -> bool {
        let sections: Vec<_> = Self::rows(&self.sections, 4).collect();
        let end = |s: &[u32]| s[1] as u64 + s[2] as u64;
        let each = |s: &&[u32]| {
            (s[1] | s[2]) % 4 == 0
                && s[1] >= 256
                && s[2] >= 4
                && end(s) <= 0xF000_0000
                && (s[0] != CODE || s[2] <= 262_144)
                && s[3] == if s[0] == BSS { 0 } else { s[2] }
        };
        let apart = |(i, s): (usize, &&[u32])| sections[..i].iter().all(|t| end(s) <= t[1] as u64 || end(t) <= s[1] as u64);
        (1..=8).contains(&sections.len())
            && sections.iter().filter(|s| s[0] == CODE).count() == 1
            && sections.iter().all(|s| each(s))
            && sections.iter().enumerate().all(apart)
    }

    fn is_inside(&self, address: u32) -> bool { address % 4 == 0 && self.section_at(address).is_some() }

    fn outcomes_pass(&self) -> bool {
        let way = |way: u32, address: u32| match way % 4 {
            1 | 2 => self.is_inside(address),
            3 => address == 0,
            _ => way == 0 && address == 0,
        };
        Self::rows(&self.outcomes, 6).all(|o| match o[0] {
            4 => self.is_inside(o[2]),
            5 => self.is_inside(o[2]) && o[3] <= 65_536,
            6 => way(o[2], o[3]) && way(o[4], o[5]),
            _ => true,
        })
    }

    fn symbols_pass(&self, list: &[u32], functions: bool) -> bool {
        let (code, ..) = self.code();
        let each = |s: &[u32]| {
            self.is_inside(s[0])
                && (self.section_at(s[0]) == Some(code)) == functions
                && s[1] <= 262_144
                && (!functions || s[1] % 4 == 0)
        };
        list.len() <= 3 * 1024
            && Self::rows(list, 3).all(each)
            && ascend(Self::rows(list, 3).map(|s| (self.section_at(s[0]), s[0])))
    }

    fn rest_passes(&self) -> bool {
        let (_, base, size) = self.code();
        let skips: Vec<_> = Self::rows(&self.skips, 2).collect();
        let each = |s: &&[u32]| (s[0] | s[1]) % 4 == 0 && base <= s[0] && s[0] < s[1] && s[1] <= base + size;
        self.symbols_pass(&self.functions, true)
            && self.symbols_pass(&self.objects, false)
            && skips.len() <= 64
            && skips.iter().all(each)
            && skips.windows(2).all(|s| s[0][1] <= s[1][0])
            && self.entry.len() <= 1
            && self.entry.iter().all(|&a| a % 4 == 0 && base <= a && a < base + size)
    }

    pub fn check(&self) -> u32 {
        if !self.image_passes() {
            1
        } else if !self.outcomes_pass() {
            2
        } else if !self.rest_passes() {
            3
        } else {
            0
        }
    }
}
