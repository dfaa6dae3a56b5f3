//! The walk of one function: `FunctionSlices::analyze` on an empty value, and the lines that the program `walked` prints of it.
use std::{collections::BTreeMap, fmt::Write};

use crate::{
    analysis::{
        cfa::{FunctionInfo, SectionAddress},
        slices::FunctionSlices,
    },
    faults::{Fault, guarded},
    lists::Lists,
    obj::ObjInfo,
};

type Known = BTreeMap<SectionAddress, FunctionInfo>;

/// An address with its section as one number; 0 for none.
type Key = u64;

fn key(high: u32, low: u32) -> Key { (high as u64) << 32 | low as u64 }

fn key_of(a: SectionAddress) -> Key { key(a.section + 1, a.address) }

/// None for what has no section: it is below all addresses.
fn address_of(k: Key) -> Option<SectionAddress> {
    let section = (k >> 32).checked_sub(1)?;
    Some(SectionAddress::new(section as u32, k as u32))
}

/// A walk that is asked for.
pub struct Walk {
    pub start: Key,
    pub end: Key,
    pub room: usize,
}

/// The limits of a walk's lists, which the Rust has not.
fn passes_limit(s: &FunctionSlices) -> bool {
    let ways: usize = s.branches.values().map(Vec::len).sum();
    s.blocks.len() > 256
        || ways > 1024
        || s.function_references.len() > 256
        || s.jump_table_references.len() > 256
        || s.possible_blocks.len() > 128
}

/// The numbers that the lists take in a lent one.
fn numbers(s: &FunctionSlices) -> usize {
    let ways: usize = s.branches.values().map(Vec::len).sum();
    2 * (s.blocks.len() + ways + s.jump_table_references.len()) + s.function_references.len() + s.possible_blocks.len()
}

fn printed(a: Option<SectionAddress>) -> String { a.map_or("-".into(), |a| format!("{:09x}", key_of(a))) }

fn print(out: &mut String, found: bool, s: &FunctionSlices) -> std::fmt::Result {
    let flags = [s.has_conditional_blr, s.has_rfi, s.has_r1_load].map(|f| if f { '1' } else { '0' });
    let flags: String = flags.iter().collect();
    writeln!(out, "R 00\nA {} {} {} {flags}", found as u8, printed(s.prologue), printed(s.epilogue))?;
    for (&start, &end) in &s.blocks {
        writeln!(out, "B {} {}", printed(Some(start)), printed(end))?;
    }
    for (&from, targets) in &s.branches {
        for &to in targets {
            writeln!(out, "C {} {}", printed(Some(from)), printed(Some(to)))?;
        }
    }
    for &a in &s.function_references {
        writeln!(out, "X {}", printed(Some(a)))?;
    }
    for (&a, size) in &s.jump_table_references {
        writeln!(out, "J {} {size:08x}", printed(Some(a)))?;
    }
    for &a in s.possible_blocks.keys() {
        writeln!(out, "P {}", printed(Some(a)))?;
    }
    writeln!(out, "L zero")
}

/// An image's walks.
pub struct Walks {
    lists: Lists,
    obj: ObjInfo,
    known: Vec<Key>,
}

impl Walks {
    pub fn new(lists: Lists) -> Self {
        let known = lists.known.chunks_exact(2).map(|k| key(k[0], k[1])).collect();
        let obj = lists.obj();
        Self { lists, obj, known }
    }

    /// What is asked of a walk beside an image's own rules, else 3. This is no test of the Rust.
    fn is_allowed(&self, walk: &Walk) -> bool {
        let (section, base, size) = self.lists.code();
        let offset = walk.start.wrapping_sub(key(section + 1, base));
        let ascend = self.known.chunks_exact(2).collect::<Vec<_>>().windows(2).all(|k| k[0][0] < k[1][0]);
        let length = walk.end.checked_sub(walk.start);
        self.known.len() % 2 == 0
            && self.known.len() <= 2 * 1024
            && ascend
            && offset < size as u64
            && offset % 4 == 0
            && (walk.end == 0 || length.is_some_and(|n| n <= 262_144 && n % 4 == 0))
    }

    /// The known functions; none where one has an entry that the Rust has no form for.
    fn known_functions(&self) -> Option<Known> {
        let info = |end| FunctionInfo { analyzed: false, end: address_of(end), slices: None };
        self.known.chunks_exact(2).map(|k| Some((address_of(k[0])?, info(k[1])))).collect()
    }

    fn analyze(&self, walk: &Walk, known: &Known) -> Result<(bool, FunctionSlices), Fault> {
        let mut s = FunctionSlices::default();
        let start = address_of(walk.start).unwrap();
        let run = || s.analyze(&self.obj, start, start, address_of(walk.end), known, None);
        let found = guarded(self.lists.feed(), &self.obj, run)?;
        Ok((found, s))
    }

    /// A walk's lines.
    pub fn answer(&self, out: &mut String, walk: &Walk, explain: bool) -> std::fmt::Result {
        if !self.is_allowed(walk) {
            return writeln!(out, "R 03\nL untouched");
        }
        let Some(known) = self.known_functions() else { return writeln!(out, "R ??") };
        match self.analyze(walk, &known) {
            Ok((_, s)) if passes_limit(&s) || numbers(&s) > walk.room => writeln!(out, "R 04\nL zero"),
            Ok((found, s)) => print(out, found, &s),
            Err(fault) => {
                if explain || fault.number.is_none() {
                    eprintln!("{}", fault.words);
                }
                match fault.number {
                    Some(n) => writeln!(out, "R {n:02}\nL zero"),
                    None => writeln!(out, "R ??"),
                }
            }
        }
    }

    pub fn asked(&self) -> impl Iterator<Item = Walk> {
        let rows = self.lists.walks.chunks_exact(5);
        rows.map(|w| Walk { start: key(w[0], w[1]), end: key(w[2], w[3]), room: w[4] as usize })
    }

    /// Times the walk from code's first word, without the making of what it is handed.
    pub fn timed(&self) -> u128 {
        let (section, base, _) = self.lists.code();
        let start = SectionAddress::new(section, base);
        let mut s = FunctionSlices::default();
        let mut took = 0;
        let run = || {
            let from = std::time::Instant::now();
            let found = s.analyze(&self.obj, start, start, None, &Known::new(), None);
            took = from.elapsed().as_nanos();
            found
        };
        assert!(guarded(self.lists.feed(), &self.obj, run).is_ok_and(|found| found));
        assert!(s.blocks.len() == 1);
        took
    }
}
