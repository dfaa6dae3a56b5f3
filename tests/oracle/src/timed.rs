//! Times `AnalyzerState::detect_functions` on large images that are made here and, built with `--cfg ours`, the proved library's
//! `woqchari_detect_functions` beside it, by turns in one process (bench/map).
use std::time::Instant;

use crate::{analysis::cfa::AnalyzerState, faults::guarded, lists::Lists};

const BASE: u32 = 0x8000_3000;
const BLR: u32 = 0x4E80_0020;

/// An image's code under way: its words, and an outcome's row for each.
struct Code {
    words: Vec<u32>,
    rows: Vec<[u32; 6]>,
}

const GO_ON: [u32; 6] = [0; 6];
const RETURN: [u32; 6] = [3, 0, 0, 0, 0, 0];

impl Code {
    /// `addi r3,r3,1` up to a return.
    fn straight(words: usize) -> Self {
        let mut code = Self { words: vec![0x3863_0001; words], rows: vec![GO_ON; words] };
        code.put(words - 1, BLR, RETURN);
        code
    }

    fn put(&mut self, i: usize, word: u32, row: [u32; 6]) {
        self.words[i] = word;
        self.rows[i] = row;
    }

    fn at(i: usize) -> u32 { BASE + 4 * i as u32 }

    /// `count` functions of one length: a prologue, conditional branches, with `calls` a call of the next function, an epilogue and a
    /// return. Each eighth has no frame and ends with a jump to the next but one. Without calls most entries are found by the search
    /// behind another's end.
    fn functions(words: usize, count: usize, calls: bool) -> Self {
        let mut code = Self::straight(words);
        let len = words / count;
        // at most 64 branches for each function, so that its blocks stay within their limit
        let step = (len / 64).max(8);
        for f in 0..count {
            let at = f * len;
            let last = at + len - 1;
            let frame = f % 8 != 7;
            for i in (at + 8..at + len - 8).step_by(step) {
                code.put(i, 0x4182_0010, [6, 0, 1, Self::at(i + 1), 1, Self::at(i + 4)]);
            }
            if calls && f + 1 < count && frame {
                let i = at + 5;
                code.put(i, 0x4800_0001 | ((len as u32 - 5) * 4), [6, 0, 1, Self::at(i + 1), 5, Self::at(at + len)]);
            }
            if frame {
                for (i, w) in [(at, 0x9421_FFF0), (at + 1, 0x7C08_02A6), (at + 2, 0x9001_0014), (last - 2, 0x7C08_03A6), (last - 1, 0x3821_0010)] {
                    code.put(i, w, GO_ON);
                }
            }
            if frame || f + 2 >= count {
                code.put(last, BLR, RETURN);
            } else {
                code.put(last, 0x4800_0004 + len as u32 * 4, [4, 0, Self::at(at + 2 * len), 0, 0, 0]);
            }
        }
        code
    }

    /// A straight line with a `stwu r1` every 64 words: each scan for its partner goes over 64 words.
    fn scans(words: usize) -> Self {
        let mut code = Self::straight(words);
        for i in (0..words - 1).step_by(64) {
            code.put(i, 0x9421_FFF0, GO_ON);
        }
        code
    }

    fn lists(self) -> Lists {
        let size = 4 * self.words.len() as u32;
        Lists {
            sections: vec![1, BASE, size, size],
            bytes: self.words.iter().flat_map(|w| w.to_be_bytes()).collect(),
            outcomes: self.rows.concat(),
            ..Default::default()
        }
    }
}

/// A panic prints nothing here (faults.rs).
fn demand(holds: bool, else_says: &str) {
    if !holds {
        eprintln!("{else_says}");
        std::process::exit(1);
    }
}

/// Nanoseconds: the least, and all together.
#[derive(Clone, Copy)]
struct Took {
    best: u128,
    sum: u128,
}

impl Took {
    const NONE: Self = Self { best: u128::MAX, sum: 0 };

    fn add(&mut self, ns: u128) {
        self.best = self.best.min(ns);
        self.sum += ns;
    }

    fn print(&self, runs: u32) -> String {
        format!("{:9.3} ms, mean {:.2} times that", self.best as f64 / 1e6, self.sum as f64 / runs as f64 / self.best as f64)
    }
}

fn rust(lists: &Lists) -> (u128, AnalyzerState) {
    let obj = lists.obj();
    let mut state = AnalyzerState::new(lists.skip_ranges());
    let mut took = 0;
    let run = || {
        let from = Instant::now();
        let answer = state.detect_functions(&obj);
        took = from.elapsed().as_nanos();
        answer
    };
    demand(guarded(lists.feed(), &obj, run).is_ok(), "the Rust meets a fault");
    (took, state)
}

#[cfg(ours)]
mod ours {
    use std::time::Instant;

    use super::demand;
    use crate::{
        analysis::cfa::{AnalyzerState, SectionAddress},
        lists::Lists,
    };

    // include/woqchari.h says what each list holds.
    unsafe extern "C" {
        fn woqchari_detect_functions(
            sections: *const u32, sections_len: usize,
            bytes: *const u8, bytes_len: usize,
            outcomes: *const u32, outcomes_len: usize,
            functions: *const u32, functions_len: usize,
            objects: *const u32, objects_len: usize,
            skips: *const u32, skips_len: usize,
            entry: *const u32, entry_len: usize,
            rows: *mut u64, rows_len: usize,
            lists: *mut u64, lists_len: usize,
            entries: *mut usize, numbers: *mut usize,
        ) -> u32;
    }

    pub struct Room {
        pub rows: Vec<u64>,
        pub lists: Vec<u64>,
        pub entries: usize,
        pub numbers: usize,
    }

    impl Room {
        pub fn new() -> Self { Self { rows: vec![0; 10 * 1024], lists: vec![0; 131_072], entries: 0, numbers: 0 } }

        pub fn run(&mut self, l: &Lists) -> u128 {
            let from = Instant::now();
            let number = unsafe {
                woqchari_detect_functions(
                    l.sections.as_ptr(), l.sections.len(),
                    l.bytes.as_ptr(), l.bytes.len(),
                    l.outcomes.as_ptr(), l.outcomes.len(),
                    l.functions.as_ptr(), l.functions.len(),
                    l.objects.as_ptr(), l.objects.len(),
                    l.skips.as_ptr(), l.skips.len(),
                    l.entry.as_ptr(), l.entry.len(),
                    self.rows.as_mut_ptr(), self.rows.len(),
                    self.lists.as_mut_ptr(), self.lists.len(),
                    &mut self.entries, &mut self.numbers,
                )
            };
            let took = from.elapsed().as_nanos();
            demand(number == 0, &format!("the library answers {number}"));
            took
        }

        /// The lent lists are the Rust's map, with zeros past it.
        pub fn assert_same(&self, state: &AnalyzerState) {
            let key = |a: SectionAddress| (a.section as u64 + 1) << 32 | a.address as u64;
            let or_none = |a: Option<SectionAddress>| a.map_or(0, key);
            let (mut rows, mut lists) = (vec![], vec![]);
            for (&entry, f) in &state.functions {
                let Some(s) = &f.slices else {
                    rows.extend([key(entry), 0, 1, 0, 0, 0, 0, 0, 0, 0]);
                    continue;
                };
                let ways: Vec<(u64, u64)> = s.branches.iter().flat_map(|(&a, to)| to.iter().map(move |&b| (key(a), key(b)))).collect();
                let flags = [f.analyzed, true, s.has_conditional_blr, s.has_rfi, s.has_r1_load, s.finalized];
                let flags = flags.iter().rev().fold(0, |n, &f| 2 * n + f as u64);
                let counts = [s.blocks.len(), ways.len(), s.function_references.len(), s.jump_table_references.len(), s.possible_blocks.len()];
                rows.extend([key(entry), or_none(f.end), flags, or_none(s.prologue), or_none(s.epilogue)]);
                rows.extend(counts.map(|n| n as u64));
                lists.extend(s.blocks.keys().map(|&a| key(a)));
                lists.extend(s.blocks.values().map(|&a| or_none(a)));
                lists.extend(ways.iter().map(|w| w.0));
                lists.extend(ways.iter().map(|w| w.1));
                lists.extend(s.function_references.iter().map(|&a| key(a)));
                lists.extend(s.jump_table_references.keys().map(|&a| key(a)));
                lists.extend(s.jump_table_references.values().map(|&n| n as u64));
                lists.extend(s.possible_blocks.keys().map(|&a| key(a)));
            }
            demand(rows.len() <= self.rows.len() && lists.len() <= self.lists.len(), "the Rust's map has no room");
            rows.resize(self.rows.len(), 0);
            lists.resize(self.lists.len(), 0);
            demand(rows == self.rows, "the rows are not the Rust's");
            demand(lists == self.lists, "the lists are not the Rust's");
        }
    }
}

/// One line: the Rust's time and, with the library, its own and how many times as fast it is.
fn time(name: &str, code: Code, runs: u32) {
    let lists = code.lists();
    demand(lists.check() == 0, "the image breaks a rule");
    let mut of_rust = Took::NONE;
    #[cfg(ours)]
    let (mut room, mut of_ours) = (ours::Room::new(), Took::NONE);
    for _ in 0..runs {
        let (took, state) = rust(&lists);
        of_rust.add(took);
        #[cfg(ours)]
        {
            of_ours.add(room.run(&lists));
            room.assert_same(&state);
        }
    }
    let line = format!("{name:<44} the Rust {}", of_rust.print(runs));
    #[cfg(ours)]
    let line = format!("{line}; the library {}; {:.2} times as fast", of_ours.print(runs), of_rust.best as f64 / of_ours.best as f64);
    println!("{line}");
}

/// Six images of 65,536 words.
pub fn images(runs: u32) {
    log::set_max_level(log::LevelFilter::Off);
    let words = 65_536;
    time("a straight line", Code::straight(words), runs);
    for calls in [true, false] {
        for count in [256, 1024] {
            let name = format!("{count} functions, {}", if calls { "each calls the next" } else { "no calls" });
            time(&name, Code::functions(words, count, calls), runs);
        }
    }
    time("a `stwu r1` every 64 words", Code::scans(words), runs);
}

/// How the cost grows with the words and with the functions.
pub fn sizes(runs: u32) {
    log::set_max_level(log::LevelFilter::Off);
    for words in [4_096, 8_192, 16_384, 32_768, 65_536] {
        time(&format!("{words} words, a straight line"), Code::straight(words), runs);
    }
    for words in [4_096, 8_192, 16_384, 32_768, 65_536] {
        time(&format!("{words} words, 64 functions with calls"), Code::functions(words, 64, true), runs);
    }
    for count in [16, 32, 64, 128, 256, 512, 1_024] {
        time(&format!("65536 words, {count} functions with calls"), Code::functions(65_536, count, true), runs);
    }
    for count in [16, 32, 64, 128, 256, 512, 1_024] {
        time(&format!("65536 words, {count} functions, no calls"), Code::functions(65_536, count, false), runs);
    }
}
