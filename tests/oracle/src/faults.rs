//! The numbers of document 01 for what the Rust's errors and panics say, and for what it has no limit or test for.
use std::{
    any::Any,
    cell::RefCell,
    panic::{self, AssertUnwindSafe},
};

use crate::{
    analysis::vm::{FEED, Feed, Stop},
    obj::ObjInfo,
};

/// A fault's number, none for what document 01 has no number for, and the Rust's words.
pub struct Fault {
    pub number: Option<u32>,
    pub words: String,
}

thread_local! {
    /// The words and the file of the last panic.
    static PANIC: RefCell<(String, String)> = RefCell::default();
    /// Base and bytes of the sections of the image under way.
    static SECTIONS: RefCell<Vec<(u32, u32, Vec<u8>)>> = RefCell::default();
}

/// How the Rust's own errors begin.
const ERRORS: [(&str, u32); 12] = [
    ("Found multiple functions inside a symbol", 5),
    ("Found duplicate epilogue", 6),
    ("Conditional jump table unsupported", 7),
    ("Condition failed: `fn_addr != function_start`", 8),
    ("Invalid jump table entry", 9),
    ("Failed to finalize block @", 11),
    ("Unpaired epilogue", 12),
    ("Can't finalize function without known end", 13),
    ("Overlapping functions", 14),
    ("Invalid address", 15),
    ("Already finalized", 17),
    ("Failed to finalize functions", 17),
];

fn of_error(e: &anyhow::Error) -> Fault {
    let words: Vec<String> = e.chain().map(|c| c.to_string()).collect();
    let number = words.iter().find_map(|w| ERRORS.iter().find(|(start, _)| w.starts_with(start)).map(|&(_, n)| n));
    Fault { number, words: words.into_iter().filter(|w| w.len() < 400).collect::<Vec<_>>().join("; ") }
}

fn of_panic(carried: Box<dyn Any + Send>) -> Fault {
    if let Some(stop) = carried.downcast_ref::<Stop>() {
        return Fault { number: Some(stop.0), words: "a test that the Rust has not".into() };
    }
    let (words, file) = PANIC.with_borrow(Clone::clone);
    let number = if words.contains("exceeds fixbitset size") {
        Some(16)
    } else if file.ends_with("analysis/mod.rs") && words.starts_with("range end index 4 out of range for slice of length") {
        Some(10)
    } else {
        None
    };
    Fault { number, words: format!("panic in {file}: {words}") }
}

/// Runs the Rust over an image, and turns what goes wrong into a fault.
pub fn guarded<T>(feed: Feed, obj: &ObjInfo, run: impl FnOnce() -> anyhow::Result<T>) -> Result<T, Fault> {
    FEED.set(feed);
    SECTIONS.set(obj.sections.iter().map(|(_, s)| (s.address as u32, s.size as u32, s.data.clone())).collect());
    match panic::catch_unwind(AssertUnwindSafe(run)) {
        Ok(Ok(value)) => Ok(value),
        Ok(Err(e)) => Err(of_error(&e)),
        Err(carried) => Err(of_panic(carried)),
    }
}

/// The tests that document 01 adds for the words of a table (10 for an entry that is no multiple of 4, 4 past 256 entries) are made
/// where the Rust logs that it found one, before it uses the entries.
struct TableWatch;

impl log::Log for TableWatch {
    fn enabled(&self, about: &log::Metadata) -> bool { about.target() == "oracle::analysis" }

    fn log(&self, record: &log::Record) {
        if !self.enabled(record.metadata()) {
            return;
        }
        // "Located jump table @ 1:0x00002000 with entry count 4 (from ..."
        let text = record.args().to_string();
        let Some(rest) = text.strip_prefix("Located jump table @ ").or(text.strip_prefix("Guessed jump table @ ")) else { return };
        let (place, rest) = rest.split_once(" with entry count ").unwrap();
        let (section, address) = place.split_once(":0x").unwrap();
        let section = section.parse().unwrap();
        let address = u32::from_str_radix(address, 16).unwrap();
        let count = rest.split_once(' ').unwrap().0.parse().unwrap();
        if let Some(number) = SECTIONS.with_borrow(|s| table_fault(s, section, address, count)) {
            panic::panic_any(Stop(number));
        }
    }

    fn flush(&self) {}
}

fn table_fault(sections: &[(u32, u32, Vec<u8>)], section: usize, address: u32, count: usize) -> Option<u32> {
    let (base, _, data) = &sections[section];
    let from = (address - base) as usize;
    let mut taken = 0;
    for word in data[from..from + 4 * count].chunks(4).map(|w| u32::from_be_bytes(w.try_into().unwrap())) {
        if word == 0 {
            continue;
        }
        if !sections.iter().any(|(base, size, _)| word >= *base && ((word - base) as u64) < *size as u64) {
            // the Rust itself tells 9 here
            return None;
        }
        if word % 4 != 0 {
            return Some(10);
        }
        taken += 1;
        if taken > 256 {
            return Some(4);
        }
    }
    None
}

/// Panics are told as faults and not printed; the Rust's log lines are watched.
pub fn watch() {
    panic::set_hook(Box::new(|info| {
        let said = info.payload();
        let words = said.downcast_ref::<&str>().map(|s| s.to_string()).or(said.downcast_ref::<String>().cloned());
        let file = info.location().map(|l| l.file().to_string());
        PANIC.set((words.unwrap_or_default(), file.unwrap_or_default()));
    }));
    log::set_logger(&TableWatch).unwrap();
    log::set_max_level(log::LevelFilter::Trace);
}
