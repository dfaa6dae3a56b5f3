//! The map of a whole image: `AnalyzerState::detect_functions`, and the lines that `fmap` prints of it.
use std::fmt::Write;

use crate::{
    analysis::{
        cfa::{AnalyzerState, SectionAddress},
        slices::FunctionSlices,
    },
    faults::guarded,
    frames,
    lists::Lists,
};

/// The limits of the lists, which the Rust has not, by what it ends with. One that is passed by a list that gets shorter again, or by a
/// walk that is thrown away, or before another fault, is not seen here.
fn passes_limit(state: &AnalyzerState) -> bool {
    let each = |s: &FunctionSlices| {
        s.blocks.len() > 256
            || s.branches.values().map(Vec::len).sum::<usize>() > 1024
            || s.function_references.len() > 256
            || s.jump_table_references.len() > 256
    };
    state.functions.len() > 1024 || state.functions.values().filter_map(|f| f.slices.as_ref()).any(each)
}

fn printed(a: Option<SectionAddress>) -> String { a.map_or("-".into(), |a| format!("{:08X}", a.address)) }

fn print_lists(out: &mut String, s: &FunctionSlices) -> std::fmt::Result {
    for (&start, &end) in &s.blocks {
        writeln!(out, "B {} {}", printed(Some(start)), printed(end))?;
    }
    for (from, targets) in &s.branches {
        for to in targets {
            writeln!(out, "C {:08X} {:08X}", from.address, to.address)?;
        }
    }
    for a in &s.function_references {
        writeln!(out, "X {:08X}", a.address)?;
    }
    for (a, size) in &s.jump_table_references {
        writeln!(out, "J {:08X} {size:08X}", a.address)?;
    }
    Ok(())
}

fn print(out: &mut String, state: &AnalyzerState) -> std::fmt::Result {
    writeln!(out, "R 00")?;
    for (a, f) in &state.functions {
        match (&f.slices, f.end) {
            (Some(s), Some(end)) if f.analyzed => {
                let flags = [s.has_conditional_blr, s.has_rfi, s.has_r1_load].map(|f| if f { '1' } else { '0' });
                let flags: String = flags.iter().collect();
                writeln!(out, "F {:08X} {:08X} {} {} {flags}", a.address, end.address, printed(s.prologue), printed(s.epilogue))?;
                print_lists(out, s)?;
            }
            (None, None) if f.analyzed => writeln!(out, "N {:08X}", a.address)?,
            // document 01 has no line for it
            _ => writeln!(out, "?? {:08X}", a.address)?,
        }
    }
    Ok(())
}

/// The lines of an image in frames.
pub fn answer<'a>(lines: impl Iterator<Item = &'a str>, explain: bool) -> String {
    let mut out = String::new();
    let Some(lists) = frames::read(lines) else { return "R 01\n".into() };
    let number = lists.check();
    if number != 0 {
        return format!("R {number:02}\n");
    }
    let obj = lists.obj();
    let mut state = AnalyzerState::new(lists.skip_ranges());
    match guarded(lists.feed(), &obj, || state.detect_functions(&obj)) {
        Ok(()) if passes_limit(&state) => out.push_str("R 04\n"),
        Ok(()) => print(&mut out, &state).unwrap(),
        Err(fault) => {
            if explain || fault.number.is_none() {
                eprintln!("{}", fault.words);
            }
            match fault.number {
                Some(n) => writeln!(out, "R {n:02}").unwrap(),
                None => out.push_str("R ??\n"),
            }
        }
    }
    out
}
