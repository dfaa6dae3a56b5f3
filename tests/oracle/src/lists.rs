//! The lists that are lent for an image, in the text that the program `walked` reads (crates/walked/src/main.rt), and what the Rust is
//! handed for them. The lists are taken to pass checks 1 to 3 (checks.rs has them).
use std::{collections::BTreeMap, num::NonZeroU32};

use crate::{
    analysis::{
        RelocationTarget,
        cfa::SectionAddress,
        vm::{BranchTarget, Feed, Outcome},
    },
    obj::{ObjArchitecture, ObjInfo, ObjKind, ObjSection, ObjSectionKind, ObjSymbol, ObjSymbolKind},
};

pub const CODE: u32 = 1;

#[derive(Default)]
pub struct Lists {
    pub sections: Vec<u32>,
    pub outcomes: Vec<u32>,
    pub functions: Vec<u32>,
    pub objects: Vec<u32>,
    pub skips: Vec<u32>,
    pub entry: Vec<u32>,
    /// Entry and end of each known function, a section counted from 1 before each address.
    pub known: Vec<u32>,
    /// Start and end in the same way, then the length of the lent list.
    pub walks: Vec<u32>,
    pub bytes: Vec<u8>,
}

/// A line's numbers, or its bytes, as often as the line says.
fn repeated<T: Clone>(list: &mut Vec<T>, line: Vec<T>, count: usize) {
    for _ in 0..count {
        list.extend_from_slice(&line);
    }
}

impl Lists {
    fn take(&mut self, line: &str) -> Option<()> {
        let (letter, rest) = line.split_at_checked(1)?;
        let (rest, count) = match rest.split_once('*') {
            Some((rest, count)) => (rest, usize::from_str_radix(count, 16).ok()?),
            None => (rest, 1),
        };
        if letter == "b" {
            let digits: String = rest.split(' ').collect();
            let bytes = (0..digits.len()).step_by(2).map(|i| u8::from_str_radix(digits.get(i..i + 2)?, 16).ok());
            repeated(&mut self.bytes, bytes.collect::<Option<_>>()?, count);
            return Some(());
        }
        let numbers = rest.split_whitespace().map(|n| u32::from_str_radix(n, 16).ok()).collect::<Option<_>>()?;
        let list = match letter {
            "s" => &mut self.sections,
            "o" => &mut self.outcomes,
            "f" => &mut self.functions,
            "j" => &mut self.objects,
            "n" => &mut self.known,
            "w" => &mut self.walks,
            "k" => &mut self.skips,
            "e" => &mut self.entry,
            _ => return None,
        };
        repeated(list, numbers, count);
        Some(())
    }

    /// The lists of an image's lines; none where a line is not of the form.
    pub fn read<'a>(lines: impl Iterator<Item = &'a str>) -> Option<Self> {
        let mut lists = Self::default();
        for line in lines.filter(|l| !l.starts_with('#')) {
            lists.take(line)?;
        }
        Some(lists)
    }

    pub fn rows(list: &[u32], width: usize) -> impl Iterator<Item = &[u32]> { list.chunks_exact(width) }

    pub fn section_at(&self, address: u32) -> Option<u32> {
        let inside = |s: &[u32]| address >= s[1] && ((address - s[1]) as u64) < s[2] as u64;
        Self::rows(&self.sections, 4).position(inside).map(|i| i as u32)
    }

    fn located(&self, address: u32) -> RelocationTarget {
        RelocationTarget::Address(SectionAddress::new(self.section_at(address).unwrap(), address))
    }

    /// The code section's number, base and size.
    pub fn code(&self) -> (u32, u32, u32) {
        let i = Self::rows(&self.sections, 4).position(|s| s[0] == CODE).unwrap();
        (i as u32, self.sections[4 * i + 1], self.sections[4 * i + 2])
    }

    fn branch(&self, way: u32, address: u32) -> Option<(bool, BranchTarget)> {
        let target = match way % 4 {
            1 => BranchTarget::Address(self.located(address)),
            2 => BranchTarget::JumpTable { address: self.located(address), size: None },
            3 => BranchTarget::Unknown,
            _ => return None,
        };
        Some((way >= 4, target))
    }

    fn outcome(&self, o: &[u32]) -> Outcome {
        match o[0] {
            0 => Outcome::GoOn,
            1 => Outcome::Illegal,
            2 => Outcome::Jump(BranchTarget::Unknown),
            3 => Outcome::Jump(BranchTarget::Return),
            4 => Outcome::Jump(BranchTarget::Address(self.located(o[2]))),
            5 => Outcome::Jump(BranchTarget::JumpTable { address: self.located(o[2]), size: NonZeroU32::new(o[3]) }),
            _ => Outcome::List([self.branch(o[2], o[3]), self.branch(o[4], o[5])].into_iter().flatten().collect()),
        }
    }

    pub fn feed(&self) -> Feed {
        let (section, base, _) = self.code();
        let outcomes = Self::rows(&self.outcomes, 6).map(|o| (self.outcome(o), o[1] == 1)).collect();
        Feed { section, base, outcomes, steps: 0, fresh: 0 }
    }

    /// Skip ranges as `AnalyzerState` has them.
    pub fn skip_ranges(&self) -> BTreeMap<SectionAddress, SectionAddress> {
        let (section, ..) = self.code();
        let at = |a| SectionAddress::new(section, a);
        Self::rows(&self.skips, 2).map(|s| (at(s[0]), at(s[1]))).collect()
    }

    pub fn obj(&self) -> ObjInfo {
        let mut at = 0;
        let mut sections = vec![];
        for (i, s) in Self::rows(&self.sections, 4).enumerate() {
            let kinds = [ObjSectionKind::Code, ObjSectionKind::Data, ObjSectionKind::ReadOnlyData, ObjSectionKind::Bss];
            let past = at + s[3] as usize;
            sections.push(ObjSection {
                name: format!("{i}"),
                kind: kinds[s[0] as usize - 1],
                address: s[1] as u64,
                size: s[2] as u64,
                data: self.bytes[at..past].to_vec(),
                align: 4,
                elf_index: i as u32,
                relocations: Default::default(),
                virtual_address: None,
                file_offset: 0,
                section_known: true,
                splits: Default::default(),
            });
            at = past;
        }
        let symbol = |s: &[u32], kind| ObjSymbol {
            address: s[0] as u64,
            section: self.section_at(s[0]),
            size: s[1] as u64,
            size_known: s[2] == 1,
            kind,
            ..Default::default()
        };
        let functions = Self::rows(&self.functions, 3).map(|s| symbol(s, ObjSymbolKind::Function));
        let objects = Self::rows(&self.objects, 3).map(|s| symbol(s, ObjSymbolKind::Object));
        let symbols = functions.chain(objects).collect();
        let mut obj = ObjInfo::new(ObjKind::Executable, ObjArchitecture::PowerPc, "image".into(), symbols, sections);
        obj.entry = self.entry.first().map(|&a| a as u64);
        obj
    }
}
