//! Stand-in for the Rust's src/analysis/vm.rs: the same public types, as far as cfa.rs, slices.rs and executor.rs use them. `step`
//! answers with the outcome handed in for the word. Register states are left out, but for the link register, which holds 0x43300000
//! exactly where the word's mark is set.
//!
//! A loop without end is noticed here too. Each pass of the two unbounded loops of `FunctionSlices::analyze` makes a fresh
//! `VM::new_from_obj`, and each word that a pass visits is stepped. A pass that visits no word changes nothing, so many fresh ones
//! without a step between them are a loop without end.
use std::{cell::RefCell, num::NonZeroU32, panic::panic_any};

use ppc750cl::Ins;

use crate::{
    analysis::{RelocationTarget, cfa::SectionAddress},
    obj::ObjInfo,
};

#[derive(Default, Debug, Copy, Clone, Eq, PartialEq)]
pub enum GprValue {
    #[default]
    Unknown,
    Constant(u32),
    Address(RelocationTarget),
    ComparisonResult(u8),
    Range { min: u32, max: u32, step: u32 },
    LoadIndexed { address: RelocationTarget, max_offset: Option<NonZeroU32> },
}

#[derive(Default, Debug, Copy, Clone, Eq, PartialEq)]
pub struct Gpr {
    pub value: GprValue,
    pub hi_addr: Option<SectionAddress>,
    pub lo_addr: Option<SectionAddress>,
}

/// No register states.
#[derive(Default, Debug, Copy, Clone, Eq, PartialEq)]
pub struct NoGprs;

#[derive(Default, Debug, Clone, Eq, PartialEq)]
pub struct VM {
    pub gpr: NoGprs,
    pub lr: GprValue,
}

#[derive(Debug, Clone, Copy, Eq, PartialEq)]
pub enum BranchTarget {
    Unknown,
    Return,
    Address(RelocationTarget),
    JumpTable { address: RelocationTarget, size: Option<NonZeroU32> },
}

#[derive(Debug, Clone, Eq, PartialEq)]
pub struct Branch {
    pub target: BranchTarget,
    pub link: bool,
    pub vm: Box<VM>,
}

#[derive(Debug, Clone, Eq, PartialEq)]
pub enum StepResult {
    Continue,
    LoadStore { address: RelocationTarget, source: Gpr, source_reg: u8 },
    Illegal,
    Jump(BranchTarget),
    Branch(Vec<Branch>),
}

/// Where an address lies, in an executable without relocations.
pub fn section_address_for(obj: &ObjInfo, _from: SectionAddress, to: u32) -> Option<RelocationTarget> {
    let (section, _) = obj.sections.at_address(to).ok()?;
    Some(RelocationTarget::Address(SectionAddress::new(section, to)))
}

/// What a code word does, in document 01's order.
#[derive(Debug, Clone)]
pub enum Outcome {
    GoOn,
    Illegal,
    /// unknown, return, to an address, by a table
    Jump(BranchTarget),
    /// link, and where to
    List(Vec<(bool, BranchTarget)>),
}

/// The outcomes and marks of the code section's words, and what a run counts.
#[derive(Default)]
pub struct Feed {
    pub section: u32,
    pub base: u32,
    pub outcomes: Vec<(Outcome, bool)>,
    pub steps: u64,
    pub fresh: u32,
}

thread_local! {
    pub static FEED: RefCell<Feed> = RefCell::new(Feed::default());
}

/// What a panic carries that ends a run with a number of document 01.
pub struct Stop(pub u32);

/// Fresh passes without a step between them that are taken for a loop without end.
const PASSES: u32 = 64;

/// Steps after which a run is given up.
const STEPS: u64 = 400_000_000;

impl VM {
    pub fn new() -> Box<Self> { Box::default() }

    pub fn new_from_obj(_obj: &ObjInfo) -> Box<Self> {
        let fresh = FEED.with_borrow_mut(|f| {
            f.fresh += 1;
            f.fresh
        });
        if fresh > PASSES {
            panic_any(Stop(16));
        }
        Self::new()
    }

    pub fn clone_for_return(&self) -> Box<Self> { Self::new() }

    pub fn clone_all(&self) -> Box<Self> { Box::new(self.clone()) }

    pub fn gpr_value(&self, _reg: u8) -> GprValue { GprValue::Unknown }

    pub fn step(&mut self, _obj: &ObjInfo, at: SectionAddress, _ins: Ins) -> StepResult {
        FEED.with_borrow_mut(|f| {
            f.fresh = 0;
            f.steps += 1;
            assert!(f.steps <= STEPS, "too many steps");
            assert!(at.section == f.section && at.address % 4 == 0, "a step outside code");
            let (outcome, mark) = &f.outcomes[((at.address - f.base) / 4) as usize];
            self.lr = if *mark { GprValue::Constant(0x43300000) } else { GprValue::Unknown };
            match outcome {
                Outcome::GoOn => StepResult::Continue,
                Outcome::Illegal => StepResult::Illegal,
                Outcome::Jump(target) => StepResult::Jump(*target),
                Outcome::List(list) => StepResult::Branch(
                    list.iter().map(|&(link, target)| Branch { target, link, vm: self.clone_all() }).collect(),
                ),
            }
        })
    }
}
