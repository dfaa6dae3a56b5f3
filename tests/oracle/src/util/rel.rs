//! Stand-in: the fields that analysis/mod.rs reads. There are no such relocations.
use crate::obj::ObjRelocKind;

#[derive(Debug, Clone)]
pub struct RelReloc {
    pub kind: ObjRelocKind,
    pub section: u8,
    pub address: u32,
    pub module_id: u32,
    pub target_section: u8,
    pub addend: u32,
}
