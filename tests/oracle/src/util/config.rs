//! Stand-in: names, none of which a walk reads.
use anyhow::Result;

use crate::obj::ObjSymbol;

pub fn create_auto_symbol_name(prefix: &str, _module_id: u32, address: u32) -> String { format!("{prefix}_{address:08X}") }

pub fn is_auto_symbol(_symbol: &ObjSymbol) -> bool { false }

pub fn is_auto_label(_symbol: &ObjSymbol) -> bool { false }

pub fn is_auto_jump_table(_symbol: &ObjSymbol) -> bool { false }

pub fn parse_u32(_text: &str) -> Result<u32> { unreachable!("no name is parsed") }
