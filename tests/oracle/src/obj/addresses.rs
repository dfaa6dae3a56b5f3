//! Stand-in: `ObjInfo` holds two, which stay empty.
#[derive(Debug, Clone, Default)]
pub struct AddressRanges;
