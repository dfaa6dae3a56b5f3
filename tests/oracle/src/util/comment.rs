//! Stand-in: a type of which `ObjInfo` holds none.
#[derive(Debug, Clone)]
pub struct MWComment;
