//! Stand-in: a type of which `ObjInfo` holds none.
pub mod obj {
    pub mod split_meta {
        #[derive(Debug, Clone, Default)]
        pub struct SplitMeta;
    }
}
