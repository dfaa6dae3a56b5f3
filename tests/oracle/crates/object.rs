//! Stand-in: the relocation numbers that obj/relocations.rs names. No run uses them.
pub mod elf {
    pub const R_PPC_ADDR32: u32 = 1;
    pub const R_PPC_ADDR16_LO: u32 = 4;
    pub const R_PPC_ADDR16_HI: u32 = 5;
    pub const R_PPC_ADDR16_HA: u32 = 6;
    pub const R_PPC_REL24: u32 = 10;
    pub const R_PPC_REL14: u32 = 11;
    pub const R_PPC_UADDR32: u32 = 24;
    pub const R_PPC_EMB_SDA21: u32 = 109;
}
