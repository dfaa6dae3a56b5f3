//! Stand-in for the crate ppc750cl: what slices.rs asks of a word. Which registers a word names is taken from the PowerPC Programming
//! Environments manual for 32-bit processors, as document 01 says, and not from ppc750cl's own tables. A word is told by its primary
//! and extended opcode alone.
//!
//! There is a row for each of the manual's instructions that has a field for a general purpose register or that the Rust asks for by
//! name. Its letters say what the fields hold:
//!
//!   D, S  bits 6 to 10, rD or rS
//!   A     bits 11 to 15, rA
//!   Z     bits 11 to 15, rA, where 0 is the number zero and no register
//!   U     bits 11 to 15, rA of an update form, where 0 is no valid form and r0 counts as named
//!   B     bits 16 to 20, rB
//!
//! All other words name no register: floating-point arithmetic, paired singles, what the manual lacks. `lmw`, `stmw` and string words
//! count with the registers in their fields only.

#[derive(Debug, Clone, Copy, PartialEq, Eq)]
pub struct GPR(pub u8);

#[derive(Debug, Clone, Copy, PartialEq, Eq)]
pub enum Argument {
    None,
    GPR(GPR),
}

pub type Arguments = [Argument; 3];

/// The extended opcode: there is none, it has ten bits, or the last nine of those, and bit 21 is aside.
#[derive(Clone, Copy)]
enum Extended {
    Only,
    Ten(usize),
    Nine(usize),
}

use Extended::{Nine, Only, Ten};

macro_rules! rows {
    ($($op:ident $primary:literal $extended:expr, $roles:literal;)*) => {
        #[derive(Debug, Clone, Copy, PartialEq, Eq)]
        pub enum Opcode { Illegal, $($op),* }

        const ROWS: &[(Opcode, usize, Extended, &str)] =
            &[(Opcode::Illegal, 0, Only, ""), $((Opcode::$op, $primary, $extended, $roles)),*];
    };
}

rows! {
    // trap, compare and arithmetic with an immediate
    Twi     3 Only,      "A";
    Mulli   7 Only,      "DA";
    Subfic  8 Only,      "DA";
    Cmpli  10 Only,      "A";
    Cmpi   11 Only,      "A";
    Addic  12 Only,      "DA";
    AddicR 13 Only,      "DA";
    Addi   14 Only,      "DZ";
    Addis  15 Only,      "DZ";
    // branches
    Bc     16 Only,      "";
    B      18 Only,      "";
    Bclr   19 Ten(16),   "";
    Rfi    19 Ten(50),   "";
    Bcctr  19 Ten(528),  "";
    // rotate and logical with an immediate
    Rlwimi 20 Only,      "SA";
    Rlwinm 21 Only,      "SA";
    Rlwnm  23 Only,      "SAB";
    Ori    24 Only,      "SA";
    Oris   25 Only,      "SA";
    Xori   26 Only,      "SA";
    Xoris  27 Only,      "SA";
    AndiR  28 Only,      "SA";
    AndisR 29 Only,      "SA";
    // loads and stores
    Lwz    32 Only,      "DZ";
    Lwzu   33 Only,      "DU";
    Lbz    34 Only,      "DZ";
    Lbzu   35 Only,      "DU";
    Stw    36 Only,      "SZ";
    Stwu   37 Only,      "SU";
    Stb    38 Only,      "SZ";
    Stbu   39 Only,      "SU";
    Lhz    40 Only,      "DZ";
    Lhzu   41 Only,      "DU";
    Lha    42 Only,      "DZ";
    Lhau   43 Only,      "DU";
    Sth    44 Only,      "SZ";
    Sthu   45 Only,      "SU";
    Lmw    46 Only,      "DZ";
    Stmw   47 Only,      "SZ";
    Lfs    48 Only,      "Z";
    Lfsu   49 Only,      "U";
    Lfd    50 Only,      "Z";
    Lfdu   51 Only,      "U";
    Stfs   52 Only,      "Z";
    Stfsu  53 Only,      "U";
    Stfd   54 Only,      "Z";
    Stfdu  55 Only,      "U";
    // 31: compare and trap
    Cmp    31 Ten(0),    "AB";
    Tw     31 Ten(4),    "AB";
    Cmpl   31 Ten(32),   "AB";
    // 31: arithmetic
    Subfc  31 Nine(8),   "DAB";
    Addc   31 Nine(10),  "DAB";
    Mulhwu 31 Nine(11),  "DAB";
    Subf   31 Nine(40),  "DAB";
    Mulhw  31 Nine(75),  "DAB";
    Neg    31 Nine(104), "DA";
    Subfe  31 Nine(136), "DAB";
    Adde   31 Nine(138), "DAB";
    Subfze 31 Nine(200), "DA";
    Addze  31 Nine(202), "DA";
    Subfme 31 Nine(232), "DA";
    Addme  31 Nine(234), "DA";
    Mullw  31 Nine(235), "DAB";
    Add    31 Nine(266), "DAB";
    Divwu  31 Nine(459), "DAB";
    Divw   31 Nine(491), "DAB";
    // 31: logical and shift
    Slw    31 Ten(24),   "SAB";
    Cntlzw 31 Ten(26),   "SA";
    And    31 Ten(28),   "SAB";
    Andc   31 Ten(60),   "SAB";
    Nor    31 Ten(124),  "SAB";
    Eqv    31 Ten(284),  "SAB";
    Xor    31 Ten(316),  "SAB";
    Orc    31 Ten(412),  "SAB";
    Or     31 Ten(444),  "SAB";
    Nand   31 Ten(476),  "SAB";
    Srw    31 Ten(536),  "SAB";
    Sraw   31 Ten(792),  "SAB";
    Srawi  31 Ten(824),  "SA";
    Extsh  31 Ten(922),  "SA";
    Extsb  31 Ten(954),  "SA";
    // 31: moves to and from special registers
    Mfcr   31 Ten(19),   "D";
    Mfmsr  31 Ten(83),   "D";
    Mtcrf  31 Ten(144),  "S";
    Mtmsr  31 Ten(146),  "S";
    Mtsr   31 Ten(210),  "S";
    Mtsrin 31 Ten(242),  "SB";
    Mfspr  31 Ten(339),  "D";
    Mftb   31 Ten(371),  "D";
    Mtspr  31 Ten(467),  "S";
    Mfsr   31 Ten(595),  "D";
    Mfsrin 31 Ten(659),  "DB";
    // 31: loads and stores
    Lwarx  31 Ten(20),   "DZB";
    Lwzx   31 Ten(23),   "DZB";
    Lwzux  31 Ten(55),   "DUB";
    Lbzx   31 Ten(87),   "DZB";
    Lbzux  31 Ten(119),  "DUB";
    StwcxR 31 Ten(150),  "SZB";
    Stwx   31 Ten(151),  "SZB";
    Stwux  31 Ten(183),  "SUB";
    Stbx   31 Ten(215),  "SZB";
    Stbux  31 Ten(247),  "SUB";
    Lhzx   31 Ten(279),  "DZB";
    Eciwx  31 Ten(310),  "DZB";
    Lhzux  31 Ten(311),  "DUB";
    Lhax   31 Ten(343),  "DZB";
    Lhaux  31 Ten(375),  "DUB";
    Sthx   31 Ten(407),  "SZB";
    Ecowx  31 Ten(438),  "SZB";
    Sthux  31 Ten(439),  "SUB";
    Lswx   31 Ten(533),  "DZB";
    Lwbrx  31 Ten(534),  "DZB";
    Lfsx   31 Ten(535),  "ZB";
    Lfsux  31 Ten(567),  "UB";
    Lswi   31 Ten(597),  "DZ";
    Lfdx   31 Ten(599),  "ZB";
    Lfdux  31 Ten(631),  "UB";
    Stswx  31 Ten(661),  "SZB";
    Stwbrx 31 Ten(662),  "SZB";
    Stfsx  31 Ten(663),  "ZB";
    Stfsux 31 Ten(695),  "UB";
    Stswi  31 Ten(725),  "SZ";
    Stfdx  31 Ten(727),  "ZB";
    Stfdux 31 Ten(759),  "UB";
    Lhbrx  31 Ten(790),  "DZB";
    Sthbrx 31 Ten(918),  "SZB";
    Stfiwx 31 Ten(983),  "ZB";
    // 31: cache and lookaside buffer
    Dcbst  31 Ten(54),   "ZB";
    Dcbf   31 Ten(86),   "ZB";
    Dcbtst 31 Ten(246),  "ZB";
    Dcbt   31 Ten(278),  "ZB";
    Tlbie  31 Ten(306),  "B";
    Dcbi   31 Ten(470),  "ZB";
    Dcba   31 Ten(758),  "ZB";
    Icbi   31 Ten(982),  "ZB";
    Dcbz   31 Ten(1014), "ZB";
}

/// The row of each primary opcode, or of each extended opcode under one; 0 for none.
const fn rows_of<const N: usize>(primary: Option<usize>) -> [u8; N] {
    let mut t = [0; N];
    let mut i = 1;
    while i < ROWS.len() {
        let at = match (primary, ROWS[i].2) {
            (None, Only) => &[ROWS[i].1] as &[usize],
            (Some(p), Ten(x)) if p == ROWS[i].1 => &[x],
            (Some(p), Nine(x)) if p == ROWS[i].1 => &[x, x + 512],
            _ => &[],
        };
        let mut j = 0;
        while j < at.len() {
            assert!(t[at[j]] == 0, "an opcode stands twice");
            t[at[j]] = i as u8;
            j += 1;
        }
        i += 1;
    }
    t
}

static PRIMARY: [u8; 64] = rows_of(None);
static UNDER_19: [u8; 1024] = rows_of(Some(19));
static UNDER_31: [u8; 1024] = rows_of(Some(31));

fn row_of(code: u32) -> usize {
    let extended = (code >> 1 & 0x3FF) as usize;
    (match code >> 26 {
        19 => UNDER_19[extended],
        31 => UNDER_31[extended],
        primary => PRIMARY[primary as usize],
    }) as usize
}

#[derive(Debug, Clone, Copy, PartialEq, Eq)]
pub struct Ins {
    pub code: u32,
    pub op: Opcode,
}

impl Ins {
    pub fn new(code: u32) -> Self { Self { code, op: ROWS[row_of(code)].0 } }

    fn field(&self, shift: u32) -> u8 { (self.code >> shift & 31) as u8 }

    pub fn field_rd(&self) -> u8 { self.field(21) }

    pub fn field_rs(&self) -> u8 { self.field(21) }

    pub fn field_bo(&self) -> u8 { self.field(21) }

    pub fn field_ra(&self) -> u8 { self.field(16) }

    /// Its halves are exchanged in the word.
    pub fn field_spr(&self) -> u16 { self.field(16) as u16 | (self.field(11) as u16) << 5 }

    pub fn is_branch(&self) -> bool { matches!(self.op, Opcode::B | Opcode::Bc | Opcode::Bcctr | Opcode::Bclr) }

    pub fn is_blr(&self) -> bool { self.code == 0x4E80_0020 }

    /// The target of `b`.
    pub fn branch_dest(&self, address: u32) -> Option<u32> {
        let distance = ((self.code << 6) as i32 >> 8) * 4;
        let from = if self.code & 2 == 0 { address } else { 0 };
        (self.op == Opcode::B).then(|| from.wrapping_add_signed(distance))
    }

    /// All registers that the word names. The Rust joins those written and those read.
    pub fn defs(&self) -> Arguments {
        let mut named = [Argument::None; 3];
        for (i, role) in ROWS[row_of(self.code)].3.bytes().enumerate() {
            let register = self.field(match role {
                b'D' | b'S' => 21,
                b'A' | b'Z' | b'U' => 16,
                _ => 11,
            });
            if role != b'Z' || register != 0 {
                named[i] = Argument::GPR(GPR(register));
            }
        }
        named
    }

    pub fn uses(&self) -> Arguments { [Argument::None; 3] }
}
