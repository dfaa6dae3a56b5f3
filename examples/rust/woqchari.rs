//! The proved library with types: an image, its map, and the number that says why there is none. A file to copy; link with libwoqchari.a.
//! include/woqchari.h says what each list holds, and README.md has the numbers in words.
#![allow(dead_code)]

unsafe extern "C" {
    fn woqchari_detect_in_image(
        image: *const u32, image_len: usize,
        bytes: *const u8, bytes_len: usize,
        rows: *mut u64, rows_len: usize,
        lists: *mut u64, lists_len: usize,
        entries: *mut usize, numbers: *mut usize,
    ) -> u32;
}

#[derive(Clone, Copy)]
pub enum Kind { Code = 1, Data, ReadOnly, Bss }

/// One of bss has no bytes; of any other kind there are as many as its size.
pub struct Section { pub kind: Kind, pub base: u32, pub size: u32, pub bytes: Vec<u8> }

#[derive(Clone, Copy)]
pub enum To { Address(u32), Table(u32), Elsewhere }

#[derive(Clone, Copy)]
pub struct Branch { pub to: To, pub link: bool }

/// What a code word does. The size of a jump table is 0 where it is not known.
#[derive(Clone, Copy)]
pub enum Outcome { GoOn, Illegal, UnknownJump, Return, Jump(u32), JumpTable(u32, u32), Branches([Option<Branch>; 2]) }

/// The mark: the link register holds 0x43300000 there.
#[derive(Clone, Copy)]
pub struct Word { pub outcome: Outcome, pub mark: bool }

impl From<Outcome> for Word {
    fn from(outcome: Outcome) -> Self { Self { outcome, mark: false } }
}

pub struct Symbol { pub address: u32, pub size: Option<u32> }

#[derive(Default)]
pub struct Image {
    pub sections: Vec<Section>,
    pub words: Vec<Word>,
    pub functions: Vec<Symbol>,
    pub objects: Vec<Symbol>,
    pub skips: Vec<std::ops::Range<u32>>,
    pub entry: Option<u32>,
}

/// An address, with the number of its section.
#[derive(Clone, Copy, PartialEq, Eq, PartialOrd, Ord, Debug)]
pub struct Address { pub section: u32, pub address: u32 }

pub struct Function {
    pub entry: Address,
    /// The first address past its last word.
    pub end: Address,
    pub prologue: Option<Address>,
    pub epilogue: Option<Address>,
    pub conditional_blr: bool,
    pub rfi: bool,
    pub load_r1: bool,
    /// Start and end.
    pub blocks: Vec<(Address, Option<Address>)>,
    /// From a word to where it may go on.
    pub ways: Vec<(Address, Address)>,
    pub references: Vec<Address>,
    /// Address, and size in bytes.
    pub tables: Vec<(Address, u32)>,
}

pub enum Entry { Function(Function), SetAside(Address) }

/// Why there is no map.
#[derive(Clone, Copy, PartialEq, Eq, Debug)]
pub enum Number {
    NoImage = 1,
    BadOutcome,
    BadRest,
    Limit,
    SecondPrologue,
    SecondEpilogue,
    TableInList,
    JumpToItself,
    EntryInNoSection,
    EntryNotAligned,
    OpenBlock,
    EpilogueAlone,
    OpenEnd,
    OverNextEntry,
    OutsideSection,
    PastLastWord,
    NotFinalized,
}

impl Number {
    const ALL: [Self; 17] = [
        Self::NoImage, Self::BadOutcome, Self::BadRest, Self::Limit, Self::SecondPrologue, Self::SecondEpilogue, Self::TableInList,
        Self::JumpToItself, Self::EntryInNoSection, Self::EntryNotAligned, Self::OpenBlock, Self::EpilogueAlone, Self::OpenEnd,
        Self::OverNextEntry, Self::OutsideSection, Self::PastLastWord, Self::NotFinalized,
    ];
}

const HEADER: usize = 16;
const ROW: usize = 10;
/// Always enough, by the limits: WOQCHARI_ROWS_ENOUGH and WOQCHARI_LISTS_ENOUGH.
const ROWS: usize = 1024 * ROW;
const LISTS: usize = 1024 * (2 * 256 + 2 * 1024 + 256 + 2 * 256 + 128);

fn branch(branch: Option<Branch>) -> [u32; 2] {
    let Some(Branch { to, link }) = branch else { return [0, 0] };
    let (way, address) = match to {
        To::Address(a) => (1, a),
        To::Table(a) => (2, a),
        To::Elsewhere => (3, 0),
    };
    [way + if link { 4 } else { 0 }, address]
}

impl Word {
    fn row(self) -> [u32; 6] {
        let (kind, [a, b], [c, d]) = match self.outcome {
            Outcome::GoOn => (0, [0, 0], [0, 0]),
            Outcome::Illegal => (1, [0, 0], [0, 0]),
            Outcome::UnknownJump => (2, [0, 0], [0, 0]),
            Outcome::Return => (3, [0, 0], [0, 0]),
            Outcome::Jump(target) => (4, [target, 0], [0, 0]),
            Outcome::JumpTable(address, size) => (5, [address, size], [0, 0]),
            Outcome::Branches([one, two]) => (6, branch(one), branch(two)),
        };
        [kind, self.mark as u32, a, b, c, d]
    }
}

impl Symbol {
    fn row(&self) -> [u32; 3] { [self.address, self.size.unwrap_or(0), self.size.is_some() as u32] }
}

/// Puts rows behind the numbers of an image, and their place and count where its header has those of the list.
fn put<const W: usize>(image: &mut Vec<u32>, place: usize, rows: impl Iterator<Item = [u32; W]>) {
    image[place] = image.len() as u32;
    rows.for_each(|row| {
        image[place + 1] += 1;
        image.extend(row);
    });
}

impl Image {
    fn numbers(&self) -> Vec<u32> {
        let mut image = vec![0; HEADER];
        put(&mut image, 2, self.sections.iter().map(|s| [s.kind as u32, s.base, s.size, s.bytes.len() as u32]));
        put(&mut image, 4, self.words.iter().map(|w| w.row()));
        put(&mut image, 6, self.functions.iter().map(Symbol::row));
        put(&mut image, 8, self.objects.iter().map(Symbol::row));
        put(&mut image, 10, self.skips.iter().map(|s| [s.start, s.end]));
        put(&mut image, 12, self.entry.iter().map(|&a| [a]));
        image
    }
}

fn address(key: u64) -> Option<Address> { (key != 0).then(|| Address { section: (key >> 32) as u32 - 1, address: key as u32 }) }

/// An address that is there; the library is proved to leave no other.
fn some(key: u64) -> Address { address(key).expect("an address") }

fn pairs<A, B>(columns: (&[u64], &[u64]), a: impl Fn(u64) -> A, b: impl Fn(u64) -> B) -> Vec<(A, B)> {
    columns.0.iter().zip(columns.1).map(|(&x, &y)| (a(x), b(y))).collect()
}

/// The map: its entries in order of address, or why there is none.
pub fn detect_functions(image: &Image) -> Result<Vec<Entry>, Number> {
    let list = image.numbers();
    let bytes: Vec<u8> = image.sections.iter().flat_map(|s| &s.bytes).copied().collect();
    let (mut rows, mut lists) = (vec![0; ROWS], vec![0; LISTS]);
    let (mut entries, mut numbers) = (0, 0);
    // SAFETY: each pointer is that of a slice with its own length, and what is written is each call's own.
    let number = unsafe {
        woqchari_detect_in_image(
            list.as_ptr(), list.len(),
            bytes.as_ptr(), bytes.len(),
            rows.as_mut_ptr(), rows.len(),
            lists.as_mut_ptr(), lists.len(),
            &mut entries, &mut numbers,
        )
    };
    if number != 0 {
        return Err(Number::ALL[number as usize - 1]);
    }
    let mut rest = &lists[..numbers];
    let mut take = |n: u64| {
        let (first, behind) = rest.split_at(n as usize);
        rest = behind;
        first
    };
    let entry = |row: &[u64]| {
        let flags = row[2];
        if flags & 2 == 0 {
            return Entry::SetAside(some(row[0]));
        }
        let function = Function {
            entry: some(row[0]),
            end: some(row[1]),
            prologue: address(row[3]),
            epilogue: address(row[4]),
            conditional_blr: flags & 4 != 0,
            rfi: flags & 8 != 0,
            load_r1: flags & 16 != 0,
            blocks: pairs((take(row[5]), take(row[5])), some, address),
            ways: pairs((take(row[6]), take(row[6])), some, some),
            references: take(row[7]).iter().map(|&a| some(a)).collect(),
            tables: pairs((take(row[8]), take(row[8])), some, |n| n as u32),
        };
        take(row[9]);
        Entry::Function(function)
    };
    Ok(rows[..ROW * entries].chunks_exact(ROW).map(entry).collect())
}
