//! Prints the map of a small image, in the lines that `fmap` prints. Built and run by tests/link.

/// The proved library; include/woqchari.h says what each list holds.
mod woqchari {
    unsafe extern "C" {
        fn woqchari_detect_functions(
            sections: *const u32, sections_len: usize,
            bytes: *const u8, bytes_len: usize,
            outcomes: *const u32, outcomes_len: usize,
            functions: *const u32, functions_len: usize,
            objects: *const u32, objects_len: usize,
            skips: *const u32, skips_len: usize,
            entry: *const u32, entry_len: usize,
            rows: *mut u64, rows_len: usize,
            lists: *mut u64, lists_len: usize,
            entries: *mut usize, numbers: *mut usize,
        ) -> u32;
    }

    /// What is handed in.
    #[derive(Default)]
    pub struct Image<'a> {
        pub sections: &'a [u32],
        pub bytes: &'a [u8],
        pub outcomes: &'a [u32],
        pub functions: &'a [u32],
        pub objects: &'a [u32],
        pub skips: &'a [u32],
        pub entry: &'a [u32],
    }

    /// A row for each entry, and the numbers of all lists.
    pub struct Map {
        rows: Vec<u64>,
        lists: Vec<u64>,
    }

    /// An entry with its lists, as they lie in the map.
    pub struct Entry<'a> {
        pub entry: u64,
        pub end: u64,
        pub flags: u64,
        pub prologue: u64,
        pub epilogue: u64,
        pub blocks: (&'a [u64], &'a [u64]),
        pub ways: (&'a [u64], &'a [u64]),
        pub references: &'a [u64],
        pub tables: (&'a [u64], &'a [u64]),
    }

    impl Entry<'_> {
        /// Else it was set aside.
        pub fn is_function(&self) -> bool { self.flags & 2 != 0 }
    }

    /// Takes n numbers from the front.
    fn take<'a>(list: &mut &'a [u64], n: u64) -> &'a [u64] {
        let (first, rest) = list.split_at(n as usize);
        *list = rest;
        first
    }

    impl Map {
        pub fn entries(&self) -> Vec<Entry<'_>> {
            let mut list = &self.lists[..];
            let entry = |row: &[u64]| {
                let blocks = (take(&mut list, row[5]), take(&mut list, row[5]));
                let ways = (take(&mut list, row[6]), take(&mut list, row[6]));
                let references = take(&mut list, row[7]);
                let tables = (take(&mut list, row[8]), take(&mut list, row[8]));
                take(&mut list, row[9]);
                Entry { entry: row[0], end: row[1], flags: row[2], prologue: row[3], epilogue: row[4], blocks, ways, references, tables }
            };
            self.rows.chunks_exact(10).map(entry).collect()
        }
    }

    /// The map, or the number of the rule that is broken or the fault that was met.
    pub fn detect_functions(image: &Image, entries: usize, numbers: usize) -> Result<Map, u32> {
        let mut map = Map { rows: vec![0; 10 * entries], lists: vec![0; numbers] };
        let (mut entries, mut numbers) = (0, 0);
        // SAFETY: each pointer is that of a slice with its own length, and the lists that are written are three of their own.
        let number = unsafe {
            woqchari_detect_functions(
                image.sections.as_ptr(), image.sections.len(),
                image.bytes.as_ptr(), image.bytes.len(),
                image.outcomes.as_ptr(), image.outcomes.len(),
                image.functions.as_ptr(), image.functions.len(),
                image.objects.as_ptr(), image.objects.len(),
                image.skips.as_ptr(), image.skips.len(),
                image.entry.as_ptr(), image.entry.len(),
                map.rows.as_mut_ptr(), map.rows.len(),
                map.lists.as_mut_ptr(), map.lists.len(),
                &mut entries, &mut numbers,
            )
        };
        if number != 0 {
            return Err(number);
        }
        map.rows.truncate(10 * entries);
        map.lists.truncate(numbers);
        Ok(map)
    }
}

use woqchari::{Entry, Image, detect_functions};

const SECTIONS: [u32; 8] = [1, 0x1000, 80, 80, 2, 0x2000, 8, 8];

const WORDS: [u32; 22] = [
    0x9421FFF0, 0x7C0802A6, 0x90010014, 0x2C030000, 0x4182000C, 0x48000025, 0x38630001, 0x4E800420, 0x38630002, 0x80010014, 0x7C0803A6,
    0x38210010, 0x4E800020, 0x00000000, 0x38630003, 0x4D820020, 0x48000008, 0x00000000, 0x38630004, 0x4E800020,
    0x00001020, 0x00001024,
];

const GO_ON: [u32; 6] = [0; 6];
const ILLEGAL: [u32; 6] = [1, 0, 0, 0, 0, 0];
const RETURN: [u32; 6] = [3, 0, 0, 0, 0, 0];

/// What each code word does.
fn outcomes() -> Vec<u32> {
    [
        GO_ON,                        // 1000 stwu  r1,-16(r1)
        GO_ON,                        // 1004 mflr  r0
        GO_ON,                        // 1008 stw   r0,20(r1)
        GO_ON,                        // 100C cmpwi r3,0
        [6, 0, 1, 0x1014, 1, 0x101C], // 1010 beq   101C
        [6, 0, 1, 0x1018, 5, 0x1038], // 1014 bl    1038
        GO_ON,                        // 1018 addi  r3,r3,1
        [5, 0, 0x2000, 8, 0, 0],      // 101C bctr
        GO_ON,                        // 1020 addi  r3,r3,2
        GO_ON,                        // 1024 lwz   r0,20(r1)
        GO_ON,                        // 1028 mtlr  r0
        GO_ON,                        // 102C addi  r1,r1,16
        RETURN,                       // 1030 blr
        ILLEGAL,                      // 1034 padding
        GO_ON,                        // 1038 addi  r3,r3,3
        [6, 0, 1, 0x1040, 3, 0],      // 103C beqlr
        [4, 0, 0x1048, 0, 0, 0],      // 1040 b     1048
        ILLEGAL,                      // 1044 padding, with a function symbol
        GO_ON,                        // 1048 addi  r3,r3,4
        RETURN,                       // 104C blr
    ]
    .concat()
}

/// An address without its section, or - for none.
fn printed(key: u64) -> String { if key == 0 { "-".into() } else { format!("{:08X}", key as u32) } }

fn print_pairs(letter: char, columns: (&[u64], &[u64])) {
    for (&a, &b) in columns.0.iter().zip(columns.1) {
        println!("{letter} {} {}", printed(a), printed(b));
    }
}

fn print(e: &Entry) {
    if !e.is_function() {
        println!("N {}", printed(e.entry));
        return;
    }
    let digit = |bit: u64| (e.flags & bit != 0) as u8;
    println!(
        "F {} {} {} {} {}{}{}",
        printed(e.entry), printed(e.end), printed(e.prologue), printed(e.epilogue), digit(4), digit(8), digit(16)
    );
    print_pairs('B', e.blocks);
    print_pairs('C', e.ways);
    for &a in e.references {
        println!("X {}", printed(a));
    }
    for (&a, &size) in e.tables.0.iter().zip(e.tables.1) {
        println!("J {} {size:08X}", printed(a));
    }
}

fn main() {
    let bytes: Vec<u8> = WORDS.iter().flat_map(|w| w.to_be_bytes()).collect();
    let outcomes = outcomes();
    let image =
        Image { sections: &SECTIONS, bytes: &bytes, outcomes: &outcomes, functions: &[0x1044, 4, 1], entry: &[0x1000], ..Default::default() };
    match detect_functions(&image, 1024, 131_072) {
        Ok(map) => {
            println!("R 00");
            map.entries().iter().for_each(print);
        }
        Err(number) => {
            println!("R {number:02}");
            std::process::exit(1);
        }
    }
}
