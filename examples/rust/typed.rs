//! The same as map.rs, by the wrapper with types (woqchari.rs). Built and run by tests/link.

mod woqchari;

use woqchari::{Address, Branch, Entry, Function, Image, Kind, Outcome, Section, Symbol, To, detect_functions};

const WORDS: [u32; 20] = [
    0x9421FFF0, 0x7C0802A6, 0x90010014, 0x2C030000, 0x4182000C, 0x48000025, 0x38630001, 0x4E800420, 0x38630002, 0x80010014, 0x7C0803A6,
    0x38210010, 0x4E800020, 0x00000000, 0x38630003, 0x4D820020, 0x48000008, 0x00000000, 0x38630004, 0x4E800020,
];
const TABLE: [u32; 2] = [0x1020, 0x1024];

const fn to(address: u32) -> Option<Branch> { Some(Branch { to: To::Address(address), link: false }) }
const fn call(address: u32) -> Option<Branch> { Some(Branch { to: To::Address(address), link: true }) }
const ELSEWHERE: Option<Branch> = Some(Branch { to: To::Elsewhere, link: false });

/// What each code word does.
const OUTCOMES: [Outcome; 20] = [
    Outcome::GoOn,                                // 1000 stwu  r1,-16(r1)
    Outcome::GoOn,                                // 1004 mflr  r0
    Outcome::GoOn,                                // 1008 stw   r0,20(r1)
    Outcome::GoOn,                                // 100C cmpwi r3,0
    Outcome::Branches([to(0x1014), to(0x101C)]),  // 1010 beq   101C
    Outcome::Branches([to(0x1018), call(0x1038)]), // 1014 bl    1038
    Outcome::GoOn,                                // 1018 addi  r3,r3,1
    Outcome::JumpTable(0x2000, 8),                // 101C bctr
    Outcome::GoOn,                                // 1020 addi  r3,r3,2
    Outcome::GoOn,                                // 1024 lwz   r0,20(r1)
    Outcome::GoOn,                                // 1028 mtlr  r0
    Outcome::GoOn,                                // 102C addi  r1,r1,16
    Outcome::Return,                              // 1030 blr
    Outcome::Illegal,                             // 1034 padding
    Outcome::GoOn,                                // 1038 addi  r3,r3,3
    Outcome::Branches([to(0x1040), ELSEWHERE]),   // 103C beqlr
    Outcome::Jump(0x1048),                        // 1040 b     1048
    Outcome::Illegal,                             // 1044 padding, with a function symbol
    Outcome::GoOn,                                // 1048 addi  r3,r3,4
    Outcome::Return,                              // 104C blr
];

/// A section with these words.
fn section(kind: Kind, base: u32, words: &[u32]) -> Section {
    Section { kind, base, size: 4 * words.len() as u32, bytes: words.iter().flat_map(|w| w.to_be_bytes()).collect() }
}

fn printed(a: Address) -> String { format!("{:08X}", a.address) }

/// An address without its section, or - for none.
fn or_none(a: Option<Address>) -> String { a.map_or("-".into(), printed) }

fn print_function(f: &Function) {
    let flags: String = [f.conditional_blr, f.rfi, f.load_r1].map(|flag| if flag { '1' } else { '0' }).iter().collect();
    println!("F {} {} {} {} {flags}", printed(f.entry), printed(f.end), or_none(f.prologue), or_none(f.epilogue));
    f.blocks.iter().for_each(|&(start, end)| println!("B {} {}", printed(start), or_none(end)));
    f.ways.iter().for_each(|&(from, to)| println!("C {} {}", printed(from), printed(to)));
    f.references.iter().for_each(|&a| println!("X {}", printed(a)));
    f.tables.iter().for_each(|&(a, size)| println!("J {} {size:08X}", printed(a)));
}

fn main() {
    let image = Image {
        sections: vec![section(Kind::Code, 0x1000, &WORDS), section(Kind::Data, 0x2000, &TABLE)],
        words: OUTCOMES.map(Into::into).to_vec(),
        functions: vec![Symbol { address: 0x1044, size: Some(4) }],
        entry: Some(0x1000),
        ..Default::default()
    };
    match detect_functions(&image) {
        Ok(map) => {
            println!("R 00");
            for entry in &map {
                match entry {
                    Entry::Function(f) => print_function(f),
                    Entry::SetAside(a) => println!("N {}", printed(*a)),
                }
            }
        }
        Err(number) => {
            println!("R {:02}", number as u32);
            std::process::exit(1);
        }
    }
}
