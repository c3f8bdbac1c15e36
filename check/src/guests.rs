//! The guest programs of the benchmark, put together by a small assembler. Each loops for
//! ever, until the budget is spent.

use crate::model::Machine;

pub struct Guest {
    pub name: &'static str,
    pub m: Machine,
    pub storage: Vec<u8>,
    pub budget: u32,
}

/// Code is put together from 0100; data begin at 1000.
const CODE: u16 = 0x0100;

struct Assembler {
    bytes: Vec<u8>,
}

impl Assembler {
    fn new() -> Assembler {
        Assembler { bytes: vec![] }
    }

    fn here(&self) -> u16 {
        CODE + self.bytes.len() as u16
    }

    /// Opcode, Q and two direct addresses.
    fn two(&mut self, opcode: u8, q: u8, address1: u16, address2: u16) {
        self.bytes.extend([opcode, q]);
        self.bytes.extend(address1.to_be_bytes());
        self.bytes.extend(address2.to_be_bytes());
    }

    fn bytes(&mut self, bytes: &[u8]) {
        self.bytes.extend(bytes);
    }

    fn one(&mut self, opcode: u8, q: u8, address: u16) {
        self.bytes.extend([opcode, q]);
        self.bytes.extend(address.to_be_bytes());
    }

    /// Jumps backward to an address within 255 bytes, F1.
    fn jump_back(&mut self, q: u8, to: u16) {
        let by = self.here() + 3 - to;
        self.bytes.extend([0xF1, q, u8::try_from(by).expect("a near jump")]);
    }

    /// Jumps forward over `by` bytes, F2.
    fn jump_over(&mut self, q: u8, by: u8) {
        self.bytes.extend([0xF2, q, by]);
    }

    fn guest(self, name: &'static str, data: &[(usize, &[u8])]) -> Guest {
        let mut storage = vec![0; 0x2000];
        storage[CODE as usize..CODE as usize + self.bytes.len()].copy_from_slice(&self.bytes);
        for (from, bytes) in data {
            storage[*from..from + bytes.len()].copy_from_slice(bytes);
        }
        let m = Machine { iar: CODE, xr1: 0x1000, xr2: 0x1100, status: 1, ..Machine::default() };
        Guest { name, m, storage, budget: FULL }
    }
}

/// "if equal", "if not equal", "if low", "if not low", "always"
const IF_EQUAL: u8 = 0x81;
const IF_NOT_EQUAL: u8 = 0x01;
const IF_LOW: u8 = 0x82;
const IF_NOT_LOW: u8 = 0x02;
const ALWAYS: u8 = 0x00;

const FULL: u32 = 16_777_216;

fn compare_and_jump() -> Guest {
    let mut a = Assembler::new();
    let top = a.here();
    a.one(0x3D, 0xF1, 0x1000);
    a.jump_over(IF_LOW, 0);
    a.bytes(&[0x7D, 0x40, 0x00]);
    a.jump_back(IF_EQUAL, top);
    a.guest("compare", &[(0x1000, &[0x40])])
}

fn register_arithmetic() -> Guest {
    let mut a = Assembler::new();
    a.bytes(&[0xD2, 0x02, 0x80]); // LA XR2 := XR1 + 80
    let top = a.here();
    a.one(0x35, 0x44, 0x1001); // L WR4
    a.bytes(&[0x76, 0x44, 0x03]); // A WR4, at XR1
    a.bytes(&[0xB4, 0x44, 0x05]); // ST WR4, at XR2
    a.bytes(&[0xB5, 0x45, 0x05]); // L WR5
    a.bytes(&[0x77, 0x45, 0x05]); // S WR5, at XR1
    a.bytes(&[0x74, 0x45, 0x07]); // ST WR5
    a.bytes(&[0xD2, 0x46, 0x11]); // LA WR6 := XR1 + 11
    a.one(0x34, 0x46, 0x1009); // ST WR6
    a.one(0x36, 0x47, 0x1009); // A WR7
    a.bytes(&[0xE2, 0x02, 0x02]); // LA XR2 := XR2 + 2
    a.bytes(&[0x77, 0x02, 0x0B]); // S XR2, 2
    a.bytes(&[0x76, 0x01, 0x0D]); // A XR1, 4
    a.one(0x37, 0x01, 0x100F); // S XR1, 4
    a.bytes(&[0xC2, 0x44, 0x12, 0x34]); // LA WR4
    a.jump_back(ALWAYS, top);
    let data: &[u8] = &[0, 7, 0xFF, 0xF0, 0, 3, 0, 0, 0, 0, 0, 2, 0, 4, 0, 4];
    a.guest("registers", &[(0x1000, data)])
}

fn move_and_compare() -> Guest {
    let mut a = Assembler::new();
    let top = a.here();
    a.two(0x0C, 99, 0x1063, 0x1163);
    a.two(0x0D, 99, 0x1063, 0x1163);
    a.jump_over(IF_NOT_EQUAL, 0);
    a.bytes(&[0x9C, 99, 0x63, 0x63]); // MVC, XR2 from XR1
    a.bytes(&[0x6D, 99, 0x63, 0x63]); // CLC, XR1 with XR2
    a.jump_back(IF_EQUAL, top);
    let text: Vec<u8> = (0..100).map(|i| 0xC1 + i % 9).collect();
    a.guest("characters", &[(0x1100, &text)])
}

fn logical_sums() -> Guest {
    let mut a = Assembler::new();
    let top = a.here();
    a.two(0x0E, 15, 0x100F, 0x110F);
    a.bytes(&[0x5F, 15, 0x2F, 0x4F]); // SLC, both by XR1
    a.bytes(&[0x9F, 15, 0x2F, 0x0F]); // SLC, XR2 less XR1
    a.two(0x0E, 15, 0x104F, 0x112F);
    a.jump_back(ALWAYS, top);
    let number: Vec<u8> = (0..16).map(|i| 0xFF - i * 13).collect();
    let other: Vec<u8> = (0..16).map(|i| i * 17 + 3).collect();
    a.guest("logical", &[(0x1000, &number), (0x1100, &other), (0x1020, &other), (0x1040, &number), (0x1120, &other)])
}

/// A zoned number of a length, its digits rising.
fn zoned(length: usize, first: u8, minus: bool) -> Vec<u8> {
    let mut field: Vec<u8> = (0..length).map(|i| 0xF0 | ((first as usize + i * 3) % 10) as u8).collect();
    if minus {
        field[length - 1] &= 0xDF;
    }
    field
}

/// Operand 1 at 1000 and 1040, operand 2 at 1100 (plus) and 1140 (minus).
fn zoned_sums(name: &'static str, l1: usize, l2: usize) -> Guest {
    let q = ((l1 - l2) * 16 + l2 - 1) as u8;
    let last = |first: usize, length: usize| (first + length - 1) as u16;
    let mut a = Assembler::new();
    let top = a.here();
    a.two(0x06, q, last(0x1000, l1), last(0x1100, l2)); // sizes add
    a.two(0x07, q, last(0x1000, l1), last(0x1100, l2)); // sizes subtract
    a.bytes(&[0x66, q, (0x40 + l1 - 1) as u8, (0x40 + l2 - 1) as u8]); // AZ of a minus
    a.bytes(&[0x67, q, (0x40 + l1 - 1) as u8, (0x40 + l2 - 1) as u8]); // SZ of a minus
    a.jump_back(ALWAYS, top);
    let fields = [zoned(l1, 0, false), zoned(l1, 2, true), zoned(l2, 7, false), zoned(l2, 1, true)];
    a.guest(name, &[(0x1000, &fields[0]), (0x1040, &fields[1]), (0x1100, &fields[2]), (0x1140, &fields[3])])
}

/// Eight records of a store, each of 32 bytes: month (2), name (10), balance (7), issue (5).
const RECORDS: usize = 0x1400;

fn issue_program() -> Guest {
    let mut a = Assembler::new();
    let start = a.here();
    a.bytes(&[0xC2, 0x02, 0x14, 0x00]); // LA XR2, the first record
    a.two(0x04, 0xD0, 0x124D, 0x1250); // ZAZ total := 0
    a.bytes(&[0xC2, 0x44, 0x00, 0x08]); // LA WR4, 8
    let top = a.here();
    a.bytes(&[0x8D, 0x01, 0x01, 0x12, 0x61]); // CLC month with the asked one
    a.jump_over(IF_LOW, 52); // an older month: on to the next record
    a.bytes(&[0x2C, 0x09, 0x12, 0x09, 0x0B]); // MVC name to the line
    a.bytes(&[0xA7, 0x24, 0x12, 0x17]); // SZ balance less issue
    a.jump_over(IF_NOT_LOW, 5);
    a.bytes(&[0x86, 0x06, 0x12, 0x12, 0x76]); // AZ balance and a receipt, if it is minus
    a.bytes(&[0x26, 0x76, 0x12, 0x4D, 0x12]); // AZ total and balance
    a.two(0x0C, 0x0A, 0x121A, 0x123A); // MVC pattern to the line
    a.bytes(&[0x2A, 0x0A, 0x12, 0x1A, 0x12]); // ED balance
    a.two(0x0B, 0x08, 0x1210, 0x1262); // ITC blanks before the digits
    a.bytes(&[0xB9, 0x80, 0x18]); // TBF the record's flag
    a.jump_over(0x90, 4); // if test false
    a.bytes(&[0x3A, 0x01, 0x12, 0x63]); // SBN a mark
    a.bytes(&[0x7D, 0x40, 0x00]); // CLI a byte
    let skipped = a.here();
    assert_eq!(skipped, top + 5 + 3 + 52);
    a.bytes(&[0xE2, 0x02, 0x20]); // LA XR2, the next record
    a.one(0x37, 0x44, 0x1265); // S WR4, 1
    a.jump_back(IF_NOT_EQUAL, top);
    a.two(0x0E, 0x03, 0x126B, 0x126F); // ALC a count of mornings
    a.bytes(&[0xC0, 0x00]); // BC to the start
    a.bytes(&start.to_be_bytes());
    let mut records = vec![];
    for i in 0..8u8 {
        let month = [[0xF0, 0xF9], [0xF1, 0xF0], [0x40, 0xF8], [0xF1, 0xF1]][i as usize % 4];
        records.extend(month);
        records.extend((0..10).map(|k| 0xC1 + (i + k) % 9));
        records.extend(zoned(7, i, false));
        records.extend(zoned(5, i + 1, i == 5));
        records.push(if i == 3 { 0x80 } else { 0 });
        records.extend([0x40; 7]);
    }
    let pattern = [0x20, 0x6B, 0x20, 0x20, 0x20, 0x6B, 0x20, 0x20, 0x20, 0x40, 0x40];
    let asked = [0xF0, 0xF9, 0x40, 0x00, 0x00, 0x01];
    let count = [0, 0, 0, 0, 0, 0, 0, 1];
    let receipt = zoned(7, 8, false);
    let data: &[(usize, &[u8])] = &[
        (RECORDS, &records),
        (0x1230, &pattern),
        (0x1240, &[0xF0; 14]),
        (0x1250, &[0xF0]),
        (0x1260, &asked),
        (0x1268, &count),
        (0x1270, &receipt),
        (0x1000, &[0x40]),
    ];
    a.guest("issue", data)
}

pub fn all() -> Vec<Guest> {
    vec![
        compare_and_jump(),
        register_arithmetic(),
        move_and_compare(),
        logical_sums(),
        zoned_sums("zoned15", 15, 8),
        zoned_sums("zoned31", 31, 16),
        issue_program(),
    ]
}
