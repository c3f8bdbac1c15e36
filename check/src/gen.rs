//! Generators of machines, instructions, programs and decks, from one seeded number generator.

use crate::model::{instruction_length, Machine, Model};

/// splitmix64
pub struct Rng {
    state: u64,
}

impl Rng {
    pub fn new(seed: u64) -> Rng {
        Rng { state: seed }
    }

    pub fn draw(&mut self) -> u64 {
        self.state = self.state.wrapping_add(0x9E37_79B9_7F4A_7C15);
        let mut z = self.state;
        z = (z ^ (z >> 30)).wrapping_mul(0xBF58_476D_1CE4_E5B9);
        z = (z ^ (z >> 27)).wrapping_mul(0x94D0_49BB_1331_11EB);
        z ^ (z >> 31)
    }

    /// 0 to n-1
    pub fn below(&mut self, n: usize) -> usize {
        ((self.draw() >> 32) as usize * n) >> 32
    }

    pub fn byte(&mut self) -> u8 {
        (self.draw() >> 56) as u8
    }

    pub fn word(&mut self) -> u16 {
        (self.draw() >> 48) as u16
    }

    /// True once in n.
    pub fn one_in(&mut self, n: usize) -> bool {
        self.below(n) == 0
    }

    pub fn pick<T: Copy>(&mut self, from: &[T]) -> T {
        from[self.below(from.len())]
    }
}

/// A machine with its storage and what it is given to do.
#[derive(Clone)]
pub struct Case {
    pub m: Machine,
    pub storage: Vec<u8>,
    pub budget: u32,
}

/// The left digits of the two-address and the one-address opcodes.
const LEFT_TWO: [u8; 9] = [0, 1, 2, 4, 5, 6, 8, 9, 0xA];
const LEFT_ONE: [u8; 3] = [3, 7, 0xB];

/// Every opcode that is known.
pub fn known_opcodes() -> Vec<u8> {
    (0..=255).filter(|opcode| instruction_length(*opcode).is_some()).collect()
}

/// Mostly one or two pages, seldom many.
pub fn size(rng: &mut Rng) -> usize {
    match rng.below(64) {
        0 => 65_536,
        1 => 256 * (1 + rng.below(256)),
        2..=4 => 256 * (3 + rng.below(6)),
        5..=24 => 512,
        _ => 256,
    }
}

pub fn small_size(rng: &mut Rng) -> usize {
    256 * (1 + rng.below(3))
}

/// Sizes that aren't allowed, and a few that are.
pub fn odd_size(rng: &mut Rng) -> usize {
    match rng.below(12) {
        0 => 0,
        1 => 1,
        2 => 255,
        3 => 257,
        4 => 65_535,
        5 => 65_537,
        6 => 65_792,
        7 => 128 + 256 * rng.below(256),
        8 => 131_072,
        9 => 256 * (257 + rng.below(64)),
        10 => 256 * (1 + rng.below(3)) + 1 + rng.below(255),
        _ => 1 + rng.below(255),
    }
}

pub fn status(rng: &mut Rng) -> u8 {
    match rng.below(8) {
        0 => rng.byte() & 0x3F,
        1 => 0,
        2 => 0x3F,
        _ => (rng.byte() & 0x38) | rng.pick(&[1, 2, 4]),
    }
}

/// A register: near 0, near the storage size, near 65,536 or anywhere.
pub fn register(rng: &mut Rng, size: usize) -> u16 {
    match rng.below(8) {
        0 => rng.below(4) as u16,
        1 => (size as u16).wrapping_sub(rng.below(4) as u16),
        2 => 0u16.wrapping_sub(rng.below(256) as u16),
        3 => rng.word(),
        _ => rng.below(size.max(1)) as u16,
    }
}

pub fn machine(rng: &mut Rng, size: usize) -> Machine {
    Machine {
        iar: register(rng, size),
        arr: register(rng, size),
        xr1: register(rng, size),
        xr2: register(rng, size),
        wr: [rng.word(), register(rng, size), rng.word(), register(rng, size)],
        status: status(rng),
    }
}

/// Bytes of one character: random, digits, patterns, blanks, zeros, a few letters.
pub fn fill(rng: &mut Rng, bytes: &mut [u8]) {
    let manner = rng.below(9);
    let letters = [rng.byte(), rng.byte(), 0xF0, 0x40, 0x20, 0xF5];
    for byte in bytes.iter_mut() {
        *byte = match manner {
            0 | 1 => rng.byte(),
            2 => 0xF0 | rng.below(10) as u8,
            3 => rng.pick(&[0x20, 0x20, 0x20, 0x4B, 0x6B, 0xF0, 0x40]),
            4 => rng.pick(&[0xF0, 0xF0, 0xF0, 0x40, 0xF3]),
            5 => 0,
            6 => rng.pick(&letters),
            7 => rng.pick(&[0xFF, 0x00, 0x80, 0x7F]),
            _ => (rng.byte() & 0xF0) | rng.below(10) as u8,
        };
    }
}

pub fn storage(rng: &mut Rng, size: usize) -> Vec<u8> {
    let mut bytes = vec![0; size];
    // big ones in patches: the rest stays zero
    if size > 2048 {
        for _ in 0..8 {
            let from = rng.below(size);
            let to = size.min(from + 1 + rng.below(600));
            fill(rng, &mut bytes[from..to]);
        }
        let to = size.min(600);
        fill(rng, &mut bytes[..to]);
        fill(rng, &mut bytes[size - 600..]);
        return bytes;
    }
    let mut from = 0;
    while from < size {
        let to = size.min(from + 16 + rng.below(240));
        fill(rng, &mut bytes[from..to]);
        from = to;
    }
    bytes
}

/// A Q byte that the opcode mostly takes.
pub fn q_for(rng: &mut Rng, opcode: u8) -> u8 {
    let registers = [1, 2, 4, 8, 0x44, 0x45, 0x46, 0x47];
    let near = [0, 3, 5, 0x10, 0x20, 0x40, 0x41, 0x43, 0x48, 0xA0, 0xA1, 0xA2, 0xA3, 0x80, 0x81];
    if rng.one_in(16) {
        return rng.byte();
    }
    let left = opcode >> 4;
    let right = opcode & 0x0F;
    if LEFT_TWO.contains(&left) {
        return match right {
            4 | 6 | 7 => match rng.below(4) {
                0 => rng.byte(),
                1 => 0xFF,
                2 => rng.below(16) as u8,
                _ => (rng.below(4) * 16 + rng.below(8)) as u8,
            },
            8 => rng.below(5) as u8,
            _ => match rng.below(8) {
                0 => rng.byte(),
                1 => 0xFF,
                2 => 0,
                _ => rng.below(24) as u8,
            },
        };
    }
    if (LEFT_ONE.contains(&left) && (4..=7).contains(&right)) || ((0xC..=0xE).contains(&left) && right == 2) {
        if rng.one_in(12) {
            return rng.pick(&near);
        }
        return rng.pick(&registers);
    }
    match rng.below(4) {
        0 => 1 << rng.below(8),
        1 => 0x80 | (1 << rng.below(6)),
        2 => rng.pick(&[0, 0x80, 0x87, 0x07, 0x3F, 0xBF, 0xFF]),
        _ => rng.byte(),
    }
}

/// The lengths of the two operands; ED's second is set when its pattern is known.
fn lengths(opcode: u8, q: u8) -> (usize, usize) {
    let right = opcode & 0x0F;
    if LEFT_ONE.contains(&(opcode >> 4)) {
        return if right < 8 { (2, 0) } else { (1, 0) };
    }
    match right {
        4 | 6 | 7 => {
            let l2 = (q & 0x0F) as usize + 1;
            ((q >> 4) as usize + l2, l2)
        }
        8 => (1, 1),
        0xB => (q as usize + 1, 1),
        _ => (q as usize + 1, q as usize + 1),
    }
}

/// Where the instruction stands: mostly whole, at times at an end, cut short or outside.
fn place_instruction(rng: &mut Rng, length: usize, size: usize) -> u16 {
    match rng.below(32) {
        0 => 0,
        1 | 2 => (size - length) as u16,
        3 => (size - 1 - rng.below(length)) as u16,
        4 if rng.one_in(4) => size as u16,
        _ => rng.below(size - length + 1) as u16,
    }
}

/// The rightmost address of a field of `length`: in storage, at an end, one beyond, anywhere.
fn place_right(rng: &mut Rng, length: usize, size: usize, iar: u16) -> u16 {
    match rng.below(32) {
        0 | 1 => (length - 1) as u16,
        2 => (length as u16).wrapping_sub(2),
        3 | 4 => (size - 1) as u16,
        5 => size as u16,
        6 => rng.word(),
        7 | 8 => iar.wrapping_add(rng.below(length + 6) as u16),
        9 => rng.below(size) as u16,
        _ if length > size => rng.below(size) as u16,
        _ => (length - 1 + rng.below(size - length + 1)) as u16,
    }
}

/// Operand 2's rightmost address, in some relation to operand 1's.
fn place_related(rng: &mut Rng, right1: u16, l1: usize, l2: usize, size: usize, iar: u16) -> u16 {
    match rng.below(16) {
        0 | 1 => right1,
        2..=4 => right1.wrapping_add(1 + rng.below(15) as u16),
        5..=7 => right1.wrapping_sub(1 + rng.below(15) as u16),
        8 => right1.wrapping_sub(rng.below(l1) as u16),
        9 => right1.wrapping_sub(l1 as u16),
        10 => right1.wrapping_add(l2 as u16),
        11 => right1.wrapping_add(1 + rng.below(l2) as u16),
        _ => place_right(rng, l2, size, iar),
    }
}

/// Fills a field's bytes that are in storage, from its rightmost address leftwards.
fn fill_field(storage: &mut [u8], right: u16, length: usize, mut byte: impl FnMut(usize) -> u8) {
    for i in 0..length.min(right as usize + 1) {
        let address = right as usize - i;
        if address < storage.len() {
            storage[address] = byte(i);
        }
    }
}

/// Zoned digits: random, nines, zeros, few; seldom a bad digit; signs of all kinds.
fn fill_zoned(rng: &mut Rng, storage: &mut [u8], right: u16, length: usize) {
    let manner = rng.below(8);
    let few = 1 + rng.below(length);
    let sign = rng.pick(&[0xF0, 0xF0, 0xD0, 0xD0, 0xB0, 0xC0, 0x00, 0xE0]);
    let odd_zones = rng.one_in(4);
    let bad = if rng.one_in(10) { rng.below(length) } else { length };
    fill_field(storage, right, length, |i| {
        let digit = match manner {
            0 => 9,
            1 => 0,
            2 if i >= few => 0,
            3 if i >= few => 9,
            4 => (i == few - 1) as u8,
            _ => rng.below(10) as u8,
        };
        let digit = if i == bad { 10 + rng.below(6) as u8 } else { digit };
        let zone = if odd_zones { rng.byte() & 0xF0 } else { 0xF0 };
        if i == 0 {
            sign | digit
        } else {
            zone | digit
        }
    });
}

fn fill_pattern(rng: &mut Rng, storage: &mut [u8], right: u16, length: usize) {
    let dense = rng.below(5);
    fill_field(storage, right, length, |_| match dense {
        0 => 0x20,
        1 => rng.pick(&[0x40, 0x4B, 0x6B, 0x21, 0x1F, 0x00]),
        2 => rng.pick(&[0x20, 0x4B, 0x6B, 0x40, 0x60]),
        _ => rng.pick(&[0x20, 0x20, 0x20, 0x20, 0x6B, 0x4B]),
    });
}

fn fill_itc(rng: &mut Rng, storage: &mut [u8], left: u16, length: usize) {
    let plain = rng.below(4);
    let end = rng.below(length + 1);
    for i in 0..length {
        let address = left as usize + i;
        if address >= storage.len() {
            return;
        }
        storage[address] = match plain {
            0 => rng.pick(&[0xF0, 0x6B, 0x40, 0xFA, 0xE5, 0x31]),
            1 if i == end => 0xF1 + rng.below(9) as u8,
            1 | 2 => rng.pick(&[0xF0, 0xF0, 0xF0, 0x40, 0xC1]),
            _ => rng.pick(&[0xF0, 0xF0, 0xF0, 0xF1, 0xF9, 0xFA]),
        };
    }
}

/// How many bytes 20 a field has that are in storage.
fn count_20(storage: &[u8], right: u16, length: usize) -> usize {
    let inside = (0..length.min(right as usize + 1)).map(|i| right as usize - i);
    inside.filter(|a| storage.get(*a) == Some(&0x20)).count()
}

/// Puts a displacement into the instruction and sets the base so that it reaches `address`.
fn aim(rng: &mut Rng, base: &mut u16, address: u16) -> u8 {
    let displacement = match rng.below(4) {
        0 => 0,
        1 => 0xFF,
        _ => rng.byte(),
    };
    *base = address.wrapping_sub(displacement as u16);
    displacement
}

/// Two displacements from one base, where the addresses are near enough; else the second is
/// anywhere.
fn aim_both(rng: &mut Rng, base: &mut u16, address1: u16, address2: u16) -> (u8, u8) {
    let distance = address2.wrapping_sub(address1);
    if distance < 256 {
        let d1 = rng.below(256 - distance as usize) as u16;
        *base = address1.wrapping_sub(d1);
        return (d1 as u8, (d1 + distance) as u8);
    }
    let back = address1.wrapping_sub(address2);
    if back < 256 {
        let d2 = rng.below(256 - back as usize) as u16;
        *base = address2.wrapping_sub(d2);
        return ((d2 + back) as u8, d2 as u8);
    }
    (aim(rng, base, address1), rng.byte())
}

/// The bytes of an instruction whose operands are at two addresses, setting the index registers.
fn encode(rng: &mut Rng, m: &mut Machine, opcode: u8, q: u8, address1: u16, address2: u16) -> Vec<u8> {
    let (h1, l1) = ((address1 >> 8) as u8, address1 as u8);
    let (h2, l2) = ((address2 >> 8) as u8, address2 as u8);
    let mut text = vec![opcode, q];
    match opcode >> 4 {
        0 => text.extend([h1, l1, h2, l2]),
        1 => text.extend([h1, l1, aim(rng, &mut m.xr1, address2)]),
        2 => text.extend([h1, l1, aim(rng, &mut m.xr2, address2)]),
        4 => text.extend([aim(rng, &mut m.xr1, address1), h2, l2]),
        8 => text.extend([aim(rng, &mut m.xr2, address1), h2, l2]),
        5 => {
            let (d1, d2) = aim_both(rng, &mut m.xr1, address1, address2);
            text.extend([d1, d2]);
        }
        0xA => {
            let (d1, d2) = aim_both(rng, &mut m.xr2, address1, address2);
            text.extend([d1, d2]);
        }
        6 => text.extend([aim(rng, &mut m.xr1, address1), aim(rng, &mut m.xr2, address2)]),
        9 => text.extend([aim(rng, &mut m.xr2, address1), aim(rng, &mut m.xr1, address2)]),
        3 | 0xC => text.extend([h1, l1]),
        7 | 0xD => text.push(aim(rng, &mut m.xr1, address1)),
        0xB | 0xE => text.push(aim(rng, &mut m.xr2, address1)),
        _ => text.push(rng.byte()),
    }
    text
}

/// One instruction at IAR, its operands aimed and their bytes biased.
pub fn aimed(rng: &mut Rng, opcode: u8, q: u8, size: usize) -> Case {
    let mut m = machine(rng, size);
    let mut storage = storage(rng, size);
    let length = instruction_length(opcode).unwrap_or(1 + rng.below(6));
    m.iar = place_instruction(rng, length, size);
    let iar = m.iar;
    let (l1, l2) = lengths(opcode, q);
    let mut address1 = place_right(rng, l1, size, iar);
    let two = LEFT_TWO.contains(&(opcode >> 4));
    let right = opcode & 0x0F;
    let mut l2 = l2.max(1);
    if two && right == 0xB {
        // ITC's operand 1 begins at its address
        address1 = address1.wrapping_sub(l1 as u16 - 1);
        fill_itc(rng, &mut storage, address1, l1);
    }
    if two && right == 0xA {
        fill_pattern(rng, &mut storage, address1, l1);
        l2 = count_20(&storage, address1, l1).max(1);
    }
    let mut address2 = place_related(rng, address1, l1, l2, size, iar);
    if two && right == 0xB && rng.one_in(2) {
        address2 = address1.wrapping_add(rng.below(l1) as u16);
    }
    if two && matches!(right, 4 | 6 | 7) {
        fill_zoned(rng, &mut storage, address1, l1);
        fill_zoned(rng, &mut storage, address2, l2);
    }
    if two && matches!(right, 6 | 7) && rng.one_in(6) {
        meet_power(rng, &mut storage, address1, address2, l1, l2);
    }
    if two && right == 0xA && !rng.one_in(4) {
        fill_zoned(rng, &mut storage, address2, l2);
        // the digits may lie on the pattern: some of it is put back
        if rng.one_in(2) {
            fill_pattern(rng, &mut storage, address1, l1);
        }
    }
    if two && right >= 0xD && rng.one_in(2) {
        alike(rng, &mut storage, address1, address2, l1);
    }
    let text = encode(rng, &mut m, opcode, q, address1, address2);
    if LEFT_ONE.contains(&(opcode >> 4)) {
        near_register(rng, &mut storage, &mut m, opcode, q, address1);
    }
    put_text(&mut storage, iar, &text);
    Case { m, storage, budget: 1 }
}

/// Makes a sum or difference of two zoned fields come to zero, to 10 to the L1 or beside it.
fn meet_power(rng: &mut Rng, storage: &mut [u8], right1: u16, right2: u16, l1: usize, l2: usize) {
    let sign = |rng: &mut Rng| rng.pick(&[0xF0, 0xD0]);
    let (sign1, sign2) = (sign(rng), sign(rng));
    let low = rng.below(10) as u8;
    let complement = rng.one_in(2);
    let by = rng.pick(&[0, 0, 0, 1]);
    // operand 2 is one digit and zeros; operand 1 the same, or what is missing to the power
    fill_field(storage, right2, l2, |i| if i == 0 { sign2 | low } else { 0xF0 });
    fill_field(storage, right1, l1, |i| {
        let digit = match (i, complement) {
            (0, true) => (10 - low + by) % 10,
            (_, true) if low > 0 => 9,
            (0, false) => (low + by) % 10,
            _ => 0,
        };
        if i == 0 {
            sign1 | digit
        } else {
            0xF0 | digit
        }
    });
}

/// Makes two fields equal, or equal but for one byte.
fn alike(rng: &mut Rng, storage: &mut [u8], right1: u16, right2: u16, length: usize) {
    let other = rng.below(2 * length);
    for i in 0..length {
        let (a1, a2) = (right1 as usize, right2 as usize);
        if a1 < i || a2 < i || a1 - i >= storage.len() || a2 - i >= storage.len() {
            return;
        }
        storage[a1 - i] = storage[a2 - i].wrapping_add((i == other) as u8);
    }
}

/// Makes the operand of A, S, CLI, SLI meet its partner, or miss it by one; sums of 65,536 too.
fn near_register(rng: &mut Rng, storage: &mut [u8], m: &mut Machine, opcode: u8, q: u8, right1: u16) {
    if rng.one_in(2) {
        return;
    }
    let at = right1 as usize;
    if at >= storage.len() || at == 0 {
        return;
    }
    let by = rng.pick(&[0, 0, 1, 0xFFFF]);
    match opcode & 0x0F {
        6 | 7 => {
            let value = match q {
                1 => m.xr1,
                2 => m.xr2,
                8 => m.arr,
                0x44..=0x47 => m.wr[q as usize - 0x44],
                _ => rng.word(),
            };
            let value = if opcode & 0x0F == 6 { 0u16.wrapping_sub(value) } else { value };
            let value = value.wrapping_add(by);
            storage[at] = value as u8;
            storage[at - 1] = (value >> 8) as u8;
        }
        0xD | 0xF => storage[at] = q.wrapping_add(by as u8),
        _ => (),
    }
}

/// Writes the instruction's bytes that are in storage.
fn put_text(storage: &mut [u8], iar: u16, text: &[u8]) {
    for (i, byte) in text.iter().enumerate() {
        if let Some(place) = storage.get_mut(iar as usize + i) {
            *place = *byte;
        }
    }
}

/// A program: instructions one after another from IAR, their operands mostly in a data part.
/// The index registers point into that part. `straight` leaves out what can go backward.
pub fn program(rng: &mut Rng, known: &[u8], size: usize, straight: bool) -> Case {
    let mut m = machine(rng, size);
    let mut storage = storage(rng, size);
    let code = size.min(65_536) / 2;
    let window = code.min(256);
    m.xr1 = (code + rng.below(window / 2)) as u16;
    m.xr2 = (code + rng.below(window / 2)) as u16;
    m.iar = rng.below(32) as u16;
    let mut at = m.iar as usize;
    if size == 65_536 && rng.one_in(2) {
        // the first instruction ends the storage, and the program goes on at 0000
        let first = rng.pick(&[[0x3C, 0xF1, 0x80, 0x10], [0xC2, 0x45, 0x12, 0x34], [0x3D, 0x40, 0x00, 0x00]]);
        storage[65_532..].copy_from_slice(&first);
        m.iar = 65_532;
        at = 0;
    }
    let count = 1 + rng.below(24);
    for _ in 0..count {
        let mut opcode = rng.pick(known);
        let backward = matches!(opcode, 0xC0 | 0xD0 | 0xE0 | 0xF0 | 0xF1 | 0xF4);
        if (straight && backward) || (backward && rng.one_in(2)) || rng.one_in(12) {
            opcode = rng.pick(&[0x3C, 0x0C, 0x0D, 0x06, 0x0E, 0x5F, 0x0A, 0x0B, 0x7D, 0xC2]);
        }
        let text = program_instruction(rng, opcode, code, window, at);
        if at + text.len() > code {
            break;
        }
        storage[at..at + text.len()].copy_from_slice(&text);
        at += text.len();
    }
    if !rng.one_in(3) && at + 3 <= size {
        storage[at..at + 3].copy_from_slice(&[0xF4, rng.byte(), rng.byte()]);
    }
    if rng.one_in(3) {
        let sown = storage.len() - code;
        fill_zoned(rng, &mut storage, (code + sown.min(256) - 1) as u16, sown.min(256));
    }
    let budget = match rng.below(8) {
        0 => 0,
        1 => 1,
        2 => 2,
        _ => rng.below(64) as u32,
    };
    Case { m, storage, budget }
}

fn program_instruction(rng: &mut Rng, opcode: u8, code: usize, window: usize, at: usize) -> Vec<u8> {
    let mut q = q_for(rng, opcode);
    let right = opcode & 0x0F;
    let two = LEFT_TWO.contains(&(opcode >> 4));
    if two && right >= 0xA {
        q = rng.below(20) as u8;
    }
    if (0xC..=0xE).contains(&(opcode >> 4)) && right == 2 && rng.one_in(2) {
        q = 0x44 + rng.below(4) as u8;
    }
    let mut text = vec![opcode, q];
    let length = instruction_length(opcode).unwrap_or(3);
    let direct = |rng: &mut Rng| (code + rng.below(window)) as u16;
    match opcode >> 4 {
        0 => {
            text.extend(direct(rng).to_be_bytes());
            text.extend(direct(rng).to_be_bytes());
        }
        1..=3 => text.extend(direct(rng).to_be_bytes()),
        0xC if right == 0 => text.extend((rng.below(at + 16) as u16).to_be_bytes()),
        0xC => text.extend(direct(rng).to_be_bytes()),
        4 | 8 => {
            text.push(rng.below(window / 2) as u8);
            text.extend(direct(rng).to_be_bytes());
        }
        0xF => text.push(if rng.one_in(3) { rng.below(3 + at.min(250)) as u8 } else { rng.below(8) as u8 }),
        _ => (),
    }
    while text.len() < length {
        text.push(rng.below(window / 2) as u8);
    }
    text
}

/// A machine and storage as decks have them: some pages zero, some nearly zero, some full.
pub fn for_deck(rng: &mut Rng, size: usize) -> (Machine, Vec<u8>) {
    let m = Machine {
        iar: rng.word(),
        arr: rng.word(),
        xr1: rng.word(),
        xr2: rng.word(),
        wr: [rng.word(), rng.word(), rng.word(), rng.word()],
        status: status(rng),
    };
    let mut storage = vec![0; size];
    let sparse = 1 + rng.below(4);
    for page in storage.chunks_mut(256) {
        match rng.below(2 + sparse) {
            0 => fill(rng, page),
            1 => {
                let at = rng.pick(&[0, 255, rng.state as usize % 256]);
                page[at % page.len()] = 1 + rng.below(255) as u8;
            }
            _ => (),
        }
    }
    (m, storage)
}

pub fn valid_deck(rng: &mut Rng, size: usize) -> Vec<u8> {
    let (m, storage) = for_deck(rng, size);
    let model = Model::sound();
    let mut deck = vec![0; model.deck_length(&m, &storage)];
    model.write(&m, &storage, &mut deck);
    deck
}

/// The places where a deck's records begin.
fn record_starts(deck: &[u8]) -> Vec<usize> {
    let mut starts = vec![];
    let mut at = 0;
    while at < deck.len() {
        starts.push(at);
        at += match deck[at] {
            1 => 19,
            2 => 258,
            _ => 1,
        };
    }
    starts
}

/// One damage to a deck.
pub fn damage(rng: &mut Rng, deck: &mut Vec<u8>) {
    let starts = record_starts(deck);
    if starts.is_empty() {
        return;
    }
    let start = rng.pick(&starts);
    let pages: Vec<usize> = starts.iter().copied().filter(|s| deck[*s] == 2 && s + 258 <= deck.len()).collect();
    match rng.below(16) {
        0 => deck.truncate(rng.below(deck.len() + 1)),
        1 => deck.truncate(start),
        2 => deck.truncate((start + 1 + rng.below(18)).min(deck.len())),
        3 => deck[start] = rng.pick(&[0, 1, 2, 3, 4, 0x80, 0xFF]),
        4 => deck[0] = rng.pick(&[0, 2, 3, 4]),
        5 if !pages.is_empty() => {
            let page = rng.pick(&pages);
            deck[page + 1] = if rng.one_in(2) { rng.byte() } else { deck[1].wrapping_add(rng.below(3) as u8) };
        }
        6 if !pages.is_empty() => {
            let page = rng.pick(&pages);
            deck[page + 2..page + 258].fill(0);
        }
        7 if !pages.is_empty() => {
            // a page twice, or out of its order
            let page = rng.pick(&pages);
            let record = deck[page..page + 258].to_vec();
            let before = rng.pick(&starts);
            let rest = deck.split_off(before);
            deck.extend(record);
            deck.extend(rest);
        }
        8 if pages.len() > 1 => {
            let (a, b) = (pages[0], pages[1]);
            for i in 0..258 {
                deck.swap(a + i, b + i);
            }
        }
        9 => deck.extend((0..1 + rng.below(4)).map(|_| 3)),
        10 => {
            let tail = 1 + rng.below(300);
            for _ in 0..tail {
                let byte = rng.byte();
                deck.push(byte);
            }
        }
        11 if deck.len() > 18 => deck[18] |= rng.pick(&[0x80, 0x40, 0xC0]),
        12 if deck.len() > 1 => deck[1] = if rng.one_in(2) { rng.byte() } else { deck[1].wrapping_add(1) },
        13 => {
            // a later 01
            let record = deck[..19.min(deck.len())].to_vec();
            let rest = deck.split_off(start);
            deck.extend(record);
            deck.extend(rest);
        }
        14 => {
            let at = rng.below(deck.len());
            deck[at] = rng.byte();
        }
        _ => {
            deck.remove(rng.below(deck.len()));
        }
    }
}
