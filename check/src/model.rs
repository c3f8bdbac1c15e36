//! The model: the machine of document 01 in the plainest Rust, one function an instruction.
//!
//! It is written from the paper alone. A comment in quotation marks is a sentence of document
//! 01; "page" means the instruction's page in document 001, which decides where it gives another
//! opcode, code or status setting; "decision" is one of the project's for what the paper leaves
//! open. Each `self.is(Fault::..)` is a deliberate fault and off in the model proper.

use crate::faults::Fault;

/// "The registers are IAR, ARR, XR1, XR2 and the work registers WR4 to WR7, 16 bits each".
#[derive(Clone, Copy, PartialEq, Eq, Debug, Default)]
pub struct Machine {
    pub iar: u16,
    pub arr: u16,
    pub xr1: u16,
    pub xr2: u16,
    pub wr: [u16; 4],
    pub status: u8,
}

/// "2 binary overflow, 3 test false, 4 decimal overflow, 5 high, 6 low, 7 equal", bits counted
/// from the left.
pub const BINARY_OVERFLOW: u8 = 0x20;
pub const TEST_FALSE: u8 = 0x10;
pub const DECIMAL_OVERFLOW: u8 = 0x08;
pub const HIGH: u8 = 0x04;
pub const LOW: u8 = 0x02;
pub const EQUAL: u8 = 0x01;

/// "a run with a step budget of 0 to 16,777,216"
pub const BUDGET_LIMIT: u32 = 16_777_216;

#[derive(Clone, Copy, PartialEq, Eq, Debug)]
pub struct Stepped {
    pub number: u8,
    pub q: u8,
    pub r: u8,
}

#[derive(Clone, Copy, PartialEq, Eq, Debug)]
pub struct Ended {
    pub number: u8,
    pub q: u8,
    pub r: u8,
    pub steps: u32,
}

#[derive(Clone, Copy, PartialEq, Eq, Debug)]
pub struct Written {
    pub number: u8,
    pub length: usize,
}

/// What one step touched: its reads and writes by document 01's list, and what it was.
#[derive(Clone, Default, Debug)]
pub struct Trace {
    pub reads: Vec<usize>,
    pub writes: Vec<usize>,
    /// The opcode, where the byte at IAR is in storage.
    pub opcode: Option<u8>,
    /// The Q byte, where the instruction is wholly in storage.
    pub q: Option<u8>,
    /// IAR and the instruction's length, where it is wholly in storage.
    pub instruction: Option<(usize, usize)>,
    /// First and last address the operands would have, also where they lie outside.
    pub operand1: Option<(i64, i64)>,
    pub operand2: Option<(i64, i64)>,
    /// Whether a base plus displacement passed 65,536.
    pub wrapped1: bool,
    pub wrapped2: bool,
}

impl Trace {
    fn clear(&mut self) {
        self.reads.clear();
        self.writes.clear();
        self.opcode = None;
        self.q = None;
        self.instruction = None;
        self.operand1 = None;
        self.operand2 = None;
        self.wrapped1 = false;
        self.wrapped2 = false;
    }

    fn reads_field(&mut self, field: Field) {
        self.reads.extend(field.first..=field.last);
    }
}

/// An operand that lies in storage: its first and last address.
#[derive(Clone, Copy, PartialEq, Eq, Debug)]
pub struct Field {
    pub first: usize,
    pub last: usize,
}

impl Field {
    fn length(self) -> usize {
        self.last - self.first + 1
    }

    /// The address of the byte that is `i` places left of the rightmost.
    fn right_but(self, i: usize) -> usize {
        self.last - i
    }
}

/// The instruction in hand: Q and the addresses of its operands.
#[derive(Clone, Copy)]
struct Instruction {
    q: u8,
    address1: usize,
    address2: usize,
    next: u16,
}

/// The address that IAR takes, or the number of the stop.
type Outcome = Result<u16, u8>;

/// The machine that the model steps, with its storage and the trace of the step.
struct At<'a> {
    m: &'a mut Machine,
    storage: &'a mut [u8],
    t: &'a mut Trace,
}

impl At<'_> {
    fn put(&mut self, address: usize, byte: u8) {
        self.storage[address] = byte;
        self.t.writes.push(address);
    }

    /// "Setting equal, low or high clears the other two; what isn't named stays."
    fn set_order(&mut self, bit: u8) {
        self.m.status = (self.m.status & !(HIGH | LOW | EQUAL)) | bit;
    }

    fn set_binary_overflow(&mut self, carry: bool) {
        self.m.status &= !BINARY_OVERFLOW;
        if carry {
            self.m.status |= BINARY_OVERFLOW;
        }
    }
}

/// What a Q code of ST, L, A, S or LA names.
#[derive(Clone, Copy, PartialEq, Eq)]
enum Register {
    Xr1,
    Xr2,
    Status,
    Arr,
    Wr(usize),
}

/// "01 XR1, 02 XR2, 04 status, 08 ARR, 44 to 47 WR4 to WR7"
fn register_of(q: u8) -> Option<Register> {
    match q {
        0x01 => Some(Register::Xr1),
        0x02 => Some(Register::Xr2),
        0x04 => Some(Register::Status),
        0x08 => Some(Register::Arr),
        0x44..=0x47 => Some(Register::Wr(q as usize - 0x44)),
        _ => None,
    }
}

/// "Main storage is a lent buffer of 256 to 65,536 bytes, a multiple of 256".
pub fn size_allowed(size: usize) -> bool {
    (256..=65_536).contains(&size) && size % 256 == 0
}

/// "Bits 0 and 1 are always zero".
pub fn status_allowed(status: u8) -> bool {
    status & 0xC0 == 0
}

/// "The left digit of the opcode gives base and length": the length of a known opcode.
pub fn instruction_length(opcode: u8) -> Option<usize> {
    let left = opcode >> 4;
    let right = opcode & 0x0F;
    let known = match left {
        // two-address: 4, 6, 7, 8, A, B, C, D, E, F
        0 | 1 | 2 | 4 | 5 | 6 | 8 | 9 | 0xA => !matches!(right, 0..=3 | 5 | 9),
        // one-address: 4 to D and F; E is SRC, "not in the base"
        3 | 7 | 0xB => matches!(right, 4..=0xD | 0xF),
        // "C0/D0/E0 BC", "C2/D2/E2 LA"
        0xC..=0xE => matches!(right, 0 | 2),
        // "F2 JC", "F4 SVC"; F0 BC by its page, F1 JC by its page
        _ => matches!(right, 0 | 1 | 2 | 4),
    };
    if !known {
        return None;
    }
    match left {
        0 => Some(6),
        1 | 2 => Some(5),
        4 | 8 => Some(5),
        5 | 6 => Some(4),
        9 | 0xA => Some(4),
        3 => Some(4),
        7 | 0xB => Some(3),
        0xC => Some(4),
        0xD | 0xE => Some(3),
        _ => Some(3),
    }
}

/// "Value: the right half of each byte is a digit": from the left, or none if one is above 9.
fn digits_of(storage: &[u8], field: Field) -> Option<Vec<u8>> {
    let mut digits = Vec::with_capacity(field.length());
    for address in field.first..=field.last {
        let digit = storage[address] & 0x0F;
        if digit > 9 {
            return None;
        }
        digits.push(digit);
    }
    Some(digits)
}

/// "digit above 9 in a zoned operand"
fn has_bad_digit(storage: &[u8], field: Field) -> bool {
    digits_of(storage, field).is_none()
}

/// "1 to 9": the bytes that end ITC's scan are F1 to F9.
fn is_significant(byte: u8) -> bool {
    (0xF1..=0xF9).contains(&byte)
}

pub struct Model {
    pub fault: Fault,
}

impl Model {
    /// The model proper.
    pub fn sound() -> Model {
        Model { fault: Fault::None }
    }

    fn is(&self, fault: Fault) -> bool {
        self.fault == fault
    }

    // ---------------------------------------------------------------- step and run

    /// "Order at entry of step and run: 1, 2 (run only), 3."
    pub fn step(&self, m: &mut Machine, storage: &mut [u8], t: &mut Trace) -> Stepped {
        t.clear();
        if let Some(number) = self.refused_at_entry(m, storage.len(), 0) {
            return Stepped { number, q: 0, r: 0 };
        }
        self.one_step(m, storage, t)
    }

    /// "The run returns its count of executed steps; a stopped instruction isn't counted."
    pub fn run(&self, m: &mut Machine, storage: &mut [u8], budget: u32) -> Ended {
        self.run_watched(m, storage, budget, &mut |_, _| ())
    }

    /// The run, telling each step's trace and answer, the stopped one's too.
    pub fn run_watched(
        &self,
        m: &mut Machine,
        storage: &mut [u8],
        budget: u32,
        watch: &mut dyn FnMut(&Trace, Stepped),
    ) -> Ended {
        if let Some(number) = self.refused_at_entry(m, storage.len(), budget) {
            return Ended { number, q: 0, r: 0, steps: 0 };
        }
        let allowed = if self.is(Fault::RunsOneStepMore) { budget + 1 } else { budget };
        let mut t = Trace::default();
        let mut steps = 0;
        // "The budget is tested before each fetch, so a run of budget 0 returns 0 and 0 steps."
        while steps < allowed {
            let stepped = self.one_step(m, storage, &mut t);
            watch(&t, stepped);
            if stepped.number != 0 {
                if self.is(Fault::StoppedStepCounted) {
                    steps += 1;
                }
                return Ended { number: stepped.number, q: stepped.q, r: stepped.r, steps };
            }
            steps += 1;
        }
        Ended { number: 0, q: 0, r: 0, steps }
    }

    fn refused_at_entry(&self, m: &Machine, size: usize, budget: u32) -> Option<u8> {
        let bad_status = !status_allowed(m.status);
        if self.is(Fault::StatusBeforeSize) && bad_status {
            return Some(3);
        }
        if !size_allowed(size) && !(self.is(Fault::StepSizeUnchecked) && size <= 65_536) {
            return Some(1);
        }
        if self.is(Fault::StatusBeforeBudget) && bad_status {
            return Some(3);
        }
        let limit = match self.fault {
            Fault::BudgetLimitOneLess => BUDGET_LIMIT - 1,
            Fault::BudgetLimitOneMore => BUDGET_LIMIT + 1,
            _ => BUDGET_LIMIT,
        };
        if budget > limit {
            return Some(2);
        }
        if bad_status {
            return Some(3);
        }
        None
    }

    /// "Order in a step: IAR at or past the storage size 4; opcode 5; later instruction bytes 4;
    /// 6; 7; 8; 9."
    fn one_step(&self, m: &mut Machine, storage: &mut [u8], t: &mut Trace) -> Stepped {
        t.clear();
        let before = *m;
        let outcome = self.fetch_and_execute(&mut At { m, storage, t });
        let number = match outcome {
            Ok(next) => {
                m.iar = next;
                return Stepped { number: 0, q: 0, r: 0 };
            }
            Err(number) => number,
        };
        // "Numbers 1 to 9 change no register or byte"; "IAR stays at the stopped instruction."
        *m = before;
        if !self.is(Fault::WritesOnStop) {
            t.writes.clear();
        }
        let iar = m.iar as usize;
        if self.is(Fault::StopAdvancesIar) && number == 9 {
            m.iar = m.iar.wrapping_add(3);
        }
        // "9 also returns the Q and R bytes; all other answers return zero for these."
        if number == 9 {
            return Stepped { number, q: storage[iar + 1], r: storage[iar + 2] };
        }
        if self.is(Fault::CallBytesWithSix) && number == 6 {
            return Stepped { number, q: storage[iar + 1], r: 0 };
        }
        Stepped { number, q: 0, r: 0 }
    }

    fn fetch_and_execute(&self, at: &mut At) -> Outcome {
        let size = at.storage.len();
        let iar = at.m.iar as usize;
        // "With IAR outside storage: nothing."
        if iar >= size {
            return Err(4);
        }
        let opcode = at.storage[iar];
        at.t.opcode = Some(opcode);
        // "After 5, or 4 on later bytes: the opcode byte."
        if !self.is(Fault::ReadsNoOpcode) {
            at.t.reads.push(iar);
        }
        if self.is(Fault::OpcodeAfterLaterBytes) && iar + 3 > size {
            return Err(4);
        }
        let Some(length) = instruction_length(opcode) else {
            return Err(5);
        };
        // "an instruction doesn't run round the top"
        if iar + length > size {
            let round = self.is(Fault::InstructionRunsRoundTheTop) && size == 65_536;
            let late = self.is(Fault::LaterBytesAfterQ) && iar + 1 < size;
            if late && self.q_refused(opcode, at.storage[iar + 1]) {
                return Err(6);
            }
            if !round {
                return Err(4);
            }
        }
        let mut text = [0; 6];
        for (i, byte) in text.iter_mut().enumerate().take(length) {
            *byte = at.storage[(iar + i) % size];
            let left_out = match self.fault {
                Fault::ReadsNoQ => i == 1,
                Fault::ReadsNoLastInstructionByte => i == length - 1,
                _ => false,
            };
            // "Otherwise all instruction bytes"
            if i > 0 && !left_out {
                at.t.reads.push((iar + i) % size);
            }
        }
        at.t.q = Some(text[1]);
        at.t.instruction = Some((iar, length));
        // "The address after an instruction and a jump's target are also taken modulo 65,536"
        let next = if self.is(Fault::NextNotModulo) {
            at.m.iar.saturating_add(length as u16)
        } else {
            at.m.iar.wrapping_add(length as u16)
        };
        match opcode >> 4 {
            0xF => self.jump_or_call(at, opcode, &text, next),
            0xC..=0xE => self.branch_or_load_address(at, opcode, &text, next),
            3 | 7 | 0xB => self.one_address(at, opcode, &text, next),
            _ => self.two_address(at, opcode, &text, next),
        }
    }

    /// Used by a fault only: whether the Q byte is refused whatever else holds.
    fn q_refused(&self, opcode: u8, q: u8) -> bool {
        match (opcode >> 4, opcode & 0x0F) {
            (3 | 7 | 0xB, 4 | 5) => register_of(q).is_none(),
            (3 | 7 | 0xB, 6 | 7) => register_of(q).is_none() || q == 4,
            (0xC..=0xE, 2) => !matches!(q, 1 | 2 | 0x44..=0x47),
            (0 | 1 | 2 | 4 | 5 | 6 | 8 | 9 | 0xA, 8) => q > 3,
            _ => false,
        }
    }

    // ---------------------------------------------------------------- addresses

    /// "A direct address is two bytes, high first".
    fn direct(&self, high: u8, low: u8) -> usize {
        high as usize * 256 + low as usize
    }

    /// "a displacement is one unsigned byte. A base plus displacement is taken modulo 65,536".
    fn based(&self, base: u16, displacement: u8, wrapped: &mut bool) -> usize {
        let sum = base as usize + displacement as usize;
        *wrapped = sum >= 65_536;
        if self.is(Fault::BaseNotModulo) {
            return sum;
        }
        sum % 65_536
    }

    /// "Operands are addressed by their rightmost byte and reach left"; "An operand that would
    /// pass below 0000 or reach the storage size stops with 7."
    fn reach_left(&self, address: usize, length: usize, size: usize) -> Result<Field, u8> {
        if address >= size {
            return Err(7);
        }
        if self.is(Fault::TopByteOutside) && address == size - 1 {
            return Err(7);
        }
        if address + 1 < length {
            if self.is(Fault::OneBelowBottomWraps) && length <= size {
                return Ok(Field { first: 0, last: length - 1 });
            }
            return Err(7);
        }
        Ok(Field { first: address + 1 - length, last: address })
    }

    /// "operand 1 of ITC alone by its leftmost"
    fn reach_right(&self, address: usize, length: usize, size: usize) -> Result<Field, u8> {
        if address + length > size {
            return Err(7);
        }
        Ok(Field { first: address, last: address + length - 1 })
    }

    fn operand1(&self, at: &mut At, address: usize, length: usize) -> Result<Field, u8> {
        at.t.operand1 = Some((address as i64 + 1 - length as i64, address as i64));
        self.reach_left(address, length, at.storage.len())
    }

    fn operand2(&self, at: &mut At, address: usize, length: usize) -> Result<Field, u8> {
        at.t.operand2 = Some((address as i64 + 1 - length as i64, address as i64));
        self.reach_left(address, length, at.storage.len())
    }

    fn reads_operand1(&self, at: &mut At, field: Field) {
        if !self.is(Fault::ReadsNoOperand1) {
            at.t.reads_field(field);
        }
    }

    fn reads_operand2(&self, at: &mut At, field: Field) {
        if !self.is(Fault::ReadsNoOperand2) {
            at.t.reads_field(field);
        }
    }

    // ---------------------------------------------------------------- two addresses

    fn two_address(&self, at: &mut At, opcode: u8, text: &[u8; 6], next: u16) -> Outcome {
        let (xr1, xr2) = (at.m.xr1, at.m.xr2);
        let (mut wrapped1, mut wrapped2) = (false, false);
        let (address1, address2) = match opcode >> 4 {
            // "0 | both direct | 6"
            0 => (self.direct(text[2], text[3]), self.direct(text[4], text[5])),
            // "1, 2 | direct, then displacement from XR1 / XR2 | 5"
            1 => (self.direct(text[2], text[3]), self.based(xr1, text[4], &mut wrapped2)),
            2 => (self.direct(text[2], text[3]), self.based(xr2, text[4], &mut wrapped2)),
            // "4, 8 | displacement from XR1 / XR2, then direct | 5"
            4 => (self.based(xr1, text[2], &mut wrapped1), self.direct(text[3], text[4])),
            8 => (self.based(xr2, text[2], &mut wrapped1), self.direct(text[3], text[4])),
            // "5, 6 | both by displacement: XR1 with XR1 / XR2 | 4"
            5 => (self.based(xr1, text[2], &mut wrapped1), self.based(xr1, text[3], &mut wrapped2)),
            6 => (self.based(xr1, text[2], &mut wrapped1), self.based(xr2, text[3], &mut wrapped2)),
            // "9, A | both by displacement: XR2 with XR1 / XR2 | 4"
            9 => (self.based(xr2, text[2], &mut wrapped1), self.based(xr1, text[3], &mut wrapped2)),
            _ => (self.based(xr2, text[2], &mut wrapped1), self.based(xr2, text[3], &mut wrapped2)),
        };
        at.t.wrapped1 = wrapped1;
        at.t.wrapped2 = wrapped2;
        let i = Instruction { q: text[1], address1, address2, next };
        match opcode & 0x0F {
            0x4 => self.zaz(at, i),
            0x6 => self.az_or_sz(at, i, false),
            0x7 => self.az_or_sz(at, i, true),
            0x8 => self.mvx(at, i),
            0xA => self.ed(at, i),
            0xB => self.itc(at, i),
            0xC => self.mvc(at, i),
            0xD => self.clc(at, i),
            0xE => self.alc(at, i),
            _ => self.slc(at, i),
        }
    }

    /// "Q: left digit L1-L2, right digit L2-1; so L2 is 1 to 16 and L1 1 to 31."
    fn zoned_lengths(&self, q: u8) -> (usize, usize) {
        let l2 = (q & 0x0F) as usize + 1;
        let l1 = (q >> 4) as usize + l2;
        (l1, l2)
    }

    /// The exact value of a zoned operand; "zone D in the rightmost byte means minus, every other
    /// zone plus". At most 31 digits, so below 10 to the 31.
    fn zoned_value(&self, storage: &[u8], field: Field, digits: &[u8]) -> i128 {
        let mut size: i128 = 0;
        for digit in digits {
            size = size * 10 + *digit as i128;
        }
        if self.is(Fault::ZonedSizeIn64Bits) {
            size = size as u64 as i128;
        }
        let zone = storage[field.last] >> 4;
        let minus = zone == 0xD || (self.is(Fault::ZoneBIsMinus) && zone == 0xB);
        if minus {
            return -size;
        }
        size
    }

    /// Puts a zoned result into operand 1 and sets the status.
    fn put_zoned(&self, at: &mut At, field: Field, exact: i128) {
        let l1 = field.length();
        let modulus = 10_i128.pow(l1 as u32);
        let size = exact.abs();
        // "If the size of the result is 10 to the L1 or more, decimal overflow goes on and the
        // size is cut modulo 10 to the L1."; "Decimal overflow is never turned off here."
        if self.is(Fault::AzTurnsDecimalOverflowOff) {
            at.m.status &= !DECIMAL_OVERFLOW;
        }
        if size >= modulus && !self.is(Fault::ZonedOverflowLost) {
            at.m.status |= DECIMAL_OVERFLOW;
        }
        let cut = size % modulus;
        // "Zones are F; the rightmost is D if the exact result was negative and the cut size
        // isn't zero."
        let minus = exact < 0 && (cut != 0 || self.is(Fault::MinusZeroLeft));
        let mut rest = cut;
        for i in 0..l1 {
            let digit = (rest % 10) as u8;
            rest /= 10;
            let zone = if i == 0 && minus { 0xD0 } else { 0xF0 };
            let address = field.right_but(i);
            if self.is(Fault::ZonesKept) && i > 0 {
                let kept = at.storage[address] & 0xF0;
                at.put(address, kept | digit);
                continue;
            }
            at.put(address, zone | digit);
        }
        // "Equal, low, high by the cut result being zero, minus, plus."
        let judged = if self.is(Fault::ZonedOrderByExactResult) { size } else { cut };
        if judged == 0 {
            at.set_order(EQUAL);
        } else if exact < 0 {
            at.set_order(LOW);
        } else {
            at.set_order(HIGH);
        }
    }

    /// "ZAZ puts operand 2's value in operand 1"
    fn zaz(&self, at: &mut At, i: Instruction) -> Outcome {
        let (l1, l2) = self.zoned_lengths(i.q);
        if self.is(Fault::EightBeforeSeven) {
            self.eight_first(at, i.address2, l2)?;
        }
        let field1 = self.operand1(at, i.address1, l1);
        let field2 = self.operand2(at, i.address2, l2);
        let (field1, field2) = (field1?, field2?);
        // "Operand 1 of ZAZ isn't read, so not tested for digits."
        if !self.is(Fault::ReadsNothingOnEight) {
            self.reads_operand2(at, field2);
        }
        if self.is(Fault::WritesOnStop) {
            at.t.writes.extend(field1.first..=field1.last);
        }
        let Some(digits2) = digits_of(at.storage, field2) else {
            return Err(8);
        };
        if self.is(Fault::ReadsNothingOnEight) {
            self.reads_operand2(at, field2);
        }
        if self.is(Fault::ZazTestsOperand1) && has_bad_digit(at.storage, field1) {
            return Err(8);
        }
        let value2 = self.zoned_value(at.storage, field2, &digits2);
        let minus2 = at.storage[field2.last] >> 4 == 0xD;
        // "Both operands are read whole before anything is written"
        self.put_zoned(at, field1, value2);
        if self.is(Fault::SignOfOperandLeft) && minus2 {
            at.storage[field1.last] = 0xD0 | (at.storage[field1.last] & 0x0F);
        }
        if self.is(Fault::ZazByteByByte) && l1 > l2 && field2.last < field1.last {
            for k in 0..l2 {
                let digit = at.storage[field2.right_but(k)] & 0x0F;
                let address = field1.right_but(k);
                at.storage[address] = (at.storage[address] & 0xF0) | digit;
            }
        }
        Ok(i.next)
    }

    /// "AZ adds, SZ subtracts operand 2."
    fn az_or_sz(&self, at: &mut At, i: Instruction, subtract: bool) -> Outcome {
        let (l1, l2) = self.zoned_lengths(i.q);
        if self.is(Fault::EightBeforeSeven) {
            self.eight_first(at, i.address2, l2)?;
        }
        let field1 = self.operand1(at, i.address1, l1);
        let field2 = self.operand2(at, i.address2, l2);
        let (field1, field2) = (field1?, field2?);
        if !self.is(Fault::ReadsNothingOnEight) {
            self.reads_operand1(at, field1);
            self.reads_operand2(at, field2);
        }
        let Some(digits1) = digits_of(at.storage, field1) else {
            return Err(8);
        };
        let Some(digits2) = digits_of(at.storage, field2) else {
            return Err(8);
        };
        if self.is(Fault::ReadsNothingOnEight) {
            self.reads_operand1(at, field1);
            self.reads_operand2(at, field2);
        }
        let value1 = self.zoned_value(at.storage, field1, &digits1);
        let value2 = self.zoned_value(at.storage, field2, &digits2);
        let exact = if subtract && !self.is(Fault::SzAdds) { value1 - value2 } else { value1 + value2 };
        self.put_zoned(at, field1, exact);
        // decision: ARR stays, though the page leaves unusable data there
        if self.is(Fault::AzChangesArr) {
            at.m.arr = i.address1 as u16;
        }
        Ok(i.next)
    }

    /// Used by a fault only: the digits of operand 2 tested before the addresses of operand 1.
    fn eight_first(&self, at: &At, address2: usize, l2: usize) -> Result<(), u8> {
        let field2 = self.reach_left(address2, l2, at.storage.len())?;
        if has_bad_digit(at.storage, field2) {
            return Err(8);
        }
        Ok(())
    }

    /// "Q 00 zone to zone, 01 digit of operand 2 to zone of operand 1, 02 zone to digit, 03 digit
    /// to digit; other Q stop with 6."
    fn mvx(&self, at: &mut At, i: Instruction) -> Outcome {
        let high_q_allowed = self.is(Fault::MvxHighQAllowed);
        let early_seven = self.is(Fault::SevenBeforeSix);
        let size = at.storage.len();
        if i.q > 3 && !high_q_allowed {
            if early_seven && (i.address1 >= size || i.address2 >= size) {
                return Err(7);
            }
            return Err(6);
        }
        let field1 = self.operand1(at, i.address1, 1);
        let field2 = self.operand2(at, i.address2, 1);
        let (field1, field2) = (field1?, field2?);
        self.reads_operand1(at, field1);
        self.reads_operand2(at, field2);
        let byte1 = at.storage[field1.last];
        let byte2 = at.storage[field2.last];
        let q = match i.q & 3 {
            1 if self.is(Fault::MvxCrossed) => 2,
            2 if self.is(Fault::MvxCrossed) => 1,
            q => q,
        };
        let result = match q {
            0 => (byte2 & 0xF0) | (byte1 & 0x0F),
            1 => (byte2 << 4) | (byte1 & 0x0F),
            2 => (byte1 & 0xF0) | (byte2 >> 4),
            _ => (byte1 & 0xF0) | (byte2 & 0x0F),
        };
        at.put(field1.last, result);
        Ok(i.next)
    }

    /// "Each byte 20 in operand 1, from the right, takes the next digit of operand 2 from the
    /// right with zone F."
    fn ed(&self, at: &mut At, i: Instruction) -> Outcome {
        let l1 = i.q as usize + 1;
        if self.is(Fault::EdPatternAfterOperand2) {
            self.ed_operand2_first(at, i, l1)?;
        }
        // "Within ED the pattern is checked for 7 first, then operand 2."
        let pattern = self.operand1(at, i.address1, l1)?;
        // "Operand 2 is as long as the count of 20s; with none, it isn't read or checked."
        let count = (pattern.first..=pattern.last).filter(|a| at.storage[*a] == 0x20).count();
        if count == 0 && !self.is(Fault::EdEmptyChecked) {
            self.reads_operand1(at, pattern);
            // "equal where it is empty"
            if !self.is(Fault::EdEmptyKeepsStatus) {
                at.set_order(EQUAL);
            }
            return Ok(i.next);
        }
        // "ED stopped with 7 on operand 2 has read the pattern."
        if !self.is(Fault::ReadsNoEdPatternOnSeven) {
            self.reads_operand1(at, pattern);
        }
        let field2 = self.operand2(at, i.address2, count.max(1))?;
        if self.is(Fault::ReadsNoEdPatternOnSeven) {
            self.reads_operand1(at, pattern);
        }
        if !self.is(Fault::ReadsNothingOnEight) {
            self.reads_operand2(at, field2);
        }
        if count == 0 {
            at.set_order(EQUAL);
            return Ok(i.next);
        }
        // decision: operand 2 is a zoned operand, so a digit above 9 stops with 8
        let Some(digits) = digits_of(at.storage, field2) else {
            return Err(8);
        };
        if self.is(Fault::ReadsNothingOnEight) {
            self.reads_operand2(at, field2);
        }
        let zero = digits.iter().all(|digit| *digit == 0);
        let minus = at.storage[field2.last] >> 4 == 0xD;
        let mut taken = 0;
        for k in 0..l1 {
            let address = pattern.right_but(k);
            if at.storage[address] != 0x20 || taken == count {
                continue;
            }
            let mut digit = digits[count - 1 - taken];
            if self.is(Fault::EdReadsAsItWrites) {
                digit = at.storage[field2.right_but(taken)] & 0x0F;
            }
            let mut byte = 0xF0 | digit;
            if self.is(Fault::EdOnlyLastZoneForced) && taken > 0 {
                byte = at.storage[field2.right_but(taken)];
            }
            at.put(address, byte);
            taken += 1;
        }
        // "Status as for the value of operand 2"; decision: a minus zero is equal
        if zero && !(minus && self.is(Fault::EdMinusZeroLow)) {
            at.set_order(EQUAL);
        } else if minus {
            at.set_order(LOW);
        } else {
            at.set_order(HIGH);
        }
        Ok(i.next)
    }

    /// Used by a fault only: operand 2 tested by the 20s that are in storage, then the pattern.
    fn ed_operand2_first(&self, at: &At, i: Instruction, l1: usize) -> Result<(), u8> {
        let size = at.storage.len();
        let inside = (0..l1).filter(|k| *k <= i.address1 && i.address1 - k < size);
        let count = inside.filter(|k| at.storage[i.address1 - k] == 0x20).count();
        if count == 0 {
            return Ok(());
        }
        let field2 = self.reach_left(i.address2, count, size)?;
        if has_bad_digit(at.storage, field2) {
            return Err(8);
        }
        Ok(())
    }

    /// "Operand 2 is one byte, read first. From the left, bytes other than F1 to F9 become that
    /// byte until one of F1 to F9 is met."
    fn itc(&self, at: &mut At, i: Instruction) -> Outcome {
        let l1 = i.q as usize + 1;
        let size = at.storage.len();
        at.t.operand1 = Some((i.address1 as i64, i.address1 as i64 + l1 as i64 - 1));
        // decision: the whole field is tested for 7 before the scan
        let field1 = if self.is(Fault::ItcFieldReachesLeft) {
            self.reach_left(i.address1, l1, size)
        } else if self.is(Fault::TopByteOutside) && i.address1 + l1 == size {
            Err(7)
        } else {
            self.reach_right(i.address1, l1, size)
        };
        let field2 = self.operand2(at, i.address2, 1);
        let (field1, field2) = (field1?, field2?);
        self.reads_operand2(at, field2);
        let fill = at.storage[field2.last];
        // "ARR gets that byte's address or, if none, the address after the field modulo 65,536."
        let mut end = field1.last + 1;
        for address in field1.first..=field1.last {
            let byte = at.storage[address];
            let ends = is_significant(byte) || (self.is(Fault::ItcZeroEnds) && byte == 0xF0);
            // read: "of ITC's operand 1" not "the bytes right of the one that ended the scan"
            if !(ends && self.is(Fault::ReadsNoItcEnd)) && !self.is(Fault::ReadsNoOperand1) {
                at.t.reads.push(address);
            }
            if ends {
                end = address;
                break;
            }
            // written: "in ITC the bytes before the one that ended the scan"
            at.put(address, fill);
        }
        if self.is(Fault::WritesWholeItcField) {
            at.t.writes.extend(field1.first..=field1.last);
        }
        if self.is(Fault::ItcOneOff) && end == field1.last + 1 {
            end -= 1;
        }
        at.m.arr = if self.is(Fault::ItcEndNotModulo) && end == 65_536 { 65_535 } else { (end % 65_536) as u16 };
        Ok(i.next)
    }

    /// "Q is L-1, both operands equally long, taken byte by byte from the right."
    fn equal_fields(&self, at: &mut At, i: Instruction) -> Result<(Field, Field), u8> {
        let l = i.q as usize + 1;
        let field1 = self.operand1(at, i.address1, l);
        let field2 = self.operand2(at, i.address2, l);
        Ok((field1?, field2?))
    }

    fn mvc(&self, at: &mut At, i: Instruction) -> Outcome {
        let (field1, field2) = self.equal_fields(at, i)?;
        self.reads_operand2(at, field2);
        let before = at.storage[field2.first..=field2.last].to_vec();
        for k in 0..field1.length() {
            let mut byte = at.storage[field2.right_but(k)];
            if self.is(Fault::MvcBlock) {
                byte = before[before.len() - 1 - k];
            }
            at.put(field1.right_but(k), byte);
        }
        Ok(i.next)
    }

    /// "CLC compares unsigned."
    fn clc(&self, at: &mut At, i: Instruction) -> Outcome {
        let (field1, field2) = self.equal_fields(at, i)?;
        self.reads_operand1(at, field1);
        self.reads_operand2(at, field2);
        for k in (0..field1.length()).rev() {
            let byte1 = at.storage[field1.right_but(k)];
            let byte2 = at.storage[field2.right_but(k)];
            if byte1 == byte2 {
                continue;
            }
            let below = if self.is(Fault::ClcSigned) { (byte1 as i8) < byte2 as i8 } else { byte1 < byte2 };
            at.set_order(if below { LOW } else { HIGH });
            return Ok(i.next);
        }
        at.set_order(EQUAL);
        Ok(i.next)
    }

    /// The order and binary overflow that a sum sets: "ALC sets equal, low (no carry, not zero),
    /// high (carry, not zero) and binary overflow as the carry."
    fn set_sum(&self, at: &mut At, zero: bool, carry: bool) {
        if zero && !(carry && self.is(Fault::AlcHighOnZero)) {
            at.set_order(EQUAL);
        } else if carry {
            at.set_order(HIGH);
        } else {
            at.set_order(LOW);
        }
        if self.is(Fault::AlcCarryKept) && !carry {
            return;
        }
        at.set_binary_overflow(carry);
    }

    fn alc(&self, at: &mut At, i: Instruction) -> Outcome {
        let (field1, field2) = self.equal_fields(at, i)?;
        self.reads_operand1(at, field1);
        self.reads_operand2(at, field2);
        let before = at.storage[field2.first..=field2.last].to_vec();
        let mut carry = 0;
        let mut zero = true;
        for k in 0..field1.length() {
            let byte1 = at.storage[field1.right_but(k)];
            let mut byte2 = at.storage[field2.right_but(k)];
            if self.is(Fault::AlcReadsOperand2Whole) {
                byte2 = before[before.len() - 1 - k];
            }
            let sum = byte1 as u32 + byte2 as u32 + carry;
            carry = sum / 256;
            let byte = (sum % 256) as u8;
            zero = zero && byte == 0;
            at.put(field1.right_but(k), byte);
        }
        self.set_sum(at, zero, carry == 1);
        Ok(i.next)
    }

    /// "SLC: equal, low if operand 1 was below operand 2, else high, where an overlap counts
    /// operand 2's bytes as each was taken; binary overflow stays."
    fn slc(&self, at: &mut At, i: Instruction) -> Outcome {
        let (field1, field2) = self.equal_fields(at, i)?;
        self.reads_operand1(at, field1);
        self.reads_operand2(at, field2);
        let before1 = at.storage[field1.first..=field1.last].to_vec();
        let before2 = at.storage[field2.first..=field2.last].to_vec();
        let mut taken2 = Vec::with_capacity(before1.len());
        let mut borrow = 0;
        for k in 0..field1.length() {
            let byte1 = at.storage[field1.right_but(k)];
            let byte2 = at.storage[field2.right_but(k)];
            taken2.insert(0, byte2);
            let difference = byte1 as i32 - byte2 as i32 - borrow;
            borrow = if difference < 0 { 1 } else { 0 };
            at.put(field1.right_but(k), (difference & 0xFF) as u8);
        }
        let compared = if self.is(Fault::SlcOrderFromBefore) { before2 } else { taken2 };
        // slices of bytes compare unsigned from the left
        if before1 == compared {
            at.set_order(EQUAL);
        } else if before1 < compared {
            at.set_order(LOW);
        } else {
            at.set_order(HIGH);
        }
        if self.is(Fault::SlcSetsBinaryOverflow) {
            at.set_binary_overflow(borrow == 1);
        }
        Ok(i.next)
    }

    // ---------------------------------------------------------------- one address

    fn one_address(&self, at: &mut At, opcode: u8, text: &[u8; 6], next: u16) -> Outcome {
        let mut wrapped1 = false;
        let address1 = match opcode >> 4 {
            // "3 | one direct | 4"
            3 => self.direct(text[2], text[3]),
            // "7, B | one, displacement from XR1 / XR2 | 3"
            7 => self.based(at.m.xr1, text[2], &mut wrapped1),
            _ => self.based(at.m.xr2, text[2], &mut wrapped1),
        };
        at.t.wrapped1 = wrapped1;
        let i = Instruction { q: text[1], address1, address2: 0, next };
        match opcode & 0x0F {
            0x4 => self.st(at, i),
            0x5 => self.l(at, i),
            0x6 => self.a(at, i),
            0x7 => self.s(at, i),
            0x8 => self.tbn(at, i),
            0x9 => self.tbf(at, i),
            0xA => self.sbn(at, i),
            0xB => self.sbf(at, i),
            0xC => self.mvi(at, i),
            0xD => self.cli(at, i),
            _ => self.sli(at, i),
        }
    }

    fn get(&self, m: &Machine, register: Register) -> u16 {
        match register {
            Register::Xr1 => m.xr1,
            Register::Xr2 => m.xr2,
            Register::Arr => m.arr,
            // "ST of status writes 00 and the status"
            Register::Status => m.status as u16,
            Register::Wr(k) => m.wr[k],
        }
    }

    fn set(&self, m: &mut Machine, register: Register, value: u16) {
        match register {
            Register::Xr1 => m.xr1 = value,
            Register::Xr2 => m.xr2 = value,
            Register::Arr => m.arr = value,
            Register::Status => m.status = self.loaded_status(value as u8),
            Register::Wr(k) if self.is(Fault::WorkRegistersRotated) => m.wr[(k + 1) % 4] = value,
            Register::Wr(k) => m.wr[k] = value,
        }
    }

    /// "L of status takes the rightmost byte with bits 0 and 1 cleared"; the page: "The PSR must
    /// have one, and only one of bits 5, 6, or 7 on", by its table equal, else low, else high.
    fn loaded_status(&self, byte: u8) -> u8 {
        if self.is(Fault::StatusLoadedWhole) {
            return byte;
        }
        if self.is(Fault::StatusOrderNotForced) {
            return byte & 0x3F;
        }
        let kept = byte & (BINARY_OVERFLOW | TEST_FALSE | DECIMAL_OVERFLOW);
        if byte & EQUAL != 0 {
            kept | EQUAL
        } else if byte & LOW != 0 {
            kept | LOW
        } else {
            kept | HIGH
        }
    }

    /// The register that Q names and the two storage bytes it is paired with.
    fn register_and_field(&self, at: &mut At, i: Instruction, status_allowed: bool) -> Result<(Register, Field), u8> {
        let early_seven = self.is(Fault::SevenBeforeSix);
        if early_seven {
            self.operand1(at, i.address1, 2)?;
        }
        // "other codes stop with 6"
        let Some(register) = register_of(i.q) else {
            return Err(6);
        };
        // "A and S refuse 04"
        if register == Register::Status && !status_allowed && !self.is(Fault::AOfStatusAllowed) {
            return Err(6);
        }
        let field = self.operand1(at, i.address1, 2)?;
        Ok((register, field))
    }

    /// The two bytes of L, A and S; decision: both count as read, in L of the status too.
    fn two_bytes(&self, at: &mut At, field: Field) -> u16 {
        if self.is(Fault::ReadsNoRegisterHighByte) {
            at.t.reads.push(field.last);
        } else {
            self.reads_operand1(at, field);
        }
        at.storage[field.first] as u16 * 256 + at.storage[field.last] as u16
    }

    /// "4 ST stores it"
    fn st(&self, at: &mut At, i: Instruction) -> Outcome {
        let (register, field) = self.register_and_field(at, i, true)?;
        let value = self.get(at.m, register);
        let (mut high, mut low) = ((value / 256) as u8, (value % 256) as u8);
        if self.is(Fault::StLowFirst) {
            (high, low) = (low, high);
        }
        at.put(field.last, low);
        if self.is(Fault::StStatusOneByte) && register == Register::Status {
            return Ok(i.next);
        }
        at.put(field.first, high);
        Ok(i.next)
    }

    /// "5 L loads it"
    fn l(&self, at: &mut At, i: Instruction) -> Outcome {
        let (register, field) = self.register_and_field(at, i, true)?;
        let mut value = self.two_bytes(at, field);
        if self.is(Fault::LReadsOneByte) {
            value = (self.get(at.m, register) & 0xFF00) | (value & 0x00FF);
        }
        self.set(at.m, register, value);
        Ok(i.next)
    }

    /// "6 A adds the bytes to it"; "Register sums and differences wrap at 65,536. A sets status
    /// as ALC".
    fn a(&self, at: &mut At, i: Instruction) -> Outcome {
        let (register, field) = self.register_and_field(at, i, false)?;
        let value = self.two_bytes(at, field);
        let sum = self.get(at.m, register) as u32 + value as u32;
        let carry = sum >= 65_536;
        let result = (sum % 65_536) as u16;
        self.set(at.m, register, result);
        if self.is(Fault::ALeavesBinaryOverflow) {
            let kept = at.m.status & BINARY_OVERFLOW;
            self.set_sum(at, result == 0, carry);
            at.m.status = (at.m.status & !BINARY_OVERFLOW) | kept;
            return Ok(i.next);
        }
        self.set_sum(at, result == 0, carry);
        Ok(i.next)
    }

    /// "7 S subtracts them from it"; "S as SLC".
    fn s(&self, at: &mut At, i: Instruction) -> Outcome {
        let (register, field) = self.register_and_field(at, i, false)?;
        let value = self.two_bytes(at, field);
        let before = self.get(at.m, register);
        let result = (before as i32 - value as i32 + 65_536) % 65_536;
        self.set(at.m, register, result as u16);
        if before == value {
            at.set_order(EQUAL);
        } else if before < value {
            at.set_order(LOW);
        } else {
            at.set_order(HIGH);
        }
        if self.is(Fault::SSetsBinaryOverflow) {
            at.set_binary_overflow(before < value);
        }
        Ok(i.next)
    }

    /// "The rest act on one byte"
    fn one_byte(&self, at: &mut At, i: Instruction) -> Result<Field, u8> {
        self.operand1(at, i.address1, 1)
    }

    /// "8 TBN turns test false on if a masked bit is off"
    fn tbn(&self, at: &mut At, i: Instruction) -> Outcome {
        let field = self.one_byte(at, i)?;
        self.reads_operand1(at, field);
        let byte = at.storage[field.last];
        if self.is(Fault::TbnTurnsOff) {
            at.m.status &= !TEST_FALSE;
        }
        if byte & i.q != i.q {
            at.m.status |= TEST_FALSE;
        }
        Ok(i.next)
    }

    /// "9 TBF if a masked bit is on"
    fn tbf(&self, at: &mut At, i: Instruction) -> Outcome {
        let field = self.one_byte(at, i)?;
        self.reads_operand1(at, field);
        let byte = at.storage[field.last];
        let on = if self.is(Fault::TbfTestsOff) { byte & i.q == i.q } else { byte & i.q != 0 };
        if on {
            at.m.status |= TEST_FALSE;
        }
        Ok(i.next)
    }

    /// "A SBN": the page turns on the operand's bits that the mask has on.
    fn sbn(&self, at: &mut At, i: Instruction) -> Outcome {
        let field = self.one_byte(at, i)?;
        self.reads_operand1(at, field);
        let byte = at.storage[field.last];
        at.put(field.last, byte | i.q);
        Ok(i.next)
    }

    /// "B SBF": the page turns off the operand's bits that the mask has on.
    fn sbf(&self, at: &mut At, i: Instruction) -> Outcome {
        let field = self.one_byte(at, i)?;
        self.reads_operand1(at, field);
        let byte = at.storage[field.last];
        let result = if self.is(Fault::SbfFlips) { byte ^ i.q } else { byte & !i.q };
        at.put(field.last, result);
        Ok(i.next)
    }

    /// "C MVI"; its operand isn't read
    fn mvi(&self, at: &mut At, i: Instruction) -> Outcome {
        let field = self.one_byte(at, i)?;
        at.put(field.last, i.q);
        if self.is(Fault::WritesNoMvi) {
            at.t.writes.clear();
        }
        Ok(i.next)
    }

    /// "D CLI, unsigned"
    fn cli(&self, at: &mut At, i: Instruction) -> Outcome {
        let field = self.one_byte(at, i)?;
        self.reads_operand1(at, field);
        let byte = at.storage[field.last];
        let below = if self.is(Fault::CliSigned) { (byte as i8) < i.q as i8 } else { byte < i.q };
        if byte == i.q {
            at.set_order(EQUAL);
        } else if below {
            at.set_order(LOW);
        } else {
            at.set_order(HIGH);
        }
        Ok(i.next)
    }

    /// "F SLI, status as SLC"
    fn sli(&self, at: &mut At, i: Instruction) -> Outcome {
        let field = self.one_byte(at, i)?;
        self.reads_operand1(at, field);
        let byte = at.storage[field.last];
        let result = (byte as i32 - i.q as i32 + 256) % 256;
        at.put(field.last, result as u8);
        if byte == i.q {
            at.set_order(EQUAL);
        } else if byte < i.q {
            at.set_order(LOW);
        } else {
            at.set_order(HIGH);
        }
        if self.is(Fault::SliAddsOverflow) {
            at.set_binary_overflow(byte < i.q);
        }
        Ok(i.next)
    }

    // ---------------------------------------------------------------- branches and jumps

    /// "Q bits 2 to 7 pick status bits. Q bit 0 on: branch if any picked bit is on; off: branch if
    /// all are off. A picked test false or decimal overflow is then turned off."
    fn condition(&self, at: &mut At, q: u8) -> bool {
        let picked = q & 0x3F;
        let on = at.m.status & picked;
        let mut taken = if q & 0x80 != 0 { on != 0 } else { on == 0 };
        if self.is(Fault::NothingPickedNeverBranches) && picked == 0 {
            taken = false;
        }
        // the page: "Turned off if tested", whether or not the branch is taken
        if self.is(Fault::TurnedOffOnBranchOnly) && !taken {
            return taken;
        }
        let mut turned_off = picked & (TEST_FALSE | DECIMAL_OVERFLOW);
        if self.is(Fault::TestFalseNotTurnedOff) {
            turned_off &= !TEST_FALSE;
        }
        if self.is(Fault::DecimalOverflowNotTurnedOff) {
            turned_off &= !DECIMAL_OVERFLOW;
        }
        at.m.status &= !turned_off;
        taken
    }

    fn branch_or_load_address(&self, at: &mut At, opcode: u8, text: &[u8; 6], next: u16) -> Outcome {
        let mut wrapped1 = false;
        let address = match opcode >> 4 {
            // "C | branch or load address, direct | 4"
            0xC => self.direct(text[2], text[3]),
            // "D, E | the same, displacement from XR1 / XR2 | 3"
            0xD => self.based(at.m.xr1, text[2], &mut wrapped1),
            _ => self.based(at.m.xr2, text[2], &mut wrapped1),
        };
        at.t.wrapped1 = wrapped1;
        let address = (address % 65_536) as u16;
        if opcode & 0x0F == 0 {
            return self.bc(at, text[1], address, next);
        }
        self.la(at, text[1], address, next)
    }

    /// "On a branch IAR takes the address and ARR the next instruction's; with no branch ARR takes
    /// the address."
    fn bc(&self, at: &mut At, q: u8, address: u16, next: u16) -> Outcome {
        let taken = self.condition(at, q);
        if taken {
            at.m.arr = if self.is(Fault::BcArrSwapped) { address } else { next };
            return Ok(address);
        }
        if self.is(Fault::BcNoBranchKeepsArr) {
            return Ok(next);
        }
        at.m.arr = if self.is(Fault::BcArrSwapped) { next } else { address };
        Ok(next)
    }

    /// "LA: Q 01, 02, 44 to 47; the address itself is loaded."
    fn la(&self, at: &mut At, q: u8, address: u16, next: u16) -> Outcome {
        let register = match register_of(q) {
            None | Some(Register::Status) => return Err(6),
            Some(Register::Arr) if !self.is(Fault::LaOfArrAllowed) => return Err(6),
            Some(register) => register,
        };
        self.set(at.m, register, address);
        Ok(next)
    }

    fn jump_or_call(&self, at: &mut At, opcode: u8, text: &[u8; 6], next: u16) -> Outcome {
        match opcode {
            0xF0 => self.bc_from_arr(at, text, next),
            0xF1 => self.jc(at, text, next, true),
            0xF2 => self.jc(at, text, next, false),
            _ => self.svc(next),
        }
    }

    /// The page: "D1(,R8),I | F0 | Disp from ARR"; "the address being branched to is determined
    /// before the ARR is changed".
    fn bc_from_arr(&self, at: &mut At, text: &[u8; 6], next: u16) -> Outcome {
        let mut wrapped1 = false;
        let base = if self.is(Fault::BcArrBaseAfter) { next } else { at.m.arr };
        let address = self.based(base, text[2], &mut wrapped1) as u16;
        at.t.wrapped1 = wrapped1;
        self.bc(at, text[1], address, next)
    }

    /// "F2 JC, 3 bytes: the same test, forward by byte 3 from the next instruction; ARR stays."
    /// The page: F1 backward.
    fn jc(&self, at: &mut At, text: &[u8; 6], next: u16, backward: bool) -> Outcome {
        if !self.condition(at, text[1]) {
            return Ok(next);
        }
        if self.is(Fault::JcChangesArr) {
            at.m.arr = next;
        }
        let by = text[2] as i32;
        let by = if backward && !self.is(Fault::JcBackwardForward) { -by } else { by };
        let target = next as i32 + by;
        at.t.wrapped1 = !(0..65_536).contains(&target);
        Ok(target.rem_euclid(65_536) as u16)
    }

    /// "F4 SVC, 3 bytes, stops with 9."
    fn svc(&self, next: u16) -> Outcome {
        if self.is(Fault::SvcExecuted) {
            return Ok(next);
        }
        Err(9)
    }

    // ---------------------------------------------------------------- decks

    /// "The reader goes from the left". Answers the number and the machine; "The reader returns a
    /// zeroed machine on refusal and leaves storage as lent."
    pub fn read(&self, deck: &[u8], storage: &mut [u8]) -> (u8, Machine) {
        let mut filled = if self.is(Fault::ReaderKeepsOldPages) { storage.to_vec() } else { vec![0; storage.len()] };
        let mut m = Machine::default();
        let number = self.read_records(deck, &mut filled, &mut m);
        if number == 0 {
            storage.copy_from_slice(&filled);
            return (0, m);
        }
        if self.is(Fault::ReaderWritesBeforeItRefuses) {
            storage.copy_from_slice(&filled);
        }
        if self.is(Fault::ReaderKeepsMachine) {
            return (number, m);
        }
        (number, Machine::default())
    }

    fn read_records(&self, deck: &[u8], filled: &mut [u8], m: &mut Machine) -> u8 {
        let mut at = 0;
        let mut first = true;
        let mut pages = 0;
        let mut last_page: i32 = -1;
        loop {
            // "per record: none left 11"
            if at >= deck.len() {
                return 11;
            }
            let kind = deck[at];
            // "Kind 01, 18 bytes"; "Kind 02, 257 bytes"; "Kind 03, no body"; "kind 12"
            let body_length = match kind {
                1 => 18,
                2 => 257,
                3 => 0,
                _ => return 12,
            };
            let short = deck.len() - at - 1 < body_length;
            if self.is(Fault::ReaderElevenBeforeThirteen) && short {
                return 11;
            }
            // "a first record not 01, or a later 01, 13"
            if first != (kind == 1) {
                return 13;
            }
            // "body short 11"
            if short {
                return 11;
            }
            let body = &deck[at + 1..at + 1 + body_length];
            at += 1 + body_length;
            first = false;
            let number = match kind {
                1 => {
                    pages = body[0] as usize + 1;
                    self.machine_record(body, pages, filled.len(), m)
                }
                2 => self.page_record(body, pages, &mut last_page, filled),
                // "03: 16"
                _ if at < deck.len() && !self.is(Fault::ReaderTakesTail) => 16,
                _ => return 0,
            };
            if number != 0 {
                return number;
            }
        }
    }

    /// "page count less 1; IAR, ARR, XR1, XR2, WR4 to WR7, high byte first; status"; "then 01: 3,
    /// then 1".
    fn machine_record(&self, body: &[u8], pages: usize, size: usize, m: &mut Machine) -> u8 {
        let word = |k: usize| {
            let (a, b) = (body[1 + 2 * k] as u16, body[2 + 2 * k] as u16);
            if self.is(Fault::ReaderLowFirst) {
                b * 256 + a
            } else {
                a * 256 + b
            }
        };
        let status = body[17];
        if self.is(Fault::ReaderOneBeforeThree) && size != pages * 256 {
            return 1;
        }
        if !status_allowed(status) {
            return 3;
        }
        // decision: a size that isn't allowed is never the deck's
        if size != pages * 256 {
            return 1;
        }
        *m = Machine {
            iar: word(0),
            arr: word(1),
            xr1: word(2),
            xr2: word(3),
            wr: [word(4), word(5), word(6), word(7)],
            status,
        };
        0
    }

    /// "02: 14, then 13 if not above the last page, then 15"
    fn page_record(&self, body: &[u8], pages: usize, last_page: &mut i32, filled: &mut [u8]) -> u8 {
        let page = body[0] as usize;
        let above =
            if self.is(Fault::ReaderTakesEqualPage) { page as i32 >= *last_page } else { page as i32 > *last_page };
        if self.is(Fault::ThirteenAndFourteenSwapped) && !above {
            return 13;
        }
        if page >= pages {
            return if self.is(Fault::ThirteenAndFourteenSwapped) { 13 } else { 14 };
        }
        if !above {
            return 13;
        }
        let bytes = &body[1..];
        if bytes.iter().all(|byte| *byte == 0) && !self.is(Fault::ReaderTakesZeroPage) {
            return 15;
        }
        *last_page = page as i32;
        filled[page * 256..page * 256 + 256].copy_from_slice(bytes);
        0
    }

    /// "One 01 first, then 02 in rising page order for exactly the pages that aren't all zero,
    /// then 03."
    fn deck_of(&self, m: &Machine, storage: &[u8]) -> Vec<u8> {
        let pages = storage.len() / 256;
        let mut deck = vec![1, (pages - 1) as u8];
        let words = [m.iar, m.arr, m.xr1, m.xr2, m.wr[0], m.wr[1], m.wr[2], m.wr[3]];
        for word in words {
            deck.push((word / 256) as u8);
            deck.push((word % 256) as u8);
        }
        deck.push(m.status);
        for page in 0..pages {
            let bytes = &storage[page * 256..page * 256 + 256];
            let zeros = bytes.iter().all(|byte| *byte == 0);
            if zeros && !self.is(Fault::WriterWritesZeroPages) {
                continue;
            }
            if self.is(Fault::WriterSkipsLastPage) && page == pages - 1 {
                continue;
            }
            deck.push(2);
            deck.push(page as u8);
            deck.extend_from_slice(bytes);
        }
        deck.push(3);
        deck
    }

    /// "Writer: 1, 3, 17."; "The writer returns length 0 on refusal and leaves its output; on
    /// success bytes after the written length stay."
    pub fn write(&self, m: &Machine, storage: &[u8], out: &mut [u8]) -> Written {
        let bad_status = !status_allowed(m.status) && !self.is(Fault::WriterStatusUnchecked);
        if self.is(Fault::WriterStatusBeforeSize) && bad_status {
            return Written { number: 3, length: 0 };
        }
        if !size_allowed(storage.len()) {
            return Written { number: 1, length: 0 };
        }
        if bad_status {
            return Written { number: 3, length: 0 };
        }
        let deck = self.deck_of(m, storage);
        let needed = deck.len() + self.is(Fault::WriterNeedsOneMore) as usize;
        if out.len() < needed {
            return Written { number: 17, length: 0 };
        }
        out[..deck.len()].copy_from_slice(&deck);
        if self.is(Fault::WriterClearsTail) {
            out[deck.len()..].fill(0);
        }
        Written { number: 0, length: deck.len() }
    }

    /// The room that the deck needs; 0 where the size isn't allowed.
    pub fn deck_length(&self, m: &Machine, storage: &[u8]) -> usize {
        if !size_allowed(storage.len()) {
            return 0;
        }
        let length = self.deck_of(m, storage).len();
        if self.is(Fault::LengthWithoutEnd) {
            return length - 1;
        }
        length
    }
}
