//! System/36 object code, executed over a main storage that the host lends.
//!
//! A host keeps one [`Machine`] and lends it with its storage; each call alters the machine itself and answers one of the paper's numbers, here an enum.
//! Every call ends with a defined answer, for all storage contents, registers, sizes, budgets and decks, so nothing has to be checked before.
//!
//! ```
//! use aqtovmesh::{Answer, Machine, Stop, EQUAL};
//!
//! let mut storage = [0u8; 256];
//! storage[..7].copy_from_slice(&[0x3C, 0xF1, 0x00, 0x10, 0xF4, 0x00, 0x02]); // MVI, then SVC
//! let mut machine = Machine { status: EQUAL, ..Machine::default() };
//! let ran = machine.run(&mut storage, 1_000_000);
//! assert_eq!(ran.answer, Answer::Stopped(Stop::Supervisor { q: 0x00, r: 0x02 }));
//! assert_eq!((ran.steps, machine.iar, storage[0x10]), (1, 4, 0xF1));
//! ```
//!
//! What is proved is the library behind these functions; this crate, the compiler's back end and the linking are tested.

use std::error::Error;
use std::fmt;

/// Bytes of a page; the storage's size is a multiple of it, from one page to [`STORAGE_LIMIT`].
pub const PAGE: usize = 256;
/// The largest storage.
pub const STORAGE_LIMIT: usize = 65_536;
/// The largest budget of a run.
pub const BUDGET_LIMIT: u32 = 16_777_216;

/// Status bit 7.
pub const EQUAL: u8 = 0x01;
/// Status bit 6.
pub const LOW: u8 = 0x02;
/// Status bit 5.
pub const HIGH: u8 = 0x04;
/// Status bit 4.
pub const DECIMAL_OVERFLOW: u8 = 0x08;
/// Status bit 3.
pub const TEST_FALSE: u8 = 0x10;
/// Status bit 2. Bits 0 and 1 are always off.
pub const BINARY_OVERFLOW: u8 = 0x20;

/// The registers and the status.
#[repr(C)]
#[derive(Clone, Copy, Debug, Default, PartialEq, Eq)]
pub struct Machine {
    pub iar: u16,
    pub arr: u16,
    pub xr1: u16,
    pub xr2: u16,
    /// WR4 to WR7.
    pub wr: [u16; 4],
    pub status: u8,
}

/// What a step or a run answers.
#[derive(Clone, Copy, Debug, PartialEq, Eq)]
pub enum Answer {
    /// 0: the step is executed; the run's budget is spent.
    Executed,
    /// 1 to 3: nothing was done.
    Refused(Refusal),
    /// 4 to 9: IAR stays at the stopped instruction, which changed nothing.
    Stopped(Stop),
}

/// Why a step or a run is refused.
#[derive(Clone, Copy, Debug, PartialEq, Eq)]
pub enum Refusal {
    /// 1: storage size not allowed.
    Size,
    /// 2: budget over the limit.
    Budget,
    /// 3: status bit 0 or 1 on.
    Status,
}

/// Why an instruction stops.
#[derive(Clone, Copy, Debug, PartialEq, Eq)]
pub enum Stop {
    /// 4: instruction not wholly in storage.
    CutShort,
    /// 5: unknown opcode.
    OpcodeUnknown,
    /// 6: Q byte not allowed.
    QRefused,
    /// 7: an operand byte outside storage.
    OperandOutside,
    /// 8: digit above 9 in a zoned operand.
    DigitRefused,
    /// 9: supervisor call, with its Q and R bytes. The host takes it, moves IAR past it (3 bytes) and runs on.
    Supervisor { q: u8, r: u8 },
}

/// How a run ended, and its count of executed steps.
#[derive(Clone, Copy, Debug, PartialEq, Eq)]
pub struct Ran {
    pub answer: Answer,
    pub steps: u32,
}

/// Why a deck is not read.
#[derive(Clone, Copy, Debug, PartialEq, Eq)]
pub enum ReadError {
    /// 1: the storage's size isn't the deck's.
    Size,
    /// 3: status bit 0 or 1 on.
    Status,
    /// 11: deck ends early.
    EndsEarly,
    /// 12: unknown kind.
    KindUnknown,
    /// 13: record out of its order.
    OutOfOrder,
    /// 14: page number not below the page count.
    PageBeyond,
    /// 15: page of zeros.
    PageOfZeros,
    /// 16: bytes after the end record.
    BytesAfterEnd,
}

/// Why a deck is not written.
#[derive(Clone, Copy, Debug, PartialEq, Eq)]
pub enum WriteError {
    /// 1: storage size not allowed.
    Size,
    /// 3: status bit 0 or 1 on.
    Status,
    /// 17: output buffer too short.
    OutputShort,
}

impl Machine {
    /// One step. With any answer but [`Answer::Executed`] machine and storage stay as they were.
    pub fn step(&mut self, storage: &mut [u8]) -> Answer {
        // SAFETY: the references are valid, aligned and apart from each other; a slice's pointer is never null.
        let told = unsafe { library::aqtovmesh_step(self, storage.as_mut_ptr(), storage.len()) };
        answer_of(told.number, told.q, told.r)
    }

    /// At most `budget` steps. A refusal leaves machine and storage as they were; a stop leaves them as the executed steps did.
    pub fn run(&mut self, storage: &mut [u8], budget: u32) -> Ran {
        // SAFETY: as in `step`.
        let told = unsafe { library::aqtovmesh_run(self, storage.as_mut_ptr(), storage.len(), budget) };
        Ran { answer: answer_of(told.number, told.q, told.r), steps: told.steps }
    }

    /// Reads a deck: this becomes its machine, and the storage its storage. A refused deck leaves the storage, and this is zeroed.
    pub fn read(&mut self, deck: &[u8], storage: &mut [u8]) -> Result<(), ReadError> {
        // SAFETY: as in `step`.
        let number = unsafe { library::aqtovmesh_read(self, deck.as_ptr(), deck.len(), storage.as_mut_ptr(), storage.len()) };
        read_of(number)
    }

    /// Writes the deck of this machine and its storage to the front of `out`, and answers its length; the bytes after it stay. A refusal leaves `out`.
    pub fn write(&self, storage: &[u8], out: &mut [u8]) -> Result<usize, WriteError> {
        // The call takes a record that it may write, so it is lent a copy.
        let mut copy = *self;
        // SAFETY: as in `step`.
        let told = unsafe { library::aqtovmesh_write(&mut copy, storage.as_ptr(), storage.len(), out.as_mut_ptr(), out.len()) };
        written_of(told.number, told.length)
    }

    /// The room that [`Machine::write`] needs; `None` where the storage's size isn't allowed.
    pub fn deck_length(&self, storage: &[u8]) -> Option<usize> {
        let mut copy = *self;
        // SAFETY: as in `write`.
        let length = unsafe { library::aqtovmesh_deck_length(&mut copy, storage.as_ptr(), storage.len()) };
        (length != 0).then_some(length)
    }
}

/// The size of the storage that a deck is for; the reader refuses every other. An empty or cut deck gives one page.
pub fn storage_size(deck: &[u8]) -> usize {
    deck.get(1).map_or(PAGE, |pages| (usize::from(*pages) + 1) * PAGE)
}

// ---- numbers to enums. A number outside a call's own list can't come back; were a library of another version linked, the panic names it.

fn answer_of(number: u8, q: u8, r: u8) -> Answer {
    match number {
        0 => Answer::Executed,
        1 => Answer::Refused(Refusal::Size),
        2 => Answer::Refused(Refusal::Budget),
        3 => Answer::Refused(Refusal::Status),
        4 => Answer::Stopped(Stop::CutShort),
        5 => Answer::Stopped(Stop::OpcodeUnknown),
        6 => Answer::Stopped(Stop::QRefused),
        7 => Answer::Stopped(Stop::OperandOutside),
        8 => Answer::Stopped(Stop::DigitRefused),
        9 => Answer::Stopped(Stop::Supervisor { q, r }),
        _ => panic!("aqtovmesh: a step or a run has no number {number}"),
    }
}

fn read_of(number: u8) -> Result<(), ReadError> {
    Err(match number {
        0 => return Ok(()),
        1 => ReadError::Size,
        3 => ReadError::Status,
        11 => ReadError::EndsEarly,
        12 => ReadError::KindUnknown,
        13 => ReadError::OutOfOrder,
        14 => ReadError::PageBeyond,
        15 => ReadError::PageOfZeros,
        16 => ReadError::BytesAfterEnd,
        _ => panic!("aqtovmesh: the reader has no number {number}"),
    })
}

fn written_of(number: u8, length: usize) -> Result<usize, WriteError> {
    Err(match number {
        0 => return Ok(length),
        1 => WriteError::Size,
        3 => WriteError::Status,
        17 => WriteError::OutputShort,
        _ => panic!("aqtovmesh: the writer has no number {number}"),
    })
}

impl Answer {
    /// The paper's number.
    pub fn number(self) -> u8 {
        match self {
            Answer::Executed => 0,
            Answer::Refused(Refusal::Size) => 1,
            Answer::Refused(Refusal::Budget) => 2,
            Answer::Refused(Refusal::Status) => 3,
            Answer::Stopped(Stop::CutShort) => 4,
            Answer::Stopped(Stop::OpcodeUnknown) => 5,
            Answer::Stopped(Stop::QRefused) => 6,
            Answer::Stopped(Stop::OperandOutside) => 7,
            Answer::Stopped(Stop::DigitRefused) => 8,
            Answer::Stopped(Stop::Supervisor { .. }) => 9,
        }
    }
}

impl ReadError {
    /// The paper's number.
    pub fn number(self) -> u8 {
        match self {
            ReadError::Size => 1,
            ReadError::Status => 3,
            ReadError::EndsEarly => 11,
            ReadError::KindUnknown => 12,
            ReadError::OutOfOrder => 13,
            ReadError::PageBeyond => 14,
            ReadError::PageOfZeros => 15,
            ReadError::BytesAfterEnd => 16,
        }
    }
}

impl WriteError {
    /// The paper's number.
    pub fn number(self) -> u8 {
        match self {
            WriteError::Size => 1,
            WriteError::Status => 3,
            WriteError::OutputShort => 17,
        }
    }
}

impl fmt::Display for ReadError {
    fn fmt(&self, f: &mut fmt::Formatter) -> fmt::Result {
        write!(f, "deck refused: {}", self.number())
    }
}

impl fmt::Display for WriteError {
    fn fmt(&self, f: &mut fmt::Formatter) -> fmt::Result {
        write!(f, "deck not written: {}", self.number())
    }
}

impl Error for ReadError {}
impl Error for WriteError {}

/// The static library's own functions.
mod library {
    use super::Machine;
    use std::mem::{align_of, offset_of, size_of};

    #[repr(C)]
    pub struct Stepped {
        pub number: u8,
        pub q: u8,
        pub r: u8,
    }

    #[repr(C)]
    pub struct Ended {
        pub number: u8,
        pub q: u8,
        pub r: u8,
        pub steps: u32,
    }

    #[repr(C)]
    pub struct Written {
        pub number: u8,
        pub length: usize,
    }

    extern "C" {
        pub fn aqtovmesh_step(m: *mut Machine, storage: *mut u8, size: usize) -> Stepped;
        pub fn aqtovmesh_run(m: *mut Machine, storage: *mut u8, size: usize, budget: u32) -> Ended;
        pub fn aqtovmesh_read(m: *mut Machine, deck: *const u8, deck_length: usize, storage: *mut u8, size: usize) -> u8;
        pub fn aqtovmesh_write(m: *mut Machine, storage: *const u8, size: usize, out: *mut u8, room: usize) -> Written;
        pub fn aqtovmesh_deck_length(m: *mut Machine, storage: *const u8, size: usize) -> usize;
    }

    // the layout that the library was compiled with
    const _: () = {
        assert!(size_of::<Machine>() == 18 && align_of::<Machine>() == 2);
        assert!(offset_of!(Machine, iar) == 0 && offset_of!(Machine, arr) == 2);
        assert!(offset_of!(Machine, xr1) == 4 && offset_of!(Machine, xr2) == 6);
        assert!(offset_of!(Machine, wr) == 8 && offset_of!(Machine, status) == 16);
        assert!(size_of::<Stepped>() == 3 && offset_of!(Stepped, q) == 1 && offset_of!(Stepped, r) == 2);
        assert!(size_of::<Ended>() == 8 && offset_of!(Ended, r) == 2 && offset_of!(Ended, steps) == 4);
        assert!(size_of::<Written>() == 16 && offset_of!(Written, length) == 8);
    };
}

#[cfg(test)]
mod tests;
