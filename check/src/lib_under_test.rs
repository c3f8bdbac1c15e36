//! The library under test: its C interface, and wrappers that take slices.

use crate::model::{Ended, Machine, Stepped, Written};

#[repr(C)]
#[derive(Clone, Copy)]
pub struct CMachine {
    pub iar: u16,
    pub arr: u16,
    pub xr1: u16,
    pub xr2: u16,
    pub wr: [u16; 4],
    pub status: u8,
}

#[repr(C)]
pub struct CStepped {
    pub number: u8,
    pub q: u8,
    pub r: u8,
}

#[repr(C)]
pub struct CEnded {
    pub number: u8,
    pub q: u8,
    pub r: u8,
    pub steps: u32,
}

#[repr(C)]
pub struct CWritten {
    pub number: u8,
    pub length: usize,
}

// the sizes that the interface names
const _: () = assert!(std::mem::size_of::<CMachine>() == 18 && std::mem::align_of::<CMachine>() == 2);
const _: () = assert!(std::mem::size_of::<CStepped>() == 3);
const _: () = assert!(std::mem::size_of::<CEnded>() == 8);
const _: () = assert!(std::mem::size_of::<CWritten>() == 16);

extern "C" {
    fn aqtovmesh_step(m: *mut CMachine, storage: *mut u8, size: usize) -> CStepped;
    pub(crate) fn aqtovmesh_run(m: *mut CMachine, storage: *mut u8, size: usize, budget: u32) -> CEnded;
    fn aqtovmesh_read(m: *mut CMachine, deck: *const u8, deck_length: usize, storage: *mut u8, size: usize) -> u8;
    fn aqtovmesh_write(m: *mut CMachine, storage: *const u8, size: usize, out: *mut u8, room: usize) -> CWritten;
    fn aqtovmesh_deck_length(m: *mut CMachine, storage: *const u8, size: usize) -> usize;
}

impl From<Machine> for CMachine {
    fn from(m: Machine) -> CMachine {
        CMachine { iar: m.iar, arr: m.arr, xr1: m.xr1, xr2: m.xr2, wr: m.wr, status: m.status }
    }
}

impl From<CMachine> for Machine {
    fn from(m: CMachine) -> Machine {
        Machine { iar: m.iar, arr: m.arr, xr1: m.xr1, xr2: m.xr2, wr: m.wr, status: m.status }
    }
}

pub fn step(m: &mut Machine, storage: &mut [u8]) -> Stepped {
    let mut c = CMachine::from(*m);
    // a slice is non-null, aligned and valid for its length
    let s = unsafe { aqtovmesh_step(&mut c, storage.as_mut_ptr(), storage.len()) };
    *m = c.into();
    Stepped { number: s.number, q: s.q, r: s.r }
}

pub fn run(m: &mut Machine, storage: &mut [u8], budget: u32) -> Ended {
    let mut c = CMachine::from(*m);
    let e = unsafe { aqtovmesh_run(&mut c, storage.as_mut_ptr(), storage.len(), budget) };
    *m = c.into();
    Ended { number: e.number, q: e.q, r: e.r, steps: e.steps }
}

pub fn read(m: &mut Machine, deck: &[u8], storage: &mut [u8]) -> u8 {
    let mut c = CMachine::from(*m);
    let number = unsafe { aqtovmesh_read(&mut c, deck.as_ptr(), deck.len(), storage.as_mut_ptr(), storage.len()) };
    *m = c.into();
    number
}

pub fn write(m: &mut Machine, storage: &[u8], out: &mut [u8]) -> Written {
    let mut c = CMachine::from(*m);
    let w = unsafe { aqtovmesh_write(&mut c, storage.as_ptr(), storage.len(), out.as_mut_ptr(), out.len()) };
    *m = c.into();
    Written { number: w.number, length: w.length }
}

pub fn deck_length(m: &mut Machine, storage: &[u8]) -> usize {
    let mut c = CMachine::from(*m);
    let length = unsafe { aqtovmesh_deck_length(&mut c, storage.as_ptr(), storage.len()) };
    *m = c.into();
    length
}
