//! The five functions over the model itself, so that the harness can be tried alone.
#![allow(clippy::missing_safety_doc)]

use crate::lib_under_test::{CEnded, CMachine, CStepped, CWritten};
use crate::model::{Machine, Model, Trace};
use std::slice;

#[no_mangle]
pub unsafe extern "C" fn aqtovmesh_step(m: *mut CMachine, storage: *mut u8, size: usize) -> CStepped {
    let mut machine = Machine::from(*m);
    let bytes = slice::from_raw_parts_mut(storage, size);
    let s = Model::sound().step(&mut machine, bytes, &mut Trace::default());
    *m = machine.into();
    CStepped { number: s.number, q: s.q, r: s.r }
}

#[no_mangle]
pub unsafe extern "C" fn aqtovmesh_run(m: *mut CMachine, storage: *mut u8, size: usize, budget: u32) -> CEnded {
    let mut machine = Machine::from(*m);
    let e = Model::sound().run(&mut machine, slice::from_raw_parts_mut(storage, size), budget);
    *m = machine.into();
    CEnded { number: e.number, q: e.q, r: e.r, steps: e.steps }
}

#[no_mangle]
pub unsafe extern "C" fn aqtovmesh_read(
    m: *mut CMachine,
    deck: *const u8,
    deck_length: usize,
    storage: *mut u8,
    size: usize,
) -> u8 {
    let deck = slice::from_raw_parts(deck, deck_length);
    let (number, machine) = Model::sound().read(deck, slice::from_raw_parts_mut(storage, size));
    *m = machine.into();
    number
}

#[no_mangle]
pub unsafe extern "C" fn aqtovmesh_write(
    m: *mut CMachine,
    storage: *const u8,
    size: usize,
    out: *mut u8,
    room: usize,
) -> CWritten {
    let storage = slice::from_raw_parts(storage, size);
    let w = Model::sound().write(&Machine::from(*m), storage, slice::from_raw_parts_mut(out, room));
    CWritten { number: w.number, length: w.length }
}

#[no_mangle]
pub unsafe extern "C" fn aqtovmesh_deck_length(m: *mut CMachine, storage: *const u8, size: usize) -> usize {
    Model::sound().deck_length(&Machine::from(*m), slice::from_raw_parts(storage, size))
}
