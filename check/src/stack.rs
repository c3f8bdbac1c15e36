//! How much stack the library's run takes. The call is made on a stack of our own, painted with a
//! pattern; the lowest byte that changed tells the depth. Counted from the caller's stack pointer,
//! so the return address is in it.

use crate::lib_under_test::{aqtovmesh_run, CEnded, CMachine};
use crate::model::{Ended, Machine};
use std::arch::asm;

pub const SIZE: usize = 256 * 1024;

/// A stack, aligned as a call wants it.
#[repr(C, align(64))]
struct Painted([u8; SIZE]);

/// What one run came to, and the bytes of stack that it wrote from the top down to the deepest.
pub struct Deepest {
    pub ended: Ended,
    pub bytes: usize,
}

pub struct Stack {
    painted: Box<Painted>,
    pattern: u8,
}

impl Stack {
    pub fn new(pattern: u8) -> Stack {
        Stack { painted: Box::new(Painted([pattern; SIZE])), pattern }
    }

    /// Runs the library on this stack, and paints again what it wrote.
    pub fn run(&mut self, m: &mut Machine, storage: &mut [u8], budget: u32) -> Deepest {
        let mut c = CMachine::from(*m);
        let top = self.painted.0.as_mut_ptr_range().end;
        let answer: u64;
        // SAFETY: `top` is the end of a stack of our own, aligned to 64; r12 is kept by the callee
        // and brings the old stack back; arguments and answer lie as the C interface has them
        unsafe {
            asm!(
                "mov r12, rsp",
                "mov rsp, {top}",
                "call {run}",
                "mov rsp, r12",
                top = in(reg) top,
                run = sym aqtovmesh_run,
                in("rdi") &mut c,
                in("rsi") storage.as_mut_ptr(),
                in("rdx") storage.len(),
                in("rcx") budget as u64,
                out("rax") answer,
                out("r12") _,
                clobber_abi("C"),
            );
        }
        *m = c.into();
        let CEnded { number, q, r, steps } = ended_of(answer);
        let untouched = self.untouched();
        assert!(untouched > SIZE / 4, "the stack was too small to measure");
        self.painted.0[untouched..].fill(self.pattern);
        Deepest { ended: Ended { number, q, r, steps }, bytes: SIZE - untouched }
    }

    /// How many bytes from the bottom still have the pattern: by blocks, then by bytes.
    fn untouched(&self) -> usize {
        let block = [self.pattern; 64];
        let whole = self.painted.0.chunks(64).take_while(|chunk| **chunk == block).count() * 64;
        whole + self.painted.0[whole..].iter().take_while(|byte| **byte == self.pattern).count()
    }
}

/// A record of 8 bytes comes back in one register.
fn ended_of(register: u64) -> CEnded {
    let [number, q, r, _, steps @ ..] = register.to_le_bytes();
    CEnded { number, q, r, steps: u32::from_le_bytes(steps) }
}
