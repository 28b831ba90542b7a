//! A stack of our own, painted before a call, so that what the call overwrites of it can be counted.

use std::arch::asm;

const SIZE: usize = 16 << 20;
const PAINT: u8 = 0xa5;

pub struct Painted(Vec<u8>);

impl Painted {
    pub fn new() -> Self {
        Painted(vec![PAINT; SIZE])
    }

    /// The bytes of stack that a function overwrites.
    pub fn taken<T>(&mut self, function: unsafe extern "C" fn(*mut T), given: &mut T) -> usize {
        self.0.fill(PAINT);
        let top = self.0.as_mut_ptr_range().end as usize & !15;
        // SAFETY: the stack is ours while the function runs on it.
        unsafe { on_stack(function, given, top) };
        let untouched = self.0.iter().take_while(|byte| **byte == PAINT).count();
        assert!(untouched > 0, "{SIZE} bytes are too few");
        self.0.len() - untouched
    }
}

/// Calls a function with the stack pointer at a place; a register that calls keep, as C's rules say, has the one before.
#[cfg(target_arch = "x86_64")]
unsafe fn on_stack<T>(function: unsafe extern "C" fn(*mut T), given: *mut T, top: usize) {
    // SAFETY: of the caller.
    unsafe {
        asm!(
            "xchg rsp, r12", "call {function}", "mov rsp, r12",
            function = in(reg) function, in("rdi") given, inout("r12") top => _, clobber_abi("C")
        );
    }
}

#[cfg(target_arch = "aarch64")]
unsafe fn on_stack<T>(function: unsafe extern "C" fn(*mut T), given: *mut T, top: usize) {
    // SAFETY: of the caller.
    unsafe {
        asm!(
            "mov x20, sp", "mov sp, {top}", "blr {function}", "mov sp, x20",
            top = in(reg) top, function = in(reg) function, in("x0") given, out("x20") _, clobber_abi("C")
        );
    }
}
