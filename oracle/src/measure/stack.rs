//! How much stack a call takes: it runs on a stack of its own, painted before the call and looked at after it.

use std::arch::asm;

/// Far more than any call here takes.
const BYTES: usize = 1 << 20;

const PAINT: u8 = 0xa5;

/// How a stack has to be aligned.
const ALIGN: usize = 16;

/// The bytes from where the call began down to the deepest one that it wrote, with the frames between here and
/// the call.
pub fn used(mut call: impl FnMut()) -> usize {
    let mut stack = vec![PAINT; BYTES];
    let end = stack.as_mut_ptr_range().end;
    let top = end.wrapping_sub(end as usize % ALIGN);
    let mut call: &mut dyn FnMut() = &mut call;
    // SAFETY: the stack's memory is alive and nobody else's, and its end is aligned. r12 holds the old one: the
    // call gives that register back as it was.
    unsafe {
        asm!(
            "xchg rsp, r12",
            "call {begin}",
            "mov rsp, r12",
            begin = sym begin,
            in("rdi") &mut call,
            inout("r12") top => _,
            clobber_abi("C"),
        );
    }
    let untouched = stack.iter().take_while(|&&byte| byte == PAINT).count();
    BYTES - untouched
}

extern "C" fn begin(call: &mut &mut dyn FnMut()) {
    call();
}
