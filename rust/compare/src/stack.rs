//! How much stack a function uses. Unsafe, as it runs the function on a stack of its own.

#![allow(unsafe_code)]

/// Bytes of the stack that a function is run on.
const SIZE: usize = 256 * 1024;

/// How many bytes of stack a function touches, less those that one which does nothing does.
///
/// The function runs on memory that was painted before. What is no longer painted afterwards was
/// touched.
pub fn depth(function: &mut dyn FnMut()) -> usize {
    let idle = touched(&mut || {});
    touched(function) - idle
}

/// The greater of two measurements, as a function may leave a byte that looks like paint.
fn touched(function: &mut dyn FnMut()) -> usize {
    let deepest = [0xA5, 0x5A].map(|paint| {
        let mut stack = vec![paint; SIZE];
        run_on(&mut stack, function);
        let untouched = stack.iter().take_while(|&&byte| byte == paint).count();
        SIZE - untouched
    });
    deepest[0].max(deepest[1])
}

/// Calls a function that is behind a pointer.
extern "C" fn call(function: *mut &mut dyn FnMut()) {
    // SAFETY: the pointer is that of `run_on`, which waits for this call. A panic does not pass
    // through here: it would end the program.
    unsafe { (*function)() }
}

/// Runs a function with its stack in a slice, which grows from the end down.
fn run_on(stack: &mut [u8], mut function: &mut dyn FnMut()) {
    let function: *mut &mut dyn FnMut() = &mut function;
    let top = stack.as_mut_ptr_range().end.map_addr(|end| end & !15);
    // SAFETY: the stack pointer is moved to the slice, which is exclusively lent, aligned to 16 at
    // its top, and larger by far than what the functions measured here use; and it is moved back
    // from r12, which the called function keeps. All that it does not keep is declared as lost.
    unsafe {
        std::arch::asm!(
            "mov r12, rsp",
            "mov rsp, {top}",
            "call {call}",
            "mov rsp, r12",
            top = in(reg) top,
            call = sym call,
            in("rdi") function,
            out("r12") _,
            clobber_abi("C"),
        );
    }
}

#[cfg(test)]
mod tests {
    use super::*;
    use std::hint::black_box;

    #[test]
    fn an_array_is_seen() {
        let small = depth(&mut || {
            black_box([1u8; 16]);
        });
        let large = depth(&mut || {
            black_box([1u8; 5000]);
        });
        assert!(small < 1000, "{small}");
        assert!((5000..20_000).contains(&large), "{large}");
        assert_eq!(depth(&mut || {}), 0);
    }
}
