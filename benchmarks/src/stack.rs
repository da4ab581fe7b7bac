//! How deep a call goes: the stack below it is painted, and looked at afterwards.

use std::arch::asm;
use std::ptr;

const PAINTED: usize = 16 << 10;
const PAINT: u8 = 0xA5;

/// The bytes of stack that `call` takes, its return address and this function's spilled arguments
/// not among them.
#[inline(never)]
pub fn depth(call: &mut dyn FnMut()) -> usize {
    let top: usize;
    unsafe { asm!("mov {}, rsp", out(reg) top, options(nomem, nostack)) };
    let bottom = top - PAINTED;
    for address in bottom..top {
        unsafe { ptr::write_volatile(address as *mut u8, PAINT) };
    }
    call();
    for address in bottom..top {
        if unsafe { ptr::read_volatile(address as *const u8) } != PAINT {
            return top - address;
        }
    }
    0
}
