//! The decoder of examples/boxes in Rust, with a look at how much room there is: a panic ends the call. For the same hosts:
//! nc-rustc -O --data 00110000 -e unpack unpack.rs -o unpack.elf && ./boxes unpack.elf
#![no_std]
use core::{arch::asm, panic::PanicInfo, slice};

const ROOM: usize = 64;

#[panic_handler]
fn stop(_: &PanicInfo) -> ! {
    unsafe { asm!("hlt", options(noreturn)) } // SAFETY: it ends the call of the box
}

/// # Safety
///
/// There are `len` bytes at `from`, and room for 64 at `to`. A box where this isn't so harms itself only.
#[no_mangle]
pub unsafe extern "C" fn unpack(to: *mut u8, from: *const u8, len: usize) -> usize {
    let (out, packed) = (slice::from_raw_parts_mut(to, ROOM), slice::from_raw_parts(from, len));
    let (mut count, mut made) = (0, 0);
    for &letter in packed {
        match letter {
            b'0'..=b'9' => count = 10 * count + usize::from(letter - b'0'),
            _ => {
                out[made..made + count].fill(letter);
                made += count;
                count = 0;
            }
        }
    }
    made
}
