//! What a program in Rust needs in a box of nc-run, over the C library: where it begins, its words, output, memory, and how a panic ends it.
//!
//! ```
//! #![no_std]
//! #![no_main]
//! nc::entry!(main);
//! fn main() -> i32 {
//!     nc::println!("{} words", nc::args().count());
//!     0
//! }
//! ```
#![no_std]
#![feature(alloc_error_handler, core_c_str, core_ffi_c)]

pub extern crate alloc;

use core::alloc::{GlobalAlloc, Layout};
use core::ffi::{c_char, CStr};
use core::fmt::{self, Write};
use core::sync::atomic::{AtomicI32, AtomicPtr, Ordering};

extern "C" {
    fn abort() -> !;
    fn aligned_alloc(align: usize, len: usize) -> *mut u8;
    fn calloc(count: usize, len: usize) -> *mut u8;
    fn exit(status: i32) -> !;
    fn free(block: *mut u8);
    fn malloc(len: usize) -> *mut u8;
    fn read(file: i32, to: *mut u8, len: usize) -> isize;
    fn realloc(block: *mut u8, len: usize) -> *mut u8;
    fn write(file: i32, from: *const u8, len: usize) -> isize;
}

/// Names the function with which the program begins. It returns the program's status.
#[macro_export]
macro_rules! entry {
    ($function:path) => {
        const _: () = {
            #[export_name = "main"]
            extern "C" fn called_by_the_library(count: i32, words: *mut *const $crate::Letter) -> i32 {
                let function: fn() -> i32 = $function;
                $crate::begin(count, words);
                function()
            }
        };
    };
}

/// A `char` of C.
pub type Letter = c_char;

static COUNT: AtomicI32 = AtomicI32::new(0);
static WORDS: AtomicPtr<*const Letter> = AtomicPtr::new(core::ptr::null_mut());

#[doc(hidden)]
pub fn begin(count: i32, words: *mut *const Letter) {
    COUNT.store(count, Ordering::Relaxed);
    WORDS.store(words, Ordering::Relaxed);
}

/// The words of the command line, the file's name first. One that isn't UTF-8 is empty.
pub fn args() -> impl Iterator<Item = &'static str> {
    let words = WORDS.load(Ordering::Relaxed);
    // SAFETY: the C library has given so many texts, each with its 0, which stay.
    (0..COUNT.load(Ordering::Relaxed) as usize)
        .map(move |k| unsafe { CStr::from_ptr(*words.add(k)) }.to_str().unwrap_or(""))
}

/// Ends the program.
pub fn leave(status: i32) -> ! {
    // SAFETY: it takes any number.
    unsafe { exit(status) }
}

/// The heap of the C library.
struct Heap;

/// What `malloc` aligns to.
const ALIGNED: usize = 16;

// SAFETY: these are the C library's, whose blocks stay until they are freed.
unsafe impl GlobalAlloc for Heap {
    unsafe fn alloc(&self, layout: Layout) -> *mut u8 {
        if layout.align() <= ALIGNED {
            malloc(layout.size())
        } else {
            aligned_alloc(layout.align(), layout.size())
        }
    }

    unsafe fn alloc_zeroed(&self, layout: Layout) -> *mut u8 {
        if layout.align() <= ALIGNED {
            return calloc(1, layout.size());
        }
        let block = self.alloc(layout);
        if !block.is_null() {
            block.write_bytes(0, layout.size());
        }
        block
    }

    unsafe fn dealloc(&self, block: *mut u8, _: Layout) {
        free(block)
    }

    unsafe fn realloc(&self, block: *mut u8, layout: Layout, len: usize) -> *mut u8 {
        if layout.align() <= ALIGNED {
            return realloc(block, len);
        }
        let moved = self.alloc(Layout::from_size_align_unchecked(len, layout.align()));
        if !moved.is_null() {
            moved.copy_from_nonoverlapping(block, layout.size().min(len));
            free(block);
        }
        moved
    }
}

#[global_allocator]
static HEAP: Heap = Heap;

#[alloc_error_handler]
fn on_no_memory(layout: Layout) -> ! {
    panic!("memory allocation of {} bytes failed", layout.size())
}

/// A file of the program's, by its number. Nothing is kept back.
pub struct File(pub i32);

impl File {
    /// Writes all of these bytes. Whether they are written.
    pub fn write_all(&mut self, mut bytes: &[u8]) -> bool {
        while !bytes.is_empty() {
            // SAFETY: the bytes are there.
            let count = unsafe { write(self.0, bytes.as_ptr(), bytes.len()) };
            if count <= 0 {
                return false;
            }
            bytes = &bytes[count as usize..];
        }
        true
    }

    /// Reads as many bytes as are there, up to the length of `to`; 0 at the end, and None if it can't be read.
    pub fn read(&mut self, to: &mut [u8]) -> Option<usize> {
        // SAFETY: there is so much room.
        usize::try_from(unsafe { read(self.0, to.as_mut_ptr(), to.len()) }).ok()
    }
}

impl Write for File {
    fn write_str(&mut self, text: &str) -> fmt::Result {
        if self.write_all(text.as_bytes()) {
            Ok(())
        } else {
            Err(fmt::Error)
        }
    }
}

/// What a text is gathered in, so that a line takes one call of the host.
struct Pieces {
    file: File,
    bytes: [u8; 512],
    len: usize,
}

impl Pieces {
    fn flush(&mut self) -> fmt::Result {
        let len = core::mem::take(&mut self.len);
        if self.file.write_all(&self.bytes[..len]) {
            Ok(())
        } else {
            Err(fmt::Error)
        }
    }
}

impl Write for Pieces {
    fn write_str(&mut self, text: &str) -> fmt::Result {
        if text.len() > self.bytes.len() - self.len {
            self.flush()?;
        }
        if text.len() > self.bytes.len() {
            return self.file.write_str(text);
        }
        self.bytes[self.len..self.len + text.len()].copy_from_slice(text.as_bytes());
        self.len += text.len();
        Ok(())
    }
}

#[doc(hidden)]
pub fn print(file: i32, text: fmt::Arguments, end: &str) {
    let mut to = Pieces { file: File(file), bytes: [0; 512], len: 0 };
    let _ = to.write_fmt(text).and_then(|()| to.write_str(end)).and_then(|()| to.flush());
    // as printf, whose result few look at
}

/// As in `std`, to standard output.
#[macro_export]
macro_rules! print {
    ($($text:tt)*) => { $crate::print(1, core::format_args!($($text)*), "") };
}

/// As in `std`, to standard output.
#[macro_export]
macro_rules! println {
    () => { $crate::print(1, core::format_args!(""), "\n") };
    ($($text:tt)*) => { $crate::print(1, core::format_args!($($text)*), "\n") };
}

/// As in `std`, to standard error.
#[macro_export]
macro_rules! eprintln {
    () => { $crate::print(2, core::format_args!(""), "\n") };
    ($($text:tt)*) => { $crate::print(2, core::format_args!($($text)*), "\n") };
}

/// Ends the program with its message on standard error, and as `abort` does.
#[panic_handler]
fn on_panic(info: &core::panic::PanicInfo) -> ! {
    print(2, format_args!("{info}"), "\n");
    // SAFETY: it takes nothing.
    unsafe { abort() }
}
