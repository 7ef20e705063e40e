//! A safe interface of the C library `nc_sandbox`, which runs untrusted 32-bit code in boxes.
//!
//! Each method makes the call of the library that its documentation names, and `nc_sandbox.h` says what that call promises. This crate
//! is trusted, as the library is.
//!
//! A [`Module`] is code that was accepted, with its data. A [`Sandbox`] is a box, an instance of a module. By [`Access`] its owner calls
//! it, and reads and writes its memory. Call-backs are closures, which get a [`Caller`] that can do the same. A [`Killer`] ends calls from
//! other threads. Boxes beside one another, by [`Access::beside`], have [`Common`] memory, in which several threads can be at once.
//!
//! What comes out of a box may be anything. A number is an [`Untrusted`], and gives its value only to a check. An address is an [`At`],
//! which only calls of a box can follow. A range of bytes stays a slice of `u8`, since bytes mean nothing yet. What is made of them is
//! judged where they are parsed.
//!
//! Types keep most of what the header asks of its caller. Handlers of other crates may be as they like, since a thread that is inside gets
//! no signal but the library's own, as [`signals`] says. The rest stays with the host:
//!
//! - It leaves the library's own signals, alternate stacks and entries of the local descriptor table alone.
//! - It makes no call from a signal handler.
//! - It judges what it makes of a box's bytes.
//!
//! ```
//! use nc_sandbox::{Access, At, Limits, Module, Sandbox, Untrusted};
//!
//! /// mov eax, [esp + 4]; add eax, [esp + 8]; pop ecx; and ecx, -32; jmp ecx
//! const ADD: [u8; 14] = [0x8B, 0x44, 0x24, 4, 0x03, 0x44, 0x24, 8, 0x59, 0x83, 0xE1, 0xE0, 0xFF, 0xE1];
//!
//! # fn main() -> Result<(), Box<dyn std::error::Error>> {
//! let mut code = [0x90; 32];
//! code[..ADD.len()].copy_from_slice(&ADD);
//! let module = Module::code(&code)?;
//! let mut sandbox = Sandbox::new(&module, Limits { memory: 2 << 20, depth: 1, milliseconds: 100 })?;
//! let sum: Untrusted<u32> = sandbox.call(At::new(0x10000), (7u32, 8u32))?;
//! assert_eq!(sum.at_most(100), Some(15));
//! # Ok(())
//! # }
//! ```

#![warn(missing_docs)]
#![deny(unsafe_op_in_unsafe_fn)]

mod access;
mod callback;
mod end;
#[allow(missing_docs)]
pub mod ffi;
mod live;
mod memory;
mod module;
mod refusal;
mod sandbox;
mod shared;
pub mod signals;
mod stack;
mod trace;
mod untrusted;
mod wall;
mod words;

pub use access::Access;
pub use callback::Caller;
pub use end::End;
pub use live::{CodeSpan, Hole};
pub use memory::{Common, Memory, Own};
pub use module::Module;
pub use refusal::Refusal;
pub use sandbox::{Killer, Limits, Sandbox};
pub use trace::{Linear, Trace};
pub use untrusted::Untrusted;
pub use wall::{Folder, Stands, Wall};
pub use words::{Args, At, Returned, Word};
