//! In the place of the crate of this name: what rustc's code calls besides is in the C library.
#![feature(compiler_builtins)]
#![compiler_builtins]
#![no_std]
