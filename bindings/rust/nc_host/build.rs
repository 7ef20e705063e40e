//! Names the library to the linker. An installed crate has the included file in the place of this one.

include!("../linking.rs");
