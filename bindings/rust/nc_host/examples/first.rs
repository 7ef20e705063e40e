//! A first host in Rust: what examples/host/first.c does, by the safe interface of the library.
//!
//! It executes nothing, and has no thread but its own. tests/nc_host/bindings compares what it prints with first.txt. From the top of the
//! repository, with the library built and `kit` set as in docs/INSTALL.md:
//!
//!     mkdir -p out && cp crates/nc_host/out/libnc_host.a "$kit/c/liblibc_c.a" out
//!     (cd bindings/rust/nc_host && NC_HOST_LIB_DIR=../../../out cargo run --example first)
//!
//! Without `NC_HOST_LIB_DIR` the crate asks pkg-config for `nc_host`.

use nc_host::{Act, Acts, Fault, RawAct, Region, BUNDLE, START, STOP};
use std::sync::atomic::{AtomicU8, Ordering::SeqCst};

const BUNDLES: u32 = 4;
/// Places that are enough for the acts of any change of a chunk of one bundle but a long patch's.
const ROOM: usize = BUNDLE + 2;

/// What threads would execute.
struct Memory(Vec<AtomicU8>);

impl Memory {
    fn new() -> Memory {
        Memory((0..BUNDLES as usize * BUNDLE).map(|_| AtomicU8::new(STOP)).collect())
    }

    /// Makes the acts of a change, one after the other.
    fn make(&self, acts: Acts<'_>) {
        for act in acts.written_out(START, &[]) {
            match act {
                Act::Put { at, byte } => self.0[(at - START) as usize].store(byte, SeqCst),
                Act::Serialize => {} // here each processor that runs a thread of the host would serialize: membarrier, on Linux
                Act::Mark { .. } | Act::Bump => {}
                Act::PutRun { .. } | Act::StopRun { .. } => unreachable!("no runs were asked for"),
            }
        }
    }

    fn show(&self, name: &str) {
        let byte = |k: usize| self.0[k].load(SeqCst);
        println!("{name}: no fault; memory begins {:02x} {:02x}", byte(0), byte(1));
    }
}

/// `mov eax, 5`; a jump to the bundle start below the region, where a way out would stand; nops up to the bundle's end.
fn first_code() -> [u8; BUNDLE] {
    let (behind_jump, out) = (START + 10, START - BUNDLE as u32);
    let mut code = [0x90; BUNDLE];
    code[..6].copy_from_slice(&[0xB8, 5, 0, 0, 0, 0xE9]);
    code[6..10].copy_from_slice(&out.wrapping_sub(behind_jump).to_le_bytes());
    code
}

fn main() -> Result<(), Fault> {
    let code = first_code();
    let other = [0xB8, 7, 0, 0, 0]; // mov eax, 7: the whole instruction, not only its number
    let mut buffer = [RawAct::default(); ROOM];
    let memory = Memory::new();
    let mut region = Region::new(BUNDLES, 1)?;
    let mut seat = region.seat()?;

    memory.make(region.create(START, &code, &mut buffer)?);
    memory.show("create");
    memory.make(region.patch(START, &other, &mut buffer)?);
    memory.show("patch");
    let deletion = region.begin_delete(START, &mut buffer)?;
    memory.make(deletion.acts()); // first the stops,
    deletion.finish(); // then the stamp
    memory.show("delete");
    println!("reclaimed: {}", region.reclaim()?);
    seat.check_in(); // by the seat's thread, once it is outside
    println!("reclaimed: {}", region.reclaim()?);
    memory.make(region.create(START, &code, &mut buffer)?);
    memory.show("create again");
    Ok(())
}
