//! The second wall, around the process of this test. Where the system hasn't all of it, or no boxes, the test says so and ends.

use nc_sandbox::{Access, At, Folder, Limits, Module, Refusal, Sandbox, Stands, Untrusted, Wall};
use std::error::Error;
use std::fs::File;
use std::io::ErrorKind;
use std::os::fd::AsFd;
use std::thread;

/// `fcntl`, by which the standard library looks at each file that it closes, if it is compiled with assertions.
const FCNTL: i32 = 72;

/// mov eax, 7; pop ecx; and ecx, -32; jmp ecx
const SEVEN: [u8; 11] = [0xB8, 7, 0, 0, 0, 0x59, 0x83, 0xE1, 0xE0, 0xFF, 0xE1];

fn is_seven(module: &Module) -> Result<bool, Box<dyn Error>> {
    let mut sandbox = Sandbox::new(module, Limits { memory: 2 << 20, depth: 1, milliseconds: 100 })?;
    Ok(sandbox.call::<Untrusted<u32>>(At::new(0x10000), ())?.is(7))
}

#[test]
fn boxes_and_a_folder_behind_a_wall() -> Result<(), Box<dyn Error>> {
    let mut code = [0x90; 32];
    code[..SEVEN.len()].copy_from_slice(&SEVEN);
    let module = match Module::code(&code) {
        Err(Refusal::BadSystem(why)) => {
            println!("skipped: the second wall in Rust: {why}");
            return Ok(());
        }
        made => made?,
    };
    let (own, outside) =
        (concat!(env!("CARGO_MANIFEST_DIR"), "/src/wall.rs"), concat!(env!("CARGO_MANIFEST_DIR"), "/Cargo.toml"));
    let folder = File::open(concat!(env!("CARGO_MANIFEST_DIR"), "/src"))?;
    assert!(matches!(Wall { calls: &[-1], ..Wall::default() }.build(), Err(Refusal::BadLimits(_))));
    let wall = Wall { folders: &[Folder { file: folder.as_fd(), writable: false }], calls: &[FCNTL], threads: true };
    if wall.build() != Ok(Stands::Whole) {
        println!("skipped: the second wall in Rust: the system has no whole one");
        return Ok(());
    }
    assert!(matches!(wall.build(), Err(Refusal::BadSystem(_))));
    assert!(File::open(own).is_ok() && File::options().write(true).open(own).is_err());
    assert_eq!(File::open(outside).map_err(|error| error.kind()).err(), Some(ErrorKind::PermissionDenied));
    assert!(is_seven(&module)?);
    assert_eq!(thread::scope(|scope| scope.spawn(|| is_seven(&module).ok()).join().ok().flatten()), Some(true));
    Ok(())
}
