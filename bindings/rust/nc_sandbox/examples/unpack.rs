//! Unpacks runs of letters by a decoder that nobody has to trust: `unpack UNPACK.ELF`. It does what examples/boxes/host.c does.

use nc_sandbox::{Access, At, End, Limits, Module, Sandbox, Untrusted};
use std::error::Error;

fn unpack(sandbox: &mut Sandbox, function: At, packed: &str) -> Result<(), Box<dyn Error>> {
    let (given, out) = (sandbox.put(packed.as_bytes())?, sandbox.take(64)?);
    match sandbox.call::<Untrusted<u32>>(function, (out, given, packed.len() as u32)).map(|len| len.at_most(64)) {
        Ok(Some(len)) => {
            let text = sandbox.bytes(out, len)?;
            println!("{packed}: {}", String::from_utf8_lossy(text));
        }
        Ok(None) => println!("{packed}: a length that is untrue"),
        Err(End::Faulted { trap, .. }) => println!("{packed}: faulted by interrupt {trap}"),
        Err(end) => println!("{packed}: {end}"),
    }
    sandbox.reset()?; // whatever happened, the box is as new
    Ok(())
}

fn main() -> Result<(), Box<dyn Error>> {
    let file = std::fs::read(std::env::args().nth(1).ok_or("usage: unpack UNPACK.ELF")?)?;
    let module = Module::elf(&file)?;
    let function = module.symbol("unpack").ok_or("it has no function unpack")?;
    let mut sandbox = Sandbox::new(&module, Limits { memory: 4 << 20, depth: 1, milliseconds: 100 })?;
    for packed in ["3a1b10c", "99999999a", "1o1k"] {
        unpack(&mut sandbox, function, packed)?;
    }
    Ok(())
}
