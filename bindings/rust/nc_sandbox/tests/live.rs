//! Live code. Where the system has no boxes, each test says so and ends.

use nc_sandbox::{Access, At, End, Limits, Module, Refusal, Sandbox, Untrusted};
use std::error::Error;
use std::sync::Arc;
use std::thread;

type Outcome = Result<(), Box<dyn Error>>;

const LIMITS: Limits = Limits { memory: 2 << 20, depth: 4, milliseconds: 10_000 };
const START: At = At::new(0x10000);
const OCCUPIED: u32 = 40; // NC_OCCUPIED of nc_host.h, and so on
const NO_CHUNK: u32 = 41;
const BOUNDARIES: u32 = 19;

/// mov eax, n
fn load(n: u8) -> [u8; 5] {
    [0xB8, n, 0, 0, 0]
}

/// A function that returns n: mov eax, n; pop ecx; and ecx, -32; jmp ecx.
fn returns(n: u8) -> [u8; 32] {
    let mut code = [0x90; 32];
    code[..5].copy_from_slice(&load(n));
    code[5..11].copy_from_slice(&[0x59, 0x83, 0xE1, 0xE0, 0xFF, 0xE1]);
    code
}

/// A module with room for 8 bundles, or `None` where the system has no boxes, which is told.
fn live() -> Option<Module> {
    match Module::live(8, 255) {
        Err(Refusal::BadSystem(why)) => {
            println!("skipped: live code in Rust: {why}");
            None
        }
        made => Some(made.expect("there is room")),
    }
}

/// What the function at an address returns, or where it stops.
fn call(sandbox: &mut Sandbox, function: At) -> Result<u32, At> {
    match sandbox.call(function, ()).map(Untrusted::unchecked) {
        Ok(number) => Ok(number),
        Err(End::Stopped { place }) => Err(place),
        Err(end) => panic!("{end}"),
    }
}

#[test]
fn a_chunk_comes_changes_and_goes() -> Outcome {
    let Some(module) = live() else { return Ok(()) };
    let mut sandbox = Sandbox::new(&module, LIMITS)?;
    assert_eq!(call(&mut sandbox, START), Err(START));
    module.create(START, &returns(5))?;
    sandbox.reset()?;
    assert_eq!(call(&mut sandbox, START), Ok(5));
    module.patch(START, &load(7))?;
    assert_eq!(call(&mut sandbox, START), Ok(7));
    module.delete(START)?;
    assert_eq!(call(&mut sandbox, START), Err(START));
    sandbox.reset()?;
    assert!(matches!(module.create(START, &returns(9)), Err(Refusal::BadChange { fault: OCCUPIED, .. })));
    assert_eq!((module.reclaim(), module.reclaim()), (1, 0));
    module.create(START, &returns(9))?;
    assert_eq!(call(&mut sandbox, START), Ok(9));
    drop(module);
    assert_eq!(call(&mut sandbox, START), Ok(9));
    Ok(())
}

#[test]
fn changes_that_are_refused() -> Outcome {
    let Some(module) = live() else { return Ok(()) };
    let mut bad = returns(5);
    bad[20] = 0xC3;
    assert!(matches!(module.create(START, &bad), Err(Refusal::BadCode { fault: 4, at, .. }) if at == START.offset(20)));
    assert!(matches!(module.create(START.offset(8), &returns(5)), Err(Refusal::BadCode { fault: 1, .. })));
    assert!(matches!(module.create(START, &[]), Err(Refusal::BadCode { fault: 2, .. })));
    module.create(START, &returns(5))?;
    assert!(matches!(module.patch(START, &[0x90; 5]), Err(Refusal::BadChange { fault: BOUNDARIES, .. })));
    assert!(module.patch(START, &[]).is_err() && module.patch(START, &[0x90; 33]).is_err());
    let refused = module.delete(START.offset(32)).expect_err("there is no chunk");
    assert!(matches!(refused, Refusal::BadChange { fault: NO_CHUNK, .. }) && !refused.to_string().is_empty());
    let fixed = Module::code(&returns(5))?;
    assert_eq!((fixed.create(START, &returns(5)), fixed.delete(START)), (Err(Refusal::NotLive), Err(Refusal::NotLive)));
    assert_eq!((fixed.patch(START, &load(1)), fixed.reclaim()), (Err(Refusal::NotLive), 0));
    assert!(matches!(Module::live(0, 255), Err(Refusal::BadLimits(_))));
    Ok(())
}

/// A call-back that puts code which its box has made, as a compiler in a box asks for it.
#[test]
fn code_that_a_box_has_made() -> Outcome {
    let Some(module) = live().map(Arc::new) else { return Ok(()) };
    let mut sandbox = Sandbox::new(&module, LIMITS)?;
    let (made, known) = (sandbox.put(&returns(11))?, Arc::clone(&module));
    let puts = sandbox.callback(0, move |caller, _| {
        let code = caller.bytes(made, 32).expect("it is the box's");
        known.create(START.offset(64), code).is_ok()
    })?;
    // call the call-back, at the end of a bundle; pop ecx; and ecx, -32; jmp ecx
    let mut code = [0x90; 64];
    code[27..38].copy_from_slice(b"\xE8\xE0\x00\xFF\xFF\x59\x83\xE1\xE0\xFF\xE1");
    module.create(START, &code)?;
    assert_eq!((puts, call(&mut sandbox, START)), (At::new(0x100), Ok(1)));
    assert_eq!(call(&mut sandbox, START.offset(64)), Ok(11));
    Ok(())
}

/// Threads call what another one changes. Each call returns a number that was put, or finds no code.
#[test]
fn threads() -> Outcome {
    let Some(module) = live() else { return Ok(()) };
    module.create(START, &returns(0))?;
    thread::scope(|scope| {
        let callers: Vec<_> = (0..2).map(|_| scope.spawn(|| call_often(&module))).collect();
        for n in (0..100).cycle().take_while(|_| callers.iter().any(|caller| !caller.is_finished())) {
            change(&module, n)?;
        }
        Ok(())
    })
}

fn change(module: &Module, n: u8) -> Result<(), Refusal> {
    if n % 8 != 0 {
        return module.patch(START, &load(n));
    }
    module.delete(START)?;
    while module.reclaim() == 0 {
        thread::yield_now();
    }
    module.create(START, &returns(n))
}

fn call_often(module: &Module) {
    let mut sandbox = Sandbox::new(module, LIMITS).expect("there is a box");
    for _ in 0..5000 {
        match call(&mut sandbox, START) {
            Ok(n) => assert!(n < 100, "{n}"),
            Err(_) => sandbox.reset().expect("it is reset"),
        }
    }
}
