//! What the tests share that run a module of sandbox/tests/guest.c, which NC_SANDBOX_GUEST names. Where it isn't set, or the system has no
//! boxes, each test says so and ends.

use nc_sandbox::{Access, Args, At, End, Limits, Module, Refusal, Sandbox, Untrusted, Word};
use std::error::Error;
use std::sync::OnceLock;

pub type Outcome = Result<(), Box<dyn Error>>;

pub const LIMITS: Limits = Limits { memory: 0x120000, depth: 8, milliseconds: 10_000 };

/// The module, which is made once.
fn guest() -> Option<&'static Module> {
    static GUEST: OnceLock<Option<Module>> = OnceLock::new();
    GUEST.get_or_init(made).as_ref()
}

fn made() -> Option<Module> {
    let Ok(path) = std::env::var("NC_SANDBOX_GUEST") else {
        println!("skipped: lives of boxes in Rust: NC_SANDBOX_GUEST isn't set");
        return None;
    };
    match Module::elf(&std::fs::read(path).expect("the guest is read")) {
        Err(Refusal::BadSystem(why)) => {
            println!("skipped: lives of boxes in Rust: {why}");
            None
        }
        made => Some(made.expect("the guest is accepted")),
    }
}

/// Runs a test with the module, or not at all.
pub fn with_guest(test: fn(&'static Module) -> Outcome) -> Outcome {
    guest().map_or(Ok(()), test)
}

pub fn at(name: &str) -> At {
    guest().and_then(|module| module.symbol(name)).unwrap_or_default()
}

/// An end that can be compared, by what `Debug` says of it.
#[derive(Debug)]
pub struct Ended(pub End);

impl PartialEq for Ended {
    fn eq(&self, other: &Ended) -> bool {
        format!("{:?}", self.0) == format!("{:?}", other.0)
    }
}

/// Whatever a call returns.
pub fn taken<R: Word>(called: Result<Untrusted<R>, End>) -> Result<R, Ended> {
    called.map(Untrusted::unchecked).map_err(Ended)
}

pub fn call<R: Word>(to: &mut impl Access, name: &str, args: impl Args) -> Result<R, Ended> {
    taken(to.call(at(name), args))
}

pub fn count(sandbox: &mut Sandbox) -> Result<u32, Ended> {
    call(sandbox, "count", ())
}
