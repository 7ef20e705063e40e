//! Ways to keep the handlers of others away. Where the system has no boxes, each test says so and ends.

use nc_sandbox::{signals, Access, At, Limits, Module, Refusal, Sandbox, Untrusted};
use std::error::Error;
use std::ffi::c_int;
use std::panic::{catch_unwind, resume_unwind};
use std::sync::{Mutex, PoisonError};
use std::{ptr, thread};

type Outcome = Result<(), Box<dyn Error>>;

const SIGUSR1: c_int = 10;
const SIGSEGV: c_int = 11;
const SIGUSR2: c_int = 12;
const SIG_SETMASK: c_int = 2;
const SIG_DFL: usize = 0;

/// `sigset_t` of glibc.
#[repr(C)]
struct Signals([u64; 16]);

extern "C" {
    fn pthread_sigmask(how: c_int, new: *const Signals, old: *mut Signals) -> c_int;
    fn signal(sig: c_int, handler: usize) -> usize;
}

extern "C" fn nothing(_sig: c_int) {}

fn is_blocked(sig: c_int) -> bool {
    let mut now = Signals([0; 16]);
    // SAFETY: the first pointer is null, so nothing changes, and the second one leads to a `sigset_t`.
    let told = unsafe { pthread_sigmask(SIG_SETMASK, ptr::null(), &mut now) };
    assert_eq!(told, 0);
    now.0[0] >> (sig - 1) & 1 == 1
}

/// Handles a signal without SA_ONSTACK, or in the default way.
fn handle(sig: c_int, handler: usize) {
    // SAFETY: it is the address of a function that may run at any time, or SIG_DFL.
    unsafe { signal(sig, handler) };
}

/// A box with a function at its begin that returns 5: mov eax, 5; pop ecx; and ecx, -32; jmp ecx.
fn five() -> Option<Sandbox> {
    let mut code = [0x90; 32];
    code[..11].copy_from_slice(&[0xB8, 5, 0, 0, 0, 0x59, 0x83, 0xE1, 0xE0, 0xFF, 0xE1]);
    match Module::code(&code) {
        Err(Refusal::BadSystem(why)) => {
            println!("skipped: signals in Rust: {why}");
            None
        }
        made => {
            let limits = Limits { memory: 2 << 20, depth: 1, milliseconds: 1000 };
            Some(Sandbox::new(&made.expect("it is accepted"), limits).expect("there is a box"))
        }
    }
}

fn returns_five(sandbox: &mut Sandbox) -> bool {
    sandbox.call::<Untrusted<u32>>(At::new(0x10000), ()).is_ok_and(|number| number.is(5))
}

/// Handlers are those of the process, so one test at a time changes them.
fn alone(test: impl FnOnce(Sandbox) -> Outcome) -> Outcome {
    static ONE: Mutex<()> = Mutex::new(());
    let _one = ONE.lock().unwrap_or_else(PoisonError::into_inner);
    five().map_or(Ok(()), test)
}

#[test]
fn signals_are_held_in_a_scope() -> Outcome {
    alone(|mut sandbox| {
        assert!(!is_blocked(SIGUSR1));
        let seen = signals::held(|| {
            assert!(is_blocked(SIGUSR1) && !is_blocked(SIGSEGV) && returns_five(&mut sandbox) && is_blocked(SIGUSR1));
            let inner = signals::held(|| is_blocked(SIGUSR1));
            (inner, is_blocked(SIGUSR1))
        })?;
        assert_eq!((seen, is_blocked(SIGUSR1)), ((Ok(true), true), false));
        let panics = catch_unwind(|| signals::held(|| resume_unwind(Box::new("held"))));
        assert!(panics.is_err() && !is_blocked(SIGUSR1));
        Ok(())
    })
}

/// A scope of one thread doesn't count for another one, which begins with the mask of the first.
#[test]
fn signals_are_held_in_one_thread() -> Outcome {
    alone(|_| {
        signals::held(|| {
            let other = thread::spawn(|| {
                let none = Signals([0; 16]);
                // SAFETY: the first pointer leads to a `sigset_t`, and the second one is null.
                let told = unsafe { pthread_sigmask(SIG_SETMASK, &none, ptr::null_mut()) };
                (told, is_blocked(SIGUSR1), signals::held(|| is_blocked(SIGUSR1)), is_blocked(SIGUSR1))
            });
            assert_eq!(other.join().expect("it doesn't panic"), (0, false, Ok(true), false));
            assert!(is_blocked(SIGUSR1));
        })?;
        Ok(())
    })
}

#[test]
fn a_promise_is_refused_while_it_is_untrue() -> Outcome {
    alone(|mut sandbox| {
        handle(SIGUSR2, nothing as *const () as usize);
        // SAFETY: no call is made before the handler is gone.
        let refused = unsafe { signals::promise_flags() };
        handle(SIGUSR2, SIG_DFL);
        assert_eq!(refused, Err(Refusal::BadHandler { signal: SIGUSR2 as u32 }));
        // SAFETY: the process has no handlers but the library's and those of Rust, which have the flag.
        unsafe { signals::promise_flags() }?;
        assert!(!is_blocked(SIGUSR1) && returns_five(&mut sandbox));
        signals::block()?;
        assert!(!is_blocked(SIGUSR1) && returns_five(&mut sandbox));
        Ok(())
    })
}
