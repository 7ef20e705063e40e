//! Call-backs and their panics, on the module of `guest`.

mod guest;

use guest::{at, call, count, taken, with_guest, Ended, Outcome, LIMITS};
use nc_sandbox::{ffi, Access, At, Caller, End, Module, Refusal, Sandbox, Untrusted};
use std::panic::{catch_unwind, resume_unwind, AssertUnwindSafe};
use std::sync::mpsc::channel;

/// What a call panicked with, as far as that is a text.
fn message<R>(call: impl FnOnce() -> R) -> Option<String> {
    let payload = catch_unwind(AssertUnwindSafe(call)).err()?;
    payload.downcast::<&str>().map(|text| text.to_string()).ok()
}

/// Panics without the report on stderr.
fn panic_with(text: &'static str) -> ! {
    resume_unwind(Box::new(text))
}

#[test]
fn callbacks_have_what_they_capture() -> Outcome {
    with_guest(|module| {
        let mut sandbox = Sandbox::new(module, LIMITS)?;
        let (mut calls, (tell, told)) = (100, channel());
        let f = sandbox.callback(1, move |caller, args| {
            calls += 1;
            tell.send(args[0].unchecked()).expect("somebody listens");
            call::<u64>(caller, "add", (args[0], calls)).expect("it returns")
        })?;
        assert_eq!(f, At::new(ffi::ncs_callback_at(0)));
        assert_eq!(call(&mut sandbox, "logged", (5,)), Ok(5 + 101 + 1));
        assert_eq!(call(&mut sandbox, "each", (3, f)), Ok(3 + 2 + 1 + 102 + 103 + 104));
        assert_eq!(told.try_iter().collect::<Vec<_>>(), [5, 3, 2, 1]);
        sandbox.reset()?;
        assert_eq!(call(&mut sandbox, "logged", (5,)), Ok(5 + 105 + 1));
        let passes =
            sandbox.callback(1, |caller, args| caller.call::<Untrusted<u32>>(at("wide"), args).expect("it returns"))?;
        assert_eq!(call(&mut sandbox, "each", (3, passes)), Ok(3 + 2 + 1));
        let writes = sandbox.callback(1, |caller, args| {
            let buffer = at("buffer");
            caller.bytes_mut(buffer, 1).expect("it is the box's")[0] = args[0].unchecked() as u8;
            u64::from(caller.set(At::new(8), b"x").is_err())
                + caller.text(buffer, 9).expect("it is the box's").len() as u64
        })?;
        assert_eq!(call(&mut sandbox, "each", (1, writes)), Ok(1 + 5));
        assert_eq!(sandbox.bytes(at("buffer"), 2)?, b"\x01i");
        Ok(())
    })
}

/// Code that passes on, as it is, what the first call-back returns: call 0x100; pop ecx; and ecx, -32; jmp ecx.
#[test]
fn results_of_callbacks() -> Outcome {
    with_guest(|_| {
        let mut code = [0x90; 64];
        code[27..38].copy_from_slice(b"\xE8\xE0\x00\xFF\xFF\x59\x83\xE1\xE0\xFF\xE1");
        let mut sandbox = Sandbox::new(&Module::code(&code)?, LIMITS)?;
        sandbox.callback(0, |_, _| 0x8234_5678_9ABC_DE00u64)?;
        let start = At::new(0x10000);
        assert_eq!(taken(sandbox.call(start, ())), Ok(0x8234_5678_9ABC_DE00u64));
        assert_eq!(sandbox.call::<At>(start, ())?, At::new(0x9ABC_DE00));
        assert_eq!(taken(sandbox.call(start, ())), Ok(-0x7DCB_A987_6543_2200i64));
        assert_eq!(taken(sandbox.call(start, ())), Ok(false));
        assert_eq!((taken(sandbox.call(start, ())), taken(sandbox.call(start, ()))), (Ok(-0x2200i16), Ok(0u8)));
        Ok(())
    })
}

#[test]
fn callbacks_that_are_not_given() -> Outcome {
    with_guest(|module| {
        let mut sandbox = Sandbox::new(module, LIMITS)?;
        for args in [13, 1 << 32, usize::MAX] {
            assert_eq!(sandbox.callback(args, |_, _| 0), Err(Refusal::NoCallback));
        }
        let twelve = sandbox.callback(12, |_, args| args.len() as u64)?;
        assert_eq!(call(&mut sandbox, "each", (1, twelve)), Ok(12));
        let none = sandbox.callback(0, |_, args| args.len() as u64)?;
        assert_eq!(call(&mut sandbox, "each", (1, none)), Ok(0));
        let given = (2..80).map_while(|_| sandbox.callback(0, |_, _| 0).ok()).count();
        assert_eq!(given, 62);
        Ok(())
    })
}

#[test]
fn a_callback_under_way_is_denied_a_second_call() -> Outcome {
    with_guest(|module| {
        let mut sandbox = Sandbox::new(module, LIMITS)?;
        sandbox.callback(1, |caller, args| {
            let within = call::<u32>(caller, "logged", (args[0],));
            assert!(matches!(within, Err(Ended(End::Denied { .. }))), "{within:?}");
            assert_eq!(call::<u32>(caller, "add", (1, 2)), Err(Ended(End::Dead)));
            7
        })?;
        let ended = call::<u32>(&mut sandbox, "logged", (1,));
        assert!(matches!(ended, Err(Ended(End::Denied { .. }))), "{ended:?}");
        let denies = sandbox.callback(0, |caller, _| {
            caller.deny();
            call::<u32>(caller, "add", (2, 3)).expect("it isn't dead yet")
        })?;
        sandbox.reset()?;
        let ended = call::<u32>(&mut sandbox, "each", (1, denies));
        assert!(matches!(ended, Err(Ended(End::Denied { .. }))), "{ended:?}");
        Ok(())
    })
}

#[test]
fn a_panic_comes_out_of_the_call() -> Outcome {
    with_guest(|module| {
        let mut sandbox = Sandbox::new(module, LIMITS)?;
        let mut is_first = true;
        let f = sandbox.callback(1, move |_, args| {
            if std::mem::take(&mut is_first) {
                panic_with("first");
            }
            args[0]
        })?;
        assert_eq!(message(|| call::<u32>(&mut sandbox, "logged", (5,))).as_deref(), Some("first"));
        assert_eq!(count(&mut sandbox), Err(Ended(End::Dead)));
        sandbox.reset()?;
        assert_eq!((count(&mut sandbox), call(&mut sandbox, "each", (4, f))), (Ok(41), Ok(10)));
        Ok(())
    })
}

/// Through calls within calls, of one box and of two.
#[test]
fn a_panic_comes_out_of_all_calls() -> Outcome {
    with_guest(|module| {
        let mut inner = Sandbox::new(module, LIMITS)?;
        inner.callback(1, |_, _| -> u32 { panic_with("inner") })?;
        let mut outer = Sandbox::new(module, LIMITS)?;
        outer.callback(1, move |caller, args| {
            if args[0].is(0) {
                return call::<u32>(&mut inner, "logged", (1,)).expect("it panics");
            }
            let seen = message(|| call::<u32>(caller, "each", (1, At::new(ffi::ncs_callback_at(1)))));
            assert_eq!(seen.as_deref(), Some("second"));
            panic_with("outer")
        })?;
        outer.callback(1, |_, _| -> u32 { panic_with("second") })?;
        assert_eq!(message(|| call::<u32>(&mut outer, "logged", (0,))).as_deref(), Some("inner"));
        assert_eq!(count(&mut outer), Err(Ended(End::Dead)));
        outer.reset()?;
        assert_eq!(message(|| call::<u32>(&mut outer, "logged", (1,))).as_deref(), Some("outer"));
        Ok(())
    })
}

/// A call-back that handles it goes on, and its box stays dead.
#[test]
fn a_panic_that_is_handled() -> Outcome {
    with_guest(|module| {
        let mut sandbox = Sandbox::new(module, LIMITS)?;
        let panics = sandbox.callback(0, |_, _| -> u32 { panic_with("handled") })?;
        let handles = sandbox.callback(0, move |caller, _| {
            assert!(message(|| call::<u32>(caller, "each", (1, panics))).is_some());
            5
        })?;
        let ended = call::<u32>(&mut sandbox, "each", (1, handles));
        assert!(matches!(ended, Err(Ended(End::Denied { .. }))), "{ended:?}");
        Ok(())
    })
}

/// Functions of a user work on a box and on a caller.
#[test]
fn callers_and_boxes_alike() -> Outcome {
    fn greeting(of: &impl Access) -> usize {
        of.text(at("greeting"), 80).map_or(0, |text| text.len())
    }
    with_guest(|module| {
        let mut sandbox = Sandbox::new(module, LIMITS)?;
        let greets = sandbox.callback(0, |caller: &mut Caller<'_>, _| greeting(caller) as u64)?;
        assert_eq!(call(&mut sandbox, "each", (1, greets)), Ok(greeting(&sandbox) as u32));
        Ok(())
    })
}
