//! Lives of boxes, on the module of `guest`.

mod guest;

use guest::{at, call, count, taken, with_guest, Ended, Outcome, LIMITS};
use nc_sandbox::{Access, At, End, Killer, Limits, Module, Refusal, Sandbox, Untrusted};
use std::cell::RefCell;
use std::sync::atomic::{AtomicBool, AtomicUsize, Ordering::SeqCst};
use std::sync::{Arc, Mutex};
use std::thread;

const BRIEF: Limits = Limits { milliseconds: 30, ..LIMITS };

#[test]
fn calls_and_ends() -> Outcome {
    with_guest(|module| {
        let mut sandbox = Sandbox::new(module, LIMITS)?;
        assert_eq!(call(&mut sandbox, "add", (2, 3u32)), Ok(5));
        assert_eq!(call(&mut sandbox, "add", (-7, 3u8)), Ok(-4));
        assert_eq!(call(&mut sandbox, "add", (-1i8, true)), Ok(false));
        assert_eq!(call(&mut sandbox, "wide", (0x0123_4567_89AB_CDEFu64,)), Ok(0x0123_4567_89AB_CDEFu64));
        assert_eq!(call(&mut sandbox, "wide", (-2i64,)), Ok(-2i64));
        assert_eq!(call(&mut sandbox, "ninth", (1, 2, 3, 4, 5, 6, 7, 8, at("add"))), Ok(at("add")));
        assert_eq!(sandbox.call::<At>(at("ninth"), (1, 2, 3, 4, 5, 6, 7, 8, at("add")))?, at("add"));
        assert_eq!(call(&mut sandbox, "ninth", &[1, 2, 3, 4, 5, 6, 7, 8, 9u32][..]), Ok(9));
        assert_eq!(call::<u32>(&mut sandbox, "ninth", &[0; 16][..]), Ok(0));
        assert_eq!(call::<u32>(&mut sandbox, "ninth", &[0; 17][..]), Err(Ended(End::Host)));
        assert_eq!(
            call::<u32>(&mut sandbox, "ninth", (0u64, 0u64, 0u64, 0u64, 0u64, 0u64, 0u64, 0u64, 1)),
            Err(Ended(End::Host))
        );
        assert_eq!(
            sandbox.call(At::new(0x20), ()).map_err(Ended),
            Err::<(), _>(Ended(End::BadEntry { place: At::new(0) }))
        );
        assert_eq!(sandbox.call(at("count"), ()).map_err(Ended), Ok(()));
        assert_eq!((count(&mut sandbox), count(&mut sandbox)), (Ok(42), Ok(43)));
        assert_eq!(call::<u32>(&mut sandbox, "leave", (9,)), Err(Ended(End::Exited { status: Untrusted::new(9) })));
        assert_eq!(count(&mut sandbox), Err(Ended(End::Dead)));
        sandbox.reset()?;
        assert_eq!(count(&mut sandbox), Ok(41));
        let place = at("stop");
        assert_eq!(call::<u32>(&mut sandbox, "stop", ()), Err(Ended(End::Stopped { place })));
        sandbox.reset()?;
        let touched = call::<u32>(&mut sandbox, "touch", (0x1234,));
        let address = At::new(0x1234);
        assert!(
            matches!(touched, Err(Ended(End::Faulted { trap: 14, data: Some(data), .. })) if data == address),
            "{touched:?}"
        );
        Ok(())
    })
}

#[test]
fn memory() -> Outcome {
    with_guest(|module| {
        let mut sandbox = Sandbox::new(module, LIMITS)?;
        let (buffer, last, end) = (at("buffer"), At::new(LIMITS.memory - 1), At::new(LIMITS.memory));
        assert_eq!(sandbox.text(at("greeting"), 100)?, b"good morning");
        assert_eq!((sandbox.text(at("greeting"), 4)?, sandbox.text(at("greeting"), 0)?), (b"good".to_vec(), vec![]));
        assert_eq!(sandbox.text(At::new(0), 4), Err(Refusal::NotInBox { at: At::new(0) }));
        let mut six = [0; 6];
        sandbox.get(&mut six, buffer)?;
        assert_eq!(&six, b"first\0");
        sandbox.set(buffer, b"other")?;
        sandbox.bytes_mut(buffer.offset(1), 2)?.fill(b'x');
        assert_eq!(sandbox.bytes(buffer, 6)?, b"oxxer\0");
        sandbox.set(last, b"x")?;
        assert_eq!(sandbox.text(last, 9), Err(Refusal::NotInBox { at: last }));
        for (at, len) in [
            (last, 2),
            (end, 1),
            (At::new(0xFFFF), 1),
            (At::new(0), 0),
            (At::new(0x10000), u32::MAX as usize),
            (buffer, 1 << 32),
        ] {
            assert_eq!(sandbox.bytes(at, len), Err(Refusal::NotInBox { at }));
            assert_eq!(sandbox.bytes_mut(at, len).map(|range| range.len()), Err(Refusal::NotInBox { at }));
        }
        for (at, copy) in [(last, &mut [1; 2][..]), (end, &mut [1]), (At::new(0xFFFF), &mut [1]), (At::new(0), &mut [])]
        {
            assert_eq!(sandbox.get(copy, at), Err(Refusal::NotInBox { at }));
            assert_eq!(sandbox.set(at, copy), Err(Refusal::NotInBox { at }));
        }
        assert_eq!(sandbox.bytes(last, 1)?, b"x");
        assert_eq!((sandbox.bytes(end, 0)?.len(), sandbox.bytes_mut(last, 1)?.len()), (0, 1));
        let given = sandbox.put(&[3; 256])?;
        assert_eq!(call(&mut sandbox, "sum", (given, 256)), Ok(768));
        assert!(given.number().check(|at| at % 16 == 0).is_some() && sandbox.put(&[])? == given.offset(256));
        assert_eq!(
            (sandbox.take(LIMITS.memory as usize), sandbox.take(1 << 32)),
            (Err(Refusal::NoRoom), Err(Refusal::NoRoom))
        );
        sandbox.reset()?;
        assert_eq!((sandbox.take(1)?, sandbox.bytes(last, 1)?), (given, &[0][..]));
        Ok(())
    })
}

/// The buffer begins with "first", then it has zeros.
#[test]
fn words_of_memory() -> Outcome {
    with_guest(|module| {
        let mut sandbox = Sandbox::new(module, LIMITS)?;
        let (buffer, end) = (at("buffer"), At::new(LIMITS.memory));
        assert!(sandbox.read::<Untrusted<u8>>(buffer)?.is(b'f') && sandbox.read::<At>(buffer)? == At::new(0x7372_6966));
        assert!(sandbox.read::<Untrusted<u16>>(buffer.offset(1))?.is(0x7269));
        assert!(sandbox.read::<Untrusted<u32>>(buffer)?.is(0x7372_6966));
        assert!(sandbox.read::<Untrusted<u64>>(buffer)?.is(0x74_7372_6966));
        let (full, empty) =
            (sandbox.read::<Untrusted<bool>>(buffer)?, sandbox.read::<Untrusted<bool>>(buffer.offset(5))?);
        assert!(full.is(true) && empty.is(false));
        sandbox.set(buffer, b"\xFE\xFF")?;
        assert!(sandbox.read::<Untrusted<i8>>(buffer)?.is(-2) && sandbox.read::<Untrusted<i16>>(buffer)?.is(-2));
        assert!(sandbox.read::<Untrusted<i32>>(At::new(LIMITS.memory - 4))?.is(0));
        for (at, len) in [(At::new(LIMITS.memory - 3), 4), (end, 1), (At::new(0), 1)] {
            let refused = if len == 4 { sandbox.read::<At>(at).err() } else { sandbox.read::<Untrusted<u8>>(at).err() };
            assert_eq!(refused, Some(Refusal::NotInBox { at }));
        }
        Ok(())
    })
}

#[test]
fn boxes_go_from_thread_to_thread() -> Outcome {
    with_guest(|module| {
        let shared = Mutex::new(Sandbox::new(module, LIMITS)?);
        thread::scope(|scope| {
            for _ in 0..4 {
                scope.spawn(|| {
                    for _ in 0..500 {
                        assert!(count(&mut shared.lock().expect("no thread panics")).is_ok());
                        let mut own = Sandbox::new(module, BRIEF).expect("there is a box");
                        assert_eq!(count(&mut own), Ok(41));
                    }
                });
            }
        });
        assert_eq!(count(&mut shared.into_inner()?), Ok(40 + 4 * 500 + 1));
        Ok(())
    })
}

#[test]
fn killers() -> Outcome {
    with_guest(|module| {
        let (mut sandbox, mut brief) = (Sandbox::new(module, LIMITS)?, Sandbox::new(module, BRIEF)?);
        let killer = sandbox.killer();
        let spins = thread::spawn(move || {
            let ended = call::<u32>(&mut sandbox, "spin", ());
            sandbox.reset().map(|()| (ended, count(&mut sandbox)))
        });
        assert!(matches!(call::<u32>(&mut brief, "spin", ()), Err(Ended(End::Late { .. }))));
        assert!(killer.clone().kill());
        let (ended, counted) = spins.join().expect("it doesn't panic")?;
        assert!(matches!(ended, Err(Ended(End::Killed { .. }))) && counted == Ok(41), "{ended:?} {counted:?}");
        assert!(!killer.kill());
        brief.reset()?;
        brief.killer().kill();
        assert!(matches!(count(&mut brief), Err(Ended(End::Killed { .. }))));
        Ok(())
    })
}

/// Ends the threads that look at it, also where a test panics.
struct Over<'a>(&'a AtomicBool);

impl Drop for Over<'_> {
    fn drop(&mut self) {
        self.0.store(true, SeqCst);
    }
}

/// Threads kill while the owner drops one box after the other.
#[test]
fn killers_outlive_their_boxes() -> Outcome {
    with_guest(|module| {
        let (killers, is_over) = (Mutex::new(Vec::<Killer>::new()), AtomicBool::new(false));
        thread::scope(|scope| {
            for _ in 0..3 {
                scope.spawn(|| {
                    while !is_over.load(SeqCst) {
                        let known = killers.lock().expect("no thread panics").clone();
                        known.iter().for_each(|killer| _ = killer.kill());
                    }
                });
            }
            let _over = Over(&is_over);
            for k in 0..2000 {
                let mut sandbox = Sandbox::new(module, LIMITS).expect("there is a box");
                let mut known = killers.lock().expect("no thread panics");
                known.push(sandbox.killer());
                known.drain(..k % 2);
                drop(known);
                assert!(matches!(count(&mut sandbox), Ok(41) | Err(Ended(End::Killed { .. }))));
            }
        });
        let known = killers.into_inner()?;
        assert!(known.len() == 1000 && known.iter().all(|killer| !killer.kill()));
        Ok(())
    })
}

/// Counts how often it is dropped.
struct Held(Arc<AtomicUsize>);

impl Drop for Held {
    fn drop(&mut self) {
        self.0.fetch_add(1, SeqCst);
    }
}

#[test]
fn what_is_dropped_and_what_is_forgotten() -> Outcome {
    with_guest(|module| {
        let drops = Arc::new(AtomicUsize::new(0));
        for k in 0..4000 {
            let (mut sandbox, held) = (Sandbox::new(module, LIMITS)?, Held(Arc::clone(&drops)));
            sandbox.callback(0, move |_, _| held.0.load(SeqCst) as u64)?;
            let refused = Held(Arc::clone(&drops));
            assert!(sandbox.callback(99, move |_, _| refused.0.load(SeqCst) as u64).is_err());
            assert_eq!(drops.load(SeqCst), 2 * k + 1);
        }
        assert_eq!(drops.load(SeqCst), 8000);
        let (mut sandbox, held) = (Sandbox::new(module, LIMITS)?, Held(Arc::clone(&drops)));
        sandbox.callback(0, move |_, _| held.0.load(SeqCst) as u64)?;
        let killer = sandbox.killer();
        std::mem::forget(sandbox);
        assert!(killer.kill() && drops.load(SeqCst) == 8000);
        Ok(())
    })
}

#[test]
fn a_box_keeps_its_module() -> Outcome {
    with_guest(|_| {
        let mut code = [0x90; 32];
        code[..14].copy_from_slice(b"\x8B\x44\x24\x04\x03\x44\x24\x08\x59\x83\xE1\xE0\xFF\xE1");
        let module = Module::code(&code)?;
        assert_eq!((module.symbol("add"), module.symbol("a\0b")), (None, None));
        let mut sandbox = Sandbox::new(&module, LIMITS)?;
        drop(module);
        assert_eq!(taken(sandbox.call(At::new(0x10000), (7, 8))), Ok(15));
        Ok(())
    })
}

#[test]
fn what_a_box_was_doing() -> Outcome {
    with_guest(|module| {
        let mut sandbox = Sandbox::new(module, LIMITS)?;
        assert!(sandbox.trace().is_none());
        let ended: Result<(), End> = sandbox.call(at("touch"), (0x1234u32, 0u32));
        let Err(End::Faulted { place, .. }) = ended else { panic!("it ended otherwise") };
        let trace = sandbox.trace().ok_or("no trace")?;
        assert_eq!((trace.is_full, trace.calls.len()), (false, 0));
        assert_eq!(module.function_at(place).map(|(name, _)| name), Some("touch"));
        let linear = sandbox.linear();
        assert!(linear.file.from <= place && place < linear.file.end() && linear.code != linear.data);
        sandbox.reset()?;
        assert!(sandbox.trace().is_none());
        Ok(())
    })
}

#[test]
fn names_of_places() -> Outcome {
    with_guest(|module| {
        assert_eq!((module.entry(), module.function_at(at("sum").offset(3))), (at("start"), Some(("sum", 3))));
        assert_eq!((module.function_at(At::new(0)), module.function_at(at("greeting"))), (None, None));
        assert!(
            module.functions().contains(&(at("sum"), "sum")) && !module.functions().iter().any(|f| f.1 == "greeting")
        );
        let file = std::fs::read(std::env::var("NC_SANDBOX_GUEST")?)?;
        assert_eq!(
            (Module::function_in(&file, at("add")), Module::function_in(&[], at("add"))),
            (Some(("add", 0)), None)
        );
        Ok(())
    })
}

#[test]
fn refusals() -> Outcome {
    with_guest(|module| {
        assert!(matches!(Module::elf(b"\x7FELF"), Err(Refusal::BadFile(_))));
        let mut code = [0x90; 32];
        code[5] = 0xC3;
        let refused = Module::code(&code).expect_err("it has a return");
        assert!(matches!(refused, Refusal::BadCode { fault: 4, at, .. } if at == At::new(0x10005)));
        assert_eq!(refused.to_string(), "no permitted instruction is at the address, within its bundle (00010005)");
        let refused = Sandbox::new(module, Limits { depth: 65, ..LIMITS }).expect_err("it is too deep");
        assert_eq!(refused, Refusal::BadLimits("the depth of calls isn't 1 to 64"));
        let lost = Refusal::LostHandler { signal: 11 };
        assert_eq!(lost.to_string(), "signal 11 of the library's has another handler by now");
        assert_eq!(Refusal::NotInBox { at: At::new(8) }.to_string(), "what begins at 00000008 isn't all the box's");
        let end = End::Faulted { place: At::new(0x10020), trap: 14, data: Some(At::new(8)) };
        assert_eq!(end.to_string(), "faulted by interrupt 14 at 00010020, data 00000008");
        Ok(())
    })
}

/// A box that is called once more when its thread ends, and what came of it.
struct Late(Sandbox, Arc<Mutex<Option<Result<u32, Ended>>>>);

impl Drop for Late {
    fn drop(&mut self) {
        *self.1.lock().expect("no thread panics") = Some(count(&mut self.0));
    }
}

/// Rust has taken away the stack for signals by then, so a tick would be handled on the stack of the untrusted code.
#[test]
fn no_call_when_a_thread_ends() -> Outcome {
    thread_local!(static LATE: RefCell<Option<Late>> = const { RefCell::new(None) });
    with_guest(|module| {
        let mut sandbox = Sandbox::new(module, LIMITS)?;
        let came = Arc::new(Mutex::new(None));
        let tell = Arc::clone(&came);
        let lives = thread::spawn(move || {
            assert_eq!((count(&mut sandbox), count(&mut sandbox)), (Ok(41), Ok(42)));
            LATE.with(|late| late.replace(Some(Late(sandbox, tell)))).is_none()
        });
        assert!(lives.join().expect("it doesn't panic"));
        assert_eq!(*came.lock().map_err(|_| "poisoned")?, Some(Err(Ended(End::Host))));
        Ok(())
    })
}

/// In a forked child calls, resets and new boxes are refused, and values may be dropped all the same.
#[test]
fn children() -> Outcome {
    extern "C" {
        fn fork() -> i32;
        fn waitpid(child: i32, status: *mut i32, options: i32) -> i32;
        fn _exit(status: i32) -> !;
    }
    with_guest(|module| {
        let mut sandbox = Sandbox::new(module, LIMITS)?;
        // SAFETY: the child makes no call that needs another thread, and ends by _exit.
        let child = unsafe { fork() };
        if child == 0 {
            let is_refused = count(&mut sandbox) == Err(Ended(End::Host)) && sandbox.reset() == Err(Refusal::NotReset);
            let made = Sandbox::new(module, LIMITS).err();
            drop(sandbox);
            // SAFETY: as above.
            unsafe { _exit(if is_refused && matches!(made, Some(Refusal::BadSystem(_))) { 0 } else { 1 }) }
        }
        let mut status = -1;
        // SAFETY: the pointer leads to a status.
        assert!(child > 0 && unsafe { waitpid(child, &mut status, 0) } == child && status == 0, "{status}");
        assert_eq!(count(&mut sandbox), Ok(41));
        Ok(())
    })
}
