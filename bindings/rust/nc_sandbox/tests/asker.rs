//! Boxes beside one another, and code that boxes make, on a module of sandbox/tests/asker.c, which NC_SANDBOX_ASKER names. Where it isn't
//! set, or the system has no live code, each test says so and ends.

use nc_sandbox::{ffi, Access, Args, At, CodeSpan, Common, End, Hole, Limits, Module, Refusal, Sandbox, Untrusted};
use std::error::Error;
use std::panic::{catch_unwind, resume_unwind, AssertUnwindSafe};
use std::thread;

type Outcome = Result<(), Box<dyn Error>>;

const LIMITS: Limits = Limits { memory: 0x20_0000, depth: 4, milliseconds: 10_000 };
const BUNDLES: u32 = 0x1000;
const STACK: u32 = 0x8000;
const ROUNDS: u32 = 1000;
const EINVAL: u32 = -22i32 as u32;
const OCCUPIED: u32 = 40; // NC_OCCUPIED of nc_host.h
const FIRST: At = At::new(ffi::ncs_callback_at(0));

/// A module that begins as the asker, with room for more code.
struct Asker(Module);

/// Runs a test with one of its own, in whose boxes so many calls may be under way, or not at all.
fn with_asker(calls: u32, test: fn(&Asker) -> Outcome) -> Outcome {
    let Ok(path) = std::env::var("NC_SANDBOX_ASKER") else {
        println!("skipped: boxes beside others in Rust: NC_SANDBOX_ASKER isn't set");
        return Ok(());
    };
    match Module::live_elf(&std::fs::read(path)?, BUNDLES, calls) {
        Err(Refusal::BadSystem(why)) => {
            println!("skipped: boxes beside others in Rust: {why}");
            Ok(())
        }
        made => test(&Asker(made?)),
    }
}

impl Asker {
    fn at(&self, name: &str) -> At {
        self.0.symbol(name).unwrap_or_default()
    }

    fn common(&self) -> Result<Sandbox<Common>, Refusal> {
        Sandbox::common(&self.0, LIMITS)
    }

    fn call(&self, to: &mut impl Access, name: &str, args: impl Args) -> Result<u32, End> {
        to.call(self.at(name), args).map(Untrusted::unchecked)
    }

    /// What a call returns, or `None` however it ends.
    fn result(&self, to: &mut impl Access, name: &str, args: impl Args) -> Option<u32> {
        self.call(to, name, args).ok()
    }

    /// Where word k is by which code in a loop is told to end, and tells that it runs.
    fn word(&self, k: u32) -> At {
        self.at("words").offset(4 * k)
    }

    /// Code that runs until word 0 is set, and what came of it.
    fn stay(&self, to: &mut impl Access) -> Result<u32, End> {
        self.call(to, "run_often", (self.at("seven"), 7))
    }

    fn until_inside(&self, of: &impl Access) {
        while of.read::<Untrusted<u32>>(self.word(1)).is_ok_and(|count| count.is(0)) {
            thread::yield_now();
        }
    }

    /// The whole room's first hole.
    fn hole(&self) -> Hole {
        self.0.hole(At::new(0), At::new(u32::MAX))
    }
}

/// A function that returns n: mov eax, n; pop ecx; and ecx, -32; jmp ecx.
fn returns(n: u8) -> [u8; 32] {
    let mut code = [0x90; 32];
    code[..11].copy_from_slice(&[0xB8, n, 0, 0, 0, 0x59, 0x83, 0xE1, 0xE0, 0xFF, 0xE1]);
    code
}

/// A box beside another one, with a stack from its heap.
fn beside(of: &mut impl Access<Memory = Common>, milliseconds: u32) -> Result<Sandbox<Common>, Refusal> {
    let top = of.take(STACK as usize)?.offset(STACK);
    of.beside(top, 2, milliseconds)
}

#[test]
fn a_module_that_begins_as_a_file() -> Outcome {
    with_asker(4, |asker| {
        let (room, file) = (asker.0.room(), std::fs::read(std::env::var("NC_SANDBOX_ASKER")?)?);
        assert!(room.from.number().check(|at| at % 4096 == 0).is_some());
        assert!((BUNDLES * 32..=BUNDLES * 32 + 4096).contains(&room.len));
        let mut sandbox = Sandbox::new(&asker.0, LIMITS)?;
        assert!(
            matches!(asker.call(&mut sandbox, "run", (room.from,)), Err(End::Stopped { place }) if place == room.from)
        );
        sandbox.reset()?;
        asker.0.create(room.from, &returns(5))?;
        assert_eq!(asker.result(&mut sandbox, "run", (room.from,)), Some(5));
        assert_eq!(asker.result(&mut sandbox, "seven", ()), Some(7));
        assert_eq!((Module::elf(&file)?.room().len, Module::live(8, 1)?.room().from), (0, At::new(0x10000)));
        assert!(matches!(Module::live_elf(b"none", 8, 1), Err(Refusal::BadFile(_))));
        for (bundles, calls) in [(0, 1), (1 << 21, 1), (8, 0), (8, 256)] {
            assert!(matches!(Module::live_elf(&file, bundles, calls), Err(Refusal::BadLimits(_))));
            assert!(matches!(Module::live(bundles, calls), Err(Refusal::BadLimits(_))));
        }
        Ok(())
    })
}

/// Calls within calls count too.
#[test]
fn calls_under_way() -> Outcome {
    fn within(asker: &Asker) -> Result<Option<End>, Box<dyn Error>> {
        let (mut sandbox, seven) = (Sandbox::new(&asker.0, LIMITS)?, asker.at("seven"));
        let (tell, told) = std::sync::mpsc::channel();
        sandbox.callback(0, move |caller, _| tell.send(caller.call::<()>(seven, ())).is_ok())?;
        assert_eq!(asker.result(&mut sandbox, "find", (0, 0)), Some(1));
        Ok(told.recv()?.err())
    }
    with_asker(1, |asker| {
        assert!(matches!(within(asker)?, Some(End::Busy)));
        Ok(())
    })?;
    with_asker(2, |asker| {
        assert!(within(asker)?.is_none());
        Ok(())
    })
}

#[test]
fn holes() -> Outcome {
    with_asker(4, |asker| {
        let CodeSpan { from, len } = asker.0.room();
        assert_eq!(asker.hole(), Hole { at: from, len, held: 0 });
        asker.0.create(from.offset(64), &returns(5))?;
        assert_eq!(asker.hole(), Hole { at: from, len: 64, held: 0 });
        assert_eq!(asker.0.hole(from, from.offset(32)), Hole { at: from, len: 32, held: 0 });
        assert_eq!(
            asker.0.hole(from.offset(64), asker.0.room().end()),
            Hole { at: from.offset(96), len: len - 96, held: 0 }
        );
        assert_eq!(asker.0.hole(from.offset(64), from.offset(96)), Hole { at: from.offset(96), len: 0, held: 0 });
        let mut inside = asker.common()?;
        let mut other = beside(&mut inside, 1000)?;
        thread::scope(|scope| {
            let stays = scope.spawn(move || asker.stay(&mut inside));
            asker.until_inside(&other);
            asker.0.delete(from.offset(64))?;
            assert_eq!(
                asker.0.hole(from.offset(64), asker.0.room().end()),
                Hole { at: from.offset(96), len: len - 96, held: 32 }
            );
            other.set(asker.word(0), &[1])?;
            assert_eq!(stays.join().expect("it doesn't panic").ok(), Some(0));
            Ok::<(), Refusal>(())
        })?;
        assert_eq!(asker.hole(), Hole { at: from, len, held: 0 });
        Ok(())
    })
}

#[test]
fn a_box_makes_code_in_its_area() -> Outcome {
    with_asker(4, |asker| {
        let (room, mut sandbox, mut poor) =
            (asker.0.room(), Sandbox::new(&asker.0, LIMITS)?, Sandbox::new(&asker.0, LIMITS)?);
        let (area, outside) = (CodeSpan { from: room.from.offset(64), len: 128 }, room.from.offset(192));
        for wrong in
            [CodeSpan { from: room.end(), len: 32 }, CodeSpan { len: 33, ..area }, CodeSpan { len: room.len, ..area }]
        {
            assert_eq!(sandbox.code_calls(wrong), Err(Refusal::NoArea));
        }
        assert_eq!((sandbox.code_calls(area), sandbox.code_calls(room)), (Ok(FIRST), Err(Refusal::NoArea)));
        let (bytes, hole) = (asker.at("bytes"), asker.at("hole"));
        sandbox.set(bytes, &returns(9))?;
        assert_eq!(asker.result(&mut sandbox, "create", (area.from, bytes, 32)), Some(0));
        assert_eq!(asker.result(&mut sandbox, "run", (area.from,)), Some(9));
        assert_eq!(
            asker.result(&mut sandbox, "create", (area.from, bytes, 32)),
            Some((ffi::NCS_FAULT_CODE + OCCUPIED).wrapping_neg())
        );
        assert_eq!(asker.result(&mut sandbox, "create", (outside, bytes, 32)), Some(EINVAL));
        assert_eq!(asker.result(&mut sandbox, "find", (0, hole)), Some(0));
        assert_eq!(
            (sandbox.read::<At>(hole)?, sandbox.read::<Untrusted<u32>>(hole.offset(4))?.is(96)),
            (area.from.offset(32), true)
        );
        sandbox.reset()?;
        assert_eq!(asker.hole(), Hole { at: room.from, len: room.len, held: 0 });
        assert_eq!(poor.code_calls(CodeSpan { from: At::new(0), len: 0 }), Ok(FIRST));
        assert_eq!(asker.result(&mut poor, "create", (area.from, bytes, 32)), Some(EINVAL));
        while poor.callback(0, |_, _| 0).is_ok() {}
        assert_eq!(poor.code_calls(CodeSpan { from: At::new(0), len: 0 }), Err(Refusal::NoArea));
        Ok(())
    })
}

#[test]
fn boxes_have_memory_in_common() -> Outcome {
    with_asker(4, |asker| {
        let mut sandbox = asker.common()?;
        let (mut other, mut third) = (beside(&mut sandbox, 1000)?, beside(&mut sandbox, 1000)?);
        let word = asker.word(3);
        sandbox.set(word, &[5])?;
        assert!(other.read::<Untrusted<u32>>(word)?.is(5) && third.text(word, 9)? == [5]);
        assert_eq!(
            (asker.result(&mut other, "deep", (100,)), asker.result(&mut sandbox, "deep", (100,))),
            (Some(600), Some(600))
        );
        let (taken, put) = (other.take(16)?, sandbox.put(b"both")?);
        assert_eq!((put, other.text(put, 9)?), (taken.offset(16), b"both".to_vec()));
        assert_eq!(other.callback(0, |_, _| 11)?, FIRST);
        assert_eq!(asker.result(&mut other, "find", (0, 0)), Some(11));
        assert!(matches!(asker.call(&mut sandbox, "find", (0, 0)), Err(End::BadCall { .. })));
        assert!(matches!(asker.call(&mut sandbox, "seven", ()), Err(End::Dead)));
        assert_eq!(asker.result(&mut other, "seven", ()), Some(7));
        other.reset()?;
        assert_eq!(asker.result(&mut sandbox, "seven", ()), Some(7));
        assert!(sandbox.read::<Untrusted<u32>>(word)?.is(0));
        drop(sandbox);
        assert_eq!((asker.result(&mut third, "seven", ()), asker.result(&mut other, "seven", ())), (Some(7), Some(7)));
        drop(third);
        assert_eq!(asker.result(&mut other, "deep", (1,)), Some(1));
        Ok(())
    })
}

#[test]
fn stacks_and_limits_that_are_refused() -> Outcome {
    with_asker(4, |asker| {
        let (sandbox, top) = (asker.common()?, At::new(LIMITS.memory));
        for (stack, depth, milliseconds) in [
            (At::new(0x18_0008), 2, 10),
            (At::new(0), 2, 10),
            (top.offset(16), 2, 10),
            (top, 0, 10),
            (top, 65, 10),
            (top, 2, 0),
        ] {
            assert!(matches!(sandbox.beside(stack, depth, milliseconds), Err(Refusal::BadLimits(_))));
        }
        let mut deep = sandbox.beside(top, 1, 1000)?;
        let seven = asker.at("seven");
        deep.callback(0, move |caller, _| matches!(caller.call::<()>(seven, ()), Err(End::TooDeep)))?;
        assert_eq!(asker.result(&mut deep, "find", (0, 0)), Some(1));
        Ok(())
    })
}

/// One has no time any more, one is killed, one goes on. Meanwhile nothing is reset.
#[test]
fn each_thread_has_limits_of_its_own() -> Outcome {
    with_asker(4, |asker| {
        let mut sandbox = asker.common()?;
        let (mut late, mut killed) = (beside(&mut sandbox, 30)?, beside(&mut sandbox, 10_000)?);
        let killer = killed.killer();
        let (mut killed, ended) = thread::scope(|scope| {
            let spins = scope.spawn(move || {
                let ended = asker.stay(&mut killed);
                (killed, ended)
            });
            asker.until_inside(&late);
            assert!(matches!(asker.stay(&mut late), Err(End::Late { .. })));
            assert_eq!((late.reset(), sandbox.reset()), (Err(Refusal::NotReset), Err(Refusal::NotReset)));
            assert_eq!(asker.result(&mut sandbox, "seven", ()), Some(7));
            assert!(killer.kill());
            spins.join().expect("it doesn't panic")
        });
        assert!(matches!(ended, Err(End::Killed { .. })), "{ended:?}");
        assert!(matches!(asker.call(&mut killed, "seven", ()), Err(End::Dead)));
        sandbox.reset()?;
        assert_eq!((asker.result(&mut killed, "seven", ()), asker.result(&mut late, "seven", ())), (Some(7), Some(7)));
        Ok(())
    })
}

/// A call-back starts a thread, as code in a box asks for it.
#[test]
fn a_callback_makes_a_box_beside_its_own() -> Outcome {
    with_asker(4, |asker| {
        let (mut sandbox, run_often, seven) = (asker.common()?, asker.at("run_often"), asker.at("seven"));
        let word = asker.word(0);
        sandbox.callback(0, move |caller, _| {
            let mut other = beside(caller, 10_000).expect("there is room");
            let works =
                thread::spawn(move || other.call::<Untrusted<u32>>(run_often, (seven, 7)).map(Untrusted::unchecked));
            caller.set(word, &[1]).expect("it is the box's");
            works.join().expect("it doesn't panic").ok() == Some(0)
        })?;
        assert_eq!(asker.result(&mut sandbox, "find", (0, 0)), Some(1));
        Ok(())
    })
}

#[test]
fn a_panic_stays_with_its_box() -> Outcome {
    with_asker(4, |asker| {
        let mut sandbox = asker.common()?;
        let mut other = beside(&mut sandbox, 1000)?;
        other.callback(0, |_, _| -> u32 { resume_unwind(Box::new("other")) })?;
        sandbox.callback(0, |_, _| 3)?;
        assert!(catch_unwind(AssertUnwindSafe(|| asker.call(&mut other, "find", (0, 0)))).is_err());
        assert!(matches!(asker.call(&mut other, "seven", ()), Err(End::Dead)));
        assert_eq!(asker.result(&mut sandbox, "find", (0, 0)), Some(3));
        Ok(())
    })
}

/// Boxes come and go beside one that another thread resets.
#[test]
fn boxes_go_during_resets() -> Outcome {
    with_asker(4, |asker| {
        let mut sandbox = asker.common()?;
        let first = sandbox.beside(At::new(LIMITS.memory), 2, 1000)?;
        thread::scope(|scope| {
            let resets = scope.spawn(move || {
                let mut done = 0;
                while done < ROUNDS {
                    done += u32::from(sandbox.reset().is_ok());
                    thread::yield_now();
                }
            });
            while !resets.is_finished() {
                let mut other = first.beside(At::new(LIMITS.memory), 2, 1000).expect("there is a box");
                let called = asker.call(&mut other, "seven", ());
                assert!(matches!(called, Ok(7) | Err(End::Busy)), "{called:?}");
            }
        });
        Ok(())
    })
}

/// A thread compiles, two execute what it has compiled, and one deletes that.
#[test]
fn threads_that_make_code_and_execute_it() -> Outcome {
    fn works(asker: &Asker, mut of: Sandbox<Common>, name: &str, args: (u32, u32)) -> Option<u32> {
        asker.result(&mut of, name, args)
    }
    with_asker(4, |asker| {
        let mut compiles = asker.common()?;
        let (mut sweeps, mut executes) =
            (beside(&mut compiles, 60_000)?, [beside(&mut compiles, 60_000)?, beside(&mut compiles, 60_000)?]);
        for of in [&mut compiles, &mut sweeps].into_iter().chain(&mut executes) {
            assert_eq!(of.code_calls(asker.0.room()), Ok(FIRST));
            assert_eq!(of.callback(0, |_, _| 0), Ok(At::new(ffi::ncs_callback_at(4))));
        }
        thread::scope(|scope| {
            let mut threads = vec![
                scope.spawn(move || works(asker, compiles, "compile", (ROUNDS, 0))),
                scope.spawn(move || works(asker, sweeps, "sweep", (ROUNDS, 2))),
            ];
            for (who, of) in (0..).zip(executes) {
                threads.push(scope.spawn(move || works(asker, of, "execute", (who, ROUNDS))));
            }
            for thread in threads {
                assert_eq!(thread.join().expect("it doesn't panic"), Some(0));
            }
        });
        assert_eq!(asker.hole().len, asker.0.room().len);
        Ok(())
    })
}
