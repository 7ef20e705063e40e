//! A host in Rust whose threads are inside a region, held by a handle, while it is patched and its chunks are deleted and replaced.
//!
//! It does the same as threads.c, by the same calls. A `Region` owns its handle and frees it when it is dropped, and a `Seat` leaves. Neither
//! can be copied, so Rust keeps the header's rules for handles. A `Region` isn't `Sync`, so calls on it are made one at a time.
//!
//!     threads [--seconds N] [--control]

use std::sync::atomic::{AtomicBool, AtomicU8, AtomicU32, Ordering::SeqCst};
use std::thread;
use std::time::{Duration, Instant};

const BUNDLES: u32 = 16;
const BUNDLE: usize = 32;
const START: u32 = 0x10000;
const LIMIT: u32 = START + 32 * BUNDLES;
/// Where chunks jump to leave.
const OUT: u32 = START - 32;
/// Chunks of two bundles; the last two bundles stay unused.
const SLOTS: u32 = 7;
const LEN: usize = 2 * BUNDLE;
const THREADS: usize = 3;

const NOP: u8 = 0x90;
const LOAD: u8 = 0xB8;
const JUMP: u8 = 0xEB;
const FAR_JUMP: u8 = 0xE9;
const STOP: u8 = 0xF4;

mod ffi {
    use std::ffi::c_void;

    pub const OCCUPIED: u32 = 40;
    pub const PUT: u32 = 1;
    pub const SERIALIZE: u32 = 6;

    #[repr(C)]
    pub struct Handle {
        pub at: *mut c_void,
    }

    #[repr(C)]
    #[derive(Clone, Copy, Default)]
    pub struct Act {
        pub kind: u32,
        pub at: u32,
        pub value: u32,
    }

    #[repr(C)]
    pub struct Change {
        pub fault: u32,
        pub at: u32,
        pub count: usize,
    }

    #[repr(C)]
    pub struct Stamp {
        pub stamp: u64,
        pub fault: u32,
    }

    #[repr(C)]
    pub struct Count {
        pub fault: u32,
        pub count: u32,
    }

    extern "C" {
        pub fn nc_region_new(bundles: u32, seats: u32, region: *mut Handle) -> u32;
        pub fn nc_region_free(region: *mut Handle);
        pub fn nc_region_seat(region: *mut Handle, seat: *mut Handle) -> u32;
        pub fn nc_region_create(region: *mut Handle, base: u32, code: *const u8, len: usize, acts: *mut Act, acts_len: usize) -> Change;
        pub fn nc_region_patch(region: *mut Handle, at: u32, bytes: *const u8, len: usize, acts: *mut Act, acts_len: usize) -> Change;
        pub fn nc_region_begin_delete(region: *mut Handle, base: u32, acts: *mut Act, acts_len: usize) -> Change;
        pub fn nc_region_end_delete(region: *mut Handle) -> Stamp;
        pub fn nc_region_reclaim(region: *mut Handle) -> Count;
        pub fn nc_seat_check_in(seat: *mut Handle) -> u32;
        pub fn nc_seat_leave(seat: *mut Handle);
    }
}

use ffi::{Act, Change, Handle};

struct Region {
    handle: Handle,
    acts: [Act; LEN + 2],
}

/// A handle may go to another thread.
struct Seat(Handle);
unsafe impl Send for Seat {}

impl Region {
    fn new() -> Region {
        let mut handle = Handle { at: std::ptr::null_mut() };
        assert_eq!(unsafe { ffi::nc_region_new(BUNDLES, THREADS as u32, &mut handle) }, 0);
        Region { handle, acts: [Act::default(); LEN + 2] }
    }

    fn seat(&mut self) -> Seat {
        let mut seat = Handle { at: std::ptr::null_mut() };
        assert_eq!(unsafe { ffi::nc_region_seat(&mut self.handle, &mut seat) }, 0);
        Seat(seat)
    }

    /// The acts of a change, or its fault.
    fn written(&self, change: Change) -> Result<&[Act], u32> {
        if change.fault == 0 { Ok(&self.acts[..change.count]) } else { Err(change.fault) }
    }

    fn create(&mut self, base: u32, code: &[u8]) -> Result<&[Act], u32> {
        let Region { handle, acts } = self;
        let change = unsafe { ffi::nc_region_create(handle, base, code.as_ptr(), code.len(), acts.as_mut_ptr(), acts.len()) };
        self.written(change)
    }

    fn patch(&mut self, at: u32, new: &[u8]) -> Result<&[Act], u32> {
        let Region { handle, acts } = self;
        let change = unsafe { ffi::nc_region_patch(handle, at, new.as_ptr(), new.len(), acts.as_mut_ptr(), acts.len()) };
        self.written(change)
    }

    fn begin_delete(&mut self, base: u32) -> Result<&[Act], u32> {
        let Region { handle, acts } = self;
        let change = unsafe { ffi::nc_region_begin_delete(handle, base, acts.as_mut_ptr(), acts.len()) };
        self.written(change)
    }

    fn end_delete(&mut self) {
        unsafe { ffi::nc_region_end_delete(&mut self.handle) };
    }

    fn reclaim(&mut self) {
        unsafe { ffi::nc_region_reclaim(&mut self.handle) };
    }
}

impl Drop for Region {
    fn drop(&mut self) {
        unsafe { ffi::nc_region_free(&mut self.handle) }
    }
}

impl Seat {
    fn check_in(&mut self) {
        unsafe { ffi::nc_seat_check_in(&mut self.0) };
    }
}

impl Drop for Seat {
    fn drop(&mut self) {
        unsafe { ffi::nc_seat_leave(&mut self.0) }
    }
}

/// The memory that would be executed, and for each thread how often it has begun or ended an instruction: odd while it reads one.
struct Shared {
    memory: Vec<AtomicU8>,
    turns: [AtomicU32; THREADS],
    is_over: AtomicBool,
}

#[derive(Default)]
struct Counts {
    stays: u64,
    stops: u64,
    astray: u64,
}

/// Numbers that look random: xorshift.
struct Random(u32);

impl Random {
    fn below(&mut self, bound: u32) -> u32 {
        self.0 ^= self.0 << 13;
        self.0 ^= self.0 >> 17;
        self.0 ^= self.0 << 5;
        self.0 % bound
    }
}

fn be_held_up() {
    thread::sleep(Duration::from_micros(200));
}

impl Shared {
    fn load(&self, at: u32) -> u8 {
        self.memory[(at - START) as usize].load(SeqCst)
    }

    /// Reads the instruction at the address, byte after byte. It goes on behind it, or where it leads, if it can.
    fn step(&self, at: u32, counts: &mut Counts) -> Option<u32> {
        match self.load(at) {
            NOP => Some(at + 1),
            LOAD => {
                let name = self.load(at + 1);
                counts.astray += (2..=4).filter(|&i| self.load(at + i) != name).count() as u64;
                Some(at + 5)
            }
            JUMP => Some(at + 2 + u32::from(self.load(at + 1))),
            FAR_JUMP => Some(OUT),
            first => {
                counts.stops += u64::from(first == STOP);
                counts.astray += u64::from(first != STOP);
                None
            }
        }
    }

    /// A stay: from a bundle start until the thread jumps out or stops.
    fn stay(&self, k: usize, random: &mut Random, counts: &mut Counts) {
        let mut at = Some(START + 32 * random.below(2 * SLOTS));
        while let Some(here) = at.filter(|at| (START..LIMIT).contains(at)) {
            self.turns[k].fetch_add(1, SeqCst);
            at = self.step(here, counts);
            self.turns[k].fetch_add(1, SeqCst);
            if random.below(256) == 0 {
                be_held_up();
            }
        }
        counts.stays += 1;
    }

    fn run(&self, k: usize, mut seat: Seat) -> Counts {
        let (mut counts, mut random) = (Counts::default(), Random(2 + k as u32));
        while !self.is_over.load(SeqCst) {
            self.stay(k, &mut random, &mut counts);
            seat.check_in();
        }
        counts
    }

    /// Waits until no thread is still at an instruction at which it was when this was called.
    fn serialize(&self) {
        for turns in &self.turns {
            let seen = turns.load(SeqCst);
            while seen % 2 == 1 && turns.load(SeqCst) == seen {
                thread::yield_now();
            }
        }
    }

    fn make(&self, acts: &[Act]) {
        for act in acts {
            match act.kind {
                ffi::PUT => self.memory[(act.at - START) as usize].store(act.value as u8, SeqCst),
                ffi::SERIALIZE => self.serialize(),
                _ => {}
            }
        }
    }
}

fn load_of(name: u8) -> [u8; 5] {
    [LOAD, name, name, name, name]
}

/// Two bundles of loads of a name, of which the first begins after some nops, and a jump out.
fn draw_chunk(name: u8, base: u32, nops: usize) -> [u8; LEN] {
    let mut code = [NOP; LEN];
    for i in 0..5 {
        code[nops + 5 * i..][..5].copy_from_slice(&load_of(name));
        code[BUNDLE + 5 * i..][..5].copy_from_slice(&load_of(name));
    }
    code[30..32].copy_from_slice(&[JUMP, 0]);
    code[LEN - 5] = FAR_JUMP;
    code[LEN - 4..].copy_from_slice(&OUT.wrapping_sub(base + LEN as u32).to_le_bytes());
    code
}

struct Writer<'a> {
    shared: &'a Shared,
    region: Region,
    random: Random,
    is_control: bool,
    /// For each slot in which a chunk is live, how many nops stand in front of its first load.
    live: [Option<usize>; SLOTS as usize],
}

impl Writer<'_> {
    fn delete(&mut self, base: u32) {
        let acts = self.region.begin_delete(base).expect("a live chunk is deleted").to_vec();
        if self.is_control {
            // Wrong: threads check in, go in again, and the span counts as left.
            self.region.end_delete();
            be_held_up();
            self.shared.make(&acts);
        } else {
            self.shared.make(&acts);
            be_held_up();
            self.region.end_delete();
        }
    }

    fn create(&mut self, slot: usize, base: u32) -> bool {
        let (name, nops) = (self.random.below(256) as u8, self.random.below(6) as usize);
        match self.region.create(base, &draw_chunk(name, base, nops)) {
            Ok(acts) => self.shared.make(acts),
            Err(ffi::OCCUPIED) => {
                self.region.reclaim();
                return false;
            }
            Err(fault) => panic!("a creation was refused: {fault}"),
        }
        self.live[slot] = Some(nops);
        true
    }

    /// A change of one slot: a creation where it is free, else a patch or a deletion. None is made where a thread holds the span back.
    fn change(&mut self) -> bool {
        let slot = self.random.below(SLOTS) as usize;
        let base = START + (LEN * slot) as u32;
        match self.live[slot] {
            None => return self.create(slot, base),
            Some(nops) if self.random.below(4) != 0 => {
                let new = load_of(self.random.below(256) as u8);
                self.shared.make(self.region.patch(base + nops as u32, &new).expect("a load is patched by a load"));
            }
            Some(_) => {
                self.delete(base);
                self.live[slot] = None;
            }
        }
        true
    }
}

fn main() {
    let words: Vec<String> = std::env::args().collect();
    let seconds = words.iter().position(|word| word == "--seconds").map_or(1, |k| words[k + 1].parse().expect("a number of seconds"));
    let is_control = words.iter().any(|word| word == "--control");
    let shared = Shared {
        memory: (START..LIMIT).map(|_| AtomicU8::new(STOP)).collect(),
        turns: Default::default(),
        is_over: AtomicBool::new(false),
    };
    let mut writer = Writer { shared: &shared, region: Region::new(), random: Random(1), is_control, live: [None; SLOTS as usize] };
    let (mut changes, mut counts) = (0u64, Counts::default());
    thread::scope(|scope| {
        let shared = &shared;
        let inside: Vec<_> = (0..THREADS).map(|k| (k, writer.region.seat())).map(|(k, seat)| scope.spawn(move || shared.run(k, seat))).collect();
        let end = Instant::now() + Duration::from_secs(seconds);
        while Instant::now() < end {
            changes += u64::from(writer.change());
        }
        shared.is_over.store(true, SeqCst);
        for thread in inside {
            let own = thread.join().expect("a thread ends by itself");
            counts.stays += own.stays;
            counts.stops += own.stops;
            counts.astray += own.astray;
        }
    });
    drop(writer);
    let said = if counts.astray == 0 { "nothing astray" } else { "ASTRAY" };
    println!("{THREADS} threads inside while chunks are patched, deleted and replaced: {said}");
    println!("counts: {} stays, {} stops met, {changes} changes, {} astray", counts.stays, counts.stops, counts.astray);
    std::process::exit(i32::from(counts.astray != 0));
}
