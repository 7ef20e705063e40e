//! The safe interface over the library itself: the life of a chunk, refusals, runs, and seats in threads.

use nc_host::{
    fill_image, limit, loaded_segments, Act, Acts, Chunk, End, Fault, Mark, RawAct, Region, Seat, Segment, Vetted,
    BUNDLE, START, STOP,
};
use std::sync::Mutex;
use std::thread;
use std::time::Duration;

const BUNDLES: u32 = 16;
const LEN: usize = 2 * BUNDLE;
const ROOM: usize = LEN + 2;
const OTHER: [u8; 5] = [0xB8, 7, 0, 0, 0];

/// Two bundles: `mov eax, 5` and a jump to the second, where a masked jump stands; the rest is nops.
fn chunk_code() -> [u8; LEN] {
    let mut code = [0x90; LEN];
    code[..7].copy_from_slice(&[0xB8, 5, 0, 0, 0, 0xEB, 0x19]);
    code[BUNDLE..BUNDLE + 5].copy_from_slice(&[0x83, 0xE3, 0xE0, 0xFF, 0xE3]);
    code
}

fn room() -> [RawAct; ROOM] {
    [RawAct::default(); ROOM]
}

/// Memory of the host's own, in which acts are made.
struct Memory(Vec<u8>);

impl Memory {
    fn new() -> Memory {
        Memory(vec![STOP; BUNDLES as usize * BUNDLE])
    }

    fn make(&mut self, acts: Acts<'_>) {
        for act in acts.written_out(0, &[]) {
            match act {
                Act::Put { at, byte } => self.0[(at - START) as usize] = byte,
                Act::PutRun { .. } | Act::StopRun { .. } => panic!("{act:?}"),
                Act::Mark { .. } | Act::Bump | Act::Serialize => {}
            }
        }
    }

    fn follows(&self, region: &Region) -> bool {
        (START..).zip(&self.0).all(|(at, byte)| region.place(at).is_some_and(|place| place.byte == *byte))
    }
}

#[test]
fn life_of_a_chunk() -> Result<(), Fault> {
    let (mut region, mut memory, mut buffer) = (Region::new(BUNDLES, 1)?, Memory::new(), room());
    let mut seat = region.seat()?;
    memory.make(region.create(START, &chunk_code(), &mut buffer)?);
    assert!(memory.follows(&region));
    assert_eq!(region.chunks().collect::<Vec<_>>(), [Chunk { base: START, length: LEN as u32, retired: None }]);
    let deletion = region.begin_delete(START, &mut buffer)?;
    assert_eq!(deletion.acts().len(), ROOM);
    memory.make(deletion.acts());
    assert_eq!(deletion.finish(), 1);
    assert!(memory.follows(&region));
    assert_eq!((region.generation(), region.chunk(0).and_then(|chunk| chunk.retired)), (1, Some(1)));
    assert_eq!(region.reclaim()?, 0);
    seat.check_in();
    assert_eq!(region.reclaim()?, 1);
    assert_eq!(region.chunk(0), None);
    region.create(START, &chunk_code(), &mut buffer).map(|_| ())
}

#[test]
fn refusals() -> Result<(), Fault> {
    let (mut region, mut buffer, mut code) = (Region::new(BUNDLES, 1)?, room(), chunk_code());
    assert_eq!(Region::new(1, 1).unwrap_err(), Fault::BadSize);
    assert_eq!(Region::new(BUNDLES, 257).unwrap_err(), Fault::BadSeats);
    assert_eq!(region.create(START + 1, &code, &mut buffer).unwrap_err(), Fault::BadBase);
    assert_eq!(region.create(START, &[], &mut buffer).unwrap_err(), Fault::BadLength);
    assert_eq!(region.create(START, &code, &mut buffer[..1]).unwrap_err(), Fault::NoRoom { enough: ROOM });
    assert_eq!(buffer, room());
    code[10] = 0xC3;
    let refused = region.create(START, &code, &mut buffer).unwrap_err();
    assert_eq!(refused, Fault::NotPermitted { at: START + 10 });
    assert_eq!((refused.number(), refused.name(), refused.at()), (4, "NC_NOT_PERMITTED", Some(START + 10)));
    assert_eq!(refused.to_string(), "no permitted instruction is at the address, within its bundle (0001000a)");
    assert_eq!(region.begin_delete(START, &mut buffer).unwrap_err(), Fault::NoChunk);
    assert_eq!(region.resume_delete().unwrap_err(), Fault::NotBegun);
    assert_eq!(region.creation_runs(START, &mut buffer).unwrap_err(), Fault::NoChunk);
    assert_eq!(region.place(START - 1), None);
    let _seat = region.seat()?;
    assert_eq!(region.seat().unwrap_err(), Fault::NoSeat);
    assert_eq!((limit(1), limit(2), limit(2_097_153)), (None, Some(START + 64), None));
    Ok(())
}

#[test]
fn patch() -> Result<(), Fault> {
    let (mut region, mut memory, mut buffer) = (Region::new(BUNDLES, 1)?, Memory::new(), room());
    memory.make(region.create(START, &chunk_code(), &mut buffer)?);
    let acts = region.patch(START, &OTHER, &mut buffer)?;
    assert_eq!(acts.iter().filter(|act| *act == Act::Serialize).count(), 2);
    assert_eq!(acts.iter().next(), Some(Act::Put { at: START, byte: STOP }));
    memory.make(acts);
    assert!(memory.follows(&region));
    assert_eq!(region.place(START + 35).map(|place| place.mark), Some(Mark::Masked(3)));
    assert!(region.patch(START, &OTHER, &mut buffer)?.is_empty());
    assert_eq!(region.patch(START + 8, &[0xC3], &mut buffer).unwrap_err(), Fault::PatchNotPermitted);
    assert_eq!(region.patch(START + 200, &OTHER, &mut buffer).unwrap_err(), Fault::PatchNotLive);
    Ok(())
}

#[test]
fn runs_written_out_are_the_acts() -> Result<(), Fault> {
    let base = START + LEN as u32;
    let (mut region, code) = (Region::new(BUNDLES, 1)?, chunk_code());
    let (mut buffer, mut others) = (room(), room());
    let created = region.create(base, &code, &mut buffer)?;
    let runs = region.creation_runs(base, &mut others)?;
    assert_eq!((created.len(), runs.len()), (ROOM, LEN / 16 + 2));
    assert!(runs.written_out(base, &code).eq(created));
    assert!(created.written_out(base, &code).eq(created));
    // Without the bytes of their bundles, runs stay runs.
    assert!(runs.written_out(base, &[]).eq(runs));
    assert!(runs.written_out(base + 32, &code).any(|act| matches!(act, Act::PutRun { at, .. } if at == base)));
    assert_eq!(region.creation_runs(base, &mut []).unwrap_err(), Fault::NoRoom { enough: LEN / 16 + 2 });
    let deletion = region.begin_delete(base, &mut buffer)?;
    let runs = deletion.runs(&mut others)?;
    assert!(matches!(runs.iter().next(), Some(Act::StopRun { .. })));
    assert!(runs.written_out(0, &[]).eq(deletion.acts()));
    deletion.finish();
    Ok(())
}

#[test]
#[allow(clippy::forget_non_drop)] // a guard has no Drop, and needs none
fn a_deletion_whose_guard_is_gone() -> Result<(), Fault> {
    let (mut region, mut memory, mut buffer) = (Region::new(BUNDLES, 1)?, Memory::new(), room());
    memory.make(region.create(START, &chunk_code(), &mut buffer)?);
    std::mem::forget(region.begin_delete(START, &mut buffer)?);
    assert_eq!(region.reclaim().unwrap_err(), Fault::UnderWay);
    drop(region.resume_delete()?);
    assert_eq!(region.patch(START, &OTHER, &mut buffer).unwrap_err(), Fault::UnderWay);
    assert_eq!(region.begin_delete(START, &mut buffer).unwrap_err(), Fault::UnderWay);
    assert!(memory.follows(&region) && region.generation() == 0);
    let deletion = region.resume_delete()?;
    assert!(deletion.acts().is_empty());
    memory.make(deletion.runs(&mut buffer)?);
    assert_eq!(deletion.finish(), 1);
    assert!(memory.follows(&region));
    Ok(())
}

#[test]
fn vetted_chunks() -> Result<(), Fault> {
    let own_limit = limit(BUNDLES).expect("a lawful number of bundles");
    let (mut region, mut buffer) = (Region::new(BUNDLES, 1)?, room());
    region.create(START, &chunk_code(), &mut buffer)?;
    let vetted = Vetted::new(START, own_limit, &chunk_code())?;
    let refused = region.load(vetted, &mut buffer).unwrap_err();
    assert_eq!(refused.fault, Fault::Occupied);
    let mut free = Region::new(BUNDLES, 1)?;
    assert_eq!(free.load(refused.vetted, &mut buffer)?.len(), ROOM);
    let lower = Vetted::new(START, own_limit - 32, &chunk_code())?;
    assert_eq!(free.load(lower, &mut buffer).unwrap_err().to_string(), Fault::WrongLimit.sentence());
    assert_eq!(Vetted::new(START, own_limit, &[0xC3; BUNDLE]).unwrap_err(), Fault::NotPermitted { at: START });
    Ok(())
}

#[test]
fn chunks_by_address() -> Result<(), Fault> {
    let (mut region, mut buffer, len) = (Region::new(BUNDLES, 1)?, room(), LEN as u32);
    assert_eq!(region.chunk_at(START), None);
    region.create(START + len, &chunk_code(), &mut buffer)?;
    region.create(START + 3 * len, &chunk_code(), &mut buffer)?;
    region.begin_delete(START + 3 * len, &mut buffer)?.finish();
    let low = Some(Chunk { base: START + len, length: len, retired: None });
    let high = Some(Chunk { base: START + 3 * len, length: len, retired: Some(1) });
    for at in [0, START, START + len, START + 2 * len - 1] {
        assert_eq!(region.chunk_at(at), low);
    }
    for at in [START + 2 * len, START + 3 * len, START + 4 * len - 1] {
        assert_eq!(region.chunk_at(at), high);
    }
    assert_eq!((region.chunk_at(START + 4 * len), region.chunk_at(u32::MAX)), (None, None));
    Ok(())
}

#[test]
fn walks() -> Result<(), Fault> {
    let (mut region, mut buffer, mut places) = (Region::new(BUNDLES, 1)?, room(), [0; 5]);
    region.create(START, &chunk_code(), &mut buffer)?;
    let choices = [0, 0, 0, START + LEN as u32 + 5];
    let walk = region.walk(START, &choices, &mut places)?;
    assert_eq!((walk.end, walk.places), (End::Stop, &[START, START + 5, START + 32, START + 35, START + 64][..]));
    assert_eq!(region.walk(START, &choices[..1], &mut places)?.end, End::More);
    assert_eq!(region.walk(START, &choices, &mut places[..2]).unwrap_err(), Fault::NoRoom { enough: 5 });
    assert_eq!(region.walk(START + 1, &choices, &mut places).unwrap_err(), Fault::NoStart);
    Ok(())
}

/// What the host's own lock is around: the region and the memory in which its acts are made.
struct Writer {
    region: Region,
    memory: Memory,
}

impl Writer {
    /// One life of a chunk. `None` while a thread holds its span back.
    fn live_once(&mut self, base: u32) -> Option<u64> {
        let mut buffer = room();
        match self.region.create(base, &chunk_code(), &mut buffer) {
            Ok(acts) => self.memory.make(acts),
            Err(Fault::Occupied) => {
                self.region.reclaim().expect("no deletion is under way");
                return None;
            }
            Err(fault) => panic!("{fault}"),
        }
        self.memory.make(self.region.patch(base, &OTHER, &mut buffer).expect("a mov is patched by a mov"));
        let deletion = self.region.begin_delete(base, &mut buffer).expect("the chunk is live");
        self.memory.make(deletion.acts());
        Some(deletion.finish())
    }
}

fn live(writer: &Mutex<Writer>, mut seat: Seat, base: u32) {
    let (mut lives, mut tries) = (0, 0);
    while lives < 200 {
        seat.check_in();
        match writer.lock().expect("no thread panics").live_once(base) {
            Some(_) => lives += 1,
            None => tries += 1,
        }
        assert!(tries < 100_000, "a seat holds a span back");
        thread::sleep(Duration::from_micros(tries % 2));
    }
}

#[test]
fn seats_in_threads() -> Result<(), Fault> {
    let mut region = Region::new(BUNDLES, 3)?;
    let seats = [region.seat()?, region.seat()?, region.seat()?];
    let writer = Mutex::new(Writer { region, memory: Memory::new() });
    thread::scope(|scope| {
        for (base, seat) in (START..).step_by(LEN).zip(seats) {
            let writer = &writer;
            scope.spawn(move || live(writer, seat, base));
        }
    });
    let Writer { mut region, memory } = writer.into_inner().expect("no thread panicked");
    assert_eq!(region.generation(), 600);
    region.reclaim()?;
    assert_eq!(region.chunks().count(), 0);
    assert!(memory.follows(&region));
    Ok(())
}

#[test]
fn a_seat_outlives_its_region() -> Result<(), Fault> {
    let mut region = Region::new(BUNDLES, 1)?;
    let mut seat = region.seat()?;
    drop(region);
    seat.check_in();
    seat.leave();
    Ok(())
}

/// How much memory the process has, in bytes, where the system tells.
fn resident() -> Option<usize> {
    let told = std::fs::read_to_string("/proc/self/statm").ok()?;
    Some(4096 * told.split(' ').nth(1)?.parse::<usize>().ok()?)
}

#[test]
fn what_is_dropped_is_freed() -> Result<(), Fault> {
    const MIB: usize = 1 << 20;
    let (code, bundles) = (vec![0x90; MIB], (MIB / BUNDLE) as u32 + 1);
    let before = resident();
    for _ in 0..100 {
        Vetted::new(START, limit(bundles).expect("a lawful number of bundles"), &code)?;
        Region::new(bundles, 1)?.create(START, &code, &mut [])?;
    }
    match (before, resident()) {
        (Some(before), Some(after)) => assert!(after < before + 50 * MIB, "{before} bytes became {after}"),
        _ => println!("skipped: whether what is dropped is freed: the system doesn't tell"),
    }
    Ok(())
}

fn halves(numbers: &[u16]) -> Vec<u8> {
    numbers.iter().flat_map(|number| number.to_le_bytes()).collect()
}

fn words(numbers: &[u32]) -> Vec<u8> {
    numbers.iter().flat_map(|number| number.to_le_bytes()).collect()
}

/// A file with one segment, which has the chunk's code.
fn chunk_file() -> Vec<u8> {
    let ident = b"\x7fELF\x01\x01\x01\0\0\0\0\0\0\0\0\0".to_vec();
    let segment = words(&[1, 84, START, 0, LEN as u32, LEN as u32, 5, 32]);
    let header = [halves(&[2, 3]), words(&[1, 0, 52, 0, 0]), halves(&[52, 32, 1, 0, 0, 0])].concat();
    [ident, header, segment, chunk_code().to_vec()].concat()
}

#[test]
fn code_loaded_once() -> Result<(), Fault> {
    let (mut file, mut room) = (chunk_file(), [Segment::default(); 2]);
    assert_eq!(loaded_segments(&file, &mut []), Err(Fault::NoRoom { enough: 1 }));
    let segment = Segment { address: START, offset: 84, file_len: LEN as u32, memory_len: LEN as u32, flags: 5 };
    assert_eq!(loaded_segments(&file, &mut room), Ok(&[segment][..]));
    let (mut text, mut region) = ([0; BUNDLES as usize * BUNDLE], Region::new(BUNDLES, 1)?);
    fill_image(START, &file[84..], &mut text)?;
    region.create(START, &file[84..], &mut [])?;
    assert!((START..).zip(&text).all(|(at, byte)| region.place(at).is_some_and(|place| place.byte == *byte)));
    file[84..86].copy_from_slice(&[0x90, 0xC3]);
    assert_eq!(fill_image(START, &file[84..], &mut text), Err(Fault::NotPermitted { at: START + 1 }));
    file[76] |= 2;
    let writable = loaded_segments(&file, &mut room).unwrap_err();
    assert_eq!((writable, writable.header()), (Fault::ElfWritableCode { at: 0 }, Some(0)));
    assert!(writable.to_string().ends_with("(program header 0)"));
    Ok(())
}
