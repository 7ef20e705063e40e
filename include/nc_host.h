/* nc_host.h: the calls of Reedbodkin for a host in C or C++.

   They judge untrusted 32-bit x86 code, and write the acts by which a host creates, patches and deletes it in memory that threads execute.

   No verdict protects a host that breaks a duty of docs/EMBEDDING.md, installed below share/doc/reedbodkin. docs/DEFINITIONS.md explains
   the terms, and docs/PERFORMANCE.md the costs.

   How to read the comments
      [refused]   Proved clauses of these names in crates/nc_host promise this. Tests compare only the names.
      [tested]    Only tested.
      (IsValid)   A definition on which the contract rests.
      Refused     The call returns the first of these faults that holds (NC_FAULTS). Other promises are for NC_OK, unless they name a fault.

   What every call keeps
      Threads     The library starts no thread and has no lock. Any thread may call. Calls may overlap if nobody writes what they read or
                  write. Duty 27 restricts signal handlers and forked children.
      Arguments   A pointer with a length must point to that many bytes or elements. So the length is below 2^63; no fault reveals one that
                  has wrapped. With length 0 any pointer will do, even null [tested]. No other may be null. Other numbers may have any
                  value. A buffer that is written may not overlap another argument. Nobody may change code or buffers during the call. The
                  library keeps no pointer to them, and never executes them.
      Results     A refused call changes nothing, but a creation that ran out of memory may have allocated some for its span's text. A
                  refused call's results except the fault are 0, unless a comment says otherwise. No call writes more of a buffer than it
                  says.
      Memory      malloc, realloc and free belong to one allocator, which aligns a block to each power of two up to 16 that divides its
                  size. NC_OUT_OF_MEMORY is returned exactly if memory runs out [tested]. Calls that can't return it allocate none
                  [tested]. 64 KiB of stack suffice [tested]. */
#ifndef NC_HOST_H
#define NC_HOST_H

#include <stddef.h>
#include <stdint.h>

#ifdef __cplusplus
extern "C" {
#endif

/* ---- Numbers */

#define NC_BUNDLE 32u           /* bytes in a bundle */
#define NC_START 0x10000u       /* a region's first address */
#define NC_MIN_BUNDLES 2u       /* in a region: one, and the guard */
#define NC_MAX_BUNDLES 2097152u /* 64 MiB */
#define NC_STOP 0xF4u           /* hlt */

/* Versions with the same major number above 0 agree on all that both have. */
#define NC_VERSION_MAJOR 0u
#define NC_VERSION_MINOR 1u
#define NC_VERSION_PATCH 0u
#define NC_VERSION (NC_VERSION_MAJOR << 16 | NC_VERSION_MINOR << 8 | NC_VERSION_PATCH)

/* The limit of a region of 2 to 2097152 bundles. Other numbers may wrap around to a lawful limit. */
#define NC_LIMIT(bundles) (NC_START + NC_BUNDLE * (uint32_t)(bundles))

/* A chunk gets the first of 1 to 3 that holds. Otherwise it gets the one of 4 to 6 at the lowest address, and without one 7 at the lowest
   address. 8 says of the code only that 1 to 3 don't hold. A patch gets the first of 16 to 21. A file gets the first of 48 to 55. Otherwise
   it gets that of 56 to 61 of the first loaded segment with a fault, and without one 62. */
#define NC_OK 0u
#define NC_BAD_BASE 1u
#define NC_BAD_LENGTH 2u
#define NC_OUT_OF_RANGE 3u
#define NC_NOT_PERMITTED 4u
#define NC_CROSSES 5u
#define NC_BARE 6u
#define NC_BAD_TARGET 7u
#define NC_OUT_OF_MEMORY 8u
#define NC_NO_ROOM 9u
#define NC_CUT_SHORT 10u
#define NC_PATCH_BAD_SPAN 16u
#define NC_PATCH_NOT_LIVE 17u
#define NC_PATCH_NOT_PERMITTED 18u
#define NC_PATCH_BOUNDARIES 19u
#define NC_PATCH_PAIR_TOUCHED 20u
#define NC_PATCH_BAD_TARGET 21u
#define NC_NO_HANDLE 32u
#define NC_HANDLE_TAKEN 33u
#define NC_BAD_SEATS 34u
#define NC_BAD_SIZE 35u
#define NC_NO_SEAT 36u
#define NC_UNDER_WAY 37u
#define NC_NOT_BEGUN 38u
#define NC_WRONG_LIMIT 39u
#define NC_OCCUPIED 40u
#define NC_NO_CHUNK 41u
#define NC_FULL 42u
#define NC_NO_PLACE 43u
#define NC_NO_START 44u
#define NC_ELF_NOT_ELF 48u
#define NC_ELF_SHORT_HEADER 49u
#define NC_ELF_64_BITS 50u
#define NC_ELF_OTHER_FORMAT 51u
#define NC_ELF_OTHER_MACHINE 52u
#define NC_ELF_UNLINKED 53u
#define NC_ELF_OTHER_TYPE 54u
#define NC_ELF_BAD_TABLE 55u
#define NC_ELF_BEYOND_FILE 56u
#define NC_ELF_BEYOND_MEMORY 57u
#define NC_ELF_WRAPS 58u
#define NC_ELF_OUT_OF_ORDER 59u
#define NC_ELF_WRITABLE_CODE 60u
#define NC_ELF_UNFILLED_CODE 61u
#define NC_ELF_NO_CODE 62u

/* When each fault holds, for messages. */
#define NC_FAULTS(X) \
    X(NC_OK, "no fault") \
    X(NC_BAD_BASE, "the base is not a multiple of 32, or is below the region") \
    X(NC_BAD_LENGTH, "the length is 0, or not a multiple of 32") \
    X(NC_OUT_OF_RANGE, "no region has this limit, or the chunk reaches into the guard, the last bundle below it") \
    X(NC_NOT_PERMITTED, "no permitted instruction is at the address, within its bundle") \
    X(NC_CROSSES, "the instruction at the address crosses the end of its bundle") \
    X(NC_BARE, "the indirect jump or call at the address doesn't directly follow the mask of its register") \
    X(NC_BAD_TARGET, "the jump, branch or call at the address goes neither to a bundle start below the limit nor to the start of an " \
                     "instruction of the chunk that isn't the second one of a pair") \
    X(NC_OUT_OF_MEMORY, "out of memory") \
    X(NC_NO_ROOM, "the buffer is too short; it is unchanged") \
    X(NC_CUT_SHORT, "the bytes are the beginning of an instruction, and not all of it") \
    X(NC_PATCH_BAD_SPAN, "there are no new bytes, or they don't lie in one bundle") \
    X(NC_PATCH_NOT_LIVE, "the new bytes don't begin in a live chunk") \
    X(NC_PATCH_NOT_PERMITTED, "the new bytes aren't whole permitted instructions, one after the other") \
    X(NC_PATCH_BOUNDARIES, "the new instructions don't replace whole instructions of the same lengths") \
    X(NC_PATCH_PAIR_TOUCHED, "a mask would get other bytes, or an indirect jump or call would come, go or change its register") \
    X(NC_PATCH_BAD_TARGET, "a new jump, branch or call would go neither to a bundle start below the limit nor to the start of an " \
                           "instruction of the chunk that isn't the second one of a pair") \
    X(NC_NO_HANDLE, "the handle is empty") \
    X(NC_HANDLE_TAKEN, "the handle to be filled is not empty") \
    X(NC_BAD_SEATS, "the number of seats isn't 1 to 256") \
    X(NC_BAD_SIZE, "the number of bundles isn't 2 to 2097152") \
    X(NC_NO_SEAT, "every seat has been given") \
    X(NC_UNDER_WAY, "a deletion is under way") \
    X(NC_NOT_BEGUN, "no deletion is under way") \
    X(NC_WRONG_LIMIT, "the chunk was vetted for another limit than the region's") \
    X(NC_OCCUPIED, "the span overlaps a chunk of the region, live or retired") \
    X(NC_NO_CHUNK, "no live chunk has this base, the list has no chunk at this index, or no chunk has this address or lies above it") \
    X(NC_FULL, "no stamp is left, after 2^62 deletions") \
    X(NC_NO_PLACE, "the address is outside the region") \
    X(NC_NO_START, "the address is not a bundle start of the region, where a walk can begin") \
    X(NC_ELF_NOT_ELF, "not an ELF file") \
    X(NC_ELF_SHORT_HEADER, "the file ends in its ELF header") \
    X(NC_ELF_64_BITS, "a 64-bit ELF file") \
    X(NC_ELF_OTHER_FORMAT, "not a 32-bit little-endian ELF file of version 1") \
    X(NC_ELF_OTHER_MACHINE, "not for the Intel 80386") \
    X(NC_ELF_UNLINKED, "an object file, which is not linked") \
    X(NC_ELF_OTHER_TYPE, "neither an executable file nor a shared object") \
    X(NC_ELF_BAD_TABLE, "the program headers aren't 32 bytes long, are 65535 or more, or aren't all in the file") \
    X(NC_ELF_BEYOND_FILE, "a loaded segment reaches beyond the end of the file") \
    X(NC_ELF_BEYOND_MEMORY, "a loaded segment has more bytes in the file than in memory") \
    X(NC_ELF_WRAPS, "a loaded segment ends above the last address") \
    X(NC_ELF_OUT_OF_ORDER, "a loaded segment overlaps an earlier one or lies below it") \
    X(NC_ELF_WRITABLE_CODE, "a loaded segment is both writable and executable") \
    X(NC_ELF_UNFILLED_CODE, "a loaded segment is executable and has bytes in memory that aren't in the file") \
    X(NC_ELF_NO_CODE, "no loaded segment is executable and has bytes in the file")

/* Where control goes after an instruction. The target of a direct transfer is its address plus its length plus `rel`, modulo 2^32. */
#define NC_FLOW_NEXT 1u
#define NC_FLOW_BRANCH 2u
#define NC_FLOW_JUMP 3u
#define NC_FLOW_CALL 4u
#define NC_FLOW_INDIRECT_JUMP 5u
#define NC_FLOW_INDIRECT_CALL 6u
#define NC_FLOW_STOP 7u

/* How a walk ends. */
#define NC_END_STOP 1u       /* at a stop */
#define NC_END_TRAMPOLINE 2u /* below NC_START */
#define NC_END_BEYOND 3u     /* by an indirect transfer to the limit or above */
#define NC_END_MORE 4u       /* with no choice left */

/* The marks of bytes. Registers are numbered as in ModRM. */
#define NC_UNMARKED 0u               /* control is never there */
#define NC_PLAIN 1u                  /* an instruction, or a bundle start without a chunk */
#define NC_MASKED(reg) (16u + (reg)) /* an indirect transfer by this register */

/* The kinds of an NcAct. Fields that a kind doesn't name are 0. 4 (unmark) and 5 (look) are internal and never written. */
#define NC_PUT 1u       /* put the byte `value` at the address `at` */
#define NC_MARK 2u      /* the `value` addresses from `at` on get the chunk's marks; for a host that keeps marks */
#define NC_BUMP 3u      /* draw a stamp */
#define NC_SERIALIZE 6u /* make every processor that runs a thread of the host serialize */

/* A run puts a byte at `at` + k for each set bit k of `value`, the lowest first. Only the two calls for runs write them. */
#define NC_PUT_RUN 7u  /* of the chunk's bytes */
#define NC_STOP_RUN 8u /* of stops */

typedef struct NcInstruction {
    uint32_t fault;
    uint32_t length;
    uint32_t flow;
    int32_t rel;    /* the displacement of a direct transfer, else 0 */
    uint32_t reg;   /* of an indirect transfer, else 0 */
    uint32_t masks; /* NC_MASKED(r) for a mask of r, not ESP; else 0 */
} NcInstruction;

typedef struct NcVerdict {
    uint32_t fault;
    uint32_t at; /* the address of a fault from 4 to 7, else 0 */
} NcVerdict;

/* A loaded segment of an ELF file: p_vaddr, p_offset, p_filesz, p_memsz and p_flags of its program header. */
typedef struct NcSegment {
    uint32_t address;
    uint32_t offset;
    uint32_t file_len;
    uint32_t memory_len;
    uint32_t flags;
} NcSegment;

typedef struct NcSegments {
    size_t count; /* segments written, or for NC_NO_ROOM all */
    uint32_t fault;
    uint32_t header; /* for 56 to 61 the program header, counted from 0 */
} NcSegments;

typedef struct NcAct {
    uint32_t kind;
    uint32_t at;
    uint32_t value;
} NcAct;

/* A handle is a struct of the host's. One of all zeros is empty. Only the library reads or writes its pointer. The host may move a handle,
   but not copy it. Of two copies only one may ever be passed to a call. */
typedef struct NcRegion {
    void *at;
} NcRegion;

typedef struct NcSeat {
    void *at;
} NcSeat;

typedef struct NcVetted {
    void *at;
} NcVetted;

typedef struct NcChange {
    uint32_t fault;
    uint32_t at;  /* as in NcVerdict */
    size_t count; /* elements written, or for NC_NO_ROOM a length that is enough */
} NcChange;

typedef struct NcStamp {
    uint64_t stamp;
    uint32_t fault;
} NcStamp;

typedef struct NcCount {
    uint32_t fault;
    uint32_t count;
} NcCount;

typedef struct NcChunk {
    uint64_t stamp; /* of a retired chunk, else 0 */
    uint32_t fault;
    uint32_t base;
    uint32_t length;
    uint32_t retired; /* 1, or 0 if live */
} NcChunk;

typedef struct NcPlace {
    uint32_t fault;
    uint32_t byte;
    uint32_t mark;
} NcPlace;

typedef struct NcWalk {
    size_t count; /* places written, or for NC_NO_ROOM all */
    uint32_t fault;
    uint32_t end;
} NcWalk;

/* Returns NC_VERSION of the linked library's own header [version]. */
uint32_t nc_host_version(void);

/* ---- Calls on code alone, and on files

   They free what they allocate before they return [tested]. Only the arguments decide a result, except for NC_OUT_OF_MEMORY, as reading
   the code shows. */

/* Decodes the instruction at the start of the code, of which it reads at most 12 bytes.
   Promised: the fault is NC_OK exactly for a whole permitted instruction (IsAtFront), which the result describes [found]. It is
   NC_CUT_SHORT exactly for a proper front of one, even of length 0 (IsProperFront) [cut_short]. Otherwise it is NC_NOT_PERMITTED
   [not_permitted, faults].
   Not promised: that the instruction may stand at a given address. */
NcInstruction nc_host_decode(const uint8_t *code, size_t len);

/* Judges a chunk at `base` in a region with this limit.
   Promised: for NC_OK the chunk is valid (IsValid), and else it has this fault, 1 to 8 (HasFault) [outcome]. A valid chunk gets no fault
   but NC_OUT_OF_MEMORY [valid].
   Not promised: anything about data, or about other chunks, whose bundle starts may be targets. */
NcVerdict nc_host_vet(uint32_t base, uint32_t limit, const uint8_t *code, size_t len);

/* Judges as nc_host_vet does, and writes the marks of a valid chunk, one for each byte.
   Promised: the chunk is valid with these marks and no others (IsValid) [written].
   Refused: as by nc_host_vet; NC_NO_ROOM, if a valid chunk is longer than the buffer [outcome, valid, untouched]. */
NcVerdict nc_host_marks(uint32_t base, uint32_t limit, const uint8_t *code, size_t len, uint8_t *marks, size_t marks_len);

/* Judges as nc_host_vet does, for the limit NC_START + `image_len`, and fills `image`.
   Promised: `image` has the chunk's bytes at `base` - NC_START, and stops elsewhere (unused_text, with_chunk) [filled]. No path through it
   leaves the region, except to a trampoline (IsConfined) [confined].
   Refused: as by nc_host_vet [outcome, valid, untouched].
   Not promised: anything about a thread inside meanwhile. */
NcVerdict nc_host_image(uint32_t base, const uint8_t *code, size_t len, uint8_t *image, size_t image_len);

/* Judges a file by nc_check's rules for linked 32-bit x86 ELF files, and writes its loaded segments: those of type PT_LOAD with bytes in
   memory.
   Promised: exactly these are written, in order, as their program headers say [written]. The file is well-formed (IsWellFormed)
   [well_formed]. No segment has a fault from 56 to 61, and each ends at 2^32 or below (IsLoadable, IsLoadedBelow) [loadable, apart].
   Refused: 48 to 62, exactly if the file has this fault (HasElfFault); NC_NO_ROOM, if the buffer is shorter (MayRefuseLoaded) [refused,
   exact, untouched].
   Not promised: anything about entry point, interpreter, relocations, sections or symbols; that the host has room; that code is valid. */
NcSegments nc_host_elf(const uint8_t *file, size_t file_len, NcSegment *segments, size_t segments_len);

/* ---- Calls on handles

   What all of them keep
      Locks       Make calls on one region one at a time, under the lock of duty 28. Make calls on one seat from one thread at a time. They
                  need no lock, whatever runs on the region. A handle may pass to another thread, ordered by a lock, a thread's start or
                  join, or a SeqCst atomic.
      Handles     An empty handle is refused with NC_NO_HANDLE, before other faults. A call that fills a handle refuses one that isn't empty
                  with NC_HANDLE_TAKEN, even before that. A call without a result does nothing to an empty handle.
      Changes     A creation or a patch is a call of a history (LogsCall). A change writes its acts, serializations included, which are then
                  pending in the host's memory (ReportsPending). Once they are made, and a deletion has ended, the memory has the region's
                  bytes. Until the next call that changes the region they may be made again, all and from the first, even after a part of
                  them (IsHostStep). So keep the buffer, which alone has a patch's acts. `at` is 0, except for faults 4 to 7 [at]. A call
                  that reads or writes runs never changes the region [same].
      Buffers     A buffer is refused with NC_NO_ROOM if a change of this length can need a longer one. But with a length of 0 a creation or
                  a deletion is made, and its acts aren't reported. That is for hosts without memory, or those that ask for runs. Begin a
                  growing buffer above 0.
      Memory      nc_region_free, nc_vetted_free and nc_seat_leave free all that was allocated for the handle [tested]. Only the table of
                  stamps and check-ins, which a region shares with its seats, is freed with the last of them, in any order [tested]. */

/* Makes a region that is all stops, without a chunk and with no seat given (IsFirst) [made].
   Refused: NC_BAD_SEATS, NC_BAD_SIZE, NC_OUT_OF_MEMORY [refused, unchanged]. */
uint32_t nc_region_new(uint32_t bundles, uint32_t seats, NcRegion *region);

/* Frees a region, and empties the handle [emptied].
   Promised: seats that were given stay usable [tested]. */
void nc_region_free(NcRegion *region);

/* Gives a seat that has never been given (HasGiven) to an empty handle [given]. Until its first check-in it also holds back the deletions
   since the last reclaim before it was given.
   Refused: NC_NO_SEAT; NC_OUT_OF_MEMORY, which costs no seat (MayRefuseSeat) [refused, unchanged]. */
uint32_t nc_region_seat(NcRegion *region, NcSeat *seat);

/* Vets a chunk, and creates it with `len` + 2 acts.
   Promised: the region has the chunk, valid for its limit (IsCreated) [created]. The acts are the creation's (log_of_create) [reported,
   pending, at].
   Refused: 1 to 8 by vetting, NC_UNDER_WAY, NC_NO_ROOM, NC_OCCUPIED, NC_OUT_OF_MEMORY [refused, unchanged, untouched]. */
NcChange nc_region_create(NcRegion *region, uint32_t base, const uint8_t *code, size_t len, NcAct *acts, size_t acts_len);

/* Vets a chunk for a region with this limit, and keeps a copy in an empty handle. It needs no lock.
   Promised: the handle has a valid chunk of these bytes (IsValid) [vetted, at].
   Refused: 1 to 8, if the chunk has this fault (HasFault) [refused, unchanged]. */
NcVerdict nc_vetted_new(uint32_t base, uint32_t limit, const uint8_t *code, size_t len, NcVetted *vetted);

/* Frees a vetted chunk, and empties the handle [emptied]. */
void nc_vetted_free(NcVetted *vetted);

/* Creates a vetted chunk as nc_region_create does (IsCreated, log_of_create), and empties its handle [created, pending, at].
   Refused: NC_UNDER_WAY, NC_NO_ROOM, NC_WRONG_LIMIT, NC_OCCUPIED, NC_OUT_OF_MEMORY [refused, unchanged, untouched]. */
NcChange nc_region_load(NcRegion *region, NcVetted *vetted, NcAct *acts, size_t acts_len);

/* Replaces whole instructions of a chunk with others of the same lengths, with at most 3 * `len` acts. There are none if no instruction
   differs. A patch has no runs, so it wants a buffer.
   Promised: the patch was lawful (IsPatch), and the region has its bytes (IsPatched) [patched]. A buffer was lent [lent]. It has the
   patch's acts (log_of_patch) [reported, pending, at].
   Refused: NC_UNDER_WAY; NC_NO_ROOM, if `len` is at most 32 and the buffer shorter than 3 * `len`, even of length 0; 16 to 21 [refused,
   allowed, unchanged, untouched]. */
NcChange nc_region_patch(NcRegion *region, uint32_t at, const uint8_t *bytes, size_t len, NcAct *acts, size_t acts_len);

/* Begins a deletion, with two acts more than the chunk has bytes. The last is NC_BUMP, for which the host must call nc_region_end_delete
   after it has made the others. Until then the region shows the chunk's bytes.
   Promised: the deletion of the live chunk at `base` is under way (HasBegunDeletion), and these are its acts (log_of_delete), pending but for
   NC_BUMP [begun, pending, at].
   Refused: NC_UNDER_WAY, NC_NO_CHUNK, NC_FULL, NC_NO_ROOM [refused, unchanged, untouched]. */
NcChange nc_region_begin_delete(NcRegion *region, uint32_t base, NcAct *acts, size_t acts_len);

/* Ends a deletion. The chunk's bytes are then stops, and it is retired with the next stamp. Both calls are one of a history (HasEndedDeletion)
   [ended]. Only the stamp is pending, which the library has drawn (DoesItself) [pending].
   Refused: NC_NOT_BEGUN [refused, unchanged]. */
NcStamp nc_region_end_delete(NcRegion *region);

/* Writes the acts that create the live chunk at `base` with its present bytes, as two runs for each bundle and two more acts
   (AreCreationRuns) [reported, same, at]. Call it after a creation without a buffer, before the next call
   that changes the region.
   Refused: NC_NO_CHUNK; NC_NO_ROOM, if the buffer is shorter, even of length 0 [refused, untouched]. */
NcChange nc_region_creation_runs(NcRegion *region, uint32_t base, NcAct *acts, size_t acts_len);

/* Writes the acts of the deletion under way, as two runs for each bundle and two more acts (AreDeletionRuns) [reported, same, at]. Call it
   after nc_region_begin_delete without a buffer, or to make them again.
   Refused: NC_NOT_BEGUN, NC_NO_ROOM as above [refused, untouched]. */
NcChange nc_region_deletion_runs(NcRegion *region, NcAct *acts, size_t acts_len);

/* Checks in for seats that nobody was given, looks at each seat, and removes retired chunks. Their spans may be reused, and keep only the
   marks of bundle starts.
   Promised: exactly the `count` retired chunks that no seat holds back, according to the looks, are removed, in two calls of a history
   (HasReclaimed) [reclaimed]. A look finds a seat's last check-in before it, or that it was left (HasFound) [reclaimed]. A chunk is removed
   if each seat that was given has checked in since its deletion, or was left, at some moment before the looks (HasFreedPassed)
   [reclaimed]. Only looks and freed spans are pending, which the library has made (DoesItself) [pending].
   Refused: NC_UNDER_WAY [refused, unchanged]. */
NcCount nc_region_reclaim(NcRegion *region);

/* Returns the chunk at an index of the list, in ascending order of base [chunk, same].
   Refused: NC_NO_CHUNK [refused]. */
NcChunk nc_region_chunk(NcRegion *region, size_t index);

/* Returns the chunk, live or retired, that has this address, or else the first above it (IsNextChunk) [chunk, same]. Its span is whole
   bundles of the region, below the guard (HasGoodSpan) [placed].
   Refused: NC_NO_CHUNK [refused]. */
NcChunk nc_region_chunk_at(NcRegion *region, uint32_t at);

/* Returns the byte and the mark at an address of the region [place, same].
   Refused: NC_NO_PLACE [refused]. */
NcPlace nc_region_place(NcRegion *region, uint32_t at);

/* Walks from a bundle start, and writes at most `choices_len` + 1 places. Each step uses one choice in place of data and flags. At a branch
   the choice 0 falls through, and any other goes to the target. An indirect transfer goes to the choice with its low five bits cleared.
   Promised: this is the machine's only walk by these choices, and all of it is safe (IsShownWalk) [reported, same].
   Refused: NC_NO_START, NC_OUT_OF_MEMORY, NC_NO_ROOM [refused]. */
NcWalk nc_region_walk(NcRegion *region, uint32_t start, const uint32_t *choices, size_t choices_len, uint32_t *places, size_t places_len);

/* Returns the generation: the last stamp that was drawn, or 0 [generation, same].
   Refused: only an empty handle [refused]. */
NcStamp nc_region_generation(NcRegion *region);

/* Reports that the seat's thread is outside, by one load and one store, both memory_order_seq_cst.
   Promised: it stores the generation that it loaded, which is no less than any before (HasCheckedIn) [checked_in]. The call waits for no
   thread, not even one stuck in a creation [tested].
   Refused: only an empty handle [nothing].
   Not promised: that the thread is outside (duty 17). */
uint32_t nc_seat_check_in(NcSeat *seat);

/* Reports that the seat's thread is outside for good, and empties the handle [emptied].
   Promised: the seat holds nothing back [tested]. */
void nc_seat_leave(NcSeat *seat);

/* With NC_FAULT_NAMES, these return a fault's name, and its sentence in NC_FAULTS, or "?" for other numbers. */
#ifdef NC_FAULT_NAMES
#ifdef __GNUC__
#define NC_UNUSED __attribute__((unused))
#else
#define NC_UNUSED
#endif
/* clang-format off */
#define NC_NAME_OF(fault, sentence) case fault: return #fault;
#define NC_SENTENCE_OF(fault, sentence) case fault: return sentence;
/* clang-format on */

NC_UNUSED static const char *nc_fault_name(uint32_t fault) {
    switch (fault) { NC_FAULTS(NC_NAME_OF) }
    return "?";
}

NC_UNUSED static const char *nc_fault_sentence(uint32_t fault) {
    switch (fault) { NC_FAULTS(NC_SENTENCE_OF) }
    return "?";
}
#endif

#ifdef __cplusplus
}
#endif

#endif
