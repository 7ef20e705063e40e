/* A host for trials under Linux: `host FILE` loads the segments of an ELF file at their addresses and enters it. The code gets system calls by
   the trampoline of host.s, so this is no sandbox. */

typedef unsigned int u32;
typedef unsigned short u16;

struct Header {
    unsigned char ident[16];
    u16 kind, machine;
    u32 version, entry, headers, sections, flags;
    u16 length, header_length, header_count, section_length, section_count, names;
};

struct Segment {
    u32 kind, offset, address, physical, file_length, memory_length, flags, align;
};

enum { EXIT = 1, WRITE = 4, OPEN = 5, MPROTECT = 125, PREAD = 180, MMAP = 192 };
enum { EXECUTABLE = 1, WRITABLE = 2, READABLE = 4, PROT_READ = 1, PROT_WRITE = 2, PROT_EXEC = 4, PRIVATE_FIXED_ANONYMOUS = 0x32 };
enum { LOAD = 1, PAGE = 4096 };

long host_syscall(long number, long a, long b, long c, long d, long e, long f);

static void need(int holds) {
    static const char message[] = "host: the file can't be loaded\n";
    if (holds) return;
    host_syscall(WRITE, 2, (long)message, sizeof message - 1, 0, 0, 0);
    host_syscall(EXIT, 126, 0, 0, 0, 0, 0);
}

static void read_at(long file, u32 to, u32 length, u32 offset) {
    need(host_syscall(PREAD, file, (long)to, (long)length, (long)offset, 0, 0) == (long)length);
}

static void load_segment(long file, const struct Segment *segment) {
    u32 begin = segment->address & -PAGE, length = segment->address + segment->memory_length - begin, flags = segment->flags;
    int protection = (flags & READABLE ? PROT_READ : 0) | (flags & WRITABLE ? PROT_WRITE : 0) | (flags & EXECUTABLE ? PROT_EXEC : 0);
    long place = host_syscall(MMAP, (long)begin, (long)length, PROT_READ | PROT_WRITE, PRIVATE_FIXED_ANONYMOUS, -1, 0);
    need(place == (long)begin);
    read_at(file, segment->address, segment->file_length, segment->offset);
    need(host_syscall(MPROTECT, (long)begin, (long)length, protection, 0, 0, 0) == 0);
}

/* `stack` is as Linux gives it to a program: the count of words on its command line, and the words. */
void load(const long *stack) {
    struct Header header;
    struct Segment segment;
    need(stack[0] == 2);
    long file = host_syscall(OPEN, stack[2], 0, 0, 0, 0, 0);
    read_at(file, (u32)&header, sizeof header, 0);
    for (u32 number = 0; number < header.header_count; number++) {
        read_at(file, (u32)&segment, sizeof segment, header.headers + number * header.header_length);
        if (segment.kind == LOAD && segment.memory_length) load_segment(file, &segment);
    }
    ((void (*)(void))header.entry)();
}
