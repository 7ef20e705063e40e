/* Compares the costs of boxes with those of code without a box and of other processes. Run `costs` in the folder that `build` has made. */
#define _GNU_SOURCE
#include "costs.h"
#include "../library.h"

#include <string.h>
#include <time.h>
#include <unistd.h>

enum { TURNS = 9, CALLS = 100000, TRIPS = 2000, LIVES = 100, BOXES = 32, MEMORY = 64 << 20, HEAP = 24 << 20, MILLISECONDS = 60000 };
enum { JOBS = 4, SERVERS = 3, OF_PROCESSOR = CLOCK_THREAD_CPUTIME_ID };

static Library png, xml, plain;
static uint8_t pixels[PIXELS_MAX];

/* ---- Jobs in a box, whose reset and the library's new heap count */

static const uint8_t *box_picture(const Job *job, uint32_t *len) {
    uint32_t image[24] = {[1] = 1}; /* png_image, as picture/host.c has it: the second word is the version, then come width and height */
    NcsAt in = ncs_put(png.box, job->bytes, job->len), at = ncs_put(png.box, image, sizeof image), out;
    need(library_call(&png, "png_image_begin_read_from_memory", NCS_ARGS(at.at, in.at, job->len)) != 0, "no picture");
    need(ncs_get(png.box, image, at, sizeof image) && ncs_set(png.box, (NcsAt){at.at + 16}, (const uint32_t[]){2}, 4), "no picture");
    *len = 3 * image[2] * image[3];
    out = ncs_take(png.box, *len);
    need(library_call(&png, "png_image_finish_read", NCS_ARGS(at.at, 0, out.at, 0, 0)) != 0, "no picture");
    return ncs_at(png.box, out, *len);
}

static uint64_t on_start(NcsBox *box, void *user, const uint32_t *args) {
    char name[64];
    need(ncs_text(box, name, sizeof name, (NcsAt){args[1]}) >= 0, "no name");
    add_name(*(Made **)user, name);
    return 0;
}

static void box_document(const Job *job, Made *made) {
    static Made *counted;
    static NcsAt start;
    uint32_t parser = library_call(&xml, "XML_ParserCreate", NCS_ARGS(0));
    start = start.at == 0 ? ncs_callback(xml.box, on_start, &counted, 3) : start;
    counted = made;
    (void)library_call(&xml, "XML_SetElementHandler", NCS_ARGS(parser, job->kind == DOCUMENT ? start.at : 0, 0));
    need(library_call(&xml, "XML_Parse", NCS_ARGS(parser, ncs_put(xml.box, job->bytes, job->len).at, job->len, 1)) == 1, "no document");
}

static uint64_t box_do(const Job *job, Made *made) {
    uint64_t begun = processor_time(), ended;
    const uint8_t *out = NULL;
    uint32_t len = 0;
    memset(made, 0, sizeof *made);
    library_begin(job->kind == PICTURE ? &png : &xml, HEAP);
    if (job->kind == PICTURE) {
        out = box_picture(job, &len);
    } else {
        box_document(job, made);
    }
    ended = processor_time();
    if (out != NULL) {
        add_pixels(made, out, len);
    }
    return ended - begun;
}

/* ---- The table of jobs */

static Server *servers[SERVERS]; /* native32, by pipes, by memory */

/* One way to do a job: in a box, natively, or by a server. */
static uint64_t do_by(unsigned way, const Job *job, Made *made) {
    return way == 0 ? box_do(job, made) : way == 1 ? native_do(job, pixels, made) : server_do(servers[way - 2], job, made);
}

static void compare(const Job *job) {
    enum { WAYS = 2 + SERVERS };
    double least[WAYS] = {0};
    Made first = {0, 0}, made;
    unsigned k, way;
    for (k = 0; k < TURNS * WAYS; k++) {
        way = k % WAYS;
        if (way < 2 || servers[way - 2] != NULL) {
            double took = (double)do_by(way, job, &made) / 1e6;
            first = k == 0 ? made : first;
            need(memcmp(&made, &first, sizeof made) == 0, "two ways disagree");
            least[way] = least[way] == 0 || took < least[way] ? took : least[way];
        }
    }
    printf("| %s |", job->title);
    for (way = 0; way < WAYS; way++) {
        printf(least[way] == 0 ? " not tried |" : way == 0 ? " %.1f |" : " %.1f (%.2f) |", least[way], least[0] / least[way]);
    }
    puts("");
    fflush(stdout);
}

static void compare_all(void) {
    const Job jobs[JOBS] = {job_of_file("a photograph", "photograph.png", PICTURE), job_of_file("a screen", "screen.png", PICTURE),
                            job_of_file("a document, each element told", "long.xml", DOCUMENT),
                            job_of_file("the document, nothing told", "long.xml", DOCUMENT_UNTOLD)};
    puts("| ms | box | x86-64 | i386 | process, pipes | process, memory |\n|---|---|---|---|---|---|");
    for (unsigned k = 0; k < JOBS; k++) {
        compare(&jobs[k]);
    }
    for (unsigned k = 0; k < JOBS; k++) {
        printf("%s: %.2f MB\n", jobs[k].title, jobs[k].len / 1e6);
    }
}

/* ---- Single calls */

static uint64_t nothing_told(NcsBox *box, void *user, const uint32_t *args) {
    (void)box, (void)user, (void)args;
    return 0;
}

static double calls(void) {
    NcsAt function = ncs_symbol(plain.module, "nothing");
    for (unsigned k = 0; k < CALLS; k++) {
        need(ncs_call(plain.box, function, NCS_NO_ARGS).how == NCS_RETURNED, "no call");
    }
    return CALLS;
}

static double callbacks(void) {
    static NcsAt callback;
    callback = callback.at == 0 ? ncs_callback(plain.box, nothing_told, NULL, 0) : callback;
    (void)library_call(&plain, "calls", NCS_ARGS(CALLS, callback.at));
    return CALLS;
}

static double trips(Server *server) {
    const Job job = {"", "", NOTHING, 0, pixels};
    Made made;
    for (unsigned k = 0; k < TRIPS; k++) {
        (void)server_do(server, &job, &made);
    }
    return TRIPS;
}

static double pipe_trips(void) {
    return trips(servers[1]);
}

static double memory_trips(void) {
    return trips(servers[2]);
}

static double resets(void) {
    for (unsigned k = 0; k < LIVES; k++) {
        need(ncs_reset(plain.box), "no reset");
    }
    return LIVES;
}

/* The same with 1 MiB written before. */
static double written_resets(void) {
    const NcsAt begin = {(1 << 20) - 4096};
    for (unsigned k = 0; k < LIVES; k++) {
        memset(ncs_at(plain.box, begin, 1 << 20), 1, 1 << 20);
        need(ncs_reset(plain.box), "no reset");
    }
    return LIVES;
}

static double lives(void) {
    const NcsLimits limits = {.memory = MEMORY, .depth = 1, .milliseconds = MILLISECONDS};
    for (unsigned k = 0; k < LIVES; k++) {
        need(ncs_free(ncs_box_new(plain.module, &limits, NULL)), "no box");
    }
    return LIVES;
}

static double loads(void) {
    static uint8_t bytes[1 << 20];
    static uint32_t len;
    len = len == 0 ? read_file("picture.elf", bytes, sizeof bytes) : len;
    for (unsigned k = 0; k < LIVES / 10; k++) {
        NcsModule *module = ncs_module_elf(bytes, len, NULL);
        need(module != NULL, "no module");
        ncs_module_free(module);
    }
    return LIVES / 10;
}

/* The least time of one call. */
static void tell(const char *what, int clock, double (*some)(void)) {
    double least = 0;
    for (unsigned k = 0; k < TURNS; k++) {
        uint64_t begun = time_by(clock);
        double count = some(), took = (double)(time_by(clock) - begun) / count;
        least = k == 0 || took < least ? took : least;
    }
    printf(least < 1e3   ? "| %s | %.0f ns |\n"
           : least < 1e6 ? "| %s | %.1f us |\n"
                         : "| %s | %.1f ms |\n",
           what,
           least < 1e3   ? least
           : least < 1e6 ? least / 1e3
                         : least / 1e6);
    fflush(stdout);
}

/* Bytes of memory that this process has in use. */
static double resident(void) {
    unsigned long size, pages;
    FILE *file = fopen("/proc/self/statm", "r");
    need(file != NULL && fscanf(file, "%lu %lu", &size, &pages) == 2 && fclose(file) == 0, "no statm");
    return (double)pages * (double)sysconf(_SC_PAGESIZE);
}

static void tell_memory(const char *name) {
    const NcsLimits limits = {.memory = MEMORY, .depth = 1, .milliseconds = MILLISECONDS};
    NcsBox *further[BOXES];
    double before = resident(), module;
    Library first = library_open(name, MEMORY, MILLISECONDS);
    module = resident();
    for (unsigned k = 0; k < BOXES; k++) {
        further[k] = ncs_box_new(first.module, &limits, NULL);
        need(further[k] != NULL, "no box");
    }
    printf("| memory of %s with a box, of a further box | %.0f KiB, %.0f KiB |\n", name, (module - before) / 1024,
           (resident() - module) / 1024 / BOXES);
    for (unsigned k = 0; k < BOXES; k++) {
        need(ncs_free(further[k]), "a box is in use");
    }
    need(library_close(&first) == 0, "a box is in use");
}

int main(void) {
    make_files();
    servers[0] = server_of_program("./native32");
    servers[1] = server_by_pipe();
    servers[2] = server_by_memory();
    png = library_open("picture.elf", MEMORY, MILLISECONDS);
    xml = library_open("document.elf", MEMORY, MILLISECONDS);
    plain = library_open("guest.elf", 2 << 20, MILLISECONDS);
    compare_all();
    tell("an empty call of a box", OF_PROCESSOR, calls);
    tell("a call-back", OF_PROCESSOR, callbacks);
    tell("a reset of an untouched box", OF_PROCESSOR, resets);
    tell("writing 1 MiB of a box, and a reset", OF_PROCESSOR, written_resets);
    tell("making and freeing a box of 64 MiB", OF_PROCESSOR, lives);
    tell("loading picture.elf, and freeing it", OF_PROCESSOR, loads);
    tell("an empty call of a process, by pipes, by the clock", CLOCK_MONOTONIC, pipe_trips);
    tell("an empty call of a process, by shared memory, by the clock", CLOCK_MONOTONIC, memory_trips);
    tell_memory("picture.elf");
    tell_memory("document.elf");
    for (unsigned k = 0; k < SERVERS; k++) {
        if (servers[k] != NULL) {
            server_end(servers[k]);
        }
    }
    return library_close(&png) | library_close(&xml) | library_close(&plain);
}
