/* Why nc-run ends, in a line on standard error, and with which status. TRUSTED, NOT PROVED. */
#include "run.h"

#include <stdio.h>
#include <string.h>

#define FAULTS_OF_MEMORY 12 /* and those above */
#define PAGE_FAULT 14
#define ESP 4 /* of a trace's registers */

int report_system(const char *what, int error) {
    fprintf(stderr, "nc-run: %s%s%s\n", what, error != 0 ? ": " : "", error != 0 ? strerror(error) : "");
    return STATUS_SYSTEM;
}

int report_file(const Run *run, const char *sentence, const char *word) {
    fprintf(stderr, "nc-run: %s: refused: %s%s\n", run->line.file, sentence, word);
    return STATUS_REFUSED;
}

/* A place in the code, as " at 00010024 <start+0x4>". The name can be printed; the library sees to it. */
static void print_place(const Run *run, uint32_t place) {
    uint32_t offset = 0;
    const char *name = run->module != NULL ? ncs_function_at(run->module, (NcsAt){place}, &offset)
                                           : ncs_function_in(run->bytes, run->len, (NcsAt){place}, &offset);
    fprintf(stderr, " at %08x", (unsigned)place);
    if (name != NULL) {
        fprintf(stderr, offset != 0 ? " <%s+0x%x>" : " <%s>", name, (unsigned)offset);
    }
}

int report_refusal(const Run *run, const NcsRefusal *why) {
    if (why->kind == NCS_BAD_FILE || why->kind == NCS_BAD_LIMITS) {
        return report_file(run, why->sentence, "");
    }
    if (why->kind != NCS_BAD_CODE) {
        return report_system(why->sentence, 0);
    }
    fprintf(stderr, "nc-run: %s: refused", run->line.file);
    print_place(run, why->at);
    fprintf(stderr, ": %s\n", why->sentence);
    return STATUS_REFUSED;
}

/* What a fault's interrupt means. */
static const char *cause(uint32_t trap) {
    static const struct {
        uint32_t trap;
        const char *words;
    } causes[] = {
        {0, "a division by zero, or a quotient that is too large"},
        {6, "an undefined instruction"},
        {12, "an access beyond its memory by the stack"},
        {13, "an access or a jump beyond its memory"},
        {14, "an access below its memory"},
    };
    size_t k;
    for (k = 0; k < sizeof causes / sizeof *causes; k++) {
        if (causes[k].trap == trap) {
            return causes[k].words;
        }
    }
    return "a fault";
}

static void print_fault(const NcsEnd *end, const NcsTrace *trace) {
    if (end->trap >= FAULTS_OF_MEMORY && trace->is_full) {
        fprintf(stderr, ": its stack is full, at %08x; nc-cc --data leaves more room for it", (unsigned)trace->reg[ESP]);
        return;
    }
    fprintf(stderr, ": %s", cause(end->trap));
    if (end->trap == PAGE_FAULT) {
        fprintf(stderr, ", at %08x", (unsigned)end->data);
    }
}

static void print_cause(const NcsEnd *end, const NcsTrace *trace) {
    switch (end->how) {
    case NCS_STOPPED: fputs(": a stop (hlt), which is also wherever no code is", stderr); break;
    case NCS_FAULTED: print_fault(end, trace); break;
    case NCS_BAD_CALL: fputs(": a call of the host where there is none, or without a stack", stderr); break;
    default: fputs(": a call of the host was to return there", stderr); break;
    }
}

/* The calls that led to the end, and how to find the lines of all these places. */
static void print_calls(const Run *run, const NcsEnd *end, const NcsTrace *trace) {
    uint32_t places[1 + NCS_TRACE_CALLS], k;
    places[0] = end->place;
    for (k = 0; k < trace->count; k++) {
        fputs("  called", stderr);
        print_place(run, trace->calls[k].at);
        fputc('\n', stderr);
        places[1 + k] = trace->calls[k].at;
    }
    if (trace->count == NCS_TRACE_CALLS) {
        fputs("  ..\n", stderr);
    }
    if (run->has_lines) {
        lines_print_command(run->line.file, places, 1 + trace->count);
    }
}

/* Crashes and the end of the time. Where one thread makes one call, any other end is the system's refusal (NCS_HOST). */
int report_end(const Run *run, const NcsEnd *end, int was_entered) {
    NcsTrace trace;
    if (end->how == NCS_BAD_ENTRY && !was_entered) {
        return run->line.call != NULL ? report_file(run, "no function of the code begins at ", run->line.call)
                                      : report_file(run, "its entry isn't at a bundle start of the code", "");
    }
    if (end->how != NCS_STOPPED && end->how != NCS_FAULTED && end->how != NCS_BAD_CALL && end->how != NCS_BAD_ENTRY &&
        end->how != NCS_LATE) {
        return report_system("the system refuses what a call needs", 0);
    }
    fprintf(stderr, "nc-run: %s: %s", run->line.file, end->how == NCS_LATE ? "out of time" : "crashed");
    print_place(run, end->place);
    memset(&trace, 0, sizeof trace);
    (void)ncs_trace(run->box, &trace); /* a box that was never entered has none */
    if (end->how != NCS_LATE) {
        print_cause(end, &trace);
    }
    fputc('\n', stderr);
    print_calls(run, end, &trace);
    return end->how == NCS_LATE ? STATUS_LATE : STATUS_CRASHED;
}

int report_wall(int stands, const NcsRefusal *why) {
    return report_system(stands == NCS_WALL_FILTER ? "the system has no Landlock, so the second wall isn't whole" : why->sentence, 0);
}

int report_lack(const Run *run, int status) {
    if (status != 0 && run->lacks_folder) {
        fprintf(stderr, "nc-run: %s: it asked for files, and has no folder: give --dir or --dir-rw\n", run->line.file);
    } else if (status != 0 && run->lacks_right) {
        fprintf(stderr, "nc-run: %s: it was to change files that it only reads: give --dir-rw\n", run->line.file);
    }
    return status;
}
