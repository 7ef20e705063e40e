/* Tries the views on this processor. `views SECONDS` makes all runs, and `views SECONDS MUTANT CHOICE` makes one, with a mutant.
   tests/decoding/views compiles and starts this program. */
#define _GNU_SOURCE
#include "race.h"
#include "slot.h"

#include <math.h>
#include <sched.h>
#include <stdio.h>
#include <stdlib.h>
#include <string.h>

#define SKIPPED 77
#define ALL_MADE 3u

/* The serializations that each choice makes, and the name of those that it leaves out. The serialization between two changes is made only
   where the two others are left out. It bounds the views. */
static const struct {
    unsigned made;
    const char *name;
} choices[] = {{ALL_MADE, "none"}, {2, "first"}, {1, "second"}, {1u << (SERIALIZATIONS - 1), "both"}};
#define CHOICES (sizeof choices / sizeof *choices)

/* How far the instruction is from its bundle's start. The bundle is the second one of a cache line. */
static const unsigned offsets[] = {0, 6, 14, 27, 30};
#define OFFSETS (sizeof offsets / sizeof *offsets)
#define ACROSS_LINES 30u /* also across two bundles, where no region lets it stand */

static unsigned processors(void) {
    cpu_set_t set;
    if (sched_getaffinity(0, sizeof set, &set) != 0) {
        perror("sched_getaffinity");
        exit(4);
    }
    return (unsigned)CPU_COUNT(&set);
}

/* An instruction across two cache lines is patched as if it stood at a bundle's start. */
static Acts acts_at(unsigned offset) {
    return acts_of_patch(offset == ACROSS_LINES ? 0 : offset);
}

static void show_mixed(const Tally *t) {
    char letters[LENGTH + 1];
    unsigned pattern;
    for (pattern = 0; pattern < PATTERNS; pattern++) {
        if (t->mixed[pattern] != 0) {
            pattern_letters(pattern, letters);
            printf("    mixture %s: %llu\n", letters, (unsigned long long)t->mixed[pattern]);
        }
    }
}

static uint64_t sum_of_mixed(const Tally *t) {
    uint64_t sum = 0;
    unsigned i;
    for (i = 0; i < PATTERNS; i++) {
        sum += t->mixed[i];
    }
    return sum;
}

/* tests/decoding/views reads these lines. */
static void show(const Race *race, const Tally *t) {
    const struct {
        const char *name;
        uint64_t count;
    } counts[] = {{"changes", t->changes},       {"executions", t->executions}, {"beside", t->beside},
                  {"whole", t->whole},           {"stops", t->stops},           {"late", t->late_whole},
                  {"late-stops", t->late_stops}, {"mixed", sum_of_mixed(t)},    {"outside", t->outside}};
    size_t i;
    printf("%s at %u, left out %s, %u mixtures in the views:", race->name, race->offset, race->left_out, mixtures_in(&race->views));
    for (i = 0; i < sizeof counts / sizeof *counts; i++) {
        printf(" %s %llu", counts[i].name, (unsigned long long)counts[i].count);
    }
    printf("\n");
    show_mixed(t);
    fflush(stdout);
}

/* Changes what the writer does, or what is expected. Returns 0 where there is no such mutant. */
static int plant(Race *race, const char *mutant) {
    Act *first = race->acts.all;              /* puts the stop */
    Act *last = first + race->acts.count - 2; /* puts the first byte; the serialization between two changes comes next */
    Act *before = last - 2;                   /* puts the last byte; the change's last serialization comes next */
    Act kept = *last;
    if (strcmp(mutant, "no-stop-view") == 0) {
        race->views = without_stops(race->views);
    } else if (strcmp(mutant, "no-stop") == 0 || strcmp(mutant, "no-stop-expected") == 0) {
        first->kind = PUT_NEW;
        race->views = strcmp(mutant, "no-stop") == 0 ? race->views : views_of(&race->acts, race->made);
    } else if (strcmp(mutant, "late-byte") == 0) {
        *last = *before;
        *before = kept;
    } else if (strcmp(mutant, "other-byte") == 0) {
        before->kind = PUT_FOREIGN;
    } else if (strcmp(mutant, "trap") == 0) {
        last->kind = PUT_TRAP;
    } else {
        race->ahead = strcmp(mutant, "late-puts") == 0;
        return race->ahead || strcmp(mutant, "nothing") == 0;
    }
    return 1;
}

static int try_one(Race race, size_t choice, const char *mutant) {
    Tally t;
    race.left_out = choices[choice].name;
    race.made = choices[choice].made;
    race.views = views_of(&race.acts, race.made);
    race.text = text_of(&race.acts);
    if (mutant != NULL && !plant(&race, mutant)) {
        fprintf(stderr, "views: no mutant %s\n", mutant);
        exit(2);
    }
    t = race_run(&race);
    show(&race, &t);
    return t.outside != 0;
}

static int try_all(double seconds, unsigned readers) {
    Race race = {.readers = readers, .seconds = seconds / (double)(CHOICES * (OFFSETS + 1))};
    int wrong = 0;
    size_t i, k;
    for (i = 0; i < CHOICES; i++) {
        race.name = "patched";
        for (k = 0; k < OFFSETS; k++) {
            race.offset = offsets[k];
            race.acts = acts_at(race.offset);
            wrong += try_one(race, i, NULL);
        }
        race.name = "replaced";
        race.offset = 0;
        race.acts = acts_of_replacement();
        wrong += try_one(race, i, NULL);
    }
    return wrong != 0;
}

static size_t choice_named(const char *name) {
    size_t i;
    for (i = 0; i < CHOICES; i++) {
        if (strcmp(choices[i].name, name) == 0) {
            return i;
        }
    }
    fprintf(stderr, "views: no choice %s\n", name);
    exit(2);
}

static double seconds_named(const char *word) {
    char *end;
    double seconds = strtod(word, &end);
    if (end == word || *end != 0 || !isfinite(seconds) || seconds < 0) {
        fprintf(stderr, "views: no number of seconds: %s\n", word);
        exit(2);
    }
    return seconds;
}

int main(int argc, char **argv) {
    unsigned readers = processors() - 1;
    const char *refused;
    double seconds;
    int status;
    if (argc != 2 && argc != 4) {
        fprintf(stderr, "usage: views SECONDS [MUTANT CHOICE]\n");
        return 2;
    }
    seconds = seconds_named(argv[1]);
    refused = slot_open();
    if (readers == 0 || refused != NULL) {
        printf("skipped: the views on the processor: this system %s%s\n", refused ? "refuses " : "has only one processor",
               refused ? refused : "");
        return SKIPPED;
    }
    readers = readers > READERS ? READERS : readers;
    printf("one thread changes an instruction, %u execute it\n", readers);
    if (argc == 4) {
        Race race = {.name = "patched", .acts = acts_of_patch(0), .readers = readers, .seconds = seconds};
        status = try_one(race, choice_named(argv[3]), argv[2]);
    } else {
        status = try_all(seconds, readers);
    }
    if (fflush(stdout) != 0 || ferror(stdout)) {
        perror("views");
        return 2;
    }
    return status;
}
