/* The command line. TRUSTED, NOT PROVED. */
#define _GNU_SOURCE
#include "run.h"

#include "nc_host.h"

#include <errno.h>
#include <limits.h>
#include <stdio.h>
#include <stdlib.h>
#include <string.h>
#include <unistd.h>

#define PAGE 4096u
#define MEMORY_DEFAULT (256u << 20)
#define WRITE_DEFAULT (1u << 30)
#define LIVE_MOST (63u << 20)

static const char HELP[] =
    "Run a program that nc-cc has compiled for the sandbox\n"
    "\n"
    "Usage: nc-run [OPTIONS] <FILE> [ARGS]...\n"
    "\n"
    "Arguments:\n"
    "  <FILE>     ELF file made by nc-cc\n"
    "  [ARGS]...  Words for the program; with --call, 32-bit numbers for the function\n"
    "\n"
    "Options:\n"
    "      --time <MS>         Processor time in milliseconds, from 0 to 4294967295; 0 sets no limit [default: 0]\n"
    "      --memory <SIZE>     Bytes of data, heap and stack; K, M and G may follow [default: 256M]\n"
    "      --live-code <SIZE>  Bytes of code that the program may make, as for --memory, up to 63M [default: 0]\n"
    "      --call <NAME>       Call this function of the file, and print its result\n"
    "      --dir <DIR>         Let the program read what is below this folder, which is its /; DIR=/NAME gives it another name\n"
    "      --dir-rw <DIR>      The same, and let the program write, make, rename and remove it\n"
    "      --write <SIZE>      Bytes to write to files there, as for --memory; a new file counts 4096 [default: 1G]\n"
    "      --env <NAME>        Give the program this variable of the environment; NAME=VALUE gives it a value of its own\n"
    "      --wall <HOW>        Whether to run without a whole second wall [default: try] [possible values: try, must]\n"
    "      --no-wall           Leave out the second wall, so that a program out of its box could do all that you can\n"
    "      --perf-map          Name the program's functions to perf, by perf-PID.map of /tmp\n"
    "      --debug <FD>        Tell a debugger by this open file where the program is, and wait for it, as nc-gdb wants\n"
    "  -h, --help              Print help\n"
    "  -V, --version           Print version\n";

static int wrong(const char *what, const char *word) {
    fprintf(stderr, "nc-run: %s%s\nTry 'nc-run --help'.\n", what, word);
    return STATUS_USAGE;
}

static int printed(int count) {
    return count < 0 || fflush(stdout) != 0 ? report_system("standard output", errno) : 0;
}

/* The digits at the beginning of a text, as a number up to `most`; what follows them. 0 if there is no such number. */
static int read_number(const char *text, int base, uint64_t most, uint64_t *number, const char **rest) {
    size_t len = strspn(text, base == 16 ? "0123456789abcdefABCDEF" : "0123456789");
    char *end;
    if (len == 0) {
        return 0;
    }
    errno = 0;
    *number = strtoull(text, &end, base);
    *rest = end;
    return errno == 0 && end == text + len && *number <= most;
}

static int read_time(const char *text, Line *line) {
    uint64_t time;
    const char *rest;
    if (!read_number(text, 10, UINT32_MAX, &time, &rest) || *rest != 0) {
        return 0;
    }
    line->milliseconds = time != 0 ? (uint32_t)time : UINT32_MAX;
    return 1;
}

/* Bytes, up to so many. */
static int read_size(const char *text, uint64_t most, uint64_t *size) {
    static const char units[] = "KMG";
    const char *rest, *unit;
    unsigned shift;
    if (!read_number(text, 10, most, size, &rest)) {
        return 0;
    }
    unit = *rest != 0 ? strchr(units, *rest) : NULL;
    shift = unit != NULL ? 10 * (unsigned)(unit - units + 1) : 0;
    if (rest[unit != NULL] != 0 || *size > most >> shift) {
        return 0;
    }
    *size <<= shift;
    return 1;
}

/* A number of 32 bits, signed or not, decimal or hexadecimal. */
static int read_word(const char *text, uint32_t *word) {
    int negative = *text == '-', hex;
    uint64_t number;
    text += negative;
    hex = text[0] == '0' && (text[1] == 'x' || text[1] == 'X');
    text += hex ? 2 : 0;
    if (!read_number(text, hex ? 16 : 10, negative ? 1ull << 31 : UINT32_MAX, &number, &text) || *text != 0) {
        return 0;
    }
    *word = (uint32_t)(negative ? 0 - number : number);
    return 1;
}

static int read_words(Line *line) {
    unsigned k;
    if (line->count > NCS_ARGS_MAX) {
        return wrong("a function gets at most 16 numbers", "");
    }
    for (k = 0; k < line->count; k++) {
        if (!read_word(line->words[k], &line->numbers[k])) {
            return wrong("not a 32-bit number, such as 7, -7 or 0x7: ", line->words[k]);
        }
    }
    return -1;
}

/* Each takes the value of an option: -1, or the status to end with. */

static int take_time(const char *value, Line *line) {
    return read_time(value, line) ? -1 : wrong("--time wants milliseconds from 0 to 4294967295: ", value);
}

/* It is rounded up to whole pages. */
static int take_memory(const char *value, Line *line) {
    uint64_t size;
    if (!read_size(value, NCS_MEMORY_MAX, &size) || size == 0) {
        return wrong("--memory wants bytes, such as 1048576, 1024K or 1M, up to 1G: ", value);
    }
    line->memory = ((uint32_t)size + PAGE - 1) & ~(PAGE - 1);
    return -1;
}

static int take_live(const char *value, Line *line) {
    uint64_t size;
    int good = read_size(value, LIVE_MOST, &size);
    line->live = good ? (uint32_t)size : 0;
    return good ? -1 : wrong("--live-code wants bytes, such as 1048576, 1024K or 1M, up to 63M: ", value);
}

static int take_write(const char *value, Line *line) {
    int good = read_size(value, UINT64_MAX, &line->write);
    return good ? -1 : wrong("--write wants bytes, such as 1048576, 1024K or 1M, below 2^64: ", value);
}

static int take_wall(const char *value, Line *line) {
    line->wall = strcmp(value, "must") == 0 ? WALL_MUST : WALL_TRY;
    return line->wall == WALL_MUST || strcmp(value, "try") == 0 ? -1 : wrong("--wall wants try or must: ", value);
}

static int take_no_wall(const char *value, Line *line) {
    (void)value;
    line->wall = WALL_NONE;
    return -1;
}

/* 0, 1 and 2 are the program's. */
static int take_debug(const char *value, Line *line) {
    uint64_t file;
    const char *rest;
    if (!read_number(value, 10, INT_MAX, &file, &rest) || *rest != 0 || file < 3) {
        return wrong("--debug wants the number of an open file from 3 on: ", value);
    }
    line->debugger = (int)file;
    return -1;
}

static int take_perf_map(const char *value, Line *line) {
    (void)value;
    line->maps = 1;
    return -1;
}

static int take_call(const char *value, Line *line) {
    line->call = value;
    return -1;
}

/* The last `=/` of the value, if there is one, is before the name that the folder gets. */
static const char *find_name(const char *value) {
    const char *name = NULL, *at;
    for (at = strstr(value, "=/"); at != NULL; at = strstr(at + 1, "=/")) {
        name = at;
    }
    return name;
}

/* A later one takes the place of one with the same name. */
static int add_folder(const char *value, Line *line, int writable) {
    const char *name = find_name(value);
    Folder *folder = &line->folders[line->folder_count];
    unsigned k = 0;
    if (line->folder_count == FOLDERS_MAX) {
        return wrong("there can be only 16 folders, and this is another: ", value);
    }
    *folder = (Folder){.host = value, .host_len = name != NULL ? (size_t)(name - value) : strlen(value), .writable = writable, .file = -1};
    if (name != NULL && !view_plain("", name + 1, folder->name)) {
        return wrong("the name of a folder is too long: ", value);
    }
    while (strcmp(line->folders[k].name, folder->name) != 0) {
        k++;
    }
    if (k < line->folder_count) {
        line->folders[k] = *folder;
    } else {
        line->folder_count++;
    }
    return -1;
}

static int take_folder(const char *value, Line *line) {
    return add_folder(value, line, 0);
}

static int take_writable(const char *value, Line *line) {
    return add_folder(value, line, 1);
}

/* The variable of nc-run's own environment, as NAME=VALUE; or NULL. */
static const char *find_variable(const char *name) {
    size_t len = strlen(name), k = 0;
    while (environ[k] != NULL && (strncmp(environ[k], name, len) != 0 || environ[k][len] != '=')) {
        k++;
    }
    return environ[k];
}

/* One that nc-run hasn't the program doesn't get. */
static int take_env(const char *value, Line *line) {
    const char *given = strchr(value, '=') != NULL ? value : find_variable(value);
    if (*value == 0 || *value == '=' || line->env_count == ENV_MAX) {
        return wrong(line->env_count == ENV_MAX ? "there can be only 256 --env, and this is another: " : "--env wants a name: ", value);
    }
    if (given != NULL) {
        line->env[line->env_count++] = given;
    }
    return -1;
}

static int take_help(const char *value, Line *line) {
    (void)value;
    (void)line;
    return printed(fputs(HELP, stdout));
}

static int take_version(const char *value, Line *line) {
    (void)value;
    (void)line;
    return printed(printf("nc-run %u.%u.%u\n", NC_VERSION_MAJOR, NC_VERSION_MINOR, NC_VERSION_PATCH));
}

/* clang-format off */
static const struct Option {
    const char *name;
    int (*take)(const char *value, Line *line);
    int has_value;
} OPTIONS[] = {
    {"--time", take_time, 1},
    {"--memory", take_memory, 1},
    {"--live-code", take_live, 1},
    {"--call", take_call, 1},
    {"--dir", take_folder, 1},
    {"--dir-rw", take_writable, 1},
    {"--write", take_write, 1},
    {"--env", take_env, 1},
    {"--wall", take_wall, 1},
    {"--no-wall", take_no_wall, 0},
    {"--perf-map", take_perf_map, 0},
    {"--debug", take_debug, 1},
    {"--help", take_help, 0},
    {"-h", take_help, 0},
    {"--version", take_version, 0},
    {"-V", take_version, 0},
};
/* clang-format on */

/* The option that this word is, up to a `=`. */
static const struct Option *find_option(const char *word) {
    size_t len = strncmp(word, "--", 2) == 0 ? strcspn(word, "=") : strlen(word), k;
    for (k = 0; k < sizeof OPTIONS / sizeof *OPTIONS; k++) {
        if (strlen(OPTIONS[k].name) == len && memcmp(OPTIONS[k].name, word, len) == 0) {
            return &OPTIONS[k];
        }
    }
    return NULL;
}

/* Takes the option at `*word`, and moves that to its value where it is a word of its own. */
static int take_option(char ***word, Line *line) {
    const struct Option *option = find_option(**word);
    const char *value = strchr(**word, '=');
    if (option == NULL || (value != NULL && !option->has_value)) {
        return wrong("no such option: ", **word);
    }
    if (value != NULL) {
        return option->take(value + 1, line);
    }
    if (option->has_value && *++*word == NULL) {
        return wrong("a value is missing after ", option->name);
    }
    return option->take(**word, line);
}

/* The words behind the file's name aren't options. */
int line_read(int argc, char **argv, Line *line) {
    char **word = argv + (argc != 0);
    int status = -1;
    memset(line, 0, offsetof(Line, folders));
    line->milliseconds = UINT32_MAX;
    line->memory = MEMORY_DEFAULT;
    line->write = WRITE_DEFAULT;
    while (status < 0 && *word != NULL && (*word)[0] == '-' && strcmp(*word, "--") != 0) {
        status = take_option(&word, line);
        word++;
    }
    if (status >= 0) {
        return status;
    }
    word += *word != NULL && strcmp(*word, "--") == 0;
    if (*word == NULL) {
        return wrong("no file is named", "");
    }
    line->file = *word++;
    line->words = word;
    line->count = (unsigned)(argv + argc - word);
    return line->call != NULL ? read_words(line) : -1;
}
