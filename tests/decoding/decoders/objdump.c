/* objdump itself, over the file: one line for each instruction. */
#include "other.h"

#include <stdio.h>
#include <stdlib.h>
#include <string.h>

static FILE *lines;
static char line[512];

const char *other_begin(const char *path) {
    static char name[120];
    char command[600];
    FILE *version = popen("objdump --version", "r");
    if (version == NULL || fgets(name, sizeof name, version) == NULL) {
        exit(2);
    }
    name[strcspn(name, "\n")] = 0;
    while (fgets(line, sizeof line, version) != NULL) {}
    pclose(version);
    snprintf(command, sizeof command, "objdump -D -z -w -b binary -m i386 -M intel --adjust-vma=0x%x '%s'", FIRST_AT, path);
    lines = popen(command, "r");
    if (lines == NULL || fgets(line, sizeof line, lines) == NULL) {
        exit(2);
    }
    return name;
}

/* The address, the bytes and the text of a line are parted by tabs. */
void other_look(const uint8_t *bytes, uint32_t at, Seen *seen) {
    char *text, *hex;
    (void)bytes;
    while ((strchr(line, '\t') == NULL || strtoul(line, NULL, 16) < at) && fgets(line, sizeof line, lines) != NULL) {}
    hex = strchr(line, '\t');
    if (hex == NULL || strtoul(line, NULL, 16) != at || (text = strchr(hex + 1, '\t')) == NULL) {
        return;
    }
    for (hex++; hex < text && *hex != ' '; hex += 3) {
        seen->length++;
    }
    snprintf(seen->text, sizeof seen->text, "%.*s", (int)strcspn(text + 1, "\n"), text + 1);
    if (strstr(seen->text, "(bad)") != NULL) {
        seen->length = 0;
    }
}
