/* cJSON: reads a document, and writes it. */
#include "unit.h"

#include "cJSON.h"

static cJSON *tree;
static char *text;

static void read_all(void) {
    cJSON_Delete(tree);
    tree = cJSON_ParseWithLength((char *)in, in_len);
    need(tree != NULL);
    made_number((uint32_t)cJSON_GetArraySize(tree));
}

static void write_all(void) {
    free(text);
    text = cJSON_PrintUnformatted(tree);
    need(text != NULL);
    made(text, strlen(text));
}

void unit_prepare(void) {}

UNIT_OPERATIONS(read_all, write_all)
