/* Every beginning of a permitted instruction, found by asking the decoder: bytes are added while it answers that they are cut short. There
   is no second table here. All that is known of the format is where ModRM and SIB stand (Intel SDM volume 2, "Instruction Format"). */
#include "list.h"

#include <stdio.h>
#include <stdlib.h>
#include <string.h>

static void *need(void *memory) {
    if (memory == NULL) {
        fputs("no memory for the list\n", stderr);
        exit(2);
    }
    return memory;
}

/* What the decoder says of these bytes with zeros after them. */
static NcInstruction filled(const uint8_t *bytes, size_t count) {
    uint8_t all[LONGEST] = {0};
    memcpy(all, bytes, count);
    return nc_host_decode(all, sizeof all);
}

static void add(List *list, const uint8_t *bytes, size_t count, int sib) {
    NcInstruction says = filled(bytes, count);
    Beginning *b;
    if (list->count == list->room) {
        list->room = list->room ? 2 * list->room : 4096;
        list->all = need(realloc(list->all, list->room * sizeof *list->all));
    }
    b = &list->all[list->count++];
    memset(b, 0, sizeof *b);
    memcpy(b->bytes, bytes, count);
    b->count = (uint8_t)count;
    b->sib = (uint8_t)sib;
    b->length = (uint8_t)says.length;
    b->flow = (uint8_t)says.flow;
    b->reg = (uint8_t)says.reg;
}

/* Where the opcode ends: after at most one prefix and the byte 0F. */
static size_t opcode_end(const uint8_t *bytes) {
    size_t at = bytes[0] == 0x66 || bytes[0] == 0xF0 || bytes[0] == 0xF2 || bytes[0] == 0xF3;
    return at + (bytes[at] == 0x0F) + 1;
}

/* Whether the next byte is a number's: whatever it is, length and flow are the same. */
static int number_follows(const uint8_t *bytes, size_t count, unsigned step) {
    uint8_t more[LONGEST] = {0};
    NcInstruction first = filled(bytes, count), other;
    unsigned value;
    memcpy(more, bytes, count);
    for (value = 0; value < 256; value += step) {
        more[count] = (uint8_t)value;
        other = nc_host_decode(more, sizeof more);
        if (other.fault != NC_OK || other.length != first.length || other.flow != first.flow || other.reg != first.reg) {
            return 0;
        }
    }
    return 1;
}

static void extend(List *list, uint8_t *bytes, size_t count) {
    NcInstruction says = nc_host_decode(bytes, count);
    size_t opcode = count ? opcode_end(bytes) : 1;
    int sib_next = count == opcode + 1 && bytes[opcode] < 0xC0 && bytes[opcode] % 8 == 4;
    unsigned value;
    if (says.fault == NC_NOT_PERMITTED) {
        return;
    }
    if (says.fault == NC_OK || (count >= opcode && !sib_next && number_follows(bytes, count, count == opcode ? 1 : 5))) {
        add(list, bytes, count, count == opcode + 2);
        return;
    }
    for (value = 0; value < 256; value++) {
        bytes[count] = (uint8_t)value;
        memset(bytes + count + 1, 0, LONGEST - count - 1);
        extend(list, bytes, count + 1);
    }
}

List list_beginnings(void) {
    List list = {NULL, 0, 0};
    uint8_t bytes[LONGEST + 1] = {0};
    extend(&list, bytes, 0);
    return list;
}

List list_copy(const List *list) {
    List copy = {need(malloc(list->count * sizeof *list->all)), list->count, list->count};
    memcpy(copy.all, list->all, list->count * sizeof *list->all);
    return copy;
}

Beginning *list_find(List *list, const uint8_t *bytes, size_t count) {
    size_t i;
    for (i = 0; i < list->count; i++) {
        if (list->all[i].count == count && memcmp(list->all[i].bytes, bytes, count) == 0) {
            return &list->all[i];
        }
    }
    fputs("the list has no such beginning\n", stderr);
    exit(2);
}
