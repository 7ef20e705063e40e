/* Two functions with one body, to which a compiler gives three arguments in registers, and calls by pointers in memory. */

typedef unsigned short u16;

__attribute__((noinline)) static unsigned first(unsigned char *ids, unsigned count, u16 *place, unsigned most) {
    unsigned next = 0;
    for (unsigned at = 0; at < most; at++) place[at] = 256;
    for (unsigned at = 0; at < count; at++)
        if (place[ids[at]] == 256) place[ids[at]] = (u16)next++;
    for (unsigned at = 0; at < count; at++) ids[at] = (unsigned char)place[ids[at]];
    return next;
}

__attribute__((noinline)) static unsigned second(unsigned char *ids, unsigned count, u16 *place, unsigned most) {
    unsigned next = 0;
    for (unsigned at = 0; at < most; at++) place[at] = 256;
    for (unsigned at = 0; at < count; at++)
        if (place[ids[at]] == 256) place[ids[at]] = (u16)next++;
    for (unsigned at = 0; at < count; at++) ids[at] = (unsigned char)place[ids[at]];
    return next;
}

struct Row;
typedef int (*Import)(struct Row *);
struct Row {
    int which, value;
};
static int expand(struct Row *row) {
    return row->value * 2;
}
static int shrink(struct Row *row) {
    return row->value / 2;
}
Import import_expand = expand, import_shrink = shrink;

__attribute__((noinline)) int import(struct Row *row) {
    if (row->value < 0) return -1;
    return row->which ? import_expand(row) : import_shrink(row);
}

__attribute__((noinline)) int either(struct Row *row, int count) {
    Import *chosen = count > 3 ? &import_expand : &import_shrink;
    return (*chosen)(row);
}

int wrong(void) {
    unsigned char ids[] = {3, 1, 3, 2}, others[] = {0, 0, 4};
    u16 place[8];
    struct Row row = {1, 21};
    int failed = first(ids, 4, place, 8) != 3 || ids[0] != 0 || ids[1] != 1 || ids[3] != 2;
    failed += second(others, 3, place, 8) != 2 || others[2] != 1 || import(&row) != 42 || either(&row, 2) != 10;
    row.which = 0;
    return failed + (import(&row) != 10) + (either(&row, 4) != 42);
}
