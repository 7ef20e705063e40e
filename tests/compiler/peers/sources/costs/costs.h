/* What a way provides for costs.c. */
#ifndef COSTS_H
#define COSTS_H

/* What is done so many times in a turn. */
typedef struct Cost {
    const char *title;
    void (*often)(unsigned count);
    unsigned count;
} Cost;

extern const Cost costs[]; /* the last one has no title */
void costs_open(const char *file);

#endif
