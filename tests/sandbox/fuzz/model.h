/* A model of the chunks of live code: what stands at each bundle, and what each change has to do. Its rules are those of nc_host.h and
   nc_sandbox.h. Chunks are of some kinds, whose code is that of codes.h. */
#ifndef MODEL_H
#define MODEL_H

#include "codes.h"

enum { MODEL_FREE, MODEL_LIVE, MODEL_RETIRED };

/* What the code of a bundle does when it is called. */
enum {
    MODEL_NUMBER, /* returns its number */
    MODEL_CALLS,  /* calls call-back 0, and returns what that returns: two bundles */
    MODEL_WAITS,  /* says that it is there, and waits until it may return */
    MODEL_LOADS,  /* loads from address 0: a page fault */
    MODEL_BEYOND, /* loads from behind the memory: a general protection */
    MODEL_JUMPS,  /* jumps to the limit: the same, at its last instruction */
    MODEL_KINDS,
    MODEL_RAW = MODEL_KINDS /* any code that is accepted */
};

typedef struct ModelBundle {
    uint8_t state, kind;
    uint8_t part;  /* which of its chunk's, from 0 */
    uint8_t count; /* bundles of the chunk */
    uint32_t number;
    unsigned deletion; /* of a retired chunk: which deletion, from 1 */
} ModelBundle;

typedef struct Model {
    ModelBundle bundles[BUNDLES];
    uint8_t text[NC_BUNDLE * (BUNDLES + 1)]; /* from NC_START, with the guard */
    unsigned deletions;
} Model;

/* A refusal, or that of NCS_OK. */
typedef struct ModelAnswer {
    uint32_t kind, fault, at;
} ModelAnswer;

void model_begin(Model *model);

/* Writes the code of a kind of chunk for a bundle, and returns how many bundles that is. Of MODEL_NUMBER there are as many as wanted. */
uint32_t model_code(uint8_t *code, uint32_t kind, uint32_t bundle, uint32_t wanted, uint32_t number);

/* Each makes a change, unless it is refused. */
ModelAnswer model_create(Model *model, uint32_t bundle, uint32_t kind, const uint8_t *code, uint32_t count, uint32_t number);
ModelAnswer model_patch_number(Model *model, uint32_t bundle, uint32_t number);
ModelAnswer model_delete(Model *model, uint32_t bundle);

/* What some bad patches and creations are refused with; their bytes, length, and distance from the bundle's beginning. */
#define MODEL_BAD_PATCHES 7u
#define MODEL_BAD_CODES 5u
typedef struct ModelBad {
    uint32_t fault, offset, len;
    uint8_t bytes[6];
} ModelBad;
extern const ModelBad MODEL_BAD_PATCH[MODEL_BAD_PATCHES], MODEL_BAD_CODE[MODEL_BAD_CODES];
ModelAnswer model_bad_patch(const Model *model, uint32_t bundle, uint32_t which);

/* Frees the retired chunks, but for those whose deletion is one of the last ones, which a thread inside holds back. How many it frees. */
uint32_t model_reclaim(Model *model, unsigned held_from);

/* Whether the library's list of chunks is the model's. */
int model_is_list_of(const Model *model, NcRegion *region);

#endif
