/* The code of a box changes code of its module within an area, by call-backs. Every argument is untrusted. TRUSTED, NOT PROVED. [14] */
#include "inner.h"

#include <errno.h>

#define LOOKS 256u /* at chunks, in one search for room */

/* ---- Room */

/* Under the lock: the chunk at an address or the first above it, if it begins below `end`. A deleted one that nobody holds back is freed
   on the way. Each search reclaims once at most. */
static NcChunk next_chunk(Live *live, uint32_t at, uint32_t end, int *may_reclaim) {
    NcChunk found = nc_region_chunk_at(&live->region, at);
    if (found.fault == NC_OK && found.retired && found.base < end && *may_reclaim) {
        *may_reclaim = 0;
        (void)ncs_seats_reclaim(live);
        found = nc_region_chunk_at(&live->region, at);
    }
    return found;
}

NcsHole ncs_hole(NcsModule *m, NcsAt from, NcsAt to) {
    NcsSpan room = ncs_room(m);
    uint32_t last = room.from.at + room.len, end = to.at < last ? to.at : last;
    uint32_t at = from.at > room.from.at ? (from.at < end ? from.at : end) : room.from.at;
    NcsHole hole = {{(at + NC_BUNDLE - 1) & ~(NC_BUNDLE - 1)}, 0, 0};
    unsigned looks;
    int may_reclaim = 1;
    end &= ~(NC_BUNDLE - 1);
    if (m->live == NULL || !ncs_module_is_ours(m)) {
        return hole;
    }
    ncs_live_lock(m->live);
    for (looks = 0; hole.at.at < end && hole.len == 0 && looks < LOOKS; looks++) {
        NcChunk found = next_chunk(m->live, hole.at.at, end, &may_reclaim);
        if (found.fault != NC_OK || found.base > hole.at.at) {
            hole.len = (found.fault != NC_OK || found.base > end ? end : found.base) - hole.at.at;
        } else {
            hole.held += found.retired ? found.length : 0;
            hole.at.at = found.base + found.length;
        }
    }
    ncs_live_unlock(m->live);
    return hole;
}

/* ---- Calls */

static uint64_t failed(int error) {
    return (uint32_t)-error;
}

/* A refusal's number, and in the upper half the address of the fault. */
static uint64_t told(int made, const NcsRefusal *why) {
    if (made) {
        return 0;
    }
    return why->kind == NCS_NO_MEMORY ? failed(ENOMEM) : (uint64_t)why->at << 32 | failed((int)(NCS_FAULT_CODE + why->fault));
}

static int is_in_area(const NcsBox *b, uint32_t at, uint32_t len) {
    return at >= b->memory->area.from.at && len <= b->memory->area.len && at - b->memory->area.from.at <= b->memory->area.len - len;
}

/* hole(from, to): writes the three numbers there, which nothing has judged before. */
static uint64_t call_hole(NcsBox *b, void *user, const uint32_t *args) {
    const NcsAt begin = b->memory->area.from, end = {begin.at + b->memory->area.len}, from = {args[0] > begin.at ? args[0] : begin.at};
    NcsHole hole = {end, 0, 0};
    (void)user;
    if (b->memory->area.len != 0) {
        hole = ncs_hole(b->module, from, end);
    }
    return ncs_set(b, (NcsAt){args[1]}, &hole, sizeof hole) ? 0 : failed(EFAULT);
}

/* create(at, from, len) and patch(at, from, len): the change copies the bytes before it judges them. */
static uint64_t change(NcsBox *b, const uint32_t *args, int (*make)(NcsModule *, NcsAt, const void *, size_t, NcsRefusal *)) {
    const void *bytes = ncs_at(b, (NcsAt){args[1]}, args[2]);
    NcsRefusal why;
    int made;
    if (bytes == NULL && args[2] != 0) {
        return failed(EFAULT);
    }
    if (!is_in_area(b, args[0], args[2])) {
        return failed(EINVAL);
    }
    made = make(b->module, (NcsAt){args[0]}, bytes, args[2], &why);
    return told(made, &why);
}

static uint64_t call_create(NcsBox *b, void *user, const uint32_t *args) {
    (void)user;
    return change(b, args, ncs_create);
}

static uint64_t call_patch(NcsBox *b, void *user, const uint32_t *args) {
    (void)user;
    return change(b, args, ncs_patch);
}

/* delete(at): no other's chunk begins in the area. */
static uint64_t call_delete(NcsBox *b, void *user, const uint32_t *args) {
    NcsRefusal why;
    int made;
    (void)user;
    if (!is_in_area(b, args[0], 1)) {
        return failed(EINVAL);
    }
    made = ncs_delete(b->module, (NcsAt){args[0]}, &why);
    return told(made, &why);
}

/* ---- Boxes */

static NcChunk chunk_at(Live *live, uint32_t at) {
    NcChunk found;
    ncs_live_lock(live);
    found = nc_region_chunk_at(&live->region, at);
    ncs_live_unlock(live);
    return found;
}

/* Another thread may be giving it. */
static NcsSpan area_of(const Memory *memory) {
    NcsSpan area;
    (void)pthread_mutex_lock(&ncs_lock);
    area = memory->area;
    (void)pthread_mutex_unlock(&ncs_lock);
    return area;
}

int ncs_area_clear(NcsBox *b) {
    NcsSpan area = area_of(b->memory);
    uint32_t at = area.from.at, end = at + area.len;
    while (at < end) {
        NcChunk found = chunk_at(b->module->live, at);
        if (found.fault != NC_OK || found.base >= end) {
            break;
        }
        if (!found.retired && !ncs_delete(b->module, (NcsAt){found.base}, NULL)) {
            return 0;
        }
        at = found.base + found.length;
    }
    return 1;
}

/* Whether the span is bundles of the room. An empty one may be anywhere. */
static int is_room(const NcsModule *m, NcsSpan area) {
    NcsSpan room = ncs_room(m);
    uint32_t before = area.from.at - room.from.at;
    return area.len == 0 || (area.from.at >= room.from.at && before <= room.len && area.len <= room.len - before &&
                             area.from.at % NC_BUNDLE == 0 && area.len % NC_BUNDLE == 0);
}

static int is_same(NcsSpan a, NcsSpan b) {
    return a.len == b.len && (a.len == 0 || a.from.at == b.from.at);
}

/* Whether the memory has this area now. It has one for good, since threads that have it look at it without a lock. */
static int give_area(Memory *memory, NcsSpan area) {
    int given;
    (void)pthread_mutex_lock(&ncs_lock);
    if (!memory->has_area) {
        memory->area = area;
        memory->has_area = 1;
    }
    given = is_same(memory->area, area);
    (void)pthread_mutex_unlock(&ncs_lock);
    return given;
}

NcsAt ncs_code_calls(NcsBox *b, NcsSpan area) {
    static const struct {
        NcsCallback function;
        unsigned args;
    } calls[] = {{call_hole, 2}, {call_create, 3}, {call_patch, 3}, {call_delete, 1}};
    const unsigned count = sizeof calls / sizeof *calls;
    NcsAt first = {0};
    unsigned k;
    if (!is_room(b->module, area) || b->callback_count + count > NCS_CALLBACKS || !give_area(b->memory, area)) {
        return first;
    }
    for (k = 0; k < count; k++) {
        NcsAt at = ncs_callback(b, calls[k].function, NULL, calls[k].args);
        first = k == 0 ? at : first;
    }
    return first;
}
