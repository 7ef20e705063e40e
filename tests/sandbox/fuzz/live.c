/* A target: changes of live code, and calls of it. One thread creates, patches, deletes and reclaims chunks, calls them, kills and resets
   boxes, also in a call-back of a call that is under way. Another thread waits inside a chunk. Each change does what the model says, and
   each call ends as the chunk that it calls was made for. */
#define _GNU_SOURCE
#include "first.h"
#include "fuzz.h"
#include "model.h"

#include <pthread.h>
#include <sched.h>
#include <string.h>

#define ACTS_MOST 96u
#define DEPTH 8u
#define RAW_MOST 3u /* bundles */
#define AT(bundle) ((NcsAt){NC_START + NC_BUNDLE * (bundle)})

/* A call under way: how it has to end. */
typedef struct Expected {
    struct Expected *outer;
    uint32_t returns_to; /* the bundle to which its call-back returns */
    NcsEnd wanted;
} Expected;

/* A thread that is inside a chunk that waits. */
typedef struct Holder {
    pthread_t thread;
    NcsBox *box;
    uint32_t bundle;
    unsigned held_from; /* this deletion, and later ones */
    int is_inside;
    int has_ended; /* atomic */
    NcsEnd end;
} Holder;

static NcsModule *module;
static NcsBox *box, *raw_box;
static Model model;
static Holder holder;
static Input input;
static Expected *innermost;
static unsigned acts_left, depth;
static int is_dead, is_killed;

/* ---- Changes */

static void judge_change(int made, const NcsRefusal *why, ModelAnswer wanted) {
    MUST(why->kind == wanted.kind && why->fault == wanted.fault && why->at == wanted.at && why->sentence != NULL);
    MUST(made == (wanted.kind == NCS_OK));
}

static void create(uint32_t bundle, uint32_t kind, uint32_t number) {
    uint8_t code[4 * NC_BUNDLE];
    uint32_t count = model_code(code, kind % MODEL_KINDS, bundle, 1 + number % 4, number);
    NcsRefusal why;
    int made = ncs_create(module, AT(bundle), code, NC_BUNDLE * count, &why);
    judge_change(made, &why, model_create(&model, bundle, kind % MODEL_KINDS, code, count, number));
}

/* Any bytes. nc_host says whether they are good code. */
static void create_raw(uint32_t bundle, uint32_t count) {
    uint8_t code[RAW_MOST * NC_BUNDLE];
    NcVerdict verdict;
    NcsRefusal why;
    int made;
    fuzz_bytes(&input, code, NC_BUNDLE * count);
    verdict = nc_host_vet(AT(bundle).at, LIMIT, code, NC_BUNDLE * count);
    made = ncs_create(module, AT(bundle), code, NC_BUNDLE * count, &why);
    judge_change(made, &why,
                 verdict.fault != NC_OK ? (ModelAnswer){NCS_BAD_CODE, verdict.fault, verdict.at}
                                        : model_create(&model, bundle, MODEL_RAW, code, count, 0));
}

static void create_bad(uint32_t bundle, uint32_t which) {
    const ModelBad *bad = &MODEL_BAD_CODE[which % MODEL_BAD_CODES];
    uint8_t code[2 * NC_BUNDLE];
    ModelAnswer wanted = {NCS_BAD_CODE, bad->fault, AT(bundle).at + bad->offset};
    NcsRefusal why;
    int made;
    memset(code, 0x90, sizeof code);
    memcpy(code, bad->bytes, bad->len);
    code[NC_BUNDLE - 1] = bad->fault == NC_CROSSES ? 0xB8 : 0x90;
    made = ncs_create(module, AT(bundle), code, sizeof code, &why);
    judge_change(made, &why, bundle + 2 > BUNDLES ? (ModelAnswer){NCS_BAD_CODE, NC_OUT_OF_RANGE, 0} : wanted);
}

/* The base, or the length, isn't whole bundles. */
static void create_odd(uint32_t bundle, uint32_t odd) {
    uint8_t code[NC_BUNDLE];
    int has_odd_base = odd % 2 != 0;
    NcsRefusal why;
    int made;
    memset(code, 0x90, sizeof code);
    odd %= NC_BUNDLE;
    made = ncs_create(module, (NcsAt){AT(bundle).at + (has_odd_base ? odd : 0)}, code, has_odd_base ? NC_BUNDLE : odd, &why);
    judge_change(made, &why, (ModelAnswer){NCS_BAD_CODE, has_odd_base ? NC_BAD_BASE : NC_BAD_LENGTH, 0});
}

static int is_of_kind(uint32_t bundle, uint32_t kind) {
    return bundle < BUNDLES && model.bundles[bundle].state == MODEL_LIVE && model.bundles[bundle].kind == kind;
}

static void patch(uint32_t bundle, uint32_t number) {
    uint8_t mov[MOV_LEN];
    NcsRefusal why;
    int made;
    if (is_of_kind(bundle, MODEL_RAW) || is_of_kind(bundle, MODEL_JUMPS)) {
        return; /* what it would do then isn't known here */
    }
    codes_mov(mov, number);
    made = ncs_patch(module, AT(bundle), mov, sizeof mov, &why);
    judge_change(made, &why, model_patch_number(&model, bundle, number));
}

static void patch_badly(uint32_t bundle, uint32_t which) {
    const ModelBad *bad = &MODEL_BAD_PATCH[which % MODEL_BAD_PATCHES];
    NcsRefusal why;
    int made;
    if (bundle < BUNDLES && model.bundles[bundle].state == MODEL_LIVE && model.bundles[bundle].kind != MODEL_NUMBER) {
        return; /* it may be good there */
    }
    made = ncs_patch(module, (NcsAt){AT(bundle).at + bad->offset}, bad->bytes, bad->len, &why);
    judge_change(made, &why, model_bad_patch(&model, bundle, which % MODEL_BAD_PATCHES));
}

/* ---- A thread inside */

static void *hold(void *given) {
    Holder *h = given;
    h->end = ncs_call(h->box, AT(h->bundle), NCS_NO_ARGS);
    __atomic_store_n(&h->has_ended, 1, __ATOMIC_SEQ_CST);
    return NULL;
}

static uint32_t shared_word(uint32_t k) {
    uint32_t *words = ncs_at(holder.box, (NcsAt){SHARED}, 8);
    return __atomic_load_n(words + k, __ATOMIC_SEQ_CST);
}

static void join_holder(uint32_t how) {
    MUST(pthread_join(holder.thread, NULL) == 0 && holder.end.how == how);
    MUST(how != NCS_STOPPED || holder.end.place - AT(holder.bundle).at < NC_BUNDLE);
    MUST(how != NCS_RETURNED || holder.end.result == 7);
    holder.is_inside = 0;
}

/* What is deleted from now on is held back, since the thread is inside already. Of all that the library may refuse it, a timer is what the
   system may well have none of. */
static void enter(uint32_t bundle) {
    if (holder.is_inside || !is_of_kind(bundle, MODEL_WAITS)) {
        return;
    }
    holder.bundle = bundle;
    holder.has_ended = 0;
    MUST(ncs_reset(holder.box) && pthread_create(&holder.thread, NULL, hold, &holder) == 0);
    while (shared_word(0) == 0 && !__atomic_load_n(&holder.has_ended, __ATOMIC_SEQ_CST)) {
        (void)sched_yield();
    }
    if (shared_word(0) == 0) {
        join_holder(NCS_HOST);
        return;
    }
    holder.is_inside = 1;
    holder.held_from = model.deletions + 1;
}

static void leave(void) {
    static const uint32_t number = 7;
    if (holder.is_inside) {
        uint32_t *words = ncs_at(holder.box, (NcsAt){SHARED}, 8);
        __atomic_store_n(words + 1, number, __ATOMIC_SEQ_CST);
        join_holder(NCS_RETURNED);
    }
}

/* A thread inside the chunk stops. */
static void delete (uint32_t bundle) {
    NcsRefusal why;
    int made = ncs_delete(module, AT(bundle), &why);
    judge_change(made, &why, model_delete(&model, bundle));
    if (made && holder.is_inside && holder.bundle == bundle) {
        join_holder(NCS_STOPPED);
    }
}

static void delete_oddly(uint32_t bundle, uint32_t odd) {
    NcsRefusal why;
    int made = ncs_delete(module, (NcsAt){AT(bundle).at + 1 + odd % (NC_BUNDLE - 1)}, &why);
    judge_change(made, &why, (ModelAnswer){NCS_BAD_CHANGE, NC_NO_CHUNK, 0});
}

static void reclaim(void) {
    MUST(ncs_reclaim(module) == model_reclaim(&model, holder.is_inside ? holder.held_from : model.deletions + 1));
}

/* ---- Calls */

static NcsEnd ends(uint32_t how, uint32_t bundle, uint32_t far, uint32_t trap) {
    NcsEnd end = {.how = how, .place = AT(bundle).at + far, .trap = trap};
    return end;
}

static NcsEnd returns(uint32_t number) {
    NcsEnd end = {.how = NCS_RETURNED, .result = number};
    return end;
}

/* What the call under way comes to, if it goes on at a bundle with this number in EAX. A call-back decides it anew. */
static void go_on(Expected *f, uint32_t bundle, uint32_t eax) {
    const ModelBundle *b = model.bundles + (bundle < BUNDLES ? bundle : 0);
    f->wanted = bundle >= BUNDLES || b->state != MODEL_LIVE ? ends(NCS_STOPPED, bundle, 0, GENERAL_PROTECTION)
              : b->kind == MODEL_NUMBER                     ? returns(b->number)
              : b->kind == MODEL_LOADS                      ? ends(NCS_FAULTED, bundle, 0, PAGE_FAULT)
              : b->kind == MODEL_BEYOND                     ? ends(NCS_FAULTED, bundle, 0, GENERAL_PROTECTION)
              : b->kind == MODEL_JUMPS                      ? ends(NCS_FAULTED, bundle, JUMP, GENERAL_PROTECTION)
                                                            : returns(eax);
    f->returns_to = bundle + 1;
}

static int is_as_wanted(const NcsEnd *end, const NcsEnd *wanted) {
    int is_end = end->how == wanted->how && end->result == wanted->result && end->place == wanted->place && end->trap == wanted->trap;
    return is_end && end->data == 0 && end->status == 0;
}

/* Whether nothing is entered; then what the call has to return. */
static int is_refused(uint32_t bundle, uint32_t *how) {
    *how = is_dead ? NCS_DEAD : depth == DEPTH ? NCS_TOO_DEEP : bundle > BUNDLES ? NCS_BAD_ENTRY : NCS_RETURNED;
    return *how != NCS_RETURNED;
}

/* Whether a call there may have no end but that of its time. */
static int may_be_long(uint32_t bundle) {
    return is_of_kind(bundle, MODEL_RAW) || is_of_kind(bundle, MODEL_WAITS);
}

static void call(uint32_t bundle) {
    Expected own = {innermost, 0, {0}};
    uint32_t how;
    NcsEnd end;
    if (may_be_long(bundle)) {
        return;
    }
    if (is_refused(bundle, &how)) {
        end = ncs_call(box, AT(bundle), NCS_NO_ARGS);
        MUST(end.how == how && end.place == 0);
        return;
    }
    if (is_killed) {
        own.wanted = ends(NCS_KILLED, bundle, 0, 0);
    } else {
        go_on(&own, bundle, 0);
    }
    innermost = &own;
    depth++;
    end = ncs_call(box, AT(bundle), NCS_NO_ARGS);
    depth--;
    innermost = own.outer;
    MUST(is_as_wanted(&end, &own.wanted));
    if (end.how != NCS_RETURNED) {
        is_dead = 1;
        if (innermost != NULL) {
            innermost->wanted = end; /* every call under way in the box ends in the same way */
        }
    }
}

static void call_raw(uint32_t bundle) {
    NcsEnd end = ncs_call(raw_box, AT(bundle), NCS_NO_ARGS);
    MUST(end.how <= NCS_BAD_CALL || end.how == NCS_TOO_DEEP);
    MUST(end.how == NCS_BAD_ENTRY || end.place < LIMIT);
    MUST(ncs_reset(raw_box));
}

static void reset(void) {
    MUST(ncs_reset(box) == (depth == 0));
    if (depth == 0) {
        is_dead = is_killed = 0;
    }
}

/* ---- Acts from the input: each is four bytes */

enum {
    CREATE,
    CREATE_AGAIN,
    CREATE_RAW,
    CREATE_BAD,
    CREATE_ODD,
    PATCH,
    PATCH_BADLY,
    DELETE,
    DELETE_ODDLY,
    RECLAIM,
    CALL,
    CALL_AGAIN,
    CALL_RAW,
    KILL,
    RESET,
    ENTER,
    LEAVE,
    RETURN,
    DENY,
    ACTS
};

static void act(uint8_t what, uint32_t bundle, uint32_t number) {
    switch (what) {
    case CREATE:
    case CREATE_AGAIN: create(bundle, number, number >> 3); break;
    case CREATE_RAW: create_raw(bundle, 1 + number % RAW_MOST); break;
    case CREATE_BAD: create_bad(bundle, number); break;
    case CREATE_ODD: create_odd(bundle, number); break;
    case PATCH: patch(bundle, number * 0x01010101u); break;
    case PATCH_BADLY: patch_badly(bundle, number); break;
    case DELETE: delete (bundle); break;
    case DELETE_ODDLY: delete_oddly(bundle, number); break;
    case RECLAIM: reclaim(); break;
    case CALL:
    case CALL_AGAIN: call(bundle); break;
    case CALL_RAW: call_raw(bundle); break;
    case KILL:
        ncs_kill(box);
        is_killed = 1;
        break;
    case RESET: reset(); break;
    case ENTER: enter(bundle); break;
    case LEAVE: leave(); break;
    default: break;
    }
}

static void judge_text(void) {
    MUST(memcmp(codes_text(module, NC_START), model.text, sizeof model.text) == 0);
    MUST(module->live->changes % 2 == 0 && module->live->calls == depth + (unsigned)holder.is_inside);
}

/* Makes acts until one says that the call-back is to return, which it returns, or the input ends. */
static uint8_t make_acts(void) {
    uint8_t what = CREATE;
    while (input.len != 0 && acts_left != 0 && what != RETURN && what != DENY) {
        uint8_t bytes[4];
        fuzz_bytes(&input, bytes, sizeof bytes);
        acts_left--;
        what = bytes[0] % ACTS;
        act(what, bytes[1] % (BUNDLES + 2), (uint32_t)bytes[3] << 8 | bytes[2]);
        judge_text();
        what = depth == 0 ? CREATE : what;
    }
    return what;
}

/* It returns how many acts are left, to wherever its chunk was. */
static uint64_t call_back(NcsBox *one, void *user, const uint32_t *args) {
    Expected *f = innermost;
    uint8_t what = make_acts();
    (void)user;
    (void)args;
    MUST(one == box && f == innermost);
    if (is_dead) {
        return 0;
    }
    if (what == DENY || may_be_long(f->returns_to)) {
        ncs_deny(box);
        f->wanted = ends(NCS_DENIED, f->returns_to, 0, 0);
    } else if (is_killed) {
        f->wanted = ends(NCS_KILLED, f->returns_to, 0, 0);
    } else {
        go_on(f, f->returns_to, acts_left);
    }
    return acts_left;
}

/* ---- A trial */

static void begin(void) {
    static const NcsLimits limits = {.memory = ROOM, .depth = DEPTH, .milliseconds = LONG};
    module = codes_module(BUNDLES);
    box = ncs_box_new(module, &limits, NULL);
    holder.box = codes_box(module, LONG);
    raw_box = codes_box(module, 1);
    MUST(box != NULL && ncs_callback(box, call_back, NULL, 0).at == NCS_CALLBACK(0) && module->limit == LIMIT);
    model_begin(&model);
    innermost = NULL;
    acts_left = ACTS_MOST;
    depth = 0;
    is_dead = is_killed = 0;
}

/* All that was created is deleted, and all that was deleted is free in the end. */
static void end(void) {
    uint32_t k;
    MUST(model_is_list_of(&model, &module->live->region));
    leave();
    for (k = 0; k < BUNDLES; k++) {
        if (model.bundles[k].state == MODEL_LIVE && model.bundles[k].part == 0) {
            delete (k);
        }
    }
    reclaim();
    MUST(model_is_list_of(&model, &module->live->region));
    judge_text();
    MUST(ncs_free(box) && ncs_free(holder.box) && ncs_free(raw_box));
    ncs_module_free(module);
    MUST(testing_wrong == 0);
}

int LLVMFuzzerTestOneInput(const uint8_t *bytes, size_t len) {
    static int begun;
    unsigned maps, segments;
    if (!begun) {
        first_begin();
        begun = 1;
    }
    maps = testing_low_maps();
    segments = testing_segments();
    begin();
    input.bytes = bytes;
    input.len = len;
    (void)make_acts();
    end();
    MUST(testing_low_maps() == maps && testing_segments() == segments);
    return 0;
}
