/* Seats for the threads inside of modules whose code changes. TRUSTED, NOT PROVED. [16, 17, 18] */
#include "inner.h"

#include <stdlib.h>

/* A thread has a seat while it is inside, from just before its way in. Of seats that no thread has whoever reclaims checks in, so they hold
   nothing back. */

static int claim(Seat *seat) {
    int nobody = 0;
    return __atomic_compare_exchange_n(&seat->taken, &nobody, 1, 0, __ATOMIC_SEQ_CST, __ATOMIC_SEQ_CST);
}

static void release(Seat *seat) {
    __atomic_store_n(&seat->taken, 0, __ATOMIC_SEQ_CST);
}

static void check_in(Seat *seat) {
    if (nc_seat_check_in(&seat->handle) != NC_OK) {
        abort(); /* its handle isn't empty */
    }
}

/* A new seat holds back what was deleted since the last reclaim, until somebody checks in by it. */
static int give_seats(Live *live, unsigned wanted) {
    unsigned k;
    uint32_t fault = NC_OK;
    ncs_live_lock(live);
    for (k = live->given; k < wanted && fault == NC_OK; k++) {
        fault = nc_region_seat(&live->region, &live->seats[k].handle);
        if (fault == NC_OK) {
            __atomic_store_n(&live->given, k + 1, __ATOMIC_SEQ_CST);
        }
    }
    ncs_live_unlock(live);
    return fault == NC_OK;
}

static unsigned given_seats(const Live *live) {
    return __atomic_load_n(&live->given, __ATOMIC_SEQ_CST);
}

/* A call has at most one thread inside, and whoever reclaims takes one seat at a time. So there is always a free seat if there is one more
   than there are calls. */
uint32_t ncs_live_begin(Live *live) {
    unsigned calls = __atomic_add_fetch(&live->calls, 1, __ATOMIC_SEQ_CST);
    uint32_t how = NCS_RETURNED;
    if (calls >= live->seat_count) {
        how = NCS_BUSY;
    } else if (calls >= given_seats(live) && !give_seats(live, calls + 1)) {
        how = NCS_HOST;
    }
    if (how != NCS_RETURNED) {
        ncs_live_end(live);
    }
    return how;
}

void ncs_live_end(Live *live) {
    __atomic_sub_fetch(&live->calls, 1, __ATOMIC_SEQ_CST);
}

void ncs_seat_take(Live *live, Thread *t) {
    while (t->seat >= given_seats(live) || !claim(&live->seats[t->seat])) {
        t->seat = t->seat + 1 < given_seats(live) ? t->seat + 1 : 0;
    }
    t->met_at = 0;
    t->seated = live;
    check_in(&live->seats[t->seat]);
}

void ncs_seat_leave(Thread *t) {
    if (t->seated != NULL) {
        release(&t->seated->seats[t->seat]);
        t->seated = NULL;
    }
}

/* Where nothing is retired there is nothing to look for. */
uint32_t ncs_seats_reclaim(Live *live) {
    NcCount freed;
    unsigned k;
    if (live->retired == 0) {
        return 0;
    }
    for (k = 0; k < live->given; k++) {
        if (claim(&live->seats[k])) {
            check_in(&live->seats[k]);
            release(&live->seats[k]);
        }
    }
    freed = nc_region_reclaim(&live->region);
    if (freed.fault != NC_OK) {
        return 0;
    }
    live->retired -= freed.count;
    return freed.count;
}
