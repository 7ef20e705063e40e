/* What musl finds before main otherwise, and the constructors. For sources that see musl's inner headers. */

#include "libc.h"
#include "pthread_impl.h"

typedef void (*Constructor)(void);
extern const Constructor __init_array_start[], __init_array_end[];
extern char **__environ;

/* The name that pthread_arch.h of this folder gives it, as bytes. */
struct pthread thread_block __asm__("only_thread");

/* The environment is a list that ends with a null, or NULL for none. */
static void set_up(char **environment) {
    static char *nothing[1];
    static size_t no_aux[2];
    __environ = environment ? environment : nothing;
    libc.auxv = no_aux;
    thread_block.self = thread_block.next = thread_block.prev = &thread_block;
    thread_block.robust_list.head = &thread_block.robust_list.head;
    thread_block.detach_state = DT_JOINABLE;
    thread_block.tid = 1;
    thread_block.locale = &libc.global_locale;
    for (const Constructor *each = __init_array_start; each != __init_array_end; each++) (*each)();
}
