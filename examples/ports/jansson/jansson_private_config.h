/* What a configure script finds out for jansson. */
#define HAVE_STDINT_H 1
#define INITIAL_HASHTABLE_ORDER 3
