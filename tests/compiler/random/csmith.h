/* In the place of csmith's header of this name: what a random program calls, without a C library. The checksum of its variables is written as
   eight digits. */
#include <stdint.h>

#define CHAR_BIT 8
#define INT_MAX __INT_MAX__
#define INT_MIN (-INT_MAX - 1)
#define UINT_MAX (INT_MAX * 2u + 1)

#define STATIC static inline
#define UNDEFINED(value) (value)
#define LOG_INDEX
#define LOG_EXEC
#define FUNC_NAME(name) (safe_##name)
#include "integers.h" /* csmith's safe_math.h without its functions of floating point */

#define INT_BIT (sizeof(int) * CHAR_BIT)
#define _CSMITH_BITFIELD(bits) (((bits) > INT_BIT) ? ((bits) % INT_BIT) : (bits))

void host_write(const void *text, int length);
void host_exit(int status);
int main(void);

static uint32_t checksum = 0xFFFFFFFF;

static void transparent_crc(uint64_t value, const char *name, int shows) {
    (void)name, (void)shows;
    for (int bit = 0; bit < 64; bit++, value >>= 1) checksum = checksum >> 1 ^ (((checksum ^ (uint32_t)value) & 1) ? 0xEDB88320 : 0);
}

static inline void transparent_crc_bytes(const void *place, int length, const char *name, int shows) {
    for (int at = 0; at < length; at++) transparent_crc(((const unsigned char *)place)[at], name, shows);
}

static inline void platform_main_begin(void) {}
static inline void crc32_gentab(void) {}

#define crc32_context checksum
#define printf(...) ((void)0)

static inline void platform_main_end(uint32_t sum, int shows) {
    char text[9];
    (void)shows;
    for (int at = 0; at < 8; at++) text[at] = "0123456789abcdef"[sum >> 4 * (7 - at) & 15];
    text[8] = '\n';
    host_write(text, sizeof text);
}

__attribute__((section(".text.start"))) void start(void) {
    host_exit(main());
}
