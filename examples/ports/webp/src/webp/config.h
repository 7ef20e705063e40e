/* What a configure script chooses for libwebp: no vector instructions, natively neither. */
#define HAVE_BUILTIN_BSWAP16 1
#define HAVE_BUILTIN_BSWAP32 1
#define HAVE_BUILTIN_BSWAP64 1
#define WEBP_NEAR_LOSSLESS 1
