/* What a configure script chooses for tcc in the sandbox. It makes code for i386, and finds headers and the C library in itself. */
#define TCC_VERSION "0.9.27"
#define TCC_TARGET_I386 1
#define ONE_SOURCE 1
#define CONFIG_TCC_STATIC 1
#define CONFIG_TCCBOOT 1 /* neither backtraces nor checks of bounds, which take signals */
#define CONFIG_TCCDIR "/nc"
#define CONFIG_TCC_SYSINCLUDEPATHS "/nc/include"
