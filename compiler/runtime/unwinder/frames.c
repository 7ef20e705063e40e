/* How the unwinder of gcc's sources finds a program's frames: chunk.ld puts their descriptions between these two, and they are registered
   before any other constructor runs. */

#include "unwind-dw2-fde.c"

extern const char __eh_frame_start[];
__attribute__((section(".eh_frame_end"), used)) static const uword end = 0;

__attribute__((constructor(1))) static void register_frames(void) {
    static struct object frames;
    __register_frame_info(__eh_frame_start, &frames);
}
