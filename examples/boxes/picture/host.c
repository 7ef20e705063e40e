/* Decodes PNG files by libpng in a box: host PICTURE.ELF ROW FILE.. writes FILE.ppm for each FILE. ROW is the distance of rows that libpng
   is told, in bytes, or 0 for no gap. A distance that is too large is a mistake, and libpng writes where there is no memory. */
#include "../library.h"

#include <stddef.h>

enum { MEMORY = 96 << 20, HEAP = 16 << 20, SIDE_MAX = 4096, VERSION = 1, RGB = 2 };
typedef struct Image { /* png_image of libpng 1.6, as 32-bit x86 has it: layout.c */
    uint32_t opaque, version, width, height, format, flags, colors, warned;
    char message[64];
} Image;

/* The pixels, in the box, or null. What libpng says of the picture is untrusted: width and height are read once, and judged. */
static const void *decode(Library *png, const void *file, uint32_t len, uint32_t row, Image *image) {
    NcsAt in = ncs_put(png->box, file, len), at = ncs_put(png->box, image, sizeof *image), out = {0};
    if (library_call(png, "png_image_begin_read_from_memory", NCS_ARGS(at.at, in.at, len)) != 0 &&
        ncs_get(png->box, image, at, sizeof *image) && image->width <= SIDE_MAX && image->height <= SIDE_MAX) {
        (void)ncs_set(png->box, (NcsAt){at.at + offsetof(Image, format)}, (const uint32_t[]){RGB}, 4);
        out = ncs_take(png->box, 3 * image->width * image->height);
        out.at *= library_call(png, "png_image_finish_read", NCS_ARGS(at.at, 0, out.at, row, 0)) != 0;
    }
    (void)ncs_get(png->box, image->message, (NcsAt){at.at + offsetof(Image, message)}, sizeof image->message);
    return ncs_at(png->box, out, 3 * image->width * image->height);
}

int main(int argc, char **argv) {
    Library png = library_open(argc > 2 ? argv[1] : "", MEMORY, 2000);
    static char file[8 << 20];
    for (int k = 3; k < argc; k++) {
        Image image = {.version = VERSION};
        uint32_t len = read_file(argv[k], file, sizeof file);
        library_begin(&png, HEAP);
        const void *pixels = decode(&png, file, len, (uint32_t)strtoul(argv[2], NULL, 10), &image);
        printf("%s: %s, %.64s\n", argv[k], ncs_how(png.end.how), pixels != NULL ? "decoded" : image.message);
        if (pixels != NULL) {
            write_ppm(argv[k], pixels, image.width, image.height);
        }
    }
    return library_close(&png);
}
