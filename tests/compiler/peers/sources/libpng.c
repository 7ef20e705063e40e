/* libpng: reads a picture. */
#include "unit.h"

#include "png.h"

static png_bytep pixels;
static size_t pixels_len;

/* The picture's head, from which its pixels are read. libpng keeps its address. */
static void begin(png_image *image) {
    memset(image, 0, sizeof *image);
    image->version = PNG_IMAGE_VERSION;
    need(png_image_begin_read_from_memory(image, in, in_len));
    image->format = PNG_FORMAT_RGBA;
}

static void read_picture(void) {
    png_image image;
    begin(&image);
    need(png_image_finish_read(&image, NULL, pixels, 0, NULL));
    made(pixels, pixels_len);
}

void unit_prepare(void) {
    png_image image;
    begin(&image);
    pixels_len = PNG_IMAGE_SIZE(image);
    pixels = room_for(pixels_len);
    png_image_free(&image);
}

UNIT_OPERATIONS(read_picture)
