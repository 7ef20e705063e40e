/* Fails to compile if png_image hasn't the layout that host.c assumes. */
#include <stddef.h>
#include "png.h"

_Static_assert(sizeof(png_image) == 96 && offsetof(png_image, version) == 4 && offsetof(png_image, width) == 8 &&
                   offsetof(png_image, height) == 12 && offsetof(png_image, format) == 16 && offsetof(png_image, message) == 32,
               "struct Image of host.c");
_Static_assert(PNG_IMAGE_VERSION == 1 && PNG_FORMAT_RGB == 2, "VERSION and RGB of host.c");
