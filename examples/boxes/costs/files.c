/* The files of the jobs: a photograph, that is gradients with noise; a screen, that is a few colours in blocks; and a long document. */
#include "costs.h"

#include <png.h>
#include <stdio.h>
#include <stdlib.h>
#include <string.h>

static uint32_t seed = 1;

static uint32_t chosen(uint32_t below) {
    seed = seed * 1103515245u + 12345u;
    return (seed >> 16) % below;
}

static void write_picture(const char *name, const uint8_t *pixels, uint32_t width, uint32_t height) {
    png_image image;
    memset(&image, 0, sizeof image);
    image.version = PNG_IMAGE_VERSION;
    image.format = PNG_FORMAT_RGB;
    image.width = width;
    image.height = height;
    need(png_image_write_to_file(&image, name, 0, pixels, 0, NULL), "a picture can't be written");
}

static uint8_t of_photograph(uint32_t x, uint32_t y, uint32_t c) {
    return (uint8_t)((x * (c + 1) + y * 2) / 16 + chosen(24));
}

static uint8_t of_screen(uint32_t x, uint32_t y, uint32_t c) {
    uint32_t letter = (x / 9 * 31 + y / 16 * 17) % 61, in = (x % 9 * 5 + y % 16 * 3) % 11;
    return x / 600 % 2 != 0 ? (uint8_t)(40 + 60 * c) : letter > 12 && in < letter % 7 ? 32 : 240;
}

static void make_picture(const char *name, uint32_t width, uint32_t height, uint8_t (*of)(uint32_t, uint32_t, uint32_t)) {
    uint8_t *pixels = malloc(3 * (size_t)width * height);
    uint32_t k;
    need(pixels != NULL, "out of memory");
    for (k = 0; k < 3 * width * height; k++) {
        pixels[k] = of(k / 3 % width, k / 3 / width, k % 3);
    }
    write_picture(name, pixels, width, height);
    free(pixels);
}

static void make_document(const char *name, unsigned count) {
    FILE *file = fopen(name, "w");
    unsigned k;
    need(file != NULL && fputs("<all>\n", file) >= 0, "a document can't be written");
    for (k = 0; k < count; k++) {
        fprintf(file, "<item%u number='%u' name=\"n&amp;%u\">text &lt; %u</item%u>\n", k % 50, k, k * 7, k, k % 50);
    }
    need(fputs("</all>\n", file) >= 0 && fclose(file) == 0, "a document can't be written");
}

void make_files(void) {
    make_picture("photograph.png", 1600, 1200, of_photograph);
    make_picture("screen.png", 2400, 1600, of_screen);
    make_document("long.xml", 50000);
}
