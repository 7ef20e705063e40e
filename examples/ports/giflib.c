/* giflib: an animation is written into memory, read back and compared, also where it is damaged. */
#include <stdio.h>
#include <string.h>

#include "gif_lib.h"
#include "port.h"

enum { WIDTH = 160, HEIGHT = 120, FRAMES = 4, ROOM = 1 << 18 };
static unsigned char stream[ROOM], red[WIDTH * HEIGHT], green[WIDTH * HEIGHT], blue[WIDTH * HEIGHT], picture[WIDTH * HEIGHT];
static int length, at;

static int write_stream(GifFileType *file, const GifByteType *bytes, int count) {
    memcpy(stream + length, bytes, count);
    length += count;
    return file->Error == 0 ? count : 0;
}

static int read_stream(GifFileType *file, GifByteType *bytes, int count) {
    int taken = length - at < count || file == NULL ? length - at : count;
    memcpy(bytes, stream + at, taken);
    at += taken;
    return taken;
}

static void encode(void) {
    int size = 128, error = 0;
    ColorMapObject *map = GifMakeMapObject(128, NULL);
    for (int k = 0; k < WIDTH * HEIGHT; k++) {
        red[k] = k % WIDTH, green[k] = k / WIDTH * 2, blue[k] = k * 7 / WIDTH % 64 + k % 31;
    }
    printf("%d", GifQuantizeBuffer(WIDTH, HEIGHT, &size, red, green, blue, picture, map->Colors));
    length = 0;
    GifFileType *file = EGifOpen(NULL, write_stream, &error);
    file->SWidth = WIDTH, file->SHeight = HEIGHT, file->SColorResolution = 7, file->SColorMap = map;
    for (int k = 0; k < FRAMES; k++) {
        SavedImage image = {.ImageDesc = {.Width = WIDTH - k, .Height = HEIGHT - 9 * k, .Interlace = k % 2}, .RasterBits = picture + 3 * k};
        GifMakeSavedImage(file, &image);
    }
    printf(" %d", EGifSpew(file)); /* closes the file too */
}

/* The checksum of the pictures that are read, behind others. */
static unsigned decode(unsigned sum) {
    int error = 0;
    at = 0;
    GifFileType *file = DGifOpen(NULL, read_stream, &error);
    if (file == NULL) return sum_of(sum, &error, sizeof error);
    int status = DGifSlurp(file);
    sum = sum_of(sum_of(sum, &status, sizeof status), &file->Error, sizeof file->Error);
    for (int k = 0; k < file->ImageCount; k++) {
        const SavedImage *image = &file->SavedImages[k];
        if (image->RasterBits != NULL) sum = sum_of(sum, image->RasterBits, image->ImageDesc.Width * image->ImageDesc.Height);
    }
    DGifCloseFile(file, &error);
    return sum;
}

int main(int argc, char **argv) {
    unsigned sum = 0;
    encode();
    for (int k = rounds_of(argc, argv); k > 0; k--) {
        sum = decode(sum);
        stream[2000] ^= 0x20;
        sum = decode(sum);
        stream[2000] ^= 0x20;
    }
    printf(" %d bytes, %08x, %08x\n", length, sum_of(0, stream, length), sum);
    return 0;
}
