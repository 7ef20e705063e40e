/* libwebp: a picture with transparency is encoded with and without loss, and decoded, also to another size. */
#include <stdio.h>
#include <string.h>

#include "port.h"
#include "webp/decode.h"
#include "webp/encode.h"

enum { WIDTH = 128, HEIGHT = 96 };
static uint8_t pixels[4 * WIDTH * HEIGHT], back[4 * WIDTH * HEIGHT];

static void make_picture(void) {
    unsigned state = 5;
    for (int k = 0; k < WIDTH * HEIGHT; k++) {
        int x = k % WIDTH, y = k / WIDTH, is_inner = (x - 60) * (x - 60) + (y - 50) * (y - 50) < 900;
        pixels[4 * k] = 2 * x, pixels[4 * k + 1] = 2 * y + next_of(&state, 8), pixels[4 * k + 2] = is_inner ? 200 : x ^ y;
        pixels[4 * k + 3] = is_inner ? 255 : 128 + y;
    }
}

/* The checksum of a stream and of its picture in two sizes, behind others. */
static unsigned decoded(unsigned sum, const uint8_t *stream, size_t size) {
    WebPDecoderConfig config;
    WebPInitDecoderConfig(&config);
    int good = WebPDecodeRGBAInto(stream, size, back, sizeof back, 4 * WIDTH) == back;
    sum = sum_of(sum_of(sum_of(sum, stream, size), back, sizeof back), &good, sizeof good);
    config.options.use_scaling = 1, config.options.scaled_width = 77, config.options.scaled_height = 50;
    config.output.colorspace = MODE_RGB;
    VP8StatusCode status = WebPDecode(stream, size, &config);
    sum = sum_of(sum_of(sum, config.output.u.RGBA.rgba, config.output.u.RGBA.size), &status, sizeof status);
    WebPFreeDecBuffer(&config.output);
    return sum;
}

static unsigned work(unsigned sum, int lossless, float quality, int method) {
    WebPConfig config;
    WebPPicture picture;
    WebPMemoryWriter writer;
    WebPConfigPreset(&config, WEBP_PRESET_PICTURE, quality);
    config.lossless = lossless, config.method = method, config.alpha_quality = 90;
    WebPPictureInit(&picture);
    WebPMemoryWriterInit(&writer);
    picture.width = WIDTH, picture.height = HEIGHT, picture.use_argb = lossless;
    picture.writer = WebPMemoryWrite, picture.custom_ptr = &writer;
    WebPPictureImportRGBA(&picture, pixels, 4 * WIDTH);
    int good = WebPEncode(&config, &picture);
    sum = decoded(sum_of(sum, &good, sizeof good), writer.mem, writer.size);
    WebPMemoryWriterClear(&writer);
    WebPPictureFree(&picture);
    return sum;
}

int main(int argc, char **argv) {
    unsigned sum = 0;
    make_picture();
    for (int k = rounds_of(argc, argv); k > 0; k--) {
        sum = work(sum, 0, 75, 4);
        if (k == 1) printf("%08x ", sum);
        sum = work(sum, 0, 30, 6);
        if (k == 1) printf("%08x ", sum);
        sum = work(sum, 1, 60, 3);
    }
    printf("%08x %06x\n", sum, (unsigned)WebPGetEncoderVersion());
    return 0;
}
