/* Opus: encodes two seconds of sound, and decodes them. */
#include "unit.h"

#include "opus.h"

enum { RATE = 48000, CHANNELS = 2, FRAME = 960, PACKET_MAX = 1500, FRAMES_MAX = 200, BITS = 96000, COMPLEXITY = 8 };
static unsigned char packets[FRAMES_MAX * PACKET_MAX];
static opus_int16 sound[FRAMES_MAX * FRAME * CHANNELS];
static opus_int32 packet_lens[FRAMES_MAX];
static uint32_t frames;

static void encode(void) {
    int fault;
    OpusEncoder *encoder = opus_encoder_create(RATE, CHANNELS, OPUS_APPLICATION_AUDIO, &fault);
    unsigned char *to = packets;
    uint32_t k;
    need(encoder != NULL);
    need(opus_encoder_ctl(encoder, OPUS_SET_BITRATE(BITS)) == OPUS_OK);
    need(opus_encoder_ctl(encoder, OPUS_SET_COMPLEXITY(COMPLEXITY)) == OPUS_OK);
    for (k = 0; k < frames; k++) {
        packet_lens[k] = opus_encode(encoder, (const opus_int16 *)in + k * FRAME * CHANNELS, FRAME, to, PACKET_MAX);
        need(packet_lens[k] > 0);
        to += packet_lens[k];
    }
    opus_encoder_destroy(encoder);
    made(packets, (size_t)(to - packets));
}

static void decode(void) {
    int fault;
    OpusDecoder *decoder = opus_decoder_create(RATE, CHANNELS, &fault);
    const unsigned char *from = packets;
    uint32_t k;
    need(decoder != NULL);
    for (k = 0; k < frames; k++) {
        need(opus_decode(decoder, from, packet_lens[k], sound + k * FRAME * CHANNELS, FRAME, 0) == FRAME);
        from += packet_lens[k];
    }
    opus_decoder_destroy(decoder);
    made(sound, frames * FRAME * CHANNELS * sizeof *sound);
}

void unit_prepare(void) {
    frames = in_len / (FRAME * CHANNELS * sizeof *sound);
    need(frames <= FRAMES_MAX);
}

UNIT_OPERATIONS(encode, decode)
