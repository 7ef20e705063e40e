/* Opus in fixed point: a made-up sound is encoded for speech and for music, and decoded, also where packets are lost.

   In fixed point Opus 1.3.1 multiplies by 64-bit products on x86-64, and so encodes differently there than in 32-bit code. With
   OPUS_FAST_INT64 0 in celt/arch.h, or in floating point, it encoded there as in the sandbox, in 24 settings of rate, channels and
   application, by gcc and clang. */
#include <stdio.h>
#include <string.h>

#include "opus.h"
#include "port.h"

enum { FRAME = 960, FRAMES = 25 };
static opus_int16 sound[2 * FRAME * FRAMES], back[2 * FRAME];
static unsigned char packet[1500];
static const struct {
    int application, rate, channels, bits, complexity;
} SETTINGS[] = {
    {OPUS_APPLICATION_VOIP, 16000, 1, 16000, 5},
    {OPUS_APPLICATION_VOIP, 48000, 2, 32000, 8},
    {OPUS_APPLICATION_AUDIO, 48000, 2, 96000, 5},
    {OPUS_APPLICATION_RESTRICTED_LOWDELAY, 24000, 1, 64000, 3},
};

/* Triangles whose pitch goes up, and noise that comes and goes. */
static void make_sound(void) {
    unsigned state = 3, phase = 0;
    for (int k = 0; k < FRAME * FRAMES; k++) {
        phase += 200 + k / 20;
        int wave = (int)(phase & 0xffff) - 32768, noise = (int)next_of(&state, 2001) - 1000;
        sound[2 * k] = (opus_int16)((wave < 0 ? -wave : wave) / 2 - 8192 + (k / 5000 % 2 ? noise : 0));
        sound[2 * k + 1] = (opus_int16)(sound[2 * k] / 2 + noise / 4);
    }
}

/* A checksum of the packets and of what becomes of them, behind others. Each seventh packet is lost. */
static unsigned work(unsigned sum, unsigned which) {
    int fault = 0, frame = SETTINGS[which].rate / 50, channels = SETTINGS[which].channels;
    OpusEncoder *encoder = opus_encoder_create(SETTINGS[which].rate, channels, SETTINGS[which].application, &fault);
    OpusDecoder *decoder = opus_decoder_create(SETTINGS[which].rate, channels, &fault);
    opus_encoder_ctl(encoder, OPUS_SET_BITRATE(SETTINGS[which].bits));
    opus_encoder_ctl(encoder, OPUS_SET_COMPLEXITY(SETTINGS[which].complexity));
    opus_encoder_ctl(encoder, OPUS_SET_INBAND_FEC(1));
    for (int k = 0; k < FRAMES; k++) {
        int size = opus_encode(encoder, sound + k * frame * channels, frame, packet, sizeof packet);
        int count = opus_decode(decoder, k % 7 == 6 ? NULL : packet, k % 7 == 6 ? 0 : size, back, frame, 0);
        sum = sum_of(sum_of(sum, packet, size > 0 ? size : 0), back, count > 0 ? sizeof *back * count * channels : 0);
        sum = sum_of(sum, (int[]){size, count}, 2 * sizeof(int));
    }
    opus_encoder_destroy(encoder);
    opus_decoder_destroy(decoder);
    return sum;
}

int main(int argc, char **argv) {
    unsigned sum = 0;
    make_sound();
    for (int k = rounds_of(argc, argv); k > 0; k--) {
        for (unsigned which = 0; which < sizeof SETTINGS / sizeof *SETTINGS; which++) {
            sum = work(sum, which);
            if (k == 1) printf("%08x ", sum);
        }
    }
    printf("%s\n", opus_strerror(opus_packet_get_nb_samples(packet, 0, 48000)));
    return 0;
}
