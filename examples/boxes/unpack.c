/* The decoder, for nc-cc: "3a1b" is "aaab". It trusts what it reads, as decoders do. */
__attribute__((section(".text.start"))) unsigned unpack(char *out, const char *in, unsigned len) {
    unsigned count = 0, made = 0;
    for (; len != 0; len--, in++) {
        if (*in >= '0' && *in <= '9') {
            count = 10 * count + (unsigned)(*in - '0');
        } else {
            for (; count != 0; count--) out[made++] = *in;
        }
    }
    return made;
}
