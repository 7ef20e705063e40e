/* mbedTLS: hashes, ciphers with a tag, passwords, signatures by elliptic curves, and the library's own tests. */
#include <stdio.h>
#include <string.h>

#include "mbedtls/aes.h"
#include "mbedtls/bignum.h"
#include "mbedtls/chachapoly.h"
#include "mbedtls/ecdsa.h"
#include "mbedtls/gcm.h"
#include "mbedtls/hmac_drbg.h"
#include "mbedtls/pkcs5.h"
#include "mbedtls/poly1305.h"
#include "mbedtls/rsa.h"
#include "mbedtls/sha1.h"
#include "mbedtls/sha256.h"
#include "mbedtls/sha512.h"
#include "port.h"

enum { COUNT = 40000 };
static unsigned char in[COUNT], out[COUNT], tag[16], hash[64];
/* clang-format off */
static const struct {
    const char *name;
    int (*test)(int verbose);
} TESTS[] = {
    {"aes", mbedtls_aes_self_test}, {"gcm", mbedtls_gcm_self_test}, {"sha1", mbedtls_sha1_self_test},
    {"sha256", mbedtls_sha256_self_test}, {"sha512", mbedtls_sha512_self_test}, {"chachapoly", mbedtls_chachapoly_self_test},
    {"poly1305", mbedtls_poly1305_self_test}, {"mpi", mbedtls_mpi_self_test}, {"ecp", mbedtls_ecp_self_test},
    {"rsa", mbedtls_rsa_self_test}, {"hmac_drbg", mbedtls_hmac_drbg_self_test},
};
/* clang-format on */

static unsigned ciphers(unsigned sum) {
    mbedtls_gcm_context gcm;
    mbedtls_chachapoly_context chacha;
    mbedtls_gcm_init(&gcm);
    mbedtls_chachapoly_init(&chacha);
    mbedtls_gcm_setkey(&gcm, MBEDTLS_CIPHER_ID_AES, in, 256);
    mbedtls_gcm_crypt_and_tag(&gcm, MBEDTLS_GCM_ENCRYPT, COUNT, in + 9, 12, in, 20, in, out, 16, tag);
    sum = sum_of(sum_of(sum, out, COUNT), tag, 16);
    mbedtls_chachapoly_setkey(&chacha, in);
    mbedtls_chachapoly_encrypt_and_tag(&chacha, COUNT, in + 9, in, 20, in, out, tag);
    mbedtls_gcm_free(&gcm);
    mbedtls_chachapoly_free(&chacha);
    return sum_of(sum_of(sum, out, COUNT), tag, 16);
}

static unsigned hashes(unsigned sum) {
    mbedtls_md_context_t md;
    mbedtls_md_init(&md);
    mbedtls_md_setup(&md, mbedtls_md_info_from_type(MBEDTLS_MD_SHA256), 1);
    mbedtls_pkcs5_pbkdf2_hmac(&md, in, 10, in + 10, 8, 500, 32, hash);
    mbedtls_md_free(&md);
    sum = sum_of(sum, hash, 32);
    mbedtls_sha512_ret(in, COUNT, hash, 0);
    return sum_of(sum, hash, 64);
}

/* A key that is drawn from what a generator makes of no randomness at all signs the hash. */
static unsigned signs(unsigned sum) {
    mbedtls_hmac_drbg_context random;
    mbedtls_ecdsa_context key;
    size_t length = 0;
    mbedtls_hmac_drbg_init(&random);
    mbedtls_ecdsa_init(&key);
    mbedtls_hmac_drbg_seed_buf(&random, mbedtls_md_info_from_type(MBEDTLS_MD_SHA256), in, 32);
    int status = mbedtls_ecdsa_genkey(&key, MBEDTLS_ECP_DP_SECP256R1, mbedtls_hmac_drbg_random, &random);
    status |= mbedtls_ecdsa_write_signature(&key, MBEDTLS_MD_SHA256, hash, 32, out, &length, mbedtls_hmac_drbg_random, &random);
    status |= mbedtls_ecdsa_read_signature(&key, hash, 32, out, length);
    sum = sum_of(sum_of(sum, out, length), &status, sizeof status);
    hash[5] ^= 1;
    status = mbedtls_ecdsa_read_signature(&key, hash, 32, out, length);
    mbedtls_ecdsa_free(&key);
    mbedtls_hmac_drbg_free(&random);
    return sum_of(sum, &status, sizeof status);
}

int main(int argc, char **argv) {
    unsigned sum = 0;
    fill((char *)in, COUNT);
    for (unsigned k = 0; k < sizeof TESTS / sizeof *TESTS; k++) printf("%s %d ", TESTS[k].name, TESTS[k].test(0));
    for (int k = rounds_of(argc, argv); k > 0; k--) sum = signs(hashes(ciphers(sum)));
    printf("%08x\n", sum);
    return 0;
}
