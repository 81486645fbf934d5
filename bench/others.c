/* OpenSSL's Camellia and ARIA, beside which the proved code is timed; built with OPENSSL defined where it is installed. */
#include "others.h"

#ifdef OPENSSL

#include <openssl/crypto.h>
#include <openssl/evp.h>

const char *others_version(void) { return OpenSSL_version(OPENSSL_VERSION); }

int other_run(enum other cipher, enum other_kind kind, const uint8_t key[16], const uint8_t start[16], const uint8_t *src, uint8_t *dst, size_t length) {
    const EVP_CIPHER *c = cipher == CAMELLIA ? (kind == OTHER_CTR ? EVP_camellia_128_ctr() : EVP_camellia_128_cbc())
                                             : (kind == OTHER_CTR ? EVP_aria_128_ctr() : EVP_aria_128_cbc());
    EVP_CIPHER_CTX *context = EVP_CIPHER_CTX_new();
    int made = 0, done = context && EVP_CipherInit_ex(context, c, NULL, key, start, kind != OTHER_CBC_OPEN) && EVP_CIPHER_CTX_set_padding(context, 0)
        && EVP_CipherUpdate(context, dst, &made, src, (int)length) && (size_t)made == length;
    EVP_CIPHER_CTX_free(context);
    return done;
}

#else

const char *others_version(void) { return NULL; }

int other_run(enum other cipher, enum other_kind kind, const uint8_t key[16], const uint8_t start[16], const uint8_t *src, uint8_t *dst, size_t length) {
    (void)cipher, (void)kind, (void)key, (void)start, (void)src, (void)dst, (void)length;
    return 0;
}

#endif
