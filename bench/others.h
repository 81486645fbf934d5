#include <stddef.h>
#include <stdint.h>

/* OpenSSL's ciphers with keys and blocks of 128 bits; all answer 0 if OpenSSL was not there when this was built */
enum other { CAMELLIA, ARIA };
enum other_kind { OTHER_CBC_SEAL, OTHER_CBC_OPEN, OTHER_CTR };

/* OpenSSL's version, or NULL */
const char *others_version(void);
/* 1 if it was done */
int other_run(enum other cipher, enum other_kind kind, const uint8_t key[16], const uint8_t start[16], const uint8_t *src, uint8_t *dst, size_t length);
