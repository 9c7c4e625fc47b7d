/* KCipher-2: key and IV of 16 bytes, units of 8. */
#ifndef TEXTBOOK_KCIPHER2_H
#define TEXTBOOK_KCIPHER2_H

#include <stddef.h>
#include <stdint.h>

struct kcipher2 {
    uint32_t a[5];
    uint32_t b[11];
    uint32_t r1, l1, r2, l2;
    uint8_t unit[8];
    size_t left; /* bytes at the end of unit that are not used yet */
};

void kcipher2_init(struct kcipher2 *s, const uint8_t *key, size_t key_len, const uint8_t *iv);
void kcipher2_crypt(struct kcipher2 *s, const uint8_t *in, uint8_t *out, size_t n);

#endif
