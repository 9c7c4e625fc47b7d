/* SNOW 2.0: key of 16 or 32 bytes, IV of 16, units of 4. */
#ifndef TEXTBOOK_SNOW2_H
#define TEXTBOOK_SNOW2_H

#include <stddef.h>
#include <stdint.h>

struct snow2 {
    uint32_t s[16];
    uint32_t r1, r2;
    uint8_t unit[4];
    size_t left; /* bytes at the end of unit that are not used yet */
};

void snow2_init(struct snow2 *s, const uint8_t *key, size_t key_len, const uint8_t *iv);
void snow2_crypt(struct snow2 *s, const uint8_t *in, uint8_t *out, size_t n);

#endif
