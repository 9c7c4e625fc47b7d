/* Rabbit: key of 16 bytes, IV of 8, units of 16. */
#ifndef TEXTBOOK_RABBIT_H
#define TEXTBOOK_RABBIT_H

#include <stddef.h>
#include <stdint.h>

struct rabbit {
    uint32_t x[8];
    uint32_t c[8];
    uint32_t carry;
    uint8_t unit[16];
    size_t left; /* bytes at the end of unit that are not used yet */
};

void rabbit_init(struct rabbit *s, const uint8_t *key, size_t key_len, const uint8_t *iv);
void rabbit_crypt(struct rabbit *s, const uint8_t *in, uint8_t *out, size_t n);

#endif
