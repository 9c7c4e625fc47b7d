/* MUGI: key and IV of 16 bytes, units of 8. */
#ifndef TEXTBOOK_MUGI_H
#define TEXTBOOK_MUGI_H

#include <stddef.h>
#include <stdint.h>

struct mugi {
    uint64_t a[3];
    uint64_t b[16];
    uint8_t unit[8];
    size_t left; /* bytes at the end of unit that are not used yet */
};

void mugi_init(struct mugi *s, const uint8_t *key, size_t key_len, const uint8_t *iv);
void mugi_crypt(struct mugi *s, const uint8_t *in, uint8_t *out, size_t n);

#endif
