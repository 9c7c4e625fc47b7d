/* ZUC: key and IV of 16 bytes, units of 4. */
#ifndef TEXTBOOK_ZUC_H
#define TEXTBOOK_ZUC_H

#include <stddef.h>
#include <stdint.h>

struct zuc {
    uint32_t a[16];
    uint32_t r1, r2;
    uint8_t unit[4];
    size_t left; /* bytes at the end of unit that are not used yet */
};

void zuc_init(struct zuc *s, const uint8_t *key, size_t key_len, const uint8_t *iv);
void zuc_crypt(struct zuc *s, const uint8_t *in, uint8_t *out, size_t n);

#endif
