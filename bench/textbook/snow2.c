/* SNOW 2.0 as in ISO/IEC 18033-4, 8.2, with tables for T and for the products with alpha
   and its inverse. */
#include "snow2.h"

#include "aes_column.h"
#include "snow2_tables.h"
#include "words.h"

static uint32_t times_alpha(uint32_t w)
{
    return (w << 8) ^ ALPHA_MUL[w >> 24];
}

static uint32_t times_alpha_inv(uint32_t w)
{
    return (w >> 8) ^ ALPHA_INV_MUL[w & 0xff];
}

static uint32_t fsm(const struct snow2 *s)
{
    return (s->s[15] + s->r1) ^ s->r2;
}

/* One step; f is added to the feedback. */
static void step(struct snow2 *s, uint32_t f)
{
    uint32_t v = times_alpha(s->s[0]) ^ s->s[2] ^ times_alpha_inv(s->s[11]) ^ f;
    uint32_t r1 = s->r2 + s->s[5];
    s->r2 = aes_column(s->r1);
    s->r1 = r1;
    for (int i = 0; i < 15; i++)
        s->s[i] = s->s[i + 1];
    s->s[15] = v;
}

/* The next word of keystream. */
static uint32_t next_word(struct snow2 *s)
{
    uint32_t z = fsm(s) ^ s->s[0];
    step(s, 0);
    return z;
}

void snow2_init(struct snow2 *s, const uint8_t *key, size_t key_len, const uint8_t *iv)
{
    if (key_len == 16) {
        for (int j = 0; j < 4; j++) {
            uint32_t k = load_be32(key + 4 * j);
            s->s[15 - j] = s->s[7 - j] = k;
            s->s[11 - j] = s->s[3 - j] = ~k;
        }
    } else {
        for (int j = 0; j < 8; j++) {
            uint32_t k = load_be32(key + 4 * j);
            s->s[15 - j] = k;
            s->s[7 - j] = ~k;
        }
    }
    s->s[9] ^= load_be32(iv);
    s->s[10] ^= load_be32(iv + 4);
    s->s[12] ^= load_be32(iv + 8);
    s->s[15] ^= load_be32(iv + 12);
    s->r1 = 0;
    s->r2 = 0;
    s->left = 0;
    for (int i = 0; i < 32; i++)
        step(s, fsm(s));
    step(s, 0);
}

void snow2_crypt(struct snow2 *s, const uint8_t *in, uint8_t *out, size_t n)
{
    for (; n > 0 && s->left > 0; n--)
        *out++ = *in++ ^ s->unit[4 - s->left--];
    for (; n >= 4; n -= 4, in += 4, out += 4)
        store_be32(out, load_be32(in) ^ next_word(s));
    if (n > 0) {
        store_be32(s->unit, next_word(s));
        for (s->left = 4; n > 0; n--)
            *out++ = *in++ ^ s->unit[4 - s->left--];
    }
}
