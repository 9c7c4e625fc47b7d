/* ZUC as in ISO/IEC 18033-4, 8.6, with the sums modulo 2^31 - 1 of its reference code. */
#include "zuc.h"

#include "words.h"
#include "zuc_tables.h"

static const uint16_t D[16] = {
    0x44d7, 0x26bc, 0x626b, 0x135e, 0x5789, 0x35e2, 0x7135, 0x09af,
    0x4d78, 0x2f13, 0x6bc4, 0x1af1, 0x5e26, 0x3c4d, 0x789a, 0x47ac
};

/* The sum modulo 2^31 - 1; it is 0 only where both are, and no cell is. */
static uint32_t add31(uint32_t a, uint32_t b)
{
    uint32_t c = a + b;
    return (c & 0x7fffffff) + (c >> 31);
}

static uint32_t rotl31(uint32_t a, int k)
{
    return ((a << k) | (a >> (31 - k))) & 0x7fffffff;
}

/* The leftmost 16 bits of a cell, then the rightmost 16 of another. */
static uint32_t high_low(uint32_t a, uint32_t b)
{
    return ((a & 0x7fff8000) << 1) | (b & 0xffff);
}

static uint32_t low_high(uint32_t a, uint32_t b)
{
    return ((a & 0xffff) << 16) | (b >> 15);
}

static uint32_t l1(uint32_t x)
{
    return x ^ rotl32(x, 2) ^ rotl32(x, 10) ^ rotl32(x, 18) ^ rotl32(x, 24);
}

static uint32_t l2(uint32_t x)
{
    return x ^ rotl32(x, 8) ^ rotl32(x, 14) ^ rotl32(x, 22) ^ rotl32(x, 30);
}

static uint32_t ss(uint32_t x)
{
    return (uint32_t)SUB1[x >> 24] << 24 | (uint32_t)SUB2[(x >> 16) & 0xff] << 16
        | (uint32_t)SUB1[(x >> 8) & 0xff] << 8 | SUB2[x & 0xff];
}

/* Steps the nonlinear function and gives its W of the state before. */
static uint32_t step_f(struct zuc *s)
{
    uint32_t x0 = high_low(s->a[15], s->a[14]);
    uint32_t x1 = low_high(s->a[11], s->a[9]);
    uint32_t x2 = low_high(s->a[7], s->a[5]);
    uint32_t w = (x0 ^ s->r1) + s->r2;
    uint32_t w1 = s->r1 + x1;
    uint32_t w2 = s->r2 ^ x2;
    s->r1 = ss(l1((w1 << 16) | (w2 >> 16)));
    s->r2 = ss(l2((w2 << 16) | (w1 >> 16)));
    return w;
}

/* Steps the register; u is added to the feedback. */
static void step_register(struct zuc *s, uint32_t u)
{
    uint32_t v = s->a[0];
    v = add31(v, rotl31(s->a[0], 8));
    v = add31(v, rotl31(s->a[4], 20));
    v = add31(v, rotl31(s->a[10], 21));
    v = add31(v, rotl31(s->a[13], 17));
    v = add31(v, rotl31(s->a[15], 15));
    v = add31(v, u);
    for (int i = 0; i < 15; i++)
        s->a[i] = s->a[i + 1];
    s->a[15] = v;
}

/* The next word of keystream. */
static uint32_t next_word(struct zuc *s)
{
    uint32_t x3 = low_high(s->a[2], s->a[0]);
    uint32_t z = step_f(s) ^ x3;
    step_register(s, 0);
    return z;
}

void zuc_init(struct zuc *s, const uint8_t *key, size_t key_len, const uint8_t *iv)
{
    (void)key_len;
    for (int i = 0; i < 16; i++)
        s->a[i] = (uint32_t)key[i] << 23 | (uint32_t)D[i] << 8 | iv[i];
    s->r1 = 0;
    s->r2 = 0;
    s->left = 0;
    for (int i = 0; i < 32; i++)
        step_register(s, step_f(s) >> 1);
    next_word(s);
}

void zuc_crypt(struct zuc *s, const uint8_t *in, uint8_t *out, size_t n)
{
    for (; n > 0 && s->left > 0; n--)
        *out++ = *in++ ^ s->unit[4 - s->left--];
    for (; n >= 4; n -= 4, in += 4, out += 4)
        store_be32(out, load_be32(in) ^ next_word(s));
    if (n > 0) {
        store_be32(s->unit, next_word(s));
        for (s->left = 4; n > 0; n--)
            *out++ = *in++ ^ s->unit[4 - s->left--];
    }
}
