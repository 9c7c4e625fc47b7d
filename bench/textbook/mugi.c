/* MUGI as in ISO/IEC 18033-4, 8.1, with tables for the substitution and the matrix M. */
#include "mugi.h"

#include "mugi_tables.h"
#include "words.h"

static const uint64_t D0 = 0x6a09e667f3bcc908;
static const uint64_t D1 = 0xbb67ae8584caa73b;
static const uint64_t D2 = 0x3c6ef372fe94f82b;

/* M of the substituted bytes. */
static inline uint32_t sub_m(uint32_t x)
{
    return M0[x >> 24] ^ M1[(x >> 16) & 0xff] ^ M2[(x >> 8) & 0xff] ^ M3[x & 0xff];
}

/* F of x with the parameter already added: both halves by tables, then the first two bytes
   of one half and of the other exchanged. */
static inline uint64_t f(uint64_t x)
{
    uint32_t q = sub_m((uint32_t)(x >> 32));
    uint32_t r = sub_m((uint32_t)x);
    return (uint64_t)((r & 0xffff0000) | (q & 0xffff)) << 32
        | (q & 0xffff0000) | (r & 0xffff);
}

static void rho(struct mugi *s, uint64_t w1, uint64_t w2)
{
    uint64_t a0 = s->a[0], a1 = s->a[1];
    s->a[0] = a1;
    s->a[1] = s->a[2] ^ f(a1 ^ w1) ^ D1;
    s->a[2] = a0 ^ f(a1 ^ rotl64(w2, 17)) ^ D2;
}

static void lambda(struct mugi *s, uint64_t a0)
{
    uint64_t b0 = s->b[15] ^ a0;
    uint64_t b4 = s->b[3] ^ s->b[7];
    uint64_t b10 = s->b[9] ^ rotl64(s->b[13], 32);
    for (int j = 15; j > 0; j--)
        s->b[j] = s->b[j - 1];
    s->b[0] = b0;
    s->b[4] = b4;
    s->b[10] = b10;
}

static void step(struct mugi *s)
{
    uint64_t a0 = s->a[0];
    rho(s, s->b[4], s->b[10]);
    lambda(s, a0);
}

void mugi_init(struct mugi *s, const uint8_t *key, size_t key_len, const uint8_t *iv)
{
    uint64_t k0 = load_be64(key), k1 = load_be64(key + 8);
    uint64_t iv0 = load_be64(iv), iv1 = load_be64(iv + 8);
    (void)key_len;
    s->a[0] = k0;
    s->a[1] = k1;
    s->a[2] = rotl64(k0, 7) ^ rotl64(k1, 57) ^ D0;
    for (int j = 15; j >= 0; j--) {
        rho(s, 0, 0);
        s->b[j] = s->a[0];
    }
    s->a[0] ^= iv0;
    s->a[1] ^= iv1;
    s->a[2] ^= rotl64(iv0, 7) ^ rotl64(iv1, 57) ^ D0;
    for (int i = 0; i < 16; i++)
        rho(s, 0, 0);
    for (int i = 0; i < 16; i++)
        step(s);
    s->left = 0;
}

/* The next unit of keystream. */
static uint64_t next_unit(struct mugi *s)
{
    uint64_t z = s->a[2];
    step(s);
    return z;
}

void mugi_crypt(struct mugi *s, const uint8_t *in, uint8_t *out, size_t n)
{
    for (; n > 0 && s->left > 0; n--)
        *out++ = *in++ ^ s->unit[8 - s->left--];
    for (; n >= 8; n -= 8, in += 8, out += 8)
        store_be64(out, load_be64(in) ^ next_unit(s));
    if (n > 0) {
        store_be64(s->unit, next_unit(s));
        for (s->left = 8; n > 0; n--)
            *out++ = *in++ ^ s->unit[8 - s->left--];
    }
}
