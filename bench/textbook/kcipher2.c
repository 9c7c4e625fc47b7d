/* KCipher-2 as in ISO/IEC 18033-4, 8.5, with tables for Sub and for the four products. */
#include "kcipher2.h"

#include "aes_column.h"
#include "kcipher2_tables.h"
#include "words.h"

static uint32_t times(const uint32_t *alpha_mul, uint32_t w)
{
    return (w << 8) ^ alpha_mul[w >> 24];
}

static uint32_t nlf(uint32_t a, uint32_t b, uint32_t c, uint32_t d)
{
    return (a + b) ^ c ^ d;
}

static uint32_t output_high(const struct kcipher2 *s)
{
    return nlf(s->b[10], s->l2, s->l1, s->a[0]);
}

static uint32_t output_low(const struct kcipher2 *s)
{
    return nlf(s->b[0], s->r2, s->r1, s->a[4]);
}

/* One step; fa and fb are added to the feedbacks of A and B. Bits 30 and 31 of A2 choose
   the factors of B0 and B8. */
static void step(struct kcipher2 *s, uint32_t fa, uint32_t fb)
{
    uint32_t va = times(ALPHA_MUL0, s->a[0]) ^ s->a[3] ^ fa;
    uint32_t vb = s->b[1] ^ s->b[6] ^ fb;
    if (s->a[2] & 0x40000000)
        vb ^= times(ALPHA_MUL1, s->b[0]);
    else
        vb ^= times(ALPHA_MUL2, s->b[0]);
    if (s->a[2] & 0x80000000)
        vb ^= times(ALPHA_MUL3, s->b[8]);
    else
        vb ^= s->b[8];

    uint32_t r1 = aes_column(s->l2 + s->b[9]);
    uint32_t l1 = aes_column(s->r2 + s->b[4]);
    s->r2 = aes_column(s->r1);
    s->l2 = aes_column(s->l1);
    s->r1 = r1;
    s->l1 = l1;

    for (int i = 0; i < 4; i++)
        s->a[i] = s->a[i + 1];
    s->a[4] = va;
    for (int i = 0; i < 10; i++)
        s->b[i] = s->b[i + 1];
    s->b[10] = vb;
}

/* The key's twelve words. */
static void expand_key(uint32_t ik[12], const uint8_t *key)
{
    for (int m = 0; m < 4; m++)
        ik[m] = load_be32(key + 4 * m);
    for (int m = 4; m < 12; m++) {
        uint32_t t = ik[m - 1];
        if (m == 4)
            t = aes_column(rotl32(t, 8)) ^ 0x01000000;
        if (m == 8)
            t = aes_column(rotl32(t, 8)) ^ 0x02000000;
        ik[m] = ik[m - 4] ^ t;
    }
}

void kcipher2_init(struct kcipher2 *s, const uint8_t *key, size_t key_len, const uint8_t *iv)
{
    uint32_t ik[12];
    (void)key_len;
    expand_key(ik, key);
    for (int m = 0; m < 5; m++)
        s->a[m] = ik[4 - m];
    s->b[0] = ik[10];
    s->b[1] = ik[11];
    s->b[2] = load_be32(iv);
    s->b[3] = load_be32(iv + 4);
    s->b[4] = ik[8];
    s->b[5] = ik[9];
    s->b[6] = load_be32(iv + 8);
    s->b[7] = load_be32(iv + 12);
    s->b[8] = ik[7];
    s->b[9] = ik[5];
    s->b[10] = ik[6];
    s->r1 = s->l1 = s->r2 = s->l2 = 0;
    s->left = 0;
    for (int i = 0; i < 24; i++)
        step(s, output_low(s), output_high(s));
}

/* XORs the next unit of keystream. */
static void crypt_unit(struct kcipher2 *s, const uint8_t *in, uint8_t *out)
{
    store_be32(out, load_be32(in) ^ output_high(s));
    store_be32(out + 4, load_be32(in + 4) ^ output_low(s));
    step(s, 0, 0);
}

void kcipher2_crypt(struct kcipher2 *s, const uint8_t *in, uint8_t *out, size_t n)
{
    for (; n > 0 && s->left > 0; n--)
        *out++ = *in++ ^ s->unit[8 - s->left--];
    for (; n >= 8; n -= 8, in += 8, out += 8)
        crypt_unit(s, in, out);
    if (n > 0) {
        static const uint8_t zeros[8];
        crypt_unit(s, zeros, s->unit);
        for (s->left = 8; n > 0; n--)
            *out++ = *in++ ^ s->unit[8 - s->left--];
    }
}
