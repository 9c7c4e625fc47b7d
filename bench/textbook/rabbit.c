/* Rabbit as in ISO/IEC 18033-4, 8.3: key, IV and keystream are little-endian, and a unit is
   read after the step. */
#include "rabbit.h"

#include "words.h"

static const uint32_t A[8] = {
    0x4d34d34d, 0xd34d34d3, 0x34d34d34, 0x4d34d34d,
    0xd34d34d3, 0x34d34d34, 0x4d34d34d, 0xd34d34d3
};

/* The square of the sum, its two halves XORed. */
static uint32_t g(uint32_t u, uint32_t v)
{
    uint64_t sum = (uint32_t)(u + v);
    uint64_t square = sum * sum;
    return (uint32_t)square ^ (uint32_t)(square >> 32);
}

static void step(struct rabbit *s)
{
    uint32_t gs[8];
    for (int j = 0; j < 8; j++) {
        uint64_t temp = (uint64_t)s->c[j] + A[j] + s->carry;
        s->c[j] = (uint32_t)temp;
        s->carry = (uint32_t)(temp >> 32);
        gs[j] = g(s->x[j], s->c[j]);
    }
    s->x[0] = gs[0] + rotl32(gs[7], 16) + rotl32(gs[6], 16);
    s->x[1] = gs[1] + rotl32(gs[0], 8) + gs[7];
    s->x[2] = gs[2] + rotl32(gs[1], 16) + rotl32(gs[0], 16);
    s->x[3] = gs[3] + rotl32(gs[2], 8) + gs[1];
    s->x[4] = gs[4] + rotl32(gs[3], 16) + rotl32(gs[2], 16);
    s->x[5] = gs[5] + rotl32(gs[4], 8) + gs[3];
    s->x[6] = gs[6] + rotl32(gs[5], 16) + rotl32(gs[4], 16);
    s->x[7] = gs[7] + rotl32(gs[6], 8) + gs[5];
}

void rabbit_init(struct rabbit *s, const uint8_t *key, size_t key_len, const uint8_t *iv)
{
    uint32_t k[8];
    (void)key_len;
    for (int j = 0; j < 8; j++)
        k[j] = key[2 * j] | (uint32_t)key[2 * j + 1] << 8;
    for (int j = 0; j < 8; j += 2) {
        s->x[j] = k[(j + 1) % 8] << 16 | k[j];
        s->c[j] = k[(j + 4) % 8] << 16 | k[(j + 5) % 8];
        s->x[j + 1] = k[(j + 6) % 8] << 16 | k[(j + 5) % 8];
        s->c[j + 1] = k[j + 1] << 16 | k[(j + 2) % 8];
    }
    s->carry = 0;
    s->left = 0;
    for (int i = 0; i < 4; i++)
        step(s);

    uint32_t iv0 = load_le32(iv);
    uint32_t iv2 = load_le32(iv + 4);
    uint32_t iv1 = (iv2 & 0xffff0000) | (iv0 >> 16);
    uint32_t iv3 = (iv2 << 16) | (iv0 & 0xffff);
    for (int j = 0; j < 8; j += 4) {
        s->c[j] ^= s->x[(j + 4) % 8] ^ iv0;
        s->c[j + 1] ^= s->x[(j + 5) % 8] ^ iv1;
        s->c[j + 2] ^= s->x[(j + 6) % 8] ^ iv2;
        s->c[j + 3] ^= s->x[(j + 7) % 8] ^ iv3;
    }
    for (int i = 0; i < 4; i++)
        step(s);
}

/* XORs the next unit of keystream. */
static void crypt_unit(struct rabbit *s, const uint8_t *in, uint8_t *out)
{
    step(s);
    for (int j = 0; j < 8; j += 2) {
        uint32_t z = s->x[j] ^ (s->x[(j + 5) % 8] >> 16) ^ (s->x[(j + 3) % 8] << 16);
        store_le32(out + 2 * j, load_le32(in + 2 * j) ^ z);
    }
}

void rabbit_crypt(struct rabbit *s, const uint8_t *in, uint8_t *out, size_t n)
{
    for (; n > 0 && s->left > 0; n--)
        *out++ = *in++ ^ s->unit[16 - s->left--];
    for (; n >= 16; n -= 16, in += 16, out += 16)
        crypt_unit(s, in, out);
    if (n > 0) {
        static const uint8_t zeros[16];
        crypt_unit(s, zeros, s->unit);
        for (s->left = 16; n > 0; n--)
            *out++ = *in++ ^ s->unit[16 - s->left--];
    }
}
