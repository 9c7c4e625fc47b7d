/* MULTI-S01, its products taken bit by bit. */
#include "multi_s01.h"
#include "words.h"

/* The product in GF(2^64) over x^64 + x^4 + x^3 + x + 1, the top bit being x^63. */
static uint64_t product(uint64_t a, uint64_t b)
{
    uint64_t sum = 0;
    for (int i = 0; i < 64; i++) {
        if (b & 1)
            sum ^= a;
        b >>= 1;
        a = a << 1 ^ (a >> 63 ? 0x1b : 0);
    }
    return sum;
}

/* 1/a, which is a^2 a^4 .. a^(2^63). */
static uint64_t inverse(uint64_t a)
{
    uint64_t power = 1;
    for (int i = 0; i < 63; i++) {
        a = product(a, a);
        power = product(power, a);
    }
    return power;
}

/* The next block of the keystream. */
static uint64_t next_block(const struct textbook *cipher, union textbook_state *s)
{
    static const uint8_t zeros[8];
    uint8_t z[8];
    cipher->crypt(s, zeros, z, 8);
    return load_be64(z);
}

/* Z_t, the first block that is not 0. */
static uint64_t multiplier(const struct textbook *cipher, union textbook_state *s)
{
    uint64_t z = next_block(cipher, s);
    while (z == 0)
        z = next_block(cipher, s);
    return z;
}

void multi_s01_seal(const struct textbook *cipher, union textbook_state *s,
                    const uint8_t redundancy[8], const uint8_t *message, uint8_t *out, size_t n)
{
    uint64_t a = multiplier(cipher, s), before = 0;
    cipher->crypt(s, message, out, n);
    uint64_t z0 = next_block(cipher, s), z1 = next_block(cipher, s), z2 = next_block(cipher, s);
    store_be64(out + n, z2 ^ z0);
    store_be64(out + n + 8, load_be64(redundancy) ^ z1);
    for (size_t i = 0; i < n + MULTI_S01_ADDED; i += 8) {
        uint64_t w = load_be64(out + i);
        store_be64(out + i, product(a, w) ^ before);
        before = w;
    }
}

int multi_s01_open(const struct textbook *cipher, union textbook_state *s,
                   const uint8_t redundancy[8], const uint8_t *sealed, uint8_t *out, size_t n)
{
    uint64_t a = inverse(multiplier(cipher, s)), w = 0;
    for (size_t i = 0; i < n; i += 8) {
        w = product(a, load_be64(sealed + i) ^ w);
        store_be64(out + i, w);
    }
    cipher->crypt(s, out, out, n);
    return load_be64(out + n - 16) == next_block(cipher, s) &&
           load_be64(out + n - 8) == load_be64(redundancy);
}
