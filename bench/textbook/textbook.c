/* The five ciphers with one type for their functions. */
#include "textbook.h"

static void init_zuc(union textbook_state *s, const uint8_t *key, size_t key_len,
                     const uint8_t *iv)
{
    zuc_init(&s->zuc, key, key_len, iv);
}

static void init_rabbit(union textbook_state *s, const uint8_t *key, size_t key_len,
                        const uint8_t *iv)
{
    rabbit_init(&s->rabbit, key, key_len, iv);
}

static void init_snow2(union textbook_state *s, const uint8_t *key, size_t key_len,
                       const uint8_t *iv)
{
    snow2_init(&s->snow2, key, key_len, iv);
}

static void init_kcipher2(union textbook_state *s, const uint8_t *key, size_t key_len,
                          const uint8_t *iv)
{
    kcipher2_init(&s->kcipher2, key, key_len, iv);
}

static void init_mugi(union textbook_state *s, const uint8_t *key, size_t key_len,
                      const uint8_t *iv)
{
    mugi_init(&s->mugi, key, key_len, iv);
}

static void crypt_zuc(union textbook_state *s, const uint8_t *in, uint8_t *out, size_t n)
{
    zuc_crypt(&s->zuc, in, out, n);
}

static void crypt_rabbit(union textbook_state *s, const uint8_t *in, uint8_t *out, size_t n)
{
    rabbit_crypt(&s->rabbit, in, out, n);
}

static void crypt_snow2(union textbook_state *s, const uint8_t *in, uint8_t *out, size_t n)
{
    snow2_crypt(&s->snow2, in, out, n);
}

static void crypt_kcipher2(union textbook_state *s, const uint8_t *in, uint8_t *out, size_t n)
{
    kcipher2_crypt(&s->kcipher2, in, out, n);
}

static void crypt_mugi(union textbook_state *s, const uint8_t *in, uint8_t *out, size_t n)
{
    mugi_crypt(&s->mugi, in, out, n);
}

const struct textbook TEXTBOOK_ZUC = {"zuc", init_zuc, crypt_zuc};
const struct textbook TEXTBOOK_RABBIT = {"rabbit", init_rabbit, crypt_rabbit};
const struct textbook TEXTBOOK_SNOW2 = {"snow2", init_snow2, crypt_snow2};
const struct textbook TEXTBOOK_KCIPHER2 = {"kcipher2", init_kcipher2, crypt_kcipher2};
const struct textbook TEXTBOOK_MUGI = {"mugi", init_mugi, crypt_mugi};
