// Rabbit of Crypto++ as a side.
#include "side.h"

#include <cryptopp/rabbit.h>

static CryptoPP::RabbitWithIV::Encryption rabbit[LINES];

static void rabbit_open(int line, const struct cipher *cipher)
{
    rabbit[line].SetKeyWithIV(cipher->key, 16, cipher->iv, 8);
}

static void rabbit_crypt(int line, const uint8_t *in, uint8_t *out, size_t n)
{
    rabbit[line].ProcessData(out, in, n);
}

static void rabbit_close(int)
{
}

const struct side CRYPTOPP = {"Crypto++", rabbit_open, rabbit_crypt, rabbit_close};
