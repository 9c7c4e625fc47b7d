/* The card as a side: its lines, opened with their own key, through pipeshear_call. */
#include "pipeshear.h"
#include "side.h"

#include <string.h>

static uint32_t own[PIPESHEAR_CARD];
static const uint8_t none[1];
static uint8_t nowhere[1];

/* A call that must be accepted and write n bytes. */
static void call(uint32_t *card, const uint8_t *command, size_t len, const uint8_t *in,
                 uint8_t *out, size_t n)
{
    size_t counts[3];
    uint8_t code = pipeshear_call(card, PIPESHEAR_CARD, command, len, none, 0, in, n, out, n,
                                  counts, 3);
    if (code != 0 || counts[0] != len || counts[1] != n || counts[2] != n)
        fail("a call was not accepted");
}

void open_on(uint32_t *card, int line, const struct cipher *cipher)
{
    uint8_t command[51] = {0x02, (uint8_t)line, cipher->number};
    memcpy(command + 3, cipher->key, 32);
    memcpy(command + 35, cipher->iv, 16);
    call(card, command, sizeof command, none, nowhere, 0);
}

void crypt_on(uint32_t *card, int line, const uint8_t *in, uint8_t *out, size_t n)
{
    uint8_t command[4] = {0x03, (uint8_t)line, (uint8_t)(n >> 8), (uint8_t)n};
    call(card, command, sizeof command, in, out, n);
}

static void card_open(int line, const struct cipher *cipher)
{
    open_on(own, line, cipher);
}

static void card_crypt(int line, const uint8_t *in, uint8_t *out, size_t n)
{
    crypt_on(own, line, in, out, n);
}

static void card_close(int line)
{
    uint8_t command[2] = {0x06, (uint8_t)line};
    call(own, command, sizeof command, none, nowhere, 0);
}

const struct side CARD = {"card", card_open, card_crypt, card_close};
