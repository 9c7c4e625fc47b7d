/* Plain C implementations of five stream ciphers, written as their papers describe them.
   NAME_init makes the state of a key and an IV; NAME_crypt XORs n bytes with the keystream
   from the current position on, so that a text may be split anywhere. */
#ifndef TEXTBOOK_H
#define TEXTBOOK_H

#include "kcipher2.h"
#include "mugi.h"
#include "rabbit.h"
#include "snow2.h"
#include "zuc.h"

union textbook_state {
    struct zuc zuc;
    struct rabbit rabbit;
    struct snow2 snow2;
    struct kcipher2 kcipher2;
    struct mugi mugi;
};

/* A cipher with its two functions, for callers that choose one as they run. */
struct textbook {
    const char *name;
    void (*init)(union textbook_state *, const uint8_t *key, size_t key_len, const uint8_t *iv);
    void (*crypt)(union textbook_state *, const uint8_t *in, uint8_t *out, size_t n);
};

extern const struct textbook TEXTBOOK_ZUC, TEXTBOOK_RABBIT, TEXTBOOK_SNOW2, TEXTBOOK_KCIPHER2,
    TEXTBOOK_MUGI;

#endif
