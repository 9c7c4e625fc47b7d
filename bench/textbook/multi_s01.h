/* MULTI-S01 of ISO/IEC 18033-4, 6.2.3, with blocks of 64 bits, over a textbook cipher. */
#ifndef TEXTBOOK_MULTI_S01_H
#define TEXTBOOK_MULTI_S01_H

#include "textbook.h"

/* What sealing adds to a message. */
enum { MULTI_S01_ADDED = 16 };

/* Seals n bytes, a multiple of 8, with a cipher whose state is that of key and IV; out takes
   MULTI_S01_ADDED bytes more. */
void multi_s01_seal(const struct textbook *cipher, union textbook_state *s,
                    const uint8_t redundancy[8], const uint8_t *message, uint8_t *out, size_t n);

/* Opens n bytes, a multiple of 8 and at least MULTI_S01_ADDED; out takes n bytes, of which the
   last MULTI_S01_ADDED are no message. Returns whether padding and redundancy are right. */
int multi_s01_open(const struct textbook *cipher, union textbook_state *s,
                   const uint8_t redundancy[8], const uint8_t *sealed, uint8_t *out, size_t n);

#endif
