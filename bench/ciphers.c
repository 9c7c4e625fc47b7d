/* The five ciphers, and how a measurement that went wrong ends. */
#include "side.h"
#include "textbook/textbook.h"

#include <stdio.h>
#include <stdlib.h>

#define KEY 0x0f, 0x1e, 0x2d, 0x3c, 0x4b, 0x5a, 0x69, 0x78, \
            0x87, 0x96, 0xa5, 0xb4, 0xc3, 0xd2, 0xe1, 0xf0
#define IV8 0xf6, 0xb2, 0x9a, 0x58, 0x45, 0xcc, 0xcd, 0x8c
#define IV16 IV8, 0x62, 0x29, 0x39, 0x3a, 0x7a, 0x48, 0x42, 0xc1

const struct cipher CIPHER[CIPHERS] = {
    {"zuc", 1, 16, &TEXTBOOK_ZUC, {KEY}, {IV16}},
    {"rabbit", 2, 16, &TEXTBOOK_RABBIT, {KEY}, {IV8}},
    {"snow2", 3, 16, &TEXTBOOK_SNOW2, {KEY}, {IV16}},
    {"kcipher2", 5, 16, &TEXTBOOK_KCIPHER2, {KEY}, {IV16}},
    {"mugi", 6, 16, &TEXTBOOK_MUGI, {KEY}, {IV16}},
};

void fail(const char *what)
{
    fprintf(stderr, "bench: %s\n", what);
    exit(1);
}
