/* Counts the calls of memcpy and memset that a crypt makes, with all lines open: none for
   frames and bulk of any cipher. Linked so that the library's calls of them come here. */
#include "pipeshear.h"
#include "side.h"

#include <stdio.h>

static unsigned long called;

void *__real_memcpy(void *to, const void *from, size_t n);
void *__real_memset(void *to, int byte, size_t n);
void *__wrap_memcpy(void *to, const void *from, size_t n);
void *__wrap_memset(void *to, int byte, size_t n);

void *__wrap_memcpy(void *to, const void *from, size_t n)
{
    called++;
    return __real_memcpy(to, from, n);
}

void *__wrap_memset(void *to, int byte, size_t n)
{
    called++;
    return __real_memset(to, byte, n);
}

/* How many of so many crypts of n bytes, which go round the lines, called one of the two. */
static int callers(uint32_t *card, int crypts, size_t n)
{
    static const uint8_t data[65535];
    static uint8_t out[65535];
    int callers = 0;
    for (int i = 0; i < crypts; i++) {
        called = 0;
        crypt_on(card, i % LINES, data, out, n);
        callers += called != 0;
    }
    return callers;
}

int main(void)
{
    static uint32_t card[CIPHERS][PIPESHEAR_CARD];
    int found = 0;
    for (int i = 0; i < CIPHERS; i++) {
        for (int line = 0; line < LINES; line++)
            open_on(card[i], line, &CIPHER[i]);
        /* Frames and bulk from the start of a unit, then frames from within one. */
        found += callers(card[i], 1000, FRAME) + callers(card[i], LINES, 65520);
        found += callers(card[i], LINES, 65535) + callers(card[i], 1000, FRAME);
    }
    if (found != 0)
        fail("memcpy or memset is called on the way of a frame");
    printf("copies: no frame of any cipher calls memcpy or memset\n");
    return 0;
}
